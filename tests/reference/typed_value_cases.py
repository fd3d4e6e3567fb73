"""The calls from typed lines to sheets that are about numbers and values, 16, 4 and 17: one function for each kind; those about signs are in typed_cases.py."""

import itertools
import random
from typing import Iterable, Iterator, List

from arithmetic import FIRST_PRIMES, LIMIT
from known_lines import Tree, factors, line_of, some_pattern, some_tree
from sheet_cases import Call

# Numbers at the limits of 1, 2, 4 and 8 bytes, and far above them.
NUMBERS = (0, 1, 2, 7, 31, 32, 33, 48, 49, 99, 255, 256, 257, 999, 32767, 32768, 65534, 65535, 65536, 65537, 65568, 65569, 99999, 100000, 131072, 655350)
NUMBERS += tuple(2**k + step for k in (31, 32, 33, 64, 128) for step in (-1, 0, 1, 2, 3, 5, 32)) + (10**20, 10**77)
PRIMES = (*range(0, 32), 49, 121, 127, 251, 254, 255, 256, 257, 258, 259, 261, 263, 512, 514, 65521, 65533, 65534, 65535, 65536, 65538, 65539, 2**32 + 3)


def lines(texts: Iterable[str]) -> Iterator[Call]:
    """A call for each line."""
    yield from (Call(text.encode("ascii")) for text in texts)


# ---- 16, 4 and the order of the checks


def numbers(source: random.Random) -> Iterator[Call]:
    """Numbers about the limits as a term, a factor, in brackets, as a prime and as an exponent, with zeros before them."""
    for number in NUMBERS:
        for zeros in (0, 20):
            n = "0" * zeros + str(number)
            yield from lines((f"2:x+{n}", f"5:x^2+{n}*x", f"7:({n})^2+x", f"3:x-{n}", f"{n}:x", f"{n} : x + 1"))
            yield from lines((f"3:x^{n}", f"2:x+1^{n}", f"5:x+0^{n}", f"7:(x+1)^{n}"))
    for zeros in (100, 200, 240, 245, 249, 250, 251, 252):
        yield from lines("3:x" + sign + "0" * zeros + last for sign in "^*+-" for last in ("", "1", "2", "65535"))
        yield from lines("0" * zeros + last + ":x" for last in ("", "1", "2", "3", "65536"))


def some_primes(source: random.Random) -> Iterator[Call]:
    """Primes that are taken and other numbers, with values that are taken, not taken, and too large."""
    for prime in PRIMES:
        for rest in ("x", "x+1", "x^32", "2*x", "x^32*x", "x^33", "0", "x+65536", "x+", "x^2-1", "(x+1)^3", "1-x", "x+9", "(x+3)*(x-3)"):
            yield from lines((f"{prime}:{rest}", f"0{prime}: {rest}"))


def orders(source: random.Random) -> Iterator[Call]:
    """Faults of several numbers in one line, each there or not, in every order of the terms: 15 before 16, 16 before 4, 4 before 17."""
    faults = {16: ("65536", "x^33", "0^99999999"), 17: ("x^32*x", "(x^11)^3", "2*x^9"), 0: ("x^5", "1", "(x+2)^3")}
    for prime, tail in itertools.product(("2", "3", "4", "0", "65536", "257"), ("", "+", ")", " ", "^2^2", " +x^", "&")):
        for kinds in itertools.product((16, 17, 0), repeat=2):
            first, second = (source.choice(faults[kind]) for kind in kinds)
            yield from lines((f"{prime}:x^12+{first}-{second}{tail}", f"{prime}:{first}+{second}+x^12{tail}", f"{prime}:x+0*({first}){tail}"))


# ---- 17


def products_of_powers(source: random.Random) -> Iterator[Call]:
    """x^i·x^j for degrees that add to 31 to 34, with factors that make the product vanish or not, and (x^i)^j about 32."""
    for i in range(LIMIT + 1):
        for j in (31 - i, 32 - i, 33 - i, 34 - i):
            if 0 <= j <= LIMIT:
                p = source.choice(FIRST_PRIMES)
                yield from lines((f"{p}:x^{i}*x^{j}", f"{p}:{p}*x^{i}*({p}*x^{j})+x", f"{p}:{p}*x^{i}*{p}*x^{j}+x", f"{p}:0*(x^{i}*x^{j})+x^2"))
    for i, j in itertools.product(range(LIMIT + 1), repeat=2):
        if i * j in range(28, 37) or i in (0, 1) or j < 2 or (i, j) == (LIMIT, LIMIT):
            p = source.choice(FIRST_PRIMES)
            yield from lines((f"{p}:(x^{i})^{j}", f"{p}:({p}*x^{i})^{j}+x", f"{p}:({p * p}*x^{i})^{j}+x^3"))


def factor_texts(source: random.Random, p: int) -> List[str]:
    """Factors of many degrees, some of a lower degree modulo p² than they look, some zero."""
    i, j = source.randrange(1, 20), source.randrange(1, 20)
    a, b = source.randrange(1, p), source.randrange(p * p)
    return [
        f"(x^{i}+{b})", f"({p}*x^{i}+{a})", f"({p * p}*x^{i}+{a})", f"({p * p}*x^{i})", f"(x^{i}-x^{i}+{b}*x)", f"({p}*x^{i})", f"{p}", f"{a}", "x", f"x^{j}",
        f"({p}*x^{i}*x^{j}*{p})", f"({p}*x)^2", "(x-x)", "0", f"(x+{b})^{source.randrange(8)}", f"({p}*x^{j}+x)", f"((x^{i}+1)*(x^{j}+1))",
    ]  # fmt: skip


def degrees(source: random.Random) -> Iterator[Call]:
    """Products and powers of factors whose degrees drop, whose products vanish, or that are zero, a pattern added or not."""
    for _ in range(450):
        p = source.choice(FIRST_PRIMES)
        product = "*".join(source.sample(factor_texts(source, p), source.randrange(1, 4)))
        top, e = source.randrange(1, 33), source.randrange(1, 6)
        yield from lines((f"{p}:{product}", f"{p}:x^{top}+{product}", f"{p}:x+0*({product})^{e}", f"{p}:({product})^2+x^32"))


def not_monic(source: random.Random) -> Iterator[Call]:
    """Values with every leading coefficient, of degrees 0, 1, 2 and 32; values that turn monic only modulo p², or are 0 only then."""
    for p in FIRST_PRIMES:
        for c in range(p * p + 2):
            yield from lines((f"{p}:{c}*x", f"{p}:{c}", f"{p}:{c}*x^32+x", f"{p}:x*{c}+{c}", f"{p}:x+{c}*x^2", f"{p}:0-{c}*x", f"{p}:{c}*x-{c}*x"))
        n = p * p
        yield from lines((f"{p}:{n + 1}*x", f"{p}:{n}*x^2+x", f"{p}:{p}*x*{p}*x+x", f"{p}:{n}*x", f"{p}:x^32-x^32+1", f"{p}:{n - 1}*x*{n - 1}"))


def zeroth_powers(source: random.Random) -> Iterator[Call]:
    """ "The zeroth power is 1": of 0, of what is 0 modulo p², of numbers, of x and of the highest polynomials."""
    for p in FIRST_PRIMES:
        for base in ("0", str(p * p), "(x-x)", str(p), "1", "x", "(x^32)", "(x^16*x^16)", f"({p}*x^20)", "(0^0)", "(0^1)", "65535"):
            for e in ("0", "00", "1", "2", "32"):
                yield from lines((f"{p}:x*{base}^{e}", f"{p}:x^2+{base}^{e}", f"{p}:x^2*x+{base} ^ {e}*x"))


# ---- lines of all kinds


def lines_of_factors(source: random.Random) -> Iterator[Call]:
    """Products of powers, as patterns are spoken."""
    for p in FIRST_PRIMES:
        for _ in range(300):
            loose = source.choice((0, 0, 1, 3))
            yield Call(line_of(source, p, factors(source, p * p), blanks=loose, zeros=loose, brackets=5 * loose))


def lines_of_trees(source: random.Random) -> Iterator[Call]:
    """Trees with a value that is taken most often, and any trees."""
    for p in FIRST_PRIMES:
        for size in range(20):
            for _ in range(14):
                loose = source.choice((0, 0, 1, 3))
                node = some_pattern(source, p * p, size) if source.randrange(6) else some_tree(source, p * p, size)
                yield Call(line_of(source, p, node, blanks=loose, zeros=loose, brackets=5 * loose))


def sums_of_terms(source: random.Random) -> Iterator[Call]:
    """Sums of c·x^i in any order, of every degree, some with several terms of one degree, some that cancel."""
    for p, top in itertools.product(FIRST_PRIMES, range(1, LIMIT + 1)):
        for count in (2, 8):
            node = Tree("^", "x", top)
            for _ in range(count):
                term = Tree("*", source.randrange(p * p), Tree("^", "x", source.randrange(top)))
                node = source.choice((Tree("+", node, term), Tree("-", node, term), Tree("+", term, node)))
            yield Call(line_of(source, p, node))


def full_lines(source: random.Random) -> Iterator[Call]:
    """Lines of 200 bytes and more whose value has degree 32 and many coefficients."""
    for p in FIRST_PRIMES:
        for _ in range(15):
            roots = [source.randrange(p * p) for _ in range(LIMIT)]
            yield from lines((f"{p}:" + "*".join(f"(x+{a})" for a in roots), f"{p}:" + "*".join(f"(x+{a})^{k}" for a, k in zip(roots, (16, 8, 4, 2, 1, 1)))))
            inner = "x"
            for a in roots[: source.randrange(20, 32)]:
                inner = f"x*({inner})+{a}"
            yield from lines((f"{p}:{inner}", f"{p}:" + "+".join(f"x^{i}" for i in source.sample(range(33), 28)) + "-x^0"))


VALUE_KINDS = (
    numbers,
    some_primes,
    orders,
    products_of_powers,
    degrees,
    not_monic,
    zeroth_powers,
    lines_of_factors,
    lines_of_trees,
    sums_of_terms,
    full_lines,
)
