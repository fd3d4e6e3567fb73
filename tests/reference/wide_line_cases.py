"""The calls from typed lines to sheets for the 50 primes from 11 up, with numbers that need two bytes: one function for each kind."""

import random
from typing import Iterator

from arithmetic import LATER_PRIMES, LIMIT
from known_lines import Tree, damaged_line, factors, line_of, some_line, some_pattern, some_tree
from sheet_cases import Call, in_all_areas
from typed_lines import LINE_LIMIT
from typed_value_cases import factor_texts, lines
from wide_polynomials import PRIMES_OF_NOTE

NUMBERS = (0, 1, 255, 256, 257, 288, 289, 290, 62999, 63000, 63001, 63002, 65534, 65535, 65536)


def every_number_as_prime(source: random.Random) -> Iterator[Call]:
    """Each number up to 300 as the prime, with values that are taken and one that is not; some far above."""
    for number in (*range(300), 509, 65521, 65535, 65536):
        yield from lines((f"{number}:x", f"{number}:x^2+300*x+7", f"{number}:2*x"))


def numbers_about_squares(source: random.Random) -> Iterator[Call]:
    """Numbers about p², and the largest that a line may have, as terms, as factors, with a minus and to a power."""
    for p in LATER_PRIMES:
        n = p * p
        for c in (n - 1, n, n + 1, 65535):
            yield from lines((f"{p}:x^2-{c}*x+{c}", f"{p}:{c}*x", f"{p}:({c}*x)^2"))
        yield from lines((f"{p}:x-1", f"{p}:0-{n - 1}*x", f"{p}:x^3+{p}*x*{p}*x", f"{p}:{n}*x^20*x^20+x", f"{p}:{p}*x^20*{p}*x^13+x", f"{p}:x+65536"))


def numbers_for_primes_of_note(source: random.Random) -> Iterator[Call]:
    """Numbers about the limits of one byte, of two and of p² for primes of both widths."""
    for p in PRIMES_OF_NOTE:
        for c in NUMBERS:
            yield from lines((f"{p}:x+{c}", f"{p}:x-{c}", f"{p}:x^2+{c}*x*{c}", f"{p}:x^9+{c}^2", f"{p}:x+{c}^32", f"{p}:(x+{c})^3", f"{p}:x*{c}+x^4-{c}"))


def lines_of_later_primes(source: random.Random) -> Iterator[Call]:
    """Products of powers as patterns are spoken, trees with a value that is taken most often, and any trees."""
    for p in LATER_PRIMES:
        for i in range(12):
            loose, n = source.choice((0, 0, 1, 3)), p * p
            node = factors(source, n) if i < 6 else some_pattern(source, n, source.randrange(9)) if i < 11 else some_tree(source, n, source.randrange(9))
            yield Call(line_of(source, p, node, blanks=loose, zeros=loose, brackets=5 * loose))


def degrees_of_later_primes(source: random.Random) -> Iterator[Call]:
    """Products and powers of factors whose degrees drop, whose products vanish, or that are zero, a pattern added."""
    for p in LATER_PRIMES:
        for _ in range(2):
            product = "*".join(source.sample(factor_texts(source, p), source.randrange(1, 4)))
            yield from lines((f"{p}:x^{source.randrange(1, LIMIT + 1)}+{product}", f"{p}:({product})^2+x^32"))


def sums_of_wide_terms(source: random.Random) -> Iterator[Call]:
    """Sums of c·x^i in any order with numbers up to 65,535, of every degree."""
    for top in range(1, LIMIT + 1):
        for p in source.sample(LATER_PRIMES, 4):
            node = Tree("^", "x", top)
            for _ in range(source.choice((2, 8, 16))):
                term = Tree("*", source.choice((source.randrange(p * p), source.randrange(65536))), Tree("^", "x", source.randrange(top)))
                node = source.choice((Tree("+", node, term), Tree("-", node, term), Tree("+", term, node)))
            yield Call(line_of(source, p, node))


def full_wide_lines(source: random.Random) -> Iterator[Call]:
    """Lines of about 255 bytes and values of degree 32 with many coefficients: powers, Horner's form and products as far as they fit, and one step further."""
    for p in LATER_PRIMES:
        roots = [source.randrange(p * p) for _ in range(LIMIT)]
        yield from lines((f"{p}:(x+{roots[0]})^32", f"{p}:" + "*".join(f"(x+{a})^{k}" for a, k in zip(roots, (16, 8, 4, 2, 1, 1)))))
        horner, product = f"{p}:x+{roots[0]}", f"{p}:(x+{roots[0]})"
        for a in roots[1:]:
            longer = f"{p}:({horner.split(':')[1]})*x+{a}"
            product, horner = (f"{product}*(x+{a})" if len(product) + 9 < LINE_LIMIT else product), (longer if len(longer) <= LINE_LIMIT else horner)
        yield from lines((horner, product, f"{horner.replace(':', ':(')})*x+1"))


def damaged_wide_lines(source: random.Random) -> Iterator[Call]:
    """Lines with one to three places at fault."""
    yield from (Call(damaged_line(source, some_line(source, (p,)))) for p in LATER_PRIMES for _ in range(5))


def wide_lines_in_each_area(source: random.Random) -> Iterator[Call]:
    """Lines with areas of many lengths; the sheet of the first has 133 bytes."""
    yield from in_all_areas([b"251:(x+62999)^32", b"17:x+288", b"13:x+168", b"253:x", b"251:63002*x^2-63001"])


LINE_KINDS = (
    every_number_as_prime,
    numbers_about_squares,
    numbers_for_primes_of_note,
    lines_of_later_primes,
    degrees_of_later_primes,
    sums_of_wide_terms,
    full_wide_lines,
    damaged_wide_lines,
    wide_lines_in_each_area,
)
