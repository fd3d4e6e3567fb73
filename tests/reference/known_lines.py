"""Typed lines made from trees, so that what a line is read as is known before it is written: trees at random, their texts and their values; and damage.

For cases and for the tests of typed_lines.py, which makes no tree.
"""

import random
from typing import Iterator, NamedTuple, Sequence, Union

from arithmetic import FIRST_PRIMES, LIMIT
from byte_strings import some_bytes
from polynomials import degree, minus, plus, power, reduced, times

SIGNS = b"x1()^*+-: 0"
# Bytes that are no sign, most of them near one: other blanks, letters, digits and signs of the keyboard, and what a keyboard writes in several bytes.
NO_SIGNS = b"\x00\t\n\r\x1f!',./;=?X[]_`w{y\x7f\xb2\xd7\xff"
BINDS = {"+": 1, "-": 1, "*": 2, "^": 3}  # what binds before what; a number, x and brackets before all
WORKS = {"+": plus, "-": minus, "*": times}


class Tree(NamedTuple):
    """A sign with what stands left and right of it; the right of `^` is an exponent."""

    sign: str
    left: "Node"
    right: "Node"


# A number, "x", or a tree.
Node = Union[int, str, Tree]


def parts(node: Node) -> Iterator[Node]:
    """A tree and all that it is made of, but for exponents, those inside before what they are in."""
    if isinstance(node, Tree):
        yield from parts(node.left)
        if node.sign != "^":
            yield from parts(node.right)
    yield node


# ---- values


def value(n: int, node: Node) -> list:
    """What a tree means modulo n."""
    if not isinstance(node, Tree):
        return [0, 1] if node == "x" else reduced(n, [node])
    left = value(n, node.left)
    return power(n, left, node.right) if node.sign == "^" else WORKS[node.sign](n, left, value(n, node.right))


def height(n: int, node: Node) -> int:
    """What a power's or a product's degrees call for; 0 for all else, and where a factor is zero."""
    if not isinstance(node, Tree) or node.sign in "+-":
        return 0
    left, right = value(n, node.left), [1] if node.sign == "^" else value(n, node.right)
    if not left or not right:
        return 0
    return degree(left) * node.right if node.sign == "^" else degree(left) + degree(right)


def too_high(n: int, node: Node) -> bool:
    """Some part calls for a degree over 32. Parts inside come first, so that no product is made that is too high."""
    return any(height(n, part) > LIMIT for part in parts(node))


# ---- texts


def number_text(source: random.Random, number: int, zeros: int) -> str:
    """A number with up to so many zeros before it."""
    return "0" * source.choice((0, 0, source.randrange(zeros + 1))) + str(number)


def signs(source: random.Random, node: Node, zeros: int = 0, brackets: int = 0) -> list:
    """The signs of a tree, with brackets where they are needed and, in so many of a hundred places, where they are not."""

    def inside(part: Node, least: int) -> list:
        binds = BINDS[part.sign] if isinstance(part, Tree) else 4
        return bracketed(part) if binds < least or source.randrange(100) < brackets else signs(source, part, zeros, brackets)

    def bracketed(part: Node) -> list:
        return ["(", *signs(source, part, zeros, brackets), ")"]

    if not isinstance(node, Tree):
        return ["x" if node == "x" else number_text(source, node, zeros)]
    binds = BINDS[node.sign]
    if node.sign == "^":
        return [*inside(node.left, 4), "^", number_text(source, node.right, zeros)]
    return [*inside(node.left, binds), node.sign, *inside(node.right, binds + 1)]


def line_of(source: random.Random, prime: int, node: Node, blanks: int = 0, zeros: int = 0, brackets: int = 0) -> bytes:
    """The line of a prime and a tree: up to so many blanks between two signs, and zeros before a number."""
    written = [number_text(source, prime, zeros), ":", *signs(source, node, zeros, brackets)]
    gaps = [" " * source.randrange(blanks + 1) for _ in written[1:]] + [""]
    return "".join(sign + gap for sign, gap in zip(written, gaps)).encode("ascii")


# ---- trees at random


def some_number(source: random.Random, n: int) -> int:
    """A number below n most often, else any that is allowed."""
    return source.choice((source.randrange(n), source.randrange(n), source.randrange(4), source.randrange(65536)))


def some_tree(source: random.Random, n: int, size: int) -> Node:
    """A tree of so many signs, powers with low exponents most often."""
    if size <= 0:
        return source.choice(("x", "x", some_number(source, n)))
    sign = source.choice("++--***^^")
    if sign == "^":
        return Tree(sign, some_tree(source, n, size - 1), source.choice((0, 1, 2, 2, 3, source.randrange(33))))
    left = source.randrange(size)
    return Tree(sign, some_tree(source, n, left), some_tree(source, n, size - 1 - left))


def made_monic(source: random.Random, n: int, node: Node) -> Node:
    """A tree whose value is monic of degree 1 to 32, from one that is not too high: a power of x is added, before it or behind it, or it is one already."""
    f = value(n, node)
    least = max(len(f), 1)
    if least > 1 and f[-1] == 1 or least > LIMIT:
        return node
    top = source.choice((least, source.randrange(least, LIMIT + 1)))
    term: Node = "x" if top == 1 else Tree("^", "x", top)
    return source.choice((Tree("+", term, node), Tree("+", node, term), Tree("-", term, node)))


def some_pattern(source: random.Random, n: int, size: int) -> Node:
    """A tree with a value that is taken most often: not too high, and monic."""
    while too_high(n, node := some_tree(source, n, size)):
        pass
    return made_monic(source, n, node)


def factors(source: random.Random, n: int) -> Node:
    """A product of powers as they are spoken, (x + a)^k·(x² + b·x + c)·.., of degree 32 or less."""
    room, node = LIMIT, None
    for _ in range(source.randrange(1, 6)):
        d = source.choice((1, 1, 1, 2, 3))
        k = source.choice((1, 1, 2, 3, source.randrange(1, 12)))
        if d * k > room:
            break
        room -= d * k
        base: Node = "x" if d == 1 else Tree("^", "x", d)
        for i in reversed(range(d)):
            if c := source.choice((0, source.randrange(n))):
                term: Node = c if i == 0 else Tree("*", c, "x" if i == 1 else Tree("^", "x", i))
                base = Tree(source.choice("++-"), base, term)
        factor = base if k == 1 else Tree("^", base, k)
        node = factor if node is None else Tree("*", node, factor)
    return "x" if node is None else node


# ---- lines at random, and damage


def some_line(source: random.Random, primes: Sequence[int] = FIRST_PRIMES) -> bytes:
    """A line of any kind for one of the primes: products of powers or trees made monic, written in few bytes or with blanks, brackets and zeros."""
    p = source.choice(primes)
    node = factors(source, p * p) if source.randrange(2) else some_pattern(source, p * p, source.randrange(1, 9))
    loose = source.randrange(3)
    return line_of(source, p, node, blanks=loose, zeros=2 * loose, brackets=10 * loose)


def any_line(source: random.Random, primes: Sequence[int] = FIRST_PRIMES) -> bytes:
    """A line of any tree for one of the primes, which has no value that is taken most often."""
    p = source.choice(primes)
    return line_of(source, p, some_tree(source, p * p, source.randrange(1, 12)), blanks=source.randrange(2))


def damaged_line(source: random.Random, good: bytes) -> bytes:
    """A line with one to three signs changed, put in or left out at random, or a piece of it doubled."""
    data = bytearray(good)
    for _ in range(source.randrange(1, 4)):
        place, byte = source.randrange(len(data) + 1), source.choice(SIGNS + SIGNS + NO_SIGNS + bytes([source.randrange(256)]))
        kind = source.randrange(5)
        if kind == 0:
            data.insert(place, byte)
        elif kind == 1:
            del data[place : place + source.randrange(1, 4)]
        elif kind == 2:
            data[place:place] = data[place : place + source.randrange(1, 6)]
        else:
            data[place : place + 1] = bytes([byte])
    return bytes(data)


def some_signs(source: random.Random, most: int, values: Sequence[int] = SIGNS) -> bytes:
    """A good beginning and random signs."""
    return source.choice((b"", b"2:", b"3:", b"5: (", b"7:x")) + some_bytes(source, source.randrange(most), values)
