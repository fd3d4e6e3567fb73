"""Polynomials made to have given figures: the parts are chosen first, so that the pairs of degree and times are known before anything is factored.

For cases and for the tests of copies.py, which counts the pairs of the parts that it finds.
"""

import functools
import itertools
import random
from collections import Counter
from typing import Iterator, NamedTuple, Optional

from arithmetic import LIMIT
from factoring import is_irreducible, remainder
from known_runs import some_irreducible
from polynomial_cases import SMALL, some_monic, with_digits
from polynomials import degree, plus, power, product_of, times
from sheets import Sheet, has_run


class Shape(NamedTuple):
    """A part g^m1·(g^(m − m1) + p·w) over some G of degree d that does not divide w; g^m if m1 is m."""

    d: int
    m: int
    m1: int


def part_pairs(p: int, shape: Shape) -> list:
    """The pairs of such a part, by items 4 to 9, in the order of its factors."""
    d, m, m1 = shape
    if m1 == 0:
        return [(d * m, 1)]
    if m1 == m or (m1 == m - 1 and m % p != 0):
        return [(d, m)]
    return [(d, m1), (d * (m - m1), 1)]


def pairs_of(p: int, shapes: list) -> list:
    """The pairs of a polynomial with these parts, in the order of its answer if the shapes rise by degree."""
    return [pair for shape in shapes for pair in part_pairs(p, shape)]


@functools.lru_cache(maxsize=None)
def low_bases(p: int) -> dict:
    """Irreducible polynomials modulo p of the lowest degrees: all of them for the primes up to 7; all of degree 1 and sixteen of degree 2 from 11 on."""
    if p in SMALL:
        return SMALL[p]
    source = random.Random("bases {}".format(p))
    of_degree_2: list = []
    while len(of_degree_2) < 16:
        base = some_monic(source, p, 2)
        of_degree_2 += [base] if base not in of_degree_2 and is_irreducible(p, base) else []
    return {1: [[a, 1] for a in range(p)], 2: of_degree_2}


@functools.lru_cache(maxsize=None)
def bases(p: int, d: int) -> list:
    """Irreducible polynomials modulo p of one degree, in the order of item 3: those of low degree, one if it is higher."""
    return sorted(low_bases(p).get(d) or [list(some_irreducible(p, d))], key=lambda base: base[::-1])


def fits(p: int, shapes: list) -> bool:
    """There are as many G as the shapes need, and the degrees add to 32 or less."""
    needed = Counter(shape.d for shape in shapes)
    return sum(d * m for d, m, _ in shapes) <= LIMIT and all(count <= len(bases(p, d)) for d, count in needed.items())


# ---- from shapes to polynomials


def not_divisible(source: random.Random, p: int, base: list, top: int) -> list:
    """A polynomial modulo p of a degree below the top that G does not divide."""
    while True:
        w = [source.randrange(p) for _ in range(top - 1)] + [source.randrange(1, p)]
        if remainder(p, w, base):
            return w


def some_part(source: random.Random, p: int, base: list, shape: Shape) -> list:
    """A part of this shape over G, with any digits in g and any w."""
    n, g = p * p, with_digits(source, p, base)
    last = power(n, g, shape.m - shape.m1)
    if degree(last) > 0:
        last = plus(n, last, [p * c for c in not_divisible(source, p, base, source.randrange(1, degree(last) + 1))])
    return times(n, power(n, g, shape.m1), last)


def polynomial_with(source: random.Random, p: int, shapes: list) -> list:
    """A product of parts of these shapes, which fit, over different G; those of one degree are parts in the order of the shapes."""
    rising = {}
    for d, count in Counter(shape.d for shape in shapes).items():
        rising[d] = iter([bases(p, d)[i] for i in sorted(source.sample(range(len(bases(p, d))), count))])
    return product_of(p * p, [some_part(source, p, next(rising[shape.d]), shape) for shape in shapes])


# ---- from pairs to shapes


def some_shapes(source: random.Random, p: int, pairs: list) -> Optional[list]:
    """Shapes that have just these pairs, drawn anew each time: two pairs may be those of a split part. None if what is drawn does not fit."""
    shapes, left = [], source.sample(pairs, len(pairs))
    while left:
        e, t = left.pop()
        split = [Shape(e, t + last // e, t) for last, once in left if once == 1 and last % e == 0]
        split = [shape for shape in split if len(part_pairs(p, shape)) == 2]
        if split and source.randrange(3):
            shapes.append(source.choice(split))
            left.remove(part_pairs(p, shapes[-1])[1])
        elif t > 1:
            shapes.append(Shape(e, t, t))
        else:
            d = source.choice([d for d in range(1, e + 1) if e % d == 0])
            shapes.append(Shape(d, e // d, 0))
    return shapes if fits(p, shapes) else None


def sheets_with(source: random.Random, p: int, pairs: list, count: int) -> list:
    """So many sheets with these pairs, by other parts of other kinds in another order, with 0x04 and without; fewer where few draws fit."""
    draws = (some_shapes(source, p, pairs) for _ in range(10 * count))
    fitting = itertools.islice((shapes for shapes in draws if shapes is not None), count)
    polynomials = [polynomial_with(source, p, shapes) for shapes in fitting]
    return [Sheet(p, f, has_run(p, f) and source.randrange(2) == 1) for f in polynomials]


def lists_of_pairs(top: int, least: tuple = (1, 1)) -> Iterator[list]:
    """Every sorted list of pairs from the least on whose factors, as many times as they are, have degrees that add to the top."""
    if top == 0:
        yield []
    for e in range(least[0], top + 1):
        for t in range(least[1] if e == least[0] else 1, top // e + 1):
            yield from ([(e, t), *rest] for rest in lists_of_pairs(top - e * t, (e, t)))


# ---- shapes at random


def drawn_shapes(source: random.Random, p: int) -> list:
    """Shapes of parts over G of low degree, as many as fit, rising by degree."""
    shapes, room = [], source.randrange(2, LIMIT + 1)
    while free := [d for d in (1, 1, 1, 2, 2, 3, 4) if d <= room and sum(shape.d == d for shape in shapes) < len(bases(p, d))]:
        d = source.choice(free)
        m = min(source.randrange(1, source.choice((3, 9, 17))), room // d)
        shapes.append(Shape(d, m, source.randrange(m + 1)))
        room -= d * m
    return sorted(shapes, key=lambda shape: shape.d)


def shapes_with_most_pairs(source: random.Random, p: int) -> list:
    """As many pairs as there can be. Each G gives one pair for its degree d, and a second for d more if p is 2 and for 2·d more if not: cheapest first."""
    m = 2 if p == 2 else 3
    costs = [(cost, source.random(), d, i) for d, known in low_bases(p).items() for i in range(len(known)) for cost in (d, (m - 1) * d)]
    taken, room = Counter(), LIMIT
    for cost, _, d, i in sorted(costs):
        if cost <= room:
            taken[d, i] += 1
            room -= cost
    shapes = [Shape(d, 1, 0) if pairs == 1 else Shape(d, m, 1) for (d, _), pairs in taken.items()]
    return sorted(shapes, key=lambda shape: shape.d)
