"""Monic polynomials of degree 1 to 32 on which the library's splitter is compared with the reference: one function for each kind.

Each kind is handed its own source of random numbers with a fixed seed, so the polynomials are the same in every run.
"""

import itertools
import random
from typing import Iterator

from arithmetic import FIRST_PRIMES, LIMIT
from brute_force import irreducibles, monics, monics_to
from kinds import made_by
from polynomials import degree, plus, power, product_of, times
from sheets import Sheet

# The irreducible polynomials modulo p of the lowest degrees, by prime and degree.
SMALL = {
    p: {d: sorted(list(g) for g in irreducibles(p, top) if len(g) == d + 1) for d in range(1, top + 1)}
    for p, top in ((2, 5), (3, 3), (5, 2), (7, 2))
}


def some_monic(source: random.Random, n: int, top: int) -> list:
    """A random monic polynomial modulo n of one degree."""
    return [source.randrange(n) for _ in range(top)] + [1]


def some_irreducible(source: random.Random, p: int) -> list:
    """An irreducible polynomial modulo p of low degree."""
    return list(source.choice(SMALL[p][source.choice(list(SMALL[p]))]))


def with_digits(source: random.Random, p: int, g: list) -> list:
    """A monic polynomial modulo p² with the bar of g: p times random digits are added."""
    return [(c + p * source.randrange(p)) % (p * p) for c in g[:-1]] + [1]


def filled(source: random.Random, p: int, f: list) -> list:
    """f times one random monic polynomial, up to degree 32 or less."""
    room = LIMIT - degree(f)
    return times(p * p, f, some_monic(source, p * p, source.randrange(room + 1)))


def of_low_degree(source: random.Random) -> Iterator[Sheet]:
    """All polynomials of degree to 4 modulo 4, to 3 modulo 9, 1 modulo 25 and 49; many of those of degree 2."""
    for p, top in ((2, 4), (3, 3), (5, 1), (7, 1)):
        yield from (Sheet(p, f) for f in monics_to(p * p, top))
    for p, step in ((5, 2), (7, 7)):
        yield from (Sheet(p, f) for f in itertools.islice(monics(p * p, 2), 0, None, step))


def of_every_degree(source: random.Random) -> Iterator[Sheet]:
    """Random polynomials of the degrees 1 to 32."""
    for p in FIRST_PRIMES:
        for top in range(1, LIMIT + 1):
            yield from (Sheet(p, some_monic(source, p * p, top)) for _ in range(8))


def of_full_degree(source: random.Random) -> Iterator[Sheet]:
    """Random polynomials of degree 32, most of them modulo 49."""
    for p, count in ((2, 20), (3, 20), (5, 20), (7, 100)):
        yield from (Sheet(p, some_monic(source, p * p, LIMIT)) for _ in range(count))


def products_of_powers(source: random.Random) -> Iterator[Sheet]:
    """Powers of lifted irreducibles of low degree, multiplied; then p times a random polynomial added to half of them."""
    for p in FIRST_PRIMES:
        for _ in range(160):
            f = [1]
            for _ in range(source.randrange(1, 6)):
                g = with_digits(source, p, some_irreducible(source, p))
                m = source.randrange(1, (LIMIT - degree(f)) // degree(g) + 1) if degree(f) + degree(g) <= LIMIT else 0
                f = times(p * p, f, power(p * p, g, min(m, source.randrange(1, 13))))
            noise = [p * source.randrange(p) * source.randrange(2) for _ in range(degree(f))]
            yield Sheet(p, plus(p * p, f, noise) if source.randrange(2) else f)


def of_each_verdict(source: random.Random) -> Iterator[Sheet]:
    """g^m1·(g^(m − m1) + p·w) for every m1 from 0 to m, alone and times a random polynomial."""
    for p in FIRST_PRIMES:
        for m in (2, 3, 4, 5, 6, 7, 8, 14):
            for m1 in range(m + 1):
                g = source.choice(SMALL[p][1 if m > 8 else source.randrange(1, 3)])
                w = [p * c for c in some_irreducible(source, p)[: degree(g) * (m - m1)]]
                f = times(p * p, power(p * p, g, m1), plus(p * p, power(p * p, g, m - m1), w))
                yield from (Sheet(p, f), Sheet(p, filled(source, p, f)))


def cyclic(source: random.Random) -> Iterator[Sheet]:
    """x^n − 1 and x^n + 1 for n up to 32: section 5 of document 002."""
    for p in FIRST_PRIMES:
        for n in range(1, LIMIT + 1):
            yield from (Sheet(p, [constant] + [0] * (n - 1) + [1]) for constant in (1, p * p - 1))


def equal_factors(source: random.Random) -> Iterator[Sheet]:
    """32 equal factors x + a for every a; 16 equal ones of degree 2."""
    for p in FIRST_PRIMES:
        yield from (Sheet(p, power(p * p, [a, 1], LIMIT)) for a in range(p * p))
        for g in SMALL[p][2][:4]:
            yield Sheet(p, power(p * p, with_digits(source, p, g), LIMIT // 2))


def different_factors(source: random.Random) -> Iterator[Sheet]:
    """32 different x + a modulo 49 and as many as there are for smaller primes; the most parts that fit in degree 32."""
    for p in FIRST_PRIMES:
        for _ in range(12):
            roots = source.sample(range(p * p), min(LIMIT, p * p))
            yield Sheet(p, product_of(p * p, [[a, 1] for a in roots]))
            yield Sheet(p, many_parts(source, p))


def many_parts(source: random.Random, p: int) -> list:
    """A product of different lifted irreducibles, those of low degree first, up to degree 32."""
    f = [1]
    for d, of_degree in SMALL[p].items():
        for g in source.sample(of_degree, len(of_degree)):
            if degree(f) + d <= LIMIT:
                f = times(p * p, f, with_digits(source, p, g))
    return f


def p_th_powers(source: random.Random) -> Iterator[Sheet]:
    """g^p, g^(2p) and g^(p²) for random g, as far as they fit: f(x^p) modulo p, where the derivative is zero."""
    for p in FIRST_PRIMES:
        for m in (m for m in (p, 2 * p, 3 * p, p * p) if m <= LIMIT):
            for _ in range(12):
                g = some_monic(source, p * p, source.randrange(1, LIMIT // m + 1))
                yield Sheet(p, power(p * p, g, m))
                yield Sheet(p, [c if i % p == 0 else p * source.randrange(p) for i, c in enumerate(power(p * p, g, m))])


def eisenstein(source: random.Random) -> Iterator[Sheet]:
    """Example 3.4 of document 002: (x + a)^s + p·(..) with a unit as the last digit does not factor. The leading 1 stays."""
    for p in FIRST_PRIMES:
        for s in range(2, LIMIT + 1):
            shifted = power(p * p, [source.randrange(p * p), 1], s)
            digits = [source.randrange(1, p)] + [source.randrange(p) for _ in range(s - 1)]
            yield Sheet(p, plus(p * p, [p * c for c in digits] + [0], shifted))
            yield Sheet(p, [p * c for c in digits] + [1])


KINDS = (
    of_low_degree,
    of_every_degree,
    of_full_degree,
    products_of_powers,
    of_each_verdict,
    cyclic,
    equal_factors,
    different_factors,
    p_th_powers,
    eisenstein,
)


def all_sheets() -> list:
    """The polynomials of all kinds."""
    return [sheet for kind in KINDS for sheet in made_by(kind)]
