"""Monic polynomials modulo p² for the 50 primes from 11 up, which request 5 adds: one function for each kind, as in polynomial_cases.py.

Most are of low degree, so that there are many for each prime and the stored cases stay small.
"""

import functools
import random
from typing import Iterator

from arithmetic import LATER_PRIMES, LIMIT
from factoring import is_irreducible
from kinds import made_by
from known_runs import with_run
from polynomial_cases import some_monic, with_digits
from polynomials import degree, plus, power, product_of, times
from sheets import Sheet, has_run

# Primes with one byte to a coefficient and with two, about the border and at the end.
PRIMES_OF_NOTE = (7, 11, 13, 17, 19, 127, 251)
# Runs that sheets are made for, beside those that go by the prime; the large ones for few primes, since their polynomials are of high degree.
SMALL_RUNS, LARGE_RUNS = (1, 2, 3, 4, 5, 6, 8), (255, 256, 257, 4096, 65279, 65280, 65534, 65535, 65537)


def some_base(source: random.Random, p: int, d: int) -> list:
    """An irreducible polynomial modulo p of the degree d."""
    while not is_irreducible(p, base := some_monic(source, p, d)):
        pass
    return base


def with_verdict(source: random.Random, p: int, base: list, m: int, m1: int) -> list:
    """g^m1·(g^(m − m1) + p·c) for a lift g and a number c."""
    n, g = p * p, with_digits(source, p, base)
    return times(n, power(n, g, m1), plus(n, power(n, g, m - m1), [p * source.randrange(1, p)] if m1 < m else []))


# ---- kinds


def linear(source: random.Random) -> Iterator[Sheet]:
    """x, and x + a for the least a, the greatest, p and others."""
    for p in LATER_PRIMES:
        yield from (Sheet(p, [a, 1]) for a in (0, 1, p - 1, p, p * p - 1, *(source.randrange(p * p) for _ in range(15))))


def of_low_degree(source: random.Random) -> Iterator[Sheet]:
    """Random polynomials of the degrees 2 to 6."""
    for p in LATER_PRIMES:
        for top, count in ((2, 20), (3, 14), (4, 4), (5, 2), (6, 1)):
            yield from (Sheet(p, some_monic(source, p * p, top)) for _ in range(count))


def of_any_degree(source: random.Random) -> Iterator[Sheet]:
    """A random polynomial of any degree for each prime, full of coefficients or with few in turn."""
    for i, p in enumerate(LATER_PRIMES):
        f, few = some_monic(source, p * p, source.randrange(7, LIMIT)), (1, 8)[i % 2]
        yield Sheet(p, [c * (source.randrange(few) == 0) for c in f[:-1]] + [1])


def of_full_degree(source: random.Random) -> Iterator[Sheet]:
    """Degree 32, with every coefficient p² − 1 and with random ones."""
    for p in LATER_PRIMES:
        yield Sheet(p, [p * p - 1] * LIMIT + [1])
        yield Sheet(p, [source.randrange(1, p * p) for _ in range(LIMIT)] + [1])


def of_each_verdict(source: random.Random) -> Iterator[Sheet]:
    """g^m1·(g^(m − m1) + p·c) for every m1 from 0 to m, over linear G and some over G of degree 2."""
    for p in LATER_PRIMES:
        for m in (2, 3, 4):
            yield from (Sheet(p, with_verdict(source, p, some_base(source, p, 1), m, m1)) for m1 in range(m + 1))
        yield from (Sheet(p, with_verdict(source, p, some_base(source, p, 2), m, m1)) for m, m1 in ((2, 0), (2, 1), (2, 2), (3, 1), (3, 2)))


def about_multiples_of_p(source: random.Random) -> Iterator[Sheet]:
    """The same where p divides m, as far as there are such m, and where m is less or more by one: item 8 goes by it."""
    for p in (p for p in LATER_PRIMES if p <= LIMIT):
        for m in (m for k in (p, 2 * p) for m in (k - 1, k, k + 1) if m <= LIMIT):
            yield from (Sheet(p, with_verdict(source, p, some_base(source, p, 1), m, m1)) for m1 in sorted({0, 1, m // 2, m - 2, m - 1, m}))


def products_of_powers(source: random.Random) -> Iterator[Sheet]:
    """Powers of lifted irreducibles of degrees 1 and 2, multiplied; then p times a random polynomial added to half of them."""
    for p in LATER_PRIMES:
        for _ in range(30):
            f = [1]
            for _ in range(source.randrange(1, 4)):
                g = with_digits(source, p, some_base(source, p, source.choice((1, 1, 1, 2))))
                f = times(p * p, f, power(p * p, g, source.choice((1, 1, 2, 3))))
            noise = [p * source.randrange(p) * source.randrange(2) for _ in range(degree(f))]
            yield Sheet(p, plus(p * p, f, noise) if source.randrange(2) else f)


def cyclic(source: random.Random) -> Iterator[Sheet]:
    """x^n − 1 and x^n + 1 for small n, for p and for p − 1."""
    for p in LATER_PRIMES:
        for n in (n for n in (2, 3, 4, p, p - 1) if n <= LIMIT):
            yield from (Sheet(p, [constant] + [0] * (n - 1) + [1]) for constant in (1, p * p - 1))


def equal_factors(source: random.Random) -> Iterator[Sheet]:
    """x + a a few times and 32 times, for several a."""
    for p in LATER_PRIMES:
        yield from (Sheet(p, power(p * p, [source.randrange(p * p), 1], m)) for m in (2, 2, 3, 3, 4, 5, LIMIT))


def different_factors(source: random.Random) -> Iterator[Sheet]:
    """x + a for a few a, some of them alike modulo p, and for as many that are not as fit: 32 parts for primes from 37 up, the longest answers."""
    for p in LATER_PRIMES:
        for count in (2, 3, 3, 4):
            roots = [source.randrange(p * p) for _ in range(count)]
            yield Sheet(p, product_of(p * p, [[a, 1] for a in roots + [roots[0] + p]]))
        roots = source.sample(range(1, p), min(LIMIT, p - 1))
        yield Sheet(p, product_of(p * p, [[a + p * source.randrange(p), 1] for a in roots]))


def eisenstein(source: random.Random) -> Iterator[Sheet]:
    """Example 3.4 of document 002: (x + a)^s + p·(..) with a unit as the last digit does not factor."""
    for p in LATER_PRIMES:
        for s in (2, 3, 4, 5):
            digits = [source.randrange(1, p)] + [source.randrange(p) for _ in range(s - 1)]
            yield Sheet(p, plus(p * p, [p * c for c in digits] + [0], power(p * p, [source.choice((0, source.randrange(p * p))), 1], s)))


KINDS = (
    linear,
    of_low_degree,
    of_any_degree,
    of_full_degree,
    of_each_verdict,
    about_multiples_of_p,
    products_of_powers,
    cyclic,
    equal_factors,
    different_factors,
    eisenstein,
)


@functools.lru_cache(maxsize=None)
def wide_sheets() -> tuple:
    """The polynomials of all kinds."""
    return tuple(sheet for kind in KINDS for sheet in made_by(kind))


# ---- sheets that ask for their run


def of_known_runs(source: random.Random) -> Iterator[tuple]:
    """Pairs of a sheet with 0x04 and the run that it was made for: up to the limit and above it."""
    for p in LATER_PRIMES:
        for n in (*SMALL_RUNS, p, p - 1, p * (p - 1), p + 1, p * p, p * (p - 1) * 2, *(LARGE_RUNS if p in PRIMES_OF_NOTE else ())):
            f = with_run(p, n)
            if f is not None:
                yield Sheet(p, f, True), n


@functools.lru_cache(maxsize=None)
def known_runs() -> tuple:
    """Those pairs."""
    return tuple(made_by(of_known_runs))


def asking_for_runs(source: random.Random) -> Iterator[Sheet]:
    """Some polynomials of each prime that may carry 0x04, with it: most of low degree, and one of degree 32."""
    for p in LATER_PRIMES:
        low = [sheet for sheet in wide_sheets() if sheet.prime == p and has_run(p, sheet.polynomial) and degree(sheet.polynomial) < 6]
        full = [sheet for sheet in wide_sheets() if sheet.prime == p and has_run(p, sheet.polynomial) and degree(sheet.polynomial) == LIMIT]
        yield from (sheet._replace(run=True) for sheet in source.sample(low, 11) + source.sample(full, 1))


@functools.lru_cache(maxsize=None)
def sheets_with_runs() -> tuple:
    """Sheets of all kinds with 0x04, those made for a run first."""
    return tuple(sheet for sheet, _ in known_runs()) + tuple(made_by(asking_for_runs))


def of_each_prime(source: random.Random, sheets: tuple, count: int) -> list:
    """So many of the sheets of each prime, drawn at random; all of them where there are fewer."""
    by_prime: dict = {}
    for sheet in sheets:
        by_prime.setdefault(sheet.prime, []).append(sheet)
    return [sheet for same in by_prime.values() for sheet in source.sample(same, min(count, len(same)))]
