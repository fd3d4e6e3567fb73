"""The records on which the library's search for parts is compared with the reference, and others, which the test program turns back."""

import random
from typing import Iterator

from arithmetic import FIRST_PRIMES, LIMIT, WIDTH, Record, modulus
from polynomial_cases import all_sheets
from records import monomial, polynomial, some, some_monic, with_coefficient

# 11 is taken since request 5; its records stay among the cases.
NOT_PRIMES = (0, 1, 4, 6, 8, 9, 11, 49, 255)


def taken(source: random.Random) -> Iterator[Record]:
    """Monic polynomials of degree 1 to 32 of all kinds."""
    for sheet in all_sheets():
        yield polynomial(sheet.prime, *sheet.polynomial)


def improper_prime(source: random.Random) -> Iterator[Record]:
    """A prime that is not taken, with and without anything else at fault."""
    for bad in NOT_PRIMES:
        for prime in FIRST_PRIMES:
            yield some_monic(source, prime, source.randrange(WIDTH))._replace(prime=bad)
        yield from (polynomial(bad), polynomial(bad, 1), polynomial(bad, *[65535] * WIDTH))


def improper_coefficient(source: random.Random) -> Iterator[Record]:
    """One coefficient of p² or more, below the top, at the top or above it; the polynomial monic and not."""
    for prime in FIRST_PRIMES:
        for index in (0, 1, 15, 16, 31, LIMIT):
            for value in (modulus(prime), modulus(prime) + 1, 256, 65535):
                yield with_coefficient(some_monic(source, prime, source.randrange(WIDTH)), index, value)
                yield with_coefficient(polynomial(prime), index, value)


def not_monic(source: random.Random) -> Iterator[Record]:
    """The zero polynomial; leading coefficients that are another unit or a multiple of p, at every degree."""
    for prime in FIRST_PRIMES:
        yield polynomial(prime)
        for top in range(WIDTH):
            yield monomial(prime, modulus(prime) - 1, top)
            yield with_coefficient(some(source, prime, top), top, source.randrange(2, modulus(prime)))
            yield with_coefficient(some_monic(source, prime, max(top - 1, 0)), top, prime)


def of_degree_0(source: random.Random) -> Iterator[Record]:
    """The polynomial 1."""
    yield from (polynomial(prime, 1) for prime in FIRST_PRIMES)


KINDS = (taken, improper_prime, improper_coefficient, not_monic, of_degree_0)
