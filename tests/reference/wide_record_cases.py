"""The records on which the arithmetic and the search for parts are compared with the reference for the 50 primes from 11 up: one function for each kind."""

import random
from typing import Iterator

import arithmetic
from arithmetic import LATER_PRIMES, LIMIT, TAKEN_PRIMES, WIDTH, Record, modulus
from arithmetic_cases import BINARY, DIFFERENCE, DIVISION, PRODUCT, SUM, Case, some_pair
from records import maximal, maximal_monic, monomial, polynomial, some, some_monic, with_coefficient
from wide_cases import NOT_PRIMES
from wide_polynomials import of_each_prime, wide_sheets

# ---- arithmetic


def pairs_of_later_primes(source: random.Random) -> Iterator[Case]:
    """Two random records for each prime and operation."""
    for prime in LATER_PRIMES:
        yield from (Case(operation, *some_pair(source, operation, prime)) for operation in BINARY)


def largest_coefficients(source: random.Random) -> Iterator[Case]:
    """Every coefficient p² − 1, up to 63,000: the largest whole numbers that the operations meet."""
    for prime in LATER_PRIMES[::2]:
        full, top = maximal(prime, LIMIT), source.randrange(1, LIMIT)
        yield from (Case(SUM, full, full), Case(DIFFERENCE, polynomial(prime), full), Case(PRODUCT, maximal(prime, top), maximal(prime, LIMIT - top)))
        yield Case(DIVISION, full, maximal_monic(prime, top))
    for top in range(0, WIDTH, 2):
        yield from (Case(PRODUCT, maximal(251, top), maximal(251, LIMIT - top)), Case(DIVISION, maximal(251, LIMIT), maximal_monic(251, top)))


def not_below_the_modulus(source: random.Random) -> Iterator[Case]:
    """One coefficient of p² or more, up to 65,535, in the first record, in the second and in both."""
    for prime in LATER_PRIMES:
        for value in (modulus(prime), 65535):
            operation, index = source.choice(BINARY), source.choice((0, LIMIT, source.randrange(WIDTH)))
            a, b = some_pair(source, operation, prime)
            bad_a, bad_b = with_coefficient(a, index, value), with_coefficient(b, index, value)
            yield source.choice((Case(operation, bad_a, b), Case(operation, a, bad_b), Case(operation, bad_a, bad_b)))


def primes_not_taken(source: random.Random) -> Iterator[Case]:
    """Records that are proper but for their prime: every third byte that is no prime, and products and neighbours of primes in either record."""
    for byte in [byte for byte in range(256) if byte not in TAKEN_PRIMES][::3]:
        yield Case(source.choice(BINARY), polynomial(byte, 1), polynomial(byte))
    for byte in NOT_PRIMES:
        for operation in BINARY:
            a, b = some_pair(source, operation, source.choice(LATER_PRIMES))
            yield source.choice((Case(operation, a._replace(prime=byte), b), Case(operation, a, b._replace(prime=byte))))


def primes_that_differ(source: random.Random) -> Iterator[Case]:
    """A prime and the next one, and the first and the last: 11, or 10 where a coefficient is good for the other prime alone."""
    for prime, other in (*zip(TAKEN_PRIMES, TAKEN_PRIMES[1:]), (251, 2), (2, 251)):
        operation = source.choice(BINARY)
        a, b = some(source, prime, source.randrange(WIDTH)), some(source, other, source.randrange(WIDTH))
        yield from (Case(operation, a, b), Case(operation, a, with_coefficient(b, source.randrange(WIDTH), modulus(max(prime, other)) - 1)))


def limits_of_products_and_divisors(source: random.Random) -> Iterator[Case]:
    """Degrees that add to 32 and to 33, leading coefficients that multiply to 0; divisors that are zero, lead with p or with another unit, or are x^32."""
    for prime in LATER_PRIMES[::3]:
        for total in (LIMIT, LIMIT + 1):
            top = source.randrange(1, LIMIT)
            yield Case(PRODUCT, some(source, prime, top), some(source, prime, total - top))
            yield Case(PRODUCT, monomial(prime, prime, top), monomial(prime, prime * source.randrange(1, prime), total - top))
        a = some(source, prime, LIMIT)
        divisors = [monomial(prime, c, source.randrange(WIDTH)) for c in (prime, 2, modulus(prime) - 1)]
        yield from (Case(DIVISION, a, b) for b in (polynomial(prime), *divisors, monomial(prime, 1, LIMIT)))
        divisor = some_monic(source, prime, source.randrange(WIDTH))
        quotient = some(source, prime, LIMIT - arithmetic.degree(divisor.coefficients))
        yield Case(DIVISION, arithmetic.multiply(divisor, quotient).records[0], divisor)


ARITHMETIC_KINDS = (
    pairs_of_later_primes,
    largest_coefficients,
    not_below_the_modulus,
    primes_not_taken,
    primes_that_differ,
    limits_of_products_and_divisors,
)

# ---- parts


def taken_of_later_primes(source: random.Random) -> Iterator[Record]:
    """Monic polynomials of all kinds."""
    yield from (polynomial(sheet.prime, *sheet.polynomial) for sheet in of_each_prime(source, wide_sheets(), 20))


def not_taken_of_later_primes(source: random.Random) -> Iterator[Record]:
    """Primes that are not taken; one coefficient of p² or more; leading coefficients other than 1; the polynomial 1."""
    yield from (some_monic(source, 13, 3)._replace(prime=byte) for byte in NOT_PRIMES)
    for prime in LATER_PRIMES:
        yield from (with_coefficient(some_monic(source, prime, 3), source.randrange(WIDTH), value) for value in (modulus(prime), 65535))
        yield with_coefficient(some(source, prime, 4), 4, source.choice((prime, 2, modulus(prime) - 1)))
        yield polynomial(prime, 1)


PART_KINDS = (taken_of_later_primes, not_taken_of_later_primes)
