"""The cases on which the library's arithmetic is compared with the reference: one function for each kind of case.

Each kind is handed its own source of random numbers with a fixed seed, so the cases are the same in every run.
"""

import random
from typing import Iterator, NamedTuple, Optional

import arithmetic
from arithmetic import FIRST_PRIMES, LIMIT, WIDTH, Record, modulus
from records import maximal, maximal_monic, monomial, polynomial, some, some_monic, with_coefficient

ZERO, ONE, X, SUM, DIFFERENCE, PRODUCT, DIVISION = range(7)
NAMED = (ZERO, ONE, X)
BINARY = (SUM, DIFFERENCE, PRODUCT, DIVISION)
NOT_PRIMES = (0, 1, 4, 6, 8, 9, 255)
DEGREES = (None, *range(WIDTH))


class Case(NamedTuple):
    """One call: the operation and the two records it is handed."""

    operation: int
    a: Record
    b: Record


def some_pair(source: random.Random, operation: int, prime: int) -> tuple:
    """Two random records that the operation takes."""
    top_a = source.randrange(WIDTH)
    if operation == DIVISION:
        return some(source, prime, top_a), some_monic(source, prime, source.randrange(WIDTH))
    top_b = source.randrange(WIDTH - top_a) if operation == PRODUCT else source.randrange(WIDTH)
    return some(source, prime, top_a), some(source, prime, top_b)


def every_prime_byte(source: random.Random) -> Iterator[Case]:
    """Zero, one and x for all 256 bytes."""
    for operation in NAMED:
        for prime in range(256):
            yield Case(operation, polynomial(prime), polynomial(0))


def every_degree(source: random.Random) -> Iterator[Case]:
    """Records that are taken, either one of every degree and zero."""
    for operation in BINARY:
        for prime in FIRST_PRIMES:
            for top in DEGREES:
                yield from pairs_with_degree(source, operation, prime, top)


def pairs_with_degree(source: random.Random, operation: int, prime: int, top: Optional[int]) -> Iterator[Case]:
    """The first record of this degree, then the second, the other one random as far as the operation takes it."""
    if operation == DIVISION:
        yield Case(operation, some(source, prime, top), some_monic(source, prime, source.randrange(WIDTH)))
        if top is not None:
            yield Case(operation, some(source, prime, source.randrange(WIDTH)), some_monic(source, prime, top))
    else:
        room = LIMIT - (top or 0) if operation == PRODUCT else LIMIT
        yield Case(operation, some(source, prime, top), some(source, prime, source.randrange(room + 1)))
        yield Case(operation, some(source, prime, source.randrange(room + 1)), some(source, prime, top))


def improper_prime(source: random.Random) -> Iterator[Case]:
    """A prime that is not taken: in the first record, in the second and in both."""
    for operation in BINARY:
        for prime in FIRST_PRIMES:
            for bad in NOT_PRIMES:
                a, b = some_pair(source, operation, prime)
                yield Case(operation, a._replace(prime=bad), b)
                yield Case(operation, a, b._replace(prime=bad))
                yield Case(operation, a._replace(prime=bad), b._replace(prime=bad))


def improper_coefficient(source: random.Random) -> Iterator[Case]:
    """Exactly one coefficient of p² or more, lowest, middle or highest, in the first record, in the second and in both."""
    for operation in BINARY:
        for prime in FIRST_PRIMES:
            for index in (0, source.randrange(1, LIMIT), LIMIT):
                for value in (modulus(prime), modulus(prime) + 1, 65535):
                    a, b = some_pair(source, operation, prime)
                    bad_a, bad_b = with_coefficient(a, index, value), with_coefficient(b, index, value)
                    yield from (Case(operation, bad_a, b), Case(operation, a, bad_b), Case(operation, bad_a, bad_b))


def extreme_bytes(source: random.Random) -> Iterator[Case]:
    """Records of the byte 0 or of the byte 255 throughout, and every coefficient 65,535 with a taken prime."""
    largest = (65535,) * WIDTH
    for operation in BINARY:
        a, b = some_pair(source, operation, 7)
        for bad in (Record(0, (0,) * WIDTH), Record(255, largest), Record(7, largest)):
            yield from (Case(operation, bad, b), Case(operation, a, bad), Case(operation, bad, bad))


def different_primes(source: random.Random) -> Iterator[Case]:
    """Primes that differ: with nothing else at fault, with 10 as well, and with what 12 or 13 would refuse as well."""
    for operation in BINARY:
        for prime_a in FIRST_PRIMES:
            for prime_b in FIRST_PRIMES:
                if prime_a != prime_b:
                    yield from pairs_with_primes(source, operation, prime_a, prime_b)


def pairs_with_primes(source: random.Random, operation: int, prime_a: int, prime_b: int) -> Iterator[Case]:
    """Cases with these two primes. Each record's coefficients are judged by its own prime, up to p² − 1 and p²."""
    a, b = some_pair(source, operation, prime_a)[0], some_pair(source, operation, prime_b)[1]
    index = source.randrange(WIDTH)
    yield Case(operation, a, b)
    yield Case(operation, maximal(prime_a, LIMIT), maximal(prime_b, LIMIT))
    yield Case(operation, with_coefficient(a, index, modulus(prime_a)), b)
    yield Case(operation, a, with_coefficient(b, index, modulus(prime_b)))
    yield Case(operation, some(source, prime_a, LIMIT), polynomial(prime_b))


def zero_factors(source: random.Random) -> Iterator[Case]:
    """Products with zero on either side, the other factor of degree 32, 0 or none."""
    for prime in FIRST_PRIMES:
        for top in (LIMIT, 0, None):
            yield Case(PRODUCT, polynomial(prime), some(source, prime, top))
            yield Case(PRODUCT, some(source, prime, top), polynomial(prime))


def degrees_at_the_limit(source: random.Random) -> Iterator[Case]:
    """Products whose degrees add to 31, 32, 33 and 64, shared out in every way."""
    for prime in FIRST_PRIMES:
        for total in (LIMIT - 1, LIMIT, LIMIT + 1, 2 * LIMIT):
            for top in range(max(0, total - LIMIT), min(LIMIT, total) + 1):
                yield Case(PRODUCT, some(source, prime, top), some(source, prime, total - top))


def vanishing_leading_products(source: random.Random) -> Iterator[Case]:
    """Leading coefficients that multiply to 0 modulo p², degrees adding to 32 and 33: number 12 goes by the degrees."""
    for prime in FIRST_PRIMES:
        for total in (LIMIT, LIMIT + 1):
            for top in range(total - LIMIT, WIDTH, 4):
                yield Case(PRODUCT, monomial(prime, prime, top), monomial(prime, prime, total - top))
                a, b = some(source, prime, top), some(source, prime, total - top)
                multiple = prime * source.randrange(1, prime)
                yield Case(PRODUCT, with_coefficient(a, top, prime), with_coefficient(b, total - top, multiple))


def divisors_not_monic(source: random.Random) -> Iterator[Case]:
    """Divisors that are zero, lead with a unit other than 1, or lead with a multiple of p; of every size against the dividend."""
    for prime in FIRST_PRIMES:
        for top in (None, 0, 1, 16, LIMIT):
            yield Case(DIVISION, some(source, prime, top), polynomial(prime))
        units = [c for c in range(2, modulus(prime)) if c % prime != 0]
        for top in (0, 1, 2, 15, 16, 17, LIMIT - 1, LIMIT):
            dividend, divisor = some(source, prime, 16), some(source, prime, top)
            unit = units[source.randrange(len(units))]
            multiple = prime * source.randrange(1, prime)
            yield Case(DIVISION, dividend, with_coefficient(divisor, top, unit))
            yield Case(DIVISION, dividend, with_coefficient(divisor, top, multiple))
            yield Case(DIVISION, dividend, monomial(prime, modulus(prime) - 1, top))


def divisors_of_note(source: random.Random) -> Iterator[Case]:
    """The divisors 1, x and x^32, and equal, next higher and next lower degrees; the dividend zero with each of them."""
    for prime in FIRST_PRIMES:
        powers_of_x = [monomial(prime, 1, index) for index in (0, 1, LIMIT)]
        for divisor in (*powers_of_x, some_monic(source, prime, LIMIT)):
            for top in (None, 0, 1, 16, LIMIT - 1, LIMIT):
                yield Case(DIVISION, some(source, prime, top), divisor)
            yield Case(DIVISION, divisor, divisor)
        for top in (0, 1, 2, 9, 16, 31):
            for top_divisor in (top - 1, top, top + 1):
                if top_divisor >= 0:
                    yield Case(DIVISION, some(source, prime, top), some_monic(source, prime, top_divisor))
            yield Case(DIVISION, polynomial(prime), some_monic(source, prime, top))


def divisions_without_remainder(source: random.Random) -> Iterator[Case]:
    """Dividends that are a product of the divisor, and the same with 1 added."""
    for prime in FIRST_PRIMES:
        for top in (0, 1, 2, 5, 11, 16, 21, 27, 30, 31, LIMIT):
            divisor = some_monic(source, prime, top)
            dividend = arithmetic.multiply(divisor, some(source, prime, LIMIT - top)).records[0]
            yield Case(DIVISION, dividend, divisor)
            yield Case(DIVISION, arithmetic.add(dividend, polynomial(prime, 1)).records[0], divisor)


def maximal_coefficients(source: random.Random) -> Iterator[Case]:
    """Every coefficient p² − 1: the largest whole numbers that the operations meet."""
    for prime in FIRST_PRIMES:
        full = maximal(prime, LIMIT)
        yield from (Case(SUM, full, full), Case(DIFFERENCE, polynomial(prime), full), Case(DIFFERENCE, full, full))
        for top in range(WIDTH):
            yield Case(DIVISION, full, maximal_monic(prime, top))
            if top % 2 == 0:
                yield Case(PRODUCT, maximal(prime, top), maximal(prime, LIMIT - top))


def cancelling(source: random.Random) -> Iterator[Case]:
    """Sums and differences that come to zero, or lose their leading coefficient, and those with zero on one side."""
    for prime in FIRST_PRIMES:
        for top in (0, 1, 7, 16, 31, LIMIT):
            a = some(source, prime, top)
            negative = arithmetic.subtract(polynomial(prime), a).records[0]
            lower = with_coefficient(some(source, prime, top), top, a.coefficients[top])
            yield from (Case(SUM, a, negative), Case(SUM, negative, a), Case(DIFFERENCE, a, a), Case(DIFFERENCE, a, lower))
            yield from (Case(SUM, a, polynomial(prime)), Case(SUM, polynomial(prime), a))
            yield from (Case(DIFFERENCE, a, polynomial(prime)), Case(DIFFERENCE, polynomial(prime), a))


KINDS = (
    every_prime_byte,
    every_degree,
    improper_prime,
    improper_coefficient,
    extreme_bytes,
    different_primes,
    zero_factors,
    degrees_at_the_limit,
    vanishing_leading_products,
    divisors_not_monic,
    divisors_of_note,
    divisions_without_remainder,
    maximal_coefficients,
    cancelling,
)
