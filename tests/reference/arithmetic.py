"""The public arithmetic on polynomial records, written from document 01, for the primes of request 5 of document 02.

Zero, one, x, sum, difference, product and division, with the numbers 10 to 13.
Every result is worked out over the whole numbers by the school method and reduced modulo p² once, at the end.
"""

from typing import NamedTuple, Optional, Sequence

# "All 54 primes below 256 are taken"; the first four are those of document 01.
TAKEN_PRIMES = tuple(n for n in range(2, 256) if all(n % d != 0 for d in range(2, n)))
FIRST_PRIMES, LATER_PRIMES = TAKEN_PRIMES[:4], TAKEN_PRIMES[4:]
LIMIT = 32
WIDTH = LIMIT + 1


class Record(NamedTuple):
    """ "A polynomial record has a prime and 33 coefficients, constant first." """

    prime: int
    coefficients: tuple


class Answer(NamedTuple):
    """What a call gives back: number, place and one record, or two (quotient, remainder) from a division."""

    number: int
    place: int
    records: tuple


def modulus(prime: int) -> int:
    """The number p² that the coefficients are taken modulo."""
    return prime * prime


def is_proper(record: Record) -> bool:
    """ "It is proper if the prime is" taken "and every coefficient is below p²." """
    return record.prime in TAKEN_PRIMES and all(c < modulus(record.prime) for c in record.coefficients)


def degree(coefficients: Sequence[int]) -> Optional[int]:
    """The highest index with a coefficient other than 0. "The zero polynomial has no degree." """
    for index in range(len(coefficients) - 1, -1, -1):
        if coefficients[index] != 0:
            return index
    return None


def is_monic(coefficients: Sequence[int]) -> bool:
    """Whether there is a leading coefficient and it is 1; so the zero polynomial is not monic."""
    top = degree(coefficients)
    return top is not None and coefficients[top] == 1


def record_of(prime: int, numbers: Sequence[int]) -> Record:
    """The record of a polynomial over the whole numbers: reduced modulo p², 33 places."""
    reduced = [number % modulus(prime) for number in numbers]
    assert not any(reduced[WIDTH:])
    return Record(prime, tuple((reduced + [0] * WIDTH)[:WIDTH]))


# "with the zero polynomial of prime 2"
REFUSED = Record(2, (0,) * WIDTH)


def given(*records: Record) -> Answer:
    """ "Success gives number 0, place 0" """
    return Answer(0, 0, records)


def refused(number: int, records: int = 1) -> Answer:
    """ "The arithmetic gives only 10 to 13, [..] place 0, with the zero polynomial of prime 2." """
    return Answer(number, 0, (REFUSED,) * records)


def named(prime: int, numbers: Sequence[int]) -> Answer:
    """ "Zero, one and x are had for a given prime; a number that is no taken prime is turned back as 10." """
    return given(record_of(prime, numbers)) if prime in TAKEN_PRIMES else refused(10)


def zero(prime: int) -> Answer:
    """The zero polynomial for a given prime."""
    return named(prime, [0])


def one(prime: int) -> Answer:
    """The polynomial 1 for a given prime."""
    return named(prime, [1])


def x(prime: int) -> Answer:
    """The polynomial x for a given prime."""
    return named(prime, [0, 1])


def pair_fault(a: Record, b: Record) -> int:
    """10, "a record handed to the arithmetic is not proper", before 11, "the two records' primes differ"; 0 if neither."""
    if not (is_proper(a) and is_proper(b)):
        return 10
    if a.prime != b.prime:
        return 11
    return 0


def product_fault(a: Record, b: Record) -> int:
    """12: "Neither factor of a product is zero and their degrees add to more than 32", whatever the product would be."""
    degree_a, degree_b = degree(a.coefficients), degree(b.coefficients)
    if degree_a is None or degree_b is None:
        return 0
    return 12 if degree_a + degree_b > LIMIT else 0


def division_fault(divisor: Record) -> int:
    """13: "The divisor is not monic." """
    return 0 if is_monic(divisor.coefficients) else 13


def add(a: Record, b: Record) -> Answer:
    """The sum of two records."""
    fault = pair_fault(a, b)
    if fault:
        return refused(fault)
    return given(record_of(a.prime, [s + t for s, t in zip(a.coefficients, b.coefficients)]))


def subtract(a: Record, b: Record) -> Answer:
    """The difference of two records."""
    fault = pair_fault(a, b)
    if fault:
        return refused(fault)
    return given(record_of(a.prime, [s - t for s, t in zip(a.coefficients, b.coefficients)]))


def multiply(a: Record, b: Record) -> Answer:
    """The product of two records."""
    fault = pair_fault(a, b) or product_fault(a, b)
    if fault:
        return refused(fault)
    return given(record_of(a.prime, long_product(a.coefficients, b.coefficients)))


def divide(a: Record, b: Record) -> Answer:
    """ "Division by a monic divisor gives the one quotient and the one remainder that is zero or of lower degree." """
    fault = pair_fault(a, b) or division_fault(b)
    if fault:
        return refused(fault, records=2)
    quotient, remainder = long_division(a.coefficients, b.coefficients)
    return given(record_of(a.prime, quotient), record_of(a.prime, remainder))


def long_product(a: Sequence[int], b: Sequence[int]) -> list:
    """The product over the whole numbers: every term of a times every term of b."""
    product = [0] * (len(a) + len(b) - 1)
    for i, s in enumerate(a):
        for j, t in enumerate(b):
            product[i + j] += s * t
    return product


def long_division(dividend: Sequence[int], divisor: Sequence[int]) -> tuple:
    """Quotient and remainder over the whole numbers. The divisor is monic, so no number has to be divided."""
    top = degree(divisor)
    remainder = list(dividend)
    quotient = [0] * len(remainder)
    for shift in range(len(remainder) - 1 - top, -1, -1):
        quotient[shift] = remainder[shift + top]
        for index in range(top + 1):
            remainder[shift + index] -= quotient[shift] * divisor[index]
    return quotient, remainder
