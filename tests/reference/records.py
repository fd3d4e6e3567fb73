"""Polynomial records made for cases and tests: given, random of a given degree, and the largest ones."""

import random
from typing import Optional

from arithmetic import WIDTH, Record, modulus


def polynomial(prime: int, *coefficients: int) -> Record:
    """The record with these coefficients, constant first, and 0 above them; they are taken as they are, good or not."""
    return Record(prime, coefficients + (0,) * (WIDTH - len(coefficients)))


def monomial(prime: int, coefficient: int, index: int) -> Record:
    """One coefficient at one index, the rest 0."""
    return with_coefficient(polynomial(prime), index, coefficient)


def with_coefficient(record: Record, index: int, value: int) -> Record:
    """The record with one coefficient exchanged."""
    coefficients = list(record.coefficients)
    coefficients[index] = value
    return Record(record.prime, tuple(coefficients))


def some(source: random.Random, prime: int, top: Optional[int]) -> Record:
    """A random polynomial of the given degree, or the zero polynomial."""
    if top is None:
        return polynomial(prime)
    low = [source.randrange(modulus(prime)) for _ in range(top)]
    return polynomial(prime, *low, source.randrange(1, modulus(prime)))


def some_monic(source: random.Random, prime: int, top: int) -> Record:
    """A random monic polynomial of the given degree."""
    return with_coefficient(some(source, prime, top), top, 1)


def maximal(prime: int, top: int) -> Record:
    """The polynomial of the given degree with every coefficient p² − 1."""
    return polynomial(prime, *[modulus(prime) - 1] * (top + 1))


def maximal_monic(prime: int, top: int) -> Record:
    """The monic polynomial of the given degree with every lower coefficient p² − 1."""
    return with_coefficient(maximal(prime, top), top, 1)
