"""Polynomials made to have a given run length: parts modulo which x has orders that are chosen first.

For cases and for the tests of run_lengths.py, which finds the order from the polynomial.
"""

import functools
import random
from typing import Iterator, Optional

from arithmetic import LIMIT
from factoring import is_irreducible
from polynomials import degree, divided, minus, plus, power, power_modulo, product_of, times, trimmed
from run_lengths import X


def multiplicative_order(p: int, e: int) -> int:
    """The least d with p^d = 1 modulo e, p not dividing e: the degree of the irreducible polynomials modulo which x has the order e."""
    d, value = 1, p % e
    while value != 1 % e:
        d, value = d + 1, value * p % e
    return d


def prime_powers(number: int) -> list:
    """The primes that divide a number, each with its highest power that does."""
    found, candidate = [], 2
    while number > 1:
        k, number = divided_by(candidate, number)
        found += [(candidate, candidate**k)] if k else []
        candidate += 1
    return found


def divided_by(p: int, n: int) -> tuple:
    """k and e with n = p^k·e, p not dividing e."""
    k = 0
    while n % p == 0:
        k, n = k + 1, n // p
    return k, n


@functools.lru_cache(maxsize=None)
def some_irreducible(p: int, d: int) -> tuple:
    """An irreducible polynomial modulo p of the degree d."""
    source = random.Random("irreducible {} {}".format(p, d))
    while True:
        f = [source.randrange(p) for _ in range(d)] + [1]
        if is_irreducible(p, f):
            return tuple(f)


def element_of_order(p: int, e: int, field: list) -> list:
    """A polynomial of the order e modulo p and an irreducible one of degree d, e dividing p^d − 1."""
    source, everything = random.Random("order {} {}".format(p, e)), p ** degree(field) - 1
    while True:
        v = trimmed([source.randrange(p) for _ in range(degree(field))])
        root = power_modulo(p, v, everything // e, field) if v else []
        if root and all(power_modulo(p, root, e // q, field) != [1] for q, _ in prime_powers(e)):
            return root


def base_of_order(p: int, e: int) -> list:
    """An irreducible polynomial modulo p modulo which x has the order e: the product of all X − a^(p^i) for some a of that order."""
    field = list(some_irreducible(p, multiplicative_order(p, e)))
    root = element_of_order(p, e, field)
    product = [[1]]
    for _ in range(degree(field)):
        shifted = [[], *product]
        for i, c in enumerate(product):
            shifted[i] = minus(p, shifted[i], divided(p, times(p, c, root), field)[1])
        product, root = shifted, power_modulo(p, root, p, field)
    assert all(len(c) <= 1 for c in product)
    return [c[0] if c else 0 for c in product]


def root_of_unity_lift(p: int, base: list) -> list:
    """The one monic polynomial modulo p² over the irreducible G modulo which x keeps the order that it has modulo G.

    Its root is x^(p^d) modulo G, which is x with every factor of the form 1 + p·t gone. G there is p·r, and G − p·r is sought.
    """
    n = p * p
    root, value = power_modulo(n, X, p ** degree(base), base), []
    for c in reversed(base):
        value = plus(n, divided(n, times(n, value, root), base)[1], [c])
    return minus(n, base, value)


def groupings(numbers: list) -> Iterator[list]:
    """The products of all ways to put coprime numbers into groups."""
    if not numbers:
        yield []
        return
    for products in groupings(numbers[1:]):
        yield [numbers[0], *products]
        for i, product in enumerate(products):
            yield [*products[:i], numbers[0] * product, *products[i + 1 :]]


def orders_for(p: int, e: int) -> list:
    """Numbers whose least common multiple is e, p not dividing e, for which the degrees of their polynomials add to the least."""
    powers = [power_of_q for _, power_of_q in prime_powers(e)]
    return min(groupings(powers), key=lambda orders: sum(multiplicative_order(p, order) for order in orders))


def with_run(p: int, n: int) -> Optional[list]:
    """A monic polynomial modulo p² of degree 1 to 32 whose run length would be n were there no limit; None if none is found in this way.

    x − 1 to the power p^(k−2) + 1 has the run p^k, k being 2 or more: p² divides the first p^(k−2) binomials of p^k, and not all of those of p^(k−1).
    A lift of G other than the root-of-unity lift has p times the order modulo G.
    """
    k, e = divided_by(p, n)
    orders = orders_for(p, e) or ([1] if k < 2 else [])
    if sum(multiplicative_order(p, order) for order in orders) + (p ** (k - 2) + 1 if k >= 2 else 0) > LIMIT:
        return None
    parts = [root_of_unity_lift(p, base_of_order(p, order)) for order in orders]
    if k == 1:
        parts[0] = plus(p * p, parts[0], [p])
    if k >= 2:
        parts.append(power(p * p, [p * p - 1, 1], p ** (k - 2) + 1))
    return product_of(p * p, parts)
