"""Request 1 of document 02: after how many pulses a pattern begins again.

The order of x modulo f comes from the parts of f and the numbers that it can be at all, without any walk. The library walks in small and
great steps.
"""

import functools
import math
from typing import Optional

from factoring import bar_factors
from lifting import primary_part
from polynomials import degree, power_modulo, reduced

RUN_LIMIT = 65535
X = [0, 1]


@functools.lru_cache(maxsize=None)
def possible_orders(p: int, d: int) -> tuple:
    """The least common multiple of all numbers up to the limit that divide p^d − 1, and the primes among them."""
    everything = p**d - 1
    divisors = [n for n in range(1, RUN_LIMIT + 1) if everything % n == 0]
    primes = [n for n in divisors if n > 1 and all(n % smaller != 0 for smaller in divisors[1:] if smaller < n)]
    return math.lcm(*divisors), tuple(primes)


def order_modulo_base(p: int, base: list) -> Optional[int]:
    """The order of x modulo the irreducible G other than x modulo p; None if it is above the limit.

    It divides p^d − 1, d being the degree of G, for there are so many remainders other than 0. So if it is up to the limit, it is a possible one.
    """
    order, primes = possible_orders(p, degree(base))
    if power_modulo(p, X, order, base) != [1]:
        return None
    for prime in primes:
        while order % prime == 0 and power_modulo(p, X, order // prime, base) == [1]:
            order //= prime
    return order if order <= RUN_LIMIT else None


def order_modulo_part(p: int, order: int, part: list) -> Optional[int]:
    """The order of x modulo p² and a part over G: that modulo G times a power of p, for what is 1 modulo p and G has such an order; None above the limit."""
    value = power_modulo(p * p, X, order, part)
    while value != [1] and order <= RUN_LIMIT:
        value, order = power_modulo(p * p, value, p, part), order * p
    return order if order <= RUN_LIMIT else None


def run_length(p: int, f: list) -> int:
    """ "the least n from 1 to 65,535 for which f divides x^n − 1 modulo p², and 0 if there is none so small"; p does not divide f's constant."""
    orders = []
    for base, m in bar_factors(p, reduced(p, f)):
        order = order_modulo_base(p, base)
        if order is not None:
            order = order_modulo_part(p, order, primary_part(p, f, base, m))
        if order is None:
            return 0
        orders.append(order)
    run = math.lcm(*orders)
    return run if run <= RUN_LIMIT else 0
