"""Items 1 and 3 of document 01: the irreducible factors of a polynomial modulo p, with their powers, in order.

Square-free parts come by derivative and gcd, then products of equal degree by x^(p^d) − x, then single factors by
traces of polynomials from a source with a fixed seed, and whether these are squares (Cantor and Zassenhaus). The library
goes another way.
"""

import functools
import random

from polynomials import degree, divided, minus, plus, power_modulo, reduced, times, trimmed

X = [0, 1]


def monic(p: int, f: list) -> list:
    """f divided by its leading coefficient."""
    return times(p, f, [pow(f[-1], -1, p)])


def quotient(p: int, f: list, g: list) -> list:
    """f / g, where g divides f."""
    result, remainder = divided(p, f, g)
    assert remainder == []
    return result


def remainder(p: int, f: list, g: list) -> list:
    """What f leaves by g."""
    return divided(p, f, g)[1]


def gcd(p: int, f: list, g: list) -> list:
    """The monic greatest common divisor of two polynomials that are not both zero."""
    while g:
        f, g = g, remainder(p, f, g)
    return monic(p, f)


def derivative(p: int, f: list) -> list:
    """The formal derivative."""
    return reduced(p, [i * c for i, c in enumerate(f)][1:])


def powers_of_x_to_the_p(p: int, f: list) -> list:
    """x^(p·i) modulo f for i below the degree of f."""
    step = power_modulo(p, X, p, f)
    powers = [[1]]
    while len(powers) < degree(f):
        powers.append(remainder(p, times(p, powers[-1], step), f))
    return powers


def p_th_power(p: int, v: list, powers: list) -> list:
    """v^p modulo f, v being reduced and f that of the powers of x^p. Modulo p that is v(x^p)."""
    total = [0] * len(powers)
    for c, row in zip(v, powers):
        for i, digit in enumerate(row):
            total[i] += c * digit
    return reduced(p, total)


def square_free(p: int, f: list) -> list:
    """Pairs (a, m) of square-free monic a of degree 1 or more, coprime to each other, whose powers multiply to the monic f."""
    pairs, m = [], 1
    rest = gcd(p, f, derivative(p, f))
    radical = quotient(p, f, rest)
    while radical != [1]:
        common = gcd(p, radical, rest)
        if radical != common:
            pairs.append((quotient(p, radical, common), m))
        radical, rest, m = common, quotient(p, rest, common), m + 1
    if rest != [1]:
        # Only powers divisible by p are left, so the rest is some v(x^p), which is v(x)^p.
        pairs += [(a, p * k) for a, k in square_free(p, rest[::p])]
    return pairs


def distinct_degree(p: int, f: list) -> list:
    """Pairs (a, d): a is the product of the irreducible factors of degree d of the square-free monic f."""
    pairs, d, frobenius = [], 0, X
    powers = powers_of_x_to_the_p(p, f) if degree(f) > 1 else []
    while degree(f) > 2 * d + 1:
        d += 1
        frobenius = p_th_power(p, frobenius, powers)
        common = gcd(p, f, minus(p, frobenius, X))
        if common != [1]:
            pairs.append((common, d))
            f = quotient(p, f, common)
    return pairs + ([(f, degree(f))] if f != [1] else [])


def is_irreducible(p: int, f: list) -> bool:
    """The monic f has no factor in common with x^(p^d) − x for the d up to half its degree, so none of such a degree."""
    frobenius, powers = power_modulo(p, X, p, f), []
    for _ in range(degree(f) // 2):
        if gcd(p, f, minus(p, frobenius, X)) != [1]:
            return False
        powers = powers or powers_of_x_to_the_p(p, f)
        frobenius = p_th_power(p, frobenius, powers)
    return True


def trace(p: int, v: list, d: int, f: list) -> list:
    """v + v^p + .. + v^(p^(d−1)) modulo f, v being reduced. Modulo an irreducible factor of degree d it is one of the numbers 0 to p − 1."""
    total = v
    powers = powers_of_x_to_the_p(p, f) if d > 1 else []
    for _ in range(d - 1):
        v = p_th_power(p, v, powers)
        total = plus(p, total, v)
    return total


def equal_degree(p: int, f: list, d: int, source: random.Random) -> list:
    """The irreducible factors of f, which is a product of different ones of degree d.

    Modulo each of them a trace is a number; of an odd p its power (p − 1)/2 is 0, 1 or −1, as it is zero, a square or none.
    """
    if degree(f) == d:
        return [f]
    v = trimmed([source.randrange(p) for _ in range(degree(f))])
    value = trace(p, v, d, f)
    if p > 2:
        value = power_modulo(p, value, (p - 1) // 2, f)
    pieces = [gcd(p, f, minus(p, value, [c])) for c in sorted({0, 1, p - 1})]
    return [factor for piece in pieces if piece != [1] for factor in equal_degree(p, piece, d, source)]


@functools.lru_cache(maxsize=4096)
def pairs_of_factors(p: int, f: tuple) -> tuple:
    """The pairs (G, m) of item 1, in the order of item 3, kept for the next time."""
    source = random.Random(0)
    pairs = [
        (factor, m)
        for part, m in square_free(p, list(f))
        for product, d in distinct_degree(p, part)
        for factor in equal_degree(p, product, d, source)
    ]
    return tuple(sorted(pairs, key=lambda pair: (degree(pair[0]), pair[0][::-1])))


def bar_factors(p: int, f: list) -> list:
    """The pairs (G, m) of item 1 for a monic f modulo p, in the order of item 3."""
    return [(list(base), m) for base, m in pairs_of_factors(p, tuple(f))]
