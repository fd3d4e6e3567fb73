"""Item 2 of document 01: the primary part of f modulo p² that belongs to one G.

Each part is lifted by itself against everything else in f, in one step, with the cofactors of the extended Euclid.
"""

from factoring import quotient, remainder
from polynomials import divided, minus, plus, power, reduced, times


def cofactor(p: int, a: list, b: list) -> list:
    """Some t for which a divides t·b − 1 modulo p, a and b being coprime."""
    old, new = (a, []), (b, [1])
    while new[0]:
        digits, left = divided(p, old[0], new[0])
        old, new = new, (left, minus(p, old[1], times(p, digits, new[1])))
    assert len(old[0]) == 1
    return times(p, old[1], [pow(old[0][0], -1, p)])


def over_p(p: int, f: list) -> list:
    """The h with p·h = f modulo p², taken modulo p; p divides every coefficient of f."""
    assert all(c % p == 0 for c in f)
    return [c // p for c in f]


def primary_part(p: int, f: list, base: list, m: int) -> list:
    """ "For each G with power m there is exactly one monic primary part modulo p² whose bar is G to the m" """
    n = p * p
    bar = power(p, base, m)
    others = quotient(p, reduced(p, f), bar)
    error = over_p(p, minus(n, f, times(n, bar, others)))
    correction = remainder(p, times(p, cofactor(p, bar, others), error), bar)
    return plus(n, bar, [p * c for c in correction])
