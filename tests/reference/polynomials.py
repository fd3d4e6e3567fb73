"""Polynomials modulo n as lists of coefficients, constant first, without zeros at the top; the empty list is zero.

Sum, difference, product, power, division, the product of a list and powers modulo a polynomial. The modulus n is a parameter: p or p².
"""


def trimmed(f: list) -> list:
    """The same polynomial without zeros at the top."""
    top = len(f)
    while top > 0 and f[top - 1] == 0:
        top -= 1
    return f[:top]


def reduced(n: int, f: list) -> list:
    """A polynomial over the whole numbers, modulo n. With n = p this is the bar of document 01."""
    return trimmed([c % n for c in f])


def degree(f: list) -> int:
    """The degree of a polynomial other than zero."""
    return len(f) - 1


def plus(n: int, f: list, g: list) -> list:
    """f + g."""
    width = max(len(f), len(g))
    return reduced(n, [s + t for s, t in zip(padded(f, width), padded(g, width))])


def minus(n: int, f: list, g: list) -> list:
    """f − g."""
    return plus(n, f, [-c for c in g])


def padded(f: list, width: int) -> list:
    """The coefficients of f and zeros up to the width."""
    return f + [0] * (width - len(f))


def times(n: int, f: list, g: list) -> list:
    """f·g."""
    product = [0] * (len(f) + len(g))
    for i, a in enumerate(f):
        for j, b in enumerate(g, i):
            product[j] += a * b
    return reduced(n, product)


def power(n: int, f: list, exponent: int) -> list:
    """f to the exponent; the zeroth power is 1."""
    return product_of(n, [f] * exponent)


def product_of(n: int, factors: list) -> list:
    """The product of a list; that of the empty list is 1."""
    product = [1]
    for factor in factors:
        product = times(n, product, factor)
    return product


def divided(n: int, f: list, g: list) -> tuple:
    """Quotient and remainder of f by g, whose leading coefficient is a unit modulo n."""
    inverse = pow(g[-1], -1, n)
    low, quotient, remainder = g[:-1], [], list(f)
    for shift in range(len(f) - len(g), -1, -1):
        digit = remainder.pop() * inverse % n
        quotient.append(digit)
        for i, c in enumerate(low, shift):
            remainder[i] -= digit * c
    return trimmed(quotient[::-1]), reduced(n, remainder)


def power_modulo(n: int, v: list, exponent: int, f: list) -> list:
    """v to the exponent modulo the monic f of degree 1 or more, by squares."""
    result = [1]
    for digit in bin(exponent)[2:]:
        result = divided(n, times(n, result, result), f)[1]
        if digit == "1":
            result = divided(n, times(n, result, v), f)[1]
    return result
