"""What can be found by trying everything, for small degrees: monic polynomials, irreducible ones, all factor lists; and runs by a walk."""

import itertools

from polynomials import degree, times


def monics(n: int, top: int) -> list:
    """All monic polynomials modulo n of one degree, coefficients compared from the highest power down, smaller first."""
    return [list(low[::-1]) + [1] for low in itertools.product(range(n), repeat=top)]


def monics_to(n: int, top: int) -> list:
    """All monic polynomials modulo n of degrees 1 to top, in the order of item 3."""
    return [f for d in range(1, top + 1) for f in monics(n, d)]


def lists_by_product(n: int, top: int) -> dict:
    """For each monic polynomial modulo n of degree 1 to top: all lists of such polynomials that multiply to it.

    Two orders of one list are given once.
    """
    members = monics_to(n, top)
    found = {}

    def extend(product: list, chosen: tuple, start: int) -> None:
        for position in range(start, len(members)):
            if degree(product) + degree(members[position]) > top:
                return
            longer = chosen + (tuple(members[position]),)
            new = times(n, product, members[position])
            found.setdefault(tuple(new), []).append(longer)
            extend(new, longer, position)

    extend([1], (), 0)
    return found


def irreducibles(n: int, top: int) -> set:
    """The monic polynomials modulo n of degree 1 to top that are not a product of two of degree 1 or more."""
    return {f for f, lists in lists_by_product(n, top).items() if lists == [(f,)]}


def walked_run(n: int, f: list, limit: int) -> int:
    """After how many pulses modulo the monic f the state 1 is there again; 0 if it is not after so many as the limit says."""
    first = [1] + [0] * (degree(f) - 1)
    state = first
    for pulses in range(1, limit + 1):
        top = state[-1]
        state = [(before - top * c) % n for before, c in zip([0, *state[:-1]], f)]
        if state == first:
            return pulses
    return 0
