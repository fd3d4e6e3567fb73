"""Request 3 of document 02: the lines that fitters type, and the sheet that each gives.

15 comes from a chart over the bytes (Earley's): after each byte it has every place in the rules that some line can be at, so the first byte after which it has
none is "the first byte with which no line can go on". The signs are put in order by a stack of those that wait, without a tree; a value is one whole number,
with the coefficients side by side in it. The library reads by functions that call each other, and works on arrays.
"""

import re
from typing import Dict, Iterable, Iterator, List, NamedTuple, Optional, Tuple

from arithmetic import LIMIT, TAKEN_PRIMES
from sheets import Refusal, Sheet

LINE_LIMIT, NUMBER_LIMIT, EXPONENT_LIMIT = 255, 65535, 32

# ---- 15

# What a line is made of; `blanks` is any number of them, none too. No rule gives the empty string, and each gives some string.
RULES = {
    "line": ("number blanks : blanks expression",),
    "expression": ("product", "expression blanks + blanks product", "expression blanks - blanks product"),
    "product": ("power", "product blanks * blanks power"),
    "power": ("term", "term blanks ^ blanks number"),
    "term": ("number", "x", "( blanks expression blanks )"),
    "number": ("digit", "number digit"),
}
BODIES = {kind: [tuple(body.split()) for body in bodies] for kind, bodies in RULES.items()}
SYMBOLS = [{32: "blanks", **dict.fromkeys(b"0123456789", "digit")}.get(byte, chr(byte)) for byte in range(256)]


# A rule that some line is in: what it gives, what is still to come of it, and where it began.
Item = Tuple[str, tuple, int]
# The items after some bytes, by the symbol that is to come next; those with nothing to come are under "".
Items = Dict[str, List[Item]]


def following(item: Item, here: int, charts: List[Items]) -> Iterable[Item]:
    """What can be said with an item and no further byte: that a rule ended or may begin, or that no more blanks stand here."""
    kind, rest, start = item
    if not rest:
        return [(of, after[1:], since) for of, after, since in charts[start].get(kind, ())]
    if rest[0] == "blanks":
        return [(kind, rest[1:], start)]
    return [(rest[0], body, here) for body in BODIES.get(rest[0], ())]


def completed(items: Iterable[Item], charts: List[Items]) -> Items:
    """These items, and all that follow from them at the same place."""
    ahead, here = list(items), len(charts)
    found, by_symbol = set(ahead), {}
    while ahead:
        item = ahead.pop()
        by_symbol.setdefault(item[1][0] if item[1] else "", []).append(item)
        more = set(following(item, here, charts)) - found
        found |= more
        ahead += more
    return by_symbol


def after_byte(items: Items, byte: int) -> List[Item]:
    """The items with which the byte can go on. More blanks may follow a blank."""
    symbol = SYMBOLS[byte]
    if symbol == "blanks":
        return items.get(symbol, [])
    return [(kind, rest[1:], start) for kind, rest, start in items.get(symbol, ())]


def place_of_fault(line: bytes) -> Optional[int]:
    """ "not such a line, at the first byte with which no line can go on or at the line's length"; None for a line."""
    charts: List[Items] = []
    charts.append(completed([("line", body, 0) for body in BODIES["line"]], charts))
    for place, byte in enumerate(line):
        items = after_byte(charts[-1], byte)
        if not items:
            return place
        charts.append(completed(items, charts))
    return None if ("line", (), 0) in charts[-1].get("", ()) else len(line)


# ---- signs in their order


def signs_of(line: bytes) -> List[str]:
    """The numbers and the other signs, without the blanks."""
    return re.findall("[0-9]+|[^ ]", line.decode("ascii"))


# What is worked out before a sign is: of equals, what stands left of it.
BEFORE = {"*": "*", "+": "*+-", "-": "*+-", ")": "*+-"}


class Step(NamedTuple):
    """A number, x, `^` with its exponent, or `*`, `+` or `-` of the last two values."""

    sign: str
    number: int = 0


def in_order(signs: Iterable[str]) -> Iterator[Step]:
    """The steps of an expression, values before what is done with them.

    "A power binds before a product and a product before a sum; equals go left to right." """
    waiting: List[str] = []
    signs = iter(signs)
    for sign in signs:
        if sign.isdigit():
            yield Step("number", int(sign))
        elif sign == "x":
            yield Step(sign)
        elif sign == "^":
            yield Step(sign, int(next(signs)))
        elif sign == "(":
            waiting.append(sign)
        else:
            while waiting and waiting[-1] in BEFORE[sign]:
                yield Step(waiting.pop())
            if sign == ")":
                waiting.pop()
            else:
                waiting.append(sign)
    yield from map(Step, reversed(waiting))


def is_large(step: Step) -> bool:
    """16: "a number over 65,535 or an exponent over 32" """
    return step.number > (EXPONENT_LIMIT if step.sign == "^" else NUMBER_LIMIT)


# ---- values

# Bits for a coefficient: those of a sum, a product or a power that is allowed, worked out over the whole numbers, have fewer than 550.
WIDTH = 1024
X = 1 << WIDTH
ONES = sum(1 << WIDTH * i for i in range(LIMIT + 1))


def coefficients(value: int) -> List[int]:
    """The coefficients of a packed polynomial, constant first; none for zero."""
    count, size = -(-value.bit_length() // WIDTH), WIDTH // 8
    data = value.to_bytes(count * size, "little")
    return [int.from_bytes(data[size * i : size * (i + 1)], "little") for i in range(count)]


def modulo(n: int, value: int) -> int:
    """Each coefficient modulo n."""
    return sum(c % n << WIDTH * i for i, c in enumerate(coefficients(value)))


def degree(value: int) -> int:
    """The degree of a packed polynomial other than zero."""
    return (value.bit_length() - 1) // WIDTH


def allowed(height: int) -> None:
    """17: "whose degrees call for more than 32" """
    if height > LIMIT:
        raise Refusal(17, 0)


def value_of(n: int, steps: Iterable[Step]) -> int:
    """The value modulo n, each step over the whole numbers and then reduced. "The zeroth power is 1", as in Python."""
    values: List[int] = []
    for sign, number in steps:
        if sign in ("number", "x"):
            values.append(number % n if sign == "number" else X)
            continue
        g = values.pop()
        if sign == "^":
            allowed(number * degree(g) if g else 0)
            values.append(modulo(n, g**number))
            continue
        f = values.pop()
        if sign == "*":
            allowed(degree(f) + degree(g) if f and g else 0)
            values.append(modulo(n, f * g))
        else:
            values.append(modulo(n, f + g if sign == "+" else f + n * ONES - g))
    return values.pop()


# ---- the checks


def sheet_of_line(line: bytes) -> Sheet:
    """ "first 15 [..]; then 16, place 0, a line over 255 bytes (tested before 15), a number over 65,535 or an exponent over 32; then 4 [..]; then 17" """
    if len(line) > LINE_LIMIT:
        raise Refusal(16, 0)
    fault = place_of_fault(line)
    if fault is not None:
        raise Refusal(15, fault)
    first, _, *signs = signs_of(line)
    prime, steps = int(first), list(in_order(signs))
    if prime > NUMBER_LIMIT or any(map(is_large, steps)):
        raise Refusal(16, 0)
    if prime not in TAKEN_PRIMES:
        raise Refusal(4, 0)
    polynomial = coefficients(value_of(prime * prime, steps))
    if len(polynomial) < 2 or polynomial[-1] != 1:
        raise Refusal(17, 0)
    return Sheet(prime, polynomial)
