"""The rules of typed lines tried out: every reading of a string, by all of its spans, and every line of a length. For the tests of typed_lines.py."""

import functools
import re

from known_lines import Tree
from typed_lines import BODIES


class Spans:
    """Every way in which the rules give the bytes from one place up to another: the definition, and no way of reading."""

    def __init__(self, text: str):
        self.text = text
        self.readings = functools.lru_cache(maxsize=None)(self.readings_of)

    def blanks(self, i: int, j: int) -> bool:
        return not self.text[i:j].strip(" ")

    def joined(self, left: str, signs: str, right: str, i: int, j: int) -> list:
        """A piece, a sign with blanks about it, and a piece."""
        found = []
        for place in range(i + 1, j - 1):
            if self.text[place] in signs:
                lefts = [a for end in range(i + 1, place + 1) if self.blanks(end, place) for a in self.readings(left, i, end)]
                rights = [b for begin in range(place + 1, j) if self.blanks(place + 1, begin) for b in self.readings(right, begin, j)]
                found += [Tree(self.text[place], a, b) for a in lefts for b in rights]
        return found

    def readings_of(self, kind: str, i: int, j: int) -> list:
        text = self.text[i:j]
        if kind == "number":
            return [int(text)] if re.fullmatch("[0-9]+", text) else []
        if kind == "term":
            inner = self.bracketed(i, j) if text[:1] == "(" and text[-1:] == ")" else []
            return self.readings("number", i, j) + (["x"] if text == "x" else []) + inner
        if kind == "power":
            return self.readings("term", i, j) + self.joined("term", "^", "number", i, j)
        if kind == "product":
            return self.readings("power", i, j) + self.joined("product", "*", "power", i, j)
        if kind == "expression":
            return self.readings("product", i, j) + self.joined("expression", "+-", "product", i, j)
        return self.joined("number", ":", "expression", i, j)

    def bracketed(self, i: int, j: int) -> list:
        """An expression in round brackets, with blanks about it."""
        return [
            t
            for begin in range(i + 1, j - 1)
            for end in range(begin + 1, j)
            if self.blanks(i + 1, begin) and self.blanks(end, j - 1)
            for t in self.readings("expression", begin, end)
        ]


def readings(text: str) -> list:
    """All readings of a line, each as a tree with the colon at its root."""
    return Spans(text).readings("line", 0, len(text))


@functools.lru_cache(maxsize=None)
def given_by(symbols: tuple, length: int) -> frozenset:
    """All strings of a length over a small alphabet that these symbols of a rule give."""
    if not symbols:
        return frozenset([""] if length == 0 else [])
    first, rest = symbols[0], symbols[1:]
    if first == "blanks":
        return frozenset(" " * count + text for count in range(length + 1) for text in given_by(rest, length - count))
    if first in BODIES:
        shorter = [(count, body) for count in range(1, length + 1) for body in BODIES[first] if count < length or not rest]
        return frozenset(a + b for count, body in shorter if (ends := given_by(rest, length - count)) for a in given_by(body, count) for b in ends)
    signs = "1" if first == "digit" else first
    return frozenset(sign + text for sign in signs for text in (given_by(rest, length - 1) if length else ()))
