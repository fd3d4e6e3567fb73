"""Writes the stored calls from typed lines to sheets into the folder named on the command line; their form is in call_vectors.py."""

import sys
from collections import Counter

from call_vectors import write_vectors
from splitter import Outcome, typed
from typed_cases import KINDS
from wide_line_cases import LINE_KINDS as WIDE_KINDS

NUMBERS: Counter = Counter()


def counted(line: bytes, area: bytes) -> Outcome:
    """The call, its number counted."""
    outcome = typed(line, area)
    NUMBERS[outcome.number] += 1
    return outcome


if __name__ == "__main__":
    if len(sys.argv) != 2:
        sys.exit("usage: python3 tests/reference/make_typed_vectors.py FOLDER")
    write_vectors(sys.argv[1], KINDS + WIDE_KINDS, counted)
    for number, count in sorted(NUMBERS.items()):
        print("{:5} with number {}".format(count, number))
