"""Writes the stored cases of the search for parts, and their answers, into the folder named on the command line.

stdin   records of 67 bytes: the prime and 33 coefficients of two bytes, low byte first
stdout  one line for each record, then `cases N`. A line is `number place`, then for each part ` | degree power verdict : base`,
        where m1 follows a split verdict, and for each of its factors ` ; times : factor`. A polynomial is given by its
        coefficients from the constant up to the leading 1
"""

import sys
from typing import NamedTuple

from arithmetic import Record, degree, is_monic, is_proper
from kinds import made_by
from make_arithmetic_vectors import record_bytes
from part_cases import KINDS
from parts import SPLIT, Part, parts_of
from polynomials import trimmed
from stored import write_cases
from wide_record_cases import PART_KINDS as WIDE_KINDS


class Found(NamedTuple):
    """What the test program gives for a record: number, place and the parts."""

    number: int
    place: int
    parts: list


def found(record: Record) -> Found:
    """The parts of a monic polynomial of degree 1 or more; any other record the test program turns back, with 10, 13 or 5."""
    if not is_proper(record):
        return Found(10, 0, [])
    if not is_monic(record.coefficients):
        return Found(13, 0, [])
    if degree(record.coefficients) == 0:
        return Found(5, 0, [])
    return Found(0, 0, parts_of(record.prime, trimmed(list(record.coefficients))))


def words(*numbers: int) -> str:
    """Numbers in base ten, one blank between two."""
    return " ".join(map(str, numbers))


def part_text(part: Part) -> str:
    """Degree, power, verdict, m1 if it is split, base, and the factors."""
    carried = [part.factors[0][1]] if part.verdict == SPLIT else []
    head = words(len(part.base) - 1, part.m, part.verdict, *carried)
    factors = ["{} : {}".format(count, words(*factor)) for factor, count in part.factors]
    return "{} : {}".format(head, " ; ".join([words(*part.base), *factors]))


def line_of(record: Record) -> str:
    """What the test program prints for a record."""
    answer = found(record)
    return " | ".join([words(answer.number, answer.place), *map(part_text, answer.parts)])


def main(folder: str) -> None:
    """Writes the two files."""
    write_cases(folder, KINDS + WIDE_KINDS, made_by, record_bytes, line_of)


if __name__ == "__main__":
    if len(sys.argv) != 2:
        sys.exit("usage: python3 tests/reference/make_part_vectors.py FOLDER")
    main(sys.argv[1])
