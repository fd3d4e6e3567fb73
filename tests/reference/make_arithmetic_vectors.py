"""Writes the stored cases of the arithmetic, and what the reference gives for them, into the folder named on the command line.

stdin   cases of 135 bytes: operation, record a, record b; a record is its prime and 33 coefficients of two bytes, low byte first
stdout  one line for each case, `number place prime c0 .. c32`, a division's with ` | prime c0 .. c32` after it; then `cases N`
"""

import sys

import arithmetic
from arithmetic import Answer, Record
from arithmetic_cases import DIFFERENCE, DIVISION, KINDS, ONE, PRODUCT, SUM, X, ZERO, Case
from kinds import made_by
from stored import write_cases
from wide_record_cases import ARITHMETIC_KINDS as WIDE_KINDS

NAMED = {ZERO: arithmetic.zero, ONE: arithmetic.one, X: arithmetic.x}
BINARY = {
    SUM: arithmetic.add,
    DIFFERENCE: arithmetic.subtract,
    PRODUCT: arithmetic.multiply,
    DIVISION: arithmetic.divide,
}


def record_bytes(record: Record) -> bytes:
    """The prime, then each coefficient in two bytes, low byte first."""
    return bytes([record.prime]) + b"".join(c.to_bytes(2, "little") for c in record.coefficients)


def case_bytes(case: Case) -> bytes:
    """The operation and the two records: 135 bytes."""
    return bytes([case.operation]) + record_bytes(case.a) + record_bytes(case.b)


def answer_of(case: Case) -> Answer:
    """What the reference gives for a case."""
    if case.operation in NAMED:
        return NAMED[case.operation](case.a.prime)
    return BINARY[case.operation](case.a, case.b)


def answer_line(answer: Answer) -> str:
    """Number, place and the records, in base ten, one blank between two numbers."""
    records = [" ".join(map(str, (record.prime, *record.coefficients))) for record in answer.records]
    return "{} {} {}".format(answer.number, answer.place, " | ".join(records))


def main(folder: str) -> None:
    """Writes the two files."""
    write_cases(folder, KINDS + WIDE_KINDS, made_by, case_bytes, lambda case: answer_line(answer_of(case)))


if __name__ == "__main__":
    if len(sys.argv) != 2:
        sys.exit("usage: python3 tests/reference/make_arithmetic_vectors.py FOLDER")
    main(sys.argv[1])
