"""Writes stored cases of the calls on bytes, and what the reference gives for them.

stdin   for each case its length and the length of the answer area, two bytes each, low byte first, then its bytes
stdout  one line for each case, `number place count`, and the bytes written in hexadecimal if there are any; then `cases N`
"""

from typing import Callable, Sequence

from kinds import made_by
from sheet_cases import Call
from splitter import Outcome
from stored import write_cases


def cases_of(kind: Callable) -> list:
    """The cases of one kind, each once."""
    return list(dict.fromkeys(made_by(kind)))


def case_bytes(case: Call) -> bytes:
    """The two lengths, then the bytes."""
    return len(case.data).to_bytes(2, "little") + case.area.to_bytes(2, "little") + case.data


def outcome_line(outcome: Outcome) -> str:
    """Number, place and count in base ten, then the bytes written."""
    line = "{} {} {}".format(outcome.number, outcome.place, outcome.count)
    return line + (" " + outcome.area[: outcome.count].hex() if outcome.count else "")


def write_vectors(folder: str, kinds: Sequence[Callable], call: Callable) -> None:
    """Writes the two files."""
    write_cases(folder, kinds, cases_of, case_bytes, lambda case: outcome_line(call(case.data, bytes(case.area))))
