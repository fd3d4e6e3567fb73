"""Compares the built library and the built programs with the reference, on inputs that are made here.

usage: compare.py calls COUNT SEED FEED...    the calls by the command FEED.. (feed, or valgrind feed), all in one process
       compare.py alike COUNT SEED FEED...    copies of sheets that are alike in all that is shown, and of others, with one another
       compare.py split COUNT SEED PATH       the program `split` at PATH, once for each input
       compare.py copy COUNT SEED PATH        the program `copy`
       compare.py sheet COUNT SEED PATH       the program `sheet`
"""

import random
import subprocess
import sys
import tempfile
from typing import BinaryIO, Callable, Iterator

from inputs import alike, calls, pools, some_sheet, some_typed
from sheet_cases import Call
from splitter import Outcome, copy, copy_program, program, read, sheet_program, split, typed

SHOWN = 10
CALLS = {"split": split, "read": read, "copy": copy, "typed": typed}  # in the order of feed.c
KNOWN: dict = {}


def expected(name: str, call: Call) -> Outcome:
    """What the reference gives; the area holds zeros before the call. Answers are kept, since good inputs come again."""
    if (name, call) in KNOWN:
        return KNOWN[name, call]
    outcome = CALLS[name](call.data, bytes(call.area))
    if outcome.number == 0:
        KNOWN[name, call] = outcome
    return outcome


def call_bytes(name: str, call: Call) -> bytes:
    """A call as feed.c takes it."""
    return bytes([list(CALLS).index(name)]) + len(call.data).to_bytes(2, "little") + call.area.to_bytes(2, "little") + call.data


def outcomes(stream: BinaryIO) -> Iterator[tuple]:
    """The outcomes as feed.c writes them: number, place, count, whether a byte changed that may not, the bytes written."""
    while head := stream.read(7):
        number, place, count = (int.from_bytes(head[i : i + 2], "little") for i in (0, 2, 4))
        yield number, place, count, head[6] != 0, stream.read(count)


def outcome_due(name: str, call: Call) -> tuple:
    """The same, as the reference has it."""
    outcome = expected(name, call)
    return outcome.number, outcome.place, outcome.count, False, outcome.area[: outcome.count]


def made_calls(feed: list, given: Iterator[bytes]) -> Iterator[tuple]:
    """Feeds all calls to one process, then gives their outcomes."""
    with tempfile.TemporaryFile() as asked, tempfile.TemporaryFile() as got:
        for data in given:
            asked.write(data)
        asked.seek(0)
        subprocess.run(feed, stdin=asked, stdout=got, check=True)
        got.seek(0)
        yield from outcomes(got)


def compare_calls(count: int, seed: str, feed: list) -> int:
    """All calls, each with the reference. Gives the number of differences."""
    numbers, differences, made = {}, 0, 0
    answers = made_calls(feed, (call_bytes(name, call) for name, call in calls(random.Random(seed), count)))
    for name, call in calls(random.Random(seed), count):
        due, found = outcome_due(name, call), next(answers, None)
        numbers[due[0]] = numbers.get(due[0], 0) + 1
        made += 1
        differences += due != found
        if due != found and differences <= SHOWN:
            print(name, call.data.hex(), call.area, "gives", found, "and not", due)
    differences += next(answers, None) is not None
    print("{} calls, {} differences; by number: {}".format(made, differences, dict(sorted(numbers.items()))))
    return differences


def compare_alike(count: int, seed: str, feed: list) -> int:
    """Copies with one another: one outcome for one thing that may be seen, and another for another. Gives the number of differences.

    The reference factors nothing here: sheets are made for their figures, and what a copy is like does not enter.
    """
    shown, differences, sheets = {}, 0, list(alike(random.Random(seed), count))
    answers = made_calls(feed, (call_bytes("copy", Call(data)) for _, data in sheets))
    for visible, data in sheets:
        found = next(answers, None)
        same = found is not None and found == shown.setdefault(visible, found) and found[1] == 0 and not found[3]
        differences += not same
        if not same and differences <= SHOWN:
            print(data.hex(), "gives", found, "and another with", visible, "gives", shown.get(visible))
    differences += len(shown) - len(set(shown.values())) + (next(answers, None) is not None)
    print("{} copies, {} to be told apart, {} differences".format(len(sheets), len(shown), differences))
    return differences


def text_of(data: bytes) -> bytes:
    """What `split` prints, as the reference has it."""
    return "".join(line + "\n" for line in program(data)).encode("ascii")


# The programs: what each gives out, as the reference has it, and what it is given.
PROGRAMS = {"split": (text_of, some_sheet), "copy": (copy_program, some_sheet), "sheet": (sheet_program, some_typed)}


def compare_program(given_out: Callable, some_input: Callable, count: int, seed: str, path: str) -> int:
    """Runs the program once for each input. Gives the number of differences."""
    source = random.Random(seed)
    pool, differences, refusals = pools(source), 0, 0
    for _ in range(count):
        data = some_input(source, pool)
        due = given_out(data)
        found = subprocess.run([path], input=data, stdout=subprocess.PIPE).stdout
        refusals += due.startswith(b"refused")
        differences += due != found
        if due != found and differences <= SHOWN:
            print(data.hex(), "gives out", found, "and not", due)
    print("{} runs, {} of them refused, {} differences".format(count, refusals, differences))
    return differences


def main(what: str, count: int, seed: str, command: list) -> int:
    """Does what the command line says. Gives the number of differences."""
    if what in ("calls", "alike"):
        return (compare_calls if what == "calls" else compare_alike)(count, seed, command)
    return compare_program(*PROGRAMS[what], count, seed, command[0])


if __name__ == "__main__":
    if len(sys.argv) < 5 or sys.argv[1] not in ("calls", "alike", *PROGRAMS):
        sys.exit(__doc__)
    sys.exit(main(sys.argv[1], int(sys.argv[2]), sys.argv[3], sys.argv[4:]) != 0)
