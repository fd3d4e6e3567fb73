"""Writes stored cases: what a test program reads, and what it must print."""

import os
from typing import Callable, Sequence


def write_cases(folder: str, kinds: Sequence[Callable], cases_of: Callable, case_bytes: Callable, line_of: Callable) -> None:
    """Writes the files stdin and stdout into a folder and prints how many cases there are of each kind."""
    cases = []
    for kind in kinds:
        of_kind = cases_of(kind)
        print("{:5} {}".format(len(of_kind), kind.__name__))
        cases += of_kind
    os.makedirs(folder, exist_ok=True)
    with open(os.path.join(folder, "stdin"), "wb") as out:
        out.write(b"".join(map(case_bytes, cases)))
    with open(os.path.join(folder, "stdout"), "w", encoding="ascii", newline="\n") as out:
        out.writelines(line_of(case) + "\n" for case in cases)
        out.write("cases {}\n".format(len(cases)))
    print("{:5} in all".format(len(cases)))
