"""Inputs for the built library: good sheets, answers and typed lines of all kinds, sheets and answers with 0x04 and 0x14 and without, damaged ones, random
bytes, and sheets that are alike in all that a copy shows. Half of them are for the primes up to 7, half for the 50 others."""

import random
from typing import Iterator, NamedTuple, Sequence

from answers import RUN_LENGTH, answer_bytes
from arithmetic import FIRST_PRIMES, LATER_PRIMES, LIMIT
from byte_strings import TELLING, damaged, some_bytes
from known_figures import drawn_shapes, pairs_of, sheets_with
from known_lines import any_line, damaged_line, some_line, some_signs
from polynomial_cases import all_sheets, some_monic
from sheet_cases import AREAS, Call, short_sheets
from sheets import END, RUN, Refusal, Sheet, read_sheet, sheet_bytes
from splitter import AREA
from typed_value_cases import NUMBERS
from wide_cases import NOT_PRIMES, short_wide_sheets
from wide_polynomials import sheets_with_runs, wide_sheets

COMMANDS = (0, 1, 2, 3, 4, 5, 15, 17, 18, 19, 20)


def some_prime(source: random.Random) -> int:
    """One of the primes up to 7 or, as often, one of the others."""
    return source.choice(source.choice((FIRST_PRIMES, LATER_PRIMES)))


class Pools(NamedTuple):
    """What inputs are made from: good sheets of all kinds, short ones, those of degree 32, each with 0x04 or without, answers, and lines."""

    sheets: list
    short: list
    full: list
    answers: list
    runs: list
    lines: list


def asking(data: bytes) -> bytes:
    """A sheet with 0x04 before its end, whether it may have it or not."""
    return data[:-1] + bytes([RUN, END])


def accepted(sheets: Sequence[bytes]) -> list:
    """Those that are not refused."""
    found = []
    for data in sheets:
        try:
            read_sheet(data)
            found.append(data)
        except Refusal:
            pass
    return found


def shuffled(source: random.Random, strings: list) -> list:
    """The same in another order."""
    return source.sample(strings, len(strings))


def pools(source: random.Random) -> Pools:
    """The pools of one run, half for the primes up to 7 and half for the others.

    Two of three short and full sheets are as they were, the others ask for their run, and may be refused with 14.
    """
    good = [sheet_bytes(sheet) for sheet in all_sheets() + list(wide_sheets())]
    asked = accepted(map(asking, source.sample(good, 3000))) + list(map(sheet_bytes, sheets_with_runs()))
    short = shuffled(source, short_sheets(source, 4000) + accepted(short_wide_sheets(source, LATER_PRIMES * 90)))
    full = [sheet_bytes(Sheet(p, some_monic(source, p * p, LIMIT))) for p in FIRST_PRIMES * 50 + LATER_PRIMES * 4]
    plain = [data for data in short if not read_sheet(data).run]
    answers = [answer_bytes(read_sheet(data)) for data in source.sample(good, 2500) + plain[:2500] + full]
    runs = [answer_bytes(read_sheet(data)) for data in shuffled(source, asked)[:1200] + accepted(map(asking, plain[:2000])) + accepted(map(asking, full[::8]))]
    lines = [kind(source, primes) for kind, count in ((some_line, 4000), (any_line, 2000)) for primes in (FIRST_PRIMES, LATER_PRIMES) for _ in range(count)]
    return Pools(good + asked, short + [asking(data) for data in plain[::2]], full + [asking(data) for data in full[::2]], answers + runs, runs, lines)


def some_area(source: random.Random) -> int:
    """Nearly always the least length that passes."""
    return AREA if source.randrange(50) else source.choice(AREAS)


def headed(source: random.Random, top: int, length: int, values: Sequence[int]) -> bytes:
    """A good prime and a degree up to the top, then random bytes over the values, fewer than the length."""
    head = bytes([1, some_prime(source), 2, source.randrange(1, top + 1)])
    return head + some_bytes(source, source.randrange(length), values)


def of_another_prime(source: random.Random, data: bytes) -> bytes:
    """A sheet or an answer with another prime, or with a byte that is none: most often its coefficients are then too wide, too narrow or too large."""
    return data[:1] + bytes([source.choice((some_prime(source), some_prime(source), source.choice(NOT_PRIMES)))]) + data[2:]


def picked(source: random.Random, kinds: Sequence[tuple]) -> bytes:
    """A string of one of the kinds; each has its share of a hundred."""
    place = source.randrange(100)
    for share, make in kinds:
        if place < share:
            return make()
        place -= share
    raise ValueError("the shares do not add to a hundred")


def some_sheet(source: random.Random, pool: Pools) -> bytes:
    """A string for the sheet reader: one in ten good, one in fifty near degree 32, one in fifty far too long, the rest damaged and random."""
    kinds = (
        (10, lambda: source.choice(pool.sheets)),
        (2, lambda: damaged(source, source.choice(pool.full))),
        (2, lambda: source.choice(pool.full) + source.randbytes(source.randrange(1, 2000))),
        (50, lambda: damaged(source, source.choice(pool.short))),
        (6, lambda: of_another_prime(source, source.choice(pool.short))),
        (10, lambda: some_bytes(source, source.randrange(20), range(256))),
        (10, lambda: some_bytes(source, source.randrange(20), COMMANDS)),
        (10, lambda: headed(source, LIMIT, 20, (0, 1, 2, 3, 3, 3, 4, 5, 5, 5, 15))),
    )
    return picked(source, kinds)


def another_run(source: random.Random, answer: bytes) -> bytes:
    """An answer with another operand of 0x14, most often a small one; or with one more 0x14 somewhere."""
    command = bytes([RUN_LENGTH]) + source.choice((source.randrange(65536), source.randrange(40))).to_bytes(2, "little")
    place = source.choice((len(answer) - 4, len(answer) - 4, source.randrange(len(answer))))
    return answer[:place] + command + answer[place + 3 * (place == len(answer) - 4) :]


def some_answer(source: random.Random, pool: Pools) -> bytes:
    """A string for the answer reader: one in ten good, most damaged, some with another run, some random, some sheets."""
    kinds = (
        (10, lambda: source.choice(pool.answers)),
        (60, lambda: damaged(source, source.choice(pool.answers))),
        (5, lambda: of_another_prime(source, source.choice(pool.answers))),
        (5, lambda: another_run(source, source.choice(pool.runs))),
        (10, lambda: source.choice(pool.short)),
        (10, lambda: headed(source, 8, 30, (*COMMANDS, *TELLING))),
    )
    return picked(source, kinds)


def longer(source: random.Random, line: bytes) -> bytes:
    """A line drawn out to some 255 bytes: blanks or zeros at a place, or itself again and again in a sum or a product."""
    most = source.choice((255, source.randrange(200, 300)))
    place, sign = source.randrange(len(line)), source.choice((b" ", b"0", b"(", b"1", b"x"))
    body = line.split(b":", 1)[1].strip(b" ")
    joined = line + (source.choice((b"+", b"-", b"*0+", b"*")) + b"(" + body + b")") * (most // (len(body) + 3))
    return source.choice((line[:place] + sign * (most - len(line)) + line[place:], joined[:most], joined))


def with_number(source: random.Random, line: bytes) -> bytes:
    """A line with another number at its end: as a term, a factor or an exponent, or as its prime."""
    number = str(source.choice((*NUMBERS, source.randrange(100000), *(source.randrange(256) for _ in range(9))))).encode("ascii")
    return source.choice((line + source.choice((b"+", b"-", b"*", b"^", b"+x^", b" + 0 * ")) + number, number + b":" + line.split(b":", 1)[1]))


def some_typed(source: random.Random, pool: Pools) -> bytes:
    """A string for typed lines: three in ten are lines, four in ten damaged ones, some with other numbers, some about 255 bytes long, the rest random."""
    kinds = (
        (30, lambda: source.choice(pool.lines)),
        (40, lambda: damaged_line(source, source.choice(pool.lines))),
        (10, lambda: with_number(source, source.choice(pool.lines))),
        (5, lambda: longer(source, source.choice(pool.lines))),
        (10, lambda: some_signs(source, 20)),
        (3, lambda: some_bytes(source, source.randrange(20), range(256))),
        (2, lambda: source.choice(pool.lines) + source.randbytes(source.randrange(1, 2000))),
    )
    return picked(source, kinds)


def calls(source: random.Random, count: int) -> Iterator[tuple]:
    """So many calls, each with its name: four in ten are splits, three in ten are read, two in ten are typed, one in ten is a copy."""
    pool, inputs = pools(source), {"read": some_answer, "typed": some_typed}
    for name in source.choices(("split", "read", "copy", "typed"), (4, 3, 1, 2), k=count):
        yield name, Call(inputs.get(name, some_sheet)(source, pool), some_area(source))


def number_of(data: bytes) -> int:
    """The number of a sheet that is refused, and 0 for one that is not."""
    try:
        read_sheet(data)
        return 0
    except Refusal as refusal:
        return refusal.number


def alike(source: random.Random, count: int) -> Iterator[tuple]:
    """So many sheets, each with what its copy may show: the figures that it was made for, four sheets to a list of pairs, or its number."""
    pool, made = pools(source), 0
    while made < count:
        p = some_prime(source)
        pairs = sorted(pairs_of(p, drawn_shapes(source, p)))
        refused = [data for data in (some_sheet(source, pool) for _ in range(4)) if number_of(data)]
        group = [((p, *pairs), sheet_bytes(sheet)) for sheet in sheets_with(source, p, pairs, 4)]
        group += [(number_of(data), data) for data in refused]
        yield from group[: count - made]
        made += len(group)
