"""The calls of the answer reader for the 50 primes from 11 up, with coefficients of one byte and of two: one function for each kind."""

import itertools
import random
from typing import Callable, Iterator

from answers import FACTOR, RUN_LENGTH, TOTALS, answer_bytes, commands
from arithmetic import LIMIT, TAKEN_PRIMES
from byte_strings import TELLING, beginnings, with_byte_changed, with_byte_left_out, with_byte_put_in, with_bytes_exchanged, with_neighbouring_byte
from polynomials import degree, product_of
from reader_cases import answer_to, list_bytes, other_power_lists, other_split_lists
from run_cases import with_operand
from run_lengths import RUN_LIMIT, run_length
from sheet_cases import Call, each_damaged, in_all_areas
from sheets import COEFFICIENT, PRIME, WIDE_COEFFICIENT, Sheet, coefficient_command, is_wide
from wide_cases import NOT_PRIMES, PUT_IN, WIDE_FULL, other_command
from wide_polynomials import PRIMES_OF_NOTE, known_runs, of_each_prime, sheets_with_runs, wide_sheets

# The longest answers: 32 parts modulo 251², of 361 bytes, and of 364 with 0x14.
LONGEST = Sheet(251, product_of(251 * 251, [[a + 251 * (a + 1), 1] for a in range(1, LIMIT + 1)]))


def low_sheets(source: random.Random, count: int) -> list:
    """So many sheets of each prime of degree 4 or less with a coefficient in a factor."""
    low = [sheet for sheet in wide_sheets() if degree(sheet.polynomial) < 5 and any(sheet.polynomial[:-1])]
    return of_each_prime(source, tuple(low), count)


def rewritten(answer: bytes, change: Callable) -> bytes:
    """An answer with its coefficient commands exchanged for what the change makes of code, index, value and how many stood before it."""
    data, seen = b"", itertools.count()
    for code, operands in commands(answer):
        row = bytes([code, *operands])
        if code in (COEFFICIENT, WIDE_COEFFICIENT):
            row = change(code, operands[0], int.from_bytes(row[2:], "little"), next(seen))
        data += row
    return data


def command_of(code: int, index: int, value: int, order: str = "little") -> bytes:
    """A coefficient by 0x03, the value cut to a byte, or by 0x05."""
    return bytes([code, index]) + (value.to_bytes(2, order) if code == WIDE_COEFFICIENT else bytes([value % 256]))


# ---- answers


def answers_of_later_primes(source: random.Random) -> Iterator[Call]:
    """Answers to sheets of all kinds, with 0x14 and without."""
    yield from (Call(answer_bytes(sheet)) for sheet in of_each_prime(source, wide_sheets(), 18))
    yield from (Call(answer_bytes(sheet)) for sheet in of_each_prime(source, sheets_with_runs(), 6))


def full_answers(source: random.Random) -> Iterator[Call]:
    """Answers to sheets of degree 32, the longest ones among them."""
    full = [sheet for sheet in wide_sheets() if degree(sheet.polynomial) == LIMIT]
    yield from (Call(answer_bytes(sheet)) for sheet in source.sample(full, 60))
    yield from (Call(answer_bytes(LONGEST._replace(run=run))) for run in (False, True))


def of_the_other_width(source: random.Random) -> Iterator[Call]:
    """Answers with 0x05 for 0x03 or 0x03 for 0x05: in every coefficient, in the first, in the last, and with the operands as they were."""
    for sheet in low_sheets(source, 3) + [Sheet(p, [1, 1]) for p in TAKEN_PRIMES]:
        good, wrong = answer_bytes(sheet), other_command(sheet.prime)
        last = sum(code in (COEFFICIENT, WIDE_COEFFICIENT) for code, _ in commands(good)) - 1
        for these in (range(last + 1), (0,), (last,)):
            yield Call(rewritten(good, lambda code, i, v, k: command_of(wrong if k in these else code, i, v)))
        yield Call(rewritten(good, lambda code, i, v, k: bytes([wrong]) + command_of(code, i, v)[1:]))


def values_with_bytes_exchanged(source: random.Random) -> Iterator[Call]:
    """Values high byte first, in every coefficient and in the first."""
    for sheet in low_sheets(source, 3):
        if is_wide(sheet.prime):
            good = answer_bytes(sheet)
            for these in (range(LIMIT), (0,)):
                yield Call(rewritten(good, lambda code, i, v, k: command_of(code, i, v, "big" if k in these else "little")))


def values_not_below(source: random.Random) -> Iterator[Call]:
    """A value larger by p² or by 256, 0 or the largest; a coefficient written though it is 0, twice, or at the top."""
    for sheet in low_sheets(source, 2):
        good, n, top = answer_bytes(sheet), sheet.prime**2, 65535 if is_wide(sheet.prime) else 255
        others = (lambda v: v + n, lambda v: v + 256, lambda v: 0, lambda v: n, lambda v: top, lambda v: v % 256)
        for other in others:
            yield Call(rewritten(good, lambda code, i, v, k: command_of(code, i, min(other(v), top) if k == 0 else v)))
        code, start = coefficient_command(sheet.prime), good.index(bytes([FACTOR]), 8) + 3
        for index, value in ((0, 0), (0, 1), (good[start - 2], 1)):
            yield Call(good[:start] + command_of(code, index, value) + good[start:])
        yield Call(rewritten(good, lambda code, i, v, k: command_of(code, i, v) * (2 if k == 0 else 1)))


def primes_exchanged(source: random.Random) -> Iterator[Call]:
    """Answers with each byte as their prime: some are answers for many primes, and none for both widths but that of x."""
    for sheet in (Sheet(2, [0, 1]), Sheet(7, [3, 1]), Sheet(17, [3, 1]), Sheet(13, [2, 0, 1])):
        good = answer_bytes(sheet)
        yield from (Call(bytes([PRIME, byte]) + good[2:]) for byte in range(256))
    for sheet in low_sheets(source, 1):
        yield from (Call(bytes([PRIME, byte]) + answer_bytes(sheet)[2:]) for byte in (*NOT_PRIMES[::4], *PRIMES_OF_NOTE))


def lists_of_later_primes(source: random.Random) -> Iterator[Call]:
    """Lists that multiply to f and are not the answer's: other settings, shorter lists, more different members; f as its own single factor."""
    for p in (*PRIMES_OF_NOTE[1:], 31):
        for m in range(2, 6):
            yield from (Call(data) for g in ([0, 1], [p, 1], [p - 1, 1]) for data in other_power_lists(p, g, m))
            for m1 in range(1, m):
                lists = list(other_split_lists(p, [p - 1, 1], m, m1))
                yield from (Call(data) for data in lists[:8] + lists[-2:])
    for sheet in low_sheets(source, 2):
        f = sheet.polynomial
        for verdict in (1, 2):
            yield Call(list_bytes(sheet.prime, degree(f), [(degree(f) // verdict, verdict, verdict, [(f, 1)])], (1, 1, 0)))


def other_runs_of_later_primes(source: random.Random) -> Iterator[Call]:
    """Another operand of 0x14: the bytes exchanged, multiples and divisors of the run, none, the limit; 0x14 twice, before 0x13, and without its end."""
    for sheet, n in known_runs()[::6]:
        good, run = answer_bytes(sheet), run_length(sheet.prime, sheet.polynomial)
        others = {n % 65536, n // sheet.prime, n + 1, run % 256 * 256 + run // 256, 0, RUN_LIMIT, n * sheet.prime}
        yield from (Call(with_operand(good, other)) for other in sorted(others) if other <= RUN_LIMIT)
        place = good.index(bytes([TOTALS]), len(good) - 8)
        yield from (Call(data) for data in (good[:-1] + good[-4:], good[:place] + good[-4:-1] + good[place:], good[:-1], good[:-2] + good[-1:]))
    for sheet in low_sheets(source, 1):
        if sheet.polynomial[0] % sheet.prime == 0:
            yield Call(answer_bytes(sheet)[:-1] + bytes([RUN_LENGTH, 1, 0, 15]))


def small_damage_to_wide_answers(source: random.Random) -> Iterator[Call]:
    """Short answers cut off, with neighbouring and telling bytes, with bytes put in, left out and exchanged."""
    answers = [answer_to(17, [4, 0, 289 - 6, 1]), answer_to(13, [168, 0, 1]), *(answer_bytes(sheet) for sheet in low_sheets(source, 1)[2::24])]
    for good in answers:
        for kind in (beginnings, with_neighbouring_byte, with_byte_left_out, with_bytes_exchanged):
            yield from map(Call, kind(good))
        yield from map(Call, with_byte_changed(good, TELLING[::3]))
        yield from map(Call, with_byte_put_in(good, PUT_IN))


def damage_to_the_longest(source: random.Random) -> Iterator[Call]:
    """The longest answers, cut off, with a byte changed by one or left out, and with bytes behind them."""
    good = answer_bytes(LONGEST._replace(run=True))
    for kind in (beginnings, with_neighbouring_byte, with_byte_left_out, with_bytes_exchanged):
        yield from map(Call, source.sample(list(kind(good)), 24))
    yield from (Call(good + tail) for tail in (b"\x00", b"\x0f", bytes(19), bytes(20), bytes(21), bytes(600)))


def wide_answers_damaged_at_random(source: random.Random) -> Iterator[Call]:
    """Answers with one to three bytes changed, put in or left out at random; sheets in place of answers."""
    yield from each_damaged(source, [answer_bytes(sheet) for sheet in low_sheets(source, 1)[::2]])
    yield Call(WIDE_FULL)


def areas_for_wide_answers(source: random.Random) -> Iterator[Call]:
    """Answers with areas of many lengths."""
    yield from in_all_areas([answer_bytes(LONGEST), answer_bytes(LONGEST._replace(run=True)), answer_to(17, [1, 1]), answer_to(13, [1, 1])])


ANSWER_KINDS = (
    answers_of_later_primes,
    full_answers,
    of_the_other_width,
    values_with_bytes_exchanged,
    values_not_below,
    primes_exchanged,
    lists_of_later_primes,
    other_runs_of_later_primes,
    small_damage_to_wide_answers,
    damage_to_the_longest,
    wide_answers_damaged_at_random,
    areas_for_wide_answers,
)
