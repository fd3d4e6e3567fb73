"""The calls on which the library's answer reader is compared with the reference: one function for each kind; those with 0x14 are in
run_cases.py."""

import random
from typing import Iterator

from answers import FACTOR, PART, TOTALS, answer_bytes
from arithmetic import FIRST_PRIMES, LIMIT
from byte_strings import (
    TELLING,
    beginnings,
    some_bytes,
    with_byte_changed,
    with_byte_left_out,
    with_byte_put_in,
    with_bytes_exchanged,
    with_neighbouring_byte,
)
from parts import BASIC, POWER, SOLID, SPLIT, parts_of
from polynomial_cases import all_sheets, some_monic
from polynomials import degree, minus, plus, power, product_of, times
from sheet_cases import EDGES, EXAMPLES, FULL, TRIALS, Call, each_damaged, in_all_areas, short_sheets
from sheets import COEFFICIENT, DEGREE, END, PRIME, Sheet, coefficient_commands, read_sheet


def answer_to(p: int, f) -> bytes:
    """The answer to the sheet of f."""
    return answer_bytes(Sheet(p, list(f)))


def short_answers(source: random.Random, count: int) -> list:
    """Answers to sheets of low degree, and to powers, which have other verdicts than basic."""
    answers = [answer_bytes(read_sheet(data)) for data in short_sheets(source, count // 2)]
    for i in range(count - len(answers)):
        p = FIRST_PRIMES[i % len(FIRST_PRIMES)]
        f = power(p * p, some_monic(source, p * p, 1), source.randrange(2, 5))
        answers.append(answer_to(p, plus(p * p, f, [0, p * source.randrange(p)])))
    return answers


def factor_command(p: int, factor: list, count: int) -> bytes:
    """0x12 with its coefficients."""
    return bytes([FACTOR, degree(factor), count]) + coefficient_commands(p, factor)


def list_bytes(p: int, top: int, parts: list, totals: tuple) -> bytes:
    """An answer's layout around any parts: for each of them degree, power and verdict, and its factors with their counts."""
    body = b"".join(
        bytes([PART, d, m, verdict]) + b"".join(factor_command(p, factor, count) for factor, count in factors)
        for d, m, verdict, factors in parts
    )
    return bytes([PRIME, p, DEGREE, top]) + body + bytes([TOTALS, *totals, END])


def papers(source: random.Random) -> Iterator[Call]:
    """Answers to what documents 01 and 002 name; sheets in place of answers."""
    yield from (Call(answer_to(p, f)) for p, f in TRIALS + EXAMPLES)
    yield from (Call(bytes.fromhex(edge)) for edge in EDGES)


def good_answers(source: random.Random) -> Iterator[Call]:
    """Answers to sheets of all kinds of polynomials."""
    yield from (Call(answer_bytes(sheet)) for sheet in all_sheets()[::2])


def every_byte_everywhere(source: random.Random) -> Iterator[Call]:
    """Every place of document 01's example with each of the 256 bytes."""
    yield from (Call(data) for data in with_byte_changed(answer_to(3, [4, 0, 6, 1]), range(256)))


def small_damage(source: random.Random) -> Iterator[Call]:
    """Short answers cut off, with neighbouring and telling bytes, with bytes put in, left out and exchanged."""
    for good in short_answers(source, 16):
        for kind in (beginnings, with_neighbouring_byte, with_byte_left_out, with_bytes_exchanged):
            yield from (Call(data) for data in kind(good))
        yield from (Call(data) for data in with_byte_changed(good, TELLING[::3]))
        yield from (Call(data) for data in with_byte_put_in(good, (0, 3, 15, 17)))


def long_answers(source: random.Random) -> Iterator[Call]:
    """The answer of many parts and a long solid one: cut off at every byte, every byte changed by one or left out."""
    many = product_of(49, [[a, 1] for a in range(1, 8)])
    for f in (many, [7] + [0] * (LIMIT - 1) + [1], [c or 7 for c in power(49, [8, 1], LIMIT)]):
        for kind in (beginnings, with_neighbouring_byte, with_byte_left_out):
            yield from (Call(data) for data in kind(answer_to(7, f)))


def bytes_after_the_end(source: random.Random) -> Iterator[Call]:
    """Answers with bytes after them, and two answers in a row."""
    for good in short_answers(source, 40):
        yield from (Call(good + bytes([byte])) for byte in (0, 1, 3, 15, 17, 255))
        yield from (Call(good + good), Call(good + bytes(3)), Call(b"\x00" + good), Call(good[:-1] + good))


def single_factor(source: random.Random) -> Iterator[Call]:
    """f handed back as its own single factor, under each verdict and with several powers."""
    for sheet in all_sheets()[::40]:
        p, f = sheet.prime, sheet.polynomial
        for verdict in (BASIC, SOLID, POWER, SPLIT):
            for d, m in ((degree(f), 1), (1, degree(f))):
                yield Call(list_bytes(p, degree(f), [(d, m, verdict, [(f, 1)])], (1, 1, 0)))


def other_lists(source: random.Random) -> Iterator[Call]:
    """Lists that multiply to f and are not the answer's: other settings, shorter lists, more different members."""
    for p in FIRST_PRIMES:
        n = p * p
        for m in range(2, 9):
            for g in ([0, 1], [1, 1], [p, 1], some_monic(source, n, 1)):
                yield from (Call(data) for data in other_power_lists(p, g, m))
            for m1 in range(1, m):
                yield from (Call(data) for data in other_split_lists(p, [p - 1, 1], m, m1))


def other_power_lists(p: int, g: list, m: int) -> Iterator[bytes]:
    """Lists for g^m: with g + p·u and g − p·u in it, with (g² + p)(g² − p) in it, one by one, and in two commands."""
    n = p * p
    up, down = plus(n, g, [p]), minus(n, g, [p])
    yield list_bytes(p, m, [(1, m, POWER, [(g, m)])], (m, 1, m - 1))
    rest = [(g, m - 2)] if m > 2 else []
    yield list_bytes(p, m, [(1, m, SPLIT, [*rest, (up, 1), (down, 1)])], (m, 2 + len(rest), m - 1))
    yield list_bytes(p, m, [(1, m, POWER, [(g, 1)] * m)], (m, 1, m - 1))
    yield list_bytes(p, m, [(1, m, POWER, [(g, 1), (g, m - 1)])], (m, 1, m - 1))
    yield list_bytes(p, m, [(1, 1, BASIC, [(g, 1)])] * m, (m, 1, 0))
    if m >= 4:
        square = times(n, g, g)
        pair = [(plus(n, square, [p]), 1), (minus(n, square, [p]), 1)]
        yield list_bytes(p, m, [(1, m, SPLIT, ([(g, m - 4)] if m > 4 else []) + pair)], (m - 2, 3, m - 3))


def other_split_lists(p: int, g: list, m: int, m1: int) -> Iterator[bytes]:
    """Lists for g^m1·(g^(m − m1) + p): the answer's, its factors exchanged, and every other choice of g."""
    n = p * p
    totals = (m1 + 1, 2, m1)
    for digit in range(p):
        other = plus(n, g, [p * digit])
        last = minus(n, plus(n, power(n, g, m - m1), [p]), times(n, power(n, g, m - m1 - 1), [p * digit * m1]))
        yield list_bytes(p, m, [(1, m, SPLIT, [(other, m1), (last, 1)])], totals)
        yield list_bytes(p, m, [(1, m, SPLIT, [(last, 1), (other, m1)])], totals)


def other_layouts(source: random.Random) -> Iterator[Call]:
    """The answer's list in another layout: another order of parts, other totals, coefficients that may not be written."""
    for sheet in all_sheets()[::25]:
        p, f = sheet.prime, sheet.polynomial
        rows = [(degree(part.base), part.m, part.verdict, part.factors) for part in parts_of(p, f)]
        good = answer_bytes(sheet)
        totals = tuple(good[-4:-1])
        yield Call(list_bytes(p, degree(f), rows[::-1], totals))
        yield Call(list_bytes(p, degree(f), rows + rows[:1], totals))
        yield from (Call(list_bytes(p, degree(f), rows, changed)) for changed in changed_totals(totals))
        yield from (Call(data) for data in other_coefficients(p, good))


def changed_totals(totals: tuple) -> Iterator[tuple]:
    """Each total larger by one, and all of them 0."""
    yield from (tuple(t + (i == k) for i, t in enumerate(totals)) for k in range(3))
    yield (0, 0, 0)


def other_coefficients(p: int, good: bytes) -> Iterator[bytes]:
    """A coefficient of the first factor written as 0, larger by p², twice, or at the top with the value 1."""
    start = good.index(bytes([FACTOR]), 8)
    top = good[start + 1]
    for index in range(min(top, 3)):
        yield good[: start + 3] + bytes([COEFFICIENT, index, 0]) + good[start + 3 :]
    yield good[: start + 3] + bytes([COEFFICIENT, top, 1]) + good[start + 3 :]
    if good[start + 3] == COEFFICIENT:
        command = good[start + 3 : start + 6]
        yield good[: start + 5] + bytes([command[2] + p * p]) + good[start + 6 :]
        yield good[: start + 3] + command + good[start + 3 :]
    yield good[:4] + bytes([COEFFICIENT, 0, 1]) + good[4:]


def of_another_prime(source: random.Random) -> Iterator[Call]:
    """Answers with the prime or the degree of another sheet, and the list of one answer in the frame of another."""
    for good in short_answers(source, 40):
        yield from (Call(good[:1] + bytes([p]) + good[2:]) for p in (*FIRST_PRIMES, 0, 4, 11))
        yield from (Call(good[:3] + bytes([top]) + good[4:]) for top in (0, 1, 2, 3, 4, 32, 33, 255))


def damaged_at_random(source: random.Random) -> Iterator[Call]:
    """Answers with one to three bytes changed, put in or left out at random."""
    yield from each_damaged(source, short_answers(source, 40))


def random_strings(source: random.Random) -> Iterator[Call]:
    """Random bytes and random telling bytes, alone and after the beginning of an answer."""
    for _ in range(150):
        yield Call(some_bytes(source, source.randrange(12), range(256)))
        head = bytes([PRIME, source.choice(FIRST_PRIMES), DEGREE, 2])
        yield Call(head + some_bytes(source, source.randrange(24), (0, 1, 2, 3, 15, 17, 18, 19)))
    yield from (Call(source.randbytes(length)) for length in (100, 255, 256, 384, 385, 512, 1000))
    yield from (Call(bytes([1, 7, 2, 32]) + bytes([FACTOR, 255, 255]) * count + bytes([END])) for count in (1, 2, 100))
    yield from (Call(bytes([1, 2, 2, 32]) + bytes([PART, 1, 32, 3, FACTOR, 0, 255]) * count + bytes([END])) for count in (1, 50))


def areas(source: random.Random) -> Iterator[Call]:
    """Answers and other strings with areas of many lengths."""
    yield from in_all_areas([b"", b"\x00", FULL, answer_to(7, [48] * LIMIT + [1]), *short_answers(source, 16)])


KINDS = (
    papers,
    good_answers,
    every_byte_everywhere,
    small_damage,
    long_answers,
    bytes_after_the_end,
    single_factor,
    other_lists,
    other_layouts,
    of_another_prime,
    damaged_at_random,
    random_strings,
    areas,
)
