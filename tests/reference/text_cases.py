"""The sheets whose texts the library is compared with the reference on: one function for each kind."""

import random
from typing import Iterator

from arithmetic import FIRST_PRIMES, LIMIT
from polynomial_cases import all_sheets, some_monic
from polynomials import power, product_of
from sheet_cases import FULL, papers
from sheets import Sheet, sheet_bytes

# Each number at its kinds of places.
FAULTS = (
    "01",  # 2 at 1
    "01 03 02",  # 2 at 3
    "01 03 02 03",  # 2 at 4
    "01 03 02 03 03 00",  # 2 at 6
    "00",  # 3 at 0
    "01 03 01 03 0F",  # 3 at 2
    "01 03 02 03 02 0F",  # 3 at 4
    "01 00 02 03 0F",  # 4 at 1
    "01 03 02 00 0F",  # 5 at 3
    "01 03 02 21 0F",  # 5 at 3
    "01 03 02 03 03 03 01 0F",  # 6 at 5
    "01 03 02 03 03 01 04 03 01 06 0F",  # 6 at 8
    "01 03 02 03 03 00 00 0F",  # 7 at 6
    "01 03 02 03 03 00 04 03 02 09 0F",  # 7 at 9
    "01 03 02 03 0F 0F",  # 8 at 5
    "01 03 02 03 03 00 04 0F 00",  # 8 at 8
)


def named(source: random.Random) -> Iterator[bytes]:
    """What documents 01 and 002 name, `01 04` first."""
    yield b"\x01\x04"
    yield from (call.data for call in papers(source))


def faults(source: random.Random) -> Iterator[bytes]:
    """Each of the numbers 2 to 8."""
    yield from map(bytes.fromhex, FAULTS)


def of_full_degree(source: random.Random) -> Iterator[bytes]:
    """Degree 32, with few factors and with many, for every prime; more of them modulo 49."""
    yield FULL
    for p in (*FIRST_PRIMES, *[7] * 8):
        roots = [source.randrange(p * p) for _ in range(LIMIT)]
        yield sheet_bytes(Sheet(p, some_monic(source, p * p, LIMIT)))
        yield sheet_bytes(Sheet(p, product_of(p * p, [[a, 1] for a in roots])))
        yield sheet_bytes(Sheet(p, power(p * p, [roots[0], 1], LIMIT)))


def too_long(source: random.Random) -> Iterator[bytes]:
    """Inputs past the 101 bytes of the longest sheet of one byte to a coefficient without 0x04."""
    yield from (FULL + bytes([15] * more) for more in (1, 2, 100, 900))
    yield from (FULL[:-1] + b"\x03" + more for more in (b"\x1f", b"\x1f\x01", bytes(900)))
    yield from (bytes(length) for length in (102, 103, 1000))
    yield from (sheet_bytes(Sheet(2, [2, 0, 1])) + bytes(more) for more in (94, 95, 900))


def of_random_sheets(source: random.Random) -> Iterator[bytes]:
    """Good sheets, drawn from all kinds of polynomials."""
    yield from map(sheet_bytes, source.sample(all_sheets(), 300))


KINDS = (named, faults, of_full_degree, too_long, of_random_sheets)
