"""Byte strings made from a good one by small damage, and byte strings at random: inputs for the two readers."""

import random
from typing import Iterator, Sequence

# The commands, their neighbours, small numbers, the ends of the range, and squares of the primes with their neighbours.
TELLING = (*range(10), 14, 15, 16, 17, 18, 19, 20, 24, 25, 26, 31, 32, 33, 48, 49, 50, 127, 128, 254, 255)


def beginnings(good: bytes) -> Iterator[bytes]:
    """Every beginning that is shorter than the whole."""
    yield from (good[:length] for length in range(len(good)))


def with_byte_changed(good: bytes, values: Sequence[int]) -> Iterator[bytes]:
    """Every byte exchanged for each of the values."""
    for place in range(len(good)):
        yield from (good[:place] + bytes([value]) + good[place + 1 :] for value in values)


def with_neighbouring_byte(good: bytes) -> Iterator[bytes]:
    """Every byte made larger by one, and smaller by one."""
    for place, byte in enumerate(good):
        yield from (good[:place] + bytes([(byte + step) % 256]) + good[place + 1 :] for step in (1, -1))


def with_byte_put_in(good: bytes, values: Sequence[int]) -> Iterator[bytes]:
    """Each of the values put in before every byte and at the end."""
    for place in range(len(good) + 1):
        yield from (good[:place] + bytes([value]) + good[place:] for value in values)


def with_byte_left_out(good: bytes) -> Iterator[bytes]:
    """Every byte left out."""
    yield from (good[:place] + good[place + 1 :] for place in range(len(good)))


def with_bytes_exchanged(good: bytes) -> Iterator[bytes]:
    """Every byte exchanged with the next one, and with the one three places on, where the next command has its like."""
    for step in (1, 3):
        for place in range(len(good) - step):
            other = bytearray(good)
            other[place], other[place + step] = other[place + step], other[place]
            yield bytes(other)


def some_bytes(source: random.Random, length: int, values: Sequence[int]) -> bytes:
    """A random string over the values."""
    return bytes(source.choice(values) for _ in range(length))


def damaged(source: random.Random, good: bytes) -> bytes:
    """A string with one to three bytes changed, put in or left out at random."""
    data = bytearray(good)
    for _ in range(source.randrange(1, 4)):
        place, value = source.randrange(len(data) + 1), source.choice((source.randrange(256), source.choice(TELLING)))
        kind = source.randrange(4)
        if kind == 0:
            data.insert(place, value)
        elif kind == 1:
            del data[place : place + source.randrange(1, 4)]
        else:
            data[place : place + 1] = bytes([value])
    return bytes(data)
