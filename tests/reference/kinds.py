"""Kinds of cases: functions that make cases from a source of random numbers."""

import random
from typing import Callable


def made_by(kind: Callable) -> list:
    """The cases of one kind. Each kind has its own source, seeded by its name, so that a new kind changes no other."""
    return list(kind(random.Random(kind.__name__)))
