"""Term 3 and the free digits against all factor lists: every monic polynomial of small degree, every list set against it."""

import math
import random
import unittest
from collections import Counter

from answers import TOTALS, answer_bytes, commands, list_read_off
from brute_force import lists_by_product
from factoring import remainder
from parts import factor_list, parts_of, totals_of
from polynomials import degree, product_of, reduced
from sheets import Sheet

SMALL = {2: 5, 3: 4, 5: 2, 7: 2}


def settings_of(p, parts, members):
    """How many settings are orders of this list: "the factor of higher degree last", those of equal degree in any order."""
    count = 1
    for part in parts:
        of_part = [member for member in members if remainder(p, reduced(p, list(member)), part.base) == []]
        free = [member for member in of_part if degree(member) == degree(part.base)]
        assert len(free) >= len(of_part) - 1
        count *= math.factorial(len(free))
        for repeats in Counter(free).values():
            count //= math.factorial(repeats)
    return count


class LongestLists(unittest.TestCase):
    def test_no_list_is_better(self):
        for p, top in SMALL.items():
            everything = lists_by_product(p * p, top)
            self.assertEqual(len(everything), sum((p * p) ** d for d in range(1, top + 1)))
            for f, lists in everything.items():
                self.check(p, list(f), lists, everything)

    def test_of_later_primes(self):
        """The same of some polynomials of degree 2 modulo 121, 169 and 289: all that have several lists beside themselves, and 300 others."""
        source = random.Random("later primes")
        for p in (11, 13, 17):
            everything = lists_by_product(p * p, 2)
            several = [f for f, lists in everything.items() if len(lists) > 2]
            self.assertEqual(len(several), p * p)
            for f in several + source.sample(list(everything), 300):
                self.check(p, list(f), everything[f], everything)

    def check(self, p, f, lists, everything):
        """The list in the answer's bytes, against all lists with the same product."""
        answer = answer_bytes(Sheet(p, f))
        members = list_read_off(answer)
        [[factors, different, free]] = [operands for command, operands in commands(answer) if command == TOTALS]
        self.assertEqual(product_of(p * p, members), f)
        self.assertEqual((len(members), len(set(map(tuple, members)))), (factors, different))
        for member in map(tuple, members):
            self.assertEqual(everything[member], [(member,)])
        longest = [other for other in lists if len(other) == factors]
        self.assertEqual(max(map(len, lists)), factors)
        self.assertEqual(min(len(set(other)) for other in longest), different)
        parts = parts_of(p, f)
        self.assertEqual(sum(settings_of(p, parts, other) for other in longest), p**free)

    def test_lists_that_look_finished(self):
        """The page of document 01 with that name: each rival is a list with the right product, and is excluded."""
        four, nine = lists_by_product(4, 4), lists_by_product(9, 2)
        x_to_the_fourth = [0, 0, 0, 0, 1]
        self.assertIn(((2, 0, 1), (2, 0, 1)), four[tuple(x_to_the_fourth)])
        self.assertEqual(totals_of(parts_of(2, x_to_the_fourth)).factors, 4)
        self.assertIn(((0, 1), (3, 1)), nine[(0, 3, 1)])
        self.assertEqual(totals_of(parts_of(3, [0, 3, 1])), (2, 1, 1))
        self.assertEqual(factor_list(parts_of(3, [0, 3, 1])), [[6, 1], [6, 1]])


if __name__ == "__main__":
    unittest.main()
