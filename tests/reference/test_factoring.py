"""Items 1 to 3 of document 01: factors modulo p and primary parts, against trying everything and against known products."""

import random
import unittest

from brute_force import irreducibles, monics, monics_to
from factoring import bar_factors, is_irreducible
from lifting import primary_part
from polynomials import degree, divided, power, product_of, reduced, times

SMALL = {2: 7, 3: 5, 5: 3, 7: 3}


def order(base):
    """Item 3: "by the degree d of G, lower first. Equal degrees: [..] from the highest power down, smaller first." """
    return degree(base), base[::-1]


class BarFactors(unittest.TestCase):
    def test_against_trying_everything(self):
        """Different irreducible factors, in order, whose powers multiply to f: item 1 says that this is only one list."""
        for p, top in SMALL.items():
            known = irreducibles(p, top)
            for f in monics_to(p, top):
                pairs = bar_factors(p, f)
                self.assertEqual(product_of(p, [power(p, base, m) for base, m in pairs]), f)
                self.assertEqual(is_irreducible(p, f), tuple(f) in known)
                self.assertTrue(all(tuple(base) in known and m >= 1 for base, m in pairs))
                keys = [order(base) for base, _ in pairs]
                self.assertTrue(all(first < second for first, second in zip(keys, keys[1:])))

    def test_order_of_monics(self):
        """The list of monics that the other tests go through rises in the order of item 3."""
        self.assertEqual(monics(2, 2), [[0, 0, 1], [1, 0, 1], [0, 1, 1], [1, 1, 1]])
        self.assertEqual(sorted(monics_to(3, 3), key=order), monics_to(3, 3))

    def test_known_products(self):
        """Products of powers of known irreducible polynomials, of degree up to 32."""
        source = random.Random("known products")
        for p, top in SMALL.items():
            known = sorted(map(list, irreducibles(p, top)), key=order)
            for _ in range(150):
                powers, room = {}, source.randrange(1, 33)
                while room > 0:
                    position = source.randrange(min(len(known), 12) if source.randrange(2) else len(known))
                    m = source.randrange(1, 10)
                    if m * degree(known[position]) <= room:
                        powers[position] = powers.get(position, 0) + m
                        room -= m * degree(known[position])
                pairs = [(known[position], powers[position]) for position in sorted(powers)]
                f = product_of(p, [power(p, base, m) for base, m in pairs])
                self.assertEqual(bar_factors(p, f), pairs)


class PrimaryParts(unittest.TestCase):
    def check(self, p, f):
        """The parts have their bars and multiply to f."""
        parts = []
        for base, m in bar_factors(p, reduced(p, f)):
            parts.append(primary_part(p, f, base, m))
            self.assertEqual(reduced(p, parts[-1]), power(p, base, m))
        self.assertEqual(product_of(p * p, parts), f)

    def test_small(self):
        for p, top in {2: 4, 3: 3, 5: 2, 7: 2}.items():
            for f in monics_to(p * p, top):
                self.check(p, f)

    def test_the_only_one(self):
        """Of all polynomials with the bar of the part, the part alone divides f."""
        for p, top in {2: 4, 3: 2}.items():
            for f in monics_to(p * p, top):
                for base, m in bar_factors(p, reduced(p, f)):
                    bar = power(p, base, m)
                    same_bar = [a for a in monics(p * p, degree(bar)) if reduced(p, a) == bar]
                    dividing = [a for a in same_bar if divided(p * p, f, a)[1] == []]
                    self.assertEqual(dividing, [primary_part(p, f, base, m)])

    def test_large(self):
        source = random.Random("primary parts")
        for p in SMALL:
            for _ in range(60):
                self.check(p, [source.randrange(p * p) for _ in range(source.randrange(1, 33))] + [1])
                factors = [[source.randrange(p * p) for _ in range(source.randrange(1, 4))] + [1] for _ in range(4)]
                self.check(p, product_of(p * p, [power(p * p, g, source.randrange(1, 4)) for g in factors[:3]]))
                self.check(p, times(p * p, factors[3], power(p * p, factors[0], 9)))


if __name__ == "__main__":
    unittest.main()
