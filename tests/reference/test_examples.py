"""Examples and theorems of document 002, worked by the reference splitter."""

import random
import unittest

from factoring import bar_factors, gcd
from lifting import over_p
from parts import BASIC, POWER, SOLID, SPLIT, factor_list, parts_of
from polynomials import degree, divided, minus, plus, power, product_of, reduced, times

PRIMES = (2, 3, 5, 7)


def without_p(p, n):
    """k and b with n = k·p^b and p not dividing k."""
    b = 0
    while n % p == 0:
        n, b = n // p, b + 1
    return n, b


class Introduction(unittest.TestCase):
    def test_squares_modulo_four(self):
        self.assertEqual([part.verdict for part in parts_of(2, [2, 0, 1])], [SOLID])
        self.assertEqual(times(4, [2, 1], [2, 1]), [0, 0, 1])
        self.assertEqual(times(4, [2, 0, 1], [2, 0, 1]), [0, 0, 0, 0, 1])
        self.assertEqual(factor_list(parts_of(2, [0, 0, 0, 0, 1])), [[0, 1]] * 4)

    def test_eisenstein(self):
        """Example 3.4: x^s + p(..) with a unit as last coefficient over p does not factor."""
        source = random.Random("Eisenstein")
        for p in PRIMES:
            for s in range(2, 33):
                low = [source.randrange(1, p)] + [source.randrange(p) for _ in range(s - 1)]
                (part,) = parts_of(p, [p * c for c in low] + [1])
                self.assertEqual((part.base, part.m, part.verdict), ([0, 1], s, SOLID))


class PrimaryPolynomials(unittest.TestCase):
    def test_example_4_6(self):
        f = [4, 0, 6, 1]
        (part,) = parts_of(3, f)
        self.assertEqual(part, ([1, 1], 3, SPLIT, [([1, 1], 2), ([4, 1], 1)]))
        for twice, once in (([1, 1], [4, 1]), ([4, 1], [7, 1]), ([7, 1], [1, 1])):
            self.assertEqual(product_of(9, [twice, twice, once]), f)

    def test_remark_4_8(self):
        """g^m = (g^k + p·u)(g^k − p·u)·g^(m−2k): a shorter list than the answer's."""
        g, k, m, u = [1, 1], 2, 5, [1]
        first = plus(9, power(9, g, k), [3 * c for c in u])
        second = minus(9, power(9, g, k), [3 * c for c in u])
        f = power(9, g, m)
        self.assertEqual(product_of(9, [first, second, g]), f)
        self.assertEqual(factor_list(parts_of(3, f)), [g] * 5)

    def test_corollary_4_7(self):
        """All settings of a split part; the last w is w − g^(m−m1−1)·(w1 + .. ), the printed minus sign being lost."""
        source = random.Random("Corollary 4.7")
        for p, base, m, m1 in ((2, [1, 1], 4, 2), (3, [1, 0, 1], 3, 1), (5, [2, 1], 5, 4), (7, [3, 6, 1], 4, 2)):
            n = p * p
            w = [source.randrange(1, p)]
            f = times(n, power(n, base, m1), plus(n, power(n, base, m - m1), times(n, [p], w)))
            (part,) = parts_of(p, f)
            self.assertEqual((part.verdict, part.factors[0]), (SPLIT, (base, m1)))
            for _ in range(20):
                free = [[source.randrange(p) for _ in range(degree(base))] for _ in range(m1)]
                total = [sum(column) for column in zip(*free)]
                last = minus(n, w, times(n, power(n, base, m - m1 - 1), total))
                members = [plus(n, base, times(n, [p], v)) for v in free]
                members.append(plus(n, power(n, base, m - m1), times(n, [p], last)))
                self.assertEqual(product_of(n, members), f)

    def test_corollary_4_9(self):
        """With a repeated bar: all parts are irreducible exactly if h bar is not zero and is coprime to f2 bar."""
        source = random.Random("Corollary 4.9")
        seen = set()
        for p in PRIMES:
            for _ in range(150):
                f = [source.randrange(p * p) for _ in range(source.randrange(2, 5))] + [1]
                f = times(p * p, f, power(p * p, [source.randrange(p), 1], 2))
                f[0] = (f[0] + p * source.randrange(p)) % (p * p)
                pairs = bar_factors(p, reduced(p, f))
                f1 = product_of(p, [base for base, _ in pairs])
                f2 = divided(p, reduced(p, f), f1)[0]
                h = over_p(p, minus(p * p, f, times(p * p, f1, f2)))
                condition = h != [] and gcd(p, h, f2) == [1]
                self.assertEqual(all(part.verdict in (BASIC, SOLID) for part in parts_of(p, f)), condition)
                seen.add(condition)
        self.assertEqual(seen, {True, False})


class Cyclic(unittest.TestCase):
    def check(self, p, n, sign):
        """Theorems 5.1 and 5.2 for x^n + sign, p dividing n = k·p^b: every part is f_i^(p^(b−1)) times one more factor."""
        k, b = without_p(p, n)
        parts = parts_of(p, [sign % (p * p)] + [0] * (n - 1) + [1])
        self.assertEqual([part.base for part in parts], [base for base, _ in bar_factors(p, [sign % p] + [0] * (k - 1) + [1])])
        for part in parts:
            m, m1 = p**b, p ** (b - 1)
            self.assertEqual((part.m, part.verdict), (m, SPLIT))
            self.assertEqual([(degree(factor), count) for factor, count in part.factors][0], (degree(part.base), m1))
            self.assertEqual((degree(part.factors[1][0]), part.factors[1][1]), ((m - m1) * degree(part.base), 1))

    def test_theorem_5_1(self):
        for p in PRIMES:
            for n in range(p, 33, p):
                self.check(p, n, -1)

    def test_theorem_5_2(self):
        for p in (3, 5, 7):
            for n in range(p, 33, p):
                self.check(p, n, 1)
        for n in range(2, 33, 2):
            self.assertTrue(all(part.verdict == SOLID for part in parts_of(2, [1] + [0] * (n - 1) + [1])))

    def test_no_repeated_root(self):
        """p does not divide n: all factors are basic."""
        for p in PRIMES:
            for n in (n for n in range(1, 33) if n % p != 0):
                for sign in (1, -1):
                    parts = parts_of(p, [sign % (p * p)] + [0] * (n - 1) + [1])
                    self.assertTrue(all(part.verdict == BASIC for part in parts))

    def test_powers(self):
        """p does not divide m: g^m for any lift g comes back as that g; p divides m: as the lift with digits below p."""
        source = random.Random("powers")
        for p in PRIMES:
            for m in range(2, 9):
                g = [source.randrange(p * p), 1]
                (part,) = parts_of(p, power(p * p, g, m))
                self.assertEqual((part.verdict, part.factors), (POWER, [(g if m % p else reduced(p, g), m)]))


if __name__ == "__main__":
    unittest.main()
