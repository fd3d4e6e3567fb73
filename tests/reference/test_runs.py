"""Run lengths: the examples, a plain walk on small cases and on some large ones, polynomials made for a run, and what "least" means."""

import random
import unittest

from arithmetic import FIRST_PRIMES, LIMIT
from brute_force import monics_to, walked_run
from known_runs import base_of_order, divided_by, multiplicative_order, prime_powers, root_of_unity_lift, with_run
from polynomial_cases import all_sheets, some_monic
from polynomials import degree, power, power_modulo, reduced
from run_lengths import RUN_LIMIT, X, order_modulo_base, run_length
from sheets import has_run


class Examples(unittest.TestCase):
    def test_papers(self):
        """ "For x² + 1 modulo 4 it is 4." """
        rows = ((2, [1, 0, 1], 4), (2, [3, 1], 1), (2, [1, 1, 1], 3), (2, [1, 3, 1], 6), (3, [4, 0, 6, 1], 18), (7, [46, 1], 42))
        for p, f, run in rows:
            self.assertEqual(run_length(p, f), run)

    def test_cyclic(self):
        """x^n − 1 has the run n; x^n + 1 has twice that."""
        for p in FIRST_PRIMES:
            for n in range(1, LIMIT + 1):
                for constant, run in ((p * p - 1, n), (1, 2 * n)):
                    self.assertEqual(run_length(p, [constant] + [0] * (n - 1) + [1]), run)

    def test_powers(self):
        """The most pulses with one part x − 1: 64 modulo 4. No power of two above 64 divides a run modulo 4."""
        self.assertEqual([run_length(2, power(4, [3, 1], m)) for m in (1, 2, 3, 4, 5, 8, 9, 16, 17, 32)], [1, 4, 8, 8, 16, 16, 32, 32, 64, 64])


class Walks(unittest.TestCase):
    def test_small(self):
        for p, top in {2: 5, 3: 3, 5: 2, 7: 2}.items():
            for f in monics_to(p * p, top):
                if has_run(p, f):
                    self.assertEqual(run_length(p, f), walked_run(p * p, f, RUN_LIMIT), (p, f))

    def test_large(self):
        """Of degree up to 32; where the run is above the limit the walk takes all its pulses."""
        source = random.Random("walks")
        for p in FIRST_PRIMES:
            taken = [sheet.polynomial for sheet in all_sheets() if sheet.prime == p and has_run(p, sheet.polynomial)]
            runs = [(f, run_length(p, f)) for f in source.sample(taken, 60)]
            within = [pair for pair in runs if pair[1]]
            above = [pair for pair in runs if not pair[1]]
            self.assertTrue(within and above)
            for f, run in within + above[:2]:
                self.assertEqual(walked_run(p * p, f, RUN_LIMIT if run == 0 else run), run)

    def test_least(self):
        """x^n is 1, and x^(n/q) is not, for the primes q that divide n: then n is the order of x."""
        source = random.Random("least")
        for p in FIRST_PRIMES:
            for f in [some_monic(source, p * p, source.randrange(1, 9)) for _ in range(60)]:
                run = run_length(p, f) if has_run(p, f) else 0
                if run:
                    self.assertEqual(power_modulo(p * p, X, run, f), [1])
                    self.assertTrue(all(power_modulo(p * p, X, run // q, f) != [1] for q, _ in prime_powers(run)))


class KnownRuns(unittest.TestCase):
    def test_bases(self):
        for p, e in ((2, 65535), (2, 65537), (3, 80), (3, 7), (5, 31), (5, 2), (7, 1), (7, 400)):
            base = base_of_order(p, e)
            self.assertEqual(degree(base), multiplicative_order(p, e))
            self.assertEqual(order_modulo_base(p, base), e if e <= RUN_LIMIT else None)
            lift = root_of_unity_lift(p, base)
            self.assertEqual(reduced(p, lift), base)
            self.assertEqual(power_modulo(p * p, X, e, lift), [1])

    def test_made_for_a_run(self):
        """Small numbers, those about the squares of small and great steps, and those about the limit: 65,534, 65,535, 65,537 modulo 4."""
        made = {}
        for n in (*range(1, 61), *range(1020, 1030), *range(65500, 65561)):
            for p in FIRST_PRIMES:
                f = with_run(p, n)
                if f is not None:
                    made.setdefault(n, []).append(p)
                    self.assertEqual(run_length(p, f), n if n <= RUN_LIMIT else 0)
        self.assertEqual([n for n in range(1, 61) if n not in made], [])
        self.assertEqual({n: made[n] for n in made if 65530 < n < 65541}, {65532: [2], 65534: [2], 65535: [2], 65537: [2], 65538: [2], 65540: [2, 7]})

    def test_none_of_65536(self):
        """Its two-part is too high for every prime: 2 modulo 4 gives at most 64, and 2^16 divides no p^d − 1 with d up to 32."""
        self.assertTrue(all(divided_by(2, p**d - 1)[0] < 16 for p in (3, 5, 7) for d in range(1, LIMIT + 1)))
        self.assertTrue(all(with_run(p, 65536) is None for p in FIRST_PRIMES))


if __name__ == "__main__":
    unittest.main()
