"""The reference arithmetic checked by itself: worked examples, laws, the numbers 10 to 13, and the maker of the stored cases."""

import itertools
import random
import unittest

from arithmetic import FIRST_PRIMES, LIMIT, REFUSED, TAKEN_PRIMES, WIDTH, Answer, Record
from arithmetic import add, degree, divide, is_monic, modulus, multiply, one, subtract, x, zero
from arithmetic_cases import DEGREES, DIVISION, KINDS, SUM, Case
from kinds import made_by
from make_arithmetic_vectors import answer_line, answer_of, case_bytes
from records import maximal, monomial, polynomial, some, some_monic, with_coefficient


def value(record, point):
    """The value at a point modulo p²: another road to the same coefficients."""
    return sum(c * point**i for i, c in enumerate(record.coefficients)) % modulus(record.prime)


def record(answer):
    """The one record of a successful answer."""
    assert answer.number == 0 and answer.place == 0 and len(answer.records) == 1
    return answer.records[0]


class WorkedExamples(unittest.TestCase):
    def test_trial_table(self):
        """Rows of the trial table of document 01, multiplied out."""
        rows = (
            (2, (1, 1), (3, 1), (3, 0, 1)),
            (2, (0, 1), (2, 1), (0, 2, 1)),
            (2, (2, 0, 1), (2, 0, 1), (0, 0, 0, 0, 1)),
            (2, (3, 1), (1, 1, 1), (3, 0, 0, 1)),
            (3, (6, 1), (6, 1), (0, 3, 1)),
            (3, (0, 1), (3, 0, 1), (0, 3, 0, 1)),
            (5, (7, 1), (18, 1), (1, 0, 1)),
        )
        for prime, a, b, product in rows:
            self.assertEqual(record(multiply(polynomial(prime, *a), polynomial(prime, *b))), polynomial(prime, *product))

    def test_example_of_the_program(self):
        """(x + 1)²(x + 4) = x³ + 6x² + 4 modulo 9."""
        square = record(multiply(polynomial(3, 1, 1), polynomial(3, 1, 1)))
        self.assertEqual(record(multiply(square, polynomial(3, 4, 1))), polynomial(3, 4, 0, 6, 1))

    def test_division_by_hand(self):
        """x³ + 2x + 5 = (x² + 8x + 3)(x + 1) + 2 modulo 9."""
        answer = divide(polynomial(3, 5, 2, 0, 1), polynomial(3, 1, 1))
        self.assertEqual(answer, Answer(0, 0, (polynomial(3, 3, 8, 1), polynomial(3, 2))))

    def test_named(self):
        for byte in range(256):
            for named, expected in ((zero, polynomial(byte)), (one, polynomial(byte, 1)), (x, polynomial(byte, 0, 1))):
                good = Answer(0, 0, (expected,))
                self.assertEqual(named(byte), good if byte in TAKEN_PRIMES else Answer(10, 0, (REFUSED,)))


class Laws(unittest.TestCase):
    def setUp(self):
        self.source = random.Random("laws")

    def pairs(self, room=2 * LIMIT):
        """Random pairs of every two degrees that add to at most `room`, for every prime."""
        for prime, top_a, top_b in itertools.product(FIRST_PRIMES, DEGREES, DEGREES):
            if (top_a or 0) + (top_b or 0) <= room:
                yield some(self.source, prime, top_a), some(self.source, prime, top_b)

    def test_sum_and_difference(self):
        for a, b in self.pairs():
            total = record(add(a, b))
            self.assertEqual(total, record(add(b, a)))
            self.assertEqual(record(subtract(total, b)), a)
            self.assertEqual(record(add(record(subtract(a, b)), b)), a)
            self.assertTrue(all(value(total, t) == (value(a, t) + value(b, t)) % modulus(a.prime) for t in range(3)))

    def test_product(self):
        for a, b in self.pairs(LIMIT):
            product = record(multiply(a, b))
            self.assertEqual(product, record(multiply(b, a)))
            for t in range(3):
                self.assertEqual(value(product, t), value(a, t) * value(b, t) % modulus(a.prime))
            c = some(self.source, a.prime, degree(b.coefficients))
            sum_first = record(multiply(a, record(add(b, c))))
            self.assertEqual(sum_first, record(add(product, record(multiply(a, c)))))

    def test_division(self):
        """a = q·b + r, r zero or of lower degree; the divisor 1 leaves zero."""
        for prime, top_a, top_b in itertools.product(FIRST_PRIMES, DEGREES, range(WIDTH)):
            a, b = some(self.source, prime, top_a), some_monic(self.source, prime, top_b)
            number, place, (quotient, remainder) = divide(a, b)
            self.assertEqual((number, place), (0, 0))
            self.assertEqual(record(add(record(multiply(quotient, b)), remainder)), a)
            self.assertTrue(degree(remainder.coefficients) is None or degree(remainder.coefficients) < top_b)
            if top_b == 0:
                self.assertEqual((quotient, remainder), (a, polynomial(prime)))

    def test_division_is_the_only_one(self):
        """Modulo 4, up to degree 3: of all quotients and remainders exactly one pair will do."""
        small = [polynomial(2, *c) for c in itertools.product(range(4), repeat=4)]
        for b in [polynomial(2, 3, 1), polynomial(2, 2, 3, 1), polynomial(2, 1)]:
            found = {}
            for q in (q for q in small if (degree(q.coefficients) or 0) + degree(b.coefficients) <= 3):
                for r in small:
                    if degree(r.coefficients) is None or degree(r.coefficients) < degree(b.coefficients):
                        found.setdefault(record(add(record(multiply(q, b)), r)), []).append((q, r))
            for a in small:
                self.assertEqual(found[a], [divide(a, b).records])


class Refusals(unittest.TestCase):
    binary = (add, subtract, multiply, divide)

    def assertRefused(self, call, a, b, number):
        self.assertEqual(call(a, b), Answer(number, 0, (REFUSED, REFUSED) if call is divide else (REFUSED,)))

    def test_ten_before_all(self):
        """An improper record is 10 even where the primes differ, the degrees are too high or the divisor is zero."""
        for call in self.binary:
            for p in FIRST_PRIMES:
                for good in (polynomial(p), maximal(p, LIMIT), polynomial(5 if p == 2 else 2)):
                    for bad in (Record(4, good.coefficients), monomial(p, p * p, 0), monomial(p, 65535, LIMIT)):
                        self.assertRefused(call, good, bad, 10)
                        self.assertRefused(call, bad, good, 10)
                        self.assertRefused(call, bad, bad, 10)

    def test_eleven_before_the_rest(self):
        for call in self.binary:
            for p, q in itertools.permutations(FIRST_PRIMES, 2):
                self.assertRefused(call, maximal(p, LIMIT), maximal(q, LIMIT), 11)
                self.assertRefused(call, maximal(p, LIMIT), polynomial(q), 11)

    def test_twelve(self):
        """By the degrees of the factors, also where the product would vanish; never with a zero factor."""
        for p in FIRST_PRIMES:
            self.assertRefused(multiply, monomial(p, p, 1), monomial(p, p, LIMIT), 12)
            self.assertRefused(multiply, maximal(p, LIMIT), maximal(p, LIMIT), 12)
            self.assertEqual(record(multiply(monomial(p, p, 0), monomial(p, p, LIMIT))), polynomial(p))
            self.assertEqual(record(multiply(polynomial(p), maximal(p, LIMIT))), polynomial(p))
            self.assertEqual(record(multiply(maximal(p, LIMIT), polynomial(p))), polynomial(p))

    def test_thirteen(self):
        """Zero, every leading unit other than 1 and every leading multiple of p."""
        for p in FIRST_PRIMES:
            self.assertRefused(divide, maximal(p, LIMIT), polynomial(p), 13)
            for leading in range(2, p * p):
                for top in (0, 1, LIMIT):
                    self.assertRefused(divide, maximal(p, 1), monomial(p, leading, top), 13)

    def test_last_good_values(self):
        for p in FIRST_PRIMES:
            self.assertEqual(add(maximal(p, LIMIT), polynomial(p)).number, 0)
            self.assertEqual(multiply(maximal(p, 1), maximal(p, LIMIT - 1)).number, 0)
            self.assertEqual(divide(maximal(p, LIMIT), monomial(p, 1, LIMIT)).number, 0)


class StoredCases(unittest.TestCase):
    def setUp(self):
        self.kinds = {kind.__name__: made_by(kind) for kind in KINDS}

    def numbers(self, kind):
        return {answer_of(case).number for case in self.kinds[kind]}

    def test_layout(self):
        cases = list(itertools.chain.from_iterable(self.kinds.values()))
        self.assertGreaterEqual(len(cases), 3600)
        self.assertEqual(cases, [case for kind in KINDS for case in made_by(kind)])
        for case in cases:
            self.assertEqual(len(case_bytes(case)), 135)
            lengths = [len(part.split()) for part in answer_line(answer_of(case)).split(" | ")]
            self.assertEqual(lengths, [36, 34] if case.operation == DIVISION else [36])

    def test_bytes_of_a_case(self):
        case = Case(SUM, polynomial(7, 1, 300), monomial(2, 3, LIMIT))
        self.assertEqual(case_bytes(case), bytes([3, 7, 1, 0, 44, 1] + 62 * [0] + [2] + 64 * [0] + [3, 0]))
        self.assertEqual(answer_line(answer_of(case)), "10 0 2" + 33 * " 0")

    def test_each_kind_is_what_it_says(self):
        expected = {
            "every_prime_byte": {0, 10},
            "every_degree": {0},
            "improper_prime": {10},
            "improper_coefficient": {10},
            "extreme_bytes": {10},
            "different_primes": {10, 11},
            "zero_factors": {0},
            "degrees_at_the_limit": {0, 12},
            "vanishing_leading_products": {0, 12},
            "divisors_not_monic": {13},
            "divisors_of_note": {0},
            "divisions_without_remainder": {0},
            "maximal_coefficients": {0},
            "cancelling": {0},
        }
        self.assertEqual({kind: self.numbers(kind) for kind in self.kinds}, expected)

    def test_random_records_are_as_asked(self):
        source = random.Random(0)
        for prime, top in itertools.product(FIRST_PRIMES, DEGREES):
            self.assertEqual(degree(some(source, prime, top).coefficients), top)
            if top is not None:
                self.assertTrue(is_monic(some_monic(source, prime, top).coefficients))
                self.assertEqual(with_coefficient(polynomial(prime), top, 1), monomial(prime, 1, top))


if __name__ == "__main__":
    unittest.main()
