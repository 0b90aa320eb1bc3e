"""How far the power is from the exact one: both bounds of crate closeness on sampled arguments, and the figures of docs/POWER.md."""
import os
import random
import sys
import unittest
from fractions import Fraction

TOP = os.path.dirname(os.path.dirname(os.path.abspath(__file__)))
sys.path.insert(0, os.path.join(TOP, "tools"))

import power_error as measured
from stored import read

BELOW, ABOVE = 25, 51


class Bounds(unittest.TestCase):
    def arguments(self):
        rng = random.Random(12)
        yield from (measured.LEAST, measured.LIMIT - 1, measured.middle_of(0), measured.end_of(1), measured.FARTHEST_ABOVE)
        for field in range(959, 1087, 3):
            yield field << 52 | rng.getrandbits(52)
        for _ in range(40):  # the first steps are the worst from below, the ends of steps from above
            yield rng.randrange(959, 1087) << 52 | rng.randrange(4) << 42 | 1 << 41
            yield (rng.randrange(959, 1087) << 52 | rng.randrange(1, 1024) << 42) + rng.randrange(-300, 300)

    def test_sampled_arguments_obey_the_theorems(self):
        for p in self.arguments():
            self.assertEqual(measured.within(p, BELOW, ABOVE), (True, True), "%016x" % p)

    def test_measured_errors_agree(self):
        part = 1 << measured.PARTS
        for p in self.arguments():
            parts = measured.error(p)
            self.assertTrue(-(part >> BELOW) <= parts <= part >> ABOVE, "%016x" % p)
            self.assertTrue(parts >= 0 if measured.is_above(p) else parts <= 0, "%016x" % p)

    def test_no_sharper_power_of_two_holds(self):
        """The arguments at which the must-fail edits are false."""
        self.assertEqual(measured.within(measured.middle_of(0), BELOW + 1, ABOVE), (False, True))
        self.assertEqual(measured.within(measured.pattern("4200"), BELOW, ABOVE + 1), (True, False))
        self.assertTrue(measured.is_above(measured.end_of(1)))
        self.assertEqual(measured.power(measured.pattern("2") - (66 << 52), measured.A, measured.B), 0)
        self.assertEqual(measured.power(measured.LIMIT, measured.A, measured.B), 0x7FF << 52)
        two = measured.number(measured.power(measured.pattern("2"), measured.A, measured.B))
        self.assertGreater((2 ** 25 * two) ** 250, (2 ** 25 + 1) ** 250 * 2 ** 212)


class Losses(unittest.TestCase):
    def test_sampled_losses_obey_the_page(self):
        rng = random.Random(13)
        low, high = measured.loss_factors()
        part = 1 << measured.PARTS
        for _ in range(400):
            q = rng.randrange(1010, 1033) << 52 | rng.getrandbits(52)
            r = rng.randrange(1015, 1040) << 52 | rng.getrandbits(52)
            parts = measured.loss_error(q, r)
            self.assertTrue((low - 1) * part - 1 < parts <= (high - 1) * part, "%016x %016x" % (q, r))

    def test_the_factors_are_the_page_s(self):
        low, high = measured.loss_factors()
        self.assertGreater(low, 1 - Fraction("2.98024e-8"))
        self.assertLess(high, 1 + Fraction("8.89e-16"))
        page = read("docs/POWER.md").decode()
        for words in ("1 - 2.98024·10^-8", "1 + 8.89·10^-16"):
            self.assertIn(words, page)


class Page(unittest.TestCase):
    def test_figures(self):
        page = read("docs/POWER.md").decode().splitlines()
        self.assertEqual([row for row in measured.figures() + measured.pipe_rows() if row not in page], [])

    def test_picture(self):
        self.assertEqual(read("docs/power-error.svg").decode(), measured.picture())

    def test_the_statement_is_the_one_that_is_sampled(self):
        text = read("crates/closeness/specs/Close.antt").decode()
        self.assertIn("Closer = (x : Float) → Argument x → Within %d %d x (power_of x)" % (BELOW, ABOVE), text)


if __name__ == "__main__":
    unittest.main()
