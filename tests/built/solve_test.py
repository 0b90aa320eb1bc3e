"""The proved solver against the oracle, on sheets made by seed: every byte of every listing. `./test`
runs this once all is proved, since it needs the program replay."""
import os
import sys
import time
import unittest

ROOT = os.path.dirname(os.path.dirname(os.path.dirname(os.path.abspath(__file__))))
sys.path[:0] = [ROOT, os.path.join(ROOT, "tools")]

import oracle  # noqa: E402
from coordinator import programs  # noqa: E402
import sheets  # noqa: E402

# kind, seed, count: other seeds than the stored list's
ASKED = (("real", 2101, 2200), ("wild", 2102, 1600), ("damaged", 2103, 1000), ("seeded", 2104, 600))
ASKED_PD = (("pd-real", 2105, 1600), ("pd-wild", 2106, 600), ("pd-damaged", 2107, 350), ("pd-seeded", 2108, 300),
            ("pd-flood", 2109, 150))


def answered(listing):
    """The number, and for 7 the first place of its column: heads, flows, drawn flows."""
    number, place = listing.split(" ", 3)[1:3]
    if number != "7":
        return number
    return "7:%d" % max(first for first in (0, 64, 256) if first <= int(place))


@unittest.skipIf(oracle.lacking(), "to build the oracle there is lacking: " + ", ".join(oracle.lacking()))
class AtScale(unittest.TestCase):
    @classmethod
    def setUpClass(cls):
        status, said = oracle.build("recipe")
        if status != 0:
            raise AssertionError(said)

    def listings(self, kind, seed, count):
        cases = sheets.generate(kind, seed, count)
        data = [case.data for case in cases]
        ours = oracle.split(programs.run("replay", sheets.pack_many(data)).decode("ascii"))
        return ours, oracle.listings("recipe", data)

    def compare(self, asked, least, reached):
        """`reached`: the numbers that must be among the answers, 7 with the first place of its column."""
        began, numbers, total = time.time(), set(), 0
        for kind, seed, count in asked:
            ours, theirs = self.listings(kind, seed, count)
            self.assertEqual(len(ours), count)
            for i, (one, other) in enumerate(zip(ours, theirs)):
                self.assertEqual(one, other, "%s, seed %d, sheet %d" % (kind, seed, i))
                numbers.add(answered(one))
            total += count
        self.assertGreaterEqual(total, least)
        self.assertTrue(numbers >= set(reached), numbers)
        print("%d sheets, numbers %s, %.0f s" % (total, " ".join(sorted(numbers)), time.time() - began))

    def test_every_byte_is_the_oracles(self):
        self.compare(ASKED, 5000, ("0", "1", "2", "3", "4", "7:0", "8"))

    def test_every_byte_under_pressure(self):
        self.compare(ASKED_PD, 3000, ("0", "1", "3", "4", "7:0", "7:64", "7:256", "8"))


if __name__ == "__main__":
    unittest.main()
