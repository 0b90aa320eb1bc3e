"""Damaged, wild and random sheets, with a PD and without, through replay against the oracle, for a bounded time. A
longer run: tools/fuzz.py."""
import os
import sys
import unittest

ROOT = os.path.dirname(os.path.dirname(os.path.dirname(os.path.abspath(__file__))))
sys.path.insert(0, os.path.join(ROOT, "tools"))

import fuzz  # noqa: E402
import oracle  # noqa: E402

SECONDS, SEED = 20, 9001


@unittest.skipIf(oracle.lacking(), "to build the oracle there is lacking: " + ", ".join(oracle.lacking()))
class Fuzz(unittest.TestCase):
    def test_no_difference(self):
        status, said = oracle.build("recipe")
        self.assertEqual(status, 0, said)
        total = fuzz.run(SECONDS, SEED)
        self.assertGreaterEqual(total, fuzz.BATCH * len(fuzz.KINDS))
        print("fuzz: %d sheets" % total)


if __name__ == "__main__":
    unittest.main()
