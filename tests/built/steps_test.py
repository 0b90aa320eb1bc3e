"""The stored list one trial at a time: the program `steps` prints for it what `replay` does, byte for byte. It prints a
line `X` where one trial more, after the answer, told something else or changed something."""
import os
import sys
import unittest

ROOT = os.path.dirname(os.path.dirname(os.path.dirname(os.path.abspath(__file__))))
sys.path[:0] = [ROOT]

from coordinator import programs  # noqa: E402


def stored(name):
    with open(os.path.join(ROOT, "crates", "replay", name), "rb") as file:
        return file.read()


class TrialByTrial(unittest.TestCase):
    def test_it_comes_to_the_stored_listings(self):
        expected = stored("stdout")
        self.assertGreater(expected.count(b"--\n"), 1400)
        self.assertNotIn(b"X", expected)
        self.assertEqual(programs.run("steps", stored("stdin")), expected)


if __name__ == "__main__":
    unittest.main()
