"""The proved program `verdict` against the second computation (tools/verdicts.py), on sheets made by seed and under
several limits; and what the June family gets. `./test` runs this once all is proved, since it needs the program."""
import math
import os
import struct
import sys
import time
import unittest
from collections import Counter

ROOT = os.path.dirname(os.path.dirname(os.path.dirname(os.path.abspath(__file__))))
sys.path[:0] = [ROOT, os.path.join(ROOT, "tools")]

from coordinator import listings  # noqa: E402
from coordinator import programs  # noqa: E402
import sheet_rules  # noqa: E402
import sheets  # noqa: E402
import spread  # noqa: E402
import verdicts  # noqa: E402
from coordinator.sheet_format import next_down, next_up, pack_many  # noqa: E402
from verdicts import Limits  # noqa: E402

# kind, seed, count: other seeds than the stored list's
ASKED = (("real", 1611, 700), ("wild", 1612, 350), ("seeded", 1613, 100), ("damaged", 1614, 100),
         ("pd-real", 1615, 450), ("pd-wild", 1616, 150), ("pd-flood", 1617, 50))
JUNE = 100
USUAL = Limits(0.0, 0.1, 0.001)
LIMITS = (USUAL, Limits(-math.inf, math.inf, math.inf), Limits(30.0, 0.1, 0.001), Limits(0.0, 1e-9, 1e-9),
          Limits(-0.0, 0.0, 0.01), Limits(0.0, math.inf, -0.0), Limits(math.nan, 1.0, 1.0), Limits(0.0, math.nan, 1e-6),
          Limits(0.0, 0.1, math.nan), Limits(0.0, -1.0, 0.001), Limits(0.0, 0.1, -math.inf), Limits(math.inf, 0.1, 1.0))


def asked(pairs):
    """What the program is sent for (sheet, limits)."""
    return b"".join(struct.pack("<dddI", *limits, len(data)) + data for data, limits in pairs)


def said(text):
    """(number, place, listing) of each sheet."""
    for part in listings.split(text):
        first, listing = part.split("\n", 1)
        mark, number, place = first.split(" ")
        if mark != "V":
            raise ValueError("no verdict: " + first)
        yield int(number), int(place), listing


def run(data):
    return programs.run("verdict", data).decode("ascii")


def june_sheets():
    """Bare pairs, and pairs fed from above and from both sides."""
    bare = spread.june_family()
    fed = [sheet_rules.june(k / 1000, True, both).encode() for k in range(1, 1001, 20) for both in (False, True)]
    return bare[::20] + fed[:JUNE - len(bare[::20])]


def seeded():
    return [case.data for kind, seed, count in ASKED for case in sheets.generate(kind, seed, count)] + june_sheets()


def edges(data, listing):
    """Limits at what an answer shows, and just beside: where `<=` and `<` part."""
    hour = verdicts.Hour(data, listing)
    if hour.number != 0:
        return
    flows = [abs(e) for _, e in verdicts.balances(hour)] + [abs(x) for _, x in verdicts.strays(hour)]
    heads = [abs(x) for _, x in verdicts.held_heads(hour)]
    moved = [abs(m) for _, m, g in verdicts.moves(hour) if g]
    for x in (max(flows, default=0.0), max(moved, default=0.0)):
        if 0.0 < x < math.inf:
            yield from (Limits(-math.inf, math.inf, x), Limits(-math.inf, math.inf, next_down(x)),
                        Limits(-math.inf, 0.0, x), Limits(-math.inf, 0.0, next_down(x)))
    for x in heads:
        if 0.0 < x < math.inf:
            yield from (Limits(-math.inf, x, math.inf), Limits(-math.inf, next_down(x), math.inf))
    lowest = min([hour.pressure(i) for i in hour.junctions() if hour.nodes[i].demand > 0.0], default=0.0)
    if 0.0 < lowest < math.inf:
        yield from (Limits(lowest, math.inf, math.inf), Limits(next_up(lowest), math.inf, math.inf))


class Verdict(unittest.TestCase):
    def compare(self, pairs, texts):
        """The program on (sheet, limits), each with the listing that the program replay gives; the verdicts met."""
        found = Counter()
        for (data, limits), text, (number, place, listing) in zip(pairs, texts, said(run(asked(pairs)))):
            self.assertEqual(listing, text)
            self.assertEqual((number, place), verdicts.verdict(data, text, limits), (limits, data.hex()))
            found[number] += 1
        self.assertEqual(sum(found.values()), len(pairs))
        return found

    @classmethod
    def setUpClass(cls):
        cls.data = seeded()
        cls.texts = listings.split(programs.run("replay", pack_many(cls.data)).decode("ascii"))

    def test_by_seed(self):
        began = time.time()
        self.assertEqual(len(self.data), 2000)
        found = self.compare([(data, LIMITS[i % len(LIMITS)]) for i, data in enumerate(self.data)], self.texts)
        found += self.compare([(data, USUAL) for data in self.data], self.texts)
        self.assertEqual(set(found), set(range(9)))
        print("%d sheets, verdicts %s, %.0f s" % (
            len(self.data), ", ".join("%d: %d" % pair for pair in sorted(found.items())), time.time() - began))

    def test_at_and_beside_what_is_measured(self):
        pairs, texts = [], []
        for data, text in list(zip(self.data, self.texts))[::4]:
            for limits in edges(data, text):
                pairs.append((data, limits))
                texts.append(text)
        self.assertGreater(len(pairs), 1000)
        self.assertTrue(set(self.compare(pairs, texts)) >= {0, 4, 5, 6, 7, 8})

    def test_cut_or_too_long(self):
        good = sheets.one("B15-no-links")
        whole = asked([(good, USUAL)])
        answer = run(whole)
        self.assertTrue(answer.startswith("V 2 0\nA 0 0 2 0 1\n") and answer.endswith("\n--\n"))
        self.assertEqual(run(b""), "")
        for cut in (1, 23, 24, 27, 28, len(whole) - 1):
            self.assertEqual(run(whole[:cut]), "X\n")
            self.assertEqual(run(whole + whole[:cut]), answer + "X\n")
        self.assertEqual(run(struct.pack("<dddI", *USUAL, 65537) + bytes(65537)), "X\n")
        self.assertTrue(run(struct.pack("<dddI", *USUAL, 65536) + bytes(65536)).startswith("V 1 1\nA 1 0 "))
        self.assertEqual(run(struct.pack("<dddI", *USUAL, 0)), "V 1 1\nA 1 0 0 0 0\n--\n")


class June(unittest.TestCase):
    """1,000 bare pairs, of which none is sold."""

    def test_the_family(self):
        pairs = [(sheet, USUAL) for sheet in spread.june_family()]
        found = Counter(number for number, _, _ in said(run(asked(pairs))))
        print("June family: " + spread.verdict_words(found))
        self.assertEqual(found, spread.JUNE_VERDICTS)


if __name__ == "__main__":
    unittest.main()
