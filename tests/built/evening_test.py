"""The proved program `evening` on the evenings that its crate keeps, and on evenings made by seed against single solves:
each row is what `replay` prints for the sheet with the row's demands, byte for byte. The program `evening_verdict` likewise,
with each row's verdict by the second computation (tools/verdicts.py). And the call that C makes, by
evening.c: every byte lent, refusals with their places, short buffers. `./test` runs this once all is proved, since it needs
the programs and the library."""
import os
import struct
import subprocess
import sys
import tempfile
import time
import unittest
from collections import Counter

ROOT = os.path.dirname(os.path.dirname(os.path.dirname(os.path.abspath(__file__))))
sys.path[:0] = [ROOT, os.path.join(ROOT, "tools")]

import c_test  # noqa: E402
import evenings  # noqa: E402
import library  # noqa: E402
import verdict_stored  # noqa: E402
from coordinator import listings, programs  # noqa: E402
from coordinator.sheet_format import Dice, pack_many  # noqa: E402
from sheet_refusals import changed, full, pair  # noqa: E402
from stored import read  # noqa: E402

# another seed than the kept ones'
SEED, COUNT, JUDGED = 2301, 400, 120
LONGEST, MOST_ENTRIES = 65536, 4096


def run(data):
    return programs.run("evening", data).decode("ascii")


def single(sheets):
    """A listing for each sheet, by `replay`."""
    return listings.split(programs.run("replay", pack_many(sheets)).decode("ascii"))


def longest(rows):
    """So many rows over the longest good sheet, each with demands of its own."""
    s = changed(full(), "op", 0, trials=200)
    s.pd = dict(minimum=5.0, required=20.0)
    dice = Dice(SEED)
    return evenings.of_rows("longest", "", s, [[dice.between(0.0, 0.01) for _ in range(64)] for _ in range(rows)])


class Evening(unittest.TestCase):
    def compare(self, asked):
        """Each evening's rows against single solves; gives what was met."""
        ours, expected, met = listings.split(run(evenings.asked(asked))), evenings.told(asked, single), Counter()
        self.assertEqual(len(ours), len(asked))
        for one, text, right in zip(asked, ours, expected):
            self.assertEqual(text, right, one.name)
            met.update(line.split(" ")[1] for line in text.splitlines() if line.startswith("A "))
            met["repairs"] += text.count("\nT VF ") + text.count("\nT GN ")
        return met

    def test_the_kept_ones(self):
        self.assertEqual(run(read("crates/evening/stdin")), read("crates/evening/stdout").decode("ascii"))

    def test_by_seed(self):
        began = time.time()
        asked = [evenings.seeded(SEED, i) for i in range(COUNT)]
        self.assertTrue({one.rows for one in asked} >= {0, 1, 2, 32, 33})
        met = self.compare(asked)
        self.assertTrue(set(met) >= {"0", "1", "3", "7", "8", "14", "repairs"}, met)
        print("%d evenings, %d answers, %.0f s" % (COUNT, sum(met.values()) - met["repairs"], time.time() - began))

    def test_the_most_that_is_taken(self):
        self.assertEqual(len(longest(1).sheet), 9199)
        met = self.compare([longest(32), longest(1), longest(2)])
        self.assertEqual(met["0"], 35)

    def test_evenings_know_nothing_of_one_another(self):
        some = [evenings.seeded(SEED + 1, i) for i in range(24)]
        texts = listings.split(run(evenings.asked(some)))
        self.assertEqual(listings.split(run(evenings.asked(reversed(some)))), texts[::-1])

    def test_cut_or_too_long(self):
        one = evenings.of_rows("two", "", pair(), [[0.0, 0.5], [0.0, 0.25]])
        whole = evenings.asked([one])
        answer = run(whole)
        self.assertTrue(answer.startswith("R 0\nA 0 ") and answer.endswith("\n--\n"))
        self.assertEqual(run(b""), "")
        table = len(whole) - len(one.table)
        for cut in (1, 3, 4, 7, 8, 9, table - 5, table - 4, table - 1, table, len(whole) - 8, len(whole) - 1):
            self.assertEqual(run(whole[:cut]), "X\n", cut)
            self.assertEqual(run(whole + whole[:cut]), answer + "X\n", cut)
        # nothing behind a line X is read
        too_long = struct.pack("<II", 1, LONGEST + 1) + bytes(LONGEST + 1) + struct.pack("<I", 0)
        self.assertEqual(run(too_long + whole), "X\n")
        too_many = struct.pack("<II", 1, len(one.sheet)) + one.sheet + struct.pack("<I", MOST_ENTRIES + 1)
        self.assertEqual(run(too_many + bytes(8 * (MOST_ENTRIES + 1)) + whole), "X\n")

    def test_the_longest_input_that_is_read(self):
        sheet = pair().encode()
        many = evenings.Evening("many", "", sheet, 1, bytes(8 * MOST_ENTRIES))
        long = evenings.Evening("long", "", bytes(LONGEST), 1, b"")
        none = evenings.Evening("none", "", b"", 0, b"")
        texts = listings.split(run(evenings.asked([many, long, none])))
        self.assertTrue(texts[0].startswith("R 0\nA 0 "))
        self.assertEqual(texts[1:], ["A 1 0 0 0 0\n"] * 2)
        self.compare([many, long, none])


class Judged(unittest.TestCase):
    """The program `evening_verdict`: the listings of single solves, with the verdicts of the second computation."""

    @staticmethod
    def run_on(pairs):
        return programs.run("evening_verdict", verdict_stored.evenings_asked(pairs)).decode("ascii")

    def test_the_kept_ones(self):
        self.assertEqual(programs.run("evening_verdict", read("crates/evening_verdict/stdin")), read("crates/evening_verdict/stdout"))

    def test_by_seed(self):
        asked = [evenings.seeded(SEED + 3, i) for i in range(JUDGED)] + [longest(32)]
        pairs = [(verdict_stored.LIMITS[i % len(verdict_stored.LIMITS)], one) for i, one in enumerate(asked)]
        ours, met = listings.split(self.run_on(pairs)), Counter()
        self.assertEqual(len(ours), len(asked))
        for (limits, one), text, told in zip(pairs, ours, evenings.told(asked, single)):
            self.assertEqual(text, verdict_stored.evening_judged(one, told, limits), (one.name, limits))
            met.update(line.split(" ")[1] for line in text.splitlines() if line.startswith("V "))
        self.assertTrue(set(met) >= set("01234568"), met)

    def test_cut_or_too_long(self):
        one = evenings.of_rows("two", "", pair(), [[0.0, 0.5], [0.0, 0.25]])
        whole = verdict_stored.evenings_asked([(verdict_stored.LIMITS[0], one)])
        answer = programs.run("evening_verdict", whole)
        self.assertTrue(answer.startswith(b"R 0\nV 0 0\nA 0 ") and answer.endswith(b"\n--\n"))
        table = len(whole) - len(one.table)
        for cut in (1, 23, 24, 27, 28, 31, 32, 33, table - 5, table - 4, table - 1, table, len(whole) - 8, len(whole) - 1):
            self.assertEqual(programs.run("evening_verdict", whole[:cut]), b"X\n", cut)
            self.assertEqual(programs.run("evening_verdict", whole + whole[:cut]), answer + b"X\n", cut)


class Lent(unittest.TestCase):
    @classmethod
    def setUpClass(cls):
        library.have()
        folder = tempfile.TemporaryDirectory()
        cls.addClassCleanup(folder.cleanup)
        source = os.path.join(ROOT, "tests", "built", "evening.c")
        cls.command = c_test.build(os.path.join(folder.name, "evening"), source=source)

    def check(self, asked):
        done = subprocess.run(self.command, input=evenings.asked(asked), stdout=subprocess.PIPE, check=False)
        lines = done.stdout.decode("ascii").splitlines()
        for one, line, text in zip(asked, lines, evenings.told(asked, single)):
            number, place = text.split(" ", 3)[1:3] if text.startswith("A ") else ("0", "0")
            self.assertEqual(line, "%s %s same" % (number, place), one.name)
        self.assertEqual((done.returncode, len(lines)), (0, len(asked)))

    def test_the_kept_ones(self):
        self.check(evenings.kept())

    def test_by_seed(self):
        self.check([evenings.seeded(SEED + 2, i) for i in range(60)] + [longest(32)])


if __name__ == "__main__":
    unittest.main()
