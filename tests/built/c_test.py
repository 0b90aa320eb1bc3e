"""The examples in C over include/desk.h and libdesk.a, built and run."""
import os
import struct
import subprocess
import sys
import tempfile
import unittest

ROOT = os.path.dirname(os.path.dirname(os.path.dirname(os.path.abspath(__file__))))
sys.path[:0] = [ROOT, os.path.join(ROOT, "tools")]

import evenings  # noqa: E402
import inp_files  # noqa: E402
import inp_reader  # noqa: E402
import library as archive  # noqa: E402
from coordinator import listings  # noqa: E402
from coordinator import programs  # noqa: E402
from coordinator.network import JUNCTION  # noqa: E402
from coordinator.sheet_format import decode  # noqa: E402
from stored import read  # noqa: E402

SOURCES = os.path.join(ROOT, "examples", "c")
SOURCE = os.path.join(SOURCES, "solve.c")
INCLUDE = os.path.join(ROOT, "include")
LIBRARY = os.path.join(ROOT, archive.LIBRARY)


def said(*words, given=None):
    return subprocess.run(words, input=given, stdout=subprocess.PIPE, check=True, universal_newlines=True).stdout.strip()


def build(program, include=INCLUDE, library=LIBRARY, source=SOURCE):
    said("gcc", "-O2", "-Wall", "-Wextra", "-Werror", "-pthread", "-I", include, "-o", program, source, library)
    return [program]


def sheet(name):
    return os.path.join(ROOT, "examples", name + ".sheet")


def listed(path):
    with open(path, "rb") as file:
        return listings.Listing(programs.run("listing", file.read()).decode("ascii"))


SOLVED = ("looped", "june", "night", "document01", "dry-week/giving-way")


class FromC(unittest.TestCase):
    @classmethod
    def setUpClass(cls):
        archive.have()
        folder = tempfile.TemporaryDirectory()
        cls.addClassCleanup(folder.cleanup)
        cls.solve, cls.steps = (build(os.path.join(folder.name, name), source=os.path.join(SOURCES, name + ".c")) for name in ("solve", "steps"))

    def test_short_buffers_are_refused_and_later_entries_stay(self):
        for name in SOLVED:
            with self.subTest(name):
                self.check(self.solve, sheet(name))
        refused = said(*self.solve, sheet("refused"))
        self.assertEqual(refused.splitlines(), ["number 3, place 168, 0 trials, 0 freed, 0 grounded",
                                                "verdict 1, place 3: it must not be sold"])

    def test_one_trial_at_a_time_comes_to_the_listing(self):
        for name in SOLVED:
            with self.subTest(name):
                listing = listed(sheet(name))
                lines = said(*self.steps, sheet(name)).splitlines()
                self.assertEqual(lines[0], "a record too short: told 2, number 5, place 4, nothing changed")
                self.assertEqual([line.split(",")[0] for line in lines[1:-3]],
                                 ["trial %d: %s" % pair for pair in enumerate(listing.record, 1)])
                self.assertEqual(lines[-3:], [
                    "number 0, place 0, %d trials, %d freed, %d grounded" % (listing.trials, listing.freed, listing.grounded),
                    "demand %.4f cfs, supply %.4f cfs" % listing.balance[:2],
                    "one trial more: told again, nothing changed"])

    def test_a_refused_sheet_is_told_again(self):
        self.assertEqual(said(*self.steps, sheet("refused")).splitlines(),
                         ["number 3, place 168, 0 trials, 0 freed, 0 grounded", "one trial more: told again, nothing changed"])

    def test_it_stops_when_the_person_says_so(self):
        lines = said(*self.steps, sheet("june"), "ask", given="\n\nquit\n").splitlines()
        first = enumerate(listed(sheet("june")).record[:3], 1)
        self.assertEqual([line.split(",")[0] for line in lines[1:]], ["trial %d: %s" % pair for pair in first] + ["stopped after 3 trials"])

    def verdict(self, data):
        """The example's line on it, by what the program `verdict` says under the same limits."""
        asked = struct.pack("<dddI", 0.0, 0.1, 0.001, len(data)) + data
        _, number, place = programs.run("verdict", asked).decode("ascii").split("\n", 1)[0].split()
        sold = "it may be sold" if number == "0" else "it must not be sold"
        return "verdict %s, place %s: %s" % (number, place, sold)

    def check(self, command, path):
        with open(path, "rb") as file:
            data = file.read()
        listing = listings.Listing(programs.run("listing", data).decode("ascii"))
        lines = said(*command, path).splitlines()
        self.assertEqual(lines[0], "number 0, place 0, %d trials, %d freed, %d grounded" % (
            listing.trials, listing.freed, listing.grounded))
        heads = ["node %d: head %.4f ft, demand %.4f cfs" % (i, head, demand)
                 for i, (head, demand) in enumerate(zip(listing.heads, listing.demands))]
        self.assertEqual(lines[1], self.verdict(data))
        self.assertEqual(lines[2:-2], heads)
        self.assertEqual(lines[-2:], ["entries past the sheet's own stay as they were",
                                      "each buffer one entry short: refused with 5 at its place, nothing changed"])


TURNS = 4
HEADING = "turn  number  place  trials  freed  grounded  demand cfs  least pressure ft  node"


class EveningFromC(unittest.TestCase):
    """Four turns in one call, against the listing of each turn's sheet."""

    @classmethod
    def setUpClass(cls):
        archive.have()
        folder = tempfile.TemporaryDirectory()
        cls.addClassCleanup(folder.cleanup)
        cls.evening = build(os.path.join(folder.name, "evening"), source=os.path.join(SOURCES, "evening.c"))

    def turn(self, data, nodes, turn):
        """The example's line on a turn."""
        row = [node["demand"] if node["kind"] != JUNCTION or not node["demand"] > 0.0
               else TURNS * node["demand"] if i % TURNS == turn else 0.0 for i, node in enumerate(nodes)]
        listing = listings.Listing(programs.run("listing", evenings.with_row(data, evenings.packed(row))).decode("ascii"))
        line = "%4d  %6d  %5d  %6d  %5d  %8d" % (
            turn, listing.number, listing.place, listing.trials, listing.freed, listing.grounded)
        if listing.number != 0:
            return line
        pressures = [(head - node["elevation"], i) for i, (node, head) in enumerate(zip(nodes, listing.heads))
                     if node["kind"] == JUNCTION]
        return line + "  %10.4f  %17.4f  %4d" % (listing.balance[0], *min(pressures))

    def test_four_turns(self):
        for name in SOLVED:
            with self.subTest(name), open(sheet(name), "rb") as file:
                data = file.read()
                nodes = [fields for _, mark, fields in decode(data) if mark == b"ND"]
                lines = said(*self.evening, sheet(name)).splitlines()
                self.assertEqual([line.strip() for line in lines[1:-2]], [self.turn(data, nodes, k).strip() for k in range(TURNS)])
                self.assertEqual([lines[0], *lines[-2:]], [
                    HEADING, "scratch one entry short: number 5, place 5, nothing changed",
                    "heads one entry short: number 14, place 2, nothing changed"])

    def test_the_page_shows_it(self):
        with open(os.path.join(SOURCES, "README.md"), encoding="utf-8") as file:
            self.assertIn("```\n%s\n```" % said(*self.evening, sheet("looped")), file.read())

    def test_a_refused_sheet(self):
        self.assertEqual(said(*self.evening, sheet("refused")), "refused: number 3, place 168")



TERRACES = read("examples/terraces.inp")


class TextFromC(unittest.TestCase):
    """EPANET texts, against tools/inp_reader.py and the listing of the sheet that it makes."""

    @classmethod
    def setUpClass(cls):
        archive.have()
        cls.folder = tempfile.TemporaryDirectory()
        cls.addClassCleanup(cls.folder.cleanup)
        cls.text = build(os.path.join(cls.folder.name, "text"), source=os.path.join(SOURCES, "text.c"))

    def said_of(self, text):
        path = os.path.join(self.folder.name, "given.inp")
        with open(path, "wb") as file:
            file.write(text)
        # names are bytes of any kind
        return subprocess.run([*self.text, path], stdout=subprocess.PIPE, check=True).stdout.split(b"\n")[:-1]

    def expected(self, text):
        made = inp_reader.read(text)
        if isinstance(made, inp_reader.Refused):
            return [b"refused: number %d, line %d" % made]
        listing = listings.Listing(programs.run("listing", made.sheet).decode("ascii"))
        lines = [b"%d nodes, %d links, a sheet of %d bytes, names of %d" % (
            len(made.nodes), len(made.links), len(made.sheet), len(inp_reader.name_list(made))),
            b"solved: number %d, place %d, %d trials" % (listing.number, listing.place, listing.trials)]
        if listing.number == 0:
            lines += [name + b": head %.4f ft" % head for name, head in zip(made.nodes, listing.heads)]
        return lines + [b"each buffer one byte short: refused with 5 at 6, nothing changed"]

    def test_the_example_and_texts_by_seed(self):
        for text in [TERRACES, *(case.text for case in inp_files.cases(3, 20))]:
            self.assertEqual(self.said_of(text), self.expected(text), text)

    def test_refusals_by_number(self):
        for text, told in ((b"[PIPES\n\n x", b"number 12, line 3"), (b"[JUNCTIONS]\na 1 2 p", b"number 11, line 2"),
                           (b"a", b"number 10, line 1")):
            self.assertEqual(self.said_of(text), [b"refused: " + told])

    def test_the_page_shows_it(self):
        with open(os.path.join(SOURCES, "README.md"), "rb") as file:
            self.assertIn(b"```\n%s\n```" % b"\n".join(self.said_of(TERRACES)), file.read())


if __name__ == "__main__":
    unittest.main()
