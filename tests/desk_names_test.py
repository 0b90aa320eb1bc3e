"""The text form solved as it is, its names in all that the desk says, and the way back from a sheet to the text form."""
import contextlib
import io
import json
import os
import struct
import sys
import tempfile
import unittest
import xml.etree.ElementTree as ElementTree
from unittest import mock

TOP = os.path.dirname(os.path.dirname(os.path.abspath(__file__)))
sys.path[:0] = [TOP, os.path.join(TOP, "tools")]

import sheets
from coordinator import as_json, pages, pictures, refusals, schemes, sheet_bounds, sheet_text, text_of_sheet, words
from coordinator.answer import Answer
from coordinator.sheet_format import Sheet, next_up, of_bits
from desk_test import BY_NAME, block_after, desk, example, reply
from stored import read

JUNE = block_after("docs/SHEETS.md", "## One complete example").encode()
NAMES = ["top", "upper", "lower", "field", "hill", "pond"]


def named(case, names):
    """The answer to a stored case whose nodes have names."""
    data, text = BY_NAME[case]
    return Answer("made.txt", data, reply(data, text), names=names)


def picture_words(found):
    return " ".join(ElementTree.fromstring(pictures.picture(found)).itertext())


class Folder(unittest.TestCase):
    def setUp(self):
        folder = tempfile.TemporaryDirectory()
        self.addCleanup(folder.cleanup)
        self.folder = folder.name

    def path(self, name, data=None):
        path = os.path.join(self.folder, name)
        if data is not None:
            with open(path, "wb") as file:
                file.write(data)
        return path


class Direct(Folder):
    FIRST = "solved in 13 trials, but with a repair: the PRV at link 2 (lower -> field) was freed"

    def test_a_text_is_solved_as_it_is(self):
        for name in ("june.txt", "june", "june.scheme"):
            status, out, err = desk(self.path(name, JUNE))
            self.assertEqual((status, err), (3, ""))
            self.assertTrue(out.startswith(self.FIRST), out)

    def test_standard_input(self):
        for data, first in ((JUNE, self.FIRST), (read("examples/june.sheet"), "solved in 13 trials, but with a repair: the PRV "
                                                 "at link 2 (2 -> 3) was freed")):
            with mock.patch("sys.stdin", io.TextIOWrapper(io.BytesIO(data))):
                status, out, _ = desk("-")
            self.assertEqual(status, 3)
            self.assertTrue(out.startswith(first), out)
        for data, words_told in ((b"", "standard input is empty"), (bytes(2 ** 20 + 1), "standard input goes on after")):
            with mock.patch("sys.stdin", io.TextIOWrapper(io.BytesIO(data))):
                self.assertIn(words_told, desk("-")[2])
        with mock.patch("sys.stdin", None):
            self.assertIn("standard input is closed", desk("-")[2])

    def test_the_ending_decides_and_else_what_stands_in_it(self):
        self.assertEqual(schemes.form("a.txt", b"\0\0"), schemes.TEXT)
        self.assertEqual(schemes.form("a.sheet", b"junction"), schemes.SHEET)
        self.assertEqual(schemes.form("-", "OPTIONS # bæck".encode()), schemes.TEXT)
        for case in sheets.stored():
            if sheet_bounds.reading(case.data)[0] == "G":
                self.assertEqual(schemes.form("a", case.data), schemes.SHEET, case.name)
        self.assertIn("another ending than .sheet", refusals.explain(JUNE, 1, 0).mend)

    def test_mistakes_are_told_and_the_others_answered(self):
        bad = self.path("bad.txt", b"pipe a -> b resistance 1\npump\n")
        status, out, err = desk(bad, example("june"))
        self.assertEqual((status, err), (2, "%s:1: no node is called a\n%s:2: pump is no kind of record; there are options, "
                                         "pressures, junction, reservoir, tank, pipe, PRV, PSV, PBV, FCV, TCV, PCV\n" % (bad, bad)))
        self.assertIn("june.sheet: solved in 13 trials", out)
        (found, _) = json.loads(desk("--json", bad, example("june"))[1])
        self.assertEqual(found["error"], err.strip())

    def test_the_records_of_a_text(self):
        self.assertEqual(desk("--explain", self.path("june.txt", JUNE))[1], desk("--explain", example("june"))[1])


class Names(unittest.TestCase):
    def test_tables(self):
        page = pages.page(named("june-both-repaired", NAMES), False)
        self.assertIn("\n  node  name   kind ", page)
        self.assertIn("\n     3  field  junction ", page)
        self.assertIn("\n     2  PRV   lower  field ", page)
        self.assertIn("link 2 (PRV lower -> field) was freed (XPressure)", page)

    def test_first_lines(self):
        line = named("june-both-not-repaired", NAMES).first_line()
        self.assertNotIn(" node 3 ", line)
        undetermined = Answer("x", *self.undetermined(), names=NAMES).first_line()
        self.assertIn("nothing determines the heads of nodes 1 (upper) and 2 (lower)", undetermined)
        self.assertEqual(words.a_node(4, {"name": "ridge"}, "hydrant"), "hydrant 4 (ridge)")
        self.assertEqual(words.node_words(4, {"kind": 0, "name": "ridge"}), "node 4 (junction ridge)")

    def undetermined(self):
        data = read("examples/june-undetermined.sheet")
        found = sheets.stored()
        text = next(BY_NAME[case.name][1] for case in found if case.data == data)
        return data, reply(data, text)

    def test_refusals_that_name_a_node_or_a_link(self):
        s = Sheet()
        s.reservoir(head=9.0)
        s.junction()
        s.pipe(0, 1)
        for number, place, told in ((6, 1, "at node 1 (junction field) the matrix"), (7, 64, "link 0 (pipe pond -> field)")):
            self.assertIn(told, refusals.explain(s.encode(), number, place, names=["pond", "field"]).why)

    def test_json(self):
        (found,) = json.loads(as_json.document([named("june-both-repaired", NAMES)]))
        self.assertEqual([node["name"] for node in found["nodes"]], NAMES)
        self.assertEqual([(link["start_name"], link["end_name"]) for link in found["links"]][2], ("lower", "field"))
        (found,) = json.loads(as_json.document([named("june-both-repaired", None)]))
        self.assertEqual((found["nodes"][0]["name"], found["links"][0]["start_name"]), (None, None))

    def test_the_picture(self):
        shown = picture_words(named("june-both-repaired", NAMES))
        for name in NAMES:
            self.assertIn(name, shown)
        self.assertIn("PRV lower -> field freed", shown)
        longer = [name + "-of-the-northern-scheme" for name in NAMES]
        self.assertIn("top-of-the-northe...", picture_words(named("june-both-repaired", longer)))

    def test_names_of_any_signs(self):
        odd = ["\x1b[2J", "a" * 500, "<&>\"'", "\u202eb", "\x7f", "n\u0301"]
        found = named("june-both-repaired", odd)
        page = pages.page(found, True)
        self.assertTrue(page.replace("\n", "").isprintable())
        self.assertLess(max(map(len, page.splitlines())), 200)
        picture_words(found)
        self.assertEqual(json.loads(as_json.document([found]))[0]["nodes"][0]["name"], odd[0])


class WayBack(Folder):
    def same(self, data):
        again, _ = sheet_text.read_scheme(text_of_sheet.text_of(data).encode())
        self.assertEqual(again, data)

    def test_every_good_sheet_of_the_list_comes_back_byte_for_byte(self):
        good = [case.data for case in sheets.stored() if sheet_bounds.reading(case.data)[0] == "G"]
        self.assertGreater(len(good), 900)
        for data in good:
            self.same(data)

    def test_numbers_that_are_hard_to_write(self):
        hard = [-0.0, of_bits(1), -of_bits(2 ** 52), next_up(1.0), 0.1 + 0.2, 2.0 ** 40, next_up(100.0) / 0.3048, 1 / 3]
        for unit in ("CFS", "LPS", "GPM"):
            for k, x in enumerate(hard):
                s = Sheet(unit=unit, max_flow_change=abs(x), accuracy=abs(x) or 1.0, pressures=(-abs(x), abs(x)))
                s.reservoir(head=x, elevation=hard[k - 1], demand=x, max_level=x, overflow=1)
                s.junction(elevation=x, head=x, min_level=x, overflow=1)
                s.tank(demand=x)
                s.pipe(0, 1, setting=x, flow=x, check_valve=1, status="FixedClosed")
                s.valve("TCV", 0, 1, setting=x, resistance=abs(x), check_valve=1, flow=x)
                self.same(s.encode())

    def test_figures_are_in_the_sheets_own_units_where_they_can_be(self):
        text = text_of_sheet.text_of(sheet_text.read_scheme(
            b"options flow-unit m3/h\nreservoir a head 120.5 m\njunction b elevation 12 m demand 36 m3/h\n"
            b"pipe a -> b length 100 m diameter 150 mm roughness 130 flow 36 CMH\n")[0])
        for told in ("flow-unit CMH", "head 120.5 m", "elevation 12 m", "demand 36 CMH", "diameter 150 mm"):
            self.assertIn(told, text)

    def test_the_command(self):
        status, out, _ = desk("--text", example("june"))
        self.assertEqual(status, 0)
        text, sheet = self.path("june.txt"), self.path("june.sheet")
        self.assertEqual(desk("--text", example("june"), "-o", text)[0], 0)
        with open(text, encoding="ascii") as file:
            self.assertEqual(file.read(), out)
        self.assertEqual(desk("--sheet", text, "-o", sheet)[0], 0)
        with open(sheet, "rb") as file:
            self.assertEqual(file.read(), read("examples/june.sheet"))

    def test_a_sheet_that_would_be_refused_has_none(self):
        status, out, err = desk("--text", example("refused"))
        self.assertEqual((status, out), (2, ""))
        self.assertIn("refused.sheet: the sheet would be refused: number 3 at place 168", err)
        self.assertEqual(desk("--text", self.path("zero", bytes(100)))[0], 2)
        self.assertEqual(desk("--text", example("june"), "--sheet", example("june"), "-o", self.path("x"))[0], 2)


class Units(unittest.TestCase):
    def field(self, line, mark, name):
        data, _ = sheet_text.read_scheme(("reservoir a head 9 ft\njunction b elevation 0 ft\n" + line).encode())
        return next(fields[name] for _, found, fields in sheets.decode(data) if found == mark)

    def test_pressures_in_bar_and_kilopascal(self):
        for setting in ("3 bar", "300 kPa", "300kpa", "3BAR"):
            feet = self.field("PRV a -> b setting %s diameter 1 ft" % setting, b"LK", "setting")
            self.assertAlmostEqual(feet, 3.0 / 0.0980665 / 0.3048, places=9)

    def test_flows_by_other_names(self):
        for flow, cfs in (("36 m3/h", 36 / 101.94), ("36m\u00b3/h", 36 / 101.94), ("10 L/s", 10 / 28.317), ("10l/s", 10 / 28.317),
                          ("600 L/min", 600 / 1699.0), ("24 m3/d", 24 / 2446.6)):
            self.assertEqual(self.field("pipe a -> b resistance 1 flow %s" % flow, b"LK", "flow"), cfs, flow)
        self.assertEqual(self.field("options flow-unit L/s", b"OP", "unit"), 5)

    def test_a_unit_straight_behind_its_figure(self):
        self.assertEqual(self.field("pressures minimum 10m required 1e2ft", b"PD", "minimum"), 10 / 0.3048)
        self.assertEqual(self.field("pressures minimum 10m required 1e2ft", b"PD", "required"), 100.0)
        with contextlib.redirect_stderr(io.StringIO()):
            self.assertEqual(desk("--least", "1bar", "--within", "1kPa,1L/s", example("june"))[0], 3)


if __name__ == "__main__":
    unittest.main()
