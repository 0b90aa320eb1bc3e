"""EPANET texts through `./desk` and the proved programs: examples/terraces.inp answered as the sheet that
tools/inp_reader.py makes of it, its names in all that is said, refusals at their lines, and sections left out."""
import json
import os
import subprocess
import sys
import tempfile
import unittest

TOP = os.path.dirname(os.path.dirname(os.path.dirname(os.path.abspath(__file__))))
sys.path[:0] = [TOP, os.path.join(TOP, "tools")]

import inp_files  # noqa: E402
import inp_reader  # noqa: E402
from coordinator import epanet  # noqa: E402
from stored import read  # noqa: E402

INP = "examples/terraces.inp"
TERRACES = read(INP)
FIRST = "solved in 6 trials; these pressures may be sold"
# with what EPANET's own editor writes behind it
LONGER = TERRACES + b"\n[TIMES]\n Duration 24:00\n Hydraulic Timestep 1:00\n\n[REPORT]\n Status No\n"


def desk(*args, stdin=b""):
    done = subprocess.run(["./desk", *args], cwd=TOP, input=stdin, stdout=subprocess.PIPE, stderr=subprocess.PIPE, check=False)
    return done.returncode, done.stdout.decode(), done.stderr.decode()


def entries(*args, stdin=b""):
    return json.loads(desk("--json", *args, stdin=stdin)[1])


def of_all(found, kind, key):
    """One key of every node or link of an answer."""
    return [one[key] for one in found[kind]]


class Terraces(unittest.TestCase):
    def test_it_is_answered_as_its_sheet_is(self):
        made = inp_reader.read(TERRACES)
        (inp,), (sheet,) = entries(INP), entries("-", stdin=made.sheet)
        for kind, key, names in (("nodes", "head_ft_bits", made.nodes), ("links", "flow_cfs_bits", made.links)):
            self.assertEqual(of_all(inp, kind, key), of_all(sheet, kind, key))
            self.assertEqual(of_all(inp, kind, "name"), [name.decode() for name in names])
            self.assertEqual(set(of_all(sheet, kind, "name")), {None})
        self.assertEqual((inp["first_line"], inp["exit_status"], inp["verdict"]), (FIRST, 0, sheet["verdict"]))

    def test_its_sheet(self):
        with tempfile.NamedTemporaryFile(suffix=".sheet") as file:
            self.assertEqual(desk("--sheet", INP, "-o", file.name)[0], 0)
            with open(file.name, "rb") as written:
                self.assertEqual(written.read(), inp_reader.read(TERRACES).sheet)

    def test_the_page_and_what_touches_a_node(self):
        status, page, err = desk(INP)
        self.assertEqual((status, err, page.splitlines()[0]), (0, "", FIRST))
        self.assertIn("\n     2  mill     junction   116.00       42.00        4.00\n", page)
        self.assertIn("\n    11  keeper   PSV   mill     knoll       12.41  Active\n", page)
        self.assertEqual(desk("-", stdin=TERRACES), (0, page, ""))
        self.assertIn("\n    11  keeper  PSV   starts  node 4 (knoll) ", desk("--at", "mill", INP)[1])

    def test_a_picture(self):
        with tempfile.NamedTemporaryFile("r", suffix=".svg", encoding="utf-8") as file:
            self.assertEqual(desk("--plot", file.name, INP)[0], 0)
            with open(file.name, encoding="utf-8") as written:
                self.assertIn(">orchard<", written.read())

    def test_bookings_by_name(self):
        table = b"18:00,vines,6 L/s\n18:00,olives,7 L/s,30 m\n19:00,bottom,6 L/s,60 m\n"
        status, out, err = desk("--bookings", "-", INP, stdin=table)
        self.assertEqual((status, err), (3, ""))
        early, late = out.splitlines()
        self.assertTrue(early.startswith("18:00  yes  2 hydrants with 13.00 LPS; lowest pressure "), early)
        self.assertTrue(late.startswith("19:00  no   hydrant 8 (bottom) has "), late)

    def test_a_lowest_pressure(self):
        status, out, _ = desk("--least", "36m", INP)
        self.assertEqual(status, 3)
        self.assertIn("but hydrant 3 (orchard) has 35.91 m, the lowest allowed is 36.00 m", out)


class LeftOut(unittest.TestCase):
    def test_sections_in_the_way(self):
        status, out, _ = desk("-", stdin=LONGER)
        self.assertEqual((status, out.splitlines()[0]), (1, "refused, number 12 at line 71: section [TIMES] is not carried"))
        self.assertIn("\n  [REPORT]    75      1  ", out)

    def test_going_on_without_them(self):
        status, out, _ = desk("--leave-out", "TIMES,REPORT", "-", stdin=LONGER)
        self.assertEqual((status, out.splitlines()[:2]), (0, [
            FIRST, "  without [TIMES] (2 lines) and [REPORT] (1 line), left out as asked"]))
        left, whole = entries("--leave-out", "TIMES,REPORT", "-", INP, stdin=LONGER)
        self.assertEqual((of_all(left, "left_out", "section"), whole["left_out"]), (["TIMES", "REPORT"], []))
        self.assertEqual(of_all(left, "nodes", "head_ft_bits"), of_all(whole, "nodes", "head_ft_bits"))
        self.assertEqual(desk("--leave-out", "PUMPS", "-", stdin=LONGER)[:2], (2, ""))

    def test_lines_keep_their_numbers(self):
        status, out, _ = desk("--leave-out", "TIMES,REPORT", "-", stdin=LONGER + b"[STATUS]\nkeper CLOSED\n")
        self.assertEqual((status, out.splitlines()[0]), (1, "refused, number 11 at line 77: link keper is not defined"))


class Refused(unittest.TestCase):
    def test_lines(self):
        for old, new, first in (
                (b"310     200 ", b"3,10    200 ", "number 10 at line 29: `3,10` is no number, and the length is expected"),
                (b"gate     vines", b"gate     wines", "number 11 at line 29: node wines is not defined"),
                (b"[COORDINATES]", b"[PUMPS]", "number 12 at line 46: section [PUMPS] is not carried")):
            self.assertEqual(TERRACES.count(old), 1)
            status, out, err = desk("-", stdin=TERRACES.replace(old, new))
            self.assertEqual((status, out.splitlines()[0], err), (1, "refused, " + first, ""))

    def test_a_text_of_the_greatest_length_and_a_longer_one(self):
        whole = TERRACES + b";" * (1048576 - len(TERRACES))
        self.assertEqual(desk("-", stdin=whole)[0], 0)
        status, out, err = desk("-", stdin=whole + b"\n")
        self.assertEqual((status, out), (2, ""))
        self.assertIn("goes on after 1048576 bytes: no text may be longer", err)

    def test_the_desk_takes_what_the_program_prints(self):
        """Texts by seed, good and damaged: what the second reader prints is taken for the same."""
        for number in range(200):
            text = inp_files.case(8, number).text
            self.assertEqual(epanet.ask(text), epanet.reply(inp_reader.printed(text)), number)

    def test_it_ends_well_for_any_bytes(self):
        for data in (b"[", b"[\0]\n\xff", b"[PIPES]\n" + b"\xff " * 1000, b"[" + bytes(range(256)) * 8,
                     b"\n" * 100000 + b"[x]\nx"):
            status, _, err = desk("-", stdin=data)
            self.assertEqual((status, err), (1, ""))


if __name__ == "__main__":
    unittest.main()
