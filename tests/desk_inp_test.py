"""EPANET texts at the desk: which file is one, names in all that is said, refusals in words, sections left out, lengths, and
any bytes. tools/inp_reader.py stands in for the proved program `epanet`, and answers are made up."""
import contextlib
import io
import json
import os
import re
import sys
import tracemalloc
import unittest
from unittest import mock

TOP = os.path.dirname(os.path.dirname(os.path.abspath(__file__)))
sys.path[:0] = [TOP, os.path.join(TOP, "tools")]

import inp_files
import inp_reader
import sheets
from coordinator import asking, epanet, evening, files, inp_lines, inp_refusals, inp_sections, main, schemes, sheet_bounds
from coordinator.asking import NotToBeHad, Reply
from coordinator.sheet_format import Dice, bits
from desk_json_test import SCHEMA
from desk_names_test import Folder, picture_words
from inp_test import GOOD, text_of, with_line
from json_schema import Checker
from stored import read

TERRACES = read("examples/terraces.inp")
NODES = ["gate", "vines", "mill", "orchard", "knoll", "steps", "olives", "garden", "bottom", "pond", "tank"]
LINKS = ["main", "north", "east", "west", "south", "rising", "upper", "right", "left", "lower", "reducer", "keeper"]
# what EPANET's editor puts there
TIMES, REPORT = b"\n[TIMES]\n Duration 24:00\n Hydraulic Timestep 1:00\n", b"\n[REPORT]\n Status No\n"
LONGER = TERRACES + TIMES + REPORT


def records(data, mark):
    return [fields for _, found, fields in sheet_bounds.records(data)[0] if found == mark]


def solved(data, entries=("OK 0",), verdict=(0, 0)):
    """An answer that is made up: a head of 400 ft at every node, no flow anywhere, the sheet's own statuses."""
    marks = [entry.split()[0] for entry in entries]
    lines = ["A 0 0 %d %d %d" % (len(entries), marks.count("VF"), marks.count("GN"))] + ["T " + entry for entry in entries]
    lines += ["N %d %016x %016x" % (i, bits(400.0), bits(node["demand"])) for i, node in enumerate(records(data, b"ND"))]
    lines += ["L %d %016x %d" % (i, bits(0.0), link["status"]) for i, link in enumerate(records(data, b"LK"))]
    return Reply(*verdict, "\n".join(lines + ["B" + 3 * " %016x" % ((bits(0.0),) * 3)]) + "\n")


def ask(asked, limits):
    """Stands in for `verdict`: a good sheet is solved, any other refused."""
    said = [sheet_bounds.reading(data) for data in asked]
    return [solved(data) if found[0] == "G" else Reply(1, found[1], "A %d %d 0 0 0\n" % found[1:])
            for data, found in zip(asked, said)]


def by_rows(answer):
    """The same for the rows of evenings."""
    return lambda asked: [answer([evening.with_row(one.sheet, row) for row in one.rows], one.limits) for one in asked]


class Texts(Folder):
    def setUp(self):
        super().setUp()
        # those that the program was given
        self.given = []
        self.program = mock.patch("coordinator.asking.printed", self.printed)
        self.program.start()
        self.addCleanup(self.program.stop)

    def printed(self, name, text):
        self.assertEqual(name, "epanet")
        self.given.append(text)
        return inp_reader.printed(text)

    def desk(self, *args, answer=ask, stdin=None):
        """What main gives and prints; the folder's own name is taken out."""
        out, err = io.StringIO(), io.StringIO()
        with contextlib.redirect_stdout(out), contextlib.redirect_stderr(err), \
                mock.patch("sys.stdin", stdin and io.TextIOWrapper(io.BytesIO(stdin))):
            try:
                status = main.main(list(args), answer, by_rows(answer))
            except SystemExit as end:
                status = end.code
        return status, *(stream.getvalue().replace(self.folder + os.sep, "") for stream in (out, err))

    def entry(self, *args, **more):
        """The one entry in JSON, held to the schema."""
        found = json.loads(self.desk("--json", *args, **more)[1])
        self.assertEqual(Checker(SCHEMA).faults(found), [])
        (one,) = found
        return one


class WhatAFileIs(Texts):
    def test_by_its_ending(self):
        for name, found in (("a.inp", schemes.INP), ("A.INP", schemes.INP), ("a.txt", schemes.TEXT), ("a.TXT", schemes.TEXT),
                            ("a.sheet", schemes.SHEET), ("a.inp.sheet", schemes.SHEET)):
            for data in (b"[TITLE]\n", b"junction a", b"\0"):
                self.assertEqual(schemes.form(name, data), found, (name, data))

    def test_by_what_stands_in_it(self):
        for data in (b"[TITLE]", b"[", b"\n\r\n ; x\n\t [pipes] ; y\n", b";#\n[JUNCTIONS]\nA 1\n", b"\xef\xbb\xbf[TITLE]\n",
                     TERRACES):
            for name in ("-", "a", "a.inp.bak"):
                self.assertEqual(schemes.form(name, data), schemes.INP, data)
        for data in (b"# [TITLE]\n[TITLE]\n", b"options\n[TITLE]\n", b"; x\njunction a\n", b"x[\n", b"\n", b";"):
            self.assertEqual(schemes.form("-", data), schemes.TEXT, data)
        self.assertEqual(schemes.form("-", b"\xff\xfe[\0"), schemes.SHEET)

    def test_no_good_sheet_is_one(self):
        for case in sheets.stored():
            if sheet_bounds.reading(case.data)[0] == "G":
                self.assertEqual(schemes.form("-", case.data), schemes.SHEET, case.name)

    def test_it_is_solved_under_any_name(self):
        for name in ("a.inp", "A.INP", "a", "a.net"):
            status, out, err = self.desk(self.path(name, TERRACES))
            self.assertEqual((status, err), (0, ""))
            self.assertTrue(out.startswith("solved in 1 trial; these pressures may be sold\n"), out)
        self.assertEqual(self.desk("-", stdin=TERRACES), (status, out, ""))
        self.assertEqual(self.given, [TERRACES] * 5)

    def test_under_a_sheets_name_it_is_refused_as_a_sheet(self):
        status, out, _ = self.desk(self.path("a.sheet", TERRACES))
        self.assertEqual((status, self.given), (1, []))
        self.assertIn("the file is text and not a sheet", out)
        self.assertIn("or an EPANET text, is solved as it is", out)

    def test_the_sheet_is_the_one_that_the_program_made(self):
        asked = []
        self.desk(self.path("a.inp", TERRACES), answer=lambda sheets, limits: asked.extend(sheets) or ask(sheets, limits))
        self.assertEqual(asked, [inp_reader.read(TERRACES).sheet])


class Names(Texts):
    FREED = ("VF 10", "ST %d" % (2 * 256 + 12), "OK 0")

    def setUp(self):
        super().setUp()
        self.inp = self.path("a.inp", TERRACES)

    def freed(self, asked, limits):
        return [solved(data, self.FREED, (2, 0)) for data in asked]

    def test_in_tables(self):
        _, out, _ = self.desk(self.inp)
        for words in ("\n  node  name     kind ", "\n     1  vines    junction ", "\n    10  tank     tank ",
                      "\n  link  name     kind  start    end ", "\n    10  reducer  PRV   vines    steps "):
            self.assertIn(words, out)

    def test_in_first_lines_and_trials(self):
        _, out, _ = self.desk(self.inp, answer=self.freed)
        self.assertIn("but with a repair: the PRV at link 10 (reducer, vines -> steps) was freed;", out.splitlines()[0])
        self.assertIn("\n  trial 1: the matrix could not be factorised: link 10 (PRV reducer, vines -> steps) was freed", out)
        self.assertIn("; the PSV at link 11 (keeper) began to regulate: its inlet fell below its setting\n", out)

    def test_in_json(self):
        found = self.entry(self.inp, answer=self.freed)
        self.assertEqual([node["name"] for node in found["nodes"]], NODES)
        self.assertEqual([link["name"] for link in found["links"]], LINKS)
        self.assertEqual((found["links"][10]["start_name"], found["links"][10]["end_name"]), ("vines", "steps"))
        self.assertEqual((found["left_out"], found["refusal"]), ([], None))

    def test_in_the_picture(self):
        self.assertEqual(self.desk("--plot", self.path("a.svg"), self.inp, answer=self.freed)[0], 3)
        given = schemes.read(self.inp)
        shown = picture_words(main.answering.Answer("a.inp", given.data, solved(given.data, self.FREED, (2, 0)),
                                                    names=given.names, link_names=given.link_names))
        for words in NODES + ["PRV reducer, vines -> steps freed"]:
            self.assertIn(words, shown)
        with open(self.path("a.svg"), encoding="utf-8") as file:
            self.assertIn("reducer, vines -&gt; steps freed", file.read())

    def test_what_touches_a_node(self):
        _, out, _ = self.desk("--at", "mill", self.inp)
        self.assertIn("\nAt node 2 (junction mill)\n", out)
        self.assertIn("\n    11  keeper  PSV   starts  node 4 (knoll) ", out)
        status, _, err = self.desk("--at", "keeper", self.inp)
        self.assertEqual(status, 2)
        self.assertIn("no node is called keeper; there are gate, vines, ", err)

    def test_in_refusals_of_the_sheet(self):
        for line, words in (("P3 B B 300 8 110", "number 4 at place 307: link 2 (pipe P3, B -> B): end is 1 but must be"),
                            ("P3 B T 300 8 110 -1", "number 3 at place 307: link 2 (pipe P3, B -> T): minor loss is -1.0")):
            status, out, _ = self.desk(self.path("b.inp", with_line(11, line)))
            self.assertEqual(status, 1)
            self.assertTrue(out.startswith("refused, " + words), out)
        many = text_of(["[JUNCTIONS]"] + ["J%d 0" % k for k in range(65)])
        self.assertIn("number 2 at place 0: the sheet has 65 nodes", self.desk(self.path("b.inp", many))[1])
        for reply, words in (("A 6 1 0 0 0\n", "at node 1 (junction vines) the matrix failed"),
                             ("A 7 74 0 0 0\n", "the flow of link 10 (PRV reducer, vines -> steps) became")):
            _, out, _ = self.desk(self.inp, answer=lambda asked, limits, reply=reply: [asking.of_listing(reply) for _ in asked])
            self.assertIn(words, out)

    def test_when_the_trials_are_used_up(self):
        _, out, _ = self.desk(self.inp, answer=lambda asked, limits: [Reply(1, 8, "A 8 40 0 0 0\n") for _ in asked])
        self.assertIn("look at link 10 (PRV reducer, vines -> steps) and link 11 (PSV keeper, mill -> knoll)", out)

    def test_and_what_moved_then(self):
        def stopped(trials, flow):
            links = ["L %d %016x 1" % (i, bits(flow if i < 2 else 0.0)) for i in range(len(LINKS))]
            return Reply(0, 0, "\n".join(["A 0 0 %d 0 0" % trials] + links) + "\n")

        _, out, _ = self.desk(self.inp, answer=lambda asked, limits: [stopped(30, 1.0), stopped(9, 2.0)] if asked[1:] else
                              [Reply(1, 8, "A 8 40 0 0 0\n")])
        self.assertIn("; between trial 9 and trial 30 the flow of links 0 (main) and 1 (north) moved, most that of "
                      "link 0 (pipe main, pond -> gate), by ", out)

    def test_of_any_bytes(self):
        """In UTF-8, or else a letter a byte, so that no two become one."""
        for raw, told in (("D\xfcse".encode("latin-1"), "D\xfcse"), ("D\xfcse\u2192".encode(), "D\xfcse\u2192"),
                          (b"\x1b[2J", "\\x1b[2J"), (b"\xff\x00\x80", "\xff\\x00\\x80"), (b"<&>\"'", "<&>\"'")):
            data = TERRACES.replace(b"vines", raw)
            inp = self.path("a.inp", data)
            status, out, _ = self.desk(inp, "--plot", self.path("a.svg"))
            self.assertEqual(status, 0)
            self.assertIn("  %s " % told, out)
            self.assertTrue(out.replace("\n", "").isprintable())
            self.assertEqual(self.entry(inp)["nodes"][1]["name"], inp_lines.decoded(raw))
            self.assertEqual(self.desk("--at", inp_lines.decoded(raw), inp)[0], 0)
        two = with_line(2, "\xc3\xbc 1").replace(b"B 20", b"\xfc 20").replace(b" A ", b" \xc3\xbc ").replace(b" B ", b" \xfc ")
        two = two.replace(b" A 1000", b" \xfc 1000")
        self.assertEqual([node["name"] for node in self.entry(self.path("a.inp", two))["nodes"]][:2], ["\xc3\xbc", "\xfc"])

    def test_bookings(self):
        table = self.path("b.csv", b"18:00,vines,6 L/s\n18:00,olives,7 L/s,30 m\n19:00,reducer,1 L/s\n")
        status, out, err = self.desk("--bookings", table, self.inp)
        self.assertEqual((status, err), (2, "b.csv:3: no node is called reducer\n"))
        self.assertIn("18:00  yes  2 hydrants with 13.00 LPS; lowest pressure 43.42 m at node 1 (vines)\n", out)
        (hour, _) = json.loads(self.desk("--json", "--bookings", table, self.inp)[1])
        self.assertEqual([booking["name"] for booking in hour["bookings"]], ["vines", "olives"])


class OtherForms(Texts):
    """--explain, --sheet and --text."""

    def test_a_sheet(self):
        status, out, _ = self.desk("--sheet", self.path("a.inp", TERRACES), "-o", self.path("a.sheet"))
        self.assertEqual(status, 0)
        self.assertIn("  node 10  tank tank\n  link 0  pipe main, pond -> gate\n", out)
        with open(self.path("a.sheet"), "rb") as file:
            self.assertEqual(file.read(), inp_reader.read(TERRACES).sheet)
        self.assertEqual(self.desk("--explain", self.path("a.inp"))[1], self.desk("--explain", self.path("a.sheet"))[1])

    def test_the_text_form(self):
        inp, text, sheet = self.path("a.inp", TERRACES), self.path("a.txt"), self.path("a.sheet")
        self.assertEqual(self.desk("--text", inp, "-o", text)[0], 0)
        self.assertIn("\njunction  vines  elevation 78.5 m  demand 6.5 LPS\n", self.desk("--text", inp)[1])
        self.assertEqual(self.desk("--sheet", text, "-o", sheet)[0], 0)
        with open(sheet, "rb") as file:
            self.assertEqual(file.read(), inp_reader.read(TERRACES).sheet)

    def test_names_that_the_text_form_cannot_hold(self):
        for name in (b"vi#es", b"vi\x0bes", b"\x1b", "vi\u00a0es".encode(), "vi\u2028es".encode()):
            inp = self.path("a.inp", TERRACES.replace(b"vines", name))
            self.assertIn("\njunction  n1  elevation 78.5 m", self.desk("--text", inp)[1], name)
        inp = self.path("a.inp", TERRACES.replace(b"vines", "J\xe4n".encode("latin-1")))
        self.assertEqual(self.desk("--text", inp, "-o", self.path("a.txt"))[0], 0)
        self.assertIn("junction  J\xe4n  elevation", self.desk("--text", self.path("a.txt"))[1])

    def test_a_refused_text_is_a_mistake_there(self):
        inp, bookings = self.path("a.inp", with_line(11, "P3 B H7 300 8 110")), self.path("b.csv", b"1,A,1 L/s\n")
        for args in (("--explain", inp), ("--sheet", inp, "-o", self.path("a.sheet")), ("--text", inp),
                     ("--bookings", bookings, inp)):
            self.assertEqual(self.desk(*args), (2, "", "a.inp:11: node H7 is not defined\n"), args)
        self.assertFalse(os.path.exists(self.path("a.sheet")))

    def test_sections_in_the_way_are_told_there_too(self):
        _, _, err = self.desk("--explain", self.path("a.inp", LONGER + b"[PUMPS]\nx\n"))
        self.assertEqual(err.splitlines(), [
            "a.inp:71: section [TIMES] is not carried; with --leave-out TIMES the answer is for one hour, with the demands and "
            "levels that stand in the text",
            "a.inp:75: section [REPORT] is not carried; with --leave-out REPORT no figure changes: it says what EPANET prints",
            "a.inp:77: section [PUMPS] is not carried and cannot be left out: pumps lift heads, and this solver has none"])
        inp, sheet = self.path("a.inp", LONGER), self.path("a.sheet")
        self.assertEqual(self.desk("--leave-out", "TIMES,REPORT", "--sheet", inp, "-o", sheet)[0], 0)


# another line in the place of one of inp_test.GOOD, and what is said of it
SAID = """
2   A                            10  a line of [JUNCTIONS] has 2 to 4 words, and this one has 1
3   B 20 1 P x                   10  a line of [JUNCTIONS] has 2 to 4 words, and this one has 5
3   B 1,5                        10  `1,5` is no number, and the elevation is expected
3   B 1 1_0                      10  `1_0` is no number, and the demand is expected
3   B 1e                         10  `1e` is no number, and the elevation is expected
3   B 123456789012345678         10  `123456789012345678` has more than 17 digits
3   B 1e0021                     10  `1e0021` has a power of ten beyond 20
3   A 20                         10  a node is called A already, in line 2
3   B 20 1 P                     11  pattern P is not defined: patterns are not carried
5   A 1                          10  a node is called A already, in line 2
5   R 1 *                        11  pattern * is not defined: patterns are not carried
7   T 1 2 3 4 5 6 C              11  curve C is not defined: curves are not carried
7   T 1 2 3 4 5 6 * Y            10  `Y` is no word for a tank's overflow that is carried; there are YES and NO
7   T 1 2 3 4 5                  10  a line of [TANKS] has 7 to 9 words, and this one has 6
9   P1 A R 1 1                   10  a line of [PIPES] has 6 to 8 words, and this one has 5
11  P3 B H7 300 8 110            11  node H7 is not defined
11  P3 B T 300 8 110 SHUT        10  `SHUT` is no number, and OPEN, CLOSED, CV or a number is expected
11  P3 B T 300 8 110 0 SHUT      10  `SHUT` is no status of a pipe that is carried; there are OPEN, CLOSED and CV
11  P3 B T 300 8 110 OPEN 0      10  `OPEN` is no number, and the minor loss is expected
11  P1 B T 300 8 110             10  a link is called P1 already, in line 9
13  P1 A B 6 PRV 30 0            10  a link is called P1 already, in line 9
13  V1 A B 6 PCV 30 0            10  `PCV` is no kind of valve that is carried; there are PRV, PSV, PBV, FCV and TCV
13  V1 A B 6 gpv 30 0            11  curve 30 is not defined: curves are not carried
13  V1 A B 6 GPV 30 x            10  `x` is no number, and the minor loss is expected
13  V1 A B 6 PRV 30              10  a line of [VALVES] has 7 words, and this one has 6
16  V9 OPEN                      11  link V9 is not defined
16  V2 ACTIVE                    10  `ACTIVE` is no number, and OPEN, CLOSED or a number is expected
16  P2 OPEN                      10  pipe P2 has a check valve, and no status goes with that
16  P1 12                        10  P1 is a pipe, which may be OPEN or CLOSED and has no setting
18  [OPTIONS] x                  10  words stand behind the header [OPTIONS]
18  [OPTION] ]                   10  words stand behind the header [OPTION]
19  UNIT GPM                     10  `UNIT` is no option that is read
19  UNITS SI                     10  `SI` is no flow unit that is carried; there are CFS, GPM, MGD, IMGD, AFD, LPS, LPM, MLD, CMS, CMH and CMD
19  UNITS                        10  UNITS is followed by one word, and here by 0
19  HEADLOSS D-W                 10  `D-W` is no head loss formula that is carried; there is H-W
19  demand 2                     10  DEMAND is followed by MULTIPLIER or MODEL
19  DEMAND MODEL PDD             10  `PDD` is no demand model that is carried; there are DDA and PDA
19  Specific Gravity 0.98        10  SPECIFIC GRAVITY must be 1: no other is carried
19  PRESSURE EXPONENT .6         10  PRESSURE EXPONENT must be 0.5: no other is carried
19  VISCOSITY x                  10  `x` is no number, and the figure of VISCOSITY is expected
20  TRIALS 40.0                  10  `40.0` is no number of trials: digits alone, at most 65535
20  TRIALS 65536                 10  `65536` is no number of trials: digits alone, at most 65535
1   A 1                          10  this stands before any section
"""


class Words(Texts):
    def first(self, data):
        status, out, err = self.desk(self.path("a.inp", data))
        self.assertEqual((status, err), (1, ""))
        return out.splitlines()[0]

    def test_of_each_kind_of_line(self):
        for row in SAID.strip().splitlines():
            line, held, number, words = re.fullmatch(r"(\d+) +(\S.*?)  +(1[01])  (.*)", row).groups()
            self.assertEqual(self.first(with_line(int(line), held)), "refused, number %s at line %s: %s" % (number, line, words))

    def test_names_and_their_lines(self):
        long = "n" * 40
        self.assertIn(": the name `%s` has 40 bytes, and at most 31 are read" % long, self.first(with_line(3, long + " 1")))
        later = text_of(GOOD[:3] + ["[PIPES]", "P9 A T 1 1 1"] + GOOD[3:])
        self.assertEqual(self.first(later), "refused, number 11 at line 5: node T is not defined before this line, but in line 9")
        many = text_of(["[JUNCTIONS]"] + ["J%d 0" % k for k in range(513)])
        self.assertEqual(self.first(many), "refused, number 10 at line 514: at most 512 nodes are read, and this is one more")
        self.assertIsNone(inp_refusals.fault(inp_refusals.Place(many, 513)))
        pipes = ["[JUNCTIONS]", "A 0", "[PIPES]"] + ["P%d A A 1 1 1" % k for k in range(1025)]
        self.assertIn("number 10 at line 1028: at most 1024 links are read, and this is one more", self.first(text_of(pipes)))

    def test_encodings(self):
        self.assertIn("at line 1: a byte order mark stands before the first header", self.first(b"\xef\xbb\xbf" + TERRACES))
        self.assertIn("at line 1: this is no plain text", self.first(TERRACES.decode().encode("utf-16")))

    def test_the_page_in_the_paper(self):
        _, out, _ = self.desk(self.path("a.inp", text_of([""] * 3 + GOOD[:10] + ["P3 B H7 300 8 110"] + GOOD[11:])))
        self.assertIn("```\n%s```\n" % out, read("docs/DESK.md").decode())

    def test_in_json_and_in_the_picture(self):
        inp = self.path("a.inp", with_line(11, "P3 B H7\t300 8 110 ; x"))
        found = self.entry("--plot", self.path("a.svg"), inp)
        self.assertEqual([found[key] for key in ("number", "place", "trials", "exit_status", "error")], [11, 11, 0, 1, None])
        self.assertEqual(found["verdict"], {"number": 1, "place": 11})
        self.assertEqual({key: found["refusal"][key] for key in ("why", "holds", "mend", "sections", "record")},
                         {"why": "node H7 is not defined", "holds": "P3 B H7 300 8 110", "sections": [], "record": None,
                          "mend": "correct the name, or define it in a line before this one"})
        with open(self.path("a.svg"), encoding="utf-8") as file:
            self.assertIn("refused, number 11 at line 11: node H7 is not defined", file.read())

    def test_a_line_at_most_and_nothing_that_moves_a_terminal(self):
        for line in ("B \x1b[2J" + "x" * 100000, "B\x00\x07 \x1b" * 20000, "\x9b " * 30000):
            _, out, _ = self.desk(self.path("a.inp", with_line(3, line)))
            self.assertTrue(out.replace("\n", "").isprintable())
            self.assertLess(max(map(len, out.splitlines())), 200)

    def test_every_refused_line_of_the_generator_is_told_and_no_good_one(self):
        """Where a line is refused something is found to be wrong with it, and nowhere else."""
        told = 0
        for case in inp_files.cases(3, 400):
            found = inp_reader.read(case.text)
            if isinstance(found, inp_reader.Refused):
                why = inp_refusals.explain(case.text, found).why
                self.assertNotIn(why, (inp_refusals.CANNOT, "a name in it is not known"), case.reason)
                told += 1
            elif len(case.text) < 2000:
                for line in inp_lines.data_lines(case.text):
                    place = inp_refusals.Place(case.text, line.number)
                    self.assertEqual((inp_refusals.fault(place), inp_refusals.unknown(place)), (None, None), line)
        self.assertGreater(told, 150)


class LeavingOut(Texts):
    def test_all_that_stands_in_the_way_is_told(self):
        status, out, err = self.desk(self.path("a.inp", LONGER))
        self.assertEqual((status, err), (1, ""))
        self.assertIn("```\n%s```\n" % out, read("docs/DESK.md").decode())
        sections = self.entry(self.path("a.inp"))["refusal"]["sections"]
        self.assertEqual([(one["section"], one["line"], one["lines"], one["may_be_left_out"]) for one in sections],
                         [("TIMES", 71, 2, True), ("REPORT", 75, 1, True)])

    def test_what_cannot_be_left_out_is_told_with_it(self):
        more = b"[PUMPS]\nP 1 2\n[times]\nx\n[JUNC]\nA 1\n[PI]\nx\n[PUMPS]\ny\n[CONTROLS]\n;none\n[END]\nz\n"
        _, out, _ = self.desk(self.path("a.inp", TERRACES + more))
        self.assertIn("at line 70: section [PUMPS] is not carried\n", out)
        self.assertIn("  mend    change the text so that it does without [PUMPS], [JUNC] and [PI], which cannot be left out "
                      "here\n", out)
        self.assertEqual([line.split()[:3] for line in out[out.index("Sections"):].splitlines()[2:]], [
            ["[PUMPS]", "70", "2"], ["[TIMES]", "72", "1"], ["[JUNC]", "74", "1"], ["[PI]", "76", "1"], ["[END]", "82", "1"]])
        self.assertEqual(re.findall(r"it is no section of an EPANET text(.*)\n", out), ["; is it [JUNCTIONS]?", ""])
        flags = [one["may_be_left_out"] for one in self.entry(self.path("a.inp"))["refusal"]["sections"]]
        self.assertEqual(flags, [False, True, False, False, True])

    def test_going_on_without_them(self):
        whole = self.desk(self.path("a.inp", TERRACES))
        for words in (["TIMES,REPORT"], ["[times], report "], ["REPORT", "--leave-out", "TIMES"], ["TIMES,REPORT,TAGS,TIMES"]):
            status, out, err = self.desk("--leave-out", *words, self.path("a.inp", LONGER))
            first, second, rest = out.split("\n", 2)
            self.assertEqual((status, first + "\n" + rest, err), whole, words)
            self.assertEqual(second, "  without [TIMES] (2 lines) and [REPORT] (1 line), left out as asked")
        found = self.entry("--leave-out", "TIMES,REPORT", self.path("a.inp"))
        self.assertEqual(found["left_out"], [dict(section="TIMES", line=71, lines=2), dict(section="REPORT", line=75, lines=1)])
        self.assertIn(second.strip(), read("docs/DESK.md").decode())

    def test_the_text_that_the_program_gets(self):
        text = (b"[TIMES]\r\n Duration 1 ; x\r\n;comment\r\n\r\n[JUNCTIONS]\r\nA 1\r\n[times]\nx\n[Times\ny\n"
                b"[REPORT]\n[TIMES] ; y\nlast")
        left = (b"[TIMES]\r\n\n;comment\r\n\r\n[JUNCTIONS]\r\nA 1\r\n[times]\n\n[Times\ny\n"
                b"[REPORT]\n[TIMES] ; y\n")
        self.assertEqual(inp_sections.without(text, ["TIMES"]), (left, [("TIMES", 2, 3)]))
        for names in ([], ["REPORT"], ["TAGS"]):
            self.assertEqual(inp_sections.without(text, names), (text, []))
        every = b"".join(b"[%s]\nx 1\n" % name.encode() for name in inp_sections.KNOWN)
        kept = inp_sections.without(every, list(inp_sections.WITHOUT))[0]
        self.assertEqual(kept.count(b"x 1\n"), len(inp_sections.KNOWN) - len(inp_sections.WITHOUT))

    def test_lines_keep_their_numbers(self):
        inp = self.path("a.inp", LONGER + b"[STATUS]\nkeeper SHUT\n")
        _, out, _ = self.desk("--leave-out", "TIMES,REPORT", inp)
        self.assertTrue(out.startswith("refused, number 10 at line 77: `SHUT` is no number"), out)
        self.assertIn("\n  without [TIMES] (2 lines) and [REPORT] (1 line), left out as asked\n", out)

    def test_what_is_still_in_the_way(self):
        found = self.entry("--leave-out", "TIMES", self.path("a.inp", LONGER))
        self.assertEqual((found["number"], found["place"], found["mend"]), (
            12, 75, "go on without what stands in the way: --leave-out TIMES,REPORT"))
        self.assertEqual([one["section"] for one in found["refusal"]["sections"]], ["REPORT"])

    def test_what_changes_the_hydraulics_never_is(self):
        for name in "PUMPS CURVES PATTERNS DEMANDS CONTROLS RULES EMITTERS".split():
            for word in (name, "TIMES,[%s]" % name.lower()):
                status, out, err = self.desk("--leave-out", word, self.path("a.inp", TERRACES))
                self.assertEqual((status, out), (2, ""))
                self.assertIn("[%s] changes the hydraulics and is never left out: %s" % (name, inp_sections.NEEDED[name]), err)
        self.assertEqual(self.given, [])

    def test_nor_what_is_carried_nor_what_is_no_section(self):
        for name in inp_sections.CARRIED:
            self.assertIn("[%s] is carried; these may be left out: TIMES, " % name, self.desk("--leave-out", name, "a.inp")[2])
        for name in inp_sections.PASSED_OVER:
            self.assertIn("[%s] is passed over as it is; " % name, self.desk("--leave-out", name, "a.inp")[2])
        for word, words in (("TIME", "TIME is no section"), ("", "nothing is no section"), ("TIMES,", "nothing is no"),
                            ("\x1b", "\\x1b is")):
            status, _, err = self.desk("--leave-out", word, "a.inp")
            self.assertEqual(status, 2)
            self.assertIn(words, err)

    def test_it_says_nothing_of_a_sheet(self):
        june = os.path.join(TOP, "examples", "june.sheet")
        self.assertEqual(self.desk("--leave-out", "TIMES", june), self.desk(june))
        self.assertEqual(self.entry("--leave-out", "TIMES", june)["left_out"], [])

    def test_in_bookings(self):
        inp, table = self.path("a.inp", LONGER), self.path("b.csv", b"18:00,vines,6 L/s\n19:00,nix,1 L/s\n")
        status, out, _ = self.desk("--leave-out", "TIMES,REPORT", "--bookings", table, inp)
        self.assertEqual((status, out.splitlines()[2:]), (2, [
            "without [TIMES] (2 lines) and [REPORT] (1 line), left out as asked"]))
        hours = json.loads(self.desk("--json", "--leave-out", "TIMES,REPORT", "--bookings", table, inp)[1])
        self.assertEqual(Checker(json.loads(read("docs/bookings.schema.json"))).faults(hours), [])
        self.assertEqual([[one["section"] for one in hour["left_out"]] for hour in hours], [["TIMES", "REPORT"]] * 2)

    def test_the_papers_name_every_section(self):
        paper = read("docs/DESK.md").decode()
        rows = re.findall(r"^\| ([A-Z, ]+) \| (yes|never)", paper[paper.index("| section | may be left out |"):], re.M)
        for answer, sections in (("yes", inp_sections.WITHOUT), ("never", inp_sections.NEEDED)):
            told = [name for names, found in rows if found == answer for name in names.split(", ")]
            self.assertEqual(sorted(told), sorted(sections))
        known = {header.decode().strip("[]") for header in set(inp_reader.Network().sections) | inp_reader.SECTIONS_PASSED}
        self.assertEqual(known, set(inp_sections.CARRIED + inp_sections.PASSED_OVER))


class Limits(Texts):
    def test_a_text_of_the_greatest_length(self):
        data = TERRACES + b";" * (files.MOST - len(TERRACES))
        self.assertEqual(self.desk(self.path("a.inp", data))[0], 0)
        self.assertEqual(self.desk("-", stdin=data)[0], 0)
        self.assertEqual([len(text) for text in self.given], [1048576] * 2)

    def test_a_longer_one_is_not_held(self):
        long = self.path("long.inp", LONGER)
        os.truncate(long, 200 * 1000 * 1000)
        for name in (long, self.path("none", TERRACES + b";" * files.MOST)):
            tracemalloc.start()
            status, out, err = self.desk(name)
            _, most = tracemalloc.get_traced_memory()
            tracemalloc.stop()
            self.assertEqual((status, out), (2, ""))
            self.assertIn(" has more than 1048576 bytes, which is too long for an EPANET text\n", err)
            self.assertLess(most, 8 * files.MOST)
        for data in (TERRACES + b";" * files.MOST, LONGER * 2000):
            status, _, err = self.desk("-", stdin=data)
            self.assertEqual(status, 2)
            self.assertIn("standard input goes on after 1048576 bytes: no text may be longer", err)
        self.assertEqual(self.given, [])

    def test_the_paper_and_the_help_say_so(self):
        self.assertIn("It may have 1,048,576 bytes", read("docs/DESK.md").decode())
        self.assertIn("A text has at most %d bytes." % files.MOST, main.parser().format_help())

    def test_of_very_many_sections_some_are_told(self):
        inp = self.path("a.inp", b"".join(b"[%d]\nx\n" % k for k in range(1000)))
        self.assertEqual(len(self.entry(inp)["refusal"]["sections"]), 40)
        self.assertLess(len(self.desk(inp)[1]), 6000)

    def test_words_of_long_texts_do_not_take_long(self):
        """Time that grows with the square of the length would be minutes."""
        for line in ("B 1e" + "0" * 900000 + "x", "B " + "1" * 900000 + "x", "B " + "." * 900000, "B 1" + " 1" * 400000):
            self.assertIn("at line 3: ", self.desk(self.path("a.inp", with_line(3, line)))[1])


class AnyBytes(Texts):
    def calm(self, data, name="a.inp"):
        """One of the four ends, and no fault of the desk."""
        status, out, err = self.desk(self.path(name, data))
        self.assertIn(status, (0, 1, 2, 3))
        self.assertNotIn("Traceback", out + err)
        self.assertTrue((out + err).replace("\n", "").isprintable())

    def test_made_by_chance(self):
        dice = Dice(11)
        for _ in range(300):
            alphabet = dice.choice((range(256), b"[] \t\n\r;AP1.e-", b"[JUNCTIONS]\n[PIPES]\nA 1\n"))
            self.calm(bytes(dice.choice(alphabet) for _ in range(1 + dice.below(200))))
            self.calm(b"[PIPES]\n" + bytes(dice.choice(alphabet) for _ in range(1 + dice.below(60))), "a")

    def test_texts_that_were_changed(self):
        for number in range(9, 600, 10):
            self.calm(inp_files.case(5, number).text)

    def test_texts_that_were_cut(self):
        for end in range(1, len(LONGER), 17):
            self.calm(LONGER[:end])

    def test_an_empty_file(self):
        self.assertEqual(self.desk(self.path("a.inp", b"")), (2, "", "desk: a.inp is empty\n"))
        self.assertEqual(self.desk(self.path("a.inp", b"\n"))[0], 1)

    def test_a_program_that_refuses_what_is_not_there(self):
        """Its number and line are told, whatever they are."""
        for number in (10, 11, 12):
            for line in range(1, 80):
                with mock.patch("coordinator.asking.printed", lambda name, text: b"A %d %d 0 0 0\n" % (number, line)):
                    status, out, err = self.desk(self.path("a.inp", b";x\nbefore\n" + LONGER))
                self.assertEqual((status, err), (1, ""))
                self.assertTrue(out.startswith("refused, number %d at line %d: " % (number, line)), out)


class Program(Texts):
    """What the program prints, and where there is none."""

    def test_what_it_prints(self):
        self.assertEqual(epanet.reply(b"A 11 14 0 0 0\n"), (11, 14))
        self.assertEqual(epanet.reply(inp_reader.printed(TERRACES)), (inp_reader.read(TERRACES).sheet, NODES, LINKS))

    def test_what_cannot_be_read_is_told(self):
        good = inp_reader.printed(TERRACES)
        bad = (b"", b"\n", b"X\n", b"A\n", b"A 0 0 0 0 0\n", b"A 5 6 0 0 0\n", b"A 13 1 0 0 0\n", b"A 10 0 0 0 0\n",
               b"A 10 1 0 0\n", b"A 10 1 0 0 1\n", b"A 10 1 0 0 0\nx", b"A 10 x 0 0 0\n", b"S 1 1\n", b"S 1 1 1 1\n",
               b"S -1 1 29\n", b"S 0 0 30\n" + inp_reader.read(b"").sheet, good[:-1], good[:-9], good[:300], good + b"x\n",
               good + b"x", good.replace(b"S 11 12", b"S 12 11"), good.replace(b"S 11", b"S 10"))
        for printed in bad:
            with mock.patch("coordinator.asking.printed", lambda name, text, printed=printed: printed):
                status, out, err = self.desk(self.path("a.inp", TERRACES))
            self.assertEqual((status, out), (2, ""), printed[:20])
            self.assertTrue(err.startswith("desk: a.inp: what the program `epanet` printed cannot be read: "), err)

    def test_where_there_is_none(self):
        june = os.path.join(TOP, "examples", "june.sheet")
        names = [self.path("a.inp", TERRACES), june, self.path("b.inp", TERRACES)]
        self.program.stop()
        asking.why_not.cache_clear()
        self.addCleanup(asking.why_not.cache_clear)
        with mock.patch("coordinator.building.have", side_effect=NotToBeHad("no kit")) as have:
            status, out, err = self.desk(*names)
            (_, found, last) = json.loads(self.desk("--json", *names)[1])
        self.assertEqual((status, err), (2, "desk: a.inp: no kit\ndesk: b.inp: no kit\n"))
        self.assertIn("june.sheet: solved in 1 trial", out)
        self.assertEqual((found["error"], last["error"]), (None, "b.inp: no kit"))
        # it is not tried again for every text
        have.assert_called_once_with("epanet")

    def test_the_reader_that_stands_in_for_it_is_no_part_of_the_desk(self):
        folder = os.path.join(TOP, "coordinator")
        for name in sorted(os.listdir(folder)):
            if name.endswith(".py"):
                self.assertNotIn("inp_reader", read("coordinator/" + name).decode(), name)


if __name__ == "__main__":
    unittest.main()
