"""Bookings: the table read, what is asked about an hour, and what comes out. The program is stood in for: here every hydrant
has a pressure that the test gives it, and the verdict is worked out from that alone."""
import contextlib
import io
import json
import os
import re
import sys
import tempfile
import unittest
import xml.etree.ElementTree as ElementTree

TOP = os.path.dirname(os.path.dirname(os.path.abspath(__file__)))
sys.path[:0] = [TOP, os.path.join(TOP, "tools")]

from coordinator import bookings, evening, evening_out, main, sheet_bounds, sheet_text
from coordinator.pictures import LETTER
from coordinator.asking import NotToBeHad, Reply
from coordinator.limits import USUAL
from coordinator.sheet_format import bits
from json_schema import Checker, keys
from stored import read

SCHEME = b"""options flow-unit LPS
reservoir pond   head 60 m
junction  gate   elevation 10 m
junction  mill   elevation 10 m  demand 99 L/s
junction  ridge  elevation 30 m
junction  end    elevation 20 m
junction  spring elevation 10 m  demand -1 L/s
junction  off    elevation 10 m  disabled
pipe pond -> gate  resistance 1
"""
NAMES = ["pond", "gate", "mill", "ridge", "end", "spring", "off"]
FEET = 1 / 0.3048


def fields_of(data, mark=b"ND"):
    return [fields for _, found, fields in sheet_bounds.records(data)[0] if found == mark]


class Program:
    """Stands in for `evening_verdict`: each node's head is given in metres, and what is too low is verdict 8."""

    def __init__(self, refused=(), moves=False, **heads):
        self.heads = [heads.get(name, 60.0) * FEET for name in NAMES]
        self.refused, self.moves, self.calls = refused, moves, []

    def reply(self, data, limits):
        nodes = fields_of(data)
        if any(node["demand"] == flow / 28.317 for node in nodes for flow in self.refused):
            return Reply(1, 8, "A 8 40 0 0 0\n")
        # where elevations are in the laws, a node out of question is seen in the answer
        heads = [head + (1.0 if self.moves and node["elevation"] < -1e9 else 0.0) for head, node in zip(self.heads, nodes)]
        low = [i for i, node in enumerate(nodes) if node["kind"] == 0 and not node["disabled"] and
               heads[i] - node["elevation"] < (max(limits.lowest, 0.0) if node["demand"] > 0 else 0.0)]
        lines = ["A 0 0 1 0 0", "T OK 0"] + ["N %d %016x %016x" % (i, bits(head), bits(node["demand"]))
                                             for i, (head, node) in enumerate(zip(heads, nodes))]
        lines += ["L 0 %016x 1" % bits(0.0), "B %016x %016x %016x" % ((bits(0.0),) * 3)]
        return Reply(8 if low else 0, low[0] if low else 0, "\n".join(lines) + "\n")

    def ask_rows(self, asked):
        self.calls += [(len(one.rows), one.limits) for one in asked]
        return [[self.reply(evening.with_row(one.sheet, row), one.limits) for row in one.rows] for one in asked]


class Folder(unittest.TestCase):
    def setUp(self):
        folder = tempfile.TemporaryDirectory()
        self.addCleanup(folder.cleanup)
        self.folder = folder.name
        self.scheme = self.path("scheme.txt", SCHEME)

    def path(self, name, data=None):
        path = os.path.join(self.folder, name)
        if data is not None:
            with open(path, "wb") as file:
                file.write(data if isinstance(data, bytes) else data.encode())
        return path

    def desk(self, table, *args, program=None, scheme=None):
        out, err = io.StringIO(), io.StringIO()
        program = program or Program()
        with contextlib.redirect_stdout(out), contextlib.redirect_stderr(err):
            try:
                status = main.main(["--bookings", self.path("b.csv", table), *args, scheme or self.scheme],
                                   ask_rows=program.ask_rows)
            except SystemExit as end:
                status = end.code
        return status, out.getvalue(), err.getvalue().replace(self.path("b.csv"), "b.csv")


class Reading(Folder):
    def lines(self, table):
        """The table's hours, each with the lines of its bookings and its mistakes."""
        data, scheme = sheet_text.read_scheme(SCHEME)
        found = bookings.read(table if isinstance(table, bytes) else table.encode(),
                              bookings.Scheme(fields_of(data), scheme.names))
        return {hour.name: [booking.line for booking in hour.bookings] for hour in found.hours.values()}, found

    def test_hours_flows_and_pressures(self):
        lines, found = self.lines("hour,hydrant,flow,least\n18:00,mill,8 L/s,2 bar\n\n# more\n19:00,ridge,36m3/h,\n18:00,end,1 gpm\n")
        self.assertEqual(lines, {"18:00": [2, 6], "19:00": [5]})
        mill, end = found.hours["18:00"].bookings
        self.assertEqual((mill.node, mill.flow, end.node, end.least), (2, 8 / 28.317, 4, None))
        self.assertAlmostEqual(mill.least * 0.3048, 2 / 0.0980665)
        self.assertEqual(found.hours["19:00"].bookings[0].flow, 36 / 101.94)

    def test_columns(self):
        for table in ("flow,hydrant,hour\n8 L/s,mill,18:00\n", "Hour;Hydrant;Flow\n18:00;mill;8 L/s\n", "18:00,mill,8 L/s\n",
                      b"\xef\xbb\xbfhour,hydrant,flow\r\n18:00,mill,8 L/s\r\n", '"18:00","mill","8 L/s"\n'):
            lines, found = self.lines(table)
            self.assertEqual((list(lines), found.mistakes), (["18:00"], []), table)

    def test_a_table_that_is_none(self):
        for table, words in ((b"", "is empty"), (b"\n# nothing\n", "there is no booking in it"), (b"\xff\xfe", "line 1 is not text"),
                             (b"hour,hydrant\n1,mill\n", "the columns must be hour, hydrant, flow and, if wanted, least"),
                             (b"hour,hydrant,flow,colour\n", "the columns must be"), (b"hour,hour,hydrant,flow\n", "the columns must be")):
            status, out, err = self.desk(table)
            self.assertEqual((status, out), (2, ""), table)
            self.assertIn(words, err)

    def test_a_mistake_spoils_its_hour_alone(self):
        table = ("hour,hydrant,flow,least\n1,rigde,7 L/s,\n2,mill,8,\n3,mill,8 L/s,\n3,mill,8 L/s,\n4,mill,-3 L/s,\n5,mill,ten,\n"
                 "6,mill,1 L/s,deep\n6,end,1 L/s,-1 m\n7,pond,1 L/s,\n8,off,1 L/s,\n9,mill,1 L/s,,,\n,mill,1 L/s,\n10,mill,1e300 L/s,\n"
                 "11,,1 L/s,\n12,mill,,\n13,mill,3 L/s,\n")
        status, out, err = self.desk(table)
        self.assertEqual(status, 2)
        told = dict(line.split(": ", 1) for line in err.splitlines())
        for line, words in ((2, "no node is called rigde"), (3, "the line ends where the unit of the flow is expected"),
                            (5, "mill is booked in this hour already, in line 4"), (6, "-3 L/s is no flow that can be booked"),
                            (7, "ten is no number"), (8, "deep is no number"), (9, "-1 m is no lowest pressure"),
                            (10, "pond is a reservoir, and only junctions are booked"), (11, "off is out of service"),
                            (12, "there are more cells than columns"), (13, "there is no hour"),
                            (14, "1e300 L/s is no flow that can be booked"), (15, "no node is called "), (16, "the flow is missing")):
            self.assertTrue(told["b.csv:%d" % line].startswith(words), (line, told["b.csv:%d" % line]))
        self.assertEqual(len(told), 14)
        answers = dict(line.split("  ")[:1] + [line] for line in out.splitlines())
        self.assertEqual([name.strip() for name, line in answers.items() if " yes " in line], ["13"])
        self.assertEqual(len(answers), 13)

    def test_signs_that_no_terminal_shows(self):
        status, out, err = self.desk(b'"\x1b[2J\n6",mill,1 L/s\n7,\x1b\x00,1 L/s\n8,mill,1 L/s\n')
        self.assertEqual(status, 2)
        self.assertTrue((out + err).replace("\n", "").isprintable())
        self.assertIn("8 ", out)
        self.desk(b"1," + b"x" * 200000 + b",1 L/s\n2,mill,1 L/s\n")


class Asking(Folder):
    def sheet(self, table):
        data, scheme = sheet_text.read_scheme(SCHEME)
        found = bookings.read(table.encode(), bookings.Scheme(fields_of(data), scheme.names))
        (hour,) = found.hours.values()
        return fields_of(evening.with_row(data, evening.row_of(data, hour)))

    def test_what_is_booked_is_drawn_and_nothing_else(self):
        nodes = self.sheet("1,ridge,7 L/s\n1,end,6 L/s\n")
        self.assertEqual([node["demand"] * 28.317 for node in nodes], [0.0, 0.0, 0.0, 7.0, 6.0, -1.0, 0.0])
        self.assertEqual([node["elevation"] for node in nodes], [node["elevation"] for node in fields_of(
            sheet_text.read_scheme(SCHEME)[0])])

    def test_a_row_is_the_demands_alone(self):
        data = sheet_text.read_scheme(SCHEME)[0]
        row = [node["demand"] for node in fields_of(data)]
        self.assertEqual(evening.with_row(data, row), data)
        other = evening.with_row(data, [x + 0.5 for x in row])
        self.assertEqual(evening.with_row(other, row), data)
        self.assertEqual([node["demand"] for node in fields_of(other)], [x + 0.5 for x in row])

    def test_32_hours_at_a_time(self):
        program = Program()
        status, out, _ = self.desk("".join("%d,mill,1 L/s\n" % hour for hour in range(70)), program=program)
        self.assertEqual((status, len(out.splitlines())), (0, 70))
        self.assertEqual([count for count, _ in program.calls], [32, 32, 6])

    def test_an_hour_with_one_lowest_pressure_is_asked_once(self):
        program = Program()
        self.desk("1,mill,1 L/s,10m\n1,ridge,1 L/s,10m\n2,mill,1 L/s\n", "--least", "10m", program=program)
        self.assertEqual(program.calls, [(2, USUAL._replace(lowest=10 / 0.3048))])

    def test_hours_that_need_another_pressure_are_evenings_of_their_own(self):
        program = Program()
        self.desk("1,mill,1 L/s\n2,mill,1 L/s,10m\n3,mill,1 L/s\n3,ridge,1 L/s,10m\n", program=program)
        needs = USUAL._replace(lowest=10 / 0.3048)
        # hours 1 and 3; hours 2 and 3 at 10 m; and hour 3 once more, with the mill out of question
        self.assertEqual(program.calls, [(2, USUAL), (2, needs), (1, needs)])

    def hour(self, table, **heads):
        status, out, _ = self.desk(table, program=Program(**heads))
        return status, out.strip()

    def test_each_booking_by_its_own_lowest_pressure(self):
        # mill stands at 10 m, ridge at 30 m, end at 20 m
        table = "1,mill,1 L/s,5 m\n1,ridge,1 L/s\n1,end,1 L/s,20 m\n"
        self.assertEqual(self.hour(table, mill=15.5, ridge=31.0, end=40.5),
                         (0, "1  yes  3 hydrants with 3.00 LPS; lowest pressure 1.00 m at node 3 (ridge)"))
        self.assertEqual(self.hour(table, mill=14.5, ridge=31.0, end=40.5),
                         (3, "1  no   hydrant 2 (mill) has 4.50 m and is booked with 5.00 m at least"))
        self.assertEqual(self.hour(table, mill=15.5, ridge=31.0, end=39.5),
                         (3, "1  no   hydrant 4 (end) has 19.50 m and is booked with 20.00 m at least"))
        self.assertEqual(self.hour(table, mill=15.5, ridge=29.0, end=40.5)[1],
                         "1  no   hydrant 3 (ridge) has -1.00 m, the lowest allowed is 0.00 m")

    def test_what_is_not_shown_is_a_no(self):
        table = "1,ridge,1 L/s\n1,end,1 L/s,20 m\n"
        words = ("1  no   hydrant 4 (end) is booked with 20.00 m at least, which the verdict cannot show beside node 3 (ridge), "
                 "which has less")
        self.assertEqual(self.hour(table, ridge=31.0, end=45.0, moves=True), (3, words))
        self.assertEqual(self.hour(table, ridge=51.0, end=45.0, moves=True)[0], 0)
        # a node before it does not stand in its way
        self.assertEqual(self.hour("1,mill,1 L/s,20 m\n1,ridge,1 L/s\n", mill=31.0, ridge=31.0, moves=True)[0], 0)

    def test_a_verdict_about_something_else_is_a_no(self):
        hour = bookings.Hour("1")
        hour.bookings = [bookings.Booking(1, "1", 2, 1.0, None), bookings.Booking(2, "1", 3, 1.0, 9.0)]
        replies = {(0.0, "all"): Reply(0, 0, "x"), (9.0, "all"): Reply(5, 60, "x"), (9.0, "some"): Reply(7, 50, "x")}
        self.assertEqual(evening.unmet(hour, USUAL, replies), {hour.bookings[1]: (9.0, None)})

    def test_a_booking_without_its_own_lowest_pressure_has_the_one_of_all(self):
        status, out, _ = self.desk("1,mill,1 L/s,5 m\n1,end,1 L/s\n", "--least", "20m", program=Program(mill=15.5, end=39.5))
        self.assertEqual((status, out), (3, "1  no   hydrant 4 (end) has 19.50 m and is booked with 20.00 m at least\n"))
        status, out, _ = self.desk("1,mill,1 L/s,5 m\n1,end,1 L/s\n", "--least", "20m", program=Program(mill=15.5, end=40.5))
        self.assertEqual(status, 0)

    def test_a_refused_hour(self):
        status, out, _ = self.desk("1,mill,1 L/s\n2,mill,2 L/s\n", program=Program(refused=[2.0]))
        self.assertEqual((status, out.splitlines()[1]), (1, "2  no   refused, number 8: 40 trials gave no answer"))

    def test_a_sheet_goes_by_numbers(self):
        sheet = self.path("a.sheet", sheet_text.read_scheme(SCHEME)[0])
        status, out, _ = self.desk("1,2,1 L/s\n2,n3,1 L/s\n3,mill,1 L/s\n", scheme=sheet)
        self.assertEqual((status, [line.split()[1] for line in out.splitlines()]), (2, ["yes", "yes", "?"]))
        self.assertIn("at node 3\n", out)

    def test_a_scheme_that_would_be_refused(self):
        status, out, err = self.desk("1,0,1 L/s\n", scheme=os.path.join(TOP, "examples", "refused.sheet"))
        self.assertEqual((status, out), (2, ""))
        self.assertIn("would be refused", err)

    def test_no_program(self):
        class Gone:
            @staticmethod
            def ask_rows(asked):
                raise NotToBeHad("no program")
        self.assertEqual(self.desk("1,mill,1 L/s\n", program=Gone), (2, "", "desk: no program\n"))

    def test_one_scheme(self):
        for args in ((self.scheme,), ("--explain",), ("--sheet", "x", "-o", "y")):
            self.assertEqual(self.desk("1,mill,1 L/s\n", *args)[0], 2)


class Out(Folder):
    TABLE = "18:00,mill,8 L/s,5 m\n18:00,ridge,1 L/s\n19:00,ridge,7 L/s,10 m\n20:00,rigde,1 L/s\n20:00,mill,1 L/s\n"

    def test_json(self):
        schema = json.loads(read("docs/bookings.schema.json"))
        for program in (Program(), Program(ridge=31.0), Program(refused=[7.0])):
            _, out, _ = self.desk(self.TABLE, "--json", program=program)
            found = json.loads(out)
            self.assertEqual(Checker(schema).faults(found), [])
            self.assertEqual([hour["hour"] for hour in found], ["18:00", "19:00", "20:00"])
        self.assertEqual([hour["answer"] for hour in found], ["yes", "no", "?"])
        self.assertEqual(found[0]["bookings"][0]["met"], True)
        self.assertEqual(found[2]["mistakes"], [{"line": 4, "words": "no node is called rigde"}])
        self.assertEqual([booking["line"] for booking in found[2]["bookings"]], [5])
        paper = read("docs/BOOKINGS.md").decode()
        rows = [line for line in paper[paper.index("| key | holds |"):].splitlines() if line.startswith("| `")]
        documented = {word for line in rows for word in re.findall(r"`(\w+)`", line)} - {"yes", "no"}
        self.assertEqual(documented, keys(schema["$defs"]["hour"]))

    def test_json_is_a_list_whatever_is_wrong(self):
        schema = json.loads(read("docs/bookings.schema.json"))
        for table, scheme in (("", None), ("1,mill,1 L/s\n", self.path("none.txt")), ("hour,colour\n", None)):
            status, out, err = self.desk(table, "--json", scheme=scheme)
            (found,) = json.loads(out)
            self.assertEqual((status, Checker(schema).faults([found])), (2, []))
            self.assertTrue(found["error"] and err)

    def test_the_picture(self):
        picture = self.path("p.svg")
        status, out, _ = self.desk(self.TABLE, "--plot", picture, program=Program(ridge=31.0))
        self.assertEqual(status, 2)
        words = " ".join(ElementTree.parse(picture).getroot().itertext())
        for word in ("18:00", "19:00", "mill", "ridge", "yes", "no", "7.00", "in LPS", "not answered"):
            self.assertIn(word, words)
        with open(picture, encoding="utf-8") as file:
            self.assertEqual(file.read().count("#e58074"), 2)

    def test_every_word_is_within_the_picture(self):
        picture = self.path("p.svg")
        self.desk("18:00,mill,1 L/s\n", "--plot", picture, program=Program())
        top = ElementTree.parse(picture).getroot()
        words = [(float(e.get("x")), float(e.get("y")), e.text) for e in top.iter() if e.tag.endswith("text")
                 and e.get("text-anchor") in (None, "start")]
        self.assertGreater(len(words), 5)
        for x, y, text in words:
            self.assertLessEqual(x + LETTER * len(text), float(top.get("width")), text)
            self.assertLess(y, float(top.get("height")), text)

    def test_a_picture_of_mistakes_alone(self):
        picture = self.path("p.svg")
        self.assertEqual(self.desk("1,rigde,1 L/s\n", "--plot", picture)[0], 2)
        self.assertIn("?", " ".join(ElementTree.parse(picture).getroot().itertext()))

    def test_what_cannot_be_shown_is_said(self):
        hour = bookings.Hour("1")
        hour.bookings = [bookings.Booking(1, "1", 2, 1.0, 9.0)]
        data, scheme = sheet_text.read_scheme(SCHEME)
        found = evening.Answer("1", data, Program().reply(data, USUAL), names=scheme.names)
        judged = evening.Judged(hour, found, {hour.bookings[0]: evening.Unmet(9.0, None)})
        self.assertEqual(evening_out.reason(judged), "hydrant 2 (mill) is booked with 2.74 m at least, which the verdict cannot show")
        self.assertEqual((judged.exit_status, judged.met(hour.bookings[0])), (3, None))

    def test_a_picture_that_cannot_be_written(self):
        for name in (self.path("none/p.svg"), self.path("b.csv")):
            status, out, err = self.desk(self.TABLE, "--plot", name.replace("b.csv", "b.svg"), program=Program())
            self.assertTrue(out.startswith("18:00  yes"))
        os.symlink(self.path("b.csv"), self.path("link.svg"))
        status, out, err = self.desk("1,mill,1 L/s\n", "--plot", self.path("link.svg"))
        self.assertEqual((status, out[:6]), (2, "1  yes"))
        self.assertIn("it is an input", err)

    def test_the_example_of_the_papers(self):
        table = re.search(r"```\n(hour,hydrant.*?)```", read("docs/BOOKINGS.md").decode(), re.S).group(1)
        self.assertTrue(all(line in read("examples/evening/bookings.csv").decode() for line in table.splitlines()))


if __name__ == "__main__":
    unittest.main()
