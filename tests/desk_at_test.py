"""`--at`: a node and what touches it, on the page and in JSON, over stored listings and answers that are made up. The proved
program is not asked here."""
import json
import os
import sys
import tempfile
import unittest

TOP = os.path.dirname(os.path.dirname(os.path.abspath(__file__)))
sys.path[:0] = [TOP, os.path.join(TOP, "tools")]

from coordinator import as_json, pages, touching
from coordinator.limits import USUAL
from coordinator.sheet_format import LINK_KINDS, STATUSES, Sheet, bits
from coordinator.words import give_names
from desk_json_test import SCHEMA, floats_without_bits
from desk_test import BY_DATA, BY_NAME, answer, answer_to, block_after, desk, example, made, row, two
from json_schema import Checker
from stored import read

JUNE = block_after("docs/SHEETS.md", "## One complete example").encode()
NAMES = ["top", "upper", "lower", "field", "hill", "pond"]


def at(found, node):
    """The lines of the page about one node, without the heading."""
    found.at = [node]
    (part,) = pages.page(found, False).split("\n\n")[1:]
    return part.splitlines()[1:]


def said(found, node, word):
    """The words behind `doubt` or `note`."""
    start = "  %-8s" % word
    return [line[len(start):] for line in at(found, node) if line.startswith(start)]


def rows(found, node):
    """The rows of the links that touch a node."""
    return [line for line in at(found, node) if line[:6].strip().isdigit()]


def entries(*found):
    """The entries of these answers in JSON, held to the schema."""
    document = json.loads(as_json.document(found))
    faults = Checker(SCHEMA).faults(document) + sorted(set(floats_without_bits(document)) - {"flow_per_cfs", "pressure_per_ft"})
    if faults:
        raise AssertionError(faults)
    return document


def entry(found, node):
    """What JSON has at a node."""
    found.at = [node]
    ((one,),) = [whole["at"] for whole in entries(found)]
    return one


def named(found, names):
    """The same answer to a scheme whose nodes have names."""
    found.names = list(names)
    give_names(found.nodes, found.links, found.names)
    return found


def star(unit="LPS"):
    """A hydrant, node 0, with a link of every kind at it: the even ones start there, the odd ones end there. Link k runs to
    or from node k + 1 and carries k cfs along itself."""
    s, settings = Sheet(unit=unit), {"PRV": 30.0, "PSV": 20.0, "PBV": 10.0, "FCV": 2.0, "TCV": 3.5, "PCV": 40.0}
    s.junction(elevation=10.0, demand=0.5)
    statuses = ["Open" if kind == "pipe" else "Active" for kind in LINK_KINDS]
    for k, kind in enumerate(LINK_KINDS):
        s.junction()
        s.link(kind, *((k + 1, 0) if k % 2 else (0, k + 1)), setting=settings.get(kind, 0.0), status=statuses[k])
    others = len(LINK_KINDS)
    return made(s, [50.0] + [40.0] * others, [0.5] + [0.0] * others, [float(k) for k in range(others)],
                statuses=[STATUSES.index(status) for status in statuses])


class Folder(unittest.TestCase):
    def setUp(self):
        folder = tempfile.TemporaryDirectory()
        self.addCleanup(folder.cleanup)
        self.folder = folder.name

    def path(self, name, data=JUNE):
        path = os.path.join(self.folder, name)
        with open(path, "wb") as file:
            file.write(data)
        return path


class Links(unittest.TestCase):
    """The rows on the page."""

    def test_a_node_with_every_kind_of_link(self):
        self.assertEqual(at(star(), 0), [
            "  elevation 3.05 m, head 15.24 m, pressure 12.19 m, demand 14.16 LPS",
            "  link  kind  here    other end  flow LPS                           status  setting",
            "     0  pipe  starts  node 1         0.00                           Open",
            "     1  PRV   ends    node 2        28.32  into node 0 from node 2  Active  9.14 m",
            "     2  PSV   starts  node 3        56.63  out of node 0 to node 3  Active  6.10 m",
            "     3  PBV   ends    node 4        84.95  into node 0 from node 4  Active  3.05 m",
            "     4  FCV   starts  node 5       113.27  out of node 0 to node 5  Active  56.63 LPS",
            "     5  TCV   ends    node 6       141.59  into node 0 from node 6  Active  3.50",
            "     6  PCV   starts  node 7       169.90  out of node 0 to node 7  Active  40.00 %"])

    def test_in_feet_and_gallons(self):
        lines = at(star("GPM"), 0)
        self.assertEqual(lines[0], "  elevation 10.00 ft, head 50.00 ft, pressure 17.33 psi (40.00 ft), demand 224.42 GPM")
        self.assertEqual(lines[3], "     1  PRV   ends    node 2       448.83  into node 0 from node 2  Active  13.00 psi (30.00 ft)")

    def test_the_other_end_sees_the_same_link_the_other_way_round(self):
        self.assertEqual(at(star(), 2)[1:], [
            "  link  kind  here    other end  flow LPS                           status  setting",
            "     1  PRV   starts  node 0        28.32  out of node 2 to node 0  Active  9.14 m"])

    def test_a_flow_against_the_link(self):
        for node, words in ((0, "7.08  into node 0 from node 1  Open"), (1, "7.08  out of node 1 to node 0  Open")):
            (line,) = rows(two((0, 0), flow=-0.25), node)
            self.assertTrue(line.endswith(words), line)

    def test_no_way_where_the_figure_is_0(self):
        for flow in (0.0, -0.0, 1e-6, -1e-6):
            self.assertEqual(at(two((0, 0), flow=flow), 1)[1:], ["  link  kind  here  other end  flow LPS  status",
                                                                 "     0  pipe  ends  node 0         0.00  Open"])
        self.assertIn("0.01  into", rows(two((0, 0), flow=0.0002), 1)[0])

    def test_a_node_with_no_links(self):
        lines = at(answer("B15-no-links"), 1)
        self.assertTrue(lines[0].endswith("; grounded in trial 1, head undetermined, pressure below 0"), lines)
        self.assertEqual(lines[-1], "  no link touches it")
        self.assertEqual(rows(answer("B15-no-links"), 1), [])
        self.assertEqual(entry(answer("B15-no-links"), 1)["touching"], [])

    def test_two_links_between_the_same_nodes(self):
        s = Sheet()
        s.reservoir(head=100.0)
        s.junction(demand=0.5)
        s.pipe(0, 1)
        s.pipe(1, 0)
        found = made(s, [100.0, 90.0], [0.0, 0.5], [0.25, -0.25])
        self.assertEqual([line.split()[:3] for line in rows(found, 1)], [["0", "pipe", "ends"], ["1", "pipe", "starts"]])
        self.assertEqual([line.count("into node 1 from node 0") for line in rows(found, 1)], [1, 1])

    def test_every_link_touches_its_two_ends_and_no_other_node(self):
        for name in BY_NAME:
            found = answer(name)
            if found.solved:
                there = [[touch.link for touch in touching.touches(found, i)] for i in range(len(found.nodes))]
                self.assertEqual(there, [[k for k, link in enumerate(found.links) if i in (link["start"], link["end"])]
                                         for i in range(len(found.nodes))], name)
                self.assertEqual(sum(map(len, there)), 2 * len(found.links), name)

    def test_a_change_of_status_as_in_the_table(self):
        for name in ("prv-active-under", "told-not-by-tank", "june-both-repaired"):
            found = answer(name)
            for number, link in enumerate(found.links):
                marks = pages.link_marks(found, number, "freed in trial 1")
                for end in (link["start"], link["end"]):
                    line = next(line for line in rows(found, end) if line.split()[0] == str(number))
                    self.assertTrue(line.endswith(marks), line)


class Repairs(unittest.TestCase):
    def test_a_valve_freed_again(self):
        data, text = BY_NAME["june-both-repaired"]
        text = text.replace("A 0 0 13 1 0", "A 0 0 13 3 0").replace("T ST 0\nT ST 0", "T VF 2\nT VF 2", 1)
        found = answer_to("x", data, text)
        for node in (2, 3):
            self.assertEqual(said(found, node, "doubt"), ["the PRV at link 2 (2 -> 3) was freed 3 times"])
            (line,) = [line for line in rows(found, node) if " PRV " in line]
            self.assertTrue(line.endswith("changed, was Active, freed in trials 1 to 3"), line)
            (touch,) = [touch for touch in entry(found, node)["touching"] if touch["link"] == 2]
            self.assertEqual(touch["freed_in"], [1, 2, 3])

    def test_a_repair_elsewhere_is_none_here(self):
        found = answer("june-both-repaired")
        self.assertEqual(said(found, 0, "doubt"), [])
        self.assertNotIn("freed", "\n".join(at(found, 0)))
        self.assertEqual({tuple(touch["freed_in"]) for touch in entry(found, 0)["touching"]}, {()})

    def test_a_grounded_node(self):
        found = answer("B04-regulator-to-disabled")
        self.assertIn("grounded in trial", at(found, 0)[0])
        doubts = said(found, 0, "doubt")
        self.assertEqual(doubts[:3], ["the PRV at link 0 (1 -> 0) was freed", "node 0 was tied to a reservoir that is not there",
                                      "nothing determines the head of node 0"])
        one = entry(found, 0)
        self.assertEqual(one["doubts"], doubts)
        self.assertEqual([found.entries[trial - 1] for trial in one["grounded_in"]], [("GN", 0)])
        self.assertEqual(entry(found, 1)["grounded_in"], [])


class Doubts(unittest.TestCase):
    """What the verdict is about, at the node asked for."""

    def check(self, found, node, *words):
        self.assertEqual(said(found, node, "doubt"), list(words))
        self.assertEqual(entry(found, node)["doubts"], list(words))

    def test_none(self):
        self.check(two((0, 0)), 1)

    def test_a_lowest_pressure_also_where_the_verdict_names_another_node(self):
        found = row(16.0, 4.0, 1.0, limits=USUAL._replace(lowest=10.0))
        found.verdict, found.place = 8, 2
        self.check(found, 1)
        self.check(found, 2, "hydrant 2 has 1.73 psi (4.00 ft), the lowest allowed is 4.33 psi (10.00 ft)")
        self.check(found, 3, "hydrant 3 has 0.43 psi (1.00 ft), the lowest allowed is 4.33 psi (10.00 ft)")
        self.assertTrue(at(found, 3)[0].endswith("; pressure too low"))

    def test_a_head_that_nothing_determines(self):
        found = named(answer("june-undetermined"), ["top", "upper", "lower", "field"])
        self.check(found, 1, "nothing determines the head of node 1 (upper)",
                   "node 1 (upper) has -4.33 psi (-10.00 ft), the lowest allowed is 0.00 psi (0.00 ft)")
        self.check(found, 0)

    def test_a_drawn_flow_that_does_not_fit(self):
        found = row(64.0, (-11.0, 0.5))
        self.assertEqual(at(found, 2)[0], "  elevation 10.00 ft, head -1.00 ft, pressure -4.77 psi (-11.00 ft), asked 0.5000 cfs, "
                         "drawn 0.5000 cfs, does not fit its pressure, which allows 0.0000 cfs; pressure below 0")
        self.check(found, 2, "what node 2 draws does not fit the pressure there",
                   "hydrant 2 has -4.77 psi (-11.00 ft), the lowest allowed is 0.00 psi (0.00 ft)")
        self.check(found, 1)
        # the verdict names the first, and each is told where it is
        for node in (1, 2):
            self.check(row((16.0, 0.5), (4.0, 0.5)), node, "what node %d draws does not fit the pressure there" % node)
        told = row(16.0)
        told.verdict, told.place = 7, 1
        self.check(told, 1, "what node 1 draws does not fit the pressure there")

    def test_laws_that_are_missed_here(self):
        found = two((4, 1), flow=0.5)
        self.check(found, 1, "at node 1 (junction) what flows in and what is taken differ by 7.1 LPS, and 0.028 LPS is allowed")
        self.check(found, 0)
        for verdict, words in (((5, 0), "the flow of link 0 (PRV 0 -> 1), 7.08 LPS, does not go with the heads at its ends, 30.48 "
                                "and 18.29 m"),
                               ((6, 0), "the head of node 1 is 0.15 m from the one that link 0 (PRV 0 -> 1) is set to hold, and "
                                "0.03 m is allowed")):
            for node in (0, 1):
                self.check(two(verdict, kind="PRV", setting=49.5), node, words)

    def test_and_not_those_elsewhere(self):
        found = row(64.0, 64.0)
        # a place is a node's number or a link's
        for verdict, place, node in ((5, 0, 2), (5, 1, 0), (4, 2, 0), (4, 1, 2), (4, 0, 1)):
            found.verdict, found.place = verdict, place
            self.check(found, node)


class Nodes(unittest.TestCase):
    """The node's own line, and the notes."""

    def test_what_a_hydrant_asks_and_draws(self):
        found = row(64.0, 16.0, unit="LPS")
        self.assertTrue(at(found, 1)[0].endswith(", asked 14.16 LPS, drawn 14.16 LPS"))
        self.assertTrue(at(found, 2)[0].endswith(", asked 14.16 LPS, drawn 7.08 LPS, lacks 7.08 LPS"))
        self.assertTrue(at(found, 0)[0].endswith(", drawn 0.00 LPS"))

    def test_a_demand_at_a_junction_that_is_out_of_service(self):
        for pressures in (None, (0.0, 64.0)):
            s = Sheet(unit="LPS", pressures=pressures)
            s.reservoir(head=100.0)
            s.junction(elevation=10.0, demand=0.25, disabled=1)
            s.pipe(0, 1)
            found = made(s, [100.0, 60.0], [0.0, 0.25], [0.0])
            self.assertTrue(at(found, 1)[0].endswith(", demand 7.08 LPS; out of service, demand not served"), at(found, 1))
            self.assertEqual(said(found, 1, "note"), ["node 1 is out of service: its demand of 7.08 LPS is not served"])
            self.assertTrue(rows(found, 1)[0].endswith("0.00  Open    out of service"))
            # of the other end it is no note
            self.assertEqual(said(found, 0, "note"), [])

    def test_notes_of_the_links_that_touch_it(self):
        s = Sheet(unit="LPS")
        for head in (100.0, 60.0, 50.0, 40.0):
            s.junction(head=head)
        s.pipe(1, 0, check_valve=1)
        s.valve("PRV", 1, 2, setting=60.0)
        s.pipe(2, 3, status="FixedClosed")
        found = made(s, [100.0, 60.0, 50.0, 40.0], [0.0] * 4, [-2.6e-6, 0.25, 0.25], statuses=[1, 1, 4])
        holds = "the check valve of link 0 (pipe 1 -> 0) holds: no water runs back"
        misses = "link 1 (PRV 1 -> 2) cannot reach its setting: node 2 has 3.05 m less than the 18.29 m that it is set to"
        carries = "link 2 (pipe 2 -> 3) carries water though it is FixedClosed: Closed shuts a pipe"
        for node, notes in ((0, [holds]), (1, [holds, misses]), (2, [misses, carries]), (3, [carries])):
            self.assertEqual(said(found, node, "note"), notes)
        self.assertTrue(rows(found, 0)[0].endswith("Open    check valve holds"))
        self.assertTrue(rows(found, 2)[0].endswith("lacks 3.05 m of its setting"), rows(found, 2))

    def test_a_tank_and_a_reservoir(self):
        s = Sheet(unit="LPS")
        s.tank(elevation=10.0, head=90.0, min_level=0.0, max_level=20.0)
        s.reservoir(head=100.0)
        s.pipe(1, 0)
        found = made(s, [90.0, 100.0], [0.5, 0.0], [0.5])
        found.at = [0, 1]
        page = pages.page(found, False)
        self.assertIn("\nAt node 0 (tank)\n  elevation 3.05 m, head 27.43 m, pressure 24.38 m, demand 14.16 LPS; water outside its "
                      "levels\n  note    the water in tank 0 stands ", page)
        self.assertIn("\n\nAt node 1 (reservoir)\n  elevation 0.00 m, head 30.48 m, pressure 30.48 m, demand 0.00 LPS\n  link ", page)


class Asking(Folder):
    """Which node is meant."""

    def headings(self, *args):
        status, out, err = desk(*args)
        self.assertEqual(err, "")
        return [line for line in out.splitlines() if line.startswith("At ")]

    def test_the_page_in_the_papers(self):
        status, out, err = desk("--at", "field", "--at", "top", self.path("june.txt"))
        self.assertEqual((status, err), (3, ""))
        self.assertEqual(block_after("docs/DESK.md", "## What touches a node"), out)

    def test_by_name_and_by_number(self):
        text = self.path("june.txt")
        for word in ("field", "3", "  field "):
            self.assertEqual(self.headings("--at", word, text), ["At node 3 (junction field)"])
        for word in ("3", "n3"):
            self.assertEqual(self.headings("--at", word, example("june")), ["At node 3 (junction)"])

    def test_a_name_that_is_a_number_counts_as_a_name(self):
        text = self.path("june.txt", JUNE.replace(b"field", b"0").replace(b"hill", b"-1"))
        for word, heading in (("0", "At node 3 (junction 0)"), ("3", "At node 3 (junction 0)"), ("-1", "At node 4 (reservoir -1)"),
                              ("5", "At node 5 (reservoir pond)")):
            self.assertEqual(self.headings("--at", word, text), [heading])
        other = self.path("june.txt", JUNE.replace(b"field", b"--field"))
        self.assertEqual(self.headings("--at=--field", other), ["At node 3 (junction --field)"])

    def test_several_nodes_in_their_order_and_each_once(self):
        words = ("pond", "3", "field", "0", "pond")
        self.assertEqual(self.headings(*(part for word in words for part in ("--at", word)), self.path("june.txt")),
                         ["At node 5 (reservoir pond)", "At node 3 (junction field)", "At node 0 (junction top)"])

    def test_several_sheets(self):
        status, out, err = desk("--at", "3", self.path("june.txt"), example("june-unrepaired"))
        self.assertEqual((status, err), (3, ""))
        first, second = out.split("\n\n%s: " % example("june-unrepaired"))
        self.assertIn("\nAt node 3 (junction field)\n", first)
        self.assertTrue(second.startswith("solved in 8 trials; these pressures may be sold\n\nAt node 3 (junction)\n"), second)
        self.assertIn("head 35.00 ft, pressure 13.00 psi (30.00 ft), demand 0.2500 cfs\n", second)
        self.assertNotIn("\nNodes\n", out)

    def test_an_unknown_node(self):
        text = self.path("june.txt")
        status, out, err = desk("--at", "field", text, example("june"), self.path("other.txt", JUNE.replace(b"field", b"acre")))
        self.assertEqual(status, 2)
        self.assertEqual(err, "desk: %s: no node is called field; its nodes have no names, only numbers, 0 to 5\n"
                         "desk: %s: no node is called field; there are top, upper, lower, acre, hill, pond\n" % (
                             example("june"), self.path("other.txt")))
        self.assertEqual(out, desk("--at", "field", text)[1].replace("solved", text + ": solved", 1))

    def test_words_that_are_no_node(self):
        for word in ("6", "-1", "03", "+3", "3.0", "FIELD", "node 3", "\u0663", "n3", "9" * 5000):
            status, out, err = desk("--at", word, self.path("june.txt"))
            self.assertEqual((status, out, err.count("\n")), (2, "", 1), word)
            self.assertIn(": no node is called ", err)
            self.assertLess(len(err), 600)
        status, out, err = desk("--at", "a", "--at", "3", "--at", "b", "--at", "a", self.path("june.txt"))
        self.assertEqual((status, out), (2, ""))
        self.assertIn(": no node is called a or b; there are top, ", err)

    def test_in_json_it_is_an_error(self):
        status, out, _ = desk("--json", "--at", "hill", "--at", "x", "--at=pond", example("june"), self.path("june.txt"))
        found = json.loads(out)
        self.assertEqual((status, [one["exit_status"] for one in found], Checker(SCHEMA).faults(found)), (2, [2, 2], []))
        self.assertEqual(found[0]["error"], "%s: no node is called hill or x or pond; its nodes have no names, only numbers, 0 to 5"
                         % example("june"))
        self.assertIn(": no node is called x; there are top,", found[1]["error"])

    def test_a_refused_sheet_is_told_as_always(self):
        # no node can be read in the second, and the third is refused by the solve
        BY_DATA[bytes(80)] = "A 1 0 0 0 0\n"
        self.addCleanup(BY_DATA.pop, bytes(80))
        for sheet in (example("refused"), self.path("zero.sheet", bytes(80)),
                      self.path("hard.txt", JUNE + b"junction x elevation 0 ft")):
            for word in ("0", "nowhere"):
                for args in ((), ("--json",)):
                    asked = desk(*args, "--at", word, sheet)
                    self.assertEqual((asked[0], asked), (1, desk(*args, sheet)))
        status, out, err = desk("--at", "0", example("refused"), example("june-unrepaired"))
        self.assertEqual((status, err), (1, ""))
        self.assertIn("refused.sheet: refused, number 3 at place 168: ", out)
        self.assertIn("\nAt node 0 (junction)\n", out)

    def test_a_lowest_pressure_of_the_command(self):
        status, out, _ = desk("--least", "30.1ft", "--at", "3", example("june-unrepaired"))
        self.assertEqual(status, 3)
        self.assertIn("\n  doubt   hydrant 3 has 13.00 psi (30.00 ft), the lowest allowed is 13.04 psi (30.10 ft)\n", out)
        self.assertNotIn("doubt", desk("--least", "29.9ft", "--at", "3", example("june-unrepaired"))[1])

    def test_the_picture_is_as_always(self):
        pictures = []
        for args in ((), ("--at", "3")):
            picture = os.path.join(self.folder, "june%d.svg" % len(args))
            self.assertEqual(desk(*args, "--plot", picture, example("june"))[0], 3)
            with open(picture, "rb") as file:
                pictures.append(file.read())
        self.assertEqual(pictures[0], pictures[1])

    def test_what_it_does_not_go_with(self):
        sheet, out = example("june"), os.path.join(self.folder, "out")
        for args in (("--at", "3"), ("--at",), (sheet, "--at"), ("--at", "", sheet), ("--at", " \t", sheet),
                     ("--at", "3", "--explain", sheet), ("--at", "3", "--text", sheet),
                     ("--at", "3", "--sheet", self.path("june.txt"), "-o", out),
                     ("--at", "3", "--bookings", self.path("b.csv", b"1,3,1 L/s\n"), sheet)):
            status, said_out, err = desk(*args)
            self.assertEqual((status, said_out), (2, ""), args)
            self.assertIn("desk: error: ", err)
            self.assertNotIn("unrecognized", err)
        self.assertFalse(os.path.exists(out))


class OddNames(Folder):
    ODD = ["\x1b[2J", "a" * 500, "<&>\"'", "\u202eb", "\x7f", "n\u0301"]

    def text(self):
        data = JUNE.decode()
        for name, odd in zip(NAMES, self.ODD):
            data = data.replace(name + " ", odd + " ")
        return self.path("odd.txt", data.encode())

    def test_on_the_page(self):
        for number, name in enumerate(self.ODD):
            for word in (name, str(number)):
                status, out, err = desk("--at", word, self.text())
                self.assertEqual((status, err), (3, ""), name)
                self.assertIn("\nAt node %d (" % number, out)
                self.assertTrue(out.replace("\n", "").isprintable(), name)
                self.assertLess(max(map(len, out.splitlines())), 260)
        self.assertIn("out of \\x1b[2J to aaaaaaaaaaaaaaaaaaaaa...", desk("--at", "0", self.text())[1])

    def test_in_json_they_stand_as_they_are(self):
        _, out, _ = desk("--json", "--at", self.ODD[0], self.text())
        (one,) = json.loads(out)[0]["at"]
        self.assertEqual((one["name"], [touch["other_name"] for touch in one["touching"]]), (self.ODD[0], [self.ODD[1], self.ODD[4]]))

    def test_in_messages(self):
        for word in ("\x1b[31m", "\udcff\x00", "a\nb"):
            status, out, err = desk("--at", word, self.text())
            self.assertEqual((status, out, err.count("\n")), (2, "", 1))
            self.assertTrue(err[:-1].isprintable(), err)
        self.assertIn("no node is called \\x1b[31m; there are \\x1b[2J, aaaa", desk("--at", "\x1b[31m", self.text())[2])


class Json(unittest.TestCase):
    def test_every_kind(self):
        found = named(star(), ["hub"] + ["n%d" % k for k in range(7)])
        one = entry(found, 0)
        self.assertEqual((one["node"], one["name"], one["doubts"], one["grounded_in"]), (0, "hub", [], []))
        self.assertEqual([(touch["link"], touch["starts_here"], touch["other"], touch["other_name"], touch["inflow_cfs"])
                          for touch in one["touching"]],
                         [(k, k % 2 == 0, k + 1, "n%d" % k, k * (1.0 if k % 2 else -1.0)) for k in range(7)])
        self.assertEqual([touch["inflow"] for touch in one["touching"]], [28.317 * touch["inflow_cfs"] for touch in one["touching"]])
        self.assertEqual([touch["set_to"] for touch in one["touching"]],
                         [None, "9.14 m", "6.10 m", "3.05 m", "56.63 LPS", "3.50", "40.00 %"])

    def test_what_is_there_without_it_stays(self):
        found = answer("june-both-repaired")
        (before,) = entries(found)
        found.at = [3, 0]
        (after,) = entries(found)
        self.assertEqual([one["node"] for one in after.pop("at")], [3, 0])
        self.assertEqual(after, before)

    def test_a_sheet_without_names(self):
        one = entry(answer("june-both-repaired"), 3)
        self.assertEqual((one["name"], [touch["other_name"] for touch in one["touching"]]), (None, [None, None]))

    def test_what_does_not_fit_is_seen(self):
        found = answer("june-both-repaired")
        found.at = [3]
        (whole,) = entries(found)
        (one,) = whole["at"]
        touch = one["touching"][0]
        for bad in ([dict(one, node=-1)], [dict(one, colour="red")], [dict(one, doubts=None)], {}, [dict(one, touching=[{}])],
                    [dict(one, touching=[dict(touch, inflow_bits="0")])], [dict(one, touching=[dict(touch, set_to=1.0)])],
                    [{key: one[key] for key in one if key != "grounded_in"}],
                    [dict(one, touching=[{key: touch[key] for key in touch if key != "freed_in"}])]):
            self.assertTrue(Checker(SCHEMA).faults([dict(whole, at=bad)]), bad)

    def test_every_node_of_every_stored_case(self):
        for name in BY_NAME:
            found = answer(name)
            if found.solved:
                found.at = list(range(len(found.nodes)))
                (whole,) = entries(found)
                for one in whole["at"]:
                    self.assertEqual([touch["inflow_cfs_bits"] for touch in one["touching"]],
                                     ["%016x" % bits(-link["flow_cfs"] if link["start"] == one["node"] else link["flow_cfs"])
                                      for link in whole["links"] if one["node"] in (link["start"], link["end"])], name)
                page = pages.page(found, False)
                self.assertEqual(page.count("\nAt node "), len(found.nodes), name)
                self.assertEqual(page.count("  doubt   "), sum(len(one["doubts"]) for one in whole["at"]), name)


class Papers(unittest.TestCase):
    def test_it_is_in_the_readme_and_among_the_changes(self):
        for paper in ("README.md", "CHANGELOG.md"):
            self.assertIn("--at ", read(paper).decode())


if __name__ == "__main__":
    unittest.main()
