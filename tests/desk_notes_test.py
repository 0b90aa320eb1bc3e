"""What the desk says lest an answer be misread, and what to do next."""
import json
import os
import sys
import unittest
import xml.etree.ElementTree as ElementTree

TOP = os.path.dirname(os.path.dirname(os.path.abspath(__file__)))
sys.path[:0] = [TOP, os.path.join(TOP, "tools")]

from coordinator import as_json, pages, pictures
from coordinator.sheet_format import STATUSES, Sheet
from desk_test import BY_NAME, answer, made, row, two


def between(kind="pipe", heads=(100.0, 60.0), status="Open", flow=0.25, in_sheet=None, second=None, **fields):
    """A reservoir and a hydrant at height 10 with a link between them, answered with these heads, status and flow."""
    s = Sheet(unit="LPS")
    s.reservoir(head=heads[0])
    s.junction(elevation=10.0, demand=0.25, **(second or {}))
    s.link(kind, 0, 1, status=in_sheet or status, **fields)
    return made(s, heads, [0.0, 0.25], [flow], statuses=[STATUSES.index(status)])


def tank(elevation, head, lowest, highest):
    s = Sheet(unit="LPS")
    s.tank(elevation=elevation, head=head, min_level=lowest, max_level=highest)
    return made(s, [head], [0.0])


def said(found):
    return [note.words for note in found.notes]


class Notes(unittest.TestCase):
    def check(self, found, words, mark):
        """A note on the page and in JSON, and a mark in a table; none of them where there are no words."""
        self.assertEqual(said(found), [words] if words else [])
        page = pages.page(found, False)
        self.assertEqual(("  note    %s\n" % words in page, mark in page), (bool(words), bool(words)))
        (entry,) = json.loads(as_json.document([found]))
        self.assertEqual([note["words"] for note in entry["notes"]], said(found))

    def test_a_pipe_that_is_fixed_closed_carries_water(self):
        words = "link 0 (pipe 0 -> 1) carries water though it is FixedClosed: Closed shuts a pipe"
        self.check(between(status="FixedClosed"), words, "FixedClosed  carries water\n")
        self.check(between(status="Closed"), "", "carries water")
        self.check(between("TCV", status="FixedClosed"), "", "carries water")

    def test_a_check_valve_that_holds(self):
        words = "the check valve of link 0 (pipe 0 -> 1) holds: no water runs back"
        back = between(heads=(60.0, 100.0), flow=-2.6e-6, check_valve=1)
        self.check(back, words, "Open    check valve holds\n")
        self.assertTrue(json.loads(as_json.document([back]))[0]["links"][0]["check_valve_holds"])
        for other in (between(heads=(60.0, 100.0), flow=-0.25), between(check_valve=1),
                      between(heads=(60.0, 100.0), flow=0.0, check_valve=1, status="Closed")):
            self.check(other, "", "check valve holds")

    def test_a_regulator_that_cannot_reach_its_setting(self):
        # the hydrant's pressure is 50 ft, that is 15.24 m
        found = between("PRV", status="Open", in_sheet="Active", setting=30.0 / 0.3048)
        self.check(found, "link 0 (PRV 0 -> 1) cannot reach its setting: node 1 has 14.76 m less than the 30.00 m that it is "
                   "set to", "lacks 14.76 m of its setting\n")
        shown = " ".join(ElementTree.fromstring(pictures.picture(found)).itertext())
        self.assertIn("-14.8", shown)
        self.assertIn("one that it cannot reach; the figure is what it lacks, in m", shown)
        link = json.loads(as_json.document([found]))[0]["links"][0]
        self.assertEqual(("%.2f" % link["setting"], "%.2f" % link["setting_lack"]), ("30.00", "14.76"))
        for other in (between("PRV", status="Active", setting=50.0), between("PRV", status="FixedOpen", setting=90.0),
                      between("PRV", status="Open", setting=49.0), between("PRV", status="Open", setting=50.09),
                      between("FCV", status="Open", setting=90.0)):
            self.check(other, "", "of its setting")
            self.assertNotIn("cannot reach", pictures.picture(other))

    def test_a_psv_is_measured_at_its_start(self):
        s = Sheet()
        s.junction(elevation=10.0)
        s.junction(elevation=90.0)
        s.valve("PSV", 0, 1, setting=60.0)
        found = made(s, [50.0, 200.0], [0.0, 0.0], [0.0], statuses=[STATUSES.index("Closed")])
        self.assertEqual(said(found), ["link 0 (PSV 0 -> 1) cannot reach its setting: node 0 has 8.67 psi (20.00 ft) less than "
                                       "the 26.00 psi (60.00 ft) that it is set to"])

    def test_a_tanks_levels_count_from_its_elevation(self):
        self.check(tank(100.0, 112.0, 2.0, 20.0), "", "outside its levels")
        self.check(tank(100.0, 120.0, 2.0, 20.0), "", "outside its levels")
        self.check(tank(1.0, 112.0, 0.0, 20.0), "the water in tank 0 stands 33.83 m above its elevation, and its levels, 0.00 "
                   "and 6.10 m, count from there", "water outside its levels")
        self.check(tank(100.0, 112.0, 102.0, 120.0), "the water in tank 0 stands 3.66 m above its elevation, and its levels, "
                   "31.09 and 36.58 m, count from there; they look like heights, so take its elevation from each",
                   "water outside its levels")

    def test_a_demand_out_of_service_is_not_served(self):
        found = between(second={"disabled": 1})
        self.check(found, "node 1 is out of service: its demand of 7.08 LPS is not served",
                   "out of service, demand not served\n")
        low = between(heads=(100.0, 0.0), second={"disabled": 1})
        self.assertNotIn("below 0", pages.page(low, False))

    def test_no_note_of_a_refused_sheet(self):
        self.assertEqual(said(answer("3-end-2")), [])


class Next(unittest.TestCase):
    def test_what_may_be_sold_says_so(self):
        found = between()
        self.assertEqual((found.first_line(), found.mend), ("solved in 3 trials; these pressures may be sold", None))
        self.assertNotIn("  mend  ", pages.page(found, False))

    def test_every_other_answer_says_what_to_do(self):
        for verdict, words in (((4, 1), "finer accuracy"), ((5, 0), "finer accuracy"), ((6, 0), "finer accuracy"),
                               ((8, 1), "let less water be drawn in this hour")):
            found = two(verdict, kind="PRV", setting=49.5)
            self.assertIn(words, found.mend)
            self.assertEqual(pages.page(found, False).splitlines()[1], "  mend    " + found.mend)
            self.assertEqual(json.loads(as_json.document([found]))[0]["mend"], found.mend)
        self.assertIn("other first flows", row(64.0, (-1.0, 0.5)).mend)
        self.assertIn("setting of the valve that was freed", answer("june-both-repaired").mend)
        self.assertIn("join these nodes to a source", answer("june-undetermined").mend)
        for name in BY_NAME:
            self.assertEqual(answer(name).mend is None, answer(name).may_be_sold, name)
            self.assertNotEqual(answer(name).mend, "", name)


if __name__ == "__main__":
    unittest.main()
