"""The second computation of the verdict (tools/verdicts.py): each verdict and each boundary on small sheets, its
coefficients against the original's, and its answers on what the oracle solved."""
import math
import os
import sys
import unittest

ROOT = os.path.dirname(os.path.dirname(os.path.abspath(__file__)))
sys.path[:0] = [ROOT, os.path.join(ROOT, "tools")]

import oracle  # noqa: E402
import sheet_rules  # noqa: E402
import sheets  # noqa: E402
import spread  # noqa: E402
import verdict_measure  # noqa: E402
import stored  # noqa: E402
import verdict_stored  # noqa: E402
import verdicts  # noqa: E402
from coordinator.sheet_format import Dice, STATUSES, Sheet, bits, next_down, next_up  # noqa: E402
from stored import read  # noqa: E402
from verdicts import Limits  # noqa: E402

NAN, INF = math.nan, math.inf
ANY = Limits(-INF, INF, INF)
USUAL = Limits(0.0, 0.1, 0.001)


def listing(heads, drawn, flows, statuses=None, record=("OK 0",)):
    """A listing made up: number 0 with these columns."""
    statuses = statuses or [STATUSES.index("Open")] * len(flows)
    lines = ["A 0 0 %d 0 0" % len(record)] + ["T " + entry for entry in record]
    lines += ["N %d %016x %016x" % (i, bits(h), bits(d)) for i, (h, d) in enumerate(zip(heads, drawn))]
    lines += ["L %d %016x %d" % (i, bits(q), s) for i, (q, s) in enumerate(zip(flows, statuses))]
    return "\n".join(lines + ["B " + " ".join(["0" * 16] * 3)]) + "\n"


def field(kind="pipe", demand=0.0, elevation=10.0, pressures=None, **fields):
    """A reservoir at 100 and a junction, with one link between them."""
    s = Sheet(pressures=pressures)
    s.reservoir(head=100.0)
    s.junction(elevation=elevation, demand=demand)
    s.link(kind, 0, 1, **fields)
    return s


def judged(sheet, limits=ANY, **columns):
    return verdicts.verdict(sheet.encode(), listing(**columns), limits)


def idle(sheet, limits=ANY, head=100.0, flow=0.0, status="Open", drawn=0.0, **more):
    return judged(sheet, limits, heads=[100.0, head], drawn=[0.0, drawn], flows=[flow],
                  statuses=[STATUSES.index(status)], **more)


class Lines(unittest.TestCase):
    """Each line of the rule at its boundary."""

    def at_and_beside(self, verdict, judge, worst, never=None):
        """`judge` takes a tolerance; `worst` is what is measured. `never` is the verdict where nothing is within the
        tolerance, if that is another: the flow's is line 4's too."""
        self.assertEqual(judge(worst), (0, 0))
        self.assertEqual(judge(INF), (0, 0))
        for tolerance in (next_down(worst), 0.0, -0.0):
            self.assertEqual(judge(tolerance), verdict, tolerance)
        for tolerance in (-worst, -INF, NAN):
            self.assertEqual(judge(tolerance), never or verdict, tolerance)

    def test_sold(self):
        self.assertEqual(idle(field()), (0, 0))
        self.assertEqual(idle(field(), Limits(0.0, 0.0, 0.0)), (0, 0))
        # nothing is measured that is not 0, and 0 is within -0.0
        self.assertEqual(idle(field(), Limits(-0.0, -0.0, -0.0)), (0, 0))

    def test_1_a_refusal_has_its_number_for_a_place(self):
        for number, place in ((1, 0), (3, 168), (6, 1), (7, 64), (8, 40)):
            self.assertEqual(verdicts.verdict(b"no sheet", "A %d %d 0 0 0\n" % (number, place), ANY), (1, number))

    def test_2_the_first_repair_of_the_record(self):
        for record, place in ((["ST 0", "VF 0", "GN 1", "OK 0"], 1), (["GN 1", "OK 0"], 0),
                              (["ST 0", "ST 0", "GN 0", "OK 0"], 2)):
            self.assertEqual(idle(field(), record=record), (2, place))
        self.assertEqual(idle(field(), record=["ST 0", "OK 0"]), (0, 0))

    def test_3_what_joins_a_junction_to_a_head(self):
        def joined(kind, status, flow=0.5, **fields):
            return idle(field(kind, **fields), status=status, flow=flow) != (3, 1)
        shut_pipe, shut_valve = ("Closed", "TempClosed"), ("Closed", "TempClosed", "FixedClosed")
        for status in STATUSES:
            self.assertEqual(joined("pipe", status), status not in shut_pipe)
            self.assertEqual(joined("pipe", status, check_valve=1), status not in shut_pipe)
            for kind in ("TCV", "PBV", "PRV"):
                # a PRV holds its end where it is Active
                self.assertEqual(joined(kind, status), status not in shut_valve)
            self.assertEqual(joined("PCV", status, setting=0.0), status in ("Open", "FixedOpen"))
            self.assertEqual(joined("PCV", status, setting=1e-300), status not in shut_valve)
            self.assertEqual(joined("FCV", status, setting=0.5), status in ("Open", "FixedOpen"))
            self.assertEqual(joined("FCV", status, setting=0.6), status not in shut_valve)
        self.assertFalse(joined("pipe", "Open", flow=-1e-6, check_valve=1))
        self.assertTrue(joined("pipe", "Open", flow=-next_down(1e-6), check_valve=1))

    def test_3_a_regulator_that_holds(self):
        s = Sheet()
        for _ in range(3):
            s.junction()
        s.junction(disabled=1)
        s.valve("PSV", 0, 1)
        s.pipe(1, 2)
        columns = dict(heads=[0.0] * 4, drawn=[0.0] * 4, flows=[0.0] * 2)
        # a PSV holds its start alone; a PRV its end, and the way goes on from there
        self.assertEqual(judged(s, statuses=[2, 1], **columns), (3, 1))
        s.links[0]["kind"] = 1
        self.assertEqual(judged(s, statuses=[2, 1], **columns), (3, 0))
        self.assertEqual(judged(s, statuses=[6, 1], **columns), (3, 0))
        s.links[0].update(start=1, end=0)
        s.nodes[1]["disabled"] = 1
        self.assertEqual(judged(s, statuses=[2, 1], **columns), (3, 0))

    def test_3_ways_of_many_links(self):
        s = Sheet()
        for k in range(60):
            s.junction()
        s.reservoir()
        # laid so that each round of a spread along the links reaches one node more
        for k in range(60):
            s.pipe(k, k + 1)
        columns = dict(heads=[0.0] * 61, drawn=[0.0] * 61, flows=[0.0] * 60)
        self.assertEqual(judged(s, **columns), (0, 0))
        self.assertEqual(judged(s, statuses=[1] * 30 + [0] + [1] * 29, **columns), (3, 0))
        s.nodes[40]["disabled"] = 1
        self.assertEqual(judged(s, **columns), (3, 0))

    def test_4_a_junction_in_service_that_does_not_balance(self):
        s = field()
        self.at_and_beside((4, 1), lambda t: idle(s, Limits(-INF, INF, t), flow=0.25, drawn=0.75), 0.5)
        self.at_and_beside((4, 1), lambda t: idle(s, Limits(-INF, INF, t), flow=0.75, drawn=0.25), 0.5)
        # what counts is drawn, not what the sheet asks
        self.assertEqual(idle(field(demand=9.0), Limits(-INF, INF, 0.5), flow=0.25, drawn=0.25), (0, 0))
        s.nodes[1]["disabled"] = 1
        self.assertEqual(idle(s, Limits(-INF, 0.0, 0.0), flow=0.25, drawn=0.75), (0, 0))

    def test_4_a_link_out_of_service_counts_in_the_sum(self):
        s = field()
        s.junction(disabled=1)
        s.pipe(1, 2)
        columns = dict(heads=[100.0] * 3, drawn=[0.0] * 3)
        self.assertEqual(judged(s, Limits(-INF, INF, 0.25), flows=[0.5, 0.25], **columns), (0, 0))
        self.assertEqual(judged(s, Limits(-INF, INF, 0.25), flows=[0.5, 0.125], **columns), (4, 1))

    def test_5_a_link_that_its_law_would_move(self):
        # a PBV: g is 1e8, m is 1e8 times what lacks in head; flows of 0 balance
        s = field("PBV", setting=25.0)
        self.at_and_beside((5, 0), lambda t: idle(s, Limits(-INF, t, 0.0), head=75.5, status="Active"), 0.5)
        self.at_and_beside((5, 0), lambda t: idle(s, Limits(-INF, 0.0, t), head=75.5, status="Active"), 0.5e8,
                           (4, 1))
        self.assertEqual(idle(s, Limits(-INF, NAN, NAN), head=75.5, status="Active"), (4, 1))
        # a link with an end out of service moves nothing
        s.nodes[0]["disabled"] = 1
        s.pipe(s.reservoir(head=75.5), 1)
        self.assertEqual(judged(s, Limits(-INF, 0.0, 0.0), heads=[100.0, 75.5, 75.5], drawn=[0.0] * 3, flows=[0.0, 0.0],
                                statuses=[2, 1]), (0, 0))

    def test_5_one_measure_is_enough(self):
        # a shut valve beside an open pipe: g is 1e-8, and 90 ft would move 9e-7 cfs
        s = field()
        s.valve("TCV", 0, 1, status="Closed")
        columns = dict(heads=[100.0, 10.0], drawn=[0.0, 0.0], flows=[0.0, 0.0], statuses=[2, 0])
        s.links[0].update(kind=3, setting=90.0)
        self.assertEqual(judged(s, Limits(-INF, 90.0, 0.0), **columns), (0, 0))
        self.assertEqual(judged(s, Limits(-INF, 0.0, 9.1e-7), **columns), (0, 0))
        self.assertEqual(judged(s, Limits(-INF, 89.0, 8.9e-7), **columns), (5, 1))

    def test_6_a_held_head(self):
        s = field("PRV", setting=20.0)
        self.at_and_beside((6, 0), lambda t: idle(s, Limits(-INF, t, INF), head=30.5, status="Active"), 0.5)
        self.assertEqual(idle(s, Limits(-INF, 0.0, INF), head=30.5, status="XPressure"), (0, 0))
        s = Sheet()
        s.junction(elevation=10.0)
        s.reservoir(head=5.0)
        s.valve("PSV", 0, 1, setting=20.0)
        self.at_and_beside((6, 0), lambda t: judged(s, Limits(-INF, t, INF), heads=[29.5, 5.0], drawn=[0.0, 0.0],
                                                    flows=[0.0], statuses=[2]), 0.5)

    def test_7_a_drawn_flow(self):
        # asks 2 between 0 and 64 ft: at 16 ft it may draw 1
        s = field("PBV", demand=2.0, pressures=(0.0, 64.0), setting=74.0)
        for drawn, worst in ((1.5, 0.5), (0.5, 0.5), (2.0, 1.0), (0.0, 1.0)):
            self.at_and_beside((7, 1), lambda t, drawn=drawn: self.beside_balance(s, t, 26.0, drawn), worst,
                               (4, 1))
        # beyond both ends of the curve
        s.links[0]["setting"] = 10.0
        self.assertEqual(idle(s, Limits(-INF, 0.0, 0.0), head=90.0, flow=2.0, drawn=2.0, status="Active"), (0, 0))
        s.links[0]["setting"] = 95.0
        self.assertEqual(idle(s, Limits(-INF, 0.0, 0.0), head=5.0, status="Active")[0], 8)

    def beside_balance(self, s, tolerance, head, drawn):
        """What is drawn comes through the PBV, whose law does not ask for a flow."""
        return idle(s, Limits(-INF, INF, tolerance), head=head, flow=drawn, drawn=drawn, status="Active")

    def test_7_the_least_range(self):
        s = field("PBV", demand=1.0, pressures=(3.0, 3.0), setting=100.0 - 13.025)
        heads = dict(head=10.0 + 3.025, status="Active")
        self.assertEqual(idle(s, Limits(-INF, INF, 1e-9), flow=0.5, drawn=0.5, **heads), (0, 0))
        self.assertEqual(idle(s, Limits(-INF, INF, 1e-9), flow=1.0, drawn=1.0, **heads), (7, 1))

    def test_7_only_with_a_pd_and_where_water_is_asked(self):
        columns = dict(head=26.0, flow=0.5, drawn=0.5, status="Active")
        limits = Limits(-INF, INF, 0.0)
        for demand, pressures, verdict in ((2.0, (0.0, 64.0), (7, 1)), (2.0, None, (0, 0)), (0.0, (0.0, 64.0), (0, 0)),
                                           (-2.0, (0.0, 64.0), (0, 0))):
            self.assertEqual(idle(field("PBV", demand=demand, pressures=pressures, setting=74.0), limits, **columns),
                             verdict)

    def test_8_a_pressure_that_is_too_low(self):
        for demand, head, lowest, sold in (
                (1.0, 30.0, 20.0, True), (1.0, 30.0, next_down(20.0), True), (1.0, next_down(30.0), 20.0, False),
                (1.0, 30.0, NAN, False), (1.0, 30.0, INF, False), (1.0, 10.0, -0.0, True), (1.0, 10.0, 0.0, True),
                (1.0, next_down(10.0), -INF, False),
                # where no water is asked only 0 counts
                (0.0, 30.0, 25.0, True), (-0.0, 30.0, NAN, True), (-1.0, 30.0, INF, True), (0.0, 10.0, INF, True),
                (0.0, next_down(10.0), -INF, False), (-1.0, next_down(10.0), -INF, False)):
            found = idle(field(demand=demand), Limits(lowest, INF, INF), head=head)
            self.assertEqual(found, (0, 0) if sold else (8, 1), (demand, head, lowest))
        s = field(elevation=500.0)
        s.nodes[1]["disabled"] = 1
        self.assertEqual(idle(s, Limits(INF, 0.0, 0.0)), (0, 0))

    def test_the_first_line_counts_and_in_it_the_lowest_place(self):
        s = Sheet(pressures=(0.0, 64.0))
        s.reservoir(head=100.0)
        for _ in range(3):
            s.junction(elevation=10.0, demand=1.0)
            s.valve("PRV", 0, len(s.nodes) - 1, setting=20.0)
        s.junction()
        good = dict(heads=[100.0, 74.0, 74.0, 74.0, 100.0], drawn=[0.0, 1.0, 1.0, 1.0, 0.0], flows=[1.0, 1.0, 1.0],
                    statuses=[6, 6, 6])
        self.assertEqual(judged(s, **good), (3, 4))
        s.pipe(0, 4, status="Closed")
        good["flows"].append(0.0)
        good["statuses"].append(1)
        self.assertEqual(judged(s, ANY, **good), (0, 0))
        worse = dict(good, heads=[100.0, 74.0, -9.0, -9.0, 100.0])
        self.assertEqual(judged(s, ANY, **worse), (8, 2))
        self.assertEqual(judged(s, Limits(-INF, INF, 0.5), **worse), (7, 2))
        self.assertEqual(judged(s, Limits(-INF, 1e-9, 0.5), **worse), (5, 0))
        worse["statuses"] = [6, 2, 2, 1]
        self.assertEqual(judged(s, Limits(-INF, 26.1, 0.5), **worse), (6, 1))
        worse["drawn"] = [0.0, 1.0, 1.0, 9.0, 9.0]
        self.assertEqual(judged(s, Limits(-INF, 26.1, 0.5), **worse), (4, 3))
        worse["statuses"] = [6, 2, 0, 0]
        self.assertEqual(judged(s, Limits(-INF, 26.1, 0.5), **worse), (3, 3))
        self.assertEqual(judged(s, Limits(-INF, 26.1, 0.5), record=("ST 0", "VF 1", "OK 0"), **worse), (2, 1))


def question(dice):
    """A link, what surrounds it, and the oracle's line that asks about it."""
    size = dice.choice((1e-7, 1e-6, 1e-4, 0.1, 1.0, 30.0, 1e6))
    q = dice.choice((0.0, -0.0, 1e-6, -1e-6, 2.0 ** -64, dice.between(-size, size), dice.between(-size, size)))
    kind, status = dice.below(7), dice.below(8)
    link = verdicts.Link(kind, dice.below(2) if kind == verdicts.PIPE else 0, status, 0, 1,
                         dice.choice((0.0, 100.0, q, dice.between(-20.0, 130.0), dice.between(0.0, 1.0))),
                         dice.choice((0.0, dice.between(0.0, 10.0))), dice.between(0.01, 2.0),
                         dice.choice((0.0, 1e-8, dice.between(0.0, 0.1), dice.between(0.0, 50.0))), q)
    excess = [dice.choice((0.0, -0.0, dice.between(-2.0, 2.0))) for _ in range(2)]
    floats = [q, link.resistance, link.setting, link.minor_loss, link.diameter, *excess, 7.0, 4.0]
    line = " ".join(["C", str(kind), str(link.check_valve), str(status)] + ["%016x" % bits(x) for x in floats])
    return link, excess, line


class Stored(unittest.TestCase):
    def test_stored_files_are_what_the_generator_makes(self):
        for name, data in verdict_stored.files().items():
            with self.subTest(name):
                self.assertEqual(stored.read(name), data)

    def test_every_verdict_is_reached(self):
        lines = stored.read("crates/verdict/stdout").decode("ascii").splitlines()
        self.assertEqual({line.split()[1] for line in lines if line.startswith("V ")}, set("012345678"))


class Stands(unittest.TestCase):
    """With the oracle's answers."""

    @classmethod
    def setUpClass(cls):
        if oracle.lacking():
            raise unittest.SkipTest("to build the oracle there is lacking: " + ", ".join(oracle.lacking()))
        status, said = oracle.build("recipe")
        if status != 0:
            raise AssertionError(said)

    def verdict(self, sheet, limits=USUAL):
        data = sheet if isinstance(sheet, bytes) else sheet.encode()
        return verdicts.verdict(data, oracle.run("recipe", data), limits)

    def test_coefficients_are_the_originals(self):
        asked = [question(Dice(16, i)) for i in range(5000)]
        said = oracle.run("recipe", "\n".join(line for _, _, line in asked).encode(), "--parts").splitlines()
        self.assertEqual(len(said), len(asked))
        for (link, excess, line), answer in zip(asked, said):
            found = verdicts.coefficients(link, link.flow, link.status, *excess)
            self.assertEqual(["%016x" % bits(x) for x in found], answer.split(" ")[:2], line)

    def test_each_verdict(self):
        uphill = field(elevation=110.0, demand=1.0, flow=1.0)
        whole = field(elevation=110.0, demand=1.0, flow=1.0, pressures=(0.0, 30.0))
        for sheet, limits, verdict in (
                (field(demand=0.4), USUAL, (0, 0)),
                (sheets.one("3-trials-201"), USUAL, (1, 3)),
                (sheets.one("B17-46-pbvs"), USUAL, (1, 6)),
                (sheet_rules.june(0.02, True, True), USUAL, (2, 0)),
                (sheet_rules.june(0.03, field_elevation=-35.0), USUAL, (3, 1)),
                (sheet_rules.june(0.03, True, True), USUAL, (0, 0)),
                (whole, USUAL, (7, 1)),
                (uphill, USUAL, (8, 1)),
                (field(demand=0.4), Limits(95.0, 0.1, 0.001), (8, 1))):
            self.assertEqual(self.verdict(sheet, limits), verdict)

    def test_a_coarse_accuracy_is_not_sold(self):
        s = field(demand=0.4, resistance=20.0)
        s.op["accuracy"] = 1000.0
        self.assertEqual(self.verdict(s), (5, 0))
        s.op["accuracy"] = 0.001
        self.assertEqual(self.verdict(s), (0, 0))

    def test_no_bare_june_pair_is_sold(self):
        data = spread.june_family()
        found = spread.june_verdicts(data, oracle.listings("recipe", data))
        self.assertEqual(found, spread.JUNE_VERDICTS)
        for count in (len(data), *found.values()):
            self.assertTrue("{:,}".format(count) in read("docs/DESK.md").decode(), count)

    def test_limits_at_what_is_measured(self):
        """Each line of the rule with the tolerance at the worst that an answer shows, and just below."""
        seen = set()
        data = [case.data for kind in ("real", "pd-real") for case in sheets.generate(kind, 1603, 300)]
        for sheet, text in zip(data, oracle.listings("recipe", data)):
            hour = verdicts.Hour(sheet, text)
            if verdict_measure.good(hour):
                seen |= self.beside(sheet, text, hour)
        self.assertEqual(seen, {4, 5, 6, 7, 8})

    def beside(self, data, text, hour):
        worst = {
            4: max([abs(e) for _, e in verdicts.balances(hour)], default=0.0),
            6: max([abs(gap) for _, gap in verdicts.held_heads(hour)], default=0.0),
            7: max([abs(gap) for _, gap in verdicts.strays(hour)], default=0.0),
            8: min([hour.pressure(i) for i in hour.junctions() if hour.nodes[i].demand > 0], default=0.0)}
        free = verdicts.verdict(data, text, ANY)
        limits = {4: lambda x: Limits(-INF, INF, x), 6: lambda x: Limits(-INF, x, INF),
                  7: lambda x: Limits(-INF, INF, x), 8: lambda x: Limits(x, INF, INF)}
        # line 7 shares its tolerance with line 4
        shown = {line for line, x in worst.items() if x > 0 and (line != 7 or x > worst[4])
                 and (line != 8 or free == (0, 0))}
        for line in shown:
            x = worst[line]
            beyond = next_up(x) if line == 8 else next_down(x)
            self.assertNotEqual(verdicts.verdict(data, text, limits[line](x))[0], line)
            self.assertEqual(verdicts.verdict(data, text, limits[line](beyond))[0], line)
        moved = max([abs(m) for _, m, g in verdicts.moves(hour) if g], default=0.0)
        if moved > worst[4]:
            self.assertNotEqual(verdicts.verdict(data, text, Limits(-INF, 0.0, moved))[0], 5)
            self.assertEqual(verdicts.verdict(data, text, Limits(-INF, 0.0, next_down(moved)))[0], 5)
            shown.add(5)
        return shown


if __name__ == "__main__":
    unittest.main()
