"""The desk: its words, tables, JSON and pictures over stored listings, verdicts told, the undetermined junctions,
refusals explained, the text form, and what it does with bad arguments. The proved program is not asked here: its
verdicts are those of the second computation, or made up."""
import ast
import contextlib
import functools
import glob
import io
import json
import os
import re
import shutil
import subprocess
import sys
import tempfile
import unittest
import xml.etree.ElementTree as ElementTree
from unittest import mock

TOP = os.path.dirname(os.path.dirname(os.path.abspath(__file__)))
sys.path[:0] = [TOP, os.path.join(TOP, "tools")]

import sheets
import verdicts
from coordinator import (as_json, asking, causes, listings, network, pages, pictures, refusals, sheet_bounds, sheet_text,
                         unsettled)
from coordinator.answer import Answer, record_words
from coordinator.asking import Reply
from coordinator.drawn import SERVED, allowed
from coordinator.limits import USUAL, Limits, least, within
from coordinator.main import main, parser
from coordinator.sheet_format import STATUSES, Sheet, bits
from coordinator.words import fixed, listed, numbered
from stored import read

# the stored list's listings, with the program that replays them
LISTINGS = "crates/replay/stdout"
CASES = sheets.stored()
TEXTS = listings.split(read(LISTINGS).decode())
BY_NAME = {case.name: (case.data, text) for case, text in zip(CASES, TEXTS)}
BY_DATA = {case.data: text for case, text in zip(CASES, TEXTS)}
BY_DATA[read("examples/refused.sheet")] = "A 3 168 0 0 0\n"
DRY_WEEK = "examples/dry-week"
NOT_FOR_SALE = "; these pressures must not be sold on"
FOR_SALE = "; these pressures may be sold"


@functools.lru_cache(maxsize=None)
def reply(data, text, limits=USUAL):
    """With the verdict of the second computation."""
    return Reply(*verdicts.verdict(data, text, verdicts.Limits(*limits)), text)


def answer_to(name, data, text, limits=USUAL):
    return Answer(name, data, reply(data, text, limits), limits)


def answer(name, limits=USUAL):
    return answer_to(name, *BY_NAME[name], limits)


def made(sheet, heads, drawn, flows=(), trials=3, verdict=(0, 0), limits=USUAL, statuses=None):
    """An answer 0 made up for a sheet: a head and a drawn flow for each node, a flow for each link."""
    statuses = statuses or [1] * len(flows)
    lines = ["A 0 0 %d 0 0" % trials] + ["T ST 0"] * (trials - 1) + ["T OK 0"]
    lines += ["N %d %016x %016x" % (i, bits(head), bits(flow)) for i, (head, flow) in enumerate(zip(heads, drawn))]
    lines += ["L %d %016x %d" % (i, bits(flow), status) for i, (flow, status) in enumerate(zip(flows, statuses))]
    lines += ["B %016x %016x %016x" % (bits(1.0), bits(0.75), bits(0.25))]
    return Answer("made.sheet", sheet.encode(), Reply(*verdict, "\n".join(lines) + "\n"), limits)


def row(*pressures, minimum=0.0, required=64.0, unit="CFS", asked=0.5, limits=USUAL):
    """A reservoir and a row of hydrants at height 10, each asking the same; the answer has these pressures, and
    each draws what its pressure allows, or what stands beside the pressure."""
    s = Sheet(pressures=(minimum, required), unit=unit)
    s.reservoir(head=100.0)
    pairs = [p if isinstance(p, tuple) else (p, allowed(asked, p, s.pd)) for p in pressures]
    for k in range(len(pairs)):
        s.junction(elevation=10.0, demand=asked)
        s.pipe(k, k + 1)
    strays = [k for k, (p, q) in enumerate(pairs, 1) if abs(q - allowed(asked, p, s.pd)) > limits.flow]
    return made(s, [100.0] + [10.0 + p for p, _ in pairs], [0.0] + [q for _, q in pairs], [0.5] * len(pairs),
                verdict=(7, strays[0]) if strays else (0, 0), limits=limits)


def example(name):
    return os.path.join(TOP, "examples", name + ".sheet")


def stored_ask(asked, limits):
    """Stands in for the proved program: the stored listings of stored sheets; any other sheet is refused."""
    return [reply(data, BY_DATA.get(data, "A 8 40 0 0 0\n"), limits) for data in asked]


def desk(*args):
    """What main gives and prints, the program stood in for."""
    out, err = io.StringIO(), io.StringIO()
    with contextlib.redirect_stdout(out), contextlib.redirect_stderr(err):
        try:
            status = main(list(args), stored_ask)
        except SystemExit as end:
            status = end.code
    return status, out.getvalue(), err.getvalue()


def block_after(name, heading):
    """The first fenced block after these words of a document."""
    text = read(name).decode()
    return re.search(r"```\w*\n(.*?)```", text[text.index(heading):], re.S).group(1)


class FirstLines(unittest.TestCase):
    def check(self, name, line, status):
        self.assertEqual((answer(name).first_line(), answer(name).exit_status), (line, status))

    def test_solved_clean(self):
        self.check("june-both-not-repaired", "solved in 8 trials" + FOR_SALE, 0)
        self.check("2-one-reservoir", "solved in 1 trial" + FOR_SALE, 0)

    def test_a_freed_valve(self):
        self.check("june-both-repaired", "solved in 13 trials, but with a repair: "
                   "the PRV at link 2 (2 -> 3) was freed" + NOT_FOR_SALE, 3)

    def test_a_grounded_node(self):
        self.check("B15-no-links", "solved in 2 trials, but with a repair: node 1 was tied to a reservoir "
                   "that is not there; nothing determines the head of node 1" + NOT_FOR_SALE, 3)

    def test_several_repairs(self):
        line = answer("B04-regulator-to-disabled").first_line()
        self.assertIn("with 2 repairs: the PRV at link 0 (1 -> 0) was freed and node 0 was tied", line)

    def test_a_valve_freed_again(self):
        data, text = BY_NAME["june-both-repaired"]
        text = text.replace("A 0 0 13 1 0", "A 0 0 13 2 0").replace("T ST 0", "T VF 2", 1)
        line = answer_to("x", data, text).first_line()
        self.assertIn("but with 2 repairs: the PRV at link 2 (2 -> 3) was freed 2 times;", line)

    def test_undetermined_without_a_repair(self):
        self.check("june-undetermined", "solved in 2 trials, but nothing determines the heads of nodes 1 and 2"
                   + NOT_FOR_SALE, 3)

    def test_refused(self):
        self.check("3-end-2", "refused, number 3 at place 119: link 0 (pipe 0 -> 2): end is 2 but must be "
                   "the number of a node, 0 to 1", 1)

    def test_every_stored_repair_is_in_the_first_line(self):
        for name in BY_NAME:
            found = answer(name)
            if found.solved:
                self.assertEqual(found.first_line().endswith(NOT_FOR_SALE), found.verdict != 0, name)
                self.assertEqual(found.exit_status, 3 if found.verdict else 0, name)
                marks = [mark for mark, _ in found.entries]
                self.assertEqual((marks.count("VF"), marks.count("GN")),
                                 (found.listing.freed, found.listing.grounded), name)
            else:
                self.assertTrue(found.first_line().startswith("refused, number "), name)
                self.assertEqual(found.exit_status, 1, name)


class Pages(unittest.TestCase):
    def test_the_page_in_the_readme(self):
        page = pages.page(answer("june-both-repaired"), False)
        self.assertEqual(block_after("README.md", "./desk examples/june.sheet"), page)

    def test_every_stored_case_has_a_page(self):
        for name in BY_NAME:
            page = pages.page(answer(name), True)
            self.assertTrue(page.startswith(name + ": "), name)
            self.assertTrue(page.endswith("\n") and not page.endswith("\n\n"), name)

    def test_pressure_is_head_less_elevation(self):
        page = pages.page(answer("june-both-not-repaired"), False)
        self.assertRegex(page, r"\n +3  junction +35\.00 +13\.00 +30\.00 +0\.2500\n")

    def test_a_metric_sheet_shows_metres_and_its_flow_unit(self):
        s = Sheet(unit="LPS")
        s.reservoir(head=100.0)
        s.junction(elevation=10.0, demand=1.0)
        s.pipe(0, 1)
        text = "A 0 0 1 0 0\nT OK 0\nN 0 %016x %016x\nN 1 %016x %016x\nL 0 %016x 1\nB %016x %016x %016x\n" % tuple(
            map(bits, (100.0, 0.0, 90.0, 1.0, 1.0, 1.0, 1.0, 0.0)))
        page = pages.page(answer_to("x", s.encode(), text), False)
        self.assertRegex(page, r"\n  node  kind +head m +pressure m +demand LPS\n")
        self.assertRegex(page, r"\n +1  junction +27\.43 +24\.38 +28\.32\n")
        self.assertNotRegex(page, r"\b(ft|cfs)\b")

    def test_a_changed_status_is_marked(self):
        page = pages.page(answer("june-both-repaired"), False)
        self.assertRegex(page, r"\n +2  PRV .* XPressure +changed, was Active, freed\n")
        self.assertRegex(page, r"\n +1  pipe .* Open\n")

    def test_the_record_in_words(self):
        words = record_words(answer("june-both-repaired"))
        self.assertEqual([(first, last) for first, last, _ in words],
                         [(1, 1), (2, 3), (4, 4), (5, 5), (6, 6), (7, 7), (8, 8), (9, 12), (13, 13)])
        self.assertIn("link 2 (PRV 2 -> 3) was freed", words[0][2])
        self.assertEqual(words[1][2], "stepped, not yet converged")
        self.assertEqual(words[2][2], "stepped, not yet converged; the PSV at link 0 opened: its outlet rose above its "
                                      "setting")
        self.assertEqual(words[-1][2], "converged")

    def test_every_cause_in_words(self):
        """Each cause of each kind that has it, in the record and in the links' table."""
        self.assertEqual(set(causes.WORDS), {(kind, cause) for kind in ("PRV", "PSV") for cause in (1, 2, 3, 4)}
                         | {("pipe", 4)})
        for name, words in (("prv-active-under", "the PRV at link 0 opened: its inlet fell below its setting"),
                            ("B16-prv-open-under", "the PRV at link 0 began to regulate: its outlet rose above its setting"),
                            ("prv-reverse-Open-past", "the PRV at link 0 closed: water ran backward through it"),
                            ("prv-closed-inlet-at", "the PRV at link 0 opened again: it had been shut"),
                            ("psv-active-above", "the PSV at link 0 opened: its outlet rose above its setting"),
                            ("psv-open-under", "the PSV at link 0 began to regulate: its inlet fell below its setting"),
                            ("psv-reverse-Active-past", "the PSV at link 0 closed: water ran backward through it"),
                            ("B16-psv-closed-under", "the PSV at link 1 opened again: it had been shut"),
                            ("told-pipe-in-ok", "the pipe at link 0 opened again: it had been shut")):
            found = answer(name)
            page = pages.page(found, False)
            self.assertIn("; " + words + "\n", page, name)
            did, why = causes.deed(found.links, found.changes[0])
            self.assertIn("%s in trial 1: %s\n" % (did, why), page, name)

    def test_a_tank_that_shuts_a_pipe_again(self):
        page = pages.page(answer("told-not-by-tank"), False)
        self.assertIn("TempClosed  changed, was Open, opened again in trial 3: it had been shut, and a tank shut it after that\n",
                      page)

    def test_a_change_in_json(self):
        found = json.loads(as_json.document([answer("told-second")]))[0]
        change = {"cause": 2, "cause_name": "inlet too low", "did": "opened", "why": "its inlet fell below its setting"}
        self.assertEqual([entry["changed"] for entry in found["record"]], [dict(link=1, **change), None])
        self.assertEqual([link["changes"] for link in found["links"]], [[], [dict(trial=1, **change)]])

    def test_what_goes_into_a_tank_is_no_error(self):
        page = pages.page(answer("tank-overflow"), False)
        self.assertIn("\nBalance\n  demand 0.0000 cfs, supply 0.0000 cfs, error 0 cfs\n\nTrials\n", page)

    def test_figures(self):
        self.assertEqual(fixed(-0.0001, 2), "0.00")
        self.assertEqual(fixed(-0.01, 2), "-0.01")
        self.assertEqual(fixed(-1234567890.0, 2), "-1.235e+09")
        self.assertEqual(numbered("node", [4]), "node 4")
        self.assertEqual(numbered("node", [1, 2]), "nodes 1 and 2")
        self.assertEqual(numbered("node", [1, 2, 3, 7]), "nodes 1 to 3 and 7")
        self.assertEqual(listed(["a", "b", "c"]), "a, b and c")


def keys(value):
    """Every key of a JSON value."""
    for key, inner in (value.items() if isinstance(value, dict) else ()):
        yield key
        yield from keys(inner)
    for inner in value if isinstance(value, list) else ():
        yield from keys(inner)


def undocumented(value):
    paper = read("docs/DESK.md").decode()
    return [key for key in keys(value) if not key.endswith("_bits") and "`%s`" % key not in paper]


def picture_words(found):
    root = ElementTree.fromstring(pictures.picture(found))
    return " ".join("".join(element.itertext()) for element in root.iter() if element.tag.endswith("}text"))


def everything(found):
    return pages.page(found, True) + as_json.document([found]) + pictures.picture(found)


class GivingWay(unittest.TestCase):
    """Sheets with a PD: what hydrants ask, draw and lack."""

    def test_what_a_pressure_allows(self):
        pd = {"minimum": 10.0, "required": 74.0}
        for pressure, share in ((-1e9, 0.0), (10.0, 0.0), (26.0, 0.5), (46.0, 0.75), (74.0, 1.0), (1e9, 1.0)):
            self.assertEqual(allowed(2.0, pressure, pd), 2.0 * share)

    def test_the_range_is_a_tenth_of_a_foot_at_least(self):
        for required in (3.0, 3.05):
            pd = {"minimum": 3.0, "required": required}
            self.assertAlmostEqual(allowed(1.0, 3.025, pd), 0.5)
            self.assertEqual(allowed(1.0, 3.2, pd), 1.0)

    def test_only_a_junction_in_service_that_asks_is_a_hydrant(self):
        s = Sheet(pressures=(0.0, 64.0))
        s.junction(demand=1.0)
        s.junction(demand=0.0)
        s.junction(demand=-1.0)
        s.junction(demand=1.0, disabled=1)
        s.reservoir(demand=1.0)
        s.tank(demand=1.0)
        s.junction(demand=2.0)
        found = made(s, [16.0] * 7, [0.5, 0.0, -1.0, 1.0, 1.0, 3.0, 1.0])
        self.assertEqual([(h.asked, h.drawn, h.lack) for h in found.hydrants.values()],
                         [(1.0, 0.5, 0.5), (2.0, 1.0, 1.0)])
        self.assertEqual(list(found.hydrants), [0, 6])

    def check(self, found, line, status):
        self.assertEqual((found.first_line(), found.exit_status), (line, status))

    def test_first_lines(self):
        self.check(row(64.0, 65.0), "solved in 3 trials; every hydrant gets what it asks" + FOR_SALE, 0)
        self.check(row(64.0, 16.0), "solved in 3 trials; 1 hydrant gets less than it asks, worst node 2, which "
                   "lacks 0.2500 of 0.5000 cfs" + FOR_SALE, 0)
        self.check(row(16.0, 0.0, 4.0, unit="LPS"), "solved in 3 trials; 3 hydrants get less than they ask, worst "
                   "node 2, which lacks 14.16 of 14.16 LPS" + FOR_SALE, 0)

    def test_of_equal_lacks_the_lowest_number_is_the_worst(self):
        self.assertIn("2 hydrants get less than they ask, worst node 2,", row(70.0, 16.0, 16.0).first_line())

    def test_the_worst_lacks_most_as_a_flow(self):
        s = Sheet(pressures=(0.0, 64.0))
        s.junction(demand=0.1)
        s.junction(demand=4.0)
        self.assertIn("worst node 1, which lacks 2.0000 of 4.0000", made(s, [1.0, 16.0], [0.0125, 2.0]).first_line())

    def test_what_the_solver_adds_at_full_pressure_is_no_lack(self):
        found = row((200.0, 0.5000014), (64.0, 0.4996))
        self.assertEqual([h.lack for h in found.hydrants.values()], [0.0, 0.0])
        self.assertEqual([h.number for h in row((63.9, 0.4994)).short], [1])

    def test_a_drawn_flow_that_does_not_fit_is_not_for_sale(self):
        line = ("solved in 3 trials, but what %s does not fit the pressure there, worst node %d, which draws %s cfs "
                "where the pressure allows %s cfs" + NOT_FOR_SALE)
        self.check(row(64.0, (-11.0, 0.5)), line % ("1 hydrant draws", 2, "0.5000", "0.0000"), 3)
        self.check(row((64.0, 0.0), 64.0), line % ("1 hydrant draws", 1, "0.0000", "0.5000"), 3)
        self.check(row((16.0, 0.5), (4.0, 0.5), (4.0, 0.5)),
                   line % ("3 hydrants draw", 2, "0.5000", "0.1250"), 3)

    def test_the_tolerance(self):
        # at a quarter of the range half of the demand may be drawn
        wide = USUAL._replace(flow=0.125)
        for drawn, limits, fits in ((0.25, USUAL, True), (0.2509, USUAL, True), (0.2511, USUAL, False),
                                    (0.2489, USUAL, False), (0.375, wide, True), (0.3751, wide, False)):
            (hydrant,) = row((16.0, drawn), limits=limits).hydrants.values()
            self.assertEqual(hydrant.fits, fits, drawn)

    def test_what_counts_as_served_in_the_papers(self):
        self.assertIn("%g of what it asks" % SERVED, read("docs/DESK.md").decode())

    def test_a_repair_and_a_lack_are_both_told(self):
        found = row(64.0, 16.0)
        found.verdict, found.place = 2, 3
        found.entries.append(("GN", 1))
        found.listing.grounded = 1
        self.check(found, "solved in 3 trials; 1 hydrant gets less than it asks, worst node 2, which lacks 0.2500 of "
                   "0.5000 cfs, but with a repair: node 1 was tied to a reservoir that is not there" + NOT_FOR_SALE, 3)

    def test_the_page(self):
        page = pages.page(row(64.0, 16.0, unit="LPS"), False)
        self.assertRegex(page, r"\n +node +kind .*pressure m +drawn LPS\n")
        self.assertIn("\nHydrants\n  no water at a pressure of 0.00 m or below, all that is asked from 19.51 m on\n"
                      "  node  asked LPS  drawn LPS  lacks LPS  lacks %\n"
                      "     1      14.16      14.16       0.00      0.0\n"
                      "     2      14.16       7.08       7.08     50.0\n\n", page)
        self.assertIn("\nBalance\n  asked 28.32 LPS, supply 21.24 LPS, error 7.1 LPS, of which the hydrants lack 7.08 LPS\n", page)
        self.assertIn("does not fit its pressure, which allows 0.0000 cfs\n", pages.page(row((-1.0, 0.5)), False))

    def test_the_json(self):
        (found,) = json.loads(as_json.document([row(64.0, 16.0, (-1.0, 0.5), unit="LPS")]))
        self.assertEqual((found["may_be_sold"], found["exit_status"], found["short"], found["unfit"]),
                         (False, 3, [2], [3]))
        self.assertEqual((found["pressures"]["minimum_ft"], found["pressures"]["required_ft"]), (0.0, 64.0))
        self.assertNotIn("asked_cfs", found["nodes"][0])
        half = found["nodes"][2]
        self.assertEqual([half[key] for key in ("asked_cfs", "drawn_cfs", "lack_cfs", "allowed_cfs", "fits")],
                         [0.5, 0.25, 0.25, 0.25, True])
        self.assertEqual([half[key] for key in ("asked", "drawn", "lack", "allowed")],
                         [28.317 * x for x in (0.5, 0.25, 0.25, 0.25)])
        self.assertEqual(half["drawn_cfs_bits"], half["demand_cfs_bits"])
        self.assertEqual(undocumented(found), [])

    def test_the_picture(self):
        for found, words, missing in (
                (row(64.0, 16.0, unit="LPS"), ("7.08", "in LPS", "drawn"), "does not fit"),
                (row(64.0, (-1.0, 0.5)), ("what it draws does not fit its pressure",), "0.2500"),
                (row(*range(64)[:60]), ("asked and not drawn",), "does not fit")):
            shown = picture_words(found)
            for word in words:
                self.assertIn(word, shown)
            self.assertNotIn(missing, shown)

    def test_the_texts_of_the_dry_week_are_its_sheets(self):
        names = sorted(os.listdir(os.path.join(TOP, DRY_WEEK)))
        self.assertEqual(names, ["%s.%s" % (name, ending) for name in ("fixed-demands", "giving-way", "no-pressure")
                                 for ending in ("sheet", "txt")])
        for name in names[::2]:
            text = read(DRY_WEEK + "/" + name.replace(".sheet", ".txt"))
            self.assertEqual(sheet_text.read_scheme(text)[0], read(DRY_WEEK + "/" + name), name)
            self.assertIn("| dry-week/%s |" % name, read("examples/README.md").decode())

    def test_the_dry_week_is_one_scheme_with_and_without_pressures(self):
        fixed, bends = (read(DRY_WEEK + "/%s.txt" % name).decode().splitlines()
                        for name in ("fixed-demands", "giving-way"))
        self.assertEqual([line for line in bends if line not in fixed], ["pressures  minimum 5 m  required 30 m"])
        self.assertEqual([line for line in bends if not line.startswith("pressures")], fixed)

    def test_the_smallest_sheet_that_must_not_be_sold_is_in_the_papers(self):
        data, _ = sheet_text.read_scheme(block_after("docs/DESK.md", "must not be sold: drawn").encode())
        self.assertEqual(data, read(DRY_WEEK + "/no-pressure.sheet"))
        self.assertEqual(len(data), 186)
        found = answer_to("x", data, "A 0 0 1 0 0\nT OK 0\nN 0 4059000000000000 0000000000000000\n"
                          "N 1 4058c000032f504a 3fefffff23e207b6\nL 0 3fefffff23e207ab 1\n"
                          "B 3ff0000000000000 3fefffff23e207ab 3e9b83bf0aa00000\n")
        line = re.search("`(solved in 1 trial, but what .*?)`", read("docs/DESK.md").decode()).group(1)
        self.check(found, line, 3)

    def test_no_hydrant_at_all(self):
        s = Sheet(pressures=(0.0, 64.0))
        s.reservoir()
        found = made(s, [100.0], [0.0])
        self.check(found, "solved in 3 trials; every hydrant gets what it asks" + FOR_SALE, 0)
        self.assertIn("\nHydrants\n  no water at", everything(found))


def two(verdict, heads=(100.0, 60.0), flow=0.25, unit="LPS", demand=0.25, limits=USUAL, kind="pipe", **fields):
    """A reservoir and a junction at height 10, and what a verdict about them is in the first line."""
    s = Sheet(unit=unit)
    s.reservoir(head=100.0)
    s.junction(elevation=10.0, demand=demand)
    s.link(kind, 0, 1, **fields)
    return made(s, heads, [0.0, demand], [flow], verdict=verdict, limits=limits)


class Verdicts(unittest.TestCase):
    """The program's verdict decides; the words name its place and its figure."""

    def check(self, found, words):
        self.assertEqual(found.first_line(), "solved in 3 trials, but " + words + NOT_FOR_SALE)
        self.assertEqual((found.exit_status, found.may_be_sold), (3, False))
        self.assertIn("must not be sold on", " ".join(picture_words(found).split()))

    def test_sold(self):
        found = two((0, 0))
        self.assertEqual((found.first_line(), found.exit_status, found.may_be_sold), ("solved in 3 trials" + FOR_SALE, 0, True))

    def test_4_a_node_that_does_not_balance(self):
        self.check(two((4, 1), flow=0.5), "at node 1 (junction) what flows in and what is taken differ by 7.1 LPS, "
                   "and 0.028 LPS is allowed")

    def test_5_a_link_that_does_not_keep_its_law(self):
        self.check(two((5, 0)), "the flow of link 0 (pipe 0 -> 1), 7.08 LPS, does not go with the heads "
                   "at its ends, 30.48 and 18.29 m")
        self.check(two((5, 0), unit="CFS"), "the flow of link 0 (pipe 0 -> 1), 0.2500 cfs, does not go with the heads "
                   "at its ends, 100.00 and 60.00 ft")

    def test_6_a_head_that_is_not_held(self):
        self.check(two((6, 0), kind="PRV", setting=49.5), "the head of node 1 is 0.15 m from the one that link 0 "
                   "(PRV 0 -> 1) is set to hold, and 0.03 m is allowed")
        self.check(two((6, 0), kind="PRV", setting=49.5, unit="GPM"), "the head of node 1 is 0.5 ft from the one that link 0 "
                   "(PRV 0 -> 1) is set to hold, and 0.1 ft is allowed")

    def test_8_a_pressure_that_is_too_low(self):
        least = USUAL._replace(lowest=10.0 / 0.3048)
        low = 10.0 + 1.2 / 0.3048
        self.check(two((8, 1), (100.0, low), limits=least),
                   "hydrant 1 has 1.20 m, the lowest allowed is 10.00 m")
        self.check(two((8, 1), (100.0, 10.0 - 39.0 / 0.3048)),
                   "hydrant 1 has -39.00 m, the lowest allowed is 0.00 m")
        self.check(two((8, 1), (100.0, 9.0), demand=0.0, limits=least),
                   "node 1 has -0.30 m, the lowest allowed is 0.00 m")
        # a lowest pressure under 0 lets no pressure under 0 pass
        self.check(two((8, 1), (100.0, 9.0), limits=USUAL._replace(lowest=-5.0)),
                   "hydrant 1 has -0.30 m, the lowest allowed is 0.00 m")

    def test_8_a_pressure_just_below(self):
        found = two((8, 1), (100.0, 59.99999), limits=USUAL._replace(lowest=50.0))
        self.check(found, "hydrant 1 has 15.239997 m, the lowest allowed is 15.240000 m")

    def test_8_several(self):
        found = row(16.0, 4.0, 1.0, limits=USUAL._replace(lowest=10.0))
        found.verdict, found.place = 8, 2
        self.assertIn(", but hydrant 2 has 1.73 psi (4.00 ft), the lowest allowed is 4.33 psi (10.00 ft), and 1 more node "
                      "is too low;", found.first_line())
        page = pages.page(found, False)
        self.assertEqual(page.count("pressure too low\n"), 2)
        self.assertIn("red where it is too low", picture_words(found))

    def test_only_a_verdict_that_speaks_of_heads_names_any(self):
        data, text = BY_NAME["june-undetermined"]
        for verdict, place, nodes in ((3, 1, [1, 2]), (3, 0, [0, 1, 2]), (2, 0, [1, 2]), (8, 1, []), (0, 0, [])):
            found = Answer("x", data, Reply(verdict, place, text))
            self.assertEqual(found.undetermined, nodes)

    def test_7_is_told_even_where_the_desk_finds_none(self):
        found = row(16.0)
        found.verdict, found.place = 7, 1
        self.assertIn("but what node 1 draws does not fit the pressure there;", found.first_line())

    def test_every_verdict_of_the_stored_list_has_words(self):
        seen = set()
        for limits in (USUAL, USUAL._replace(head=0.0), USUAL._replace(head=0.0, flow=0.0),
                       USUAL._replace(flow=1e300, head=0.0)):
            for name in BY_NAME:
                found = answer(name, limits)
                seen.add(found.verdict)
                self.assertNotIn("but ;", found.first_line())
                self.assertEqual(found.first_line().endswith(NOT_FOR_SALE), found.verdict > 1, name)
        self.assertEqual(seen, set(range(9)))

    def test_the_json(self):
        (found,) = json.loads(as_json.document([two((8, 1), (100.0, 9.0), limits=USUAL._replace(lowest=5.0))]))
        self.assertEqual((found["verdict"], found["may_be_sold"]), ({"number": 8, "place": 1}, False))
        self.assertEqual([found["limits"][key] for key in ("lowest_pressure_ft", "head_ft", "flow_cfs")],
                         [5.0, 0.1, 0.001])


class LimitsGiven(unittest.TestCase):
    def test_a_pressure_with_its_unit(self):
        for text, feet in (("10m", 10.0 / 0.3048), ("10 m", 10.0 / 0.3048), ("43.33PSI", 43.33 / 0.4333), ("1e1ft", 10.0),
                           ("-3 ft", -3.0), ("0ft", 0.0)):
            self.assertEqual(least(text), feet)

    def test_tolerances(self):
        for text, found in (("0.2ft", {"head": 0.2}), ("28.317 lps", {"flow": 1.0}), ("3.048m,1cfs", {"head": 10.0, "flow": 1.0}),
                            ("0 cfs , 0 psi", {"head": 0.0, "flow": 0.0})):
            self.assertEqual(within(text), found)

    def refused(self, *args):
        status, out, err = desk(*args, example("june-unrepaired"))
        self.assertEqual((status, out), (2, ""))
        return err.splitlines()[-1]

    def test_what_is_no_limit(self):
        for option, text, words in (
                ("--least", "10", "the line ends where the unit of the lowest pressure is expected"),
                ("--least", "ten m", "ten m is no number, but the figure of the lowest pressure is expected"),
                ("--least", "3lps", "lps is no unit for the lowest pressure; there are ft, m, psi, bar, kPa"),
                ("--least", "nan m", "nan m is no number"), ("--least", "1e999m", "1e999m is too great"),
                ("--least", "", "the line ends where the figure"),
                ("--within", "1", "the line ends where the unit of a tolerance is expected"),
                ("--within", "1ft,2m", "the tolerance of heads is given twice"),
                ("--within", "1furlong", "furlong is no unit for a tolerance; there are ft, m, psi, bar, kPa, CFS,"),
                ("--within", "-1ft", "a tolerance must be 0 or more"),
                ("--within", "1ft,", "the line ends where the figure of a tolerance is expected")):
            self.assertIn(words, self.refused(option + "=" + text))

    def test_they_reach_the_program(self):
        asked = []

        def ask(found, limits):
            asked.append(limits)
            return stored_ask(found, limits)

        with contextlib.redirect_stdout(io.StringIO()):
            for args in ((), ("--least", "10ft"), ("--within", "1ft"), ("--within=2cfs,1ft", "--least=5ft")):
                main([*args, example("june-unrepaired")], ask)
        self.assertEqual(asked, [(0.0, 0.1, 0.001), (10.0, 0.1, 0.001), (0.0, 1.0, 0.001), (5.0, 1.0, 2.0)])

    def test_a_lowest_pressure_makes_the_difference(self):
        self.assertEqual(desk("--least", "29.9ft", example("june-unrepaired"))[0], 0)
        status, out, _ = desk("--least", "30.1ft", example("june-unrepaired"))
        self.assertEqual((status, out.splitlines()[0]), (3, "solved in 8 trials, but hydrant 3 has 13.00 psi (30.00 ft), "
                         "the lowest allowed is 13.04 psi (30.10 ft)" + NOT_FOR_SALE))

    def test_the_usual_ones_in_the_papers(self):
        self.assertTrue("%g ft and %g cfs" % USUAL[1:] in read("docs/DESK.md").decode())
        self.assertIn("%gft,%gcfs (so it is if not given)" % USUAL[1:],
                      " ".join(parser().format_help().split()))


class Program(unittest.TestCase):
    """What the proved program is sent and what it prints."""

    def test_a_question(self):
        asked = asking.question(b"sheet", Limits(1.0, 2.0, 0.5))
        self.assertEqual(asked.hex(), "000000000000f03f" "0000000000000040" "000000000000e03f" "05000000" + b"sheet".hex())

    def test_replies(self):
        self.assertEqual(asking.replies("V 0 0\nA 0 0 1 0 0\nT OK 0\n--\nV 1 3\nA 3 168 0 0 0\n--\n"),
                         [(0, 0, "A 0 0 1 0 0\nT OK 0\n"), (1, 3, "A 3 168 0 0 0\n")])
        self.assertEqual(asking.of_listing("A 1 65549 0 0 0\n"), (1, 1, "A 1 65549 0 0 0\n"))

    def test_what_cannot_be_read_is_told(self):
        output = asking.output
        try:
            for text in ("", "X\n", "V 0 0\n", "A 0 0 1 0 0\n--\n", "V 0 0\nA 8 40 0 0 0\n--\n", "V 1 8\nA 0 0 1 0 0\n--\n",
                         "V 0\nA 0 0 1 0 0\n--\n", "V 0 0\n\n--\n", "V a b\nA 0 0 1 0 0\n--\n",
                         "V 0 0\nA 0 0 1 0 0\n--\n" * 2, "--\n"):
                asking.output = lambda name, data, text=text: text
                with self.assertRaises(asking.NotToBeHad, msg=repr(text)):
                    asking.ask([b"sheet"], USUAL)
                with self.assertRaises(asking.NotToBeHad):
                    asking.output = lambda name, data: "A 0 0 1 0 0\n"
                    asking.ask([bytes(65537)], USUAL)
        finally:
            asking.output = output

    def test_a_question_about_an_evening(self):
        asked = asking.evening_question(asking.Evening(b"sheet", Limits(1.0, 2.0, 0.5), [(0.0, 2.0), (1.0, 0.5)]))
        self.assertEqual(asked.hex(), "000000000000f03f" "0000000000000040" "000000000000e03f" "02000000" "05000000" + b"sheet".hex()
                         + "04000000" "0000000000000000" "0000000000000040" "000000000000f03f" "000000000000e03f")

    def rows(self, text, count=2):
        with mock.patch.object(asking, "output", lambda name, data: {"evening_verdict": text}[name]):
            return asking.ask_rows([asking.Evening(b"sheet", USUAL, [(0.0,)] * count)])

    def test_replies_to_rows(self):
        rows = "R 0\nV 0 0\nA 0 0 1 0 0\nT OK 0\nR 1\nV 1 8\nA 8 40 0 0 0\n--\n"
        self.assertEqual(self.rows(rows), [[(0, 0, "A 0 0 1 0 0\nT OK 0\n"), (1, 8, "A 8 40 0 0 0\n")]])
        self.assertEqual(self.rows("A 3 29 0 0 0\n--\n"), [[(1, 3, "A 3 29 0 0 0\n")] * 2])

    def test_rows_that_cannot_be_read_are_told(self):
        row = "V 0 0\nA 0 0 1 0 0\n"
        for text in ("", "X\n", "--\n", "R 0\n%s--\n" % row, "R 0\n%sR 2\n%s--\n" % (row, row), "R 1\n%sR 0\n%s--\n" % (row, row),
                     "R 0\n%sR 1\nA 0 0 1 0 0\n--\n" % row, "R 0\n%sR 1\n--\n" % row, "R 0\n%sR 1\n%s--\n--\n" % (row, row)):
            with self.assertRaises(asking.NotToBeHad, msg=repr(text)) as trouble:
                self.rows(text)
            self.assertIn("what the program `evening_verdict` printed cannot be read", str(trouble.exception))

    def test_a_sheet_that_is_too_long_for_it(self):
        output = asking.output
        try:
            asking.output = lambda name, data: {"listing": "A 1 0 0 0 0\n"}[name]
            self.assertEqual(asking.ask([bytes(65537)], USUAL), [(1, 1, "A 1 0 0 0 0\n")])
        finally:
            asking.output = output


class Unsettled(unittest.TestCase):
    """Refusal 8: what still moved, by answers that stopped earlier."""

    MAYBE = ("; it may be that a PRV or a PSV changes its status again and again: look at link 1 (PRV 1 -> 2)")

    def setUp(self):
        self.sheet = Sheet(unit="LPS", accuracy=0.001, max_flow_change=2.0, trials=40)
        self.sheet.reservoir(head=100.0)
        self.sheet.junction(demand=0.25)
        self.sheet.junction(demand=0.25)
        self.sheet.pipe(0, 1)
        self.sheet.valve("PRV", 1, 2, setting=20.0)
        self.sheet.pipe(0, 2)

    def refused(self):
        data = self.sheet.encode()
        return Answer("x", data, Reply(1, 8, "A 8 %d 0 0 0\n" % self.sheet.op["trials"]))

    def stopped(self, trials, flows, statuses=(1, 2, 1), verdict=(0, 0)):
        lines = ["A 0 0 %d 0 0" % trials] + ["L %d %016x %d" % (i, bits(q), s)
                                             for i, (q, s) in enumerate(zip(flows, statuses))]
        return Reply(*verdict, "\n".join(lines) + "\n")

    def words(self, *replies):
        return unsettled.words(self.refused(), replies)

    def test_the_sheets_that_are_asked(self):
        found = [sheets.decode(data) for data in unsettled.coarser(self.sheet.encode())]
        self.assertEqual([records[1:] for records in found], [sheets.decode(self.sheet.encode())[1:]] * len(found))
        options = [records[0][2] for records in found]
        self.assertEqual([f["accuracy"] for f in options][:2] + [options[-1]["accuracy"]], [0.01, 0.1, 2.0 ** 40])
        self.assertEqual({f["max_flow_change"] for f in options}, {0.0})
        self.assertEqual({f["trials"] for f in options}, {40})
        self.sheet.op["accuracy"] = 2.0 ** 40
        self.assertEqual(len(unsettled.coarser(self.sheet.encode())), 1)

    def test_flows_and_statuses_between_two_stops(self):
        refused = Reply(1, 8, "A 8 40 0 0 0\n")
        self.assertEqual(
            self.words(refused, self.stopped(30, [0.5, 0.25, 0.1]), self.stopped(9, [0.5005, 0.5, 0.25], (1, 1, 1)),
                       self.stopped(1, [9.0, 9.0, 9.0])),
            "; between trial 9 and trial 30 link 1 (PRV 1 -> 2) went from Open to Active and the flow of links 1 and 2 "
            "moved, most that of link 1 (PRV 1 -> 2), by 7.1 LPS")
        self.assertEqual(
            self.words(self.stopped(30, [0.5, 0.25, 0.1]), self.stopped(9, [0.5 - 2.0 ** -20, 0.25 + 2.0 ** -22, 0.1])),
            "; between trial 9 and trial 30 the flow of links 0 and 1 moved, most that of link 0 (pipe 0 -> 1), by "
            "2.7e-05 LPS")
        self.assertEqual(self.words(self.stopped(30, [0.5, 0.25, 0.1]), self.stopped(9, [0.5, 0.25, 0.1])), self.MAYBE)

    def test_one_stop(self):
        flows = [0.5, 0.25, 0.1]
        self.assertEqual(self.words(self.stopped(1, flows, verdict=(5, 2)), self.stopped(1, flows, verdict=(5, 2))),
                         "; after 1 trial the flow of link 2 (pipe 0 -> 2) does not go with its heads")
        self.assertEqual(self.words(self.stopped(1, flows)), self.MAYBE)
        self.sheet.links.pop(1)
        self.assertEqual(self.words(self.stopped(1, flows)), "")

    def test_no_stop(self):
        refused = Reply(1, 8, "A 8 40 0 0 0\n")
        self.assertEqual(self.words(refused), "; no trial ends it at any accuracy, so a PRV or a PSV changes "
                         "its status again and again: look at link 1 (PRV 1 -> 2)")
        self.sheet.links.pop(1)
        self.assertEqual(self.words(refused), "")

    def test_the_advice_is_not_followed_yet(self):
        flips = ", or give another setting to a PRV or PSV that flips between two statuses"
        self.assertEqual(self.refused().refusal.mend, "allow more trials (up to 200), or set a damping limit, or give the "
                         "links other first flows" + flips)
        self.sheet.op.update(trials=200, damping_limit=0.5)
        self.assertEqual(self.refused().refusal.mend, "give the links other first flows" + flips)
        self.sheet.links.pop(1)
        self.assertEqual(self.refused().refusal.mend, "give the links other first flows")

    def test_it_stands_in_the_first_line(self):
        with tempfile.NamedTemporaryFile(suffix=".sheet") as file:
            file.write(self.sheet.encode())
            file.flush()
            status, out, _ = desk(file.name)
        self.assertEqual(status, 1)
        self.assertTrue(out.startswith("refused, number 8 at place 40: 40 trials gave no answer; no trial ends it"), out)


class Undetermined(unittest.TestCase):
    """One link between a reservoir and a junction; is the junction's head determined?"""

    def beside(self, kind, status, flow=0.5, start="reservoir", **fields):
        s = Sheet()
        s.reservoir(head=100.0)
        s.junction()
        ends = (0, 1) if start == "reservoir" else (1, 0)
        s.link(kind, *ends, status=status, **fields)
        return not network.undetermined(s.nodes, s.links, [STATUSES.index(status)], [flow])

    def conducting(self, kind, **fields):
        return [status for status in STATUSES if self.beside(kind, status, **fields)]

    def test_a_pipe_conducts_save_closed_and_temporarily_closed(self):
        self.assertEqual(self.conducting("pipe"),
                         [s for s in STATUSES if s not in ("Closed", "TempClosed")])

    def test_a_check_valve_that_the_flow_presses_shut(self):
        self.assertTrue(self.beside("pipe", "Open", flow=0.0, check_valve=1))
        self.assertFalse(self.beside("pipe", "Open", flow=-1e-6, check_valve=1))
        self.assertTrue(self.beside("pipe", "Open", flow=-1e-6))

    def test_valves_that_always_conduct_unless_shut(self):
        for kind in ("TCV", "PBV"):
            self.assertEqual(self.conducting(kind), ["Open", "Active", "FixedOpen", "XPressure", "Xhead"])

    def test_a_flow_control_valve_at_its_setting(self):
        self.assertTrue(self.beside("FCV", "Active", flow=0.4, setting=0.5))
        self.assertFalse(self.beside("FCV", "Active", flow=0.5, setting=0.5))
        self.assertTrue(self.beside("FCV", "Open", flow=0.6, setting=0.5))

    def test_a_position_control_valve_at_nought(self):
        self.assertTrue(self.beside("PCV", "Active", setting=1.0))
        self.assertFalse(self.beside("PCV", "Active", setting=0.0))
        self.assertTrue(self.beside("PCV", "FixedOpen", setting=0.0))

    def test_active_regulators_hold_one_end(self):
        self.assertTrue(self.beside("PRV", "Active"))
        self.assertFalse(self.beside("PRV", "Active", start="junction"))
        self.assertFalse(self.beside("PSV", "Active"))
        self.assertTrue(self.beside("PSV", "Active", start="junction"))
        self.assertEqual(self.conducting("PSV"), ["Open", "FixedOpen", "XPressure", "Xhead"])

    def test_a_regulator_out_of_service_holds_nothing(self):
        s = Sheet()
        s.junction()
        s.junction(disabled=1)
        s.valve("PRV", 1, 0)
        self.assertEqual(network.undetermined(s.nodes, s.links, [2], [0.0]), [0])

    def test_through_others(self):
        s = Sheet()
        s.reservoir()
        for k in range(4):
            s.junction()
            s.pipe(k, k + 1)
        self.assertEqual(network.undetermined(s.nodes, s.links, [1, 1, 1, 1], [0.0] * 4), [])
        self.assertEqual(network.undetermined(s.nodes, s.links, [1, 0, 1, 1], [0.0] * 4), [2, 3, 4])

    def test_the_main_of_the_june_sheets(self):
        self.assertEqual(answer("june-undetermined").undetermined, [1, 2])
        self.assertEqual(answer("B11-june-not-repaired").undetermined, [1, 2, 3])
        self.assertEqual(answer("june-both-not-repaired").undetermined, [])

    def test_the_rule_in_the_papers(self):
        """Every sentence of the rule stands in docs/DESK.md too."""
        paper = " ".join(read("docs/DESK.md").decode().split())
        rule = network.__doc__.split("\n\n")[2]
        for item in rule.split("\n- "):
            self.assertIn(" ".join(item.lstrip("- ").split()), paper)


class Refusals(unittest.TestCase):
    def explained(self, name):
        return answer(name).refusal

    def test_every_refused_case_names_its_cause(self):
        for name in BY_NAME:
            found = answer(name)
            if not found.solved:
                self.assertTrue(found.refusal.why and found.refusal.mend, name)
                if found.refusal.number in (3, 4):
                    self.assertTrue(found.refusal.fields, name)
                    self.assertEqual(found.refusal.offset, found.refusal.place, name)

    def test_the_field_is_the_one_that_the_case_changed(self):
        for name, field in (("3-op-accuracy-nan", "accuracy"), ("3-lk-diameter-above", "diameter"),
                            ("3-trials-201", "trials"), ("3-node-overflow-2", "overflow"),
                            ("3-link-status-8", "status"), ("3-resistance-under-zero", "resistance"),
                            ("3-diameter-TCV-under", "diameter"), ("4-PRV-end-tank-Active", "end"),
                            ("4-PSV-start-disabled-Closed", "start"), ("4-self-pipe", "end")):
            self.assertEqual([f for f, _, _ in self.explained(name).fields], [field], name)

    def test_unreadable_sheets(self):
        s = Sheet()
        s.reservoir()
        data = s.encode()
        for sheet, place, words in (
                (data[:20], 0, "the options record is cut short: it has 20 of its 29 bytes"),
                (data[:60], 29, "node 0 is cut short: it has 31 of its 45 bytes"),
                (data + data[:29], 74, "the options record stands out of order: ND or LK may come here"),
                (data + b"XY", 74, "58 59 (hexadecimal) at byte 74 is no record's mark: ND or LK may come here"),
                (b"junction a elevation 3 ft\n", 0, "the file is text and not a sheet"),
                (b"", 0, "the sheet is empty")):
            self.assertEqual(refusals.explain(sheet, 1, place).why, words)

    def test_a_pd_that_cannot_be_read(self):
        s = Sheet(pressures=(0.0, 30.0))
        s.reservoir()
        s.junction()
        s.pipe(0, 1)
        data = s.encode()
        op, pd, node, rest = data[:29], data[29:47], data[47:92], data[92:]
        stands = "the pressures record (PD) stands %s: a PD must stand straight after the OP, once"
        for sheet, place, words in (
                (data[:40], 29, "the pressures record (PD) is cut short: it has 11 of its 18 bytes"),
                (op + pd + pd + node, 47, stands % "there a second time"),
                (op + node + pd + rest, 74, stands % "out of order"),
                (op + node + rest + pd, 168, stands % "out of order"),
                (data + pd, 186, stands % "there a second time"),
                (pd + op + node, 0, stands % "out of order"),
                (op + pd + op, 47, "the options record stands out of order: ND or LK may come here"),
                (op + pd + node[:30], 47, "node 0 is cut short: it has 30 of its 45 bytes"),
                (op + b"XY", 29, "58 59 (hexadecimal) at byte 29 is no record's mark: PD or ND or LK may come here")):
            self.assertEqual(sheet_bounds.reading(sheet), ("R", 1, place))
            self.assertEqual(refusals.explain(sheet, 1, place).why, words)

    def test_a_pd_outside_its_bounds(self):
        finite = "but must be a finite number of at most 2^40 ft in magnitude"
        for pair, fields, words in (
                ((30.0, 20.0), ["required"],
                 "required pressure, 8.67 psi (20.00 ft), is below minimum pressure, 13.00 psi (30.00 ft)"),
                ((float("nan"), 20.0), ["minimum", "required"], "minimum is nan " + finite),
                ((0.0, float("nan")), ["required"], "required is nan " + finite),
                ((0.0, float("inf")), ["required"], "required is inf " + finite),
                ((0.0, float("-inf")), ["required"], "required is -inf " + finite),
                ((0.0, 2.0 ** 41), ["required"], "required is 9.52837e+11 psi (2199023255552.0 ft) " + finite)):
            s = Sheet(pressures=pair)
            s.reservoir()
            found = refusals.explain(s.encode(), 3, 29)
            self.assertEqual([name for name, _, _ in found.fields], fields)
            self.assertTrue(found.why.startswith("the pressures record (PD): " + words), found.why)
            self.assertEqual((found.record, found.offset), ("the pressures record (PD)", 29))

    def test_a_field_outside_its_bounds_in_the_sheets_own_units(self):
        great, finite = 2.0 ** 41, " but must be a finite number of at most 2^40 %s in magnitude"
        op, pd, node, link = "op", "pd", "nodes", "links"
        for unit, where, field, value, words in (
                ("LPS", node, "demand", great, "demand is 6.22697e+13 LPS (2199023255552.0 cfs)" + finite % "cfs"),
                ("CFS", node, "demand", great, "demand is 2199023255552.0 cfs" + finite % "cfs"),
                ("GPM", link, "flow", -great, "flow is -9.8699e+14 GPM (-2199023255552.0 cfs)" + finite % "cfs"),
                ("CMH", node, "elevation", great, "elevation is 6.70262e+11 m (2199023255552.0 ft)" + finite % "ft"),
                ("MGD", node, "head", great, "head is 2199023255552.0 ft" + finite % "ft"),
                ("LPS", node, "head", float("nan"), "head is nan" + finite % "ft"),
                ("LPS", link, "diameter", 0.0005, "diameter is 0.1524 mm (0.0005 ft) but must be at least 2^-10 ft for a valve"),
                ("GPM", link, "diameter", 0.0005, "diameter is 0.0005 ft but must be at least 2^-10 ft for a valve"),
                ("LPS", link, "setting", great, "setting is 6.70262e+11 m (2199023255552.0 ft)" + finite % "ft"),
                ("GPM", link, "setting", great, "setting is 9.52837e+11 psi (2199023255552.0 ft)" + finite % "ft"),
                ("LPS", link, "resistance", -1.0, "resistance is -1.0 but must be 0 or more"),
                ("LPS", op, "max_flow_change", -1.0, "max flow change is -1.0 LPS but must be 0 or more"),
                (11, op, "max_flow_change", -1.0, "max flow change is -1.0 but must be 0 or more"),
                ("LPS", pd, "required", 20.0, "required pressure, 6.10 m, is below minimum pressure, 9.14 m")):
            s = Sheet(unit=unit, pressures=(30.0, 40.0))
            s.reservoir()
            s.junction()
            s.valve("PRV", 0, 1)
            found = getattr(s, where)
            (found[0] if isinstance(found, list) else found)[field] = value
            place = {op: 0, pd: 29, node: s.at_node(0), link: s.at_link(0)}[where]
            with self.subTest(words):
                self.assertEqual(sheet_bounds.reading(s.encode()), ("R", 3, place))
                self.assertIn(": " + words, refusals.explain(s.encode(), 3, place).why)

    def test_an_fcvs_setting_is_a_flow(self):
        s = Sheet(unit="LPS")
        s.reservoir()
        s.junction()
        s.valve("FCV", 0, 1, setting=2.0 ** 41)
        self.assertIn("setting is 6.22697e+13 LPS (2199023255552.0 cfs)", refusals.explain(s.encode(), 3, s.at_link(0)).why)

    def test_places_behind_a_pd(self):
        s = Sheet(pressures=(0.0, 30.0))
        s.reservoir()
        s.junction(demand=1.0)
        s.pipe(0, 1)
        for number, place, offset, words in (
                (6, 1, 92, "at node 1 (junction) the matrix failed"),
                (7, 1, 92, "the head of node 1 (junction) became"),
                (7, 64, 137, "the flow of link 0 (pipe 0 -> 1) became"),
                (7, 257, 92, "the flow drawn at node 1 (junction) became no number, infinite or at least 2^64")):
            found = refusals.explain(s.encode(), number, place)
            self.assertEqual(found.offset, offset)
            self.assertTrue(found.why.startswith(words), found.why)
        self.assertEqual(refusals.explain(s.encode(), 7, 258).why, "what is wrong there cannot be told")

    def test_counts(self):
        self.assertEqual(self.explained("2-65-nodes").why, "the sheet has 65 nodes; 1 to 64 are allowed")
        self.assertEqual(self.explained("2-129-links").why, "the sheet has 129 links; 0 to 128 are allowed")

    def test_refusals_of_the_solve(self):
        self.assertIn("node 1 (junction)", self.explained("B17-46-pbvs").why)
        self.assertIn("the head of node 2", self.explained("7-head").why)
        self.assertIn("the flow of link 0", self.explained("7-flow-at").why)
        self.assertIn("1 trial gave no answer", self.explained("3-trials-1").why)
        self.assertIn("scratch", refusals.explain(b"", 5, 5).why)

    def test_a_refusal_that_cannot_be_explained_is_still_told(self):
        s = Sheet()
        s.reservoir()
        refusal = refusals.explain(s.encode(), 3, 29)
        self.assertEqual(refusal.why, "node 0 (reservoir): which field cannot be told")
        for number, place in ((3, 30), (6, 40), (7, 70), (9, 0)):
            refusal = refusals.explain(s.encode(), number, place)
            self.assertEqual((refusal.number, refusal.place, refusal.why),
                             (number, place, "what is wrong there cannot be told"))


class Json(unittest.TestCase):
    def test_every_stored_case(self):
        for name in BY_NAME:
            (found,) = json.loads(as_json.document([answer(name)]))
            self.assertEqual(found["may_be_sold"], found["exit_status"] == 0, name)
            self.assertEqual("nodes" in found, found["solved"], name)

    def test_bits_are_those_of_the_listing(self):
        (found,) = json.loads(as_json.document([answer("june-both-repaired")]))
        lines = ["N %d %s %s" % (n["node"], n["head_ft_bits"], n["demand_cfs_bits"]) for n in found["nodes"]]
        lines += ["L %d %s %d" % (k["link"], k["flow_cfs_bits"], STATUSES.index(k["status"]))
                  for k in found["links"]]
        b = found["balance"]
        lines += ["B %s %s %s" % (b["demand_cfs_bits"], b["supply_cfs_bits"], b["error_cfs_bits"])]
        self.assertTrue(BY_NAME["june-both-repaired"][1].endswith("\n".join(lines) + "\n"))
        self.assertEqual((found["freed"], found["grounded"], found["undetermined"]), ([2], [], []))

    def test_every_key_is_documented(self):
        for name in ("june-both-repaired", "3-end-2"):
            self.assertEqual(undocumented(json.loads(as_json.document([answer(name)]))), [])


class Pictures(unittest.TestCase):
    def words(self, name):
        return picture_words(answer(name))

    def test_every_stored_case_is_well_formed(self):
        for name in BY_NAME:
            self.assertIn(name, self.words(name))

    def test_axes_units_legend_and_marks(self):
        june = self.words("june-both-repaired")
        for word in ("elevation and head, ft", "pressure in psi", "junction", "reservoir",
                     "PRV at link 2 freed", "must not be sold on", "76.9"):
            self.assertIn(word, " ".join(june.split()))
        self.assertIn("head that nothing determines", self.words("june-undetermined"))
        self.assertIn("grounded", self.words("B15-no-links"))

    def test_the_picture_in_the_papers(self):
        data, text = BY_NAME["june-both-repaired"]
        made = pictures.picture(answer_to("june.sheet", data, text))
        self.assertEqual(read("docs/june.svg").decode(), made)

    def test_a_name_with_signs_of_its_own(self):
        data, text = BY_NAME["june-undetermined"]
        for name in ("<a&b>.sheet", "\x01\udc80.sheet"):
            ElementTree.fromstring(pictures.picture(answer_to(name, data, text)).encode())


class TextForm(unittest.TestCase):
    def mistakes(self, text):
        with self.assertRaises(sheet_text.Mistakes) as caught:
            sheet_text.read_scheme(text.encode())
        return caught.exception.found

    def sheet(self, text):
        data, _ = sheet_text.read_scheme(text.encode())
        return data

    def test_the_example_in_the_papers_is_the_june_sheet(self):
        text = block_after("docs/SHEETS.md", "## One complete example")
        self.assertEqual(self.sheet(text), read("examples/june.sheet"))

    def test_units(self):
        data = self.sheet("options flow-unit LPS max-flow-change 2 LPS accuracy 1e-3\n"
                          "reservoir a head 100 m\njunction b elevation 12 m demand 28.317 lps\n"
                          "PRV a -> b setting 43.33 psi diameter 6 in flow 448.831 gpm\n")
        s = Sheet(unit="LPS", max_flow_change=2.0)
        s.reservoir(head=100.0 / 0.3048)
        s.junction(elevation=12.0 / 0.3048, demand=1.0)
        s.valve("PRV", 0, 1, setting=43.33 / 0.4333, diameter=0.5, flow=1.0)
        self.assertEqual(data, s.encode())

    def test_max_flow_change_is_kept_in_the_flow_unit(self):
        def kept(line):
            return sheets.decode(self.sheet("reservoir a head 9 ft\noptions " + line))[0][2]["max_flow_change"]
        self.assertEqual(kept("max-flow-change 2.3 LPS flow-unit LPS"), 2.3)
        self.assertAlmostEqual(kept("flow-unit GPM max-flow-change 1 cfs"), 448.831)

    def test_flags_statuses_and_every_kind(self):
        data = self.sheet("tank t elevation 9 ft head 12 ft max-level 8 ft min-level 1 ft overflow\n"
                          "junction j elevation 2 ft disabled\njunction k elevation 0 ft\n"
                          "pipe t -> j resistance 1.5 minor-loss 0.5 check-valve status closed flow 1 cfs\n"
                          "FCV t -> k setting 2 cfs diameter 1 ft flow 1 cfs\n"
                          "TCV t -> k setting 3 diameter 1 ft flow 1 cfs\n"
                          "PCV t -> k setting 40 % diameter 1 ft flow 1 cfs\n")
        s = Sheet()
        s.tank(elevation=9.0, head=12.0, max_level=8.0, min_level=1.0, overflow=1)
        s.junction(elevation=2.0, disabled=1)
        s.junction()
        s.pipe(0, 1, resistance=1.5, minor_loss=0.5, check_valve=1, status="Closed")
        s.valve("FCV", 0, 2, setting=2.0)
        s.valve("TCV", 0, 2, setting=3.0)
        s.valve("PCV", 0, 2, setting=40.0)
        self.assertEqual(data, s.encode())

    def test_resistance_from_length_diameter_and_roughness(self):
        data = self.sheet("reservoir a head 9 ft\njunction b elevation 0 ft\n"
                          "pipe a -> b length 1000 ft diameter 0.5 ft roughness 130\n")
        (resistance,) = [f["resistance"] for _, mark, f in sheets.decode(data) if mark == b"LK"]
        self.assertAlmostEqual(resistance, 4.727 * 130 ** -1.852 * 0.5 ** -4.871 * 1000, places=9)

    def test_mistakes_have_their_lines(self):
        self.assertEqual(self.mistakes(
            "# a comment\njunction a\n\nreservoir b head 20\njunction a elevation 3 ft\n"
            "pump a -> b\npipe a -> c resistance 2\npipe a b resistance 2\n"
            "PRV a -> b setting 3 ft diameter 1 ft colour red\n"),
            [(2, "junction needs elevation"),
             (4, "the line ends where the unit of head is expected"),
             (5, "a node is called a already"),
             (6, "pump is no kind of record; there are options, pressures, junction, reservoir, tank, pipe, PRV, "
                 "PSV, PBV, FCV, TCV, PCV"),
             (7, "no node is called c"),
             (8, "`pipe START -> END` is expected, the names of two nodes"),
             (9, "PRV has no colour; it may have setting, diameter, minor-loss, flow, resistance, check-valve, status")])

    def test_figures_that_are_none(self):
        for figure in ("1e", "0x1"):
            self.assertEqual(self.mistakes("reservoir a head %s ft" % figure),
                             [(1, figure[1:] + " is no unit for head; there are ft, m")])
        for figure in ("ten", "nan", "inf", "1_0", "--1", "1.2.3", "\u0661"):
            self.assertEqual(self.mistakes("reservoir a head %s ft" % figure),
                             [(1, figure + " is no number, but the figure of head is expected")])
        self.assertEqual(self.mistakes("reservoir a head 3 psi"),
                         [(1, "psi is no unit for head; there are ft, m")])

    def test_what_the_solver_would_refuse_is_told_by_line(self):
        start = "reservoir a head 9 ft\njunction b elevation 0 ft\n"
        for line, words in (("pipe a -> b resistance -1", "resistance is -1.0 but must be 0 or more"),
                            ("pipe b -> b resistance 1", "its end must be another node than the start"),
                            ("PRV b -> a setting 1 ft diameter 1 ft",
                             "its end must be a junction in service, since a PRV holds the head there"),
                            ("options trials 201", "trials is 201 but must be 1 to 200"),
                            ("options trials 2.5", "trials must be 1 to 200"),
                            ("options flow-unit ACF", "ACF is no flow unit; there are CFS, GPM, MGD, IMGD, "
                             "AFD, LPS, LPM, MLD, CMS, CMH, CMD, L/s, L/min, m3/h, m3/d")):
            self.assertEqual(self.mistakes(start + line), [(3, words)])
        self.assertEqual(self.mistakes(""), [(1, "a sheet needs a node")])
        many = "".join("junction n%d elevation 0 ft\n" % k for k in range(65))
        self.assertEqual(self.mistakes(many), [(65, "a sheet holds at most 64 nodes")])
        self.assertEqual(self.mistakes("options\noptions\n"), [(2, "options were given in line 1 already")])

    def test_the_two_pressures(self):
        rest = "reservoir a head 9 ft\n"
        for line, pair in (("pressures minimum 3 m required 43.33 psi", (3.0 / 0.3048, 43.33 / 0.4333)),
                           ("Pressures required 20 ft minimum -1 ft", (-1.0, 20.0)),
                           ("pressures minimum 0 ft required 0 ft", (0.0, 0.0))):
            s = Sheet(pressures=pair)
            s.reservoir(head=9.0)
            for text in (line + "\n" + rest, rest + line, "options\n" + rest + line):
                self.assertEqual(self.sheet(text), s.encode())

    def test_mistakes_in_the_two_pressures(self):
        for line, words in (
                ("minimum 3 m", "pressures needs required"),
                ("", "pressures needs minimum and required"),
                ("minimum 3 required 4 m", "required is no unit for minimum; there are ft, m, psi, bar, kPa"),
                ("minimum 3 lps required 4 m", "lps is no unit for minimum; there are ft, m, psi, bar, kPa"),
                ("minimum 3 m required", "the line ends where the figure of required is expected"),
                ("minimum 3 m required 4", "the line ends where the unit of required is expected"),
                ("minimum 3 m required nan m", "nan is no number, but the figure of required is expected"),
                ("minimum 3 m minimum 3 m", "minimum is given twice"),
                ("least 3 m", "pressures has no least; it may have minimum, required"),
                ("minimum 3 ft required 2 ft", "required is 0.8666 psi but must be the minimum pressure or more"),
                ("minimum 0 ft required 2e12 ft",
                 "required is 8.666e+11 psi (2000000000000.0 ft) but must be a finite number of at most 2^40 ft in magnitude")):
            self.assertEqual(self.mistakes("reservoir a head 9 ft\npressures " + line), [(2, words)])
        once = "pressures minimum 0 ft required 9 ft\n"
        self.assertEqual(self.mistakes(once + "reservoir a head 9 ft\n" + once),
                         [(3, "pressures were given in line 1 already")])

    def test_not_text(self):
        with self.assertRaises(sheet_text.Mistakes) as caught:
            sheet_text.read_scheme(b"junction a elevation 1 ft\n\xff\xfe")
        self.assertEqual(caught.exception.found, [(2, "this is not text")])


class Package(unittest.TestCase):
    def test_the_desk_needs_nothing_but_its_package(self):
        """Neither tools/, which serves developers, nor anything else of the repository."""
        with tempfile.TemporaryDirectory() as folder:
            shutil.copy(os.path.join(TOP, "desk"), folder)
            shutil.copytree(os.path.join(TOP, "coordinator"), os.path.join(folder, "coordinator"))
            done = subprocess.run([os.path.join(folder, "desk"), "--explain", example("june")], stdout=subprocess.PIPE,
                                  stderr=subprocess.PIPE, universal_newlines=True, check=False)
            self.assertEqual((done.returncode, done.stderr), (0, ""))
        self.assertTrue(done.stdout.lstrip().startswith("0  OP"), done.stdout)


    def test_python_3_9_is_enough(self):
        found = [name for place in ("coordinator/*.py", "tools/*.py", "bindings/python/*.py")
                 for name in glob.glob(os.path.join(TOP, place))]
        self.assertGreater(len(found), 50)
        for name in found + [os.path.join(TOP, "desk")]:
            with open(name, encoding="utf-8") as file:
                ast.parse(file.read(), name, feature_version=(3, 9))


class Command(unittest.TestCase):
    def setUp(self):
        self.folder = tempfile.TemporaryDirectory()
        self.addCleanup(self.folder.cleanup)

    def path(self, name, data=None):
        path = os.path.join(self.folder.name, name)
        if data is not None:
            with open(path, "wb") as file:
                file.write(data)
        return path

    def test_one_sheet(self):
        status, out, err = desk(example("june"))
        self.assertEqual((status, err), (3, ""))
        self.assertTrue(out.startswith("solved in 13 trials, but"))

    def test_several_sheets_are_named_and_one_that_cannot_be_read_counts(self):
        status, out, err = desk(example("june-unrepaired"), self.path("none"), example("refused"))
        self.assertEqual(status, 2)
        self.assertIn("june-unrepaired.sheet: solved in 8 trials; these pressures may be sold\n", out)
        self.assertIn("refused.sheet: refused, number 3 at place 168", out)
        self.assertEqual(err, "desk: %s cannot be read: No such file or directory\n" % self.path("none"))

    def test_the_gravest_counts(self):
        self.assertEqual(desk(example("june-unrepaired"), example("refused"))[0], 1)
        self.assertEqual(desk(example("refused"), example("june"), example("june-unrepaired"))[0], 3)
        self.assertEqual(desk(example("june-unrepaired"))[0], 0)

    def test_nothing_is_written_for_bad_use(self):
        empty = self.path("empty.sheet", b"")
        before = os.listdir(self.folder.name)
        picture = self.path("p.svg")
        for args in ((), ("--nonsense",), ("--json",), (empty,), (self.folder.name,), ("--explain", empty),
                     ("--plot", picture, empty), ("--plot", example("june"), example("june")),
                     ("--plot", picture), ("--sheet", example("june")), ("-o", picture, example("june")),
                     ("--sheet", empty, "-o", picture), ("--explain", "--json", example("june")),
                     ("--sheet", example("june"), "-o", picture)):
            status, out, err = desk(*args)
            self.assertEqual(status, 2, args)
            self.assertTrue(out.startswith("[\n") if "--json" in args else out == "", args)
            self.assertTrue(err, args)
            self.assertEqual(os.listdir(self.folder.name), before, args)

    def test_the_script_itself(self):
        for args, status in (([], 2), ([self.path("none")], 2), (["--help"], 0)):
            done = subprocess.run([os.path.join(TOP, "desk"), *args], stdout=subprocess.PIPE,
                                  stderr=subprocess.PIPE, universal_newlines=True, check=False)
            self.assertEqual(done.returncode, status)
            self.assertEqual(bool(done.stdout), status == 0)
            self.assertEqual(bool(done.stderr), status != 0)

    def test_json_is_one_list(self):
        status, out, _ = desk("--json", example("june"), example("refused"))
        self.assertEqual(status, 3)
        self.assertEqual([found["exit_status"] for found in json.loads(out)], [3, 1])

    def test_one_picture_a_sheet(self):
        one = self.path("one.svg")
        desk("--plot", one, example("june"))
        ElementTree.parse(one)
        desk("--plot", self.path("two.svg"), example("june"), example("refused"))
        ElementTree.parse(self.path("two-1-june.svg"))
        ElementTree.parse(self.path("two-2-refused.svg"))

    def test_explain_is_what_sheets_shows(self):
        status, out, _ = desk("--explain", example("refused"))
        self.assertEqual(status, 0)
        self.assertEqual(out.splitlines(), list(sheets.shown(read("examples/refused.sheet"))))
        self.assertIn("   168  LK 1 pipe 0 -> 7", out)

    def test_a_text_becomes_a_sheet(self):
        text = self.path("june.txt", block_after("docs/SHEETS.md", "## One complete example").encode())
        made = self.path("june.sheet")
        status, out, _ = desk("--sheet", text, "-o", made)
        self.assertEqual(status, 0)
        self.assertIn("  node 3  junction field\n", out)
        self.assertIn("  link 2  PRV lower -> field\n", out)
        with open(made, "rb") as file:
            self.assertEqual(file.read(), read("examples/june.sheet"))

    def test_mistakes_of_a_text_go_to_standard_error(self):
        text = self.path("bad.txt", b"pipe a -> b resistance 1\n")
        status, out, err = desk("--sheet", text, "-o", self.path("bad.sheet"))
        self.assertEqual((status, out), (2, ""))
        self.assertEqual(err, "%s:1: no node is called a\n" % text)
        self.assertFalse(os.path.exists(self.path("bad.sheet")))


if __name__ == "__main__":
    unittest.main()
