"""The judge: the stored list, the examples, and the oracle where it can be built.

Without the Rust sources (../shared) or cargo, the stored list and the generator
are checked against each other and against document 01 alone.
"""
import os
import re
import subprocess
import sys
import unittest

ROOT = os.path.dirname(os.path.dirname(os.path.abspath(__file__)))
sys.path[:0] = [ROOT, os.path.join(ROOT, "tools")]

import oracle  # noqa: E402
import power_tables  # noqa: E402
import sheets  # noqa: E402
from coordinator.sheet_format import LINK_KINDS, STATUSES, Sheet, decode  # noqa: E402

LIST = os.path.join(ROOT, "crates", "replay")
EXAMPLES = os.path.join(ROOT, "examples")


EXAMPLE = """A 0 0 2 0 1
T GN 1
T OK 0
N 0 4059000000000000 0000000000000000
N 1 0000000000000000 0000000000000000
B 0000000000000000 0000000000000000 0000000000000000
"""


def read(path):
    with open(path, "rb") as file:
        return file.read()


def stored_text():
    return read(os.path.join(LIST, "stdout")).decode("ascii")


def balance(data, flows):
    """Demand, supply and error by the rules: the demand of junctions in service, in node order; the supply as
    in the Rust's `flow_balance`."""
    nodes, links = records(data, b"ND"), records(data, b"LK")
    demand = supply = 0.0
    for node in nodes:
        if node["kind"] == 0 and not node["disabled"]:
            demand += node["demand"]
    for link, flow in zip(links, flows):
        if nodes[link["end"]]["kind"] != 0:
            supply -= flow
        if nodes[link["start"]]["kind"] != 0:
            supply += flow
    return demand, supply, demand - supply


def records(data, wanted):
    return [fields for _, mark, fields in decode(data) if mark == wanted]


def bends(node):
    return node["kind"] == 0 and not node["disabled"] and node["demand"] > 0


def copied(data, flows):
    """(node, what it draws) for each node whose demand does not bend: a tank in service its net inflow, links
    that end at it first, else what the sheet asks."""
    links = list(zip(records(data, b"LK"), flows))
    for i, node in enumerate(records(data, b"ND")):
        if node["kind"] == 2 and not node["disabled"]:
            inflow = 0.0
            for side, sign in (("end", 1.0), ("start", -1.0)):
                for link, flow in links:
                    inflow += sign * flow if link[side] == i else 0.0
            yield i, inflow
        elif not bends(node):
            yield i, node["demand"]


class StoredList(unittest.TestCase):
    @classmethod
    def setUpClass(cls):
        cls.cases = sheets.stored()
        cls.texts = oracle.split(stored_text())
        cls.answers = {case.name: oracle.Listing(text)
                       for case, text in zip(cls.cases, cls.texts)}

    def test_the_generator_makes_it_anew(self):
        made = sheets.pack_many(case.data for case in self.cases)
        self.assertEqual(read(os.path.join(LIST, "stdin")), made)

    def test_one_listing_a_case(self):
        self.assertGreaterEqual(len(self.cases), 400)
        self.assertEqual(len(self.texts), len(self.cases))
        self.assertEqual(len(self.answers), len(self.cases), "a name is used twice")

    def test_answers_that_document_01_states(self):
        stated = [case for case in self.cases if case.answer]
        self.assertGreater(len(stated), 300)
        for case in stated:
            found = self.answers[case.name]
            self.assertEqual((found.number, found.place), case.answer, case.name)
            if case.record is not None:
                self.assertEqual(found.record, case.record, case.name)

    def test_shape_of_each_listing(self):
        for case in self.cases:
            found = self.answers[case.name]
            marks = [entry[:2] for entry in found.record]
            counts = (len(marks), marks.count("VF"), marks.count("GN"))
            self.assertEqual((found.trials, found.freed, found.grounded), counts, case.name)
            if found.number == 0:
                kinds = [mark for _, mark, _ in decode(case.data)]
                self.assertEqual(len(found.heads), kinds.count(b"ND"), case.name)
                self.assertEqual(len(found.flows), kinds.count(b"LK"), case.name)
                self.assertEqual(marks[-1], "OK", case.name)
                self.assertIsNotNone(found.balance, case.name)
            else:
                self.assertEqual((found.heads, found.flows), ([], []), case.name)
                self.assertIsNone(found.balance, case.name)
                self.assertNotIn("OK", marks, case.name)

    def test_what_each_entry_tells(self):
        """Document 02, [2]: an ST or OK names a link in service of its sheet, of a kind that has the cause; an OK tells
        no change that would have kept it from converging; and the list has every cause of every kind."""
        has = {(kind, cause) for kind in (1, 2) for cause in (1, 2, 3, 4)} | {(0, 4)}
        seen, in_ok = set(), set()
        for case in self.cases:
            told = [entry.split() for entry in self.answers[case.name].record]
            for mark, number in ((mark, int(number)) for mark, number in told if mark in ("ST", "OK")):
                if number == 0:
                    continue
                links, nodes = records(case.data, b"LK"), records(case.data, b"ND")
                link = links[number % 256 - 1]
                self.assertFalse(nodes[link["start"]]["disabled"] or nodes[link["end"]]["disabled"], case.name)
                seen.add((link["kind"], number // 256))
                in_ok |= {number // 256} if mark == "OK" else set()
        self.assertEqual(seen, has)
        self.assertEqual(in_ok, {4})

    def test_balance_of_each_listing(self):
        for case in self.cases:
            found = self.answers[case.name]
            if found.number == 0:
                self.assertEqual(found.balance, balance(case.data, found.flows), case.name)

    def test_every_number_and_mark(self):
        # 5 is about lent buffers: no sheet alone gives it
        self.assertEqual({a.number for a in self.answers.values()}, {0, 1, 2, 3, 4, 6, 7, 8})
        marks = {entry[:2] for a in self.answers.values() for entry in a.record}
        self.assertEqual(marks, {"VF", "GN", "SG", "NF", "OK", "ST"})

    def test_every_link_kind_at_every_status(self):
        solved = set()
        for case in self.cases:
            if self.answers[case.name].number == 0:
                solved |= {(f["kind"], f["status"]) for f in records(case.data, b"LK")}
        self.assertEqual(len(solved), len(LINK_KINDS) * len(STATUSES))

    def test_freed_and_grounded_in_one_solve(self):
        both = [a for a in self.answers.values() if a.number == 0 and a.freed and a.grounded]
        self.assertGreater(len(both), 1)
        self.assertEqual(self.answers["B04-regulator-to-disabled"].record, ["VF 0", "GN 0", "OK 0"])

    def test_repair_in_the_last_allowed_trial(self):
        for name, mark in (("B26-last-trial-freed", "VF"), ("B26-last-trial-grounded", "GN"),
                           ("B26-example-one-trial", "GN")):
            found = self.answers[name]
            self.assertEqual(found.number, 8, name)
            self.assertEqual(found.record[-1][:2], mark, name)
            self.assertGreater(found.freed + found.grounded, 0, name)

    def test_june(self):
        repaired, passed = self.answers["B11-june-repaired"], self.answers["B11-june-not-repaired"]
        self.assertEqual(repaired.record[0], "VF 2")
        self.assertEqual((passed.number, passed.freed, passed.grounded), (0, 0, 0))
        # the same pair with its wrong and its right pressure below the PRV
        wrong, right = self.answers["june-both-repaired"], self.answers["june-both-not-repaired"]
        self.assertGreater(wrong.heads[3], 180.0)
        self.assertAlmostEqual(right.heads[3], 35.0, places=6)
        loose = self.answers["june-undetermined"]
        self.assertEqual((loose.freed, loose.grounded, loose.statuses), (0, 0, [2, 1, 2]))

    def test_singular_and_out_of_range(self):
        self.assertEqual(self.answers["B17-46-pbvs"].record, ["GN 1", "SG 1"])
        self.assertEqual(self.answers["7-flow-at"].place, 64)
        self.assertEqual(self.answers["7-head"].place, 2)

    def test_every_open_point_that_a_sheet_can_show(self):
        shown = {name[:3] for name in self.answers if name[0] == "B"}
        # docs/DECISIONS.md says why no sheet can show these
        missing = {"B%02d" % n for n in range(1, 31)} - shown
        self.assertEqual(missing, {"B20", "B21", "B24"})

    def test_papers_name_cases_that_exist(self):
        folder = os.path.join(ROOT, "docs")
        text = "".join(read(os.path.join(folder, name)).decode("utf-8")
                       for name in sorted(os.listdir(folder)) if name.endswith(".md"))
        cited = set(re.findall(r"\bB[0-3][0-9]-[\w-]+", text))
        self.assertGreater(len(cited), 20)
        self.assertEqual(cited - set(self.answers), set())

    def test_status_codes_in_the_links_lines(self):
        self.assertEqual(self.answers["B22-status-codes"].statuses, list(range(8)))


class UnderPressure(unittest.TestCase):
    """The cases of the stored list that have a PD, by the oracle's answers."""

    @classmethod
    def setUpClass(cls):
        pairs = zip(sheets.stored(), oracle.split(stored_text()))
        found = [(case, oracle.Listing(text)) for case, text in pairs if case.data[29:31] == b"PD"]
        cls.answers = {case.name: answer for case, answer in found}
        cls.solved = [(case, answer) for case, answer in found if answer.number == 0]

    def drawn(self):
        """(asked, drawn) of each demand that bends."""
        for case, answer in self.solved:
            for node, demand in zip(records(case.data, b"ND"), answer.demands):
                if bends(node):
                    yield node["demand"], demand

    def test_every_number_place_and_mark(self):
        self.assertGreater(len(self.answers), 300)
        answers = self.answers.values()
        self.assertEqual({a.number for a in answers}, {0, 1, 2, 3, 4, 6, 7, 8})
        columns = {(a.place >= 64) + (a.place >= 256) for a in answers if a.number == 7}
        self.assertEqual(columns, {0, 1, 2})
        marks = [entry[:2] for a in answers for entry in a.record]
        self.assertEqual(set(marks), {"VF", "GN", "SG", "NF", "OK", "ST"})
        self.assertGreater(min(marks.count("VF"), marks.count("GN")), 10)

    def test_every_measure_of_supply(self):
        pairs = list(self.drawn())
        near = 1e-5
        for least, kind in (
                (100, lambda asked, drawn: near < drawn < 0.99 * asked),
                (100, lambda asked, drawn: abs(drawn - asked) < near),
                (100, lambda asked, drawn: abs(drawn) < near),
                (1, lambda asked, drawn: drawn == asked),
                (1, lambda asked, drawn: drawn == 0.0),
                # a little over and a little back, at the ends of the curve
                (50, lambda asked, drawn: asked < drawn < asked + near),
                (50, lambda asked, drawn: -near < drawn < 0.0)):
            self.assertGreaterEqual(sum(kind(*pair) for pair in pairs), least)

    def test_every_kind_of_sheet(self):
        pairs = [records(case.data, b"PD")[0] for case, _ in self.solved]
        self.assertGreater(sum(pair["minimum"] == pair["required"] for pair in pairs), 10)
        self.assertGreater(sum(pair["minimum"] < 0 for pair in pairs), 10)
        nodes = [node for case, _ in self.solved for node in records(case.data, b"ND")]
        for kind in (lambda n: n["kind"] == 2 and not n["disabled"], lambda n: n["kind"] == 1 and n["demand"] > 0,
                     lambda n: n["disabled"] and n["demand"] > 0, lambda n: n["kind"] == 0 and n["demand"] < 0,
                     lambda n: n["kind"] == 0 and n["demand"] == 0):
            self.assertGreater(sum(map(kind, nodes)), 5)
        kinds = {(f["kind"], f["status"]) for case, _ in self.solved for f in records(case.data, b"LK")}
        self.assertGreaterEqual(len(kinds), 50)

    def test_what_does_not_bend_is_copied(self):
        count = 0
        for case, answer in self.solved:
            for node, drawn in copied(case.data, answer.flows):
                self.assertEqual(answer.demands[node], drawn, (case.name, node))
                count += 1
        self.assertGreater(count, 500)

    def test_whole_demand_at_no_pressure(self):
        first, later = self.answers["pd-whole-at-no-pressure"], self.answers["pd-none-at-no-pressure"]
        self.assertEqual((first.record, len(sheets.one("pd-whole-at-no-pressure"))), (["OK 0"], 186))
        self.assertLess(first.heads[1], 0.0)
        self.assertAlmostEqual(first.demands[1], 0.5, places=5)
        self.assertAlmostEqual(later.demands[1], 0.0, places=5)
        second = self.answers["pd-whole-at-second-trial"]
        self.assertEqual(second.record, ["ST 769", "OK 0"])  # the PRV sets in: its outlet is too high
        self.assertAlmostEqual(second.heads[1], 10.0, places=6)
        self.assertAlmostEqual(second.demands[1], 0.5, places=5)

    def test_nothing_drawn_at_pressure(self):
        found = self.answers["pd-none-at-pressure"]
        self.assertAlmostEqual(found.heads[1] - 60.0, 40.0, places=4)
        self.assertAlmostEqual(found.demands[1], 0.0, places=5)

    def test_a_demand_stands_for_a_ground(self):
        alone = self.answers["pd-not-grounded"]
        self.assertEqual((alone.heads, alone.demands, alone.grounded), ([12.0], [0.0], 0))

    def test_balance_is_of_what_is_asked(self):
        short = self.answers["pd-short"]
        self.assertEqual(short.balance[0], 0.5)
        self.assertAlmostEqual(short.balance[2], 0.5 - short.demands[1], places=5)


class Tools(unittest.TestCase):
    def test_a_sheet_written_and_read(self):
        s = Sheet(accuracy=0.01, trials=7, unit="LPS")
        source = s.reservoir(head=80.0)
        field = s.junction(elevation=3.0, demand=0.25)
        valve = s.valve("PRV", source, field, setting=20.0)
        found = decode(s.encode())
        self.assertEqual([(at, mark) for at, mark, _ in found],
                         [(0, b"OP"), (29, b"ND"), (74, b"ND"), (119, b"LK")])
        self.assertEqual(s.at_link(valve), 119)
        self.assertEqual(found[0][2], s.op)
        self.assertEqual([f for _, mark, f in found if mark == b"ND"], s.nodes)
        self.assertEqual([f for _, mark, f in found if mark == b"LK"], s.links)
        self.assertEqual((found[0][2]["unit"], found[3][2]["kind"], found[3][2]["status"]), (5, 1, 2))
        self.assertEqual(decode(s.encode()[:-1])[-1][:2], (119, None))

    def test_a_seed_is_a_sheet(self):
        for kind in ("boundary", *sheets.MAKERS):
            count = 800 if kind == "boundary" else 20
            first = [case.data for case in sheets.generate(kind, 1, count)]
            self.assertEqual(first, [case.data for case in sheets.generate(kind, 1, count)])
            self.assertNotEqual(first, [case.data for case in sheets.generate(kind, 2, count)])

    def test_examples_are_written_anew(self):
        named = {name + ".sheet" for name in sheets.EXAMPLES}
        self.assertEqual({name for name in os.listdir(EXAMPLES) if name.endswith(".sheet")}, named)
        text = read(os.path.join(EXAMPLES, "README.md")).decode("utf-8")
        for name, sheet in sheets.EXAMPLES.items():
            self.assertEqual(read(os.path.join(EXAMPLES, name + ".sheet")), sheet.encode(), name)
            self.assertIn(name + ".sheet", text)
        self.assertEqual(len(read(os.path.join(EXAMPLES, "document01.sheet"))), 119)

    def test_power_tables_are_written_anew(self):
        self.assertEqual(read(power_tables.rust_file()).decode("ascii"), power_tables.rust_text())

    def test_no_sources_nothing_built(self):
        done = subprocess.run([os.path.join(ROOT, "oracle", "build.sh")], stdout=subprocess.PIPE,
                              stderr=subprocess.PIPE, universal_newlines=True, check=False,
                              env=dict(os.environ, ORACLE_SOURCES=os.path.join(ROOT, "nowhere")))
        self.assertEqual((done.returncode, done.stdout), (3, ""))
        self.assertIn("nothing is built", done.stderr)


class Oracle(unittest.TestCase):
    @classmethod
    def setUpClass(cls):
        if oracle.lacking():
            reason = ("no oracle is built: %s not there; the stored list stands alone"
                      % " and ".join(oracle.lacking()))
            print(reason, file=sys.stderr)
            raise unittest.SkipTest(reason)
        status, cls.said = oracle.build("recipe", "plain")
        if status != 0:
            raise AssertionError(cls.said)

    def test_substitutions_are_printed(self):
        recipe, plain = self.said.split("plain:\n")
        self.assertEqual([recipe.count(" %s " % s) for s in ("S1", "S2", "S3", "S4", "S5")], [1, 1, 1, 4, 1])
        self.assertEqual([plain.count(" %s " % s) for s in ("S1", "S2", "S3", "S4", "S5")], [1, 1, 0, 0, 0])

    def test_the_whole_list(self):
        data = read(os.path.join(LIST, "stdin"))
        found, stored = oracle.run("recipe", data, "--many"), stored_text()
        if found != stored:
            for case, a, b in zip(sheets.stored(), oracle.split(found), oracle.split(stored)):
                self.assertEqual(a, b, case.name)
        self.assertEqual(found, stored)

    def test_document_01s_listing(self):
        data = read(os.path.join(EXAMPLES, "document01.sheet"))
        self.assertEqual(oracle.run("recipe", data), EXAMPLE)
        self.assertEqual(oracle.run("plain", data), EXAMPLE)

    def test_a_sheet_from_a_file(self):
        path = os.path.join(EXAMPLES, "refused.sheet")
        self.assertEqual(oracle.run("recipe", b"", path), "A 3 168 0 0 0\n")

    def test_an_offset_beyond_two_bytes(self):
        good = sheets.one("B15-no-links")
        data = good[:29] + good[29:74] * 1456 + b"ND"
        self.assertEqual(oracle.run("recipe", data), "A 1 65549 0 0 0\n")

    def test_many_cut_or_too_long(self):
        self.assertEqual(oracle.run("recipe", b"\1\0", "--many"), "X\n")
        self.assertEqual(oracle.run("recipe", b"\0\0\0\0\5\0\0\0OP", "--many"), "A 1 0 0 0 0\n--\nX\n")
        self.assertEqual(oracle.run("recipe", b"\1\0\1\0" + bytes(65537), "--many"), "X\n")

    def test_power(self):
        one, infinity, nan = "3ff0000000000000", "7ff0000000000000", "7ff8000000000000"
        two = "%016x" % power_tables.table_b()[62]
        stated = {one: one, "8000000000000000": "0" * 16, "bff0000000000000": nan,
                  "43f0000000000000": infinity, "4000000000000000": two}
        found = oracle.run("recipe", "\n".join(stated).encode("ascii"), "--power")
        self.assertEqual(found.split(), list(stated.values()))

    def test_plain_keeps_the_rusts_balance(self):
        data = sheets.one("tank-overflow")
        self.assertEqual(oracle.Listing(oracle.run("recipe", data)).balance, (0.0, 0.0, 0.0))
        plain = oracle.Listing(oracle.run("plain", data))
        self.assertEqual(plain.balance, (plain.demands[1], 0.0, plain.demands[1]))

    def test_plain_is_near_and_not_the_same(self):
        data = read(os.path.join(EXAMPLES, "looped.sheet"))
        texts = oracle.run("recipe", data), oracle.run("plain", data)
        self.assertNotEqual(*texts)
        a, b = map(oracle.Listing, texts)
        self.assertEqual((a.record, a.statuses), (b.record, b.statuses))
        for x, y in zip(a.heads + a.flows, b.heads + b.flows):
            self.assertAlmostEqual(x, y, delta=1e-5)

    def test_the_crates_own_tests(self):
        done = subprocess.run(
            ["cargo", "test", "--offline", "--quiet", "--release", "--workspace",
             "--target-dir", "target/recipe"],
            cwd=os.path.join(ROOT, "oracle"), stdout=subprocess.PIPE, stderr=subprocess.STDOUT,
            universal_newlines=True, check=False,
            env=dict(os.environ, ORACLE_SOURCES=os.path.abspath(oracle.SOURCES)))
        self.assertEqual(done.returncode, 0, done.stdout)
        self.assertIn("test result: ok", done.stdout)


if __name__ == "__main__":
    unittest.main()
