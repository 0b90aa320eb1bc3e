"""2,000 EPANET texts of tools/inp_files.py through tools/inp_reader.py: a good one becomes the sheet that it says, bit
for bit by fractions but for the resistance of pipes, and a damaged one is refused where it was damaged."""
import hashlib
import math
import os
import subprocess
import sys
import unittest
from collections import Counter
from fractions import Fraction

TOP = os.path.dirname(os.path.dirname(os.path.abspath(__file__)))
sys.path[:0] = [TOP, os.path.join(TOP, "tools")]

import inp_damage
import inp_files
import inp_reader
import inp_stored
from coordinator import sheet_bounds
from coordinator.sheet_format import LINK_KINDS, NODE_KINDS, PER_CFS, STATUSES, UNITS, decode
from rounded import add, div, mul
from stored import read

SEED, COUNT = 1, 2000


class Expected:
    """The records of a good text's sheet."""

    def __init__(self, plan):
        self.plan, self.told = plan, plan.options
        self.metric = plan.unit in ("LPS", "LPM", "MLD", "CMS", "CMH", "CMD")
        self.per = PER_CFS[UNITS.index(plan.unit)]
        self.names = [about["name"] for about in plan.nodes()]

    def feet(self, value):
        return div(float(value), 0.3048) if self.metric else float(value)

    def pressure(self, value):
        return div(float(value), 0.3048 if self.metric else 0.4333)

    def op(self):
        accuracy, damping, change = (float(self.told.get(key, usual)) for key, usual in (
            ("ACCURACY", Fraction("0.001")), ("DAMPLIMIT", 0), ("FLOWCHANGE", 0)))
        return dict(accuracy=accuracy, damping_limit=damping, max_flow_change=change,
                    trials=self.told.get("TRIALS", 200), unit=UNITS.index(self.plan.unit))

    def pd(self):
        return dict(minimum=self.pressure(self.told.get("MINIMUM PRESSURE", 0)),
                    required=self.pressure(self.told.get("REQUIRED PRESSURE", Fraction("0.1"))))

    def node(self, about):
        found = dict(kind=NODE_KINDS.index(about["kind"]), disabled=0, elevation=self.feet(about["elevation"]),
                     demand=0.0, head=0.0, max_level=0.0, min_level=0.0, overflow=0)
        if about["kind"] == "junction":
            multiplier = float(self.told.get("DEMAND MULTIPLIER", 1))
            found["demand"] = mul(div(float(about["demand"]), self.per), multiplier)
        elif about["kind"] == "reservoir":
            found["head"] = found["elevation"]
        else:
            found.update(head=add(found["elevation"], self.feet(about["level"])), max_level=self.feet(about["highest"]),
                         min_level=self.feet(about["lowest"]), overflow=about["overflow"])
        return found

    def setting(self, about):
        if about["kind"] == "pipe":
            return 0.0
        if about["kind"] in ("PRV", "PSV", "PBV"):
            return self.pressure(about["setting"])
        return div(float(about["setting"]), self.per) if about["kind"] == "FCV" else float(about["setting"])

    def diameter(self, about):
        diameter = float(about["diameter"])
        return div(div(diameter, 1000), 0.3048) if self.metric else div(diameter, 12)

    def link(self, about):
        shut, diameter = about["status"] in ("Closed", "FixedClosed"), self.diameter(about)
        return dict(kind=LINK_KINDS.index(about["kind"]), check_valve=about["check_valve"],
                    status=STATUSES.index(about["status"]), start=self.names.index(about["start"]),
                    end=self.names.index(about["end"]), setting=self.setting(about),
                    minor_loss=float(about["minor_loss"]), diameter=diameter,
                    flow=1e-6 if shut else mul(mul(0.25, math.pi), mul(diameter, diameter)))

    def records(self):
        return ([(b"OP", self.op())] + ([(b"PD", self.pd())] if self.told["PDA"] else [])
                + [(b"ND", self.node(about)) for about in self.plan.nodes()]
                + [(b"LK", self.link(about)) for about in self.plan.links()])

    def resistances(self):
        """Nearly: with the machine's own powers."""
        for about in self.plan.links():
            if about["kind"] == "pipe":
                friction = 4.727 * float(about["roughness"]) ** -1.852
                yield friction * self.diameter(about) ** -4.871 * self.feet(about["length"])
            else:
                yield 1e-6


def in_letters(records):
    """So that -0.0 is not 0.0."""
    return [(mark, repr(sorted(fields.items()))) for mark, fields in records]


class Generated(unittest.TestCase):
    @classmethod
    def setUpClass(cls):
        cls.cases = list(inp_files.cases(SEED, COUNT))
        cls.found = [inp_reader.read(case.text) for case in cls.cases]

    def of_kind(self, *kinds):
        both = enumerate(zip(self.cases, self.found))
        return [(number, case, found) for number, (case, found) in both if case.kind in kinds]

    def test_how_many_of_each_kind(self):
        counts = Counter((case.kind, found.number if isinstance(found, inp_reader.Refused) else 0)
                         for case, found in zip(self.cases, self.found))
        self.assertEqual(Counter(case.kind for case in self.cases),
                         {"good": 800, "odd": 200, "damaged": 600, "twice damaged": 200, "changed": 200})
        self.assertEqual((counts["good", 0], counts["odd", 0]), (800, 200))
        for kind, refusal, least in (
                ("damaged", 10, 300), ("damaged", 11, 80), ("damaged", 12, 100), ("twice damaged", 10, 80),
                ("twice damaged", 11, 20), ("twice damaged", 12, 40), ("changed", 0, 25), ("changed", 10, 80)):
            self.assertGreaterEqual(counts[kind, refusal], least, (kind, refusal))

    def test_every_damage_is_among_them_at_every_place(self):
        reasons = Counter(case.reason for _, case, _ in self.of_kind("damaged"))
        for section, ways in inp_damage.Damage.DONE_TO.items():
            for way in ways:
                self.assertGreaterEqual(reasons["%s in %s" % (way.__name__.replace("_", " "), section)], 6)
        for header in inp_damage.HEADERS:
            self.assertGreaterEqual(reasons["data in " + header.decode()], 6)
        for reason in ("PIPES and VALVES before what they name", "STATUS before what they name",
                       "more words behind a header", "a line before any section", "the status of a check valve",
                       "a number for a pipe"):
            self.assertGreater(reasons[reason], 0, reason)
        places = {(found.line == 1, found.line == case.text.rstrip(b"\r\n").count(b"\n") + 1)
                  for _, case, found in self.of_kind("damaged")}
        self.assertGreaterEqual(places, {(True, False), (False, True), (False, False)})

    def test_damaged_ones_are_refused_where_they_are(self):
        for number, case, found in self.of_kind("damaged", "twice damaged"):
            self.assertEqual(tuple(found), case.refused, (number, case.reason))

    def test_good_ones_become_what_they_say(self):
        for number, case, found in self.of_kind("good"):
            expected = Expected(case.said)
            self.assertEqual(found.nodes, expected.names, number)
            self.assertEqual(found.links, [about["name"] for about in case.said.links()], number)
            self.assertEqual(sheet_bounds.reading(found.sheet), ("G", len(found.nodes), len(found.links)), number)
            records = [(mark, fields) for _, mark, fields in decode(found.sheet)]
            resistances = [fields.pop("resistance") for mark, fields in records if mark == b"LK"]
            self.assertEqual(in_letters(records), in_letters(expected.records()), number)
            for resistance, nearly in zip(resistances, expected.resistances()):
                self.assertLess(abs(resistance - nearly), nearly * 1e-7, number)

    def test_odd_ones_are_read(self):
        """What becomes of their sheets is the sheet's own matter."""
        refused, resistances = Counter(), []
        for number, case, found in self.of_kind("odd"):
            self.assertEqual(found.nodes, [about["name"] for about in case.said.nodes()], number)
            self.assertEqual(found.links, [about["name"] for about in case.said.links()], number)
            kind, refusal, _ = sheet_bounds.reading(found.sheet)
            refused[refusal if kind == "R" else 0] += 1
            resistances += [fields["resistance"] for _, mark, fields in decode(found.sheet) if mark == b"LK"]
        for refusal in (0, 2, 3, 4):
            self.assertGreater(refused[refusal], 2, refused)
        for seen in (math.isnan, math.isinf, lambda x: x < 0, lambda x: x == 0):
            self.assertTrue(any(map(seen, resistances)))

    def test_good_ones_have_all_that_may_be_there(self):
        good = self.of_kind("good")
        texts = [case.text for _, case, _ in good]
        for what in (b"\r\n", b"\t", b";", b"[TITLE]", b"[COORDINATES]", b"[VERTICES]", b"[END]", b"[PUMPS]",
                     b"[junctions]", b"e-0", b"E+0", b"*", b"\x00"):
            self.assertGreater(sum(what in text for text in texts), 5, what)
        self.assertGreater(sum(not text.endswith(b"\n") for text in texts), 50)
        self.assertGreater(sum(any(byte > 127 for byte in text) for text in texts), 50)
        self.assertGreater(sum(31 in map(len, found.nodes + found.links) for _, _, found in good), 50)
        self.assertGreater(max(len(line) for text in texts for line in text.split(b"\n")), 10000)
        self.assertGreater(max(len(found.nodes) for _, _, found in good), 60)
        self.assertEqual({case.said.unit for _, case, _ in good}, set(UNITS))
        kinds = Counter(about["kind"] for _, case, _ in good for about in case.said.links())
        self.assertTrue(all(kinds[kind] > 50 for kind in ("pipe", "PRV", "PSV", "PBV", "FCV", "TCV")), kinds)

    def test_the_same_again(self):
        """Whatever the seed of python's hashes."""
        digest = hashlib.sha256(b"".join(inp_reader.printed(case.text) for case in self.cases[:100])).hexdigest()
        code = ("import hashlib, inp_files, inp_reader\n"
                "said = b''.join(inp_reader.printed(case.text) for case in inp_files.cases(%d, 100))\n"
                "print(hashlib.sha256(said).hexdigest())" % SEED)
        for hashes in ("1", "2"):
            done = subprocess.run([sys.executable, "-c", code], env=dict(os.environ, PYTHONHASHSEED=hashes),
                                  cwd=os.path.join(TOP, "tools"), stdout=subprocess.PIPE, check=True)
            self.assertEqual(done.stdout.decode().strip(), digest)


class Stored(unittest.TestCase):
    def test_the_list_is_what_the_tool_makes(self):
        for name, data in inp_stored.files().items():
            self.assertTrue(read(name) == data, name)


if __name__ == "__main__":
    unittest.main()
