"""The wrong programs are programs: every must-fail edit of a crate with code changes its code, each public function
has two, each row of docs/PROMISES.md names one, and what the papers say of them is so."""
import os
import re
import sys
import tempfile
import unittest

TOP = os.path.dirname(os.path.dirname(os.path.abspath(__file__)))
sys.path.insert(0, os.path.join(TOP, "tools"))

import sheets
import wrong_programs
from checks import read


class Rule(unittest.TestCase):
    @classmethod
    def setUpClass(cls):
        cls.count = wrong_programs.Count(TOP)

    def test_every_edit_changes_what_is_there_once(self):
        self.assertEqual(self.count.lost, [])

    def test_edits_of_crates_with_code_change_code(self):
        self.assertEqual(self.count.strays, [])

    def test_each_public_function_has_two(self):
        self.assertEqual(self.count.few(), [])
        self.assertLessEqual(wrong_programs.EXCEPT, set(self.count.functions))

    def test_each_row_names_one(self):
        self.assertEqual(self.count.rows, [])

    def test_what_is_counted(self):
        self.assertGreater(self.count.parts["src"], 300)
        self.assertGreater(len(self.count.functions), 140)
        self.assertIn("valve_rule_freed", self.count.own["valves", "valve_rule"])
        self.assertIn("fcv_above", self.count.functions["valves", "valve_rule"])
        self.assertNotIn("fcv_above", self.count.own["valves", "valve_rule"])


class Paper(unittest.TestCase):
    def setUp(self):
        self.promises = read(os.path.join(TOP, "docs", "PROMISES.md"))

    def test_slips_and_useless_solvers(self):
        table = self.promises.split("## Useless solvers and slips")[1].split("\n## ")[0]
        rows = [line for line in table.splitlines() if line.startswith("| ")][1:]
        self.assertEqual(len(rows), 15)
        named = re.findall(r"(\w+)'s? ((?:\w+_\w+(?:, )?)+)", "\n".join(row.split("|")[2] for row in rows))
        self.assertGreater(len(named), 9)
        for crate, labels in named:
            for label in re.findall(r"\w+", labels):
                self.assertIn(label, wrong_programs.edits_of(TOP, crate))

    def test_stored_cases_that_are_named(self):
        named = set(re.findall(r"(?<!\*)\*([\w-]+)\*(?!\*)", self.promises))
        self.assertGreater(len(named), 5)
        self.assertEqual(named - {case.name for case in sheets.stored()}, set())


class Small(unittest.TestCase):
    """The count of a made-up crate."""

    def count(self, edits, row="| s | d | p | one_off | t |"):
        with tempfile.TemporaryDirectory() as root:
            files = {
                "crates.txt": "a:\n",
                "docs/PROMISES.md": "| sentence | definition | proof | must-fail | test |\n|---|---|---|---|---|\n%s\n" % row,
                "crates/a/src/lib.rt": "const MOST: u8 = 7;\n\nfn low(x: u8) -> u8\n{\n    x % MOST\n}\n\npub fn f(x: u8) -> u8\n{\n    low(x) / 2\n}\n\npub fn g(x: u8) -> u8\n{\n    f(x) / 3\n}\n",
                "crates/a/specs/A.antt": "f = g\n",
            }
            files.update({"crates/a/must-fail/%s.edit" % label: text for label, text in edits.items()})
            for name, text in files.items():
                os.makedirs(os.path.dirname(os.path.join(root, name)), exist_ok=True)
                with open(os.path.join(root, name), "w", encoding="utf-8") as file:
                    file.write(text)
            return wrong_programs.Count(root)

    def test_a_private_function_and_a_constant_count_for_those_that_reach_them(self):
        count = self.count({"one_off": "# w\nfile: src/lib.rt\nold: = 7;\nnew: = 8;\n",
                            "halved": "# w\nfile: src/lib.rt\nold: low(x) / 2\nnew: low(x) / 4\n"})
        self.assertEqual(count.functions, {("a", "f"): ["halved", "one_off"], ("a", "g"): []})
        self.assertEqual(count.own, {("a", "f"): ["halved"], ("a", "g"): []})
        self.assertEqual((count.few(), count.rows, count.strays, count.lost), ([("a", "g")], [], [], []))

    def test_what_breaks_the_rule(self):
        count = self.count({"spec": "# w\nfile: specs/A.antt\nold: f\nnew: h\n",
                            "gone": "# w\nfile: src/lib.rt\nold: low(y)\nnew: y\n"})
        self.assertEqual((count.strays, count.lost), ([("a", "spec")], [("a", "gone")]))
        self.assertEqual((count.rows, count.parts), (["s"], {"src": 1, "specs": 1, "proofs": 0}))

    def test_a_row_where_no_program_can_be_wrong(self):
        self.assertEqual(self.count({}, "| s | d | p | no program can: a slice keeps its length | |").rows, [])


if __name__ == "__main__":
    unittest.main()
