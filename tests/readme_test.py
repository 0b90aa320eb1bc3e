"""README.md: its first screen, its commands, and the way to a crate."""
import os
import re
import shutil
import subprocess
import sys
import tempfile
import unittest
from unittest import mock

TOP = os.path.dirname(os.path.dirname(os.path.abspath(__file__)))
sys.path[:0] = [TOP, os.path.join(TOP, "tools")]

import fuzz
from coordinator import building, sheet_bounds
from stored import read

README = read("README.md").decode()


def table_after(heading):
    """The rows of the first table behind these words."""
    lines = README[README.index(heading):].splitlines()
    first = next(i for i, line in enumerate(lines) if line.startswith("|"))
    rows = []
    for line in lines[first:]:
        if not line.startswith("|"):
            break
        rows.append([cell.strip() for cell in line.strip("|").split("|")])
    return rows[2:]


class FirstScreen(unittest.TestCase):
    def test_what_a_newcomer_needs_is_on_it(self):
        screen = "\n".join(README.splitlines()[:24])
        for words in ("May this watering hour be sold?", "(docs/june.svg)", "./desk --plot", "Rattle kit", "no pumps",
                      "no water quality", "%d nodes and %d links" % (sheet_bounds.MOST_NODES, sheet_bounds.MOST_LINKS)):
            self.assertIn(words, screen)

    def test_how_long_the_first_build_takes(self):
        self.assertIn("this takes about ten minutes on two processors", README)


class Commands(unittest.TestCase):
    def test_what_they_start_is_there(self):
        named = set(re.findall(r"(?:\./|python3 )((?:tools|bench|oracle)/\w+\.\w+|desk|test)\b", README))
        named |= set(re.findall(r"`(oracle/\w+\.sh)", README))
        self.assertGreaterEqual(named, {"desk", "test", "tools/fuzz.py", "bench/solves.py", "tools/edits.py", "tools/landing.py",
                                        "oracle/build.sh"})
        for name in named:
            self.assertTrue(os.path.isfile(os.path.join(TOP, name)), name)

    def test_linked_files_are_there(self):
        for name in re.findall(r"\]\(([^)#]+)\)", README):
            self.assertTrue(os.path.exists(os.path.join(TOP, name)), name)

    def test_fuzz_has_its_program_built(self):
        with mock.patch("oracle.build", lambda name: (0, "")), mock.patch("fuzz.run", lambda seconds, seed: 1), \
                mock.patch("builtins.print"), mock.patch("coordinator.building.have") as have:
            fuzz.main(["1", "2"])
        have.assert_called_once_with("replay")

    def test_and_says_where_it_cannot_be_had(self):
        def gone(name):
            raise building.NotToBeHad("no kit")
        with mock.patch("oracle.build", lambda name: (0, "")), mock.patch("coordinator.building.have", gone):
            with self.assertRaises(SystemExit) as end:
                fuzz.main(["1"])
        self.assertEqual(end.exception.code, "fuzz.py: no kit")

    @unittest.skipUnless(shutil.which("git"), "git is not at hand")
    def test_commands_without_words_say_how_they_are_used(self):
        with tempfile.TemporaryDirectory() as folder:
            for name in ("tools/fuzz.py", "tools/landing.py"):
                done = subprocess.run([sys.executable, os.path.join(TOP, name)], cwd=folder, stdout=subprocess.PIPE,
                                      stderr=subprocess.PIPE, universal_newlines=True, check=False)
                self.assertNotIn("Traceback", done.stderr)
                self.assertTrue(done.stderr + done.stdout)


class Tools(unittest.TestCase):
    def test_every_tool_stands_in_one_group(self):
        named = re.findall(r"(\w+\.py)", read("tools/README.md").decode())
        there = [name for name in os.listdir(os.path.join(TOP, "tools")) if name.endswith(".py")]
        self.assertEqual(sorted(named), sorted(there))

    def test_none_of_the_desks_own_is_among_them(self):
        self.assertEqual([name for name in os.listdir(os.path.join(TOP, "tools")) if name.startswith("desk")], [])


class WayToACrate(unittest.TestCase):
    def crates(self):
        return set(building.listed())

    def test_every_question_leads_to_crates_that_are_there(self):
        rows = table_after("Where is it?")
        self.assertGreater(len(rows), 10)
        for question, words in rows:
            named = [word for word in re.findall(r"[a-z_]+", words) if word in self.crates()]
            self.assertTrue(named, question)

    def test_a_valve_is_freed_where_it_says(self):
        (answer,) = [words for question, words in table_after("Where is it?") if "valve freed" in question]
        self.assertTrue(answer.startswith("repair"))
        self.assertIn("XPressure", read("crates/repair/specs/Repair.antt").decode() + read("crates/repair/src/lib.rt").decode())

    def test_every_crate_is_in_the_table(self):
        named = {name for row in table_after("| crate | holds |") for name in re.findall(r"[a-z_]+", row[0])}
        self.assertEqual(self.crates() - named, set())


if __name__ == "__main__":
    unittest.main()
