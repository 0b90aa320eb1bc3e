"""What the desk says of itself: --help, --version, and the papers that go with them."""
import os
import re
import sys
import tempfile
import unittest
from unittest import mock

TOP = os.path.dirname(os.path.dirname(os.path.abspath(__file__)))
sys.path[:0] = [TOP, os.path.join(TOP, "tools")]

import install
from coordinator import VERSION, building, programs
from coordinator.main import parser
from coordinator.sheet_text import FLOW, PRESSURE
from desk_test import desk
from stored import read


class Help(unittest.TestCase):
    def setUp(self):
        self.help = parser().format_help()
        self.paper = read("docs/DESK.md").decode()

    def test_every_option_is_told_in_both(self):
        options = {word for action in parser()._actions for word in action.option_strings} - {"-h", "--help"}
        self.assertGreaterEqual(options, {"--json", "--plot", "--least", "--within", "--explain", "--sheet", "--text", "--version"})
        for option in options:
            self.assertIn(option, self.help)
            self.assertIn(option, self.paper)
        for option in re.findall(r"(?<![\w-])--[a-z][a-z-]*", self.paper):
            self.assertIn(option, options | {"--help"})

    def test_units_and_limits(self):
        for unit in [*FLOW, *PRESSURE]:
            self.assertRegex(self.help, r"[\s]%s[\s]" % re.escape(unit))
        self.assertIn("at most 64 nodes and 128 links", self.help)

    def test_statuses_are_those_of_the_paper(self):
        table = re.findall(r"^\| (\d) \| (.+) \|$", self.paper[self.paper.index("## Exit status"):], re.M)[:4]
        for status, words in table:
            told = " ".join(re.search(r"\n  %s  (.*?)\n  (?=\d|of )" % status, self.help, re.S).group(1).split())
            self.assertEqual(told[:20], words[:20], status)

    def test_examples_are_commands_of_the_desk(self):
        examples = self.help[self.help.index("examples:"):self.help.index("exit status:")].splitlines()[1:]
        self.assertGreater(len([line for line in examples if line.startswith("  desk ")]), 4)


class Version(unittest.TestCase):
    def test_it_is_printed(self):
        self.assertEqual(desk("--version"), (0, "desk %s\n" % VERSION, ""))

    def test_the_changelog_begins_with_it(self):
        found = re.findall(r"^## (.+)$", read("CHANGELOG.md").decode(), re.M)
        self.assertEqual(found[0], VERSION)
        self.assertEqual(found, sorted(found, key=lambda name: [-int(part) for part in name.split(".")]))


class Installing(unittest.TestCase):
    def test_every_file_that_is_installed_is_there(self):
        built = {programs.path(name) for name in install.PROGRAMS} | {install.top(install.library.LIBRARY)}
        names = [name for source, name, _ in install.pairs() if source in built or os.path.isfile(source)]
        self.assertEqual(len(names), len(list(install.pairs())))
        self.assertIn("lib/ndurabeew/coordinator/main.py", names)
        self.assertIn("tools/install.py", read("Makefile").decode())

    def test_an_installed_desk_builds_nothing(self):
        with tempfile.TemporaryDirectory() as folder, mock.patch("coordinator.programs.ROOT", folder):
            os.mkdir(os.path.join(folder, "programs"))
            with self.assertRaises(building.NotToBeHad) as gone:
                building.have("verdict")
            self.assertIn("not installed beside the desk", str(gone.exception))
            self.assertEqual(os.listdir(folder), ["programs"])
            self.assertEqual(programs.path("verdict"), os.path.join(folder, "programs", "verdict"))


if __name__ == "__main__":
    unittest.main()
