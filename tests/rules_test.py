"""docs/RULES.md: whatever the repository cites of documents 01 and 02 can be looked up there, and its tables are those of
the programs."""
import glob
import os
import re
import sys
import unittest

TOP = os.path.dirname(os.path.dirname(os.path.abspath(__file__)))
sys.path[:0] = [TOP, os.path.join(TOP, "tools")]

from coordinator.sheet_format import BYTES, LAYOUT, LINK_KINDS, NODE_KINDS, PER_CFS, STATUSES, UNITS
from stored import read

PLACES = ("README.md", "desk", "include/*", "docs/*.md", "crates/*/README.md", "crates/*/*/**/*.rt", "crates/*/*/**/*.antt",
          "coordinator/*.py", "tools/*.py", "tests/**/*.py", "oracle/**/*.rs", "oracle/*.md", "examples/**/*.md", "bench/*")
# line ends and the marks of comments
BETWEEN = r"(?:\s|//[/!]?|--|#|\|)+"
ITEM = re.compile(r"[Dd]ocument 01,%sitems?%s(\d)(?:%sand%s(\d))?" % ((BETWEEN,) * 4))
SECTION = re.compile(r'[Dd]ocument 01,%s"([^"]+)"' % BETWEEN)
REQUEST = re.compile(r"(?:[Dd]ocument 02(?:\'s)?,?|[Rr]equest)%s\[(\d+)\]" % BETWEEN)


def texts():
    for place in PLACES:
        for path in glob.glob(os.path.join(TOP, place), recursive=True):
            name = os.path.relpath(path, TOP)
            if os.path.isfile(path) and name not in ("docs/RULES.md", "tests/rules_test.py") and "/target/" not in path:
                with open(path, encoding="utf-8", errors="replace") as file:
                    yield name, file.read()


def one_line(words):
    return " ".join(re.split(BETWEEN, words))


class Rules(unittest.TestCase):
    @classmethod
    def setUpClass(cls):
        cls.rules = read("docs/RULES.md").decode()
        cls.headings = re.findall(r"^## (.+)$", cls.rules, re.M)
        cls.items = set(re.findall(r"^(\d+)\. \*\*", cls.rules, re.M))

    def cited(self, pattern):
        return {(name, one_line(found)) for name, text in texts() for groups in pattern.findall(text)
                for found in (groups if isinstance(groups, tuple) else [groups]) if found}

    def test_every_item_that_is_cited(self):
        found = self.cited(ITEM)
        self.assertGreater(len(found), 20)
        self.assertEqual([(name, item) for name, item in found if item not in self.items], [])
        self.assertEqual(sorted(self.items), list("12345678"))

    def test_every_section_that_is_cited(self):
        found = self.cited(SECTION)
        self.assertGreater(len(found), 5)
        self.assertEqual([(name, words) for name, words in found if words not in self.headings], [])

    def test_every_request_that_is_cited(self):
        found = self.cited(REQUEST)
        self.assertGreater(len(found), 5)
        known = {heading.split("]")[0].strip("[") for heading in self.headings if heading.startswith("[")}
        self.assertEqual(sorted({number for _, number in found} - known), [])

    def test_the_tables_are_those_of_the_programs(self):
        for mark, (_, names) in LAYOUT.items():
            row = re.search(r"^\| %s \| (\d+) \| (.+) \|$" % mark.decode(), self.rules, re.M)
            self.assertEqual(int(row.group(1)), BYTES[mark])
            self.assertEqual([re.sub(r" \d+$", "", field).split(" pressure")[0].replace(" ", "_").replace("flow_unit", "unit")
                              for field in row.group(2).split(", ")], list(names))
        for names in (NODE_KINDS, LINK_KINDS, STATUSES):
            self.assertIn("| %s |" % ", ".join("%d %s" % pair for pair in enumerate(names)), self.rules)
        self.assertIn(", ".join("%d %s %g" % (i, name, per) if per != 448.831 else "%d %s %r" % (i, name, per)
                                for i, (name, per) in enumerate(zip(UNITS, PER_CFS))), self.rules)

    def test_it_would_see_what_is_missing(self):
        for pattern, words in ((ITEM, "Document 01, item 9"), (ITEM, "document 01,\n-- items 2\n// and 9"),
                               (SECTION, 'document 01, "Pumps"'), (REQUEST, "request [99]"), (REQUEST, "document 02's [99]")):
            self.assertTrue(pattern.search(words), words)


if __name__ == "__main__":
    unittest.main()
