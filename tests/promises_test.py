"""docs/PROMISES.md names every public function and every must-fail edit, and what it names is there."""
import glob
import os
import re
import sys
import unittest

ROOT = os.path.dirname(os.path.dirname(os.path.abspath(__file__)))
sys.path.insert(0, os.path.join(ROOT, "tools"))

from wrong_programs import Sources


def read(*parts):
    with open(os.path.join(ROOT, *parts), encoding="utf-8") as file:
        return file.read()


def libraries():
    lines = [line for line in read("crates.txt").splitlines() if ":" in line and not line.startswith("#")]
    names = [line.split(":")[0].split()[0] for line in lines]
    return [name for name in names if os.path.exists(os.path.join(ROOT, "crates", name, "src", "lib.rt"))]


def public_functions(crate):
    """Those of lib.rt itself and those that it passes on, methods and conversions by their type."""
    return [re.sub(r"<.*", "", name) for _, name in Sources(ROOT, crate).public]


class Rows(unittest.TestCase):
    @classmethod
    def setUpClass(cls):
        cls.paper = read("docs", "PROMISES.md")

    def test_every_public_function_is_named(self):
        functions = [(crate, name) for crate in libraries() for name in public_functions(crate)]
        self.assertGreater(len(functions), 60)
        self.assertEqual([pair for pair in functions if "`%s`" % pair[1] not in self.paper], [])

    def test_every_edit_is_named(self):
        edits = [os.path.basename(path)[:-len(".edit")] for path in glob.glob(os.path.join(ROOT, "crates", "*", "must-fail", "*.edit"))]
        self.assertGreater(len(edits), 200)
        words = set(re.findall(r"\w+", self.paper))
        self.assertEqual(sorted(edit for edit in edits if edit not in words), [])

    def test_every_edit_that_is_named_is_there(self):
        edits = {os.path.basename(path)[:-len(".edit")] for path in glob.glob(os.path.join(ROOT, "crates", "*", "must-fail", "*.edit"))}
        named = []
        for part in self.paper.split("| must-fail |")[1:]:
            rows = [line for line in part.split("\n\n")[0].splitlines()[1:] if line.startswith("| ")]
            last = 2 if part.startswith(" test |") else 1
            named += [word for row in rows for word in re.findall(r"\w+_\w+", re.split(r"(?<!\\)\|", row)[-1 - last])]
        self.assertGreater(len(named), 200)
        self.assertEqual(sorted(set(named) - edits), [])

    def test_every_file_is_there_with_what_is_named_beside_it(self):
        files = re.findall(r"\b(\w+/(?:specs|proofs|src)/[\w/+]+\.(?:antt|rt))((?:,? `[^`]+`)*)", self.paper)
        self.assertGreater(len(files), 60)
        for path, names in files:
            self.assertTrue(os.path.exists(os.path.join(ROOT, "crates", path)), path)
            text = read("crates", path)
            for name in re.findall(r"`([^` ]+)[^`]*`", names):
                self.assertRegex(text, r"(?<![\w·-])%s(?![\w-])" % re.escape(name), path)

    def test_every_library_but_the_bare_has_edits(self):
        bare = {"constants", "nearest"}  # definitions and one theorem each, with one edit
        # definitions and no function, or a write: no program can be wrong that a contract speaks of
        none = {"known", "text_out", "rows_out"}
        for crate in set(libraries()) - none:
            edits = glob.glob(os.path.join(ROOT, "crates", crate, "must-fail", "*.edit"))
            self.assertGreaterEqual(len(edits), 1 if crate in bare else 2, crate)


if __name__ == "__main__":
    unittest.main()
