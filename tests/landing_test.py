"""tools/landing.py tells from git what changed, in which part, and what is checked again for it."""
import contextlib
import io
import os
import shutil
import subprocess
import sys
import tempfile
import unittest
from unittest import mock

TOP = os.path.dirname(os.path.dirname(os.path.abspath(__file__)))
sys.path.insert(0, os.path.join(TOP, "tools"))

from coordinator import crates
import landing

SPECS = """-- Numbers.
use lib.{A}
pub mod Other

-- twice
unfoldable pub twice : ℕ → ℕ
unfolding plus
twice n =
    plus n n

inner : ℕ
inner = 3

pub record Pair : Type 0 where
  pub left : ℕ

abbrev pub kept : ℕ
kept = 1
"""

BEFORE = {
    "crates.txt": "low:\nmid: low\nhigh: mid # comment\naside:\nold:\n",
    "crates/low/specs/Low.antt": SPECS,
    "crates/low/src/lib.rt": "a\nb\n",
    "crates/low/proofs/f/Proof.antt": "p\n",
    "crates/mid/specs/Mid.antt": "pub other : ℕ\nother = 2\n",
    "crates/aside/must-fail/one.edit": "x\n",
    "crates/promises/specs/P.antt": "pub told : ℕ\ntold = 4\n",
    "crates/old/src/lib.rt": "",
    "docs/PROMISES.md": "one\n",
}
AFTER = {
    **BEFORE,
    "crates.txt": "low:\nmid: low\nhigh: mid # comment\naside:\nadded:\n",
    "crates/low/specs/Low.antt": SPECS.replace("plus n n", "times 2 n").replace("abbrev pub kept : ℕ\nkept = 1\n", "")
    .replace("= 3", "= 4").replace("-- twice", "-- two times"),
    "crates/low/src/lib.rt": "a\nc\nd\n",
    "crates/mid/specs/Mid.antt": BEFORE["crates/mid/specs/Mid.antt"] + "abbrev pub kept : ℕ\nkept =  1\npub new : ℕ\nnew = 5\n",
    "crates/aside/must-fail/one.edit": "y\n",
    "crates/promises/specs/P.antt": "pub said : ℕ\nsaid = 4\n",
    "crates/added/stdin": "b",
    "docs/PROMISES.md": "one\ntwo\n",
}


class Text(unittest.TestCase):
    def test_definitions(self):
        self.assertEqual(landing.definitions(SPECS), {
            "twice": "unfoldable pub twice : ℕ → ℕ unfolding plus twice n = plus n n",
            "Pair": "pub record Pair : Type 0 where pub left : ℕ",
            "kept": "abbrev pub kept : ℕ kept = 1"})

    def test_every_public_definition_of_the_crates_is_found(self):
        for folder, _, names in os.walk(os.path.join(TOP, "crates")):
            for name in names if "/specs" in folder else []:
                with open(os.path.join(folder, name), encoding="utf-8") as file:
                    text = file.read()
                starts = [line for line in text.splitlines() if line[:1].strip() and "pub" in line.split(":")[0].split()
                          and not {"mod", "use"} & set(line.split()[:3])]
                self.assertEqual(len(landing.definitions(text)), len(starts), name)

    def test_above(self):
        found = crates.listed(BEFORE["crates.txt"])
        self.assertEqual(found["high"].split(), ["mid"])
        self.assertEqual(crates.below(found, "high"), ["mid", "low"])
        self.assertEqual(crates.above(found, ["low"]), ["mid", "high"])


@unittest.skipUnless(shutil.which("git"), "git is not there")
class Note(unittest.TestCase):
    @classmethod
    def setUpClass(cls):
        room = tempfile.TemporaryDirectory()
        cls.addClassCleanup(room.cleanup)
        cls.root = room.name
        cls.git("init", "-q")
        for tag, files in ("before", BEFORE), ("after", AFTER):
            for path, text in files.items():
                os.makedirs(os.path.dirname(os.path.join(cls.root, path)), exist_ok=True)
                with open(os.path.join(cls.root, path), "w", encoding="utf-8") as file:
                    file.write(text)
            cls.git("add", ".")
            cls.git("-c", "user.name=a", "-c", "user.email=a@b", "-c", "commit.gpgsign=false", "commit", "-q", "-m", tag)
            cls.git("tag", tag)

    @classmethod
    def git(cls, *words):
        subprocess.run(["git", "-C", cls.root, *words], check=True)

    def run_landing(self, *words):
        said, wrong = io.StringIO(), io.StringIO()
        with mock.patch("landing.ROOT", self.root), contextlib.redirect_stdout(said), contextlib.redirect_stderr(wrong):
            status = landing.main(list(words))
        return status, said.getvalue().splitlines(), wrong.getvalue().splitlines()

    def test_parts(self):
        status, lines, _ = self.run_landing("before", "after")
        self.assertEqual(status, 0)
        self.assertEqual([line for line in lines if line.startswith("| ")][1:], [
            "| specs | low | 3 | 5 | Low.antt |",
            "| specs | mid | 4 | 0 | Mid.antt |",
            "| specs | all | 7 | 5 | 2 files |",
            "| promises | docs | 1 | 0 | PROMISES.md |",
            "| promises | promises | 2 | 2 | specs/P.antt |",
            "| promises | all | 3 | 2 | 2 files |",
            "| code | low | 2 | 1 | lib.rt |",
            "| edits | aside | 1 | 1 | one.edit |",
            "| rest | added | 1 | 0 | stdin |",
            "| rest | crates.txt | 1 | 1 | crates.txt |",
            "| rest | all | 2 | 1 | 2 files |"])

    def test_definitions_that_moved(self):
        lines = self.run_landing("before")[1]
        self.assertEqual([line for line in lines if line.startswith("- ")], [
            "- crates/low/specs/Low.antt: changed twice",
            "- crates/mid/specs/Mid.antt: from crates/low/specs/Low.antt kept; new new",
            "- crates/promises/specs/P.antt: new said; gone told"])

    def test_crates(self):
        self.assertEqual(self.run_landing("before")[1][-4:], [
            "Checked again, changed themselves (3): low mid added",
            "Checked again, standing on those (1): high",
            "Stayed (1): aside",
            "Gone (1): old"])

    def test_nothing_changed(self):
        status, lines, _ = self.run_landing("after")
        self.assertEqual((status, lines[-4:]), (0, [
            "Checked again, changed themselves (0): none", "Checked again, standing on those (0): none",
            "Stayed (5): low mid high aside added", "Gone (0): none"]))

    def test_bad_use_is_one_plain_line(self):
        for words, line in (["nowhere"], "landing: no such commit: nowhere"), (["before", "HEAD:crates.txt"], "landing: no such commit: HEAD:crates.txt"):
            self.assertEqual(self.run_landing(*words), (2, [], [line]))
        self.assertEqual(self.run_landing()[:2], (2, []))
        self.assertEqual(self.run_landing("--all")[:2], (2, []))
        with tempfile.TemporaryDirectory() as room, mock.patch.object(self, "root", room):
            status, _, wrong = self.run_landing("before")
            self.assertEqual((status, len(wrong)), (2, 1))


if __name__ == "__main__":
    unittest.main()
