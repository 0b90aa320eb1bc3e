"""tools/edits.py says of an edit what `rt must-fail` says: of a crate that the kit's prover tries, and of lines that a
stand-in for `rt` prints."""
import contextlib
import io
import os
import sys
import tempfile
import unittest
from unittest import mock

TOP = os.path.dirname(os.path.dirname(os.path.abspath(__file__)))
sys.path.insert(0, os.path.join(TOP, "tools"))

import edits

CRATES = {
    "crates.txt": "# a comment\nupper:  lower # another\nlower:\n",
    "crates/lower/src/lib.rt": """// One number.
#![tactic(auto)]

ghost use Rattle.std.specs.Prelude.{◌≡◌};

pub fn same(x: usize) -> usize
    ensures { result ≡ x }
{
    x
}
""",
    "crates/upper/src/lib.rt": """// One number, and once more that number.
#![tactic(auto)]

ghost use Rattle.std.specs.Prelude.{◌≡◌};
ghost use Rattle.upper.specs.Kept.{kept_of};

pub fn kept(x: usize) -> usize
    ensures { result ≡ kept_of x }
{
    lower::same(x)
}
""",
    "crates/upper/specs/Lib.antt": "pub mod Kept\n",
    "crates/upper/specs/Kept.antt": """-- What is kept. Definitions only.
use Rattle.std.specs.Prelude.{ℕ}

abbrev pub kept_of : ℕ → ℕ
kept_of x = x
""",
    "crates/upper/proofs/kept/Answers.antt": """-- `upper::kept` meets its contract. Assumes nothing.
use Rattle.upper.proofs.kept.Goals as goal

pub returns : goal.returns
returns c = c.same.ensures
""",
}

EDITS = {  # what is to be said of each
    "false": ("# wrong\nfile: specs/Kept.antt\nold: kept_of x = x\nnew: kept_of x = 1\n", edits.REFUSED),
    "lacks": ("file: src/lib.rt\nold: lower::same(x)\nnew: x", edits.UNFIT),
    "same": ("file: src/lib.rt\nold: number, and\nnew: number and\n", edits.PROVED),
    "dropped": ("file: src/lib.rt\nold: , and once more\nnew:\n", edits.PROVED),
    "typo": ("file: src/lib.rt\nold: lower::same(x)\nnew: lower::same(x) +\n", edits.BAD),
    "not_there": ("file: src/lib.rt\nold: three\nnew: FALSE\n", edits.BAD),
    "twice": ("file: src/lib.rt\nold: number\nnew: FALSE\n", edits.BAD),
    "outside": ("file: src/../must-fail/same.edit\nold: one\nnew: FALSE\n", edits.BAD),
    "no_file": ("old: one\nnew: FALSE\n", edits.BAD),
    "no_pair": ("file: src/lib.rt\nold: one\n", edits.BAD),
    "two_pairs": ("file: src/lib.rt\nold: One number\nnew: A number\nfile: specs/Kept.antt\nold: What is\nnew: That is\n", edits.PROVED),
    "two_in_one": ("file: specs/Kept.antt\nold: kept_of x = x\nnew: kept_of x = 2\nold: kept_of x = 2\nnew: kept_of x = 3\n", edits.REFUSED),
}

# the lines of a run as the kit prints them
LOST = "rt: must-fail upper/lost.edit: NOT TRIED: its check was killed, most likely for memory, so nothing is known of it: run this again"
FALSE = "rt: must-fail upper/false.edit: refused, as it must be: ./proofs/kept/Answers.antt:5:13: error: `returns`: it differs"
LIMIT = "rt: must-fail upper/limit.edit: refused, as it must be (only by a limit of the prover, which gave no verdict, so this says less of the contract: choose a change that it refuses sooner): antt ran out of steps"


class Repository(unittest.TestCase):
    def setUp(self):
        room = tempfile.TemporaryDirectory()
        self.addCleanup(room.cleanup)
        self.kit, self.root = os.path.join(room.name, "kit"), os.path.join(room.name, "repository")
        for path, text in CRATES.items():
            self.write(path, text)

    def write(self, path, text):
        path = os.path.join(self.root, path)
        os.makedirs(os.path.dirname(path), exist_ok=True)
        with open(path, "w", encoding="utf-8") as file:
            file.write(text)

    def edit(self, *labels):
        for label in labels:
            self.write("crates/upper/must-fail/%s.edit" % label, EDITS[label][0] if label in EDITS else EDITS["same"][0])

    def run_edits(self, *names):
        """The exit status and the lines printed."""
        said = io.StringIO()
        with mock.patch("coordinator.programs.ROOT", self.root), contextlib.redirect_stdout(said), contextlib.redirect_stderr(said):
            status = edits.main(list(names))
        return status, said.getvalue().splitlines()


class Prover(Repository):
    def test_verdicts_are_those_of_rt(self):
        self.edit(*EDITS)
        status, lines = self.run_edits("upper")
        self.assertEqual(status, 1)
        for label, (_, verdict) in EDITS.items():
            self.assertTrue(any(line.startswith("upper %s: %s: " % (label, verdict)) for line in lines), (label, lines))
        self.assertIn("upper false: refused: ./proofs/kept/Answers.antt:5:13: error: `returns`: ", "\n".join(lines))
        self.assertEqual(lines[-1], "2 refused, 10 not as they must be, 0 of which nothing was said")

    def test_a_crate_that_is_not_proved(self):
        self.edit("false")
        self.write("crates/upper/src/lib.rt", CRATES["crates/upper/src/lib.rt"].replace("lower::same(x)", "lower::same(x) + 1"))
        status, lines = self.run_edits()
        self.assertEqual((status, lines[0]), (1, "upper is not proved, so no edit was tried: `rt check` in crates/upper tells why"))
        self.assertEqual(lines[1:], ["0 refused, 0 not as they must be, 0 of which nothing was said"])


class StandIn(Repository):
    """With an `rt` that prints these lines, and notes how it was called."""

    def rt(self, *lines):
        os.makedirs(self.kit, exist_ok=True)
        path = os.path.join(self.kit, "rt")
        with open(path, "w", encoding="utf-8") as file:
            file.write("#!/bin/sh\necho \"$@\" >>'%s/runs'\ncat <<'END'\n%s\nEND\n" % (self.kit, "\n".join(lines)))
        os.chmod(path, 0o755)
        changed = mock.patch.dict(os.environ, {"PATH": self.kit + os.pathsep + os.environ["PATH"]})
        changed.start()
        self.addCleanup(changed.stop)

    def runs(self):
        path = os.path.join(self.kit, "runs")
        return edits.read(path).splitlines() if os.path.exists(path) else []

    def test_what_is_refused(self):
        self.edit("false", "limit")
        self.rt("rt: chose --jobs 2 for upper", FALSE, LIMIT)
        status, lines = self.run_edits()
        self.assertEqual((status, self.runs()), (0, ["check", "must-fail upper"]))
        self.assertEqual(lines[0], "upper false: refused: ./proofs/kept/Answers.antt:5:13: error: `returns`: it differs")
        self.assertEqual(lines[-1], "2 refused, 0 not as they must be, 0 of which nothing was said")

    def test_a_check_that_was_cut_off(self):
        self.edit("false", "lost")
        self.rt(FALSE, LOST)
        status, lines = self.run_edits("upper")
        self.assertEqual((status, lines[1].startswith("upper lost: NOT TRIED: ")), (1, True))
        self.assertEqual(lines[-1], "1 refused, 1 not as they must be, 0 of which nothing was said")

    def test_an_edit_of_which_nothing_is_said(self):
        self.edit("false", "lost")
        self.rt(FALSE)
        self.assertEqual(self.run_edits(), (1, ["upper false: refused: ./proofs/kept/Answers.antt:5:13: error: `returns`: it differs",
                                                "1 refused, 0 not as they must be, 1 of which nothing was said"]))

    def test_stops_in_one_line(self):
        self.edit("false")
        self.rt(FALSE)
        self.assertEqual(self.run_edits("lower", "other"), (2, ["edits: no crate of crates.txt with must-fail edits: lower other"]))
        self.assertEqual(self.run_edits("--all")[0], 2)
        self.assertEqual(self.runs(), [])


if __name__ == "__main__":
    unittest.main()
