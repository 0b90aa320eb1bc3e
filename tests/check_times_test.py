"""What tools/check_times.py reads from a gate's output."""
import os
import sys
import unittest

TOP = os.path.dirname(os.path.dirname(os.path.abspath(__file__)))
sys.path.insert(0, os.path.join(TOP, "tools"))

import check_times

PRINTED = """fn roots::square_root::root: proved
rt: roots proved
rt: found is kept: an earlier run on this machine proved the same files over the same libraries
rt: steps proved
rt: steps: its tests are proved
rt: must-fail roots/root_below_zero.edit: refused, as it must be: ./proofs/square_root/root/Answers.antt:31:14: error: `returns`: it differs
rt: must-fail roots/root_of_infinity.edit: refused, as it must be: ./proofs/square_root/root/Answers.antt:34:14: error: `returns`: it differs
rt: must-fail found/found_none.edit: NOT REFUSED: the crate is still proved with this edit (one that means the same as before cannot be refused: remove it)
rt: steps ran, and wrote what its file stdout has
153 passed, 0 failed
"""


class Gate(unittest.TestCase):
    def test_each_crate_with_its_edits(self):
        self.assertEqual(check_times.of_gate(PRINTED), [("roots", 2, 0), ("found", 0, 1), ("steps", 0, 0)])


if __name__ == "__main__":
    unittest.main()
