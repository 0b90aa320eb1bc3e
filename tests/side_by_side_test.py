"""tools/side_by_side.py: every module of a folder is run, and one that fails is seen."""
import os
import subprocess
import sys
import tempfile
import unittest

TOP = os.path.dirname(os.path.dirname(os.path.abspath(__file__)))
MODULE = "import unittest\n\n\nclass One(unittest.TestCase):\n    def test_it(self):\n        self.assertEqual(%d, 1)\n"


def ended(**modules):
    """The exit status and what was printed, of a folder with these modules."""
    with tempfile.TemporaryDirectory() as folder:
        for name, text in modules.items():
            with open(os.path.join(folder, name + ".py"), "w", encoding="utf-8") as file:
                file.write(text)
        done = subprocess.run([sys.executable, os.path.join(TOP, "tools", "side_by_side.py"), folder], stdout=subprocess.PIPE,
                              stderr=subprocess.STDOUT, universal_newlines=True, check=False)
    return done.returncode, done.stdout


class SideBySide(unittest.TestCase):
    def test_all_pass(self):
        status, said = ended(a_test=MODULE % 1, b_test=MODULE % 1, helper="raise ValueError")
        self.assertEqual(status, 0, said)
        self.assertEqual(said.count("Ran 1 test in"), 2)
        self.assertIn("2 test modules", said)

    def test_one_fails_among_many(self):
        names = {"m%d_test" % i: MODULE % 1 for i in range(5)}
        status, said = ended(**names, last_test=MODULE % 2)
        self.assertEqual(status, 1)
        self.assertIn("AssertionError: 2 != 1", said)
        self.assertRegex(said, r"6 test modules of \S+, 1 failed \S+last_test\.py\n$")

    def test_one_cannot_be_loaded(self):
        self.assertEqual(ended(a_test=MODULE % 1, b_test="import no_such_thing\n")[0], 1)

    def test_one_ends_early(self):
        self.assertEqual(ended(a_test=MODULE % 1, b_test="import os\nos._exit(7)\n")[0], 1)

    def test_none_is_no_success(self):
        self.assertEqual(ended()[0], 1)


if __name__ == "__main__":
    unittest.main()
