"""How much stack a call needs, and calls from several threads: what include/desk.h says of both, measured by stack.c."""
import os
import re
import sys
import tempfile
import unittest

TOP = os.path.dirname(os.path.dirname(os.path.dirname(os.path.abspath(__file__))))
sys.path[:0] = [TOP, os.path.join(TOP, "tools")]

import c_test  # noqa: E402
import inp_files  # noqa: E402
import library  # noqa: E402
import sheets  # noqa: E402
from stored import read  # noqa: E402

SOURCE = os.path.join(TOP, "tests", "built", "stack.c")
HEADER = read("include/desk.h").decode()
KIB = 1024


def named(folder):
    """Networks of every kind, full ones and refused ones among them."""
    found = [case for case in sheets.stored() if re.match(r"(pd-)?(real|wild|damaged)-\d+-\d$|2-64-nodes|june", case.name)]
    for case in found:
        with open(os.path.join(folder, case.name + ".sheet"), "wb") as file:
            file.write(case.data)
    return [os.path.join(folder, case.name + ".sheet") for case in found]


def texts(folder):
    """Texts of every kind, a full one with names as long as may be, and the one of the examples."""
    made = [case.text for case in inp_files.cases(7, 50)]
    node, link = b"n" * 28 + b"%03d", b"l" * 27 + b"%04d"
    junctions = b"".join(node % i + b" 9.9999999999999999e-20 1e20\n" for i in range(512))
    pipes = b"".join(link % i + b" " + node % (i % 512) + b" " + node % 511 + b" 1e3 .1e3 130 0 CV\n" for i in range(1024))
    made.append(b"[JUNCTIONS]\n" + junctions + b"[PIPES]\n" + pipes)
    for i, text in enumerate(made):
        with open(os.path.join(folder, "%d.inp" % i), "wb") as file:
            file.write(text)
    return [os.path.join(folder, "%d.inp" % i) for i in range(len(made))] + [os.path.join(TOP, "examples", "terraces.inp")]


class Stack(unittest.TestCase):
    @classmethod
    def setUpClass(cls):
        library.have()
        folder = tempfile.TemporaryDirectory()
        cls.addClassCleanup(folder.cleanup)
        build = c_test.build
        command = build(os.path.join(folder.name, "stack"), source=SOURCE)
        cls.lines = [line.split() for line in c_test.said(*command, *named(folder.name), *texts(folder.name)).splitlines()]

    def most(self, what):
        found = [int(line[2]) for line in self.lines if line[1] == what]
        self.assertGreater(len(found), 40)
        return max(found)

    def test_what_the_header_says_is_enough_and_not_far_from_it(self):
        for what in ("desk_solve", "desk_verdict", "desk_evening", "desk_evening_verdict", "desk_text"):
            told = re.search(r"(\d+) KiB for(?:\s+desk_\w+ and)?\s+%s\b" % what, HEADER)
            self.assertIsNotNone(told, "desk.h does not say how much stack %s needs" % what)
            self.assertLessEqual(self.most(what), int(told.group(1)) * KIB, what)
            self.assertGreater(self.most(what), int(told.group(1)) * KIB / 2, what)

    def test_threads(self):
        self.assertIn("several threads may call at the same time", " ".join(HEADER.split()))
        self.assertEqual(self.lines[-1], ["threads", "same"])


if __name__ == "__main__":
    unittest.main()
