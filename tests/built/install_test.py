"""What `make install` puts below a prefix, used without the repository and without `rt` on the path."""
import json
import os
import shutil
import subprocess
import sys
import tempfile
import unittest

TOP = os.path.dirname(os.path.dirname(os.path.dirname(os.path.abspath(__file__))))
sys.path[:0] = [TOP, os.path.join(TOP, "tools")]

import c_test  # noqa: E402
from coordinator import VERSION  # noqa: E402

TEXT = b"""options flow-unit L/s
reservoir pond   head 50 m
junction  field  elevation 10 m  demand 5 L/s
pipe pond -> field  length 400 m  diameter 150 mm  roughness 130
"""


class Installed(unittest.TestCase):
    @classmethod
    def setUpClass(cls):
        cls.folder = tempfile.TemporaryDirectory()
        cls.addClassCleanup(cls.folder.cleanup)
        cls.prefix = os.path.join(cls.folder.name, "a prefix")
        # what `make install PREFIX=...` runs
        subprocess.run([sys.executable, "tools/install.py", cls.prefix], cwd=TOP, stdout=subprocess.DEVNULL, check=True)
        # a path with python3 on it and nothing else
        cls.path = os.path.join(cls.folder.name, "bin")
        os.mkdir(cls.path)
        with open(os.path.join(cls.path, "python3"), "w", encoding="utf-8") as file:
            file.write('#!/bin/sh\nexec "%s" "$@"\n' % sys.executable)
        os.chmod(os.path.join(cls.path, "python3"), 0o755)
        cls.elsewhere = os.path.join(cls.folder.name, "elsewhere")
        os.mkdir(cls.elsewhere)
        for name in ("june", "looped"):
            shutil.copy(os.path.join(TOP, "examples", name + ".sheet"), cls.elsewhere)
        shutil.copy(os.path.join(TOP, "examples", "terraces.inp"), cls.elsewhere)
        with open(os.path.join(cls.elsewhere, "field.txt"), "wb") as file:
            file.write(TEXT)

    def desk(self, *args):
        """The installed command in another folder."""
        done = subprocess.run([os.path.join(self.prefix, "bin", "desk"), *args], cwd=self.elsewhere, stdout=subprocess.PIPE,
                              stderr=subprocess.PIPE, universal_newlines=True, check=False,
                              env={"PATH": self.path, "HOME": self.elsewhere})
        self.assertEqual(done.stderr, "")
        return done.returncode, done.stdout

    def test_rt_is_not_on_that_path(self):
        self.assertIsNone(shutil.which("rt", path=self.path))

    def test_the_package_is_the_installed_one(self):
        code = "import sys; sys.path.insert(0, %r); import coordinator.programs as p; print(p.path('verdict'))" % os.path.join(
            self.prefix, "lib", "ndurabeew")
        said = subprocess.run([sys.executable, "-c", code], cwd=self.elsewhere, stdout=subprocess.PIPE, check=True,
                              universal_newlines=True).stdout
        self.assertEqual(os.path.realpath(said.strip()), os.path.realpath(
            os.path.join(self.prefix, "lib", "ndurabeew", "programs", "verdict")))

    def test_the_desk(self):
        self.assertEqual(self.desk("--version"), (0, "desk %s\n" % VERSION))
        status, out = self.desk("field.txt")
        self.assertEqual(status, 0, out)
        self.assertIn("these pressures may be sold\n", out)
        self.assertIn("  field ", out)
        status, out = self.desk("--json", "--plot", "out.svg", "june.sheet", "looped.sheet")
        self.assertEqual((status, [entry["exit_status"] for entry in json.loads(out)]), (3, [3, 0]))
        self.assertEqual(sorted(name for name in os.listdir(self.elsewhere) if name.endswith(".svg")),
                         ["out-1-june.svg", "out-2-looped.svg"])

    def test_an_epanet_text(self):
        status, out = self.desk("terraces.inp")
        self.assertEqual((status, out.splitlines()[0]), (0, "solved in 6 trials; these pressures may be sold"))

    def test_bookings(self):
        with open(os.path.join(self.elsewhere, "week.csv"), "w", encoding="ascii") as file:
            file.write("18:00,vines,6 L/s\n")
        status, out = self.desk("--bookings", "week.csv", "terraces.inp")
        self.assertEqual(status, 0, out)
        self.assertTrue(out.startswith("18:00  yes  1 hydrant with 6.00 LPS; "), out)

    def test_a_long_file_asks_the_other_program(self):
        with open(os.path.join(self.elsewhere, "long.sheet"), "wb") as file:
            file.write(bytes(70000))
        self.assertEqual(self.desk("long.sheet")[0], 1)

    def test_library_and_header(self):
        """The example in C, against what was installed alone."""
        program = os.path.join(self.elsewhere, "solve")
        build = c_test.build
        command = build(program, os.path.join(self.prefix, "include"), os.path.join(self.prefix, "lib", "libdesk.a"))
        said = c_test.said(*command, os.path.join(self.elsewhere, "looped.sheet"))
        self.assertIn("verdict 0, place 0: it may be sold", said)

    def test_papers_and_modes(self):
        for name, mode in (("bin/desk", 0o755), ("lib/ndurabeew/programs/listing", 0o755), ("include/desk.h", 0o644),
                           ("share/doc/ndurabeew/DESK.md", 0o644), ("share/doc/ndurabeew/INP.md", 0o644), ("share/doc/ndurabeew/desk.schema.json", 0o644)):
            self.assertEqual(os.stat(os.path.join(self.prefix, name)).st_mode & 0o777, mode, name)


if __name__ == "__main__":
    unittest.main()
