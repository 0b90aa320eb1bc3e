"""The programs where standard input cannot be read or standard output cannot be written: they say so on standard error
and end with a status other than 0, and what was read only in part is not solved. A read that fails behind whole records
is had from a terminal whose other end was closed."""
import os
import pty
import struct
import subprocess
import sys
import tty
import unittest
from unittest import mock

ROOT = os.path.dirname(os.path.dirname(os.path.dirname(os.path.abspath(__file__))))
sys.path[:0] = [ROOT]

from coordinator import asking, programs  # noqa: E402
from coordinator.limits import USUAL  # noqa: E402

NO_INPUT = (1, b"standard input cannot be read\n")
NO_OUTPUT = (1, b"standard output cannot be written\n")


def example(name):
    with open(os.path.join(ROOT, "examples", name + ".sheet"), "rb") as file:
        return file.read()


def item(data):
    return struct.pack("<I", len(data)) + data


SHEET = example("document01")
LIMITS = struct.pack("<ddd", *USUAL)
# what each program takes for one sheet
TAKES = {"listing": SHEET, "replay": item(SHEET), "steps": item(SHEET), "verdict": LIMITS + item(SHEET),
         "evening": struct.pack("<I", 1) + item(SHEET) + struct.pack("<I2d", 2, 0.0, 0.0)}
TAKES["evening_verdict"] = LIMITS + TAKES["evening"]


def ended(name, **streams):
    """Exit status, standard error and standard output."""
    streams.setdefault("stdout", subprocess.PIPE)
    done = subprocess.run(programs.command(name), stderr=subprocess.PIPE, check=False, **streams)
    return (done.returncode, done.stderr), done.stdout


def by_shell(name, streams, data=b""):
    """The same with the shell's words for its streams."""
    done = subprocess.run(["bash", "-c", '"$@" ' + streams, "bash"] + programs.command(name), input=data, stdout=subprocess.PIPE,
                          stderr=subprocess.PIPE, check=False)
    return (done.returncode, done.stderr), done.stdout


def failing_behind(name, data):
    """With an input of these bytes behind which a read fails."""
    near, far = pty.openpty()
    try:
        tty.setraw(far)
        os.write(far, data)
        os.close(far)
        return ended(name, stdin=near)
    finally:
        os.close(near)


class Programs(unittest.TestCase):
    def test_with_nothing_wrong(self):
        for name, data in TAKES.items():
            with self.subTest(name):
                end, out = ended(name, input=data)
                self.assertEqual(end, (0, b""))
                self.assertIn(b"A 0 0 2 0 1\nT GN 1\n", out)

    def test_an_input_that_cannot_be_read(self):
        for name in TAKES:
            with self.subTest(name):
                folder = os.open("/", os.O_RDONLY)
                self.addCleanup(os.close, folder)
                self.assertEqual(ended(name, stdin=folder), (NO_INPUT, b""))
                self.assertEqual(by_shell(name, "<&-"), (NO_INPUT, b""))

    def test_a_read_that_fails_behind_a_whole_sheet(self):
        """At a record's boundary the sheet would be a good one."""
        self.assertEqual(failing_behind("listing", SHEET), (NO_INPUT, b""))
        node = SHEET[:29 + 45]
        self.assertNotEqual(programs.run("listing", node), b"")
        self.assertEqual(failing_behind("listing", node), (NO_INPUT, b""))

    def test_a_read_that_fails_behind_whole_sheets(self):
        for name, data in TAKES.items():
            if name != "listing":
                with self.subTest(name):
                    whole = programs.run(name, data)
                    for more in (b"", data[:1], data[:-1]):
                        self.assertEqual(failing_behind(name, data + more), (NO_INPUT, whole), more)

    def test_an_output_that_cannot_be_written(self):
        for name, data in TAKES.items():
            with self.subTest(name), open("/dev/full", "wb") as full:
                for (status, said), _ in (ended(name, input=data, stdout=full), by_shell(name, ">&-", data)):
                    # those of evenings say it for each part that they cannot write
                    times = said.count(b"\n") if name.startswith("evening") else 1
                    self.assertEqual((status, said), (NO_OUTPUT[0], times * NO_OUTPUT[1]))

    def test_many_sheets_for_an_output_that_is_full(self):
        """It stops at the first."""
        with open("/dev/full", "wb") as full:
            self.assertEqual(ended("replay", input=1000 * TAKES["replay"], stdout=full)[0], NO_OUTPUT)

    def test_a_reader_that_has_gone(self):
        """The system ends the program."""
        for name, data in TAKES.items():
            with self.subTest(name):
                near, far = os.pipe()
                os.close(near)
                try:
                    self.assertNotEqual(ended(name, input=data, stdout=far)[0][0], 0)
                finally:
                    os.close(far)

    def test_a_long_sheet(self):
        long = example("document01") + bytes(70000)
        self.assertEqual(programs.run("listing", long), b"A 1 119 0 0 0\n")
        with open("/dev/full", "wb") as full:
            self.assertEqual(ended("listing", input=long, stdout=full)[0], NO_OUTPUT)


class Desk(unittest.TestCase):
    def test_such_an_end_is_no_answer(self):
        """Whatever the program had printed before."""
        printed = programs.run("verdict", TAKES["verdict"]).decode("ascii")
        self.assertEqual(asking.ask([SHEET], USUAL)[0].verdict, 2)
        program = ["sh", "-c", 'cat >/dev/null; printf %s "$1"; exit 1', "sh", printed]
        with mock.patch.object(programs, "command", lambda name: program), self.assertRaises(asking.NotToBeHad) as trouble:
            asking.ask([SHEET], USUAL)
        self.assertIn("the program `verdict` does not run", str(trouble.exception))


if __name__ == "__main__":
    unittest.main()
