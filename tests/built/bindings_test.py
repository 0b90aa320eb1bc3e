"""The library from python and from Rust, against what the program `verdict` prints. On x86-64 with the proved library. On
another processor, for which the kit compiles nothing, with one compiled there from the same module, if the tool for that
is at hand; then it is the bindings that are tested and not the library."""
import os
import platform
import shutil
import struct
import subprocess
import sys
import tempfile
import threading
import unittest

TOP = os.path.dirname(os.path.dirname(os.path.dirname(os.path.abspath(__file__))))
sys.path[:0] = [TOP, os.path.join(TOP, "tools"), os.path.join(TOP, "bindings", "python")]

import library  # noqa: E402
import ndurabeew  # noqa: E402
import sheets  # noqa: E402
from coordinator import building, programs  # noqa: E402
from coordinator.sheet_format import bits  # noqa: E402

NATIVE = os.path.join(TOP, "..", "shared", "tools", "native_lib")
HERE = platform.machine() == "x86_64"


def lacking(*commands):
    found = [command for command in commands if shutil.which(command) is None]
    return found + ([] if HERE or os.path.exists(NATIVE) else ["a library for " + platform.machine()])


def have_library():
    """The static library that programs of this machine link."""
    if HERE:
        return library.have()
    path = os.path.join(TOP, "target", "native", "joined", "libdesk.a")
    if not os.path.exists(path) or any(building.is_old(name, path) for name in library.CRATES):
        for name in library.CRATES:
            subprocess.run([NATIVE, name], cwd=TOP, stdout=subprocess.DEVNULL, stderr=subprocess.DEVNULL, check=True)
        library.joined([os.path.join("target", "native", "lib%s.a" % name) for name in library.CRATES], path)
    return path


def examples():
    return [os.path.join(folder, name) for folder, _, names in os.walk(os.path.join(TOP, "examples"))
            for name in sorted(names) if name.endswith(".sheet")]


def told(data, limits=(0.0, 0.1, 0.001)):
    """The lines of the program."""
    return programs.run("verdict", struct.pack("<dddI", *limits, len(data)) + data).decode("ascii")


def listing(answer):
    """An answer in the program's lines."""
    lines = ["V %d %d" % answer.verdict, "A %d %d %d %d %d" % answer[:5]]
    lines += ["T %s %d" % entry for entry in answer.record]
    lines += ["N %d %016x %016x" % (i, bits(head), bits(demand))
              for i, (head, demand) in enumerate(zip(answer.heads, answer.demands))]
    lines += ["L %d %016x %d" % (i, bits(flow), status)
              for i, (flow, status) in enumerate(zip(answer.flows, answer.statuses))]
    if answer.number == 0:
        lines.append("B %016x %016x %016x" % tuple(map(bits, (answer.total_demand, answer.total_supply, answer.error))))
    return "\n".join(lines + ["--"]) + "\n"


@unittest.skipIf(lacking("gcc"), "there is lacking: " + ", ".join(lacking("gcc")))
class Python(unittest.TestCase):
    @classmethod
    def setUpClass(cls):
        folder = tempfile.TemporaryDirectory()
        cls.addClassCleanup(folder.cleanup)
        path = os.path.join(folder.name, "libdesk.so")
        subprocess.run(["gcc", "-shared", "-o", path, "-Wl,--whole-archive", have_library(), "-Wl,--no-whole-archive"], check=True)
        cls.desk = ndurabeew.Library(path)

    def test_examples_and_a_part_of_the_list(self):
        data = [case.data for case in sheets.stored()[::40]]
        for path in examples():
            with open(path, "rb") as file:
                data.append(file.read())
        self.assertGreater(len(data), 40)
        for sheet in data:
            self.assertEqual(listing(self.desk.verdict(sheet)), told(sheet))

    def test_limits(self):
        sheet = sheets.EXAMPLES["looped"].encode()
        self.assertEqual((self.desk.verdict(sheet).may_be_sold, self.desk.verdict(sheet, lowest=1e6).may_be_sold), (True, False))
        self.assertEqual(listing(self.desk.verdict(sheet, 1e6, 0.2, 0.3)), told(sheet, (1e6, 0.2, 0.3)))
        self.assertIsNone(self.desk.solve(sheet).verdict)
        self.assertEqual(self.desk.solve(sheet)[:-1], self.desk.verdict(sheet)[:-1])

    def test_any_bytes(self):
        for sheet in (b"", b"OP", bytes(100000)):
            answer = self.desk.verdict(sheet)
            self.assertEqual((answer.number, answer.place, answer.heads, answer.verdict), (1, 0, [], (1, 1)))

    def test_trials_one_by_one(self):
        for sheet in [case.data for case in sheets.stored()[::80]] + [sheets.EXAMPLES["looped"].encode(), b"", b"OP"]:
            whole, trials, entries = self.desk.solve(sheet), self.desk.trials(sheet), []
            while trials.told.how == ndurabeew.MORE:
                self.assertIsNone(trials.answer())
                self.assertEqual(trials.take().trials, len(entries) + 1)
                entries.append(trials.entry)
            self.assertEqual(trials.told.how == ndurabeew.REFUSED, whole.number in (1, 2, 3, 4))
            self.assertEqual(entries, whole.record)
            held, told = bytes(trials.state), trials.told
            self.assertEqual((trials.take(), bytes(trials.state)), (told, held))
            self.assertEqual(repr(trials.answer()), repr(whole))

    def test_threads(self):
        sheet, found = sheets.EXAMPLES["looped"].encode(), []
        alone = self.desk.verdict(sheet)
        threads = [threading.Thread(target=lambda: found.append(self.desk.verdict(sheet))) for _ in range(16)]
        for thread in threads:
            thread.start()
        for thread in threads:
            thread.join()
        self.assertEqual(found, [alone] * 16)


@unittest.skipIf(lacking("cargo"), "there is lacking: " + ", ".join(lacking("cargo")))
class Rust(unittest.TestCase):
    def cargo(self, *words):
        done = subprocess.run(
            ["cargo", *words[:1], "--offline", "--quiet", "--manifest-path", os.path.join(TOP, "bindings", "rust", "Cargo.toml"),
             "--target-dir", os.path.join(TOP, "target", "bindings"), *words[1:]], stdout=subprocess.PIPE, stderr=subprocess.PIPE,
            universal_newlines=True, check=False, env=dict(os.environ, NDURABEEW_LIB=os.path.dirname(have_library())))
        self.assertEqual(done.returncode, 0, done.stdout + done.stderr)
        return done.stdout

    def test_its_own_tests(self):
        self.assertIn("5 passed", self.cargo("test"))

    def test_examples(self):
        said = self.cargo("run", "--example", "bits", "--", *examples())
        expected = []
        for path in examples():
            with open(path, "rb") as file:
                expected.append(told(file.read()))
        self.assertEqual(said, "".join(expected))


if __name__ == "__main__":
    unittest.main()
