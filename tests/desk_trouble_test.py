"""The desk where something is wrong around it: output that is closed or full, files that are in the way, endless or
enormous, no kit, a build that fails, is interrupted or runs beside another. It never shows a traceback."""
import contextlib
import io
import os
import signal
import stat
import subprocess
import sys
import tempfile
import time
import unittest
from unittest import mock

TOP = os.path.dirname(os.path.dirname(os.path.abspath(__file__)))
sys.path[:0] = [TOP, os.path.join(TOP, "tools")]

from coordinator import asking, building, main, programs, refusals
from desk_test import desk, example
from stored import read

TEXT = b"reservoir pond head 100 ft\njunction field elevation 5 ft demand 1 CFS\npipe pond -> field resistance 1\n"


def shell(line, **settings):
    """The exit status and standard error of a shell's line, in which $DESK is the command."""
    done = subprocess.run(["bash", "-c", line], env=dict(os.environ, DESK=os.path.join(TOP, "desk"), **settings), cwd=TOP,
                          stdout=subprocess.PIPE, stderr=subprocess.PIPE, universal_newlines=True, check=False)
    return done.returncode, done.stderr



def running(pid):
    """Whether a process is there and has not ended; one that nobody has waited for yet has."""
    try:
        with open("/proc/%d/stat" % pid, encoding="ascii", errors="replace") as stat:
            return stat.read().rpartition(")")[2].split()[0] != "Z"
    except (FileNotFoundError, ProcessLookupError):
        return False

class Folder(unittest.TestCase):
    def setUp(self):
        folder = tempfile.TemporaryDirectory()
        self.addCleanup(folder.cleanup)
        self.folder = folder.name

    def path(self, *names, data=None):
        path = os.path.join(self.folder, *names)
        if data is not None:
            with open(path, "wb") as file:
                file.write(data)
        return path

    def bytes_of(self, *names):
        with open(self.path(*names), "rb") as file:
            return file.read()


class Streams(Folder):
    def lost(self, line, words):
        status, err = shell(line)
        self.assertEqual((status, err), (2, words and "desk: standard output %s\n" % words), line)

    def test_full(self):
        self.lost("$DESK --explain examples/june.sheet >/dev/full", "cannot be written: No space left on device")
        self.lost("$DESK --help >/dev/full", "cannot be written: No space left on device")

    def test_closed(self):
        self.lost("$DESK --explain examples/june.sheet >&-", "is closed")
        self.lost("$DESK --explain examples/june.sheet >&- 2>&-", "")

    def test_a_reader_that_has_gone(self):
        self.lost("$DESK --explain examples/june.sheet | true; exit ${PIPESTATUS[0]}", "cannot be written: Broken pipe")

    def test_no_file_gets_into_the_place_of_a_closed_stream(self):
        text, out = self.path("a.txt", data=TEXT), self.path("a.sheet")
        self.assertEqual(shell("$DESK --sheet %s -o %s 0<&- 1>&- 2>&-" % (text, out)), (2, ""))
        self.assertEqual(len(self.bytes_of("a.sheet")), 186 - 18)

    def test_a_fault_of_the_desk_is_one_line(self):
        with contextlib.redirect_stderr(io.StringIO()) as err, mock.patch("coordinator.streams.prepare"), \
                mock.patch("coordinator.main.main", lambda args: 1 // 0):
            self.assertEqual(main.command([]), 2)
        self.assertRegex(err.getvalue(), r"^desk: a fault in the desk, to be reported: ZeroDivisionError at .*\n$")


class Inputs(Folder):
    def told(self, *args):
        status, out, err = desk(*args)
        self.assertEqual((status, out), (2, ""))
        self.assertEqual(err.count("\n"), 1, err)
        return err

    def test_an_endless_file(self):
        for args in ((), ("--explain",)):
            self.assertIn("/dev/zero goes on after 1048576 bytes", self.told(*args, "/dev/zero"))
        self.assertIn("/dev/zero goes on after", self.told("--sheet", "/dev/zero", "-o", self.path("a.sheet")))

    def test_a_long_file_is_not_held(self):
        long = self.path("long.sheet")
        with open(long, "wb") as file:
            file.truncate(200 * 1000 * 1000)
        asked = []
        out = io.StringIO()
        with contextlib.redirect_stdout(out):
            status = main.main([long], lambda sheets, limits: asked.extend(sheets) or [asking.of_listing("A 1 0 0 0 0\n")])
        self.assertEqual((status, asked), (1, [long]))
        self.assertTrue(out.getvalue().startswith(
            "refused, number 1 at place 0: the file is longer than any sheet, and no record can be read at byte 0\n"))
        self.assertEqual(refusals.explain(b"", 2, 1, whole=False).why, "the file is longer than any sheet and holds too many links")
        with mock.patch("coordinator.asking.output", lambda name, sheet: {("listing", long): "A 2 0 0 0 0\n"}[name, sheet]):
            self.assertEqual(asking.ask([long], None), [(1, 2, "A 2 0 0 0 0\n")])

    def test_figures_that_no_machine_can_work_out(self):
        for line in ("pipe pond -> field length 1 ft diameter 1e-300 ft roughness 100",
                     "pipe pond -> field length 1 ft diameter 1 ft roughness 1e-300",
                     "pipe pond -> field resistance 1e-300 minor-loss 1e400",
                     "PRV pond -> field setting 1e-300 psi diameter 1e-300 mm",
                     "pipe pond -> field length 1e308 m diameter 1e-10 m roughness 1"):
            text = self.path("a.txt", data=TEXT + line.encode() + b"\n")
            status, out, err = desk("--sheet", text, "-o", self.path("a.sheet"))
            self.assertEqual((status, out), (2, ""), line)
            self.assertTrue(err.startswith(text + ":4: "), err)

    def test_a_message_quotes_a_line_of_it_at_most(self):
        bad = b"junction \x1b[2J\x07 elevation 1 " + b"x" * 100000 + b"\npump\xe2\x80\xae a\n"
        _, _, err = desk("--sheet", self.path("a.txt", data=bad), "-o", self.path("a.sheet"))
        first, second = err.splitlines()
        self.assertIn(" " + "x" * 57 + "... is no unit for elevation", first)
        self.assertIn("pump\\u202e is no kind of record", second)
        self.assertTrue(err.replace("\n", "").isprintable())
        name = self.path("no\x1b[31m\nsuch")
        self.assertIn("no\\x1b[31m\\nsuch cannot be read", self.told(name))
        self.assertIn("\\x1b", desk("--\x1b")[2])
        self.assertLess(len(desk("--least", "9" * 100000)[2]), 1200)

    def test_many_mistakes_are_counted(self):
        _, _, err = desk("--sheet", self.path("a.txt", data=b"pump\n" * 1000), "-o", self.path("a.sheet"))
        self.assertEqual(len(err.splitlines()), 41)
        self.assertTrue(err.endswith("a.txt: and 960 more mistakes\n"))

    def test_lines_are_counted_as_editors_do(self):
        _, _, err = desk("--sheet", self.path("a.txt", data=b"#\x0c\x1c\xe2\x80\xa8\r\npump\r\n"), "-o", self.path("a.sheet"))
        self.assertIn("a.txt:2: pump is no kind", err)


class Outputs(Folder):
    def test_an_input_is_never_written_over(self):
        text = self.path("a.txt", data=TEXT)
        os.symlink(text, self.path("link"))
        os.link(text, self.path("hard"))
        os.symlink(self.folder, self.path("here"))
        for out in (text, self.path("link"), self.path("hard"), self.path("here", "a.txt"), self.path("here", "link")):
            status, _, err = desk("--sheet", text, "-o", out)
            self.assertEqual(status, 2, out)
            self.assertEqual(self.bytes_of("a.txt"), TEXT, out)
        self.assertIn("link would be written over, and it is an input", desk("--sheet", text, "-o", self.path("link"))[2])

    def test_nor_where_it_comes_by_standard_input(self):
        text = self.path("a.txt", data=TEXT)
        for line in ("$DESK --sheet - -o %s <%s" % (text, text), "$DESK --text - -o %s <%s" % (text, text)):
            status, err = shell(line)
            self.assertEqual((status, self.bytes_of("a.txt")), (2, TEXT), err)
            self.assertIn("a.txt would be written over, and it is an input", err)
        # what is no file may be both
        self.assertEqual(shell("$DESK --sheet - -o /dev/null <%s" % text)[0], 0)
        self.assertEqual(shell("cat %s | $DESK --sheet - -o %s" % (text, self.path("b.sheet")))[0], 0)

    def test_nor_by_a_picture(self):
        data = read("examples/june.sheet")
        sheet = self.path("a.svg", data=data)
        os.symlink(sheet, self.path("b.svg"))
        for picture in (sheet, self.path("b.svg")):
            status, out, err = desk("--plot", picture, sheet)
            self.assertEqual((status, self.bytes_of("a.svg")), (2, data))
            self.assertIn("it is an input", err)
            self.assertTrue(out.startswith("solved in 13 trials"))

    def test_a_picture_that_cannot_be_written_takes_nothing_from_the_answer(self):
        os.mkdir(self.path("a.svg"))
        for picture in (self.path("a.svg"), self.path("none", "a.svg")):
            status, out, err = desk("--plot", picture, example("june"))
            self.assertEqual(status, 2)
            self.assertTrue(out.startswith("solved in 13 trials"))
            self.assertIn("cannot be written", err)
            self.assertIn('"number": 2', desk("--json", "--plot", picture, example("june"))[1])

    def test_whole_or_not_at_all(self):
        self.path("a.sheet", data=b"old")
        text = self.path("a.txt", data=TEXT)
        before = sorted(os.listdir(self.folder))
        for at in ("os.replace", "os.fsync"):
            with mock.patch(at, side_effect=OSError(28, "No space left on device")):
                status, out, err = desk("--sheet", text, "-o", self.path("a.sheet"))
            self.assertEqual((status, out), (2, ""))
            self.assertIn("a.sheet cannot be written: No space left on device", err)
            self.assertEqual((self.bytes_of("a.sheet"), sorted(os.listdir(self.folder))), (b"old", before))
        self.assertEqual(desk("--sheet", text, "-o", self.path("a.sheet"))[0], 0)
        self.assertEqual((len(self.bytes_of("a.sheet")), sorted(os.listdir(self.folder))), (168, before))

    def test_a_link_stays_one_and_a_device_stays_one(self):
        text, new = self.path("a.txt", data=TEXT), self.path("new.sheet", data=b"old")
        os.chmod(new, 0o600)
        os.symlink(new, self.path("link"))
        self.assertEqual(desk("--sheet", text, "-o", self.path("link"))[0], 0)
        self.assertTrue(os.path.islink(self.path("link")))
        self.assertEqual((len(self.bytes_of("new.sheet")), stat.S_IMODE(os.stat(new).st_mode)), (168, 0o600))
        self.assertEqual(desk("--sheet", text, "-o", "/dev/null")[0], 0)
        self.assertTrue(stat.S_ISCHR(os.stat("/dev/null").st_mode))
        self.assertIn("No space left", desk("--sheet", text, "-o", "/dev/full")[2])


FAKE_RT = """#!/bin/sh
# stands in for the kit's command
echo "$@" >>../../runs
%s
"""
BUILDS = """echo "logic=proved functions=1 sum=0" >&2
sleep 0.4
echo "logic=proved functions=2 target=x86_64-unknown-linux-gnu sum=0" >&2
mkdir -p out
[ -e out/verdict ] || echo program >out/verdict
echo "rt: running out/verdict" >&2
echo "what the program prints"
exit 1"""


class Builds(Folder):
    """A repository of two crates, with a command that stands in for the kit's."""

    def setUp(self):
        super().setUp()
        for name in ("numbers", "verdict", "other"):
            os.makedirs(self.path("crates", name, "src"))
            self.path("crates", name, "src", "main.rt", data=b"")
        self.path("crates.txt", data=b"numbers: std\nother:\nverdict: numbers\n")
        os.mkdir(self.path("kit"))
        self.rt(BUILDS)

    def rt(self, does):
        self.path("kit", "rt", data=(FAKE_RT % does).encode())
        os.chmod(self.path("kit", "rt"), 0o755)

    def have(self):
        """What the desk says while it makes sure of the program, and what it gave up with."""
        with contextlib.redirect_stderr(io.StringIO()) as err, mock.patch("coordinator.programs.ROOT", self.folder), \
                mock.patch.dict(os.environ, {"PATH": self.path("kit") + ":" + os.environ["PATH"]}):
            try:
                building.have("verdict")
                return err.getvalue(), None
            except building.NotToBeHad as error:
                return err.getvalue(), str(error)

    def without_rt(self):
        with mock.patch("shutil.which", lambda name: None):
            return self.have()

    def runs(self):
        return self.bytes_of("runs").decode().splitlines() if os.path.exists(self.path("runs")) else []

    def script(self):
        return [sys.executable, "-c", "import sys; sys.path.insert(0, %r)\nfrom coordinator import building, programs, main\n"
                "programs.ROOT = %r\nmain.main = lambda args: building.have('verdict')\nsys.exit(main.command([]))"
                % (TOP, self.folder)]

    def start(self):
        # a job in the background is started deaf to interrupts, and would hand that on
        return subprocess.Popen(self.script(), stderr=subprocess.PIPE, universal_newlines=True,
                                preexec_fn=lambda: signal.signal(signal.SIGINT, signal.SIG_DFL),
                                env=dict(os.environ, PATH=self.path("kit") + ":" + os.environ["PATH"]))

    def test_the_first_build_says_how_far_it_is(self):
        err, failed = self.have()
        self.assertIsNone(failed)
        self.assertIn("desk: the program `verdict` is not built yet: proving and building it", err)
        self.assertRegex(err, r"\ndesk: 2 of 2 crates proved, \d+ s\n$")
        self.assertEqual(self.runs(), ["run"])
        self.assertEqual(self.have(), ("", None))

    def test_a_word_now_and_then(self):
        with mock.patch("coordinator.building.PATIENCE", 0):
            self.assertIn("desk: 1 of 2 crates proved, 0 s\n", self.have()[0])
        self.assertEqual(building.time_words(125.7), "2 min 05 s")

    def test_a_program_older_than_its_sources_is_built_anew(self):
        self.have()
        os.utime(self.path("crates", "other", "src", "main.rt"), (time.time() + 60, time.time() + 60))
        self.assertEqual(self.have(), ("", None))
        later = time.time() - 5
        os.utime(self.path("crates", "verdict", "out", "verdict"), (later - 5, later - 5))
        os.utime(self.path("crates", "numbers", "src", "main.rt"), (later, later))
        self.assertIn("desk: the program `verdict` is older than its sources: proving and building it", self.have()[0])
        self.assertEqual(len(self.runs()), 2)
        self.assertEqual(self.have(), ("", None))
        os.utime(self.path("crates", "verdict", "out", "verdict"), (later - 5, later - 5))
        err, failed = self.without_rt()
        self.assertEqual((err.count("\n"), failed), (1, None))
        self.assertIn("is older than its sources, and the Rattle kit's command `rt`", err)
        self.assertIn("; it is asked as it is\n", err)

    def test_a_source_of_tomorrow(self):
        self.have()
        tomorrow = time.time() + 86400
        os.utime(self.path("crates", "numbers", "src", "main.rt"), (tomorrow, tomorrow))
        self.assertIn("is older than its sources", self.have()[0])
        self.assertEqual(self.have(), ("", None))

    def test_an_old_program_in_a_tree_that_cannot_be_written(self):
        self.have()
        os.utime(self.path("crates", "verdict", "out", "verdict"), (1, 1))
        with mock.patch("coordinator.building.alone", side_effect=PermissionError(13, "Permission denied")):
            err, failed = self.have()
        self.assertIsNone(failed)
        self.assertIn("cannot be built: [Errno 13] Permission denied; it is asked as it is\n", err)

    def test_an_old_program_whose_sources_are_not_proved_is_not_asked(self):
        self.have()
        os.utime(self.path("crates", "verdict", "out", "verdict"), (1, 1))
        self.rt("echo logic=not-proved >&2; exit 1")
        self.assertIn("did not build the program", self.have()[1])

    def test_two_at_the_same_time_build_once(self):
        two = [self.start(), self.start()]
        said = [one.communicate()[1] for one in two]
        self.assertEqual(([one.returncode for one in two], self.runs()), ([0, 0], ["run"]))
        self.assertEqual(["another desk is building; waiting for it" in words for words in sorted(said, key=len)], [True, False])

    def test_an_interrupted_build(self):
        self.rt("echo $$ >../../pid; sleep 60")
        one = self.start()
        while not os.path.exists(self.path("pid")) or not self.bytes_of("pid"):
            time.sleep(0.02)
        one.send_signal(signal.SIGINT)
        said = one.communicate()[1]
        self.assertEqual((one.returncode, said.splitlines()[-1]), (2, "desk: interrupted"))
        self.assertNotIn("Traceback", said)
        end = time.monotonic() + 30
        while running(int(self.bytes_of("pid"))):
            self.assertLess(time.monotonic(), end, "what was built with runs on")
            time.sleep(0.02)

    def test_without_the_kit(self):
        err, failed = self.without_rt()
        self.assertEqual(err, "")
        self.assertEqual(failed, "the program `verdict` is not built yet, and the Rattle kit's command `rt`, which builds it, "
                         "is not on the path (README.md says what is needed)")

    def test_a_build_that_fails(self):
        self.rt("(seq 100; echo logic=not-proved) >&2; exit 1")
        failed = self.have()[1]
        self.assertTrue(failed.startswith("rt run did not build the program in crates/verdict:\n82\n"), failed)
        self.assertTrue(failed.endswith("\nlogic=not-proved"))

    def test_a_tree_that_cannot_be_written(self):
        self.path("target", data=b"in the way")
        self.assertIn("is not built yet and cannot be built: ", self.have()[1])
        self.assertEqual(self.runs(), [])

    def test_a_built_desk_needs_no_kit_on_the_path(self):
        self.have()
        with mock.patch("coordinator.programs.ROOT", self.folder), mock.patch.dict(os.environ, {"PATH": "/none"}):
            building.have("verdict")
            self.assertEqual(programs.command("verdict"), [self.path("crates", "verdict", "out", "verdict")])
            with self.assertRaises(FileNotFoundError):
                programs.kit()


if __name__ == "__main__":
    unittest.main()
