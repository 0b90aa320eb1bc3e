"""Has a proved program built where it is not there yet, or where it is older than its sources: by `rt run` in the crate's
folder, one desk at a time, with a word about how far it is."""
import contextlib
import fcntl
import os
import re
import select
import shutil
import signal
import subprocess
import sys
import time

from . import crates, programs
from .streams import complain, note

# parts of a crate that its program is made of
PARTS = ("src", "specs", "proofs")
PROVED = re.compile(r"^logic=proved ", re.M)
# rt says so once the program is built, and then runs it
RUNS = re.compile(r"^rt: running out/", re.M)
# seconds between two words about how far it is, where no terminal shows one line anew
PATIENCE = 30
# what rt says last is enough to see what is wrong
LAST_LINES = 20


class NotToBeHad(Exception):
    """The proved program can be neither found nor built, or does not run."""


class CannotBuild(NotToBeHad):
    """There is nothing to build it with, or nowhere to."""


def listed():
    """The crates by name; none where the desk stands without them."""
    try:
        with open(os.path.join(programs.ROOT, "crates.txt"), encoding="utf-8") as file:
            return crates.listed(file.read())
    except OSError:
        return {}


def parts_of(name):
    """The crates that a program is made of."""
    found = listed()
    return [name] + crates.below(found, name) if name in found else []


def sources(name):
    for crate in parts_of(name):
        for part in PARTS:
            for folder, _, files in os.walk(os.path.join(programs.ROOT, "crates", crate, part)):
                yield from (os.path.join(folder, file) for file in files)


def is_there(name):
    return os.path.exists(programs.path(name))


def is_old(name, path=None):
    """Whether a source is younger than the program, or than what else was made of this crate at a path."""
    built = os.stat(path or programs.path(name)).st_mtime
    return any(os.stat(source).st_mtime > built for source in sources(name))


def is_ready(name):
    return is_there(name) and not is_old(name)


def time_words(seconds):
    return "%d s" % seconds if seconds < 60 else "%d min %02d s" % divmod(seconds, 60)


class Progress:
    """How far `rt run` is."""

    def __init__(self, total):
        self.total, self.proved, self.began, self.told = total, 0, time.monotonic(), 0.0
        self.terminal = sys.stderr is not None and sys.stderr.isatty()

    def words(self):
        return "desk: %d of %d crates proved, %s" % (self.proved, self.total, time_words(time.monotonic() - self.began))

    def tell(self, last=False):
        if self.terminal:
            note("\r" + self.words(), "\n" if last else "")
        elif last or time.monotonic() - self.began - self.told >= PATIENCE:
            self.told = time.monotonic() - self.began
            note(self.words())

    def heard(self, text):
        self.proved = min(self.total, len(PROVED.findall(text)))


def listen(process, progress):
    """All that a process says on standard error until it ends, told on the way."""
    said = b""
    while True:
        if select.select([process.stderr], [], [], 1.0)[0]:
            more = os.read(process.stderr.fileno(), 65536)
            if not more:
                return said.decode("utf-8", "replace")
            said += more
            progress.heard(said.decode("utf-8", "replace"))
        progress.tell()


@contextlib.contextmanager
def started(words, folder, lock):
    """A process with its own group, which ends with it; the lock lives as long as the group. What it prints is dropped."""
    # no interrupt comes between its start and the `try` that ends it
    mask = signal.pthread_sigmask(signal.SIG_BLOCK, [signal.SIGINT])
    try:
        with subprocess.Popen(words, cwd=folder, stdin=subprocess.DEVNULL, stdout=subprocess.DEVNULL,
                              stderr=subprocess.PIPE, start_new_session=True, pass_fds=[lock]) as process:
            try:
                signal.pthread_sigmask(signal.SIG_SETMASK, mask)
                yield process
            except BaseException:
                os.killpg(process.pid, signal.SIGTERM)
                process.wait()
                raise
    finally:
        signal.pthread_sigmask(signal.SIG_SETMASK, mask)


def proved_and_built(name, lock):
    """`rt run` on a program, with nothing on its standard input: whether it was built, and what rt said."""
    progress = Progress(len(parts_of(name)))
    with started(["rt", "run"], programs.folder(name), lock) as process:
        said = listen(process, progress)
        process.wait()
    progress.tell(last=True)
    return bool(RUNS.search(said)) and is_there(name), said


@contextlib.contextmanager
def alone():
    """One desk builds at a time; another waits here."""
    folder = os.path.join(programs.ROOT, "target")
    os.makedirs(folder, exist_ok=True)
    with open(os.path.join(folder, "desk.lock"), "wb") as lock:
        try:
            fcntl.flock(lock, fcntl.LOCK_EX | fcntl.LOCK_NB)
        except BlockingIOError:
            complain("another desk is building; waiting for it")
            fcntl.flock(lock, fcntl.LOCK_EX)
        yield lock.fileno()


def build(name, why):
    if programs.is_installed():
        raise NotToBeHad("the program `%s` is not installed beside the desk: install it anew" % name)
    if shutil.which("rt") is None:
        raise CannotBuild("the program `%s` %s, and the Rattle kit's command `rt`, which builds it, is not on the path "
                         "(README.md says what is needed)" % (name, why))
    try:
        with alone() as lock:
            if is_ready(name):
                return
            complain("the program `%s` %s: proving and building it (from nothing about ten minutes)" % (name, why))
            built, said = proved_and_built(name, lock)
            if not built:
                raise NotToBeHad("rt run did not build the program in crates/%s:\n%s" % (
                    name, "\n".join(said.strip().splitlines()[-LAST_LINES:])))
            # rt leaves a program alone whose sources are what they were; and a source may be of tomorrow
            now = max([time.time()] + [os.stat(source).st_mtime for source in sources(name)])
            os.utime(programs.path(name), (now, now))
    except OSError as error:
        raise CannotBuild("the program `%s` %s and cannot be built: %s" % (name, why, error)) from error


def have(name):
    """Makes sure of a program."""
    if not is_there(name):
        build(name, "is not built yet")
    elif is_old(name):
        try:
            build(name, "is older than its sources")
        except CannotBuild as error:
            # it was proved when it was built
            complain("%s; it is asked as it is" % error)
