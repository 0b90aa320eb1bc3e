"""Files as the desk reads and writes them: no more held than a sheet or a text can have, never an input written over,
and an output written whole or not at all."""
import os
import stat
import sys

from .words import escaped

# more than any sheet (9,199 bytes) or text needs
MOST = 1 << 20
STANDARD_INPUT = "-"


class BadUse(Exception):
    """Something is wrong with what was asked."""


class Input:
    """A file's name and its bytes; of a file with more than MOST of them the beginning, and then `path` leads to the
    rest. Elsewhere `path` is None."""

    def __init__(self, name, data, path=None):
        self.name, self.data, self.path = name, data, path


def why(error):
    return error.strerror or str(error)


def beginning(file, name, path):
    data = file.read(MOST + 1)
    if not data:
        raise BadUse("%s is empty" % shown(name))
    if len(data) <= MOST:
        return Input(name, data)
    if path is None or not stat.S_ISREG(os.fstat(file.fileno()).st_mode):
        raise BadUse("%s goes on after %d bytes: no text may be longer, and the longest sheet has 9,199" % (shown(name), MOST))
    return Input(name, data[:MOST], path)


def looks_like_text(data):
    """No sheet does: the upper byte of its trials is 0."""
    return all(byte in b"\t\n\r\f" or byte >= 32 for byte in data[:64])


def shown(name):
    return "standard input" if name == STANDARD_INPUT else escaped(name)


def read(name):
    try:
        if name == STANDARD_INPUT:
            if sys.stdin is None:
                raise BadUse("standard input is closed")
            return beginning(sys.stdin.buffer, name, None)
        with open(name, "rb") as file:
            return beginning(file, name, name)
    except OSError as error:
        raise BadUse("%s cannot be read: %s" % (shown(name), why(error))) from error


def is_input(path, name):
    """Whether a path leads to the file of this name, or to the one that standard input comes from; a terminal is none."""
    if name != STANDARD_INPUT:
        return os.path.samefile(path, name)
    found = os.fstat(0)
    return stat.S_ISREG(found.st_mode) and os.path.samestat(os.stat(path), found)


def is_one_of(path, names):
    """Whether a path leads to one of these files, by whatever name or link."""
    for name in names:
        try:
            if is_input(path, name):
                return True
        except OSError:
            # one of them is not there
            pass
    return False


def write_beside(path, data):
    """Into a new file in the same folder, which then takes the place."""
    new = os.path.join(os.path.dirname(path), ".desk-%d.part" % os.getpid())
    try:
        with open(os.open(new, os.O_WRONLY | os.O_CREAT | os.O_EXCL, 0o666), "wb") as file:
            file.write(data)
            file.flush()
            os.fsync(file.fileno())
        if os.path.exists(path):
            os.chmod(new, stat.S_IMODE(os.stat(path).st_mode))
        os.replace(new, path)
    except BaseException:
        if os.path.exists(new):
            os.unlink(new)
        raise


def write(name, data, inputs=()):
    """Not over an input; a device or a pipe is written straight into."""
    if is_one_of(name, inputs):
        raise BadUse("%s would be written over, and it is an input" % shown(name))
    path = os.path.realpath(name)
    try:
        if os.path.exists(path) and not os.path.isfile(path):
            with open(path, "wb") as file:
                file.write(data)
        else:
            write_beside(path, data)
    except OSError as error:
        raise BadUse("%s cannot be written: %s" % (shown(name), why(error))) from error
