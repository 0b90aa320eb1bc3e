"""Standard output and standard error as they may be found: closed, full, or with a reader that has gone."""
import os
import sys


class OutputLost(Exception):
    """Standard output takes no more."""


def keep_places():
    """Occupies the places 0 to 2 where one is closed, lest a file that the desk opens get into it."""
    while True:
        place = os.open(os.devnull, os.O_RDWR)
        if place > 2:
            os.close(place)
            return


def prepare():
    """Before anything is opened or printed."""
    keep_places()
    for stream in (sys.stdout, sys.stderr):
        # a file's name may hold what the terminal cannot show
        if stream is not None:
            stream.reconfigure(errors="backslashreplace")


def put(words):
    """Prints words as they are."""
    if sys.stdout is None:
        raise OutputLost("standard output is closed")
    try:
        sys.stdout.write(words)
        sys.stdout.flush()
    except OSError as error:
        drop_rest()
        raise OutputLost("standard output cannot be written: " + (error.strerror or "it is closed")) from error


def drop_rest():
    """Python writes what is left once more when it ends; nobody is there to read it."""
    try:
        os.dup2(os.open(os.devnull, os.O_WRONLY), sys.stdout.fileno())
    except (OSError, ValueError):
        pass


def note(line, end="\n"):
    """On standard error, where there is one."""
    if sys.stderr is None:
        return
    try:
        print(line, file=sys.stderr, end=end, flush=True)
    except OSError:
        pass


def complain(message):
    note("desk: " + message)
