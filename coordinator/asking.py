"""Runs the proved programs for the desk, and asks `verdict` about sheets and `evening_verdict` about the rows of an evening. A
sheet is its bytes, or the path of a file that is too long to be held."""
import functools
import re
import struct
import subprocess
from collections import namedtuple

from . import building, listings, programs
from .building import NotToBeHad

NAME = "verdict"
# longer sheets are asked of this one, which reads any length; all it can do is to refuse them
ANY_LENGTH, LONGEST = "listing", 65536
# a sheet and rows of demands, solved and judged in one call, and how many it takes
ROWS, MOST_ROWS = "evening_verdict", 32

# the verdict's number and place, and the listing
Reply = namedtuple("Reply", "verdict place text")
# a sheet, the limits, and rows with a demand for each node
Evening = namedtuple("Evening", "sheet limits rows")


@functools.lru_cache(maxsize=None)
def why_not(name):
    """Why a program is not to be had, or None; found out once a run."""
    try:
        return building.have(name)
    except NotToBeHad as error:
        return error


def have(name):
    if why_not(name):
        raise NotToBeHad(str(why_not(name)))


def printed(name, sheet):
    """What a program prints for bytes, or for the file at a path."""
    try:
        have(name)
        if isinstance(sheet, bytes):
            return programs.run(name, sheet)
        with open(sheet, "rb") as file:
            return programs.run_on_file(name, file)
    except (OSError, subprocess.CalledProcessError) as error:
        raise NotToBeHad("the program `%s` does not run: %s" % (name, error)) from error


def output(name, sheet):
    return printed(name, sheet).decode("ascii", "replace")


def is_long(sheet):
    return not isinstance(sheet, bytes) or len(sheet) > LONGEST


def reply(verdict, place, text):
    """Only one in which a verdict 1 and a refusal go together."""
    if not text.startswith("A ") or (verdict == 1) == text.startswith("A 0 "):
        raise ValueError("verdict and listing do not go together")
    return Reply(verdict, place, text)


def replies(text):
    """What the program printed: for each sheet `V number place`, then its listing, then `--`."""
    return [judged(part) for part in listings.split(text)]


def judged(text):
    """`V number place` and the listing behind it."""
    first, rest = text.split("\n", 1)
    mark, verdict, place = first.split(" ")
    if mark != "V":
        raise ValueError("no verdict")
    return reply(int(verdict), int(place), rest)


def row_replies(text, count):
    """What the program printed for an evening: for each row `R row`, then as for a sheet; or the refusal of all of them."""
    if text.startswith("A "):
        return [of_listing(text)] * count
    parts = [part.split("\n", 1) for part in re.split("^R ", text, flags=re.M)[1:]]
    if [number for number, _ in parts] != [str(number) for number in range(count)]:
        raise ValueError("other rows than were asked about")
    return [judged(rest) for _, rest in parts]


def of_listing(text):
    """A refusal's reply."""
    return reply(1, int(text.split(" ", 2)[1]), text)


def question(data, limits):
    return struct.pack("<dddI", *limits, len(data)) + data


def ask(sheets, limits):
    """A reply for each sheet."""
    try:
        if any(map(is_long, sheets)):
            return [of_listing(output(ANY_LENGTH, sheet)) for sheet in sheets]
        found = replies(output(NAME, b"".join(question(data, limits) for data in sheets)))
        if len(found) != len(sheets):
            raise ValueError("too few verdicts")
        return found
    except (ValueError, IndexError) as error:
        raise NotToBeHad("what the program `%s` printed cannot be read: %s" % (NAME, error)) from error


def evening_question(asked):
    entries = [demand for row in asked.rows for demand in row]
    return (struct.pack("<dddII", *asked.limits, len(asked.rows), len(asked.sheet)) + asked.sheet
            + struct.pack("<I%dd" % len(entries), len(entries), *entries))


def ask_rows(asked):
    """A list of replies for each evening, one a row; each evening is one call of the proved function."""
    try:
        told = listings.split(output(ROWS, b"".join(map(evening_question, asked))))
        if len(told) != len(asked):
            raise ValueError("too few evenings")
        return [row_replies(text, len(one.rows)) for one, text in zip(asked, told)]
    except (ValueError, IndexError) as error:
        raise NotToBeHad("what the program `%s` printed cannot be read: %s" % (ROWS, error)) from error
