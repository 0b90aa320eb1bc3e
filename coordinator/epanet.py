"""Asks the proved program `epanet`, which makes a sheet of an EPANET text."""
from collections import namedtuple

from . import asking, sheet_bounds
from .asking import NotToBeHad
from .inp_lines import decoded

NAME = "epanet"
NOT_READ, UNKNOWN_NAME, NOT_CARRIED = 10, 11, 12

Refused = namedtuple("Refused", "number line")
# the sheet's bytes; the names of its nodes and of its links, each in the sheet's order
Made = namedtuple("Made", "sheet nodes links")


def refused(numbers, rest):
    number, line, *zeros = numbers
    if number not in (NOT_READ, UNKNOWN_NAME, NOT_CARRIED) or line < 1 or zeros != [0, 0, 0] or rest:
        raise ValueError("no refusal of a text")
    return Refused(number, line)


def made(numbers, rest):
    nodes, links, size = numbers
    sheet, (*names, end) = rest[:size], decoded(rest[size:]).split("\n")
    marks = [mark for _, mark, _ in sheet_bounds.records(sheet)[0]]
    if len(sheet) != size or (marks.count(b"ND"), marks.count(b"LK"), len(names), end) != (nodes, links, nodes + links, ""):
        raise ValueError("sheet and names do not go together")
    return Made(sheet, names[:nodes], names[nodes:])


def reply(printed):
    """What the program printed: `A number line 0 0 0`, or `S nodes links bytes`, the sheet and a line for each name."""
    first, rest = printed.split(b"\n", 1)
    mark, *numbers = first.split(b" ")
    return {b"A": refused, b"S": made}[mark](list(map(int, numbers)), rest)


def ask(text):
    """Refused or Made."""
    try:
        return reply(asking.printed(NAME, text))
    except (ValueError, KeyError) as error:
        raise NotToBeHad("what the program `%s` printed cannot be read: %s" % (NAME, error)) from error
