"""The sections of an EPANET text that are not carried: which stand in the way, what an answer is without each, and how one
is left out. docs/DESK.md has them under "An EPANET text"."""
import argparse
import functools
from collections import namedtuple

from .inp_lines import data_lines, decoded, is_header, with_headers
from .words import counted, listed, quoted

NODES, LINKS = ("JUNCTIONS", "RESERVOIRS", "TANKS"), ("PIPES", "VALVES")
CARRIED = NODES + LINKS + ("STATUS", "OPTIONS")
PASSED_OVER = ("TITLE", "COORDINATES", "VERTICES")

QUALITY, MAP = "no figure changes: water quality is not solved", "no figure changes: it is for maps"
# what an answer is without a section that may be left out
WITHOUT = {
    "TIMES": "the answer is for one hour, with the demands and levels that stand in the text",
    "REPORT": "no figure changes: it says what EPANET prints",
    "ENERGY": "no figure changes: it says what pumping costs",
    "QUALITY": QUALITY, "SOURCES": QUALITY, "REACTIONS": QUALITY, "MIXING": QUALITY,
    "TAGS": MAP, "LABELS": MAP, "BACKDROP": MAP,
    "END": "no figure changes: EPANET reads nothing behind [END]",
}
SWITCHES = "they open and shut links; write in [STATUS] how the links stand in this hour"
# why a section is never left out: it changes the hydraulics
NEEDED = {
    "PUMPS": "pumps lift heads, and this solver has none",
    "CURVES": "a curve says what a pump, a valve or a tank does",
    "PATTERNS": "patterns change demands and heads; write those of this hour where a pattern is named",
    "DEMANDS": "they take the place of the demands in [JUNCTIONS]; write each junction's sum there",
    "CONTROLS": SWITCHES, "RULES": SWITCHES,
    "EMITTERS": "an emitter draws water by its pressure",
}
KNOWN = (*CARRIED, *PASSED_OVER, *WITHOUT, *NEEDED)
# by so many letters EPANET knows a section
LETTERS = 4

# where the data of a section begin, and how many lines they are
Section = namedtuple("Section", "section line lines")


@functools.lru_cache(maxsize=64)
def name_of(header):
    """`TIMES` of `[TIMES]`; a header that is no section's whole name as it stands."""
    found = decoded(header)
    return found[1:-1] if found.endswith("]") and found[1:-1] in KNOWN else found


def in_brackets(name):
    return "[%s]" % name if name in KNOWN else quoted(name)


def not_carried(text):
    """The sections that are not carried and have data, in the order of their first lines."""
    found = {}
    for number, header, _ in data_lines(text):
        if header is not None:
            first, count = found.get(header, (number, 0))
            found[header] = first, count + 1
    named = [Section(name_of(header), *place) for header, place in found.items()]
    return [section for section in named if section.section not in CARRIED + PASSED_OVER]


def meant(header):
    """The sections that EPANET would take a header for."""
    letters = header.strip("[]")[:LETTERS]
    return [known for known in KNOWN if known.startswith(letters)] if len(letters) == LETTERS else []


def why_needed(name):
    """Why a section cannot be left out."""
    return NEEDED.get(name) or "it is no section of an EPANET text" + "".join(
        "; is it %s?" % in_brackets(known) for known in meant(name)[:1])


def words(name):
    """What an answer is without a section, or why there is none."""
    return WITHOUT.get(name) or "cannot be left out: " + why_needed(name)


def told(name):
    """That a section is in the way, and what to do about it."""
    return "section %s is not carried" % in_brackets(name) + (
        "; with --leave-out %s %s" % (name, WITHOUT[name]) if name in WITHOUT else
        " and cannot be left out: " + why_needed(name))


def mend(sections, left_out):
    """What to do about sections that stand in the way."""
    needed = [in_brackets(found.section) for found in sections if found.section not in WITHOUT]
    if needed:
        return "change the text so that it does without %s, which cannot be left out here" % listed(needed)
    names = [found.section for found in (*left_out, *sections)]
    return "go on without what stands in the way: --leave-out " + ",".join(names)


def blank(line):
    return b"\n" if line.endswith(b"\n") else b""


def without(text, names):
    """The text with the data lines of some sections blanked, so that every other line keeps its number; and those of these
    sections that have some."""
    left_out = [found for found in not_carried(text) if found.section in names] if names else []
    headers = {b"[%s]" % found.section.encode("ascii") for found in left_out}
    if headers:
        text = b"".join(blank(line) if header in headers and found and not is_header(found) else line
                        for header, found, line in with_headers(text))
    return text, left_out


def left_out_words(sections):
    """`without [TIMES] (6 lines) and [REPORT] (1 line), left out as asked`"""
    return "without %s, left out as asked" % listed(
        "%s (%s)" % (in_brackets(found.section), counted(found.lines, "line")) for found in sections)


def leave_out(text):
    """The names that `--leave-out` gives: `TIMES,REPORT`."""
    names = [name.strip().strip("[]").upper() for name in text.split(",")]
    for name in names:
        if name in NEEDED:
            raise argparse.ArgumentTypeError("[%s] changes the hydraulics and is never left out: %s" % (name, NEEDED[name]))
        if name not in WITHOUT:
            raise argparse.ArgumentTypeError("%s; these may be left out: %s" % (
                "[%s] is %s" % (name, "carried" if name in CARRIED else "passed over as it is") if name in KNOWN else
                "%s is no section of an EPANET text" % (quoted(name) or "nothing"), ", ".join(WITHOUT)))
    return names
