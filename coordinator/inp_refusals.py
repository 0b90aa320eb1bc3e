"""Refusals 10 to 12 of an EPANET text in words. The proved program decides which line is refused and by which number; here
that line is looked at once more, to say what is wrong with it. docs/INP.md has the rules."""
import re

from . import inp_sections
from .epanet import NOT_CARRIED, UNKNOWN_NAME
from .inp_lines import MARK, data_lines, decoded, is_header, lines
from .inp_sections import LINKS, NODES, in_brackets, name_of
from .refusals import Refusal
from .sheet_format import UNITS
from .words import listed, quoted

LONGEST_NAME, MOST_DIGITS, MOST_EXPONENT, MOST_TRIALS = 31, 17, 20, 65535
MOST_NODES, MOST_LINKS = 512, 1024
# so many sections are told
MOST_SECTIONS = 40
NUMBER = re.compile(rb"[+-]?([0-9]*)(?:\.([0-9]*))?(?:[eE][+-]?([0-9]+))?")
CANNOT = "this line cannot be read"
# what to do about a line
LOOK_UP = "correct this line: INP.md says what is read"
DEFINE = "correct the name, or define it in a line before this one"
TAKE_OUT = "take it out of the text, and write the figures of this hour"

# how many words a section's lines have at least, and what they are
COLUMNS = {
    "JUNCTIONS": (2, ("name", "elevation", "demand", "pattern")),
    "RESERVOIRS": (2, ("name", "head", "pattern")),
    "TANKS": (7, ("name", "elevation", "level", "lowest level", "highest level", "diameter", "lowest volume", "curve",
                  "overflow")),
    "PIPES": (6, ("name", "start", "end", "length", "diameter", "roughness", "minor loss", "status")),
    "VALVES": (7, ("name", "start", "end", "diameter", "kind", "setting", "minor loss")),
    "STATUS": (2, ("name", "status or setting")),
}
NAMES = ("name", "start", "end", "pattern", "curve")
# keywords, by the column or the option that takes one of them, and what such a word is
CHOICES = {"overflow": ("word for a tank's overflow", ("YES", "NO")), "status": ("status of a pipe", ("OPEN", "CLOSED", "CV")),
           "kind": ("kind of valve", ("PRV", "PSV", "PBV", "FCV", "TCV")), "UNITS": ("flow unit", UNITS),
           "HEADLOSS": ("head loss formula", ("H-W",)), "DEMAND MODEL": ("demand model", ("DDA", "PDA"))}
# columns that may hold a keyword or a number
EITHER = {"minor loss or status": ("OPEN", "CLOSED", "CV"), "status or setting": ("OPEN", "CLOSED")}

ONLY = {"SPECIFIC GRAVITY": 1.0, "PRESSURE EXPONENT": 0.5}
ANYTHING = ("UNBALANCED", "QUALITY", "MAP", "HYDRAULICS")
OPTIONS = ("UNITS", "HEADLOSS", "TRIALS", "ACCURACY", "DAMPLIMIT", "FLOWCHANGE", "DEMAND MULTIPLIER", "DEMAND MODEL",
           "MINIMUM PRESSURE", "REQUIRED PRESSURE", "VISCOSITY", "DIFFUSIVITY", "TOLERANCE", "HEADERROR", "CHECKFREQ",
           "MAXCHECK", "EMITTER EXPONENT", "PATTERN", *ONLY, *ANYTHING)


def shown(word):
    return "`%s`" % quoted(decoded(word))


class Place:
    """A line of a text, and which lines define the names that stand in it."""

    def __init__(self, text, number):
        self.number, self.text = number, text
        self.line = next((line for line in lines(text) if line.number == number), None)
        # first lines of nodes and of links by name, and how many stand before this line
        self.nodes, self.links, self.before = {}, {}, {NODES: 0, LINKS: 0}
        for line in data_lines(text) if self.line else ():
            self.define(line)

    def define(self, line):
        for sections, known in ((NODES, self.nodes), (LINKS, self.links)):
            if line.header is not None and name_of(line.header) in sections:
                self.before[sections] += line.number < self.number
                if line.words[0] in self.line.words:
                    known.setdefault(line.words[0], line)

    @property
    def words(self):
        return self.line.words

    @property
    def section(self):
        return name_of(self.line.header) if self.line.header is not None else None


# ---- 10: each gives what is wrong, or None

def number_fault(word, what):
    found = NUMBER.fullmatch(word)
    whole, part, exponent = found.groups(b"") if found else (b"", b"", b"")
    if not whole + part:
        return "%s is no number, and %s is expected" % (shown(word), what)
    if len(whole + part) > MOST_DIGITS:
        return "%s has more than %d digits" % (shown(word), MOST_DIGITS)
    exponent = exponent.lstrip(b"0")
    if len(exponent) > 2 or int(exponent or b"0") > MOST_EXPONENT:
        return "%s has a power of ten beyond %d" % (shown(word), MOST_EXPONENT)
    return None


def choice_fault(word, key):
    what, choices = CHOICES[key]
    return None if decoded(word.upper()) in choices else "%s is no %s that is carried; there %s %s" % (
        shown(word), what, "are" if choices[1:] else "is", listed(choices))


def word_fault(word, column):
    if column in NAMES:
        return None if len(word) <= LONGEST_NAME else "the name %s has %d bytes, and at most %d are read" % (
            shown(word), len(word), LONGEST_NAME)
    if column in CHOICES:
        return choice_fault(word, column)
    if decoded(word.upper()) in EITHER.get(column, ()):
        return None
    return number_fault(word, "the " + column if column not in EITHER else "%s or a number" % ", ".join(EITHER[column]))


def columns_of(section, words):
    """What the words of a line are."""
    found = list(COLUMNS[section][1])
    if section == "PIPES" and len(words) == 7:
        found[6] = "minor loss or status"
    if section == "VALVES" and words[4].upper() == b"GPV":
        # a kind that is known, set to a curve, which never is
        found[4:6] = ["name", "curve"]
    return found


def count_fault(place):
    least, columns = COLUMNS[place.section]
    if least <= len(place.words) <= len(columns):
        return None
    return "a line of [%s] has %s words, and this one has %d" % (
        place.section, " to ".join(str(n) for n in sorted({least, len(columns)})), len(place.words))


def taken_fault(place):
    """A new name that there is already, or that is one too many."""
    for sections, known, word, most in ((NODES, place.nodes, "node", MOST_NODES), (LINKS, place.links, "link", MOST_LINKS)):
        if place.section in sections:
            first = known[place.words[0]]
            if first.number < place.number:
                return "a %s is called %s already, in line %d" % (word, quoted(decoded(first.words[0])), first.number)
            if place.before[sections] >= most:
                return "at most %d %ss are read, and this is one more" % (most, word)
    return None


def status_fault(place):
    """A status that does not go with a pipe."""
    name, value = place.words
    link = place.links.get(name)
    if link is None or link.number > place.number or name_of(link.header) != "PIPES":
        return None
    if link.words[-1].upper() == b"CV" and len(link.words) > 6:
        return "pipe %s has a check valve, and no status goes with that" % quoted(decoded(name))
    return None if decoded(value.upper()) in EITHER["status or setting"] else (
        "%s is a pipe, which may be OPEN or CLOSED and has no setting" % quoted(decoded(name)))


def data_fault(place):
    """Of a line of nodes, links or statuses."""
    found = count_fault(place)
    if found:
        return found
    faults = [word_fault(word, column) for word, column in zip(place.words, columns_of(place.section, place.words))]
    faults += [taken_fault(place)] + ([status_fault(place)] if place.section == "STATUS" else [])
    return next(filter(None, faults), None)


def key_of(words):
    """The option that a line begins with, or None, and how many words it has."""
    for many in (1, 2):
        key = decoded(b" ".join(words[:many]).upper())
        if key in OPTIONS:
            return key, many
    return None, 0


def unknown_option(words):
    first = decoded(words[0].upper())
    rest = [key.split(" ")[1] for key in OPTIONS if key.startswith(first + " ")]
    return "%s is followed by %s" % (first, " or ".join(rest)) if rest else "%s is no option that is read" % shown(words[0])


def trials_fault(word):
    if re.fullmatch(rb"[0-9]{1,%d}" % MOST_DIGITS, word) and int(word) <= MOST_TRIALS:
        return None
    return "%s is no number of trials: digits alone, at most %d" % (shown(word), MOST_TRIALS)


def option_fault(place):
    key, many = key_of(place.words)
    if key is None:
        return unknown_option(place.words)
    values = place.words[many:]
    if key in ANYTHING:
        return None
    if len(values) != 1:
        return "%s is followed by one word, and here by %d" % (key, len(values))
    if key in CHOICES:
        return choice_fault(values[0], key)
    if key == "TRIALS":
        return trials_fault(values[0])
    found = None if key == "PATTERN" else number_fault(values[0], "the figure of " + key)
    if found is None and key in ONLY and float(values[0]) != ONLY[key]:
        return "%s must be %g: no other is carried" % (key, ONLY[key])
    return found


def outside_fault(place):
    """Of a line that stands before any header."""
    if place.text.startswith(MARK):
        return "a byte order mark stands before the first header: save the text without one"
    if b"\0" in place.text[:4]:
        return "this is no plain text: save it as UTF-8 without a byte order mark"
    return "this stands before any section"


def fault(place):
    """What is wrong with a line that cannot be read."""
    if is_header(place.words):
        return "words stand behind the header %s" % in_brackets(place.section)
    if place.section is None:
        return outside_fault(place)
    if place.section == "OPTIONS":
        return option_fault(place)
    return data_fault(place) if place.section in COLUMNS else None


# ---- 11

def undefined(place, word, kind, known):
    """Of a name that no line before this one defines."""
    first = known.get(word)
    if first is None or first.number > place.number:
        yield "%s %s is not defined%s" % (kind, quoted(decoded(word)),
                                          " before this line, but in line %d" % first.number if first else ""), DEFINE


def unknown_names(place):
    """(what is wrong, what to do) of each name in a line that is not known."""
    for word, column in zip(place.words, columns_of(place.section, place.words)):
        if column in ("start", "end"):
            yield from undefined(place, word, "node", place.nodes)
        elif column == "name" and place.section == "STATUS":
            yield from undefined(place, word, "link", place.links)
        elif column in ("pattern", "curve") and (place.section, word) != ("TANKS", b"*"):
            yield "%s %s is not defined: %ss are not carried" % (column, quoted(decoded(word)), column), TAKE_OUT


def unknown(place):
    """The first of them, or None."""
    return next(unknown_names(place), None) if place.section in COLUMNS and count_fault(place) is None else None


# ---- the refusal

def holds(place):
    return quoted(decoded(b" ".join(place.words)))


def mend_line(place):
    if place.section not in COLUMNS or is_header(place.words):
        return LOOK_UP
    least, columns = COLUMNS[place.section]
    optional = columns[least:]
    return "correct this line; in [%s] stand %s%s" % (
        place.section, ", ".join(columns[:least]), " and, if wanted, " + ", ".join(optional) if optional else "")


def not_carried(place, left_out):
    found = inp_sections.not_carried(place.text)[:MOST_SECTIONS]
    return Refusal(NOT_CARRIED, place.number, "section %s is not carried" % in_brackets(place.section),
                   inp_sections.mend(found, left_out), holds=holds(place), sections=found)


def explain(text, refused, left_out=()):
    """The refusal of a text, in words."""
    number, line = refused
    place = Place(text, line)
    if place.line is None:
        return Refusal(number, line, CANNOT, LOOK_UP, holds="")
    if number == NOT_CARRIED and place.section is not None:
        return not_carried(place, left_out)
    if number == UNKNOWN_NAME:
        return Refusal(number, line, *(unknown(place) or ("a name in it is not known", DEFINE)), holds=holds(place))
    return Refusal(number, line, fault(place) or CANNOT, mend_line(place), holds=holds(place))


def mistakes(refusal):
    """(line, words) of what is wrong, for where a text is no answer but an input."""
    if not refusal.sections:
        return [(refusal.place, refusal.why)]
    return [(found.line, inp_sections.told(found.section)) for found in refusal.sections]
