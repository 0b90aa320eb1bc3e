"""The text form of a sheet, read: one record a line, names for nodes, a unit after every figure that has one.
docs/SHEETS.md describes it; text_of_sheet.py writes it."""
import math
import re

from . import field_words, sheet_bounds
from .sheet_format import LINK_KINDS, NODE_KINDS, PER_CFS, STATUSES, UNITS, Sheet
from .words import BAR_PER_METRE, METRES_PER_FOOT, PSI_PER_FOOT, quoted

NUMBER = re.compile(r"[+-]?(\d+\.?\d*|\.\d+)([eE][+-]?\d+)?", re.ASCII)
UNIT = re.compile(r"\s*[A-Za-z%]")

# what a figure may be given in, and how many of it make the sheet's own unit
FLOW = dict(zip(UNITS, PER_CFS))
FLOW.update({"L/s": FLOW["LPS"], "L/min": FLOW["LPM"], "m3/h": FLOW["CMH"], "m3/d": FLOW["CMD"]})
HEIGHT = {"ft": 1.0, "m": METRES_PER_FOOT}
PRESSURE = {"ft": 1.0, "m": METRES_PER_FOOT, "psi": PSI_PER_FOOT, "bar": METRES_PER_FOOT * BAR_PER_METRE,
            "kPa": METRES_PER_FOOT * BAR_PER_METRE * 100.0}
WIDTH = {"ft": 1.0, "in": 12.0, "m": METRES_PER_FOOT, "mm": METRES_PER_FOOT * 1000.0}
PERCENT = {"%": 1.0}
BARE = None

SETTINGS = {"PRV": PRESSURE, "PSV": PRESSURE, "PBV": PRESSURE, "FCV": FLOW, "TCV": BARE, "PCV": PERCENT}
# figures, flags, and the figures that must be there, of each kind of record
FIGURES = {
    "options": {"accuracy": BARE, "trials": BARE, "damping-limit": BARE, "max-flow-change": FLOW},
    "pressures": {"minimum": PRESSURE, "required": PRESSURE},
}
# every field of the record, also those that its kind does not use, so that a sheet has a text form byte for byte
FIGURES.update({kind: {"elevation": HEIGHT, "demand": FLOW, "head": HEIGHT, "max-level": HEIGHT, "min-level": HEIGHT}
                for kind in NODE_KINDS})
FIGURES["pipe"] = {"resistance": BARE, "length": HEIGHT, "roughness": BARE, "diameter": WIDTH, "minor-loss": BARE,
                   "flow": FLOW, "setting": BARE}
FIGURES.update({kind: {"setting": unit, "diameter": WIDTH, "minor-loss": BARE, "flow": FLOW, "resistance": BARE}
                for kind, unit in SETTINGS.items()})
FLAGS = {kind: ["disabled", "overflow"] for kind in NODE_KINDS}
FLAGS.update({kind: ["check-valve"] for kind in LINK_KINDS})
NEEDED = {"pressures": ["minimum", "required"], "junction": ["elevation"], "reservoir": ["head"],
          "tank": ["elevation", "head", "max-level", "min-level"]}
NEEDED.update({kind: ["setting", "diameter"] for kind in SETTINGS})
KINDS = {kind.lower(): kind for kind in FIGURES}


class Mistake(Exception):
    """What is wrong with a line."""


class Mistakes(Exception):
    """All that is wrong with a text: (line from 1, words)."""

    def __init__(self, found):
        super().__init__("; ".join("line %d: %s" % mistake for mistake in found))
        self.found = found


def one_of(names, word, what):
    """A name of a list, however its letters are written."""
    for name in names:
        if name.lower() == word.lower():
            return name
    raise Mistake("%s is no %s; there are %s" % (quoted(word), what, ", ".join(names)))


def take(words, what):
    if not words:
        raise Mistake("the line ends where %s is expected" % what)
    return words.pop(0)


def parted(text):
    """A figure and the unit that may stand straight behind it: `10m`."""
    number = NUMBER.match(text)
    cut = number.end() if number else 0
    return text[:cut], text[cut:]


def per_of(units, unit, name):
    for known, per in units.items():
        if known.lower() == unit.lower().replace("\u00b3", "3"):
            return per
    raise Mistake("%s is no unit for %s; there are %s" % (quoted(unit), name, ", ".join(units)))


def figure(name, words, units):
    """The number after a figure's name, turned into the sheet's unit by the unit after it."""
    text = take(words, "the figure of " + name)
    number, unit = parted(text)
    if not number or (unit and (units is BARE or not UNIT.match(unit))):
        raise Mistake("%s is no number, but the figure of %s is expected" % (quoted(text), name))
    if units is BARE:
        return float(number)
    return float(number) / per_of(units, unit or take(words, "the unit of " + name), name)


def fields_of(kind, words, **other_units):
    """The figures, flags, status and flow unit of a line, by name."""
    found, figures = {}, dict(FIGURES[kind], **other_units)
    while words:
        name = words.pop(0).lower()
        if name in found:
            raise Mistake("%s is given twice" % name)
        if name in figures:
            found[name] = figure(name, words, figures[name])
        elif name in FLAGS.get(kind, ()):
            found[name] = 1
        elif name == "status" and kind in LINK_KINDS:
            found[name] = one_of(STATUSES, take(words, "a status"), "status")
        elif name == "flow-unit" and kind == "options":
            found[name] = one_of(FLOW, take(words, "a flow unit"), "flow unit")
        else:
            raise Mistake("%s has no %s; it may have %s" % (kind, quoted(name), ", ".join(allowed(kind))))
    missing = [name for name in NEEDED.get(kind, ()) if name not in found]
    if missing:
        raise Mistake("%s needs %s" % (kind, " and ".join(missing)))
    return found


def allowed(kind):
    extra = ["status"] if kind in LINK_KINDS else ["flow-unit"] if kind == "options" else []
    return list(FIGURES[kind]) + FLAGS.get(kind, []) + extra


def flow_unit(words):
    """The flow unit that an options line names; asked for first, since max-flow-change is kept in it."""
    for name, unit in zip(words, words[1:]):
        if name.lower() == "flow-unit":
            known = one_of(FLOW, unit, "flow unit")
            return next(name for name in UNITS if FLOW[name] == FLOW[known])
    return "CFS"


def counted_in(unit):
    """Every flow unit, seen from one of them; from itself it is exactly 1."""
    return {name: per / FLOW[unit] for name, per in FLOW.items()}


def underscored(found):
    return {name.replace("-", "_"): value for name, value in found.items()}


def resistance(found):
    """A pipe's resistance: as given, or by Hazen-Williams from length, diameter and roughness."""
    known = [name for name in ("length", "roughness") if name in found]
    if "resistance" in found:
        if known:
            raise Mistake("a pipe has a resistance, or a length and a roughness, not both")
        return found["resistance"]
    if len(known) < 2 or "diameter" not in found:
        raise Mistake("a pipe needs a resistance, or a length, a diameter and a roughness")
    if not (found["diameter"] > 0 and found["roughness"] > 0):
        raise Mistake("diameter and roughness must be above 0")
    try:
        return 4.727 * found["roughness"] ** -1.852 * found["diameter"] ** -4.871 * found["length"]
    except OverflowError as error:
        raise Mistake("so small a diameter or roughness gives no resistance that can be told") from error


def first_flow(diameter):
    """The original's first guess: one foot a second through the whole diameter."""
    return 0.25 * math.pi * diameter * diameter


def link_fields(kind, found):
    found = dict(found)
    found.setdefault("flow", first_flow(found.setdefault("diameter", 1.0)))
    found.setdefault("status", "Open" if kind == "pipe" else "Active")
    if kind == "pipe":
        found["resistance"] = resistance(found)
        found.pop("length", None)
        found.pop("roughness", None)
    return underscored(found)


class Scheme:
    """The records of a text as they are read; links wait until every node has its number."""

    def __init__(self):
        self.sheet = Sheet()
        # in which line each kind stood that may be there once
        self.once = {}
        self.numbers, self.lines = {}, {b"OP": [1], b"PD": [], b"ND": [], b"LK": []}
        self.waiting = []

    def only(self, kind, mark, line):
        if kind in self.once:
            raise Mistake("%s were given in line %d already" % (kind, self.once[kind]))
        self.once[kind], self.lines[mark] = line, [line]

    def options(self, line, words):
        self.only("options", b"OP", line)
        unit = flow_unit(words)
        found = fields_of("options", words, **{"max-flow-change": counted_in(unit)})
        trials = found.get("trials", 40.0)
        if not trials.is_integer() or not 0 <= trials <= 0xffff:
            raise Mistake("trials must be 1 to %d" % sheet_bounds.MOST_TRIALS)
        found.update({"trials": int(trials), "unit": UNITS.index(unit)})
        found.pop("flow-unit", None)
        self.sheet.op.update(underscored(found))

    def pressures(self, line, words):
        self.only("pressures", b"PD", line)
        self.sheet.pd = fields_of("pressures", words)

    def node(self, kind, line, words):
        name = take(words, "the node's name")
        if name in self.numbers:
            raise Mistake("a node is called %s already" % quoted(name))
        # the name counts even if its fields are wrong, so that one slip is told once
        self.numbers[name] = len(self.numbers)
        self.lines[b"ND"].append(line)
        self.sheet.node(kind, **underscored(fields_of(kind, words)))

    def link(self, kind, line, words):
        start, arrow, end = (take(words, what) for what in ("the start node", "->", "the end node"))
        if arrow != "->":
            raise Mistake("`%s START -> END` is expected, the names of two nodes" % kind)
        self.waiting.append((kind, line, start, end, link_fields(kind, fields_of(kind, words))))

    def record(self, line, words):
        kind = KINDS.get(words[0].lower())
        if kind is None:
            raise Mistake("%s is no kind of record; there are %s" % (quoted(words[0]), ", ".join(FIGURES)))
        rest = words[1:]
        if kind == "options":
            self.options(line, rest)
        elif kind == "pressures":
            self.pressures(line, rest)
        elif kind in NODE_KINDS:
            self.node(kind, line, rest)
        else:
            self.link(kind, line, rest)

    def join(self, kind, line, start, end, fields):
        """Puts a link in, now that all names are known."""
        for name in (start, end):
            if name not in self.numbers:
                raise Mistake("no node is called " + quoted(name))
        self.lines[b"LK"].append(line)
        self.sheet.link(kind, self.numbers[start], self.numbers[end], **fields)

    def bounds(self):
        """(line, words) for each record that the solver would refuse."""
        nodes, links = self.sheet.nodes, self.sheet.links
        if not nodes:
            yield 1, "a sheet needs a node"
        for word, lines, most in (("nodes", self.lines[b"ND"], sheet_bounds.MOST_NODES),
                                  ("links", self.lines[b"LK"], sheet_bounds.MOST_LINKS)):
            if len(lines) > most:
                yield lines[most], "a sheet holds at most %d %s" % (most, word)
        for mark, found in ((b"OP", [self.sheet.op]), (b"PD", [self.sheet.pd]), (b"ND", nodes), (b"LK", links)):
            for line, fields in zip(self.lines[mark], found):
                for name, must in sheet_bounds.faults(mark, fields, len(nodes)):
                    yield line, "%s %s" % (name.replace("_", "-"), field_words.fault(
                        self.sheet.op["unit"], fields, name, must))
        for line, fields in zip(self.lines[b"LK"], links):
            fault = sheet_bounds.end_fault(fields, nodes)
            if fault:
                yield line, "its %s must be %s" % fault

    @property
    def names(self):
        """Of the nodes, in their order."""
        return list(self.numbers)


def attempt(mistakes, line, do, *args):
    try:
        do(*args)
    except Mistake as mistake:
        mistakes.append((line, str(mistake)))


def decoded(data):
    try:
        return data.decode("utf-8")
    except UnicodeDecodeError as error:
        raise Mistakes([(data[:error.start].count(b"\n") + 1, "this is not text")]) from error


def read_scheme(data):
    """The sheet's bytes, and the scheme with its names; or Mistakes, all of them."""
    scheme, mistakes = Scheme(), []
    # as editors count them: not splitlines, which ends a line at a form feed and at other signs too
    for line, text in enumerate(decoded(data).split("\n"), 1):
        words = text.split("#")[0].split()
        if words:
            attempt(mistakes, line, scheme.record, line, words)
    for waiting in scheme.waiting:
        attempt(mistakes, waiting[1], scheme.join, *waiting)
    # a record left out for a mistake would shift the numbers, so bounds are looked at only without any
    found = mistakes or list(scheme.bounds())
    if found:
        raise Mistakes(sorted(found))
    return scheme.sheet.encode(), scheme
