#!/usr/bin/env python3
"""EPANET texts read a second time: a text's bytes become a sheet and the names of its nodes and links, or a refusal
with its line. The rules are in docs/INP.md; each function below that reads a line says what the EPANET 2.2 User Manual
has in it.

  inp_reader.py <TEXT              prints `A number line 0 0 0` for a refusal; else `S nodes links bytes`, the sheet's
                                   bytes and the list of names
  inp_reader.py TEXT SHEET NAMES   writes the sheet and the list of names
"""
import math
import re
import sys
from collections import namedtuple
from decimal import Context, Decimal, localcontext
from functools import lru_cache

import product  # noqa: F401
from coordinator.sheet_format import PER_CFS, UNITS, Sheet
from coordinator.words import METRES_PER_FOOT, PSI_PER_FOOT

NOT_READ, UNKNOWN_NAME, NOT_CARRIED = 10, 11, 12
LONGEST_NAME, MOST_DIGITS, MOST_EXPONENT = 31, 17, 20
# a sheet counts trials in two bytes
MOST_TRIALS = 65535
# a reader without a heap keeps so many names
MOST_NODES, MOST_LINKS = 512, 1024

# the Rust's constants.rs
Q_ZERO, SMALL_VALUE = 1e-6, 1e-6

Refused = namedtuple("Refused", "number line")
# the sheet's bytes; the names of its nodes and of its links, each in the sheet's order
Made = namedtuple("Made", "sheet nodes links")


class Fault(Exception):
    """Why a line is refused: 10, 11 or 12."""

    def __init__(self, number):
        super().__init__(number)
        self.number = number


def expect(holds):
    if not holds:
        raise Fault(NOT_READ)


# ---- words

def words_of(line):
    """The words of a line: no carriage return at its end, nothing from `;` on, parted by spaces and tabs."""
    if line.endswith(b"\r"):
        line = line[:-1]
    return re.findall(rb"[^ \t]+", line.split(b";", 1)[0])


NUMBER = re.compile(rb"([+-]?)([0-9]*)(?:\.([0-9]*))?(?:[eE]([+-]?)([0-9]+))?")


def number(word):
    """The f64 nearest to a decimal: at most 17 digits as written, a power of ten from -20 to 20 as written."""
    found = NUMBER.fullmatch(word)
    expect(found)
    sign, whole, part, exponent_sign, exponent = found.groups(b"")
    exponent = exponent.lstrip(b"0") or b"0"
    expect(1 <= len(whole) + len(part) <= MOST_DIGITS)
    expect(len(exponent) <= 2 and int(exponent) <= MOST_EXPONENT)
    return float(b"%s0%s.%se%s%s" % (sign, whole, part, exponent_sign, exponent))


def count(word):
    """A whole number in digits alone, of which a sheet holds two bytes."""
    expect(re.fullmatch(rb"[0-9]{1,%d}" % MOST_DIGITS, word))
    expect(int(word) <= MOST_TRIALS)
    return int(word)


def name(word):
    """A name, new or known: its letters' case counts."""
    expect(len(word) <= LONGEST_NAME)
    return word


def keyword(word, meanings):
    """What a keyword stands for, however its letters are written."""
    expect(word.upper() in meanings)
    return meanings[word.upper()]


def known(names, word):
    if word not in names:
        raise Fault(UNKNOWN_NAME)
    return names[word]


def no_pattern(words):
    """Patterns and curves are not carried, so whatever one is called, the name is not known."""
    if [name(word) for word in words]:
        raise Fault(UNKNOWN_NAME)


# ---- what the words stand for

YES_NO = {b"NO": 0, b"YES": 1}
OPEN_CLOSED = {b"OPEN": "Open", b"CLOSED": "Closed"}
PIPE_STATUSES = {b"OPEN": ("Open", 0), b"CLOSED": ("Closed", 0), b"CV": ("Open", 1)}
VALVES = {b"PRV": "PRV", b"PSV": "PSV", b"PBV": "PBV", b"FCV": "FCV", b"TCV": "TCV", b"GPV": "GPV"}
FLOW_UNITS = {unit.encode(): unit for unit in UNITS}
MODELS = {b"DDA": False, b"PDA": True}

# options with one number that goes into the sheet
KEPT = {b"ACCURACY": "accuracy", b"DAMPLIMIT": "damping_limit", b"FLOWCHANGE": "max_flow_change",
        b"DEMAND MULTIPLIER": "multiplier", b"MINIMUM PRESSURE": "minimum", b"REQUIRED PRESSURE": "required"}
# options with one keyword or one count that does
CHOSEN = {b"UNITS": ("unit", lambda word: keyword(word, FLOW_UNITS)), b"TRIALS": ("trials", count),
          b"DEMAND MODEL": ("pda", lambda word: keyword(word, MODELS))}
# options of which only one number is carried
ONLY = {b"SPECIFIC GRAVITY": 1.0, b"PRESSURE EXPONENT": 0.5}
# options that change nothing here: with one number, with anything at all
NUMBERS_PASSED = {b"VISCOSITY", b"DIFFUSIVITY", b"TOLERANCE", b"HEADERROR", b"CHECKFREQ", b"MAXCHECK",
                  b"EMITTER EXPONENT"}
PASSED = {b"UNBALANCED", b"QUALITY", b"MAP", b"HYDRAULICS"}
OPTIONS = {*KEPT, *CHOSEN, *ONLY, *NUMBERS_PASSED, *PASSED, b"PATTERN", b"HEADLOSS"}

SECTIONS_PASSED = {b"[TITLE]", b"[COORDINATES]", b"[VERTICES]"}


class Network:
    """What the lines of a text say, in the text's own units: the units may be named last. In each line everything
    that can be 10 is looked at before anything that can be 11."""

    def __init__(self):
        # by name, in the order of the text
        self.nodes, self.links = {}, {}
        self.options = dict(unit="GPM", trials=200, accuracy=0.001, damping_limit=0.0, max_flow_change=0.0,
                            multiplier=1.0, pda=False, minimum=0.0, required=0.1)
        self.sections = {b"[JUNCTIONS]": self.junction, b"[RESERVOIRS]": self.reservoir, b"[TANKS]": self.tank,
                         b"[PIPES]": self.pipe, b"[VALVES]": self.valve, b"[STATUS]": self.status,
                         b"[OPTIONS]": self.option}

    def take(self, section, words):
        """A data line."""
        expect(section is not None)
        if section in self.sections:
            self.sections[section](words)
        elif section not in SECTIONS_PASSED:
            raise Fault(NOT_CARRIED)

    def new_node(self, word):
        expect(name(word) not in self.nodes and len(self.nodes) < MOST_NODES)
        return word

    def new_link(self, word):
        expect(name(word) not in self.links and len(self.links) < MOST_LINKS)
        return word

    def add_node(self, called, **fields):
        self.nodes[called] = dict(fields, number=len(self.nodes))

    def add_link(self, called, start, end, **fields):
        self.links[called] = dict(fields, start=known(self.nodes, start)["number"],
                                  end=known(self.nodes, end)["number"])

    def junction(self, words):
        """ID, elevation, base demand (optional), demand pattern ID (optional)."""
        expect(2 <= len(words) <= 4)
        called = self.new_node(words[0])
        elevation, demand = number(words[1]), number(words[2]) if len(words) > 2 else 0.0
        no_pattern(words[3:])
        self.add_node(called, kind="junction", elevation=elevation, demand=demand)

    def reservoir(self, words):
        """ID, head, head pattern ID (optional)."""
        expect(2 <= len(words) <= 3)
        called, head = self.new_node(words[0]), number(words[1])
        no_pattern(words[2:])
        self.add_node(called, kind="reservoir", elevation=head)

    def tank(self, words):
        """ID, bottom elevation, initial level, minimum level, maximum level, diameter, minimum volume, volume curve ID
        (optional; `*` for none), overflow YES or NO (optional)."""
        expect(7 <= len(words) <= 9)
        called = self.new_node(words[0])
        elevation, level, lowest, highest, _, _ = map(number, words[1:7])
        overflow = keyword(words[8], YES_NO) if len(words) > 8 else 0
        no_pattern(word for word in words[7:8] if word != b"*")
        self.add_node(called, kind="tank", elevation=elevation, level=level, lowest=lowest, highest=highest,
                      overflow=overflow)

    def pipe(self, words):
        """ID, start node, end node, length, diameter, roughness; then minor loss and status (OPEN, CLOSED or CV), of
        which either or both may be dropped."""
        expect(6 <= len(words) <= 8)
        called, start, end = self.new_link(words[0]), name(words[1]), name(words[2])
        length, diameter, roughness = map(number, words[3:6])
        rest = words[6:]
        status, check_valve = "Open", 0
        if len(rest) == 2 or rest and rest[0].upper() in PIPE_STATUSES:
            status, check_valve = keyword(rest.pop(), PIPE_STATUSES)
        minor_loss = number(rest[0]) if rest else 0.0
        self.add_link(called, start, end, kind="pipe", length=length, diameter=diameter, roughness=roughness,
                      minor_loss=minor_loss, status=status, check_valve=check_valve)

    def valve(self, words):
        """ID, start node, end node, diameter, type, setting (a GPV's is the ID of a curve), minor loss."""
        expect(len(words) == 7)
        called, start, end = self.new_link(words[0]), name(words[1]), name(words[2])
        diameter, kind = number(words[3]), keyword(words[4], VALVES)
        minor_loss = number(words[6])
        if kind == "GPV":
            no_pattern([words[5]])
        setting = number(words[5])
        self.add_link(called, start, end, kind=kind, diameter=diameter, setting=setting, own_setting=setting,
                      minor_loss=minor_loss, status="Active", check_valve=0)

    def status(self, words):
        """Link ID, then OPEN, CLOSED or the setting of a valve."""
        expect(len(words) == 2)
        called, fixed = name(words[0]), words[1].upper() in OPEN_CLOSED
        value = keyword(words[1], OPEN_CLOSED) if fixed else number(words[1])
        link = known(self.links, called)
        if link["kind"] == "pipe":
            expect(fixed and not link["check_valve"])
            link["status"] = value
        elif fixed:
            # the last line counts alone: a number before it is forgotten
            link.update(setting=link["own_setting"], status="Fixed" + value)
        else:
            link.update(setting=value, status="Active")

    def option(self, words):
        """A keyword of one word or of two, then what it is set to. The last line with a keyword counts."""
        many = 1 if words[0].upper() in OPTIONS else 2
        key, values = b" ".join(words[:many]).upper(), words[many:]
        expect(key in OPTIONS)
        if key in PASSED:
            return
        expect(len(values) == 1)
        value = values[0]
        if key in KEPT:
            self.options[KEPT[key]] = number(value)
        elif key in CHOSEN:
            field, meaning = CHOSEN[key]
            self.options[field] = meaning(value)
        elif key in ONLY:
            expect(number(value) == ONLY[key])
        elif key in NUMBERS_PASSED:
            number(value)
        elif key == b"HEADLOSS":
            expect(value.upper() == b"H-W")

    def sheet(self):
        o, units = self.options, Units(self.options["unit"])
        s = Sheet(o["accuracy"], o["damping_limit"], o["max_flow_change"], o["trials"], o["unit"],
                  (units.pressure(o["minimum"]), units.pressure(o["required"])) if o["pda"] else None)
        for node in self.nodes.values():
            s.node(node["kind"], **node_fields(node, units, o["multiplier"]))
        for link in self.links.values():
            s.link(link["kind"], link["start"], link["end"], **link_fields(link, units))
        return s.encode()


# ---- a sheet's fields, by the Rust's operations in its order

class Units:
    """From a text's units to feet and cubic feet per second: units.rs, and what pipe.rs and valve.rs do with it."""

    def __init__(self, unit):
        self.metric = UNITS.index(unit) >= UNITS.index("LPS")
        self.per_cfs = PER_CFS[UNITS.index(unit)]

    def feet(self, x):
        return x / METRES_PER_FOOT if self.metric else x

    def diameter(self, x):
        return x / 1000.0 / METRES_PER_FOOT if self.metric else x / 12.0

    def pressure(self, x):
        return x / METRES_PER_FOOT if self.metric else x / PSI_PER_FOOT

    def flow(self, x):
        return x / self.per_cfs

    def setting(self, kind, x):
        if kind in ("PRV", "PSV", "PBV"):
            return self.pressure(x)
        return self.flow(x) if kind == "FCV" else x


def node_fields(node, units, multiplier):
    """node.rs `initial_head`, state.rs `apply_patterns`."""
    elevation = units.feet(node["elevation"])
    if node["kind"] == "junction":
        return dict(elevation=elevation, demand=0.0 + units.flow(node["demand"]) * 1.0 * multiplier)
    if node["kind"] == "reservoir":
        return dict(elevation=elevation, head=elevation)
    return dict(elevation=elevation, head=elevation + units.feet(node["level"]), min_level=units.feet(node["lowest"]),
                max_level=units.feet(node["highest"]), overflow=node["overflow"])


def link_fields(link, units):
    diameter = units.diameter(link["diameter"])
    shut = link["status"] in ("Closed", "FixedClosed")
    fields = dict(status=link["status"], check_valve=link["check_valve"], minor_loss=link["minor_loss"],
                  diameter=diameter, flow=Q_ZERO if shut else 0.25 * math.pi * (diameter * diameter))
    if link["kind"] == "pipe":
        return dict(fields, setting=0.0, resistance=resistance(units.feet(link["length"]), diameter, link["roughness"]))
    return dict(fields, setting=units.setting(link["kind"], link["setting"]), resistance=SMALL_VALUE)


def reciprocal(x):
    """Python raises an error for a divisor of zero."""
    return math.copysign(math.inf, x) if x == 0.0 else 1.0 / x


def resistance(length, diameter, roughness):
    """Hazen-Williams as pipe.rs has it, C^1.852 taken as C * C^0.852 and d^4.871 as d^4 * d^0.871. What is no number
    is the one NaN that the proved programs write."""
    square = diameter * diameter
    found = (4.727 * reciprocal(roughness * power(roughness, 213, 250))
             * reciprocal(square * square * power(diameter, 871, 1000)) * length)
    return math.nan if found != found else found


def power(x, p, q):
    """x^(p/q) by the recipe of document 01, item 2."""
    if not x >= 0.0:
        return math.nan
    if x < 2.0 ** -64:
        return 0.0
    if x >= 2.0 ** 64:
        return math.inf
    # x = m * 2^e with m from 1 up to 2
    half, above = math.frexp(x)
    m, e = 2.0 * half, above - 1
    t, i = math.modf((m - 1.0) * 1024.0)
    low, high = step_power(int(i), p, q), step_power(int(i) + 1, p, q)
    return (low + t * (high - low)) * two_power(e, p, q)


@lru_cache(maxsize=None)
def step_power(i, p, q):
    """Entry i of table A: the f64 nearest to (1 + i/1024)^(p/q)."""
    return nearest_power(Decimal(1024 + i) / 1024, p, q)


@lru_cache(maxsize=None)
def two_power(e, p, q):
    """The entry of table B for e: the f64 nearest to 2^(p e/q)."""
    return nearest_power(Decimal(2), p * e, q)


def nearest_power(base, p, q):
    """By 60 digits, rounded once; tests/inp_test.py holds every entry to whole numbers."""
    with localcontext(Context(prec=60)):
        return float((base.ln() * p / q).exp())


# ---- the text

def read(text):
    """Refused, or Made."""
    network, section = Network(), None
    for line_number, line in enumerate(text.split(b"\n"), 1):
        words = words_of(line)
        try:
            if words and words[0].startswith(b"["):
                expect(len(words) == 1)
                section = words[0].upper()
            elif words:
                network.take(section, words)
        except Fault as fault:
            return Refused(fault.number, line_number)
    return Made(network.sheet(), list(network.nodes), list(network.links))


def name_list(made):
    """The names of the nodes, then those of the links, a newline behind each."""
    return b"".join(called + b"\n" for called in made.nodes + made.links)


def printed(text):
    """What is said of a text: a refusal, or the sheet and its names."""
    found = read(text)
    if isinstance(found, Refused):
        return b"A %d %d 0 0 0\n" % found
    return b"S %d %d %d\n" % (len(found.nodes), len(found.links), len(found.sheet)) + found.sheet + name_list(found)


def convert(source, sheet, names):
    with open(source, "rb") as file:
        found = read(file.read())
    if isinstance(found, Refused):
        sys.exit("%s:%d: refused, number %d" % (source, found.line, found.number))
    for path, data in ((sheet, found.sheet), (names, name_list(found))):
        with open(path, "wb") as file:
            file.write(data)


def main(args):
    if not args:
        sys.stdout.buffer.write(printed(sys.stdin.buffer.read()))
    elif len(args) == 3:
        convert(*args)
    else:
        sys.exit(__doc__)


if __name__ == "__main__":
    try:
        main(sys.argv[1:])
    except OSError as error:
        sys.exit("inp_reader.py: %s" % error)
