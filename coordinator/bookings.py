"""A table of bookings, read: hours, hydrants by name, flows with units and, where wanted, a lowest pressure. docs/BOOKINGS.md
describes it. A line with a mistake is told and spoils its hour alone."""
import csv
import io
import math
from collections import namedtuple

from .network import JUNCTION
from .schemes import numbers_of
from .sheet_bounds import LIMIT
from .sheet_format import NODE_KINDS
from .sheet_text import FLOW, PRESSURE, Mistake, figure, parted
from .words import quoted

COLUMNS = ("hour", "hydrant", "flow", "least")
NEEDED = COLUMNS[:3]

# in cubic feet per second and feet; `least` is None where none is asked
Booking = namedtuple("Booking", "line hour node flow least")


class Hour:
    """The bookings of an hour, and (line, words) of the mistakes in it."""

    def __init__(self, name):
        self.name, self.bookings, self.mistakes = name, [], []

    def line_of(self, node):
        return next((booking.line for booking in self.bookings if booking.node == node), None)


class Table:
    """The hours in the order in which they first stand in the file; `mistakes` of lines that name no hour."""

    def __init__(self):
        self.hours, self.mistakes = {}, []

    def hour(self, name):
        return self.hours.setdefault(name, Hour(name))


class Scheme:
    """The nodes that bookings speak of."""

    def __init__(self, nodes, names):
        self.nodes, self.numbers = nodes, numbers_of(len(nodes), names)

    def node(self, name):
        if name not in self.numbers:
            raise Mistake("no node is called " + quoted(name))
        node = self.nodes[self.numbers[name]]
        if node["kind"] != JUNCTION:
            raise Mistake("%s is a %s, and only junctions are booked" % (quoted(name), NODE_KINDS[node["kind"]]))
        if node["disabled"]:
            raise Mistake("%s is out of service" % quoted(name))
        return self.numbers[name]


def measured(name, text, units):
    if not text.strip():
        raise Mistake("%s is missing" % name)
    number, unit = parted(text.strip())
    return figure(name, [word for word in (number, unit.strip()) if word], units)


def flow_of(text):
    flow = measured("the flow", text, FLOW)
    if not 0 < flow <= LIMIT:
        raise Mistake("%s is no flow that can be booked" % quoted(text))
    return flow


def least_of(text):
    if not text.strip():
        return None
    least = measured("the lowest pressure", text, PRESSURE)
    if not (math.isfinite(least) and least >= 0):
        raise Mistake("%s is no lowest pressure: it must be 0 or more" % quoted(text))
    return least


def decoded(data):
    try:
        return data.decode("utf-8-sig")
    except UnicodeDecodeError as error:
        raise Mistake("line %d is not text" % (data[:error.start].count(b"\n") + 1)) from error


def rows(text):
    """(line, cells) of each row that holds something; csv's own complaints as (line, words)."""
    first = text.lstrip().split("\n", 1)[0]
    reader = csv.reader(io.StringIO(text, newline=""), delimiter=";" if ";" in first and "," not in first else ",")
    while True:
        line = reader.line_num + 1
        try:
            cells = [cell.strip() for cell in next(reader)]
        except StopIteration:
            return
        except csv.Error as error:
            yield line, "this line cannot be read: %s" % error
            continue
        if any(cells) and not cells[0].startswith("#"):
            yield line, cells


def columns(cells):
    """Where each column stands, if these cells are a header; else None."""
    names = [cell.lower() for cell in cells]
    if "hour" not in names:
        return None
    unknown = [name for name in names if name not in COLUMNS]
    missing = [name for name in NEEDED if name not in names]
    if unknown or missing or len(set(names)) < len(names):
        raise Mistake("the columns must be %s and, if wanted, least" % ", ".join(NEEDED))
    return {name: names.index(name) for name in names}


def take(table, scheme, line, cells, places):
    """Puts the booking of a row into its hour, or its mistake."""
    found = {name: cells[at] if at < len(cells) else "" for name, at in places.items()}
    if not found["hour"]:
        table.mistakes.append((line, "there is no hour"))
        return
    hour = table.hour(found["hour"])
    try:
        if len(cells) > len(places):
            raise Mistake("there are more cells than columns")
        node = scheme.node(found["hydrant"])
        if hour.line_of(node) is not None:
            raise Mistake("%s is booked in this hour already, in line %d" % (quoted(found["hydrant"]), hour.line_of(node)))
        hour.bookings.append(Booking(line, hour.name, node, flow_of(found["flow"]), least_of(found.get("least", ""))))
    except Mistake as mistake:
        hour.mistakes.append((line, str(mistake)))


def read(data, scheme):
    """The table; a Mistake where there is none at all."""
    table, places = Table(), None
    for line, cells in rows(decoded(data)):
        if isinstance(cells, str):
            table.mistakes.append((line, cells))
            continue
        header = columns(cells) if places is None else None
        places = places or header or {name: at for at, name in enumerate(COLUMNS)}
        if header is None:
            take(table, scheme, line, cells, places)
    if not table.hours and not table.mistakes:
        raise Mistake("there is no booking in it")
    return table
