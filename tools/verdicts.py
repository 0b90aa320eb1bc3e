"""May this hour be sold? The verdict computed a second time, from a sheet's bytes, its listing and three limits.
The proved program `verdict` decides; tests hold it against this. Nothing here is shared with the desk.

The coefficients are those of the original's pipe.rs and valve.rs, operation by operation, with document 01's power
(items 2 and 3), so that every bit is the solver's. Lengths are in feet, flows in cubic feet per second.
"""
import functools
import math
import struct
from collections import namedtuple

import power_tables

Q_ZERO, SMALL_VALUE, CV_HEAD_EPSILON, BIG_VALUE, RQ_TOL, PDA_MIN_DIFF = 1e-6, 1e-6, 1e-6, 1e8, 1e-7, 0.1
H_EXPONENT = 1.852

JUNCTION = 0
PIPE, PRV, PSV, PBV, FCV, TCV, PCV = range(7)
CLOSED, OPEN, ACTIVE, TEMP_CLOSED, FIXED_CLOSED, FIXED_OPEN = range(6)

SOLD, REFUSED, REPAIRED, UNDETERMINED, UNBALANCED, MOVED, NOT_HELD, NOT_DRAWN, TOO_LOW = 0, 1, 2, 3, 4, 5, 6, 7, 8

Limits = namedtuple("Limits", "lowest head flow")
Node = namedtuple("Node", "kind disabled elevation demand head max_level min_level overflow")
Link = namedtuple("Link", "kind check_valve status start end setting minor_loss diameter resistance flow")
SHAPES = {b"OP": "<dddHB", b"PD": "<dd", b"ND": "<BBdddddB", b"LK": "<BBBHHddddd"}


# ---- what the solver said

def number(digits):
    return struct.unpack(">d", bytes.fromhex(digits))[0]


class Hour:
    """A sheet and its listing. The sheet is read only where it was solved: else it may be no sheet at all."""

    def __init__(self, data, text):
        lines = [line.split(" ") for line in text.splitlines()]
        self.number = int(lines[0][1])
        self.record = [words[1] for words in lines if words[0] == "T"]
        self.heads = [number(words[2]) for words in lines if words[0] == "N"]
        self.drawn = [number(words[3]) for words in lines if words[0] == "N"]
        self.flows = [number(words[2]) for words in lines if words[0] == "L"]
        self.statuses = [int(words[3]) for words in lines if words[0] == "L"]
        self.nodes, self.links, self.pressures = [], [], None
        if self.number == 0:
            self.read(data)

    def read(self, data):
        at = 0
        while at < len(data):
            mark = data[at:at + 2]
            fields = struct.unpack_from(SHAPES[mark], data, at + 2)
            at += 2 + struct.calcsize(SHAPES[mark])
            if mark == b"PD":
                self.pressures = fields
            elif mark == b"ND":
                self.nodes.append(Node(*fields))
            elif mark == b"LK":
                self.links.append(Link(*fields))

    def serves(self, node):
        """A junction in service."""
        return self.nodes[node].kind == JUNCTION and not self.nodes[node].disabled

    def in_service(self, link):
        return not self.nodes[link.start].disabled and not self.nodes[link.end].disabled

    def junctions(self):
        return [i for i in range(len(self.nodes)) if self.serves(i)]

    def links_in_service(self):
        return [(i, link) for i, link in enumerate(self.links) if self.in_service(link)]

    def pressure(self, node):
        return self.heads[node] - self.nodes[node].elevation


# ---- a link's coefficients

def of_bits(pattern):
    return struct.unpack("<d", struct.pack("<Q", pattern))[0]


@functools.lru_cache(maxsize=None)
def tables():
    return [of_bits(p) for p in power_tables.table_a()], [of_bits(p) for p in power_tables.table_b()]


def power(x):
    """Document 01, item 2, of a magnitude."""
    if x < 2.0 ** -64:
        return 0.0
    if x >= 2.0 ** 64:
        return math.inf
    a, b = tables()
    half, e = math.frexp(x)
    scaled = (half * 2.0 - 1.0) * 1024.0
    i = int(scaled)
    return (a[i] + (scaled - i) * (a[i + 1] - a[i])) * b[63 - (e - 1)]


def fourth(x):
    return (x * x) * (x * x)


def pipe_at(link, q, status):
    if status in (CLOSED, TEMP_CLOSED):
        return 1.0 / BIG_VALUE, q
    size = abs(q)
    gradient = H_EXPONENT * link.resistance * power(size)
    if gradient < RQ_TOL:
        gradient = RQ_TOL
        loss = gradient * size
    else:
        loss = gradient * size / H_EXPONENT
    if link.minor_loss > 0.0:
        loss += link.minor_loss * (size * size)
        gradient += 2.0 * link.minor_loss * size
    loss *= math.copysign(1.0, q)
    g, y = 1.0 / gradient, loss / gradient
    return behind_check_valve(q, g, y) if link.check_valve else (g, y)


def behind_check_valve(q, g, y):
    gradient = 1.0 / g
    loss = y * gradient
    a = BIG_VALUE * (q + Q_ZERO)
    b = math.sqrt(a * a + CV_HEAD_EPSILON)
    loss = loss + (a - b) * 0.5
    gradient = gradient + BIG_VALUE * (1.0 - a / b) * 0.5
    return 1.0 / gradient, loss / gradient


def throttled(q, km):
    if not km > 0.0:
        return 1.0 / SMALL_VALUE, q
    gradient = 2.0 * km * abs(q)
    if gradient < RQ_TOL:
        gradient = RQ_TOL
        loss = q * gradient
    else:
        loss = q * gradient / 2.0
    return 1.0 / gradient, loss / gradient


def loss_factor(k, diameter):
    return 0.02517 * k / fourth(diameter)


def position_factor(link):
    if link.setting <= 0.0:
        return BIG_VALUE
    wide_open = loss_factor(link.minor_loss, link.diameter)
    if link.setting >= 100.0:
        return wide_open
    ratio = min(max(link.setting / 100.0, SMALL_VALUE), 1.0)
    return min(wide_open / (ratio * ratio), BIG_VALUE)


def flow_controlled(q, setting):
    g, y = throttled(q, SMALL_VALUE)
    if q < setting:
        return g, y
    loss = y / g + BIG_VALUE * (q - setting)
    return 1.0 / BIG_VALUE, loss / BIG_VALUE


def valve_at(link, q, status, excess_start, excess_end):
    if status in (CLOSED, TEMP_CLOSED, FIXED_CLOSED):
        return 1.0 / BIG_VALUE, q
    if status in (OPEN, FIXED_OPEN):
        return throttled(q, loss_factor(link.minor_loss, link.diameter))
    if link.kind == TCV:
        return throttled(q, loss_factor(link.setting, link.diameter))
    if link.kind == PBV:
        return BIG_VALUE, link.setting * BIG_VALUE
    if link.kind == PCV:
        return throttled(q, position_factor(link))
    if link.kind == FCV:
        return flow_controlled(q, link.setting)
    if status != ACTIVE:
        return 1.0 / SMALL_VALUE, q
    return (0.0, excess_end) if link.kind == PRV else (0.0, -excess_start)


def coefficients(link, q, status, excess_start, excess_end):
    """(g, y): conductance and offset."""
    if link.kind == PIPE:
        return pipe_at(link, q, status)
    return valve_at(link, q, status, excess_start, excess_end)


# ---- what each line of the rule looks at

def pipe_joins(link, q, status):
    return status not in (CLOSED, TEMP_CLOSED) and not (link.check_valve and q <= -Q_ZERO)


def valve_joins(link, q, status):
    if status in (CLOSED, TEMP_CLOSED, FIXED_CLOSED):
        return False
    if status in (OPEN, FIXED_OPEN):
        return True
    return {PRV: status != ACTIVE, PSV: status != ACTIVE, FCV: q < link.setting, PCV: link.setting > 0.0}.get(
        link.kind, True)


def holds(hour):
    """(link, the node it holds) of each Active regulator in service."""
    for i, link in hour.links_in_service():
        if link.kind in (PRV, PSV) and hour.statuses[i] == ACTIVE:
            yield i, link.end if link.kind == PRV else link.start


def loose(hour):
    """The junctions in service that no way joins to a given head: found in rounds, until one adds nothing."""
    reached = {i for i, node in enumerate(hour.nodes) if node.kind != JUNCTION} | {node for _, node in holds(hour)}
    joins = [{link.start, link.end} for i, link in hour.links_in_service()
             if (pipe_joins if link.kind == PIPE else valve_joins)(link, hour.flows[i], hour.statuses[i])]
    before = -1
    while before != len(reached):
        before = len(reached)
        for ends in joins:
            if ends & reached:
                reached |= ends
    return [i for i in hour.junctions() if i not in reached]


def excess(hour):
    """What flows into each node, less what flows out and what is drawn there."""
    e = [-0.0 - drawn for drawn in hour.drawn]
    for link, q in zip(hour.links, hour.flows):
        e[link.start] -= q
        e[link.end] += q
    return e


def balances(hour):
    e = excess(hour)
    return [(i, e[i]) for i in hour.junctions()]


def moves(hour):
    """(link, m, g): how far its own law would move each link's flow. Only regulators ask for the excess."""
    e, found = excess(hour), []
    for i, link in hour.links_in_service():
        g, y = coefficients(link, hour.flows[i], hour.statuses[i], e[link.start], e[link.end])
        found.append((i, y - g * (hour.heads[link.start] - hour.heads[link.end]), g))
    return found


def held_heads(hour):
    """(link, head less set head) of each Active regulator in service."""
    return [(i, hour.heads[node] - (hour.links[i].setting + hour.nodes[node].elevation)) for i, node in holds(hour)]


def allowed(pressure, demand, minimum, required):
    part = (pressure - minimum) / max(required - minimum, PDA_MIN_DIFF)
    part = 0.0 if part < 0.0 else 1.0 if part > 1.0 else part
    return demand * math.sqrt(part)


def strays(hour):
    """(node, drawn less allowed) of each junction in service that asks, where demand gives way to pressure."""
    if hour.pressures is None:
        return []
    return [(i, hour.drawn[i] - allowed(hour.pressure(i), hour.nodes[i].demand, *hour.pressures))
            for i in hour.junctions() if hour.nodes[i].demand > 0.0]


# ---- the verdict

def within(x, tolerance):
    """False for a NaN on either side, and for a tolerance below 0."""
    return abs(x) <= tolerance


def too_low(hour, node, lowest):
    pressure = hour.pressure(node)
    return not pressure >= 0.0 or hour.nodes[node].demand > 0.0 and not pressure >= lowest


def causes(hour, limits):
    """(verdict, place) of all that speaks against a sale, a line of the rule after the other."""
    if hour.number != 0:
        yield REFUSED, hour.number
        return
    yield from ((REPAIRED, i) for i, mark in enumerate(hour.record) if mark in ("VF", "GN"))
    yield from ((UNDETERMINED, i) for i in loose(hour))
    yield from ((UNBALANCED, i) for i, e in balances(hour) if not within(e, limits.flow))
    yield from ((MOVED, i) for i, m, g in moves(hour)
                if not (within(m, limits.flow) or within(m, limits.head * g)))
    yield from ((NOT_HELD, i) for i, gap in held_heads(hour) if not within(gap, limits.head))
    yield from ((NOT_DRAWN, i) for i, gap in strays(hour) if not within(gap, limits.flow))
    yield from ((TOO_LOW, i) for i in hour.junctions() if too_low(hour, i, limits.lowest))


def verdict(data, text, limits):
    """(number, place) for a sheet and its listing."""
    return next(causes(Hour(data, text), limits), (SOLD, 0))
