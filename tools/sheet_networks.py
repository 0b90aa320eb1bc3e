"""Seeded networks: realistic ones, wild legal ones, and damaged copies.

Only sums, products, quotients and exact scalings are used, so that a seed gives
the same bytes on every machine.
"""
import math
import struct

import product  # noqa: F401
from coordinator.sheet_format import BYTES, FLOATS, LAYOUT, LINK_KINDS, STATUSES, UNITS, Case, Dice, Sheet, decode

# Hazen-Williams resistance of one foot of pipe, C = 130, by inches of diameter
A_FOOT = {4: 0.1212, 6: 0.01682, 8: 0.004143, 10: 0.001397, 12: 0.0005749, 16: 0.0001416}
INCHES = tuple(sorted(A_FOOT))
VALVES = LINK_KINDS[1:]
LIMIT = 2.0 ** 40


def velocity_of_one(diameter):
    """The flow at one foot a second, the Rust's own starting flow."""
    return 0.785398 * diameter * diameter


def lay_pipe(dice, s, start, end, **fields):
    inch = dice.choice(INCHES)
    length = 50 + dice.below(1500)
    diameter = inch / 12
    return s.pipe(start, end, resistance=A_FOOT[inch] * length, diameter=diameter,
                  flow=velocity_of_one(diameter), **fields)


def fit_valve(dice, s, kind, start, end, status):
    settings = {"PRV": dice.between(20, 90), "PSV": dice.between(20, 150),
                "PBV": dice.between(0, 20), "FCV": dice.between(0, 2),
                "TCV": dice.between(0, 50), "PCV": dice.between(-5, 105)}
    diameter = dice.choice(INCHES) / 12
    return s.valve(kind, start, end, setting=settings[kind], status=status,
                   minor_loss=dice.choice((0.0, 0.5, 2.5, 10.0)), diameter=diameter,
                   flow=velocity_of_one(diameter))


def new_junction(dice, s, idle=0.2):
    demand = 0.0 if dice.chance(idle) else dice.between(0.005, 0.3)
    return s.junction(elevation=dice.between(0, 60), demand=demand)


def june_pair(dice, s, before):
    """An Active PSV and the short main below it; a PRV is to follow."""
    upper = s.junction(elevation=dice.between(0, 60))
    lower = s.junction(elevation=dice.between(0, 60))
    fit_valve(dice, s, "PSV", before, upper, "Active")
    s.pipe(upper, lower, resistance=dice.between(0.001, 2), flow=dice.between(0.1, 1))
    return lower


class Plan:
    """What a realistic network shall have."""

    def __init__(self, junctions, loops=0, tank=False, second=False, valves=(),
                 check_valves=0.0, idle=0.2, odd_status=0.0, disabled=0.0):
        self.junctions = junctions
        self.loops = loops
        self.tank = tank
        self.second = second
        self.valves = list(valves)  # (kind, status); kind June: a PSV, a main, a PRV
        self.check_valves = check_valves
        self.idle = idle
        self.odd_status = odd_status
        self.disabled = disabled


def pipe_fields(dice, plan):
    fields = {}
    if dice.chance(plan.check_valves):
        fields["check_valve"] = 1
    if dice.chance(plan.odd_status):
        fields["status"] = dice.choice(STATUSES)
    if dice.chance(0.15):
        fields["minor_loss"] = dice.between(0, 3)
    return fields


def build(dice, plan, s):
    """A tree from the source outward, valves on some of its branches, then the
    second source, the tank and the loops."""
    source = s.reservoir(head=dice.between(150, 260))
    ends = [source]
    # the first valve of the plan is never overwritten
    with_valve = {dice.below(plan.junctions): valve for valve in reversed(plan.valves)}
    for k in range(plan.junctions):
        parent = ends[-1] if dice.chance(0.5) else dice.choice(ends)
        if k in with_valve:
            kind, status = with_valve[k]
            before = new_junction(dice, s, plan.idle)
            lay_pipe(dice, s, parent, before, **pipe_fields(dice, plan))
            if kind == "June":
                before = june_pair(dice, s, before)
                kind = "PRV"
            child = new_junction(dice, s, plan.idle)
            fit_valve(dice, s, kind, before, child, status)
        else:
            child = new_junction(dice, s, plan.idle)
            lay_pipe(dice, s, parent, child, **pipe_fields(dice, plan))
        ends.append(child)
    if plan.second:
        other = s.reservoir(head=dice.between(150, 260))
        lay_pipe(dice, s, other, dice.choice(ends[1:]), **pipe_fields(dice, plan))
    if plan.tank:
        add_tank(dice, s, dice.choice(ends[1:]), plan)
    for _ in range(plan.loops):
        a, b = dice.choice(ends), dice.choice(ends)
        if a != b:
            lay_pipe(dice, s, a, b, **pipe_fields(dice, plan))
    for node in ends[1:]:
        touched = any(link["kind"] in (1, 2) and node in (link["start"], link["end"])
                      for link in s.links)
        if not touched and dice.chance(plan.disabled):
            s.nodes[node]["disabled"] = 1
    return s


def add_tank(dice, s, neighbour, plan):
    """Empty, full or between; the pipe may run either way."""
    elevation = dice.between(60, 150)
    level = dice.choice((0.0, 5.0, 12.0, 20.0))
    tank = s.tank(elevation=elevation, head=elevation + level, max_level=20.0,
                  min_level=0.0, overflow=dice.below(2))
    ends = (tank, neighbour) if dice.chance(0.5) else (neighbour, tank)
    lay_pipe(dice, s, *ends, **pipe_fields(dice, plan))


def options(dice):
    s = Sheet(accuracy=dice.choice((0.001, 0.001, 0.0001, 0.000001)),
              damping_limit=dice.choice((0.0, 0.01, 0.1, 10.0)),
              trials=dice.choice((20, 40, 40, 100)), unit=dice.choice(UNITS))
    if dice.chance(0.2):
        s.op["max_flow_change"] = dice.between(0.001, 5)
    return s


def real(seed, i, june=0.15):
    """Realistic: number i has its valve kind and status from i, so that 48 in a
    row have each kind at each status. `june` is the chance of a June pair."""
    dice = Dice(seed, 1, i)
    kind, status = VALVES[i % 6], STATUSES[i // 6 % 8]
    large = i % 48 == 47
    junctions = 35 + dice.below(15) if large else 2 + dice.below(9)
    valves = [(kind, status)]
    while dice.chance(0.25):
        valves.append((dice.choice(VALVES), dice.choice(STATUSES)))
    if dice.chance(june):
        valves.append(("June", "Active"))
    looped = i % 2 == 1
    plan = Plan(junctions, loops=1 + dice.below(junctions) if looped else 0,
                tank=dice.chance(0.4), second=dice.chance(0.3), valves=valves,
                check_valves=0.15, odd_status=0.1, disabled=0.03)
    s = build(dice, plan, options(dice))
    return Case("real-%d-%d" % (seed, i),
                "%s, %d nodes, %d links, a %s at %s" % (
                    "looped" if looped else "branched", len(s.nodes), len(s.links),
                    kind, status), s)


def extreme(dice):
    """Any float within the bounds, the odd ones often."""
    sign = -1.0 if dice.chance(0.3) else 1.0
    pick = dice.below(8)
    if pick == 0:
        return sign * dice.choice((0.0, LIMIT, 5e-324, 2.0 ** -1022, 1.0, 2.0 ** -10))
    if pick == 1:
        return sign * dice.choice((1e-6, 1e-7, 1e8, 0.0001, 0.0005, 2.0 ** -64, 100.0))
    if pick == 2:
        return sign * math.ldexp(1 + dice.unit(), dice.below(1114) - 1074)
    if pick == 3:
        return sign * math.ldexp(1 + dice.unit(), dice.below(80) - 40)
    if pick == 4:
        return sign * float(dice.below(200))
    return sign * dice.between(0, 150)


def wild_link(dice, s, start, end):
    kind = dice.choice(LINK_KINDS)
    no_unknown = [n["kind"] != 0 or n["disabled"] == 1 for n in s.nodes]
    if (kind == "PRV" and no_unknown[end]) or (kind == "PSV" and no_unknown[start]):
        kind = dice.choice(("pipe", "PBV", "FCV", "TCV", "PCV"))
    diameter = extreme(dice)
    if kind != "pipe":
        diameter = max(abs(diameter), 2.0 ** -10)
    s.link(kind, start, end, status=dice.choice(STATUSES), setting=extreme(dice),
           minor_loss=abs(extreme(dice)), diameter=diameter,
           resistance=abs(extreme(dice)), flow=extreme(dice),
           check_valve=dice.below(2))


def anything(dice):
    """A legal sheet without a PD, and else anything."""
    s = Sheet(accuracy=abs(extreme(dice)) or 0.001, damping_limit=abs(extreme(dice)),
              max_flow_change=abs(extreme(dice)) if dice.chance(0.3) else 0.0,
              trials=dice.choice((1, 2, 5, 10, 30)), unit=dice.choice(UNITS))
    for _ in range(1 + dice.below(8)):
        s.node(dice.choice((0, 0, 0, 1, 2)), elevation=extreme(dice), demand=extreme(dice),
               head=extreme(dice), max_level=extreme(dice), min_level=extreme(dice),
               disabled=int(dice.chance(0.1)), overflow=dice.below(2))
    for _ in range(dice.below(13) if len(s.nodes) > 1 else 0):
        start = dice.below(len(s.nodes))
        end = (start + 1 + dice.below(len(s.nodes) - 1)) % len(s.nodes)
        wild_link(dice, s, start, end)
    return s


def wild(seed, i):
    s = anything(Dice(seed, 2, i))
    return Case("wild-%d-%d" % (seed, i), "legal, %d nodes, %d links, extreme numbers" % (
        len(s.nodes), len(s.links)), s)


def cut(dice, data):
    return data[:dice.below(len(data))]


def flip_bit(dice, data):
    at = dice.below(len(data))
    return data[:at] + bytes([data[at] ^ 1 << dice.below(8)]) + data[at + 1:]


def set_byte(dice, data):
    at = dice.below(len(data))
    return data[:at] + bytes([dice.below(256)]) + data[at + 1:]


def insert_byte(dice, data):
    at = dice.below(len(data) + 1)
    return data[:at] + bytes([dice.below(256)]) + data[at:]


def drop_byte(dice, data):
    at = dice.below(len(data))
    return data[:at] + data[at + 1:]


def spans(data):
    return [(at, at + BYTES.get(mark, len(data))) for at, mark, _ in decode(data)]


def double_record(dice, data):
    start, end = dice.choice(spans(data))
    return data[:end] + data[start:end] + data[end:]


def drop_record(dice, data):
    start, end = dice.choice(spans(data))
    return data[:start] + data[end:]


def swap_records(dice, data):
    parts = [data[start:end] for start, end in spans(data)]
    a, b = dice.below(len(parts)), dice.below(len(parts))
    parts[a], parts[b] = parts[b], parts[a]
    return b"".join(parts)


def odd_float(dice, data):
    at, mark, _ = dice.choice(decode(data))
    if mark is None:
        return set_byte(dice, data)
    layout, names = LAYOUT[mark]
    name = dice.choice(FLOATS[mark])
    place = at + 2 + struct.calcsize(layout[:1 + names.index(name)])
    value = dice.choice((math.nan, math.inf, -math.inf, LIMIT, -LIMIT, -0.0, -1.0, 5e-324))
    return data[:place] + struct.pack("<d", value) + data[place + 8:]


DAMAGES = (cut, flip_bit, flip_bit, set_byte, insert_byte, drop_byte, double_record,
           drop_record, swap_records, odd_float, odd_float)


def small(dice):
    """A network to be damaged."""
    plan = Plan(2 + dice.below(3), loops=dice.below(2), tank=dice.chance(0.3),
                valves=[(dice.choice(VALVES), dice.choice(STATUSES))])
    return build(dice, plan, options(dice))


def damage(dice, name, data):
    """A copy with one to three damages, which are the case's reason."""
    done = []
    while not done or (data and len(done) < 3 and dice.chance(0.3)):
        one = dice.choice(DAMAGES)
        data = one(dice, data)
        done.append(one.__name__.replace("_", " "))
    return Case(name, ", ".join(done), data)


def damaged(seed, i):
    """A damaged copy of a good sheet."""
    dice = Dice(seed, 3, i)
    return damage(dice, "damaged-%d-%d" % (seed, i), small(dice).encode())
