"""The boundary cases: every refusal number that a sheet can bring about, each bound
with its neighbour, each rule at its edge, each open point; then seeded ones.
"""
import math

import product  # noqa: F401
import sheet_refusals
import sheet_rules
from sheet_refusals import LIMIT, TINY, VALVES, between
from coordinator.sheet_format import FLOATS, STATUSES, Case, Dice, next_down, next_up


def named():
    groups = sheet_refusals.GROUPS + sheet_rules.GROUPS
    return [case for group in groups for case in group()]


EDGES = (0.0, -0.0, TINY, -TINY, LIMIT, -LIMIT, next_up(LIMIT), -next_up(LIMIT),
         2.0 ** -10, next_down(2.0 ** -10), math.nan, math.inf, -math.inf, 1.0, 100.0)
CODES = {"kind": range(9), "disabled": range(3), "overflow": range(3),
         "check_valve": range(3), "status": range(10), "unit": range(13),
         "trials": (0, 1, 2, 199, 200, 201), "start": range(5), "end": range(5)}


def one_valve(dice):
    return between(dice.choice(VALVES), dice.choice(STATUSES))


def at_bounds(dice, name, s):
    """The sheet with one field, or two, set to a value at some bound."""
    groups = [(b"OP", [s.op]), (b"ND", s.nodes), (b"LK", s.links)] + ([(b"PD", [s.pd])] if s.pd else [])
    done = []
    for _ in range(1 + dice.below(2)):
        mark, records = dice.choice(groups)
        fields = dice.choice(records)
        field = dice.choice(sorted(fields))
        fields[field] = dice.choice(EDGES if field in FLOATS[mark] else CODES[field])
        done.append("%s %s %r" % (mark.decode(), field, fields[field]))
    return Case(name, ", ".join(done), s)


def seeded(seed, i):
    """A small network with a field or two at some bound."""
    dice = Dice(seed, 4, i)
    return at_bounds(dice, "boundary-%d-%d" % (seed, i), one_valve(dice))
