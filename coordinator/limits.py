"""The three limits that a verdict is asked with, and how they are written on the command line: a figure and its unit.
docs/DESK.md says how the usual ones were chosen."""
import argparse
import math
from collections import namedtuple

from .sheet_text import FLOW, PRESSURE, Mistake, figure, parted
from .words import quoted

# lowest pressure and tolerance of heads in feet, tolerance of flows in cubic feet per second
Limits = namedtuple("Limits", "lowest head flow")
USUAL = Limits(lowest=0.0, head=0.1, flow=0.001)


def measured(name, text, units):
    """`10 m` or `10m` in the sheet's own unit."""
    number, unit = parted(text.strip())
    try:
        x = figure(name, [word for word in (number, unit.strip()) if word], units)
    except Mistake as mistake:
        raise argparse.ArgumentTypeError(str(mistake)) from mistake
    if not math.isfinite(x):
        raise argparse.ArgumentTypeError("%s is too great" % quoted(text))
    return x


def least(text):
    """The lowest pressure, in feet."""
    return measured("the lowest pressure", text, PRESSURE)


def within(text):
    """The tolerances given, by their names: `0.1ft`, `0.001cfs` or both with a comma between them."""
    found = {}
    for part in text.split(","):
        x = measured("a tolerance", part, dict(PRESSURE, **FLOW))
        name = "head" if parted(part.strip())[1].strip().lower() in map(str.lower, PRESSURE) else "flow"
        if x < 0:
            raise argparse.ArgumentTypeError("a tolerance must be 0 or more")
        if name in found:
            raise argparse.ArgumentTypeError("the tolerance of %ss is given twice" % name)
        found[name] = x
    return found
