"""A field of a record in words: in the sheet's own unit first, and behind it what the sheet itself holds where the bound
speaks of that."""
import math

from . import sheet_bounds
from .sheet_format import LINK_KINDS, UNITS, named
from .words import METRES_PER_FOOT, Units

# what the fields measure; those that are not here have no unit
MEASURES = {"elevation": "height", "head": "height", "max_level": "height", "min_level": "height", "demand": "flow",
            "flow": "flow", "diameter": "width", "minimum": "pressure", "required": "pressure"}
SETTINGS = {"PRV": "pressure", "PSV": "pressure", "PBV": "pressure", "FCV": "flow"}


def measure(fields, name):
    return SETTINGS.get(named(LINK_KINDS, fields["kind"])) if name == "setting" else MEASURES.get(name)


def raw_unit(fields, name):
    """The unit in which the sheet itself holds a field, or None."""
    found = measure(fields, name)
    return "cfs" if found == "flow" else "ft" if found else None


def own_unit(units, what):
    """The sheet's own unit of what is measured, and how many of it make the raw one."""
    width = ("mm", 1000.0 * METRES_PER_FOOT) if units.metric else ("ft", 1.0)
    return {"flow": (units.flow_name, units.per_cfs), "pressure": (units.pressure, units.per_foot),
            "height": (units.height, units.height_per_foot), "width": width}[what]


def figure(code, fields, name, raw_too=True):
    """`60.96 m (200.0 ft)`, or `200.0 ft` where the sheet has feet; `code` is that of its flow unit."""
    x, raw = fields[name], raw_unit(fields, name)
    if not isinstance(x, float) or not math.isfinite(x) or code >= len(UNITS):
        return repr(x)
    units = Units(code)
    if name == "max_flow_change":
        # the one flow that is kept in the sheet's own unit
        return "%r %s" % (x, units.flow_name)
    if raw is None:
        return repr(x)
    unit, per = own_unit(units, measure(fields, name))
    if unit == raw:
        return "%r %s" % (x, raw)
    return "%.6g %s" % (x * per, unit) + (" (%r %s)" % (x, raw) if raw_too else "")


def bound(fields, name, must):
    """What a field must be; the common bound of all figures with the unit that it is in."""
    raw = raw_unit(fields, name)
    return sheet_bounds.finite(raw) if raw and must == sheet_bounds.finite() else must


def fault(code, fields, name, must):
    """`is 0.1524 mm (0.0005 ft) but must be at least 2^-10 ft for a valve`."""
    bound_words = bound(fields, name, must)
    return "is %s but must be %s" % (figure(code, fields, name, raw_unit(fields, name) in bound_words.split()), bound_words)
