"""A good sheet in the text form, which gives that very sheet again, byte for byte. Figures are in the sheet's own units
where few digits say exactly the number in the sheet, and else in feet and cubic feet per second, in which all can be
said."""
from . import sheet_bounds
from .sheet_format import LINK_KINDS, NODE_KINDS, STATUSES, UNITS, bits
from .sheet_text import BARE, FIGURES, FLAGS, FLOW, NEEDED, first_flow
from .words import METRIC

# so many digits are few
FEW = 9
DEFAULTS = {"accuracy": 0.001, "trials": 40, "diameter": 1.0}


class NotGood(Exception):
    """The sheet would be refused, so it has no text form."""


def own_units(flow_unit):
    """Units in the order in which they are tried."""
    length = ["mm", "m"] if flow_unit in METRIC else ["ft", "in"]
    return [flow_unit] + length + ["psi", "%"]


def exact(x, per, most):
    """The shortest decimal of so many digits at most that reads back as x, or None."""
    for digits in range(1, most + 1):
        text = "%.*g" % (digits, x * per)
        if bits(float(text) / per) == bits(x):
            return "%.15g" % float(text)
    return None


def plain(x):
    """`12` for 12.0; else what reads back exactly."""
    return exact(x, 1.0, FEW) or repr(x)


def figure(x, units, tried):
    if units is BARE:
        return plain(x)
    for unit in tried:
        text = exact(x, units[unit], FEW) if unit in units else None
        if text:
            return "%s %s" % (text, unit)
    own = next(unit for unit, per in units.items() if per == 1.0)
    return "%s %s" % (plain(x), own)


def default(kind, name, fields):
    if kind in LINK_KINDS and name == "flow":
        return first_flow(fields["diameter"])
    return DEFAULTS.get(name, 0.0)


def figures(kind, fields, tried, **other_units):
    """` name figure` of each field that the form must have, or that is not what stands where nothing is said."""
    for name, units in dict(FIGURES[kind], **other_units).items():
        x = fields.get(name.replace("-", "_"))
        needed = name in NEEDED.get(kind, ()) or (kind == "pipe" and name == "resistance")
        if x is not None and (needed or bits(x) != bits(default(kind, name, fields))):
            yield "  %s %s" % (name, figure(x, units, tried))


def flags(kind, fields):
    for name in FLAGS.get(kind, ()):
        if fields[name.replace("-", "_")]:
            yield "  " + name


def status(kind, fields):
    found = STATUSES[fields["status"]]
    return [] if found == ("Open" if kind == "pipe" else "Active") else ["  status " + found]


def options(op, flow_unit, tried):
    # kept in the sheet's own flow unit, from which each is seen
    seen = {name: per / FLOW[flow_unit] for name, per in FLOW.items()}
    fields = {name: x for name, x in op.items() if name != "trials"}
    yield "options  accuracy %s  trials %d  flow-unit %s" % (plain(op["accuracy"]), op["trials"], flow_unit) + "".join(
        words for words in figures("options", fields, tried, **{"max-flow-change": seen})
        if not words.startswith("  accuracy"))


def node_line(name, node, tried):
    kind = NODE_KINDS[node["kind"]]
    return "%s  %s%s" % (kind, name, "".join([*figures(kind, node, tried), *flags(kind, node)]))


def link_line(link, names, tried):
    kind = LINK_KINDS[link["kind"]]
    words = [*figures(kind, link, tried), *flags(kind, link), *status(kind, link)]
    return "%s  %s -> %s%s" % (kind, names[link["start"]], names[link["end"]], "".join(words))


def can_be_written(name):
    """As a word of the text form that a terminal shows; what parts words there, but for the space, is not printable."""
    return name.isprintable() and "#" not in name


def text_of(data, names=None):
    """The nodes are called n0, n1 and so on, where they have no names that the form can hold."""
    if sheet_bounds.reading(data)[0] != "G":
        raise NotGood("the sheet would be refused: number %d at place %d" % sheet_bounds.reading(data)[1:])
    found, _ = sheet_bounds.records(data)
    nodes = [fields for _, mark, fields in found if mark == b"ND"]
    if not names or not all(map(can_be_written, names)):
        names = ["n%d" % number for number in range(len(nodes))]
    op = found[0][2]
    unit = UNITS[op["unit"]]
    tried = own_units(unit)
    lines = list(options(op, unit, tried))
    lines += ["pressures" + "".join(figures("pressures", fields, tried)) for _, mark, fields in found if mark == b"PD"]
    lines += [node_line(name, node, tried) for name, node in zip(names, nodes)]
    lines += [link_line(link, names, tried) for _, mark, link in found if mark == b"LK"]
    return "\n".join(lines) + "\n"
