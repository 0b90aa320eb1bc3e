"""Refusals 1 to 4, read from documents 01 and 02 a second time: the first record that is wrong, and which of
its fields are. The proved program decides; this says in words what it decided."""
import struct

from .sheet_format import BYTES, LAYOUT, LINK_KINDS, NODE_KINDS, STATUSES, UNITS

MOST_NODES, MOST_LINKS, MOST_TRIALS = 64, 128, 200
LIMIT = 2.0 ** 40
LEAST_DIAMETER = 2.0 ** -10


def allowed_after(mark):
    """The marks that a record may be followed by; None asks for the first."""
    return {None: [b"OP"], b"OP": [b"PD", b"ND", b"LK"], b"LK": [b"LK"]}.get(mark, [b"ND", b"LK"])


def records(data):
    """(offset, mark, fields) of each record, and the offset of the first that cannot be read, or None."""
    found, at, last = [], 0, None
    while at < len(data) or not found:
        mark = data[at:at + 2]
        if mark not in allowed_after(last) or at + BYTES[mark] > len(data):
            return found, at
        layout, names = LAYOUT[mark]
        found.append((at, mark, dict(zip(names, struct.unpack_from(layout, data, at + 2)))))
        at, last = at + BYTES[mark], mark
    return found, None


def bounds(mark, fields, nodes):
    """(field, whether it is good, what it must be) for each bound of a record but the floats' common one.
    `nodes` is how many nodes the sheet has."""
    f = fields
    if mark == b"OP":
        return [
            ("accuracy", f["accuracy"] > 0, "above 0"),
            ("damping_limit", f["damping_limit"] >= 0, "0 or more"),
            ("max_flow_change", f["max_flow_change"] >= 0, "0 or more"),
            ("trials", 1 <= f["trials"] <= MOST_TRIALS, "1 to %d" % MOST_TRIALS),
            ("unit", f["unit"] < len(UNITS), "a flow unit's code, 0 to %d" % (len(UNITS) - 1)),
        ]
    if mark == b"PD":
        return [("required", f["required"] >= f["minimum"], "the minimum pressure or more")]
    if mark == b"ND":
        return [
            ("kind", f["kind"] < len(NODE_KINDS), "a node kind's code, 0 to %d" % (len(NODE_KINDS) - 1)),
            ("disabled", f["disabled"] <= 1, "0 or 1"),
            ("overflow", f["overflow"] <= 1, "0 or 1"),
        ]
    is_node = "the number of a node, 0 to %d" % (nodes - 1)
    return [
        ("kind", f["kind"] < len(LINK_KINDS), "a link kind's code, 0 to %d" % (len(LINK_KINDS) - 1)),
        ("check_valve", f["check_valve"] <= 1, "0 or 1"),
        ("status", f["status"] < len(STATUSES), "a status's code, 0 to %d" % (len(STATUSES) - 1)),
        ("start", f["start"] < nodes, is_node),
        ("end", f["end"] < nodes, is_node),
        ("minor_loss", f["minor_loss"] >= 0, "0 or more"),
        ("diameter", f["kind"] == 0 or f["diameter"] >= LEAST_DIAMETER, "at least 2^-10 ft for a valve"),
        ("resistance", f["resistance"] >= 0, "0 or more"),
    ]


def finite(unit=None):
    """What every float must be, in words."""
    return "a finite number of at most 2^40 %sin magnitude" % (unit + " " if unit else "")


def faults(mark, fields, nodes):
    """(field, what it must be) for each field outside its bounds or codes, in the record's order."""
    wrong = {name: must for name, fits, must in bounds(mark, fields, nodes) if not fits}
    for name, value in fields.items():
        # not "above the limit", which is false for a NaN
        if isinstance(value, float) and not abs(value) <= LIMIT:
            wrong[name] = finite()
    return [(name, wrong[name]) for name in fields if name in wrong]


def end_fault(link, nodes):
    """(field, what it must be) of a link whose ends may not be what they are, else None."""
    def in_service(i):
        return nodes[i]["kind"] == 0 and nodes[i]["disabled"] == 0
    if link["start"] == link["end"]:
        return "end", "another node than the start"
    if link["kind"] == 1 and not in_service(link["end"]):
        return "end", "a junction in service, since a PRV holds the head there"
    if link["kind"] == 2 and not in_service(link["start"]):
        return "start", "a junction in service, since a PSV holds the head there"
    return None


def reading(data):
    """('G', nodes, links), or ('R', number, place)."""
    found, broken = records(data)
    if broken is not None:
        return "R", 1, broken
    nodes = [f for _, mark, f in found if mark == b"ND"]
    links = [(at, f) for at, mark, f in found if mark == b"LK"]
    if not 1 <= len(nodes) <= MOST_NODES:
        return "R", 2, 0
    if len(links) > MOST_LINKS:
        return "R", 2, 1
    for at, mark, f in found:
        if faults(mark, f, len(nodes)):
            return "R", 3, at
    for at, f in links:
        if end_fault(f, nodes):
            return "R", 4, at
    return "G", len(nodes), len(links)
