"""Document 01's network sheet: built from a few lines, written, and read back.

    s = Sheet(accuracy=0.001, trials=40)
    source = s.reservoir(head=100)
    field = s.junction(elevation=5, demand=0.4)
    s.pipe(source, field, resistance=1.5)
    data = s.encode()

Nodes and links are numbered from 0 in the order they are added; each method
gives the number. Kinds, statuses and flow units go by name, or by any byte.
"""
import struct

NODE_KINDS = ("junction", "reservoir", "tank")
LINK_KINDS = ("pipe", "PRV", "PSV", "PBV", "FCV", "TCV", "PCV")
STATUSES = ("Closed", "Open", "Active", "TempClosed", "FixedClosed",
            "FixedOpen", "XPressure", "Xhead")
UNITS = ("CFS", "GPM", "MGD", "IMGD", "AFD", "LPS", "LPM", "MLD", "CMS", "CMH", "CMD")
# how many of each flow unit make a cubic foot per second
PER_CFS = (1.0, 448.831, 0.64632, 0.5382, 1.9837, 28.317, 1699.0, 2.4466, 0.028317,
           101.94, 2446.6)

# mark: struct layout after the mark, field names
LAYOUT = {
    b"OP": ("<dddHB", ("accuracy", "damping_limit", "max_flow_change", "trials", "unit")),
    b"PD": ("<dd", ("minimum", "required")),
    b"ND": ("<BBdddddB", ("kind", "disabled", "elevation", "demand", "head",
                          "max_level", "min_level", "overflow")),
    b"LK": ("<BBBHHddddd", ("kind", "check_valve", "status", "start", "end", "setting",
                            "minor_loss", "diameter", "resistance", "flow")),
}
BYTES = {mark: 2 + struct.calcsize(layout) for mark, (layout, _) in LAYOUT.items()}
FLOATS = {mark: tuple(name for name, code in zip(names, layout[1:]) if code == "d")
          for mark, (layout, names) in LAYOUT.items()}


def code(names, value):
    return names.index(value) if isinstance(value, str) else value


def record(mark, fields):
    layout, names = LAYOUT[mark]
    return mark + struct.pack(layout, *(fields[name] for name in names))


class Sheet:
    """One sheet; every field may also be set afterwards in op, pd, nodes and links. `pressures`,
    where given, is the PD's pair: minimum and required pressure in feet."""

    def __init__(self, accuracy=0.001, damping_limit=0.0, max_flow_change=0.0,
                 trials=40, unit="CFS", pressures=None):
        self.op = dict(accuracy=accuracy, damping_limit=damping_limit,
                       max_flow_change=max_flow_change, trials=trials,
                       unit=code(UNITS, unit))
        self.pd = pressures and dict(zip(("minimum", "required"), pressures))
        self.nodes = []
        self.links = []

    def node(self, kind, elevation=0.0, demand=0.0, head=0.0, max_level=0.0,
             min_level=0.0, disabled=0, overflow=0):
        self.nodes.append(dict(
            kind=code(NODE_KINDS, kind), disabled=disabled, elevation=elevation,
            demand=demand, head=head, max_level=max_level, min_level=min_level,
            overflow=overflow))
        return len(self.nodes) - 1

    def junction(self, **fields):
        return self.node("junction", **fields)

    def reservoir(self, **fields):
        return self.node("reservoir", **fields)

    def tank(self, **fields):
        return self.node("tank", **fields)

    def link(self, kind, start, end, status="Open", setting=0.0, minor_loss=0.0,
             diameter=1.0, resistance=0.0, flow=1.0, check_valve=0):
        self.links.append(dict(
            kind=code(LINK_KINDS, kind), check_valve=check_valve,
            status=code(STATUSES, status), start=start, end=end, setting=setting,
            minor_loss=minor_loss, diameter=diameter, resistance=resistance, flow=flow))
        return len(self.links) - 1

    def pipe(self, start, end, resistance=1.0, **fields):
        return self.link("pipe", start, end, resistance=resistance, **fields)

    def valve(self, kind, start, end, setting=0.0, status="Active", **fields):
        return self.link(kind, start, end, setting=setting, status=status, **fields)

    def at_node(self, index):
        """The byte offset of a node's record."""
        return BYTES[b"OP"] + (BYTES[b"PD"] if self.pd else 0) + BYTES[b"ND"] * index

    def at_link(self, index):
        return self.at_node(len(self.nodes)) + BYTES[b"LK"] * index

    def encode(self):
        return b"".join([record(b"OP", self.op)]
                        + ([record(b"PD", self.pd)] if self.pd else [])
                        + [record(b"ND", node) for node in self.nodes]
                        + [record(b"LK", link) for link in self.links])


def decode(data):
    """(offset, mark, fields) of each record; a rest that is none comes last as
    (offset, None, its bytes)."""
    at, found = 0, []
    while at < len(data):
        mark = data[at:at + 2]
        end = at + BYTES.get(mark, 0)
        if mark not in LAYOUT or end > len(data):
            return found + [(at, None, data[at:])]
        layout, names = LAYOUT[mark]
        values = struct.unpack(layout, data[at + 2:end])
        found.append((at, mark, dict(zip(names, values))))
        at = end
    return found


def named(names, value):
    return names[value] if value < len(names) else "code %d" % value


def shown(data):
    """The records as lines for a reader, each with its byte offset."""
    count = {b"ND": 0, b"LK": 0}
    for at, mark, fields in decode(data):
        if mark is None:
            yield "%6d  not a record: %d bytes, %s" % (at, len(fields), fields[:16].hex())
            continue
        fields = dict(fields)
        title = ""
        if mark == b"OP":
            fields["unit"] = named(UNITS, fields["unit"])
        elif mark != b"PD":
            kinds = NODE_KINDS if mark == b"ND" else LINK_KINDS
            title = "%d %s " % (count[mark], named(kinds, fields.pop("kind")))
            count[mark] += 1
        if mark == b"LK":
            title += "%d -> %d " % (fields.pop("start"), fields.pop("end"))
            fields["status"] = named(STATUSES, fields["status"])
        rest = ", ".join("%s %s" % (name.replace("_", " "), value)
                         for name, value in fields.items())
        yield "%6d  %s %s%s" % (at, mark.decode(), title, rest)


def pack_many(sheets):
    """The many form: a 4-byte little-endian length, then the sheet, each time."""
    return b"".join(struct.pack("<I", len(data)) + data for data in sheets)


def unpack_many(data):
    at, found = 0, []
    while at < len(data):
        (length,) = struct.unpack_from("<I", data, at)
        found.append(data[at + 4:at + 4 + length])
        at += 4 + length
    return found


class Case:
    """A sheet with a name and the reason for it. `answer`, where given, is what
    document 01 says outright: (number, place). `record` likewise, its entries."""

    def __init__(self, name, reason, data, answer=None, record=None):
        self.name = name
        self.reason = reason
        self.data = data.encode() if isinstance(data, Sheet) else data
        self.answer = answer
        self.record = record


class Dice:
    """A small generator of its own (splitmix64): the same numbers everywhere."""

    def __init__(self, *seeds):
        self.state = 0
        for seed in seeds:
            self.state = (self.state ^ seed) & MASK
            self.state = self.word()

    def word(self):
        self.state = (self.state + 0x9E3779B97F4A7C15) & MASK
        z = self.state
        z = (z ^ z >> 30) * 0xBF58476D1CE4E5B9 & MASK
        z = (z ^ z >> 27) * 0x94D049BB133111EB & MASK
        return z ^ z >> 31

    def below(self, n):
        return self.word() % n

    def chance(self, part):
        return self.unit() < part

    def unit(self):
        """From 0 up to 1, in steps of 2^-53."""
        return (self.word() >> 11) / (1 << 53)

    def between(self, low, high):
        return low + (high - low) * self.unit()

    def choice(self, items):
        return items[self.below(len(items))]


MASK = (1 << 64) - 1


def bits(x):
    return struct.unpack("<Q", struct.pack("<d", x))[0]


def of_bits(n):
    return struct.unpack("<d", struct.pack("<Q", n))[0]


def next_up(x):
    """The next f64 away from 0 of the same sign (or towards 0 by next_down)."""
    return of_bits(bits(x) + 1)


def next_down(x):
    return of_bits(bits(x) - 1)
