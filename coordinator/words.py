"""Words and figures that the desk's pages share."""
from .sheet_format import LINK_KINDS, NODE_KINDS, PER_CFS, UNITS, named

# the original's factors: psi and metres of water in a foot of it
PSI_PER_FOOT, METRES_PER_FOOT = 0.4333, 0.3048
# of water, at standard gravity
BAR_PER_METRE = 0.0980665
# how much of a file a message quotes, and how much of a name a table shows
QUOTED, NAME = 60, 24
METRIC = UNITS[UNITS.index("LPS"):]


class Units:
    """A sheet's flow unit, and the units of pressures and of heights that go with it."""

    def __init__(self, code):
        self.flow, self.per_cfs = UNITS[code], PER_CFS[code]
        self.flow_name = "cfs" if self.flow == "CFS" else self.flow
        # enough to tell a hundredth of a litre a second
        self.flow_digits = 2 if self.per_cfs > 10 else 4 if self.per_cfs > 0.1 else 5
        self.metric = self.flow in METRIC
        self.pressure = "m" if self.metric else "psi"
        self.per_foot = METRES_PER_FOOT if self.metric else PSI_PER_FOOT
        self.height = "m" if self.metric else "ft"
        self.height_per_foot = METRES_PER_FOOT if self.metric else 1.0


def escaped(text):
    """Words from outside on one line of a terminal: what cannot be printed as escapes."""
    return "".join(c if c.isprintable() else c.encode("unicode_escape").decode("ascii") for c in text)


def quoted(text, most=QUOTED):
    """So many characters of such words."""
    shown = escaped(text[:most + 1])
    return shown if len(shown) <= most else shown[:most - 3] + "..."


def fixed(x, digits):
    """A figure for a reader: so many decimals, no minus before a zero, powers of ten once it is huge."""
    if abs(x) >= 1e7:
        return "%.4g" % x
    text = "%.*f" % (digits, x)
    return text[1:] if text.startswith("-") and not text.strip("-0.") else text


def small(x):
    """A figure that is near zero when all is well."""
    return "0" if x == 0 else "%.2g" % x


def flow_figure(units, x):
    """A flow in the sheet's unit."""
    return fixed(x * units.per_cfs, units.flow_digits)


def flow_words(units, *flows):
    """`14.16 LPS`; of two flows `5.66 of 14.16 LPS`."""
    return "%s %s" % (" of ".join(flow_figure(units, x) for x in flows), units.flow_name)


def small_flow(units, x):
    """A flow that is near zero when all is well."""
    return "%s %s" % (small(x * units.per_cfs), units.flow_name)


def pressure_words(units, feet, digits=2):
    """`10.00 m`, or `4.33 psi (10.00 ft)` where the sheet has feet."""
    found = "%s %s" % (fixed(feet * units.per_foot, digits), units.pressure)
    return found if units.metric else "%s (%s ft)" % (found, fixed(feet, digits))


def heads_words(units, *heads):
    """`100.00 and 80.00 ft`."""
    return "%s %s" % (listed(fixed(x * units.height_per_foot, 2) for x in heads), units.height)


def small_height(units, feet):
    """A height that is near zero when all is well."""
    return "%.2g %s" % (feet * units.height_per_foot, units.height)


def apart(a, b):
    """How many decimals show that two figures are not the same: 2 where those do."""
    return next((digits for digits in range(2, 17) if fixed(a, digits) != fixed(b, digits)), 17)


def counted(count, word):
    return "%d %s%s" % (count, word, "" if count == 1 else "s")


def listed(words):
    """`a`, `a and b`, `a, b and c`."""
    words = list(words)
    return " and ".join(([", ".join(words[:-1])] if words[1:] else []) + words[-1:])


def runs(numbers):
    """Ascending numbers as (first, last) of each unbroken run."""
    found = []
    for n in numbers:
        if found and found[-1][1] == n - 1:
            found[-1] = (found[-1][0], n)
        else:
            found.append((n, n))
    return found


def numbered(word, numbers, names=None):
    """`node 4`, `nodes 1 and 2`, `nodes 1 to 5 and 8`; with names `nodes 1 (upper) and 2 (lower)`."""
    parts = []
    for first, last in runs(numbers):
        parts += ["%d to %d" % (first, last)] if last - first > 1 else map(str, range(first, last + 1))
    if names:
        parts = ["%d (%s)" % (number, quoted(names[number], NAME)) for number in numbers]
    return "%s%s %s" % (word, "" if len(numbers) == 1 else "s", listed(parts))


def give_names(nodes, links, names, link_names=None):
    """Puts the names of the nodes and of the links, where there are any, beside the fields of the records."""
    for record, name in [*zip(nodes, names or ()), *zip(links, link_names or ())]:
        record["name"] = name
    for link in links if names else ():
        link["names"] = names[link["start"]], names[link["end"]]


def a_node(number, node, word="node"):
    """`node 3`, or `node 3 (field)`; a link likewise, with its word."""
    return "%s %d" % (word, number) + (" (%s)" % quoted(node["name"], NAME) if "name" in node else "")


def node_words(number, node):
    """`node 3 (junction)`, or `node 3 (junction field)`."""
    kind = named(NODE_KINDS, node["kind"])
    return "node %d (%s)" % (number, "%s %s" % (kind, quoted(node["name"], NAME)) if "name" in node else kind)


def ends(link):
    """`2 -> 3`, or `lower -> field`; behind the link's own name where it has one: `reducer, lower -> field`."""
    found = "%s -> %s" % tuple(quoted(name, NAME) for name in link.get("names", (str(link["start"]), str(link["end"]))))
    return "%s, %s" % (quoted(link["name"], NAME), found) if "name" in link else found


def link_words(number, link):
    return "link %d (%s %s)" % (number, named(LINK_KINDS, link["kind"]), ends(link))
