"""The named cases of refusals 1 to 4: each bound with its neighbour, each code, each
record cut at each byte. And the small sheets that all named cases are made from.

Refusal 5 is not among them: it is about buffers lent too short, and no sheet
alone can bring it about.
"""
import math

import product  # noqa: F401
from coordinator.sheet_format import Case, FLOATS, LINK_KINDS, Sheet, next_down, next_up

LIMIT = 2.0 ** 40
TINY = 5e-324
VALVES = LINK_KINDS[1:]
NONNEGATIVE = ("damping_limit", "max_flow_change", "minor_loss", "resistance")


def pair(**fields):
    """A reservoir, a junction and a pipe between them."""
    s = Sheet(**fields)
    source = s.reservoir(head=100.0)
    field = s.junction(elevation=5.0, demand=0.5)
    s.pipe(source, field)
    return s


def example(trials=40):
    """Document 01's own sheet of 119 bytes."""
    s = Sheet(trials=trials)
    s.reservoir(head=100.0)
    s.junction(elevation=5.0)
    return s


def between(kind, status="Active", setting=10.0, **fields):
    """Reservoir, pipe, junction, the valve in question, junction with a demand."""
    s = Sheet()
    source = s.reservoir(head=100.0)
    before = s.junction(elevation=5.0)
    after = s.junction(elevation=4.0, demand=0.5)
    s.pipe(source, before, resistance=0.5)
    s.valve(kind, before, after, setting=setting, status=status, **fields)
    return s


def changed(s, group, index, **fields):
    """The sheet with fields of one record changed."""
    (s.op if group == "op" else getattr(s, group)[index]).update(fields)
    return s


# --- refusal 1: a record can't be read ------------------------------------------

def marks():
    good = pair().encode()
    op, nd, lk = good[:29], good[29:74], good[119:]
    yield Case("1-empty", "no byte at all", b"", (1, 0))
    yield Case("1-node-first", "ND where OP must stand", nd + op, (1, 0))
    yield Case("1-link-first", "LK where OP must stand", lk, (1, 0))
    yield Case("1-small-letters", "marks are capitals", b"op" + good[2:], (1, 0))
    yield Case("1-swapped-letters", "DN is no mark", op + b"DN" + nd[2:], (1, 29))
    yield Case("1-two-options", "a second OP", op + op + nd, (1, 29))
    yield Case("1-options-late", "OP after ND", op + nd + op, (1, 74))
    yield Case("1-node-after-link", "ND after LK", good + nd, (1, 168))
    yield Case("1-options-after-link", "OP after LK", good + op, (1, 168))
    yield Case("1-byte-after", "one byte after the last record", good + b"\0", (1, 168))
    yield Case("1-letter-after", "half a mark after the last record", good + b"L", (1, 168))
    yield Case("1-two-after", "a mark and no record", good + b"LK", (1, 168))
    for mark in (b"XX", b"LG", b"CV", b"EM", b"PD", b"\0\0"):
        reason, at = ("PD's 18 bytes are read, what follows is no record", 47) if mark == b"PD" else (
            "an unknown mark after OP", 29)
        yield Case("1-mark-" + mark.hex(), reason, op + mark + nd[2:], (1, at))


def cuts():
    """Each kind of record cut at each byte."""
    good = pair().encode()
    for name, start, length in (("op", 0, 29), ("nd", 74, 45), ("lk", 119, 49)):
        for left in range(1, length):
            yield Case("1-cut-%s-%d" % (name, left),
                       "%s of %d bytes, %d left" % (name.upper(), length, left),
                       good[:start + left], (1, start))


def order_of_refusals():
    s = pair()
    s.nodes *= 40
    many = s.encode()
    yield Case("1-before-2", "80 nodes and a cut record", many + b"LK", (1, len(many)))
    s = pair(trials=0)
    yield Case("1-before-3", "no trials and a cut record", s.encode() + b"L", (1, 168))
    s = pair(trials=0)
    s.nodes *= 40
    yield Case("2-before-3", "80 nodes and no trials", s, (2, 0))
    s = pair()
    s.links[0]["end"] = 0
    s.pipe(0, 1, flow=math.nan)
    yield Case("3-before-4", "a link to itself, then a NaN flow", s, (3, 168))
    s = pair(accuracy=0.0)
    s.nodes[1]["kind"] = 9
    yield Case("3-options-first", "OP, ND wrong: OP's offset", s, (3, 0))
    s = pair()
    s.nodes[1]["kind"] = 9
    s.links[0]["kind"] = 9
    yield Case("3-node-before-link", "ND and LK wrong: the node's offset", s, (3, 74))
    s = pair()
    s.pipe(0, 1, resistance=-1.0)
    s.pipe(0, 1, minor_loss=-1.0)
    yield Case("3-first-link", "two wrong links: the first", s, (3, 168))


# --- refusal 2: counts -----------------------------------------------------------

def nodes_of(count, links=0):
    s = Sheet()
    s.reservoir(head=100.0)
    for k in range(count - 1):
        s.junction(elevation=float(k % 7), demand=0.001)
        if k < links:
            s.pipe(k, k + 1, flow=0.0625)
    return s


def full():
    """64 nodes and 128 links: 9,181 bytes, the longest good sheet without a PD."""
    s = nodes_of(64, 63)
    for k in range(65):
        s.pipe(k % 62, k % 62 + 2, resistance=2.0, flow=0.125)
    return s


def counts():
    yield Case("2-64-nodes", "as many nodes as there may be", nodes_of(64, 63), (0, 0))
    yield Case("2-65-nodes", "one more", nodes_of(65), (2, 0))
    yield Case("2-full", "64 nodes, 128 links: the longest good sheet without a PD, 9,181 bytes", full(), (0, 0))
    s = pair()
    s.links *= 129
    yield Case("2-129-links", "one link more than there may be", s, (2, 1))
    s.links = s.links[:128]
    yield Case("2-128-links", "128 pipes side by side", s, (0, 0))
    s = nodes_of(65)
    s.links = pair().links * 129
    yield Case("2-both", "65 nodes and 129 links: the nodes' place", s, (2, 0))
    s = Sheet()
    s.reservoir(head=50.0)
    yield Case("2-one-reservoir", "one node, no links", s, (0, 0), ["OK 0"])
    s = Sheet()
    s.junction(demand=1e-6)
    yield Case("2-one-junction", "one junction alone is grounded", s, (0, 0), ["GN 0", "OK 0"])
    s = Sheet()
    s.tank(elevation=10.0, head=15.0, max_level=20.0, demand=4.0)
    yield Case("2-one-tank", "a tank with no links: its demand is the net inflow, 0", s, (0, 0),
               ["OK 0"])
    yield Case("B23-options-alone", "OP with no ND can be read: the count is wrong",
               pair().encode()[:29], (2, 0))
    good = pair().encode()
    yield Case("B23-link-after-options", "LK straight after OP can be read too",
               good[:29] + good[119:], (2, 0))


def long_sheets():
    whole = full().encode()
    good = pair().encode()
    op, nd, lk = good[:29], good[29:74], good[119:]
    yield Case("B25-one-byte-more", "a byte after the longest good sheet without a PD",
               whole + b"L", (1, 9181))
    yield Case("B25-one-link-more", "a link after the longest good sheet without a PD", whole + lk,
               (2, 1))
    yield Case("B25-cut-far", "a cut ND at 20,009", op + nd * 444 + nd[:9], (1, 20009))
    yield Case("B25-last-byte", "65,536 bytes, unreadable at the last: 65,535",
               op + nd * 1435 + lk * 19 + b"L", (1, 65535))
    yield Case("B25-longest-read", "1,455 nodes in 65,504 bytes, read to the end", op + nd * 1455,
               (2, 0))


# --- refusal 3: fields -------------------------------------------------------------

def floats():
    """Each float field: not a number, infinite, at 2^40 and next above it."""
    for mark, group, index, at in ((b"OP", "op", 0, 0), (b"ND", "nodes", 1, 74),
                                   (b"LK", "links", 0, 119)):
        for field in FLOATS[mark]:
            name = "3-%s-%s-" % (mark.decode().lower(), field.replace("_", "-"))
            for word, value in (("nan", math.nan), ("inf", math.inf), ("minus-inf", -math.inf),
                                ("above", next_up(LIMIT)), ("minus-above", -next_up(LIMIT))):
                yield Case(name + word, "%s is %r" % (field, value),
                           changed(pair(), group, index, **{field: value}), (3, at))
            yield Case(name + "limit", "%s is 2^40" % field,
                       changed(pair(trials=5), group, index, **{field: LIMIT}))
            low = changed(pair(trials=5), group, index, **{field: -LIMIT})
            refused = field in NONNEGATIVE or field == "accuracy"
            yield Case(name + "minus-limit", "%s is -2^40" % field, low,
                       (3, at) if refused else None)


def zeros():
    """0 or more, above 0: the zeros and their neighbours."""
    for group, field, at in (("op", "damping_limit", 0), ("op", "max_flow_change", 0),
                             ("links", "minor_loss", 119), ("links", "resistance", 119)):
        name = ("B03-" if field == "max_flow_change" else "3-") + field.replace("_", "-")
        yield Case(name + "-minus-zero", "-0.0 is 0 or more",
                   changed(pair(), group, 0, **{field: -0.0}), (0, 0))
        yield Case(name + "-under-zero", "the greatest number below 0",
                   changed(pair(), group, 0, **{field: -TINY}), (3, at))
    yield Case("3-accuracy-zero", "accuracy is above 0", pair(accuracy=0.0), (3, 0))
    yield Case("3-accuracy-minus-zero", "accuracy is above 0", pair(accuracy=-0.0), (3, 0))
    yield Case("3-accuracy-least", "the least number above 0 is in bounds; no change is below it",
               pair(accuracy=TINY, trials=3))


def codes():
    for trials, answer in ((0, (3, 0)), (1, (8, 1)), (200, (0, 0)), (201, (3, 0)),
                           (256, (3, 0)), (65535, (3, 0))):
        yield Case("3-trials-%d" % trials, "1 to 200 trials", pair(trials=trials), answer)
    yield Case("3-unit-11", "one past the last flow unit", pair(unit=11), (3, 0))
    yield Case("3-unit-255", "a flow unit of 255", pair(unit=255), (3, 0))
    for group, index, field, last, at in (
            ("nodes", 1, "kind", 2, 74), ("nodes", 1, "disabled", 1, 74),
            ("nodes", 1, "overflow", 1, 74), ("links", 0, "kind", 6, 119),
            ("links", 0, "check_valve", 1, 119), ("links", 0, "status", 7, 119)):
        for value in list(range(last + 2)) + [255]:
            s = changed(pair(), group, index, **{field: value})
            yield Case("3-%s-%s-%d" % (group[:-1], field.replace("_", "-"), value),
                       "%s codes end at %d" % (field.replace("_", " "), last), s,
                       (3, at) if value > last else None)
    for end in ("start", "end"):
        for value in (2, 256, 65535):
            yield Case("3-%s-%d" % (end, value), "two nodes: ends are 0 and 1",
                       changed(pair(), "links", 0, **{end: value}), (3, 119))


def diameters():
    least = 2.0 ** -10
    for kind in VALVES:
        yield Case("3-diameter-%s-least" % kind, "2^-10 is enough for a valve",
                   between(kind, diameter=least), None)
        yield Case("3-diameter-%s-under" % kind, "the next lower number is not",
                   between(kind, diameter=next_down(least)), (3, 213))
    for word, value in (("zero", 0.0), ("negative", -3.0), ("under", next_down(least))):
        yield Case("B29-pipe-diameter-" + word, "a pipe's diameter is never read",
                   changed(pair(), "links", 0, diameter=value), (0, 0))
        yield Case("3-valve-diameter-" + word, "a valve's is at least 2^-10",
                   between("TCV", diameter=value), (3, 213))


def unused():
    """B30: fields that a kind does not use."""
    yield Case("B30-junction-overflow-2", "tested though a junction has no overflow",
               changed(pair(), "nodes", 1, overflow=2), (3, 74))
    yield Case("B30-reservoir-level-nan", "tested though a reservoir has no levels",
               changed(pair(), "nodes", 0, max_level=math.nan), (3, 29))
    yield Case("B30-tcv-check-valve-2", "tested though a TCV has no check valve",
               between("TCV", check_valve=2), (3, 213))
    s = between("TCV", check_valve=1, resistance=9.0)
    s.nodes[0].update(max_level=7.0, min_level=3.0, overflow=1, elevation=-8.0)
    s.nodes[1].update(overflow=1, head=77.0, max_level=1.0)
    s.links[0].update(setting=5.0)
    yield Case("B30-unused-ignored", "legal and without effect", s, (0, 0))


# --- refusal 4: links --------------------------------------------------------------

def ends():
    for kind in LINK_KINDS:
        s = pair()
        s.link(kind, 1, 1, status="Closed")
        yield Case("4-self-" + kind, "a link from a node to itself", s, (4, 168))
    for kind, side in (("PRV", "end"), ("PSV", "start")):
        for node in ("reservoir", "tank", "disabled"):
            s = pair()
            other = s.junction(disabled=1) if node == "disabled" else s.node(node)
            start, end = (1, other) if side == "end" else (other, 1)
            for status in ("Active", "Closed"):
                t = pair()
                t.nodes = s.nodes
                t.valve(kind, start, end, status=status, flow=0.0)
                yield Case("4-%s-%s-%s-%s" % (kind, side, node, status),
                           "no unknown to hold at its %s" % side, t, (4, 213))
            t = pair()
            t.nodes = s.nodes
            t.valve(kind, end, start, setting=20.0, flow=0.0)
            yield Case("4-%s-other-end-%s" % (kind, node), "the other way round it is legal", t)
    s = pair()
    s.pipe(1, 1)
    s.pipe(0, 0)
    yield Case("4-first-of-two", "two links to themselves: the first", s, (4, 168))
    s = pair()
    tank = s.tank(disabled=1)
    s.valve("PRV", 1, tank)
    yield Case("B07-prv-to-disabled-tank", "disabled or not, a tank gives 4", s, (4, 213))


# --- the PD record (document 02, [11]) ------------------------------------------------

def pressed(minimum=5.0, required=20.0, **fields):
    """The pair under two pressures."""
    return pair(pressures=(minimum, required), **fields)


def pd_marks():
    good = pressed().encode()
    op, pd, nd, lk = good[:29], good[29:47], good[47:92], good[137:]
    for name, reason, data, at in (
            ("alone", "PD and no OP", pd, 0),
            ("first", "PD before OP", pd + op + nd, 0),
            ("twice", "a second PD", op + pd + pd + nd, 47),
            ("then-options", "OP after PD", op + pd + op + nd, 47),
            ("between-nodes", "PD between two nodes", op + nd + pd + nd, 74),
            ("between-nodes-too", "PD in its place and between two nodes", op + pd + nd + pd + nd, 92),
            ("after-nodes", "PD between nodes and links", op + nd + nd + pd + lk, 119),
            ("between-links", "PD between two links", op + nd + nd + lk + pd + lk, 168),
            ("behind-links", "PD after the last link", op + nd + nd + lk + pd, 168),
            ("behind-links-too", "PD in its place and after the last link", good + pd, 186),
            ("small-letters", "marks are capitals", op + b"pd" + pd[2:] + nd, 29),
            ("swapped-letters", "DP is no mark", op + b"DP" + pd[2:] + nd, 29),
            ("one-byte-less", "PD takes the node's first byte; the rest is no record",
             op + pd[:17] + nd, 47),
            ("one-byte-more", "a byte between PD and the node", op + pd + b"\0" + nd, 47)):
        yield Case("1-pd-" + name, reason, data, (1, at))


def pd_cuts():
    """PD cut at each byte; and the records behind a PD, which stand 18 bytes further on."""
    good = pressed().encode()
    for left in range(1, 18):
        yield Case("1-cut-pd-%d" % left, "PD of 18 bytes, %d left" % left, good[:29 + left], (1, 29))
    for name, start, left in (("nd", 47, 1), ("nd", 92, 44), ("lk", 137, 2), ("lk", 137, 48)):
        yield Case("1-pd-cut-%s-%d-%d" % (name, start, left), "a record behind a PD, %d bytes left" % left,
                   good[:start + left], (1, start))


def pd_order():
    nan = math.nan
    yield Case("1-before-3-pd", "a NaN pressure and a cut record", pressed(nan).encode() + b"L", (1, 186))
    s = pressed(nan)
    s.nodes *= 40
    yield Case("2-before-3-pd", "80 nodes and a NaN pressure", s, (2, 0))
    yield Case("3-options-before-pd", "OP and PD wrong: OP's offset", pressed(nan, trials=0), (3, 0))
    s = changed(pressed(nan), "nodes", 0, kind=9)
    yield Case("3-pd-before-node", "PD and ND wrong: PD's offset", s, (3, 29))
    s = changed(pressed(20.0, 5.0), "links", 0, end=0)
    yield Case("3-pd-before-4", "required below minimum and a link to itself", s, (3, 29))
    yield Case("3-node-behind-pd", "a node's offset behind a PD", changed(pressed(), "nodes", 1, kind=9), (3, 92))
    yield Case("3-link-behind-pd", "a link's offset behind a PD", changed(pressed(), "links", 0, kind=9), (3, 137))
    yield Case("4-behind-pd", "a link to itself behind a PD", changed(pressed(), "links", 0, end=0), (4, 137))


def pd_counts():
    good = pressed().encode()
    head, nd, lk = good[:47], good[47:92], good[137:]
    yield Case("2-pd-alone", "OP and PD can be read: the node count is wrong", head, (2, 0))
    yield Case("2-pd-link", "LK straight after PD can be read too", head + lk, (2, 0))
    s = full()
    s.pd = pressed().pd
    whole = s.encode()
    yield Case("2-pd-full", "64 nodes, 128 links, PD: the longest good sheet, 9,199 bytes", s, (0, 0))
    yield Case("1-pd-full-byte-more", "a byte after the longest good sheet", whole + b"L", (1, 9199))
    yield Case("1-pd-full-pd-more", "a PD after the longest good sheet", whole + good[29:47], (1, 9199))
    yield Case("2-pd-full-link-more", "a link after the longest good sheet", whole + lk, (2, 1))
    yield Case("2-pd-full-node-more", "65 nodes under PD", head + nd * 65, (2, 0))
    yield Case("1-pd-last-byte", "65,536 bytes with a PD, unreadable at the last: 65,535",
               head + nd * 1415 + lk * 37 + b"L", (1, 65535))


def pd_floats():
    for field, other in (("minimum", "required"), ("required", "minimum")):
        for word, value in (("nan", math.nan), ("inf", math.inf), ("minus-inf", -math.inf),
                            ("above", next_up(LIMIT)), ("minus-above", -next_up(LIMIT))):
            # the other one far off, so that only the bound is at fault
            far = math.copysign(LIMIT, -1.0 if other == "minimum" else 1.0)
            yield Case("3-pd-%s-%s" % (field, word), "%s pressure is %r" % (field, value),
                       pressed(**{field: value, other: far}), (3, 29))
    yield Case("3-pd-both-nan", "two NaN pressures", pressed(math.nan, math.nan), (3, 29))


def pd_pairs():
    """Required below minimum is 3; equal is legal."""
    for word, minimum, required in (
            ("below", 20.0, 5.0), ("ulp-below", 20.0, next_down(20.0)),
            ("ulp-below-zero", -20.0, -next_up(20.0)), ("tiny-below", 0.0, -TINY),
            ("tiny-then-zero", TINY, 0.0), ("limit-then-less", LIMIT, next_down(LIMIT)),
            ("limits-turned", LIMIT, -LIMIT)):
        yield Case("3-pd-" + word, "required %r below minimum %r" % (required, minimum),
                   pressed(minimum, required), (3, 29))
    for word, minimum, required in (
            ("equal", 20.0, 20.0), ("ulp-above", 20.0, next_up(20.0)), ("zeros", 0.0, 0.0),
            ("minus-zero-first", -0.0, 0.0), ("minus-zero-second", 0.0, -0.0),
            ("minus-zeros", -0.0, -0.0), ("minus-zero-minimum", -0.0, 20.0),
            ("tiny", 0.0, TINY), ("minus-tiny", -TINY, TINY), ("tinies", TINY, TINY),
            ("subnormal", 2.0 ** -1050, 2.0 ** -1030), ("below-zero", -40.0, -10.0),
            ("limit", LIMIT, LIMIT), ("minus-limit", -LIMIT, -LIMIT), ("required-limit", 5.0, LIMIT),
            ("minimum-minus-limit", -LIMIT, 20.0)):
        yield Case("pd-pair-" + word, "minimum %r, required %r: legal" % (minimum, required),
                   pressed(minimum, required), (0, 0))
    yield Case("pd-pair-limits", "legal, and so far apart that the drawn flow leaps from end to end",
               pressed(-LIMIT, LIMIT), (8, 40))


PD_GROUPS = (pd_marks, pd_cuts, pd_order, pd_counts, pd_floats, pd_pairs)

GROUPS = (marks, cuts, order_of_refusals, counts, long_sheets, floats, zeros, codes,
          diameters, unused, ends)
