"""The named cases of the rules: units, convergence, status rules, valves, tanks,
repairs, refusals 6 to 8, damping, and the open points B01 to B30 that have no
place among the refusals.
"""
import product  # noqa: F401
from coordinator.sheet_format import LINK_KINDS, PER_CFS, STATUSES, UNITS, Case, Sheet, next_down, next_up
from sheet_refusals import LIMIT, TINY, between, changed, example, pair

HEAD_TOLERANCE = 0.0005
FLOW_TOLERANCE = 0.0001


def units():
    """The factor of each unit: a change of exactly the limit is not below it."""
    for unit, factor in zip(UNITS, PER_CFS):
        for word, limit in (("at", 0.5 * factor), ("above", next_up(0.5 * factor))):
            s = Sheet(accuracy=2.0, max_flow_change=limit, unit=unit)
            source = s.reservoir(head=100.0)
            field = s.junction(demand=0.5)
            s.valve("PRV", source, field, setting=30.0, flow=0.0)
            yield Case("unit-%s-%s" % (unit, word),
                       "first change 0.5 cfs, limit %r %s" % (limit, unit),
                       s, (0, 0), ["OK 0"] if word == "above" else ["ST 0", "OK 0"])


def convergence():
    for word, accuracy in (("at", 0.5), ("above", next_up(0.5))):
        s = Sheet(accuracy=accuracy)
        s.reservoir(head=100.0)
        s.junction(demand=0.5)
        s.valve("PRV", 0, 1, setting=30.0, flow=0.0)
        yield Case("accuracy-" + word, "first change 0.5, accuracy %r" % accuracy, s, (0, 0),
                   ["OK 0"] if word == "above" else ["ST 0", "OK 0"])
    for word, demand in (("at", 0.5), ("above", next_up(0.5))):
        # the sum of flows is the demand; only above twice the accuracy is the
        # change, 0.1875, divided by it and then above the accuracy
        s = Sheet(accuracy=0.25)
        s.reservoir(head=100.0)
        s.junction(demand=demand)
        s.valve("PRV", 0, 1, setting=30.0, flow=0.3125)
        yield Case("relative-change-" + word, "sum of flows %r, accuracy 0.25" % demand, s, (0, 0),
                   ["OK 0"] if word == "at" else ["ST 0", "OK 0"])


# why a status changed (document 02, [2])
REVERSE_FLOW, INLET_TOO_LOW, OUTLET_TOO_HIGH, REOPENED = range(1, 5)


def told(cause, link=0):
    """The number of an ST or OK entry: the lowest link that changed plus 1, and the cause above it."""
    return link + 1 + 256 * cause


def moves(cause, link=0):
    """The record of a solve in whose first trial a link changes, and nothing after it."""
    return ["ST %d" % told(cause, link), "OK 0"]


STAYS = ["OK 0"]


def prv_edge(name, reason, record, status, setting=50.0, head=100.0, demand=0.0, feed=None,
             minor_loss=0.0, flow=0.0):
    """A PRV from a reservoir to a junction, which a second reservoir may feed. The accuracy
    is so loose that only a change of status keeps the first trial from being the last."""
    s = Sheet(accuracy=1e6, trials=15)
    s.reservoir(head=head)
    s.junction(demand=demand)
    s.valve("PRV", 0, 1, setting=setting, status=status, minor_loss=minor_loss, flow=flow)
    if feed is not None:
        s.pipe(s.reservoir(head=feed), 1)
    return Case("prv-" + name, reason, s, (0, 0), record)


def psv_edge(name, reason, record, status, setting=50.0, head=20.0, demand=0.0, feed=100.0,
             minor_loss=0.0, flow=0.0):
    """A PSV from a junction, which a reservoir may feed, to a reservoir."""
    s = Sheet(accuracy=1e6, trials=15)
    s.junction(demand=demand)
    s.reservoir(head=head)
    s.valve("PSV", 0, 1, setting=setting, status=status, minor_loss=minor_loss, flow=flow)
    if feed is not None:
        s.pipe(s.reservoir(head=feed), 0)
    return Case("psv-" + name, reason, s, (0, 0), record)


def reverse_flow():
    """A first flow of exactly minus the tolerance, and just past it."""
    reason = "closes when the flow is below minus the tolerance"
    for word, flow, record in (("at", FLOW_TOLERANCE, STAYS),
                               ("past", next_up(FLOW_TOLERANCE), moves(REVERSE_FLOW))):
        for status in ("Active", "Open", "XPressure"):
            name = "reverse-%s-%s" % (status, word)
            yield prv_edge(name, reason, record, status, demand=-flow,
                           head=100.0 if status == "Active" else 0.0)
            yield psv_edge(name, reason, record, status, demand=flow, feed=None, head=0.0,
                           setting=50.0 if status == "Active" else -50.0)


def prv_edges():
    low, high = 50.0 - HEAD_TOLERANCE, 50.0 + HEAD_TOLERANCE
    reason = "Active opens when the inlet is below the set head less the tolerance"
    yield prv_edge("active-at", reason, STAYS, "Active", head=low)
    yield prv_edge("active-under", reason, moves(INLET_TOO_LOW), "Active", head=next_down(low))
    reason = "Closed becomes Active when the inlet is at the set head and the tolerance, or above"
    yield prv_edge("closed-inlet-at", reason, moves(REOPENED), "Closed", head=high, demand=1e-6)
    yield prv_edge("closed-inlet-under", reason, STAYS, "Closed", head=next_down(high), demand=1e-6)
    reason = "and the outlet is below the set head less the tolerance"
    # the head that the first trial finds, and the setting that puts it on the edge
    outlet, edge = 39.92600111257046, float.fromhex("0x1.3f69796a51950p+5")
    fed = dict(status="Closed", demand=0.5, feed=40.0)
    yield prv_edge("closed-outlet-at", reason, STAYS, setting=edge, **fed)
    yield prv_edge("closed-outlet-under", reason, moves(REOPENED), setting=next_up(edge), **fed)
    yield prv_edge("closed-outlet-between", reason, STAYS, setting=outlet, **fed)
    reason = "Closed opens when the inlet is below the set head less the tolerance"
    yield prv_edge("closed-opens-at", reason, STAYS, "Closed", head=low, demand=1e-6)
    yield prv_edge("closed-opens-under", reason, moves(REOPENED), "Closed", head=next_down(low), demand=1e-6)
    reason = "and above the outlet by more than the tolerance"
    inlet = float.fromhex("0x1.3f6978d4fe453p+5")
    yield prv_edge("closed-opens-level-at", reason, STAYS, head=inlet, setting=80.0, **fed)
    yield prv_edge("closed-opens-level-above", reason, moves(REOPENED), head=next_up(inlet), setting=80.0, **fed)
    yield prv_edge("closed-opens-level-between", reason, STAYS, head=39.926, setting=80.0, **fed)


def psv_edges():
    high = 50.0 + HEAD_TOLERANCE
    reason = "Active opens when the outlet is above the set head and the tolerance"
    yield psv_edge("active-at", reason, STAYS, "Active", head=high)
    yield psv_edge("active-above", reason, moves(OUTLET_TOO_HIGH), "Active", head=next_up(high))
    reason = "Open becomes Active when the inlet is below the set head less the tolerance"
    inlet, edge = 25.056206764921505, float.fromhex("0x1.90e8455a4ccc1p+4")
    opened = dict(status="Open", demand=0.5, minor_loss=5.0, flow=0.5)
    yield psv_edge("open-at", reason, STAYS, setting=edge, **opened)
    yield psv_edge("open-under", reason, moves(INLET_TOO_LOW), setting=next_up(edge), **opened)
    yield psv_edge("open-between", reason, STAYS, setting=inlet, **opened)
    reason = "Closed opens when the outlet is above the set head and the tolerance, else is Active"
    yield psv_edge("closed-outlet-at", reason, moves(REOPENED), "Closed", head=high)
    yield psv_edge("closed-outlet-above", reason, moves(REOPENED), "Closed", head=next_up(high))
    reason = "and the inlet above the outlet by more than the tolerance"
    outlet = 99.92549999999073
    for word, setting in (("opens", 20.0), ("active", 99.9253)):
        fed = dict(status="Closed", setting=setting, demand=0.5)
        yield psv_edge("closed-%s-level-at" % word, reason, STAYS, head=outlet, **fed)
        # it opens, and closes again when the water turns
        again = moves(REVERSE_FLOW) if word == "opens" else ["OK 0"]
        record = ["ST %d" % told(REOPENED)] + again
        yield psv_edge("closed-%s-level-under" % word, reason, record, head=next_down(outlet), **fed)
        yield psv_edge("closed-%s-level-between" % word, reason, STAYS, head=99.9257, **fed)


def regulators_at_each_status():
    for status in STATUSES:
        yield prv_edge("status-" + status, "a PRV that starts as " + status, None, status,
                       head=90.0, demand=0.5)
        yield psv_edge("status-" + status, "a PSV that starts as " + status, None, status)


def against_the_stand_in():
    """B16: where the Rust's rules and the EPANET 2.2 stand-in part. The settings are the
    head of the first trial less the tolerance, the next lower number, and that head."""
    for word, setting in (("at", float.fromhex("0x1.8fff7ced91686p+6")),
                          ("under", float.fromhex("0x1.8fff7ced91685p+6")),
                          ("between", 99.99999999999999)):
        s = Sheet(accuracy=1e6)
        s.reservoir(head=100.0)
        s.junction(demand=0.5)
        s.valve("PRV", 0, 1, setting=setting, status="Open", minor_loss=5.0)
        yield Case("B16-prv-open-" + word, "outlet head against set head and tolerance: `>`", s,
                   (0, 0), moves(OUTLET_TOO_HIGH) if word == "under" else STAYS)
    for word, setting in (("at", float.fromhex("0x1.8fb3b5e24ba4ap+6")),
                          ("under", float.fromhex("0x1.8fb3b5e24ba49p+6"))):
        s = Sheet(accuracy=1e6)
        s.reservoir(head=100.0)
        s.junction(demand=0.5)
        s.reservoir(head=20.0)
        s.pipe(0, 1)
        s.valve("PSV", 1, 2, setting=setting, status="Closed", flow=0.0)
        yield Case("B16-psv-closed-" + word, "inlet head against set head and tolerance: `>`", s,
                   (0, 0), moves(REOPENED, link=1) if word == "under" else STAYS)
    s = Sheet()
    s.reservoir(head=60.0)
    s.junction(demand=2.0)
    s.valve("PRV", 0, 1, setting=59.0, minor_loss=40.0, flow=2.0)
    yield Case("B16-prv-no-loss", "inlet 60, set head 59, loss above 4: stays Active", s, (0, 0),
               ["OK 0"])
    s = Sheet()
    s.reservoir(head=100.0)
    s.junction(elevation=0.0)
    s.reservoir(head=49.0)
    s.pipe(0, 1, resistance=10.0, flow=2.0)
    s.valve("PSV", 1, 2, setting=50.0, minor_loss=40.0, flow=2.0)
    yield Case("B16-psv-no-loss", "outlet 49, set head 50, loss above 4: stays Active", s, (0, 0))


def valve_numbers():
    for word, flow in (("below", next_down(0.75)), ("at", 0.75), ("above", next_up(0.75))):
        yield Case("fcv-" + word, "ordinary below the setting, controlled from it on",
                   between("FCV", setting=0.75, flow=flow), (0, 0))
    for setting in (-1.0, 0.0, 5e-5, 50.0, next_down(100.0), 100.0, 250.0):
        yield Case("pcv-%r" % setting, "PCV position %r of 100" % setting,
                   between("PCV", setting=setting, minor_loss=2.5))
    yield Case("pcv-capped", "a loss beyond BIG_VALUE is BIG_VALUE",
               between("PCV", setting=0.001, minor_loss=1e6, diameter=0.05))
    yield Case("pcv-open-uncapped", "at 100 the open coefficient stands, beyond BIG_VALUE too",
               between("PCV", setting=100.0, minor_loss=1e6, diameter=0.05))
    for setting in (-2.0, -0.0, 0.0, TINY, 3.0):
        yield Case("tcv-%r" % setting, "a coefficient not above 0 is a short open link",
                   between("TCV", setting=setting))
    for word, flow in (("zero", 0.0), ("minus-zero", -0.0), ("small", 1e-9), ("back", -0.4)):
        yield Case("tcv-flow-" + word, "the gradient's guard and the sign of the flow",
                   between("TCV", setting=3.0, flow=flow), (0, 0))
        yield Case("pipe-flow-" + word, "the gradient's guard and the sign of the flow",
                   changed(pair(), "links", 0, flow=flow), (0, 0))
    yield Case("pbv-negative", "a PBV that lifts", between("PBV", setting=-7.0), (0, 0))
    yield Case("pipe-no-resistance", "friction 0: the guard alone",
               changed(pair(), "links", 0, resistance=0.0), (0, 0))
    yield Case("pipe-power-zero", "a flow below 2^-64: its power is 0",
               changed(pair(trials=10), "links", 0, flow=2.0 ** -65, resistance=LIMIT))
    yield Case("pipe-power-least", "a flow of 2^-64",
               changed(pair(trials=10), "links", 0, flow=2.0 ** -64, resistance=LIMIT))


def guards():
    """A first gradient of exactly RQ_TOL, and the next lower; answered after one trial."""
    setting = 0.5 / 0.02517  # a coefficient of exactly 0.5
    for word, flow in (("at", 1e-7), ("under", next_down(1e-7))):
        s = between("TCV", setting=setting, flow=flow)
        yield Case("tcv-guard-" + word, "linear only below RQ_TOL",
                   changed(s, "op", 0, accuracy=1e6), (0, 0), ["OK 0"])
    resistance = 1e-7 / 1.852
    for word, value in (("at", resistance), ("under", next_down(resistance))):
        s = changed(pair(accuracy=1e6), "links", 0, resistance=value, flow=1.0)
        yield Case("pipe-guard-" + word, "linear only below RQ_TOL", s, (0, 0), ["OK 0"])


def kinds_and_statuses():
    for kind in LINK_KINDS:
        for status in STATUSES:
            name = "status-%s-%s" % (kind, status)
            if kind == "pipe" and status in ("Active", "FixedOpen", "XPressure", "Xhead"):
                name = "B13-pipe-" + status
            elif kind != "pipe" and status in ("XPressure", "Xhead"):
                name = "B14-%s-%s" % (kind, status)
            elif kind == "pipe" and status == "FixedClosed":
                name = "corner-pipe-FixedClosed"
            yield Case(name, "a %s that starts as %s" % (kind, status),
                       between(kind, status, setting=2.0, minor_loss=1.5, diameter=0.5,
                               resistance=0.25))


def check_valves():
    for word, head in (("forward", 40.0), ("shut", 160.0), ("level", 100.0)):
        s = Sheet()
        s.reservoir(head=100.0)
        s.junction(demand=0.0)
        s.reservoir(head=head)
        s.pipe(0, 1, check_valve=1)
        s.pipe(1, 2)
        yield Case("check-valve-" + word, "heads 100 and %g with a check valve between" % head, s)


def tank(head, start_at_tank=False, source=60.0, overflow=0, kind="pipe", flow=1.0, **fields):
    """A reservoir and a tank, full at 30 and empty at 22, with one link."""
    s = Sheet(trials=20)
    other = s.reservoir(head=source)
    basin = s.tank(elevation=20.0, head=head, max_level=10.0, min_level=2.0, overflow=overflow)
    start, end = (basin, other) if start_at_tank else (other, basin)
    s.link(kind, start, end, resistance=1.0, flow=-flow if start_at_tank else flow, **fields)
    return s


def tanks():
    for word, head in (("full", 30.0), ("almost", next_down(30.0))):
        for backward in (False, True):
            name = "tank-%s%s" % (word, "-from" if backward else "-to")
            yield Case(name, "full from elevation and max level on; flow inward",
                       tank(head, backward))
    yield Case("tank-overflow", "a full tank that may overflow keeps filling",
               tank(30.0, overflow=1), (0, 0))
    for word, head in (("empty", 22.0), ("almost-empty", next_up(22.0))):
        for backward in (False, True):
            name = "tank-%s%s" % (word, "-from" if backward else "-to")
            yield Case(name, "empty up to elevation and min level; flow outward",
                       tank(head, backward, source=10.0))
    yield Case("tank-full-outflow", "a full tank may empty", tank(30.0, source=10.0))
    yield Case("B09-closed-pipe", "a full tank shuts a Closed pipe too: it ends as TempClosed",
               tank(30.0, status="Closed"))
    yield Case("B09-fixed-closed-valve", "and a FixedClosed valve",
               tank(30.0, kind="TCV", status="FixedClosed", setting=3.0))
    yield Case("B10-valve-stays-shut",
               "a valve that a full tank shut stays so, though the water would run out",
               tank(30.0, source=10.0, kind="TCV", status="Active", setting=3.0, flow=1000.0))
    s = tank(30.0, source=10.0, flow=1000.0)
    s.op["trials"] = 60
    yield Case("B10-pipe-reopens", "a pipe in its place opens again", s, (0, 0))
    s = Sheet(trials=20)
    s.junction(demand=0.2)
    basin = s.tank(elevation=20.0, head=30.0, max_level=10.0, demand=3.0)
    source = s.reservoir(head=90.0)
    s.pipe(source, 0)
    s.pipe(basin, 0, flow=-0.5)
    s.pipe(0, basin, flow=0.25)
    s.pipe(basin, source, flow=0.75)
    yield Case("tank-order", "inflow: links ending at the tank, then those starting at it", s)
    yield Case("temp-closed-pipe", "leaving TempClosed is no status change",
               changed(pair(), "links", 0, status=3))


# --- repairs ----------------------------------------------------------------------

def june(resistance, upstream=False, downstream=False, flow=0.25, field_elevation=5.0):
    """A PSV and below it a PRV, a short main between them and no other link there.
    Water is drawn only where some reservoir can give it."""
    s = Sheet()
    top = s.junction(elevation=10.0)
    upper = s.junction(elevation=10.0)
    lower = s.junction(elevation=10.0)
    field = s.junction(elevation=field_elevation,
                       demand=0.25 if upstream or downstream else 0.0)
    s.valve("PSV", top, upper, setting=60.0, flow=flow)
    s.pipe(upper, lower, resistance=resistance, flow=flow)
    s.valve("PRV", lower, field, setting=30.0, flow=flow)
    if upstream:
        s.pipe(s.reservoir(head=200.0), top, resistance=2.0, flow=flow)
    if downstream:
        s.pipe(s.reservoir(head=34.0), field, resistance=20.0, flow=flow)
    return s


def three_regulators(resistance):
    """Between the junctions a and b a main and a Closed PRV, below b two Active ones."""
    s = Sheet()
    a, b = s.junction(), s.junction()
    low, high = s.junction(demand=0.1), s.junction(demand=0.1)
    s.valve("PRV", a, b, setting=20.0, status="Closed", flow=0.0)
    s.valve("PRV", b, low, setting=20.0, flow=0.0)
    s.valve("PRV", b, high, setting=25.0, flow=0.0)
    s.pipe(a, b, resistance=resistance, flow=0.25)
    s.pipe(s.reservoir(head=15.0), low)
    return s


def june_cases():
    yield Case("B11-june-repaired", "PSV, main, PRV, no other link: the PRV is freed", june(0.02),
               (0, 0))
    yield Case("B11-june-not-repaired",
               "the same with another main: one rounding lets it pass, heads arbitrary", june(0.03),
               (0, 0), moves(INLET_TOO_LOW, link=2))
    yield Case("june-fed-repaired", "the June shape below a reservoir", june(0.02, True))
    yield Case("june-fed-not-repaired", "the same, not repaired", june(0.03, True))
    yield Case("june-undetermined",
               "not repaired, both stay Active: nothing holds the main's heads",
               june(0.03, field_elevation=-35.0), (0, 0), ["ST 0", "OK 0"])
    yield Case("june-both-repaired", "the June shape between two reservoirs",
               june(0.02, True, True))
    yield Case("june-both-not-repaired", "the same, not repaired", june(0.03, True, True))


def repairs():
    s = Sheet()
    s.junction(demand=0.0)
    s.junction(disabled=1)
    s.valve("PRV", 1, 0, setting=10.0)
    yield Case("B04-regulator-to-disabled",
               "its other end is out of service, it touches all the same", s, (0, 0),
               ["VF 0", "GN 0", "OK 0"])
    yield Case("B18-freed-is-xpressure", "a freed valve's status is XPressure (6), not Closed", s,
               (0, 0), ["VF 0", "GN 0", "OK 0"])
    for trials in (1, 2):
        s.op["trials"] = trials
        yield Case("B26-last-trial-%s" % ("freed" if trials == 1 else "grounded"),
                   "the last allowed trial repairs: 8, and the repair counts", s,
                   (8, trials), ["VF 0", "GN 0"][:trials])
    yield Case("B26-example-one-trial", "document 01's sheet with one trial", example(1), (8, 1),
               ["GN 1"])
    s = Sheet()
    for _ in range(4):
        s.junction()
    for start, end in ((0, 1), (0, 2), (1, 2), (0, 3)):
        s.pipe(start, end, resistance=0.02, flow=0.25)
    yield Case("node-named-in-own-order",
               "an island of a triangle and a spur: node 3 is named, a reordering names 2", s)
    yield Case("freed-lowest-active",
               "three regulators at the node, one Closed: the lower Active one alone is freed",
               three_regulators(0.05), (0, 0), ["VF 1", "ST %d" % told(REVERSE_FLOW, link=1), "ST 0", "OK 0"])
    s = Sheet()
    s.junction()
    s.junction()
    s.junction(demand=0.25)
    yield Case("grounded-three", "three islands, grounded one a trial, and not again", s, (0, 0),
               ["GN 0", "GN 1", "GN 2", "OK 0"])
    s = Sheet(trials=3)
    s.nodes = [dict(node) for node in example().nodes[1:]] * 3
    yield Case("grounded-to-the-limit", "three islands in three trials: no trial is left to step",
               s, (8, 3), ["GN 0", "GN 1", "GN 2"])


def singular():
    """B17: many PBVs side by side; the pivot stays not above zero by rounding."""
    for count in (44, 45, 46, 60):
        s = Sheet(trials=10)
        a, b = s.junction(), s.junction()
        for _ in range(count):
            s.valve("PBV", a, b, setting=0.0, flow=0.0)
        yield Case("B17-%d-pbvs" % count, "%d PBVs between two junctions" % count, s,
                   (6, 1) if count in (46, 60) else (0, 0),
                   ["GN 1", "SG 1"] if count in (46, 60) else None)
        if count == 46:
            s.op["trials"] = 2
            yield Case("B17-in-the-last-trial", "6 in the last allowed trial is 6, not 8", s,
                       (6, 1), ["GN 1", "SG 1"])


def not_finite():
    """Refusal 7."""
    step = float.fromhex("0x1.5798ee2308c3ap+37")  # times 1e8 it is 2^64
    for word, head in (("at", step), ("under", next_down(step))):
        s = Sheet(trials=5)
        s.reservoir(head=head)
        s.reservoir(head=0.0)
        s.valve("PBV", 0, 1, setting=0.0, flow=0.0)
        yield Case("7-flow-" + word, "a flow of 2^64, and the next lower", s,
                   (7, 64) if word == "at" else None, ["NF 64"] if word == "at" else None)
    s = Sheet()
    s.reservoir(head=LIMIT)
    s.junction(demand=1.0)
    s.junction(demand=LIMIT)
    s.pipe(0, 1)
    s.pipe(1, 2, status="Closed", flow=0.0)
    yield Case("7-head", "a Closed pipe must carry 2^40", s, (7, 2), ["NF 2"])
    s.op["trials"] = 1
    yield Case("7-in-the-last-trial", "7 in the last allowed trial is 7, not 8", s, (7, 2),
               ["NF 2"])
    s = Sheet()
    s.reservoir(head=LIMIT)
    s.junction(demand=LIMIT)
    s.reservoir(head=-LIMIT)
    s.pipe(0, 1, status="Closed")
    s.valve("PBV", 2, 0, flow=0.0)
    yield Case("7-node-before-link", "a node and a link beyond 2^64: the node", s, (7, 1), ["NF 1"])
    s = Sheet()
    s.reservoir(head=10.0)
    s.junction(demand=1.0)
    s.junction(demand=LIMIT)
    s.pipe(0, 1)
    s.valve("TCV", 1, 2, setting=0.0, flow=0.0)
    s.nodes.append(dict(s.nodes[1], demand=0.0))
    yield Case("7-after-a-repair", "a node is grounded, a later trial is out of range",
               changed(s, "links", 1, status=0), (7, 2), ["GN 3", "NF 2"])


def quarrel(junctions, links, **fields):
    """A reservoir that feeds nothing, junctions (elevation, demand), and links
    between them that the solver settles in many trials."""
    s = Sheet(trials=30, **fields)
    s.reservoir(head=100.0)
    for elevation, demand in junctions:
        s.junction(elevation=elevation, demand=demand)
    for kind, start, end, setting, status, flow, loss in links:
        s.valve(kind, start, end, setting=setting, status=status, flow=flow, minor_loss=loss)
    return s


def two_regulators(limit):
    return quarrel([(2.5, 0.5), (41.75, 0.0)],
                   [("PSV", 2, 1, 10.0, "Active", 1.0, 2.0), ("PRV", 1, 2, 30.0, "Closed", 1.0,
                     0.0)],
                   accuracy=0.0001, damping_limit=limit)


def damping():
    """The factor moves: halved, at its floor, eased, restored; and where it must not."""
    for limit in (0.0, 0.3, 1e6):
        yield Case("damping-limit-%g" % limit,
                   "two regulators that quarrel, damping limit %g" % limit,
                   two_regulators(limit))
    change = 0.44587651522869415  # of the fourth trial, above the third
    yield Case("damping-at-the-limit", "a change of exactly the limit does not halve the factor",
               two_regulators(change))
    yield Case("damping-under-the-limit", "a change just under the limit does",
               two_regulators(next_up(change)))
    # a convergence that asks for next to no change, so that every trial counts
    strict = dict(accuracy=100.0, damping_limit=1e6, max_flow_change=1.17e-9)
    yield Case("damping-half-of-previous",
               "a change of exactly half the previous eases, it does not restore",
               changed(quarrel([(33.0, 0.0), (29.0, 0.0)],
                               [("PRV", 2, 1, 60.0, "Active", 0.0, 2.0), ("PRV", 0, 2, 10.0, "Open",
                                 0.1, 2.0)], **strict),
                       "nodes", 0, head=113.0))
    yield Case("damping-equal-changes", "a change equal to the previous does not halve",
               quarrel([(31.0, 1.0), (24.0, 0.5)],
                       [("PRV", 2, 1, 30.0, "Active", 0.0, 0.0), ("PSV", 1, 2, 60.0, "Active", 0.0,
                         2.0)], **strict))
    yield Case("damping-equal-changes-low", "nor does it ease a lowered factor",
               quarrel([(17.0, 0.5), (52.0, -0.5), (10.0, 1.0)],
                       [("FCV", 3, 1, 10.0, "Closed", 0.0, 2.0), ("PRV", 1, 2, 60.0, "Active", 0.1,
                         2.0),
                        ("PRV", 2, 3, 30.0, "Active", 0.0, 2.0)], **strict))
    yield Case("B27-grounded-and-damping",
               "a node grounded between stepped trials leaves the previous change alone",
               quarrel([(58.25, 0.5), (54.0, 0.0)],
                       [("PSV", 2, 1, 10.0, "Active", 0.1, 0.0), ("PSV", 1, 2, 60.0, "Active", 1.0,
                         2.0)],
                       accuracy=0.0001, damping_limit=1e6))
    yield Case("B27-freed-and-damping", "and so does a valve freed",
               changed(quarrel([(53.0, -0.5), (32.0, 1.0)],
                               [("PRV", 0, 1, 30.0, "Closed", 1.0, 2.0), ("PSV", 1, 2, 10.0,
                                 "Closed", 0.0, 2.0)], **strict),
                       "nodes", 0, head=88.0))


def out_of_service():
    """B01, B02, B05 to B07: nodes with no unknown and the links at them."""
    s = pair()
    s.nodes[0]["demand"] = 3.0
    yield Case("B01-reservoir-demand", "a reservoir's demand stands in N and is in no total", s, (0, 0))
    s = pair()
    s.junction(disabled=1, demand=2.0, head=7.0)
    yield Case("B02-disabled-junction", "head and demand as in the sheet, and in no total", s, (0, 0))
    for word, flow in (("flow", 5.0), ("none", 0.0)):
        s = Sheet()
        s.reservoir(head=100.0)
        s.junction(disabled=1)
        s.junction()
        s.valve("PRV", 0, 2, setting=30.0, flow=0.0)
        s.pipe(1, 2, flow=flow)
        yield Case("B05-out-of-service-" + word,
                   "a link out of service enters the excess flows once", s, (0, 0),
                   ["ST %d" % told(REVERSE_FLOW), "ST 0", "OK 0"] if flow else ["OK 0"])
    s = pair()
    basin = s.tank(disabled=1, demand=5.0, elevation=1.0, head=4.0, max_level=9.0)
    s.pipe(1, basin)
    yield Case("B06-disabled-tank", "its demand becomes the net inflow, 0", s, (0, 0))
    s = pair()
    s.nodes[0]["disabled"] = 1
    yield Case("B07-disabled-reservoir",
               "legal; its pipe is out of service and the junction grounded", s, (0, 0))


def other_open_points():
    yield Case("B08-pipe-minor-loss", "a pipe's minor loss is used as it is",
               changed(pair(), "links", 0, minor_loss=4.0, diameter=0.5), (0, 0))
    yield Case("B08-valve-minor-loss", "a valve's is K, over the fourth power of the diameter",
               between("TCV", "Open", minor_loss=4.0, diameter=0.5), (0, 0))
    yield Case("B15-no-links", "document 01's sheet of 119 bytes", example(), (0, 0),
               ["GN 1", "OK 0"])
    yield Case("B19-power", "one pipe, friction alone: the tables against powf",
               changed(pair(accuracy=1e-6), "links", 0, flow=0.7), (0, 0))
    s = Sheet()
    s.reservoir(head=50.0)
    s.reservoir(head=40.0)
    for status in STATUSES:
        s.valve("TCV", 0, 1, setting=3.0, status=status)
    yield Case("B22-status-codes", "eight links, one at each status, in the order of the codes", s,
               (0, 0))
    s = Sheet()
    s.reservoir(head=100.0)
    s.junction(demand=0.5)
    s.valve("PRV", 0, 1, setting=30.0, status="Open")
    yield Case("B28-present-though-open",
               "a PRV Open at first: excess flows are there when it turns Active", s, (0, 0))


def signs_of_zero():
    s = pair()
    s.nodes[1]["demand"] = -0.0
    s.nodes[0]["demand"] = -0.0
    yield Case("B12-minus-zero-demands", "totals start at +0.0, each demand gains +0.0", s, (0, 0))
    s = Sheet()
    s.reservoir(head=50.0)
    s.reservoir(head=50.0)
    s.pipe(0, 1, flow=-0.0)
    yield Case("sign-of-minus-zero", "signum of -0.0 is -1: the flow becomes +0.0", s, (0, 0),
               ["OK 0"])
    s = Sheet()
    s.reservoir(head=100.0)
    s.junction()
    s.valve("PRV", 0, 1, setting=30.0, flow=-0.0)
    yield Case("excess-from-minus-zero", "excess flows start at -0.0: the flow becomes +0.0", s,
               (0, 0), ["OK 0"])


GROUPS = (units, convergence, reverse_flow, prv_edges, psv_edges, regulators_at_each_status,
          against_the_stand_in, valve_numbers, guards, kinds_and_statuses, check_valves, tanks,
          june_cases, repairs, singular, not_finite, damping, out_of_service,
          other_open_points, signs_of_zero)
