"""Sheets with a PD record, whose demand gives way to pressure (document 02, [11]): named
cases of its rules, then seeded networks. Its refusals are in sheet_refusals.py.

A demand bends along drawn = asked · √(pressure over the minimum / range). At nothing and at
the whole demand the curve ends in slopes of BIG_VALUE.
"""
import product  # noqa: F401
import sheet_boundary
import sheet_refusals
from coordinator.sheet_format import STATUSES, Case, Dice, Sheet, next_down
from sheet_networks import Plan, VALVES, anything, build, damage, extreme, options, small
from sheet_refusals import LIMIT, TINY, between, changed, pressed
from sheet_rules import OUTLET_TOO_HIGH, REOPENED, june, moves, tank, told


def under(s, minimum, required):
    """The sheet with a PD."""
    s.pd = dict(minimum=minimum, required=required)
    return s


# --- how much is drawn ------------------------------------------------------------------

def supplies():
    for word, minimum, required in (("full", 0.0, 20.0), ("short", 0.0, 200.0), ("none", 150.0, 200.0),
                                    ("equal-full", 40.0, 40.0), ("equal-near", 94.7, 94.7),
                                    ("equal-none", 96.0, 96.0), ("below-zero", -300.0, -5.0),
                                    ("across-zero", -50.0, 250.0)):
        yield Case("pd-" + word, "about 95 ft of pressure, minimum %g, required %g" % (minimum, required),
                   pressed(minimum, required), (0, 0))
    for word, accuracy in (("coarse", 0.01), ("fine", 1e-9)):
        yield Case("pd-short-" + word, "the same curve at accuracy %g" % accuracy,
                   pressed(0.0, 200.0, accuracy=accuracy), (0, 0))
    yield Case("pd-equal-short", "so fine that the demand leaves its whole: within the 0.1 ft of equal pressures",
               pressed(94.7, 94.7, accuracy=1e-10), (0, 0))
    s = Sheet(pressures=(10.0, 60.0))
    last = s.reservoir(head=100.0)
    for elevation in (20.0, 55.0, 120.0):
        field = s.junction(elevation=elevation, demand=0.2)
        s.pipe(last, field, flow=0.3)
        last = field
    yield Case("pd-three-hydrants", "one with its whole demand, one short, one with none", s, (0, 0))
    yield Case("pd-three-turned", "the same with the pressures of the first at the end",
               changed(changed(s, "nodes", 1, elevation=120.0), "nodes", 3, elevation=20.0), (0, 0))


def lifted(flow, **fields):
    """A reservoir at 0 and a junction above it, which asks for 0.5."""
    s = Sheet(pressures=(0.0, 10.0), **fields)
    s.reservoir(head=0.0)
    s.junction(elevation=100.0, demand=0.5)
    s.pipe(0, 1, flow=flow)
    return s


def first_trial():
    """A demand starts at its whole, on the steep end: the first step is 1e-8 of what lacks."""
    yield Case("pd-whole-at-no-pressure", "flows right at once: 0 after one trial, all drawn at no pressure",
               lifted(0.5), (0, 0), ["OK 0"])
    yield Case("pd-none-at-no-pressure", "a first flow that is not right: a second trial bends the demand",
               lifted(1.0), (0, 0))
    yield Case("pd-whole-but-fine", "and so does a finer accuracy", lifted(0.5, accuracy=1e-6), (0, 0))
    # the pressure that the first trial finds
    found = float.fromhex("0x1.7ae457fdf702ap+6")
    s = changed(pressed(0.0, found), "links", 0, flow=0.5)
    yield Case("pd-at-required", "the pressure is the required one: the asked demand, every bit of it", s,
               (0, 0), ["OK 0"])
    for word, required in (("under", 90.0), ("over", 100.0)):
        s = changed(pressed(0.0, required), "links", 0, flow=0.5)
        yield Case("pd-required-" + word, "required %g: drawn a little beside the demand" % required, s,
                   (0, 0), ["OK 0"])


def lowered(status):
    """A PRV from 100 ft to a junction that asks for 0.5."""
    s = Sheet(pressures=(0.0, 60.0))
    s.reservoir(head=100.0)
    s.junction(demand=0.5)
    s.valve("PRV", 0, 1, setting=10.0, status=status, flow=0.5)
    return s


def too_early():
    """A later trial may be content too while a demand stands on one of its steep ends."""
    yield Case("pd-whole-at-second-trial", "a PRV that sets in: 0 with all drawn at 10 ft where 60 are required",
               lowered("Open"), (0, 0), moves(OUTLET_TOO_HIGH))
    s = changed(pressed(0.0, 60.0), "nodes", 1, demand=1.0, elevation=60.0)
    changed(s, "links", 0, kind=6, status=6, flow=-1.0)
    yield Case("pd-none-at-pressure", "a shut PCV with a first flow backward: 0 with nothing drawn at 40 ft", s,
               (0, 0), ["ST 0", "OK 0"])
    s = lowered("Closed")
    yield Case("pd-prv-starts-closed", "the same PRV Closed at first: the demand bends", s, (0, 0))
    s.links[0]["kind"] = 0
    yield Case("pd-behind-closed", "a Closed pipe in its place: its slope is the demand's own", s, (0, 0))


def tiny_demands():
    """A step from the steep end that is longer than the demand lands on the other end."""
    for word, accuracy, answer in (("coarse", 0.001, (0, 0)), ("fine", 1e-9, (8, 40))):
        s = changed(pressed(0.0, 200.0, accuracy=accuracy), "nodes", 1, demand=1e-7)
        yield Case("pd-leaps-" + word, "105 ft lack: a step of 1e-6 from a demand of 1e-7", s, answer)
    for exponent in (20, 30, 38):
        yield Case("pd-wide-demand-%d" % exponent, "a demand of 2^%d" % exponent,
                   changed(pressed(0.0, 200.0), "nodes", 1, demand=2.0 ** exponent))
    for word, demand in (("least", TINY), ("subnormal", 1e-310), ("small", 1e-12)):
        for pressures in ((0.0, 20.0), (0.0, 0.0), (150.0, 200.0)):
            s = changed(pressed(*pressures), "nodes", 1, demand=demand)
            yield Case("pd-demand-%s-%g" % (word, pressures[1]), "a demand of %g above 0" % demand, s, (0, 0))
    s = pressed(0.0, LIMIT, trials=20, max_flow_change=TINY)
    changed(s, "nodes", 0, head=1e-291)
    changed(s, "nodes", 1, elevation=0.0, demand=1e-298)
    changed(s, "links", 0, flow=0.0)
    yield Case("7-pd-infinite-gradient", "drawn is 0, then within a demand of 1e-298: no number for the head", s,
               (7, 1), ["ST 0"] * 5 + ["NF 1"])


# --- demands that do not bend ------------------------------------------------------------

def copied():
    for word, demand in (("zero", 0.0), ("minus-zero", -0.0), ("negative", -0.5), ("minus-tiny", -TINY)):
        yield Case("pd-copied-" + word, "a demand of %r is drawn as it is" % demand,
                   changed(pressed(150.0, 200.0), "nodes", 1, demand=demand), (0, 0))
    yield Case("pd-reservoir-demand", "a reservoir's demand above 0 is copied",
               changed(pressed(0.0, 200.0), "nodes", 0, demand=3.0), (0, 0))
    s = pressed(0.0, 200.0)
    s.junction(disabled=1, demand=2.0, head=7.0)
    s.pipe(1, 2)
    yield Case("pd-disabled-junction", "what it draws stays as it started", s, (0, 0))
    s = pressed(0.0, 200.0)
    s.reservoir(disabled=1, demand=-4.0)
    basin = s.tank(disabled=1, demand=5.0, elevation=1.0, head=4.0, max_level=9.0)
    s.pipe(1, basin)
    yield Case("pd-disabled-tank", "its drawn flow stays the sheet's 5, its net inflow is 0", s, (0, 0))
    s = pressed(0.0, 200.0)
    s.nodes[0]["disabled"] = 1
    yield Case("pd-disabled-reservoir", "the junction stands alone: no repair, its demand gives way", s, (0, 0))


def basins():
    """A tank draws its net inflow of the same trial."""
    for head in (30.0, next_down(30.0), 22.0):
        for backward in (False, True):
            for overflow in (0, 1):
                s = under(tank(head, backward, overflow=overflow, source=60.0 if head > 25.0 else 10.0), 5.0, 20.0)
                yield Case("pd-tank-%r-%d-%d" % (head, backward, overflow), "a tank and a reservoir under PD", s)
    s = Sheet(pressures=(10.0, 90.0))
    source = s.reservoir(head=80.0)
    field = s.junction(elevation=5.0, demand=0.6)
    basin = s.tank(elevation=20.0, head=26.0, max_level=10.0, min_level=2.0, demand=3.0)
    s.pipe(source, field)
    s.pipe(field, basin, flow=0.5)
    s.pipe(basin, field, flow=0.25)
    yield Case("pd-tank-and-field", "the tank's inflow depends on what the field draws", s, (0, 0))


# --- regulators and repairs ----------------------------------------------------------------

def regulators():
    """Excess flows and added terms go by what is drawn."""
    for kind in VALVES:
        for status in ("Active", "Open"):
            s = under(between(kind, status, minor_loss=1.0, diameter=0.5), 2.0, 60.0)
            yield Case("pd-%s-%s" % (kind, status), "a %s at %s above a short demand" % (kind, status), s)
    for kind in ("PRV", "PSV"):
        for status in ("Closed", "XPressure", "FixedClosed"):
            yield Case("pd-%s-%s" % (kind, status), "a %s that starts as %s" % (kind, status),
                       under(between(kind, status, setting=30.0), 2.0, 60.0))
    for setting in (1.0, 30.0, 59.0, 80.0, 95.0):
        yield Case("pd-prv-%g" % setting, "required 60, the PRV set at %g" % setting,
                   under(between("PRV", setting=setting), 2.0, 60.0), (0, 0))
    for setting in (40.0, 80.0, 94.0):
        s = under(between("PSV", setting=setting), 2.0, 60.0)
        s.nodes[1]["demand"] = 0.75
        yield Case("pd-psv-%g" % setting, "demand on both sides of a PSV set at %g" % setting, s)


def repairs():
    for resistance in (0.02, 0.03):
        for upstream in (False, True):
            for downstream in (False, True):
                s = under(june(resistance, upstream, downstream), 10.0, 120.0)
                yield Case("pd-june-%g-%d-%d" % (resistance, upstream, downstream), "the June shape under PD", s)
    s = Sheet(pressures=(5.0, 20.0))
    s.junction(elevation=7.0)
    yield Case("pd-grounded", "a junction alone that asks for nothing is grounded", s, (0, 0), ["GN 0", "OK 0"])
    yield Case("pd-grounded-negative", "and so is one that gives",
               changed(s, "nodes", 0, demand=-1e-6), (0, 0), ["GN 0", "OK 0"])
    yield Case("pd-not-grounded", "one that asks stands by its demand's slope: head elevation and minimum",
               changed(s, "nodes", 0, demand=0.5), (0, 0), ["ST 0", "OK 0"])
    s = Sheet(pressures=(5.0, 20.0))
    s.junction()
    s.junction(disabled=1, demand=1.0)
    s.valve("PRV", 1, 0, setting=10.0)
    yield Case("pd-freed-and-grounded", "a regulator to a disabled node, then nothing", s, (0, 0),
               ["VF 0", "GN 0", "OK 0"])
    for trials in (1, 2):
        yield Case("pd-last-trial-%d" % trials, "the last allowed trial repairs: 8",
                   changed(s, "op", 0, trials=trials), (8, trials), ["VF 0", "GN 0"][:trials])


def side_by_side(count, demand):
    """B17's shape: PBVs between two junctions."""
    s = Sheet(trials=10, pressures=(5.0, 20.0))
    a, b = s.junction(), s.junction(demand=demand)
    for _ in range(count):
        s.valve("PBV", a, b, setting=0.0, flow=0.0)
    return s


def singular():
    for count in (45, 46, 60):
        number = 0 if count == 45 else 6
        yield Case("6-pd-%d-pbvs" % count, "%d PBVs between two junctions that ask for nothing" % count,
                   side_by_side(count, 0.0), (number, 1 if number else 0))
        yield Case("6-pd-%d-pbvs-demand" % count, "the same with a demand at the second",
                   side_by_side(count, 0.5))


# --- refusals 7 and 8 ------------------------------------------------------------------------

STEP = float.fromhex("0x1.5798ee2308c3ap+37")  # times 1e8 it is 2^64


def filled(head, others=0, trials=5):
    """A tank at head 0 with two PBVs from a reservoir; `others` more reservoirs before the tank."""
    s = Sheet(trials=trials, pressures=(5.0, 20.0))
    s.reservoir(head=head)
    for _ in range(others):
        s.reservoir()
    return with_tank(s)


def with_tank(s):
    basin = s.tank(elevation=-1.0, head=0.0, max_level=9.0)
    for _ in range(2):
        s.valve("PBV", 0, basin, setting=0.0, flow=0.0)
    return s


def flooded():
    """A demand whose slope is least, and three pipes of no resistance that open for the second trial."""
    s = Sheet(trials=9, pressures=(-LIMIT, -LIMIT))
    s.reservoir(head=LIMIT)
    s.junction(elevation=-LIMIT, demand=4e6)
    for _ in range(3):
        s.pipe(0, 1, resistance=0.0, status="TempClosed", flow=0.0)
    return s


def not_finite():
    yield Case("7-pd-tank-at", "two inflows of 2^63", filled(STEP / 2), (7, 257), ["NF 257"])
    yield Case("7-pd-tank-under", "two a little less: no 7 in the first trial",
               filled(next_down(STEP / 2), trials=1), (8, 1), ["ST 0"])
    yield Case("7-pd-tank-over", "two inflows just under 2^64", filled(next_down(STEP)), (7, 257), ["NF 257"])
    yield Case("7-pd-flow-first", "a flow and a drawn flow: the flow's place", filled(STEP), (7, 64), ["NF 64"])
    s = filled(next_down(STEP), trials=1)
    s.pd = None
    yield Case("7-pd-not-without", "without PD a tank's inflow is no matter for 7", s, (8, 1), ["ST 0"])
    yield Case("7-pd-last-node", "64 nodes, the last a tank", filled(next_down(STEP), others=62), (7, 319),
               ["NF 319"])
    s = with_tank(filled(next_down(STEP), others=3))
    yield Case("7-pd-first-of-two", "two tanks: the first", s, (7, 260), ["NF 260"])
    s.nodes[4]["disabled"] = 1
    yield Case("7-pd-disabled-tank", "the first out of service: the second", s, (7, 261), ["NF 261"])
    yield Case("7-pd-last-trial", "7 in the last allowed trial is 7, not 8",
               filled(STEP / 2, trials=1), (7, 257), ["NF 257"])
    yield Case("7-pd-junction", "a junction that draws 2^64 though no flow to it is so great", flooded(),
               (7, 257), ["ST %d" % told(REOPENED), "NF 257"])
    s = pressed(0.0, 20.0)
    s.junction(demand=LIMIT)
    s.pipe(1, 2, status="Closed", flow=0.0)
    yield Case("7-pd-head", "a Closed pipe must carry 2^40: the head's place", s, (7, 2), ["NF 2"])


def used_up():
    for trials in (1, 2, 3):
        yield Case("8-pd-%d" % trials, "a short supply in %d trials" % trials,
                   pressed(0.0, 200.0, trials=trials), (8, trials), ["ST 0"] * trials)


def changes():
    """A change of the drawn flow alone counts in the test of convergence."""
    for word, limit, record in (("above", 0.5, ["OK 0"]), ("below", 0.25, ["ST 0", "OK 0"])):
        s = Sheet(accuracy=1e6, max_flow_change=limit, pressures=(5.0, 20.0))
        s.junction(elevation=7.0, demand=0.5)
        yield Case("pd-change-" + word, "no links, drawn falls by almost 0.5, limit %g" % limit, s, (0, 0), record)
    for limit in (0.01, 1.0, 1e6):
        s = under(between("PRV", setting=30.0), 10.0, 40.0)
        s.op.update(damping_limit=limit, accuracy=1e-7)
        s.nodes[2]["demand"] = 4.0
        yield Case("pd-damping-%g" % limit, "a short demand below a PRV, damping limit %g" % limit, s)
    yield Case("pd-full-sheet", "64 nodes and 128 links that ask for more than there is",
               under(sheet_refusals.full(), 0.0, 5000.0), (0, 0))


GROUPS = (supplies, first_trial, too_early, tiny_demands, copied, basins, regulators, repairs, singular, not_finite,
          used_up, changes)


def named():
    """The refusals of PD, then its rules."""
    return [case for group in sheet_refusals.PD_GROUPS + GROUPS for case in group()]


# --- seeded ----------------------------------------------------------------------------------

REGIMES = ("full", "short", "none", "equal", "below zero", "between")


def pressures(dice, regime):
    """Minimum and required for sources of 150 to 260 ft above fields of 0 to 60 ft."""
    if regime == "equal":
        return (dice.between(50, 200),) * 2
    low, middle, high = {"full": (0, 10, 40), "short": (0, 60, 400), "none": (260, 300, 400),
                         "below zero": (-100, -10, 250), "between": (0, 100, 250)}[regime]
    return dice.between(low, middle), dice.between(middle, high)


def odd_demands(dice, s):
    """Nothing, little, much, or given, at some nodes of any kind."""
    for node in s.nodes:
        if dice.chance(0.15):
            node["demand"] = dice.choice((0.0, -0.0, -0.05, 1e-6, 0.3, 2.0))


def real(seed, i):
    """Realistic; the regime, the valve's kind and its status are from i."""
    dice = Dice(seed, 6, i)
    regime = REGIMES[i % 6]
    valves = [(VALVES[i // 6 % 6], STATUSES[i // 36 % 8])] if dice.chance(0.6) else []
    if dice.chance(0.15):
        valves.append(("June", "Active"))
    plan = Plan(2 + dice.below(5), loops=dice.below(3), tank=dice.chance(0.4), second=dice.chance(0.3),
                valves=valves, check_valves=0.15, odd_status=0.1, disabled=0.05)
    s = under(build(dice, plan, options(dice)), *pressures(dice, regime))
    odd_demands(dice, s)
    return Case("pd-real-%d-%d" % (seed, i), "%s, %d nodes, %d links" % (regime, len(s.nodes), len(s.links)), s)


def wild(seed, i):
    """Legal, and else anything."""
    dice = Dice(seed, 7, i)
    s = under(anything(dice), *sorted((extreme(dice), extreme(dice))))
    return Case("pd-wild-%d-%d" % (seed, i), "legal, %d nodes, %d links, extreme numbers" % (
        len(s.nodes), len(s.links)), s)


def flood(seed, i):
    """Tanks that PBVs fill, so that some drawn flow is about 2^64."""
    dice = Dice(seed, 10, i)
    s = Sheet(trials=1 + dice.below(4), pressures=pressures(dice, dice.choice(REGIMES)))
    s.reservoir(head=STEP / dice.choice((1, 2, 2, 3, 4)) * dice.choice((0.5, 1 - 2.0 ** -53, 1.0, 1.0, 1.5)))
    for _ in range(1 + dice.below(5)):
        s.node(dice.choice((1, 2, 2)), elevation=-1.0, demand=dice.between(-2, 2), max_level=9.0,
               disabled=int(dice.chance(0.2)))
    for _ in range(1 + dice.below(8)):
        ends = [0, 1 + dice.below(len(s.nodes) - 1)]
        s.valve("PBV", *(ends if dice.chance(0.7) else ends[::-1]), setting=0.0, flow=0.0)
    return Case("pd-flood-%d-%d" % (seed, i), "%d PBVs to %d nodes" % (len(s.links), len(s.nodes) - 1), s)


def damaged(seed, i):
    """A damaged copy of a good sheet."""
    dice = Dice(seed, 8, i)
    s = under(small(dice), *pressures(dice, dice.choice(REGIMES)))
    return damage(dice, "pd-damaged-%d-%d" % (seed, i), s.encode())


def seeded(seed, i):
    """A small network with a field or two at some bound."""
    dice = Dice(seed, 9, i)
    s = under(sheet_boundary.one_valve(dice), *pressures(dice, dice.choice(REGIMES)))
    return sheet_boundary.at_bounds(dice, "pd-boundary-%d-%d" % (seed, i), s)
