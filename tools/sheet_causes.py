"""The named cases of document 02's [2]: which link's change an ST or OK entry tells, and why. Each cause at
and beside its tolerance stands among the regulators' edges in sheet_rules.py; here is what is told of
several links, of a pipe, of a tank, and of links at the ends of their range.
"""
import product  # noqa: F401
from coordinator.sheet_format import Case, Sheet, next_down
from sheet_rules import INLET_TOO_LOW, OUTLET_TOO_HIGH, REOPENED, REVERSE_FLOW, moves, tank, told


def regulators(*links):
    """Regulators side by side between reservoirs and junctions of their own, each (kind, status, setting, head,
    demand); one trial's heads are as good as another's."""
    s = Sheet(accuracy=1e6, trials=15)
    for kind, status, setting, head, demand in links:
        source = s.reservoir(head=head)
        field = s.junction(demand=demand)
        if kind == "PRV":
            s.valve(kind, source, field, setting=setting, status=status, flow=0.0)
        else:
            s.pipe(s.reservoir(head=100.0), field)
            s.valve(kind, field, source, setting=setting, status=status, flow=0.0)
    return s


LOW = ("PRV", "Active", 50.0, next_down(50.0 - 0.0005), 0.0)
HOLDS = ("PRV", "Active", 50.0, 100.0, 0.0)
BACK = ("PRV", "Active", 50.0, 100.0, -0.5)
HIGH = ("PSV", "Active", 50.0, 60.0, 0.0)


def several_links():
    yield Case("told-first-of-two", "two links change in one trial: the lower is told, with its own cause",
               regulators(LOW, BACK), (0, 0), moves(INLET_TOO_LOW))
    yield Case("told-other-first", "the same two the other way round",
               regulators(BACK, LOW), (0, 0), moves(REVERSE_FLOW))
    yield Case("told-second", "a lower link that stays is passed over",
               regulators(HOLDS, LOW), (0, 0), moves(INLET_TOO_LOW, link=1))
    yield Case("told-psv-behind", "a PSV behind a PRV that stays and its own pipe",
               regulators(HOLDS, HIGH), (0, 0), moves(OUTLET_TOO_HIGH, link=2))


def pipes():
    s = Sheet(accuracy=1e6)
    source, field = s.reservoir(head=100.0), s.junction(demand=0.5)
    s.pipe(source, field, status="TempClosed", flow=0.5)
    yield Case("told-pipe-in-ok", "a pipe that leaves TempClosed is told, and lets the trial converge: OK has a number",
               s, (0, 0), ["OK %d" % told(REOPENED)])
    s = Sheet(accuracy=1e6)
    source, field, off = s.reservoir(head=100.0), s.junction(demand=0.5), s.junction(disabled=1)
    s.pipe(source, off, status="TempClosed")
    s.pipe(source, field, flow=0.5)
    yield Case("told-not-out-of-service", "a pipe with a disabled end changes nothing", s, (0, 0), ["OK 0"])
    for status in ("Closed", "Xhead", "FixedClosed"):
        s = Sheet(accuracy=1e6)
        source, field = s.reservoir(head=100.0), s.junction(demand=0.5)
        s.pipe(source, field, status=status, flow=0.5)
        yield Case("told-pipe-" + status, "a pipe leaves TempClosed alone", s, (0, 0), ["OK 0"])


def shut_by_a_tank():
    yield Case("told-not-by-tank", "a full tank shuts the pipe after the update: not told in that trial; in the next "
               "it opens again, and that is told", tank(30.0, source=60.0))
    s = tank(30.0, source=60.0)
    s.op["trials"] = 1
    yield Case("told-not-by-tank-once", "one trial: the tank's shutting is not told", s, (8, 1), ["ST 0"])
    s = tank(30.0, source=60.0)
    s.op["trials"] = 2
    yield Case("told-after-tank", "the second trial tells that the pipe left TempClosed", s, (8, 2),
               ["ST 0", "ST %d" % told(REOPENED)])


def last_link():
    s = Sheet(accuracy=1e6, trials=15)
    source, field, low = s.reservoir(head=100.0), s.junction(), s.reservoir(head=next_down(50.0 - 0.0005))
    for _ in range(127):
        s.pipe(source, field)
    other = s.junction()
    s.valve("PRV", low, other, setting=50.0, status="Active", flow=0.0)
    yield Case("told-last-link", "the 128th link: 128 in the low byte", s, (0, 0), moves(INLET_TOO_LOW, link=127))


GROUPS = (several_links, pipes, shut_by_a_tank, last_link)


def named():
    return [case for group in GROUPS for case in group()]
