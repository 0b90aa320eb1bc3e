#!/usr/bin/env python3
"""The spread between two builds of the oracle over generated networks.

  spread.py [COUNT [FIRST SECOND]]    COUNT networks a set (700), builds recipe plain

Builds the two, solves each network by both, and prints two tables; a third for
the networks with a PD; then how often each of them repairs the June shape, and the
verdicts that its answers get. "rel" is
|a - b| over the greater of the two, node by node, the worst node of a network;
"ft" the same in feet; "flow" the worst |a - b| over the network's greatest flow.
Typical is the median over the networks. A network with a head beyond 2,000 ft
in either answer (closed links that must carry a demand) is counted apart.
In the third table a drawn flow is off its curve when it is more than a hundredth
of the demand from what the pressure beside it allows.
"""
import math
import sys
from collections import Counter

import oracle
import product  # noqa: F401
import sheet_networks
import sheet_pressure
import sheet_rules
import verdicts
from sheet_networks import Plan, VALVES
from coordinator.sheet_format import Dice, STATUSES, Sheet, decode

UNTAME_HEAD = 2000.0
SEED = 2026
# what the bare June pairs get by `recipe`: repaired, or with heads that nothing determines
JUNE_VERDICTS = {verdicts.REPAIRED: 759, verdicts.UNDETERMINED: 241}


def pipes(idle, accuracy):
    def make(dice, _):
        size = 2 + dice.below(61)
        plan = Plan(size, loops=dice.below(size), second=dice.chance(0.3), idle=idle)
        return sheet_networks.build(dice, plan, Sheet(accuracy=accuracy, trials=200))
    return make


def valves(accuracy):
    def make(dice, _):
        size = 3 + dice.below(40)
        fitted = [(dice.choice(VALVES), dice.choice(STATUSES)) for _ in range(1 + size // 5)]
        plan = Plan(size, loops=dice.below(size), second=dice.chance(0.3),
                    tank=dice.chance(0.3), valves=fitted, idle=0.0)
        return sheet_networks.build(dice, plan, Sheet(accuracy=accuracy, trials=200))
    return make


def real(june):
    return lambda _, i: sheet_networks.real(SEED, i, june)


def pressed(minimum, required, accuracy):
    def make(dice, i):
        return sheet_pressure.under(pipes(0.0, accuracy)(dice, i), minimum, required)
    return make


PD_SETS = (
    ("PD, more pressure than required, 1e-3", pressed(0.0, 40.0, 1e-3)),
    ("PD, less, 1e-3", pressed(20.0, 300.0, 1e-3)),
    ("the same, 1e-6", pressed(20.0, 300.0, 1e-6)),
    ("PD, about the required, 1e-3", pressed(100.0, 160.0, 1e-3)),
    ("the same, 1e-6", pressed(100.0, 160.0, 1e-6)),
    ("`pd-real` of tools/sheets.py", lambda _, i: sheet_pressure.real(SEED, i)),
)

SETS = (
    ("pipes, every junction draws, 1e-3", pipes(0.0, 1e-3)),
    ("the same, 1e-6", pipes(0.0, 1e-6)),
    ("pipes, half draw nothing, 1e-3", pipes(0.5, 1e-3)),
    ("the same, 1e-6", pipes(0.5, 1e-6)),
    ("valves on a fifth of the branches, 1e-3", valves(1e-3)),
    ("the same, 1e-6", valves(1e-6)),
    ("`real` of tools/sheets.py, no June pair", real(0.0)),
    ("`real`, each with a June pair", real(1.0)),
) + PD_SETS

SAME, TRIALS, STATUS, REPAIRS, UNTAME, UNTAME_OTHER, ANSWERS = range(7)


def repairs(listing):
    return [entry for entry in listing.record if entry[:2] in ("VF", "GN")]


def group(a, b):
    if a.number != b.number or a.number != 0:
        return ANSWERS
    same = repairs(a) == repairs(b) and a.statuses == b.statuses
    if max(map(abs, a.heads + b.heads)) > UNTAME_HEAD:
        return UNTAME if same else UNTAME_OTHER
    if not same:
        return STATUS if repairs(a) == repairs(b) else REPAIRS
    return SAME if a.record == b.record else TRIALS


def gaps(a, b):
    """Worst head gap, relative and in feet, and worst flow gap."""
    heads = [(abs(x - y), max(abs(x), abs(y))) for x, y in zip(a.heads, b.heads)]
    relative = max(gap / top if gap else 0.0 for gap, top in heads)
    most = max([abs(x) for x in a.flows] + [0.001])
    flow = max([abs(x - y) / most for x, y in zip(a.flows, b.flows)] + [0.0])
    return relative, max(gap for gap, _ in heads), flow


def quantile(numbers, part):
    ordered = sorted(numbers)
    return ordered[min(len(ordered) - 1, int(part * len(ordered)))]


def three(rows, column):
    """Typical, 99 in a hundred, largest."""
    values = [row[column] for row in rows]
    if not values:
        return "- | - | -"
    return " | ".join("%.1e" % quantile(values, part) for part in (0.5, 0.99, 1.0))


def solved(make, count, first, second):
    """(sheet, the one's listing, the other's) of each network of a set."""
    sheets = [make(Dice(SEED, i), i) for i in range(count)]
    sheets = [getattr(sheet, "data", None) or sheet.encode() for sheet in sheets]
    for data, one, other in zip(sheets, oracle.listings(first, sheets), oracle.listings(second, sheets)):
        yield data, oracle.Listing(one), oracle.Listing(other)


def compare(make, count, first, second):
    groups = {kind: [] for kind in range(ANSWERS)}
    answers = {}
    for _, a, b in solved(make, count, first, second):
        answers[a.number, b.number] = answers.get((a.number, b.number), 0) + 1
        kind = group(a, b)
        if kind != ANSWERS:
            groups[kind].append(gaps(a, b))
    return groups, answers


def most(rows, column):
    return "%.1e" % max(row[column] for row in rows) if rows else "-"


def report(count, first, second):
    results = [(name, *compare(make, count, first, second)) for name, make in SETS]
    print("%d networks a set, `%s` against `%s`\n" % (count, first, second))
    print("| set | both 0 | same record and statuses | rel typical | rel 99 % | rel largest "
          "| ft typical | ft 99 % | ft largest | flow typical | flow 99 % | flow largest |")
    print("|---" * 12 + "|")
    for name, groups, answers in results:
        rows = groups[SAME]
        print("| %s | %d | %d | %s | %s | %s |" % (
            name, answers.get((0, 0), 0), len(rows), three(rows, 0), three(rows, 1), three(rows, 2)))
    print("\n| set | other trial count (largest rel, ft) | other statuses (largest rel, ft) "
          "| other repairs (largest rel, ft) | beyond 2,000 ft (other statuses or repairs) "
          "| other answers |")
    print("|---" * 6 + "|")
    for name, groups, answers in results:
        cells = ["%d (%s, %s)" % (len(groups[kind]), most(groups[kind], 0), most(groups[kind], 1))
                 for kind in (TRIALS, STATUS, REPAIRS)]
        other = len(groups[UNTAME_OTHER])
        untame = "%d (%d)" % (len(groups[UNTAME]) + other, other)
        others = ", ".join("%d against %d: %d" % (a, b, n) for (a, b), n in sorted(answers.items())
                           if a != b) or "none"
        print("| %s | %s | %s | %s |" % (name, " | ".join(cells), untame, others))
    both = [answers.get((0, 0), 0) for _, _, answers in results]
    with_pd = sum(both[-len(PD_SETS):])
    print("\nConverging in both: %d, and with a PD %d." % (sum(both) - with_pd, with_pd))


def allowed(asked, pressure, minimum, required):
    """What a demand above 0 draws at a pressure, by its curve."""
    part = (pressure - minimum) / max(required - minimum, 0.1)
    return asked * math.sqrt(min(max(part, 0.0), 1.0))


def drawn(data, listing):
    """(asked, allowed, drawn) of each demand that bends."""
    records = decode(data)
    pressures = records[1][2]
    nodes = [fields for _, mark, fields in records if mark == b"ND"]
    for node, head, flow in zip(nodes, listing.heads, listing.demands):
        if node["kind"] == 0 and not node["disabled"] and node["demand"] > 0:
            yield node["demand"], allowed(node["demand"], head - node["elevation"], **pressures), flow


def off_curve(data, listing):
    return any(abs(flow - fits) > 0.01 * max(asked, 0.001) for asked, fits, flow in drawn(data, listing))


def pressure_report(count, first, second):
    print("\n| set | both 0 | short of some demand | drawn, gap over asked: typical | 99 %% | largest "
          "| off the curve: `%s`, `%s` |" % (first, second))
    print("|---" * 7 + "|")
    for name, make in PD_SETS:
        pairs = [(data, a, b) for data, a, b in solved(make, count, first, second) if a.number == b.number == 0]
        short = sum(any(flow < 0.99 * asked for asked, _, flow in drawn(data, a)) for data, a, _ in pairs)
        worst = [(max([abs(x[2] - y[2]) / max(x[0], 0.001) for x, y in zip(drawn(data, a), drawn(data, b))]
                      + [0.0]),) for data, a, b in pairs]
        off = [sum(off_curve(row[0], row[k]) for row in pairs) for k in (1, 2)]
        print("| %s | %d | %d | %s | %d, %d |" % (name, len(pairs), short, three(worst, 0), *off))


def june_family():
    """Bare June pairs, over mains of 0.001 to 1."""
    return [sheet_rules.june(k / 1000).encode() for k in range(1, 1001)]


def june_verdicts(sheets, texts):
    """How many get each verdict. The limits are wide: they are not what decides here."""
    limits = verdicts.Limits(0.0, math.inf, math.inf)
    return Counter(verdicts.verdict(data, text, limits)[0] for data, text in zip(sheets, texts))


def verdict_words(found):
    return "verdict 2 (repaired) %d, 3 (a head that nothing determines) %d, 0 (may be sold) %d, others %d" % (
        found[2], found[3], found[0], sum(count for number, count in found.items() if number not in (0, 2, 3)))


def june_report(first, second):
    """How often the June shape is repaired, and what verdicts it gets."""
    sheets = june_family()
    texts = [oracle.listings(build, sheets) for build in (first, second)]
    freed = [[oracle.Listing(text).freed for text in listed] for listed in texts]
    print("\nJune shape, 1,000 mains: repaired by `%s` %d, by `%s` %d, by both %d." % (
        first, sum(freed[0]), second, sum(freed[1]), sum(a and b for a, b in zip(*freed))))
    for build, listed in zip((first, second), texts):
        print("By `%s`: %s." % (build, verdict_words(june_verdicts(sheets, listed))))


def main(args):
    if len(args) not in (0, 1, 3) or not all(word.isdigit() for word in args[:1]):
        sys.exit(__doc__)
    count = int(args[0]) if args else 700
    first, second = args[1:] or ("recipe", "plain")
    status, said = oracle.build(first, second)
    if status != 0:
        sys.exit(said.strip())
    report(count, first, second)
    pressure_report(count, first, second)
    june_report(first, second)


if __name__ == "__main__":
    main(sys.argv[1:])
