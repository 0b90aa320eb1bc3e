#!/usr/bin/env python3
"""How well solved networks keep the laws that a verdict asks about: what docs/DESK.md's tolerances rest on.

  verdict_measure.py [COUNT]    COUNT networks a set (1500)

The networks are `real` and `pd-real` of tools/sheets.py, set to one accuracy, answered by the oracle's build
`recipe`. Only answers with number 0, no repair and every head determined count. The first table has the worst node or
link of each answer at accuracy 0.001; line 5 has two measures, and one of them is enough. The second says, for
tolerances that may be chosen, how many answers keep lines 4 to 7, at accuracy 0.001 and at 1000, and the head that lies
furthest from the one at accuracy 1e-8, among the answers that keep them: in 99 of 100 networks, and in all.
"""
import math
import struct
import sys

import oracle
import sheets
import verdicts
from verdicts import Limits

SEED, USUAL, COARSE, FINE = 1601, 0.001, 1000.0, 1e-8
SETS = (("without PD", "real"), ("with PD", "pd-real"))
TOLERANCES = ((0.01, 0.0001), (0.01, 0.001), (0.1, 0.0001), (0.1, 0.001), (0.1, 0.01), (1.0, 0.001), (1.0, 0.01))
LINES = (
    ("4, flow at a node, cfs", lambda hour: [e for _, e in verdicts.balances(hour)]),
    ("5, flow of a link, cfs", lambda hour: [m for _, m, _ in verdicts.moves(hour)]),
    ("5, head over a link, ft", lambda hour: [m / g for _, m, g in verdicts.moves(hour) if g]),
    ("6, held head, ft", lambda hour: [gap for _, gap in verdicts.held_heads(hour)]),
    ("7, drawn flow, cfs", lambda hour: [gap for _, gap in verdicts.strays(hour)]),
)


def at_accuracy(data, accuracy, trials=None):
    """A sheet with other options."""
    kept = data[26:28] if trials is None else struct.pack("<H", trials)
    return data[:2] + struct.pack("<d", accuracy) + data[10:26] + kept + data[28:]


def answers(data):
    return [verdicts.Hour(*pair) for pair in zip(data, oracle.listings("recipe", data))]


def good(hour):
    """Solved, not repaired, every head determined."""
    kind = next(verdicts.causes(hour, Limits(-math.inf, math.inf, math.inf)), (verdicts.SOLD, 0))[0]
    return kind not in (verdicts.REFUSED, verdicts.REPAIRED, verdicts.UNDETERMINED)


def keeps(hour, head, flow):
    """Lines 4 to 7."""
    return all(kind == verdicts.TOO_LOW for kind, _ in verdicts.causes(hour, Limits(-math.inf, head, flow)))


def quantile(values, part):
    ordered = sorted(values)
    return ordered[min(len(ordered) - 1, int(part * len(ordered)))] if ordered else math.nan


def head_gap(hour, fine):
    """Infinite where the fine answer has other statuses, none where there is no fine answer."""
    if not good(fine):
        return None
    if hour.statuses != fine.statuses:
        return math.inf
    return max(abs(a - b) for a, b in zip(hour.heads, fine.heads))


def spread(hours):
    for name, measure in LINES:
        found = [max(map(abs, values)) for values in map(measure, hours) if values]
        if found:
            print("| %s | %d | %s |" % (name, len(found), " | ".join(
                "%.1e" % quantile(found, part) for part in (0.5, 0.9, 0.99, 1.0))))


def gaps_words(pairs):
    gaps = [gap for gap in (head_gap(*pair) for pair in pairs) if gap is not None]
    return "%.1e, %.1e" % (quantile(gaps, 0.99), quantile(gaps, 1.0))


def choices(usual, coarse):
    """`usual` and `coarse`: (answer, fine answer) of each network."""
    for head, flow in TOLERANCES:
        cells = []
        for pairs in (usual, coarse):
            kept = [pair for pair in pairs if keeps(pair[0], head, flow)]
            cells.append("%d of %d | %s" % (len(kept), len(pairs), gaps_words(kept)))
        print("| %g | %g | %s |" % (head, flow, " | ".join(cells)))


def report(name, kind, count):
    data = [case.data for case in sheets.generate(kind, SEED, count)]
    fine = answers([at_accuracy(d, FINE, 200) for d in data])
    usual, coarse = ([pair for pair in zip(answers([at_accuracy(d, accuracy) for d in data]), fine) if good(pair[0])]
                     for accuracy in (USUAL, COARSE))
    print("\n%d networks %s; at accuracy %g there count %d\n" % (count, name, USUAL, len(usual)))
    print("| line | answers | half of them within | 90 % | 99 % | largest |")
    print("|---" * 6 + "|")
    spread([hour for hour, _ in usual])
    print("\n| head, ft | flow, cfs | keep the laws at accuracy %g | their heads are off by, ft "
          "| keep them at %g | off by, ft |" % (USUAL, COARSE))
    print("|---" * 6 + "|")
    choices(usual, coarse)


def main(args):
    if len(args) > 1 or not all(word.isdigit() for word in args):
        sys.exit(__doc__)
    status, said = oracle.build("recipe")
    if status != 0:
        sys.exit(said.strip())
    for name, kind in SETS:
        report(name, kind, int(args[0]) if args else 1500)


if __name__ == "__main__":
    main(sys.argv[1:])
