#!/usr/bin/env python3
"""Whole solves by two builds of the proved library on the sheets that read the list of links at each node: every sheet of
the stored list that comes to a trial and has a tank, or a repair in its record, and the examples document01, june and night:
bench/repairs.py BEFORE.a AFTER.a [ROUNDS]. Measured as bench/before_after.py does, with 200 solves a round; printed are how
many sheets there are, the median of their ratios, how many are over 1.02, and the greatest ten."""
import os
import statistics
import sys

import before_after
import solves
import oracle
import sheets
import stored
from coordinator.sheet_format import NODE_KINDS, decode

COUNT, LIMIT = 200, 1.02
EXAMPLES = ("document01", "june", "night")


def reads_the_list(data, listing):
    """Whether a solve of the sheet has a trial, and a tank or a repair."""
    marks = [line.split()[1] for line in listing.splitlines() if line.startswith("T ")]
    if not marks:
        return False
    tanks = [f for _, mark, f in decode(data) if mark == b"ND" and NODE_KINDS[f["kind"]] == "tank"]
    return bool(tanks) or bool({"VF", "GN", "SG"} & set(marks))


def files():
    folder = os.path.join(solves.ROOT, "target", "bench", "repairs")
    os.makedirs(folder, exist_ok=True)
    listings = oracle.split(stored.read("crates/replay/stdout").decode())
    found = {"%04d-%s" % (k, case.name): case.data for k, (case, listing) in enumerate(zip(sheets.stored(), listings))
             if reads_the_list(case.data, listing)}
    found.update((name, stored.read("examples/%s.sheet" % name)) for name in EXAMPLES)
    for name, data in found.items():
        with open(os.path.join(folder, name + ".sheet"), "wb") as out:
            out.write(data)
    return [os.path.join(folder, name + ".sheet") for name in found]


def main(before, after, rounds):
    said = solves.processor()
    table = before_after.compared(before, after, files(), rounds, COUNT)
    ordered = sorted(table, key=lambda name: -table[name][3])
    print(said)
    print("%d rounds of %d solves in turns, microseconds" % (rounds, COUNT))
    print("%d sheets; median of after / before %.2f; over %.2f: %d" % (
        len(table), statistics.median(row[3] for row in table.values()), LIMIT, sum(row[3] > LIMIT for row in table.values())))
    print("| sheet | trials | before | after | after / before |")
    print("|---|---|---|---|---|")
    for name in ordered[:10] + [name + ".sheet" for name in EXAMPLES]:
        print("| %s | %d | %.2f | %.2f | %.3f |" % (name[:-6], *table[name]))


if __name__ == "__main__":
    if len(sys.argv) < 3:
        sys.exit(__doc__)
    main(sys.argv[1], sys.argv[2], int(sys.argv[3]) if len(sys.argv) > 3 else 15)
