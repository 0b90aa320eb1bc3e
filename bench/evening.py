#!/usr/bin/env python3
"""An evening of 32 rows in one call against 32 single solves, by the proved library on the bench's sheets:
bench/evening.py [ROUNDS]. Each time is the least of 100 evenings a round, so that other work on the machine counts for
little. The single solves are timed without and with the writing of the demands into the sheet, which one call does itself.
On Arm the library comes from the shared native_lib, as for bench/solves.py."""
import os
import sys

import solves

EVENINGS = 100


def measured(files):
    """By the sheet's name: nodes, links, solved rows, trials; then the three times."""
    rows = [line.split() for line in solves.call("target/bench/evening", str(EVENINGS), *files).splitlines()]
    return {name: ([int(x) for x in rest[:4]], [float(x) for x in rest[4:]]) for name, *rest in rows}


def main(rounds):
    said = solves.processor()
    os.makedirs(os.path.join(solves.ROOT, "target", "bench"), exist_ok=True)
    archives, origin = zip(*map(solves.library, ("desk_evening", "desk")))
    solves.call("gcc", "-O2", "-o", "target/bench/evening", "bench/evening.c", *archives)
    files = solves.sheets()
    runs = [measured(files) for _ in range(rounds)]
    print(said)
    print("proved: " + origin[0])
    print("32 rows, %d rounds of %d evenings, microseconds, the least" % (rounds, EVENINGS))
    print("| sheet | nodes | links | rows solved | trials | one call | 32 solves | with the demands written | one call / 32 solves"
          " | one call / with the demands written |")
    print("|---|---|---|---|---|---|---|---|---|---|")
    for file in files:
        name = os.path.basename(file)
        together, apart, written = (min(run[name][1][way] for run in runs) for way in range(3))
        print("| %s | %d | %d | %d | %d | %.1f | %.1f | %.1f | %.3f | %.3f |" % (
            name[:-6], *runs[0][name][0], together, apart, written, together / apart, together / written))


if __name__ == "__main__":
    main(int(sys.argv[1]) if len(sys.argv) > 1 else 5)
