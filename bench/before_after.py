#!/usr/bin/env python3
"""Whole solves by two builds of the proved library, in turns, on the same sheets in one run:
bench/before_after.py BEFORE.a AFTER.a [ROUNDS]. Of each round the least of 300 solves is taken; what is printed is the
least over the rounds and the median of the rounds' ratios, so that other work on the machine, or one that changes its pace,
counts for little. The answers must agree. bench/at_commit.py makes the archive of any commit."""
import os
import statistics
import sys

import solves


def built(archive, name):
    """The bench program over one library."""
    solves.call("gcc", "-O2", "-o", "target/bench/" + name, "bench/solves.c", os.path.abspath(archive))
    return "target/bench/" + name


def compared(before, after, files, rounds, count=solves.SOLVES):
    """By the sheet's name: trials, the least before and after, and the median of the rounds' ratios."""
    os.makedirs(os.path.join(solves.ROOT, "target", "bench"), exist_ok=True)
    programs = [built(before, "before"), built(after, "after")]
    runs = [[], []]
    for _ in range(rounds):
        for found, program in zip(runs, programs):
            found.append(solves.least(files, program, count))
    table = {}
    for name in runs[0][0]:
        if len({run[name][:2] for found in runs for run in found}) != 1:
            sys.exit("%s: the answers differ" % name)
        old, new = ([run[name][2] for run in found] for found in runs)
        ratio = statistics.median(y / x for x, y in zip(old, new))
        table[name] = runs[0][0][name][1], min(old), min(new), ratio
    return table


def main(before, after, rounds):
    said = solves.processor()
    table = compared(before, after, solves.sheets(), rounds)
    print(said)
    print("%d rounds of %d solves in turns, microseconds, the least; the median of the rounds' ratios" % (rounds, solves.SOLVES))
    print("| sheet | trials | before | after | after / before |")
    print("|---|---|---|---|---|")
    for name, (trials, old, new, ratio) in table.items():
        print("| %s | %d | %.2f | %.2f | %.2f |" % (name[:-6], trials, old, new, ratio))


if __name__ == "__main__":
    if len(sys.argv) < 3:
        sys.exit(__doc__)
    main(sys.argv[1], sys.argv[2], int(sys.argv[3]) if len(sys.argv) > 3 else 15)
