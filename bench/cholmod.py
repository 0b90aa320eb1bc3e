#!/usr/bin/env python3
"""The linear solve against CHOLMOD, on the very systems of the bench's sheets: bench/cholmod.py [RUNS]. The last
system that each solve factors, as the oracle tells it, is factored and solved by crates linear and substitution and
by CHOLMOD in natural and in AMD order, in turns. CHOLMOD (Debian's libsuitesparse-dev) is no part of the product:
where it is not installed this says so and stops."""
import os
import subprocess
import sys

import solves
from solves import ROOT, call

HEADER = "/usr/include/suitesparse/cholmod.h"
PROGRAM = os.path.join(ROOT, "target", "bench", "cholmod")


def build():
    if not os.path.exists(HEADER):
        sys.exit("bench/cholmod.py: CHOLMOD is not installed (Debian: libsuitesparse-dev); nothing measured")
    os.makedirs(os.path.dirname(PROGRAM), exist_ok=True)
    archive, origin = solves.library("linear_bench")
    call("gcc", "-O2", "-o", PROGRAM, "bench/cholmod.c", archive, "-lcholmod", "-lm")
    return origin


def last_system(file):
    """The last system that the solve of a sheet factors, a line."""
    lines = call(solves.oracle.program("recipe"), "--systems", file).splitlines()
    return lines[-1] + "\n"


def measured(line, runs):
    found = subprocess.run([PROGRAM, str(runs)], input=line, stdout=subprocess.PIPE, check=True, universal_newlines=True)
    words = found.stdout.split()
    return int(words[0]), int(words[1]), [float(word) for word in words[2:]]


def main(runs):
    said = solves.processor()
    if solves.oracle.lacking():
        sys.exit("bench/cholmod.py: there is lacking: " + ", ".join(solves.oracle.lacking()))
    status, text = solves.oracle.build("recipe")
    if status:
        sys.exit(text)
    origin = build()
    print(said)
    print("proved: " + origin)
    print("%d runs, microseconds, medians; factor and solve, then CHOLMOD's analysis of the pattern" % runs)
    print("| sheet | unknowns | entries below the diagonal | proved | CHOLMOD natural | AMD | proved / natural | proved / AMD "
          "| analysis natural | AMD |")
    print("|---|---|---|---|---|---|---|---|---|---|")
    for file in solves.sheets():
        n, below, t = measured(last_system(file), runs)
        ours, natural, amd = t[1] + t[2], t[4] + t[5], t[7] + t[8]
        print("| %s | %d | %d | %.2f + %.2f | %.2f + %.2f | %.2f + %.2f | %.2f | %.2f | %.2f | %.2f |" % (
            os.path.basename(file)[:-6], n, below, t[1], t[2], t[4], t[5], t[7], t[8], ours / natural, ours / amd, t[3], t[6]))


if __name__ == "__main__":
    main(int(sys.argv[1]) if len(sys.argv) > 1 else 4001)
