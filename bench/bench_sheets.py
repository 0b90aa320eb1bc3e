#!/usr/bin/env python3
"""Writes the sheets that bench/solves.py times: 10, 30 and 64 nodes, each branched, looped, with
regulators and with a tank. The seeds are fixed, and were chosen so that each converges."""
import os
import sys

ROOT = os.path.dirname(os.path.dirname(os.path.abspath(__file__)))
sys.path[:0] = [ROOT, os.path.join(ROOT, "tools")]

from coordinator.sheet_format import Dice, Sheet  # noqa: E402
from sheet_networks import Plan, build  # noqa: E402

SIZES = (10, 30, 64)
SHAPES = ("branched", "looped", "regulators", "tank")
# the seed of each shape and size where 1 does not converge
SEEDS = {("regulators", 30): 2, ("regulators", 64): 2}


def plan(shape, size):
    if shape == "regulators":
        count = size // 10
        valves = [(("PRV", "PSV")[k % 2], "Active") for k in range(count)]
        return Plan(junctions=size - 1 - count, loops=size // 6, valves=valves)
    if shape == "tank":
        return Plan(junctions=size - 2, loops=size // 6, tank=True)
    return Plan(junctions=size - 1, loops=size // 3 if shape == "looped" else 0)


def sheet(shape, size, seed):
    s = Sheet(accuracy=0.001, trials=200, unit="GPM")
    return build(Dice(seed), plan(shape, size), s).encode()


def main(folder):
    os.makedirs(folder, exist_ok=True)
    for size in SIZES:
        for shape in SHAPES:
            name = "%s-%02d.sheet" % (shape, size)
            with open(os.path.join(folder, name), "wb") as out:
                out.write(sheet(shape, size, SEEDS.get((shape, size), 1)))


if __name__ == "__main__":
    main(sys.argv[1])
