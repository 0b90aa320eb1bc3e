#!/usr/bin/env python3
"""Damaged, wild and random sheets, with a PD and without, through the proved program replay and the oracle: every
byte must be equal.

  fuzz.py SECONDS [SEED]     stops at the first difference and writes the sheet to fuzz.sheet
"""
import struct
import subprocess
import sys
import time

import oracle
import product  # noqa: F401
import sheets
from coordinator import building, programs
from coordinator.sheet_format import BYTES, Dice

BATCH = 300
KINDS = ("damaged", "wild", "noise", "real", "pd-damaged", "pd-wild", "pd-noise", "pd-real", "pd-flood", "pd-seeded")


def noise(seed, i, with_pd):
    """Records whose marks and lengths fit and whose bytes do not care, or no records at all. A PD's bytes are
    those of two numbers twice in three times, so that a sheet may get past it."""
    dice = Dice(seed, 5, i)
    anything = lambda count: bytes(dice.below(256) for _ in range(count))
    if dice.chance(0.2):
        return anything(dice.below(300))
    # small bytes often: then counts, kinds, flags and ends are codes more often
    small = lambda count: bytes(dice.below(3) if dice.chance(0.7) else dice.below(256) for _ in range(count))
    record = lambda mark: mark + small(BYTES[mark] - 2)
    some = lambda mark, least: b"".join(record(mark) for _ in range(least + dice.below(6)))
    pressures = b""
    if with_pd:
        tame = b"PD" + struct.pack("<dd", *sorted((dice.between(-50, 50), dice.between(-50, 300))))
        pressures = dice.choice((tame, tame, record(b"PD")))
    return record(b"OP") + pressures + some(b"ND", 1) + some(b"LK", 0)


def batch(seed, round_):
    kind = KINDS[round_ % len(KINDS)]
    if kind.endswith("noise"):
        return kind, [noise(seed + round_, i, kind == "pd-noise") for i in range(BATCH)]
    return kind, [case.data for case in sheets.generate(kind, seed + round_, BATCH)]


def run(seconds, seed):
    """How many sheets were compared, each kind at least once; raises ValueError at a difference."""
    began, total, round_ = time.time(), 0, 0
    while round_ < len(KINDS) or time.time() - began < seconds:
        kind, data = batch(seed, round_)
        ours = oracle.split(programs.run("replay", sheets.pack_many(data)).decode("ascii"))
        theirs = oracle.listings("recipe", data)
        if len(ours) != len(data):
            raise ValueError("%s, seed %d: %d listings of %d sheets" % (kind, seed + round_, len(ours), len(data)))
        for sheet, one, other in zip(data, ours, theirs):
            if one != other:
                with open("fuzz.sheet", "wb") as out:
                    out.write(sheet)
                raise ValueError("%s, seed %d: a difference, sheet in fuzz.sheet" % (kind, seed + round_))
        total, round_ = total + len(data), round_ + 1
    return total


def main(words):
    if len(words) not in (1, 2) or not all(word.isdigit() for word in words):
        sys.exit(__doc__.strip())
    seed = int(words[1]) if len(words) == 2 else int(time.time())
    status, said = oracle.build("recipe")
    if status:
        sys.exit(said)
    try:
        building.have("replay")
        print("seed %d: %d sheets, no difference" % (seed, run(int(words[0]), seed)))
    except (OSError, ValueError, building.NotToBeHad, subprocess.CalledProcessError) as error:
        sys.exit("fuzz.py: %s" % error)


if __name__ == "__main__":
    main(sys.argv[1:])
