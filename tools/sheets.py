#!/usr/bin/env python3
"""Network sheets: built, generated, stored and shown.

  sheets.py generate KIND SEED COUNT   sheets in the many form; KIND is boundary,
                                       real, wild, damaged or, with a PD,
                                       pd-seeded, pd-real, pd-wild, pd-flood,
                                       pd-damaged
  sheets.py list                       the sheets of the stored list, many form
  sheets.py names                      its cases: number, name and reason
  sheets.py one NAME                   the sheet of one of its cases
  sheets.py show FILE                  a sheet's records with their byte offsets
  sheets.py examples DIR               writes the example sheets

To build one from a few lines, see sheet_format.py (its names are here too).
"""
import os
import sys

import product  # noqa: F401
import sheet_boundary
import sheet_causes
import sheet_networks
import sheet_pressure
import sheet_refusals
import sheet_rules
from coordinator.sheet_format import Case, Dice, Sheet, decode, pack_many, shown, unpack_many

__all__ = ["Case", "Dice", "Sheet", "decode", "pack_many", "shown", "unpack_many"]

# seed and count of each kind in the stored list, after the named boundary cases;
# and the same with a PD, after its named cases
STORED = (("seeded", 11, 60), ("real", 12, 144), ("wild", 13, 100), ("damaged", 14, 100))
STORED_PD = (("pd-seeded", 21, 40), ("pd-real", 22, 96), ("pd-wild", 23, 60), ("pd-damaged", 24, 40))
MAKERS = {"seeded": sheet_boundary.seeded, "real": sheet_networks.real, "wild": sheet_networks.wild,
          "damaged": sheet_networks.damaged, "pd-seeded": sheet_pressure.seeded, "pd-real": sheet_pressure.real,
          "pd-wild": sheet_pressure.wild, "pd-flood": sheet_pressure.flood,
          "pd-damaged": sheet_pressure.damaged}


def boundary(seed, count):
    """The named cases first, then seeded ones."""
    named = sheet_boundary.named()[:count]
    return named + [sheet_boundary.seeded(seed, i) for i in range(count - len(named))]


def generate(kind, seed, count):
    if kind == "boundary":
        return boundary(seed, count)
    return [MAKERS[kind](seed, i) for i in range(count)]


def several(asked):
    return [case for kind, seed, count in asked for case in generate(kind, seed, count)]


def stored_first():
    """The cases of the stored list that came before PD."""
    return sheet_boundary.named() + several(STORED)


def stored_pd():
    """The cases that came with PD."""
    return sheet_pressure.named() + several(STORED_PD)


def stored():
    """The cases of the stored list, in order; those of the causes last."""
    return stored_first() + stored_pd() + sheet_causes.named()


def looped():
    """Eleven junctions in two rings, fed from two sides."""
    s = Sheet(accuracy=0.0001, unit="GPM")
    west = s.reservoir(head=180.0)
    ring = [s.junction(elevation=20.0 + 3.0 * k, demand=0.15) for k in range(11)]
    east = s.reservoir(head=175.0)
    for a, b in zip(ring, ring[1:] + ring[:1]):
        s.pipe(a, b, resistance=2.5, diameter=0.5, flow=0.2)
    s.pipe(west, ring[0], resistance=0.4, diameter=0.833, flow=0.5)
    s.pipe(ring[2], ring[8], resistance=1.8, diameter=0.5, flow=0.2)
    s.pipe(east, ring[5], resistance=0.4, diameter=0.833, flow=0.5)
    return s


def night():
    """A tank fills through a main while a check valve keeps it from running back."""
    s = Sheet(accuracy=0.0001, unit="LPS")
    source = s.reservoir(head=140.0)
    head_works = s.junction(elevation=30.0, demand=0.05)
    field = s.junction(elevation=25.0, demand=0.3)
    tank = s.tank(elevation=100.0, head=112.0, max_level=20.0, min_level=2.0)
    s.pipe(source, head_works, resistance=1.2, diameter=0.667, flow=0.35, check_valve=1)
    s.pipe(head_works, field, resistance=3.0, diameter=0.5, flow=0.2)
    s.pipe(head_works, tank, resistance=2.0, diameter=0.5, flow=0.2)
    return s


def refused():
    """A link whose end is no node: refusal 3 at its offset."""
    s = sheet_refusals.pair()
    s.pipe(0, 7)
    return s


EXAMPLES = {
    "june": sheet_rules.june(0.02, True, True),
    "june-unrepaired": sheet_rules.june(0.03, True, True),
    "june-undetermined": sheet_rules.june(0.03, field_elevation=-35.0),
    "document01": sheet_refusals.example(),
    "looped": looped(),
    "night": night(),
    "refused": refused(),
}


def write_examples(folder):
    for name, sheet in EXAMPLES.items():
        with open(os.path.join(folder, name + ".sheet"), "wb") as out:
            out.write(sheet.encode())


def one(name):
    for case in stored():
        if case.name == name:
            return case.data
    sys.exit("no case is called " + name)


def asks_to_generate(args):
    return (len(args) == 4 and args[0] == "generate"
            and args[1] in ("boundary", *MAKERS)
            and args[2].isdigit() and args[3].isdigit())


def main(args):
    out = sys.stdout.buffer
    if asks_to_generate(args):
        out.write(pack_many(case.data for case in generate(args[1], int(args[2]), int(args[3]))))
    elif args == ["list"]:
        out.write(pack_many(case.data for case in stored()))
    elif args == ["names"]:
        for number, case in enumerate(stored()):
            print("%4d  %-36s %s" % (number, case.name, case.reason))
    elif len(args) == 2 and args[0] == "one":
        out.write(one(args[1]))
    elif len(args) == 2 and args[0] == "show":
        with open(args[1], "rb") as sheet:
            for line in shown(sheet.read()):
                print(line)
    elif len(args) == 2 and args[0] == "examples":
        write_examples(args[1])
    else:
        sys.exit(__doc__)


if __name__ == "__main__":
    try:
        main(sys.argv[1:])
    except OSError as error:
        sys.exit("sheets.py: %s" % error)
