#!/usr/bin/env python3
"""The sheets that crate sheet_list replays, and what it answers by the second reading of documents 01 and 02.

  sheet_reading.py     writes stdin and stdout of crate sheet_list
"""
import product  # noqa: F401
import sheets
import stored
from coordinator.sheet_bounds import reading
from coordinator.sheet_format import Sheet, pack_many


NETWORKS = ("real", "wild", "pd-real", "pd-wild")


def cuts(pressures=None):
    """Every beginning of a sheet with one record of each kind and one more node."""
    s = Sheet(pressures=pressures)
    s.reservoir(head=100.0)
    s.junction(elevation=5.0)
    s.pipe(0, 1)
    data = s.encode()
    return [data[:n] for n in range(len(data) + 1)]


def but_networks(cases):
    return [case.data for case in cases if not case.name.startswith(NETWORKS)]


def replayed():
    """The stored list but for its networks, and the cuts; what came with PD behind what was there."""
    return (but_networks(sheets.stored_first()) + cuts()
            + but_networks(sheets.stored_pd()) + cuts((5.0, 20.0)))


def files():
    data = replayed()
    return {
        "crates/sheet_list/stdin": pack_many(data),
        "crates/sheet_list/stdout": "".join("%s %d %d\n" % reading(d) for d in data).encode(),
    }


if __name__ == "__main__":
    stored.write(files())
