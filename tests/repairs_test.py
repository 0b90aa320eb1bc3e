"""How long a run of failed trials is: with V regulators Active and U junctions in service, at most V + U in the stored
list, though V + U + 1 is what is promised (docs/DECISIONS.md, "How long a run of failed trials can be")."""
import os
import sys
import unittest

TOP = os.path.dirname(os.path.dirname(os.path.abspath(__file__)))
sys.path.insert(0, os.path.join(TOP, "tools"))

import oracle
import product  # noqa: F401
import sheets
import stored
from coordinator.sheet_format import decode, LINK_KINDS, STATUSES


def most(data):
    """V + U of a sheet as it stands before its first trial."""
    fields = [(mark, fields) for _, mark, fields in decode(data)]
    active = [f for mark, f in fields if mark == b"LK" and LINK_KINDS[f["kind"]] in ("PRV", "PSV") and STATUSES[f["status"]] == "Active"]
    serving = [f for mark, f in fields if mark == b"ND" and f["kind"] == 0 and not f["disabled"]]
    return len(active) + len(serving)


def first_run(listing):
    """The marks of the trials that fail before one steps."""
    found = []
    for line in listing.splitlines():
        if line.startswith("T "):
            if line.split()[1] not in ("VF", "GN", "SG"):
                break
            found.append(line.split()[1])
    return found


class Runs(unittest.TestCase):
    def test_none_is_longer_than_v_and_u(self):
        texts = oracle.split(stored.read("crates/replay/stdout").decode())
        reached = set()
        for case, text in zip(sheets.stored(), texts):
            run = first_run(text)
            if run:
                self.assertLessEqual(len(run), most(case.data), case.name)
            if run and len(run) == most(case.data):
                reached.add(run[-1])
        self.assertLessEqual({"GN", "SG"}, reached)


if __name__ == "__main__":
    unittest.main()
