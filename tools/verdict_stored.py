#!/usr/bin/env python3
"""The cases that crate verdict runs: a few named ones and every seventh sheet of the stored list, under limits in turn, with the
verdict by the second computation and the listing as the stored list has it. And those of crate evening_verdict: the evenings
that crate evening keeps, under limits in turn, with the verdict of each row by the second computation and its listing as kept.

  verdict_stored.py     writes stdin and stdout of crates verdict and evening_verdict
"""
import struct

import evenings
import sheets
import stored
import verdicts

NAN = float("nan")
# the desk's own; a lowest pressure of 20 m; limits within which nothing is; and any flow, but heads to the bit
LIMITS = [verdicts.Limits(*limits) for limits in (
    (0.0, 0.1, 0.001), (65.6, 0.1, 0.001), (NAN, 0.1, 0.001), (0.0, NAN, -1.0), (-0.0, 0.0, 0.0), (0.0, 0.0, 1e9))]
APART = 7
# answers 0 whose drawn flows do not fit their pressures (docs/DIFFERENCES.md)
NAMED = ("pd-whole-at-no-pressure", "pd-whole-at-second-trial", "pd-none-at-pressure")


def listings():
    """The stored list's answers, in its order."""
    return stored.read("crates/replay/stdout").decode("ascii").split("--\n")[:-1]


def cases():
    """(limits, sheet, listing)"""
    pairs = list(zip(sheets.stored(), listings()))
    named = [(LIMITS[0], case.data, text) for case, text in pairs if case.name in NAMED]
    return named + [(LIMITS[i % len(LIMITS)], case.data, text) for i, (case, text) in enumerate(pairs[::APART])]


def judged(data, text, limits):
    """The verdict's line, and the listing behind it."""
    return "V %d %d\n%s" % (*verdicts.verdict(data, text, limits), text)


def evening_judged(one, text, limits):
    """What is told of an evening: with a verdict in each row of what is told without limits."""
    first, *rows = text.split("R ")
    told = [row.split("\n", 1)[1] for row in rows]
    return first + "".join("R %d\n%s" % (r, judged(evenings.with_row(one.sheet, one.row(r)), listing, limits))
                           for r, listing in enumerate(told))


def evening_cases():
    """(limits, evening, what is told of it without limits)"""
    texts = stored.read("crates/evening/stdout").decode("ascii").split("--\n")[:-1]
    return [(LIMITS[i % len(LIMITS)], one, text) for i, (one, text) in enumerate(zip(evenings.kept(), texts))]


def evenings_asked(pairs):
    """What the program evening_verdict is sent for (limits, evening)."""
    return b"".join(struct.pack("<ddd", *limits) + evenings.asked([one]) for limits, one in pairs)


def files():
    asked = b"".join(struct.pack("<dddI", *limits, len(data)) + data for limits, data, _ in cases())
    told = "".join(judged(data, text, limits) + "--\n" for limits, data, text in cases())
    rows_asked = evenings_asked((limits, one) for limits, one, _ in evening_cases())
    rows_told = "".join(evening_judged(one, text, limits) + "--\n" for limits, one, text in evening_cases())
    return {"crates/verdict/stdin": asked, "crates/verdict/stdout": told.encode("ascii"),
            "crates/evening_verdict/stdin": rows_asked, "crates/evening_verdict/stdout": rows_told.encode("ascii")}


if __name__ == "__main__":
    stored.write(files())
