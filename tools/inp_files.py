#!/usr/bin/env python3
"""EPANET texts by seed, with what a reader must say of them by docs/INP.md. Nothing here reads a text.

  inp_files.py SEED COUNT        texts in the many form (a 4-byte little-endian length, then the text, each time)
  inp_files.py one SEED NUMBER   one of them
  inp_files.py kinds SEED COUNT  how many there are of each kind

A good text knows what it says: the figures of its nodes, links and options as fractions, in the text's own units. An
odd one knows its names alone: it is read, but its sheet may be refused. A damaged one knows the number and the line of
its refusal, because its faults were put there. One changed at random knows nothing.
"""
import itertools
import sys
from collections import Counter, namedtuple

import product  # noqa: F401
from coordinator.sheet_format import Dice, pack_many
from inp_damage import WAYS, changed, damaged, make_odd
from inp_networks import Maker

# `refused` is (number, line) of a damaged text; `said` the plan of a good or an odd one
Case = namedtuple("Case", "kind reason text refused said")


class Writer:
    """How one text looks: its line ends, its blanks, its comments."""

    def __init__(self, dice):
        self.dice = dice
        self.ending = dice.choice((b"\n", b"\n", b"\r\n"))
        self.blank = dice.choice((b" ", b"\t", None))
        self.comments, self.empty = dice.choice((0.0, 0.2)), dice.choice((0.0, 0.1))
        self.last = dice.chance(0.8)
        self.lines, self.faults = [], []

    def gap(self, least):
        many = least + (self.dice.below(3) if self.dice.chance(0.3) else 0)
        return b"".join(self.blank or self.dice.choice((b" ", b"\t")) for _ in range(many))

    def comment(self):
        if not self.dice.chance(self.comments):
            return b""
        if self.dice.chance(0.01):
            return b";" + b"long " * 2000
        return b";" + self.dice.choice((b"", b" the upper main", b";;", b"[PUMPS] P1 A B", b" 12 x \xe9\x00"))

    def line(self, words):
        self.lines.append(self.gap(0) + b"".join(word + self.gap(1) for word in words[:-1]) + b"".join(words[-1:])
                          + self.gap(0) + self.comment())

    def row(self, row):
        while self.dice.chance(self.empty):
            self.line([])
        self.line(row.words)
        if row.fault:
            self.faults.append((len(self.lines), row.fault))

    def write(self, plan):
        """The text, and (number, line) of its refusal or None."""
        for row in plan.first:
            self.row(row)
        for section in plan.sections:
            for row in [section.header] + section.rows:
                self.row(row)
        text = self.ending.join(self.lines) + (self.ending if self.last else b"")
        refused = min(self.faults) if self.faults else None
        return text, refused and (refused[1], refused[0])


# of ten texts
KINDS = ("good", "good", "good", "good", "odd", "damaged", "damaged", "damaged", "twice damaged", "changed")


def plans(seed, number):
    """Plans for a text, each with the dice that made it."""
    for attempt in itertools.count():
        dice = Dice(seed, number, attempt)
        yield dice, Maker(dice).make()


def case(seed, number):
    kind = KINDS[number % len(KINDS)]
    if kind == "damaged":
        # each damage in turn, at each place in turn
        turn = number // len(KINDS) * KINDS.count(kind) + KINDS[:number % len(KINDS)].count(kind)
        for dice, plan in plans(seed, number):
            reason = damaged(dice, plan, turn, turn // len(WAYS) % 3)
            if reason:
                text, refused = Writer(dice).write(plan)
                return Case(kind, reason, text, refused, None)
    dice, plan = next(plans(seed, number))
    if kind in ("good", "odd"):
        if kind == "odd":
            make_odd(dice, plan)
        text, _ = Writer(dice).write(plan)
        return Case(kind, "", text, None, plan)
    if kind == "changed":
        return Case(kind, "", changed(dice, Writer(dice).write(plan)[0]), None, None)
    reasons = []
    while len(reasons) < 2:
        reason = damaged(dice, plan, dice.below(len(WAYS)), dice.below(3))
        reasons += [reason] if reason else []
    text, refused = Writer(dice).write(plan)
    return Case(kind, " and ".join(reasons), text, refused, None)


def cases(seed, count):
    return (case(seed, number) for number in range(count))


def kinds(seed, count):
    """How many there are of each kind, and of the damaged ones of each refusal."""
    return Counter(found.kind + (", refusal %d" % found.refused[0] if found.refused else "")
                   for found in cases(seed, count))


def main(args):
    if len(args) == 2 and all(map(str.isdigit, args)):
        sys.stdout.buffer.write(pack_many(found.text for found in cases(*map(int, args))))
    elif len(args) == 3 and args[0] == "one" and all(map(str.isdigit, args[1:])):
        sys.stdout.buffer.write(case(*map(int, args[1:])).text)
    elif len(args) == 3 and args[0] == "kinds" and all(map(str.isdigit, args[1:])):
        for kind, many in sorted(kinds(*map(int, args[1:])).items()):
            print("%6d  %s" % (many, kind))
    else:
        sys.exit(__doc__)


if __name__ == "__main__":
    main(sys.argv[1:])
