#!/usr/bin/env python3
"""Evenings: a sheet, a number of rows and a table of demands (document 02, [9]). Named ones, ones by seed, and what the
program `evening` is to print for them: the listings of single solves, never that program's own.

  evenings.py           writes stdin and stdout of crate evening; the single solves are the oracle's
  evenings.py names     its evenings: number, name and reason
"""
import math
import struct
import sys

import oracle
import product  # noqa: F401
import sheet_boundary
import sheet_rules
import sheets
import stored
from coordinator.sheet_format import LAYOUT, Dice, Sheet, decode, next_down, next_up
from sheet_networks import extreme
from sheet_refusals import LIMIT, TINY, between, changed, full, nodes_of, pair, pressed

MOST_ROWS = 32
# where a demand stands in its node's record
DEMAND = 2 + struct.calcsize(LAYOUT[b"ND"][0][:1 + LAYOUT[b"ND"][1].index("demand")])
# patterns of a NaN: the usual one, its negative, one with a payload, one that signals
NANS = (0x7FF8000000000000, 0xFFF8000000000000, 0x7FF8000000000001, 0x7FF0000000000001)
BAD = NANS + (math.inf, -math.inf, next_up(LIMIT), -next_up(LIMIT), 1.7976931348623157e308)


class Evening:
    """`rows` may be any number that 4 bytes hold, `table` any number of entries of 8 bytes. What document 02 says outright,
    where given: `refused`, the number and place of a call that is; `numbers`, those of the rows' answers."""

    def __init__(self, name, reason, sheet, rows, table, refused=None, numbers=None):
        self.name, self.reason, self.rows, self.table = name, reason, rows, table
        self.sheet = sheet.encode() if isinstance(sheet, Sheet) else sheet
        self.refused, self.numbers = refused, numbers

    def row(self, number):
        """Its entries, one a node."""
        wide = 8 * len(node_places(self.sheet))
        return self.table[wide * number:wide * (number + 1)]


def packed(row):
    """Entries: a float, or the pattern of one as a whole number."""
    return b"".join(struct.pack("<Q" if isinstance(x, int) else "<d", x) for x in row)


def table_of(rows):
    return b"".join(map(packed, rows))


def of_rows(name, reason, sheet, rows, **stated):
    """The usual evening: a table that has just the rows."""
    return Evening(name, reason, sheet, len(rows), table_of(rows), **stated)


def node_places(data):
    return [at for at, mark, _ in decode(data) if mark == b"ND"]


def own_row(sheet):
    """The demands that a sheet has."""
    return [node["demand"] for node in sheet.nodes]


def with_row(data, entries):
    """A sheet with a row's demands in it and no other byte changed."""
    parts, done = [], 0
    for i, at in enumerate(node_places(data)):
        parts += [data[done:at + DEMAND], entries[8 * i:8 * i + 8]]
        done = at + DEMAND + 8
    return b"".join(parts + [data[done:]])


# --- what the program takes and prints ------------------------------------------------------

def asked(evenings):
    """What the program is sent: the rows, the sheet behind its length, the table behind the count of its entries."""
    return b"".join(struct.pack("<II", one.rows, len(one.sheet)) + one.sheet
                    + struct.pack("<I", len(one.table) // 8) + one.table for one in evenings)


def refusal(evening, listing):
    """Number and place of a refused call, or None. The listing is that of the sheet as it stands."""
    number, place = (int(word) for word in listing.split()[1:3])
    if 1 <= number <= 4:
        return number, place
    if evening.rows == 0:
        return 14, 0
    if evening.rows > MOST_ROWS:
        return 14, 1
    if len(evening.table) < 8 * evening.rows * len(node_places(evening.sheet)):
        return 14, 2
    return None


def told(evenings, solve):
    """What the program prints for each, but for the `--`. `solve` gives a listing for each of many sheets."""
    refused = [refusal(one, text) for one, text in zip(evenings, solve([one.sheet for one in evenings]))]
    rows = [with_row(one.sheet, one.row(r)) for one, why in zip(evenings, refused) if why is None for r in range(one.rows)]
    listings = iter(solve(rows))
    return ["A %d %d 0 0 0\n" % why if why is not None
            else "".join("R %d\n%s" % (r, next(listings)) for r in range(one.rows)) for one, why in zip(evenings, refused)]


# --- refused calls -----------------------------------------------------------------------------

def refused_sheets():
    """1 to 4 of the sheet as it stands, before the rows and the table are looked at."""
    good = pair()
    row = own_row(good)
    named_sheets = {case.name: case.data for case in sheet_boundary.named()}
    for name in ("1-empty", "1-small-letters", "1-cut-op-28", "1-cut-nd-44", "1-cut-lk-48", "1-byte-after", "1-node-after-link",
                 "B23-options-alone", "3-trials-0", "3-accuracy-zero", "3-node-kind-3", "3-link-status-8", "3-before-4",
                 "4-self-pipe", "4-PRV-end-tank-Active"):
        yield Evening("call-" + name, "the sheet is refused, whatever its rows", named_sheets[name], 2, table_of([row, row]))
    yield Evening("call-2-65-nodes", "one node too many, and a table for them", nodes_of(65), 1, packed([0.0] * 65), (2, 0))
    yield Evening("call-2-129-links", "one link too many", named_sheets["2-129-links"], 1, packed(row), (2, 1))
    for word, entry in (("nan", NANS[0]), ("inf", math.inf), ("above", next_up(LIMIT)), ("minus-above", -next_up(LIMIT))):
        data = with_row(good.encode(), packed([0.0, entry]))
        yield Evening("call-3-own-" + word, "a bad demand in the sheet's own field, which every row would overwrite", data, 2,
                      table_of([row, row]), (3, 74))
    bad = pair(trials=0).encode()
    for rows, count in ((0, 0), (33, 0), (1, 1)):
        yield Evening("call-3-before-14-%d-%d" % (rows, count), "refused as a sheet though it has %d rows and %d entries"
                      % (rows, count), bad, rows, packed(row[:count]), (3, 0))


def fourteen():
    """Each place of 14, and its neighbours that are none."""
    good = pair()
    row = own_row(good)
    for word, count in (("and-no-table", 0), ("but-a-table", 2)):
        yield Evening("14-no-rows-" + word, "no rows: place 0, before the table's 2", good, 0, packed(row[:count]), (14, 0))
    for rows in (33, 64, 2 ** 31, 2 ** 32 - 1):
        yield Evening("14-%d-rows" % rows, "more than 32 rows: place 1, before the table's 2", good, rows, packed(row), (14, 1))
    yield Evening("14-33-rows-whole-table", "33 rows and a table that has them", good, 33, packed(row) * 33, (14, 1))
    lone = Sheet()
    lone.reservoir(head=50.0)
    yield of_rows("32-rows-of-one-node", "as many rows as there may be, of one entry each", lone,
                  [[k / 8] for k in range(32)], numbers=[0] * 32)
    for rows in (1, 2, 32):
        entries = 2 * rows
        yield Evening("14-table-short-%d" % rows, "%d entries for %d rows of 2" % (entries - 1, rows), good, rows,
                      packed((row * rows)[:entries - 1]), (14, 2))
        yield Evening("14-table-empty-%d" % rows, "no entries for %d rows" % rows, good, rows, b"", (14, 2))
        yield Evening("table-longer-%d" % rows, "an entry more than %d rows take, and it is no number" % rows, good, rows,
                      packed(row * rows + [NANS[0]]), numbers=[0] * rows)
    three = between("TCV")
    yield Evening("14-table-short-2-of-3", "two rows of 3 nodes would have 6 entries, not 5", three, 2, packed([0.0] * 5), (14, 2))
    yield Evening("table-of-rows-by-nodes", "3 rows of 2 nodes have 6 entries", good, 3, packed(row * 3), numbers=[0] * 3)
    yield Evening("table-much-longer", "a row of 2 nodes and 500 entries", good, 1, packed(row * 250), numbers=[0])


# --- rows of bad demands ----------------------------------------------------------------------

def bad_demands():
    """3 for the row alone, at its node's record; the other rows go on."""
    good = pair()
    row = own_row(good)
    for k, entry in enumerate(BAD):
        word = "%016x" % entry if isinstance(entry, int) else repr(entry)
        yield of_rows("bad-" + word, "between two rows that are solved", good, [row, [0.5, entry], [0.0, 0.25 + k]],
                      numbers=[0, 3, 0])
    yield of_rows("bad-at-the-source", "a reservoir's demand is a field like any other", good, [[math.inf, 0.5], row],
                  numbers=[3, 0])
    four = Sheet()
    four.reservoir(head=100.0)
    four.junction(disabled=1)
    four.tank(elevation=20.0, head=25.0, max_level=10.0)
    four.junction(elevation=5.0, demand=0.5)
    for end in (2, 3):
        four.pipe(0, end)
    one_bad = [[NANS[0] if i == k else 0.25 for i in range(4)] for k in range(4)]
    yield of_rows("bad-at-each-node", "reservoir, junction out of service, tank, junction: each its own place", four,
                  one_bad + [[0.25] * 4], numbers=[3, 3, 3, 3, 0])
    yield of_rows("bad-two-in-a-row", "the first of them is the place", four,
                  [[0.25, 0.25, math.inf, NANS[1]], [0.25, NANS[2], 0.25, -math.inf], [0.25] * 4], numbers=[3, 3, 0])
    yield of_rows("bad-every-row", "no row is solved, and the call is not refused", good, [[NANS[k % 4], 0.5] for k in range(4)],
                  numbers=[3] * 4)
    yield of_rows("bad-one-row", "the only row", good, [[0.5, -math.inf]], numbers=[3])
    yield of_rows("bad-by-turns", "every other row of 32", good,
                  [[0.0, k / 16] if k % 2 else [0.0, BAD[k // 2 % len(BAD)]] for k in range(32)], numbers=[3, 0] * 16)
    yield of_rows("bad-behind-pd", "a PD's record stands before the nodes", pressed(), [[0.0, math.inf], [0.0, 0.5]],
                  numbers=[3, 0])
    yield of_rows("demands-at-the-bounds", "2^40 is legal; solved or out of range, but never 3", pair(trials=5),
                  [[0.0, LIMIT], [0.0, -LIMIT], [LIMIT, 0.5], [-LIMIT, next_down(LIMIT)]], numbers=[7, 7, 0, 7])
    yield of_rows("demands-near-zero", "both zeros and the numbers beside them, told as they are", good,
                  [[0.0, 0.0], [-0.0, -0.0], [0.0, -0.0], [TINY, -TINY], [-TINY, TINY], [2.0 ** -1030, -2.0 ** -1030]],
                  numbers=[0] * 6)
    yield of_rows("demands-near-zero-pd", "a demand that is not above 0 is drawn as it is", pressed(150.0, 200.0),
                  [[0.0, 0.0], [-0.0, -0.0], [0.0, -TINY], [0.0, TINY], [0.0, -0.5], [0.0, 0.5]], numbers=[0] * 6)


# --- rows that fail in other ways ---------------------------------------------------------------

def brittle():
    """Two junctions with 46 PBVs between them, fed by a pipe: with a small demand they are solved, with a greater one the
    trials run out, with a great one it is singular. Behind a Closed pipe a junction whose head leaves the range."""
    s = Sheet(trials=12)
    a, b = s.junction(), s.junction()
    source = s.reservoir(head=100.0)
    far = s.junction(elevation=5.0)
    for _ in range(46):
        s.valve("PBV", a, b, setting=0.0, flow=0.0)
    s.pipe(source, a, flow=1.0)
    s.pipe(source, far, status="Closed", resistance=2.0)
    return s


CALM, SPENT, SINGULAR, BEYOND = ([0.0, 1.0, 0.0, 0.0], [0.0, 1e6, 0.0, 0.0], [0.0, 1e9, 0.0, 0.0], [0.0, 1.0, 0.0, LIMIT])
NO_NUMBER = [0.0, 1.0, NANS[0], 0.0]


def failing():
    """Rows of each number between rows that are solved."""
    yield of_rows("each-number", "3, 6, 7 and 8, each between rows that are solved", brittle(),
                  [CALM, SINGULAR, CALM, BEYOND, CALM, SPENT, CALM, NO_NUMBER, CALM], numbers=[0, 6, 0, 7, 0, 8, 0, 3, 0])
    yield of_rows("each-number-first", "and one behind the other", brittle(), [SPENT, BEYOND, NO_NUMBER, SINGULAR, CALM],
                  numbers=[8, 7, 3, 6, 0])
    yield of_rows("no-trials-left", "one trial a row, which is never enough for this demand", pair(trials=1),
                  [[0.0, 0.5], [0.0, 5.0]], numbers=[8, 8])
    june = changed(sheet_rules.june(0.03, True, True), "op", 0, trials=200)
    yield of_rows("record-of-200-trials", "a row that uses up 200 trials, between rows that take few", june,
                  [[0.0, 0.0, 0.0, demand, 0.0, 0.0] for demand in (0.05, 1.0, 0.05)], numbers=[0, 8, 0])


def repaired():
    """Repairs in a row, and none in the next."""
    fed, both = sheet_rules.june(0.03, True), sheet_rules.june(0.03, True, True)
    at = lambda node, demand, nodes: [demand if i == node else 0.0 for i in range(nodes)]
    yield of_rows("june-by-turns", "no repair, a node grounded, no repair, a node grounded and the valve freed, no repair", fed,
                  [at(0, 1.0, 5), at(3, 0.25, 5), at(0, 0.0, 5), at(3, 10.0, 5), at(0, 1.0, 5)], numbers=[0] * 5)
    yield of_rows("june-freed-and-used-up", "solved, trials used up, a valve freed, both, solved", both,
                  [at(3, 0.05, 6), at(3, 1.0, 6), at(2, -1.0, 6), at(0, 10.0, 6), at(3, 0.05, 6)], numbers=[0, 8, 0, 8, 0])
    yield of_rows("june-all-repaired", "the June shape of the first example, at six demands", sheet_rules.june(0.02, True, True),
                  [at(3, k / 8, 6) for k in range(6)], numbers=[0] * 6)
    islands = Sheet()
    for _ in range(3):
        islands.junction(demand=1e-6)
    yield of_rows("grounded-in-every-row", "three islands: no row finds what another one grounded", islands,
                  [[k * 1e-6] * 3 for k in range(1, 5)], numbers=[0] * 4)


# --- rows that must know nothing of one another -----------------------------------------------------

def square():
    """As many rows as nodes, and no two entries alike: rows and nodes exchanged would be other demands."""
    s = Sheet()
    last = s.reservoir(head=100.0)
    for k in range(3):
        here = s.junction(elevation=5.0 * k)
        s.pipe(last, here, resistance=1.0 + k)
        last = here
    yield of_rows("rows-and-nodes", "4 rows of 4 nodes, 16 different demands", s,
                  [[(1 + 4 * r + i) / 64 for i in range(4)] for r in range(4)], numbers=[0] * 4)


def apart():
    """The first row again at the end, with rows between that leave other flows and statuses."""
    at_end = lambda demands: [[0.0, 0.0, demand] for demand in demands]
    yield of_rows("prv-again", "a PRV that regulates, opens and shuts, and regulates again", between("PRV", setting=40.0),
                  at_end((0.5, 20.0, -2.0, 0.5)), numbers=[0] * 4)
    psv = Sheet()
    psv.reservoir(head=100.0)
    psv.reservoir(head=20.0)
    psv.junction(elevation=5.0)
    psv.pipe(0, 2)
    psv.valve("PSV", 2, 1, setting=60.0)
    yield of_rows("psv-again", "a PSV that regulates, shuts, and regulates again", psv, at_end((0.5, 20.0, 0.5)),
                  numbers=[0] * 3)
    yield of_rows("freed-again", "a PSV with nothing behind it, freed in every row", between("PSV", setting=60.0),
                  at_end((0.5, 9.0, 0.5)), numbers=[0] * 3)
    yield of_rows("check-valve-again", "water one way, then the other, then the first way",
                  changed(pair(), "links", 0, check_valve=1), [[0.0, 0.5], [0.0, -0.5], [0.0, 0.5]], numbers=[0] * 3)
    tank = sheet_rules.tank(30.0)
    field = tank.junction(elevation=5.0)
    tank.pipe(1, field)
    yield of_rows("tank-again", "a full tank, drawn from by so much or so little; its own demand is told as what flows in", tank,
                  [[0.0, 7.0, 0.0], [0.0, -3.0, 9.0], [0.0, 0.0, -2.0], [0.0, 7.0, 0.0]])
    own = sheets.EXAMPLES["looped"]
    yield of_rows("own-demands", "the sheet's own, twice, and others between", own,
                  [own_row(own), [2 * x for x in own_row(own)], own_row(own)], numbers=[0] * 3)


def counts():
    """1, 2 and 32 rows."""
    for name in ("night", "document01"):
        s = sheets.EXAMPLES[name]
        for rows in (1, 2, 32):
            yield of_rows("%s-%d" % (name, rows), "%d rows" % rows, s,
                          [[x * (1 + k / 8) + k / 64 for x in own_row(s)] for k in range(rows)], numbers=[0] * rows)
    yield of_rows("pd-32", "demand that gives way to pressure, from none to much", pressed(0.0, 200.0),
                  [[0.0, k / 4 - 0.5] for k in range(32)])
    whole = changed(full(), "op", 0, trials=200)
    whole.pd = dict(minimum=5.0, required=20.0)
    yield of_rows("longest-sheet", "64 nodes, 128 links, a PD: 9,199 bytes", whole,
                  [[(i % 5) * 0.001 for i in range(64)], [(i % 3) * 0.002 for i in range(64)]])
    yield of_rows("64th-node-bad", "the last node of 64", nodes_of(64, 63),
                  [[0.001] * 63 + [NANS[0]], [0.001] * 64], numbers=[3, 0])


GROUPS = (refused_sheets, fourteen, bad_demands, failing, repaired, square, apart, counts)


# --- by seed ---------------------------------------------------------------------------------------

KINDS = ("real", "pd-real", "wild", "pd-wild", "real", "pd-real", "damaged", "pd-flood")


def demand(dice):
    """What a hydrant may ask."""
    return 0.0 if dice.chance(0.3) else dice.between(0.005, 0.6)


def row_by(dice, own):
    """A row for a sheet with these demands."""
    pick = dice.below(10)
    if pick == 0:
        return list(own)
    if pick <= 2:
        by = dice.between(0, 3)
        return [x * by for x in own]
    if pick == 3:
        return [dice.choice((0.0, -0.0)) for _ in own]
    if pick == 4:
        return [extreme(dice) for _ in own]
    row = [demand(dice) for _ in own]
    if pick <= 6 and row:
        row[dice.below(len(row))] = dice.choice((*BAD, extreme(dice), dice.word()))
    return row


def rows_by(dice, most):
    return dice.choice((1, 2, most, 1 + dice.below(most), 1 + dice.below(most)))


def seeded(seed, i, most=MOST_ROWS):
    """An evening of at most so many rows over a sheet by seed; now and then with no rows, with 33, or with a table that is
    an entry short or some longer."""
    dice = Dice(seed, 9, i)
    case = sheets.MAKERS[KINDS[i % len(KINDS)]](seed, i)
    own = [fields["demand"] for _, mark, fields in decode(case.data) if mark == b"ND"]
    rows = dice.choice((0, MOST_ROWS + 1)) if dice.chance(0.03) else rows_by(dice, most)
    table = table_of(row_by(dice, own) for _ in range(rows))
    if dice.chance(0.04):
        table = table[:-8]
    elif dice.chance(0.1):
        table += packed(row_by(dice, own))
    return Evening("seeded-%d-%d" % (seed, i), "%d rows over %s" % (rows, case.reason), case.data, rows, table)


def named():
    return [one for group in GROUPS for one in group()]


def kept():
    """The evenings of crate evening, in order."""
    return named() + [seeded(31, i, 3) for i in range(24)]


def files():
    """By the oracle."""
    evenings = kept()
    texts = told(evenings, lambda data: oracle.listings("recipe", data))
    return {"crates/evening/stdin": asked(evenings), "crates/evening/stdout": "".join(t + "--\n" for t in texts).encode("ascii")}


def main(words):
    if words == ["names"]:
        for number, one in enumerate(kept()):
            print("%4d  %-28s %s" % (number, one.name, one.reason))
    elif not words:
        status, said = oracle.build("recipe")
        if status:
            sys.exit(said)
        stored.write(files())
    else:
        sys.exit(__doc__.strip())


if __name__ == "__main__":
    main(sys.argv[1:])
