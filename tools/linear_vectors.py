#!/usr/bin/env python3
"""Systems for crates linear and substitution, with answers from whole numbers (exact.py).

  linear_vectors.py     writes stdin and stdout of crate linear_vectors

A system is its lower triangle, a list of rows, and its right side, all bit patterns.
"""
import itertools
import random
import struct

import exact
import stored
from exact import INFINITY, NAN, ONE, SIGN


def number(x):
    """The pattern of a whole number."""
    return exact.from_whole(abs(x)) | (SIGN if x < 0 else 0)


def power(e):
    """The pattern of 2^e, for a normal one."""
    return 1023 + e << 52


# Document 01, item 7, entry by entry.


def factor(a):
    """Writes L over the rows of A; the column at which it stops, or None."""
    for c, top in enumerate(a):
        for row in a[c:]:
            for k in range(c):
                row[c] = exact.sub(row[c], exact.mul(row[k], top[k]))
        if not exact.less(0, top[c]):
            return c
        top[c] = exact.root(top[c])
        for row in a[c + 1:]:
            row[c] = exact.div(row[c], top[c])
    return None


def solve(l, x):
    """Writes the solution over the right side."""
    n = len(l)
    for r in range(n):
        for k in range(r):
            x[r] = exact.sub(x[r], exact.mul(l[r][k], x[k]))
        x[r] = exact.div(x[r], l[r][r])
    for r in reversed(range(n)):
        for k in range(r + 1, n):
            x[r] = exact.sub(x[r], exact.mul(l[k][r], x[k]))
        x[r] = exact.div(x[r], l[r][r])


# The systems.

SPECIAL = [0, SIGN, 1, SIGN | 1, (1 << 52) - 1, 1 << 52, INFINITY - 1, INFINITY, SIGN | INFINITY, NAN]


def dominant(rng, n, exponents=(0,)):
    """Every entry filled, the diagonal heavy; each row and column scaled by a power of two."""
    scale = [rng.choice(exponents) for _ in range(n)]
    part = lambda: 1022 << 52 | rng.getrandbits(52)
    entry = lambda r, c: exact.mul(number(2 * n), part()) if r == c else part() | rng.getrandbits(1) << 63
    a = [[exact.mul(exact.mul(entry(r, c), power(scale[r])), power(scale[c])) for c in range(r + 1)] for r in range(n)]
    return a, [part() | rng.getrandbits(1) << 63 for _ in range(n)]


def chain(rng, n):
    """A network's: junctions in a line, the first at a reservoir, each link's conductance on its ends."""
    links = [rng.randrange(1010, 1034) << 52 | rng.getrandbits(52) for _ in range(n)]
    a = [[0] * (r + 1) for r in range(n)]
    for r in range(n):
        a[r][r] = exact.add(links[r], links[r + 1] if r + 1 < n else 0)
        if r:
            a[r][r - 1] = links[r] | SIGN
    return a, [1020 << 52 | rng.getrandbits(52) for _ in range(n)]


def whole(rng, n, stop):
    """The product of a factor of small whole numbers with itself; the pivot of column `stop` is 0 exactly."""
    l = [[rng.randrange(1, 4) if r == c else rng.randrange(-2, 3) for c in range(r + 1)] for r in range(n)]
    if stop is not None:
        l[stop][stop] = 0
    a = [[number(sum(l[r][k] * l[c][k] for k in range(c + 1))) for c in range(r + 1)] for r in range(n)]
    return a, [number(rng.randrange(-99, 100)) for _ in range(n)]


# what a skipped product with zero could hide: zeros of both signs, a subnormal, an infinity, no number at all
TEMPTING = [0, SIGN, (1 << 52) - 1, INFINITY, NAN, SIGN | 1022 << 52]
# and on the right side: -0.0, numbers so large that their product with a subnormal tells, infinities, no number at all
RIGHT = [SIGN, ONE, SIGN | ONE, power(1023), SIGN | power(1023), INFINITY, SIGN | INFINITY, NAN]


def sparse(rng, n, wild, share):
    """A heavy diagonal; of the other entries a quarter filled, of the rest this share out of `wild`, else +0.0."""
    part = lambda: rng.getrandbits(1) << 63 | 1022 << 52 | rng.getrandbits(52)
    other = lambda: part() if rng.random() < 0.25 else rng.choice(wild) if rng.random() < share else 0
    a = [[exact.mul(number(2 * n), part() & ~SIGN) if r == c else other() for c in range(r + 1)] for r in range(n)]
    return a, [part() for _ in range(n)]


def systems():
    rng = random.Random(7)
    yield [], []
    for p in SPECIAL + [ONE, SIGN | ONE, 0x4010 << 48, 0x4000 << 48]:
        yield [[p]], [ONE]
        yield [[0x4008 << 48]], [p]
    for p in SPECIAL:  # each entry of two unknowns, and the right side
        for place in range(4):
            a, x = dominant(rng, 2)
            if place < 3:
                a[place > 0][place > 1] = p
            else:
                x[1] = p
            yield a, x
    for n in (1, 2, 5):
        for stop in [None] + list(range(n)):
            for _ in range(3):
                yield whole(rng, n, stop)
    for n in (2, 3, 5, 8):
        for _ in range(8):
            yield dominant(rng, n)
            yield chain(rng, n)
    for _ in range(30):  # scales from the smallest normal numbers to the largest
        yield dominant(rng, 5, (-505, -300, 0, 300, 505))
    for _ in range(20):  # entries and products that are subnormal
        yield dominant(rng, 5, range(-522, -506))
    for _ in range(40):  # one entry out of place
        a, x = dominant(rng, 5)
        r = rng.randrange(5)
        a[r][rng.randrange(r + 1)] = rng.choice(SPECIAL)
        yield a, x
    for n in (16, 33):
        yield dominant(rng, n)
        yield chain(rng, n)
        yield whole(rng, n, n // 2)
    for below in itertools.product(TEMPTING, repeat=3):  # every entry below the diagonal of three unknowns
        a, x = dominant(rng, 3)
        (a[1][0], a[2][0], a[2][1]) = below
        yield a, x
    for n in (8, 16):
        for wild in [[SIGN], [(1 << 52) - 1, SIGN | (1 << 51)], [INFINITY - 1], [INFINITY, SIGN | INFINITY], [NAN], SPECIAL]:
            for share in (0.02, 0.1, 0.5):
                yield sparse(rng, n, wild, share)
    yield dominant(rng, 64)
    yield chain(rng, 64)
    yield sparse(rng, 64, [0], 0)
    yield whole(rng, 64, 31)
    yield whole(rng, 64, 63)
    for below in itertools.product([0, SIGN, 1, SIGN | (1 << 52) - 1], repeat=3):  # L has zeros, and the right side tempts
        for top in (SIGN, SIGN, rng.choice(RIGHT)):
            yield [[ONE], [below[0], ONE], [below[1], below[2], ONE]], [top, rng.choice(RIGHT), rng.choice(RIGHT)]


def by_columns(a):
    """The columns of a lower triangle."""
    return [[row[c] for row in a[c:]] for c in range(len(a))]


def answer(a, x):
    """What the program writes of a system."""
    line = lambda mark, row: mark + "".join(" %016x" % exact.canonical(p) for p in row)
    stop = factor(a)
    if stop is None:
        solve(a, x)
    end = line("X", x) if stop is None else "S %d" % stop
    return ["%d" % len(x)] + [line("L", c) for c in by_columns(a)] + [end]


def files():
    """Each file's path below the repository, and its bytes."""
    given, found = b"", []
    for a, x in systems():
        rows = sum(by_columns(a), []) + x
        given += struct.pack("<B%dQ" % len(rows), len(x), *rows)
        found += answer(a, x)
    return {
        "crates/linear_vectors/stdin": given,
        "crates/linear_vectors/stdout": "".join(l + "\n" for l in found).encode(),
    }


if __name__ == "__main__":
    stored.write(files())
