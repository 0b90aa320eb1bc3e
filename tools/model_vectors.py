#!/usr/bin/env python3
"""Vectors for crate model. The coefficients and the changes of status are the original's own
(oracle, build `recipe`); damping, relative change and convergence come from exact.py.

  model_vectors.py    writes crates/model_vectors/stdin and, where the oracle can be built, stdout
"""
import random
import struct
import sys

import exact
import oracle
import stored
from exact import INFINITY, NAN, SIGN

COEFFICIENTS, STATUS, DAMPED, RELATIVE, CONVERGED = range(5)
PIPE, PRV, PSV, PBV, FCV, TCV, PCV = range(7)
KINDS, STATUSES = range(7), range(8)
CLOSED, OPEN, ACTIVE, XPRESSURE = 0, 1, 2, 6


def bits(x):
    return struct.unpack("<Q", struct.pack("<d", x))[0]


def near(p):
    """A pattern above zero and its neighbours."""
    return [p - 1, p, p + 1]


def both(patterns):
    """With both signs."""
    return [p ^ s for p in patterns for s in (0, SIGN)]


Q_ZERO, RQ_TOL, Q_TOL, H_TOL, BIG_VALUE = map(bits, (1e-6, 1e-7, 0.0001, 0.0005, 1e8))
FACTORS = list(map(bits, (1.0, 448.831, 0.64632, 0.5382, 1.9837, 28.317, 1699.0, 2.4466, 0.028317, 101.94, 2446.6)))
ZERO, HALF, ONE, TWO = map(bits, (0.0, 0.5, 1.0, 2.0))
WILD = [NAN, INFINITY, SIGN | INFINITY]


class Case:
    """A record: which function, codes and flags, and the patterns of its floats."""

    def __init__(self, what, floats, kind=0, flag=0, code=0):
        self.what, self.kind, self.flag, self.code = what, kind, flag, code
        self.floats = [exact.canonical(p) for p in floats]

    def record(self):
        padded = self.floats + [0] * (9 - len(self.floats))
        return struct.pack("<4B9Q", self.what, self.kind, self.flag, self.code, *padded)

    def question(self):
        """The oracle's line, for coefficients and changes of status."""
        codes = (self.kind, self.flag, self.code) if self.what == COEFFICIENTS else (self.kind, self.code)
        return " ".join(["CS"[self.what]] + list(map(str, codes)) + ["%016x" % p for p in self.floats])


# ---- coefficients: flow, resistance, setting, minor loss, diameter, excess and elevation of both ends

def coefficients(kind, status, q, r=0.02, setting=20.0, minor=1.5, diameter=0.75, excess=(0.5, -0.25),
                 elevation=(7.0, 4.0), check=0):
    floats = [q, r, setting, minor, diameter, *excess, *elevation]
    return Case(COEFFICIENTS, [x if isinstance(x, int) else bits(x) for x in floats], kind, check, status)


# zeros; where the power's table begins and ends; small, plain and large flows; no numbers
FLOWS = both([ZERO, 0x3BEF_FFFF_FFFF_FFFF, 0x3BF0 << 48, RQ_TOL, bits(1e-5), HALF, bits(3.25), bits(2.0 ** 30)]) + WILD


def every_link():
    for kind in KINDS:
        for status in STATUSES:
            for q in FLOWS:
                yield coefficients(kind, status, q, check=status % 2 if kind == PIPE else 0)


def pipes():
    limit = bits(1e-7 / 1.852)  # 1.852 * r is RQ_TOL, at a flow of 1
    for r in [limit + d for d in range(-3, 4)] + [ZERO, bits(1e-3), bits(50.0), NAN, INFINITY]:
        for q in both([ONE]) + [bits(0.3)]:
            yield coefficients(PIPE, OPEN, q, r, minor=0.0)
    for minor in (ZERO, SIGN, 1, bits(0.3), bits(1e6), bits(-1.0), NAN, INFINITY):
        for q in both([ZERO, bits(0.7)]):
            for check in (0, 1):
                yield coefficients(PIPE, OPEN, q, minor=minor, check=check)
    barrier = near(Q_ZERO) + [bits(x) for x in (1e-9, 9e-7, 1.1e-6, 1e-4, 0.02, 40.0)]
    for q in both(barrier) + [ZERO, SIGN] + WILD:
        for r in (0.0, 0.02, 3.0):
            yield coefficients(PIPE, OPEN, q, r, check=1)


def throttles():
    one = 1 / 0.02517  # 0.02517 * one is 1, so km is 1 at a diameter of 1
    for q in both(near(bits(1e-7 / 2)) + near(RQ_TOL) + [bits(3.0)]):
        for setting in (one, 2 * one, 0.0, -one):
            yield coefficients(TCV, ACTIVE, q, setting=setting, diameter=1.0)
            yield coefficients(PRV, OPEN, q, minor=setting, diameter=1.0)
    for diameter in (2.0 ** -10, 0.3, 1.7, 40.0, 0.0, -0.5):
        for setting in (0.0, 1e-12, 2.5, 1e9):
            yield coefficients(TCV, ACTIVE, 0.4, setting=setting, diameter=diameter)
            yield coefficients(TCV, OPEN, 0.4, minor=setting, diameter=diameter)
    for setting in WILD + [SIGN, 1]:
        yield coefficients(TCV, ACTIVE, 0.4, setting=setting)
        yield coefficients(PBV, ACTIVE, 0.4, setting=setting)


def positions():
    settings = both([ZERO, 1, bits(5e-5), bits(1e-4), bits(2e-4)]) + near(bits(1e-4)) + near(bits(100.0)) + WILD
    for setting in settings + list(map(bits, (0.5, 33.0, 50.0, 99.0, 100.5, 1e9))):
        for minor in (0.0, 1.5, 1e6):
            yield coefficients(PCV, ACTIVE, -0.6, setting=setting, minor=minor)
    cap = 1e8 / 0.02517 / 4  # at a setting of 50 and a diameter of 1 km is BIG_VALUE
    for minor in near(bits(cap)) + [bits(cap * 1.5), NAN, INFINITY]:
        yield coefficients(PCV, ACTIVE, 0.6, setting=50.0, minor=minor, diameter=1.0)


def flow_controls():
    for setting in (ZERO, SIGN, bits(0.7), bits(-0.7), bits(1e-7), bits(250.0)):
        around = [setting, setting + 1, setting ^ SIGN]
        if setting & ~SIGN:
            around.append(setting - 1)
        for q in around + [ZERO, SIGN, bits(-900.0), bits(900.0)] + WILD:
            yield coefficients(FCV, ACTIVE, q, setting=setting)
            yield coefficients(FCV, XPRESSURE, q, setting=setting)
    for q in (0.7, NAN):
        yield coefficients(FCV, ACTIVE, q, setting=NAN)


def regulators():
    excesses = both([ZERO, 1, bits(0.6), bits(2.0 ** 35)]) + WILD
    for kind in (PRV, PSV):
        for first in excesses:
            for setting in (ZERO, bits(48.5), bits(-3.0)):
                yield coefficients(kind, ACTIVE, 0.4, setting=setting, excess=(first, bits(0.125)), elevation=(11.0, -2.5))
                yield coefficients(kind, ACTIVE, 0.4, setting=setting, excess=(bits(0.125), first), elevation=(11.0, -2.5))
        for status in STATUSES:
            for elevation in ((NAN, 3.0), (3.0, NAN), (0.0, -0.0), (1e9, -1e9)):
                yield coefficients(kind, status, -0.4, setting=12.25, elevation=elevation)


def random_links(rng, count):
    number = lambda: bits(rng.choice((-1, 1, 1)) * rng.uniform(0.1, 10) * 10.0 ** rng.randrange(-6, 5))
    for _ in range(count):
        yield coefficients(rng.choice(KINDS), rng.choice((1, 2, 2, 5, 6, 7)), number(), number() & ~SIGN, number(),
                           number() & ~SIGN, rng.uniform(0.05, 3), (number(), number()), (number(), number()),
                           rng.randrange(2))


# ---- status: setting, flow, head and elevation of both ends

def status(kind, code, setting, q, heads, elevations):
    floats = [setting, q, *heads, *elevations]
    return Case(STATUS, [x if isinstance(x, int) else bits(x) for x in floats], kind, 0, code)


def statuses(rng):
    flows = [ZERO, SIGN, bits(1.0), bits(-1.0), NAN] + [p | SIGN for p in near(Q_TOL)]
    for kind in KINDS:
        for code in STATUSES:
            for q in flows:
                yield status(kind, code, 30.0, q, (41.0, 20.0), (5.0, 8.0))
    setting, up, down = bits(30.0), bits(5.0), bits(8.0)
    for kind, base in ((PRV, down), (PSV, up)):
        target = exact.add(setting, base)
        low, high = exact.sub(target, H_TOL), exact.add(target, H_TOL)
        heads = near(low) + near(high) + [target, bits(10.0), bits(90.0), NAN]
        for code in (CLOSED, OPEN, ACTIVE):
            for start in heads:
                # the other end far off, and around the head that differs by the tolerance
                apart = exact.sub(start, H_TOL)
                for end in heads + ([] if start == NAN else near(apart)):
                    if code == CLOSED or rng.random() < 0.5:
                        yield status(kind, code, setting, ZERO, (start, end), (up, down))
            for wild in WILD:
                yield status(kind, code, wild, ZERO, (60.0, 10.0), (up, down))
                yield status(kind, code, setting, ZERO, (60.0, 10.0), (wild, down))
                yield status(kind, code, setting, ZERO, (60.0, 10.0), (up, wild))


# ---- damping, relative change, convergence

def damped(factor, previous, change, limit):
    """Document 01, "Damping"."""
    if exact.less(previous, change) and exact.less(change, limit):
        half = exact.mul(factor, HALF)
        return bits(0.25) if half == NAN or exact.less(half, bits(0.25)) else half
    if exact.less(change, exact.mul(previous, HALF)):
        return ONE
    if exact.less(change, previous):
        more = exact.mul(factor, bits(1.2))
        return ONE if more == NAN or exact.less(ONE, more) else more
    return factor


def dampings(rng):
    numbers = list(map(bits, (0.005, 0.01, 0.02, 0.1, 0.75, 1.0)))
    points = numbers + near(bits(0.005)) + [ZERO, SIGN, NAN, INFINITY, bits(-1.0)]
    factors = list(map(bits, (0.25, 0.3, 0.5, 0.6, 0.84, 0.9, 1.0))) + [NAN, ZERO, INFINITY, bits(-2.0)]
    for factor in factors:
        for previous in (bits(0.01), ONE, INFINITY, NAN):
            for change in points:
                yield Case(DAMPED, [factor, previous, change, rng.choice(numbers + [NAN])])
    bench = ((1, float("inf"), 0.5, 0.1), (1, 0.01, 0.02, 0.1), (0.25, 0.01, 0.02, 0.1), (1, 0.01, 0.02, 0.02),
             (0.25, 1, 0.25, 0.1), (1, 1, 0.75, 0.1), (0.5, 1, float("nan"), 0.1))
    for row in bench:
        yield Case(DAMPED, [bits(float(x)) for x in row])


def relative(sum_dq, sum_q, accuracy):
    if exact.less(exact.mul(TWO, accuracy), sum_q):
        return exact.div(sum_dq, exact.add(sum_q, Q_ZERO))
    return sum_dq


def changes():
    for accuracy in list(map(bits, (1e-3, 1e-6, 0.7))):
        for sum_q in near(exact.mul(TWO, accuracy)) + [ZERO, SIGN, bits(1e-7), bits(12.5), NAN, INFINITY]:
            for sum_dq in (ZERO, bits(1e-9), bits(0.4), bits(33.0), NAN, INFINITY):
                yield Case(RELATIVE, [sum_dq, sum_q, accuracy])


def converged(c):
    change, accuracy, max_dq, most = c.floats
    factor = FACTORS[c.code] if c.code < 11 else NAN
    limit = BIG_VALUE if most & ~SIGN == 0 else most
    return exact.less(change, accuracy) and not c.flag and exact.less(exact.mul(max_dq, factor), limit)


def convergences():
    accuracy = bits(1e-3)
    for change in near(accuracy) + [ZERO, NAN, INFINITY, bits(-1.0)]:
        for flag in (0, 1):
            yield Case(CONVERGED, [change, accuracy, bits(0.5), bits(2.0)], flag=flag)
    for unit in list(range(12)) + [255]:
        factor = FACTORS[unit] if unit < 11 else ONE
        for dq in near(exact.div(bits(2.0), factor)) + [ZERO, NAN]:
            for most in (bits(2.0), ZERO, SIGN, NAN, INFINITY):
                yield Case(CONVERGED, [ZERO, accuracy, dq, most], code=unit)
        for dq in near(exact.div(BIG_VALUE, factor)):
            yield Case(CONVERGED, [ZERO, accuracy, dq, SIGN], code=unit)


def cases():
    rng = random.Random(5)
    groups = (every_link(), pipes(), throttles(), positions(), flow_controls(), regulators(), random_links(rng, 500),
              statuses(rng), dampings(rng), changes(), convergences())
    return [case for group in groups for case in group]


def own_answer(case):
    """The line of a case that the oracle is not asked."""
    if case.what == DAMPED:
        return "%016x" % damped(*case.floats)
    if case.what == RELATIVE:
        return "%016x" % relative(*case.floats)
    return "%d" % converged(case)


def asked(case):
    return case.what in (COEFFICIENTS, STATUS)


def records(found):
    return b"".join(case.record() for case in found)


def lines(found):
    """One line a case, those of the oracle asked of its build `recipe`, which must stand."""
    questions = "".join(case.question() + "\n" for case in found if asked(case))
    answers = iter(oracle.run("recipe", questions.encode(), "--parts").splitlines())
    return [next(answers) if asked(case) else own_answer(case) for case in found]


def main():
    found = cases()
    stored.write({"crates/model_vectors/stdin": records(found)})
    built, said = oracle.build("recipe")
    if built != 0:
        sys.exit("stdout is not written: " + said)
    stored.write({"crates/model_vectors/stdout": "".join(line + "\n" for line in lines(found)).encode()})


if __name__ == "__main__":
    main()
