#!/usr/bin/env python3
"""How far the routine for x^0.852 (document 01, item 2) is from the exact x^(213/250), with whole numbers alone.

  power_error.py          the figures of docs/POWER.md
  power_error.py --draw   writes docs/power-error.svg

An argument is a pattern of 64 bits; a relative error is a whole number of parts, 2^64 to one.
"""
import math
import sys
from fractions import Fraction

import exact
from power_tables import table_a, table_b
from stored import write
from vectors import power

A, B = table_a(), table_b()
PARTS = 64
LEAST, LIMIT = 959 << 52, 1087 << 52  # the patterns of 2^-64 and 2^64
UNIT = 1 << 1074

# the largest of a million next to ends of steps, where the errors of both tables are large
FARTHEST_ABOVE = 0x41A0_A7FF_FFFF_FF25


def root250_near_one(n):
    """The whole part of the 250th root of n, which is near 2^64: Newton's steps with the slope at 2^64, then tested."""
    y, last = 1 << PARTS, 0
    while abs(y - last) > 1:
        last, y = y, y + (n - y ** 250 >> 249 * PARTS) // 250
    while y ** 250 > n:
        y -= 1
    while (y + 1) ** 250 <= n:
        y += 1
    return y


def ratio(result, argument, exponent):
    """2^64 * result / argument^(exponent/250), for two fractions, in whole parts."""
    num = result.numerator ** 250 * argument.denominator ** exponent
    den = result.denominator ** 250 * argument.numerator ** exponent
    return root250_near_one((num << 250 * PARTS) // den)


def number(p):
    return Fraction(exact.magnitude(p), UNIT)


def error(p):
    """The relative error of the routine at p, rounded down to a part of 2^64."""
    return ratio(number(power(p, A, B)), number(p), 213) - (1 << PARTS)


def is_above(p):
    """Whether the routine lies above the exact power."""
    result, argument = number(power(p, A, B)), number(p)
    return (result.numerator ** 250 * argument.denominator ** 213
            > result.denominator ** 250 * argument.numerator ** 213)


def within(p, below, above):
    """The statement of crate closeness, `Within below above`, at p, in its own whole numbers."""
    of, to = exact.magnitude(p), exact.magnitude(power(p, A, B))
    left = (2 ** below - 1) ** 250 * of ** 213 * UNIT ** 250 <= to ** 250 * ((2 ** below) ** 250 * UNIT ** 213)
    right = to ** 250 * ((2 ** above) ** 250 * UNIT ** 213) <= (2 ** above + 1) ** 250 * of ** 213 * UNIT ** 250
    return left, right


# ---- the loss of a pipe

H_EXPONENT = 0x3FFD_A1CA_C083_126F  # 1.852
FOOT_IN_METRES = Fraction(3048, 10000)


def loss(q, r):
    """The friction loss of pipes/specs/Pipe.antt `friction_of`, for a gradient that is not below RQ_TOL."""
    gradient = exact.mul(exact.mul(H_EXPONENT, r), power(q, A, B))
    return exact.div(exact.mul(gradient, q), H_EXPONENT)


def loss_error(q, r):
    """Its relative error against r * q^(463/250), in parts of 2^64."""
    return ratio(number(loss(q, r)) / number(r), number(q), 463) - (1 << PARTS)


def loss_factors():
    """The least and the largest factor of a loss: the power's, three products' and a division's."""
    step = Fraction(1, 2 ** 53)
    return (1 - Fraction(1, 2 ** 25)) * (1 - step) ** 4, (1 + Fraction(1, 2 ** 51)) * (1 + step) ** 4


def loss_by_less(q, r):
    """The exact loss less the routine's, in feet, rounded down to a part of 2^64."""
    feet = number(loss(q, r))
    return feet * Fraction(-loss_error(q, r), 2 ** PARTS + loss_error(q, r))


# ---- figures

# flow in cubic feet per second, and resistance
PIPES = [("0.3", "20"), ("1.00048828125", "20"), ("3.2", "4"), ("12.34", "1")]


def pattern(words):
    """The f64 nearest to a decimal."""
    value = Fraction(words)
    return exact.rounded(0, value.numerator << 1074, value.denominator)


def pipe_rows():
    """Pipes of the page: flow, resistance, loss, and by how much the loss is too small."""
    rows = []
    for flow, resistance in PIPES:
        q, r = pattern(flow), pattern(resistance)
        rows.append("| %s | %s | %.6f | %.2e |" % (flow, resistance, float(number(loss(q, r))), float(loss_by_less(q, r))))
    return rows


def end_of(step):
    return 1023 << 52 | step << 42


def middle_of(step):
    return end_of(step) | 1 << 41


def at_least(x):
    """x with three digits, rounded up, for a bound: 1.50e-06."""
    words = "%.2e" % float(x)
    return words if Fraction(words) >= x else "%.2e" % float(Fraction(words) + Fraction("1e" + words[-3:]) / 100)


def figures():
    """The rows of the page's tables."""
    low, high = loss_factors()
    feet = Fraction(50) / FOOT_IN_METRES
    size = lambda parts: "%.4e, 2^%.2f" % (float(Fraction(parts, 2 ** PARTS)), math.log2(abs(parts)) - PARTS)
    depth = lambda part: "%s ft, %s m" % (at_least(feet * part), at_least(50 * part))
    rows = [
        ("farthest below, at 1 + 1/2048", size(error(middle_of(0)))),
        ("in the middle of the last step, at 2 - 1/2048", size(error(middle_of(1023)))),
        ("middles of steps that lie above", "%d of 1024" % sum(map(is_above, map(middle_of, range(1024))))),
        ("ends of steps that lie above", "%d of 1024" % sum(map(is_above, map(end_of, range(1024))))),
        ("farthest above that a search found, at %016x" % FARTHEST_ABOVE, size(error(FARTHEST_ABOVE))),
        ("a loss of 50 m (%.4f ft) is too small by at most" % float(feet), depth(1 - low)),
        ("a loss of 50 m is too large by at most", depth(high - 1)),
    ]
    return ["| %s | %s |" % row for row in rows]


# ---- the picture

WIDTH, HEIGHT, LEFT, GAP, BOTTOM, TOP = 920, 360, 70, 60, 52, 46
PANEL = (WIDTH - LEFT - GAP - 20) // 2
SCALE = Fraction(16, 10 ** 9)  # the height of a panel is this relative error
INK, CURVE, BOUND = "#222", "#3b78b5", "#c0392b"
STYLE = "text{font-family:Helvetica,Arial,sans-serif;font-size:12px;fill:%s}.t{font-size:14px;font-weight:bold}" % INK


def text(x, y, words, anchor="middle", kind=""):
    return '<text x="%.1f" y="%.1f" text-anchor="%s"%s>%s</text>' % (x, y, anchor, ' class="t"' if kind else "", words)


def line(x1, y1, x2, y2, colour, dashes=""):
    return '<line x1="%.1f" y1="%.1f" x2="%.1f" y2="%.1f" stroke="%s"%s/>' % (
        x1, y1, x2, y2, colour, ' stroke-dasharray="%s"' % dashes if dashes else "")


def height(parts):
    """Where an error stands, zero at the top: a tenth of a point at a time, so that the picture is one text."""
    deep = Fraction(-parts, 2 ** PARTS) / SCALE * (HEIGHT - TOP - BOTTOM)
    return TOP + float(Fraction(round(deep * 10), 10))


def panel(x, title, below, marks, points):
    drawn = [text(x + PANEL / 2, 22, title, kind="t"), line(x, TOP, x, HEIGHT - BOTTOM, INK), line(x, TOP, x + PANEL, TOP, INK)]
    for k in range(0, 17, 4):
        y = TOP + k * (HEIGHT - TOP - BOTTOM) / 16
        drawn += [line(x - 4, y, x, y, INK), text(x - 8, y + 4, "0" if k == 0 else "-%d" % k, "end")]
    bound = height(-(1 << PARTS - 26))
    drawn += [line(x, bound, x + PANEL, bound, BOUND, "5 4"), text(x + PANEL, bound + 14, "2^-26", "end")]
    drawn += [text(x + PANEL * float(at), HEIGHT - BOTTOM + 18, words) for at, words in marks]
    drawn += [text(x + PANEL / 2, HEIGHT - 12, below)]
    path = " ".join("%.1f,%.1f" % (x + PANEL * float(at), height(parts)) for at, parts in points)
    return drawn + ['<polyline fill="none" stroke="%s" stroke-width="1.6" points="%s"/>' % (CURVE, path)]


def picture():
    step = [(Fraction(k, 128), error(end_of(0) + (k << 35))) for k in range(129)]
    course = [(Fraction(2 * i + 1, 2048), error(middle_of(i))) for i in [*range(0, 1024, 8), 1023]]
    one = panel(LEFT, "Over the first step, m from 1 to 1 + 1/1024", "t, the place within the step",
                [(0, "0"), (Fraction(1, 2), "1/2"), (1, "1")], step)
    two = panel(LEFT + PANEL + GAP, "In the middle of each step, m from 1 to 2", "m",
                [(0, "1"), (Fraction(1, 2), "1.5"), (1, "2")], course)
    return "\n".join(
        ['<svg xmlns="http://www.w3.org/2000/svg" width="%d" height="%d" viewBox="0 0 %d %d">' % (WIDTH, HEIGHT, WIDTH, HEIGHT),
         "<style>%s</style>" % STYLE, '<rect width="100%" height="100%" fill="white"/>',
         text(10, 22, "10^-9", "start")] + one + two + ["</svg>", ""])


def main(args):
    if args == ["--draw"]:
        write({"docs/power-error.svg": picture().encode("ascii")})
    elif not args:
        print("\n".join(figures() + pipe_rows()))
    else:
        sys.exit(__doc__)


if __name__ == "__main__":
    main(sys.argv[1:])
