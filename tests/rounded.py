"""Sums, products and quotients of f64s by fractions, each rounded once; and whether an f64 is the nearest to a root."""
import math
from fractions import Fraction


def div(x, y):
    return float(Fraction(x) / Fraction(y))


def mul(x, y):
    return float(Fraction(x) * Fraction(y))


def add(x, y):
    return float(Fraction(x) + Fraction(y))


def is_nearest(x, num, den, root):
    """Whether x is the f64 nearest to the positive root of num/den, by whole numbers: the powers of what lies halfway
    to its neighbours are on either side."""
    half, exponent = math.frexp(x)
    m, exponent = int(half * 2 ** 53), exponent - 53
    # four units to the distance of two f64s; from a power of two down they are half as far
    below, above = 4 * m - (1 if m == 1 << 52 else 2), 4 * m + 2
    shift = (exponent - 2) * root
    up, down = max(shift, 0), max(-shift, 0)
    return (below ** root << up) * den < num << down < (above ** root << up) * den


def nearest_power(num, den, p, q):
    """The f64 nearest to (num/den)^(p/q), found near the machine's own power."""
    guess = math.pow(num / den, p / q)
    near = (math.nextafter(guess, 0), guess, math.nextafter(guess, math.inf))
    (found,) = [x for x in near if is_nearest(x, num ** p, den ** p, q)]
    return found
