"""f64 arithmetic on bit patterns with whole numbers alone: no float is ever formed.

A value is a pattern, 0 <= p < 2^64; every NaN is NAN. Results are rounded to
the nearest, ties to even.
"""
from math import isqrt

SIGN = 1 << 63
INFINITY = 0x7FF << 52
NAN = 0x7FF8 << 48
ONE = 0x3FF << 52


def is_nan(p):
    return p & ~SIGN > INFINITY


def canonical(p):
    return NAN if is_nan(p) else p


def magnitude(p):
    """A finite pattern's number in units of 2^-1074."""
    field, digits = p >> 52 & 0x7FF, p & (1 << 52) - 1
    return digits if field == 0 else (1 << 52 | digits) << field - 1


def rounded(sign, num, den):
    """The pattern nearest to num/den units of 2^-1074, with the sign bit `sign`."""
    whole = num // den
    drop = max(whole.bit_length() - 53, 0)
    unit = den << drop
    kept, rest = divmod(num, unit)
    if 2 * rest > unit or 2 * rest == unit and kept % 2:
        kept += 1
    # a carry into 2^53 moves into the exponent's field by itself
    p = kept if drop == 0 else (drop << 52) + kept
    return sign | min(p, INFINITY)


def negative(p):
    return canonical(p) if is_nan(p) else p ^ SIGN


def mul(a, b):
    if is_nan(a) or is_nan(b):
        return NAN
    sign, a, b = (a ^ b) & SIGN, a & ~SIGN, b & ~SIGN
    if INFINITY in (a, b):
        return NAN if 0 in (a, b) else sign | INFINITY
    return rounded(sign, magnitude(a) * magnitude(b), 1 << 1074)


def div(a, b):
    if is_nan(a) or is_nan(b):
        return NAN
    sign, a, b = (a ^ b) & SIGN, a & ~SIGN, b & ~SIGN
    if a == b and a in (0, INFINITY):
        return NAN
    if a == INFINITY or b == 0:
        return sign | INFINITY
    if b == INFINITY:
        return sign
    return rounded(sign, magnitude(a) << 1074, magnitude(b))


def add(a, b):
    if is_nan(a) or is_nan(b):
        return NAN
    if a & ~SIGN == INFINITY:
        return NAN if a ^ b == SIGN else a
    if b & ~SIGN == INFINITY:
        return b
    total = sum(-magnitude(p & ~SIGN) if p & SIGN else magnitude(p) for p in (a, b))
    if total == 0:
        return SIGN if a & b & SIGN else 0
    return rounded(SIGN if total < 0 else 0, abs(total), 1)


def sub(a, b):
    return add(a, negative(b))


def from_whole(n):
    """A whole number from 0 on as an f64."""
    return rounded(0, n << 1074, 1)


def less(a, b):
    if is_nan(a) or is_nan(b):
        return False
    number = lambda p: -(p & ~SIGN) if p & SIGN else p
    return number(a) < number(b)


def root(p):
    """The nearest f64 to the exact root. In units of 2^-1074 the root of u is that of u * 2^1074."""
    if is_nan(p) or p & ~SIGN == 0 or p == INFINITY:
        return canonical(p)
    if p & SIGN:
        return NAN
    square = magnitude(p) << 1074
    whole = isqrt(square)
    drop = whole.bit_length() - 53
    kept = whole >> drop
    # above the middle of kept and kept + 1; the root of an f64 is never the middle itself
    middle = (2 * kept + 1) << drop - 1
    assert middle * middle != square
    if middle * middle < square:
        kept += 1
    return (drop << 52) + kept


def whole_power(p, n):
    """Document 01, item 3."""
    if n == 0:
        return ONE
    if n == 1:
        return canonical(p)
    half = whole_power(p, n // 2)
    square = mul(half, half)
    return mul(square, p) if n % 2 else square
