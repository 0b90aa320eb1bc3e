#!/usr/bin/env python3
"""Vectors for crates float, roots, power, decimals and the words of a text, with answers from whole numbers (exact.py, power_tables.py).

  vectors.py     writes stdin and stdout of crates float_vectors, power_vectors,
                 decimal_vectors and word_vectors
"""
import random
import re
import struct

import exact
import stored
from exact import INFINITY, NAN, ONE, SIGN
from power_tables import table_a, table_b

FUNCTIONS = ["root", "abs", "signum", "larger", "smaller", "clamp", "wild", "whole_power", "pattern"]

# zeros, subnormals, powers of two, the largest, the infinities, NaNs of both signs and other payloads
EDGES = [0, 1, 2, 3, (1 << 52) - 1, 1 << 52, (1 << 52) + 1, ONE - 1, ONE, ONE + 1, 2 << 61, 0x4002 << 48,
         0x3BF0 << 48, (0x3BF0 << 48) - 1, 0x43F0 << 48, (0x43F0 << 48) - 1, INFINITY - 1, INFINITY]
EDGES = [p | s for p in EDGES for s in (0, SIGN)] + [NAN, NAN | SIGN, INFINITY + 1, SIGN | INFINITY + 1, (1 << 64) - 1]


def number(n):
    """The pattern of n * 2^-1074, for an n that an f64 holds."""
    p = exact.rounded(0, n, 1)
    assert exact.magnitude(p) == n
    return p


def root_arguments(rng):
    yield from EDGES
    for field in range(2047):  # every exponent
        if field % 2 == 0 or field < 60 or field > 1990:
            yield field << 52 | rng.getrandbits(52)
    for bits in range(1, 53):  # every length of a subnormal
        yield rng.getrandbits(bits) | 1 << bits - 1
    for k in range(150):  # exact squares and their neighbours, at both parities of the exponent
        r = rng.getrandbits(26) | 1 << 25
        shift = 2 * rng.randrange(400, 700)
        p = number(r * r << shift)
        yield from (p - 1, p, p + 1, number(2 * r * r << shift))
    for k in range(100):  # just below and above the square of a middle
        r = rng.getrandbits(52) | 1 << 52
        square = (2 * r + 1) ** 2
        low = square >> square.bit_length() - 53
        p = number(low << 1000 + k % 2)
        yield from (p, p + 1)


def float_vectors():
    rng = random.Random(1)
    wide = lambda: rng.getrandbits(64)
    pick = lambda: rng.choice(EDGES) if rng.random() < 0.5 else wide()
    for p in root_arguments(rng):
        yield "root", p, 0, 0
    for name in ("abs", "signum", "wild", "pattern"):
        for p in EDGES + [wide() for _ in range(40)]:
            yield name, p, 0, 0
    for p in ((0x43F0 << 48) + d | s for d in (-2, -1, 0, 1) for s in (0, SIGN)):
        yield "wild", p, 0, 0
    for name in ("larger", "smaller", "clamp"):
        for _ in range(150):
            a, b = pick(), pick()
            yield name, a, a if rng.random() < 0.1 else b, pick()
    for n in list(range(20)) + [31, 32, 33, 63, 64, 100, 127, 128, 200, 255]:
        for p in EDGES[::4] + [rng.randrange(1015, 1030) << 52 | rng.getrandbits(52) for _ in range(4)]:
            yield "whole_power", p, n, 0


def float_answer(name, x, y, z):
    """The line that a vector's function gives."""
    x = exact.canonical(x)
    if name == "whole_power":
        return "whole_power %d %016x %016x" % (y, x, exact.whole_power(x, y))
    y, z = exact.canonical(y), exact.canonical(z)
    sign = x & SIGN
    if name == "root":
        args, r = (x,), exact.root(x)
    elif name == "abs":
        args, r = (x,), x & ~SIGN
    elif name == "signum":
        args, r = (x,), NAN if x == NAN else sign | ONE
    elif name == "larger":
        args, r = (x, y), y if x == NAN or exact.less(x, y) else x
    elif name == "smaller":
        args, r = (x, y), y if x == NAN or exact.less(y, x) else x
    elif name == "clamp":
        args, r = (x, y, z), y if exact.less(x, y) else z if exact.less(z, x) else x
    elif name == "wild":
        args, r = (x,), ONE if x & ~SIGN >= 0x43F0 << 48 else 0
    else:
        args, r = (x,), x
    return name + "".join(" %016x" % p for p in args + (r,))


def power_vectors():
    rng = random.Random(2)
    yield from EDGES
    for field in range(959, 1087):  # every exponent, at its ends and inside
        yield from (field << 52, (field << 52) + 1, (field + 1 << 52) - 1, field << 52 | rng.getrandbits(52))
    for i in range(0, 1024, 3):  # steps of 1/1,024 and what lies next to them
        p = rng.randrange(959, 1087) << 52 | i << 42
        yield from (p, p + 1, p + (1 << 42) - 1, p | rng.getrandbits(42))
    for _ in range(300):
        yield rng.getrandbits(64)


def power_answer(p, tables_852, tables_871):
    """The line of a pattern: x, x^0.852, x^0.871, and x^4 times x^0.871."""
    x, high = exact.canonical(p), power(p, *tables_871)
    return "%016x %016x %016x %016x" % (x, power(p, *tables_852), high, exact.mul(exact.whole_power(x, 4), high))


def power(p, a, b):
    """Document 01, item 2, on a pattern, with the tables of an exponent."""
    p = exact.canonical(p)
    if p == NAN or p > SIGN:
        return NAN
    if p == SIGN or p < 0x3BF0 << 48:
        return 0
    if p >= 0x43F0 << 48:
        return INFINITY
    i, rest = p >> 42 & 1023, p & (1 << 42) - 1
    t = exact.rounded(0, rest << 1074 - 42, 1)
    assert exact.magnitude(t) << 42 == rest << 1074
    step = exact.mul(t, exact.sub(a[i + 1], a[i]))
    e = (p >> 52) - 1023
    return exact.mul(exact.add(a[i], step), b[63 - e])


MOST_DIGITS, MOST_PLACES, MOST_TENS = 17, 37, 20


def halfway(rng):
    """A decimal that is the middle of two f64s, as digits and a power of ten: its odd part has 54 digits in base 2."""
    middle = rng.getrandbits(54) | 1 << 53 | 1
    tens = rng.randrange(-1, 21)
    if tens < 0:
        return middle * 5, tens
    digits = middle // 5 ** tens
    return (digits | 1) << rng.randrange(0, max(1, (10 ** MOST_DIGITS // (digits | 1)).bit_length() - 1)), tens


def beside_halfway(rng):
    """One that is as near to such a middle as 17 digits can be, or next to that."""
    tens = rng.randrange(-MOST_PLACES, MOST_TENS + 1)
    den = 10 ** -tens if tens < 0 else 1
    num = rng.randrange(10 ** 16, 10 ** 17) * (10 ** tens if tens > 0 else 1)
    p = exact.rounded(0, num << 1074, den)
    doubled = exact.magnitude(p) + exact.magnitude(p + 1)  # twice the middle, in units of 2^-1074
    digits = doubled * den // ((1 << 1075) * (10 ** tens if tens > 0 else 1)) + rng.randrange(-1, 3)
    return min(digits, 10 ** MOST_DIGITS - 1), tens


def decimals(rng, count):
    """Digits, at most 17, and a power of ten from -37 to 20; every fifth is a middle of two f64s or lies beside one."""
    for i in range(count):
        if i % 10 == 0:
            yield halfway(rng)
        elif i % 10 == 5:
            yield beside_halfway(rng)
        else:
            written = rng.randrange(1, MOST_DIGITS + 1)
            yield rng.randrange(10 ** written), rng.randrange(-20, MOST_TENS + 1) - rng.choice((0, rng.randrange(written + 1)))


def decimal_vectors():
    rng = random.Random(3)
    for tens in (-37, -36, -22, -20, -17, -1, 0, 1, 16, 19, 20):
        for digits in (0, 1, 3, 5, 9, 85, 10 ** 16, 10 ** 17 - 1, (1 << 53) - 1, (1 << 53) + 1, (1 << 53) + 3, (1 << 54) + 2, (1 << 54) + 6):
            yield digits, tens
    yield from ((10 ** 17, 0), (1, 21), (1, -38))  # out of range
    yield from decimals(rng, 1200)


def decimal_record(digits, tens):
    return struct.pack("<QBB", digits, tens < 0, abs(tens))


def decimal_answer(digits, tens):
    """The line of a record: empty where it is out of range."""
    if digits >= 10 ** MOST_DIGITS or not -MOST_PLACES <= tens <= MOST_TENS:
        return ""
    return "%016x" % exact.rounded(0, digits * 10 ** max(tens, 0) << 1074, 10 ** max(-tens, 0))


def spelled_words(rng):
    """Words that spell numbers, and words that nearly do."""
    yield from "0 -0 +0 00 1. .5 -.5 +3 -7 1e5 1E5 1e+5 1e-5 12.50 0.001 1e20 1e-20 1e021 1E-0020".split()
    yield from "99999999999999999 9.9999999999999999 00000000000000001 0.0000000000000001 12345678901234567e-20".split()
    yield from ". + - e E5 e5 1e 1e+ 1e- 1e21 1e-21 1e100 1e99999999999999999999999 1.2.3 1..2 --1 +-1 1-2 1,5 0x10 inf nan".split()
    yield from "1e5.0 1e5e5 100000000000000000 0.00000000000000000 000000000000000001 1f -e5 -.e5 .e5 5.e5 5.E-5 \u00bd 1\u0663 1d5 \x7f".split()
    for digits, tens in decimals(rng, 700):
        text = str(digits).zfill(rng.randrange(1, 18))
        point = rng.randrange(len(text) + 1)
        written = text[:point] + rng.choice((".", "." if point < len(text) else "")) + text[point:]
        behind = len(text) - point if "." in written else 0
        exponent = tens + behind
        mark = rng.choice("eE") + rng.choice(("", "+")) if exponent >= 0 else rng.choice("eE")
        yield rng.choice(("", "-", "+")) + written + (mark + str(exponent) if exponent or rng.random() < 0.3 else "")
    for _ in range(300):  # whatever comes
        yield "".join(rng.choice("0123456789.eE+-5x") for _ in range(rng.randrange(1, 12)))


def word_text():
    """A text of such words: lines of none to nine, with spaces, tabs, comments, carriage returns and no last newline."""
    rng = random.Random(4)
    words, text = list(spelled_words(rng)), ""
    while words:
        line = "".join(words.pop(0) + rng.choice((" ", "\t", "  ", " \t ")) for _ in range(min(rng.randrange(10), len(words))))
        text += rng.choice(("", " ", "\t")) + line + rng.choice(("", "; 12 13", ";", "")) + rng.choice(("\n", "\r\n"))
    return (text + "1 2;3\r").encode()


SPELLED = re.compile(rb"([+-]?)([0-9]*)\.?([0-9]*)(?:[eE]([+-]?[0-9]+))?")


def word_answer(word):
    """A word's pattern by whole numbers, or a dash."""
    found = SPELLED.fullmatch(word)
    if not found:
        return b"-"
    sign, whole, part, exponent = found.groups()
    if not 1 <= len(whole + part) <= MOST_DIGITS or abs(int(exponent or 0)) > MOST_TENS:
        return b"-"
    tens = int(exponent or 0) - len(part)
    p = exact.rounded(0, int(whole + part) * 10 ** max(tens, 0) << 1074, 10 ** max(-tens, 0))
    return b"%016x" % (p | SIGN if sign == b"-" else p)


def word_lines(text):
    for line in text.split(b"\n"):
        line = (line[:-1] if line.endswith(b"\r") else line).split(b";")[0]
        yield b"".join(word_answer(word) + b" " for word in re.split(rb"[ \t]+", line) if word) + b"\n"


def files():
    """Each file's path below the repository, and its bytes."""
    floats = list(float_vectors())
    tables = [(table_a(*exponent), table_b(*exponent)) for exponent in ((213, 250), (871, 1000))]
    powers = list(power_vectors())
    numbers, words = list(decimal_vectors()), word_text()
    # a whole power's exponent is the first byte of the second number
    record = lambda name, x, y, z: struct.pack("<BQQQ", FUNCTIONS.index(name), x, y, z)
    lines = lambda rows: "".join(r + "\n" for r in rows).encode()
    return {
        "crates/float_vectors/stdin": b"".join(record(*v) for v in floats),
        "crates/float_vectors/stdout": lines(float_answer(*v) for v in floats),
        "crates/power_vectors/stdin": b"".join(struct.pack("<Q", p) for p in powers),
        "crates/power_vectors/stdout": lines(power_answer(p, *tables) for p in powers),
        "crates/decimal_vectors/stdin": b"".join(decimal_record(*v) for v in numbers),
        "crates/decimal_vectors/stdout": lines(decimal_answer(*v) for v in numbers),
        "crates/word_vectors/stdin": words,
        "crates/word_vectors/stdout": b"".join(word_lines(words)),
    }


if __name__ == "__main__":
    stored.write(files())
