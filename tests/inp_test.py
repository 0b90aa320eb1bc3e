"""tools/inp_reader.py by hand: EPANET texts with the number and the line of their refusal, sheets with their figures
worked out by fractions, and the tables of powers held to whole numbers. tests/inp_files_test.py has texts by seed."""
import io
import math
import os
import random
import re
import sys
import tempfile
import unittest
from fractions import Fraction
from unittest import mock

TOP = os.path.dirname(os.path.dirname(os.path.abspath(__file__)))
sys.path[:0] = [TOP, os.path.join(TOP, "tools")]

import inp_damage
import inp_files
import inp_reader
from coordinator import sheet_bounds
from coordinator.sheet_format import PER_CFS, STATUSES, UNITS, bits, decode
from rounded import add, div, is_nearest, mul, nearest_power
from stored import read

GOOD = """[JUNCTIONS]
A 10 5
B 20
[RESERVOIRS]
R 100
[TANKS]
T 90 5 1 10 20 0
[PIPES]
P1 R A 1000 12 100
P2 A B 500 8 120 0.5 CV
P3 B T 300 8 110
[VALVES]
V1 A B 6 PRV 30 0
V2 A B 6 TCV 3 1.5
[STATUS]
V2 OPEN
P1 CLOSED
[OPTIONS]
UNITS GPM
TRIALS 40
""".splitlines()
# where each of its links begins in the sheet
LINKS = [29 + 4 * 45 + 49 * j for j in range(5)]


def text_of(lines, end="\n"):
    return end.join(lines).encode("latin-1")


def with_line(number, line):
    """The text above, another line in the place of one."""
    return text_of(GOOD[:number - 1] + [line] + GOOD[number:])


def said(text):
    """(number, line) of a refusal, else None."""
    found = inp_reader.read(text)
    return tuple(found) if isinstance(found, inp_reader.Refused) else None


def records(text, mark):
    found = inp_reader.read(text)
    return [fields for _, seen, fields in decode(found.sheet) if seen == mark]


def sheet_said(text):
    return sheet_bounds.reading(inp_reader.read(text).sheet)


class Lines(unittest.TestCase):
    """Another line in the place of one, and what is said of it."""

    def check(self, number, *cases):
        for refusal, line in cases:
            self.assertEqual(said(with_line(number, line)), refusal and (refusal, number), line)

    def table(self, number, text):
        """A case a line: `ok` or the refusal, then the line."""
        cases = [row.split(None, 1) for row in text.strip().splitlines()]
        self.check(number, *[(None if refusal == "ok" else int(refusal), line) for refusal, line in cases])

    def check_after(self, number, line, refusal, at):
        """A line that is taken, and makes another one wrong."""
        self.assertEqual(said(with_line(number, line)), (refusal, at), line)

    def test_the_text_itself(self):
        found = inp_reader.read(text_of(GOOD))
        self.assertEqual(found.nodes, [b"A", b"B", b"R", b"T"])
        self.assertEqual(found.links, [b"P1", b"P2", b"P3", b"V1", b"V2"])
        self.assertEqual(inp_reader.name_list(found), b"A\nB\nR\nT\nP1\nP2\nP3\nV1\nV2\n")

    def test_junctions(self):
        self.table(3, """
            ok  B 20
            ok  B 20 1
            10  B
            11  B 20 1 P
            11  B 20 1 *
            10  B 20 1 P x
            10  B x
            10  B 20 x
            10  B 2x 1 P
            10  A 20
        """)

    def test_reservoirs(self):
        self.table(5, """
            ok  R 1
            10  R
            10  R x
            11  R 1 P
            10  R x P
            10  R 1 P x
            10  A 1
        """)

    def test_tanks(self):
        self.table(7, """
            10  T 1 2 3 4 5
            ok  T 1 2 3 4 5 6
            ok  T 1 2 3 4 5 6 *
            11  T 1 2 3 4 5 6 C
            11  T 1 2 3 4 5 6 **
            11  T 1 2 3 4 5 6 YES
            ok  T 1 2 3 4 5 6 * YES
            ok  T 1 2 3 4 5 6 * no
            10  T 1 2 3 4 5 6 * Y
            11  T 1 2 3 4 5 6 C YES
            10  T 1 2 3 4 5 6 C Y
            10  T 1 2 3 4 5 6 * YES x
            10  T x 2 3 4 5 6
            10  T 1 x 3 4 5 6
            10  T 1 2 x 4 5 6
            10  T 1 2 3 x 5 6
            10  T 1 2 3 4 x 6
            10  T 1 2 3 4 5 x
            10  B 1 2 3 4 5 6
            ok  T -1 -2 -3 -4 -5 -6
        """)

    def test_pipes(self):
        self.table(11, """
            10  P3 B T 1 2
            ok  P3 B T 1 2 3
            ok  P3 B T 1 2 3 4
            ok  P3 B T 1 2 3 open
            ok  P3 B T 1 2 3 CV
            10  P3 B T 1 2 3 ACTIVE
            ok  P3 B T 1 2 3 4 Closed
            10  P3 B T 1 2 3 OPEN 4
            10  P3 B T 1 2 3 4 5
            10  P3 B T 1 2 3 4 ACTIVE
            10  P3 B T 1 2 3 4 OPEN x
            10  P3 B T x 2 3
            10  P3 B T 1 x 3
            10  P3 B T 1 2 x
            11  P3 C T 1 2 3
            11  P3 B C 1 2 3
            11  P3 B t 1 2 3
            11  P3 B P1 1 2 3
            10  P3 C T x 2 3
            10  P3 C T 1 2 3 4 x
            10  P2 B T 1 2 3
            10  P2 C T 1 2 3
            ok  A B T 1 2 3
            ok  P3 B B 1 2 3
            ok  P3 B T 0 0 0
            ok  P3 B T -1 -1 -1
        """)

    def test_valves(self):
        self.check(14, *[(None, "V2 A B 6 %s 30 0" % kind) for kind in ("PRV", "psv", "Pbv", "FCV", "TCV")])
        self.table(14, """
            10  V2 A B 6 PCV 30 0
            10  V2 A B 6 XXX 30 0
            11  V2 A B 6 GPV C 0
            11  V2 A B 6 gpv 30 0
            10  V2 A B x GPV C 0
            10  V2 A B 6 GPV C x
            10  V1 A B 6 GPV C 0
            10  V2 A B 6 PRV 30
            10  V2 A B 6 PRV 30 0 OPEN
            10  V2 A B x PRV 30 0
            10  V2 A B 6 PRV x 0
            10  V2 A B 6 PRV 30 x
            11  V2 A C 6 PRV 30 0
            11  V2 C B 6 PRV 30 0
            10  V2 A C 6 PRV C 0
            10  P1 A B 6 PRV 30 0
        """)

    def test_status(self):
        self.table(16, """
            ok  V2 OPEN
            ok  V2 closed
            ok  V2 12.5
            10  V2 ACTIVE
            10  V2 active
            10  V2 x
            10  V2
            10  V2 OPEN x
            ok  P1 OPEN
            ok  P1 Closed
            10  P1 1
            10  P1 CV
            10  P2 OPEN
            10  P2 CLOSED
            10  P2 1
            11  V3 OPEN
            11  V3 1
            11  v2 OPEN
            11  A OPEN
            10  V3 ACTIVE
            10  V3 x
        """)

    def test_options(self):
        self.check(20, *[(None, "UNITS " + unit) for unit in UNITS])
        self.table(20, """
            ok  units Lps
            10  UNITS SI
            10  UNITS
            10  UNITS GPM x
            10  UNIT GPM
            ok  HEADLOSS H-W
            ok  headloss h-w
            10  HEADLOSS D-W
            10  HEADLOSS C-M
            10  HEADLOSS
            10  HEADLOSS H-W x
            ok  TRIALS 0
            ok  TRIALS 65535
            10  TRIALS 65536
            10  TRIALS 40.0
            10  TRIALS 4e1
            10  TRIALS +40
            10  TRIALS -40
            ok  TRIALS 00000000000000040
            10  TRIALS 000000000000000040
            10  TRIALS
            10  TRIALS 40 40
            ok  ACCURACY 0.01
            10  ACCURACY x
            10  ACCURACY
            10  ACCURACY 1 1
            ok  DAMPLIMIT 1
            10  DAMP LIMIT 1
            ok  FLOWCHANGE 1
            10  FLOWCHANGE
            ok  DEMAND MULTIPLIER 2
            10  Demand multiplier x
            10  DEMAND
            10  DEMAND 2
            ok  DEMAND MODEL DDA
            ok  demand model pda
            10  DEMAND MODEL
            10  DEMAND MODEL PDD
            10  DEMAND MODEL DDA x
            ok  MINIMUM PRESSURE 1
            10  MINIMUM PRESSURE
            10  MINIMUM 1
            ok  REQUIRED PRESSURE 20
            10  REQUIRED PRESSURE x
            ok  PRESSURE EXPONENT 0.5
            ok  PRESSURE EXPONENT 5e-1
            ok  PRESSURE EXPONENT .50000000000000001
            10  PRESSURE EXPONENT .5000000000000001
            10  PRESSURE EXPONENT 0.6
            10  PRESSURE EXPONENT
            10  PRESSURE EXPONENT 0.5 x
            10  PRESSURE PSI
            10  PRESSURE METERS
            10  PRESSURE
            ok  SPECIFIC GRAVITY 1
            ok  SPECIFIC GRAVITY 1.0
            10  SPECIFIC GRAVITY 0.98
            10  SPECIFIC 1
            ok  VISCOSITY 1.1
            10  VISCOSITY
            10  VISCOSITY x
            ok  DIFFUSIVITY 1
            ok  TOLERANCE 0.01
            ok  HEADERROR 0
            ok  CHECKFREQ 2
            10  CHECKFREQ two
            ok  MAXCHECK 10
            10  MAXCHECK 1 1
            ok  EMITTER EXPONENT 0.5
            10  EMITTER EXPONENT
            10  EMITTER 0.5
            10  EMITTER BACKFLOW YES
            ok  UNBALANCED STOP
            ok  UNBALANCED CONTINUE 10
            ok  UNBALANCED
            ok  QUALITY None mg/L
            ok  QUALITY
            ok  MAP a b c
            ok  HYDRAULICS USE file
            ok  PATTERN 1
            10  PATTERN
            10  PATTERN 1 2
            10  SEGMENTS 100
            10  OPEN
            10  1
        """)

    def test_names(self):
        long, longer = "n" * 31, "n" * 32
        self.assertIsNone(said(text_of([line.replace("B", long) for line in GOOD])))
        self.assertEqual(said(text_of([line.replace("B", longer) for line in GOOD])), (10, 3))
        for refusal, called in ((11, long), (10, longer)):
            for number, line in ((3, "B 20 1 %s"), (5, "R 1 %s"), (7, "T 1 2 3 4 5 6 %s"), (11, "P3 %s T 300 8 110"),
                                 (11, "P3 B %s 300 8 110"), (14, "V2 A B 6 GPV %s 0"), (16, "%s OPEN"), (16, "%s 1")):
                self.check(number, (refusal, line % called))
        self.check(20, (None, "PATTERN " + longer))
        # another name: the pipe in line 10 ends at B
        for line in ("b 20", "\"B\" 20", "B, 20", "B\r 20", "B\x00 20", "B\xe9 20", "B\x0c 20"):
            self.check_after(3, line, 11, 10)

    def test_sections(self):
        self.check(18, (None, "[OPTIONS]"), (None, "[options]"), (None, " [Options];x"), (10, "[OPTIONS] x"),
                   (10, "[OPTIONS] ]"), (10, "[ OPTIONS ]"), (10, "[TITLE] x"), (10, "[PUMPS] x"))
        for header in ("[TIMES]", "[PUMPS]", "[END]", "[OPTION]", "[OPTIONS", "[OPTIONS]]", "[]", "[", "[OPTIO\x00NS]"):
            self.check_after(18, header, 12, 19)
        for header in ("[TITLE]", "[COORDINATES]", "[VERTICES]", "[vertices]"):
            self.assertIsNone(said(with_line(18, header)))
        # without its brackets it is a line of the section before it
        self.check(18, (10, "OPTIONS"))

    def test_sections_in_parts(self):
        parts = text_of(["[JUNCTIONS]", "A 10 5", "[TITLE]", "x", "[junctions]", "B 20"] + GOOD[3:])
        self.assertEqual(inp_reader.read(parts), inp_reader.read(text_of(GOOD)))

    def test_a_line_before_any_section(self):
        self.check(1, (10, "A 1"), (10, "JUNCTIONS"), (10, "\xef\xbb\xbf[JUNCTIONS]"), (10, "\xff\xfe[\x00"))
        self.assertEqual(said(b"\n;x\n  x ; y\n"), (10, 3))

    def test_words_and_comments(self):
        self.check(3, (None, "\tB\t20\t"), (None, "   B   20   ;"), (None, "B 20;1 P x"), (None, "B 20\r"), (10, "B;20"),
                   (10, "B 20\r\r"), (10, "B 20 \"1\""), (10, "B 20\x0b"), (10, "B\x0c20"), (10, "B 2\x000"),
                   (10, "B 20,"), (10, "B 20 1\xa0"))

    def test_line_ends(self):
        whole = inp_reader.read(text_of(GOOD))
        for end in ("\n", "\r\n"):
            for last in ("", end, end + end, " ", "\t;x", "\r"):
                self.assertEqual(inp_reader.read(text_of(GOOD, end) + last.encode()), whole)
        # a carriage return alone ends no line
        self.assertEqual(said(text_of(GOOD, "\r")), (10, 1))

    def test_nothing(self):
        for text in (b"", b"\n", b";", b"\r\n", b" \t", b"[END]", b"[]", b"[PUMPS]\n[TIMES]\n"):
            found = inp_reader.read(text)
            self.assertEqual((len(found.sheet), found.nodes, found.links), (29, [], []))
            self.assertEqual(sheet_said(text), ("R", 2, 0))

    def test_the_earliest_line_counts(self):
        wrong = {10: ["[JUNCTIONS]", "A"], 11: ["[STATUS]", "X OPEN"], 12: ["[TIMES]", "Duration 0"]}
        for early in wrong:
            for late in wrong:
                self.assertEqual(said(text_of(wrong[early] + wrong[late])), (early, 2))
                self.assertEqual(said(text_of([""] + wrong[early] + wrong[late] + [""], "\r\n")), (early, 3))

    def test_a_name_before_it_is_defined(self):
        self.assertEqual(said(text_of(GOOD[7:11] + GOOD[:7] + GOOD[11:])), (11, 2))
        self.assertEqual(said(text_of(GOOD[:15] + ["V9 OPEN", "[VALVES]", "V9 A B 6 PRV 30 0"])), (11, 16))
        self.assertEqual(said(text_of(["[PIPES]", "P A B 1 1 1", "[JUNCTIONS]", "A 1", "B 1"])), (11, 2))

    def test_the_last_of_two_counts(self):
        """And the units hold for the whole text, wherever they stand."""
        whole = inp_reader.read(text_of(GOOD))
        self.assertEqual(inp_reader.read(text_of(GOOD[17:] + GOOD[:17])), whole)
        self.assertEqual(inp_reader.read(text_of(["[OPTIONS]", "UNITS LPS", "TRIALS 7"] + GOOD)), whole)
        (op,) = records(text_of(GOOD + ["UNITS CMD"]), b"OP")
        self.assertEqual(UNITS[op["unit"]], "CMD")
        for first, second, status, setting in (("CLOSED", "OPEN", "FixedOpen", 30), ("OPEN", "40", "Active", 40),
                                               ("40", "CLOSED", "FixedClosed", 30), ("40", "50", "Active", 50)):
            lines = GOOD[:15] + ["V1 " + first, "V1 " + second] + GOOD[15:]
            valve = records(text_of(lines), b"LK")[3]
            self.assertEqual((STATUSES[valve["status"]], valve["setting"]), (status, div(setting, 0.4333)))

    def test_long_lines_and_many(self):
        many = 1 << 20
        for line in (";" + "x" * many, " " * many, "[TITLE]\n" + "x" * many, "[%s]" % ("x" * many)):
            self.assertIsNone(said(line.encode()))
        zeros = "0" * many
        self.check(3, (10, "x" * many), (10, "1 " * many), (10, "[" + "x " * many), (10, "B " + zeros),
                   (None, "B 1e" + zeros), (10, "B 1e" + zeros + "21"), (10, "B 1e" + "9" * many),
                   (10, "B " + zeros + "x"), (10, "B ." + zeros + "x"), (10, "B 1e" + zeros + "x"))
        self.assertEqual(said(b"\n" * 100000 + b"x"), (10, 100001))

    def test_so_many_names_are_kept(self):
        nodes = ["[JUNCTIONS]"] + ["%d 0" % k for k in range(512)]
        pipes = ["[PIPES]"] + ["P%d 0 511 1 1 1" % k for k in range(1024)]
        found = records(text_of(nodes + pipes), b"LK")
        self.assertEqual((len(found), found[-1]["start"], found[-1]["end"]), (1024, 0, 511))
        self.assertEqual(said(text_of(nodes + ["x 0"] + pipes)), (10, 514))
        self.assertEqual(said(text_of(nodes + ["[TANKS]", "x 0 0 0 0 0 0 C"])), (10, 515))
        self.assertEqual(said(text_of(nodes + pipes + ["x 0 511 1 1 1"])), (10, 1539))
        self.assertEqual(said(text_of(nodes + pipes + ["[VALVES]", "x 0 no 6 GPV C 0"])), (10, 1540))
        self.assertIn("| more than 512 nodes or 1,024 links |", read("docs/INP.md").decode())


class Numbers(unittest.TestCase):
    def test_how_they_are_written(self):
        for word, value in ((b"1", 1.0), (b"1.", 1.0), (b".5", 0.5), (b"+3", 3.0), (b"-3", -3.0), (b"1e5", 1e5),
                            (b"1E+05", 1e5), (b"1e-005", 1e-5), (b"007", 7.0), (b"1.e1", 10.0), (b".5E1", 5.0),
                            (b"-.5", -0.5), (b"0", 0.0), (b"1e20", 1e20), (b"1e-20", 1e-20),
                            (b"12345678901234567", 12345678901234567.0), (b"00000000000000001", 1.0),
                            (b"1e00000000000000000000000020", 1e20), (b"0.0000000000000001e-20", 1e-36)):
            self.assertEqual(inp_reader.number(word), value, word)
        for word, sign in ((b"-0", -1), (b"-0.0e-5", -1), (b"0", 1), (b"+.0", 1)):
            self.assertEqual(math.copysign(1, inp_reader.number(word)), sign, word)

    def test_how_they_are_not(self):
        more = (b"1e-", b"1 2", b"1\n", b"1\r", b"++1", b"e", b"-", b"-.", b"1.e", b"Inf", b"1f", b"0b1", b"1L",
                b"0.00000000000000000", b"123456789.123456789")
        for word in inp_damage.BAD_NUMBERS + more:
            with self.assertRaises(inp_reader.Fault) as fault:
                inp_reader.number(word)
            self.assertEqual(fault.exception.number, 10, word)

    def test_to_the_nearest(self):
        """Against fractions: python rounds a quotient of whole numbers once."""
        chance = random.Random(5)
        for _ in range(20000):
            digits = str(chance.randrange(10 ** chance.randrange(1, 18)))
            point, exponent = chance.randrange(len(digits) + 1), chance.randrange(-20, 21)
            word = "%s.%se%d" % (digits[:point], digits[point:], exponent)
            value = Fraction(int(digits)) * Fraction(10) ** (exponent - len(digits) + point)
            self.assertEqual(inp_reader.number(word.encode()), float(value), word)

    def test_in_the_middle_of_two(self):
        """Odd numbers of 54 bits lie halfway between two f64s: the even one is taken."""
        for m in range(1 << 53, (1 << 53) + 64):
            for shift in (0, 1, 2):
                middle = (2 * m + 1) << shift
                even = 2 * (m if m % 2 == 0 else m + 1) << shift
                self.assertEqual(int(inp_reader.number(b"%d" % middle)), even)
                self.assertEqual(int(inp_reader.number(b"-%d" % middle)), -even)


EXPONENTS = ((213, 250), (871, 1000))


class Powers(unittest.TestCase):
    def test_every_entry_is_the_nearest(self):
        for p, q in EXPONENTS:
            for i in range(1025):
                self.assertTrue(is_nearest(inp_reader.step_power(i, p, q), (1024 + i) ** p, 1024 ** p, q), (i, q))
            for e in range(-64, 64):
                num, den = (1 << p * e, 1) if e >= 0 else (1, 1 << -p * e)
                self.assertTrue(is_nearest(inp_reader.two_power(e, p, q), num, den, q), (e, q))

    def test_a_neighbour_is_not(self):
        x = inp_reader.step_power(300, 871, 1000)
        for other in (math.nextafter(x, 0), math.nextafter(x, 9)):
            self.assertFalse(is_nearest(other, 1324 ** 871, 1024 ** 871, 1000))

    def test_the_table_that_is_proved(self):
        source = read("crates/tables/src/tables.rt").decode()
        proved = [int(digits, 16) for digits in re.findall(r"^ +0x([0-9a-f]{16})\b", source, re.M)]
        self.assertEqual(proved, [bits(inp_reader.step_power(i, 213, 250)) for i in range(1025)]
                         + [bits(inp_reader.two_power(63 - j, 213, 250)) for j in range(128)])

    def test_near_the_true_power(self):
        chance = random.Random(9)
        for _ in range(2000):
            x = chance.uniform(1, 2) * 2.0 ** chance.randrange(-64, 64)
            for p, q in EXPONENTS:
                true = x ** (p / q)
                self.assertLess(abs(inp_reader.power(x, p, q) - true), true * 2.0 ** -25)

    def test_at_the_ends(self):
        for p, q in EXPONENTS:
            least = inp_reader.two_power(-64, p, q)
            for x, y in ((0.0, 0.0), (-0.0, 0.0), (math.nextafter(2.0 ** -64, 0), 0.0), (2.0 ** -64, least), (1.0, 1.0),
                         (2.0 ** 64, math.inf), (math.inf, math.inf)):
                self.assertEqual(bits(inp_reader.power(x, p, q)), bits(y))
            self.assertLess(inp_reader.power(math.nextafter(2.0 ** 64, 0), p, q), math.inf)
            for x in (math.nan, -1.0, -5e-324, -math.inf):
                self.assertTrue(math.isnan(inp_reader.power(x, p, q)))


def power_by_fractions(x, p, q):
    """Document 01, item 2, each operation rounded once."""
    e = math.frexp(x)[1] - 1
    steps = (Fraction(x) / Fraction(2) ** e - 1) * 1024
    i = int(steps)
    low, high = nearest_power(1024 + i, 1024, p, q), nearest_power(1025 + i, 1024, p, q)
    chord = add(low, mul(steps - i, add(high, -low)))
    return mul(chord, nearest_power(2 ** e, 1, p, q) if e >= 0 else nearest_power(1, 2 ** -e, p, q))


class Resistance(unittest.TestCase):
    def by_fractions(self, length, diameter, roughness):
        """4.727 * (1 / (C * C^0.852)) * (1 / (d^4 * d^0.871)) * L."""
        square = mul(diameter, diameter)
        friction = div(1, mul(roughness, power_by_fractions(roughness, 213, 250)))
        narrowness = div(1, mul(mul(square, square), power_by_fractions(diameter, 871, 1000)))
        return mul(mul(mul(4.727, friction), narrowness), length)

    def test_one_pipe_by_hand(self):
        """1,000 ft of 12 inches at C = 100: d is 1, and C is 1.5625 * 2^6, an entry of table A with no rest. So the
        loss at one cubic foot per second is 4727 / 100^1.852 = 4727 / 5058.2466 ft."""
        c = mul(nearest_power(1600, 1024, 213, 250), nearest_power(64, 1, 213, 250))
        expected = mul(mul(4.727, div(1, mul(100, c))), 1000)
        pipe = records(text_of(GOOD), b"LK")[0]
        self.assertEqual(bits(pipe["resistance"]), bits(expected))
        self.assertAlmostEqual(pipe["resistance"], 4727 / 5058.2466, 7)
        self.assertEqual(pipe["diameter"], 1.0)

    def test_others_by_fractions(self):
        chance = random.Random(2)
        for _ in range(200):
            length, diameter, roughness = chance.uniform(1, 9000), chance.uniform(0.05, 9), chance.uniform(1, 200)
            self.assertEqual(bits(inp_reader.resistance(length, diameter, roughness)),
                             bits(self.by_fractions(length, diameter, roughness)))

    def test_what_is_no_pipe(self):
        """A sheet comes of it, which is refused."""
        for words, found in (("1 0 100", math.inf), ("0 0 100", math.nan), ("1 12 0", math.inf), ("1 12 -0", -math.inf),
                             ("1 -1 100", math.nan), ("1 12 -5", math.nan), ("1 1e-20 100", math.inf)):
            text = with_line(9, "P1 R A " + words)
            self.assertEqual(bits(records(text, b"LK")[0]["resistance"]), bits(found), words)
            self.assertEqual(sheet_said(text), ("R", 3, LINKS[0]), words)
        self.assertEqual(sheet_said(with_line(9, "P1 R A -1 12 100")), ("R", 3, LINKS[0]))
        for words in ("0 12 100", "1 12 1e20"):
            self.assertEqual(records(with_line(9, "P1 R A " + words), b"LK")[0]["resistance"], 0.0)


class Sheets(unittest.TestCase):
    """Fields worked out by hand."""

    def test_us_units(self):
        more = ["ACCURACY 0.01", "DAMPLIMIT 0.5", "FLOWCHANGE 0.25", "DEMAND MULTIPLIER 1.5"]
        found = inp_reader.read(text_of(GOOD + more))
        op, a, b, r, t, p1, p2, p3, v1, v2 = (fields for _, _, fields in decode(found.sheet))
        self.assertEqual(op, dict(accuracy=0.01, damping_limit=0.5, max_flow_change=0.25, trials=40, unit=1))
        empty = dict(disabled=0, demand=0.0, head=0.0, max_level=0.0, min_level=0.0, overflow=0)
        self.assertEqual(a, dict(empty, kind=0, elevation=10.0, demand=mul(div(5, 448.831), 1.5)))
        self.assertEqual(b, dict(empty, kind=0, elevation=20.0))
        self.assertEqual(r, dict(empty, kind=1, elevation=100.0, head=100.0))
        self.assertEqual(t, dict(empty, kind=2, elevation=90.0, head=95.0, min_level=1.0, max_level=10.0))
        fields = ("status", "check_valve", "start", "end", "minor_loss", "setting")
        self.assertEqual([tuple(p[name] for name in fields) for p in (p1, p2, p3)],
                         [(0, 0, 2, 0, 0.0, 0.0), (1, 1, 0, 1, 0.5, 0.0), (1, 0, 1, 3, 0.0, 0.0)])
        quarter, feet = mul(0.25, math.pi), div(8, 12)
        self.assertEqual([p["flow"] for p in (p1, p2, p3)], [1e-6] + [mul(quarter, mul(feet, feet))] * 2)
        valve = dict(check_valve=0, start=0, end=1, diameter=0.5, resistance=1e-6, flow=mul(quarter, 0.25))
        self.assertEqual(v1, dict(valve, kind=1, status=2, setting=div(30, 0.4333), minor_loss=0.0))
        self.assertEqual(v2, dict(valve, kind=5, status=5, setting=3.0, minor_loss=1.5))

    def test_metric_units_and_no_other_option(self):
        found = inp_reader.read(text_of(GOOD[:17] + ["[OPTIONS]", "UNITS LPS"]))
        op, a, _, r, t, p1, _, _, v1, v2 = (fields for _, _, fields in decode(found.sheet))
        self.assertEqual(op, dict(accuracy=0.001, damping_limit=0.0, max_flow_change=0.0, trials=200, unit=5))
        self.assertEqual((a["elevation"], a["demand"]), (div(10, 0.3048), div(5, 28.317)))
        self.assertEqual((r["elevation"], r["head"]), (div(100, 0.3048),) * 2)
        self.assertEqual((t["elevation"], t["head"], t["min_level"], t["max_level"]),
                         (div(90, 0.3048), add(div(90, 0.3048), div(5, 0.3048)), div(1, 0.3048), div(10, 0.3048)))
        self.assertEqual(p1["diameter"], div(div(12, 1000), 0.3048))
        self.assertEqual((v1["setting"], v2["setting"]), (div(30, 0.3048), 3.0))
        self.assertEqual(v1["diameter"], div(div(6, 1000), 0.3048))

    def test_no_units_are_gallons(self):
        (op,) = records(text_of(GOOD[:17]), b"OP")
        self.assertEqual((UNITS[op["unit"]], op["trials"]), ("GPM", 200))

    def test_the_units_of_settings(self):
        for unit, per in zip(UNITS, PER_CFS):
            pressure = 0.3048 if unit in ("LPS", "LPM", "MLD", "CMS", "CMH", "CMD") else 0.4333
            for kind, factor in (("PRV", pressure), ("PSV", pressure), ("PBV", pressure), ("FCV", per), ("TCV", 1)):
                lines = GOOD[:13] + ["V2 A B 6 %s 30 0" % kind, "[OPTIONS]", "UNITS " + unit]
                self.assertEqual(records(text_of(lines), b"LK")[4]["setting"], div(30, factor))
                # and where a status line sets it
                status = lines[:14] + ["[STATUS]", "V2 7.5"] + lines[14:]
                self.assertEqual(records(text_of(status), b"LK")[4]["setting"], div(7.5, factor))

    def test_pressures(self):
        pda, low, high = "DEMAND MODEL PDA", "MINIMUM PRESSURE 5", "REQUIRED PRESSURE 20"
        for lines, pair in (([], None), (["DEMAND MODEL DDA", low, high], None), ([low, high], None),
                            ([pda], (0.0, div(0.1, 0.4333))), ([pda, low, high], (div(5, 0.4333), div(20, 0.4333))),
                            ([high, pda, "UNITS CMH"], (0.0, div(20, 0.3048))), ([pda, "DEMAND MODEL DDA"], None)):
            found = [(pd["minimum"], pd["required"]) for pd in records(text_of(GOOD + lines), b"PD")]
            self.assertEqual(found, [pair] if pair else [])
        # 5 is above the 0.1 that stands where no required pressure is given
        self.assertEqual(sheet_said(text_of(GOOD + [pda, low])), ("R", 3, 29))

    def test_what_a_sheet_refuses_is_taken_here(self):
        for number, line, place in ((20, "TRIALS 0", 0), (20, "TRIALS 201", 0), (20, "ACCURACY 0", 0),
                                    (20, "ACCURACY -1", 0), (2, "A 1e20", 29), (11, "P3 B T 300 8 110 -1", LINKS[2])):
            self.assertEqual(sheet_said(with_line(number, line)), ("R", 3, place), line)
        self.assertEqual(sheet_said(with_line(11, "P3 B B 300 8 110")), ("R", 4, LINKS[2]))

    def test_zeros(self):
        """A demand is added to +0.0; an elevation keeps its sign."""
        a = records(with_line(2, "A -0 -0"), b"ND")[0]
        self.assertEqual((bits(a["elevation"]), bits(a["demand"])), (1 << 63, 0))
        self.assertEqual(bits(records(text_of(GOOD + ["DEMAND MULTIPLIER -1"]), b"ND")[1]["demand"]), 0)

    def test_overflow(self):
        for rest, overflow in (("", 0), (" *", 0), (" * YES", 1), (" * yes", 1), (" * NO", 0)):
            tank = records(with_line(7, "T 90 5 1 10 20 0" + rest), b"ND")[3]
            self.assertEqual((tank["kind"], tank["overflow"]), (2, overflow))

    def test_a_pipes_last_words(self):
        for rest, expected in (("", (1, 0, 0.0)), (" 2", (1, 0, 2.0)), (" CLOSED", (0, 0, 0.0)), (" Cv", (1, 1, 0.0)),
                               (" 2 closed", (0, 0, 2.0)), (" 2 CV", (1, 1, 2.0)), (" 2 OPEN", (1, 0, 2.0))):
            pipe = records(with_line(11, "P3 B T 300 8 110" + rest), b"LK")[2]
            self.assertEqual((pipe["status"], pipe["check_valve"], pipe["minor_loss"]), expected)

    def test_a_status_for_each(self):
        for line, link, status in (("P1 OPEN", 0, "Open"), ("P1 CLOSED", 0, "Closed"), ("V1 OPEN", 3, "FixedOpen"),
                                   ("V1 closed", 3, "FixedClosed"), ("V1 20", 3, "Active")):
            found = records(text_of(GOOD[:15] + [line]), b"LK")[link]
            self.assertEqual(STATUSES[found["status"]], status)
            self.assertEqual(found["flow"] == 1e-6, status in ("Closed", "FixedClosed"))


class Paper(unittest.TestCase):
    """docs/INP.md names what the reader knows."""

    @classmethod
    def setUpClass(cls):
        cls.page = read("docs/INP.md").decode()

    def rows(self, heading):
        """The cells of the table that begins so."""
        lines = self.page[self.page.index(heading):].splitlines()
        return [[cell.strip() for cell in line.strip("|").split("|")] for line in lines[2:lines.index("")]]

    def test_every_option_and_no_other(self):
        named = [key for row in self.rows("| option | takes") for key in row[0].split(", ")]
        self.assertEqual(sorted(named), sorted(key.decode() for key in inp_reader.OPTIONS))

    def test_every_section(self):
        named = [section for row in self.rows("| section | the words")[:-1] for section in row[0].split(", ")]
        known = set(inp_reader.Network().sections) | inp_reader.SECTIONS_PASSED
        self.assertEqual(sorted(named), sorted(header.decode().strip("[]") for header in known))

    def test_every_keyword(self):
        words = re.split(r"\W+", self.page)
        for meanings in (inp_reader.YES_NO, inp_reader.PIPE_STATUSES, inp_reader.VALVES, inp_reader.FLOW_UNITS,
                         inp_reader.MODELS):
            for keyword in meanings:
                self.assertIn(keyword.decode(), words)


def bytes_of(path):
    with open(path, "rb") as file:
        return file.read()


class Command(unittest.TestCase):
    def test_what_it_prints(self):
        self.assertEqual(inp_reader.printed(b"x"), b"A 10 1 0 0 0\n")
        found = inp_reader.read(text_of(GOOD))
        self.assertEqual(inp_reader.printed(text_of(GOOD)), b"S 4 5 454\n" + found.sheet + inp_reader.name_list(found))

    def test_what_it_writes(self):
        with tempfile.TemporaryDirectory() as folder:
            text, sheet, names = (os.path.join(folder, name) for name in ("a.inp", "a.sheet", "a.names"))
            with open(text, "wb") as file:
                file.write(text_of(GOOD))
            inp_reader.main([text, sheet, names])
            found = inp_reader.read(text_of(GOOD))
            self.assertEqual([bytes_of(sheet), bytes_of(names)], [found.sheet, inp_reader.name_list(found)])
            with open(text, "wb") as file:
                file.write(b"\nx")
            with self.assertRaises(SystemExit) as end:
                inp_reader.main([text, sheet, names])
            self.assertEqual(end.exception.code, "%s:2: refused, number 10" % text)

    def test_how_it_is_used(self):
        for module in (inp_reader, inp_files):
            with self.assertRaises(SystemExit) as end:
                module.main(["x", "y"])
            self.assertEqual(end.exception.code, module.__doc__)

    def test_the_kinds(self):
        with mock.patch("sys.stdout", new=io.StringIO()) as out:
            inp_files.main(["kinds", "1", "20"])
        self.assertIn("8  good\n", out.getvalue())


if __name__ == "__main__":
    unittest.main()
