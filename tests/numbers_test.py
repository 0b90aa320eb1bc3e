"""The vectors of crates float, roots, power, decimals and of words, and the arithmetic that their answers come from."""
import glob
import math
import os
import random
import re
import struct
import sys
import unittest

TOP = os.path.dirname(os.path.dirname(os.path.abspath(__file__)))
sys.path.insert(0, os.path.join(TOP, "tools"))

import exact
import power_tables
import vectors
from stored import read


def as_float(p):
    return struct.unpack("<d", struct.pack("<Q", p))[0]


def as_bits(x):
    return exact.NAN if x != x else struct.unpack("<Q", struct.pack("<d", x))[0]


def quotient(x, y):
    """The processor's quotient; python raises an error for a divisor of zero."""
    if y != 0:
        return x / y
    return math.nan if x == 0 or x != x else math.copysign(math.inf, x) * math.copysign(1, y)


class Vectors(unittest.TestCase):
    def test_stored_files_are_what_the_generator_makes(self):
        for name, data in vectors.files().items():
            self.assertTrue(read(name) == data, name + " is not what tools/vectors.py makes")

    def test_enough_of_each(self):
        lines = read("crates/float_vectors/stdout").decode().splitlines()
        counts = {name: sum(l.startswith(name + " ") for l in lines) for name in vectors.FUNCTIONS}
        self.assertGreaterEqual(counts["root"], 1000)
        self.assertTrue(all(n >= 50 for n in counts.values()), counts)
        fields = {int(l.split()[1], 16) >> 52 for l in lines if l.startswith("root ")}
        self.assertGreaterEqual(len(fields), 1000)
        powers = read("crates/power_vectors/stdout").decode().split()
        self.assertGreaterEqual(len(powers), 4000)
        for x, by_852, by_871, raised in zip(powers[::4], powers[1::4], powers[2::4], powers[3::4]):
            d = as_float(int(x, 16))
            if 1e-15 < d < 1e15:  # far from exact, but of the right power
                self.assertAlmostEqual(as_float(int(by_852, 16)) / d ** 0.852, 1, delta=1e-7)
                self.assertAlmostEqual(as_float(int(by_871, 16)) / d ** 0.871, 1, delta=1e-7)
                self.assertAlmostEqual(as_float(int(raised, 16)) / d ** 4.871, 1, delta=1e-7)
        numbers = read("crates/decimal_vectors/stdout").decode().splitlines()
        self.assertGreaterEqual(len(numbers), 1000)
        self.assertEqual(numbers.count(""), 3)

    def test_words(self):
        said = read("crates/word_vectors/stdout").split()
        words = [word for line in read("crates/word_vectors/stdin").split(b"\n") for word in line.rstrip(b"\r").split(b";")[0].split()]
        self.assertEqual(len(words), len(said))
        good = [(word, bits) for word, bits in zip(words, said) if bits != b"-"]
        self.assertGreater(len(good), 500)
        self.assertGreater(len(words) - len(good), 200)
        self.assertEqual([pair for pair in good if as_bits(float(pair[0])) != int(pair[1], 16)], [])


class Arithmetic(unittest.TestCase):
    """tools/exact.py uses whole numbers alone; the processor's own arithmetic is a second opinion on it."""

    def patterns(self):
        rng = random.Random(3)
        for _ in range(20000):
            near = rng.random() < 0.5
            p = rng.getrandbits(64)
            q = p + (rng.randrange(-5, 6) << 40) if near else rng.getrandbits(64)
            yield exact.canonical(p), exact.canonical(q % (1 << 64))
        for p in vectors.EDGES:
            for q in vectors.EDGES:
                yield exact.canonical(p), exact.canonical(q)

    def test_operations(self):
        for p, q in self.patterns():
            x, y = as_float(p), as_float(q)
            self.assertEqual(exact.mul(p, q), as_bits(x * y))
            self.assertEqual(exact.div(p, q), as_bits(quotient(x, y)))
            self.assertEqual(exact.add(p, q), as_bits(x + y))
            self.assertEqual(exact.sub(p, q), as_bits(x - y))
            self.assertEqual(exact.less(p, q), x < y)

    def test_root(self):
        for p, _ in self.patterns():
            x = as_float(p)
            self.assertEqual(exact.root(p), as_bits(math.sqrt(x) if x >= 0 or x != x else math.nan))


class Products(unittest.TestCase):
    """Below `root` no product is formed, of whole numbers or of f64s (document 02, [5])."""

    CALLED = {"f64::to_bits", "f64::from_bits", "u64::leading_zeros"}

    def code(self, text):
        """A source without comments, ghost lines and contracts."""
        text = re.sub(r"//.*", "", text)
        text = re.sub(r"^ghost .*?;$", "", text, flags=re.M | re.S)
        return re.sub(r"^ +(requires|ensures|decreases)\b.*$", "", text, flags=re.M)

    def found(self, text):
        """Products, and calls of what does not stand in the crate."""
        code = self.code(text)
        outside = [name for name in re.findall(r"\b\w+(?:::\w+)+(?=\()", code) if name not in self.CALLED]
        return re.findall(r"\*|\w*(?:mul|pow|square|fma)\w*(?=\()", code) + outside

    def test_the_crate_forms_none(self):
        sources = [read(os.path.relpath(path, TOP)).decode() for path in glob.glob(TOP + "/crates/roots/src/**/*.rt", recursive=True)]
        self.assertIn("pub fn root(", "".join(sources))
        self.assertEqual([self.found(source) for source in sources], [[] for _ in sources])

    def test_it_would_see_one(self):
        for line in ("let y = a * b;", "x *= 3.0;", "y = std::num::wrapping_mul_u64(a, b);", "square(x)", "float::whole_power(x, 2)"):
            self.assertTrue(self.found(line), line)
        spared = "// a * b\nghost use N.{_+_,\n    _*_};\nfn f(n: u64)\n    requires { ⌜ n * 2 < 9 ⌝ }\n{ f64::to_bits(x) / 2 }\n"
        self.assertEqual(self.found(spared), [])


class Tables(unittest.TestCase):
    """The tables of code and definition are those that whole numbers give."""

    def numbers(self, name):
        return [int(h, 16) for h in re.findall(r"^ +0x([0-9a-f]{16})\b", read(name).decode(), re.M)]

    def held(self, exponent, code, definition):
        both = power_tables.table_a(*exponent) + power_tables.table_b(*exponent)
        self.assertEqual(len(both), 1025 + 128)
        self.assertEqual(self.numbers(code), both)
        self.assertEqual(self.numbers(definition), both)

    def test_code_and_definition(self):
        self.held((213, 250), "crates/tables/src/tables.rt", "crates/tables/specs/Tables.antt")

    def test_code_and_definition_871(self):
        self.held((871, 1000), "crates/tables/src/tables_871.rt", "crates/tables/specs/Tables871.antt")


if __name__ == "__main__":
    unittest.main()
