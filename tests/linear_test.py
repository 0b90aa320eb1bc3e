"""The systems of crate linear_vectors, and the recipe that their answers come from."""
import math
import unittest

from numbers_test import as_bits, as_float  # which also finds tools/

import exact
import linear_vectors
import oracle
from stored import read


class Systems(unittest.TestCase):
    def test_stored_files_are_what_the_generator_makes(self):
        for name, data in linear_vectors.files().items():
            self.assertTrue(read(name) == data, name + " is not what tools/linear_vectors.py makes")

    def test_enough_of_each(self):
        ends, n = set(), None
        for line in read("crates/linear_vectors/stdout").decode().splitlines():
            if line[0].isdigit():
                n = int(line)
            elif line[0] != "L":
                ends.add((n, line.split()[1] if line[0] == "S" else "X"))
        for size in (0, 1, 2, 5, 64):
            self.assertIn((size, "X"), ends)
        for end in [(1, "0"), (2, "1"), (5, "0"), (5, "2"), (5, "4"), (64, "31"), (64, "63")]:
            self.assertIn(end, ends)

    def test_special_numbers(self):
        given = [p for a, x in linear_vectors.systems() for row in a + [x] for p in row]
        for p in linear_vectors.SPECIAL:
            self.assertGreaterEqual(given.count(p), 5)
        self.assertGreaterEqual(sum(0 < p & ~exact.SIGN < 1 << 52 for p in given), 100)


def skipping(a, zero, calm):
    """The recipe's factorization, but for columns whose factor is `zero` while every number looked at is `calm`."""
    skip = True
    for c, top in enumerate(a):
        skip = skip and all(calm(row[c], True) for row in a[c:])
        for k in range(c):
            if not (skip and zero(top[k])):
                for row in a[c:]:
                    row[c] = exact.sub(row[c], exact.mul(row[k], top[k] if row is not top else row[k]))
        if not exact.less(0, top[c]):
            return c
        top[c] = exact.root(top[c])
        for row in a[c + 1:]:
            row[c] = exact.div(row[c], top[c])
            skip = skip and calm(row[c], False)
    return None


def is_zero(p):
    return p & ~exact.SIGN == 0


def is_finite(p):
    return p & ~exact.SIGN < exact.INFINITY


class Temptations(unittest.TestCase):
    """The systems tell a factorization that skips zeros rightly from those that skip too much."""

    @classmethod
    def setUpClass(cls):
        cls.given = [a for a, _ in linear_vectors.systems() if len(a) <= 16]
        cls.right = [cls.outcome(linear_vectors.factor, a) for a in cls.given]

    @staticmethod
    def outcome(way, a, *rules):
        a = [row[:] for row in a]
        return way(a, *rules), [[exact.canonical(p) for p in row] for row in a]

    def told(self, zero, calm):
        return sum(self.outcome(skipping, a, zero, calm) != right for a, right in zip(self.given, self.right))

    def test_right(self):
        self.assertEqual(self.told(is_zero, lambda p, given: p != exact.SIGN if given else is_finite(p)), 0)

    def test_without_the_test(self):
        self.assertGreaterEqual(self.told(is_zero, lambda p, given: True), 20)

    def test_minus_zero_unseen(self):
        self.assertGreaterEqual(self.told(is_zero, lambda p, given: given or is_finite(p)), 5)

    def test_infinity_unseen(self):
        self.assertGreaterEqual(self.told(is_zero, lambda p, given: p != exact.SIGN if given else p != exact.NAN), 5)

    def test_nan_unseen(self):
        self.assertGreaterEqual(self.told(is_zero, lambda p, given: p != exact.SIGN if given else is_finite(p) or p == exact.NAN), 5)

    def test_subnormal_skipped(self):
        tiny = lambda p: p & ~exact.SIGN < 1 << 52
        self.assertGreaterEqual(self.told(tiny, lambda p, given: p != exact.SIGN if given else is_finite(p)), 5)


def leaving_out(l, x, zero, calm):
    """The recipe's substitution, but for terms of the back one whose factor is `zero` while every number looked at is `calm`."""
    n, skip = len(l), True
    for r in range(n):
        for k in range(r):
            x[r] = exact.sub(x[r], exact.mul(l[r][k], x[k]))
        x[r] = exact.div(x[r], l[r][r])
    for r in reversed(range(n)):
        some = skip and calm(x[r], True)
        for k in range(r + 1, n):
            if not (some and zero(l[k][r])):
                x[r] = exact.sub(x[r], exact.mul(l[k][r], x[k]))
        x[r] = exact.div(x[r], l[r][r])
        skip = skip and calm(x[r], False)


class BackTemptations(Temptations):
    """And a back substitution that leaves zeros out rightly from those that leave out too much."""

    @classmethod
    def setUpClass(cls):
        systems = [(a, x) for a, x in linear_vectors.systems() if len(a) <= 16]
        cls.given = [(a, x) for a, x in systems if linear_vectors.factor(a) is None]
        cls.right = [cls.outcome(linear_vectors.solve, system) for system in cls.given]

    @staticmethod
    def outcome(way, system, *rules):
        l, x = system[0], system[1][:]
        way(l, x, *rules)
        return [exact.canonical(p) for p in x]

    def told(self, zero, calm):
        return sum(self.outcome(leaving_out, system, zero, calm) != right for system, right in zip(self.given, self.right))


class Oracle(unittest.TestCase):
    """The stored answers are the oracle's, bit for bit, where it can be built."""

    @classmethod
    def setUpClass(cls):
        if oracle.lacking():
            raise unittest.SkipTest("no oracle is built: %s not there" % " and ".join(oracle.lacking()))
        status, said = oracle.build("recipe")
        if status != 0:
            raise AssertionError(said)

    def test_factor_and_substitute(self):
        lines, expected = [], []
        for a, x in linear_vectors.systems():
            numbers = ["%016x" % p for row in a + [x] for p in row]
            lines.append(" ".join(["F", str(len(x))] + numbers))
            expected.append(linear_vectors.answer([row[:] for row in a], x[:])[-1])
        found = oracle.run("recipe", ("\n".join(lines) + "\n").encode(), "--parts").splitlines()
        self.assertEqual(len(found), len(expected))
        for got, want in zip(found, expected):
            want = want.split()
            if want[0] == "S":
                self.assertEqual(got, "column " + want[1])
            else:
                self.assertEqual(got.split(), want[1:])


class Columns(unittest.TestCase):
    """The processor's own arithmetic, column by column as crate linear goes, is a second opinion on the recipe."""

    def factor(self, a):
        for c in range(len(a)):
            for k in range(c):
                for row in a[c:]:
                    row[c] -= row[k] * a[c][k]
            if not a[c][c] > 0:
                return c
            a[c][c] = math.sqrt(a[c][c])
            for row in a[c + 1:]:
                row[c] /= a[c][c]
        return None

    def solve(self, l, x):
        n = len(l)
        for k in range(n):
            x[k] /= l[k][k]
            for r in range(k + 1, n):
                x[r] -= l[r][k] * x[k]
        for r in reversed(range(n)):
            for k in range(r + 1, n):
                x[r] -= l[k][r] * x[k]
            x[r] /= l[r][r]

    def test_recipe(self):
        for a, x in linear_vectors.systems():
            b, y = [[as_float(p) for p in row] for row in a], [as_float(p) for p in x]
            stop = linear_vectors.factor(a)
            self.assertEqual(stop, self.factor(b))
            if stop is None:
                linear_vectors.solve(a, x)
                self.solve(b, y)
            patterns = [[exact.canonical(p) for p in row] for row in a + [x]]
            self.assertEqual(patterns, [[as_bits(v) for v in row] for row in b + [y]])


if __name__ == "__main__":
    unittest.main()
