"""The vectors of crate model: made anew, and answered anew where the oracle can be built."""
import os
import sys
import unittest

ROOT = os.path.dirname(os.path.dirname(os.path.abspath(__file__)))
sys.path.insert(0, os.path.join(ROOT, "tools"))

import exact  # noqa: E402
import model_vectors as vectors  # noqa: E402
import oracle  # noqa: E402
import stored  # noqa: E402



def read(name):
    return stored.read("crates/model_vectors/" + name)


class Vectors(unittest.TestCase):
    @classmethod
    def setUpClass(cls):
        cls.cases = vectors.cases()
        cls.lines = read("stdout").decode("ascii").splitlines()

    def test_the_generator_makes_them_anew(self):
        self.assertTrue(read("stdin") == vectors.records(self.cases), "stdin is not what tools/model_vectors.py makes")
        self.assertEqual(len(self.lines), len(self.cases))

    def test_enough_of_each(self):
        asked = [case for case in self.cases if vectors.asked(case)]
        self.assertGreaterEqual(len(asked), 3000)
        for what in (vectors.COEFFICIENTS, vectors.STATUS):
            pairs = {(case.kind, case.code) for case in asked if case.what == what}
            self.assertEqual(len(pairs), 7 * 8)
        units = {case.code for case in self.cases if case.what == vectors.CONVERGED}
        self.assertTrue(units >= set(range(11)))

    def test_answers_that_need_no_oracle(self):
        for case, line in zip(self.cases, self.lines):
            if not vectors.asked(case):
                self.assertEqual(line, vectors.own_answer(case))

    def test_every_kind_of_answer_is_there(self):
        """Both tests of convergence, every status that a rule gives, and additions at either end."""
        words = {what: [line.split() for case, line in zip(self.cases, self.lines) if case.what == what]
                 for what in range(5)}
        self.assertEqual({w[0] for w in words[vectors.CONVERGED]}, {"0", "1"})
        self.assertEqual({w[0] for w in words[vectors.STATUS]}, {"-", "0", "1", "2"})
        additions = {(w[2] == "-", w[4] == "-") for w in words[vectors.COEFFICIENTS]}
        self.assertEqual(additions, {(True, True), (True, False), (False, True)})

    def test_the_factor_stays_in_its_range(self):
        low, high = vectors.bits(0.25), vectors.ONE
        inside = lambda p: not exact.less(p, low) and not exact.less(high, p) and p != exact.NAN
        for case, line in zip(self.cases, self.lines):
            if case.what == vectors.DAMPED and inside(case.floats[0]):
                self.assertTrue(inside(int(line, 16)), case.floats)


class Oracle(unittest.TestCase):
    @classmethod
    def setUpClass(cls):
        if oracle.lacking():
            raise unittest.SkipTest("no oracle is built: %s not there" % " and ".join(oracle.lacking()))
        status, said = oracle.build("recipe")
        if status != 0:
            raise AssertionError(said)

    def test_the_original_answers_so(self):
        found = "".join(line + "\n" for line in vectors.lines(vectors.cases()))
        self.assertTrue(read("stdout").decode("ascii") == found, "stdout is not what the original answers")


if __name__ == "__main__":
    unittest.main()
