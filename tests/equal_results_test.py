"""Two results that meet a contract are equal: docs/EQUAL.md is what tools/equal_results.py reads from the contracts, and
the tool sees a contract that leaves something open."""
import os
import sys
import tempfile
import unittest

TOP = os.path.dirname(os.path.dirname(os.path.abspath(__file__)))
sys.path.insert(0, os.path.join(TOP, "tools"))

import equal_results
from checks import read


class Contracts(unittest.TestCase):
    @classmethod
    def setUpClass(cls):
        cls.found = list(equal_results.functions(TOP))

    def test_the_paper_is_what_the_tool_makes(self):
        self.assertEqual(read(os.path.join(TOP, equal_results.PAPER)), equal_results.table(self.found),
                         "docs/EQUAL.md is not what tools/equal_results.py makes")

    def test_each_function_has_the_form_or_is_an_exception(self):
        self.assertGreater(len(self.found), 150)
        self.assertEqual(equal_results.broken(self.found, read(os.path.join(TOP, "docs", "EXCEPTIONS.md"))), [])

    def test_what_it_reads(self):
        of = {(f.crate, f.name): f for f in self.found}
        solve = of["solver", "solve"]
        self.assertEqual((solve.result, solve.buffers, solve.definitions),
                         ("Answer", ["heads", "demands", "flows", "statuses", "entries", "scratch"], ["solve_of"]))
        self.assertEqual(of["words", "put_number"].settled, {"result", "out"})
        self.assertEqual(of["sale", "sell"].fields, {"answer", "verdict"})
        self.assertEqual(of["standard", "put_item"].settled, {"out"})


SPECS = """pub record Both : Type 0 where
  pub first : List ℕ
  pub second : List ℕ

abbrev pub both : List ℕ → List ℕ → Both
both a b = record { first = a; second = b }

abbrev pub twice : List ℕ → List ℕ → Both
twice a b = record { first = a; second = a }

unfoldable pub made : List ℕ → ℕ → List ℕ
made a n = a

pub record Put (old : List ℕ) (n : ℕ) (new : List ℕ) (end : ℕ) : Type 0 where
  pub bytes : new ≡ made old n
  pub next : end ≡ n

pub record Long (new : List ℕ) (end : ℕ) : Type 0 where
  pub next : end ≤ length new
"""
USES = "ghost use Rattle.a.specs.A.{Both, both, twice, made, Put, Long};\n"
STRUCT = "pub struct Two {\n    pub x: u8,\n    y: u8,\n}\n\n"


def read_contract(head, *clauses):
    """The only function of a made-up crate."""
    with tempfile.TemporaryDirectory() as root:
        files = {"crates.txt": "a:\n", "crates/a/specs/A.antt": SPECS,
                 "crates/a/src/lib.rt": USES + STRUCT + "pub fn f%s\n%s{\n    0\n}\n" % (
                     head, "".join("    ensures %s\n" % clause for clause in clauses))}
        for name, text in files.items():
            os.makedirs(os.path.dirname(os.path.join(root, name)), exist_ok=True)
            with open(os.path.join(root, name), "w", encoding="utf-8") as file:
                file.write(text)
        return next(equal_results.functions(root))


LENT = "(x: &mut [u8], y: &mut [u8], n: usize) -> usize"
X = "{ x.new ≡ made x.old n }"
Y = "{ y.new ≡ made y.old n }"
N = "{ result ≡ n }"


class MadeUp(unittest.TestCase):
    def has(self, head, *clauses):
        self.assertEqual(read_contract(head, *clauses).faults, [], clauses)

    def lacks(self, what, head, *clauses):
        faults = read_contract(head, *clauses).faults
        self.assertEqual([fault for fault in faults if fault.startswith("nothing settles")],
                         ["nothing settles " + name for name in what.split()], clauses)
        return faults

    def test_of_the_form(self):
        self.has(LENT, X, Y, N)
        self.has(LENT, "first { (x.new ≡ made x.old n) × (result ≡ n) }", Y)
        self.has(LENT, "{ both x.new y.new ≡ both (made x.old n) y.old }", N)
        self.has(LENT, "{ record { first = x.new; second = y.new } ≡ both x.old y.old }", N)
        self.has(LENT, "{ Put x.old n x.new result }", Y)
        self.has("(x: &mut [u8])", "{ ((b : List ℕ) → both x.new b ≡ both x.old b) }")
        self.has("(n: u8) -> Two", "{ (result.x ≡ n) × (result.y ≡ n) }")
        self.has("(n: u8)")

    def test_more_than_the_form(self):
        self.has(LENT, X, Y, N, "{ result ≤ length x.new }",
                 "{ length x.new ≡ length x.old }")

    def test_a_buffer_that_is_left_out(self):
        self.lacks("y", LENT, X, N)
        self.lacks("x y", LENT, N)
        self.lacks("y", LENT, "{ both x.new y.old ≡ both x.old y.old }", N)
        self.lacks("y", LENT.replace("y: &mut", "y: &'a mut").replace("(x", "<'a>(x", 1), X, N)

    def test_a_result_that_is_left_out(self):
        self.lacks("result", LENT, X, Y)
        self.lacks("result", "(n: u8) -> Two", "{ result.x ≡ n }")

    def test_no_equation(self):
        self.assertIn("no equation", self.lacks("result", LENT, X, Y, "{ result ≤ n }"))
        self.lacks("result", LENT, X, Y, "{ (result ≡ n) ⊎ (result ≡ 0) }")
        self.lacks("result", LENT, X, Y, "{ Long x.new result }")
        self.lacks("result", LENT, X, Y, "{ (result ≡ n }")

    def test_a_right_side_that_names_what_comes_out(self):
        why = "a right side that names what comes out"
        self.assertIn(why, self.lacks("y", LENT, X, "{ y.new ≡ made x.new n }", N))
        self.assertIn(why, self.lacks("y", LENT, X, "{ y.new ≡ made y.old result }", N))
        self.assertIn(why, self.lacks("result", LENT, X, Y, "{ result ≡ length x.new }"))

    def test_a_left_side_that_cannot_be_read_back(self):
        self.lacks("result", LENT, X, Y, "{ result + 1 ≡ n }")
        self.lacks("x", LENT, "{ made x.new 0 ≡ x.old }", Y, N)
        self.lacks("x y", LENT, "{ twice x.new y.new ≡ twice x.old y.old }", N)
        self.lacks("x", LENT, "{ record { first = x.new } ≡ both x.old y.old }", Y, N)

    def test_a_condition(self):
        self.lacks("result", LENT, X, Y, "{ ((n ≡ 0) → result ≡ n) }")
        self.lacks("result", LENT, X, Y, "{ ((p : ⊥) → result ≡ n) }")
        self.lacks("result", LENT, X, Y, "{ ((result : List ℕ) → result ≡ n) }")

    def test_exceptions(self):
        bad, good = read_contract(LENT, X, N), read_contract(LENT, X, Y, N)
        self.assertEqual(len(equal_results.broken([bad], "")), 1)
        self.assertEqual(equal_results.broken([bad], "the results of a's `f`"), [])
        self.assertEqual(equal_results.broken([good], "a's `f` and `g`"),
                         ["a f: EXCEPTIONS.md names it without need", "a g: EXCEPTIONS.md names it without need"])
        self.assertNotIn("| `f` |", equal_results.table([bad]))
        self.assertIn("| a | `f` | `usize` | x, y | `made` |", equal_results.table([good]))


if __name__ == "__main__":
    unittest.main()
