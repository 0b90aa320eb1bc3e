"""Answers name a place by what happens there (`c.give.ensures`, `c.in-Balanced.is`), and no proof walks back to one. What
is still reached by four positions or more, as in a tuple, has a name: the line with the chain of steps does nothing else
than name it, by a `let` or as a function of the place that it starts from."""
import glob
import os
import re
import unittest

TOP = os.path.dirname(os.path.dirname(os.path.abspath(__file__)))
CHAIN = re.compile(r"(?:\.(?:before|[0-9]+)(?![\w-])){4,}")
PLACE = r"\(?[\w-]+(?:\.[\w-]+)*\)?"
NAMED = (re.compile(r"^\s*let [\w-]+(?: : [^=]+)? = " + PLACE + r"(?: in)?$"), re.compile(r"^\s*[\w-]+(?: [\w-]+)* = " + PLACE + "$"))
LET = re.compile(r"let [\w-]+(?: : [^=]+)? = " + PLACE + " in")
# one step back from where a step is, and one more
BACK = re.compile(r"\.before\.before(?![\w-])")


def unnamed(line):
    """Whether a chain stands in the midst of something else."""
    return bool(CHAIN.search(LET.sub("", line))) and not any(form.match(line) for form in NAMED)


def lines():
    """The lines of all proofs, each with its file and number."""
    files = glob.glob(os.path.join(TOP, "crates", "*", "proofs", "**", "*.antt"), recursive=True)
    for path in sorted(files):
        with open(path, encoding="utf-8") as file:
            for number, line in enumerate(file, 1):
                yield "%s:%d" % (os.path.relpath(path, TOP), number), line.rstrip("\n")


class Places(unittest.TestCase):
    def test_no_chain_stands_unnamed(self):
        found = list(lines())
        self.assertGreater(len({place.split(":")[0] for place, _ in found}), 500)
        self.assertEqual([place for place, line in found if unnamed(line)], [])

    def test_no_proof_walks_back(self):
        self.assertEqual([place for place, line in lines() if BACK.search(line)], [])

    def test_what_counts_as_named(self):
        chain = ".1" * 4
        for line in ("    let start = c%s in" % chain, "start_of c = c%s" % chain, "f c = let s = c%s in g s" % chain, "f c = g c.1.1.1",
                     "f c = g c.requires.bounds.1", "f c = g (c.args.l.nodes, c.give.ensures.heads)"):
            self.assertFalse(unnamed(line), line)
        for line in ("f c = g c%s.ensures" % chain, "    omega (arith, t%s)" % (".1" * 5), "f c = let s = h c%s in g s" % chain, "f c = g c.0.1.0.1"):
            self.assertTrue(unnamed(line), line)

    def test_what_counts_as_walking_back(self):
        self.assertTrue(BACK.search("f c = g c.before.before.args"))
        for line in ("f l = g l.before l.i", "f c = c.places_before.before_all"):
            self.assertFalse(BACK.search(line), line)


if __name__ == "__main__":
    unittest.main()
