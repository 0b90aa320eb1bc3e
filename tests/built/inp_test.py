"""EPANET texts through the proved programs `epanet` and `inp_list`, beside tools/inp_reader.py, which shares no code with
them: 2,000 by seed, every text of tests/inp_test.py, and odd ones; and examples/terraces.inp, solved, beside a hand
calculation of one pipe and what docs/INP.md says of it."""
import importlib.util
import os
import struct
import sys
import unittest
from unittest import mock

TOP = os.path.dirname(os.path.dirname(os.path.dirname(os.path.abspath(__file__))))
sys.path[:0] = [TOP, os.path.join(TOP, "tools")]
# what tests/inp_test.py takes from its own folder
sys.path.append(os.path.join(TOP, "tests"))

import inp_files  # noqa: E402
import inp_reader  # noqa: E402
from coordinator import asking, limits, programs  # noqa: E402
from coordinator.sheet_format import STATUSES, pack_many  # noqa: E402
from stored import read  # noqa: E402


def number(digits):
    return struct.unpack(">d", bytes.fromhex(digits))[0]


SEED, COUNT = 4, 2000
# what `inp_list` takes, and what `epanet` does
SHORT, LONG = 65536, 1 << 21


def hand_made():
    """Every text that the tests of tests/inp_test.py hand to the reader."""
    spec = importlib.util.spec_from_file_location("inp_by_hand", os.path.join(TOP, "tests", "inp_test.py"))
    tests = importlib.util.module_from_spec(spec)
    spec.loader.exec_module(tests)
    seen, read_text = {}, inp_reader.read

    def noted(text):
        seen[text] = None
        return read_text(text)

    with mock.patch("inp_reader.read", noted):
        for name in ("Lines", "Numbers", "Sheets"):
            result = unittest.TestResult()
            unittest.defaultTestLoader.loadTestsFromTestCase(getattr(tests, name)).run(result)
            assert result.wasSuccessful(), result.failures + result.errors
    return list(seen)


class TwoReaders(unittest.TestCase):
    def agree(self, texts):
        """What the program says of each, all at once."""
        expected = [inp_reader.printed(text) + b"--\n" for text in texts]
        said = programs.run("inp_list", pack_many(texts))
        if said != b"".join(expected):
            at = 0
            for text, words in zip(texts, expected):
                self.assertEqual(said[at:at + len(words)], words, text)
                at += len(words)
            self.fail("more is said than was asked")

    def test_by_seed(self):
        cases = list(inp_files.cases(SEED, COUNT))
        met = {case.refused[0] if case.refused else case.kind for case in cases}
        self.assertLessEqual({10, 11, 12, "good", "odd", "changed"}, met)
        self.agree([case.text for case in cases])

    def test_every_text_that_was_made_by_hand(self):
        texts = hand_made()
        self.assertGreater(len(texts), 400)
        self.agree([text for text in texts if len(text) <= SHORT])
        for text in texts:
            if SHORT < len(text) <= LONG:
                self.assertEqual(programs.run("epanet", text), inp_reader.printed(text))

    def test_odd_ones(self):
        good = read("examples/terraces.inp")
        long_line = b";" + b"x" * (1 << 20)
        for text in (b"", b"\n", b"\r\n", good, good.replace(b"\n", b"\r\n"), good.rstrip(b"\n"), b"\n" * 1000000 + good,
                     long_line + b"\n" + good, good + b"\n[TITLE]\n" + b"word " * 200000, b"[JUNCTIONS]\n" + b"A\0B 1\n" * 2,
                     b"[JUNCTIONS]\n\xc3\xa9 1\n\xc3\xa9 2\n", b"\xef\xbb\xbf" + good, bytes(range(256)) * 40,
                     b"[JUNCTIONS]\n" + b"n" * 31 + b" 1\n", b"[JUNCTIONS]\n" + b"n" * 32 + b" 1\n",
                     b"[JUNCTIONS]\n" + b"".join(b"J%d 1\n" % i for i in range(100000))):
            self.assertEqual(programs.run("epanet", text), inp_reader.printed(text), text[:60])

    def test_a_text_over_two_mib(self):
        for many, said in ((LONG, inp_reader.printed(b"\n" * LONG)), (LONG + 1, b"X\n")):
            self.assertEqual(programs.run("epanet", b"\n" * many), said)


class Terraces(unittest.TestCase):
    @classmethod
    def setUpClass(cls):
        said = programs.run("epanet", read("examples/terraces.inp"))
        first, rest = said.split(b"\n", 1)
        nodes, _, size = map(int, first.split()[1:])
        names = rest[size:].split()
        cls.made = inp_reader.Made(rest[:size], names[:nodes], names[nodes:])
        (reply,) = asking.replies(programs.run("verdict", asking.question(cls.made.sheet, limits.USUAL)).decode())
        lines = [line.split() for line in reply.text.splitlines()]
        cls.verdict, cls.first = reply.verdict, lines[0]
        nodes, links = ([words for words in lines if words[0] == mark] for mark in "NL")
        cls.heads = {name.decode(): number(words[2]) * 0.3048 for name, words in zip(cls.made.nodes, nodes)}
        cls.drawn = {name.decode(): number(words[3]) * 28.317 for name, words in zip(cls.made.nodes, nodes)}
        cls.flows = {name.decode(): number(words[2]) * 28.317 for name, words in zip(cls.made.links, links)}
        cls.statuses = {name.decode(): STATUSES[int(words[3])] for name, words in zip(cls.made.links, links)}

    def test_it_is_solved_without_a_repair_and_may_be_sold(self):
        self.assertEqual((self.first, self.verdict), ("A 0 0 6 0 0".split(), 0))

    def test_both_valves_regulate(self):
        self.assertEqual((self.statuses["reducer"], self.statuses["keeper"]), ("Active", "Active"))
        self.assertAlmostEqual(self.heads["steps"] - 55.0, 35.0, 5)
        self.assertAlmostEqual(self.heads["mill"] - 74.0, 42.0, 5)

    def test_one_pipe_by_hand(self):
        """In metres and cubic metres per second, with the textbooks' 10.67, which they round."""
        by_hand = 10.67 * 310 * (self.flows["north"] / 1000) ** 1.852 / (130 ** 1.852 * 0.2 ** 4.871)
        lost = self.heads["gate"] - self.heads["vines"]
        self.assertLess(abs(lost - by_hand), 0.001)

    def test_every_other_pipe_too(self):
        """Length in metres, diameter in millimetres, C; and 10.667, to which the Rust's 4.727 comes."""
        lines = read("examples/terraces.inp").decode().split("[PIPES]")[1].split("[VALVES]")[0].splitlines()
        pipes = [line.split() for line in lines if line.strip() and not line.startswith(";")]
        self.assertEqual(len(pipes), 10)
        for name, start, end, length, diameter, roughness, *_ in pipes:
            flow = (self.flows[name] / 1000) ** 1.852
            by_hand = 10.667 * float(length) * flow / (float(roughness) ** 1.852 * (float(diameter) / 1000) ** 4.871)
            self.assertLess(abs(self.heads[start] - self.heads[end] - by_hand), 0.001, name)

    def test_the_flows_add_up_at_the_vines(self):
        self.assertAlmostEqual(self.flows["north"], 6.5 + self.flows["east"] + self.flows["reducer"], 5)
        self.assertAlmostEqual(self.flows["reducer"], 7.0 + 3.5 + 6.0, 5)
        self.assertAlmostEqual(self.flows["keeper"], self.drawn["tank"], 5)

    def test_the_page_has_these_figures(self):
        page = read("docs/INP.md").decode()
        gate, vines = self.heads["gate"], self.heads["vines"]
        for words in ("solved in %s trials without a repair" % self.first[3],
                      "the tank gets %.2f L/s" % self.drawn["tank"], "%.3f L/s in it" % self.flows["north"],
                      "%.3f m at `gate`" % gate, "%.3f m at `vines`" % vines, "%.3f m are lost" % (gate - vines),
                      "%.3f on to `mill`" % self.flows["east"]):
            self.assertIn(words, page)


if __name__ == "__main__":
    unittest.main()
