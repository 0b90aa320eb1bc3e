"""The evenings that crate evening keeps (tools/evenings.py): made anew, what document 02 says of them outright, what they
reach, and the oracle's listings where it can be built."""
import os
import re
import sys
import unittest

ROOT = os.path.dirname(os.path.dirname(os.path.abspath(__file__)))
sys.path[:0] = [ROOT, os.path.join(ROOT, "tools")]

import evenings  # noqa: E402
import oracle  # noqa: E402
import sheets  # noqa: E402
from coordinator.sheet_bounds import reading  # noqa: E402
from coordinator.sheet_format import decode  # noqa: E402
from stored import read  # noqa: E402


def told():
    return oracle.split(read("crates/evening/stdout").decode("ascii"))


def rows_told(text):
    """The listing of each row, or none of a refused call."""
    parts = text.split("R ")
    if parts[0]:
        return []
    found = [part.split("\n", 1) for part in parts[1:]]
    if [number for number, _ in found] != [str(r) for r in range(len(found))]:
        raise ValueError("rows out of order")
    return [oracle.Listing(listing) for _, listing in found]


def call_told(text):
    """Number and place of a refused call."""
    letter, number, place, *rest = text.split()
    if (letter, rest, text.count("\n")) != ("A", ["0"] * 3, 1):
        raise ValueError("no line of a refused call: " + text)
    return int(number), int(place)


class Kept(unittest.TestCase):
    @classmethod
    def setUpClass(cls):
        cls.evenings, cls.texts = evenings.kept(), told()
        cls.pairs = list(zip(cls.evenings, cls.texts))

    def test_the_generator_makes_them_anew(self):
        self.assertEqual(read("crates/evening/stdin"), evenings.asked(self.evenings))

    def test_one_answer_an_evening(self):
        self.assertEqual(len(self.texts), len(self.evenings))
        self.assertEqual(len({one.name for one in self.evenings}), len(self.evenings), "a name is used twice")

    def test_what_document_02_states(self):
        stated = 0
        for one, text in self.pairs:
            rows = rows_told(text)
            if one.refused is not None:
                self.assertEqual(call_told(text), one.refused, one.name)
            if one.numbers is not None:
                self.assertEqual([row.number for row in rows], one.numbers, one.name)
            stated += one.refused is not None or one.numbers is not None
            self.assertIn(len(rows), (0, one.rows), one.name)
        self.assertGreater(stated, 60)

    def test_a_refused_sheet_by_the_second_reading(self):
        for one, text in self.pairs:
            kind, number, place = reading(one.sheet)
            if kind == "R":
                self.assertEqual(call_told(text), (number, place), one.name)
            elif not rows_told(text):
                self.assertEqual(call_told(text)[0], 14, one.name)

    def test_a_bad_demand_by_the_second_reading(self):
        bad = 0
        for one, text in self.pairs:
            for r, row in enumerate(rows_told(text)):
                kind, number, place = reading(evenings.with_row(one.sheet, one.row(r)))
                if kind == "R":
                    self.assertEqual((row.number, row.place), (number, place), one.name)
                    bad += 1
                else:
                    self.assertIn(row.number, (0, 6, 7, 8), one.name)
        self.assertGreater(bad, 30)

    def test_they_reach(self):
        calls = {call_told(text) for text in self.texts if not rows_told(text)}
        self.assertTrue({number for number, _ in calls} >= {1, 2, 3, 4})
        self.assertEqual({place for number, place in calls if number == 14}, {0, 1, 2})
        solved = [rows_told(text) for text in self.texts if rows_told(text)]
        self.assertTrue({len(rows) for rows in solved} >= {1, 2, 32})
        self.assertEqual({row.number for rows in solved for row in rows}, {0, 3, 6, 7, 8})
        for number in (3, 6, 7, 8):
            self.assertTrue(any(rows[k].number == number and rows[k - 1].number == rows[k + 1].number == 0
                                for rows in solved for k in range(1, len(rows) - 1)), number)
        for repairs in ("freed", "grounded"):
            self.assertTrue(any(getattr(rows[k], repairs) and not getattr(rows[k + 1], repairs)
                                for rows in solved for k in range(len(rows) - 1)), repairs)

    def test_the_same_row_again_tells_the_same(self):
        again = [rows_told(text) for one, text in self.pairs if one.name.endswith("-again")]
        self.assertGreater(len(again), 4)
        for rows in again:
            self.assertEqual(vars(rows[0]), vars(rows[-1]))
            self.assertNotEqual(vars(rows[0]), vars(rows[1]))

    def test_moderate(self):
        self.assertLess(len(read("crates/evening/stdin")) + len(read("crates/evening/stdout")), 300000)

    @unittest.skipIf(oracle.lacking(), "to build the oracle there is lacking: " + ", ".join(oracle.lacking()))
    def test_the_oracle_tells_them_anew(self):
        status, said = oracle.build("recipe")
        self.assertEqual(status, 0, said)
        for name, data in evenings.files().items():
            self.assertTrue(read(name) == data, name + " is not what tools/evenings.py makes")


class Paper(unittest.TestCase):
    def test_what_it_says_of_the_form(self):
        names = {}
        exec(re.search(r"```python\n(.*?)```", read("docs/SHEETS.md").decode(), re.S).group(1), names)
        s = sheets.EXAMPLES["night"]
        rows = [[0.0, 0.1, 0.2, 0.0], [0.0, 0.3, -0.0, 1e9]]
        self.assertEqual(names["asked"](s.encode(), rows), evenings.asked([evenings.of_rows("two", "", s, rows)]))


class Rows(unittest.TestCase):
    def test_a_row_changes_demands_alone(self):
        for one in evenings.kept():
            if evenings.refusal(one, "A 0 0") is not None or reading(one.sheet)[0] == "R":
                continue
            before = decode(one.sheet)
            own = evenings.packed([fields["demand"] for _, mark, fields in before if mark == b"ND"])
            self.assertEqual(evenings.with_row(one.sheet, own), one.sheet)
            data = evenings.with_row(one.sheet, one.row(0))
            after = decode(data)
            self.assertEqual(len(data), len(one.sheet))
            for (at, mark, old), (place, new_mark, new) in zip(before, after):
                self.assertEqual((at, mark), (place, new_mark))
                if mark == b"ND":
                    old, new = (dict(fields, demand=None) for fields in (old, new))
                self.assertEqual(repr(old), repr(new))

    def test_seeds_give_the_same_bytes(self):
        some = [evenings.seeded(5, i) for i in range(40)]
        self.assertEqual(evenings.asked(some), evenings.asked([evenings.seeded(5, i) for i in range(40)]))
        self.assertGreater(len({one.rows for one in some}), 5)


if __name__ == "__main__":
    unittest.main()
