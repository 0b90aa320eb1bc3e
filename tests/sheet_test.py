"""Refusals 1 to 4: the second reading of documents 01 and 02 against the stored list, and what crate sheet_list
replays."""
import os
import sys
import unittest

TOP = os.path.dirname(os.path.dirname(os.path.abspath(__file__)))
sys.path[:0] = [TOP, os.path.join(TOP, "tools")]

import oracle
from coordinator import sheet_bounds
import sheet_reading
import sheets
from stored import read


class Reading(unittest.TestCase):
    def test_agrees_with_the_oracle(self):
        listings = oracle.split(read("crates/replay/stdout").decode())
        cases = sheets.stored()
        self.assertEqual(len(listings), len(cases))
        for case, listing in zip(cases, listings):
            number, place = (int(x) for x in listing.split()[1:3])
            kind, x, y = sheet_bounds.reading(case.data)
            if 1 <= number <= 4:
                self.assertEqual((kind, x, y), ("R", number, place), case.name)
            else:
                self.assertEqual(kind, "G", case.name)

    def test_stored_files_are_what_the_generator_makes(self):
        for name, data in sheet_reading.files().items():
            self.assertTrue(read(name) == data, name + " is not what tools/sheet_reading.py makes")

    def test_reaches_every_refusal_and_both_sides_of_each_bound(self):
        answers = read("crates/sheet_list/stdout").decode().splitlines()
        for start in ("R 1 ", "R 2 0", "R 2 1", "R 3 ", "R 4 ", "G 64 ", "G 1 ", "G 2 0"):
            self.assertTrue(any(a.startswith(start) for a in answers), start)
        self.assertTrue(any(a.startswith("G ") and a.endswith(" 128") for a in answers))
        self.assertGreaterEqual(len(answers), 700)

    def cut(self, cuts, whole):
        """`whole` has the reading of each beginning that ends with a record."""
        for n, data in enumerate(cuts):
            refused = "R", 1, max([0] + [end for end in whole if end <= n])
            self.assertEqual(sheet_bounds.reading(data), whole.get(n, refused), n)

    def test_each_cut_is_refused_at_its_record(self):
        self.cut(sheet_reading.cuts(), {29: ("R", 2, 0), 74: ("G", 1, 0), 119: ("G", 2, 0), 168: ("G", 2, 1)})

    def test_each_cut_of_a_sheet_with_a_pd(self):
        self.cut(sheet_reading.cuts((5.0, 20.0)), {29: ("R", 2, 0), 47: ("R", 2, 0), 92: ("G", 1, 0),
                                                   137: ("G", 2, 0), 186: ("G", 2, 1)})

    def test_what_is_wrong_with_a_pd(self):
        faults = lambda minimum, required: sheet_bounds.faults(
            b"PD", dict(minimum=minimum, required=required), 1)
        for pair in ((5.0, 20.0), (5.0, 5.0), (-0.0, 0.0), (0.0, -0.0), (-2.0 ** 40, 2.0 ** 40)):
            self.assertEqual(faults(*pair), [])
        self.assertEqual(faults(20.0, 5.0), [("required", "the minimum pressure or more")])
        bound = "a finite number of at most 2^40 in magnitude"
        self.assertEqual(faults(float("nan"), float("inf")), [("minimum", bound), ("required", bound)])


if __name__ == "__main__":
    unittest.main()
