"""What `./desk --json` prints, held to its schema: a list with an entry for every file, answered or not, no key that the
schema and docs/DESK.md do not name, and every float twice."""
import json
import os
import re
import sys
import unittest
from unittest import mock

TOP = os.path.dirname(os.path.dirname(os.path.abspath(__file__)))
sys.path[:0] = [TOP, os.path.join(TOP, "tools")]

from coordinator import as_json, asking
from desk_test import BY_NAME, answer, desk, example, row
from json_schema import Checker, keys
from stored import read

SCHEMA = json.loads(read("docs/desk.schema.json"))


def documented():
    """The keys of the tables in docs/DESK.md under "JSON"."""
    text = read("docs/DESK.md").decode()
    section = text[text.index("\n## JSON\n"):]
    section = section[:section.index("\n## ", 5)]
    rows = [line for line in section.splitlines() if line.startswith("| ")]
    return {word for line in rows for word in re.findall(r"`(\w+)`", line)}


def floats_without_bits(value):
    if isinstance(value, list):
        return [name for one in value for name in floats_without_bits(one)]
    if not isinstance(value, dict):
        return []
    own = [name for name, one in value.items() if isinstance(one, float) and name + "_bits" not in value]
    return own + [name for one in value.values() for name in floats_without_bits(one)]


class Schema(unittest.TestCase):
    def fits(self, text):
        found = json.loads(text)
        self.assertEqual(Checker(SCHEMA).faults(found), [])
        return found

    def test_every_stored_case_fits(self):
        self.assertEqual(len(self.fits(as_json.document([answer(name) for name in BY_NAME]))), len(BY_NAME))

    def test_hydrants_fit(self):
        (found,) = self.fits(as_json.document([row(64.0, 16.0, (-1.0, 0.5), unit="LPS")]))
        self.assertIn("lack_cfs", found["nodes"][1])

    def test_every_float_stands_twice(self):
        found = json.loads(as_json.document([answer("june-both-repaired"), row(64.0, 16.0)]))
        self.assertEqual(set(floats_without_bits(found)), {"flow_per_cfs", "pressure_per_ft"})

    def test_every_key_is_in_the_papers_and_every_key_of_the_papers_is_there(self):
        self.assertEqual(documented(), keys(SCHEMA))

    def test_what_does_not_fit_is_seen(self):
        (found,) = json.loads(as_json.document([answer("june-both-repaired")]))
        for change in ({"exit_status": 1}, {"solved": 1}, {"colour": "red"}, {"units": None}, {"trials": 0.5}, {"record": [{}]},
                       {"limits": dict(found["limits"], head_ft_bits="0")}, {"error": "none"}):
            self.assertTrue(Checker(SCHEMA).faults([dict(found, **change)]), change)
        for name in found:
            self.assertTrue(Checker(SCHEMA).faults([{key: found[key] for key in found if key != name}]), name)

    def test_an_entry_for_every_file(self):
        names = ["/none/such.sheet", example("june"), "/dev/zero", example("refused")]
        status, out, err = desk("--json", *names)
        found = self.fits(out)
        self.assertEqual((status, [one["sheet"] for one in found]), (2, names))
        self.assertEqual([one["exit_status"] for one in found], [2, 3, 2, 1])
        self.assertEqual(found[0]["error"], "/none/such.sheet cannot be read: No such file or directory")
        self.assertEqual(len(err.splitlines()), 2)
        self.assertEqual(self.fits(desk("--json", "/none/such.sheet")[1])[0]["may_be_sold"], False)

    def test_and_where_there_is_no_program(self):
        gone = mock.Mock(side_effect=asking.NotToBeHad("no program"))
        with mock.patch("desk_test.stored_ask", gone):
            status, out, err = desk("--json", example("june"), example("looped"), "/none")
        self.assertEqual((status, [one["error"] for one in self.fits(out)][:2], gone.call_count), (2, ["no program"] * 2, 1))
        self.assertEqual(err.splitlines()[0], "desk: no program")

    def test_one_entry_where_the_arguments_are_wrong(self):
        june = example("june")
        for args, words in ((["--json", "--colour", june], "unrecognized arguments: --colour"),
                            (["--least", "ten m", "--json", june], "argument --least: ten m is no number"),
                            (["--json", "--leave-out", "PUMPS", june, "/none"], "argument --leave-out: [PUMPS] changes the hydraulics"),
                            (["--json=yes", june], "argument --json: "), (["--json"], "name a scheme"),
                            (["--json", "--explain", june], "--explain goes alone"),
                            (["--bookings", "week.csv", "--json", june, june], "--bookings goes with one scheme"),
                            (["--json", "--sheet", "a.txt", "-o", "a.sheet"], "--sheet and --text go with -o alone")):
            with self.subTest(args):
                status, out, err = desk(*args)
                (found,) = self.fits(out)
                self.assertEqual((status, found["sheet"], found["exit_status"], found["may_be_sold"]), (2, None, 2, False))
                self.assertIn(words, found["error"])
                self.assertEqual(err.splitlines()[-1], "desk: error: " + found["error"])

    def test_and_none_for_who_did_not_ask_for_it(self):
        for args in (["--colour", example("june")], ["--explain", "--least", "1m", "--", "--json"]):
            self.assertEqual(desk(*args)[:2], (2, ""))


if __name__ == "__main__":
    unittest.main()
