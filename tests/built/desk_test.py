"""`./desk` on every example through the proved program. Run once everything is proved:

    python3 -m unittest discover -s tests/built -p '*_test.py'
"""
import json
import os
import subprocess
import sys
import tempfile
import unittest

TOP = os.path.dirname(os.path.dirname(os.path.dirname(os.path.abspath(__file__))))
sys.path[:0] = [TOP, os.path.join(TOP, "tools")]

import sheets  # noqa: E402
from coordinator.sheet_format import Sheet  # noqa: E402

NOT_FOR_SALE = "; these pressures must not be sold on"
FOR_SALE = "; these pressures may be sold"
# first line and exit status of each example
EXPECTED = {
    "dry-week/fixed-demands": ("solved in 4 trials" + FOR_SALE, 0),
    "dry-week/giving-way": ("solved in 5 trials; 4 hydrants get less than they ask, worst node 4, which lacks 3.68 of "
                            "7.00 LPS" + FOR_SALE, 0),
    "dry-week/no-pressure": ("solved in 1 trial, but what 1 hydrant draws does not fit the pressure there, worst node "
                             "1, which draws 1.0000 cfs where the pressure allows 0.0000 cfs" + NOT_FOR_SALE, 3),
    "document01": ("solved in 2 trials, but with a repair: node 1 was tied to a reservoir that is not there; "
                   "nothing determines the head of node 1" + NOT_FOR_SALE, 3),
    "june": ("solved in 13 trials, but with a repair: the PRV at link 2 (2 -> 3) was freed" + NOT_FOR_SALE, 3),
    "june-undetermined": ("solved in 2 trials, but nothing determines the heads of nodes 1 and 2"
                          + NOT_FOR_SALE, 3),
    "june-unrepaired": ("solved in 8 trials" + FOR_SALE, 0),
    "looped": ("solved in 5 trials" + FOR_SALE, 0),
    "night": ("solved in 7 trials" + FOR_SALE, 0),
    "refused": ("refused, number 3 at place 168: link 1 (pipe 0 -> 7): end is 7 but must be the number of a "
                "node, 0 to 1", 1),
}


def example(name):
    return os.path.join("examples", name + ".sheet")


def desk(*args):
    done = subprocess.run(["./desk", *args], cwd=TOP, stdout=subprocess.PIPE, universal_newlines=True, check=False)
    return done.returncode, done.stdout


def hill(metres, **options):
    """A pond at 100 m and a hydrant so far above it, one pipe between them."""
    s = Sheet(unit="LPS", **options)
    s.reservoir(head=100.0 / 0.3048)
    s.junction(elevation=(100.0 + metres) / 0.3048, demand=0.4)
    s.pipe(0, 1, resistance=20.0)
    return s.encode()


class Made(unittest.TestCase):
    """Sheets that are no examples."""

    def first(self, data, *args):
        """First line, exit status and `may_be_sold`, by the page and by JSON."""
        with tempfile.NamedTemporaryFile(suffix=".sheet") as file:
            file.write(data)
            file.flush()
            status, page = desk(*args, file.name)
            (found,) = json.loads(desk("--json", *args, file.name)[1])
        self.assertEqual((found["first_line"], found["exit_status"]), (page.splitlines()[0], status))
        self.assertEqual(found["may_be_sold"], found["verdict"]["number"] == 0)
        return found["first_line"], status, found["verdict"]

    def test_a_hydrant_without_pressure_is_not_sold(self):
        for metres in (37.85, 1e6):
            line, status, verdict = self.first(hill(metres))
            self.assertEqual((status, verdict), (3, {"number": 8, "place": 1}))
            self.assertTrue(line.endswith("the lowest allowed is 0.00 m" + NOT_FOR_SALE), line)
        self.assertIn(" but hydrant 1 has -", line)

    def test_a_lowest_pressure(self):
        for least, status in (("18m", 0), ("19m", 3), ("26psi", 0), ("27psi", 3)):
            self.assertEqual(self.first(hill(-20.0), "--least", least)[1], status, least)

    def test_a_coarse_accuracy_is_not_sold(self):
        line, status, verdict = self.first(hill(-20.0, accuracy=1000.0))
        self.assertEqual((status, verdict), (3, {"number": 5, "place": 0}))
        self.assertIn("the flow of link 0 (pipe 0 -> 1), ", line)
        self.assertEqual(self.first(hill(-20.0, accuracy=1000.0), "--within", "10ft")[1], 0)
        self.assertEqual(self.first(hill(-20.0))[1], 0)

    def test_tolerances_of_nothing(self):
        self.assertEqual(self.first(sheets.EXAMPLES["looped"].encode(), "--within=0ft,0cfs")[1], 3)

    def test_what_moved_when_the_trials_were_used_up(self):
        for name, words in (("real-77-120", "; it may be that a PRV or a PSV changes its status again and again: look at link 1 "),
                            ("real-77-144", "; no trial ends it at any accuracy, so a PRV or a PSV changes "),
                            ("real-77-162", "; between trial 10 and trial 30 ")):
            _, seed, number = name.split("-")
            data = sheets.MAKERS["real"](int(seed), int(number)).data
            line, status, verdict = self.first(data)
            self.assertEqual((status, verdict), (1, {"number": 1, "place": 8}), name)
            self.assertIn(" trials gave no answer" + words, line)

    def test_a_file_longer_than_any_sheet(self):
        good = hill(-20.0)
        for data, line in ((bytes(70000), "refused, number 1 at place 0: "),
                           (good + b"LK" * 40000, "refused, number 1 at place ")):
            found, status, verdict = self.first(data)
            self.assertTrue(found.startswith(line), found)
            self.assertEqual((status, verdict), (1, {"number": 1, "place": 1}))


    def test_a_file_of_100_mb_is_refused_and_not_held(self):
        # a process of its own asks the desk: what a child is said to hold at the most begins with what its parent held
        asks = ("import resource, subprocess, sys\n"
                "asked = subprocess.run(['./desk', sys.argv[1]], stdout=subprocess.PIPE, universal_newlines=True)\n"
                "print(asked.returncode, resource.getrusage(resource.RUSAGE_CHILDREN).ru_maxrss)\n"
                "print(asked.stdout, end='')\n")
        with tempfile.NamedTemporaryFile(suffix=".sheet") as file:
            file.truncate(100 * 1000 * 1000)
            told = subprocess.run([sys.executable, "-c", asks, file.name], cwd=TOP, stdout=subprocess.PIPE,
                                  universal_newlines=True, check=True).stdout
        counts, said = told.splitlines()[:2]
        status, held = map(int, counts.split())
        self.assertEqual((said, status), (
            "refused, number 1 at place 0: the file is longer than any sheet, and no record can be read at byte 0", 1))
        self.assertLess(held, 80000)


class Texts(unittest.TestCase):
    def test_a_text_is_solved_as_it_is(self):
        for name in ("fixed-demands", "giving-way", "no-pressure"):
            path = os.path.join("examples", "dry-week", name)
            (sheet, text) = json.loads(desk("--json", path + ".sheet", path + ".txt")[1])
            self.assertEqual([node["head_ft_bits"] for node in text["nodes"]], [node["head_ft_bits"] for node in sheet["nodes"]])
            self.assertTrue(all(node["name"] for node in text["nodes"]))

    def test_a_text_under_a_sheets_name(self):
        with tempfile.NamedTemporaryFile(suffix=".sheet") as file:
            file.write(b"reservoir pond head 9 ft\n")
            file.flush()
            status, out = desk(file.name)
        self.assertEqual((status, out.splitlines()[0]), (1, "refused, number 1 at place 0: the file is text and not a sheet"))


class At(unittest.TestCase):
    """What touches a node."""

    def test_the_ridge_by_name_and_by_number(self):
        by_name, by_number = (desk("--at", word, "examples/dry-week/giving-way.txt") for word in ("ridge", "4"))
        self.assertEqual(by_name, by_number)
        status, out = by_name
        self.assertEqual((status, out.splitlines()[2:]), (0, [
            "At node 4 (junction ridge)",
            "  elevation 31.00 m, head 41.63 m, pressure 10.63 m, asked 7.00 LPS, drawn 3.32 LPS, lacks 3.68 LPS",
            "  link  kind  here  other end      flow LPS                        status",
            "     3  pipe  ends  node 3 (mill)      3.32  into ridge from mill  Open"]))

    def test_a_lowest_pressure(self):
        status, out = desk("--at", "slope", "--least", "15m", "examples/dry-week/giving-way.txt")
        self.assertEqual(status, 3)
        self.assertIn("\n  doubt   hydrant 5 (slope) has 14.24 m, the lowest allowed is 15.00 m\n", out)

    def test_a_grounded_node_without_links(self):
        status, out = desk("--at", "1", example("document01"))
        self.assertEqual(status, 3)
        self.assertIn("; grounded in trial 1, head undetermined, ", out)
        self.assertTrue(out.endswith("\n  no link touches it\n"), out)

    def test_what_comes_to_a_junction_is_what_it_draws(self):
        every = [part for i in range(64) for part in ("--at", str(i))]
        for name in ("looped", "night", "june-unrepaired", "dry-week/fixed-demands", "dry-week/giving-way"):
            (whole,) = json.loads(desk("--json", example(name))[1])
            (found,) = json.loads(desk("--json", *every[:2 * len(whole["nodes"])], example(name))[1])
            self.assertEqual([one["node"] for one in found["at"]], list(range(len(whole["nodes"]))))
            for one, node in zip(found["at"], whole["nodes"]):
                if node["kind"] == "junction":
                    brought = sum(touch["inflow_cfs"] for touch in one["touching"])
                    self.assertAlmostEqual(brought, node["demand_cfs"], delta=0.001, msg=name)

    def test_an_unknown_node(self):
        status, out = desk("--json", "--at", "ridge", example("looped"), "examples/dry-week/fixed-demands.txt")
        without, found = json.loads(out)
        self.assertEqual((status, found["at"][0]["name"]), (2, "ridge"))
        self.assertIn("looped.sheet: no node is called ridge; ", without["error"])


class Bookings(unittest.TestCase):
    TABLE = "examples/evening/bookings.csv"

    def test_the_evening_of_the_examples(self):
        status, out = desk("--bookings", self.TABLE, "examples/dry-week/fixed-demands.txt")
        self.assertEqual((status, out.splitlines()), (3, [
            "18:00  yes  2 hydrants with 17.00 LPS; lowest pressure 33.04 m at node 3 (mill)",
            "19:00  no   hydrant 4 (ridge) has 4.17 m and is booked with 10.00 m at least",
            "20:00  yes  2 hydrants with 13.00 LPS; lowest pressure 15.24 m at node 4 (ridge)"]))
        with open(os.path.join(TOP, "docs", "BOOKINGS.md"), encoding="utf-8") as paper:
            text = paper.read()
        for line in out.splitlines()[:2]:
            self.assertIn(line, text)

    def test_an_hour_is_what_its_sheet_alone_is(self):
        """The whole scheme booked with its own demands: the verdict and the pressures of the scheme itself."""
        with tempfile.NamedTemporaryFile("w", suffix=".csv") as table:
            table.write("".join("1,%s,%d L/s\n" % pair for pair in (
                ("lower", 9), ("mill", 8), ("ridge", 7), ("slope", 8), ("end", 6))))
            table.flush()
            for name in ("fixed-demands", "giving-way"):
                scheme = "examples/dry-week/%s.txt" % name
                ((hour,), (alone,)) = (json.loads(desk("--json", *args, scheme)[1]) for args in (("--bookings", table.name), ()))
                self.assertEqual((hour["verdict"], hour["may_be_sold"]), (alone["verdict"], alone["may_be_sold"]))
                self.assertEqual([booking["pressure_ft_bits"] for booking in hour["bookings"]],
                                 [node["pressure_ft_bits"] for node in alone["nodes"][2:]])

    def test_a_lower_need_beside_a_higher_one(self):
        """A node out of question changes no bit of the answer where nothing else reads its elevation."""
        with tempfile.NamedTemporaryFile("w", suffix=".csv") as table:
            table.write("1,lower,9 L/s,30 m\n1,ridge,7 L/s\n1,end,6 L/s,20m\n")
            table.flush()
            status, out = desk("--bookings", table.name, "examples/dry-week/fixed-demands.txt")
            self.assertEqual((status, out), (0, "1  yes  3 hydrants with 22.00 LPS; lowest pressure 12.56 m at node 4 (ridge)\n"))
            status, out = desk("--bookings", table.name, "examples/dry-week/giving-way.txt")
            self.assertEqual(status, 3)
            self.assertIn("which the verdict cannot show beside node 4 (ridge)", out)


class Desk(unittest.TestCase):
    def test_every_example_is_expected(self):
        top = os.path.join(TOP, "examples")
        found = {os.path.relpath(os.path.join(folder, name), top)[:-len(".sheet")]
                 for folder, _, names in os.walk(top) for name in names if name.endswith(".sheet")}
        self.assertEqual(found, set(EXPECTED))

    def test_first_lines_and_exit_statuses(self):
        for name, (line, status) in EXPECTED.items():
            got, out = desk(example(name))
            self.assertEqual((out.splitlines()[0], got), (line, status), name)

    def test_the_readme_shows_the_june_page(self):
        with open(os.path.join(TOP, "README.md"), encoding="utf-8") as readme:
            self.assertIn(desk(example("june"))[1], readme.read())

    def test_the_ridge_in_a_dry_week(self):
        """What docs/DESK.md and examples/README.md say of node 4, in metres and litres a second."""
        _, out = desk("--json", example("dry-week/fixed-demands"), example("dry-week/giving-way"))
        ridge = [found["nodes"][4] for found in json.loads(out)]
        self.assertEqual([("%.2f" % node["pressure"], "%.2f" % node["demand"]) for node in ridge],
                         [("4.17", "7.00"), ("10.63", "3.32")])

    def test_all_at_once_as_json(self):
        names = sorted(EXPECTED)
        status, out = desk("--json", *map(example, names))
        self.assertEqual(status, 3)
        self.assertEqual([(found["first_line"], found["exit_status"]) for found in json.loads(out)],
                         [EXPECTED[name] for name in names])


if __name__ == "__main__":
    unittest.main()
