"""The listing program on sheets of any length, against the second reading of documents 01 and 02. `./test` runs
this once all is proved, since it needs the program."""
import os
import random
import sys
import unittest

ROOT = os.path.dirname(os.path.dirname(os.path.dirname(os.path.abspath(__file__))))
sys.path[:0] = [ROOT, os.path.join(ROOT, "tools")]

import oracle  # noqa: E402
from coordinator import programs  # noqa: E402
import sheet_reading  # noqa: E402
import sheets  # noqa: E402
from stored import read  # noqa: E402


def listing(data):
    return programs.run("listing", data).decode("ascii")


def spoilt(whole, chance, times):
    """The sheet, and so many cuts of it and copies with one bit changed."""
    yield whole
    for _ in range(times):
        yield whole[:chance.randrange(len(whole))]
        broken = bytearray(whole)
        broken[chance.randrange(len(whole))] ^= 1 << chance.randrange(8)
        yield bytes(broken)


def long_sheets():
    """Sheets around and beyond the buffer's 65,536 bytes, with a PD and without: whole, cut, and broken at some
    byte."""
    good = sheets.one("pd-short")
    options, pressures, node = good[:29], good[29:47], good[47:92]
    link = b"LK" + bytes(47)
    chance = random.Random(1)
    for head, times in ((options, 12), (options + pressures, 4)):
        for nodes, links in ((1, 0), (0, 1), (1, 1), (64, 128), (65, 0), (64, 129), (0, 1400), (1456, 0), (1455, 0), (64, 2000), (3000, 2000), (20000, 1), (1, 20000)):
            yield from spoilt(head + node * nodes + link * links, chance, times)
        for size in (65534, 65535, 65536, 65537, 131071, 131072, 131073):
            yield (head + node * 700 + link * 3000)[:size]
            yield bytes(size)
            yield (head + node * 3000)[:size]
        # a PD where none may stand
        for nodes, links in ((0, 1), (1, 0), (64, 128), (1456, 0), (64, 2000), (3000, 2000)):
            yield head + node * nodes + link * links + pressures


class Listing(unittest.TestCase):
    def test_any_length(self):
        count = 0
        for data in long_sheets():
            kind, number, place = sheet_reading.reading(data)
            if kind == "R":
                self.assertEqual(listing(data), "A %d %d 0 0 0\n" % (number, place), (len(data), number, place))
                count += len(data) > 65535
        self.assertGreater(count, 100)

    def test_the_stored_list(self):
        texts = oracle.split(read("crates/replay/stdout").decode())
        for case, text in list(zip(sheets.stored(), texts))[::7]:
            self.assertEqual(listing(case.data), text, case.name)

    def test_the_empty_sheet(self):
        self.assertEqual(listing(b""), "A 1 0 0 0 0\n")


if __name__ == "__main__":
    unittest.main()
