"""What crate lends runs is what tools/lends.py makes of documents 01 and 02 and the stored list, and reaches every
number and place, with a PD and without."""
import struct
import os
import sys
import unittest

TOP = os.path.dirname(os.path.dirname(os.path.abspath(__file__)))
sys.path.insert(0, os.path.join(TOP, "tools"))

import lends
from stored import read


def asked():
    """(sheet, line) of each case."""
    data, at = read("crates/lends/stdin"), 0
    for line in read("crates/lends/stdout").decode().splitlines():
        length = struct.unpack_from("<6HI", data, at)[6]
        yield data[at + 16:at + 16 + length], line
        at += 16 + length


class Lends(unittest.TestCase):
    def test_stored_files_are_what_the_generator_makes(self):
        for name, data in lends.files().items():
            self.assertTrue(read(name) == data, name + " is not what tools/lends.py makes")

    def test_reaches_every_number_and_every_buffer(self):
        for with_pd in (False, True):
            lines = [line for data, line in asked() if (data[29:31] == b"PD") == with_pd]
            for start in ["A %d " % number for number in range(9)] + ["A 5 %d " % place for place in range(6)]:
                self.assertTrue(any(line.startswith(start) for line in lines), start)
            for line in lines:
                words = line.split()
                if words[1] in "12345":
                    self.assertEqual(words[3:], ["0"] * 3 + ["-"] * 6)
                elif words[1] != "0":
                    self.assertEqual(words[6:10], ["-"] * 4)
        self.assertTrue(any(line.startswith("A 7 257 ") for line in lines))


if __name__ == "__main__":
    unittest.main()
