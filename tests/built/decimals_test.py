"""The nearest f64 to a decimal: the program `decimal_vectors` on 200,000 decimals of at most 17 digits, against python's own `float`."""
import os
import random
import struct
import sys
import unittest

ROOT = os.path.dirname(os.path.dirname(os.path.dirname(os.path.abspath(__file__))))
sys.path[:0] = [ROOT, os.path.join(ROOT, "tools")]

from coordinator import programs  # noqa: E402
import vectors  # noqa: E402

COUNT = 200_000


def bits(x):
    return struct.unpack("<Q", struct.pack("<d", x))[0]


def is_halfway(digits, tens):
    """Whether it is the middle of two f64s: 54 binary digits between its first and its last."""
    num = digits * 5 ** tens if tens > 0 else digits
    if tens < 0 and digits % 5 ** -tens:
        return False
    num = num // 5 ** -tens if tens < 0 else num
    return num > 0 and (num // (num & -num)).bit_length() == 54


class Decimals(unittest.TestCase):
    def test_as_python_reads_them(self):
        numbers = list(vectors.decimals(random.Random(17), COUNT))
        self.assertGreater(sum(is_halfway(*v) for v in numbers), COUNT // 12)
        self.assertEqual({tens for _, tens in numbers}, set(range(-37, 21)))
        said = programs.run("decimal_vectors", b"".join(vectors.decimal_record(*v) for v in numbers)).split()
        self.assertEqual(len(said), COUNT)
        wrong = [(v, line) for v, line in zip(numbers, said) if int(line, 16) != bits(float("%de%d" % v))]
        self.assertEqual(wrong, [])


if __name__ == "__main__":
    unittest.main()
