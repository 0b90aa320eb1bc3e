"""Which crates know where a field stands: records by offset, nodes and links by (sheet, layout, index), row_sheet, which
writes demands, sheet_bytes, which writes records, and those that do the reading itself. No other crate's code or definition names an offset or adds a number to one, but the
definition of what stands at the place that a refusal names."""
import glob
import os
import re
import unittest

ROOT = os.path.dirname(os.path.dirname(os.path.abspath(__file__)))

# patterns knows no sheet: it makes numbers of bytes, also for the programs that replay vectors
KNOW = {"patterns", "layout", "records", "nodes", "links", "row_sheet", "sheet_bytes"}
READ = {"fields", "ends", "sheet", "accepted", "stream", "long_sheets"}
TELL = {os.path.join("crates", "promises", "specs", "Places.antt")}

OFFSETS = re.compile(
    r"\b(node_place|link_place|pair_at|node_at|link_at|node_offset|link_offset|byte_at)\b"
    r"|\bfrom_bytes ?\(?(sheet|s)\b|\bsheet\["
)


def crate_of(path):
    return os.path.relpath(path, os.path.join(ROOT, "crates")).split(os.sep)[0]


def named(path):
    with open(path, encoding="utf-8") as file:
        return sorted({found.group(0) for found in OFFSETS.finditer(file.read())})


class Offsets(unittest.TestCase):
    def test_only_the_sheets_room_names_offsets(self):
        files = glob.glob(os.path.join(ROOT, "crates", "*", "src", "**", "*.rt"), recursive=True)
        files += glob.glob(os.path.join(ROOT, "crates", "*", "specs", "**", "*.antt"), recursive=True)
        self.assertGreater(len(files), 100)
        found = {os.path.relpath(path, ROOT): named(path) for path in files if crate_of(path) not in KNOW | READ}
        self.assertEqual({path: names for path, names in found.items() if names and path not in TELL}, {})

    def test_it_would_see_one(self):
        for line in ("sheet[at + 2]", "pair_at(sheet, 5)", "byte_at s (link_place l j + 2)", "from_bytes s 18", "from_bytes sheet.now 18"):
            self.assertTrue(OFFSETS.search(line), line)
        self.assertFalse(OFFSETS.search("repair_at s l codes"))


if __name__ == "__main__":
    unittest.main()
