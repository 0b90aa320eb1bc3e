#!/usr/bin/env python3
"""The stored list of crate inp_list: EPANET texts, and what is to be said of each, which is tools/inp_reader.py's word and
never that program's own.

  inp_stored.py        writes stdin and stdout of crate inp_list
"""
import sys

import inp_files
import inp_reader
import product  # noqa: F401
import stored
from coordinator.sheet_format import pack_many

SEED, COUNT = 1, 150


def texts():
    return [stored.read("examples/terraces.inp")] + [case.text for case in inp_files.cases(SEED, COUNT)]


def files():
    asked = texts()
    return {"crates/inp_list/stdin": pack_many(asked),
            "crates/inp_list/stdout": b"".join(inp_reader.printed(text) + b"--\n" for text in asked)}


def main(args):
    if args:
        sys.exit(__doc__)
    stored.write(files())


if __name__ == "__main__":
    main(sys.argv[1:])
