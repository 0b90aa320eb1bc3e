#!/usr/bin/env python3
"""Installs the desk, the programs that it asks, the library and its header.

  install.py PREFIX     below this folder: bin/desk, lib/ndurabeew, lib/libdesk.a, include/desk.h, share/doc/ndurabeew

What is not built yet is proved and built first. What is installed needs x86-64 Linux and python3; nothing of the
repository or the kit.
"""
import glob
import os
import sys

import library
import product  # noqa: F401
from coordinator import asking, building, epanet, files, programs

PROGRAMS = (asking.NAME, asking.ANY_LENGTH, asking.ROWS, epanet.NAME)
PAPERS = ("README.md", "CHANGELOG.md", "NOTICE", "docs/DESK.md", "docs/SHEETS.md", "docs/INP.md", "docs/BOOKINGS.md",
          "docs/RULES.md", "docs/desk.schema.json", "docs/bookings.schema.json", "docs/june.svg")


def top(*names):
    return os.path.join(programs.ROOT, *names)


def pairs():
    """(file of the repository, its place below the prefix, its mode)."""
    yield top("desk"), "bin/desk", 0o755
    for source in glob.glob(top("coordinator", "*.py")):
        yield source, "lib/ndurabeew/coordinator/" + os.path.basename(source), 0o644
    for name in PROGRAMS:
        yield programs.path(name), "lib/ndurabeew/programs/" + name, 0o755
    yield top(library.LIBRARY), "lib/libdesk.a", 0o644
    yield top("include", "desk.h"), "include/desk.h", 0o644
    for name in PAPERS:
        yield top(name), "share/doc/ndurabeew/" + os.path.basename(name), 0o644


def put(data, path, mode):
    os.makedirs(os.path.dirname(path), exist_ok=True)
    files.write(path, data)
    os.chmod(path, mode)


def install(prefix):
    for name in PROGRAMS:
        building.have(name)
    library.have()
    for source, name, mode in pairs():
        with open(source, "rb") as file:
            put(file.read(), os.path.join(prefix, name), mode)


def main(words):
    if len(words) != 1 or words[0].startswith("-"):
        sys.exit(__doc__.strip())
    try:
        install(os.path.abspath(words[0]))
    except (OSError, files.BadUse, building.NotToBeHad) as error:
        sys.exit("install.py: %s" % error)
    print("installed below %s" % os.path.abspath(words[0]))


if __name__ == "__main__":
    main(sys.argv[1:])
