#!/usr/bin/env python3
"""What each crate's check takes: processor seconds and memory, one crate after the other.

    check_times.py [NAME...]
    check_times.py --gate FILE      how many must-fail edits of each crate were refused, and not, in what `rt ci` printed

Crates that are proved already are proved once more, those below them are not.
"""
import os
import pathlib
import re
import sys

import product  # noqa: F401
from checks import Repository
from coordinator import crates

ROOT = pathlib.Path(__file__).resolve().parent.parent


def in_order(listed):
    """Each crate behind those that it stands on."""
    return sorted(listed, key=lambda name: len(crates.below(listed, name)))


def run(command, folder):
    """The status, the processor seconds and the megabytes of a command whose output is dropped."""
    child = os.fork()
    if child == 0:
        null = os.open(os.devnull, os.O_WRONLY)
        os.dup2(null, 1)
        os.dup2(null, 2)
        os.chdir(folder)
        os.execvp(command[0], command)
    _, status, used = os.wait4(child, 0)
    return status, used.ru_utime + used.ru_stime, used.ru_maxrss // 1024


def of_gate(text):
    """By crate that was proved: its edits that were refused, and those that were not; the crates with most edits first."""
    edits = {name: [0, 0] for name in re.findall(r"^rt: (\w+) (?:proved|is kept)\b", text, re.M)}
    for name, refused in re.findall(r"^rt: must-fail (\w+)/[\w.-]+\.edit: (refused)?", text, re.M):
        edits.setdefault(name, [0, 0])[0 if refused else 1] += 1
    return sorted(((name, *counts) for name, counts in edits.items()), key=lambda row: (-row[1] - row[2], row[0]))


def tell_gate(path):
    rows = of_gate(pathlib.Path(path).read_text())
    print("| crate | edits refused | not refused |")
    print("|---|---|---|")
    for row in rows + [("all", *map(sum, zip(*[row[1:] for row in rows])))]:
        print("| %s | %d | %d |" % row)
    return 0


def main(names):
    if names[:1] == ["--gate"] and len(names) == 2:
        return tell_gate(names[1])
    repository = Repository(str(ROOT))
    listed = repository.crates
    unknown = [name for name in names if name not in listed]
    if unknown:
        print(f"crates.txt lists no {unknown[0]}", file=sys.stderr)
        return 2
    total = 0.0
    for name in in_order(listed):
        if names and name not in names:
            continue
        folder = repository.folder(name)
        if not repository.has_libraries(name):
            run(["rt", "check"], folder)
        status, seconds, megabytes = run(repository.check(name), folder)
        total += seconds
        told = "" if status == 0 else "  NOT PROVED"
        print(f"{name:16} {seconds:6.1f} s {megabytes:6} MB{told}", flush=True)
    print(f"{'all':16} {total:6.1f} s")
    return 0


if __name__ == "__main__":
    sys.exit(main(sys.argv[1:]))
