#!/usr/bin/env python3
"""The library that C, Rust and python link: the functions of include/desk.h in one archive.

  library.py        target/library/libdesk.a; made only where it is lacking or older than its sources

Each of the crates below gives an archive of its own, and what these hold is put into one: small
crates are checked quickly, and a caller links one library. Only the crates' own functions can be seen from outside, so
that no two names meet.
"""
import os
import subprocess
import sys

import product  # noqa: F401
from checks import Repository
from coordinator import building, crates, programs

CRATES = ("desk", "desk_start", "desk_steps", "desk_evening", "desk_text")
LIBRARY = "target/library/libdesk.a"


def call(words, what, folder="."):
    done = subprocess.run(words, cwd=os.path.join(programs.ROOT, folder), stdout=subprocess.PIPE, stderr=subprocess.STDOUT,
                          universal_newlines=True, check=False)
    if done.returncode:
        raise building.NotToBeHad("%s did not %s (%s):\n%s" % (" ".join(words[:2]), what, folder, done.stdout.strip()))


def joined(archives, path):
    """Makes one archive of several, whole or not at all."""
    os.makedirs(os.path.dirname(path), exist_ok=True)
    made = path + ".made"
    if os.path.exists(made):
        os.remove(made)
    call([os.path.join(programs.toolchain(), "bin", "llvm-ar"), "cqsL", made, *archives], "join the archives")
    os.replace(made, path)


def archive(name):
    """Where `rt lib` puts that of one crate."""
    return os.path.join("crates", name, "out", "lib%s.a" % name)


def build(name):
    """By `rt lib`; or, where `rt ci` has left the crates below proved, over those, which `rt lib` would prove once more."""
    repository = Repository(programs.ROOT)
    below = crates.below(repository.crates, name)
    words = ["rt", "lib"]
    if repository.has_libraries(name) and not any(building.is_old(word, repository.library(word)) for word in below):
        words = repository.archive(name, os.path.join("out", "lib%s.a" % name))
    os.makedirs(os.path.join(programs.folder(name), "out"), exist_ok=True)
    call(words, "build the library", programs.folder(name))


def have():
    """The path to the library, built where it has to be."""
    path = os.path.join(programs.ROOT, LIBRARY)
    if os.path.exists(path) and not any(building.is_old(name, path) for name in CRATES):
        return path
    for name in CRATES:
        build(name)
    joined([archive(name) for name in CRATES], path)
    return path


if __name__ == "__main__":
    try:
        print(have())
    except (OSError, building.NotToBeHad) as error:
        sys.exit("library.py: %s" % error)
