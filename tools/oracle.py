"""Runs the oracle's builds."""
import os
import shutil
import subprocess

import product  # noqa: F401
from coordinator.listings import Listing, split
from coordinator.sheet_format import pack_many

__all__ = ["Listing", "build", "lacking", "listings", "program", "run", "split"]

ROOT = os.path.dirname(os.path.dirname(os.path.abspath(__file__)))
FOLDER = os.path.join(ROOT, "oracle")
SOURCES = os.environ.get("ORACLE_SOURCES", os.path.join(ROOT, "..", "shared", "docs", "src", "src"))


def lacking():
    """What is not there to build with."""
    sources = os.path.isfile(os.path.join(SOURCES, "solver", "hydraulicsolver.rs"))
    return ([] if sources else ["the Rust sources"]) + ([] if shutil.which("cargo") else ["cargo"])


def build(*names):
    """Builds; gives the exit status and what was said."""
    done = subprocess.run([os.path.join(FOLDER, "build.sh"), *names], stdout=subprocess.PIPE,
                          stderr=subprocess.STDOUT, universal_newlines=True, check=False)
    return done.returncode, done.stdout


def program(name):
    return os.path.join(FOLDER, "target", name, "release", "oracle")


def run(name, data, *args):
    """What a build prints for these bytes on its standard input."""
    done = subprocess.run([program(name), *args], input=data, stdout=subprocess.PIPE, check=True)
    return done.stdout.decode("ascii")


def listings(name, sheets):
    """One listing a sheet, by the many form."""
    return split(run(name, pack_many(sheets), "--many"))
