#!/usr/bin/env python3
"""Whole solves, from a sheet's bytes to its answer, by the proved library and by the oracle's two
builds, on the same sheets in one run: bench/solves.py [ROUNDS]. The three take turns; each time is the
median over the rounds of the medians of 300 solves. On Arm the library comes from the shared
native_lib, since the kit compiles for x86-64 alone. Under an emulator a time says nothing, so there
nothing is measured."""
import os
import platform
import re
import statistics
import subprocess
import sys

ROOT = os.path.dirname(os.path.dirname(os.path.abspath(__file__)))
sys.path.insert(0, os.path.join(ROOT, "tools"))

import oracle  # noqa: E402
import bench_sheets  # noqa: E402

SOLVES = 300
BUILDS = ("recipe", "plain")


def processor():
    field = "model name" if platform.machine() == "x86_64" else "CPU part"
    with open("/proc/cpuinfo") as info:
        found = re.search("^%s.*: *(.*)$" % field, info.read(), re.M)
    name = found.group(1) if found else ""
    if not name or "QEMU" in name:
        sys.exit("bench/solves.py: an emulated or unknown processor (%r): nothing measured" % name)
    return "%s, %s %s" % (platform.machine(), field, name)


def call(*words):
    return subprocess.run(words, cwd=ROOT, stdout=subprocess.PIPE, check=True, universal_newlines=True).stdout


def library(name):
    if platform.machine() == "x86_64":
        subprocess.run(["rt", "lib"], cwd=os.path.join(ROOT, "crates", name), stdout=subprocess.PIPE, check=True)
        return "crates/%s/out/lib%s.a" % (name, name), "the proved library as it ships"
    call("../shared/tools/native_lib", name)
    return "target/native/lib%s.a" % name, "native_lib: the proved library's LLVM module compiled for this processor"


def sheets():
    """The bench's sheets, made anew, smaller schemes first."""
    folder = os.path.join(ROOT, "target", "bench", "sheets")
    bench_sheets.main(folder)
    files = sorted(os.path.join(folder, name) for name in os.listdir(folder))
    return sorted(files, key=lambda file: (file[-8:], file))


def timed(files, program, count):
    """By the sheet's name: number and trials of the answer, the median and the least of the times."""
    lines = [line.split() for line in call(program, str(count), *files).splitlines()]
    return {name: (int(number), int(trials), float(median), float(least)) for name, number, trials, median, least in lines}


def ours(files, program="target/bench/solves"):
    return {name: row[:3] for name, row in timed(files, program, SOLVES).items()}


def least(files, program, count):
    return {name: row[:2] + row[3:] for name, row in timed(files, program, count).items()}


def theirs(build, files):
    out = call(os.path.join(os.path.dirname(oracle.program(build)), "bench"), str(SOLVES), *files)
    rows = [line.split() for line in out.splitlines()[2:]]
    return {row[0]: (int(row[1]), int(row[2]), int(row[3]), int(row[4]), float(row[7])) for row in rows}


def main(rounds):
    said = processor()
    if oracle.lacking():
        sys.exit("bench/solves.py: there is lacking: " + ", ".join(oracle.lacking()))
    for build in BUILDS:
        status, text = oracle.build(build)
        if status:
            sys.exit(text)
    os.makedirs(os.path.join(ROOT, "target", "bench"), exist_ok=True)
    archive, origin = library("desk")
    call("gcc", "-O2", "-o", "target/bench/solves", "bench/solves.c", archive)
    files = sheets()
    proved, others = [], {build: [] for build in BUILDS}
    for _ in range(rounds):
        proved.append(ours(files))
        for build in BUILDS:
            others[build].append(theirs(build, files))
    print(said)
    print("proved: " + origin)
    print("%d rounds of %d solves, microseconds, medians" % (rounds, SOLVES))
    print("| sheet | nodes | links | trials | proved | recipe | plain | proved / recipe | proved / plain |")
    print("|---|---|---|---|---|---|---|---|---|")
    for file in files:
        name = os.path.basename(file)
        nodes, links, number, trials, _ = others["recipe"][0][name]
        if (number, trials) != proved[0][name][:2]:
            sys.exit("%s: the answers differ" % name)
        mine = statistics.median(run[name][2] for run in proved)
        other = {build: statistics.median(run[name][4] for run in others[build]) for build in BUILDS}
        print("| %s | %d | %d | %d | %.1f | %.1f | %.1f | %.2f | %.2f |" % (
            name[:-6], nodes, links, trials, mine, other["recipe"], other["plain"],
            mine / other["recipe"], mine / other["plain"]))


if __name__ == "__main__":
    main(int(sys.argv[1]) if len(sys.argv) > 1 else 9)
