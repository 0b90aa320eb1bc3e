#!/usr/bin/env python3
"""The solve of any commit, compiled for this processor without its proofs, for measuring alone: bench/at_commit.py
COMMIT OUT.a. Proving an old commit takes as long as proving a new one; this takes seconds, and every commit is compiled in
one and the same way: the kit lowers a program that calls desk_solve, and the module that it hands to its compiler is
compiled once more, at -O3, with desk_solve to be called from C. COMMIT is what git takes, or `.` for the sources as they
stand. Nothing is shipped from it."""
import os
import platform
import re
import subprocess
import sys
import tarfile
import tempfile

ROOT = os.path.dirname(os.path.dirname(os.path.abspath(__file__)))
sys.path.insert(0, ROOT)

from coordinator import crates, programs  # noqa: E402

PROGRAM = """fn main() {
    let sheet = [0u8; 100];
    let mut heads = [0.0f64; 64];
    let mut demands = [0.0f64; 64];
    let mut flows = [0.0f64; 128];
    let mut statuses = [0u8; 128];
    let mut record = [0u8; 800];
    let mut scratch = [0.0f64; 4096];
    let mut counts = [0u64; 5];
    let mut totals = [0.0f64; 3];
    desk::desk_solve(&sheet, &mut heads, &mut demands, &mut flows, &mut statuses, &mut record, &mut scratch, &mut counts, &mut totals);
}
"""
# keeps what the compiler is handed, the module at -O3 as the last .bc before the one with checks
KEEPER = """#!/bin/sh
for word in "$@"; do case $word in *.bc) cp "$word" "%s/$(ls "%s" | wc -l).bc" ;; esac; done
exec "%s" "$@"
"""


def run(words, **more):
    done = subprocess.run(words, stdout=subprocess.PIPE, stderr=subprocess.STDOUT, check=False, **more)
    if done.returncode:
        sys.exit("bench/at_commit.py: %s did not go through:\n%s" % (os.path.basename(words[0]), done.stdout.decode()[:2000]))
    return done.stdout


def sources(commit, room):
    """The folder with the commit's crates."""
    if commit == ".":
        return ROOT
    packed = os.path.join(room, "sources.tar")
    run(["git", "-C", ROOT, "archive", "-o", packed, commit, "crates", "crates.txt"])
    with tarfile.open(packed) as tar:
        tar.extractall(room)
    return room


def keeping(room):
    """A toolchain whose compiler leaves what it was handed in room/kept."""
    tool, real = os.path.join(room, "tool"), programs.toolchain()
    kept = os.path.join(room, "kept")
    os.makedirs(os.path.join(tool, "bin"))
    os.makedirs(kept)
    os.symlink(os.path.join(real, "lib"), os.path.join(tool, "lib"))
    for name in os.listdir(os.path.join(real, "bin")):
        if name != "clang":
            os.symlink(os.path.join(real, "bin", name), os.path.join(tool, "bin", name))
    keeper = os.path.join(tool, "bin", "clang")
    with open(keeper, "w") as out:
        out.write(KEEPER % (kept, kept, os.path.join(real, "bin", "clang")))
    os.chmod(keeper, 0o755)
    return tool, kept


def compiler():
    """What compiles without a proof, which kits up to rattle-kit-5 had, for sources of their time."""
    found = os.path.join(programs.kit(), "on", platform.machine(), "bin", "rattle-cases")
    if not os.path.exists(found):
        sys.exit("bench/at_commit.py: the kit on the path has no rattle-cases, which compiles without a proof")
    return found


def module(folder, room):
    """The module of the program over the folder's crates, as text."""
    tool, kept = keeping(room)
    os.mkdir(os.path.join(room, "program"))
    main = os.path.join(room, "program", "main.rt")
    with open(main, "w") as out:
        out.write(PROGRAM)
    with open(os.path.join(folder, "crates.txt")) as file:
        listed = crates.listed(file.read())
    words = [compiler(), "--toolchain", tool, main, "--crate-name", "at_commit"]
    words += ["--lib", "std=" + os.path.join(programs.kit(), "libs", "std", "src", "lib.rt")]
    for name in crates.below(listed, "desk") + ["desk"]:
        words += ["--lib", "%s=%s" % (name, os.path.join(folder, "crates", name, "src", "lib.rt"))]
    run(words)
    text = os.path.join(room, "module.ll")
    # the first is compiled at -O0 and the second, the same module, at -O3
    run([os.path.join(programs.toolchain(), "bin", "clang"), "-x", "ir", "-S", "-emit-llvm", "-Xclang",
         "-disable-llvm-passes", "-Wno-override-module", "-o", text, os.path.join(kept, "1.bc")])
    with open(text) as file:
        return file.read()


def exported(text):
    """The module with the solve to be called from outside, and no program."""
    text = re.sub(r'define internal void @"desk::desk_solve"', "define void @solve_at_commit", text)
    text = text.replace('@"desk::desk_solve"', "@solve_at_commit").replace("define i32 @main(", "define internal i32 @started(")
    if platform.machine() != "x86_64":
        text = re.sub(r"^target (datalayout|triple).*\n", "", text, flags=re.M)
        text = re.sub(r'"(target-cpu|target-features|tune-cpu)"="[^"]*"', "", text)
    return text


def main(commit, archive):
    with tempfile.TemporaryDirectory() as room:
        text = exported(module(sources(commit, room), room))
        source = os.path.join(room, "solve.ll")
        with open(source, "w") as out:
            out.write(text)
        words = [os.path.join(programs.toolchain(), "bin", "clang"), "-O3", "-fPIC", "-ffunction-sections", "-fdata-sections"]
        words += ["--target=%s-unknown-linux-gnu" % platform.machine(), "-mllvm", "-trap-unreachable"]
        words += ["-mllvm", "-no-trap-after-noreturn", "-Wno-override-module", "-x", "ir", "-c", source]
        if platform.machine() == "x86_64":
            words += ["-march=x86-64"]
        run(words + ["-o", os.path.join(room, "solve.o")])
        run(["gcc", "-O2", "-c", os.path.join(ROOT, "bench", "at_commit.c"), "-o", os.path.join(room, "shim.o")])
        if os.path.exists(archive):
            os.remove(archive)
        run(["ar", "rcs", archive, os.path.join(room, "solve.o"), os.path.join(room, "shim.o")])
    print(archive)


if __name__ == "__main__":
    if len(sys.argv) != 3:
        sys.exit(__doc__)
    main(sys.argv[1], os.path.abspath(sys.argv[2]))
