#!/usr/bin/env python3
"""The raw material of a landing note, from git: what changed between two commits, and what is checked again for it.

  landing.py BASE [HEAD]     HEAD is the commit at hand unless another is named

Exit status: 0; 2 bad use, or a commit that is not there.
"""
import os
import re
import subprocess
import sys

import product  # noqa: F401
from coordinator import crates

ROOT = os.path.dirname(os.path.dirname(os.path.abspath(__file__)))
PARTS = {"specs": "specs", "proofs": "proofs", "src": "code", "must-fail": "edits"}
ORDER = ("specs", "promises", "proofs", "code", "edits", "rest")
# what of a crate `rt ci` reads, but for the edits
CHECKED = ("src", "specs", "proofs", "stdin", "stdout", "args", "status", "data")
# a definition starts where a name at the margin is declared; its equations stand below it
START = re.compile(r"(?:[a-z]+ )*?(pub )?(?:(?:record|data) (\S+)|(\S+) :(?: |$))")


class Stop(Exception):
    """Nothing can be printed; the text says why."""


def git(root, *words):
    done = subprocess.run(["git", "-C", root, *words], stdout=subprocess.PIPE, stderr=subprocess.PIPE, check=False)
    if done.returncode:
        raise Stop("git %s: %s" % (words[0], done.stderr.decode("utf-8", "replace").strip().split("\n")[0]))
    return done.stdout.decode("utf-8", "replace")


def commit(root, name):
    try:
        return git(root, "rev-parse", "--verify", name + "^{commit}").strip()
    except Stop:
        raise Stop("no such commit: " + name) from None


def file_at(root, revision, path):
    """The text of a file, or none where it is not there."""
    if not git(root, "ls-tree", "-z", "--name-only", revision, "--", path):
        return ""
    return git(root, "show", "%s:%s" % (revision, path))


def part_of(path):
    """The part that a file counts to, the crate or else the top folder, and the rest of its path."""
    words = path.split("/")
    if path == "docs/PROMISES.md":
        return "promises", "docs", words[1]
    if words[0] != "crates" or len(words) < 3:
        return "rest", words[0], "/".join(words[1:]) or path
    part = PARTS.get(words[2], "rest")
    if words[1] == "promises" and part != "edits":
        return "promises", words[1], "/".join(words[2:])
    return part, words[1], "/".join(words[2 if part == "rest" else 3:])


def changes(root, base, head):
    """(lines added, lines removed, path) for each file that changed."""
    fields = [line.split("\t", 2) for line in git(root, "diff", "--numstat", "--no-renames", "-z", base, head).split("\0") if line]
    number = lambda word: int(word) if word.isdigit() else 0  # of bytes that are no text git counts no lines
    return [(number(added), number(removed), path) for added, removed, path in fields]


def table(changed):
    """The lines by part and crate, with their files."""
    cells = {}
    for added, removed, path in changed:
        part, crate, file = part_of(path)
        cell = cells.setdefault((ORDER.index(part), crate), [0, 0, []])
        cell[0] += added
        cell[1] += removed
        cell[2].append(file)
    yield "| part | crate or folder | added | removed | files |"
    yield "|---|---|---|---|---|"
    for at, part in enumerate(ORDER):
        rows = [(key[1], cell) for key, cell in sorted(cells.items()) if key[0] == at]
        for crate, cell in rows:
            yield "| %s | %s | %d | %d | %s |" % (part, crate, *cell[:2], " ".join(cell[2]))
        if len(rows) > 1:
            yield "| %s | all | %d | %d | %d files |" % (part, *(sum(cell[i] for _, cell in rows) for i in (0, 1)),
                                                        sum(len(cell[2]) for _, cell in rows))


def definitions(text):
    """The public definitions of a file of specs, each with its text: no comments, and spaces as one."""
    found, words = {}, []
    for line in text.splitlines():
        start = START.match(line)
        if start:
            words = []
            if start.group(1):
                words = found.setdefault(start.group(2) or start.group(3), [])
        if not line.lstrip().startswith("--"):
            words += line.split()
    return {name: " ".join(words) for name, words in found.items()}


def moves(before, after):
    """What became of each definition, by file: those of one name and text in another file have moved."""
    pairs = lambda files: {(name, text): path for path, found in files.items() for name, text in found.items()}
    old, new = pairs(before), pairs(after)
    for path in sorted(set(before) | set(after)):
        was, now = before.get(path, {}), after.get(path, {})
        lists = {"changed": [name for name in now if name in was and now[name] != was[name]]}
        for name in now:
            if name not in was:
                origin = old.get((name, now[name]))
                lists.setdefault("from %s" % origin if origin else "new", []).append(name)
        lists["gone"] = [name for name in was if name not in now and (name, was[name]) not in new]
        yield path, {word: names for word, names in lists.items() if names}


def moved_definitions(root, base, head, changed):
    paths = [path for _, _, path in changed if re.fullmatch(r"crates/\w+/specs/.*\.antt", path)]
    sides = [{path: definitions(file_at(root, side, path)) for path in paths} for side in (base, head)]
    for path, lists in moves(*sides):
        if lists:
            yield "- %s: %s" % (path, "; ".join("%s %s" % (word, ", ".join(names)) for word, names in lists.items()))


def rechecked(old, new, changed):
    """The crates whose own files or line in crates.txt changed, those that stand on them, those that stayed, those that went."""
    words = [path.split("/") for _, _, path in changed if path.startswith("crates/")]
    touched = {word[1] for word in words if word[2:] and word[2] in CHECKED}
    own = [name for name in new if name in touched or old.get(name) != new[name]]
    on_them = crates.above(new, own)
    stayed = [name for name in new if name not in own and name not in on_them]
    return own, on_them, stayed, [name for name in old if name not in new]


def note(root, base, head):
    """The lines of the note."""
    git(root, "rev-parse", "--git-dir")  # else a folder that git will not read would be called a commit that is not there
    base, head = commit(root, base), commit(root, head)
    changed = changes(root, base, head)
    yield "From %s to %s" % (base[:10], head[:10])
    yield ""
    yield from table(changed)
    yield ""
    yield "Definitions"
    yield ""
    yield from list(moved_definitions(root, base, head, changed)) or ["none moved"]
    yield ""
    old, new = (crates.listed(file_at(root, side, "crates.txt")) for side in (base, head))
    words = ("Checked again, changed themselves", "Checked again, standing on those", "Stayed", "Gone")
    for word, names in zip(words, rechecked(old, new, changed)):
        yield "%s (%d): %s" % (word, len(names), " ".join(names) or "none")


def main(words):
    if len(words) not in (1, 2) or any(word.startswith("-") for word in words):
        print(__doc__.strip(), file=sys.stderr)
        return 2
    try:
        for line in list(note(ROOT, *words, *["HEAD"][len(words) - 1:])):
            print(line)
    except (Stop, OSError) as error:
        print("landing: %s" % error, file=sys.stderr)
        return 2
    return 0


if __name__ == "__main__":
    sys.exit(main(sys.argv[1:]))
