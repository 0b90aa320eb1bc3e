#!/usr/bin/env python3
"""The must-fail edits, tried by `rt must-fail`, and what is to be mended of them (docs/DECISIONS.md, "Working quickly").

  edits.py [NAME...]     the edits of these crates; with no name, of every crate that has some

`rt must-fail` begins with what `rt check` kept and tries again only what changed. Here each edit has a line with the
crate, the edit, the verdict and rt's reason. UNFIT is a refusal that says only that the proof no longer fits: a proof
file names what the edited code has not. BAD EDIT is one that cannot be applied, compiled or read, NOT TRIED one whose
check was cut off. Where the unedited crate itself is not proved, its edits say nothing, so its `rt check` comes first.

Exit status: 0 every edit was refused, and fits; 1 one was not, or a crate is not proved; 2 bad use.
"""
import glob
import os
import re
import subprocess
import sys

import product  # noqa: F401
from checks import read
from coordinator import crates, programs

REFUSED, UNFIT, PROVED, BAD, UNTRIED = "refused", "UNFIT", "NOT REFUSED", "BAD EDIT", "NOT TRIED"
TRIED = re.compile(r"rt: must-fail (\w+)/([\w.-]+)\.edit: (refused|NOT REFUSED|BAD EDIT|NOT TRIED)\b[:,]? ?(.*)")
ONLY_THE_PROOF = "(only because a proof file names"
WIDTH = 160


class Stop(Exception):
    """Nothing can be tried; the text says why."""


def with_edits(root, names):
    """Those of these crates that have edits, of all where none is named."""
    listed = crates.listed(read(os.path.join(root, "crates.txt")))
    having = [name for name in listed if glob.glob(os.path.join(root, "crates", name, "must-fail", "*.edit"))]
    lost = sorted(set(names) - set(having))
    if lost:
        raise Stop("no crate of crates.txt with must-fail edits: " + " ".join(lost))
    return [name for name in having if not names or name in names]


def judged(line):
    """Of a line that rt prints of an edit: crate, edit, verdict and why; None for any other."""
    found = TRIED.match(line)
    if not found:
        return None
    crate, edit, verdict, why = found.groups()
    if verdict == REFUSED:
        verdict = UNFIT if ONLY_THE_PROOF in why else REFUSED
        why = re.sub(r"^as it must be:? ?", "", why)
    return crate, edit, verdict, why


def said(root, name):
    """The lines of `rt must-fail`, as they come."""
    with subprocess.Popen(["rt", "must-fail", name], cwd=root, stdin=subprocess.DEVNULL, stdout=subprocess.PIPE,
                          stderr=subprocess.STDOUT, universal_newlines=True, errors="replace") as process:
        yield from process.stdout


def proved(root, name):
    """`rt must-fail` would call any edit of a crate refused that is not proved as it stands."""
    folder = os.path.join(root, "crates", name)
    return subprocess.run(["rt", "check"], cwd=folder, stdin=subprocess.DEVNULL, capture_output=True, check=False).returncode == 0


def run(root, names):
    """Tries the edits; gives the exit status."""
    verdicts, chosen, unproved = {}, [], []
    for name in with_edits(root, names):
        if not proved(root, name):
            unproved.append(name)
            print("%s is not proved, so no edit was tried: `rt check` in crates/%s tells why" % (name, name), flush=True)
            continue
        chosen.append(name)
        for line in said(root, name):
            told = judged(line.rstrip("\n"))
            if told:
                crate, edit, verdict, why = told
                verdicts[crate, edit] = verdict
                print("%s %s: %s: %s" % (crate, edit, verdict, why[:WIDTH]), flush=True)
    untold = [path for name in chosen for path in glob.glob(os.path.join(root, "crates", name, "must-fail", "*.edit"))
              if (name, os.path.basename(path)[:-len(".edit")]) not in verdicts]
    wrong = [verdict for verdict in verdicts.values() if verdict != REFUSED]
    print("%d refused, %d not as they must be, %d of which nothing was said" % (len(verdicts) - len(wrong), len(wrong), len(untold)))
    return 1 if wrong or untold or unproved else 0


def main(words):
    try:
        if any(word.startswith("-") for word in words):
            raise Stop(__doc__.strip())
        return run(programs.ROOT, words)
    except (Stop, OSError) as error:
        print("edits: %s" % error, file=sys.stderr)
        return 2


if __name__ == "__main__":
    sys.exit(main(sys.argv[1:]))
