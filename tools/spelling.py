#!/usr/bin/env python3
"""Spells the definitions and lemmas of crates/ in snake case, once: `littleEndian` and `little-endian` become
`little_endian`. Types, modules, functions of src/, strings, and what a library or Rattle names stay.

usage: python3 tools/spelling.py [--dry] [ROOT]
"""
import os
import re
import sys

TOKEN = re.compile(r"[^\s(){}.;,@\"«»]+")
# two names that are words of Rattle's now: a tactic, and a word that starts a declaration
OWN = {"ground": "ground_node"}
SKIP_BEHIND = re.compile(r"(?:\btie|\blts|\breads|\bgoal|-reads|-tie|-lts)\.$")


def snake(name):
    name = re.sub(r"(?<=[a-z0-9])[A-Z](?![A-Z])", lambda m: "_" + m[0].lower(), name)
    name = re.sub(r"(?<=[a-z0-9])[A-Z]+", lambda m: "_" + m[0].lower(), name)
    return name.replace("-", "_")


def files(root, end):
    for folder, dirs, names in os.walk(os.path.join(root, "crates")):
        dirs[:] = sorted(d for d in dirs if d not in ("out", "target"))
        for n in sorted(names):
            if n.endswith(end):
                yield os.path.join(folder, n)


def declared(text):
    """Names that a file of definitions or lemmas declares: at the margin or in a module, and the fields of records."""
    found = set()
    for line in text.splitlines():
        if re.match(r"^\s*(--|use |mod |pub mod |module |unfolding |because )", line):
            continue
        m = re.match(r"^((?:  )?)((?:pub |abbrev |unfoldable |constructor )*)(\S+)(?= .*? :|\s+:|$)", line)
        if not m:
            continue
        indent, words, name = m.groups()
        if " : " not in line and not line.rstrip().endswith(" :"):
            continue
        if not TOKEN.fullmatch(name) or name in ("record", "data", "let", "in", "where", "elim", "λ"):
            continue
        # a clause `name x = ...` has ` = ` before any ` : `
        head = line[m.end():]
        if re.match(r"\s*:(\s|$)", head) or re.match(r"\s*[({].*\s:(\s|$)", head):
            if indent and "pub" not in words and not re.match(r"^  \S+( [({].*)? :(\s|$)", line):
                continue
            found.add(name)
    return found


def imported(text, own_libraries):
    """Names that a file takes from a library."""
    found = set()
    for m in re.finditer(r"(?m)^\s*(?:ghost )?(?:pub )?use ([^\s;{]+?)\.?(?:\{([^}]*)\}|\s|;|$)", text):
        path, names = m[1], m[2]
        steps = path.split(".")
        mine = steps[0] == "Rattle" and len(steps) > 1 and steps[1] in own_libraries
        if mine or not names:
            continue
        for n in names.split(","):
            n = n.strip().split(" as ")[-1].strip()
            found.add(n)
    return found


def main(argv):
    dry = "--dry" in argv
    argv = [a for a in argv if a != "--dry"]
    root = argv[0] if argv else "."
    own = set(os.listdir(os.path.join(root, "crates")))
    texts = {p: open(p, encoding="utf-8").read() for p in files(root, (".antt", ".rt"))}
    said, proved = set(), set()
    for p, t in texts.items():
        if p.endswith(".antt") and not p.endswith("/Proof.antt"):
            if "/specs/" in p:
                said |= declared(t)
            else:
                proved |= declared(t)
    names = said | proved
    turn = {n: OWN.get(n, snake(n)) for n in names if n not in ("_",) and (n in OWN or (re.match(r"[a-z]", n) and snake(n) != n))}
    # where a lemma would have a definition's name, it gets `_lem`, and so does a lemma beside one of camel case
    new = lambda n: turn.get(n, n)
    together = {}
    for n in sorted(names):
        together.setdefault(new(n), []).append(n)
    for name, of in sorted(together.items()):
        if len(of) < 2:
            continue
        stays = [n for n in of if n in said and "-" not in n] or [n for n in of if n in said] or [n for n in of if re.search("[A-Z]", n)] or [n for n in of if n == name] or of
        stays = ([n for n in stays if re.search("[A-Z]", n)] or stays)[:1]
        for n in of:
            if n not in stays:
                turn[n] = name + ("_lem" if n not in said else "_said")
                print(f"apart: {n} -> {turn[n]} beside {stays[0]} -> {name}")
                if turn[n] in names:
                    print(f"meets: {n} -> {turn[n]}")
    back = {}
    for n in sorted(turn):
        back.setdefault(turn[n], []).append(n)
    for n, of in sorted(back.items()):
        if len(of) > 1:
            print(f"meets: {of} -> {n}")
    changed = 0
    for p, t in sorted(texts.items()):
        outside = imported(t, own)
        here = {n: m for n, m in turn.items() if n not in outside}
        tokens = set(m[0] for m in TOKEN.finditer(t) if t[m.start() - 1:m.start()] not in (".", "·") and t[m.end():m.end() + 1] not in (".", "·"))
        if p.endswith(".rt"):
            tokens |= set(re.findall(r"\b(?:let|let mut) (\w+)|[(,]\s*(?:mut )?(\w+): ", t) and [a or b for a, b in re.findall(r"\b(?:let mut|let) (\w+)|[(,]\s*(?:mut )?(\w+): ", t)])
        for n in sorted(set(TOKEN.findall(t)) & set(here)):
            if here[n] in tokens and here[n] not in turn and (p.endswith(".rt") or not p.endswith("/Proof.antt")):
                print(f"look: {p}: {n} -> {here[n]}, a name in it already")
            if here[n] in outside:
                print(f"look: {p}: {n} -> {here[n]}, which it takes from a library")
        if p.endswith(".rt"):
            here = {n: m for n, m in here.items() if re.search(r"[A-Z-]", n) or n in OWN}
        pieces, at = [], 0
        for m in TOKEN.finditer(t):
            new = here.get(m[0])
            if new is None or SKIP_BEHIND.search(t[max(0, m.start() - 12):m.start()]):
                continue
            if p.endswith(".rt") and not in_clause(t, m.start()):
                continue
            line = t[t.rfind("\n", 0, m.start()) + 1:m.start()]
            # a tactic's name is a common word too: of a function, and in comments
            if m[0] in OWN and ("--" in line or "//" in line or "." in (t[m.start() - 1:m.start()], t[m.end():m.end() + 1]) or (p.endswith(".rt") and not re.match(r"\s*(requires|ensures|ghost)\b", line))):
                continue
            pieces += [t[at:m.start()], new]
            at = m.end()
        new = "".join(pieces) + t[at:]
        if new != t:
            changed += 1
            if not dry:
                with open(p, "w", encoding="utf-8") as f:
                    f.write(new)
    print(f"{len(turn)} names, {changed} files")


def in_clause(text, at):
    """Whether a place of a source stands in a clause or an import of one, and not in code or a string."""
    line = text[text.rfind("\n", 0, at) + 1:at]
    if re.match(r"\s*(requires|ensures|ghost)\b", line):
        return True
    if "//" in line:
        return True
    before = text[:at]
    last = max(before.rfind("requires"), before.rfind("ensures"), before.rfind("ghost use"))
    if last < 0:
        return False
    part = before[last:]
    return part.count("{") > part.count("}")


if __name__ == "__main__":
    main(sys.argv[1:])
