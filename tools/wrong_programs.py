#!/usr/bin/env python3
"""Counts the must-fail edits: by part, by public function, and by row of docs/PROMISES.md.

  wrong_programs.py          the counts, and what breaks the rule (docs/DECISIONS.md, "The gate")

An edit is a public function's where it changes a line of its body, or of a private function or a constant of the
crate that it reaches with no other public function between. A function that is one call of public
ones has theirs, and one that is a system call has none (EXCEPT). Exit status: 0 the rule is kept; 1 it is not.
"""
import glob
import os
import re
import sys

import product  # noqa: F401
from checks import read
from coordinator import crates, programs

PARTS = ("src", "specs", "proofs")
LEAST = 2
# read_within under base_bounds; writes
EXCEPT = {("sheet", "read"), ("text_out", "show"), ("rows_out", "show_rows")}


def edits_of(root, crate):
    """Label and text of each edit of a crate."""
    paths = sorted(glob.glob(os.path.join(root, "crates", crate, "must-fail", "*.edit")))
    return {os.path.basename(path)[:-len(".edit")]: read(path) for path in paths}


def changes(edit):
    """The pairs of an edit: file, old text, new text."""
    name = old = ""
    for line in edit.split("\n"):
        if line.startswith("file: "):
            name = line[len("file: "):]
        elif line.startswith("old: "):
            old = line[len("old: "):]
        elif line.startswith("new:"):
            yield name, old, line[len("new:"):].removeprefix(" ")


def part(edit):
    """src where the edit changes a program, else the first part that it changes."""
    parts = [name.split("/")[0] for name, _, _ in changes(edit)]
    return "src" if "src" in parts else parts[0]


def passed_on(source):
    """Module and name of whatever a source passes on: `pub use m::f;` and `pub use m::{f, g};`, on one line or several."""
    for module, one, several in re.findall(r"^pub use (\w+)::(?:(\w+)|\{([^}]*)\});", source, re.M):
        for name in re.findall(r"\w+", one or several):
            yield module, name


def method(head, name):
    """A function in an `impl` block by its type and name: `Table::put`, and of a conversion `Kind::from<u8>`."""
    found = re.match(r"impl(?:<[^>]*>)? (?:(?:Try)?From(<\w+>) for )?(\w+)", head)
    return "%s::%s%s" % (found.group(2), name, found.group(1) or "")


class Sources:
    """The functions and constants of a crate's src/, and who names whom."""

    def __init__(self, root, crate):
        self.folder = os.path.join(root, "crates", crate)
        paths = glob.glob(os.path.join(self.folder, "src", "**", "*.rt"), recursive=True)
        self.texts = {os.path.relpath(path, self.folder): read(path) for path in sorted(paths)}
        self.spans = {}  # (file, name): first line, last line
        self.heads = {}  # the same, of a function in an `impl` block: the block's first line
        for file, text in self.texts.items():
            lines, block = text.split("\n"), 0
            for number, line in enumerate(lines):
                block = number if line.startswith("impl") else block
                found = re.match(r'(    )?(?:pub )?(?:extern "C" )?(?:fn|const) (\w+)', line)
                if found and found.group(1):
                    last = next(k for k in range(number, len(lines)) if lines[k] == "    }")
                    self.spans[file, method(lines[block], found.group(2))] = number, last
                    self.heads[file, method(lines[block], found.group(2))] = block
                elif found:
                    ends = ("}",) if " const " not in " " + line else ("];", "}")
                    last = number if line.endswith(";") else next(k for k in range(number, len(lines)) if lines[k] in ends)
                    self.spans[file, found.group(2)] = number, last
        self.public = self.exported()

    def exported(self):
        """The public functions: those of lib.rt, and those of its modules that it passes on; the public methods of its
        types, and their conversions."""
        top = self.texts.get("src/lib.rt", "")
        found = {("src/lib.rt", name) for name in re.findall(r'^pub (?:extern "C" )?fn (\w+)', top, re.M)}
        types = set(re.findall(r"^pub (?:struct|enum) (\w+)", top, re.M))
        for module, name in passed_on(top):
            text = self.texts.get("src/%s.rt" % module, "")
            if re.search(r"^pub fn %s\b" % name, text, re.M):
                found.add(("src/%s.rt" % module, name))
            if re.search(r"^pub (?:struct|enum) %s\b" % name, text, re.M):
                types.add(name)
        for (file, name), block in self.heads.items():
            lines = self.texts[file].split("\n")
            named = types & set(re.findall(r"\w+", lines[block]))
            if named and (lines[self.spans[file, name][0]].startswith("    pub ") or re.match(r"impl (?:Try)?From<", lines[block])):
                found.add((file, name))
        return sorted(found)

    def body(self, key):
        first, last = self.spans[key]
        return "\n".join(self.texts[key[0]].split("\n")[first:last + 1])

    def reached(self, key):
        """The function and what private ones and constants it names, one through the other."""
        names = {name.split("::")[-1]: (file, name) for file, name in self.spans}
        seen, left = set(), [key]
        while left:
            here = left.pop()
            if here in seen or (here in self.public and here != key):
                continue
            seen.add(here)
            left += [names[word] for word in set(re.findall(r"\w+", self.body(here))) if word in names]
        return seen

    def touched(self, edit):
        """The functions and constants that an edit changes lines of; None where a text is not there once."""
        texts, found = dict(self.texts), set()
        for file, old, new in changes(edit):
            texts.setdefault(file, read(os.path.join(self.folder, file)))
            if texts[file].count(old) != 1:
                return None
            line = texts[file][:texts[file].index(old)].count("\n")
            found |= {key for key, (first, last) in self.spans.items() if key[0] == file and first <= line <= last}
            texts[file] = texts[file].replace(old, new)
        return found


class Count:
    """What a repository has."""

    def __init__(self, root):
        self.parts = dict.fromkeys(PARTS, 0)
        self.functions = {}  # (crate, function): labels
        self.own = {}  # the same, of those that change the function's own body
        self.strays = []  # (crate, label) of edits that change no program where there is one
        self.lost = []  # of those whose text is not in the file once
        self.labels = set()
        for crate in crates.listed(read(os.path.join(root, "crates.txt"))):
            self.add(root, crate)
        self.rows = bare_rows(read(os.path.join(root, "docs", "PROMISES.md")), self.labels)

    def add(self, root, crate):
        edits, sources = edits_of(root, crate), Sources(root, crate)
        touched = {label: sources.touched(edit) for label, edit in edits.items()}
        self.lost += [(crate, label) for label in edits if touched[label] is None]
        touched = {label: keys or set() for label, keys in touched.items()}
        self.labels |= set(edits)
        for label, edit in edits.items():
            self.parts[part(edit)] += 1
            if sources.public and part(edit) != "src":
                self.strays.append((crate, label))
        for key in sources.public:
            reached = sources.reached(key)
            self.functions[crate, key[1]] = [label for label in edits if touched[label] & reached]
            self.own[crate, key[1]] = [label for label in edits if key in touched[label]]

    def few(self):
        return sorted(pair for pair, labels in self.functions.items() if len(labels) < LEAST and pair not in EXCEPT)


def bare_rows(paper, labels):
    """The sentences of rows whose must-fail cell names no edit, nor says that no program can be wrong there."""
    found = []
    for table in paper.split("| must-fail |")[1:]:
        rows = [line for line in table.split("\n\n")[0].splitlines()[2:] if line.startswith("| ")]
        last = 2 if table.startswith(" test |") else 1
        for row in rows:
            cells = [cell.strip() for cell in re.split(r"(?<!\\)\|", row)]
            if not cells[-1 - last].startswith("no program can") and not labels & set(re.findall(r"\w+", cells[-1 - last])):
                found.append(cells[1])
    return found


def main():
    count = Count(programs.ROOT)
    print("edits: %d (%s)" % (sum(count.parts.values()), ", ".join("%s %d" % pair for pair in count.parts.items())))
    print("public functions: %d; with %d edits of their own body: %d" % (
        len(count.functions), LEAST, sum(len(labels) >= LEAST for labels in count.own.values())))
    for title, broken in (("edits whose text is not there once", count.lost),
                          ("edits of no program in a crate that has one", count.strays),
                          ("public functions with fewer than %d" % LEAST, count.few())):
        print("%s: %d" % (title, len(broken)))
        for crate, name in broken:
            print("  %s %s" % (crate, name))
    print("rows without an edit: %d" % len(count.rows))
    for row in count.rows:
        print("  " + row)
    return 1 if count.lost or count.strays or count.few() or count.rows else 0


if __name__ == "__main__":
    sys.exit(main())
