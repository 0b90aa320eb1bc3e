#!/usr/bin/env python3
"""Reads the contract of every public function and shows that two results that meet it are equal.

  equal_results.py          writes docs/EQUAL.md, and names what has not this form

A contract has the form where its `ensures` clauses hold equations such that

- on a left side stand the result and what each `&mut` parameter holds at the exit, alone or as a part of a record of
  which every part is given, so that it can be read back;
- a right side names what came in and nothing else.

A record is written out, or made by an abbreviation of specs/ whose every argument is a field. A predicate that is a
record of equations (words' `Put`) counts as these. Clauses that say more are passed over. Two results that meet such a
contract are equal to the same thing (promises/proofs/One.antt). Exit status: 0 each function has the form, or
docs/EXCEPTIONS.md names it; 1 one has it not, or is named there and has it.
"""
import glob
import os
import re
import sys

import product  # noqa: F401
from checks import read
from coordinator import crates, programs
from wrong_programs import Sources

PAPER = os.path.join("docs", "EQUAL.md")
TOKEN = re.compile(r"«[^»]*»|\.\w[\w-]*|[()\[\]{};=]|λ|≡|×|≤|<|→|:|[^\s()\[\]{};=.]+")
RESULT = "result"
# of these there is always one, so that a contract for all of them says something
INHABITED = {"List", "ℕ", "Bool", "Float"}


class Unreadable(Exception):
    """A clause that has not the form; why."""


def tokens(text):
    return TOKEN.findall(text)


def grouped(words):
    """Nested lists: ["(", ...] and ["record", ...] are groups."""
    stack = [[]]
    for word in words:
        if word == "(":
            stack.append(["("])
        elif word == "{":
            if not stack[-1] or stack[-1][-1] != "record":
                raise Unreadable("a brace that is no record's")
            stack[-1].pop()
            stack.append(["record"])
        elif word in (")", "}"):
            if len(stack) == 1:
                raise Unreadable("brackets that do not match")
            group = stack.pop()
            stack[-1].append(group)
        else:
            stack[-1].append(word)
    if len(stack) != 1:
        raise Unreadable("brackets that do not match")
    return stack[0]


def split(words, mark):
    """The parts between the marks of one level."""
    parts = [[]]
    for word in words:
        if word == mark:
            parts.append([])
        else:
            parts[-1].append(word)
    return parts


def bare(term):
    """Without brackets around the whole."""
    while len(term) == 1 and isinstance(term[0], list) and term[0][0] == "(":
        term = term[0][1:]
    return term


def flat(term):
    for word in term:
        if isinstance(word, list):
            yield from flat(word[1:])
        else:
            yield word


def arguments(term):
    """Of an application: each argument with the fields that are taken of it."""
    found = []
    for word in term[1:]:
        if isinstance(word, str) and word.startswith("."):
            found[-1].append(word)
        else:
            found.append([word])
    return found


def replaced(term, values):
    """With each name in its place."""
    found = []
    for word in term:
        if isinstance(word, list):
            found.append([word[0]] + replaced(word[1:], values))
        elif word in values:
            found.append(["("] + values[word])
        else:
            found.append(word)
    return found


class Specs:
    """The definitions of a repository's specs/."""

    def __init__(self, root):
        self.root = root
        self._texts = {}

    def text(self, crate, module):
        """Of a module of a crate's specs/, which is a file or a part of one that the kit makes."""
        path = os.path.join(self.root, "crates", crate, "specs", *module.split(".")) + ".antt"
        if path not in self._texts:
            self._texts[path] = read(path) if os.path.exists(path) else ""
        return self._texts[path]

    def origin(self, crate, module, name):
        """The module that a name is defined in, where this one passes it on."""
        for other, names in re.findall(r"^(?:unfoldable )?pub use (\S+)\.\{(.*)\}$", self.text(crate, module), re.M):
            if name in names.split(", ") and home(other):
                return self.origin(*home(other), name)
        return self.text(crate, module)

    def parts(self, crate, module, name):
        """Of an abbreviation that makes a record: its arguments, and which of them are fields of it; None where it makes
        none."""
        text = self.origin(crate, module, name)
        found = re.search(r"^abbrev pub %s : .*\n%s((?: [^\s=]+)*) = record \{ (.*?) \}$" % (2 * (re.escape(name),)), text, re.M)
        if not found:
            return None
        names = found.group(1).split()
        values = [field.split(" = ", 1)[1] for field in found.group(2).split("; ")]
        return names, [name for name in names if name in values]

    def equations(self, crate, module, name):
        """Of a predicate that is a record: its parameters, what its fields say, and the definitions that they name; None
        where it is none."""
        text = self.origin(crate, module, name)
        found = re.search(r"^pub record %s ((?:\([^)]*\) )*): Type 0 where\n((?:  pub .*\n)*)" % re.escape(name), text, re.M)
        if not found:
            return None
        groups = re.findall(r"\(([^):]*):[^)]*\)", found.group(1))
        fields = [line.split(" : ", 1)[1] for line in found.group(2).splitlines()]
        defined = [word for field in fields for word in tokens(field) if re.search(r"^\w+ pub %s :" % re.escape(word), text, re.M)]
        return [name for group in groups for name in group.split()], fields, defined

    def has_record(self, fields):
        """Whether some record or struct has these fields and no other."""
        return frozenset(fields) in self.records()

    def records(self):
        if "records" not in self._texts:
            found = set()
            for path in glob.glob(os.path.join(self.root, "crates", "*", "specs", "**", "*.antt"), recursive=True):
                for body in re.findall(r"^pub record \S+ : Type 0 where\n((?:  pub .*\n)+)", read(path), re.M):
                    found.add(frozenset(re.findall(r"^  pub (\S+) :", body, re.M)))
            self._texts["records"] = found
        return self._texts["records"]


def struct_fields(texts, name):
    """Of a struct of these sources."""
    for text in texts:
        found = re.search(r"^pub struct %s \{\n(.*?)^\}" % re.escape(name), text, re.M | re.S)
        if found:
            return re.findall(r"^    (?:pub )?(\w+):", found.group(1), re.M)
    return None


def imported(text):
    """The names that a source's contracts take from elsewhere: name to module, as the kit writes it."""
    found = {}
    for module, names in re.findall(r"^ghost use (\S+)\.\{(.*)\};", text, re.M):
        for name in names.split(", "):
            before, _, after = name.partition(" as ")
            found[after or before] = module, before
    return found


def home(module):
    """(crate, module of its specs/) of a module, or None where it is the kit's."""
    found = re.match(r"Rattle\.(\w+)\.specs\.(.+)$", module)
    return found and (found.group(1), found.group(2))


class Function:
    """A public function and what its contract settles."""

    def __init__(self, specs, sources, crate, file, name):
        self.specs, self.crate, self.name = specs, crate, name
        self.texts = list(sources.texts.values())
        self.names = imported(sources.texts[file])
        head = re.search(r'^ *(?:pub )?(?:extern "C" )?fn \w+(?:<(?:[^<>]|->|<[^<>]*>)*>)?\((.*?)\)(?: -> ([^\n{]+?))?\s*\n?'
                         r'((?: +(?:requires|ensures) [^\n]*\n)*)\s*\{', sources.body((file, name)), re.M | re.S)
        self.buffers = re.findall(r"(\w+): &(?:'\w+ )?mut ", head.group(1)) + re.findall(r"&mut (self)\b", head.group(1))
        self.result = (head.group(2) or "").strip()
        self.clauses = re.findall(r"^ +ensures (?:\w+ )?\{ (.*) \}$", head.group(3), re.M) + given(sources, (file, name))
        self.settled, self.fields, self.definitions, self.passed_over = set(), set(), [], []
        for clause in self.clauses:
            self.clause(clause)
        fields = self.fields and struct_fields(self.texts, self.result)
        if fields and self.fields == set(fields):
            self.settled.add(RESULT)
        needed = [RESULT] * bool(self.result) + self.buffers
        self.faults = ["nothing settles %s" % name for name in needed if name not in self.settled]
        self.faults += self.faults and self.passed_over

    def home(self, name):
        """Where a name of the contract is defined, (crate, module of its specs/); None where not in this repository."""
        return home(self.names[name][0]) if name in self.names else None

    def clause(self, text):
        try:
            self.read(grouped(tokens(text)), set())
        except Unreadable as why:
            self.passed_over.append(str(why))

    def read(self, prop, bound):
        """What a clause settles; where it has not the form, it settles nothing."""
        try:
            self.said(bare(prop), bound)
        except Unreadable as why:
            self.passed_over.append(str(why))

    def said(self, prop, bound):
        if "→" in prop:
            prop, bound = self.without_binders(prop, bound)
            if RESULT in bound:
                raise Unreadable("a name that stands for something else")
            return self.read(prop, bound)
        parts, sides = split(prop, "×"), split(prop, "≡")
        if len(parts) > 1 and all(len(part) == 1 for part in parts):
            for part in parts:
                self.read(part, bound)
        elif len(parts) == 1 and len(sides) == 2:
            self.equation(bare(sides[0]), bare(sides[1]), bound)
        else:
            self.predicate(prop, bound)

    @staticmethod
    def without_binders(prop, bound):
        """A statement for all values of some types, each of which has a value."""
        end = prop.index("→")
        for group in prop[:end]:
            if not isinstance(group, list) or ":" not in group:
                raise Unreadable("an equation under a condition")
            at = group.index(":")
            if next(flat(group[at + 1:]), None) not in INHABITED:
                raise Unreadable("an equation for all values of a type that may have none")
            bound = bound | set(group[1:at])
        return prop[end + 1:], bound

    def predicate(self, prop, bound):
        """A record of equations is these; anything else says more and settles nothing."""
        name = prop[0] if isinstance(prop[0], str) else None
        found = self.home(name) and self.specs.equations(*self.home(name), self.names[name][1])
        if not found:
            raise Unreadable("no equation")
        names, fields, defined = found
        given = arguments(prop)
        if len(given) != len(names):
            raise Unreadable("a predicate without all that it is about")
        self.definitions += [word for word in defined if word not in self.definitions]
        for field in fields:
            self.read(replaced(grouped(tokens(field)), dict(zip(names, given))), bound)

    def equation(self, left, right, bound):
        if not self.comes_out(left):
            raise Unreadable("a left side that names nothing that comes out")
        if self.comes_out(right):
            raise Unreadable("a right side that names what comes out")
        self.part(left)
        for word in flat(right):
            self.define(word, bound)
        if not self.definitions:
            self.definitions.append(" ".join(flat(right)))

    @staticmethod
    def comes_out(term):
        return not {RESULT, ".new", ".exit"}.isdisjoint(flat(term))

    def define(self, word, bound):
        """Notes what a right side is made of, but for records and what the kit knows of lists."""
        record = self.home(word) and self.specs.parts(*self.home(word), self.names[word][1])
        if word in self.names and re.match("[a-z]", word) and not record and word not in {"length", *bound, *self.definitions}:
            self.definitions.append(word)

    def part(self, term):
        """A part of a left side: settles what it names, or names nothing that comes out."""
        term = bare(term)
        if term in ([RESULT], [RESULT, ".now"]):
            self.settled.add(RESULT)
        elif len(term) == 2 and term[0] == RESULT and isinstance(term[1], str) and term[1].startswith("."):
            self.fields.add(term[1][1:])
        elif isinstance(term[0], str) and term[1:] in ([".new"], [".exit", ".now"]):
            self.settled.add(term[0].strip("«»"))
        elif len(term) == 1 and isinstance(term[0], list) and term[0][0] == "record":
            fields = [split(field, "=") for field in split(term[0][1:], ";")]
            if any(len(field) != 2 for field in fields) or not self.specs.has_record([field[0][0].strip("«»") for field in fields]):
                raise Unreadable("a record without all its fields")
            for _, value in fields:
                self.part(value)
        elif self.comes_out(term):
            self.made(term)

    def made(self, term):
        """An application on a left side: an abbreviation that makes a record of all its arguments."""
        name = term[0] if isinstance(term[0], str) else None
        parts = self.home(name) and self.specs.parts(*self.home(name), self.names[name][1])
        if not parts:
            raise Unreadable("a left side from which what comes out cannot be read back")
        given = arguments(term)
        if parts[0] != parts[1] or len(given) != len(parts[0]):
            raise Unreadable("an abbreviation that drops an argument")
        for value in given:
            self.part(value)


def given(sources, key):
    """What a conversion gives, which its `impl` says in place of a clause."""
    block = sources.heads.get(key)
    if block is None:
        return []
    lines = sources.texts[key[0]].split("\n")[block:sources.spans[key][0]]
    found = [re.match(r"    ghost (?:try_)?from_gives = \{ λ \w+ (\w+)\. (.*) \};$", line) for line in lines]
    return [re.sub(r"\b%s\b" % at.group(1), RESULT, at.group(2)) for at in found if at]


def functions(root):
    specs = Specs(root)
    for crate in crates.listed(read(os.path.join(root, "crates.txt"))):
        sources = Sources(root, crate)
        for file, name in sources.public:
            yield Function(specs, sources, crate, file, name)


def excepted(paper):
    """Those that docs/EXCEPTIONS.md names: standard's `put`."""
    found = set()
    for crate, names in re.findall(r"\b([a-z_]+)'s ((?:`[\w:]+`(?:, | and )?)+)", paper):
        found |= {(crate, name) for name in re.findall(r"`([\w:]+)`", names)}
    return found


def table(found):
    lines = ["# Two results that meet a contract are equal", "",
             "Made by `python3 tools/equal_results.py`, which reads every contract and says at its head what it asks of one; "
             "tests/equal_results_test.py holds it. A row is a public function. Its result, and what each buffer that it "
             "was lent to change holds afterwards, equal what the definitions give of what came in: so two results that "
             "meet the contract are equal (promises/proofs/One.antt `one`), and what they leave in the buffers is.", "",
             "| crate | function | result | buffers that it changes | equal what is given by |", "|---|---|---|---|---|"]
    for function in found:
        if not function.faults:
            lines.append("| %s | `%s` | %s | %s | %s |" % (
                function.crate, function.name, function.result and "`%s`" % function.result,
                ", ".join(function.buffers), ", ".join("`%s`" % name for name in function.definitions)))
    lines += ["", "%d functions. Not of this form, and why: [EXCEPTIONS.md](EXCEPTIONS.md)." % sum(not f.faults for f in found)]
    return "\n".join(lines) + "\n"


def broken(found, paper):
    """What has not the form and is not excepted, and what is excepted and has it or is not there."""
    named = excepted(paper)
    bad = {(f.crate, f.name): f.faults for f in found if f.faults}
    lines = ["%s %s: %s" % (*pair, "; ".join(faults)) for pair, faults in bad.items() if pair not in named]
    return lines + ["%s %s: EXCEPTIONS.md names it without need" % pair for pair in sorted(named - set(bad))]


def main():
    found = list(functions(programs.ROOT))
    with open(os.path.join(programs.ROOT, PAPER), "w", encoding="utf-8") as file:
        file.write(table(found))
    lines = broken(found, read(os.path.join(programs.ROOT, "docs", "EXCEPTIONS.md")))
    print("%d public functions, %d of the form; %d broken" % (len(found), sum(not f.faults for f in found), len(lines)))
    for line in lines:
        print("  " + line)
    return 1 if lines else 0


if __name__ == "__main__":
    sys.exit(main())
