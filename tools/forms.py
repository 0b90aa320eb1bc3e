"""Counts in src/ the places that docs/DESIGN-PASS.md speaks of, point by point.

    python3 tools/forms.py [COMMIT] [--list]

Without a commit it reads the files as they lie here. It goes by text: a place that it finds may be right as it is,
and the page says why.
"""
import re
import subprocess
import sys
from collections import defaultdict

ROOT = subprocess.run(["git", "rev-parse", "--show-toplevel"], capture_output=True, text=True, check=True).stdout.strip()


def sources(commit):
    """Each source of crates/*/src by its path, without comments."""
    if commit:
        names = git("ls-tree", "-r", "--name-only", commit, "crates").split("\n")
    else:
        names = git("ls-files", "crates").split("\n")
    found = {}
    for name in sorted(names):
        if re.fullmatch(r"crates/\w+/src/\w+\.rt", name) and not re.search(r"/tables(_871)?\.rt$", name):
            try:
                text = git("show", f"{commit}:{name}") if commit else open(f"{ROOT}/{name}", encoding="utf-8").read()
            except FileNotFoundError:
                continue
            found[name] = re.sub(r"^\s*//.*$|  // .*$", "", text, flags=re.M)
    return found


def git(*words):
    return subprocess.run(["git", "-C", ROOT, *words], capture_output=True, text=True, check=True).stdout.strip("\n")


def functions(text):
    """Name, signature with its clauses, and body of each function."""
    for m in re.finditer(r"^ *(?:pub )?(?:extern \"C\" )?fn (\w+)", text, re.M):
        at = text.find("\n{\n", m.start())
        brace = text.find(" {\n", m.start())
        line = text.find("\n", m.start())
        if brace != -1 and (at == -1 or brace < at) and text[m.start():brace].count("(") == text[m.start():brace].count(")"):
            at = brace
        if at == -1:
            continue
        pad = re.match(r" *", text[m.start():]).group(0)
        end = text.find("\n" + pad + "}", at)
        yield m.group(1), text[m.start():at], text[at:end]


def enums(text):
    """Own enums of the shape of Option or Result: two variants, one of them empty or both with one value."""
    for m in re.finditer(r"enum (\w+)[^{]*\{\n(.*?)\n\}", text, re.S):
        variants = [v.strip(" ,") for v in m.group(2).split("\n") if v.strip()]
        if len(variants) == 2 and any("(" in v for v in variants):
            yield f"enum {m.group(1)}"


def flags(text):
    """A flag that says whether the fields beside it hold anything."""
    return re.findall(r"pub (?:good|given|fits|none|last): bool", text)


def numbers(text):
    """Numbers for kinds, statuses and refusals: constants, parameters, fields and results."""
    found = re.findall(r"const (?:ACTIVE|XPRESSURE|TEMP_CLOSED|NO_UNKNOWN)\b|\bkind: usize|pub (?:number|how|unit): (?:usize|u64)|Mark\(\d+, \d+", text)
    for name, signature, _ in functions(text):
        if re.search(r"-> (?:u64|usize|u8)\b", signature) and re.search(r"fault|_kind$|_code$|^pipe_status$|status_said|^unit_of$|^count_of$", name):
            found.append(f"fn {name}")
    return found


def loops(text):
    """Loops that count an index by hand."""
    return [f"while in {name}" for name, _, body in functions(text) for _ in re.findall(r"\bwhile\b", body)]


def indexed(text):
    """`for` over a range whose variable does nothing but index."""
    found = []
    for name, _, body in functions(text):
        for m in re.finditer(r"for (\w+) in 0\.\.[^{]*\{(.*?)\n    \}", body, re.S):
            uses = re.findall(r"(?<!\w)" + m.group(1) + r"(?!\w)", m.group(2))
            inside = re.findall(r"\[" + m.group(1) + r"\]", m.group(2))
            if uses and len(uses) == len(inside):
                found.append(f"for {m.group(1)} in {name}")
    return found


def by_hand(text):
    """Equality, conversion and copying written by hand."""
    names = r"fn (same_\w+|node_kind|link_kind|status_of|status_code|node_code|link_code|flag_byte|copy_floats|copy_bytes|kind_of|one)\("
    return re.findall(names, text)


def twins(files):
    """Functions whose bodies differ only in names and literals."""
    shapes = defaultdict(list)
    for path, text in files.items():
        for name, _, body in functions(text):
            shape = re.sub(r"\b0x[0-9a-f_]+\b|\b\d[\d_.]*\b|b?\"[^\"]*\"|b'.'", "0", body)
            shape = re.sub(r"\b(?!for\b|in\b|if\b|else\b|let\b|mut\b|return\b|match\b|while\b|as\b)[A-Za-z_]\w*(?:::\w+)*", "x", shape)
            shape = re.sub(r"\s+", " ", shape)
            if len(shape) > 60:
                shapes[shape].append(f"{path.split('/')[1]}::{name}")
    return [" ".join(group) for group in shapes.values() if len(group) > 1]


FACTS = [
    ("a layout and its sheet", r"Laid l sheet\.(?:now|old)"),
    ("the ends of a sheet's links", r"EndsIn l sheet\.now"),
    ("a line and the places of its words", r"Words line\.now places\.now|Words said\.now"),
    ("the power's table", r"(?:table|powers)\.now ≡ power_table"),
    ("a table of names", r"Kept text\.now|Tabled text\.now"),
    ("the links at each node", r"LinksAt l sheet\.now"),
    ("the column of unknowns", r"RowsRight l sheet\.now"),
    ("the matrix's length", r"length (?:matrix|a|l)\.(?:old|now) ≡ 4096|scratch\.old ≡ zeros 4096"),
]


def facts(files):
    """Functions in whose contracts such a fact stands."""
    for title, pattern in FACTS:
        where = [f"{path.split('/')[1]}::{name}" for path, text in files.items() for name, signature, _ in functions(text) if re.search(pattern, signature)]
        if where:
            yield title, where


def buffers(text):
    """Numbers laid flat in an array, and buffers with a length or a place beside them."""
    found = re.findall(r"\[usize; (?:20|2560|5120)\]", text)
    for name, signature, _ in functions(text):
        if re.search(r"out: &mut \[u8\],\s+at: usize|rows: &(?:mut )?\[usize\],\s+count: usize|places: &(?:mut )?\[usize\],\s+listed", signature):
            found.append(f"fn {name}")
    return found


def choices(text):
    """Chains of tests that only pick a value, a step or a line."""
    return [f"fn {name}" for name, _, body in functions(text) if len(re.findall(r"\bif (?:spells|is_keyword)\(", body)) > 3 or body.count("= told(") > 1]


def main():
    words = [w for w in sys.argv[1:] if w != "--list"]
    files = sources(words[0] if words else "")
    whole = list(files.values())
    each = lambda find: [f"{p.split('/')[1]}: {x}" for p, t in files.items() for x in find(t)]
    rows = [
        ("1 enums of the shape of Option or Result", each(enums)),
        ("1 flags with a value beside", each(flags)),
        ("1 numbers for kinds and refusals", each(numbers)),
        ("2 groups of twins", twins(files)),
        ("3 loops that count by hand", each(loops)),
        ("3 ranges that only index", each(indexed)),
        ("4 equality, conversion and copying by hand", each(by_hand)),
        *[(f"5 {title}", where) for title, where in facts(files)],
        ("6 flat arrays, buffers with a length or place", each(buffers)),
        ("7 chains of tests that pick", each(choices)),
    ]
    for title, places in rows:
        print(f"{len(places):4}  {title}")
        if "--list" in sys.argv:
            for place in places:
                print("       ", place)
    print(f"{sum(t.count(chr(10)) for t in whole):6} lines of src/")


if __name__ == "__main__":
    main()
