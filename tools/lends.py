#!/usr/bin/env python3
"""What the solver may change of the buffers lent to it, by documents 01 and 02 alone, and the cases that crate
lends runs.

  lends.py     writes stdin and stdout of crate lends
"""
import struct

import oracle
import sheet_reading
import sheets
import stored

SCRATCH = 4096


def sizes(data):
    """Nodes, links and allowed trials of a good sheet."""
    kind, nodes, links = sheet_reading.reading(data)
    assert kind == "G"
    return nodes, links, struct.unpack_from("<H", data, 26)[0]


def needed(data):
    nodes, links, trials = sizes(data)
    return [nodes, nodes, links, links, 4 * trials, SCRATCH]


def words(counts, changed):
    """A line of the program: each buffer's changes are its first entries."""
    return "A " + " ".join(map(str, counts)) + "".join(" 0+%d" % n if n else " -" for n in changed) + "\n"


def expected(data, lengths, listing):
    """From the listing that the sheet gives with buffers that are long enough."""
    number, place, trials, freed, grounded = (int(x) for x in listing.splitlines()[0].split()[1:])
    if 1 <= number <= 4:
        return words((number, place, 0, 0, 0), [0] * 6)
    for at, (have, need) in enumerate(zip(lengths, needed(data))):
        if have < need:
            return words((5, at, 0, 0, 0), [0] * 6)
    nodes, links, _ = sizes(data)
    results = [nodes, nodes, links, links] if number == 0 else [0] * 4
    return words((number, place, trials, freed, grounded), results + [4 * trials, SCRATCH])


def lent(data):
    """Lengths to lend: too short by one in each place and in all, fitting, longer, none."""
    if sheet_reading.reading(data)[0] != "G":
        return [[64, 64, 128, 128, 800, SCRATCH], [0] * 6]
    need = needed(data)
    chosen = [need, [80, 80, 160, 160, 1000, 4200], [0] * 6, [max(n - 1, 0) for n in need]]
    for at in range(6) if len(data) < 400 else ():
        if need[at]:
            chosen.append(need[:at] + [need[at] - 1] + need[at + 1:])
            chosen.append([n + 3 for n in need[:at]] + [need[at] - 1] + need[at + 1:])
    return chosen


def chosen(pairs):
    """Of each number the first sheets, the shortest first; then the longest that is solved."""
    of_number = {}
    for data, text in sorted(pairs, key=lambda pair: len(pair[0])):
        of_number.setdefault(int(text.split()[1]), []).append((data, text))
    for number in sorted(of_number):
        yield from of_number[number][:3]
    yield max((pair for pair in pairs if pair[1].startswith("A 0 ")), key=lambda pair: len(pair[0]))


def drawn_sevens(pairs):
    """The shortest sheet that a drawn flow ends."""
    ended = [pair for pair in pairs if pair[1].startswith("A 7 ") and int(pair[1].split()[2]) >= 256]
    yield min(ended, key=lambda pair: len(pair[0]))


def cases():
    """From the stored list as it was before PD, then from what came with PD."""
    texts = oracle.split(stored.read("crates/replay/stdout").decode())
    pairs = [(case.data, text) for case, text in zip(sheets.stored(), texts)]
    first = len(sheets.stored_first())
    with_pd = [pair for pair in pairs[first:] if pair[0][29:31] == b"PD"]
    yield from chosen(pairs[:first])
    yield from chosen(with_pd)
    yield from drawn_sevens(with_pd)


def files():
    stdin, stdout = b"", ""
    for data, text in cases():
        for lengths in lent(data):
            if all(n <= most for n, most in zip(lengths, (80, 80, 160, 160, 1000, 4200))):
                stdin += struct.pack("<6HI", *lengths, len(data)) + data
                stdout += expected(data, lengths, text)
    return {"crates/lends/stdin": stdin, "crates/lends/stdout": stdout.encode()}


if __name__ == "__main__":
    stored.write(files())
