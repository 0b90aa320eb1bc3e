#!/usr/bin/env python3
"""The reading of EPANET texts by the proved library: bench/text.py [SECONDS]. Each text is read for so many seconds, once
at least, and the least time counts; it is the processor's time, so that other work on the machine counts for little.
Schemes as surveyors have them first, in columns as EPANET writes them; then the texts of 1 MiB that take longest. On Arm
the library comes from the shared native_lib, as for bench/solves.py."""
import os
import sys

import solves

FOLDER = os.path.join(solves.ROOT, "target", "bench", "texts")
MIB = 1 << 20
NODES = (16, 32, 64, 128, 256, 512)
MOST_NODES, MOST_LINKS = 512, 1024


def line(*words):
    return b" " + b"\t".join(b"%-16s" % word for word in words) + b"\t;\n"


def usual(n):
    """A reservoir and n - 1 junctions with twice as many pipes and valves, a setting each tenth, every node with its place on
    the map."""
    node = [b"J-%d" % (101 + i) for i in range(n - 1)] + [b"Pond"]
    parts = [b"[TITLE]\nA scheme of %d nodes\n\n[JUNCTIONS]\n;ID              \tElev            \tDemand\n" % n]
    parts += [line(node[i], b"%.2f" % (40 + i * 7.31 % 60), b"%.3f" % (0.25 + i % 9)) for i in range(n - 1)]
    parts += [b"\n[RESERVOIRS]\n;ID              \tHead\n", line(node[-1], b"142.75"), b"\n[PIPES]\n"]
    parts += [b";ID              \tNode1           \tNode2           \tLength          \tDiameter        \tRoughness"
              b"       \tMinorLoss       \tStatus\n"]
    valves = n // 8
    for i in range(2 * n - valves):
        start, end = node[i % n], node[(i * 5 + 1 + i // n) % n]
        parts.append(line(b"P-%d" % (1001 + i), start, end, b"%.1f" % (35 + i * 17.3 % 400), b"%d" % (75 + 25 * (i % 8)), b"130",
                          b"0", b"Open"))
    parts.append(b"\n[VALVES]\n;ID\n")
    parts += [line(b"V-%d" % (1 + i), node[i], node[n - 2 - i], b"150", b"PRV", b"35.5", b"0") for i in range(valves)]
    parts.append(b"\n[STATUS]\n")
    parts += [line(b"P-%d" % (1001 + i), b"Closed") for i in range(0, 2 * n - valves, 10)]
    parts.append(b"\n[COORDINATES]\n")
    parts += [line(name, b"%.2f" % (i * 131.7 % 1000), b"%.2f" % (i * 77.1 % 1000)) for i, name in enumerate(node)]
    parts.append(b"\n[OPTIONS]\n Units              \tLPS\n Headloss           \tH-W\n Trials             \t40\n"
                 b" Accuracy           \t0.001\n\n[END]\n")
    return b"".join(parts)


def named(width, count, letter):
    """Names of that many bytes that differ in the last two alone."""
    return [letter * (width - 2) + bytes((33 + i // 64, 64 + i % 64)) for i in range(count)]


def full(width):
    """As many nodes and links as are kept, and STATUS lines up to 1 MiB, all of the last link."""
    nodes, links = named(width, MOST_NODES, b"n"), named(width, MOST_LINKS, b"l")
    parts = [b"[JUNCTIONS]\n"] + [name + b" 0\n" for name in nodes] + [b"[VALVES]\n"]
    parts += [b"%s %s %s 1 TCV 1 0\n" % (name, nodes[-1], nodes[-2]) for name in links]
    text = b"".join(parts) + b"[STATUS]\n"
    again = links[-1] + b" 1\n"
    return text + again * ((MIB - len(text)) // len(again))


def long_pipe(behind):
    """One pipe whose line goes on so for half a MiB, then STATUS lines of that pipe."""
    text = b"[JUNCTIONS]\na 0\nb 0\n[PIPES]\np a b 1 1 1" + behind * (MIB // 2) + b"\n[STATUS]\n"
    again = b"p OPEN\n"
    return text + again * ((MIB - len(text)) // len(again))


WORST = {
    "names-of-31": lambda: full(31),
    "names-of-2": lambda: full(2),
    "one-line": lambda: b"[TITLE]\n" + b"x" * (MIB - 8),
    "one-line-words": lambda: b"[TITLE]\n" + b"x " * (MIB // 2 - 4),
    "empty-lines": lambda: b"\n" * MIB,
    "comments": lambda: b";\n" * (MIB // 2),
    "one-comment": lambda: b";" * MIB,
    "pipe-with-comment": lambda: long_pipe(b";"),
    "pipe-with-blanks": lambda: long_pipe(b" "),
}


def put(name, text):
    path = os.path.join(FOLDER, name)
    with open(path, "wb") as file:
        file.write(text)
    return path


def texts():
    """The files, made anew: schemes by their size, then the worst."""
    os.makedirs(FOLDER, exist_ok=True)
    return [put("%d-nodes" % n, usual(n)) for n in NODES] + [put(name, make()) for name, make in WORST.items()]


def main(seconds):
    said = solves.processor()
    archive, origin = solves.library("desk_text")
    files = texts()
    solves.call("gcc", "-O2", "-o", "target/bench/text", "bench/text.c", archive)
    print(said)
    print("proved: " + origin)
    print("%s seconds a text, the least time of the processor" % seconds)
    print("| text | bytes | number | nodes | links | microseconds | ns a byte |")
    print("|---|---|---|---|---|---|---|")
    for row in solves.call("target/bench/text", seconds, *files).splitlines():
        name, length, number, _, nodes, links, _, _, _, least = row.split()
        print("| %s | %s | %s | %s | %s | %.1f | %.1f |" % (
            name, length, number, nodes, links, float(least), 1000 * float(least) / int(length)))


if __name__ == "__main__":
    main(sys.argv[1] if len(sys.argv) > 1 else "2")
