"""An EPANET text taken apart: lines, words and sections as docs/INP.md has them. The proved program reads such a text; this
serves to put into words what it says of a line."""
import io
import re
from collections import namedtuple

MARK = b"\xef\xbb\xbf"
WORD = re.compile(rb"[^ \t]+")

# a line that has words: its number from 1, the header it stands under (None before any; of a header itself), its words
Line = namedtuple("Line", "number header words")


def words_of(line):
    """No carriage return at its end, nothing from `;` on, parted by spaces and tabs."""
    line = line[:-1] if line.endswith(b"\n") else line
    line = line[:-1] if line.endswith(b"\r") else line
    return WORD.findall(line.partition(b";")[0]) if line else []


def is_header(words):
    return words[0].startswith(b"[")


def with_headers(text):
    """(the header it stands under, its words, the line itself) of every line."""
    header = None
    for line in io.BytesIO(text):
        words = words_of(line)
        if words and is_header(words):
            header = words[0].upper()
        yield header, words, line


def lines(text):
    """Every line that has words."""
    return (Line(number, header, words) for number, (header, words, _) in enumerate(with_headers(text), 1) if words)


def data_lines(text):
    return (line for line in lines(text) if not is_header(line.words))


def begins(text):
    """Whether the first line that has words is a header, as in no text form; a byte order mark may stand before it."""
    first = next(lines(text[len(MARK):] if text.startswith(MARK) else text), None)
    return first is not None and is_header(first.words)


def decoded(data):
    """Words as they are shown: UTF-8, or else a letter a byte, so that two names never become one."""
    try:
        return data.decode("utf-8")
    except UnicodeDecodeError:
        return data.decode("latin-1")
