"""Reads listings, as the programs listing and replay and the oracle print them."""
import struct


def split(text):
    """The listings of the many form's output."""
    parts = text.split("--\n")
    if parts.pop() != "":
        raise ValueError("the last listing is not ended by `--`")
    return parts


class Listing:
    """A listing, read."""

    def __init__(self, text):
        self.record, self.heads, self.demands = [], [], []
        self.flows, self.statuses, self.balance = [], [], None
        for line in text.splitlines():
            letter, *words = line.split(" ")
            getattr(self, "read_" + letter)(words)

    def read_A(self, words):
        self.number, self.place, self.trials, self.freed, self.grounded = map(int, words)

    def read_T(self, words):
        self.record.append(" ".join(words))

    def read_N(self, words):
        self.heads.append(number(words[1]))
        self.demands.append(number(words[2]))

    def read_L(self, words):
        self.flows.append(number(words[1]))
        self.statuses.append(int(words[2]))

    def read_B(self, words):
        self.balance = tuple(map(number, words))


def number(digits):
    if len(digits) != 16:
        raise ValueError("not 16 digits: " + digits)
    return struct.unpack(">d", bytes.fromhex(digits))[0]
