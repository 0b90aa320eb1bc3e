"""The proved solver from python: the functions of include/desk.h, called in the shared library by ctypes.

    import ndurabeew
    desk = ndurabeew.Library("libdesk.so")
    answer = desk.verdict(sheet)
    if answer.may_be_sold:
        print(answer.heads)

    trials = desk.trials(sheet)
    while trials.told.how == ndurabeew.MORE:
        trials.take()
        print(trials.entry)

A sheet is bytes. Nothing is decided here, and nothing raised for a sheet that is refused: its answer has the number and
the place. Several threads may use one Library.
"""
import ctypes
import struct
from collections import namedtuple

# enough for every sheet (include/desk.h): heads, demands, flows, statuses, record, scratch
NODES, LINKS, RECORD, SCRATCH = 64, 128, 800, 4096
# the limits that the desk takes: lowest pressure and tolerance of heads in feet, tolerance of flows in cubic feet per second
LOWEST, HEAD, FLOW = 0.0, 0.1, 0.001
# what entries hold that no answer has: results are finite, and no status has this code
NOTHING, NO_STATUS = struct.unpack("<d", b"\xff" * 8)[0], 255

# what a start or a trial tells first: a trial may follow, this is the answer, the call was refused
MORE, DONE, REFUSED = 0, 1, 2

Entry = namedtuple("Entry", "mark number")
Told = namedtuple("Told", "how number place trials freed grounded")


class Answer(namedtuple("Answer", "number place trials freed grounded heads demands flows statuses record "
                                  "total_demand total_supply error verdict")):
    """`verdict` is a pair, number and place, or None where only a solve was asked. Heads, demands, flows and statuses are
    empty where the number is not 0."""
    __slots__ = ()

    @property
    def may_be_sold(self):
        return self.verdict is not None and self.verdict[0] == 0


class Buffers:
    """What one call lends."""

    def __init__(self):
        self.heads, self.demands = (ctypes.c_double * NODES)(*[NOTHING] * NODES), (ctypes.c_double * NODES)(*[NOTHING] * NODES)
        self.flows = (ctypes.c_double * LINKS)(*[NOTHING] * LINKS)
        self.statuses = (ctypes.c_uint8 * LINKS)(*[NO_STATUS] * LINKS)
        self.record, self.scratch = (ctypes.c_uint8 * RECORD)(), (ctypes.c_double * SCRATCH)()
        self.counts, self.totals = (ctypes.c_uint64 * 5)(), (ctypes.c_double * 3)()

    def lent(self):
        """Each buffer and its length, as the functions take them."""
        lent = (self.heads, self.demands, self.flows, self.statuses, self.record, self.scratch)
        return [word for buffer in lent for word in (buffer, ctypes.c_size_t(len(buffer)))]

    def answer(self, verdict):
        solved = self.counts[0] == 0
        columns = [[x for x in column if x == x] if solved else [] for column in (self.heads, self.demands, self.flows)]
        statuses = [code for code in self.statuses if code != NO_STATUS] if solved else []
        entries = bytes(self.record)[:4 * self.counts[2]]
        record = [Entry(mark.decode("ascii"), number) for mark, number in struct.iter_unpack("<2sH", entries)]
        return Answer(*self.counts, *columns, statuses, record, *self.totals, verdict)


class State(ctypes.Structure):
    """`desk_state` of include/desk.h: entries behind the sheet's nodes and links are 0."""
    _fields_ = [("heads", ctypes.c_double * NODES), ("demands", ctypes.c_double * NODES), ("drawn", ctypes.c_double * NODES),
                ("flows", ctypes.c_double * LINKS), ("sums", ctypes.c_double * 5), ("counts", ctypes.c_uint64 * 6),
                ("statuses", ctypes.c_uint8 * LINKS), ("grounded", ctypes.c_uint8 * NODES)]

    def lent(self):
        return [self.heads, self.demands, self.drawn, self.flows, self.statuses, self.grounded, self.sums, self.counts]


class Trials:
    """A solve taken one trial at a time. `told` is what the last call told, `state` what the next trial starts from."""

    def __init__(self, start, trial, sheet):
        self._trial, self._sheet, self._lent, self._counts = trial, bytes(sheet), Buffers(), (ctypes.c_uint64 * 6)()
        self.state = State()
        start(self._sheet, ctypes.c_size_t(len(self._sheet)), *self.state.lent(), self._counts)
        self.told = Told(*self._counts)

    def take(self):
        """One trial. After the answer nothing changes, and none follows a sheet that was refused."""
        if self.told.how != REFUSED:
            self._trial(self._sheet, ctypes.c_size_t(len(self._sheet)), *self.state.lent(), *self._lent.lent(), self._counts)
            self.told = Told(*self._counts)
        return self.told

    @property
    def entry(self):
        """The record's last entry, or None before the first trial."""
        taken = 4 * self.told.trials
        return Entry(bytes(self._lent.record[taken - 4:taken - 2]).decode("ascii"),
                     struct.unpack("<H", bytes(self._lent.record[taken - 2:taken]))[0]) if taken else None

    def answer(self):
        """What a whole solve answers, once it is there; else None."""
        if self.told.how == MORE:
            return None
        self._lent.counts[:] = self.told[1:]
        self._lent.totals[:] = self.state.sums[2:]
        return self._lent.answer(None)


class Library:
    def __init__(self, path):
        library = ctypes.CDLL(path)
        self._solve, self._verdict = library.desk_solve, library.desk_verdict
        self._start, self._trial = library.desk_start, library.desk_trial
        for function in (self._solve, self._verdict, self._start, self._trial):
            function.restype = None

    def solve(self, sheet):
        sheet, lent = bytes(sheet), Buffers()
        self._solve(sheet, ctypes.c_size_t(len(sheet)), *lent.lent(), lent.counts, lent.totals)
        return lent.answer(None)

    def verdict(self, sheet, lowest=LOWEST, head=HEAD, flow=FLOW):
        """The solve and whether its answer may be sold under these limits."""
        sheet, lent, verdict = bytes(sheet), Buffers(), (ctypes.c_uint64 * 2)()
        limits = [ctypes.c_double(limit) for limit in (lowest, head, flow)]
        self._verdict(sheet, ctypes.c_size_t(len(sheet)), *limits, *lent.lent(), lent.counts, lent.totals, verdict)
        return lent.answer(tuple(verdict))

    def trials(self, sheet):
        """The solve of a sheet, started and waiting for its first trial."""
        return Trials(self._start, self._trial, sheet)
