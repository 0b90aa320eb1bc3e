"""The hours of an evening, each a scheme with what is booked in it, solved and judged by the proved program, so many at a
time."""
from collections import namedtuple

from . import sheet_bounds
from .answer import BAD_USE, DOUBTFUL, Answer
from .asking import MOST_ROWS, Evening
from .network import JUNCTION
from .sheet_format import record
from .verdict import SOLD, TOO_LOW

# the lowest pressure that a booking needs, and the lowest node that has less of those in question, where it is known
Unmet = namedtuple("Unmet", "least place")


class Judged:
    """An hour and its answer at the least of its lowest pressures; no answer where a line of it has a mistake. `unmet` has
    an Unmet for each booking that needs more and is not shown to have it."""

    def __init__(self, hour, answer=None, unmet=None):
        self.hour, self.answer, self.unmet = hour, answer, unmet or {}
        # the sections that an EPANET text was read without
        self.left_out = ()

    @property
    def may_be_sold(self):
        return self.answer is not None and self.answer.may_be_sold and not self.unmet

    @property
    def exit_status(self):
        if self.answer is None:
            return BAD_USE
        return DOUBTFUL if self.answer.may_be_sold and self.unmet else self.answer.exit_status

    def met(self, booking):
        """Whether a booking has its lowest pressure: True or False as the program says; None where it does not."""
        if self.answer is None or not self.answer.may_be_sold:
            return None
        if booking not in self.unmet:
            return True
        return False if self.unmet[booking].place == booking.node else None


def demand(node, booked):
    """What a node asks in an hour: what is booked; without a booking nothing, but water that a junction gives stays."""
    if booked is not None:
        return booked
    return min(node["demand"], 0.0) if node["kind"] == JUNCTION else node["demand"]


def row_of(data, hour):
    """What each node of a scheme asks in an hour, in their order."""
    flows = {booking.node: booking.flow for booking in hour.bookings}
    nodes = [fields for _, mark, fields in sheet_bounds.records(data)[0] if mark == b"ND"]
    return tuple(demand(node, flows.get(number)) for number, node in enumerate(nodes))


def with_nodes(data, changed):
    """A sheet with other fields of its nodes; `changed` gives those of a node."""
    number, parts = 0, []
    for _, mark, fields in sheet_bounds.records(data)[0]:
        if mark == b"ND":
            fields = dict(fields, **changed(number))
            number += 1
        parts.append(record(mark, fields))
    return b"".join(parts)


def with_row(data, row):
    """A sheet with a row's demands."""
    return with_nodes(data, lambda number: {"demand": row[number]})


def without(data, nodes):
    """A sheet in which some nodes are out of question: they stand so low that no lowest pressure is too high for them."""
    return with_nodes(data, lambda number: {"elevation": -sheet_bounds.LIMIT} if number in nodes else {})


def least(booking, limits):
    return limits.lowest if booking.least is None else booking.least


# the sheet and the row of demands that are asked about, and with which limits
Question = namedtuple("Question", "sheet row limits")


def questions(data, hour, limits):
    """What is asked about an hour, by its name, first the scheme itself at the least of its lowest pressures. The program
    knows one lowest pressure for all hydrants; so it is asked at each of them, about the scheme, and about one in which the
    hydrants that need less are out of question."""
    row, found = row_of(data, hour), {}
    for step in sorted({least(booking, limits) for booking in hour.bookings}):
        own, first = limits._replace(lowest=step), not found
        found[step, "all"] = Question(data, row, own)
        if not first:
            easier = [booking.node for booking in hour.bookings if least(booking, limits) < step]
            found[step, "some"] = Question(without(data, easier), row, own)
    return found


def ask_all(asked, ask_rows):
    """A reply for each question. How rows are put to the program is known here alone: those with the same sheet and limits
    are one evening, so many of them in a call."""
    alike, replies = {}, {}
    for number, question in enumerate(asked):
        alike.setdefault((question.sheet, question.limits), []).append(number)
    parts = [numbers[first:first + MOST_ROWS] for numbers in alike.values() for first in range(0, len(numbers), MOST_ROWS)]
    evenings = [Evening(asked[part[0]].sheet, asked[part[0]].limits, [asked[number].row for number in part]) for part in parts]
    for part, told in zip(parts, ask_rows(evenings)):
        replies.update(zip(part, told))
    return [replies[number] for number in range(len(asked))]


def unmet(hour, limits, replies):
    """Of each booking that is not shown to have its lowest pressure. A verdict on a sheet with nodes out of question counts
    if its listing is the same to the last bit, as it is where no law but the verdict's reads these elevations."""
    first, found = next(iter(replies.values())), {}
    for booking in hour.bookings:
        step = least(booking, limits)
        reply, other = replies[step, "all"], replies.get((step, "some"))
        if reply.verdict != SOLD and other is not None and other.text == first.text:
            reply = other
        if reply.verdict != SOLD and not (reply.verdict == TOO_LOW and booking.node < reply.place):
            found[booking] = Unmet(step, reply.place if reply.verdict == TOO_LOW else None)
    return found


def judge(given, hours, limits, ask_rows):
    """So many hours at most, judged: one question an hour, and for each further lowest pressure two more."""
    asked = [questions(given.data, hour, limits) for hour in hours]
    replies = iter(ask_all([question for mine in asked for question in mine.values()], ask_rows))
    judged = []
    for hour, mine in zip(hours, asked):
        told = {name: next(replies) for name in mine}
        first, reply = next(iter(mine.values())), next(iter(told.values()))
        answer = Answer(hour.name, with_row(first.sheet, first.row), reply, first.limits, names=given.names,
                        link_names=given.link_names)
        judged.append(Judged(hour, answer, unmet(hour, limits, told) if answer.may_be_sold else None))
    return judged


def evening(given, table, limits, ask_rows):
    """Every hour of a table, judged, in their order."""
    good = [hour for hour in table.hours.values() if not hour.mistakes]
    found = {}
    for first in range(0, len(good), MOST_ROWS):
        part = good[first:first + MOST_ROWS]
        found.update(zip((hour.name for hour in part), judge(given, part, limits, ask_rows)))
    hours = [found.get(hour.name, Judged(hour)) for hour in table.hours.values()]
    for judged in hours:
        judged.left_out = given.left_out
    return hours
