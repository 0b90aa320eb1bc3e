"""An evening for a person and for a program: a line an hour, JSON, and a picture of hours against hydrants."""
import json
import os

from .as_json import left_out, numbers
from .inp_sections import left_out_words
from .pictures import LETTER, LINE, box, document, text
from .verdict import NOT_DRAWN, TOO_LOW
from .words import NAME, counted, fixed, flow_figure, flow_words, pressure_words, quoted

YES, NO, UNANSWERED = "yes", "no", "?"
# yes, no, the place that a no is about, not answered, not booked
FILLS = {YES: "#cfe8d5", NO: "#f6c9c2", "place": "#e58074", UNANSWERED: "#f3e3b3", "": "#f4f4f4"}
ROW, LEAST_COLUMN = 34, 60


def word(judged):
    return UNANSWERED if judged.answer is None else YES if judged.may_be_sold else NO


def lowest_of(judged):
    """The booked node with the lowest pressure."""
    return min((booking.node for booking in judged.hour.bookings), key=judged.answer.pressure)


def unmet_words(answer, booking, unmet):
    hydrant, needed = answer.called(booking.node, "hydrant"), pressure_words(answer.units, unmet.least)
    if unmet.place == booking.node:
        return "%s has %s and is booked with %s at least" % (
            hydrant, pressure_words(answer.units, answer.pressure(booking.node)), needed)
    return "%s is booked with %s at least, which the verdict cannot show%s" % (
        hydrant, needed, "" if unmet.place is None else " beside %s, which has less" % answer.called(unmet.place))


def reason(judged):
    answer = judged.answer
    if answer is None:
        return "; ".join("line %d: %s" % mistake for mistake in judged.hour.mistakes)
    if not answer.solved:
        return "refused, number %d: %s" % (answer.refusal.number, answer.refusal.why)
    if not answer.may_be_sold:
        return "; ".join(answer.doubts())
    if judged.unmet:
        return "; ".join(unmet_words(answer, booking, unmet) for booking, unmet in judged.unmet.items())
    lowest = lowest_of(judged)
    return "%s with %s%s; lowest pressure %s at %s" % (
        counted(len(judged.hour.bookings), "hydrant"), flow_words(answer.units, sum(b.flow for b in judged.hour.bookings)),
        answer.short_words(), pressure_words(answer.units, answer.pressure(lowest)), answer.called(lowest))


def page(evening):
    """A line an hour, and one that says what was left out of an EPANET text."""
    names = [quoted(judged.hour.name, NAME) for judged in evening]
    wide = max(map(len, names))
    lines = ["%s  %-3s  %s" % (name.ljust(wide), word(judged), reason(judged)) for name, judged in zip(names, evening)]
    # of one scheme, so of every hour the same
    lines += [left_out_words(evening[0].left_out)] if evening[0].left_out else []
    return "".join(line + "\n" for line in lines)


def booking_keys(judged, booking):
    answer = judged.answer
    solved = answer is not None and answer.solved
    found = {"line": booking.line, "node": booking.node,
             "name": answer.nodes[booking.node].get("name") if answer is not None else None}
    found.update(numbers(flow_cfs=booking.flow))
    found["met"] = judged.met(booking)
    found.update(numbers(least_ft=booking.least) if booking.least is not None else {"least_ft": None})
    found.update(numbers(pressure_ft=answer.pressure(booking.node)) if solved else {"pressure_ft": None})
    return found


def hour_keys(judged):
    answer = judged.answer
    found = {"hour": judged.hour.name, "answer": word(judged), "may_be_sold": judged.may_be_sold,
             "exit_status": judged.exit_status, "reason": reason(judged),
             "mistakes": [{"line": line, "words": words} for line, words in judged.hour.mistakes],
             "verdict": None if answer is None else {"number": answer.verdict, "place": answer.place},
             "number": None if answer is None else answer.listing.number,
             "bookings": [booking_keys(judged, booking) for booking in judged.hour.bookings],
             "left_out": left_out(judged.left_out)}
    found.update(numbers(lowest_pressure_ft=answer.limits.lowest) if answer is not None else {"lowest_pressure_ft": None})
    return found


def as_json(evening):
    """One list, an entry an hour."""
    return json.dumps([hour_keys(judged) for judged in evening], indent=1, allow_nan=False) + "\n"


def booked_nodes(evening):
    """Every node that is booked in some hour, in the order of the sheet."""
    return sorted({booking.node for judged in evening for booking in judged.hour.bookings})


def labels(evening, nodes):
    answer = next((judged.answer for judged in evening if judged.answer is not None), None)
    return [quoted(answer.names[node], NAME) if answer is not None and answer.names else str(node) for node in nodes]


def places_of(judged):
    """The nodes that a no is about, where it is about some."""
    answer = judged.answer
    found = {booking.node for booking in judged.unmet}
    return found | ({answer.place} if answer is not None and answer.verdict in (NOT_DRAWN, TOO_LOW) else set())


def cell(judged, node, x, y, wide):
    booking = next((b for b in judged.hour.bookings if b.node == node), None)
    kind = "" if booking is None else "place" if node in places_of(judged) else word(judged)
    yield box(x + 1, y + 1, wide - 2, ROW - 2, FILLS[kind])
    answer = judged.answer
    if booking is not None and answer is not None and answer.solved:
        yield text(x + wide / 2, y + 14, flow_figure(answer.units, booking.flow), anchor="middle")
        yield text(x + wide / 2, y + 28, fixed(answer.pressure(node) * answer.units.per_foot, 1), anchor="middle")


def picture(name, evening):
    """Hours downwards, hydrants across: what is booked and the pressure there."""
    nodes = booked_nodes(evening)
    heads = labels(evening, nodes)
    wide = max([LEAST_COLUMN] + [LETTER * len(head) + 12 for head in heads])
    left = 60 + LETTER * max(len(quoted(judged.hour.name, NAME)) for judged in evening)
    drawn = [text(16, 24, "Bookings of " + quoted(os.path.basename(name)), "t")]
    drawn += [text(left + wide * (k + 0.5), 52, head, anchor="middle") for k, head in enumerate(heads)]
    y = 60
    for judged in evening:
        drawn.append(text(16, y + 21, quoted(judged.hour.name, NAME)))
        drawn.append(text(left - 10, y + 21, word(judged), "" if judged.may_be_sold else "d", "end"))
        for k, node in enumerate(nodes):
            drawn += cell(judged, node, left + wide * k, y, wide)
        y += ROW
    drawn += legend(evening, y + 24)
    return document(max(560, left + wide * len(nodes) + 16), y + 24 + 4 * LINE, drawn)


def legend(evening, y):
    answer = next((judged.answer for judged in evening if judged.answer is not None and judged.answer.solved), None)
    if answer is not None:
        yield text(16, y, "in a booked cell the flow in %s and below it the pressure in %s" % (
            answer.units.flow_name, answer.units.pressure))
    # two side by side, so that the narrowest picture has room for them
    for k, (kind, words) in enumerate(((YES, "may be sold"), (NO, "hour not for sale"), ("place", "and the reason is here"),
                                       (UNANSWERED, "not answered: a line has a mistake"))):
        x, below = 16 + 250 * (k % 2), y + LINE * (1 + k // 2)
        yield box(x, below - 10, 14, 11, FILLS[kind])
        yield text(x + 20, below, words)
