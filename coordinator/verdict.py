"""A verdict in words: the node or link at its place, and the figure that speaks against a sale. The proved program
decides; figures are worked out here only to be told."""
from .network import HOLDS, is_hydrant, serves
from .sheet_format import LINK_KINDS
from .words import (apart, counted, flow_words, heads_words, link_words, node_words, pressure_words, small_flow,
                    small_height)

SOLD, REFUSED, REPAIRED, UNDETERMINED, UNBALANCED, MOVED, NOT_HELD, NOT_DRAWN, TOO_LOW = range(9)


def excess(answer, node):
    """What flows into a node, less what flows out and is drawn there."""
    flows = list(zip(answer.links, answer.listing.flows))
    return (sum(q for link, q in flows if link["end"] == node) - sum(q for link, q in flows if link["start"] == node)
            - answer.listing.demands[node])


def unbalanced(answer, node):
    return "at %s what flows in and what is taken differ by %s, and %s is allowed" % (
        node_words(node, answer.nodes[node]), small_flow(answer.units, abs(excess(answer, node))),
        small_flow(answer.units, answer.limits.flow))


def moved(answer, number):
    link = answer.links[number]
    return "the flow of %s, %s, does not go with the heads at its ends, %s" % (
        link_words(number, link), flow_words(answer.units, answer.listing.flows[number]),
        heads_words(answer.units, *(answer.listing.heads[link[end]] for end in ("start", "end"))))


def not_held(answer, number):
    link = answer.links[number]
    node = link[HOLDS[LINK_KINDS[link["kind"]]]]
    gap = answer.listing.heads[node] - (link["setting"] + answer.nodes[node]["elevation"])
    return "the head of %s is %s from the one that %s is set to hold, and %s is allowed" % (
        answer.called(node), small_height(answer.units, abs(gap)), link_words(number, link),
        small_height(answer.units, answer.limits.head))


def not_drawn(answer, node):
    return "what %s draws does not fit the pressure there" % answer.called(node)


def lowest_allowed(answer, node):
    """In feet: where water is asked the lowest pressure, but everywhere 0 at least."""
    return max(answer.limits.lowest, 0.0) if is_hydrant(answer.nodes[node]) else 0.0


def low_nodes(answer):
    """The junctions in service whose pressure is too low."""
    return [i for i, node in enumerate(answer.nodes)
            if serves(node) and not answer.pressure(i) >= lowest_allowed(answer, i)]


def low(answer, node):
    pressure, lowest = answer.pressure(node), lowest_allowed(answer, node)
    digits = apart(*(feet * answer.units.per_foot for feet in (pressure, lowest)))
    return "%s has %s, the lowest allowed is %s" % (
        answer.called(node, "hydrant" if is_hydrant(answer.nodes[node]) else "node"),
        pressure_words(answer.units, pressure, digits), pressure_words(answer.units, lowest, digits))


def too_low(answer, node):
    more = len([i for i in low_nodes(answer) if i != node])
    return low(answer, node) + (
        "" if not more else ", and %s too low" % (counted(more, "more node") + (" is" if more == 1 else " are")))


TOLD = {UNBALANCED: unbalanced, MOVED: moved, NOT_HELD: not_held, NOT_DRAWN: not_drawn, TOO_LOW: too_low}


FINER = "set a finer accuracy in its options and solve it again"
MEND = {UNDETERMINED: "join these nodes to a source by a link that is open", UNBALANCED: FINER, MOVED: FINER, NOT_HELD: FINER,
        NOT_DRAWN: "give the pipes other first flows, or set a finer accuracy, and solve it again",
        TOO_LOW: "let less water be drawn in this hour, or none at this place"}


def mend(answer):
    """What to do next about a verdict of 2 to 8."""
    if answer.verdict != REPAIRED:
        return MEND[answer.verdict]
    found = []
    if answer.freed:
        found.append("look at the setting of the valve that was freed and at what else holds the head there")
    if answer.grounded:
        found.append("join the node that was tied to a source by a link that is open")
    return "; ".join(found)


def words(answer):
    """Those of the verdicts that no table tells."""
    return [TOLD[answer.verdict](answer, answer.place)] if answer.verdict in TOLD else []
