"""What in an answer could be misread, in words: a status that does not do what it says, a regulator that misses its
setting, levels and demands that are not meant as they stand. Notes decide nothing."""
from collections import namedtuple

from .network import HOLDS, JUNCTION, SHUT_PIPE, in_service
from .sheet_format import LINK_KINDS, NODE_KINDS, STATUSES
from .words import flow_words, heads_words, pressure_words

# `node` or `link` is the number of what it is about, the other one None
Note = namedtuple("Note", "node link words")

PIPE, TANK = LINK_KINDS.index("pipe"), NODE_KINDS.index("tank")
FIXED_CLOSED = STATUSES.index("FixedClosed")
# feet; figures in metres are rounded when they are turned into feet
ROUNDING = 1e-6
# with these a regulator is told not to regulate
TOLD_NOT_TO = {STATUSES.index(name) for name in ("FixedOpen", "FixedClosed")}


def carries(answer, number):
    """A pipe that is FixedClosed conducts all the same."""
    link = answer.links[number]
    return (link["kind"] == PIPE and answer.listing.statuses[number] == FIXED_CLOSED
            and in_service(link, answer.nodes))


def check_holds(answer, number):
    """A check valve between heads that would drive water back."""
    link, listing = answer.links[number], answer.listing
    return (link["kind"] == PIPE and bool(link["check_valve"]) and in_service(link, answer.nodes)
            and listing.statuses[number] not in SHUT_PIPE
            and listing.heads[link["end"]] > listing.heads[link["start"]] and listing.flows[number] <= 0)


def lack(answer, number):
    """In feet, how far the head that a PRV or PSV is to hold lies below its setting; 0 where it does not."""
    link = answer.links[number]
    side = HOLDS.get(LINK_KINDS[link["kind"]])
    if side is None or not in_service(link, answer.nodes) or answer.listing.statuses[number] in TOLD_NOT_TO:
        return 0.0
    node = link[side]
    short = link["setting"] - answer.pressure(node)
    return short if short > answer.limits.head and node not in answer.undetermined else 0.0


def not_served(answer, number):
    node = answer.nodes[number]
    return node["kind"] == JUNCTION and node["disabled"] and node["demand"] > 0


def level_off(answer, number):
    """Whether a tank's water stands outside its levels, which count from its elevation."""
    node = answer.nodes[number]
    level = node["head"] - node["elevation"]
    return node["kind"] == TANK and not node["min_level"] - ROUNDING <= level <= node["max_level"] + ROUNDING


def level_words(answer, number):
    node, units = answer.nodes[number], answer.units
    heads = node["min_level"] <= node["head"] <= node["max_level"]
    return "the water in %s stands %s above its elevation, and its levels, %s, count from there%s" % (
        answer.called(number, "tank"), heads_words(units, node["head"] - node["elevation"]),
        heads_words(units, node["min_level"], node["max_level"]),
        "; they look like heights, so take its elevation from each" if heads else "")


def lack_words(answer, number):
    link = answer.links[number]
    return "%s cannot reach its setting: %s has %s less than the %s that it is set to" % (
        answer.link(number), answer.called(link[HOLDS[LINK_KINDS[link["kind"]]]]),
        pressure_words(answer.units, lack(answer, number)), pressure_words(answer.units, link["setting"]))


def of_link(answer, number):
    if carries(answer, number):
        yield "%s carries water though it is FixedClosed: Closed shuts a pipe" % answer.link(number)
    if check_holds(answer, number):
        yield "the check valve of %s holds: no water runs back" % answer.link(number)
    if lack(answer, number):
        yield lack_words(answer, number)


def of_node(answer, number):
    if not_served(answer, number):
        yield "%s is out of service: its demand of %s is not served" % (
            answer.called(number), flow_words(answer.units, answer.nodes[number]["demand"]))
    if level_off(answer, number):
        yield level_words(answer, number)


def notes(answer):
    """Those of the nodes, then those of the links; none of a refused sheet."""
    if not answer.solved:
        return []
    return ([Note(i, None, words) for i in range(len(answer.nodes)) for words in of_node(answer, i)]
            + [Note(None, i, words) for i in range(len(answer.links)) for words in of_link(answer, i)])
