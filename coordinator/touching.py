"""What touches a node: the links that start or end there, each seen from it, and what speaks against a sale at that place.
This is what `--at` asks."""
from collections import namedtuple

from . import schemes, verdict
from .files import BadUse, shown
from .sheet_format import LINK_KINDS
from .sheet_text import FLOW, PERCENT, PRESSURE, SETTINGS
from .words import fixed, flow_words, pressure_words, quoted

# how much of a list of words a message quotes
LIST = 300

# a link's number, whether it starts at the node, which node is at its other end, and in cubic feet per second what it
# brings to the node; below 0 it takes that away
Touch = namedtuple("Touch", "link starts_here other inflow")


def nodes_by_word(answer):
    """The node that each word asks for: by what it goes by, and by the number that tables show. A name comes before a
    number."""
    count = len(answer.nodes)
    return {**{str(i): i for i in range(count)}, **schemes.numbers_of(count, answer.names)}


def there_are(answer):
    return ("there are " + quoted(", ".join(answer.names), LIST) if answer.names else
            "its nodes have no names, only numbers, 0 to %d" % (len(answer.nodes) - 1))


def asked(answer, words):
    """The nodes that some words ask for, each once, in their order."""
    known = nodes_by_word(answer)
    unknown = [word for word in dict.fromkeys(words) if word not in known]
    if unknown:
        raise BadUse("%s: no node is called %s; %s" % (
            shown(answer.name), quoted(" or ".join(unknown), LIST), there_are(answer)))
    return list(dict.fromkeys(known[word] for word in words))


def touch(number, link, flow, node):
    starts = link["start"] == node
    return Touch(number, starts, link["end" if starts else "start"], -flow if starts else flow)


def touches(answer, node):
    """Every link that touches a node, ascending."""
    return [touch(number, link, flow, node)
            for number, (link, flow) in enumerate(zip(answer.links, answer.listing.flows))
            if node in (link["start"], link["end"])]


def trials_of(answer, mark, number):
    """The trials in which a link was freed (VF), or a node grounded (GN)."""
    return [trial for trial, entry in enumerate(answer.entries, 1) if entry == (mark, number)]


def set_to(answer, number):
    """What a valve is set to, in words; None of a pipe."""
    kind, setting = LINK_KINDS[answer.links[number]["kind"]], answer.links[number]["setting"]
    if kind not in SETTINGS:
        return None
    if SETTINGS[kind] is PRESSURE:
        return pressure_words(answer.units, setting)
    if SETTINGS[kind] is FLOW:
        return flow_words(answer.units, setting)
    return fixed(setting, 2) + (" %" if SETTINGS[kind] is PERCENT else "")


def doubts(answer, node):
    """What speaks against a sale at a node, in words."""
    links, told = [found.link for found in touches(answer, node)], (answer.verdict, answer.place)
    yield from (answer.freed_words(i) for i in answer.freed if i in links)
    if node in answer.grounded:
        yield answer.grounded_words(node)
    if node in answer.undetermined:
        yield answer.nothing_determines([node])
    # of the laws that are missed the verdict tells one place alone
    if told == (verdict.UNBALANCED, node) or told in [(law, i) for law in (verdict.MOVED, verdict.NOT_HELD) for i in links]:
        yield from verdict.words(answer)
    if told == (verdict.NOT_DRAWN, node) or node in [hydrant.number for hydrant in answer.unfit]:
        yield verdict.not_drawn(answer, node)
    if node in answer.low:
        yield verdict.low(answer, node)
