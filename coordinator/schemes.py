"""A file as a scheme: the bytes of a sheet, and the names that a text gave its nodes and links."""
from . import epanet, files, inp_refusals, inp_sections, sheet_bounds, sheet_text
from .building import NotToBeHad
from .files import BadUse, looks_like_text
from .inp_lines import begins
from .sheet_format import LINK_KINDS, NODE_KINDS
from .words import counted, ends, give_names, quoted

# of a text's mistakes so many are told one by one
MOST_MISTAKES = 40
# what a file may be goes by how its name ends
SHEET, TEXT, INP = ".sheet", ".txt", ".inp"


class BadText(BadUse):
    """A text with mistakes: a line for each, with its place."""

    def __init__(self, name, mistakes):
        lines = ["%s:%d: %s" % (files.shown(name), line, words) for line, words in mistakes[:MOST_MISTAKES]]
        more = len(mistakes) - MOST_MISTAKES
        super().__init__("\n".join(lines + (["%s: and %s" % (files.shown(name), counted(more, "more mistake"))]
                                            if more > 0 else [])))


class Given:
    """What was given under a name. `names` are those of the nodes and `link_names` those of the links, None where they have
    none; `path` leads to a sheet that is too long to be held. Of an EPANET text `left_out` are the sections that it was read
    without, and `refusal` says why there is no sheet, or is None."""

    def __init__(self, name, data=b"", names=None, link_names=None, path=None, left_out=(), refusal=None):
        self.name, self.data, self.names, self.link_names, self.path = name, data, names, link_names, path
        self.left_out, self.refusal = left_out, refusal

    def unless_refused(self):
        """Itself, where there is a sheet."""
        if self.refusal is not None:
            raise BadText(self.name, inp_refusals.mistakes(self.refusal))
        return self

    def shown(self):
        """Which number each name got."""
        nodes, links = ([fields for _, found, fields in sheet_bounds.records(self.data)[0] if found == mark]
                        for mark in (b"ND", b"LK"))
        give_names(nodes, links, self.names, self.link_names)
        for number, node in enumerate(nodes):
            yield "node %d  %s %s" % (number, NODE_KINDS[node["kind"]], quoted(node["name"]))
        for number, link in enumerate(links):
            yield "link %d  %s %s" % (number, LINK_KINDS[link["kind"]], ends(link))


def numbers_of(count, names):
    """The number of each node by what it goes by: its name; in a sheet, which has none, its number, or as --text calls
    it."""
    if names:
        return {name: i for i, name in enumerate(names)}
    return {word: i for i in range(count) for word in (str(i), "n%d" % i)}


def form(name, data):
    """The ending decides, in capitals or not; under any other name, or none, what stands in it."""
    for ending in (SHEET, TEXT, INP):
        if name.lower().endswith(ending):
            return ending
    return INP if begins(data) else TEXT if looks_like_text(data) else SHEET


def whole(given, what):
    """All the bytes of a text."""
    if given.path:
        raise BadUse("%s has more than %d bytes, which is too long for %s" % (files.shown(given.name), files.MOST, what))
    return given.data


def of_text(given):
    data = whole(given, "a text")
    try:
        sheet, scheme = sheet_text.read_scheme(data)
    except sheet_text.Mistakes as mistakes:
        raise BadText(given.name, mistakes.found) from mistakes
    return Given(given.name, sheet, scheme.names)


def of_inp(given, leave_out):
    text, left_out = inp_sections.without(whole(given, "an EPANET text"), leave_out)
    try:
        found = epanet.ask(text)
    except NotToBeHad as error:
        raise BadUse("%s: %s" % (files.shown(given.name), error)) from error
    if isinstance(found, epanet.Refused):
        return Given(given.name, left_out=left_out, refusal=inp_refusals.explain(text, found, left_out))
    return Given(given.name, found.sheet, found.nodes, found.links, left_out=left_out)


def read_text(name, leave_out=()):
    """A text of either kind."""
    given = files.read(name)
    return of_inp(given, leave_out) if form(name, given.data) == INP else of_text(given)


def read(name, leave_out=()):
    """Anything that is a scheme; `leave_out` names the sections that an EPANET text is read without."""
    given = files.read(name)
    found = form(name, given.data)
    if found == SHEET:
        return Given(name, given.data, path=given.path)
    return of_inp(given, leave_out) if found == INP else of_text(given)
