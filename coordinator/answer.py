"""A sheet, the verdict and the listing that the proved program gave for it, and what a desk must know of them."""
from . import causes, drawn, network, notes, refusals, sheet_bounds, verdict
from .limits import USUAL
from .listings import Listing
from .sheet_format import LINK_KINDS
from .words import (Units, a_node, counted, ends, flow_words, give_names, link_words, listed, node_words, numbered)

# exit statuses
CLEAN, REFUSED, BAD_USE, DOUBTFUL = 0, 1, 2, 3
GRAVEST_FIRST = (BAD_USE, DOUBTFUL, REFUSED, CLEAN)
FOR_SALE, NOT_FOR_SALE = "these pressures may be sold", "these pressures must not be sold on"


def gravest(statuses):
    return next(status for status in GRAVEST_FIRST if status in statuses)


def said_of(hydrants, one, several):
    return counted(len(hydrants), "hydrant") + " " + (one if len(hydrants) == 1 else several)


class Answer:
    def __init__(self, name, data, reply, limits=USUAL, whole=True, names=None, link_names=None, refusal=None):
        """`whole` where `data` is all of the sheet; `names` those of the nodes, where they have some, and `link_names` those
        of the links; `refusal` where a text was refused, so that there is no sheet."""
        self.name, self.limits, self.names, self.link_names = name, limits, names, link_names
        # number and place of the verdict; the solve's own are the listing's
        self.verdict, self.place = reply.verdict, reply.place
        self.listing = Listing(reply.text)
        self.solved = self.verdict != verdict.REFUSED
        found, _ = sheet_bounds.records(data)
        self.nodes = [fields for _, mark, fields in found if mark == b"ND"]
        self.links = [fields for _, mark, fields in found if mark == b"LK"]
        give_names(self.nodes, self.links, names, link_names)
        self.entries = [(mark, int(number)) for mark, number in
                        (entry.split(" ") for entry in self.listing.record)]
        self.changes = causes.changes(self.entries)
        self.refusal = None if self.solved else refusal or refusals.explain(
            data, self.listing.number, self.listing.place, whole, names, link_names)
        # refusals up to 5 may have no options to read, and those of a text have no sheet
        self.units = Units(found[0][2]["unit"]) if self.listing.number in (0, 6, 7, 8) else None
        self.undetermined = self.find_undetermined()
        # the two pressures that demand gives way between, or None
        self.pd = next((fields for _, mark, fields in found if mark == b"PD"), None)
        self.hydrants = self.find_hydrants() if self.solved and self.pd else {}
        self.low = verdict.low_nodes(self) if self.solved else []
        self.notes = notes.notes(self)
        # the nodes that were asked for, or None where all of it is told
        self.at = None
        # the sections that an EPANET text was read without
        self.left_out = ()

    def find_undetermined(self):
        """The verdict says whether there are any, save where it is about a repair."""
        if self.verdict not in (verdict.REPAIRED, verdict.UNDETERMINED):
            return []
        found = set(network.undetermined(self.nodes, self.links, self.listing.statuses, self.listing.flows))
        return sorted(found | ({self.place} if self.verdict == verdict.UNDETERMINED else set()))

    def find_hydrants(self):
        pressures = [self.pressure(i) for i in range(len(self.nodes))]
        return drawn.hydrants(self.nodes, self.listing.demands, pressures, self.pd, self.limits.flow)

    def repaired(self, mark):
        """The links freed (VF) or the nodes grounded (GN), each once, in the order of the record."""
        return list(dict.fromkeys(number for found, number in self.entries if found == mark))

    @property
    def freed(self):
        return self.repaired("VF")

    @property
    def grounded(self):
        return self.repaired("GN")

    @property
    def short(self):
        """The hydrants that get less than they ask."""
        return [h for h in self.hydrants.values() if h.lack]

    @property
    def unfit(self):
        """The hydrants whose drawn flow does not fit their pressure."""
        return [h for h in self.hydrants.values() if not h.fits]

    @property
    def may_be_sold(self):
        return self.verdict == verdict.SOLD

    @property
    def exit_status(self):
        return CLEAN if self.may_be_sold else DOUBTFUL if self.solved else REFUSED

    def pressure(self, node):
        """In feet of water."""
        return self.listing.heads[node] - self.nodes[node]["elevation"]

    def called(self, number, word="node"):
        return a_node(number, self.nodes[number], word)

    def node(self, number):
        return node_words(number, self.nodes[number])

    def link(self, number):
        return link_words(number, self.links[number])

    def first_line(self):
        if not self.solved:
            return "refused, number %d at %s: %s" % (self.refusal.number, self.refusal.where, self.refusal.why)
        line = "solved in " + counted(self.listing.trials, "trial") + self.short_words()
        return "%s; %s" % ((line, FOR_SALE) if self.may_be_sold else
                           ("%s, but %s" % (line, "; ".join(self.doubts())), NOT_FOR_SALE))

    @property
    def mend(self):
        """What to do next, or None where nothing is to be mended."""
        return None if self.may_be_sold else verdict.mend(self) if self.solved else self.refusal.mend

    def doubts(self):
        found = self.repair_words() + self.undetermined_words() + self.unfit_words()
        return found if self.verdict == verdict.NOT_DRAWN and self.unfit else found + verdict.words(self)

    def freed_words(self, number):
        link = self.links[number]
        # a valve that was freed may close, regulate again and be freed once more
        times = self.entries.count(("VF", number))
        return "the %s at link %d (%s) was freed%s" % (
            LINK_KINDS[link["kind"]], number, ends(link), "" if times == 1 else " %d times" % times)

    def grounded_words(self, number):
        return "%s was tied to a reservoir that is not there" % self.called(number)

    def repair_words(self):
        repairs = [self.freed_words(i) for i in self.freed]
        repairs += [self.grounded_words(i) for i in self.grounded]
        count = self.listing.freed + self.listing.grounded
        return ["with %s: %s" % ("a repair" if count == 1 else counted(count, "repair"), listed(repairs))
                ] if repairs else []

    def undetermined_words(self):
        return [self.nothing_determines(self.undetermined)] if self.undetermined else []

    def nothing_determines(self, nodes):
        return "nothing determines the head%s of %s" % (
            "" if len(nodes) == 1 else "s", numbered("node", nodes, self.names))

    def short_words(self):
        # drawn flows that do not fit say nothing about who gets less
        if self.pd is None or self.unfit:
            return ""
        if not self.short:
            return "; every hydrant gets what it asks"
        worst = drawn.worst(self.short, lambda h: h.lack)
        return "; %s, worst %s, which lacks %s" % (
            said_of(self.short, "gets less than it asks", "get less than they ask"), self.called(worst.number),
            flow_words(self.units, worst.lack, worst.asked))

    def unfit_words(self):
        if not self.unfit:
            return []
        worst = drawn.worst(self.unfit, lambda h: abs(h.drawn - h.allowed))
        return ["what %s does not fit the pressure there, worst %s, which draws %s where the pressure "
                "allows %s" % (said_of(self.unfit, "draws", "draw"), self.called(worst.number),
                               flow_words(self.units, worst.drawn), flow_words(self.units, worst.allowed))]


def entry_words(answer, mark, number):
    """One entry of the record."""
    if mark == "VF":
        return ("the matrix could not be factorised: %s was freed (XPressure); it stands open and "
                "regulates no more" % answer.link(number))
    if mark == "GN":
        return ("the matrix could not be factorised: %s was grounded, that is tied to a reservoir at "
                "height 0 that is not there" % answer.node(number))
    if mark == "SG":
        return "%s failed again though it was grounded" % answer.node(number)
    if mark == "NF":
        return answer.refusal.why
    change = causes.told(None, mark, number)
    return {"OK": "converged", "ST": "stepped, not yet converged"}[mark] + (
        "; " + causes.words(answer.links, change) if change else "")


def record_words(answer):
    """(first trial, last trial, words), like entries side by side taken together."""
    lines = []
    for trial, (mark, number) in enumerate(answer.entries, 1):
        words = entry_words(answer, mark, number)
        if lines and mark == "ST" and lines[-1][2] == words:
            lines[-1] = (lines[-1][0], trial, words)
        else:
            lines.append((trial, trial, words))
    return lines
