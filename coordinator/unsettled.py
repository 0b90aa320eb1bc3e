"""What still moved when the trials were used up: refusal 8, which gives no results. The program is asked about the same
sheet again at coarser accuracies and with no greatest flow change. Where it stops earlier then, its answers show flows
and statuses on the way."""
from .listings import Listing
from .network import HOLDS, in_service
from .sheet_bounds import LIMIT, records
from .sheet_format import BYTES, LINK_KINDS, STATUSES, record
from .verdict import MOVED
from .words import counted, listed, numbered, small_flow

USED_UP = 8
# from any accuracy to the greatest that a sheet may have; the program answers all in one run
POWERS = range(1, 25)
# a link is named that moved at least this part of the one that moved most
WORTH_NAMING = 0.1


def coarser(data):
    """The sheet at ten times the accuracy, a hundred times and so on."""
    found, _ = records(data)
    options = found[0][2]
    accuracies = dict.fromkeys(min(options["accuracy"] * 10.0 ** k, LIMIT) for k in POWERS)
    return [record(b"OP", dict(options, accuracy=accuracy, max_flow_change=0.0)) + data[BYTES[b"OP"]:]
            for accuracy in accuracies]


def stops(replies):
    """The solved replies by their trials, the most first."""
    found = {Listing(reply.text).trials: reply for reply in replies if reply.verdict != 1}
    return [found[trials] for trials in sorted(found, reverse=True)]


def regulators(answer):
    return [i for i, link in enumerate(answer.links)
            if LINK_KINDS[link["kind"]] in HOLDS and in_service(link, answer.nodes)]


def changes(answer, late, early):
    """Words for each link whose status differs between two answers, and for those whose flow does."""
    found = ["%s went from %s to %s" % (answer.link(i), STATUSES[a], STATUSES[b])
             for i, (a, b) in enumerate(zip(early.statuses, late.statuses)) if a != b]
    gaps = [abs(a - b) for a, b in zip(early.flows, late.flows)]
    greatest = max(gaps, default=0.0)
    if greatest > 0:
        moved = [i for i, gap in enumerate(gaps) if gap >= WORTH_NAMING * greatest]
        others = "%s moved, most that of " % numbered("link", moved, answer.link_names) if moved[1:] else ""
        found.append("the flow of %s%s%s by %s" % (others, answer.link(gaps.index(greatest)), "," if others else " moved",
                                                   small_flow(answer.units, greatest)))
    return found


def between(answer, replies):
    late, early = (Listing(reply.text) for reply in replies)
    told = changes(answer, late, early)
    return "; between trial %d and trial %d %s" % (early.trials, late.trials, listed(told)) if told else ""


def after(answer, reply):
    return "; after %s the flow of %s does not go with its heads" % (
        counted(Listing(reply.text).trials, "trial"), answer.link(reply.place)) if reply.verdict == MOVED else ""


def flips(answer, always):
    """Only a PRV or a PSV keeps the solver from ending at any accuracy."""
    found = regulators(answer)
    return "; %s: look at %s" % (
        "no trial ends it at any accuracy, so a PRV or a PSV changes its status again and again" if always
        else "it may be that a PRV or a PSV changes its status again and again",
        listed(map(answer.link, found))) if found else ""


def words(answer, replies):
    """What goes behind `N trials gave no answer`."""
    found = stops(replies)
    told = between(answer, found[:2]) if len(found) > 1 else after(answer, found[0]) if found else ""
    return told or flips(answer, not found)
