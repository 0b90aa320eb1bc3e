"""Why a link's status changed: what the number of an ST or OK entry tells (docs/RULES.md, [2])."""
from collections import namedtuple

from .sheet_format import LINK_KINDS
from .words import a_node

NAMES = ("none", "reverse flow", "inlet too low", "outlet too high", "reopened")

BACKWARD = ("closed", "water ran backward through it")
LOW, HIGH = "its inlet fell below its setting", "its outlet rose above its setting"
AGAIN = ("opened again", "it had been shut")
# what a link did and why, by its kind and the cause
WORDS = {
    ("PRV", 1): BACKWARD, ("PSV", 1): BACKWARD,
    ("PRV", 2): ("opened", LOW), ("PSV", 2): ("began to regulate", LOW),
    ("PRV", 3): ("began to regulate", HIGH), ("PSV", 3): ("opened", HIGH),
    ("PRV", 4): AGAIN, ("PSV", 4): AGAIN, ("pipe", 4): AGAIN,
}

# a change that the record tells: in which trial, of which link, and the cause's number
Change = namedtuple("Change", "trial link cause")


def told(trial, mark, number):
    """The change that an entry tells, or None."""
    if mark not in ("ST", "OK") or number == 0:
        return None
    return Change(trial, number % 256 - 1, number // 256)


def changes(entries):
    """Those of a record, in its order: of each trial the lowest-numbered link that changed."""
    found = (told(trial, mark, number) for trial, (mark, number) in enumerate(entries, 1))
    return [change for change in found if change]


def deed(links, change):
    """What the link did, and why."""
    return WORDS[LINK_KINDS[links[change.link]["kind"]], change.cause]


def words(links, change):
    """`the PRV at link 2 opened: its inlet fell below its setting`"""
    link = links[change.link]
    return "the %s at %s %s: %s" % (LINK_KINDS[link["kind"]], a_node(change.link, link, "link"), *deed(links, change))


def mark(links, change):
    """For a table: `opened in trial 3: its inlet fell below its setting`."""
    did, why = deed(links, change)
    return "%s in trial %d: %s" % (did, change.trial, why)
