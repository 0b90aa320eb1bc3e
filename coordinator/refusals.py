"""What a refusal means: the record, the field where it can be told, and what to mend."""
from . import field_words, sheet_bounds
from .files import looks_like_text
from .sheet_format import BYTES, LINK_KINDS
from .words import Units, apart, counted, give_names, link_words, node_words, pressure_words

MEANINGS = {
    1: "a record cannot be read as the layout says",
    2: "the sheet has too few or too many records",
    3: "a field is outside its bounds or codes",
    4: "a link's ends may not be what they are",
    5: "the program was lent too little room",
    6: "the network is singular even after its repair",
    7: "a head or a flow ran away",
    8: "the trials were used up without an answer",
    10: "a line of the text cannot be read",
    11: "a line of the text names what is not known",
    12: "the text has data in a section that is not carried",
}
TITLES = {b"OP": "the options record", b"PD": "the pressures record (PD)", b"ND": "node", b"LK": "link"}
ROOMS = ("heads", "demands", "flows", "statuses", "record", "scratch")
# what is refused before there is a sheet; the place is the text's line
OF_TEXTS = (10, 11, 12)
# from where on a place of refusal 7 names a link, and from where what a node draws; below, a node's head
FIRST_LINK_PLACE, FIRST_DRAWN_PLACE = 64, 256


class Refusal:
    """`why` says what is wrong, the record named; `mend` what to do; `record` and `offset` which record and
    where it stands, or None; `fields` holds (name, value, what it must be) of each field at fault. Of an EPANET text
    `holds` is what the line holds, and `sections` are those that stand in the way."""

    def __init__(self, number, place, why, mend, record=None, offset=None, fields=(), holds=None, sections=()):
        self.number, self.place, self.why, self.mend = number, place, why, mend
        self.record, self.offset, self.fields = record, offset, list(fields)
        self.holds, self.sections = holds, list(sections)
        self.meaning = MEANINGS.get(number, "a number that this desk does not know")

    @property
    def where(self):
        return "%s %d" % ("line" if self.number in OF_TEXTS else "place", self.place)


def title(mark, number, fields=None):
    """A record in words; `fields` where it can be read."""
    if mark in (b"OP", b"PD"):
        return TITLES[mark]
    if fields is None:
        return "%s %d" % (TITLES[mark], number)
    return (node_words if mark == b"ND" else link_words)(number, fields)


def numbered(found):
    """(offset, mark, number among its kind, fields) of each record."""
    count = {mark: 0 for mark in TITLES}
    for at, mark, fields in found:
        yield at, mark, count[mark], fields
        count[mark] += 1


def unreadable(data, place):
    if not data:
        return Refusal(1, place, "the sheet is empty", "write the sheet anew")
    found, _ = sheet_bounds.records(data)
    last = found[-1][1] if found else None
    allowed = sheet_bounds.allowed_after(last)
    mark, left = data[place:place + 2], len(data) - place
    number = sum(1 for _, m, _ in found if m == mark)
    layout = listed_marks(allowed)
    if mark in allowed:
        return Refusal(1, place, "%s is cut short: it has %d of its %d bytes" % (
            title(mark, number), left, BYTES[mark]),
            "write the sheet anew, whole; it may have been cut in copying", title(mark, number), place)
    if place == 0 and looks_like_text(data):
        return Refusal(1, place, "the file is text and not a sheet",
                       "give its name another ending than .sheet: the text form, or an EPANET text, is solved as it is")
    if mark == b"PD":
        return Refusal(1, place, "%s stands %s: a PD must stand straight after the OP, once" % (
            title(mark, number), "there a second time" if number else "out of order"),
            "put the records in order: one OP, its PD if there is one, then all ND, then all LK",
            title(mark, number), place)
    if mark in TITLES:
        return Refusal(1, place, "%s stands out of order: %s may come here" % (title(mark, number), layout),
                       "put the records in order: one OP, then all ND, then all LK", title(mark, number), place)
    return Refusal(1, place, "%s (hexadecimal) at byte %d is no record's mark: %s may come here" % (
        mark.hex(" "), place, layout),
        "write the sheet anew; it can be read up to there (%s)" % counted(len(found), "record"))


def listed_marks(marks):
    return " or ".join(mark.decode() for mark in marks)


def wrong_count(data, place):
    found, _ = sheet_bounds.records(data)
    mark, word, bounds = ((b"ND", "node", "1 to %d" % sheet_bounds.MOST_NODES),
                          (b"LK", "link", "0 to %d" % sheet_bounds.MOST_LINKS))[place]
    count = sum(1 for _, m, _ in found if m == mark)
    return Refusal(2, place, "the sheet has %s; %s are allowed" % (counted(count, word), bounds),
                   "add what is missing" if count == 0 else "split the scheme, or leave links and nodes out")


def named_records(data, names):
    """The records with what their nodes and links are called; `names` are those of both."""
    found, _ = sheet_bounds.records(data)
    give_names(*([fields for _, m, fields in found if m == mark] for mark in (b"ND", b"LK")), *names)
    return found


def at_record(data, place, names):
    """(mark, number, fields) of the record at an offset, and the fields of every node."""
    found = named_records(data, names)
    nodes = [fields for _, mark, fields in found if mark == b"ND"]
    for at, mark, number, fields in numbered(found):
        if at == place:
            return mark, number, fields, nodes
    raise ValueError("no record stands at byte %d" % place)


def in_words(name):
    return name.replace("_", " ")


def fault_words(unit, fields, name, must):
    if name == "required" and -sheet_bounds.LIMIT <= fields[name] < fields["minimum"] <= sheet_bounds.LIMIT:
        return "required pressure, %s, is below minimum pressure, %s" % pressures(Units(unit), fields)
    return "%s %s" % (in_words(name), field_words.fault(unit, fields, name, must))


def pressures(units, fields):
    """The two of a PD, with as many decimals as show that they differ."""
    pair = fields["required"], fields["minimum"]
    digits = apart(*(x * units.per_foot for x in pair))
    return tuple(pressure_words(units, x, digits) for x in pair)


def of_fields(number, place, data, record_fields, faults):
    """`record_fields` are the mark, the number among its kind and the fields of the record at fault."""
    mark, count, fields = record_fields
    record, unit = title(mark, count, fields), sheet_bounds.records(data)[0][0][2]["unit"]
    told = [(name, fields[name], must) for name, must in faults]
    wrong = [fault_words(unit, fields, name, must) for name, must in faults]
    mend = "correct its %s where the sheet was made; ./desk --explain SHEET shows the whole record" % (
        " and its ".join(in_words(name) for name, _, _ in told))
    if not told:
        wrong, mend = ["which field cannot be told"], "look at its fields: ./desk --explain SHEET"
    return Refusal(number, place, "%s: %s" % (record, "; ".join(wrong)), mend, record, place, told)


def out_of_bounds(data, place, names):
    mark, count, fields, nodes = at_record(data, place, names)
    return of_fields(3, place, data, (mark, count, fields), sheet_bounds.faults(mark, fields, len(nodes)))


def wrong_ends(data, place, names):
    mark, count, fields, nodes = at_record(data, place, names)
    fault = sheet_bounds.end_fault(fields, nodes)
    return of_fields(4, place, data, (mark, count, fields), [fault] if fault else [])


def too_little_room(data, place):
    return Refusal(5, place, "the room for %s was too short" % ROOMS[place],
                   "nothing in the sheet: the program that called the solver must lend more")


def record_of(data, mark, number, names):
    """A record in words and its offset, by its number among its kind."""
    offset, fields = [(at, fields) for at, m, fields in named_records(data, names) if m == mark][number]
    return title(mark, number, fields), offset


def singular(data, place, names):
    record, offset = record_of(data, b"ND", place, names)
    return Refusal(6, place, "at %s the matrix failed again though the node was grounded" % record,
                   "look at what joins this node to a source, and for links of next to no resistance there",
                   record, offset)


def run_away(place):
    """What a place of refusal 7 names: in words, and the mark and number of its record."""
    if place >= FIRST_DRAWN_PLACE:
        return "flow drawn at", b"ND", place - FIRST_DRAWN_PLACE
    if place >= FIRST_LINK_PLACE:
        return "flow of", b"LK", place - FIRST_LINK_PLACE
    return "head of", b"ND", place


def ran_away(data, place, names):
    what, mark, number = run_away(place)
    record, offset = record_of(data, mark, number, names)
    return Refusal(7, place, "the %s %s became no number, infinite or at least 2^64 in magnitude" % (what, record),
        "look for a demand, a setting, a resistance or a first flow near it that is far too great "
        "(all are in feet and cubic feet per second)", record, offset)


def used_up(data, place):
    """Advice that the sheet does not follow yet. What still moved is known to unsettled.py."""
    found, _ = sheet_bounds.records(data)
    options, kinds = found[0][2], [fields["kind"] for _, mark, fields in found if mark == b"LK"]
    advice = [("allow more trials (up to %d)" % sheet_bounds.MOST_TRIALS, place < sheet_bounds.MOST_TRIALS),
              ("set a damping limit", options["damping_limit"] == 0),
              ("give the links other first flows", True),
              ("give another setting to a PRV or PSV that flips between two statuses",
               any(LINK_KINDS[kind] in ("PRV", "PSV") for kind in kinds))]
    return Refusal(8, place, "%s gave no answer" % counted(place, "trial"),
                   ", or ".join(words for words, fits in advice if fits))


EXPLAIN = {1: unreadable, 2: wrong_count, 3: out_of_bounds, 4: wrong_ends, 5: too_little_room,
           6: singular, 7: ran_away, 8: used_up}

# those that tell of a node or a link by its name
NAMED = (3, 4, 6, 7)


def of_a_long_file(number, place):
    """Only 1 and 2 can be told of a file that is longer than any sheet, and not all of it is held."""
    why = {1: "the file is longer than any sheet, and no record can be read at byte %d" % place,
           2: "the file is longer than any sheet and holds too many %s" % ("nodes", "links")[place == 1]}
    return Refusal(number, place, why.get(number, "the file is longer than any sheet"),
                   "name a sheet: the longest has 9,199 bytes")


def explain(data, number, place, whole=True, names=None, link_names=None):
    """`data` may be a long file's beginning alone; then it is not `whole`."""
    if not whole:
        return of_a_long_file(number, place)
    try:
        return EXPLAIN[number](data, place, *([(names, link_names)] if number in NAMED else []))
    except (IndexError, KeyError, ValueError):
        # the program decides; what it says is told even where it cannot be followed here
        return Refusal(number, place, "what is wrong there cannot be told",
                       "look at the records: ./desk --explain SHEET")
