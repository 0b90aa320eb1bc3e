"""What may be done to a good EPANET text (inp_networks.py): damage that knows the refusal it makes by docs/INP.md,
figures that are odd and allowed, and bytes changed at random."""
from inp_networks import LINKS, NODES, NOT_CARRIED, Row, Section, cased, new_name

# ---- damage: each changes a row and says which refusal that makes of it

BAD_NUMBERS = (
    b"12x", b"x", b".", b"+", b"-.e1", b"1.2.3", b"--1", b"1e", b"e5", b"1e+", b"1e5.0", b"1e_5", b"0x10", b"nan",
    b"inf", b"-Infinity", b"1_0", b"1,5", b"1d5", b"1\x002", b"\x00", b"12\xff", "\u0661".encode(), b"\"5\"",
    # 18 digits and more
    b"123456789012345678", b"0.00000000000000001", b"000000000000000001", b"1234567890.12345678", b"1" * 20000,
    # exponents beyond 20
    b"1e21", b"1E-21", b"1e+0021", b"1e99999999999999999999", b"0e21")
# where a section's lines have numbers
NUMBERS = {"JUNCTIONS": (1, 2), "RESERVOIRS": (1,), "TANKS": (1, 2, 3, 4, 5, 6), "PIPES": (3, 4, 5),
           "VALVES": (3, 5, 6)}
# how many words they have
FEWEST = {"JUNCTIONS": 2, "RESERVOIRS": 2, "TANKS": 7, "PIPES": 6, "VALVES": 7, "STATUS": 2}
MOST = {"JUNCTIONS": 4, "RESERVOIRS": 3, "TANKS": 9, "PIPES": 8, "VALVES": 7, "STATUS": 2}
BAD_OPTIONS = (
    b"HEADLOSS D-W", b"Headloss C-M", b"HEADLOSS", b"TRIALS 65536", b"TRIALS 40.0", b"TRIALS 4e1", b"TRIALS -1",
    b"TRIALS +40", b"TRIALS 000000000000000040", b"UNITS SI", b"UNITS M3H", b"UNITS", b"UNIT LPS",
    b"SPECIFIC GRAVITY 0.9", b"SPECIFIC GRAVITY 1.0000000000001", b"SPECIFIC 1", b"PRESSURE PSI", b"PRESSURE Meters",
    b"PRESSURE 5", b"PRESSURE", b"PRESSURE EXPONENT 0.6", b"PRESSURE EXPONENT 2", b"PRESSURE EXPONENT",
    b"DEMAND MODEL PDD", b"DEMAND MODEL", b"DEMAND 1", b"EMITTER 0.5", b"EMITTER BACKFLOW YES", b"SEGMENTS 100",
    b"VISCOSITY", b"VISCOSITY x", b"ACCURACY 1e-21", b"ACCURAC 0.1", b"MINIMUM 5", b"REQUIRED PRESSURE low", b"PATTERN",
    b"PATTERN 1 2", b"DAMP LIMIT 1", b"1", b"OPEN")


class Damage:
    """What may be done to a plan, at the first place where it can be done, in the middle or at the last. A row that is
    damaged already is left alone."""

    def __init__(self, dice, plan, place):
        self.dice, self.plan, self.place = dice, plan, place

    def whole(self, *names):
        return [row for row in self.plan.rows(*names) if row.fault is None]

    def at(self, many):
        """The first, the middle or the last of so many."""
        return (0, many // 2, many - 1)[self.place]

    def names(self, section):
        return [row.words[0] for row in self.plan.rows(*(NODES if section in NODES else LINKS))]

    def unknown(self):
        """A name of nothing: sometimes a known one but for the case of a letter."""
        known = self.names("PIPES") + self.names("JUNCTIONS")
        other = self.dice.choice(known).swapcase()
        return other if self.dice.chance(0.3) and other not in known else new_name(self.dice, known)

    # each of these takes a section and a row, and gives the refusal's number, or None where it does not fit

    def too_few(self, section, row):
        del row.words[1 + self.dice.below(FEWEST[section] - 1):]
        return 10

    def too_many(self, section, row):
        more = MOST[section] + 1 - len(row.words) + self.dice.below(2)
        row.words += [self.dice.choice((b"1", b"x", b"OPEN"))] * more
        return 10

    def bad_number(self, section, row):
        place = self.dice.choice(NUMBERS[section])
        row.words += [b"0"] * (place + 1 - len(row.words))
        row.words[place] = self.dice.choice(BAD_NUMBERS)
        return 10

    def long_name(self, section, row):
        row.words[0] = new_name(self.dice, (), self.dice.choice((32, 32, 32, 40, 20000)))
        return 10

    def twice(self, section, row):
        """The name of a row before it."""
        rows = self.plan.rows(*(NODES if section in NODES else LINKS))
        before = rows[:rows.index(row)]
        if not before:
            return None
        row.words[0] = self.dice.choice(before).words[0]
        return 10

    def pattern(self, section, row):
        """A pattern, or the curve of a tank's volume."""
        word = self.dice.choice((b"1", b"*a", b"YES", b"Pat", new_name(self.dice, (), 31)))
        at = {"JUNCTIONS": 3, "RESERVOIRS": 2, "TANKS": 7}[section]
        row.words[:] = (row.words + [b"0"])[:at] + [word] + row.words[at + 1:]
        return 11

    def long_pattern(self, section, row):
        self.pattern(section, row)
        row.words[{"JUNCTIONS": 3, "RESERVOIRS": 2, "TANKS": 7}[section]] = new_name(self.dice, (), 32)
        return 10

    def star_pattern(self, section, row):
        """Only a tank's curve is left out by a star."""
        self.pattern(section, row)
        row.words[-1] = b"*"
        return 11

    def overflow(self, section, row):
        row.words[7:] = [b"*", self.dice.choice((b"MAYBE", b"Y", b"1", b"*"))]
        return 10

    def unknown_end(self, section, row):
        row.words[1 + self.dice.below(2)] = self.unknown()
        return 11

    def long_end(self, section, row):
        row.words[1 + self.dice.below(2)] = new_name(self.dice, (), 32)
        return 10

    def link_as_end(self, section, row):
        """A link's name is no node's."""
        only = [word for word in self.names("PIPES") if word not in self.names("JUNCTIONS")]
        if not only:
            return None
        row.words[1] = self.dice.choice(only)
        return 11

    def pipe_status(self, section, row):
        row.words[6:] = [b"0", self.dice.choice((b"SHUT", b"ACTIVE", b"OPENED", b"0", b"OPEN\r\r", b"CV\r\r"))]
        return 10

    def pipe_seventh(self, section, row):
        row.words[6:] = [self.dice.choice((b"SHUT", b"ACTIVE", b"12x"))]
        return 10

    def pipe_swapped(self, section, row):
        """The status before the minor loss."""
        row.words[6:] = [b"OPEN", b"0"]
        return 10

    def valve_kind(self, section, row):
        row.words[4] = self.dice.choice((b"PCV", b"pcv", b"Pcv", b"XXV", b"PRVS", b"0"))
        return 10

    def curve(self, section, row):
        row.words[4:6] = [cased(self.dice, "GPV"), self.dice.choice((b"1", b"C1", new_name(self.dice, (), 31)))]
        return 11

    def long_curve(self, section, row):
        row.words[4:6] = [b"GPV", new_name(self.dice, (), 32)]
        return 10

    def unknown_link(self, section, row):
        row.words[0] = self.unknown()
        return 11

    def status_word(self, section, row):
        row.words[1] = self.dice.choice((b"ACTIVE", b"Active", b"CV", b"SHUT", b"1e21", b"123456789012345678"))
        return 10

    def both_in_a_line(self, section, row):
        """10 before 11, whichever word comes first."""
        if section in LINKS:
            row.words[1 + self.dice.below(2)] = self.unknown()
            return self.bad_number(section, row)
        if section == "STATUS":
            self.unknown_link(section, row)
            return self.status_word(section, row)
        self.pattern(section, row)
        return self.bad_number(section, row)

    def option(self, section, row):
        """One value too few, too many or not of its kind."""
        if row.about["passed"]:
            return None
        how = self.dice.below(4)
        if how == 0:
            row.words.pop()
        elif how == 1:
            row.words.append(b"1")
        elif how == 2 and row.about["figure"]:
            row.words[-1] = self.dice.choice(BAD_NUMBERS)
        elif row.about["key"] != "PATTERN":
            row.words[-1] = self.dice.choice((b"none", b"x", b"*", b"D-W"))
        else:
            return None
        return 10

    def new_option(self, section, row):
        """In the place of another."""
        row.words[:] = self.dice.choice(BAD_OPTIONS).split(b" ")
        return 10

    EVERY = (too_few, too_many, long_name, both_in_a_line)
    NODE = EVERY + (bad_number, twice, pattern, long_pattern)
    LINK = EVERY + (bad_number, twice, unknown_end, long_end, link_as_end)
    DONE_TO = {
        "JUNCTIONS": NODE + (star_pattern,), "RESERVOIRS": NODE + (star_pattern,), "TANKS": NODE + (overflow,),
        "PIPES": LINK + (pipe_status, pipe_seventh, pipe_swapped), "VALVES": LINK + (valve_kind, curve, long_curve),
        "STATUS": EVERY + (unknown_link, status_word), "OPTIONS": (option,) * 2 + (new_option,) * 5}

    # each of these gives the reason, or None where it does not fit

    def line(self, section, way):
        rows = self.whole(section)
        row = rows[self.at(len(rows))] if rows else None
        fault = way(self, section, row) if row else None
        if fault:
            row.fault = fault
        return fault and "%s in %s" % (way.__name__.replace("_", " "), section)

    def heading(self):
        """More words behind a header."""
        headers = [section.header for section in self.plan.sections if section.header.fault is None]
        header = headers[self.at(len(headers))]
        header.words += [self.dice.choice((b"x", b"]", b"[PIPES]"))]
        header.fault = 10
        return "more words behind a header"

    def opening(self):
        """A data line before any section."""
        if self.plan.first:
            return None
        # with a byte order mark, a header is none
        word = self.dice.choice((b"J1", b"\xef\xbb\xbf[TITLE]", b"\xff\xfe[\x00", b"JUNCTIONS]", b"12"))
        row = Row([word] * (1 + self.dice.below(2)))
        row.fault = 10
        self.plan.first.append(row)
        return "a line before any section"

    def section(self, header):
        """A section that is not carried, with data."""
        rows = [Row([new_name(self.dice, ()) for _ in range(1 + self.dice.below(4))])
                for _ in range(1 + self.dice.below(3))]
        if header == b"[TIMES]":
            rows[0].words = [b"Duration", b"0"]
        rows[0].fault = 12
        self.plan.sections.insert(self.at(len(self.plan.sections) + 1), Section("", rows, header))
        return "data in %s" % header.decode()

    def first(self, names):
        """Links before the nodes that they name, or a status before its link."""
        moved = [section for section in self.plan.sections if section.name in names and section.rows]
        rows = [row for section in self.plan.sections for row in [section.header] + section.rows]
        if not moved or any(row.fault for row in self.plan.first + rows):
            return None
        moved[0].rows[0].fault = 11
        self.plan.sections = moved + [section for section in self.plan.sections if section not in moved]
        return "%s before what they name" % " and ".join(names)

    def status_of(self):
        """A number for a pipe, or a status for a check valve."""
        pipes = self.plan.abouts("PIPES")
        if not pipes:
            return None
        about = self.dice.choice(pipes)
        word = self.dice.choice((b"OPEN", b"CLOSED")) if about["check_valve"] else b"1"
        row = Row([about["name"], word], dict(valve=False))
        row.fault = 10
        last = max(k for k, section in enumerate(self.plan.sections) if section.name == "PIPES" and section.rows)
        self.plan.sections.insert(last + 1 + self.dice.below(len(self.plan.sections) - last), Section("STATUS", [row]))
        return "the status of a check valve" if about["check_valve"] else "a number for a pipe"


HEADERS = [b"[%s]" % name.encode() for name in NOT_CARRIED]
HEADERS += [b"[END]", b"[JUNCTION]", b"[PIPES", b"[PIPES]]", b"[OPTION]", b"[TITLES]", b"[]"]
# every damage, with what it is done to
WAYS = ([(Damage.line, section, way) for section, ways in Damage.DONE_TO.items() for way in ways]
        + [(Damage.section, header) for header in HEADERS]
        + [(Damage.first, LINKS), (Damage.first, ("STATUS",))]
        + [(Damage.heading,), (Damage.opening,), (Damage.status_of,)])


def damaged(dice, plan, number, place):
    """The reason, or None where this damage does not fit the plan."""
    way, *to = WAYS[number % len(WAYS)]
    return way(Damage(dice, plan, place), *to)


ODD_NUMBERS = (b"0", b"-0", b"-0.0e-20", b"-5", b"1e20", b"-1e20", b"1e-20", b"99999999999999999e20",
               b"-.0000000000000001e-20", b"1e12", b"1e13", b"1e19", b"2e19", b"0.001", b"1e-8")
ODD_OPTIONS = (b"TRIALS 0", b"TRIALS 201", b"TRIALS 65535", b"ACCURACY 0", b"ACCURACY -0", b"ACCURACY -1e-20",
               b"DAMPLIMIT -1", b"FLOWCHANGE 1e20", b"DEMAND MULTIPLIER -1", b"DEMAND MULTIPLIER 1e20",
               b"DEMAND MULTIPLIER -0", b"MINIMUM PRESSURE 1e20", b"REQUIRED PRESSURE -3", b"DEMAND MODEL PDA",
               b"UNITS CMS")


def make_odd(dice, plan):
    """Lines that are read and may make a sheet that is refused: numbers out of bounds, a link from a node to itself,
    too many nodes."""
    for _ in range(dice.below(3)):
        name = dice.choice([name for name in NUMBERS if plan.rows(name)])
        row = dice.choice(plan.rows(name))
        row.words[dice.choice([place for place in NUMBERS[name] if place < len(row.words)])] = dice.choice(ODD_NUMBERS)
    for _ in range(dice.below(2)):
        row = Row(dice.choice(ODD_OPTIONS).split(b" "))
        plan.sections.insert(dice.below(len(plan.sections) + 1), Section("OPTIONS", [row]))
    if dice.chance(0.2) and plan.links():
        row = dice.choice(plan.rows(*LINKS))
        row.words[2] = row.words[1]
    if dice.chance(0.05):
        taken = [about["name"] for about in plan.nodes()]
        for _ in range(70):
            taken.append(new_name(dice, taken))
            row = Row([taken[-1], b"1"], dict(name=taken[-1]))
            dice.choice([part for part in plan.sections if part.name == "JUNCTIONS" and part.rows]).rows.append(row)


def changed(dice, text):
    """Bytes changed, put in, left out; lines twice or swapped; an end that is missing."""
    for _ in range(1 + dice.below(3)):
        how, at = dice.below(6), dice.below(len(text) + 1)
        if how == 0:
            text = text[:at] + bytes([dice.below(256)]) + text[at + 1:]
        elif how == 1:
            text = text[:at] + bytes([dice.choice(b"\n \t\r;[]\x009e.-*")]) + text[at:]
        elif how == 2:
            text = text[:at] + text[at + 1 + dice.below(4):]
        elif how == 3:
            text = text[:at]
        else:
            lines = text.split(b"\n")
            k, j = dice.below(len(lines)), dice.below(len(lines))
            if how == 4:
                lines.insert(k, lines[j])
            else:
                lines[k], lines[j] = lines[j], lines[k]
            text = b"\n".join(lines)
    return text
