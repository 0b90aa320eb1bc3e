"""Good EPANET texts before they are written down: networks by seed, as sections and lines of words (docs/INP.md).

Each line knows what it says, figures as fractions in the text's own units."""
from fractions import Fraction

import product  # noqa: F401
from coordinator.sheet_format import UNITS

NODES = ("JUNCTIONS", "RESERVOIRS", "TANKS")
LINKS = ("PIPES", "VALVES")
CARRIED = NODES + LINKS + ("STATUS", "OPTIONS")
PASSED = ("TITLE", "COORDINATES", "VERTICES")
NOT_CARRIED = ("PUMPS", "EMITTERS", "CURVES", "PATTERNS", "ENERGY", "CONTROLS", "RULES", "DEMANDS", "QUALITY",
               "REACTIONS", "SOURCES", "MIXING", "TIMES", "REPORT", "LABELS", "BACKDROP", "TAGS")
NUMBERS_PASSED = ("VISCOSITY", "DIFFUSIVITY", "TOLERANCE", "HEADERROR", "CHECKFREQ", "MAXCHECK", "EMITTER EXPONENT")


# ---- words

class Figure:
    """A number as it is written, and its value."""

    def __init__(self, text, value):
        self.text, self.value = text, value


def written(dice, digits, scale, sign=1):
    """The number digits/10^scale in one of the ways to write it: where the point stands, zeros, an exponent."""
    text, value = str(digits), sign * Fraction(digits, 10 ** scale)
    while dice.chance(0.1) and len(text) < 17:
        text = dice.choice(("0" + text, "0" * (17 - len(text)) + text))
    while dice.chance(0.1) and len(text) < 17 and scale < 17:
        text, scale = text + "0", scale + 1
    behind = min(scale, len(text)) if dice.chance(0.8) else dice.below(len(text) + 1)
    exponent = behind - scale
    point = "." if behind or dice.chance(0.1) else ""
    shown = text[:len(text) - behind] + point + text[len(text) - behind:]
    if exponent or dice.chance(0.05):
        shown += dice.choice("eE") + dice.choice(("-",) if exponent < 0 else ("", "+"))
        shown += dice.choice(("", "0", "00")) + str(abs(exponent))
    shown = ("-" if sign < 0 else "+" if dice.chance(0.05) else "") + shown
    return Figure(shown.encode(), value)


def figure(dice, low, high, scale=2):
    """From low to high, with `scale` decimals or, now and then, with all 17 digits."""
    if dice.chance(0.05):
        scale = 17 - len(str(max(abs(low), abs(high))))
    n = low * 10 ** scale + dice.below((high - low) * 10 ** scale + 1)
    return written(dice, abs(n), scale, -1 if n < 0 else 1)


def any_number(dice):
    """For what is passed over: up to 17 digits, and any exponent that may stand."""
    text = "".join(dice.choice("0123456789") for _ in range(17 if dice.chance(0.3) else 1 + dice.below(17)))
    point = dice.below(len(text) + 1)
    exponent = dice.choice((20, -20)) if dice.chance(0.3) else dice.below(41) - 20
    sign, e = dice.choice(("", "+", "-")), dice.choice("eE")
    return Figure(("%s%s.%s%s%d" % (sign, text[:point], text[point:], e, exponent)).encode(), None)


def cased(dice, word):
    return dice.choice((word.upper(), word.upper(), word.lower(), word.capitalize())).encode()


LETTERS = b"ABCDEFGHIJKLMNOPQRSTUVWXYZabcdefghijklmnopqrstuvwxyz0123456789-_.#/*\"'$%&()=!?+,:<>@^|~{}]["
# any byte that parts no words: also letters beyond ASCII, in whatever encoding, and bytes that no editor shows
STRANGE = bytes(range(128, 256)) + "éüñ水".encode() + b"\x00\x01\x0b\x0c\x1b\x7f"


def new_name(dice, taken, length=None):
    """A word that is in no use yet."""
    while True:
        signs = LETTERS + STRANGE if dice.chance(0.1) else LETTERS
        many = length or (31 if dice.chance(0.05) else 1 + dice.below(8))
        word = bytes(dice.choice(signs) for _ in range(many))
        if word not in taken and not word.startswith(b"["):
            return word


# ---- a text before it is written down

class Row:
    """One line: its words, what it says, and the number of the refusal that it deserves."""

    def __init__(self, words, about=None):
        self.words, self.about, self.fault = words, about or {}, None


class Section:
    def __init__(self, name, rows=(), header=None):
        self.name, self.rows = name, list(rows)
        self.header = Row([header or b"[%s]" % name.encode()])


class Plan:
    """The sections of a text in their order."""

    def __init__(self):
        self.sections, self.first = [], []
        self.unit, self.options = "GPM", {}

    def rows(self, *names):
        return [row for section in self.sections if section.name in names for row in section.rows]

    def abouts(self, *names):
        return [row.about for row in self.rows(*names)]

    def nodes(self):
        return self.abouts(*NODES)

    def links(self):
        return self.abouts(*LINKS)


def metric(unit):
    return UNITS.index(unit) >= UNITS.index("LPS")


def values(about):
    """Of each figure its value."""
    return {key: found.value if isinstance(found, Figure) else found for key, found in about.items()}


class Maker:
    """A good network."""

    def __init__(self, dice):
        self.dice, self.plan = dice, Plan()
        self.made = {name: [] for name in CARRIED}
        self.node_names, self.link_names, self.kinds = [], [], {}

    def put(self, section, words, **about):
        self.made[section].append(Row([word.text if isinstance(word, Figure) else word for word in words], about))

    def optional(self, *words):
        """As many of the last words as are not dropped."""
        return list(words[:self.dice.below(len(words) + 1)])

    def named(self, names):
        names.append(new_name(self.dice, names))
        return names[-1]

    def node(self, section, kind, words, **about):
        called = self.named(self.node_names)
        self.kinds[called] = kind
        self.put(section, [called] + words, name=called, kind=kind, **values(about))

    def junction(self):
        elevation, demand = figure(self.dice, -5, 90), figure(self.dice, -1, 9, 3)
        rest = self.optional(demand)
        self.node("JUNCTIONS", "junction", [elevation] + rest, elevation=elevation,
                  demand=demand if rest else Fraction(0))

    def reservoir(self):
        head = figure(self.dice, 100, 300)
        self.node("RESERVOIRS", "reservoir", [head], elevation=head)

    def tank(self):
        dice = self.dice
        elevation, level, low, high = (figure(dice, *ends) for ends in ((60, 150), (0, 20), (0, 2), (10, 25)))
        unused = [any_number(dice) if dice.chance(0.3) else figure(dice, 1, 90) for _ in range(2)]
        overflow = dice.below(2)
        rest = self.optional(b"*", cased(dice, ("NO", "YES")[overflow]))
        self.node("TANKS", "tank", [elevation, level, low, high] + unused + rest, elevation=elevation, level=level,
                  lowest=low, highest=high, overflow=overflow if len(rest) == 2 else 0)

    def link(self, section, start, end, words, **about):
        called = self.named(self.link_names)
        self.put(section, [called, start, end] + words, name=called, start=start, end=end, **values(about))

    def diameter(self):
        return figure(self.dice, 50, 600) if metric(self.plan.unit) else figure(self.dice, 2, 24)

    def pipe(self, start, end):
        dice = self.dice
        length, diameter, roughness = figure(dice, 10, 2000), self.diameter(), figure(dice, 60, 150, 1)
        minor_loss = figure(dice, 0, 3)
        word = dice.choice(("OPEN", "OPEN", "OPEN", "CLOSED", "CV"))
        loss_given, status_given = dice.choice(((1, 1), (1, 1), (0, 0), (1, 0), (0, 1)))
        rest = [minor_loss] * loss_given + [cased(dice, word)] * status_given
        if not status_given:
            word = "OPEN"
        self.link("PIPES", start, end, [length, diameter, roughness] + rest, kind="pipe", length=length,
                  diameter=diameter, roughness=roughness, minor_loss=minor_loss if loss_given else Fraction(0),
                  status="Closed" if word == "CLOSED" else "Open", check_valve=int(word == "CV"))

    def valve(self, start, end):
        dice = self.dice
        kinds = [kind for kind in ("PRV", "PSV", "PBV", "FCV", "TCV")
                 if self.kinds[{"PRV": end, "PSV": start}.get(kind)] in ("junction", None)]
        kind = dice.choice(kinds)
        diameter, setting, minor_loss = self.diameter(), figure(dice, 0, 90), figure(dice, 0, 9)
        self.link("VALVES", start, end, [diameter, cased(dice, kind), setting, minor_loss], kind=kind,
                  diameter=diameter, setting=setting, own=setting, minor_loss=minor_loss, status="Active",
                  check_valve=0)

    def status(self, about):
        dice = self.dice
        valve = about["kind"] != "pipe"
        if valve and dice.chance(0.4):
            setting = figure(dice, 0, 90)
            self.put("STATUS", [about["name"], setting], valve=True)
            about.update(setting=setting.value, status="Active")
        elif not about["check_valve"]:
            word = dice.choice(("Open", "Closed"))
            self.put("STATUS", [about["name"], cased(dice, word)], valve=valve)
            about["status"] = "Fixed" + word if valve else word
            # the last line counts alone: a valve has the setting of its own line again
            about.update({"setting": about["own"]} if valve else {})

    def option(self, key, *values):
        """An option that takes one value, or one of the passed ones."""
        words = [cased(self.dice, word) for word in key.split()]
        self.put("OPTIONS", words + list(values), key=key, figure=isinstance(values[-1], Figure) if values else False,
                 passed=key in ("UNBALANCED", "QUALITY", "MAP", "HYDRAULICS"))

    def options(self):
        dice, told = self.dice, {}
        made = [("UNITS", cased(dice, self.plan.unit))] if self.plan.unit != "GPM" or dice.chance(0.5) else []
        for key, part, value in (
                ("TRIALS", 0.5, 1 + dice.below(200)), ("ACCURACY", 0.5, written(dice, 1 + dice.below(9), 4)),
                ("DAMPLIMIT", 0.3, figure(dice, 0, 10)), ("FLOWCHANGE", 0.3, figure(dice, 0, 5)),
                ("DEMAND MULTIPLIER", 0.3, figure(dice, 0, 3)), ("MINIMUM PRESSURE", 0.3, figure(dice, 0, 5)),
                ("REQUIRED PRESSURE", 0.3, figure(dice, 5, 30))):
            if dice.chance(part):
                told[key] = value.value if isinstance(value, Figure) else value
                made.append((key, value if isinstance(value, Figure) else b"%d" % value))
        # a minimum without a required pressure might be above its 0.1
        told["PDA"] = dice.chance(0.3) and ("MINIMUM PRESSURE" not in told or "REQUIRED PRESSURE" in told)
        if told["PDA"] or dice.chance(0.3):
            made.append(("DEMAND MODEL", cased(dice, "PDA" if told["PDA"] else "DDA")))
        passed = [(key, any_number(dice)) for key in NUMBERS_PASSED] + [
            ("HEADLOSS", cased(dice, "H-W")), ("SPECIFIC GRAVITY", written(dice, 1, 0)),
            ("PRESSURE EXPONENT", written(dice, 5, 1)), ("PATTERN", b"1"), ("UNBALANCED", b"Continue", b"10"),
            ("UNBALANCED",), ("QUALITY", b"None", b"mg/L"), ("MAP", b"june.map"), ("HYDRAULICS", b"USE", b"a", b"b")]
        made += [row for row in passed if dice.chance(0.15)]
        self.plan.options = told
        for row in shuffled(dice, made):
            self.option(*row)
        if dice.chance(0.1):
            # the last line with a keyword counts
            first = Row([b"UNITS", dice.choice(UNITS).encode()], dict(key="UNITS", figure=False, passed=False))
            self.made["OPTIONS"].insert(0, first)
            if not any(row.about["key"] == "UNITS" for row in self.made["OPTIONS"][1:]):
                self.option("UNITS", cased(dice, self.plan.unit))

    def make(self):
        dice = self.dice
        self.plan.unit = dice.choice(UNITS)
        junctions, links = 1 + dice.below(8), dice.below(6)
        if dice.chance(0.02):
            junctions, links = 60, 60
        for _ in range(junctions):
            self.junction()
        for make in [self.reservoir] * (1 + dice.below(2)) + [self.tank] * dice.below(3):
            make()
        ends = list(self.node_names)
        self.kinds[None] = None
        for k in range(1, len(ends)):
            (self.valve if dice.chance(0.25) else self.pipe)(*shuffled(dice, (ends[k], ends[dice.below(k)])))
        for _ in range(links):
            start, end = dice.choice(ends), dice.choice(ends)
            if start != end:
                (self.valve if dice.chance(0.4) else self.pipe)(start, end)
        for row in self.made["PIPES"] + self.made["VALVES"]:
            for _ in range(2):
                if dice.chance(0.1):
                    self.status(row.about)
        self.options()
        self.order()
        return self.plan

    def order(self):
        """Names before they are used; options, and what is passed over, anywhere."""
        dice = self.dice
        parts = []
        for names in (NODES, LINKS, ("STATUS",)):
            group = [part for name in names for part in self.parts(name)]
            # a status holds by its place
            parts += shuffled(dice, group) if len(names) > 1 else group
        for part in self.parts("OPTIONS", whole=True):
            parts.insert(dice.below(len(parts) + 1), part)
        for name in PASSED:
            if dice.chance(0.5):
                rows = [Row([new_name(dice, ()) for _ in range(1 + dice.below(5))]) for _ in range(dice.below(3))]
                parts.insert(0 if name == "TITLE" else dice.below(len(parts) + 1), Section(name, rows))
        for name in NOT_CARRIED + CARRIED + ("", "JUNCTION", "NOTES"):
            if dice.chance(0.05):
                parts.insert(dice.below(len(parts) + 1), Section(name))
        if dice.chance(0.7):
            parts.append(Section("END"))
        for part in parts:
            part.header.words = [cased(dice, part.header.words[0].decode())]
        self.plan.sections = parts

    def parts(self, name, whole=False):
        """The rows of a section, in one piece or in two."""
        rows = self.made[name]
        cut = len(rows) if whole or self.dice.chance(0.8) else self.dice.below(len(rows) + 1)
        return [Section(name, part) for part in (rows[:cut], rows[cut:]) if part]


def shuffled(dice, items):
    items = list(items)
    for k in range(len(items) - 1, 0, -1):
        other = dice.below(k + 1)
        items[k], items[other] = items[other], items[k]
    return items
