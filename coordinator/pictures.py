"""An answer as a picture (SVG): each node a bar from its elevation up to its head, so that the bar's length
is its pressure. Freed valves, grounded nodes and undetermined heads are marked. Where demand gives way to
pressure, a gauge under each hydrant shows how much of what it asks it draws."""
import math
import os
import textwrap
from html import escape

from . import notes
from .network import HOLDS, along, in_service
from .sheet_format import LINK_KINDS, NODE_KINDS
from .words import ends, fixed, flow_figure, quoted

COLOURS = {"junction": "#3b78b5", "reservoir": "#1f8f82", "tank": "#7a9a2e"}
NEGATIVE, DOUBT, GROUND, INK = "#8e44ad", "#c0392b", "#7a5a3a", "#222"
LEFT, RIGHT, PLOT_HEIGHT, BRACKET = 76, 24, 320, 22
UP, DOWN = "\u2191", "\u2193"
# a gauge, the line of figures under it, and the room that both take
GAUGE, GAUGE_LINE, GAUGE_ROOM = 34, 14, 58
DRAWN, LACKED = "#3b78b5", "#f6d9a8"
LEAST_WIDTH, LINE = 700, 17
# a letter's width, and how many of them a name has at most
LETTER, MOST_LETTERS = 6.7, 20
STYLE = ("text{font-family:Helvetica,Arial,sans-serif;font-size:12px;fill:%s}"
         ".t{font-size:15px;font-weight:bold}.d{fill:%s;font-weight:bold}" % (INK, DOUBT))
HATCH = ('<pattern id="hatch" width="7" height="7" patternUnits="userSpaceOnUse" patternTransform="rotate(45)">'
         '<rect width="7" height="7" fill="#fdeedd"/><rect width="3" height="7" fill="#e08a1e"/></pattern>')


def text(x, y, words, kind="", anchor="start", turn=None):
    turned = "" if turn is None else ' transform="rotate(%g %.1f %.1f)"' % (turn, x, y)
    return '<text x="%.1f" y="%.1f" text-anchor="%s"%s%s>%s</text>' % (
        x, y, anchor, ' class="%s"' % kind if kind else "", turned, escape(words))


def line(x1, y1, x2, y2, colour, width=1.0, dashes=""):
    dashed = ' stroke-dasharray="%s"' % dashes if dashes else ""
    return '<line x1="%.1f" y1="%.1f" x2="%.1f" y2="%.1f" stroke="%s" stroke-width="%g"%s/>' % (
        x1, y1, x2, y2, colour, width, dashed)


def box(x, y, width, height, fill, edge="none", dashes=""):
    dashed = ' stroke-dasharray="%s"' % dashes if dashes else ""
    return '<rect x="%.1f" y="%.1f" width="%.1f" height="%.1f" fill="%s" stroke="%s" stroke-width="2.4"%s/>' % (
        x, y, width, height, fill, edge, dashed)


def step(span):
    """A round distance between ticks: about six of them in the span."""
    power = 10.0 ** math.floor(math.log10(span / 6))
    return next(power * k for k in (1, 2, 2.5, 5, 10) if power * k * 6 >= span * 0.999)


def ticks(low, high):
    by = step(high - low)
    first = math.ceil(low / by - 1e-9)
    return [k * by for k in range(first, int(math.floor(high / by + 1e-9)) + 1)]


def tick_words(x):
    return fixed(x, 0) if x == round(x) and abs(x) < 1e5 else "%g" % x


class Frame:
    """Where things stand: heights in feet to y, places along the scheme to x."""

    def __init__(self, answer, top):
        self.order = along(answer.nodes, answer.links, answer.listing.heads)
        self.place = {node: k for k, node in enumerate(self.order)}
        self.slot = min(92.0, max(17.0, 720.0 / len(self.order)))
        self.width = max(LEAST_WIDTH, LEFT + RIGHT + self.slot * len(self.order))
        self.slot = (self.width - LEFT - RIGHT) / len(self.order)
        self.top, self.bottom = top, top + PLOT_HEIGHT
        self.low, self.high = span(answer)
        # names stand upright where one of them is wider than its place
        self.upright = any(len(label(answer, i)) * LETTER > self.slot - 4 for i in self.order)
        self.label_room = max(len(label(answer, i)) for i in self.order) * LETTER if self.upright else 0
        self.under = self.bottom + self.label_room + (GAUGE_ROOM if answer.pd else 0)

    def x(self, node):
        """The middle of a node's bar."""
        return LEFT + self.slot * (self.place[node] + 0.5)

    def y(self, height):
        """Cut off at the frame: a head that nothing determines may lie anywhere."""
        part = (height - self.low) / (self.high - self.low)
        return self.bottom - PLOT_HEIGHT * min(1.0, max(0.0, part))

    def outside(self, height):
        return not self.low <= height <= self.high


def span(answer):
    """The heights shown: all elevations and every head that something determines, with some air."""
    sure = [h for i, h in enumerate(answer.listing.heads) if i not in answer.undetermined]
    heights = [node["elevation"] for node in answer.nodes] + (sure or answer.listing.heads) + missed_heads(answer)
    low, high = min(heights), max(heights)
    air = 0.08 * (high - low) or 1.0
    return low - (air if low < 0 else min(air, low) if low > 0 else 0.0), high + 1.6 * air


def missed_heads(answer):
    """Those that a regulator is set to hold and cannot reach."""
    found = []
    for number, link in enumerate(answer.links):
        if notes.lack(answer, number):
            node = link[HOLDS[LINK_KINDS[link["kind"]]]]
            found.append(link["setting"] + answer.nodes[node]["elevation"])
    return found


def label(answer, node):
    """What stands under a node's bar."""
    return quoted(answer.names[node], MOST_LETTERS) if answer.names else str(node)


def bar_colours(answer, node):
    """Fill, edge and dashes."""
    if node in answer.undetermined:
        return "url(#hatch)", DOUBT if node in answer.grounded else "#b86a00", "4 3"
    fill = NEGATIVE if answer.pressure(node) < 0 else COLOURS[NODE_KINDS[answer.nodes[node]["kind"]]]
    return fill, DOUBT if node in answer.grounded else "none", ""


def bar_figure(answer, frame, node):
    """The pressure; an arrow where the head lies beyond the picture, since such a figure is long."""
    head = answer.listing.heads[node]
    if frame.outside(head):
        return UP if head > frame.high else DOWN
    figure = fixed(answer.pressure(node) * answer.units.per_foot, 1)
    return figure + " ?" if node in answer.undetermined else figure


def bar(answer, frame, node):
    elevation, head = answer.nodes[node]["elevation"], answer.listing.heads[node]
    x, wide = frame.x(node), frame.slot * 0.62
    upper, lower = frame.y(max(elevation, head)), frame.y(min(elevation, head))
    yield box(x - wide / 2, upper, wide, max(1.0, lower - upper), *bar_colours(answer, node))
    yield line(x - frame.slot / 2, frame.y(elevation), x + frame.slot / 2, frame.y(elevation), GROUND, 2.4)
    figure = bar_figure(answer, frame, node)
    if frame.slot >= 44:
        yield text(x, upper - 5, figure, "d" if node in answer.low else "", "middle")
    else:
        yield text(x + 4, upper - 5, figure, "d" if node in answer.low else "", turn=-90)
    kind = "d" if node in answer.grounded else ""
    if frame.upright:
        yield text(x + 4, frame.bottom + 8, label(answer, node), kind, "end", turn=-90)
    else:
        yield text(x, frame.bottom + 16, label(answer, node), kind, "middle")


def set_heads(answer, frame):
    """(link, node, head) of what each PRV and PSV in service is set to hold, where the picture reaches it."""
    for number, link in enumerate(answer.links):
        side = HOLDS.get(LINK_KINDS[link["kind"]])
        if side and in_service(link, answer.nodes):
            node = link[side]
            head = link["setting"] + answer.nodes[node]["elevation"]
            if not frame.outside(head):
                yield number, node, head


def set_mark(x1, x2, y, colour=INK):
    """Dashes on white, to be seen on a bar and beside it."""
    return line(x1, y, x2, y, "white", 4) + line(x1, y, x2, y, colour, 2, "5 3")


def set_marks(answer, frame):
    """What regulators are set to hold; red, with what is lacking, where one cannot."""
    for number, node, head in set_heads(answer, frame):
        short, x, y = notes.lack(answer, number), frame.x(node), frame.y(head)
        yield set_mark(x - frame.slot / 2, x + frame.slot / 2, y, DOUBT if short else INK)
        if short:
            yield text(x, y - 5, "-" + fixed(short * answer.units.per_foot, 1), "d", "middle")


def bracket(answer, frame, number, level):
    """A freed valve, over the two nodes it stands between."""
    link = answer.links[number]
    a, b = sorted((frame.x(link["start"]), frame.x(link["end"])))
    y = frame.top - 8 - BRACKET * level
    yield line(a, y, b, y, DOUBT, 2.2)
    yield line(a, y, a, y + 7, DOUBT, 2.2)
    yield line(b, y, b, y + 7, DOUBT, 2.2)
    yield text((a + b) / 2, y - 5, "%s %s freed" % (
        LINK_KINDS[link["kind"]], ends(link) if answer.names else "at link %d" % number), "d", "middle")


def gauge(answer, frame, hydrant):
    """All that a hydrant asks, filled as far as it draws; under it what it lacks."""
    x, y, wide = frame.x(hydrant.number), frame.bottom + frame.label_room + 24, frame.slot * 0.4
    full = GAUGE * min(1.0, max(0.0, hydrant.drawn / hydrant.asked))
    yield box(x - wide / 2, y, wide, GAUGE, LACKED, "none" if hydrant.fits else DOUBT)
    yield box(x - wide / 2, y + GAUGE - full, wide, full, DRAWN)
    if hydrant.lack:
        figure = flow_figure(answer.units, hydrant.lack)
        if frame.slot >= 44:
            yield text(x, y + GAUGE + GAUGE_LINE, figure, "" if hydrant.fits else "d", "middle")
        else:
            yield text(x + 4, y + GAUGE - 3, figure, "" if hydrant.fits else "d", turn=-90)


def axes(answer, frame):
    right, per = frame.width - RIGHT, answer.units.height_per_foot
    for height in ticks(frame.low * per, frame.high * per):
        y = frame.y(height / per)
        yield line(LEFT, y, right, y, "#ddd")
        yield text(LEFT - 8, y + 4, tick_words(height), anchor="end")
    yield line(LEFT, frame.top, LEFT, frame.bottom, INK)
    yield line(LEFT, frame.bottom, right, frame.bottom, INK)
    yield text(20, (frame.top + frame.bottom) / 2, "elevation and head, " + answer.units.height, anchor="middle", turn=-90)
    yield text((LEFT + right) / 2, frame.under + 36,
               "node, in the order of a walk along the links from the highest source", anchor="middle")


def swatch(fill, edge="none", dashes=""):
    return lambda x, y: box(x, y - 10, 16, 11, fill, edge, dashes)


def legend_items(answer, frame):
    """(drawing at a place, words) of everything that the picture shows."""
    kinds = {NODE_KINDS[node["kind"]] for i, node in enumerate(answer.nodes)
             if i not in answer.undetermined and answer.pressure(i) >= 0}
    for kind in NODE_KINDS:
        if kind in kinds:
            yield swatch(COLOURS[kind]), kind
    if any(answer.pressure(i) < 0 for i in range(len(answer.nodes)) if i not in answer.undetermined):
        yield swatch(NEGATIVE), "pressure below 0 (head under the elevation)"
    yield (lambda x, y: line(x, y - 4, x + 16, y - 4, GROUND, 2.4)), "elevation"
    if any(set_heads(answer, frame)):
        yield (lambda x, y: set_mark(x, x + 16, y - 4)), "head that a PRV or PSV is set to hold"
    if any(notes.lack(answer, number) for number in range(len(answer.links))):
        yield ((lambda x, y: set_mark(x, x + 16, y - 4, DOUBT)),
               "one that it cannot reach; the figure is what it lacks, in " + answer.units.pressure)
    if answer.undetermined:
        yield swatch("url(#hatch)", "#b86a00", "4 3"), "? head that nothing determines"
    if answer.grounded:
        yield swatch("none", DOUBT), "grounded: tied to a reservoir that is not there"
    if answer.freed:
        yield (lambda x, y: line(x, y - 4, x + 16, y - 4, DOUBT, 2.2)), "freed valve, between its two nodes"
    if answer.hydrants:
        yield swatch(DRAWN), "under a hydrant: drawn"
        yield swatch(LACKED), "asked and not drawn; the figure is what it lacks, in " + answer.units.flow
    if answer.unfit:
        yield swatch(LACKED, DOUBT), "what it draws does not fit its pressure"


def legend(answer, frame):
    """The drawing, and the height it takes."""
    x, y, drawn = LEFT, frame.under + 62, []
    for draw, words in legend_items(answer, frame):
        wide = 28 + 6.7 * len(words)
        if x > LEFT and x + wide > frame.width - 10:
            x, y = LEFT, y + LINE + 2
        drawn += [draw(x, y), text(x + 22, y, words)]
        x += wide
    y += LINE + 2
    drawn.append(text(LEFT, y, "A bar's length is the pressure; the figure on it is the pressure in %s%s."
                      % (answer.units.pressure, ", red where it is too low" if answer.low else "")))
    if any(map(frame.outside, answer.listing.heads)):
        y += LINE + 2
        drawn.append(text(LEFT, y, "%s or %s: the head lies beyond the picture." % (UP, DOWN)))
    return drawn, y + 16


def title(answer, width):
    """The drawing, and the height it takes."""
    # some characters that a file's name may have are forbidden in XML
    name = quoted(os.path.basename(answer.name))
    drawn = [text(16, 24, "Pressures of " + name, "t")]
    y = 24
    for words in textwrap.wrap(answer.first_line(), int((width - 32) / 7.3)):
        y += LINE
        drawn.append(text(16, y, words, "" if answer.may_be_sold else "d"))
    return drawn, y


def document(width, height, drawn):
    return "\n".join(
        ['<svg xmlns="http://www.w3.org/2000/svg" width="%d" height="%d" viewBox="0 0 %d %d">'
         % (width, height, width, height),
         "<style>%s</style>" % STYLE, "<defs>%s</defs>" % HATCH,
         '<rect width="100%" height="100%" fill="white"/>'] + drawn + ["</svg>", ""])


def refused(answer):
    """No pressures to show: the picture says so, lest an older one be taken for it."""
    drawn, y = title(answer, LEAST_WIDTH)
    return document(LEAST_WIDTH, y + 20, drawn)


def picture(answer):
    if not answer.solved:
        return refused(answer)
    width = Frame(answer, 0).width
    drawn, used = title(answer, width)
    frame = Frame(answer, used + 26 + BRACKET * len(answer.freed))
    drawn += axes(answer, frame)
    for node in frame.order:
        drawn += bar(answer, frame, node)
    drawn += set_marks(answer, frame)
    for level, number in enumerate(answer.freed):
        drawn += bracket(answer, frame, number, level)
    for hydrant in answer.hydrants.values():
        drawn += gauge(answer, frame, hydrant)
    below, height = legend(answer, frame)
    return document(width, height, drawn + below)
