"""An answer for a person."""
from . import causes, inp_sections, notes, touching
from .answer import record_words
from .drawn import pressure_range
from .files import shown
from .network import in_service, serves
from .sheet_format import LINK_KINDS, NODE_KINDS, STATUSES
from .words import (NAME, fixed, flow_figure, flow_words, heads_words, numbered, pressure_words, quoted,
                    small_flow)


def table(header, rows):
    """Lines with aligned columns; a header that begins with `<` has its column's words to the left."""
    left = [name.startswith("<") for name in header]
    cells = [[name.lstrip("<") for name in header]] + rows
    widths = [max(len(row[k]) for row in cells) for k in range(len(header))]
    for row in cells:
        line = "  ".join(cell.ljust(width) if to_left else cell.rjust(width)
                         for cell, width, to_left in zip(row, widths, left))
        yield "  " + line.rstrip()


def filled(header, rows):
    """A table without the columns in which nothing stands."""
    kept = [k for k in range(len(header)) if any(row[k] for row in rows)]
    return table([header[k] for k in kept], [[row[k] for k in kept] for row in rows])


def node_marks(answer, number, grounded="grounded"):
    node = answer.nodes[number]
    marks = [(grounded, number in answer.grounded),
             ("head undetermined", number in answer.undetermined),
             ("pressure below 0", serves(node) and answer.pressure(number) < 0),
             ("pressure too low", number in answer.low and answer.pressure(number) >= 0),
             ("out of service", node["disabled"]),
             ("demand not served", notes.not_served(answer, number)),
             ("water outside its levels", notes.level_off(answer, number))]
    return ", ".join(mark for mark, there in marks if there)


def labels(answer, number):
    """A node's number and, where it has one, its name."""
    return [str(number)] + ([quoted(answer.names[number], NAME)] if answer.names else [])


def label_names(answer):
    return ["node"] + (["<name"] if answer.names else [])


def node_row(answer, number):
    units, listing = answer.units, answer.listing
    head, pressure = listing.heads[number], answer.pressure(number)
    # feet besides psi, where the sheet has feet
    heights = [head * units.height_per_foot, pressure * units.per_foot] + ([] if units.metric else [pressure])
    return (labels(answer, number) + [NODE_KINDS[answer.nodes[number]["kind"]]]
            + [fixed(x, 2) for x in heights]
            + [flow_figure(units, listing.demands[number]), node_marks(answer, number)])


def nodes(answer):
    units = answer.units
    header = (label_names(answer) + ["<kind", "head " + units.height, "pressure " + units.pressure]
              + ([] if units.metric else ["pressure ft"])
              + ["%s %s" % ("drawn" if answer.pd else "demand", units.flow_name), "<"])
    return table(header, [node_row(answer, i) for i in range(len(answer.nodes))])


def hydrant_row(answer, hydrant):
    return (labels(answer, hydrant.number)
            + [flow_figure(answer.units, flow) for flow in (hydrant.asked, hydrant.drawn, hydrant.lack)]
            + [fixed(100.0 * hydrant.lack / hydrant.asked, 1), "" if hydrant.fits else unfit_mark(answer, hydrant)])


def unfit_mark(answer, hydrant):
    return "does not fit its pressure, which allows " + flow_words(answer.units, hydrant.allowed)


def hydrants(answer):
    """What each hydrant asks, draws and lacks; nothing without a PD."""
    if answer.pd is None:
        return
    least = answer.pd["minimum"]
    yield "  no water at a pressure of %s or below, all that is asked from %s on" % tuple(
        pressure_words(answer.units, feet) for feet in (least, least + pressure_range(answer.pd)))
    header = label_names(answer) + ["%s %s" % (word, answer.units.flow_name) for word in ("asked", "drawn", "lacks")]
    yield from table(header + ["lacks %", "<"], [hydrant_row(answer, h) for h in answer.hydrants.values()])


def last_change(answer, number):
    """The last change of a link that the record tells, in words."""
    found = [change for change in answer.changes if change.link == number]
    if not found:
        return ""
    # a tank shuts its links after the update, and the record does not tell that
    shut = STATUSES[answer.listing.statuses[number]] == "TempClosed"
    return causes.mark(answer.links, found[-1]) + (", and a tank shut it after that" if shut else "")


def link_marks(answer, number, freed="freed"):
    link = answer.links[number]
    was = link["status"]
    marks = [("changed, was " + STATUSES[was], was != answer.listing.statuses[number]),
             (freed, number in answer.freed),
             ("carries water", notes.carries(answer, number)),
             ("check valve holds", notes.check_holds(answer, number)),
             (short_mark(answer, number), notes.lack(answer, number)),
             (last_change(answer, number), last_change(answer, number)),
             ("out of service", not in_service(link, answer.nodes))]
    return ", ".join(mark for mark, there in marks if there)


def short_mark(answer, number):
    return "lacks %s of its setting" % pressure_words(answer.units, notes.lack(answer, number))


def link_labels(answer, number):
    """A link's number, its name or nothing, and its kind."""
    link = answer.links[number]
    return [str(number), quoted(link.get("name", ""), NAME), LINK_KINDS[link["kind"]]]


def link_row(answer, number):
    link, listing = answer.links[number], answer.listing
    return (link_labels(answer, number)
            + [labels(answer, link[end])[-1] for end in ("start", "end")]
            + [flow_figure(answer.units, listing.flows[number]), STATUSES[listing.statuses[number]],
               link_marks(answer, number)])


def links(answer):
    ends = ["<start", "<end"] if answer.names else ["start", "end"]
    header = ["link", "<name", "<kind"] + ends + ["flow " + answer.units.flow_name, "<status", "<"]
    return filled(header, [link_row(answer, i) for i in range(len(answer.links))])


def balance(answer):
    demand, supply, error = answer.listing.balance
    units = answer.units
    yield "  %s %s, supply %s, error %s%s" % (
        "asked" if answer.pd else "demand", flow_words(units, demand), flow_words(units, supply),
        small_flow(units, error),
        ", of which the hydrants lack " + flow_words(units, sum(h.lack for h in answer.short)) if answer.short else "")


def record(answer):
    for first, last, words in record_words(answer):
        trials = "trial %d" % first if first == last else "trials %d to %d" % (first, last)
        yield "  %s: %s" % (trials, words)


def in_trials(answer, word, mark, number):
    """`freed in trial 1`."""
    return "%s in %s" % (word, numbered("trial", touching.trials_of(answer, mark, number)))


def water_words(answer, number):
    """What a node asks and draws."""
    units, hydrant = answer.units, answer.hydrants.get(number)
    if hydrant is None:
        word = "drawn" if answer.pd and not notes.not_served(answer, number) else "demand"
        return "%s %s" % (word, flow_words(units, answer.listing.demands[number]))
    found = ["asked " + flow_words(units, hydrant.asked), "drawn " + flow_words(units, hydrant.drawn)]
    found += ["lacks " + flow_words(units, hydrant.lack)] if hydrant.lack else []
    return ", ".join(found + ([] if hydrant.fits else [unfit_mark(answer, hydrant)]))


def way_words(answer, node, touch):
    """Which way the water runs, seen from a node: `into ridge from mill`; nothing where the figure is 0."""
    if not flow_figure(answer.units, touch.inflow).strip("0."):
        return ""
    here, other = (quoted(answer.names[i], NAME) if answer.names else "node %d" % i for i in (node, touch.other))
    return ("into %s from %s" if touch.inflow > 0 else "out of %s to %s") % (here, other)


def touch_row(answer, node, touch):
    return link_labels(answer, touch.link) + [
        "starts" if touch.starts_here else "ends", answer.called(touch.other), flow_figure(answer.units, abs(touch.inflow)),
        way_words(answer, node, touch), STATUSES[answer.listing.statuses[touch.link]],
        touching.set_to(answer, touch.link) or "",
        link_marks(answer, touch.link, in_trials(answer, "freed", "VF", touch.link))]


def at_node(answer, number):
    """A node and what touches it."""
    marks = node_marks(answer, number, in_trials(answer, "grounded", "GN", number))
    yield "  elevation %s, head %s, pressure %s, %s%s" % (
        heads_words(answer.units, answer.nodes[number]["elevation"]), heads_words(answer.units, answer.listing.heads[number]),
        pressure_words(answer.units, answer.pressure(number)), water_words(answer, number), marks and "; " + marks)
    found = touching.touches(answer, number)
    yield from ("  doubt   " + words for words in touching.doubts(answer, number))
    yield from ("  note    " + note.words for note in answer.notes
                if note.node == number or note.link in [touch.link for touch in found])
    if not found:
        yield "  no link touches it"
        return
    header = ["link", "<name", "<kind", "<here", "<other end", "flow " + answer.units.flow_name, "<", "<status", "<setting", "<"]
    yield from filled(header, [touch_row(answer, number, touch) for touch in found])


def section(name, lines):
    lines = list(lines)
    return ["", name] + lines if lines else []


def refused(answer):
    refusal = answer.refusal
    lines = ["  means   " + refusal.meaning, "  mend    " + refusal.mend]
    if refusal.record is not None:
        lines.insert(1, "  record  %s, at byte %d of the sheet" % (refusal.record, refusal.offset))
    if refusal.holds is not None:
        lines.insert(1, "  line    " + refusal.holds)
    return lines + section("Sections in the way", in_the_way(refusal.sections)) + section("Trials", record(answer))


def in_the_way(sections):
    """What each section that is not carried would be left out with."""
    if sections:
        yield from table(["<section", "line", "lines", "<without it"], [
            [inp_sections.in_brackets(found.section), str(found.line), str(found.lines), inp_sections.words(found.section)]
            for found in sections])


def solved(answer):
    mend = [] if answer.mend is None else ["  mend    " + answer.mend]
    if answer.at is None:
        return mend + whole(answer)
    return mend + [line for number in answer.at for line in section("At " + answer.node(number), at_node(answer, number))]


def whole(answer):
    return (["  note    " + note.words for note in answer.notes]
            + section("Nodes", nodes(answer))
            + section("Hydrants", hydrants(answer))
            + (section("Links", links(answer)) if answer.links else [])
            + section("Balance", balance(answer))
            + section("Trials", record(answer)))


def page(answer, named):
    """Everything about one sheet, or about the nodes asked for; its name before the first line where there are several."""
    first = ("%s: " % shown(answer.name) if named else "") + answer.first_line()
    left_out = ["  " + inp_sections.left_out_words(answer.left_out)] if answer.left_out else []
    return "\n".join([first] + left_out + (solved if answer.solved else refused)(answer)) + "\n"
