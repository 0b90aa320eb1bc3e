"""An answer for a program; docs/DESK.md says what each key holds."""
import json

from . import causes, inp_sections, notes, touching
from .answer import Answer, entry_words
from .network import HOLDS, in_service
from .sheet_format import LINK_KINDS, NODE_KINDS, STATUSES, bits


def numbers(**values):
    """Each number under its name and, as 16 hex digits, under its name with `_bits`."""
    found = {}
    for name, value in values.items():
        found[name] = value
        found[name + "_bits"] = "%016x" % bits(value)
    return found


def safe(value):
    """A field's value as JSON can hold it: a NaN or an infinity as text."""
    return value if isinstance(value, int) or abs(value) <= 2.0 ** 1000 else repr(value)


def refusal(answer):
    r = answer.refusal
    return {
        "meaning": r.meaning, "why": r.why, "mend": r.mend, "record": r.record, "offset": r.offset,
        "fields": [{"field": name, "value": safe(value), "must_be": must} for name, value, must in r.fields],
        "holds": r.holds, "sections": [in_the_way(section) for section in r.sections],
    }


def in_the_way(section):
    """A section of an EPANET text that is not carried."""
    return dict(section._asdict(), may_be_left_out=section.section in inp_sections.WITHOUT,
                words=inp_sections.words(section.section))


def left_out(sections):
    return [section._asdict() for section in sections]


def node(answer, i):
    fields, units = answer.nodes[i], answer.units
    head, demand, pressure = answer.listing.heads[i], answer.listing.demands[i], answer.pressure(i)
    found = {"node": i, "name": fields.get("name"), "kind": NODE_KINDS[fields["kind"]],
             "in_service": not fields["disabled"], "grounded": i in answer.grounded, "undetermined": i in answer.undetermined}
    found.update(numbers(elevation_ft=fields["elevation"], head_ft=head, pressure_ft=pressure, demand_cfs=demand,
                         pressure=pressure * units.per_foot, demand=demand * units.per_cfs))
    found.update(hydrant(answer.hydrants[i], units) if i in answer.hydrants else {})
    return found


def hydrant(found, units):
    """What a hydrant's node has besides."""
    per = units.per_cfs
    return dict(numbers(asked_cfs=found.asked, drawn_cfs=found.drawn, lack_cfs=found.lack, allowed_cfs=found.allowed,
                        asked=found.asked * per, drawn=found.drawn * per, lack=found.lack * per,
                        allowed=found.allowed * per), fits=found.fits)


def giving_way(answer):
    """What an answer to a sheet with a PD has besides."""
    return {"pressures": numbers(minimum_ft=answer.pd["minimum"], required_ft=answer.pd["required"]),
            "short": [h.number for h in answer.short], "unfit": [h.number for h in answer.unfit]}


def link(answer, i):
    fields, flow, status = answer.links[i], answer.listing.flows[i], answer.listing.statuses[i]
    names = fields.get("names", (None, None))
    found = {"link": i, "name": fields.get("name"), "kind": LINK_KINDS[fields["kind"]],
             "start": fields["start"], "end": fields["end"],
             "start_name": names[0], "end_name": names[1], "in_service": in_service(fields, answer.nodes),
             "freed": i in answer.freed, "check_valve_holds": notes.check_holds(answer, i),
             "status": STATUSES[status], "status_in_sheet": STATUSES[fields["status"]],
             "changed": status != fields["status"],
             "changes": [dict(trial=c.trial, **change(answer, c)) for c in answer.changes if c.link == i]}
    found.update(numbers(flow_cfs=flow, flow=flow * answer.units.per_cfs))
    if LINK_KINDS[fields["kind"]] in HOLDS:
        short = notes.lack(answer, i)
        found.update(numbers(setting_ft=fields["setting"], setting_lack_ft=short,
                             setting=fields["setting"] * answer.units.per_foot,
                             setting_lack=short * answer.units.per_foot))
    return found


def change(answer, found):
    """A change of status that the record tells: its cause by number and name, and what the link did and why."""
    did, why = causes.deed(answer.links, found)
    return {"cause": found.cause, "cause_name": causes.NAMES[found.cause], "did": did, "why": why}


def trial_entry(answer, trial, mark, number):
    told = causes.told(trial, mark, number)
    return {"trial": trial, "mark": mark, "number": number, "words": entry_words(answer, mark, number),
            "changed": dict(link=told.link, **change(answer, told)) if told else None}


def results(answer):
    demand, supply, error = answer.listing.balance
    units = answer.units
    return {
        "units": {"flow": units.flow, "flow_per_cfs": units.per_cfs,
                  "pressure": units.pressure, "pressure_per_ft": units.per_foot},
        "nodes": [node(answer, i) for i in range(len(answer.nodes))],
        "links": [link(answer, i) for i in range(len(answer.links))],
        "balance": numbers(demand_cfs=demand, supply_cfs=supply, error_cfs=error),
    }


def touch_keys(answer, touch):
    found = {"link": touch.link, "starts_here": touch.starts_here, "other": touch.other,
             "other_name": answer.nodes[touch.other].get("name"), "set_to": touching.set_to(answer, touch.link),
             "freed_in": touching.trials_of(answer, "VF", touch.link)}
    found.update(numbers(inflow_cfs=touch.inflow, inflow=touch.inflow * answer.units.per_cfs))
    return found


def at_node(answer, i):
    """What `--at` asks of a node; the rest stands in `nodes` and `links` under its number."""
    return {"node": i, "name": answer.nodes[i].get("name"), "grounded_in": touching.trials_of(answer, "GN", i),
            "doubts": list(touching.doubts(answer, i)),
            "touching": [touch_keys(answer, touch) for touch in touching.touches(answer, i)]}


def answer_keys(answer):
    found = {
        "sheet": answer.name, "first_line": answer.first_line(), "exit_status": answer.exit_status,
        "solved": answer.solved, "may_be_sold": answer.may_be_sold, "error": None,
        "mend": answer.mend, "notes": [note._asdict() for note in answer.notes],
        "verdict": {"number": answer.verdict, "place": answer.place},
        "limits": numbers(lowest_pressure_ft=answer.limits.lowest, head_ft=answer.limits.head,
                          flow_cfs=answer.limits.flow),
        "number": answer.listing.number, "place": answer.listing.place, "trials": answer.listing.trials,
        "freed": answer.freed, "grounded": answer.grounded, "undetermined": answer.undetermined,
        "record": [trial_entry(answer, trial, mark, number) for trial, (mark, number) in enumerate(answer.entries, 1)],
        "refusal": None if answer.solved else refusal(answer), "left_out": left_out(answer.left_out),
    }
    found.update(results(answer) if answer.solved else {})
    found.update(giving_way(answer) if answer.solved and answer.pd else {})
    found.update({} if answer.at is None else {"at": [at_node(answer, i) for i in answer.at]})
    return found


def unanswered_keys(found):
    return {"sheet": found.name, "first_line": found.why, "exit_status": found.exit_status,
            "solved": False, "may_be_sold": False, "error": found.why}


def entry(found):
    return answer_keys(found) if isinstance(found, Answer) else unanswered_keys(found)


def document(found):
    """One list, an entry a file, be it answered or not."""
    return json.dumps([entry(one) for one in found], indent=1, allow_nan=False) + "\n"
