"""The desk's command; see --help."""
import argparse
import os
import traceback

from . import VERSION, answering, as_json, asking, files, inp_sections, limits, schemes, streams, text_of_sheet
from .answer import BAD_USE, CLEAN, gravest
from .answering import tell
from .files import BadUse
from .sheet_format import shown
from .streams import OutputLost, complain, put
from .words import quoted

DESCRIPTION = ("Solves schemes by the proved program and tells a person or a program what came out and whether it may be "
               "sold.")
EPILOG = """A scheme is a network sheet, its text form with names, or an EPANET text: a file that ends in .sheet is a sheet,
one in .txt a text, one in .inp an EPANET text, and else what stands in it decides. A text has at most 1048576 bytes.
A scheme has at most 64 nodes and 128 links, and no pumps.

units:
  pressures  ft m psi bar kPa
  flows      CFS GPM MGD IMGD AFD LPS LPM MLD CMS CMH CMD L/s L/min m3/h m3/d

examples:
  desk scheme.txt                              a page
  desk --leave-out TIMES,REPORT scheme.inp     an EPANET text without the sections that do not matter for one hour
  desk --least 10m --plot out.svg scheme.txt   no hydrant below 10 m; a picture besides
  desk --json *.sheet                          one JSON list
  desk --at ridge scheme.txt                   what touches the node ridge
  desk --bookings week.csv scheme.txt          yes or no for every hour
  desk --sheet scheme.txt -o scheme.sheet      the text form as a sheet
  desk --text scheme.sheet                     and back

exit status:
  0  every sheet was solved, and the proved verdict is that its pressures may be sold
  1  a sheet or an EPANET text was refused by the proved program; that is an answer, and the first line says why
  2  bad use: wrong arguments, a file that cannot be read, written or is empty, a text with mistakes, a node that a
     scheme does not have, no program to ask, an interruption, standard output that takes no more
  3  a sheet was solved, but its pressures must not be sold on; the first line says why
  of several sheets the gravest counts: 2, then 3, then 1

DESK.md says what the output means, SHEETS.md how to write a scheme by hand, INP.md what of an EPANET text is read; they are
in docs/, or, installed, in share/doc/ndurabeew."""


class Parser(argparse.ArgumentParser):
    """Whoever asks for JSON gets a list even where the arguments are wrong: the message as its one entry."""
    as_list = False

    def error(self, message):
        # it quotes the arguments, which may hold anything
        told = quoted(message, 300)
        try:
            super().error(told)
        finally:
            if self.as_list:
                put(as_json.document([answering.Unanswered(None, told)]))


def asks_json(args):
    """Whether `--json` is among the arguments, be they right or wrong; behind `--` all are files."""
    options = args[:args.index("--")] if "--" in args else args
    return any(word == "--json" or word.startswith("--json=") for word in options)


def node(text):
    """The word that asks for a node; no name has a space in it."""
    if not text.strip():
        raise argparse.ArgumentTypeError("the name or the number of a node is expected")
    return text.strip()


def parser():
    p = Parser(prog="desk", description=DESCRIPTION, epilog=EPILOG, allow_abbrev=False,
               formatter_class=argparse.RawDescriptionHelpFormatter)
    p.add_argument("files", nargs="*", metavar="SCHEME", help="a network sheet, a scheme in the text form or an EPANET "
                   "text; - reads standard input")
    p.add_argument("--json", action="store_true", help="print one JSON list, an entry a file; where the arguments are "
                   "wrong, one entry that says so")
    p.add_argument("--plot", metavar="FILE.svg", help="also draw the pressures; with several schemes each has "
                   "its own picture, FILE-1-NAME.svg and so on")
    p.add_argument("--least", metavar="PRESSURE", type=limits.least, help="the lowest pressure that a hydrant may "
                   "have, as 10m, 15psi or 33ft; 0 if not given")
    p.add_argument("--within", metavar="TOLERANCES", type=limits.within, default={}, help="how far heads and "
                   "flows may be from what the laws say, as 0.1ft,0.001cfs (so it is if not given) or one of the two")
    p.add_argument("--at", metavar="NODE", type=node, action="append", help="instead of the tables: a node, by its name or "
                   "by the number that the tables show, and every link that touches it; may be given several times")
    p.add_argument("--leave-out", metavar="SECTIONS", type=inp_sections.leave_out, action="extend", default=[], help="read "
                   "EPANET texts without these sections, as TIMES,REPORT; one that changes the hydraulics is never left out")
    p.add_argument("--bookings", metavar="FILE.csv", help="answer each hour of a table of bookings: hour, hydrant, flow and, "
                   "if wanted, least (BOOKINGS.md)")
    p.add_argument("--explain", action="store_true", help="print the sheets' records with their byte offsets")
    p.add_argument("--sheet", metavar="TEXTFILE", help="turn a scheme in the text form, or an EPANET text, into a "
                   "sheet")
    p.add_argument("--text", metavar="SHEET", help="print a sheet, or an EPANET text, in the text form, which gives that sheet "
                   "again")
    p.add_argument("--version", action="version", version="desk " + VERSION, help="print the version")
    p.add_argument("-o", dest="out", metavar="FILE", help="where --sheet and --text write it")
    return p


def limits_of(options):
    given = dict(options.within, **({} if options.least is None else {"lowest": options.least}))
    return limits.USUAL._replace(**given)


def check(p, options):
    """Ends with a message where the arguments do not go together."""
    asks = (options.json or options.plot or options.least is not None or options.within or options.at
            or options.bookings is not None)
    if options.sheet is not None or options.text is not None:
        if options.sheet is not None and options.out is None:
            p.error("--sheet needs -o FILE.sheet")
        if options.files or options.explain or asks or None not in (options.sheet, options.text):
            p.error("--sheet and --text go with -o alone")
    elif options.out is not None:
        p.error("-o goes with --sheet or --text")
    elif not options.files:
        p.error("name a scheme: a sheet or a text")
    elif options.explain and asks:
        p.error("--explain goes alone")
    elif options.bookings is not None and (len(options.files) != 1 or options.bookings == options.files[0] == "-"):
        p.error("--bookings goes with one scheme")
    elif options.bookings is not None and options.at:
        p.error("--at and --bookings do not go together")
    elif options.plot is not None and not options.plot.endswith(".svg"):
        # else `--plot a.sheet b.sheet` would write over a sheet
        p.error("--plot writes a file whose name ends in .svg")


def records_of(name, leave_out):
    given = schemes.read(name, leave_out).unless_refused()
    if given.path:
        raise BadUse("%s has more than %d bytes, and the longest sheet has 9,199" % (files.shown(name), files.MOST))
    return list(shown(given.data))


def explain_all(names, leave_out):
    statuses = []
    for name in names:
        try:
            lines = records_of(name, leave_out)
            put("".join(line + "\n" for line in ([files.shown(name)] if names[1:] else []) + lines))
            statuses.append(CLEAN)
        except BadUse as error:
            tell(error)
            statuses.append(BAD_USE)
    return gravest(statuses)


def make_sheet(name, out, leave_out):
    given = schemes.read_text(name, leave_out).unless_refused()
    files.write(out, given.data, [name])
    put("wrote %s, %d bytes\n" % (files.shown(out), len(given.data)) + "".join("  %s\n" % line for line in given.shown()))
    return CLEAN


def make_text(name, out, leave_out):
    given = schemes.read(name, leave_out).unless_refused()
    try:
        text = text_of_sheet.text_of(given.data, given.names)
    except text_of_sheet.NotGood as error:
        raise BadUse("%s: %s" % (files.shown(name), error)) from error
    if out is None:
        put(text)
    else:
        files.write(out, text.encode("utf-8"), [name])
        put("wrote %s\n" % files.shown(out))
    return CLEAN


def run(options, ask, ask_rows):
    if options.sheet is not None:
        return make_sheet(options.sheet, options.out, options.leave_out)
    if options.text is not None:
        return make_text(options.text, options.out, options.leave_out)
    if options.explain:
        return explain_all(options.files, options.leave_out)
    if options.bookings is not None:
        return answering.answer_bookings(options, limits_of(options), ask_rows)
    return answering.Round(options, limits_of(options), ask).run()


def main(args, ask=asking.ask, ask_rows=asking.ask_rows):
    p = parser()
    p.as_list = asks_json(args)
    options = p.parse_args(args)
    check(p, options)
    try:
        return run(options, ask, ask_rows)
    except BadUse as error:
        tell(error)
        return BAD_USE


def main_flushed(args):
    """The same with help and bad arguments, by which argparse ends the program."""
    try:
        return main(args)
    except SystemExit as end:
        put("")
        return end.code


def told(error):
    """What went wrong in the desk itself, on one line."""
    place = traceback.extract_tb(error.__traceback__)[-1]
    return "a fault in the desk, to be reported: %s at %s:%d: %s" % (
        type(error).__name__, os.path.basename(place.filename), place.lineno, quoted(str(error), 200))


def command(args):
    """The exit status, whatever happens."""
    streams.prepare()
    try:
        return main_flushed(args)
    except KeyboardInterrupt:
        complain("interrupted")
    except OutputLost as error:
        complain(str(error))
    except Exception as error:  # pylint: disable=broad-except
        complain(told(error))
    return BAD_USE
