"""Answers every file that the desk was asked about, one after the other, whatever becomes of the others."""
import os

from . import (as_json, bookings, evening, evening_out, files, pages, pictures, schemes, sheet_bounds, touching,
               unsettled)
from .answer import BAD_USE, Answer, gravest
from .asking import NotToBeHad, of_listing
from .files import BadUse
from .schemes import BadText
from .sheet_text import Mistake
from .streams import complain, note, put


def tell(error):
    """On standard error; a text's mistakes as editors take them."""
    (note if isinstance(error, BadText) else complain)(str(error))


class Unanswered:
    """A file that could not be read, or for which there is no program to ask."""
    exit_status = BAD_USE

    def __init__(self, name, why):
        self.name, self.why = name, why


class Round:
    """The files of one command. `limits` are what the verdict is asked with, `ask` asks the program."""

    def __init__(self, options, limits, ask):
        self.options, self.limits, self.ask = options, limits, ask
        self.found, self.statuses = [], []
        # why there is no program to ask, once this is known
        self.no_program = None

    def reply(self, given):
        """What the program says of a scheme; a text that was refused has that for its listing."""
        if given.refusal is not None:
            return of_listing("A %d %d 0 0 0\n" % (given.refusal.number, given.refusal.place))
        if self.no_program:
            raise self.no_program
        (found,) = self.ask([given.path or given.data], self.limits)
        return found

    def answer(self, name):
        given = schemes.read(name, self.options.leave_out)
        answer = Answer(given.name, given.data, self.reply(given), self.limits, given.path is None, given.names,
                        given.link_names, given.refusal)
        answer.left_out = given.left_out
        if answer.listing.number == unsettled.USED_UP:
            answer.refusal.why += unsettled.words(answer, self.ask(unsettled.coarser(given.data), self.limits))
        if answer.solved and self.options.at:
            answer.at = touching.asked(answer, self.options.at)
        return answer

    def answer_or_why(self, name):
        try:
            return self.answer(name)
        except BadUse as error:
            tell(error)
            return Unanswered(name, str(error))
        except NotToBeHad as error:
            if self.no_program is None:
                complain(str(error))
            self.no_program = error
            return Unanswered(name, str(error))

    @property
    def several(self):
        return len(self.options.files) > 1

    def show(self, number, found):
        """Prints an answer and draws it."""
        if not self.options.json:
            first = all(isinstance(earlier, Unanswered) for earlier in self.found)
            put(("" if first else "\n") + pages.page(found, self.several))
        if self.options.plot:
            self.draw(number, found)

    def draw(self, number, found):
        """A picture that cannot be written takes nothing from the answer."""
        name = picture_name(self.options.plot, number, found.name, self.several)
        try:
            files.write(name, pictures.picture(found).encode("utf-8", "replace"), self.options.files)
        except BadUse as error:
            complain(str(error))
            self.statuses.append(BAD_USE)

    def run(self):
        """The exit status."""
        for number, name in enumerate(self.options.files, 1):
            found = self.answer_or_why(name)
            if not isinstance(found, Unanswered):
                self.show(number, found)
            self.found.append(found)
            self.statuses.append(found.exit_status)
        if self.options.json:
            put(as_json.document(self.found))
        return gravest(self.statuses)


def note_mistakes(name, mistakes):
    for line, words in sorted(mistakes):
        note("%s:%d: %s" % (files.shown(name), line, words))


def table_of(name, given):
    """The bookings for a scheme."""
    if sheet_bounds.reading(given.data)[0] != "G":
        raise BadUse("%s would be refused: solve it alone to see why" % files.shown(given.name))
    nodes = [fields for _, mark, fields in sheet_bounds.records(given.data)[0] if mark == b"ND"]
    table_file = files.read(name)
    if table_file.path:
        raise BadUse("%s has more than %d bytes, which is too long for bookings" % (files.shown(name), files.MOST))
    try:
        return bookings.read(table_file.data, bookings.Scheme(nodes, given.names))
    except Mistake as mistake:
        raise BadUse("%s: %s" % (files.shown(name), mistake)) from mistake


def judged_hours(options, limits, ask_rows):
    """The table and its hours, judged."""
    (scheme,), name = options.files, options.bookings
    given = schemes.read(scheme, options.leave_out).unless_refused()
    table = table_of(name, given)
    try:
        return table, evening.evening(given, table, limits, ask_rows)
    except NotToBeHad as error:
        raise BadUse(str(error)) from error


def answer_bookings(options, limits, ask_rows):
    """The exit status: of the hours the gravest, and 2 where a line has a mistake."""
    (scheme,), name = options.files, options.bookings
    try:
        table, found = judged_hours(options, limits, ask_rows)
    except BadUse as error:
        tell(error)
        put(as_json.document([Unanswered(scheme, str(error))]) if options.json else "")
        return BAD_USE
    note_mistakes(name, table.mistakes + [mistake for hour in table.hours.values() for mistake in hour.mistakes])
    if found:
        put(evening_out.as_json(found) if options.json else evening_out.page(found))
    elif options.json:
        put("[]\n")
    statuses = [judged.exit_status for judged in found] + ([BAD_USE] if table.mistakes else [])
    if options.plot and found:
        picture = evening_out.picture(name, found).encode("utf-8", "replace")
        try:
            files.write(options.plot, picture, [scheme, name])
        except BadUse as error:
            complain(str(error))
            statuses.append(BAD_USE)
    return gravest(statuses)


def picture_name(plot, number, name, several):
    if not several:
        return plot
    stem, ending = os.path.splitext(plot)
    return "%s-%d-%s%s" % (stem, number, os.path.splitext(os.path.basename(name))[0], ending)
