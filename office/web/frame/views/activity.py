"""All that was done, in words: found by words, by kind, by person and by day."""
import dataclasses
import datetime
from collections.abc import Callable, Mapping, Sequence
from typing import Any

import flask
from register_files import Refused
from werkzeug.wrappers import Response

from office.core import days, texts
from office.core.command_kinds import WORK
from office.core.model import Register
from office.core.wording import NOT_A_DAY, day_of, moment
from office.files import book
from office.files.book import Page
from office.web.machinery import tables
from office.web.machinery.numbers import MOST_DIGITS
from office.web.machinery.tables import Column
from office.web.people.guard import needs, parts
from office.web.people.roles import NOTES
from office.web.register import entry_words, records
from office.web.register.entry_words import Names
from office.web.register.history import ANSWER, SETTLED, Entry
from office.web.schools import flags
from office.web.schools.views.schools import attachment

screen = flask.Blueprint("activity", __name__, url_prefix="/activity")
# so many entries are on a page, and in an Excel file
SHOWN, MOST_IN_FILE = 100, 5000
SECONDS = len("2025-03-17T10:00:00")
COLUMNS: dict[str, Column[Entry]] = {
    "when": Column("When", "", lambda it: it.number),
    "who": Column("Who", "", lambda it: it.who),
    "what": Column("What", "", lambda it: entry_words.form_of(it)[1]),
    "result": Column("Result"),
}
HEADER = ("When", "Who", "Kind", "What", "Details", "Result")
Test = Callable[[Entry], bool]


@dataclasses.dataclass(frozen=True)
class Asked:
    """What somebody looks for, as it was typed; and what is wrong with it."""

    q: str
    kind: str
    who: str
    since: str
    until: str

    @property
    def values(self) -> dict[str, str]:
        """What of it is in an address."""
        return {name: it for name, it in dataclasses.asdict(self).items() if it}

    @property
    def wrong(self) -> dict[str, str]:
        """What is wrong with the days."""
        typed = {"since": self.since, "until": self.until}
        return {name: NOT_A_DAY if it and day_of(it) is None else "" for name, it in typed.items()}

    def tests(self, register: Register | None) -> list[Test]:
        """What an entry must be, what costs least first."""
        found: list[Test] = [lambda it: it.what not in (ANSWER, SETTLED)]
        if self.who:
            found.append(lambda it: it.who == self.who)
        if first := day_of(self.since):
            begin = bound(first)
            found.append(lambda it: it.at[:SECONDS] >= begin)
        if last := day_of(self.until):
            end = bound(last + datetime.timedelta(1))
            found.append(lambda it: it.at[:SECONDS] < end)
        if self.kind:
            found.append(lambda it: entry_words.form_of(it)[0] == self.kind)
        if words := dict.fromkeys(texts.plain(self.q).split()):
            found.append(has({it: named_by(it, register) for it in words}))
        return found


def bound(day: datetime.date) -> str:
    """The moment at which a day begins on the clock of this machine, as the history has it."""
    begin = datetime.datetime.combine(day, datetime.time()).astimezone(datetime.timezone.utc)
    return begin.isoformat()[:SECONDS]


def asked() -> Asked:
    """What the address asks for."""
    given = flask.request.args
    return Asked(*(given.get(it.name, "").strip()[:texts.MOST_SOUGHT]
                   for it in dataclasses.fields(Asked)))


def named_by(word: str, register: Register | None) -> tuple[set[int], set[str]]:
    """The entries about a child whose name or number has a word, and the schools that have it."""
    children = register.children.values() if register else ()
    schools = register.schools.values() if register else ()
    numbers = {it.number for it in children if word in texts.plain(it.name)}
    numbers |= {int(word)} if word.isdecimal() and len(word) <= MOST_DIGITS else set()
    codes = {it.code for it in schools if word in texts.plain(f"{it.code} {it.name}")}
    record = parts().history
    return {entry for it in numbers for entry in record.about.get(it, ())}, codes


def has(words: Mapping[str, tuple[set[int], set[str]]]) -> Test:
    """Whether an entry has each word, or is about a child or a school that has it."""
    is_text = not all(map(str.isdecimal, words))

    def found(it: Entry) -> bool:
        # (which is made once for all of them)
        text = texts.plain(f"{it.who} {entry_words.own_words(it)}") if is_text else ""
        school = it.about.get("command", it.about).get("school")
        return all(it.number in entries or school in codes
                   or not word.isdecimal() and word in text
                   for word, (entries, codes) in words.items())

    return found


def known(is_present: bool = False) -> Register | None:
    """The register as it was read last, for the names that it has; or as it is."""
    desk = parts().desk
    try:
        return desk.copy.register if desk.copy and not is_present else desk.register()
    except Refused:
        return None


def found_of(it: Asked, register: Register | None) -> list[Entry]:
    """The entries that were asked for, the last first."""
    tests = it.tests(register)
    return [entry for entry in reversed(list(parts().history.entries))
            if all(test(entry) for test in tests)]


@dataclasses.dataclass(frozen=True)
class Row:
    """An entry in words."""

    entry: Entry
    kind: str
    what: str
    more: str
    result: str
    is_done: bool


def rows_of(entries: Sequence[Entry], register: Register | None) -> list[Row]:
    """Entries in words. A child that the register did not have when it was read is looked up."""
    numbers = {entry_words.child_of(it.about.get("command", it.about)) for it in entries} - {None}
    if register and not numbers <= register.children.keys():
        register = known(True)
    names, record, found = Names(register, flags.present()), parts().history, list[Row]()
    for it in entries:
        result, is_done = records.result(record, it)
        kind, more = entry_words.form_of(it)[0], records.more_of(record, it, names)
        found.append(Row(it, WORK[kind], entry_words.title_of(it, names), more,
                         result[:1].upper() + result[1:], is_done))
    return found


@screen.get("/")
@needs(NOTES)
def show() -> str | tuple[str, int]:
    """The entries, the last first."""
    what, register = asked(), known()
    is_wrong = any(what.wrong.values())
    made = tables.table(COLUMNS, [] if is_wrong else found_of(what, register))
    shown = tables.paged(made.rows, flask.request.args.get("page", ""), SHOWN)
    return flask.render_template(
        "activity.html", rows=rows_of(shown.rows, register), columns=made.columns, sort=made.sort,
        asked=what, wrong=what.wrong, kinds=WORK,
        names=sorted({it.who for it in list(parts().history.entries)}),
        count_all=len(made.rows), page=shown, most=MOST_IN_FILE,
        page_address=tables.pages("activity.show", **what.values),
    ), 400 if is_wrong else 200


@screen.get("/workbook")
@needs(NOTES)
def workbook() -> Response:
    """The same as an Excel file."""
    what, register = asked(), known()
    made = tables.table(COLUMNS, [] if any(what.wrong.values()) else found_of(what, register))
    cells: list[list[Any]] = [list(HEADER)]
    cells += [[moment(it.entry.at), it.entry.who, it.kind, it.what, it.more, it.result]
              for it in rows_of(made.rows[:MOST_IN_FILE], register)]
    title = f"Activity, as of {days.in_words(days.today())}"
    page = Page("Activity", "what was done, by whom and when", cells, is_text=True)
    return attachment(book.data([page], title), "activity")
