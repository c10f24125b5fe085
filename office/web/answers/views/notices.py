"""Reminders and withdrawals: the list of a day, what is ticked shown whole, and recorded; then the
letters of the same children.
"""
import dataclasses
import datetime
import secrets
from collections.abc import Iterable

import flask
from register_files import Refused
from werkzeug.wrappers import Response

from office.core import days, texts, wording
from office.core.command_kinds import NOTICES
from office.core.days import today
from office.core.model import Register
from office.core.wording import sentence
from office.web.children import actions as children
from office.web.letters import rows as letters_rows
from office.web.letters.views import letters
from office.web.machinery import choices, numbers, tables
from office.web.machinery.asked import Typed
from office.web.machinery.outbox import DONE, Item
from office.web.people.guard import needs, parts, person
from office.web.people.roles import READ, RECORD

from .. import notices
from ..notice_marks import UNREAD, Marks
from ..notices import LAPSE, REMIND, Due

screen = flask.Blueprint("notices", __name__, url_prefix="/notices")
Answer = str | Response | tuple[str, int]
KINDS = f"any({REMIND}, {LAPSE})"
WAIT_SECONDS = 4.0
# at first the reminders without an answer are ticked
FIRST = "first"
CHANGED = "What was shown has changed meanwhile. Nothing was recorded: look at it again."


@dataclasses.dataclass(frozen=True)
class Box:
    """One that is due, and whether its box is ticked."""

    due: Due
    is_ticked: bool


@screen.get("/")
@needs(READ)
def show() -> Answer:
    """What is due today, and the rows that were recorded."""
    register: Register = parts().desk.register()
    counts = {}
    for kind in NOTICES:
        try:
            counts[kind] = len(notices.due(register, kind, today()))
        except Refused:
            counts[kind] = 0
    return flask.render_template("notices.html", counts=counts, kinds=NOTICES,
                                 found=parts().notices.listed())


@screen.get(f"/<{KINDS}:name>")
@needs(RECORD)
def choose(name: str) -> Answer:
    """Those that are due on a day, to be ticked; with what was ticked on another page of them. If
    all that are due today are ticked, the question about them, which leads to the list.
    """
    args, kept = flask.request.args, None
    if not args and (all_due := all_ticked(name)):
        return to_question(name, all_due)
    if "page" in args:
        kept = parts().asked.find(person(), flask.request.path)
    return choose_page(name, kept or args, numbers.read(args.get("page", ""), 1))


def choose_page(
    kind: str, given: Typed, number: int = 1, said: str = "", status: int = 200,
) -> Answer:
    """The list of a day with its boxes."""
    typed = given.get("day", days.in_words(today()))
    day, found, marks = wording.day_of(typed), [], None
    wrong = "" if day else wording.NOT_A_DAY
    if day and day > today():
        day, wrong = None, wording.NOT_YET
    if day:
        register = parts().desk.register()
        try:
            found, marks = notices.due(register, kind, day), Marks(parts().letter_lists, register)
        except Refused as error:
            wrong = sentence(str(error))
    tick = given.get("tick", FIRST if kind == REMIND else "none")
    picked = choices.picked(given) if "ticked" in given else None
    if wrong and status == 200 and "day" in given:
        status = 400
    kept = parts().notices.kept(kind)
    due = [Box(it, it.child not in kept and (is_ticked(tick, it, marks) if picked is None
                                             else str(it.child) in picked)) for it in found]
    return flask.render_template(
        "notices_choose.html", kind=kind, list=NOTICES[kind].due, title=NOTICES[kind].row,
        one=NOTICES[kind].one, typed=typed, wrong=wrong, said=said, is_bad=status != 200,
        kept=kept, marks=marks, day=wording.weekday(day) if day else "", many=len(due),
        page=choices.page_of(due, number, lambda it: it.due.child if it.is_ticked else None)
    ), status


def is_ticked(tick: str, it: Due, marks: Marks | None) -> bool:
    """Whether one is ticked before anybody has ticked it."""
    return tick == "all" or tick == FIRST and not (marks and marks.answered(it.child))


def ticked(register: Register, kind: str, day: datetime.date, given: Typed) -> list[Due]:
    """Those that are ticked, which must all be due still."""
    found = {it.child: it for it in notices.due(register, kind, day)}
    wanted = sorted(it for it in map(numbers.read, choices.picked(given)) if it >= 0)
    if gone := [it for it in wanted if it not in found]:
        raise Refused(not_due(register, kind, gone))
    if not wanted:
        raise Refused("tick at least one child")
    parts().notices.see_none_kept(kind, wanted)
    chosen = set(wanted)
    return notices.seen(register, kind, day, (
        it for number, it in found.items() if number in chosen))


def not_due(register: Register, kind: str, gone: list[int]) -> str:
    """Which children are not due any more. All others stay ticked."""
    names = [f"{it}, {register.children[it].name}" if it in register.children else str(it)
             for it in gone]
    who = f"child {names[0]}, is" if len(gone) == 1 else f"children {'; '.join(names)}; are"
    return (f"{who} not due any more: somebody has recorded an answer or a {NOTICES[kind].one}"
            " meanwhile."
            " Nothing was recorded, and all others stay ticked")


def all_ticked(kind: str) -> list[tuple[str, str]]:
    """The reminders that are due today as they are ticked at first, if all of them are."""
    register = parts().desk.register()
    try:
        found = notices.due(register, kind, today()) if kind == REMIND else []
    except Refused:
        return []
    marks = Marks(parts().letter_lists, register)
    if not found or not all(is_ticked(FIRST, it, marks) for it in found):
        return []
    return [("day", days.in_words(today())), ("ticked", "yes"),
            ("others", ",".join(str(it.child) for it in found))]


def to_question(kind: str, ticks: Iterable[tuple[str, str]]) -> Response:
    """Leads to the question about what is ticked."""
    return flask.redirect(flask.url_for("notices.ask", name=kind, key=kept_now(ticks)), 303)


def kept_now(ticks: Iterable[tuple[str, str]]) -> str:
    """Keeps what is ticked, and returns its key. (The same ones may be ticked again later, after a
    restore.)
    """
    typed = Typed([*ticks, ("once", secrets.token_urlsafe(12))])
    return parts().asked.keep(person(), flask.request.path, typed)


@screen.post(f"/<{KINDS}:name>")
@needs(RECORD)
def tick(name: str) -> Answer:
    """What is ticked: leads to another page of the list, or to the question about all of it."""
    form = flask.request.form
    day = day_in(form)
    if day is None:
        return choose_page(name, form, status=400)
    if "page" not in form:
        try:
            ticked(parts().desk.register(), name, day, form)
        except Refused as error:
            return choose_page(name, form, 1, sentence(str(error)), 409)
    if "page" in form:
        kept_now(form.items(multi=True))
        return flask.redirect(flask.url_for("notices.choose", name=name, page=form["page"]), 303)
    return to_question(name, form.items(multi=True))


def day_in(given: Typed) -> datetime.date | None:
    """The day that was typed, if it is one of which anything can be recorded."""
    day = wording.day_of(given.get("day", ""))
    return day if day and day <= today() else None


@screen.get(f"/<{KINDS}:name>/<key>")
@needs(RECORD)
def ask(name: str, key: str) -> Answer:
    """The question, with all that is to be recorded; or the row that was confirmed."""
    return question(name, key, None)


@screen.post(f"/<{KINDS}:name>/<key>")
@needs(RECORD)
def confirm(name: str, key: str) -> Answer:
    """Records what was shown."""
    return question(name, key, flask.request.form)


def question(kind: str, key: str, form: Typed | None) -> Answer:
    """The question about a choice, or the answer to it."""
    if known := known_row(key):
        # (a second click, or Back, after it was recorded)
        return to_row(known)
    given = parts().asked.find(person(), flask.url_for("notices.choose", name=kind), key)
    day = day_in(given) if given else None
    if given is None or day is None:
        return choose_page(kind, Typed(), 1, CHANGED, 409)
    register = parts().desk.register()
    try:
        chosen = ticked(register, kind, day, given)
    except Refused as error:
        return choose_page(kind, given, 1, sentence(str(error)), 409)
    marks = Marks(parts().letter_lists, register)
    digest = notices.digest(kind, day, chosen, marks)
    is_wrong = kind == LAPSE and any(marks.unsent(it.child) for it in chosen)
    said = ""
    if form is not None:
        if form.get("digest") != digest:
            said = CHANGED
        elif is_wrong and form.get("read") != "yes":
            said = UNREAD
        else:
            return recorded(kind, key, day, chosen, given)
    warnings = children.day_warnings(
        register, notices.command_of(kind, chosen[0].child, chosen[0].school, day), day, today())
    return flask.render_template(
        "notices_ask.html", kind=kind, chosen=chosen, marks=marks, digest=digest, key=key,
        weekday=wording.weekday(day), warnings=warnings, said=said, register=register,
        is_wrong=is_wrong, becomes=NOTICES[kind].becomes_on(day),
        button=f"Record {texts.count(len(chosen), NOTICES[kind].one)} of {days.in_words(day)}",
    ), 409 if said else 200


def recorded(
    kind: str, key: str, day: datetime.date, chosen: list[Due], given: Typed,
) -> Answer:
    """Records what was chosen and shown."""
    try:
        number = parts().notices.add(person(), key, kind, day, chosen)
        parts().asked.forget(person(), flask.url_for("notices.choose", name=kind))
    except Refused as error:
        return choose_page(kind, given, 1, sentence(str(error)), 409)
    parts().notices.record(person(), number, WAIT_SECONDS)
    return to_row(number)


def known_row(key: str) -> int | None:
    """The row that a form has made already."""
    found = parts().store.row("SELECT id FROM notice_row WHERE key=?", key)
    return int(found["id"]) if found else None


def to_row(number: int) -> Response:
    """Leads to a row."""
    return flask.redirect(flask.url_for("notices.one", number=number), 303)


@screen.get("/rows/<int:number>")
@needs(READ)
def one(number: int) -> Answer:
    """A row: what came of each, and the letters of the same children."""
    # (asked for first: of one that ends meanwhile the page is loaded once more)
    is_running = parts().notices.is_running(number)
    try:
        if not is_running:
            parts().notices.settle(number)
        row = parts().notices.get(number)
    except Refused as error:
        if not parts().store.row("SELECT 1 FROM notice_row WHERE id=?", number):
            flask.abort(404)
        return flask.render_template("failed.html", reason=sentence(str(error)), status=503), 503
    names = dict[int, str]()
    try:
        names = {it.number: it.name for it in parts().desk.register().children.values()}
    except Refused:
        # (while the register is copied it cannot be read)
        if not is_running:
            raise
    table: tables.Table[Item] = tables.table({
        "child": tables.Column("Number", "number", lambda it: it.about["child"]),
        "name": tables.Column("Name", "", lambda it: names.get(it.about["child"], "")),
        "school": tables.Column("School", "", lambda it: it.about["school"]),
        "said": tables.Column("Result", "", lambda it: it.said),
    }, row.notices)
    made = letters_rows.of_row(parts().letters, number)
    return flask.render_template(
        "notices_row.html", row=row, kind=NOTICES[row.kind], names=names,
        table=table, pages=tables.pages("notices.one", number=number),
        page=tables.paged(table.rows, flask.request.args.get("page", "")),
        done=row.count(DONE), is_running=is_running,
        it=made, recording=letters.recording(made) if made else {},
        template=letters.template_of(made) if made else "",
        has_sender=bool(parts().letters.sender.number))


@screen.post("/rows/<int:number>")
@needs(RECORD)
def go_on(number: int) -> Answer:
    """Goes on with a row where it stopped."""
    if known := parts().store.row("SELECT id FROM notice_row WHERE id=?", number):
        parts().notices.record(person(), int(known["id"]), WAIT_SECONDS)
        return to_row(number)
    return flask.abort(404)
