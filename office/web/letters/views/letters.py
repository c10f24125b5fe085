"""Letters: whom and which template, the sets that are made and were sent, and a letter again."""
import collections
import datetime
import os
import secrets
import sqlite3
import tempfile
from typing import Any

import flask
from register_files import Refused
from werkzeug.wrappers import Response

from office.core import days, wording
from office.core.days import today
from office.core.model import Draw, Register
from office.core.wording import sentence
from office.web.machinery import choices, numbers, tables
from office.web.machinery.asked import Typed
from office.web.people.guard import needs, of_file, parts, person
from office.web.people.roles import READ, RECORD

from .. import taken_back
from .. import sets as letters_sets
from .. import text as letter_text
from .. import whom as letters_whom
from ..sets import Asked, Set, Twice
from ..versions import Version
from ..whom import CHILDREN, KINDS, LIST, ORDERS, Chosen

screen = flask.Blueprint("letters", __name__, url_prefix="/letters")
Answer = str | Response | tuple[str, int]
TYPES = {
    letters_sets.PDF: "application/pdf",
    letters_sets.MERGE: "application/vnd.openxmlformats-officedocument.spreadsheetml.sheet",
}
# the columns of the letters of a set
LETTERS: dict[str, tables.Column[sqlite3.Row]] = {
    "child": tables.Column("Number", "number", lambda it: it["child"]),
    "words": tables.Column("About", "", lambda it: it["words"]),
}
TEXT: tables.Column[sqlite3.Row] = tables.Column("Text", "screen-only")
# so many days before today letters are recorded as sent without a question, and so many days from
# the day on which they are made they may have their date
FAR_DAYS = 7


@screen.app_context_processor
def shared() -> dict[str, Any]:
    """What the screen of a child shows of its letters."""
    return {"letters_of": lambda child: parts().letters.of_child(child)}


@screen.get("/")
@needs(READ)
def show() -> Answer:
    """The question whom, and the sets."""
    return page()


def page(said: str = "", status: int = 200) -> Answer:
    """The first page of letters."""
    register: Register | None = None
    try:
        register = parts().desk.register()
    except Refused as error:
        said, status = sentence(str(error)), 503
    draws = [(str(it.number), titled(it)) for it in register.draws] if register else []
    agreed = parts().letters.audits.agreed(register) if register else set()
    return flask.render_template(
        "letters.html", said=said, is_bad=status != 200, kinds=KINDS, draws=draws[::-1],
        given=flask.request.args, found=parts().letters.listed(),
        day=flask.request.args.get("day", days.in_words(today())),
        has_sender=bool(parts().letters.sender.number),
        unaudited=[(it.number, wording.draw_in_words(it), titled(it))
                   for it in register.draws if it.number not in agreed] if register else [],
        may_audit=person().may("draw")), status


def titled(draw: Draw) -> str:
    """A draw with its day."""
    return f"{wording.draw_in_words(draw)}, {days.in_words(draw.day)}"


@screen.get("/whom")
@needs(READ)
def whom() -> Answer:
    """The children of a list, with the template and the form of their letters."""
    args = flask.request.args
    if "whom" not in args:
        return flask.redirect(flask.url_for("letters.show"))
    kept = parts().asked.find(person(), path_of(args)) if "page" in args else None
    return whom_page(kept or args, numbers.read(args.get("page", ""), 1))


def path_of(given: Typed) -> str:
    """The address of a whom-list, by which is kept what was chosen there."""
    return flask.url_for("letters.whom", whom=given.get("whom"), value=given.get("value"))


def whom_page(given: Typed, number: int = 1, said: str = "", status: int = 200) -> Answer:
    """The same with what was chosen before."""
    lists = parts().letter_lists
    try:
        found = letters_whom.read(given)
        register = parts().desk.register()
        rows = lists.chosen(register, found, given.get("order", "number"))
        words = lists.words(register, found)
    except Refused as error:
        return page(sentence(str(error)), 400)
    picked = choices.picked(given) if "key" in given else None
    boxes = [(it, is_ticked(it, picked)) for it in rows]
    return flask.render_template(
        "letters_whom.html", said=said, is_bad=status != 200, whom=found, words=words,
        has_sender=bool(parts().letters.sender.number), given=given, many=len(rows),
        have=sum(bool(it.sent) for it in rows),
        address=tables.pages("letters.whom", whom=found.kind, value=found.value),
        page=choices.page_of(boxes, number, lambda it: it[0].child if it[1] else None),
        orders=[(name, words) for name, (words, _) in ORDERS.items()],
        templates=[(value_of(it), it.called) for it in parts().letters.templates.listed()],
        usual=value_of(parts().letters.templates.usual()),
        day=given.get("day_of_letters", days.in_words(today())),
        wrong_day="" if typed_day(given, "day_of_letters") else wording.NOT_A_DAY,
        lacks_place=lists.withdrawal(found)[0] and not lists.withdrawal(found)[1],
        key=given.get("key") or secrets.token_urlsafe(12)), status


def value_of(it: Version) -> str:
    """A version of a template, as the form names it."""
    return f"{it.template}.{it.version}"


def is_ticked(it: Chosen, picked: set[str] | None) -> bool:
    """Whether the box of a child is ticked: not at first where it has the letter already."""
    return str(it.child) in picked if picked is not None else not it.sent


def typed_day(given: Typed, name: str) -> datetime.date | None:
    """A day that was typed, or today where nothing was."""
    return wording.day_of(given.get(name, today().isoformat()))


@screen.post("/make")
@needs(RECORD)
def make() -> Answer:
    """Asks for the letters of the children that are ticked."""
    form = flask.request.form
    if "page" in form:
        parts().asked.keep(person(), path_of(form), form)
        return flask.redirect(flask.url_for(
            "letters.whom", whom=form.get("whom"), value=form.get("value"), page=form["page"]), 303)
    try:
        asked = asked_in(form)
        number = parts().letters.ask(person(), f"form {form.get('key', '')[:40]}", asked)
        parts().asked.forget(person(), path_of(form))
    except Refused as error:
        return whom_page(form, 1, sentence(str(error)), 400)
    return flask.redirect(flask.url_for("letters.one", number=number), 303)


def asked_in(form: Typed) -> Asked:
    """What a form asks for."""
    found, register = letters_whom.read(form), parts().desk.register()
    lists = parts().letter_lists
    there = [it.child for it in lists.chosen(register, found, form.get("order", "number"))]
    picked = {it for it in map(numbers.read, choices.picked(form)) if it >= 0}
    if missing := picked - set(there):
        raise Refused(f"child {min(missing)} is not on the list any more: look at it again")
    if not picked:
        raise Refused("tick the children whom the letters go to")
    day, kind = typed_day(form, "day_of_letters"), form.get("kind", "")
    if day is None:
        raise Refused("Nothing was made: see the day of the letters")
    if kind not in letters_sets.FILES:
        raise Refused("choose letters for print or a mail merge")
    number, _, version = form.get("template", "").partition(".")
    if numbers.read(number) < 0 or numbers.read(version) < 0:
        raise Refused("choose a template")
    template = parts().letters.templates.get(numbers.read(number), numbers.read(version))
    withdrawn, copy = lists.withdrawal(found)
    if withdrawn and day < withdrawn:
        raise Refused(f"the letters tell of withdrawals of {days.in_words(withdrawn)}, and cannot"
                      " have an earlier date")
    copy = copy or lists.draw(register, found, parts().draws)
    words = lists.words(register, found)
    if len(picked) < len(there):
        words = f"{words}, {len(picked):,} of {len(there):,}"
    return Asked(words, [it for it in there if it in picked], template.template, template.version,
                 day.isoformat(), kind, "double" in form,
                 withdrawn.isoformat() if withdrawn else "", copy, parts().letters.sender.number)


def set_of(number: int) -> Set:
    """A set that is there."""
    try:
        return parts().letters.get(number)
    except Refused:
        flask.abort(404)


@screen.get("/sets/<int:number>")
@needs(READ)
def one(number: int) -> Answer:
    """A set: how far it is, its file, and whether it was sent."""
    return set_page(number)


def set_page(
    number: int, said: str = "", status: int = 200, reason: str = "", day: str = "",
    wrong: str = "", sure_of: str = "",
) -> Answer:
    """The page of a set, with what was typed. `sure_of` is a day that is asked about."""
    found = set_of(number)
    may_show = found.asked.kind == letters_sets.PDF and person().may(RECORD)
    letters = tables.table(LETTERS | ({"text": TEXT} if may_show else {}), letters_of(number))
    return flask.render_template(
        "letters_set.html", it=found, said=said, is_bad=status != 200, template=template_of(found),
        recording=recording(found, day, wrong, sure_of), reason=reason,
        rests=taken_back.rests(parts().letters, found) if found.sent else "",
        has_example=parts().letters.has_example(found), many=len(letters.rows),
        is_far=is_far(found), may_show=may_show, table=letters,
        pages=tables.pages("letters.one", number=number),
        page=tables.paged(letters.rows, flask.request.args.get("page", ""))), status


def is_far(found: Set) -> bool:
    """Whether the date of letters that are not sent is far from the day on which they were made."""
    made = datetime.datetime.fromisoformat(found.at).astimezone().date()
    return not found.sent and abs((found.asked.date - made).days) > FAR_DAYS


def template_of(found: Set) -> str:
    """By what the letters of a set are made."""
    if found.asked.kind != letters_sets.PDF:
        return "mail merge"
    return parts().letters.templates.get(found.asked.template, found.asked.version).called


def letters_of(number: int) -> list[sqlite3.Row]:
    """The letters of a set in their order."""
    return parts().store.rows(
        "SELECT id, child, words FROM letter WHERE set_id=? ORDER BY place", number)


def may_record(found: Set) -> bool:
    """Whether the letters of a set can be recorded as sent."""
    is_there = found.state in (letters_sets.MADE, letters_sets.GONE) and found.made > 0
    is_open = is_there and not found.sent and not found.is_draft
    return is_open and not parts().letters.has_example(found)


def recording(
    found: Set, day: str = "", wrong: str = "", sure_of: str = "",
) -> dict[str, Any]:
    """What is read before the letters of a set are recorded as sent: about what how many are, and
    who has the same already; with the day that was typed. Nothing where they cannot be recorded.
    """
    if not may_record(found):
        return {}
    about = collections.Counter(it["words"].partition(":")[0] for it in letters_of(found.number))
    doubled = parts().letters.again(found.number)
    return {"day": day or days.in_words(min(found.asked.date, today())), "wrong": wrong,
            "sure_of": sure_of, "about": sorted(about.items()),
            "doubled": doubled, "agreed": letters_sets.digest(doubled)}


@screen.get("/sets/<int:number>/file")
@needs(RECORD)
def file(number: int) -> Response:
    """The file of a set, which is taken."""
    found = set_of(number)
    # (nobody has the letters by a request for the head alone)
    is_taken = flask.request.method == "GET"
    path = parts().letters.take(person(), number) if is_taken else parts().letters.file(found)
    draft = "-draft" if found.is_draft else ""
    stem, _, end = letters_sets.FILES[found.asked.kind].partition(".")
    headers = {"Content-Disposition": f'attachment; filename="{stem}-{number}{draft}.{end}"'}
    return of_file(path.open("rb"), TYPES[found.asked.kind], headers)


@screen.post("/sets/<int:number>/end")
@needs(RECORD)
def end(number: int) -> Answer:
    """Ends a set, or removes its file."""
    set_of(number)
    try:
        parts().letters.end(person(), number, flask.request.form.get("standing", ""))
    except Refused as error:
        return set_page(number, sentence(str(error)), 409)
    return flask.redirect(flask.url_for("letters.show"), 303)


def wrong_day(found: Set, day: datetime.date | None) -> str:
    """What is wrong with the day on which letters were sent: none is sent before its own date, or
    the day on which it was made if that is earlier.
    """
    if day is None or day > today():
        return ("the day on which they were sent, as 17 March 2025, and not one that is to come")
    made = datetime.datetime.fromisoformat(found.at).astimezone().date()
    # (a clock that was ahead has made it later than it is now)
    first = min(found.asked.date, made, today())
    if day < first:
        return f"{days.in_words(first)} or a later day: before it there were no such letters"
    return ""


@screen.post("/sets/<int:number>/record")
@needs(RECORD)
def record(number: int) -> Answer:
    """Records that the letters of a set were sent."""
    form = flask.request.form
    found = set_of(number)
    typed, count = form.get("day", ""), form.get("count", "")
    day = wording.day_of(typed)
    if wrong := wrong_day(found, day):
        return set_page(number, "Nothing was recorded: see the day.", 400, "", typed, wrong)
    assert day is not None
    if abs((today() - day).days) > FAR_DAYS and form.get("sure_of") != day.isoformat():
        return set_page(number, f"Nothing was recorded yet: {wording.weekday(day)}, is more than a"
                        " week before today.", 409, "", typed, sure_of=day.isoformat())
    try:
        parts().letters.record(person(), number, day, numbers.read(count), form.get("agreed", ""))
    except Twice as error:
        return set_page(number, sentence(str(error)), 409, "", typed,
                        sure_of=form.get("sure_of", ""))
    except Refused as error:
        return set_page(number, sentence(str(error)), 400)
    return flask.redirect(flask.url_for("letters.one", number=number), 303)


@screen.post("/sets/<int:number>/take-back")
@needs(RECORD)
def take_back(number: int) -> Answer:
    """Takes back the record that the letters of a set were sent."""
    reason = flask.request.form.get("reason", "").strip()
    set_of(number)
    try:
        taken_back.take_back(parts().letters, person(), number, reason)
    except Refused as error:
        return set_page(number, sentence(str(error)), 400, reason)
    return flask.redirect(flask.url_for("letters.one", number=number), 303)


@screen.post("/audit/<int:number>")
@needs("draw")
def audit(number: int) -> Answer:
    """Audits a draw that was not held here."""
    register = parts().desk.now()
    if number not in register.outcomes:
        flask.abort(404)
    try:
        is_right, said = parts().letters.audits.audit(person(), register, number)
    except Refused as error:
        return page(sentence(str(error)), 409)
    if not is_right:
        name = wording.draw_in_words(register.draws[number - 1])
        return page(f"The audit of {name} has found a difference: {said}", 409)
    return flask.redirect(flask.url_for("letters.show"), 303)


@screen.get("/of/<int:number>")
@needs(READ)
def of_child(number: int) -> Response:
    """The whom-list of one child."""
    return flask.redirect(
        flask.url_for("letters.whom", whom=CHILDREN, value=str(number)), 303)


@screen.get("/texts/<int:number>")
@needs(RECORD)
def text(number: int) -> Answer:
    """The text of a letter, as it was or will be sent."""
    try:
        found = parts().letters.letter(number)
    except Refused:
        flask.abort(404)
    return flask.render_template(
        "letters_text.html", it=found, number=number, blocks=letter_text.blocks(found.html))


@screen.get("/again/<int:number>")
@needs(RECORD)
def again(number: int) -> Response:
    """A letter that was sent, as it was."""
    with tempfile.TemporaryDirectory(prefix="admissions-") as room:
        path = os.path.join(room, "letter.pdf")
        child = parts().letters.as_it_was(number, path)
        with open(path, "rb") as found:
            data = found.read()
    headers = {"Content-Disposition": f'attachment; filename="letter-{child}.pdf"'}
    return flask.Response(data, mimetype=TYPES[letters_sets.PDF], headers=headers)


@screen.get("/from-list/<name>")
@needs(READ)
def from_list(name: str) -> Response:
    """The whom-list of a list of the office, with its options."""
    options = flask.request.query_string.decode("ascii", "replace")
    return flask.redirect(
        flask.url_for("letters.whom", whom=LIST, value=f"{name}?{options}"), 303)
