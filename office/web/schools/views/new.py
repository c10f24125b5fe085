"""Schools that are to be stored: typed, uploaded or taken from last year, shown whole in a draft,
and stored by one confirmation.
"""
import contextlib
from collections.abc import Mapping

import flask
from register_files import Refused
from werkzeug.wrappers import Response

from office.core import texts
from office.core.fields import trimmed
from office.core.rules import LIMITS
from office.core.wording import Order, classes, label, sentence
from office.web.frame import uploads
from office.web.people import guard
from office.web.people.guard import needs, parts, person
from office.web.people.roles import RECORD
from office.web.register.desk import DONE

from .. import drafts, flags
from .. import rows as schools
from ..drafts import DRAFT, Draft, Outcome
from ..rows import COLUMNS, Cells, Line

screen = flask.Blueprint("new_schools", __name__, url_prefix="/schools/new")
Answer = str | Response | tuple[str, int]
NONE = {it: "" for it in COLUMNS}
# more characters than a field of a school can have
MOST_CELL = 1_000
# what the address of the draft says where its lines were stored
STORED = "stored"
# so long the answer to 'Store' waits for the end; after it the page shows how far it is
WAIT_SECONDS = 20.0


def draft() -> Draft:
    """The draft of this application."""
    return parts().schools


def order_of(line: Line, words: flags.Words) -> list[tuple[str, str]]:
    """The criteria of a line as they are stored, each with its words."""
    given = line.command["criteria"] if line.command else []
    return list(zip(given, classes(Order(tuple(given)), words)))


def page(
    cells: Cells | None = None, wrong: dict[str, str] | None = None, said: str = "",
    status: int = 200, outcomes: list[Outcome] | None = None, number: int | None = None,
    seen: str = "",
) -> Answer:
    """The draft, with the form of one school: a new one, or a line of the draft as it was seen."""
    words, known, is_large, is_away = flags.present(), {}, False, False
    try:
        register = parts().desk.register()
        known, is_large = register.schools, register.is_large
        draft().look(DRAFT)
    except Refused as error:
        said, status, is_away = f"{said} {sentence(str(error))}".strip(), 503, True
    lines = schools.lines_of(draft().rows(), known, words, is_large)
    is_running = draft().is_running(DRAFT)
    shown = schools.chosen((cells or NONE).get("criteria", ""), words)
    rows = shown + [("", "")] * (LIMITS["criteria"].most - len(shown))
    order = {it.number: order_of(it, words) for it in lines}
    return flask.render_template(
        "new_schools.html", lines=lines, order=order, digest=drafts.digest(lines),
        is_ready=drafts.is_ready(lines) and not is_away, cells=cells or NONE,
        wrong=wrong or {}, said=said, is_bad=status != 200, rows=rows,
        forms=schools.menu(words, is_large), outcomes=outcomes or [], is_running=is_running,
        came=draft().came_of(), number=number, label=label, columns=COLUMNS, limits=LIMITS,
        seen=seen,
    ), status


def cells_of_form() -> Cells:
    """The cells of the form: what was typed, as it was typed."""
    form = flask.request.form
    cells = {it: form.get(it, "").strip() for it in COLUMNS}
    return cells | {"criteria": schools.of_menus(form.getlist("kind"), form.getlist("value"))}


def to_draft(said: str) -> Response:
    """Leads to the draft, with what was done."""
    return flask.redirect(flask.url_for("new_schools.show", done=said), 303)


def onward(many: int) -> Response:
    """Leads to the question where nothing is wrong in the draft, else to the draft."""
    lines: list[Line] = []
    with contextlib.suppress(Refused):
        register = parts().desk.register()
        lines = schools.lines_of(
            draft().rows(), register.schools, flags.present(), register.is_large)
    if not drafts.is_ready(lines) or draft().came_of() or draft().is_running(DRAFT):
        return to_draft(str(many))
    return flask.redirect(flask.url_for("new_schools.ask", digest=drafts.digest(lines)), 303)


DID = {"added": "The school is in the draft below.", "removed": "It is removed from the draft.",
       "changed": "The line is changed."}


@screen.get("/")
@needs(RECORD)
def show() -> Answer:
    """The draft, with the form of a new school."""
    done = flask.request.args.get("done", "")
    if done == STORED:
        return stored()
    if done.isdecimal() and len(done) < 4:
        count = texts.count(int(done), "school is", "schools are")
        return page(said=f"{count} in the draft below.")
    return page(said=DID.get(done, ""))


def stored() -> Answer:
    """The draft, with what came of the lines that were confirmed last."""
    if draft().is_running(DRAFT):
        return page()
    found, hindered = draft().outcomes(), draft().hindered()
    done = sum(it.result.outcome == DONE for it in found)
    said = [f"{texts.count(done, 'school is', 'schools are')} stored."] if found else []
    if hindered:
        said.append(sentence(hindered))
    if left := len(draft().rows()):
        said.append(f"{texts.count(left, 'line remains', 'lines remain')} in the draft.")
    is_bad = bool(hindered) or done < len(found)
    return page(said=" ".join(said), status=409 if is_bad else 200, outcomes=found)


@screen.post("/")
@needs(RECORD)
def add() -> Answer:
    """A school that was typed."""
    cells = cells_of_form()
    command, wrong = schools.read(cells, flags.present())
    if command is None:
        said = "It is not in the draft yet: see the fields that are marked."
        return page(cells, wrong, said, 400)
    try:
        guard.record("added to the draft of schools", schools=[command["school"]])
        draft().add([cells])
    except Refused as error:
        return page(cells, {}, sentence(str(error)), 409)
    return to_draft("added")


def add_many(given: list[Cells], source: str) -> None:
    """Schools of a file, which is no longer than the history can have for good."""
    if len(given) > (most := draft().most()):
        raise Refused(f"a register has at most {most:,} schools, and the file has"
                      f" {len(given):,}")
    if any(len(text) > MOST_CELL for it in given for text in it.values()):
        raise Refused(f"a cell of a school has at most {MOST_CELL:,} characters")
    guard.record("added to the draft of schools", schools=[texts.cut(it["school"]) for it in given],
                 source=source)
    draft().add(given)


@screen.post("/sheet")
@needs(RECORD)
def sheet() -> Answer:
    """The schools of an Excel file or a CSV."""
    try:
        given = schools.rows_of(uploads.rows_of(flask.request.files.get("sheet")))
        add_many(given, "a sheet")
        return onward(len(given))
    except Refused as error:
        return page(said=f"Nothing was added: {sentence(str(error))}", status=400)


@screen.post("/last-year")
@needs(RECORD)
def last_year() -> Answer:
    """The schools of last year's register that this one has not yet."""
    try:
        before = uploads.register_of(flask.request.files.get("copy"))
        there = parts().desk.register().schools
        known = {it["school"] for _, it in draft().rows()}
        given = [schools.cells_of(it) for code, it in before.schools.items()
                 if code not in there and code not in known]
        if not given:
            raise Refused("each of its schools is in the register or in the draft already")
        add_many(given, f"the register of {before.phase} entry in {before.year}")
        return to_draft(str(len(given)))
    except Refused as error:
        return page(said=f"Nothing was added: {sentence(str(error))}", status=400)


@screen.get("/<int:number>")
@needs(RECORD)
def edit(number: int) -> Answer:
    """A line of the draft in the form."""
    cells = draft().cells(number)
    if cells is None:
        flask.abort(404)
    _, wrong = schools.read(cells, flags.present())
    return page(cells, wrong, number=number, seen=drafts.seen_line(cells))


@screen.post("/<int:number>")
@needs(RECORD)
def change(number: int) -> Answer:
    """A line of the draft that was corrected."""
    cells, seen = cells_of_form(), flask.request.form.get("seen", "")
    command, wrong = schools.read(cells, flags.present())
    if command is None:
        return page(cells, wrong, "The line is as before: see the fields that are marked.", 400,
                    number=number, seen=seen)
    try:
        guard.record("changed the draft of schools", before=draft().cells(number), now=cells)
        draft().correct(number, cells, seen)
    except Refused as error:
        present = draft().cells(number)
        if present is None:
            return page(cells, {}, sentence(str(error)), 409)
        return page(cells, {}, sentence(str(error)), 409, number=number,
                    seen=drafts.seen_line(present))
    return to_draft("changed")


@screen.post("/remove")
@needs(RECORD)
def remove() -> Answer:
    """Removes a line, or all lines as they were shown."""
    given, seen = (flask.request.form.get(it, "") for it in ("number", "digest"))
    rows = [(it, cells) for it, cells in draft().rows() if given in ("all", str(it))]
    if given == "all" and rows and seen != drafts.digest_of_rows(rows):
        return removal(rows, True)
    guard.record("removed from the draft of schools", lines=[cells for _, cells in rows])
    draft().remove(*(it for it, _ in rows))
    return to_draft("removed")


@screen.get("/remove")
@needs(RECORD)
def ask_removal() -> Answer:
    """The question before all lines are removed."""
    return removal(draft().rows(), False)


def removal(rows: list[tuple[int, Cells]], is_changed: bool) -> Answer:
    """All lines, to be removed."""
    said = "The draft has changed since it was shown. Nothing was removed: look at it again."
    return flask.render_template(
        "remove_all.html", said=said if is_changed else "",
        items=[f"{it['school']} {it['name']}" for _, it in rows],
        where="draft, which all officers share", digest=drafts.digest_of_rows(rows),
        back=flask.url_for("new_schools.show"), which="all",
        button=f"Remove {texts.count(len(rows), 'school')}"), 409 if is_changed else 200


@screen.get("/store")
@needs(RECORD)
def ask() -> Answer:
    """The question before schools are stored, with the draft whole."""
    return question(flask.request.args.get("digest", ""))


def question(
    shown: str, typed: Mapping[int, str] | None = None, wrong: Mapping[int, str] | None = None,
    said: str = "",
) -> Answer:
    """The same, with what was typed as the words of verified reasons that have none, and why it is
    not stored.
    """
    words = flags.present()
    try:
        lines = drafts.lines_shown(parts().desk.now(), draft(), words, shown)
    except Refused as error:
        return page(said=sentence(str(error)), status=409)
    return flask.render_template(
        "store_schools.html", lines=lines, order={it.number: order_of(it, words) for it in lines},
        digest=shown, button=f"Store {texts.count(len(lines), 'school')}", said=said,
        nameless=drafts.nameless(lines, words), seen=flags.text_of(words), typed=typed or {},
        wrong=wrong or {}), 409 if said else 200


@screen.post("/store")
@needs(RECORD)
def store() -> Answer:
    """Stores what was shown and confirmed, once; before it the words of the flags that have none.
    """
    form, known = flask.request.form, flags.present()
    shown, given = form.get("digest", ""), (
        (it, trimmed(form.get(f"flag-{it}", ""))) for it in flags.NUMBERS)
    typed = {it: text for it, text in given if text}
    words = {**known, **typed}
    if draft().is_sent(shown) and words == known:
        return to_draft(STORED)
    if wrong := {it: said for it, text in typed.items() if (said := flags.wrong(text))}:
        return question(shown, typed, wrong, "Nothing was stored: see the fields that are marked.")
    try:
        draft().look(DRAFT)
        drafts.lines_shown(parts().desk.now(), draft(), known, shown)
        if typed:
            flags.change(parts().store, form.get("seen", ""), words,
                         lambda before: guard.record("named flags", words=words, before=before))
        draft().store_all(person(), words, shown, WAIT_SECONDS)
    except Refused as error:
        return question(shown, typed, said=sentence(str(error)))
    return to_draft(STORED)
