"""Answers of families: a batch that grows by a number or a name and Enter, by a sheet or a pasted
column, and is recorded at once.
"""
import dataclasses

import flask
from register_files import Refused
from werkzeug.wrappers import Response

from office.core import texts
from office.core.command_kinds import ANSWERS
from office.core.model import Register
from office.core.wording import WRONG_DECLINE, sentence
from office.files import sheet
from office.web.frame import uploads
from office.web.machinery import numbers
from office.web.machinery.outbox import DONE
from office.web.people import guard
from office.web.people.guard import needs, parts, person
from office.web.people.roles import RECORD

from .. import entries, handovers, piles
from .. import rows as answer_rows
from ..entries import Entry, Names
from ..piles import Shown
from ..rows import Reader

screen = flask.Blueprint("answers", __name__, url_prefix="/answers")
Answer = str | Response | tuple[str, int]
# so long the answer to 'Record' waits for the end; after it the page shows how far it is
WAIT_SECONDS = 20.0
MOST_PASTED = 200_000
# so many of those that were recorded are listed, the last
MOST_RECORDED = 50
# what is removed from a batch at once: all of it, or what is marked
MANY = ("all", "marked")


def page(said: str = "", status: int = 200, pasted: str = "", typed: str = "") -> Answer:
    """The batch, with the field for the next answer."""
    who, found = person().name, parts().piles
    register: Register | None = None
    try:
        register = parts().desk.register()
        found.look(who)
    except Refused as error:
        said, status = f"{said} {sentence(str(error))}".strip(), max(status, 503)
    shown = found.shown(who, register) if register else []
    ready = [it for it in shown if it.is_ready]
    done, recorded = found.done(who, MOST_RECORDED)
    names = {it.number: it.name for it in register.children.values()} if register else {}
    failed = sum(bool(it.entry.said) for it in shown)
    if failed and not said:
        said = (f"{texts.count(failed, 'answer was', 'answers were')} not recorded: see ‘Problem’"
                " below.")
    elif "recorded" in flask.request.args and not said and who in found.recorded:
        said = "{:,} of {} recorded.".format(found.recorded[who][0], texts.count(
            found.recorded[who][1], "answer is", "answers are"))
    return flask.render_template(
        "answers.html", shown=shown, ready=ready, digest=digest_of(ready),
        done=done, recorded=recorded,
        wrong_decline=WRONG_DECLINE, marked=sum(bool(it.conflicts) for it in shown),
        names=names, words=ANSWERS, read=answer_rows.READ, said=said,
        is_bad=status != 200 or bool(failed), pasted=pasted,
        typed=typed, is_added="added" in flask.request.args, is_running=found.is_running(who),
        is_before=register is not None and not register.draws,
        is_away=register is None, waiting=found.left(who) if register is None else [],
        others=handovers.takeable(found, person())), status


def digest_of(shown: list[Shown]) -> str:
    """What is shown of a batch, in short."""
    return piles.digest(it.entry for it in shown)


@screen.get("/")
@needs(RECORD)
def show() -> Answer:
    """The pile."""
    return page()


def back() -> Response:
    """Leads to the pile."""
    return flask.redirect(flask.url_for("answers.show"), 303)


@screen.post("/")
@needs(RECORD)
def add() -> Answer:
    """An answer that was typed."""
    typed = flask.request.form.get("entry", "").strip()
    if not typed:
        return page("Enter a number or a name.", 400)
    try:
        register = parts().desk.register()
        meant = Reader(Names(register)).typed(typed)
        parts().piles.add(person().name, register, [meant])
    except Refused as error:
        return page(f"{typed[:entries.MOST_TYPED]} was not added: {sentence(str(error))}", 409,
                    typed=typed)
    return back()


@screen.post("/several")
@needs(RECORD)
def several() -> Answer:
    """A column that was pasted, or a sheet."""
    pasted, given = flask.request.form.get("pasted", ""), flask.request.files.get("sheet")
    try:
        if pasted.strip() and given and given.filename:
            raise Refused("paste a text or choose a file, and not both")
        if len(pasted) > MOST_PASTED:
            raise Refused("that is too much to be pasted: add it as an Excel file or CSV")
        if pasted.strip():
            rows = sheet.text_sheet("the text", pasted.strip().encode()).rows
        else:
            rows = uploads.rows_of(given)
        register = parts().desk.register()
        parts().piles.add(person().name, register, Reader(Names(register)).rows(rows))
    except Refused as error:
        return page(f"Nothing was added: {sentence(str(error))}", 400, pasted)
    # (by which the page knows that it need not keep the text any more)
    return flask.redirect(flask.url_for("answers.show", added="yes"), 303)


def entry_of_form() -> Entry | None:
    """The entry that a button of the batch concerns."""
    number = flask.request.form.get("number", "")
    return next((it for it in parts().piles.of(person().name) if str(it.number) == number), None)


@screen.post("/remove")
@needs(RECORD)
def remove() -> Answer:
    """Removes an entry, the list of those that were recorded, or after a question all that wait or
    all that have a problem.
    """
    given, found = flask.request.form.get("number", ""), parts().piles
    if given in MANY:
        return remove_all(given, flask.request.form.get("digest", ""))
    chosen = [it for it in found.of(person().name)
              if given == str(it.number) or given == "done" and it.state == DONE]
    found.remove(person().name, (it.number for it in chosen))
    return back()


@screen.get("/remove")
@needs(RECORD)
def ask_remove() -> Answer:
    """The question before many are removed."""
    which = flask.request.args.get("number", "")
    return remove_all(which, "") if which in MANY else back()


def remove_all(which: str, seen: str) -> Answer:
    """Shows all that would be removed, or removes what was shown."""
    found, who = parts().piles, person().name
    shown = [it for it in found.shown(who, parts().desk.register())
             if which == "all" or it.conflicts]
    if not shown:
        return back()
    if seen == digest_of(shown):
        found.remove(who, (it.entry.number for it in shown))
        return back()
    said = "The batch has changed since it was shown. Nothing was removed: look at it again."
    items = [f"{it.entry.meant.typed}: {ANSWERS[it.entry.meant.kind]} {it.name}".rstrip()
             for it in shown]
    return flask.render_template(
        "remove_all.html", said=said if seen else "", items=items, where="batch",
        digest=digest_of(shown), back=flask.url_for("answers.show"), which=which,
        button=f"Remove {texts.count(len(shown), 'answer')}"), 409 if seen else 200


@screen.post("/choose")
@needs(RECORD)
def choose() -> Answer:
    """Says which child a name means, that the name of an entry is right, or which answer one that
    was put here from a list has.
    """
    entry, child = entry_of_form(), flask.request.form.get("child", "")
    kind = flask.request.form.get("answer", "")
    register = parts().desk.register()
    if entry is not None:
        meant = entry.meant
        if kind:
            if kind in entries.answers_to(register, entry):
                meant = dataclasses.replace(meant, kind=kind, trouble="")
                parts().piles.replace(entry, register, meant)
        elif (number := numbers.read(child)) in register.children:
            meant = dataclasses.replace(meant, child=number, name="")
            if not meant.school:
                meant = entries.with_school(register, meant)
            parts().piles.replace(entry, register, meant)
        elif not child:
            parts().piles.replace(entry, register, dataclasses.replace(meant, name=""))
    return back()


@screen.get("/record")
@needs(RECORD)
def ask() -> Answer:
    """The question before the batch is recorded, which names whom it concerns."""
    register = parts().desk.register()
    ready = ready_in(register, flask.request.args.get("digest", ""))
    if isinstance(ready, str):
        return page(ready, 409)
    final = [it for it in ready if it.entry.is_final]
    accepts = [it for it in ready if not it.entry.is_final]
    schools = {code: it.name for code, it in register.schools.items()}
    return flask.render_template(
        "record_answers.html", ready=ready, final=final, digest=digest_of(ready),
        bare=[it for it in accepts if it.entry.is_by_number_alone],
        named=[it for it in accepts if not it.entry.is_by_number_alone],
        schools=schools, words=ANSWERS, wrong_decline=WRONG_DECLINE,
        places={it.entry.number: register.places.get(it.entry.meant.child or 0) for it in final})


def ready_in(register: Register, digest: str) -> list[Shown] | str:
    """What can be recorded of the batch, which is what was shown; or why nothing is."""
    found, who = parts().piles, person().name
    found.look(who)
    ready = [it for it in found.shown(who, register) if it.is_ready]
    if digest_of(ready) != digest:
        return ("The batch has changed since it was shown. Nothing was recorded: look at it"
                " again.")
    return ready or "There is nothing to record."


@screen.post("/record")
@needs(RECORD)
def record() -> Answer:
    """Records what was shown, one answer after another."""
    ready = ready_in(parts().desk.register(), flask.request.form.get("digest", ""))
    if isinstance(ready, str):
        return page(ready, 409)
    guard.record("records a pile", answers=len(ready))
    try:
        parts().piles.record(person(), [it.entry for it in ready], WAIT_SECONDS)
    except Refused as error:
        return page(sentence(str(error)), 409)
    return flask.redirect(flask.url_for("answers.show", recorded="yes"), 303)
