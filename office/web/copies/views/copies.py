"""The copies of the register: made now, tested, and where a restore begins."""
import sqlite3

import flask
from register_files import Refused
from werkzeug.wrappers import Response

from office.core.wording import sentence
from office.web.machinery import numbers
from office.web.people import guard
from office.web.people.guard import needs, parts, person
from office.web.people.roles import DRAW, READ
from office.web.rounds.terms import RESTORED

from ..copies import Copy, words_of
from .restores import page as restore_page

screen = flask.Blueprint("copies", __name__, url_prefix="/copies")
Answer = str | Response | tuple[str, int]
MOST_PURPOSE = 100
BY_HAND = "by hand"


def list_page(reason: str = "", status: int = 200, said: str = "", purpose: str = "") -> Answer:
    """All copies, and the restores; and that a copy is made or tested, or was not."""
    # (before the copies are read: what ends meanwhile is among them)
    work, found = parts().copying.under_way(), parts()
    if not work and (failed := found.copying.refused(0)):
        reason = reason or f"The last copy was not made or tested: {sentence(failed)}"
    undone = {it: draw for draw in found.draws.listed() if draw.state == RESTORED
              for it in (draw.before, draw.after) if it}
    return flask.render_template(
        "copies.html", copies=found.copies.listed(), restores=found.restores.listed(),
        present=found.restores.present(), draw=found.draws.present(), reason=reason, said=said,
        most_purpose=MOST_PURPOSE, purpose=purpose, undone=undone, work=work), status


def found_copy(number: int) -> Copy:
    """A copy, or the answer that there is none."""
    try:
        return parts().copies.get(number)
    except Refused:
        flask.abort(404)


@screen.get("/")
@needs(READ)
def show() -> Answer:
    """All copies, with what was done before."""
    made, tested = (numbers.read(flask.request.args.get(it, "")) for it in ("made", "tested"))
    copy = next((it for it in parts().copies.listed() if it.number == max(made, tested)), None)
    if parts().copying.under_way():
        return list_page()
    if copy is not None and made > 0:
        return list_page(said=f"Copy {made} is made, and compared with the register.")
    if copy is not None and copy.tested:
        return list_page(f"Copy {tested} was tested, and is not right: see below.") if (
            copy.test["wrong"]) else list_page(said=f"Copy {tested} was tested, and is right.")
    return list_page()


@screen.post("/")
@needs(DRAW)
def make() -> Answer:
    """Makes a copy now."""
    purpose = flask.request.form.get("purpose", "").strip()
    who, copies, made = person(), parts().copies, list[int]()
    try:
        if len(purpose) > MOST_PURPOSE or not purpose.isprintable():
            raise Refused(f"the purpose is one line of up to {MOST_PURPOSE} characters")
        if said := parts().end.closed():
            raise Refused(said)
        guard.record("made a copy", purpose=purpose or BY_HAND)
        parts().copying.begin(
            who, 0, lambda: made.append(copies.make(purpose or BY_HAND, who.name)))
    except (Refused, sqlite3.Error) as error:
        return list_page(sentence(words_of(error)), 409, purpose=purpose)
    return flask.redirect(flask.url_for("copies.show", made=next(iter(made), None)), 303)


@screen.post("/<int:number>/test")
@needs(DRAW)
def test(number: int) -> Answer:
    """Tests a copy."""
    found_copy(number)
    who, tests = person(), parts().copy_tests
    try:
        parts().copying.begin(who, 0, lambda: tests.test(who, number))
    except (Refused, sqlite3.Error, OSError) as error:
        return list_page(sentence(f"copy {number} was not tested: {words_of(error)}"), 409)
    return flask.redirect(flask.url_for("copies.show", tested=number), 303)


@screen.get("/<int:number>/restore")
@needs(READ)
def begin_page(number: int, reason: str = "", status: int = 200) -> Answer:
    """What a restore of a copy would do, before the register is closed for it."""
    found, copy = parts(), found_copy(number)
    draw = draw_of(flask.request.values.get("draw", ""), number)
    try:
        since = found.restores.since(number)
        found.copies.path(number)
    except Refused as error:
        since, reason = [], reason or sentence(str(error))
    return flask.render_template(
        "restore_begin.html", copy=copy, draw=draw, since=since, reason=reason,
        present=found.restores.present(), other=found.draws.present()), status


def draw_of(text: str, copy: int) -> int | None:
    """The draw of the store whose copy from before it is restored, if that is why."""
    found = (it.number for it in parts().draws.listed()
             if (it.number, it.before) == (numbers.read(text), copy))
    return next(found, None)


@screen.post("/<int:number>/restore")
@needs(DRAW)
def begin(number: int) -> Answer:
    """Closes the register to restore a copy."""
    found_copy(number)
    who, restores = person(), parts().restores
    try:
        draw = draw_of(flask.request.form.get("draw", ""), number)
        made = restores.begin(who, number, draw)
    except (Refused, sqlite3.Error) as error:
        return begin_page(number, sentence(f"recording was not paused: {words_of(error)}"), 409)
    try:
        if draw:
            parts().restoring.begin(who, made, lambda: restores.choose_first(made))
    except Refused as error:
        return restore_page(made, sentence(f"nothing is ticked yet: {error}"), 409)
    return flask.redirect(flask.url_for("restores.one", number=made), 303)
