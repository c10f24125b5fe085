"""Rounds and offers from waiting lists: their list, the page of one, and its steps."""
import dataclasses
import datetime
from collections.abc import Callable, Mapping, Sequence

import flask
from register_files import Refused
from werkzeug.wrappers import Response

from office.core import days, texts
from office.core.model import Register
from office.core.wording import day_of, sentence
from office.web.machinery import numbers
from office.web.machinery import steps as step_store
from office.web.parts import Parts
from office.web.people.guard import needs, parts, person
from office.web.people.roles import CONFIRM, DRAW, LOTS, READ, Person
from office.web.schools import flags

from .. import again, before_pause, page
from .. import audit as draws_audit
from .. import cancel as draws_cancel
from .. import words as draws_words
from ..before_pause import Check
from ..lots import sheet_of
from ..page import AGAIN
from ..terms import BEGUN, MOST_FILLS, OPENED, STATES, Draw

screen = flask.Blueprint("draws", __name__, url_prefix="/draws")
Answer = str | Response | tuple[str, int]


def register_now() -> tuple[Register | None, str]:
    """The register, or why it cannot be read."""
    try:
        return parts().desk.register(), ""
    except Refused as error:
        return None, f"The register does not answer: {error}."


def list_page(reason: str = "", status: int = 200, field: str = "") -> Answer:
    """All draws, and the form by which one begins; `field` is the one that the reason is about."""
    register, trouble = register_now()
    draws = parts().draws
    day = register.days[1] if register and not register.draws else datetime.date.today()
    listed = draws.listed()
    given = flask.request.form or repeated(listed) or of_school()
    return flask.render_template(
        "draws.html", draws=listed, present=draws.present(), register=register,
        heads=page.who_may(DRAW), supervisors=page.who_may(LOTS), reason=reason or trouble,
        kind=given.get("kind", "round"), given=given,
        day=given.get("day", days.in_words(day)), most=MOST_FILLS, choices=schools_of(register),
        wrong={field: sentence(reason.partition(": ")[2])} if field else {}, states=STATES,
        undone=again.undone(listed), is_again=bool(repeated(listed)),
        most_reason=again.MOST_REASON,
    ), status


def repeated(draws: Sequence[Draw]) -> dict[str, str]:
    """The form for the draw of the address that is run again, but for its day."""
    text = flask.request.args.get("again", "")
    found = next((it.terms for it in draws if str(it.number) == text), None)
    if found is None:
        return {}
    return {"kind": found.kind, "school": found.school or "", "fills": str(found.fills), "day": ""}


def of_school() -> dict[str, str]:
    """The form for fills that somebody begins on the page of a school."""
    found = {it: flask.request.args.get(it, "") for it in ("kind", "school", "fills")}
    return found if all(found.values()) else {}


def schools_of(register: Register | None) -> list[tuple[str, str]]:
    """The schools of a register by their codes, those with vacancies first."""
    found = register.schools.values() if register else ()
    return [(it.code, f"{it.code} {it.name}: {texts.count(it.vacancies, 'vacancy', 'vacancies')},"
             f" {it.waiting} waiting")
            for it in sorted(found, key=lambda it: (not (it.vacancies and it.waiting), it.code))]


@screen.get("/")
@needs(READ)
def show() -> Answer:
    """All draws."""
    return list_page()


@screen.post("/")
@needs(DRAW)
def begin() -> Answer:
    """Begins a draw."""
    form, field = flask.request.form, "day"
    day, count = day_of(form.get("day", "")), numbers.read(form.get("fills", "1").strip())
    school = form.get("school", "") if form.get("kind") == "fill" else None
    try:
        if day is None:
            raise Refused("type the day as 3 March 2025 or 3/3/2025")
        field = "school"
        if school == "":
            raise Refused("choose the school of the places")
        field = "fills"
        if school and count < 0:
            raise Refused(f"the number of places is from 1 to {MOST_FILLS}")
        field = "reason"
        reason = reason_of(form)
        field = ""
        number = parts().draws.begin(person(), school, count if school else 1, day, reason)
    except Refused as error:
        return list_page(f"Nothing was begun: {error}.", 409, field)
    return flask.redirect(flask.url_for("draws.one", number=number), 303)


def reason_of(form: Mapping[str, str]) -> str:
    """Why other lots are drawn for a draw that is run again, or ""."""
    if form.get("lots", "kept") == "kept":
        return ""
    return again.reason_in(form.get("reason", ""), "other lots", "who confirms it")


def found_draw(number: int) -> Draw:
    """A draw, or the answer that there is none."""
    try:
        return parts().draws.get(number)
    except Refused:
        flask.abort(404)


def draw_page(number: int, reason: str = "", status: int = 200) -> Answer:
    """A draw: who has to do what now, what was checked, its outcome, and its steps."""
    # (before the draw is read: what ends meanwhile was not cut off)
    work = parts().following.work_on(number)
    draw, (register, trouble) = found_draw(number), register_now()
    outcome, changes = page.outcome_of(draw, register), page.changes_of(draw, register)
    shown = page.shown_outcome(draw, register, outcome) if outcome and register else {}
    work = work or parts().following.work_on(number)
    found = page.seen(draw, register, work)
    # (who saw the page before the end of a step reads here why it was not done)
    if not work and not reason and not draw.trouble and (
            said := parts().following.refused(number)):
        reason = f"The last step was not done: {sentence(said)}"
    # (while something runs the register may be away for some seconds)
    trouble = "" if work else trouble
    checks = checks_of(draw, register)
    to_look_at, checked = page.verdicts_of(draw, register, outcome, changes)
    agreed = before_pause.agreed_to(checks)
    return flask.render_template(
        "draw.html", draw=draw, register=register, work=work, kind=draws_words.kind_of(draw.terms),
        about=draws_words.about(draw, register), tags=page.tags_of(found), standing=found.standing,
        reason=reason or trouble, halted="" if reason else draw.trouble,
        decision=page.decision_of(found), by_second=page.OF_SECOND, steps=page.steps_of(found),
        history=step_store.history(STATES, draw.done), checks=checks, agreed=agreed,
        left_out=page.before_pause_of(draw),
        is_agreed=flask.request.form.get("agreed") == agreed, to_look_at=to_look_at,
        checked=checked, changes=changes, outcome=shown, whole=outcome,
        runs=STATES[draw.state].runs or "a step is done", in_words=page.state_in_words(found),
        is_opened=draw.state == OPENED, round_held=page.round_held(draw, register),
        may_cancel=page.may_be_cancelled(draw), second=page.second_of(draw),
        who_did=page.taking_part(found), before=again.given_up(parts().draws, draw),
        is_explained=page.is_explained(draw, register), is_tried=page.is_tried(draw, register),
        repeats=found_draw(draw.repeats) if draw.repeats else None,
        unsent=page.unsent_of(draw), again=page.again_of(draw), copied=page.copied(draw),
        confirmed=page.confirmed_of(found),
    ), status


def cancel_page(number: int, reason: str = "", status: int = 200) -> Answer:
    """How a draw is cancelled, or undone: what that does, who takes part, and the one button."""
    draw, (register, trouble) = found_draw(number), register_now()
    found = page.seen(draw, register, parts().following.work_on(number))
    is_later = draws_cancel.is_undone_later(draw) and person().may(DRAW)
    return flask.render_template(
        "draw_cancel.html", draw=draw, work=found.work, is_later=is_later,
        way=None if found.work else page.cancel_way(found), reason=reason or trouble,
        typed=flask.request.form.get("reason", ""), most_reason=again.MOST_REASON,
    ), status


def checks_of(draw: Draw, register: Register | None) -> list[Check]:
    """What is to be read before the register is closed."""
    if register is None or draw.state != BEGUN:
        return []
    return parts().draws.checks(draw)


@screen.get("/<int:number>")
@needs(READ)
def one(number: int) -> Answer:
    """A draw."""
    return draw_page(number)


@screen.get("/<int:number>/cancel")
@needs(CONFIRM)
def cancel(number: int) -> Answer:
    """How a draw is cancelled, or undone."""
    return cancel_page(number)


@screen.get("/<int:number>/sealed.txt")
@needs(READ)
def sealed(number: int) -> flask.Response:
    """The text of which the digest of the sealed lots is."""
    draw = found_draw(number)
    if not draw.digest:
        flask.abort(404)
    text = sheet_of(parts().store, number, draw.terms).text()
    return flask.Response(text, mimetype="text/plain")


def audits_of(draw: Draw) -> tuple[str, list[list[str]]]:
    """Of which of its audits the address asks, and its lines."""
    of = "register" if flask.request.args.get("of") == "register" else "rehearsal"
    found = (draw.audit if of == "register" else draw.rehearsal).get("audits")
    if not found:
        flask.abort(404)
    return of, found


@screen.get("/<int:number>/audit")
@needs(READ)
def audit(number: int) -> Answer:
    """What the second program says of a draw: of each school, or whom one of them has behind."""
    draw, (register, reason) = found_draw(number), register_now()
    of, lines = audits_of(draw)
    words = flags.present()
    audits = [draws_audit.shown(it, register, words) for it in lines] if register else []
    code = flask.request.args.get("school", "")
    at = list(draws_audit.listed(audits, code))
    return flask.render_template(
        "draw_audit.html", draw=draw, title=f"Audit of the {of}", of=of, reason=reason,
        about=draws_words.about(draw, register),
        audits=audits, at=at, code=code if at else "")


@screen.get("/<int:number>/audit.txt")
@needs(READ)
def audit_text(number: int) -> flask.Response:
    """The same as the second program printed it."""
    _, lines = audits_of(found_draw(number))
    return flask.Response(draws_audit.text(lines), mimetype="text/plain")


@dataclasses.dataclass(frozen=True)
class Asked:
    """A step that is asked for: by whom, of which draw in which version, what was agreed to, and
    the reason.
    """

    who: Person
    number: int
    seen: int
    agreed: str
    why: str

    @property
    def given(self) -> tuple[Person, int, int]:
        """What each step takes."""
        return self.who, self.number, self.seen


# the steps of who may run draws; and those of who may confirm one. The second are all that an
# office needs to end a draw when the person who began it can do nothing more
Step = Callable[[Parts, Asked], None]
OWN: dict[str, Step] = {
    "close": lambda it, asked: it.draws.close(*asked.given, True, asked.agreed),
    "send": lambda it, asked: it.draws.send(*asked.given),
}
SECOND: dict[str, Step] = {
    "confirm": lambda it, asked: it.draws.confirm(*asked.given),
    AGAIN: lambda it, asked: it.following.again(*asked.given),
    "give-up": lambda it, asked: it.draws.give_up(*asked.given, asked.why),
    "ask-give-up": lambda it, asked: it.draws.ask_give_up(*asked.given, asked.why),
    "keep-on": lambda it, asked: it.draws.go_on(*asked.given),
    "confirm-give-up": lambda it, asked: it.draws.confirm_give_up(*asked.given),
    "give-up-alone": lambda it, asked: it.draws.give_up_alone(*asked.given, asked.why),
    "ask-restore": lambda it, asked: it.draws.ask_restore(*asked.given),
    "keep": lambda it, asked: it.draws.keep(*asked.given),
    "restore": lambda it, asked: it.draws.restore(*asked.given),
    "restore-alone": lambda it, asked: it.draws.restore_alone(*asked.given),
}


def done(number: int, steps: dict[str, Step], name: str) -> Answer:
    """Does a step with what follows it by itself, and shows the draw: as it is, or that it runs."""
    found_draw(number)
    seen = numbers.read(flask.request.form.get("seen", ""))
    if name not in steps or seen < 0:
        flask.abort(404 if name not in steps else 400)
    form = flask.request.form
    agreed = form.get("agreed", "") if name == "close" else ""
    asked = Asked(person(), number, seen, agreed, form.get("reason", ""))
    found, step = parts(), steps[name]
    try:
        found.following.begin(person(), number, lambda: step(found, asked))
    except Refused as error:
        shown = cancel_page if name in draws_cancel.ALL else draw_page
        return shown(number, sentence(str(error)), 409)
    return flask.redirect(flask.url_for("draws.one", number=number), 303)


@screen.post("/<int:number>/<name>")
@needs(DRAW)
def step(number: int, name: str) -> Answer:
    """A step of who may run draws."""
    return done(number, OWN, name)


@screen.post("/<int:number>/second/<name>")
@needs(CONFIRM)
def second(number: int, name: str) -> Answer:
    """A step of who may confirm a draw."""
    return done(number, SECOND, name)
