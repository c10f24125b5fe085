"""The application of a child: it is recorded where there is none; where there is one, what can
still be done when the family wants another list.
"""
import flask
from werkzeug.wrappers import Response

from office.core import days, wording
from office.core.days import today
from office.core.model import Register
from office.core.wording import sentence
from office.web.machinery.asked import Typed as Form
from office.web.people.guard import needs, parts, person
from office.web.people.roles import RECORD
from office.web.register.desk import Seen, seen_of

from .. import preferences
from ..preferences import Typed
from .child import TYPE_AGAIN, child_in, shown

screen = flask.Blueprint("preferences", __name__, url_prefix="/children")
Answer = str | Response | tuple[str, int]


def seen_now(register: Register, number: int) -> str:
    """What an application rests on, as the register has it."""
    return seen_of(register, {"cmd": "apply", "child": number}).text


@screen.get("/<int:number>/application")
@needs(RECORD)
def show(number: int) -> Answer:
    """The form, with what was typed and not recorded; its question; or what can be done where the
    register has an application already.
    """
    register, digest = child_in(number), flask.request.args.get("typed", "")
    typed = parts().asked.find(person(), flask.request.path, digest)
    if digest and typed is not None:
        return considered(number, typed)
    if preferences.why_not(register, number):
        return stored_page(register, number)
    if typed is not None:
        return form_page(register, number, preferences.read(register, typed), typed)
    text = days.in_words(today())
    empty = Typed(text, today(), [""] * len(preferences.fields_of(register)), {})
    return form_page(register, number, empty, said=TYPE_AGAIN if digest else "")


def stored_page(register: Register, number: int, said: str = "") -> Answer:
    """What can be done for a child whose application can neither be recorded nor changed."""
    return flask.render_template(
        "preferences_stored.html", **shown(register, number), said=said,
        why_not=preferences.why_not(register, number),
        has_application=number in register.applications), 409 if said else 200


def form_page(
    register: Register, number: int, found: Typed, typed: Form | None = None, said: str = "",
) -> Answer:
    """The form, with what was typed and what is wrong with it."""
    schools = [(it.code, f"{it.code} {it.name}") for it in register.schools.values()]
    status = 400 if found.wrong else 409 if said else 200
    return flask.render_template(
        "preferences.html", **shown(register, number), typed=found, said=said,
        fields=list(zip(preferences.fields_of(register), found.codes)),
        schools=[("", "no school"), *schools], is_kept=typed is not None and not found.wrong,
        seen=(typed or Form()).get("seen") or seen_now(register, number)), status


@screen.post("/<int:number>/application")
@needs(RECORD)
def record(number: int) -> Answer:
    """Leads to the question of what was typed; records what was confirmed."""
    child_in(number)
    typed, path, kept = flask.request.form, flask.request.path, parts().asked
    if typed.get("what") == "send":
        return considered(number, typed, True)
    if typed.get("what") == "anew":
        kept.forget(person(), path)
        return flask.redirect(path, 303)
    return flask.redirect(flask.url_for(
        "preferences.show", number=number, typed=kept.keep(person(), path, typed)), 303)


def considered(number: int, typed: Form, is_sent: bool = False) -> Answer:
    """The question of an application; or one that was confirmed."""
    register = child_in(number)
    found = preferences.read(register, typed)
    if found.wrong:
        return form_page(register, number, found, typed,
                         "Nothing was recorded: see the fields that are marked.")
    command, seen = preferences.command_of(number, found), Seen(typed.get("seen", ""))
    said = parts().desk.changed(register, command, seen)
    if is_sent:
        result = parts().desk.send(person(), command, seen)
        if result.is_done:
            parts().asked.forget(person(), flask.request.path)
            return flask.redirect(flask.url_for("child.show", number=number, recorded="yes"), 303)
        said, register = result.said, child_in(number)
    if reason := preferences.why_not(register, number):
        return stored_page(register, number, said or sentence(reason))
    return ask_page(register, number, found, said)


def ask_page(register: Register, number: int, found: Typed, said: str) -> Answer:
    """What an application does, before it is stored."""
    assert found.day
    command = preferences.command_of(number, found)
    return flask.render_template(
        "preferences_ask.html", **shown(register, number), typed=found, said=said,
        weekday=wording.weekday(found.day), seen=seen_now(register, number),
        fields=list(zip(preferences.fields_of(register), found.codes)),
        chosen=[register.schools[it] for it in found.chosen],
        becomes=preferences.becomes(register, found.day),
        warnings=preferences.warnings(register, command, found.day, today()),
    ), 409 if said else 200
