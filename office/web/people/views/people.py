"""Who may sign in: added, given a role, locked, and given a new password, each asked before it is
done, and on record.
"""
import contextlib
from collections.abc import Callable, Mapping
from typing import Any

import flask
from register_files import Refused
from werkzeug.wrappers import Response

from office.core.wording import sentence

from .. import changes, guard, roles
from ..changes import Act
from ..guard import needs, parts, person
from ..roles import PEOPLE, PERSON, PROGRAM

screen = flask.Blueprint("people", __name__, url_prefix="/people")
Answer = str | Response | tuple[str, int]
ADD = "add"


def form_of(wrong: Mapping[str, str] | None = None) -> dict[str, Any]:
    """The form to add somebody: with what was typed where that is wrong, and the focus after each.
    """
    form = flask.request.form
    schools: list[str] = []
    with contextlib.suppress(Refused):
        schools = sorted(parts().desk.register().schools)
    return {
        "roles": roles.ROLES, "school_roles": [roles.SCHOOL + it for it in schools],
        "typed": {it: form.get(it, "") if wrong else "" for it in ("name", "role", "kind")},
        "wrong": {"name": "", "role": "", **(wrong or {})}, "is_adding": form.get("what") == ADD}


def page(
    said: str = "", secret: tuple[str, str, bool] | None = None, status: int = 200,
    wrong: dict[str, str] | None = None,
) -> Answer:
    """The list of all, with a secret that is shown once: whose it is, and whether it is a token.
    """
    rows = parts().store.rows("SELECT * FROM person ORDER BY kind, name")
    return flask.render_template(
        "people.html", rows=rows, said=said, is_bad=status != 200, secret=secret,
        **form_of(wrong)), status


@screen.get("/")
@needs(PEOPLE)
def show() -> Answer:
    """The list."""
    return page()


def see_another(name: str) -> None:
    """Refuses what would keep oneself out."""
    if name == person().name:
        raise Refused("nobody can do this for themselves: ask another person with this right")


def wrong_in(name: str, role: str) -> dict[str, str]:
    """What is wrong with somebody who is to be added, by its field."""
    checks: dict[str, Callable[[], None]] = {
        "name": lambda: parts().people.see_name(name), "role": lambda: roles.see_role(role)}
    found: dict[str, str] = {}
    for field, check in checks.items():
        try:
            check()
        except Refused as error:
            found[field] = sentence(str(error))
    return found


def add(name: str, role: str, kind: str) -> Answer:
    """Adds a person or a program."""
    with parts().store.lock:
        # (nobody else adds the same name between the record and what it announces)
        if wrong := wrong_in(name, role):
            return page("Nobody was added: see what is wrong below.", status=409, wrong=wrong)
        guard.record("added", person=name, role=role, kind=kind)
        secret = parts().people.add(name, role, kind)
    return page(f"{name} is added as {role}.", (name, secret, kind == PROGRAM))


def asked(act: Act, said: str = "", status: int = 200) -> Answer:
    """The question before a change."""
    warnings = changes.warnings(parts(), person(), act)
    return flask.render_template(
        "people_ask.html", act=act, warnings=warnings, said=said,
        shown=changes.shown_of(act, warnings)), status


def given(values: Mapping[str, str]) -> Act:
    """The change that is meant, or a refusal."""
    what, name, role = (values.get(it, "").strip() for it in ("what", "name", "role"))
    act = changes.act_of(parts(), what, name, role)
    see_another(name)
    return act


@screen.get("/ask")
@needs(PEOPLE)
def ask() -> Answer:
    """The question before a change of one person."""
    if flask.request.args.get("what") not in changes.ACTS:
        return flask.redirect(flask.url_for("people.show"), 303)
    try:
        return asked(given(flask.request.args))
    except Refused as error:
        return page(f"Nothing was changed: {error}.", status=409)


@screen.post("/")
@needs(PEOPLE)
def change() -> Answer:
    """Somebody is added; or one is changed, as it was asked."""
    form = flask.request.form
    what = form.get("what", "")
    if what not in (ADD, *changes.ACTS):
        flask.abort(400)
    try:
        if what == ADD:
            name, role = (form.get(it, "").strip() for it in ("name", "role"))
            return add(name, role, PROGRAM if form.get("kind") == PROGRAM else PERSON)
        with parts().store.lock:
            act = given(form)
            warnings = changes.warnings(parts(), person(), act)
            if form.get("shown") != changes.shown_of(act, warnings):
                return asked(act, "Nothing was changed yet: this is what it does now.", 409)
            return done(act)
    except Refused as error:
        return page(f"Nothing was changed: {error}.", status=409)


def done(act: Act) -> Answer:
    """Does a change that was asked, on record before."""
    found, name = parts().people, act.name
    if act.what == changes.ROLE:
        guard.record("gave a role", person=name, role=act.role, before=act.role_now)
        found.set_role(name, act.role)
        return page(f"{name} has the role {act.role} now, and is signed out.")
    if act.what == changes.RESET:
        guard.record(f"drew a new {act.secret}", person=name)
        return page(f"{name} has a new {act.secret}, and is signed out.",
                    (name, found.reset(name), act.is_program))
    if act.what == changes.REMOVE:
        guard.record("removed", person=name, role=act.role_now)
        found.remove(name)
        return page(f"{name} is removed. What {name} did stays in the history.")
    guard.record(f"{act.what}ed", person=name)
    found.lock(name, act.what == changes.LOCK)
    return page(f"{name} is {act.what}ed.")
