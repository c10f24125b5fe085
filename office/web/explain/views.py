"""Why a child got what a draw gave it, for the family and for the office, as a page and as PDF; and
what a round would have given it by another list, another day or another criterion.
"""
from collections.abc import Mapping

import flask
from register_files import Refused
from werkzeug.wrappers import Response

from office.core.model import Draw, Register
from office.core.wording import sentence
from office.web.children.views.child import child_in
from office.web.people.guard import needs, parts
from office.web.people.roles import READ
from office.web.schools import flags

from . import explanations, what_if
from .explanations import READERS, Explanation
from .what_if import NotThere, Setting, Typed

screen = flask.Blueprint("why", __name__, url_prefix="/children")
Answer = str | Response | tuple[str, int]
PDF = "application/pdf"
PATH = f"/<int:number>/why/<int:draw>/<any({', '.join(READERS)}):reader>"
NO_REASON = ("the text for the family is not made, as a school has no reason in it: the data of the"
             " register were changed since")


def draw_of(register: Register, number: int) -> Draw:
    """A draw of the register."""
    found = next((it for it in register.draws if it.number == number), None)
    return found or flask.abort(404)


def round_of(register: Register, number: int) -> Draw:
    """A round of the register."""
    found = draw_of(register, number)
    return found if found.round else flask.abort(404)


def explained(number: int, draw: int, reader: str) -> Explanation:
    """The explanation that an address names."""
    return explanations.explained(
        parts(), number, draw_of(child_in(number), draw), reader, flags.present())


@screen.get(PATH)
@needs(READ)
def show(number: int, draw: int, reader: str) -> Answer:
    """The explanation, for one of its readers."""
    register = child_in(number)
    held, found, said = draw_of(register, draw), None, ""
    try:
        found = explained(number, draw, reader)
    except Refused as error:
        said = sentence(str(error))
    return flask.render_template(
        "why.html", child=register.children[number], draw=draw, reader=reader, readers=READERS,
        words=explanations.in_words(held), found=found, said=said,
        rounds=explanations.taken(parts(), register, number)), 409 if said else 200


@screen.get(f"{PATH}/pdf")
@needs(READ)
def pdf(number: int, draw: int, reader: str) -> Response:
    """The same as PDF."""
    found = explained(number, draw, reader)
    if not found.is_whole and reader == explanations.FAMILY:
        raise Refused(NO_REASON)
    note = found.note if reader == explanations.OFFICE else ""
    data = explanations.pdf_of(found, parts().config.authority, note)
    name = f"why-child-{number}-draw-{draw}-{reader}.pdf"
    headers = {"Content-Disposition": f'attachment; filename="{name}"'}
    return flask.Response(data, mimetype=PDF, headers=headers)


@screen.get("/<int:number>/what-if/<int:draw>")
@needs(READ)
def other(number: int, draw: int) -> Answer:
    """What a round would have given a child by another list, day or criterion: the forms, and the
    answer where something was typed.
    """
    register = child_in(number)
    held, given = round_of(register, draw), flask.request.args
    try:
        found = what_if.setting(parts(), held, number)
        choices = what_if.criteria_of(found, flags.present())
        listed, answer, wrong = answered(found, given, choices)
    except Refused as error:
        said = sentence(str(error))
        return flask.render_template(
            "what_if.html", child=register.children[number], draw=draw, found=None, said=said,
            words=explanations.in_words(held), wrong={},
        ), 200 if isinstance(error, NotThere) else 409
    return flask.render_template(
        "what_if.html", child=register.children[number], draw=draw, found=found, said="",
        words=explanations.in_words(held), fields=fields_of(found, listed), answer=answer,
        wrong=wrong, day=given.get("day", ""), criterion=given.get("criterion", ""),
        criteria=[("", "choose one"), *choices.items()]), 400 if wrong else 200


def answered(
    found: Setting, given: Mapping[str, str], choices: Mapping[str, str],
) -> tuple[Typed, list[str], dict[str, str]]:
    """The list as it is to be shown, the answer in sentences, and what is wrong at which field."""
    listed = what_if.typed(found, given)
    if listed.wrong or given.get("what") == "list":
        return listed, [] if listed.wrong else what_if.by_list(found, listed.chosen), listed.wrong
    if given.get("what") == "criterion":
        choice = given.get("criterion", "")
        if choice not in choices:
            return listed, [], {"criterion": "one of the list"}
        return listed, what_if.by_criterion(found, choice, choices[choice]), {}
    if given.get("what") != "day":
        return listed, [], {}
    answer, said = what_if.by_day(found, given.get("day", ""))
    return listed, answer, {"day": said} if said else {}


def fields_of(found: Setting, listed: Typed) -> list[tuple[str, str, list[tuple[str, str]], str]]:
    """The menus of another list: name, label, what can be chosen, and what is."""
    schools = found.before.schools
    choices = [("", "no school"), *((it, f"{it} {schools[it].name}") for it in found.wanted)]
    return [(f"p{at}", what_if.preference(at), choices, code)
            for at, code in enumerate(listed.codes, 1)]
