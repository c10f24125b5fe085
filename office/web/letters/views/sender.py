"""What letters say of the office: typed in fields, previewed, and saved with its versions."""
import flask
from register_files import Refused
from werkzeug.wrappers import Response

from office.core.wording import sentence
from office.web.machinery import numbers
from office.web.people.guard import needs, parts, person
from office.web.people.roles import READ, TEMPLATES

from .. import apart
from .. import sender as letters_sender
from ..apart import Form, Source
from ..examples import ADDRESS, DAY, EXAMPLES
from ..sender import FIELDS, Sender, WrongFields
from .templates import preview_file, templates

screen = flask.Blueprint("letter_sender", __name__, url_prefix="/letters/office")
Answer = str | Response | tuple[str, int]


def sender() -> Sender:
    """What letters of this application say of the office."""
    return parts().letters.sender


@screen.get("/")
@needs(READ)
def show() -> Answer:
    """The fields as they are."""
    last = sender().last()
    return page(last.fields if last else {}, sender().number)


def page(
    fields: dict[str, str], seen: int, said: str = "", status: int = 200,
    wrong: dict[str, str] | None = None, pages: int = 0,
) -> Answer:
    """The form with what was typed."""
    return flask.render_template(
        "letters_sender.html", fields=fields, seen=seen, said=said, is_bad=status != 200,
        wrong=wrong or {}, pages=pages, all=FIELDS, versions=sender().versions(),
        errors=[(f"#{it.name}", f"{it.label}: {wrong[it.name]}") for it in FIELDS
                if it.name in wrong] if wrong else []), status


@screen.post("/")
@needs(TEMPLATES)
def save() -> Answer:
    """Saves the fields, or shows a letter with them."""
    form = flask.request.form
    fields = letters_sender.read(form)
    seen = numbers.read(form.get("seen", ""), 0)
    try:
        if form.get("what") == "preview":
            return page(fields, seen, pages=preview(fields))
        sender().save(person(), seen, fields)
    except WrongFields as error:
        return page(fields, seen, sentence(str(error)), 422, error.wrong)
    except Refused as error:
        return page(fields, seen, sentence(str(error)), 409)
    return flask.redirect(flask.url_for("letter_sender.show", saved="yes"), 303)


def preview(fields: dict[str, str]) -> int:
    """Makes an example of the Standard letter with what was typed. How many pages it has."""
    if wrong := letters_sender.wrong_in(fields):
        raise WrongFields(wrong)
    standard = templates().last(templates().standard())
    assert standard is not None
    source = Source(standard.name, standard.text, {}, letters_sender.values_of(fields))
    path = preview_file()
    path.unlink(missing_ok=True)
    offer = next(iter(EXAMPLES.values()))
    return apart.letters(source, [(offer, ADDRESS)], DAY, Form(True), str(path)).pages[0]
