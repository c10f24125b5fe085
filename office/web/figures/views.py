"""The published figures: made of a round, looked at with what is withheld and why, compared with
last year, and taken as the file for publication.
"""
import dataclasses

import flask
from register_files import Refused
from werkzeug.wrappers import Response

from office.core import days
from office.core.model import Register
from office.core.turns import Busy
from office.core.wording import draw_in_words, sentence
from office.web.frame import uploads
from office.web.people import guard
from office.web.people.guard import needs, parts, person
from office.web.people.roles import READ, RECORD
from office.web.schools import flags

from . import publication
from .publication import FiguresStore, Made, Sources, Withheld
from .withheld import WITHHELD

screen = flask.Blueprint("figures", __name__, url_prefix="/figures")
Answer = str | Response | tuple[str, int]
# the page has its own style within it, and nothing else: no script runs, and nothing is fetched
PAGE_POLICY = ("default-src 'none'; style-src 'unsafe-inline'; base-uri 'none'; form-action 'none';"
               " frame-ancestors 'none'; sandbox")


def kept() -> FiguresStore:
    """The figures that were made."""
    return FiguresStore(parts().store)


@screen.get("/")
@needs(READ)
def show() -> Answer:
    """What was made, and the form for others."""
    return index("")


def index(said: str, wrong: str = "", typed: str = "") -> str:
    """The first page."""
    register = parts().desk.register()
    rounds = [(it, f"{draw_in_words(it)}, {days.in_words(it.day)}",
               parts().draws.copy_before(it)) for it in reversed(register.rounds)]
    return flask.render_template(
        "figures.html", rows=kept().listed(), rounds=rounds, said=said, wrong=wrong, typed=typed,
        copy=publication.COPY, last=publication.LAST, last_copy=publication.LAST_COPY)


def is_given(field: str) -> bool:
    """Whether a file was chosen."""
    file = flask.request.files.get(field)
    return bool(file and file.filename)


def given(field: str, called: str) -> Register | None:
    """The register of a file, if one was chosen."""
    file = flask.request.files.get(field)
    return uploads.register_of(file, called) if is_given(field) else None


def sources(typed: str) -> Sources:
    """What the figures that were asked for are made of."""
    register = parts().desk.now()
    held = next((it for it in register.rounds if str(it.round) == typed), None)
    if held is None or held.round is None:
        raise Refused("choose a round that was run")
    if is_given("last_copy") and not is_given("last"):
        raise Refused(f"{publication.LAST_COPY} needs {publication.LAST} beside it")
    copy = given("copy", publication.COPY)
    if copy is None and (own := parts().draws.copy_before(held)):
        copy = dataclasses.replace(parts().copies.register(own), name=publication.COPY)
    return Sources(register, held.round, copy, given("last", publication.LAST),
                   given("last_copy", publication.LAST_COPY))


@screen.post("/")
@needs(RECORD)
def make() -> Answer:
    """Makes the figures of a round. They are kept, and nobody sees them outside of the office."""
    typed = flask.request.form.get("round", "")
    try:
        page, about = publication.made(sources(typed), flags.present())
    except Refused as error:
        status = 503 if isinstance(error, Busy) else 422
        return index("", sentence(f"Nothing was made: {error}"), typed), status
    number = kept().add(person().name, page, about)
    made = found(number)
    guard.record("made figures", of=made.title, number=number, digest=made.digest,
                 withheld=about["counts"])
    return flask.redirect(flask.url_for("figures.one", number=number), 303)


def found(number: int) -> Made:
    """Figures that were made."""
    made = kept().get(number)
    if made is None:
        flask.abort(404)
    return made


@screen.get("/<int:number>")
@needs(READ)
def one(number: int) -> Answer:
    """What the page says and what it does not say."""
    return preview(found(number))


def preview(made: Made, said: str = "") -> str:
    """The page of figures that were made."""
    rows = [Withheld(*it) for it in made.about["withheld"]]
    return flask.render_template("figures_one.html", made=made, rows=rows, said=said,
                                 mark=WITHHELD)


@screen.get("/<int:number>/page")
@needs(READ)
def page(number: int) -> Response:
    """The page as it is published, byte for byte."""
    answer = flask.Response(kept().page(found(number).number), mimetype="text/html")
    answer.headers["Content-Security-Policy"] = PAGE_POLICY
    return answer


@screen.post("/<int:number>/file")
@needs(RECORD)
def file(number: int) -> Answer:
    """The file for publication, which is on record before it is given."""
    made = found(number)
    if flask.request.form.get("digest") != made.digest:
        said = "Nothing was downloaded: these are other figures than were shown."
        return preview(made, said), 409
    data = kept().page(number)
    guard.record("took figures for publication", of=made.title, number=number, digest=made.digest)
    kept().take(person().name, number)
    name = f"figures-{made.about['year']}-{made.about['phase']}-round-{made.about['round']}.html"
    return flask.Response(data, mimetype="text/html", headers={
        "Content-Disposition": f'attachment; filename="{name}"'})
