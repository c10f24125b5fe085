"""Trials of other admission numbers or criteria: asked for, ended, and shown as a page, PDF and
workbook.
"""
import operator
from typing import Any, NamedTuple

import flask
from register_files import Refused
from werkzeug.wrappers import Response

from office.core.model import Draw, Register
from office.core.wording import sentence
from office.web.explain import explanations, pdf_apart
from office.web.explain.views import PDF
from office.web.machinery import tables
from office.web.people.guard import needs, parts, person
from office.web.people.roles import READ, RECORD
from office.web.schools import flags
from office.web.schools import rows as schools
from office.web.schools.views.schools import attachment

from . import runs
from .runs import Found, Line, Run

screen = flask.Blueprint("trials", __name__, url_prefix="/trials")
Answer = str | Response | tuple[str, int]
# a page waits for so many seconds for the end of a trial
WAIT_SECONDS = 5
NEXT = "next"
# the columns of the children who would have another school
CHILDREN = (("child", "Child"), ("name", "Name"), ("effect", "Effect"), ("school", "School"),
            ("by", "By"), ("would", "Would have"), ("would-by", "By"))
UNFIT, DIFFERS = 422, 409


class Tried(NamedTuple):
    """A round that can be tried: its name in addresses and in words, and its draw if it is held."""

    name: str
    words: str
    draw: Draw | None


def rounds(register: Register) -> list[Tried]:
    """The rounds that can be tried: those of which the copy from before them is kept, the last
    first, or the first one, before it is held.
    """
    if not register.draws:
        return [Tried(NEXT, "the first round, which is not run yet, with lots drawn for the trial",
                      None)]
    return [Tried(str(it.number), explanations.in_words(it), it)
            for it in reversed(register.rounds) if explanations.kept_before(parts(), it)]


def registers(tried: Tried) -> tuple[Register, Register | None]:
    """The registers from before and after a round."""
    if tried.draw is None:
        return parts().desk.now(), None
    return explanations.before(parts(), tried.draw), parts().desk.register()


@screen.get("/")
@needs(READ)
def show() -> Answer:
    """The form of a trial, and the trials that are kept."""
    return form_page()


def form_page(said: str = "", given: list[Line] | None = None, status: int = 200) -> Answer:
    """The form, with what was typed."""
    known = rounds(parts().desk.register())
    name = flask.request.values.get("round", "")
    tried = next((it for it in known if it.name == name), known[0] if known else None)
    lines: list[Line] = given or []
    if tried and given is None and person().may(RECORD):
        try:
            lines = runs.lines(registers(tried)[0], {}, flags.present())
        except Refused as error:
            said, status = said or sentence(str(error)), 409
    return flask.render_template(
        "trials.html", rounds=known, choices=[it[:2] for it in known], tried=tried, lines=lines,
        forms=schools.forms(), said=said, is_bad=status != 200,
        runs=parts().trials.listed()), status


@screen.post("/")
@needs(RECORD)
def begin() -> Answer:
    """Begins a trial."""
    form, words = flask.request.form, flags.present()
    known = {it.name: it for it in rounds(parts().desk.register())}
    if form.get("round", "") not in known:
        return form_page("Nothing was tried: choose a round.", status=DIFFERS)
    tried = known[form["round"]]
    lines: list[Line] | None = None
    try:
        before, after = registers(tried)
        lines = runs.lines(before, form, words)
        if any(it.wrong for it in lines):
            said = "Nothing was tried: see the fields that are marked."
            return form_page(said, lines, UNFIT)
        run = parts().trials.begin(person(), runs.asked_for(before, after, lines, words))
    except Refused as error:
        return form_page(f"Nothing was tried: {error}.", lines, DIFFERS)
    return flask.redirect(flask.url_for("trials.one", number=run.number), 303)


def run_of(number: int) -> Run:
    """A trial that is kept."""
    return parts().trials.get(number) or flask.abort(404)


def found_of(run: Run) -> Found:
    """What a trial found, if it came to its end."""
    return run.found or flask.abort(404)


@screen.get("/<int:number>")
@needs(READ)
def one(number: int) -> Answer:
    """A trial: its result, or that it is under way."""
    run = run_of(number)
    is_over = run.is_over(WAIT_SECONDS)
    return flask.render_template(
        "trial.html", run=run, found=run.found, is_over=is_over, refused=sentence(run.refused),
        seconds=runs.MOST_SECONDS, school_head=runs.SCHOOL_HEAD,
        criterion_head=runs.CRITERION_HEAD, children=children_of(run))


def children_of(run: Run) -> tables.Table[Any]:
    """The children who would have another school, in the order that is asked for."""
    columns = {name: tables.Column[Any](title, "" if at else "number", operator.itemgetter(at))
               for at, (name, title) in enumerate(CHILDREN)}
    return tables.table(columns, run.found.children if run.found else [], "children")


@screen.post("/<int:number>/end")
@needs(RECORD)
def end(number: int) -> Answer:
    """Ends a trial that is under way."""
    run = run_of(number)
    run.program.end()
    return flask.redirect(flask.url_for("trials.one", number=number), 303)


@screen.get("/<int:number>/workbook")
@needs(READ)
def workbook(number: int) -> Response:
    """A trial as an Excel file."""
    run = run_of(number)
    return attachment(runs.workbook(run, found_of(run)), f"trial-{number}")


@screen.get("/<int:number>/pdf")
@needs(READ)
def pdf(number: int) -> Response:
    """A trial as PDF."""
    data = pdf_apart.pdf_of(found_of(run_of(number)).page, "the trial")
    headers = {"Content-Disposition": f'attachment; filename="trial-{number}.pdf"'}
    return flask.Response(data, mimetype=PDF, headers=headers)
