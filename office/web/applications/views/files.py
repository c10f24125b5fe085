"""Files of applications: added to the staging table, and replaced there by corrected ones."""
from typing import BinaryIO, cast

import flask
from register_files import Refused
from werkzeug.wrappers import Response

from office.core import texts
from office.files import inputs
from office.web.people.guard import needs, person
from office.web.people.roles import RECORD
from office.web.schools.views.schools import attachment

from .. import columns
from .. import files as staging_files
from .. import page as staging_page
from .. import replace as staging_replace
from ..files import Read
from ..tools import register_now, tools
from . import staging as applications

screen = flask.Blueprint("applications_files", __name__, url_prefix="/applications")
Answer = str | Response | tuple[str, int]
# so many cells that change are shown
MOST_SHOWN = 300
# each file of a form is read in a process of its own, for some seconds
MOST_FILES = 50


def given(it: object) -> tuple[str, bytes, Read]:
    """A file that was sent: its name, its bytes and its rows; or a refusal."""
    name = staging_files.name_of(getattr(it, "filename", None))
    if not name:
        raise Refused("choose a file")
    data = inputs.taken(name, cast(BinaryIO, getattr(it, "stream")))
    return name, data, staging_files.read(name, data, flask.request.form.get("sheet", ""))


@screen.post("/files")
@needs(RECORD)
def add() -> Answer:
    """Files that were dropped in. One that is refused does not keep the others out."""
    added: list[int] = []
    refused: list[str] = []
    who, is_uk = person().name, "uk" in flask.request.form
    files = flask.request.files.getlist("files")
    if len(files) > MOST_FILES:
        return applications.page(f"Nothing was added: choose at most {MOST_FILES} files at once,"
                                 f" and not {len(files)}.", True)
    for it in files:
        try:
            name, data, read = given(it)
            added.append(tools().staging.add_file(who, name, data, is_uk, read))
            tools().points.fill(who, added[-1])
        except Refused as error:
            refused.append(str(error))
    if not added and not refused:
        refused = ["choose a file"]
    if refused:
        names = [it.name for it in tools().staging.files() if it.id in added]
        done = f" Added: {texts.listed(names)}." if names else ""
        return applications.page(f"Not added: {'; '.join(refused)}.{done}", True)
    return applications.onward(False, {"added": added})


@screen.get("/empty.xlsx")
@needs(RECORD)
def empty() -> Response:
    """A file that has the names of the columns alone."""
    return attachment(columns.empty_file(register_now()[0]), "applications")


@screen.post("/file/<int:number>")
@needs(RECORD)
def propose(number: int) -> Answer:
    """A corrected file, which is to replace one of the table."""
    try:
        name, data, read = given(flask.request.files.get(f"file-{number}"))
        staging_replace.propose(tools().staging, person().name, number, name, data, read)
    except Refused as error:
        return applications.page(f"Nothing was changed: {error}.", True)
    return flask.redirect(flask.url_for("applications_files.show", number=number), 303)


@screen.get("/file/<int:number>")
@needs(RECORD)
def show(number: int) -> Answer:
    """What a corrected file changes."""
    return page(number)


def page(number: int, text: str = "") -> Answer:
    """The same, and why nothing was changed."""
    try:
        found = staging_replace.found(tools().staging, number)
    except Refused as error:
        return applications.page(f"{text} {error}.".strip(), True)
    lines = list(staging_replace.lines(found.changed))
    body = flask.render_template(
        "applications_replace.html", found=found, said=text, lines=lines[:MOST_SHOWN],
        more=len(lines) - len(lines[:MOST_SHOWN]), title_of=staging_page.title_of,
        corrected=sum(cell is not None and cell.is_corrected for _, cell in lines))
    return body, 409 if text else 200


@screen.post("/file/<int:number>/replace")
@needs(RECORD)
def replace(number: int) -> Answer:
    """The corrected file takes the place of the other one, as it was shown; or it is forgotten."""
    form, staging, who = flask.request.form, tools().staging, person().name
    if form.get("what") == "forget":
        staging_replace.discard(staging, number)
        return flask.redirect(flask.url_for("applications.show"), 303)
    try:
        entry, file = staging_replace.apply(staging, who, number, form.get("digest", ""))
    except Refused as error:
        return page(number, f"Nothing was changed: {error}.")
    tools().points.fill(who, file)
    return applications.onward(False, {"did": entry})
