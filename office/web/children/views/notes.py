"""The notes and files of a child: read, added, struck out, removed. Each leaves the application as
text, or as a download of no kind that a browser shows.
"""
from typing import Any

import flask
from register_files import Refused
from werkzeug.wrappers import Response

from office.core.wording import sentence
from office.files import inputs
from office.web.people.guard import needs, parts, person
from office.web.people.roles import NOTES

from ..notes import ENDS, MOST_FILE, MOST_FILES, MOST_NOTE, MOST_REASON, File, Note, Unfit
from .child import child_in

screen = flask.Blueprint("notes", __name__, url_prefix="/children")
Answer = str | Response | tuple[str, int]
UNFIT, DIFFERS = 422, 409
SAID = {"note": "The note is stored.", "file": "The file is stored.",
        "struck": "The note is struck out.", "removed": "The file is removed."}
# of a file nothing is known but its bytes: no browser shows it, runs it or loads anything for it
NEUTRAL = "application/octet-stream"
SHUT = "default-src 'none'; frame-ancestors 'none'; sandbox"


@screen.app_context_processor
def shared() -> dict[str, Any]:
    """What a list shows beside its children: of which ones there are notes, for who may see them.
    """
    return {"noted": lambda: parts().notes.children() if person().may(NOTES) else set()}


@screen.get("/<int:number>/notes")
@needs(NOTES)
def show(number: int) -> Answer:
    """The notes and files of a child."""
    return page(number, SAID.get(flask.request.args.get("done", ""), ""))


def page(number: int, said: str = "", wrong: Unfit | None = None, status: int = 200) -> Answer:
    """The page, with what was typed and what is wrong with it."""
    child = child_in(number).children[number]
    return flask.render_template(
        "notes.html", child=child, notes=parts().notes.of_child(number),
        files=parts().notes.files_of(number), said=said, is_bad=status != 200,
        text=flask.request.form.get("text", "") if status != 200 else "",
        wrong={wrong.field: sentence(str(wrong))} if wrong else {}, most_note=MOST_NOTE,
        most_file=MOST_FILE // inputs.MB, most_files=MOST_FILES, ends=ENDS), status


def done(number: int, what: str) -> Response:
    """The page after something was stored."""
    return flask.redirect(flask.url_for("notes.show", number=number, done=what), 303)


@screen.post("/<int:number>/notes")
@needs(NOTES)
def add(number: int) -> Answer:
    """Adds a note."""
    child = child_in(number).children[number]
    try:
        parts().notes.add(person(), number, child.name, flask.request.form.get("text", ""))
    except Unfit as error:
        return page(number, "Nothing was stored: see the field that is marked.", error, UNFIT)
    except Refused as error:
        return page(number, sentence(f"Nothing was stored: {error}"), None, DIFFERS)
    return done(number, "note")


@screen.post("/<int:number>/files")
@needs(NOTES)
def add_file(number: int) -> Answer:
    """Adds a file, once it has arrived whole."""
    child, given = child_in(number).children[number], flask.request.files.get("file")
    called = (given.filename or "") if given else ""
    data = given.read(MOST_FILE + 1) if given else b""
    try:
        parts().notes.add_file(person(), number, child.name, called, data)
    except Unfit as error:
        return page(number, "Nothing was stored: see the field that is marked.", error, UNFIT)
    return done(number, "file")


def note_of(number: int, note: int) -> Note:
    """A note of a child."""
    return parts().notes.note(number, note) or flask.abort(404)


def file_of(number: int, file: int) -> File:
    """A file of a child."""
    return parts().notes.file(number, file) or flask.abort(404)


@screen.get("/<int:number>/files/<int:file>")
@needs(NOTES)
def download(number: int, file: int) -> Response:
    """The bytes of a file, for the browser to keep."""
    found = file_of(number, file)
    if found.removed_by:
        flask.abort(404)
    headers = {"Content-Disposition": f'attachment; filename="{found.kept_as}"',
               "Content-Security-Policy": SHUT}
    data = parts().notes.data(person(), found)
    return flask.Response(data, mimetype=NEUTRAL, headers=headers)


def question(number: int, it: Note | File, said: str = "", status: int = 200) -> Answer:
    """The question before a note is struck out, or a file is removed."""
    child = child_in(number).children[number]
    return flask.render_template(
        "notes_ask.html", child=child, it=it, is_note=isinstance(it, Note), most=MOST_REASON,
        why=flask.request.form.get("why", ""), said=said, is_bad=status != 200,
        error=said if status == UNFIT else ""), status


@screen.get("/<int:number>/notes/<int:note>/strike")
@needs(NOTES)
def ask_strike(number: int, note: int) -> Answer:
    """What is asked before a note is struck out."""
    return question(number, note_of(number, note))


@screen.post("/<int:number>/notes/<int:note>/strike")
@needs(NOTES)
def strike(number: int, note: int) -> Answer:
    """Strikes out a note."""
    found = note_of(number, note)
    try:
        parts().notes.strike(person(), found, flask.request.form.get("why", ""))
    except Refused as error:
        return question(number, found, sentence(str(error)),
                        UNFIT if isinstance(error, Unfit) else DIFFERS)
    return done(number, "struck")


@screen.get("/<int:number>/files/<int:file>/remove")
@needs(NOTES)
def ask_remove(number: int, file: int) -> Answer:
    """What is asked before a file is removed."""
    return question(number, file_of(number, file))


@screen.post("/<int:number>/files/<int:file>/remove")
@needs(NOTES)
def remove(number: int, file: int) -> Answer:
    """Removes a file."""
    found = file_of(number, file)
    try:
        parts().notes.remove(person(), found, flask.request.form.get("why", ""))
    except Refused as error:
        return question(number, found, sentence(str(error)),
                        UNFIT if isinstance(error, Unfit) else DIFFERS)
    return done(number, "removed")
