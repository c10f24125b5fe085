"""The gazetteers: a file is sent, its columns are chosen beside its first rows, and it is read.
"""
import flask
from register_files import Refused
from werkzeug.wrappers import Response

from office.core import texts
from office.web.frame.uploads import LARGE
from office.web.people.guard import needs, person
from office.web.people.roles import RECORD

from .. import files, gazetteer_rows, points
from ..gazetteer_file import Given
from ..gazetteer_rows import Columns
from ..points import Metres
from ..tools import number_in, register_now, tools

screen = flask.Blueprint("gazetteer", __name__, url_prefix="/applications/gazetteer")
Answer = str | Response | tuple[str, int]
NONE = "none"
# the columns that are chosen: the name of the field, its label, whether it may be none
CHOICES = (
    ("property", "Property number (UPRN)", True), ("postcode", "Postcode", True),
    ("east", "East, or longitude", False), ("north", "North, or latitude", False),
)
UNITS = {"metres": "east and north in metres, on the British National Grid",
         "degrees": "longitude and latitude in degrees, of WGS84 or ETRS89"}


@screen.get("/")
@needs(RECORD)
def show() -> Answer:
    """What is there, and a file whose columns are to be chosen."""
    done = flask.request.args.get("done", "")
    said = {"received": "The file is received. Choose its columns below.",
            "removed": "The file is removed.", "read": "The gazetteer is in use."}.get(done, "")
    return page(said)


def page(said: str = "", status: int = 200) -> Answer:
    """The gazetteers, with what was done or why it was not."""
    found = tools().points.gazetteer
    given, first, wrong = found.given(), [], ""
    try:
        first = found.first_rows(given) if given else []
    except Refused as error:
        wrong = str(error)
    columns = [f"{letters(at)}: {texts.cut(it.strip()) or 'no name'}"
               for at, it in enumerate(first[0])] if first else []
    return flask.render_template(
        "gazetteer.html", said=said, is_bad=status != 200, summaries=found.summaries(),
        given=given, first=first, columns=columns, wrong=wrong, choices=CHOICES, units=UNITS,
        chosen=chosen(given, first), metres=points.DEGREES_METRES, none=NONE,
        cut=texts.cut, most=gazetteer_rows.MOST_BYTES >> 20, kinds=points.DIFFER_METRES), status


def letters(at: int) -> str:
    """A column as a spreadsheet calls it."""
    return (letters(at // 26 - 1) if at >= 26 else "") + chr(ord("A") + at % 26)


def chosen(given: Given | None, first: list[list[str]]) -> dict[str, str]:
    """What the form has: what was typed, or else a guess."""
    form = flask.request.form
    if given is None or not first:
        return {}
    if "digest" in form:
        return {it: form.get(it, "") for it in ("property", "postcode", "east", "north", "units",
                                                "names", "name")}
    found = tools().points.gazetteer.guessed(first[0])
    is_degrees = "east" not in found and "longitude" in found
    axes = ("longitude", "latitude") if is_degrees else ("east", "north")
    places = {"property": found.get("property"), "postcode": found.get("postcode"),
              "east": found.get(axes[0]), "north": found.get(axes[1])}
    return {**{it: NONE if at is None else str(at) for it, at in places.items()},
            "units": "degrees" if is_degrees else "metres", "name": given.name,
            "names": "yes" if gazetteer_rows.has_names(first[0]) else ""}


@screen.post(LARGE.removeprefix("/applications/gazetteer"))
@needs(RECORD)
def receive() -> Answer:
    """A file that is sent."""
    given = flask.request.files.get("file")
    name = files.name_of(given.filename if given else "")
    try:
        if given is None or not name:
            raise Refused("choose a file")
        tools().points.gazetteer.receive(person().name, name, given.stream)
    except Refused as error:
        return page(f"Nothing was changed: {error}.", 409)
    return flask.redirect(flask.url_for("gazetteer.show", done="received"), 303)


@screen.post("/drop")
@needs(RECORD)
def drop() -> Answer:
    """A file that was sent, and is not to be used."""
    tools().points.gazetteer.drop(person().name, flask.request.form.get("digest", ""))
    return flask.redirect(flask.url_for("gazetteer.show", done="removed"), 303)


@screen.post("/read")
@needs(RECORD)
def read_in() -> Answer:
    """Makes the file that was sent a gazetteer, by the columns that were chosen."""
    form = flask.request.form
    try:
        tools().points.gazetteer.read_in(
            person().name, form.get("digest", ""), columns_in(), form.get("name", ""), middle())
    except Refused as error:
        return page(f"Nothing was changed: {error}.", 409)
    return flask.redirect(flask.url_for("gazetteer.show", done="read"), 303)


def columns_in() -> Columns:
    """The columns that were chosen, or a refusal."""
    form = flask.request.form
    at = {it: None if form.get(it, NONE) in ("", NONE) else number_in(form, it)
          for it, _, _ in CHOICES}
    east, north = at["east"], at["north"]
    if east is None or north is None:
        raise Refused("choose the two columns of the point")
    if at["property"] is None and at["postcode"] is None:
        raise Refused("choose the column of the property number, of the postcode, or both")
    used = [it for it in at.values() if it is not None]
    if len(set(used)) < len(used):
        raise Refused("a column is chosen twice")
    return Columns(at["property"], at["postcode"], east, north, form.get("units") == "degrees",
                   "names" in form)


def middle() -> Metres | None:
    """Where the schools of the register are, by their median, if there are any."""
    register, _ = register_now()
    schools = list(register.schools.values()) if register else []
    easts, norths = (sorted(it) for it in (
        [school.east for school in schools], [school.north for school in schools]))
    return (easts[len(easts) // 2], norths[len(norths) // 2]) if schools else None
