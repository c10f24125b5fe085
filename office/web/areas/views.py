"""The screen of catchment areas: the file in use, and one that was added, which is compared with it
and confirmed.
"""
import collections
import dataclasses
from typing import Any, BinaryIO, cast

import flask
from register_files import Refused
from werkzeug.wrappers import Response

from office.core import texts
from office.core.model import Register
from office.files import inputs
from office.web.applications.files import name_of
from office.web.applications.tools import table_now
from office.web.machinery import numbers, pictures
from office.web.people.guard import needs, parts, person
from office.web.people.roles import READ, RECORD

from . import areas, compared
from .areas import File, Line
from .compared import Change
from .map import Map

screen = flask.Blueprint("areas", __name__, url_prefix="/schools/areas")
Answer = str | Response | tuple[str, int]
# so many rows or children that change are named
MOST_SHOWN = 100
CRITERION = "catchment"
DID = {"added": "The file is added. It is used once it is confirmed below.",
       "removed": "The file is removed.", "used": "The areas are in use."}


@dataclasses.dataclass(frozen=True)
class Shown:
    """A file as it is shown: of each school how many areas it has, their size, and what is to be
    said; the features in which something is wrong; and the map with what it says.
    """

    file: File
    lines: list[Line]
    schools: list[tuple[str, str, int, str, str]]
    wrong: list[Line]
    drawn: Any
    says: str


@dataclasses.dataclass(frozen=True)
class Waiting:
    """A file that waits: what it changes in Applications, why it cannot be used, and the digest of
    what is shown.
    """

    shown: Shown
    changes: list[Change]
    why_not: str
    digest: str


def large() -> Register:
    """The register, which is a large one."""
    register = parts().desk.register()
    if not register.is_large:
        flask.abort(404)
    return register


def shown_of(file: File, register: Register, found: Map, name: str) -> Shown:
    """A file with its areas as it is shown."""
    lines = areas.lines_of(file, register.schools, file.named_by)
    many = collections.Counter(it.code for it in found.areas)
    sizes = collections.Counter[str]()
    for it in found.areas:
        sizes[it.code] += it.size
    rows = []
    for code, school in register.schools.items():
        has_criterion = CRITERION in school.criteria
        if not (many[code] or has_criterion):
            continue
        note = "" if has_criterion else "its criteria use no area"
        rows.append((code, school.name, many[code], f"{sizes[code] / 1_000_000:,.2f}",
                     note if many[code] else "it has the criterion, and no area"))
    says = (f"{texts.count(len(found.areas), 'area')} of"
            f" {texts.count(len(many), 'school')}.")
    drawn = pictures.area_map(
        f"{name}-drawn", f"Catchment areas of {file.name}", says,
        [(it.code, it.rings) for it in found.areas],
        [(it.code, it.east, it.north) for it in register.schools.values() if many[it.code]],
    ) if found.areas else ""
    return Shown(file, lines, rows, [it for it in lines if it.wrong], drawn, says)


def waiting_of(file: File, register: Register) -> Waiting:
    """A file that waits, beside the one in use."""
    made, (table, _) = areas.map_of(file, register.schools, file.named_by), table_now()
    found = shown_of(file, register, made, "waiting")
    changes = compared.of_rows(table, parts().areas.map(register.schools), made)
    why = areas.why_not(found.lines) if file.named_by else "choose what names the schools"
    return Waiting(found, changes, why, compared.digest(file.number, found.lines, changes))


@screen.get("/")
@needs(READ)
def show() -> Answer:
    """The file in use, and one that waits."""
    return page(DID.get(flask.request.args.get("done", ""), ""))


def page(said: str = "", status: int = 200) -> Answer:
    """The same, with what was done or why it was not."""
    register, kept = large(), parts().areas
    used, waits = kept.used, kept.waiting if person().may(RECORD) else None
    found = kept.map(register.schools)
    return flask.render_template(
        "areas.html", said=said, is_bad=status != 200, most=MOST_SHOWN,
        used=shown_of(used, register, found, "used") if used and found else None,
        waiting=waiting_of(waits, register) if waits else None,
        others=compared.of_children(register, found) if found else [],
        megabytes=inputs.MOST_BYTES // inputs.MB), status


def refused(error: Refused) -> Answer:
    """The screen with why nothing was done."""
    return page(f"Nothing was changed: {error}.", 409)


def done(what: str) -> Response:
    """Back to the screen."""
    return flask.redirect(flask.url_for("areas.show", done=what), 303)


@screen.post("/file")
@needs(RECORD)
def add() -> Answer:
    """A file that is sent."""
    large()
    given = flask.request.files.get("file")
    try:
        name = name_of(given.filename if given else "")
        if given is None or not name:
            raise Refused("choose a file")
        parts().areas.add(person().name, name, inputs.taken(name, cast(BinaryIO, given.stream)))
    except Refused as error:
        return refused(error)
    return done("added")


def number_in() -> int:
    """The file that was shown."""
    return numbers.read(flask.request.form.get("file", ""), 0)


@screen.post("/property")
@needs(RECORD)
def choose() -> Answer:
    """What names the schools in a file that waits."""
    large()
    try:
        parts().areas.name_by(person().name, number_in(), flask.request.form.get("property", ""))
    except Refused as error:
        return refused(error)
    return done("")


@screen.post("/use")
@needs(RECORD)
def use() -> Answer:
    """Puts a file in use that was compared and confirmed."""
    register, seen = large(), flask.request.form.get("seen", "")
    try:
        parts().areas.use(person().name, number_in(), register.schools,
                          lambda file: waiting_of(file, register).digest == seen)
    except Refused as error:
        return refused(error)
    return done("used")


@screen.post("/drop")
@needs(RECORD)
def drop() -> Answer:
    """Removes a file that waits."""
    large()
    try:
        parts().areas.drop(person().name, number_in())
    except Refused as error:
        return refused(error)
    return done("removed")
