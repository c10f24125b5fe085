"""The points of applications in the staging table: which are missing, approximate or to be asked
about, and what is done about each.
"""
from collections.abc import Mapping

import flask
from register_files import Refused
from werkzeug.wrappers import Response

from office.core import texts
from office.web.machinery import tables
from office.web.people.guard import needs, person
from office.web.people.roles import RECORD

from .. import points, row_points
from ..page import PAGE
from ..points import POSTCODE, PROPERTY, TYPED
from ..row_points import Keys, Looked
from ..rows import OPEN, Staged
from ..staging import Meanwhile
from ..tools import number_in, table_now, tools

screen = flask.Blueprint("points", __name__, url_prefix="/applications/points")
Answer = str | Response | tuple[str, int]
LOOK, SAVE, TAKE, KEEP = "look", "save", "take", "keep"
# the fields that name a column
FIELDS = {PROPERTY: "property-column", POSTCODE: "postcode-column"}


@screen.get("/")
@needs(RECORD)
def show() -> Answer:
    """The rows to see to, and what was done last."""
    args = flask.request.args
    said = ""
    if number := number_in(args, "row"):
        said = said_of(tools().staging.row(number))
    elif "found" in args:
        said = Looked(*(number_in(args, it) for it in ("found", "codes", "missing", "asked"))).words
    return page(said)


def said_of(row: Staged) -> str:
    """What is said of a row that was changed: its point, and what was not found."""
    at = [f"the point is {row.cells['east']}, {row.cells['north']}, {row.point_words}"] if (
        points.has_any(row.cells)) else []
    missed = () if row.point.source == TYPED else row.point.said
    return f"{row.where}: {'; '.join([*at, *missed]) or 'it has no point'}."


def page(said: str = "", status: int = 200, typed: Mapping[str, str] | None = None,
         number: int = 0) -> Answer:
    """The rows. One that could not be changed is the first, with what was typed for it."""
    found = tools().points
    rows = tools().staging.rows(OPEN)
    meant = [it for it in rows if row_points.needs_look(it) or it.id == number]
    meant.sort(key=lambda it: (it.id != number, points.has_any(it.cells), it.file, it.number))
    last = max(1, -(-len(meant) // PAGE))
    at = min(max(number_in(flask.request.args, "page", 1), 1), last)
    columns = found.guessed(rows)
    names = dict.fromkeys([*(name for it in rows for name in it.others), *columns.values()])
    body = flask.render_template(
        "points.html", said=said, is_bad=status != 200, rows=len(rows), many=len(meant),
        lines=[line_of(it, columns, typed if it.id == number else None)
               for it in meant[(at - 1) * PAGE:at * PAGE]],
        at=at, last=last, address=tables.pages("points.show"),
        summaries=found.gazetteer.summaries(),
        names=[("", "none"), *((it, texts.cut(it)) for it in names if it)],
        columns=columns, is_chosen=bool(found.columns()), fields=FIELDS,
        far=points.DIFFER_METRES, is_ready=bool(said) and not meant and is_ready())
    return body, status


def is_ready() -> bool:
    """Whether the table has rows, and nothing is wrong in any of them."""
    table, _ = table_now()
    return bool(table.rows) and not table.wrong()


def line_of(row: Staged, columns: Mapping[str, str],
            typed: Mapping[str, str] | None) -> dict[str, object]:
    """A row as it is shown, with what was typed for it."""
    keys = tools().points.keys_of(row, columns)
    shown = {"property": keys.number, "postcode": keys.code, "east": row.cells["east"],
             "north": row.cells["north"]}
    return {"row": row, "values": {it: (typed or {}).get(it, text) for it, text in shown.items()},
            "said": list(points.findings(row.point, row.cells)) or ["no point"],
            "can_take": bool(points.question(row.point, row.cells)),
            "can_keep": points.metres_of(row.cells) is not None}


@screen.post("/look")
@needs(RECORD)
def look() -> Answer:
    """Looks up the points of all rows, by the columns that were chosen."""
    form, found, who = flask.request.form, tools().points, person().name
    try:
        if not found.gazetteer.summaries():
            raise Refused("there is no gazetteer yet")
        found.choose(who, {what: form.get(name, "") for what, name in FIELDS.items()})
        came = found.fill(who)
    except Refused as error:
        return page(f"Nothing was changed: {error}.", 409)
    return flask.redirect(flask.url_for(
        "points.show", found=came.by_property, codes=came.by_postcode, missing=came.missing,
        asked=came.asked), 303)


@screen.post("/row/<int:number>")
@needs(RECORD)
def change(number: int) -> Answer:
    """The point of one row: looked up again, typed, taken from the gazetteer, or kept."""
    form, found, who = flask.request.form, tools().points, person().name
    what, version = form.get("what", LOOK), number_in(form, "version")
    try:
        if what == SAVE:
            found.type(who, number, version, {it: form.get(it, "") for it in ("east", "north")})
        elif what in (TAKE, KEEP):
            found.decide(who, number, version, what == TAKE)
        else:
            found.look_up(who, number, version,
                          Keys(form.get("property", ""), form.get("postcode", "")))
    except Refused as error:
        more = " What you typed is kept below." if isinstance(error, Meanwhile) else ""
        return page(f"Nothing was changed: {error}.{more}", 409, form, number)
    return flask.redirect(
        flask.url_for("points.show", row=number, page=flask.request.args.get("page")), 303)
