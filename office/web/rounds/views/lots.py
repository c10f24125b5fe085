"""Lots, for the supervisor alone: a table to type them in, a sheet to upload, a seed for those that
decide nothing, and the seal.
"""
import contextlib
import dataclasses
import re
from collections.abc import Container, Mapping, Sequence
from typing import Any

import flask
from register_files import Refused
from werkzeug.wrappers import Response

from office.core import texts
from office.web.machinery import numbers
from office.web.people.guard import needs, parts, person
from office.web.people.roles import LOTS as RIGHT

from .. import again, lot_sheets, lot_sheets_apart, second
from ..drafts import Typed
from ..draws import case_of
from ..lots import MISSING, MOST_SEED, MOST_TEXT, Cell, Sheet, errors_of_sheet
from ..second import Case
from ..store import BEGAN
from ..terms import GIVEN_UP, LOTS, Draw

screen = flask.Blueprint("lots", __name__, url_prefix="/lots")
Answer = str | Response | tuple[str, int]
# so many cells are on a page, and so many errors of a sheet are shown
CELLS, SHOWN = 300, 50
FIELD = re.compile("lot-([A-Z0-9]{1,8})-([1-9][0-9]{0,6})-([0-9]{1,3})")
KINDS = {"xlsx": "application/vnd.openxmlformats-officedocument.spreadsheetml.sheet",
         "csv": "text/csv"}


def field_of(cell: Cell) -> str:
    """The name of a cell's field."""
    (code, child), at = cell
    return f"lot-{code}-{child}-{at}"


def typed_now() -> dict[Cell, Typed]:
    """What the form of a page has."""
    form, found = flask.request.form, {}
    for name, text in form.items():
        if field := FIELD.fullmatch(name):
            cell = (field[1], int(field[2])), int(field[3])
            found[cell] = Typed(form.get(f"was-{name}", ""), text)
    return found


@screen.get("/")
@needs(RIGHT)
def show() -> Answer:
    """The lots that are drawn, and those that were."""
    return flask.render_template("lots.html", draws=parts().lots.listed())


def found_sheet(number: int) -> tuple[Draw, Sheet]:
    """A draw and its lots; or the answer that there are none, or that they are not for the person.
    """
    try:
        draw, sheet = parts().lots.sheet(number)
    except Refused:
        flask.abort(404)
    if said := not_own(draw):
        flask.abort(403, said)
    return draw, sheet


def whole_page(number: int, reason: str = "", status: int = 200, said: str = "") -> Answer:
    """All lots, to be sealed, or as they were sealed."""
    shown = {**whole_of(*found_sheet(number)), "reason": reason, "said": said}
    return flask.render_template("lots_one.html", **shown), status


def whole_of(draw: Draw, sheet: Sheet) -> dict[str, Any]:
    """All lots of a draw, as a page shows them."""
    wrong = sheet.wrong()
    text = "" if wrong else sheet.text()
    return {
        "lots": "all", "draw": draw, "sheet": sheet, "reason": "", "said": "", "wrong": wrong,
        "kept": kept_of(draw, sheet), "digest": "" if wrong else sheet.digest(),
        "head": text.split("\n")[0], "first": text.split("\n")[1:2],
        "may_seal": draw.state == LOTS and not wrong,
    }


def waiting() -> dict[str, Any]:
    """What the first screen has of the lots that the person draws now: the table, or all of them to
    be sealed, as their own page has them; or nothing.
    """
    present = parts().draws.present()
    if present is None or present.state != LOTS or not_own(present):
        return {"lots": "", "reason": ""}
    draw, sheet = parts().lots.sheet(present.number)
    return table_of(draw, sheet, 1, {}) if sheet.wrong() else whole_of(draw, sheet)


def kept_of(draw: Draw, sheet: Sheet) -> set[Cell]:
    """The cells whose lots were sealed in the draw that this one repeats."""
    return again.kept(parts().draws, draw).keys() & sheet.cells().keys()


def not_own(draw: Draw) -> str:
    """Why the person is none who draws the lots of a draw, and sees them before the seal; or "". If
    it is cancelled before, the next one has the same lots.
    """
    if draw.state == LOTS:
        case, then = case_of(draw), ("Another supervisor draws and seals the lots, or the office"
                                     f" cancels {draw.name} and begins again")
    elif draw.state == GIVEN_UP and not draw.digest:
        case, then = case_first(draw), "These lots were never sealed, and are not shown to you"
    else:
        return ""
    said = second.hindered(parts().history, person().name, case)
    return f"{said}. {then}" if said else ""


def case_first(draw: Draw) -> Case:
    """Who has a part in a draw since one of its kind was begun first."""
    with parts().history.lock:
        entries = list(parts().history.entries)
    # (an earlier release named a draw in its begin as in the text that is sealed)
    same = (draw.name, draw.terms.first), (draw.terms.sealed, None)
    began = next((it.number for it in entries if it.what == BEGAN
                  and (it.about.get("for"), it.about.get("draw")) in same), BEGAN)
    return dataclasses.replace(case_of(draw), began=began)


def sheet_page(
    number: int, said: str = "", reason: str = "", errors: Sequence[str] = (), status: int = 200,
    shown: int | None = None,
) -> Answer:
    """A page of the table."""
    draw, sheet = found_sheet(number)
    if draw.state != LOTS:
        return whole_page(number, reason, status)
    found = table_of(draw, sheet, shown or page_asked(), typed_now() if reason else {})
    found |= {"said": said, "reason": reason, "errors": errors}
    return flask.render_template("lots_one.html", **found), status


def table_of(
    draw: Draw, sheet: Sheet, shown: int, typed: Mapping[Cell, Typed],
) -> dict[str, Any]:
    """A page of the table of a draw, with what was typed there and not kept."""
    wrong, kept = sheet.wrong(), kept_of(draw, sheet)
    per_page = max(1, CELLS // draw.terms.fills)
    pages = max(1, -(-len(sheet.rows) // per_page))
    at = max(1, min(pages, shown))
    rows = sheet.rows[per_page * (at - 1):per_page * at]
    return {
        "lots": "table", "draw": draw, "said": "", "reason": "", "errors": (),
        "rows": [row_of(it, wrong, typed, kept) for it in rows], "kept": kept, "at": at,
        "pages": pages, "wrong": wrong,
        "missing": sum(it == MISSING for it in wrong.values()), "seeds": sheet.seeds(),
        "ties": sum(it.tie > 0 for it in sheet.rows), "count_all": len(sheet.rows),
        "free": free_cells(sheet), "most_lot": lot_sheets.MOST_LOT, "most_text": MOST_TEXT,
        "most_seed": MOST_SEED,
    }


def said_now() -> str:
    """What was done before this page, as its address counts it."""
    lots, other = (numbers.read(flask.request.args.get(it, "")) for it in ("lots", "changed"))
    done = flask.request.args.get("done", "") if lots >= 0 else ""
    if done == "saved":
        return f"{texts.count(lots, 'lot')} saved." if lots else (
            "What is on this page is saved.")
    if done == "drawn":
        return f"{texts.count(lots, 'lot is', 'lots are')} drawn by the seed."
    if done == "taken" and other >= 0:
        return f"The file has {texts.count(lots, 'lot')}: {other:,} new or changed."
    return ""


def kept(
    number: int, done: str, lots: int, shown: int = 1, is_table: bool = False, **more: int
) -> Response:
    """Leads to the table, or to all lots to be sealed where each pair has its lot, which says what
    was done: an address of its own, so that Back from there sends nothing again.
    """
    address: dict[str, Any] = {"number": number, "done": done, "lots": lots, **more}
    if is_table or found_sheet(number)[1].wrong():
        return flask.redirect(flask.url_for("lots.one", page=shown, **address), 303)
    return flask.redirect(flask.url_for("lots.whole", **address), 303)


def free_cells(sheet: Sheet) -> int:
    """How many lots may be drawn by a seed."""
    return sum(not text for row in sheet.rows if not row.tie for text in row.typed)


def row_of(
    row: Any, wrong: dict[Cell, str], typed: Mapping[Cell, Typed], kept: Container[Cell],
) -> dict[str, Any]:
    """A row as the page shows it: what was typed, also where it was not kept."""
    cells = []
    for at, stored in enumerate(row.typed):
        cell = row.pair, at
        given = typed.get(cell)
        is_other = given is not None and given.text.strip() not in (stored, given.was)
        cells.append({
            "name": field_of(cell), "is_kept": cell in kept, "stored": stored,
            "seed": row.seeds[at],
            "text": given.text if given and is_other else stored,
            "wrong": wrong.get(cell, "") if not is_other else "",
            "other": f"'{stored or 'nothing'}' is saved here" if is_other else "",
        })
    return {"school": row.pair[0], "child": row.pair[1], "tie": row.tie, "cells": cells}


def page_asked() -> int:
    """The page of the table that is asked for."""
    text = flask.request.values.get("page", "1")
    return int(text) if text.isascii() and text.isdigit() and len(text) < 6 else 1


@screen.get("/<int:number>")
@needs(RIGHT)
def one(number: int) -> Answer:
    """The lots of a draw: the table, or all of them to be sealed where each pair has its lot and no
    page of the table is asked for.
    """
    draw, sheet = found_sheet(number)
    is_table = draw.state == LOTS and (sheet.wrong() or "page" in flask.request.args)
    return sheet_page(number, said_now()) if is_table else whole_page(number, said=said_now())


@screen.post("/<int:number>")
@needs(RIGHT)
def save(number: int) -> Answer:
    """Keeps what was typed on a page, and goes on to the one that was chosen."""
    found_sheet(number)
    try:
        count = parts().lots.save(person(), number, typed_now())
    except Refused as error:
        return sheet_page(number, reason=f"Nothing was saved: {error}.", status=409)
    to = flask.request.form.get("to", "")
    if to == "all":
        return flask.redirect(flask.url_for("lots.whole", number=number), 303)
    # (what is typed is saved without a button too, and is on the table then)
    return kept(number, "saved", count, numbers.read(to, page_asked()), not to)


@screen.post("/<int:number>/seed")
@needs(RIGHT)
def seed(number: int) -> Answer:
    """Draws by a seed those that decide nothing."""
    found_sheet(number)
    try:
        count = parts().lots.draw_by_seed(person(), number, flask.request.form.get("seed", ""))
    except Refused as error:
        return sheet_page(number, reason=f"Nothing was drawn: {error}.", status=409)
    return kept(number, "drawn", count)


@screen.post("/<int:number>/sheet")
@needs(RIGHT)
def upload(number: int) -> Answer:
    """Takes the lots of a sheet, if all its rows are right."""
    draw, sheet = found_sheet(number)
    text = flask.request.form.get("fill", "0")
    fill = int(text) if text.isascii() and text.isdigit() and len(text) < 4 else -1
    given = flask.request.files.get("file")
    try:
        if not given or not given.filename:
            raise Refused("choose a file")
        rows, draws = lot_sheets_apart.rows_of(given.read())
        of = draw.terms.first + fill
        if other := [it for it in draws if it != str(of)]:
            raise Refused(f"the file has lots of draw {texts.shown(other[0])}, and draw {of} is"
                          " chosen under 'Lots of'")
        lots, errors = errors_of_sheet([it.pair for it in sheet.rows], rows)
        if errors:
            count = texts.count(len(errors), "error")
            return sheet_page(number, reason=f"No lot was added: {count} in the file.",
                              errors=errors[:SHOWN], status=409)
        if not lots:
            raise Refused(f"the file has no lot of {draw.name}")
        changed = parts().lots.take(person(), number, fill, lots)
    except Refused as error:
        return sheet_page(number, reason=f"No lot was added: {error}.", status=409)
    return kept(number, "taken", len(lots), changed=changed)


@screen.get("/<int:number>/sheet.<any(xlsx, csv):kind>")
@needs(RIGHT)
def sheet_file(number: int, kind: str) -> flask.Response:
    """An empty sheet for one draw, to be filled in a spreadsheet. Of several draws each has its
    own, whose rows name it.
    """
    draw, sheet = found_sheet(number)
    fill = numbers.read(flask.request.args.get("fill", "0"))
    if not 0 <= fill < draw.terms.fills:
        flask.abort(404)
    of = draw.terms.first + fill
    data = lot_sheets.data(kind == "xlsx", [it.pair for it in sheet.rows],
                           of if draw.terms.fills > 1 else None)
    answer = flask.Response(data, mimetype=KINDS[kind])
    name = f"lots-{of}.{kind}"
    answer.headers["Content-Disposition"] = f"attachment; filename={name}"
    return answer


@screen.get("/<int:number>/seal")
@needs(RIGHT)
def whole(number: int) -> Answer:
    """All lots, before they are sealed or after."""
    return whole_page(number, said=said_now())


@screen.post("/<int:number>/seal")
@needs(RIGHT)
def seal(number: int) -> Answer:
    """Seals the lots that were shown."""
    found_sheet(number)
    seen, digest = (flask.request.form.get(it, "") for it in ("seen", "digest"))
    if not (seen.isascii() and seen.isdigit() and len(seen) < 9):
        flask.abort(400)
    try:
        parts().lots.seal(person(), number, int(seen), digest)
    except Refused as error:
        said = str(error)
        return whole_page(number, f"{said[:1].upper()}{said[1:]}.", 409)
    # (the lots are sealed whatever comes of the rehearsal, which is shown to the office alone)
    with contextlib.suppress(Refused):
        parts().following.begin(person(), number)
    return flask.redirect(flask.url_for("lots.whole", number=number), 303)


@screen.get("/<int:number>/sealed.txt")
@needs(RIGHT)
def sealed_text(number: int) -> flask.Response:
    """The text of which the digest is."""
    draw, sheet = found_sheet(number)
    if not draw.digest:
        flask.abort(404)
    return flask.Response(sheet.text(), mimetype="text/plain")
