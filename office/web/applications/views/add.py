"""A child that is typed into a form, and goes into the staging table."""
import flask
from register_files import Refused
from werkzeug.wrappers import Response

from office.core.model import Register
from office.core.rules import LIMITS
from office.web.people.guard import needs, parts, person
from office.web.people.roles import RECORD

from .. import row_points
from .. import form as staging_form
from .. import page as staging_page
from ..row_check import LOOK
from ..row_points import Keys
from ..rows import COMMITTED, OPEN, SENDING
from ..table_check import Table, said
from ..tools import number_in, numbers_taken, register_now, table_now, tools

screen = flask.Blueprint("applications_add", __name__, url_prefix="/applications/add")
Answer = str | Response | tuple[str, int]


def free_number(register: Register | None) -> int | None:
    """The number that is proposed for the next child."""
    return staging_form.next_free(numbers_taken(register))


@screen.get("/")
@needs(RECORD)
def show() -> Answer:
    """The form, and which child was added last."""
    number, text = number_in(flask.request.args, "added"), ""
    if number:
        table, _ = table_now()
        found = tools().staging.row(number)
        looks = [said(it) for it in table.findings.get(number, []) if it.kind == LOOK]
        text = " ".join([f"{found.cells['name']} is added with the number"
                         f" {found.cells['child']}, and with the point {found.point_words}.",
                         *(f"To look at: {it}." for it in looks)])
    return page(None, text)


def page(cells: dict[str, str] | None, text: str = "", table: Table | None = None,
         keys: Keys = Keys(), point: str = "") -> Answer:
    """The form: empty, or with what was typed, what is wrong in it, and what was looked up."""
    register, reason = register_now()
    free = free_number(register)
    typed = cells or staging_form.cells_of({"child": str(free or "")})
    row = staging_form.typed_row(typed, person().name)
    found = {it.column: it for it in staging_page.cells_of(row, table, {}, True)}
    is_large = register is not None and register.is_large
    areas = parts().areas.map(register.schools) if register and is_large else None
    body = flask.render_template(
        "applications_add.html", cells=found, said=text, is_bad=table is not None, reason=reason,
        preferences=list(zip(staging_form.PREFERENCES, staging_form.preferences_of(typed))),
        proposed=free or "", most_flag=LIMITS["flag"].most, keys=keys, point=point,
        is_large=is_large, areas=areas.source if areas else "",
        wrong=next((it.column for it in found.values() if it.is_wrong), "name"),
        errors=[(f"#{staging_form.first_field(it.column)}", f"{it.title}: {text}")
                for it in found.values() for style, text in it.found if style == "error"],
        schools=[register.schools[it] for it in sorted(register.schools)] if register else [])
    return body, 409 if table is not None else 200


@screen.post("/")
@needs(RECORD)
def add() -> Answer:
    """Adds a child. Where something is wrong the form is shown again, with what was typed."""
    form, staging, who = flask.request.form, tools().staging, person().name
    keys = Keys(form.get("property_number", ""), form.get("postcode", ""))
    typed = staging_form.cells_of(form)
    with tools().points.gazetteer.looking() as lookup:
        cells, point = row_points.typed_point(typed, keys, lookup)
    told = "; ".join(row_points.said_in_form(cells, point, keys))
    if form.get("what") == "look":
        return page(cells, "", None, keys, told)
    register, _ = register_now()
    with staging.lock:
        if cells["child"] in ("", form.get("proposed", "")):
            # (by a second click, or by Back: the next number would make another child of it)
            if there := staging_form.same(staging.rows(OPEN, SENDING, COMMITTED), cells):
                return flask.redirect(
                    flask.url_for("applications_add.show", added=there.id), 303)
            # (which somebody else may have got meanwhile)
            cells["child"] = str(free_number(register) or "")
        table = tools().checker.table(
            staging.rows(OPEN), register, staging_form.typed_row(cells, who))
        if table.has_error(0):
            return page(cells, "It is not added yet: see what is wrong.", table, keys, told)
        try:
            number = staging.add_form(who, cells, keys.others, point)
        except Refused as error:
            return page(cells, f"It is not added: {error}.", table, keys, told)
    return flask.redirect(flask.url_for("applications_add.show", added=number), 303)
