"""The staging table is stored in the register: what would be stored is shown whole, and is
confirmed by a button that names how much it is.
"""
import flask
from register_files import Refused
from werkzeug.wrappers import Response

from office.core.wording import sentence
from office.web.machinery import tables
from office.web.machinery.outbox import DONE, FAILED
from office.web.machinery.tables import Paged
from office.web.people.guard import needs, parts, person
from office.web.people.roles import RECORD

from .. import fault_kinds, latest
from .. import page as staging_page
from ..commit import Commit
from ..imports import REFUSED, Import
from ..latest import said_of_saved
from ..rows import OPEN, Staged
from ..table_check import Checked
from ..tools import is_collecting, tools

screen = flask.Blueprint("applications_commit", __name__, url_prefix="/applications/commit")
Answer = str | Response | tuple[str, int]
# so many rows that will not be added are named
MOST_NAMED = 50


def page(text: str = "", failed: Import | None = None) -> Answer:
    """What would be stored, with what came of an attempt, or what was done last with the table; or
    that it is being stored.
    """
    committing, staging, args = tools().committing, tools().staging, flask.request.args
    committing.look()
    # (before the table is read: what ends meanwhile is in it)
    work, unknown, found = committing.under_way(), committing.unknown(), None
    said, failed = [text] if text else [], failed or committing.imports.failed()
    try:
        # (while the register is copied it cannot be read; it is read wholly before it is stored)
        found = None if work else committing.found(parts().desk.register())
    except Refused as error:
        said.append(f"The register does not answer: {error}.")
    status = 409 if said else 200
    if failed and not said:
        said = [failed.said]
    done, last = latest.last(staging, args), committing.imports.last()
    did = [said_of_saved(found.table, done.saved) if found else "", done.text]
    if last and last.state == DONE and str(last.number) == args.get("adding"):
        did = [latest.said_of_added(staging, last.entries, len(last.out))]
    body = flask.render_template(
        "applications_commit.html", said=" ".join(said or filter(None, did)), is_bad=bool(said),
        undo=latest.undo_of(staging, args), found=found, work=work, unknown=unknown,
        closed=parts().desk.closed(), columns=staging_page.columns(),
        refused=refused_in(found) if found and failed and failed.sent else None,
        title_of=staging_page.title_of, names=names_of(found) if found else [],
        aside=fault_kinds.aside(found.wrong) if found else None,
        rows=rows_of(found) if found else None,
        address=tables.pages("applications_commit.show"),
        read_as=[(it.name, it.changes) for it in staging.files() if it.changes and it.counts[OPEN]],
        most_named=MOST_NAMED, may_change=found is not None and is_collecting(found.register))
    return body, status


def rows_of(found: Commit) -> Paged[Checked]:
    """The rows that would be stored: those of one part whole, and of several by pages."""
    most = len(found.rows) if len(found.parts) < 2 else 0
    return tables.paged(found.rows, flask.request.args.get("page", "1"), most)


def refused_in(found: Commit) -> Staged | None:
    """The row that the register has refused, until it is saved again."""
    return next((it for it in found.wrong if any(note.fault == REFUSED for note in it.notes)), None)


def names_of(found: Commit) -> list[tuple[str, int]]:
    """The schools of first preferences by code and name, each with its number."""
    schools = found.register.schools
    return [(f"{code} {schools[code].name}" if code in schools else code, many)
            for code, many in found.counts.first.items()]


@screen.get("/")
@needs(RECORD)
def show() -> Answer:
    """What would be stored."""
    return page()


@screen.post("/")
@needs(RECORD)
def store() -> Answer:
    """Stores what was shown, and says what came of it, or that it goes on."""
    try:
        found = tools().committing.send(person(), flask.request.form.get("digest", ""))
    except Refused as error:
        return page(sentence(str(error)))
    if found.state == FAILED:
        return page(found.said, found)
    if found.is_open:
        to = flask.url_for("applications_commit.show", adding=found.number)
    else:
        to = flask.url_for("applications.show", done=found.entries, out=len(found.out) or None)
    return flask.redirect(to, 303)
