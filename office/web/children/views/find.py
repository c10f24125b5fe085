"""One search for children and schools, from the head of every screen."""
import collections
import dataclasses
import datetime
from collections.abc import Mapping, Sequence

import flask
from werkzeug.wrappers import Response

from office.core import texts
from office.core.model import Child, Register, School
from office.core.wording import KINDS
from office.web.lists import register_rows
from office.web.machinery import tables
from office.web.machinery.tables import Column
from office.web.people.guard import needs, parts, person
from office.web.people.roles import READ, RECORD

from ..actions import first_of

screen = flask.Blueprint("find", __name__)
# so many are suggested while one types, and on a page of what was found
MOST_NEAR, MOST_SHOWN = 8, 50
# what is a column only where somebody has it
MAY_LACK = ("present", "address")


@dataclasses.dataclass(frozen=True)
class Found:
    """The children and the schools of a text."""

    children: Sequence[Child] = ()
    schools: Sequence[School] = ()

    def addresses(self, register: Register) -> list[tuple[str, str]]:
        """Each in words, with the address of its screen: children of one name with their first
        preferences.
        """
        names = collections.Counter(texts.folded(it.name) for it in self.children)

        def words(it: Child) -> str:
            first = first_of(register, it) if names[texts.folded(it.name)] > 1 else ""
            more = f", first preference {first}" if first else ""
            return f"{it.name}, child {it.number}{more}"

        return [
            *((words(it), flask.url_for("child.show", number=it.number)) for it in self.children),
            *((f"{it.name}, school {it.code}", flask.url_for("schools.one", code=it.code))
              for it in self.schools)]


def found(register: Register, text: str) -> Found:
    """The children of a name or a number, and the schools of a name or a code."""
    children = {number: it.name for number, it in register.children.items()}
    schools = {code: it.name for code, it in register.schools.items()}
    for may_differ in (False, True):
        made = Found(
            [register.children[it] for it in register_rows.of_text(children, text, may_differ)],
            [register.schools[it] for it in register_rows.of_text(schools, text, may_differ)])
        if made.children or made.schools:
            break
    return made


@dataclasses.dataclass(frozen=True)
class Row:
    """A child of the list, with what a caller can be asked: its present school, its first
    preference, its place and the address that letters go to, as far as each is known; and whether
    another child of the list has the same name.
    """

    number: int
    name: str
    present: str
    first: str
    school: str
    kind: str
    address: str
    applied: datetime.date | None
    is_namesake: bool


def rows_of(
    register: Register, found: Sequence[Child], addresses: Mapping[int, Sequence[str]], text: str,
) -> list[Row]:
    """The rows of children: first those whose whole name is the text."""
    names = collections.Counter(texts.folded(it.name) for it in found)
    rows = []
    for it in found:
        application, place = register.applications.get(it.number), register.places.get(it.number)
        rows.append(Row(
            it.number, it.name, it.present, first_of(register, it),
            register.schools[place.school].name if place else "",
            KINDS[place.kind] if place else "", ", ".join(addresses.get(it.number, ())),
            application.day if application else None, names[texts.folded(it.name)] > 1))
    whole = texts.folded(text)
    return sorted(rows, key=lambda it: texts.folded(it.name) != whole)


COLUMNS: dict[str, Column[Row]] = {
    "number": Column("Number", "number", lambda it: it.number),
    "name": Column("Name", "", lambda it: it.name),
    "present": Column("Present school", "", lambda it: it.present),
    "first": Column("First preference", "", lambda it: it.first),
    "place": Column("Place now", "", lambda it: it.school),
    "address": Column("Address", "", lambda it: it.address),
    "applied": Column("Applied", "", lambda it: it.applied),
}


def asked() -> str:
    """What was typed."""
    return flask.request.args.get("q", "").strip()[:texts.MOST_SOUGHT]


@screen.get("/find")
@needs(READ)
def show() -> str | Response:
    """What a text finds: the one, or a list."""
    if not (text := asked()):
        return flask.render_template("find.html", text="", schools=())
    register = parts().desk.register()
    made = found(register, text)
    if len(made.children) + len(made.schools) == 1:
        return flask.redirect(made.addresses(register)[0][1])
    # (the register has no address, and who only reads sees nothing that it does not have)
    addresses = parts().letters.addresses.all() if person().may(RECORD) else {}
    rows = rows_of(register, made.children, addresses, text)
    # (what nobody of them has is no column)
    columns = {name: it for name, it in COLUMNS.items()
               if name not in MAY_LACK or any(getattr(row, name) for row in rows)}
    table = tables.table(columns, rows)
    return flask.render_template(
        "find.html", text=text, children=table, has=columns, schools=made.schools,
        shown=tables.paged(table.rows, flask.request.args.get("page", ""), MOST_SHOWN),
        namesakes=sum(it.is_namesake for it in rows), address=tables.pages("find.show", q=text))


@screen.get("/find/near")
@needs(READ)
def near() -> Response:
    """What a text finds, for suggestions while one types: of each its words and its address."""
    text = asked()
    register = parts().desk.register()
    made = found(register, text) if text else Found()
    near_first = Found(made.children[:MOST_NEAR], made.schools[:MOST_NEAR])
    return flask.jsonify(near_first.addresses(register)[:MOST_NEAR])
