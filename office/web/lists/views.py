"""The lists of an office: each with its options, what of it is to be seen, on paper, as an Excel
file and as CSV; and the views that a person has saved.
"""
import dataclasses
import datetime
import urllib.parse
from collections.abc import Collection, Sequence
from typing import Any

import flask
from register_files import Refused
from werkzeug.datastructures import MultiDict
from werkzeug.wrappers import Response

from office.core import texts
from office.core.days import today
from office.core.model import Register
from office.core.wording import sentence
from office.files import book
from office.files.book import Page
from office.web.answers import entries as answers
from office.web.letters.whom import CHILDREN
from office.web.machinery import tables
from office.web.people import guard
from office.web.people.guard import needs, parts, person
from office.web.people.roles import READ, RECORD
from office.web.schools import flags
from office.web.schools.views.schools import attachment, title_of

from . import on_screen, worklists
from . import choice as list_choice
from .choice import Choice
from .register_rows import Cell, Rows
from .saved import Views

screen = flask.Blueprint("lists", __name__, url_prefix="/lists")
Answer = str | Response | tuple[str, int]
Address = dict[str, str | list[str]]
# the lists whose children are ticked, to be put into a batch or written to; of so many at once
TICKED, MOST_TICKED, SCHOOL = ("no-answer", "unplaced", "list"), 500, "school"
SAID = {"saved": "The view is saved.", "removed": "The view is removed."}


def views() -> Views:
    """The saved views."""
    return Views(parts().store)


@screen.get("/")
@needs(READ)
def show() -> Answer:
    """The names of all lists, and the views that were saved."""
    return index(SAID.get(flask.request.args.get("said", ""), ""))


def index(said: str, is_bad: bool = False) -> str:
    """The first page of the lists."""
    rows = [(it, on_screen.title(it), on_screen.purpose(it)) for it in on_screen.NAMES]
    saved = [(it, f"{flask.url_for('lists.one', name=it.name)}?{it.address}",
              on_screen.title(it.name))
             for it in views().of(person().name) if it.name in on_screen.NAMES]
    return flask.render_template("lists.html", rows=rows, saved=saved, said=said, is_bad=is_bad)


@dataclasses.dataclass
class Asked:
    """A list that somebody asks for: its options, what of it was chosen, what is wrong with that,
    and all its rows, or none where it is not whole yet; and the same in an address.
    """

    register: Register
    name: str
    options: list[on_screen.Option]
    choice: Choice
    wrong: dict[str, str]
    all_rows: Rows
    address: Address

    @property
    def rows(self) -> Rows:
        """The rows that were chosen, with the header."""
        return list_choice.chosen(self.choice, self.all_rows, self.register)

    @property
    def sort(self) -> tuple[str, str]:
        """The column that gives the order, and from which end."""
        end = tables.DOWN if self.choice.is_down else tables.UP
        return (self.choice.order, end) if self.choice.order else ("", "")

    @property
    def is_wrong(self) -> bool:
        """Whether something of what was asked for cannot be."""
        return bool(self.wrong) or any(it.wrong for it in self.options)

    @property
    def words(self) -> list[str]:
        """What it is of, and which rows."""
        return [it.words for it in self.options if it.words] + self.choice.in_words()


def asked(name: str, given: MultiDict[str, str]) -> Asked:
    """The list of an address."""
    if name not in on_screen.NAMES:
        flask.abort(404)
    register: Register = parts().desk.register()
    options, values = on_screen.options(register, name, given, today())
    choice, wrong, rows = list_choice.of_address(given), dict[str, str](), Rows()
    if on_screen.is_whole(name, options, values):
        try:
            rows = on_screen.rows_of(register, name, values, flags.present())
            wrong = list_choice.wrong(choice, rows, register)
        except Refused as error:
            wrong["list"] = sentence(str(error))
    # (a day that was not typed is the day of today, also when the address is used later)
    address: Address = {it.name: it.given for it in options if given.get(it.name, "").strip()}
    return Asked(register, name, options, choice, wrong, rows, address | choice.address())


@screen.get("/<name>")
@needs(READ)
def one(name: str) -> Answer:
    """A list."""
    return page(asked(name, flask.request.args), flask.request.args.get("page", ""))


def page(
    found: Asked, number: str, said: str = "", status: int = 200, typed: str = "",
    ticked: Collection[str] = (),
) -> Answer:
    """The page of a list, with what was typed and ticked."""
    is_shown = bool(found.all_rows) and not found.wrong
    rows: Rows = found.rows if is_shown else [[]]
    shown, header = tables.paged(rows[1:], number), rows[0]
    columns = [str(it) for it in found.all_rows[0]] if found.all_rows else []
    states = list_choice.states(found.all_rows) if found.all_rows else []
    return flask.render_template(
        "list.html", name=found.name, title=on_screen.title(found.name),
        purpose=on_screen.purpose(found.name), options=found.options, is_typed=on_screen.TYPED,
        choice=found.choice, wrong=found.wrong, address=found.address, columns=columns,
        states=[(it, on_screen.state(it)) for it in states],
        orders=[(it, on_screen.head(it)) for it in columns],
        has_children=bool(found.all_rows) and on_screen.CHILD in found.all_rows[0],
        has_schools=bool(found.all_rows) and list_choice.has_schools(found.all_rows),
        schools=on_screen.choices(found.register, "school"), heads=heads(found, header, shown.rows),
        sort=found.sort,
        is_shown=is_shown, count_all=len(found.all_rows) - 1, count_found=len(rows) - 1,
        page=shown, words=found.words, today=today(), said=said, typed=typed,
        time=f"{datetime.datetime.now():%H:%M}",
        page_address=flask.url_for("lists.one", name=found.name, page=0, **values_of(found)
                                   ).replace("%", "%%").replace("page=0", "page=%s"),
        ticks=ticks_of(found, header, shown.rows), ticked=ticked,
        ticked_all=flask.request.args.get("tick") == "all",
        query=urllib.parse.urlencode(found.address, doseq=True),
        rows=[on_screen.shown(header, row, found.register) for row in shown.rows],
    ), 400 if found.is_wrong and status == 200 else status


def heads(
    found: Asked, header: list[Cell], rows: Sequence[list[Cell]],
) -> list[dict[str, str]]:
    """The columns that are shown: each with the address of the list in its order."""
    others = {name: value for name, value in found.address.items()
              if name not in ("order", "down")}
    made = []
    for at, it in enumerate(header):
        name = str(it)
        is_next_down = found.sort == (name, tables.UP)
        way = {"order": name, **({"down": "yes"} if is_next_down else {})}
        values: dict[str, Any] = {**others, **way}
        kind = "number" if any(isinstance(row[at], int) for row in rows) else ""
        made.append({"name": name, "title": on_screen.head(name), "kind": kind,
                     "href": flask.url_for("lists.one", name=found.name, **values)})
    return made


def values_of(found: Asked) -> dict[str, Any]:
    """What is in the address of a list."""
    return dict(found.address)


@dataclasses.dataclass(frozen=True)
class Tick:
    """The box of a row: its value, and whom it is of."""

    value: str
    label: str


def ticks_of(found: Asked, header: list[Cell], rows: Sequence[list[Cell]]) -> list[Tick]:
    """The boxes of the rows of a page, of a list whose children are chosen from it."""
    if found.name not in TICKED or on_screen.CHILD not in header:
        return []
    at, school = header.index(on_screen.CHILD), (
        header.index(SCHOOL) if SCHOOL in header else None)
    made = []
    for row in rows:
        child, code = row[at], str(row[school]) if school is not None else ""
        name = found.register.children[child].name if isinstance(child, int) else ""
        label = texts.visible(f"{child} {name} {code}".strip())
        made.append(Tick(f"{child} {code}".strip(), label))
    return made


@screen.post("/<name>/ticked")
@needs(READ)
def ticked(name: str) -> Answer:
    """Puts the children that were ticked into the batch of the person, or leads to the question of
    their letters.
    """
    form = flask.request.form
    found = asked(name, MultiDict(urllib.parse.parse_qsl(form.get("query", ""))))
    if name not in TICKED or found.is_wrong or not found.all_rows:
        flask.abort(404)
    given = dict.fromkeys(form.getlist("row"))
    header, *rows = found.all_rows
    there = {it.value for it in ticks_of(found, header, rows)}
    chosen = [it.partition(" ") for it in given if it in there]
    number = form.get("page", "")
    if not chosen or len(chosen) < len(given):
        said = "The list has changed: look at it, and tick again." if given else (
            "Nothing is ticked.")
        return page(found, number, said, 409, ticked=given)
    if len(chosen) > MOST_TICKED:
        return page(found, number, f"Tick at most {MOST_TICKED} rows at once.", 409, ticked=given)
    if form.get("to") == "letters":
        children = ",".join(dict.fromkeys(it[0] for it in chosen))
        return flask.redirect(flask.url_for("letters.whom", whom=CHILDREN, value=children), 303)
    if not person().may(RECORD):
        flask.abort(403)
    meant = [it for child, _, school in chosen
             for it in answers.unanswered(found.register, int(child), school)]
    piles, who = parts().piles, person().name
    there_now = {(it.meant.child, it.meant.school) for it in piles.left(who)}
    try:
        if not meant:
            raise Refused("none of those ticked has an offer or waits for a place")
        piles.add(who, found.register,
                  [it for it in meant if (it.child, it.school) not in there_now])
    except Refused as error:
        return page(found, number, f"Nothing was put into your batch: {error}.", 409, ticked=given)
    return flask.redirect(flask.url_for("answers.show"), 303)


def whole(name: str) -> Asked:
    """A list of an address that can be made, for a file."""
    found = asked(name, flask.request.args)
    if found.is_wrong or not found.all_rows:
        flask.abort(400, "choose what the list is of first")
    return found


@screen.get("/<name>/workbook")
@needs(READ)
def workbook(name: str) -> Response:
    """The same as an Excel file."""
    found = whole(name)
    pages = [Page(name, on_screen.purpose(name), found.rows)]
    title = ", ".join([on_screen.title(name), *found.words])
    return attachment(book.data(pages, title_of(found.register, title)), name)


@screen.get("/<name>/csv")
@needs(READ)
def csv(name: str) -> Response:
    """The same as CSV for a spreadsheet."""
    headers = {"Content-Disposition": f'attachment; filename="{name}.csv"'}
    return flask.Response(worklists.csv_text(whole(name).rows), mimetype="text/csv",
                          headers=headers)


@screen.post("/<name>/save")
@needs(READ)
def save(name: str) -> Answer:
    """Saves what was chosen of a list by a name."""
    form = flask.request.form
    given = MultiDict(urllib.parse.parse_qsl(form.get("query", "")))
    found, title = asked(name, given), form.get("title", "").strip()
    address = urllib.parse.urlencode(found.address, doseq=True)
    try:
        views().save(person().name, title, name, address)
    except Refused as error:
        return page(found, "", sentence(str(error)), 422, title)
    guard.record_few("saved a view", view=title, list=name)
    return flask.redirect(flask.url_for("lists.show", said="saved"), 303)


@screen.post("/views/<int:number>/remove")
@needs(READ)
def remove(number: int) -> Answer:
    """Removes a view."""
    try:
        title = views().remove(person().name, number)
    except Refused as error:
        return index(sentence(str(error)), True), 409
    guard.record_few("removed a view", view=title)
    return flask.redirect(flask.url_for("lists.show", said="removed"), 303)
