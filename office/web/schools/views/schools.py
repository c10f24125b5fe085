"""The schools: all of them, one with its lists, and a raise of its admission number."""
import collections
import dataclasses
import datetime
from collections.abc import Mapping, Sequence
from typing import Any

import flask
from register_files import Refused
from werkzeug.wrappers import Response

from office.core import fields, risks, rules, texts
from office.core.model import Register, School
from office.core.wording import KINDS, classes, sentence
from office.files import book
from office.web.home import tasks as home
from office.web.machinery import numbers, pictures, tables
from office.web.machinery.tables import Column
from office.web.people import guard
from office.web.people.guard import needs, parts, person
from office.web.people.roles import DRAW, LISTS, READ, RECORD
from office.web.register.desk import Seen, seen_of
from office.web.rounds.terms import MOST_FILLS

from .. import flags, home_map, intake
from .. import moves as list_moves
from ..intake import Choice, Held, Last, Row, Waiting

screen = flask.Blueprint("schools", __name__, url_prefix="/schools")
Answer = str | Response | tuple[str, int]
# the columns of the tables, by which their links put them in order
COLUMNS: dict[str, Column[tuple[School, list[str]]]] = {
    "code": Column("Code", "", lambda it: it[0].code),
    "name": Column("Name", "", lambda it: it[0].name),
    "number": Column("Admission number", "number", lambda it: it[0].pan),
    "held": Column("Places held", "number", lambda it: it[0].taken),
    "vacant": Column("Vacant", "number", lambda it: it[0].vacancies),
    "waiting": Column("Waiting", "number", lambda it: it[0].waiting),
    "criteria": Column("Criteria"),
}
INTAKE: dict[str, Column[Held]] = {
    "child": Column("Number", "number", lambda it: it.child),
    "name": Column("Name", "", lambda it: it.name),
    "place": Column("Place", "", lambda it: it.kind),
    "since": Column("Offered on", "", lambda it: it.since),
}
WAITING: dict[str, Column[Waiting]] = {
    "position": Column("Position", "number", lambda it: it.position),
    "child": Column("Number", "number", lambda it: it.child),
    "name": Column("Name", "", lambda it: it.name),
    "class": Column("Criterion met", "", lambda it: it.number),
    "metres": Column("Distance (m)", "number", lambda it: it.metres),
}
# what the office sees beside it
INTAKE_OFFICE: dict[str, Column[Held]] = {
    **INTAKE,
    "class": Column("Criterion met", "", lambda it: it.number),
    "metres": Column("Distance (m)", "number", lambda it: it.metres),
}
WAITING_OFFICE: dict[str, Column[Waiting]] = {
    **WAITING,
    "now": Column("Place now", "", lambda it: it.now.name if it.now else ""),
    "applied": Column("Applied", "", lambda it: it.applied),
}
WORKBOOK = "application/vnd.openxmlformats-officedocument.spreadsheetml.sheet"


def attachment(data: bytes, name: str) -> Response:
    """A workbook, to be kept by the browser under a name of letters and figures."""
    headers = {"Content-Disposition": f'attachment; filename="{name}.xlsx"'}
    return flask.Response(data, mimetype=WORKBOOK, headers=headers)


def title_of(register: Register, what: str) -> str:
    """The heading of the pages of an Excel file."""
    return (f"Admission {register.year} {register.phase}, {what}, as of"
            f" {today().isoformat()}")


@screen.get("/")
@needs(READ)
def show() -> Answer:
    """All schools."""
    register, words = parts().desk.register(), flags.present()
    rows = [(it, classes(it, words)) for it in register.schools.values()]
    made = tables.table(COLUMNS, rows)
    return flask.render_template("schools.html", rows=made.rows, columns=made.columns,
                                 sort=made.sort, offers=offered_now(register))


def school_of(register: Register, code: str) -> School:
    """A school of the register."""
    if code not in register.schools:
        flask.abort(404)
    return register.schools[code]


def today() -> datetime.date:
    """The day of today."""
    return datetime.date.today()


def page(view: str, title: str, register: Register, code: str, **more: Any) -> str:
    """A page of a school: what is the same on each of them, and what is its own."""
    school, words = school_of(register, code), flags.present()
    may_read = person().may(READ)
    last = intake.last_offered(register, code, words)
    offers = offered_now(register).get(code, 0)
    tabs = [("Overview", "schools.one", ""), ("Waiting list", "schools.waiting", school.waiting),
            ("Intake", "schools.held", school.taken)]
    if may_read and register.draws:
        tabs.append(("How the list moves", "schools.moves", ""))
    return flask.render_template(
        f"school_{view}.html", school=school, criteria=classes(school, words), last=last,
        tabs=[(it, flask.url_for(name, code=code), count) for it, name, count in tabs],
        tab=title, offers=offers, may_begin=person().may(DRAW),
        figures=figures(school, last, offers, may_read), **more)


def offered_now(register: Register) -> dict[str, int]:
    """How many places can be offered from its waiting list now at each school that has any."""
    return {it.code: min(it.vacancies, it.waiting, MOST_FILLS)
            for it in home.fillable(register, today())}


def figures(
    school: School, last: list[Last], offers: int, may_read: bool,
) -> list[tuple[str, str, str, str, str]]:
    """The numbers that say how a school stands, each with the page that has what is counted."""
    def address(view: str) -> str:
        return flask.url_for(f"schools.{view}", code=school.code)

    found = [
        (f"{school.pan:,}", "Admission number", "", "", ""),
        (f"{school.taken:,}", "Places held",
         texts.count(school.plans, "by an EHC plan", "by EHC plans") if school.plans else "",
         address("held"), ""),
        (f"{school.vacancies:,}", "Vacant places",
         f"{offers:,} can be offered now" if offers else "",
         address("offer") if offers and may_read else "", "warn" if offers else ""),
        (f"{school.waiting:,}", "Children who wait", "", address("waiting"), "")]
    if last:
        it = last[-1]
        metres = "none" if it.metres is None else "withheld" if it.is_private else (
            f"{it.metres:,} m")
        said = f"{it.draw}: {it.words}" if it.words else it.draw
        found.append((metres, "Last place offered", said, f"{address('one')}#last-offered", ""))
    return found


@screen.get("/<code>")
@needs(LISTS)
def one(code: str) -> Answer:
    """How one school stands."""
    guard.see_own_school(code)
    register = parts().desk.register()
    school_of(register, code)
    return page("one", "Overview", register, code, **drawn(register, code, flags.present()),
                said="The admission number is raised." if "raised" in flask.request.args else "")


def choice() -> Choice:
    """Which children of a list the address asks for."""
    given = (flask.request.args.get(it, "").strip() for it in ("words", "met", "place"))
    return Choice(*given)


def list_page(
    title: str, register: Register, code: str, rows: Sequence[Row],
    columns: Mapping[str, Column[Row]], places: Sequence[tuple[str, str]],
) -> str:
    """A list of a school: what of it is asked for, in order, one page of it."""
    found, name = choice(), "waiting" if title == "Waiting list" else "held"
    if not places:
        # (who does not see the places is not told by a choice either)
        found = dataclasses.replace(found, place="")
    met: dict[str, str] = {str(it.number): it.words for it in sorted(
        rows, key=lambda it: it.number or 0) if it.number is not None}
    asked: dict[str, Any] = {**found.address, "order": flask.request.args.get("order")}
    table = tables.table(columns, found.of(rows))
    shown = tables.paged(table.rows, flask.request.args.get("page", ""), tables.SHORT)
    return page(
        name, title, register, code, table=table, shown=shown, every=len(rows), choice=found,
        met=[("", "any"), *met.items()], places=[("", "any"), *places],
        address=tables.pages(f"schools.{name}", code=code, **found.address),
        whole=flask.url_for(f"schools.{name}", code=code, page="all", **asked))


@screen.get("/<code>/waiting")
@needs(LISTS)
def waiting(code: str) -> Answer:
    """The waiting list of one school."""
    guard.see_own_school(code)
    register = parts().desk.register()
    school_of(register, code)
    may_read = person().may(READ)
    return list_page(
        "Waiting list", register, code, intake.waiting(register, code, flags.present()),
        WAITING_OFFICE if may_read else WAITING, intake.ELSEWHERE_OR_NOT if may_read else ())


@screen.get("/<code>/intake")
@needs(LISTS)
def held(code: str) -> Answer:
    """Who has a place at one school."""
    guard.see_own_school(code)
    register = parts().desk.register()
    school_of(register, code)
    rows = intake.intake(register, code, flags.present())
    if not person().may(READ):
        rows = [dataclasses.replace(it, number=None) for it in rows]
    return list_page("Intake", register, code, rows,
                     INTAKE_OFFICE if person().may(READ) else INTAKE,
                     [(it, it) for it in KINDS.values()])


@screen.get("/<code>/moves")
@needs(READ)
def moves(code: str) -> Answer:
    """How the waiting list of one school has moved since each draw."""
    register = parts().desk.register()
    school_of(register, code)
    found, earlier = list_moves.moved(register, parts().draws, parts().positions, code)
    tracks = list_moves.tracks(found, register, code)
    says = list_moves.says(found, list_moves.positions(register, code))
    known = [f"{it.of.day.day} {it.of.day:%B}" for it in found if it.positions is not None]
    heads = [*map("After {}".format, known), "Now"]
    picture = pictures.movement(
        "moves-drawn", f"Waiting list of {register.schools[code].name}", says, [*known, "now"],
        list(tracks.values())) if tracks else ""
    return page("moves", "How the list moves", register, code, moves=found, earlier=earlier,
                picture=picture, says=says, tracks=tracks,
                children=register.children,
                columns=[{"title": "Child"}, *({"title": it, "kind": "number"} for it in heads)])


@screen.get("/<code>/offer")
@needs(READ)
def offer(code: str) -> Answer:
    """Who comes next where vacant places are offered from the waiting list: before a head of the
    office begins the fill.
    """
    register = parts().desk.register()
    school = school_of(register, code)
    most = offered_now(register).get(code, 0)
    typed = flask.request.args.get("places", str(most)).strip()
    places = numbers.read(typed)
    wrong = "" if not most or 1 <= places <= most else f"from 1 to {most}"
    rows = intake.waiting(register, code, flags.present()) if most and not wrong else []
    # (children who share the last position of these are all shown)
    rows = [it for it in rows if it.position <= rows[places - 1].position]
    leaves = collections.Counter(it.now.name for it in rows if it.now)
    return flask.render_template(
        "school_offer.html", school=school, most=most, typed=typed, wrong=wrong, places=places,
        rows=rows, leaves=leaves, may_begin=person().may(DRAW),
        last_day=register.days[2], is_over=today() > register.days[2],
        is_before=not register.draws), 400 if wrong else 200


def drawn(register: Register, code: str, words: Mapping[int, str]) -> dict[str, Any]:
    """By which criteria the places are filled; and for who sees every child, the map of homes."""
    children = home_map.here(register, code)
    rows = home_map.filled(register, code, children, words)
    every = sum(it.has for it in rows)
    found = {"filled": [
        (it.words, f"{it.has:,}", home.share(it.has, every), pictures.bar(it.has, every, it.kind))
        for it in rows], "by_class": rows, "map": "", "map_says": "", "map_key": []}
    if not person().may(READ) or not rows:
        return found
    # (an address is made once: a school has some hundred homes)
    first = flask.url_for("child.show", number=0).removesuffix("0")
    homes = home_map.homes(register, code, children, lambda child: f"{first}{child}")
    rings = home_map.circles(register, code)
    picture, says = home_map.drawn(register, code, homes, rings)
    key: dict[str, list[str]] = {}
    for it in (it for it in rows if it.has or it.waits):
        key.setdefault(f"home {it.kind} has", []).append(it.words)
    return {**found, "map": picture, "map_says": says, "map_key": [
        *((kind, "; ".join(words)) for kind, words in key.items()),
        ("home far waits", "hollow: waits"),
        *((f"line {it.kind}", it.meaning) for it in rings)]}


@screen.get("/<code>/workbook")
@needs(LISTS)
def workbook(code: str) -> Response:
    """The same as an Excel file."""
    guard.see_own_school(code)
    register = parts().desk.register()
    school = school_of(register, code)
    pages = intake.pages(register, code, flags.present())
    title = title_of(register, f"{school.code} {school.name}")
    return attachment(book.data(pages, title), f"school-{code}")


def number_of(text: str, school: School) -> tuple[int, str]:
    """The admission number that is typed, or what is wrong with it."""
    field = fields.number(text, rules.LIMITS["pan"], "the admission number")
    if field.expected:
        return 0, field.expected
    found = int(field.text)
    if found <= school.pan:
        return found, f"more than the present number, {school.pan}: it can only rise"
    return found, ""


def warning(school: School, pan: int) -> str:
    """What looks wrong in a raise, or ""."""
    return (f"This is {texts.count(pan - school.pan, 'place')} more, which is much: is a digit"
            " wrong?") if risks.is_far_rise(school.pan, pan) else ""


@screen.get("/<code>/raise")
@needs(RECORD)
def raise_number(code: str) -> Answer:
    """The form of a raise; with a number, what is confirmed: the present one beside the new one."""
    return raise_page(code, flask.request.args.get("pan"))


def raise_page(code: str, typed: str | None, said: str = "", status: int = 200) -> Answer:
    """The form, or the question."""
    register = parts().desk.register()
    school = school_of(register, code)
    pan, wrong = (0, "") if typed is None else number_of(typed, school)
    is_asked = typed is not None and not wrong
    seen = seen_of(register, {"cmd": "raise_pan", "school": code}).text
    return flask.render_template(
        "raise.html", school=school, typed=typed or "", pan=pan, wrong=wrong, is_asked=is_asked,
        seen=seen, said=said, warning=warning(school, pan) if is_asked else "",
    ), 400 if wrong and status == 200 else status


@screen.post("/<code>/raise")
@needs(RECORD)
def do_raise(code: str) -> Answer:
    """A raise that was confirmed."""
    form = flask.request.form
    typed = form.get("pan", "")
    register = parts().desk.register()
    pan, wrong = number_of(typed, school_of(register, code))
    seen = Seen(form.get("seen", ""))
    command = {"cmd": "raise_pan", "school": code, "pan": pan}
    if wrong and seen == seen_of(register, command):
        return raise_page(code, typed)
    try:
        result = parts().desk.send(person(), command, seen)
    except Refused as error:
        return raise_page(code, typed, sentence(str(error)), 409)
    if not result.is_done:
        return raise_page(code, typed, result.said, 409)
    return flask.redirect(flask.url_for("schools.one", code=code, raised="yes"), 303)
