"""The first screen: what is to be done, by when, and how the season stands."""
import dataclasses
import datetime
from collections.abc import Mapping, Sequence
from typing import Any

import flask
from register_files import Refused

from office.core.days import today
from office.core.model import Register
from office.core.wording import sentence, weekday
from office.web.applications import columns as file_columns
from office.web.applications.rows import OPEN, WITHDRAWN
from office.web.applications.tools import tools
from office.web.figures.publication import FiguresStore
from office.web.frame import navigation as frame
from office.web.lists import on_screen
from office.web.lists.choice import NONE
from office.web.machinery import pictures
from office.web.people import guard
from office.web.people.guard import SIGNED_IN, needs, parts, person
from office.web.people.roles import DRAW, NOTES, PEOPLE, READ, RECORD, Person
from office.web.people.roles import LOTS as OF_LOTS
from office.web.people.views import people
from office.web.register import doubts
from office.web.register.entry_words import Names
from office.web.rounds import again
from office.web.rounds import page as draws_page
from office.web.rounds.terms import Draw
from office.web.rounds.views import lots
from office.web.schools import flags
from office.web.schools.rows import COLUMNS

from . import other_roles
from . import tasks as home
from .other_roles import First
from .tasks import Known, Task

screen = flask.Blueprint("season", __name__)
# so many entries of the history are looked at for what a person did last
LOOKED_AT = 5000
PLACES = [{"name": it, "title": it, "kind": "number" if at else "", "href": ""}
          for at, it in enumerate(("School", "Places", "Taken", "Vacant", "Waiting"))]


def address_of(view: str, values: Mapping[str, str]) -> str:
    """The address of a screen, if this person may see it; or ""."""
    right = getattr(flask.current_app.view_functions.get(view), "right", None)
    if right is None or not person().may(right):
        return ""
    return flask.url_for(view, **dict[str, Any](values))


def known(register: Register, draw: Draw | None) -> Known:
    """What the application knows that this person may do something about."""
    found = of_draw(register, draw) if draw else Known()
    if not person().may(RECORD):
        return found
    untold = parts().letter_lists.untold(register)
    return dataclasses.replace(
        found, untold=untold, of_office=of_office(register, draw, bool(untold)),
        answers=parts().piles.left_of(person().name), rows=tools().staging.count(OPEN),
        withdrawn=tools().staging.count(WITHDRAWN), of_head=of_head(register, draw))


def of_draw(register: Register, draw: Draw) -> Known:
    """The draw in progress, and whose turn it is."""
    if parts().following.under_way():
        return Known(draw, "A step of it runs now.")
    decision = draws_page.decision_of(draws_page.seen(draw, register, None))
    button = decision.button if decision.action else ""
    return Known(draw, frame.turn(draw), "" if button else draws_page.waits_for(draw), button)


def of_office(register: Register, draw: Draw | None, has_letters: bool) -> tuple[Task, ...]:
    """What an office has to do at this time of the season."""
    day = today()
    found = [] if draw else list(home.of_plans(register, day))
    if has_letters or found:
        there = parts().letters.addresses.all()
        found += home.of_addresses(sum(it not in there for it in register.children))
    published = {it.about["round"] for it in FiguresStore(parts().store).listed() if it.taken}
    return (*found, *home.of_open_offers(register), *home.of_unplaced(register, day),
            *home.of_figures(register, day, published))


def of_head(register: Register, draw: Draw | None) -> tuple[Task, ...]:
    """What only a head of the office has to do."""
    if not person().may(DRAW):
        return ()
    draws = parts().draws.listed()
    found = [] if draw else list(home.of_undone(again.undone(draws), register))
    found += [home.of_unsent(it, *unsent) for it in draws if (unsent := draws_page.unsent_of(it))]
    found += home.of_people(parts().store.rows(
        "SELECT name, role, signed_in, is_locked FROM person WHERE kind='person' ORDER BY name"))
    if register.schools and not parts().letters.sender.number:
        found.append(Task("Type the office’s name and address", "Letters have no sender yet.",
                          "Missing", home.WAITING if register.draws else home.READY,
                          "letter_sender.show"))
    found += home.of_copies(parts().copies.behind())
    return tuple(found)


def linked(it: Task) -> dict[str, str]:
    """A task as the page shows it."""
    return {"title": it.title, "hint": it.hint, "state": it.state, "kind": it.kind,
            "href": address_of(it.view, it.values) if it.view else ""}


def list_of(words: str, state: str) -> dict[str, str]:
    """A link to the children of a state among those who applied."""
    href = flask.url_for("lists.one", name="children", state=state, filled="applied")
    return {"words": words, "href": href}


def bars(rows: Sequence[tuple[Any, int, str]]) -> list[tuple[Any, str, str, Any]]:
    """Numbers with their share of the whole, and a bar."""
    every = sum(many for _, many, _ in rows)
    return [(words, f"{many:,}", home.share(many, every), pictures.bar(many, every, kind))
            for words, many, kind in rows]


def page(found: Register, draw: Draw | None) -> dict[str, Any]:
    """What the page shows of a register."""
    day, now = today(), known(found, draw)
    to_confirm = draws_page.to_confirm(draws_page.seen(draw, found, None)) if (
        draw and now.button) else {"decision": None}
    now = dataclasses.replace(now, is_here=to_confirm["decision"] is not None)
    tasks = home.tasks(found, day, now)
    met = home.preferences_met(found)
    return {
        **to_confirm,
        "tasks": [(title, [linked(it) for it in rows]) for title, rows in tasks],
        "done": [linked(it) for it in home.done(found, day)],
        "figures": [(it.number, it.words, it.note, address_of(it.view, it.values), it.kind)
                    for it in home.figures(found, met)],
        "dates": home.dates(found, day),
        "season": home.season(found, day),
        "schools": list(found.schools.values()), "places_columns": PLACES,
        "map": home.places_map(found) if found.schools else "",
        "vacant": home.vacant_in_words(found),
        "answered": bars(home.answers(found)) if found.draws else [],
        "met": bars([
            (list_of(words, state) if many else words, many, kind) for words, state, many, kind in
            zip(home.RANKS, (*on_screen.MET, NONE), met, home.RANK_KINDS)]) if found.draws else [],
        "work": home.work(
            parts().history.entries, Names(found, flags.present())) if person().may(NOTES) else [],
        "form": form_of(found), "acts": acts(found, now),
    }


def acts(found: Register, now: Known) -> list[tuple[str, str, str]]:
    """What is done most at this time of the season, with its screen and the kind of its button;
    before it what the person has to do of a draw in progress. The first is the main one, but while
    recording is paused only what the draw waits for.
    """
    views = [("Add an application", "applications_add.show")]
    if found.draws:
        views.insert(0, ("Record answers", "answers.show"))
    elif found.children:
        views.append(("Record EHC plans", "answers.show"))
    links = [(words, address_of(view, {})) for words, view in views]
    is_main = not parts().desk.closed()
    if now.draw and now.button and not now.is_here:
        links.insert(0, (now.button, address_of("draws.one", {"number": str(now.draw.number)})))
        is_main = True
    return [(words, href, "second" if at or not is_main else "primary")
            for at, (words, href) in enumerate(it for it in links if it[1])]


def form_of(found: Register) -> str:
    """The template of the form that begins what is next where a file does, or ""."""
    is_over = bool(found.applications) and today() > found.days[0]
    if not person().may(RECORD) or found.draws or is_over:
        return ""
    return "files_of_applications.html" if found.schools else "sheet_of_schools.html"


def first_page() -> str:
    """The first screen of the supervisor, of the head of a school, or of an administrator."""
    who, day, reason = person(), today(), ""
    register: Register | None = None
    try:
        register = None if who.may(PEOPLE) else parts().desk.register()
    except Refused as error:
        reason = sentence(str(error))
    to_draw = lots.waiting() if who.may(OF_LOTS) else {"lots": "", "reason": reason}
    found = first_of(who, register, day, bool(to_draw["lots"]))
    history = parts().history.entries[-LOOKED_AT:]
    return flask.render_template(
        "first.html", day=weekday(day), who=who, register=register, **to_draw,
        figures=[(it.number, it.words, it.note, address_of(it.view, it.values), it.kind)
                 for it in found.figures],
        tasks=[(title, [linked(it) for it in rows]) for title, rows in home.grouped(found.tasks)],
        done=[linked(it) for it in found.done],
        dates=home.dates(register, day, False) if register else [],
        work=home.work([it for it in history if it.who == who.name], Names()),
        may_add=who.may(PEOPLE), **(people.form_of() if who.may(PEOPLE) else {}))


def first_of(
    who: Person, register: Register | None, day: datetime.date, has_lots: bool,
) -> First:
    """What it says."""
    found = parts()
    if who.may(OF_LOTS):
        return other_roles.of_supervisor(
            found.lots.listed(), found.draws.present(), register, day, has_lots)
    if who.may(PEOPLE):
        return other_roles.of_administrator(
            found.store.rows(
                "SELECT name, kind, role, signed_in, is_locked FROM person ORDER BY name"),
            len(found.people.signed_in()))
    if register is None or not who.school:
        return First((), (), ())
    return other_roles.of_school(register, who.school, sentence(guard.hidden()), day)


@screen.get("/")
@needs(SIGNED_IN)
def show() -> str:
    """The season; for somebody who may not read it, their own first screen."""
    if not person().may(READ):
        return first_page()
    found, reason = None, ""
    try:
        found, reason = doubts.in_words(parts())
    except Refused as error:
        reason = sentence(str(error))
    draw: Draw | None = parts().draws.present()
    return flask.render_template(
        "season.html", register=found, reason=reason, day=weekday(today()), columns=COLUMNS,
        file_columns=file_columns.columns(found),
        **(page(found, draw) if found else {"acts": []}))
