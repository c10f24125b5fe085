"""The first screens of those who do not see the season: of the supervisor, of the head of a school,
and of an administrator. Each has what is due for them now, what comes later, and what was done.
"""
import dataclasses
import datetime
import sqlite3
from collections.abc import Iterator, Sequence

from office.core import days, model, texts
from office.core.model import Register
from office.core.wording import draw_in_words, moment, sentence, weekday
from office.web.rounds.terms import LOTS, SEALED, Draw
from office.web.schools import intake

from . import tasks as home
from .tasks import DONE, DUE, LATER, READY, Figure, Task


@dataclasses.dataclass(frozen=True)
class First:
    """A first screen: numbers, what is to be done, and what is done."""

    figures: tuple[Figure, ...]
    tasks: tuple[Task, ...]
    done: tuple[Task, ...]


def of_supervisor(
    draws: Sequence[Draw], present: Draw | None, register: Register | None, today: datetime.date,
    is_here: bool,
) -> First:
    """The lots that a draw waits for, those of the next one, and those that were sealed. `draws`
    are those that have lots, the last first. `is_here`: whether the lots that it waits for are on
    the screen.
    """
    tasks = [Task(f"Draw the lots of {it.name}",
                  f"For {weekday(it.terms.day)}. Type or upload them, and seal them. Recording is"
                  f" paused until {it.name} is run.",
                  "Waits for you", DUE, "" if is_here else "lots.one", {"number": str(it.number)})
             for it in draws if it.state == LOTS]
    if present and not present.who(LOTS):
        tasks.append(Task(f"Draw the lots of {present.name}",
                          f"The office has begun it for {weekday(present.terms.day)}. First"
                          " recording is paused, and the register is copied.", "Soon", LATER))
    elif present and not tasks:
        tasks.append(Task(f"Wait for {present.name}", "The lots are sealed. The office rehearses,"
                          " confirms and runs it.", "Nothing for you", LATER))
    elif not tasks and register is not None:
        tasks += lots_to_come(register, today)
    done = [Task(f"Seal the lots of {it.in_words}",
                 f"for {days.in_words(it.terms.day)}: sealed by {it.who(SEALED)},"
                 f" {moment(it.came_to(SEALED).at)}", "Done", DONE,
                 "lots.one", {"number": str(it.number)}) for it in draws if it.digest]
    return First((), tuple(tasks), tuple(done))


def lots_to_come(register: Register, today: datetime.date) -> Iterator[Task]:
    """The lots of a draw that the office has not begun."""
    closing, offer, last = register.days
    begins = "Once the office has begun it, its lots are here."
    if not register.draws:
        day = closing + datetime.timedelta(days=1)
        state = home.from_day(day) if today <= closing else "Not begun"
        yield Task("Draw the lots of the first round", f"The offer day is {weekday(offer)}."
                   f" {begins}", state, LATER)
    elif today <= last:
        yield Task("Draw the lots of the next round or offer",
                   f"The waiting lists end on {weekday(last)}. {begins}", "Not begun", LATER)


def of_school(register: Register, code: str, why_hidden: str, today: datetime.date) -> First:
    """How a school stands: while its lists are not shown, no more than its admission number."""
    if code not in register.schools:
        return First((), (Task("See who has a place and who waits", f"The register has no school"
                               f" {code} yet.", "Not yet", LATER),), ())
    school, values = register.schools[code], {"code": code}
    pan = Figure(f"{school.pan:,}", "Admission number", "", "schools.one", values)
    if why_hidden:
        return First((pan,), (Task("See who has a place and who waits", why_hidden, "Not shown now",
                                   LATER),), ())
    figures = (
        pan, Figure(f"{school.taken:,}", "Places held", "", "schools.held", values),
        Figure(f"{school.vacancies:,}", "Vacant places", "", "schools.one", values),
        Figure(f"{school.waiting:,}", "Children who wait", "", "schools.waiting", values))
    tasks, done = list(of_lists(register, code)), []
    closing, offer, last = register.days
    if not register.rounds:
        tasks.append(Task("See who is offered a place",
                          f"The offer day of the first round is {weekday(offer)}.",
                          home.from_day(offer) if today < offer else "Once it is run", LATER))
    elif today <= last:
        tasks.append(Task("See the last list", f"The waiting lists end on {weekday(last)}.",
                          home.from_day(last), LATER))
    for it in register.draws:
        if it.school in (None, code):
            many = intake.offered_in(register, it.number, code)
            done.append(Task(sentence(draw_in_words(it))[:-1],
                             f"{texts.count(many, 'place was', 'places were')} offered on"
                             f" {days.in_words(it.day)}", "Done", DONE, "schools.one", values))
    return First(figures, tuple(tasks), tuple(done))


def of_lists(register: Register, code: str) -> Iterator[Task]:
    """What the head of a school looks through."""
    values = {"code": code}
    held = [it.kind for it in register.places.values() if it.school == code]
    if held:
        said = [f"{held.count(kind):,} {words}" for kind, words in (
            (model.ACCEPTED, "accepted"), (model.OFFERED, "not answered yet"),
            (model.PLAN, "by EHC plans")) if held.count(kind)]
        yield Task("Look through your intake", f"{sentence(texts.listed(said))}",
                   texts.count(len(held), "place"), READY, "schools.held", values)
    if many := register.schools[code].waiting:
        yield Task("Look through your waiting list", "The office offers vacant places in this"
                   " order.", texts.count(many, "child waits", "children wait"), READY,
                   "schools.waiting", values)


def of_administrator(rows: Sequence[sqlite3.Row], signed_in: int) -> First:
    """Who may sign in, and who cannot."""
    people = [it for it in rows if it["kind"] == "person"]
    new = sum(not it["signed_in"] and not it["is_locked"] for it in people)
    locked = sum(bool(it["is_locked"]) for it in people)
    figures = (
        Figure(f"{len(people):,}", "People", "", "people.show"),
        Figure(f"{len(rows) - len(people):,}", "Programs", "", "people.show"),
        Figure(f"{signed_in:,}", "Signed in now", "", "people.show"),
        Figure(f"{new:,}", "Not signed in yet", "", "people.show", kind="warn" if new else ""),
        Figure(f"{locked:,}", "Locked", "", "people.show", kind="warn" if locked else ""))
    came = len(people) - new - locked
    done = (Task("Have people sign in", f"{texts.count(came, 'person has', 'people have')} come"
                 " in", "Done", DONE, "people.show"),) if came else ()
    return First(figures, tuple(home.of_people(people)), done)
