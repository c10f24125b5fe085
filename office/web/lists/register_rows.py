"""What a register has now, as rows: its season, its children, their places and its schools.

The first row is the header.
"""
import collections
import datetime
from collections.abc import Mapping
from typing import TypeVar

from register_files import Refused

from office.core import days, texts
from office.core.model import (
    ACCEPTED, BEFORE, BELOW, HELD, LEFT, OFFERED, PLAN, WAITS, Application, Place, Register,
)

Cell = str | int | None
Rows = list[list[Cell]]
Key = TypeVar("Key", int, str)
# what became of a school of a child's list where the child has no place
CAME = {LEFT: "left", WAITS: "waiting", BEFORE: "wanted", BELOW: "below its place"}
# the schools of a list that are counted by their preference; the others are counted together
COUNTED = (1, 2, 3)


def text_of(day: datetime.date | None) -> str | None:
    """A day in a cell."""
    return None if day is None else day.isoformat()


def applied(register: Register, child: int) -> str | None:
    """The day of a child's application, if it has one."""
    found = register.applications.get(child)
    return text_of(found.day) if found else None


def place_of(register: Register, child: int) -> list[Cell]:
    """The school and the kind of a child's place, if it has one."""
    found = register.places.get(child)
    return [found.school, found.kind] if found else [None, None]


def children(register: Register) -> Rows:
    """All children."""
    header: list[Cell] = ["child", "name", "applied", "school", "place"]
    rows: Rows = [[it.number, it.name, applied(register, it.number), *place_of(register, it.number)]
                  for it in register.children.values()]
    return [header, *rows]


def child(register: Register, number: int) -> Rows:
    """What a child listed and has. A place by a plan is on no list, and without a rank."""
    header: list[Cell] = ["child", "name", "applied", "preference", "school", "class", "metres",
                          "came", "offered", "reminded"]
    place, application = register.places.get(number), register.applications.get(number)
    rows = listed(application, place) if application else []
    if place and place.kind == PLAN:
        rows.insert(0, [None, place.school, None, None, PLAN, None, None])
    start: list[Cell] = [number, register.children[number].name, applied(register, number)]
    return [header, *([*start, *it] for it in rows or [[None] * 7])]


def listed(application: Application, place: Place | None) -> Rows:
    """The schools of a list, how the child ranks there and what became of it."""
    rows: Rows = []
    for at, (code, it) in enumerate(application.listed.items(), 1):
        came: list[Cell] = [CAME.get(it.state), None, None]
        if it.state == HELD and place:
            came = [place.kind, text_of(place.day), text_of(place.reminded)]
        rows.append([at, code, it.number, it.metres, *came])
    return rows


def find(register: Register, text: str) -> Rows:
    """The children of a name or a number."""
    header: list[Cell] = ["child", "name", "applied", "school", "place", "east", "north"]
    names = {number: it.name for number, it in register.children.items()}
    found = of_text(names, text) or of_text(names, text, True)
    if not found:
        raise Refused(f"no child has a name like {texts.shown(text)}")
    rows: Rows = [[it.number, it.name, applied(register, it.number),
                   *place_of(register, it.number), it.east, it.north]
                  for it in (register.children[number] for number in found)]
    return [header, *rows]


def of_text(names: Mapping[Key, str], text: str, may_differ: bool = False) -> list[Key]:
    """Those whose name has each word of a text in it, or whose number or code is a word of it; or
    those with words that may differ in one letter.
    """
    words = texts.folded(text).split()
    folded = {key: texts.folded(it) for key, it in names.items() if words}
    if may_differ:
        return [key for key, name in folded.items()
                if all(is_near(word, name.split()) for word in words)]
    return [key for key, name in folded.items()
            if all(word in name or word == str(key).casefold() for word in words)]


def is_near(word: str, others: list[str]) -> bool:
    """Whether a word is one of others, or differs from one in a letter."""
    return any(word == it or texts.is_one_slip(word, it) for it in others)


def unplaced(register: Register) -> Rows:
    """The children without a place."""
    header: list[Cell] = ["child", "name", "applied", "preferences", "waiting"]
    rows: Rows = []
    for number, it in register.children.items():
        if number not in register.places:
            found = register.applications.get(number)
            wishes = found.preferences if found else ()
            waiting = [code for _, code, _ in found.in_state(WAITS)] if found else []
            rows.append([number, it.name, applied(register, number), ";".join(wishes) or None,
                         ";".join(waiting) or None])
    return [header, *rows]


def offers(register: Register) -> list[tuple[datetime.date, int, Place]]:
    """The offers without an answer, by their days and the children's numbers."""
    found = [(it.day, child, it) for child, it in register.places.items()
             if it.kind == OFFERED and it.day]
    return sorted(found, key=lambda it: it[:2])


def no_answer(register: Register) -> Rows:
    """Who has not answered an offer."""
    header: list[Cell] = ["child", "school", "offered", "reminded", "name"]
    rows: Rows = [[child, it.school, text_of(day), text_of(it.reminded),
                   register.children[child].name] for day, child, it in offers(register)]
    return [header, *rows]


def remind_due(register: Register, today: datetime.date) -> Rows:
    """Who is due for a reminder, from which day on."""
    header: list[Cell] = ["child", "school", "offered", "due", "name"]
    due = [(day, child, it) for day, child, it in offers(register) if not it.reminded]
    rows: Rows = [[child, it.school, text_of(day), text_of(days.due_from(day)),
                   register.children[child].name]
                  for day, child, it in due if days.due_from(day) <= today]
    return [header, *rows]


def lapse_due(register: Register, today: datetime.date) -> Rows:
    """Whose offer may lapse, from which day on."""
    header: list[Cell] = ["child", "school", "reminded", "due", "name"]
    due = sorted((it.reminded, child, it.school) for _, child, it in offers(register)
                 if it.reminded)
    rows: Rows = [[child, code, text_of(reminded), text_of(days.due_from(reminded)),
                   register.children[child].name]
                  for reminded, child, code in due if days.due_from(reminded) <= today]
    return [header, *rows]


def vacancies(register: Register) -> Rows:
    """The places of each school."""
    header: list[Cell] = ["school", "name", "pan", "offered", "accepted", "plans", "vacancies",
                          "waiting"]
    kinds = collections.Counter((it.school, it.kind) for it in register.places.values())
    rows: Rows = [[code, it.name, it.pan, kinds[code, OFFERED], kinds[code, ACCEPTED], it.plans,
                   it.vacancies, it.waiting] for code, it in register.schools.items()]
    return [header, *rows]


def interest(register: Register) -> Rows:
    """How many list each school, as which preference, and how many need a lot there next."""
    header: list[Cell] = ["school", "name", "pan", "plans", "children", "first", "second", "third",
                          "later", "late", "lots"]
    found: dict[str, list[tuple[int, bool]]] = {code: [] for code in register.schools}
    for application in register.applications.values():
        for at, code in enumerate(application.preferences, 1):
            found[code].append((at, not register.is_in_time(application.day)))
    lots = collections.Counter(code for code, _ in register.pairs)
    rows: Rows = []
    for code, it in register.schools.items():
        counts = [sum(at == nth for at, _ in found[code]) for nth in COUNTED]
        later, late = len(found[code]) - sum(counts), sum(is_late for _, is_late in found[code])
        rows.append([code, it.name, it.pan, it.plans, len(found[code]), *counts, later, late,
                     lots[code]])
    return [header, *rows]


def waiting(register: Register, school: str | None) -> Rows:
    """The waiting lists, or that of one school."""
    header: list[Cell] = ["school", "position", "child", "name", "class", "metres", "preference"]
    there = sorted((it["school"], it["position"], child, at, it["class"], it["metres"])
                   for child, application in register.applications.items()
                   for at, it in enumerate(application.rows, 1)
                   if it["state"] == WAITS and school in (None, it["school"]))
    rows: Rows = [[code, position, child, register.children[child].name, number, metres, at]
                  for code, position, child, at, number, metres in there]
    return [header, *rows]


def season(register: Register) -> Rows:
    """The days of the season, and what the register has so far."""
    closing, offer, end = register.days
    last = register.draws[-1] if register.draws else None
    late = sum(not register.is_in_time(it.day) for it in register.applications.values())
    earliest = max(offer, last.day) if last else offer
    return [
        ["what", "value"], ["phase", register.phase], ["year of entry", register.year],
        ["closing date", text_of(closing)], ["offer day", text_of(offer)],
        ["last day of the lists", text_of(end)],
        ["public holidays", ";".join(map(str, register.holidays))],
        ["schools", len(register.schools)],
        ["admission numbers", sum(it.pan for it in register.schools.values())],
        ["children", len(register.children)], ["applications", len(register.applications)],
        ["late applications", late], ["rounds so far", len(register.rounds)],
        ["offers from waiting lists so far", len(register.draws) - len(register.rounds)],
        ["day of the last round or offer", text_of(last.day) if last else None],
        ["number of the next round or offer", last.number + 1 if last else 1],
        ["earliest day of the next round or offer", text_of(earliest)],
    ]
