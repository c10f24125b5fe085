"""The worklists as screens have them: their titles, what each says, and the options of its form."""
import dataclasses
import datetime
import functools
import re
from collections.abc import Mapping
from typing import Any

from office.core import criteria, days, model
from office.core.model import Register
from office.core.wording import NOT_A_DAY, day_of, draw_in_words, weekday

from . import worklists
from .register_rows import Cell, Rows

TITLES = {
    "child": "Schools of one child", "children": "All children", "draws": "Rounds and offers",
    "equal-at-limit": "Where only the lot decided", "find": "Children by name",
    "interest": "What families want",
    "lapse-due": "Offers that may be withdrawn", "last-offered": "Last offered",
    "list": "Waiting lists", "lots": "Lots of a round or offer",
    "moved": "Whom a round or offer moved",
    "no-answer": "Not answered", "preferences": "Preferences that were met",
    "remind-due": "Reminders that are due", "round-report": "Result of a round",
    "season": "Days and counts", "unplaced": "Children without a place",
    "vacancies": "Places of each school",
}
NAMES = list(worklists.WORKLISTS)
LABELS = {"day": "Day", "draw": "Round or offer", "round": "Round", "school": "School",
          "child": "Number of the child", "text": "Name"}
# the options that are typed, each with how it is
TYPED = {"day": "as 17 March 2025 or 17/3/2025", "child": "", "text": "in any spelling of capitals"
         " and accents"}
# the columns whose cells lead to a child or to a school
CHILD, SCHOOLS = "child", ("school", "from", "to", "allotted")
# the column of a class at the school of a row, and the one after it that has it in words
CLASS, SCHOOL, CRITERION = "class", "school", "criterion"
# the columns whose heads on the screen are others than their names in files
HEADS = {CLASS: "Criterion no.", CRITERION: "Criterion met", "metres": "Distance (m)",
         "came": "Result", "pan": "Places", "plans": "EHC plans", "met": "Preference met",
         "first": "First preference", "later": "Lower", "late": "Applied late",
         "due": "Due since", "offers": "Places offered", "kept": "Kept a place",
         "unplaced": "No place", "held": "Had that place", "allotted": "Place given"}
# and so the states that have another word on the screen
STATES = {"fill": "offer from a waiting list"}


@dataclasses.dataclass(frozen=True)
class Option:
    """An option of a list: its name and label, what it can be, each with its words, or none where a
    day is typed; what was given, and in words; and what is wrong with it.
    """

    name: str
    label: str
    choices: tuple[tuple[str, str], ...]
    given: str
    words: str = ""
    wrong: str = ""


def state(text: str) -> str:
    """A state on the screen."""
    return STATES.get(text, text)


def head(column: str) -> str:
    """The head of a column on the screen."""
    return HEADS.get(column) or column.capitalize()


def title(name: str) -> str:
    """The title of a list."""
    return TITLES.get(name) or name.replace("-", " ").capitalize()


def purpose(name: str) -> str:
    """What a list says."""
    return worklists.WORKLISTS[name].purpose


def choices(register: Register, name: str) -> tuple[tuple[str, str], ...]:
    """What an option can be."""
    if name == "school":
        return tuple((code, f"{code} {it.name}") for code, it in register.schools.items())
    if name == "round":
        return tuple((str(it.round), f"{draw_in_words(it)}, {days.in_words(it.day)}")
                     for it in register.rounds)
    if name == "draw":
        return tuple((str(it.number), f"{draw_in_words(it)}, {days.in_words(it.day)}")
                     for it in register.draws)
    return ()


def options(
    register: Register, name: str, given: Mapping[str, str], today: datetime.date,
) -> tuple[list[Option], dict[str, Any]]:
    """The options of a list with what was given, and their values, which are not whole where an
    option is wrong or is to be chosen yet.
    """
    found: list[Option] = []
    values: dict[str, Any] = {}
    for it in worklists.WORKLISTS[name].taken:
        text, can_be, wrong = given.get(it, "").strip(), choices(register, it), ""
        words = dict(can_be).get(text, "")
        if it == "day":
            text = text or today.isoformat()
            day = day_of(text)
            values[it], words = day, weekday(day) if day else ""
            wrong = "" if day else NOT_A_DAY
        elif it == "child" and text:
            values[it], wrong = child_of(register, text)
            words = register.children[values[it]].name if not wrong else ""
        elif it == "text" and text:
            values[it] = words = text
        elif text and not words:
            wrong = "one of the list"
        elif text:
            values[it] = text if it == "school" else int(text)
        found.append(Option(it, LABELS[it], can_be, text, words, wrong))
    return found, values


def child_of(register: Register, text: str) -> tuple[int, str]:
    """The number of a child that is typed, or what is wrong with it."""
    is_number = text.isascii() and text.isdigit() and len(text) < 10
    number = int(text) if is_number else 0
    return number, "" if number in register.children else "the number of a child of the register"


def is_whole(name: str, found: list[Option], values: Mapping[str, Any]) -> bool:
    """Whether a list can be made of these values."""
    return not any(it.wrong for it in found) and worklists.is_whole(name, values)


def rows_of(
    register: Register, name: str, values: Mapping[str, Any], flags: Mapping[int, str],
) -> Rows:
    """The rows of a list, of which the first is the header: with each class in words too."""
    header, *rows = worklists.rows_of(register, name, values)
    if name == "children":
        return [[*header, "met"], *([*row, met(register, row[0])] for row in rows)]
    if CLASS not in header:
        return [header, *rows]
    at, school = header.index(CLASS), header.index(SCHOOL)

    @functools.cache
    def words(code: str, number: Cell) -> str | None:
        if not isinstance(number, int):
            return None
        return criteria.in_brief(register.schools[code], number, flags)

    return [[*header[:at + 1], CRITERION, *header[at + 1:]],
            *([*it[:at + 1], words(str(it[school]), it[at]), *it[at + 1:]] for it in rows)]


# which preference a place is; a place by a plan is on no list
MET = ("first preference", "second preference", "third preference", "lower preference")


def met(register: Register, child: Cell) -> str | None:
    """Which of its preferences a child has today, if it has one of them."""
    if not isinstance(child, int) or (place := register.places.get(child)) is None:
        return None
    application = register.applications.get(child)
    if application is None or place.school not in application.preferences:
        return place.kind if place.kind == model.PLAN else None
    return MET[min(application.preferences.index(place.school), len(MET) - 1)]


@dataclasses.dataclass(frozen=True)
class Shown:
    """A cell as a screen has it: its text, whether it is a number, and whose screen it leads to."""

    text: str
    is_figure: bool = False
    child: int | None = None
    school: str = ""


def shown(header: list[Cell], row: list[Cell], register: Register) -> list[Shown]:
    """The cells of a row."""
    found = []
    for name, value in zip(header, row):
        if isinstance(value, int):
            is_child = name == CHILD and value in register.children
            text = str(value) if name in (CHILD, "lot") else f"{value:,}"
            found.append(Shown(text, True, value if is_child else None))
        else:
            code = value if name in SCHOOLS and value in register.schools else ""
            text = "" if value is None else state(value) if name == "kind" else in_words(value)
            found.append(Shown(text, school=code or ""))
    return found


def in_words(text: str) -> str:
    """A text of a cell; a day in words."""
    day = re.fullmatch(r"[0-9]{4}-[0-9]{2}-[0-9]{2}", text) and day_of(text)
    return days.in_words(day) if day else text
