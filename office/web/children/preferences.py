"""An application that is recorded for a child that has none: what is typed, what is wrong with it,
and what becomes of it. One that is stored stays as it is.
"""
import dataclasses
import datetime
from collections.abc import Mapping
from typing import Any

from office.core import days, texts
from office.core.model import PLAN, Register
from office.core.rules import LIMITS
from office.core.wording import NOT_A_DAY, day_of
from office.web.applications.form import PREFERENCES

from .actions import day_warnings

Command = dict[str, Any]
STAYS = ("An application in the register cannot be changed: no school is added to it, and the order"
         " stays. A waiting list can be left later.")


@dataclasses.dataclass(frozen=True)
class Typed:
    """A day and schools as they were typed, one for each field, and what is wrong at which field.
    """

    day_text: str
    day: datetime.date | None
    codes: list[str]
    wrong: dict[str, str]

    @property
    def chosen(self) -> list[str]:
        """The schools, best first."""
        return [it for it in self.codes if it]


def fields_of(register: Register) -> list[str]:
    """The names of the fields: as many as there are schools, up to the limit."""
    return PREFERENCES[:len(register.schools)]


def read(register: Register, given: Mapping[str, str]) -> Typed:
    """What was typed into the form."""
    text, names = given.get("day", ""), fields_of(register)
    codes, day = [given.get(it, "") for it in names], day_of(text)
    wrong = {} if day else {"day": NOT_A_DAY}
    for at, (name, code) in enumerate(zip(names, codes)):
        if code and code not in register.schools:
            wrong[name] = "a school of the register"
        elif code and code in codes[:at]:
            wrong[name] = f"each school once: {code} is above"
        elif not code and any(codes[at:]):
            wrong[name] = "a school, as there is one below"
    if names and not any(codes):
        least = texts.count(LIMITS["preferences"].least, "school")
        wrong[names[0]] = f"at least {least}, the best first"
    return Typed(text, day, codes, wrong)


def command_of(number: int, found: Typed) -> Command:
    """The command of an application with a day."""
    assert found.day
    return {"cmd": "apply", "child": number, "day": found.day.isoformat(),
            "preferences": found.chosen}


def becomes(register: Register, day: datetime.date) -> list[str]:
    """What an application of this day does, in sentences."""
    closing = days.in_words(register.days[0])
    when = (f"It is in time: the closing day is {closing}." if register.is_in_time(day) else
            f"It is late: the closing day was {closing}.")
    if register.draws:
        return [when, "Places that are offered or held stay. The child waits at each of these"
                " schools from now on, where the criteria of the school put it, and takes part in"
                " the next round, or offer from a waiting list.", STAYS]
    if register.is_in_time(day):
        return [when, "The child takes part in the first round.", STAYS]
    return [when, "The child takes no part in the first round. After it the child waits at each of"
            " these schools, and takes part in later rounds and offers from waiting lists.", STAYS]


def warnings(
    register: Register, command: Command, day: datetime.date, today: datetime.date,
) -> list[str]:
    """What looks wrong in the day."""
    return day_warnings(register, command, day, today)


def why_not(register: Register, number: int) -> str:
    """Why no application can be recorded for a child, or ""."""
    place = register.places.get(number)
    if place and place.kind == PLAN:
        return "The child has a place by a plan, and applies for no other."
    if number in register.applications:
        return "The child has an application, and the register keeps it as it was added."
    if not register.schools:
        return "There is no school yet."
    return ""
