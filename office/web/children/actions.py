"""What can be recorded of a child, each as a question: whom it concerns, what becomes of it, and
what looks wrong.
"""
import dataclasses
import datetime
from collections.abc import Callable, Mapping
from typing import Any

from register_files import Refused

from office.core import days, model, risks, rules, texts, wording
from office.core.command_kinds import ACTIONS, Kind
from office.core.model import Child, Place, Register

Command = dict[str, Any]


@dataclasses.dataclass(frozen=True)
class Question:
    """What is asked before it is recorded."""

    action: Kind
    command: Command
    button: str
    becomes: str
    warnings: tuple[str, ...]


def possible(register: Register, number: int) -> list[tuple[str, str]]:
    """What can be recorded of a child now, each with the code of its school, or "" where it is
    chosen.
    """
    place, found = register.places.get(number), []
    if place and place.kind == model.OFFERED:
        found = [("accept", place.school), ("decline", place.school),
                 ("lapse" if place.reminded else "remind", place.school)]
    elif place and place.kind == model.ACCEPTED:
        found = [("decline", place.school)]
    found += [("leave", code) for code in waiting(register, number)]
    if place is None or place.kind != model.PLAN:
        found.append(("plan", ""))
    return found


def is_due(place: Place, today: datetime.date) -> bool:
    """Whether the reminder of an offer is due, or its withdrawal if it was reminded of."""
    since = place.reminded or place.day
    return place.kind == model.OFFERED and since is not None and days.due_from(since) <= today


def is_likely(name: str, place: Place | None, today: datetime.date) -> bool:
    """Whether something that can be recorded is what is recorded most in this state."""
    return name in ("accept", "decline") or (
        name in ("remind", "lapse") and place is not None and is_due(place, today))


def tags_of(register: Register, number: int, today: datetime.date) -> list[tuple[str, str]]:
    """How a child stands, each in one to three words with the colour."""
    place, application, found = register.places.get(number), register.applications.get(number), []
    if place is None:
        found += [("No place", "warn")] if register.draws else []
    elif place.kind == model.OFFERED:
        found.append(("Offered, not answered", "warn"))
        if is_due(place, today):
            found.append(("Withdrawal due" if place.reminded else "Reminder due", "bad"))
        elif place.reminded:
            found.append(("Reminded", "plain"))
    else:
        found.append(("EHC plan" if place.kind == model.PLAN else "Accepted", "good"))
    if waits := waiting(register, number):
        found.append((f"On {texts.count(len(waits), 'waiting list')}", "info"))
    if application and not register.is_in_time(application.day):
        found.append(("Late application", "plain"))
    return found


def waiting(register: Register, number: int) -> list[str]:
    """The schools at which a child waits."""
    application = register.applications.get(number)
    return [code for code, it in application.listed.items() if it.state == model.WAITS
            ] if application else []


def stays(register: Register, number: int) -> str:
    """On which waiting lists a child stays that accepts its offer: an accept changes none of them.
    """
    names = [register.schools[code].name for code in waiting(register, number)]
    if not names:
        return "The child is on no waiting list."
    lists = "list" if len(names) == 1 else "lists"
    return (f"The child stays on the waiting {lists} of {texts.listed(names)}. If a place is"
            " offered there later, this place ends; a family that does not want that leaves the"
            f" {lists}.")


def see_possible(register: Register, number: int, name: str, code: str) -> None:
    """Refuses what cannot be recorded of a child now."""
    now = possible(register, number)
    if (name, code) in now or (name == "plan" and (name, "") in now and code in register.schools):
        return
    if name == "leave":
        raise Refused(f"the child does not wait at {code or 'any school'}")
    if name == "plan" and (name, "") in now:
        raise Refused(f"there is no school {code}")
    place = wording.place(register, register.places.get(number))
    raise Refused(f"this cannot be recorded: {place}")


def school_of(register: Register, number: int, name: str, given: str) -> str:
    """The school that an action concerns: that of the place, or the one that was chosen."""
    place = register.places.get(number)
    if name in ("leave", "plan"):
        return given
    return place.school if place else ""


def question(
    register: Register, number: int, name: str, code: str, day: datetime.date,
    today: datetime.date,
) -> Question:
    """The question of an action, or a refusal where it cannot be recorded now."""
    see_possible(register, number, name, code)
    action, child, school = ACTIONS[name], register.children[number], register.schools[code]
    command: Command = {"cmd": action.name, "child": number, "school": code}
    warnings = list(warnings_of(action, register.places.get(number)))
    if action.is_dated:
        command["day"] = day.isoformat()
        warnings += day_warnings(register, command, day, today)
        warnings += last_day_warning(register.places[number], day)
    words = {"school": school.name, "child": child.name}
    becomes = action.becomes_on(day)
    if name == "accept":
        becomes += f" {stays(register, number)}"
    return Question(action, command, filled(action.button, words), becomes, tuple(warnings))


def filled(text: str, words: Mapping[str, str]) -> str:
    """The words of a button with names, whatever these have."""
    before, _, after = text.partition("{school}")
    parts = (it.replace("{child}", words["child"]) for it in (before, after))
    return words["school"].join(parts)


def warnings_of(action: Kind, place: Place | None) -> list[str]:
    """What looks wrong in an action."""
    if action.name == "decline" and place and place.kind == model.ACCEPTED:
        return ["The family had accepted this place."]
    if action.name == "name_plan" and place:
        return [f"The place at {place.school}, {wording.KINDS[place.kind]}, ends with it."]
    return []


def day_warnings(
    register: Register, command: Command, day: datetime.date, today: datetime.date,
) -> list[str]:
    """What looks wrong in a day."""
    found = (risks.season_risk(command["cmd"], day, register), risks.today_risk(day, today))
    return [f"The day is {it}." for it in found if it]


def last_day_warning(place: Place, day: datetime.date) -> list[str]:
    """That a family may still answer on the day of a reminder or a withdrawal."""
    since = place.reminded or place.day
    if since is None or day >= days.due_from(since):
        return []
    return [f"The family may answer until the end of {days.in_words(days.answer_by(since))}."]


def first_of(register: Register, it: Child) -> str:
    """The first preference of a child, or ""."""
    application = register.applications.get(it.number)
    return register.schools[application.preferences[0]].name if application else ""


def namesakes(register: Register, child: Child) -> list[tuple[Child, str]]:
    """The other children of the same name, each with its first preference."""
    found = (register.children[it] for it in register.called[texts.folded(child.name)])
    return [(it, first_of(register, it)) for it in found if it.number != child.number]


FIELDS = tuple(it for it in rules.COMMANDS["amend"].values() if it.name != "child")


def fields_of(register: Register) -> tuple[rules.Field, ...]:
    """The fields of a child that a register of this size has."""
    return tuple(it for it in FIELDS if rules.has(it.name, register.is_large))


def facts_of(
    register: Register, child: Child, flag_words: Callable[[tuple[int, ...]], str],
) -> list[tuple[str, str]]:
    """The data of a child, with its flags in words."""
    found = []
    for field in fields_of(register):
        value = child.data[field.name]
        if isinstance(value, bool):
            text = "yes" if value else "no"
        elif field.kind == rules.LIST + "flag":
            text = flag_words(tuple(value))
        else:
            text = ", ".join(map(str, value)) if isinstance(value, list) else str(value)
        none = "not recorded" if field.name == "present" else "none"
        found.append((wording.label(field.name), text or none))
    return found
