"""What the register says, in an office's words: places, deadlines, classes, states and days."""
import dataclasses
import datetime
import re
from collections.abc import Callable, Mapping

from . import criteria, days, model, rules
from .model import Draw, Place, Preference, Register

FOREVER = "This cannot be undone: the school is not offered to the child again."
# what is wrong with what was typed for a day
NOT_A_DAY = "a day as 17 March 2025 or 17/3/2025"
NOT_YET = "today or an earlier day"
WRONG_DECLINE = ("If a decline is of the wrong child, open Help before anything else is recorded:"
                 " what puts it right depends on who has the place by then.")
WAITS = "The child then waits at all its other schools, also at those that it wants less."
# the name of a refusal, as it ends the words of an answer
REFUSAL = re.compile(rf"(?<=\()({'|'.join(rules.RULES['refusals'])})(?=\))")
# the name of an account at the begin of a text
ACCOUNT = re.compile(r"[a-z0-9][a-z0-9._@+-]*(?=[ ,;:'’]|$)")
# whether a name is that of an account, which the application says that runs
is_account: Callable[[str], bool] = frozenset[str]().__contains__
# what came of a school of a child's list
STATES = {
    model.LEFT: "declined, offer withdrawn, or left", model.BEFORE: "before the first round",
    model.BELOW: "below the child's place",
}
KINDS = {model.OFFERED: "offered", model.ACCEPTED: "accepted", model.PLAN: "by a plan"}


def sentence(text: str) -> str:
    """A text that begins with a capital and ends with a stop. The name of an account stays as it is
    written.
    """
    found = ACCOUNT.match(text)
    text = text if found and is_account(found[0]) else text[:1].upper() + text[1:]
    return text if text.endswith((".", "?", "!")) or not text else f"{text}."


def by_refusals(text: str) -> list[tuple[str, bool]]:
    """The parts of a text, and whether each is the name of a refusal, which Help explains."""
    return [(it, at % 2 == 1) for at, it in enumerate(REFUSAL.split(text)) if it]


def weekday(day: datetime.date) -> str:
    """A day with its weekday, by which a slip is seen."""
    return f"{day:%A}, {days.in_words(day)}"


def moment(value: str) -> str:
    """A moment of the history by the clock of this machine."""
    found = datetime.datetime.fromisoformat(value).astimezone()
    return f"{found.day} {found:%B %Y, %H:%M}"


def day_of(text: str) -> datetime.date | None:
    """A day as it is typed: 2025-03-17, 17/3/2025 or 17 March 2025."""
    found = days.read(text.strip()) or days.uk_reading(text)
    readings = days.readings(text)
    return found or (readings.pop() if len(readings) == 1 else None)


def place(register: Register, found: Place | None) -> str:
    """The place of a child."""
    if found is None:
        return "The child has no place."
    school = register.schools[found.school].name
    if found.kind == model.PLAN:
        return f"The child has a place at {school} by a plan."
    if found.kind == model.ACCEPTED or found.day is None:
        return f"The child has a place at {school}, which was accepted."
    offered = f"The child was offered a place at {school} on {days.in_words(found.day)}"
    if found.reminded is None:
        return f"{offered}. There is no answer yet."
    return f"{offered}, and reminded on {days.in_words(found.reminded)}. There is no answer yet."


def deadline(found: Place | None) -> str:
    """The last day on which an offer may be answered, and what is due from the next day; or ""."""
    if found is None or found.kind != model.OFFERED or found.day is None:
        return ""
    last = days.in_words(days.answer_by(found.reminded or found.day))
    then = "the offer may be withdrawn" if found.reminded else "a reminder is due"
    return f"The last day to answer is {last}; from the next day {then}."


@dataclasses.dataclass(frozen=True)
class Order:
    """The criteria of a school that is not in the register yet."""

    criteria: tuple[str, ...]


def classes(school: criteria.School, words: Mapping[int, str]) -> list[str]:
    """The criteria of a school in their order."""
    return [criteria.in_brief(school, at, words) for at in range(1, len(school.criteria) + 1)]


def state(found: Preference, held: Place | None) -> str:
    """What came of a school of a child's list."""
    if found.state == model.HELD and held:
        return KINDS[held.kind]
    if found.state == model.WAITS:
        return f"Waiting list: {found.position:,} of {found.of:,}"
    return STATES[found.state]


def draw_in_words(draw: Draw) -> str:
    """A draw of the register as an office names it."""
    return f"round {draw.round}" if draw.round else (
        f"offer of a place at {draw.school} (draw {draw.number})")


# the fields of a child and of a school, as forms and lists have them
LABELS = {
    "child": "Number", "name": "Name", "east": "East, in metres", "north": "North, in metres",
    "looked_after": "Looked after", "flags": "Verified reasons", "siblings": "Siblings at",
    "catchments": "Catchment schools", "present": "Present school", "school": "Code",
    "pan": "Admission number", "criteria": "Criteria",
}


def label(field: str) -> str:
    """A field of a command in words; one that is new in the program by its name."""
    return LABELS.get(field) or field.replace("_", " ").capitalize()


def at_fields(wrong: Mapping[str, str]) -> list[tuple[str, str]]:
    """What is wrong with fields, each with its label, and where the field is."""
    return [(f"#{it}", f"{label(it)}: {words}") for it, words in wrong.items() if words]
