"""What a round that was held would have given a child by another list, by an application of another
day, or by another criterion: what was typed, what is wrong with it, and the answer in words.
"""
import dataclasses
from collections.abc import Mapping, Sequence

from register_files import Refused

from office.core import texts
from office.core.model import Child, Draw, Register
from office.core.wording import NOT_A_DAY, day_of, weekday
from office.web.machinery import numbers
from office.web.parts import Parts

from . import explanations, other_outcomes
from .held_again import turn
from .why import nth


class NotThere(Refused):
    """A child that had no application yet."""


@dataclasses.dataclass(frozen=True)
class Setting:
    """A round with the registers from before and after it, as a child saw it."""

    draw: Draw
    before: Register
    after: Register
    child: int

    @property
    def wanted(self) -> list[str]:
        """The schools that the child wanted in the round, in the order of its list."""
        return self.before.wanted.get(self.child, [])

    def got(self, code: str | None) -> str:
        """What it means to get a school, or none."""
        own = self.before.own.get(self.child)
        if code is None:
            return "no place"
        listed = self.before.applications[self.child].preferences
        name = f"{self.before.schools[code].name} ({code}), the {nth(listed.index(code) + 1)}"
        return f"the present place at {name}" if code == own else f"a place at {name}"


def setting(parts: Parts, draw: Draw, child: int) -> Setting:
    """A round as a child saw it, or a refusal where it cannot be told."""
    before = explanations.before(parts, draw)
    if child not in before.applications:
        raise NotThere("the child had no application when the round was run")
    return Setting(draw, before, parts.desk.register(), child)


@dataclasses.dataclass(frozen=True)
class Typed:
    """Another list as it was typed, and what is wrong at which field."""

    codes: list[str]
    wrong: dict[str, str]

    @property
    def chosen(self) -> list[str]:
        """The schools of the list, best first."""
        return [it for it in self.codes if it]


def typed(found: Setting, given: Mapping[str, str]) -> Typed:
    """The list of a form with a menu for each preference."""
    codes = [given.get(f"p{at}", code) for at, code in enumerate(found.wanted, 1)]
    wrong: dict[str, str] = {}
    for at, code in enumerate(codes, 1):
        if code and code not in found.wanted:
            wrong[f"p{at}"] = "one of the schools that the child wanted in the round"
        elif code and code in codes[:at - 1]:
            wrong[f"p{at}"] = f"each school once: {code} is above"
    return Typed(codes, wrong)


def by_list(found: Setting, codes: Sequence[str]) -> list[str]:
    """The answer to another list, in sentences."""
    with turn() as program:
        school = other_outcomes.by_list(program, found.before, found.after, found.child, codes)
    had = found.after.outcomes[found.draw.number][found.child]
    listed = f"the list {', '.join(codes)}" if codes else "no school"
    said = [f"With {listed}: {found.got(school)}.",
            f"With the family’s own list, {', '.join(found.wanted)}: {found.got(had)}."]
    if school == had:
        return [*said, "The other list would have changed nothing for this child."]
    return [*said, "No other list gives a child a school that is higher on the family’s own list:"
            " that is proved."]


def by_day(found: Setting, text: str) -> tuple[list[str], str]:
    """The answer to an application of another day, in sentences; or what is wrong with the day."""
    day = day_of(text)
    if day is None:
        return [], NOT_A_DAY
    with turn() as program:
        span = other_outcomes.by_day(program, found.before, found.after, found.child, day)
    applied = found.before.applications[found.child].day
    said = [f"By an application of {weekday(day)}: {found.got(span.best)}."]
    if not found.before.is_in_time(day):
        said[0] = f"By an application of {weekday(day)}: no part in the first round, as it is late."
    elif found.before.is_in_time(applied):
        said.append("The day of an application that is in time makes no difference.")
    elif span.best != span.worst:
        said[0] = (f"By an application of {weekday(day)}: between {found.got(span.best)}, and"
                   f" {found.got(span.worst)}.")
        said.append("That depends on lots, which were not drawn for a late application.")
    else:
        said.append("No lot that could have been drawn changes that.")
    return said, ""


# what of a child is other, in the value of a choice: it is before the number or the code
CARE, FLAG, SIBLING, CATCHMENT, PRESENT = "care", "flag", "sibling", "catchment", "present"


def criteria_of(found: Setting, flags: Mapping[int, str]) -> dict[str, str]:
    """The criteria of the schools of its list that the child did not meet and that are no distance:
    by the value of the choice, in words.
    """
    child = found.before.children[found.child]
    made = {} if child.looked_after else {CARE: "looked after, or previously looked after"}
    for code in found.wanted:
        school = found.before.schools[code]
        for it in school.criteria:
            kind, _, value = it.partition(":")
            if kind == "flag" and int(value) not in child.flags:
                made[f"{FLAG}:{value}"] = flags.get(int(value)) or f"verified reason {value}"
            elif kind == "sibling" and code not in child.siblings:
                made[f"{SIBLING}:{code}"] = f"a brother or sister at {school.name}"
            elif kind == "catchment" and code not in child.catchments:
                made[f"{CATCHMENT}:{code}"] = f"a home in the catchment area of {school.name}"
            elif kind == "feeder" and value != child.present:
                made[f"{PRESENT}:{value}"] = f"in the feeder school {value}"
    return made


def with_details(child: Child, choice: str) -> Child:
    """A child that meets another criterion."""
    kind, _, value = choice.partition(":")
    others: dict[str, dict[str, object]] = {
        CARE: {"looked_after": True}, FLAG: {"flags": sorted({*child.flags, numbers.read(value)})},
        SIBLING: {"siblings": sorted({*child.siblings, value})}, PRESENT: {"present": value},
        CATCHMENT: {"catchments": sorted({*child.catchments, value})},
    }
    return child._replace(data={**child.data, **others[kind]})


def by_criterion(found: Setting, choice: str, words: str) -> list[str]:
    """The answer to another criterion, in sentences."""
    with turn() as program:
        school = other_outcomes.by_details(program, found.before, found.after,
                                           with_details(found.before.children[found.child], choice))
    had = found.after.outcomes[found.draw.number][found.child]
    return [f"With this criterion ({words}): {found.got(school)}.",
            f"With the child’s own details: {found.got(had)}."]


def preference(at: int) -> str:
    """The label of a menu."""
    text = nth(at)
    return texts.visible(text[:1].upper() + text[1:])
