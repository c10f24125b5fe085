"""Where the children of a school live, as a map for the office alone; and by which criteria its
places are filled.
"""
import dataclasses
import math
from collections.abc import Callable, Mapping, Sequence
from typing import Any, NamedTuple

from office.core import criteria, model, texts
from office.core.model import Register, School
from office.core.wording import draw_in_words
from office.web.machinery import pictures
from office.web.machinery.pictures import Circle, Home

# classes of the pictures: the child is looked after, or meets no criterion
CARE, FAR = "care", "far"
PLAN = "by an EHC plan"
# a map reaches so far beyond the homes with a place and the circles
BEYOND, LEAST_REACH = 1.15, 1000


@dataclasses.dataclass(frozen=True)
class Filled:
    """The children of one class at a school: how many have a place and how many wait, and how far
    away the last of those with a place lives, unless that is withheld from families.
    """

    words: str
    kind: str
    has: int
    waits: int
    furthest: int | None


def kind_of(school: School, number: int) -> str:
    """The class of a colour and a shape for a class of children."""
    if number == 0:
        return CARE
    if number > len(school.criteria):
        return FAR
    return school.criteria[number - 1].partition(":")[0]


class Here(NamedTuple):
    """A child that has a place at a school or waits there, and how it ranks: a child with a plan
    has no list any more.
    """

    child: int
    state: str
    rank: tuple[int, int] | None


def here(register: Register, code: str) -> list[Here]:
    """Who has a place at a school, and who waits there."""
    found, applications = list[Here](), register.applications
    for child, it in register.places.items():
        listed = applications[child].preferences if child in applications else ()
        if it.school == code and code not in listed:
            found.append(Here(child, "has", None))
    for child, application in applications.items():
        if code not in application.preferences:
            continue
        row, place = application.row_of(code), register.places.get(child)
        if place is not None and place.school == code:
            found.append(Here(child, "has", (row["class"], row["metres"])))
        elif row["state"] == model.WAITS:
            found.append(Here(child, "waits", (row["class"], row["metres"])))
    return found


def filled(
    register: Register, code: str, children: Sequence[Here], flags: Mapping[int, str],
) -> list[Filled]:
    """The places of a school and its waiting list by the criteria, in their order."""
    school, by_class = register.schools[code], dict[int, list[tuple[str, int]]]()
    plans = 0
    for it in children:
        if it.rank is None:
            # (a child with a plan has no list any more)
            plans += 1
        else:
            number, metres = it.rank
            by_class.setdefault(number, []).append((it.state, metres))
    found = [Filled(PLAN, CARE, plans, 0, None)] if plans else []
    for number in range(len(school.criteria) + 2) if by_class else ():
        rows = by_class.get(number, [])
        has = [it for state, it in rows if state == "has"]
        is_private = criteria.is_private(school, number)
        found.append(Filled(
            criteria.in_brief(school, number, flags), kind_of(school, number), len(has),
            len(rows) - len(has), None if is_private else max(has, default=None)))
    return found


def homes(
    register: Register, code: str, children: Sequence[Here], address: Callable[[int], str],
) -> list[Home]:
    """The homes of those who have a place or wait, with the addresses of their screens."""
    school, found = register.schools[code], []
    for it in children:
        data = register.children[it.child]
        kind = kind_of(school, it.rank[0]) if it.rank else CARE
        hint = f"{data.name}, child {it.child}" + (f", {it.rank[1]:,} metres" if it.rank else "")
        found.append(Home(data.east, data.north, kind, it.state, hint, address(it.child)))
    return found


def circles(register: Register, code: str) -> list[Circle]:
    """The distances that decide: of the criteria, and of the last place of the last draw."""
    school = register.schools[code]
    found = [Circle(metres, f"{metres:,} metres", "criterion",
                    f"a criterion of the school: {metres:,} metres")
             for metres in (int(it.partition(":")[2]) for it in school.criteria
                            if it.startswith("within:"))]
    draw = next((it for it in reversed(register.draws) if it.school in (None, code)), None)
    last = register.drawn(draw.number).cutoffs.get(code) if draw else None
    if draw and last and not criteria.is_private(school, last.number):
        words = f"last place: {last.metres:,} metres"
        found.append(Circle(last.metres, words, "last",
                            f"the last place of {draw_in_words(draw)}: {last.metres:,} metres"))
    return found


def drawn(
    register: Register, code: str, found: Sequence[Home], rings: Sequence[Circle],
) -> tuple[Any, str]:
    """The map of homes, and what it says in one sentence."""
    school = register.schools[code]
    has = sum(it.state == "has" for it in found)
    says = (f"{texts.count(has, 'child has', 'children have')} a place, and"
            f" {texts.count(len(found) - has, 'waits', 'wait')}.")
    reach = max([LEAST_REACH, *(it.metres for it in rings), *(
        math.hypot(it.east - school.east, it.north - school.north)
        for it in found if it.state == "has")])
    others = [(it.code, it.east, it.north) for it in register.schools.values() if it.code != code]
    picture, away = pictures.school_map(
        "homes-drawn", f"Homes of {school.name}", says, (school.code, school.east, school.north),
        others, found, rings, round(reach * BEYOND))
    return picture, says + (f" {texts.count(away, 'home is', 'homes are')} further away than the"
                            " map shows." if away else "")
