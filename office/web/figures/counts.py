"""The figures of a round, counted from the register after it, and which of them are withheld. The
last child that was offered a place at a school, and who was refused there, are the program's.
"""
import collections
import dataclasses
import datetime
from collections.abc import Iterator

from register_files import Refused

from office.core import texts
from office.core.model import OFFERED, PLAN
from office.web.rounds.held_draw import Held

from .withheld import LEAST, withheld

# preferences from this one on are counted together for each school
LOWER = 4
NONE = "none"
# what a count is of, and the sums that tie counts together: each of a sum with 1 or -1
What = tuple[object, ...]
Counts = dict[What, int]
Sum = list[tuple[What, int]]


@dataclasses.dataclass
class School:
    """The figures of one school: applications by preference (1 to LOWER), and of the round its
    offers by class, how many were refused, and the class and metres of the last that was offered a
    place. Where somebody was refused without a reason, the data were changed after the round.
    """

    code: str
    name: str
    pan: int
    criteria: tuple[str, ...]
    east: int
    north: int
    applications: collections.Counter[int] = dataclasses.field(default_factory=collections.Counter)
    plans: int = 0
    kept: int = 0
    offers: collections.Counter[int] = dataclasses.field(default_factory=collections.Counter)
    turned_away: int = 0
    last: tuple[int, int] | None = None
    has_no_reason: bool = False


@dataclasses.dataclass
class Figures:
    """The figures of a round. `met` counts children by the preference that they have after it, or
    NONE.
    """

    year: int
    phase: str
    round: int
    day: datetime.date
    children: int
    met: collections.Counter[int | str]
    kept: int
    offers: int
    schools: dict[str, School]
    homes: list[tuple[int, int]]
    hidden: set[What] = dataclasses.field(default_factory=set)


def count(seen: Held) -> Figures:
    """The figures of a round."""
    register, outcomes = seen.register, seen.outcomes
    see_ranked(seen)
    met = collections.Counter(preference_of(seen, child) for child in outcomes)
    kept = sum(1 for child, code in outcomes.items() if code and not seen.fresh[child])
    homes = [(it.east, it.north) for it in (register.children[child] for child in outcomes)]
    found = Figures(register.year, register.phase, seen.number, seen.draw.day, len(outcomes), met,
                    kept, sum(seen.fresh.values()),
                    {code: school_of(seen, code) for code in register.schools}, homes)
    found.hidden = withheld(*published(found))
    return found


def see_ranked(seen: Held) -> None:
    """Refuses a round with a child whose application a plan has ended since: a register shows no
    class and no distance of it.
    """
    ended = next((it for it in seen.outcomes if it not in seen.register.applications), None)
    if ended:
        raise Refused(f"{seen.register.name} has a plan that ended the application of child {ended}"
                      f" after round {seen.number}: the copy from right before the round is needed")


def listed_by(seen: Held, child: int) -> tuple[str, ...]:
    """The schools that a child listed, best first."""
    return seen.register.applications[child].preferences


def preference_of(seen: Held, child: int) -> int | str:
    """The preference that a child has after the round, or NONE."""
    code = seen.outcomes[child]
    return NONE if code is None else 1 + listed_by(seen, child).index(code)


def school_of(seen: Held, code: str) -> School:
    """The figures of a school."""
    it, drawn = seen.register.schools[code], seen.drawn
    found = School(code, it.name, it.pan, it.criteria, it.east, it.north, plans=it.plans)
    for child, has in seen.outcomes.items():
        listed = listed_by(seen, child)
        if code in listed:
            found.applications[min(1 + listed.index(code), LOWER)] += 1
        if has == code and seen.fresh[child]:
            found.offers[seen.register.rank(code, child)[0]] += 1
        found.kept += has == code and not seen.fresh[child]
    reasons = [by for (there, _), by in drawn.refusals.items() if there == code]
    found.turned_away, found.has_no_reason = len(reasons), None in reasons
    last = drawn.cutoffs.get(code)
    found.last = last and last[:2]
    return found


def published(found: Figures) -> tuple[Counts, list[Sum]]:
    """The counts that the page has by their keys, and the sums by which they hang together. In the
    first round nobody kept a place, and the page has none.
    """
    places = {"offers": found.offers, **({"kept": found.kept} if found.round > 1 else {})}
    met: Counts = {("met", it): number for it, number in found.met.items()}
    met[("met", NONE)] = found.met[NONE]
    counts: Counts = {**met, **{(it,): number for it, number in places.items()}}
    sums: list[Sum] = [[(it, 1) for it in met],
                       [(("met", NONE), 1), *(((it,), 1) for it in places)]]
    for it in found.schools.values():
        counts |= counts_of(it, "kept" in places)
        sums += sums_of(it, "kept" in places)
    for what in places:
        sums.append([((what,), -1), *(((what, code), 1) for code in found.schools)])
    # (each child that takes part has one first preference)
    sums.append([(("applied", code, 1), 1) for code in found.schools])
    return counts, sums


def places_of(school: School, has_kept: bool) -> Counts:
    """The counts of a school's places: of plans, of offers and, if the page has them, kept ones."""
    kept: Counts = {("kept", school.code): school.kept} if has_kept else {}
    return {("plans", school.code): school.plans,
            ("offers", school.code): school.offers.total(), **kept}


def parts_of(school: School) -> tuple[list[What], list[What]]:
    """The keys of a school's applications by preference, and of its offers by class."""
    classes = range(len(school.criteria) + 2)
    return ([("applied", school.code, at) for at in range(1, LOWER + 1)],
            [("class", school.code, at) for at in classes])


def counts_of(school: School, has_kept: bool) -> Counts:
    """The counts of a school."""
    applied, classes = parts_of(school)
    return {
        **{key: school.applications[at] for at, key in enumerate(applied, 1)},
        **{key: school.offers[at] for at, key in enumerate(classes)},
        **places_of(school, has_kept),
        ("applications", school.code): school.applications.total(),
    }


def sums_of(school: School, has_kept: bool) -> Iterator[Sum]:
    """The sums of a school's counts."""
    applied, classes = parts_of(school)
    yield [(("applications", school.code), -1), *((key, 1) for key in applied)]
    yield [(("offers", school.code), -1), *((key, 1) for key in classes)]
    own = places_of(school, has_kept)
    if sum(own.values()) == school.pan:
        # (the admission number is published, and that the school is full can be seen)
        yield [(key, 1) for key in own]


def count_unchanged(seen: Held, option: str) -> Figures:
    """The same, where the register had no draw and no change after the round: admission numbers,
    children and plans of today are not those that the round saw. (What leaves no trace, such as a
    number that was raised where nobody was turned away, cannot be told from the register.)
    """
    register, draw = seen.register, seen.draw
    advice = f"name the copy from right before round {draw.round} by {option}"
    if draw != register.draws[-1]:
        later = texts.count(len(register.draws) - draw.number, "draw")
        raise Refused(f"{register.name} had {later} after round {draw.round}: {advice}")
    if not all(is_as_left(seen, child) for child in seen.outcomes):
        raise Refused(f"{register.name} has answers, reminders, withdrawals or plans of after round"
                      f" {draw.round}: {advice}")
    found = count(seen)
    for it in found.schools.values():
        if is_changed(it):
            raise Refused(f"{register.name} has data of {it.code} or of its children that were"
                          f" changed after round {draw.round}: {advice}")
    return found


def is_as_left(seen: Held, child: int) -> bool:
    """Whether a child has what a round left it: an offer of its day, the place that it had, or
    none.
    """
    code, place = seen.outcomes[child], seen.register.places.get(child)
    if code is None or place is None:
        return code is None and place is None and child in seen.register.applications
    an_offer = (OFFERED, seen.draw.day, None)
    is_left = not seen.fresh[child] or (place.kind, place.day, place.reminded) == an_offer
    return place.school == code and place.kind != PLAN and is_left


def is_changed(school: School) -> bool:
    """Whether a school's figures are none of a round: whom it refused, it refused for a reason, and
    it is full.
    """
    is_full = school.plans + school.kept + school.offers.total() >= school.pan
    return school.has_no_reason or bool(school.turned_away) and not is_full


def is_published(found: Figures) -> None:
    """Refuses figures of so few children that nothing can be published of them."""
    if found.children < LEAST:
        raise Refused(f"{found.children} children took part in round {found.round}: figures of"
                      f" fewer than {LEAST} children are not published")
