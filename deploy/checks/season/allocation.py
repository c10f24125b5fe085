"""Who gets which place, worked out from the rules alone: a second statement of them, which shares
no code with the product.

A school ranks children by class, then by straight-line distance in whole metres, then by lot; the
smaller value is first. Children ask the schools of their lists, best first, and each school keeps
those that rank first (Gale and Shapley 1962). Who holds a place keeps it or gets a better one.
"""
import dataclasses
import datetime
import hashlib
import itertools
import math
from collections.abc import Iterable, Mapping

# a school's code and a child's number
Pair = tuple[str, int]
Lots = Mapping[Pair, int]
PLAN = "plan"
# so long a family has to answer an offer, and as long again to answer the reminder of it
NOTICE = datetime.timedelta(days=14)
# class, distance and lot
Rank = tuple[int, int, int]


@dataclasses.dataclass(frozen=True)
class School:
    """A school: its point in metres, and its criteria in their order."""

    code: str
    name: str
    pan: int
    east: int
    north: int
    criteria: tuple[str, ...] = ()


@dataclasses.dataclass(frozen=True)
class Child:
    """A child with its application: the point of its home in metres, and the schools of its list,
    best first.
    """

    number: int
    name: str
    east: int
    north: int
    day: datetime.date
    preferences: tuple[str, ...]
    looked_after: bool = False
    flags: tuple[int, ...] = ()
    siblings: tuple[str, ...] = ()
    present: str = ""
    catchments: tuple[str, ...] = ()


def metres(school: School, child: Child) -> int:
    """The distance: the greatest whole number whose square is no more than that of the line."""
    return math.isqrt((school.east - child.east) ** 2 + (school.north - child.north) ** 2)


def is_met(criterion: str, school: School, child: Child) -> bool:
    """Whether a child meets a criterion of a school."""
    kind, _, value = criterion.partition(":")
    match kind:
        case "sibling":
            return school.code in child.siblings
        case "catchment":
            return school.code in child.catchments
        case "within":
            return metres(school, child) <= int(value)
        case "flag":
            return int(value) in child.flags
        case "feeder":
            return child.present == value
    raise ValueError(criterion)


def class_of(school: School, child: Child) -> int:
    """0 for a child that is or was looked after; else the number of the first criterion that it
    meets, from 1 on; the last is for those that meet none.
    """
    if child.looked_after:
        return 0
    met = (at for at, it in enumerate(school.criteria, 1) if is_met(it, school, child))
    return next(met, len(school.criteria) + 1)


def lot_of_seed(seed: str, draw: int, pair: Pair) -> int:
    """The lot that a seed draws: the first eight hexadecimal digits of the SHA-256 sum of four
    lines.
    """
    lines = f"{seed}\n{draw}\n{pair[0]}\n{pair[1]}\n"
    return int(hashlib.sha256(lines.encode()).hexdigest()[:8], 16)


class Season:
    """A season as the rules make it: who holds a place where, and who gave one up."""

    def __init__(self, schools: Iterable[School], children: Iterable[Child],
                 closing: datetime.date) -> None:
        self.schools = {it.code: it for it in schools}
        self.children = {it.number: it for it in children}
        self.lists = {it.number: it.preferences for it in self.children.values()}
        self.closing, self.draws, self.rounds = closing, 0, 0
        # the school of each child's place; whose place is by a plan; and who left which school
        self.places: dict[int, str] = {}
        self.plans: set[int] = set()
        self.left: set[Pair] = set()
        # the offers that have no answer, with their days, and those of which was reminded
        self.offers: dict[int, datetime.date] = {}
        self.reminded: dict[int, datetime.date] = {}

    def plan(self, child: int, school: str) -> None:
        """A plan names a school: the child is admitted, and its application ends."""
        self.lists.pop(child, None)
        self.plans.add(child)
        self.places[child] = school

    def answer(self, child: int) -> None:
        """An offer is accepted."""
        del self.offers[child]
        self.reminded.pop(child, None)

    def decline(self, child: int) -> None:
        """A child gives up its place, or does not answer in time, and that school is not offered to
        it again.
        """
        self.offers.pop(child, None)
        self.reminded.pop(child, None)
        self.left.add((self.places.pop(child), child))

    def offer(self, child: int, school: str, day: datetime.date) -> None:
        """A child is offered a place, which it has from now on."""
        if self.places.get(child) != school:
            self.places[child], self.offers[child] = school, day
            self.reminded.pop(child, None)

    def to_remind(self, day: datetime.date) -> list[int]:
        """Who is due for a reminder on a day: the last day of the answer is before it."""
        return sorted(it for it, offered in self.offers.items()
                      if it not in self.reminded and offered + NOTICE < day)

    def to_end(self, day: datetime.date) -> list[int]:
        """Whose offer may be withdrawn on a day."""
        return sorted(it for it, reminded in self.reminded.items() if reminded + NOTICE < day)

    def wanted(self, child: int) -> list[str]:
        """The schools of a child's list above its place, without those that it left."""
        held = self.places.get(child)
        above = itertools.takewhile(lambda it: it != held, self.lists.get(child, ()))
        return [it for it in above if (it, child) not in self.left]

    def entrants(self) -> list[int]:
        """Who takes part in the next round: in the first, who applied in time."""
        return [it for it in sorted(self.lists)
                if self.rounds or self.children[it].day <= self.closing]

    def pairs(self) -> list[Pair]:
        """The pairs for which a lot is drawn in the next round, by codes and numbers."""
        return sorted((code, it) for it in self.entrants() for code in self.wanted(it))

    def waiting(self, school: str) -> list[Pair]:
        """The pairs for which a lot is drawn in a fill at a school: of those that wait there."""
        return [(school, it) for it in sorted(self.lists) if school in self.wanted(it)]

    def rank(self, pair: Pair, lots: Lots) -> Rank:
        """How a school ranks a child: the smaller is first."""
        school, child = self.schools[pair[0]], self.children[pair[1]]
        return class_of(school, child), metres(school, child), lots[pair]

    def ties(self, pairs: Iterable[Pair]) -> list[list[Pair]]:
        """The groups of pairs that only a lot separates."""
        def alike(pair: Pair) -> tuple[str, Rank]:
            return pair[0], self.rank(pair, {pair: 0})

        groups = itertools.groupby(sorted(pairs, key=lambda it: (alike(it), it[1])), alike)
        found = (list(group) for _, group in groups)
        return [it for it in found if len(it) > 1]

    def taken(self, school: str) -> int:
        """How many children have a place at a school."""
        return list(self.places.values()).count(school)

    def vacancies(self, school: str) -> int:
        """How many places of a school nobody has."""
        return max(0, self.schools[school].pan - self.taken(school))

    def quota(self, school: str) -> int:
        """How many places of a school a round allots: those that no plan has taken."""
        plans = [self.places[it] for it in self.plans]
        return max(0, self.schools[school].pan - plans.count(school))

    def round(self, lots: Lots, day: datetime.date) -> dict[int, str | None]:
        """Holds a round, and returns the school of each child that takes part."""
        entrants = self.entrants()
        asks = {it: iter([*self.wanted(it), *filter(None, [self.places.get(it)])])
                for it in entrants}
        kept: dict[str, set[int]] = {it: set() for it in self.schools}
        unheard = list(entrants)
        while unheard:
            child = unheard.pop()
            school = next(asks[child], None)
            if school is None:
                continue
            kept[school].add(child)
            if last := self.turned_away(school, kept[school], lots):
                kept[school].remove(last)
                unheard.append(last)
        found = {child: school for school, them in kept.items() for child in them}
        for child, school in found.items():
            self.offer(child, school, day)
        self.draws, self.rounds = self.draws + 1, self.rounds + 1
        return {it: found.get(it) for it in entrants}

    def turned_away(self, school: str, asking: set[int], lots: Lots) -> int | None:
        """Whom a school turns away of those that ask: nobody while there is room. Who holds a place
        there ranks before all others, and keeps it.
        """
        others = [it for it in asking if self.places.get(it) != school]
        if len(asking) <= self.quota(school) or not others:
            return None
        return max(others, key=lambda it: self.rank((school, it), lots))

    def fill(self, school: str, lots: Lots, day: datetime.date) -> int:
        """Offers a vacancy to the first of those that wait, and returns who it is. A place that the
        child had ends.
        """
        _, first = min(self.waiting(school), key=lambda it: self.rank(it, lots))
        self.offer(first, school, day)
        self.draws += 1
        return first
