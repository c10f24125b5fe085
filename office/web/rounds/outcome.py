"""The outcome of a draw as it is read by people: offers, moves, places that were kept, and children
without one, by school, by first preference and by child. All of it is what the rehearsal kept of
the program, but for the data of the children.
"""
import collections
import dataclasses
import functools
from collections.abc import Collection, Iterable, Mapping, Sequence

from office.core import criteria, model, texts
from office.core.model import Cutoff, Pair, Register
from office.web.explain import reasons

from .rehearsal import NO_PLACE, Outcome
from .terms import Draw

OFFER, MOVE, KEPT, NONE = "a new place", "moves", "keeps its place", "no place"
# of a child that is in the register and took no part, as it applied after the closing date
LATE = "late: not in this round"
# what a child may be looked at for
CARE, LOT, NOTE, ENDS = "looked after", "by a lot", "note", "accepted place ends"


@dataclasses.dataclass(frozen=True)
class OfChild:
    """What a draw did for a child: the schools that it had and has, or "", and that in words;
    whether the family had accepted the place that ends; its name; its list, best first; and what it
    may be looked at for.
    """

    draw: int
    child: int
    had: str
    has: str
    what: str
    had_accepted: bool = False
    name: str = ""
    listed: tuple[str, ...] = ()
    marks: tuple[str, ...] = ()

    @property
    def rank(self) -> int | None:
        """How many schools it listed before the one that it has; None if it listed that not."""
        return self.listed.index(self.has) if self.has in self.listed else None

    @property
    def nth(self) -> str:
        """As which preference it listed the school that it has, or ""."""
        return "" if self.rank is None else texts.nth(self.rank + 1)


# the places of a school, as a rehearsal keeps them
PLACES = ("pan", "plans", "vacancies", "waiting", "taken", "late")


@dataclasses.dataclass(frozen=True)
class OfSchool:
    """What the draws did at a school: how many new places, those of them for children who move from
    another school, how many kept theirs, and how many left for another; and its places after them:
    its admission number, how many are held by plans, how many are vacant, how many children wait
    for one, how many are held, and how many of those who wait applied late. (A rehearsal of an
    earlier release did not keep these.) And how many put it first, and the last child that it takes
    in, in words.
    """

    school: str
    offers: int
    moves: int
    kept: int
    gone: int
    pan: int | None = None
    plans: int | None = None
    vacancies: int | None = None
    waiting: int | None = None
    taken: int | None = None
    late: int | None = None
    firsts: int | None = None
    last: str = ""

    @property
    def is_within(self) -> bool:
        """Whether it offers no more places than it has. (Plans may go beyond these.)"""
        return not self.offers or self.taken is None or self.taken <= (self.pan or 0)


@dataclasses.dataclass(frozen=True)
class Whole:
    """The whole outcome: the rows of its children, with those who were late; of its schools; how
    many of those who put each school first have which preference; and why each child was refused
    at a school, with the last child that was taken in there.
    """

    children: list[OfChild]
    schools: list[OfSchool]
    firsts: dict[str, list[int]]
    refused: dict[Pair, str]
    last: dict[str, Cutoff]

    @functools.cached_property
    def took_part(self) -> int:
        """How many children took part."""
        return len({it.child for it in self.children if it.what != LATE})

    @functools.cached_property
    def counts(self) -> dict[str, int]:
        """How many children have each outcome."""
        found = collections.Counter(it.what for it in self.children)
        return {what: found[what] for what in (OFFER, MOVE, KEPT, NONE, LATE)}


def of_child(found: Outcome, accepted_ended: Collection[list[int]] = ()) -> OfChild:
    """An outcome in words. Of those that give up a place which was accepted, the draw and the child
    are given.
    """
    draw, child, had, has, is_fresh = found
    what = NONE if has is None else KEPT if not is_fresh else MOVE if had else OFFER
    return OfChild(draw, child, had or "", has or "", what, [draw, child] in accepted_ended)


def by_child(found: Sequence[Outcome], accepted_ended: Collection[list[int]] = ()) -> list[OfChild]:
    """The outcomes of all children, those first whose place is new."""
    order = (OFFER, MOVE, NONE, KEPT)
    return sorted((of_child(it, accepted_ended) for it in found),
                  key=lambda it: (it.draw, order.index(it.what), it.child))


def by_school(
    register: Register, rows: Sequence[OfChild], places: Mapping[str, Sequence[int]] | None = None,
) -> list[OfSchool]:
    """The outcomes of all schools of a register, with their places as the rehearsal had them."""
    has = collections.Counter((it.has, it.what) for it in rows)
    left = collections.Counter(it.had for it in rows if it.what == MOVE)
    found = [OfSchool(code, has[code, OFFER] + has[code, MOVE], has[code, MOVE],
                      has[code, KEPT], left[code]) for code in sorted(register.schools)]
    return [dataclasses.replace(it, **dict(zip(PLACES, (places or {}).get(it.school, ()))))
            for it in found]


def late(register: Register, draw: Draw) -> list[int]:
    """The children who had applied by the day of a first round and take no part in it."""
    if draw.terms.school or draw.terms.first > 1:
        return []
    return sorted(child for child, it in register.applications.items()
                  if not register.is_in_time(it.day) and it.day <= draw.terms.day)


def whole(register: Register, draw: Draw, flags: Mapping[int, str]) -> Whole:
    """The outcome of a draw that was rehearsed."""
    # (a rehearsal of an earlier release did not keep all of it)
    kept = draw.rehearsal
    last = {code: Cutoff(number, metres, 0)
            for code, (number, metres) in kept.get("last", {}).items()}
    rows = by_child(kept["outcomes"], kept.get("accepted_ended", []))
    late_rows = [OfChild(draw.terms.first, it, "", "", LATE) for it in late(register, draw)]
    by_lot = {(number, child) for number, child in kept.get("by_lot", [])}
    firsts = kept.get("firsts", {})
    return Whole(
        [with_data(register, it, by_lot) for it in [*rows, *late_rows]],
        [dataclasses.replace(it, firsts=sum(firsts[it.school]) if it.school in firsts else
                             0 if firsts else None,
                             last=last_in_words(register, it, last.get(it.school), flags))
         for it in by_school(register, rows, kept.get("schools", {}))],
        firsts,
        {(code, child): by for code, found in kept.get("refused", {}).items()
         for by, children in found.items() for child in children},
        last)


def with_data(register: Register, it: OfChild, by_lot: Collection[tuple[int, int]]) -> OfChild:
    """The same with the data of the child."""
    child, application = register.children.get(it.child), register.applications.get(it.child)
    marks = [mark for mark, is_so in (
        (CARE, child is not None and child.looked_after), (LOT, (it.draw, it.child) in by_lot),
        (ENDS, it.had_accepted)) if is_so]
    return dataclasses.replace(
        it, name=child.name if child else "", marks=tuple(marks),
        listed=application.preferences if application else ())


def last_in_words(
    register: Register, it: OfSchool, last: Cutoff | None, flags: Mapping[int, str],
) -> str:
    """The last child that a school takes in, as an office may say it aloud; or that nobody was
    refused.
    """
    if it.waiting == 0:
        return "Nobody waits"
    if last is None:
        return ""
    school = register.schools[it.school]
    words = criteria.in_brief(school, last.number, flags)
    said = "distance withheld" if criteria.is_private(school, last.number) else f"{last.metres:,} m"
    return f"{words[:1].upper()}{words[1:]}, {said}"


def why_not(
    register: Register, found: Whole, it: OfChild,
) -> list[tuple[str, str]]:
    """The schools that a child wants more than what it has, with why it was refused there, in a few
    words. The metres of who is looked after or has a flag are withheld.
    """
    above = it.listed[:it.listed.index(it.has)] if it.has in it.listed else it.listed
    rows = []
    for code in above:
        if (code, it.child) in found.refused:
            by, last = found.refused[code, it.child] or None, found.last.get(code)
            is_said = last and not criteria.is_private(register.schools[code], last.number)
            metres = register.rank(code, it.child)[1] - last.metres if last and is_said else None
            rows.append((code, reasons.why(by, last, metres)))
    return rows


def shares(firsts: Iterable[Sequence[int]]) -> list[int]:
    """How many children have their first, second, third or a lower preference, and no place."""
    return [sum(it) for it in zip(*firsts)] or [0] * (NO_PLACE + 1)


def plans(register: Register) -> int:
    """How many children have a place by a plan."""
    return sum(it.kind == model.PLAN for it in register.places.values())
