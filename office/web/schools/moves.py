"""How the waiting list of a school has moved since each draw: the positions of children as the
copies from before and after it have them, beside those of now. None is worked out here. For the
office alone.
"""
import array
import dataclasses
import datetime
import itertools
from collections.abc import Iterator, Sequence
from typing import TypeAlias

from register_files import Refused

from office.core import days, model, texts
from office.core.model import Register
from office.core.wording import draw_in_words
from office.web.copies.copies import Copies, read_copy
from office.web.rounds.store import DrawStore

from . import intake

# so many draws are looked at, the last ones; and the positions of so many copies are kept
DRAWS, KEPT = 4, 40
# a picture follows the children that had these positions first
FOLLOWED = (1, 3, 10, 25, 50, 100, 200, 400, 800)
# and its sentence the one that was nearest to this position
MIDDLE = 50
Positions = dict[int, int]
# numbers without an object for each
Numbers: TypeAlias = "array.array[int]"


def positions(register: Register, code: str) -> Positions:
    """The position of each child that waits at a school."""
    found = {}
    for child, application in register.applications.items():
        it = application.at(code)
        if it and it.state == model.WAITS and it.position is not None:
            found[child] = it.position
    return found


class OfCopies:
    """The positions that copies have, each of which is read once."""

    def __init__(self, copies: Copies) -> None:
        self.copies = copies
        # by the copy and its file: of each school the children, and their positions
        self.kept: dict[tuple[int, ...], dict[str, tuple[Numbers, Numbers]]] = {}

    def at(self, number: int | None, code: str) -> Positions | None:
        """Those of a school, or None where there is no copy, or it cannot be read."""
        try:
            path = self.copies.path(number) if number else None
            if path is None:
                return None
            found = path.stat()
            key = number or 0, found.st_ino, found.st_size, found.st_mtime_ns
            if key not in self.kept:
                register = read_copy(path)
                for old in list(self.kept)[:-KEPT]:
                    del self.kept[old]
                self.kept[key] = {it: packed(positions(register, it)) for it in register.schools}
            there = self.kept[key].get(code)
            return dict(zip(*there)) if there else {}
        except (OSError, Refused):
            return None


def packed(found: Positions) -> tuple[Numbers, Numbers]:
    """Children, and their positions."""
    return array.array("l", found.keys()), array.array("l", found.values())


@dataclasses.dataclass(frozen=True)
class Draws:
    """A round, or the fills that were held together with one closure: in words, with the day, how
    many places they offered at the school, and the copies from before and after them.
    """

    words: str
    day: datetime.date
    offers: int
    before: int | None
    after: int | None


@dataclasses.dataclass(frozen=True)
class Moved:
    """What a list did in draws and since: how many waited before and after them, where a copy says
    it; how many have joined and left it since; how many positions it moved in them, and since then,
    in words; and the positions after them.
    """

    of: Draws
    before: int | None
    after: int | None
    joined: int | None
    left: int | None
    in_them: str
    since: str
    positions: Positions | None


def draws_at(register: Register, store: DrawStore, code: str) -> Iterator[Draws]:
    """The draws of a school in their order."""
    found = [(it, *store.copies_of(it)) for it in register.draws if it.school in (None, code)]
    for _, group in itertools.groupby(
            found, lambda it: it[1:] if any(it[1:]) else (0, it[0].number)):
        same = list(group)
        first, before, after = same[0]
        words = draw_in_words(first) if len(same) == 1 else (
            f"offer of {len(same)} places at {code} (draws {first.number} to"
            f" {same[-1][0].number})")
        offers = sum(intake.offered_in(register, it[0].number, code) for it in same)
        yield Draws(words, first.day, offers, before, after)


def moved(
    register: Register, store: DrawStore, copies: OfCopies, code: str,
) -> tuple[list[Moved], int]:
    """What the list did in each of the last draws and since, the first one first; and how many
    draws are left out, as they are earlier.
    """
    every, present = list(draws_at(register, store, code)), positions(register, code)
    found = []
    for it in every[-DRAWS:]:
        found.append(moved_by(it, copies.at(it.before, code), copies.at(it.after, code), present))
    return found, len(every) - len(found)


def moved_by(
    of: Draws, before: Positions | None, after: Positions | None, present: Positions,
) -> Moved:
    """What the list did in draws and since, by its positions before and after them."""
    joined = left = None
    if after is not None:
        joined, left = len(present.keys() - after.keys()), len(after.keys() - present.keys())
    return Moved(of, None if before is None else len(before),
                 None if after is None else len(after), joined, left,
                 by(before, after), by(after, present), after)


def by(one: Positions | None, other: Positions | None) -> str:
    """How many children who wait at both moments moved up and how many down, with the most
    positions; or that nobody moved.
    """
    if one is None or other is None:
        return "not known: no copy"
    ups = [one[it] - other[it] for it in one.keys() & other.keys()]
    if not ups:
        return "nobody waited at both moments" if one else "no list before it"
    said = [way(ups, "up"), way([-it for it in ups], "down")]
    return "; ".join(filter(None, said)) or "nobody moved"


def way(ups: Sequence[int], words: str) -> str:
    """How many children moved one way, and by how many positions at most; or ""."""
    found = [it for it in ups if it > 0]
    if not found:
        return ""
    count, most = texts.count(len(found), "child", "children"), texts.count(max(found), "position")
    return f"{count} moved {words}, by {'' if min(found) == max(found) else 'up to '}{most}"


def tracks(
    found: Sequence[Moved], register: Register, code: str,
) -> dict[int, list[int | None]]:
    """The positions of some children, by their numbers, after each of the draws of which that is
    known, and now: of those who waited after the first of these. 0 is a place at the school, and
    None is none.
    """
    known = [it.positions for it in found if it.positions is not None]
    if not known or not known[0]:
        return {}
    # (of several at one position the one with the lowest number)
    first = dict[int, int]()
    for child, at in sorted(known[0].items()):
        first.setdefault(at, child)
    followed = [first[it] for it in (*FOLLOWED, max(first)) if it in first]
    return {it: track(it, known, register, code) for it in followed}


def track(
    child: int, known: Sequence[Positions], register: Register, code: str,
) -> list[int | None]:
    """The positions of a child."""
    present = positions_of(register, child, code)
    found: list[int | None] = [it.get(child) for it in known]
    place = register.places.get(child)
    return [*found, 0 if place and place.school == code else present]


def positions_of(register: Register, child: int, code: str) -> int | None:
    """The position of a child now."""
    application = register.applications.get(child)
    it = application.at(code) if application else None
    return it.position if it and it.state == model.WAITS else None


@dataclasses.dataclass(frozen=True)
class Step:
    """Where a child was on a waiting list: when, in words; its position, or none if it did not
    wait; and how many waited, or none where no copy says it.
    """

    when: str
    position: int | None
    of: int | None


def of_child(
    register: Register, store: DrawStore, copies: OfCopies, code: str, child: int,
) -> Iterator[Step]:
    """The positions of a child after each of the last draws of a school, and now; nothing of a list
    on which it has not waited.
    """
    found, _ = moved(register, store, copies, code)
    present = positions(register, code)
    steps = [Step(f"After {it.of.words}, {days.in_words(it.of.day)}",
                  None if it.positions is None else it.positions.get(child), it.after)
             for it in found]
    steps.append(Step("Now", present.get(child), len(present)))
    if any(it.position for it in steps):
        yield from steps


def says(found: Sequence[Moved], present: Positions) -> str:
    """What the list did since the first of the draws of which a copy tells it, in a few sentences.
    """
    first = next((it for it in found if it.positions), None)
    after = first.positions if first else None
    if first is None or not after:
        return "No copy from after a round or an offer says who waited then."
    waited = texts.count(len(after), "child", "children")
    the = "the " if first.of.words.startswith("offer") else ""
    said = (f"After {the}{first.of.words}, {waited} waited. Since then"
            f" {texts.count(first.joined or 0, 'child has', 'children have')} joined the list, and"
            f" {texts.count(first.left or 0, 'has', 'have')} left it")
    offers = sum(it.of.offers for it in found[found.index(first) + 1:])
    said += f"; {texts.count(offers, 'place was', 'places were')} offered." if offers else "."
    if both := after.keys() & present.keys():
        _, child = min((abs(after[it] - MIDDLE), it) for it in both)
        said += (f" The child at position {after[child]:,} then is at position"
                 f" {present[child]:,} now.")
    return said
