"""What a school has: who has a place there, who waits, and who was offered the last place in each
draw; and which of them somebody looks for.
"""
import dataclasses
import datetime
from collections.abc import Mapping, Sequence
from typing import TypeVar

from office.core import criteria, model, texts
from office.core.model import Register
from office.core.wording import KINDS, draw_in_words
from office.files.book import Page
from office.web.lists import draw_rows
from office.web.lists.register_rows import Cell, Rows

# whether a child that waits has another place meanwhile
NONE, ELSEWHERE = "none", "elsewhere"
ELSEWHERE_OR_NOT = ((NONE, "without any place"), (ELSEWHERE, "has a place elsewhere"))


@dataclasses.dataclass(frozen=True)
class Held:
    """A child with a place at a school: how, and the day of the offer, which a plan has not; and
    how it ranks there, which a child with a plan does not any more.
    """

    child: int
    name: str
    kind: str
    since: datetime.date | None
    number: int | None
    words: str
    metres: int | None


@dataclasses.dataclass(frozen=True)
class Now:
    """The place that a child has while it waits elsewhere: the school with its name, how it is
    held, and as which preference.
    """

    school: str
    name: str
    kind: str
    preference: str


@dataclasses.dataclass(frozen=True)
class Waiting:
    """A child that waits at a school, with its place meanwhile, if it has one."""

    position: int
    child: int
    name: str
    number: int
    words: str
    metres: int
    applied: datetime.date
    is_late: bool
    now: Now | None


Row = TypeVar("Row", Held, Waiting)


@dataclasses.dataclass(frozen=True)
class Last:
    """How many a school was offered in a draw, and the last of them, where that can be told."""

    draw: str
    day: str
    offers: int
    child: int | None
    words: str
    metres: int | None
    lot: int | None
    is_private: bool


@dataclasses.dataclass(frozen=True)
class Choice:
    """Which children somebody looks for: words of the name, or the number; the number of the
    criterion that they meet; and how a place is held, or whether there is another one.
    """

    words: str = ""
    met: str = ""
    place: str = ""

    @property
    def address(self) -> dict[str, str]:
        """The same in an address."""
        return {name: it for name, it in dataclasses.asdict(self).items() if it}

    def of(self, rows: Sequence[Row]) -> list[Row]:
        """Those of a list."""
        words = texts.folded(self.words).split()
        return [it for it in rows if self.met in ("", str(it.number))
                and self.place in ("", place_of(it)) and has_words(words, it)]


def has_words(words: Sequence[str], it: Held | Waiting) -> bool:
    """Whether a row has each word in its name, or as its number."""
    name = texts.folded(it.name) if words else ""
    return all(word in name or word == str(it.child) for word in words)


def place_of(it: Held | Waiting) -> str:
    """What is chosen of a row by its place."""
    if isinstance(it, Held):
        return it.kind
    return ELSEWHERE if it.now else NONE


def offered_on(register: Register, child: int, code: str) -> datetime.date | None:
    """The day on which a child was offered a school last."""
    for draw in reversed(register.draws):
        is_fresh = register.fresh[draw.number].get(child, False)
        if is_fresh and register.outcomes[draw.number][child] == code:
            return draw.day
    return None


def offered_in(register: Register, draw: int, code: str) -> int:
    """How many were offered a place at a school in a draw."""
    fresh = register.fresh[draw]
    return sum(school == code and fresh[child]
               for child, school in register.outcomes[draw].items())


def intake(register: Register, code: str, words: Mapping[int, str]) -> list[Held]:
    """Who has a place at a school, by names."""
    found, said = [], in_words(register, code, words)
    for child, it in register.places.items():
        if it.school == code:
            since = None if it.kind == model.PLAN else offered_on(register, child, code)
            application = register.applications.get(child)
            row = application.at(code) if application else None
            number, metres = (row.number, row.metres) if row else (None, None)
            found.append(Held(child, register.children[child].name, KINDS[it.kind], since, number,
                              "" if number is None else said[number], metres))
    return sorted(found, key=lambda it: (it.name.casefold(), it.child))


def in_words(register: Register, code: str, words: Mapping[int, str]) -> list[str]:
    """The criteria of a school by their numbers, with who is looked after and who meets none."""
    school = register.schools[code]
    return [criteria.in_brief(school, at, words) for at in range(len(school.criteria) + 2)]


def waiting(register: Register, code: str, words: Mapping[int, str]) -> list[Waiting]:
    """The waiting list of a school."""
    found, said = [], in_words(register, code, words)
    for child, application in register.applications.items():
        it = application.at(code)
        if it and it.state == model.WAITS and it.position is not None:
            found.append(Waiting(
                it.position, child, register.children[child].name, it.number, said[it.number],
                it.metres, application.day, not register.is_in_time(application.day),
                now(register, child)))
    return sorted(found, key=lambda it: (it.position, it.child))


def now(register: Register, child: int) -> Now | None:
    """The place of a child that waits, if it has one."""
    place = register.places.get(child)
    if place is None:
        return None
    wishes = register.applications[child].preferences
    preference = texts.nth(wishes.index(place.school) + 1) if place.school in wishes else ""
    return Now(place.school, register.schools[place.school].name, KINDS[place.kind], preference)


def last_offered(register: Register, code: str, words: Mapping[int, str]) -> list[Last]:
    """The last that was offered a place at a school, in each draw. The lots of those draws alone
    are read.
    """
    draws = [it for it in register.draws if it.school in (None, code)
             and code in register.outcomes[it.number].values()]
    rows = draw_rows.last_offered(dataclasses.replace(register, draws=draws), code)
    school, said, found = register.schools[code], in_words(register, code, words), []
    for draw, day, _, offers, child, number, metres, lot in rows[1:]:
        name = draw_in_words(register.draws[int(draw or 0) - 1])
        found.append(Last(
            name, str(day), int(offers or 0), whole(child),
            "" if number is None else said[int(number)], whole(metres), whole(lot),
            number is not None and criteria.is_private(school, int(number))))
    return found


def whole(value: Cell) -> int | None:
    """A number of a row."""
    return value if isinstance(value, int) else None


def pages(register: Register, code: str, words: Mapping[int, str]) -> list[Page]:
    """The same as the sheets of a workbook."""
    name = register.schools[code].name
    places: Rows = [["child", "name", "place", "offered on"]]
    places += [[it.child, it.name, it.kind, it.since.isoformat() if it.since else None]
               for it in intake(register, code, words)]
    lists: Rows = [["position", "child", "name", "class", "criterion", "metres"]]
    lists += [[it.position, it.child, it.name, it.number, it.words, it.metres]
              for it in waiting(register, code, words)]
    last: Rows = [["draw", "day", "offers", "last child", "criterion", "metres", "lot"]]
    last += [[it.draw, it.day, it.offers, it.child, it.words, it.metres, it.lot]
             for it in last_offered(register, code, words)]
    return [Page("intake", f"who has a place at {name}", places),
            Page("waiting list", f"who waits at {name}, in order", lists),
            Page("last offered", f"the last place that {name} has offered each time", last)]
