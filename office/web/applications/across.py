"""What is wrong with an application beside others: rows of the same file, and a register."""
import datetime
import statistics
from collections.abc import Iterable, Iterator, Mapping, Sequence
from typing import Protocol, TypeVar

from office.core import child_fields, days, fields, texts
from office.core.model import Child, Register

NEAR_METRES, FAR_METRES, FAR_DAYS = 200, 50_000, 370
# near names are looked for at homes with at most this many children, and a home among the first so
# many of a name; a row is named beside so many others at most
MOST_AT_HOME, MOST_BESIDE = 60, 5
Home = tuple[int, int]


class Person(Protocol):
    """A child of a row, of a line or of a register, as far as it is compared with others. One of a
    register has no number of a row.
    """

    @property
    def number(self) -> int | None:
        """The number of the row."""

    @property
    def home(self) -> Home | None:
        """The home in metres, if it could be read."""

    @property
    def fields(self) -> Mapping[str, str]:
        """What could be read of it."""

    @property
    def has_person(self) -> bool:
        """Whether its name and home could be read."""

    @property
    def where(self) -> str:
        """How messages name it."""


One = TypeVar("One", bound=Person)


class Known:
    """A child of a register."""

    number, has_person = None, True

    def __init__(self, child: Child) -> None:
        self.home = (child.east, child.north)
        self.fields = {"child": str(child.number), "name": child.name}
        self.where = f"child {child.number} of the register"


def repeated(rows: Iterable[One]) -> Iterator[tuple[One, One, bool]]:
    """Rows with a number that an earlier row has: (row, earlier row, whether all their fields are
    equal).
    """
    first: dict[str, One] = {}
    for row in rows:
        number = row.fields["child"]
        if number in first:
            yield row, first[number], row.fields == first[number].fields
        elif number:
            first[number] = row


def is_near(one: Person, other: Person) -> bool:
    """Whether two homes are near each other."""
    here, there = one.home, other.home
    if not here or not there:
        return False
    far = texts.metres(here[0] - there[0], here[1] - there[1])
    return bool(far <= NEAR_METRES)


def alike(rows: Sequence[One], register: Register | None) -> Iterator[tuple[One, Person]]:
    """Children with other numbers whose name and home are alike, in the file and in a register:
    (row, other).
    """
    numbers = {it.fields["child"] for it in rows}
    known = [Known(it) for it in register.children.values()] if register else []
    homes: dict[Home | None, list[Person]] = {}
    names: dict[str, list[Person]] = {}
    for other in known:
        if other.fields["child"] not in numbers:
            homes.setdefault(other.home, []).append(other)
            names.setdefault(texts.folded(other.fields["name"]), []).append(other)
    for one in rows:
        if not one.has_person:
            continue
        here = homes.setdefault(one.home, [])
        named = names.setdefault(texts.folded(one.fields["name"]), [])
        others = [it for it in named[:MOST_AT_HOME] if is_near(it, one)]
        if len(here) <= MOST_AT_HOME:
            others += [it for it in here if it not in others
                       and texts.is_alike(it.fields["name"], one.fields["name"])]
        others = [it for it in others if it.fields["child"] != one.fields["child"]]
        yield from ((one, it) for it in others[:MOST_BESIDE])
        here.append(one)
        named.append(one)


def odd_days(
    rows: Iterable[One], register: Register | None, today: datetime.date | None = None,
) -> Iterator[tuple[One, str, bool]]:
    """Days that are in the future, where it is known which is today, or far from the season, or,
    without a register, from those of the other rows: (row, why, whether it is an error).
    """
    read = ((row, days.read(row.fields["day"])) for row in rows if row.fields["day"])
    given = [(row, day) for row, day in read if day]
    if register:
        closing, _, end = register.days
        for row, day in given:
            if day > end:
                yield row, f"waiting lists close on {days.in_words(end)}", True
            elif today and day > today:
                late = "" if register.is_in_time(day) else " and after the closing date"
                yield row, f"in the future{late}: is it right?", False
            elif not register.is_in_time(day):
                yield row, ("late: the first round was run" if register.draws else
                            "late: no part in the first round"), False
            elif (closing - day).days > days.EARLIEST_DAYS:
                yield row, f"{days.EARLIEST} early: is it right?", False
    elif len(given) >= 5:
        middle = statistics.median_low(day.toordinal() for _, day in given)
        for row, day in given:
            if abs(day.toordinal() - middle) > FAR_DAYS:
                yield row, "far from most days: right year?", False


def far_homes(rows: Iterable[One], register: Register) -> Iterator[tuple[One, str]]:
    """Homes that are far from every school: coordinates exchanged, or a digit too many."""
    for row in rows:
        if row.home and is_far(row.home, register):
            yield row, f"more than {FAR_METRES // 1000} km from every school"


def is_far(home: Home, register: Register) -> bool:
    """Whether a home is far from every school of a register that has any."""
    # (most homes are near the first)
    return bool(register.schools) and all(
        texts.metres(home[0] - it.east, home[1] - it.north) > FAR_METRES
        for it in register.schools.values())


def differing(row: Person, register: Register) -> list[tuple[str, str]]:
    """The columns in which a row differs from what the register has of its child, each with what
    that is.
    """
    number = int(row.fields["child"])
    had = child_fields.cells_of(register.children[number], register.applications.get(number))
    has = fields.OMITTED | row.fields
    has["flags"] = ";".join(sorted(set(has["flags"].split(";")), key=lambda it: int(it or 0)))
    # (which have no order)
    if set(has["catchments"].split(";")) == set(had["catchments"].split(";")):
        has["catchments"] = had["catchments"]
    return [(column, value) for column, value in had.items() if has[column] != value]
