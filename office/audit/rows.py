"""What an audit reads: the rows of a register's file, and the problem of its next round or fill,
worked out from them.

It shares no code with the register's program, nor with the other commands of this package, so that
an audit is a second opinion on all of them.
"""
import contextlib
import datetime
import math
import os
import sqlite3
import urllib.parse
from collections.abc import Iterable, Iterator, Mapping
from typing import Any, NamedTuple

import register_files as files
from register_files import Refused

OFFERED, ACCEPTED, PLAN = 1, 2, 3
EPOCH = datetime.date(1970, 1, 1)
# a row as SQLite gives it
Row = tuple[Any, ...]
# a school and a child
Pair = tuple[str, int]
# class, distance in metres and lot: a smaller key ranks first
Key = tuple[int, ...]
KEY_NAMES = ("class", "distance", "lot")


# The tables that are looked into. Days are counted from 1970-01-01, lists are joined by semicolons,
# and flags are bits. Where a child has catchment schools, they follow those of its siblings, after
# a bar.
class Meta(NamedTuple):
    """The season."""

    phase: int
    year: int
    holidays: str
    draws: int
    version: int


class School(NamedTuple):
    """A school, with its point in metres."""

    code: str
    name: str
    pan: int
    east: int
    north: int
    criteria: str


class Child(NamedTuple):
    """A child, with the point of its home in metres."""

    child: int
    name: str
    east: int
    north: int
    looked_after: int
    flags: int
    siblings: str


class Application(NamedTuple):
    """When a child applied, and for which schools."""

    child: int
    day: int
    preferences: str


class Place(NamedTuple):
    """A place: OFFERED, ACCEPTED or by a PLAN."""

    child: int
    school: str
    kind: int
    day: int | None
    reminded: int | None


class Draw(NamedTuple):
    """A draw: of a round without a school, or of a fill, whose round is 0."""

    draw: int
    round: int
    school: str | None
    day: int


class Offer(NamedTuple):
    """The outcome of a draw for a child, and whether its place is a new one."""

    draw: int
    child: int
    school: str | None
    fresh: int


class Lot(NamedTuple):
    """The lot of a child at a school."""

    draw: int
    school: str
    child: int
    lot: int


class Present(NamedTuple):
    """The present school of a child, or that of its imported row."""

    child: int
    imported: int
    school: str


# the columns of each table that are looked into; others are compared
TABLES: dict[str, tuple[str, ...]] = {
    "meta": Meta._fields, "school": School._fields, "child": Child._fields,
    "application": Application._fields, "place": Place._fields, "left_list": ("child", "school"),
    "draw": Draw._fields, "offer": Offer._fields, "lot": Lot._fields,
    "imported": (*Child._fields, "day", "preferences"), "present": Present._fields,
}


class Rows:
    """The rows of a register: as they are in each table, and by what they mean."""

    def __init__(self, columns: dict[str, list[str]], tables: dict[str, list[Row]]) -> None:
        self.columns, self.tables = columns, tables

        def known(table: str) -> list[Row]:
            """The rows of a table, with the columns that are looked into."""
            return [it[: len(TABLES[table])] for it in tables[table]]

        self.meta = Meta(*known("meta")[0])
        self.schools = [School(*it) for it in known("school")]
        self.children = [Child(*it) for it in known("child")]
        self.applications = [Application(*it) for it in known("application")]
        self.places = [Place(*it) for it in known("place")]
        self.draws = [Draw(*it) for it in known("draw")]
        self.offers = [Offer(*it) for it in known("offer")]
        self.lots = [Lot(*it) for it in known("lot")]
        self.present = [Present(*it) for it in known("present")]
        # the pairs of children and schools whose lists they left
        self.left: set[tuple[int, str]] = {(child, school) for child, school in known("left_list")}

    def rows_by(self, table: str, columns: Iterable[str]) -> list[Row]:
        """The rows of a table with these columns of it."""
        places = [self.columns[table].index(it) for it in columns]
        return [tuple(row[at] for at in places) for row in self.tables[table]]


def rows_of(name: str) -> Rows:
    """The rows of a file. It is only read; SQLite's lock keeps programs from writing it meanwhile.
    """
    path = os.path.realpath(name)
    try:
        with files.held(name, path):
            if files.has_content(path + "-wal"):
                raise Refused(f"{name} has a log with changes that are not in the file yet: merge"
                              f" it first, by admissions do {name} < /dev/null")
            address = f"file:{urllib.parse.quote(path)}?mode=ro&immutable=1"
            with contextlib.closing(sqlite3.connect(address, uri=True)) as conn:
                see_tables(name, conn)
                return Rows(*tables_of(conn))
    except OSError as error:
        raise Refused(f"{name} cannot be read, or is in use: {error.strerror}") from error
    except (sqlite3.Error, TypeError) as error:
        raise Refused(f"{name} is no register: {error}") from error


def see_tables(name: str, conn: sqlite3.Connection) -> None:
    """Refuses a file with anything but tables: a view in place of one may be a query that does not
    end.
    """
    odd = conn.execute("SELECT type, name FROM sqlite_master WHERE sql IS NOT NULL"
                       " AND (type <> 'table' OR rootpage = 0)").fetchone()
    if odd:
        raise Refused(f"{name} is no register: it has the {odd[0]} {odd[1]}")


def tables_of(conn: sqlite3.Connection) -> tuple[dict[str, list[str]], dict[str, list[Row]]]:
    """The columns of each table, those that are looked into first, and the rows. A file of version
    1 has no present schools.
    """
    is_first = conn.execute("SELECT version FROM meta").fetchone()[0] == 1
    columns = {table: list(names) for table, names in TABLES.items()}
    found: dict[str, list[Row]] = {"present": []}
    for table, names in columns.items():
        if not (is_first and table == "present"):
            there = conn.execute("SELECT name FROM pragma_table_info(?)", [table]).fetchall()
            more = [it for it, in there if it not in names]
            # (in quotes a name that is no column would be a text)
            quoted = ('"' + it.replace('"', '""') + '"' for it in more)
            listed = ", ".join([*names, *quoted])
            found[table] = conn.execute(f"SELECT {listed} FROM {table}").fetchall()
            names += more
    return columns, found


def split(text: str) -> list[str]:
    """The items of a list of the file."""
    return text.split(";") if text else []


def day_of(number: int) -> str:
    """A day of the file as it is printed."""
    return (EPOCH + datetime.timedelta(days=number)).isoformat()


def days_of(meta: Meta) -> tuple[int, int, int]:
    """The closing day, the offer day and the end of the lists of a season, as day numbers."""
    if meta.phase == 2:
        closing, offer = datetime.date(meta.year - 1, 10, 31), datetime.date(meta.year, 3, 1)
    else:
        closing, offer = datetime.date(meta.year, 1, 15), datetime.date(meta.year, 4, 16)
    closed = {int(it) for it in split(meta.holidays)}
    while offer.weekday() >= 5 or (offer - EPOCH).days in closed:
        offer += datetime.timedelta(days=1)
    end = datetime.date(meta.year, 12, 31)
    return (closing - EPOCH).days, (offer - EPOCH).days, (end - EPOCH).days


def key_in_words(key: Key) -> str:
    """A key as it is printed."""
    return "class {}, {} metres, lot {}".format(*key)


def decided_by(one: Key, other: Key) -> str:
    """What decides between two keys, or "" where they are equal or one is empty."""
    return next((name for name, a, b in zip(KEY_NAMES, one, other) if a != b), "")


class Problem:
    """The problem of the next round or fill, from the rows of a register."""

    def __init__(self, rows: Rows) -> None:
        self.schools = {it.code: it for it in rows.schools}
        self.children = {it.child: it for it in rows.children}
        self.present = {it.child: it.school for it in rows.present if not it.imported}
        closing, _, _ = days_of(rows.meta)
        entrants = {it.child: split(it.preferences) for it in rows.applications
                    if rows.draws or it.day <= closing}
        # a child keeps a place that is not that of a plan, unless it gets one that it prefers
        self.own = {it.child: it.school for it in rows.places
                    if it.kind != PLAN and it.child in entrants}
        # the schools that each child wants, best first; and with its own at the end
        self.wanted: dict[int, list[str]] = {}
        self.asks: dict[int, list[str]] = {}
        for child, listed in sorted(entrants.items()):
            own = [self.own[child]] if child in self.own else []
            above = listed[:listed.index(own[0])] if own else listed
            self.wanted[child] = [it for it in above if (child, it) not in rows.left]
            self.asks[child] = self.wanted[child] + own
        plans = [it.school for it in rows.places if it.kind == PLAN]
        self.quota = {code: max(0, it.pan - plans.count(code)) for code, it in self.schools.items()}
        self.pairs = {(school, child) for child, wanted in self.wanted.items() for school in wanted}
        self.keys: dict[Pair, Key] = {}

    def standing(self, code: str, number: int) -> tuple[int, int]:
        """The class and the distance of a child at a school."""
        school, child = self.schools[code], self.children[number]
        metres = math.isqrt((school.east - child.east) ** 2 + (school.north - child.north) ** 2)
        criteria = split(school.criteria)
        met = [at for at, it in enumerate(criteria, 1) if self.meets(it, code, child, metres)]
        return 0 if child.looked_after else min(met, default=len(criteria) + 1), metres

    def meets(self, criterion: str, code: str, child: Child, metres: int) -> bool:
        """Whether a child meets a criterion of a school that is so far from its home."""
        kind, _, value = criterion.partition(":")
        if kind == "sibling":
            return code in split(child.siblings.partition("|")[0])
        if kind == "catchment":
            return code in split(child.siblings.partition("|")[2])
        if kind == "within":
            return metres <= int(value)
        if kind == "flag":
            return bool(child.flags >> int(value) & 1)
        if kind == "feeder":
            return self.present.get(child.child) == value
        raise KeyError(kind)

    def draw(self, lots: Mapping[Pair, int]) -> None:
        """Takes the lots: from then on children have keys."""
        self.keys = {(school, child): (*self.standing(school, child), lots[school, child])
                     for school, child in self.pairs}

    def guests(self, school: str, children: Iterable[int]) -> list[int]:
        """Of these children, those that did not have the school before."""
        return [it for it in children if self.own.get(it) != school]

    def last(self, school: str, children: Iterable[int]) -> int | None:
        """Of those that did not have the school before, the one that ranks last there."""
        guests = self.guests(school, children)
        return max(guests, key=lambda it: self.keys[school, it]) if guests else None

    def best(self) -> dict[int, str | None]:
        """Children ask the schools of their lists in turn; a school that has too many turns away
        the one that ranks last.
        """
        held: dict[str, list[int]] = {it: [] for it in self.schools}
        turn, free = dict.fromkeys(self.asks, 0), list(self.asks)
        while free:
            child = free.pop()
            if turn[child] < len(self.asks[child]):
                school = self.asks[child][turn[child]]
                turn[child] += 1
                held[school].append(child)
                last = self.last(school, held[school])
                if len(held[school]) > self.quota[school] and last is not None:
                    free.append(last)
                    held[school].remove(last)
        has = {child: school for school, children in held.items() for child in children}
        return {child: has.get(child) for child in self.asks}

    def better(self, child: int, has: str | None) -> list[str]:
        """The schools that a child prefers to this one, or to none."""
        asks = self.asks[child]
        return asks[:asks.index(has)] if has in asks else asks

    def waiting(self, school: str) -> list[int]:
        """The children that wait at a school: after a first round, those that want it."""
        return [it for it, wanted in self.wanted.items() if school in wanted]

    def unstable(self, has: Mapping[int, str | None]) -> Iterator[str]:
        """Why an allocation is not stable, by the definition of stability."""
        there = {school: [child for child in has if has[child] == school]
                 for school in self.schools}
        for school, children in there.items():
            if len(children) > self.quota[school] and self.guests(school, children):
                yield (f"school {school} took {len(children)} children, and had"
                       f" {self.quota[school]} places")
        for child, given in has.items():
            if given is not None and given not in self.asks[child]:
                yield f"child {child} has {given}, which it does not want"
        for child, given in has.items():
            for wanted in self.better(child, given):
                if why := self.why_not(child, wanted, there[wanted]):
                    yield f"not stable: child {child} would rather have {wanted}, and {why}"

    def why_not(self, child: int, wanted: str, there: list[int]) -> str:
        """Why a child could have a school that it wants more, beside those who are there, or ""."""
        if self.own.get(child) == wanted:
            return "it had it before"
        key = self.keys.get((wanted, child), ())
        lower = [it for it in self.guests(wanted, there) if self.keys.get((wanted, it), ()) > key]
        if lower:
            return f"child {lower[0]} ranks after it there"
        return "a place was free there" if len(there) < self.quota[wanted] else ""

    def turned_away(self, has: Mapping[int, str | None], only: str | None) -> Iterator[str]:
        """Whom each school turned away, and by which key it ranked behind the last that the school
        took.
        """
        for school in sorted(self.schools) if only is None else [only]:
            there = [child for child in has if has[child] == school]
            last = self.last(school, there)
            last_key = () if last is None else self.keys[school, last]
            text = f", the last child {last}, {key_in_words(last_key)}" if last_key else ""
            yield f"School {school}: places {self.quota[school]}, children {len(there)}{text}"
            others = [child for child in has if school in self.better(child, has[child])]
            for child in sorted(others, key=lambda it: self.keys[school, it]):
                key = self.keys[school, child]
                by = decided_by(key, last_key) or "no place that was free"
                yield f"  turned away child {child}, {key_in_words(key)}: by {by}"
