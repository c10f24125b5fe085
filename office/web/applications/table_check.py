"""The check of the staging table: what is found in its rows, each of which is read
once in each of its versions; which rows may be of one child; and which the register has.
"""
import dataclasses
import functools
import re
import threading
from collections.abc import Callable, Iterable, Iterator, Mapping, Sequence
from typing import Any

from office.core import fields, rules, texts
from office.core.model import PLAN, Register, School
from office.core.wording import sentence
from office.files import sheet
from office.web.areas.map import Map

from . import across, points, row_check
from .points import GAZETTEER, POSTCODE, Point
from .row_check import ERROR, FIXED, LOOK, SOURCE, Context, Finding
from .rows import Staged

SAME_NUMBER, ALIKE = "the same number", "a similar name at the same home, or nearby"
# what a program writes that cannot write a letter
LOST = re.compile(r"\w\?|\?\w")
IS_LOST = "was a letter lost at the question mark?"
# a row with other catchment schools than the areas say
OTHERS = "other areas"
Differences = list[tuple[str, str]]
Words = Mapping[int, str]
# the areas of the schools of a register, if any are in use
OfAreas = Callable[[Mapping[str, School]], Map | None]


@dataclasses.dataclass(frozen=True)
class Checked:
    """A row as it can be read, and what is found in it alone. A row that has a wrong form is not
    read.
    """

    staged: Staged
    row: row_check.Row
    findings: tuple[Finding, ...]
    is_read: bool

    @functools.cached_property
    def needs_look(self) -> bool:
        """Whether a person is to see to the point of the home."""
        return points.needs_look(self.staged.point, self.staged.cells)

    @functools.cached_property
    def line(self) -> bytes:
        """The row as an import takes it."""
        return sheet.csv_bytes([row_check.values_of(self.row)])


@dataclasses.dataclass(frozen=True)
class Pair:
    """Two rows that may be of one child, or a row and a child of the register; and why."""

    one: Staged
    other: Staged | None
    child: int | None
    why: str


class Checker:
    """What is known of rows that were checked before, beside the same schools, season, words of
    flags and catchment areas.
    """

    def __init__(
        self, words: Callable[[], Words] = dict, areas: OfAreas = lambda _: None,
    ) -> None:
        self.lock, self.words, self.areas = threading.Lock(), words, areas
        self.beside: tuple[dict[str, School] | None, object, Words, Map | None] | None = None
        self.known: dict[int, Checked] = {}
        # the last table, of which children of a register and which versions of rows
        self.last: tuple[object, list[tuple[int, int]], Table] | None = None

    def table(self, rows: Sequence[Staged], register: Register | None,
              typed: Staged | None = None) -> "Table":
        """The table of these rows, and of one that is typed and not in it yet. Only rows that are
        new or were changed are read, and a table that is as it was is not made again.
        """
        words, members = self.words(), register.children if register else None
        areas = self.map_of(register)
        versions = [(it.id, it.version) for it in rows]
        beside = (register.schools if register else None, register.days if register else None,
                  words, areas)
        with self.lock:
            last = self.last if beside == self.beside and typed is None else None
            if last and last[0] is members and last[1] == versions:
                return last[2]
            old = self.known if beside == self.beside else {}
            found = [known if (known := old.get(it.id)) and known.staged.version == it.version
                     else checked(it, register, words, areas) for it in rows]
            self.beside, self.known = beside, {it.staged.id: it for it in found}
        more = [checked(typed, register, words, areas)] if typed else []
        made = Table([*found, *more], register, words, areas)
        if typed is None:
            with self.lock:
                self.last = (members, versions, made) if beside == self.beside else None
        return made

    def map_of(self, register: Register | None) -> Map | None:
        """The catchment areas of the schools of a large register."""
        return self.areas(register.schools) if register and register.is_large else None

    def alone(self, rows: Iterable[Staged], register: Register) -> list[Checked]:
        """Rows with what is found in each alone."""
        words, areas = self.words(), self.map_of(register)
        return [checked(it, register, words, areas) for it in rows]


def checked(
    it: Staged, register: Register | None, words: Words, areas: Map | None = None,
) -> Checked:
    """A row with what is found in it."""
    findings = [Finding(it.id, note.column, it.cells.get(note.column, ""), note.text, note.kind,
                        fault=note.fault) for note in it.notes]
    row = row_check.Row(it.id, dict(it.cells), dict.fromkeys(fields.REQUIRED, ""), it.where)
    if any(note.is_whole for note in it.notes):
        return Checked(it, row, tuple(findings), False)

    def add(number: int, column: str, value: str, text: str, kind: str = ERROR,
            written: str | None = None, **more: Any) -> None:
        findings.append(Finding(number, column, value, text, kind, written, **more))

    broken = {note.column for note in it.notes if note.kind == ERROR}
    is_large = register is not None and register.is_large
    context = Context(register.schools if register else {}, it.is_uk, words, is_large)
    for column in fields.COLUMNS:
        row_check.read_field(row, column, it.cells[column], context, add, column in broken)
    if areas:
        see_areas(row, areas, add)
    if LOST.search(it.cells["name"]):
        add(it.id, "name", it.cells["name"], IS_LOST, LOOK)
    for said_of in of_point(it.point, it.cells):
        add(it.id, "east", it.cells["east"], said_of, LOOK)
    for said_of in of_flags(row.fields["flags"], register, words):
        add(it.id, "flags", it.cells["flags"], said_of, LOOK)
    if register:
        row_check.see_days([row], register, add)
        row_check.see_homes([row], register, add)
    return Checked(it, row, tuple(findings), True)


def see_areas(row: row_check.Row, areas: Map, add: row_check.Add) -> None:
    """Gives a row in which no catchment school is written those in whose areas its home is; others
    than these are asked about.
    """
    given, home, most = row.given["catchments"], row.home, rules.LARGE["catchments"].most
    if home is None:
        return
    codes = areas.schools_at(home)
    if len(codes) > most:
        add(row.number, "catchments", given, f"{len(codes)} areas have the home: at most {most}",
            fault="areas")
    elif not given.strip():
        row.fields["catchments"] = ";".join(codes)
        add(row.number, "catchments", given,
            areas.source if codes else f"in no area of {areas.name}", SOURCE)
    elif read := row.fields["catchments"]:
        if set(read.split(";")) != set(codes):
            said = ", ".join(codes) or "none"
            add(row.number, "catchments", given, f"the areas say {said}", LOOK, fault=OTHERS,
                likely=(fields.Likely(f"Take {said}", ""),))


def of_point(point: Point, cells: Mapping[str, str]) -> Iterator[str]:
    """What is to be looked at of the point of a home, in short: its screen says the rest."""
    if points.question(point, cells):
        yield "the gazetteer has another point"
    elif point.source == GAZETTEER and point.by == POSTCODE and not point.is_kept:
        yield "approximate: the middle of its postcode"
    if not points.has_any(cells):
        yield from point.said
    elif points.metres_of(cells) == (0, 0):
        yield "0, 0 is in the sea"
    elif points.degrees_in(cells):
        yield "these look like latitude and longitude"


def of_flags(text: str, register: Register | None, words: Words) -> Iterator[str]:
    """The flags of a row that say nothing to an office: without words, or of no criterion."""
    if not text:
        return
    used = {it for school in register.schools.values() for it in school.criteria} if (
        register) else set()
    for it in map(int, filter(None, text.split(";"))):
        if it not in words:
            yield f"reason {it} has no words"
        elif used and f"flag:{it}" not in used:
            yield f"reason {it} is in no criterion"


class Table:
    """Rows that were checked, also beside each other and beside the register."""

    def __init__(self, rows: Iterable[Checked], register: Register | None, words: Words,
                 areas: Map | None = None) -> None:
        self.rows = {it.staged.id: it for it in rows}
        self.register, self.words, self.areas = register, words, areas
        self.findings = {at: list(it.findings) for at, it in self.rows.items()}
        # the rows with a finding of each kind: a page asks for them often
        self.having: dict[str, set[int]] = {
            kind: {it.row for found in self.findings.values() for it in found if it.kind == kind}
            for kind in (ERROR, LOOK, FIXED)}
        self.pairs: list[Pair] = []
        # the rows that the register has: as they are, and with other values
        self.equal: set[int] = set()
        self.differing: dict[int, Differences] = {}
        read = [it.row for it in self.rows.values() if it.is_read]
        self.again = self.see_repeated(read)
        kept = [it for it in read if it.number not in self.again]
        self.see_alike(kept)
        if register is None:
            row_check.see_days(kept, None, self.add)
        else:
            for row in kept:
                if row.child in register.children and not self.has_error(row.number):
                    self.see_known(row, register)

    def beside(self, rows: Iterable[Staged]) -> "Table":
        """These rows, and after them others that are not in the table."""
        more = [checked(it, self.register, self.words, self.areas) for it in rows]
        return Table([*self.rows.values(), *more], self.register, self.words, self.areas)

    def add(self, row: int, column: str, value: str, text: str, kind: str = ERROR,
            written: str | None = None, fault: str = "") -> None:
        """Adds a finding."""
        self.findings[row].append(Finding(row, column, value, text, kind, written, fault))
        self.having[kind].add(row)

    def see_repeated(self, rows: list[row_check.Row]) -> set[int]:
        """Adds the rows with the number of another, and returns those that are equal to it."""
        found = list(across.repeated(rows))
        self.pairs += [
            Pair(self.rows[row.number].staged, self.rows[first.number].staged, None, SAME_NUMBER)
            for row, first, is_equal in found if not is_equal]
        return row_check.see_repeated(found, self.add)

    def see_alike(self, rows: list[row_check.Row]) -> None:
        """Adds the rows that may be of one child."""
        found = list(across.alike(rows, self.register))
        for row, other in found:
            one, number = self.rows[row.number].staged, other.number
            child = int(other.fields["child"]) if number is None else None
            self.pairs.append(
                Pair(one, None if number is None else self.rows[number].staged, child, ALIKE))
        row_check.see_alike(found, self.add)

    def see_known(self, row: row_check.Row, register: Register) -> None:
        """Adds that the register has the child of a row: with these values or with others."""
        found, number = differing(row, register), row.child
        if not found:
            self.equal.add(row.number)
            self.add(row.number, "", "", f"child {number} is in the register already", FIXED)
            return
        self.differing[row.number] = found
        for column, had in found:
            self.add(row.number, column, row.given[column], f"the register has {texts.shown(had)}",
                     fault="register")

    def errors(self, row: int) -> list[Finding]:
        """What is wrong with a row."""
        return [it for it in self.findings[row] if it.kind == ERROR]

    def has_error(self, row: int) -> bool:
        """Whether something is wrong with a row."""
        return row in self.having[ERROR]

    def has_look(self, row: int) -> bool:
        """Whether something about a row is to be looked at."""
        return row in self.having[LOOK]

    @functools.cached_property
    def twice(self) -> set[int]:
        """The rows whose number another row has with other values."""
        return {it.id for pair in self.pairs if pair.why == SAME_NUMBER
                for it in (pair.one, pair.other) if it}

    def is_wrong(self, row: int) -> bool:
        """Whether a row is to be corrected or set aside before any row is added."""
        return self.has_error(row) or row in self.twice

    def is_to_check(self, row: int) -> bool:
        """Whether a row can be added, and something about it is to be looked at first."""
        return self.has_look(row) and not self.is_wrong(row)

    def wrong(self) -> list[Staged]:
        """The rows that are wrong."""
        return [it.staged for at, it in self.rows.items() if self.is_wrong(at)]

    @functools.cached_property
    def files(self) -> dict[int, list[Staged]]:
        """The rows of each file."""
        found: dict[int, list[Staged]] = {}
        for it in self.rows.values():
            found.setdefault(it.staged.file, []).append(it.staged)
        return found

    @functools.cached_property
    def shared(self) -> dict[tuple[object, ...], int]:
        """The changes that several rows have, each with their number."""
        counts: dict[tuple[object, ...], int] = {}
        for found in self.findings.values():
            for change in {it.change for it in found if it.column and it.change}:
                counts[change] = counts.get(change, 0) + 1
        return {change: many for change, many in counts.items() if many > 1}


def differing(row: row_check.Row, register: Register) -> Differences:
    """The columns in which the register has another value for the child of a row, each with what
    it has. A child that was added without an application has no day and no preferences.
    """
    found, place = across.differing(row, register), register.places.get(row.child)
    if row.child not in register.applications and not (place and place.kind == PLAN):
        found += [("day", ""), ("preferences", "")]
    return found


def too_many(new: int, register: Register) -> str:
    """Why so many children have no place in a register, or ""."""
    most, has = register.most("children"), len(register.children)
    if has + new <= most:
        return ""
    return f"a register has at most {most:,} children: it has {has:,}, and {new:,} are new"


def said(finding: Finding) -> str:
    """A finding as it is shown beside its cell."""
    if finding.kind == FIXED and finding.written is not None:
        return f"read as {texts.shown(finding.written)}"
    return sentence(finding.text)
