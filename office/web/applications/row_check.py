"""Checks applications: what is wrong in a row as it is typed, what may be wrong in it all the same,
and what is read otherwise than it is written; and in the form of a sheet of them.
"""
import dataclasses
import datetime
from collections.abc import Callable, Iterable, Mapping

from office.core import fields, model
from office.core.model import Register
from office.files import header, sheet

from . import across

ERROR, FIXED, LOOK, SOURCE = "error", "fixed", "look at", "source"
# a row is a total where it begins with one of these, and has neither a day nor preferences
TOTALS = ("total", "totals", "grand total", "subtotal", "sum", "count")
# adds a finding: row, column, value, text, kind, what is written instead
Add = Callable[..., None]


@dataclasses.dataclass(frozen=True)
class Finding:
    """Something in the file: where, the value, what is wrong or what it may be, and for FIXED what
    is written instead. Of an error the kind of fault, the item that has it, and what is likely to
    be meant. SOURCE says where the value came from of a cell in which nothing is written.
    """

    row: int
    column: str
    value: str
    text: str
    kind: str = ERROR
    written: str | None = None
    fault: str = ""
    item: str = ""
    likely: tuple[fields.Likely, ...] = ()

    @property
    def change(self) -> tuple[object, ...] | None:
        """What is said of a change but for its row, or None: others are printed one by one."""
        is_change = self.kind == FIXED
        return (self.column, self.value, self.text, self.written) if is_change else None


@dataclasses.dataclass
class Row:
    """A row with the fields that could be read, as import takes them; the others are empty."""

    number: int
    given: dict[str, str]
    fields: dict[str, str]
    # how messages name it where its number is not enough
    name: str = ""

    @property
    def child(self) -> int:
        """The child's number, or 0 where it could not be read."""
        return int(self.fields["child"] or 0)

    @property
    def home(self) -> tuple[int, int] | None:
        """The home, where both coordinates could be read."""
        east, north = self.fields["east"], self.fields["north"]
        return (int(east), int(north)) if east and north else None

    @property
    def has_person(self) -> bool:
        """Whether name and home could be read."""
        return bool(self.home and self.fields["name"])

    @property
    def where(self) -> str:
        """How other rows' messages name it."""
        return self.name or f"row {self.number}"


@dataclasses.dataclass
class Context:
    """What readers of fields know: the schools of a register, whether days are day/month/year, the
    words of flags, and whether the register is large.
    """

    schools: Mapping[str, model.School]
    is_uk: bool
    words: Mapping[int, str] = dataclasses.field(default_factory=dict)
    is_large: bool = False


def values_of(row: Row) -> list[str]:
    """A row as import takes it."""
    return [row.fields.get(it, fields.OMITTED.get(it, "")) for it in fields.COLUMNS]


def read_field(row: Row, column: str, given: str, context: Context, add: Add,
               is_broken: bool = False) -> bool:
    """Reads a field of a row, and adds what is wrong or changed; nothing is said of one that has an
    error already. Whether it is right as it is.
    """
    field = fields.read(column, given, context)
    row.given[column], row.fields[column] = given, field.text
    if field.expected:
        if not is_broken:
            add(row.number, column, given, field.expected, fault=field.fault, item=field.item,
                likely=field.likely)
        return False
    if field.text != given:
        add(row.number, column, given, "", FIXED, field.text)
        return False
    return True


def see_repeated(pairs: Iterable[tuple[Row, Row, bool]], add: Add) -> set[int]:
    """Adds the rows with a number that an earlier row has, and returns those that are equal to it,
    which are left out.
    """
    again = set()
    for row, first, is_equal in pairs:
        if is_equal:
            add(row.number, "child", row.given["child"],
                f"it is the same as {first.where}: it is left out", FIXED)
            again.add(row.number)
        else:
            add(row.number, "child", row.given["child"], f"also in {first.where}",
                fault="number twice")
    return again


def see_alike(pairs: Iterable[tuple[Row, across.Person]], add: Add) -> None:
    """Adds the rows that may be of one child with another."""
    for row, other in pairs:
        add(row.number, "name", row.given["name"], f"the same child as {other.where}?", LOOK)


def see_days(rows: Iterable[Row], register: Register | None, add: Add) -> None:
    """Adds the days that are far from the season, or from the others."""
    for row, why, is_error in across.odd_days(rows, register, datetime.date.today()):
        add(row.number, "day", row.given["day"], why, ERROR if is_error else LOOK,
            fault="too late" if is_error else "")


def see_homes(rows: Iterable[Row], register: Register, add: Add) -> None:
    """Adds the homes that are far from every school."""
    for row, why in across.far_homes(rows, register):
        add(row.number, "east", row.given["east"], why, LOOK)


class Check:
    """The findings in the form of one sheet: its header, and the fields of its rows."""

    def __init__(self, found: sheet.Sheet) -> None:
        self.sheet, self.width = found, 0
        self.findings: list[Finding] = []
        self.header: sheet.Row | None = None
        self.columns: dict[str, int] = {}

    def add(self, row: int, column: str, value: str, text: str, kind: str = ERROR,
            written: str | None = None, fault: str = "") -> None:
        """Adds a finding."""
        self.findings.append(Finding(row, column, value, text, kind, written, fault))

    def rows_below(self) -> list[sheet.Row] | None:
        """Reads the header and what is above it, and returns the rows below it; or None where there
        is no header.
        """
        for text in self.sheet.changes:
            self.add(1, "", "", text, FIXED)
        for number in self.sheet.empty:
            self.add(number, "", "", "the row is empty: it is left out", FIXED)
        at = header.place_of(self.sheet.rows)
        if at is None:
            first = self.sheet.rows[0].number if self.sheet.rows else 1
            self.add(first, "", "", "expected a header with the columns"
                     f" {', '.join(fields.COLUMNS)}")
            return None
        for row in self.sheet.rows[:at]:
            self.add(row.number, "", "", "the row is above the header: it is left out", FIXED)
        self.header = self.sheet.rows[at]
        found = header.read(self.header, self.add)
        self.columns, self.width = found.columns, found.width
        self.see_problems(found.row)
        return self.sheet.rows[at + 1:]

    def see_problems(self, first: int) -> None:
        """Adds what only an Excel file has, from the row of the header on."""
        names = {place: column for column, place in self.columns.items()}
        for number, place, text, is_error in self.sheet.problems:
            if number >= first and (place in names or place is None):
                column = "child" if place is None else names[place]
                self.add(number, column, "", text, ERROR if is_error else LOOK,
                         fault="formula" if is_error else "")

    def cells_of(self, row: sheet.Row) -> list[str] | None:
        """The cells of a row, as many as the header has; or None where it has other ones, or is no
        application, which is added.
        """
        cells = row.cells
        if self.sheet.is_workbook:
            cells = cells + [""] * (self.width - len(cells))
        if self.is_total(cells):
            first = next(it for it in cells if it.strip())
            self.add(row.number, "child", first, "the row looks like a total", fault="total")
            return None
        is_blank = not any(it.strip() for it in cells[self.width:])
        if len(cells) > self.width and is_blank and not self.has_split_name(cells):
            self.add(row.number, "", "", "empty fields at the end are left out", FIXED)
            cells = cells[: self.width]
        if len(cells) != self.width:
            self.wrong_width(row.number, cells)
            return None
        return cells

    def is_total(self, cells: list[str]) -> bool:
        """Whether a row is no application but a total of the others."""
        places = (self.columns.get(it, len(cells)) for it in ("day", "preferences"))
        first = next(it for it in cells if it.strip()).strip().lower().rstrip(":")
        return first in TOTALS and not any(cells[it].strip() for it in places if it < len(cells))

    def has_split_name(self, cells: list[str]) -> bool:
        """Whether a row has more fields because its name has a separator in it."""
        at, more = self.columns.get("name", -2) + 1, len(cells) - self.width
        if more <= 0 or self.columns.get("east") != at:
            return False
        is_east = [not fields.coordinate(cells[it], None).expected for it in (at, at + more)]
        return is_east == [False, True]

    def wrong_width(self, number: int, cells: list[str]) -> None:
        """Reports a row with too few or too many fields."""
        form = f"the row has {len(cells)} fields and not {self.width}"
        at, more = self.columns.get("name", 0), len(cells) - self.width
        by_place = {place: column for column, place in self.columns.items()}
        last = by_place[max(by_place)]
        broken = next((place for place, it in enumerate(cells) if "\n" in it), None)
        if self.has_split_name(cells):
            name = self.sheet.separator.join(cells[at : at + 1 + more])
            self.add(number, "name", name, "the name has a comma in it", fault="comma in name")
        elif broken is not None:
            column = by_place.get(broken, last)
            self.add(number, column, cells[broken], "a quote is not closed before it",
                     fault="width")
        elif more > 0:
            self.add(number, last, cells[-1], form, fault="width")
        else:
            self.add(number, by_place.get(len(cells), last), "", form, fault="width")
