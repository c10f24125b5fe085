"""What a page of the staging table shows: which rows, in which order, which of their cells are
fields, and what is said beside each.
"""
import dataclasses
import re
from collections.abc import Iterator, Mapping, Sequence

from office.core import days, fields, rules, texts
from office.core.fields import Likely

from . import sent
from .row_check import ERROR, FIXED, LOOK, SOURCE, Finding
from .rows import REMARK, WITHDRAWN, Staged
from .sent import Refusal
from .table_check import Table, said

PAGE = 50
MOST_CHANGES = 30
ALL, WRONG, CHECK, READY, ASIDE = "all", "errors", "check", "ready", "aside"
FILTERS = {ALL: "All", WRONG: "With errors", CHECK: "To check", READY: "Ready", ASIDE: "Set aside"}
KINDS = {WRONG: "bad", CHECK: "warn", READY: "good"}
# how a column is called, and how many characters of it are seen
TITLES = {
    "child": ("Number", 8), "name": ("Name", 22), "east": ("East", 8), "north": ("North", 8),
    "looked_after": ("Looked after", 5), "flags": ("Verified reasons", 6),
    "siblings": ("Siblings’ schools", 10), "day": ("Applied", 11),
    "preferences": ("Preferences", 22), "present": ("Present school", 8),
    "catchments": ("Catchment schools", 10),
}
# the columns of the page after that of the name: those of the rows that each has, and the last one
# all others
SHOWN = (("Number", ("child",)), ("Applied", ("day",)), ("Home", ("east", "north")),
         ("Preferences", ("preferences",)))
FACTS = "Facts"
CLASSES = {ERROR: "error", LOOK: "hint now", FIXED: "hint", SOURCE: "hint"}
# the columns whose items may be on lines of their own
LISTS = ("flags", "siblings", "preferences", "catchments")


@dataclasses.dataclass(frozen=True)
class Cell:
    """A cell: its text, which a field of one line has where it is corrected, and otherwise as it
    is read; what is found there (each with its style) and what is likely to be meant; what is
    stored where something else was typed, and what was seen where somebody else changed it.
    """

    column: str
    title: str
    size: int
    value: str
    text: str
    found: list[tuple[str, str]]
    likely: tuple[Likely, ...] = ()
    is_field: bool = False
    is_wrong: bool = False
    now: str | None = None
    before: str | None = None

    @property
    def is_told(self) -> bool:
        """Whether anything is said beside it."""
        return bool(self.found) or self.now is not None or self.before is not None


@dataclasses.dataclass(frozen=True)
class Line:
    """A row on the page: its name, its cells by the columns of the page, what is found in the whole
    of it, what its form says was seen, and its remark.
    """

    row: Staged
    name: Cell
    groups: list[tuple[str, list[Cell]]]
    found: list[tuple[str, str]]
    seen: str
    remark: str = ""

    @property
    def cells(self) -> list[Cell]:
        """All its cells."""
        return [self.name, *(it for _, cells in self.groups for it in cells)]

    @property
    def is_doubtful(self) -> bool:
        """Whether a person can confirm the row as it is shown, without another text."""
        return bool(self.row.notes)


@dataclasses.dataclass(frozen=True)
class Asked:
    """What the address asks for: rows of a state, with a name or a number, and of one kind of
    errors; and which rows are corrected wholly.
    """

    show: str
    find: str = ""
    only: frozenset[int] | None = None
    edited: frozenset[int] = frozenset()


@dataclasses.dataclass(frozen=True)
class Page:
    """The rows that are shown, of how many that were asked for; the number of the page, and how
    many pages there are.
    """

    lines: list[Line]
    many: int
    number: int
    last: int


def columns() -> list[tuple[str, str]]:
    """The columns of the rows, and how they are called."""
    return [(it, title_of(it)) for it in fields.COLUMNS]


def groups() -> list[tuple[str, tuple[str, ...]]]:
    """The columns of the page after that of the name, each with those of the rows."""
    there = {"name", *(it for _, of in SHOWN for it in of)}
    return [*SHOWN, (FACTS, tuple(it for it in fields.COLUMNS if it not in there))]


def title_of(column: str) -> str:
    """How a column is called."""
    return TITLES[column][0] if column in TITLES else column.replace("_", " ").capitalize()


def size_of(column: str) -> int:
    """How many characters of a column are seen."""
    return TITLES.get(column, ("", 10))[1]


def on_one_line(column: str, text: str) -> str:
    """A cell as a field of one line can have it, which would drop the ends of lines, and so join
    two codes into one. It is read as the cell is.
    """
    if column in LISTS:
        text = re.sub(r"[\r\n]", ";", text)
    return texts.CONTROL.sub(" ", text)


def shown_of(row: Staged) -> dict[str, str]:
    """The cells of a row as its fields show them."""
    return {it: on_one_line(it, text) for it, text in row.cells.items()}


def text_of(column: str, read: str, words: Mapping[int, str]) -> str:
    """A cell as it is read, in words; "" of what says nothing."""
    if not read:
        return ""
    if column == "day":
        found = days.read(read)
        return days.in_words(found) if found else read
    if column == "looked_after":
        return "looked after" if read == "yes" else ""
    if column == "flags":
        return "; ".join(f"{it} {words.get(int(it), '')}".strip() for it in read.split(";"))
    if column == "siblings":
        return f"sibling at {texts.listed(read.split(';'))}"
    if column == "present":
        return f"now at {read}"
    if column == "catchments":
        return f"catchment area of {texts.listed(read.split(';'))}"
    return read.replace(";", "; ") if column in LISTS else read


def cells_of(row: Staged, table: Table | None, shared: Mapping[tuple[object, ...], int],
             is_open: bool = False, refused: Refusal | None = None) -> Iterator[Cell]:
    """The cells of a row; where it could not be saved, with what was typed and why."""
    findings = table.findings.get(row.id, []) if table else []
    checked = table.rows.get(row.id) if table else None
    read = checked.row.fields if checked and checked.is_read else {}
    words = table.words if table else {}
    is_large = table is None or table.register is None or table.register.is_large
    for column, stored in shown_of(row).items():
        if not (stored.strip() or rules.has(column, is_large)):
            continue
        here = [it for it in findings if it.column == column and not (
            it.kind == FIXED and it.change in shared)]
        wrong = [it for it in here if it.kind == ERROR]
        likely = tuple(like for it in here for like in it.likely)
        is_field = is_open or row.state != WITHDRAWN and bool(wrong or likely)
        text = text_of(column, read[column], words) if read.get(column) else stored
        if not checked and fields.TRUTH.get(stored.strip().lower()) == "no":
            text = ""
        cell = Cell(column, title_of(column), size_of(column), stored, text,
                    [(CLASSES[it.kind], told) for it in here if (told := said_of(it, is_field))],
                    likely, is_field, bool(wrong))
        yield refused_cell(cell, refused) if refused else cell


def said_of(finding: Finding, is_field: bool = False) -> str:
    """What is said beside a cell: of a field how it is read, and of one that is shown as it is read
    how it is written, but for a day, which each file writes in its way.
    """
    if finding.kind != FIXED or finding.written is None or is_field:
        return said(finding)
    return "" if finding.column == "day" else f"written {texts.shown(finding.value)}"


def refused_cell(cell: Cell, refused: Refusal) -> Cell:
    """A cell of a row that could not be saved. What was typed stays in it, beside what is stored;
    where nothing was typed it has what is stored, beside what was seen.
    """
    seen = refused.typed.seen.get(cell.column, cell.value)
    typed = refused.typed.cells.get(cell.column, seen)
    if said_why := refused.wrong.get(cell.column):
        error = (CLASSES[ERROR], said_why)
        return dataclasses.replace(cell, value=typed, found=[error, *cell.found], is_wrong=True,
                                   is_field=True)
    if typed == seen:
        return cell if seen == cell.value else dataclasses.replace(cell, before=seen,
                                                                   is_field=True)
    return dataclasses.replace(cell, value=typed, is_field=True,
                               now=None if typed == cell.value else cell.value)


def line_of(row: Staged, table: Table | None, shared: Mapping[tuple[object, ...], int],
            is_open: bool = False, refused: Refusal | None = None) -> Line:
    """A row as it is shown."""
    findings = table.findings.get(row.id, []) if table else []
    whole = [(CLASSES[it.kind], said_of(it)) for it in findings if it.column not in row.cells]
    if table and row.state == WITHDRAWN and not table.has_error(row.id):
        whole.append((CLASSES[FIXED], "No error was found in it."))
    if table and row.id in table.twice and not table.has_error(row.id):
        whole.append((CLASSES[ERROR], "Another row has this number."))
    if refused:
        whole = [(CLASSES[ERROR], f"Not saved: {refused.why}."), *whole]
    cells = {it.column: it for it in cells_of(row, table, shared, is_open, refused)}
    shown = shown_of(row)
    seen = {it.column: shown[it.column] for it in cells.values() if it.is_field}
    if row.state == WITHDRAWN:
        seen[REMARK] = row.remark
    typed = refused.typed.cells.get(REMARK, row.remark) if refused else row.remark
    made = [(title, [cells[it] for it in of if it in cells]) for title, of in groups()]
    return Line(row, cells["name"], made, whole, sent.packed(row.version, seen), typed)


def is_in(row: int, table: Table, which: str) -> bool:
    """Whether a row of the table is in a state."""
    if which == READY:
        return not table.is_wrong(row) and not table.has_look(row)
    return which not in (WRONG, CHECK) or (
        table.is_wrong(row) if which == WRONG else table.is_to_check(row))


def with_text(rows: Sequence[Staged], find: str) -> Sequence[Staged]:
    """The rows with a number, or a part of a name."""
    if find.strip().isdigit():
        return [it for it in rows if it.cells["child"].strip() == find.strip()]
    wanted = texts.folded(find)
    return [it for it in rows if wanted in texts.folded(it.cells["name"])] if wanted else rows


def page_of(table: Table, away: Sequence[Staged], asked: Asked, number: int,
            first: Sequence[int] = (), refused: Mapping[int, Refusal] | None = None) -> Page:
    """A page of the table, or of the rows that were set aside, each of which is checked beside the
    table: the rows with errors first. Those that were just saved, or could not be, are before all
    others, so that they are not looked for.
    """
    rows = list(away) if asked.show == ASIDE else [
        it.staged for at, it in table.rows.items() if is_in(at, table, asked.show)]
    meant = [it for it in with_text(rows, asked.find)
             if asked.only is None or it.id in asked.only]
    if asked.show != ASIDE:
        meant.sort(key=lambda it: (not table.is_wrong(it.id), it.file, it.number))
    last = max(1, -(-len(meant) // PAGE))
    number = min(max(number, 1), last)
    shown = meant[(number - 1) * PAGE:number * PAGE]
    every = {it.id: it for it in away} if asked.show == ASIDE else {
        it: table.rows[it].staged for it in first if it in table.rows}
    pinned = [every[it] for it in dict.fromkeys(first) if it in every]
    shown = [*pinned, *(it for it in shown if it.id not in first)]
    shared = table.shared
    if asked.show == ASIDE:
        table = table.beside(it for it in shown if it.id not in table.rows)
    lines = [line_of(it, table if it.id in table.rows else None, shared, it.id in asked.edited,
                     (refused or {}).get(it.id)) for it in shown]
    return Page(lines, len(meant), number, last)


def focus_of(page: Page, first: Sequence[int]) -> tuple[int, str] | None:
    """The cell at which a person goes on who has saved rows: the first that is wrong in them, or in
    those after them; or in a row that is corrected wholly its first one.
    """
    if not first:
        return None
    return next(((line.row.id, cell.column) for line in page.lines for cell in line.cells
                 if cell.is_wrong or cell.now is not None), None) or next(
        ((line.row.id, cell.column) for line in page.lines for cell in line.cells
         if cell.is_field), None)


def changes(table: Table) -> tuple[list[str], int]:
    """The changes that several rows share, each as a sentence with its number, the most frequent
    first; and how many more kinds there are.
    """
    found = sorted(table.shared.items(), key=lambda it: (-it[1], str(it[0])))
    said_in = [f"{many:,} × {texts.shown(str(value))} "
               + (f"read as {texts.shown(str(written))}" if written is not None else str(text))
               + f" ({title_of(str(column))})" for (column, value, text, written), many in found]
    return said_in[:MOST_CHANGES], max(0, len(said_in) - MOST_CHANGES)


@dataclasses.dataclass(frozen=True)
class Side:
    """One side of two that may be of one child: a row of the table, or a child of the register;
    what it has in each column, and in columns that an application has not.
    """

    title: str
    row: Staged | None
    values: dict[str, str]
    others: dict[str, str]


def side_of(row: Staged) -> Side:
    """The side of a row."""
    return Side(row.where, row, {it: on_one_line(it, text) for it, text in row.cells.items()},
                row.others)


def sides(one: Staged, other: Staged | None, child: int | None,
          values: Mapping[str, str]) -> tuple[Side, Side]:
    """Two that may be of one child, to be shown side by side. `values` are those of the child of
    the register.
    """
    if other is not None:
        return side_of(one), side_of(other)
    return side_of(one), Side(f"child {child} of the register", None,
                              {it: values.get(it, "") for it in fields.COLUMNS}, {})


def counts(table: Table, away: int) -> dict[str, int]:
    """How many rows are in each state: each row of the table is wrong, to check or ready."""
    return {**{it: sum(is_in(row, table, it) for row in table.rows)
               for it in (ALL, WRONG, CHECK, READY)}, ASIDE: away}
