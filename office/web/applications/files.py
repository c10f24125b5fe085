"""Files of applications that are added to the staging table: read into rows by the header of each,
with what is seen in the file alone.
"""
import dataclasses
from collections.abc import Iterator

from register_files import Refused

from office.core import fields, texts
from office.files import header, sheet, sheet_apart

from . import gazetteer_rows
from .row_check import ERROR, FIXED, LOOK, Check, Finding

MOST_NAME = 80
# so many words of a file are asked about
MOST_WORDS = 30
ADVICE = "write the name of the one that is meant into the field Sheet"
NO_COLUMN = "no column of an application: it is kept beside the rows, and not added"
LEFT_OVER = "left over"
# the columns of a home's point
POINT = ("east", "north")


@dataclasses.dataclass(frozen=True)
class Note:
    """What was found when a row was read, and cannot be seen in its cells: the column or "", and
    whether the row is not read at all because of it. It ends when a person saves the row.
    """

    column: str
    text: str
    kind: str = ERROR
    is_whole: bool = False
    fault: str = ""


@dataclasses.dataclass(frozen=True)
class Given:
    """A row of a file: its number there, its cells by the columns of an application, what other
    columns have by their names, and what was found in the reading.
    """

    number: int
    cells: dict[str, str]
    others: dict[str, str]
    notes: tuple[Note, ...]


@dataclasses.dataclass(frozen=True)
class Read:
    """The rows of a file, and what was changed to read it, each as a sentence."""

    rows: list[Given]
    changes: list[str]


def name_of(given: str | None) -> str:
    """The name of a file as a browser sends it, without folders and what cannot be seen."""
    name = (given or "").replace("\\", "/").rpartition("/")[2].strip()
    return texts.visible(name)[:MOST_NAME]


def read(name: str, data: bytes, wanted: str) -> Read:
    """The rows of a file that was sent, or a refusal."""
    if not data:
        raise Refused(f"{name} is empty")
    found = sheet_apart.read(name, data, wanted.strip() or None, ADVICE)
    return rows_of(name, with_points(found))


def with_points(found: sheet.Sheet) -> sheet.Sheet:
    """A sheet with empty columns for the points of homes, where it has none and has property
    numbers or postcodes by which they are looked up. (They are the first, so that a row with a
    wrong number of fields is as it was.)
    """
    at = header.place_of(found.rows)
    names = [header.plain(it) for it in found.rows[at].cells] if at is not None else []
    keys = {it for what in ("property", "postcode") for it in gazetteer_rows.NAMES[what]}
    has_point = any(header.is_near(it, wanted) for it in names for wanted in POINT)
    if has_point or not any(gazetteer_rows.plain(it) in keys for it in names):
        return found
    rows = [sheet.Row(it.number, [*(POINT if place == at else ("", "")), *it.cells])
            for place, it in enumerate(found.rows)]
    problems = [(row, place if place is None else place + len(POINT), text, is_error)
                for row, place, text, is_error in found.problems]
    said = "the columns east and north are added, and are empty: points are looked up"
    return dataclasses.replace(found, rows=rows, problems=problems,
                               changes=[*found.changes, said])


def rows_of(name: str, found: sheet.Sheet) -> Read:
    """The rows of a sheet. One whose header is wrong is refused: no row of it can be told."""
    reading = Check(found)
    below = reading.rows_below()
    last = reading.header.number if reading.header else 0
    wrong = [it for it in reading.findings if it.kind == ERROR and (it.row <= last or not last)]
    if wrong:
        raise Refused(f"{name} is no file of applications: {'; '.join(map(said_of_header, wrong))}")
    if not below:
        raise Refused(f"{name} has no applications below its header")
    above, reading.findings = reading.findings, []
    by_row: dict[int, list[Finding]] = {}
    for it in above:
        by_row.setdefault(it.row, []).append(it)
    rows = [row_of(reading, row, by_row.get(row.number, [])) for row in below]
    # (those of the whole file are the first)
    changes = [it for it in (*above, *reading.findings) if it.kind == FIXED]
    asked = letters_of(rows) if found.is_decoded else []
    return Read(rows, [*found.changes, *asked, *summed(changes[len(found.changes):])])


def letters_of(rows: list[Given]) -> list[str]:
    """What is asked of a file whose encoding was guessed: its words with other letters than those
    of ASCII.
    """
    found = {it.number: [word for text in it.cells.values() for word in text.split()
                         if not word.isascii()] for it in rows}
    words = list(dict.fromkeys(word for of_row in found.values() for word in of_row))
    if not words:
        return []
    shown = words[:MOST_WORDS] + (
        [texts.count(len(words) - MOST_WORDS, "other word")] if len(words) > MOST_WORDS else [])
    count = texts.count(sum(map(bool, found.values())), "row")
    return [f"are these the right letters? {texts.listed(shown)} ({count})"]


def said_of_header(finding: Finding) -> str:
    """An error of a header as a sentence."""
    if not finding.column:
        return finding.text
    return f"row {finding.row}, column {finding.column}: expected {finding.text}"


def summed(changes: list[Finding]) -> Iterator[str]:
    """What was changed in a file, the same in several rows once."""
    rows: dict[tuple[str, str, str | None], list[int]] = {}
    for it in changes:
        text = NO_COLUMN if it.column and it.written is None else it.text
        rows.setdefault((it.value if it.column else "", text, it.written), []).append(it.row)
    for (value, text, written), numbers in rows.items():
        if value:
            yield f"column {texts.shown(value)}: " + (
                text if written is None else f"read as {written}")
        elif len(numbers) == 1:
            yield f"row {numbers[0]}: {text}"
        else:
            yield f"{len(numbers):,} rows ({texts.spans(sorted(numbers))}): {text}"


def row_of(reading: Check, row: sheet.Row, found: list[Finding]) -> Given:
    """A row. What has a wrong number of fields is kept at the places where it may belong."""
    before = len(reading.findings)
    cells = reading.cells_of(row)
    notes = [Note(it.column, it.text, it.kind, fault=it.fault) for it in found]
    if cells is None:
        cells, left_over = placed(reading, row.cells)
        notes += [Note(it.column, it.text, ERROR, True, it.fault)
                  for it in reading.findings[before:] if it.kind == ERROR]
        notes += [Note(notes[-1].column, it, LOOK) for it in left_over]
        reading.findings[before:] = [
            it for it in reading.findings[before:] if it.kind != ERROR]
    given = {it: cells[reading.columns[it]] if it in reading.columns else fields.OMITTED[it]
             for it in fields.COLUMNS}
    return Given(row.number, given, others_of(reading, cells), tuple(notes))


def placed(reading: Check, cells: list[str]) -> tuple[list[str], list[str]]:
    """The cells of a row that has too many or too few, and what is said of those that have no
    place.
    """
    more = len(cells) - reading.width
    if reading.has_split_name(cells):
        at = reading.columns["name"]
        name = reading.sheet.separator.join(cells[at:at + 1 + more])
        return [*cells[:at], name, *cells[at + 1 + more:]], []
    if more <= 0:
        return cells + [""] * -more, []
    rest = [it for it in cells[reading.width:] if it.strip()]
    said = [f"{LEFT_OVER}: {', '.join(map(texts.shown, rest))}"] if rest else []
    return cells[:reading.width], said


def others_of(reading: Check, cells: list[str]) -> dict[str, str]:
    """What a row has in columns that an application has not, by their names. (Each row has these:
    with long ones a file of some megabytes would have gigabytes.)
    """
    known = set(reading.columns.values())
    names = reading.header.cells if reading.header else []
    found: dict[str, str] = {}
    for name, text in ((names[at].strip()[:MOST_NAME], cells[at].strip())
                       for at in range(min(len(names), len(cells))) if at not in known):
        if name and text:
            found[name] = f"{found[name]}; {text}" if name in found else text
    return found
