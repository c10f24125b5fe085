"""The rows of a gazetteer's file: a CSV of any separator and encoding, or one in a zip, read by its
lines within limits; which columns it has; and the point of each row, or why it is left out.
"""
import contextlib
import csv
import dataclasses
import io
import lzma
import pathlib
import re
import zipfile
import zlib
from collections.abc import Iterator, Mapping, Sequence
from typing import IO, cast

from register_files import Refused

from office.files import file_kinds, inputs, sheet

from . import points
from .points import Metres

# a file as it is sent, and unpacked; a whole county has some 600,000 addresses
MOST_BYTES, MOST_UNPACKED, MOST_ROWS = 64 << 20, 400 * inputs.MB, 1_000_000
MOST_LINE, MOST_JOINED, MOST_COLUMNS = 32_767, 20, 250
# (empty lines are no rows, and a short zip has hundreds of millions)
MOST_LINES = 3 * MOST_ROWS
FIRST_ROWS, FIRST_LINES, BATCH = 8, 1000, 5_000
ZIP = b"PK\x03\x04"
# what the columns are called, in small letters without anything else
NAMES = {
    "property": ("uprn", "propertynumber", "uniquepropertyreferencenumber", "propertyreference"),
    "postcode": ("postcode", "postcodelocator", "postalcode", "pcds", "pcd", "pc"),
    "east": ("easting", "eastings", "east", "xcoordinate", "xcoord", "x", "gridgb1e", "oseast1m"),
    "north": ("northing", "northings", "north", "ycoordinate", "ycoord", "y", "gridgb1n",
              "osnrth1m"),
    "longitude": ("longitude", "long", "lng", "lon"),
    "latitude": ("latitude", "lat"),
}
Cells = list[str]
Line = tuple[int, str | None]


@dataclasses.dataclass(frozen=True)
class Columns:
    """The places of the columns that were chosen; the point is in metres, or in degrees with the
    longitude as `east`. The first row may have names.
    """

    uprn: int | None
    postcode: int | None
    east: int
    north: int
    is_degrees: bool
    has_names: bool

    @property
    def kind(self) -> str:
        """By what a row is found."""
        return points.PROPERTY if self.uprn is not None else points.POSTCODE


@dataclasses.dataclass(frozen=True)
class Place:
    """A row that can be used: its number, its keys, and its point."""

    row: int
    uprn: int | None
    postcode: str
    at: Metres


@dataclasses.dataclass(frozen=True)
class LeftOut:
    """A row that cannot be used, and why."""

    row: int
    why: str


@contextlib.contextmanager
def opened(path: pathlib.Path, name: str) -> Iterator[IO[bytes]]:
    """The CSV of a file, or of the only file in a zip."""
    with open(path, "rb") as file:
        start = file.read(2000)
        file.seek(0)
        if start.startswith(ZIP):
            with unpacked(file, name) as part:
                yield part
            return
        is_wide = start.startswith((b"\xff\xfe", b"\xfe\xff"))
        if not is_wide and (said := file_kinds.of_bytes(start)):
            raise Refused(f"{name} is {said}: a CSV is needed, or a zip with one CSV in it")
        yield file


@contextlib.contextmanager
def unpacked(file: IO[bytes], name: str) -> Iterator[IO[bytes]]:
    """The only CSV in a zip."""
    if inputs.has_many_parts(file):
        raise Refused(f"{name} has over {inputs.MOST_PARTS:,} files in it: a zip with one CSV is"
                      " needed")
    try:
        with zipfile.ZipFile(file) as parts:
            if any(it.filename == "xl/workbook.xml" for it in parts.infolist()):
                raise Refused(f"{name} is an Excel file: save it as CSV, which has no limit of"
                              " rows")
            there = [it for it in parts.infolist() if not it.is_dir()]
            found = [it for it in there if it.filename.lower().endswith((".csv", ".txt"))] or there
            if len(found) != 1:
                raise Refused(f"{name} has {len(found):,} files in it: a zip with one CSV is"
                              " needed")
            if found[0].file_size > MOST_UNPACKED:
                raise Refused(too_large(name))
            with parts.open(found[0]) as part:
                yield part
    except Refused:
        raise
    except (zipfile.BadZipFile, zlib.error, lzma.LZMAError, NotImplementedError, RuntimeError,
            EOFError, OSError, ValueError) as error:
        how = "make it again, without a password"
        raise Refused(f"{name} is no zip that can be read: {how}") from error


def too_large(name: str) -> str:
    """What is said of a file that is too large once it is unpacked."""
    most = f"a gazetteer has at most {MOST_UNPACKED // inputs.MB} MB unpacked"
    return f"{name} is too large: {most}. Leave out what is outside of your area"


class Lines:
    """The lines of a file with their numbers, or None for one that is too long. Their letters are
    UTF-8, or Windows-1252 where they cannot be that.
    """

    def __init__(self, file: IO[bytes], name: str) -> None:
        self.name, self.number, self.size = name, 0, 0
        # those that were read, and are to be read again
        self.again: list[Line] = []
        start = cast(io.BufferedReader, file).peek(4)[:4]
        is_wide = start.startswith((b"\xff\xfe", b"\xfe\xff"))
        self.text = io.TextIOWrapper(
            file, "utf-16" if is_wide else "utf-8-sig", "replace" if is_wide else "surrogateescape")

    def next(self) -> Line | None:
        """The next line, if there is one."""
        if self.again:
            return self.again.pop()
        text = self.part()
        if not text:
            return None
        self.number += 1
        if self.number > MOST_LINES:
            raise Refused(f"{self.name} has more than {MOST_LINES:,} lines: leave out empty ones")
        is_long = not text.endswith("\n") and len(text) >= MOST_LINE
        while is_long and (more := self.part()) and not more.endswith("\n"):
            pass
        return self.number, None if is_long else lettered(text)

    def part(self) -> str:
        """A line, or a part of a long one."""
        text = self.text.readline(MOST_LINE)
        self.size += len(text)
        if self.size > MOST_UNPACKED:
            raise Refused(too_large(self.name))
        return text

    def row(self, text: str) -> str | None:
        """A line with those that its quotes join to it, or None where a quote is not closed: the
        lines after it are rows of their own then.
        """
        taken: list[Line] = []
        while text.count('"') % 2:
            more = self.next()
            if more is not None:
                taken.append(more)
            if more is None or more[1] is None or len(taken) > MOST_JOINED or (
                    len(text) + len(more[1]) > MOST_LINE):
                self.again += reversed(taken)
                return None
            text += more[1]
        return text


def lettered(text: str) -> str:
    """A line in letters."""
    if text.isascii() or not any("\udc80" <= it <= "\udcff" for it in text):
        return text
    return text.encode("utf-8", "surrogateescape").decode("cp1252", "replace")


def rows_of(
    path: pathlib.Path, name: str, most: int | None = None,
) -> Iterator[tuple[int, Cells | None, str]]:
    """The rows of a file that have anything, or of so many of its first lines: the number of the
    first line of each, its cells, or None and why it cannot be read.
    """
    with opened(path, name) as file:
        lines, between = Lines(file, name), ""
        while (line := lines.next()) is not None:
            number, text = line
            if most is not None and number > most:
                return
            if text is None:
                yield number, None, f"the line has more than {MOST_LINE:,} characters"
                continue
            if not between and text.lower().startswith("sep=") and len(text.strip()) <= 5:
                continue
            between = between or max(sheet.SEPARATORS, key=text.count)
            whole = lines.row(text)
            if whole is None:
                yield number, None, "a quote is not closed"
            elif whole.strip():
                yield number, *cells_of(whole, between)


def cells_of(text: str, between: str) -> tuple[Cells | None, str]:
    """The cells of a row, or None and why it cannot be read."""
    try:
        cells = next(csv.reader(io.StringIO(text, newline=""), delimiter=between))
    except (csv.Error, StopIteration):
        return None, "it is no row of a CSV"
    return cells[:MOST_COLUMNS], ""


def first_rows(path: pathlib.Path, name: str) -> list[Cells]:
    """The first rows that can be read."""
    found: list[Cells] = []
    for number, cells, why in rows_of(path, name, FIRST_LINES):
        if cells is not None:
            found.append(cells)
        elif not found:
            raise Refused(f"{name} is no CSV with a row for each address: line {number}: {why}")
        if len(found) > FIRST_ROWS:
            break
    if not found or max(map(len, found)) < 3:
        raise Refused(f"{name} is no CSV with a row for each address: a row has a property number"
                      " or a postcode, and two columns with its point")
    return found


def plain(name: str) -> str:
    """The name of a column in small letters, without anything else."""
    return re.sub(r"[^a-z0-9]", "", name.casefold())


def has_names(first: Cells) -> bool:
    """Whether a first row has names: no cell of it is a number or a postcode."""
    return not any(points.decimal(it) is not None or points.postcodes_of(it) for it in first)


def guessed(first: Cells, kept: Mapping[str, str]) -> dict[str, int]:
    """The places of the columns by what they are called: as they were chosen last, else as they are
    usually called.
    """
    if not has_names(first):
        # (of a file without names, the places that were chosen last)
        return {what: int(it[1:]) for what, it in kept.items()
                if re.fullmatch("#[0-9]{1,3}", it) and int(it[1:]) < len(first)}
    names = [plain(it) for it in first]
    found: dict[str, int] = {}
    for what, usual in NAMES.items():
        chosen = kept.get(what)
        if chosen is not None and first.count(chosen) == 1:
            found[what] = first.index(chosen)
        else:
            at = next((names.index(it) for it in usual if it in names), None)
            if at is not None:
                found[what] = at
    return found


def places(
    path: pathlib.Path, name: str, columns: Columns, middle: Metres | None,
) -> Iterator[Place | LeftOut]:
    """What each row of a file has. `middle` is where the schools are, if it is known."""
    waiting: list[tuple[int, int | None, str, tuple[float, float]]] = []
    is_first, many = columns.has_names, 0
    for number, cells, why in rows_of(path, name):
        if is_first:
            is_first = False
            continue
        many += 1
        if many > MOST_ROWS:
            raise Refused(f"{name} has more than {MOST_ROWS:,} rows: leave out what is outside of"
                          " your area")
        found = read_row(number, cells, columns) if cells is not None else why
        if isinstance(found, str):
            yield LeftOut(number, found)
            continue
        waiting.append(found)
        if len(waiting) >= BATCH:
            yield from placed(waiting, columns, middle)
            waiting = []
    yield from placed(waiting, columns, middle)


def read_row(
    number: int, cells: Sequence[str], columns: Columns,
) -> tuple[int, int | None, str, tuple[float, float]] | str:
    """The keys of a row and its point as it is written, or why it cannot be used."""
    def cell(at: int | None) -> str:
        return cells[at] if at is not None and at < len(cells) else ""

    code = next(iter(points.postcodes_of(cell(columns.postcode))), "")
    key = points.property_of(cell(columns.uprn)) if columns.uprn is not None else None
    if key is not None and key.expected:
        return said_of_key("property number", cell(columns.uprn), key.expected)
    if key is None and not code:
        return said_of_key("postcode", cell(columns.postcode), "write it as SW1A 1AA")
    if not (cell(columns.east).strip() and cell(columns.north).strip()):
        return "it has no point"
    east, north = points.decimal(cell(columns.east)), points.decimal(cell(columns.north))
    if east is None or north is None:
        return "its point is no number"
    if said := wrong_unit(east, north, columns.is_degrees):
        return said
    return number, int(key.text) if key else None, code, (east, north)


def said_of_key(what: str, text: str, expected: str) -> str:
    """Why a key cannot be used."""
    if not text.strip():
        return f"it has no {what}"
    return f"its {what} cannot be read: {expected}"


def wrong_unit(east: float, north: float, is_degrees: bool) -> str:
    """What is wrong with a point as it is written, or ""."""
    if (east, north) == (0, 0):
        return "the point is 0, 0"
    if not is_degrees:
        is_small = points.is_degrees(north, east) or points.is_degrees(east, north)
        return "its point is latitude and longitude, and not in metres" if is_small else ""
    if points.is_degrees(north, east):
        return ""
    if points.is_degrees(east, north):
        return "latitude and longitude are swapped"
    return "latitude and longitude are outside of Great Britain"


def placed(
    rows: list[tuple[int, int | None, str, tuple[float, float]]], columns: Columns,
    middle: Metres | None,
) -> Iterator[Place | LeftOut]:
    """Rows with their points in metres."""
    found: list[Metres | None] = []
    if columns.is_degrees and rows:
        found = points.grid_of([it[3][1] for it in rows], [it[3][0] for it in rows])
    elif rows:
        found = [points.whole(*it[3]) for it in rows]
    for (number, key, code, _), at in zip(rows, found):
        why = points.wrong_at(at, middle) if at else "the point is outside of Great Britain"
        yield LeftOut(number, why) if why or at is None else Place(number, key, code, at)
