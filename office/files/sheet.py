"""Sheets as an office has them: CSV or an Excel file, read into rows of texts with the numbers that
a spreadsheet shows; and CSV, written."""
import csv
import dataclasses
import datetime
import importlib
import io
import warnings
import zipfile
from collections.abc import Iterable, Iterator
from types import ModuleType
from typing import IO, Any
from xml.parsers import expat

from register_files import Refused

from office.core import libraries, texts

from . import file_kinds, inputs

SEPARATORS = {",": "commas", ";": "semicolons", "\t": "tabs"}
SPACE = "http://schemas.openxmlformats.org/spreadsheetml/2006/main"
MAIN, ROW, CELL, PAGE = f"{{{SPACE}}}", f"{SPACE} row", f"{SPACE} c", f"{SPACE} sheet"
# more sheets than an office has, and so many of them are named in a refusal
MOST_PAGES, MOST_NAMED = 250, 10
# a row, the place of a column or None, a sentence, and whether it is an error
Problem = tuple[int, int | None, str, bool]


@dataclasses.dataclass
class Row:
    """A row: its number in the spreadsheet, and its cells as texts."""

    number: int
    cells: list[str]


@dataclasses.dataclass
class Sheet:
    """The rows of a sheet that have anything, what had to be changed to read them, each as a
    sentence, and problems that only an Excel file has."""

    rows: list[Row]
    changes: list[str]
    separator: str = ","
    is_workbook: bool = False
    is_decoded: bool = False
    empty: list[int] = dataclasses.field(default_factory=list)
    problems: list[Problem] = dataclasses.field(default_factory=list)


def of_bytes(name: str, data: bytes, sheet: str | None, advice: str) -> Sheet:
    """The sheet of a file that was read."""
    if data.startswith(b"PK\x03\x04"):
        with inputs.within(f"reading {name}"):
            return workbook(name, data, sheet, advice)
    if data.startswith(b"\xd0\xcf\x11\xe0"):
        kind = "an Excel file of the older kind (.xls) or has a password"
        raise Refused(f"{name} is {kind}: save it as .xlsx or as CSV UTF-8")
    if not data.startswith((b"\xff\xfe", b"\xfe\xff")) and (said := file_kinds.of_bytes(data)):
        raise Refused(f"{name} is {said}: a CSV or an .xlsx is needed")
    if sheet is not None:
        raise Refused(f"{name} is no Excel file: leave the field Sheet empty")
    return text_sheet(name, data)


def decoded(name: str, data: bytes) -> tuple[str, list[str], bool]:
    """The text of a file, what had to be changed for it, and whether that is its encoding."""
    if data.startswith((b"\xff\xfe", b"\xfe\xff")):
        change = "the file is in UTF-16: it is written as UTF-8"
        return data.decode("utf-16", "replace"), [change], False
    try:
        text = data.decode("utf-8")
        if text.startswith("\ufeff"):
            return text[1:], ["the file begins with a byte order mark: it is left out"], False
        return text, [], False
    except UnicodeDecodeError:
        pass
    try:
        change = "the file is not in UTF-8 but in Windows-1252: it is written as UTF-8"
        return data.decode("cp1252"), [change], True
    except UnicodeDecodeError as error:
        line = data.count(b"\n", 0, error.start) + 1
        said = f"is neither in UTF-8 nor in Windows-1252 (line {line}): save it as CSV UTF-8"
        raise Refused(f"{name} {said}") from error


def first_line(text: str) -> str:
    """The first line that is not blank, which is the header."""
    at = len(text) - len(text.lstrip())
    start = max(text.rfind("\n", 0, at), text.rfind("\r", 0, at)) + 1
    ends = [it for it in (text.find("\n", at), text.find("\r", at)) if it >= 0]
    return text[start : min(ends, default=len(text))]


def text_sheet(name: str, data: bytes) -> Sheet:
    """The sheet of a CSV."""
    text, changes, is_decoded = decoded(name, data)
    at = 0
    first = text.split("\n", 1)[0].strip()
    if first.lower().startswith("sep=") and len(first) <= 5:
        text, at = text.partition("\n")[2], 1
        changes.append("row 1 names the separator: it is left out")
    header = first_line(text)
    separator = max(SEPARATORS, key=header.count)
    if separator != "," and header.count(separator):
        changes.append(f"{SEPARATORS[separator]} are between the fields: commas are written")
    csv.field_size_limit(max(len(text), 131072))
    between = separator if header.count(separator) else ","
    rows = csv.reader(io.StringIO(text, newline=""), delimiter=between)
    found = Sheet([], changes, separator, is_decoded=is_decoded)
    try:
        keep(name, found, enumerate(rows, at + 1))
    except csv.Error as error:
        raise Refused(f"{name} is no CSV: {error}") from error
    return found


def keep(name: str, sheet: Sheet, rows: Iterable[tuple[int, list[str]]]) -> None:
    """Takes rows into a sheet, within the limits. Those without a cell are no rows; those with
    empty cells alone are named."""
    for number, cells in within_limits(name, rows):
        if any(it.strip() for it in cells):
            sheet.rows.append(Row(number, cells))
        elif cells:
            sheet.empty.append(number)


def within_limits(
    name: str,
    rows: Iterable[tuple[int, list[str]]],
) -> Iterator[tuple[int, list[str]]]:
    """The same rows, or a refusal as soon as they are too many. Blank cells at the end of a row and
    blank rows at the end of the sheet are not counted, and those beyond the limits are left out."""
    total = characters = 0
    for number, cells in rows:
        used = len(cells)
        while used and not cells[used - 1].strip():
            used -= 1
        total += used
        characters += sum(map(len, cells[: inputs.MOST_COLUMNS]))
        if number > inputs.MOST_ROWS:
            if not used:
                continue
            raise Refused(
                f"{name} has too many rows: a sheet has at most {inputs.MOST_ROWS:,} here"
            )
        if used > inputs.MOST_COLUMNS:
            most = f"a sheet has at most {inputs.MOST_COLUMNS} here"
            raise Refused(f"{name} has too many columns in row {number:,}: {most}")
        if total > inputs.MOST_CELLS:
            most = f"a sheet has at most {inputs.MOST_CELLS:,} here"
            raise Refused(f"{name} has too many cells, by row {number:,}: {most}")
        if characters > inputs.MOST_TEXT_OF_ALL:
            most = f"a sheet has at most {inputs.MOST_TEXT_OF_ALL:,} characters here"
            raise Refused(f"{name} has too much text, by row {number:,}: {most}")
        if any(len(it) > inputs.MOST_TEXT for it in cells[:used]):
            most = f"a cell has at most {inputs.MOST_TEXT:,} characters"
            raise Refused(f"{name}, row {number:,}: {most} (is a quote not closed?)")
        yield number, cells[: inputs.MOST_COLUMNS]


def text_of(value: object) -> str:
    """A cell of an Excel file as a text: a whole number without a point, a day as YYYY-MM-DD."""
    if value is None:
        return ""
    if isinstance(value, bool):
        return "TRUE" if value else "FALSE"
    if isinstance(value, float) and value.is_integer() and abs(value) < 1e15:
        return str(int(value))
    if isinstance(value, datetime.datetime):
        is_midnight = value.time() == datetime.time(0)
        return value.date().isoformat() if is_midnight else value.isoformat(" ")
    if isinstance(value, (datetime.date, datetime.time)):
        return value.isoformat()
    return str(value)


def workbook(name: str, data: bytes, wanted: str | None, advice: str) -> Sheet:
    """The sheet of an Excel file: the only one that has anything, or the one that was named."""
    try:
        openpyxl = libraries.excel()
    except ImportError as error:
        how = "apt-get install python3-openpyxl, or save it as CSV UTF-8"
        said = f"an Excel file is read by python3-openpyxl, which is not here: {how}"
        raise Refused(said) from error
    try:
        see_parts(name, data)
        book = load(openpyxl, data)
        sheets = [it for it in book.worksheets if any(any(cells) for cells in rows_of(it))]
        if wanted is not None:
            sheets = [it for it in sheets if it.title == wanted]
        if len(sheets) != 1:
            names = [texts.cut(it.title) for it in book.worksheets]
            more = ", .." if len(names) > MOST_NAMED else ""
            named = ", ".join(names[:MOST_NAMED])
            raise Refused(f"{name} has the sheets {named}{more}: {advice}")
        return sheet_of(name, sheets[0])
    except (Refused, MemoryError):
        raise
    except Exception as error:
        # (what openpyxl says names its own classes; it raises whatever comes of a file that no
        # spreadsheet wrote)
        how = "open it in a spreadsheet and save it again as .xlsx, or as CSV UTF-8"
        raise Refused(f"{name} is no Excel file that can be read: {how}") from error


def see_parts(name: str, data: bytes) -> None:
    """Refuses an Excel file that is too large once it is unpacked. No part can be longer than the
    Excel file says: the reading of it ends there. A part of any name may be one that is read."""
    if inputs.has_many_parts(io.BytesIO(data)):
        raise Refused(f"{name} is no Excel file: it has over {inputs.MOST_PARTS:,} parts")
    with zipfile.ZipFile(io.BytesIO(data)) as parts:
        size = sum(it.file_size for it in parts.infolist())
        if size > inputs.MOST_UNPACKED:
            most = f"an Excel file has at most {inputs.MOST_UNPACKED // inputs.MB} MB here"
            said = f"is too large once it is unpacked, {size // inputs.MB:,} MB: {most}"
            raise Refused(f"{name} {said}; delete the empty rows below the data")
        cells = Cells(name)
        for it in parts.infolist():
            with parts.open(it) as part:
                cells.count(part)


class Cells:
    """Counts the cells and rows of an Excel file, those without a value too, and its sheets: each
    of them takes time or memory as it is read.
    """

    def __init__(self, name: str) -> None:
        self.name, self.total, self.in_row, self.pages = name, 0, 0, 0

    def count(self, part: IO[bytes]) -> None:
        """Counts those of a part, or refuses where they are too many. What is no XML has none."""
        parser = expat.ParserCreate(namespace_separator=" ")
        parser.StartElementHandler = self.begin
        try:
            parser.ParseFile(part)
        except expat.ExpatError:
            return

    def begin(self, tag: str, _: object) -> None:
        """Sees an element."""
        if tag == PAGE:
            self.pages += 1
            if self.pages > MOST_PAGES:
                raise Refused(f"{self.name} has too many sheets: an Excel file has at most"
                              f" {MOST_PAGES} here")
        if tag in (ROW, CELL):
            self.total += 1
            self.in_row = self.in_row + 1 if tag == CELL else 0
            if self.total > inputs.MOST_FORMATTED or self.in_row > inputs.MOST_IN_ROW:
                most = (f"an Excel file has at most {inputs.MOST_FORMATTED:,} here, and"
                        f" {inputs.MOST_IN_ROW:,} in a row, with those that are empty")
                raise Refused(f"{self.name} has too many cells: {most}; delete the empty rows and"
                              " columns beside the data")


def load(openpyxl: ModuleType, data: bytes) -> Any:
    """An Excel file whose rows are read one after another, with the values of its formulas.
    openpyxl warns of styles and extensions that it leaves out, and they have no data."""
    with warnings.catch_warnings():
        warnings.simplefilter("ignore")
        book = openpyxl.load_workbook(io.BytesIO(data), read_only=True, data_only=True)
    for page in book.worksheets:
        # (what a sheet says of its size may be wrong, and each row would be filled up to it)
        page.reset_dimensions()
    return book


def rows_of(page: Any) -> Iterator[list[str]]:
    """The rows of a sheet of an Excel file from the first one on, each up to its last cell."""
    with warnings.catch_warnings():
        warnings.simplefilter("ignore")
        for cells in page.iter_rows(values_only=True):
            yield [text_of(it) for it in cells]


def sheet_of(name: str, page: Any) -> Sheet:
    """A sheet of an Excel file, with what is wrong in its form."""
    found = Sheet([], [], is_workbook=True)
    keep(name, found, enumerate(rows_of(page), 1))
    for row in found.rows:
        while row.cells and not row.cells[-1]:
            row.cells.pop()
    widths = {row.number: len(row.cells) for row in found.rows}
    found.empty, found.problems = [], list(problems_of(name, page, widths))
    return found


def problems_of(name: str, page: Any, widths: dict[int, int]) -> Iterator[Problem]:
    """What the values of a sheet do not show. `widths` are how many cells each row has."""
    # (as openpyxl reads its parts, for which there are no types, or others than it has)
    functions: Any = importlib.import_module("openpyxl.xml.functions")
    width, number, merged = max(widths.values(), default=0), 0, 0
    # (openpyxl has no public way to the part of a sheet that is read row by row)
    with page.parent._archive.open(page._worksheet_path) as part:
        for _, it in functions.iterparse(part):
            if it.tag == f"{MAIN}row":
                number = int(it.get("r") or number + 1)
                if number in widths:
                    yield from problems_of_row(number, it)
                it.clear()
            elif it.tag == f"{MAIN}mergeCell":
                for problem in problems_of_merge(it.get("ref"), widths, width):
                    merged += 1
                    if merged > inputs.MOST_MERGED:
                        raise Refused(f"{name} has over {inputs.MOST_MERGED:,} merged cells")
                    yield problem


def problems_of_row(number: int, row: Any) -> Iterator[Problem]:
    """A row that a spreadsheet does not show; and its formulas that no spreadsheet has calculated,
    so that the file does not have their values. The value of a formula that gives a text may be
    empty."""
    from openpyxl.utils.cell import coordinate_to_tuple

    if row.get("hidden") in ("1", "true"):
        yield number, None, "the row is hidden in the spreadsheet", False
    place = -1
    for cell in row.iterfind(f"{MAIN}c"):
        place = coordinate_to_tuple(cell.get("r"))[1] - 1 if cell.get("r") else place + 1
        is_formula = cell.find(f"{MAIN}f") is not None
        if is_formula and cell.get("t") != "str" and not cell.findtext(f"{MAIN}v"):
            said = f"{cell.get('r') or 'it'} is a formula that was never calculated"
            yield number, place, said, True


def problems_of_merge(ref: str, widths: dict[int, int], width: int) -> Iterator[Problem]:
    """Cells that are merged with others: only the first of them has the value."""
    from openpyxl.utils.cell import range_boundaries

    first, row, last, _ = range_boundaries(ref)
    for place in range(first - 1, min(last, width)) if row in widths else ():
        yield row, place, f"cells {ref} are merged", True


def csv_bytes(rows: Iterable[Iterable[object]]) -> bytes:
    """Rows as CSV in UTF-8."""
    out = io.StringIO()
    csv.writer(out, lineterminator="\n").writerows(rows)
    return out.getvalue().encode("utf-8")
