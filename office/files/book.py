"""Excel files in a form for print: a sheet for each table, its heading repeated on each page,
columns as wide as they need, and pages that are numbered."""
import dataclasses
import datetime
import importlib
import io
import re
import textwrap
import threading
from collections.abc import Iterable, Sequence
from types import ModuleType
from typing import Any

from register_files import Refused

from office.core import days, libraries, texts, turns

# an Excel file takes much time of the processor, which all threads share: so many are made at once
AT_ONCE = turns.Turn(threading.BoundedSemaphore(2), "other Excel files are being made")
# what a cell has, as it is given; a text of the form YYYY-MM-DD is a day
Value = str | int | float | datetime.date | None

# in the units of a spreadsheet, about a letter each: columns, pages, and the line above a page
WIDEST, WIDEST_UPRIGHT, FILLED, LINE = 60, 125, 18, 130
# what no Excel file can hold: control characters, halves of pairs, and two that are no characters
UNWRITABLE = re.compile("[\x00-\x08\x0b\x0c\x0e-\x1f\ud800-\udfff\ufffe\uffff]")
DAY = re.compile(r"[0-9]{4}-[0-9]{2}-[0-9]{2}")
HEAD_COLOUR, LINE_COLOUR, LINED = "FFDDDDDD", "FF999999", "lined"


@dataclasses.dataclass
class Page:
    """A sheet: its name, what it has, and its header with its rows. In the columns of `blank`
    somebody writes whole numbers up to this one. Where it is text, each cell is one as it is."""

    name: str
    purpose: str
    rows: Sequence[Sequence[Value]]
    blank: dict[int, int] = dataclasses.field(default_factory=dict)
    is_text: bool = False


def library() -> ModuleType:
    """The package that writes workbooks."""
    try:
        found = libraries.excel()
        importlib.import_module("openpyxl.worksheet.datavalidation")
        return found
    except ImportError as error:
        how = "apt-get install python3-openpyxl, or use CSV"
        said = f"an Excel file is written by python3-openpyxl, which is not here: {how}"
        raise Refused(said) from error


def value_of(value: Value) -> Value:
    """A value as a cell has it: days of texts as days."""
    # (a name may have the form of a day, and be none)
    if isinstance(value, str) and DAY.fullmatch(value) and (day := days.read(value)):
        return day
    return UNWRITABLE.sub("\ufffd", value) if isinstance(value, str) else value


def text_of(value: Value) -> Value:
    """A value as a cell has it that is a text in any case."""
    return UNWRITABLE.sub("\ufffd", "" if value is None else str(value))


def fill(page: Any, rows: Iterable[Iterable[Value]], is_text: bool) -> None:
    """Writes the cells. A text is a text, whatever it begins with."""
    for at, row in enumerate(rows, 1):
        for column, given in enumerate(row, 1):
            value = text_of(given) if is_text else value_of(given)
            if value is None or value == "":
                continue
            cell = page.cell(at, column)
            cell.style = LINED
            cell.value = value
            if isinstance(value, str):
                cell.data_type = "s"
                cell.quotePrefix = value[0] in "=+-@'"
            elif isinstance(value, datetime.date):
                cell.number_format = "yyyy-mm-dd"


def widths(page: Page) -> list[float]:
    """The width of each column, by its longest value: bold letters and the arrow of a filter need
    more, and a column to be filled has room for a hand."""
    found: list[float] = []
    for at, (head, *values) in enumerate(zip(*page.rows), 1):
        longest = max((len("" if it is None else str(it)) for it in values), default=0)
        needed = min(WIDEST, max(1.15 * longest, 1.3 * len(str(head)) + 2) + 3)
        found.append(FILLED if at in page.blank else needed)
    return found


def set_out(page: Any, given: Page, title: str, styles: Any) -> None:
    """The form for print."""
    wide = widths(given)
    for at, width in enumerate(wide, 1):
        letter = page.cell(1, at).column_letter
        page.column_dimensions[letter].width = width
        if width == WIDEST:
            for cell in page[letter]:
                cell.alignment = styles.Alignment(wrap_text=True, vertical="top")
    for row in page.iter_rows():
        for cell in row:
            if not cell.has_style:
                cell.style = LINED
    for cell in page[1]:
        cell.font = styles.Font(bold=True)
        cell.fill = styles.PatternFill("solid", start_color=HEAD_COLOUR)
    page.freeze_panes = "A2"
    page.auto_filter.ref = page.dimensions
    page.print_title_rows = "$1:$1"
    page.page_margins.top = 1.0
    page.page_setup.paperSize = page.PAPERSIZE_A4
    page.page_setup.orientation = "landscape" if sum(wide) > WIDEST_UPRIGHT else "portrait"
    page.page_setup.fitToWidth, page.page_setup.fitToHeight = 1, 0
    page.sheet_properties.pageSetUpPr = type(page.sheet_properties.pageSetUpPr)(fitToPage=True)
    heading = textwrap.shorten(f"{title}: {given.purpose}", LINE, placeholder=" ..")
    page.oddHeader.left.text = heading.replace("&", "&&")
    page.oddFooter.center.text = "&A, page &P of &N"


def lined(styles: Any) -> Any:
    """The style of all cells, with lines around them. (The lots of a round have 140,000 cells: with
    a border for each of them an Excel file takes four times as long.)
    """
    line = styles.Side(style="thin", color=LINE_COLOUR)
    border = styles.Border(bottom=line, left=line, right=line)
    return styles.NamedStyle(LINED, font=styles.fonts.DEFAULT_FONT, border=border)


def data(pages: list[Page], title: str) -> bytes:
    """An Excel file of these pages, once it is its turn. Where there are several, the first sheet
    lists them."""
    with AT_ONCE:
        return written(pages, title)


def written(pages: list[Page], title: str) -> bytes:
    """The bytes of an Excel file of these pages."""
    library_ = library()
    made = library_.Workbook()
    made.remove(made.active)
    made.add_named_style(lined(library_.styles))
    # (a title may have what somebody typed, of which an Excel file takes no control characters)
    title = texts.visible(title)
    made.properties.title, made.properties.creator = title, "admissions"
    if len(pages) > 1:
        contents: list[list[Value]] = [["sheet", "rows", "what it has"]]
        contents += [[it.name, len(it.rows) - 1, it.purpose] for it in pages]
        pages = [Page("contents", "the sheets of this workbook", contents), *pages]
    for it in pages:
        page = made.create_sheet(it.name)
        fill(page, it.rows, it.is_text)
        set_out(page, it, title, library_.styles)
        for column, most in it.blank.items():
            letter = page.cell(1, column).column_letter
            rule = library_.worksheet.datavalidation.DataValidation(
                "whole",
                operator="between",
                formula1="0",
                formula2=str(most),
                allow_blank=True,
                showErrorMessage=True,
            )
            rule.error = f"a whole number from 0 to {most:,}"
            page.add_data_validation(rule)
            rule.add(f"{letter}2:{letter}{max(2, len(it.rows))}")
    out = io.BytesIO()
    made.save(out)
    return out.getvalue()
