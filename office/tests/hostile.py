"""Sheets that are far too large, or seem so: each is made by a few lines, and is small as a file.
"""
import pathlib
import zipfile
from collections.abc import Callable

HEADER = "child,name,east,north,looked_after,flags,siblings,day,preferences\n"
ROW = "1,Ann,1,1,no,,,2024-10-20,OAK\n"
MAIN = 'xmlns="http://schemas.openxmlformats.org/spreadsheetml/2006/main"'
OFFICE = "http://schemas.openxmlformats.org/officeDocument/2006/relationships"
PACKAGE = "http://schemas.openxmlformats.org/package/2006"
SHEET_ML = "application/vnd.openxmlformats-officedocument.spreadsheetml"


def row_of(number: int, cells: list[str]) -> str:
    """A row of an Excel file as XML."""
    texts = (
        f'<c r="{chr(65 + at)}{number}" t="inlineStr"><is><t>{it}</t></is></c>'
        for at, it in enumerate(cells)
    )
    return f'<row r="{number}">{"".join(texts)}</row>'


SHARED = (
    '<Override PartName="/xl/s.bin"'
    f' ContentType="{SHEET_ML}.sharedStrings+xml"/></Types>'
)
GOOD = row_of(1, HEADER.strip().split(",")) + row_of(2, ROW.strip().split(","))


def workbook(
    path: pathlib.Path,
    rows: str,
    after: str = "",
    more: dict[str, str] | None = None,
    types: str = "</Types>",
) -> None:
    """An Excel file of one sheet with these rows. `types` ends the list of the kinds of its
    parts.
    """
    parts = {
        "[Content_Types].xml": (
            f'<Types xmlns="{PACKAGE}/content-types"><Default Extension="rels"'
            ' ContentType="application/vnd.openxmlformats-package.relationships+xml"/>'
            '<Default Extension="xml" ContentType="application/xml"/>'
            '<Override PartName="/xl/workbook.xml"'
            f' ContentType="{SHEET_ML}.sheet.main+xml"/>'
            '<Override PartName="/xl/worksheets/sheet1.xml"'
            f' ContentType="{SHEET_ML}.worksheet+xml"/>{types}'
        ),
        "_rels/.rels": (
            f'<Relationships xmlns="{PACKAGE}/relationships"><Relationship Id="a"'
            f' Type="{OFFICE}/officeDocument" Target="xl/workbook.xml"/></Relationships>'
        ),
        "xl/workbook.xml": (
            f'<workbook {MAIN} xmlns:r="{OFFICE}"><sheets><sheet name="S" sheetId="1"'
            ' r:id="a"/></sheets></workbook>'
        ),
        "xl/_rels/workbook.xml.rels": (
            f'<Relationships xmlns="{PACKAGE}/relationships"><Relationship Id="a"'
            f' Type="{OFFICE}/worksheet" Target="worksheets/sheet1.xml"/></Relationships>'
        ),
        "xl/worksheets/sheet1.xml": (
            f"<worksheet {MAIN}><sheetData>{rows}</sheetData>{after}</worksheet>"
        ),
        **(more or {}),
    }
    with zipfile.ZipFile(path, "w", zipfile.ZIP_DEFLATED) as made:
        for name, part in parts.items():
            made.writestr(name, part)


def empty_cell(place: str, row: int) -> str:
    """A cell that has a format and nothing else."""
    return f'<row r="{row}"><c r="{place}" s="0"/></row>'


def many_rows(count: int, cell: str) -> str:
    """So many rows with one cell each."""
    return "".join(f'<row r="{it}"><c r="A{it}"{cell}</row>' for it in range(3, count + 3))


def text(value: str) -> Callable[[pathlib.Path], object]:
    """A CSV."""
    return lambda path: path.write_text(value, "utf-8")


# each by its name: how it is made, and what is said of it, or "" where it is read like any other
SHEETS: dict[str, tuple[Callable[[pathlib.Path], object], str]] = {
    "coloured.xlsx": (lambda it: workbook(it, GOOD + empty_cell("A1048576", 1048576)), ""),
    "corner.xlsx": (lambda it: workbook(it, GOOD + empty_cell("XFD1048576", 1048576)), ""),
    "merged.xlsx": (
        lambda it: workbook(
            it, GOOD, '<mergeCells count="1"><mergeCell ref="A3:XFD1048576"/></mergeCells>'
        ),
        "",
    ),
    "formats.xlsx": (lambda it: workbook(it, GOOD + many_rows(30_000, ' s="0"/>')), ""),
    "blanks.xlsx": (
        lambda it: workbook(it, GOOD, " " * 500_000_000),
        (
            "blanks.xlsx is too large once it is unpacked, 500 MB: an Excel file has at most 32 MB"
            " here; delete the empty rows below the data"
        ),
    ),
    "shared.xlsx": (
        lambda it: workbook(
            it,
            GOOD,
            more={"xl/s.bin": f"<sst {MAIN}>" + " " * 100_000_000 + "</sst>"},
            types=SHARED,
        ),
        "shared.xlsx is too large once it is unpacked, 100 MB",
    ),
    "one-text.xlsx": (
        lambda it: workbook(
            it,
            GOOD + many_rows(20_000, ' t="s"><v>0</v></c>'),
            more={"xl/s.bin": f"<sst {MAIN}><si><t>{'x' * 32_000}</t></si></sst>"},
            types=SHARED,
        ),
        "one-text.xlsx has too much text, by row 252: a sheet has at most 8,000,000 characters",
    ),
    "million.xlsx": (
        lambda it: workbook(it, GOOD + many_rows(1_000_000, "><v>1</v></c>")),
        "million.xlsx is too large once it is unpacked",
    ),
    "rows.xlsx": (
        lambda it: workbook(it, GOOD + many_rows(41_000, "><v>1</v></c>")),
        "rows.xlsx has too many rows: a sheet has at most 41,000",
    ),
    "merges.xlsx": (
        lambda it: workbook(
            it, GOOD, "<mergeCells>" + '<mergeCell ref="A2:XFD2"/>' * 20_000 + "</mergeCells>"
        ),
        "merges.xlsx has over 10,000 merged cells",
    ),
    "parts.xlsx": (
        lambda it: workbook(it, GOOD, more={f"xl/a{at}.bin": "" for at in range(2_000)}),
        "parts.xlsx is no Excel file: it has over 1,000 parts",
    ),
    "columns.csv": (
        text("a," * 1_000_000 + "\n"),
        "columns.csv has too many columns in row 1: a sheet has at most 250",
    ),
    "commas.csv": (text(HEADER + ROW + "," * 5_000_000 + "\n"), ""),
    "lines.csv": (text("\n" * 20_000_000), "lines.csv is too large: a file has at most 8 MB"),
    "ends.csv": (text(HEADER + ROW + "\n" * 7_000_000), ""),
    "rows.csv": (
        text(HEADER + ROW * 41_000),
        "rows.csv has too many rows: a sheet has at most 41,000",
    ),
    "cells.csv": (
        text(("a," * 240 + "a\n") * 2_100),
        "cells.csv has too many cells, by row 2,075: a sheet has at most 500,000",
    ),
    "quote.csv": (
        text(HEADER + '1,"Ann' + "x" * 40_000),
        "quote.csv, row 2: a cell has at most 32,767 characters (is a quote not closed?)",
    ),
    "digits.csv": (
        text(HEADER + ROW.replace(",1,", f",{'0' * 32_000}x,", 1)),
        "in digits without commas (it has 32,001 characters)",
    ),
    "flags.csv": (
        text(HEADER + ROW.replace("no,,", f"no,{'0' * 32_000}x,")),
        "numbers of verified reasons from 0 to 15",
    ),
    "names.csv": (
        text(HEADER.replace("north", "n" * 32_000) + ROW),
        "a column of this name in the header",
    ),
}
