"""Sheets of lots: the pairs, the sheet that a supervisor fills, and the rows of a filled one."""
import csv
import io
import re
from collections.abc import Collection, Iterable, Sequence

from register_files import Refused

from office.core import rules, texts
from office.core.model import Pair
from office.core.rules import LIMITS
from office.files import book, file_kinds, sheet

MOST_LOT = LIMITS["number"].most
SHOWN = 5
NOT_TEXT = "is no text in UTF-8: save it as CSV in UTF-8"
# the columns of a header, by the names that are understood
COLUMNS = {
    "school": "school", "code": "school", "child": "child", "number": "child", "name": "name",
    "lot": "lot",
}
WANTED = ["school", "child", "lot"]
# the column of a sheet that says of which of several draws a row is
DRAW = "draw"
# a row's number and its cells
Numbered = tuple[int, list[str]]


def in_words(pairs: Iterable[Pair]) -> str:
    """Some pairs as a sentence has them."""
    pairs = sorted(pairs)
    shown = [f"{code} {number}" for code, number in pairs[:SHOWN]]
    if len(pairs) <= SHOWN:
        return str(texts.listed(shown))
    return f"{', '.join(shown)} and {len(pairs) - SHOWN:,} more"


def decoded(name: str, data: bytes) -> str:
    """A text in UTF-8, without the byte order mark that spreadsheets write before it."""
    if (said := file_kinds.of_bytes(data)) and said != file_kinds.NO_TEXT:
        raise Refused(f"{name} is {said}: save it as CSV in UTF-8")
    try:
        text = data.decode("utf-8-sig")
    except UnicodeDecodeError as error:
        raise Refused(f"{name} {NOT_TEXT}") from error
    if "\0" in text:
        raise Refused(f"{name} {NOT_TEXT}")
    return text


def pairs_in(name: str, text: str, school: str | None) -> list[Pair]:
    """The pairs of a text in their order. A list in another order is refused: the lots of a line
    carry no names, so they would go to other children.
    """
    found: list[Pair] = []
    for at, line in enumerate(text.splitlines(), 1):
        where = f"line {at} of {name}"
        code, _, digits = line.partition(" ")
        number = rules.number_in(digits, LIMITS["child"])
        if number is None or not rules.is_code(code):
            raise Refused(f"{where} is no pair: a code, a blank and a child's number")
        pair = (code, number)
        if found and pair <= found[-1]:
            raise Refused(f"{where} does not come after the line before it: print the pairs again")
        if school not in (None, code):
            raise Refused(f"{where} is of {code}, not of {school}")
        found.append(pair)
    if not found:
        raise Refused(f"{name} has no pair")
    return found


def without_end(cells: Sequence[str]) -> list[str]:
    """Cells without the blanks around them, and without empty ones at the end."""
    found = [it.strip() for it in cells]
    while found and not found[-1]:
        found.pop()
    return found


def columns_in(cells: Sequence[str]) -> list[str | None]:
    """Which column each cell of a header names."""
    return [COLUMNS.get(it.strip().lower()) for it in cells]


def is_named(cells: Sequence[str]) -> bool:
    """Whether a row is a header by whose names the columns are found: it has more than code, number
    and lot, or these in another order.
    """
    names = columns_in(without_end(cells))
    return names != WANTED and set(WANTED) <= set(names)


def csv_rows(name: str, text: str) -> list[Numbered]:
    """The rows of a CSV, each with its number. Without a header that has a name column, fields are
    codes and digits, so there is one kind of separator; where none is found, it is the blank.
    """
    header = sheet.first_line(text)
    marks = [it for it in ",;\t" if it in text]
    by_name = next((it for it in ",;\t" if is_named(split_by(header, it))), None)
    if by_name is None and len(marks) > 1:
        several = " and ".join(map(repr, marks))
        raise Refused(f"{name} has {several} in it: save it with one separator")
    mark = by_name or (marks or [","])[0]
    rows = csv.reader(io.StringIO(text, newline=""), delimiter=mark, skipinitialspace=True)
    try:
        return list(sheet.within_limits(name, enumerate(rows, 1)))
    except csv.Error as error:
        raise Refused(f"{name} is no CSV: {error}") from error


def split_by(line: str, mark: str) -> list[str]:
    """The cells of a line with a separator; none where they would be too long for a CSV."""
    try:
        return next(csv.reader([line], delimiter=mark), [])
    except csv.Error:
        return []


def draws_in(name: str, data: bytes) -> list[str]:
    """The numbers of draws that a sheet has in its column of them, each once."""
    rows = raw_rows(name, data)
    header = [it.strip().lower() for it in rows[0][1]] if rows else []
    if DRAW not in header:
        return []
    at = header.index(DRAW)
    return list(dict.fromkeys(it.strip() for _, cells in rows[1:] for it in cells[at:at + 1]
                              if it.strip()))


def raw_rows(name: str, data: bytes) -> list[Numbered]:
    """The rows of a sheet as they are, each with its number. Empty rows are omitted."""
    if data.startswith(b"PK\x03\x04"):
        found = sheet.of_bytes(name, data, None, "leave the one of the lots")
        rows = [(it.number, it.cells) for it in found.rows]
    else:
        rows = csv_rows(name, decoded(name, data))
    return [(at, cells) for at, cells in rows if without_end(cells)]


def rows_in(name: str, data: bytes) -> list[Numbered]:
    """The rows of a sheet, each with its number, as code, number and lot, without a header."""
    rows = raw_rows(name, data)
    if rows and is_named(rows[0][1]):
        names = columns_in(rows[0][1])
        places = [names.index(it) for it in WANTED]
        return [(at, without_end(cells_at(cells, places))) for at, cells in rows[1:]]
    rows = [(at, pair_apart(without_end(cells))) for at, cells in rows]
    return rows[1:] if rows and is_header(rows[0][1]) else rows


def cells_at(cells: Sequence[str], places: Sequence[int]) -> list[str]:
    """The cells at these places; "" where a row has none."""
    return [cells[it] if it < len(cells) else "" for it in places]


def pair_apart(fields: list[str]) -> list[str]:
    """A list of pairs that a spreadsheet opened unchanged has code and number in one field."""
    return fields[0].split() + fields[1:] if 0 < len(fields) < 3 else fields


def is_header(fields: Sequence[str]) -> bool:
    """Whether a row has neither a child's number nor a lot. A row that is mistaken for a header
    leaves a pair without a lot.
    """
    return not any(re.search(r"[0-9]", it) for it in fields[1:3])


def wrong_lot(lot: str) -> str:
    """What is wrong with a lot by itself, or "" """
    if not re.fullmatch(r"[0-9]+", lot):
        return "that is no number"
    # (the length first: no long text is made a number)
    is_above = len(lot.lstrip("0")) > len(str(MOST_LOT)) or int(lot) > MOST_LOT
    return f"above {MOST_LOT}" if is_above else ""


class Filled:
    """The lots of a filled sheet as its rows are read: the row of each pair, and of each lot."""

    def __init__(self, pairs: Collection[Pair]) -> None:
        self.known = set(pairs)
        self.lots: dict[Pair, int] = {}
        self.rows: dict[Pair, int] = {}
        # by schools and lots
        self.drawn: dict[Pair, int] = {}

    def add(self, at: int, fields: Sequence[str]) -> str:
        """Reads a row, and says what is wrong with it, or "" """
        if len(fields) not in (2, 3):
            return f"has not the three fields code, number and lot: {' '.join(fields)}"
        code, number, lot = [*fields, ""][:3]
        pair = (code, int(number)) if re.fullmatch(r"[0-9]{1,9}", number) else None
        is_known = pair in self.known
        if pair in self.rows:
            return f"is for the school and child of row {self.rows[pair]}: {code} {number}"
        if pair and is_known:
            self.rows[pair] = at
        if len(fields) == 2:
            return f"has no lot: {code} {number}"
        if not pair or not is_known:
            return f"is for no lot that is drawn here: {code} {number}"
        if said := wrong_lot(lot):
            return f"has a lot {said}: {lot}"
        if (code, int(lot)) in self.drawn:
            return f"has a lot that row {self.drawn[code, int(lot)]} has at {code}: {lot}"
        self.lots[pair] = int(lot)
        self.drawn[code, int(lot)] = at
        return ""


def data(is_workbook: bool, pairs: Sequence[Pair], draw: int | None = None) -> bytes:
    """The sheet for the supervisor: an Excel file or a CSV. Where there are several draws, with the
    number of this one in each row.
    """
    header = [*([DRAW] if draw else []), "school", "child", "lot"]
    rows: list[list[book.Value]] = [
        [*([draw] if draw else []), code, number, None] for code, number in pairs]
    if not is_workbook:
        return b"\xef\xbb\xbf" + sheet.csv_bytes([header, *rows])
    purpose = "a lot for each row: a whole number, no two equal at one school"
    page = book.Page("lots", purpose, [header, *rows], {len(header): MOST_LOT})
    return book.data([page], "Lots")
