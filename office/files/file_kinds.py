"""What a file seems to be that is not the one that is wanted, by its first bytes, its first line or
its columns."""
import re
from collections.abc import Iterable

from office.core import fields

from . import header

SIGNATURES = (
    (b"%PDF", "a PDF"),
    (b"SQLite format 3\0", "a register, or another database"),
    (b"\x89PNG", "a picture"),
    (b"\xff\xd8\xff", "a picture"),
    (b"GIF8", "a picture"),
    (b"\x1f\x8b", "a compressed file"),
    (b"PK\x03\x04", "an Excel file, or another archive"),
    (b"\xd0\xcf\x11\xe0", "an Excel file of the older kind (.xls), or one with a password"),
    (b"\xff\xfe", "a text in UTF-16"),
    (b"\xfe\xff", "a text in UTF-16"),
)
TAGS = re.compile(
    rb"(\xef\xbb\xbf)?\s*<(!--|(!doctype|\?xml|html|head|body|table|svg)\b)", re.IGNORECASE
)
FIRST_BYTES, NO_TEXT = 4096, "no text"
# the names of the column that says what a family answered
REPLY_COLUMNS = ("reply", "answer", "cmd", "command", "what")


def of_bytes(data: bytes) -> str:
    """What a file is that is no text with lines or rows, or "". Of such a text a few lines may be
    damaged, and so hold a zero byte."""
    if TAGS.match(data[:FIRST_BYTES]):
        return "a web page (HTML), or another text with tags"
    found = next((kind for start, kind in SIGNATURES if data.startswith(start)), "")
    return found or (NO_TEXT if b"\0" in data[:FIRST_BYTES] else "")


def of_columns(cells: Iterable[str]) -> str:
    """What a sheet is, by its first row, that is no sheet of answers; or ""."""
    cells = list(cells)
    names = {fields.trimmed(it).lower() for it in cells}
    if {"child", "school", "lot"} <= names:
        return "a sheet of lots"
    if {"child", "school"} <= names:
        return "" if names & set(REPLY_COLUMNS) else "a list of children, without answers"
    is_known = sum(header.plain(it) in fields.COLUMNS for it in cells) >= header.LEAST_KNOWN
    return "a sheet of applications" if is_known else ""
