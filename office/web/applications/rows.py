"""The rows of the staging table and its files, as the store keeps them and the history names them.
"""
import dataclasses
import functools
import hashlib
import json
import sqlite3
from collections.abc import Iterable, Mapping

from register_files import Refused

from office.core import fields, texts
from office.files import inputs
from office.web.register.rows import of_fields

from . import points
from .files import Note
from .points import FILE, Point, unpacked

OPEN, WITHDRAWN, SENDING, COMMITTED = "open", "withdrawn", "sending", "committed"
# a row of a file that is to replace another one, and has not yet
PROPOSED = "proposed"
# what an officer writes at a row that is set aside, beside its columns
REMARK = "remark"
# so much of a cell is in the history
MOST_TOLD = 300


@dataclasses.dataclass(frozen=True)
class Staged:
    """A row of the table: its file and its number there, its cells by their columns, and those of
    other columns; what was found in its reading; who added and changed it, and when; its cells as
    they were read; and why it was set aside, or what its family was asked.
    """

    id: int
    file: int
    file_name: str
    is_form: bool
    is_uk: bool
    number: int
    cells: dict[str, str]
    others: dict[str, str]
    notes: tuple[Note, ...]
    state: str
    version: int
    who: str
    added: str
    changed_by: str
    changed: str
    entry: int | None
    point: Point = Point()
    first: Mapping[str, str] = dataclasses.field(default_factory=dict)
    remark: str = ""

    @functools.cached_property
    def shown(self) -> str:
        """All of it by which a person decides whether it is stored, as a text."""
        return packed([self.id, self.state, self.cells, self.point.packed(),
                       packed_notes(self.notes)])

    @property
    def where(self) -> str:
        """How messages name it."""
        return f"form {self.number}" if self.is_form else f"row {self.number} of {self.file_name}"

    @property
    def has_given_point(self) -> bool:
        """Whether its point is that of its file."""
        return self.point.source == FILE and not self.is_form

    @property
    def point_words(self) -> str:
        """Where its point came from."""
        return f"from {self.file_name}" if self.has_given_point else self.point.words

    @property
    def point_shown(self) -> str:
        """The same, where the row has a point."""
        return self.point_words if points.has_any(self.cells) else ""


@dataclasses.dataclass(frozen=True)
class File:
    """A file that was added: who added it and when, what was changed to read it, and how many of
    its rows are in each state.
    """

    id: int
    name: str
    is_form: bool
    is_uk: bool
    changes: list[str]
    who: str
    added: str
    counts: dict[str, int]


def staged_of(row: sqlite3.Row) -> Staged:
    """A row of the store."""
    notes = tuple(of_fields(Note, it) for it in json.loads(row["notes"]))
    return Staged(
        row["id"], row["file"], row["name"], bool(row["is_form"]), bool(row["is_uk"]),
        row["number"], whole(json.loads(row["cells"])), json.loads(row["others"]), notes,
        row["state"], row["version"], row["who"], row["added"], row["changed_by"], row["changed"],
        row["entry"], unpacked(row["point"]),
        whole(json.loads(row["first"])) if row["first"] else {}, row["remark"])


def whole(cells: Mapping[str, str]) -> dict[str, str]:
    """Cells with each column that an application has."""
    return {it: cells.get(it, fields.OMITTED.get(it, "")) for it in fields.COLUMNS}


def digest_of(rows: Iterable[Staged]) -> str:
    """Rows in their versions, in short: who changes all of them has seen these."""
    return hashlib.sha256(packed([[it.id, it.version] for it in rows]).encode()).hexdigest()


def packed(value: object) -> str:
    """A value as the store keeps it."""
    return json.dumps(value, ensure_ascii=False, separators=(",", ":"))


def packed_notes(notes: Iterable[Note]) -> str:
    """Notes as the store keeps them."""
    return packed([dataclasses.asdict(it) for it in notes])


def too_long(text: str) -> str:
    """Why no cell of a sheet can have a text, or ""."""
    return f"a cell has at most {inputs.MOST_TEXT:,} characters" if (
        len(text) > inputs.MOST_TEXT) else ""


def see_lengths(cells: Mapping[str, str]) -> None:
    """Refuses what no cell of a sheet can have."""
    for it in cells.values():
        if said := too_long(it):
            raise Refused(said)


def named(found: Staged) -> dict[str, str]:
    """How the history names the child of a row."""
    return {"number": told(found.cells["child"])}


def places_of(rows: Iterable[Staged]) -> str:
    """Where rows are, in words."""
    places: dict[str, list[int]] = {}
    for it in rows:
        places.setdefault(it.file_name, []).append(it.number)
    return "; ".join(f"{texts.spans(sorted(numbers))} of {name}"
                     for name, numbers in places.items())


def told(text: str) -> str:
    """A cell as the history has it."""
    return texts.visible(text)[:MOST_TOLD]
