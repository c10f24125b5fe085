"""The header of a file of applications: where it is, and which columns it names."""
from __future__ import annotations

import dataclasses
import difflib
import re
from collections.abc import Sequence
from typing import TYPE_CHECKING, Protocol

from office.core import fields, texts

if TYPE_CHECKING:
    # (which imports this module, by kinds)
    from .sheet import Row

# a row with so many known names is the header, if it is among the first rows; what is above it is a
# title
LEAST_KNOWN, FIRST_ROWS = 4, 20


@dataclasses.dataclass
class Header:
    """The place of each column that import takes, how many fields the header has, and its row."""

    columns: dict[str, int]
    width: int
    row: int


class Adds(Protocol):
    """What takes a finding: row, column, value, text, and for a change what is written instead (or
    None)."""

    def __call__(
        self,
        row: int,
        column: str,
        value: str,
        text: str,
        kind: str = ...,
        written: str | None = ...,
        /,
    ) -> None:
        ...


def plain(cell: str) -> str:
    """A name as import has it: small letters, and one _ for blanks and hyphens."""
    return re.sub(r"[\s_-]+", "_", fields.trimmed(cell).lower())


def place_of(rows: Sequence[Row]) -> int | None:
    """The place of the header among the rows, or None where no row has a known name."""
    known = [sum(plain(it) in fields.COLUMNS for it in row.cells) for row in rows[:FIRST_ROWS]]
    at_first = 0 if known and known[0] else None
    return next((at for at, it in enumerate(known) if it >= LEAST_KNOWN), at_first)


def read(row: Row, add: Adds) -> Header:
    """Reads the header. `add` takes what is found."""
    columns: dict[str, int] = {}
    unknown: list[str] = []
    for at, cell in enumerate(row.cells):
        name = plain(cell)
        if name in fields.COLUMNS and name in columns:
            add(row.number, name, cell, "each column once")
        elif name in fields.COLUMNS:
            columns[name] = at
            if cell != name:
                add(row.number, name, cell, "", "fixed", name)
        elif name:
            unknown.append(cell)
    missing = [it for it in fields.REQUIRED if it not in columns]
    near = {
        it: next((cell for cell in unknown if is_near(plain(cell), it)), None) for it in missing
    }
    for it, other in near.items():
        question = f" (is it {texts.shown(other)}?)" if other else ""
        add(row.number, it, "", f"a column of this name in the header{question}")
    for it in unknown:
        if it not in near.values():
            said = "import has no such column: it is left out"
            add(row.number, texts.cut(it), it, said, "fixed", None)
    if not missing:
        see_order(row, columns, add)
    return Header(columns, len(row.cells), row.number)


def is_near(name: str, wanted: str) -> bool:
    """Whether a name may be meant as another. One of twice the length cannot: the comparison of a
    long text would take long."""
    return len(name) < 2 * len(wanted) and difflib.SequenceMatcher(None, name, wanted).ratio() > 0.7


def see_order(row: Row, columns: dict[str, int], add: Adds) -> None:
    """Names columns that are added, a change of the order, and empty columns."""
    wanted = fields.columns_up_to(columns)
    for it in wanted:
        if it not in columns:
            said = f"the column is added, with {texts.shown(fields.OMITTED[it])} in each row"
            why = f"import takes no {wanted[-1]} without it"
            add(row.number, it, "", f"{said}: {why}", "fixed", None)
    there = [it for it in wanted if it in columns]
    if [columns[it] for it in there] != list(range(len(there))):
        order = f"the columns are put in the order {', '.join(wanted)}"
        add(row.number, "", "", order, "fixed", None)
    elif len(row.cells) > len(there) and not any(it.strip() for it in row.cells[len(there) :]):
        add(row.number, "", "", "empty columns at the end are left out", "fixed", None)
