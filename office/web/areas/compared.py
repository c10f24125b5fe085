"""What a file of catchment areas changes: the rows of Applications that get other schools by it,
and the children of the register whose catchment schools are others than the areas say.
"""
import dataclasses
import hashlib
import json
from collections.abc import Iterable, Sequence

from office.core.model import Register
from office.web.applications.table_check import Table

from .areas import Line
from .map import Map

NONE = "none"
Codes = tuple[str, ...]


@dataclasses.dataclass(frozen=True)
class Change:
    """A row or a child: what it is called, and its schools before and after."""

    number: int
    where: str
    name: str
    before: Codes
    after: Codes

    @property
    def words(self) -> tuple[str, str]:
        """Both in words."""
        return ", ".join(self.before) or NONE, ", ".join(self.after) or NONE


def of_rows(table: Table, before: Map | None, after: Map) -> list[Change]:
    """The rows that get other schools: those in which none is written, and whose home can be read.
    """
    found = []
    for number, it in table.rows.items():
        home = it.row.home
        if home is None or it.staged.cells["catchments"].strip():
            continue
        was, now = before.schools_at(home) if before else (), after.schools_at(home)
        if was != now:
            found.append(Change(number, it.staged.where, it.staged.cells["name"], was, now))
    return found


def of_children(register: Register, areas: Map) -> list[Change]:
    """The children of the register with other schools than those in whose areas their homes are."""
    found = []
    for number, it in register.children.items():
        now = areas.schools_at((it.east, it.north))
        if set(it.catchments) != set(now):
            found.append(Change(number, f"child {number}", it.name, it.catchments, now))
    return found


def digest(number: int, lines: Iterable[Line], changes: Sequence[Change]) -> str:
    """By which a confirmation knows that it does what was shown."""
    shown = [number, [dataclasses.astuple(it) for it in lines],
             [dataclasses.astuple(it) for it in changes]]
    return hashlib.sha256(json.dumps(shown).encode()).hexdigest()
