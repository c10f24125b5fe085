"""Many rows of the staging table corrected by one press, and what was done taken back: each row is
as it was shown, and is brought back only if nobody has changed it since.
"""
import dataclasses
import functools
import hashlib
import json
from collections.abc import Iterable, Mapping, Sequence

from register_files import Refused

from office.core import texts
from office.web.register.history import now

from . import points
from .rows import (
    OPEN, REMARK, WITHDRAWN, Staged, packed, packed_notes, places_of, see_lengths, told,
)
from .staging import Meanwhile, Staging

CORRECTED, REPLACED = "corrected applications", "replaced the rows of a file"
UNDONE = "undid a correction of applications"
# so many different changes are in an entry of the history
MOST_TOLD = 40


@dataclasses.dataclass(frozen=True)
class Change:
    """A row as it was shown, and what becomes of it: the texts of some of its cells, in which
    nothing is in doubt any more, and its state.
    """

    row: Staged
    cells: Mapping[str, str]
    state: str = OPEN

    @property
    def made(self) -> dict[str, str]:
        """All its cells after it."""
        return {**self.row.cells, **self.cells}

    @property
    def notes(self) -> str:
        """What stays in doubt since its reading."""
        return packed_notes(it for it in self.row.notes if it.column not in self.cells)

    @property
    def said(self) -> list[str]:
        """What changes in it, each in words."""
        return [said_of(texts.cut(told(self.row.cells[it])), texts.cut(told(text)))
                for it, text in self.cells.items() if self.row.cells[it] != text]


def said_of(had: str, has: str) -> str:
    """What a cell had and has, in words."""
    if not has:
        return f'"{had}" left out'
    return f'"{had}" to "{has}"' if had else f'"{has}" where nothing was'


@dataclasses.dataclass(frozen=True)
class Mend:
    """A correction of many rows: the words of its button, what is said once it is done, what it
    changes, and whether it is asked about before.
    """

    words: str
    done: str
    changes: tuple[Change, ...]
    is_asked: bool = False

    @functools.cached_property
    def digest(self) -> str:
        """By which its button knows that it does what was shown."""
        shown = [self.words, *([it.row.id, it.row.version, it.state, dict(it.cells)]
                               for it in self.changes)]
        return hashlib.sha256(json.dumps(shown, sort_keys=True).encode()).hexdigest()


def apply(staging: Staging, who: str, mend: Mend, remark: str = "") -> int:
    """Does it, with a remark at each row, and returns the entry of the history that it has."""
    see_lengths({REMARK: remark})
    with staging.lock:
        for it in mend.changes:
            staging.seen(it.row.id, it.row.version, OPEN)
        said = list(dict.fromkeys(text for it in mend.changes for text in it.said))
        of = "of" if mend.done.endswith(" out") else "in"
        many = f" {of} {texts.count(len(mend.changes), 'row')}" if said else ""
        about = {"done": f"{mend.done}{many}", "rows": places_of(it.row for it in mend.changes)}
        if remark:
            about[REMARK] = told(remark)
        if said:
            more = [f"{len(said) - MOST_TOLD} more"] if len(said) > MOST_TOLD else []
            about["changes"] = "; ".join(said[:MOST_TOLD] + more)
        entry = staging.history.add(who, CORRECTED, about)
        with staging.writing() as db:
            db.executemany(
                "UPDATE staged_row SET cells=?, notes=?, point=?, state=?, remark=?, mend=?,"
                " before=?, version=version+1, changed_by=?, changed=? WHERE id=?",
                [(packed(it.made), it.notes,
                  points.after(it.row.point, it.row.cells, it.made).packed(), it.state,
                  remark or it.row.remark, entry.number, before(it.row), who, now(), it.row.id)
                 for it in mend.changes])
    return entry.number


def before(row: Staged) -> str:
    """What a row is before a correction, and in which version it is after it."""
    return packed({"version": row.version + 1, "cells": row.cells, "others": row.others,
                   "first": row.first, "notes": packed_notes(row.notes),
                   "point": row.point.packed(), "state": row.state, "file": row.file,
                   "number": row.number, REMARK: row.remark})


@dataclasses.dataclass(frozen=True)
class Undoable:
    """What can still be taken back of a correction: its rows that nobody has changed since, and how
    many others it had.
    """

    entry: int
    done: str
    changes: str
    rows: tuple[int, ...]
    others: int


def undoable(staging: Staging, entry: int) -> Undoable | None:
    """What can be taken back of the correction of an entry, if it is one."""
    entries = staging.history.entries
    if not 0 < entry <= len(entries) or entries[entry - 1].what not in (CORRECTED, REPLACED):
        return None
    found = staging.store.rows(
        "SELECT id, version, before FROM staged_row WHERE mend=? AND state IN (?, ?) ORDER BY id",
        entry, OPEN, WITHDRAWN)
    rows = tuple(it["id"] for it in found if json.loads(it["before"])["version"] == it["version"])
    about = entries[entry - 1].about
    return Undoable(entry, about["done"], about.get("changes", ""), rows, len(found) - len(rows))


def undo(staging: Staging, who: str, entry: int) -> Sequence[Staged]:
    """Brings the rows of a correction back to what they were before it."""
    with staging.lock:
        found = undoable(staging, entry)
        if found is None or not found.rows:
            raise Refused("it cannot be undone any more: its rows were changed since")
        rows = [staging.row(it) for it in found.rows]
        was = {it["id"]: json.loads(it["before"]) for it in staging.store.rows(
            "SELECT id, before FROM staged_row WHERE mend=?", entry)}
        staging.see_place(sum(it.state == WITHDRAWN and was[it.id]["state"] == OPEN for it in rows))
        staging.history.add(who, UNDONE, {"entry": entry, "rows": places_of(rows)})
        restore(staging, who, [(it.id, was[it.id]) for it in rows])
        return rows


def restore(staging: Staging, who: str, rows: Iterable[tuple[int, Mapping[str, object]]]) -> None:
    """Gives rows back what they had."""
    with staging.writing() as db:
        db.executemany(
            "UPDATE staged_row SET cells=?, others=?, first=?, notes=?, point=?, state=?, file=?,"
            " number=?, remark=?, mend=NULL, before='', version=version+1, changed_by=?, changed=?"
            " WHERE id=?",
            [(packed(it["cells"]), packed(it["others"]), packed(it["first"] or it["cells"]),
              it["notes"], it["point"], it["state"], it["file"], it["number"],
              it.get(REMARK, ""), who, now(), number) for number, it in rows])


def chosen(mends: Iterable[Mend], digest: str) -> Mend:
    """The one whose button was pressed, if it still does what was shown."""
    for it in mends:
        if it.digest == digest:
            return it
    raise Meanwhile("the table has changed since it was shown")
