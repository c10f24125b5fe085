"""A corrected file in place of one that is in the staging table: what changes by it, shown before;
and then its rows instead of the old ones, without any of them twice.

A row of both files is one row. It gets what is other in the new file than it was in the old one as
that was read, and keeps what was corrected in the table.
"""
import collections
import dataclasses
import hashlib
import json
from collections.abc import Iterable, Iterator, Sequence

from register_files import Refused

from office.core import fields, texts
from office.web.register.history import now

from . import points
from .files import POINT, Read
from .mends import REPLACED, before
from .points import Point
from .row_points import OWN
from .rows import (
    COMMITTED, OPEN, PROPOSED, SENDING, WITHDRAWN, Staged, packed, packed_notes, places_of,
)
from .staging import Meanwhile, Staging, insert

Pair = tuple[Staged, Staged]


@dataclasses.dataclass(frozen=True)
class Cell:
    """A cell that changes: its column, what it has in the table and in the new file, and whether it
    was corrected in the table since it was read.
    """

    column: str
    before: str
    after: str
    is_corrected: bool


@dataclasses.dataclass(frozen=True)
class Changed:
    """A row of both files: as it is in the table, as it is in the new file, and its cells after."""

    old: Staged
    new: Staged
    cells: dict[str, str]

    @property
    def is_edited(self) -> bool:
        """Whether the new file has anything else in it than the old one had."""
        return self.new.cells != (self.old.first or self.old.cells)

    @property
    def changes(self) -> list[Cell]:
        """What changes in it."""
        first = self.old.first or self.old.cells
        return [Cell(it, had, self.cells[it], had != first[it])
                for it, had in self.old.cells.items() if had != self.cells[it]]

    @property
    def state(self) -> str:
        """Its state after: one that was set aside stays so unless the new file has it otherwise."""
        return OPEN if self.is_edited else self.old.state


@dataclasses.dataclass(frozen=True)
class Replacement:
    """What a new file changes: rows that it adds, those that it has no more, and those that both
    have; and the rows that are in the register already.
    """

    file: int
    name: str
    new_file: int
    new_name: str
    added: list[Staged]
    gone: list[Staged]
    both: list[Changed]
    stored: list[Staged]

    @property
    def changed(self) -> list[Changed]:
        """Those of both that change."""
        return [it for it in self.both if it.changes or it.state != it.old.state]

    @property
    def digest(self) -> str:
        """Of all that is shown."""
        rows = [[it.id, it.version] for it in (
            *self.added, *self.gone, *(row for it in self.both for row in (it.old, it.new)),
            *self.stored)]
        return hashlib.sha256(json.dumps([self.new_file, rows]).encode()).hexdigest()


def propose(staging: Staging, who: str, file: int, name: str, data: bytes, given: Read) -> None:
    """Keeps the rows of a file that is to replace another one, in place of an earlier such one."""
    digest, moment = hashlib.sha256(data).hexdigest(), now()
    with staging.lock:
        old = staging.store.row("SELECT * FROM staged_file WHERE id=? AND is_form=0", file)
        if old is None:
            raise Refused("there is no such file in the table")
        if old["digest"] == digest:
            raise Refused(f"{name} is the file that is in the table")
        if len(given.rows) > (most := staging.most()):
            raise Refused(f"{name} has {len(given.rows):,} rows, and the table has place for"
                          f" {most:,}")
        with staging.writing() as db:
            discard(staging, file)
            made = db.execute(
                "INSERT INTO staged_file (name, digest, is_form, is_uk, changes, who, added,"
                " replaces) VALUES (?, ?, 0, ?, ?, ?, ?, ?)",
                (staging.new_name(name), digest, old["is_uk"], packed(given.changes), who, moment,
                 file)).lastrowid
            for it in given.rows:
                insert(db, made or 0, it, who, moment, state=PROPOSED)


def discard(staging: Staging, file: int) -> None:
    """Forgets the file that was to replace another one."""
    with staging.writing() as db:
        db.execute("DELETE FROM staged_row WHERE state=? AND file IN"
                   " (SELECT id FROM staged_file WHERE replaces=?)", (PROPOSED, file))
        db.execute("DELETE FROM staged_file WHERE replaces=?", (file,))
    # (the next rows may get the same ids)
    staging.read = {}


def waiting(staging: Staging) -> set[int]:
    """The files that another one is to replace."""
    return {it["replaces"] for it in staging.store.rows(
        "SELECT replaces FROM staged_file WHERE replaces IS NOT NULL")}


def found(staging: Staging, file: int) -> Replacement:
    """What a new file changes in the place of the old one."""
    names = staging.store.row(
        "SELECT old.name AS name, new.id AS new_id, new.name AS new_name FROM staged_file AS new"
        " JOIN staged_file AS old ON old.id=new.replaces WHERE old.id=?", file)
    if names is None:
        raise Refused("there is no corrected file to look at")
    old = [it for it in staging.rows(OPEN, WITHDRAWN) if it.file == file]
    new = [it for it in staging.rows(PROPOSED) if it.file == names["new_id"]]
    there = {number_of(it): it for it in staging.rows(COMMITTED, SENDING) if it.file == file}
    pairs = paired(old, new)
    both = [Changed(one, other, merged(one, other)) for one, other in pairs]
    known = {it.id for pair in pairs for it in pair}
    left = [it for it in new if it.id not in known]
    stored = [it for it in left if (was := there.get(number_of(it))) and it.cells in (
        was.cells, was.first)]
    return Replacement(
        file, names["name"], names["new_id"], names["new_name"],
        [it for it in left if it not in stored],
        [it for it in old if it.id not in known and it.state == OPEN], both, stored)


def number_of(row: Staged) -> str:
    """The number of a row's child, or "" of one that cannot be read."""
    return fields.child(row.cells["child"], None).text


def paired(old: Sequence[Staged], new: Sequence[Staged]) -> list[Pair]:
    """The rows of two files that are of one form: by the child's number, and where that is no help
    by their place in the file, where the name or all else is equal.
    """
    pairs: list[Pair] = []
    by_number: dict[str, list[Staged]] = collections.defaultdict(list)
    for it in old:
        by_number[number_of(it)].append(it)
    by_number.pop("", None)
    for it in new:
        # (of several with one number that of the same place, else the first)
        if here := by_number.get(number_of(it)):
            one = next((row for row in here if row.number == it.number), here[0])
            here.remove(one)
            pairs.append((one, it))
    known = {it.id for pair in pairs for it in pair}
    places = {it.number: it for it in old if it.id not in known}
    for it in new:
        row = places.get(it.number)
        if it.id not in known and row and is_same(row, it):
            pairs.append((row, it))
    return sorted(pairs, key=lambda it: it[1].number)


def is_same(old: Staged, new: Staged) -> bool:
    """Whether rows of one place are of one child, though their numbers differ."""
    first = old.first or old.cells
    name = texts.folded(first["name"])
    return bool(name) and name == texts.folded(new.cells["name"]) or (
        {**first, "child": ""} == {**new.cells, "child": ""})


def merged(old: Staged, new: Staged) -> dict[str, str]:
    """The cells of a row of both files. A home that was looked up or typed stays where the new file
    has none. (The two numbers of a point are one.)
    """
    first = old.first or old.cells
    same = {it for it in new.cells if new.cells[it] == first[it]}
    if points.has_any(new.cells) and not same.issuperset(POINT):
        same -= set(POINT)
    elif not points.has_any(new.cells):
        same |= set(POINT)
    return {it: old.cells[it] if it in same else new.cells[it] for it in new.cells}


def apply(staging: Staging, who: str, file: int, digest: str) -> tuple[int, int]:
    """Puts the new file in the place of the old one, as it was shown; the entry of the history, and
    the file.
    """
    with staging.lock:
        shown = found(staging, file)
        if shown.digest != digest:
            raise Meanwhile("the table has changed since it was shown")
        more = len(shown.added) - len(shown.gone) + sum(
            it.state == OPEN != it.old.state for it in shown.both)
        staging.see_place(max(more, 0))
        about = {"done": said(shown), "file": shown.name, "by": shown.new_name,
                 "rows": places_of(it.old for it in shown.changed)}
        about |= {name: places_of(rows) for name, rows in (
            ("added", shown.added), ("set aside", shown.gone)) if rows}
        entry = staging.history.add(who, REPLACED, about).number
        with staging.writing() as db:
            for it in (*shown.stored, *(it.new for it in shown.both)):
                db.execute("DELETE FROM staged_row WHERE id=?", (it.id,))
            db.executemany(
                "UPDATE staged_row SET file=?, number=?, cells=?, others=?, first=?, notes=?,"
                " point=?, state=?, mend=?, before=?, version=version+1, changed_by=?, changed=?,"
                " places=json_insert(places, '$[#]', json_array(?, ?)) WHERE id=?",
                list(moved(shown, entry, who)))
            db.executemany("UPDATE staged_row SET state=?, mend=?, before=?, version=version+1"
                           " WHERE id=?", list(states(shown, entry)))
            db.execute("UPDATE staged_file SET replaces=NULL WHERE id=?", (shown.new_file,))
        staging.read = {}
    return entry, shown.new_file


def moved(shown: Replacement, entry: int, who: str) -> Iterator[tuple[object, ...]]:
    """The rows of both files, as they are stored."""
    for it in shown.both:
        old, new = it.old, it.new
        others = {**new.others, **{name: text for name, text in old.others.items()
                                   if name in OWN.values()}}
        by, at = (who, now()) if it.changes else (old.changed_by, old.changed)
        is_there = all(it.cells[at] == old.cells[at] for at in POINT)
        notes = packed_notes(new.notes if it.is_edited else old.notes)
        point = (old.point if is_there else Point()).packed()
        yield (shown.new_file, new.number, packed(it.cells), packed(others), packed(new.cells),
               notes, point, it.state, entry, before(old), by, at, old.file_name, old.number,
               old.id)


def states(shown: Replacement, entry: int) -> Iterator[tuple[object, ...]]:
    """The rows that only one of the files has, as they are stored."""
    for it in shown.added:
        yield OPEN, entry, before(dataclasses.replace(it, state=WITHDRAWN)), it.id
    for it in shown.gone:
        yield WITHDRAWN, entry, before(it), it.id


def said(shown: Replacement) -> str:
    """What was done, in words."""
    parts = [f"{texts.count(len(shown.changed), 'row')} changed", f"{len(shown.added):,} added",
             f"{len(shown.gone):,} set aside"]
    return f"{shown.name} is replaced by {shown.new_name}: {texts.listed(parts)}"


def lines(rows: Iterable[Changed]) -> Iterator[tuple[Changed, Cell | None]]:
    """The cells that change, each with its row; and rows that are only put back."""
    for it in rows:
        yield from ((it, cell) for cell in it.changes)
        if not it.changes:
            yield it, None
