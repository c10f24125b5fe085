"""The staging table: applications that are not yet in the register, as texts of cells, in which
anything can be corrected, withdrawn and merged until it is stored there.

Each change is in the history before it is made, and is made only if the row is still as the person
saw it.
"""
import contextlib
import hashlib
import json
import sqlite3
import threading
from collections.abc import Callable, Iterable, Iterator, Mapping, Sequence

from register_files import Refused

from office.core import fields
from office.core.rules import LIMITS
from office.core.turns import Turn
from office.web.register.history import History, now
from office.web.register.store import Store

from . import points
from .files import POINT, Given, Read
from .points import Point
from .rows import (
    COMMITTED, OPEN, REMARK, SENDING, WITHDRAWN, File, Staged, digest_of, named, packed,
    packed_notes, places_of, see_lengths, staged_of, told,
)

# so many rows the table has at most beside a register whose size is not known
MOST_OPEN = LIMITS["rows"].most
FORM = "forms"
ROWS = ("SELECT staged_row.*, staged_file.name, staged_file.is_uk, staged_file.is_form"
        " FROM staged_row JOIN staged_file ON staged_file.id=file")


class Meanwhile(Refused):
    """A row that somebody else changed since it was shown."""


class Staging:
    """The staging table of one application."""

    def __init__(
        self, store: Store, record: History, most: Callable[[], int] = lambda: MOST_OPEN,
    ) -> None:
        # (how many rows have place, by the size of the register)
        self.store, self.history, self.most = store, record, most
        # held while a row is compared and changed, and while rows are sent
        self.lock = Turn(threading.RLock(), "somebody else is storing these applications")
        # the rows as they were read last, of which each change makes another version
        self.read: dict[int, Staged] = {}

    def rows(self, *states: str) -> list[Staged]:
        """The rows of these states, by file and number. Those are read that are not known as they
        are now.
        """
        where = f"state IN ({', '.join('?' * len(states))}) ORDER BY file, number"
        versions = self.store.rows(f"SELECT id, version FROM staged_row WHERE {where}", *states)
        known, made, left = self.read, dict[int, Staged](), list[int]()
        for number, version in versions:
            old = known.get(number)
            if old and old.version == version:
                made[number] = old
            else:
                left.append(number)
        if left:
            few = f"staged_row.id IN (SELECT value FROM json_each(?)) AND {where}"
            made |= {it["id"]: staged_of(it) for it in self.store.rows(
                f"{ROWS} WHERE {few}", json.dumps(left), *states)}
            most = 5 * max(MOST_OPEN, len(made))
            self.read = {**known, **made} if len(known) < most else dict(made)
        # (a row of which a state or a place ended between the two is not there)
        return [made[number] for number, _ in versions if number in made]

    def count(self, *states: str) -> int:
        """How many rows are in these states."""
        marks = ", ".join("?" * len(states))
        found = self.store.row(
            f"SELECT count(*) AS many FROM staged_row WHERE state IN ({marks})", *states)
        return int(found["many"]) if found else 0

    @contextlib.contextmanager
    def writing(self) -> Iterator[sqlite3.Connection]:
        """A transaction, or a refusal where the table cannot be written."""
        try:
            with self.store.writing() as db:
                yield db
        except sqlite3.Error as error:
            raise Refused(f"the table cannot be written: {error}") from error

    def row(self, number: int) -> Staged:
        """The row of this id."""
        found = self.store.row(f"{ROWS} WHERE staged_row.id=?", number)
        if found is None:
            raise Refused("there is no such row in the table")
        return staged_of(found)

    def files(self) -> list[File]:
        """The files, the last first, without those of which all is in the register."""
        counts: dict[int, dict[str, int]] = {}
        for it in self.store.rows("SELECT file, state, count(*) AS many FROM staged_row"
                                  " GROUP BY file, state"):
            counts.setdefault(it["file"], {})[it["state"]] = it["many"]
        found = self.store.rows("SELECT * FROM staged_file ORDER BY id DESC")
        made = [File(it["id"], it["name"], bool(it["is_form"]), bool(it["is_uk"]),
                     json.loads(it["changes"]), it["who"], it["added"],
                     {state: counts.get(it["id"], {}).get(state, 0)
                      for state in (OPEN, WITHDRAWN, SENDING, COMMITTED)}) for it in found]
        return [it for it in made if sum(it.counts.values()) > it.counts[COMMITTED]]

    def stored(self, entries: Sequence[int]) -> int:
        """How many rows were stored by these entries of the history."""
        found = self.store.row("SELECT count(*) AS many FROM staged_row WHERE entry IN"
                               " (SELECT value FROM json_each(?))", json.dumps(entries))
        return int(found["many"]) if found else 0

    def see_place(self, more: int) -> None:
        """Refuses more rows than the register can have children."""
        has, most = self.count(OPEN, SENDING), self.most()
        if has + more > most:
            raise Refused(f"the table would have {has + more:,} rows, and has place for"
                          f" {most:,}: store or withdraw those that are there first")

    def add_file(self, who: str, name: str, data: bytes, is_uk: bool, given: Read) -> int:
        """Adds the rows of a file, and returns its id. The same file is not added twice."""
        digest, moment = hashlib.sha256(data).hexdigest(), now()
        with self.lock:
            old = self.store.row(
                "SELECT staged_file.name, staged_file.who FROM staged_file JOIN staged_row"
                " ON file=staged_file.id WHERE digest=? AND state IN (?, ?)",
                digest, OPEN, SENDING)
            if old:
                raise Refused(f"{name} was added already by {old['who']}, as {old['name']}")
            self.see_place(len(given.rows))
            name = self.new_name(name)
            self.history.add(who, "added applications", {
                "file": name, "rows": len(given.rows), "digest": digest})
            with self.writing() as db:
                file = db.execute(
                    "INSERT INTO staged_file (name, digest, is_form, is_uk, changes, who, added)"
                    " VALUES (?, ?, 0, ?, ?, ?, ?)",
                    (name, digest, int(is_uk), packed(given.changes), who, moment)).lastrowid
                for it in given.rows:
                    insert(db, file or 0, it, who, moment)
        return file or 0

    def new_name(self, name: str) -> str:
        """The name of a file, with a number where the table had another of this name."""
        found = {str(it["name"]) for it in self.store.rows("SELECT name FROM staged_file")}
        number, made = 1, name
        while made in found:
            number += 1
            made = f"{name} ({number})"
        return made

    def add_form(self, who: str, cells: Mapping[str, str], others: Mapping[str, str],
                 point: Point) -> int:
        """Adds a row that was typed into a form, with what it has beside an application and where
        its point came from, and returns its id.
        """
        see_lengths(cells)
        moment = now()
        with self.lock:
            self.see_place(1)
            file = self.store.row("SELECT id FROM staged_file WHERE is_form=1")
            last = self.store.row("SELECT max(number) AS last FROM staged_row WHERE file=?",
                                  file["id"] if file else 0)
            number = (last["last"] or 0) + 1 if last else 1
            self.history.add(who, "added an application", {
                "form": number, **{it: told(text) for it, text in cells.items() if text},
                "point": point.words})
            with self.writing() as db:
                made = file["id"] if file else db.execute(
                    "INSERT INTO staged_file (name, digest, is_form, is_uk, changes, who, added)"
                    " VALUES (?, '', 1, 1, '[]', ?, ?)", (FORM, who, moment)).lastrowid
                given = Given(number, dict(cells), dict(others), ())
                return insert(db, made or 0, given, who, moment, point)

    def numbers(self) -> set[int]:
        """The numbers of children in the table, also of rows that were withdrawn or stored."""
        found = self.store.rows("SELECT json_extract(cells, '$.child') AS child FROM staged_row")
        read = (fields.child(str(it["child"] or ""), None).text for it in found)
        return {int(it) for it in read if it}

    def seen(self, number: int, version: int, *states: str) -> Staged:
        """A row that is still as it was shown, in one of these states; or a refusal."""
        found = self.row(number)
        if found.state == COMMITTED:
            raise Meanwhile(f"{found.where} is in the register already")
        if found.version != version or found.state not in states:
            raise Meanwhile(f"{found.where} was changed meanwhile, by {found.changed_by}")
        return found

    def save(self, who: str, number: int, version: int, cells: Mapping[str, str],
             is_confirmed: bool = False) -> Staged:
        """Gives a row other cells, or another remark. What was in doubt since its reading ends in
        those, and, where the row is confirmed, in all others; by a remark nothing of it ends.
        """
        see_lengths(cells)
        with self.lock:
            found = self.seen(number, version, OPEN, WITHDRAWN)
            had = {**found.cells, REMARK: found.remark}
            changes = {it: f'"{told(had[it])}" to "{told(text)}"'
                       for it, text in cells.items() if had[it] != text}
            left = [] if is_confirmed or not changes else [
                it for it in found.notes if changes.keys() == {REMARK} or
                it.column and it.column not in changes]
            made = {it: text for it, text in cells.items() if it != REMARK}
            if changes or found.notes:
                what = "corrected" if changes else "confirmed"
                self.history.add(who, f"{what} an application",
                                 {"row": found.where, **named(found), **changes})
                with self.writing() as db:
                    db.execute("UPDATE staged_row SET cells=?, notes=?, point=?, remark=?,"
                               " version=version+1, changed_by=?, changed=? WHERE id=?",
                               (packed({**found.cells, **made}), packed_notes(left),
                                points.after(found.point, found.cells, made).packed(),
                                cells.get(REMARK, found.remark), who, now(), number))
            return self.row(number)

    def move(self, who: str, rows: Iterable[tuple[int, int]], state: str) -> list[Staged]:
        """Withdraws rows, or brings them back: each by its id and its version."""
        what, before = ("withdrew applications", OPEN) if state == WITHDRAWN else (
            "brought back applications", WITHDRAWN)
        with self.lock:
            found = [self.seen(*it, before) for it in rows]
            if state == OPEN:
                self.see_place(len(found))
            if not found:
                return []
            self.history.add(who, what, {"rows": places_of(found)})
            with self.writing() as db:
                db.executemany(
                    "UPDATE staged_row SET state=?, version=version+1, changed_by=?, changed=?"
                    " WHERE id=?", [(state, who, now(), it.id) for it in found])
        return found

    def bring_back(self, who: str, seen: str) -> None:
        """Puts all rows back that were set aside, as they were shown."""
        with self.lock:
            rows = self.rows(WITHDRAWN)
            if digest_of(rows) != seen:
                raise Meanwhile("nothing was changed: other rows are set aside meanwhile")
            self.move(who, [(it.id, it.version) for it in rows], OPEN)

    def merge(self, who: str, into: tuple[int, int], other: tuple[int, int]) -> Staged:
        """Fills the empty cells of a row by those of another, which is withdrawn."""
        with self.lock:
            kept, given = self.seen(*into, OPEN), self.seen(*other, OPEN)
            if kept.id == given.id:
                raise Refused(f"{kept.where} cannot be merged with itself")
            # (the two numbers of a home's point are one: half of one is not filled by another's)
            whole = POINT if points.has_any(kept.cells) else ()
            cells = {it: text if text.strip() or it in whole else given.cells[it]
                     for it, text in kept.cells.items()}
            others = {**given.others, **kept.others}
            filled = {it: told(text) for it, text in cells.items() if text != kept.cells[it]}
            self.history.add(who, "merged applications", {
                "into": kept.where, "withdrawn": given.where, **named(kept), **filled})
            notes = [it for it in kept.notes if it.column not in filled]
            point = kept.point if points.has_any(kept.cells) else given.point
            with self.writing() as db:
                db.execute("UPDATE staged_row SET cells=?, others=?, notes=?, point=?,"
                           " version=version+1, changed_by=?, changed=? WHERE id=?",
                           (packed(cells), packed(others), packed_notes(notes), point.packed(),
                            who, now(), kept.id))
                db.execute("UPDATE staged_row SET state=?, version=version+1, changed_by=?,"
                           " changed=? WHERE id=?", (WITHDRAWN, who, now(), given.id))
            return self.row(kept.id)

    def set_points(self, rows: Iterable[tuple[Staged, Mapping[str, str], Mapping[str, str], Point]],
                   who: str) -> None:
        """Gives rows other cells, other columns beside them, and where their points came from."""
        with self.writing() as db:
            db.executemany(
                "UPDATE staged_row SET cells=?, others=?, point=?, version=version+1, changed_by=?,"
                " changed=? WHERE id=?",
                [(packed(cells), packed(others), point.packed(), who, now(), it.id)
                 for it, cells, others, point in rows])


def insert(db: sqlite3.Connection, file: int, it: Given, who: str, moment: str,
           point: Point = Point(), state: str = OPEN) -> int:
    """Stores a new row, and returns its id."""
    cells = packed(it.cells)
    made = db.execute(
        "INSERT INTO staged_row (file, number, cells, others, notes, state, who, added, changed_by,"
        " changed, point, first) VALUES (?, ?, ?, ?, ?, ?, ?, ?, ?, ?, ?, ?)",
        (file, it.number, cells, packed(it.others), packed_notes(it.notes), state, who,
         moment, who, moment, point.packed(), cells)).lastrowid
    return made or 0
