"""Imports of rows of the staging table, as requests of the outbox: what a person has confirmed, in
parts of as many rows as one request takes, each of which is stored wholly or not at all; the rows
that are marked with it while they are sent, and what came of it. Where the application ends before
they are marked again, the history and the register say that, and nothing is sent a second time.
"""
import contextlib
import dataclasses
import functools
import hashlib
import json
import sqlite3
from collections.abc import Iterable, Sequence

from register_files import Refused

from office.core import commands, rules, texts
from office.core.wording import sentence
from office.web.machinery.jobs import Jobs
from office.web.machinery.outbox import DONE, FAILED, WAITS, Item, Outbox, Request, packed
from office.web.people.roles import Person
from office.web.register.desk import LOST, UNSENT, Desk, Result
from office.web.register.history import ANSWER, SENDS, Entry, now

from .files import Note
from .rows import COMMITTED, OPEN, SENDING, packed_notes
from .staging import Staging

# the batch of all imports
TABLE = "table"
CHANGED = "The table or the register has changed since it was shown, and nothing was added."
# the fault of a row that the register has refused
REFUSED = "refused"


@dataclasses.dataclass(frozen=True)
class Part:
    """A part of an import: its rows as a request has them, where the points of their homes came
    from, by the numbers of the children, where catchment schools came from that no file has, and
    the ids of the rows.
    """

    csv: bytes
    points: dict[str, str]
    catchments: str
    rows: list[int]

    @functools.cached_property
    def digest(self) -> str:
        """The digest of its rows."""
        return digest_of(self.csv)


@dataclasses.dataclass(frozen=True)
class Content:
    """What an import sends, in parts; and the ids of rows that only leave the table, as the
    register has them, each with its version.
    """

    parts: list[Part]
    out: list[tuple[int, int]]


@dataclasses.dataclass(frozen=True)
class Import(Item):
    """An import: who has confirmed it, and when (UTC); the digest of what they saw; once that is
    compared, the digest and the number of the rows of its present part, and of each part after it;
    the entries by which the parts before it were stored; and the rows that only leave the table,
    each in its version.
    """

    @property
    def asker(self) -> str:
        """Who has confirmed it."""
        return str(self.about.get("who", self.who))

    @property
    def at(self) -> str:
        """When it was confirmed."""
        return str(self.about.get("at", ""))

    @property
    def shown(self) -> str:
        """The digest of what was shown; "" where an earlier version has begun it."""
        return str(self.about.get("shown", ""))

    @property
    def out(self) -> list[list[int]]:
        """The rows that only leave the table, as the register has them."""
        return list(self.about.get("out", ()))

    @property
    def before(self) -> list[tuple[int, int]]:
        """The parts before the present one, which are stored: the entry of each, and how many rows
        it had.
        """
        return [(entry, many) for entry, many in self.about.get("before", ())]

    @property
    def left(self) -> list[tuple[str, int]]:
        """The present part and those after it: the digest of each, and how many rows it has."""
        present = [(self.about["digest"], self.about["rows"])] if "rows" in self.about else []
        return [*present, *((digest, many) for digest, many in self.about.get("after", ()))]

    @property
    def entries(self) -> list[int]:
        """The entries by which its rows were stored."""
        return [*(entry for entry, _ in self.before), *([self.sent] if self.sent else [])]

    @property
    def stored(self) -> int:
        """How many rows are stored by the parts before the present one."""
        return sum(many for _, many in self.before)

    @property
    def many(self) -> int:
        """How many rows it has in all its parts."""
        return self.stored + sum(many for _, many in self.left)

    @property
    def part(self) -> str:
        """The present part in words, or "" of an import that has no other."""
        last = len(self.before) + len(self.left)
        return f"part {len(self.before) + 1} of {last}" if last > 1 else ""

    def mark(self, digest: str) -> str:
        """What the rows of a part have while they are sent, and afterwards: as all are marked with
        the first part, after how many entries that was. (An earlier version had each in a batch of
        this name.)
        """
        if self.batch != TABLE:
            return self.batch
        return f"{self.about.get('since', self.after)} {digest}"

    @property
    def runs(self) -> str:
        """What is done with it now."""
        if not self.left:
            return "the table is compared with what was shown"
        if self.state == WAITS and not self.before:
            many = texts.count(self.many, "application is", "applications are")
            return f"the register is copied, and then {many} added to it"
        many = texts.count(self.left[0][1], "application is", "applications are")
        if not self.part:
            return f"{many} sent to the register, which takes all or none"
        return (f"{self.part}: {many} sent to the register, which takes all or none of a part;"
                f" {self.stored:,} of {self.many:,} are added")


class Imports(Outbox[Import]):
    """The imports of one application, one at a time. What came of the last is kept in memory, and
    where it failed in its row, until somebody was told.
    """

    kind, item, gone = "import", Import, (DONE,)

    def __init__(self, staging: Staging, desk: Desk, jobs: Jobs) -> None:
        super().__init__(staging.store, desk, jobs)
        self.staging = staging
        # the parts that are being sent, the present one first
        self.sent_now: list[Part] = []
        self.ended_last: Import | None = None

    def last(self) -> Import | None:
        """The import that is open, or has ended last."""
        row = self.store.row("SELECT * FROM sending WHERE kind=? ORDER BY number DESC", self.kind)
        return self.item_of(row) if row else self.ended_last

    def present(self) -> Import | None:
        """The import of which it is not known yet what comes of it."""
        found = self.last()
        return found if found and found.is_open else None

    def ask(self, who: Person, shown: str) -> Import:
        """Keeps what a person has confirmed. Who presses twice gets what came of the first."""
        with self.staging.writing() as db:
            last = self.last()
            is_same = last and (last.asker, last.shown) == (who.name, shown)
            if last and is_same and (last.is_open or self.is_stored(last)):
                return last
            if last and last.is_open:
                raise Refused(CHANGED)
            db.execute("DELETE FROM sending WHERE kind=?", (self.kind,))
            self.put(TABLE, 0, {"shown": shown, "who": who.name, "at": now()})
            [found] = self.of(TABLE)
            return found

    def failed(self) -> Import | None:
        """The last import, where it has failed and nobody was told."""
        row = self.store.row("SELECT * FROM sending WHERE kind=? AND state=?", self.kind, FAILED)
        return self.item_of(row) if row else None

    def is_stored(self, it: Import) -> bool:
        """Whether an import is done, and no restore has undone it."""
        return it.state == DONE and self.is_there(it)

    def is_there(self, it: Import) -> bool:
        """Whether no restore has undone what is stored of an import."""
        there = self.desk.history.lineage()
        return all(entry in there for entry in it.entries)

    def compared(self, it: Import, content: Content) -> Import:
        """An import with what it sends, once that was compared with what was shown."""
        present, *after = [(it.digest, len(it.rows)) for it in content.parts] or [
            (digest_of(b""), 0)]
        about = {**it.about, "digest": present[0], "rows": present[1], "out": content.out}
        self.revise(it, {**about, "after": after} if after else about)
        [made] = self.of(it.batch)
        return made

    def send_parts(self, it: Import, parts: Sequence[Part]) -> Result | None:
        """Sends the present part of an import and those after it, until the end or until one is not
        stored: then what came of that, if it was not sent or is not known to be stored.
        """
        for at in range(len(parts)):
            self.sent_now = list(parts[at:])
            try:
                result = self.send(Person(it.asker, ""), [it])
            finally:
                self.sent_now = []
            now = self.present()
            if result or now is None or len(now.before) == len(it.before):
                return result
            it = now
        return None

    def request(self, it: Import) -> Request:
        """The rows of a part, with where the points of their homes and their catchment schools came
        from.
        """
        part = self.sent_now[0]
        sources = {"points": part.points, "catchments": part.catchments}
        return {"import": part.csv.decode(),
                **{name: found for name, found in sources.items() if found}}

    def begin(self, who: Person, it: Import) -> Import | None:
        """Marks an import as being sent, and with its first part the rows of all."""
        with self.staging.writing() as db:
            begun = super().begin(who, it)
            if begun and not begun.before:
                db.executemany(
                    "UPDATE staged_row SET state=?, sent=?, version=version+1 WHERE id=?",
                    [(SENDING, begun.mark(part.digest), row)
                     for part in self.sent_now for row in part.rows])
        return begun

    def ended(self, it: Import, result: Result) -> None:
        """Keeps what came of an import. (Where that cannot be kept, it is found out later.)"""
        with contextlib.suppress(Refused):
            if result.outcome in (UNSENT, LOST) and result.is_known:
                self.change(it, FAILED, result.said)
            else:
                super().ended(it, result)

    def change(self, it: Import, state: str, said: str, sent: int | None = None) -> None:
        """Keeps what came of an import. Once a part is stored the next one waits. Where one is not,
        its rows are in the table again, and those of the parts after it; but while parts before it
        are stored and it only waits, they stay as they are.
        """
        with self.staging.writing() as db:
            marks = [it.mark(digest) for digest, _ in it.left or [("", 0)]]
            present = marked_with(db, marks[:1])
            if state == DONE:
                mark_as(db, COMMITTED, present, sent)
            elif state == FAILED or not it.before:
                mark_as(db, OPEN, marked_with(db, marks))
            if state == DONE and marks[1:]:
                self.begin_next(db, it, sent)
                return
            if state == DONE:
                db.executemany("UPDATE staged_row SET state=?, sent='', version=version+1"
                               " WHERE id=? AND version=? AND state=?",
                               [(COMMITTED, *row, OPEN) for row in it.out])
            elif state == FAILED:
                said = self.why_failed(it, present, said, sent)
            super().change(it, state, said, sent)
        if state in (DONE, FAILED):
            self.ended_last = dataclasses.replace(it, state=state, said=said, sent=sent)

    def begin_next(self, db: sqlite3.Connection, it: Import, sent: int | None) -> None:
        """Has the next part of an import wait, once an entry has stored the present one."""
        (_, many), (digest, rows), *after = it.left
        about = {**it.about, "digest": digest, "rows": rows, "after": after,
                 "before": [*it.before, (sent, many)], "since": it.about.get("since", it.after)}
        db.execute("UPDATE sending SET state=?, about=? WHERE number=?",
                   (WAITS, packed(about), it.number))

    def why_failed(self, it: Import, rows: Sequence[int], said: str, sent: int | None) -> str:
        """Why an import has failed, with what of it is stored all the same."""
        why = self.refusal(rows, sent) if sent else ""
        if not it.before:
            return f"Nothing was added: {why}." if why else said
        left = texts.count(it.many - it.stored, "row is", "rows are")
        return (f"{it.stored:,} of {it.many:,} applications were added to the register."
                f" {sentence(it.part).rstrip('.')} was not added, and {left} in the table again."
                f" {sentence(why) if why else said}")

    def refusal(self, rows: Sequence[int], sent: int) -> str:
        """Why the register has refused rows, in words; or "". It is kept with the row that the
        answer names, until that is saved again.
        """
        end = self.desk.history.ends.get(sent)
        if end is None or end.what != ANSWER:
            return ""
        value = end.about["answer"]
        number = value.get("row") if isinstance(value, dict) else None
        why = why_refused(value)
        if not isinstance(number, int) or not 0 < number <= len(rows):
            return why
        row = self.staging.row(rows[number - 1])
        notes = [*row.notes, Note("", f"the register does not take it: {why}", fault=REFUSED)]
        with self.staging.writing() as db:
            db.execute("UPDATE staged_row SET notes=?, version=version+1 WHERE id=?",
                       (packed_notes(notes), row.id))
        return f"the register does not take {row.where}: {why}"

    def forget(self, it: Import) -> None:
        """Removes an import that has failed, once somebody was told."""
        with self.staging.writing() as db:
            db.execute("DELETE FROM sending WHERE number=?", (it.number,))

    def sent(self, it: Import) -> Entry | None:
        """The last entry of the history that sent the rows of an import since it was marked, and
        that no restore has undone. After a restore somebody else may have sent them.
        """
        history = self.desk.history
        there = history.lineage()
        return next((one for one in reversed(history.entries[it.after:])
                     if one.what == SENDS and one.number in there and "import" in one.about
                     and digest_of(one.about["import"].encode()) == it.about["digest"]), None)


def marked_with(db: sqlite3.Connection, marks: Sequence[str]) -> list[int]:
    """The rows that are being sent with these marks, in their order."""
    return [it["id"] for it in db.execute(
        "SELECT id FROM staged_row WHERE state=? AND sent IN (SELECT value FROM json_each(?))"
        " ORDER BY file, number", (SENDING, json.dumps(marks)))]


def mark_as(
    db: sqlite3.Connection, state: str, rows: Iterable[int], sent: int | None = None,
) -> None:
    """Gives rows a state, and the entry that has stored them, if one has."""
    db.executemany("UPDATE staged_row SET state=?, entry=?, version=version+1 WHERE id=?",
                   [(state, sent, row) for row in rows])


def digest_of(rows: bytes) -> str:
    """The digest of rows."""
    return hashlib.sha256(rows).hexdigest()


def why_refused(value: object) -> str:
    """Why rows were refused, in words."""
    name = str(value.get("name", "")) if isinstance(value, dict) else ""
    for group in ("refusals", "row_faults"):
        if isinstance(value, dict) and name in rules.WORDS[group] and (
                ("refused" in value) == (group == "refusals")):
            return rules.in_words(group, name)[0]
    return commands.in_words(value, None)
