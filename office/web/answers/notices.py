"""Rows of reminders and withdrawals: those that are due on a day are chosen, shown whole, and
recorded one after another, with a copy of the register before them.
"""
import dataclasses
import datetime
import hashlib
import json
import sqlite3
import threading
from collections.abc import Iterable
from typing import Any

from register_files import Refused

from office.core.command_kinds import NOTICES
from office.core.days import today
from office.core.model import Register
from office.web.copies.copies import Copies
from office.web.copies.safeguard import copied
from office.web.letters import rows as letters_rows
from office.web.letters.sets import Sets
from office.web.letters.whom import Lists
from office.web.lists import worklists
from office.web.machinery.jobs import Jobs
from office.web.machinery.outbox import DONE, Item, Outbox
from office.web.people.roles import Person
from office.web.register.desk import Desk, seen_of
from office.web.register.history import now
from office.web.register.store import Store

from .notice_marks import Marks, waiting

REMIND, LAPSE = "remind", "lapse"
Command = dict[str, Any]


@dataclasses.dataclass(frozen=True)
class Due:
    """An offer of which a reminder or a withdrawal is due: the cells of the worklist, and, of one
    that is to be recorded, what is seen of the child.
    """

    child: int
    school: str
    name: str
    cells: dict[str, Any]
    seen: str = ""


@dataclasses.dataclass(frozen=True)
class Row:
    """A row of reminders or withdrawals as it is in the store, with what is about each child."""

    number: int
    kind: str
    day: datetime.date
    who: str
    at: str
    copy: int | None
    said: str
    notices: tuple[Item, ...]

    def count(self, state: str) -> int:
        """How many are in a state."""
        return sum(it.state == state for it in self.notices)

    @property
    def is_open(self) -> bool:
        """Whether some are not recorded yet."""
        return any(it.is_open for it in self.notices)


def command_of(kind: str, child: int, school: str, day: datetime.date) -> Command:
    """The command that records a reminder or a withdrawal."""
    return {"cmd": kind, "child": child, "school": school, "day": day.isoformat()}


def due(register: Register, kind: str, day: datetime.date) -> list[Due]:
    """What is due on a day."""
    options = {"day": day}
    worklists.see_day(register, day)
    header, *rows = worklists.rows_of(register, NOTICES[kind].due, options)
    found = []
    for row in rows:
        cells = dict(zip(map(str, header), row))
        child = int(str(cells["child"]))
        school = register.places[child].school
        found.append(Due(child, school, register.children[child].name, cells))
    return found


def seen(register: Register, kind: str, day: datetime.date, found: Iterable[Due]) -> list[Due]:
    """The same with what is seen of each child now."""
    commands = ((it, command_of(kind, it.child, it.school, day)) for it in found)
    return [dataclasses.replace(it, seen=seen_of(register, command).text)
            for it, command in commands]


def digest(kind: str, day: datetime.date, chosen: list[Due], marks: Marks) -> str:
    """What is to be recorded, in short, with what is said beside each: only what was shown is."""
    text = json.dumps([kind, day.isoformat(), [
        [it.child, it.school, it.seen, marks.of(it.child)] for it in chosen]])
    return hashlib.sha256(text.encode()).hexdigest()


class Notices(Outbox[Item]):
    """The rows of one application, and which of them is being recorded."""

    kind, item = "notice", Item

    def __init__(
        self, store: Store, desk: Desk, jobs: Jobs, copies: Copies, letters: Sets, lists: Lists,
    ) -> None:
        super().__init__(store, desk, jobs)
        self.lock = threading.Lock()
        self.copies, self.letters, self.lists = copies, letters, lists

    def get(self, number: int) -> Row:
        """A row."""
        row = self.store.row("SELECT * FROM notice_row WHERE id=?", number)
        if row is None:
            raise Refused("there is no such set of reminders or withdrawals")
        return self.of_row(row)

    def of_row(self, row: sqlite3.Row) -> Row:
        """The row of the store with its notices."""
        return Row(row["id"], row["kind"], datetime.date.fromisoformat(row["day"]), row["who"],
                   row["at"], row["copy"], row["said"], tuple(self.of(row["id"])))

    def listed(self) -> list[Row]:
        """The last rows, the last first."""
        rows = self.store.rows("SELECT * FROM notice_row ORDER BY id DESC LIMIT 50")
        return [self.of_row(row) for row in rows]

    def add(self, who: Person, key: str, kind: str, day: datetime.date, chosen: list[Due]) -> int:
        """Adds a row, once for each form that was shown."""
        if not key:
            raise Refused("the form is not whole: begin again. Nothing was recorded")
        with self.lock:
            same = self.store.row("SELECT id FROM notice_row WHERE key=?", key)
            if same:
                return int(same["id"])
            self.see_none_kept(kind, [it.child for it in chosen])
            self.desk.history.add(who.name, f"records {NOTICES[kind].one}s", {
                "day": day.isoformat(), "children": [it.child for it in chosen]})
            with self.store.writing() as db:
                number = db.execute(
                    "INSERT INTO notice_row (key, kind, day, who, at) VALUES (?, ?, ?, ?, ?)",
                    (key, kind, day.isoformat(), who.name, now())).lastrowid or 0
                for at, it in enumerate(chosen):
                    self.put(number, at, command_of(kind, it.child, it.school, day), it.seen)
            return number

    def kept(self, kind: str) -> dict[int, str]:
        """The children whose offer is not withdrawn now, with why: an answer waits in a batch."""
        return waiting(self.store) if kind == LAPSE else {}

    def see_none_kept(self, kind: str, children: Iterable[int]) -> None:
        """Refuses children of whom nothing can be recorded now."""
        kept = self.kept(kind)
        if found := next((it for it in children if it in kept), None):
            raise Refused(f"child {found}: {kept[found]}. Nothing was recorded")

    def record(self, who: Person, number: int, wait: float) -> None:
        """Begins to record what is left of a row, and waits for the end for some seconds."""
        self.jobs.run(self.job(number), who.name, lambda: self.send_all(who, number), wait)

    def send_all(self, who: Person, number: int) -> None:
        """Copies the register where that was not done, and sends one after another, until the end
        or until nothing can be sent. The letters of those that are done follow.
        """
        try:
            self.settle(number)
            row = self.get(number)
            if row.copy is None:
                purpose = f"before {NOTICES[row.kind].one}s of {row.day}"
                copy = copied(self.desk, self.copies, purpose, who)
                self.change_row(number, "copy=?", copy)
            self.change_row(number, "said=?", "")
            if left := self.send(who, row.notices):
                self.change_row(number, "said=?", left.said)
            elif self.get(number).count(DONE):
                self.write(who, number)
        except Refused as error:
            self.change_row(number, "said=?", str(error))

    def write(self, who: Person, number: int) -> None:
        """Has the letters of a row made. What is recorded stays so where they cannot be."""
        try:
            letters_rows.ask(self.letters, self.lists, who, number, today())
        except Refused as error:
            raise Refused(f"The letters were not made: {error}.") from error

    def why_not(self, it: Item) -> str:
        """Why one is not recorded any more: its answer has come into a batch."""
        said = self.kept(it.about["cmd"]).get(it.about["child"])
        return f"{said}. Nothing was recorded." if said else ""

    def change_row(self, number: int, query: str, *values: object) -> None:
        """Stores what is known of a row."""
        with self.store.writing() as db:
            db.execute(f"UPDATE notice_row SET {query} WHERE id=?", (*values, number))
