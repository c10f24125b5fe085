"""Batches of answers, one for each person: kept until they are recorded or removed, and recorded
one after another.
"""
import dataclasses
import hashlib
import json
import sqlite3
from collections.abc import Iterable

from register_files import Refused

from office.core.model import Register
from office.core.wording import sentence
from office.web.copies.copies import Copies
from office.web.copies.safeguard import copied
from office.web.machinery.jobs import Jobs
from office.web.machinery.outbox import DONE, SENDING, WAITS, Outbox, Request
from office.web.people.roles import Person
from office.web.register.desk import Desk, Result, seen_of
from office.web.register.store import Store

from . import entries as answers
from .entries import Entry, Meant, Names

BEFORE_PLANS = "before EHC plans are recorded"
# a batch of a season, and more than a person types in a day
MOST = 2000


@dataclasses.dataclass(frozen=True)
class Shown:
    """An entry as it is shown: the name of its child, what speaks against it, and what is said
    beside it; the children that its name can mean; whether the name given is another; and the
    answers that can be given to one that has none yet.
    """

    entry: Entry
    name: str
    conflicts: tuple[str, ...]
    note: str
    candidates: tuple[tuple[int, str], ...]
    is_other_name: bool
    answers: tuple[str, ...]

    @property
    def is_ready(self) -> bool:
        """Whether it can be recorded."""
        return not self.conflicts and self.entry.state == WAITS


def digest(entries: Iterable[Entry]) -> str:
    """What is to be recorded or removed, in short: only what was shown is."""
    text = json.dumps([[it.number, it.meant.typed, it.meant.command, it.seen] for it in entries])
    return hashlib.sha256(text.encode()).hexdigest()


def see_size(db: sqlite3.Connection, person: str) -> None:
    """Refuses a batch that is too large."""
    count = db.execute("SELECT count(*) FROM answer WHERE person=? AND state<>?",
                       (person, DONE)).fetchone()
    if count[0] > MOST:
        raise Refused(f"a batch has at most {MOST:,} answers: record those that are there")


class Piles(Outbox[Entry]):
    """The batches of one application, and which of them are being recorded. An answer that is
    refused waits in its batch.
    """

    kind, item, refused = "answer", Entry, WAITS

    def __init__(self, store: Store, desk: Desk, jobs: Jobs, copies: Copies) -> None:
        super().__init__(store, desk, jobs)
        self.copies = copies
        # of those that were recorded last: how many are done, and how many were to be
        self.recorded: dict[str, tuple[int, int]] = {}

    def request(self, it: Entry) -> Request:
        """What the history has of an answer."""
        return {"command": it.meant.command}

    def of_others(self, person: str) -> dict[int, str]:
        """Who else has an answer for which child."""
        rows = self.store.rows("SELECT child, person FROM answer WHERE person<>? AND state<>?"
                               " AND child IS NOT NULL", person, DONE)
        return {row["child"]: row["person"] for row in rows}

    def add(self, person: str, register: Register, given: Iterable[Meant]) -> int:
        """Adds entries, with what is seen of their children now; all or none. How many they are."""
        found = list(given)
        with self.store.writing() as db:
            for it in found:
                self.put(person, 0, dataclasses.asdict(it), seen_in(register, it))
            see_size(db, person)
        return len(found)

    def remove(self, person: str, numbers: Iterable[int]) -> None:
        """Removes entries that are not being sent."""
        with self.store.writing() as db:
            db.executemany("DELETE FROM sending WHERE kind=? AND batch=? AND number=?"
                           " AND state<>?", [(self.kind, person, it, SENDING) for it in numbers])

    def replace(self, entry: Entry, register: Register, meant: Meant) -> None:
        """Gives an entry that waits another meaning: a child that was chosen, or a name that is
        right.
        """
        self.revise(entry, dataclasses.asdict(meant), seen_in(register, meant))

    def shown(self, person: str, register: Register) -> list[Shown]:
        """The entries of a person that are not recorded, with what speaks against them."""
        pile = self.left(person)
        by_child: dict[int | None, list[Entry]] = {}
        for it in pile:
            by_child.setdefault(it.meant.child, []).append(it)
        names, colleagues = answers.Names(register), self.of_others(person)
        return [self.shown_of(names, it, by_child[it.meant.child], colleagues) for it in pile]

    def shown_of(
        self, names: Names, entry: Entry, same: list[Entry], colleagues: dict[int, str],
    ) -> Shown:
        """One of them. `same` are the entries for the same child."""
        children = names.register.children
        child = children.get(entry.meant.child or 0)
        others = [it for it in same if it.number != entry.number]
        found = answers.conflicts(self.desk, names, entry, others)
        named = tuple((it, children[it].name)
                      for it in answers.candidates(names, entry.meant)[:answers.MOST_NAMED])
        note = answers.by_colleagues(entry, colleagues)
        given, name = entry.meant.name, child.name if child else ""
        is_other = bool(given and name and entry.meant.kind) and not answers.is_of(given, name)
        return Shown(entry, name, tuple(found), note, named, is_other,
                     tuple(answers.answers_to(names.register, entry)))

    def left_of(self, person: str) -> int:
        """How many answers wait in the batch of a person."""
        row = self.store.row("SELECT count(*) AS many FROM answer WHERE person=? AND state<>?",
                             person, DONE)
        return int(row["many"]) if row else 0

    def waiting(self, person: str) -> dict[str, int]:
        """How many answers wait in the batches of others, by whose they are."""
        rows = self.store.rows("SELECT person, count(*) AS many FROM answer WHERE person<>?"
                               " AND state<>? GROUP BY person ORDER BY person", person, DONE)
        return {row["person"]: row["many"] for row in rows}

    def hand_over(self, owner: str, to: str, entries: Iterable[Entry]) -> None:
        """Gives all of these entries to another person: all or none."""
        numbers = [it.number for it in entries]
        with self.store.writing() as db:
            moved = db.executemany(
                "UPDATE sending SET batch=? WHERE kind=? AND batch=? AND number=? AND state=?",
                [(to, self.kind, owner, it, WAITS) for it in numbers]).rowcount
            if moved != len(numbers):
                raise Refused("the batch has changed since it was shown")
            see_size(db, to)

    def record(self, who: Person, entries: list[Entry], wait: float) -> None:
        """Begins to record entries, and waits for the end for some seconds at most."""
        if not self.jobs.run(
                self.job(who.name), who.name, lambda: self.send_all(who, entries), wait):
            raise Refused("this batch is being recorded already")

    def send_all(self, who: Person, entries: list[Entry]) -> None:
        """Sends entries one after another, until the end or until nothing can be sent; those with
        a plan after a copy of the register.
        """
        self.recorded[who.name] = 0, len(entries)
        if any(it.meant.kind == "name_plan" for it in entries):
            try:
                copied(self.desk, self.copies, BEFORE_PLANS, who)
            except Refused as error:
                self.change(entries[0], WAITS, sentence(str(error)))
                return
        self.send(who, (it for it in entries if it.meant.command))

    def ended(self, it: Entry, result: Result) -> None:
        """Keeps what came of an answer."""
        super().ended(it, result)
        done, count = self.recorded.get(it.batch, (0, 0))
        self.recorded[it.batch] = done + result.is_done, count


def seen_in(register: Register, meant: Meant) -> str:
    """What an answer rests on, of a register."""
    return seen_of(register, meant.command).text if meant.command else ""
