"""The outbox: requests to the register that are sent one after another, each once, and settled
after a crash. Each kind of them is a view of one table.
"""
import dataclasses
import json
import sqlite3
from collections.abc import Iterable, Mapping
from typing import Any, Generic, TypeVar

from register_files import Refused

from office.core import texts
from office.core.wording import sentence
from office.web.people.roles import Person
from office.web.register.desk import LOST, UNSENT, Desk, Result, Seen
from office.web.register.history import ANSWER, SENDS, Entry
from office.web.register.records import came_of, ends_of
from office.web.register.store import Store

from .jobs import Jobs

WAITS, SENDING, DONE, FAILED = "waits", "sending", "done", "failed"
Request = dict[str, Any]


@dataclasses.dataclass(frozen=True)
class Item:
    """A request of a batch, as it is kept: its place there; what it is about, and what was seen
    when it was decided, if that is compared; its state, with a sentence; who sent it, after so many
    entries of the history; and the entry that sent it.
    """

    number: int
    batch: str
    place: int
    about: dict[str, Any]
    seen: str | None
    state: str
    said: str
    who: str
    after: int
    sent: int | None

    @property
    def is_open(self) -> bool:
        """Whether it is not known yet what came of it."""
        return self.state in (WAITS, SENDING)


It = TypeVar("It", bound=Item)


def packed(about: Mapping[str, Any]) -> str:
    """What a request is about, as it is kept."""
    if not texts.is_text(json.dumps(about, ensure_ascii=False)):
        raise Refused("a text has a character that cannot be stored: type it again")
    return json.dumps(about)


class Outbox(Generic[It]):
    """The batches of one kind. A batch is sent by one thread at a time."""

    kind: str
    item: type[It]
    # what a request is whose command the register has refused, and the states in which one is
    # removed
    refused = FAILED
    gone: tuple[str, ...] = ()

    def __init__(self, store: Store, desk: Desk, jobs: Jobs) -> None:
        self.store, self.desk, self.jobs = store, desk, jobs

    def request(self, it: It) -> Request:
        """What the history has of a request that is sent: by that it is found there again."""
        return {"command": it.about}

    def why_not(self, it: It) -> str:
        """Why a request is not to be sent any more, or ""."""
        return ""

    def of(self, batch: object) -> list[It]:
        """The requests of a batch, in their order."""
        rows = self.store.rows("SELECT * FROM sending WHERE kind=? AND batch=?"
                               " ORDER BY place, number", self.kind, str(batch))
        return [self.item_of(it) for it in rows]

    def left(self, batch: object) -> list[It]:
        """Those of a batch that are not done, in their order."""
        rows = self.store.rows("SELECT * FROM sending WHERE kind=? AND batch=? AND state<>?"
                               " ORDER BY place, number", self.kind, str(batch), DONE)
        return [self.item_of(it) for it in rows]

    def done(self, batch: object, most: int) -> tuple[list[It], int]:
        """The last of a batch that are done, in their order, and how many there are."""
        where = "FROM sending WHERE kind=? AND batch=? AND state=?"
        values = self.kind, str(batch), DONE
        count = self.store.rows(f"SELECT count(*) AS many {where}", *values)[0]["many"]
        rows = self.store.rows(f"SELECT * {where} ORDER BY place DESC, number DESC LIMIT ?",
                               *values, most)
        return [self.item_of(it) for it in reversed(rows)], int(count)

    def item_of(self, row: sqlite3.Row) -> It:
        """The request of a row."""
        values = {it.name: row[it.name] for it in dataclasses.fields(Item)}
        return self.item(**{**values, "about": json.loads(row["about"])})

    def put(
        self, batch: object, place: int, about: Mapping[str, Any], seen: str | None = None,
        state: str = WAITS, said: str = "",
    ) -> None:
        """Adds a request to a batch."""
        with self.store.writing() as db:
            db.execute("INSERT INTO sending (kind, batch, place, about, seen, state, said)"
                       " VALUES (?, ?, ?, ?, ?, ?, ?)",
                       (self.kind, str(batch), place, packed(about), seen, state, said))

    def revise(self, it: It, about: Mapping[str, Any], seen: str | None = None) -> bool:
        """Gives a request that waits another meaning; whether it was done."""
        with self.store.writing() as db:
            return db.execute(
                "UPDATE sending SET about=?, seen=?, said='' WHERE number=? AND batch=?"
                " AND state=?",
                (packed(about), seen, it.number, it.batch, WAITS)).rowcount > 0

    def is_running(self, batch: object) -> bool:
        """Whether a batch is being sent."""
        return self.jobs.is_running(self.job(batch))

    def job(self, batch: object) -> str:
        """The name of the job by which a batch is sent."""
        return f"{self.kind} {batch}"

    def send(
        self, who: Person, items: Iterable[It], is_closed: bool = False,
    ) -> Result | None:
        """Sends those that wait, one after another, until the end or until nothing can be sent:
        then what came of the last. Also while recording is paused. The application ends after one
        of them.
        """
        for it in items:
            if it.state != WAITS:
                continue
            if self.jobs.is_closed:
                break
            if said := self.why_not(it):
                self.change(it, FAILED, said)
            elif begun := self.begin(who, it):
                seen = None if it.seen is None else Seen(it.seen)
                result = self.desk.request(who, self.request(it), seen, is_closed)
                self.ended(begun, result)
                if result.outcome in (UNSENT, LOST):
                    return result
        return None

    def begin(self, who: Person, it: It) -> It | None:
        """Marks a request as being sent, unless it was changed, removed or handed over meanwhile.
        """
        after = len(self.desk.history.entries)
        with self.store.writing() as db:
            row = self.store.row("SELECT * FROM sending WHERE number=?", it.number)
            if row is None or self.item_of(row) != it:
                return None
            db.execute("UPDATE sending SET state=?, said='', who=?, after=? WHERE number=?",
                       (SENDING, who.name, after, it.number))
        return dataclasses.replace(it, state=SENDING, who=who.name, after=after)

    def ended(self, it: It, result: Result) -> None:
        """Keeps what came of a request. What is not certain stays as being sent."""
        if result.outcome in (UNSENT, LOST):
            if result.is_known:
                self.change(it, WAITS, result.said)
            return
        sent = self.sent(it)
        self.change(it, DONE if result.is_done else self.refused, result.said,
                    sent.number if sent else None)

    def change(self, it: It, state: str, said: str, sent: int | None = None) -> None:
        """Keeps what came of a request, or removes it."""
        with self.store.writing() as db:
            if state in self.gone:
                db.execute("DELETE FROM sending WHERE number=?", (it.number,))
            else:
                db.execute("UPDATE sending SET state=?, said=?, sent=? WHERE number=?",
                           (state, said, sent, it.number))

    def settle(self, batch: object) -> None:
        """Finds out what came of requests that were being sent when the application ended, or of
        which there was no certain answer. None that may be done is sent again.
        """
        left = [it for it in self.left(batch) if it.state == SENDING]
        if not left:
            return
        with self.desk.lock:
            self.desk.settle()
        ends = ends_of(list(self.desk.history.entries))
        for it in left:
            sent = self.sent(it)
            state, said = self.came(sent, ends)
            self.change(it, state, said, sent.number if sent else None)

    def look(self, batch: object) -> None:
        """The same for who looks at a batch: not while it is being sent."""
        if not self.is_running(batch):
            self.settle(batch)

    def sent(self, it: It) -> Entry | None:
        """The last entry of the history that sent a request, as the same person and wholly equal,
        since it was marked.
        """
        request, since = self.request(it), self.desk.history.entries[it.after:]
        return next((one for one in reversed(since) if one.what == SENDS
                     and it.who in ("", one.who) and one.about == request), None)

    def came(self, sent: Entry | None, ends: Mapping[int, Entry]) -> tuple[str, str]:
        """The state of a request that was being sent, and in words."""
        if sent is None:
            return WAITS, "There was no answer: it was not recorded."
        said, is_done = came_of(sent, ends)
        if is_done:
            return DONE, "Done, and stored."
        if ends[sent.number].what == ANSWER:
            return self.refused, sentence(said)
        return WAITS, f"There was no answer: {said}."
