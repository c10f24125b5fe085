"""Work in the store that several persons do step by step, as a draw or a restore: a row that has a
state and a version, and a row for each step that was done.
"""
import contextlib
import dataclasses
import sqlite3
import threading
from collections.abc import Iterator, Sequence
from typing import Generic, Protocol, TypeVar

from register_files import Refused

from office.core import turns
from office.core.wording import moment, sentence
from office.web.people.roles import Person
from office.web.register.desk import local
from office.web.register.history import History, now
from office.web.register.store import Store


@dataclasses.dataclass(frozen=True)
class Done:
    """A step that was done: to which state, by whom, at which moment (UTC), and what came of it."""

    state: str
    who: str
    at: str
    said: str


def steps_in(rows: list[sqlite3.Row]) -> tuple[Done, ...]:
    """The steps of rows."""
    return tuple(Done(it["state"], it["who"], it["at"], it["said"]) for it in rows)


@dataclasses.dataclass(frozen=True, kw_only=True)
class State:
    """A state, with the step that leads to it: the state as an office reads it, in a sentence and
    in one to three words, and how these look; of the step its title, or "" where no step leads
    there, what it does, who does it, or "" where it follows by itself, the request by which a
    person does it, and the text of its button; and what runs from the state on.
    """

    name: str
    words: str
    tag: str = ""
    look: str = ""
    title: str = ""
    does: str = ""
    by: str = ""
    action: str = ""
    button: str = ""
    runs: str = ""


class States:
    """The states of one kind. Those with a step are in the order of the steps."""

    def __init__(self, *states: State) -> None:
        self.all = {it.name: it for it in states}
        self.steps = tuple(it for it in states if it.title)

    def __getitem__(self, name: str) -> State:
        return self.all[name]

    def in_short(self, name: str) -> str:
        """A state as an office calls it, within a sentence."""
        it = self.all.get(name)
        said = (it.tag or it.words) if it else name
        return said[:1].lower() + said[1:]

    def next(self, name: str) -> State | None:
        """The state to which the next step leads, if there is one."""
        names = list(self.all)
        later = names[names.index(name) + 1:]
        return next((it for it in self.steps if it.name in later), None)

    def followed(self) -> tuple[str, ...]:
        """The states from which the next step follows by itself."""
        return tuple(name for name in self.all if (it := self.next(name)) and not it.by)


def shown(
    states: States, done: Sequence[Done], state: str, end: str = "",
) -> list[dict[str, str]]:
    """Steps as a screen shows them: who did each, and when; the one that is next, which leads to a
    state, and those after it, with who does them where they do not follow by themselves. Of what
    has ended otherwise, those that were done, and the end in words.
    """
    found = []
    for it in states.steps:
        by = next((one for one in done if one.state == it.name), None)
        if by is not None:
            found.append({"title": it.title, "does": it.does, "who": by.who,
                          "when": moment(by.at), "state": "done"})
        elif not end:
            found.append({"title": it.title, "does": it.does, "when": "",
                          "who": it.by or "by itself",
                          "state": "now" if it.name == state else "next"})
    if end:
        found.append({"title": end, "does": "", "who": done[-1].who, "when": moment(done[-1].at),
                      "state": "done"})
    return found


def history(states: States, done: Sequence[Done]) -> list[dict[str, str]]:
    """All that was done, in order, as a screen shows it."""
    return [{"at": it.at, "when": moment(it.at), "who": it.who,
             "what": sentence(states.in_short(it.state)), "more": it.said, "kind": ""}
            for it in done]


class Stepped(Protocol):
    """What goes through states. Its version grows with each step."""

    @property
    def number(self) -> int:
        """Its number in the store."""

    @property
    def name(self) -> str:
        """How an office names it within a sentence."""

    @property
    def states(self) -> States:
        """The states that it goes through."""

    @property
    def state(self) -> str:
        """Its state."""

    @property
    def version(self) -> int:
        """Its version: who decides names the one that they saw."""

    @property
    def done(self) -> tuple[Done, ...]:
        """The steps that were done."""


One = TypeVar("One", bound=Stepped)


class StepStore(Generic[One]):
    """All of one kind, in a table; the steps are in the table TABLE_step. And what an office calls
    one of them.
    """

    table: str
    called: str

    def __init__(self, store: Store, record: History) -> None:
        self.store, self.history = store, record
        self.lock = turns.Turn(threading.RLock(), f"a step of {self.called} is under way")

    def get(self, number: int) -> One:
        """One by its number, or a refusal."""
        raise NotImplementedError

    def steps_of(self, number: int) -> list[sqlite3.Row]:
        """The steps of one that were done."""
        table = self.table
        return self.store.rows(
            f"SELECT * FROM {table}_step WHERE {table}=? ORDER BY version", number)

    @contextlib.contextmanager
    def turn(self, number: int, seen: int, *states: str) -> Iterator[One]:
        """One in one of these states, if it is as it was when the person decided. Nobody else
        changes it meanwhile.
        """
        with self.lock:
            found = self.get(number)
            if found.version != seen:
                last = found.done[-1]
                raise Refused(f"{found.name} has changed since this page was shown: {last.who}"
                              f" changed it at {local(last.at)}"
                              f" ({found.states.in_short(found.state)}). Nothing was done")
            if found.state not in states:
                raise Refused(f"this cannot be done with {found.name} now"
                              f" ({found.states.in_short(found.state)})")
            yield found

    @contextlib.contextmanager
    def moving(
        self, found: One, who: Person, state: str, said: str = "", **columns: object
    ) -> Iterator[sqlite3.Connection]:
        """Brings one to a state, with what else is stored at once."""
        names = "".join(f", {it}=?" for it in columns)
        with self.store.writing() as db:
            query = f"UPDATE {self.table} SET state=?, version=?{names} WHERE id=? AND version=?"
            version = found.version + 1
            if not db.execute(query, (state, version, *columns.values(), found.number,
                                      found.version)).rowcount:
                raise Refused(f"{found.name} has changed meanwhile. Nothing was done")
            db.execute(f"INSERT INTO {self.table}_step VALUES (?, ?, ?, ?, ?, ?)",
                       (found.number, version, now(), who.name, state, said))
            yield db
