"""The draft of schools: what is typed or uploaded is kept until it is stored in the register, and
shown whole before, since a school is final.
"""
import dataclasses
import hashlib
import json
from collections.abc import Iterable, Mapping

from register_files import Refused

from office.core.model import Register
from office.core.rules import LARGE
from office.web.copies.copies import Copies
from office.web.copies.safeguard import copied
from office.web.machinery.jobs import Jobs
from office.web.machinery.outbox import WAITS, Item, Outbox, Request
from office.web.people.roles import Person
from office.web.register.desk import DIFFERS, DONE, Away, Desk, Result
from office.web.register.store import Store

from . import rows as schools
from .rows import FLAG, Cells, Line

PURPOSE = "before schools are stored"
THERE = Result(DONE, "The register has it already, with the same data.")
CHANGED = Result(DIFFERS, "The line was changed or removed since it was shown. Nothing was stored"
                          " for it.")
# the batch, which all officers share; and what a school rests on that is to be added: there is none
DRAFT, NONE = "draft", json.dumps(None)


@dataclasses.dataclass(frozen=True)
class Outcome:
    """A school that was to be stored, and what came of it."""

    code: str
    name: str
    result: Result


class Draft(Outbox[Item]):
    """The draft of one application. A line that is stored leaves it, and one that is refused stays.
    The number of a line is that of no line before it.
    """

    kind, item, refused, gone = "school", Item, WAITS, (DONE,)

    def __init__(self, store: Store, desk: Desk, jobs: Jobs, copies: Copies) -> None:
        super().__init__(store, desk, jobs)
        self.copies = copies
        # the lines that were confirmed last, and what came of them by their numbers
        self.last: list[Line] = []
        self.results: dict[int, Result] = {}

    def request(self, it: Item) -> Request:
        """What the history has of a line. (One that is sent names no flag by its words.)"""
        return {"command": schools.read(it.about, {})[0]}

    def rows(self) -> list[tuple[int, Cells]]:
        """The cells of its lines, by their numbers."""
        return [(it.place, it.about) for it in self.left(DRAFT)]

    def came_of(self) -> dict[int, str]:
        """What came of its lines that were to be stored, by their numbers."""
        return {it.place: it.said for it in self.left(DRAFT) if it.said}

    def line(self, number: int) -> Item | None:
        """A line, if it is there."""
        return next((it for it in self.left(DRAFT) if it.place == number), None)

    def cells(self, number: int) -> Cells | None:
        """The cells of a line, if it is there."""
        found = self.line(number)
        return found.about if found else None

    def add(self, given: Iterable[Cells]) -> None:
        """Adds lines, all or none."""
        most = self.most()
        with self.store.writing() as db:
            for it in given:
                self.put(DRAFT, 0, it)
            db.execute("UPDATE sending SET place=number WHERE kind=? AND place=0", (self.kind,))
            if (count := len(self.left(DRAFT))) > most:
                raise Refused(f"a register has at most {most:,} schools, and the draft would have"
                              f" {count:,}")

    def most(self) -> int:
        """How many schools the register can have: as any can where it does not answer."""
        try:
            return self.desk.register().most("schools")
        except Away:
            return LARGE["schools"].most

    def correct(self, number: int, cells: Cells, seen: str) -> None:
        """Replaces a line that is still as it was seen."""
        with self.store.writing():
            present = self.line(number)
            if present is None:
                raise Refused("this line is not in the draft any more: it was stored or removed"
                              " meanwhile")
            if seen_line(present.about) != seen:
                raise Refused("somebody else has changed this line since it was shown. Nothing was"
                              " changed: compare what you typed with the line above")
            if not self.revise(present, cells):
                raise Refused("this line is being stored. Nothing was changed")

    def remove(self, *numbers: int) -> None:
        """Removes lines that are not being stored."""
        with self.store.writing() as db:
            db.executemany("DELETE FROM sending WHERE kind=? AND place=? AND state=?",
                           [(self.kind, it, WAITS) for it in numbers])

    def store_all(
        self, who: Person, words: Mapping[int, str], shown: str, wait: float,
    ) -> None:
        """Begins to store the draft as it was shown, and waits for the end for some seconds."""
        lines = lines_shown(self.desk.now(), self, words, shown)
        if not self.jobs.run(
                self.job(DRAFT), who.name, lambda: self.send_all(who, lines), wait):
            raise Refused("the draft is being stored already")

    def send_all(self, who: Person, lines: list[Line]) -> None:
        """Stores lines as they were shown, in their order, after a copy of the register, until the
        end or until nothing can be sent.
        """
        self.last, self.results = lines, {}
        if not all(it.is_there for it in lines):
            copied(self.desk, self.copies, PURPOSE, who)
        self.send(who, self.confirmed(lines))

    def confirmed(self, lines: Iterable[Line]) -> list[Item]:
        """The lines that are still as they were shown and that the register has not: as they are
        sent, whatever the words of flags become. Those that it has are stored.
        """
        found = []
        with self.store.writing():
            for it in lines:
                assert it.command is not None
                present = self.line(it.number)
                if present is None or present.about != it.cells:
                    self.results[it.number] = CHANGED
                elif it.is_there:
                    self.ended(present, THERE)
                elif self.revise(present, schools.cells_of_command(it.command), NONE):
                    found.append(self.line(it.number) or present)
        return found

    def begin(self, who: Person, it: Item) -> Item | None:
        """Marks a line as being sent, unless it was changed or removed meanwhile."""
        begun = super().begin(who, it)
        if begun is None:
            self.results[it.place] = CHANGED
        return begun

    def ended(self, it: Item, result: Result) -> None:
        """Keeps what came of a line. A school that came meanwhile is compared with it."""
        self.results[it.place] = found = self.compared(it) if result.outcome == DIFFERS else result
        super().ended(it, found)

    def compared(self, it: Item) -> Result:
        """What a line comes to whose school is in the register."""
        command = self.request(it)["command"]
        there = self.desk.now().schools[command["school"]]
        if other := schools.differences(there, command):
            return Result(DIFFERS, f"The register has this school with other data: {other}. Nothing"
                          " was stored for it.")
        return THERE

    def is_sent(self, shown: str) -> bool:
        """Whether the draft is being stored, or what was shown was stored already by a first press.
        """
        left = {number for number, _ in self.rows()}
        return self.is_running(DRAFT) or bool(self.last) and digest(self.last) == shown and (
            left.isdisjoint(it.number for it in self.last))

    def outcomes(self) -> list[Outcome]:
        """What came of the lines that were confirmed last, as far as they were sent."""
        return [Outcome(it.command["school"], it.command["name"], self.results[it.number])
                for it in self.last if it.command and it.number in self.results]

    def hindered(self) -> str:
        """What hindered the storing after its answer was given, or ""."""
        job = self.jobs.last(self.job(DRAFT))
        return job.refused if job and job.is_over.is_set() else ""


def seen_line(cells: Cells) -> str:
    """A line of a draft as it was seen, in short."""
    return hashlib.sha256(json.dumps(cells, sort_keys=True).encode()).hexdigest()


def digest_of_rows(rows: Iterable[tuple[int, Cells]]) -> str:
    """What is in a draft, in short: only what was shown is removed."""
    return hashlib.sha256(json.dumps(list(rows), sort_keys=True).encode()).hexdigest()


def digest(lines: Iterable[Line]) -> str:
    """What lines are, in short: only those that were shown are stored."""
    text = json.dumps([[it.number, it.command] for it in lines])
    return hashlib.sha256(text.encode()).hexdigest()


def is_ready(lines: list[Line]) -> bool:
    """Whether each line can be stored."""
    return bool(lines) and all(it.command is not None for it in lines)


def nameless(lines: Iterable[Line], words: Mapping[int, str]) -> list[int]:
    """The flags among the criteria of lines that have no words yet."""
    used = (it for line in lines if line.command for it in line.command["criteria"])
    numbers = {int(it.removeprefix(FLAG)) for it in used if it.startswith(FLAG)}
    return sorted(numbers - words.keys())


def lines_shown(
    register: Register, draft: Draft, words: Mapping[int, str], shown: str,
) -> list[Line]:
    """The lines of a draft as it was shown, each of which can be stored."""
    lines = schools.lines_of(draft.rows(), register.schools, words, register.is_large)
    if digest(lines) != shown:
        raise Refused("the draft was changed since it was shown: look at it again. Nothing was"
                      " stored")
    if not is_ready(lines):
        raise Refused("the draft has lines that are not right. Nothing was stored")
    schools.see_count(lines, register)
    return lines
