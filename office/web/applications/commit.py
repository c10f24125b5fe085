"""Storing the staging table in the register: what would be stored, shown whole before; one import,
of which each part is stored wholly or not at all; and what became of it.

A job does it, also one of an application after this one.
"""
import collections
import dataclasses
import functools
import hashlib
import itertools
import json
from collections.abc import Callable, Iterable, Iterator, Sequence

from register_files import Refused

from office.core import child_fields, days, fields, texts
from office.core.model import PLAN, Register
from office.core.rules import LIMITS
from office.core.wording import sentence
from office.files import sheet
from office.web.areas.map import Map
from office.web.machinery.outbox import DONE, FAILED, WAITS
from office.web.machinery.step_jobs import WAIT_SECONDS
from office.web.people.roles import Person
from office.web.register.desk import Away

from .imports import CHANGED, Content, Import, Imports, Part, digest_of
from .rows import OPEN, SENDING, WITHDRAWN, Staged
from .staging import Staging
from .table_check import Checked, Checker, Differences, Table, too_many

# what the copy is for that is made before rows are sent, and without which nothing is sent
PURPOSE = "before applications are added"
# the job that adds what was confirmed
ADDING = "applications"
# so many rows and bytes one request takes, and the header of each
MOST_ROWS, MOST_BYTES = LIMITS["rows"].most, LIMITS["body"].most
HEAD = sheet.csv_bytes([fields.COLUMNS])


@dataclasses.dataclass(frozen=True)
class Counts:
    """What would be stored, in numbers: by school its first preferences."""

    applications: int
    in_time: int
    late: int
    looked_after: int
    first: dict[str, int]


class Commit:
    """What would be stored of a table in a register, and what would not."""

    def __init__(self, table: Table, withdrawn: list[Staged], register: Register) -> None:
        self.table, self.withdrawn, self.register = table, withdrawn, register
        self.wrong = table.wrong()
        left_out = table.again | table.equal | {it.id for it in self.wrong}
        self.rows: list[Checked] = [it for at, it in table.rows.items() if at not in left_out]
        self.equal = [table.rows[it].staged for it in table.rows
                      if it in table.again | table.equal and not table.has_error(it)]
        self.too_many = too_many(len(self.rows), register)

    @functools.cached_property
    def csv(self) -> bytes:
        """The rows as an import takes them."""
        return HEAD + b"".join(it.line for it in self.rows)

    @functools.cached_property
    def parts(self) -> list[list[Checked]]:
        """The rows in the parts in which they are stored."""
        return list(in_parts(self.rows))

    @functools.cached_property
    def content(self) -> Content:
        """What an import of the rows sends."""
        return Content([part_of(it, self.table.areas) for it in self.parts],
                       [(it.id, it.version) for it in self.equal])

    @property
    def of_areas(self) -> str:
        """Where the catchment schools came from of rows in which none is written, and how many
        these are; or "".
        """
        return source_of(self.rows, self.table.areas)

    @property
    def differing(self) -> list[tuple[Staged, Differences]]:
        """The rows whose child the register has with other values, and those values."""
        return [(self.table.rows[at].staged, found) for at, found in self.table.differing.items()]

    @property
    def why_not(self) -> str:
        """Why nothing can be stored, or ""."""
        if self.wrong:
            these = texts.count(len(self.wrong), "row with errors", "rows with errors")
            return f"{these} must be corrected or set aside before anything is added"
        return self.too_many

    @property
    def is_empty(self) -> bool:
        """Whether the table has no row."""
        return not self.table.rows

    @functools.cached_property
    def counts(self) -> Counts:
        """What would be stored, in numbers."""
        found = [it.row.fields for it in self.rows]
        # (the rows of one day have one text, which is read once)
        applied = collections.Counter(it["day"] for it in found)
        in_time = sum(many for text, many in applied.items()
                      if (day := days.read(text)) and self.register.is_in_time(day))
        first = collections.Counter(it["preferences"].partition(";")[0] for it in found)
        return Counts(
            len(found), in_time, len(found) - in_time,
            sum(it["looked_after"] == "yes" for it in found), dict(sorted(first.items())))

    @property
    def to_check(self) -> int:
        """How many rows that would be stored should be checked first."""
        return sum(self.table.has_look(it.staged.id) for it in self.rows)

    @property
    def to_locate(self) -> int:
        """How many rows have a home of which something is to be said first."""
        return sum(it.needs_look for it in self.table.rows.values())

    @functools.cached_property
    def digest(self) -> str:
        """The digest of all that is shown: what is in the rows, and what it rests on."""
        rows = [it.shown for it in (*(it.staged for it in self.table.rows.values()),
                                    *self.withdrawn)]
        shown = json.dumps([rows, self.csv.decode(), basis_of(self.register)])
        return hashlib.sha256(shown.encode()).hexdigest()


def in_parts(rows: Iterable[Checked]) -> Iterator[list[Checked]]:
    """Rows in their order, in parts of as many as one request takes."""
    part, size = list[Checked](), len(HEAD)
    for it in rows:
        more = len(it.line)
        if part and (len(part) == MOST_ROWS or size + more > MOST_BYTES):
            yield part
            part, size = [], len(HEAD)
        part.append(it)
        size += more
    if part:
        yield part


def part_of(rows: Sequence[Checked], areas: Map | None) -> Part:
    """Rows as a part of an import."""
    return Part(HEAD + b"".join(it.line for it in rows),
                {it.row.fields["child"]: it.staged.point_words for it in rows},
                source_of(rows, areas), [it.staged.id for it in rows])


def source_of(rows: Sequence[Checked], areas: Map | None) -> str:
    """Where the catchment schools came from of rows in which none is written, and how many these
    are; or "".
    """
    many = sum(bool(it.row.fields["catchments"]) and not it.staged.cells["catchments"].strip()
               for it in rows) if areas else 0
    return f"{areas.source}: {texts.count(many, 'row')}" if areas and many else ""


def basis_of(register: Register) -> list[object]:
    """What a commit rests on, of a register: its season, its schools, and its children with their
    applications. (Answers to offers change none of it.)
    """
    schools = [[it.code, it.name, it.pan, it.east, it.north, it.criteria]
               for it in register.schools.values()]
    children = [child_fields.cells_of(it, register.applications.get(it.number))
                for it in register.children.values()]
    planned = sorted(child for child, it in register.places.items() if it.kind == PLAN)
    return [list(map(str, register.days)), schools, children, planned]


class Committing:
    """Stores the table of one application in its register."""

    def __init__(
        self, staging: Staging, checker: Checker, imports: Imports,
        copy: Callable[[str, str], object],
    ) -> None:
        self.staging, self.checker, self.imports = staging, checker, imports
        self.desk, self.jobs, self.copy = imports.desk, imports.jobs, copy
        self.wait = WAIT_SECONDS

    def found(self, register: Register) -> Commit:
        """What would be stored now."""
        table = self.checker.table(self.staging.rows(OPEN), register)
        return Commit(table, self.staging.rows(WITHDRAWN), register)

    def send(self, who: Person, digest: str) -> Import:
        """Has stored what has this digest, which is what the person saw: all of it or nothing. What
        came of it, after some seconds at most; where it has failed, the page says so at once.
        """
        try:
            asked = self.imports.ask(who, digest[:len(digest_of(b""))])
        except Refused as error:
            said = str(error)
            raise Refused(said if said == CHANGED else f"nothing was added: {said}") from error
        if asked.is_open and not self.jobs.run(
                ADDING, who.name, lambda: self.go_on(False), self.wait):
            self.await_end()
        found = self.imports.last()
        if found is None or found.number != asked.number:
            return asked
        if found.state == FAILED:
            self.imports.forget(found)
        return found

    def await_end(self) -> None:
        """Waits some seconds for the end of what runs."""
        job = self.jobs.last(ADDING)
        if job:
            job.is_over.wait(self.wait)

    def wake(self) -> None:
        """Goes on with what is open, unless that goes on."""
        if self.imports.present() and not self.jobs.is_running(ADDING):
            self.jobs.wake(ADDING, self.go_on)

    def look(self) -> None:
        """The same for who looks at the table, which waits some seconds for the end. (They hold no
        lock of it.)
        """
        if self.imports.present() and not self.jobs.is_running(ADDING):
            self.wake()
            self.await_end()

    def go_on(self, is_again: bool = True) -> None:
        """Finds out what became of rows that were being sent, and stores what was confirmed. Nobody
        changes the table or sends anything else meanwhile. What is refused here is still open.
        """
        with self.staging.lock, self.desk.lock:
            if it := self.imports.present():
                self.imports.settle(it.batch)
            if (it := self.imports.present()) and not self.jobs.is_closed:
                self.store(it, is_again)

    def store(self, it: Import, is_again: bool) -> None:
        """Stores what was confirmed, if it is as it was shown, after a copy of the register; or the
        parts of it that are left.
        """
        try:
            found = None if it.before else self.found(self.desk.now())
            if found and (said := self.why_not(it, found)):
                self.imports.change(it, FAILED, said)
                return
            parts = found.content.parts if found else self.rest(it)
            if found:
                it = self.imports.compared(it, found.content)
                if parts:
                    self.copy(PURPOSE, it.asker)
        except Refused as error:
            # (it goes on when the application does, and a register that begins beside it answers)
            if self.jobs.is_closed or is_again and isinstance(error, Away):
                raise
            self.imports.change(
                it, FAILED, sentence(f"{'' if it.before else 'Nothing was added: '}{error}"))
            return
        if not parts:
            self.imports.change(it, DONE, "")
            return
        result = self.imports.send_parts(it, parts)
        if result and not result.is_known:
            raise Refused(result.said)

    def rest(self, it: Import) -> list[Part]:
        """The parts of an import that are left, as they were shown."""
        if not self.imports.is_there(it):
            raise Refused("the register was restored meanwhile")
        register = self.desk.now()
        rows = iter(self.checker.alone(self.staging.rows(SENDING), register))
        parts = [part_of(list(itertools.islice(rows, many)), self.checker.map_of(register))
                 for _, many in it.left]
        if [(part.digest, len(part.rows)) for part in parts] != it.left:
            raise Refused("its rows are read otherwise now than as they were shown")
        return parts

    def why_not(self, it: Import, found: Commit) -> str:
        """Why what was confirmed is not stored, in a sentence, or ""."""
        if found.digest != it.shown:
            return CHANGED
        if why := found.why_not or ("the table has no row" if found.is_empty else ""):
            return f"Nothing was added: {why}."
        return self.desk.closed() if found.rows else ""

    def under_way(self) -> Import | None:
        """The import that is being done now, if one is."""
        return self.imports.present() if self.jobs.is_running(ADDING) else None

    def unknown(self) -> str:
        """What is said of rows of which it is not known yet whether they are stored, or ""."""
        it, job = self.imports.present(), self.jobs.last(ADDING)
        if it is None:
            return ""
        if job and not job.is_over.is_set():
            return f"Applications are being added to the register, as {it.asker} has confirmed."
        why = (job.refused.rstrip(".") if job else "") or "load this page again"
        if it.state == WAITS:
            which = f"Of the {it.many:,}" if it.before else "The"
            added = f", {it.stored:,} are added, and {it.part} is" if it.before else " are"
            return (f"{which} applications that {it.asker} has confirmed{added} not added yet:"
                    f" {why}.")
        many = it.left[0][1] if it.part else self.staging.count(SENDING)
        return (f"Whether {texts.count(many, 'application')} of this table are in the register is"
                f" not known yet: {why}.")
