"""Trials of other admission numbers and criteria, each a job over registers that are deleted at its
end: one at a time, ended when it takes too long, and kept in memory alone.
"""
import dataclasses
import threading
from collections.abc import Iterator, Mapping

from register_files import Refused

from office.core import plain
from office.core.model import Register, School
from office.core.rules import LIMITS
from office.files import book
from office.files.book import Page, Value
from office.web.machinery.jobs import Job, Jobs
from office.web.people.roles import Person
from office.web.schools import rows as cells_of_schools

from . import trial
from .registers import Program
from .trial import Trial

# wall-clock seconds: the programs that a trial has begun are ended then
MOST_SECONDS = 600
# so many are kept, and those before them are forgotten
KEPT = 10
# the job that a trial is
TRIAL = "trial"
WAIT = "wait for its end, or end it"
BROKEN = "the trial did not come to its end: tell IT support"
SCHOOL_HEAD = ("school", "name", "admission number", "tried", "offers", "would be", "would gain",
               "would lose", "last offered", "would be last")
CRITERION_HEAD = ("school", "children", "would gain", "would lose")


@dataclasses.dataclass(frozen=True)
class Asked:
    """A trial that is asked for: the registers from before and after the round, or none after it
    where it is not held yet; the schools as they are tried, and that in words.
    """

    before: Register
    after: Register | None
    schools: dict[str, School]
    words: list[str]
    flags: Mapping[int, str]


@dataclasses.dataclass(frozen=True)
class Found:
    """What a trial found: its first lines, its tables, and all of it as a page."""

    summary: list[str]
    schools: list[trial.Cells]
    criteria: list[trial.Cells]
    children: list[trial.Cells]
    page: str


@dataclasses.dataclass
class Run:
    """A trial: its number, what was asked for, and what came of it; and the job that it is."""

    number: int
    words: list[str]
    program: Program
    found: Found | None = None
    refused: str = ""
    job: Job | None = None

    @property
    def who(self) -> str:
        """Who asked for it."""
        return self.job.who if self.job else ""

    @property
    def at(self) -> str:
        """When it was asked for."""
        return self.job.at if self.job else ""

    def is_over(self, wait: float = 0.0) -> bool:
        """Whether it has come to its end, for which some seconds are waited."""
        return self.job is None or self.job.is_over.wait(wait)


class Trials:
    """The trials of one application."""

    def __init__(self, jobs: Jobs) -> None:
        self.jobs, self.lock = jobs, threading.Lock()
        self.runs: dict[int, Run] = {}
        self.last = 0

    def begin(self, who: Person, asked: Asked) -> Run:
        """Begins a trial, if none is under way."""
        with self.lock:
            program = Program(plain.program(), MOST_SECONDS)
            run = Run(self.last + 1, asked.words, program)
            run.job = self.jobs.run(
                TRIAL, who.name, lambda: work(run, asked), end=program.end)
            if run.job is None:
                present = self.jobs.last(TRIAL)
                raise Refused(f"a trial of {present.who if present else ''} is under way: {WAIT}")
            self.last = run.number
            self.runs[run.number] = run
            for number in list(self.runs)[:-KEPT]:
                del self.runs[number]
        return run

    def forget(self) -> None:
        """Ends the one that is under way, with its programs, and keeps none."""
        with self.lock:
            for it in self.runs.values():
                it.program.end()
            self.runs = {}

    def listed(self) -> list[Run]:
        """Those that are kept, the last first."""
        with self.lock:
            return list(reversed(self.runs.values()))

    def get(self, number: int) -> Run | None:
        """A trial, if it is kept."""
        with self.lock:
            return self.runs.get(number)


def work(run: Run, asked: Asked) -> None:
    """Does a trial."""
    try:
        held = Trial(asked.before, asked.after, asked.schools, asked.flags, run.program)
        is_drawn = asked.after is None
        run.found = Found(
            list(held.summary(asked.words, is_drawn)), list(held.school_rows()),
            list(held.criterion_rows()), list(held.child_rows()),
            trial.page(held, asked.words, is_drawn))
    except Refused as error:
        run.refused = plain.said(str(error))
    except Exception:
        run.refused = BROKEN
        raise


@dataclasses.dataclass(frozen=True)
class Line:
    """A school in the form: what it has, what was typed, and what is wrong with that."""

    school: School
    pan: str
    criteria: str
    wrong: dict[str, str]


def lines(register: Register, typed: Mapping[str, str], words: Mapping[int, str]) -> list[Line]:
    """The schools of a form; what is not typed is as it is."""
    found = []
    for code, school in register.schools.items():
        cells = {"pan": typed.get(f"pan-{code}", str(school.pan)),
                 "criteria": typed.get(f"criteria-{code}", "; ".join(school.criteria))}
        read = {name: cells_of_schools.READERS[name](text, words) for name, text in cells.items()}
        wrong = {name: it.expected for name, it in read.items() if it.expected}
        if read["criteria"].text.count(";") >= LIMITS["criteria"].most:
            wrong["criteria"] = f"at most {LIMITS['criteria'].most} criteria"
        found.append(Line(school, cells["pan"], cells["criteria"], wrong))
    return found


def changes(given: list[Line], words: Mapping[int, str]) -> Iterator[trial.Change]:
    """What lines without errors change."""
    for it in given:
        pan = int(cells_of_schools.READERS["pan"](it.pan, words).text)
        text = cells_of_schools.READERS["criteria"](it.criteria, words).text
        criteria = tuple(text.split(";")) if text else ()
        if pan != it.school.pan:
            yield it.school.code, pan
        if criteria != it.school.criteria:
            yield it.school.code, criteria


def asked_for(before: Register, after: Register | None, given: list[Line],
              words: Mapping[int, str]) -> Asked:
    """The trial of a form, or a refusal where it changes nothing."""
    schools, said = trial.changed_schools(before, changes(given, words))
    return Asked(before, after, schools, said, words)


def workbook(run: Run, found: Found) -> bytes:
    """A trial as an Excel file."""
    pages = [
        Page("summary", "what was tried", [["summary"], *([it] for it in found.summary)]),
        sheet("schools", "schools where anything would be different", SCHOOL_HEAD, found.schools),
        sheet("criteria", "who would gain or lose, by criterion", CRITERION_HEAD, found.criteria),
        sheet("children", "children who would have another school", trial.CHILD_HEAD,
              found.children),
    ]
    return book.data(pages, f"Trial {run.number}")


def sheet(name: str, purpose: str, head: tuple[str, ...], rows: list[trial.Cells]) -> Page:
    """A sheet of an Excel file."""
    return Page(name, purpose, [list(head), *([value(it) for it in row] for row in rows)])


def value(cell: object) -> Value:
    """A cell of a table as an Excel file has it."""
    return cell if isinstance(cell, int) or cell is None else str(cell)
