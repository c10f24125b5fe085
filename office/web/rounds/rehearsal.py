"""A rehearsal: a draw is held on scratch copies, one after another where it is a row of fills, and
each is audited by a second program. The same audits judge the register after the draw was held.
"""
import collections
import dataclasses
import json
import os
import pathlib
import subprocess
import tempfile
from types import TracebackType
from typing import Any, Self

import register_files as files
from register_files import Refused

from office import audit
from office.audit import rows as audit_rows
from office.core import commands, model, plain
from office.core.model import Register
from office.web.copies.copies import is_same
from office.web.copies.copies import COPY_NAME as COPY
from office.web.lists import draw_rows

from . import lot_sheets
from .lots import Lots
from .terms import Command, Terms
from .words import kind_of

# an outcome as numbers: the draw, the child, the school that it had, the one that it has, and
# whether that is new
Outcome = list[Any]
# what became of who put a school first: 0 is the first preference, 1 the second, 2 the third
LOWER, NO_PLACE = 3, 4


def outcomes(before: Register, after: Register, number: int) -> list[Outcome]:
    """What a draw did, by the registers from before and after it."""
    had = {child: it.school for child, it in before.places.items()}
    has, fresh = after.outcomes[number], after.fresh[number]
    return [[number, child, had.get(child), has[child], fresh[child]] for child in sorted(has)]


def accepted_ended(before: Register, after: Register, number: int) -> list[list[int]]:
    """The children that a draw moves from a place which their families had accepted, each with the
    draw.
    """
    return [[number, child] for child in sorted(after.outcomes[number])
            if after.fresh[number][child] and child in before.places
            and before.places[child].kind == model.ACCEPTED]


def scratch_room() -> tempfile.TemporaryDirectory[str]:
    """A folder for scratch copies."""
    try:
        return tempfile.TemporaryDirectory(prefix="admissions-")
    except OSError as error:
        raise Refused(f"nothing can be rehearsed: there is no place for a copy"
                      f" ({plain.reason(error)})") from error


def taken(path: pathlib.Path, found: str) -> str:
    """The path of a scratch copy of a file, which is made there."""
    try:
        fd = os.open(path, os.O_RDONLY | os.O_NOFOLLOW | os.O_CLOEXEC)
        try:
            files.copy_to(fd, found)
        finally:
            os.close(fd)
    except OSError as error:
        raise Refused(f"the copy cannot be used for a rehearsal: {error.strerror}") from error
    return found


def rows_of(path: str) -> audit_rows.Rows:
    """What the second program reads of a scratch copy."""
    try:
        return audit_rows.rows_of(path)
    except Refused as error:
        raise Refused(str(error).replace(path, COPY)) from error


def audited(before: str, after: str, is_later: bool) -> tuple[list[str], bool]:
    """What the second program says of two files, and whether all is right."""
    try:
        return audit.audit(rows_of(before), rows_of(after), is_later, None)
    except audit.MISFITS as error:
        return [f"the rows of a copy do not fit each other: {error!r}"], False


@dataclasses.dataclass
class Audited:
    """What audits found: their lines for each draw, and what is wrong."""

    lines: list[list[str]] = dataclasses.field(default_factory=list)
    wrong: list[str] = dataclasses.field(default_factory=list)

    def add(self, lines: list[str], is_right: bool) -> None:
        """Takes the lines of an audit."""
        self.lines.append(lines)
        if not is_right:
            self.wrong += lines


class Rehearsal:
    """The draws of a row on scratch copies: the command, the answer and the outcomes of each, and
    the register from before the first and after each. Where something is wrong, the row ends there.
    """

    def __init__(self, copy: pathlib.Path, terms: Terms, lots: Lots) -> None:
        self.terms, self.lots, self.program = terms, lots, plain.program()
        self.found = Audited()
        self.commands: list[Command] = []
        self.answers: list[dict[str, Any]] = []
        self.outcomes: list[Outcome] = []
        self.accepted_ended: list[list[int]] = []
        self.room = scratch_room()
        self.files = [self.taken(copy, "before.db")]
        self.registers = [self.read(self.files[0])]

    def __enter__(self) -> Self:
        return self

    def __exit__(
        self, kind: type[BaseException] | None, error: BaseException | None,
        trace: TracebackType | None,
    ) -> None:
        self.room.cleanup()

    def taken(self, path: pathlib.Path, name: str) -> str:
        """A scratch copy of a file."""
        return taken(path, os.path.join(self.room.name, name))

    def read(self, path: str) -> Register:
        """The register of a scratch copy."""
        return model.read_stored(path, self.program, COPY)

    def hold(self, is_audited: bool) -> None:
        """Holds all draws of the row, and audits each where that is wanted."""
        for at in range(self.terms.fills):
            if self.found.wrong:
                return
            self.step(at, is_audited)

    def step(self, at: int, is_audited: bool) -> None:
        """Holds one draw."""
        register = self.registers[-1]
        pairs = self.terms.pairs_in(register)
        if missing := set(pairs) - set(self.lots):
            self.found.wrong.append(f"no lot was sealed for {lot_sheets.in_words(missing)}")
            return
        command = self.terms.command(at, [self.lots[it][at] for it in pairs])
        file = self.taken(pathlib.Path(self.files[-1]), f"after-{at + 1}.db")
        answer = self.answer(file, command)
        if not commands.is_done(answer):
            said = commands.in_words(answer, command)
            self.found.wrong.append(f"the register refuses {place_of(self.terms, at)}: {said}")
            return
        self.take(file, command, answer)
        if is_audited:
            self.found.add(*audited(self.files[-2], file, False))

    def take(self, file: str, command: Command, answer: dict[str, Any]) -> None:
        """Takes a draw that was held."""
        self.files.append(file)
        self.registers.append(self.read(file))
        self.commands.append(command)
        self.answers.append(answer)
        step = self.registers[-2], self.registers[-1], command["draw"]
        self.outcomes += outcomes(*step)
        self.accepted_ended += accepted_ended(*step)

    def answer(self, file: str, command: Command) -> Any:
        """The answer of the program to a command, on a scratch copy."""
        line = json.dumps(command, separators=(",", ":")) + "\n"
        try:
            ran = subprocess.run([self.program, "do", file], input=line.encode(),
                                 capture_output=True, check=False)
        except OSError as error:
            raise Refused(f"the program does not start: {error.strerror}") from error
        if not ran.stdout.endswith(b"\n"):
            said = plain.said(model.printed(ran).replace(file, COPY))
            raise Refused(f"it cannot be rehearsed: {said}")
        return commands.read(ran.stdout.rstrip(b"\n"))

    def kept(self) -> dict[str, Any]:
        """What is kept of it: numbers and codes alone."""
        return {"answers": self.answers, "audits": self.found.lines, "outcomes": self.outcomes,
                "accepted_ended": self.accepted_ended, "wrong": self.found.wrong,
                "schools": self.schools(), "firsts": self.firsts(), **self.explained()}

    def schools(self) -> dict[str, list[int]]:
        """The places of each school after the draws: its admission number, how many are held by
        plans, how many are vacant, how many children wait for one, how many places are held, and
        how many of those who wait applied late.
        """
        register = self.registers[-1]
        late = collections.Counter(
            code for child, it in register.applications.items()
            if not register.is_in_time(it.day) and child not in register.places
            for code in it.preferences)
        return {code: [it.pan, it.plans, it.vacancies, it.waiting, it.taken, late[code]]
                for code, it in register.schools.items()}

    def firsts(self) -> dict[str, list[int]]:
        """Of the children who put each school first: how many a round leaves with their first,
        second, third or a lower preference, and how many without a place.
        """
        found: dict[str, list[int]] = {}
        register = self.registers[-1]
        for _, child, _, has, _ in [] if self.terms.school else self.outcomes:
            listed = register.applications[child].preferences
            came = min(listed.index(has), LOWER) if has else NO_PLACE
            found.setdefault(listed[0], [0] * (NO_PLACE + 1))[came] += 1
        return found

    def explained(self) -> dict[str, Any]:
        """The class and the metres of the last child that each school takes in; what put each child
        that is refused at a school after that one; and of whom a lot decides, with the draw.
        """
        register = self.registers[-1]
        draws = [it for it in register.draws if it.number >= self.terms.first]
        last: dict[str, list[int]] = {}
        refused: dict[str, dict[str, list[int]]] = {}
        for it in draws:
            drawn = register.drawn(it.number)
            last |= {code: [found.number, found.metres] for code, found in drawn.cutoffs.items()}
            for (code, child), by in drawn.refusals.items():
                refused.setdefault(code, {}).setdefault(by or "", []).append(child)
        lots = draw_rows.equal_at_limit(dataclasses.replace(register, draws=draws))[1:]
        return {"last": last, "refused": refused, "by_lot": [[it[0], it[2]] for it in lots]}

    def has_outcome(self, kept: dict[str, Any]) -> bool:
        """Whether its answers and outcomes are those that were kept of another one."""
        return (self.answers, self.outcomes) == (kept["answers"], kept["outcomes"])

    def compared(self, copy: pathlib.Path) -> Audited:
        """What a copy from after the draws was found to be: each draw is audited with the register
        that it saw, and after the last all else is as it was; the outcomes and the lots are those
        that were rehearsed.
        """
        name = f"held-{len(os.listdir(self.room.name))}.db"
        found, file = Audited(), self.taken(copy, name)
        held = self.read(file)
        for at, command in enumerate(self.commands):
            found.add(*audited(self.files[at], file, at + 1 < len(self.commands)))
            wanted = dict(zip(self.terms.pairs_in(self.registers[at]), command["lots"]))
            if held.lots(command["draw"]) != wanted:
                found.wrong.append(f"the lots of {place_of(self.terms, at)} are not those that"
                                   " were sealed")
        if not is_same(held, self.registers[-1]):
            found.wrong.append("the register is not as it was rehearsed")
        return found


def place_of(terms: Terms, at: int) -> str:
    """Which one of an offer of several places, from 0 on, or what it is."""
    return f"place {at + 1}" if terms.fills > 1 else f"the {kind_of(terms)}"


def see_accepted(copy: pathlib.Path, terms: Terms, lots: Lots) -> None:
    """Refuses a draw that the register would not take with any lots, as for its day."""
    with Rehearsal(copy, terms, lots) as found:
        found.hold(False)
        if found.found.wrong:
            raise Refused(found.found.wrong[0])
