"""What a round would have given a child by another list, by an application of another day, or by
other details, as the program itself says of a register of which nothing remains.
"""
import dataclasses
import datetime
import json
import os
import tempfile
from collections.abc import Sequence

from register_files import Refused

from office.core import child_fields, commands
from office.core.model import Child, Pair, Register
from office.web.rounds import held_draw
from office.web.trials import registers as trial_registers
from office.web.trials.registers import Program

# (a question that the register does not answer)
ANSWERED = (0, 3)


def by_list(program: Program, before: Register, after: Register, child: int,
            preferences: Sequence[str]) -> str | None:
    """The school that the round after a copy would have given a child by another list of schools
    that it wanted there, in any order, or None.
    """
    lots = held_draw.next_round(before, after).drawn.lots
    question = {"child": child, "lots": [lots[it] for it in sorted(lots)],
                "preferences": list(preferences)}
    with tempfile.TemporaryDirectory(prefix="admissions-trial-") as room:
        path = os.path.join(room, "copy.db")
        before.source.copy_to(path)
        line = json.dumps(question).encode() + b"\n"
        found = json.loads(program.run("what-if", path, given=line, fine=ANSWERED))
    if "school" not in found:
        raise Refused(f"the round does not answer this: {commands.in_words(found, None)}")
    school: str | None = found["school"]
    return school


@dataclasses.dataclass(frozen=True)
class Span:
    """What a child would have got with the best lots that there could be, and with the worst."""

    best: str | None
    worst: str | None


def by_day(program: Program, before: Register, after: Register, child: int,
           day: datetime.date) -> Span:
    """What the first round would have given a child whose application was of another day. One that
    was late has no lots there: those of all others stay in their order, and it is before or behind
    them.
    """
    seen = held_draw.next_round(before, after)
    if before.draws:
        raise Refused("the day of an application counts in the first round alone")
    application = before.applications[child]
    if not before.is_in_time(day):
        return Span(None, None)
    if before.is_in_time(application.day):
        return Span(seen.outcomes[child], seen.outcomes[child])
    applied = {**before.applications, child: dataclasses.replace(application, day=day)}
    changed = dataclasses.replace(before, applications=applied)
    best, worst = (
        held(program, changed, seen.draw.day, with_child(seen.drawn.lots, child, is_first,
                                                         application.preferences))
        for is_first in (True, False))
    return Span(best.outcomes[1][child], worst.outcomes[1][child])


def by_details(program: Program, before: Register, after: Register, child: Child) -> str | None:
    """The school that the round after a copy would have given a child of other details, by the same
    lots, or None.
    """
    seen = held_draw.next_round(before, after)
    with tempfile.TemporaryDirectory(prefix="admissions-trial-") as room:
        path = os.path.join(room, "trial.db")
        before.source.copy_to(path)
        trial_registers.sent(program, path, [child_fields.command_of("amend", child)])
        made, _ = trial_registers.held_in(program, path, before, seen.draw.day, seen.drawn.lots)
    return made.outcomes[seen.draw.number][child.number]


def held(program: Program, before: Register, day: datetime.date, lots: dict[Pair, int]) -> Register:
    """The register after the first round of one."""
    with tempfile.TemporaryDirectory(prefix="admissions-trial-") as room:
        path = os.path.join(room, "trial.db")
        return trial_registers.held_round(program, path, before, before.schools, day, lots)[0]


def with_child(lots: dict[Pair, int], child: int, is_first: bool,
               schools: Sequence[str]) -> dict[Pair, int]:
    """Lots in the same order at each school, with those of one child more at its schools: the first
    of all there, or the last.
    """
    by_school: dict[str, list[tuple[int, int]]] = {code: [] for code in schools}
    for (code, other), lot in lots.items():
        by_school.setdefault(code, []).append((lot, other))
    found: dict[Pair, int] = {}
    for code, them in by_school.items():
        order = [other for _, other in sorted(them)]
        if code in schools:
            order.insert(0 if is_first else len(order), child)
        found |= {(code, other): lot for lot, other in enumerate(order, 1)}
    return found
