"""A draw that was held: its lots, its outcome and what explains it, as a register has them now, or
as the program has them that holds it again.
"""
import dataclasses
import os
import tempfile

import register_files as files
from register_files import Refused

from office.core import model
from office.core.model import Draw, Drawn, Pair, Register, same_season
from office.web.trials import registers as trial_registers
from office.web.trials.registers import Program


@dataclasses.dataclass(frozen=True)
class Held:
    """A draw with a register from after it. Schools, children and applications are those that the
    register has, and so are the class and the distance by which the draw is explained.
    """

    register: Register
    draw: Draw

    @property
    def number(self) -> int:
        """Its number among the rounds; 0 of a fill."""
        return self.draw.round or 0

    @property
    def outcomes(self) -> dict[int, str | None]:
        """The school of each child that took part, or None."""
        return self.register.outcomes[self.draw.number]

    @property
    def fresh(self) -> dict[int, bool]:
        """Whether that was a new offer."""
        return self.register.fresh[self.draw.number]

    @property
    def drawn(self) -> Drawn:
        """Its lots, and what explains it."""
        return self.register.drawn(self.draw.number)


def of_register(register: Register, number: int | None = None) -> Held:
    """A round of a register, the last one where no number is given, as the register has it now."""
    draw = next((it for it in reversed(register.rounds) if number in (None, it.round)), None)
    if draw is None:
        which = f"has no round {number}" if number else "had no round yet"
        raise Refused(f"{register.name} {which}")
    return Held(register, draw)


def next_draw(before: Register, after: Register) -> Draw:
    """The draw of AFTER that is the next one of BEFORE, a copy from right before it."""
    same_season(before, after)
    at = len(before.draws) + 1
    draw = after.draws[at - 1] if len(after.draws) >= at else None
    if draw is None:
        raise Refused(f"{after.name} has no draw {at}: {before.name} has {at - 1}, and there is"
                      " none more")
    pairs = before.pairs_of_fill(draw.school) if draw.school else before.pairs
    is_whole = draw.school or set(before.taking_part) == set(after.outcomes[at])
    if not is_whole or pairs != set(after.lots(at)):
        raise Refused(f"{before.name} is not from right before draw {at} of {after.name}: the"
                      " children who take part, or their lots, differ")
    for code in before.schools:
        see_school(before, after, code)
    return draw


def next_round(before: Register, after: Register) -> Held:
    """The round of AFTER that is the next draw of BEFORE."""
    draw = next_draw(before, after)
    if not draw.round:
        raise Refused(f"draw {draw.number} is a fill at {draw.school}, and this takes rounds alone")
    return Held(after, draw)


def see_school(before: Register, after: Register, code: str) -> None:
    """Refuses a school that cannot have become that of AFTER: nothing but its admission number can
    be changed, and that can only rise.
    """
    was, now = before.schools[code], after.schools.get(code)
    if now is None or dataclasses.replace(now, pan=was.pan) != was or now.pan < was.pan:
        raise Refused(f"{before.name} is no copy of {after.name}: the school {code} of the one is"
                      " not that of the other")


def held_again(before: Register, after: Register, last: int | None = None,
               program: Program | None = None) -> Held:
    """The next draw of BEFORE as the register was right after it, whatever was changed since: the
    program holds it again on a copy, by the lots of AFTER, and must have the outcome of AFTER.
    Where `last` is the number of a later draw, all up to that, which were held one after the other.
    """
    first, program = next_draw(before, after), program or Program(files.program())
    draws = after.draws[first.number - 1:last or first.number]
    with tempfile.TemporaryDirectory(prefix="admissions-held-") as room:
        path = os.path.join(room, "held.db")
        before.source.copy_to(path)
        trial_registers.sent(program, path, [command_of(it, after.lots(it.number))
                                             for it in draws])
        found = model.read_stored(path, program.path, before.name)
    for at in (it.number for it in draws):
        if (found.outcomes[at], found.fresh[at]) != (after.outcomes[at], after.fresh[at]):
            raise Refused(f"{before.name} is not from right before draw {at} of {after.name}: held"
                          " again, the draw has another outcome. admissions-audit says where they"
                          " differ")
    return Held(found, draws[-1])


def command_of(draw: Draw, lots: dict[Pair, int]) -> trial_registers.Command:
    """The command that holds a draw by these lots."""
    school = {"school": draw.school} if draw.school else {}
    return {"cmd": "fill" if draw.school else "round", "draw": draw.number, **school,
            "day": draw.day.isoformat(), "lots": [lots[it] for it in sorted(lots)]}
