"""What a restore does to the draws of the store: those that the copy lacks are undone, and those
that it has again are held.
"""
from office.core.model import Register
from office.web.people.roles import Person
from office.web.register.store import Store
from office.web.rounds.draws import Draws
from office.web.rounds.lots import sheet_of
from office.web.rounds.terms import OPENED, RESTORED, Draw


def is_held(store: Store, register: Register, draw: Draw) -> bool:
    """Whether a register has all draws of the row, for their day and with the lots that were
    sealed.
    """
    terms = draw.terms
    held = register.draws[terms.first - 1:terms.first - 1 + terms.fills]
    if not draw.digest or len(held) < terms.fills:
        return False
    if any((it.school, it.day) != (terms.school, terms.day) for it in held):
        return False
    lots = sheet_of(store, draw.number, terms).lots()
    return all(lots.get(pair, [])[at:at + 1] == [lot] for at, it in enumerate(held)
               for pair, lot in register.lots(it.number).items())


def mark(draws: Draws, who: Person, register: Register, copy: int) -> None:
    """Brings each draw to the state that it has now that the register is that of a copy."""
    said = f"Copy {copy} was restored."
    for it in draws.listed():
        if it.state not in (OPENED, RESTORED):
            continue
        state = OPENED if is_held(draws.store, register, it) else RESTORED
        if state != it.state:
            with draws.moving(it, who, state, said):
                pass
