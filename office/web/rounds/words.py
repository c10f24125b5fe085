"""How an office names what is drawn: round 1, or the offer of 2 places at a school."""
from office.core import days, texts
from office.core.model import Register

from .terms import BEGUN, CLOSED, SEALED, Draw, Terms


def name_of(terms: Terms, register: Register) -> str:
    """The name within a sentence of the next draw of a register."""
    if terms.school is None:
        return f"round {len(register.rounds) + 1}"
    school = register.schools[terms.school]
    return f"the offer of {texts.count(terms.fills, 'place')} at {school.name}"


def about(draw: Draw, register: Register | None) -> str:
    """What is said above its heading: where it is, and its day."""
    is_first = register is not None and draw.terms.day == register.days[1]
    day = f"{draw.terms.day:%A} {days.in_words(draw.terms.day)}"
    where = "From the waiting list" if draw.terms.school else "All schools"
    return f"{where} · {day}{', the national offer day' if is_first else ''}"


def kind_of(terms: Terms) -> str:
    """It in one word."""
    return "offer" if terms.school else "round"


def parties(draw: Draw) -> str:
    """Who began it, closed the register for it and sealed its lots: none of them confirms it."""
    return texts.listed(dict.fromkeys(
        who for it in (BEGUN, CLOSED, SEALED) if (who := draw.who(it))))
