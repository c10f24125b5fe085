"""Who has to do what now with a draw: the first thing on its page."""
import dataclasses

from office.core import texts

from .second import Second
from .terms import (
    CLOSED, CONFIRMED, GIVEN_UP, LOTS, OPENED, REHEARSED, RESTORED, SEALED, SENDING, STATES, Draw,
)
from .words import parties

# the title where there is nothing to decide, and nothing runs
ENDS = {OPENED: "Complete", GIVEN_UP: "Cancelled", RESTORED: "Undone"}


@dataclasses.dataclass(frozen=True)
class Decision:
    """What is to be decided or done: the title, what is said, and the request with its button, if
    this person has one; or that it is cancelled, or undone; and what is said right before the
    button, of what comes then.
    """

    title: str
    said: tuple[str, ...] = ()
    action: str = ""
    button: str = ""
    is_final: bool = False
    is_to_cancel: bool = False
    then: str = ""


@dataclasses.dataclass(frozen=True)
class Known:
    """What decides it: the person who looks; whether the register does not answer; the state to
    which the next step leads, or ""; the request with the button of that; why this person does not
    do it, or ""; who may confirm it; who may seal its lots; and the heads of the office.
    """

    who: str
    is_away: bool
    state: str
    action: str
    button: str
    why_not: str
    second: Second | None
    sealers: tuple[str, ...]
    heads: tuple[str, ...]


def decision(draw: Draw, known: Known) -> Decision:
    """What is to be decided or done now."""
    if draw.is_ended:
        return Decision(ENDS[draw.state])
    if known.is_away:
        return Decision("The register does not answer", (known.why_not,))
    if draw.give_up_by or draw.restore_by:
        return asked(draw)
    if draw.wrong:
        return wrong(draw)
    if draw.state == REHEARSED and not known.why_not:
        heads = ["you" if it == known.who else it for it in known.heads]
        return Decision("Your decision", (
            "Two people are needed, so that nobody decides alone who gets a place:"
            f" {parties(draw)} cannot confirm {draw.name}, and you can.",), known.action,
            known.button, then="You may confirm even if you added applications or made changes"
            f" yourself. Confirming gives no place yet: {draw.name} is run next, by"
            f" {texts.one_of(heads) or 'a head of the office'}, and then its letters are made.")
    step = STATES[known.state] if known.state else None
    button = known.button or (step.title if step else "")
    said = [step.does] if step and draw.state != REHEARSED else []
    if draw.state == LOTS:
        said += waits(known.sealers, "the supervisor")
    if known.why_not:
        said.append(known.why_not)
    if known.why_not and known.state in (CLOSED, SENDING):
        said += waits(known.heads, "a head of the office")
    if draw.state == REHEARSED and known.second:
        said += waits(tuple(known.second.may), "a second person")
    action = "" if known.why_not else known.action
    if draw.state == CONFIRMED and known.why_not and known.heads:
        return Decision(f"Waits for {texts.one_of(known.heads)}", tuple(said))
    return Decision(f"Next: {button[:1].lower()}{button[1:]}", tuple(said), action, known.button,
                    known.state == SENDING)


def waits(names: tuple[str, ...], what: str) -> list[str]:
    """Whom it waits for."""
    return [f"It waits for {what}: {texts.one_of(names)}."] if names else [
        f"Nobody can be {what} now."]


def asked(draw: Draw) -> Decision:
    """Somebody has asked to cancel it, or to undo it."""
    asker = draw.give_up_by or draw.restore_by
    what = f"cancel {draw.name}" if draw.give_up_by else f"undo {draw.name}"
    title = f"{asker} has asked to {what}"
    said = (*([f"The reason: {draw.give_up_why}"] if draw.give_up_why else []),
            "A second person confirms that, or it goes on.")
    return Decision(title, said, is_to_cancel=True)


def wrong(draw: Draw) -> Decision:
    """An audit does not agree."""
    if draw.state == SEALED:
        return Decision("The rehearsal is not right", (
            f"It cannot go on: cancel {draw.name}, and tell IT support.",),
            is_to_cancel=True)
    return Decision("The register is not right. Inform no family.", (
        f"Undo {draw.name}: the copy from before it is restored. And tell IT support.",),
        is_to_cancel=True)
