"""What the page of a draw shows of it to the person who looks: who does what next, what was
checked, and its outcome.
"""
import dataclasses
from collections.abc import Mapping
from typing import Any

from office.core import texts
from office.core.model import Register
from office.core.wording import moment, sentence
from office.web.applications.rows import OPEN, WITHDRAWN
from office.web.applications.tools import tools
from office.web.copies import terms as restores_terms
from office.web.explain import explanations
from office.web.machinery import steps as step_store
from office.web.machinery.jobs import Job
from office.web.people.guard import parts, person
from office.web.people.roles import CONFIRM, DRAW, LOTS, NOTES, PERSON, RECORD, Person
from office.web.register.desk import local
from office.web.register.history import ANSWER, SENDS, SETTLED
from office.web.schools import flags

from . import again, before_confirmation, cancel, shown
from . import changes as draws_changes
from . import second as draws_second
from .cancel import Way
from .changes import Change
from .decision import Decision, Known, decision
from .draws import case_of, held_in, next_state
from .outcome import Whole, whole
from .second import Case, Second
from .shown import Grouped
from .terms import (
    AUDITED, BEGUN, CLOSED, CONFIRMED, COPIED, FOLLOWED, IN_ORDER, OPENED, REHEARSED, SEALED,
    SENDING, SENT, STATES, UNSENT_SEALED, Draw,
)
from .terms import LOTS as LOTS_DRAWN

# the request by which what follows by itself is tried again
AGAIN = "go-on"
# those of who may confirm draws; the others are of who may run them
OF_SECOND = ("confirm", AGAIN)
# what only some people do, by the request
DOES = {"close": "pauses recording for", "confirm": "confirms", "send": "runs", AGAIN: "continues"}
# what a button says of the draws that it concerns
NAMING = (CONFIRMED, SENDING, AUDITED)
# in these a draw is still to be confirmed
TO_CONFIRM = IN_ORDER[:IN_ORDER.index(CONFIRMED)]
# from the rehearsal on the checks of a draw are shown; the register is compared until it is run
CHECKED, COMPARED = (REHEARSED, CONFIRMED, SENDING, AUDITED, OPENED), (REHEARSED, CONFIRMED)


@dataclasses.dataclass(frozen=True)
class Seen:
    """A draw as somebody looks at it: the register, or None while that does not answer; what runs
    now, if anything does; how many draws of the row the register has; and the state to which the
    next step leads, or "".
    """

    draw: Draw
    register: Register | None
    work: Job | None
    standing: int
    state: str


def seen(draw: Draw, register: Register | None, work: Job | None) -> Seen:
    """A draw as it is now."""
    standing = held_in(register, draw) if register and draw.state in SENT else 0
    # (the same state of a row that is not held to its end)
    is_held = draw.state != SENDING or standing == draw.terms.fills
    return Seen(draw, register, work, standing, next_state(draw) if is_held else SENDING)


def button_of(found: Seen) -> str:
    """The text of the next button."""
    text = STATES[found.state].button if found.state else ""
    if found.state == SENDING and found.standing:
        return f"Go on, and run the last {found.draw.terms.fills - found.standing}"
    return f"{text} {found.draw.name}" if text and found.state in NAMING else text


def action_of(draw: Draw, state: str) -> str:
    """The request of the next button, or ""."""
    return "" if not state else AGAIN if draw.state in FOLLOWED else STATES[state].action


def why_not(draw: Draw, state: str, register: Register | None) -> str:
    """Why the person cannot do the next step, or ""."""
    who = person()
    if register is None:
        return "The register does not answer now. Load this page again in a moment."
    if draw.give_up_by or draw.restore_by:
        return "It is not decided whether it goes on."
    if state == SEALED:
        return "The supervisor does this, on the screen of lots."
    said = draws_second.hindered(
        parts().history, who.name, parts().draws.case_to_confirm(draw)) if (
            state == CONFIRMED and who.may(CONFIRM)) else ""
    if said:
        return f"{said}. Somebody else confirms it."
    action = action_of(draw, state)
    if action and not who.may(CONFIRM if action in OF_SECOND else DRAW):
        officer = " or an officer" if action in OF_SECOND else ""
        return f"Only a head of the office{officer} {DOES[action]} {draw.name}."
    return ""


def second_of(draw: Draw) -> Second | None:
    """Who may confirm a draw that is to be run, as far as it is brought now; before it is closed,
    if the person who looks and may run draws closes it.
    """
    if draw.state not in TO_CONFIRM:
        return None
    case = parts().draws.case_to_confirm(draw)
    if draw.state == BEGUN and person().may(DRAW):
        closes = {person().name: "would have paused recording for it"}
        case = dataclasses.replace(case, others={**closes, **case.others})
    return draws_second.second_of(parts().store, parts().history, case)


def sealers_of(draw: Draw) -> tuple[str, ...]:
    """Who may seal its lots."""
    found = draws_second.second_of(parts().store, parts().history, case_of(draw), LOTS)
    return tuple(found.may)


def decision_of(found: Seen) -> Decision:
    """Who has to do what now."""
    draw = found.draw
    return decision(draw, Known(
        person().name, found.register is None, found.state, action_of(draw, found.state),
        button_of(found), why_not(draw, found.state, found.register), second_of(draw),
        sealers_of(draw), tuple(who_may(DRAW))))


def waits_for(draw: Draw) -> str:
    """Who does the next step of a draw, by their names, or "" where it follows by itself or is
    asked about.
    """
    if draw.give_up_by or draw.restore_by or draw.wrong or draw.state in FOLLOWED:
        return ""
    if draw.state == LOTS_DRAWN:
        return texts.one_of(sealers_of(draw)) or "a supervisor"
    if draw.state == REHEARSED and (second := second_of(draw)):
        return texts.one_of(second.may) or "a second person"
    return texts.one_of(who_may(DRAW)) or "a head of the office"


def not_second(draw: Draw) -> str:
    """Why the person is none of two who end a draw together, or ""."""
    asker = draw.give_up_by or draw.restore_by
    others = {asker: "has asked for it"} if asker not in ("", person().name) else {}
    found = "" if draw.is_ended else draws_second.hindered(
        parts().history, person().name, Case(others=others))
    return f"{found}." if found else ""


def alone(draw: Draw) -> str:
    """Why nobody else can be the second of two persons, where two are needed to end it; or ""."""
    is_for_two = draw.state in (*UNSENT_SEALED, *SENT)
    return draws_second.alone(parts().store, parts().history, person().name) if is_for_two else ""


def cancel_way(found: Seen) -> Way | None:
    """How the person who looks cancels it now, if it can be."""
    draw = found.draw
    if not person().may(CONFIRM):
        return None
    return cancel.way_of(draw, cancel.Known(
        person().name, alone(draw), not_second(draw), parts().draws.has_lots(draw)))


def may_be_cancelled(draw: Draw) -> bool:
    """Whether the person finds a way to cancel it on its screen."""
    return not draw.is_ended and person().may(CONFIRM) or (
        cancel.is_undone_later(draw) and person().may(DRAW))


# ----------------------------------------------------------------------------------- the outcome


def outcome_of(draw: Draw, register: Register | None) -> Whole | None:
    """The outcome of the rehearsal, if there is one."""
    if not draw.rehearsal.get("outcomes") or register is None:
        return None
    words = flags.present()
    key = draw.number, draw.version, tuple(sorted(words.items()))
    return parts().draws.made.of("outcome", key, register, whole, draw, words)


def flow_of(draw: Draw, register: Register, found: Whole) -> dict[str, Any]:
    """The flow of a round from first preferences."""
    return parts().draws.made.of("flow", (draw.number, draw.version), register, shown.flow,
                                 found)


def grouped_of(draw: Draw, register: Register, found: Whole) -> Grouped:
    """Its children in groups. (Who may not read notes is not told who has one.)"""
    notes = frozenset(parts().notes.children() if person().may(NOTES) else ())
    return parts().draws.made.of(f"groups {bool(notes)}", (draw.number, draw.version, notes),
                                 register, shown.grouped, found, notes)


def shown_outcome(draw: Draw, register: Register, found: Whole) -> dict[str, Any]:
    """The outcome as the page shows it."""
    schools, bars = shown.schools(draw, found)
    return {
        "figures": shown.figures(draw, found), "flow": flow_of(draw, register, found),
        "schools": schools, "bars": bars, "marks": shown.MARKS,
        "children": shown.children(
            draw, found, register, grouped_of(draw, register, found)),
    }


def changes_of(draw: Draw, register: Register | None) -> list[Change] | None:
    """What was changed after the applications were added and before the close, for who reads it
    before the register is closed, and from the rehearsal on.
    """
    if register is None or draw.state not in (BEGUN, *CHECKED):
        return None
    entries = parts().history.entries
    last = next((it.number for it in reversed(entries) if it.what in (SENDS, ANSWER, SETTLED)), 0)
    end = draw.came_to(CLOSED).at
    return parts().draws.made.of(
        "changes", (draw.number, last, end), register,
        lambda it: [one for one in draws_changes.changes(parts().history, it, draw.terms)
                    if not end or one.at <= end])


def not_in_register(draw: Draw) -> tuple[int, int]:
    """How many rows of applications are set aside, and are to be added, before a round; for who
    sees them.
    """
    if draw.terms.school or not person().may(RECORD):
        return 0, 0
    return tools().staging.count(WITHDRAWN), tools().staging.count(OPEN)


def before_pause_of(draw: Draw) -> list[before_confirmation.Verdict]:
    """The applications that a round leaves out, while they can still be added."""
    if draw.state != BEGUN:
        return []
    return list(before_confirmation.left_out(*not_in_register(draw)))


def verdicts_of(
    draw: Draw, register: Register | None, found: Whole | None, changes: list[Change] | None,
) -> tuple[list[before_confirmation.Verdict], list[before_confirmation.Verdict]]:
    """What is to be looked at, and the other checks: before it is confirmed, and from then on."""
    if draw.state not in CHECKED or found is None or register is None:
        return [], []
    same = parts().draws.made.of(
        "same", (draw.number, draw.version), register, before_confirmation.unchanged,
        parts().copies, draw) if draw.state in COMPARED else None
    aside, to_add = not_in_register(draw) if draw.state in COMPARED else (0, 0)
    known = before_confirmation.Known(
        found, again.given_up(parts().draws, draw), changes or [], same, person().name, aside,
        to_add)
    every = [*before_confirmation.to_look_at(draw, known),
             *before_confirmation.checked(draw, known, register)]
    return (every, []) if draw.state == REHEARSED else ([], every)


def to_confirm(found: Seen) -> dict[str, Any]:
    """What the first screen of the person who can confirm a draw has of it: the decision, all that
    is read before, and the outcome in numbers; and no decision for anybody else.
    """
    draw, register = found.draw, found.register
    outcome = outcome_of(draw, register) if draw.state == REHEARSED else None
    if register is None or outcome is None or not (decided := decision_of(found)).action:
        return {"decision": None}
    changes = changes_of(draw, register)
    return {
        "draw": draw, "decision": decided, "changes": changes,
        "to_look_at": verdicts_of(draw, register, outcome, changes)[0],
        "before": again.given_up(parts().draws, draw), "in_numbers": shown.figures(draw, outcome),
    }


# ------------------------------------------------------------------------------ what is beside it


def steps_of(found: Seen) -> list[dict[str, str]]:
    """The steps with who did each; what the next one does is said there alone."""
    draw = found.draw
    end = sentence(STATES[draw.state].words) if draw.is_ended and draw.state != OPENED else ""
    rows = step_store.shown(STATES, draw.done, "" if found.work else found.state, end)
    return [{**it, "does": it["does"] if it["state"] == "now" else ""} for it in rows]


def state_in_words(found: Seen) -> str:
    """The state of a draw as an office reads it."""
    if found.draw.state == SENDING and found.standing == found.draw.terms.fills:
        return "paused, and run; not audited yet"
    return STATES[found.draw.state].words


def confirmed_of(found: Seen) -> str:
    """Who has confirmed a draw that waits to be run, when, and who runs it next; or ""."""
    draw = found.draw
    if draw.state != CONFIRMED or draw.give_up_by or found.work:
        return ""
    done = draw.came_to(CONFIRMED)
    who = "You" if done.who == person().name else done.who
    heads = texts.one_of(who_may(DRAW)) or "A head of the office"
    return f"{who} confirmed {draw.name} at {local(done.at)}. {heads} runs it next."


def copied(draw: Draw) -> list[str]:
    """The copies of the register that were made for a draw, with the moment of each."""
    found = (("before it", draw.before, COPIED), ("after it", draw.after, AUDITED))
    made = [(words, number, draw.came_to(state).at) for words, number, state in found if number]
    return [f"Copy {number}, made {moment(at) if at else ''} {words}".replace("  ", " ")
            for words, number, at in made]


def tags_of(found: Seen) -> list[tuple[str, str]]:
    """The state in one to three words."""
    is_known = found.draw.state in (REHEARSED, CONFIRMED)
    it = STATES[found.draw.state]
    return [*([("Rehearsed", "info")] if is_known else []), (it.tag, it.look)]


def again_of(draw: Draw) -> bool:
    """Whether a draw was undone, and the person can begin it again now."""
    found = parts().draws
    return person().may(DRAW) and found.present() is None and any(
        it.number == draw.number for it in again.undone(found.listed()))


def round_held(draw: Draw, register: Register | None) -> int:
    """The number of a round that was run, or 0."""
    return next((it.round or 0 for it in (register.draws if register else [])
                 if it.number == draw.terms.first and draw.state in (AUDITED, OPENED)), 0)


def is_explained(draw: Draw, register: Register | None) -> bool:
    """Whether each child of a draw can be explained: it was run."""
    return draw.state in (AUDITED, OPENED) and any(
        it.number == draw.terms.first for it in (register.draws if register else []))


def is_tried(draw: Draw, register: Register | None) -> bool:
    """Whether other schools can be tried: it is a round, and the copy from before it is kept."""
    return is_explained(draw, register) and any(
        it.number == draw.terms.first and explanations.kept_before(parts(), it)
        for it in (register.rounds if register else []))


def unsent_of(draw: Draw) -> tuple[int, int] | None:
    """The restore by which the draw that this one repeats was undone, and how many entries that
    came after that one can be sent again now; for who may send them.
    """
    if draw.state != OPENED or not draw.repeats or not person().may(DRAW):
        return None
    restores = parts().restores
    found = next((it for it in restores.listed() if it.draw == draw.repeats
                  and it.state == restores_terms.OPENED), None)
    if found is None:
        return None
    may = restores.later(found)
    count = sum(may.get(it.entry) == "" for it in restores.sending.rows(found)
                if it.state in (restores_terms.LATER, restores_terms.REFUSED))
    return (found.number, count) if count else None


def taking_part(found: Seen) -> Mapping[str, str]:
    """Who did what of it, by what they did."""
    draw = found.draw
    did = (("Began it", BEGUN), ("Paused recording", CLOSED), ("Sealed the lots", SEALED),
           ("Confirmed it", CONFIRMED), ("Ran it", SENDING))
    return {words: draw.who(state) for words, state in did if draw.who(state)}


def who_may(right: str) -> list[str]:
    """The people who may do something and are not locked."""
    return [it["name"] for it in parts().store.rows(
        "SELECT name, role FROM person WHERE kind=? AND NOT is_locked ORDER BY name", PERSON)
            if Person(it["name"], it["role"]).may(right)]
