"""A restore: what came since the copy, what is lost, the steps with who did each, and the next one.
"""
import dataclasses
import re
import sqlite3
from collections.abc import Callable

import flask
from register_files import Refused
from werkzeug.wrappers import Response

from office.core import texts
from office.core.model import Register
from office.core.wording import sentence
from office.web.machinery import numbers
from office.web.machinery import steps as step_store
from office.web.people.guard import needs, parts, person
from office.web.people.roles import CONFIRM, DRAW, READ
from office.web.rounds import again as draws_again
from office.web.rounds import second as draws_second
from office.web.rounds.second import Second

from .. import since
from ..copies import words_of
from ..rehearsal import WOULD
from ..restores import Restores, case_of
from ..since import Difference
from ..terms import (
    ASKED, CLOSED, COPIED, GIVEN_UP, LATER, OPENED, RESTORED, RESTORING, SENT, UNTOUCHED, Again,
    Restore,
)

screen = flask.Blueprint("restores", __name__, url_prefix="/restores")
Answer = str | Response | tuple[str, int]
FIELD = re.compile("again-([1-9][0-9]{0,8})")
# what is shown of the present register until it is restored
BEFORE = (*UNTOUCHED, RESTORING)


@dataclasses.dataclass(frozen=True)
class Row:
    """What came since, as it is shown: when (UTC), by whom, in words; why it cannot be sent; what
    became of it; and whether it is sent once the draw that was wrong is held again.
    """

    entry: int
    at: str
    who: str
    words: str
    why_not: str
    is_chosen: bool
    came: str
    is_done: bool
    is_later: bool


def found_restore(number: int) -> Restore:
    """A restore, or the answer that there is none."""
    try:
        return parts().restores.get(number)
    except Refused:
        flask.abort(404)


def names_now() -> dict[int, str]:
    """The names of the children, where the register answers."""
    try:
        return {it.number: it.name for it in parts().desk.register().children.values()}
    except Refused:
        return {}


def rows_of(restore: Restore, chosen: set[int] | None) -> list[Row]:
    """What came since the copy; ticked as it was chosen, or as a form has it."""
    found, names = parts().restores, names_now()
    later = found.later(restore) if restore.state == OPENED else {}
    made = []
    for it in found.sending.rows(restore):
        entry = found.sending.entry(it)
        first = entry.about.get("again") or {"who": entry.who, "at": entry.at}
        is_later = it.state == LATER
        is_chosen = (it.is_chosen or is_later and restore.state == OPENED if chosen is None
                     else it.entry in chosen)
        why = later.get(it.entry, "") if later else (
            since.why_not(entry, restore.is_brought))
        made.append(Row(it.entry, first["at"], first["who"], since.in_words(entry, names),
                        why, is_chosen, came_in_words(it, restore), it.state == "done",
                        is_later))
    return made


def came_in_words(row: Again, restore: Restore) -> str:
    """What became of an entry."""
    words = {"done": "stored", "refused": row.said, "sending": "being sent"}
    if row.state in words:
        return words[row.state]
    if restore.state in BEFORE:
        return row.said
    if row.said and row.after:
        return f"not sent: {row.said}"
    return "not sent" if restore.state in (SENT, OPENED) else ""


def lost_in(restore: Restore) -> tuple[list[Difference], str]:
    """What the present register has otherwise than the copy, or why that is not known."""
    if restore.state not in BEFORE or restore.is_brought:
        return [], ""
    try:
        register: Register = parts().desk.register()
        return parts().restores.lost(restore.copy, register), ""
    except Refused as error:
        return [], sentence(f"what would be lost cannot be shown now: {error}")


def page(
    number: int, reason: str = "", status: int = 200, chosen: set[int] | None = None,
    asks_none: bool = False,
) -> Answer:
    """A restore with its steps; `asks_none` where nothing was ticked, which is asked once more."""
    # (before the restore is read: what ends meanwhile was not cut off)
    work = parts().restoring.work_on(number)
    restore = found_restore(number)
    lost, trouble = lost_in(restore)
    # (who saw the page before the end of a step reads here why it was not done)
    if not work and (said := parts().restoring.refused(number)):
        trouble = f"The last step was not done: {sentence(said)}"
    # (while something runs the register may be away for some seconds)
    trouble = "" if work else trouble
    action, button = next_of(restore)
    rows = rows_of(restore, chosen)
    draws = {it.number: it for it in parts().draws.listed()}
    return flask.render_template(
        "restore.html", restore=restore, copy=parts().copies.get(restore.copy), rows=rows,
        lost=lost, lost_count=texts.count(len({it.whose for it in lost}),
                                          "child, school or round", "children, schools and rounds"),
        steps=steps_of(restore),
        history=step_store.history(restore.states, restore.done),
        reason=reason or trouble, work=work, runs=restore.states[restore.state].runs,
        action=action, button=button,
        why_not=why_not(restore), not_steady=not_steady(restore),
        may_choose=restore.state == CLOSED,
        may_give_up=restore.state in BEFORE and not restore.is_brought,
        is_touched=restore.state == RESTORING, may_send_later=restore.state == OPENED,
        may_open=restore.state == RESTORED, is_asked=restore.state == ASKED,
        asker=restore.came_to(ASKED).who, draw=draws.get(restore.draw or 0),
        has_outcome=restore.state not in (CLOSED, GIVEN_UP),
        asks_none=asks_none, lost_rows=[it for it in rows if not it.is_chosen and not it.is_later],
        sends_none=bool(rows) and not any(it.is_chosen or it.is_later for it in rows),
        would_fail=sum(it.is_chosen and it.came != WOULD for it in rows),
        may_begin=may_begin(restore), second=second_of(restore),
    ), status


def next_of(restore: Restore) -> tuple[str, str]:
    """The request by which a restore goes on where that was cut off, and the text of its button."""
    found = restore.states.next(restore.state)
    if found is None:
        return "", ""
    if restore.state == RESTORING:
        return found.action, f"Go on with the restore of copy {restore.copy}"
    return found.action, found.button.format(restore.copy)


def steps_of(restore: Restore) -> list[dict[str, str]]:
    """The steps of a restore, as far as it is brought now: what is chosen can be chosen again."""
    states = [it.name for it in restore.states.steps]
    at = COPIED if restore.state == RESTORING else restore.state
    come = states.index(at) + 1 if at in states else len(states)
    done = [it for it in map(restore.came_to, states[:come]) if it.who]
    end = sentence(restore.state) if restore.state == GIVEN_UP else ""
    state = "" if restore.is_ended else next(iter(states[come:]), "")
    return step_store.shown(restore.states, [*done, *restore.done[-1:]], state, end)


def may_begin(restore: Restore) -> bool:
    """Whether the person can begin the draw again that was wrong: it was undone, and no draw is in
    progress or has repeated it.
    """
    draws = parts().draws
    undone = {it.number for it in draws_again.undone(draws.listed())}
    return person().may(DRAW) and restore.draw in undone and draws.present() is None


def not_steady(restore: Restore) -> str:
    """Why the person is none of the two, or ""."""
    if restore.is_ended:
        return ""
    return sentence(draws_second.hindered(parts().history, person().name, case_of(restore)))


def second_of(restore: Restore) -> Second | None:
    """Who may confirm the restore, once somebody has asked for it."""
    if restore.state != ASKED:
        return None
    return draws_second.second_of(parts().store, parts().history, case_of(restore))


def why_not(restore: Restore) -> str:
    """Why the person cannot do the next step, or ""."""
    if restore.state == ASKED:
        if person().name == restore.came_to(ASKED).who or not person().may(CONFIRM):
            return f"Somebody other than {restore.came_to(ASKED).who} confirms it."
        return not_steady(restore)
    if not restore.is_ended and not person().may(DRAW if restore.state == CLOSED else CONFIRM):
        return "Your role does not do this."
    return not_steady(restore) if restore.state == CLOSED else ""


@screen.get("/<int:number>")
@needs(READ)
def one(number: int) -> Answer:
    """A restore."""
    ticks = flask.request.args.get("tick", "")
    if ticks in ("all", "none"):
        rows = parts().restores.sending.rows(found_restore(number))
        return page(number, chosen={it.entry for it in rows} if ticks == "all" else set())
    return page(number)


def chosen_now() -> set[int]:
    """The entries that are ticked in the form."""
    return {int(it[1]) for name in flask.request.form if (it := FIELD.fullmatch(name))}


def is_bare(number: int) -> bool:
    """Whether nothing is ticked in the form although something can be that is not for later, and
    nobody has said yet that nothing is to be sent again.
    """
    found = parts().restores
    restore = found.get(number)
    entries = [found.sending.entry(it) for it in found.sending.rows(restore) if it.state != LATER]
    is_said = flask.request.form.get("none") == "yes"
    return not is_said and not chosen_now() and not all(
        since.why_not(it, restore.is_brought) for it in entries)


# the steps of who may restore; and those of who may confirm it. The second are all that an office
# needs to end a restore when the person who began it can do nothing more
Step = Callable[..., None]
OWN: dict[str, Step] = {
    "ask": Restores.ask, "choose": Restores.choose_again, "later": Restores.send_later}
SECOND: dict[str, Step] = {
    "confirm": Restores.confirm, "copy": Restores.copy, "restore": Restores.restore,
    "send": Restores.send_again, "open": Restores.open, "give-up": Restores.give_up}
# those that are asked with the entries that are ticked
WITH_TICKS = ("ask", "later")


def done(number: int, steps: dict[str, Step], name: str) -> Answer:
    """Does a step with what follows it by itself, and shows the restore: as it is, or that it runs.
    """
    found_restore(number)
    seen = numbers.read(flask.request.form.get("seen", ""))
    if name not in steps or seen < 0:
        flask.abort(404 if name not in steps else 400)
    if name == "ask" and is_bare(number):
        return page(number, "", 409, set(), True)
    restores, who, chosen = parts().restores, person(), chosen_now()
    ticks = (chosen,) if name in WITH_TICKS else ()
    try:
        parts().restoring.begin(who, number, lambda: steps[name](
            restores, who, number, seen, *ticks))
    except (Refused, sqlite3.Error) as error:
        return page(number, sentence(words_of(error)), 409, chosen if ticks else None)
    return flask.redirect(flask.url_for("restores.one", number=number), 303)


@screen.post("/<int:number>/<name>")
@needs(DRAW)
def step(number: int, name: str) -> Answer:
    """A step of who may restore."""
    return done(number, OWN, name)


@screen.post("/<int:number>/second/<name>")
@needs(CONFIRM)
def second(number: int, name: str) -> Answer:
    """A step of who may confirm a restore."""
    return done(number, SECOND, name)
