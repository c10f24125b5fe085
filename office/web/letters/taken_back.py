"""A record of letters as sent that is taken back, as long as nothing rests on it."""
import sqlite3

from register_files import Refused

from office.core import texts
from office.core.command_kinds import NOTICES
from office.web.people.roles import Person
from office.web.register.history import History

from .sets import Set, Sets

MOST_REASON = 200


def rests(sets: Sets, found: Set) -> str:
    """What rests on the record of a set, or "": the days of a reminder or a withdrawal count from
    the letter, and a second letter was sent because there was a first.
    """
    row = sets.store.row("SELECT recorded FROM letter_set WHERE id=?", found.number)
    since = str(row["recorded"]) if row else ""
    children = {it["child"] for it in sets.store.rows(
        "SELECT child FROM letter WHERE set_id=?", found.number)}
    return second(sets, found.number, since) or noticed(sets.history, children, since)


def second(sets: Sets, number: int, since: str) -> str:
    """Whether the same letters were recorded again afterwards."""
    row: sqlite3.Row | None = sets.store.row(
        "SELECT other.child, other_set.id FROM letter AS mine JOIN letter AS other ON"
        " other.child=mine.child AND other.about=mine.about JOIN letter_set AS other_set ON"
        " other_set.id=other.set_id WHERE mine.set_id=? AND other_set.sent IS NOT NULL AND"
        " other_set.id<>mine.set_id AND other_set.recorded>? ORDER BY mine.place", number, since)
    return f"child {row['child']} was sent the same letter a second time" if row else ""


def noticed(history: History, children: set[int], since: str) -> str:
    """Whether a reminder or a withdrawal was recorded for one of the children afterwards."""
    for it in history.done():
        command = it.about.get("command", {})
        if it.at > since and command.get("cmd") in NOTICES and command.get("child") in children:
            return f"{NOTICES[command['cmd']].noun} was recorded for child {command['child']} since"
    return ""


def take_back(sets: Sets, who: Person, number: int, reason: str) -> None:
    """Takes the record of a set as sent back, for a reason; on record before."""
    if not reason or len(reason) > MOST_REASON or not texts.is_shown(reason):
        raise Refused(f"Nothing was undone: say why, in 1 to {MOST_REASON} characters")
    with sets.lock, sets.store.lock:
        found = sets.get(number)
        if not found.sent:
            raise Refused("these letters are not recorded as sent any more")
        if said := rests(sets, found):
            raise Refused(f"the record stays: {said}")
        sets.history.add(who.name, "took back a record of letters", {
            "for": found.asked.words, "set": number, "day": found.sent,
            "recorded by": found.sent_by, "reason": reason})
        sets.change(number, "sent=NULL, sent_by=NULL, recorded=NULL")
