"""What the history has of a child, in words: who recorded what and when, and what came of it; with
the draws in which the child took part.
"""
import dataclasses
import datetime
from collections.abc import Mapping, Sequence
from typing import Any

from office.core import commands, days, effects
from office.core.command_kinds import DRAWS, KINDS, NOTES, WHOLE, day_in
from office.core.model import Register
from office.core.wording import draw_in_words, moment, sentence

from . import entry_words, lineage
from .entry_words import Names
from .history import ANSWER, RESTORED, SENDS, SETTLED, Entry, History, says_done

Command = Mapping[str, Any]


# what is said of a child by another entry already
LEFT_OUT = ("records reminders", "records withdrawals", "made letters",
            "stored addresses for letters")


@dataclasses.dataclass(frozen=True)
class Record:
    """What was done: the moment in UTC, or the day of a draw that the history has not; by whom;
    what; and what changed, or why it was not done.
    """

    at: str
    who: str
    what: str
    more: str
    is_done: bool

    @property
    def when(self) -> str:
        """When it was: the moment, or the day alone where no more is known."""
        if "T" in self.at:
            return moment(self.at)
        return days.in_words(datetime.date.fromisoformat(self.at))

    @property
    def kind(self) -> str:
        """Its colour."""
        return "info" if self.is_done else "bad"


def in_words(command: Command, names: Names = Names()) -> str:
    """What a command records of a child, within a sentence."""
    found = entry_words.command_title(command, names)
    return found[:1].lower() + found[1:]


def came_of(entry: Entry, ends: Mapping[int, Entry]) -> tuple[str, bool]:
    """What came of a request, and whether it is done, by the ends of several."""
    return came(entry, ends.get(entry.number))


def came(entry: Entry, end: Entry | None) -> tuple[str, bool]:
    """What came of a request, and whether it is done."""
    if end is None:
        return "no answer yet", False
    if end.what == RESTORED:
        return f"done, and undone when copy {end.about['copy']} was restored", False
    if end.what != ANSWER:
        is_done = bool(end.about["done"])
        return ("done, as the register shows" if is_done else "not done"), is_done
    answer = end.about["answer"]
    if commands.is_done(answer):
        return "done", True
    said = commands.in_words(answer, entry.about.get("command"))
    return sentence(entry_words.in_short(said)), False


def row_in(rows: str, number: int) -> dict[str, str] | None:
    """The row of a child in an import, if it has one."""
    text = str(number)
    if text not in rows:
        return None
    return next((it for it in effects.rows_of(rows) if it.get("child") == text), None)


def ends_of(entries: Sequence[Entry]) -> dict[int, Entry]:
    """What came of the requests, by their numbers: of those that are done and undone the restore.
    """
    found = {it.about["of"]: it for it in entries if it.what in (ANSWER, SETTLED)}
    restores = [(it.number, it.about["position"]) for it in entries if it.what == RESTORED]
    if restores:
        there = lineage.of(restores, len(entries))
        for number in [at for at, it in found.items() if at not in there and says_done(it)]:
            by = lineage.undone_by(restores, number)
            found[number] = entries[by - 1] if by else found[number]
    return found


def first_by(entry: Entry) -> str:
    """Who recorded first what was sent again after a restore, or ""."""
    first = entry.about.get("again") if entry.what == SENDS else None
    return f", recorded first by {first['who']} on {moment(first['at'])}" if first else ""


def before(history: History, entry: Entry) -> Command | None:
    """The details of a child as the history has them from before a correction, if it does."""
    number = entry.about["command"]["child"]
    for it in reversed(history.of_child(number)):
        if it.what == SENDS and it.number < entry.number:
            command = it.about.get("command", {})
            if command.get("cmd") in WHOLE or "import" in it.about:
                if came(it, history.end(it.number))[1]:
                    return command or row_in(it.about["import"], number)
    return None


def more_of(history: History, entry: Entry, names: Names) -> str:
    """What an entry says beside its title, with who recorded first what was sent again."""
    is_correction = entry.about.get("command", {}).get("cmd") == "amend"
    found = before(history, entry) if is_correction else None
    return entry_words.more_of(entry, names, found) + first_by(entry)


def result(history: History, entry: Entry) -> tuple[str, bool]:
    """What came of an entry: of a request what the register answered; anything else is done."""
    if entry.what != SENDS:
        return "", True
    return came(entry, history.end(entry.number))


def of_child(
    history: History, register: Register, number: int, names: Names, may_notes: bool = True,
) -> list[Record]:
    """The records of a child, the last first; notes for those who may see them."""
    found = list[Record]()
    draws = {it.about["command"]["draw"]: it for it in list(history.entries)
             if it.what == SENDS and it.about.get("command", {}).get("cmd") in DRAWS
             and result(history, it)[1]}
    for it in history.of_child(number):
        kind = entry_words.form_of(it)[0]
        if it.what in LEFT_OUT or (kind == NOTES and not may_notes):
            continue
        came_to, is_done = result(history, it)
        lines = [of_row(it, number) if "import" in it.about else more_of(history, it, names),
                 "" if came_to == "done" else sentence(came_to)]
        found.append(Record(it.at, it.who, entry_words.title_of(it, names, True),
                            ". ".join(filter(None, lines)), is_done))
    found += [of_draw(register, at, number, draws.get(at)) for at, outcomes
              in register.outcomes.items() if number in outcomes]
    return sorted(found, key=lambda it: it.at, reverse=True)


def of_row(entry: Entry, number: int) -> str:
    """What an import has of one child."""
    row = row_in(entry.about["import"], number) or {}
    listed = (row.get("preferences") or "").replace(";", ", ")
    point = points_in(entry).get(str(number))
    return (f"Application of {day_in(row)}: {listed}{f'; home: {point}' if point else ''}"
            f"{first_by(entry)}")


def of_draw(register: Register, at: int, number: int, entry: Entry | None) -> Record:
    """What a draw gave a child."""
    draw, code = register.draws[at - 1], register.outcomes[at][number]
    came_to = "no place"
    if code is not None:
        school = register.schools[code].name
        came_to = f"{'offered' if register.fresh[at][number] else 'kept'} {school}"
    # (of another draw of this number, before a copy was restored, nothing is said)
    is_this = entry is not None and entry.about["command"]["day"] == draw.day.isoformat()
    when = entry.at if entry and is_this else draw.day.isoformat()
    who = entry.who if entry and is_this else ""
    words = draw_in_words(draw)
    return Record(when, who, f"{words[:1].upper()}{words[1:]}: {came_to}",
                  f"Dated {days.in_words(draw.day)}", True)


def points_in(entry: Entry) -> Mapping[str, str]:
    """Where the points of an import came from, by the children's numbers."""
    found: Mapping[str, str] = entry.about.get("points", {})
    return found


def point_of(history: History, number: int) -> str:
    """Where the point of a child's home came from, as it was recorded last, or ""."""
    found, at = "", (0, 0)
    for it in reversed(list(history.done())):
        command = it.about.get("command", {})
        if source := points_in(it).get(str(number)):
            row = row_in(it.about["import"], number) or {}
            found, at = source, (int(row.get("east", 0)), int(row.get("north", 0)))
        elif command.get("child") == number and command["cmd"] in WHOLE:
            was, at = at, (command["east"], command["north"])
            # (a correction that was made elsewhere may have moved the home, or not)
            found = it.about.get("point") or (found if was == at else "")
    return found


def last_of(history: History, who: str, number: int, names: Names) -> str:
    """What somebody recorded of a child last, in a sentence, or ""."""
    for it in reversed(history.of_child(number)):
        if it.who == who and it.about.get("command"):
            came_to, is_done = came(it, history.end(it.number))
            said = in_words(it.about["command"], names)
            return f"Recorded: {said}." if is_done else f"Not recorded: {said}. {came_to}"
    return ""


def ended_by(history: History, number: int, code: str) -> str:
    """How a child lost a school: declined, its offer withdrawn, or left, as the history has it."""
    for it in reversed(history.of_child(number)):
        command = it.about.get("command", {})
        if command.get("school") == code and (ended := KINDS[command["cmd"]].ended):
            if came(it, history.end(it.number))[1]:
                return ended
    return ""
