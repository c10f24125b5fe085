"""The worklists: their names, what each says, the options that it takes, and its rows."""
import csv
import dataclasses
import datetime
import io
from collections.abc import Callable, Mapping
from typing import Any

from register_files import Refused

from office.core import days, texts
from office.core.model import Register
from office.files import book

from . import draw_rows, register_rows
from .register_rows import Rows

# a worklist that takes one of these is of one child or one draw
SINGLE = {"child", "draw", "round", "text"}


@dataclasses.dataclass(frozen=True)
class Worklist:
    """What a worklist says; the options that it takes; what makes it of a register and their
    values, in this order; and those options without which it cannot be made.
    """

    purpose: str
    taken: tuple[str, ...]
    rows: Callable[..., Rows]
    required: tuple[str, ...] = ()


WORKLISTS = {
    "child": Worklist(
        "what one child listed and has: each school of its list, how it ranks there and what became"
        " of it", ("child",), register_rows.child, ("child",)),
    "children": Worklist(
        "all children: when they applied, and what they have", (), register_rows.children),
    "draws": Worklist(
        "the rounds and offers: their days, their lots, and how many children were offered a place,"
        " kept theirs or have none", (), draw_rows.draws),
    "equal-at-limit": Worklist(
        "where only the lot decided: the children who were equal to the last child offered a place"
        " at a school, by criterion and distance", (), draw_rows.equal_at_limit),
    "find": Worklist(
        "the children whose names have all the words; if there is none, those with similar names",
        ("text",), register_rows.find, ("text",)),
    "interest": Worklist(
        "what families want: how many list each school, as which preference, how many of them"
        " applied late, and how many need a lot in the next round", (), register_rows.interest),
    "lapse-due": Worklist(
        "whose offer may be withdrawn on a day: no answer by the end of the"
        f" {days.NOTICE.days}th day after the reminder", ("day",), register_rows.lapse_due),
    "last-offered": Worklist(
        "the criterion, the distance and the lot of the last child that was offered a place at each"
        " school each time, and how many were", (), draw_rows.last_offered),
    "list": Worklist(
        "the waiting lists, or that of one school: positions, names, criteria met and distances",
        ("school",), register_rows.waiting),
    "lots": Worklist(
        "the lots of a round or offer beside the children, school by school, and what each was"
        " allotted in it", ("draw",), draw_rows.lots, ("draw",)),
    "moved": Worklist(
        "whom a round or offer moved from which school to which", ("draw",), draw_rows.moved,
        ("draw",)),
    "no-answer": Worklist(
        "who has not answered an offer, since when, and when they were reminded", (),
        register_rows.no_answer),
    "preferences": Worklist(
        "how many children each round left with their first, second, .. preference, or with none",
        (), draw_rows.preferences),
    "remind-due": Worklist(
        f"who is due for a reminder on a day: no answer by the end of the {days.NOTICE.days}th day"
        " after the offer", ("day",), register_rows.remind_due),
    "round-report": Worklist(
        "the result of a round for each child that took part, with names", ("round",),
        draw_rows.round_report, ("round",)),
    "season": Worklist(
        "the days of the season, and what the register has so far", (), register_rows.season),
    "unplaced": Worklist(
        "children without a place: when they applied, for what, and where they wait", (),
        register_rows.unplaced),
    "vacancies": Worklist(
        "each school's places: its admission number, what is held by whom, what is vacant, and how"
        " many wait", (), register_rows.vacancies),
}


def is_whole(name: str, options: Mapping[str, Any]) -> bool:
    """Whether a worklist can be made of these options."""
    return all(options.get(it) is not None for it in WORKLISTS[name].required)


def see_day(register: Register, day: datetime.date) -> None:
    """Refuses a day on which nobody can be due, because no offer was made by then: its year may be
    wrong.
    """
    if register.draws and day < register.draws[0].day:
        raise Refused(f"nobody had an offer on {days.in_words(day)}: the first round was on"
                      f" {days.in_words(register.draws[0].day)}")


def rows_of(register: Register, name: str, options: Mapping[str, Any]) -> Rows:
    """The rows of a worklist."""
    found = WORKLISTS[name]
    return found.rows(register, *(options.get(it) for it in found.taken))


def csv_text(rows: Rows) -> str:
    """Rows as CSV for a spreadsheet: with a byte order mark, by which it reads names as Tŷ, and an
    apostrophe before a text that it would take for a formula.
    """
    out = io.StringIO()
    csv.writer(out, lineterminator="\n").writerows(
        [texts.for_spreadsheet(it) if isinstance(it, str) else it for it in row] for row in rows)
    return "\ufeff" + out.getvalue()


def pages(register: Register, day: datetime.date) -> list[book.Page]:
    """The worklists of a register on a day as sheets, the season first, each with what it says."""
    names = [name for name, it in WORKLISTS.items() if not SINGLE & set(it.taken)]
    names.sort(key=lambda it: it != "season")
    return [book.Page(name, WORKLISTS[name].purpose, rows_of(register, name, {"day": day}))
            for name in names]
