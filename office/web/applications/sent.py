"""What was typed on a page of the staging table: which rows were changed, and what came of each.
Each row is saved on its own: one that cannot be saved keeps none of the others out.
"""
import dataclasses
import json
from collections.abc import Iterable, Mapping

from register_files import Refused

from office.core import days, fields

from .rows import REMARK, Staged, too_long
from .staging import Staging

SEEN, MEANT = "seen-", "meant"


@dataclasses.dataclass(frozen=True)
class Typed:
    """A row as it was sent: in which version it was seen, which of its cells were fields, what they
    had, and what they have now; and whether it is its button of what is meant that was pressed.
    """

    number: int
    version: int
    seen: dict[str, str]
    cells: dict[str, str]
    is_meant: bool = False

    @property
    def is_changed(self) -> bool:
        """Whether anything was typed."""
        return self.is_meant or self.cells != self.seen


@dataclasses.dataclass(frozen=True)
class Refusal:
    """A row that was not saved: what was typed, how the row is called, and why; also by column."""

    typed: Typed
    where: str
    why: str
    wrong: dict[str, str]


@dataclasses.dataclass(frozen=True)
class Came:
    """What came of the rows of a page: those that were saved, and those that were not."""

    saved: dict[int, Staged]
    refused: dict[int, Refusal]


def name_of(column: str, number: int) -> str:
    """The name of the field of a cell."""
    return f"{column}-{number}"


def packed(version: int, cells: Mapping[str, str]) -> str:
    """What was seen of a row, as its form keeps it."""
    return json.dumps([version, cells], ensure_ascii=False, separators=(",", ":"))


def read(form: Mapping[str, str]) -> list[Typed]:
    """The rows of a page that was sent; a button of what is likely to be meant is as if it had been
    typed.
    """
    name, _, text = form.get(MEANT, "").partition("=")
    given = {**form, name: text} if name in form else dict(form)
    numbers = (it.removeprefix(SEEN) for it in given if it.startswith(SEEN))
    rows = [row_of(int(it), given) for it in numbers
            if it.isascii() and it.isdigit() and len(it) < 10]
    return [dataclasses.replace(it, is_meant=any(name == name_of(column, it.number)
                                                 for column in it.cells)) for it in rows]


def row_of(number: int, form: Mapping[str, str]) -> Typed:
    """One of them, or a refusal where its form is not as it was made."""
    try:
        version, seen = json.loads(form[f"{SEEN}{number}"])
        seen = {it: str(text) for it, text in seen.items() if it in (*fields.COLUMNS, REMARK)}
        cells = {it: form[name_of(it, number)] for it in seen}
        return Typed(number, int(version), seen, cells)
    except (ArithmeticError, AttributeError, KeyError, TypeError, ValueError,
            RecursionError) as error:
        raise Refused("the page did not arrive whole: load it again") from error


def save(staging: Staging, who: str, rows: Iterable[Typed], confirmed: int) -> Came:
    """Saves the rows that were changed, and the one that was confirmed as it is."""
    came = Came({}, {})
    for it in rows:
        if not it.is_changed and it.number != confirmed:
            continue
        try:
            came.saved[it.number] = staging.save(
                who, it.number, it.version, as_meant(it), it.number == confirmed)
        except Refused as error:
            came.refused[it.number] = refusal(staging, it, error)
    return came


def as_meant(it: Typed) -> dict[str, str]:
    """The cells as a person means them: a day that they type is day/month/year, as on each screen,
    in whichever way its file has days.
    """
    text = it.cells.get("day", "")
    found = days.uk_reading(text) if text != it.seen.get("day") else None
    return {**it.cells, "day": found.isoformat()} if found else it.cells


def move(staging: Staging, who: str, it: Typed, came: Came, state: str) -> None:
    """Sets a row aside, or puts it back, with what was typed in it; unless that could not be saved.
    """
    if it.number in came.refused:
        return
    saved = came.saved.pop(it.number, None)
    try:
        staging.move(who, [(it.number, saved.version if saved else it.version)], state)
    except Refused as error:
        came.refused[it.number] = refusal(staging, it, error)


def refusal(staging: Staging, it: Typed, error: Refused) -> Refusal:
    """Why a row was not saved."""
    try:
        where = staging.row(it.number).where
    except Refused:
        where = "a row that is not in the table"
    long = {column: said for column, text in it.cells.items() if (said := too_long(text))}
    return Refusal(it, where, str(error), long)
