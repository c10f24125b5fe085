"""What was done last with the staging table, as the address of the page after it names it: in
words, and what of it can be taken back.
"""
import dataclasses
from collections.abc import Sequence

from werkzeug.datastructures import MultiDict

from office.core import texts
from office.web.machinery import numbers

from . import mends
from .mends import Undoable
from .staging import Staging
from .table_check import Table

Args = MultiDict[str, str]


@dataclasses.dataclass(frozen=True)
class Last:
    """What was done, in words; the rows that were saved by it, and whether rows were stored."""

    text: str = ""
    saved: tuple[int, ...] = ()
    is_added: bool = False


def numbers_in(args: Args, name: str) -> tuple[int, ...]:
    """The rows that an address names."""
    return tuple(int(it) for it in args.getlist(name)
                 if it.isascii() and it.isdigit() and len(it) < 10)


def said_of_added(staging: Staging, entries: Sequence[int], out: int) -> str:
    """What is said of rows that were stored by entries of the history, and of those beside them
    that only left the table.
    """
    many = texts.count(staging.stored(entries), "application")
    said = [f"Added to the register: {many}."] if entries else []
    left = [f"{texts.count(out, 'row')} that the register had are out of the table."]
    return " ".join(said + left if out else said)


def last(staging: Staging, args: Args) -> Last:
    """What was done last."""
    out, aside, undone = (
        numbers.read(args.get(it, ""), 0) for it in ("out", "aside", "undone"))
    entries = numbers_in(args, "done")
    if entries or out:
        return Last(said_of_added(staging, entries, out), is_added=True)
    saved = numbers_in(args, "row")
    if aside:
        return Last(f"Set aside: {staging.row(aside).where}. It can be put back from the rows that"
                    " are set aside.", saved)
    if saved or "same" in args:
        return Last("" if saved else "No cell was changed, and nothing had to be saved.", saved)
    if undone:
        return Last(f"Undone: {texts.count(undone, 'row')} {'is' if undone == 1 else 'are'} as"
                    " before.")
    added = [it for it in staging.files() if str(it.id) in args.getlist("added")]
    return Last(" ".join(f"{it.name} is added: {texts.count(sum(it.counts.values()), 'row')}."
                         for it in added))


def said_of_saved(table: Table, saved: Sequence[int]) -> str:
    """What is said of rows that were saved."""
    found = [it for it in saved if it in table.rows]
    if not found:
        return ""
    many = sum(len(table.errors(it)) or table.is_wrong(it) for it in found)
    where, them = (table.rows[found[0]].staged.where, "it") if len(found) == 1 else (
        texts.count(len(found), "row"), "them")
    left = f"{texts.count(many, 'error')} left" if many else f"nothing is wrong in {them}"
    return f"Saved: {where}; {left}."


def undo_of(staging: Staging, args: Args) -> Undoable | None:
    """What can be taken back of what was done last."""
    found = (mends.undoable(staging, it) for it in numbers_in(args, "did")[:1])
    return next((it for it in found if it), None)
