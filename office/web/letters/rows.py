"""The letters of a row of reminders or withdrawals: they are made by themselves once the row is
recorded, as the same children have them in any case.
"""
import datetime

from office.web.people.roles import Person

from . import sender as letters_sender
from .sets import PDF, Asked, Set, Sets
from .whom import ROW, Lists, Whom


def key_of(number: int) -> str:
    """By which the set of a row is known. (A form has another key, whatever it sends.)"""
    return f"row {number}"


def ask(sets: Sets, lists: Lists, who: Person, number: int, day: datetime.date) -> None:
    """Asks for the letters of a row, once, by the usual template; not where they would have the
    address of the example, with which nobody can send them.
    """
    template, sender = sets.templates.usual(), sets.sender.number
    if letters_sender.has_example(template.text, sender):
        return
    whom = Whom(ROW, str(number))
    row = lists.row(whom.value)
    withdrawn, copy = lists.withdrawal(whom)
    sets.ask(who, key_of(number), Asked(
        row.words, sorted(row.children), template.template, template.version, day.isoformat(), PDF,
        False, withdrawn.isoformat() if withdrawn else "", copy, sender))


def of_row(sets: Sets, number: int) -> Set | None:
    """The set that was made for a row, if there is one."""
    row = sets.store.row("SELECT id FROM letter_set WHERE key=?", key_of(number))
    return sets.get(row["id"]) if row else None
