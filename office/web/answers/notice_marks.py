"""What is said beside a child on the list of reminders or withdrawals: looked after, an answer that
waits in a batch, and a reminder whose letter is not recorded as sent.
"""
import datetime

from office.core import days
from office.core.command_kinds import ANSWERS
from office.core.model import Register
from office.web.letters.whom import Lists, about_of
from office.web.machinery.outbox import DONE
from office.web.register.store import Store

from . import entries

UNREAD = "Nothing was recorded: read what looks wrong, and tick that it is right."


def waiting(store: Store) -> dict[int, str]:
    """The children whose answer waits in a batch, with whose it is and which."""
    rows = store.rows("SELECT child, person, kind FROM answer WHERE state<>? AND child IS NOT NULL"
                      " ORDER BY number", DONE)
    return {it["child"]: f"{it['person']} has an answer for this child in a batch"
            f" ({ANSWERS[it['kind']] if it['kind'] else 'not understood'})" for it in rows}


class Marks:
    """The marks of all children as they are now."""

    def __init__(self, lists: Lists, register: Register) -> None:
        self.register, self.waiting = register, waiting(lists.store)
        self.sent = lists.earlier("sent IS NOT NULL")
        self.possible: dict[int, str] = {}
        names = entries.Names(register)
        for it in lists.store.rows(
                "SELECT person, name FROM answer WHERE state<>? AND child IS NULL", DONE):
            self.possible |= {child: f"{it['person']} has an answer in a batch that may be of this"
                              " child" for child in names.matches(it["name"])}

    def answered(self, child: int) -> str:
        """Why an answer of a child may wait in a batch, or ""."""
        return self.waiting.get(child, "") or self.possible.get(child, "")

    def of(self, child: int) -> tuple[str, ...]:
        """What is said of a child."""
        found = ["looked after, or was"] if self.register.children[child].looked_after else []
        if said := self.answered(child):
            found.append(said)
        if day := self.unsent(child):
            found.append(f"the letter of the reminder of {days.in_words(day)} is not recorded as"
                         " sent")
        return tuple(found)

    def unsent(self, child: int) -> datetime.date | None:
        """The day of a child's reminder whose letter is not recorded as sent."""
        place = self.register.places.get(child)
        if place is None or place.reminded is None:
            return None
        is_sent = (child, about_of(self.register, child, None).key) in self.sent
        return None if is_sent else place.reminded
