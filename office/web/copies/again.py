"""Sending again what came since a copy that was restored: one request after another, in the first
order, each once.
"""
from collections.abc import Collection, Mapping

from register_files import Refused

from office.web.machinery.outbox import WAITS, Outbox, Request
from office.web.people.roles import Person
from office.web.register.desk import again_of
from office.web.register.history import Entry

from .rehearsal import WOULD
from .terms import LATER, REFUSED, Again, Restore


class Sending(Outbox[Again]):
    """What came since the copies of restores, in the store, in its first order."""

    kind, item, refused = "again", Again, REFUSED

    def rows(self, restore: Restore) -> list[Again]:
        """What came since the copy."""
        return self.of(restore.number)

    def entry(self, row: Again) -> Entry:
        """The entry of the history."""
        return self.desk.history.entries[row.entry - 1]

    def request(self, it: Again) -> Request:
        """What the history has of it when it is sent again."""
        return again_of(self.entry(it))

    def choose_first(self, restore: Restore, came: Mapping[int, str]) -> None:
        """Chooses those that would be stored; what would not is for later."""
        with self.store.writing():
            for it in self.rows(restore):
                if said := came.get(it.entry, ""):
                    self.mark(it, said == WOULD, said, WAITS if said == WOULD else LATER)

    def choose(self, restore: Restore, chosen: Mapping[int, str]) -> None:
        """Keeps which of them are to be sent, and what would become of each. What is for later
        stays so unless it is chosen.
        """
        for it in self.rows(restore):
            if it.entry in chosen or it.state != LATER:
                self.mark(it, it.entry in chosen, chosen.get(it.entry, ""))

    def choose_later(self, restore: Restore, chosen: Collection[int]) -> None:
        """Keeps which of those that were not stored are to be sent now."""
        for it in self.rows(restore):
            if it.entry in chosen or it.state == WAITS:
                self.mark(it, it.entry in chosen, "" if it.entry in chosen else it.said)

    def mark(self, it: Again, is_chosen: bool, said: str, state: str = WAITS) -> None:
        """Keeps whether one is to be sent."""
        with self.store.writing() as db:
            db.execute("UPDATE sending SET about=json_set(about, '$.is_chosen', ?), state=?, said=?"
                       " WHERE number=?", (int(is_chosen), state, said, it.number))

    def send_chosen(self, who: Person, restore: Restore, is_closed: bool) -> bool:
        """Sends those that are chosen and wait, and returns whether that is all, as it is unless
        the application ends; or a refusal where nothing can be sent now.
        """
        self.settle(restore.number)
        chosen = [it for it in self.rows(restore) if it.is_chosen]
        if left := self.send(who, chosen, is_closed):
            raise Refused(left.said)
        return not any(it.is_chosen and it.state == WAITS for it in self.rows(restore))
