"""Saved views: choices of a list that a person has given a name, to come back to them."""
import dataclasses

from register_files import Refused

from office.core import texts
from office.web.register.store import Store

MOST_VIEWS, MOST_NAME, MOST_ADDRESS = 100, 80, 2000


@dataclasses.dataclass(frozen=True)
class View:
    """A view: its number, its name, the list that it is of, and what the address chooses."""

    number: int
    title: str
    name: str
    address: str


class Views:
    """The saved views, each of one person."""

    def __init__(self, store: Store) -> None:
        self.store = store

    def of(self, person: str) -> list[View]:
        """Those of a person, by their names."""
        rows = self.store.rows("SELECT * FROM list_view WHERE person=?", person)
        found = [View(it["number"], it["title"], it["list"], it["address"]) for it in rows]
        return sorted(found, key=lambda it: (texts.folded(it.title), it.title))

    def save(self, person: str, title: str, name: str, address: str) -> None:
        """Saves a view; one of the same name is replaced."""
        if not title or len(title) > MOST_NAME or not texts.is_shown(title):
            raise Refused(f"a name has 1 to {MOST_NAME} characters that can be seen")
        if len(address) > MOST_ADDRESS:
            raise Refused("the choice is too long to be saved: choose fewer words")
        with self.store.writing() as db:
            db.execute("DELETE FROM list_view WHERE person=? AND title=?", (person, title))
            if len(self.of(person)) >= MOST_VIEWS:
                raise Refused(f"there are {MOST_VIEWS} views already: remove one first")
            db.execute("INSERT INTO list_view (person, title, list, address) VALUES (?, ?, ?, ?)",
                       (person, title, name, address))

    def remove(self, person: str, number: int) -> str:
        """Removes a view, and returns its name."""
        with self.store.writing() as db:
            found = self.store.row("SELECT title FROM list_view WHERE person=? AND number=?",
                                   person, number)
            if found is None:
                raise Refused("the view is not there any more")
            db.execute("DELETE FROM list_view WHERE number=?", (number,))
            return str(found["title"])
