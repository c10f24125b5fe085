"""The draws in the store: which there are, which one is in progress, and how one is brought from a
state to the next.
"""
import contextlib
import sqlite3
from collections.abc import Callable, Iterator

from register_files import Refused

from office.core import model
from office.web.machinery.steps import StepStore
from office.web.people.roles import Person
from office.web.register.desk import local
from office.web.register.history import History, now
from office.web.register.store import Store

from .made import Made
from .terms import CLOSED, CLOSING, ENDED, GIVEN_UP, HELD, Draw, Terms, of_rows

# the first entry of a draw in the history, and that of each save of its lots
BEGAN, SAVED = "began a draw", "saved lots"


class DrawStore(StepStore[Draw]):
    """The draws of one application. One is in progress at most."""

    table, called = "draw", "a round or offer"

    def __init__(self, store: Store, record: History) -> None:
        super().__init__(store, record)
        # what was made out of the register for the screens
        self.made = Made()
        # why no draw can begin, or ""
        self.closed_by_another: Callable[[], str] = str

    def get(self, number: int) -> Draw:
        """A draw."""
        row = self.store.row("SELECT * FROM draw WHERE id=?", number)
        if row is None:
            raise Refused("there is no such round or offer")
        return of_rows(row, self.steps_of(number))

    def listed(self) -> list[Draw]:
        """All draws, the last first."""
        return [of_rows(it, self.steps_of(it["id"]))
                for it in self.store.rows("SELECT * FROM draw ORDER BY id DESC")]

    def present(self) -> Draw | None:
        """The draw that is in progress, if there is one."""
        row = self.store.row("SELECT * FROM draw WHERE state NOT IN (?, ?, ?)", *ENDED)
        return of_rows(row, self.steps_of(row["id"])) if row else None

    def has_lots(self, draw: Draw) -> bool:
        """Whether a lot of a draw was ever saved: also where its cell is empty again, as somebody
        has seen it.
        """
        row = self.store.row("SELECT 1 FROM lot WHERE draw=? AND text<>''", draw.number)
        return bool(row or self.savers(draw))

    def savers(self, draw: Draw) -> list[str]:
        """Who has saved lots of a draw."""
        with self.history.lock:
            entries = list(self.history.entries)
        return list(dict.fromkeys(it.who for it in entries
                                  if it.what == SAVED and it.about.get("id") == draw.number))

    def given_up_before(self, draw: Draw) -> list[Draw]:
        """The draws that were given up before it with lots, until one is held: those of the same
        school, a round being one of all schools.
        """
        held: set[str | None] = set()
        found = []
        for it in self.listed():
            one, other = it.terms.school, draw.terms.school
            is_same = one is None or other is None or one == other
            if it.number >= draw.number:
                continue
            if it.state in HELD:
                held.add(one)
            elif it.state == GIVEN_UP and is_same and held.isdisjoint((None, one or other)) and (
                    self.has_lots(it)):
                found.append(it)
        return found

    def copy_before(self, draw: model.Draw) -> int | None:
        """The number of the copy from before a draw of the register, if it was held here, and was
        audited.
        """
        return self.copies_of(draw)[0]

    def copies_of(self, draw: model.Draw) -> tuple[int | None, int | None]:
        """The numbers of the copies from before and after such a draw."""
        row = self.store.row(
            "SELECT copy_before, copy_after FROM draw WHERE first<=? AND ?<first+fills AND school"
            " IS ? AND day=? AND state IN (?, ?) ORDER BY id DESC", draw.number, draw.number,
            draw.school, draw.day.isoformat(), *HELD)
        return (row["copy_before"], row["copy_after"]) if row else (None, None)

    def closed(self) -> str:
        """Why nobody else may send now, or ""."""
        draw = self.present()
        if draw is None or draw.state not in CLOSING:
            return ""
        done = draw.came_to(CLOSED)
        return f"Recording is paused for {draw.name} by {done.who} since {local(done.at)}."

    @contextlib.contextmanager
    def moving(
        self, found: Draw, who: Person, state: str, said: str = "", **columns: object
    ) -> Iterator[sqlite3.Connection]:
        """The same. What hindered the step before does not hinder the next one."""
        with super().moving(found, who, state, said, trouble=None, **columns) as db:
            yield db

    def halted(self, who: Person, draw: Draw, why: str) -> None:
        """Keeps why what follows by itself was not done, for all who look at the draw."""
        with contextlib.suppress(Refused):
            self.record(who, "could not go on", draw, why=why)
        with self.store.writing() as db:
            db.execute("UPDATE draw SET trouble=? WHERE id=? AND version=?",
                       (why, draw.number, draw.version))

    def record(self, who: Person, what: str, draw: Draw, **about: object) -> None:
        """Adds a step to the history, with what there is to say of it."""
        found = {name: it for name, it in about.items() if it}
        self.history.add(who.name, what, {"for": draw.name, "id": draw.number, **found})

    def added(
        self, who: Person, name: str, terms: Terms, state: str, repeats: Draw | None,
        other_lots: str,
    ) -> int:
        """Adds a draw, where none is in progress, and returns its number."""
        if other_lots and not repeats:
            raise Refused(f"{name} repeats none that was undone: its lots are drawn anyway")
        with self.lock:
            if other := self.present():
                raise Refused(f"{other.name} is in progress: it must end first")
            if said := self.closed_by_another():
                raise Refused(said.rstrip("."))
            day = terms.day.isoformat()
            about = {"for": name, "draw": terms.first, "day": day}
            if repeats:
                about["repeats"] = repeats.in_words
            if other_lots:
                about["other lots"] = other_lots
            self.history.add(who.name, BEGAN, about)
            with self.store.writing() as db:
                number = db.execute(
                    "INSERT INTO draw (name, first, school, fills, day, state, version, repeats,"
                    " other_lots) VALUES (?, ?, ?, ?, ?, ?, 1, ?, ?)",
                    (name, terms.first, terms.school, terms.fills, day, state,
                     repeats.number if repeats else None, other_lots)).lastrowid or 0
                db.execute("INSERT INTO draw_step VALUES (?, 1, ?, ?, ?, '')",
                           (number, now(), who.name, state))
            return number
