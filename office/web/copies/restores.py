"""Restores of copies outside a draw, as a state machine in the store: from the close of the
register until it is open for all again. Each step is on record before it is done, and a crash
leaves a restore in the state before the step or after it.
"""
import contextlib
import datetime
import sqlite3
from collections.abc import Callable, Iterable, Iterator

from register_files import Refused

from office.core import plain, texts
from office.core.model import Register
from office.web.applications.imports import digest_of
from office.web.applications.rows import COMMITTED, OPEN
from office.web.machinery.jobs import Jobs
from office.web.machinery.outbox import DONE, WAITS
from office.web.machinery.step_jobs import StepJobs
from office.web.machinery.steps import StepStore
from office.web.people.roles import Person
from office.web.register.desk import Desk, local
from office.web.register.history import Entry, History
from office.web.register.history import RESTORED as IS_COPY
from office.web.register.store import Store
from office.web.rounds import second as draws_second
from office.web.rounds.draws import STEADY, Draws
from office.web.rounds.second import Case

from . import rehearsal
from . import draws as restores_draws
from . import since as restores_since
from .again import Sending
from .copies import RESTORE, Copies, is_same
from .since import Difference
from .terms import (
    ASKED, BROUGHT, CLOSED, CONFIRMED, COPIED, GIVEN_UP, LATER, OPENED, REFUSED, RESTORED,
    RESTORING, SENT, UNTOUCHED, Again, Restore, of_rows,
)

# the first entry of a restore in the history, and that before the machine is asked
BEGAN, RESTORES = "began a restore", "restores"
IN_TABLE = "its applications are in the table of Applications again: store them there"


class Restores(StepStore[Restore]):
    """The restores of one application. One is in progress at most, and no draw beside it."""

    table, called = "restore", "a restore"

    def __init__(
        self, store: Store, record: History, desk: Desk, jobs: Jobs, copies: Copies, draws: Draws
    ) -> None:
        super().__init__(store, record)
        self.desk, self.copies, self.draws = desk, copies, draws
        # (so that no draw begins while a restore does)
        self.lock = draws.lock
        self.sending = Sending(store, desk, jobs)
        # why no restore can begin, or ""
        self.closed_by_another: Callable[[], str] = str

    def get(self, number: int) -> Restore:
        """A restore."""
        row = self.store.row("SELECT * FROM restore WHERE id=?", number)
        if row is None:
            raise Refused("there is no such restore")
        return of_rows(row, self.steps_of(number))

    def listed(self) -> list[Restore]:
        """All restores, the last first."""
        return [of_rows(it, self.steps_of(it["id"]))
                for it in self.store.rows("SELECT * FROM restore ORDER BY id DESC")]

    def present(self) -> Restore | None:
        """The restore that is in progress, if there is one."""
        row = self.store.row(
            "SELECT * FROM restore WHERE state NOT IN (?, ?)", OPENED, GIVEN_UP)
        return of_rows(row, self.steps_of(row["id"])) if row else None

    def closed(self) -> str:
        """Why nobody else may send now, or ""."""
        found = self.present()
        if found is None:
            return ""
        first = found.done[0]
        return (f"Recording is paused for the restore of copy {found.copy} by {first.who} since"
                f" {local(first.at)}.")

    def record(self, who: Person, what: str, restore: Restore, **about: object) -> None:
        """Adds a step to the history, with what there is to say of it."""
        found = {name: it for name, it in about.items() if it}
        self.history.add(who.name, what, {"copy": restore.copy, "restore": restore.number, **found})

    @contextlib.contextmanager
    def step(self, number: int, seen: int, *states: str) -> Iterator[Restore]:
        """A restore in one of these states, whose step nothing that is sent comes between."""
        try:
            with self.turn(number, seen, *states) as found, self.desk.lock:
                yield found
        except sqlite3.Error as error:
            raise Refused("the application cannot use its own file:"
                          f" {plain.reason(error)}") from error
        except OSError as error:
            raise Refused(f"the machine does not let it: {plain.reason(error)}") from error

    # what is shown

    def since(self, copy: int) -> list[Entry]:
        """What came since a copy, in its order."""
        return restores_since.since(self.history, self.copies.position(copy))

    def lost(self, copy: int, register: Register) -> list[Difference]:
        """What a register has otherwise than a copy."""
        return restores_since.differences(register, self.copies.register(copy))

    # the steps before the register is touched

    def begin(self, who: Person, copy: int, draw: int | None = None) -> int:
        """Closes the register for all others to restore a copy, which must be whole, and returns
        the number of the restore. What is in flight is ended first.
        """
        with self.lock, self.desk.lock:
            if other := self.present():
                raise Refused(f"the restore of copy {other.copy} is in progress: it must end first")
            if said := self.closed_by_another():
                raise Refused(said.rstrip("."))
            if other_draw := self.draws.present():
                raise Refused(f"{other_draw.name} is in progress: it must end or be cancelled"
                              " first")
            self.copies.register(copy)
            self.desk.settle()
            self.desk.now()
            found = self.since(copy)
            self.history.add(who.name, BEGAN, {"copy": copy, **({"draw": draw} if draw else {})})
            return self.added(who, copy, draw, found)

    def added(self, who: Person, copy: int, draw: int | None, found: Iterable[Entry]) -> int:
        """Adds a restore with what came since its copy, and returns its number."""
        with self.store.writing() as db:
            number = db.execute(
                "INSERT INTO restore (copy, state, version, draw) VALUES (?, ?, 0, ?)",
                (copy, CLOSED, draw)).lastrowid or 0
            for it in found:
                self.sending.put(number, it.number, {"is_chosen": 0})
            with self.moving(self.get(number), who, CLOSED):
                pass
        return number

    def choose_first(self, number: int) -> None:
        """Where a draw was wrong, chooses all that came since but for draws, and for what the copy
        refuses: that rests on the draw, and is for later.
        """
        with self.step(number, self.get(number).version, CLOSED) as found:
            entries = map(self.sending.entry, self.sending.rows(found))
            self.sending.choose_first(found, rehearsal.tried(
                self.copies.path(found.copy),
                [it for it in entries if not restores_since.why_not(it)]))

    def bring(
        self, who: Person, copy: int, name: str, since: datetime.datetime, said: str = ""
    ) -> list[Entry]:
        """Records that IT support has made the register that of a file among the copies, which is
        as at a moment. What came since waits, with recording paused, to be sent again: also what
        had no answer, and what a restore that is in progress has not sent yet, which ends. Returns
        these entries.
        """
        with self.lock, self.desk.lock:
            after, present = position_at(self.history, since), self.present()
            left = self.sending.rows(present) if present else []
            numbers = {it.entry for it in left if it.state not in (DONE, REFUSED)}
            numbers.update(it.number for it in restores_since.since(self.history, after))
            numbers.update(it.number for it in self.history.open_requests())
            found = [self.history.entries[it - 1] for it in sorted(numbers) if it > after]
            self.copies.take(copy, name, since, after)
            with self.store.writing() as db:
                if present:
                    with self.moving(present, who, GIVEN_UP, "IT support has restored a copy."):
                        pass
                number = db.execute("INSERT INTO restore (copy, state, version) VALUES (?, ?, 0)",
                                    (copy, BROUGHT)).lastrowid or 0
                for it in found:
                    is_chosen = not restores_since.why_not(it, True)
                    self.sending.put(number, it.number, {"is_chosen": int(is_chosen)})
                with self.moving(self.get(number), who, BROUGHT, said):
                    pass
                with self.moving(self.get(number), who, CLOSED if found else OPENED):
                    pass
            self.record(who, RESTORES, self.get(number))
            self.history.add(who.name, IS_COPY, {"copy": copy, "position": after})
            if self.draws.listed():
                restores_draws.mark(self.draws, who, self.copies.register(copy), copy)
            return found

    def ask(self, who: Person, number: int, seen: int, chosen: Iterable[int]) -> None:
        """Asks for the restore, with what is to be sent again of what came since."""
        with self.step(number, seen, CLOSED) as found:
            draws_second.see(self.history, who, case_of(found), STEADY)
            wanted = set(chosen)
            rows = self.sending.rows(found)
            if unknown := wanted - {it.entry for it in rows}:
                raise Refused(f"{texts.count(len(unknown), 'entry', 'entries')} did not come since"
                              " the copy")
            entries = [self.sending.entry(it) for it in rows if it.entry in wanted]
            if any(restores_since.why_not(it, found.is_brought) for it in entries):
                raise Refused("a round or an offer is not sent again: it is run again on the screen"
                              " Rounds")
            tried = rehearsal.tried(self.copies.path(found.copy), entries)
            self.record(who, "asked to restore", found, entries=sorted(wanted))
            said = f"{len(wanted):,} of {texts.count(len(rows), 'entry', 'entries')} again."
            with self.moving(found, who, ASKED, said):
                self.sending.choose(found, tried)

    def choose_again(self, who: Person, number: int, seen: int) -> None:
        """Takes back that the copy is to be restored: something else is to be chosen."""
        with self.step(number, seen, ASKED) as found:
            self.record(who, "took back the restore", found)
            with self.moving(found, who, CLOSED, "Chosen once more."):
                pass

    def confirm(self, who: Person, number: int, seen: int) -> None:
        """Confirms the restore, as a second person."""
        with self.step(number, seen, ASKED) as found:
            draws_second.see(self.history, who, case_of(found), "somebody else confirms it")
            self.copies.register(found.copy)
            self.record(who, "confirmed the restore", found)
            with self.moving(found, who, RESTORED if found.is_brought else CONFIRMED):
                pass

    def copy(self, who: Person, number: int, seen: int) -> None:
        """Copies what is there, by which the restore can be undone."""
        with self.step(number, seen, CONFIRMED) as found:
            self.record(who, "copied the register", found)
            copy = self.copies.make(f"before copy {found.copy} was restored", who.name)
            with self.moving(found, who, COPIED, f"Copy {copy}.", copy_before=copy):
                pass

    # the restore and what follows

    def restore(self, who: Person, number: int, seen: int) -> None:
        """Makes the register that of the copy. Where that was begun and not ended, it is done once
        more: the outcome is the same.
        """
        with self.step(number, seen, COPIED, RESTORING) as found:
            if found.state == COPIED:
                self.copies.register(found.copy)
                self.record(who, RESTORES, found)
                with self.moving(found, who, RESTORING):
                    pass
                found = self.get(number)
            self.copies.restore(found.copy, who.name)
            register = self.copies.register(found.copy)
            with self.moving(found, who, RESTORED, f"The register is that of copy {found.copy}."):
                restores_draws.mark(self.draws, who, register, found.copy)

    def send_again(self, who: Person, number: int, seen: int) -> None:
        """Sends what was chosen, each once."""
        with self.step(number, seen, RESTORED) as found:
            if not self.sending.send_chosen(who, found, True):
                return
            done, all_of = self.counts(self.sending.rows(found))
            self.record(who, "sent again", found, done=done, chosen=all_of)
            if found.is_brought:
                restores_draws.mark(self.draws, who, self.desk.now(), found.copy)
            with self.moving(found, who, SENT, f"{done:,} of {all_of:,} recorded."):
                pass

    def counts(self, rows: Iterable[Again]) -> tuple[int, int]:
        """How many of those that are chosen are done, and how many are chosen."""
        chosen = [it for it in rows if it.is_chosen]
        return sum(it.state == DONE for it in chosen), len(chosen)

    def open(self, who: Person, number: int, seen: int) -> None:
        """Opens the register for all. What was not sent may be sent later."""
        with self.step(number, seen, RESTORED, SENT) as found:
            self.sending.settle(found.number)
            rows = self.sending.rows(found)
            done, all_of = self.counts(rows)
            self.record(who, "opened the register", found, done=done, chosen=all_of)
            with self.moving(found, who, OPENED, f"{done:,} of {all_of:,} sent again.") as db:
                mark_staged(db, rows)

    def after(self, who: Person, number: int) -> None:
        """Goes on after a step that a person has done, until somebody has to decide. What cannot be
        done is refused: the restore is in the state before it, and its page has the button.
        """
        steps = {COPIED: self.copy, RESTORED: self.restore, SENT: self.send_again,
                 OPENED: self.open}
        while (found := self.get(number)).state in found.states.followed():
            state = found.states.next(found.state)
            if not state or state.name == OPENED and self.is_to_read(found):
                return
            steps[state.name](who, number, found.version)
            if self.get(number).version == found.version:
                return

    def is_to_read(self, restore: Restore) -> bool:
        """Whether something that was chosen is not stored: somebody reads that before the register
        is opened.
        """
        done, all_of = self.counts(self.sending.rows(restore))
        return done != all_of

    def give_up(self, who: Person, number: int, seen: int) -> None:
        """Ends a restore before the register was touched, and opens it."""
        with self.step(number, seen, *UNTOUCHED, RESTORING) as found:
            if found.is_brought:
                raise Refused("the register is that of the copy already: ask with nothing ticked")
            if found.state == RESTORING:
                self.copies.end_request(RESTORE)
                if not is_same(self.desk.now(), self.copies.register(found.before or 0)):
                    raise Refused("the register is not as it was any more: go on with the restore")
            self.record(who, "gave up", found)
            with self.moving(found, who, GIVEN_UP, f"In the state '{found.state}'."):
                pass

    def send_later(self, who: Person, number: int, seen: int, chosen: Iterable[int]) -> None:
        """Sends what was not stored, once the register is open: as answers to the offers of a draw
        that was held anew. Nothing of a child for which somebody has recorded something since.
        """
        with self.step(number, seen, OPENED) as found:
            wanted = set(chosen)
            may = self.later(found)
            for entry in sorted(wanted):
                if said := may.get(entry, "this did not come since the copy"):
                    raise Refused(said)
            self.record(who, "sends again", found, entries=sorted(wanted))
            with self.store.writing():
                self.sending.choose_later(found, wanted)
            self.sending.send_chosen(who, found, False)
            done, _ = self.counts(self.sending.rows(found))
            with self.moving(found, who, OPENED, f"{done:,} sent again.") as db:
                mark_staged(db, self.sending.rows(found))

    def later(self, restore: Restore) -> dict[int, str]:
        """What was not stored again, by its entry: why it cannot be sent now, or ""."""
        rows = [it for it in self.sending.rows(restore) if it.state in (WAITS, LATER, REFUSED)]
        there, end = self.history.lineage(), restored_at(self.history, restore)
        since = {child_of(it): it for it in self.history.done()
                 if it.number > end and "again" not in it.about}
        found: dict[int, str] = {}
        for row in rows:
            entry = self.sending.entry(row)
            other = since.get(child_of(entry)) if child_of(entry) is not None else None
            found[row.entry] = restores_since.why_not(entry)
            if row.entry in there:
                found[row.entry] = "the register has it, since a later copy was restored"
            elif self.is_in_table(entry):
                found[row.entry] = IN_TABLE
            elif other:
                found[row.entry] = (f"child {child_of(other)}: {other.who} has recorded something"
                                    f" since, at {local(other.at)}. Record this by hand")
        return found

    def is_in_table(self, entry: Entry) -> bool:
        """Whether rows that an import has stored were given back to the table."""
        rows: str = entry.about.get("import", "")
        return bool(rows) and self.store.row(
            "SELECT 1 FROM staged_row WHERE state=? AND sent LIKE ?", OPEN,
            f"% {digest_of(rows.encode())}") is not None


class Restoring(StepJobs):
    """The restores of one application as jobs."""

    def __init__(self, restores: Restores, jobs: Jobs) -> None:
        super().__init__("restore", jobs)
        self.restores = restores

    def after(self, who: Person, number: int) -> None:
        """Does what follows a step by itself."""
        self.restores.after(who, number)


def case_of(restore: Restore) -> Case:
    """What a second person confirms, and who has asked for it."""
    asker = restore.came_to(ASKED).who if restore.state == ASKED else ""
    others = {asker: "has asked for the restore"} if asker else {}
    # (after a machine was lost IT support may have to give people new passwords)
    return Case(None if restore.is_brought else BEGAN, "this restore was begun", others)


def position_at(record: History, since: datetime.datetime) -> int:
    """The last entry of the history from before a moment."""
    later = (it.number for it in record.entries if datetime.datetime.fromisoformat(it.at) >= since)
    return next(later, len(record.entries) + 1) - 1


def restored_at(record: History, restore: Restore) -> int:
    """The entry of the history with which a restore was done; 0 where it was not."""
    asked = next((it.number for it in record.entries if it.what == RESTORES
                  and it.about["restore"] == restore.number), len(record.entries))
    return next((at for at, _ in record.restores if at > asked), 0)


def child_of(entry: Entry) -> int | None:
    """The child of an entry's command, if it is about one."""
    found: int | None = entry.about.get("command", {}).get("child")
    return found


def mark_staged(db: sqlite3.Connection, rows: Iterable[Again]) -> None:
    """Gives back the applications that were stored by an import which a restore has undone, so that
    they can be corrected and stored once more; those of one that was sent again are stored.
    """
    for it in rows:
        if it.state == DONE:
            db.execute("UPDATE staged_row SET entry=?, version=version+1 WHERE entry=?"
                       " AND state=?", (it.sent, it.entry, COMMITTED))
        else:
            db.execute("UPDATE staged_row SET entry=NULL, state=?, version=version+1"
                       " WHERE entry=? AND state=?", (OPEN, it.entry, COMMITTED))
