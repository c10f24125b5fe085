"""The end of a season: what is still open, the last copy, the archive, the day of deletion, and the
deletion by two persons. Each step is on record before it is done, and can be done again after a
crash.
"""
from __future__ import annotations

import contextlib
import dataclasses
import datetime
import json
import pathlib
import shutil
import threading
from collections.abc import Callable, Iterator, Mapping
from typing import TYPE_CHECKING, Any

from register_files import Refused

from office.core import days, texts
from office.core.model import Register
from office.core.turns import Turn
from office.web.applications.rows import OPEN, SENDING
from office.web.copies.copies import is_same
from office.web.lists import register_rows
from office.web.machinery import numbers
from office.web.machinery.outbox import DONE
from office.web.machinery.step_jobs import StepJobs
from office.web.people.roles import Person
from office.web.register.history import now
from office.web.register.rows import of_json
from office.web.register.schema import TABLES
from office.web.rounds import second as draws_second
from office.web.rounds.draws import STEADY
from office.web.rounds.second import Case

from . import archive

if TYPE_CHECKING:
    from office.web.parts import Parts

SETTING, RETENTION = "season end", "months of retention"
MOST_MONTHS, MOST_REASON = 240, 300
DELETING, DELETED = "deleting", "deleted"
# what the machine is asked for, by the number of a day
DAY, DELETE = "deletion-day", "delete"
SET_DAY, DELETED_SEASON = "set the day of deletion", "deleted the season"


class WrongField(Refused):
    """What is typed in a field is wrong."""

    def __init__(self, field: str, text: str) -> None:
        super().__init__(text)
        self.field = field


@dataclasses.dataclass(frozen=True)
class Open:
    """Something that is still open: what it is, how much, and the screen where it is ended; and
    whether nothing goes on before it is.
    """

    title: str
    said: str
    view: str
    values: Mapping[str, str] = dataclasses.field(default_factory=dict)
    is_stop: bool = False


@dataclasses.dataclass(frozen=True)
class End:
    """How far the end of the season is. Its version grows with each step: who decides names the one
    that they saw. The archive is by its file, its bytes and SHA-256 sum, and the day of deletion
    also by the entry of the history from before the machine was asked for it. Left are the folders
    that the application could not empty.
    """

    version: int = 0
    copy: int = 0
    copied_by: str = ""
    copied: str = ""
    archive: str = ""
    size: int = 0
    digest: str = ""
    entries: int = 0
    made_by: str = ""
    made: str = ""
    taken_by: str = ""
    taken: str = ""
    kept: str = ""
    day: str = ""
    reason: str = ""
    day_by: str = ""
    day_entry: int = 0
    asked_by: str = ""
    asked: str = ""
    confirmed_by: str = ""
    phase: str = ""
    counts: dict[str, int] = dataclasses.field(default_factory=dict)
    machine: dict[str, str] = dataclasses.field(default_factory=dict)
    left: list[str] = dataclasses.field(default_factory=list)
    deleted: str = ""

    @property
    def date(self) -> datetime.date | None:
        """The day of deletion."""
        return datetime.date.fromisoformat(self.day) if self.day else None


def still_open(parts: Parts, register: Register, today: datetime.date) -> list[Open]:
    """What is still open, which the head reads before the last copy."""
    found = in_progress(parts)
    if offers := register_rows.offers(register):
        found.append(Open("Offers without an answer", texts.count(len(offers), "offer"),
                          "lists.one", {"name": "no-answer"}))
    if waiting := sum(it.waiting for it in register.schools.values()):
        vacant = sum(it.vacancies for it in register.schools.values())
        said = f"{waiting:,} waiting, and {texts.count(vacant, 'place')} vacant"
        if today <= register.days[2]:
            said += f"; the lists end on {days.in_words(register.days[2])}"
        found.append(Open("Waiting lists", said, "lists.one", {"name": "list"}))
    return found + drafts(parts)


def in_progress(parts: Parts) -> list[Open]:
    """What must end before anything else is done."""
    found = []
    if draw := parts.draws.present():
        found.append(Open("A round or offer in progress", f"{draw.in_words}: it must end first",
                          "draws.show", is_stop=True))
    if restore := parts.restores.present():
        found.append(Open("A restore in progress",
                          f"the restore of copy {restore.copy}: it must end first",
                          "copies.show", is_stop=True))
    if entries := parts.history.open_requests():
        found.append(Open("Requests without a known answer",
                          texts.count(len(entries), "request"), "activity.show", is_stop=True))
    return found


def drafts(parts: Parts) -> list[Open]:
    """What somebody has begun in the application and not ended."""
    counted = (
        ("Answers in batches", "SELECT count(*) FROM answer WHERE state<>?", (DONE,), "answer",
         "answers.show"),
        ("Applications that are not in the register",
         "SELECT count(*) FROM staged_row WHERE state IN (?, ?)", (OPEN, SENDING), "row",
         "applications.show"),
        ("Schools that are not stored", "SELECT count(*) FROM school_draft", (), "school",
         "new_schools.show"),
    )
    found = []
    for title, query, values, what, view in counted:
        if many := parts.store.rows(query, *values)[0][0]:
            found.append(Open(title, texts.count(many, what), view))
    return found


def read_of(found: list[Open]) -> str:
    """What was read, in short: somebody agrees to nothing else."""
    return json.dumps([[it.title, it.said] for it in found])


class SeasonEnd:
    """The steps of the end of a season."""

    def __init__(self, parts: Parts) -> None:
        self.parts = parts
        self.lock = Turn(threading.RLock(), "a step of the end of the season is under way")
        # (what lasts, as copies do)
        self.steps = StepJobs("end of the season", parts.jobs)
        self.today: Callable[[], datetime.date] = datetime.date.today

    # how far it is

    def get(self) -> End:
        """How far it is."""
        return of_json(End, self.parts.store.setting(SETTING, "{}"))

    def closed(self) -> str:
        """Why nothing may be sent to the register any more, or ""."""
        found = self.get()
        return "The season is deleted: nothing can be recorded." if found.phase else ""

    @contextlib.contextmanager
    def turn(self, seen: int, *phases: str) -> Iterator[End]:
        """How far it is, if that is what the person saw. Nobody else changes it meanwhile."""
        with self.lock:
            found = self.get()
            if found.version != seen:
                raise Refused("a step was done since this page was shown. Nothing was done now:"
                              " look at it again")
            if found.phase not in (phases or ("",)):
                raise Refused("the season is deleted, or its deletion has begun: this cannot be"
                              " done any more")
            yield found

    def store(self, found: End, **changes: Any) -> End:
        """Stores a step."""
        new = dataclasses.replace(found, version=found.version + 1, **changes)
        self.parts.store.set(SETTING, json.dumps(dataclasses.asdict(new)))
        return new

    def record(self, who: Person, what: str, **about: Any) -> None:
        """Adds a step to the history."""
        self.parts.history.add(who.name, what, about)

    # the last copy and the archive

    def copy(self, who: Person, seen: int, read: str) -> None:
        """Makes the last copy, where the person has read what is still open."""
        with self.turn(seen) as found:
            self.see_nothing_in_progress()
            there = still_open(self.parts, self.parts.desk.now(), self.today())
            if there and read != read_of(there):
                raise Refused("read what is still open, and say that it may stay so")
            self.record(who, "makes the last copy of the season",
                        open=[f"{it.title}: {it.said}" for it in there])
            number = self.parts.copies.make("last copy of the season", who.name)
            self.store(found, copy=number, copied_by=who.name, copied=now(), archive="", digest="",
                       size=0, made_by="", made="", taken_by="", taken="", asked_by="", asked="")

    def see_nothing_in_progress(self) -> None:
        """Refuses to go on where something must end before."""
        if stop := next(iter(in_progress(self.parts)), None):
            raise Refused(f"{stop.title.lower()}: {stop.said}")

    def see_unchanged(self, found: End) -> None:
        """Refuses a register that is not that of the last copy, or of which it is not known."""
        self.see_nothing_in_progress()
        register = self.parts.desk.now()
        if not found.copy or not is_same(register, self.parts.copies.register(found.copy)):
            raise Refused("the register is not that of the last copy: make the last copy again")

    def see_archive(self, found: End) -> pathlib.Path:
        """The file of the archive, or a refusal where it is not as it was made."""
        path = archive.folder_of(self.parts) / found.archive
        if not (found.archive and path.is_file() and archive.digest_of(path) == found.digest):
            raise Refused("the archive is not there, or not as it was made: make it again, and"
                          " download it")
        return path

    def copy_and_archive(self, who: Person, seen: int, read: str) -> None:
        """Makes the last copy, and the archive with it."""
        self.copy(who, seen, read)
        self.make_archive(who, self.get().version)

    def make_archive(self, who: Person, seen: int) -> None:
        """Makes the archive of the last copy."""
        with self.turn(seen) as found:
            self.see_unchanged(found)
            made = archive.make(self.parts, found.copy, self.today(), who.name)
            self.record(who, "made the archive", file=made.name, digest=made.digest,
                        size=made.size, copy=found.copy)
            self.store(found, archive=made.name, size=made.size, digest=made.digest,
                       entries=made.entries, made_by=who.name, made=now(), taken_by="", taken="",
                       asked_by="", asked="")
            for it in archive.folder_of(self.parts).iterdir():
                if it.name != made.name:
                    it.unlink()

    def take(self, who: Person, seen: int, kept: str) -> pathlib.Path:
        """Records that somebody takes the archive and where it will be kept, and returns its file.
        """
        with self.turn(seen) as found:
            path = self.see_archive(found)
            see_line("kept", kept, "where it is kept")
            self.record(who, "took the archive", digest=found.digest, kept=kept)
            self.store(found, taken_by=who.name, taken=now(), kept=kept)
            return path

    # the day of deletion

    def months(self) -> int | None:
        """For how many months after the end of the lists the office keeps a season."""
        text = self.parts.store.setting(RETENTION)
        return int(text) if text else None

    def set_months(self, who: Person, _seen: int, text: str) -> None:
        """Says for how many months the office keeps a season, whatever was done meanwhile."""
        months = numbers.read(text.strip())
        if not 0 <= months <= MOST_MONTHS:
            raise WrongField("months", f"a whole number from 0 to {MOST_MONTHS}")
        self.record(who, "set how long a season is kept", months=months)
        self.parts.store.set(RETENTION, str(months))

    def proposed(self, register: Register) -> datetime.date | None:
        """The day of deletion by the office's rule: so many months after the lists have ended."""
        months = self.months()
        return None if months is None else months_after(register.days[2], months)

    def set_day(self, who: Person, seen: int, day: datetime.date, reason: str) -> None:
        """Sets the day of deletion, which the machine keeps and compares with its own clock."""
        with self.turn(seen) as found:
            if not found.digest or not found.taken:
                raise Refused("make the archive first, and download it to where it is kept")
            last = self.parts.desk.now().days[2]
            if day <= last:
                raise WrongField("day", f"the lists end on {days.in_words(last)}: choose a later"
                                 " day")
            soonest = self.today() + days.DELETION_NOTICE
            if day < soonest:
                raise WrongField("day", "IT support must have time to object: choose"
                                 f" {days.in_words(soonest)} or a later day")
            see_line("reason", reason, "why")
            entry = self.parts.history.add(who.name, SET_DAY, {
                "day": day.isoformat(), "reason": reason, "before": found.day})
            self.parts.copies.asked(DAY, number_of(day))
            self.store(found, day=day.isoformat(), reason=reason, day_by=who.name,
                       day_entry=entry.number, asked_by="", asked="")

    # the deletion

    def counts(self) -> dict[str, int]:
        """What is deleted, counted in the register as it is, and in what the application has."""
        register, store = self.parts.desk.now(), self.parts.store
        found = {
            "children": len(register.children), "applications": len(register.applications),
            "places": len(register.places), "draws": len(register.draws),
            "copies made here": len(self.parts.copies.listed()),
            "entries of the history": len(self.parts.history.entries),
        }
        for it in archive.tables():
            called, counted = TABLES[it].called, TABLES[it].counted or "true"
            if many := store.rows(f"SELECT count(*) FROM {it} WHERE {counted}")[0][0]:
                found[called] = found.get(called, 0) + many
        return found

    def see_due(self, found: End) -> None:
        """Refuses a deletion that is not due, or of which something has changed."""
        date = found.date
        if date is None or not found.taken:
            raise Refused("set the day of deletion first")
        if self.today() < date:
            raise Refused(f"the day of deletion is {days.in_words(date)}: it has not come")
        self.see_unchanged(found)
        if lacks := archive.lacks(self.parts.store, self.see_archive(found)):
            named = texts.listed(sorted({TABLES[it].called for it in lacks}))
            raise Refused(f"the archive lacks what was recorded here since it was made ({named}):"
                          " make it again, and download it")

    def case(self, found: End, asker: str = "") -> Case:
        """What a second person confirms, and who has asked for it. (A day that the machine has
        refused is in the history too, and is none.)
        """
        return Case(found.day_entry, "the day of deletion was set",
                    {asker: "has asked to delete the season"} if asker else {})

    def ask(self, who: Person, seen: int, name: str) -> None:
        """Says that the season is to be deleted, which another person confirms."""
        with self.turn(seen) as found:
            self.see_due(found)
            draws_second.see(self.parts.history, who, self.case(found), STEADY)
            self.see_name(name)
            self.record(who, "asked to delete the season", digest=found.digest)
            self.store(found, asked_by=who.name, asked=now())

    def see_name(self, name: str) -> None:
        """Refuses another name than that of the register, by which nothing is deleted by a slip."""
        if name.strip() != self.parts.config.name:
            raise WrongField("name", f"type the name of the register, {self.parts.config.name}")

    def take_back(self, who: Person, seen: int) -> None:
        """Takes back that the season is to be deleted."""
        with self.turn(seen) as found:
            self.record(who, "took back the deletion of the season")
            self.store(found, asked_by="", asked="")

    def confirm(self, who: Person, seen: int, name: str, shown: str) -> None:
        """Deletes the season, as a second person who was shown these counts."""
        with self.turn(seen) as found, self.parts.desk.lock:
            if not found.asked_by:
                raise Refused("nobody has asked to delete the season")
            draws_second.see(self.parts.history, who, self.case(found, found.asked_by),
                             "somebody else confirms it")
            self.see_due(found)
            self.see_name(name)
            counts = self.counts()
            if shown != read_counts(counts):
                raise Refused("what is deleted has changed since this page was shown. Nothing was"
                              " deleted: look at it again")
            self.record(who, "confirmed the deletion of the season", digest=found.digest,
                        asked_by=found.asked_by, counts=counts)
            self.store(found, confirmed_by=who.name, phase=DELETING, counts=counts)
        self.go_on(who, found.version + 1)

    def go_on(self, _who: Person, seen: int) -> None:
        """Does what a confirmed deletion has left to do: each part may have been done before."""
        with self.turn(seen, DELETING) as found, self.parts.desk.lock:
            assert found.date
            answer = self.parts.copies.asked(DELETE, number_of(found.date))
            machine = {name: str(it) for name, it in answer.items() if name != "number"}
            found = dataclasses.replace(found, machine=machine, left=self.forget())
            first = self.parts.history.entries[0]
            if first.what != DELETED_SEASON:
                first = self.parts.history.begin_anew(
                    found.confirmed_by, DELETED_SEASON, record_of(found))
            self.store(found, phase=DELETED, deleted=first.at)

    def forget(self) -> list[str]:
        """Removes what the application has of the season: its rows, and all files in its folders:
        the archive, letters that were made, what was previewed, and gazetteers. Returns the names
        of the folders that it may not empty, as those in which root has put something aside.
        """
        store, copies = self.parts.store, self.parts.copies
        self.parts.desk.copy = copies.read = None
        self.parts.trials.forget()
        with store.lock:
            store.db.execute("PRAGMA secure_delete=ON")
            with store.writing() as db:
                db.execute("PRAGMA defer_foreign_keys=ON")
                for it in archive.tables(False):
                    db.execute(f"DELETE FROM {it}")
            # (a log and free pages would keep what was deleted)
            store.db.execute("VACUUM")
            is_busy, *_ = store.db.execute("PRAGMA wal_checkpoint(TRUNCATE)").fetchone()
        if is_busy:
            raise Refused("the machine copies what the application keeps, and it could not be"
                          " deleted wholly: go on in some minutes")
        left = []
        for folder in sorted(self.parts.config.folder.iterdir()):
            if folder.is_dir() and folder != copies.requests:
                try:
                    empty(folder)
                except PermissionError:
                    left.append(folder.name)
        return left


def empty(folder: pathlib.Path) -> None:
    """Deletes all that is in a folder, which stays."""
    for path in folder.iterdir():
        if path.is_dir() and not path.is_symlink():
            shutil.rmtree(path)
        else:
            path.unlink(missing_ok=True)


def see_line(field: str, text: str, what: str) -> None:
    """Refuses what is not a line that can be read."""
    if not text or len(text) > MOST_REASON or not texts.is_shown(text):
        raise WrongField(field, f"say {what}, in 1 to {MOST_REASON} characters on one line")


def number_of(day: datetime.date) -> int:
    """A day as a number, as the machine is asked."""
    return day.year * 10000 + day.month * 100 + day.day


def months_after(day: datetime.date, months: int) -> datetime.date:
    """The day so many months later, or the last one of that month."""
    count = day.year * 12 + day.month - 1 + months
    year, month = count // 12, count % 12 + 1
    following = datetime.date(year + month // 12, month % 12 + 1, 1)
    last = (following - datetime.timedelta(days=1)).day
    return datetime.date(year, month, min(day.day, last))


def read_counts(counts: Mapping[str, int]) -> str:
    """What was shown of a deletion, without the entries of the history, which each sign-in adds to.
    """
    return json.dumps({name: it for name, it in counts.items()
                       if name != "entries of the history"}, sort_keys=True)


def record_of(found: End) -> dict[str, Any]:
    """What remains of a season in the record: nothing of a child."""
    return {
        "asked_by": found.asked_by, "asked": found.asked, "confirmed_by": found.confirmed_by,
        "day": found.day, "reason": found.reason, "counts": found.counts,
        "archive": found.archive, "digest": found.digest, "kept": found.kept,
        "machine": found.machine, "left": found.left,
    }
