"""Sets of letters: asked for once, made in the background of one state of the register, also over a
restart, kept as a file until they are taken or a day has passed, and recorded as sent.
"""
import dataclasses
import datetime
import hashlib
import json
import logging
import os
import pathlib
import secrets
import shutil
import sqlite3
import threading
import time
import zlib
from collections.abc import Callable, Iterator
from typing import Any

from register_files import Refused

from office.core import days, plain, texts
from office.core.model import Register
from office.files import inputs
from office.web.copies.copies import Copies
from office.web.machinery.jobs import Jobs
from office.web.people.roles import Person
from office.web.register.desk import Desk
from office.web.register.history import History, now
from office.web.register.rows import of_json
from office.web.register.store import Store
from office.web.rounds.draws import Draws
from office.web.schools import flags

from . import apart, fields, proved_texts, whom
from . import sender as letters_sender
from .addresses import Addresses
from .apart import Form, Running
from .audits import Audits, announced
from .fields import Letter, Writer
from .sender import Sender
from .versions import Templates

PDF, MERGE = "pdf", "merge"
# the job that makes one set after another
LETTERS = "letters"
WAITS, RUNS, MADE, FAILED, ENDED, GONE = "waits", "runs", "made", "failed", "ended", "gone"
BATCH = 50
# how long a file is kept after it was made, and after it was taken; and letters of which nobody has
# said that they were sent
KEPT, KEPT_TAKEN = datetime.timedelta(days=1), datetime.timedelta(hours=1)
KEPT_UNSENT = datetime.timedelta(days=60)
# by so much two clocks tell the same
CLOCKS_DIFFER = datetime.timedelta(minutes=1)
# of all files, and what is left free on the disk
MOST_BYTES, LEAST_FREE = 1_000 * inputs.MB, 300 * inputs.MB
FILES = {PDF: "letters.pdf", MERGE: "letters.xlsx"}
SNAPSHOT = "letters.json"
# the folder of the sets, and the one beside it that has what people previewed
FOLDER, PREVIEWS = "letters", "previews"
ENDED_BEFORE = "these letters were ended"
BROKEN = "something went wrong in the application. Tell IT support"


class Twice(Refused):
    """Some of the children have the letter already."""


@dataclasses.dataclass(frozen=True)
class Asked:
    """What was asked for: whom in words, the children in their order, the template's version, the
    date of the letters, PDF or a mail merge; the day of withdrawals of which the letters tell, and
    the copy from before these; and the version of what they say of the office.
    """

    words: str
    children: list[int]
    template: int
    version: int
    day: str
    kind: str
    is_double: bool = False
    withdrawn: str = ""
    copy: int | None = None
    sender: int = 0

    @property
    def date(self) -> datetime.date:
        """The date of the letters."""
        return datetime.date.fromisoformat(self.day)


@dataclasses.dataclass(frozen=True)
class Set:
    """A set as it is in the store, and how many of its letters are made."""

    number: int
    who: str
    at: str
    asked: Asked
    state: str
    said: str
    seen: str
    is_draft: bool
    total: int
    made: int
    ended: str
    taken: str
    sent: str
    sent_by: str

    @property
    def is_open(self) -> bool:
        """Whether it is not made yet."""
        return self.state in (WAITS, RUNS)

    @property
    def standing(self) -> str:
        """What somebody has seen who ends it: that it is being made; or that it is, and when its
        file was taken and its letters were sent.
        """
        return "open" if self.is_open else f"{self.state} {self.taken} {self.sent}"


@dataclasses.dataclass(frozen=True)
class Kept:
    """A letter of a set: its child, what it is about, what was asked for, the set, the day on which
    it was sent or "", whether it is a draft, and the letter as HTML.
    """

    child: int
    words: str
    asked: Asked
    set: int
    sent: str
    is_draft: bool
    html: str


class Sets:
    """The sets of one application."""

    def __init__(
        self, store: Store, record: History, desk: Desk, copies: Copies, draws: Draws,
        folder: pathlib.Path, jobs: Jobs,
    ) -> None:
        self.store, self.history, self.desk, self.copies = store, record, desk, copies
        self.jobs, self.folder = jobs, folder
        self.templates, self.audits = Templates(store, record), Audits(store, draws, copies)
        self.sender, self.addresses = Sender(store, record), Addresses(store, record)
        folder.mkdir(mode=0o700, exist_ok=True)
        self.lock = threading.RLock()
        self.running: dict[int, Running] = {}
        # by a clock that nobody sets: when this application has stored a moment of a set
        self.steady: Callable[[], float] = lambda: time.clock_gettime(time.CLOCK_BOOTTIME)
        self.stamped: dict[tuple[int, str], float] = {}
        self.doubt(datetime.datetime.now(datetime.timezone.utc))

    # what there is

    def get(self, number: int) -> Set:
        """A set."""
        row = self.store.row("SELECT * FROM letter_set WHERE id=?", number)
        if row is None:
            raise Refused("there is no such set of letters")
        return self.of_row(row)

    def of_row(self, row: sqlite3.Row) -> Set:
        """The set of a row."""
        count = self.store.row("SELECT count(*) AS many FROM letter WHERE set_id=?", row["id"])
        return Set(
            row["id"], row["who"], row["at"], of_json(Asked, row["asked"]), row["state"],
            row["said"], row["seen"] or "", bool(row["is_draft"]), row["total"],
            count["many"] if count else 0, row["ended"] or "", row["taken"] or "",
            row["sent"] or "", row["sent_by"] or "")

    def listed(self) -> list[Set]:
        """All sets that are kept or were sent, the last first. What waits goes on, if it does not
        already.
        """
        self.wake()
        rows = self.store.rows("SELECT * FROM letter_set ORDER BY id DESC LIMIT 100")
        return [self.of_row(row) for row in rows]

    def change(self, number: int, query: str, *values: object) -> None:
        """Stores what came of a set."""
        with self.store.writing() as db:
            db.execute(f"UPDATE letter_set SET {query} WHERE id=?", (*values, number))

    def stamp(self, number: int, column: str) -> str:
        """The moment of now, which is stored in a column of a set."""
        self.stamped[number, column] = self.steady()
        return now()

    def room(self, number: int) -> pathlib.Path:
        """The folder of a set."""
        return self.folder / str(number)

    def file(self, found: Set) -> pathlib.Path:
        """The file of a set that is made, or a refusal where it is there no more."""
        path = self.room(found.number) / FILES[found.asked.kind]
        if found.state != MADE or not path.is_file():
            raise Refused("the file of these letters is not kept any more: make them again")
        return path

    def bytes_kept(self) -> int:
        """What all files have."""
        return sum(it.stat().st_size for it in self.folder.rglob("*") if it.is_file())

    # what people do

    def ask(self, who: Person, key: str, asked: Asked) -> int:
        """Asks for a set, and begins to make it. The same form makes one set, however often it is
        sent; and so does the same question while its set is not made yet. A form that was changed
        and sent again makes another set.
        """
        text = json.dumps(dataclasses.asdict(asked))
        with self.lock:
            same = self.store.row(
                "SELECT id FROM letter_set WHERE asked=? AND (key=? OR state IN (?, ?))",
                text, key, WAITS, RUNS)
            if same:
                return int(same["id"])
            if not key or self.store.row("SELECT 1 FROM letter_set WHERE key=?", key):
                key = secrets.token_urlsafe(12)
            self.see_room()
            self.history.add(who.name, "made letters", {
                "for": asked.words, "children": asked.children, "kind": asked.kind,
                "template": self.templates.get(asked.template, asked.version).called})
            with self.store.writing() as db:
                number = db.execute(
                    "INSERT INTO letter_set (key, who, at, asked, state, total)"
                    " VALUES (?, ?, ?, ?, ?, ?)",
                    (key, who.name, now(), text, WAITS, len(asked.children))).lastrowid or 0
        self.wake()
        return number

    def see_room(self) -> None:
        """Refuses another set where there is no room for it."""
        self.sweep()
        if self.bytes_kept() > MOST_BYTES:
            most = MOST_BYTES // inputs.MB
            raise Refused(f"the files of letters have more than {most} MB: remove some first")
        if shutil.disk_usage(self.folder).free < LEAST_FREE:
            raise Refused("the disk of this machine is nearly full: tell IT support")

    def end(self, who: Person, number: int, standing: str) -> None:
        """Ends a set that is not made yet, or removes the file of one that is, as it was seen: of
        one that was made, taken and posted meanwhile nobody could record that it was sent.
        """
        with self.lock:
            found = self.get(number)
            if found.state in (ENDED, GONE):
                return
            if found.standing != standing:
                raise Refused("Nothing was ended or removed: these letters are made, downloaded or"
                              " sent since they were shown")
            self.history.add(who.name, "ended letters", {"for": found.asked.words, "set": number})
            self.change(number, "state=?, ended=?", ENDED if found.is_open else GONE, now())
            if number in self.running:
                self.running[number].end()
            else:
                self.clear(number)

    def take(self, who: Person, number: int) -> pathlib.Path:
        """The file, which somebody takes."""
        found = self.get(number)
        path = self.file(found)
        self.history.add(who.name, "took letters", {"for": found.asked.words, "set": number})
        if not found.taken:
            self.change(number, "taken=?", self.stamp(number, "taken"))
        return path

    def again(self, number: int) -> list[tuple[int, str]]:
        """The children of a set who have its letter already from another one, with who sent it."""
        rows = self.store.rows(
            "SELECT mine.child, other_set.sent, other_set.sent_by FROM letter AS mine JOIN letter"
            " AS other ON other.child=mine.child AND other.about=mine.about AND"
            " other.set_id<>mine.set_id JOIN letter_set AS other_set ON other_set.id=other.set_id"
            " WHERE mine.set_id=? AND other_set.sent IS NOT NULL ORDER BY mine.place", number)
        return [(it["child"], f"sent on {in_words(it['sent'])}, by {it['sent_by']}") for it in rows]

    def has_example(self, found: Set) -> bool:
        """Whether the letters of a set have the address of the example."""
        template = self.templates.get(found.asked.template, found.asked.version)
        return found.asked.kind == PDF and letters_sender.has_example(
            template.text, found.asked.sender)

    def record(
        self, who: Person, number: int, day: datetime.date, count: int, agreed: str,
    ) -> None:
        """Records the letters of a set as sent on a day. Drafts are not; nor those that a child has
        already, unless somebody says so who was shown these.
        """
        with self.lock, self.store.lock:
            found = self.get(number)
            if found.sent:
                raise Refused("these letters were recorded already, as sent on"
                              f" {in_words(found.sent)} by {found.sent_by}")
            if found.state not in (MADE, GONE) or not found.made:
                raise Refused("these letters are not made")
            if found.is_draft:
                raise Refused("these letters are drafts: make them again once the audit agrees")
            if self.has_example(found):
                raise Refused("these letters have the address of an example: have the office's own"
                              " typed, and make them again")
            if count != found.made:
                raise Refused("the set has changed since it was shown. Nothing was recorded")
            if not found.taken:
                raise Refused("nobody has downloaded these letters yet: download them, and record"
                              " them once they are in the post")
            if (doubled := self.again(number)) and agreed != digest(doubled):
                have = texts.count(len(doubled), "child has", "children have")
                raise Twice(f"{have} this letter already. Nothing was recorded")
            children = [it["child"] for it in self.store.rows(
                "SELECT child FROM letter WHERE set_id=? ORDER BY place", number)]
            self.history.add(who.name, "recorded letters as sent", {
                "for": found.asked.words, "set": number, "day": day.isoformat(),
                "children": children, "again": [it for it, _ in doubled]})
            self.change(number, "sent=?, sent_by=?, recorded=?", day.isoformat(), who.name, now())

    # what is made

    def wake(self) -> None:
        """Begins to make what waits, unless that is going on."""
        self.sweep()
        if self.next() is not None:
            self.jobs.wake(LETTERS, self.work, self.close)

    def close(self) -> None:
        """Ends the processes that make letters: the set goes on when the application does."""
        with self.lock:
            for it in self.running.values():
                it.end()

    def next(self) -> int | None:
        """The first set that is not made yet."""
        row = self.store.row("SELECT id FROM letter_set WHERE state IN (?, ?) ORDER BY id",
                             RUNS, WAITS)
        return int(row["id"]) if row else None

    def work(self) -> None:
        """Makes one set after another."""
        while not self.jobs.is_closed:
            with self.lock:
                number = self.next()
                if number is None:
                    return
                self.running[number] = Running()
            try:
                self.make(number)
            finally:
                self.running.pop(number, None)

    def make(self, number: int) -> None:
        """Makes a set, or stores why it is not made."""
        try:
            found = self.begun(number)
            self.room(number).mkdir(mode=0o700, exist_ok=True)
            rows = self.snapshot(found)
            self.write(self.get(number), rows)
            state, said = MADE, ""
        except Refused as error:
            state, said = FAILED, str(error)
        except (OSError, sqlite3.Error) as error:
            state, said = FAILED, f"{plain.reason(error)}. {plain.ADVICE}"
            logging.getLogger(__name__).exception("letters of set %d", number)
        except Exception:  # pylint: disable=broad-except
            state, said = FAILED, BROKEN
            logging.getLogger(__name__).exception("letters of set %d", number)
        if state == FAILED and self.jobs.is_closed:
            # (it goes on when the application does)
            return
        with self.lock:
            is_ended = self.get(number).state == ENDED
            if not is_ended:
                self.change(number, "state=?, said=?, ended=?", state, said,
                            self.stamp(number, "ended"))
            if is_ended or state == FAILED:
                self.clear(number)

    def begun(self, number: int) -> Set:
        """A set that is being made from now on, unless somebody has ended it."""
        with self.lock:
            if not self.get(number).is_open:
                raise Refused(ENDED_BEFORE)
            self.change(number, "state=?", RUNS)
            return self.get(number)

    def clear(self, number: int) -> None:
        """Removes the file of a set, and what was stored of letters that were not sent."""
        shutil.rmtree(self.room(number), ignore_errors=True)
        with self.store.writing() as db:
            db.execute("DELETE FROM letter WHERE set_id IN (SELECT id FROM letter_set WHERE id=?"
                       " AND sent IS NULL)", (number,))

    def snapshot(self, found: Set) -> list[list[str]]:
        """The letters of the set, with what each is about, all of one state of the register. They
        are kept, so that a set that goes on after a restart is of no other.
        """
        path = self.room(found.number) / SNAPSHOT
        if not path.is_file():
            with self.desk.lock:
                self.desk.settle()
                copy = self.desk.whole()
                at, register = now(), copy.register
                made = self.letters(register, found.asked)
                children = [it.child for it in made]
                proved = dict(zip(children, proved_texts.served(self.desk.sender, children)))
                if self.desk.whole().document != copy.document:
                    raise Refused("the register was changed while its letters were read: make them"
                                  " again")
            proved_texts.compare(made, proved)
            rows = self.rows(register, found.asked, made)
            draws = {announced(register, it) for it in children} - {None}
            is_draft = bool(draws - self.audits.agreed(register))
            self.change(found.number, "seen=?, is_draft=?", at, int(is_draft))
            put(path, json.dumps(rows))
        result: list[list[str]] = json.loads(path.read_text("utf-8"))
        return result

    def letters(self, register: Register, asked: Asked) -> list[Letter]:
        """The letters of a register."""
        if not register.draws:
            raise Refused("there was no round yet, so there is no place to write of")
        if missing := [it for it in asked.children if it not in register.children]:
            raise Refused(f"the register has no child {missing[0]} any more")
        before = self.copies.register(asked.copy) if asked.copy else None
        words = flags.words_of(self.store)
        writers = {it: Writer(register, before if it else None, words, asked.date)
                   for it in (False, True)}
        return [writers[bool(asked.withdrawn) or has_moved(register, before, it)].letter(it)
                for it in asked.children]

    def rows(self, register: Register, asked: Asked, made: list[Letter]) -> list[list[str]]:
        """Each letter with what it is about, and the lines of its address."""
        day = datetime.date.fromisoformat(asked.withdrawn) if asked.withdrawn else None
        addresses, found = self.addresses.all(), []
        for it in made:
            about = whom.about_of(register, it.child, day)
            found.append([fields.text_of(it), about.key, about.words,
                          *addresses.get(it.child, [])])
        return found

    def write(self, found: Set, rows: list[list[str]]) -> None:
        """Writes the file of a set, and stores its letters."""
        if found.asked.kind == MERGE:
            self.write_merge(found, rows)
            return
        parts = [self.part(found, at, rows[at:at + BATCH]) for at in range(0, len(rows), BATCH)]
        path = self.room(found.number) / FILES[PDF]
        new = self.fresh(path)
        apart.whole(parts, new, "Letters", self.running[found.number])
        finish(new, path)
        for it in parts:
            os.unlink(it)

    def fresh(self, path: pathlib.Path) -> str:
        """The name under which a file is written before it has its own."""
        new = path.with_suffix(".new")
        new.unlink(missing_ok=True)
        return str(new)

    def part(self, found: Set, start: int, rows: list[list[str]]) -> str:
        """The PDF of some letters, which is there already where a restart was after it."""
        path = self.room(found.number) / f"part-{start:05}.pdf"
        places = range(start, start + len(rows))
        there = self.store.row("SELECT count(*) AS many FROM letter WHERE set_id=? AND place>=?"
                               " AND place<?", found.number, start, start + len(rows))
        if path.is_file() and there and there["many"] == len(rows):
            return str(path)
        if self.get(found.number).state != RUNS:
            raise Refused(ENDED_BEFORE)
        source = dataclasses.replace(
            self.templates.source(self.templates.get(found.asked.template, found.asked.version)),
            values=self.sender.values(found.asked.sender))
        new = self.fresh(path)
        given = [(fields.of_text(it[0]), it[3:]) for it in rows]
        made = apart.letters(
            source, given, found.asked.date, Form(found.is_draft, found.asked.is_double), new,
            self.running[found.number])
        finish(new, path)
        self.keep(found, [(at, letter.child, row[1], row[2], text) for at, (letter, _), row, text
                          in zip(places, given, rows, made.texts)])
        return str(path)

    def keep(self, found: Set, rows: list[tuple[int, int, str, str, str]]) -> None:
        """Stores letters as they are."""
        with self.store.writing() as db:
            db.executemany(
                "INSERT OR REPLACE INTO letter (set_id, place, child, about, words, html)"
                " VALUES (?, ?, ?, ?, ?, ?)",
                [(found.number, *it[:4], zlib.compress(it[4].encode())) for it in rows])

    def write_merge(self, found: Set, rows: list[list[str]]) -> None:
        """Writes the Excel file of a mail merge: all cells are texts."""
        made = [fields.of_text(it[0]) for it in rows]
        lengths = range(1, max(len(it[3:]) for it in rows) + 1)
        addresses = {one.child: [*it[3:], *[""] * (len(lengths) - len(it[3:]))]
                     for one, it in zip(made, rows)}
        header, *lines = fields.merge_rows(
            made, [f"address_{it}" for it in lengths], addresses)
        draft = apart.DRAFT if found.is_draft else ""
        cells = [["draft", *header], *([draft, *it] for it in lines)]
        purpose = f"{found.asked.words}; {apart.DRAFT.lower()}, not to be sent" if (
            found.is_draft) else found.asked.words
        path = self.room(found.number) / FILES[MERGE]
        new = self.fresh(path)
        apart.merge(cells, purpose, new, self.running[found.number])
        finish(new, path)
        self.keep(found, [(at, letter.child, row[1], row[2], row[0]) for at, (letter, row)
                          in enumerate(zip(made, rows))])

    def sweep(self) -> None:
        """Removes the files that nobody will take any more."""
        self.sweep_at(datetime.datetime.now(datetime.timezone.utc))

    def sweep_at(self, moment: datetime.datetime) -> None:
        """The same, as of a moment."""
        # (no set begins meanwhile, whose folder would belong to none of those that are known)
        with self.lock:
            self.put_right(moment)
            self.swept(moment)

    def doubt(self, moment: datetime.datetime) -> None:
        """Takes for stored now what an earlier application has stored by a clock that was wrong: a
        moment to come, or before one at which this set or an earlier one was asked for.
        """
        first, last = "", (moment + CLOCKS_DIFFER).isoformat(timespec="milliseconds")
        for row in self.store.rows("SELECT * FROM letter_set ORDER BY id"):
            first = max(first, row["at"]) if row["at"] <= last else first
            for column in ("ended", "taken") if row["state"] in (MADE, FAILED, ENDED) else ():
                if row[column] and not first <= row[column] <= last:
                    self.stamped[row["id"], column] = self.steady()

    def put_right(self, moment: datetime.datetime) -> None:
        """Stores the moments of sets as they are by the clock of now, where it was set since: what
        was made under a wrong clock would go at once, or stay for years.
        """
        for (number, column), began in list(self.stamped.items()):
            is_so = moment - datetime.timedelta(seconds=self.steady() - began)
            row = self.store.row(f"SELECT {column} AS at FROM letter_set WHERE id=?", number)
            at = datetime.datetime.fromisoformat(row["at"]) if row and row["at"] else is_so
            if abs(at - is_so) > CLOCKS_DIFFER:
                self.change(number, f"{column}=?", is_so.isoformat(timespec="milliseconds"))

    def swept(self, moment: datetime.datetime) -> None:
        """The same, once the moments of sets are right."""
        for row in self.store.rows("SELECT * FROM letter_set WHERE state IN (?, ?, ?)", MADE,
                                   FAILED, ENDED):
            if is_over(row, moment):
                self.change(row["id"], "state=?", GONE)
        known = {str(it["id"]) for it in self.store.rows(
            "SELECT id FROM letter_set WHERE state IN (?, ?, ?)", WAITS, RUNS, MADE)}
        for it in self.folder.iterdir():
            if it.is_dir() and it.name not in known:
                shutil.rmtree(it, ignore_errors=True)
        for it in (self.folder.parent / PREVIEWS).glob("*.pdf"):
            if it.stat().st_mtime < moment.timestamp() - KEPT.total_seconds():
                it.unlink(missing_ok=True)
        with self.store.writing() as db:
            db.execute("DELETE FROM letter WHERE set_id IN (SELECT id FROM letter_set WHERE"
                       " sent IS NULL AND coalesce(ended, at)<?)",
                       ((moment - KEPT_UNSENT).isoformat(),))

    # what a child was sent

    def of_child(self, child: int) -> list[dict[str, Any]]:
        """The letters that a child was sent, the last first."""
        return list(self.sent_to(child))

    def sent_to(self, child: int) -> Iterator[dict[str, Any]]:
        """The same, one after another."""
        for it in self.store.rows(
                "SELECT letter.id AS letter, words, letter_set.* FROM letter JOIN letter_set ON"
                " set_id=letter_set.id WHERE child=? AND sent IS NOT NULL ORDER BY sent DESC,"
                " letter.id DESC", child):
            asked = of_json(Asked, it["asked"])
            found = self.templates.get(asked.template, asked.version)
            yield {"letter": it["letter"], "words": it["words"], "day": it["sent"],
                   "who": it["sent_by"], "is_pdf": asked.kind == PDF,
                   "template": found.called if asked.kind == PDF else "mail merge"}

    def letter(self, number: int) -> Kept:
        """A letter that was made for print, and is kept."""
        row = self.store.row("SELECT letter.*, asked, sent, is_draft FROM letter JOIN letter_set ON"
                             " set_id=letter_set.id WHERE letter.id=?", number)
        asked = of_json(Asked, row["asked"]) if row else None
        if row is None or asked is None or asked.kind != PDF:
            raise Refused("there is no such letter")
        return Kept(row["child"], row["words"], asked, row["set_id"], row["sent"] or "",
                    bool(row["is_draft"]), zlib.decompress(row["html"]).decode())

    def as_it_was(self, number: int, path: str) -> int:
        """Makes the PDF of a letter that was sent, as it was, in a new file. Its child."""
        found = self.letter(number)
        if not found.sent:
            raise Refused("there is no such letter")
        asked = found.asked
        source = self.templates.source(self.templates.get(asked.template, asked.version))
        apart.again(source, [found.html], Form(), path)
        return found.child


def digest(doubled: list[tuple[int, str]]) -> str:
    """Who has a letter already, in short: who says that it was sent once more has read this."""
    return hashlib.sha256(json.dumps(doubled).encode()).hexdigest()


def has_moved(register: Register, before: Register | None, child: int) -> bool:
    """Whether a child has given up the place that it had before a draw for another one. Of a place
    that ended otherwise since, a letter about the draw does not know why.
    """
    had, has = before and before.places.get(child), register.places.get(child)
    return bool(had and has and had.school != has.school)


def is_over(row: sqlite3.Row, moment: datetime.datetime) -> bool:
    """Whether the file of a set is not kept any more."""
    ends = [datetime.datetime.fromisoformat(row["ended"] or row["at"]) + KEPT]
    if row["taken"]:
        ends.append(datetime.datetime.fromisoformat(row["taken"]) + KEPT_TAKEN)
    return moment > min(ends)


def in_words(day: str) -> str:
    """A day of the store in words."""
    return str(days.in_words(datetime.date.fromisoformat(day)))


def put(path: pathlib.Path, text: str) -> None:
    """Writes a file in one step."""
    new = path.with_suffix(".new")
    new.write_text(text, "utf-8")
    finish(str(new), path)


def finish(new: str, path: pathlib.Path) -> None:
    """Gives a file that is written its name, once it is on the disk: the store says that it is
    there.
    """
    with open(new, "rb") as file:
        os.fsync(file.fileno())
    os.rename(new, path)
