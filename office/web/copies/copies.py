"""Copies of the register, which a unit of the machine makes and restores: it is asked by a file
that holds a number and nothing else, and answers by a file beside it.
"""
import contextlib
import dataclasses
import datetime
import json
import os
import pathlib
import re
import sqlite3
import stat
import tempfile
import time
from collections.abc import Callable, Iterator
from typing import Any

from register_files import Refused

from office.core import model, plain, texts
from office.core.model import Register
from office.web.register.desk import Desk
from office.web.register.history import RESTORED, SENDS, now
from office.web.register.store import Store

# what is asked for; the answer has the same name with DONE
COPY, RESTORE, BEGUN, DONE = "copy", "restore", ".begun", ".done"
NAME = re.compile(r"office-([0-9]{6,9})-[0-9]{4}-[0-9]{2}-[0-9]{2}T[0-9]{6}\.db")
# for so long the machine may take to begin, and to end what it has begun; and the register until it
# answers again
BEGIN_SECONDS, END_SECONDS, BACK_SECONDS, PAUSE = 60.0, 960.0, 30.0, 0.05
MOST_BYTES = 4096
# a copy is older than it should be after more days than these in which something was recorded
COPY_DAYS = 7
# how errors name a copy, whose path says nothing to an officer
COPY_NAME = "the copy"
# the errors of the machine that have words of their own; for others it has given them
ERRORS = {
    "NoNumber": "the machine does not take the request for a number",
    "NoFile": "the machine does not take the request for a file",
}


@dataclasses.dataclass(frozen=True)
class Copy:
    """A copy that was compared with the register: its number, when it was asked for (UTC), what it
    is for, the name of its file, and its bytes; who asked for it; whether its file is there; when
    it was tested last (UTC), and what that found.
    """

    number: int
    at: str
    purpose: str
    name: str
    size: int
    who: str
    is_there: bool
    tested: str
    test: dict[str, Any]


@dataclasses.dataclass(frozen=True)
class Behind:
    """What the last copy lacks: when it was asked for (UTC), or "" where there is none; how many
    days are since then, or since the first request; and how many requests were sent.
    """

    at: str
    days: int
    sent: int

    @property
    def in_words(self) -> str:
        """The same in words."""
        age = f"It is {texts.count(self.days, 'day')} old" if self.at else "No copy was made yet"
        return f"{age}, and {texts.count(self.sent, 'change was', 'changes were')} recorded since."


def is_same(one: Register, other: Register) -> bool:
    """Whether two registers show the same, whatever they are called."""
    return dataclasses.replace(one, name="") == dataclasses.replace(other, name="")


@contextlib.contextmanager
def readable() -> Iterator[None]:
    """Refuses what the machine cannot do with its files, in words that name none of them."""
    try:
        yield
    except OSError as error:
        raise Refused(f"the machine cannot be asked for copies ({plain.reason(error)})."
                      f" {plain.ADVICE}") from error


def words_of(error: Refused | sqlite3.Error | OSError) -> str:
    """Why something was not done, in words that name no file."""
    return str(error) if isinstance(error, Refused) else plain.reason(error)


def read_copy(path: pathlib.Path) -> Register:
    """The register of a copy."""
    return model.read_stored(str(path), plain.program(), COPY_NAME)


class Copies:
    """The copies of one register. Nobody sends anything while one is made or restored, and who
    reads the register waits.
    """

    def __init__(
        self, requests: pathlib.Path, folder: pathlib.Path, store: Store, desk: Desk,
        clock: Callable[[], float] = time.monotonic,
    ) -> None:
        self.requests, self.folder, self.store, self.desk = requests, folder, store, desk
        self.clock = clock
        # the copy that was read last, by its file
        self.read: tuple[tuple[int, ...], Register] | None = None
        requests.mkdir(mode=0o700, exist_ok=True)

    def make(self, purpose: str, who: str = "") -> int:
        """Makes a copy of the register as it is now, compares the two, and returns its number."""
        with self.desk.lock:
            self.desk.settle()
            number = self.next_number(purpose, who)
            try:
                name = str(self.asked(COPY, number).get("copy", ""))
                found = NAME.fullmatch(name)
                if not found or int(found[1]) != number:
                    raise Refused("the machine has named another copy than was asked for")
                size = self.compared(self.folder / name)
            except Refused as error:
                self.change("failed=?", str(error), number)
                raise Refused(f"there is no copy: {error}") from error
            self.change("name=?, size=?", name, size, number)
            return number

    def next_number(self, purpose: str, who: str) -> int:
        """The number of a new copy, which no file of the folder has."""
        there = (NAME.fullmatch(it.name) for it in self.folder.glob("office-*.db"))
        last = max((int(it[1]) for it in there if it), default=0)
        with self.store.writing() as db:
            known = db.execute("SELECT max(number) FROM copy").fetchone()[0] or 0
            number = max(known, last) + 1
            db.execute(
                "INSERT INTO copy (number, purpose, asked, who, position) VALUES (?, ?, ?, ?, ?)",
                (number, purpose, now(), who, len(self.desk.history.entries)))
        return number

    def change(self, query: str, *values: object) -> None:
        """Stores what came of a copy."""
        with self.store.writing() as db:
            db.execute(f"UPDATE copy SET {query} WHERE number=?", values)

    def take(self, number: int, name: str, at: datetime.datetime, position: int) -> None:
        """Adds a copy that the machine has made, as at a moment, after an entry of the history."""
        asked = at.astimezone(datetime.timezone.utc).isoformat(timespec="milliseconds")
        self.change("name=?, size=?, asked=?, position=?", name,
                    (self.folder / name).stat().st_size, asked, position, number)

    def compared(self, path: pathlib.Path) -> int:
        """The size of a copy, or a refusal where it is not the register as it is now."""
        if not is_same(read_copy(path), self.back()):
            raise Refused("the copy differs from the register")
        with readable():
            return path.stat().st_size

    def back(self) -> Register:
        """The register, once it answers again."""
        end = self.clock() + BACK_SECONDS
        while True:
            try:
                return self.desk.now()
            except Refused as error:
                if self.clock() > end:
                    raise Refused(f"the register does not answer any more: {error}") from error
                time.sleep(PAUSE)

    def path(self, number: int) -> pathlib.Path:
        """The file of a copy."""
        row = self.store.row("SELECT name FROM copy WHERE number=? AND name IS NOT NULL", number)
        path = self.folder / str(row["name"] if row else "")
        if not row or not path.is_file():
            raise Refused(f"there is no copy {number}")
        return path

    def register(self, number: int) -> Register:
        """The register as a copy has it, which is read once while its file is as it was."""
        path = self.path(number)
        found = path.stat()
        key = number, found.st_ino, found.st_size, found.st_mtime_ns
        kept = self.read
        if kept is None or kept[0] != key:
            kept = self.read = key, read_copy(path)
        return kept[1]

    def listed(self) -> list[Copy]:
        """The copies, the last first."""
        rows = self.store.rows("SELECT * FROM copy WHERE name IS NOT NULL ORDER BY number DESC")
        return [Copy(it["number"], it["asked"], it["purpose"], it["name"], it["size"], it["who"],
                     (self.folder / it["name"]).is_file(), it["tested"] or "",
                     json.loads(it["test"] or "{}"))
                for it in rows]

    def last(self) -> str:
        """When the last copy was asked for, or ""."""
        row = self.store.row("SELECT asked FROM copy WHERE name IS NOT NULL"
                             " ORDER BY number DESC LIMIT 1")
        return str(row["asked"]) if row else ""

    def behind(self) -> Behind | None:
        """What the last copy lacks, where it is older than it should be: by more than so many days
        in which something was recorded.
        """
        row = self.store.row("SELECT number, asked FROM copy WHERE name IS NOT NULL"
                             " ORDER BY number DESC LIMIT 1")
        at, entries = str(row["asked"]) if row else "", self.desk.history.entries
        if at and days_since(at) <= COPY_DAYS:
            return None
        sent = [it.at for it in entries[self.position(row["number"]) if row else 0:]
                if it.what == SENDS]
        days = days_since(at or sent[0]) if sent else 0
        return Behind(at, days, len(sent)) if days > COPY_DAYS else None

    def get(self, number: int) -> Copy:
        """A copy by its number, also where its file is gone."""
        found = next((it for it in self.listed() if it.number == number), None)
        if found is None:
            raise Refused(f"there is no copy {number}")
        return found

    def position(self, number: int) -> int:
        """The last entry of the history from before a copy."""
        row = self.store.row("SELECT asked, position FROM copy WHERE number=?", number)
        if row is None:
            raise Refused(f"there is no copy {number}")
        if row["position"] is not None:
            return int(row["position"])
        # (of an earlier release: nothing was sent between that moment and the copy)
        return sum(it.at <= row["asked"] for it in self.desk.history.entries)

    def restore(self, number: int, who: str) -> None:
        """Makes the register that of a copy. What was there is kept by the machine."""
        with self.desk.lock:
            wanted = self.register(number)
            with contextlib.suppress(Refused):
                # (a register that does not answer is restored too)
                self.desk.settle()
            self.asked(RESTORE, number)
            if not is_same(wanted, self.back()):
                raise Refused("the register is not that of the copy")
            self.desk.history.add(
                who, RESTORED, {"copy": number, "position": self.position(number)})

    def end_request(self, what: str) -> None:
        """Takes back a request of the application that was here before. What the machine has begun
        is awaited.
        """
        with self.desk.reading:
            self.is_taken_back(self.requests / what)
            self.wait(what, lambda: not self.is_begun(what))

    def asked(self, what: str, number: int) -> dict[str, Any]:
        """The answer of the machine to a request, or a refusal."""
        answer, request = self.requests / f"{what}{DONE}", self.requests / what
        with self.desk.reading:
            # (what was read before is shown to nobody any more)
            self.desk.copy = None
            # (which an application before this one has asked for, and whose answer is not this one)
            self.wait(what, lambda: not self.is_begun(what))
            with readable():
                answer.unlink(missing_ok=True)
                self.put(request, f"{number}\n")
            end = self.clock() + BEGIN_SECONDS
            while request.exists():
                if self.clock() > end and self.is_taken_back(request):
                    raise Refused("the machine has not answered: tell IT support")
                time.sleep(PAUSE)
            self.wait(what, lambda: not self.is_begun(what))
            found = read(answer)
        if not is_answer(found, number):
            raise Refused("the machine could not answer: tell IT support")
        if "error" in found:
            raise Refused(ERRORS.get(str(found["error"]), plain.said(str(found.get("why", "")))))
        return found

    def is_begun(self, what: str) -> bool:
        """Whether the machine does what was asked, which nobody can take back then."""
        return os.path.lexists(self.requests / f"{what}{BEGUN}")

    def is_taken_back(self, request: pathlib.Path) -> bool:
        """Takes back a request, so that it is not done when nobody expects it; unless the machine
        has begun it meanwhile.
        """
        try:
            request.unlink()
        except FileNotFoundError:
            return False
        except OSError as error:
            raise Refused(f"a request cannot be undone: {plain.reason(error)}") from error
        return True

    def wait(self, what: str, is_so: Callable[[], bool]) -> None:
        """Waits for the end of what the machine has begun."""
        end = self.clock() + END_SECONDS
        while not is_so():
            if self.clock() > end:
                raise Refused(f"the machine has begun a {what} and not ended it: nothing else can"
                              " be asked of it now. Tell IT support")
            time.sleep(PAUSE)

    def put(self, path: pathlib.Path, text: str) -> None:
        """Writes a file in one step."""
        handle, new = tempfile.mkstemp(prefix=".", dir=path.parent)
        with open(handle, "w", encoding="ascii") as file:
            file.write(text)
            file.flush()
            os.fsync(file.fileno())
        os.rename(new, path)


def days_since(at: str) -> int:
    """How many days are since a moment of the history."""
    return (datetime.datetime.now(datetime.timezone.utc) - datetime.datetime.fromisoformat(at)).days


def is_answer(found: dict[str, Any], number: int) -> bool:
    """Whether an answer is that to a request; an error may know no number."""
    return found.get("number") == number or "error" in found and not found.get("number")


def read(path: pathlib.Path) -> dict[str, Any]:
    """What a file of the machine says; nothing where it is not there, or not yet whole."""
    try:
        fd = os.open(path, os.O_RDONLY | os.O_NOFOLLOW | os.O_NONBLOCK | os.O_CLOEXEC)
    except OSError:
        return {}
    with open(fd, "rb") as file:
        if not stat.S_ISREG(os.fstat(fd).st_mode):
            return {}
        try:
            found = json.loads(file.read(MOST_BYTES))
        except ValueError:
            return {}
    return found if isinstance(found, dict) else {}
