"""The history: who did what, when, and what the register answered. A file of lines that only grows.

Each line is an entry with the digest of the line before, so that no entry can be changed or left
out without notice. An entry is on the disk before what it announces is done.
"""
import dataclasses
import datetime
import fcntl
import hashlib
import json
import os
import threading
from collections.abc import Callable, Iterable, Iterator, Mapping
from typing import Any

from register_files import OWNER_ALONE, Refused

from office.core import commands, effects

from . import lineage

FIRST = "0" * 64
# what an entry is about: a request to the register, what came of it, or what a person did
SENDS, ANSWER, SETTLED = "sends", "answer", "settled"
# the register is that of a copy from here on: the copy, and the last entry from before it
RESTORED = "restored a copy"
# with more digits a text is the number of no child
MOST_DIGITS = 9


@dataclasses.dataclass(frozen=True)
class Entry:
    """An entry, with the moment in UTC."""

    number: int
    at: str
    who: str
    what: str
    about: dict[str, Any]

    def line(self, before: str) -> bytes:
        """The line of the entry after a line of this digest."""
        found = {"about": self.about, "at": self.at, "before": before, "n": self.number,
                 "what": self.what, "who": self.who}
        text = json.dumps(found, sort_keys=True, separators=(",", ":"), ensure_ascii=False)
        return text.encode("utf-8") + b"\n"


def digest(line: bytes) -> str:
    """The digest of a line."""
    return hashlib.sha256(line).hexdigest()


def entry_of(line: bytes, number: int, before: str) -> Entry:
    """The entry of a line that follows a line of this digest, or a ValueError."""
    found = json.loads(line)
    entry = Entry(found["n"], found["at"], found["who"], found["what"], found["about"])
    if entry.number != number or entry.line(before) != line:
        raise ValueError("the digest or the number is another")
    return entry


def entries_of(name: str, data: bytes) -> tuple[list[Entry], str]:
    """The entries of whole lines, and the digest of the last one. A line that was changed, and one
    after which a line is missing, is refused.
    """
    found: list[Entry] = []
    before = FIRST
    for at, text in enumerate(data.split(b"\n")[:-1], 1):
        line = text + b"\n"
        try:
            found.append(entry_of(line, at, before))
        except (ValueError, KeyError, TypeError) as error:
            raise Refused(f"{name}, line {at}: the history was changed there, or a line before it"
                          f" is missing: {error}") from error
        before = digest(line)
    return found, before


def says_done(it: Entry) -> bool:
    """Whether an entry says of a request that it is done."""
    return it.what == ANSWER and commands.is_done(it.about["answer"]) or (
        it.what == SETTLED and bool(it.about["done"]))


def numbers_in(about: Mapping[str, Any]) -> Iterator[int]:
    """The children that an entry is about, by what it has: an import, a list of children, or one
    child, which a row of the applications has as its number.
    """
    found = about.get("command", about)
    many, is_row = found.get("children"), "row" in found or "into" in found
    rows = effects.rows_of(found["import"]) if "import" in found else ()
    for it in (found.get("child"), found.get("number") if is_row else None,
               *(many if isinstance(many, list) else ()), *(row.get("child") for row in rows)):
        text = str(it)
        if text.isdecimal() and len(text) <= MOST_DIGITS:
            yield int(text)


def read(name: str) -> list[Entry]:
    """The entries of a history that nobody writes, as of a copy."""
    with open(name, "rb") as file:
        return entries_of(name, file.read())[0]


def now() -> str:
    """This moment."""
    return datetime.datetime.now(datetime.timezone.utc).isoformat(timespec="milliseconds")


def do_nothing() -> None:
    """Nobody else is told."""


class History:
    """The history of one application, which alone has it open."""

    def __init__(self, path: str, moment: Callable[[], str] = now) -> None:
        self.path, self.moment = path, moment
        self.lock = threading.RLock()
        self.is_broken = False
        self.fd = os.open(path, os.O_RDWR | os.O_CREAT | os.O_APPEND | os.O_CLOEXEC, OWNER_ALONE)
        try:
            fcntl.flock(self.fd, fcntl.LOCK_EX | fcntl.LOCK_NB)
        except BlockingIOError as error:
            os.close(self.fd)
            raise Refused(f"{path} is in use by another application") from error
        self.entries: list[Entry] = []
        # the requests of which no answer is known yet, and what came of the others
        self.open: dict[int, Entry] = {}
        self.ends: dict[int, Entry] = {}
        # the entries about each child, by their numbers
        self.about: dict[int, list[int]] = {}
        # what was told from outside, by its key
        self.told: set[str] = set()
        self.restores: list[tuple[int, int]] = []
        self.before, self.length = FIRST, 0
        # what is done when an entry was added; and when the file is another one
        self.added: Callable[[], None] = do_nothing
        self.replaced: Callable[[], None] = do_nothing
        try:
            self.load()
        except BaseException:
            os.close(self.fd)
            raise

    def load(self) -> None:
        """Takes the entries that are there."""
        with open(self.path, "rb") as file:
            data = file.read()
        # (a crash within a write leaves a part of a line: what it announced was not begun)
        whole = data[:data.rfind(b"\n") + 1]
        found, self.before = entries_of(self.path, whole)
        for it in found:
            self.take(it, set(numbers_in(it.about)))
        self.length = len(whole)
        if whole != data:
            os.ftruncate(self.fd, self.length)
            os.fsync(self.fd)
        self.sync_folder()

    def sync_folder(self) -> None:
        """Makes the name of the file durable."""
        folder = os.open(os.path.dirname(os.path.abspath(self.path)), os.O_RDONLY | os.O_CLOEXEC)
        try:
            os.fsync(folder)
        finally:
            os.close(folder)

    def add(self, who: str, what: str, about: dict[str, Any]) -> Entry:
        """Adds an entry, which is on the disk when this returns. Where it cannot be written, the
        file is as before, and this is refused.
        """
        with self.lock:
            if self.is_broken:
                raise Refused("the history could not be written, and nothing is recorded until the"
                              " application is started again")
            # (as it is read again: a key that is a number would be another one then)
            kept = json.loads(json.dumps(about))
            entry = Entry(len(self.entries) + 1, self.moment(), who, what, kept)
            # (before it is written: what cannot be read of an entry would leave the file ahead of
            # this, and the next line with a wrong digest)
            line, children = entry.line(self.before), set(numbers_in(kept))
            try:
                self.write(line)
            except OSError as error:
                self.take_back()
                raise Refused(f"the history cannot be written ({error.strerror}), and nothing is"
                              " recorded without it") from error
            self.take(entry, children)
            self.before, self.length = digest(line), self.length + len(line)
            self.added()
            return entry

    def write(self, line: bytes) -> None:
        """Writes a line behind the others, and waits for the disk."""
        rest = line
        while rest:
            rest = rest[os.write(self.fd, rest):]
        os.fsync(self.fd)

    def take_back(self) -> None:
        """Removes a part of a line. If that fails, nothing is written any more."""
        try:
            os.ftruncate(self.fd, self.length)
            os.fsync(self.fd)
        except OSError:
            self.is_broken = True

    def take(self, entry: Entry, children: Iterable[int] = ()) -> None:
        """Adds an entry, which is about these children, to those in memory."""
        self.entries.append(entry)
        if "told" in entry.about:
            self.told.add(entry.about["told"])
        for child in children:
            self.about.setdefault(child, []).append(entry.number)
        if entry.what == RESTORED:
            self.restores.append((entry.number, entry.about["position"]))
        if entry.what == SENDS:
            self.open[entry.number] = entry
        elif entry.what in (ANSWER, SETTLED):
            self.open.pop(entry.about["of"], None)
            self.ends[entry.about["of"]] = entry

    def begin_anew(self, who: str, what: str, about: dict[str, Any]) -> Entry:
        """Replaces the file by a new one of which this is the first entry. The one before is gone
        from the disk when this returns, or, after a crash, is there as it was.
        """
        with self.lock:
            entry = Entry(1, self.moment(), who, what, json.loads(json.dumps(about)))
            line, new = entry.line(FIRST), f"{self.path}.new"
            fd = os.open(new, os.O_RDWR | os.O_CREAT | os.O_TRUNC | os.O_APPEND | os.O_CLOEXEC,
                         OWNER_ALONE)
            fcntl.flock(fd, fcntl.LOCK_EX | fcntl.LOCK_NB)
            os.write(fd, line)
            os.fsync(fd)
            os.rename(new, self.path)
            self.sync_folder()
            os.close(self.fd)
            self.fd, self.entries, self.open, self.told = fd, [], {}, set()
            self.restores, self.ends, self.about = [], {}, {}
            self.take(entry)
            self.before, self.length = digest(line), len(line)
            self.replaced()
            self.added()
            return entry

    def open_requests(self) -> list[Entry]:
        """The requests to the register of which no answer is known yet."""
        with self.lock:
            return list(self.open.values())

    def end(self, number: int) -> Entry | None:
        """What came of a request: its answer, or the restore that has undone what was done."""
        found = self.ends.get(number)
        if self.restores and found and says_done(found) and number not in self.lineage():
            by = lineage.undone_by(self.restores, number)
            return self.entries[by - 1] if by else found
        return found

    def of_child(self, child: int) -> list[Entry]:
        """The entries about a child, the first one first."""
        return [self.entries[it - 1] for it in list(self.about.get(child, ()))]

    def lineage(self) -> lineage.Lineage:
        """What led to the register as it is."""
        return lineage.of(self.restores, len(self.entries))

    def done(self) -> Iterator[Entry]:
        """The requests to the register that are known to be done, the last first; without those
        that a restore has undone.
        """
        with self.lock:
            found, there = list(self.entries), self.lineage()
        known = {it.about["of"] for it in found if says_done(it)}
        return (it for it in reversed(found) if it.number in known and it.number in there)

    def close(self) -> None:
        """Ends the use of the file."""
        os.close(self.fd)
