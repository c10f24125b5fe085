"""The history of an office's application, as the commands of a machine read it: while it is
written, from a copy, and of one that was changed as far as it holds."""
import collections
import dataclasses
import datetime
import gzip
import io
import json
import os
import pathlib
import stat
import typing
import zlib

from office.core import commands
from office.web.register import history, lineage
from office.web.register.history import Entry
from register_files import Refused

from . import files
from .programs import OFFICE
from .registers import Register

GZIP = b"\x1f\x8b"
CHUNK = 1 << 16
# What reading a compressed file raises that is damaged
UNREADABLE = (OSError, EOFError, zlib.error)
# What a line raises that is no entry
NO_ENTRY = (ValueError, KeyError, TypeError, AttributeError, OverflowError, RecursionError)


@dataclasses.dataclass
class Request:
    """A request to the register: its entry, when it was sent, and whether it is done, as far as
    that is known."""

    entry: Entry
    moment: datetime.datetime
    is_done: bool | None = None

    @property
    def is_known(self) -> bool:
        """Whether the application knew what it sent: a command, or an import."""
        return "line" not in self.entry.about

    def in_words(self, what: str) -> str:
        """Who sent it and when, and what it is in these words."""
        return f"{self.entry.who} sent {what} at {self.moment:%Y-%m-%d %H:%M:%S}"


class Record:
    """The entries of a history and its requests by their numbers, which are those of their lines.
    Where it was changed, `problem` names the line, and there is what is before it."""

    def __init__(self, name: str, data: bytes) -> None:
        self.name, self.problem = name, ""
        self.entries: list[Entry] = []
        self.requests: dict[int, Request] = {}
        self.restores: list[tuple[int, int]] = []
        before = history.FIRST
        # (what is behind the last line end is being written, or a crash has left it)
        for at, text in enumerate(data.split(b"\n")[:-1], 1):
            line = text + b"\n"
            try:
                self.take(history.entry_of(line, at, before))
            except NO_ENTRY as error:
                self.problem = f"{name}, line {at}: the history was changed there: {error}"
                if follows_another(line, before):
                    self.problem = (
                        f"{name}, line {at}: the history was changed there or in the line before,"
                        " or a line between them is missing"
                    )
                    self.doubt_last()
                return
            before = history.digest(line)

    def doubt_last(self) -> None:
        """Takes an answer in the last line for none: no line follows that has its digest."""
        if self.entries and self.entries[-1].what in (history.ANSWER, history.SETTLED):
            self.requests[self.entries[-1].about["of"]].is_done = None

    def take(self, entry: Entry) -> None:
        """Adds an entry."""
        moment = datetime.datetime.fromisoformat(entry.at).astimezone()
        if entry.what == history.SENDS:
            see_request(entry.about)
            self.requests[entry.number] = Request(entry, moment)
        elif entry.what == history.ANSWER:
            self.requests[entry.about["of"]].is_done = commands.is_done(entry.about["answer"])
        elif entry.what == history.SETTLED:
            self.requests[entry.about["of"]].is_done = bool(entry.about["done"])
        elif entry.what == history.RESTORED:
            self.restores.append((entry.number, int(entry.about["position"])))
        self.entries.append(entry)

    def undone(self) -> set[int]:
        """The requests that a restore by the application has undone."""
        there = lineage.of(self.restores, len(self.entries))
        return {number for number in self.requests if number not in there}

    def since(self, moment: datetime.datetime) -> list[Request]:
        """The requests since a moment that are done, or may be, and that no restore has undone."""
        undone = self.undone()
        return [it for number, it in self.requests.items()
                if it.moment >= moment and it.is_done is not False and number not in undone]

    def is_on_the_way(self, since: datetime.datetime) -> bool:
        """Whether the register of now is that of this moment with all that was sent later: no
        restore has since undone what was done before, or brought back what was undone then."""
        if not self.restores:
            return True
        numbers = (
            it.number for it in self.entries if datetime.datetime.fromisoformat(it.at) < since)
        then = lineage.of(self.restores, max(numbers, default=0))
        now = lineage.of(self.restores, len(self.entries))
        return all((number in then) == (number in now) for number, it in self.requests.items()
                   if it.moment < since and it.is_done is not False)

    def open_requests(self) -> list[Request]:
        """The requests of which no answer is known."""
        return [it for it in self.requests.values() if it.is_done is None]


def follows_another(line: bytes, before: str) -> bool:
    """Whether a line is that of an entry behind another line than one of this digest."""
    try:
        found = json.loads(line)
        return history.entry_of(line, found["n"], found["before"]).line(before) != line
    except NO_ENTRY:
        return False


def see_request(about: dict[str, typing.Any]) -> None:
    """Raises an error unless this is a command, the rows of an import, or a line that was passed on
    as it is."""
    is_command = isinstance(about.get("command"), dict)
    if not is_command and not any(isinstance(about.get(it), str) for it in ("import", "line")):
        raise ValueError("a request without a command")


def counted(words: typing.Iterable[str]) -> str:
    """Words in their order, each with how often it is there."""
    counts = sorted(collections.Counter(words).items())
    return ", ".join(f"{word} ({count})" for word, count in counts)


def whole_lines(data: bytes) -> bytes:
    """Without a last line that is not whole."""
    return data[: data.rfind(b"\n") + 1]


def data_of(register: Register) -> bytes:
    """The history of a register's application, as its user reads it."""
    try:
        return files.content_as(OFFICE, register.history)
    except FileNotFoundError as error:
        raise Refused(f"{register.history} is not there") from error


def of_register(register: Register) -> Record:
    """The history of a register's application."""
    return Record(str(register.history), data_of(register))


def of_copy(path: pathlib.Path) -> Record:
    """A history in a file, compressed or not. Of a damaged one there is what can be read."""
    with open(os.open(path, files.READ), "rb") as file:
        if not stat.S_ISREG(os.fstat(file.fileno()).st_mode):
            raise Refused(f"{path} is no file")
        data, problem = files.bounded(path, file.read), ""
    if data.startswith(GZIP):
        data, problem = unpacked(path, data)
    found = Record(str(path), data)
    if data and not found.entries:
        problem = problem or f"{path} has no entry of a history"
    found.problem = found.problem or problem
    return found


def unpacked(path: pathlib.Path, data: bytes) -> tuple[bytes, str]:
    """What can be read of a compressed file, and why not all of it, or ""."""
    pieces, size = [], 0
    with gzip.open(io.BytesIO(data)) as packed:
        try:
            while piece := packed.read1(CHUNK):
                pieces.append(piece)
                size += len(piece)
                files.see_length(path, size)
        except UNREADABLE as error:
            return b"".join(pieces), f"{path} can be read in part: {error}"
    return b"".join(pieces), ""
