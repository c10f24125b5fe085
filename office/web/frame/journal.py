"""The history for the machine's journal, and so for whoever collects it: who did what, without what
it was about. An entry is sent once it is on the disk, and the number of the last one that was sent
is in a file. So each is sent once; after a crash between the two writes the last one is repeated,
with the same number and digest.
"""
import contextlib
import os
import pathlib
import socket
from collections.abc import Callable, Iterator, Sequence

from register_files import OWNER_ALONE

from office.core import commands, rules
from office.web.register import history
from office.web.register.history import ANSWER, FIRST, SENDS, SETTLED, Entry

IDENTIFIER = "admissions-history"
# notice, and the facility of an audit
PRIORITY, FACILITY = "5", "13"
MOST = 200
# what the answer to a request, or what was found of it later, comes to
RESULTS = {True: "done", False: "not done"}
Send = Callable[[bytes], None]


def shown(text: str) -> str:
    """A text in one line of letters that can be read: no other makes a line or a field of its own.
    """
    return "".join(it if it.isprintable() else f"\\u{ord(it):04x}" for it in text[:MOST])


def command_of(entry: Entry) -> str:
    """The name of the command that an entry sends, or which other request it is."""
    if entry.what != SENDS:
        return ""
    name = str(entry.about.get("command", {}).get("cmd", ""))
    return name if name in rules.COMMANDS else "import" if "import" in entry.about else "line"


def result_of(entry: Entry) -> str:
    """What a request came to, where an entry says so."""
    if entry.what == ANSWER:
        return RESULTS[commands.is_done(entry.about.get("answer"))]
    return RESULTS[bool(entry.about.get("done"))] if entry.what == SETTLED else ""


def fields_of(register: str, entry: Entry, digest: str) -> dict[str, str]:
    """The fields of an entry in the journal. Nothing of them is of a child."""
    own = {
        "REGISTER": register, "ENTRY": str(entry.number), "AT": entry.at, "WHO": entry.who,
        "WHAT": entry.what, "COMMAND": command_of(entry), "RESULT": result_of(entry),
        "OF": str(entry.about["of"]) if entry.what in (ANSWER, SETTLED) else "", "DIGEST": digest,
    }
    of = f"of {own['OF']}" if own["OF"] else ""
    words = [entry.what, own["COMMAND"], of, own["RESULT"]]
    said = f"{register} entry {entry.number}: {entry.who}: {' '.join(filter(None, words))}"
    return {
        "MESSAGE": said, "PRIORITY": PRIORITY, "SYSLOG_FACILITY": FACILITY,
        "SYSLOG_IDENTIFIER": IDENTIFIER,
        **{f"ADMISSIONS_{name}": value for name, value in own.items() if value},
    }


def packed(fields: dict[str, str]) -> bytes:
    """Fields as the journal takes them, each on a line."""
    return "".join(f"{name}={shown(value)}\n" for name, value in fields.items()).encode()


def sender(path: str) -> Send:
    """Sends to the socket of the journal, and waits for nobody."""
    way = socket.socket(socket.AF_UNIX, socket.SOCK_DGRAM | socket.SOCK_CLOEXEC)
    way.setblocking(False)

    def send(data: bytes) -> None:
        way.sendto(data, path)

    return send


class Journal:
    """What was sent of the history of a register."""

    def __init__(self, register: str, mark: pathlib.Path, send: Send) -> None:
        self.register, self.mark, self.send = register, mark, send
        # how many entries were sent, and the digest of the last of them
        self.sent, self.last = self.read()

    def read(self) -> tuple[int, str]:
        """What the file says."""
        with contextlib.suppress(OSError, ValueError):
            number, digest = self.mark.read_text(encoding="ascii").split()
            return int(number), digest
        return 0, FIRST

    def begin(self, entries: Sequence[Entry]) -> None:
        """Sends what was not sent before. Where the history is not the one of which something was
        sent, all of it is.
        """
        found = list(lines_of(entries))
        known = found[self.sent - 1][1] if 0 < self.sent <= len(found) else FIRST
        if known != self.last:
            self.sent, self.last = 0, FIRST
        self.go_on(entries)

    def anew(self) -> None:
        """The history begins anew."""
        self.sent, self.last = 0, FIRST

    def go_on(self, entries: Sequence[Entry]) -> None:
        """Sends the entries behind the last one that was sent. What the journal does not take now
        is sent with the next entry.
        """
        for entry, digest in lines_of(entries[self.sent:], self.last):
            try:
                self.send(packed(fields_of(self.register, entry, digest)))
                self.sent, self.last = entry.number, digest
                self.write()
            except OSError:
                return

    def write(self) -> None:
        """Writes how much was sent."""
        fd = os.open(self.mark, os.O_WRONLY | os.O_CREAT | os.O_CLOEXEC, OWNER_ALONE)
        try:
            os.pwrite(fd, f"{self.sent:012} {self.last}\n".encode(), 0)
        finally:
            os.close(fd)


def lines_of(entries: Sequence[Entry], before: str = FIRST) -> Iterator[tuple[Entry, str]]:
    """Entries, each with the digest of its line."""
    for it in entries:
        before = history.digest(it.line(before))
        yield it, before
