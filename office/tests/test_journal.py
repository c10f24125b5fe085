"""The history in the machine's journal: each entry once, by fields that nobody can forge, without
anything of a child; and where the journal is away, once it is back.
"""
import pathlib
import re
import socket
from collections.abc import Iterator
from typing import Any

import pytest
from applications import ROUND, office_over, town

from office.web.frame import journal
from office.web.frame.journal import Journal
from office.web.register import history
from office.web.register.history import ANSWER, SENDS, SETTLED, Entry, History

NAME = "secondary-2025"
COMMAND = {"cmd": "add_child", "child": 7, "name": "Ada Abel\nPRIORITY=0", "east": 1, "north": 2}


class Machine:
    """The journal of a machine, by a socket that a test reads; it can be away."""

    def __init__(self, folder: pathlib.Path) -> None:
        self.path = folder / "socket"
        self.mark = folder / "mark"
        self.way: socket.socket | None = None

    def begin(self) -> None:
        """It is there from now on."""
        self.way = socket.socket(socket.AF_UNIX, socket.SOCK_DGRAM)
        self.way.bind(str(self.path))
        self.way.setblocking(False)

    def end(self) -> None:
        """It is away."""
        assert self.way
        self.way.close()
        self.path.unlink()

    def taken(self) -> list[dict[str, str]]:
        """What it has taken since, each as the fields of the journal's own form."""
        assert self.way
        found: list[dict[str, str]] = []
        while True:
            try:
                data = self.way.recv(1 << 16)
            except BlockingIOError:
                return found
            lines = data.decode().split("\n")
            assert lines.pop() == ""
            fields = dict(it.split("=", 1) for it in lines)
            assert len(fields) == len(lines)
            assert all(re.fullmatch("[A-Z_]+", it) for it in fields)
            found.append(fields)

    def numbers(self) -> list[int]:
        """The numbers of the entries that it has taken since."""
        return [int(it["ADMISSIONS_ENTRY"]) for it in self.taken()]


@pytest.fixture(name="machine")
def machine_fixture(tmp_path: pathlib.Path) -> Iterator[Machine]:
    """A machine whose journal is there."""
    found = Machine(tmp_path)
    found.begin()
    yield found
    if found.way:
        found.way.close()


def opened(machine: Machine, path: pathlib.Path) -> History:
    """The history of an application that begins now, which tells the journal of it."""
    record = History(str(path))
    told = Journal(NAME, machine.mark, journal.sender(str(machine.path)))
    told.begin(record.entries)
    record.added, record.replaced = lambda: told.go_on(record.entries), told.anew
    return record


def test_each_entry_is_sent_once(machine: Machine, tmp_path: pathlib.Path) -> None:
    """Also where the application begins again; its digest is that of the line."""
    path = tmp_path / "history.jsonl"
    record = opened(machine, path)
    record.add("jane", "signed in", {})
    of = record.add("jane", SENDS, {"command": COMMAND}).number
    record.add("jane", ANSWER, {"of": of, "answer": {"done": True}})
    found = machine.taken()
    assert [it["MESSAGE"] for it in found] == [
        "secondary-2025 entry 1: jane: signed in",
        "secondary-2025 entry 2: jane: sends add_child",
        "secondary-2025 entry 3: jane: answer of 2 done"]
    assert [it["ADMISSIONS_DIGEST"] for it in found] == [
        history.digest(it + b"\n") for it in path.read_bytes().splitlines()]
    assert {it["SYSLOG_FACILITY"] for it in found} == {"13"}
    assert found[2] | {"ADMISSIONS_AT": "", "ADMISSIONS_DIGEST": ""} == {
        "MESSAGE": "secondary-2025 entry 3: jane: answer of 2 done", "PRIORITY": "5",
        "SYSLOG_FACILITY": "13", "SYSLOG_IDENTIFIER": "admissions-history",
        "ADMISSIONS_REGISTER": NAME, "ADMISSIONS_ENTRY": "3", "ADMISSIONS_WHO": "jane",
        "ADMISSIONS_WHAT": "answer", "ADMISSIONS_OF": "2", "ADMISSIONS_RESULT": "done",
        "ADMISSIONS_AT": "", "ADMISSIONS_DIGEST": ""}
    record.close()
    record = opened(machine, path)
    assert machine.numbers() == []
    record.add("jane", "signed in", {})
    assert machine.numbers() == [4]
    record.close()


def test_nothing_of_a_child_is_sent(machine: Machine, tmp_path: pathlib.Path) -> None:
    """Neither of a command, of a line that is none, nor of an import."""
    record = opened(machine, tmp_path / "history.jsonl")
    every: list[dict[str, Any]] = [
        {"command": COMMAND}, {"line": '{"cmd":"Ada Abel","child":7}'},
        {"import": "child,name\n7,Ada Abel\n"}, {"command": {"cmd": "Ada Abel", "child": 7}}]
    for about in every:
        record.add("jane", SENDS, about)
    record.add("jane", SETTLED, {"of": 1, "done": False, "said": "Ada Abel"})
    record.add("jane", "added a note", {"child": 7, "text": "Ada Abel"})
    found = machine.taken()
    assert [it.get("ADMISSIONS_COMMAND") for it in found] == [
        "add_child", "line", "import", "line", None, None]
    assert found[4]["ADMISSIONS_RESULT"] == "not done"
    assert "Ada" not in str(found) and "child\": 7" not in str(found)
    record.close()


@pytest.mark.parametrize("text", [
    "eve\nADMISSIONS_WHO=jane", "eve\r\nfeb 1 sshd: root", "eve\x00", "eve\x1b[2J", "eve\u2028x",
    "eve\u202ex", "e" * 100_000])
def test_no_text_makes_a_field_or_a_line_of_its_own(text: str) -> None:
    """Whatever is in a name: by the rules of names none of this is."""
    for entry in (Entry(1, "at", text, "signed in", {}), Entry(1, text, "eve", text, {}),
                  Entry(1, "at", "eve", ANSWER, {"of": text, "answer": None})):
        fields = journal.fields_of(NAME, entry, "d")
        data = journal.packed(fields).decode()
        lines = data.split("\n")
        assert [it.partition("=")[0] for it in lines[:-1]] == list(fields) and lines[-1] == ""
        assert all(it.isprintable() and len(it) < 7 * journal.MOST for it in lines)
        assert len(data.splitlines()) == len(fields)


def test_a_journal_that_is_away_gets_it_later(machine: Machine, tmp_path: pathlib.Path) -> None:
    """Nothing waits for it, and the order stays."""
    record = opened(machine, tmp_path / "history.jsonl")
    record.add("jane", "one", {})
    assert machine.numbers() == [1]
    machine.end()
    record.add("jane", "two", {})
    record.add("jane", "three", {})
    machine.begin()
    record.add("jane", "four", {})
    assert machine.numbers() == [2, 3, 4]
    machine.end()
    record.add("jane", "five", {})
    record.close()
    machine.begin()
    opened(machine, tmp_path / "history.jsonl").close()
    assert machine.numbers() == [5]


def test_a_journal_that_takes_no_more(machine: Machine, tmp_path: pathlib.Path) -> None:
    """Its queue is full: the application goes on, and the rest follows."""
    record = opened(machine, tmp_path / "history.jsonl")
    for _ in range(2000):
        record.add("jane", "one", {})
    first = machine.numbers()
    assert 0 < len(first) < 2000
    found = first
    while not found or found[-1] < 2000 + 1:
        if len(record.entries) == 2000:
            record.add("jane", "last", {})
        else:
            record.added()
        found += machine.numbers()
    assert found == list(range(1, 2002))
    record.close()


def test_another_history_is_sent_whole(machine: Machine, tmp_path: pathlib.Path) -> None:
    """As after the deletion of a season, and where that of another machine was brought back."""
    record = opened(machine, tmp_path / "history.jsonl")
    for it in ("one", "two"):
        record.add("jane", it, {})
    assert machine.numbers() == [1, 2]
    record.begin_anew("jane", "deleted the season", {})
    record.add("jane", "signed in", {})
    assert machine.numbers() == [1, 2]
    record.close()
    for _ in range(3):
        other = History(str(tmp_path / "other.jsonl"))
        other.add("hal", "three", {})
        other.close()
    opened(machine, tmp_path / "other.jsonl").close()
    assert machine.numbers() == [1, 2, 3]


@pytest.mark.parametrize("mark", ["", "x y", "7", "-1 d", "99 d", "\x00"])
def test_a_mark_that_cannot_be_read(
    mark: str, machine: Machine, tmp_path: pathlib.Path
) -> None:
    """All is sent again, and nothing is left out."""
    record = opened(machine, tmp_path / "history.jsonl")
    record.add("jane", "one", {})
    record.close()
    machine.taken()
    machine.mark.write_text(mark, encoding="ascii")
    opened(machine, tmp_path / "history.jsonl").close()
    assert machine.numbers() == [1]


def test_the_application_tells_the_journal(
    machine: Machine, tmp_path: pathlib.Path, monkeypatch: pytest.MonkeyPatch
) -> None:
    """As many entries as its history has."""
    with office_over(tmp_path, [*town(), ROUND]) as office:
        told = Journal(NAME, machine.mark, journal.sender(str(machine.path)))
        office.parts.tell(told)
        office.browser("jane")
        office.record("jane", {"cmd": "accept", "child": 1, "school": "A"})
        assert machine.numbers() == [it.number for it in office.parts.history.entries]
