"""A history as the verbs read it: which requests came since a moment, and what is not certain; by
histories that the application's own class writes, and that are damaged by hand."""
import datetime
import gzip
import os
import pathlib
import time
import typing

import pytest
from machine import files, histories, registers
from machine.verbs import evidence
from office.web.register.history import (
    ANSWER, FIRST, RESTORED, SENDS, SETTLED, Entry, History, digest,
)
from register_files import Refused

DAY = "2025-03-03T10:00:%02d.000+00:00"
DONE = {"done": True}
ROWS = 'child,name,east,north\r\n41,"T\u0177 ""T""",0,0\r\n'
LOOK = ", of which no answer is known"


class Made:
    """A history that the application has open, which is written at the seconds of one minute."""

    def __init__(self, path: pathlib.Path) -> None:
        self.second, self.path = 0, path
        self.history = History(str(path), lambda: DAY % self.second)

    def sends(self, about: dict[str, typing.Any], at: int = 1, who: str = "jane") -> int:
        """The number of a request, which is also that of its line."""
        self.second = at
        return self.history.add(who, SENDS, about).number

    def done(self, number: int, at: int = 1) -> int:
        """A command that was done, of this child."""
        of = self.sends({"command": command(number)}, at)
        self.history.add("jane", ANSWER, {"of": of, "answer": DONE})
        return number

    def lines(self) -> list[bytes]:
        return self.path.read_bytes().splitlines(keepends=True)


@pytest.fixture(name="made")
def made_fixture(
    register: registers.Register, monkeypatch: pytest.MonkeyPatch
) -> typing.Iterator[Made]:
    """The history of a register, on a machine whose clock is UTC."""
    monkeypatch.setenv("TZ", "UTC")
    time.tzset()
    found = Made(register.history)
    yield found
    found.history.close()
    monkeypatch.undo()
    time.tzset()


def command(number: int) -> dict[str, typing.Any]:
    return {"cmd": "add_child", "child": number, "name": f'T\u0177 {number} "\\" a\nb\u2028'}


def read(path: pathlib.Path, since: str = "2025-03-01") -> tuple[list[int], list[str]]:
    """The children of the commands that were done since a moment, 0 for an import; and what is not
    certain of the history."""
    record = histories.of_copy(path)
    moment = datetime.datetime.fromisoformat(since).astimezone()
    found = [it.entry.about.get("command", {"child": 0})["child"]
             for it in record.since(moment) if it.is_done and it.is_known]
    return found, list(evidence.doubts(record, moment))


def test_what_a_restore_has_undone_did_not_come_since(made: Made) -> None:
    """But what was sent again after it did, once; and all of it where the restore was taken back.
    """
    made.done(1)
    position = len(made.history.entries)
    made.done(2)
    whole = len(made.history.entries)
    made.history.add("hal", RESTORED, {"copy": 1, "position": position})
    made.done(3)
    assert read(made.path) == ([1, 3], [])
    made.history.add("hal", RESTORED, {"copy": 2, "position": whole})
    assert read(made.path) == ([1, 2], [])
    later = "2025-03-03T10:00:02"
    made.second = 3
    made.history.add("hal", RESTORED, {"copy": 3, "position": position})
    assert read(made.path, later)[1] == [
        "since that copy the office has restored another one: take a nightly copy that is older"
        " than that one"]


@pytest.mark.parametrize("what, more", [
    (ANSWER, {"answer": {"refused": 7, "name": "NotOffered"}}),
    (ANSWER, {"answer": {"fault": 3, "name": "NotJson"}}), (ANSWER, {"answer": {"memory": True}}),
    (ANSWER, {"answer": None}), (SETTLED, {"done": False, "why": "no connection"}),
])
@pytest.mark.parametrize("about", [{"command": command(1)}, {"import": ROWS}])
def test_what_was_not_done_did_not_come(
    made: Made, about: dict[str, typing.Any], what: str, more: dict[str, typing.Any]
) -> None:
    made.history.add("jane", what, {"of": made.sends(about), **more})
    made.done(2)
    made.history.add("jane", "refused", {"asked": "/people/", "role": "reader"})
    assert read(made.path) == ([2], [])


def test_what_was_found_to_be_done_is_in_the_place_where_it_was_sent(made: Made) -> None:
    made.history.add("jane", SETTLED, {"of": made.sends({"command": command(1)}), "done": True})
    second = made.sends({"import": ROWS}, 2)
    made.done(3, 3)
    made.history.add("jane", SETTLED, {"of": second, "done": True})
    assert read(made.path) == ([1, 0, 3], [])
    assert read(made.path, "2025-03-03T10:00:02") == ([0, 3], [])
    assert read(made.path, "2025-03-03T10:00:03+01:00") == ([1, 0, 3], [])


def test_what_is_not_certain_is_named_with_who_sent_it_and_when(made: Made) -> None:
    """What may be done, from the moment on; and a line that is no command, if the register took it.
    """
    made.sends({"command": command(1)}, 1, "ben")
    made.sends({"import": ROWS}, 2, "page.of@school")
    refused = made.sends({"line": "no command"}, 3)
    made.history.add("jane", ANSWER, {"of": refused, "answer": {"fault": 1, "name": "NotJson"}})
    later = made.sends({"line": '{"cmd":"later"}'}, 3, "hal")
    made.history.add("hal", ANSWER, {"of": later, "answer": DONE})
    made.done(2, 3)
    sent = "sent a command or an import at 2025-03-03 10:00:0"
    line = "hal sent a line that is no command here at 2025-03-03 10:00:03, which was done"
    assert read(made.path) == (
        [2], [f"ben {sent}1{LOOK}", f"page.of@school {sent}2{LOOK}", line])
    assert read(made.path, "2025-03-03T10:00:03") == ([2], [line])


Damage = typing.Callable[[list[bytes]], list[bytes]]
FORGED = Entry(5, DAY % 3, "eve", SENDS, {"command": command(9)})
# what is done to the lines; which line is named; how many of the commands are read, and how many
# are named since their answer is at or behind that line, or may be the one that was changed
DAMAGED: dict[str, tuple[Damage, int, int, int]] = {
    "a command": (lambda it: [*it[:2], it[2].replace(b" 2 ", b" 9 "), *it[3:]], 4, 1, 1),
    "who sent it": (lambda it: [*it[:2], it[2].replace(b"jane", b"jean"), *it[3:]], 4, 1, 1),
    "an answer": (lambda it: [*it[:3], it[3].replace(b"true", b"null"), *it[4:]], 5, 1, 1),
    "the layout": (lambda it: [*it[:2], it[2].replace(b'"n":3', b'"n": 3'), *it[3:]], 3, 1, 0),
    "a line is missing": (lambda it: it[:4] + it[5:], 5, 1, 1),
    "the first is missing": (lambda it: it[1:], 1, 0, 0),
    "two lines are missing": (lambda it: it[:3] + it[5:], 4, 1, 1),
    "two changed places": (lambda it: [*it[:2], it[3], it[2], *it[4:]], 3, 0, 1),
    "a line is there twice": (lambda it: it[:3] + it[2:], 4, 1, 1),
    "one of another history": (lambda it: [*it[:4], FORGED.line(FIRST), *it[4:]], 5, 1, 1),
    "one more, which the next does not know": (
        lambda it: [*it[:4], FORGED.line(digest(it[3])), *it[4:]], 6, 2, 1),
    "an empty line": (lambda it: [*it[:2], b"\n", *it[2:]], 3, 1, 0),
    "zeros": (lambda it: [*it[:2], bytes(len(it[2]) - 1) + b"\n", *it[3:]], 3, 1, 0),
    "no text": (lambda it: [*it[:2], b"\xff\n", *it[3:]], 3, 1, 0),
    "no object": (lambda it: [*it[:2], b"[]\n", *it[3:]], 3, 1, 0),
    "too deep": (lambda it: [*it[:3], b"[" * 100_000 + b"\n", *it[4:]], 4, 1, 1),
}


@pytest.mark.parametrize("what", DAMAGED)
def test_a_history_that_was_changed_is_named_with_its_line(made: Made, what: str) -> None:
    """What is before the line is read, and nothing behind it."""
    for it in range(1, 5):
        made.done(it, it)
    damage, line, count, doubtful = DAMAGED[what]
    made.path.write_bytes(b"".join(damage(made.lines())))
    found, (problem, *others) = read(made.path)
    assert found == list(range(1, count + 1))
    assert problem.startswith(f"{made.path}, line {line}: the history was changed there")
    assert [it.endswith(LOOK) for it in others] == [True] * doubtful


@pytest.mark.parametrize("what, about", [
    (SENDS, {}), (SENDS, {"command": "accept"}), (SENDS, {"import": 1}), (SENDS, []),
    (ANSWER, {"of": 1, "answer": DONE}), (ANSWER, {"of": 9, "answer": DONE}), (ANSWER, {"of": 2}),
    (SETTLED, {"of": 2}), (SETTLED, {"of": [], "done": True}),
])
def test_an_entry_that_the_application_does_not_write_is_named(
    made: Made, what: str, about: typing.Any
) -> None:
    """Also where its digest is right."""
    made.history.add("jane", "signed in", {})
    made.done(1)
    made.path.write_bytes(
        b"".join(made.lines()) + Entry(4, DAY % 3, "eve", what, about).line(made.history.before))
    found, [problem] = read(made.path)
    assert found == [1]
    assert problem.startswith(f"{made.path}, line 4: the history was changed there")


@pytest.mark.parametrize("at, is_moment", [("never", False), ("", False), ("2025-03-03", True)])
def test_so_is_one_without_a_moment(made: Made, at: str, is_moment: bool) -> None:
    """A day alone is one, as midnight."""
    made.path.write_bytes(Entry(1, at, "eve", SENDS, {"command": {}}).line(FIRST))
    problem = histories.of_copy(made.path).problem
    assert problem.startswith(f"{made.path}, line 1: ") is not is_moment


@pytest.mark.parametrize("cut", [1, 30, 100, -2, -1])
def test_a_last_line_that_is_not_whole_is_passed_over(made: Made, cut: int) -> None:
    """A command of which a part is written was not sent yet."""
    made.done(1)
    part = Entry(3, DAY % 2, "ben", SENDS, {"command": command(2)}).line(made.history.before)[:cut]
    with open(made.path, "ab") as file:
        file.write(part)
    assert read(made.path) == ([1], [])


def test_the_application_goes_on_meanwhile(made: Made) -> None:
    """Reading takes no lock that it has or wants, and changes nothing."""
    made.done(1)
    before = made.path.read_bytes()
    assert read(made.path) == ([1], []) and made.path.read_bytes() == before
    made.done(2)
    assert read(made.path) == ([1, 2], [])


@pytest.mark.parametrize("damage, least", [
    (lambda it: it, 39), (lambda it: it[:-20], 30), (lambda it: it[:40], 0),
    (lambda it: it[:60] + bytes(40) + it[100:], 0),
])
def test_of_a_compressed_copy_under_any_name_what_can_be_read_is_taken(
    made: Made, tmp_path: pathlib.Path, damage: typing.Callable[[bytes], bytes], least: int
) -> None:
    """`least` is how many of its commands are read at least."""
    for it in range(1, 40):
        made.done(it)
    path = tmp_path / "brought back"
    path.write_bytes(damage(gzip.compress(made.path.read_bytes())))
    record = histories.of_copy(path)
    children = [it.entry.about["command"]["child"] for it in record.requests.values()]
    assert children == list(range(1, len(children) + 1)) and len(children) >= least
    assert (str(path) in record.problem) is (least < 39)


@pytest.mark.parametrize("content", [b"no history", gzip.compress(b"no history", mtime=0)])
def test_a_file_of_something_else_is_named(content: bytes, tmp_path: pathlib.Path) -> None:
    """Also one without a whole line."""
    path = tmp_path / "something else"
    path.write_bytes(content)
    assert histories.of_copy(path).problem == f"{path} has no entry of a history"


@pytest.mark.parametrize("make_it", [
    lambda it: it.symlink_to("aside"), os.mkfifo, lambda it: it.mkdir(), lambda _: None])
def test_what_is_no_file_of_the_application_is_not_read(
    made: Made, register: registers.Register, monkeypatch: pytest.MonkeyPatch,
    make_it: typing.Callable[[pathlib.Path], object],
) -> None:
    """Nor is a link followed, or anybody waited for."""
    monkeypatch.setattr(files, "numbers", lambda *_: (os.getuid(), os.getgid()))
    made.done(1)
    assert list(histories.of_register(register).requests) == [1]
    made.path.rename(made.path.with_name("aside"))
    make_it(made.path)
    with pytest.raises((Refused, OSError)) as found:
        histories.of_register(register)
    assert str(made.path) in str(found.value)
