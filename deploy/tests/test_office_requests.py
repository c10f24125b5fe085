"""Requests of the office's application to the machine, where something fails: as its path unit
starts a request again and again while it is there, its work must not be done again and again."""
import contextlib
import json
import os
import resource
import typing

import pytest
from machine import office_requests, registers
from machine.office_requests import Result
from register_files import Refused


class Machine:
    """What is asked of a machine, which counts how often it does it."""

    def __init__(self, register: registers.Register) -> None:
        self.register, self.done = register, 0
        self.folder = register.office / "requests"
        self.folder.mkdir()

    def ask(self) -> None:
        """The application asks for a copy."""
        (self.folder / "copy").write_text("7\n", encoding="ascii")

    def watch(self, work: typing.Callable[[int], Result]) -> list[object]:
        """What comes of each run that the path unit starts, five at most."""
        said: list[object] = []
        while len(said) < 5 and any((self.folder / it).exists() for it in ("copy", "copy.begun")):
            try:
                said.append(office_requests.handled(self.register, "copy", work))
            except (OSError, Refused) as error:
                said.append(str(error))
        return said

    def work(self, number: int) -> Result:
        """Makes a copy."""
        self.done += 1
        return {"copy": f"office-{number:06}"}

    def answer(self) -> dict[str, object]:
        """What the application reads."""
        found: dict[str, object] = json.loads((self.folder / "copy.done").read_bytes())
        return found


@pytest.fixture(name="asked")
def asked_fixture(register: registers.Register) -> Machine:
    """A machine that is asked for a copy."""
    found = Machine(register)
    found.ask()
    return found


@contextlib.contextmanager
def no_room() -> typing.Iterator[None]:
    """No file takes a byte, as on a full disk."""
    before = resource.getrlimit(resource.RLIMIT_FSIZE)
    resource.setrlimit(resource.RLIMIT_FSIZE, (0, before[1]))
    try:
        yield
    finally:
        resource.setrlimit(resource.RLIMIT_FSIZE, before)


def left(asked: Machine) -> list[str]:
    return sorted(it.name for it in asked.folder.iterdir())


def test_a_request_is_done_once_and_answered(asked: Machine) -> None:
    assert asked.watch(asked.work) == [0]
    assert asked.done == 1
    assert asked.answer() == {"copy": "office-000007", "number": 7}
    assert left(asked) == ["copy.done"]
    assert (asked.folder / "copy.done").stat().st_mode & 0o777 == 0o644


def test_without_room_for_the_answer_nothing_is_done(asked: Machine) -> None:
    with no_room():
        said = asked.watch(asked.work)
    assert (asked.done, left(asked)) == (0, [])
    assert said == ["the request copy has no answer, and is not done again: File too large"]
    asked.ask()
    assert (asked.watch(asked.work), asked.done) == ([0], 1)


def test_an_answer_that_cannot_be_written_does_not_repeat_the_work(
    asked: Machine, monkeypatch: pytest.MonkeyPatch
) -> None:
    rename = os.rename

    def broken(name: str, new: str, **folders: int) -> None:
        if new == "copy.done":
            raise OSError(5, "Input/output error")
        rename(name, new, **folders)

    monkeypatch.setattr(os, "rename", broken)
    assert len(asked.watch(asked.work)) == 1
    assert (asked.done, (asked.folder / "copy.begun").exists()) == (1, False)


@pytest.mark.parametrize("error", [Refused("rsync is missing"), OSError(5, "Input/output error")])
def test_work_that_fails_in_a_way_of_its_own_is_answered(
    error: Exception, asked: Machine
) -> None:
    def work(_: int) -> Result:
        asked.done += 1
        raise error

    assert (asked.watch(work), asked.done) == ([1], 1)
    assert asked.answer() == {"error": "NotDone", "number": 7, "why": str(error)}
    assert left(asked) == ["copy.done"]


def test_a_fault_of_the_work_is_not_repeated(asked: Machine) -> None:
    def faulty(_: int) -> Result:
        asked.done += 1
        raise ZeroDivisionError

    with pytest.raises(ZeroDivisionError):
        asked.watch(faulty)
    assert (asked.watch(asked.work), asked.done, (asked.folder / "copy.begun").exists()) == (
        [], 1, False)


def test_what_is_killed_is_done_again(asked: Machine) -> None:
    """A request that was begun, and whose answer is not there."""
    def killed(_: int) -> Result:
        raise KeyboardInterrupt

    with pytest.raises(KeyboardInterrupt):
        asked.watch(killed)
    assert "copy.begun" in left(asked)
    assert (asked.watch(asked.work), asked.done) == ([0], 1)
    assert left(asked) == ["copy.done"]
