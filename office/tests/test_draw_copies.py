"""Copies of the register by a unit of the machine, asked for by the application; and restores."""
import argparse
import errno
import functools
import json
import os
import pathlib
import sys
import time
from collections.abc import Callable
from typing import Any

import pytest
from draw_site import NAME, RAISED, Machine
from machine import office_copy, office_requests, office_restore, programs
from machine.registers import Register
from register_files import Refused
from served import do_over

from office.web.copies import copies


def test_a_copy_is_that_of_the_register(small: Machine, monkeypatch: pytest.MonkeyPatch) -> None:
    """One that shows something else is refused, as is one of another number, an error of the
    machine, and no answer.
    """
    with small.office() as office:
        found = office.parts.copies
        assert found.make("a try") == 1 and found.path(1).exists()
        assert [(it.number, it.purpose, it.size) for it in found.listed()] == [
            (1, "a try", found.path(1).stat().st_size)]
        assert found.register(1).children.keys() == {1, 2, 3, 4, 5}
        with pytest.raises(Refused, match="there is no copy 7"):
            found.path(7)
        do_over(small.address, [RAISED])
        # from here on the machine takes each request and does nothing, and its answers are these
        small.is_ended.set()
        small.thread.join()
        monkeypatch.setattr(copies.Copies, "put", lambda *_: None)
        old, name = found.path(1), "office-{:06}-2025-03-03T101112.db"
        answers: list[tuple[dict[str, Any], str]] = [
            ({"copy": old.name}, "another copy than was asked for"),
            ({"copy": "../../reg.db"}, "another copy than was asked for"),
            ({"copy": 7}, "another copy than was asked for"),
            ({"error": "NotCopied", "why": "the disk is full"}, "the disk is full"),
            ({"error": "NoNumber", "number": 0}, "does not take the request for a number"),
            ({"copy": name.format(7)}, "the copy differs from the register"),
        ]
        for at, (answer, said) in enumerate(answers, 2):
            def read(_: object, it: dict[str, Any] = {"number": at, **answer}) -> dict[str, Any]:
                if it.get("copy") == name.format(7) and old.exists():
                    old.rename(old.with_name(name.format(7)))
                return it

            monkeypatch.setattr(copies, "read", read)
            with pytest.raises(Refused, match=said):
                found.make("a try")
        assert len(found.listed()) == 1
        monkeypatch.setattr(copies, "read", lambda _: {"number": 1, "copy": name.format(1)})
        with pytest.raises(Refused, match="the machine could not answer"):
            found.make("a try")
        (small.state / "requests" / "copy.begun").touch()
        monkeypatch.setattr(copies, "END_SECONDS", 0.2)
        with pytest.raises(Refused, match="the machine has begun a copy and not ended it"):
            found.make("a try")


def test_what_the_machine_has_not_begun_is_taken_back(
    small: Machine, monkeypatch: pytest.MonkeyPatch
) -> None:
    """And is not done later, when nobody expects it."""
    with small.office() as office:
        found = office.parts.copies
        assert found.make("a try") == 1
        do_over(small.address, [RAISED])
        small.is_ended.set()
        small.thread.join()
        monkeypatch.setattr(copies, "BEGIN_SECONDS", 0.2)
        with pytest.raises(Refused, match="the machine has not answered"):
            found.make("a try")
        with pytest.raises(Refused, match="the machine has not answered"):
            found.restore(1, "hal")
        given = argparse.Namespace(name=NAME)
        for command in (office_copy, office_restore):
            with pytest.raises(Refused, match="there is no request"):
                command.main(given)
        assert office.parts.desk.now().schools["OAK"].pan == RAISED["pan"]


def test_what_the_machine_has_begun_is_awaited(
    small: Machine, monkeypatch: pytest.MonkeyPatch
) -> None:
    """However long it takes; and so is what an application before this one has asked for, whose
    answer is not that to another request.
    """
    real = office_requests.stop

    def slowly(register: Register) -> None:
        time.sleep(1)
        real(register)

    monkeypatch.setattr(office_requests, "stop", slowly)
    monkeypatch.setattr(copies, "BEGIN_SECONDS", 0.3)
    with small.office() as office:
        found = office.parts.copies
        assert found.make("a try") == 1
        new = small.state / "requests" / "new"
        new.write_text("1\n")
        new.rename(new.with_name("restore"))
        while not new.with_name("restore.begun").exists():
            time.sleep(0.01)
        do_over(small.address, [RAISED])
        count = small.answered
        found.restore(1, "hal")
        assert small.answered >= count + 1
        assert not list((small.state / "requests").glob("*.begun"))


def test_a_machine_that_cannot_answer_is_not_awaited(
    small: Machine, monkeypatch: pytest.MonkeyPatch
) -> None:
    """Its disk is full: it has removed the request, so nothing more comes of it."""
    def full(*_: object) -> int:
        raise OSError(errno.ENOSPC, "no room")

    monkeypatch.setattr(os, "posix_fallocate", full)
    with small.office() as office, pytest.raises(Refused, match="the machine could not answer"):
        office.parts.copies.make("a try")


def answer_of(machine: Machine, what: str) -> dict[str, Any]:
    """What the machine has answered."""
    found: dict[str, Any] = json.loads((machine.state / "requests" / f"{what}.done").read_text())
    return found


def asked(machine: Machine, what: str, make: Callable[[pathlib.Path], object]) -> dict[str, Any]:
    """The answer to a request that is made in this way, and is there in one step."""
    new, count = machine.state / "requests" / "new", machine.answered
    make(new)
    new.rename(new.with_name(what))
    for _ in range(3000):
        if machine.answered > count:
            return answer_of(machine, what)
        machine.is_ended.wait(0.01)
    raise AssertionError("no answer")


WRONG_REQUESTS = {
    "a path": b"../../etc/passwd", "nothing": b"", "a number and more": b"1; reboot",
    "zero": b"0", "lines": b"1\n2\n", "too long": b"1" * 70, "minus": b"-1",
    "Arabic digits": "١".encode(), "a blank": b" 1",
}


@pytest.mark.parametrize("what", ("copy", "restore"))
def test_the_machine_takes_digits_alone(small: Machine, what: str) -> None:
    """Anything else is refused by name, its content is not repeated, no link is followed, and the
    register is served on.
    """
    run = small.run
    for data in WRONG_REQUESTS.values():
        answer = asked(small, what, functools.partial(pathlib.Path.write_bytes, data=data))
        assert (answer["error"], answer["number"]) == ("NoNumber", 0)
        assert answer["why"] == f"the request {what} is no number"
    secret = small.folder / "secret"
    secret.write_text("17")
    makers: list[Callable[[pathlib.Path], object]] = [
        lambda path: path.symlink_to(secret), lambda path: path.symlink_to("nowhere"),
        os.mkfifo]
    for make in makers:
        answer = asked(small, what, make)
        assert answer["error"] == "NoFile" and not os.path.lexists(small.state / "requests" / what)
    if what == "restore":
        answer = asked(small, what, lambda path: path.write_text("17\n"))
        assert (answer["error"], answer["number"]) == ("NoCopy", 17)
    assert small.run is run and secret.read_text() == "17"
    assert not list(small.copies.iterdir())


def test_the_machine_writes_its_answer_through_no_link(small: Machine) -> None:
    """A link in the place of the answer is replaced, and what it names stays."""
    secret = small.folder / "secret"
    secret.write_text("kept")
    for name in ("copy.done", ".copy.done"):
        (small.state / "requests" / name).symlink_to(secret)
    answer = asked(small, "copy", lambda path: path.write_text("9\n"))
    assert answer["number"] == 9 and answer["copy"].startswith("office-000009-")
    assert secret.read_text() == "kept"


def test_a_number_that_the_folder_has_is_not_used_again(small: Machine) -> None:
    """As where the application's own file was lost."""
    (small.copies / "office-000041-2025-03-03T101112.db").write_text("")
    with small.office() as office:
        assert office.parts.copies.make("a try") == 42


def restored_by(machine: Machine, stand_in: str, patch: pytest.MonkeyPatch) -> Any:
    """Has a stand-in take the place of admissions-restore, and restores copy 1."""
    path = machine.folder / "stand-in"
    path.write_text(stand_in, "utf-8")
    path.chmod(0o755)
    tools = machine.folder / "tools"
    patch.setattr(office_restore, "program",
                  lambda name: str(path if name == "admissions-restore" else tools / name))
    return asked(machine, "restore", lambda it: it.write_text("1\n"))


@pytest.mark.parametrize("when", ("before", "after"))
def test_a_restore_that_is_killed(
    small: Machine, monkeypatch: pytest.MonkeyPatch, when: str
) -> None:
    """Before it has begun or after it: the answer says which register is there, it is whole, and
    the next request restores it.
    """
    with small.office() as office:
        office.parts.copies.make("a try")
        before = office.parts.desk.now()
        do_over(small.address, [RAISED])
        real = small.folder / "tools" / "admissions-restore"
        lines = ["#!/bin/sh", *([f"{real} \"$@\""] if when == "after" else []), "kill -9 $$"]
        with monkeypatch.context() as patch:
            answer = restored_by(small, "\n".join(lines), patch)
        wanted = {"before": "the register is as it was",
                  "after": "the register is that of the copy"}
        assert answer["error"] == "NotRestored" and answer["why"].startswith(wanted[when])
        pan = office.parts.desk.now().schools["OAK"].pan
        assert pan == {"before": 2, "after": 1}[when]
        office.parts.copies.restore(1, "hal")
        assert copies.is_same(office.parts.desk.now(), before)


def test_what_was_read_before_a_restore_is_not_shown(small: Machine) -> None:
    """Also where nobody has looked since."""
    with small.office() as office:
        desk = office.parts.desk
        office.parts.copies.make("a try")
        do_over(small.address, [RAISED])
        assert desk.now().schools["OAK"].pan == 2
        office.parts.copies.asked(copies.RESTORE, 1)
        assert desk.register().schools["OAK"].pan == 1


class Killed(BaseException):
    """The unit ends here."""


@pytest.mark.parametrize("when", ("before", "after"))
def test_a_unit_that_is_killed_in_a_restore(
    small: Machine, monkeypatch: pytest.MonkeyPatch, when: str
) -> None:
    """The register is the one or the other, and the request stays: the unit that is started again
    does it, and answers.
    """
    with small.office() as office:
        office.parts.copies.make("a try")
        before = office.parts.desk.now()
        do_over(small.address, [RAISED])
        small.is_ended.set()
        small.thread.join()
        real = programs.call

        def killed(*given: Any, **more: Any) -> Any:
            if when == "after":
                real(*given, **more)
            raise Killed

        given = argparse.Namespace(name=NAME)
        request = small.state / "requests" / "restore"
        request.write_text("1\n")
        with monkeypatch.context() as patch:
            patch.setattr(office_restore, "call", killed)
            with pytest.raises(Killed):
                office_restore.main(given)
        begun = request.with_name("restore.begun")
        assert begun.exists() and not request.with_name("restore.done").exists()
        pan = office.parts.desk.now().schools["OAK"].pan
        assert pan == {"before": 2, "after": 1}[when]
        assert office_restore.main(given) == 0
        answer = answer_of(small, "restore")
        assert (answer["number"], answer["restored"]) == (1, office.parts.copies.path(1).name)
        assert not begun.exists() and copies.is_same(office.parts.desk.now(), before)
        kept = [it.name for it in (small.lib / NAME).iterdir() if ".db." in it.name]
        assert len(kept) == 1


def test_a_restore_that_leaves_no_register_says_so(
    small: Machine, monkeypatch: pytest.MonkeyPatch
) -> None:
    """Where the file is half written no program opens it, and the same restore is done again."""
    with small.office() as office:
        office.parts.copies.make("a try")
        before = office.parts.desk.now()
        do_over(small.address, [RAISED])
        half = ["#!" + sys.executable, "import sys",
                r"open(sys.argv[2], 'r+b').write(b'restoring 00000\n')", "sys.exit(3)"]
        with monkeypatch.context() as patch:
            patch.setattr("machine.office_requests.start", lambda _: None)
            answer = restored_by(small, "\n".join(half), patch)
        assert answer["error"] == "NotRestored"
        assert answer["why"].startswith("no program opens the register, and the copy must be")
        assert small.run is None
        with monkeypatch.context() as patch:
            patch.setattr("machine.office_requests.stop", lambda _: None)
            office.parts.copies.restore(1, "hal")
        assert copies.is_same(office.parts.desk.now(), before)
