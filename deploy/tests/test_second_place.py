"""Whose the second place is: one machine copies there, and the one that was taken over stops. And
what arrived there is compared with what was sent."""
import argparse
import os
import pathlib
import re
import shutil
import subprocess
import typing

import pytest
from conftest import ROOT
from machine import copies_status, findings, registers, second_copy
from machine.verbs import status, takeover
from machine.findings import Level
from register_files import Refused

NAME = "secondary-2025"
FIRST, SECOND = "1" * 32, "2" * 32
COPY = "nightly-00000{0}-2025-03-0{0}T023000.db"


class Machines(typing.NamedTuple):
    """Two machines, of which each sees its own folders, and a second place that both reach."""

    folder: pathlib.Path
    place: pathlib.Path
    register: registers.Register

    def be(self, number: str) -> None:
        """What follows happens on the machine of this number, with its own copies and reports."""
        here = self.folder / "machine-id"
        before = here.read_text(encoding="ascii").strip()
        if before != number:
            self.register.copies.rename(self.folder / f"backups-{before}")
            other = self.folder / f"backups-{number}"
            if other.exists():
                other.rename(self.register.copies)
            else:
                self.register.copies.mkdir()
            here.write_text(f"{number}\n", encoding="ascii")

    def copy(self, number: int) -> None:
        """The nightly copy of this number, and what follows it."""
        path = self.register.copies / COPY.format(number)
        path.write_text(f"copy {number}", encoding="ascii")
        second_copy.main(argparse.Namespace(name=NAME))

    def owner(self) -> str:
        """What stands there for the machine whose place it is."""
        return (self.place / NAME / "owner").read_text(encoding="utf-8")

    def taken_over(self) -> bool:
        """Whether this machine was taken over: its units look for this file."""
        return (self.register.copies / "taken-over").exists()


@pytest.fixture(name="machines")
def machines_fixture(
    register: registers.Register, machine: pathlib.Path, write_as_me: None,
    key: tuple[str, pathlib.Path], monkeypatch: pytest.MonkeyPatch,
) -> Machines:
    """The first of them. Each has the identity file."""
    key[1].rename(machine / "etc/second-copy-identity").chmod(0o400)
    monkeypatch.setattr(second_copy, "open_error", lambda _: "")
    monkeypatch.setattr(takeover, "USER", "root" if os.getuid() == 0 else None)
    place = machine / "mnt"
    place.mkdir()
    (machine / "etc/second-copy").write_text(f"{place}\n", encoding="utf-8")
    found = Machines(machine, place, register)
    found.be(FIRST)
    return found


def test_a_place_belongs_to_the_machine_that_copies_there_first(machines: Machines) -> None:
    machines.copy(1)
    owner = machines.owner()
    assert os.uname().nodename in owner and FIRST not in owner
    machines.copy(2)
    assert machines.owner() == owner
    assert (machines.place / NAME / f"{COPY.format(2)}.age").exists()


def test_another_machine_copies_nothing_there_and_works_on(machines: Machines) -> None:
    """As one for trials, which nobody has taken over."""
    machines.copy(1)
    owner = machines.owner()
    machines.be(SECOND)
    with pytest.raises(Refused, match=f"{NAME} is the place of the machine .*second-copy; or, if"):
        machines.copy(2)
    assert not (machines.place / NAME / f"{COPY.format(2)}.age").exists()
    assert (machines.owner(), machines.taken_over()) == (owner, False)


def test_a_takeover_stops_the_first_machine_at_its_next_copy(
    machines: Machines, capsys: pytest.CaptureFixture[str]
) -> None:
    machines.copy(1)
    owner = machines.owner()
    machines.be(SECOND)
    takeover.own_places(machines.register, str(machines.place))
    machines.copy(2)
    assert machines.owner() != owner
    assert (machines.taken_over(), "WARNING: /" in capsys.readouterr().out) == (False, False)
    machines.be(FIRST)
    with pytest.raises(Refused, match=f"has taken {NAME} over, and copies to {machines.place}"):
        machines.copy(3)
    assert not (machines.place / NAME / f"{COPY.format(3)}.age").exists()
    assert machines.taken_over()
    parts = status.report(machines.register)
    for part in ("desk", "site", "second copy"):
        assert parts[part].level is Level.FAILED
        assert parts[part].text.startswith(f"the machine {os.uname().nodename} has taken {NAME} ov")


def test_a_machine_that_was_taken_over_can_be_opened_again(machines: Machines) -> None:
    """By what its status says."""
    machines.copy(1)
    owner = machines.owner()
    machines.be(SECOND)
    takeover.own_places(machines.register, str(machines.place))
    machines.be(FIRST)
    with pytest.raises(Refused):
        machines.copy(2)
    with pytest.raises(findings.Failed, match="remove owner there, and then type: rm ") as error:
        copies_status.second_of(machines.register)
    (machines.place / NAME / "owner").unlink()
    line = str(error.value).rpartition("type: ")[2]
    command, units = line.split(" && ")
    assert units == f"systemctl start admissions@{NAME} admissions-office@{NAME}"
    subprocess.run(command.split(), check=True)
    machines.copy(2)
    assert (machines.owner(), machines.taken_over()) == (owner, False)


def test_a_register_that_was_moved_here_with_its_files_is_not_stopped(machines: Machines) -> None:
    """Nor is a clone of the machine, or one installed anew: the place is of another machine."""
    machines.copy(1)
    owner = machines.owner()
    (machines.folder / "machine-id").write_text(f"{SECOND}\n", encoding="ascii")
    with pytest.raises(Refused, match=f"{NAME} is the place of the machine .* remove owner there"):
        machines.copy(2)
    assert not machines.taken_over()
    (machines.place / NAME / "owner").unlink()
    machines.copy(2)
    assert machines.owner() not in ("", owner)
    (machines.place / NAME / "owner").write_text(owner, encoding="utf-8")
    with pytest.raises(Refused, match=f"has taken {NAME} over"):
        machines.copy(3)


def test_a_rehearsal_leaves_the_place_as_it_is(
    machines: Machines, machine: pathlib.Path
) -> None:
    machines.copy(1)
    owner = machines.owner()
    machines.be(SECOND)
    (machine / "etc/second-copy").write_text("none\n", encoding="utf-8")
    takeover.own_places(machines.register, str(machines.place))
    assert machines.owner() == owner


def test_a_takeover_that_cannot_write_there_says_so(
    machines: Machines, capsys: pytest.CaptureFixture[str]
) -> None:
    machines.copy(1)
    machines.be(SECOND)
    shutil.rmtree(machines.place)
    machines.place.write_text("no folder", encoding="ascii")
    takeover.own_places(machines.register, "")
    assert f"WARNING: {machines.place} is still the place of the mach" in capsys.readouterr().out


# in place of rsync: it copies, and then another byte stands in the copies of the second place
BROKEN_DISK = """#!/bin/sh
{rsync} "$@" || exit
for it in {there}/nightly-*.age; do [ ! -e "$it" ] || printf X | dd of="$it" bs=1 conv=notrunc; done
"""
# in place of the program: it opens what has not lost its end
OPENS = """#!/bin/sh
[ "$1" = do ] && grep -q 'end$' "$2"
"""


def test_a_copy_that_arrives_otherwise_than_it_was_sent_is_no_copy(
    machines: Machines, machine: pathlib.Path, monkeypatch: pytest.MonkeyPatch
) -> None:
    """A disk that returns other bytes than were written."""
    machines.copy(1)
    (machine / "bin").mkdir()
    rsync = machine / "bin/rsync"
    there = machines.place / NAME
    rsync.write_text(BROKEN_DISK.format(rsync=shutil.which("rsync"), there=there))
    rsync.chmod(0o755)
    monkeypatch.setenv("PATH", f"{rsync.parent}:{os.environ['PATH']}")
    with pytest.raises(Refused, match=f"{there}/{COPY.format(2)}.age is not what was sent"):
        machines.copy(2)
    assert COPY.format(2) not in copies_status.second_of(machines.register)[1]


def test_a_copy_that_does_not_open_is_no_copy(
    machines: Machines, machine: pathlib.Path, monkeypatch: pytest.MonkeyPatch
) -> None:
    """Where the first one does not either: both are equal."""
    monkeypatch.setattr(second_copy, "open_error", registers.open_error)
    (machine / "admissions").write_text(OPENS)
    for number, text in ((1, "from begin to end"), (2, "from begin to e")):
        path = machines.register.copies / COPY.format(number)
        path.write_text(text, encoding="ascii")
        given = argparse.Namespace(name=NAME)
        if number == 1:
            assert second_copy.main(given) == 0
        else:
            with pytest.raises(Refused, match=f"{path.name}.age does not open: "):
                second_copy.main(given)
    assert (machines.place / NAME / f"{COPY.format(2)}.age").exists()
    assert COPY.format(2) not in copies_status.second_of(machines.register)[1]


@pytest.mark.parametrize("unit", [
    "admissions@.service", "admissions-office@.service", "admissions-office@.socket"])
def test_nothing_starts_where_another_machine_has_taken_over(unit: str) -> None:
    text = (ROOT / "deploy/systemd" / unit).read_text(encoding="utf-8")
    found = re.findall(r"(?m)^ConditionPathExists=!(.*)$", text)
    assert f"/var/backups/admissions/%i/{second_copy.TAKEN_OVER}" in found


def test_the_unit_of_the_second_copy_stops_the_office_then() -> None:
    unit = ROOT / "deploy/systemd/admissions-second-copy@.service"
    [line] = re.findall(r"(?m)^ExecStopPost=\+/bin/sh -c '(.*)'$", unit.read_text(encoding="utf-8"))
    test, _, stop = line.partition(" || ")
    assert test == f"! [ -e /var/backups/admissions/%i/{second_copy.TAKEN_OVER} ]"
    assert stop.split() == [
        "systemctl", "stop", "--no-block", "admissions-office@%i.socket",
        "admissions-office@%i.service", "admissions@%i.service"]
