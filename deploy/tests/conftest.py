"""What the tests of deploy/ share: the modules of deploy/machine, and a machine of folders in place
of this one. They need no root, no nginx and no systemd."""
import argparse
import datetime
import importlib
import io
import json
import os
import pathlib
import pkgutil
import subprocess
import sys
import typing

import pytest

sys.dont_write_bytecode = True
ROOT = pathlib.Path(__file__).resolve().parents[2]
sys.path[:0] = [str(ROOT), str(ROOT / "deploy"), str(ROOT / "tools")]

import machine as package  # noqa: E402
from machine import (  # noqa: E402
    admin, files, people, programs, registers, second_copy, serving,
)
from machine.verbs import takeover  # noqa: E402

# the modules, of which some name a folder of the machine by a constant of registers
MODULES = [importlib.import_module(it.name)
           for it in pkgutil.walk_packages(package.__path__, "machine.")]
FOLDERS = {"REGISTERS": "lib", "COPIES": "backups", "SETTINGS": "etc",
           "OFFICES": "office"}


class Terminal(io.StringIO):
    """What is typed on a terminal."""

    def isatty(self) -> bool:
        return True


def typed(verb: str, *words: str) -> int:
    """What a verb of admissions-admin ends with, where these words are behind it."""
    reader, module = argparse.ArgumentParser(), admin.module_of(verb)
    module.arguments(reader)
    return module.main(reader.parse_args(words))


@pytest.fixture(autouse=True)
def umask_fixture() -> typing.Iterator[None]:
    """A command sets the umask of its process, which is that of all tests."""
    before = os.umask(0o022)
    yield
    os.umask(before)


@pytest.fixture(name="machine")
def machine_fixture(tmp_path: pathlib.Path, monkeypatch: pytest.MonkeyPatch) -> pathlib.Path:
    """A folder whose folders are those of the machine: lib, backups, etc, log, office."""
    monkeypatch.setattr(files, "LOCK", tmp_path / "lock")
    (tmp_path / "machine-id").write_text("0123456789abcdef0123456789abcdef\n", encoding="ascii")
    monkeypatch.setattr(second_copy, "MACHINE", tmp_path / "machine-id")
    for constant, name in FOLDERS.items():
        (tmp_path / name).mkdir()
        for module in MODULES:
            if hasattr(module, constant):
                monkeypatch.setattr(module, constant, tmp_path / name)
    return tmp_path


def made_key(path: pathlib.Path) -> tuple[str, pathlib.Path]:
    """A public key of age, and the identity file that opens what is encrypted for it."""
    subprocess.run(["age-keygen", "-o", path], check=True, capture_output=True)
    done = subprocess.run(["age-keygen", "-y", path], check=True, capture_output=True, text=True)
    return done.stdout.strip(), path


@pytest.fixture(name="key")
def key_fixture(machine: pathlib.Path) -> tuple[str, pathlib.Path]:
    """The key for which this machine encrypts copies, whose identity file is kept elsewhere."""
    found = made_key(machine / "identity")
    (machine / "etc/second-copy-recipient").write_text(f"# of the vault\n{found[0]}\n")
    return found


# in place of the program: a register of these tests is the text that the program would show of it
STAND_IN = """#!/bin/sh
[ "$1" = show ] && exec cat "$2"
exit 2
"""


def document(schools: int = 0, holidays: typing.Sequence[str] = ()) -> str:
    """What the program shows of a register without children."""
    school: dict[str, object] = {"name": "A", "criteria": [], "east": 0, "north": 0, "pan": 1}
    school |= {"plans": 0, "taken": 0, "vacancies": 1, "waiting": 0}
    season = {
        "closing": "2024-10-31",
        "holidays": list(holidays),
        "last_list_day": "2025-12-31",
        "offer_day": "2025-03-03",
        "phase": "secondary",
        "year": 2025,
    }
    listed: list[dict[str, object]] = [school | {"school": f"S{at}"} for at in range(schools)]
    return json.dumps({"children": [], "draws": [], "schools": listed, "season": season})


def stand_in(machine: pathlib.Path, monkeypatch: pytest.MonkeyPatch) -> None:
    """Has the machine show a register by a stand-in for the program."""
    program = machine / "admissions"
    program.write_text(STAND_IN, encoding="utf-8")
    program.chmod(0o755)
    for module in (registers, takeover):
        monkeypatch.setattr(module, "program", lambda name: str(machine / name))


@pytest.fixture(name="register")
def register_fixture(
    machine: pathlib.Path, monkeypatch: pytest.MonkeyPatch
) -> registers.Register:
    """A register with its folders, and a stand-in for the program that shows it."""
    register = registers.Register("secondary-2025")
    for path in (
        register.folder, register.copies, register.settings, register.office
    ):
        path.mkdir()
    register.file.write_text(document(), encoding="utf-8")
    stand_in(machine, monkeypatch)
    (register.settings / "site-name").write_text("admissions.example\n")
    return register


@pytest.fixture(name="write_as_me")
def write_as_me_fixture(monkeypatch: pytest.MonkeyPatch) -> None:
    """Files are those of whoever runs the tests."""
    me: typing.Callable[[str, str], tuple[int, int]] = lambda user, group: (
        os.getuid(),
        os.getgid(),
    )
    monkeypatch.setattr("machine.files.numbers", me)


@pytest.fixture(name="users")
def users_fixture(register: registers.Register, write_as_me: None) -> registers.Register:
    """A register whose application has two people: jane, head of the office, and ben."""
    people.add(register, "jane", "head")
    people.add(register, "ben", "officer")
    return register


def told(register: registers.Register) -> list[tuple[str, dict[str, str]]]:
    """What is left for the history of the application."""
    with people.opened(register) as (_, kept):
        rows = kept.rows("SELECT what, about FROM told ORDER BY number")
    found = [(it["what"], json.loads(it["about"])) for it in rows]
    # (each has the time at which it was done: the history takes it later)
    now = datetime.datetime.now(datetime.timezone.utc)
    for _, about in found:
        done_at = datetime.datetime.fromisoformat(about.pop("done_at"))
        assert now - datetime.timedelta(hours=1) < done_at <= now
    return found


class Systemd:
    """In place of systemd: it keeps what it was given, and does what a test has it do then."""

    def __init__(self) -> None:
        self.calls: list[str] = []
        self.does: dict[str, typing.Callable[[], None]] = {}

    def call(self, *words: object, may_fail: bool = False) -> "subprocess.CompletedProcess[str]":
        """What systemctl does."""
        line = " ".join(map(str, words))
        self.calls.append(line)
        for what, work in self.does.items():
            if line.startswith(what):
                work()
        return subprocess.CompletedProcess([], 0, "", "")

    def lines(self, *verbs: str) -> list[str]:
        """What it was given of these kinds, since this was asked last."""
        found = [it for it in self.calls if it.split()[0] in verbs]
        self.calls.clear()
        return found


@pytest.fixture(name="systemd")
def systemd_fixture(monkeypatch: pytest.MonkeyPatch) -> Systemd:
    """A machine that systemd runs, with this one in its place."""
    found, real, real_tool = Systemd(), programs.call, programs.tool

    def call(*words: object, **more: typing.Any) -> "subprocess.CompletedProcess[str]":
        if words[0] == "systemctl":
            return found.call(*words[1:], may_fail=bool(more.get("may_fail")))
        return real(*words, **more)

    def tool(name: str, package: str) -> str:
        return name if name == "systemctl" else real_tool(name, package)

    for module in MODULES:
        for name, it in (("call", call), ("tool", tool), ("is_booted", lambda: True)):
            if hasattr(module, name):
                monkeypatch.setattr(module, name, it)
    monkeypatch.setattr(serving, "status_of", lambda _: None)
    monkeypatch.setattr(serving, "answers_of", lambda *_: None)
    return found
