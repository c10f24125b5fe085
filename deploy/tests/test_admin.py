"""The frame of admissions-admin: its verbs and their help, how each ends, that one alone changes
something at a time, and that the journal has who typed it."""
import argparse
import errno
import multiprocessing
import os
import pathlib
import re
import subprocess
import sys
import time
import types
import typing

import pytest
from conftest import ROOT
from machine import admin, files
from office.core import run
from register_files import Refused

FOLDER = ROOT / "deploy/machine/verbs"
VERBS = sorted(admin.VERBS)
LOOKS = [it for it in VERBS if admin.VERBS[it].looks]
CHANGES = [it for it in VERBS if not admin.VERBS[it].looks]


@pytest.fixture(name="command")
def command_fixture(tmp_path: pathlib.Path) -> pathlib.Path:
    """The command as it is installed: a file of its name."""
    path = tmp_path / "admissions-admin"
    path.symlink_to(ROOT / "office/command")
    return path


def ran(command: pathlib.Path, *words: str, **more: typing.Any) -> tuple[int, str, str]:
    """Its status, what it prints, and what is an error."""
    done = subprocess.run([command, *words], capture_output=True, text=True, check=False,
                          stdin=subprocess.DEVNULL, env={**os.environ, "COLUMNS": "200"}, **more)
    return done.returncode, done.stdout, done.stderr


def test_each_verb_is_a_module_and_each_module_a_verb() -> None:
    modules = {it.stem.replace("_", "-") for it in FOLDER.glob("[!_]*.py")}
    assert modules == set(VERBS)
    assert all(it.text[0].islower() and not it.text.endswith(".") for it in admin.VERBS.values())


def test_the_help_lists_the_verbs_and_fits_a_terminal(command: pathlib.Path) -> None:
    status, out, error = ran(command, "--help")
    assert (status, error) == (0, "")
    assert max(map(len, out.splitlines())) <= 80, out
    listed = out.partition("verbs:\n")[2].split()
    assert [it for it in VERBS if it not in listed] == []


@pytest.mark.parametrize("verb", VERBS)
def test_each_verb_has_a_help_with_an_example_that_fits(verb: str, command: pathlib.Path) -> None:
    status, out, error = ran(command, verb, "--help")
    assert (status, error) == (0, "")
    usage, _, rest = out.partition("\n\n")
    # (argparse does not part a group of options)
    assert usage and max(map(len, rest.splitlines())) <= 80, out
    assert f"\n  admissions-admin {verb}" in out.partition("example:")[2]


@pytest.mark.parametrize(
    "words", [[], ["nothing"], ["--yes"], *([it, "--nothing"] for it in VERBS)])
def test_what_is_no_verb_or_no_option_is_refused(words: list[str], command: pathlib.Path) -> None:
    status, out, error = ran(command, *words)
    assert (status, out) == (2, "")
    assert re.match("admissions-admin( [a-z]+)?: error: ", error.splitlines()[-1])


def stub(main: typing.Callable[[argparse.Namespace], int]) -> types.SimpleNamespace:
    """A verb that does this."""
    return types.SimpleNamespace(__doc__="Does it.", arguments=lambda _: None, main=main)


@pytest.fixture(name="begin")
def begin_fixture(
    monkeypatch: pytest.MonkeyPatch, machine: pathlib.Path
) -> typing.Callable[..., int]:
    """Runs a verb whose work is another, and returns the status."""
    monkeypatch.setattr("office.core.run.SIGNALS", ())
    monkeypatch.setattr(os, "geteuid", lambda: 0)

    def begin(verb: str, main: typing.Callable[[argparse.Namespace], int]) -> int:
        monkeypatch.setattr(admin, "module_of", lambda _: stub(main))
        monkeypatch.setattr(sys, "argv", ["admissions-admin", verb])
        return admin.main("admissions-admin")

    return begin


@pytest.fixture(name="journal")
def journal_fixture(monkeypatch: pytest.MonkeyPatch) -> list[str]:
    """The lines of the journal."""
    lines: list[str] = []
    monkeypatch.setattr("syslog.syslog", lambda *given: lines.append(given[-1]))
    return lines


def refuse(_: argparse.Namespace) -> int:
    raise Refused("the disk\nis full")


def test_the_journal_has_who_typed_what_and_how_it_ended(
    begin: typing.Callable[..., int], journal: list[str], monkeypatch: pytest.MonkeyPatch,
    capfd: pytest.CaptureFixture[str],
) -> None:
    """Also where it is refused; and nothing of what only looks."""
    monkeypatch.setenv("SUDO_USER", "ann")
    assert begin("sites", lambda _: 0) == 0 and begin("sites", refuse) == 1
    assert capfd.readouterr().err == "admissions-admin sites: the disk is full\n"
    who = "administrator of the machine (ann): sites"
    assert journal == [f"{who}: {it}" for it in ("begun", "ended", "begun", "the disk\nis full")]
    assert begin("status", lambda _: 3) == 3 and len(journal) == 4


@pytest.mark.parametrize("verb", CHANGES)
def test_only_root_changes_something(
    verb: str, begin: typing.Callable[..., int], journal: list[str],
    monkeypatch: pytest.MonkeyPatch, capfd: pytest.CaptureFixture[str],
) -> None:
    monkeypatch.setattr(os, "geteuid", lambda: 1000)
    assert begin(verb, lambda _: 0) == 1 and journal == []
    assert capfd.readouterr().err == f"admissions-admin {verb}: only root can do this\n"


def hold(place: pathlib.Path) -> None:
    """Has the lock until it is ended."""
    with files.lock("admissions-admin setup, by the administrator of the machine (ann)"):
        (place / "held").touch()
        time.sleep(60)


def test_a_second_verb_that_changes_something_is_refused_and_names_the_first(
    begin: typing.Callable[..., int], journal: list[str], machine: pathlib.Path,
    capfd: pytest.CaptureFixture[str],
) -> None:
    """At once. What only looks is not; and one that was killed stands in nobody's way."""
    other = multiprocessing.get_context("fork").Process(target=hold, args=(machine,))
    other.start()
    while not (machine / "held").exists():
        time.sleep(0.01)
    assert begin("status", lambda _: 0) == 0 and begin("sites", lambda _: 0) == 1
    said = re.sub("[0-9]", "0", capfd.readouterr().err)
    assert said == (
        "admissions-admin sites: admissions-admin setup, by the administrator of the machine (ann),"
        " since 0000-00-00 00:00:00 has not ended: nothing was done. Type it again then\n")
    assert journal == []
    other.kill()
    other.join()
    assert begin("sites", lambda _: 0) == 0


def refused_by_a_full_disk(_: argparse.Namespace) -> int:
    raise OSError(errno.ENOSPC, "No space left on device", "/etc/admissions/x")


def refused_by_a_program(_: argparse.Namespace) -> int:
    raise Refused("tar: No space left on device")


def wrong(_: argparse.Namespace) -> int:
    raise Refused("no such register: x", 2)


@pytest.mark.parametrize("work, said, status", [
    (refused_by_a_full_disk, "/etc/admissions/x: No space left on device", 1),
    (refused_by_a_program, "tar: No space left on device", 1),
    (wrong, "no such register: x", 2),
])
def test_a_verb_names_the_folder_without_room(
    work: typing.Callable[[argparse.Namespace], int], said: str, status: int,
    begin: typing.Callable[..., int], journal: list[str], machine: pathlib.Path,
    monkeypatch: pytest.MonkeyPatch, capfd: pytest.CaptureFixture[str],
) -> None:
    """Also where another program has met it; but not where the words are wrong."""
    real = os.statvfs

    def full(path: pathlib.Path) -> os.statvfs_result:
        found = list(real(path))
        found[4] = 0 if path == machine / "etc" else found[2]
        return os.statvfs_result(found)

    monkeypatch.setattr(os, "statvfs", full)
    monkeypatch.setattr(admin, "ROOMS", ())
    assert begin("sites", work) == status
    more = (f". There is no room on the disk of {machine / 'etc'}: what was there stays. Make room,"
            " and type it again")
    assert capfd.readouterr().err == (
        f"admissions-admin sites: {said}{more if status == 1 else ''}\n")


def interrupted(_: argparse.Namespace) -> int:
    raise run.Stopped("ended by the signal SIGTERM")


def test_a_verb_that_is_interrupted_says_how_it_goes_on(
    begin: typing.Callable[..., int], journal: list[str], capfd: pytest.CaptureFixture[str]
) -> None:
    assert begin("sites", interrupted) == 1
    assert capfd.readouterr().err == (
        "admissions-admin sites: ended by the signal SIGTERM: type it again, and it goes on\n")


@pytest.mark.parametrize("name, verb", [("setup", "setup"), ("status", "status"),
                                        ("sent", ""), ("retire", "retire")])
def test_a_command_of_before_names_its_verb_and_does_nothing(
    name: str, verb: str, tmp_path: pathlib.Path
) -> None:
    path = tmp_path / f"admissions-{name}"
    path.symlink_to(ROOT / "deploy/programs/renamed")
    now = f"admissions-admin {verb} (" if verb else "the screen Copies of the office"
    assert not verb or verb in VERBS
    status, out, error = ran(path, "secondary-2025")
    assert (status, out) == (2, "")
    assert f"admissions-{name}: this is now: {now}" in error
