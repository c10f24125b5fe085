"""How the commands of deploy/machine begin and end: one line and a status for each error."""
import argparse
import errno
import importlib
import os
import pathlib
import re
import subprocess
import sys
import types

import pytest
from by_path import loaded
from conftest import ROOT
from office.core import run
from register_files import Refused

COMMAND = ROOT / "office/command"
NAMES: tuple[str, ...] = loaded(COMMAND).MACHINE
GIVEN = {"nightly": ["reg.db", "copies", "30"]}


def module_of(name: str) -> types.ModuleType:
    return importlib.import_module(f"machine.{name.replace('-', '_')}")


def ended(name: str, error: BaseException, monkeypatch: pytest.MonkeyPatch) -> int:
    """The status of a command whose work ends with an error."""

    def main(given: argparse.Namespace) -> int:
        raise error

    monkeypatch.setattr(module_of(name), "main", main)
    # (the run takes the signals and the rights of new files)
    monkeypatch.setattr("office.core.run.SIGNALS", ())
    monkeypatch.setattr(sys, "argv", [name, *GIVEN.get(name, ["secondary-2025"])])
    return run.run(name, module_of(name))


def test_the_commands_are_those_that_are_installed() -> None:
    text = (ROOT / "deploy/install").read_text(encoding="utf-8")
    lists = re.findall(r"for command in (.*); do place 755 \.\./office/command", text)
    assert sorted(" ".join(lists).split()) == sorted(NAMES)
    assert 'place 755 ../office/command "$prefix/sbin/admissions-admin"' in text


def test_an_install_over_an_earlier_version_leaves_no_file_of_it(tmp_path: pathlib.Path) -> None:
    """The application would find a template that has gone to another folder."""
    office = tmp_path / "usr/local/share/admissions/office"
    earlier, same = office / "web/earlier/templates/people.html", office / "web/app.py"
    for it in (earlier, same):
        it.parent.mkdir(parents=True, exist_ok=True)
        it.write_text("")
    environment = {**os.environ, "DESTDIR": str(tmp_path)}
    subprocess.run([ROOT / "deploy/install"], env=environment, check=True)
    assert same.exists() and [it.name for it in same.parent.iterdir()] == ["app.py"]


@pytest.mark.parametrize("name", NAMES)
def test_the_help_fits_a_terminal(name: str, tmp_path: pathlib.Path) -> None:
    """No line is over 80 columns, however wide the terminal is; and none is about sheets."""
    (tmp_path / name).symlink_to(COMMAND)
    done = subprocess.run(
        [tmp_path / name, "--help"],
        capture_output=True,
        text=True,
        check=False,
        env={**os.environ, "COLUMNS": "200"},
    )
    assert (done.returncode, done.stderr) == (0, "")
    assert max(map(len, done.stdout.splitlines())) <= 80, done.stdout
    assert "limits of a sheet" not in done.stdout


@pytest.mark.parametrize("name", NAMES)
def test_an_error_of_the_system_is_one_line(
    name: str, monkeypatch: pytest.MonkeyPatch, capfd: pytest.CaptureFixture[str]
) -> None:
    error = OSError(errno.ENOSPC, "No space left on device", "/var/log/x")
    assert ended(name, error, monkeypatch) == 1
    assert capfd.readouterr().err == f"{name}: /var/log/x: No space left on device\n"


@pytest.mark.parametrize("name", NAMES)
def test_one_without_a_file_too(
    name: str, monkeypatch: pytest.MonkeyPatch, capfd: pytest.CaptureFixture[str]
) -> None:
    assert ended(name, TimeoutError("timed out"), monkeypatch) == 1
    assert capfd.readouterr().err == f"{name}: a file: timed out\n"


@pytest.mark.parametrize("name", NAMES)
def test_what_fails_has_its_status(
    name: str, monkeypatch: pytest.MonkeyPatch, capfd: pytest.CaptureFixture[str]
) -> None:
    assert ended(name, Refused("two\nlines", 2), monkeypatch) == 2
    assert capfd.readouterr().err == f"{name}: two lines\n"


@pytest.mark.parametrize("name", NAMES)
def test_each_starts_by_its_name(name: str, tmp_path: pathlib.Path) -> None:
    """With the arguments that it does not take it ends with 2 and its usage."""
    (tmp_path / name).symlink_to(COMMAND)
    done = subprocess.run(
        [tmp_path / name, "--nothing"], capture_output=True, text=True, check=False
    )
    assert (done.returncode, done.stderr.splitlines()[-1].startswith(f"{name}: error: ")) == (
        2,
        True,
    )


def test_another_name_is_refused(tmp_path: pathlib.Path) -> None:
    (tmp_path / "admissions-nothing").symlink_to(COMMAND)
    done = subprocess.run(
        [tmp_path / "admissions-nothing"], capture_output=True, text=True, check=False
    )
    assert (done.returncode, "call it as admissions-audit, " in done.stderr) == (1, True)


@pytest.mark.parametrize("name", NAMES)
def test_an_error_of_a_command_is_one_line(
    name: str, monkeypatch: pytest.MonkeyPatch, capfd: pytest.CaptureFixture[str]
) -> None:
    """It says where in the command it is."""
    assert ended(name, ZeroDivisionError("of what"), monkeypatch) == 1
    said = capfd.readouterr().err
    assert re.fullmatch(
        f"{name}: error in this command, at test_commands.py:[0-9]+: ZeroDivisionError: of what\n",
        said,
    ), said


@pytest.mark.parametrize(
    "error, text",
    [
        (MemoryError(), "out of memory"),
        (ImportError("no", name="jinja2"), "this needs the Debian package python3-jinja2"),
        (FileNotFoundError(2, "No such file or directory", b"\xff"), None),
    ],
)
def test_other_errors(
    error: BaseException,
    text: str | None,
    monkeypatch: pytest.MonkeyPatch,
    capfdbinary: pytest.CaptureFixture[bytes],
) -> None:
    """A name that is no text is printed as its bytes."""
    assert ended("drill", error, monkeypatch) == 1
    said = text.encode() if text else b"\xff: No such file or directory"
    assert capfdbinary.readouterr().err == b"drill: " + said + b"\n"


def test_a_signal_is_one_line(tmp_path: pathlib.Path) -> None:
    """The first signal ends a command, with its name."""
    program = tmp_path / "signalled"
    program.write_text(
        "import os, signal, sys\n"
        f"sys.path[:0] = {[str(ROOT), str(ROOT / 'tools')]!r}\n"
        "from office.core import run\n"
        "kill = lambda: os.kill(os.getpid(), signal.SIGTERM) or 0\n"
        "sys.exit(run.ended('command', kill))\n"
    )
    done = subprocess.run([sys.executable, program], capture_output=True, text=True, check=False)
    assert (done.returncode, done.stderr) == (1, "command: ended by the signal SIGTERM\n")


def test_an_output_that_is_full_is_named(tmp_path: pathlib.Path) -> None:
    (tmp_path / "drill").symlink_to(COMMAND)
    with open("/dev/full", "w", encoding="ascii") as full:
        done = subprocess.run(
            [tmp_path / "drill", "--help"],
            stdout=full,
            stderr=subprocess.PIPE,
            text=True,
            check=False,
            env={**os.environ, "PYTHONUNBUFFERED": ""},
        )
    said = "drill: the output cannot be written: No space left on device\n"
    assert (done.returncode, done.stderr) == (1, said)


def test_nobody_reads_the_output(monkeypatch: pytest.MonkeyPatch) -> None:
    out = os.dup(1)
    try:
        assert ended("drill", BrokenPipeError(), monkeypatch) == 1
    finally:
        os.dup2(out, 1)
        os.close(out)
