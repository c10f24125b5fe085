"""What the tests share: the program, the commands as an office calls them, and registers.

The program is ADMISSIONS, or bin/admissions, or `admissions` in PATH.
"""
import functools
import json
import os
import pathlib
import shutil
import subprocess
import sys
import tempfile
from collections.abc import Callable, Iterable, Iterator
from typing import Any, Protocol

import argon2
import flask
import jinja2
import pytest

sys.dont_write_bytecode = True
ROOT = pathlib.Path(__file__).resolve().parents[2]
sys.path[:0] = [str(ROOT), str(ROOT / "tools")]
SEASON = ROOT / "examples" / "season"
BUILT = ROOT / "bin" / "admissions"
FOUND = str(BUILT) if BUILT.exists() else shutil.which("admissions")
PROGRAM = os.environ.get("ADMISSIONS") or FOUND or ""
HEADER = "child,name,east,north,looked_after,flags,siblings,day,preferences,present"
# what the fields of a child are that a command leaves out
OMITTED = {it["field"]: it["omitted"] for it in json.loads(
    (ROOT / "office" / "rules.json").read_text("utf-8"))["commands"]["amend"] if it["optional"]}
# (beside those below, the fixtures of a machine with a small register)
pytest_plugins = ("draw_site",)
OFFICE = ("audit",)
# registers that are made once
KEPT = tempfile.TemporaryDirectory(prefix="registers-")
Command = dict[str, Any]
Ran = subprocess.CompletedProcess[str]


class Office(Protocol):
    """Runs a command in the folder of a test: office("audit", "a.db", "b.db"). It returns its
    status, output and errors. The command "" is the program.
    """

    def __call__(self, name: str, *given: object, stdin: str | None = None,
                 program: object = None) -> Ran: ...


def pytest_sessionstart(session: pytest.Session) -> None:
    """Without a program nothing can be tested."""
    if not PROGRAM:
        pytest.exit("there is no program: build it, or name it by ADMISSIONS", 2)


def pytest_terminal_summary(terminalreporter: Any) -> None:
    """Prints what a test that passed has recorded: what it took, where this machine may not have
    another.
    """
    for it in terminalreporter.getreports("passed"):
        for name, value in it.user_properties:
            terminalreporter.write_line(f"{it.nodeid.rpartition('::')[2]}: {name}: {value}")


@pytest.fixture(scope="session", autouse=True)
def cheap_hashes_fixture() -> Iterator[None]:
    """Passwords cost little to hash in this process: at what they cost an office, they would take
    a third of the time of all tests.
    """
    cheap = functools.partial(argon2.PasswordHasher, time_cost=1, memory_cost=8, parallelism=1)
    with pytest.MonkeyPatch.context() as patch:
        patch.setattr(argon2, "PasswordHasher", cheap)
        yield


class Compiled:
    """Compiled templates in memory: another user of a test has no folder of this one's."""

    def __init__(self) -> None:
        self.kept: dict[str, bytes] = {}

    def get(self, key: str) -> bytes | None:
        """What was compiled."""
        return self.kept.get(key)

    def set(self, key: str, value: bytes, _seconds: int | None = None) -> None:
        """Keeps it."""
        self.kept[key] = value


@pytest.fixture(scope="session", autouse=True)
def kept_templates_fixture() -> Iterator[None]:
    """The templates of the application are compiled once for all tests of this process."""
    with pytest.MonkeyPatch.context() as patch:
        patch.setattr(flask.Flask, "jinja_options", {
            "bytecode_cache": jinja2.MemcachedBytecodeCache(Compiled())})
        yield


@pytest.fixture(name="hide")
def hide_fixture(monkeypatch: pytest.MonkeyPatch) -> Callable[[str], None]:
    """Has a library missing from this process."""
    modules: dict[str, Any] = sys.modules
    return lambda name: monkeypatch.setitem(modules, name, None)


@pytest.fixture(scope="session", name="tools")
def tools_fixture(tmp_path_factory: pytest.TempPathFactory) -> pathlib.Path:
    """A folder with the program and the commands under their names."""
    folder = tmp_path_factory.mktemp("tools")
    os.symlink(os.path.realpath(PROGRAM), folder / "admissions")
    for name in OFFICE:
        os.symlink(ROOT / "office" / "command", folder / f"admissions-{name}")
    os.symlink(ROOT / "tools" / "backup", folder / "admissions-backup")
    return folder


@pytest.fixture(name="office")
def office_fixture(tools: pathlib.Path, tmp_path: pathlib.Path) -> Office:
    """The commands, in the folder of a test."""

    def run(name: str, *given: object, stdin: str | None = None, program: object = None) -> Ran:
        command = tools / (f"admissions-{name}" if name else "admissions")
        environment = {**os.environ, "PATH": f"{tools}:{os.environ['PATH']}",
                       "ADMISSIONS": str(program or tools / "admissions")}
        return subprocess.run([str(command), *map(str, given)], cwd=tmp_path, input=stdin,
                              capture_output=True, text=True, env=environment, timeout=300,
                              check=False)

    return run


def make(path: pathlib.Path, commands: Iterable[Command], year: str = "2025",
         is_large: bool = False) -> list[Command]:
    """A new register with these commands done, and the answers."""
    register, answers = made(json.dumps(list(commands)), year, is_large)
    for it in register.parent.iterdir():
        shutil.copy(it, path.with_name(it.name.replace(register.name, path.name)))
    return [dict(it) for it in answers]


@functools.cache
def made(commands: str, year: str, is_large: bool) -> tuple[pathlib.Path, list[Command]]:
    """Such a register, which is made once for all tests of this process and copied for each."""
    path = pathlib.Path(tempfile.mkdtemp(dir=KEPT.name), "reg.db")
    size = ["--large"] * is_large
    subprocess.run([PROGRAM, "init", path, "secondary", year, *size], check=True)
    return path, do(path, json.loads(commands))


def do(path: pathlib.Path, commands: Iterable[Command]) -> list[Command]:
    """The answers to commands, each of which must be done."""
    given = list(commands)
    lines = "".join(json.dumps(it) + "\n" for it in given)
    ran = subprocess.run([PROGRAM, "do", path], input=lines, capture_output=True, text=True,
                         check=False)
    answers: list[Command] = [json.loads(it) for it in ran.stdout.splitlines()]
    wrong = [it for it in zip(given, answers) if not it[1].get("done")]
    assert len(answers) == len(given) and not wrong, (ran.stderr, wrong)
    return answers


def school(code: str, pan: int = 2, east: int = 0, criteria: Iterable[str] = (),
           name: str | None = None) -> Command:
    """The command of a school."""
    return {"cmd": "add_school", "school": code, "name": name or f"{code} School", "pan": pan,
            "east": east, "north": 0, "criteria": list(criteria)}


def child(number: int, east: int = 100, name: str | None = None, **more: object) -> Command:
    """The command of a child."""
    return {"cmd": "add_child", "child": number, "name": name or f"Child {number}", "east": east,
            "north": 0, "looked_after": False, "flags": [], "siblings": [], **more}


def apply(number: int, preferences: list[str], day: str = "2024-10-20") -> Command:
    """The command of an application."""
    return {"cmd": "apply", "child": number, "day": day, "preferences": preferences}


def run_in_season(*words: object, given: bytes | None = None) -> None:
    """Runs the program in the folder of the example season."""
    subprocess.run([PROGRAM, *map(str, words)], cwd=SEASON, check=True, stdout=subprocess.DEVNULL,
                   input=given)


def do_file(path: pathlib.Path, name: str) -> None:
    """Sends a file of the example season."""
    run_in_season("do", path, given=(SEASON / name).read_bytes())


@pytest.fixture(scope="session", name="season")
def season_fixture(tmp_path_factory: pytest.TempPathFactory) -> pathlib.Path:
    """The example season, played by the program: copies from before and after each of its rounds.
    """
    folder = tmp_path_factory.mktemp("season")
    reg = folder / "reg.db"
    run_in_season("init", reg, "secondary", "2025")
    do_file(reg, "schools.jsonl")
    run_in_season("import", reg, "applications.csv")
    do_file(reg, "plans.jsonl")
    shutil.copy(reg, folder / "before-1.db")
    do_file(reg, "first_round.jsonl")
    shutil.copy(reg, folder / "after-1.db")
    do_file(reg, "answers.jsonl")
    do_file(reg, "summer.jsonl")
    shutil.copy(reg, folder / "before-2.db")
    do_file(reg, "second_round.jsonl")
    return folder


TOWN = [
    school("OAK", pan=1), school("ELM", pan=2, east=500),
    child(1, name="Ann Abel", present="PRIM7"), child(2, name="Bo Bell"),
    apply(1, ["OAK", "ELM"]), apply(2, ["OAK", "ELM"]),
]


@pytest.fixture(name="reg")
def reg_fixture(tmp_path: pathlib.Path) -> pathlib.Path:
    """A register with two schools and two children that applied."""
    make(tmp_path / "reg.db", TOWN)
    return tmp_path / "reg.db"
