"""The office's application of a room, as it is installed: who may sign in, and its process."""

import json
import pathlib
import subprocess
from collections.abc import Mapping
from typing import NamedTuple

PYTHON = "/usr/bin/python3"
# Adds people and programs by the installed application: its package, its folder, and on the
# standard input a list of names, roles, passwords, whether they are programs, and whether they are
# locked. A person has a password of their own. Prints the tokens of the programs
MAKE_PEOPLE = """
import json, pathlib, sys
sys.path.insert(0, sys.argv[1])
from office.web.people import people, roles; from office.web.register import store
all_of_them = people.People(store.Store(str(pathlib.Path(sys.argv[2], "office.db"))))
tokens = {}
for name, role, password, is_program, is_locked in json.load(sys.stdin):
    drawn = all_of_them.add(name, role, roles.PROGRAM if is_program else roles.PERSON)
    if is_program:
        tokens[name] = drawn
    else:
        all_of_them.set_password(roles.Person(name, role), drawn, password)
    all_of_them.lock(name, is_locked)
print(json.dumps(tokens))
"""
# Serves the installed application at the socket that is handed over: its package and its settings
SERVE = """
import json, pathlib, sys
sys.path.insert(0, sys.argv[1])
from office.core import run
from office.web import parts, serve
given = json.loads(sys.argv[2])
paths = {it: pathlib.Path(given.pop(it)) for it in ("folder", "copies", "site")}
serve.run(parts.Config(**given, **paths), "")
"""


class Account(NamedTuple):
    """Who may sign in, and as what; or a program that has a token."""

    role: str
    is_program: bool = False
    is_locked: bool = False


def package(prefix: pathlib.Path) -> str:
    """The folder of the packages of an installation."""
    return str(prefix / "share/admissions")


def made(prefix: pathlib.Path, folder: pathlib.Path, people: Mapping[str, Account],
         passwords: Mapping[str, str]) -> dict[str, str]:
    """Adds people and programs in the folder of an application, and returns the tokens."""
    rows = [[name, it.role, passwords[name], it.is_program, it.is_locked]
            for name, it in people.items()]
    done = subprocess.run([PYTHON, "-B", "-c", MAKE_PEOPLE, package(prefix), str(folder)],
                          input=json.dumps(rows), text=True, capture_output=True, check=False)
    if done.returncode:
        raise RuntimeError(done.stderr)
    tokens: dict[str, str] = json.loads(done.stdout)
    return tokens


def settings(prefix: pathlib.Path, room: pathlib.Path, name: str, host: str,
             authority: str) -> tuple[str, str]:
    """The package of the application of a room, and its settings."""
    return package(prefix), json.dumps({
        "name": name, "origin": f"https://{host}", "door": f"{room}/run/desk.sock",
        "folder": f"{room}/office", "copies": f"{room}/office-copies",
        "site": f"{package(prefix)}/site", "authority": authority})


def command(file: int, given: tuple[str, str]) -> tuple[str, ...]:
    """What starts the application. As systemd does, it is handed a socket as file 3."""
    hand_over = f'export LISTEN_FDS=1 LISTEN_PID=$$; exec "$@" 3<&{file}'
    return "bash", "-c", hand_over, "bash", PYTHON, "-B", "-c", SERVE, *given
