"""The application in tests: over a register that is served, asked as browsers and programs ask."""
import base64
import contextlib
import html.parser
import json
import pathlib
import re
import urllib.parse
from collections.abc import Iterator
from typing import Any
from unittest import mock

import flask
import flask.testing
from conftest import ROOT, make
from served import served

from office.web import app
from office.web.copies.copies import Copies
from office.web.parts import Config, Parts
from office.web.people import roles

ORIGIN = "https://admissions.example"
Answer = Any
SCHOOLS: list[dict[str, Any]] = [
    {"cmd": "add_school", "school": code, "name": name, "pan": pan, "east": 0, "north": 0,
     "criteria": []} for code, name, pan in (("A", "Alpha", 2), ("B", "Beta", 1))
]


def child(number: int, name: str, north: int) -> dict[str, Any]:
    """A command that adds a child."""
    return {"cmd": "add_child", "child": number, "name": name, "east": 0, "north": north,
            "looked_after": False, "flags": [], "siblings": []}


def town() -> list[dict[str, Any]]:
    """Two schools, and four children that applied in time."""
    names = ("Ada Abel", "Ben Bell", "Cyd <b>Cole</b>", "Dai O'Dare")
    commands = SCHOOLS + [child(at, it, 100 * at) for at, it in enumerate(names, 1)]
    return commands + [{"cmd": "apply", "child": at, "day": "2024-10-31", "preferences": list("AB")}
                       for at in range(1, 5)]


ROUND = {"cmd": "round", "draw": 1, "day": "2025-03-03", "lots": [1, 2, 3, 4, 5, 6, 7, 8]}


class Form(html.parser.HTMLParser):
    """The secret of a session in a page."""

    def __init__(self, text: str) -> None:
        super().__init__()
        self.secret = ""
        self.feed(text)

    def handle_starttag(self, tag: str, attrs: list[tuple[str, str | None]]) -> None:
        """Takes it from the hidden field."""
        found = dict(attrs)
        if tag == "input" and found.get("name") == "form":
            self.secret = found.get("value") or ""


class Browser:
    """A browser of one person, which reads each answer to its end: a long one keeps a turn."""

    def __init__(self, site: flask.Flask, address: str = "192.0.2.1") -> None:
        self.client: flask.testing.FlaskClient = site.test_client()
        self.address, self.secret = address, ""

    def get(self, path: str) -> Answer:
        """A page."""
        found = self.client.get(path, base_url=ORIGIN, headers={"Accept": "text/html"},
                                buffered=True)
        if found.mimetype == "text/html":
            self.secret = Form(found.text).secret or self.secret
        return found

    def post(self, path: str, given: dict[str, Any] | None = None, **more: Any) -> Answer:
        """A form that is sent."""
        headers = {"Accept": "text/html", "Origin": ORIGIN, "X-Real-IP": self.address}
        data = {"form": self.secret, **(given or {})}
        found = self.client.post(path, base_url=ORIGIN, headers=headers, data=data,
                                 buffered=True, **more)
        if found.mimetype == "text/html":
            self.secret = Form(found.text).secret or self.secret
        return found

    def sent(self, path: str, given: dict[str, Any] | None = None) -> Answer:
        """A form that is sent, and the page that it leads to."""
        found = self.post(path, given)
        return self.get(found.location) if found.status_code == 303 else found

    def change(self, **given: str) -> Answer:
        """A change of a person, once what it does is shown."""
        asked = self.get(f"/people/ask?{urllib.parse.urlencode(given)}")
        shown = re.findall('name="shown" value="([0-9a-f]+)"', asked.text)
        return self.post("/people/", {**given, "shown": shown[0]}) if shown else asked

    def sign_in(self, name: str, password: str) -> Answer:
        """The form of the sign-in."""
        return self.post("/sign-in", {"name": name, "password": password})


class Program:
    """Another program, which sends its token with each request."""

    def __init__(self, site: flask.Flask, token: dict[str, str]) -> None:
        self.client: flask.testing.FlaskClient = site.test_client()
        self.token = token

    def get(self, path: str) -> Answer:
        """An answer of the register."""
        return self.client.get(path, base_url=ORIGIN, headers=self.token)

    def post(self, path: str, data: bytes | str, kind: str = "application/json",
             origin: str | None = ORIGIN, **more: str) -> Answer:
        """A body that is sent."""
        headers = {**self.token, **({"Origin": origin} if origin else {}), **more}
        return self.client.post(
            path, base_url=ORIGIN, headers=headers, data=data, content_type=kind)

    def command(self, command: dict[str, Any], seen: str | None = None) -> Answer:
        """A command, with what its sender saw."""
        more = {} if seen is None else {"X-Seen": seen}
        return self.post("/command", json.dumps(command), **more)


class Site:
    """The application, with people of each role."""

    def __init__(self, flasks: flask.Flask) -> None:
        self.app = flasks
        # what copies were made for, where the machine makes none
        self.copied: list[str] = []
        self.parts: Parts = flasks.extensions["office"]
        self.passwords: dict[str, str] = {}

    def add(self, name: str, role: str) -> str:
        """A person with a password of their own."""
        drawn = self.parts.people.add(name, role)
        self.passwords[name] = f"{name} of the office"
        self.parts.people.set_password(roles.Person(name, role), drawn, self.passwords[name])
        return name

    def browser(self, name: str, role: str = "officer") -> Browser:
        """A browser in which somebody is signed in."""
        if name not in self.passwords:
            self.add(name, role)
        found = Browser(self.app)
        assert found.sign_in(name, self.passwords[name]).status_code == 303
        # (a screen that each role has, with the secret of the session)
        found.get("/password")
        return found

    def record(self, name: str, command: dict[str, Any]) -> None:
        """What an officer records, by whatever screen."""
        done = self.parts.desk.send(roles.Person(name, roles.OFFICER), command)
        assert done.is_done, done

    def program(self, name: str, role: str = roles.OFFICER) -> Program:
        """Another program."""
        return Program(self.app, self.token(name, role))

    def token(self, name: str, role: str) -> dict[str, str]:
        """The header of a program."""
        secret = self.parts.people.add(name, role, roles.PROGRAM)
        given = base64.b64encode(f"{name}:{secret}".encode()).decode()
        return {"Authorization": f"Basic {given}"}


@contextlib.contextmanager
def site(folder: pathlib.Path, door: str) -> Iterator[Site]:
    """The application before a desk, on a machine that makes no copies: what they would be for is
    in `copied`.
    """
    copied: list[str] = []

    def made(_: Copies, purpose: str, _who: str) -> int:
        copied.append(purpose)
        return len(copied)

    config = Config("secondary-2025", ORIGIN, door, folder / "office", folder / "copies",
                    ROOT / "deploy" / "site", "Tŷ \"Ddewi\" Council")
    with mock.patch.object(Copies, "make", made):
        found = app.create(config)
        office = Site(found)
        # (a test wants what came of a step)
        for it in (office.parts.end.steps, office.parts.restoring, office.parts.copying,
                   found.extensions["staging"].committing):
            it.wait = 600.0
        office.copied = copied
        try:
            yield office
        finally:
            found.extensions["office"].close()


@contextlib.contextmanager
def office_over(folder: pathlib.Path, commands: list[dict[str, Any]],
                is_large: bool = False) -> Iterator[Site]:
    """The application over a new register with these commands."""
    make(folder / "reg.db", commands, is_large=is_large)
    with served(folder / "reg.db") as (address, _), site(folder, address) as found:
        yield found
