"""Hands of the scripted season: the application as a process of its own, on a machine whose day is
in a file; a way to the register that keeps what passes; and people, who know paths, forms and the
texts of buttons, and nothing of the program.
"""
import contextlib
import dataclasses
import datetime
import html
import http.client
import http.server
import json
import os
import pathlib
import re
import shutil
import signal
import socket
import subprocess
import threading
import time
import urllib.parse
from collections.abc import Callable, Iterator, Mapping
from typing import Any

import pytest
from conftest import ROOT
from draw_site import NAME, Machine, machine_over
from machine import deletion, office_delete, second_copy
from pages import Form, Page

HERE = pathlib.Path(__file__).resolve().parent
ORIGIN = "http://admissions.example"
FIRST = "hal"
BETWEEN = "----a-part-of-a-form"
# what the application says of a step that goes on by itself
LOOKS_AGAIN = re.compile('data-running=|http-equiv="refresh"')
ELSEWHERE = re.compile('http-equiv="refresh" content="0; url=([^"]*)"')
MOST_SECONDS = 120.0
# what is typed into the fields of a form, by their names; files by field and a number
Typed = Mapping[str, Any]
NOTHING: Typed = {}
Files = dict[str, tuple[str, bytes]]


class Way:
    """The way from the application to the register: it keeps each POST, in their order, and at one
    of them has something happen: before it passes, after it, or after its answer.
    """

    def __init__(self, address: str) -> None:
        self.passed: list[tuple[str, bytes]] = []
        self.answers: list[bytes] = []
        self.lock = threading.Lock()
        # at the how manieth from now on, when, and what happens
        self.trap: tuple[int, str, Callable[[], None]] | None = None
        way = self

        class Passing(http.server.BaseHTTPRequestHandler):
            """Passes requests on."""

            def answer(self, body: bytes | None) -> None:
                """Asks the register, and passes its answer back."""
                conn = http.client.HTTPConnection(address.removeprefix("http://"), timeout=60)
                try:
                    conn.request(self.command, self.path, body, {
                        "Content-Type": self.headers.get("Content-Type", "")})
                    found = conn.getresponse()
                    text = found.read()
                except OSError:
                    self.close_connection = True
                    return
                finally:
                    conn.close()
                if body is not None:
                    way.answers.append(text)
                    if way.is_at("passed"):
                        self.close_connection = True
                        return
                with contextlib.suppress(OSError):
                    self.send_response(found.status)
                    for name in ("Content-Type", "ETag"):
                        if value := found.headers.get(name):
                            self.send_header(name, value)
                    self.send_header("Content-Length", str(len(text)))
                    self.end_headers()
                    self.wfile.write(text)
                    self.wfile.flush()
                if body is not None:
                    way.is_at("answered")

            def do_GET(self) -> None:  # pylint: disable=invalid-name
                """A question."""
                self.answer(None)

            def do_POST(self) -> None:  # pylint: disable=invalid-name
                """A command."""
                body = self.rfile.read(int(self.headers["Content-Length"]))
                if way.is_at("came"):
                    self.close_connection = True
                    return
                way.passed.append((self.path, body))
                self.answer(body)

            def log_message(self, *_: object) -> None:
                """Prints nothing."""

        self.server = http.server.ThreadingHTTPServer(("127.0.0.1", 0), Passing)
        self.address = f"http://127.0.0.1:{self.server.server_address[1]}"
        threading.Thread(target=self.server.serve_forever, daemon=True).start()

    def is_at(self, when: str) -> bool:
        """Has happen what is to happen now, and whether it did."""
        with self.lock:
            if self.trap is None or self.trap[1] != when:
                return False
            left, _, happens = self.trap
            self.trap = None if left == 1 else (left - 1, when, happens)
        if left == 1:
            happens()
        return left == 1


@dataclasses.dataclass
class Answer:
    """What came back."""

    status: int
    kind: str
    data: bytes
    location: str

    @property
    def text(self) -> str:
        """It as a text."""
        return self.data.decode("utf-8", "replace")


class Hand:
    """Somebody at a browser."""

    def __init__(self, room: "Room", who: str, cookies: str = "") -> None:
        self.room, self.who = room, who
        self.cookies = dict(it.split("=", 1) for it in cookies.split("; ") if it)
        self.path, self.page = "/", Page("")
        self.last = Answer(0, "", b"", "")

    def cookie(self) -> str:
        """Its cookies."""
        return "; ".join(f"{name}={it}" for name, it in self.cookies.items())

    def ask(self, method: str, path: str, body: bytes = b"", kind: str = "") -> Answer:
        """A request as it is, and its answer."""
        conn = http.client.HTTPConnection("127.0.0.1", self.room.port, timeout=MOST_SECONDS)
        headers = {"Accept": "text/html", "Cookie": self.cookie(), "Origin": ORIGIN,
                   "X-Real-IP": "192.0.2.1", **({"Content-Type": kind} if kind else {})}
        try:
            conn.request(method, path, body or None, headers)
            found = conn.getresponse()
            for name, value in found.getheaders():
                if name.lower() == "set-cookie":
                    one, _, it = value.partition(";")[0].partition("=")
                    self.cookies[one] = it
            return Answer(found.status, found.getheader("Content-Type", ""), found.read(),
                          found.getheader("Location", ""))
        finally:
            conn.close()

    def get(self, path: str, status: int = 200) -> "Hand":
        """A page, once nothing of it is under way any more."""
        end = time.monotonic() + MOST_SECONDS
        while True:
            found = self.ask("GET", path)
            if found.status in (302, 303):
                path = found.location.removeprefix(ORIGIN)
                continue
            if not LOOKS_AGAIN.search(found.text) or time.monotonic() > end:
                break
            if to := ELSEWHERE.search(found.text):
                path = html.unescape(to[1])
                continue
            time.sleep(0.05)
        return self.seen(path, found, status)

    def seen(self, path: str, found: Answer, status: int) -> "Hand":
        """Takes a page, which must have this status."""
        self.last = found
        assert found.status == status, f"{self.who} at {path}: {found.status}\n{in_short(found)}"
        if found.kind.startswith("text/html"):
            self.path, self.page = path, Page(found.text)
        return self

    def file(self, path: str) -> bytes:
        """A file."""
        found = self.ask("GET", path)
        assert found.status == 200, f"{self.who} at {path}: {found.status}\n{in_short(found)}"
        return found.data

    def links(self, begin: str) -> list[str]:
        """The links of the page to numbers below a path."""
        return re.findall(f'href="({begin}[0-9]+)', self.last.text)

    def button(self, name: str) -> str:
        """The text of the button that has an identifier."""
        return " ".join(self.page.by_id[name].split())

    def form(self, button: str, at: int = 0) -> Form:
        """The form that has a button whose text begins so; of several, one of them."""
        found = [(it, text) for it in self.page.forms for text in it.buttons
                 if text == button or text.startswith(button) and button.endswith(" ")]
        assert found, f"{self.who} at {self.path} has no {button!r}:\n{in_short(self.last)}"
        it, text = found[at]
        return dataclasses.replace(it, buttons={button: it.buttons[text]})

    def sent(self, button: str, typed: Typed = NOTHING, files: Files | None = None,
             at: int = 0) -> tuple[str, bytes, str]:
        """What a button sends, with what was typed: the path, the body, and its kind."""
        form = self.form(button, at)
        pairs = [(name, it) for name, values in form.sent_by(button, **typed).items()
                 for it in (values if isinstance(values, list) else [values])]
        path = form.action or self.path
        if files is None:
            return path, urllib.parse.urlencode(pairs).encode(), "application/x-www-form-urlencoded"
        return path, in_parts(pairs, files), f"multipart/form-data; boundary={BETWEEN}"

    def press(self, button: str, typed: Typed = NOTHING, files: Files | None = None, at: int = 0,
              status: int = 200) -> "Hand":
        """Presses a button: its form is sent with what is in it and what was typed, and the page
        that follows is taken.
        """
        form = self.form(button, at)
        if form.method.lower() == "get":
            sent = urllib.parse.urlencode(form.sent_by(button, **typed), True)
            return self.get(f"{form.action or self.path}?{sent}", status)
        path, body, kind = self.sent(button, typed, files, at)
        found = self.ask("POST", path, body, kind)
        if found.status in (302, 303):
            return self.get(found.location.removeprefix(ORIGIN), status)
        if found.status == 200 and LOOKS_AGAIN.search(found.text):
            return self.get(path, status)
        return self.seen(path, found, status)

    def arrive(self, password: str) -> "Hand":
        """Signs in with a drawn password, and chooses another one."""
        self.sign_in(password)
        own = own_password(self.who)
        return self.press("Change the password", {"present": password, "new": own, "again": own})

    def sign_in(self, password: str = "") -> "Hand":
        """Signs in."""
        self.get("/sign-in")
        return self.press("Sign in", {"name": self.who,
                                      "password": password or own_password(self.who)})


def in_short(found: Answer) -> str:
    """The text of a page below its menu."""
    return " ".join(re.sub("<[^>]*>", " ", found.text.partition("<main>")[2]).split())[:3000]


def own_password(who: str) -> str:
    """The password that somebody chooses."""
    return f"the own password of {who}"


def in_parts(pairs: list[tuple[str, str]], files: Files) -> bytes:
    """The body of a form with files."""
    made = [f'--{BETWEEN}\r\nContent-Disposition: form-data; name="{name}"\r\n\r\n{it}\r\n'.encode()
            for name, it in pairs]
    for name, (called, data) in files.items():
        head = (f'--{BETWEEN}\r\nContent-Disposition: form-data; name="{name.partition("/")[0]}";'
                f' filename="{called}"\r\nContent-Type: application/octet-stream\r\n\r\n')
        made += [head.encode(), data, b"\r\n"]
    return b"".join([*made, f"--{BETWEEN}--\r\n".encode()])


class Room:
    """A machine with a register, the way to it, the application, and its people."""

    def __init__(self, machine: Machine, folder: pathlib.Path) -> None:
        self.machine, self.folder = machine, folder
        self.way = Way(machine.address)
        self.people: dict[str, Hand] = {}
        self.run: subprocess.Popen[bytes] | None = None
        self.port = 0
        self.log = folder / "application.log"

    def today(self, day: str) -> None:
        """It is another day."""
        new = self.folder / "today.new"
        new.write_text(day)
        new.replace(self.folder / "today")

    def day(self) -> datetime.date:
        """Which day it is."""
        return datetime.date.fromisoformat((self.folder / "today").read_text("ascii"))

    def begin(self, *words: str) -> None:
        """Starts the application, and waits until it answers."""
        with socket.socket() as it:
            it.bind(("127.0.0.1", 0))
            self.port = it.getsockname()[1]
        environment = {**os.environ, "PYTHONPATH": f"{ROOT}:{ROOT / 'tools'}", "TZ": "UTC",
                       "TODAY": str(self.folder / "today")}
        with self.log.open("ab") as out:
            self.run = subprocess.Popen(  # pylint: disable=consider-using-with
                ["/usr/bin/python3", str(HERE / "application_of_a_day.py"), NAME,
                 "--door", self.way.address, "--listen", f"127.0.0.1:{self.port}",
                 "--origin", ORIGIN, "--folder", str(self.machine.state), *words],
                env=environment, stdout=out, stderr=out, start_new_session=True)
        end = time.monotonic() + MOST_SECONDS
        while time.monotonic() < end:
            assert self.run.poll() is None, self.log.read_text()
            with contextlib.suppress(OSError, http.client.HTTPException):
                if Hand(self, "").ask("GET", "/sign-in").status == 200:
                    return
            time.sleep(0.05)
        raise TimeoutError(self.log.read_text())

    def kill(self) -> None:
        """The application ends at once."""
        if self.run is not None:
            os.killpg(self.run.pid, signal.SIGKILL)
            self.run.wait()
            self.run = None

    def first_password(self) -> str:
        """What was printed of the first person."""
        found = re.search(f"{FIRST}: (.*)\n", self.log.read_text())
        assert found
        return found[1]

    def person(self, who: str) -> Hand:
        """Somebody, at their browser."""
        return self.people.setdefault(who, Hand(self, who))

    def document(self) -> dict[str, Any]:
        """The register's document, from the register itself; nothing once it is deleted."""
        if not self.machine.file.exists():
            return {}
        conn = http.client.HTTPConnection("127.0.0.1", self.machine.port, timeout=60)
        conn.request("GET", "/register")
        try:
            found: dict[str, Any] = json.loads(conn.getresponse().read())
            return found
        finally:
            conn.close()

    def keep(self, to: pathlib.Path) -> None:
        """Keeps all as it is now, while nobody does anything."""
        shutil.copytree(self.folder, to, symlinks=True, ignore=lambda *_: ["tools"])
        (to / "cookies").write_text("".join(
            f"{who} {it.cookie()}\n" for who, it in self.people.items()))


@contextlib.contextmanager
def room(folder: pathlib.Path, register: pathlib.Path, kept: pathlib.Path | None = None,
         asked: list[str] | None = None) -> Iterator[Room]:
    """A room with the register of a file, or as it was kept. What is asked of the machine is added
    to a list.
    """
    with pytest.MonkeyPatch.context() as patch:
        requests = [(name, Told(name, it, [] if asked is None else asked))
                    for name, it in Machine.requests]
        patch.setattr(Machine, "requests", requests)
        folder.mkdir()
        with machine_over(folder, register, patch) as machine:
            if kept:
                machine.stop()
                for it in ("lib", "backups", "state", "etc"):
                    shutil.rmtree(folder / it, ignore_errors=True)
                    shutil.copytree(kept / it, folder / it, symlinks=True)
                shutil.copy(kept / "today", folder / "today")
                machine.start()
            made = Room(machine, folder)
            (machine.state / "copies").unlink(missing_ok=True)
            (machine.state / "copies").symlink_to(machine.copies)
            with_deletion(machine, patch, made.day)
            if kept:
                for line in (kept / "cookies").read_text().splitlines():
                    who, _, cookie = line.partition(" ")
                    made.people[who] = Hand(made, who, cookie)
            try:
                yield made
            finally:
                made.kill()
                made.way.server.shutdown()
                made.way.server.server_close()


class Told:
    """A unit of the machine, which keeps that it was asked."""

    def __init__(self, name: str, unit: Any, asked: list[str]) -> None:
        self.name, self.unit, self.asked = name, unit, asked

    def main(self, given: Any) -> Any:
        """Does what is asked."""
        self.asked.append(self.name)
        return self.unit.main(given)


def with_deletion(machine: Machine, patch: pytest.MonkeyPatch,
                  now: Callable[[], datetime.date]) -> None:
    """Has the machine keep a day of deletion and delete the register, by the day of the season."""
    settings = machine.folder / "etc"
    (settings / NAME).mkdir(parents=True, exist_ok=True)
    (settings / NAME / "site-name").write_text("admissions.example\n")
    for it in (office_delete, second_copy):
        patch.setattr(it, "SETTINGS", settings)
    patch.setattr(deletion, "today", now)
    patch.setattr(
        office_delete, "stop", lambda _: machine.stop() if machine.file.exists() else None)
