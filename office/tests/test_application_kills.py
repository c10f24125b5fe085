"""An application, and a register's server, that are killed at any moment: nothing that was answered
is lost, nothing is sent twice, the history is whole, and what had no answer is settled.
"""
import base64
import contextlib
import http.client
import http.server
import json
import os
import pathlib
import random
import signal
import socket
import subprocess
import sys
import threading
import time
from collections.abc import Callable, Iterator
from typing import Any

import pytest
import season_hands
from applications import child, town
from conftest import PROGRAM, ROOT, make, school
from staged import csv_of

from office.core import command_kinds, model, senders
from office.web.applications.rows import COMMITTED
from office.web.people import people, roles
from office.web.register import history
from office.web.register.store import Store

MOMENTS = 50
TOKEN = "portal"


def free_port() -> int:
    """A port that nothing has now."""
    with socket.socket() as it:
        it.bind(("127.0.0.1", 0))
        port: int = it.getsockname()[1]
        return port


class Counter:
    """A way to the register that counts each command which arrives, and may be slow."""

    def __init__(self, port: int) -> None:
        self.arrived: list[bytes] = []
        counter = self

        class Way(http.server.BaseHTTPRequestHandler):
            """Passes requests on."""

            def answer(self, body: bytes | None) -> None:
                """Asks the register, and passes its answer back."""
                conn = http.client.HTTPConnection("127.0.0.1", port, timeout=30)
                try:
                    headers = {"Content-Type": self.headers.get("Content-Type", "")}
                    conn.request(self.command, self.path, body, headers)
                    found = conn.getresponse()
                    text = found.read()
                except OSError:
                    self.close_connection = True
                    return
                with contextlib.suppress(OSError):
                    self.send_response(found.status)
                    self.send_header("Content-Length", str(len(text)))
                    self.end_headers()
                    self.wfile.write(text)

            def do_GET(self) -> None:  # pylint: disable=invalid-name
                """A question."""
                self.answer(None)

            def do_POST(self) -> None:  # pylint: disable=invalid-name
                """A command."""
                body = self.rfile.read(int(self.headers["Content-Length"]))
                counter.arrived.append(body)
                self.answer(body)

            def log_message(self, *_: object) -> None:
                """Prints nothing."""

        self.server = http.server.ThreadingHTTPServer(("127.0.0.1", 0), Way)
        self.port: int = self.server.server_address[1]
        threading.Thread(target=self.server.serve_forever, daemon=True).start()


class Room:
    """A register that is served, the way to it, and the application before it."""

    def __init__(self, folder: pathlib.Path) -> None:
        self.folder, self.path = folder, folder / "reg.db"
        make(self.path, town())
        self.desk_port, self.port = free_port(), free_port()
        self.way = Counter(self.desk_port)
        (folder / "office").mkdir()
        store = Store(str(folder / "office" / "office.db"))
        secret = people.People(store).add(TOKEN, "officer", roles.PROGRAM)
        store.close()
        self.token = base64.b64encode(f"{TOKEN}:{secret}".encode()).decode()
        self.desk, self.office = self.begin_desk(), self.begin_office()

    def begin_desk(self) -> subprocess.Popen[bytes]:
        """Starts the server."""
        words = [PROGRAM, "serve", str(self.path), str(self.desk_port)]
        run = subprocess.Popen(  # pylint: disable=consider-using-with
            words, stdout=subprocess.PIPE, start_new_session=True)
        assert run.stdout and run.stdout.readline()
        return run

    def begin_office(self) -> subprocess.Popen[bytes]:
        """Starts the application, and waits until it answers."""
        code = (
            "import pathlib, sys; sys.path[:0] = sys.argv[1:3];"
            "from office.web import serve; from office.web.parts import Config;"
            "at = pathlib.Path(sys.argv[3]);"
            "serve.run(Config('r', sys.argv[4], sys.argv[5], at / 'office', at / 'copies', at),"
            " sys.argv[6])")
        words = [sys.executable, "-c", code, str(ROOT), str(ROOT / "tools"), str(self.folder),
                 f"http://127.0.0.1:{self.port}", f"http://127.0.0.1:{self.way.port}",
                 f"127.0.0.1:{self.port}"]
        run = subprocess.Popen(words, start_new_session=True)  # pylint: disable=R1732
        # (its socket is there before it answers)
        until = time.monotonic() + 120
        while time.monotonic() < until:
            assert run.poll() is None
            conn = http.client.HTTPConnection("127.0.0.1", self.port, timeout=60)
            with contextlib.suppress(OSError, http.client.HTTPException):
                conn.request("GET", "/sign-in")
                if conn.getresponse().status == 200:
                    return run
            conn.close()
            time.sleep(0.02)
        raise TimeoutError

    def ask(self, command: dict[str, Any]) -> dict[str, Any]:
        """The answer of the application to a command."""
        conn = http.client.HTTPConnection("127.0.0.1", self.port, timeout=60)
        headers = {"Authorization": f"Basic {self.token}", "Content-Type": "application/json",
                   "Origin": f"http://127.0.0.1:{self.port}"}
        try:
            conn.request("POST", "/command", json.dumps(command), headers)
            answer: dict[str, Any] = json.loads(conn.getresponse().read())
            return answer
        finally:
            conn.close()

    def end(self) -> None:
        """Ends all."""
        for it in (self.office, self.desk):
            os.killpg(it.pid, signal.SIGKILL)
            it.wait()
        self.way.server.shutdown()


@pytest.fixture(name="room")
def room_fixture(tmp_path: pathlib.Path) -> Iterator[Room]:
    """A room of its own."""
    found = Room(tmp_path)
    try:
        yield found
    finally:
        found.end()


def load(room: Room, done: list[dict[str, Any]], stop: threading.Event, first: int) -> None:
    """Sends commands, each once, until told to stop."""
    number = first
    while not stop.is_set():
        command = child(number, f"Child {number}", 100)
        try:
            answer = room.ask(command)
        except (OSError, ValueError, http.client.HTTPException):
            return
        if answer.get("done"):
            done.append(command)
        number += 1


def see(room: Room, done: list[dict[str, Any]]) -> None:
    """Sees that what was answered is stored, that nothing arrived twice, and that the history is
    whole and says of each request what became of it.
    """
    assert room.ask({"cmd": "amend", **{name: it for name, it in child(1, "Ada", 100).items()
                                        if name != "cmd"}}) == {"done": True}
    register = model.of_source(
        model.Server(senders.Http(f"http://127.0.0.1:{room.desk_port}")))
    for it in done:
        assert command_kinds.is_done(register, it), it
    once = [it for it in room.way.arrived if b'"cmd":"add_child"' in it]
    assert len(once) == len(set(once))
    entries = history.read(str(room.folder / "office" / "history.jsonl"))
    came = {it.about["of"]: it for it in entries if it.what in (history.ANSWER, history.SETTLED)}
    for sent in entries:
        if sent.what == history.SENDS:
            command, found = sent.about["command"], came[sent.number]
            is_done = found.about["done"] if found.what == history.SETTLED else (
                commands_done(found.about["answer"]))
            if command["cmd"] == "add_child":
                assert is_done == (command["child"] in register.children), (sent, found)


def commands_done(answer: Any) -> bool:
    """Whether an answer says that it is done."""
    return isinstance(answer, dict) and answer.get("done") is True


@pytest.mark.parametrize("who", ["office", "desk"])
def test_killed_at_any_moment(room: Room, who: str) -> None:
    """Fifty times: after so many commands have reached the register, and a little later, as a
    generator with a fixed seed chooses.
    """
    chosen = random.Random(f"{who} 1")
    done: list[dict[str, Any]] = []
    least = 0
    for at in range(MOMENTS):
        stop = threading.Event()
        thread = threading.Thread(target=load, args=(room, done, stop, 100 + 1000 * at))
        before, count = len(room.way.arrived), chosen.randrange(4)
        thread.start()
        while len(room.way.arrived) < before + count:
            assert thread.is_alive()
            time.sleep(0.002)
        time.sleep(chosen.uniform(0.0, 0.03))
        # (of those that have arrived, the last one may have no answer yet)
        least += max(0, count - 1)
        run: subprocess.Popen[bytes] = getattr(room, who)
        # (the application is two processes, in a group of their own)
        os.killpg(run.pid, signal.SIGKILL)
        run.wait()
        stop.set()
        setattr(room, who, room.begin_desk() if who == "desk" else room.begin_office())
        thread.join(90)
        assert not thread.is_alive()
    see(room, done)
    assert len(done) >= least


# twelve applications, of which each row is right
APPLIED = [f"{at},Child {at},{at * 100},0,no,,,2024-10-01,OAK;ELM," for at in range(1, 13)]


class Asked(list[str]):
    """What is asked of the machine; at a request that is named something happens."""

    def __init__(self) -> None:
        super().__init__()
        self.at = ""
        self.happens: Callable[[], object] = str

    def append(self, it: str) -> None:
        """Something is asked."""
        super().append(it)
        if it == self.at:
            self.at = ""
            self.happens()


def has_children(lived: season_hands.Room) -> bool:
    """Whether the register has children. (It does not answer while it is copied.)"""
    with contextlib.suppress(OSError, http.client.HTTPException):
        return bool(lived.document()["children"])
    return False


def imports_of(record: list[history.Entry]) -> list[bool]:
    """Of each import that was sent whether it is done, as the history says."""
    came = {it.about["of"]: it for it in record if it.what in (history.ANSWER, history.SETTLED)}
    sent = [came[it.number] for it in record
            if it.what == history.SENDS and "import" in it.about]
    return [it.about["done"] if it.what == history.SETTLED else commands_done(it.about["answer"])
            for it in sent]


@pytest.mark.parametrize("when", ["copy", "came", "passed", "answered"])
def test_applications_are_added_whenever_the_application_is_killed(
    tmp_path: pathlib.Path, when: str
) -> None:
    """While the register is copied, and at the request: before it passes, after it, and after its
    answer. The next application goes on before anybody looks: all are in the register once, the
    table has none of them, and the screen and the history say so; also to who presses again.
    """
    asked, dead = Asked(), threading.Event()
    make(tmp_path / "reg.db", [school("OAK"), school("ELM")])
    with season_hands.room(tmp_path / "machine", tmp_path / "reg.db", asked=asked) as lived:
        lived.today("2024-11-07")
        lived.begin("--person", "hal")
        hal = lived.person("hal").arrive(lived.first_password())
        hal.get("/applications/").press("Add the files", files={
            "files/1": ("first.csv", csv_of(*APPLIED))})
        hal.get("/applications/commit/")
        sent = hal.sent("Add 12 applications")
        assert lived.run
        group = lived.run.pid

        def kill() -> None:
            os.killpg(group, signal.SIGKILL)
            dead.set()

        if when == "copy":
            asked.at, asked.happens = "copy", kill
        else:
            lived.way.trap = 1, when, kill
        with contextlib.suppress(OSError, http.client.HTTPException):
            hal.ask("POST", *sent)
        assert dead.wait(120)
        lived.kill()
        lived.begin()
        until = time.monotonic() + 120
        while not has_children(lived):
            assert time.monotonic() < until
            time.sleep(0.05)
        page = hal.get("/applications/commit/").page
        assert page.by_id["verdict"] == "There is nothing to add: no row is in the table."
        assert "answer" not in page.by_id
        assert hal.ask("POST", *sent).status in (303, 409)
        assert [it["child"] for it in lived.document()["children"]] == list(range(1, 13))
        assert [path for path, _ in lived.way.passed] == ["/import"]
        lived.kill()
        state = lived.machine.state
    record = history.read(str(state / "history.jsonl"))
    assert imports_of(record).count(True) == 1
    [entry] = [it.number for it, is_done in zip(
        (it for it in record if it.what == history.SENDS), imports_of(record)) if is_done]
    store = Store(str(state / "office.db"))
    rows = store.rows("SELECT DISTINCT state, entry FROM staged_row")
    assert [tuple(it) for it in rows] == [(COMMITTED, entry)]
    store.close()


@pytest.mark.parametrize("who, when", [
    ("office", "came"), ("office", "passed"), ("office", "answered"), ("desk", "came"),
    ("desk", "passed")])
def test_each_part_of_the_applications_is_added_once_whoever_is_killed(
    tmp_path: pathlib.Path, monkeypatch: pytest.MonkeyPatch, who: str, when: str
) -> None:
    """Of three parts the second is on its way when the application is killed, or the register's
    server: before the request passes, after it, and after its answer. It goes on where it was,
    without another question: each part is in the register once, and the history says so.
    """
    monkeypatch.setenv("MOST_ROWS", "5")
    dead = threading.Event()
    make(tmp_path / "reg.db", [school("OAK"), school("ELM")])
    with season_hands.room(tmp_path / "machine", tmp_path / "reg.db") as lived:
        lived.today("2024-11-07")
        lived.begin("--person", "hal")
        hal = lived.person("hal").arrive(lived.first_password())
        hal.get("/applications/").press("Add the files", files={
            "files/1": ("first.csv", csv_of(*APPLIED))})
        hal.get("/applications/commit/")
        sent = hal.sent("Add 12 applications")

        def kill() -> None:
            # (the server is another one since the copy)
            run = lived.run if who == "office" else lived.machine.run
            assert run
            os.killpg(run.pid, signal.SIGKILL)
            dead.set()

        lived.way.trap = 2, when, kill
        with contextlib.suppress(OSError, http.client.HTTPException):
            hal.ask("POST", *sent)
        assert dead.wait(120)
        if who == "office":
            lived.kill()
            lived.begin()
        else:
            lived.machine.stop()
            lived.machine.start()
        until = time.monotonic() + 120
        while "There is nothing to add" not in (
                page := hal.get("/applications/commit/").page.by_id).get("verdict", ""):
            assert time.monotonic() < until, page
            time.sleep(0.05)
        assert [it["child"] for it in lived.document()["children"]] == list(range(1, 13))
        assert [path for path, _ in lived.way.passed] == ["/import"] * 3
        assert len({body for _, body in lived.way.passed}) == 3
        lived.kill()
        state = lived.machine.state
    record = history.read(str(state / "history.jsonl"))
    assert imports_of(record).count(True) == 3
    store = Store(str(state / "office.db"))
    rows = store.rows("SELECT state, count(*) FROM staged_row GROUP BY state, entry ORDER BY entry")
    assert [tuple(it) for it in rows] == [(COMMITTED, 5), (COMMITTED, 5), (COMMITTED, 2)]
    store.close()
