"""The application as it is served, while something beside it hangs: nothing slow and nobody without
a sign-in keeps its threads.
"""
import contextlib
import hashlib
import http.client
import os
import pathlib
import signal
import socket
import subprocess
import sys
import threading
import time
import urllib.parse
from collections.abc import Callable, Iterator
from concurrent.futures import ThreadPoolExecutor
from typing import Any

import pytest
from applications import ORIGIN, Form, office_over, town
from conftest import ROOT, make
from served import served
from werkzeug.wrappers import Response

from office.core import turns
from office.files import book, inputs
from office.web import serve
from office.web.children import subject
from office.web.frame import uploads
from office.web.people import authority, guard, people, roles
from office.web.register.store import Store

# more than are served at once, and more than the application has threads; and people each of whom
# asks for so many of these as one person may at once
MANY, MORE, READERS = 40, serve.THREADS + 8, ("rita", "ruth", "rosa", "rex", "ron")
# what is answered while something hangs is answered within so many seconds, on a busy machine too
SOON = 30.0
BEGIN = """
import pathlib, sys
sys.path[:0] = sys.argv[1:3]
from office.web import serve
from office.web.parts import Config
at = pathlib.Path(sys.argv[3])
serve.run(Config("r", sys.argv[4], sys.argv[5], at / "office", at / "copies",
                 pathlib.Path(sys.argv[1]) / "deploy" / "site"), sys.argv[6])
"""


class Served:
    """An application in a process of its own, and how it is asked."""

    def __init__(self, folder: pathlib.Path, door: str) -> None:
        self.folder = folder
        (folder / "copies").mkdir()
        with socket.socket() as it:
            it.bind(("127.0.0.1", 0))
            self.port: int = it.getsockname()[1]
        self.origin = f"http://127.0.0.1:{self.port}"
        words = [sys.executable, "-c", BEGIN, str(ROOT), str(ROOT / "tools"), str(folder),
                 self.origin, door, f"127.0.0.1:{self.port}"]
        # pylint: disable-next=consider-using-with
        self.run = subprocess.Popen(words, start_new_session=True)
        end = time.monotonic() + 60
        while not self.is_up():
            assert self.run.poll() is None and time.monotonic() < end
            time.sleep(0.05)

    def is_up(self) -> bool:
        """Whether it answers."""
        with contextlib.suppress(OSError):
            return self.ask("/ui.css")[0] == 200
        return False

    def ask(
        self, path: str, cookie: str = "", given: dict[str, str] | None = None,
        seconds: float = SOON,
    ) -> tuple[int, str, str]:
        """The status and the text of an answer, and the session that it gives."""
        conn = http.client.HTTPConnection("127.0.0.1", self.port, timeout=seconds)
        headers = {"Accept": "text/html", "Cookie": cookie, "Origin": self.origin,
                   "Content-Type": uploads.FORM}
        body = None if given is None else urllib.parse.urlencode(given)
        conn.request("GET" if body is None else "POST", path, body, headers)
        found = conn.getresponse()
        cookie = found.headers.get("Set-Cookie", "").partition(";")[0]
        text = found.read().decode()
        conn.close()
        return found.status, text, cookie

    def sign_in(self, name: str) -> str:
        """The session of a person."""
        given = {"name": name, "password": f"{name} of the office"}
        status, _, cookie = self.ask("/sign-in", given=given)
        assert status == 303
        return cookie

    def end(self) -> None:
        """Ends it."""
        os.killpg(self.run.pid, signal.SIGKILL)
        self.run.wait()


@contextlib.contextmanager
def serving(
    folder: pathlib.Path, setting: Callable[[Store], None] = lambda _: None,
) -> Iterator[Served]:
    """An application over a register, with a head, a reader, and what is set in its store."""
    make(folder / "reg.db", town())
    (folder / "office").mkdir()
    store = Store(str(folder / "office" / "office.db"))
    found = people.People(store)
    for name, role in (("hal", roles.HEAD), *((it, roles.READER) for it in READERS)):
        found.set_password(
            roles.Person(name, role), found.add(name, role), f"{name} of the office")
    setting(store)
    store.close()
    with served(folder / "reg.db") as (door, _):
        office = Served(folder, door)
        try:
            yield office
        finally:
            office.end()


@contextlib.contextmanager
def silent() -> Iterator[str]:
    """The address of a provider that takes each connection and says nothing."""
    with socket.socket() as listening:
        listening.bind(("127.0.0.1", 0))
        listening.listen(100)
        yield f"http://127.0.0.1:{listening.getsockname()[1]}"


def statuses(asked: Callable[[], int]) -> list[int]:
    """What came of asking many times at once."""
    with ThreadPoolExecutor(MORE) as threads:
        return [it.result() for it in [threads.submit(asked) for _ in range(MORE)]]


FILE = b"a" * inputs.MB * 5


def add_file(store: Store) -> None:
    """A file of a child, which is longer than what is kept on the way to a browser."""
    with store.writing() as db:
        db.execute(
            "INSERT INTO child_file (child, name, called, size, digest, data, who, at) VALUES"
            " (1, 'Ada Abel', 'a.pdf', ?, ?, ?, 'hal', '2025-01-01T00:00:00.000+00:00')",
            (len(FILE), hashlib.sha256(FILE).hexdigest(), FILE))


def test_who_reads_long_answers_slowly_holds_few_threads(tmp_path: pathlib.Path) -> None:
    """One person asks for a file over many connections, and reads none of them to the end."""
    with serving(tmp_path, add_file) as office, contextlib.ExitStack() as stack:
        hal = office.sign_in("hal")
        asked = (f"GET /children/1/files/1 HTTP/1.1\r\nHost: a\r\nCookie: {hal}\r\n"
                 "Accept: text/html\r\n\r\n").encode()
        slow = []
        for _ in range(MANY):
            # (each is served before the next one asks)
            it = stack.enter_context(socket.socket())
            it.setsockopt(socket.SOL_SOCKET, socket.SO_RCVBUF, 4096)
            it.settimeout(SOON)
            it.connect(("127.0.0.1", office.port))
            it.sendall(asked)
            slow.append(it)
            if len(slow) <= turns.MOST_SERVED:
                assert it.recv(16).startswith(b"HTTP/1.1 200")
        for path in ("/healthz", "/ui.css", "/sign-in"):
            assert office.ask(path)[0] == 200, path
        assert office.sign_in("rita")
        # (and they have as many turns as before, once nobody reads them any more)
        for it in slow:
            it.close()
        assert all(office.ask("/children/1", hal)[0] == 200 for _ in range(MANY))
        assert office.ask("/children/1/files/1", hal)[1] == FILE.decode()


def test_what_is_held_of_one_child_is_collected_at_a_time(
    tmp_path: pathlib.Path, monkeypatch: pytest.MonkeyPatch
) -> None:
    """It has all files of the child, some times over, in memory."""
    with office_over(tmp_path, town()) as office:
        officers = [office.browser(it, "officer") for it in READERS]
        monkeypatch.setattr(turns, "SECONDS", 0.5)
        present, most, go_on = 0, 0, threading.Event()
        held = subject.held

        def slow(*given: Any) -> dict[str, Any]:
            nonlocal present, most
            present += 1
            most = max(most, present)
            assert go_on.wait(60)
            present -= 1
            return held(*given)

        monkeypatch.setattr(subject, "held", slow)
        with ThreadPoolExecutor(MANY) as threads:
            asked = [threads.submit(officers[it % 5].get, f"/children/1/held.{form}")
                     for it, form in enumerate(("html", "json") * (MANY // 2))]
            while sum(it.done() for it in asked) < MANY - 1:
                time.sleep(0.01)
            go_on.set()
            pages = [it.result() for it in asked]
        assert most == 1
        assert sorted(it.status_code for it in pages) == [200] + [503] * (MANY - 1)


def test_a_provider_that_is_silent_holds_few_threads(tmp_path: pathlib.Path) -> None:
    """Others get an answer at once, as does what needs no provider."""
    with silent() as issuer:
        provider = authority.Provider("Council", issuer, "admissions", "secret")
        with serving(tmp_path, lambda it: authority.set_provider(it, provider)) as office:
            found: list[int] = []
            thread = threading.Thread(target=lambda: found.extend(statuses(
                lambda: office.ask("/sign-in/authority", seconds=120)[0])))
            begun = time.monotonic()
            thread.start()
            time.sleep(1)
            for path in ("/healthz", "/ui.css", "/sign-in"):
                assert office.ask(path)[0] == 200, path
            thread.join()
            assert found == [503] * MORE
            # (each of the few gives up after some seconds)
            assert time.monotonic() - begun < 60
            assert "or sign in with a password" in office.ask("/sign-in/authority")[1]


def test_a_copy_that_hangs_holds_few_threads(tmp_path: pathlib.Path) -> None:
    """Pages of the register say that it is being copied; the sign-in needs no register."""
    with serving(tmp_path) as office:
        hal, *readers = (office.sign_in(it) for it in ("hal", *READERS))
        secret = Form(office.ask("/copies/", hal)[1]).secret
        requests = tmp_path / "office" / "requests"

        def copy() -> None:
            # (the application ends before the machine does)
            with contextlib.suppress(OSError):
                office.ask("/copies/", hal, {"form": secret}, seconds=300)

        threading.Thread(target=copy).start()
        while not (requests / "copy").exists():
            time.sleep(0.01)
        # (what the machine has begun nobody takes back, and it does not end)
        (requests / "copy").rename(requests / "copy.begun")
        pages: list[tuple[int, str, str]] = []
        with ThreadPoolExecutor(MORE) as threads:
            asked = [threads.submit(office.ask, "/schools/", readers[it % 5], seconds=120)
                     for it in range(MORE)]
            time.sleep(1)
            assert office.ask("/healthz")[0] in (200, 503)
            for path in ("/ui.css", "/sign-in"):
                assert office.ask(path)[0] == 200, path
            assert office.sign_in("rita")
            pages = [it.result() for it in asked]
        assert {status for status, _, _ in pages} == {503}
        assert all("try again in a minute" in text for _, text, _ in pages)
        # (of each reader few are served, and few wait beside these)
        served = [it for _, it, _ in pages if "ou have asked for very much at once" not in it]
        assert len(served) >= MANY and all("being copied" in it for it in served)


def test_one_person_has_few_of_the_threads(
    tmp_path: pathlib.Path, monkeypatch: pytest.MonkeyPatch
) -> None:
    """A reader asks for long pages over many connections: others are served beside them."""
    with office_over(tmp_path, town()) as office:
        rita, hal = office.browser("rita", "reader"), office.browser("hal", "head")
        go_on = threading.Event()

        def slow() -> str:
            assert go_on.wait(60)
            return "a long page"

        views: dict[str, Any] = office.app.view_functions
        monkeypatch.setitem(views, "schools.show", guard.needs("read")(slow))
        with ThreadPoolExecutor(MANY) as threads:
            asked = [threads.submit(rita.get, "/schools/") for _ in range(MANY)]
            # (some more wait for their turn)
            while sum(it.done() for it in asked) < MANY - turns.MOST_SERVED - turns.MOST_OF_ONE:
                time.sleep(0.01)
            assert hal.get("/flags/").status_code == 200
            go_on.set()
            pages = [it.result() for it in asked]
        refused = [it.text for it in pages if it.status_code == 503]
        assert len(refused) == MANY - turns.MOST_SERVED - turns.MOST_OF_ONE
        assert all("You have asked for very much at once" in it for it in refused)
        assert turns.MOST_SERVED + turns.MOST_OF_ONE < serve.OF_PEOPLE // 2
        assert all(rita.get("/flags/").status_code == 200 for _ in range(MANY))


def test_one_person_takes_not_all_places_of_those_who_wait(tmp_path: pathlib.Path) -> None:
    """A reader asks for more than is answered at once, on and on: a colleague waits beside."""
    with office_over(tmp_path, town()) as office:
        rita, hal = office.browser("rita", "reader"), office.browser("hal", "head")
        with ThreadPoolExecutor(MANY) as threads:
            with office.parts.desk.reading:
                asked = [threads.submit(rita.get, "/children/1") for _ in range(MANY)]
                while sum(it.done() for it in asked) < MANY - turns.MOST_OF_ONE:
                    time.sleep(0.01)
                beside = threads.submit(hal.get, "/children/1")
                time.sleep(0.2)
                assert not beside.done()
            pages = [it.result() for it in asked]
            assert beside.result().status_code == 200
        assert sorted(it.status_code for it in pages) == (
            [200] * turns.MOST_OF_ONE + [503] * (MANY - turns.MOST_OF_ONE))
        assert turns.WAITING.counts.total() == 0


@pytest.mark.parametrize("programs", [1, 4])
def test_programs_wait_with_all_their_requests(
    tmp_path: pathlib.Path, monkeypatch: pytest.MonkeyPatch, programs: int
) -> None:
    """They ask for more at once than people do. Few of each are served at once, so that people find
    a place beside them, however many programs there are; and what is beyond those that are served
    or wait for that is refused.
    """
    go_on, served = threading.Event(), list[str]()

    def slow(path: str, _: object) -> tuple[int, bytes]:
        served.append(path)
        assert go_on.wait(120)
        return 200, b"{}"

    with office_over(tmp_path, town()) as office:
        portals = [office.program(f"portal{it}") for it in range(programs)]
        hal, (many, over) = office.browser("hal", "head"), (turns.MOST_OF_PROGRAMS, 5)
        monkeypatch.setattr(office.parts.desk, "asked", slow)
        with ThreadPoolExecutor(many + over) as threads:
            asked = [threads.submit(portals[it % programs].get, "/child/1")
                     for it in range(many + over)]
            end = time.monotonic() + 60
            while sum(it.done() for it in asked) < over and time.monotonic() < end:
                time.sleep(0.01)
            is_here, done = hal.get("/password").status_code, sum(it.done() for it in asked)
            many_served = len(served)
            go_on.set()
            found = [it.result().status_code for it in asked]
        assert (is_here, done, many_served) == (200, over, turns.MOST_SERVED * programs)
        assert sorted(found) == [200] * many + [503] * over
        assert turns.OF_PROGRAMS.counts.total() == 0


def test_what_many_have_typed_is_kept_for_few_at_once(
    tmp_path: pathlib.Path, monkeypatch: pytest.MonkeyPatch
) -> None:
    """Each may be a long page. Who is beyond them is refused without what they typed."""
    with office_over(tmp_path, town()) as office:
        officers = [office.browser(it, "officer") for it in READERS]
        monkeypatch.setattr(turns, "SECONDS", 0.5)
        lock, present, most, go_on = threading.Lock(), 0, 0, threading.Event()
        typed_again = guard.typed_again

        def slow(status: int, reason: str) -> Response | None:
            nonlocal present, most
            with lock:
                present += 1
                most = max(most, present)
            assert go_on.wait(60)
            with lock:
                present -= 1
            return typed_again(status, reason)

        def send(at: int) -> str:
            found = officers[at % 5].client.post("/children/1/notes", base_url=ORIGIN, data={
                "form": "another", "text": "what was typed"}, headers={
                    "Origin": ORIGIN, "Accept": "text/html"})
            assert found.status_code == 403
            return str(found.text)

        monkeypatch.setattr(guard, "typed_again", slow)
        with ThreadPoolExecutor(MANY) as threads:
            asked = [threads.submit(send, it) for it in range(MANY)]
            while sum(it.done() for it in asked) < MANY - 2:
                time.sleep(0.01)
            go_on.set()
            pages = [it.result() for it in asked]
        assert most == 2 and sum("what was typed" in it for it in pages) == 2


def test_many_excel_files_at_once_hold_few_threads(
    tmp_path: pathlib.Path, monkeypatch: pytest.MonkeyPatch
) -> None:
    """Each takes much time of the processor, and any reader asks for as many as they like."""
    with office_over(tmp_path, town()) as office:
        readers = [office.browser(it, "reader") for it in READERS]
        monkeypatch.setattr(turns, "SECONDS", 0.5)
        lock, present, most, go_on = threading.Lock(), 0, 0, threading.Event()
        written = book.written

        def slow(pages: list[book.Page], title: str) -> bytes:
            nonlocal present, most
            with lock:
                present += 1
                most = max(most, present)
            assert go_on.wait(60)
            with lock:
                present -= 1
            return written(pages, title)

        monkeypatch.setattr(book, "written", slow)
        with ThreadPoolExecutor(MANY) as threads:
            asked = [threads.submit(readers[it % 5].get, "/lists/children/workbook")
                     for it in range(MANY)]
            while sum(it.done() for it in asked) < MANY - 2:
                time.sleep(0.01)
            go_on.set()
            pages = [it.result() for it in asked]
        assert most == 2
        assert sorted(it.status_code for it in pages) == [200] * 2 + [503] * (MANY - 2)
        said = "Other Excel files are being made: try again in a minute"
        assert all(said in it.text for it in pages if it.status_code == 503)


@pytest.mark.parametrize("name, value, many", [("field", "x", 501), ("field", "x" * 1000, 100)])
def test_what_nobody_has_signed_is_not_read(
    tmp_path: pathlib.Path, name: str, value: str, many: int
) -> None:
    """A form of more fields or bytes than one that somebody typed is not shown again."""
    with serving(tmp_path) as office:
        fields = {f"{name}{at}": value for at in range(many)}
        status, text, _ = office.ask("/people/", "", fields)
        assert status in (401, 413) and len(text) < 5000
        typed = dict(list(fields.items())[:80])
        status, text, _ = office.ask("/people/", "", typed)
        assert status == 401 and value in text and "Your session has ended" in text
