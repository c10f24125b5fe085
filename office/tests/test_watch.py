"""What a monitor may know without a sign-in: whether the register answers; and, on the machine
alone, how many requests were answered with which status.
"""
import json
import pathlib
import socket
import threading
from collections.abc import Iterator
from concurrent.futures import ThreadPoolExecutor
from typing import cast

import pytest
from applications import ORIGIN, ROUND, Browser, Site, office_over, site, town
from register_files import Refused

from office.web.frame import watch
from office.web.register.desk import Away, Desk


@pytest.fixture(name="office")
def office_fixture(tmp_path: pathlib.Path) -> Iterator[Site]:
    """The application over a register after its first round."""
    with office_over(tmp_path, [*town(), ROUND]) as found:
        yield found


def test_the_register_answers(office: Site) -> None:
    """To nobody in particular, with nothing of anybody, and nothing is on record."""
    before = len(office.parts.history.entries)
    found = Browser(office.app).client.get("/healthz", base_url=ORIGIN)
    assert (found.status_code, found.json) == (200, {"application": "ok", "register": "ok"})
    assert "Set-Cookie" not in found.headers
    assert len(office.parts.history.entries) == before
    assert Browser(office.app).client.post("/healthz", base_url=ORIGIN).status_code in (403, 405)


def test_the_register_does_not_answer(tmp_path: pathlib.Path) -> None:
    """No server is at its socket."""
    with site(tmp_path, str(tmp_path / "none.sock")) as office:
        found = Browser(office.app).client.get("/healthz", base_url=ORIGIN)
        assert (found.status_code, found.json) == (503, {"application": "ok", "register": "away"})


def test_a_silent_register_is_away_for_the_first_who_asks(
    tmp_path: pathlib.Path, monkeypatch: pytest.MonkeyPatch
) -> None:
    """Whoever watches the site waits no longer than it does: it takes the connection alone."""
    monkeypatch.setattr(watch, "LATE_SECONDS", 0.1)
    with socket.socket(socket.AF_UNIX) as listening:
        listening.bind(str(tmp_path / "desk.sock"))
        listening.listen()
        with site(tmp_path, str(tmp_path / "desk.sock")) as office:
            client = Browser(office.app).client
            with ThreadPoolExecutor(1) as threads:
                asked = threads.submit(client.get, "/healthz", base_url=ORIGIN)
                found = asked.result(60)
            assert (found.status_code, found.json) == (
                503, {"application": "ok", "register": "away"})


class Register:
    """A register that answers what a test says."""

    def __init__(self, *answers: int | Refused) -> None:
        self.answers, self.asked_for = list(answers), 0
        self.begun, self.goes_on = threading.Event(), threading.Event()
        self.goes_on.set()

    def asked(self, _: str, seconds: float) -> tuple[int, bytes]:
        """The next answer, once it is let."""
        self.asked_for += 1
        self.begun.set()
        assert seconds == watch.LATE_SECONDS and self.goes_on.wait(10)
        found = self.answers.pop(0)
        if isinstance(found, Refused):
            raise found
        return found, b""


@pytest.mark.parametrize(
    "answer, is_well",
    [(200, True), (404, True), (503, False), (500, False), (Away("it does not answer"), False)],
)
def test_what_is_an_answer(answer: int | Refused, is_well: bool) -> None:
    """A child that is not there is one too: before an import there is none."""
    assert watch.is_up(cast(Desk, Register(answer))) is is_well


def test_the_register_is_asked_once_in_a_while() -> None:
    """However many ask here."""
    now = [100.0]
    found, register = watch.Watch(lambda: now[0]), Register(200, 503, 200)
    desk = cast(Desk, register)
    for moment, is_well, times in ((100, True, 1), (100.9, True, 1), (101, False, 2),
                                   (101.5, False, 2), (102, True, 3)):
        now[0] = moment
        assert (found.is_answered(desk), register.asked_for) == (is_well, times)


def test_who_asks_meanwhile_has_the_last_answer() -> None:
    """A register that hangs holds one thread, and not all; and after some seconds it is away."""
    now = [100.0]
    found, register = watch.Watch(lambda: now[0]), Register(200, 503)
    desk = cast(Desk, register)
    assert found.is_answered(desk)
    now[0] = 102
    register.begun.clear()
    register.goes_on.clear()
    said: list[bool] = []
    thread = threading.Thread(target=lambda: said.append(found.is_answered(desk)))
    thread.start()
    assert register.begun.wait(10)
    assert found.is_answered(desk) and register.asked_for == 2
    now[0] += watch.LATE_SECONDS
    assert not found.is_answered(desk) and register.asked_for == 2
    register.goes_on.set()
    thread.join()
    assert said == [False]


def test_requests_are_counted_for_the_machine_alone(office: Site) -> None:
    """The site names the address of whoever asks over it, and they find no such page."""
    client = Browser(office.app).client
    assert client.get("/register", base_url=ORIGIN).status_code == 401
    assert client.get("/no-page", base_url=ORIGIN).status_code == 404
    for _ in range(3):
        assert client.get("/healthz", base_url=ORIGIN).status_code == 200
    found = client.get("/counts", base_url=ORIGIN, headers={"X-Real-IP": "192.0.2.3"})
    assert found.status_code == 404
    counted = json.loads(client.get("/counts", base_url=ORIGIN).data)
    assert counted["requests"] == {"200": 3, "401": 1, "404": 2}
    assert set(counted["sign_ins_failed"].values()) == {0}
    assert counted["seconds"] in range(60)
