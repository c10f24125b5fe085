"""Sign-ins that failed: counted by their kind, and in the machine's journal by address and time,
without the name and the password that were typed.
"""
import base64
import json
import pathlib
import socket
from collections.abc import Iterator

import pytest
from applications import ORIGIN, ROUND, Browser, Site, office_over, town

from office.web.frame import failures, journal
from office.web.frame.failures import Failures
from office.web.people import attempts


@pytest.fixture(name="office")
def office_fixture(tmp_path: pathlib.Path) -> Iterator[Site]:
    """The application over a register after its first round."""
    with office_over(tmp_path, [*town(), ROUND]) as found:
        yield found


class Taken:
    """What a journal has taken, as fields; and a clock."""

    def __init__(self) -> None:
        self.now = 100.0
        self.lines: list[dict[str, str]] = []
        self.is_away = False

    def send(self, data: bytes) -> None:
        """Takes a line, unless it is away."""
        if self.is_away:
            raise ConnectionRefusedError(111, "refused")
        self.lines.append(dict(it.split("=", 1) for it in data.decode().splitlines()))


@pytest.fixture(name="taken")
def taken_fixture() -> Taken:
    """A journal that is there."""
    return Taken()


def failed(taken: Taken) -> Failures:
    """The sign-ins that failed, of an application that begins now."""
    return Failures("secondary-2025", taken.send, lambda: taken.now)


def counts(office: Site) -> dict[str, int]:
    """What the application counts, for the machine alone."""
    found = json.loads(Browser(office.app).client.get("/counts", base_url=ORIGIN).data)
    counted: dict[str, int] = found["sign_ins_failed"]
    return counted


def test_a_line_has_address_and_kind_alone(taken: Taken) -> None:
    """And is one of the facility of sign-ins."""
    failed(taken).add(failures.PASSWORD, "192.0.2.7")
    assert taken.lines == [{
        "MESSAGE": "secondary-2025: a sign-in failed from 192.0.2.7 (password)",
        "PRIORITY": "5", "SYSLOG_FACILITY": "10", "SYSLOG_IDENTIFIER": "admissions-sign-in",
        "ADMISSIONS_REGISTER": "secondary-2025", "ADMISSIONS_ADDRESS": "192.0.2.7",
        "ADMISSIONS_BY": "password"}]


def test_many_in_a_minute_are_counted_alone(taken: Taken) -> None:
    """So that who fails without end fills no disk; the next minute begins anew."""
    found = failed(taken)
    for _ in range(1000):
        found.add(failures.TOKEN, "192.0.2.7")
    assert len(taken.lines) == 60 and found.counts()["token"] == 1000
    said = [it["MESSAGE"].endswith("is counted alone") for it in taken.lines]
    assert said == [False] * 59 + [True]
    taken.now += 59.9
    found.add(failures.TOKEN, "192.0.2.7")
    assert len(taken.lines) == 60
    taken.now += 0.1
    found.add(failures.TOKEN, "192.0.2.8")
    assert [it["ADMISSIONS_ADDRESS"] for it in taken.lines[60:]] == ["192.0.2.8"]


def test_a_journal_that_is_away_delays_nobody(taken: Taken) -> None:
    """The count goes on; and so where there is none."""
    found, taken.is_away = failed(taken), True
    found.add(failures.PASSWORD, "192.0.2.7")
    without = Failures("secondary-2025", None)
    without.add(failures.PASSWORD, "192.0.2.7")
    assert found.counts() == without.counts() == {
        "password": 1, "wait": 0, "account": 0, "token": 0, "provider": 0}


def test_no_address_makes_a_line_of_its_own(taken: Taken) -> None:
    """Whatever the site passes on."""
    failed(taken).add(failures.PASSWORD, "eve\nADMISSIONS_REGISTER=other\x00" + "e" * 10_000)
    assert [it["ADMISSIONS_REGISTER"] for it in taken.lines] == ["secondary-2025"]
    assert all(len(text) < 7 * journal.MOST for text in taken.lines[0].values())


def test_wrong_passwords_are_counted_and_named(office: Site, taken: Taken) -> None:
    """Those of a person, of nobody, and of somebody who is locked; once there is a wait, those that
    are not looked at are counted alone. Who signs in is none of them, and the history has none.
    """
    office.parts.failures = failed(taken)
    jane = office.browser("jane")
    office.browser("kim")
    office.parts.people.lock("kim", True)
    before = len(office.parts.history.entries)
    eve = Browser(office.app, "192.0.2.9")
    typed = ("secret of jane", "jane"), ("jane", "nothing of hers"), (
        "kim", office.passwords["kim"]), ("jane", "x"), ("jane", "y"), ("jane", "z"), ("jane", "z")
    for name, password in typed:
        assert eve.sign_in(name, password).status_code == 403
    assert counts(office) == {"password": 5, "wait": 2, "account": 0, "token": 0, "provider": 0}
    wanted = ["192.0.2.9"] * attempts.FREE_ATTEMPTS
    assert [it["ADMISSIONS_ADDRESS"] for it in taken.lines] == wanted
    assert not any(it in str(taken.lines) for it in ("jane", "kim", "secret", "nothing"))
    assert len(office.parts.history.entries) == before
    assert jane.get("/").status_code == 200
    assert counts(office)["password"] == 5


def test_wrong_tokens_are_counted_once(office: Site, taken: Taken) -> None:
    """The site asks who is signed in before it passes on what changes something, and a wrong token
    ends there.
    """
    office.parts.failures = failed(taken)
    right = office.token("portal", "officer")
    given = base64.b64encode(b"portal:no token of it").decode()
    wrong = {"Authorization": f"Basic {given}", "X-Real-IP": "192.0.2.9"}
    client = Browser(office.app).client
    for path, status in (("/signed-in", 401), ("/child/1", 401), ("/no-page", 404)):
        assert client.get(path, base_url=ORIGIN, headers=wrong).status_code == status
    assert client.get("/child/1", base_url=ORIGIN, headers=right).status_code == 200
    assert counts(office)["token"] == 3
    assert [it["MESSAGE"] for it in taken.lines] == [
        "secondary-2025: a sign-in failed from 192.0.2.9 (token)"] * 3


def test_the_application_sends_to_the_journal_of_the_machine(tmp_path: pathlib.Path) -> None:
    """By its socket, as it does its history."""
    with socket.socket(socket.AF_UNIX, socket.SOCK_DGRAM) as way:
        way.bind(str(tmp_path / "socket"))
        Failures("secondary-2025", journal.sender(str(tmp_path / "socket"))).add(
            failures.ACCOUNT, "192.0.2.7")
        assert b"SYSLOG_IDENTIFIER=admissions-sign-in\n" in way.recv(1 << 16)
