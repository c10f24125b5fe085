"""The application: who may do what, what is on record, and what is sent only if nothing changed."""
import contextlib
import json
import os
import pathlib
import re
import resource
import sqlite3
import subprocess
import sys
import threading
import time
import urllib.parse
from collections.abc import Callable, Iterator
from typing import Any

import pytest
from applications import (
    ORIGIN, ROUND, Browser, Program, Site, child, office_over, site, town,
)
from conftest import ROOT
from pages import Page, press
from register_files import Refused

from office.core import turns
from office.web import serve
from office.web.frame import uploads
from office.web.letters import whom as letters_whom
from office.web.lists import saved as list_views
from office.web.people import attempts, guard, people
from office.web.people import roles as people_roles
from office.web.people.views import people as people_screen
from office.web.register import desk, history, store

ACCEPT = {"cmd": "accept", "child": 1, "school": "A"}
DECLINE = {"cmd": "decline", "child": 1, "school": "A"}


@pytest.fixture(name="office")
def office_fixture(tmp_path: pathlib.Path) -> Iterator[Site]:
    """The application over a register after its first round."""
    with office_over(tmp_path, [*town(), ROUND]) as found:
        yield found


def test_nobody_reads_without_a_sign_in(office: Site) -> None:
    """A browser is led to the form, and comes back to where it was going."""
    stranger = Browser(office.app)
    found = stranger.get("/activity/?who=jane")
    # (flask of Debian 12 quotes more characters of a query than that of Debian 13)
    there = urllib.parse.urlsplit(found.location)
    assert (found.status_code, there.path) == (302, "/sign-in")
    assert urllib.parse.parse_qs(there.query) == {"to": ["/activity/?who=jane"]}
    for path in ("/register", "/register/child/1", "/child/1", "/pairs", "/school/A/waiting",
                 "/draw/1"):
        asked = stranger.client.get(path, base_url=ORIGIN)
        assert (asked.status_code, asked.json) == (
            401, {"reason": "sign in first", "status": 401}), path
    office.add("jane", "officer")
    assert stranger.sign_in("jane", "a wrong password").status_code == 403
    assert stranger.sign_in("jane", office.passwords["jane"]).location == "/"


def test_the_path_after_the_sign_in_is_of_this_site(office: Site) -> None:
    """Nobody is led to another site by an address."""
    office.add("jane", "officer")
    for to in ("https://evil.example/", "//evil.example", "/\\evil.example", "javascript:alert(1)",
               "//[", "https://[::1"):
        given = {"name": "jane", "password": office.passwords["jane"], "to": to}
        assert Browser(office.app).post("/sign-in", given).location == "/", to


def test_a_browser_that_asks_for_an_icon_finds_no_error(office: Site) -> None:
    """Nor does it get one: the request is made by the browser alone."""
    found = Browser(office.app).get("/favicon.ico")
    assert (found.status_code, found.data) == (204, b"")


RIGHTS = [
    # (method and path, and who may: of what is for programs, those of the role)
    ("GET /", "head officer supervisor reader administrator school-A"),
    ("GET /register", "head officer reader"),
    ("GET /register/child/1", "head officer reader"),
    ("GET /register/school/A", "head officer reader"),
    ("GET /child/1", "head officer reader"),
    ("GET /draw/1", "head officer reader"),
    ("GET /school/A/waiting", "head officer reader school-A"),
    ("GET /school/B/waiting", "head officer reader"),
    ("GET /activity/", "head officer"),
    ("GET /people/", "head administrator"),
    ("POST /command", "head officer"),
    ("POST /import", "head officer"),
    ("POST /people/", "head administrator"),
]
SCREENS = ("/", "/activity/", "/people/")
ROLES = ("head", "officer", "supervisor", "reader", "administrator", "school-A")


@pytest.mark.parametrize("role", ROLES)
def test_each_role_may_do_what_is_its_own(office: Site, role: str) -> None:
    """Everything else is refused, and on record."""
    browser, program = office.browser("kim", role), office.program("portal", role)
    kinds = {"/command": "application/json", "/import": "text/csv"}
    for what, roles in RIGHTS:
        method, path = what.split()
        is_screen = path in SCREENS
        found = (browser.client if is_screen else program.client).open(
            path, method=method, base_url=ORIGIN,
            headers={"Origin": ORIGIN, **({} if is_screen else program.token)},
            content_type=kinds.get(path, "application/x-www-form-urlencoded"),
            data={"form": browser.secret, "what": "none"} if is_screen and method == "POST" else {})
        is_refused = found.status_code == 403
        assert is_refused == (role not in roles.split()), (what, found.status_code, found.text)
        if is_refused:
            last = office.parts.history.entries[-1]
            assert (last.who, last.what, last.about) == (
                "kim" if is_screen else "portal", "refused", {"asked": what, "role": role})


def test_each_view_says_which_right_it_needs(office: Site) -> None:
    """A view that says nothing would be open to all: the application does not begin."""
    office.app.view_functions["forgotten"] = lambda: ""
    with pytest.raises(RuntimeError, match="without a right: forgotten"):
        guard.guarded(office.app)


def test_what_needs_no_right_is_on_record_so_often_in_an_hour(office: Site) -> None:
    """Of a person, whatever is asked for: a loop over all addresses would fill the disk, and the
    memory of the application with it.
    """
    sup, rita = office.browser("sup", "supervisor"), office.browser("rita", "reader")
    moment = [0.0]
    office.app.extensions["few"].clock = lambda: moment[0]

    def recorded(*kinds: str) -> int:
        return sum(it.what in kinds for it in office.parts.history.entries)

    for number in range(1, 530):
        assert sup.get(f"/children/{number}").status_code == 403
    assert recorded("refused") == 500
    for at in range(260):
        found = rita.post("/lists/children/save", {"title": "mine", "query": f"find={at}"})
        assert found.status_code == 303
        [view] = list_views.Views(office.parts.store).of("rita")
        assert rita.post(f"/lists/views/{view.number}/remove").status_code == 303
    assert recorded("saved a view", "removed a view") == 500
    moment[0] += 3601
    assert sup.get("/children/600").status_code == 403 and recorded("refused") == 501


def test_sign_ins_are_on_record_so_often_in_an_hour(office: Site) -> None:
    """And passwords that are changed: who does it in a loop is refused, so that each one is on
    record. Others are not counted, nor what failed.
    """
    jane, bo, moment = office.browser("jane"), office.browser("bo"), [0.0]
    few, record = office.app.extensions["few"], office.parts.history
    few.clock, few.counts["sign-in jane"] = (lambda: moment[0]), (0.0, 498)
    assert jane.sign_in("jane", "wrong").status_code == 403
    assert [jane.sign_in("jane", office.passwords["jane"]).status_code for _ in range(4)] == [
        303, 303, 503, 503]
    assert sum((it.who, it.what) == ("jane", "signed in") for it in record.entries) == 3
    [sessions] = office.parts.store.rows("SELECT count(*) AS many FROM session WHERE person='jane'")
    assert sessions["many"] == 3 and bo.sign_in("bo", office.passwords["bo"]).status_code == 303
    moment[0] = 3601.0
    found = jane.sign_in("jane", office.passwords["jane"])
    assert found.status_code == 303 and jane.get("/password").status_code == 200
    few.counts["password jane"] = moment[0], 500
    new = "a sea of grey boats"
    found = jane.post("/password", {"present": office.passwords["jane"], "new": new, "again": new})
    assert found.status_code == 403 and "has done this 500 times within an hour" in found.text
    assert jane.sign_in("jane", office.passwords["jane"]).status_code == 303


def test_a_refusal_is_on_record_once_in_a_while(office: Site) -> None:
    """A loop of somebody who is signed in does not fill the disk."""
    browser = office.browser("kim", "reader")
    before = len(office.parts.history.entries)
    for _ in range(5):
        assert browser.get("/people/").status_code == 403
    assert len(office.parts.history.entries) == before + 1


def test_a_page_of_another_site_changes_nothing(office: Site) -> None:
    """Neither by a form nor by a script; nor does a program that does not name this site."""
    portal, head = office.program("portal"), office.browser("hal", "head")
    for origin in ("https://evil.example", "null", "http://admissions.example", None):
        headers = {"Origin": origin} if origin else {}
        found = portal.post("/command", json.dumps(ACCEPT), origin=origin)
        assert found.status_code == 403
        given = {"what": "add", "name": "eve", "role": "head", "form": head.secret}
        found = head.client.post("/people/", base_url=ORIGIN, headers=headers, data=given)
        assert found.status_code == 403
    given = {"what": "add", "name": "eve", "role": "head", "form": "guessed"}
    found = head.client.post("/people/", base_url=ORIGIN, headers={"Origin": ORIGIN}, data=given)
    assert found.status_code == 403
    # (of a kind that no form sends, and without the secret of the session)
    del given["form"]
    found = head.client.post("/people/", base_url=ORIGIN, headers={"Origin": ORIGIN}, json=given)
    assert found.status_code == 403
    assert portal.post("/command", json.dumps(ACCEPT), "text/plain").status_code == 403
    assert office.parts.people.store.row("SELECT 1 FROM person WHERE name='eve'") is None
    assert office.parts.desk.now().places[1].kind == "offered"


def test_a_command_is_on_record_before_and_after(office: Site) -> None:
    """With its sender, and what the register answered."""
    portal = office.program("portal")
    assert portal.command(ACCEPT).json == {"done": True}
    sent, answer = office.parts.history.entries[-2:]
    assert (sent.who, sent.what, sent.about) == ("portal", "sends", {"command": ACCEPT})
    assert (answer.what, answer.about) == ("answer", {"of": sent.number, "answer": {"done": True}})
    assert portal.command({**ACCEPT, "child": 3}).status_code == 409
    assert office.parts.history.entries[-1].about["answer"]["name"] == "NotOffered"
    page = office.browser("jane").get("/activity/?q=1").text
    assert "Accepted the place of Ada Abel (1) at Alpha" in page and "portal" in page


def test_what_seems_to_be_no_command_is_on_record_too(
    office: Site, monkeypatch: pytest.MonkeyPatch
) -> None:
    """The register says what is wrong with it. One that knows more than the application may take
    it: so it goes no other way than a command, also while a draw has the register closed.
    """
    jane = office.program("jane")
    found = jane.command({"cmd": "no_such"})
    assert (found.status_code, (found.json or {}).get("name")) == (400, "UnknownCommand")
    assert "no_such" in Page(office.browser("bo").get("/activity/").text).text
    monkeypatch.setattr("office.core.commands.wrong_field", lambda _: "a field is new")
    said = "Recording is paused for round 2 by hal."
    monkeypatch.setattr(office.parts.desk, "closed", lambda: said)
    assert jane.command(ACCEPT).status_code == 503
    assert office.parts.desk.now().places[1].kind == "offered"
    monkeypatch.setattr(office.parts.desk, "closed", str)
    assert jane.command(ACCEPT).json == {"done": True}
    sent, answer = office.parts.history.entries[-2:]
    assert (sent.who, sent.what) == ("jane", "sends")
    assert json.loads(sent.about["line"]) == ACCEPT and answer.about["answer"] == {"done": True}
    office.parts.history.add("jane", "sends", {"line": "{}"})
    assert jane.command({"cmd": "decline", "child": 2, "school": "A"}).status_code == 200


@pytest.mark.parametrize("given, status", [
    ('{"memory":true}', 503), ('{"name":"NotOffered","refused":15}', 409),
    ('{"fault":3,"name":"NotJson"}', 400), ('{"done":true}', 200)])
def test_an_answer_of_the_register_has_its_status(
    office: Site, monkeypatch: pytest.MonkeyPatch, given: str, status: int
) -> None:
    """As it is, with the status that the register's own server gives it."""
    portal, sender = office.program("portal"), office.parts.desk.sender
    monkeypatch.setattr(sender, "send", lambda _: given.encode())
    monkeypatch.setattr(sender, "imported", lambda _: given.encode())
    for found in (portal.command(ACCEPT), portal.post("/import", "child\n", "text/csv")):
        assert (found.status_code, found.text) == (status, given)


def test_what_cannot_be_read_is_no_refusal(
    office: Site, monkeypatch: pytest.MonkeyPatch
) -> None:
    """Rows that are no text are not read; and what somebody saw cannot be looked up while the
    register is away, which is no difference.
    """
    portal = office.program("portal")
    found = portal.post("/import", b"child\n\xff\n", "text/csv")
    assert (found.status_code, found.json["reason"]) == (400, "the rows are no text in UTF-8")

    def away(*_: object) -> Any:
        raise desk.Away("the register does not answer now")

    monkeypatch.setattr(office.parts.desk, "present", away)
    found = portal.command(ACCEPT, "null")
    assert (found.status_code, found.json["outcome"]) == (503, "unsent")


def test_what_a_colleague_recorded_meanwhile_is_named(office: Site) -> None:
    """What is stale does not decline a place that was accepted since."""
    jane, bo = office.program("jane"), office.program("bo")
    seen = json.dumps(row_of(jane, "child", 1))
    assert jane.command(ACCEPT, seen).json == {"done": True}
    found = bo.command(DECLINE, seen)
    assert found.status_code == 409
    assert "Child 1: jane recorded accept at " in found.json["reason"]
    assert office.parts.desk.now().places[1].kind == "accepted"
    assert [it.about["command"]["cmd"] for it in office.parts.history.entries
            if it.what == "sends"] == ["accept"]


def row_of(program: Program, what: str, key: int | str) -> Any:
    """A child or a school as the register's document has it, which a program reads."""
    rows = {"child": "children", "school": "schools"}[what]
    found: list[Any] = [it for it in program.get("/register").json[rows] if it[what] == key]
    return found[0] if found else None


# a command, what somebody else does meanwhile, and what is said then
MEANWHILE: dict[str, tuple[dict[str, Any], dict[str, Any], str]] = {
    "data": ({**child(1, "Ada Abel", 150), "cmd": "amend"}, {**child(1, "Ada Bell", 100),
             "cmd": "amend"}, "Child 1: jane recorded a correction at "),
    "a number": ({"cmd": "raise_pan", "school": "A", "pan": 7}, {"cmd": "raise_pan", "school": "A",
                 "pan": 5}, "It has changed meanwhile. Nothing was recorded now."),
    "a new child": (child(9, "Eve", 900), child(9, "Ida", 900), "Child 9: jane recorded the child"),
}


@pytest.mark.parametrize("what", MEANWHILE)
def test_what_a_program_saw_is_compared(office: Site, what: str) -> None:
    """A child's data, a number of places, and that there is none of a number."""
    jane, bo = office.program("jane"), office.program("bo")
    late, early, said = MEANWHILE[what]
    name = "school" if "school" in late else "child"
    seen = json.dumps(row_of(bo, name, late[name]))
    assert jane.command(early, seen).json == {"done": True}
    found = bo.command(late, seen)
    assert found.status_code == 409 and found.json["outcome"] == "differs"
    assert said in found.json["reason"]
    now = json.dumps(row_of(bo, name, late[name]))
    if what != "a new child":
        assert bo.command(late, now).json == {"done": True}


@pytest.mark.parametrize("name", ("Si\u00e2n T\u0177", "\u0141ucja", "Ada"))
def test_a_program_sends_the_row_back_in_the_bytes_of_the_document(
    office: Site, name: str,
) -> None:
    """Names with accents are in UTF-8 there; and escapes in JSON say the same."""
    jane = office.program("jane")
    assert jane.command(child(9, name, 900)).json == {"done": True}
    for north, text in ((901, json.dumps(row_of(jane, "child", 9), ensure_ascii=False)),
                        (902, json.dumps({**row_of(jane, "child", 9), "north": 901}))):
        # (the interface of a server gives the bytes of a header as Latin-1)
        sent = text.encode("utf-8").decode("latin-1")
        found = jane.command({**child(9, name, north), "cmd": "amend"}, sent)
        assert found.json == {"done": True}, found.json


@pytest.mark.parametrize("seen", ("{", "[]", "{}", '{"child":1}', "1", '"null"', "", "\u00e2"))
def test_what_nobody_can_have_seen_sends_nothing(office: Site, seen: str) -> None:
    """A header that is no child of a register."""
    assert office.program("portal").command(ACCEPT, seen).status_code in (400, 409)
    assert office.parts.desk.now().places[1].kind == "offered"


def test_without_a_history_nothing_is_sent(office: Site) -> None:
    """A full disk stops the application, and not the record."""
    portal = office.program("portal")
    office.parts.history.fd, kept = -1, office.parts.history.fd
    found = portal.command(ACCEPT)
    assert found.status_code == 503
    assert "Nothing was recorded: the history cannot" in found.json["reason"]
    office.parts.history.fd = kept
    assert office.parts.desk.now().places[1].kind == "offered"


def test_an_entry_is_on_the_disk_before_its_command_leaves(
    office: Site, monkeypatch: pytest.MonkeyPatch
) -> None:
    """A loss of power after the command was sent leaves its entry."""
    done: list[object] = []
    real_sync, real_send = os.fsync, office.parts.desk.sender.send

    def sync(fd: int) -> None:
        real_sync(fd)
        done.append(os.fstat(fd).st_ino)

    def send(line: bytes) -> bytes:
        done.append("sent")
        return real_send(line)

    monkeypatch.setattr(os, "fsync", sync)
    monkeypatch.setattr(office.parts.desk.sender, "send", send)
    file = os.stat(office.parts.history.path).st_ino
    portal = office.program("portal")
    done.clear()
    assert portal.command(ACCEPT).json == {"done": True}
    assert done == [file, "sent", file]


def test_the_name_of_a_new_history_is_on_the_disk(
    tmp_path: pathlib.Path, monkeypatch: pytest.MonkeyPatch
) -> None:
    """A loss of power does not leave an application whose history is not there."""
    done: list[int] = []
    monkeypatch.setattr(os, "fsync", lambda fd: done.append(os.fstat(fd).st_ino))
    history.History(str(tmp_path / "history.jsonl")).close()
    assert os.stat(tmp_path).st_ino in done


def test_a_program_has_a_token(office: Site) -> None:
    """It signs in with each request, and is on record like a person."""
    token = office.token("portal", "officer")
    client = office.app.test_client()
    found = client.get("/child/1", base_url=ORIGIN, headers=token)
    assert found.status_code == 200 and (found.json or {}).get("child") == 1
    found = client.post("/command", base_url=ORIGIN, headers={**token, "Origin": ORIGIN},
                        json=ACCEPT)
    assert found.json == {"done": True} and office.parts.history.entries[-2].who == "portal"
    wrong = {"Authorization": token["Authorization"][:-4] + "AAAA"}
    assert client.get("/child/1", base_url=ORIGIN, headers=wrong).status_code == 401
    office.parts.people.lock("portal", True)
    assert client.get("/child/1", base_url=ORIGIN, headers=token).status_code == 401


def test_a_password_is_dear_to_guess(tmp_path: pathlib.Path) -> None:
    """Seen in a process of its own: in this one the tests make it cheap."""
    code = ("import sys; sys.path[:0] = sys.argv[1:3]; from office.web.people import people, roles;"
            "from office.web.register import store;"
            "people.People(store.Store(sys.argv[3])).add('jane', roles.HEAD)")
    kept = tmp_path / "office.db"
    words = [sys.executable, "-c", code, str(ROOT), str(ROOT / "tools"), str(kept)]
    subprocess.run(words, check=True)
    with contextlib.closing(sqlite3.connect(kept)) as file:
        [[hashed]] = file.execute("SELECT hash FROM person").fetchall()
    # (of Debian 12 and 13; RFC 9106 recommends 64 MiB for machines with little memory)
    kind, _, costs = hashed.split("$")[1:4]
    kilobytes, times, _ = (int(it.partition("=")[2]) for it in costs.split(","))
    assert kind == "argon2id" and kilobytes >= 65536 and times >= 2


def test_people_are_added_and_kept_out(office: Site) -> None:
    """A drawn password is for one sign-in; a locked person is out at once."""
    hal = office.browser("hal", "head")
    hal.get("/people/")
    found = hal.post("/people/", {"what": "add", "name": "ann", "role": "officer"})
    drawn = found.text.split('<code id="secret">')[1].split("<")[0]
    # (groups of letters, none of which looks like another one: it may be read out)
    assert re.fullmatch("([a-hjkmnp-z]{4}-){4}[a-hjkmnp-z]{4}", drawn)
    ann = Browser(office.app)
    assert ann.sign_in("ann", drawn).status_code == 303
    assert ann.get("/").location == "/password"
    assert ann.get("/lists/").location == "/password"
    ann.get("/password")
    given = {"present": drawn, "new": "a sea of grey boats", "again": "a sea of grey boats"}
    assert ann.post("/password", given).status_code == 303
    assert ann.get("/").status_code == 200
    assert hal.change(what="lock", name="ann").status_code == 200
    assert ann.get("/").status_code == 302
    assert Browser(office.app).sign_in("ann", "a sea of grey boats").status_code == 403
    said = hal.change(what="role", name="hal", role="officer")
    assert said.status_code == 409 and "nobody can do this for themselves" in said.text
    kept = [(it.who, it.what, it.about.get("person")) for it in office.parts.history.entries]
    assert ("hal", "added", "ann") in kept and ("hal", "locked", "ann") in kept


def test_what_is_typed_survives_the_end_of_a_session(office: Site) -> None:
    """It is shown, and sent by one press after another sign-in. What a page of somebody else has is
    shown first. Another site finds out nothing, and a password is never shown.
    """
    jane = office.browser("jane")
    jane.get("/flags/")
    words = {"seen": "{}", "flag-2": " medical <b>need</b>", "flag-3": "\ntwo\nlines"}
    with office.parts.store.writing() as db:
        db.execute("DELETE FROM session")
    found = jane.post("/flags/", words)
    page = Page(found.text)
    assert found.status_code == 401 and "Your session has ended" in page.said()
    assert "medical &lt;b&gt;need" in page.text and "<b>need" not in page.text
    form = page.form("Send it again")
    assert form.action == "/flags/" and set(form.values) == {"form", *words}
    assert jane.sign_in("jane", office.passwords["jane"]).status_code == 303
    found = press(jane, "", page, "Send it again", **{**words, "flag-3": ""})
    assert found.status_code == 303
    assert office.parts.store.setting("flags") == '{"2": "medical <b>need</b>"}'
    headers = {"Origin": "https://evil.example", "Accept": "text/html"}
    other = jane.client.post("/flags/", base_url=ORIGIN, headers=headers, data=words)
    assert other.status_code == 403 and "medical" not in other.text
    with office.parts.store.writing() as db:
        db.execute("DELETE FROM session")
    secret = {"present": "a sea of grey boats", "new": "a hill of red roofs", "again": "another"}
    found = jane.post("/password", secret)
    assert found.status_code == 401 and not any(it in found.text for it in secret.values())


def test_the_secret_of_an_earlier_session_is_its_persons_alone(office: Site) -> None:
    """A page that was left open is taken once its person has signed in again; not where somebody
    else has, after another password, or with a sum of one's own.
    """
    bo, jane = office.browser("bo"), office.browser("jane")
    page, words = Page(jane.get("/flags/").text), {"flag-2": "deaf"}
    mark, _, sum_of = page.form("Store the words").values["form"][0].partition(".")
    jane.post("/sign-out")
    stale = press(bo, "/flags/", page, "Store the words", **words)
    assert stale.status_code == 403 and "by another person" in Page(stale.text).said()
    assert jane.sign_in("jane", office.passwords["jane"]).status_code == 303
    for form in ("", ".", mark, f"{mark}.", f"{mark}.{sum_of[::-1]}", f".{sum_of}", "é", "x" * 999):
        found = press(jane, "/flags/", page, "Store the words", form=form, **words)
        assert found.status_code == 403 and office.parts.store.setting("flags", "{}") == "{}"
    assert press(jane, "/flags/", page, "Store the words", **words).status_code == 303
    page, own = Page(jane.get("/flags/").text), office.passwords["jane"]
    jane.post("/sign-out")
    assert jane.sign_in("jane", own).status_code == 303
    jane.get("/password")
    given = {"present": own, "new": "a hill of red roofs", "again": "a hill of red roofs"}
    assert jane.post("/password", given).status_code == 303
    found = press(jane, "/flags/", page, "Store the words", **words)
    again = Page(found.text)
    assert found.status_code == 403 and "before your password was changed" in again.said()
    seen = page.form("Store the words").values["seen"]
    assert press(jane, "/flags/", again, "Send it again", seen=seen).status_code == 303


def test_a_form_of_more_fields_than_any_page_has_is_refused(tmp_path: pathlib.Path) -> None:
    """Its body may be short: each field costs, and whoever is not signed in can send it too. A set
    of letters has a field for each of its children.
    """
    with site(tmp_path, "http://127.0.0.1:1") as office:
        nobody, jane = Browser(office.app), office.browser("jane")
        rita = office.browser("rita", "reader")
        for browser, path, status, most in ((nobody, "/people/", 401, 500),
                                            (rita, "/lists/children/save", 403, 2_000),
                                            (jane, "/answers/several", 403, 30_000)):
            for many, found in ((most - 1, status), (most, 413)):
                answer = browser.client.post(
                    path, base_url=ORIGIN, headers={"Origin": ORIGIN, "Accept": "text/html"},
                    data=b"a" + b"&a" * many, content_type=uploads.FORM)
                assert answer.status_code == found, (path, many)
        assert "That is too large" in answer.text
    assert uploads.MOST_FIELDS > letters_whom.MOST + 1000


def test_few_long_forms_are_read_at_once(
    tmp_path: pathlib.Path, monkeypatch: pytest.MonkeyPatch
) -> None:
    """Each costs some times its size; a short one does not wait for them."""
    monkeypatch.setattr(turns, "SECONDS", 0.1)
    with site(tmp_path, "http://127.0.0.1:1") as office:
        jane = office.browser("jane")

        def status(size: int) -> int:
            return jane.client.post(
                "/answers/several", base_url=ORIGIN, headers={"Origin": ORIGIN},
                data=b"a=" + b"b" * size, content_type=uploads.FORM).status_code

        with uploads.LONG, uploads.LONG:
            assert [status(it) for it in (uploads.SMALL_BYTES, 1000)] == [503, 403]
        assert status(uploads.SMALL_BYTES) == 403


def test_a_new_password_ends_the_other_sessions(office: Site) -> None:
    """Whoever has a session that was left open, or was stolen, is out."""
    jane, other, bo = office.browser("jane"), office.browser("jane"), office.browser("bo")
    given = {"present": office.passwords["jane"], "new": "a sea of grey boats"}
    assert jane.post("/password", {**given, "again": given["new"]}).status_code == 303
    assert [it.get("/").status_code for it in (jane, other, bo)] == [200, 302, 200]


@pytest.mark.parametrize("how", ["renewed", "locked", "removed"])
def test_a_sign_in_that_is_under_way_does_not_outlive_its_password(
    office: Site, monkeypatch: pytest.MonkeyPatch, how: str
) -> None:
    """Whoever has a stolen password could otherwise sign in all the time, and have a session, or a
    password of their own, after a new one was drawn.
    """
    found, secret = office.parts.people, "a sea of grey boats"
    jane, is_right = office.browser("jane"), found.is_right
    acts: dict[str, Callable[[], object]] = {
        "renewed": lambda: found.reset("jane"), "removed": lambda: found.remove("jane"),
        "locked": lambda: found.lock("jane", True)}

    def meanwhile(hashed: str, password: str) -> bool:
        said = is_right(hashed, password)
        acts[how]()
        return said

    kept = hash_of(office, "jane")
    monkeypatch.setattr(found, "is_right", meanwhile)
    given = {"present": office.passwords["jane"], "new": secret, "again": secret}
    if how == "renewed":
        page = jane.post("/password", given)
        assert page.status_code == 403 and "was changed meanwhile" in page.text
        assert not is_right(hash_of(office, "jane"), secret)
        with office.parts.store.writing() as db:
            db.execute("UPDATE person SET hash=?", (kept,))
    eve = Browser(office.app, "192.0.2.9")
    page = eve.sign_in("jane", office.passwords["jane"])
    assert page.status_code == 403 and people.WRONG in page.text
    assert not office.parts.store.rows("SELECT 1 FROM session WHERE person='jane'")


def test_a_role_that_is_given_is_what_somebody_may(office: Site) -> None:
    """From the next sign-in on, which follows at once; and on record with the one before."""
    hal, kim = office.browser("hal", "head"), office.browser("kim", "reader")
    for role, status in (("officer", 200), ("reader", 403)):
        assert hal.change(what="role", name="kim", role=role).status_code == 200
        assert kim.get("/").status_code == 302, "signed out"
        assert kim.sign_in("kim", office.passwords["kim"]).status_code == 303
        assert kim.get("/answers/").status_code == status, role
    told = [it.about for it in office.parts.history.entries if it.what == "gave a role"]
    assert [(it["before"], it["role"]) for it in told] == [
        ("reader", "officer"), ("officer", "reader")]


def test_nobody_is_given_a_role_that_was_not_chosen(office: Site) -> None:
    """The form has no role until one is chosen, and a program is given a token and no password."""
    hal = office.browser("hal", "head")
    form = Page(hal.get("/people/").text).form("Add")
    assert form.values.get("role", []) == [""]
    found = hal.post("/people/", form.sent_by("Add", name="ann"))
    assert found.status_code == 409 and Page(found.text).error("role") == "Choose a role."
    assert office.parts.people.store.row("SELECT 1 FROM person WHERE name='ann'") is None
    given = {"what": "add", "name": "portal", "role": "reader", "kind": "program"}
    assert "The token of portal" in Page(hal.post("/people/", given).text).text.replace(
        "<bdi>", "").replace("</bdi>", "")


def test_people_are_added_by_typing_alone(office: Site) -> None:
    """The field of the name has the focus after each, and is described by what was done. What is
    wrong is at its field, and what was typed is kept.
    """
    hal = office.browser("hal", "head")
    page = Page(hal.get("/people/").text)
    form = page.form("Add")
    # (Enter in a field presses the first button, and there is no other)
    assert page.focus == "" and form.buttons == {"Add": ("what", "add")}
    assert page.stops[-4:-1] == ["name", "role", "kind"]
    given = {"name": ["ann"], "role": ["officer"], "kind": "person"}
    page = Page(hal.post("/people/", form.sent_by("Add", **given)).text)
    assert page.said() == "ann is added as officer." and page.focus == "name"
    assert "answer" in (page.fields["name"]["aria-describedby"] or "").split()
    form = page.form("Add")
    assert (form.values["name"], form.values["role"]) == ([""], [""])
    for name, role, wrong, focus in (
        ("Ann B", "reader", {"name": "A name is 1 to 64 of"}, "name"),
        ("ann", "reader", {"name": "ann is there already."}, "name"),
        ("bea", "", {"role": "Choose a role."}, "role"),
        ("<b>", "x", {"name": "A name is 1 to 64 of", "role": "X is no role:"}, "name"),
    ):
        given = {"name": [name], "role": [role], "kind": "program"}
        found = hal.post("/people/", form.sent_by("Add", **given))
        page = Page(found.text)
        assert found.status_code == 409 and page.focus == focus, name
        for field in ("name", "role"):
            assert page.error(field).startswith(wrong.get(field, "")), (name, field)
            assert bool(page.error(field)) == (field in wrong), (name, field)
        again = page.form("Add").values
        assert (again["name"], again["kind"]) == ([name], ["program"])
        assert role not in people_roles.ROLES or again["role"] == [role]
    rows = office.parts.store.rows("SELECT name, role FROM person ORDER BY name")
    assert [tuple(it) for it in rows] == [("ann", "officer"), ("hal", "head")]


def test_flags_are_named_by_typing_alone(office: Site) -> None:
    """The flag that was named last has the focus, described by what was done; or the first one that
    is wrong, by its error.
    """
    jane = office.browser("jane")
    page = Page(jane.get("/flags/").text)
    form = page.form("Store the words")
    assert page.focus == "" and len(form.buttons) == 1
    sent = form.sent_by("Store the words", **{"flag-2": "medical", "flag-4": "social"})
    page = Page(jane.get(jane.post("/flags/", sent).location).text)
    assert page.said() == "The words are stored." and page.focus == "flag-4"
    assert page.fields["flag-4"]["aria-describedby"] == "answer"
    form = page.form("Store the words")
    sent = form.sent_by("Store the words", **{"flag-3": "x" * 500, "flag-5": "x" * 500})
    page = Page(jane.post("/flags/", sent).text)
    assert page.focus == "flag-3" and page.error("flag-3") and page.error("flag-5")
    assert Page(jane.get("/flags/?stored=x").text).focus == ""


def test_two_who_add_the_same_name_at_once_leave_one_record(
    tmp_path: pathlib.Path, monkeypatch: pytest.MonkeyPatch
) -> None:
    """Nothing is on record that was not done: it could name another role."""
    real, both = people_screen.wrong_in, threading.Barrier(2)

    def slowly(name: str, role: str) -> dict[str, str]:
        found = real(name, role)
        with contextlib.suppress(threading.BrokenBarrierError):
            both.wait(1)
        return found

    monkeypatch.setattr(people_screen, "wrong_in", slowly)
    with site(tmp_path, "http://127.0.0.1:1") as office:
        heads, answers = [office.browser(it, "head") for it in ("hal", "ann")], list[int]()
        threads = [threading.Thread(target=lambda it=it, role=role: answers.append(it.post(
            "/people/", {"what": "add", "name": "bo", "role": role}).status_code))
            for it, role in zip(heads, ("reader", "officer"))]
        for it in threads:
            it.start()
        for it in threads:
            it.join()
        kept = [it.about["role"] for it in office.parts.history.entries if it.what == "added"]
        row = office.parts.store.row("SELECT role FROM person WHERE name='bo'")
    assert sorted(answers) == [200, 409] and row and kept == [row["role"]]


def test_a_person_with_a_pile_is_not_removed(office: Site) -> None:
    """The answers that wait would be gone with them. What is refused is not on record as done."""
    jane, hal = office.browser("jane"), office.browser("hal", "head")
    assert jane.post("/answers/", {"entry": "1"}).status_code == 303
    found = hal.change(what="remove", name="jane")
    assert found.status_code == 409 and "1 answer in a batch" in Page(found.text).said()
    # (nor by an answer that is added between the question and the removal)
    with pytest.raises(Refused, match="1 answer in a batch"):
        office.parts.people.remove("jane")
    assert len(office.parts.store.rows("SELECT 1 FROM answer WHERE person='jane'")) == 1
    question = Page(jane.get("/answers/remove?number=all").text)
    press(jane, "/answers/remove", question, "Remove 1 answer")
    assert hal.post("/people/", {"what": "add", "name": "Ann B", "role": "reader"}
                    ).status_code == 409
    assert hal.post("/people/", {"what": "add", "name": "hal", "role": "reader"}
                    ).status_code == 409
    assert hal.change(what="remove", name="jane").status_code == 200
    assert jane.get("/").status_code == 302
    assert [(it.what, it.about["person"]) for it in office.parts.history.entries
            if it.who == "hal" and it.what in ("added", "removed")] == [("removed", "jane")]


def test_a_register_that_is_away_is_said(tmp_path: pathlib.Path) -> None:
    """In words, for a page and for a program; and so is a code that is no code."""
    with site(tmp_path, "http://127.0.0.1:9") as office:
        portal = office.program("portal")
        for path in ("/child/1", "/draw/1", "/pairs", "/pairs/A", "/school/A/waiting", "/register",
                     "/register/child/1", "/register/school/A"):
            found = portal.get(path)
            said = found.json or {}
            assert (found.status_code, said["unanswered"]) == (502, True), path
            assert "the register does not answer now" in said["reason"], path
        for code in ("%20", "A%0d%0aX", "%C3%A9", "A%3Fx"):
            for path in (f"/pairs/{code}", f"/school/{code}/waiting", f"/register/school/{code}"):
                assert portal.get(path).status_code == 404, path


def test_a_page_that_is_none_has_the_menu(tmp_path: pathlib.Path) -> None:
    """For who is signed in, what they may see; for nobody else."""
    with site(tmp_path, "http://127.0.0.1:9") as office:
        jane, head = office.browser("jane"), {"Accept": "text/html"}
        for path in ("/nowhere", "/draws/x"):
            page = jane.client.get(path, base_url=ORIGIN, headers=head)
            assert page.status_code == 404 and "No such page" in page.text
            assert 'aria-label="Main">' in page.text and ">Offers</a>" in page.text
            assert ">Office</a>" in page.text and "People" not in page.text
            page = office.app.test_client().get(path, base_url=ORIGIN, headers=head)
            assert page.status_code == 404 and "<nav" not in page.text


def test_attempts_wait_longer_and_longer() -> None:
    """For a name that exists and for one that does not alike, and not for other addresses."""
    moment = [0.0]
    found = attempts.Attempts(lambda: moment[0])
    waits = []
    for _ in range(8):
        found.fail("jane 192.0.2.1", "192.0.2.1")
        waits.append(found.wait("jane 192.0.2.1", "192.0.2.1"))
        moment[0] += waits[-1]
    assert waits == [0, 0, 0, 0, 1, 2, 4, 8]
    assert found.wait("jane 192.0.2.2", "192.0.2.2") == 0
    found.succeed("jane 192.0.2.1")
    assert found.wait("jane 192.0.2.1", "192.0.2.1") == 0


def at_once(count: int, act: Callable[[int], object]) -> list[str]:
    """What came of calls at the same time: "" or why each was refused, in any order."""
    barrier, found = threading.Barrier(count), []

    def one(at: int) -> None:
        barrier.wait()
        try:
            act(at)
            found.append("")
        except Refused as error:
            found.append(str(error))

    threads = [threading.Thread(target=one, args=(it,)) for it in range(count)]
    for it in threads:
        it.start()
    for it in threads:
        it.join()
    return sorted(found)


def test_attempts_at_the_same_time_are_not_free(
    office: Site, monkeypatch: pytest.MonkeyPatch
) -> None:
    """Of 32 wrong ones five are checked, and the others must wait: from one address, with one name
    or many. Colleagues who are right at the same time all come in.
    """
    found, checked = office.parts.people, []
    names = [office.add(f"jane{it}", "officer") for it in range(8)]

    def is_right(_: object, password: str) -> bool:
        checked.append(password)
        time.sleep(0.02)
        return password == "right"

    monkeypatch.setattr(found, "is_right", is_right)
    for address, name in (("192.0.2.1", "jane0"), ("192.0.2.2", "nobody{}")):
        checked.clear()
        said = at_once(32, lambda it: found.sign_in(name.format(it), "wrong", address))
        assert len(checked) == attempts.FREE_ATTEMPTS == said.count(people.WRONG) == 5
        late = ("Too many attempts failed.", "Many sign in now")
        assert sum(it.startswith(late) for it in said) == 27
    said = at_once(8, lambda it: found.sign_in(names[it], "right", "192.0.2.3"))
    assert said == [""] * 8


def test_few_sign_ins_at_the_same_time_hold_a_thread(
    office: Site, monkeypatch: pytest.MonkeyPatch
) -> None:
    """From many addresses, each of which has free attempts. A browser in which the name has signed
    in before finds room beside them.
    """
    office.add("jane", "officer")
    jane = Browser(office.app)
    assert jane.sign_in("jane", office.passwords["jane"]).status_code == 303
    found, going_on = office.parts.people, threading.Event()
    refused, is_right = list[str](), found.is_right

    def waiting(hashed: str, password: str) -> bool:
        assert password != "wrong" or going_on.wait(60)
        return is_right(hashed, password)

    def wrong(at: int) -> None:
        try:
            found.sign_in(f"nobody{at}", "wrong", f"192.0.2.{at}")
        except Refused as error:
            refused.append(str(error))

    monkeypatch.setattr(found, "is_right", waiting)
    threads = [threading.Thread(target=wrong, args=(it,)) for it in range(serve.THREADS)]
    for it in threads:
        it.start()
    try:
        end = time.monotonic() + 60
        while len(refused) < serve.THREADS - people.SIGN_INS_AT_ONCE and time.monotonic() < end:
            time.sleep(0.01)
        busy = "Many sign in now, and nothing was tried. Try again in a moment."
        assert refused == [busy] * (serve.THREADS - people.SIGN_INS_AT_ONCE)
        other = Browser(office.app).sign_in("jane", office.passwords["jane"])
        assert other.status_code == 503 and busy in other.text
        assert jane.sign_in("jane", office.passwords["jane"]).status_code == 303
    finally:
        going_on.set()
        for it in threads:
            it.join()
    assert refused.count(people.WRONG) == people.SIGN_INS_AT_ONCE


def test_a_wrong_present_password_waits_too(office: Site) -> None:
    """Whoever is at an open session tries the password of its person as seldom as at the sign-in,
    and no colleague waits for that.
    """
    jane, bo = office.browser("jane"), office.browser("bo")
    office.parts.people.attempts.clock = lambda: 100.0
    wrong = "Nothing was changed: the present password is wrong."
    late = "Nothing was changed: Too many attempts failed. Try again in 1 seconds."

    def tried(browser: Browser, present: str) -> str:
        given = {"present": present, "new": "a new password", "again": "a new password"}
        found = browser.post("/password", given)
        assert found.status_code == (303 if present == office.passwords["bo"] else 403)
        return str(Page(found.text).said())

    said = [tried(jane, f"wrong {it}") for it in range(7)]
    assert said == [wrong] * 5 + [late] * 2
    assert tried(jane, office.passwords["jane"]) == late
    tried(bo, office.passwords["bo"])
    assert Browser(office.app).sign_in("jane", office.passwords["jane"]).status_code == 303


def test_attempts_are_forgotten() -> None:
    """An office has one address: what failed there in a month would lock all out at each slip."""
    moment = [0.0]
    found = attempts.Attempts(lambda: moment[0])
    for _ in range(20):
        found.fail("192.0.2.1")
        moment[0] += found.wait("192.0.2.1")
    found.fail("192.0.2.1")
    assert found.wait("192.0.2.1") == attempts.LONGEST_WAIT
    # (who goes on trying gains nothing by the wait)
    moment[0] += attempts.LONGEST_WAIT + attempts.FORGOTTEN_AFTER - 1
    found.fail("192.0.2.1")
    assert found.wait("192.0.2.1") == attempts.LONGEST_WAIT
    moment[0] += attempts.LONGEST_WAIT + attempts.FORGOTTEN_AFTER + 1
    found.fail("192.0.2.1")
    assert found.wait("192.0.2.1") == 0


def test_a_store_that_was_full_goes_on(tmp_path: pathlib.Path) -> None:
    """A transaction that cannot be ended is taken back whole, with its own error; the next one
    begins.
    """
    found = store.Store(str(tmp_path / "office.db"))

    class Full:
        """A connection whose disk is full when a transaction is to be ended."""

        def execute(self, text: str, *given: Any) -> Any:
            """Runs a statement."""
            if text == "COMMIT":
                raise sqlite3.OperationalError("disk I/O error")
            return kept.execute(text, *given)

        def __getattr__(self, name: str) -> Any:
            return getattr(kept, name)

    kept, found.db = found.db, Full()  # type: ignore[assignment]
    with pytest.raises(sqlite3.OperationalError, match="disk I/O error"):
        found.set("flags", "{}")
    with pytest.raises(sqlite3.OperationalError, match="is full"):
        with found.writing() as db:
            # (as SQLite does itself where it cannot go on)
            db.execute("ROLLBACK")
            raise sqlite3.OperationalError("database or disk is full")
    found.db = kept
    found.set("name", "value")
    assert (found.setting("flags"), found.setting("name")) == ("", "value")
    found.close()


def test_a_name_that_exists_is_answered_as_one_that_does_not(office: Site) -> None:
    """In words, in the wait, and with a slow hash for both."""
    office.add("jane", "officer")
    said: list[list[str]] = []
    for name in ("jane", "nobody"):
        browser = Browser(office.app, f"192.0.2.{len(said) + 7}")
        texts = [browser.sign_in(name, f"wrong {at}").text.replace(name, "NAME") for at in range(7)]
        said.append([it.split('role="alert">')[1].split("<")[0] for it in texts])
    assert said[0] == said[1] and "Too many attempts failed." in said[0][-1]


def hash_of(office: Site, name: str) -> str:
    """What is kept of a person's password."""
    row = office.parts.store.row("SELECT hash FROM person WHERE name=?", name)
    assert row
    return str(row["hash"])


def session_of(office: Site, name: str) -> str:
    """The secret of a new session of somebody."""
    return office.parts.people.begin(name, False, hash_of(office, name))


def test_a_session_ends(office: Site) -> None:
    """By a sign-out, after half an hour without a request, and after some hours at most."""
    jane = office.browser("jane")
    assert jane.post("/sign-out").status_code == 303 and jane.get("/").status_code == 302
    # (also for whoever has copied the cookie)
    assert office.parts.store.rows("SELECT 1 FROM session") == []
    moment = [1e9]
    office.parts.people.clock = lambda: moment[0]
    secret = session_of(office, "jane")
    # (20 times 1,799 seconds are 20 seconds less than ten hours)
    for _ in range(20):
        moment[0] += 1799
        assert office.parts.people.of_session(secret) is not None
    moment[0] += 21
    assert office.parts.people.of_session(secret) is None
    other = session_of(office, "jane")
    moment[0] += people.IDLE_SECONDS + 1
    assert office.parts.people.of_session(other) is None


@pytest.mark.parametrize("back", [0, 86_400])
def test_a_session_ends_by_either_clock(office: Site, back: int) -> None:
    """That of the machine may stand, or be set back by a day."""
    wall, steady = [1e9], [0.0]
    found = office.parts.people
    found.clock, found.steady = lambda: wall[0], lambda: steady[0]
    office.add("jane", "officer")
    secret, idle = session_of(office, "jane"), session_of(office, "jane")
    assert found.of_session(secret) and found.of_session(idle)
    wall[0] -= back
    for _ in range(20):
        steady[0] += 1799
        assert found.of_session(secret) is not None
    assert found.of_session(idle) is None
    steady[0] += 21
    assert found.of_session(secret) is None


def test_a_network_of_ipv6_is_one_address(
    office: Site, monkeypatch: pytest.MonkeyPatch
) -> None:
    """Whoever has one address there has as many as they like."""
    found = office.parts.people
    monkeypatch.setattr(found, "is_right", lambda *_: False)

    def said(address: str) -> str:
        with pytest.raises(Refused) as error:
            found.sign_in(f"jane{address}", "wrong", address)
        return str(error.value)

    for at in range(5):
        assert said(f"2001:db8:0:7:{at}::{at}") == people.WRONG
    assert said("2001:db8:0:7:ffff::1").startswith("Too many attempts failed.")
    assert said("2001:db8:0:8::1") == people.WRONG
    for at in range(10):
        assert said(f"192.0.2.{at}") == people.WRONG


def test_guesses_from_many_addresses_wait_too(
    office: Site, monkeypatch: pytest.MonkeyPatch
) -> None:
    """For one name after a hundred."""
    found = office.parts.people
    monkeypatch.setattr(found, "is_right", lambda *_: False)
    said = []
    for at in range(102):
        with pytest.raises(Refused) as error:
            found.sign_in("jane", "wrong", f"192.0.2.{at}")
        said.append(str(error.value))
    assert said[:100] == [people.WRONG] * 100
    assert said[101].startswith("Too many attempts failed.")


def test_failures_of_others_make_none_of_a_name_forgotten(
    office: Site, monkeypatch: pytest.MonkeyPatch
) -> None:
    """Not those of ten thousand networks with names that nobody has; and what is kept of these is
    bounded. A name that nobody has is as one that exists.
    """
    found = office.parts.people
    office.add("jane", "officer")
    monkeypatch.setattr(found, "is_right", lambda *_: False)
    found.attempts.clock = lambda: 100.0

    def said(name: str, address: str, browser: str = "") -> str:
        with pytest.raises(Refused) as error:
            found.sign_in(name, "wrong", address, browser)
        return str(error.value)

    for at in range(100):
        assert {said(it, f"192.0.2.{at}") for it in ("jane", "nobody")} == {people.WRONG}
    for at in range(5):
        assert said("jane", "192.0.2.200", "a browser") == people.WRONG
    for at in range(12_000):
        said(f"nobody{at}", f"2001:db8:1:{at:x}::1")
    for name, browser in (("jane", ""), ("nobody", ""), ("jane", "a browser")):
        assert said(name, "198.51.100.1", browser).startswith("Too many attempts failed.")
    assert len(found.attempts.failed) <= 10_000 + 4096 + 2


def test_nobody_keeps_an_office_out(office: Site) -> None:
    """Behind one address somebody fails all the time. Who has signed in there before does so again,
    and waits for failures of their own alone.
    """
    jane = office.browser("jane")
    eve = Browser(office.app)
    for at in range(7):
        assert eve.sign_in(f"nobody{at}", "wrong").status_code == 403
    assert "Too many attempts" in eve.sign_in("jane", office.passwords["jane"]).text
    assert jane.post("/sign-out").status_code == 303
    assert jane.sign_in("jane", office.passwords["jane"]).status_code == 303
    # (it is of no use for another name)
    office.add("bo", "officer")
    assert "Too many attempts" in jane.sign_in("bo", office.passwords["bo"]).text
    said = [jane.sign_in("jane", "wrong").text for _ in range(7)]
    assert ["Too many attempts" in it for it in said] == [False] * 5 + [True] * 2


def test_a_look_at_the_form_is_no_attempt(office: Site) -> None:
    """Nor one at its head alone, which a page of any site can have a browser send."""
    eve, given = Browser(office.app), {"name": office.add("jane", "officer")}
    given["password"] = office.passwords["jane"]
    for method in ("GET", "HEAD"):
        for _ in range(7):
            found = eve.client.open("/sign-in", method=method, base_url=ORIGIN, data=given)
            assert found.status_code == 200 and "Set-Cookie" not in found.headers, method
    assert set(office.parts.failures.counts().values()) == {0}
    assert eve.sign_in("jane", office.passwords["jane"]).status_code == 303


def test_who_does_not_wait_keeps_nobody_else_waiting() -> None:
    """Two requests a second for a working day, behind the address of an office."""
    moment = [0.0]
    found = attempts.Attempts(lambda: moment[0])
    refused = 0
    for at in range(2 * 8 * 3600):
        moment[0] += 0.5
        with contextlib.suppress(Refused):
            found.is_right(lambda: False, "eve 192.0.2.1", "192.0.2.1")
        if at % 80 == 40:
            try:
                assert found.is_right(lambda: True, f"jane{at} 192.0.2.1", "192.0.2.1")
            except Refused:
                refused += 1
    assert refused <= 1


@pytest.mark.parametrize("word", [
    " " * 12, "a" * 12, "ab ab ab ab ab ab", "Jane.Smith 123", "jane.smith@example.org",
    "password1234", "Password 2026!", "123456789012", "qwertyuiop[]", "letmein12345",
])
def test_what_many_would_guess_is_no_password(office: Site, word: str) -> None:
    """Blanks, a letter again and again, the own name, and what many have."""
    with pytest.raises(Refused):
        people.see_password("jane.smith@example.org", word)
    people.see_password("bo", "a sea of grey boats")


def test_a_sign_out_leaves_nothing_that_was_typed(office: Site) -> None:
    """Pages keep what was typed for who signs in again, and not for the next one."""
    answer = office.browser("jane").post("/sign-out")
    assert answer.headers["Clear-Site-Data"] == '"storage"'


def test_an_address_is_led_on_over_tls(office: Site) -> None:
    """The site before the application ends TLS, and the application names its own address."""
    answer = office.browser("jane").client.get("/people", base_url="http://admissions.example")
    assert (answer.status_code, answer.location) == (308, f"{ORIGIN}/people/")


def test_a_history_that_was_changed_is_refused(tmp_path: pathlib.Path) -> None:
    """Each kind of change: a value, a line less, two exchanged, a line of somebody else's."""
    path = tmp_path / "history.jsonl"
    found = history.History(str(path))
    for at in range(5):
        found.add("jane", "sends", {"command": {"cmd": "accept", "child": at, "school": "A"}})
    found.close()
    whole = path.read_bytes()
    lines = whole.splitlines(keepends=True)
    wrong = {
        "a value": whole.replace(b'"child":2', b'"child":7'),
        "a line less": b"".join(lines[:2] + lines[3:]),
        "two exchanged": b"".join([lines[0], lines[2], lines[1], *lines[3:]]),
        "twice": whole + lines[-1],
        "the first left out": b"".join(lines[1:]),
    }
    for what, text in wrong.items():
        path.write_bytes(text)
        with pytest.raises(Refused, match="the history was changed"):
            history.History(str(path))
        assert path.read_bytes() == text, what
    path.write_bytes(whole + lines[-1][:20])
    again = history.History(str(path))
    assert len(again.entries) == 5 and path.read_bytes() == whole
    assert again.add("bo", "signed in", {}).number == 6
    again.close()
    assert [it.who for it in history.read(str(path))] == ["jane"] * 5 + ["bo"]


def test_a_program_that_sends_in_a_loop_does_not_fill_the_history(office: Site) -> None:
    """64 MB within a day, whether the register takes it or refuses it; each program has its own."""
    portal, other = office.program("portal"), office.program("other")
    moment, record, rows = [0.0], office.parts.history, f"child\n{'x' * 1_000_000}"
    office.app.extensions["sent"].clock = lambda: moment[0]
    office.app.extensions["sent"].counts["portal"] = 0.0, (64 << 20) - 1
    assert portal.post("/import", rows, "text/csv").status_code in (400, 409)
    many = len(record.entries)
    for found in (portal.post("/import", rows, "text/csv"),
                  portal.command({"cmd": "accept", "child": 1, "school": "A"})):
        assert found.status_code == 503
        assert found.json["reason"] == "a program sends at most 64 MB within a day"
    assert len(record.entries) == many and portal.get("/register/child/1").status_code == 200
    assert other.post("/import", rows, "text/csv").status_code in (400, 409)
    moment[0] = 24 * 3600 + 1.0
    assert portal.command({"cmd": "accept", "child": 1, "school": "A"}).status_code == 200


def test_whatever_a_program_sends_the_history_is_read_again(office: Site) -> None:
    """With what followed: no row of an import leaves the file other than what is known of it, or
    fills the memory, as many short ones below a header of very many columns.
    """
    portal, record = office.program("sender"), office.parts.history
    rows = "child,name,east,north,looked_after,flags,siblings,day,preferences\n{},A,1,1,no,,,x,A\n"
    numbers = ("9" * 5_000, "1" * 400, "\u0661" * 5_000, "\0", f'"{"1" * 200_000}"')
    many = ",".join(["child", *(f"c{it}" for it in range(20_000))]) + "\n1" * 1_000
    most = resource.getrusage(resource.RUSAGE_SELF).ru_maxrss
    for text in (*map(rows.format, numbers), many):
        found = portal.post("/import", text, "text/csv")
        assert found.status_code in (400, 409), found.text
    assert history.read(record.path) == record.entries
    assert sum(it.what == history.SENDS for it in record.entries) == 6
    assert resource.getrusage(resource.RUSAGE_SELF).ru_maxrss - most < 200_000, "kilobytes"


def test_a_history_that_is_broken_is_said_without_its_path(tmp_path: pathlib.Path) -> None:
    """An officer reads it: no screen names a path."""
    found = history.History(str(tmp_path / "history.jsonl"))
    found.is_broken = True
    with pytest.raises(Refused, match="the history could not be written") as error:
        found.add("jane", "signed in", {})
    assert str(tmp_path) not in str(error.value)
    found.close()


def test_an_entry_is_as_it_is_read_again(tmp_path: pathlib.Path) -> None:
    """Whatever it is about: keys that are numbers, in another order than their texts; and pairs.
    """
    path = tmp_path / "history.jsonl"
    found = history.History(str(path))
    entry = found.add("jane", "named flags", {"words": {2: "two", 10: "ten"}, "pair": (1, "é")})
    assert entry.about == {"words": {"2": "two", "10": "ten"}, "pair": [1, "é"]}
    found.close()
    again = history.History(str(path))
    assert again.entries == [entry]
    again.close()


def test_a_history_that_begins_anew_has_nothing_of_the_one_before(tmp_path: pathlib.Path) -> None:
    """A restore of the season before undoes nothing that is recorded after it."""
    path = tmp_path / "history.jsonl"
    found = history.History(str(path))
    found.add("hal", "signed in", {})
    found.add("hal", "signed in", {})
    found.add("hal", history.RESTORED, {"copy": 1, "position": 1})
    found.begin_anew("hal", "deleted the season", {})
    sent = found.add("jane", history.SENDS, {"command": {"cmd": "accept", "child": 1}})
    found.add("jane", history.ANSWER, {"of": sent.number, "answer": {"done": True}})
    assert list(found.done()) == [sent]
    found.close()
    again = history.History(str(path))
    assert list(again.done()) == [sent]
    again.close()


def test_a_request_without_an_answer_is_looked_up(tmp_path: pathlib.Path) -> None:
    """An application that ended between the record and the answer finds out, and sends nothing
    again.
    """
    with office_over(tmp_path, [*town(), ROUND]) as office:
        office.parts.history.add("jane", "sends", {"command": ACCEPT})
        office.parts.desk.sender.send(json.dumps(ACCEPT).encode())
        office.parts.history.add("jane", "sends", {"command": {**ACCEPT, "child": 2}})
        office.record("bo", {"cmd": "leave_list", "child": 3, "school": "A"})
        settled = [it.about for it in office.parts.history.entries if it.what == "settled"]
        assert [it["done"] for it in settled] == [True, False]
        places = office.parts.desk.now().places
        assert (places[1].kind, places[2].kind) == ("accepted", "offered")
