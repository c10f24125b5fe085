"""Copies made by hand, tested and restored by the office, with what came since sent again; over the
real program, with the machine's commands as its units run them. What is expected is worked out by
a small model of the commands.
"""
import contextlib
import copy
import datetime
import hashlib
import html
import json
import pathlib
import re
import shutil
import sqlite3
import threading
from collections.abc import Callable, Iterator
from types import SimpleNamespace
from typing import Any

import pytest
from applications import Browser, Site, site
from conftest import HEADER, apply, child
from draw_site import (
    HAL, JANE, OFFER_DAY, SUP, Machine, begun, brought, given_up, lot_of, typed, version,
)
from pages import Page, press
from register_files import Refused

from office.core.model import Register
from office.core.senders import Ended
from office.web.answers.entries import Meant
from office.web.copies import copies, restores
from office.web.copies.terms import Restore
from office.web.machinery.steps import Done
from office.web.parts import Parts
from office.web.people import roles
from office.web.register import lineage
from office.web.register.desk import Result
from office.web.register.history import RESTORED, Entry, History, now
from office.web.register.store import Store
from office.web.rounds import again as draws_again
from office.web.rounds.drafts import Typed

Command = dict[str, Any]


class Model:
    """What a register has after commands, worked out apart from the program: numbers of places,
    names and applications.
    """

    def __init__(self) -> None:
        self.pans = {"OAK": 1, "ELM": 9}
        self.names = {it: str(child(it)["name"]) for it in range(1, 6)}
        self.applied = {it: ["OAK", "ELM"] for it in range(1, 6)}

    def do(self, command: Command) -> bool:
        """Does a command, or refuses it."""
        what, number = command["cmd"], command.get("child", 0)
        if what == "raise_pan" and self.pans[command["school"]] < command["pan"]:
            self.pans[command["school"]] = command["pan"]
        elif what == "add_child" and number not in self.names:
            self.names[number] = command["name"]
        elif what == "amend" and number in self.names:
            self.names[number] = command["name"]
        elif what == "apply" and number in self.names and number not in self.applied:
            self.applied[number] = command["preferences"]
        else:
            return False
        return True

    def see(self, register: Register) -> None:
        """Sees that a register has this and no more."""
        assert {it.code: it.pan for it in register.schools.values()} == self.pans
        assert {it.number: it.name for it in register.children.values()} == self.names
        assert {at: list(it.preferences) for at, it in register.applications.items()} == (
            self.applied)


NEW_NAME: Command = {**child(1, name="Ada =1+1 <b>"), "cmd": "amend"}
RAISED: Command = {"cmd": "raise_pan", "school": "OAK", "pan": 2}
ADDED: Command = child(6, name="Fay")
APPLIED: Command = apply(6, ["ELM"])
ROWS = f"{HEADER}\n8,Hal Hill,100,0,no,,,2024-10-20,ELM,\n"


class Room:
    """An office with two persons in browsers."""

    def __init__(self, office: Site) -> None:
        self.office = office
        self.hal, self.jane = office.browser("hal", "head"), office.browser("jane", "officer")

    def since(self) -> dict[str, int]:
        """The entries of what was sent, by the command."""
        return {it.about.get("command", {"cmd": "import"})["cmd"]: it.number
                for it in self.office.parts.history.entries if it.what == "sends"}

    def copy_now(self, purpose: str = "a try") -> None:
        """Makes a copy by hand."""
        page = self.hal.sent("/copies/", {"purpose": purpose})
        assert page.status_code == 200, page.text

    def begin(self, number: int, **given: object) -> int:
        """Closes the register for a restore, and returns its number."""
        found = self.hal.post(f"/copies/{number}/restore", given)
        assert found.status_code == 303, found.text
        return int(found.headers["Location"].rsplit("/", 1)[1])

    def press(self, browser: Browser, number: int, name: str, entries: tuple[int, ...] = ()) -> Any:
        """Presses a button of a restore, with what is ticked."""
        seen = self.office.parts.restores.get(number).version
        second = "" if name in ("ask", "choose", "later") else "second/"
        given = {f"again-{it}": "on" for it in entries}
        if name == "ask" and not entries:
            given["none"] = "yes"
        return browser.post(f"/restores/{number}/{second}{name}", {"seen": seen, **given})

    def state(self, number: int) -> str:
        """The state of a restore."""
        return self.office.parts.restores.get(number).state

    def now(self) -> Register:
        """The register as it is."""
        return self.office.parts.desk.now()


def text_of(page: str, name: str) -> str:
    """The text of a table of a page."""
    found = re.search(rf'<table [^>]*id="{name}".*?</table>', page, re.S)
    assert found, name
    return re.sub(r"\s+", " ", html.unescape(re.sub("<[^>]*>", " ", found[0])))


def sent(office: Site, *given: tuple[Any, Command]) -> None:
    """Commands of persons, each of which is done."""
    for who, command in given:
        assert office.parts.desk.send(who, command).is_done, command


def staged_by(office: Site, entry: int) -> None:
    """An application of the staging table that was stored by an entry of the history."""
    at = "2025-03-03T10:00:00+00:00"
    with office.parts.store.writing() as db:
        db.execute("INSERT INTO staged_file VALUES"
                   " (1, 'a.csv', '', 0, 0, '[]', 'jane', ?, NULL)", (at,))
        db.execute("INSERT INTO staged_row (file, number, cells, others, notes, state, who, added,"
                   " changed_by, changed, entry) VALUES (1, 1, '{}', '{}', '[]', 'committed',"
                   " 'jane', ?, 'jane', ?, ?)", (at, at, entry))


def test_a_copy_is_restored_and_what_is_ticked_is_sent_again(small: Machine) -> None:
    """What came since is listed with who and when, what is not ticked is lost, what the restored
    register refuses is shown; and all of it is taken back by the copy that was made before.
    """
    with small.office() as office:
        room, model = Room(office), Model()
        room.copy_now("before =1+1 <i>")
        sent(office, (JANE, NEW_NAME), (HAL, RAISED), (JANE, ADDED), (HAL, APPLIED))
        assert office.parts.desk.send_import(JANE, ROWS.encode()).is_done
        at = room.since()
        staged_by(office, at["import"])
        before = copy.deepcopy(model)
        assert all(before.do(it) for it in (NEW_NAME, RAISED, ADDED, APPLIED))
        before.names[8], before.applied[8] = "Hal Hill", ["ELM"]
        before.see(room.now())

        number = room.begin(1)
        page = room.hal.get(f"/restores/{number}").text
        listed = text_of(page, "since")
        for it in ("jane child 1 Ada =1+1 <b>: corrected the details",
                   "hal raised the admission number of OAK to 2",
                   "jane child 6 Fay: added the child", "1 application added from files"):
            assert it in listed, listed
        lost = text_of(page, "lost")
        for it in ("School OAK Admission number 2 1", "Child 6 Fay in the register not in the copy",
                   f"Child 1 Ada =1+1 <b> Name Ada =1+1 <b> {child(1)['name']}"):
            assert it in lost, lost
        assert "<b>" not in page.replace("&lt;b&gt;", "")
        # nobody else records anything, holds a draw, or restores
        said = "Recording is paused for the restore of copy 1 by hal since"
        assert said in room.jane.get("/").text
        assert office.parts.desk.send(JANE, RAISED).said.startswith(said)
        for path in ("/draws/", "/copies/1/restore"):
            refused = room.hal.post(path, {"kind": "round", "day": OFFER_DAY})
            assert refused.status_code == 409 and "restore of copy 1" in refused.text

        ticked = at["amend"], at["apply"]
        assert room.press(room.hal, number, "ask", (*ticked, 1)).status_code == 409
        assert room.press(room.hal, number, "ask", ticked).status_code == 303
        assert room.press(room.hal, number, "confirm").status_code == 409
        assert room.state(number) == "asked" and room.now().schools["OAK"].pan == 2
        assert room.press(room.jane, number, "confirm").status_code == 303
        assert room.state(number) == "sent again"
        # (an application of a child that is not there is refused)
        assert model.do(NEW_NAME) and not model.do(APPLIED)
        model.see(room.now())
        page = room.hal.get(f"/restores/{number}").text
        assert "stored" in text_of(page, "since") and "It was not done" in text_of(page, "since")
        assert office.parts.desk.closed()
        assert ("Can be undone by restoring copy 2, which has what was there before"
                in " ".join(re.sub("<[^>]*>", "", page.replace("</dt>", " ")).split()))
        assert room.press(room.hal, number, "open").status_code == 303
        assert not office.parts.desk.closed()
        shown(office, room, at)

        # taken back: the copy that was made before is restored, and nothing is sent again
        assert "before copy 1 was restored" in text_of(room.hal.get("/copies/").text, "copies")
        number = room.begin(2)
        since = text_of(room.hal.get(f"/restores/{number}").text, "since")
        assert "1 entry" in since and "corrected the details" in since
        room.press(room.hal, number, "ask")
        assert room.press(room.jane, number, "confirm").status_code == 303
        # (nothing that was ticked was refused: it is open by itself)
        assert room.state(number) == "opened" and not office.parts.desk.closed()
        before.see(room.now())
        assert {it.number for it in office.parts.history.done()} == {
            at[it] for it in ("amend", "raise_pan", "add_child", "apply", "import")}


def test_what_had_no_answer_is_among_what_came_since(
    small: Machine, monkeypatch: pytest.MonkeyPatch,
) -> None:
    """The register has it, and by a look at it the history knows; it is sent again if it is ticked.
    """
    with small.office() as office:
        room, sender = Room(office), office.parts.desk.sender
        room.copy_now()

        def lost(line: bytes, send: Callable[[bytes], bytes] = sender.send) -> bytes:
            send(line)
            raise Ended("the answer is lost", True)

        with monkeypatch.context() as patch:
            patch.setattr(sender, "send", lost)
            sent(office, (HAL, RAISED))
        number = room.begin(1)
        listed = text_of(room.hal.get(f"/restores/{number}").text, "since")
        assert "hal raised the admission number of OAK to 2" in listed
        assert room.press(room.hal, number, "ask", (room.since()["raise_pan"],)).status_code == 303
        assert room.press(room.jane, number, "confirm").status_code == 303
        assert room.now().schools["OAK"].pan == 2


def test_a_machine_that_did_not_restore_is_seen(
    small: Machine, monkeypatch: pytest.MonkeyPatch,
) -> None:
    """It says that it has, and the register is as before: nothing is said to be restored."""
    with small.office() as office:
        room, real = Room(office), office.parts.copies.asked
        room.copy_now()
        sent(office, (HAL, RAISED))
        number = room.begin(1)
        assert room.press(room.hal, number, "ask", (room.since()["raise_pan"],)).status_code == 303
        monkeypatch.setattr(office.parts.copies, "asked", lambda what, at: (
            {} if what == copies.RESTORE else real(what, at)))
        room.press(room.jane, number, "confirm")
        assert room.state(number) == "restoring"
        assert not [it for it in office.parts.history.entries if it.what == RESTORED]
        assert room.now().schools["OAK"].pan == 2 and office.parts.desk.closed()


@pytest.mark.parametrize("is_again", [False, True])
def test_rows_whose_import_is_undone_are_in_the_table_again(small: Machine, is_again: bool) -> None:
    """Also where the application ended before it had marked them as stored; where the import is
    sent again they are stored.
    """
    with small.office() as office:
        room, parts = Room(office), office.parts
        room.copy_now()
        after, digest = len(parts.history.entries), hashlib.sha256(ROWS.encode()).hexdigest()
        assert parts.desk.send_import(JANE, ROWS.encode()).is_done
        first = room.since()["import"]
        staged_by(office, first)
        with parts.store.writing() as db:
            mark = f"{after} {digest}"
            db.execute("UPDATE staged_row SET state='sending', entry=NULL, sent=?", (mark,))
            db.execute("INSERT INTO sending (kind, batch, place, about, state, said, after) VALUES"
                       " ('import', ?, 0, json_object('digest', ?), 'sending', '', ?)",
                       (mark, digest, after))
        number = room.begin(1)
        ticked = (first,) if is_again else ()
        assert room.press(room.hal, number, "ask", ticked).status_code == 303
        assert room.press(room.jane, number, "confirm").status_code == 303
        assert (8 in room.now().children) == is_again
        assert room.jane.get("/applications/").status_code == 200
        last = room.since()["import"]
        assert (last != first) == is_again
        row = parts.store.row("SELECT state, entry FROM staged_row")
        assert row and (row["state"], row["entry"]) == (
            ("committed", last) if is_again else ("open", None))


def test_a_restore_that_sends_nothing_again_is_asked_once_more(small: Machine) -> None:
    """Nothing is ticked by a slip, and the second person reads at the top that nothing is sent
    again.
    """
    with small.office() as office:
        room = Room(office)
        room.copy_now()
        sent(office, (JANE, NEW_NAME), (HAL, RAISED))
        path = f"/restores/{room.begin(1)}"
        page = Page(room.hal.get(path).text)
        assert "none" not in page.by_id
        found = press(room.hal, path, page, "Ask to restore copy 1")
        asked = Page(found.text)
        assert found.status_code == 409 and room.state(1) == "closed"
        assert "2 entries are not sent again" in asked.by_id["none"]
        ticked = press(room.hal, path, asked, "Ask to restore copy 1",
                       **{f"again-{room.since()['amend']}": "on"})
        assert ticked.status_code == 303
        assert "none" not in Page(room.jane.get(path).text).by_id
        press(room.hal, path, Page(room.hal.get(path).text), "Choose once more what is sent again")
        again = Page(press(room.hal, path, Page(room.hal.get(f"{path}?tick=none").text),
                           "Ask to restore copy 1").text)
        found = press(room.hal, path, again,
                      "Ask to restore copy 1, and send none of 2 entries again")
        assert found.status_code == 303 and room.state(1) == "asked"
        assert Page(room.jane.get(path).text).by_id["none"].startswith(
            "Nothing is sent again: 2 entries that came since the copy would be lost")


def shown(office: Site, room: Room, at: dict[str, int]) -> None:
    """Sees what the office shows after the first restore: the first author of what was sent again,
    what was undone, and the applications of an import that was not sent again, to be stored anew.
    """
    again = [it for it in office.parts.history.entries if "again" in it.about]
    assert len(again) == 2
    assert [(it.who, it.about["again"]["who"], it.about["again"]["of"]) for it in again] == [
        ("jane", "jane", at["amend"]), ("jane", "hal", at["apply"])]
    page = html.unescape(room.hal.get("/children/1").text)
    assert "Done, and undone when copy 1 was restored" in page
    assert "recorded first by jane on" in page
    assert "undone when copy 1 was restored" in room.hal.get("/activity/").text
    row = office.parts.store.row("SELECT state, entry FROM staged_row")
    assert row and (row["state"], row["entry"]) == ("open", None)


class Killed(BaseException):
    """The application ends here."""


class Kills:
    """Ends the application at the event of a number, before it is done or after it."""

    def __init__(self, patch: pytest.MonkeyPatch) -> None:
        self.count, self.at, self.is_after = 0, 0, False
        self.names: set[str] = set()
        self.sent: list[bytes] = []
        for kind, name in ((History, "add"), (copies.Copies, "asked")):
            patch.setattr(kind, name, self.around(f"{kind.__name__}.{name}", getattr(kind, name)))
        patch.setattr(Store, "writing", self.around_block(Store.writing))

    def begin(self, at: int, is_after: bool) -> None:
        """Arms it."""
        self.count, self.at, self.is_after = 0, at, is_after

    def see(self, name: str, is_after: bool) -> None:
        """Ends the application if it is time."""
        if self.count == self.at and self.is_after == is_after:
            self.names.add(f"{name} {'after' if is_after else 'before'}")
            raise Killed

    def around(self, name: str, real: Callable[..., Any]) -> Callable[..., Any]:
        """A call that is an event."""
        def found(*given: Any, **more: Any) -> Any:
            self.count += 1
            at = self.count
            self.see(name, False)
            answer = real(*given, **more)
            if at == self.at and self.is_after:
                self.names.add(f"{name} after")
                raise Killed
            return answer
        return found

    def around_block(self, real: Callable[..., Any]) -> Callable[..., Any]:
        """A block that is one."""
        @contextlib.contextmanager
        def found(*given: Any, **more: Any) -> Iterator[Any]:
            self.count += 1
            at = self.count
            self.see("writing", False)
            with real(*given, **more) as it:
                yield it
            if at == self.at and self.is_after:
                self.names.add("writing after")
                raise Killed
        return found

    def sending(self, parts: Parts) -> None:
        """Counts what is sent to the register, and ends the application around it."""
        sender = parts.desk.sender
        real = sender.send

        def send(line: bytes) -> bytes:
            self.sent.append(line)
            return real(line)

        setattr(sender, "send", self.around("send", send))


BUTTONS = {
    "closed": "ask", "asked": "confirm", "confirmed": "copy", "copied": "restore",
    "restoring": "restore", "restored": "send_again", "sent again": "open",
}


def go_on(parts: Parts, number: int, ticked: tuple[int, ...]) -> None:
    """Goes on with a restore from where it is, until it is open."""
    restores = parts.restores
    while not (found := restores.get(number)).is_ended:
        name = BUTTONS[found.state]
        if name == "ask":
            restores.ask(HAL, number, found.version, ticked)
        else:
            getattr(restores, name)(JANE if name == "confirm" else HAL, number, found.version)


def test_a_restore_goes_on_after_the_application_is_killed_anywhere(
    small: Machine, monkeypatch: pytest.MonkeyPatch
) -> None:
    """Before and after each write, each request to the machine and each command: whoever looks next
    goes on, nothing is sent twice, and the outcome is that of a restore that nothing stopped.
    """
    with small.office() as office:
        office.parts.copies.make("a try", "hal")
        sent(office, (JANE, NEW_NAME), (HAL, RAISED), (JANE, ADDED), (JANE, APPLIED))
        ticked = tuple(it.number for it in office.parts.history.entries
                       if it.what == "sends" and it.about["command"]["cmd"] != "raise_pan")
        number = office.parts.restores.begin(HAL, 1)
    kills = Kills(monkeypatch)
    at, is_after, is_open = 1, False, False
    known: set[tuple[object, ...]] = set()
    while not is_open:
        parts = Parts(small.config())
        is_ended = parts.restores.get(number).is_ended
        assert bool(parts.desk.closed()) != is_ended
        known.add(state_of(parts, number))
        kills.sending(parts)
        kills.begin(at, is_after)
        try:
            go_on(parts, number, ticked)
            is_open = True
        except Killed:
            at, is_after = next_of(at, is_after, state_of(parts, number) not in known)
        parts.close()
    kills.begin(0, False)
    wanted = {f"{name} {when}" for when in ("before", "after") for name in (
        "History.add", "Copies.asked", "writing", "send")}
    assert wanted <= kills.names
    with small.office() as office:
        model = Model()
        assert all(model.do(it) for it in (NEW_NAME, ADDED, APPLIED))
        model.see(office.parts.desk.now())
        rows = office.parts.restores.sending.rows(office.parts.restores.get(number))
        assert {it.entry for it in rows if it.state == "done"} == set(ticked)
        assert [json.loads(it)["cmd"] for it in kills.sent] == ["amend", "add_child", "apply"]


def state_of(parts: Parts, number: int) -> tuple[object, ...]:
    """How far a restore is."""
    found = parts.restores.get(number)
    rows = parts.restores.sending.rows(found)
    return found.version, *(it.state for it in rows)


def next_of(at: int, is_after: bool, has_moved: bool) -> tuple[int, bool]:
    """The next moment: after the same event, and before the one that follows it; the first one
    where it has come further than ever.
    """
    if not is_after:
        return at, True
    return (1, False) if has_moved else (at + 1, False)


def test_a_restore_goes_on_without_its_browser(
    small: Machine, monkeypatch: pytest.MonkeyPatch
) -> None:
    """Who confirms it has an answer while the copy is restored. The page says what runs, has no
    button and is read again by itself; what follows needs nobody. What is refused after the answer
    is said to who looks later.
    """
    with small.office() as office:
        room, may_end = Room(office), threading.Event()
        office.parts.copies.make("a try", "hal")
        sent(office, (HAL, RAISED))
        number = room.begin(1)
        restored, restoring = office.parts.copies.restore, office.parts.restoring
        room.press(room.hal, number, "ask")

        def full(*_: object) -> None:
            assert may_end.wait(600)
            raise Refused("the disk is full")

        def slow(*given: Any) -> Any:
            assert may_end.wait(600)
            return restored(*given)

        monkeypatch.setattr(restoring, "wait", 0.05)
        for who, by, name, work, wanted in (
                (room.jane, "jane", "confirm", full, "restoring"),
                (room.hal, "hal", "restore", slow, "opened")):
            may_end.clear()
            monkeypatch.setattr(office.parts.copies, "restore", work)
            assert room.press(who, number, name).status_code == 303
            while room.state(number) != "restoring":
                assert restoring.under_way()
            page = room.hal.get(f"/restores/{number}").text
            assert f'data-running="/restores/{number}"' in page
            assert f"begun by {by}: the copy is restored." in page
            assert "Cancel the restore" not in page and "Go on with" not in page
            found = room.press(room.hal, number, "give-up")
            assert found.status_code == 409
            assert f"A step is under way, which {by} began" in found.text
            may_end.set()
            job = restoring.last
            assert job and job.is_over.wait(600) and room.state(number) == wanted
            page = room.hal.get(f"/restores/{number}").text
            assert "data-running" not in page
            assert ("The last step was not done: The disk is full." in page) == (work is full)
        assert room.now().schools["OAK"].pan == 1


def test_a_restore_is_given_up_before_the_register_is_touched(small: Machine) -> None:
    """By one person, and also where the machine has not begun; not where it is done."""
    with small.office() as office:
        room = Room(office)
        office.parts.copies.make("a try", "hal")
        sent(office, (HAL, RAISED))
        number = room.begin(1)
        room.press(room.hal, number, "ask")
        assert room.press(room.hal, number, "choose").status_code == 303
        assert room.press(room.hal, number, "give-up").status_code == 303
        assert not office.parts.desk.closed() and room.now().schools["OAK"].pan == 2
        # the machine does not answer: what was asked is taken back, and the register is as it was
        number = room.begin(1)
        room.press(room.hal, number, "ask")
        found, restores = version_of(office, number), office.parts.restores
        restores.confirm(JANE, number, found)
        restores.copy(HAL, number, version_of(office, number))
        small.is_ended.set()
        small.thread.join()
        with pytest.MonkeyPatch.context() as patch:
            patch.setattr(copies, "BEGIN_SECONDS", 0.2)
            answer = room.press(room.hal, number, "restore")
        assert answer.status_code == 409 and "The machine has not answered" in answer.text
        assert room.state(number) == "restoring"
        assert "Go on with the restore of copy 1" in room.hal.get(f"/restores/{number}").text
        (small.state / "requests" / "restore").write_text("1\n")
        assert room.press(room.hal, number, "give-up").status_code == 303
        assert not (small.state / "requests" / "restore").exists()
        assert room.state(number) == "given up" and room.now().schools["OAK"].pan == 2


def test_one_restore_at_a_time_by_two_whom_nobody_has_made_since(small: Machine) -> None:
    """Of whatever copy. Somebody with another password since then neither confirms it nor asks."""
    with small.office() as office:
        room = Room(office)
        for purpose in ("a try", "another"):
            office.parts.copies.make(purpose, "hal")
        number = room.begin(1)
        other = room.hal.post("/copies/2/restore", {})
        assert other.status_code == 409 and "restore of copy 1 is in progress" in other.text
        assert room.press(room.hal, number, "ask").status_code == 303
        for browser, who, button in ((room.jane, "jane", "confirm"), (room.hal, "hal", "ask")):
            office.parts.history.add("adm", "drew a new password", {"person": who})
            found = room.press(browser, number, button)
            assert found.status_code == 409
            assert f"{who} was given another password by adm" in found.text.lower()
            room.press(room.hal, number, "choose")
        assert room.state(number) == "closed"


def test_what_was_sent_again_keeps_nothing_of_its_child_back(small: Machine) -> None:
    """Another entry of the same child can be sent later: nobody has recorded anything since."""
    with small.office() as office:
        room, restores = Room(office), office.parts.restores
        office.parts.copies.make("a try", "hal")
        sent(office, (HAL, ADDED), (JANE, APPLIED))
        added, applied = (room.since()[it] for it in ("add_child", "apply"))
        number = room.begin(1)
        for browser, button, entries in ((room.hal, "ask", (added,)), (room.jane, "confirm", ())):
            assert room.press(browser, number, button, entries).status_code == 303
        # (all that was chosen is stored, so the register is open again)
        assert restores.later(restores.get(number)) == {applied: ""}
        assert room.press(room.hal, number, "later", (applied,)).status_code == 303
        assert list(room.now().applications[6].preferences) == ["ELM"]


def test_a_restore_that_is_done_is_not_given_up(
    small: Machine, monkeypatch: pytest.MonkeyPatch
) -> None:
    """Where the history could not be written after it: it goes on, and has the same outcome."""
    with small.office() as office:
        restores = office.parts.restores
        office.parts.copies.make("a try", "hal")
        sent(office, (HAL, RAISED))
        number = restores.begin(HAL, 1)
        restores.ask(HAL, number, version_of(office, number), ())
        restores.confirm(JANE, number, version_of(office, number))
        restores.copy(HAL, number, version_of(office, number))
        real = History.add

        def add(record: History, who: str, what: str, about: dict[str, Any]) -> Entry:
            if what == RESTORED:
                raise Refused("the disk is full")
            return real(record, who, what, about)

        with monkeypatch.context() as patch:
            patch.setattr(History, "add", add)
            with pytest.raises(Refused, match="the disk is full"):
                restores.restore(HAL, number, version_of(office, number))
        assert office.parts.desk.now().schools["OAK"].pan == 1
        with pytest.raises(Refused, match="the register is not as it was any more"):
            restores.give_up(HAL, number, version_of(office, number))
        parts = office.parts
        go_on(parts, number, ())
        assert parts.restores.get(number).state == "opened"
        Model().see(parts.desk.now())


def version_of(office: Site, number: int) -> int:
    """The version of a restore."""
    return office.parts.restores.get(number).version


def test_what_cannot_be_restored_is_said_before_the_register_is_closed(
    small: Machine, monkeypatch: pytest.MonkeyPatch
) -> None:
    """A copy that is damaged or gone, a register that does not answer, a draw in progress, a disk
    that is full; and the test of a copy finds the first two.
    """
    with small.office() as office:
        room = Room(office)
        office.parts.copies.make("a try", "hal")
        path = office.parts.copies.path(1)
        data = path.read_bytes()
        assert "is right" in room.hal.sent("/copies/1/test").text
        page = text_of(room.hal.get("/copies/").text, "copies")
        assert ": right" in page and "5 children, 5 applications, 0 places, 0 rounds" in page

        path.write_bytes(b"SQLite format 3\0" + bytes(4000))
        refused = room.hal.post("/copies/1/restore")
        assert refused.status_code == 409 and "Recording was not paused" in refused.text
        assert "is not right" in room.hal.sent("/copies/1/test").text
        page = text_of(room.hal.get("/copies/").text, "copies")
        assert ": not right" in page and str(small.folder) not in page
        path.unlink()
        assert room.hal.post("/copies/1/restore").status_code == 409
        assert "The file is gone" in room.hal.get("/copies/").text
        path.write_bytes(data)

        number = begun(office)
        refused = room.hal.post("/copies/1/restore")
        assert refused.status_code == 409 and "round 1 is in progress" in refused.text
        office.parts.draws.give_up(HAL, number, version(office, number))
        with monkeypatch.context() as patch:
            patch.setattr(History, "write", full)
            refused = room.hal.post("/copies/1/restore")
            assert refused.status_code == 409 and "history cannot be written" in refused.text
            assert room.hal.post("/copies/", {"purpose": "x"}).status_code == 409
        assert not office.parts.desk.closed()
        small.stop()
        refused = room.hal.post("/copies/1/restore")
        assert refused.status_code == 409 and "does not answer now" in refused.text
        small.start()
        assert not office.parts.desk.closed() and not office.parts.restores.listed()
        for it in ("sup", "rita"):
            role = "supervisor" if it == "sup" else "reader"
            assert office.browser(it, role).post("/copies/1/restore").status_code == 403


def full(*_: object) -> None:
    """A disk without room."""
    raise OSError(28, "No space left on device")


def test_a_pile_that_is_being_recorded_stops_and_keeps_its_rest(
    small: Machine, monkeypatch: pytest.MonkeyPatch
) -> None:
    """The register is closed between two of its answers: those after it wait."""
    with small.office() as office:
        office.parts.copies.make("a try", "hal")
        office.add("jane", "officer")
        desk, found, piles = office.parts.desk, office.parts.restores, office.parts.piles
        real = desk.request
        piles.add("jane", desk.now(), [Meant(str(it), "name_plan", it, "ELM") for it in (1, 2, 3)])

        def send(*given: Any) -> Result:
            result = real(*given)
            if found.present() is None:
                found.begin(HAL, 1)
            return result

        monkeypatch.setattr(desk, "request", send)
        piles.send_all(JANE, piles.of("jane"))
        pile = piles.of("jane")
        assert [it.state for it in pile] == ["done", "waits", "waits"]
        assert pile[1].said.startswith(
            "Recording is paused for the restore of copy 1 by hal since")
        assert not pile[2].said and piles.recorded["jane"] == (1, 3)
        rows = found.sending.rows(found.get(1))
        assert [found.sending.entry(it).about["command"]["child"] for it in rows] == [1]


def test_a_draw_with_a_wrong_day_is_held_again_with_its_lots(small: Machine) -> None:
    """From the draw's own screen: what came since is chosen without the draw, which is undone, and
    begins again with the same lots, which nobody changes without a reason on record.
    """
    with small.office() as office:
        room = Room(office)
        number = begun(office)
        brought(office, number, "opened")
        lots = office.parts.lots.sheet(number)[1].lots()
        had = {at: it.school for at, it in room.now().places.items()}
        sent(office, (JANE, {"cmd": "accept", "child": 4, "school": had[4]}),
             (JANE, {"cmd": "accept", "child": 3, "school": had[3]}), (JANE, ADDED))
        other = office.parts.history.entries[-6].number
        opened = Page(room.hal.get(f"/draws/{number}/cancel").text)
        found = press(room.hal, "/copies/1/restore", opened,
                      "Pause recording for everyone, to restore copy 1")
        restore = int(found.headers["Location"].rsplit("/", 1)[1])
        rows = office.parts.restores.sending.rows(office.parts.restores.get(restore))
        entries = {office.parts.history.entries[it.entry - 1].about["command"]["cmd"]: it
                   for it in rows}
        # (the copy has no offer yet that could be accepted)
        assert [(it.is_chosen, it.state) for it in rows] == [
            (False, "waits"), (False, "later"), (False, "later"), (True, "waits")]
        assert room.press(room.hal, restore, "ask", (entries["round"].entry,)).status_code == 409
        ticked = entries["accept"].entry, entries["add_child"].entry
        room.press(room.hal, restore, "ask", ticked)
        assert room.press(room.jane, restore, "confirm").status_code == 303
        assert room.press(room.hal, restore, "open").status_code == 303
        assert room.now().draws == [] and 6 in room.now().children
        assert office.parts.draws.get(number).state == "restored"

        link = f'<a href="/draws/?again={number}#begin">'
        page = room.hal.get(f"/draws/{number}").text
        assert "It was undone." in page and f"{link}Begin round 1 again</a>" in page
        page = room.hal.get("/draws/").text
        assert page.count(f"{link}begin round 1 again</a>") == 2
        assert "This form is for another one. To run round 1 again, follow" in page
        assert link not in room.jane.get("/draws/").text + room.jane.get(f"/draws/{number}").text
        page = room.hal.get(f"/draws/?again={number}").text
        assert "This form is for another draw" not in page
        assert '<option value="round" selected>' in page
        assert Page(page).fields["day"]["value"] == ""
        held_again(room, lots)
        # what was refused, since there was no offer yet, is sent now
        page = room.hal.get(f"/restores/{restore}").text
        assert f'name="again-{entries["accept"].entry}"' in page
        assert f'name="again-{entries["add_child"].entry}"' not in page
        sent(office, (JANE, {**child(4, name="Bo"), "cmd": "amend"}))
        refused = room.press(room.hal, restore, "later", (other,))
        assert refused.status_code == 409
        assert "Child 4: jane has recorded something since" in refused.text
        assert room.press(room.hal, restore, "later", ticked[:1]).status_code == 303
        places = room.now().places
        assert (places[3].kind, places[4].kind) == ("accepted", "offered")


def test_an_answer_to_an_undone_offer_waits_until_the_draw_is_held_again(small: Machine) -> None:
    """Nothing is ticked then, and nobody is asked whether that is meant; the register is open by
    itself; the draw begins again on the page of the restore; and its own page leads back to what
    waits.
    """
    with small.office() as office:
        room = Room(office)
        brought(office, begun(office), "opened")
        school = room.now().places[3].school
        sent(office, (JANE, {"cmd": "accept", "child": 3, "school": school}))
        entry = room.since()["accept"]
        restore = room.begin(1, draw=1)
        path = f"/restores/{restore}"
        page = Page(room.hal.get(path).text)
        row = page.tables["since"][2]
        assert row[0] == "later" and row[3].startswith("child 3 ") and "refuses it" in row[3]
        assert f"again-{entry}" not in page.stops
        assert press(room.hal, path, page, "Ask to restore copy 1").status_code == 303
        seen = " ".join(room.jane.get(path).text.split())
        # (the draw is lost, and the accept waits)
        assert ("2 entries came since then: none of them is sent again, and 1 is lost. 1 entry"
                " waits until the round or offer is run again.") in seen
        assert press(room.jane, path, Page(seen), "Restore copy 1").status_code == 303
        assert room.state(restore) == "opened" and not office.parts.desk.closed()
        assert room.now().draws == [] and not room.now().places

        found = press(room.hal, path, Page(room.hal.get(path).text), "Begin round 1 again",
                      day="4 March 2025")
        number = int(found.headers["Location"].rsplit("/", 1)[1])
        assert str(office.parts.draws.get(number).terms.day) == "2025-03-04"
        assert "Begin round 1 again" not in Page(room.hal.get(path).text).buttons()
        brought(office, number, "lots")
        sup = office.browser("sup", "supervisor")
        whole = sup.get(f"/lots/{number}").text
        assert "Seal the lots of round 1" in Page(whole).buttons()
        assert "10 lots were sealed for round 1 before it was undone" in whole
        assert "Lots, page 1 of 1" in Page(sup.get(f"/lots/{number}?page=1").text).tables
        brought(office, number, "opened")
        assert not room.now().places[3].kind == "accepted"
        page = Page(room.hal.get(f"/draws/{number}").text)
        assert "1 entry that came after it was run first" in page.by_id["unsent"]
        assert ">Record again what came after round 1</a>" in room.hal.get("/").text
        assert "Record again what came after" not in room.jane.get("/").text
        assert f"{path}#since" in page.stops
        page = Page(room.hal.get(path).text)
        assert press(room.hal, path, page, "Send what is ticked").status_code == 303
        assert room.now().places[3].kind == "accepted"
        assert "unsent" not in Page(room.hal.get(f"/draws/{number}").text).by_id
        assert "Record again what came after" not in room.hal.get("/").text


def undone(room: Room, number: int) -> None:
    """Restores the copy from before a draw, by two people."""
    restore = room.begin(room.office.parts.draws.get(number).before or 0, draw=number)
    assert room.press(room.hal, restore, "ask").status_code == 303
    assert room.press(room.jane, restore, "confirm").status_code == 303
    assert room.state(restore) == "opened" and room.now().draws == []


def sealed_by(office: Site, number: int, who: roles.Person) -> None:
    """Brings a draw whose lots stay to its rehearsal, with the seal of another supervisor."""
    brought(office, number, "lots")
    digest = office.parts.lots.sheet(number)[1].digest()
    office.parts.lots.seal(who, number, version(office, number), digest)
    brought(office, number, "rehearsed")


def test_who_sealed_the_lots_of_an_undone_draw_does_not_confirm_the_next(small: Machine) -> None:
    """The lots stay, and whoever sealed them first has a part in the draw, however often it was
    undone, and whoever seals them again; but not where all lots are entered anew.
    """
    with small.office() as office:
        room, draws = Room(office), office.parts.draws
        # (who seals may be an officer by then)
        browsers = {it: office.browser(it, "officer") for it in ("sup", "sue")}
        number = begun(office)
        brought(office, number, "opened")
        others = dict[str, str]()
        for first, then in (("sup", "sue"), ("sue", "tom")):
            undone(room, number)
            number = begun(office)
            sealed_by(office, number, roles.Person(then, "supervisor"))
            others[first] = f"{first} sealed the lots of round 1 before it was undone"
            for name, said in others.items():
                with pytest.raises(Refused, match=f"^{said}: somebody else confirms it"):
                    draws.confirm(roles.Person(name, "officer"), number, version(office, number))
                page = Page(browsers[name].get(f"/draws/{number}").text)
                assert "Confirm round 1" not in page.buttons()
                assert said in page.by_id["next"] and said in page.by_id["not-second"]
            if then == "sue":
                brought(office, number, "opened")
        given_up(office, number)
        number = draws.begin(HAL, None, 1, datetime.date(2025, 3, 4), "two lots were typed wrong")
        brought(office, number, "lots")
        typed(office, number, lot_of)
        sealed_by(office, number, roles.Person("tom", "supervisor"))
        draws.confirm(roles.Person("sue", "officer"), number, version(office, number))


def held_again(room: Room, lots: dict[tuple[str, int], list[int]]) -> None:
    """Begins the round again, sees that its lots stay, and has the register hold it."""
    office = room.office
    form = {"kind": "round", "day": "4 March 2025", "lots": "others", "reason": " "}
    refused = room.hal.post("/draws/", form)
    assert refused.status_code == 409 and "type the reason" in refused.text
    assert 'value="4 March 2025"' in refused.text
    made = room.hal.post("/draws/", {**form, "lots": "kept"})
    number = int(made.headers["Location"].rsplit("/", 1)[1])
    brought(office, number, "lots")
    sheet = office.parts.lots.sheet(number)[1]
    assert not sheet.wrong() and sheet.lots() == lots
    pair = min(lots)
    with pytest.raises(Refused, match="was sealed before, and stays"):
        office.parts.lots.save(SUP, number, {(pair, 0): Typed(str(lots[pair][0]), "424242")})
    with pytest.raises(Refused, match="was sealed before, and stays"):
        office.parts.lots.take(SUP, number, 0, {pair: 424242})
    assert office.parts.lots.sheet(number)[1].lots() == lots
    given_up(office, number)
    other = {**form, "reason": "two lots were typed wrong"}
    made = room.hal.post("/draws/", other)
    number = int(made.headers["Location"].rsplit("/", 1)[1])
    page = html.unescape(room.jane.get(f"/draws/{number}").text)
    assert "All lots are entered anew, because: <bdi>two lots were typed wrong" in page
    assert office.parts.history.entries[-1].about["other lots"] == "two lots were typed wrong"
    assert draws_again.kept(office.parts.draws, office.parts.draws.get(number)) == {}
    given_up(office, number)
    held = {"cmd": "round", "draw": 1, "day": "2025-03-04",
            "lots": [lots[it][0] for it in sorted(lots)]}
    assert office.parts.desk.send(HAL, held, None, True).is_done


def moment_now() -> datetime.datetime:
    """This moment, as an entry of the history has it."""
    return datetime.datetime.fromisoformat(now())


def restored_by_it(small: Machine, night: pathlib.Path, since: datetime.datetime) -> int:
    """Has IT support put a copy of the night in the place of the register, while the application is
    closed. Returns the number of the restore."""
    small.stop()
    shutil.copy(night, small.file)
    name = "office-000099-2025-03-03T023000.db"
    shutil.copy(night, small.copies / name)
    parts = Parts(small.config())
    support = roles.Person("administrator of the machine", "")
    copy = parts.copies.next_number("of the night", support.name)
    parts.restores.bring(support, copy, name, since, "Since then people also added a note (1).")
    found = parts.restores.present()
    parts.close()
    small.start()
    return found.number if found else 0


def test_what_came_since_a_copy_of_it_support_is_sent_again_by_two_people(small: Machine) -> None:
    """With a draw, as it was held; also where they have new passwords since. Nobody records
    anything before, and it cannot be cancelled. What is not ticked is lost.
    """
    night = small.folder / "night.db"
    small.stop()
    shutil.copy(small.file, night)
    small.start()
    since = moment_now()
    with small.office() as office:
        room = Room(office)
        draw = begun(office)
        brought(office, draw, "opened")
        had = {at: it.school for at, it in room.now().places.items()}
        sent(office, (JANE, {"cmd": "accept", "child": 4, "school": had[4]}), (JANE, ADDED),
             (HAL, RAISED))
        lots, passwords = room.now().lots(1), dict(office.passwords)
    number = restored_by_it(small, night, since)
    with small.office() as office:
        office.passwords.update(passwords)
        room, path = Room(office), f"/restores/{number}"
        assert room.now().draws == [] and office.parts.draws.get(draw).state == "restored"
        assert office.parts.desk.send(JANE, NEW_NAME).said.startswith("Recording is paused for the")
        page = room.hal.get(path).text
        assert "Since then people also added a note (1)." in page and "Cancel the" not in page
        entries = room.since()
        assert [row[0] for row in Page(page).tables["since"][1:]] == [""] * 4
        assert room.press(room.hal, number, "give-up").status_code == 409
        office.parts.history.add("root", "drew a new password", {"person": "jane"})
        ticked = tuple(entries[it] for it in ("round", "accept", "add_child"))
        assert room.press(room.hal, number, "ask", ticked).status_code == 303
        refused = room.press(room.hal, number, "confirm")
        assert refused.status_code == 409 and "hal has asked for the restore" in refused.text
        seen = " ".join(room.jane.get(path).text.split())
        assert ("hal has chosen what is sent again. 4 entries came since then: 3 of them are sent"
                " again, and 1 is lost.") in seen
        assert "May confirm it: jane." in seen and "would refuse" not in seen
        assert press(room.jane, path, Page(seen), "Send again what is ticked").status_code == 303
        assert room.state(number) == "opened" and not office.parts.desk.closed()
        register = room.now()
        assert {at: it.school for at, it in register.places.items()} == had
        assert (register.places[4].kind, 6 in register.children) == ("accepted", True)
        assert (register.lots(1), register.schools["OAK"].pan) == (lots, 1)
        assert office.parts.draws.get(draw).state == "opened"
        assert "recorded first by jane" in room.hal.get("/activity/").text


def test_another_copy_of_it_support_keeps_what_waits(small: Machine) -> None:
    """What is not sent again yet waits still, with what that copy lacks; and where nothing came
    since, recording goes on at once.
    """
    night, since = small.folder / "night.db", moment_now()
    small.stop()
    shutil.copy(small.file, night)
    small.start()
    assert restored_by_it(small, night, since) == 0
    with small.office() as office:
        assert not office.parts.desk.closed()
        sent(office, (HAL, RAISED))
        second = moment_now()
        sent(office, (JANE, NEW_NAME))
    waiting = []
    for moment in (second, since, second):
        number = restored_by_it(small, night, moment)
        parts = Parts(small.config())
        rows = parts.restores.sending.rows(parts.restores.get(number))
        waiting.append([parts.restores.sending.entry(it).about["command"]["cmd"] for it in rows])
        parts.close()
    assert waiting == [["amend"], ["raise_pan", "amend"], ["amend"]]


def test_the_lineage_of_a_register_follows_its_restores() -> None:
    """Worked out by hand: a copy after entry 3; its restore is entry 6; a copy after 5 is restored
    by entry 9, which takes the first restore back.
    """
    first, both = [(6, 3)], [(6, 3), (9, 5)]

    def of(restores: list[tuple[int, int]], position: int) -> set[int]:
        found = lineage.of(restores, position)
        return {it for it in range(1, 12) if it in found}

    assert of([], 4) == {1, 2, 3, 4}
    assert of(first, 5) == {1, 2, 3, 4, 5}
    assert of(first, 8) == {1, 2, 3, 7, 8}
    assert of(both, 11) == {1, 2, 3, 4, 5, 10, 11}
    assert [lineage.undone_by(first, it) for it in (3, 4, 5, 7)] == [None, 6, 6, None]
    assert [lineage.undone_by(both, it) for it in (3, 7, 8, 10)] == [None, 9, 9, None]


# without a register, which nothing here needs


@pytest.fixture(name="away")
def away_fixture(tmp_path: pathlib.Path) -> Iterator[Site]:
    """An application whose register does not answer, with a copy."""
    with site(tmp_path, "http://127.0.0.1:9") as office:
        with office.parts.store.writing() as db:
            db.execute("INSERT INTO copy (number, purpose, asked, name, size) VALUES"
                       " (1, 'a try', '2025-03-03T10:00:00+00:00', 'office-1.db', 10)")
        yield office


def in_state(office: Site, state: str, *entries: Entry) -> int:
    """A restore of the copy that hal has begun, brought to a state."""
    number: int = office.parts.restores.added(HAL, 1, None, entries)
    with office.parts.store.writing() as db:
        db.execute("UPDATE restore SET state=? WHERE id=?", (state, number))
    return number


def test_an_officer_ends_a_restore_when_the_head_cannot(away: Site) -> None:
    """The register would stay closed for all: whoever may confirm goes on, opens, or gives up; what
    is sent again is chosen by who may restore.
    """
    number, jane = in_state(away, "restored"), away.browser("jane")
    page = Page(jane.get(f"/restores/{number}").text)
    found = press(jane, f"/restores/{number}", page, "Resume recording, and send no more now")
    assert found.status_code == 303 and away.parts.restores.get(number).state == "opened"
    assert not away.parts.desk.closed()
    number = in_state(away, "closed")
    seen = {"seen": away.parts.restores.get(number).version, "none": "yes"}
    assert jane.post(f"/restores/{number}/ask", seen).status_code == 403
    assert jane.post(f"/restores/{number}/second/ask", seen).status_code == 404
    assert jane.post(f"/restores/{number}/second/give-up", {"seen": "x"}).status_code == 400
    page = Page(jane.get(f"/restores/{number}").text)
    found = press(jane, f"/restores/{number}", page, "Cancel the restore of copy 1")
    assert found.status_code == 303 and away.parts.restores.get(number).state == "given up"
    rita = away.browser("rita", "reader")
    assert rita.post(f"/restores/{number}/second/give-up", seen).status_code == 403


def test_who_opened_a_restore_is_not_who_has_sent_something_later() -> None:
    """Nor is a step that leaves the state taken for one that leads to it. Worked out by hand."""
    steps = (("closed", "hal"), ("asked", "hal"), ("closed", "ann"), ("asked", "ann"),
             ("confirmed", "jane"), ("opened", "hal"), ("opened", "ann"), ("opened", "bo"))
    done = [Done(state, who, f"2025-03-0{at}T10:00:00+00:00", "")
            for at, (state, who) in enumerate(steps, 1)]
    found = Restore(1, 1, "opened", 8, None, None, tuple(done))
    names = ("closed", "asked", "confirmed", "opened", "copied")
    assert [found.came_to(it).who for it in names] == ["ann", "ann", "jane", "hal", ""]
    assert found.came_to("opened").at == "2025-03-06T10:00:00+00:00"


def test_what_was_recorded_since_a_restore_is_counted_from_that_one(tmp_path: pathlib.Path) -> None:
    """And not from a later restore of the same copy."""
    record = History(str(tmp_path / "history.jsonl"))
    entries: list[tuple[str, dict[str, Any]]] = [
        ("restores", {"copy": 5, "restore": 1}), (RESTORED, {"copy": 5, "position": 0}),
        ("added", {"person": "bo"}), ("restores", {"copy": 7, "restore": 2}),
        (RESTORED, {"copy": 7, "position": 3}), ("restores", {"copy": 5, "restore": 3}),
        (RESTORED, {"copy": 5, "position": 0})]
    for what, about in entries:
        record.add("hal", what, about)
    found = [restores.restored_at(record, Restore(it, 5, "opened", 1, None, None, ()))
             for it in (1, 2, 3, 4)]
    assert found == [2, 5, 7, 0]
    record.close()


def test_an_import_whose_rows_are_in_the_table_again_is_not_sent_later(away: Site) -> None:
    """They would be in the register, and in the table as if nobody had stored them."""
    record = away.parts.history
    entries = [record.add("jane", "sends", {"import": it}) for it in (ROWS, f"{ROWS}9,Ivy,1,2\n")]
    for it in entries:
        record.add("jane", "answer", {"of": it.number, "answer": {"done": True}})
    number = in_state(away, "opened", *entries)
    staged_by(away, entries[0].number)
    digest = hashlib.sha256(ROWS.encode()).hexdigest()
    with away.parts.store.writing() as db:
        db.execute("UPDATE staged_row SET state='open', entry=NULL, sent=?", (f"0 {digest}",))
    record.add("hal", "restores", {"copy": 1, "restore": number})
    record.add("hal", RESTORED, {"copy": 1, "position": 0})
    may = away.parts.restores.later(away.parts.restores.get(number))
    assert may == {entries[1].number: "", entries[0].number: (
        "its applications are in the table of Applications again: store them there")}


def test_a_copy_that_takes_long_is_seen_to_be_made(
    away: Site, monkeypatch: pytest.MonkeyPatch
) -> None:
    """By all who look, and then that it was not; nobody begins another one meanwhile."""
    held = threading.Event()

    def slow(*_: object) -> int:
        held.wait(60)
        raise Refused("there is no copy: the machine has not answered")

    monkeypatch.setattr(away.parts.copies, "make", slow)
    away.parts.copying.wait = 0.05
    hal, rita = away.browser("hal", "head"), away.browser("rita", "reader")
    assert hal.post("/copies/", {"purpose": "a try"}).location.endswith("/copies/")
    for it in (hal, rita):
        page = it.get("/copies/").text
        assert "begun by hal: a copy is made or tested" in page and "Copy now" not in page
        assert 'data-running="/copies/"' in page
    found = hal.post("/copies/1/test")
    assert found.status_code == 409 and "a step is under way, which hal began" in found.text
    held.set()
    job = away.parts.copying.last
    assert job and job.is_over.wait(60)
    page = hal.get("/copies/").text
    assert "The last copy was not made or tested: There is no copy" in page
    assert "Copy now" in page and "data-running" not in page


def test_no_copy_is_made_of_a_season_that_is_deleted(away: Site) -> None:
    """There is no register, and the machine could do nothing with the request."""
    away.parts.end.store(away.parts.end.get(), phase="deleted")
    found = away.browser("hal", "head").post("/copies/", {"purpose": "a try"})
    assert found.status_code == 409 and "The season is deleted" in Page(found.text).by_id["answer"]
    assert not away.copied
    assert "made a copy" not in [it.what for it in away.parts.history.entries]


def test_a_disk_that_is_full_is_named_and_no_file(
    away: Site, monkeypatch: pytest.MonkeyPatch
) -> None:
    """Where a copy is tested; and in a step of a restore, whose store cannot be read."""
    def full_room(*_: object, **__: object) -> None:
        raise OSError(28, "No space left on device", "/tmp/admissions-x/copy.db")

    with monkeypatch.context() as patch:
        patch.setattr("office.web.copies.testing.tempfile.TemporaryDirectory", full_room)
        found = away.browser("hal", "head").post("/copies/1/test")
    assert found.status_code == 409
    assert Page(found.text).by_id["answer"] == "Copy 1 was not tested: its disk is full."

    def unread(*_: object) -> None:
        raise sqlite3.OperationalError("database or disk is full")

    number = in_state(away, "closed")
    monkeypatch.setattr(type(away.parts.restores), "get", unread)
    with pytest.raises(Refused, match="cannot use its own file: its disk is full"):
        away.parts.restores.give_up(HAL, number, 1)


def test_a_copy_is_not_wrong_because_another_is_gone(
    away: Site, monkeypatch: pytest.MonkeyPatch
) -> None:
    """The copy from before its last draw, by which that draw would be audited."""
    tests = away.parts.copy_tests
    monkeypatch.setattr(tests, "last_draw", lambda _: SimpleNamespace(before=1))
    register: Any = None
    assert tests.audit(2, register, "", "") == ([], [])
