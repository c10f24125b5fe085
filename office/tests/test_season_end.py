"""The end of a season: what is open, the last copy, the archive and the day of deletion, over the
real program; and the deletion by two persons, killed at each of its parts. The figures are worked
out by hand on a small register.
"""
import argparse
import contextlib
import csv
import datetime
import hashlib
import io
import json
import os
import pathlib
import re
import sqlite3
import stat
import threading
import zipfile
from collections.abc import Callable, Iterator
from typing import Any

import openpyxl
import pytest
from applications import ORIGIN, ROUND, Browser, Site, office_over, site, town
from conftest import PROGRAM, ROOT, make
from draw_site import HAL, JANE, NAME, Fields, Machine, machine_over
from machine import deletion, office_delete, office_deletion_day, registers, second_copy
from register_files import Refused
from served import served

from office.core import days
from office.web.copies.copies import Copies
from office.web.letters import sets as letters_sets
from office.web.parts import Config, Parts
from office.web.people import roles
from office.web.people.guard import HEADERS
from office.web.register import history
from office.web.register.store import Store
from office.web.rounds.terms import Terms
from office.web.season_end import archive
from office.web.season_end import end as season_end
from office.web.season_end.end import End, SeasonEnd
from office.web.trials.registers import Program
from office.web.trials.runs import Run

TODAY = datetime.date(2026, 1, 10)
DAY = TODAY + days.DELETION_NOTICE
WHERE, WHY = "the safe of the <records> office", "rule 4.2 & the head"


class Killed(BaseException):
    """The application was ended here."""


@pytest.fixture(name="small")
def small_fixture(
    tmp_path: pathlib.Path, register: pathlib.Path, monkeypatch: pytest.MonkeyPatch
) -> Iterator[Machine]:
    """A machine with this register and a second place, in January after its season."""
    settings = tmp_path / "etc"
    (settings / NAME).mkdir(parents=True)
    (settings / NAME / "site-name").write_text("admissions.example\n")
    (settings / "second-copy").write_text("backup@away:/copies\n")
    for it in (office_delete, second_copy):
        monkeypatch.setattr(it, "SETTINGS", settings)
    monkeypatch.setattr(deletion, "today", lambda: TODAY)
    with machine_over(tmp_path, register, monkeypatch) as found:
        monkeypatch.setattr(
            office_delete, "stop", lambda _: found.stop() if found.file.exists() else None)
        yield found


class Person:
    """Somebody at the screen."""

    def __init__(self, office: Site, name: str, role: str) -> None:
        self.browser: Browser = office.browser(name, role)

    def page(self) -> str:
        """The page as it is now."""
        found = self.browser.get("/season-end/")
        assert found.status_code == 200, found.text
        return str(found.text)

    def press(self, step: str, status: int = 303, **given: str) -> Any:
        """Presses a button of the page as it is now."""
        values = Fields(self.page()).values
        shown = {it: values[it] for it in ("seen", "shown", "read") if it in values}
        found = self.browser.post(f"/season-end/{step}", {**shown, **given})
        assert found.status_code == status, found.text
        return found


def at(office: Site, day: datetime.date, monkeypatch: pytest.MonkeyPatch) -> None:
    """Has the application and the machine see a day as today."""
    office.parts.end.today = lambda: day
    monkeypatch.setattr(deletion, "today", lambda: day)


def taken(office: Site, head: Person) -> bytes:
    """The last copy is made, and the archive by itself, which is taken; no cache keeps it."""
    office.parts.end.today = lambda: TODAY
    head.press("copy")
    assert office.parts.end.get().made_by == "hal"
    found = head.press("archive/file", 200, kept=WHERE)
    assert {name: found.headers.getlist(name) for name in HEADERS} == {
        name: [value] for name, value in HEADERS.items()}
    return bytes(found.data)


# what is open


def add_draft(db: sqlite3.Connection, cells: str) -> None:
    """Adds a line to the draft of schools."""
    db.execute("INSERT INTO sending (kind, batch, place, about, state, said)"
               " VALUES ('school', 'draft', 1, ?, 'waits', '')", (cells,))


def test_what_is_open_is_read_before_the_last_copy(
    tmp_path: pathlib.Path, monkeypatch: pytest.MonkeyPatch
) -> None:
    """After the round of the town three offers have no answer; Cyd waits at A, and Dai at both. A
    draw in progress, and a request without an answer, stop it.
    """
    with office_over(tmp_path, [*town(), ROUND]) as office:
        head = Person(office, "hal", "head")
        office.parts.end.today = lambda: datetime.date(2025, 12, 31)
        head.browser.post("/answers/type", {"typed": "1"})
        with office.parts.store.writing() as db:
            add_draft(db, "{}")
        register = office.parts.desk.now()
        found = season_end.still_open(office.parts, register, office.parts.end.today())
        assert [(it.title, it.said) for it in found if it.title != "Answers in batches"] == [
            ("Offers without an answer", "3 offers"),
            ("Waiting lists", "3 waiting, and 0 places vacant; the lists end on 31 December 2025"),
            ("Schools that are not stored", "1 school")]
        assert head.browser.post("/season-end/copy", {"seen": "0"}).status_code == 409
        assert not office.copied
        # (the copies of this office are no files, of which an archive could be made)
        monkeypatch.setattr(office.parts.end, "make_archive", lambda *_: None)
        head.press("copy")
        assert office.copied == ["last copy of the season"]
        assert office.parts.end.get().copied_by == "hal"
        office.parts.draws.begin(
            roles.Person("hal", "head"), "A", 1, datetime.date(2025, 12, 30))
        found = season_end.still_open(office.parts, register, office.parts.end.today())
        assert found[0].is_stop and found[0].title == "A round or offer in progress"
        refused = head.press("copy", 409)
        assert ("A round or offer in progress: the offer of 1 place at Alpha: it must"
                in refused.text)
        assert len(office.copied) == 1
        office.parts.history.add("hal", history.SENDS, {
            "command": {"cmd": "accept", "child": 1, "school": "A"}})
        found = season_end.still_open(office.parts, register, office.parts.end.today())
        assert [it.title for it in found if it.is_stop] == [
            "A round or offer in progress", "Requests without a known answer"]


def test_the_office_has_a_rule_for_how_long_it_keeps(tmp_path: pathlib.Path) -> None:
    """So many months after the lists have ended; it proposes the day, and no more."""
    assert season_end.months_after(datetime.date(2025, 12, 31), 6) == datetime.date(2026, 6, 30)
    assert season_end.months_after(datetime.date(2025, 12, 31), 2) == datetime.date(2026, 2, 28)
    assert season_end.months_after(datetime.date(2025, 12, 31), 0) == datetime.date(2025, 12, 31)
    with office_over(tmp_path, town()) as office:
        head = Person(office, "hal", "head")
        for wrong in ("", "-1", "241", "1.5", "x", "1" * 9):
            found = head.press("retention", 422, months=wrong)
            assert "A whole number from 0 to 240." in found.text
        head.press("retention", months="6")
        assert office.parts.end.proposed(office.parts.desk.now()) == datetime.date(2026, 6, 30)
        refused = head.browser.post("/season-end/day", {
            "seen": "0", "day": "30/6/2026", "reason": "why"})
        assert refused.status_code == 409
        assert "Make the archive first, and download it to where it is kept." in refused.text


# the archive


def see_archive(office: Site, data: bytes) -> None:
    """The parts of the archive of the small register before its round."""
    made = zipfile.ZipFile(io.BytesIO(data))
    names = made.namelist()
    assert names[-2:] == [archive.DIGESTS, archive.START] and made.testzip() is None
    lines = made.read(archive.DIGESTS).decode().splitlines()
    assert [it[66:] for it in lines] == names[:-2]
    assert {it[:64] for it in lines} == {
        hashlib.sha256(made.read(it)).hexdigest() for it in names[:-2]}
    start = made.read(archive.START).decode()
    assert all(f"<code>{it[:64]}</code>" in start for it in lines)
    assert "5 children" in start and "secondary-2025" in start
    copy = office.parts.end.get().copy
    assert made.read("register.db") == office.parts.copies.path(copy).read_bytes()
    assert len(json.loads(made.read("register.json"))["children"]) == 5
    book = openpyxl.load_workbook(io.BytesIO(made.read("lists.xlsx")))
    assert [[it.value for it in row][:2] for row in book["children"].iter_rows()] == [
        ["child", "name"], *([it, f"Child {it}"] for it in range(1, 6))]
    found, _ = history.entries_of("the archive", made.read("history.jsonl"))
    assert found == office.parts.history.entries[:len(found)]
    assert made.read("history-check.txt").decode().startswith(f"{len(found)} entries: each line")
    people = list(csv.DictReader(io.StringIO(made.read("people.csv").decode("utf-8-sig"))))
    assert [(it["name"], it["role"]) for it in people] == [("hal", "head"), ("jane", "officer")]
    everything = b"".join(made.read(it) for it in names)
    secrets = [it[0] for it in office.parts.store.rows("SELECT hash FROM person")]
    secrets += [it[0] for it in office.parts.store.rows("SELECT digest FROM session")]
    secrets += [it[0] for it in office.parts.store.rows("SELECT form FROM session")]
    secrets += [office.parts.store.setting("cookie key")]
    assert len(secrets) > 4 and not any(it.encode() in everything for it in secrets)
    assert b"<records>" not in everything


def see_history(office: Site, who: str, what: str) -> dict[str, Any]:
    """The last entry of a kind is of this person; returns what it is about."""
    entry = next(it for it in reversed(office.parts.history.entries) if it.what == what)
    assert entry.who == who
    return entry.about


def test_a_season_is_ended(small: Machine, monkeypatch: pytest.MonkeyPatch) -> None:
    """By each step, of which none can be done before the one that it rests on; and deleted by two
    persons when its day has come.
    """
    with small.office() as office:
        head, jane = Person(office, "hal", "head"), Person(office, "jane", "officer")
        assert "Make the archive" not in head.page().replace("Make the archive first", "")
        data = taken(office, head)
        end = office.parts.end.get()
        assert hashlib.sha256(data).hexdigest() == end.digest and len(data) == end.size
        see_archive(office, data)
        assert see_history(office, "hal", "made the archive")["digest"] == end.digest
        assert see_history(office, "hal", "took the archive")["kept"] == WHERE
        assert "&lt;records&gt;" in head.page()
        see_days(office, head)
        assert deletion.kept(registers.Register(NAME)) == DAY
        see_nothing_is_deleted_before_its_day(small, office, head, jane)
        at(office, DAY, monkeypatch)
        see_two_are_needed(office, head, jane)
        page = jane.page()
        assert f"Delete {NAME} for ever, with 5 children" in page
        jane.press("confirm", name=NAME)
        assert not list((small.lib / NAME).iterdir())
        assert not list((small.backups / NAME).iterdir())
        about = see_forgotten(office, end.digest)
        # (the register with its log, which is empty, the copy, and nothing else)
        assert about["counts"]["copies made here"] == 1 and about["machine"]["files"] == "3"
        assert about["machine"]["remains"] == f"backup@away:/copies/{NAME}"
        kept = deletion.record_of(registers.Register(NAME))
        assert kept["day"] == DAY.isoformat() and kept["ended"]
        assert deletion.kept(registers.Register(NAME)) is None
        page = jane.page()
        assert "The season secondary-2025 was deleted" in page and "hal asked for it" in page
        assert "backup@away:/copies/secondary-2025" in page and "rule 4.2 &amp; the head" in page
        accept = {"cmd": "accept", "child": 1, "school": "OAK"}
        sent = office.parts.desk.send(roles.Person("jane", "officer"), accept)
        assert (sent.outcome, sent.said) == (
            "unsent", "The season is deleted: nothing can be recorded.")
        found = office.program("portal").command(accept)
        assert (found.status_code, found.json["name"]) == (409, "SeasonDeleted")
        assert "The season is deleted: nothing can be recorded." in jane.browser.get("/").text


def see_days(office: Site, head: Person) -> None:
    """The day is typed, with a reason; the lists are over then, and the notice is kept."""
    soonest = "IT support must have time to object: choose 24 January 2026"
    for day, reason, said in (
        ("x", WHY, "A day as 31 January 2027"), ("31/12/2025", WHY, "The lists end on 31 December"),
        ("23/1/2026", WHY, soonest), ("24/1/2026", "", "Say why, in 1 to 300 characters"),
        ("24/1/2026", "a\u202eb", "Say why"),
    ):
        found = head.press("day", 422, day=day, reason=reason)
        assert said in found.text and f'value="{day}"' in found.text
    assert not office.parts.end.get().day
    head.press("day", day="24 January 2026", reason=WHY)
    assert see_history(office, "hal", season_end.SET_DAY)["reason"] == WHY


def see_nothing_is_deleted_before_its_day(
    small: Machine, office: Site, head: Person, jane: Person
) -> None:
    """Neither by a person, nor by the machine, whatever the application thinks of the day."""
    refused = head.press("ask", 409, name=NAME)
    assert "The day of deletion is 24 January 2026: it has not come." in refused.text
    assert "two people can delete the season" in jane.page()
    for number, name in ((20260124, "NotYet"), (20260110, "OtherDay"), (20261399, "NoDay")):
        with pytest.raises(Refused) as error:
            office_delete.deleted(registers.Register(NAME), number)
        assert getattr(error.value, "name") == name
    with pytest.raises(Refused, match="has not come"):
        office.parts.copies.asked(season_end.DELETE, season_end.number_of(DAY))
    assert small.file.exists()


def see_two_are_needed(office: Site, head: Person, jane: Person) -> None:
    """Who asks cannot confirm; the name of the register is typed; it can be taken back; and what
    was shown is still so.
    """
    assert "Type the name of the register" in head.press("ask", 422, name="secondary").text
    assert jane.browser.post("/season-end/ask", {"name": NAME}).status_code == 403
    head.press("ask", name=NAME)
    assert "somebody else confirms it" in head.page()
    assert "somebody else confirms it" in head.press("confirm", 409, name=NAME).text
    head.press("take-back")
    now = str(office.parts.end.get().version)
    assert "Nobody has asked" in jane.press("confirm", 409, name=NAME, seen=now).text
    head.press("ask", name=NAME)
    changed = jane.press("confirm", 409, name=NAME, shown="{}")
    assert "What is deleted has changed since this page was shown." in changed.text
    assert "Type the name of the register" in jane.press("confirm", 422, name="x").text
    assert "A step was done since this page" in jane.press("confirm", 409, name=NAME, seen="1").text
    assert not office.parts.end.get().phase


def see_forgotten(office: Site, digest: str, children: int = 5) -> dict[str, Any]:
    """Nothing of the season is with the application, but the record, which is returned."""
    assert not list(archive.folder_of(office.parts).iterdir())
    for it in archive.tables():
        assert office.parts.store.rows(f"SELECT * FROM {it}") == [], it
    first = office.parts.history.entries[0]
    assert (first.number, first.who, first.what) == (1, "jane", "deleted the season")
    about = first.about
    assert (about["asked_by"], about["confirmed_by"], about["digest"]) == ("hal", "jane", digest)
    assert (about["day"], about["reason"], about["kept"]) == (DAY.isoformat(), WHY, WHERE)
    assert about["counts"]["children"] == about["counts"]["applications"] == children
    assert history.read(office.parts.history.path)[0] == first
    for path in office.parts.config.folder.rglob("*"):
        for name in (b"Child 3", b"Ada Abel"):
            assert not path.is_file() or name not in path.read_bytes(), path
    return about


# what the application has


@pytest.fixture(name="alone")
def alone_fixture(tmp_path: pathlib.Path) -> Iterator[Parts]:
    """The parts of an application whose register does not answer, with a note and a file."""
    found = Parts(Config(NAME, ORIGIN, "http://127.0.0.1:9", tmp_path / "office",
                         tmp_path / "copies", ROOT / "deploy" / "site"))
    try:
        found.notes.add(JANE, 3, "Ada Abel", "a note of Ada Abel")
        found.notes.add_file(JANE, 3, "Ada Abel", "a.txt", b"a file of Ada Abel")
        yield found
    finally:
        found.close()


def test_no_file_of_the_season_stays(alone: Parts) -> None:
    """Letters that were made, what was previewed, a gazetteer and the archive: each folder is
    empty, but that of the requests; and is there, as the application still looks into it.
    """
    folder, found = alone.config.folder, []
    for name in ("archive/season.zip", "letters/3/letters.pdf", "letters/3/letters.json",
                 "previews/ab.pdf", "gazetteer/given.csv", "requests/delete.done"):
        path = folder / name
        path.parent.mkdir(parents=True, exist_ok=True)
        path.write_text("Ada Abel")
        found.append(path)
    (folder / "previews" / "link").symlink_to(folder / "requests")
    assert alone.copies.requests == folder / "requests"
    alone.end.forget()
    assert [it for it in found if it.exists()] == [folder / "requests" / "delete.done"]
    assert {it.name: len(list(it.iterdir())) for it in folder.iterdir() if it.is_dir()} == {
        "archive": 0, "letters": 0, "previews": 0, "gazetteer": 0, "requests": 1}


def test_what_root_has_put_aside_is_left_to_root(
    tmp_path: pathlib.Path, monkeypatch: pytest.MonkeyPatch
) -> None:
    """As by the lines of docs/admin/RECOVER.md that restore people or replace a history: folders
    that the application cannot open. The deletion ends without them, and names them on the screen
    and in the history.
    """
    folder = tmp_path / "office"
    monkeypatch.setattr(Copies, "asked", lambda *given: {"number": given[2], "files": "2"})
    with site(tmp_path, "http://127.0.0.1:9") as office:
        jane = Person(office, "jane", "officer")
        office.parts.end.store(End(), phase=season_end.DELETING, day=DAY.isoformat(),
                               asked_by="hal", confirmed_by="jane")
        for name in ("aside/office.db", "changed/history.jsonl", "archive/a.zip", "previews/a.pdf"):
            (folder / name).parent.mkdir(mode=0o700, exist_ok=True)
            (folder / name).write_text("Ada Abel")
        with another_user(folder, "aside", "changed"):
            with pytest.raises(PermissionError):
                list((folder / "aside").iterdir())
            jane.press("go-on")
            page = jane.page()
        assert f"The season {NAME} was deleted" in page
        assert "the files of the application is still there: <code>aside, changed</code>" in page
        assert office.parts.history.entries[0].about["left"] == ["aside", "changed"]
        assert {it.relative_to(folder).as_posix() for it in folder.rglob("*")
                if it.is_file() and b"Ada Abel" in it.read_bytes()} == {
                    "aside/office.db", "changed/history.jsonl"}


def test_what_was_deleted_stays_in_no_log(alone: Parts) -> None:
    """Where another program reads the store meanwhile, its log keeps what was there: the deletion
    has not ended then, and goes on later.
    """
    with contextlib.closing(sqlite3.connect(alone.store.path, isolation_level=None)) as other:
        other.execute("BEGIN")
        assert other.execute("SELECT count(*) FROM note").fetchone() == (1,)
        alone.store.db.execute("PRAGMA busy_timeout=0")
        with pytest.raises(Refused, match="could not be deleted wholly: go on in some minutes"):
            alone.end.forget()
    alone.end.forget()
    for path in alone.config.folder.glob("office.db*"):
        assert b"Ada Abel" not in path.read_bytes(), path


@contextlib.contextmanager
def another_user(folder: pathlib.Path, *closed: str) -> Iterator[None]:
    """The application is another user than the owner of these folders in its own: where root runs
    the tests, one without rights, and else nobody can open them.
    """
    is_root = os.geteuid() == 0
    changed = list(folder.parents) if is_root else [folder / it for it in closed]
    modes = {it: stat.S_IMODE(it.stat().st_mode) for it in changed}
    for path in (folder, *folder.rglob("*")) if is_root else ():
        if path.relative_to(folder).parts[:1] not in [(it,) for it in closed]:
            os.chown(path, 65534, 65534)
    for path, mode in modes.items():
        if not is_root or not mode & 0o001:
            path.chmod(mode | 0o011 if is_root else 0)
    if is_root:
        os.seteuid(65534)
    try:
        yield
    finally:
        os.seteuid(os.getuid())
        for path, mode in modes.items():
            if stat.S_IMODE(path.stat().st_mode) != mode:
                path.chmod(mode)


def archived(parts: Parts) -> End:
    """The end of a season whose archive has what the application has now, and was taken."""
    folder = archive.folder_of(parts)
    folder.mkdir(exist_ok=True)
    with zipfile.ZipFile(folder / "a.zip", "w") as made:
        for name, _, data in archive.of_store(parts.store):
            made.writestr(name, data)
    return parts.end.store(parts.end.get(), archive="a.zip", taken="now", day=DAY.isoformat(),
                           digest=archive.digest_of(folder / "a.zip"))


def test_what_came_after_the_archive_is_not_lost(
    alone: Parts, monkeypatch: pytest.MonkeyPatch
) -> None:
    """A note, a file that is removed, an address: nothing is deleted until it is in the archive."""
    monkeypatch.setattr(SeasonEnd, "see_unchanged", lambda *_: None)
    alone.end.today = lambda: DAY
    with alone.store.writing() as db:
        add_draft(db, "{}")
        db.execute("INSERT INTO letter_set (key, who, at, asked, state, total) VALUES"
                   " ('a', 'jane', '', '{}', 'made', 1)")
    said = "the archive lacks what was recorded here since it was made ({}): make it again"
    notes = alone.notes

    def done(query: str) -> Callable[[], None]:
        def do() -> None:
            with alone.store.writing() as db:
                db.execute(query)
        return do

    gone = done("UPDATE letter_set SET state='gone'")

    changes: list[tuple[Callable[[], object], str]] = [
        (lambda: notes.add(JANE, 3, "Ada Abel", "another"), "notes of children"),
        (lambda: notes.strike(JANE, notes.of_child(3)[0], "wrong"), "notes of children"),
        (lambda: notes.remove(JANE, notes.files_of(3)[0], "wrong"), "files of children"),
        (done("UPDATE letter_set SET sent='2025-03-04'"), "other entries of the application"),
        (done("INSERT INTO letter_address VALUES (3, '[]', 'jane', '')"),
         "other entries of the application")]
    for change, what in changes:
        archived(alone)
        # (the application removes the file of letters by itself)
        gone()
        alone.end.see_due(alone.end.get())
        change()
        with pytest.raises(Refused, match=re.escape(said.format(what))):
            alone.end.ask(HAL, alone.end.get().version, NAME)
    # (what is there no more is in the archive)
    archived(alone)
    with alone.store.writing() as db:
        db.execute("DELETE FROM sending WHERE kind='school'")
    alone.end.ask(HAL, alone.end.get().version, NAME)
    assert alone.end.get().asked_by == "hal"
    (archive.folder_of(alone) / "a.zip").unlink()
    with pytest.raises(Refused, match="the archive is not there, or not as it was made"):
        alone.end.confirm(JANE, alone.end.get().version, NAME, "")
    with pytest.raises(Refused, match="the archive is not there, or not as it was made"):
        alone.end.take(HAL, alone.end.get().version, WHERE)


def test_a_season_does_not_end_within_a_restore(alone: Parts) -> None:
    """The restored register is another one than that of the last copy."""
    with alone.store.writing() as db:
        db.execute("INSERT INTO copy (number, purpose, asked) VALUES (1, 'a try', '')")
    assert season_end.in_progress(alone) == []
    alone.restores.added(HAL, 1, None, ())
    stops = season_end.in_progress(alone)
    assert [(it.title, it.is_stop) for it in stops] == [("A restore in progress", True)]
    steps: list[Callable[[], None]] = [
        lambda: alone.end.copy(HAL, 0, ""), lambda: alone.end.see_unchanged(End(copy=1))]
    for step in steps:
        with pytest.raises(Refused, match="a restore in progress: the restore of copy 1"):
            step()


def test_nothing_begins_while_a_season_is_deleted(alone: Parts) -> None:
    """A draw or a restore sends by itself what all others may not."""
    alone.end.store(alone.end.get(), phase=season_end.DELETING)
    said = "The season is deleted: nothing can be recorded"
    with pytest.raises(Refused, match=said):
        alone.restores.begin(HAL, 1)
    with pytest.raises(Refused, match=said):
        alone.draws.added(HAL, "round 1", Terms(1, None, 1, DAY), "begun", None, "")
    assert not alone.draws.listed()


# what is killed


def killed(*_: object, **__: object) -> None:
    """Ends the application."""
    raise Killed


def too_soon(*_: object) -> dict[str, Any]:
    """What the machine says of a day."""
    raise Refused("the day is too soon")


@contextlib.contextmanager
def ended_season(
    folder: pathlib.Path, address: str, day: datetime.date, patch: pytest.MonkeyPatch
) -> Iterator[Site]:
    """The application, begun again over the town on a day after its season; its archive has two
    small parts, and what the machine does is in tests of its own.
    """
    def content(*_: object) -> Iterator[tuple[str, str, bytes]]:
        yield "register.db", "the register", b"Ada Abel"
        yield "history.jsonl", "the history", b"{}\n"

    patch.setattr(archive, "content", content)
    patch.setattr(SeasonEnd, "see_unchanged", lambda *_: None)
    patch.setattr(archive, "lacks", lambda *_: [])
    patch.setattr(Copies, "asked", lambda *given: {"number": given[2], "files": "2"})
    with site(folder, address) as office:
        office.parts.end.today = lambda: day
        for name in ("hal", "jane"):
            # (who was added before the application was begun again)
            office.passwords[name] = f"{name} of the office"
        yield office


@pytest.fixture(name="served_town")
def served_town_fixture(tmp_path: pathlib.Path) -> Iterator[str]:
    """The address of the town, with two people of its application."""
    make(tmp_path / "reg.db", town())
    with served(tmp_path / "reg.db") as (address, _):
        with site(tmp_path, address) as office:
            office.add("hal", "head")
            office.add("jane", "officer")
        yield address


def test_the_last_copy_goes_on_without_its_browser(
    tmp_path: pathlib.Path, served_town: str, monkeypatch: pytest.MonkeyPatch
) -> None:
    """Who asks for it has an answer while it is made. The page says what runs, has no button and is
    read again by itself; what is refused then is said to who looks later.
    """
    with ended_season(tmp_path, served_town, TODAY, monkeypatch) as office:
        head, may_end = Person(office, "hal", "head"), threading.Event()
        real, end = office.parts.copies.make, office.parts.end

        def full(*_: object) -> int:
            assert may_end.wait(600)
            raise Refused("the disk is full")

        def slow(*given: Any) -> int:
            assert may_end.wait(600)
            return real(*given)

        monkeypatch.setattr(end.steps, "wait", 0.05)
        for work in (full, slow):
            may_end.clear()
            monkeypatch.setattr(office.parts.copies, "make", work)
            head.press("copy")
            page = head.page()
            assert 'data-running="/season-end/"' in page and "begun by hal: the last copy" in page
            assert "Make the last copy" not in page and "Store the rule" not in page
            may_end.set()
            job = end.steps.last
            assert job and job.is_over.wait(600)
            page = head.page()
            assert "data-running" not in page and bool(end.get().archive) == (work is slow)
            assert ("The last step was not done: The disk is full." in page) == (work is full)


def test_what_is_a_file_is_in_the_archive_as_it_is(tmp_path: pathlib.Path) -> None:
    """Beside the line of its row, which names it; and nothing of the people."""
    store = Store(str(tmp_path / "office.db"))
    with store.writing() as db:
        db.execute("INSERT INTO child_file (child, name, called, size, digest, data, who, at)"
                   " VALUES (1, 'Ada Abel', 'a.pdf', 5, '', ?, 'jane', '')", (b"%PDF-",))
    store.set("one", "secret")
    found = {name: data for name, _, data in archive.of_store(store)}
    assert sorted(found) == ["office/child_file-1-data", "office/child_file.jsonl"]
    assert found["office/child_file-1-data"] == b"%PDF-"
    assert json.loads(found["office/child_file.jsonl"])["data"] == "office/child_file-1-data"
    store.close()


def test_lots_that_were_never_sealed_are_not_in_the_archive(tmp_path: pathlib.Path) -> None:
    """They decided nothing, and are the supervisor's; so none is missed there either."""
    store = Store(str(tmp_path / "office.db"))
    with store.writing() as db:
        for number, digest in ((1, None), (2, "d1")):
            db.execute("INSERT INTO draw (id, first, fills, day, state, version, digest)"
                       " VALUES (?, 1, 0, '', 'given up', 1, ?)", (number, digest))
            db.execute("INSERT INTO lot VALUES (?, 'OAK', 3, 0, ?, NULL, 0)",
                       (number, str(7700 + number)))
    found = {name: data for name, _, data in archive.of_store(store)}
    assert [json.loads(it)["text"] for it in found["office/lot.jsonl"].splitlines()] == ["7702"]
    with zipfile.ZipFile(tmp_path / "archive.zip", "w") as made:
        for name, data in found.items():
            made.writestr(name, data)
    assert archive.lacks(store, tmp_path / "archive.zip") == []
    store.close()


def test_an_archive_that_was_killed_is_made_again(
    tmp_path: pathlib.Path, served_town: str, monkeypatch: pytest.MonkeyPatch
) -> None:
    """Nothing of a half one is taken for one: before it is whole, before it has its name, and
    before it is stored. One remains in the end.
    """
    for module, name in ((archive, "see_whole"), (archive, "sync"), (SeasonEnd, "store")):
        with ended_season(tmp_path, served_town, TODAY, monkeypatch) as office:
            head = Person(office, "hal", "head")
            if not office.parts.end.get().copy:
                with monkeypatch.context() as patch:
                    patch.setattr(SeasonEnd, "make_archive", lambda *_: None)
                    head.press("copy")
            with monkeypatch.context() as patch:
                patch.setattr(module, name, killed)
                # (where a process is killed, nothing is cleared away)
                patch.setattr(archive, "clear", lambda _: None)
                with pytest.raises(Killed):
                    head.press("archive")
            assert not office.parts.end.get().archive
            assert list(archive.folder_of(office.parts).iterdir())
    with ended_season(tmp_path, served_town, TODAY, monkeypatch) as office:
        head = Person(office, "hal", "head")
        head.press("archive")
        found = office.parts.end.get()
        assert [it.name for it in archive.folder_of(office.parts).iterdir()] == [found.archive]
        path = archive.folder_of(office.parts) / found.archive
        path.write_bytes(path.read_bytes()[:-1])
        refused = head.press("archive/file", 409, kept=WHERE)
        assert "not as it was made: make it again" in refused.text


def test_a_deletion_that_was_killed_goes_on(
    tmp_path: pathlib.Path, served_town: str, monkeypatch: pytest.MonkeyPatch
) -> None:
    """Wherever that was: before the machine was asked, before the application has forgotten, before
    the history is new, and before the end is stored. Each part is done again.
    """
    with ended_season(tmp_path, served_town, TODAY, monkeypatch) as office:
        head = Person(office, "hal", "head")
        head.press("copy")
        head.press("archive/file", 200, kept=WHERE)
        head.press("day", day="24/1/2026", reason=WHY)
        with office.parts.store.writing() as db:
            add_draft(db, '{"name": "of Child 3"}')
        office.parts.end.today = lambda: DAY
        head.press("ask", name=NAME)
        digest = office.parts.end.get().digest
    real = SeasonEnd.store

    def not_at_the_end(it: SeasonEnd, found: End, **given: Any) -> End:
        if given.get("phase") == season_end.DELETED:
            raise Killed
        return real(it, found, **given)

    places: list[tuple[Any, str, Any]] = [
        (Copies, "asked", killed), (SeasonEnd, "forget", killed),
        (history.History, "begin_anew", killed), (SeasonEnd, "store", not_at_the_end)]
    for number, (kind, name, instead) in enumerate(places):
        with ended_season(tmp_path, served_town, DAY, monkeypatch) as office:
            jane = Person(office, "jane", "officer")
            with monkeypatch.context() as patch:
                patch.setattr(kind, name, instead)
                with pytest.raises(Killed):
                    jane.press("go-on" if number else "confirm", name=NAME)
            assert office.parts.end.get().phase == season_end.DELETING
            assert "it has begun. It is not ended yet" in jane.page()
    with ended_season(tmp_path, served_town, DAY, monkeypatch) as office:
        jane = Person(office, "jane", "officer")
        jane.press("go-on")
        see_forgotten(office, digest, 4)
        # (the sign-in of jane after the history was begun anew stays in it)
        assert [it.what for it in office.parts.history.entries] == ["deleted the season",
                                                                    "signed in"]
        assert "was deleted" in jane.page()


def test_a_deletion_that_takes_long_is_seen_to_run(
    tmp_path: pathlib.Path, served_town: str, monkeypatch: pytest.MonkeyPatch
) -> None:
    """By all who look; and no other step is begun meanwhile."""
    begun, held, forget = threading.Event(), threading.Event(), SeasonEnd.forget

    def slow(it: SeasonEnd) -> list[str]:
        begun.set()
        held.wait(60)
        return forget(it)

    monkeypatch.setattr(SeasonEnd, "forget", slow)
    with ended_season(tmp_path, served_town, TODAY, monkeypatch) as office:
        head, jane = Person(office, "hal", "head"), Person(office, "jane", "officer")
        head.press("copy")
        head.press("archive/file", 200, kept=WHERE)
        head.press("day", day="24/1/2026", reason=WHY)
        office.parts.end.today = lambda: DAY
        head.press("ask", name=NAME)
        office.parts.end.steps.wait = 0.05
        jane.press("confirm", name=NAME)
        assert begun.wait(60)
        page = head.page()
        assert "begun by jane: the season is deleted" in page and "Go on with" not in page
        assert 'id="end" class="parts" data-running="/season-end/"' in page
        assert "A step is under way, which jane began" in head.press("go-on", 409).text
        held.set()
        job = office.parts.end.steps.last
        assert job and job.is_over.wait(60)
        assert "was deleted" in jane.page() and "data-running" not in jane.page()


def test_letters_previews_and_trials_end_with_the_season(
    tmp_path: pathlib.Path, served_town: str, monkeypatch: pytest.MonkeyPatch
) -> None:
    """Nobody reads them afterwards, and no file of theirs is left."""
    with ended_season(tmp_path, served_town, TODAY, monkeypatch) as office:
        head, jane = Person(office, "hal", "head"), Person(office, "jane", "officer")
        head.press("copy")
        head.press("archive/file", 200, kept=WHERE)
        head.press("day", day="24/1/2026", reason=WHY)
        office.parts.end.today = lambda: DAY
        head.press("ask", name=NAME)
        own = office.parts.config.folder
        preview = f"{hashlib.sha256(b'hal').hexdigest()}.pdf"
        for folder, name in ((letters_sets.FOLDER, "7/letters.json"),
                             (letters_sets.PREVIEWS, preview)):
            (own / folder / name).parent.mkdir(exist_ok=True)
            (own / folder / name).write_text("of Ada Abel")
        office.parts.trials.runs[1] = Run(1, [], Program(PROGRAM, 1))
        assert head.browser.get("/letters/templates/preview.pdf").text == "of Ada Abel"
        jane.press("confirm", name=NAME)
        see_forgotten(office, office.parts.history.entries[0].about["digest"], 4)
        assert not list((own / letters_sets.FOLDER).iterdir())
        assert head.browser.get("/letters/templates/preview.pdf").status_code == 404
        assert not office.parts.trials.listed()


def test_nobody_is_one_of_two_whom_the_other_has_made(
    tmp_path: pathlib.Path, served_town: str, monkeypatch: pytest.MonkeyPatch
) -> None:
    """Since the day of deletion was set: neither by adding them, nor by another password."""
    with ended_season(tmp_path, served_town, TODAY, monkeypatch) as office:
        head = Person(office, "hal", "head")
        head.press("copy")
        head.press("archive/file", 200, kept=WHERE)
        head.press("day", day="24/1/2026", reason=WHY)
        office.parts.end.today = lambda: DAY
        head.press("ask", name=NAME)
        made = head.browser.change(what="reset", name="jane")
        assert made.status_code == 200

        def confirmed(name: str = "jane", role: str = "officer") -> None:
            end = office.parts.end
            shown = season_end.read_counts(end.counts())
            end.confirm(roles.Person(name, role), end.get().version, NAME, shown)

        with pytest.raises(Refused, match="hal has asked to delete the season: somebody else"):
            confirmed("hal", "head")
        with pytest.raises(Refused, match="jane was given another password by hal"):
            confirmed()
        # another day, which the machine refuses, is none since which jane is the same: as one that
        # is asked for right before midnight
        with monkeypatch.context() as patch:
            patch.setattr(Copies, "asked", too_soon)
            head.press("day", 409, day="1/2/2027", reason=WHY)
        with pytest.raises(Refused, match="jane was given another password by hal"):
            confirmed()
        # who asks is one of the two as well
        head.press("take-back")
        office.parts.history.add("adm", "drew a new password", {"person": "hal"})
        said = head.press("ask", 409, name=NAME).text
        assert "hal was given another password by adm" in said
        end = office.parts.end.get()
        assert not end.phase and not end.asked_by


# the machine


def made_files(folder: pathlib.Path) -> registers.Register:
    """A register of three files, of 30 bytes, with a link to a file that is none of its own."""
    register = registers.Register(NAME)
    for path in (register.file, register.copies / "nightly-000001-2025-03-01T023000.db",
                 register.office_copies / "office-000001-2025-03-01T101112.db"):
        path.parent.mkdir(parents=True, exist_ok=True)
        path.write_bytes(b"0123456789")
    (folder / "other").mkdir(exist_ok=True)
    (folder / "other" / "file").write_text("kept")
    (register.copies / "link").symlink_to(folder / "other")
    return register


@pytest.fixture(name="place")
def place_fixture(tmp_path: pathlib.Path, monkeypatch: pytest.MonkeyPatch) -> pathlib.Path:
    """The folders of a machine, on the day of deletion, which it keeps."""
    monkeypatch.setattr(registers, "REGISTERS", tmp_path / "lib")
    monkeypatch.setattr(registers, "COPIES", tmp_path / "backups")
    monkeypatch.setattr(registers, "SETTINGS", tmp_path / "etc")
    monkeypatch.setattr(registers, "OFFICES", tmp_path / "state")
    monkeypatch.setattr(second_copy, "SETTINGS", tmp_path / "etc")
    monkeypatch.setattr(office_delete, "stop", lambda _: None)
    monkeypatch.setattr("machine.files.numbers", lambda *_: (-1, -1))
    monkeypatch.setattr(deletion, "today", lambda: DAY)
    (tmp_path / "etc" / NAME).mkdir(parents=True)
    (tmp_path / "etc" / NAME / "site-name").write_text("admissions.example\n")
    (tmp_path / "etc" / NAME / "deletion-day").write_text(f"{DAY}\n")
    (tmp_path / "state" / NAME / "requests").mkdir(parents=True)
    return tmp_path


def asked(place: pathlib.Path, name: str, text: str) -> dict[str, Any]:
    """The answer of the machine to a request; where one was begun, to that."""
    requests = place / "state" / NAME / "requests"
    if not (requests / f"{name}.begun").exists():
        (requests / name).write_text(text)
    command = office_delete if name == "delete" else office_deletion_day
    command.main(argparse.Namespace(name=NAME))
    assert not (requests / f"{name}.begun").exists()
    found: dict[str, Any] = json.loads((requests / f"{name}.done").read_text())
    return found


def test_the_machine_deletes_all_files_of_a_register(place: pathlib.Path) -> None:
    """And nothing else; asked again it says the same, and another register of that name is safe."""
    register = made_files(place)
    answer = asked(place, "delete", "20260124\n")
    # (three files and a link, whose size is that of the path to which it leads)
    size = 30 + len(str(place / "other"))
    assert (answer["files"], answer["bytes"], answer["remains"]) == ("4", str(size), "")
    assert not list(register.folder.iterdir()) and not list(register.copies.iterdir())
    assert (place / "other" / "file").read_text() == "kept"
    assert (place / "etc" / NAME / "site-name").exists()
    assert asked(place, "delete", "20260124\n") == answer
    assert asked(place, "delete", "20260125\n")["error"] == "OtherDay"
    made_files(place)
    assert asked(place, "delete", "20260124\n")["error"] == "OtherDay"
    assert register.file.exists()


@pytest.mark.parametrize("text, error", [
    ("20260123", "OtherDay"), ("20260125", "OtherDay"), ("20269999", "NoDay"), ("7", "NoDay"),
    ("20260124; rm", "NoNumber"), ("../x", "NoNumber"), ("", "NoNumber"), ("-1", "NoNumber"),
])
def test_the_machine_takes_the_day_that_it_keeps_alone(
    place: pathlib.Path, text: str, error: str
) -> None:
    """As a number."""
    register = made_files(place)
    assert asked(place, "delete", text)["error"] == error
    assert register.file.exists() and len(list(register.copies.rglob("*.db"))) == 2


def test_the_machine_waits_for_the_day(
    place: pathlib.Path, monkeypatch: pytest.MonkeyPatch
) -> None:
    """By its own clock, and trusts no file that another could have written, nor none."""
    register, kept = made_files(place), place / "etc" / NAME / "deletion-day"
    monkeypatch.setattr(deletion, "today", lambda: DAY - datetime.timedelta(days=1))
    assert asked(place, "delete", "20260124")["error"] == "NotYet"
    monkeypatch.setattr(deletion, "today", lambda: DAY)
    for mode in (0o620, 0o602):
        kept.chmod(mode)
        assert asked(place, "delete", "20260124")["error"] == "NotKept"
    kept.chmod(0o600)
    with monkeypatch.context() as patch:
        another = kept.stat().st_uid + 1
        patch.setattr(os, "geteuid", lambda: another)
        assert asked(place, "delete", "20260124")["error"] == "NotKept"
    kept.unlink()
    assert asked(place, "delete", "20260124")["error"] == "OtherDay"
    os.mkfifo(kept, 0o600)
    assert asked(place, "delete", "20260124")["error"] == "NotKept"
    kept.unlink()
    (place / "day").write_text(f"{DAY}\n")
    kept.symlink_to(place / "day")
    assert asked(place, "delete", "20260124")["error"] == "NotKept"
    assert register.file.exists()


@pytest.mark.parametrize("after", range(5))
def test_a_machine_that_was_killed_ends_what_it_has_begun(
    place: pathlib.Path, monkeypatch: pytest.MonkeyPatch, after: int
) -> None:
    """After so many steps of the deletion, the last before the day is forgotten. The counts are
    those from before the first.
    """
    register = made_files(place)
    done: list[str] = []

    def step(name: str, real: Any) -> Any:
        def run(*given: Any, **more: Any) -> Any:
            if len(done) == after:
                raise Killed
            done.append(name)
            return real(*given, **more)
        return run

    with monkeypatch.context() as patch:
        patch.setattr(deletion, "record", step("record", deletion.record))
        patch.setattr(office_delete, "empty", step("empty", office_delete.empty))
        patch.setattr(deletion, "forget", step("forget", deletion.forget))
        with pytest.raises(Killed):
            asked(place, "delete", "20260124")
    assert done == ["record", "empty", "empty", "record"][:after]
    assert register.file.exists() == (after < 2)
    answer = asked(place, "delete", "")
    assert answer["files"] == "4" and "ended" in answer and answer["number"] == 20260124
    assert deletion.kept(register) is None
    assert not list(register.folder.iterdir()) and not list(register.copies.iterdir())


@pytest.mark.parametrize("name, text", [
    ("deletion-day", "31 January 2026"), ("deletion-day", "24.1.2026\xe9"),
    ("deleted", "{"), ("deleted", "[]"),
])
def test_a_file_of_the_machine_that_was_edited_wrong_is_named(
    place: pathlib.Path, name: str, text: str
) -> None:
    """The request is answered, as its unit would begin again and again otherwise; nothing is
    deleted.
    """
    register = made_files(place)
    (place / "etc" / NAME / name).write_bytes(text.encode("latin-1"))
    answer = asked(place, "delete", "20260124")
    assert answer["error"] == "NotKept" and f"{NAME}/{name} " in answer["why"]
    assert register.file.exists()


def test_the_record_is_durable_before_the_first_file_is_gone(
    place: pathlib.Path, monkeypatch: pytest.MonkeyPatch
) -> None:
    """Its name too, which a loss of power would otherwise take back; and so is that of no day."""
    register, done = made_files(place), list[str]()
    settings, real, empty = os.stat(register.settings).st_ino, os.fsync, office_delete.empty

    def fsync(fd: int) -> None:
        if os.fstat(fd).st_ino == settings:
            done.append(f"synced with {len(list(register.settings.glob('deletion-day')))} day")
        real(fd)

    def emptied(folder: pathlib.Path) -> None:
        done.append(folder.parent.name)
        empty(folder)

    monkeypatch.setattr(os, "fsync", fsync)
    monkeypatch.setattr(office_delete, "empty", emptied)
    assert "ended" in asked(place, "delete", "20260124")
    assert done == ["synced with 1 day", "lib", "backups", "synced with 1 day", "synced with 0 day"]


def test_no_unit_that_a_deletion_stops_starts_another(monkeypatch: pytest.MonkeyPatch) -> None:
    """A backup that is stopped in the middle has failed, and its unit starts the desk then; one
    that has just ended starts the second copy, too.
    """
    units, running = ROOT / "deploy" / "systemd", set[str]()
    desk, backup, second = (
        f"admissions{it}@{NAME}.service" for it in ("", "-backup", "-second-copy"))
    for it in ("admissions@.service", *(f"admissions-{it}@.{kind}" for it, kind in (
            ("backup", "timer"), ("backup", "service"), ("second-copy", "timer"),
            ("second-copy", "service"), ("drill", "timer"), ("drill", "service")))):
        assert (units / it).exists()
        running.add(it.replace("@", f"@{NAME}"))
    assert {"OnFailure=admissions@%i.service",
            "OnSuccess=admissions@%i.service admissions-second-copy@%i.service"} <= set(
        (units / "admissions-backup@.service").read_text("utf-8").splitlines())

    def call(*given: object, may_fail: bool = False) -> None:
        assert given[0] == "systemctl"
        if given[1] == "reset-failed":
            assert may_fail and not running.intersection(given)
            return
        assert given[1] in ("disable", "stop")
        started = {desk, second} if backup in running.intersection(given) else set()
        running.difference_update(map(str, given))
        running.update(started)

    monkeypatch.setattr(office_delete, "tool", lambda name, _: name)
    monkeypatch.setattr(office_delete, "call", call)
    office_delete.stop(registers.Register(NAME))
    assert not running


def test_the_machine_keeps_a_day_that_is_ahead(
    place: pathlib.Path, register: pathlib.Path, monkeypatch: pytest.MonkeyPatch
) -> None:
    """By the notice, and after the last day of the lists, as the program says it of the register's
    own file.
    """
    found = made_files(place)
    found.file.write_bytes(register.read_bytes())
    monkeypatch.setattr(deletion, "today", lambda: TODAY)
    monkeypatch.setattr(registers, "program", lambda _: PROGRAM)
    assert asked(place, "deletion-day", "20260123")["error"] == "TooSoon"
    assert asked(place, "deletion-day", "20260230")["error"] == "NoDay"
    assert deletion.kept(found) == DAY
    deletion.place(found).unlink()
    assert asked(place, "deletion-day", "20260124") == {"day": "2026-01-24", "number": 20260124}
    assert deletion.kept(found) == DAY
    assert asked(place, "deletion-day", "20260301") == {"day": "2026-03-01", "number": 20260301}
    assert deletion.kept(found) == datetime.date(2026, 3, 1)
    monkeypatch.setattr(deletion, "today", lambda: datetime.date(2025, 6, 1))
    assert asked(place, "deletion-day", "20251231")["error"] == "ListsOpen"
    assert asked(place, "deletion-day", "20260101") == {"day": "2026-01-01", "number": 20260101}
