"""Sets of letters without a register: what ends, fails, comes twice or meets a sweep; and that what
is read of the store does not grow with all that was sent before.
"""
import dataclasses
import datetime
import io
import json
import logging
import os
import pathlib
import subprocess
import threading
import time
import tracemalloc
from collections.abc import Callable, Iterator
from typing import Any
from unittest import mock

import openpyxl
import pytest
from register_files import Refused

from office import audit
from office.core.model import Draw
from office.files import processes
from office.web.letters import apart as letters_apart
from office.web.letters import audits as letters_audits
from office.web.letters import sets as letters_sets
from office.web.letters import whom as letters_whom
from office.web.letters.apart import Running
from office.web.letters.audits import Audits
from office.web.letters.sets import Asked, Sets
from office.web.letters.whom import Lists, Whom
from office.web.machinery.jobs import Jobs
from office.web.people import roles
from office.web.register.history import History, now
from office.web.register.store import Store
from office.web.rounds import rehearsal
from office.web.rounds.store import DrawStore
from office.web.rounds.terms import AUDITED

JANE = roles.Person("jane", "officer")
ASKED = Asked("Offers", [1, 2], 1, 1, "2025-03-03", "pdf")
# long ago, of a set that nobody looks for
BEFORE = "2025-03-03T09:00:00.000+00:00"


class Office:
    """The sets of an application whose register does not answer."""

    def __init__(self, folder: pathlib.Path) -> None:
        self.store = Store(str(folder / "office.db"))
        self.history = History(str(folder / "history.jsonl"))
        self.desk = mock.MagicMock()
        self.desk.settle.side_effect = Refused("the register does not answer now")
        self.sets = Sets(self.store, self.history, self.desk, mock.MagicMock(), mock.MagicMock(),
                         folder / "letters", Jobs())
        self.templates = self.sets.templates
        assert self.templates.standard() == 1

    def add(self, state: str, **columns: object) -> int:
        """A set in a state."""
        asked = json.dumps(dataclasses.asdict(ASKED))
        names = {"key": os.urandom(8).hex(), "who": "jane", "at": now(),
                 "asked": asked, "state": state, "total": 2, **columns}
        with self.store.writing() as db:
            made = db.execute(
                f"INSERT INTO letter_set ({', '.join(names)}) VALUES"
                f" ({', '.join('?' * len(names))})", tuple(names.values()))
        return made.lastrowid or 0

    def make(self, number: int) -> letters_sets.Set:
        """A set after its turn, in this thread."""
        self.sets.running[number] = Running()
        self.sets.make(number)
        return self.sets.get(number)


@pytest.fixture(name="office")
def office_fixture(tmp_path: pathlib.Path) -> Iterator[Office]:
    """The sets of an application."""
    found = Office(tmp_path)
    yield found
    found.store.close()
    found.history.close()


def waited(is_there: Callable[[], bool]) -> None:
    """Returns when something is so."""
    end = time.monotonic() + 60
    while not is_there():
        assert time.monotonic() < end
        time.sleep(0.01)


def test_a_set_that_was_ended_before_its_turn_stays_ended(office: Office) -> None:
    """The turn was given to it already, and nothing is made of it."""
    number = office.add(letters_sets.ENDED)
    assert office.make(number).state == letters_sets.ENDED
    office.desk.settle.assert_not_called()
    assert not office.sets.room(number).exists()


def test_letters_go_on_after_the_store_has_failed(office: Office) -> None:
    """The job that made them ended with the error: another one goes on."""
    stored = office.sets.change
    with mock.patch.object(office.sets, "change", side_effect=Refused("the disk is full")):
        one = office.sets.ask(JANE, "one", ASKED)
        waited(lambda: not office.sets.jobs.is_running("letters"))
        assert office.sets.get(one).state == letters_sets.WAITS
    assert office.sets.change == stored
    other = office.sets.ask(JANE, "two", dataclasses.replace(ASKED, words="Others"))
    waited(lambda: office.sets.get(other).state == letters_sets.FAILED)
    assert office.sets.get(one).state == letters_sets.FAILED
    assert office.sets.get(one).said == "the register does not answer now"


def test_what_failed_is_said_without_a_path_or_a_name_of_the_program(
    office: Office, caplog: pytest.LogCaptureFixture,
) -> None:
    """The log has the rest."""
    for error, said in (
        (PermissionError(13, "Permission denied", "/var/lib/x/letters/1"), "permission denied"),
        (OSError(28, "No space left on device", "/var/lib/x"), "its disk is full"),
        (KeyError("child 17"), "something went wrong in the application"),
    ):
        office.desk.settle.side_effect = error
        with caplog.at_level(logging.ERROR):
            found = office.make(office.add(letters_sets.WAITS))
        assert found.state == letters_sets.FAILED and found.said.startswith(said), found.said
        assert "/" not in found.said and "Error" not in found.said and "17" not in found.said
        assert found.said.endswith("ell IT support")
        assert type(error).__name__ in caplog.text


def test_a_form_that_was_changed_makes_another_set(office: Office) -> None:
    """As one to which a browser went back: its key was used for other children."""
    with mock.patch.object(office.sets, "wake"):
        one = office.sets.ask(JANE, "key", ASKED)
        assert office.sets.ask(JANE, "key", ASKED) == one
        other = office.sets.ask(JANE, "key", dataclasses.replace(ASKED, children=[3]))
        assert other != one and office.sets.get(other).asked.children == [3]
        keyless = [office.sets.ask(JANE, "", dataclasses.replace(ASKED, children=[it]))
                   for it in (4, 5)]
    assert [office.sets.get(it).asked.children for it in keyless] == [[4], [5]]


def test_a_sweep_leaves_the_folder_of_a_set_that_begins_meanwhile(office: Office) -> None:
    """Which sets there are, and which folders, is of one moment."""
    looked, rows = threading.Event(), office.store.rows
    begun: list[int] = []

    def slow(query: str, *values: object) -> Any:
        found = rows(query, *values)
        if query.startswith("SELECT id FROM letter_set WHERE state IN (?, ?, ?)"):
            looked.set()
            # (long enough for a set to begin, if it may)
            time.sleep(0.3)
        return found

    def begin() -> None:
        assert looked.wait(60)
        begun.append(office.sets.ask(JANE, "key", ASKED))
        office.sets.room(begun[0]).mkdir()

    silent = [mock.patch.object(office.sets, it) for it in ("wake", "see_room")]
    with mock.patch.object(office.store, "rows", slow), silent[0], silent[1]:
        other = threading.Thread(target=begin)
        other.start()
        office.sets.sweep()
        other.join()
    assert begun and office.sets.room(begun[0]).is_dir()


DAY, UTC = datetime.timedelta(days=1), datetime.timezone.utc


@pytest.mark.parametrize("wrong", [-9000 * DAY, -2 * DAY, 3 * DAY, 4000 * DAY], ids=str)
def test_a_clock_that_is_put_right_moves_no_end_of_a_set(
    office: Office, wrong: datetime.timedelta
) -> None:
    """As after a start without a battery: what was made and taken under a wrong clock is kept as
    long as all else, and no longer.
    """
    steady = [1000.0]
    office.sets.steady = lambda: steady[0]
    moment = datetime.datetime.now(UTC)

    def made(taken: bool) -> int:
        number = office.add(letters_sets.RUNS, at=(moment + wrong).isoformat())
        office.sets.room(number).mkdir()
        (office.sets.room(number) / "letters.pdf").write_bytes(b"%PDF")
        office.sets.keep(office.sets.get(number), [(0, number, "about", "words", "text")])
        with mock.patch.object(letters_sets, "now", lambda: (moment + wrong).isoformat()):
            with mock.patch.object(office.sets, "snapshot"), mock.patch.object(
                    office.sets, "write"):
                office.make(number)
            if taken:
                office.sets.take(JANE, number)
        return number

    kept, taken = made(False), made(True)

    def there(after: float) -> set[int]:
        """Those whose file is there so many hours later, by the clock that was put right."""
        steady[0] = 1000.0 + 3600 * after
        office.sets.sweep_at(moment + datetime.timedelta(hours=after))
        found = office.store.rows("SELECT DISTINCT set_id FROM letter ORDER BY set_id")
        assert [it["set_id"] for it in found] == [kept, taken]
        return {it for it in (kept, taken) if office.sets.room(it).exists()}

    assert there(0.9) == {kept, taken}
    # (another process knows what was put right)
    office.sets.stamped.clear()
    assert there(1.1) == {kept} and there(23.9) == {kept} and there(24.1) == set()


@pytest.mark.parametrize("wrong", [-9000 * DAY, 3 * DAY, 4000 * DAY], ids=str)
def test_a_clock_that_was_wrong_under_an_earlier_application_moves_no_end_of_a_set(
    office: Office, wrong: datetime.timedelta
) -> None:
    """It has ended before the clock was put right: what it made then is kept as if it were made
    when the next one begins; and what was made by the right clock is kept as long as before.
    """
    steady, moment = [1000.0], datetime.datetime.now(UTC)
    office.sets.steady = lambda: steady[0]
    right, early, late = (office.add(
        letters_sets.MADE, at=it.isoformat(timespec="milliseconds"),
        ended=it.isoformat(timespec="milliseconds"))
        for it in (moment - DAY / 2, moment + wrong, moment + wrong + DAY / 24))
    for number in (right, early, late):
        office.sets.room(number).mkdir()
        office.sets.keep(office.sets.get(number), [(0, number, "about", "words", "text")])
    office.sets.doubt(moment)

    def there(after: float) -> set[int]:
        """Those whose file is there so many hours later."""
        steady[0] = 1000.0 + 3600 * after
        office.sets.sweep_at(moment + datetime.timedelta(hours=after))
        assert len(office.store.rows("SELECT id FROM letter")) == 3
        return {it for it in (right, early, late) if office.sets.room(it).exists()}

    assert there(0.1) == {right, early, late}
    # (a third one finds nothing to doubt)
    office.sets.stamped.clear()
    office.sets.doubt(moment + DAY / 24)
    assert not office.sets.stamped
    assert there(12.5) == {early, late} and there(23.9) == {early, late} and there(24.1) == set()


def test_who_has_a_letter_is_known_without_the_children_of_each_set(office: Office) -> None:
    """With ten sets of 2,000 letters, each of which names all its children, a page takes no more
    than their results.
    """
    many = 2000
    asked = json.dumps(
        {**dataclasses.asdict(ASKED), "children": list(range(1, many + 1))})
    for at in range(1, 11):
        number = office.add(letters_sets.MADE, asked=asked, sent="2025-03-03", sent_by="hal",
                            recorded=BEFORE)
        with office.store.writing() as db:
            db.executemany(
                "INSERT INTO letter (set_id, place, child, about, words, html)"
                " VALUES (?, ?, ?, ?, '', x'')",
                [(number, it, it + 1, f"draw {at} A offered") for it in range(many)])
    tracemalloc.start()
    found = Lists(office.store, office.history).earlier("sent IS NOT NULL")
    _, most = tracemalloc.get_traced_memory()
    tracemalloc.stop()
    assert len(found) == 10 * many
    assert found[many, "draw 10 A offered"] == "sent on 3 March 2025, by hal"
    # (some 10 MB; with what was asked for beside each letter it is more than 200)
    assert most < 40_000_000, most


def test_of_two_letters_that_were_sent_the_last_is_named(office: Office) -> None:
    """A draft and a set that is not made are no letters that were made."""
    for number in (office.add("made"), office.add("made", who="hal"),
                   office.add("made", is_draft=1), office.add("failed", who="gwyn")):
        with office.store.writing() as db:
            db.execute("INSERT INTO letter (set_id, place, child, about, words, html)"
                       " VALUES (?, 0, 7, 'draw 1 none', '', x'')", (number,))
    lists = Lists(office.store, office.history)
    assert lists.earlier("sent IS NULL AND state='made' AND is_draft=0") == {
        (7, "draw 1 none"): "made by hal, and not recorded as sent"}
    assert not lists.earlier("sent IS NOT NULL")


def test_letters_of_a_draw_are_by_its_own_copy_alone(office: Office) -> None:
    """Draw 1 was held here on 3 March, and then by another way on another day, or as a fill: of
    that one no copy is known.
    """
    with office.store.writing() as db:
        db.execute("INSERT INTO copy (number, purpose, asked) VALUES (7, 'before round 1', ?)",
                   (BEFORE,))
        db.execute("INSERT INTO draw (first, school, fills, day, state, version, copy_before)"
                   " VALUES (1, NULL, 1, '2025-03-03', 'opened', 9, 7)")
    lists, held = Lists(office.store, office.history), DrawStore(office.store, office.history)
    for round_, school, day, copy in (
        (1, None, 3, 7), (1, None, 4, None), (None, "OAK", 3, None),
    ):
        register = mock.Mock(draws=[Draw(1, round_, school, datetime.date(2025, 3, day))])
        for kind in (letters_whom.OFFERS, letters_whom.PART):
            assert lists.draw(register, Whom(kind, "1"), held) == copy, (school, day)
        assert lists.draw(register, Whom(letters_whom.REMINDED, "2025-03-17"), held) is None


def test_a_version_of_a_template_reads_its_own_pictures_alone(office: Office) -> None:
    """Of all that were ever saved with a template."""
    with office.store.writing() as db:
        for name in ("old", "new"):
            db.execute("INSERT INTO letter_picture VALUES (?, ?)", (name, name.encode()))
        db.execute("INSERT INTO letter_template (id, name) VALUES (7, 'Mine')")
        for version, pictures in ((1, '{"a.png": "old"}'), (2, '{"a.png": "new"}')):
            db.execute("INSERT INTO letter_version VALUES (7, ?, 'x', ?, 'hal', ?)",
                       (version, pictures, BEFORE))
    with mock.patch.object(office.store, "rows", wraps=office.store.rows) as read:
        found = office.templates.source(office.templates.get(7, 1))
    assert found.pictures == {"a.png": b"old"}
    asked = [call.args for call in read.mock_calls if "letter_picture" in call.args[0]]
    assert asked == [("SELECT data FROM letter_picture WHERE digest=?", "old")]


def test_an_audit_passes_over_a_copy_that_is_gone(office: Office) -> None:
    """And over one from after the draw: it is by the last of those from before it, which is that of
    number 3, and by the one that is made now.
    """
    draws, read = {6: 3, 5: 3, 3: 2, 2: 2}, list[str]()
    copies = mock.MagicMock()
    copies.listed.return_value = [mock.Mock(number=it) for it in (5, 4, 3, 2)]
    copies.make.return_value, copies.path.side_effect = 6, lambda number: number

    def register(number: int) -> Any:
        if number not in draws:
            raise Refused(f"there is no copy {number}")
        return mock.Mock(draws=[None] * draws[number])

    copies.register.side_effect = register
    with mock.patch.object(letters_audits, "outcome_of", lambda *_: "as it was"), (
            mock.patch.object(rehearsal, "rows_of", read.append)), (
            mock.patch.object(audit, "audit", lambda *_: (["agrees"], True))):
        found = Audits(office.store, mock.MagicMock(), copies)
        now = mock.Mock(draws=[mock.Mock(round=1)] * 3)
        assert found.audit(JANE, now, 3) == (True, "agrees")
    assert read == ["3", "6"]


def test_letters_of_another_outcome_than_the_audited_one_are_drafts(office: Office) -> None:
    """As where a round was sent past the application after that of the screen was restored: its
    number is the same, and nobody has audited it.
    """
    held = mock.Mock(state=AUDITED, audit={"wrong": []},
                     rehearsal={"outcomes": [[1, 7, None, "OAK", True], [1, 8, None, None, False]]})
    held.terms = mock.Mock(first=1, fills=1)
    audits = Audits(office.store, mock.Mock(**{"listed.return_value": [held]}), mock.Mock())
    for outcomes, fresh, agreed in (
        ({7: "OAK", 8: None}, {7: True, 8: False}, {1}),
        ({7: None, 8: "OAK"}, {7: False, 8: True}, set[int]()),
        ({7: "OAK", 8: None}, {7: False, 8: False}, set[int]()),
    ):
        register = mock.Mock(draws=[mock.Mock(number=1)], outcomes={1: outcomes}, fresh={1: fresh})
        assert audits.agreed(register) == agreed


def test_a_mail_merge_is_written_by_a_process_that_can_be_ended(tmp_path: pathlib.Path) -> None:
    """It takes long, and the application goes on meanwhile. Its cells are texts, of which a
    spreadsheet runs none.
    """
    path = tmp_path / "letters.xlsx"
    letters_apart.merge([["child", "name", "offered"], [17, "=1+1", None]], "Offers", str(path))
    page = openpyxl.load_workbook(io.BytesIO(path.read_bytes())).active
    assert [[it.value for it in row] for row in page.iter_rows()] == [
        ["child", "name", "offered"], ["17", "=1+1", None]]
    assert page["B2"].data_type == "s"
    ended = Running()
    ended.end()
    with pytest.raises(Refused):
        letters_apart.merge([["child"], [1]], "Offers", str(tmp_path / "other.xlsx"), ended)
    assert not (tmp_path / "other.xlsx").exists()


def test_a_process_of_letters_has_nothing_of_the_environment(
    monkeypatch: pytest.MonkeyPatch, tmp_path: pathlib.Path
) -> None:
    """What a template could read there: of the application it has a path and a locale."""
    monkeypatch.setenv("KEY_OF_ANOTHER_SERVICE", "secret")

    class Seen(Running):
        """The process, with its environment."""

        has: bytes = b""

        def begin(self, process: subprocess.Popen[bytes]) -> None:
            """Looks at it, once it is begun."""
            self.has = pathlib.Path(f"/proc/{process.pid}/environ").read_bytes()
            super().begin(process)

    seen = Seen()
    letters_apart.merge([["child"], [1]], "Offers", str(tmp_path / "letters.xlsx"), seen)
    found = dict(it.split("=", 1) for it in seen.has.decode().split("\0") if it)
    assert found == processes.ENVIRONMENT and set(found) == {"PATH", "LC_ALL"}


def test_a_process_that_the_system_ends_for_memory_says_so(
    monkeypatch: pytest.MonkeyPatch, tmp_path: pathlib.Path
) -> None:
    """It is the first to go, and a status tells nobody why."""
    monkeypatch.setattr(letters_apart, "BEGIN", "import os; os.kill(os.getpid(), 9)")
    with pytest.raises(Refused, match="^the file: the letters take too much memory$"):
        letters_apart.merge([["child"], [1]], "Offers", str(tmp_path / "letters.xlsx"))


def test_a_process_that_cannot_write_names_no_path(tmp_path: pathlib.Path) -> None:
    """A file that is there already."""
    path = tmp_path / "letters.xlsx"
    path.touch()
    with pytest.raises(Refused) as error:
        letters_apart.merge([["child"], [1]], "Offers", str(path))
    assert str(error.value) == "a file cannot be written: File exists"
