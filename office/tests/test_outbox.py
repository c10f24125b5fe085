"""The outbox over each kind of command: the application is killed at each write to a disk and at
each request to the register, and whoever looks next goes on.
"""
import contextlib
import csv
import io
import pathlib
from collections.abc import Callable, Iterator
from typing import Any, cast

import pytest
from conftest import make
from register_files import Refused
from served import served
from test_desk import APPLIED, CHILDREN, JANE, ROUND, ROW, ROWS, SCHOOLS, about

from office.core import command_kinds, fields, senders
from office.web.applications import commit
from office.web.applications.commit import Committing
from office.web.applications.files import Given
from office.web.applications.imports import Imports
from office.web.applications.rows import COMMITTED, OPEN
from office.web.applications.staging import Staging, insert
from office.web.applications.table_check import Checker
from office.web.copies.copies import Copies
from office.web.machinery.jobs import Jobs
from office.web.machinery.outbox import DONE, FAILED, WAITS, Item, Outbox
from office.web.people.roles import Person
from office.web.register import desk
from office.web.register.desk import Command
from office.web.register.history import ANSWER, History
from office.web.register.store import Store
from office.web.schools import rows as schools
from office.web.schools.drafts import DRAFT, Draft

BATCH = "a batch"


class Rows(Outbox[Item]):
    """Rows of commands, as they are."""

    kind, item = "row", Item


class Copied:
    """The copies of a machine that makes each at once."""

    def make(self, *_: str) -> int:
        """The number of a copy."""
        return 1


def draft(store: Store, found: desk.Desk, jobs: Jobs) -> Draft:
    """The draft of schools."""
    return Draft(store, found, jobs, cast(Copies, Copied()))


def committing(store: Store, found: desk.Desk, jobs: Jobs) -> Committing:
    """What stores the staging table, after a copy of the register."""
    staging = Staging(store, found.history)
    return Committing(staging, Checker(), Imports(staging, found, jobs), Copied().make)


class Killed(BaseException):
    """The application ends here."""


class Life:
    """The life of an application until it is killed at an event: before it, or after it."""

    def __init__(self, at: int = 0, is_after: bool = False) -> None:
        self.at, self.is_after, self.count = at, is_after, 0

    def around(self, real: Callable[..., Any]) -> Callable[..., Any]:
        """A call that is an event."""
        def found(*given: Any, **more: Any) -> Any:
            self.count += 1
            at = self.count
            if at == self.at and not self.is_after:
                raise Killed
            answer = real(*given, **more)
            if at == self.at:
                raise Killed
            return answer
        return found


@pytest.fixture(name="address")
def address_fixture(tmp_path: pathlib.Path, monkeypatch: pytest.MonkeyPatch) -> Iterator[str]:
    """A register after its first round, which is served."""
    monkeypatch.setattr(desk, "AGAIN_SECONDS", 0.0)
    make(tmp_path / "reg.db", [*SCHOOLS, *CHILDREN, *APPLIED, ROUND])
    with served(tmp_path / "reg.db") as (found, _):
        yield found


@contextlib.contextmanager
def alive(
    folder: pathlib.Path, address: str, life: Life, lines: list[bytes] | None = None,
    kind: Callable[[Store, desk.Desk, Jobs], Any] = Rows,
) -> Iterator[Any]:
    """An application, of which each write and each request is an event of its life."""
    record, store, sender = (History(str(folder / "history.jsonl")),
                             Store(str(folder / "office.db")), senders.Http(address))

    def counted(real: Callable[[bytes], bytes]) -> Callable[[bytes], bytes]:
        def found(line: bytes) -> bytes:
            if lines is not None:
                lines.append(line)
            return real(line)
        return found

    with pytest.MonkeyPatch.context() as patch:
        patch.setattr(record, "write", life.around(record.write))
        for way in ("send", "imported"):
            patch.setattr(sender, way, life.around(counted(getattr(sender, way))))
        found = kind(store, desk.Desk(sender, record), Jobs())
        box = getattr(found, "imports", found)
        for name in ("begin", "change", "revise"):
            patch.setattr(box, name, life.around(getattr(box, name)))
        try:
            yield found
        finally:
            record.close()
            store.close()


def wait(folder: pathlib.Path, address: str, *commands: Command) -> None:
    """Commands wait in a batch, with what they rest on now."""
    with alive(folder, address, Life()) as box:
        register = box.desk.now()
        for at, it in enumerate(commands):
            box.put(BATCH, at, it, desk.seen_of(register, it).text)


@pytest.mark.parametrize("command", ROW, ids=[it["cmd"] for it in ROW])
def test_each_command_is_sent_once_whenever_the_application_is_killed(
    address: str, tmp_path: pathlib.Path, command: Command
) -> None:
    """Two of each: the one is done, and another waits behind it."""
    other = about("accept", 6)
    wait(tmp_path, address, command, other)
    lines: list[bytes] = []
    lives = 0
    for at, is_after in moments():
        with alive(tmp_path, address, Life(at, is_after), lines) as box:
            try:
                box.settle(BATCH)
                box.send(JANE, box.of(BATCH))
                break
            except Killed:
                lives += 1
    with alive(tmp_path, address, Life()) as box:
        register, found = box.desk.now(), box.of(BATCH)
        assert [it.state for it in found] == [DONE, DONE] and lives > 5
        assert lines == [desk.line_of(it) for it in (command, other)]
        assert all(command_kinds.is_done(register, it) for it in (command, other))
        assert [box.desk.history.entries[(it.sent or 0) - 1].about for it in found] == [
            {"command": command}, {"command": other}]


def test_a_text_that_no_file_takes_is_not_kept(address: str, tmp_path: pathlib.Path) -> None:
    """Half of a pair of surrogates: each page that shows it would fail."""
    with alive(tmp_path, address, Life()) as box:
        wrong, right = {"name": "\ud800 Reed"}, {"name": "\U0001f600 Reed"}
        with pytest.raises(Refused, match="type it again"):
            box.put(BATCH, 0, wrong)
        assert box.of(BATCH) == []
        box.put(BATCH, 0, right)
        with pytest.raises(Refused, match="type it again"):
            box.revise(box.of(BATCH)[0], wrong)
        assert [it.about for it in box.of(BATCH)] == [right]


def moments() -> Iterator[tuple[int, bool]]:
    """Each event of a life, before it and after it."""
    return ((at, after) for at in range(1, 99) for after in (False, True))


def test_each_school_of_a_draft_is_stored_once_whenever_the_application_is_killed(
    address: str, tmp_path: pathlib.Path
) -> None:
    """Also one that was typed with the words of a flag, which may mean another thing later."""
    words = {2: "medical need"}
    cells = [{"school": code, "name": code, "pan": "030", "east": str(at), "north": "0",
              "criteria": "medical need"} for at, code in enumerate(("Oak", "Elm"))]
    wanted = [schools.read(it, words)[0] for it in cells]
    lines: list[bytes] = []
    with alive(tmp_path, address, Life(), kind=draft) as box:
        box.add(cells)
    for at, is_after in moments():
        with alive(tmp_path, address, Life(at, is_after), lines, draft) as box:
            try:
                box.settle(DRAFT)
                box.send_all(JANE, schools.lines_of(box.rows(), box.desk.now().schools, words))
                break
            except Killed:
                continue
    with alive(tmp_path, address, Life(), kind=draft) as box:
        register = box.desk.now()
        assert at > 5 and box.of(DRAFT) == []
        assert lines == [desk.line_of(it) for it in wanted if it] and len(lines) == 2
        assert all(it and command_kinds.is_done(register, it) for it in wanted)


@pytest.mark.parametrize("most", [2000, 1])
def test_the_rows_of_an_import_are_stored_once_whenever_the_application_is_killed(
    address: str, tmp_path: pathlib.Path, monkeypatch: pytest.MonkeyPatch, most: int
) -> None:
    """They are in the table or stored, and never both: once somebody has confirmed them, whichever
    application goes on. Also where one request takes few of them, so that they have several parts.
    """
    monkeypatch.setattr(commit, "MOST_ROWS", most)
    lines: list[bytes] = []
    head, _, row = ROWS.partition("\n")
    rows = [row, *(row.replace("30,Ida,0,3000", it) for it in (
        "31,Idris,0,9000", "32,Ivo,0,9900"))]
    with alive(tmp_path, address, Life(), kind=committing) as box:
        found = [dict(fields.OMITTED, **it)
                 for it in csv.DictReader(io.StringIO("".join([f"{head}\n", *rows])))]
        with box.staging.writing() as db:
            db.execute("INSERT INTO staged_file VALUES (1, 'a.csv', '', 0, 0, '[]', '', '', NULL)")
            for number, it in enumerate(found, 2):
                insert(db, 1, Given(number, it, {}, ()), "jane", "")
        shown = box.found(box.desk.now())
        box.imports.ask(JANE, shown.digest)
    for at, is_after in moments():
        with alive(tmp_path, address, Life(at, is_after), lines, committing) as box:
            try:
                box.go_on()
                break
            except Killed:
                # (what is sent in parts is in the table or locked, whole)
                states = {it["state"] for it in box.staging.store.rows(
                    "SELECT state FROM staged_row")}
                assert {OPEN, COMMITTED} - states
    with alive(tmp_path, address, Life(), kind=committing) as box:
        entries = sorted(it.number for it in box.desk.history.done() if "import" in it.about)
        there = box.staging.store.rows("SELECT state, entry FROM staged_row ORDER BY number")
        assert at > 4 and lines == [it.csv for it in shown.content.parts]
        assert len(lines) == len(entries) == (1 if most > 1 else 3)
        assert box.imports.last() is None and {30, 31, 32} <= box.desk.now().children.keys()
        assert [tuple(it) for it in there] == [
            (COMMITTED, entries[0 if most > 1 else it]) for it in range(3)]


@pytest.mark.parametrize("is_after", [False, True])
def test_what_is_refused_is_not_sent_again(
    address: str, tmp_path: pathlib.Path, is_after: bool
) -> None:
    """Also where the application is killed before what came of it is kept."""
    wait(tmp_path, address, about("accept", 1, "B"))
    lines: list[bytes] = []
    # (marked, on record, sent, answered; and kept)
    with alive(tmp_path, address, Life(5, is_after), lines) as box, pytest.raises(Killed):
        box.send(JANE, box.of(BATCH))
    with alive(tmp_path, address, Life(), lines) as box:
        assert box.desk.history.entries[-1].what == ANSWER
        box.settle(BATCH)
        box.send(JANE, box.of(BATCH))
        [found] = box.of(BATCH)
        assert found.state == FAILED and "NotOffered" in found.said and len(lines) == 1


def test_an_equal_command_of_another_request_is_not_this_one(
    address: str, tmp_path: pathlib.Path
) -> None:
    """Neither one of somebody else, nor one with the point of a home beside it."""
    bo, command = Person("bo", "officer"), about("accept", 1)
    wait(tmp_path, address, command)
    with alive(tmp_path, address, Life()) as box:
        assert box.begin(JANE, box.of(BATCH)[0])
        assert box.desk.send(bo, command).is_done
        assert not box.desk.send(JANE, command, point="by hand").is_done
        box.settle(BATCH)
        [found] = box.of(BATCH)
        assert (found.state, found.said, found.sent) == (
            WAITS, "There was no answer: it was not recorded.", None)


def test_what_was_changed_meanwhile_is_not_sent(address: str, tmp_path: pathlib.Path) -> None:
    """What is sent is what was shown."""
    wait(tmp_path, address, about("accept", 1), about("accept", 2))
    lines: list[bytes] = []
    with alive(tmp_path, address, Life(), lines) as box:
        shown = box.of(BATCH)
        with box.store.writing() as db:
            db.execute("UPDATE sending SET about=json_set(about, '$.cmd', 'decline') WHERE place=0")
        assert box.send(JANE, shown) is None
        assert [it.state for it in box.of(BATCH)] == [WAITS, DONE] and len(lines) == 1
