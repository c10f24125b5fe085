"""What root reads of another user: reports, histories and copies of the desks' user, the file and
the answers of the office's application. None of it holds root up, or is taken for more than it is.
"""
import contextlib
import gzip
import os
import pathlib
import socket
import sqlite3
import tarfile
import threading
import time
import typing

import pytest
from machine import (
    copies, copies_status, desk, files, histories, history_copies, metrics, office_delete,
    office_restore, office_store, people, registers, settings_copy,
)
from machine.findings import Level
from machine.verbs import status
from office_files import add_people, record
from register_files import Refused

MB = 1_000_000
ENDLESS = "WITH RECURSIVE many (it) AS (VALUES (1) UNION ALL SELECT it + 1 FROM many)"


@pytest.fixture(name="office")
def office_fixture(register: registers.Register, write_as_me: None) -> registers.Register:
    """A register whose application has a head and an entry."""
    add_people(register, ("jane", "head"))
    record(register, 1)
    return register


@pytest.fixture(name="soon")
def soon_fixture(monkeypatch: pytest.MonkeyPatch) -> None:
    """What takes long is given up after a second."""
    monkeypatch.setattr(office_store, "SECONDS", 1)


def changed(register: registers.Register, script: str) -> None:
    """Does something in the file of the application that the application never does."""
    with contextlib.closing(sqlite3.connect(office_store.path_of(register))) as db:
        db.executescript(script)


@pytest.mark.parametrize("name", ["second-copy.report", "drill.report", "settings-copy.report"])
@pytest.mark.parametrize("kind", ["link", "pipe"])
def test_a_report_that_is_no_file_of_its_user_is_not_read(
    kind: str, name: str, office: registers.Register, tmp_path: pathlib.Path
) -> None:
    path = office.copies / name
    if kind == "pipe":
        os.mkfifo(path)
    else:
        (tmp_path / "secret").write_text("a secret of root\n", encoding="ascii")
        path.symlink_to(tmp_path / "secret")
    with pytest.raises((Refused, OSError), match=name):
        copies_status.report_of(office, name)


@pytest.mark.parametrize("kind", ["link", "pipe"])
def test_a_copy_that_is_no_file_by_now_is_not_compared_with_the_register(
    kind: str, office: registers.Register
) -> None:
    """As where it was swapped after the request was read."""
    path = office.copies / "office-000001-2025-03-03T120000.db"
    if kind == "pipe":
        os.mkfifo(path)
    else:
        path.symlink_to(office.file)
    with pytest.raises((Refused, OSError), match=path.name):
        office_restore.is_equal(path, office.file)


def test_a_copy_of_the_history_that_is_no_file_is_named_and_holds_nothing_up(
    office: registers.Register
) -> None:
    assert history_copies.copy(office) == []
    [made] = history_copies.made(office.copies / "history")
    made.unlink()
    os.mkfifo(made)
    assert any(made.name in it for it in history_copies.copy(office))
    with pytest.raises(Refused, match=made.name):
        history_copies.whole(made)


@pytest.mark.parametrize("end", ["", "-wal", "-shm", "-journal"])
def test_a_pipe_beside_the_file_of_people_holds_nothing_up(
    end: str, office: registers.Register
) -> None:
    """SQLite would read it, and wait for who writes it."""
    path = pathlib.Path(f"{office_store.path_of(office)}{end}")
    path.unlink(missing_ok=True)
    os.mkfifo(path)
    for read in (office_store.people_of, office_store.copy_of):
        with pytest.raises(Refused, match=f"office.db{end} is no file"):
            read(office)
    with pytest.raises(Refused, match=f"office.db{end} is no file"):
        people.add(office, "ann", "officer")


def test_a_number_of_copies_that_is_no_file_holds_nothing_up(office: registers.Register) -> None:
    os.mkfifo(office.copies / copies.LAST)
    with pytest.raises(Refused, match=f"{copies.LAST} is no file"):
        copies.last_number(office.copies)


def test_a_history_that_somebody_names_and_is_no_file_holds_nothing_up(
    tmp_path: pathlib.Path
) -> None:
    os.mkfifo(tmp_path / "history.jsonl")
    with pytest.raises(Refused, match="history.jsonl is no file"):
        histories.of_copy(tmp_path / "history.jsonl")


def test_a_copy_of_the_history_that_unpacks_to_too_much_is_refused(
    office: registers.Register, monkeypatch: pytest.MonkeyPatch
) -> None:
    monkeypatch.setattr(files, "MOST_HISTORY", MB)
    folder = office.copies / "history"
    folder.mkdir()
    bomb = folder / f"history-000001-{'0' * 16}.gz"
    bomb.write_bytes(gzip.compress(bytes(50 * MB)))
    with pytest.raises(Refused, match="has over 1 MB"):
        history_copies.whole(bomb)
    assert history_copies.last_whole(folder) == b""


def test_a_history_that_somebody_names_and_unpacks_to_too_much_is_refused(
    tmp_path: pathlib.Path, monkeypatch: pytest.MonkeyPatch
) -> None:
    monkeypatch.setattr(files, "MOST_HISTORY", MB)
    for name, data in (("a.gz", gzip.compress(bytes(50 * MB))), ("a.jsonl", bytes(MB + 1))):
        (tmp_path / name).write_bytes(data)
        with pytest.raises(Refused, match=f"{name} has over 1 MB, and is not read"):
            histories.of_copy(tmp_path / name)


def test_a_history_that_is_too_long_is_refused_before_it_is_read(
    office: registers.Register
) -> None:
    os.truncate(office.history, 1 << 40)
    found = status.report(office)["history"]
    assert found.level == Level.ATTENTION and "has over " in found.text
    assert any("has over " in it for it in history_copies.copy(office))


@pytest.mark.parametrize("script", [
    "ALTER TABLE person RENAME TO gone;"
    f" CREATE VIEW person AS {ENDLESS} SELECT it AS name, it AS kind, it AS role, it AS is_locked"
    " FROM many;",
    "CREATE TRIGGER ended AFTER DELETE ON session BEGIN"
    " INSERT INTO setting SELECT '', ''; END;",
])
def test_people_in_a_file_with_what_the_application_never_makes(
    script: str, office: registers.Register, soon: None
) -> None:
    changed(office, script)
    assert status.people_of(office)[0] is False
    with pytest.raises(Refused, match="which the application never makes"):
        office_store.copy_of(office)


def test_a_role_that_is_no_text(office: registers.Register) -> None:
    changed(office, "DROP TABLE person; CREATE TABLE person (name, kind, role, is_locked);"
            " INSERT INTO person VALUES ('a', 'person', NULL, 0), ('b', 'person', 'head', 0);")
    found = status.report(office)["people"]
    assert found.level == Level.ATTENTION and "is no text" in found.text


@pytest.mark.parametrize("is_later", [False, True])
def test_a_file_that_its_application_keeps_locked_is_given_up(
    is_later: bool, office: registers.Register, soon: None, monkeypatch: pytest.MonkeyPatch
) -> None:
    path = office_store.path_of(office)
    if is_later:
        monkeypatch.setattr(office_store, "distrust", lambda *_: None)
    changed(office, "PRAGMA journal_mode=DELETE")
    with contextlib.closing(sqlite3.connect(path, isolation_level=None)) as db:
        db.execute("BEGIN EXCLUSIVE")
        began = time.monotonic()
        with pytest.raises(Refused, match="office.db cannot be read: "):
            office_store.copy_of(office)
    assert time.monotonic() - began < 30


@pytest.mark.parametrize("is_in_log", [False, True])
def test_a_file_of_people_that_is_too_large_is_not_copied(
    is_in_log: bool, office: registers.Register, monkeypatch: pytest.MonkeyPatch
) -> None:
    monkeypatch.setattr(files, "MOST_STORE", MB)
    script = "CREATE TABLE much (it BLOB); INSERT INTO much VALUES (zeroblob(2000000))"
    with contextlib.closing(sqlite3.connect(office_store.path_of(office))) as db:
        db.execute(f"PRAGMA journal_mode={'WAL' if is_in_log else 'DELETE'}")
        db.executescript(script)
        db.commit()
        with pytest.raises(Refused, match="has over 1 MB"):
            office_store.copy_of(office)


def test_more_people_than_an_office_has(office: registers.Register) -> None:
    changed(office, f"{ENDLESS} INSERT INTO person (name, kind, role, hash, added)"
            " SELECT it, 'person', 'officer', '', '' FROM many LIMIT 10000")
    assert "has over 10,000 people" in status.report(office)["people"].text


@pytest.mark.parametrize("kind", ["sparse", "compressed", "long"])
def test_an_archive_that_is_much_larger_than_it_seems_is_refused(
    kind: str, office: registers.Register
) -> None:
    copy = office.copies / "nightly-000001-2025-03-03T023000.db"
    path = copies.settings_of(copy)
    with tarfile.open(path, "w:gz" if kind == "compressed" else "w") as archive:
        member = tarfile.TarInfo("office.db")
        if kind == "sparse":
            member.type = tarfile.GNUTYPE_SPARSE
        archive.addfile(member)
    if kind == "sparse":
        sized(path, 1 << 40)
    elif kind == "long":
        os.truncate(path, 1 << 40)
    with pytest.raises(Refused, match="cannot be read as an archive of settings"):
        settings_copy.members_of(copy)


def sized(path: pathlib.Path, size: int) -> None:
    """Has the first member of an archive say that it unpacks to so many bytes."""
    data = bytearray(path.read_bytes())
    data[483:495] = b"\x80" + size.to_bytes(11, "big")
    data[148:156] = b" " * 8
    data[148:156] = f"{sum(data[:512]):06o}\0 ".encode()
    path.write_bytes(data)


@contextlib.contextmanager
def answering(path: pathlib.Path, pieces: typing.Iterable[bytes]) -> typing.Iterator[None]:
    """A program at a socket which answers a request with these, for as long as it is heard."""
    with socket.socket(socket.AF_UNIX) as listening:
        listening.bind(str(path))
        listening.listen()

        def answer() -> None:
            with contextlib.suppress(OSError):
                to, _ = listening.accept()
                with to:
                    to.recv(4096)
                    for it in pieces:
                        to.sendall(it)
        thread = threading.Thread(target=answer)
        thread.start()
        yield
        listening.close()
        thread.join()


def dripped() -> typing.Iterator[bytes]:
    """An answer that does not end."""
    for _ in range(100):
        yield b"H"
        time.sleep(0.1)


HEAD = b"HTTP/1.1 200 OK\r\nContent-Type: application/json\r\nConnection: close\r\n\r\n"


@pytest.mark.parametrize("pieces", [
    [b"nonsense\r\n\r\n"], [HEAD, b'{"requests":', b"[" * 500_000], [HEAD, b'{"requests": 1e400}'],
    [HEAD, b'{"requests": {"200": 1e400}}'], [HEAD, b"[]"], dripped(),
    (bytes(MB) for _ in range(1000)),
])
def test_what_an_application_answers_costs_its_own_numbers_alone(
    pieces: typing.Iterable[bytes], office: registers.Register, monkeypatch: pytest.MonkeyPatch,
    tmp_path: pathlib.Path
) -> None:
    path = tmp_path / "a.sock"
    monkeypatch.setattr(registers.Register, "office_socket", path)
    monkeypatch.setattr(desk, "SECONDS", 1)
    began = time.monotonic()
    with answering(path, pieces):
        found = metrics.as_text(metrics.samples(office, {}))
    assert time.monotonic() - began < 8
    assert "admissions_commands_total{" in found
    assert "admissions_requests_total{" not in found


def test_a_desk_that_answers_without_end_is_given_up(
    monkeypatch: pytest.MonkeyPatch, tmp_path: pathlib.Path
) -> None:
    monkeypatch.setattr(desk, "SECONDS", 1)
    began = time.monotonic()
    with answering(tmp_path / "a.sock", dripped()):
        assert desk.status_of(tmp_path / "a.sock") is None
    assert time.monotonic() - began < 8


def test_what_others_name_acts_on_no_terminal_and_makes_no_line(
    office: registers.Register
) -> None:
    changed(office, "UPDATE person SET role = 'head' || char(10) || '  ok   desk' || char(27)")
    text = status.report(office)["people"].text
    assert text.isprintable() and "desk" in text


def test_a_folder_deeper_than_a_path_is_long_is_counted_and_deleted(
    office: registers.Register, tmp_path: pathlib.Path
) -> None:
    (tmp_path / "kept").mkdir()
    (tmp_path / "kept" / "file").touch()
    (office.office / "link").symlink_to(tmp_path / "kept")
    before, _ = office_delete.counted([office.office])
    here = os.open(office.office, files.FOLDER)
    for _ in range(1_200):
        os.mkdir("deep", dir_fd=here)
        above, here = here, os.open("deep", files.FOLDER, dir_fd=here)
        os.close(above)
    os.close(os.open("file", os.O_CREAT | os.O_WRONLY, dir_fd=here))
    os.close(here)
    assert office_delete.counted([office.office])[0] == before + 1
    office_delete.empty(office.office)
    assert list(office.office.iterdir()) == []
    assert (tmp_path / "kept" / "file").exists()
