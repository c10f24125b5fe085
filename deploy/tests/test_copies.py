"""The nightly copies: their order, which are removed, what is beside them, and what status says of
their times."""
import contextlib
import datetime
import gzip
import io
import os
import pathlib
import re
import shutil
import sqlite3
import tarfile
import time
import typing

import pytest
from conftest import typed
from machine import (
    certificates,
    copies,
    copies_status,
    drill,
    files,
    history_copies,
    nightly,
    office_store,
    people,
    registers,
    second_copy,
    settings_copy,
    sites,
)
from machine.verbs import setup, status
from office.web.people import authority
from office.web.people import people as office_people
from office.web.register.store import Store
from office_files import (
    NO_HASH,
    add_note_and_file,
    add_people,
    children_of,
    history,
    notes_and_files_of,
    record,
)
from register_files import Refused
from setup_arguments import given_to_setup

HOUR = 3600.0
DAY = 24 * HOUR


def copy(
    register: registers.Register, name: str, age: float = 0, with_settings: bool = True
) -> pathlib.Path:
    """A copy of this name and age, and the archive of its settings."""
    path = register.copies / name
    path.write_text("a copy")
    if with_settings:
        copies.settings_of(path).write_text("an archive")
    os.utime(path, (time.time() - age, time.time() - age))
    return path


def backed_up(
    register: registers.Register, keep: int, monkeypatch: pytest.MonkeyPatch
) -> list[str]:
    """What is there after a backup: all that admissions-backup does is to make the file."""

    def make(_: object, file: object, new: pathlib.Path) -> object:
        new.write_text("new")
        return type("Done", (), {"stdout": "", "stderr": ""})

    monkeypatch.setattr(nightly, "call", make)
    monkeypatch.setattr(nightly, "program", lambda name: name)
    given = type("Given", (), {"file": register.file, "folder": register.copies, "keep": keep})
    assert nightly.main(given) == 0  # type: ignore[arg-type]
    return sorted(it.name for it in register.copies.iterdir())


def test_the_order_is_that_of_the_numbers(register: registers.Register) -> None:
    for name in (
        "nightly-000010-2025-03-01T023000.db",
        "nightly-000009-2036-03-01T023000.db",
        "nightly-2036-03-01T023000.db",
        "nightly-1000000-2024-03-01T023000.db",
        "before-round-1.db",
        "nightly-x.db",
    ):
        copy(register, name, with_settings=False)
    assert [it.name for it in register.nightly_copies()] == [
        "nightly-2036-03-01T023000.db",
        "nightly-000009-2036-03-01T023000.db",
        "nightly-000010-2025-03-01T023000.db",
        "nightly-1000000-2024-03-01T023000.db",
    ]


def test_a_name_has_the_next_number_and_the_local_time(register: registers.Register) -> None:
    before = datetime.datetime.now().replace(microsecond=0)
    assert copies.next_name(register.copies).startswith("nightly-000001-")
    copy(register, "nightly-000041-2036-03-01T023000.db")
    name = copies.next_name(register.copies)
    at = datetime.datetime.strptime(name, "nightly-000042-%Y-%m-%dT%H%M%S.db")
    assert before <= at <= datetime.datetime.now()


@pytest.mark.parametrize(
    "form", ["nightly-2036-03-{:02}T023000.db", "nightly-0000{:02}-2036-03-01T023000.db"]
)
def test_copies_of_a_wrong_clock_do_not_remove_the_new_one(
    form: str, register: registers.Register, monkeypatch: pytest.MonkeyPatch
) -> None:
    for day in range(1, 32):
        copy(register, form.format(day), age=-10 * 365 * DAY)
    backed_up(register, 30, monkeypatch)
    made = register.nightly_copies()
    assert (len(made), made[-1].read_text()) == (30, "new")


def test_a_copy_is_removed_with_what_is_beside_it(
    register: registers.Register, monkeypatch: pytest.MonkeyPatch
) -> None:
    for number in (1, 2, 3):
        copy(register, f"nightly-00000{number}-2025-03-0{number}T023000.db")
    (register.copies / "nightly-000001-2025-03-01T023000.db-wal").write_text("")
    (register.copies / "before-round-1.db").write_text("another's")
    left = backed_up(register, 2, monkeypatch)
    assert left[:3] == [
        "before-round-1.db",
        "nightly-000003-2025-03-03T023000.db",
        "nightly-000003-2025-03-03T023000.tar",
    ]
    assert len(left) == 5 and left[3].startswith("nightly-000004-")


def test_no_number_is_given_twice(
    register: registers.Register, monkeypatch: pytest.MonkeyPatch
) -> None:
    """Also where the last copy was renamed, to be kept, or removed."""
    for number in (1, 2, 3):
        backed_up(register, 30, monkeypatch)
        assert [copies.number(it) for it in register.nightly_copies()] == [number]
        register.nightly_copies()[-1].rename(register.copies / f"before-round-{number}.db")
    (register.copies / copies.LAST).write_text("no number")
    backed_up(register, 30, monkeypatch)
    assert copies.number(register.nightly_copies()[-1]) == 1


@pytest.mark.parametrize(
    "age, is_well", [(25 * HOUR, True), (27 * HOUR, False), (-1 * HOUR, True), (-3 * HOUR, False)]
)
def test_the_age_of_the_last_copy(age: float, is_well: bool, register: registers.Register) -> None:
    copy(register, "nightly-000001-2025-03-01T023000.db", age)
    assert copies_status.copy_of(register)[0] is is_well


def test_a_name_makes_no_copy_younger(register: registers.Register) -> None:
    copy(register, f"nightly-000001-{time.strftime(copies.TIME)}.db", 27 * HOUR)
    assert copies_status.copy_of(register)[0] is False


def test_a_copy_that_is_dated_ahead_names_the_clock(register: registers.Register) -> None:
    copy(register, "nightly-000001-2025-03-01T023000.db", -10 * DAY)
    is_well, text = copies_status.copy_of(register)
    assert (is_well, "240 hours in the future" in text, "is the clock right?" in text) == (
        False,
        True,
        True,
    )


def test_so_does_an_earlier_one_and_one_by_its_name(register: registers.Register) -> None:
    copy(register, "nightly-000001-2096-03-01T023000.db", DAY)
    copy(register, "nightly-000002-2025-03-01T023000.db", 1)
    is_well, text = copies_status.copy_of(register)
    assert (is_well, "nightly-000001-2096-03-01T023000.db is dated" in text) == (False, True)


def test_a_name_of_a_day_that_is_none(register: registers.Register) -> None:
    copy(register, "nightly-000001-2025-02-30T023000.db", HOUR)
    assert copies_status.copy_of(register)[0] is True


def test_a_copy_without_settings_is_reported(register: registers.Register) -> None:
    copy(register, "nightly-000001-2025-03-01T023000.db", with_settings=False)
    is_well, text = copies_status.copy_of(register)
    assert (is_well, "without people and settings" in text) == (False, True)


@pytest.mark.parametrize(
    "age, is_well", [(25 * HOUR, True), (27 * HOUR, False), (-3 * HOUR, False)]
)
def test_the_age_of_the_second_copy(
    age: float, is_well: bool, register: registers.Register, machine: pathlib.Path
) -> None:
    (machine / "etc/second-copy").write_text("/mnt/copies\n")
    (machine / "etc/second-copy-recipient").write_text(f"age1{'q' * 58}\n")
    report = register.copies / "second-copy.report"
    report.write_text(f"x.db is in /mnt/copies/{register.name}, equal to the first copy\n")
    os.utime(report, (time.time() - age, time.time() - age))
    assert copies_status.second_of(register)[0] is is_well


def test_a_second_copy_at_another_place_is_none_here(
    register: registers.Register, machine: pathlib.Path
) -> None:
    (machine / "etc/second-copy").write_text("/mnt/other\n")
    line = f"x.db is in /mnt/copies/{register.name}, equal to the first copy, and opens"
    (register.copies / "second-copy.report").write_text(f"{line}\n")
    is_well, text = copies_status.second_of(register)
    said = "this machine has copied nothing to /mnt/other yet: systemctl start admissions-second-"
    assert (is_well, text.startswith(said), text.endswith(line)) == (False, True, True)


def test_a_folder_of_copies_that_is_gone_is_named(register: registers.Register) -> None:
    register.copies.rmdir()
    assert copies_status.copy_of(register) == (
        False, f"{register.copies} is not there, so no copy can be made: admissions-admin setup"
        f" {register.name} makes it")


@pytest.mark.parametrize("age, is_well", [(34 * DAY, True), (36 * DAY, False), (-3 * HOUR, False)])
def test_the_age_of_the_last_drill(age: float, is_well: bool, register: registers.Register) -> None:
    for path, text in (
        (register.copies / "drill.report", "restored\n"),
        (register.settings / "site-name", "admissions.example\n"),
    ):
        path.write_text(text)
        os.utime(path, (time.time() - age, time.time() - age))
    assert copies_status.drill_of(register)[0] is is_well
    (register.copies / "drill.report").unlink()
    assert copies_status.drill_of(register)[0] is is_well


def copy_settings(register: registers.Register) -> int:
    return settings_copy.main(type("Given", (), {"name": register.name}))  # type: ignore[arg-type]


def acknowledge(register: registers.Register, *words: str) -> int:
    return typed("history", register.name, *words or ("--acknowledge", "--yes"))


@pytest.fixture(name="office")
def office_fixture(register: registers.Register, write_as_me: None) -> registers.Register:
    """A register whose application has two people and a program, and a history of two commands."""
    add_people(register, ("jane", "head"), ("alpha", "school-A"))
    add_people(register, ("page", "reader"), kind="program")
    record(register, 1, 2)
    return register


@pytest.fixture(name="copied")
def copied_fixture(office: registers.Register, machine: pathlib.Path) -> pathlib.Path:
    """A copy, with settings and a key, of which settings-copy has copied what it copies."""
    for name in ("site.key", "site.key.old", "notes"):
        (office.settings / name).write_text("a key")
    (office.settings / "site.crt").write_text("a certificate")
    (machine / "etc/authority").write_text("Example County Council\n")
    (machine / "etc/second-copy").write_text("# where\n/mnt/copies\n")
    path = copy(office, "nightly-000001-2025-03-01T023000.db", with_settings=False)
    assert copy_settings(office) == 0
    return path


def made_of(copied: pathlib.Path) -> list[bytes]:
    """What the copies of the history beside a copy have, in their order."""
    found = history_copies.made(copied.parent / "history")
    return [gzip.decompress(it.read_bytes()) for it in found]


def rows_of(file: pathlib.Path, query: str) -> list[tuple[object, ...]]:
    with contextlib.closing(sqlite3.connect(f"file:{file}?mode=ro", uri=True)) as db:
        return db.execute(query).fetchall()


def people_beside(copied: pathlib.Path, folder: pathlib.Path) -> pathlib.Path:
    """The file of the application in the archive beside a copy, unpacked into a folder."""
    with tarfile.open(copied.with_suffix(".tar")) as archive:
        archive.extract("office.db", folder)
    return folder / "office.db"


def test_the_archive_of_a_night_stays_as_it_is(
    copied: pathlib.Path, register: registers.Register
) -> None:
    path = copies.settings_of(register.nightly_copies()[-1])
    before = path.read_bytes()
    add_people(register, ("ben", "officer"))
    copy_settings(register)
    assert path.read_bytes() == before


def test_the_archive_has_people_and_settings_and_no_key(copied: pathlib.Path) -> None:
    with tarfile.open(copied.with_suffix(".tar")) as archive:
        assert sorted(archive.getnames()) == ["authority", "office.db", "second-copy", "site-name"]
        member = archive.getmember("office.db")
        assert (member.mode, member.uname, member.gname) == (
            0o600, "admissions-office", "admissions-office")
    assert copied.with_suffix(".tar").stat().st_mode & 0o777 == 0o600


def test_the_people_are_copied_with_roles_and_hashes(
    copied: pathlib.Path, register: registers.Register, tmp_path: pathlib.Path
) -> None:
    """And all else that the application has stored."""
    found, file = people_beside(copied, tmp_path), office_store.path_of(register)
    every = "SELECT name, kind, role, hash, is_locked, must_change, added FROM person ORDER BY name"
    assert [it[:3] for it in rows_of(found, every)] == [
        ("alpha", "person", "school-A"), ("jane", "person", "head"), ("page", "program", "reader")]
    assert rows_of(found, every) == rows_of(file, every)
    tables = "SELECT name, sql FROM sqlite_master ORDER BY name"
    assert rows_of(found, tables) == rows_of(file, tables)
    assert rows_of(found, "PRAGMA user_version") == rows_of(file, "PRAGMA user_version")
    assert drill.settings_text(copied) == "settings with 3 people and programs"


def test_a_copy_signs_nobody_in(
    office: registers.Register, tmp_path: pathlib.Path
) -> None:
    """Who is signed in when it is made stays so, and neither the copy nor what a row that was
    deleted leaves in a file has the secret's digest. A change that is not stored yet is not in it.
    """
    path = copy(office, "nightly-000001-2025-03-01T023000.db", with_settings=False)
    with contextlib.closing(Store(str(office_store.path_of(office)))) as store:
        signed_in = office_people.People(store)
        secret = signed_in.begin("jane", False, f"{NO_HASH}jane")
        with store.writing() as db:
            db.execute("UPDATE person SET role='reader' WHERE name='alpha'")
            assert copy_settings(office) == 0
        assert signed_in.of_session(secret) is not None
        digest = office_people.digest(secret)
        assert digest.encode() in office_store.path_of(office).with_suffix(".db-wal").read_bytes()
    archive = path.with_suffix(".tar").read_bytes()
    assert (digest.encode() in archive, secret.encode() in archive) == (False, False)
    with contextlib.closing(Store(str(people_beside(path, tmp_path)))) as store:
        assert office_people.People(store).of_session(secret) is None
        assert store.rows("SELECT * FROM session") == []
        roles = {it["name"]: it["role"] for it in store.rows("SELECT * FROM person")}
    assert roles == {"alpha": "school-A", "jane": "head", "page": "reader"}


@pytest.mark.parametrize(
    "content, said",
    [
        (None, "is not there"),
        (b"no database of anybody", "cannot be read: file is not a database"),
        (b"", "cannot be read: no such table: session"),
    ],
)
def test_people_that_cannot_be_copied_are_named_and_the_history_is_copied(
    content: bytes | None, said: str, office: registers.Register
) -> None:
    """There is an archive once they can be copied, and none without them before."""
    path = copy(office, "nightly-000001-2025-03-01T023000.db", with_settings=False)
    file = office_store.path_of(office)
    file.rename(file.with_name("aside"))
    if content is not None:
        file.write_bytes(content)
    with pytest.raises(
        Refused, match=f"^{path.stem}.tar was not made: {re.escape(str(file))} {said}$"
    ):
        copy_settings(office)
    assert (path.with_suffix(".tar").exists(), len(made_of(path))) == (False, 1)
    is_well, text = copies_status.copy_of(office)
    assert (is_well, "without people and settings" in text) == (False, True)
    file.with_name("aside").rename(file)
    assert (copy_settings(office), path.with_suffix(".tar").exists()) == (0, True)
    assert copies_status.copy_of(office)[0] is True


def test_the_history_is_copied_without_a_torn_line(
    copied: pathlib.Path, register: registers.Register
) -> None:
    whole = register.history.read_bytes()
    with open(register.history, "ab") as file:
        file.write(b'{"about":{"com')
    assert copy_settings(register) == 0
    assert made_of(copied) == [whole]
    assert children_of(whole) == [1, 2]
    modes = {it.stat().st_mode & 0o777 for it in (copied.parent / "history").iterdir()}
    assert (modes, (copied.parent / "history").stat().st_mode & 0o777) == ({0o600}, 0o700)


def test_a_history_that_goes_on_makes_its_copy_longer(
    copied: pathlib.Path, register: registers.Register
) -> None:
    """Also while the application has it open."""
    before = history_copies.made(copied.parent / "history")
    record(register, 3)
    with history(register):
        assert copy_settings(register) == 0
    assert history_copies.made(copied.parent / "history") == before
    assert [children_of(it) for it in made_of(copied)] == [[1, 2, 3]]


@pytest.mark.parametrize(
    "cut, more, children",
    [
        (0, [], [[1, 2]]),
        (2, [], [[1, 2]]),
        (3, [], [[1, 2]]),
        (2, [8], [[1, 2], [1, 8]]),
        (0, [9], [[1, 2], [9]]),
    ],
)
def test_a_history_that_was_emptied_cut_or_begun_anew_leaves_the_copy(
    cut: int,
    more: list[int],
    children: list[list[int]],
    copied: pathlib.Path,
    register: registers.Register,
) -> None:
    """`cut` is how many of its four lines are left. What goes on otherwise is copied beside it. It
    needs attention until somebody acknowledges it, and not before the next time."""
    lines = register.history.read_bytes().splitlines(keepends=True)
    name = history_copies.made(copied.parent / "history")[0].name
    register.history.write_bytes(b"".join(lines[:cut]))
    said = f"the history was erased, cut or changed: it does not begin with {name} in"
    for _ in range(2):
        record(register, *more)
        with pytest.raises(Refused, match=said):
            copy_settings(register)
        assert status.history_of(register)[0] is copies_status.copy_of(register)[0] is False
        assert said in status.history_of(register)[1]
        more = []
    assert [children_of(it) for it in made_of(copied)] == children
    assert acknowledge(register) == acknowledge(register) == 0
    record(register, 4)
    assert "does not begin" not in status.history_of(register)[1]
    assert (copies_status.copy_of(register)[0], copy_settings(register)) == (True, 0)
    register.history.write_bytes(b"")
    assert status.history_of(register)[0] is False


def test_what_is_acknowledged_is_shown_before(
    copied: pathlib.Path, register: registers.Register
) -> None:
    """Without a yes it is named on."""
    register.history.write_bytes(b"")
    name = history_copies.made(copied.parent / "history")[0].name
    with pytest.raises(Refused, match=f"does not begin with {name} is named no more: nothing was"):
        acknowledge(register, "--acknowledge")
    assert name in status.history_of(register)[1]


def test_another_copy_of_an_acknowledged_name_is_named(
    copied: pathlib.Path, register: registers.Register
) -> None:
    lines = register.history.read_bytes().splitlines(keepends=True)
    register.history.write_bytes(b"".join(lines[:2]))
    assert acknowledge(register) == 0
    [path] = history_copies.made(copied.parent / "history")
    path.write_bytes(gzip.compress(b"".join(lines[:3])))
    assert path.name in status.history_of(register)[1]


@pytest.mark.parametrize("line", [1, 3])
def test_a_history_that_was_changed_is_copied_beside_it_and_named(
    line: int, copied: pathlib.Path, register: registers.Register
) -> None:
    """The line behind the one that was changed has another digest of it."""
    before = register.history.read_bytes()
    lines = before.splitlines(keepends=True)
    lines[line - 1] = lines[line - 1].replace(b'"school":"A"', b'"school":"B"')
    register.history.write_bytes(b"".join(lines))
    said = f"^{register.history}, line {line + 1}: the history was changed there or in the line bef"
    for _ in range(2):
        with pytest.raises(Refused, match=said):
            copy_settings(register)
    assert made_of(copied) == [before, b"".join(lines)]
    is_well, text = copies_status.copy_of(register)
    assert (is_well, f"line {line + 1}: the history was changed" in text) == (False, True)
    is_well, text = status.history_of(register)
    mend = f": admissions-admin history {register.name} --mend"
    assert (is_well, text.endswith(mend)) == (False, True)
    register.history.write_bytes(before)
    assert acknowledge(register) == 0
    assert (copy_settings(register), copies_status.copy_of(register)[0]) == (0, True)


Damage = typing.Callable[[bytes], bytes]
DAMAGED: list[Damage] = [
    lambda it: it[:-9],
    lambda it: it[:12],
    lambda it: b"no gzip",
    lambda it: it[:10] + b"\xff" * 8 + it[18:],
]


@pytest.mark.parametrize("damage", DAMAGED)
def test_a_damaged_copy_is_named_and_the_history_is_copied_beside_it(
    damage: Damage, copied: pathlib.Path, register: registers.Register
) -> None:
    """It is named each night until it is moved away."""
    first = history_copies.made(copied.parent / "history")[0]
    first.write_bytes(damage(first.read_bytes()))
    for _ in range(2):
        with pytest.raises(Refused, match=f"^{first} cannot be read: "):
            copy_settings(register)
    first.unlink()
    assert made_of(copied) == [register.history.read_bytes()]
    assert copy_settings(register) == 0


@pytest.mark.parametrize(
    "put, said",
    [
        (lambda it: None, "is not there: it was not copied"),
        (lambda it: it.symlink_to("/etc/hostname"), "it was not copied"),
        (os.mkfifo, "is no file: it was not copied"),
    ],
)
def test_a_history_that_cannot_be_read_is_named(
    put: typing.Callable[[pathlib.Path], object],
    said: str,
    copied: pathlib.Path,
    register: registers.Register,
) -> None:
    register.history.unlink()
    put(register.history)
    with pytest.raises(Refused, match=f"{register.history}.*{said}$"):
        copy_settings(register)
    assert [children_of(it) for it in made_of(copied)] == [[1, 2]]


def test_copies_that_ended_before_the_history_are_reported(
    copied: pathlib.Path, register: registers.Register, monkeypatch: pytest.MonkeyPatch
) -> None:
    assert copies_status.copy_of(register)[0] is True
    copy(register, "nightly-000002-2025-03-02T023000.db", with_settings=False)
    monkeypatch.setattr(history_copies, "copy", lambda _: 1 / 0)
    with pytest.raises(ZeroDivisionError):
        copy_settings(register)
    is_well, text = copies_status.copy_of(register)
    assert (is_well, "without the whole history" in text) == (False, True)


@pytest.mark.parametrize("name", [
    "nightly-000002-2025-03-02T023000.db", "history/history-000001-0123456789abcdef.gz"])
def test_what_an_earlier_register_has_left_at_the_second_place_is_named(
    name: str,
    copied: pathlib.Path,
    register: registers.Register,
    machine: pathlib.Path,
    key: tuple[str, pathlib.Path],
) -> None:
    """As OPERATE says where a name is used again: until its folder has another name."""
    place = machine / "mnt"
    (place / register.name / "history").mkdir(parents=True)
    (machine / "etc/second-copy").write_text(f"{place}\n")
    (place / register.name / f"{name}.age").write_text("of before")
    second_copy.write_report(register, second_copy.REPORT, second_copy.copied(register, str(place)))
    is_well, text = copies_status.second_of(register)
    assert not is_well
    assert f"WARNING: {name} there is of another register of this name" in text
    (place / register.name).rename(place / "before")
    assert "another register" not in second_copy.copied(register, str(place))
    # (what was removed here after 30 nights is no other's)
    (place / register.name / "nightly-000000-2025-02-28T023000.db.age").write_text("of this one")
    assert "another register" not in second_copy.copied(register, str(place))


def empty(register: registers.Register, machine: pathlib.Path) -> None:
    """Makes the machine one on which nothing of a register is set up."""
    for folder in (register.settings, register.office):
        shutil.rmtree(folder)
    (machine / "etc/authority").unlink()
    (machine / "etc/second-copy").write_text("# the package's own\n")


def test_people_settings_and_history_come_back_where_there_are_none(
    copied: pathlib.Path, register: registers.Register, machine: pathlib.Path
) -> None:
    before = register.history.read_bytes()
    empty(register, machine)
    assert list(settings_copy.restored(register, copied)) == [
        f"took {machine}/etc/authority from the archive",
        f"took {machine}/etc/second-copy from the archive",
        f"took {register.office}/office.db from the archive, with 3 people and programs",
        f"took {register.history} from {history_copies.made(copied.parent / 'history')[0]}",
    ]
    assert (machine / "etc/authority").read_text() == "Example County Council\n"
    assert (machine / "etc/second-copy").read_text() == "# where\n/mnt/copies\n"
    assert sorted(it.name for it in register.office.iterdir()) == ["history.jsonl", "office.db"]
    assert {it.stat().st_mode & 0o777 for it in register.office.iterdir()} == {0o600}
    assert register.office.stat().st_mode & 0o777 == 0o700
    assert register.history.read_bytes() == before
    # (the application goes on with both)
    add_people(register, ("ben", "officer"))
    record(register, 3)
    assert children_of(register.history.read_bytes()) == [1, 2, 3]
    names = [it.name for it in office_store.people_of(register)]
    assert names == ["alpha", "ben", "jane", "page"]


def test_people_alone_come_back_where_the_application_has_none(
    copied: pathlib.Path, register: registers.Register, machine: pathlib.Path
) -> None:
    """As where docs/admin/RECOVER.md puts the file of the application aside: all else stays."""
    before = register.history.read_bytes()
    for it in register.office.glob("office.db*"):
        it.unlink()
    assert list(settings_copy.restored(register, copied)) == [
        f"{machine}/etc/authority is there already, and stays as it is",
        f"{machine}/etc/second-copy is there already, and stays as it is",
        f"took {register.office}/office.db from the archive, with 3 people and programs",
    ]
    assert register.history.read_bytes() == before


@pytest.mark.parametrize("is_another", [False, True])
def test_another_register_gets_no_secret_of_the_first(
    office: registers.Register, is_another: bool
) -> None:
    """As a practice register: who could make cookies for one of the two could for the other, and
    sign in at the provider in its name. All else of the file is the same."""
    path = copy(office, "nightly-000001-2025-03-01T023000.db", with_settings=False)
    provider = authority.Provider("Council", "https://login.example", "admissions", "s3cret-of-it")
    with people.opened(office) as (_, kept):
        authority.set_provider(kept, provider)
        key = authority.cookie_key(kept)
        kept.set("months of retention", "12")
    assert copy_settings(office) == 0
    shutil.rmtree(office.office)
    said = list(settings_copy.restored(office, path, True, is_another))
    again = ("sign-in by the accounts of the authority is not brought back: admissions-admin"
             f" accounts {office.name} FILE")
    assert (again in said) == is_another
    data = office_store.path_of(office).read_bytes()
    assert (key.encode() in data, b"s3cret-of-it" in data) == (not is_another, not is_another)
    with people.opened(office) as (_, kept):
        assert authority.provider_of(kept) == (None if is_another else provider)
        assert (authority.cookie_key(kept) == key) != is_another
        assert kept.setting("months of retention") == "12"


def test_notes_and_files_of_children_come_back_with_the_people(office: registers.Register) -> None:
    """Whole, on a machine that has nothing of the application: also bytes that are no text."""
    path = copy(office, "nightly-000001-2025-03-01T023000.db", with_settings=False)
    data = bytes(range(256)) * 4000
    add_note_and_file(office, 7, "asked for =help\nSecond line", data)
    kept = [("note", "asked for =help\nSecond line", b""), ("file", "../../evidence.pdf", data)]
    assert copy_settings(office) == 0
    shutil.rmtree(office.office)
    assert not office_store.path_of(office).exists()
    list(settings_copy.restored(office, path))
    assert notes_and_files_of(office, 7) == kept
    assert notes_and_files_of(office, 8) == []


def test_what_comes_back_is_given_to_the_application(
    copied: pathlib.Path,
    register: registers.Register,
    machine: pathlib.Path,
    monkeypatch: pytest.MonkeyPatch,
) -> None:
    """Its folder, and it alone makes the files there."""
    empty(register, machine)
    given: list[tuple[pathlib.Path, int, str, str]] = []
    acting: list[str] = []
    make = files.folder

    def folder(path: pathlib.Path, mode: int, user: str = "root", group: str = "root") -> bool:
        given.append((path, mode, user, group))
        return make(path, mode, user, group)

    @contextlib.contextmanager
    def acting_as(name: str) -> typing.Iterator[None]:
        acting.append(name)
        yield

    monkeypatch.setattr(files, "folder", folder)
    monkeypatch.setattr(files, "acting_as", acting_as)
    list(settings_copy.restored(register, copied))
    assert set(given) == {(register.office, 0o700, "admissions-office", "admissions-office")}
    assert acting == ["admissions-office"] * 2


def test_what_came_back_is_not_brought_back_twice(
    copied: pathlib.Path, register: registers.Register, machine: pathlib.Path
) -> None:
    empty(register, machine)
    list(settings_copy.restored(register, copied))
    assert list(settings_copy.restored(register, copied)) == [
        f"{machine}/etc/authority is there already, and stays as it is",
        f"{machine}/etc/second-copy is there already, and stays as it is",
        f"{register.office}/office.db is there already, and stays as it is",
    ]


def test_what_is_there_stays(copied: pathlib.Path, register: registers.Register) -> None:
    """Also a history that is empty: an application may have it open."""
    add_people(register, ("ben", "officer"))
    register.history.write_bytes(b"")
    lines = list(settings_copy.restored(register, copied))
    assert [it.name for it in office_store.people_of(register)] == ["alpha", "ben", "jane", "page"]
    assert register.history.read_bytes() == b""
    assert lines[-2:] == [
        f"{register.office}/office.db is there already, and stays as it is",
        f"{register.history} is there already, and stays as it is",
    ]


def test_no_file_is_brought_back_beside_a_log_of_another(
    copied: pathlib.Path, register: registers.Register
) -> None:
    office_store.path_of(register).unlink()
    log = register.office / "office.db-wal"
    log.write_bytes(b"a log")
    assert f"{log} is there already, and stays as it is" in list(
        settings_copy.restored(register, copied))
    assert not office_store.path_of(register).exists()


@pytest.mark.parametrize("is_later_whole", [True, False])
def test_of_several_histories_the_last_that_is_whole_comes_back(
    is_later_whole: bool, copied: pathlib.Path, register: registers.Register
) -> None:
    """All others are named, and left where they are."""
    register.history.unlink()
    record(register, 7, 8)
    if not is_later_whole:
        register.history.write_bytes(
            register.history.read_bytes().replace(b'"child":7', b'"child":9'))
    list(history_copies.copy(register))
    register.history.unlink()
    first, second = history_copies.made(copied.parent / "history")
    lines = list(history_copies.restored(register, copied.parent / "history"))
    taken, left = (second, first) if is_later_whole else (first, second)
    assert f"took {register.history} from {taken}" in lines
    assert register.history.read_bytes() == gzip.decompress(taken.read_bytes())
    (line,) = [it for it in lines if not it.startswith("took")]
    assert line.startswith(str(left)) and "is left where it is" in line
    assert ("line 2: the history was changed" in line) is not is_later_whole


@pytest.mark.parametrize("damage", [*DAMAGED, lambda it: gzip.compress(
    gzip.decompress(it).replace(b'"child":1', b'"child":9'))])
def test_a_history_that_is_not_whole_is_not_brought_back(
    damage: Damage, copied: pathlib.Path, register: registers.Register
) -> None:
    path = history_copies.made(copied.parent / "history")[0]
    path.write_bytes(damage(path.read_bytes()))
    register.history.unlink()
    (line,) = history_copies.restored(register, copied.parent / "history")
    assert line.startswith(f"{path} is left where it is, and not brought back: {path}")
    assert not register.history.exists()


def test_a_copy_without_a_history_beside_it_says_so(
    copied: pathlib.Path, register: registers.Register, machine: pathlib.Path
) -> None:
    alone = machine / copied.name
    shutil.copy(copied.with_suffix(".tar"), alone.with_suffix(".tar"))
    assert (
        list(settings_copy.restored(register, alone))[-1]
        == f"there is no history in {machine}/history: who did what is not brought back"
    )


def with_members(copied: pathlib.Path, **members: bytes) -> None:
    """Puts an archive with these files in the place of that beside a copy."""
    with tarfile.open(copied.with_suffix(".tar"), "w") as archive:
        for name, content in members.items():
            member = tarfile.TarInfo(name.replace("_", "."))
            member.mode, member.uname, member.gname = 0o4777, "daemon", "daemon"
            member.size = len(content)
            archive.addfile(member, io.BytesIO(content))


def test_an_archive_of_an_earlier_version_brings_no_people(
    copied: pathlib.Path, register: registers.Register, machine: pathlib.Path
) -> None:
    empty(register, machine)
    with_members(copied, roles=b"jane office;\n", passwords=b"jane:$6$x\n", authority=b"A\n")
    lines = list(settings_copy.restored(register, copied))
    archive = copied.with_suffix(".tar")
    assert lines[0] == f"{archive} has no office.db: nobody of before may sign in"
    assert (machine / "etc/authority").read_text() == "A\n"
    assert not register.settings.exists()
    with pytest.raises(Refused, match=f"^the settings of {copied} lack office.db, site-name$"):
        drill.settings_text(copied)


def test_people_that_are_no_database_are_an_error(
    copied: pathlib.Path, register: registers.Register, machine: pathlib.Path
) -> None:
    empty(register, machine)
    with_members(copied, office_db=b"no database of anybody", site_name=b"admissions.example\n")
    said = f"^office.db of {copied.with_suffix('.tar')} cannot be read: "
    with pytest.raises(Refused, match=said):
        list(settings_copy.restored(register, copied))
    assert not register.office.exists()
    with pytest.raises(Refused, match="lack site-name"):
        drill.settings_text(copied)


def test_an_archive_brings_what_is_copied_and_no_owner_or_mode(
    copied: pathlib.Path,
    register: registers.Register,
    machine: pathlib.Path,
    tmp_path: pathlib.Path,
) -> None:
    people_file = people_beside(copied, tmp_path).read_bytes()
    empty(register, machine)
    names = ("../above", "/etc/passwd", "site.key", "site.crt", "more", "roles")
    with_members(copied, **dict.fromkeys(names, b"a text\n"), office_db=people_file,
                 authority=b"a text\n")
    with tarfile.open(copied.with_suffix(".tar"), "a") as archive:
        link = tarfile.TarInfo("second-copy")
        link.type, link.linkname = tarfile.SYMTYPE, "/etc/shadow"
        archive.addfile(link)
    assert list(settings_copy.members_of(copied)) == ["office.db", "authority"]
    list(settings_copy.restored(register, copied))
    assert (machine / "etc/authority").read_text() == "a text\n"
    assert (machine / "etc/authority").stat().st_mode & 0o7777 == 0o644
    assert office_store.path_of(register).stat().st_mode & 0o7777 == 0o600
    assert (machine / "etc/second-copy").read_text() == "# the package's own\n"


@pytest.mark.parametrize(
    "given, host", [(["--site", "trial.example"], "trial.example"), ([], "admissions.example")]
)
def test_a_copy_is_set_up_under_the_name_that_is_given_or_its_own(
    given: list[str],
    host: str,
    copied: pathlib.Path,
    machine: pathlib.Path,
    monkeypatch: pytest.MonkeyPatch,
) -> None:
    monkeypatch.setattr(setup, "AUTHORITY", machine / "etc/authority")
    monkeypatch.setattr(certificates, "make", lambda *_: iter(()))
    trial = registers.Register("trial")
    trial.settings.mkdir()
    # (users of the site's own, which is then not asked for)
    (trial.settings / "passwords").write_text("jane:$6$x\n")
    space = given_to_setup("trial", "--copy", str(copied), *given)
    setup.completed(space)
    for step in (setup.take_settings, setup.make_settings):
        list(step(trial, space))
    assert trial.host == host
    assert [it.name for it in office_store.people_of(trial)] == ["alpha", "jane", "page"]
    assert children_of(trial.history.read_bytes()) == [1, 2]


@pytest.mark.parametrize(
    "name", ["x.example; } server { listen 8081; root /etc", "x.example\nroot /etc;", "example"]
)
def test_no_site_has_a_name_that_is_none(
    name: str, copied: pathlib.Path, register: registers.Register
) -> None:
    with_members(copied, **{"site-name": name.encode()})
    with pytest.raises(Refused, match="is no name of a site"):
        setup.completed(given_to_setup("trial", "--copy", str(copied)))
    assert sites.registers_with_site() == [register]
    (register.settings / "site-name").write_text(name)
    with pytest.raises(Refused, match=f"^{register.settings}/site-name: .* is no name of a site"):
        sites.registers_with_site()


def test_an_archive_that_is_none_is_an_error(copied: pathlib.Path) -> None:
    copied.with_suffix(".tar").write_text("no archive")
    with pytest.raises(Refused, match="cannot be read as an archive of settings"):
        settings_copy.members_of(copied)
