"""admissions-admin retire: after it no file of a made-up machine has a child's name, in whatever
form it was stored; what is refused, what goes on after a kill, and what remains at the second
place.
"""
import argparse
import contextlib
import datetime
import gzip
import io
import json
import os
import pathlib
import pwd
import shutil
import sqlite3
import tarfile
import types
import typing
import zipfile
from collections.abc import Iterator

import pytest
from conftest import typed
from machine import (
    deletion, network, office_delete, programs, registers, second_copy, serving, sites
)
from machine.findings import Level
from machine.verbs import accounts, retire, status
from register_files import Refused

NAME = "Zoë Searched-For"
# as UTF-8, and as JSON that is ASCII alone
FORMS = (NAME.encode(), json.dumps(NAME)[1:-1].encode())
NAMES = ("secondary-2025", "primary-2026")
# what has a timer
JOBS = ("backup", "second-copy", "drill")
TODAY, LAST = datetime.date(2026, 1, 10), datetime.date(2025, 12, 31)
TEXT = f'{{"cmd":"add_child","name":"{NAME}"}}\n'.encode()


def database(path: pathlib.Path) -> None:
    """A database in which a row with the name is, and one in a free page; with its log."""
    made = path.with_name(f"made-{path.name}")
    with contextlib.closing(sqlite3.connect(made, isolation_level=None)) as db:
        db.execute("PRAGMA secure_delete=OFF")
        db.execute("PRAGMA journal_mode=WAL")
        db.execute("PRAGMA wal_autocheckpoint=0")
        db.execute("CREATE TABLE child (name TEXT)")
        db.executemany("INSERT INTO child VALUES (?)", [(NAME + "x" * 3000,)] * 9)
        db.execute("PRAGMA wal_checkpoint(TRUNCATE)")
        db.execute("DELETE FROM child")
        db.execute("PRAGMA wal_checkpoint(TRUNCATE)")
        db.execute("INSERT INTO child VALUES (?)", (NAME,))
        for end in ("", "-wal", "-shm"):
            shutil.copyfile(f"{made}{end}", f"{path}{end}")
    made.unlink()
    assert NAME.encode() in path.read_bytes(), "it is in a free page"
    assert NAME.encode() in pathlib.Path(f"{path}-wal").read_bytes()


def archive(path: pathlib.Path) -> None:
    """An archive of a night, with a database."""
    inner = path.with_suffix(".inner")
    database(inner)
    with tarfile.open(path, "w") as made:
        made.add(inner, "office.db")
    for end in ("", "-wal", "-shm"):
        pathlib.Path(f"{inner}{end}").unlink()


def season(path: pathlib.Path) -> None:
    """An archive of a season."""
    with zipfile.ZipFile(path, "w", zipfile.ZIP_DEFLATED) as made:
        made.writestr("history.jsonl", TEXT)


def packed(path: pathlib.Path) -> None:
    path.write_bytes(gzip.compress(TEXT))


def text(path: pathlib.Path) -> None:
    path.write_bytes(TEXT)


def ascii_text(path: pathlib.Path) -> None:
    path.write_bytes(json.dumps({"name": NAME}).encode())


def site_name(path: pathlib.Path) -> None:
    path.write_text("admissions.example\n")


# the files of a register by its folders, and how each is made
FILES: dict[str, dict[str, typing.Callable[[pathlib.Path], None]]] = {
    "lib": {"reg.db": database, "reg.db-journal": text, "reg.db.before-2026-01-02": database},
    "backups": {
        "nightly-000001-2026-01-02T023000.db": database,
        "nightly-000001-2026-01-02T023000.tar": archive, "before-round-1.db": database,
        "history/history-000001-0123456789abcdef.gz": packed, "office/copy-1.db": database,
        "log/asked.log-20260101.gz": packed, "drill.report": ascii_text,
    },
    "office": {
        "office.db": database, "office.db-journal": text, "history.jsonl": ascii_text,
        "history.jsonl.new": text, "letters/1/letters.json": text, "previews/a.pdf": text,
        "archive/season.zip": season, "gazetteer/given": text, "requests/delete.done": text,
        "aside/office.db": database, "changed/history.jsonl": ascii_text,
    },
    "log": {"asked.log": text, "asked.log.1": text, "asked.log.2.gz": packed},
    "etc": {"site-name": site_name, "site.key": text, "site.crt": text, "old/roles": text,
            "deletion-day": text},
    "mnt": {"nightly-000001-2026-01-02T023000.db": database, "history/history-000001-x.gz": packed,
            "nightly-000001-2026-01-02T023000.tar": archive},
}


def parts(data: bytes) -> Iterator[bytes]:
    """The bytes of a file, and what is packed in them."""
    yield data
    if data[:2] == b"\x1f\x8b":
        yield from parts(gzip.decompress(data))
    with contextlib.suppress(tarfile.TarError), tarfile.open(fileobj=io.BytesIO(data)) as found:
        for member in found:
            file = found.extractfile(member)
            yield from parts(file.read()) if file else ()
    with contextlib.suppress(zipfile.BadZipFile), zipfile.ZipFile(io.BytesIO(data)) as made:
        for name in made.namelist():
            yield from parts(made.read(name))


def with_name(machine: pathlib.Path) -> set[str]:
    """The files below a folder that have the name of the child."""
    found = (it for it in machine.rglob("*") if it.is_file() and not it.is_symlink())
    return {str(it.relative_to(machine)) for it in found
            if any(form in part for part in parts(it.read_bytes()) for form in FORMS)}


def everything(machine: pathlib.Path) -> dict[str, bytes]:
    """All files below a folder."""
    return {str(it.relative_to(machine)): it.read_bytes() for it in machine.rglob("*")
            if it.is_file()}


@pytest.fixture(name="calls")
def calls_fixture() -> list[tuple[str, ...]]:
    """What systemctl was called with."""
    return []


@pytest.fixture(name="register")
def register_fixture(
    machine: pathlib.Path, calls: list[tuple[str, ...]], monkeypatch: pytest.MonkeyPatch,
    write_as_me: None,
) -> registers.Register:
    """A machine with two registers, of which each has a file of every kind."""
    for name in ("log", "mnt", "sites"):
        (machine / name).mkdir()
    wanted = machine / "units/timers.target.wants"
    wanted.mkdir(parents=True)
    for register in NAMES:
        for job in JOBS:
            (wanted / f"admissions-{job}@{register}.timer").symlink_to("/usr/lib/systemd/system")
        for folder, made in FILES.items():
            for name, make in made.items():
                path = machine / folder / register / name
                path.parent.mkdir(parents=True, exist_ok=True)
                make(path)
        (machine / "sites" / f"admissions-{register}").write_text(register)
    (machine / "etc/second-copy").write_text(f"{machine / 'mnt'}\n")
    monkeypatch.setattr(retire, "LOGS", machine / "log")
    monkeypatch.setattr(office_delete, "SETTINGS", machine / "etc")
    monkeypatch.setattr(sites, "ENABLED", machine / "sites")
    monkeypatch.setattr(sites, "AVAILABLE", machine / "available")
    monkeypatch.setattr(sites, "MODEL", machine / "sites/admissions")
    monkeypatch.setattr(network, "UNITS", machine / "units")
    monkeypatch.setattr(deletion, "today", lambda: TODAY)
    monkeypatch.setattr(retire, "USER", pwd.getpwuid(os.geteuid()).pw_name)
    monkeypatch.setattr(
        retire, "stored", lambda _: types.SimpleNamespace(days=(None, None, LAST)))
    call = programs.call

    def called(*arguments: object, **more: typing.Any) -> typing.Any:
        if arguments[0] == "systemctl":
            calls.append(tuple(map(str, arguments[1:])))
            for unit in calls[-1] if calls[-1][0] == "disable" else ():
                (wanted / unit).unlink(missing_ok=True)
            return types.SimpleNamespace(stdout="")
        return call(*arguments, **more)

    for module in (retire, office_delete, serving):
        monkeypatch.setattr(module, "call", called)
        monkeypatch.setattr(module, "tool", lambda name, _: name)
    for it in (retire, serving):
        monkeypatch.setattr(it, "is_booted", lambda: True)
    return registers.Register("secondary-2025")


def run(*options: str, name: str = "secondary-2025") -> int:
    reader = argparse.ArgumentParser()
    retire.arguments(reader)
    return retire.main(reader.parse_args([name, "--yes", *options]))


def test_no_file_has_the_name_and_the_record_alone_stays(
    register: registers.Register, machine: pathlib.Path, capsys: pytest.CaptureFixture[str]
) -> None:
    before = everything(machine)
    mine = {f"{folder}/{register.name}/{it}" for folder, made in FILES.items() for it in made}
    # (the search finds it in each form)
    assert mine - with_name(machine) == {f"etc/{register.name}/site-name"}
    assert run("--second-place") == 0
    after = everything(machine)
    gone = {it for it in before if register.name in it}
    record = f"etc/{register.name}/deleted"
    assert set(after) - {"lock"} == (set(before) - gone) | {record}
    others = {it for it in before if register.name not in it}
    assert {it: before[it] for it in others} == {it: after[it] for it in others}
    assert not [it for it in with_name(machine) if register.name in it]
    found = json.loads(after[record])
    assert not any(form in after[record] for form in FORMS)
    count = sum(len(FILES[it]) for it in ("lib", "backups", "office", "log"))
    logs = sum(make is database for it in ("lib", "backups", "office")
               for make in FILES[it].values())
    assert found["files"] == str(count + 2 * logs) and found["remains"] == ""
    assert found["day"] == TODAY.isoformat() and found["by"].startswith("administrator")
    said = capsys.readouterr().out
    assert "secondary-2025 is deleted" in said and "remains" not in said
    for folder in ("lib", "backups", "office", "log"):
        assert not (machine / folder / register.name).exists()


def test_the_units_are_stopped_before_the_first_file_is_gone(
    register: registers.Register, calls: list[tuple[str, ...]], monkeypatch: pytest.MonkeyPatch
) -> None:
    seen: list[int] = []
    empty = office_delete.empty

    def emptied(folder: pathlib.Path) -> None:
        seen.append(len(calls))
        empty(folder)

    monkeypatch.setattr(office_delete, "empty", emptied)
    assert run() == 0
    assert seen and set(seen) == {len(calls)}
    words = [word for call in calls for word in call]
    for unit in (f"admissions@{register.name}.service", *serving.office_units(register)):
        assert unit in words
    assert {call[:2] for call in calls if call[0] not in ("stop", "reset-failed")} == {
        ("disable", "--now")}
    assert not any("primary" in word for word in words)


def test_no_timer_starts_a_unit_of_the_register_afterwards(
    register: registers.Register, machine: pathlib.Path, calls: list[tuple[str, ...]]
) -> None:
    """Nor that of copies by the hour, which an administrator has enabled; and no unit that had
    failed is still named by systemd."""
    wanted = machine / "units/timers.target.wants"
    assert {it.name for it in wanted.iterdir()} == {
        f"admissions-{it}@{name}.timer" for it in JOBS for name in NAMES}
    assert run() == 0
    assert {it.name for it in wanted.iterdir()} == {
        f"admissions-{it}@primary-2026.timer" for it in JOBS}
    failed = {word for call in calls if call[0] == "reset-failed" for word in call[1:]}
    assert failed == {f"admissions-{it}@{register.name}.service" for it in JOBS}


ACCOUNTS = {"title": "Council account", "issuer": "https://id.example", "client": "admissions",
            "secret": "of the two"}


def test_a_later_register_of_the_name_has_no_right_to_the_network(
    register: registers.Register, machine: pathlib.Path, calls: list[tuple[str, ...]],
    monkeypatch: pytest.MonkeyPatch,
) -> None:
    """That which the accounts of the authority gave its application, with their secret, which is in
    its file. What an administrator has changed of the unit stays, and so does another register's
    right."""
    given = machine / "accounts.json"
    given.write_text(json.dumps(ACCOUNTS), encoding="utf-8")
    with monkeypatch.context() as patch:
        patch.setattr(serving, "is_booted", lambda: False)
        patch.setattr(accounts, "provider_fault", lambda _: "")
        for it in map(registers.Register, NAMES):
            for path in it.office.glob("office.db*"):
                path.unlink()
            assert typed("accounts", it.name, str(given)) == 0
    own, other = (network.outside_of(registers.Register(it)) for it in NAMES)
    assert own.exists() and other.exists()
    assert any(b"of the two" in it.read_bytes() for it in register.office.glob("office.db*"))
    changed = own.with_name("override.conf")
    changed.write_text("[Service]\nMemoryMax=4G\n", encoding="ascii")
    assert run("--second-place") == 0
    assert calls[-1] == ("daemon-reload",)
    assert (own.exists(), changed.exists(), other.exists()) == (False, True, True)
    assert not [it for it in machine.rglob("*") if register.name in str(it) and it.is_file()
                and b"of the two" in it.read_bytes()]
    # (as an earlier release has left it)
    changed.unlink()
    own.write_text(accounts.OUTSIDE, encoding="ascii")
    before = deletion.record_of(register)
    assert run("--second-place") == 0 and not own.parent.exists()
    after = deletion.record_of(register)
    assert {**after, "ended": ""} == {**before, "ended": ""}


def test_what_the_deletion_of_the_office_may_not_delete_is_named_until_it_is_deleted(
    register: registers.Register, machine: pathlib.Path
) -> None:
    """What root has put aside in the folder of the application."""
    office_delete.delete(register, TODAY)
    for it in register.office.iterdir():
        if it.is_dir() and it.name not in ("aside", "changed"):
            office_delete.empty(it)
    level, text = status.report(register)["deleted"]
    assert (level, f"{register.office}/aside, {register.office}/changed may have" in text) == (
        Level.ATTENTION, True)
    assert text.endswith(f": admissions-admin retire {register.name}")
    assert run("--second-place") == 0
    assert not [it for it in with_name(machine) if register.name in it]
    assert status.report(register)["deleted"].level is Level.OK


def test_what_remains_at_the_second_place_is_named_and_deleted_later(
    register: registers.Register, machine: pathlib.Path, capsys: pytest.CaptureFixture[str]
) -> None:
    assert run() == 0
    there = f"{machine / 'mnt'}/{register.name}"
    assert f"{there} remains: delete it there" in capsys.readouterr().out
    remaining = {it for it in with_name(machine) if register.name in it}
    assert {it.removesuffix("-wal") for it in remaining} == {
        f"mnt/{register.name}/{it}" for it in FILES["mnt"]}
    assert deletion.record_of(register)["remains"] == there
    assert run("--second-place") == 0
    assert not [it for it in with_name(machine) if register.name in it]
    assert deletion.record_of(register)["remains"] == ""
    assert run() == 0 and deletion.record_of(register)["remains"] == ""


def test_where_nothing_was_ever_sent_nothing_remains(
    register: registers.Register, machine: pathlib.Path, capsys: pytest.CaptureFixture[str]
) -> None:
    place = machine / "empty"
    place.mkdir()
    (machine / "etc/second-copy").write_text(f"{place}\n")
    assert run() == 0 and "remains" not in capsys.readouterr().out
    assert deletion.record_of(register)["remains"] == ""


def test_a_second_place_that_cannot_be_reached_remains(
    register: registers.Register, machine: pathlib.Path, capsys: pytest.CaptureFixture[str]
) -> None:
    (machine / "etc/second-copy").write_text(f"{machine / 'unmounted'}\n")
    assert run("--second-place") == 1
    said = capsys.readouterr()
    assert "is the disk mounted?" in said.err
    assert f"{machine / 'unmounted'}/{register.name} remains" in said.out
    assert not register.folder.exists() and deletion.record_of(register)["remains"]


def test_the_copies_of_the_machine_that_has_taken_over_stay(
    register: registers.Register, machine: pathlib.Path, monkeypatch: pytest.MonkeyPatch,
    capsys: pytest.CaptureFixture[str],
) -> None:
    """The first machine is retired some days later, when the second place is the other one's. Its
    own copies go, also after the place was not reached at first."""
    owner = machine / "mnt" / register.name / second_copy.OWNER
    owner.write_text(f"{'7' * 32} office-2\n")
    before = everything(machine)
    with pytest.raises(Refused, match="has the copies of the machine office-2, which goes on"):
        run("--second-place")
    assert {**everything(machine), "lock": b""} == {**before, "lock": b""}
    with monkeypatch.context() as patch:
        patch.setattr(retire, "see_own_place", lambda _: None)
        assert run("--second-place") == 1
    assert "it has the copies of the machine office-2" in capsys.readouterr().err
    assert {it: data for it, data in everything(machine).items() if it.startswith("mnt/")} == {
        it: data for it, data in before.items() if it.startswith("mnt/")}
    owner.write_text(f"{second_copy.machine()} office-1\n")
    assert run("--second-place") == 0 and not owner.exists()


@pytest.mark.parametrize(("last", "options", "said"), [
    (TODAY, [], "the lists of secondary-2025 end on 2026-01-10, and nothing was deleted"),
    (LAST, ["--early", " "], "the reason is one line"),
    (LAST, ["--early", "a\nb"], "the reason is one line"),
])
def test_what_is_refused_changes_nothing(
    last: datetime.date, options: list[str], said: str, register: registers.Register,
    machine: pathlib.Path, monkeypatch: pytest.MonkeyPatch
) -> None:
    monkeypatch.setattr(
        retire, "stored", lambda _: types.SimpleNamespace(days=(None, None, last)))
    before = everything(machine)
    with pytest.raises(Refused, match=said):
        run(*options)
    with pytest.raises(Refused, match="no such register: .*; registers of this machine: "):
        run(name="secondary-2031")
    assert {**everything(machine), "lock": b""} == {**before, "lock": b""}


def test_a_register_whose_file_is_lost_is_not_taken_for_one_that_has_ended(
    register: registers.Register, machine: pathlib.Path, monkeypatch: pytest.MonkeyPatch
) -> None:
    """Its copies may be all that is left of a season."""
    register.file.unlink()

    def lost(_: pathlib.Path) -> None:
        raise Refused("it is not there")

    monkeypatch.setattr(retire, "stored", lost)
    with pytest.raises(Refused, match="does not say when its lists end"):
        run()
    assert register.nightly_copies()
    assert run("--early", "a machine for trials") == 0
    assert deletion.record_of(register)["early"] == "a machine for trials"
    assert not register.copies.exists()


def test_a_new_register_of_the_name_is_not_covered_by_an_old_record(
    register: registers.Register, machine: pathlib.Path, monkeypatch: pytest.MonkeyPatch
) -> None:
    assert run() == 0
    register.folder.mkdir()
    database(register.file)
    monkeypatch.setattr(
        retire, "stored", lambda _: types.SimpleNamespace(days=(None, None, TODAY)))
    with pytest.raises(Refused, match="the lists of secondary-2025 end on"):
        run()
    assert register.file.exists()


class Killed(BaseException):
    """The command was ended here."""


def test_one_that_was_killed_at_any_step_goes_on(
    register: registers.Register, machine: pathlib.Path, monkeypatch: pytest.MonkeyPatch
) -> None:
    """Before each folder is emptied, before the record is whole, and within the settings; the lists
    cannot be read any more then."""
    steps = [(office_delete, "empty", 0), (office_delete, "empty", 1), (office_delete, "empty", 3),
             (deletion, "forget", 0), (retire, "remove_site", 0), (deletion, "sync", 2)]
    kept = machine.parent / "kept"
    shutil.copytree(machine, kept, symlinks=True)
    for module, name, at in steps:
        count = iter(range(99))
        whole = getattr(module, name)

        def killed(*given: typing.Any) -> typing.Any:
            if next(count) == at:
                raise Killed
            return whole(*given)

        with monkeypatch.context() as patch:
            patch.setattr(module, name, killed)
            with pytest.raises(Killed):
                run("--second-place")
        with monkeypatch.context() as patch:
            patch.setattr(retire, "stored", lambda _: pytest.fail("the file is half deleted"))
            assert run("--second-place") == 0
        assert not [it for it in with_name(machine) if register.name in it]
        assert "ended" in deletion.record_of(register)
        shutil.rmtree(machine)
        shutil.copytree(kept, machine, symlinks=True)


def test_without_a_terminal_it_must_be_confirmed(
    register: registers.Register, machine: pathlib.Path, monkeypatch: pytest.MonkeyPatch
) -> None:
    reader = argparse.ArgumentParser()
    retire.arguments(reader)
    given = reader.parse_args([register.name])
    monkeypatch.setattr("sys.stdin", io.StringIO(f"{register.name}\n"))
    with pytest.raises(Refused, match="without a terminal --yes confirms"):
        retire.main(given)
    for word, is_done in (("yes", False), ("primary-2026", False), (register.name, True)):
        terminal = io.StringIO(f"{word}\n")
        monkeypatch.setattr(terminal, "isatty", lambda: True, raising=False)
        monkeypatch.setattr("sys.stdin", terminal)
        if is_done:
            assert retire.main(given) == 0
        else:
            with pytest.raises(Refused, match="another name was typed"):
                retire.main(given)
        assert register.file.exists() is not is_done


@pytest.mark.parametrize("at_second_place", [False, True])
def test_the_question_names_the_machine_and_the_site(
    at_second_place: bool, register: registers.Register, machine: pathlib.Path,
    monkeypatch: pytest.MonkeyPatch, capsys: pytest.CaptureFixture[str],
) -> None:
    """A machine that took a register over, as for a rehearsal, has one of the same name as the
    first. The second place is named only where it is deleted too."""
    monkeypatch.setattr("socket.gethostname", lambda: "office-2")
    reader = argparse.ArgumentParser()
    retire.arguments(reader)
    given = reader.parse_args([register.name, *["--second-place"] * at_second_place])

    def asked() -> list[str]:
        terminal = io.StringIO("no\n")
        monkeypatch.setattr(terminal, "isatty", lambda: True, raising=False)
        monkeypatch.setattr("sys.stdin", terminal)
        with pytest.raises(Refused, match="another name was typed"):
            retire.main(given)
        return capsys.readouterr().out.splitlines()

    found = asked()
    there = f"{machine / 'mnt' / register.name}: all of it, at the second place"
    assert (there in found) is at_second_place
    question = "Type the name of the register to delete all of it: "
    assert found[-2:] == [
        f"This is the machine office-2, where {register.name} has the site admissions.example.",
        question]
    (register.settings / "site-name").unlink()
    assert asked()[-2:] == [
        f"This is the machine office-2, where {register.name} has no site.", question]


def test_no_link_is_followed(register: registers.Register, machine: pathlib.Path) -> None:
    outside = machine / "outside"
    outside.mkdir()
    (outside / "kept").write_text("of somebody else")
    (register.office / "letters/away").symlink_to(outside)
    (register.settings / "away").symlink_to(outside)
    assert run() == 0
    assert (outside / "kept").read_text() == "of somebody else"


def test_the_second_place_of_another_register_stays(
    register: registers.Register, machine: pathlib.Path
) -> None:
    before = {it: data for it, data in everything(machine / "mnt").items() if "primary" in it}
    assert run("--second-place") == 0
    assert {it: data for it, data in everything(machine / "mnt").items()
            if "primary" in it} == before and second_copy.place_of() == str(machine / "mnt")
