"""admissions-admin restore, close and open: what is shown before, killed at each step and typed
again, and whose people are there afterwards."""
import datetime
import io
import os
import pathlib
import sys
import tarfile
import typing

import pytest
from conftest import Systemd, Terminal, document, typed
from machine import (
    brought, copies, files, history_copies, office_copy, office_store, people, registers,
    second_copy, serving, sites,
)
from machine.verbs import copy as copy_verb, open as open_verb, restore, status
from office.web.register.history import ANSWER, SENDS, History
from register_files import Refused

NAME = "secondary-2025"
COPY = "nightly-000012-2025-03-03T023000.db"
RESTORE = """#!/bin/sh
[ ! -e "$2" ] || cp "$2" "$2.before-restore-1"
cp "$1" "$2" && echo "reg.db is restored from $1"
"""
STOPS = [f"stop admissions-backup@{NAME}.timer admissions-backup@{NAME}.service"
         f" admissions-office@{NAME}.socket admissions-office@{NAME}.service"
         f" admissions-office-restore@{NAME}.service",
         f"stop admissions@{NAME}.service"]
STARTS = [f"start {it}" for it in (
    f"admissions@{NAME}.service", f"admissions-office@{NAME}.socket",
    f"admissions-office@{NAME}.service", f"admissions-backup@{NAME}.timer",
    f"admissions-drill@{NAME}.timer")]
COPIES = [f"start admissions-{it}@{NAME}.service" for it in ("backup", "second-copy")]


@pytest.fixture(name="damaged")
def damaged_fixture(
    users: registers.Register, systemd: Systemd, machine: pathlib.Path,
    monkeypatch: pytest.MonkeyPatch,
) -> registers.Register:
    """A register that does not open, with a nightly copy and with the people of then, ann alone."""
    program = machine / "admissions-restore"
    program.write_text(RESTORE, encoding="ascii")
    program.chmod(0o755)
    monkeypatch.setattr(restore, "program", lambda name: str(machine / name))
    monkeypatch.setattr(restore, "USER", None)
    users.office_copies.mkdir()
    monkeypatch.setattr(office_copy, "give", lambda _: None)
    path = users.copies / COPY
    path.write_text(document(schools=1), encoding="utf-8")
    then = registers.Register("then")
    then.office.mkdir()
    people.add(then, "ann", "head")
    with tarfile.open(copies.settings_of(path), "w") as archive:
        data = office_store.copy_of(then)
        member = tarfile.TarInfo(office_store.NAME)
        member.size = len(data)
        archive.addfile(member, io.BytesIO(data))
    users.file.write_text("damaged", encoding="ascii")
    sent_at(users, 1, "2025-03-02T10:00:00")

    def back_up() -> None:
        (users.copies / "nightly-000013-2025-03-04T023000.db").write_text("next")

    systemd.does = {f"start admissions-backup@{NAME}.service": back_up}
    return users


def sent_at(register: registers.Register, child: int, at: str) -> None:
    """Records a command that was done."""
    moment = datetime.datetime.fromisoformat(at).astimezone(datetime.timezone.utc).isoformat()
    record = History(str(register.history), lambda: moment)
    of = record.add("jane", SENDS, {"command": {"cmd": "accept", "child": child}}).number
    record.add("jane", ANSWER, {"of": of, "answer": {"done": True}})
    record.close()


def waiting(register: registers.Register) -> list[tuple[int, str]]:
    """What waits on the screen of the application to be sent again: the child, and the copy that it
    came after; and that what the register has is that of this copy."""
    with brought.application(register) as parts:
        found = parts.restores.present()
        if not found:
            return []
        copy = parts.copies.get(found.copy)
        assert copy.is_there and copy.name == "office-000001-2025-03-03T023000.db"
        assert (register.office_copies / copy.name).read_bytes() == register.file.read_bytes()
        entries = [parts.restores.sending.entry(it) for it in parts.restores.sending.rows(found)]
        assert not any(it.number in parts.history.lineage() for it in entries)
        return [(it.about["command"]["child"], copy.purpose) for it in entries]


def killed(*_: object) -> typing.NoReturn:
    raise KeyboardInterrupt


def names(register: registers.Register) -> list[str]:
    return list(people.users_of(register))


def test_the_newest_copy_takes_the_place_of_a_register_that_does_not_open(
    damaged: registers.Register, systemd: Systemd, capsys: pytest.CaptureFixture[str]
) -> None:
    """Nothing was sent since, so the office is open afterwards, with new copies. Its people stay,
    and what was there is kept."""
    assert typed("restore", "--yes") == 0
    assert damaged.file.read_text(encoding="utf-8") == document(schools=1)
    assert pathlib.Path(f"{damaged.file}.before-restore-1").read_text(encoding="ascii") == "damaged"
    assert systemd.lines("stop", "start") == [*STOPS, *STARTS, *COPIES]
    said = capsys.readouterr().out.splitlines()
    assert said[0].startswith(f"{COPY} is as at 2025-03-03 02:30:00: secondary 2025: 1 schools, ")
    assert said[1] == f"reg.db is restored from {damaged.copies / COPY}"
    assert f"{NAME} is open; new copies are made" in said
    assert names(damaged) == ["ben", "jane"]


def test_what_was_sent_since_is_counted_before_and_waits_to_be_sent_again(
    damaged: registers.Register, systemd: Systemd, monkeypatch: pytest.MonkeyPatch,
    capsys: pytest.CaptureFixture[str],
) -> None:
    sent_at(damaged, 2, "2025-03-03T10:00:00")
    monkeypatch.setattr(sys, "stdin", Terminal("no\nyes\n"))
    with pytest.raises(Refused, match="nothing was changed"):
        typed("restore", NAME, COPY)
    said = capsys.readouterr().out
    assert "since then 1 commands and imports were sent, which are undone until" in said
    assert f"on {os.uname().nodename} the register of {NAME} (admissions.example) become" in said
    assert damaged.file.read_text(encoding="ascii") == "damaged" and systemd.calls == []
    assert typed("restore", NAME, COPY) == 0
    assert systemd.lines("stop", "start") == [*STOPS, *STARTS, *COPIES]
    assert ("waits on the screen Copies of https://admissions.example/: jane (1). Recording is"
            " paused until") in capsys.readouterr().out
    assert waiting(damaged) == [(2, f"restored by IT support: {COPY[:-3]}")]


def test_another_copy_is_restored_where_the_first_was_the_wrong_one(
    damaged: registers.Register, systemd: Systemd
) -> None:
    """What came since it waits, and what was still to be sent since the first one; also where the
    same is restored twice."""
    earlier = "nightly-000011-2025-03-01T023000.db"
    (damaged.copies / earlier).write_bytes((damaged.copies / COPY).read_bytes())
    sent_at(damaged, 2, "2025-03-03T10:00:00")
    new = damaged.copies / "nightly-000013-2025-03-04T023000.db"
    found = []
    for name in (COPY, earlier, earlier, COPY):
        assert typed("restore", NAME, name, "--yes") == 0
        new.unlink()
        with brought.application(damaged) as parts:
            present = parts.restores.present()
            assert present is not None
            rows = parts.restores.sending.rows(present)
            found.append([parts.restores.sending.entry(it).about["command"]["child"]
                          for it in rows])
            assert [it.is_ended for it in parts.restores.listed()].count(False) == 1
    assert found == [[2], [1, 2], [1, 2], [2]]


# what is done when the office is open
AFTER = ((copy_verb, "made"), (copy_verb, "sent"))


@pytest.mark.parametrize("place", [
    (serving, "stop"), (restore, "restore"), (files, "put_aside"), (office_store, "restored"),
    (files, "copy_as_desk"), (brought, "begin"), (serving, "start"), *AFTER])
def test_killed_at_each_step_and_typed_again_it_goes_on(
    place: tuple[typing.Any, str], damaged: registers.Register, systemd: Systemd,
    monkeypatch: pytest.MonkeyPatch,
) -> None:
    with monkeypatch.context() as patch:
        patch.setattr(*place, killed)
        with pytest.raises(KeyboardInterrupt):
            typed("restore", NAME, COPY, "--people", "--yes")
    # (until it is typed again nothing opens the office, and each part says so)
    how = f"its restore has not ended: admissions-admin restore {NAME} {COPY} --people"
    if place not in ((serving, "stop"), (serving, "start"), *AFTER):
        with pytest.raises(Refused, match=f"^{how}$"):
            typed("open")
        found = status.report(damaged)
        assert {found[it].text for it in ("register", "desk", "site", "units")} == {how}
    systemd.calls.clear()
    (damaged.copies / "nightly-000013-2025-03-04T023000.db").unlink(missing_ok=True)
    assert typed("restore", NAME, COPY, "--people", "--yes") == 0
    assert damaged.file.read_text(encoding="utf-8") == document(schools=1)
    assert systemd.lines("start") == [*STARTS, *COPIES]
    assert names(damaged) == ["ann"]
    aside = [it.read_bytes() for it in (damaged.office / "aside").iterdir()
             if it.name.endswith("office.db")]
    assert any(b"ben" in it for it in aside)
    # (what was there is kept once)
    kept = pathlib.Path(f"{damaged.file}.before-restore-1")
    assert kept.read_text(encoding="ascii") == "damaged"


def test_a_restore_by_the_office_that_was_killed_is_not_done_after_it(
    damaged: registers.Register, systemd: Systemd
) -> None:
    """It would put its own copy in the place of this one, when the application starts."""
    requests = damaged.office / "requests"
    requests.mkdir()
    for it in ("restore", "restore.begun", "copy"):
        (requests / it).write_text("1", encoding="ascii")
    assert typed("restore", NAME, COPY, "--yes") == 0
    assert sorted(it.name for it in requests.iterdir()) == ["copy"]


def test_without_a_history_the_copy_is_restored_with_a_warning(
    damaged: registers.Register, systemd: Systemd, capsys: pytest.CaptureFixture[str]
) -> None:
    damaged.history.unlink()
    assert typed("restore", "--yes") == 0 and systemd.lines("start") == [*STARTS, *COPIES]
    assert "WARNING: what was done since then is not known: " in capsys.readouterr().out


def test_people_alone_come_back_and_the_register_stays(
    damaged: registers.Register, systemd: Systemd, capsys: pytest.CaptureFixture[str]
) -> None:
    sent_at(damaged, 2, "2025-03-03T10:00:00")
    path = office_store.path_of(damaged)
    path.write_bytes(b"no database")
    assert typed("restore", "--people-alone", "--yes") == 0
    assert damaged.file.read_text(encoding="ascii") == "damaged"
    assert names(damaged) == ["ann"]
    assert systemd.lines("start") == [*STARTS, *COPIES]
    assert "Whoever was removed or locked since may sign in again" in capsys.readouterr().out


def fail(*_: object) -> typing.NoReturn:
    raise Refused("No space left on device")


def test_a_register_that_cannot_be_replaced_is_opened_as_it_was(
    damaged: registers.Register, systemd: Systemd, machine: pathlib.Path,
    monkeypatch: pytest.MonkeyPatch,
) -> None:
    """But not one that an earlier line has replaced, as long as what came since does not wait."""
    real = machine / "admissions-restore"
    good = real.read_text(encoding="ascii")
    real.write_text("#!/bin/sh\necho no room; exit 1\n", encoding="ascii")
    with pytest.raises(Refused, match="no room"):
        typed("restore", NAME, COPY, "--yes")
    assert not (damaged.settings / brought.BEGUN).exists()
    assert typed("open") == 0
    real.write_text(good, encoding="ascii")
    with monkeypatch.context() as patch:
        patch.setattr(brought, "begin", fail)
        with pytest.raises(Refused, match="No space left"):
            typed("restore", NAME, COPY, "--yes")
    other = damaged.copies / "nightly-000011-2025-03-01T023000.db"
    other.write_text(document(), encoding="utf-8")
    real.write_text("#!/bin/sh\necho no room; exit 1\n", encoding="ascii")
    with pytest.raises(Refused, match="no room"):
        typed("restore", NAME, other.name, "--yes")
    with pytest.raises(Refused, match=f"has not ended: admissions-admin restore {NAME} {COPY}$"):
        typed("open")


def test_people_that_cannot_be_brought_back_leave_those_of_now(
    damaged: registers.Register, monkeypatch: pytest.MonkeyPatch
) -> None:
    monkeypatch.setattr(office_store, "restored", fail)
    with pytest.raises(Refused, match="No space left"):
        typed("restore", "--people-alone", "--yes")
    assert names(damaged) == ["ben", "jane"]


def test_another_file_than_was_put_aside_is_not_put_back(
    damaged: registers.Register, machine: pathlib.Path, monkeypatch: pytest.MonkeyPatch
) -> None:
    """The folder is one of the application, which may have others with the rights of these: its
    users may be renamed or replaced meanwhile, and so may the folder."""
    aside = damaged.office / office_store.ASIDE
    other = machine / "other"

    def replaced(*words: object) -> typing.NoReturn:
        [name] = [it.name for it in aside.iterdir() if it.name.endswith("office.db")]
        aside.rename(other)
        aside.mkdir()
        (aside / name).write_bytes(b"another head")
        fail()

    monkeypatch.setattr(office_store, "restored", replaced)
    with pytest.raises(Refused, match="is another file than was put aside, so .* is not put back"):
        typed("restore", "--people-alone", "--yes")
    assert not os.path.lexists(office_store.path_of(damaged))
    assert [it.name.endswith("office.db") for it in other.iterdir()].count(True) == 1


@pytest.mark.parametrize("words, said", [
    ([NAME, "nightly-x.db"], f"nightly-x.db is not there; the last copies: {COPY}"),
    (["other", COPY], "no such register: other"), ([NAME, "/etc/x.db"], "type the name of"),
    ([NAME, "other", COPY], "type the name of"), ([COPY, "other.db"], "type the name of"),
])
def test_a_wrong_name_changes_nothing(
    words: list[str], said: str, damaged: registers.Register, systemd: Systemd
) -> None:
    with pytest.raises(Refused, match=said) as found:
        typed("restore", *words, "--yes")
    assert (found.value.status, systemd.calls) == (2, [])
    assert damaged.file.read_text(encoding="ascii") == "damaged"


def test_what_stands_in_the_way_is_named(
    damaged: registers.Register, systemd: Systemd, machine: pathlib.Path,
    monkeypatch: pytest.MonkeyPatch,
) -> None:
    """A changed history, a file of the application that cannot be read, people that are not beside
    the copy, a takeover, a copy that is none."""
    whole = damaged.history.read_bytes()
    damaged.history.write_bytes(whole.replace(b"jane", b"jony"))
    with pytest.raises(Refused, match=f"First: admissions-admin history {NAME} --mend"):
        typed("restore", "--yes")
    damaged.history.write_bytes(whole)
    office = office_store.path_of(damaged)
    whole = office.read_bytes()
    office.write_bytes(b"no database")
    with pytest.raises(Refused, match="cannot be read: .*: restore with --people"):
        typed("restore", "--yes")
    office.write_bytes(whole)
    archive = copies.settings_of(damaged.copies / COPY)
    archive.rename(machine / "away")
    with pytest.raises(Refused, match="has no people beside it"):
        typed("restore", "--people", "--yes")
    (damaged.settings / brought.BEGUN).write_text('{"copy": "x.db", "entries": 1}\n')
    with pytest.raises(Refused, match="its takeover has not ended"):
        typed("restore", "--yes")
    (damaged.settings / brought.BEGUN).unlink()
    (damaged.copies / COPY).write_text("no register")
    with pytest.raises((Refused, ValueError)):
        typed("restore", "--yes")
    (damaged.copies / COPY).unlink()
    with pytest.raises(Refused, match=f"has no nightly copy: admissions-admin takeover {NAME}"):
        typed("restore", "--yes")
    assert systemd.calls == [] and damaged.file.read_text(encoding="ascii") == "damaged"


def close(machine: pathlib.Path, systemd: Systemd, monkeypatch: pytest.MonkeyPatch) -> None:
    """Closes the office, as `admissions-admin close` does."""
    monkeypatch.setattr(serving, "MASKS", machine)
    unit = machine / f"admissions@{NAME}.service"
    unit.symlink_to(os.devnull)
    systemd.does["unmask"] = unit.unlink


def test_an_office_that_was_closed_is_open_after_a_restore(
    damaged: registers.Register, systemd: Systemd, machine: pathlib.Path,
    monkeypatch: pytest.MonkeyPatch,
) -> None:
    """An administrator closes it first, so that nobody works meanwhile. It stays closed until the
    restore is done."""
    close(machine, systemd, monkeypatch)
    with monkeypatch.context() as patch:
        patch.setattr(brought, "begin", fail)
        with pytest.raises(Refused, match="No space left"):
            typed("restore", "--yes")
    assert systemd.lines("unmask", "start") == []
    assert typed("restore", "--yes") == 0
    unmasked, *starts = systemd.lines("unmask", "start")
    assert unmasked.startswith(f"unmask admissions-office@{NAME}.socket")
    assert starts == [*STARTS, *COPIES]


def test_another_verb_does_not_open_an_office_that_was_closed(
    damaged: registers.Register, systemd: Systemd, machine: pathlib.Path,
    monkeypatch: pytest.MonkeyPatch, capsys: pytest.CaptureFixture[str],
) -> None:
    close(machine, systemd, monkeypatch)
    assert typed("history", "--mend") == 0
    assert systemd.calls == [] and "is whole" in capsys.readouterr().out
    monkeypatch.setattr(serving, "see_needed", lambda: None)
    damaged.file.write_text(document(), encoding="utf-8")
    monkeypatch.setattr(registers, "is_blank", lambda _: False)
    with pytest.raises(Refused, match=f"is closed, and would open: admissions-admin open {NAME}"):
        typed("setup", NAME, "--user", "jane")
    assert systemd.calls == []
    # (as an upgrade does)
    monkeypatch.setattr(sites, "make_all", list)
    monkeypatch.setattr(serving, "make_folders", lambda _: [])
    monkeypatch.setattr(serving, "other_problems", lambda _: [])
    assert typed("sites") == 0 and systemd.lines("unmask", "start", "enable") == []


def test_a_machine_that_was_taken_over_restores_nothing(
    damaged: registers.Register, systemd: Systemd, machine: pathlib.Path
) -> None:
    """Its office would not start after it."""
    (machine / "etc/second-copy").write_text("/mnt/copies\n")
    (damaged.copies / second_copy.TAKEN_OVER).write_text(f"{'7' * 32} office-2\n")
    with pytest.raises(Refused, match=f"the machine office-2 has taken {NAME} over"):
        typed("restore", "--yes")
    assert systemd.calls == [] and damaged.file.read_text(encoding="ascii") == "damaged"


@pytest.mark.parametrize("place", [
    (files, "put_aside"), (files, "write_as"), (serving, "start_application")])
def test_a_mend_of_the_history_that_was_killed_goes_on(
    place: tuple[typing.Any, str], damaged: registers.Register, systemd: Systemd,
    monkeypatch: pytest.MonkeyPatch,
) -> None:
    """The application runs afterwards, and what was changed is kept."""
    whole = damaged.history.read_bytes()
    copies_of = damaged.copies / history_copies.FOLDER
    copies_of.mkdir()
    history_copies.copy_lines(whole, copies_of)
    changed = whole.replace(b"jane", b"jony")
    damaged.history.write_bytes(changed)
    with monkeypatch.context() as patch, pytest.raises(KeyboardInterrupt):
        patch.setattr(*place, killed)
        typed("history", "--mend", "--yes")
    systemd.calls.clear()
    assert typed("history", "--mend", "--yes") == 0
    assert damaged.history.read_bytes() == whole
    assert systemd.lines("start") == [
        f"start admissions-office@{NAME}.socket admissions-office@{NAME}.service"]
    assert [it.read_bytes() for it in (damaged.office / "changed").iterdir()] == [changed]


def test_a_server_that_refuses_everything_is_restarted(
    users: registers.Register, systemd: Systemd, monkeypatch: pytest.MonkeyPatch,
    capsys: pytest.CaptureFixture[str],
) -> None:
    """As after a full disk; one that answers is not."""
    cases: list[tuple[int, list[str]]] = [(503, [f"restart admissions@{NAME}.service"]), (404, [])]
    for answer, wanted in cases:
        monkeypatch.setattr(open_verb, "status_of", lambda _, answer=answer: answer)
        assert typed("open") == 0
        assert systemd.lines("restart", "start") == [*wanted, *STARTS]
        assert capsys.readouterr().out.startswith("restarted") == bool(wanted)


def test_an_office_that_does_not_open_names_the_file_and_the_line(
    damaged: registers.Register, monkeypatch: pytest.MonkeyPatch
) -> None:
    """Without the line systemd names its own."""
    monkeypatch.setattr(serving, "begin", fail)
    with pytest.raises(Refused, match="^No space left on device. .*/reg.db cannot be read:"
                                      f" admissions-admin restore {NAME}$"):
        typed("open")
    damaged.file.write_text(document(), encoding="utf-8")
    with pytest.raises(Refused, match="^No space left on device$"):
        typed("open")
    office_store.path_of(damaged).write_bytes(b"no database")
    with pytest.raises(Refused, match="application cannot be read, or was changed: admissions-admin"
                                      f" restore {NAME} {COPY} --people-alone$"):
        typed("open")


def test_an_office_is_closed_until_it_is_opened(
    users: registers.Register, systemd: Systemd, machine: pathlib.Path,
    monkeypatch: pytest.MonkeyPatch, capsys: pytest.CaptureFixture[str],
) -> None:
    """Status says how, and a restart opens nothing."""
    monkeypatch.setattr(serving, "MASKS", machine)
    unit = machine / f"admissions@{NAME}.service"
    units = (f"admissions-office@{NAME}.socket admissions-office@{NAME}.service"
             f" admissions@{NAME}.service")
    systemd.does = {"mask": lambda: unit.symlink_to(os.devnull), "unmask": unit.unlink}
    monkeypatch.setattr(sys, "stdin", Terminal("no\nyes\n"))
    with pytest.raises(Refused, match="nothing was changed"):
        typed("close")
    assert systemd.calls == []
    assert typed("close") == 0
    assert systemd.lines("mask", "stop") == [f"mask --now {units}"]
    found = status.report(users)
    for part in ("desk", "site"):
        assert found[part].text == f"it is closed: admissions-admin open {NAME}"
    assert typed("open") == 0 and systemd.lines("unmask", "start") == [f"unmask {units}", *STARTS]
    assert f"{NAME} is open at https://admissions.example/" in capsys.readouterr().out
    assert typed("open") == 0 and systemd.lines("unmask", "start") == STARTS
    (users.settings / brought.BEGUN).write_text('{"copy": "x.db", "entries": 1}\n')
    with pytest.raises(Refused, match="its takeover has not ended"):
        typed("open")
