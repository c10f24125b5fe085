"""admissions-admin takeover on a second machine: what it fetches, from which copy it goes on, and
what waits on the office's screen to be sent again."""
import argparse
import datetime
import getpass
import gzip
import os
import pathlib
import pwd
import shutil
import subprocess
import sys
import tempfile
import typing

import pytest
from conftest import Systemd, Terminal, document, stand_in, typed
from machine import (
    brought, certificates, copies, fetching, files, office_copy, office_store, registers, repairs,
    sealed, second_copy, serving,
)
from machine.verbs import setup, status, takeover
from office.web.register.history import ANSWER, RESTORED, SENDS, History
from register_files import Refused

NAME = "secondary-2025"
COPIES = ("nightly-2025-03-01T023000.db", "nightly-000002-2025-03-02T023000.db",
          "nightly-000010-2025-03-03T023000.db")


@pytest.fixture(name="place")
def place_fixture(tmp_path: pathlib.Path, monkeypatch: pytest.MonkeyPatch) -> pathlib.Path:
    """A second place with three copies, of which the one with the greatest number was made last."""
    me = getpass.getuser()
    for module in (fetching, takeover):
        monkeypatch.setattr(module, "USER", me)
    place = tmp_path / "place"
    (place / NAME / "history").mkdir(parents=True)
    for name in COPIES:
        (place / NAME / name).write_text(name, encoding="ascii")
    for name in (COPIES[2].replace(".db", ".tar"), "second-copy.report", "history/history-1-a.gz"):
        (place / NAME / name).write_text("x", encoding="ascii")
    (place / NAME / "nightly-000011-2025-03-04T023000.db").symlink_to("/etc/hostname")
    return place


def test_what_is_fetched(
    place: pathlib.Path, machine: pathlib.Path, write_as_me: None,
    capsys: pytest.CaptureFixture[str],
) -> None:
    """Copies, archives and the history; no report, and nothing through a link."""
    copy = fetching.fetch(NAME, f"{place}/")
    assert copy == machine / "backups" / NAME / COPIES[2]
    assert copy.read_text(encoding="ascii") == COPIES[2]
    found = {str(it.relative_to(copy.parent)): it.stat().st_mode & 0o777
             for it in copy.parent.rglob("*")}
    assert found == {
        **dict.fromkeys(COPIES, 0o600), COPIES[2].replace(".db", ".tar"): 0o600,
        "history": 0o700, "history/history-1-a.gz": 0o600}
    assert f"fetched 3 copies from {place}/{NAME}, the last of them {COPIES[2]}" in (
        capsys.readouterr().out)


def test_what_is_fetched_from_a_disk_is_written_by_the_user_of_the_copies(
    place: pathlib.Path, machine: pathlib.Path, monkeypatch: pytest.MonkeyPatch
) -> None:
    """And so by no way that leads where only root may write. Root reads what is there."""
    with tempfile.TemporaryDirectory() as room:
        # (another user reaches it, where root runs the tests)
        os.chmod(room, 0o755)
        user = pwd.getpwnam("daemon" if os.geteuid() == 0 else getpass.getuser())
        monkeypatch.setattr(fetching, "USER", user.pw_name)
        monkeypatch.setattr(registers, "COPIES", pathlib.Path(room))
        monkeypatch.setattr(files, "numbers", lambda *_: (user.pw_uid, user.pw_gid))
        copy = fetching.fetch(NAME, str(place))
        assert {it.stat().st_uid for it in copy.parent.rglob("*")} == {user.pw_uid}
        shutil.rmtree(copy.parent / "history")
        (copy.parent / "history").mkdir(mode=0o500)
        with pytest.raises(Refused, match="history.* Permission denied"):
            fetching.fetch(NAME, str(place))
        assert not list((copy.parent / "history").iterdir())


def test_what_is_encrypted_is_opened_with_the_identity_of_this_machine(
    place: pathlib.Path, machine: pathlib.Path, write_as_me: None, tmp_path: pathlib.Path,
    monkeypatch: pytest.MonkeyPatch, capsys: pytest.CaptureFixture[str],
) -> None:
    """All of it, also the history; without the file it is asked for, and without a terminal nothing
    is set up. It may be lent by the line. What was sent before the key was set is taken as it is.
    """
    monkeypatch.setattr(sealed, "MEMORY", tmp_path)
    identity = machine / "etc/second-copy-identity"
    subprocess.run(["age-keygen", "-o", tmp_path / "vault.key"], check=True, capture_output=True)
    key = subprocess.run(["age-keygen", "-y", tmp_path / "vault.key"], check=True,
                         capture_output=True, text=True).stdout.strip()
    there = place / NAME
    names = (*COPIES[1:], COPIES[2].replace(".db", ".tar"), "history/history-1-a.gz")
    wanted = {it: (there / it).read_bytes() for it in names}
    for it in names:
        subprocess.run(["age", "-r", key, "-o", there / f"{it}.age", there / it], check=True)
        (there / it).unlink()
    with pytest.raises(Refused, match="^not given: --identity, the identity file that opens"):
        fetching.fetch(NAME, str(place))
    with monkeypatch.context() as patch:
        patch.setattr(sys, "stdin", Terminal(f"/gone\n{tmp_path / 'vault.key'}\n"))
        copy = fetching.fetch(NAME, str(place))
    assert "/gone is not there, or is no file" in capsys.readouterr().out
    assert {it: (copy.parent / it).read_bytes() for it in names} == wanted
    identity.write_bytes((tmp_path / "vault.key").read_bytes())
    identity.chmod(0o640)
    with pytest.raises(Refused, match=f"chown admissions: {identity} && chmod 400 {identity}$"):
        fetching.fetch(NAME, str(place))
    subprocess.run(["age-keygen", "-o", identity.with_name("wrong")], check=True,
                   capture_output=True)
    identity.write_bytes(identity.with_name("wrong").read_bytes())
    identity.chmod(0o400)
    with pytest.raises(Refused, match=r"\.age is encrypted for another key than that of .*\(age1"):
        fetching.fetch(NAME, str(place))
    with pytest.raises(Refused, match=r"\.age is encrypted for another key than that of .*\(age1"):
        fetching.fetch(NAME, str(place), identity=str(identity.with_name("wrong")))
    identity.chmod(0o600)
    identity.write_bytes((tmp_path / "vault.key").read_bytes())
    identity.chmod(0o400)
    identity.unlink()
    copy = fetching.fetch(NAME, str(place), identity=str(tmp_path / "vault.key"))
    assert copy.name == COPIES[2]
    assert {it: (copy.parent / it).read_bytes() for it in names} == wanted
    found = {str(it.relative_to(copy.parent)): it.stat().st_mode & 0o777
             for it in copy.parent.rglob("*") if it.is_file()}
    assert found == dict.fromkeys((*names, COPIES[0]), 0o600)


def test_an_older_copy_is_chosen_by_its_name(
    place: pathlib.Path, machine: pathlib.Path, write_as_me: None,
) -> None:
    """All copies are fetched, so the next one still has the greatest number. One that is not there
    is refused, with names of those that are."""
    copy = fetching.fetch(NAME, str(place), COPIES[1])
    assert copy.read_text(encoding="ascii") == COPIES[1]
    assert copies.next_name(copy.parent).startswith("nightly-000011-")
    with pytest.raises(Refused, match=f"has no copy nightly-.*; of its 3 copies .*{COPIES[2]}$"):
        fetching.fetch(NAME, str(place), "nightly-000003-2025-03-02T023000.db")


def test_the_place_of_the_settings(
    place: pathlib.Path, machine: pathlib.Path, write_as_me: None
) -> None:
    (machine / "etc/second-copy").write_text(f"{place}\n", encoding="utf-8")
    assert fetching.fetch(NAME, "").name == COPIES[2]


@pytest.mark.parametrize("line, status", [("none\n", 2), ("", 2)])
def test_no_place(line: str, status: int, machine: pathlib.Path) -> None:
    (machine / "etc/second-copy").write_text(line, encoding="utf-8")
    with pytest.raises(Refused, match="^name the second place, here or in ") as found:
        fetching.fetch(NAME, "")
    assert found.value.status == status


def test_a_machine_that_has_the_register_does_not_take_over(
    register: registers.Register, place: pathlib.Path, monkeypatch: pytest.MonkeyPatch
) -> None:
    monkeypatch.setattr(registers, "is_blank", lambda _: False)
    monkeypatch.setattr(serving, "see_needed", lambda: None)
    with pytest.raises(Refused, match="is there already, so this machine does not take over"):
        typed("takeover", NAME, str(place), "--yes")
    assert not list(register.copies.iterdir())


def test_a_register_that_cannot_be_read_is_made_again_from_the_second_place(
    register: registers.Register, made: "Made", takes_over: "Takeover", systemd: Systemd,
    monkeypatch: pytest.MonkeyPatch,
) -> None:
    """As both its status and `restore` say where no nightly copy is here. After a yes its server is
    stopped; the restore keeps what is there, once."""
    made.register.file.write_text("damaged", encoding="ascii")
    how = f"admissions-admin takeover {NAME}"
    assert repairs.register_line(register) == how
    with pytest.raises(Refused, match=f"has no nightly copy: {how}$"):
        typed("restore", NAME, "--yes")
    restored: list[tuple[object, ...]] = []

    def restore(*words: object, **_: object) -> None:
        restored.append(words)
        register.file.write_text(document(), encoding="utf-8")

    def set_up() -> int:
        for _ in range(2):
            list(setup.make_register(register, takes_over.given))
        made.all_of_it(takes_over.given)
        return 0

    monkeypatch.setattr(setup, "call", restore)
    monkeypatch.setattr(setup, "program", str)
    monkeypatch.setattr(setup, "give_to_desk", lambda _: None)
    with pytest.raises(Refused, match="reg.db cannot be read .* nothing was changed"):
        takes_over.ended(set_up)
    assert (systemd.calls, restored, register.nightly_copies()) == ([], [], [])
    assert takes_over.ended(set_up, "--yes") == 0
    assert systemd.lines("stop")[-1].endswith(f" admissions@{NAME}.service")
    copy = register.copies / COPIES[2]
    assert [it[1:] for it in restored] == [(str(copy), register.file)]
    assert made.waiting() == [[3]]


def test_people_that_cannot_be_read_come_from_the_copy_too(
    made: "Made", takes_over: "Takeover"
) -> None:
    """As after a fault of the disk that has the register, too. What is there is kept."""
    path = office_store.path_of(made.register)
    path.parent.mkdir()
    path.write_bytes(b"no database")

    def done() -> int:
        assert not path.exists()
        made.all_of_it(takes_over.given)
        return 0

    with pytest.raises(Refused, match="office.db cannot be read: .*: nothing was changed"):
        takes_over.ended(done)
    assert path.read_bytes() == b"no database"
    assert takes_over.ended(done, "--yes") == 0
    [kept] = (made.register.office / office_store.ASIDE).iterdir()
    assert kept.read_bytes() == b"no database" and made.waiting() == [[3]]


def test_a_place_without_the_register(
    place: pathlib.Path, machine: pathlib.Path, write_as_me: None
) -> None:
    (place / "primary-2026").mkdir()
    with pytest.raises(Refused, match="has no copy of a register"):
        fetching.fetch("primary-2026", str(place))
    said = f"{place} has no folder primary-2027, .* folders there: primary-2026, {NAME}$"
    with pytest.raises(Refused, match=said):
        fetching.fetch("primary-2027", str(place))
    with pytest.raises(Refused, match=f"Name {place}, which has it$"):
        fetching.fetch(NAME, str(place / NAME))
    with pytest.raises(Refused, match="/gone is not there: is the disk mounted?"):
        fetching.fetch(NAME, f"{place}/gone")
    assert not (machine / "backups/primary-2027").exists()


@pytest.mark.parametrize("given", [
    ["--copy", "x"], ["--copy", f"/mnt/copies/{COPIES[1]}"], ["", "--copy", "x"], ["--", "-x"]])
def test_arguments_that_do_not_fit(given: list[str], monkeypatch: pytest.MonkeyPatch) -> None:
    monkeypatch.setattr(serving, "see_needed", lambda: None)
    with pytest.raises(Refused) as found:
        typed("takeover", NAME, *given)
    assert found.value.status == 2


@pytest.mark.parametrize("written", ["2025-03-03T02:30:07", "2025-03-03T09:00:00"])
def test_the_moment_of_a_copy(written: str, tmp_path: pathlib.Path) -> None:
    """A file that was copied later has a later time, and its name has the hour of its machine."""
    copy = tmp_path / COPIES[2]
    copy.touch()
    at = datetime.datetime.fromisoformat(written).timestamp()
    os.utime(copy, (at, at))
    assert f"{copies.moment(copy):%Y-%m-%dT%H%M%S}" == "2025-03-03T023000"
    early = datetime.datetime(2025, 3, 3, 1, 30).timestamp()
    os.utime(copy, (early, early))
    assert f"{copies.moment(copy):%Y-%m-%dT%H%M%S}" == "2025-03-03T013000"


def written_at(register: registers.Register, at: str) -> History:
    """The history of a register, written at this moment."""
    return History(str(register.history), lambda: at)


def sent_at(register: registers.Register, child: int, moment: str) -> None:
    """Records in the history of a register a command that was done at this local time."""
    at = datetime.datetime.fromisoformat(moment).astimezone(datetime.timezone.utc).isoformat()
    record = written_at(register, at)
    of = record.add("jane", SENDS, {"command": {"cmd": "accept", "child": child}}).number
    record.add("jane", ANSWER, {"of": of, "answer": {"done": True}})
    record.close()


class Takeover:
    """The verb, with what it is given, and with another set-up."""

    def __init__(self, monkeypatch: pytest.MonkeyPatch, place: pathlib.Path) -> None:
        self.monkeypatch, self.place = monkeypatch, place
        self.given = argparse.Namespace()
        monkeypatch.setattr(serving, "see_needed", lambda: None)
        monkeypatch.setattr(certificates, "is_self_signed", lambda _: True)

    def ended(self, step: typing.Callable[[], int], *more: str) -> int:
        """The status with which it ends, if a step sets the register up."""
        def set_up(given: argparse.Namespace) -> int:
            self.given = given
            return step()

        self.monkeypatch.setattr(setup, "set_up_as_given", set_up)
        return typed("takeover", NAME, str(self.place), *more)


@pytest.fixture(name="takes_over")
def takes_over_fixture(monkeypatch: pytest.MonkeyPatch, place: pathlib.Path) -> Takeover:
    return Takeover(monkeypatch, place)


@pytest.fixture(name="other")
def other_fixture(
    place: pathlib.Path, machine: pathlib.Path, write_as_me: None, monkeypatch: pytest.MonkeyPatch
) -> registers.Register:
    """The register as it was on the other machine, with its history at the second place: a command
    before the second copy, one before the last, and one after it."""
    monkeypatch.setattr(registers, "is_blank", lambda _: False)
    monkeypatch.setattr(office_copy, "give", lambda _: None)
    stand_in(machine, monkeypatch)
    other = registers.Register("other")
    other.office.mkdir()
    for child, moment in enumerate(("02T02:29", "02T09:00", "03T09:00"), 1):
        sent_at(other, child, f"2025-03-{moment}:00")
    folder = place / NAME / "history"
    (folder / "history-1-a.gz").unlink()
    (folder / "history-000001-0123456789abcdef.gz").write_bytes(
        gzip.compress(other.history.read_bytes()))
    return other


class Made:
    """What set-up does in these tests, up to the start of the office."""

    def __init__(self, other: registers.Register) -> None:
        self.register, self.other = registers.Register(NAME), other
        self.copy = ""

    def register_alone(self) -> None:
        """Makes the register."""
        for it in (self.register.folder, self.register.office, self.register.settings,
                   self.register.office_copies):
            it.mkdir(parents=True, exist_ok=True)
        if not self.register.file.exists():
            self.register.file.write_text(document(), encoding="utf-8")
        (self.register.settings / "site-name").write_text("admissions.example\n")

    def all_of_it(self, given: argparse.Namespace) -> None:
        """Makes all of it, and has what came since wait."""
        self.register_alone()
        if not self.register.history.exists():
            self.register.history.write_bytes(self.other.history.read_bytes())
        copy = pathlib.Path(given.copy)
        self.copy = copy.name
        serving.report(brought.bring(self.register, copy))

    def waiting(self) -> list[list[int]]:
        """The children of the commands that wait to be sent again, of each takeover."""
        with brought.application(self.register) as parts:
            return [[parts.restores.sending.entry(it).about["command"]["child"]
                     for it in parts.restores.sending.rows(one)]
                    for one in parts.restores.listed()]


@pytest.fixture(name="made")
def made_fixture(other: registers.Register) -> Made:
    return Made(other)


def test_a_takeover_that_was_killed_goes_on(
    place: pathlib.Path, machine: pathlib.Path, made: Made, takes_over: Takeover,
    capfd: pytest.CaptureFixture[str],
) -> None:
    """Wherever it was killed: before anything is made, before what came since waits, and when the
    office already works here. Only what was sent to the other machine waits, once. When it has
    ended, it is not begun again.
    """
    def killed() -> int:
        raise KeyboardInterrupt

    def made_and_killed() -> int:
        made.register_alone()
        raise KeyboardInterrupt

    def brought_and_killed() -> int:
        made.all_of_it(takes_over.given)
        sent_at(made.register, 9, "2025-03-03T10:00:00")
        raise KeyboardInterrupt

    def done() -> int:
        made.all_of_it(takes_over.given)
        return 0

    for step in (killed, made_and_killed, brought_and_killed):
        with pytest.raises(KeyboardInterrupt):
            takes_over.ended(step)
        assert status.file_of(made.register) == (
            False, f"its takeover has not ended: admissions-admin takeover {NAME}"
        ) or not made.register.file.exists()
    said = capfd.readouterr().out
    assert "waits on the screen Copies of https://admissions.example/: jane (1)." in said
    assert "The history ends at 2025-03-03 09:00:00: what was done later is in no copy." in said
    (machine / "etc/second-copy").write_text(f"{place}\n", encoding="utf-8")
    assert takes_over.ended(done) == 0
    assert os.uname().nodename in (place / NAME / "owner").read_text(encoding="utf-8")
    assert made.waiting() == [[3]]
    assert capfd.readouterr().out.splitlines()[0] == (
        f"goes on with the takeover of {NAME} from {made.register.copies / COPIES[2]}")
    with pytest.raises(Refused, match="is there already, so this machine does not take over"):
        takes_over.ended(done)


def test_a_takeover_by_an_older_copy(made: Made, takes_over: Takeover) -> None:
    """What came since that copy waits, of which the office leaves out what it was chosen for. Once
    the register is made from one, no other is taken."""
    def killed() -> int:
        raise KeyboardInterrupt

    def made_and_killed() -> int:
        made.register_alone()
        raise KeyboardInterrupt

    def done() -> int:
        made.all_of_it(takes_over.given)
        return 0

    for step, name in ((killed, COPIES[0]), (made_and_killed, f"{COPIES[1]}.age")):
        with pytest.raises(KeyboardInterrupt):
            takes_over.ended(step, "--copy", name)
    with pytest.raises(Refused, match=f"reg.db is made from {COPIES[1]} already"):
        takes_over.ended(done, "--copy", COPIES[2])
    assert not made.register.history.exists()
    assert takes_over.ended(done, "--copy", COPIES[1]) == 0
    assert (made.copy, made.waiting()) == (COPIES[1], [[2, 3]])


def restored_at(register: registers.Register, position: int, moment: str) -> None:
    """Records in a history that the office restored a copy, made after this entry, at this local
    time."""
    at = datetime.datetime.fromisoformat(moment).astimezone(datetime.timezone.utc).isoformat()
    record = written_at(register, at)
    record.add("hal", RESTORED, {"copy": 1, "position": position})
    record.close()


@pytest.mark.parametrize("name, is_sent, wanted", [
    # of the two commands before the restore the last copy has the one that it has undone
    ("2025-03-03T02:00:00", True, COPIES[1]),
    # it was undone, but was never done
    ("2025-03-03T02:00:00", False, COPIES[2]),
    # it was sent since the last copy
    ("2025-03-03T03:00:00", True, COPIES[2]),
])
def test_a_copy_that_has_what_a_restore_has_undone_is_not_taken(
    name: str, is_sent: bool, wanted: str, place: pathlib.Path, machine: pathlib.Path,
    write_as_me: None, capsys: pytest.CaptureFixture[str],
) -> None:
    other = registers.Register("other")
    other.office.mkdir()
    sent_at(other, 1, "2025-03-01T09:00:00")
    if is_sent:
        sent_at(other, 2, name)
    restored_at(other, 2, "2025-03-03T09:00:00")
    sent_at(other, 3, "2025-03-03T09:30:00")
    folder = place / NAME / "history"
    (folder / "history-1-a.gz").unlink()
    (folder / "history-000001-0123456789abcdef.gz").write_bytes(
        gzip.compress(other.history.read_bytes()))
    assert fetching.fetch(NAME, str(place)).name == wanted
    said = f"goes on from {wanted}: since {COPIES[2]} the office has restored a copy"
    assert (said in capsys.readouterr().out) == (wanted != COPIES[2])


def test_what_else_was_done_since_is_counted(
    made: Made, takes_over: Takeover, capfd: pytest.CaptureFixture[str]
) -> None:
    """Without a child: the copy of the application's own file lacks it. Its screen says so too."""
    for what, moment in (("added a note", "02:00:00"), ("added a note", "03:00:00"),
                         ("gave a role", "03:01:00"), ("added a note", "03:02:00")):
        at = datetime.datetime.fromisoformat(f"2025-03-03T{moment}").astimezone(
            datetime.timezone.utc).isoformat()
        record = written_at(made.other, at)
        record.add("jane", what, {"child": 7})
        record.close()

    def done() -> int:
        made.all_of_it(takes_over.given)
        return 0

    assert takes_over.ended(done) == 0
    said = ("people also did this, which is not brought back: added a note (2), gave a role (1)."
            " The screen Activity has each of them")
    assert said in capfd.readouterr().out
    with brought.application(made.register) as parts:
        found = parts.restores.present()
        assert found and said in found.done[0].said


@pytest.mark.parametrize("more", [[], ["--no-copies"]])
def test_what_is_next_is_in_the_order_in_which_it_can_be_done(
    more: list[str], machine: pathlib.Path, made: Made, takes_over: Takeover,
    capfd: pytest.CaptureFixture[str],
) -> None:
    """The identity file goes, a second place is named where none is, and nobody reaches the screen
    that sends again before the certificate and the name are right."""
    def done() -> int:
        made.all_of_it(takes_over.given)
        return 0

    (machine / "etc/second-copy").write_text(
        "# a remark\n" if more else f"{takes_over.place}\n", encoding="utf-8")
    (machine / "etc/second-copy-identity").touch(0o400)
    assert takes_over.ended(done, *more) == 0
    said = [it for it in capfd.readouterr().out.splitlines() if it.startswith("next, ")]
    wanted = [f"rm {machine / 'etc/second-copy-identity'}",
              "admissions-admin second-place PLACE" if more else f"copies go to {takes_over.place}",
              f"admissions-admin people {NAME}", "let a CA sign ",
              "lead admissions.example to this machine", "the office sends again"]
    assert [it.startswith(f"next, {number}: {begin}") for number, (it, begin) in enumerate(
        zip(said, wanted, strict=True), 1)] == [True] * len(wanted), said
    assert second_copy.line_of() == ("" if more else str(takes_over.place))


def test_another_machine_that_was_never_met_is_seen_before_anything_is_fetched(
    machine: pathlib.Path, write_as_me: None, monkeypatch: pytest.MonkeyPatch
) -> None:
    """ssh asks on the terminal whether its key is right, as a copy never does."""
    calls: list[list[str]] = []

    def run(words: list[str], **_: object) -> "subprocess.CompletedProcess[str]":
        calls.append(words)
        return subprocess.CompletedProcess(words, 1, "", "")

    monkeypatch.setattr(subprocess, "run", run)
    with pytest.raises(Refused, match="second-place --ssh-key prints what that machine needs"):
        fetching.fetch(NAME, "copies@vault.example:copies")
    [words] = calls
    assert words[1:] == ["--list-only", "--rsh", fetching.ASKS, "copies@vault.example:copies/"]
    assert "BatchMode" not in fetching.ASKS and "BatchMode=yes" in second_copy.SSH
    assert not (machine / "backups" / NAME).exists()
