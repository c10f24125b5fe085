"""admissions-admin copy, copies, drill and second-place: what is copied and kept, what is listed,
to whom an identity file is lent, and which second place is taken."""
import datetime
import io
import os
import pathlib
import pwd
import stat
import subprocess
import sys

import pytest
from conftest import Systemd, Terminal, typed
from machine import copies, fetching, registers, sealed, second_copy, settings_copy
from machine.verbs import drill, second_place
from register_files import Refused

NAME = "secondary-2025"
FIRST, NEXT = "nightly-000011-2025-03-02T023000.db", "nightly-000012-2025-03-03T023000.db"


@pytest.fixture(name="night")
def night_fixture(
    register: registers.Register, systemd: Systemd, write_as_me: None
) -> registers.Register:
    """A register with a nightly copy; systemd makes the next one."""
    register.office_copies.mkdir()
    add(register, FIRST, 2_000_000, 500_000)

    def back_up() -> None:
        add(register, NEXT, 1_000_000)

    def copy_beside() -> None:
        copies.settings_of(register.copies / NEXT).write_bytes(b"x" * 400_000)
        (register.copies / settings_copy.REPORT).write_text("people and settings are copied\n")

    systemd.does = {f"start admissions-backup@{NAME}": back_up,
                    f"start admissions-second-copy@{NAME}": copy_beside}
    return register


def add(register: registers.Register, name: str, size: int, beside: int = 0) -> None:
    path = register.copies / name
    path.write_bytes(b"x" * size)
    found = copies.NAME.fullmatch(name)
    assert found
    moment = datetime.datetime.strptime(found[2], copies.TIME).timestamp()
    os.utime(path, (moment, moment))
    if beside:
        copies.settings_of(path).write_bytes(b"x" * beside)


def test_a_copy_is_made_and_kept_with_its_people(
    night: registers.Register, systemd: Systemd, capsys: pytest.CaptureFixture[str]
) -> None:
    """Its time is that of the nightly copy."""
    assert typed("copy", "--keep", "before-round-1") == 0
    assert systemd.lines("start") == [f"start admissions-backup@{NAME}.service",
                                      f"start admissions-second-copy@{NAME}.service"]
    assert capsys.readouterr().out.splitlines() == [
        f"made {night.copies / NEXT}", "people and settings are copied",
        f"kept {night.copies}/before-round-1.db, with its people in before-round-1.tar;"
        " it is as at 2025-03-03T02:30:00"]
    kept = [night.copies / f"before-round-1.{it}" for it in ("db", "tar")]
    assert [it.stat().st_size for it in kept] == [1_000_000, 400_000]
    assert copies.moment(kept[0]) == copies.moment(night.copies / NEXT)


@pytest.mark.parametrize("end", ["db", "tar"])
def test_a_name_that_is_taken_is_named_before_the_oldest_night_is_gone(
    end: str, night: registers.Register, systemd: Systemd
) -> None:
    path = night.copies / f"before-round-1.{end}"
    path.write_text("kept before")
    with pytest.raises(Refused, match=f"^nothing was copied: {path} is there already"):
        typed("copy", NAME, "--keep", "before-round-1")
    assert systemd.calls == [] and path.read_text() == "kept before"


@pytest.mark.parametrize("words, said", [
    (["--keep", "../x"], "is no name of a copy"), (["--keep", "nightly-9"], "is no name of a copy"),
    (["other"], "no such register: other"),
])
def test_what_is_wrong_makes_no_copy(
    words: list[str], said: str, night: registers.Register, systemd: Systemd
) -> None:
    with pytest.raises(Refused, match=said) as found:
        typed("copy", *words)
    assert (found.value.status, systemd.calls) == (2, [])


def test_a_backup_that_fails_and_people_that_are_not_copied_are_named(
    night: registers.Register, systemd: Systemd
) -> None:
    """A second place that cannot be reached leaves the copy here; without people nothing is
    kept."""
    def fail() -> None:
        raise Refused("systemctl: Job failed")

    systemd.does = {f"start admissions-backup@{NAME}": fail}
    with pytest.raises(Refused, match=f"^no copy was made: journalctl .* admissions-backup@{NAME}"):
        typed("copy")
    systemd.does = {}
    with pytest.raises(Refused, match="no copy was made"):
        typed("copy")
    systemd.does = {f"start admissions-backup@{NAME}": lambda: add(night, NEXT, 1),
                    f"start admissions-second-copy@{NAME}": fail}
    with pytest.raises(Refused, match="nothing is kept: .* people and settings were not copied"):
        typed("copy", "--keep", "x")
    assert not list(night.copies.glob("x.*"))
    copies.settings_of(night.copies / NEXT).unlink(missing_ok=True)
    (night.copies / NEXT).unlink()
    systemd.does[f"start admissions-backup@{NAME}"] = lambda: add(night, NEXT, 1, 1)
    with pytest.raises(Refused, match="not all was copied: journalctl -n 20 -u admissions-second"):
        typed("copy", "--keep", "x")
    assert sorted(it.name for it in night.copies.glob("x.*")) == ["x.db", "x.tar"]


def test_copies_are_listed_with_the_room_of_a_year(
    night: registers.Register, capsys: pytest.CaptureFixture[str], monkeypatch: pytest.MonkeyPatch
) -> None:
    """By the last night: a register and what is beside it, and the history twice."""
    monkeypatch.setattr(os, "geteuid", lambda: 0)
    add(night, NEXT, 1_000_000, 400_000)
    (night.copies / "history").mkdir()
    (night.copies / "history/history-000001-0123456789abcdef.gz").write_bytes(b"x" * 250_000)
    kept = night.copies / "before-round-1.db"
    kept.write_bytes(b"x")
    os.utime(kept, (1_000_000_000, 1_000_000_000))
    assert typed("copies") == 0
    lines = capsys.readouterr().out.splitlines()
    assert lines[0].startswith("before-round-1.db: 2001-09-09 ")
    assert lines[0].endswith("1 bytes, without people and settings")
    assert lines[1:] == [
        f"{FIRST}: 2025-03-02 02:30, 2,000,000 bytes", f"{NEXT}: 2025-03-03 02:30, 1,000,000 bytes",
        "2 of each night, 1 of other names, 0 that the office has made",
        "a year of nights like the last one needs 512 MB at the second place"]


def test_copies_at_the_second_place_are_listed(
    night: registers.Register, machine: pathlib.Path, capsys: pytest.CaptureFixture[str],
    monkeypatch: pytest.MonkeyPatch,
) -> None:
    monkeypatch.setattr(os, "geteuid", lambda: 0)
    with pytest.raises(Refused, match="no second place is named"):
        typed("copies", "--second-place")
    place = machine / "place"
    (place / NAME).mkdir(parents=True)
    for name in (f"{NEXT}.age", f"{NEXT.replace('.db', '.tar')}.age", FIRST, "owner"):
        (place / NAME / name).write_text("x")
    (machine / "etc/second-copy").write_text(f"{place}\n")
    monkeypatch.setattr("machine.verbs.copies.USER", None)
    assert typed("copies", NAME, "--second-place") == 0
    assert capsys.readouterr().out.splitlines() == [
        f"{FIRST}: 1 bytes, without people and settings", f"{NEXT}.age: 1 bytes",
        f"2 copies in {place}/{NAME}"]


@pytest.mark.parametrize("status", [0, 1])
def test_an_identity_file_is_lent_for_the_time_of_a_drill(
    status: int, register: registers.Register, machine: pathlib.Path, write_as_me: None,
    monkeypatch: pytest.MonkeyPatch, capsys: pytest.CaptureFixture[str],
) -> None:
    """Whether it succeeds or fails; meanwhile its user alone may read the file."""
    me = pwd.getpwuid(os.getuid()).pw_name
    monkeypatch.setattr(sealed, "MEMORY", machine)
    monkeypatch.setattr(drill, "USER", me)
    key = machine / "vault.key"
    key.write_text("secret\n")
    program = machine / "drill"
    program.write_text(f"#!/bin/sh\nstat -c %a \"$3\"; cat \"$3\"; echo $1 $2; exit {status}\n")
    program.chmod(0o755)
    monkeypatch.setattr(drill, "of_unit", lambda _: str(program))
    before = sorted(machine.iterdir())
    if status:
        with pytest.raises(Refused, match="drill: 400, secret, secondary-2025 --identity"):
            typed("drill", "--identity", str(key))
    else:
        assert typed("drill", "--identity", str(key)) == 0
        assert capsys.readouterr().out == "400\nsecret\nsecondary-2025 --identity\n"
    assert sorted(machine.iterdir()) == before
    with pytest.raises(Refused, match="gone.key is not there"):
        typed("drill", "--identity", "gone.key")


@pytest.fixture(name="place")
def place_fixture(
    machine: pathlib.Path, write_as_me: None, monkeypatch: pytest.MonkeyPatch
) -> pathlib.Path:
    """A folder for copies, and a file of the setting with a remark."""
    (machine / "etc/second-copy").write_text("# a remark\n")
    monkeypatch.setattr(second_place, "COPIES", pathlib.Path("/proc"))
    (machine / "place").mkdir()
    return machine / "place"


def setting(machine: pathlib.Path) -> list[str]:
    return (machine / "etc/second-copy").read_text(encoding="utf-8").splitlines()


def test_a_disk_is_the_second_place(
    place: pathlib.Path, machine: pathlib.Path, register: registers.Register,
    key: tuple[str, pathlib.Path], capsys: pytest.CaptureFixture[str],
) -> None:
    """The remarks of the file stay; the same line again asks nothing."""
    assert typed("second-place", f"{place}/") == 0
    assert setting(machine) == ["# a remark", str(place)]
    assert capsys.readouterr().out.splitlines()[-2:] == [
        f"the second place is {place}", f"next: admissions-admin copy {NAME}"]
    assert typed("second-place", str(place)) == 0
    assert typed("second-place") == 0
    assert f"second-copy-recipient: {key[0]}\n" in capsys.readouterr().out
    assert second_copy.place_of() == str(place)


def test_no_place_is_named_to_which_nothing_goes_encrypted(
    place: pathlib.Path, machine: pathlib.Path, monkeypatch: pytest.MonkeyPatch,
    capsys: pytest.CaptureFixture[str],
) -> None:
    """Without a key it is asked for. With the key in the same line it is named."""
    with pytest.raises(Refused, match="^not given: --encrypt, the public key"):
        typed("second-place", str(place))
    with monkeypatch.context() as patch:
        patch.setattr(sys, "stdin", Terminal(f"age1\nage1{'b' * 58}\n"))
        assert typed("second-place", str(place)) == 0
    assert sealed.recipient() == f"age1{'b' * 58}"
    assert "that is no public key of age" in capsys.readouterr().out
    (machine / "etc/second-copy-recipient").unlink()
    (machine / "etc/second-copy").write_text("# a remark\n")
    assert setting(machine) == ["# a remark"]
    assert typed("second-place") == 0 and "names no key, so nothing" in capsys.readouterr().out
    assert typed("second-place", str(place), "--encrypt", f"age1{'a' * 58}") == 0
    assert setting(machine) == ["# a remark", str(place)]


def test_an_upgrade_gives_a_key_to_a_machine_that_has_copied_unencrypted(
    place: pathlib.Path, machine: pathlib.Path, capsys: pytest.CaptureFixture[str]
) -> None:
    """Once. It says which file opens the copies, and so does the status, until it is kept
    elsewhere; and what is encrypted for the key opens with it."""
    for _ in range(2):
        assert typed("second-place", "--key-here") == 0
    key, identity = sealed.recipient(), machine / "etc/second-copy-identity"
    first, again = capsys.readouterr().out.splitlines()
    assert first.startswith(f"copies are encrypted for {key} from now on. {identity}, which opens")
    assert again == f"copies are encrypted for {key} already" and sealed.is_made_here()
    assert stat.S_IMODE(identity.stat().st_mode) == 0o400 and sealed.identity() == identity
    (machine / "copy").write_text("of a night", encoding="ascii")
    sealed.encrypt(machine / "copy", machine / "copy.age", str(key))
    (machine / "copy").unlink()
    assert sealed.decrypt(machine / "copy.age", identity).read_text() == "of a night"
    identity.rename(machine / "elsewhere")
    assert not sealed.is_made_here()


@pytest.mark.parametrize("words, said", [
    (["/gone"], "is no folder of this machine: is the disk mounted?"),
    (["none"], "all copies are lost with this machine: nothing was changed"),
    (["--encrypt", "AGE-SECRET-KEY-1"], "is no public key of age"),
])
def test_a_wrong_place_or_key_changes_nothing(
    words: list[str], said: str, place: pathlib.Path, machine: pathlib.Path,
    monkeypatch: pytest.MonkeyPatch,
) -> None:
    monkeypatch.setattr(sys, "stdin", io.StringIO(""))
    monkeypatch.setattr(sealed, "recipient", lambda: "a key")
    with pytest.raises(Refused, match=said) as found:
        typed("second-place", *words)
    assert (found.value.status, setting(machine)) == (2, ["# a remark"])
    assert not (machine / "etc/second-copy-recipient").exists()


def test_another_place_and_the_disk_of_the_first_copies_are_confirmed(
    place: pathlib.Path, machine: pathlib.Path, key: tuple[str, pathlib.Path],
    monkeypatch: pytest.MonkeyPatch, capsys: pytest.CaptureFixture[str],
) -> None:
    (machine / "etc/second-copy").write_text("/mnt/before\n")
    monkeypatch.setattr(second_place, "COPIES", machine)
    monkeypatch.setattr(sys, "stdin", Terminal("no\nyes\n"))
    with pytest.raises(Refused, match="nothing was changed"):
        typed("second-place", str(place))
    assert setting(machine) == ["/mnt/before"]
    assert typed("second-place", str(place)) == 0
    said = capsys.readouterr().out
    assert "copies go no longer to /mnt/before; it is on the disk of the first copies" in said


def test_another_key_is_confirmed_and_the_one_that_is_there_stays(
    place: pathlib.Path, machine: pathlib.Path, monkeypatch: pytest.MonkeyPatch,
) -> None:
    monkeypatch.setattr(sealed, "age", lambda: "age")
    keys = [f"age1{it * 58}" for it in "ab"]
    for key in (keys[0], keys[0]):
        assert typed("second-place", "--encrypt", key) == 0
    assert sealed.recipient() == keys[0]
    monkeypatch.setattr(sys, "stdin", Terminal("no\n"))
    with pytest.raises(Refused, match="nothing was changed"):
        typed("second-place", "--encrypt", keys[1])
    assert sealed.recipient() == keys[0]


def test_the_key_to_another_machine_is_made_once_and_printed_with_what_is_typed_there(
    place: pathlib.Path, machine: pathlib.Path, monkeypatch: pytest.MonkeyPatch,
    capsys: pytest.CaptureFixture[str],
) -> None:
    monkeypatch.setattr(second_place, "SSH", machine / "ssh")
    monkeypatch.setattr(second_place, "USER", pwd.getpwuid(os.getuid()).pw_name)
    assert typed("second-place", "--ssh-key") == 0
    said = capsys.readouterr().out
    public = (machine / "ssh/id_ed25519.pub").read_text(encoding="ascii").strip()
    assert f'  restrict,command="/usr/bin/rrsync -no-del /home/copies/vault" {public}\n' in said
    assert stat.S_IMODE((machine / "ssh").stat().st_mode) == 0o700
    assert typed("second-place", "--ssh-key") == 0 and capsys.readouterr().out == said


def test_a_machine_that_is_not_reached_is_no_second_place(
    place: pathlib.Path, machine: pathlib.Path, key: tuple[str, pathlib.Path],
    monkeypatch: pytest.MonkeyPatch,
) -> None:
    calls: list[list[str]] = []

    def run(words: list[str], **_: object) -> "subprocess.CompletedProcess[str]":
        calls.append(words)
        return subprocess.CompletedProcess(words, len(calls) % 2, "", "")

    monkeypatch.setattr(subprocess, "run", run)
    with pytest.raises(Refused, match="second-place --ssh-key prints what that machine needs"):
        typed("second-place", "copies@vault.example:copies")
    assert setting(machine) == ["# a remark"]
    assert typed("second-place", "copies@vault.example:copies") == 0
    assert setting(machine) == ["# a remark", "copies@vault.example:copies"]
    assert calls[0][1:] == ["--list-only", "--rsh", fetching.ASKS,
                            "copies@vault.example:copies/"]
