"""Copies that are encrypted before they leave for the second place: what arrives there, what opens
it, and that nothing leaves otherwise. With the real age and rsync."""
import argparse
import os
import pathlib
import shutil
import subprocess
import time
import typing

import pytest
from conftest import made_key
from machine import copies, copies_status, drill, programs, registers, sealed, second_copy
from register_files import Refused

PLACE = "mnt"
# what a copy here has, which is no register: it opens where this program says so
SECRET = b"SECRET name of a child"


@pytest.fixture(name="copied")
def copied_fixture(
    register: registers.Register, machine: pathlib.Path, key: tuple[str, pathlib.Path],
    monkeypatch: pytest.MonkeyPatch, write_as_me: None,
) -> registers.Register:
    """A register with two nightly copies, their settings and a history, and a second place."""
    monkeypatch.setattr(second_copy, "open_error", lambda _: "")
    (machine / PLACE).mkdir()
    (machine / "etc/second-copy").write_text(f"{machine / PLACE}\n")
    for number in (1, 2):
        path = register.copies / f"nightly-00000{number}-2025-03-0{number}T023000.db"
        path.write_bytes(SECRET + b" %d" % number)
        copies.settings_of(path).write_bytes(SECRET + b" of settings %d" % number)
    (register.copies / "before-round-1.db").write_bytes(SECRET)
    history(register, b"one")
    return register


def history(register: registers.Register, data: bytes) -> None:
    """Gives the copy of the history other bytes."""
    folder = register.copies / "history"
    folder.mkdir(exist_ok=True)
    (folder / "history-000001-0123456789abcdef.gz").write_bytes(SECRET + data)


def there(machine: pathlib.Path) -> dict[str, bytes]:
    """The files at the second place, but the one that names the machine which copies there."""
    place = machine / PLACE
    return {str(it.relative_to(place)): it.read_bytes() for it in place.rglob("*")
            if it.is_file() and it.name != second_copy.OWNER}


def send(register: registers.Register, machine: pathlib.Path) -> str:
    return second_copy.copied(register, str(machine / PLACE))


def opened(path: pathlib.Path, identity: pathlib.Path) -> bytes:
    """What an encrypted file has, for who has the identity file."""
    return subprocess.run(
        ["age", "--decrypt", "-i", identity, path], check=True, capture_output=True).stdout


def test_what_arrives_is_encrypted_and_opens_with_the_identity_alone(
    copied: registers.Register, machine: pathlib.Path, key: tuple[str, pathlib.Path],
    tmp_path: pathlib.Path,
) -> None:
    line = send(copied, machine)
    found = there(machine)
    names = [f"nightly-00000{at}-2025-03-0{at}T023000.{end}.age" for at in (1, 2)
             for end in ("db", "tar")]
    names.append("history/history-000001-0123456789abcdef.gz.age")
    assert sorted(found) == sorted(f"{copied.name}/{it}" for it in names)
    assert not any(b"SECRET" in data for data in found.values())
    for name in names:
        first = (copied.copies / name.removesuffix(".age")).read_bytes()
        assert opened(machine / PLACE / copied.name / name, key[1]) == first
    _, other = made_key(tmp_path / "other")
    with pytest.raises(subprocess.CalledProcessError):
        opened(machine / PLACE / copied.name / names[0], other)
    assert "encrypted for" in line and "its identity file is not here" in line
    assert "not encrypted" not in line


def test_what_is_there_stays_and_a_longer_history_replaces_the_shorter(
    copied: registers.Register, machine: pathlib.Path
) -> None:
    send(copied, machine)
    before = there(machine)
    send(copied, machine)
    assert there(machine) == before
    history(copied, b"one and more")
    send(copied, machine)
    changed = {name for name, data in there(machine).items() if before.get(name) != data}
    assert changed == {f"{copied.name}/history/history-000001-0123456789abcdef.gz.age"}
    history(copied, b"")
    before = there(machine)
    with pytest.raises(Refused, match="is longer than"):
        send(copied, machine)
    assert there(machine) == before


def test_a_copy_that_was_changed_there_is_found(
    copied: registers.Register, machine: pathlib.Path
) -> None:
    send(copied, machine)
    path = next((machine / PLACE).rglob("nightly-000002-*.db.age"))
    path.write_bytes(path.read_bytes()[:-1] + b"x")
    with pytest.raises(Refused, match="is not what was sent"):
        send(copied, machine)


def test_a_copy_that_was_removed_there_is_sent_again(
    copied: registers.Register, machine: pathlib.Path
) -> None:
    send(copied, machine)
    names = set(there(machine))
    next((machine / PLACE).rglob("nightly-000001-*.db.age")).unlink()
    send(copied, machine)
    assert set(there(machine)) == names


@pytest.mark.parametrize("text", [
    "", "# none\n", "age1short\n", "AGE-SECRET-KEY-1QQQQ\n", "--output=/etc/passwd\n",
    "age1" + "q" * 58 + "\n", "two\nlines\n",
])
def test_with_a_wrong_key_nothing_leaves(
    text: str, copied: registers.Register, machine: pathlib.Path
) -> None:
    (machine / "etc/second-copy-recipient").write_text(text)
    with pytest.raises(Refused, match="public key of age|age: "):
        send(copied, machine)
    (machine / "etc/second-copy-recipient").unlink()
    with pytest.raises(Refused, match="copies leave this machine only encrypted: admissions-admin"):
        send(copied, machine)
    assert there(machine) == {}


def test_without_age_nothing_leaves_and_the_package_is_named(
    copied: registers.Register, machine: pathlib.Path, monkeypatch: pytest.MonkeyPatch
) -> None:
    def missing(name: str, package: str) -> str:
        if name == "age":
            raise Refused(f"{name} is missing: apt-get install {package}")
        return programs.tool(name, package)

    monkeypatch.setattr(sealed, "tool", missing)
    with pytest.raises(Refused, match="age is missing: apt-get install age"):
        send(copied, machine)
    assert there(machine) == {}


def test_where_age_fails_at_any_file_nothing_leaves_unencrypted(
    copied: registers.Register, machine: pathlib.Path, monkeypatch: pytest.MonkeyPatch
) -> None:
    for last in range(5):
        count = iter(range(9))
        encrypt = sealed.encrypt

        def failing(path: pathlib.Path, target: pathlib.Path, key: str) -> None:
            if next(count) == last:
                raise Refused("age: no space left")
            encrypt(path, target, key)
            assert b"SECRET" not in target.read_bytes()

        with monkeypatch.context() as patch:
            patch.setattr(sealed, "encrypt", failing)
            with pytest.raises(Refused, match="no space left"):
                send(copied, machine)
        assert len(there(machine)) == last
        for it in (machine / PLACE).rglob("*.age"):
            it.unlink()
    send(copied, machine)
    assert len(there(machine)) == 5
    assert not any(b"SECRET" in data for data in there(machine).values())


def test_what_an_earlier_version_left_there_unencrypted_is_named(
    copied: registers.Register, machine: pathlib.Path
) -> None:
    for it in second_copy.to_copy(copied):
        path = machine / PLACE / copied.name / it.relative_to(copied.copies)
        path.parent.mkdir(parents=True, exist_ok=True)
        path.write_bytes(it.read_bytes())
    line = send(copied, machine)
    assert "WARNING: 5 files there are not encrypted" in line
    (copied.copies / "second-copy.report").write_text(f"{line}\n")
    assert copies_status.second_of(copied)[0] is False


def test_with_the_identity_here_the_copy_is_decrypted_and_opened(
    copied: registers.Register, machine: pathlib.Path, key: tuple[str, pathlib.Path],
    monkeypatch: pytest.MonkeyPatch,
) -> None:
    shutil.copy(key[1], machine / "etc/second-copy-identity")
    tried: list[bytes] = []

    def open_error(path: pathlib.Path) -> str:
        tried.append(path.read_bytes())
        return ""

    monkeypatch.setattr(second_copy, "open_error", open_error)
    assert "equal to the first copy, and opens" in send(copied, machine)
    assert tried == [SECRET + b" 2"]
    monkeypatch.setattr(second_copy, "open_error", lambda _: "it is damaged")
    with pytest.raises(Refused, match="it is damaged"):
        send(copied, machine)


def drilled(
    register: registers.Register, monkeypatch: pytest.MonkeyPatch, *options: str
) -> tuple[list[bytes], list[str]]:
    """What a drill tries, with the archive beside it, and the lines of its report."""
    tried: list[bytes] = []

    def try_it(copy: pathlib.Path, room: str) -> str:
        tried.append(copy.read_bytes() + b", " + copies.settings_of(copy).read_bytes())
        return "restored"

    monkeypatch.setattr(drill, "tried", try_it)
    reader = argparse.ArgumentParser()
    drill.arguments(reader)
    assert drill.main(reader.parse_args([register.name, *options])) == 0
    report = (register.copies / drill.REPORT).read_text(encoding="utf-8")
    return tried, [line.partition(" ")[2] for line in report.splitlines()]


def test_the_drill_restores_from_the_second_place_with_the_identity(
    copied: registers.Register, machine: pathlib.Path, key: tuple[str, pathlib.Path],
    monkeypatch: pytest.MonkeyPatch,
) -> None:
    send(copied, machine)
    whole = SECRET + b" 2, " + SECRET + b" of settings 2"
    tried, lines = drilled(copied, monkeypatch)
    assert tried == [whole] and "not tried: it is encrypted" in lines[1]
    assert ".db.age: " in lines[1] and not (copied.copies / drill.OPENED).exists()
    tried, lines = drilled(copied, monkeypatch, "--identity", str(key[1]))
    assert tried == [whole, whole] and lines[1].endswith(": restored")
    assert (copied.copies / drill.OPENED).read_text(encoding="utf-8").endswith(": restored\n")
    shutil.copy(key[1], machine / "etc/second-copy-identity")
    assert drilled(copied, monkeypatch)[0] == [whole, whole]
    _, other = made_key(machine / "other")
    own, now = public_key(machine / "other"), key[0]
    with pytest.raises(
        Refused,
        match=rf"^nightly-000002.*\.tar\.age is encrypted for another key than that of {other}"
        rf" \({own}\); copies are encrypted for {now} now$",
    ):
        drilled(copied, monkeypatch, "--identity", str(other))


def public_key(path: pathlib.Path) -> str:
    done = subprocess.run(["age-keygen", "-y", path], check=True, capture_output=True, text=True)
    return done.stdout.strip()


@pytest.mark.parametrize("mode", [0o644, 0o640, 0o404])
def test_an_identity_that_others_may_read_is_named_and_no_copy_fails(
    mode: int, copied: registers.Register, machine: pathlib.Path,
    key: tuple[str, pathlib.Path], monkeypatch: pytest.MonkeyPatch,
) -> None:
    """The copy is made and the drill of the first one ends; both reports need attention."""
    identity = machine / "etc/second-copy-identity"
    shutil.copy(key[1], identity)
    identity.chmod(mode)
    said = f"{identity} must be of the user admissions, and nobody else may read it: chown"
    assert f"as it was sent; WARNING: not opened: {said}" in send(copied, machine)
    _, lines = drilled(copied, monkeypatch)
    assert f"not tried: WARNING: {said}" in lines[1]
    assert copies_status.drill_of(copied)[0] is False


def test_an_identity_of_another_user_opens_nothing(
    copied: registers.Register, machine: pathlib.Path, key: tuple[str, pathlib.Path],
    monkeypatch: pytest.MonkeyPatch,
) -> None:
    shutil.copy(key[1], machine / "etc/second-copy-identity")
    assert sealed.identity()
    monkeypatch.setattr("machine.files.numbers", lambda *_: (os.getuid() + 1, os.getgid()))
    with pytest.raises(Refused, match="must be of the user admissions"):
        sealed.identity()


@pytest.mark.parametrize(
    "days_of_register, days_of_opened, is_well",
    [(34, None, True), (36, None, False), (400, 34, True), (400, 36, False)],
)
def test_encrypted_copies_that_nobody_opens_need_attention(
    days_of_register: int, days_of_opened: int | None, is_well: bool,
    register: registers.Register,
) -> None:
    """Though a drill of the first copy is made each month."""
    (register.copies / drill.REPORT).write_text("x.db.age: not tried: it is encrypted\n")
    ages = {register.settings / "site-name": days_of_register}
    if days_of_opened is not None:
        (register.copies / drill.OPENED).write_text("x.db.age: restored\n")
        ages[register.copies / drill.OPENED] = days_of_opened
    for path, days in ages.items():
        os.utime(path, (time.time() - days * 86400, time.time() - days * 86400))
    found, text = copies_status.drill_of(register)
    assert (found, "opened there" in text) == (is_well, True)
    how = f"admissions-admin drill {register.name} --identity FILE"
    assert text.endswith(how) == (not is_well)


def test_a_record_of_what_was_sent_that_is_lost_or_damaged(
    copied: registers.Register, machine: pathlib.Path, key: tuple[str, pathlib.Path]
) -> None:
    """The newest copy is sent again, and what else is there stays as it is."""
    send(copied, machine)
    before, record = there(machine), copied.copies / sealed.SENT
    record.unlink()
    send(copied, machine)
    changed = {name for name, data in there(machine).items() if before[name] != data}
    assert {it.rpartition("/")[2][:14] for it in changed} == {"nightly-000002", "history-000001"}
    path = next((machine / PLACE).rglob("nightly-000002-*.db.age"))
    assert opened(path, key[1]) == SECRET + b" 2"
    record.write_text("{")
    with pytest.raises(Refused, match="remove it, and all is sent again"):
        send(copied, machine)


def test_another_place_and_the_first_one_again(
    copied: registers.Register, machine: pathlib.Path, key: tuple[str, pathlib.Path]
) -> None:
    """Each has all of it; what was sent to the other is no record of what is here."""
    (machine / "other").mkdir()
    for place in (PLACE, "other", PLACE):
        second_copy.copied(copied, str(machine / place))
        names = sorted(it.name for it in (machine / place / copied.name).rglob("*.age"))
        assert names == [
            "history-000001-0123456789abcdef.gz.age", "nightly-000001-2025-03-01T023000.db.age",
            "nightly-000001-2025-03-01T023000.tar.age", "nightly-000002-2025-03-02T023000.db.age",
            "nightly-000002-2025-03-02T023000.tar.age"]


def test_the_archive_of_settings_has_the_recipient_and_not_the_identity() -> None:
    from machine import settings_copy

    names: typing.Collection[str] = settings_copy.OWN + settings_copy.SHARED
    assert sealed.RECIPIENT in names and sealed.IDENTITY not in names


def test_another_key_needs_another_folder_there(
    copied: registers.Register, machine: pathlib.Path, key: tuple[str, pathlib.Path],
    tmp_path: pathlib.Path,
) -> None:
    """As RECOVER says where an identity file is lost: once the folder has another name,
    all that this machine has is sent for the new key."""
    send(copied, machine)
    new, identity = made_key(tmp_path / "new")
    (machine / "etc/second-copy-recipient").write_text(f"{new}\n", encoding="ascii")
    send(copied, machine)
    place, oldest = machine / PLACE, "nightly-000001-2025-03-01T023000.db.age"
    assert opened(place / copied.name / oldest, key[1]) == SECRET + b" 1"
    (place / copied.name).rename(place / "before")
    assert "another register" not in send(copied, machine)
    later = place / copied.name / "nightly-000003-2025-03-03T023000.db.age"
    later.write_text("of before", encoding="ascii")
    assert f"WARNING: {later.stem} there is of another register" in send(copied, machine)
    later.unlink()
    names = sorted(it.name for it in (place / copied.name).rglob("*.age"))
    assert names == sorted(it.name for it in (place / "before").rglob("*.age"))
    for path in (place / copied.name).rglob("*.age"):
        assert SECRET in opened(path, identity)


def test_a_key_that_may_do_nothing_but_copy(
    copied: registers.Register, machine: pathlib.Path, monkeypatch: pytest.MonkeyPatch
) -> None:
    """As docs/admin/OPERATE.md has another machine admit it: by rrsync, which deletes nothing."""
    vault, ssh, place = machine / "vault", machine / "ssh", "vault.example:copies"
    (vault / "copies").mkdir(parents=True)
    ssh.write_text(
        f'#!/bin/sh\nshift\nSSH_ORIGINAL_COMMAND="$*" exec rrsync -no-del {vault}\n',
        encoding="utf-8")
    ssh.chmod(0o755)
    monkeypatch.setattr(second_copy, "SSH", str(ssh))
    line = second_copy.copied(copied, place)
    assert f"is in {place}/{copied.name}, " in line
    there_now = {str(it.relative_to(vault)) for it in vault.rglob("*") if it.is_file()}
    assert there_now == {
        f"copies/{copied.name}/{it}.age" for it in (
            "nightly-000001-2025-03-01T023000.db", "nightly-000001-2025-03-01T023000.tar",
            "nightly-000002-2025-03-02T023000.db", "nightly-000002-2025-03-02T023000.tar",
            "history/history-000001-0123456789abcdef.gz")} | {f"copies/{copied.name}/owner"}
    history(copied, b"one and more")
    assert second_copy.copied(copied, place)
    for arguments in (["--list-only", "vault.example:/etc/"],
                      ["-r", "--delete", f"{machine / PLACE}/", f"{place}/{copied.name}/"]):
        done = subprocess.run(["rsync", "--rsh", ssh, *arguments], capture_output=True, check=False)
        assert done.returncode != 0
    assert {str(it.relative_to(vault)) for it in vault.rglob("*") if it.is_file()} == there_now
