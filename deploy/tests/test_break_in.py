"""admissions-admin evidence: how a site is taken down, what is kept, and what of it is true on
another machine."""
import os
import pathlib
import subprocess
import sys

import pytest
from conftest import Systemd, Terminal, typed
from machine import programs, registers, sealed, serving
from machine.verbs import evidence
from office.web.register.history import ANSWER, SENDS, History
from register_files import Refused

NAME = "secondary-2025"
COPY, LATER = "nightly-000012-2025-03-03T023000.db", "nightly-000013-2025-03-04T023000.db"
PROGRAM = "usr/share/admissions/office.py"
# a register is a file of lines here, to which `do` adds, and which `show` prints as JSON
ADMISSIONS = """#!/bin/bash
case $1 in
    do) while read -r it; do echo "$it" >> "$2"; echo '{"done":true}'; done ;;
    import) cat "$3" >> "$2"; echo '{"done":true}' ;;
    show) sed '1s/^/[/; $!s/$/,/; $s/$/]/' "$2" ;;
esac
"""


def add(path: pathlib.Path, text: str) -> pathlib.Path:
    path.parent.mkdir(parents=True, exist_ok=True)
    path.write_text(text, encoding="utf-8")
    return path


def sent(path: pathlib.Path, *about: dict[str, object]) -> None:
    """A history of requests that were done."""
    record = History(str(path), lambda: "2025-03-03T09:00:00.000+00:00")
    for it in about:
        of = record.add("jane", SENDS, it).number
        record.add("jane", ANSWER, {"of": of, "answer": {"done": True}})
    record.close()


@pytest.fixture(name="old")
def old_fixture(
    tmp_path: pathlib.Path, monkeypatch: pytest.MonkeyPatch, systemd: Systemd
) -> pathlib.Path:
    """The root of a machine with two nights, a register with two commands and an import since, and
    a program; and a disk that is mounted. The new machine is the same folder."""
    root = tmp_path / "root-of-machine"
    for name in (it.replace(".db", end) for it in (COPY, LATER) for end in (".db", ".tar")):
        add(root / "var/backups/admissions" / NAME / name, '{"child":0}\n')
        add(root / "mnt/copies" / NAME / name, '{"child":0}\n')
    add(root / "var/backups/admissions" / NAME / LATER, "changed")
    office = root / "var/lib/admissions-office" / NAME
    office.mkdir(parents=True)
    commands = [{"cmd": "accept", "child": it} for it in (1, 2)]
    sent(office / "history.jsonl", {"command": commands[0]}, {"import": '{"child":9}\n'},
         {"command": commands[1]})
    add(root / "var/lib/admissions" / NAME / "reg.db", '{"child":0}\n{"child":1,"cmd":"accept"}\n'
        '{"child":9}\n{"child":2,"cmd":"accept"}\n')
    for name in ("usr/bin/admissions", "usr/sbin/admissions-admin", "usr/lib/admissions/drill"):
        add(root / name, "of the release")
    add(root / PROGRAM, "of another")
    (root / "mnt/evidence").mkdir()
    monkeypatch.setattr("os.path.ismount", lambda path: pathlib.Path(path).name == "evidence")
    monkeypatch.setattr(evidence, "ROOT", root)
    monkeypatch.setattr(evidence, "ROOM", root / "root")
    (root / "root").mkdir()
    for name in ("REGISTERS", "OFFICES", "COPIES"):
        real = getattr(registers, name)
        monkeypatch.setattr(evidence, name, root / real.relative_to("/"))
    bin_ = tmp_path / "bin"
    add(bin_ / "journalctl", '#!/bin/sh\necho "journal: $*"\n').chmod(0o755)
    add(bin_ / "admissions", ADMISSIONS).chmod(0o755)
    add(bin_ / "admissions-restore", '#!/bin/sh\ncp "$1" "$2"\n').chmod(0o755)
    monkeypatch.setattr(evidence, "program", lambda name: str(bin_ / name))
    monkeypatch.setenv("ADMISSIONS", str(bin_ / "admissions"))
    monkeypatch.setattr(evidence, "tool", lambda name, package: str(
        bin_ / name) if name == "journalctl" else programs.tool(name, package))
    monkeypatch.setattr(evidence, "call", programs.call)
    return root


@pytest.fixture(name="kept")
def kept_fixture(old: pathlib.Path, capsys: pytest.CaptureFixture[str]) -> pathlib.Path:
    """The same, of which the evidence was kept, and unpacked where the release is installed."""
    assert typed("evidence", "--keep", str(old / "mnt/evidence")) == 0
    add(old / PROGRAM, "of the release")
    written = capsys.readouterr().out.split()[-1]
    assert typed("evidence", "--open", str(old / "mnt/evidence")) == 0
    assert capsys.readouterr().out.splitlines() == [
        f"compare with what you wrote down: {written}", f"{PROGRAM} differs",
        "1 programs are not those of this release, if both machines have the same"]
    return old


def test_a_site_is_taken_down_after_a_yes(
    old: pathlib.Path, systemd: Systemd, monkeypatch: pytest.MonkeyPatch
) -> None:
    monkeypatch.setattr(sys, "stdin", Terminal("no\nyes\n"))
    with pytest.raises(Refused, match="nothing was changed"):
        typed("evidence", "--stop")
    assert systemd.calls == []
    assert typed("evidence", "--stop") == 0
    assert systemd.calls == [
        "mask --now nginx", "stop admissions-*@*.timer admissions-office*@*",
        "stop admissions-backup@*", "stop admissions*@*", "list-units --plain --no-legend"
        " --state=active,activating,deactivating admissions*@*"]


def test_what_still_runs_is_named(
    old: pathlib.Path, monkeypatch: pytest.MonkeyPatch
) -> None:
    monkeypatch.setattr(serving, "systemctl", lambda *words, **_: (
        f"admissions@{NAME}.service loaded active\n" if words[0] == "list-units" else ""))
    with pytest.raises(Refused, match=f"these still run: admissions@{NAME}.service"):
        typed("evidence", "--stop", "--yes")


def test_evidence_is_kept_once_and_is_not_read_by_others(
    kept: pathlib.Path, monkeypatch: pytest.MonkeyPatch
) -> None:
    place = kept / "mnt/evidence"
    assert sorted(it.name for it in place.iterdir()) == [
        "SHA256SUMS", "journal.gz", "machine.tar.gz", "people.txt"]
    people = (place / "people.txt").read_text(encoding="utf-8")
    assert people.count("SYSLOG_IDENTIFIER=admissions-") == 3
    sums = (place / "SHA256SUMS").read_bytes()
    with pytest.raises(Refused, match="has evidence already, which stays as it is"):
        typed("evidence", "--keep", str(place))
    with pytest.raises(Refused, match="no disk is mounted at /mnt/gone"):
        typed("evidence", "--keep", "/mnt/gone")
    assert (place / "SHA256SUMS").read_bytes() == sums
    with (place / "machine.tar.gz").open("ab") as file:
        file.write(b"X")
    with pytest.raises(Refused, match="machine.tar.gz is not what was kept"):
        typed("evidence", "--open", str(place))


def test_programs_that_one_machine_alone_has_are_named(
    kept: pathlib.Path, capsys: pytest.CaptureFixture[str]
) -> None:
    """Also where it is typed again, which replaces what is there after a yes."""
    (kept / "usr/sbin/admissions-admin").unlink()
    note = add(kept / "root/seized/note", "what was found")
    with pytest.raises(Refused, match="root/seized is unpacked anew: .*: nothing was changed"):
        typed("evidence", "--open", str(kept / "mnt/evidence"))
    assert note.exists()
    assert typed("evidence", "--open", str(kept / "mnt/evidence"), "--yes") == 0
    assert not note.exists()
    assert "usr/sbin/admissions-admin is on the seized machine alone\n" in capsys.readouterr().out


def test_copies_that_were_changed_are_named(
    kept: pathlib.Path, capsys: pytest.CaptureFixture[str]
) -> None:
    there = kept / "mnt/copies"
    assert typed("evidence", NAME, "--compare", str(there)) == 0
    lines = capsys.readouterr().out.splitlines()
    assert lines[0] == f"{LATER} differs from {there / NAME / LATER}"
    assert lines[1].startswith("3 of 4 files of nights are equal")
    (there / NAME / COPY).unlink()
    assert typed("evidence", NAME, "--compare", str(there)) == 0
    assert f"{COPY} is not in {there / NAME}\n" in capsys.readouterr().out
    for words, said in (([NAME, "--compare", "/gone"], "is not there: is the disk mounted"),
                        (["--open", "/gone"], "SHA256SUMS is not there: is the disk mounted"),
                        (["other", "--compare", str(there)], "first admissions-admin evidence"),
                        (["--compare", str(there)], "NAME is missing")):
        with pytest.raises(Refused, match=said):
            typed("evidence", *words)


@pytest.mark.parametrize("kind", ["link", "pipe"])
def test_what_is_no_file_among_the_copies_of_the_machine_is_named_and_not_read(
    kind: str, kept: pathlib.Path, capsys: pytest.CaptureFixture[str]
) -> None:
    """Whoever broke in may have put there what has no end."""
    odd = kept / "root/seized/var/backups/admissions" / NAME / COPY
    odd.unlink()
    if kind == "pipe":
        os.mkfifo(odd)
    else:
        odd.symlink_to("/dev/zero")
    assert typed("evidence", NAME, "--compare", str(kept / "mnt/copies")) == 0
    assert f"{COPY} is no file\n" in capsys.readouterr().out


def test_encrypted_copies_are_decrypted_aside(
    kept: pathlib.Path, monkeypatch: pytest.MonkeyPatch, capsys: pytest.CaptureFixture[str]
) -> None:
    """All of them: also the history, and copies from before encryption. One of another key is
    named."""
    there, keys = kept / "mnt/copies" / NAME, [kept / "one.key", kept / "other.key"]
    public = []
    for it in keys:
        subprocess.run(["age-keygen", "-o", it], check=True, capture_output=True)
        done = subprocess.run(["age-keygen", "-y", it], check=True, capture_output=True, text=True)
        public.append(done.stdout.strip())
    add(there / "history/history-000001-0123456789abcdef.gz", "who did what")
    (there / "nightly-000014-2025-03-05T023000.db.age").symlink_to("/dev/zero")
    (there / "history/others").symlink_to(kept)
    for path in [it for it in there.rglob("*") if it.is_file() and it.suffix != ".tar"]:
        key = public[path.name == LATER]
        sealed.encrypt(path, path.with_name(f"{path.name}.age"), key)
        path.unlink()
    words = ["evidence", NAME, "--compare", str(there.parent)]
    with pytest.raises(Refused, match="^not given: --identity, the identity file that opens"):
        typed(*words)
    given: list[list[str]] = [["--identity", str(keys[0])], []]
    for more in given:
        monkeypatch.setattr(sys, "stdin", Terminal(f"{keys[0]}\n"))
        assert typed(*words, *more) == 0
        said = capsys.readouterr().out
        for name in ("nightly-000014-2025-03-05T023000.db.age", "others"):
            assert f"{name} is no file\n" in said
        assert f"{LATER}.age does not open" in said and f"{LATER} is not in " in said
        assert "3 of 4 files of nights are equal" in said
    room = kept / "root/copies" / NAME
    assert (room / "history/history-000001-0123456789abcdef.gz").read_text() == "who did what"
    assert not list(room.rglob("*.age"))


def test_a_register_is_its_copy_with_the_commands_of_the_history(
    kept: pathlib.Path, capsys: pytest.CaptureFixture[str]
) -> None:
    """And with the rows of an import between them; or what was changed past the history is
    printed."""
    copy = kept / "mnt/copies" / NAME / COPY
    words = ["evidence", NAME, "--check", str(copy)]
    for _ in range(2):
        assert typed(*words) == 0
        assert "the register is that copy with the commands of the history\n" in (
            capsys.readouterr().out)
    seized = kept / "root/seized/var/lib/admissions" / NAME / "reg.db"
    with seized.open("a", encoding="utf-8") as file:
        file.write('{"child":7}\n')
    with pytest.raises(Refused, match="was changed past the history"):
        typed(*words)
    assert '+  "child": 7' in capsys.readouterr().out
