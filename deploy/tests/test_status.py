"""What admissions-admin status says of each part: well on one side of a limit, and not on the other."""
import argparse
import collections
import contextlib
import datetime
import json
import os
import pathlib
import shutil
import subprocess
import sys
import time

import pytest
from machine import (
    certificates, copies_status, deletion, metrics, office_store, registers, sealed, second_copy,
    serving,
)
from machine.findings import Level
from machine.verbs import status
from office.web.register.history import SENDS, SETTLED
from office.web.register.store import Store
from office_files import add_people, history, record
from register_files import Refused

NAME = "secondary-2025"
MB = 1_000_000
Usage = collections.namedtuple("Usage", "total used free")


@pytest.fixture(name="office")
def office_fixture(register: registers.Register, write_as_me: None) -> registers.Register:
    """A register whose application has nobody and no entry yet."""
    add_people(register)
    record(register)
    return register


@pytest.mark.parametrize(
    "bytes_of_register, of_archive, free, is_well",
    [
        (1000, 1000, 200 * MB, True),
        (1000, 1000, 200 * MB - 1, False),
        (30 * MB, None, 300 * MB, True),
        (30 * MB, None, 300 * MB - 1, False),
        (30 * MB, 110 * MB, 330 * MB, True),
        (30 * MB, 110 * MB, 330 * MB - 1, False),
    ],
)
def test_the_room_on_the_disks(
    bytes_of_register: int,
    of_archive: int | None,
    free: int,
    is_well: bool,
    register: registers.Register,
    monkeypatch: pytest.MonkeyPatch,
) -> None:
    os.truncate(register.file, bytes_of_register)
    made = register.copies / "nightly-000002-2025-03-02T023000.db"
    made.touch()
    # (that of an earlier night is not asked for)
    (register.copies / "nightly-000001-2025-03-01T023000.db").touch()
    older = register.copies / "nightly-000001-2025-03-01T023000.tar"
    older.touch()
    os.truncate(older, 500 * MB)
    if of_archive is not None:
        made.with_suffix(".tar").touch()
        os.truncate(made.with_suffix(".tar"), of_archive)
    for full in (register.folder, register.copies, register.office):

        def usage(path: pathlib.Path, here: pathlib.Path = full) -> Usage:
            return Usage(10**12, 0, free if path == here else 10**12)

        monkeypatch.setattr(shutil, "disk_usage", usage)
        found, text = copies_status.room_of(register)
        assert (found, f"at {full}" in text) == (is_well, True)


@pytest.mark.parametrize("free, is_well", [(200 * MB, True), (200 * MB - 1, False)])
def test_the_room_at_the_second_place(
    free: int, is_well: bool, register: registers.Register, machine: pathlib.Path,
    monkeypatch: pytest.MonkeyPatch,
) -> None:
    """Where it is a folder of this machine; of another machine nothing is known."""
    place, setting = machine / "copies", machine / "etc/second-copy"

    def usage(path: pathlib.Path) -> Usage:
        return Usage(10**12, 0, free if path == place else 10**12)

    monkeypatch.setattr(shutil, "disk_usage", usage)
    for line in (place, "none", "vault.example:copies", f"{place}\n{place}"):
        setting.write_text(f"{line}\n", encoding="ascii")
        assert copies_status.room_of(register)[0] is True
        assert second_copy.folder_here() is None
    place.mkdir()
    setting.write_text(f"{place}/\n", encoding="ascii")
    assert second_copy.folder_here() == place
    found, text = copies_status.room_of(register)
    assert (found, f"at {place}" in text) == (is_well, not is_well or free < 10**12)
    rooms = {it["of"]: value for _, it, value in metrics.of_disks(register)}
    assert rooms["second_place"] == free


@pytest.mark.parametrize("key, identity, said", [
    (None, None, "names no key, and copies leave this machine only encrypted"),
    ("no key", None, "must have one line"), ("age1" + "q" * 58, None, ""),
    ("age1" + "q" * 58, "AGE-SECRET-KEY-1", ""),
    ("age1" + "q" * 58, f"{sealed.MADE_HERE}\nAGE-SECRET-KEY-1", "and is lost with it: keep it"),
])
def test_copies_that_nobody_could_open_need_attention(
    key: str | None, identity: str | None, said: str, register: registers.Register,
    machine: pathlib.Path, write_as_me: None,
) -> None:
    """Without a key nothing leaves; and one that this machine has made is lost with it, until it is
    kept elsewhere."""
    (machine / "etc/second-copy").write_text("/mnt/copies\n", encoding="ascii")
    line = f"now x.db is in /mnt/copies/{register.name}, equal to the first copy, and opens"
    (register.copies / second_copy.REPORT).write_text(f"{line}\n", encoding="ascii")
    if key is not None:
        (machine / "etc/second-copy-recipient").write_text(f"{key}\n", encoding="ascii")
    if identity is not None:
        (machine / "etc/second-copy-identity").write_text(identity, encoding="ascii")
    found = status.report(register)["second copy"]
    assert found.level is (Level.ATTENTION if said else Level.OK)
    assert said in found.text


@pytest.mark.parametrize(
    "days, is_own, is_well",
    [(21, False, True), (20, False, False), (1, False, False), (80, True, False)],
)
def test_the_days_of_a_certificate(
    days: int,
    is_own: bool,
    is_well: bool,
    register: registers.Register,
    monkeypatch: pytest.MonkeyPatch,
) -> None:
    monkeypatch.setattr(certificates, "days_left", lambda _: days)
    monkeypatch.setattr(certificates, "is_self_signed", lambda _: is_own)
    monkeypatch.setattr(certificates, "key_problem", lambda _: None)
    monkeypatch.setattr(certificates, "name_problem", lambda *_: None)
    assert status.certificate_of(register)[0] is is_well


@pytest.mark.parametrize(
    "text, is_well, said",
    [
        (None, False, "no second place is named in"),
        ("# one line\n", False, "admissions-admin second-place PLACE, or second-place none"),
        ("# one line\nnone\n", True, "none, as"),
        ("/mnt/copies\n", False, "copied nothing to /mnt/copies yet"),
        ("none\n/mnt/copies\n", False, "must have one line"),
    ],
)
def test_no_second_place_needs_attention_unless_it_is_decided(
    text: str | None, is_well: bool, said: str, register: registers.Register, machine: pathlib.Path
) -> None:
    setting = machine / "etc/second-copy"
    if text is not None:
        setting.write_text(text)
    level, shown = status.report(register)["second copy"]
    found = level is Level.OK
    assert (found, said in shown, str(setting) in shown or "/mnt" in shown) == (is_well, True, True)


@pytest.mark.parametrize("text", ["", "# one line\n", "none\n"])
def test_without_a_second_place_nothing_is_copied_there(
    text: str,
    register: registers.Register,
    machine: pathlib.Path,
    capsys: pytest.CaptureFixture[str],
) -> None:
    setting = machine / "etc/second-copy"
    setting.write_text(text)
    assert second_copy.main(argparse.Namespace(name=register.name)) == 0
    assert capsys.readouterr().out == f"no second place is named in {setting}\n"


def test_a_register_that_others_can_read(register: registers.Register) -> None:
    register.file.chmod(0o600)
    assert status.file_of(register) == (
        True,
        f"secondary 2025, {register.file.stat().st_size:,} bytes",
    )
    register.file.chmod(0o640)
    assert status.file_of(register)[0] is False


def test_a_name_of_no_register(register: registers.Register) -> None:
    assert registers.known(register.name) == register
    with pytest.raises(
        Refused, match="^no such register: nope; registers of this machine: secondary-2025$"
    ) as found:
        registers.known("nope")
    assert found.value.status == 2


def test_a_history_that_is_whole(office: registers.Register) -> None:
    """The time of the last entry is the local one."""
    before = os.environ.get("TZ")
    os.environ["TZ"] = "UTC"
    time.tzset()
    try:
        assert status.history_of(office) == (True, "no entries yet")
        record(office, 1, 2)
        assert status.history_of(office) == (True, "4 entries, the last of 2025-03-03 10:00")
        with open(office.history, "ab") as file:
            file.write(b'{"about":')
        assert status.history_of(office) == (True, "4 entries, the last of 2025-03-03 10:00")
    finally:
        os.environ.pop("TZ")
        os.environ.update({"TZ": before} if before else {})
        time.tzset()


def test_a_history_that_was_changed(office: registers.Register) -> None:
    record(office, 1, 2)
    office.history.write_bytes(office.history.read_bytes().replace(b'"child":2', b'"child":3'))
    is_well, text = status.history_of(office)
    assert (is_well, text.startswith(f"{office.history}, line 4: the history was changed")) == (
        False,
        True,
    )


@pytest.mark.parametrize("minutes, is_well", [(59, True), (61, False), (-60, True)])
def test_a_request_without_a_known_answer(
    minutes: int, is_well: bool, office: registers.Register
) -> None:
    """One may be in flight, or wait for the next that is sent. Its text is nothing for monitoring."""
    record(office, 1)
    at = datetime.datetime.now(datetime.timezone.utc) - datetime.timedelta(minutes=minutes)
    with history(office, at.isoformat()) as found:
        found.add("ben", SENDS, {"command": {"cmd": "amend", "child": 2, "name": "Ann Abel"}})
    said = f"line 3: ben sent a request at {at.astimezone():%Y-%m-%d %H:%M:%S}; no answer is known"
    found_well, text = status.history_of(office)
    assert (found_well, text == said, "Ann" in text) == (is_well, not is_well, False)
    with history(office) as found:
        found.add("ben", SETTLED, {"of": 3, "done": False})
    assert status.history_of(office)[0] is True


@pytest.mark.parametrize("hours, is_well", [(-1, True), (1.9, True), (2.1, False)])
def test_an_entry_that_is_dated_ahead(
    hours: float, is_well: bool, office: registers.Register
) -> None:
    """The clock was ahead, or is behind now."""
    at = datetime.datetime.now(datetime.timezone.utc) + datetime.timedelta(hours=hours)
    with history(office, at.isoformat()) as found:
        found.add("ben", "signed in", {})
    found_well, text = status.history_of(office)
    assert (found_well, text.endswith("is the clock right?")) == (is_well, not is_well)


@pytest.mark.parametrize("mode", [0o660, 0o640, 0o604])
def test_a_history_that_others_read_or_write(mode: int, office: registers.Register) -> None:
    office.history.chmod(mode)
    is_well, text = status.history_of(office)
    assert (is_well, f"chmod 600 {office.history}" in text) == (False, True)


def test_a_history_of_another_owner(
    office: registers.Register, monkeypatch: pytest.MonkeyPatch
) -> None:
    monkeypatch.setattr(
        "machine.files.numbers",
        lambda user, group: (os.getuid() + (user == "admissions-office"), os.getgid()),
    )
    is_well, text = status.history_of(office)
    assert (is_well, f"chown admissions-office: {office.history}" in text) == (False, True)


def test_a_history_that_is_not_there_or_no_file(office: registers.Register) -> None:
    office.history.unlink()
    is_well, text = status.history_of(office)
    assert (is_well, "systemctl status admissions-office@secondary-2025" in text) == (False, True)
    office.history.symlink_to("/etc/hostname")
    is_well, text = status.history_of(office)
    assert (is_well, "must be a file" in text) == (False, True)


@pytest.mark.parametrize(
    "answered, said",
    [
        (502, "does not run: admissions-admin open secondary-2025"),
        (200, "answers 200, and not 401"),
        (403, "answers 403, and not 401"),
        (ConnectionRefusedError(111, "refused"), "refused): systemctl start nginx"),
    ],
)
def test_a_site_that_does_not_answer_as_it_should(
    answered: int | OSError,
    said: str,
    register: registers.Register,
    monkeypatch: pytest.MonkeyPatch,
) -> None:
    def ask(_: str) -> tuple[int, bytes]:
        if isinstance(answered, OSError):
            raise answered
        return answered, b""

    monkeypatch.setattr(status, "site_status_of", ask)
    found = status.report(register)["site"]
    assert (found.level, said in found.text) == (Level.FAILED, True)


@pytest.mark.parametrize("above", ["utf-8", "latin-1"])
def test_the_certificate_that_nginx_shows(
    above: str, register: registers.Register, monkeypatch: pytest.MonkeyPatch
) -> None:
    for name in ("site", "other"):
        subprocess.run(
            [
                "openssl",
                "req",
                "-x509",
                "-newkey",
                "ec",
                "-pkeyopt",
                "ec_paramgen_curve:P-256",
                "-nodes",
                "-subj",
                "/CN=x",
                "-keyout",
                register.settings / f"{name}.key",
                "-out",
                register.settings / f"{name}.crt",
            ],
            check=True,
            capture_output=True,
        )
    own, other = (register.settings / "site.crt").read_text(), (
        register.settings / "other.crt"
    ).read_text()
    (register.settings / "site.crt").write_bytes(f"# Société, {above}\n{own}{other}".encode(above))
    first = subprocess.run(
        ["openssl", "x509", "-in", register.settings / "site.crt", "-outform", "DER"],
        check=True,
        capture_output=True,
    ).stdout
    monkeypatch.setattr(status, "site_status_of", lambda _: (401, first))
    is_well, text = status.site_of(register)
    assert (is_well, text.startswith("asks who signs in, in ")) == (True, True)
    (register.settings / "site.crt").write_text(other + own)
    is_well, text = status.site_of(register)
    assert (is_well, "systemctl reload nginx" in text) == (False, True)


@pytest.mark.parametrize(
    "content, said",
    [
        (b"0\x82\x01\x0a\x00", "site.crt has no certificate in the form PEM"),
        (b"-----BEGIN CERTIFICATE-----\nxy\n-----END CERTIFICATE-----\n", "cannot be read: "),
    ],
)
def test_a_certificate_that_is_none_is_reported_and_so_is_all_else(
    content: bytes, said: str, register: registers.Register, monkeypatch: pytest.MonkeyPatch
) -> None:
    (register.settings / "site.crt").write_bytes(content)
    monkeypatch.setattr(status, "site_status_of", lambda *_: (401, b""))
    found = status.report(register)
    level, text = found["site"]
    assert (level, said in text, len(found)) == (Level.ATTENTION, True, 12)


ENABLED = [
    "admissions@secondary-2025.service",
    "admissions-backup@secondary-2025.timer",
    "admissions-drill@secondary-2025.timer",
    "nginx.service",
]
OFFICE = [
    "admissions-office@secondary-2025.socket",
    "admissions-office@secondary-2025.service",
    "admissions-office-copy@secondary-2025.path",
    "admissions-office-restore@secondary-2025.path",
    "admissions-office-deletion-day@secondary-2025.path",
    "admissions-office-delete@secondary-2025.path",
]
JOBS = (
    "backup",
    "second-copy",
    "drill",
    "office-copy",
    "office-restore",
    "office-deletion-day",
    "office-delete",
)


@pytest.mark.parametrize(
    "unit, shown, said",
    [
        *((it, {"ActiveState": "inactive"}, f"{it} is inactive") for it in ENABLED + OFFICE),
        *((it, {"UnitFileState": "disabled"}, f"{it} is disabled") for it in ENABLED),
        *(
            (f"admissions-{it}@secondary-2025.service", {"ActiveState": "failed"}, "has failed")
            for it in JOBS
        ),
    ],
)
def test_a_unit_that_does_not_run_or_start(
    unit: str,
    shown: dict[str, str],
    said: str,
    register: registers.Register,
    monkeypatch: pytest.MonkeyPatch,
) -> None:
    good = {
        "ActiveState": "active",
        "UnitFileState": "enabled",
        "NextElapseUSecRealtime": "Sat 2025-03-01 02:30:00 GMT",
    }
    monkeypatch.setattr(status, "is_booted", lambda: True)
    monkeypatch.setattr(status, "shown_of", lambda it, *names: good | (shown if it == unit else {}))
    is_well, text = status.units_of(register)
    assert (is_well, said in text) == (False, True)
    monkeypatch.setattr(status, "shown_of", lambda it, *names: good)
    assert status.units_of(register) == (
        True,
        "enabled and active; next backup Sat 2025-03-01 02:30:00 GMT, next drill Sat 2025-03-01 02:30:00 GMT,"
        " next hourly copy Sat 2025-03-01 02:30:00 GMT",
    )


@pytest.mark.parametrize("shown, is_well, is_named", [
    ({"ActiveState": "active", "UnitFileState": "enabled"}, True, True),
    ({"ActiveState": "inactive", "UnitFileState": "enabled"}, False, True),
    ({"ActiveState": "inactive", "UnitFileState": "disabled"}, True, False),
])
def test_the_hourly_copies_of_the_history(
    shown: dict[str, str], is_well: bool, is_named: bool, register: registers.Register,
    monkeypatch: pytest.MonkeyPatch,
) -> None:
    """They are a choice; once they are chosen, they must be made."""
    good = {"ActiveState": "active", "UnitFileState": "enabled", "NextElapseUSecRealtime": "soon"}
    hourly = f"admissions-second-copy@{register.name}.timer"
    monkeypatch.setattr(status, "is_booted", lambda: True)
    monkeypatch.setattr(status, "shown_of", lambda it, *_: good | (shown if it == hourly else {}))
    found, text = status.units_of(register)
    assert (found, "next hourly copy soon" in text or f"start {hourly}" in text) == (
        is_well, is_named)


def test_a_register_without_a_site_has_no_application(
    office: registers.Register, monkeypatch: pytest.MonkeyPatch
) -> None:
    (office.settings / "site-name").unlink()
    shutil.rmtree(office.office)
    asked = []

    def shown_of(unit: str, *names: str) -> dict[str, str]:
        asked.append(unit)
        return {"ActiveState": "active", "UnitFileState": "enabled", "NextElapseUSecRealtime": ""}

    monkeypatch.setattr(status, "is_booted", lambda: True)
    monkeypatch.setattr(status, "shown_of", shown_of)
    assert status.units_of(office)[0] is True
    assert not set(asked) & {*OFFICE, "nginx.service"}
    assert status.people_of(office) == status.history_of(office) == (True, "it has no site")


@pytest.mark.parametrize(
    "people, is_well, said",
    [
        ([("jane", "head")], True, "1 may sign in (head 1)"),
        (
            [("jane", "head"), ("ben", "officer"), ("kim", "officer"), ("alpha", "school-A")],
            True,
            "4 may sign in (head 1, officer 2, school-A 1)",
        ),
        (
            [("ben", "officer")],
            False,
            "1 may sign in (officer 1); nobody with the role head can",
        ),
        ([], False, "nobody can sign in"),
    ],
)
def test_who_may_sign_in(
    people: list[tuple[str, str]],
    is_well: bool,
    said: str,
    office: registers.Register,
) -> None:
    """Neither a program nor who is locked signs in."""
    add_people(office, *people)
    assert status.people_of(office) == (is_well, said)
    add_people(office, ("page", "head"), ("sums", "reader"), kind="program")
    add_people(office, ("lou", "head"), locked=True)
    assert status.people_of(office) == (is_well, f"{said}; 2 with a token; 1 locked")


def made_certificate(folder: pathlib.Path, host: str, *kind: str) -> None:
    """A certificate with its key."""
    subprocess.run(
        ["openssl", "req", "-x509", "-nodes", "-subj", f"/CN={host}", "-addext",
         f"subjectAltName=DNS:{host}", "-keyout", folder / "site.key", "-out", folder / "site.crt",
         *(kind or ("-newkey", "ec", "-pkeyopt", "ec_paramgen_curve:P-256"))],
        check=True, capture_output=True)


@pytest.mark.parametrize("host", ["admissions.example", "other.example"])
@pytest.mark.parametrize("days, ends", [(2, ""), (1, "ends"), (0, "has ended")])
def test_a_certificate_has_failed_from_its_last_day_on(
    days: int, ends: str, host: str, register: registers.Register,
    capsys: pytest.CaptureFixture[str], monkeypatch: pytest.MonkeyPatch,
) -> None:
    """In each form of the report, whatever else is wrong of it; the command that takes another is
    named."""
    made_certificate(register.settings, host)
    key, made = (register.settings / f"site.{it}" for it in ("key", "crt"))
    new = register.settings / "new.crt"
    subprocess.run(["openssl", "x509", "-in", made, "-signkey", key, "-days", str(days), "-out",
                    new], check=True, capture_output=True)
    new.rename(made)
    monkeypatch.setattr(os, "geteuid", lambda: 0)
    found = findings_of(register, "--json", capsys)
    part = json.loads(found)["registers"][0]["parts"]["certificate"]
    assert part["state"] == ("failed" if ends else "attention")
    line, text = (findings_of(register, it, capsys) for it in ("--line", ""))
    # (what has failed is before what needs attention)
    assert (line.index(f"{NAME} certificate: ") < line.index(f"{NAME} copy: ")) == bool(ends)
    numbers = findings_of(register, "--metrics", capsys)
    state = f'admissions_part_state{{register="{NAME}",part="certificate"}}'
    assert f"{state} {2 if ends else 1}" in numbers.splitlines()
    if ends:
        end = certificates.end_of(made).astimezone()
        assert part["text"] == (
            f"admissions.example, {ends} at {end:%Y-%m-%d %H:%M}, and browsers let nobody in after"
            f" that: admissions-admin certificate {NAME} FILE")
        assert f"  FAILED    certificate: {part['text']}" in text.splitlines()


def findings_of(
    register: registers.Register, form: str, capsys: pytest.CaptureFixture[str]
) -> str:
    """What it prints in this form."""
    reader = argparse.ArgumentParser()
    status.arguments(reader)
    status.main(reader.parse_args([register.name, *([form] if form else [])]))
    return capsys.readouterr().out


@pytest.mark.parametrize("kind", [(), ("-newkey", "rsa:2048")])
def test_a_certificate_of_another_key_or_site(
    kind: tuple[str, ...], register: registers.Register, tmp_path: pathlib.Path,
    capsys: pytest.CaptureFixture[str],
) -> None:
    """nginx reports no error of a key of another kind, and serves nothing."""
    made_certificate(register.settings, "admissions.example")
    assert certificates.see(register, "admissions.example") == certificates.warning(register)
    other = tmp_path / "other"
    other.mkdir()
    made_certificate(other, "admissions.example", *kind)
    shutil.copy(other / "site.crt", register.settings)
    found = status.report(register)["certificate"]
    said = f"{register.settings}/site.crt is not of the key {register.settings}/site.key"
    assert (found.level, found.text.startswith(said)) == (Level.FAILED, True)
    with pytest.raises(Refused, match=said):
        certificates.see(register, "admissions.example")
    assert found.text.endswith(f": {certificates.command(register)}")
    [line] = serving.other_problems(None)
    assert line.startswith(f"WARNING: {said}")
    assert not list(serving.other_problems(register))
    made_certificate(register.settings, "other.example")
    found = status.report(register)["certificate"]
    assert (found.level, "is of other.example, and not of admissions.example" in found.text) == (
        Level.ATTENTION, True)
    assert str(certificates.see(register, "admissions.example")).startswith("WARNING: ")
    made_certificate(register.settings, "*.county.example")
    made = register.settings / "site.crt"
    assert certificates.name_problem(made, "admissions.county.example") is None


def test_a_register_whose_site_name_is_gone(
    office: registers.Register, monkeypatch: pytest.MonkeyPatch
) -> None:
    """As after a purge: what sets it up again is named, with the name that its certificate has."""
    made_certificate(office.settings, "admissions.example")
    monkeypatch.setattr(status, "is_booted", lambda: True)
    (office.settings / "site-name").unlink()
    found, how = status.report(office), f"admissions-admin setup {office.name} --site"
    assert found["site"] == (
        Level.FAILED, f"the file of its name is gone: {how} admissions.example")
    assert found["units"] == (
        Level.ATTENTION, f"its site is not set up: {how} admissions.example")
    assert found["people"] == (Level.ATTENTION, "nobody can sign in")
    (office.settings / "site.crt").unlink()
    assert status.report(office)["site"].text.endswith(f"{how} HOST")


def test_an_upgrade_that_was_interrupted(
    register: registers.Register, machine: pathlib.Path, monkeypatch: pytest.MonkeyPatch
) -> None:
    """One that is being made is none."""
    monkeypatch.setattr(status, "is_booted", lambda: True)
    monkeypatch.setattr(status, "shown_of", lambda *_: {
        "ActiveState": "active", "UnitFileState": "enabled", "NextElapseUSecRealtime": ""})
    monkeypatch.setattr(status, "INTERRUPTED", machine / "kept")
    monkeypatch.setattr(status, "DPKG_LOCK", machine / "lock")
    assert status.units_of(register)[0] is True
    (machine / "kept").touch()
    is_well, text = status.units_of(register)
    assert (is_well, text.endswith("apt-get install --reinstall admissions")) == (False, True)
    (machine / "lock").touch()
    assert status.units_of(register)[0] is False
    code = "import fcntl, sys; f = open(sys.argv[1], 'r+'); fcntl.lockf(f, fcntl.LOCK_EX); print(); input()"
    with subprocess.Popen([sys.executable, "-c", code, machine / "lock"], stdin=subprocess.PIPE,
                          stdout=subprocess.PIPE) as dpkg:
        assert dpkg.stdout and dpkg.stdout.readline()
        assert status.units_of(register)[0] is True
        dpkg.communicate(b"\n")
    assert status.units_of(register)[0] is False


def test_the_people_are_read_while_the_application_writes(office: registers.Register) -> None:
    add_people(office, ("jane", "head"))
    with contextlib.closing(Store(str(office_store.path_of(office)))) as store:
        with store.writing() as db:
            db.execute("DELETE FROM person")
            assert status.people_of(office)[0] is True
    assert status.people_of(office) == (False, "nobody can sign in")


@pytest.mark.parametrize(
    "content, said",
    [
        (None, "office.db is not there"),
        (b"no database of anybody", "office.db cannot be read: file is not a database"),
        (b"", "office.db cannot be read: no such table: person"),
    ],
)
def test_people_that_cannot_be_read(
    content: bytes | None, said: str, office: registers.Register
) -> None:
    file = office_store.path_of(office)
    file.unlink()
    if content is not None:
        file.write_bytes(content)
    found = status.report(office)["people"]
    assert found.level == Level.ATTENTION
    assert found.text.startswith(f"{file.parent}/{said}: ")


def test_each_part_is_reported(register: registers.Register) -> None:
    assert list(status.report(register)) == [
        "register",
        "desk",
        "site",
        "units",
        "people",
        "history",
        "copy",
        "second copy",
        "drill",
        "disk",
        "certificate",
        "deletion",
    ]


def test_a_deletion_that_is_near_is_reported(
    register: registers.Register, monkeypatch: pytest.MonkeyPatch
) -> None:
    day = datetime.date(2026, 1, 31)
    assert status.deletion_of(register) == (True, "no day of deletion is kept")
    register.settings.mkdir(parents=True, exist_ok=True)
    deletion.place(register).write_text(f"{day}\n", encoding="ascii")
    for today, is_well in (("2026-01-16", True), ("2026-01-17", False), ("2026-02-20", False)):
        monkeypatch.setattr(deletion, "today", lambda it=today: datetime.date.fromisoformat(it))
        assert status.deletion_of(register) == (
            is_well,
            "the office's application may delete it from 2026-01-31 on; to prevent that, rm"
            f" {deletion.place(register)}",
        )
