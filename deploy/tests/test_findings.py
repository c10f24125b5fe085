"""What admissions-admin status prints for people and for monitors: the same findings as text, as
one line, as JSON and as numbers; its exit statuses; and the line of a register that was deleted."""
import argparse
import json
import os
import pathlib
import re
import socket
import threading

import pytest
from machine import deletion, desk, findings, metrics, parts, registers
from machine.findings import Finding, Level
from machine.verbs import status
from office_files import add_people, record
from register_files import Refused

NONE_FAILED = {"password": 0, "wait": 0, "account": 0, "token": 0, "provider": 0}
WELL, BAD, DEAD = (Finding(level, level.name) for level in Level)
NAME = "secondary-2025"
LABEL = r'[a-z]+="[a-zA-Z0-9_-]+"'
SAMPLE = re.compile(rf"(admissions_[a-z_]+)(?:\{{({LABEL}(?:,{LABEL})*)\}})? (-?\d+)")


@pytest.fixture(name="found")
def found_fixture(
    register: registers.Register, write_as_me: None, monkeypatch: pytest.MonkeyPatch
) -> dict[str, Finding]:
    """The findings of the one register, which a test changes."""
    found = {"desk": WELL, "second copy": WELL}
    monkeypatch.setattr(os, "geteuid", lambda: 0)
    monkeypatch.setattr(status, "report", lambda _: found)
    return found


def run(*given: str) -> int:
    """The exit status of it."""
    reader = argparse.ArgumentParser()
    status.arguments(reader)
    return status.main(reader.parse_args(given))


@pytest.mark.parametrize(
    "copy, server, exit_status, word",
    [(WELL, WELL, 0, "ok"), (BAD, WELL, 1, "attention"), (WELL, DEAD, 3, "failed"),
     (BAD, DEAD, 3, "failed")],
)
def test_the_same_in_each_form(
    copy: Finding,
    server: Finding,
    exit_status: int,
    word: str,
    found: dict[str, Finding],
    capsys: pytest.CaptureFixture[str],
) -> None:
    found |= {"second copy": copy, "desk": server}
    assert run() == run("--json") == exit_status
    assert run("--line") == {0: 0, 1: 1, 3: 2}[exit_status]
    text, _, rest = capsys.readouterr().out.partition("{")
    assert text.splitlines() == [
        NAME, f"  {server.level.label:9} desk: {server.text}",
        f"  {copy.level.label:9} second copy: {copy.text}"]
    shown, line = json.JSONDecoder().raw_decode("{" + rest)
    assert shown.pop("at").endswith("+00:00")
    assert shown == {
        "version": 1, "state": word, "registers": [{"name": NAME, "state": word, "parts": {
            "desk": {"state": server.text.lower(), "text": server.text},
            "second_copy": {"state": copy.text.lower(), "text": copy.text}}}]}
    last = ("{" + rest)[line:].strip()
    assert last.startswith(f"{word.upper()} - 1 register")
    assert (f"{NAME} desk: FAILED" in last, f"{NAME} second copy: ATTENTION" in last) == (
        server is DEAD, copy is BAD)


def test_a_machine_without_a_register(
    machine: pathlib.Path, monkeypatch: pytest.MonkeyPatch, capsys: pytest.CaptureFixture[str]
) -> None:
    monkeypatch.setattr(os, "geteuid", lambda: 0)
    assert run() == run("--json") == 1
    assert '"state": "attention",\n "registers": []' in capsys.readouterr().out


@pytest.mark.parametrize("given", [("--line", "--json"), ("--json", "--metrics")])
def test_one_form_at_a_time(given: tuple[str, str], machine: pathlib.Path) -> None:
    with pytest.raises(SystemExit) as ended:
        run(*given)
    assert ended.value.code == 2


def test_what_keeps_an_office_from_working_has_failed(register: registers.Register) -> None:
    """No server answers here; and a file that is no register cannot be read."""
    assert status.report(register)["desk"].level is Level.FAILED
    register.file.chmod(0o640)
    assert status.report(register)["register"].level is Level.ATTENTION
    register.file.chmod(0o600)
    assert status.report(register)["register"].level is Level.OK
    register.file.write_text("no register", encoding="ascii")
    assert status.report(register)["register"].level is Level.FAILED


def test_each_part_is_explained_with_how_it_is_now(
    register: registers.Register, monkeypatch: pytest.MonkeyPatch,
    capsys: pytest.CaptureFixture[str],
) -> None:
    """Each that is reported, and no other."""
    assert [*status.report(register), "deleted"] == list(parts.PARTS)
    monkeypatch.setattr(os, "geteuid", lambda: 0)
    run("--explain", "second-copy")
    first, second, now = capsys.readouterr().out.splitlines()
    assert first.startswith("second copy: well where no other machine has taken the register over")
    assert second.startswith("otherwise: ATTENTION; FAILED, with desk and site, if another")
    assert now.startswith(f"{register.name}: ATTENTION: no second place is named")
    with pytest.raises(SystemExit) as error:
        run("--explain", "nothing")
    assert (error.value.code, "'nothing' is no part" in capsys.readouterr().err) == (2, True)


@pytest.mark.parametrize("place", ["", "vault:/copies/secondary-2025"])
def test_a_register_that_was_deleted_has_a_line(
    place: str, register: registers.Register, write_as_me: None
) -> None:
    began = {"day": "2026-01-31", "began": "2026-02-01T10:00:00+00:00", "files": "12",
             "bytes": "345"}
    deletion.record(register, began)
    # (while its file is there, it is reported as one that is there)
    assert len(status.report(register)) == 12
    register.file.unlink()
    assert status.report(register) == {"deleted": Finding(
        Level.ATTENTION, "its deletion began at 2026-02-01T10:00:00+00:00, and has not ended:"
        " journalctl -u admissions-office-delete@secondary-2025")}
    deletion.record(register, {**began, "ended": "2026-02-01T10:00:01+00:00", "remains": place})
    rest = f"; {place} at the second place remains: delete it by hand" if place else ""
    assert status.report(register) == {"deleted": Finding(
        Level.OK, f"on 2026-02-01T10:00:01+00:00, its day being 2026-01-31: 12 files of 345"
        f" bytes{rest}")}
    assert deletion.registers_of_record() == [register]
    # (what the application may not delete is not overlooked; an answer of the machine is no such)
    for name in ("aside/office.db", "changed/history.jsonl", "requests/delete.done"):
        path = register.office / name
        path.parent.mkdir()
        path.write_text("Ada Abel", encoding="ascii")
    (register.office / "archive").mkdir()
    level, text = status.report(register)["deleted"]
    assert (level, text.partition(f" bytes{rest}; ")[2]) == (
        Level.ATTENTION, f"{register.office}/aside, {register.office}/changed may have data of"
        " children: admissions-admin retire secondary-2025")
    deletion.record_place(register).write_text("no record", encoding="ascii")
    assert status.report(register)["deleted"].level is Level.ATTENTION


def samples(text: str) -> dict[tuple[str, str], int]:
    """The samples of a text in the format, whose other lines say what they are."""
    found, told = {}, set()
    for line in text.splitlines():
        if line.startswith("# "):
            _, kind, name, *_ = line.split()
            assert kind in ("HELP", "TYPE")
            told.add(name)
            continue
        match = SAMPLE.fullmatch(line)
        assert match and match[1] in told, line
        assert (match[1], match[2] or "") not in found
        found[match[1], match[2] or ""] = int(match[3])
    return found


def test_the_numbers(
    register: registers.Register, found: dict[str, Finding], tmp_path: pathlib.Path,
    monkeypatch: pytest.MonkeyPatch, capsys: pytest.CaptureFixture[str],
) -> None:
    """Two requests are done, and the third has no answer. What cannot be read has no number."""
    add_people(register, ("jane", "head"))
    record(register, 1, 2)
    found["desk"] = DEAD
    monkeypatch.setattr(metrics, "counts_of", lambda _: desk.Counts(
        {"200": 7, "503": 1}, {"password": 3, "token": 0}))
    assert run("--metrics") == 0
    there = samples(capsys.readouterr().out)
    own = f'register="{NAME}"'
    assert {it for it in there.items() if "part_state" in it[0][0]} == {
        (("admissions_part_state", f'{own},part="desk"'), 2),
        (("admissions_part_state", f'{own},part="second_copy"'), 0)}
    assert there["admissions_requests_total", f'{own},status="200"'] == 7
    assert there["admissions_sign_ins_failed_total", f'{own},by="password"'] == 3
    assert there["admissions_sign_ins_failed_total", f'{own},by="token"'] == 0
    assert there["admissions_commands_total", f'{own},result="done"'] == 2
    assert there["admissions_commands_total", f'{own},result="not_done"'] == 0
    assert there["admissions_commands_unanswered", own] == 0
    assert there["admissions_copies", own] == 0
    assert there["admissions_register_bytes", own] == register.file.stat().st_size
    assert there["admissions_disk_free_bytes", f'{own},of="copies"'] > 0
    assert not any("certificate" in name or "age" in name for name, _ in there)
    (register.copies / "drill.report").write_text("well\n", encoding="ascii")
    target = tmp_path / "admissions.prom"
    assert run("--metrics", "--to", str(target)) == 0
    assert target.stat().st_mode & 0o777 == 0o644
    written = samples(target.read_text(encoding="ascii"))
    assert written["admissions_drill_age_seconds", own] in (0, 1)
    assert set(there) <= set(written)
    assert "jane" not in target.read_text(encoding="ascii")


def test_numbers_that_nobody_reads_are_refused(tmp_path: pathlib.Path) -> None:
    with pytest.raises(Refused, match="apt-get install prometheus-node-exporter$"):
        metrics.written({}, str(tmp_path / "gone/admissions.prom"))


def test_what_has_failed_comes_first_in_the_line() -> None:
    """A monitoring system may cut it."""
    reports = {"a": {"copy": BAD}, "b": {"copy": BAD, "desk": DEAD}}
    assert findings.as_line(reports) == (
        f"FAILED - 2 registers; b desk: {DEAD.text}; a copy: {BAD.text}; b copy: {BAD.text}")


def test_a_number_for_each_name_is_described() -> None:
    for name, (kind, what) in metrics.METRICS.items():
        assert (kind == "counter") == name.endswith("_total")
        assert what and "\n" not in what


def served_once(path: pathlib.Path, answer: bytes) -> threading.Thread:
    """A socket that answers one request."""
    listener = socket.socket(socket.AF_UNIX)
    listener.bind(str(path))
    listener.listen(1)

    def serve() -> None:
        with listener, listener.accept()[0] as it:
            it.recv(4096)
            it.sendall(answer)

    thread = threading.Thread(target=serve)
    thread.start()
    return thread


@pytest.mark.parametrize(
    "answer, wanted",
    [(b'{"requests":{"200":3,"502":1},"seconds":9}', ({"200": 3, "502": 1}, NONE_FAILED)),
     (b'{"requests":{},"sign_ins_failed":{"password":3,"wait":2,"jane":1}}',
      ({}, NONE_FAILED | {"password": 3, "wait": 2})), (b"none", None),
     (b'{"requests":{"200\\"} 1":3}}', None)],
)
def test_what_the_application_has_counted(
    answer: bytes, wanted: tuple[dict[str, int], dict[str, int]] | None, tmp_path: pathlib.Path
) -> None:
    """What is no status and no kind is not taken, so that no label has what the application makes
    up."""
    path = tmp_path / "s"
    head = f"HTTP/1.1 200 OK\r\nContent-Length: {len(answer)}\r\n\r\n".encode()
    thread = served_once(path, head + answer)
    if wanted is None:
        with pytest.raises(ValueError):
            desk.counts_of(path)
    else:
        assert desk.counts_of(path) == wanted
    thread.join()


def test_the_worst_decides() -> None:
    assert findings.worst({"a": WELL, "b": BAD, "c": DEAD}) is Level.FAILED
    assert [it.status for it in Level] == [0, 1, 3]
    assert [it.plugin_status for it in Level] == [0, 1, 2]


@pytest.mark.parametrize("error", [
    Refused("no such register: nope", 2), PermissionError(13, "Permission denied", "reg.db")])
def test_a_plugin_that_cannot_look_is_unknown(
    error: Exception, found: dict[str, Finding], monkeypatch: pytest.MonkeyPatch,
    capsys: pytest.CaptureFixture[str],
) -> None:
    """Nagios reads what is printed, and shows no other status so."""

    def refuse(_: object) -> None:
        raise error

    monkeypatch.setattr(status, "report", refuse)
    assert run("--line") == 3
    assert capsys.readouterr().out == f"UNKNOWN - {error}\n"
    with pytest.raises(type(error)):
        run("--json")


def test_a_plugin_of_another_user_is_unknown(
    machine: pathlib.Path, monkeypatch: pytest.MonkeyPatch, capsys: pytest.CaptureFixture[str]
) -> None:
    monkeypatch.setattr(os, "geteuid", lambda: 1000)
    assert run("--line") == 3
    assert capsys.readouterr().out == "UNKNOWN - only root can see all of it\n"
