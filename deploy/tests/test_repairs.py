"""The line to type that ends what status says of a part which has failed, as it is taken."""
import pathlib
import shlex
import ssl

import pytest
from machine import admin, copies, office_store, registers, repairs
from machine.findings import Level
from machine.verbs import status
from office_files import add_people, record

NAME = "secondary-2025"
OLDER, NEWEST = "nightly-000001-2025-03-01T023000.db", "nightly-000002-2025-03-02T023000.db"


def line_of(text: str) -> str:
    """The line to type: what is behind the last colon. A verb takes its words."""
    found = text.rpartition(": ")[2]
    assert found.startswith(("systemctl ", "admissions-admin ", "journalctl "))
    program, *words = shlex.split(found)
    if program == "admissions-admin":
        admin.reader_of(program, words).parse_args(words)
    return found


@pytest.fixture(name="copied")
def copied_fixture(
    machine: pathlib.Path, register: registers.Register, write_as_me: None
) -> registers.Register:
    """A register with people and two copies, of which the older one alone has people beside it."""
    add_people(register, ("hal", "head"))
    for name in (OLDER, NEWEST):
        (register.copies / name).write_text("a copy")
    copies.settings_of(register.copies / OLDER).write_text("an archive")
    return register


def test_a_damaged_register_is_restored(copied: registers.Register) -> None:
    copied.file.write_text("no database of anybody")
    found = status.report(copied)
    assert found["register"].level is Level.FAILED
    assert line_of(found["register"].text) == f"admissions-admin restore {NAME}"
    assert line_of(found["desk"].text) == line_of(found["register"].text)
    assert repairs.unit_line(copied, f"admissions@{NAME}.service") == line_of(
        found["register"].text)


def test_a_register_without_any_copy_comes_from_the_second_place(
    register: registers.Register
) -> None:
    register.file.unlink()
    found = status.report(register)["register"]
    assert (found.level, line_of(found.text)) == (
        Level.FAILED, f"admissions-admin takeover {NAME}")


def test_people_that_cannot_be_read_come_from_the_newest_copy_that_has_them(
    copied: registers.Register, monkeypatch: pytest.MonkeyPatch
) -> None:
    """The site, which does not answer because of them, says the same."""
    path = office_store.path_of(copied)
    path.write_bytes(b"no database of anybody")
    monkeypatch.setattr(status, "site_status_of", lambda _: (502, b""))
    found = status.report(copied)
    assert found["site"].level is Level.FAILED
    line = line_of(found["site"].text)
    assert line == line_of(found["people"].text)
    assert line == f"admissions-admin restore {NAME} {OLDER} --people-alone"


@pytest.mark.parametrize("error, line", [
    (TimeoutError("timed out"), f"admissions-admin open {NAME}"),
    (ssl.SSLError(1, "TLSV1_UNRECOGNIZED_NAME"), "admissions-admin sites"),
])
def test_a_site_that_does_not_answer(
    error: OSError, line: str, copied: registers.Register, monkeypatch: pytest.MonkeyPatch
) -> None:
    def ask(_: str) -> tuple[int, bytes]:
        raise error

    monkeypatch.setattr(status, "site_status_of", ask)
    found = status.report(copied)["site"]
    assert (found.level, line_of(found.text)) == (Level.FAILED, line)


def test_a_changed_history_is_mended(
    copied: registers.Register, monkeypatch: pytest.MonkeyPatch
) -> None:
    record(copied, 1, 2)
    history = copied.history
    history.write_bytes(history.read_bytes().replace(b'"child":1', b'"child":3'))
    monkeypatch.setattr(status, "site_status_of", lambda _: (502, b""))
    found = status.report(copied)["site"]
    assert line_of(found.text) == f"admissions-admin history {NAME} --mend"


@pytest.mark.parametrize("answer, end", [
    (503, f"admissions-admin open {NAME}"),
    (None, f"systemctl start admissions@{NAME}.service"),
    (500, f"journalctl -n 20 -u admissions@{NAME}"),
])
def test_a_server_that_does_not_serve(
    answer: int | None, end: str, copied: registers.Register, monkeypatch: pytest.MonkeyPatch
) -> None:
    monkeypatch.setattr(status, "status_of", lambda _: answer)
    found = status.report(copied)["desk"]
    assert found.level is Level.FAILED
    assert line_of(found.text).endswith(end)
