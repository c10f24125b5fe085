"""Notes and files of a child in the application: what is kept, who may see it, and what is refused.
"""
import contextlib
import errno
import hashlib
import io
import pathlib
import sqlite3
import threading
from collections.abc import Iterator
from typing import Any

import pytest
from applications import ORIGIN, Browser, Site, office_over, town
from pages import Page, press
from register_files import Refused

from office.web.children import notes
from office.web.people.roles import Person
from office.web.register.schema import STEPS
from office.web.register.store import Store

ADD, UPLOAD = "Add the note to child {}", "Add the file to child {}"


@pytest.fixture(name="office", scope="module")
def office_fixture(tmp_path_factory: pytest.TempPathFactory) -> Iterator[Site]:
    """The application over a register with four children. Each test has a child of its own."""
    with office_over(tmp_path_factory.mktemp("notes"), town()) as found:
        for name, role in (("jane", "officer"), ("hal", "head"), ("rita", "reader")):
            found.add(name, role)
        yield found


@pytest.fixture(name="jane")
def jane_fixture(office: Site) -> Iterator[Browser]:
    """An officer, before whom there is no note and no file."""
    yield office.browser("jane")
    with office.parts.store.writing() as db:
        db.execute("DELETE FROM note")
        db.execute("DELETE FROM child_file")


def note(browser: Browser, text: str, number: int = 1) -> Any:
    """Types a note."""
    path = f"/children/{number}/notes"
    return press(browser, path, Page(browser.get(path).text), ADD.format(number), text=text)


def upload(browser: Browser, name: str, data: bytes, number: int = 1) -> Any:
    """Sends a file."""
    path = f"/children/{number}/notes"
    page = Page(browser.get(path).text)
    return press(browser, path, page, UPLOAD.format(number), file=(io.BytesIO(data), name))


def counts(office: Site) -> tuple[int, int]:
    """How many notes and files there are."""
    rows = [office.parts.store.rows(f"SELECT 1 FROM {it}") for it in ("note", "child_file")]
    return len(rows[0]), len(rows[1])


def what(office: Site) -> list[tuple[str, str]]:
    """Who did what, without the sign-ins."""
    return [(it.who, it.what) for it in office.parts.history.entries if it.what != "signed in"]


def test_a_note_is_added_struck_out_and_stays_readable(office: Site, jane: Browser) -> None:
    """With who did it, on the child's screen and on record without its text."""
    before = len(what(office))
    assert note(jane, "  Asked for <b>help</b>.\r\nSecond line \u202egnp  ").status_code == 303
    page = Page(jane.get("/children/1?part=notes").text)
    assert "Asked for &lt;b&gt;help&lt;/b&gt;." in page.text
    assert "Second line \\u202egnp" in page.text and "\u202e" not in page.text
    assert "jane, " in page.by_id["notes"]
    kept = office.parts.notes.of_child(1)
    assert [it.text for it in kept] == ["Asked for <b>help</b>.\nSecond line \u202egnp"]
    path = f"/children/1/notes/{kept[0].number}/strike"
    hal = office.browser("hal")
    ask = Page(hal.get(path).text)
    button = f"Strike out note {kept[0].number} of Ada Abel"
    missing = press(hal, path, ask, button, why=" ")
    assert missing.status_code == 422 and "The reason is empty." in Page(missing.text).error("why")
    assert press(hal, path, ask, button, why="wrong child").status_code == 303
    page = Page(jane.get("/children/1/notes").text)
    assert "<s><bdi>Asked for" in page.text and "Struck out by hal" in page.by_id["notes"]
    assert "wrong child" in page.by_id["notes"] and path not in page.text
    again = press(hal, path, ask, button, why="another reason")
    assert again.status_code == 409 and "struck out already" in Page(again.text).said()
    assert office.parts.notes.of_child(1)[0].struck_why == "wrong child"
    assert what(office)[before:] == [("jane", "added a note"), ("hal", "struck out a note")]
    about = [it.about for it in office.parts.history.entries if it.what == "added a note"][-1]
    digest = hashlib.sha256("Asked for <b>help</b>.\nSecond line \u202egnp".encode()).hexdigest()
    assert about == {"child": 1, "note": kept[0].number, "digest": digest}


def test_a_note_is_typed_once_also_where_it_cannot_be_stored(
    office: Site, jane: Browser, monkeypatch: pytest.MonkeyPatch,
) -> None:
    """A history or a store that takes nothing more: the text is there, to be sent again."""
    def full(*_: object) -> None:
        raise Refused("the history cannot be written (No space left on device)")

    monkeypatch.setattr(office.parts.history, "add", full)
    found = note(jane, "The father rang\non Monday.")
    page = Page(found.text)
    assert found.status_code == 409 and counts(office) == (0, 0)
    assert page.said() == (
        "Nothing was stored: the history cannot be written (No space left on device).")
    assert "The father rang\non Monday.</textarea>" in found.text


@pytest.mark.parametrize("text, said", (
    ("", "A note is empty."), (" \n\t ", "A note is empty."),
    ("x" * 100_000, "A note has at most 4,000 characters, and this one has 100,000."),
    ("x" * 4_001, "A note has at most 4,000 characters, and this one has 4,001."),
    ("bell \x07", "A note has a character that cannot be printed, \\u0007."),
    ("nul \x00", "A note has a character that cannot be printed, \\u0000."),
    ("c1 \x9b31m", "A note has a character that cannot be printed, \\u009b.")),
    ids=("empty", "blank", "huge", "long", "bell", "nul", "c1"))
def test_a_note_that_cannot_be_kept_is_said_at_its_field(
    office: Site, jane: Browser, text: str, said: str,
) -> None:
    """And what was typed is there again."""
    found = note(jane, text)
    page = Page(found.text)
    assert found.status_code == 422 and page.error("text") == said
    assert counts(office) == (0, 0)
    assert text[-50:].strip("\x00") in found.text


def test_any_text_up_to_the_limit_is_kept(office: Site, jane: Browser) -> None:
    """A formula, tags, other alphabets, and as many characters as there may be."""
    for text in ("=1+1", "</textarea><script>alert(1)</script>", "مرحبا שלום 你好 🙂", "y" * 4_000):
        assert note(jane, text).status_code == 303
        assert office.parts.notes.of_child(1)[0].text == text
    assert "<script>alert" not in jane.get("/children/1/notes").text
    twice = note(jane, "=1+1")
    assert twice.status_code == 422 and counts(office) == (4, 0)
    assert "This note is there already." in Page(twice.text).error("text")


def test_a_child_has_so_many_notes(
    office: Site, jane: Browser, monkeypatch: pytest.MonkeyPatch,
) -> None:
    """The others of other children do not count."""
    monkeypatch.setattr(notes, "MOST_NOTES", 2)
    assert [note(jane, it).status_code for it in ("a", "b", "c")] == [303, 303, 422]
    assert note(jane, "c", 2).status_code == 303 and counts(office) == (3, 0)


NAMES = (
    ("../../etc/passwd", "child-1-file-{}.bin"), ("a.html", "child-1-file-{}.bin"),
    ("=cmd|' /C calc'!A0", "child-1-file-{}.bin"), ("letter.pdf.exe", "child-1-file-{}.bin"),
    ("Scan (1).PDF", "child-1-file-{}.pdf"), ("b\u202efdp.docx", "child-1-file-{}.docx"),
    ("n" * 251 + ".png", "child-1-file-{}.png"), ("<script>.csv", "child-1-file-{}.csv"),
    (".pdf", "child-1-file-{}.pdf"), ("a%0Ab.png", "child-1-file-{}.png"),
)


@pytest.mark.parametrize("name, kept_as", NAMES, ids=range(len(NAMES)))
def test_a_file_is_only_a_download(office: Site, jane: Browser, name: str, kept_as: str) -> None:
    """Whatever it is called: its name is text, and its bytes are those that were sent."""
    data = b"<html><script>alert(1)</script>\x00\xff" + name.encode()
    assert upload(jane, name, data).status_code == 303
    kept = office.parts.notes.files_of(1)[0]
    page = Page(jane.get("/children/1/notes").text)
    assert "\u202e" not in page.text and "<script>" not in page.text
    assert page.tables["files"][1][1] == kept.title
    found = jane.get(f"/children/1/files/{kept.number}")
    assert found.status_code == 200 and found.data == data
    assert found.mimetype == "application/octet-stream"
    assert found.headers["X-Content-Type-Options"] == "nosniff"
    assert "sandbox" in found.headers["Content-Security-Policy"]
    named = kept_as.format(kept.number)
    assert found.headers["Content-Disposition"] == f'attachment; filename="{named}"'
    assert ("jane", "read a file") == what(office)[-1]


def test_a_file_that_cannot_be_kept_is_said_at_its_field(
    office: Site, jane: Browser, monkeypatch: pytest.MonkeyPatch,
) -> None:
    """None, an empty one, a long name, one that is too large, one that is there, and one too many.
    """
    monkeypatch.setattr(notes, "MOST_FILE", 1000)
    monkeypatch.setattr(notes, "MOST_FILES", 2)
    monkeypatch.setattr(notes, "MOST_OF_ALL", 1900)
    assert upload(jane, "a.pdf", b"a" * 1000).status_code == 303
    for name, data, said in (
        ("", b"x", "Choose a file first."), ("b.pdf", b"", "The file is empty."),
        ("n" * 256, b"x", "The name of a file has at most 255 characters."),
        ("b.pdf", b"b" * 1001, "A file has at most 0 MB."),
        ("b.pdf", b"a" * 1000, "This file is there already, as file "),
        ("b.pdf", b"b" * 901, "The files of all children have at most"),
    ):
        found = upload(jane, name, data)
        assert found.status_code == 422 and said in Page(found.text).error("file"), said
        assert counts(office) == (0, 1), said
    assert upload(jane, "b.pdf", b"b" * 900).status_code == 303
    found = upload(jane, "c.pdf", b"c")
    assert found.status_code == 422 and "at most 2 files" in Page(found.text).error("file")
    # (what is removed makes room)
    first = office.parts.notes.files_of(1)[-1].number
    path = f"/children/1/files/{first}/remove"
    button = f"Remove file {first} of Ada Abel"
    page = Page(jane.get(path).text)
    assert press(jane, path, page, button, why="of another family").status_code == 303
    assert jane.get(f"/children/1/files/{first}").status_code == 404
    row = office.parts.store.row("SELECT data, called FROM child_file WHERE number=?", first)
    assert row and tuple(row) == (None, "a.pdf")
    assert press(jane, path, page, button, why="twice").status_code == 409
    assert upload(jane, "a.pdf", b"a" * 1000).status_code == 303
    assert "of another family" in jane.get("/children/1?part=notes").text


def test_a_bomb_is_only_bytes(office: Site, jane: Browser) -> None:
    """An archive that unpacks to much is not unpacked."""
    data = (pathlib.Path(__file__).parent / "test_notes.py").read_bytes() * 50
    assert upload(jane, "bomb.xlsx", b"PK\x03\x04" + data).status_code == 303
    assert office.parts.notes.files_of(1)[0].size == len(data) + 4


def test_two_uploads_at_once_keep_to_the_limits(
    office: Site, jane: Browser, monkeypatch: pytest.MonkeyPatch,
) -> None:
    """Of eight at once as many are stored as there may be, and each whole."""
    monkeypatch.setattr(notes, "MOST_FILES", 3)
    browsers = [office.browser("jane") for _ in range(8)]
    for it in browsers:
        it.get("/children/1/notes")
    gate, came = threading.Barrier(len(browsers)), list[int]()

    def sends(at: int, browser: Browser) -> None:
        data = {"file": (io.BytesIO(bytes([at]) * 200_000), f"{at}.pdf")}
        gate.wait()
        came.append(browser.post("/children/1/files", data).status_code)

    runs = [threading.Thread(target=sends, args=it) for it in enumerate(browsers)]
    for run in runs:
        run.start()
    for run in runs:
        run.join()
    assert sorted(came) == [303] * 3 + [422] * 5
    for kept in office.parts.notes.files_of(1):
        found = jane.get(f"/children/1/files/{kept.number}").data
        assert found == bytes([int(kept.called[0])]) * 200_000


def test_an_upload_that_ends_in_the_middle_stores_nothing(office: Site, jane: Browser) -> None:
    """Neither one whose end is missing, nor one that is shorter than was announced."""
    jane.get("/children/1/notes")
    start = (f"--x\r\nContent-Disposition: form-data; name=\"form\"\r\n\r\n{jane.secret}\r\n--x\r\n"
             "Content-Disposition: form-data; name=\"file\"; filename=\"a.pdf\"\r\n\r\nhalf")
    for length in (len(start), len(start) + 1000):
        found = jane.client.post(
            "/children/1/files", base_url=ORIGIN, data=start.encode(),
            headers={"Origin": ORIGIN, "Accept": "text/html", "Content-Length": str(length),
                     "Content-Type": "multipart/form-data; boundary=x"})
        assert 400 <= found.status_code < 500, found.text
        assert counts(office) == (0, 0)


def test_a_full_disk_stores_nothing_and_says_so(office: Site, jane: Browser) -> None:
    """Neither a note nor a file, and once there is room again both are stored."""
    store, before = office.parts.store, len(what(office))
    store.db.execute("VACUUM")
    pages = store.db.execute("PRAGMA page_count").fetchone()[0]
    store.db.execute(f"PRAGMA max_page_count={pages + 2}")
    try:
        found = upload(jane, "a.pdf", b"a" * 400_000)
        assert found.status_code == 409
        assert "the disk is full, and nothing was stored" in found.text.lower()
        assert counts(office) == (0, 0) and not store.db.in_transaction
    finally:
        store.db.execute("PRAGMA max_page_count=1000000")
    assert upload(jane, "a.pdf", b"a" * 400_000).status_code == 303
    assert what(office)[before:] == [("jane", "added a file")]


def test_a_full_disk_while_a_file_arrives_is_said(
    office: Site, jane: Browser, monkeypatch: pytest.MonkeyPatch,
) -> None:
    """A large file is on a disk before the application has it."""
    jane.get("/children/1/notes")

    def full(*_: object, **__: object) -> None:
        raise OSError(errno.ENOSPC, "No space left on device")

    with monkeypatch.context() as patch:
        patch.setattr("werkzeug.wrappers.Request._get_file_stream", full)
        found = jane.post("/children/1/files", {"file": (io.BytesIO(b"x"), "a.pdf")})
    assert found.status_code == 507 and "disk is full" in found.text
    assert counts(office) == (0, 0)
    assert upload(jane, "a.pdf", b"x").status_code == 303


def test_a_reader_sees_neither(office: Site, jane: Browser) -> None:
    """Who records nothing needs no evidence of a family: neither its text nor that there is any."""
    of_another = jane.get("/activity/?q=2").text.count("Added a note")
    assert note(jane, "a text of a family").status_code == 303
    assert upload(jane, "evidence.pdf", b"%PDF").status_code == 303
    number = office.parts.notes.files_of(1)[0].number
    rita = office.browser("rita")
    for path in ("/children/1", "/children/1?part=notes"):
        page = rita.get(path).text
        for text in ("Notes", "a text of", "evidence", "Added a"):
            assert text not in page, (path, text)
    assert "Added a" not in rita.get("/activity/").text
    for path in ("/lists/children", "/lists/unplaced"):
        assert 'aria-label="Notes on child 1"' in jane.get(path).text
        assert "Notes on child" not in rita.get(path).text
    assert "Notes on child 2" not in jane.get("/lists/children").text
    assert "Added a note" in jane.get("/children/1").text
    assert "Added a note on Ada Abel (1)" in jane.get("/activity/?q=1").text
    assert jane.get("/activity/?q=2").text.count("Added a note") == of_another
    for path in ("/children/1/notes", f"/children/1/files/{number}",
                 f"/children/1/files/{number}/remove"):
        assert rita.get(path).status_code == 403
    for path in ("/children/1/notes", "/children/1/files", f"/children/1/files/{number}/remove"):
        assert rita.post(path, {"text": "x", "why": "x"}).status_code == 403
    assert counts(office) == (1, 1)


def test_a_note_of_another_child_is_not_there(office: Site, jane: Browser) -> None:
    """Its number alone opens nothing."""
    note(jane, "of child 1")
    upload(jane, "a.pdf", b"of child 1")
    one, other = office.parts.notes.of_child(1)[0], office.parts.notes.files_of(1)[0]
    for path in (f"/children/2/notes/{one.number}/strike", f"/children/2/files/{other.number}",
                 f"/children/2/files/{other.number}/remove", "/children/99/notes"):
        assert jane.get(path).status_code == 404, path


def test_a_child_that_has_another_name_now_is_marked(office: Site, jane: Browser) -> None:
    """After a restore a number may be of another child: who it was is said at each note."""
    office.parts.notes.add(Person("jane", "officer"), 1, "Old Name", "a note")
    assert "when the child was called <bdi>Old Name</bdi>" in (
        jane.get("/children/1?part=notes").text)


def test_bytes_that_were_changed_are_not_sent(office: Site, jane: Browser) -> None:
    """A file that is not as it was sent is refused."""
    upload(jane, "a.pdf", b"as it was sent")
    number = office.parts.notes.files_of(1)[0].number
    with office.parts.store.writing() as db:
        db.execute("UPDATE child_file SET data=? WHERE number=?", (b"another one", number))
    assert jane.get(f"/children/1/files/{number}").status_code == 409


def test_an_older_store_gets_the_tables(tmp_path: pathlib.Path) -> None:
    """And keeps what it has."""
    path = str(tmp_path / "office.db")
    before = next(at for at, it in enumerate(STEPS) if "CREATE TABLE note" in it)
    with contextlib.closing(sqlite3.connect(path)) as db:
        db.executescript("".join(STEPS[:before]))
        db.execute("INSERT INTO setting VALUES ('flags', '{}')")
        db.execute(f"PRAGMA user_version={before}")
        db.commit()
    with contextlib.closing(Store(path)) as store:
        assert store.rows("SELECT * FROM note") == [] and store.setting("flags") == "{}"
