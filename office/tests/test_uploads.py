"""How long a file may be that a browser sends, in bytes, and what a form may have around it: the
numbers are stated here, and not taken from the application.
"""
import io
import pathlib
from collections.abc import Iterator
from typing import Any

import pytest
from applications import ORIGIN, Browser, Site, office_over, town
from pages import Page


@pytest.fixture(name="office", scope="module")
def office_fixture(tmp_path_factory: pytest.TempPathFactory) -> Iterator[Site]:
    """The application over a small register."""
    folder: pathlib.Path = tmp_path_factory.mktemp("uploads")
    with office_over(folder, town()) as found:
        yield found


@pytest.fixture(name="jane", scope="module")
def jane_fixture(office: Site) -> Browser:
    """An officer."""
    return office.browser("jane", "officer")


@pytest.mark.parametrize("path, field, more", [
    ("/answers/several", "sheet", {}), ("/schools/new/sheet", "sheet", {}),
    ("/letters/addresses/", "file", {"way": "whole"}),
])
def test_a_sheet_has_at_most_eight_million_bytes(
    jane: Browser, path: str, field: str, more: dict[str, str]
) -> None:
    """One byte more is refused."""
    for size, is_taken in ((8_000_001, False), (8_000_000, True)):
        given: dict[str, Any] = {field: (io.BytesIO(b"," * size), "a.csv"), **more}
        text = Page(jane.post(path, given).text).text
        assert ("at most 8 MB" in text) is not is_taken, (path, size)


@pytest.mark.parametrize("path, field, more, text", [
    ("/answers/several", "sheet", {}, "child,answer\n1,accept Zo\xeb\n"),
    ("/schools/new/sheet", "sheet", {}, "code,name\nELM,St Ren\xe9\n"),
    ("/letters/addresses/", "file", {"way": "whole"}, "child,street\n1,1 Caf\xe9 Row\n"),
])
def test_a_sheet_in_another_encoding_than_utf_8_is_refused(
    jane: Browser, path: str, field: str, more: dict[str, str], text: str
) -> None:
    """Its letters would be guessed, and the guess would be printed and stored."""
    for encoding, is_taken in (("cp1252", False), ("mac-roman", False), ("utf-8", True)):
        given: dict[str, Any] = {field: (io.BytesIO(text.encode(encoding)), "a.csv"), **more}
        said = "not in UTF-8: save it as .xlsx or as CSV UTF-8"
        assert (said in Page(jane.post(path, given).text).text) is not is_taken, (path, encoding)


def test_a_file_of_a_child_has_at_most_five_million_bytes(jane: Browser) -> None:
    """One byte more is refused."""
    for size, status in ((5_000_001, 422), (5_000_000, 303)):
        given = {"file": (io.BytesIO(b"a" * size), "a.pdf")}
        assert jane.post("/children/1/files", given).status_code == status, size


class Endless(io.RawIOBase):
    """A body that does not end."""

    def __init__(self) -> None:
        self.taken = 0

    def readable(self) -> bool:
        """It can be read."""
        return True

    def seekable(self) -> bool:
        """For the client of tests, which asks for its length."""
        return True

    def seek(self, *_: int) -> int:
        """It has no end."""
        return 0

    def readinto(self, room: Any) -> int:
        """A megabyte more of a field, up to a size by which all is said."""
        assert self.taken < 50_000_000, "it is read on and on"
        begin = b"" if self.taken else b'--b\r\nContent-Disposition: form-data; name="a"\r\n\r\n'
        room[:] = begin + b"x" * (len(room) - len(begin))
        self.taken += len(room)
        return len(room)


@pytest.mark.parametrize("path", ["/sign-in", "/people/", "/answers/several", "/command"])
@pytest.mark.parametrize("kind", ["multipart/form-data; boundary=b", "application/json"])
def test_a_body_that_does_not_say_how_long_it_is_is_not_read(
    office: Site, jane: Browser, path: str, kind: str
) -> None:
    """As one in chunks, of which the site makes one with a length: nobody's and an officer's."""
    for client in (office.app.test_client(), jane.client):
        body = Endless()
        found = client.post(
            path, base_url=ORIGIN, headers={"Origin": ORIGIN, "Transfer-Encoding": "chunked"},
            input_stream=body, content_type=kind,
            environ_overrides={"wsgi.input_terminated": True, "CONTENT_LENGTH": ""})
        assert (found.status_code, body.taken) == (411, 0)


@pytest.mark.parametrize("role, path, most", [
    ("officer", "/applications/gazetteer/file", (64 << 20) + 65_536),
    ("officer", "/answers/several", 16 << 20),
    ("supervisor", "/applications/gazetteer/file", 16 << 20),
    ("reader", "/applications/gazetteer/file", 1_000_000), ("reader", "/sign-out", 1_000_000),
    ("administrator", "/people/", 1_000_000), ("school-A", "/password", 1_000_000)])
def test_a_body_that_is_too_long_is_refused(
    office: Site, role: str, path: str, most: int
) -> None:
    """A gazetteer has at most 64 MiB, with what its form has beside it, of who may send one; all
    others 16, and of who sends no files a megabyte.
    """
    browser = office.browser(f"a-{role.lower()}{len(path)}", role)
    for length, is_too_much in ((most + 1, True), (most, False)):
        found = browser.client.post(
            path, base_url=ORIGIN, headers={"Origin": ORIGIN}, data=bytes(length),
            content_type="multipart/form-data; boundary=x")
        assert (found.status_code == 413) is is_too_much, (path, length)


BLANKS = " " * 7_700
UNREADABLE = ("the form cannot be read: send it again by a page of this site. if it has a file,"
              " give the file a short name first")


def part(headers: str, text: str = "x") -> bytes:
    """A form of one part."""
    return f"--B\r\n{headers}\r\n\r\n{text}\r\n--B--\r\n".encode()


@pytest.mark.parametrize("name, value", [
    ("CONTENT_TYPE", f"multipart/form-data;{BLANKS}="), ("HTTP_COOKIE", f"a=b{BLANKS}x"),
    ("HTTP_IF_NONE_MATCH", f"a{BLANKS}x"), ("HTTP_IF_NONE_MATCH", '"a,' * 1_000),
    ("HTTP_RANGE", "1,2," * 1_000),
    ("CONTENT_TYPE", "multipart/form-data;\u00a0\t ="),
    ("CONTENT_TYPE", "multipart/form-data; boundary*=nocodec''B")],
    ids=["kind", "cookie", "mark", "marks", "range", "blanks", "encoding"])
@pytest.mark.parametrize("path", ["/sign-in", "/healthz", "/ui.css", "/people/", "/no-page"])
def test_a_header_that_no_browser_sends_is_refused_unread(
    office: Site, path: str, name: str, value: str
) -> None:
    """The library would take seconds, in which nobody else is answered, or fail."""
    for method in ("GET", "POST"):
        found = office.app.test_client(use_cookies=False).open(
            path, method=method, base_url=ORIGIN, headers={"Origin": ORIGIN},
            environ_overrides={name: value})
        assert found.status_code == 400, (path, name, method)
        assert "a header of the request cannot be read" in found.text
        assert found.headers["X-Content-Type-Options"] == "nosniff"


@pytest.mark.parametrize("headers", [
    f"Content-Disposition: form-data;{' ' * 30_000}=", f"Content-Disposition: form-data;{BLANKS}=",
    f"Content-Disposition: form-data; name=\"a{'b' * 2_000}\"",
    f"Content-Disposition: form-data; name=\"a\"; filename=\"a{' ' * 20}.csv\"",
    "Content-Disposition: form-data;" + "\r\n\t" * 20 + "=",
    "Content-Disposition: form-data; name=\"a\"; filename*=nocodec''a.csv",
    "Content-Disposition: form-data; name=\"a\"; filename*0 =unicode_escape''\\ud800.csv",
    "Content-Disposition: form-data", "Content-Disposition: form-data; name",
    "Content-Disposition: form-data; filename=\"a.csv\""],
    ids=["longest", "long", "name", "file", "lines", "encoding", "other", "no name", "blank name",
         "file without a name"])
@pytest.mark.parametrize("path", ["/sign-in", "/people/", "/answers/several"])
def test_a_part_with_headers_that_no_browser_sends_is_refused_unread(
    office: Site, jane: Browser, path: str, headers: str
) -> None:
    """Nobody's, of which what was typed would be kept, and an officer's."""
    for client in (office.app.test_client(), jane.client):
        found = client.post(
            path, base_url=ORIGIN, headers={"Origin": ORIGIN, "Accept": "text/html"},
            data=part(headers), content_type="multipart/form-data; boundary=B")
        assert found.status_code == 400, (path, headers[:40])
        assert UNREADABLE in Page(found.text).text.lower()


@pytest.mark.parametrize("given", ["", "; boundary", "; boundary=", '; boundary=""'])
def test_a_form_without_a_boundary_is_refused(jane: Browser, given: str) -> None:
    """By whoever sends it, in the application's own words and headers."""
    headers = {"Origin": ORIGIN, "Accept": "text/html"}
    for path, is_signed_in in (("/sign-in", False), ("/command", False), ("/flags/", True)):
        client = jane.client if is_signed_in else jane.client.application.test_client()
        found = client.post(path, base_url=ORIGIN, headers=headers, data=b"a=b",
                            content_type=f"multipart/form-data{given}")
        assert (found.status_code, found.headers["Cache-Control"]) == (400, "no-store"), path
        assert UNREADABLE in Page(found.text).text.lower()


def test_a_boundary_within_a_line_is_refused(jane: Browser) -> None:
    """What follows it would be looked through again with each part that is read: 16 MB for half a
    minute, in which nobody else is answered. A browser takes one that is in no file.
    """
    headers = 'Content-Disposition: form-data; name="file"; filename="a.pdf"'
    for size, is_taken in ((100_000, True), (1_000_000, False)):
        found = jane.client.post(
            "/children/1/files", base_url=ORIGIN, headers={"Origin": ORIGIN, "Accept": "text/html"},
            data=part(headers, f"a\r--B within{'a' * size}"),
            content_type="multipart/form-data; boundary=B")
        # (whoever sends no secret of a form has it refused once it is read)
        assert (found.status_code, UNREADABLE in Page(found.text).text.lower()) == (
            (403, False) if is_taken else (400, True)), size


@pytest.mark.parametrize("kind, status", [
    ("application/x-www-form-urlencoded", 413), ("application/x-url-encoded", 403),
    ("application/X-Url-Encoded; charset=utf-8", 403)])
def test_a_form_of_many_fields_is_read_by_no_other_name(
    office: Site, jane: Browser, kind: str, status: int
) -> None:
    """A library knows two names of forms: by the one that browsers send, their fields are counted,
    and by the other none is read. Nobody's, and an officer's.
    """
    for client, most in ((office.app.test_client(), 500), (jane.client, 30_000)):
        found = client.post("/sign-in", base_url=ORIGIN, headers={"Origin": ORIGIN},
                            data=b"&a=" * most + b"&name=jane&password=x", content_type=kind)
        assert found.status_code == status, (kind, most)
        assert 'value="jane"' not in found.text


def test_a_file_of_a_long_name_with_blanks_is_taken(jane: Browser) -> None:
    """Some blanks in a row are a name's own, and so are letters of several bytes."""
    for name in (f"Year 7 {' ' * 15} final.pdf", f"{'é' * 40}.pdf"):
        found = jane.post("/children/1/files", {"file": (io.BytesIO(name.encode()), name)})
        assert found.status_code == 303, Page(found.text).said()


def test_each_field_is_read_as_utf_8(office: Site) -> None:
    """Whatever a part says of it: another encoding has characters that no file takes."""
    headers = 'Content-Disposition: form-data; name="a"\r\nContent-Type: text/plain; charset='
    for encoding in ("unicode_escape", "utf-16", "no-such-encoding"):
        body = part(headers + encoding).replace(b"\r\nx\r\n", b"\r\nZo\xc3\xab \\ud800\r\n")
        found = office.app.test_client().post(
            "/people/", base_url=ORIGIN, headers={"Origin": ORIGIN, "Accept": "text/html"},
            data=body, content_type="multipart/form-data; boundary=B")
        assert (found.status_code, "Zo\xeb \\ud800" in found.text) == (401, True), encoding
