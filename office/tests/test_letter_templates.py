"""Templates of letters: who writes them, what a faulty or a hostile one comes to, and its versions.
"""
import html
import io
import pathlib
import struct
import threading
import zlib
from collections.abc import Iterator
from typing import Any

import pytest
from applications import ROUND, Browser, Site, office_over, town
from letter_site import asked, count, letter_pages, made, pages
from register_files import Refused

from office.web.letters import apart as letters_apart
from office.web.letters import versions as letters_templates
from office.web.letters.apart import Source

GOOD = "<h1>{{ letter.name }}</h1>\n<p>{{ date }}</p>\n"
LOOP = ("<p>x</p>\n{% for a in range(99999) %}{% for b in range(99999) %}\n"
        "{% endfor %}{% endfor %}")
# what a template says, and what is said of it
HOSTILE = {
    "<p>\n{{ letter.nmae }}": "line 2: there is no field",
    "<p>\n\n{% if %}": "line 3",
    "a\n{{ letter.offered.__class__.__mro__ }}": "line 2: access to attribute",
    "{{ ''.__class__ }}": "line 1: access to attribute",
    "{{ cycler.__init__.__globals__ }}": "line 1: access to attribute",
    "{% include '/etc/passwd' %}": "line 1",
    "{{ range(10 ** 9) | list }}": "line 1: Range too big",
    "{{ range(999999999) | list }}": "line 1: Range too big",
    "<p>\n{{ 9 ** 999999999 }}": "line 2: the result of ** is too large",
    "<p>\n{{ 'a' * 9999999999 }}": "line 2: the result of * is too large",
    "{{ '%999999999d' % 1 }}": "line 1: the result of % is too large",
    "<p>{{ letter.reminded | day }}": "line 1",
    '<img src="/etc/passwd">': "no file in its folder",
    '<img src="file:///etc/passwd">': "no file in its folder",
    '<img src="http://127.0.0.1:9/a.png">': "no file in its folder",
    '<style>p { background: url("file:///etc/hostname") }</style><p>x': "no file in its folder",
    '<style>@import "http://127.0.0.1:9/a.css";</style><p>x': "no file in its folder",
    '<link rel="attachment" href="file:///etc/passwd"><p>x': "attaches",
    '<object data="file:///etc/passwd"></object>': "no file in its folder",
    "<style>@page { size: 30px 30px; margin: 0 }</style>{% for a in range(99) %}<p>xxx</p>"
    "{% endfor %}": "pages by this template, and at most 12 are made",
}


@pytest.fixture(name="office")
def office_fixture(tmp_path: pathlib.Path) -> Iterator[Site]:
    """The application after a round."""
    with office_over(tmp_path, [*town(), ROUND]) as found:
        yield found


def standard(browser: Browser) -> str:
    """The address of the template that comes with the program."""
    assert "Standard letter" in browser.get("/letters/templates/").text
    return "/letters/templates/1"


def saved(browser: Browser, text: str, path: str, seen: int, **more: Any) -> Any:
    """The answer to 'Save'."""
    return browser.post(path, {"text": text, "seen": str(seen), "what": "save", **more})


def own(browser: Browser) -> str:
    """The address of a template of the office."""
    found = saved(browser, GOOD, standard(browser), 1, name="Offers")
    assert found.status_code == 303, found.text
    path: str = found.location.partition("?")[0]
    return path


def number_of(path: str) -> int:
    """The number of a template by its address."""
    return int(path.rpartition("/")[2])


def test_a_hostile_template_is_refused_with_its_line(office: Site) -> None:
    """Nothing of it is stored: the last good one is used, and what was typed is on the page."""
    head = office.browser("hal", "head")
    path = own(head)
    for text, said in HOSTILE.items():
        found = saved(head, text, path, 1)
        page = html.unescape(found.text)
        assert found.status_code == 422 and said in page, (text, page)
        assert f">\n{text}</textarea>" in html.unescape(found.text)
    assert count(office, "letter_version") == 2
    assert "version 2 of Offers" in head.get(path).text
    form = asked(head, "offers", "1", child=["3"], template=f"{number_of(path)}.1")
    assert "Cyd <b>Cole</b> 3 March 2025" in letter_pages(head, made(head, form))[0]


def test_a_template_that_does_not_end_is_ended(office: Site) -> None:
    """With its line; and other people go on meanwhile."""
    head = office.browser("hal", "head")
    path, came = own(head), list[Any]()
    thread = threading.Thread(target=lambda: came.append(saved(head, LOOP, path, 1)))
    thread.start()
    jane = office.browser("jane")
    assert jane.get("/letters/").status_code == 200 and thread.is_alive()
    thread.join()
    assert came[0].status_code == 422
    assert "Offers, line 2: a letter by this template takes more than 5 seconds" in came[0].text
    assert count(office, "letter_version") == 2


def test_an_operation_that_does_not_return_is_ended_with_its_line(
    monkeypatch: pytest.MonkeyPatch, tmp_path: pathlib.Path,
) -> None:
    """As a long operation within a library, which no error interrupts."""
    monkeypatch.setattr(letters_apart, "BEGIN", letters_apart.BEGIN.replace(
        "apart.main()", "apart.SECONDS = 3; pdf.see_product = stuck; apart.main()").replace(
        "from office.web.letters import apart;", "from office.web.letters import apart, pdf;"
        " stuck = lambda *_: (signal.signal(signal.SIGPROF, signal.SIG_IGN), 9 ** 99999999);"
        " import signal;"))
    monkeypatch.setattr(letters_apart, "SECONDS", 3)
    source = letters_apart.Source("Mine", "<p>\n\n{{ 2 * 3 }}", {})
    from office.web.letters.examples import DAY, OFFERED
    with pytest.raises(Exception, match="Mine, line 3: the letters take more than 3 seconds"):
        letters_apart.letters(source, [(OFFERED, [])], DAY, letters_apart.Form(),
                              str(tmp_path / "x.pdf"))


def png(width: int, height: int) -> bytes:
    """A black picture, which is small as a file."""
    def chunk(kind: bytes, data: bytes) -> bytes:
        return (struct.pack(">I", len(data)) + kind + data
                + struct.pack(">I", zlib.crc32(kind + data)))

    rows = zlib.compress(bytes((width // 8 + 1) * height), 9)
    return (b"\x89PNG\r\n\x1a\n" + chunk(b"IHDR", struct.pack(">IIBBBBB", width, height, 1, 0, 0,
            0, 0)) + chunk(b"IDAT", rows) + chunk(b"IEND", b""))


def test_pictures_are_those_that_were_uploaded_with_the_template(office: Site) -> None:
    """Small ones; no register, no giant, no odd name; and each version keeps its own."""
    head = office.browser("hal", "head")
    path = own(head)
    shows = GOOD + '<img src="crest.png">'
    assert "no file in its folder" in saved(head, shows, path, 1).text
    wrong: list[tuple[str, bytes, str]] = [
        ("crest.png", b"SQLite format 3\0" + bytes(99), "is no picture"),
        ("a b.png", png(8, 8), "needs a name"), ("crest.png", bytes(2_100_000), "too large"),
        ("crest.png", png(40_000, 40_000), "cannot be shown"),
    ]
    for name, data, said in wrong:
        found = saved(head, shows, path, 1, picture=(io.BytesIO(data), name))
        assert found.status_code == 422 and said in found.text, (name, found.text[-3000:])
    found = saved(head, shows, path, 1, picture=(io.BytesIO(png(8, 8)), "../../crest.png"))
    assert found.status_code == 303, found.text
    assert saved(head, shows, path, 2, remove="crest.png").status_code == 422
    assert saved(head, GOOD, path, 2, remove="crest.png").status_code == 303
    versions = office.parts.letters.templates.versions(number_of(path))
    assert [set(it.pictures) for it in versions] == [set(), {"crest.png"}, set()]


def test_a_picture_that_cannot_be_shown_is_named_without_its_folder() -> None:
    """Of some bytes, and of 900 million points as it says."""
    def part(kind: bytes, data: bytes) -> bytes:
        return b"%s%s%s%s" % (len(data).to_bytes(4, "big"), kind, data,
                              zlib.crc32(kind + data).to_bytes(4, "big"))

    size = (30_000).to_bytes(4, "big")
    bomb = b"\x89PNG\r\n\x1a\n" + part(b"IHDR", size + size + bytes([1, 0, 0, 0, 0])) + part(
        b"IDAT", zlib.compress(b"")) + part(b"IEND", b"")
    source = Source("Offers", '<p>x<img src="crest.png">', {"crest.png": bomb})
    with pytest.raises(Refused, match="Failed to load image at 'crest.png': "):
        letters_templates.see_good(source)


def test_only_the_head_writes_templates(office: Site) -> None:
    """Officers read and use them; two heads do not overwrite each other; the one that comes with
    the program stays.
    """
    head, other, jane = (office.browser(*it) for it in (
        ("hal", "head"), ("gwen", "head"), ("jane", "officer")))
    path = own(head)
    assert jane.get(path).status_code == 200
    assert saved(jane, GOOD, path, 1).status_code == 403
    assert saved(head, GOOD + "<p>2", path, 1).status_code == 303
    found = saved(other, GOOD + "<p>mine", path, 1)
    assert found.status_code == 422 and "hal has saved version 2 meanwhile" in found.text
    assert "&lt;p&gt;mine" in found.text
    assert saved(head, GOOD, standard(head), 1, name="Offers").status_code == 422
    assert saved(head, GOOD, standard(head), 1, name="").status_code == 422
    assert saved(head, GOOD, standard(head), 1, name="Standard letter").status_code == 422
    entries = [it for it in office.parts.history.entries if it.what == "saved a template"]
    assert [(it.who, it.about["template"], it.about["version"]) for it in entries] == [
        ("hal", "Offers", 1), ("hal", "Offers", 2)]


def test_a_preview_is_a_letter_that_is_never_sent(office: Site) -> None:
    """Of an example, and of a child as the register has it; only its person sees it."""
    head, other = office.browser("hal", "head"), office.browser("gwen", "head")
    path = own(head)
    form = {"text": GOOD + "<p>new", "seen": "1", "what": "preview"}
    found = head.post(path, {**form, "sample": "no place"})
    assert found.status_code == 200 and "The letter has 1 page" in found.text
    assert "&lt;p&gt;new" in found.text
    text = pages(head.get("/letters/templates/preview.pdf").data)[0]
    assert "Example Child" in text and "new" in text and "DRAFT" in text
    head.post(path, {**form, "child": "3"})
    text = pages(head.get("/letters/templates/preview.pdf").data)[0]
    assert "Cyd <b>Cole</b>" in text
    assert other.get("/letters/templates/preview.pdf").status_code == 404
    assert head.post(path, {**form, "child": "99"}).status_code == 422
    assert count(office, "letter_version") == 2 and count(office, "letter") == 0
