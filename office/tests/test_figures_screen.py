"""The published figures on their screen: what is withheld and why, beside last year, and the file
for publication. The numbers are worked out by hand on a register with two schools.
"""
import hashlib
import html.parser
import io
import json
import pathlib
import shutil
from collections.abc import Iterator
from typing import Any

import pytest
from applications import Browser, Site, office_over
from conftest import apply, child, do, make, school
from test_figures import move

from office.web.figures import publication
from office.web.figures.publication import MOST, FiguresStore
from office.web.register.store import Store

# OAK has 7 places and ELM 2, and 10 children live ever farther from both. All want OAK first but
# the last two, who want ELM alone; the first is looked after. So OAK offers 7 places (1 to a child
# that is looked after and 6 by distance), ELM 2, and the 8th, who lists OAK alone, has none.
NAMES = [f"Child {it}" for it in range(1, 11)]


def season() -> list[dict[str, Any]]:
    """The register after its round."""
    commands = [school("OAK", 7), school("ELM", 2, 0)]
    for at in range(1, 11):
        commands += [child(at, 100 * at, looked_after=at == 1),
                     apply(at, ["OAK"] if at < 9 else ["ELM"])]
    return commands + [{"cmd": "round", "draw": 1, "day": "2025-03-03", "lots": list(range(10))}]


class Cells(html.parser.HTMLParser):
    """The rows of the tables of a page, by their captions."""

    def __init__(self, page: str) -> None:
        super().__init__()
        self.tables: dict[str, list[list[str]]] = {}
        self.caption, self.is_caption, self.is_cell = "", False, False
        self.feed(page)

    def handle_starttag(self, tag: str, attrs: list[tuple[str, str | None]]) -> None:
        """Begins a caption, a row or a cell."""
        self.is_caption = tag == "caption"
        if self.is_caption:
            self.caption = ""
        if tag == "tr":
            self.tables.setdefault(self.caption, []).append([])
        if tag in ("td", "th"):
            self.tables[self.caption][-1].append("")
        self.is_cell = tag in ("td", "th") or self.is_cell and tag in ("bdi", "a")

    def handle_endtag(self, tag: str) -> None:
        """Ends it."""
        self.is_caption = self.is_caption and tag != "caption"
        self.is_cell = self.is_cell and tag not in ("td", "th")

    def handle_data(self, data: str) -> None:
        """Takes a text."""
        if self.is_caption:
            self.caption += data
        elif self.is_cell:
            self.tables[self.caption][-1][-1] += data


@pytest.fixture(scope="module", name="office")
def office_fixture(tmp_path_factory: pytest.TempPathFactory) -> Iterator[Site]:
    """The application over the register after its round."""
    with office_over(tmp_path_factory.mktemp("figures"), season()) as found:
        yield found


@pytest.fixture(name="browser")
def browser_fixture(office: Site) -> Browser:
    """An officer."""
    return office.browser("otto", "officer")


@pytest.fixture(scope="module", name="last_year")
def last_year_fixture(tmp_path_factory: pytest.TempPathFactory) -> pathlib.Path:
    """Last year's register from after its round, in which OAK had 8 places, and so all had one."""
    path = tmp_path_factory.mktemp("last") / "reg.db"
    make(path, [{**it, "pan": 8} if it.get("school") == "OAK" and "pan" in it else it
                for it in season()])
    move(path, -1)
    return path


def made(browser: Browser, **files: bytes) -> Any:
    """Makes the figures of the first round."""
    given = {name: (io.BytesIO(data), f"{name}.db") for name, data in files.items()}
    return browser.post("/figures/", {"round": "1", **given})


def test_the_figures_of_a_round_are_made_and_looked_at(office: Site, browser: Browser) -> None:
    """With each number that is withheld: the office sees it, and the page has it not."""
    done = made(browser)
    assert done.status_code == 303, done.text
    page = browser.get(done.location)
    found = Cells(page.text)
    met = found.tables["Preferences that were met, as they are published"]
    # (9 have their first preference, 1 has none: the one can be worked out from the other and the
    # sum, so both are withheld)
    assert met[1:] == [["first preference", "[c]", "[c]"], ["no place", "[c]", "[c]"]]
    rows = {(it[0], it[1]): it[2:] for it in found.tables[next(
        it for it in found.tables if it.endswith("withheld"))][1:]}
    assert rows["", "children with no place"] == ["1", publication.SMALL]
    assert rows["", "children with first preference"] == ["9", publication.BESIDE]
    assert rows["ELM", "offers"] == ["2", publication.SMALL]
    assert rows["OAK", "offers to children looked after, or previously looked after"] == [
        "1", publication.SMALL]
    # (the sum of all offers is withheld beside them, or one of OAK's is)
    assert ("OAK", "distance of the last offer") not in rows
    assert rows["", "homes on the map"][1] == publication.BLANK
    assert all(0 < int(it[0]) < 5 for it in rows.values() if it[1] == publication.SMALL)
    assert all(not 0 < int(it[0]) < 5 for it in rows.values() if it[1] == publication.BESIDE)
    entry = office.parts.history.entries[-1]
    assert entry.what == "made figures" and entry.who == "otto"


def test_the_page_is_shown_as_it_is_published(browser: Browser) -> None:
    """Byte for byte the file; it may run nothing and fetch nothing."""
    number = int(made(browser).location.rpartition("/")[2])
    page = browser.get(f"/figures/{number}/page")
    policy = page.headers.getlist("Content-Security-Policy")
    assert len(policy) == 1 and "sandbox" in policy[0] and "script-src" not in policy[0]
    assert "default-src 'none'" in policy[0] and "allow-scripts" not in policy[0]
    digest = browser.get(f"/figures/{number}").text.split('name="digest" value="')[1][:64]
    file = browser.post(f"/figures/{number}/file", {"digest": digest})
    assert file.data == page.data and b"<title>School admissions" in file.data
    assert file.headers["Content-Disposition"] == (
        'attachment; filename="figures-2025-secondary-round-1.html"')
    assert not any(it.encode() in file.data for it in NAMES[1:])


def test_who_takes_the_file_is_on_record(office: Site, browser: Browser) -> None:
    """Before it is given. The first who took it is on the page; a reader takes none."""
    number = int(made(browser).location.rpartition("/")[2])
    digest = browser.get(f"/figures/{number}").text.split('name="digest" value="')[1][:64]
    wrong = browser.post(f"/figures/{number}/file", {"digest": "0" * 64})
    assert wrong.status_code == 409 and "other figures than were shown" in wrong.text
    assert "Nobody has downloaded them" in browser.get(f"/figures/{number}").text
    for name in ("otto", "olga"):
        other = office.browser(name, "officer")
        assert other.post(f"/figures/{number}/file", {"digest": digest}).status_code == 200
        entry = office.parts.history.entries[-1]
        assert (entry.who, entry.what) == (name, "took figures for publication")
        assert entry.about["digest"] == digest and entry.about["number"] == number
    assert "Downloaded for publication by otto" in browser.get(f"/figures/{number}").text
    reader = office.browser("rita", "reader")
    assert reader.get(f"/figures/{number}").status_code == 200
    assert reader.post(f"/figures/{number}/file", {"digest": digest}).status_code == 403


def test_last_year_is_beside_it(browser: Browser, last_year: pathlib.Path) -> None:
    """Of an uploaded register, of which nothing but the figures is kept."""
    done = made(browser, last=last_year.read_bytes())
    assert done.status_code == 303, done.text
    found = Cells(browser.get(done.location).text)
    rows = found.tables["Schools beside those of 2024, as they are published"]
    assert [it[:3] for it in rows[1:]] == [
        ["ELM ELM School", "2", "2"], ["OAK OAK School", "7", "8"]]
    met = found.tables["Preferences that were met, as they are published"]
    assert met[0] == ["Place", "Children, 2025", "Percent, 2025", "Children, 2024",
                      "Percent, 2024"] and len(met[1]) == 5
    page = browser.get(f"{done.location}/page").text
    assert "Compared with 2024" in page


@pytest.mark.parametrize("field, data, said", [
    ("last", b"<html>", "Nothing was made: last year&#39;s register is no copy of a register"),
    ("last", b"SQLite format 3\0" + b"x" * 5000, "last year&#39;s register is no register"),
    ("copy", b"PK\3\4", "the copy from right before the round is no copy of a register"),
    ("last_copy", b"SQLite format 3\0", "needs last year&#39;s register beside it"),
])
def test_an_upload_that_is_none_is_refused(
    office: Site, browser: Browser, field: str, data: bytes, said: str
) -> None:
    """And nothing is made."""
    before = len(office.parts.history.entries)
    found = made(browser, **{field: data})
    assert found.status_code == 422
    assert said.lower() in found.text.lower(), found.text
    assert len(office.parts.history.entries) == before


def test_last_year_is_an_earlier_one(browser: Browser, tmp_path: pathlib.Path) -> None:
    """The same year is no comparison."""
    make(tmp_path / "same.db", season())
    found = made(browser, last=(tmp_path / "same.db").read_bytes())
    assert found.status_code == 422 and "cannot be compared" in found.text


def test_what_changed_since_needs_the_copy(tmp_path: pathlib.Path) -> None:
    """After an answer the register alone has no figures of its round; with the copy from before it
    they are what they were.
    """
    (tmp_path / "before").mkdir()
    make(tmp_path / "before" / "reg.db", season()[:-1])
    copy = (tmp_path / "before" / "reg.db").read_bytes()
    shutil.copy(tmp_path / "before" / "reg.db", tmp_path / "asked.db")
    do(tmp_path / "asked.db", season()[-1:])
    with office_over(tmp_path, [*season(), {"cmd": "decline", "child": 2, "school": "OAK"}]) as it:
        browser = it.browser("otto", "officer")
        found = made(browser)
        assert found.status_code == 422
        assert "the field “the copy from right before the round”" in found.text
        done = made(browser, copy=copy)
        assert done.status_code == 303
        about = json.loads(it.parts.store.rows("SELECT about FROM figures")[0][0])
        assert about["children"] == 10 and about["is_of_copy"]
        assert ["", "children with first preference", "9", publication.BESIDE] in about["withheld"]


def test_what_was_taken_is_kept_and_of_the_rest_the_last(tmp_path: pathlib.Path) -> None:
    """Who took it first stays, and the digest is that of the page."""
    store = Store(str(tmp_path / "office.db"))
    found = FiguresStore(store)
    first = found.add("jane", b"page 1", {})
    found.take("jane", first)
    found.take("bo", first)
    for number in range(first + 1, first + MOST + 3):
        assert found.add("jane", b"page %d" % number, {}) == number
    kept = found.listed()
    assert [it.number for it in kept] == [*range(first + MOST + 2, first + 2, -1), first]
    assert [it.taken_by for it in kept] == [""] * MOST + ["jane"]
    assert kept[-1].digest == hashlib.sha256(b"page 1").hexdigest()
    assert found.page(first) == b"page 1"
    store.close()
