"""The screens of letters in tests: a register whose children have hostile names, after
its round; and what a browser does there.
"""
import contextlib
import html
import pathlib
import re
import subprocess
import time
from collections.abc import Iterator
from typing import Any
from unittest import mock

from applications import Browser, Site, site
from conftest import apply, child, make, school
from served import do_over, served

from office.core.model import Register
from office.web.letters import audits as letters_audits

NAMES = {
    1: 'Ann "Nan" O\'Abel', 2: "<script>alert(1)</script>", 3: "=SUM(A1)", 4: "Siân Tŷ Gwyn",
    5: "Bo & Bell, jr.",
}
# by hand: OAK has one place, and 1 lives nearest; ELM has room for the others
HAS = {1: "Oak & Ash", 2: "Elm", 3: "Elm", 4: "Elm", 5: "Elm"}
# the day on which letters are said to be sent, with the tick that it is right
SENT_ON = {"day": "3 March 2025", "sure_of": "2025-03-03"}
Answer = Any


def commands() -> list[dict[str, Any]]:
    """Two schools, and five children that all want OAK, and ELM after it."""
    found = [school("OAK", 1, name="Oak & Ash"), school("ELM", 9, 9000, name="Elm")]
    for number, name in NAMES.items():
        found += [child(number, 100 * number, name), apply(number, ["OAK", "ELM"])]
    return found


ROUND = {"cmd": "round", "draw": 1, "day": "2025-03-03", "lots": list(range(1, 11))}


@contextlib.contextmanager
def after_round(folder: pathlib.Path) -> Iterator[str]:
    """The address of the register after its round."""
    make(folder / "reg.db", [*commands(), ROUND])
    with served(folder / "reg.db") as (address, _):
        yield address


@contextlib.contextmanager
def audited(folder: pathlib.Path, address: str) -> Iterator[Site]:
    """The application over it, as after an audit of the round that agreed; a copy of the register
    is what it was in memory.
    """
    with site(folder, address) as office:
        copies, kept = office.parts.copies, list[Register]()

        def make_copy(purpose: str, *_: Any) -> int:
            office.copied.append(purpose)
            kept.append(office.parts.desk.now())
            return len(kept)

        with mock.patch.object(copies, "make", make_copy), mock.patch.object(
                copies, "register", lambda number: kept[number - 1]):
            outcome = letters_audits.outcome_of(office.parts.desk.now(), 1)
            with office.parts.store.writing() as db:
                db.execute("INSERT INTO letter_audit VALUES (1, ?, 1, '', '', '')", (outcome,))
            typed(office.browser("gwyn", "head"))
            yield office


def beside(office: Site, address: str, others: list[dict[str, Any]]) -> None:
    """Commands that come to the register past the application, which has read it again since: a
    page may show what was so some seconds before.
    """
    do_over(address, others)
    office.parts.desk.now()


# what the office types of itself
OFFICE = {"office": "Borough of Tŷ & Sons", "address": "Civic Hall\n2 Low Street\nTown TN1 1AA",
          "telephone": "020 7946 0000", "email": "schools@borough.example",
          "website": "www.borough.example", "opening": "", "closing": "",
          "signs": "Mary Head, Borough of Tŷ"}


def typed(browser: Browser, **more: str) -> None:
    """Types the office's name and address for its letters."""
    seen = hidden(browser.get("/letters/office/"), "seen")
    found = browser.post("/letters/office/", {**OFFICE, "seen": seen, "what": "save", **more})
    assert found.status_code == 303, found.text


def hidden(page: Answer, name: str) -> str:
    """The value of a field of a page."""
    found = re.search(rf'name="{name}"(?: type="text")? value="([^"]*)"', page.text)
    assert found, page.text
    return html.unescape(found[1])


def asked(browser: Browser, whom: str, value: str, **more: Any) -> dict[str, Any]:
    """The form of a whom-list as a browser fills it: each child whose box is ticked."""
    page = browser.get(f"/letters/whom?whom={whom}&value={value}")
    assert page.status_code == 200, page.text
    template = re.search(r'<option value="([0-9.]+)" selected', page.text)
    assert template, page.text
    ticked = re.findall(r'name="child" value="([0-9]+)"[^>]* checked', page.text)
    return {"whom": whom, "value": hidden(page, "value"), "key": hidden(page, "key"),
            "template": template[1], "kind": "pdf", "day_of_letters": "3 March 2025",
            "order": "number", "child": ticked, **more}


def waited(browser: Browser, path: str) -> str:
    """The page of a set, once it is made or failed."""
    end = time.monotonic() + 600
    while True:
        page: str = browser.get(path).text
        if "data-running" not in page:
            return page
        assert time.monotonic() < end, page
        time.sleep(0.2)


def made(browser: Browser, form: dict[str, Any]) -> str:
    """The address of a set that is asked for, once it is made."""
    found = browser.post("/letters/make", form)
    assert found.status_code == 303, found.text
    page = waited(browser, found.location)
    assert "not recorded as sent" in page, page
    path: str = found.location
    return path


def pages(data: bytes) -> list[str]:
    """The texts of the pages of a PDF, with single spaces."""
    ran = subprocess.run(["pdftotext", "-layout", "-", "-"], input=data, capture_output=True,
                         check=True)
    return [" ".join(it.split()) for it in ran.stdout.decode("utf-8").split("\f")[:-1]]


def letter_pages(browser: Browser, path: str) -> list[str]:
    """The pages of a set."""
    found = browser.get(f"{path}/file")
    assert found.status_code == 200, found.text
    return pages(found.data)


def count(office: Site, table: str) -> int:
    """How many rows a table has."""
    row = office.parts.store.row(f"SELECT count(*) AS many FROM {table}")
    assert row
    return int(row["many"])
