"""What the search of the head finds where several children have one name: by what a caller can be
asked, so that the right one is opened.
"""
import pathlib
import re
import tracemalloc
from collections.abc import Iterator

import pytest
from applications import Site, office_over
from conftest import apply, child, school
from pages import Page

from office.core import texts
from office.web.people.roles import Person

HAL = Person("hal", "head")
ZOE = "Zoë Abel"


@pytest.fixture(name="office")
def office_fixture(tmp_path: pathlib.Path) -> Iterator[Site]:
    """The application after a round: three children have one name, and one has it in a longer one.
    """
    commands = [school("OAK", 1), school("ELM", 1, 9000)]
    rows: list[tuple[int, str, list[str]]] = [
        (1, "Zoë Abel-Moor", ["OAK"]), (2, ZOE, ["OAK", "ELM"]), (3, "Zoe ABEL", ["ELM"]),
        (4, ZOE, []), (5, "Bo Reed", ["OAK"])]
    for at, name, wishes in rows:
        made = child(at, 100 * at)
        made["name"] = name
        commands += [made, *([apply(at, wishes)] if wishes else [])]
    held = {"cmd": "round", "draw": 1, "day": "2025-03-03", "lots": [1, 2, 3, 4, 5]}
    with office_over(tmp_path, [*commands, held]) as found:
        yield found


def test_namesakes_are_told_apart(office: Site) -> None:
    """By the first preference, the place, and the address where the office has one; first those
    whose whole name was typed. One who is alone is opened.
    """
    rita = office.browser("rita", "reader")
    found = rita.get("/find?q=zoe+abel").text
    page = Page(found)
    assert page.tables["found"] == [
        ["Number", "Name", "First preference", "Place now", "Applied"],
        ["2", "Zoë Abel same name", "OAK School", "none", "20 October 2024"],
        ["3", "Zoe ABEL same name", "ELM School", "ELM School offered", "20 October 2024"],
        ["4", "Zoë Abel same name", "", "none", ""],
        ["1", "Zoë Abel-Moor", "OAK School", "OAK School offered", "20 October 2024"]]
    text = " ".join(re.sub("<[^>]*>", "", found).split())
    assert "3 children here share a name with another child." in text
    assert "ask the caller for the first preference." in text
    alike = Page(rita.get("/children/2").text)
    said = " ".join(alike.by_id["namesakes"].split())
    assert said == (
        "same name Child 3, Zoe ABEL: first preference ELM School, present school not recorded"
        " same name Child 4, Zoë Abel: first preference none, present school not recorded")
    assert "/children/3" in alike.stops and "namesakes" not in rita.get("/children/1").text
    assert rita.get("/find?q=reed").location == "/children/5"
    assert rita.get("/find?q=3").location == "/children/3"
    addresses = office.parts.letters.addresses
    assert addresses.save(HAL, {3: ["1 <High> Street", "AS1 1AA"]}, False, addresses.digest())
    page = Page(office.browser("olivia").get("/find?q=zoe+abel").text)
    assert [it[4] for it in page.tables["found"]] == [
        "Address", "", "1 <High> Street, AS1 1AA", "", ""]
    assert "first preference or the address." in page.text and "<High>" not in page.text
    # (the register has no address, and a reader sees nothing that it does not have)
    assert "Street" not in rita.get("/find?q=zoe+abel").text
    # (by a link of the head in another order)
    page = Page(rita.get("/find?q=zoe+abel&order=first").text)
    assert [it[0] for it in page.tables["found"][1:]] == ["3", "2", "1", "4"]


def test_suggestions_name_the_first_preference_of_namesakes(office: Site) -> None:
    """And of nobody else."""
    rita = office.browser("rita", "reader")
    assert [it[0] for it in rita.get("/find/near?q=abel").json] == [
        "Zoë Abel-Moor, child 1", "Zoë Abel, child 2, first preference OAK School",
        "Zoe ABEL, child 3, first preference ELM School", "Zoë Abel, child 4"]


def test_a_long_text_is_neither_looked_for_nor_kept(office: Site) -> None:
    """Each word of it would be compared with each child, and some thousands would fill the memory.
    """
    rita = office.browser("rita", "reader")
    for address in ("/find?q=", "/lists/children?words=", "/help/?q="):
        page = rita.get(address + "x" * 5000)
        assert page.status_code == 200 and "x" * 200 in page.text and "x" * 201 not in page.text
    tracemalloc.start()
    try:
        for at in range(1000):
            assert texts.folded(f"{at} {'x' * 5000}").startswith(str(at))
        assert tracemalloc.get_traced_memory()[0] < 1_000_000
    finally:
        tracemalloc.stop()
