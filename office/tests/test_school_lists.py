"""The lists of a school: which children somebody looks for, and who comes next where places are
offered. What is expected is worked out by hand.
"""
import pathlib
import re
from collections.abc import Iterator
from typing import Any

import pytest
from applications import Browser, Site, office_over
from conftest import apply, child, school
from pages import Page

from office.core import days
from office.web.schools.views import schools

# OAK has two places, and ELM as many as there are children: all want OAK, most of them ELM too
MANY, NAMESAKE = 40, "Zoë Abel"


def town() -> list[dict[str, Any]]:
    """Two schools, and children in a row from OAK on: the first three have a sibling there, every
    fourth lists OAK alone.
    """
    commands = [school("OAK", 2, criteria=["sibling"]), school("ELM", 50, 9000)]
    for at in range(1, MANY + 1):
        found = child(at, 100 * at)
        found["name"] = NAMESAKE if at in (7, 31) else f"Child {at:03}"
        found["siblings"] = ["OAK"] if at <= 3 else []
        commands += [found, apply(at, ["OAK"] if at % 4 == 0 else ["OAK", "ELM"])]
    return commands


def lots(commands: list[dict[str, Any]]) -> list[int]:
    """A lot for each pair of the round."""
    pairs = sum(len(it["preferences"]) for it in commands if it["cmd"] == "apply")
    return list(range(1, pairs + 1))


@pytest.fixture(scope="module", name="office")
def office_fixture(tmp_path_factory: pytest.TempPathFactory) -> Iterator[Site]:
    """The application after a round: 1 and 2 have OAK, and 3 to 40 wait there."""
    commands = town()
    held = {"cmd": "round", "draw": 1, "day": "2025-03-03", "lots": lots(commands)}
    accepted = {"cmd": "accept", "child": 5, "school": "ELM"}
    with office_over(tmp_path_factory.mktemp("lists"), [*commands, held, accepted]) as found:
        yield found


@pytest.fixture(scope="module", name="rita")
def rita_fixture(office: Site) -> Browser:
    """Somebody of the office who reads."""
    return office.browser("rita", "reader")


def rows(browser: Browser, path: str, name: str = "waiting") -> list[list[str]]:
    """The rows of a list."""
    found = browser.get(f"/schools/OAK/{path}")
    assert found.status_code == 200, found.text
    return Page(found.text).tables[name][1:]


def numbers(browser: Browser, path: str) -> list[int]:
    """The children of a waiting list."""
    return [int(it[1]) for it in rows(browser, path) if len(it) > 1]


def test_a_waiting_list_is_searched(rita: Browser) -> None:
    """By words of the name, by the number, by the criterion, and by the place that a child has."""
    assert numbers(rita, "waiting?words=zoe") == [7, 31]
    assert numbers(rita, "waiting?words=31") == [31]
    assert numbers(rita, "waiting?words=abel+31") == [31]
    assert numbers(rita, "waiting?met=1") == [3]
    every_fourth = [it for it in range(3, MANY + 1) if it % 4 == 0]
    assert numbers(rita, "waiting?place=none") == every_fourth
    elsewhere = [it for it in range(3, MANY + 1) if it % 4]
    assert numbers(rita, "waiting?place=elsewhere&page=all") == elsewhere
    assert numbers(rita, "waiting?place=elsewhere&met=1") == [3]
    assert numbers(rita, "waiting?words=nobody") == []
    page = rita.get("/schools/OAK/waiting?place=none").text
    assert f"Waiting list: {len(every_fourth)} of 38 children wait" in page
    # (what is typed is text, and what no menu has is nobody's)
    page = rita.get("/schools/OAK/waiting?words=%3Cb%3E&met=x&place=y").text
    assert "<b>" not in page and "No child of the list is like this." in page


def test_a_head_of_a_school_cannot_choose_by_places_elsewhere(office: Site) -> None:
    """Whose list has no column of them."""
    lee = office.browser("lee", "school-OAK")
    every = list(range(3, MANY + 1))
    for asked in ("elsewhere", "none"):
        assert numbers(lee, f"waiting?place={asked}&page=all") == every


def test_a_waiting_list_says_which_place_a_child_has_now(rita: Browser) -> None:
    """So that a fill can be decided there; sorted by it, those without one come last."""
    found = {int(it[1]): it[5] for it in rows(rita, "waiting?page=all")}
    assert found[3] == "ELM School, second preference offered" and found[4] == "none"
    assert found[5] == "ELM School, second preference accepted"
    last = numbers(rita, "waiting?order=now&page=all")[-10:]
    assert all(it % 4 == 0 for it in last)


def test_long_lists_have_pages_in_their_order(rita: Browser) -> None:
    """Each link keeps what is filtered and the order; one link has all of it, to print."""
    text = rita.get("/schools/OAK/waiting?order=metres.down").text
    assert len(Page(text).tables["waiting"][1:]) == 25 and "page 1 of 2" in text
    first = numbers(rita, "waiting?order=metres.down")
    assert first == list(range(MANY, 15, -1))
    second = re.findall('href="/schools/OAK/(waiting[?][^"]*page=2[^"]*)"', text)[0]
    assert numbers(rita, second.replace("&amp;", "&")) == list(range(15, 3, -1)) + [3]
    assert len(numbers(rita, "waiting?page=all")) == 38
    assert "page=all" in text and "page=2" not in rita.get("/schools/OAK/intake").text


def test_an_intake_is_searched(office: Site, rita: Browser) -> None:
    """By name, criterion, and how a place is held."""
    office.record("jane", {"cmd": "accept", "child": 1, "school": "OAK"})
    for path, found in (("", [1, 2]), ("?place=accepted", [1]), ("?met=1", [1, 2]),
                        ("?words=002", [2]), ("?met=2", []), ("?place=by+a+plan", [])):
        path = f"intake{path}"
        shown = [int(it[0]) for it in rows(rita, path, "intake") if len(it) > 1]
        assert shown == found, path


def test_who_comes_next_is_shown_before_a_fill_begins(
    office: Site, rita: Browser, monkeypatch: pytest.MonkeyPatch,
) -> None:
    """The next of the list with the place that each would leave; the draw's form has the school and
    the number then, and nothing was begun.
    """
    hal = office.browser("hal", "head")
    today = days.read("2025-03-20")
    monkeypatch.setattr(schools, "today", lambda: today)
    assert "No place is vacant" in hal.get("/schools/OAK/offer").text
    assert "Offer" not in Page(hal.get("/schools/OAK").text).by_id.get("heading", "")
    office.record("jane", {"cmd": "raise_pan", "school": "OAK", "pan": 5})
    for browser, is_there in ((hal, True), (rita, False)):
        text = browser.get("/schools/OAK").text
        assert ("Offer 3 places from the waiting list" in text) == is_there
        assert "3 can be offered now" in text
    page = Page(hal.get("/schools/OAK/offer").text)
    assert [[it[1], it[5]] for it in page.tables["following"][1:]] == [
        ["3", "ELM School, second preference offered"], ["4", "no place"],
        ["5", "ELM School, second preference accepted"]]
    text = " ".join(re.sub("<[^>]*>", "", page.text).split())
    assert "1 child has no place now. 2 children would leave a place: ELM School 2." in text
    page = Page(hal.get("/schools/OAK/offer?places=1").text)
    assert [it[1] for it in page.tables["following"][1:]] == ["3"]
    for typed in ("0", "4", "x", "-1", "99999999999"):
        found = hal.get(f"/schools/OAK/offer?places={typed}")
        assert found.status_code == 400 and Page(found.text).error("places") == "from 1 to 3"
    before = office.parts.history.entries[-1]
    text = hal.get("/schools/OAK/offer?places=2").text
    link = re.findall('href="(/draws/[?][^"#]*)', text)[0]
    form = Page(hal.get(link.replace("&amp;", "&")).text).form("Begin").values
    assert (form["kind"], form["school"], form["fills"]) == (["fill"], ["OAK"], ["2"])
    assert office.parts.history.entries[-1] == before and office.parts.draws.present() is None
    # (who may not begin one sees who does)
    text = rita.get("/schools/OAK/offer").text
    assert "A head of the office begins it." in text and "/draws/?" not in text


def test_children_who_share_the_last_position_are_all_shown(
    tmp_path: pathlib.Path, monkeypatch: pytest.MonkeyPatch,
) -> None:
    """A lot decides between them."""
    monkeypatch.setattr(schools, "today", lambda: days.read("2025-03-20"))
    commands = [school("OAK", 1)]
    for at, metres in enumerate((100, 200, 300, 300, 400), 1):
        commands += [child(at, metres), apply(at, ["OAK"])]
    held = {"cmd": "round", "draw": 1, "day": "2025-03-03", "lots": lots(commands)}
    raised = {"cmd": "raise_pan", "school": "OAK", "pan": 3}
    with office_over(tmp_path, [*commands, held, raised]) as site:
        page = Page(site.browser("rita", "reader").get("/schools/OAK/offer").text)
        assert [it[:2] for it in page.tables["following"][1:]] == [
            ["1", "2"], ["2", "3"], ["2", "4"]]
        assert "A lot decides between children who share a position." in page.text
