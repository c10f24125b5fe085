"""The first screens of the supervisor, of the head of a school and of an administrator: what is due
for them, what comes later, and what was done. That of the supervisor in a draw is in test_draws.
"""
import datetime
import pathlib
import re
from collections.abc import Iterator

import pytest
from applications import ROUND, Site, office_over, town
from pages import Page, press, tasks

from office.core import days
from office.web.home import views as season
from office.web.people.roles import Person

HAL = Person("hal", "head")


@pytest.fixture(name="office")
def office_fixture(tmp_path: pathlib.Path) -> Iterator[Site]:
    """The application over a register before its first round."""
    with office_over(tmp_path, town()) as found:
        yield found


def on(patch: pytest.MonkeyPatch, day: str) -> None:
    """Makes a day today."""
    for it in (season, days):
        patch.setattr(it, "today", lambda: datetime.date.fromisoformat(day))


def numbers(text: str) -> dict[str, str]:
    """The numbers of a first screen by their words."""
    found = re.findall(r"<dt>(.*?)</dt><dd class=\"number\">([^<]*)", text)
    return {re.sub("<[^>]*>", "", words): number for words, number in found}


def test_the_supervisor_sees_what_is_to_come(
    office: Site, monkeypatch: pytest.MonkeyPatch,
) -> None:
    """Before a draw is begun: by the days of the season, and no child."""
    sue = office.browser("sue", "supervisor")
    lots = "Draw the lots of the first round"
    for day, state in (("2024-10-31", "From 1 November 2024"), ("2024-11-01", "Not begun")):
        on(monkeypatch, day)
        (title, said, found), = tasks(sue.get("/").text)["Not yet"]
        assert (title, found) == (lots, state) and "Monday, 3 March 2025" in said
    assert office.parts.desk.send(HAL, ROUND, draw=True).is_done
    on(monkeypatch, "2025-03-20")
    text = sue.get("/").text
    assert [it[0] for it in tasks(text)["Not yet"]] == ["Draw the lots of the next round or offer"]
    assert "Ada" not in text and "Alpha" not in text and 'href="/lots/"' in text
    on(monkeypatch, "2026-01-01")
    assert "Nothing is to be done now." in sue.get("/").text


def test_the_head_of_a_school_sees_no_number_before_its_day(
    office: Site, monkeypatch: pytest.MonkeyPatch,
) -> None:
    """Only the admission number, which is published, from when a round is held until its day."""
    ann = office.browser("ann", "school-A")
    on(monkeypatch, "2025-02-20")
    text = ann.get("/").text
    assert numbers(text) == {"Admission number": "2", "Places held": "0", "Vacant places": "2",
                             "Children who wait": "0"}
    assert tasks(text) == {"Not yet": [(
        "See who is offered a place", "The offer day of the first round is Monday, 3 March 2025.",
        "From 3 March 2025")]}
    assert office.parts.desk.send(HAL, ROUND, draw=True).is_done
    text = ann.get("/").text
    assert numbers(text) == {"Admission number": "2"}
    (title, said, state), = tasks(text)["Not yet"]
    assert (title, state) == ("See who has a place and who waits", "Not shown now")
    assert said == "The lists are shown again on 3 March 2025, the day of the offers."
    on(monkeypatch, "2025-03-03")
    assert numbers(ann.get("/").text) == {"Admission number": "2", "Places held": "2",
                                          "Vacant places": "0",
                                          "Children who wait": "2"}
    # (a school that is not in the register yet)
    text = office.browser("zoe", "school-ZZ").get("/").text
    assert "The register has no school ZZ yet." in text and numbers(text) == {}


def test_an_administrator_sees_who_cannot_sign_in(office: Site) -> None:
    """And nothing of the register."""
    ada = office.browser("ada", "administrator")
    text = ada.get("/").text
    assert numbers(text) == {"People": "1", "Programs": "0", "Signed in now": "1",
                             "Not signed in yet": "0", "Locked": "0"}
    office.parts.people.add("newcomer", "officer")
    office.parts.people.add("gone", "reader")
    office.parts.people.lock("gone", True)
    office.program("portal")
    text = ada.get("/").text
    assert numbers(text) == {"People": "3", "Programs": "1", "Signed in now": "1",
                             "Not signed in yet": "1", "Locked": "1"}
    assert [it[1] for it in tasks(text)["When you are ready"]] == [
        "The supervisor draws the lots of each round.",
        "A head or an officer who did not begin a round confirms it.",
        "Not signed in yet: newcomer.", "Locked: gone."]
    office.add("sue", "supervisor")
    office.add("hal", "head")
    assert [it[0] for it in tasks(ada.get("/").text)["When you are ready"]] == [
        "Help colleagues to sign in", "Look at locked accounts"]
    assert {it for it in Page(text).stops if it.startswith("/people")} == {
        "/people/", "/people/#roles"}
    assert "Ada Abel" not in text and "Alpha" not in text and "/find" not in text


def test_an_administrator_adds_people_on_the_first_screen(office: Site) -> None:
    """Once, whatever a second press and a second window do; what is wrong is said at its field."""
    ada = office.browser("ada", "administrator")
    pages = [Page(ada.get("/").text) for _ in range(2)]
    given = {"name": "newcomer", "role": "school-A", "kind": "person"}
    found = press(ada, "/", pages[0], "Add", **given)
    page = Page(found.text)
    assert found.status_code == 200 and page.said() == "newcomer is added as school-A."
    assert len(page.by_id["secret"]) > 10 and page.focus == "name"
    for again in (pages[0], pages[1]):
        found = press(ada, "/", again, "Add", **given)
        page = Page(found.text)
        assert found.status_code == 409 and "Nobody was added" in page.said()
        assert page.error("name") == "newcomer is there already."
    wrong = Page(press(ada, "/", pages[0], "Add", **{**given, "name": "No One"}).text)
    assert "a name is 1 to 64" in wrong.error("name").lower()
    assert wrong.form("Add").values["name"] == ["No One"]
    assert [it["name"] for it in office.parts.store.rows("SELECT name FROM person")] == [
        "ada", "newcomer"]
    for name, role in (("hal", "head"), ("sue", "supervisor"), ("ann", "school-A")):
        assert "Add" not in Page(office.browser(name, role).get("/").text).buttons()


def test_a_first_screen_has_what_its_person_did(office: Site) -> None:
    """And nobody else."""
    ada, ben = (office.browser(it, "administrator") for it in ("ada", "ben"))
    office.parts.history.add("ada", "added", {"person": "newcomer", "role": "officer"})
    added = "<bdi>Added the account newcomer as officer</bdi>"
    assert added in ada.get("/").text and added not in ben.get("/").text


def test_a_copy_that_is_too_old_is_named_on_each_screen(
    office: Site, monkeypatch: pytest.MonkeyPatch,
) -> None:
    """By one judgement: below each screen of the office, and to the head as what is due. After more
    than seven days in which something was recorded; never where nothing was.
    """
    hal, rita = office.browser("hal", "head"), office.browser("rita", "reader")
    store = office.parts.store

    def made(days: int) -> None:
        at = datetime.datetime.now(datetime.timezone.utc) - datetime.timedelta(days, hours=1)
        with store.writing() as db:
            db.execute("DELETE FROM copy")
            db.execute("INSERT INTO copy (number, purpose, asked, who, position, name, size) VALUES"
                       " (1, 'x', ?, 'hal', ?, 'office-000001-2025-01-01T000000.db', 1)",
                       (at.isoformat(timespec="milliseconds"), len(office.parts.history.entries)))

    def said() -> tuple[bool, list[str]]:
        foot = rita.get("/schools/").text.partition("<footer>")[2]
        due = [it[1] for it in tasks(hal.get("/").text).get("Due now", ())
               if it[0] == "Make a copy of the register"]
        return "A head of the office makes one on Copies." in foot, due

    made(30)
    assert said() == (False, [])
    office.record("jane", {"cmd": "raise_pan", "school": "A", "pan": 3})
    is_said, (due,) = said()
    assert is_said and due.endswith("It is 30 days old, and 1 change was recorded since.")
    made(8)
    assert said() == (False, []), "nothing since"
    with store.writing() as db:
        db.execute("UPDATE copy SET position=0")
    assert said()[0] and "It is 8 days old" in rita.get("/").text
    with store.writing() as db:
        db.execute("UPDATE copy SET asked=?", (datetime.datetime.now(
            datetime.timezone.utc).isoformat(timespec="milliseconds"),))
    assert said() == (False, [])
    assert "of the office makes" not in office.browser("sue", "supervisor").get("/").text
