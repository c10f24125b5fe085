"""The application of a child in the application: recorded where there is none, and what can be done
where a family wants another list.
"""
import datetime
import pathlib
import re
from collections.abc import Iterator

import pytest
from applications import ROUND, Browser, Site, child, office_over, town
from pages import Page, press

from office.web.children.views import preferences

EVE = child(5, "Eve <i>Eden</i>", 50)
PATH = "/children/5/application"
BUTTON = "Record the application of Eve <i>Eden</i>"
ASK = "Show what becomes of it"


@pytest.fixture(name="before")
def before_fixture(tmp_path: pathlib.Path, monkeypatch: pytest.MonkeyPatch) -> Iterator[Site]:
    """A register on its closing day. Child 5 has no application."""
    monkeypatch.setattr(preferences, "today", lambda: datetime.date(2024, 10, 31))
    with office_over(tmp_path, [*town(), EVE]) as found:
        yield found


@pytest.fixture(name="after")
def after_fixture(tmp_path: pathlib.Path, monkeypatch: pytest.MonkeyPatch) -> Iterator[Site]:
    """A register after its first round. Child 5 has no application."""
    monkeypatch.setattr(preferences, "today", lambda: datetime.date(2025, 3, 17))
    with office_over(tmp_path, [*town(), EVE, ROUND]) as found:
        yield found


def typed(browser: Browser, **given: str) -> Page:
    """The answer to the form with what is typed."""
    return Page(press(browser, PATH, Page(browser.get(PATH).text), ASK, **given).text)


def applied(office: Site, number: int) -> tuple[str, list[str]] | None:
    """The application that the register has."""
    found = office.parts.desk.now().applications.get(number)
    return (found.day.isoformat(), list(found.preferences)) if found else None


def test_an_application_in_time_is_asked_by_name_and_recorded_once(before: Site) -> None:
    """With the day of today proposed, and the schools in the order in which they are chosen."""
    jane = before.browser("jane")
    assert PATH in Page(jane.get("/children/5").text).stops
    assert "Record an application" in Page(jane.get("/children/5").text).text
    page = Page(jane.get(PATH).text)
    assert page.form(ASK).values["day"] == ["31 October 2024"]
    assert sorted(set(re.findall('name="(preference-[0-9]+)"', page.text))) == [
        "preference-1", "preference-2"]
    page = typed(jane, **{"preference-1": "B", "preference-2": "A"})
    assert page.tables["new"][1:] == [["1", "none", "B Beta"], ["2", "none", "A Alpha"]]
    assert page.by_id["becomes"].startswith(
        "It is in time: the closing day is 31 October 2024. The child takes part in the first")
    assert "cannot be changed" in page.by_id["becomes"] and applied(before, 5) is None
    found = press(jane, PATH, page, BUTTON)
    assert found.status_code == 303 and applied(before, 5) == ("2024-10-31", ["B", "A"])
    assert Page(jane.get(found.location).text).said().startswith(
        "Recorded: entered an application of 31 Oct")
    again = press(jane, PATH, page, BUTTON)
    assert again.status_code == 409 and "jane recorded an application" in Page(again.text).said()
    assert sum(it.what == "sends" for it in before.parts.history.entries) == 1


def test_the_question_has_an_address_and_a_way_back_to_what_was_typed(before: Site) -> None:
    """So a browser never asks whether a form is to be sent again."""
    jane = before.browser("jane")
    page = Page(jane.get(PATH).text)
    sent = page.form(ASK).sent_by(ASK, **{"preference-1": "B"})
    found = jane.post(PATH, sent)
    assert found.status_code == 303
    assert Page(jane.get(found.location).text).tables["new"][1:] == [["1", "none", "B Beta"]]
    back = Page(jane.get(PATH).text)
    assert back.form(ASK).values["preference-1"] == ["B"] and "not recorded" in back.by_id["kept"]
    assert jane.post(PATH, {"what": "anew"}).location == PATH
    late = jane.get(found.location)
    assert late.status_code == 409 and "type it again" in Page(late.text).said()
    assert "kept" not in Page(jane.get(PATH).text).by_id


def test_a_late_application_before_the_first_round_is_said(before: Site) -> None:
    """It takes no part in that round."""
    page = typed(before.browser("jane"), **{"preference-1": "A", "day": "1 November 2024"})
    assert page.by_id["becomes"].startswith("It is late: the closing day was 31 October 2024."
                                            " The child takes no part in the first round.")


def test_a_late_application_waits_after_the_round(after: Site) -> None:
    """Child 5 lives nearest of those who wait at A: 3 and 4 wait there already."""
    jane = after.browser("jane")
    page = typed(jane, **{"preference-1": "A", "day": "17/3/2025"})
    assert page.by_id["becomes"].startswith("It is late") and "waits" in page.by_id["becomes"]
    assert "Places that are offered or held stay." in page.by_id["becomes"]
    found = press(jane, PATH, page, BUTTON)
    listed = Page(jane.get(found.location).text).tables["list"][1:]
    assert [it[:2] for it in listed] == [["1. A Alpha", "Waiting list: 1 of 3"]]


WRONG: list[tuple[dict[str, str], str, str]] = [
    ({}, "preference-1", "at least 1 school"),
    ({"preference-1": "A", "preference-2": "A"}, "preference-2", "A is above"),
    ({"preference-2": "A"}, "preference-1", "there is one below"),
    ({"preference-1": "Z"}, "preference-1", "a school of the register"),
    ({"preference-1": "A", "day": "31/11/2024"}, "day", "17 March 2025"),
]


@pytest.mark.parametrize("given, field, said", WRONG, ids=[it[2] for it in WRONG])
def test_what_is_wrong_is_said_at_its_field(
    before: Site, given: dict[str, str], field: str, said: str,
) -> None:
    """And what was typed stays in the form."""
    page = typed(before.browser("jane"), **given)
    assert said in page.error(field) and "confirm" not in page.fields
    for name, text in given.items():
        assert name == "preference-1" and text == "Z" or page.form(ASK).values[name] == [text]
    assert applied(before, 5) is None


def test_a_colleague_who_corrects_the_child_meanwhile_is_named(before: Site) -> None:
    """The priorities of the child may be others by then."""
    jane = before.browser("jane")
    page = typed(jane, **{"preference-1": "A"})
    before.record("kim", {**EVE, "cmd": "amend", "north": 60})
    found = press(jane, PATH, page, BUTTON)
    assert found.status_code == 409 and applied(before, 5) is None
    page = Page(found.text)
    assert "kim recorded a correction" in page.said()
    assert press(jane, PATH, page, BUTTON).status_code == 303


def test_an_application_that_is_stored_is_not_changed_and_the_ways_are_said(
    before: Site,
) -> None:
    """The register refuses a second one, so there is no form that would be refused."""
    jane = before.browser("jane")
    assert "The family wants other schools" in Page(jane.get("/children/3").text).text
    page = Page(jane.get("/children/3/application").text)
    assert [it[0] for it in page.tables["list"][1:]] == ["1. A Alpha", "2. B Beta"]
    assert "keeps it as it was added" in page.by_id["why-not"]
    assert "restore" in page.text and "after the closing day" in page.text
    assert page.buttons() == []
    answer = before.program("portal").command(
        {"cmd": "apply", "child": 3, "day": "2024-10-31", "preferences": ["B"]})
    assert "AlreadyApplied" in answer.text
    assert applied(before, 3) == ("2024-10-31", ["A", "B"])


def test_after_a_round_lists_can_be_left_and_no_restore_is_named(after: Site) -> None:
    """A restore would undo the round for all."""
    jane = after.browser("jane")
    page = Page(jane.get("/children/3/application").text)
    assert "/children/3/leave?school=A" in page.stops
    assert "/help/a-second-number" in page.stops
    assert "No school is added to a stored list" in jane.get("/help/a-second-number").text
    assert "the place that it has then ends" in page.text and "/copies/" not in page.text.partition(
        'id="ways"')[2].partition("</ul>")[0]


def test_a_child_with_a_plan_has_no_form(before: Site) -> None:
    """Its place is by the plan alone."""
    jane = before.browser("jane")
    before.record("jane", {"cmd": "name_plan", "child": 5, "school": "A"})
    page = Page(jane.get(PATH).text)
    assert "place by a plan" in page.by_id["why-not"] and page.buttons() == []


def test_where_there_is_no_school_there_is_no_form(tmp_path: pathlib.Path) -> None:
    """There is none to choose."""
    with office_over(tmp_path, [EVE]) as office:
        page = Page(office.browser("jane").get(PATH).text)
    assert "There is no school yet" in page.by_id["why-not"] and page.buttons() == []


def test_only_who_records_has_the_form(before: Site) -> None:
    """A reader finds neither link nor form."""
    rita = before.browser("rita", "reader")
    assert PATH not in Page(rita.get("/children/5").text).stops
    assert rita.get(PATH).status_code == 403
    assert rita.post(PATH, {"preference-1": "A"}).status_code == 403
