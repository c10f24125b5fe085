"""Screens that a person reads once: what a file must have, counts that agree, and the act beside
what asks for it.
"""
import datetime
import io
import pathlib
from collections.abc import Iterator

import openpyxl
import pytest
from applications import ROUND, Site, office_over, town
from pages import Page
from staged import Screens, Seen, csv_of, workbook

from office.core import fields
from office.web.applications import columns
from office.web.people.roles import Person
from office.web.rounds.terms import STATES
from office.web.schools.views import schools

HAL = Person("hal", "head")
GOOD = "101,Ada Abbot,1000,2000,no,,,2024-10-01,A;B,"
LATE = "102,Ben Brook,1100,2100,no,,,2024-11-05,B,"


@pytest.fixture(name="office")
def office_fixture(tmp_path: pathlib.Path) -> Iterator[Site]:
    """The application over a register before its first round."""
    with office_over(tmp_path, town()) as found:
        yield found


@pytest.fixture(name="screens")
def screens_fixture(office: Site) -> Screens:
    """The screens of an officer."""
    return Screens(office.browser("jane"))


def words(seen: Seen) -> str:
    """All that is read on a page, without the blanks between."""
    return " ".join(seen.text.split())


def test_a_file_is_told_its_columns_before_it_is_added(office: Site, screens: Screens) -> None:
    """By name and with an example, of which a row is right; and in an empty file."""
    page = words(screens.see())
    assert f"names its columns: {', '.join(fields.REQUIRED)}. present may be left out." in page
    shown = Page(screens.browser.get("/applications/").text).tables[
        "The columns of a file of applications, in any order"]
    names = [it for it in fields.COLUMNS if it != "catchments"]
    assert [it[0] for it in shown[1:]] == names
    assert {it[0]: it[3] for it in shown[1:] if it[3] != "no"} == {
        "east": "if the file has uprn or postcode", "north": "if the file has uprn or postcode",
        "present": "yes"}
    empty = screens.browser.get("/applications/empty.xlsx").get_data()
    rows = list(openpyxl.load_workbook(io.BytesIO(empty)).active.values)
    assert rows == [tuple(names)]
    examples = [it.example for it in columns.columns(office.parts.desk.now())]
    assert examples == [it[2] for it in shown[1:]] and all(examples)
    screens.add(("mine.xlsx", workbook([list(examples)], names)))
    seen = screens.see()
    assert "With errors 0 To check 1" in words(seen) and len(seen.rows()) == 1 and not seen.wrong()


def test_rows_with_errors_have_one_count(screens: Screens) -> None:
    """Two rows of two children with one number are both counted, and both say why."""
    screens.add(("a.csv", csv_of(GOOD, LATE.replace("102", "101"))))
    seen = screens.see()
    page = words(seen)
    assert "2 rows with errors" in page and "2 rows have errors of 1 kind" in page
    assert "All 2 With errors 2 To check 0 Ready 0" in page
    assert "Another row has this number." in words(screens.see("?show=errors"))
    assert len(screens.see("?show=errors").rows()) == 2


def test_each_row_is_in_one_state(screens: Screens) -> None:
    """One that can be added and is late is to check, and not also ready."""
    wrong = GOOD.replace("101,Ada", "103,Cleo").replace("2024-10-01", "31/11/2024")
    screens.add(("a.csv", csv_of(GOOD, LATE, wrong, LATE.replace("102,Ben", "104,Dov").replace(
        "1100", "x"))))
    page = words(screens.see())
    assert "All 4 With errors 2 To check 1 Ready 1 Set aside 0" in page
    assert {it: len(screens.see(f"?show={it}").rows()) for it in ("errors", "check", "ready")} == {
        "errors": 2, "check": 1, "ready": 1}


def test_a_day_that_a_person_types_is_not_asked_about(screens: Screens) -> None:
    """It is day/month/year, as on each screen. One of the file can still be read in two ways."""
    screens.add(("a.csv", csv_of(GOOD.replace("2024-10-01", "31/11/2024"),
                                 LATE.replace("2024-11-05", "10/03/2024"))))
    seen = screens.see()
    first, second = seen.row("row 2 of a.csv"), seen.row("row 3 of a.csv")
    assert screens.save(first, day="10/03/2024").status_code == 303
    seen = screens.see()
    assert seen.wrong() == {(second, "day")}
    assert screens.see(f"?edit={first}").values(first)["day"] == "2024-03-10"
    assert seen.said(second, "day") == "10 March or 3 October 2024?"
    assert screens.save(second, day="10/03/2024", name="Ben Brooke").status_code == 303
    assert screens.see().wrong() == {(second, "day")}


def test_rows_that_are_set_aside_are_named_before_others_are_added(
    office: Site, screens: Screens,
) -> None:
    """And they are counted where a round is begun, while they can still be put back."""
    screens.add(("a.csv", csv_of(GOOD, LATE)))
    screens.withdraw(screens.see().row("row 3 of a.csv"))
    tables = Page(screens.browser.get("/applications/commit/").text).tables
    assert tables["aside"][1:] == [["row 3 of a.csv", "102", "Ben Brook", ""]]
    number = office.parts.draws.begin(HAL, None, 1, datetime.date(2025, 3, 3), "")
    head = Page(office.browser("hal", "head").get(f"/draws/{number}").text)
    assert " ".join(head.by_id["left-out"].split()) == (
        "Left out 1 application is set aside, and takes no part. Show it"
        " Left out 1 application is not in the register yet, and takes no part. Show it")


def test_the_state_of_a_round_has_one_word() -> None:
    """Recording is paused for it, and nothing is 'closed'."""
    said = [text.lower() for it in STATES.all.values()
            for text in (it.words, it.tag, it.title, it.does, it.runs)]
    assert not [it for it in said if "closed" in it or "is open" in it]


def test_a_vacant_place_has_its_act_beside_it(
    tmp_path: pathlib.Path, monkeypatch: pytest.MonkeyPatch,
) -> None:
    """The table to which the task leads has it for the head; others see who comes next."""
    monkeypatch.setattr(schools, "today", lambda: datetime.date(2025, 4, 1))
    decline = {"cmd": "decline", "child": 1, "school": "A"}
    with office_over(tmp_path, [*town(), ROUND, decline]) as office:
        for name, role, act in (("hal", "head", "Offer 1 place"), ("rita", "reader",
                                                                   "Who comes next")):
            text = office.browser(name, role).get("/schools/?order=vacant.down").text
            assert text.count("/offer") == 1
            assert f'<a href="/schools/A/offer">{act}<' in text
