"""Slips that officers make in a season, and what the application makes of each. Those that have a
test of their own elsewhere are named here too, so that this is the whole list.

| Slip | Test |
|---|---|
| A decline from a page that is older than a colleague's accept | here; test_child, test_answers |
| A letter key that confirms what is final | here |
| Enter pressed faster than the numbers are looked up | deploy/site/tests/pile.test.js; season |
| A text typed into the day instead of the first school | here; test_staging |
| An application that is wrong, twice there or not meant | test_staging |
| A year or a month that is wrong in the day of a draw | test_draws: looks wrong, a file is asked |
| A draw of a wrong day that was held | test_draws: a restore by two persons |
| An accept typed for another child | here |
| Many declines at once, of which the question names none | here |
| A correction while a draw has closed the register | here; test_draws: nobody else records |
| A correction that a colleague's correction was before | test_child |
| A reload, or another screen, with a form half typed | here; deploy/site/tests/kept.test.js |
| A session that ends with a form half typed | test_application |
| An import that was sent when the application ended | test_staging: a crash |
| A reload while a batch is being recorded, or one press more | test_answers: not recorded twice |
| Save of one row with others half typed | test_staging: all rows of a page |
| Two officers at the same rows | test_staging: two officers |
| An empty or a wrong file | here; test_staging, test_schools, test_answers |
| More children than a register takes | test_staging: the table has a limit |
| A batch of somebody who has left | test_answers |
| A head of a school who opens the office's address | here; test_schools |
| A name with a slip, typed into Find | here |
| A day in the order of another country | test_child, test_staging: days of a file |
| A reminder or a withdrawal on a day far away | test_child: warned of |
| What is final, sent again after a session or by a colleague | here |
| Attempts of a wrong password | test_application |
| A reload of the page that shows a new password | here |
| An error that stands far from its field | test_schools, test_child, test_staging |
"""
import io
import pathlib
import re
from collections.abc import Iterator
from typing import Any

import pytest
from applications import Browser, Site, office_over
from offers import PAGE, enter, offered, pile, record, sent, shown
from pages import Page, press

from office.web.people import guard


@pytest.fixture(name="office", scope="module")
def office_fixture(tmp_path_factory: pytest.TempPathFactory) -> Iterator[Site]:
    """The application over a register with offers, for all tests: each has children of its own."""
    folder: pathlib.Path = tmp_path_factory.mktemp("slips")
    with office_over(folder, offered()) as found:
        yield found


def of(office: Site, child: int) -> list[dict[str, Any]]:
    """What was sent about a child."""
    return [it for it in sent(office) if it.get("child") == child]


def kind(office: Site, child: int) -> str | None:
    """How a child has its place."""
    place = office.parts.desk.now().places.get(child)
    return place.kind if place else None


def emptied(office: Site, name: str) -> Any:
    """A browser of somebody whose batch is empty."""
    found = office.browser(name)
    piles = office.parts.piles
    piles.remove(name, [it.number for it in piles.of(name)])
    return found


def test_a_place_that_a_colleague_accepted_is_not_declined_from_an_older_page(
    office: Site
) -> None:
    """Neither from the question about the child nor from the pile."""
    jane, bo = emptied(office, "jane"), emptied(office, "bo")
    question = Page(jane.get("/children/11/decline").text)
    whole = Page(press(jane, PAGE, enter(jane, "13-"), "Record 1 answer").text)
    for child in ("11", "13"):
        enter(bo, child)
    record(bo, shown(bo), "Record 2 answers")
    late = press(jane, "/children/11/decline", question, "Decline Alpha for Ada Abel")
    assert late.status_code == 409 and "bo recorded accept at" in Page(late.text).said()
    refused = press(jane, PAGE, whole, "Record 1 answer, with that of Cyd <b>Cole</b>")
    assert refused.status_code == 409 and "has changed" in Page(refused.text).said()
    assert "bo recorded accept at" in pile(shown(jane))[0][5]
    assert [kind(office, it) for it in (11, 13)] == ["accepted", "accepted"]
    assert of(office, 11) + of(office, 13) == [
        {"cmd": "accept", "child": it, "school": "A"} for it in (11, 13)]


def test_no_letter_key_confirms_what_is_final(office: Site) -> None:
    """The question has no key and no script of its own, but the search of the head; the focus is on
    the heading or on the way back, and a name that is typed on goes nowhere.
    """
    jane = emptied(office, "jane")
    found = press(jane, PAGE, enter(jane, "26-"), "Record 1 answer")
    for text in (found.text, jane.get("/children/26/decline").text):
        assert "accesskey" not in text
        assert re.findall("<script[^>]*>", text) == ['<script src="/find.js" type="module">']
        page = Page(text)
        assert page.focus in ("heading", ""), "no key confirms"
    for entry in ("y", "Y", "yes"):
        assert jane.post(PAGE + "record", {"digest": entry}).status_code == 409
    assert not of(office, 26) and kind(office, 26) == "offered"


def test_what_was_typed_into_the_day_is_said_at_the_day(office: Site) -> None:
    """The schools that were typed too far to the left do not become another list; all else stays in
    the form, and what is added can be corrected until it is stored.
    """
    jane = office.browser("jane")
    page = Page(jane.get("/applications/add/").text)
    found = press(jane, "/applications/add/", page, "Add the child to the table", name="Mo Marsh",
                  east="10", north="20", looked_after="no", day="20/10/2024 A",
                  **{"preference-1": "B"})
    again = Page(found.text)
    assert found.status_code == 409 and again.focus == "day"
    assert again.fields["day"]["aria-invalid"] == "true"
    assert again.fields["name"]["value"] == "Mo Marsh"
    assert again.fields["preference-1"]["value"] == "B"
    done = press(jane, "/applications/add/", again, "Add the child to the table",
                 looked_after="no", day="20/10/2024")
    assert done.status_code == 303 and not [it for it in sent(office) if it["cmd"] == "apply"]
    table = Page(jane.get("/applications/?edit=1").text)
    cell = next(it for it in table.form("Set aside").values if it.startswith("preferences-"))
    saved = press(jane, "/applications/", table, "Save what was changed", **{cell: "A;B"})
    assert saved.status_code == 303
    assert "A; B" in jane.get("/applications/").text
    assert press(jane, "/applications/", Page(jane.get("/applications/").text),
                 "Set aside").status_code == 303
    assert "Nothing is left to add" in jane.get("/applications/").text
    assert 42 not in office.parts.desk.now().children


def test_an_accept_of_another_child_is_taken_back_before_it_is_recorded(office: Site) -> None:
    """The batch shows whom each answer is of, and keeps it until it is recorded by a press."""
    jane = emptied(office, "jane")
    page = enter(jane, "17", "18")
    assert [it[2] for it in pile(page)] == ["Child Number18", "Child Number17"]
    assert press(jane, PAGE, page, "Remove 17").status_code == 303
    page = shown(jane)
    assert [it[2] for it in pile(page)] == ["Child Number18"]
    record(jane, page, "Record 1 answer")
    assert not of(office, 17) and kind(office, 17) == "offered"
    assert of(office, 18) == [{"cmd": "accept", "child": 18, "school": "B"}]


def test_many_declines_are_named_each_before_one_is_recorded(office: Site) -> None:
    """With child and school; the question alone records nothing."""
    jane = emptied(office, "jane")
    page = enter(jane, "20-", "21-", "22-", "23")
    question = Page(press(jane, PAGE, page, "Record 4 answers").text)
    assert " ".join(question.by_id["final"].split()) == (
        "decline: child 20, Child Number20, at B Beta decline: child 21, Child Number21, at A Alpha"
        " decline: child 22, Child Number22, at B Beta")
    assert question.focus == "heading" and not of(office, 20)
    assert {kind(office, it) for it in (20, 21, 22, 23)} == {"offered"}


def test_a_correction_during_a_draw_keeps_what_was_typed(
    office: Site, monkeypatch: pytest.MonkeyPatch
) -> None:
    """It says who has closed the register, sends nothing, and can be sent when it is open again."""
    jane, path = office.browser("jane"), "/children/24/correct"
    page = Page(press(jane, path, Page(jane.get(path).text), "Compare with the register",
                      name="Child Numbers24").text)
    with monkeypatch.context() as patch:
        said = "Recording is paused for round 2 by hal since 10:02."
        patch.setattr(office.parts.desk, "closed", lambda: said)
        late = press(jane, path, page, "Correct the details of Child Number24")
        kept = Page(late.text)
        assert late.status_code == 409 and "Recording is paused for round 2 by hal" in kept.said()
        assert not of(office, 24)
        assert ["Name", "Child Number24", "Child Numbers24"] in kept.tables["changes"]
    assert press(jane, path, kept, "Correct the details of Child Number24").status_code == 303
    assert office.parts.desk.now().children[24].name == "Child Numbers24"


@pytest.mark.parametrize("path", [
    "/applications/", "/applications/add/", "/children/25/correct", "/flags/", "/schools/new/"])
def test_a_form_that_is_half_typed_is_kept_over_a_reload(office: Site, path: str) -> None:
    """By a script of the site, which finds the form by its mark, and its name in this tab."""
    jane = office.browser("jane")
    if path == "/applications/":
        jane.post("/applications/add/", {
            "name": "Half Typed", "east": "1", "north": "1", "looked_after": "no",
            "day": "20/10/2024", "preference-1": "A"})
    text = jane.get(path).text
    marked = re.findall(r"<form [^>]*data-kept[^>]*>", text)
    assert len(marked) == 1 and 'id="' in marked[0]
    assert '<script src="/kept.js" type="module"></script>' in text
    assert "data-kept" not in jane.get("/password").text, "no password is kept"


@pytest.mark.parametrize("path, field, data", [
    ("/applications/files", "files", b""), ("/answers/several", "sheet", b""),
    ("/schools/new/sheet", "sheet", b" \n"), ("/answers/several", "sheet", b"%PDF-1.4"),
])
def test_an_empty_or_a_wrong_file_adds_nothing_and_is_said(
    office: Site, path: str, field: str, data: bytes
) -> None:
    """No file of nothing counts as done."""
    jane = office.browser("jane")
    found = jane.post(path, {field: (io.BytesIO(data), "again.csv")},
                      content_type="multipart/form-data")
    assert found.status_code in (400, 409)
    said = Page(found.text).said()
    assert said.startswith(("Not added: ", "Nothing was added: ")), said


def test_what_is_final_names_whom_it_concerns_when_it_is_sent_again(office: Site) -> None:
    """After the end of a session, and where a colleague has signed in meanwhile in that browser: no
    button says no more than that something is sent.
    """
    jane, bo = emptied(office, "jane"), emptied(office, "bo")
    question = Page(jane.get("/children/30/decline").text)
    whole = Page(press(jane, PAGE, enter(jane, "31-"), "Record 1 answer").text)
    jane.post("/sign-out")
    button = "Decline Beta for Child Number30"
    for browser, status in ((jane, 401), (bo, 403)):
        for page, path, words in ((question, "/children/30/decline", button), (
                whole, PAGE, "Record 1 answer, with that of Child Number31")):
            late = press(browser, path, page, words)
            assert late.status_code == status and Page(late.text).buttons() == [words]
    assert not of(office, 30) and not of(office, 31)
    assert jane.sign_in("jane", office.passwords["jane"]).status_code == 303
    stale = Page(press(bo, "/children/30/decline", question, button).text)
    # (a page in tests has no values of text areas)
    typed = {it: question.form(button).values[it] for it in ("seen", "school")}
    done = press(bo, "", stale, button, **typed)
    assert done.status_code == 303 and kind(office, 30) is None


def test_a_reload_draws_no_second_password(office: Site) -> None:
    """The one that was handed over stays, and so does what its person has chosen since."""
    hal, name = office.browser("hal", "head"), office.add("una", "officer")
    question = Page(hal.get(f"/people/ask?what=reset&name={name}").text)
    button = f"Draw a new password of {name}"
    shown_once = press(hal, "/people/", question, button)
    secret = " ".join(Page(shown_once.text).by_id["secret"].split())
    late = press(hal, "/people/", question, button)
    assert late.status_code == 409 and "secret" not in Page(late.text).by_id
    assert Page(late.text).said() == "Nothing was changed yet: this is what it does now."
    assert Browser(office.app).sign_in(name, secret).status_code == 303
    done = press(hal, "/people/", Page(late.text), button)
    assert "secret" in Page(done.text).by_id, "and it can be done again by who reads that"


def test_a_head_of_a_school_is_led_to_the_own_school(office: Site) -> None:
    """By the first screen and the menu; and reads in words what is not theirs."""
    head = office.browser("alpha", "school-A")
    assert '<a href="/schools/A">Schools</a>' in head.get("/").text
    refused = head.get("/answers/")
    assert refused.status_code == 403
    assert Page(refused.text).said() == "The role school-A may not do this."
    assert 'href="/"' in refused.text and refused.headers["Content-Security-Policy"] == (
        guard.HEADERS["Content-Security-Policy"])


def test_a_name_with_a_slip_is_found(office: Site) -> None:
    """Where no name has what was typed, those that differ in one letter are shown."""
    jane = office.browser("jane")
    for typed in ("Zoe Zandre", "Zandr", "zoee zander"):
        found = jane.get(jane.get(f"/find?q={typed}").location)
        assert "Zoe Zander" in found.text, typed
    assert "Zoe Zander" not in jane.get("/find?q=Xylophone").text
