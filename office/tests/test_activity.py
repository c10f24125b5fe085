"""The activity: all that was done in words, found by words, kind, person and day, with what came of
it.
"""
import datetime
import io
import time
from collections.abc import Iterator
from typing import Any

import openpyxl
import pytest
from applications import ROUND, Browser, Site, child, office_over, town
from pages import Page

from office.core import command_kinds, wording
from office.web.frame.views import activity
from office.web.people.roles import Person
from office.web.register import entry_words
from office.web.register.entry_words import Names
from office.web.register.history import SENDS, Entry

HEADER = "child,name,east,north,looked_after,flags,siblings,day,preferences\n"
# a part of a text, and the seconds of CPU time that all of it may take
QUOTES, SECONDS = '" to "', 2


@pytest.fixture(name="office", scope="module")
def office_fixture(tmp_path_factory: pytest.TempPathFactory) -> Iterator[Site]:
    """The application after a round, in which two officers have recorded answers."""
    with office_over(tmp_path_factory.mktemp("activity"), [*town(), ROUND]) as found:
        bo = found.browser("bo")
        for who, number, school in (("jane", 1, "A"), ("bo", 3, "B"), ("bo", 3, "B")):
            found.parts.desk.send(Person(who, "officer"), {
                "cmd": "accept", "child": number, "school": school})
        bo.post("/flags/", {"flag-2": "<b>medical</b> need", "seen": "{}"})
        eve: dict[str, Any] = {**child(5, "Eve", 500), "siblings": ["A"]}
        moved: dict[str, Any] = {
            **eve, "cmd": "amend", "name": "Eve Eden", "flags": [2], "siblings": []}
        for it in (eve, {**moved, "present": ""}):
            found.record("jane", it)
        yield found


def rows(browser: Browser, asked: str = "") -> list[list[str]]:
    """The rows that are shown, without their moments."""
    return [it[1:] for it in Page(browser.get(f"/activity/{asked}").text).tables["entries"][1:]]


def said(entry: Entry, names: Names = Names()) -> str:
    """What an entry says, with what is beside it."""
    more = entry_words.more_of(entry, names, None)
    return f"{entry_words.title_of(entry, names)}{f': {more}' if more else ''}"


def test_the_last_that_was_done_is_first_with_what_came_of_it(office: Site) -> None:
    """In words, with the names of children and schools. What the register refused is not said to be
    done, and a name of people is text. Of a correction only the fields that changed are named.
    """
    rita = office.browser("rita", "officer")
    shown = [it for it in rows(rita) if it[0] in ("bo", "jane") and it[1] != "Signed in"]
    assert [it[:2] for it in shown] == [
        ["jane", "Corrected the details of Eve Eden (5) Name: Eve → Eve Eden;"
         " Verified reasons: none → <b>medical</b> need; Siblings at: A → none"],
        ["jane", "Added the child Eve Eden (5) Name: Eve; East, in metres: 0;"
         " North, in metres: 500; Siblings at: A"],
        ["bo", "Changed the verified reasons Reason 2: none → <b>medical</b> need"],
        ["bo", "Accepted the place of Cyd <b>Cole</b> (3) at Beta"],
        ["bo", "Accepted the place of Cyd <b>Cole</b> (3) at Beta"],
        ["jane", "Accepted the place of Ada Abel (1) at Alpha"]]
    refused = "Not done Child 3 has no open offer at B"
    assert [it[2].partition(":")[0] for it in shown] == [
        "Done", "Done", "", refused, "Done", "Done"]
    text = rita.get("/activity/").text
    assert "<b>medical" not in text and "<b>Cole" not in text


def test_it_is_found_by_words_person_kind_and_day(office: Site) -> None:
    """One of these, or several; and what cannot be a day is said at its field."""
    rita = office.browser("rita", "officer")
    one = ["jane", "Accepted the place of Ada Abel (1) at Alpha", "Done"]
    for asked in ("?q=1", "?q=abel", "?q=ABEL+accepted", "?q=alpha+jane+place",
                  "?who=jane&kind=answers"):
        assert rows(rita, asked) == [one], asked
    assert [it[0] for it in rows(rita, "?q=3")] == ["bo", "bo"]
    assert rows(rita, "?q=1&who=bo") == [] and rows(rita, "?q=13") == []
    assert [it[1] for it in rows(rita, "?q=medical")] == [
        "Changed the verified reasons Reason 2: none → <b>medical</b> need"]
    assert {it[0] for it in rows(rita, "?who=bo")} == {"bo"}
    assert {"bo", "jane"} <= {it[0] for it in rows(rita)}
    today = datetime.date.today()
    tomorrow, yesterday = (today + datetime.timedelta(it) for it in (1, -1))
    for asked in (f"?since={today}", f"?until={today:%d/%m/%Y}", f"?since={today}&until={today}"):
        assert rows(rita, asked) == rows(rita), asked
    assert rows(rita, f"?since={tomorrow}") == [] == rows(rita, f"?until={yesterday}")
    found = rita.get("/activity/?since=soon")
    assert found.status_code == 400 and "17 March 2025" in Page(found.text).error("since")


def test_the_name_of_an_account_stays_as_it_is_written(office: Site) -> None:
    """Also where a sentence begins with it; another word begins with a capital."""
    with office.app.app_context():
        for text, wanted in (
                ("bo has saved this meanwhile", "bo has saved this meanwhile."),
                ("bo's batch is empty", "bo's batch is empty."),
                ("both have one", "Both have one."), ("", ""), ("bo", "bo.")):
            assert wording.sentence(text) == wanted
    assert wording.sentence("bo has saved this") == "Bo has saved this."


def test_a_day_begins_on_the_clock_of_the_machine(
    office: Site, monkeypatch: pytest.MonkeyPatch
) -> None:
    """In summer an hour before that of the history, which is in UTC."""
    monkeypatch.setenv("TZ", "Europe/London")
    time.tzset()
    try:
        late, next_day = ("2025-06-14T22:59:59.000+00:00", "2025-06-14T23:00:00.000+00:00")
        with office.app.test_request_context("/activity/?since=15/6/2025&until=15/6/2025"):
            tests = activity.asked().tests(None)
        for at, wanted in ((late, False), (next_day, True), ("2025-06-15T22:59:59", True),
                           ("2025-06-15T23:00:00", False)):
            entry = Entry(1, at, "jane", "signed in", {})
            assert all(it(entry) for it in tests) is wanted, at
        assert wording.moment(next_day) == "15 June 2025, 00:00"
    finally:
        monkeypatch.undo()
        time.tzset()


def test_what_is_empty_is_left_out() -> None:
    """And what was there before a correction is not said where nobody knows it."""
    amend = {"cmd": "amend", "child": 5, "name": "Eve", "looked_after": False, "flags": [],
             "siblings": ["A", "B"], "present": "", "home": None}
    cases: list[tuple[str, dict[str, Any], str]] = [
        (SENDS, {"command": amend},
         "Corrected the details of child 5: Name: Eve; Siblings at: A, B"),
        (SENDS, {"line": "{x}"}, "Sent a line that is no command: Line: {x}"),
        (SENDS, {"import": f"{HEADER}1,Al,1,1,no,,,,A\n2,Bo,1,1,no,,,,A\n"},
         "Added applications to the register: 2 applications"),
        ("signed in", {}, "Signed in"),
        ("named flags", {"before": {}}, "Changed the verified reasons"),
        ("corrected an application",
         {"row": "row 4 of a.csv", "number": "12", "day": '"" to "2024-10-20"'},
         "Corrected row 4 of a.csv, child 12: Day: none → 2024-10-20"),
        ("audited", {"draw": 2, "copies": [1, 2], "wrong": []}, "Audited round or offer 2"),
        ("gave the pairs to the supervisor", {"for": "round 1", "id": 1, "pairs": 6046},
         "Asked the supervisor for the lots of round 1: Lots: 6,046"),
        ("added applications", {"file": "a.csv", "rows": 1330, "digest": "ab"},
         "Added the file a.csv with 1,330 rows"),
        ("gave up", {"copy": 3, "restore": 1}, "Cancelled the restore of copy 3"),
        ("gave up", {"for": "round 2", "id": 1, "reason": "a slip"},
         "Cancelled round 2: Reason: a slip"),
        ("recorded letters as sent",
         {"for": "{child}", "day": "2025-03-04", "children": [5, 6], "again": []},
         "Recorded letters as sent on 4 March 2025: {child}, 2 children"),
        ("did {x} what [nobody] knows", {"person": "bo", "digest": "ab", "told": "x"},
         "Did x what nobody knows: Person: bo")]
    for what, about, wanted in cases:
        assert said(Entry(1, "", "jane", what, about)) == wanted


def test_each_step_that_is_recorded_has_words() -> None:
    """None is shown by its own name of the history, which the application has in its sources."""
    told = {name: (it.work, it.told) for name, it in command_kinds.KINDS.items()}
    for key, (work, form) in {**told, **entry_words.STEPS}.items():
        assert work in command_kinds.WORK and form[0].isupper(), key
        filled = said(Entry(1, "", "jane", key, {"child": 5, "restore": 1, "copy": 2}))
        assert "{" not in filled and "[" not in filled, filled


def test_a_text_that_looks_like_very_many_changes_is_shown_at_once() -> None:
    """An entry can never be deleted, and each look at it would take this time again."""
    text, begin = f"{QUOTES * 20_000}x", time.process_time()
    assert entry_words.text_of(text) == text and time.process_time() - begin < SECONDS
    assert entry_words.text_of('"a" to "b" to "c"') == 'a" to "b → c'
    assert entry_words.text_of('"" to ""') == "none → none"


def test_what_a_program_sends_is_shown_in_short(office: Site) -> None:
    """However much of it the register has refused: each look at it would take the time again."""
    portal, rita = office.program("portal"), office.browser("rita", "officer")
    names = [f"S{it}" for it in range(90_000)]
    sent: list[dict[str, Any]] = [
        child(91, "x" * 900_000, 1), {**child(92, "Ann", 1), "siblings": names},
        {**child(93, "Bo", 1), "siblings": ["A"] * 90_000},
        {"cmd": "apply", "child": 1, "day": "2024-10-20", "preferences": names}]
    begin = time.process_time()
    for it in sent:
        assert portal.command(it).status_code in (400, 409)
    shown = rita.get("/activity/?who=portal")
    assert shown.status_code == 200 and len(shown.data) < 100_000
    assert time.process_time() - begin < 10 * SECONDS


def test_words_are_looked_for_in_each_entry_together(office: Site) -> None:
    """And no more than on other screens, however long the address is."""
    rita = office.browser("rita", "officer")
    assert rows(rita, "?q=signed+rita+in") and not rows(rita, "?q=signed+nowhere+in")
    assert rows(rita, f"?q={'+'.join(['signed'] * 40)}+nowhere")


def test_an_import_and_changes_of_a_row_are_found_by_the_child(office: Site) -> None:
    """An import of the rows that it has, and what was changed of a row in the table before."""
    desk, history = office.parts.desk, office.parts.history
    row = "12,Fay 3,1,2,no,,,2024-10-20,A;B\n"
    assert desk.send_import(Person("jane", "officer"), f"{HEADER}{row}".encode()).is_done
    history.add("bo", "corrected an application",
                {"row": "row 4 of a.csv", "number": "12", "east": '"2" to "1"'})
    rita = office.browser("rita", "officer")
    assert [it[1] for it in rows(rita, "?q=12")] == [
        "Corrected row 4 of a.csv, Fay 3 (12) East, in metres: 2 → 1",
        "Added applications to the register 1 application"]
    for text in ("2", "x", "112"):
        assert not [it for it in rows(rita, f"?q={text}") if "pplication" in it[1]], text


def test_many_entries_have_pages_and_an_order(
    office: Site, monkeypatch: pytest.MonkeyPatch
) -> None:
    """By the links of the table; an Excel file has all of them, and who takes it is on record."""
    rita = office.browser("rita", "officer")
    monkeypatch.setattr(activity, "SHOWN", 2)
    page = Page(rita.get("/activity/?who=bo").text)
    everything = [it for at in range(1, 9) for it in rows(rita, f"?who=bo&page={at}")]
    assert len(page.tables["entries"]) == 3 and "/activity/?who=bo&page=2" in page.stops
    oldest = rows(rita, "?who=bo&order=when")
    assert oldest[0][1] == "Signed in" != rows(rita, "?who=bo")[0][1] and len(everything) > 4
    found = rita.get("/activity/workbook?who=bo&order=when")
    sheet = openpyxl.load_workbook(io.BytesIO(found.data)).active
    cells = [[str(it or "") for it in row] for row in sheet.iter_rows(values_only=True)]
    at = next(at for at, row in enumerate(cells) if row[:2] == ["When", "Who"])
    assert {it[1] for it in cells[at + 1:]} == {"bo"} and cells[at + 1][3] == "Signed in"
    assert ["rita", "Downloaded the activity", ""] in rows(rita, "?who=rita")
