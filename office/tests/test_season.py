"""The first screen of the application, and its lists."""
import datetime
import html
import io
import pathlib
import re
from collections.abc import Callable, Iterator
from types import SimpleNamespace
from typing import Any

import openpyxl
import pytest
from applications import ROUND, Browser, Site, office_over, town
from pages import Page, plain, press, tasks

from office.core import wording
from office.core.model import OFFERED, Place
from office.web.figures.publication import FiguresStore
from office.web.frame import navigation as frame
from office.web.home import tasks as home
from office.web.home import views as season
from office.web.lists import on_screen, worklists
from office.web.lists import views as lists
from office.web.lists.register_rows import Rows, lapse_due, remind_due
from office.web.people.roles import Person
from office.web.rounds.terms import IN_ORDER, Draw, Terms

REMIND = {"cmd": "remind", "child": 1, "school": "A", "day": "2025-03-18"}
HAL = Person("hal", "head")


@pytest.fixture(name="office")
def office_fixture(tmp_path: pathlib.Path) -> Iterator[Site]:
    """The application over a register after its first round: A has 1 and 2, B has 3, and 4 none."""
    with office_over(tmp_path, [*town(), ROUND]) as found:
        yield found


def on(monkeypatch: pytest.MonkeyPatch, day: str) -> None:
    """Makes a day today."""
    for it in (season, lists):
        monkeypatch.setattr(it, "today", lambda: datetime.date.fromisoformat(day))


def test_the_supervisor_draws_only_lots_that_a_draw_waits_for(tmp_path: pathlib.Path) -> None:
    """Before a draw is begun it can be begun; the lots are drawn when it waits for them."""
    with office_over(tmp_path, town()) as office:
        register, today = office.parts.desk.now(), datetime.date(2024, 11, 1)
        terms = Terms(1, None, 1, datetime.date(2025, 3, 3))

        def due(draw: Draw | None) -> list[str]:
            turn = frame.turn(draw) if draw else ""
            found = home.tasks(register, today, home.Known(draw, turn))
            return [it.hint for title, rows in found for it in rows if title != "Not yet"]

        assert due(None) == [
            "The offer day is Monday, 3 March 2025. The supervisor draws 8 lots."]
        for state in IN_ORDER:
            draw = Draw(
                1, "round 1", terms, state, 1, None, None, "", {}, {}, "", "", "", "", (), None, "")
            turn = {"lots": "The supervisor has the lots to draw and to seal.",
                    "rehearsed": "A second person has to confirm it."}
            assert due(draw) == [turn.get(state, "A head of the office goes on with it.")]


def test_rows_that_a_round_would_leave_out_come_before_it(tmp_path: pathlib.Path) -> None:
    """Those to correct and those that are set aside, also once the round is late."""
    with office_over(tmp_path, town()) as office:
        register, known = office.parts.desk.now(), home.Known(rows=2, withdrawn=3)
        for day in (datetime.date(2024, 11, 1), datetime.date(2025, 3, 4)):
            found = [it for _, rows in home.tasks(register, day, known) for it in rows]
            assert [(it.title, it.state) for it in found[:2]] == [
                ("Correct applications, and add them to the register", "2 rows"),
                ("Put back what a family still wants", "3 rows")]
            assert found[2].title == "Run the first round"


def test_a_season_goes_step_by_step(
    tmp_path: pathlib.Path, monkeypatch: pytest.MonkeyPatch,
) -> None:
    """What is due, what can be done, and what is done, by when."""
    with office_over(tmp_path, []) as office:
        rita = office.browser("rita", "reader")

        def found(day: str) -> dict[str, list[tuple[str, str]]]:
            on(monkeypatch, day)
            return {group: [(title, state) for title, _, state in rows]
                    for group, rows in tasks(rita.get("/").text).items()}

        round_1 = "Run the first round"
        assert found("2024-09-01") == {
            "Due now": [("Add the schools", "No school yet")],
            "When you are ready": [("Add the applications that have come in",
                                    "Closes in 60 days")],
            "Not yet": [(round_1, "From 1 November 2024")]}
        assert "No school is in the register yet" in rita.get("/schools/").text
        for command in town():
            assert office.parts.desk.send(HAL, command).is_done, command
        assert found("2024-10-31") == {
            "When you are ready": [("Add the applications that have come in", "Closes today")],
            "Not yet": [(round_1, "From 1 November 2024")],
            "Done": [("Add the schools", "Done")]}
        done = [("Add the schools", "Done"), ("Add the applications", "Done")]
        assert found("2024-11-01") == {
            "When you are ready": [(round_1, "Offer day in 122 days")], "Done": done}
        assert found("2025-03-03")["Due now"] == [(round_1, "Offer day today")]
        assert found("2025-03-04")["Due now"] == [(round_1, "Offer day 1 day ago")]
        assert office.parts.desk.send(HAL, ROUND, draw=True).is_done
        remind, lapse, end = ("Remind families who do not answer",
                              "Withdraw offers that stay unanswered", "End the season")
        last = (end, "From 1 January 2026")
        done.append(("Run round 1", "Done"))
        # (on the last day of the answer nothing is due yet)
        for day in ("2025-03-16", "2025-03-17"):
            assert found(day) == {
                "Not yet": [(remind, "From 18 March 2025"), last], "Done": done}
        remind = "Remind families who have not answered"
        assert found("2025-03-18") == {
            "Due now": [(remind, "3 due")], "Not yet": [last], "Done": done}
        assert office.parts.desk.send(HAL, REMIND).is_done
        for day in ("2025-03-18", "2025-04-01"):
            assert found(day) == {"Due now": [(remind, "2 due")],
                                  "Not yet": [(lapse, "From 2 April 2025"), last], "Done": done}
        assert found("2025-04-02")["Due now"] == [(remind, "2 due"), (lapse, "1 due")]
        for child, code in ((1, "A"), (3, "B")):
            command = {"cmd": "accept", "child": child, "school": code}
            assert office.parts.desk.send(HAL, command).is_done
        command = {"cmd": "decline", "child": 2, "school": "A"}
        assert office.parts.desk.send(HAL, command).is_done
        done.append(("Record the answers", "Done"))
        assert found("2025-04-01") == {
            "When you are ready": [("Offer 1 place from waiting lists", "Ready")],
            "Not yet": [last], "Done": done}
        assert found("2026-01-02") == {"Due now": [(end, "Due")], "Done": done}


def test_what_is_to_be_done_beside_the_round_is_named(
    tmp_path: pathlib.Path, monkeypatch: pytest.MonkeyPatch,
) -> None:
    """In its time, for who does it, and until it is done."""
    with office_over(tmp_path, town()) as office:
        hal, jane = office.browser("hal", "head"), office.browser("jane")
        rita = office.browser("rita", "reader")

        def found(browser: Browser, day: str) -> dict[str, str]:
            on(monkeypatch, day)
            return {title: state for group, rows in tasks(browser.get("/").text).items()
                    for title, _, state in rows if group != "Done"}

        plans, addresses = "Record the EHC plans", "Add addresses for letters"
        assert plans not in found(jane, "2024-10-31")
        assert found(jane, "2024-11-01") == {
            plans: "0 so far", addresses: "4 missing",
            "Run the first round": "Offer day in 122 days"}
        head = found(hal, "2024-11-01")
        assert head["Add a supervisor"] == "Nobody yet" and "Add a second person" not in head
        assert head["Type the office’s name and address"] == "Missing"
        office.add("sup", "supervisor")
        office.parts.people.lock("jane", True)
        head = found(hal, "2024-11-01")
        assert head["Add a second person"] == "Nobody yet" and "Add a supervisor" not in head
        office.parts.people.lock("jane", False)
        assert office.parts.desk.send(HAL, ROUND, draw=True).is_done
        jane = office.browser("jane")
        after = {
            addresses: "4 missing", "Record answers as they come in": "3 open",
            "Find a school for each child without a place": "1 child",
            "Publish the figures of round 1": "Not downloaded"}
        shown = found(jane, "2025-03-03")
        assert {it: shown[it] for it in after} == after and plans not in shown
        assert not {*after} & {*found(rita, "2025-03-03")}
        assert "Publish the figures of round 1" not in found(jane, "2025-03-02")
        figures = FiguresStore(office.parts.store)
        figures.take("jane", figures.add("jane", b"", {"round": 1}))
        rows = {it: ["1 Low Street"] for it in range(1, 5)}
        letters = office.parts.letters.addresses
        assert letters.save(Person("jane", "officer"), rows, False, letters.digest())
        assert {*shown} - {*found(jane, "2025-03-03")} == {
            addresses, "Publish the figures of round 1"}
        terms = Terms(2, "A", 1, datetime.date(2025, 4, 1))
        undone = Draw(2, "the offer of 1 place at Alpha", terms, "restored", 1, None, None, "ab",
                      {}, {}, "", "", "", "", (), None, "")
        assert [it.title for it in home.of_undone([undone], office.parts.desk.now())] == [
            "Run the offer of 1 place at Alpha again"]


def test_nothing_is_due_on_a_day_on_which_a_family_may_answer() -> None:
    """An offer of 3 March and one that was reminded of on 20 March: the last days of their answers
    are 17 March and 3 April, and the lists and the screens begin after them.
    """
    register: Any = SimpleNamespace(
        places={1: Place("A", OFFERED, datetime.date(2025, 3, 3)),
                2: Place("B", OFFERED, datetime.date(2025, 3, 4), datetime.date(2025, 3, 20))},
        children={1: SimpleNamespace(name="Ada"), 2: SimpleNamespace(name="Ben")})

    def due(made: Callable[[Any, datetime.date], Rows], day: str) -> Rows:
        return made(register, datetime.date.fromisoformat(day))[1:]

    assert due(remind_due, "2025-03-17") == due(lapse_due, "2025-04-03") == []
    assert due(remind_due, "2025-03-18") == [[1, "A", "2025-03-03", "2025-03-18", "Ada"]]
    assert due(lapse_due, "2025-04-04") == [[2, "B", "2025-03-20", "2025-04-04", "Ben"]]
    assert [str(it) for it in home.last_days(register)] == ["2025-03-17", "2025-04-03"]
    assert [wording.deadline(it) for it in register.places.values()] == [
        "The last day to answer is 17 March 2025; from the next day a reminder is due.",
        "The last day to answer is 3 April 2025; from the next day the offer may be withdrawn."]


def test_each_task_leads_to_its_screen(office: Site, monkeypatch: pytest.MonkeyPatch) -> None:
    """If a person may do it there; and each number to its list."""
    on(monkeypatch, "2025-03-18")
    jane, rita = office.browser("jane"), office.browser("rita", "reader")
    for browser in (jane, rita):
        page = Page(browser.get("/").text)
        links = [it for it in page.stops if it.startswith("/")]
        for it in links:
            found = browser.get(it)
            # (where all who are due are ticked it leads to the question about them)
            if it == "/notices/remind":
                found = browser.get(found.location)
            assert found.status_code == 200, it
        assert {"/lists/no-answer", "/lists/vacancies", "/lists/unplaced"} <= {*links}
        assert ("/notices/remind" in links) == (browser is jane)


def test_the_first_screen_says_how_the_season_stands(office: Site) -> None:
    """Worked out by hand of the four children: 1 and 2 had A, 3 has B, 4 has none; 2 declines."""
    command = {"cmd": "decline", "child": 2, "school": "A"}
    assert office.parts.desk.send(HAL, command).is_done
    command = {"cmd": "accept", "child": 1, "school": "A"}
    assert office.parts.desk.send(HAL, command).is_done
    office.browser("bo")
    rita = office.browser("rita", "reader")
    office.parts.desk.closed = lambda: "Recording is paused for round 2 by hal since 10:02."
    page = Page(rita.get("/").text)
    assert page.text.count("Recording is paused for round 2 by hal since 10:02.") == 1
    assert "bo, rita" in page.text
    text = html.unescape(re.sub(r"<[^>]*>|\s+", " ", page.text))
    for words in ("Applications 4", "Offers not answered 1", "Vacant places 1",
                  "Children without a place 2", "Accepted 1 33.3%", "Not answered 1 33.3%",
                  "Declined or withdrawn 1 33.3%", "First preference 1 25.0%",
                  "Second 1 25.0%", "No place 2 50.0%", "1 place is vacant, at 1 school."):
        assert re.search(rf"\b{re.sub(' ', ' +', re.escape(words))}(?![0-9])", text), words
    assert [it[1:] for it in page.tables["places-table"][1:]] == [
        ["2", "1", "1", "2"], ["1", "1", "0", "2"]]


def test_the_main_button_is_what_can_be_done_now(
    office: Site, monkeypatch: pytest.MonkeyPatch,
) -> None:
    """While recording is paused it is what a draw waits for, if that is for the person."""
    hal = office.browser("hal", "head")

    def main() -> list[str]:
        return re.findall(r'<a class="button primary"[^>]*>([^<]*)<', hal.get("/").text)

    assert main() == ["Record answers"]
    office.parts.desk.closed = lambda: "Recording is paused for round 2 by hal since 10:02."
    assert main() == [] and ">Record answers</a>" in hal.get("/").text
    terms = Terms(2, None, 2, datetime.date(2025, 3, 10))
    draw = Draw(
            2, "round 2", terms, "lots", 1, None, None, "", {}, {}, "", "", "", "", (), None, "")
    monkeypatch.setattr(season, "known", lambda *_: home.Known(draw, button="Try it on a copy"))
    assert main() == ["Try it on a copy"]


def test_what_colleagues_did_is_in_the_words_of_activity(office: Site) -> None:
    """Each by itself; several of one kind are one line, with their number."""
    jane = office.browser("jane", "officer")
    history = office.parts.history
    for child, school in ((1, "A"), (2, "A"), (3, "B")):
        command = {"cmd": "accept", "child": child, "school": school}
        sent = history.add("jane", "sends", {"command": command})
        history.add("jane", "answer", {"of": sent.number, "answer": {"done": True}})
    history.add("jane", "took a file", {"of": "the list All children"})
    history.add("jane", "added a note", {"child": 4, "note": 1})
    page = jane.get("/").text
    card = page[page.index('<section class="card " id="work"'):].split("</section>")[0]
    shown = [html.unescape(it) for it in re.findall("<bdi>(.*?)</bdi>", card)]
    assert shown == ["Added a note on Dai O'Dare (4)", "Downloaded the list All children",
                     "Recorded answers", "3 in a row"]
    activity = html.unescape(jane.get("/activity/").text)
    assert shown[0] in activity and shown[1] in activity


def test_every_list_of_the_office_is_there(office: Site, monkeypatch: pytest.MonkeyPatch) -> None:
    """But for a child's own screen, the search, and the line for a terminal; none says how a
    terminal has it.
    """
    on(monkeypatch, "2025-03-20")
    rita = office.browser("rita", "reader")
    assert set(on_screen.NAMES) == set(worklists.WORKLISTS) - {"amend"}
    assert set(on_screen.TITLES) == set(on_screen.NAMES)
    page = rita.get("/lists/").text
    given = {"lots": "?draw=1", "moved": "?draw=1", "round-report": "?round=1",
             "child": "?child=1", "find": "?text=Ada"}
    for name in on_screen.NAMES:
        assert f'href="/lists/{name}"' in page
        found = rita.get(f"/lists/{name}{given.get(name, '')}")
        assert found.status_code == 200 and "--" not in plain(found.text), name
        assert "Choose what the list is of" not in found.text
        book = rita.get(f"/lists/{name}/workbook{given.get(name, '')}")
        assert book.status_code == 200 and openpyxl.load_workbook(io.BytesIO(book.data)), name
    assert "--" not in plain(page) and "admissions-" not in page


def test_a_list_has_its_rows_and_options(office: Site, monkeypatch: pytest.MonkeyPatch) -> None:
    """Worked out by hand of the four children of the register."""
    on(monkeypatch, "2025-03-17")
    rita = office.browser("rita", "reader")

    def rows(path: str) -> list[list[str]]:
        page = Page(rita.get(f"/lists/{path}").text)
        # (on paper the first row is the title; and some have a column of ticks)
        found = [it for it in next(iter(page.tables.values())) if len(it) > 1]
        return [it[1:] for it in found] if found[0][0] == "Tick" else found

    assert rows("unplaced") == [["Child", "Name", "Applied", "Preferences", "Waiting"],
                                ["4", "Dai O'Dare", "31 October 2024", "A;B", "A;B"]]
    assert rows("list?school=B")[1:] == [
        ["B", "1", "4", "Dai O'Dare", "1", "ranked by distance alone", "400", "2"]]
    assert [it[:3] for it in rows("list")[1:]] == [["A", "1", "3"], ["A", "2", "4"],
                                                   ["B", "1", "4"]]
    assert rows("remind-due")[1:] == [] and rows("remind-due?day=17/3/2025")[1:] == []
    due = [["1", "A"], ["2", "A"], ["3", "B"]]
    for day in ("18 March 2025", "18/3/2025", "2025-03-18"):
        assert [it[:2] for it in rows(f"remind-due?day={day}")[1:]] == due
    found = rita.get("/lists/remind-due?day=18/3/2025").text
    page = Page(found)
    assert "Reminders that are due, Tuesday, 18 March 2025: 3 rows, as of " in found
    assert page.stops.count("/children/1") == 1 and page.stops.count("/schools/A") == 2
    assert rows("round-report?round=1")[1:] == [
        ["1", "Ada Abel", "A", "offered"], ["2", "Ben Bell", "A", "offered"],
        ["3", "Cyd <b>Cole</b>", "B", "offered"], ["4", "Dai O'Dare", "", "none"]]
    assert "<b>Cole" not in rita.get("/lists/round-report?round=1").text


WRONG = [
    ("remind-due?day=soon", "day"), ("lots?draw=2", "draw"), ("lots?draw=x", "draw"),
    ("round-report?round=<script>", "round"), ("list?school=ZZ", "school"),
]


@pytest.mark.parametrize("path, field", WRONG)
def test_a_wrong_option_is_said_at_its_field(office: Site, path: str, field: str) -> None:
    """And there is no list, nor an Excel file."""
    rita = office.browser("rita", "reader")
    found = rita.get(f"/lists/{path}")
    page = Page(found.text)
    assert found.status_code == 400 and page.error(field) and not page.tables
    assert "<script>" not in found.text
    name, _, given = path.partition("?")
    assert rita.get(f"/lists/{name}/workbook?{given}").status_code == 400


def test_a_list_waits_for_its_options(office: Site) -> None:
    """Nothing is wrong before one is chosen."""
    rita = office.browser("rita", "reader")
    for name in ("lots", "moved", "round-report"):
        found = rita.get(f"/lists/{name}")
        assert found.status_code == 200 and "Choose what the list is of." in found.text
    assert rita.get("/lists/amend").status_code == 404
    assert rita.get("/lists/..%2fx").status_code == 404


def test_only_who_reads_everything_has_lists(office: Site) -> None:
    """Not the head of a school, nor a supervisor, nor an administrator."""
    for name, role in (("ann", "school-A"), ("sue", "supervisor"), ("adm", "administrator")):
        browser = office.browser(name, role)
        for path in ("/lists/", "/lists/children", "/lists/children/workbook", "/find"):
            assert browser.get(path).status_code == 403, (role, path)


def test_a_workbook_of_a_list_has_texts_alone(tmp_path: pathlib.Path) -> None:
    """A name that a spreadsheet would run is a text; a day is a day."""
    commands: list[dict[str, Any]] = [
        {**it, "name": "=1+1"} if it["cmd"] == "add_child" and it["child"] == 1 else it
        for it in town()]
    with office_over(tmp_path, commands) as office:
        found = office.browser("rita", "reader").get("/lists/children/workbook")
    page = openpyxl.load_workbook(io.BytesIO(found.data))["children"]
    assert [it.value for it in page[2]][:3] == [1, "=1+1", datetime.datetime(2024, 10, 31)]
    assert page["B2"].data_type == "s" and page["B2"].quotePrefix


def test_a_step_that_begins_with_a_file_has_its_form_on_the_first_screen(
    tmp_path: pathlib.Path, monkeypatch: pytest.MonkeyPatch,
) -> None:
    """The sheet of schools while there is no school, the files of applications after it until their
    closing day, and none after the first round; for who may record alone. The file arrives on the
    screen that it is for.
    """
    on(monkeypatch, "2024-10-01")
    first = "school,name,pan,east,north,criteria\nA,Ash,2,0,0,sibling\n"
    then = ("child,name,east,north,looked_after,flags,siblings,day,preferences\n"
            "9,Ida Fox,1,2,false,,,2024-09-30,A\n")
    steps_of: tuple[tuple[list[dict[str, Any]], str, str, str, str], ...] = (
        ([], "/schools/new/sheet", "sheet", first, "A <bdi>Ash</bdi>: admission number 2"),
        (town(), "/applications/files", "files", then, "lines.csv is added: 1 row."),
        ([*town(), ROUND], "", "", "", ""))
    for at, (commands, action, field, text, said) in enumerate(steps_of):
        folder = tmp_path / str(at)
        folder.mkdir()
        with office_over(folder, commands) as office:
            hal, rita = office.browser("hal"), office.browser("rita", "reader")
            own = {it.action for it in Page(hal.get("/").text).forms if not it.is_frame}
            assert own == ({action} if action else set())
            assert all(it.is_frame for it in Page(rita.get("/").text).forms)
            if not action:
                continue
            page = Page(hal.get("/").text)
            button = next(text for it in page.forms if it.action == action for text in it.buttons)
            found = press(hal, "/", page, button, **{
                field: (io.BytesIO(text.encode()), "lines.csv")})
            while found.status_code == 303:
                found = hal.get(found.location)
            assert said in " ".join(found.text.split()), found.text


def navs(text: str) -> str:
    """The menus of a page."""
    return "".join(re.findall("<nav.*?</nav>", text, re.S))


def test_each_page_marks_its_group_and_leads_back(office: Site) -> None:
    """Also below a screen of the menu, and to the screen above."""
    jane = office.browser("jane")
    for path, marked, back in (
            ("/", [("/", "page")], ""),
            ("/schools/", [("/schools/", "true"), ("/schools/", "page")], ""),
            ("/schools/A", [("/schools/", "true"), ("/schools/", "true"),
                            ("/schools/A", "page")], "/schools/"),
            ("/lists/unplaced", [("/find", "true"), ("/lists/unplaced", "page")], ""),
            ("/lists/draws", [("/lists/", "true"), ("/lists/", "true")], "/lists/"),
            ("/children/1/accept", [("/find", "true"), ("/find", "true")], "/children/1"),
            ("/password", [], "")):
        text = jane.get(path).text
        found = re.findall('href="([^"]*)" aria-current="([a-z]*)"', navs(text))
        assert found == marked, path
        link = re.search('<p class="back"><a href="([^"]*)"', text)
        assert (link[1] if link else "") == back, path


def test_the_menu_has_what_a_person_may_see(office: Site) -> None:
    """By role, on the first screen of each group; and each can sign out."""
    screens = {"rita": ("reader",
                        "/find /lists/unplaced /schools/ /flags/ /draws/ /notices/ /copies/",
                        "/applications/ /answers/ /activity/ /people/ /schools/new/"),
               "jane": ("officer", "/applications/ /schools/new/ /answers/ /activity/ /season-end/",
                        "/people/ /lots/"),
               "sue": ("supervisor", "/lots/", "/schools/ /find /answers/ /lists/ /flags/")}
    for name, (role, seen, unseen) in screens.items():
        browser = office.browser(name, role)
        groups = re.findall('href="([^"]*)"', navs(browser.get("/password").text))
        text = "".join(navs(browser.get(it).text) for it in groups)
        for path in seen.split():
            assert f'href="{path}"' in text, (role, path)
        for path in unseen.split():
            assert f'href="{path}"' not in text, (role, path)
        text = browser.get("/password").text
        page = Page(text)
        assert press(browser, "/", page, "Sign out").status_code == 303
