"""A child in the application: what is shown of it, what is recorded after a question, and its
history.
"""
import datetime
import pathlib
import re
import tracemalloc
from collections.abc import Callable, Iterator
from types import SimpleNamespace
from typing import Any

import pytest
from applications import ROUND, Browser, Site, child, office_over, town
from conftest import ROOT, apply, school
from pages import Page, history, press
from register_files import Refused
from werkzeug.datastructures import MultiDict

from office.core import effects, wording
from office.core.model import CLASS, DISTANCE, LOT, NOBODY, Cutoff, Draw, Drawn, School
from office.core.senders import Ended
from office.web.children import corrections
from office.web.children import actions as children
from office.web.children.views import child as screen
from office.web.explain import reasons
from office.web.machinery.asked import MOST_CHARACTERS, MOST_KEPT, Asked
from office.web.people.roles import Person
from office.web.register.desk import LOST
from office.web.schools import flags

TODAY = datetime.date(2025, 3, 18)


@pytest.fixture(name="office")
def office_fixture(tmp_path: pathlib.Path, monkeypatch: pytest.MonkeyPatch) -> Iterator[Site]:
    """The application over a register after its first round, on the first day of reminders.
    Child 5 has flags, a sibling and no application.
    """
    monkeypatch.setattr(screen, "today", lambda: TODAY)
    eve = {**child(5, "=Eve \"<i>Eden</i>\"", 500), "flags": [2, 5], "siblings": ["A"],
           "present": "PRIM7"}
    with office_over(tmp_path, [*town(), eve, ROUND]) as found:
        yield found


def sent(office: Site) -> list[dict[str, Any]]:
    """The commands that were sent, in their order."""
    return [it.about["command"] for it in office.parts.history.entries if it.what == "sends"]


def act(browser: Browser, path: str, button: str) -> Any:
    """A question that is opened and confirmed."""
    page = Page(browser.get(path).text)
    return press(browser, path, page, button)


def test_a_name_turns_no_text_around_it(office: Site) -> None:
    """What turns the direction of a text, or is not seen, is shown by its number wherever a name is
    within a sentence that is no part of its own: in titles, headings and labels.
    """
    jane, turned = office.browser("jane"), "E\u202ev<e>\u061c\u3164"
    office.record("jane", child(9, turned, 700))
    office.record("jane", {"cmd": "apply", "child": 9, "day": "2025-03-04", "preferences": ["B"]})
    for path in ("/children/9", "/children/9/correct", "/children/9/application",
                 "/children/9/plan", "/lists/unplaced"):
        found = jane.get(path)
        assert found.status_code == 200, path
        text = re.sub("<bdi>[^<]*</bdi>|<a [^>]*>[^<]*</a>", "", found.text)
        assert "E\\u202ev&lt;e&gt;\\u061c\\u3164" in text, path
        kept = re.findall(r'<(?:title|h[1-6]|p class="paper)[^>]*>[^<]*|aria-label="[^"]*"', text)
        assert kept and not any("\u202e" in it or "\u061c" in it for it in kept), path


def test_a_child_is_shown_with_its_place_its_list_and_its_data(office: Site) -> None:
    """Child 3 has B, waits first at A, and lives 300 metres away."""
    flags.change(office.parts.store, "{}", {2: "medical need"}, lambda _: None)
    rita = office.browser("rita", "reader")
    page = Page(rita.get("/children/3").text)
    assert page.by_id["heading"] == "Child 3, Cyd <b>Cole</b>"
    assert page.by_id["place"] == (
        "The child was offered a place at Beta on 3 March 2025. There is no answer yet.")
    assert page.by_id["deadline"] == (
        "The last day to answer is 17 March 2025; from the next day a reminder is due.")
    assert page.by_id["stays"] == (
        "If the family accepts: the child stays on the waiting list of Alpha. If a place is offered"
        " there later, this place ends; a family that does not want that leaves the list.")
    assert page.tables["list"][1:] == [
        ["1. A Alpha", "Waiting list: 1 of 2", "ranked by distance alone 300 metres",
         "ranked by distance alone 200 metres", "The last child admitted lives 100 metres nearer."],
        ["2. B Beta", "offered", "ranked by distance alone 300 metres",
         "ranked by distance alone 300 metres", ""]]
    assert page.tables["map-table"][1:] == [["A", "300"], ["B", "300"]]
    assert "/schools/A/waiting?page=1#child-3" in page.stops
    assert 'id="child-3"' in rita.get("/schools/A/waiting?page=1").text
    assert page.buttons() == []
    assert not [it for it in page.stops if it.startswith("/children/3/") and "/w" not in it]
    page = Page(rita.get("/children/5").text)
    assert "medical need; reason 5" in page.text and "The child has no application." in page.text
    assert "&lt;i&gt;Eden" in page.text and "<i>Eden" not in page.text
    assert rita.get("/children/6").status_code == 404


def test_a_child_has_its_state_in_tags_and_the_likely_acts_first(
    office: Site, monkeypatch: pytest.MonkeyPatch,
) -> None:
    """A reminder is likely once it is due; what is rarely recorded is folded."""
    jane = office.browser("jane", "officer")
    open_offer, answers = "Offered, not answered", "Accept a place Decline a place"

    def shown() -> tuple[list[str], str, str]:
        page = Page(jane.get("/children/3").text)
        found = re.findall('<strong class="tag [a-z]+">([^<]*)', page.text.partition("<h2")[0])
        acts, others = (" ".join(page.by_id[it].split()) for it in ("actions", "others"))
        return found, acts, others

    monkeypatch.setattr(screen, "today", lambda: TODAY - datetime.timedelta(days=1))
    assert shown() == ([open_offer, "On 1 waiting list"], answers, (
        "More that can be recorded Record a reminder Record an EHC plan"))
    monkeypatch.setattr(screen, "today", lambda: TODAY)
    assert shown() == ([open_offer, "Reminder due", "On 1 waiting list"],
                       f"{answers} Record a reminder", (
                           "More that can be recorded Record an EHC plan"))
    page = Page(jane.get("/children/4").text)
    assert "No place" in page.text and "actions" not in page.by_id


def test_a_reason_has_few_words_and_withholds_distances() -> None:
    """For each reason of a draw. Of a child that is looked after there are no metres."""
    last = Cutoff(2, 400, 7)
    for by, wanted in (
            (CLASS, "All who were admitted met a criterion that comes before this child’s."),
            (DISTANCE, "The last child admitted lives 150 metres nearer."),
            (LOT, "As near as the last child admitted; the lot decided."),
            (NOBODY, "Nobody was newly admitted."),
            (None, "Details changed since then: see the explanation.")):
        found = reasons.why(by, last, 150)
        assert found == wanted and len(found.split()) <= 12
    assert reasons.why(DISTANCE, last, None) == "The last child admitted lives nearer."
    school = School("A", "Alpha", 1, 0, 0, ("flag:2", "sibling"))
    register: Any = SimpleNamespace(
        schools={"A": school}, outcomes={1: {3: None}}, applications={
            3: SimpleNamespace(preferences=("A",), rank=lambda code: (3, 900))},
        draws=[Draw(1, 1, None, datetime.date(2025, 3, 3))])
    for number, metres in ((0, None), (1, None), (2, 400)):
        drawn = Drawn({}, {"A": Cutoff(number, 400, 7)}, {("A", 3): CLASS})
        register.drawn = lambda _, it=drawn: it
        assert reasons.reasons(register, 3, {})["A"].metres == metres


def test_children_and_schools_are_found(office: Site) -> None:
    """By words of their names, by number and by code: the one, or a list; and suggested."""
    rita = office.browser("rita", "reader")
    for text, path in (("abel", "/children/1"), ("3", "/children/3"), ("cole cyd", "/children/3"),
                       ("Beil", "/children/2"), ("alph", "/schools/A"), ("Betta", "/schools/B")):
        assert rita.get(f"/find?q={text}").location == path, text
        assert [it[1] for it in rita.get(f"/find/near?q={text}").json or []] == [path], text
    page = Page(rita.get("/find?q=a").text)
    assert [it[0] for it in page.tables["found"][1:]] == ["1", "4"]
    assert [it[0] for it in page.tables["schools"][1:]] == ["A", "B"]
    assert rita.get("/find/near?q=a").json == [
        ["Ada Abel, child 1", "/children/1"], ["Dai O'Dare, child 4", "/children/4"],
        ["Alpha, school A", "/schools/A"], ["Beta, school B", "/schools/B"]]
    for text in ("<script>", "Xylophone"):
        page = Page(rita.get(f"/find?q={text}").text)
        assert "Nothing was found" in page.text and "<script>" not in page.text
        assert page.tables == {} and rita.get(f"/find/near?q={text}").json == []
    assert rita.get("/find").status_code == 200 and rita.get("/find/near").json == []


@pytest.mark.parametrize("role", ["supervisor", "administrator", "school-A"])
def test_who_sees_no_child_finds_none(office: Site, role: str) -> None:
    """Neither a list, nor a suggestion, nor the field."""
    browser = office.browser(role.lower(), role)
    for path in ("/find?q=abel", "/find/near?q=abel", "/find"):
        assert browser.get(path).status_code == 403, path
    assert "/find" not in browser.get("/password").text


# what each role finds at a child: (path, what is asked, the command)
ACTIONS: list[tuple[str, str, dict[str, Any]]] = [
    ("/children/3/accept", "Accept Beta for Cyd <b>Cole</b>",
     {"cmd": "accept", "child": 3, "school": "B"}),
    ("/children/3/decline", "Decline Beta for Cyd <b>Cole</b>",
     {"cmd": "decline", "child": 3, "school": "B"}),
    ("/children/3/remind?day=18/3/2025", "Record the reminder of Cyd <b>Cole</b> about Beta",
     {"cmd": "remind", "child": 3, "school": "B", "day": "2025-03-18"}),
    ("/children/3/leave?school=A", "Leave the list of Alpha for Cyd <b>Cole</b>",
     {"cmd": "leave_list", "child": 3, "school": "A"}),
    ("/children/4/plan?school=A", "Give Dai O'Dare a place at Alpha by a plan",
     {"cmd": "name_plan", "child": 4, "school": "A"}),
]


@pytest.mark.parametrize("path, button, command", ACTIONS, ids=[it[2]["cmd"] for it in ACTIONS])
def test_each_action_is_asked_by_name(
    office: Site, path: str, button: str, command: dict[str, Any],
) -> None:
    """It is recorded once, with the child as it was shown; a page from before sends nothing."""
    jane = office.browser("jane")
    page = Page(jane.get(path).text)
    assert button in page.buttons() and page.by_id["becomes"]
    assert sent(office) == []
    found = press(jane, path, page, button)
    assert found.status_code == 303 and sent(office) == [command]
    shown = Page(jane.get(found.location).text)
    assert shown.said().startswith("Recorded: ")
    who, what, more = history(shown.text)[0]
    assert (who, more) == ("jane", "")
    assert what.casefold() == shown.said()[len("Recorded: "):-1].casefold()
    again = press(jane, path, page, button)
    assert again.status_code == 409 and "jane recorded " in Page(again.text).said()
    assert sent(office) == [command]


def test_two_names_that_are_alike_are_told_apart(tmp_path: pathlib.Path, office: Site) -> None:
    """Of a school without criteria, and of one whose criteria the child does not meet."""
    said = "‘by distance (no criterion met)’ is at a school whose criteria the child does not meet"
    page = Page(office.browser("rita", "reader").get("/children/3").text)
    assert said not in page.text and "with the details of today" in page.text
    assert "the school of the child’s place" in page.text
    (tmp_path / "two").mkdir()
    commands = [school("A", pan=1, criteria=["sibling"]), school("B", pan=1), child(1, "Ada", 100),
                apply(1, ["A", "B"]),
                {"cmd": "round", "draw": 1, "day": "2025-03-03", "lots": [1, 2]}]
    with office_over(tmp_path / "two", commands) as other:
        page = Page(other.browser("rita", "reader").get("/children/1").text)
        assert [it[2] for it in page.tables["list"][1:]] == [
            "by distance (no criterion met) 100 metres", "ranked by distance alone 100 metres"]
        assert said in page.text


def test_an_accept_says_on_which_waiting_lists_the_child_stays(office: Site) -> None:
    """And the child does; one that waits nowhere has that said."""
    jane = office.browser("jane")
    page = Page(jane.get("/children/3/accept").text)
    assert page.by_id["becomes"].endswith(
        "The child stays on the waiting list of Alpha. If a place is offered there later, this"
        " place ends; a family that does not want that leaves the list.")
    act(jane, "/children/3/accept", "Accept Beta for Cyd <b>Cole</b>")
    page = Page(jane.get("/children/3").text)
    assert page.tables["list"][1][:2] == ["1. A Alpha", "Waiting list: 1 of 2"]
    assert page.tables["list"][2][:2] == ["2. B Beta", "accepted"]
    assert "stays" not in page.by_id
    assert "stays" not in Page(jane.get("/children/1").text).by_id
    assert Page(jane.get("/children/1/accept").text).by_id["becomes"].endswith(
        "The child is on no waiting list.")


def test_a_withdrawal_needs_a_reminder(office: Site, monkeypatch: pytest.MonkeyPatch) -> None:
    """And a question of it is no page where there is none."""
    jane = office.browser("jane")
    found = jane.get("/children/3/lapse")
    said = "This cannot be recorded: The child was offered a place at Beta on 3 March 2025."
    assert found.status_code == 409 and Page(found.text).said().startswith(said)
    found = act(jane, "/children/3/remind", "Record the reminder of Cyd <b>Cole</b> about Beta")
    page = Page(jane.get(found.location).text)
    assert page.by_id["deadline"] == (
        "The last day to answer is 1 April 2025; from the next day the offer may be withdrawn.")
    path = "/children/3/lapse?day=2 April 2025"
    early = Page(jane.get(path).text)
    assert early.error("day") == "today or an earlier day" and "confirm" not in early.fields
    monkeypatch.setattr(screen, "today", lambda: datetime.date(2025, 4, 2))
    page = Page(jane.get(path).text)
    assert "<b>Cole" not in page.text and "&lt;b&gt;Cole" in page.text
    assert page.by_id["on"] == "Day: Wednesday, 2 April 2025"
    assert "may answer" not in page.text
    monkeypatch.setattr(screen, "today", lambda: TODAY)
    late = press(jane, path, page, "Withdraw the offer of Beta from Cyd <b>Cole</b>")
    assert late.status_code == 400 and 3 in office.parts.desk.now().places
    monkeypatch.setattr(screen, "today", lambda: datetime.date(2025, 4, 2))
    late = press(jane, path, page, "Withdraw the offer of Beta from Cyd <b>Cole</b>")
    assert late.status_code == 409 and 3 in office.parts.desk.now().places
    assert Page(late.text).said() == (
        "Nothing was recorded: read what looks wrong, and tick that it is right.")
    assert "The letter of the reminder of 18 March 2025 is not recorded as sent." in late.text
    found = press(jane, path, page, "Withdraw the offer of Beta from Cyd <b>Cole</b>", read="yes")
    assert found.status_code == 303 and 3 not in office.parts.desk.now().places
    # (as the button and the letters call it)
    assert Page(jane.get("/children/3").text).tables["list"][2][1] == "offer withdrawn"


def test_no_offer_is_withdrawn_whose_answer_waits_in_a_pile(
    office: Site, monkeypatch: pytest.MonkeyPatch,
) -> None:
    """Of anybody, also where it came after the question: as where many are withdrawn at once."""
    jane, bo = office.browser("jane"), office.browser("bo")
    act(jane, "/children/3/remind", "Record the reminder of Cyd <b>Cole</b> about Beta")
    monkeypatch.setattr(screen, "today", lambda: datetime.date(2025, 4, 2))
    page = Page(jane.get("/children/3/lapse?day=2 April 2025").text)
    bo.get("/answers/")
    assert bo.post("/answers/", {"entry": "3"}).status_code == 303
    late = press(jane, "/children/3/lapse", page, "Withdraw the offer of Beta from Cyd <b>Cole</b>",
                 read="yes")
    assert late.status_code == 409 and 3 in office.parts.desk.now().places
    said = "bo has an answer for this child in a batch (accept)"
    assert Page(late.text).said() == f"{said}. Nothing was recorded."
    assert f"{said}." in jane.get("/children/3/lapse?day=2 April 2025").text


def test_the_last_day_of_an_answer_is_said_before_a_reminder_and_a_withdrawal(
    office: Site, monkeypatch: pytest.MonkeyPatch,
) -> None:
    """On that day the register accepts them, and the family may still answer."""
    jane = office.browser("jane")
    for name, last, after in (("remind", "17 March 2025", "18 March 2025"),
                              ("lapse", "1 April 2025", "2 April 2025")):
        said = f"The family may answer until the end of {last}."
        assert said in jane.get(f"/children/3/{name}?day={last}").text
        assert "may answer" not in jane.get(f"/children/3/{name}?day={after}").text
        if name == "remind":
            act(jane, "/children/3/remind", "Record the reminder of Cyd <b>Cole</b> about Beta")
            monkeypatch.setattr(screen, "today", lambda: datetime.date(2025, 4, 2))
    found = press(jane, "/children/3/lapse", Page(jane.get(
        "/children/3/lapse?day=1 April 2025").text),
        "Withdraw the offer of Beta from Cyd <b>Cole</b>", read="yes")
    assert found.status_code == 303 and 3 not in office.parts.desk.now().places


def test_what_the_register_refuses_is_said(office: Site) -> None:
    """With the child as it is, and the day that was typed."""
    jane = office.browser("jane")
    path = "/children/3/remind?day=4 March 2025"
    found = act(jane, path, "Record the reminder of Cyd <b>Cole</b> about Beta")
    page = Page(found.text)
    assert found.status_code == 409 and "too early" in page.said()
    assert page.fields["day"]["value"] == "4 March 2025"
    assert jane.get("/children/3").status_code == 200
    who, what, more = history(jane.get("/children/3").text)[0]
    assert (who, what) == ("jane", "Reminded on 4 March 2025 of the offer of Beta")
    assert "too early" in more


def test_a_day_is_typed_and_warned_of(office: Site) -> None:
    """One that is none is said at its field, and there is nothing to confirm."""
    jane = office.browser("jane")
    for text in ("soon", "31/2/2025", "2025-13-01"):
        found = jane.get(f"/children/3/remind?day={text}")
        page = Page(found.text)
        assert found.status_code == 400 and "17 March 2025" in page.error("day")
        assert page.fields["day"]["value"] == text and "confirm" not in page.fields
    page = Page(jane.get("/children/3/remind?day=1/3/2024").text)
    assert "The day is outside the season" in page.text and "382 days before today" in page.text
    page = Page(jane.get("/children/3/remind").text)
    assert page.by_id["on"] == "Day: Tuesday, 18 March 2025" and "warning" not in page.text


@pytest.mark.parametrize("name, button", (
    ("remind", "Record the reminder of Cyd <b>Cole</b> about Beta"),
    ("lapse", "Withdraw the offer of Beta from Cyd <b>Cole</b>")))
def test_a_day_that_was_typed_is_shown_before_it_is_sent(
    office: Site, name: str, button: str, monkeypatch: pytest.MonkeyPatch,
) -> None:
    """Neither the day that was shown before it nor the one in the field goes out unseen."""
    jane = office.browser("jane")
    if name == "lapse":
        act(jane, "/children/3/remind", "Record the reminder of Cyd <b>Cole</b> about Beta")
    monkeypatch.setattr(screen, "today", lambda: datetime.date(2025, 4, 3))
    before, path = sent(office), f"/children/3/{name}"
    page = Page(jane.get(f"{path}?day=1 April 2025").text)
    assert page.by_id["on"] == "Day: Tuesday, 1 April 2025"
    found = press(jane, path, page, button, day="2/4/2025")
    page = Page(found.text)
    assert found.status_code == 409 and sent(office) == before
    assert page.said().startswith("Nothing was recorded: Wednesday, 2 April 2025, was typed")
    assert page.by_id["on"] == "Day: Wednesday, 2 April 2025"
    assert page.fields["day"]["value"] == "2/4/2025"
    page = Page(press(jane, path, page, "Show this day", day="3 April 2025").text)
    assert page.by_id["on"] == "Day: Thursday, 3 April 2025" and page.said() == ""
    found = press(jane, path, page, button, day="no day")
    assert found.status_code == 400 and sent(office) == before
    found = press(jane, path, page, button, read="yes")
    assert found.status_code == 303
    assert sent(office)[len(before):] == [
        {"cmd": name, "child": 3, "school": "B", "day": "2025-04-03"}]


def test_what_a_colleague_did_is_named(office: Site) -> None:
    """A stale question of a decline does not end a place that was accepted since."""
    jane, bo = office.browser("jane"), office.browser("bo")
    page = Page(jane.get("/children/1/decline").text)
    act(bo, "/children/1/accept", "Accept Alpha for Ada Abel")
    found = press(jane, "/children/1/decline", page, "Decline Alpha for Ada Abel")
    again = Page(found.text)
    assert found.status_code == 409
    assert again.said().startswith("Child 1: bo recorded accept at ")
    assert again.said().endswith("Nothing was recorded now.")
    assert "The family had accepted this place." in again.text
    assert office.parts.desk.now().places[1].kind == "accepted"
    assert [it["cmd"] for it in sent(office)] == ["accept"]
    # (and now, seen as it is, it is declined)
    assert press(jane, "/children/1/decline", again, "Decline Alpha for Ada Abel"
                 ).status_code == 303
    shown = jane.get("/children/1").text
    assert history(shown) == [
        ("jane", "Declined the place at Alpha", ""), ("bo", "Accepted the place at Alpha", ""),
        ("3 March 2025", "Round 1: offered Alpha", "Dated 3 March 2025")]
    assert Page(shown).tables["list"][1][1] == "declined"


def test_a_draw_that_gave_a_place_is_named(office: Site) -> None:
    """A fill offers child 3 a place at A while its place at B is to be declined."""
    jane, desk, hal = office.browser("jane"), office.parts.desk, Person("hal", "head")
    page = Page(jane.get("/children/3/decline").text)
    for command in ({"cmd": "decline", "child": 2, "school": "A"},
                    {"cmd": "fill", "draw": 2, "school": "A", "day": "2025-03-17",
                     "lots": [1, 2]}):
        assert desk.send(hal, command, draw=True).is_done, command
    found = press(jane, "/children/3/decline", page, "Decline Beta for Cyd <b>Cole</b>")
    assert "Child 3: hal recorded an offer from a waiting list at " in Page(found.text).said()
    assert history(jane.get("/children/3").text) == [
        ("hal", "Offer of a place at A (draw 2): offered Alpha", "Dated 17 March 2025"),
        ("3 March 2025", "Round 1: offered Beta", "Dated 3 March 2025")]


def test_a_plan_is_chosen_and_ends_a_place(office: Site) -> None:
    """Its question says what ends with it."""
    jane = office.browser("jane")
    page = Page(jane.get("/children/1/plan").text)
    assert "confirm" not in page.fields and page.form("Show what happens then").method == "get"
    page = Page(jane.get("/children/1/plan?school=B").text)
    assert "The place at A, offered, ends with it." in page.text
    assert jane.get("/children/1/plan?school=ZZ").status_code == 409
    button = "Give Ada Abel a place at Beta by a plan"
    found = press(jane, "/children/1/plan?school=B", page, button)
    assert found.status_code == 303
    page = Page(jane.get("/children/1").text)
    assert page.by_id["place"] == "The child has a place at Beta by a plan."
    assert "/children/1/plan" not in page.text and "/children/1/decline" not in page.text


def test_a_copy_is_made_before_a_plan_is_recorded(
    office: Site, monkeypatch: pytest.MonkeyPatch,
) -> None:
    """Without it the plan is not recorded; and none is made for a page from before a change."""
    jane, path = office.browser("jane"), "/children/1/plan?school=B"
    page, button = Page(jane.get(path).text), "Give Ada Abel a place at Beta by a plan"
    assert "A copy of the register is made first" in page.by_id["becomes"]

    def none(*_: object) -> int:
        raise Refused("there is no copy: the disk is full")

    with monkeypatch.context() as patch:
        patch.setattr(office.parts.copies, "make", none)
        found = press(jane, path, page, button)
    assert found.status_code == 409 and "There is no copy" in Page(found.text).said()
    assert sent(office) == []
    assert press(jane, path, page, button).status_code == 303
    assert office.copied == ["before EHC plans are recorded"]
    late = press(jane, path, page, button)
    assert late.status_code == 409 and len(office.copied) == 1
    act(jane, "/children/3/accept", "Accept Beta for Cyd <b>Cole</b>")
    assert len(office.copied) == 1


def test_a_correction_shows_what_it_changes(office: Site) -> None:
    """Each field side by side; confirmed by the name; a colleague's correction is not lost."""
    jane, bo = office.browser("jane"), office.browser("bo")
    path = "/children/5/correct"
    page = Page(jane.get(path).text)
    form = page.form("Compare with the register").values
    assert (form["flags"], form["siblings"], form["present"]) == (["2", "5"], ["A"], ["PRIM7"])
    found = press(jane, path, page, "Compare with the register", name="Eve Eden", east="50000",
                  flags=["5"], siblings="a; b", present="")
    page = Page(found.text)
    assert page.tables["changes"][1:] == [
        ["Name", "=Eve \"<i>Eden</i>\"", "Eve Eden"], ["East, in metres", "0", "50000"],
        ["Verified reasons", "2;5", "5"], ["Siblings at", "A", "A;B"],
        ["Present school", "PRIM7", "none"]]
    assert "The home moves by 50 km" in page.text
    assert "The present school PRIM7 is removed" in page.text and sent(office) == []
    button = "Correct the details of =Eve \"<i>Eden</i>\""
    assert button in page.buttons()
    other = press(bo, path, Page(bo.get(path).text), "Compare with the register", east="7")
    press(bo, path, Page(other.text), button)
    assert office.parts.desk.now().children[5].east == 7
    found = press(jane, path, page, button)
    page = Page(found.text)
    assert found.status_code == 409 and "Child 5: bo recorded a correction at " in page.said()
    assert ["East, in metres", "7", "50000"] in page.tables["changes"]
    assert press(jane, path, page, button).status_code == 303
    now = office.parts.desk.now().children[5]
    assert (now.name, now.east, now.north, now.flags, now.siblings, now.present) == (
        "Eve Eden", 50000, 500, (5,), ("A", "B"), "")
    rows = history(jane.get("/children/5").text)
    assert [it[:2] for it in rows] == [
        ("jane", "Corrected the details"), ("bo", "Corrected the details")]
    assert "East, in metres: 7 → 50000" in rows[0][2]


@pytest.mark.parametrize("is_wrong", [False, True])
def test_a_correction_keeps_what_a_colleague_corrected(office: Site, is_wrong: bool) -> None:
    """A form that was opened before it has the data from before it, also one that came back with an
    error: only what this person changed is new, and who recorded the other is said.
    """
    jane, path = office.browser("jane"), "/children/1/correct"
    page = Page(jane.get(path).text)
    moved = {**child(1, "Ada Abel", 900), "cmd": "amend", "present": "", "siblings": ["B"]}
    office.record("bo", moved)
    if is_wrong:
        found = press(jane, path, page, "Compare with the register", name="Ada Abell", present="-")
        assert found.status_code == 400
        page = Page(found.text)
    asked = press(jane, path, page, "Compare with the register", name="Ada Abell", present="PRIM7")
    question = Page(asked.text)
    assert asked.status_code == 409 and "Child 1: bo recorded a correction at" in question.said()
    assert question.tables["changes"][1:] == [
        ["Name", "Ada Abel", "Ada Abell"], ["Present school", "none", "PRIM7"]]
    office.record("bo", {**moved, "looked_after": True})
    late = press(jane, path, question, "Correct the details of Ada Abel")
    assert late.status_code == 409
    done = press(jane, path, Page(late.text), "Correct the details of Ada Abel")
    assert done.status_code == 303
    found = office.parts.desk.now().children[1]
    assert (found.name, found.north, found.siblings, found.present, found.looked_after) == (
        "Ada Abell", 900, ("B",), "PRIM7", True)


def test_the_question_of_a_correction_has_an_address(office: Site) -> None:
    """A way back leads to no page that a browser would send for again, but to what was typed. It is
    this session's alone, and gone once it is recorded or begun anew.
    """
    jane, bo, path = office.browser("jane"), office.browser("bo"), "/children/1/correct"
    compare = "Compare with the register"

    def asked(given: str, what: str = "ask") -> str:
        """The address of a question about what was typed."""
        form = Page(jane.get(path).text).form(compare).sent_by(compare, name=given, what=what)
        found = jane.post(path, form)
        assert found.status_code == 303
        return str(found.location)

    first = asked("Ada Abell")
    assert Page(jane.get(first).text).tables["changes"][1:] == [["Name", "Ada Abel", "Ada Abell"]]
    back = Page(jane.get(path).text)
    assert back.fields["name"]["value"] == "Ada Abell" and "not recorded yet" in back.by_id["kept"]
    assert Page(bo.get(path).text).fields["name"]["value"] == "Ada Abel"
    assert bo.get(first).status_code == 409
    second = asked("Ada Able")
    stale = jane.get(first)
    assert stale.status_code == 409 and "type it again" in Page(stale.text).said()
    assert jane.post(path, {"what": "anew"}).location == path
    assert "kept" not in Page(jane.get(path).text).by_id and jane.get(second).status_code == 409
    question = Page(jane.get(asked("Ada Able")).text)
    assert press(jane, path, question, "Correct the details of Ada Abel").status_code == 303
    assert "kept" not in Page(jane.get(path).text).by_id
    assert asked("Ada", "look").endswith("&look=yes")
    assert office.parts.desk.now().children[1].name == "Ada Able"


def test_what_is_asked_about_is_kept_within_limits() -> None:
    """The last of each form, and of all forms so many; none that is too long."""
    kept, jane = Asked(), Person("jane", "officer", form="1")
    long = kept.keep(jane, "/long", MultiDict({"name": "x" * MOST_CHARACTERS}))
    assert kept.find(jane, "/long", long) is None
    for at in range(MOST_KEPT + 1):
        kept.keep(jane, f"/{at}", MultiDict({"name": "x", "form": "secret"}))
    assert kept.find(jane, "/0") is None and kept.find(jane, "/1") == MultiDict({"name": "x"})


def test_what_is_kept_takes_no_more_than_its_characters() -> None:
    """Somebody has a form of as many fields as may be kept at one address after another: as objects
    those of all addresses would take a gigabyte.
    """
    kept, jane = Asked(), Person("jane", "officer", form="1")
    form = MultiDict([(f"c{it}", str(it)) for it in range(17_000)])
    tracemalloc.start()
    try:
        for at in range(10):
            kept.keep(jane, f"/{at}", form)
        taken = tracemalloc.get_traced_memory()[0]
    finally:
        tracemalloc.stop()
    assert kept.find(jane, "/0") == kept.find(jane, "/9") == form
    assert taken < 2 * 10 * MOST_CHARACTERS


def test_the_point_of_a_home_is_not_put_together_from_two(office: Site) -> None:
    """Who changed one number of it sees both as new beside a colleague's point."""
    jane, path = office.browser("jane"), "/children/1/correct"
    page = Page(jane.get(path).text)
    moved = {**child(1, "Ada Abel", 900), "cmd": "amend", "present": "", "east": 800}
    office.record("bo", moved)
    question = Page(press(jane, path, page, "Compare with the register", north="110").text)
    assert question.tables["changes"][1:] == [
        ["East, in metres", "800", "0"], ["North, in metres", "900", "110"]]


def test_both_forms_say_who_is_looked_after(office: Site) -> None:
    """Not every child that was once in care: who is has the first rank at each school. The words
    are those of GLOSSARY.
    """
    jane = office.browser("jane")
    glossary = (ROOT / "docs/reference/GLOSSARY.md").read_text("utf-8")
    for path in ("/applications/add/", "/children/1/correct"):
        found = jane.get(path).text
        assert ">Looked after</label>" in found, path
        assert "no: every other child, even if it was once in care" in found, path
        for words in ("in the care of a local authority, or provided with accommodation by one",
                      "a child arrangements order or a special guardianship order",
                      "appears to have been in state care outside England"):
            assert words in found and words in glossary, (path, words)


def test_a_correction_that_is_wrong_stays_in_the_form(office: Site) -> None:
    """With each error at its field; one that changes nothing is not sent."""
    jane = office.browser("jane")
    path = "/children/1/correct"
    page = Page(jane.get(path).text)
    found = press(jane, path, page, "Compare with the register", name=" ", east="x",
                  north="1500001", siblings="A;A", present="not a code", flags=["99"])
    page = Page(found.text)
    assert found.status_code == 400 and sent(office) == []
    for field, said in (("name", "is missing"), ("east", "a whole number"),
                        ("north", "1,500,000"), ("siblings", "A is listed twice"),
                        ("present", "is no school’s code")):
        assert said in page.error(field), field
    assert "reasons are numbers from 0 to 15" in page.by_id["flags-error"]
    assert page.fields["east"]["value"] == "x"
    assert Page(jane.get(path).text).fields["east"]["value"] == "x"
    jane.post(path, {"what": "anew"})
    found = press(jane, path, Page(jane.get(path).text), "Compare with the register")
    assert found.status_code == 409 and "there is nothing to record" in Page(found.text).said()


def test_only_who_may_record_finds_a_question(office: Site) -> None:
    """A reader, the head of a school and a supervisor do not."""
    for name, role in (("rita", "reader"), ("ann", "school-A"), ("sue", "supervisor")):
        browser = office.browser(name, role)
        for path in ("/children/1/accept", "/children/1/correct", "/children/1/plan"):
            assert browser.get(path).status_code == 403, (role, path)
            assert browser.post(path, {"school": "A"}).status_code == 403, (role, path)
    assert office.browser("ann").get("/children/1").status_code == 403
    assert sent(office) == []


def test_a_form_that_was_changed_sends_nothing_unseen(office: Site) -> None:
    """Without what was seen, with another school, or with a text that is none."""
    jane = office.browser("jane")
    jane.get("/children/1/accept")
    forms: tuple[dict[str, Any], ...] = (
        {}, {"seen": "null", "school": "A"}, {"seen": "{", "school": "<script>"})
    for given in forms:
        found = jane.post("/children/1/accept", given)
        assert found.status_code == 409 and "<script>" not in found.text.replace("<script src", "")
    assert office.parts.desk.now().places[1].kind == "offered" and sent(office) == []


def test_an_import_is_the_first_entry_of_a_child(office: Site) -> None:
    """With who sent it; a child of another row, or of another number, has it not."""
    header = "child,name,east,north,looked_after,flags,siblings,day,preferences\n"
    rows = header + "12,\"Abel, Fay\",1,2,no,,,2024-10-20,A;B\n112,Gil,1,2,no,,,2024-10-21,B\n"
    result = office.parts.desk.send_import(Person("jane", "officer"), rows.encode())
    assert result.is_done, result
    rita = office.browser("rita", "reader")
    for number, said in ((12, "20 October 2024: A, B"), (112, "21 October 2024: B")):
        assert history(rita.get(f"/children/{number}").text) == [
            ("jane", "Added applications to the register", f"Application of {said}")]
    assert len(history(rita.get("/children/1").text)) == 1
    # (what a first correction changes of the row is said, and nothing else)
    moved = {**child(12, "Abel, Fay", 2), "cmd": "amend", "east": 7, "present": ""}
    office.record("jane", moved)
    assert history(rita.get("/children/12").text)[0] == (
        "jane", "Corrected the details", "East, in metres: 1 → 7")


@pytest.mark.parametrize("before, command", [
    ([], {"cmd": "apply", "child": 1, "day": "2024-10-31", "preferences": ["B", "A"]}),
    ([{"cmd": "remind", "child": 3, "school": "B", "day": "2025-03-18"}],
     {"cmd": "remind", "child": 3, "school": "B", "day": "2025-03-19"})])
def test_what_was_refused_without_an_answer_is_not_done(
    office: Site, monkeypatch: pytest.MonkeyPatch, before: list[dict[str, Any]],
    command: dict[str, Any],
) -> None:
    """Also where the register has nearly the same: its list in another order, a reminder of another
    day.
    """
    desk, sender = office.parts.desk, office.parts.desk.sender
    for it in before:
        assert desk.send(Person("bo", "officer"), it).is_done

    def lost(line: bytes, send: Callable[[bytes], bytes] = sender.send) -> bytes:
        assert b"refused" in send(line)
        raise Ended("the answer is lost", True)

    monkeypatch.setattr(sender, "send", lost)
    result = desk.send(Person("jane", "officer"), command)
    assert result.outcome == LOST and "It was not done" in result.said


def test_an_import_is_read_as_the_register_reads_it(office: Site) -> None:
    """With a byte order mark, lines that end with CR, and quotes: it is in the history of its
    children, and is known to be done where its answer was lost.
    """
    header = "child,name,east,north,looked_after,flags,siblings,day,preferences"
    fay = "\"12\",\"Abel, Fay\",1,2,no,,,2024-10-20,A;B"
    data = "\ufeff" + "\r".join([header, fay, "13,Gil,1,2,no,,,2024-10-21,B", ""])
    assert not effects.is_imported(office.parts.desk.now(), data)
    # (one whose child is there already, and another that is not)
    known = f"{header}\n1,Ada Abel,0,100,no,,,2024-10-31,A;B\n13,Gil,1,2,no,,,2024-10-21,B\n"
    assert not effects.is_imported(office.parts.desk.now(), known)
    result = office.parts.desk.send_import(Person("jane", "officer"), data.encode())
    assert result.is_done, result
    assert effects.is_imported(office.parts.desk.now(), data)
    rita = office.browser("rita", "reader")
    for number, said in ((12, "20 October 2024: A, B"), (13, "21 October 2024: B")):
        assert history(rita.get(f"/children/{number}").text) == [
            ("jane", "Added applications to the register", f"Application of {said}")]
    assert not effects.is_imported(office.parts.desk.now(), f"{header}\n1,{'x' * 200_000}\n")


def test_a_name_in_a_button_is_only_a_name() -> None:
    """Whatever it has in it."""
    given = {"school": "{child}", "child": "{school} {0} %s"}
    assert children.filled("Decline {school} for {child}", given) == (
        "Decline {child} for {school} {0} %s")


def test_days_are_read_as_they_are_typed() -> None:
    """In the order of an office; what can be two days, or none, is none."""
    day = datetime.date(2025, 4, 2)
    for text in ("2025-04-02", "2/4/2025", "02.04.2025", "2 April 2025", " 2nd Apr 2025 "):
        assert wording.day_of(text) == day, text
    for text in ("", "2/4/25", "2025-04-31", "31/4/2025", "April", "1/1/2500", "2/4/2025x"):
        assert wording.day_of(text) is None, text


def test_a_correction_is_warned_of(tmp_path: pathlib.Path) -> None:
    """Another person, and what may be a priority."""
    with office_over(tmp_path, town()) as office:
        register = office.parts.desk.now()
        cells = corrections.cells_of(register.children[1])
        found = []
        others: tuple[dict[str, str], ...] = (
            {}, {"name": "Ada Abell"}, {"name": "Zoe Young"}, {"looked_after": "yes"})
        for more in others:
            command, wrong = corrections.read(register, 1, {**cells, **more})
            assert not wrong
            found.append(list(corrections.warnings(register.children[1], command)))
    assert found == [[], [], ["The names are not alike: is it this child?"],
                     ["Children who are or were looked after are first in every list:"
                      " is this right?"]]
