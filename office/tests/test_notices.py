"""Reminders and withdrawals as one flow: the list of a day, what is ticked shown whole, a copy, the
record, and the letters of the same children. Days are worked out by hand.
"""
import datetime
import pathlib
import re
import threading
from collections.abc import Iterator
from types import SimpleNamespace
from typing import Any

import pytest
from applications import Browser, Site, site
from conftest import child
from draw_site import JANE
from letter_site import (
    NAMES, after_round, asked, audited, beside, count, hidden, letter_pages, made, waited,
)
from pages import Page, press
from register_files import Refused

from office.core.senders import Ended
from office.web.answers import notices
from office.web.answers.entries import Meant
from office.web.answers.notice_marks import Marks
from office.web.answers.views import notices as screen
from office.web.machinery import choices
from office.web.people.roles import Person


@pytest.fixture(name="address", scope="function")
def address_fixture(tmp_path_factory: pytest.TempPathFactory) -> Iterator[str]:
    """A register that is served, after its round."""
    with after_round(tmp_path_factory.mktemp("round")) as found:
        yield found


@pytest.fixture(name="office")
def office_fixture(
    address: str, tmp_path: pathlib.Path, monkeypatch: pytest.MonkeyPatch
) -> Iterator[Site]:
    """An application over it, of which a test wants what came of a row."""
    monkeypatch.setattr("office.web.answers.views.notices.WAIT_SECONDS", 600.0)
    with audited(tmp_path, address) as found:
        yield found


def shown(browser: Browser, kind: str, day: str, children: list[int]) -> Any:
    """The question about those that are ticked, which has an address of its own."""
    found = browser.post(f"/notices/{kind}", {
        "day": day, "ticked": "yes", "child": [str(it) for it in children]})
    return browser.get(found.location) if found.status_code == 303 else found


def confirmed(browser: Browser, page: Any, read: str = "yes") -> Any:
    """The answer to its button, with the tick at what looks wrong."""
    return browser.post(page.request.path, {"digest": hidden(page, "digest"), "read": read})


def test_reminders_and_withdrawals_lead_to_the_letters_of_the_same_children(
    office: Site, address: str,
) -> None:
    """Two of five are reminded on 18 March; of these one is withdrawn on 2 April."""
    jane = office.browser("jane")
    page = jane.get("/notices/remind?day=18 March 2025")
    assert re.findall(r'name="child" value="([0-9]+)"[^>]* checked', page.text) == list("12345")
    early = jane.get("/notices/remind?day=17 March 2025").text
    assert early.count('name="child"') == 0 and "Check what is ticked" not in early
    assert "No reminder is due on Monday, 17 March 2025" in early and "/lists/no-answer" in early
    page = shown(jane, "remind", "18 March 2025", [2, 3])
    assert "Record 2 reminders of 18 March 2025" in page.text
    assert "Tuesday, 18 March 2025" in page.text and "=SUM(A1)" in page.text
    assert "may be withdrawn from 2 April 2025 on" in page.text
    found = confirmed(jane, page)
    assert found.status_code == 303, found.text
    row = jane.get(found.location)
    assert "2 of 2 reminders recorded" in row.text and "Letters to these 2 children" in row.text
    places = office.parts.desk.now().places
    assert {it for it, place in places.items() if place.reminded} == {2, 3}
    assert str(places[3].reminded) == "2025-03-18"
    assert office.copied == ["before reminders of 2025-03-18"]
    assert not any(it.reminded for it in office.parts.copies.register(1).places.values())
    form = asked(jane, "row", "1", day_of_letters="18 March 2025")
    assert form["child"] == ["2", "3"]
    for number, text in zip((2, 3), letter_pages(jane, made(jane, form))):
        assert NAMES[number] in text and "18 March 2025" in text
        assert "We offered this place on 3 March 2025 and reminded you on 18 March 2025" in text
        assert "If we have no answer by 1 April 2025, the offer may be withdrawn." in text
    assert jane.get("/letters/whom?whom=reminded&value=18/3/2025").text.count(
        "reminder of 18 March 2025") == 2
    withdrawn(jane, office, address)


def withdrawn(jane: Browser, office: Site, address: str) -> None:
    """The other half: one of the two answers, and the other offer is withdrawn."""
    assert jane.get("/notices/lapse?day=1 April 2025").text.count('name="child"') == 0
    beside(office, address, [{"cmd": "accept", "child": 3, "school": "ELM"}])
    page = shown(jane, "lapse", "2 April 2025", [2])
    assert "Record 1 withdrawal of 2 April 2025" in page.text
    assert "cannot be undone" in page.text
    found = confirmed(jane, page)
    assert found.status_code == 303
    assert 2 not in office.parts.desk.now().places
    for whom, value in (("row", "2"), ("withdrawn", "2 April 2025")):
        early = jane.post("/letters/make", asked(jane, whom, value, day_of_letters="1 April 2025"))
        assert early.status_code == 400 and (
            "tell of withdrawals of 2 April 2025, and cannot have an earlier date" in early.text)
        form = asked(jane, whom, value, day_of_letters="2 April 2025")
        assert form["child"] == ["2"]
        text = letter_pages(jane, made(jane, form))[0]
        assert "The place at Elm has ended" in text
        assert "our offer of 3 March 2025, of which we reminded you on 18 March 2025" in text


def test_what_was_recorded_is_listed_in_sets(
    office: Site, monkeypatch: pytest.MonkeyPatch,
) -> None:
    """Each with how many of it are recorded; and beside them how many are due today."""
    jane = office.browser("jane")
    assert "No reminder or withdrawal was recorded yet" in jane.get("/notices/").text
    confirmed(jane, shown(jane, "remind", "18 March 2025", [2, 3]))
    page = Page(jane.get("/notices/").text)
    assert "Recorded so far: 1 set, the last first" in page.text
    assert page.tables["rows"][1][:2] == ["Reminders of 18 March 2025", "2 of 2"]
    monkeypatch.setattr(notices, "due", lambda *_: range(1234))
    assert jane.get("/notices/").text.count("1,234 due today") == 2


def test_the_letters_of_a_row_are_made_by_themselves(office: Site, address: str) -> None:
    """On the page of the row: taken there, and recorded there as sent, which is not done before
    they were taken. One set for a row, however often it is looked at.
    """
    jane = office.browser("jane")
    row = confirmed(jane, shown(jane, "remind", "18 March 2025", [2, 3])).location
    page = waited(jane, row)
    place = re.search(r'href="(/letters/sets/[0-9]+)/file">Download 2 letters<', page)
    assert place and "made, not recorded as sent" in page
    assert "reminder of 18 March 2025: 2 letters" in page
    # (they are of the day on which they were made, before which nobody can have sent them)
    today = hidden(jane.get(row), "day")
    path, given = place[1], {"day": today, "count": hidden(jane.get(row), "count")}
    early = jane.post(f"{path}/record", {**given, "day": "18 March 2025", "sure_of": "2025-03-18"})
    assert early.status_code == 400 and "or a later day" in early.text
    found = jane.post(f"{path}/record", given)
    assert found.status_code == 400 and "Nobody has downloaded these letters" in found.text
    for number, text in zip((2, 3), letter_pages(jane, path)):
        assert NAMES[number] in text
        assert "We offered this place on 3 March 2025 and reminded you on 18 March 2025" in text
    jane.post(row)
    assert count(office, "letter_set") == 1
    assert jane.post(f"{path}/record", given).status_code == 303
    said = f"sent on {today}, by jane"
    assert said in jane.get(row).text
    assert jane.get("/letters/whom?whom=row&value=1").text.count(said) == 2
    # those of withdrawals name the place that has ended; and a reader only sees that they are made
    beside(office, address, [{"cmd": "accept", "child": 3, "school": "ELM"}])
    row = confirmed(jane, shown(jane, "lapse", "2 April 2025", [2])).location
    page = waited(jane, row)
    assert "Download 1 letter<" in page and "withdrawal of 2 April 2025: 1 letter" in page
    place = re.search(r'href="(/letters/sets/[0-9]+)/file"', page)
    assert place and "The place at Elm has ended" in letter_pages(jane, place[1])[0]
    seen = office.browser("rita", "reader").get(row).text
    assert "made, not recorded as sent" in seen and ">Download " not in seen


def test_letters_that_nobody_can_send_are_not_made_by_themselves(office: Site) -> None:
    """Where the office's address is not typed yet they would have that of the example."""
    with office.parts.store.writing() as db:
        db.execute("DELETE FROM letter_sender")
    jane = office.browser("jane")
    row = confirmed(jane, shown(jane, "remind", "18 March 2025", [2, 3])).location
    page = waited(jane, row)
    assert "2 of 2 reminders recorded" in page and count(office, "letter_set") == 0
    assert "not made by themselves, as the office’s address is not typed yet" in page
    assert 'id="letters" href="/letters/whom?whom=row&amp;value=1"' in page


def test_what_changed_meanwhile_is_not_recorded(office: Site, address: str) -> None:
    """Neither what is on the page, nor what was shown to be confirmed; and two clicks record once.
    """
    jane = office.browser("jane")
    page = shown(jane, "remind", "18 March 2025", [1, 4])
    beside(office, address, [{"cmd": "accept", "child": 4, "school": "ELM"}])
    found = confirmed(jane, page)
    assert found.status_code == 409 and f"Child 4, {NAMES[4]}, is not due any more" in found.text
    assert re.findall(r'name="child" value="(.)"[^>]* checked', found.text) == ["1"]
    assert count(office, "notice_row") == 0
    page = shown(jane, "remind", "18 March 2025", [1])
    first = confirmed(jane, page)
    assert first.status_code == 303
    assert confirmed(jane, page).location == first.location
    # (and Back leads to what was recorded, not to a form that would be sent again)
    assert jane.get(page.request.path).location == first.location
    sends = [it for it in office.parts.history.entries if it.what == "sends"
             and it.about.get("command", {}).get("cmd") == "remind"]
    assert len(sends) == 1 and count(office, "notice_row") == 1


def test_what_is_ticked_goes_from_page_to_page(
    office: Site, monkeypatch: pytest.MonkeyPatch,
) -> None:
    """Each page has what is ticked on the others, and the question names all of them."""
    monkeypatch.setattr(choices, "PAGE", 2)
    jane, ticks = office.browser("jane"), r'name="child" value="(.)"[^>]* checked'
    page = jane.get("/notices/remind?day=18 March 2025")
    assert re.findall(ticks, page.text) == ["1", "2"] and hidden(page, "others") == "3,4,5"
    given = {"day": "18 March 2025", "ticked": "yes"}
    found = jane.post("/notices/remind", {**given, "others": "3,4,5", "child": ["1"], "page": "2"})
    page = jane.get(found.location)
    assert re.findall(ticks, page.text) == ["3", "4"] and hidden(page, "others") == "1,5"
    found = jane.post("/notices/remind", {**given, "others": "1,5", "child": ["3"]})
    assert re.findall("child (.),", jane.get(found.location).text) == ["1", "3", "5"]
    # (nobody sees what another one has ticked)
    other = office.browser("olga").get(found.location)
    assert other.status_code == 409 and "has changed meanwhile" in other.text


def test_wrong_days_and_ticks_are_said(office: Site) -> None:
    """At the field, and the boxes stay."""
    jane = office.browser("jane")
    found = jane.get("/notices/remind?day=someday")
    assert found.status_code == 400 and "a day as 17 March 2025" in found.text
    found = shown(jane, "remind", "18 March 2025", [])
    assert found.status_code == 409 and "Tick at least one child" in found.text
    found = jane.get("/notices/remind?day=1 March 2025")
    assert found.status_code == 400 and "Nobody had an offer" in found.text


@pytest.mark.parametrize("kind", ["remind", "lapse"])
def test_a_day_that_is_to_come_is_refused(
    office: Site, address: str, monkeypatch: pytest.MonkeyPatch, kind: str,
) -> None:
    """A reminder or a withdrawal is recorded on its day or after it, and never before."""
    if kind == "lapse":
        beside(office, address, [
            {"cmd": "remind", "child": 2, "school": "ELM", "day": "2025-03-18"}])
    monkeypatch.setattr(screen, "today", lambda: datetime.date(2025, 5, 31))
    jane = office.browser("jane")
    assert 'id="show"' in jane.get(f"/notices/{kind}?day=31 May 2025").text
    for found in (jane.get(f"/notices/{kind}?day=1 June 2025"),
                  shown(jane, kind, "1 June 2025", [2])):
        assert found.status_code == 400 and "today or an earlier day" in found.text
        assert 'name="child"' not in found.text
    page = shown(jane, kind, "31 May 2025", [2])
    # (nor by the clock of a machine that is set back meanwhile)
    monkeypatch.setattr(screen, "today", lambda: datetime.date(2025, 5, 30))
    late = confirmed(jane, page)
    assert late.status_code == 409 and count(office, "notice_row") == 0


def test_a_withdrawal_without_a_reminder_that_was_sent_takes_a_tick(
    office: Site, address: str,
) -> None:
    """Until its letter is recorded as sent, somebody says that they have read that."""
    beside(office, address, [
        {"cmd": "remind", "child": it, "school": "ELM", "day": "2025-03-18"} for it in (2, 3)])
    jane = office.browser("jane")
    question = shown(jane, "lapse", "2 April 2025", [2, 3])
    assert "I have read what looks wrong above, and it is right" in question.text
    found = confirmed(jane, question, read="")
    assert found.status_code == 409 and "read what looks wrong" in found.text
    assert count(office, "notice_row") == 0
    with office.parts.store.writing() as db:
        # (as where the letters of both are recorded as sent)
        number = db.execute(
            "INSERT INTO letter_set (key, who, at, asked, state, total, sent, sent_by) VALUES"
            " ('a', 'jane', '', '{}', 'gone', 2, '2025-03-18', 'jane')").lastrowid
        db.executemany("INSERT INTO letter (set_id, place, child, about, words, html) VALUES (?, ?,"
                       " ?, 'reminder ELM 2025-03-18', '', X'')", [(number, 0, 2), (number, 1, 3)])
    question = shown(jane, "lapse", "2 April 2025", [2, 3])
    assert "I have read" not in question.text
    assert confirmed(jane, question, read="").status_code == 303


def test_a_row_that_stopped_goes_on_and_sends_nothing_twice(
    office: Site, monkeypatch: pytest.MonkeyPatch,
) -> None:
    """The register is away after the first of two; then the other one is recorded."""
    jane = office.browser("jane")
    page = shown(jane, "remind", "18 March 2025", [1, 2])
    sender, send, sent = office.parts.desk.sender, office.parts.desk.sender.send, list[bytes]()

    def once(line: bytes) -> bytes:
        sent.append(line)
        if len(sent) > 1:
            raise Ended("the register is away", False)
        return send(line)

    monkeypatch.setattr(sender, "send", once)
    row = confirmed(jane, page).location
    text = jane.get(row).text
    assert "1 of 2 reminders recorded" in text and "the register is away" in text
    assert "Record the other 1" in text
    monkeypatch.setattr(sender, "send", send)
    assert jane.post(row).status_code == 303
    assert "2 of 2 reminders recorded" in jane.get(row).text
    places = office.parts.desk.now().places
    assert {it for it, place in places.items() if place.reminded} == {1, 2}
    assert len(sent) == 2 and len(office.copied) == 1


def test_a_row_stops_where_the_register_is_closed(office: Site) -> None:
    """Before the first one, without a copy; and goes on once it is open."""
    jane, desk = office.browser("jane"), office.parts.desk
    page, is_open = shown(jane, "remind", "18 March 2025", [1, 4]), desk.closed
    desk.closed = lambda: "Closed for a draw."
    path = confirmed(jane, page).location
    row = office.parts.notices.get(1)
    assert row.said == "Closed for a draw. Nothing was recorded." and not office.copied
    assert [(it.state, it.said) for it in row.notices] == [("waits", ""), ("waits", "")]
    with office.parts.store.writing() as db:
        # (as where the application ends right before it sends one)
        db.execute("UPDATE sending SET state='sending' WHERE place=1")
    desk.closed = is_open
    assert jane.post(path).status_code == 303
    row = office.parts.notices.get(1)
    assert row.said == "" and row.count("done") == 2


def test_a_row_that_was_killed_is_settled_by_a_look(office: Site) -> None:
    """The first was sent and its answer lost with the application: it is not sent again."""
    jane = office.browser("jane")
    page = shown(jane, "remind", "18 March 2025", [1, 2])
    row = confirmed(jane, page).location
    with office.parts.store.writing() as db:
        db.execute("UPDATE sending SET state='sending', said='' WHERE place=0")
    count_before = len(office.parts.history.entries)
    assert "2 of 2 reminders recorded" in jane.get(row).text
    sends = [it for it in office.parts.history.entries if it.what == "sends"]
    assert len(sends) == 2 and len(office.parts.history.entries) == count_before


def test_an_equal_reminder_of_before_is_not_this_one(office: Site) -> None:
    """The application ended before it sent one: what was sent before that does not say that it is
    recorded.
    """
    jane = office.browser("jane")
    row = confirmed(jane, shown(jane, "remind", "18 March 2025", [1, 2])).location
    with office.parts.store.writing() as db:
        db.execute("UPDATE sending SET state='sending', said='', after=? WHERE place=0",
                   (len(office.parts.history.entries),))
    text = jane.get(row).text
    assert "1 of 2 reminders recorded" in text and "Record the other 1" in text


def test_an_offer_that_changed_since_it_was_shown_is_not_withdrawn(
    office: Site, address: str, monkeypatch: pytest.MonkeyPatch,
) -> None:
    """A colleague's accept that comes while the register is copied: it is compared before it is
    sent, and who recorded it is said.
    """
    beside(office, address, [
        {"cmd": "remind", "child": it, "school": "ELM", "day": "2025-03-18"} for it in (2, 3)])
    jane, make = office.browser("jane"), office.parts.copies.make
    question = shown(jane, "lapse", "2 April 2025", [2, 3])

    def meanwhile(*given: Any) -> int:
        accept = {"cmd": "accept", "child": 3, "school": "ELM"}
        assert office.parts.desk.send(Person("bo", "officer"), accept).is_done
        return make(*given)

    monkeypatch.setattr(office.parts.copies, "make", meanwhile)
    confirmed(jane, question)
    row = office.parts.notices.get(1)
    assert [it.state for it in row.notices] == ["done", "failed"]
    assert row.notices[1].said.startswith("Child 3: bo recorded accept at ")


def test_who_may_have_answered_is_not_ticked_at_first(office: Site) -> None:
    """An answer in a batch, by its number or by a name alone; 'Tick all' has them too."""
    jane, bo = office.browser("jane"), office.browser("bo")
    bo.get("/answers/")
    assert bo.post("/answers/", {"entry": "2"}).status_code == 303
    path, ticks = "/notices/remind?day=18 March 2025", r'name="child" value="(.)"[^>]* checked'
    assert re.findall(ticks, jane.get(path).text) == list("1345")
    assert re.findall(ticks, jane.get(f"{path}&tick=all").text) == list("12345")


def test_reminders_of_all_who_are_due_lead_straight_to_their_question(
    office: Site, monkeypatch: pytest.MonkeyPatch,
) -> None:
    """Which has what the list has beside each, and a way to the list. Not where somebody's answer
    waits in a batch, nor where nobody is due; and withdrawals never.
    """
    monkeypatch.setattr(screen, "today", lambda: datetime.date(2025, 3, 18))
    jane, bo = office.browser("jane"), office.browser("bo")
    office.parts.notes.add(Person("bo", "officer"), 4, NAMES[4], "Abroad until 20 March.")
    found = jane.get("/notices/remind")
    assert found.status_code == 303 and found.location.startswith("/notices/remind/")
    question = jane.get(found.location)
    page = Page(question.text)
    assert page.buttons() == ["Record 5 reminders of 18 March 2025"]
    assert re.findall(r"<li>child ([0-9]+),", question.text) == list("12345")
    assert "/children/4?part=notes#kept" in page.stops
    ticks = r'name="child" value="(.)"[^>]* checked'
    assert "/notices/remind?page=1" in page.stops
    assert re.findall(ticks, jane.get("/notices/remind?page=1").text) == list("12345")
    assert jane.get("/notices/lapse").status_code == 200
    bo.get("/answers/")
    assert bo.post("/answers/", {"entry": "2"}).status_code == 303
    assert re.findall(ticks, jane.get("/notices/remind").text) == list("1345")
    assert confirmed(jane, question).status_code == 409
    page = Page(bo.get("/answers/").text)
    assert press(bo, "/answers/remove", page, "Remove 2").status_code == 303
    row = jane.get(confirmed(jane, question).location)
    assert "5 of 5 reminders recorded." in row.text
    found = jane.get("/notices/remind")
    assert found.status_code == 200 and 'name="child"' not in found.text


def test_a_row_that_runs_says_so_while_the_register_is_away(
    office: Site, monkeypatch: pytest.MonkeyPatch,
) -> None:
    """The answer comes before the copy is made, and the page looks again by itself."""
    jane, may_end = office.browser("jane"), threading.Event()
    make, read = office.parts.copies.make, office.parts.desk.register

    def slow(*given: Any) -> Any:
        assert may_end.wait(600)
        return make(*given)

    monkeypatch.setattr(office.parts.copies, "make", slow)
    monkeypatch.setattr("office.web.answers.views.notices.WAIT_SECONDS", 0.05)
    row = confirmed(jane, shown(jane, "remind", "18 March 2025", [2, 3])).location
    monkeypatch.setattr(office.parts.desk, "register", away)
    page = jane.get(row)
    assert page.status_code == 200 and f'id="row" data-running="{row}">' in page.text
    assert "0 of 2 reminders recorded. The rest is being recorded" in page.text
    may_end.set()
    job = office.parts.jobs.last(f'notice {row.rsplit("/", 1)[1]}')
    assert job and job.is_over.wait(600)
    monkeypatch.setattr(office.parts.desk, "register", read)
    page = jane.get(row).text
    assert "2 of 2 reminders recorded." in page and "is being recorded" not in page


def away() -> Any:
    """A register that does not answer."""
    raise Refused("the register does not answer now")


def test_an_offer_is_not_withdrawn_while_its_answer_waits_in_a_pile(
    office: Site, address: str, monkeypatch: pytest.MonkeyPatch,
) -> None:
    """Nobody is ticked; each row says what to look at; and the batches are read again at the
    end.
    """
    beside(office, address, [
        {"cmd": "remind", "child": it, "school": "ELM", "day": "2025-03-18"} for it in (2, 3, 4)])
    jane, bo = office.browser("jane"), office.browser("bo")
    bo.get("/answers/")
    assert bo.post("/answers/", {"entry": "2-"}).status_code == 303
    path = "/notices/lapse?day=2 April 2025"
    page = jane.get(path).text
    assert re.findall(r'name="child" value="([0-9]+)"', page) == list("234")
    assert not re.findall(r'name="child"[^>]* checked', page)
    assert re.findall(r'name="child" value="([0-9]+)"[^>]* checked', jane.get(
        f"{path}&tick=all").text) == ["3", "4"]
    waits = "bo has an answer for this child in a batch (decline)"
    letter = "the letter of the reminder of 18 March 2025 is not recorded as sent"
    assert page.count(waits) == 1 and page.count(letter) == 3
    assert re.search(r'value="2"[^>]* disabled', page)
    found = shown(jane, "lapse", "2 April 2025", [2, 3])
    assert found.status_code == 409 and f"hild 2: {waits}. Nothing was recorded" in found.text
    question = shown(jane, "lapse", "2 April 2025", [3, 4])
    assert question.status_code == 200 and question.text.count(letter) == 2
    bo.post("/answers/", {"entry": "4"})
    found = confirmed(jane, question)
    assert found.status_code == 409 and "hild 4: bo has an answer" in found.text
    day = datetime.date(2025, 4, 2)
    due = [it for it in notices.due(office.parts.desk.now(), "lapse", day) if it.child == 4]
    # (and once more right before it is stored, as the answer may have come since)
    with pytest.raises(Refused, match="child 4: bo has an answer"):
        office.parts.notices.add(Person("jane", "officer"), "a key", "lapse", day, due)
    assert count(office, "notice_row") == 0
    question = shown(jane, "lapse", "2 April 2025", [3])
    make = office.parts.copies.make

    def meanwhile(purpose: str, *more: Any) -> int:
        office.parts.piles.add(
            "bo", office.parts.desk.now(), [Meant("3", "accept", 3, "ELM")])
        return make(purpose, *more)

    monkeypatch.setattr(office.parts.copies, "make", meanwhile)
    row = confirmed(jane, question)
    assert "bo has an answer for this child in a batch (accept). Nothing was recorded." in jane.get(
        row.location).text
    assert {2, 3, 4} <= set(office.parts.desk.now().places)


def test_an_answer_that_may_be_of_a_child_is_said_beside_it(office: Site) -> None:
    """One of which a batch has the name alone; and what an answer is, in words."""
    office.add("bo", "officer")
    with office.parts.store.writing() as db:
        db.executemany(
            "INSERT INTO sending (kind, batch, place, about, seen, state, said) VALUES ('answer',"
            " 'bo', 0, json_object('kind', ?, 'child', ?, 'name', ?), '', ?, '')",
            [("accept", None, NAMES[2], "waits"), ("leave_list", 3, "", "waits"),
             ("accept", None, NAMES[1], "done"), ("accept", 4, "", "done")])
    marks = Marks(office.parts.letter_lists, office.parts.desk.now())
    assert marks.of(2) == ("bo has an answer in a batch that may be of this child",)
    assert marks.of(3) == ("bo has an answer for this child in a batch (leave the list)",)
    assert marks.of(1) == marks.of(4) == ()


def test_a_child_that_is_looked_after_is_named_before_a_withdrawal(
    office: Site, address: str,
) -> None:
    """On the list, and in the question."""
    beside(office, address, [
        {"cmd": "remind", "child": 2, "school": "ELM", "day": "2025-03-18"},
        {**child(2, 200, NAMES[2]), "cmd": "amend", "looked_after": True}])
    jane = office.browser("jane")
    assert "looked after, or was" in jane.get("/notices/lapse?day=2 April 2025").text
    question = shown(jane, "lapse", "2 April 2025", [2])
    assert "looked after, or was" in question.text
    # (what is said beside a child is confirmed with it)
    beside(office, address, [{**child(2, 200, NAMES[2]), "cmd": "amend"}])
    found = confirmed(jane, question)
    assert found.status_code == 409 and "What was shown has changed meanwhile" in found.text
    assert "looked after, or was" not in found.text and count(office, "notice_row") == 0


DAY = datetime.date(2025, 3, 18)


def row_of(office: Site, *children: int) -> tuple[notices.Notices, int]:
    """A row of reminders of these children, of which none is recorded."""
    found = office.parts.notices
    chosen = [notices.Due(it, "ELM", NAMES[it], {}, "{}") for it in children]
    return found, found.add(JANE, "one", notices.REMIND, DAY, chosen)


def test_a_row_that_cannot_be_recorded_now_makes_no_copy(tmp_path: pathlib.Path) -> None:
    """While a draw closes the register: the copy is from before the reminders, and after the draw.
    """
    with site(tmp_path, "http://127.0.0.1:9") as office:
        found, number = row_of(office, 1, 2)
        office.parts.desk.closed = lambda: "Recording is paused for round 1 by hal since 10:00."
        found.send_all(JANE, number)
        row = found.get(number)
        assert row.said == (
            "Recording is paused for round 1 by hal since 10:00. Nothing was recorded.")
        assert not office.copied and row.copy is None and row.count("waits") == 2
        office.parts.desk.closed = str
        found.send_all(JANE, number)
        assert office.copied == ["before reminders of 2025-03-18"]


def test_a_form_without_its_key_records_nothing(tmp_path: pathlib.Path) -> None:
    """As it would be taken for the first such one, however much later it comes."""
    with site(tmp_path, "http://127.0.0.1:9") as office:
        found, _ = row_of(office, 1)
        for _ in range(2):
            with pytest.raises(Refused, match="the form is not whole"):
                found.add(JANE, "", notices.REMIND, DAY, [])
        assert count(office, "notice_row") == 1


def test_a_row_that_ends_while_its_page_is_made_is_looked_at_again(
    tmp_path: pathlib.Path, monkeypatch: pytest.MonkeyPatch
) -> None:
    """The page has what was so before, and offers no button to record the rest."""
    with site(tmp_path, "http://127.0.0.1:9") as office:
        _, number = row_of(office, 1)
        jane, answers = office.browser("jane"), [True]
        monkeypatch.setattr(office.parts.desk, "register", lambda: SimpleNamespace(children={}))
        monkeypatch.setattr(
            notices.Notices, "is_running", lambda *_: answers.pop() if answers else False)
        page = jane.get(f"/notices/rows/{number}").text
        assert "0 of 1 reminder recorded" in page
        assert "Look again" in page and "Record the other 1" not in page
        assert "Record the other 1" in jane.get(f"/notices/rows/{number}").text


def test_a_register_that_is_away_is_no_wrong_day(tmp_path: pathlib.Path) -> None:
    """The page says so, and marks no field."""
    with site(tmp_path, "http://127.0.0.1:9") as office:
        page = office.browser("jane").get("/notices/remind?day=18 March 2025")
        assert page.status_code == 503 and "The register does not answer now" in page.text


def test_an_answer_that_is_not_understood_is_named_so(tmp_path: pathlib.Path) -> None:
    """A withdrawal waits for it as for any other, and a reminder does not."""
    with site(tmp_path, "http://127.0.0.1:9") as office:
        found, _ = row_of(office, 1)
        office.add("bo", "officer")
        with office.parts.store.writing() as db:
            db.execute("INSERT INTO sending (kind, batch, place, about, seen, state, said) VALUES"
                       " ('answer', 'bo', 0, json_object('kind', '', 'child', 2), '', 'waits', '')")
        said = "bo has an answer for this child in a batch (not understood)"
        assert found.kept(notices.LAPSE) == {2: said} and found.kept(notices.REMIND) == {}
        found.see_none_kept(notices.REMIND, [1, 2])
        with pytest.raises(Refused, match=re.escape(f"child 2: {said}. Nothing was recorded")):
            found.see_none_kept(notices.LAPSE, [1, 2])
