"""The screens of letters over the real program: whom, sets made in the background, what was sent,
and drafts. Expected texts are worked out by hand.
"""
import dataclasses
import datetime
import io
import json
import pathlib
import re
from collections.abc import Iterator
from typing import Any

import openpyxl
import pytest
from applications import ORIGIN, Browser, Site, site
from conftest import make
from draw_site import machine_over
from letter_site import (
    HAS, NAMES, ROUND, SENT_ON, after_round, asked, audited, beside, commands, count, hidden,
    letter_pages, made, pages, waited,
)
from pages import Page, press, tasks
from register_files import Refused
from served import do_over, served

from office.web.letters import proved_texts
from office.web.letters import whom as letters_whom
from office.web.letters.sets import Asked
from office.web.letters.views import letters as screen
from office.web.machinery import choices
from office.web.people.roles import Person


@pytest.fixture(name="address", scope="module")
def address_fixture(tmp_path_factory: pytest.TempPathFactory) -> Iterator[str]:
    """A register that is served, after its round."""
    with after_round(tmp_path_factory.mktemp("round")) as found:
        yield found


@pytest.fixture(name="office")
def office_fixture(address: str, tmp_path: pathlib.Path) -> Iterator[Site]:
    """An application over it."""
    with audited(tmp_path, address) as found:
        yield found


def test_letters_are_printed_in_the_order_chosen_each_on_its_own_page(office: Site) -> None:
    """By name, two of five left out: who is offered what, and by when to answer; names as they are;
    no mark of a draft, since the audit of the round agrees.
    """
    jane = office.browser("jane")
    form = asked(jane, "offers", "1", order="name", child=["1", "2", "5"])
    path = made(jane, form)
    found = letter_pages(jane, path)
    # (< comes before A, and A before B)
    assert [next(n for n, name in NAMES.items() if name in page) for page in found] == [2, 1, 5]
    for number, page in zip((2, 1, 5), found):
        assert f"A place at {HAS[number]} is offered to {NAMES[number]}." in page
        assert "tell us by 17 March 2025 whether you accept" in page
        assert f"Child {number} · page 1 of 1" in page and "DRAFT" not in page
    assert "position 1 of 4" in found[0] and "position 4 of 4" in found[2]
    page = jane.get(path).text
    assert "Offers: round 1 of 3 March 2025, 3 of 5" in page
    assert "all letters of this one state" in page


def test_the_text_of_a_letter_is_shown(office: Site) -> None:
    """Of a set, as it will be sent; of a child, as it was. Names are as they are."""
    jane = office.browser("jane")
    path = made(jane, asked(jane, "offers", "1", child=["2"]))
    link = re.search(r'href="(/letters/texts/[0-9]+)">Show the letter<', jane.get(path).text)
    assert link
    page = Page(jane.get(link[1]).text)
    text = " ".join(page.by_id["text"].split())
    assert f"A place at Elm is offered to {NAMES[2]}. It is the second preference" in text
    assert "School · Preference · Your child there · Distance · Waiting list" in text
    assert "font-size" not in text and "not recorded as sent" in page.text
    assert recorded(jane, path)[0] == 303
    assert f'href="{link[1]}">Show the letter<' in (
        jane.get("/children/2?part=letters").text)
    assert "sent on 3 March 2025" in jane.get(link[1]).text
    merged = made(jane, asked(jane, "offers", "1", child=["1"], kind="merge"))
    assert "Show the letter" not in jane.get(merged).text
    assert jane.get("/letters/texts/2").status_code == 404
    assert jane.get("/letters/texts/99").status_code == 404


def test_whom_letters_go_to_is_ticked_from_page_to_page(
    office: Site, monkeypatch: pytest.MonkeyPatch,
) -> None:
    """What was chosen else on the form goes too."""
    monkeypatch.setattr(choices, "PAGE", 2)
    jane = office.browser("jane")
    form = asked(jane, "offers", "1", child=["2"])
    form |= {"others": "3,4,5", "kind": "merge", "page": "2"}
    page = jane.get(jane.post("/letters/make", form).location)
    assert re.findall(r'name="child" value="(.)"[^>]* checked', page.text) == ["3", "4"]
    assert hidden(page, "others") == "2,5" and '<option value="merge" selected' in page.text
    form = {**form, "child": ["4"], "others": "2,5"}
    del form["page"]
    assert ", 3 of 5" in jane.get(made(jane, form)).text


def test_on_both_sides_each_letter_begins_on_a_new_sheet(office: Site) -> None:
    """An empty page is behind each letter of one page."""
    jane = office.browser("jane")
    path = made(jane, asked(jane, "offers", "1", child=["1", "4"], double="on"))
    assert [bool(it) for it in letter_pages(jane, path)] == [True, False, True, False]


def test_a_mail_merge_has_all_fields_as_texts(office: Site) -> None:
    """Also days, numbers, and a name that a spreadsheet would run."""
    jane = office.browser("jane")
    path = made(jane, asked(jane, "offers", "1", kind="merge"))
    page = openpyxl.load_workbook(io.BytesIO(jane.get(f"{path}/file").data)).active
    header, *rows = list(page.iter_rows())
    names = [it.value for it in header]
    assert len(rows) == 5 and names[:3] == ["draft", "child", "name"]
    cells = [it for row in rows for it in row if it.value is not None]
    assert {it.data_type for it in cells} == {"s"}
    third = dict(zip(names, (it.value for it in rows[2])))
    assert (third["child"], third["name"], third["school_name"]) == ("3", "=SUM(A1)", "Elm")
    assert (third["offered"], third["answer_by_words"], third["metres"]) == (
        "2025-03-03", "17 March 2025", "8700")
    assert third["draft"] is None


def test_two_clicks_and_a_reload_make_one_set(office: Site) -> None:
    """Also the same question of another page, while its set is not made yet."""
    jane, hal = office.browser("jane"), office.browser("hal")
    form = asked(jane, "part", "1")
    first = jane.post("/letters/make", form).location
    second = {**asked(hal, "part", "1"), "child": form["child"]}
    assert jane.post("/letters/make", form).location == first
    assert hal.post("/letters/make", second).location == first
    waited(jane, first)
    assert jane.post("/letters/make", form).location == first
    assert count(office, "letter_set") == 1 and count(office, "letter") == 5


def recorded(
    browser: Browser, path: str, day: str = "3 March 2025", **more: str,
) -> tuple[int, str]:
    """The status and the page after 'Record as sent'."""
    browser.get(f"{path}/file")
    many = hidden(browser.get(path), "count")
    found = browser.post(f"{path}/record", {**SENT_ON, "day": day, "count": many, **more})
    return found.status_code, found.text


def amended(name: str) -> dict[str, object]:
    """The command that gives child 4 a name."""
    return {"cmd": "amend", "child": 4, "name": name, "east": 400, "north": 0,
            "looked_after": False, "flags": [], "siblings": []}


def test_what_was_sent_is_with_each_child_as_it_was(office: Site, address: str) -> None:
    """A letter is the one that was sent, whatever becomes of the child afterwards."""
    jane = office.browser("jane")
    path = made(jane, asked(jane, "offers", "1", child=["2", "4"]))
    before = letter_pages(jane, path)
    assert "Sent by" not in jane.get("/children/4?part=letters").text
    page = jane.get(path).text
    assert "Record 2 letters as sent" in page
    assert recorded(jane, path, "1 January 2099")[0] == 400
    assert recorded(jane, path, "someday")[0] == 400
    assert recorded(jane, path)[0] == 303
    entry = office.parts.history.entries[-1]
    assert (entry.what, entry.who, entry.about["children"], entry.about["day"]) == (
        "recorded letters as sent", "jane", [2, 4], "2025-03-03")
    beside(office, address, [amended("Other Name")])
    page = jane.get("/children/4?part=letters").text
    table = page[page.index('id="letters"'):]
    assert "3 March 2025" in table and "Standard letter, version 1" in table and "jane" in table
    link = re.search(r'href="(/letters/again/[0-9]+)"', page)
    assert link
    assert pages(jane.get(link[1]).data) == [before[1]]
    assert "Siân Tŷ Gwyn" in before[1]
    assert "1 letter sent" not in jane.get("/children/1?part=letters").text
    beside(office, address, [amended(NAMES[4])])


def due_letters(browser: Browser) -> list[str]:
    """What the first screen says of letters, with how many."""
    found = tasks(browser.get("/").text).get("Due now", [])
    return [f"{title}: {state}" for title, _, state in found if "letters" in title]


def test_the_season_says_how_many_letters_are_not_recorded_as_sent(office: Site) -> None:
    """Until each child of the round has one, for those who may make letters."""
    jane, rita = office.browser("jane"), office.browser("rita", "reader")
    assert due_letters(jane) == ["Send the letters of round 1: 5 left"]
    assert not due_letters(rita)
    path = made(jane, asked(jane, "offers", "1", child=["2", "4"], kind="merge"))
    assert due_letters(jane) == ["Send the letters of round 1: 5 left"]
    assert recorded(jane, path)[0] == 303
    assert due_letters(jane) == ["Send the letters of round 1: 3 left"]
    path = made(jane, asked(jane, "part", "1", child=["1", "3", "5"], kind="merge"))
    assert recorded(jane, path)[0] == 303
    assert not due_letters(jane) and not due_letters(office.browser("hal", "head"))


TOLD = [
    ("draw 1 A offered", True), ("draw 1 A accepted", True), ("draw 1 B offered", False),
    ("draw 1 none", True), ("draw 2 B offered", True), ("reminder A 2025-03-17", True),
    ("reminder B 2025-03-17", False), ("withdrawal 2025-03-31", False), ("draw None none", False),
]


def test_a_letter_tells_of_its_own_result_and_not_of_another() -> None:
    """The result is A by draw 1: a letter of another result of that draw was of one undone."""
    for about, is_told in TOLD:
        assert letters_whom.is_told(about, 1, "A") == is_told, about
    assert letters_whom.is_told("draw 1 none", 1, None)
    assert not letters_whom.is_told("draw 1 none", 2, "A")


def test_nobody_is_sent_a_letter_twice_by_a_slip(office: Site) -> None:
    """Who has it is not ticked, with who sent it; and what was made twice is not recorded twice."""
    jane, hal = office.browser("jane"), office.browser("hal")
    forms = [asked(it, "offers", "1", child=["1", "2"]) for it in (jane, hal)]
    one, other = made(jane, forms[0]), made(hal, {
        **forms[1], "child": ["1", "2", "3"], "day_of_letters": "4 March 2025"})
    page = hal.get("/letters/whom?whom=offers&value=1").text
    assert page.count("made by") == 3
    assert recorded(jane, one)[0] == 303
    again = asked(hal, "offers", "1")
    assert again["child"] == ["3", "4", "5"]
    page = hal.get("/letters/whom?whom=offers&value=1").text
    assert page.count("sent on 3 March 2025, by jane") == 2
    assert "2 children have this letter already" in page
    day = {"day": "4 March 2025", "sure_of": "2025-03-04"}
    status, page = recorded(hal, other, **day)
    assert status == 409 and "2 children have this letter already. Nothing was recorded" in page
    assert count(office, "letter_set WHERE sent IS NOT NULL") == 1
    shown = hidden(hal.get(other), "agreed")
    assert recorded(jane, made(jane, {**forms[0], "key": "third", "child": ["3"]}))[0] == 303
    # (of child 3 it was not said that it has the letter)
    status, page = recorded(hal, other, agreed=shown, **day)
    assert status == 409 and "3 children have this letter already. Nothing was recorded" in page
    late = hal.post(f"{one}/record", {"count": "2", **SENT_ON})
    assert late.status_code == 400
    assert "These letters were recorded already, as sent on 3 March 2025 by jane." in late.text
    assert recorded(hal, other, agreed=hidden(hal.get(other), "agreed"), **day)[0] == 303
    assert office.parts.history.entries[-1].about["again"] == [1, 2, 3]


def test_a_letter_about_something_else_is_no_second_one(tmp_path: pathlib.Path) -> None:
    """Child 1 has the letter of its offer, and now one of its reminder; child 2 the same again."""
    with site(tmp_path, "http://127.0.0.1:1") as office:
        sets = office.parts.letters
        with office.parts.store.writing() as db:
            db.executemany(
                "INSERT INTO letter_set (id, key, who, at, asked, state, total, sent, sent_by)"
                " VALUES (?, ?, 'jane', '', '{}', 'made', 2, ?, 'jane')",
                [(1, "one", "2025-03-03"), (2, "two", None)])
            db.executemany(
                "INSERT INTO letter (set_id, place, child, about, words, html)"
                " VALUES (?, ?, ?, ?, '', x'')",
                [(1, 0, 1, "draw 1 A offered"), (1, 1, 2, "draw 1 B offered"),
                 (2, 0, 1, "reminder A 2025-03-17"), (2, 1, 2, "draw 1 B offered")])
        assert sets.again(2) == [(2, "sent on 3 March 2025, by jane")]


def test_neither_drafts_nor_fewer_letters_are_recorded_as_sent(tmp_path: pathlib.Path) -> None:
    """Nor those of another number than was shown, also where it is less."""
    jane, day = Person("jane", "officer"), datetime.date(2025, 3, 17)
    with site(tmp_path, "http://127.0.0.1:1") as office:
        sets = office.parts.letters
        asked_for = Asked("two", [1, 2], sets.templates.standard(), 1, "2025-03-17", "merge")
        with office.parts.store.writing() as db:
            db.execute("INSERT INTO letter_set (id, key, who, at, asked, state, total, is_draft)"
                       " VALUES (1, 'one', 'jane', '', ?, 'made', 2, 1)",
                       (json.dumps(dataclasses.asdict(asked_for)),))
            db.executemany("INSERT INTO letter (set_id, place, child, about, words, html)"
                           " VALUES (1, ?, ?, 'draw 1 none', '', x'')", [(0, 1), (1, 2)])
        with pytest.raises(Refused, match="these letters are drafts"):
            sets.record(jane, 1, day, 2, "")
        sets.change(1, "is_draft=0")
        with pytest.raises(Refused, match="the set has changed since it was shown"):
            sets.record(jane, 1, day, 1, "")
        with pytest.raises(Refused, match="nobody has downloaded these letters"):
            sets.record(jane, 1, day, 2, "")
        assert not sets.get(1).sent
        sets.change(1, "taken=?", "2025-03-17T10:00:00.000+00:00")
        sets.record(jane, 1, day, 2, "")
        assert sets.get(1).sent == "2025-03-17"


def test_a_child_that_keeps_its_place_in_a_later_round_has_no_letter_of_an_offer(
    tmp_path: pathlib.Path,
) -> None:
    """OAK has a second place: of the four that wait there child 2 lives next and moves; all others,
    who took part too, stay where they are.
    """
    again = {"cmd": "round", "draw": 2, "day": "2025-03-17", "lots": [1, 2, 3, 4]}
    make(tmp_path / "reg.db", [
        *commands(), ROUND, {"cmd": "raise_pan", "school": "OAK", "pan": 2}, again])
    with served(tmp_path / "reg.db") as (address, _), audited(tmp_path, address) as office:
        jane = office.browser("jane")
        assert asked(jane, "offers", "2")["child"] == ["2"]
        assert asked(jane, "part", "2")["child"] == list("12345")


def test_letters_of_a_register_that_changes_meanwhile_are_not_made(
    tmp_path: pathlib.Path, monkeypatch: pytest.MonkeyPatch,
) -> None:
    """All letters of a set are of one state, also where another program changes it meanwhile."""
    with after_round(tmp_path) as address, audited(tmp_path, address) as office:
        jane, real = office.browser("jane"), proved_texts.served

        def late(*given: Any) -> Any:
            do_over(address, [{"cmd": "decline", "child": 5, "school": "ELM"}])
            return real(*given)

        form = asked(jane, "offers", "1", child=["1", "2"])
        monkeypatch.setattr(proved_texts, "served", late)
        page = waited(jane, jane.post("/letters/make", form).location)
        assert "the register was changed while its letters were read" in page


def test_a_withdrawal_that_the_register_has_not_is_told_to_nobody(office: Site) -> None:
    """As where somebody restored it past the application: the child has its offer."""
    lapse = {"cmd": "lapse", "child": 2, "school": "ELM", "day": "2025-04-02"}
    history = office.parts.history
    entry = history.add("jane", "sends", {"command": lapse})
    history.add("jane", "answer", {"of": entry.number, "answer": {"done": True}})
    page = office.browser("jane").get("/letters/whom?whom=withdrawn&value=2 April 2025").text
    assert "Withdrawn on 2 April 2025" in page and 'name="child"' not in page


def test_a_day_on_which_letters_cannot_have_been_sent_is_refused(
    office: Site, monkeypatch: pytest.MonkeyPatch,
) -> None:
    """Not before their date, whatever is ticked; and a day more than a week ago is asked about."""
    jane = office.browser("jane")
    path = made(jane, asked(jane, "offers", "1", child=["1", "2"]))
    for day, given in (("2 March 2025", "2025-03-02"), ("3 March 2024", "2024-03-03")):
        status, page = recorded(jane, path, day, sure_of=given)
        assert status == 400 and "3 March 2025 or a later day" in page
    for given in ("", "2025-03-04"):
        status, page = recorded(jane, path, "3 March 2025", sure_of=given)
        assert status == 409 and "is more than a week before today" in page
        assert "Monday, 3 March 2025" in page and "They were sent on 3 March 2025" in page
    assert count(office, "letter_set WHERE sent IS NOT NULL") == 0
    assert hidden(jane.get(path), "day") == "3 March 2025"
    monkeypatch.setattr(screen, "today", lambda: datetime.date(2025, 3, 10))
    assert recorded(jane, path, "3 March 2025", sure_of="")[0] == 303


def test_letters_that_a_clock_has_made_later_than_now_are_recorded(
    office: Site, monkeypatch: pytest.MonkeyPatch,
) -> None:
    """It was ahead, as was the date that it proposed for them, and is right since: they were sent
    today, and not before.
    """
    jane = office.browser("jane")
    ahead = datetime.date.today().isoformat()
    path = made(jane, asked(jane, "offers", "1", child=["1"], day_of_letters=ahead))
    monkeypatch.setattr(screen, "today", lambda: datetime.date(2025, 3, 10))
    status, page = recorded(jane, path, "9 March 2025")
    assert status == 400 and "10 March 2025 or a later day" in page
    assert recorded(jane, path, "10 March 2025")[0] == 303


def test_a_set_of_another_number_is_not_recorded(office: Site) -> None:
    """Only so many as the button named."""
    jane = office.browser("jane")
    path = made(jane, asked(jane, "offers", "1", child=["1", "2"]))
    found = jane.post(f"{path}/record", {"count": "3", **SENT_ON})
    assert found.status_code == 400 and "has changed since it was shown" in found.text
    assert count(office, "letter_set WHERE sent IS NOT NULL") == 0


def test_a_file_is_kept_for_a_day_and_an_hour_after_it_was_taken(office: Site) -> None:
    """After that it is gone, and the letters can still be recorded as sent."""
    jane = office.browser("jane")
    one, other = (made(jane, asked(jane, "offers", "1", child=[it])) for it in ("1", "2"))
    letter_pages(jane, other)
    moment = datetime.datetime.now(datetime.timezone.utc)
    ago = {it: (moment - datetime.timedelta(hours=it)).isoformat() for it in (1.1, 23, 25)}
    store = office.parts.store
    with store.writing() as db:
        db.execute("UPDATE letter_set SET ended=?, taken=NULL WHERE id=1", (ago[23],))
        db.execute("UPDATE letter_set SET taken=? WHERE id=2", (ago[1.1],))
    # (as an application that was begun since, which has stored none of these moments)
    office.parts.letters.stamped.clear()
    jane.get("/letters/")
    assert letter_pages(jane, one)
    assert jane.get(f"{other}/file").status_code == 409
    with store.writing() as db:
        db.execute("UPDATE letter_set SET ended=? WHERE id=1", (ago[25],))
    jane.get("/letters/")
    assert jane.get(f"{one}/file").status_code == 409
    assert list((office.parts.config.folder / "letters").iterdir()) == []
    assert recorded(jane, one)[0] == 303
    assert "sent on 3 March 2025, by jane" in jane.get(one).text


def test_a_set_can_be_ended_and_removed(
    office: Site, monkeypatch: pytest.MonkeyPatch,
) -> None:
    """Nothing of it is left: no file, no letter."""
    jane = office.browser("jane")
    with monkeypatch.context() as patch:
        patch.setattr(office.parts.letters, "wake", lambda: None)
        path = jane.post("/letters/make", asked(jane, "part", "1")).location
        ended = press(jane, path, Page(jane.get(path).text), "End these letters")
        assert ended.status_code == 303
        assert "ended before all were made" in jane.get(path).text
    path = made(jane, asked(jane, "part", "1"))
    removed = press(jane, path, Page(jane.get(path).text), "Remove this file and its 5 letters")
    assert removed.status_code == 303
    assert "the file is removed" in jane.get(path).text
    assert list((office.parts.config.folder / "letters").iterdir()) == []
    assert count(office, "letter") == 0


def test_letters_that_were_taken_meanwhile_are_not_removed_by_an_older_page(
    office: Site, monkeypatch: pytest.MonkeyPatch,
) -> None:
    """Neither by the end of a set that is made since, nor by the removal of a file that a colleague
    has taken and posted: nobody could record that these were sent.
    """
    jane, hal = office.browser("jane"), office.browser("hal")
    with monkeypatch.context() as patch:
        patch.setattr(office.parts.letters, "wake", lambda: None)
        path = jane.post("/letters/make", asked(jane, "offers", "1", child=["1", "2"])).location
        running = Page(jane.get(path).text)
    jane.get("/letters/")
    waited(jane, path)
    untaken = Page(jane.get(path).text)
    assert hal.get(f"{path}/file").status_code == 200
    for page, button in ((running, "End these letters"),
                         (untaken, "Remove this file and its 2 letters")):
        late = press(jane, path, page, button)
        assert late.status_code == 409 and Page(late.text).said() == (
            "Nothing was ended or removed: these letters are made, downloaded or sent since they"
            " were shown.")
        assert count(office, "letter") == 2
    page = Page(jane.get(path).text)
    assert page.by_id["taken"].startswith("Somebody downloaded this file on ")
    assert recorded(hal, path)[0] == 303
    late = press(jane, path, page, "Remove this file and its 2 letters")
    assert late.status_code == 409 and "sent on 3 March 2025, by hal" in late.text


def test_a_look_at_the_head_of_a_file_takes_no_letters(office: Site) -> None:
    """As of a program that looks whether there is one: nobody has the letters by it."""
    jane = office.browser("jane")
    path = made(jane, asked(jane, "offers", "1", child=["1"]))
    assert jane.client.head(f"{path}/file", base_url=ORIGIN).status_code == 200
    found = jane.post(f"{path}/record", {**SENT_ON, "count": "1"})
    assert found.status_code == 400
    assert "Nobody has downloaded these letters yet" in Page(found.text).said()
    assert not office.parts.store.rows("SELECT 1 FROM letter_set WHERE taken IS NOT NULL")


def test_a_date_of_letters_that_is_far_away_is_asked_about(office: Site) -> None:
    """Before the file is taken: it stands on each letter."""
    jane, today = office.browser("jane"), datetime.date.today()
    for days, is_far in ((7, False), (8, True), (-8, True)):
        day = (today + datetime.timedelta(days)).isoformat()
        path = made(jane, asked(jane, "offers", "1", child=["1"], day_of_letters=day))
        said = Page(jane.get(path).text).by_id.get("far", "")
        assert ("is it right?" in said) == is_far, (days, said)


def test_what_is_not_right_is_said_and_nothing_is_lost(office: Site) -> None:
    """A day, a template, a child that is not on the list, nobody; a draw that is not there."""
    jane = office.browser("jane")
    form = asked(jane, "offers", "1", child=["2"])
    cases: list[tuple[dict[str, Any], str]] = [
        ({"day_of_letters": "soon"}, "see the day of the letters"),
        ({"template": "x"}, "choose a template"), ({"template": "1.9"}, "no such template"),
        ({"child": []}, "tick the children"), ({"child": ["2", "77"]}, "child 77 is not on"),
        ({"kind": "fax"}, "choose letters for print"),
    ]
    for wrong, said in cases:
        found = jane.post("/letters/make", {**form, **wrong})
        assert found.status_code == 400 and said in found.text.lower(), (wrong, found.text)
    found = jane.post("/letters/make", {**form, "day_of_letters": "soon"})
    assert 'value="soon"' in found.text
    assert re.findall(r'name="child" value="([0-9]+)"[^>]* checked', found.text) == ["2"]
    for address in ("whom=offers&value=7", "whom=offers&value=x", "whom=children&value=1,x",
                    "whom=children&value=99", "whom=row&value=4", "whom=reminded&value=x",
                    "whom=list&value=amend", "whom=elsewhere"):
        assert jane.get(f"/letters/whom?{address}").status_code == 400, address
    assert count(office, "letter_set") == 0


def test_letters_to_those_of_a_list_and_to_one_child(office: Site) -> None:
    """From the list's page and the child's."""
    jane = office.browser("jane")
    link = re.search(r'href="(/letters/from-list/list\?school=OAK)"',
                     jane.get("/lists/list?school=OAK").text)
    assert link
    page = jane.get(jane.get(link[1]).location).text
    assert re.findall(r'name="child" value="([0-9]+)"', page) == ["2", "3", "4", "5"]
    page = jane.get(jane.get("/letters/of/5").location).text
    assert re.findall(r'name="child" value="([0-9]+)"', page) == ["5"]
    assert "result of round 1: ELM, offered" in page


def test_letters_are_drafts_until_an_audit_agrees(
    tmp_path: pathlib.Path, monkeypatch: pytest.MonkeyPatch,
) -> None:
    """A round was held elsewhere: its letters have the mark on each page, and are not recorded as
    sent. With a copy from before it the head has it audited, and then they are letters.
    """
    make(tmp_path / "reg.db", commands())
    (tmp_path / "site").mkdir()
    with machine_over(tmp_path / "site", tmp_path / "reg.db", monkeypatch) as machine, (
            machine.office()) as office:
        jane, hal = office.browser("jane"), office.browser("hal", "head")
        office.parts.copies.make("before the round")
        machine.do([ROUND])
        # (what another program does is seen some seconds later)
        office.parts.desk.now()
        path = made(jane, asked(jane, "offers", "1"))
        found = letter_pages(jane, path)
        assert len(found) == 5
        assert all("DRAFT: not to be sent" in it for it in found)
        assert "Record" not in jane.get(path).text.replace("Recorded", "")
        status = jane.post(f"{path}/record", {"count": "5", **SENT_ON}).status_code
        assert status == 400 and count(office, "letter_set WHERE sent IS NOT NULL") == 0
        merged = made(jane, asked(jane, "offers", "1", kind="merge"))
        book = openpyxl.load_workbook(io.BytesIO(jane.get(f"{merged}/file").data)).active
        assert [it.value for it in book["A"]] == ["draft", *["DRAFT"] * 5]
        hal.get("/letters/")
        assert hal.post("/letters/audit/1").status_code == 303
        assert "unaudited" not in hal.get("/letters/").text
        path = made(jane, asked(jane, "offers", "1"))
        assert not any("DRAFT" in it for it in letter_pages(jane, path))


def test_an_audit_that_does_not_agree_leaves_drafts(
    tmp_path: pathlib.Path, monkeypatch: pytest.MonkeyPatch,
) -> None:
    """By the copy child 1 lives nearest to OAK, and by the register at the round child 5."""
    make(tmp_path / "reg.db", commands())
    (tmp_path / "site").mkdir()
    with machine_over(tmp_path / "site", tmp_path / "reg.db", monkeypatch) as machine, (
            machine.office()) as office:
        hal = office.browser("hal", "head")
        assert hal.get("/letters/").status_code == 200
        office.parts.copies.make("before the round")
        machine.do([{"cmd": "amend", "child": 5, "name": "Bo", "east": 1, "north": 0,
                     "looked_after": False, "flags": [], "siblings": []}, ROUND])
        found = hal.post("/letters/audit/1")
        assert found.status_code == 409 and "has found a difference" in found.text
        path = made(hal, asked(hal, "offers", "1", child=["1"]))
        assert all("DRAFT" in it for it in letter_pages(hal, path))
