"""What follows a step of a draw by itself: the rehearsal after the seal, and the opening after an
audit that agrees; also where the application ends in between, and where something cannot be done.
"""
import threading
from typing import Any

import pytest
from applications import Browser
from draw_site import (
    HAL, Crash, Fields, Machine, Person, at_lots, begun, brought, first_day, lot_of, no_answer,
    typed, version,
)
from pages import Page
from register_files import Refused

from office.web.rounds import page as draws_page
from office.web.rounds.draws import Draws

# what only the office may see of a draw: names, what came of it, and why it does not go on
HIDDEN = ("Child 1", "new place", "keeps its place", "moves", "Audit of", "rehears", "no answer")


def seals(sup: Browser, number: int) -> Any:
    """The supervisor seals the lots on the screen."""
    fields = Fields(sup.get(f"/lots/{number}/seal").text).values
    return sup.post(f"/lots/{number}/seal", {it: fields[it] for it in ("seen", "digest")})


def test_a_step_that_ends_while_its_page_is_made_was_not_cut_off(
    small: Machine, monkeypatch: pytest.MonkeyPatch,
) -> None:
    """The page would say that nothing runs, of a draw that it has read before the end."""
    with small.office() as office:
        number = begun(office)
        following, go_on = office.parts.following, threading.Event()
        monkeypatch.setattr(following, "wait", 0.0)
        real_copy, real_outcome = Draws.copy, draws_page.outcome_of

        def copy(*given: Any) -> Any:
            assert go_on.wait(60)
            return real_copy(*given)

        def outcome_of(*given: Any) -> Any:
            work = following.under_way()
            go_on.set()
            assert work is None or work.is_over.wait(60)
            return real_outcome(*given)

        monkeypatch.setattr(Draws, "copy", copy)
        hal = Person(office, HAL.name, "head")
        assert hal.step(number, "close").status_code == 303
        monkeypatch.setattr(draws_page, "outcome_of", outcome_of)
        page = hal.browser.get(f"/draws/{number}").text
        assert 'id="work"' in page and 'id="cut-off"' not in page
        assert following.under_way() is None
        page = hal.browser.get(f"/draws/{number}").text
        assert "the supervisor draws the lots" in page and 'id="cut-off"' not in page


def sees_nothing(sup: Browser, number: int) -> None:
    """The supervisor sees that the lots are sealed, and nothing of what follows."""
    for path in ("/lots/", f"/lots/{number}", f"/lots/{number}/seal"):
        page = sup.get(path).text
        assert "ealed by sup" in page, path
        assert [it for it in HIDDEN if it in page] == [], path
    for path in (f"/draws/{number}", "/draws/"):
        assert sup.get(path).status_code == 403
    assert sup.post(f"/draws/{number}/second/go-on", {"seen": "1"}).status_code == 403


def test_the_rehearsal_follows_the_seal(small: Machine) -> None:
    """Without another button: the officer who comes next reads the outcome, and confirms it."""
    with small.office() as office:
        number = begun(office)
        brought(office, number, "lots")
        typed(office, number, lot_of)
        sup = at_lots(office)
        assert seals(sup, number).status_code == 303
        sees_nothing(sup, number)
        draw = office.parts.draws.get(number)
        assert draw.state == "rehearsed" and draw.trouble == ""
        assert [(it.state, it.who) for it in draw.done[-2:]] == [
            ("sealed", "sup"), ("rehearsed", "sup")]
        whats = [(it.who, it.what) for it in office.parts.history.entries]
        assert [it for it in whats if it[1] in ("sealed the lots", "rehearsed")] == [
            ("sup", "sealed the lots"), ("sup", "rehearsed")]
        jane = Person(office, "jane", "officer")
        page = jane.browser.get(f"/draws/{number}").text
        assert "Children to look at" in page and ">Confirm round 1</button>" in page
        assert jane.step(number, "confirm").status_code == 303


def test_a_rehearsal_that_cannot_be_made_leaves_the_seal(
    small: Machine, monkeypatch: pytest.MonkeyPatch
) -> None:
    """The office is shown why, and what to do; the supervisor is not. It is tried again by a
    button, and not by looking.
    """
    with small.office() as office:
        number = begun(office)
        brought(office, number, "lots")
        typed(office, number, lot_of)
        digest = office.parts.lots.sheet(number)[1].digest()
        sup, jane = at_lots(office), Person(office, "jane", "officer")
        with monkeypatch.context() as patch:
            patch.setattr(office.parts.copies, "path", no_answer)
            assert seals(sup, number).status_code == 303
        sees_nothing(sup, number)
        draw = office.parts.draws.get(number)
        assert (draw.state, draw.digest, draw.trouble) == ("sealed", digest, "no answer")
        found = [it for it in office.parts.history.entries if it.what == "could not go on"]
        assert [(it.who, it.about["why"]) for it in found] == [("sup", "no answer")]
        page = jane.browser.get(f"/draws/{number}").text
        assert "What follows by itself was not done: No answer." in page
        assert ">Rehearse</button>" in page
        assert office.parts.draws.get(number).state == "sealed"
        assert jane.step(number, "go-on").status_code == 303
        draw = office.parts.draws.get(number)
        assert (draw.state, draw.done[-1].who, draw.trouble) == ("rehearsed", "jane", "")
        assert "was not done" not in jane.browser.get(f"/draws/{number}").text


ENTRIES = ("copied the register", "audited", "opened the register")


@pytest.mark.parametrize("is_after", (False, True))
@pytest.mark.parametrize("what", ENTRIES)
def test_a_crash_after_the_draw(
    small: Machine, monkeypatch: pytest.MonkeyPatch, what: str, is_after: bool
) -> None:
    """Before or after an entry of the history: nobody who looks has anything done, and the button
    of an officer goes on until the register is open. The draw is held once.
    """
    with small.office() as office:
        number = begun(office)
        brought(office, number, "confirmed")
        known = len(office.parts.history.entries)
        with monkeypatch.context() as patch:
            real = office.parts.history.add

            def add(who: str, kind: str, about: dict[str, Any]) -> Any:
                if kind != what:
                    return real(who, kind, about)
                if is_after:
                    real(who, kind, about)
                raise Crash

            patch.setattr(office.parts.history, "add", add)
            hal = Person(office, "hal", "head")
            with pytest.raises(Crash):
                hal.step(number, "send")
    with small.office() as office:
        first_day(office)
        cut_off, jane = office.parts.draws.get(number), Person(office, "jane", "officer")
        for who in (office.browser("rita", "reader"), jane.browser):
            for path in ("/", "/draws/", f"/draws/{number}"):
                found = who.get(path)
                assert found.status_code == 200
            assert "Nothing runs now: this step was cut off." in found.text
        assert office.parts.draws.get(number) == cut_off
        assert cut_off.state in ("sending", "audited") and office.parts.desk.closed()
        assert jane.step(number, "go-on").status_code == 303
        page = jane.browser.get("/").text
        assert "is in progress" not in page and "Closed for" not in page
        draw = office.parts.draws.get(number)
        assert draw.state == "opened" and draw.done[-1].who == "jane"
        entries = [it for it in office.parts.history.entries[known:] if it.what in ENTRIES]
        last = {it.what: it.who for it in entries}
        assert list(last) == list(ENTRIES) and last["opened the register"] == "jane"
        assert sum(it.what == "sends" for it in office.parts.history.entries) == 1
        assert len(office.parts.desk.now().draws) == 1


def test_what_differs_stays_closed(small: Machine, monkeypatch: pytest.MonkeyPatch) -> None:
    """Where the audit does not agree nothing opens, by no look of anybody, and the page offers the
    restore.
    """
    with small.office() as office:
        number = begun(office)
        brought(office, number, "confirmed")
        hal, jane = Person(office, "hal", "head"), Person(office, "jane", "officer")
        with monkeypatch.context() as patch:
            patch.setattr("office.web.rounds.rehearsal.audit.audit",
                          lambda *_: (["not best: child 1"], False))
            assert hal.step(number, "send").status_code == 303
        draw = office.parts.draws.get(number)
        assert (draw.state, draw.wrong) == ("sending", ["not best: child 1"])
        for who in (hal, jane):
            for path in ("/", f"/draws/{number}"):
                page = who.browser.get(path).text
                assert "Recording is paused for round 1 by hal" in page
            assert ">Undo this round</a>" in page
            assert "Ask a second person to undo round 1</button>" in who.browser.get(
                f"/draws/{number}/cancel").text
            assert "Inform no family" in page and "open for all again" not in page
        assert office.parts.draws.get(number) == draw
        assert not any(it.what == "opened the register" for it in office.parts.history.entries)


def test_an_error_that_nobody_knows_is_said(
    small: Machine, monkeypatch: pytest.MonkeyPatch
) -> None:
    """It is met once for each press of the button, and by no look: the page is there, and has the
    button.
    """
    with small.office() as office:
        number = begun(office)
        brought(office, number, "audited")
        jane = Person(office, "jane", "officer")
        calls: list[int] = []

        def fails(*_: object) -> None:
            calls.append(1)
            raise ZeroDivisionError

        with monkeypatch.context() as patch:
            patch.setattr(Draws, "open", fails)
            assert jane.step(number, "go-on").status_code == 500
            for _ in range(2):
                page = jane.browser.get(f"/draws/{number}")
                assert page.status_code == 200 and ">Resume recording</button>" in page.text
                assert "What follows by itself was not done: An error in the appl" in page.text
            assert calls == [1]
        assert jane.step(number, "go-on").status_code == 303
        assert office.parts.draws.get(number).state == "opened"


def test_a_stale_page_goes_on_with_nothing(small: Machine) -> None:
    """The button of a page that was shown before the draw went on."""
    with small.office() as office:
        number = begun(office)
        brought(office, number, "closed")
        seen = version(office, number)
        office.parts.following.after(HAL, number)
        assert office.parts.draws.get(number).state == "lots"
        jane = Person(office, "jane", "officer")
        found = jane.press(number, str(seen), "go-on")
        assert found.status_code == 409 and "has changed since this page was shown" in found.text
        assert jane.step(number, "go-on").status_code == 409
        assert office.parts.draws.get(number).state == "lots"


def test_long_work_says_that_it_runs(small: Machine, monkeypatch: pytest.MonkeyPatch) -> None:
    """Who holds a draw has an answer while the audit runs. The page says what runs, has no button
    and is read again by itself; the browser need not stay for the audit and the opening to follow.
    """
    with small.office() as office:
        number = begun(office)
        brought(office, number, "confirmed")
        hal, jane = Person(office, "hal", "head"), Person(office, "jane", "officer")
        following, may_end = office.parts.following, threading.Event()
        real = office.parts.copies.make

        def slow(purpose: str, who: str) -> int:
            assert may_end.wait(600)
            return real(purpose, who)

        monkeypatch.setattr(office.parts.copies, "make", slow)
        following.wait = 0.05
        assert hal.step(number, "send").status_code == 303
        work = following.last
        assert work
        while office.parts.draws.get(number).state != "sending":
            assert not work.is_over.wait(0.05)
        seen = str(version(office, number))
        for who in (hal, jane):
            page = who.browser.get(f"/draws/{number}").text
            assert f'data-running="/draws/{number}"' in page and "begun by hal" in page
            assert "Recording is paused for round 1 by hal" in Page(page).by_id["in-progress"]
            assert "the places are given, and then audited." in page
            assert "Audit round 1</button>" not in page and "Cancel this" not in page
            assert "A step of it runs now." in who.browser.get("/").text
        found = jane.press(number, seen, "go-on")
        assert found.status_code == 409 and "A step is under way, which hal began" in found.text
        may_end.set()
        assert work.is_over.wait(600)
        page = hal.browser.get(f"/draws/{number}").text
        assert "everybody can record again" in page and "data-running" not in page
        # (the part of the frame that was there, from which the page that looks again takes it)
        assert '<div class="closed" id="in-progress"></div>' in page
        assert [it.who for it in office.parts.draws.get(number).done[-2:]] == ["hal", "hal"]


def test_what_is_refused_after_the_answer_is_said(
    small: Machine, monkeypatch: pytest.MonkeyPatch
) -> None:
    """The page of who did not wait says why the step was not done, and has its button again."""
    with small.office() as office:
        number = begun(office)
        brought(office, number, "confirmed")
        hal, may_end = Person(office, "hal", "head"), threading.Event()

        def refused(*_: object) -> None:
            assert may_end.wait(600)
            raise Refused("the disk is full")

        monkeypatch.setattr(office.parts.desk, "settle", refused)
        office.parts.following.wait = 0.05
        assert hal.step(number, "send").status_code == 303
        assert "the places are given." in hal.browser.get(f"/draws/{number}").text
        work = office.parts.following.last
        may_end.set()
        assert work and work.is_over.wait(600)
        page = hal.browser.get(f"/draws/{number}").text
        assert "The last step was not done: The disk is full." in page
        assert "Run round 1</button>" in page
