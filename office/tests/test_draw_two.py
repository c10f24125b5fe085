"""A draw of an office of two, one of whom gets a new password or is locked while it is in progress:
in no state is it stuck, and in no state does one person alone hold it.
"""
import contextlib
import datetime
import html
import pathlib
import re
import sqlite3
from collections.abc import Callable
from typing import Any, cast

import flask
import pytest
from applications import Browser, Site, site
from draw_site import (
    HAL, MISTYPED, RAISED, SUP, Command, Fields, Machine, Person, after_round, at_lots, begun,
    brought, given_up, lot_of, sealed, typed, version, waiting,
)
from pages import Page, press
from register_files import Refused
from served import do_over

from office.web.copies import copies
from office.web.machinery.steps import Done
from office.web.people import roles
from office.web.register.history import Entry
from office.web.register.schema import STEPS
from office.web.register.store import Store
from office.web.rounds import page as draws_page
from office.web.rounds.drafts import Typed
from office.web.rounds.terms import Draw, Terms

STATES = ("begun", "closed", "copied", "lots", "sealed", "rehearsed", "confirmed", "sending",
          "audited")
UNSEALED, UNSENT = STATES[:4], STATES[4:7]
# of hal, who has begun the draw, and jane: to whom something is done, and what
HOWS = (("hal", "renewed"), ("hal", "locked"), ("jane", "renewed"), ("jane", "locked"))
OWN = "a password of their own"
DONE = {"done": True}


def office_of_two(office: Site) -> tuple[Person, Person]:
    """A head and an officer, and the supervisor."""
    office.add("sup", "supervisor")
    return Person(office, "hal", "head"), Person(office, "jane", "officer")


def renewed(office: Site, name: str, by: str = "hal") -> None:
    """Somebody gets a new password, and changes it at once."""
    office.parts.history.add(by, "drew a new password", {"person": name})
    drawn = office.parts.people.reset(name)
    office.parts.people.set_password(roles.Person(name, ""), drawn, f"{OWN}, {name}")
    office.passwords[name] = f"{OWN}, {name}"


def locked(office: Site, name: str) -> None:
    """Somebody is locked."""
    office.parts.history.add("root", "locked", {"person": name})
    office.parts.people.lock(name, True)


def ends(browser: Browser, number: int) -> set[str]:
    """The buttons of a draw's pages by which it ends, or goes on."""
    # (nor does the search of its outcome)
    return {button for it in ("", "/cancel")
            for button in Page(browser.get(f"/draws/{number}{it}").text).buttons()} - {"Find"}


def wanted(state: str, of: str, how: str, who: str) -> set[str]:
    """The buttons that a person has, worked out by hand. Who is steady ends the draw alone, and the
    other one nothing; what was decided by two goes on for both.
    """
    is_steady = who != of
    goes_on = {"closed": "Make the copy", "copied": "Ask the supervisor for the lots",
               "sealed": "Rehearse", "sending": "Audit round 1", "audited": "Resume recording"}
    found = {goes_on[state]} if state in goes_on else set()
    if state in UNSEALED:
        found.add("Cancel round 1")
    elif is_steady:
        found.add("Cancel round 1 alone" if state in UNSENT
                  else "Undo round 1 alone")
    if state == "begun" and who == "hal":
        found.add("Pause recording for everyone")
    if state == "rehearsed" and who == "jane" and is_steady:
        found.add("Confirm round 1")
    if state == "confirmed" and who == "hal":
        found.add("Run round 1")
    return found


def test_no_state_is_stuck(small: Machine) -> None:
    """In each state, with one of the two renewed or locked: who is left has a button that ends the
    draw; and before the second person has confirmed it nobody has one that holds it alone.
    """
    with small.office() as office:
        hal, jane = office_of_two(office)
        number = begun(office)
        browsers = {"hal": hal.browser, "jane": jane.browser}
        for state in STATES:
            brought(office, number, state)
            if state in ("closed", "copied", "sealed", "sending", "audited"):
                waiting(office, number)
            for of, how in HOWS:
                entries = office.parts.history.entries
                if how == "renewed":
                    entries.append(Entry(len(entries) + 1, "2025-03-03T10:00:00+00:00", "root",
                                         "drew a new password", {"person": of}))
                with office.parts.store.writing() as db:
                    db.execute("UPDATE person SET is_locked=? WHERE name=?",
                               (how == "locked", of))
                for who in ("hal", "jane"):
                    if (who, how) != (of, "locked"):
                        assert ends(browsers[who], number) == wanted(state, of, how, who), (
                            state, of, how, who)
                if how == "renewed":
                    entries.pop()
                with office.parts.store.writing() as db:
                    db.execute("UPDATE person SET is_locked=0")
            # (with both of them there is nothing that one does alone)
            for who in ("hal", "jane"):
                assert not any("alone" in it for it in ends(browsers[who], number)), (state, who)


def test_one_gives_up_alone_whom_nobody_can_confirm(small: Machine) -> None:
    """After the seal, with a record; and the next draw of the number shows it until its end to who
    confirms it. While somebody else can confirm it, it is refused.
    """
    with small.office() as office:
        hal, jane = office_of_two(office)
        number = begun(office)
        brought(office, number, "rehearsed")
        digest = office.parts.draws.get(number).digest
        found = hal.step(number, "give-up-alone")
        assert found.status_code == 409 and "Somebody else can confirm it" in found.text
        renewed(office, "jane", "root")
        jane = Person(office, "jane", "officer")
        seen = str(version(office, number))
        found = jane.press(number, seen, "give-up-alone")
        assert found.status_code == 409 and "Somebody else can confirm it" in found.text
        for name in ("confirm", "ask-give-up", "confirm-give-up"):
            assert jane.press(number, seen, name).status_code == 409, name
        page = hal.browser.get(f"/draws/{number}/cancel").text
        assert re.search(r"Nobody else can confirm it now: jane was given another password by root"
                         r" at \d\d:\d\d, after it was begun\.", page)
        found = hal.step(number, "give-up-alone")
        assert found.status_code == 409 and "Type the reason for cancelling it" in found.text
        assert hal.step(number, "give-up-alone", reason=MISTYPED).status_code == 303
        assert office.parts.desk.closed() == "" and office.parts.desk.now().draws == []
        last = office.parts.history.entries[-1]
        assert (last.who, last.what, last.about["lots"]) == ("hal", "gave up alone", digest)
        assert last.about["why"].startswith("jane was given another password by root")
        assert last.about["reason"] == MISTYPED
        again = begun(office)
        for state in ("begun", "rehearsed"):
            brought(office, again, state)
            page = " ".join(jane.browser.get(f"/draws/{again}").text.split())
            assert re.search("Round 1, cancelled.*<p>Begun on [^<]* for 3 March 2025, and"
                             " cancelled after the lots were sealed, when the outcome could be"
                             f" known: by hal alone, [^<]*, because: <bdi>{MISTYPED}</bdi>", page)
        assert jane.step(again, "confirm").status_code == 303
        assert hal.step(again, "send").status_code == 303
        assert office.parts.draws.get(again).state == "opened"


def test_a_draw_given_up_by_two_names_both(small: Machine) -> None:
    """On the page of the next one; one that was given up before its seal is not named."""
    with small.office() as office:
        hal, jane = office_of_two(office)
        first = begun(office)
        office.parts.draws.give_up(HAL, first, version(office, first))
        second = begun(office)
        assert "cancelled after" not in hal.browser.get(f"/draws/{second}").text
        brought(office, second, "sealed")
        waiting(office, second)
        assert jane.step(second, "ask-give-up", reason=MISTYPED).status_code == 303
        found = jane.step(second, "confirm-give-up")
        assert found.status_code == 409 and "somebody else confirms" in found.text
        assert hal.step(second, "confirm-give-up").status_code == 303
        page = " ".join(jane.browser.get(f"/draws/{begun(office)}").text.split())
        assert page.count("cancelled after the lots were sealed") == 1
        assert "by jane and hal, " in page


def test_a_draw_with_lots_is_given_up_for_a_reason(small: Machine) -> None:
    """Also before its seal. Each draw of the same school, or round, shows it until one is held, and
    one of another school does not; and what is held of another school does not hide it.
    """
    with small.office() as office:
        after_round(small, office)
        hal, jane = office_of_two(office)
        first = begun(office, "OAK")
        brought(office, first, "lots")
        office.parts.lots.save(SUP, first, {(("OAK", 2), 0): Typed("", "14")})
        found = hal.step(first, "give-up")
        assert found.status_code == 409 and "Type the reason for cancelling it" in found.text
        assert jane.step(first, "give-up", reason=MISTYPED).status_code == 303
        said = (" for 3 March 2025, and cancelled after the lots were entered, and before they were"
                " sealed: by jane alone, ")
        for school_code in (None, "OAK"):
            number = begun(office, school_code)
            assert said in words(hal, number) and f"because: {MISTYPED}" in words(jane, number)
            if school_code:
                brought(office, number, "opened")
            else:
                office.parts.draws.give_up(HAL, number, version(office, number))
        assert said not in words(hal, begun(office, "OAK"))


def test_other_lots_than_those_given_up_are_shown(small: Machine) -> None:
    """To whoever confirms the next draw: first those that can decide a place, with both lots."""
    with small.office() as office:
        hal, jane = office_of_two(office)
        first = begun(office)
        brought(office, first, "sealed")
        assert hal.step(first, "ask-give-up", reason=MISTYPED).status_code == 303
        assert jane.step(first, "confirm-give-up").status_code == 303
        number = begun(office)
        brought(office, number, "lots")
        # (of the ten lots two are others: that of 2 at OAK can decide against 3, that of 5 nothing)
        others = {("OAK", 2): 41, ("OAK", 5): 77}
        typed(office, number, lambda pair, at: others.get(pair, lot_of(pair, at)))
        assert "of the same children and schools" not in words(jane, number)
        sealed(office, number)
        brought(office, number, "rehearsed")
        page = words(jane, number)
        assert ("Of 10 lots of the same children and schools 2 are another now; of these, 1 can"
                " decide a place: OAK 2: 14 then, 41 now") in page
        given_up(office, number)
        again = begun(office)
        brought(office, again, "rehearsed")
        page = words(jane, again)
        assert "10 lots of the same children and schools: all are the same now." in page
        assert "OAK 2: 41 then, 14 now" in page


def words(person: Person, number: int) -> str:
    """The text of a draw's page."""
    text = re.sub("<[^>]*>", " ", person.browser.get(f"/draws/{number}").text)
    return re.sub(" ([.,;:])", r"\1", " ".join(text.split()))


# what hal or jane did long before the draw, and why jane does not confirm it then
LONG_BEFORE = {
    "added": ("hal", "jane"), "gave a role": ("hal", "jane"),
    "drew a new password": ("hal", "jane"), "added by the second": ("jane", "hal"),
}


@pytest.mark.parametrize("what", LONG_BEFORE)
def test_who_could_act_in_both_names_does_not_confirm(small: Machine, what: str) -> None:
    """Where one of the two has made the account of the other, or given it its role or a password,
    whenever that was; until a third person has given these. The page says who may, and why not.
    """
    by, to = LONG_BEFORE[what]
    whats = what.removesuffix(" by the second")
    with small.office() as office:
        hal, jane = office_of_two(office)
        pat = Person(office, "pat", "officer")
        office.parts.history.add(by, whats, {"person": to, "role": "officer"})
        number = begun(office)
        why = f"{to} was (added|given another (role|password)) by {by} at"
        assert re.search(f"May confirm it pat May not confirm it hal began round 1 {why}",
                         words(hal, number))
        brought(office, number, "rehearsed")
        assert re.search(f"May confirm it pat May not confirm it hal began round 1 {why}",
                         words(pat, number))
        assert "Confirm round 1" not in ends(jane.browser, number)
        found = jane.step(number, "confirm")
        assert found.status_code == 409 and re.search(why, found.text, re.I)
        assert office.parts.draws.get(number).state == "rehearsed"
        assert hal.step(number, "ask-give-up", reason=MISTYPED).status_code == 303
        assert jane.step(number, "confirm-give-up").status_code == 409
        assert pat.step(number, "confirm-give-up").status_code == 303
        for it in ("gave a role", "drew a new password"):
            office.parts.history.add("root", it, {"person": to, "role": "officer"})
        number = begun(office)
        brought(office, number, "rehearsed")
        assert jane.step(number, "confirm").status_code == 303


def test_who_could_act_for_whoever_saved_lots_does_not_confirm(small: Machine) -> None:
    """A supervisor whose account the second person has made types the lots, and another one seals
    them.
    """
    with small.office() as office:
        _, jane = office_of_two(office)
        pat = Person(office, "pat", "officer")
        office.parts.history.add("jane", "added", {"person": "sue", "role": "supervisor"})
        number = begun(office)
        brought(office, number, "lots")
        _, sheet = office.parts.lots.sheet(number)
        sue = roles.Person("sue", "supervisor")
        office.parts.lots.save(
            sue, number, {cell: Typed("", str(lot_of(*cell))) for cell in sheet.cells()})
        brought(office, number, "rehearsed")
        assert office.parts.draws.get(number).who("sealed") == "sup"
        found = jane.step(number, "confirm")
        assert found.status_code == 409 and "sue was added by jane at" in found.text
        assert "May confirm it pat May not confirm it" in words(pat, number)
        assert pat.step(number, "confirm").status_code == 303


def test_who_closed_it_does_not_confirm_it(small: Machine) -> None:
    """Whoever read what looked wrong before the close, and said that it is right, is not the one
    who is asked whether it is.
    """
    with small.office() as office:
        hal, jane = office_of_two(office)
        pat = Person(office, "pat", "head")
        number = begun(office)
        assert pat.step(number, "close").status_code == 303
        brought(office, number, "rehearsed")
        page = words(pat, number)
        assert "pat paused recording for it. Somebody else confirms it." in page
        assert "May confirm it jane May not confirm it hal began round 1 pat paused" in page
        for it in (hal, pat):
            found = it.step(number, "confirm")
            assert found.status_code == 409 and ": somebody else confirms it." in found.text
        assert jane.step(number, "confirm").status_code == 303


def test_an_officer_ends_what_a_locked_head_began(small: Machine) -> None:
    """Before the seal by giving up; and what was sent goes on for the officer, who holds nothing
    that was not sent.
    """
    with small.office() as office:
        _, jane = office_of_two(office)
        number = begun(office)
        brought(office, number, "lots")
        locked(office, "hal")
        assert jane.step(number, "give-up").status_code == 303
        assert office.parts.desk.closed() == ""
        office.parts.people.lock("hal", False)
        number = begun(office)
        brought(office, number, "confirmed")
        locked(office, "hal")
        assert jane.press(number, str(version(office, number)), "send").status_code == 403
        brought(office, number, "sending")
        waiting(office, number)
        assert jane.step(number, "go-on").status_code == 303
        assert office.parts.draws.get(number).state == "opened"


def test_another_head_holds_what_was_confirmed(small: Machine) -> None:
    """Where the head who began it is away: one who got the role since, who is none of the two
    persons of the draw; and a second head both confirms and holds.
    """
    with small.office() as office:
        _, jane = office_of_two(office)
        pat = Person(office, "pat", "officer")
        number = begun(office)
        brought(office, number, "rehearsed")
        office.parts.history.add("root", "gave a role", {"person": "pat", "role": "head"})
        office.parts.people.set_role("pat", "head")
        pat = Person(office, "pat", "head")
        found = pat.press(number, str(version(office, number)), "confirm")
        assert found.status_code == 409 and "pat was given another role by root" in found.text
        assert jane.step(number, "confirm").status_code == 303
        assert "Run round 1</button>" in pat.browser.get(f"/draws/{number}").text
        assert pat.step(number, "send").status_code == 303
        assert office.parts.draws.get(number).who("sending") == "pat"
        small.do([RAISED])
        number = begun(office, "OAK")
        brought(office, number, "rehearsed")
        for name in ("confirm", "send"):
            assert pat.step(number, name).status_code == 303, name
        draw = office.parts.draws.get(number)
        assert (draw.state, draw.who("confirmed"), draw.who("sending")) == ("opened", "pat", "pat")


def test_one_restores_alone_what_cannot_go_on(
    small: Machine, monkeypatch: pytest.MonkeyPatch
) -> None:
    """Where the audit does not agree and nobody else can confirm it. A draw that can go on is not
    undone by one person.
    """
    with small.office() as office:
        hal, jane = office_of_two(office)
        before = office.parts.desk.now()
        number = begun(office)
        brought(office, number, "sending")
        waiting(office, number)
        found = hal.step(number, "restore-alone")
        assert found.status_code == 409 and "Somebody else can confirm it" in found.text
        renewed(office, "jane")
        jane = Person(office, "jane", "officer")
        found = hal.step(number, "restore-alone")
        assert found.status_code == 409 and "is as it was rehearsed: round 1 goes" in found.text
        with monkeypatch.context() as patch:
            patch.setattr("office.web.rounds.rehearsal.audit.audit",
                          lambda *_: (["not best: child 1"], False))
            assert hal.step(number, "go-on").status_code == 303
        assert jane.step(number, "restore-alone").status_code == 409
        assert hal.step(number, "restore-alone").status_code == 303
        draw = office.parts.draws.get(number)
        assert draw.state == "restored" and draw.done[-1].said.startswith("Alone: jane was given")
        assert copies.is_same(office.parts.desk.now(), before)
        assert office.parts.desk.closed() == ""
        said = [(it.who, it.what) for it in office.parts.history.entries[-2:]]
        assert said == [("hal", "restored the copy from before it alone"),
                        ("hal", "restored a copy")]


def test_one_restores_alone_a_register_that_changed(small: Machine) -> None:
    """Where somebody has changed it behind the draw, so that it is not as it was rehearsed."""
    with small.office() as office:
        hal, _ = office_of_two(office)
        number = begun(office)
        brought(office, number, "sending")
        waiting(office, number)
        small.do([{"cmd": "raise_pan", "school": "OAK", "pan": 2}])
        locked(office, "jane")
        assert hal.step(number, "go-on").status_code == 409
        assert hal.step(number, "restore-alone").status_code == 303
        assert office.parts.draws.get(number).state == "restored"
        assert office.parts.desk.now().draws == []


MADE_UP: dict[str, Callable[[Site], object]] = {
    "renewed": lambda office: renewed(office, "sup", "root"),
    "added": lambda office: (office.parts.history.add("hal", "added", {"person": "sue"}),
                             office.add("sue", "supervisor")),
}


@pytest.mark.parametrize("how", MADE_UP)
def test_a_supervisor_is_not_made_up(small: Machine, how: str) -> None:
    """Who was added, or got a new password, since the draw was begun seals no lots, and reads
    what helps; another supervisor does, or the draw is given up and begun again.
    """
    with small.office() as office:
        _, jane = office_of_two(office)
        number = begun(office)
        brought(office, number, "lots")
        typed(office, number, lot_of)
        MADE_UP[how](office)
        name = "sup" if how == "renewed" else "sue"
        digest = office.parts.lots.sheet(number)[1].digest()
        made = at_lots(office, name)
        page = made.get(f"/lots/{number}/seal")
        assert page.status_code == 403 and f"{name} was " in page.text.lower()
        said = "Another supervisor draws and seals the lots, or the office cancels round 1"
        assert said in page.text
        given = {"seen": str(version(office, number)), "digest": digest}
        found = made.post(f"/lots/{number}/seal", given)
        assert found.status_code == 403 and said in found.text
        with pytest.raises(Refused, match=f"{name} was .*: somebody else seals the lots"):
            office.parts.lots.seal(
                roles.Person(name, "supervisor"), number, version(office, number), digest)
        assert office.parts.draws.get(number).state == "lots"
        if how == "added":
            sealed(office, number)
            assert office.parts.draws.get(number).who("sealed") == "sup"
            return
        assert jane.step(number, "give-up", reason=MISTYPED).status_code == 303
        number = begun(office)
        brought(office, number, "lots")
        typed(office, number, lot_of)
        fields = Fields(made.get(f"/lots/{number}/seal").text).values
        given = {it: fields[it] for it in ("seen", "digest")}
        assert made.post(f"/lots/{number}/seal", given).status_code == 303
        assert office.parts.draws.get(number).state == "rehearsed"


def test_who_sealed_the_lots_reads_who_confirms(tmp_path: pathlib.Path) -> None:
    """Neither who began the draw, nor who sealed its lots."""
    done = (Done("begun", "hal", "", ""), Done("sealed", "sup", "", ""))
    terms, register = Terms(1, None, 1, datetime.date(2025, 3, 3)), cast(Any, object())
    draw = Draw(1, "round 1", terms, "rehearsed", 6, 1, None, "ab", {}, {}, "", "", "", "", done,
                None, "")
    with site(tmp_path, "http://127.0.0.1:9") as office, office.app.test_request_context():
        for name, said in (("sup", "sup sealed the lots. Somebody else confirms it."),
                           ("hal", "hal began round 1. Somebody else confirms it."),
                           ("jane", "")):
            flask.g.person = roles.Person(name, "officer")
            assert draws_page.why_not(draw, "confirmed", register) == said


def test_nothing_is_confirmed_before_its_rehearsal(small: Machine) -> None:
    """A request to confirm a draw whose lots are sealed and not rehearsed yet does nothing."""
    with small.office() as office:
        _, jane = office_of_two(office)
        number = begun(office)
        brought(office, number, "sealed")
        found = jane.press(number, str(version(office, number)), "confirm")
        assert found.status_code == 409 and office.parts.draws.get(number).state == "sealed"


def test_lots_that_changed_after_the_rehearsal_are_not_sent(small: Machine) -> None:
    """Also where the outcome is the same: that of child 1, who lives nearest, decides nothing."""
    with small.office() as office:
        hal, _ = office_of_two(office)
        number = begun(office)
        brought(office, number, "confirmed")
        with office.parts.store.writing() as db:
            db.execute("UPDATE lot SET text='96' WHERE draw=? AND school='OAK' AND child=1",
                       (number,))
        found = hal.step(number, "send")
        assert found.status_code == 409 and "are not those that were sealed" in found.text
        assert office.parts.desk.now().draws == []


def test_a_register_that_changed_between_two_fills_is_refused(
    small: Machine, monkeypatch: pytest.MonkeyPatch
) -> None:
    """By somebody past the application, after the first fill of a row: the second is not sent."""
    with small.office() as office:
        after_round(small, office)
        hal, _ = office_of_two(office)
        number = begun(office, "OAK", 3, "2025-04-07")
        brought(office, number, "confirmed")
        real = office.parts.desk.sender.send

        def sends(*given: Any) -> Any:
            result = real(*given)
            do_over(small.address, [{"cmd": "raise_pan", "school": "ELM", "pan": 10}])
            return result

        monkeypatch.setattr(office.parts.desk.sender, "send", sends)
        found = hal.step(number, "send")
        assert found.status_code == 409 and "not as it was rehearsed" in found.text
        assert len(office.parts.desk.now().draws) == 2


CHANGES: tuple[tuple[str, Command], ...] = (
    ("jane", {"cmd": "amend", "child": 5, "name": "Child 5", "east": 0, "north": 400,
              "looked_after": True, "flags": [], "siblings": []}),
    ("pat", {"cmd": "amend", "child": 5, "name": "Child 5 x", "east": 0, "north": 390,
             "looked_after": True, "flags": [], "siblings": []}),
    ("jane", {"cmd": "raise_pan", "school": "ELM", "pan": 10}),
    ("pat", {"cmd": "name_plan", "child": 4, "school": "OAK"}),
)


def stored(office: Site) -> None:
    """Stores the application of child 6."""
    rows = "child,name,east,north,looked_after,flags,siblings,day,preferences\n6,Fay,0,450,no"
    imported = office.parts.desk.send_import(
        roles.Person("jane", "officer"), f"{rows},,,2024-10-31,OAK\n".encode())
    assert imported.is_done, imported


def test_what_moved_a_class_or_a_limit_is_named(small: Machine) -> None:
    """Since the applications were stored, by child, with who and when: before the close, and to
    whoever confirms. What came before that, and what moves nothing, is not.
    """
    with small.office() as office:
        hal, jane = office_of_two(office)
        office.record("jane", {"cmd": "raise_pan", "school": "OAK", "pan": 2})
        stored(office)
        moved: Command = {
            "cmd": "amend", "child": 6, "name": "Fay", "east": 0, "north": 50,
            "looked_after": False, "flags": [], "siblings": ["OAK"]}
        for who, command in (*CHANGES, ("jane", moved)):
            office.record(who, command)
        renamed: Command = {**moved, "name": "Fay Fox"}
        office.record("jane", renamed)
        number = begun(office)
        wanted = [
            ["", "", "admission number of ELM raised to 10", "jane"],
            ["4", "Child 4", "entered an EHC plan that names OAK", "pat"],
            ["5", "Child 5 x", "details corrected; those before are not in the history",
             "jane"],
            ["5", "Child 5 x", "North, in metres: 400 → 390", "pat"],
            ["6", "Fay Fox", "North, in metres: 450 → 50; Siblings at: none → OAK", "jane"]]
        # (what the person who looks has changed is said to be theirs)
        own = [[*it[:3], "you" if it[3] == "jane" else it[3]] for it in wanted]
        for state in ("begun", "rehearsed"):
            brought(office, number, state)
            for reader, rows_wanted in ((hal, wanted), (jane, own)):
                rows_shown = Page(reader.browser.get(f"/draws/{number}").text).tables["changes"][1:]
                assert [it[:4] for it in rows_shown] == rows_wanted
        assert re.fullmatch(r"\d+ \w+ \d{4}, \d\d:\d\d", rows_shown[0][4])


def test_the_second_person_reads_all_of_it_before_the_button(small: Machine) -> None:
    """What was checked, the round that was cancelled before, each change with who made it, why two
    people are needed, and what comes then.
    """
    with small.office() as office:
        hal, jane = office_of_two(office)
        first = begun(office)
        brought(office, first, "sealed")
        given_up(office, first)
        stored(office)
        for who, command in CHANGES[2:]:
            office.record(who, command)
        number = begun(office)
        brought(office, number, "rehearsed")
        page = Page(jane.browser.get(f"/draws/{number}").text)
        at, card = page.text.index(">Confirm round 1</button>"), page.text.index('id="next"')
        said = html.unescape(" ".join(re.sub("<[^>]*>", " ", page.text[card:at]).split()))
        places = [said.index(it) for it in (
            "Two people are needed, so that nobody decides alone who gets a place: hal and sup"
            " cannot confirm round 1, and you can.",
            "The independent audit, a second program, works out the same outcome",
            "Round 1 was cancelled before, after lots were entered.",
            "No school offers more places than it has.",
            "2 changes since the applications were added to the register can alter who gets a"
            " place. 1 of them was made by you.",
            "Round 1, cancelled Begun on ", "cancelled after the lots were sealed",
            "by hal and jane",
            "admission number of ELM raised to 10 you", "entered an EHC plan that names OAK pat",
            "You may confirm even if you added applications or made changes yourself.",
            "Confirming gives no place yet: round 1 is run next, by hal, and then its letters are"
            " made.")]
        assert places == sorted(places) and "Run round 1" not in page.text
        # (who has no part in the decision reads the same, and has no button)
        other = hal.browser.get(f"/draws/{number}").text
        assert "Round 1 was cancelled before" in other and "</button>" in other
        assert "Confirm round 1</button>" not in other and "made by you" not in other
        names = [it[0] for it in Page(hal.browser.get("/draws/").text).tables[
            "Rounds and offers from waiting lists"][1:]]
        assert names == ["Round 1", "Round 1, cancelled"]


def test_who_can_confirm_does_so_on_the_first_screen(small: Machine) -> None:
    """Which has all that the page of the round has before the button, and the outcome in numbers;
    and for nobody else.
    """
    with small.office() as office:
        hal, jane = office_of_two(office)
        first = begun(office)
        brought(office, first, "sealed")
        given_up(office, first)
        stored(office)
        for who, command in CHANGES[2:]:
            office.record(who, command)
        number = begun(office)
        brought(office, number, "rehearsed")
        home, own = (Page(jane.browser.get(it).text) for it in ("/", f"/draws/{number}"))
        for part in ("to-look-at", "before", "changed"):
            assert home.by_id[part].split() == own.by_id[part].split(), part
        at, card = home.text.index(">Confirm round 1</button>"), home.text.index('id="next"')
        said = html.unescape(" ".join(re.sub("<[^>]*>", " ", home.text[card:at]).split()))
        places = [said.index(it) for it in (
            "Your decision: round 1", "Two people are needed", "Offered a place 4 of 5 children",
            "The independent audit, a second program, works out the same outcome",
            "2 changes since the applications were added to the register can alter",
            "by hal and jane",
            "Confirming gives no place yet: round 1 is run next, by hal")]
        assert places == sorted(places)
        assert home.text.count(">Confirm round 1<") == 1
        # (its links lead to the page of the round)
        links = set(re.findall(r'href="([^"]*)"', home.text[card:at]))
        assert {f"/draws/{number}", f"/draws/{number}#schools", "#before", "#changed"} <= links
        assert not any(it.startswith("?") for it in links)
        for other in (hal.browser, office.browser("rita", "reader")):
            assert 'id="next"' not in other.get("/").text
        found = press(jane.browser, "/", home, "Confirm round 1")
        assert (found.status_code, found.location) == (303, f"/draws/{number}")
        assert office.parts.draws.get(number).who("confirmed") == "jane"
        assert 'id="next"' not in jane.browser.get("/").text
        assert press(jane.browser, "/", home, "Confirm round 1").status_code == 409


def test_a_step_that_is_sent_again_after_a_session_is_named(small: Machine) -> None:
    """By the words of its button: who presses it has no page of the draw any more."""
    with small.office() as office:
        hal, _ = office_of_two(office)
        path = f"/draws/{begun(office)}"
        page = Page(hal.browser.get(path).text)
        button = next(it for it in page.buttons() if it.startswith("Pause "))
        hal.browser.post("/sign-out")
        late = press(hal.browser, path, page, button)
        assert late.status_code == 401 and Page(late.text).buttons() == [button]


def test_a_change_of_a_person_is_asked_first(small: Machine) -> None:
    """By name, with what it does to the draw in progress: nothing is done before that is shown, nor
    once it has changed.
    """
    with small.office() as office:
        hal, jane = office_of_two(office)
        listed = [it for it in Page(hal.browser.get("/people/").text).forms if "what" in dict(
            it.buttons.values())]
        assert {(it.action, it.method) for it in listed if "Add" not in it.buttons} == {
            ("/people/ask", "get")}
        before = hal.browser.get("/people/ask?what=lock&name=jane").text
        assert "Round 1" not in before and "Lock jane" in Page(before).buttons()
        number = begun(office)
        brought(office, number, "closed")
        late = press(hal.browser, "/people/", Page(before), "Lock jane")
        assert late.status_code == 409 and "jane could then not confirm it" in late.text
        draw, later = "Round 1 is in progress: ", "are not the two persons of any round"
        for given, button, said, is_later in (
            ("what=lock&name=jane", "Lock jane", "jane could then not confirm it. Nobody else", 0),
            ("what=remove&name=jane", "Remove jane", "jane could then not confirm it. Nobody", 0),
            ("what=reset&name=jane", "Draw a new password of jane",
             "jane could then not confirm it. Nobody else", 1),
            ("what=role&name=jane&role=head", "Give jane the role head",
             "jane could then not confirm it. Nobody else", 1),
            ("what=reset&name=sup", "Draw a new password of sup",
             "sup could then not seal its lots. Nobody else could.", 1),
        ):
            found = hal.browser.get(f"/people/ask?{given}")
            page = Page(found.text)
            assert found.status_code == 200 and button in page.buttons()
            assert f"<title>{button}? " in found.text and draw + said in found.text
            assert (later in found.text) == is_later
            what, name = re.findall("=([a-z]+)", given)[:2]
            sent = {"what": what, "name": name, "role": "head"}
            assert hal.browser.post("/people/", sent).status_code == 409
        assert not any(it.about.get("person") for it in office.parts.history.entries)
        assert jane.browser.get("/").status_code == 200
        assert hal.browser.change(what="lock", name="jane").status_code == 200
        assert jane.browser.get("/").status_code == 302


def test_an_undone_draw_is_named_so(small: Machine) -> None:
    """In each link and list, beside the one of the same name that is run again."""
    with small.office() as office:
        hal, jane = office_of_two(office)
        first = begun(office)
        brought(office, first, "sending")
        waiting(office, first)
        assert hal.step(first, "ask-restore").status_code == 303
        assert jane.step(first, "restore").status_code == 303
        again = begun(office)
        brought(office, again, "lots")
        both = [["Round 1"], ["Round 1, undone"]]
        assert [it[:1] for it in Page(hal.browser.get("/draws/").text).tables[
            "Rounds and offers from waiting lists"][1:]] == both
        assert [it[:1] for it in Page(at_lots(office).get("/lots/").text).tables[
            "Rounds and offers with lots"][1:]] == both
        assert "Repeats Round 1, undone, " in words(hal, again)
        assert "<h1 id=\"heading\" tabindex=\"-1\">Round 1, undone</h1>" in (
            hal.browser.get(f"/draws/{first}").text)
        page = hal.browser.get("/").text
        assert f'<a href="/draws/{again}"' in page and ">Round 1 waits for sup</a>" in page
        assert f'href="/draws/{again}">To round 1</a>' in page


def test_an_older_store_names_its_draws(tmp_path: pathlib.Path) -> None:
    """By their terms: the rounds that were run before it, or the places and the school's code."""
    path = str(tmp_path / "office.db")
    before = next(at for at, it in enumerate(STEPS) if "COLUMN name" in it)
    with contextlib.closing(sqlite3.connect(path)) as db:
        db.executescript("".join(STEPS[:before]))
        db.executemany(
            "INSERT INTO draw (first, school, fills, day, state, version) VALUES (?, ?, ?,"
            " '2025-03-03', ?, 1)",
            [(1, None, 1, "given up"), (1, None, 1, "opened"), (2, "OAK", 2, "opened"),
             (4, "ELM", 1, "restored"), (4, None, 1, "sealed")])
        db.execute(f"PRAGMA user_version={before}")
        db.commit()
    with contextlib.closing(Store(path)) as store:
        assert [it["name"] for it in store.rows("SELECT name FROM draw ORDER BY id")] == [
            "round 1", "round 1", "the offer of 2 places at OAK", "the offer of 1 place at ELM",
            "round 2"]
