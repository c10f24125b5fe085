"""The draw with two persons: on the real program, with the outcome worked out here by deferred
acceptance as Gale and Shapley described it.
"""
import dataclasses
import datetime
import hashlib
import json
import math
import pathlib
import random
import re
import shutil
import sqlite3
import sys
from collections.abc import Iterator
from typing import Any

import pytest
from applications import ORIGIN, Site
from conftest import PROGRAM, apply, child, make, school
from draw_site import (
    HAL, JANE, MISTYPED, NAME, OFFER_DAY, RAISED, SUP, Command, Crash, Fields, Machine, Person,
    after_round, begun, brought, crashing, first_day, given_up, lot_of, machine_over, no_answer,
    sealed, steps, typed, version, waiting,
)
from files import register_of
from pages import Page, tasks
from register_files import Refused
from served import do_over

from office.core import command_kinds, days
from office.core.model import Pair
from office.web.copies import copies
from office.web.people import roles as people_roles
from office.web.register import desk
from office.web.rounds import before_pause
from office.web.rounds import outcome as draws_outcome
from office.web.rounds.rehearsal import Rehearsal
from office.web.rounds.terms import Terms

CODES = "ABCD"
PAT = "a password of pat's own"


class Town:
    """A town of which everything is known here: four schools on a line, and children on a coarse
    grid, so that distances are often equal.
    """

    def __init__(self, children: int, seed: int = 7) -> None:
        chance = random.Random(seed)
        self.pans = {code: 3 + at for at, code in enumerate(CODES)}
        self.criteria: dict[str, list[str]] = {
            "A": ["sibling", "within:900"], "B": [], "C": ["within:400"], "D": []}
        self.places = {code: 400 * at for at, code in enumerate(CODES)}
        self.homes = {it: 100 * chance.randrange(12) for it in range(1, children + 1)}
        self.siblings = {it: ["A"] if it % 7 == 0 else [] for it in self.homes}
        self.lists = {it: chance.sample(CODES, chance.randrange(1, 5)) for it in self.homes}

    def commands(self) -> list[Command]:
        """All of it as commands."""
        found = [school(code, self.pans[code], self.places[code], self.criteria[code])
                 for code in CODES]
        names = ("Ann Abel", "=1+1", "O'Neil, \"Bo\"", "<script>alert(1)</script>", "محمد")
        for it, home in self.homes.items():
            found.append(child(it, home, f"{names[it % 5]} {it}", siblings=self.siblings[it]))
            found.append(apply(it, self.lists[it]))
        return found

    def rank(self, code: str, number: int) -> tuple[int, int]:
        """Class and metres of a child at a school."""
        metres = math.isqrt((self.places[code] - self.homes[number]) ** 2)
        met = [at for at, it in enumerate(self.criteria[code], 1)
               if (it == "sibling" and code in self.siblings[number])
               or (it.startswith("within:") and metres <= int(it.removeprefix("within:")))]
        return min(met, default=len(self.criteria[code]) + 1), metres

    def pairs(self) -> list[Pair]:
        """Each school with each child that wants it."""
        return sorted((code, it) for it, listed in self.lists.items() for code in listed)

    def decided(self) -> set[Pair]:
        """The pairs that only a lot can separate from another one of the same school."""
        pairs = self.pairs()
        return {it for it in pairs for other in pairs
                if it != other and it[0] == other[0] and self.rank(*it) == self.rank(*other)}

    def asks(self, own: dict[int, str], left: set[Pair]) -> dict[int, list[str]]:
        """The schools that each child asks: of its list those that it did not leave, down to the
        one that it has.
        """
        found = {}
        for number, listed in self.lists.items():
            has = own.get(number)
            above = listed[:listed.index(has)] if has else listed
            found[number] = [it for it in above if (it, number) not in left]
            found[number] += [has] if has else []
        return found

    def allotted(
        self, lots: dict[Pair, int], own: dict[int, str] | None = None,
        left: frozenset[Pair] = frozenset(),
    ) -> dict[int, str | None]:
        """The school of each child by deferred acceptance: children ask the schools of their lists
        in turn, and a school that has too many turns away the one that ranks last. A child that has
        a place ranks first there.
        """
        had = own or {}
        held: dict[str, list[int]] = {it: [] for it in CODES}
        asks = self.asks(had, set(left))
        turn, free = dict.fromkeys(asks, 0), list(asks)

        def key(code: str, number: int) -> tuple[int, ...]:
            if had.get(number) == code:
                return (-1,)
            return (*self.rank(code, number), lots[code, number])

        while free:
            number = free.pop()
            if turn[number] == len(asks[number]):
                continue
            code = asks[number][turn[number]]
            turn[number] += 1
            held[code].append(number)
            if len(held[code]) > self.pans[code]:
                last = max(held[code], key=lambda it: key(code, it))
                held[code].remove(last)
                free.append(last)
        found = {number: code for code, there in held.items() for number in there}
        return {it: found.get(it) for it in asks}


def seeded(seed: str, draw: int, pair: Pair) -> int:
    """The lot of a pair by a seed, as the page says it."""
    text = f"{seed}\n{draw}\n{pair[0]}\n{pair[1]}\n"
    return int(hashlib.sha256(text.encode()).hexdigest()[:8], 16)


@pytest.fixture(name="town", scope="module")
def town_fixture() -> Town:
    """A town of 40 children."""
    return Town(40)


@pytest.fixture(name="machine")
def machine_fixture(
    tmp_path: pathlib.Path, town: Town, monkeypatch: pytest.MonkeyPatch
) -> Iterator[Machine]:
    """A machine with the register of that town, before its first round."""
    make(tmp_path / "reg.db", town.commands())
    with machine_over(tmp_path, tmp_path / "reg.db", monkeypatch) as found:
        yield found


def test_a_round_by_five_hands(machine: Machine, town: Town) -> None:
    """From the begin to the end through the screens: the schools are those of deferred acceptance
    with the lots that were typed and drawn by a seed.
    """
    decided, lots = town.decided(), {it: seeded("05 17 23", 1, it) for it in town.pairs()}
    assert 4 < len(decided) < len(lots)
    chance = random.Random(3)
    numbers = chance.sample(range(1000), len(decided))
    lots.update(zip(sorted(decided), numbers))
    with machine.office() as office:
        first_day(office)
        hal, jane = Person(office, "hal", "head"), Person(office, "jane", "officer")
        sup = Person(office, "sup", "supervisor").browser
        hal.browser.get("/draws/")
        found = hal.browser.post("/draws/", {"kind": "round", "day": OFFER_DAY})
        assert (found.status_code, found.location) == (303, "/draws/1")
        page = hal.browser.get("/draws/1").text
        assert "Monday 3 March 2025." in page and "Is this right?" not in page
        assert "from then on until recording resumes. All can still read" in page
        assert f"{len(lots)} lots are drawn: one for each of 40 children at each school" in page
        assert "of its list." in page
        page = sup.get("/lots/")
        assert page.status_code == 200 and "Round 1" not in page.text
        assert tasks(sup.get("/").text)["Not yet"][0][2] == "Soon"
        # (the copy and the pairs follow)
        assert hal.step(1, "close").status_code == 303
        (title, said, state), = tasks(sup.get("/").text)["Due now"]
        assert (title, state) == ("Draw the lots of round 1", "Waits for you")
        assert said.startswith("For Monday, 3 March 2025. Type or upload them, and seal them.")
        assert 'href="/lots/1"' in sup.get("/lots/").text
        first = Fields(sup.get("/lots/1").text)
        fields = [it for it in first.values if it.startswith("lot-")]
        parts = [it.split("-") for it in fields[:len(decided)]]
        assert {(it[1], int(it[2])) for it in parts} == decided
        given = {f"lot-{code}-{it}-0": str(lots[code, it]) for code, it in sorted(decided)}
        assert "Abel" not in sup.get("/lots/1").text
        assert f"{len(decided)} lots saved." in sup.sent("/lots/1", given).text
        page = sup.sent("/lots/1/seed", {"seed": " 05 17 23"})
        assert f"{len(lots) - len(decided)} lots are drawn by the seed." in page.text
        # (the last lots lead to the seal)
        values = Fields(page.text).values
        text = "".join([f"draw 1: a round, {OFFER_DAY}\n",
                        *(f"{code} {it} {lots[code, it]}\n" for code, it in sorted(lots))])
        assert values["digest"] == hashlib.sha256(text.encode()).hexdigest()
        given = {"seen": values["seen"], "digest": values["digest"]}
        assert sup.post("/lots/1/seal", given).status_code == 303
        found = tasks(sup.get("/").text)
        assert "Due now" not in found and found["Done"][0][0] == "Seal the lots of round 1"
        assert found["Not yet"][0][::2] == ("Wait for round 1", "Nothing for you")
        assert sup.get("/lots/1/sealed.txt").text == text
        assert hal.browser.get("/draws/1/sealed.txt").text == text
        # (the rehearsal follows)
        page = jane.browser.get("/").text
        assert '<a href="/draws/1"' in page
        assert "A second person has to confirm it." in page
        assert ">Confirm round 1</button>" in page
        wanted = town.allotted(lots)
        shown = hal.browser.get("/draws/1").text
        placed = sum(it is not None for it in wanted.values())
        for words, many in (("Offered a place", placed), ("No place</a>", 40 - placed)):
            assert f'>{words}</dt><dd class="number">{many}</dd>' in shown, words
        assert "<bdi>&lt;script&gt;alert(1)&lt;/script&gt; 3</bdi>" in shown
        assert hal.step(1, "confirm").status_code == 409
        assert jane.step(1, "confirm").status_code == 303
        assert office.parts.desk.now().draws == []
        # (the audit follows, and the opening)
        assert hal.step(1, "send").status_code == 303
        assert "everybody can record again." in hal.browser.get("/draws/1").text
        assert "is in progress" not in jane.browser.get("/").text
        register = office.parts.desk.now()
        assert register.outcomes[1] == wanted
        assert register.lots(1) == lots
        assert {it: place.school for it, place in register.places.items()} == {
            it: code for it, code in wanted.items() if code}
        draw = office.parts.draws.get(1)
        assert [(it.state, it.who) for it in draw.done] == [
            ("begun", "hal"), ("closed", "hal"), ("copied", "hal"), ("lots", "hal"),
            ("sealed", "sup"), ("rehearsed", "sup"), ("confirmed", "jane"), ("sending", "hal"),
            ("audited", "hal"), ("opened", "hal")]
        whats = [it.what for it in office.parts.history.entries if it.about.get("id") == 1]
        assert whats == [
            "closed the register", "copied the register", "gave the pairs to the supervisor",
            "saved lots", "saved lots", "sealed the lots", "rehearsed", "confirmed", "held",
            "copied the register", "audited", "opened the register"]
        names = [it.name for it in office.parts.copies.listed()]
        purposes = [it.purpose for it in office.parts.copies.listed()]
        assert purposes == ["after round 1", "before round 1"]
        assert all(re.fullmatch(r"office-00000[12]-\d{4}-\d\d-\d\dT\d{6}\.db", it) for it in names)
        assert [(machine.copies / it).stat().st_mode & 0o777 for it in names] == [0o640] * 2


def test_the_outcome_is_found_and_put_in_order(small: Machine) -> None:
    """One place at OAK, which all five want first: its nearest has it, and four wait there. Each
    table has an order of its own, and each child its page.
    """
    with small.office() as office:
        number = begun(office)
        brought(office, number, "rehearsed")
        jane = office.browser("jane")

        def tables(given: str = "") -> dict[str, list[list[str]]]:
            return Page(jane.get(f"/draws/{number}?{given}").text).tables

        def children(given: str) -> list[str]:
            found = next(rows for name, rows in tables(given).items()
                         if name.startswith("By child"))
            return [it[1] for it in found[1:] if len(it) > 1]

        # (school, places, offered, plans, left free, wait, first preferences, last place)
        schools = [["ELM School ELM", "9", "4", "0", "5", "0", "0", "Nobody waits"],
                   ["OAK School OAK", "1", "1", "0", "0", "4", "5",
                    "Ranked by distance alone, 100 m"]]
        assert tables()["by-school"][1:] == schools
        assert tables("order=schools.waiting.down&q=x")["by-school"][1:] == (
            schools[::-1])
        assert children("") == ["1", "2", "3", "4", "5"]
        assert children("order=children.has") == ["2", "3", "4", "5", "1"]
        assert children("q=elm&order=children.child.down") == ["5", "4", "3", "2"]
        assert children("q=3") == ["3"] and children("q=x") == children("what=none") == []
        page = jane.get(f"/draws/{number}?q=elm&order=children.child")
        assert "By child: 4 of 5" in Page(page.text).tables
        assert 'href="/children/2"' in page.text
        assert f'href="/draws/{number}?q=elm&amp;order=children.child.down#children"' in page.text


def test_a_second_round(machine: Machine, town: Town) -> None:
    """Each child keeps its place or moves to a school that it prefers; by new lots."""
    with machine.office() as office:
        number = begun(office)
        brought(office, number, "opened")
        first = town.allotted({it: lot_of(it, 0) for it in town.pairs()})
        assert office.parts.desk.now().outcomes[1] == first
        own = {it: code for it, code in first.items() if code}
        left = frozenset((own[it], it) for it in sorted(own)[::3])
        do_over(machine.address, [{"cmd": "decline", "child": it, "school": code}
                                  for code, it in sorted(left)])
        own = {it: code for it, code in own.items() if (code, it) not in left}
        number = begun(office, day="2025-05-12")
        brought(office, number, "lots")
        pairs = [(code, it) for it, asks in town.asks(own, set(left)).items() for code in asks
                 if own.get(it) != code]
        _, sheet = office.parts.lots.sheet(number)
        assert sorted(row.pair for row in sheet.rows) == sorted(pairs)
        lots = dict(zip(sorted(pairs), random.Random(5).sample(range(10_000), len(pairs))))
        typed(office, number, lambda pair, _: lots[pair])
        sealed(office, number)
        brought(office, number, "opened")
        wanted = town.allotted(lots, own, left)
        register = office.parts.desk.now()
        assert register.outcomes[2] == wanted and register.lots(2) == lots
        found = [draws_outcome.of_child(it)
                 for it in office.parts.draws.get(number).rehearsal["outcomes"]]
        assert {it.child: (it.had or None, it.has or None) for it in found} == {
            it: (own.get(it), wanted[it]) for it in town.lists}
        counts = draws_outcome.whole(register, office.parts.draws.get(number), {}).counts
        moved = [it for it in own if wanted[it] != own[it]]
        assert moved and counts == {
            "a new place": sum(bool(code) for it, code in wanted.items() if it not in own),
            "moves": len(moved), "keeps its place": len(own) - len(moved),
            "no place": sum(code is None for code in wanted.values()),
            "late: not in this round": 0}
        schools = {it.school: it for it in draws_outcome.by_school(register, found)}
        for code in CODES:
            new = [it for it in wanted if wanted[it] == code and own.get(it) != code]
            assert (schools[code].offers, schools[code].moves, schools[code].kept,
                    schools[code].gone) == (
                len(new), sum(it in own for it in new),
                sum(own[it] == wanted[it] == code for it in own),
                sum(own[it] == code != wanted[it] for it in own))


def test_what_follows_a_step_and_cannot_be_done_has_a_button(
    small: Machine, monkeypatch: pytest.MonkeyPatch
) -> None:
    """The step itself is done, and all who look see why the others are not. Once the machine
    answers, one button goes on with all of them.
    """
    with small.office() as office:
        number = begun(office)
        hal, rita = Person(office, "hal", "head"), office.browser("rita", "reader")
        for name, state, button in (("close", "closed", "Make the copy"),
                                    ("send", "sending", "Audit round 1")):
            with monkeypatch.context() as patch:
                patch.setattr(office.parts.copies, "asked", no_answer)
                found = hal.step(number, name)
            assert found.status_code == 409 and "There is no copy: no answer" in found.text
            assert office.parts.draws.get(number).state == state
            assert f">{button}</button>" in found.text
            said = "not done: There is no copy: no answer."
            for page in (hal.browser.get("/"), rita.get("/"), hal.browser.get(f"/draws/{number}")):
                assert page.status_code == 200
            assert said in page.text and said in rita.get(f"/draws/{number}").text
            assert office.parts.draws.get(number).state == state
            last = office.parts.history.entries[-1]
            assert (last.who, last.what) == ("hal", "could not go on")
            assert hal.step(number, "go-on").status_code == 303
            assert said not in hal.browser.get(f"/draws/{number}").text
            if name == "close":
                assert office.parts.draws.get(number).state == "lots"
                brought(office, number, "confirmed")
        assert office.parts.draws.get(number).state == "opened"


def test_a_draw_is_not_said_to_be_missing_while_the_register_is_away(small: Machine) -> None:
    """Of a draw that is held, the page says nothing that it cannot know, and offers no step."""
    with small.office() as office:
        number = begun(office)
        brought(office, number, "sending")
        waiting(office, number)
        hal = office.browser("hal", "head")
        page = hal.get(f"/draws/{number}").text
        assert "paused, and run; not audited yet" in page
        assert "Next: audit round 1" in page and "Audit round 1</button>" in page
        small.stop()
        # (what was read within a minute is shown as it was)
        office.parts.desk.copy = None
        page = hal.get(f"/draws/{number}").text
        assert "The register does not answer now." in page
        for said in ("so far", "Next:", "Run round 1", "Audit round 1"):
            assert said not in page, said
        small.start()
        assert "Audit round 1</button>" in hal.get(f"/draws/{number}").text


def test_three_fills_in_one_closure(small: Machine) -> None:
    """Each offers a place to the first by class, metres and the lot of its own draw; who has a
    place by an earlier fill of the row takes no part in the next.
    """
    with small.office() as office:
        after_round(small, office)
        number = begun(office, "OAK", 3, "2025-04-07")
        brought(office, number, "lots")
        _, sheet = office.parts.lots.sheet(number)
        assert [(row.pair, row.tie) for row in sheet.rows] == [
            (("OAK", 2), 1), (("OAK", 3), 1), (("OAK", 4), 0), (("OAK", 5), 0)]
        # (at 200 metres the lots of each draw decide: first child 3, and then child 2 is alone)
        lots = {2: (9, 8, 1), 3: (5, 9, 2), 4: (1, 1, 3), 5: (2, 2, 4)}
        typed(office, number, lambda pair, at: lots[pair[1]][at])
        sealed(office, number)
        brought(office, number, "opened")
        register = office.parts.desk.now()
        assert [(it.number, it.school, str(it.day)) for it in register.draws[1:]] == [
            (2, "OAK", "2025-04-07"), (3, "OAK", "2025-04-07"), (4, "OAK", "2025-04-07")]
        assert [register.outcomes[it] for it in (2, 3, 4)] == [{3: "OAK"}, {2: "OAK"}, {4: "OAK"}]
        assert register.lots(3) == {("OAK", 2): 8, ("OAK", 4): 1, ("OAK", 5): 2}
        assert register.lots(4) == {("OAK", 4): 3, ("OAK", 5): 4}
        draw = office.parts.draws.get(number)
        assert (draw.name, draw.terms.sealed) == (
            "the offer of 3 places at OAK School", "draws 2 to 4: 3 fills at OAK")
        assert [it[:4] for it in draw.rehearsal["outcomes"]] == [
            [2, 3, "ELM", "OAK"], [3, 2, "ELM", "OAK"], [4, 4, "ELM", "OAK"]]
        command = {"cmd": "fill", "draw": 3, "school": "OAK", "day": "2025-04-07",
                   "lots": [8, 1, 2]}
        assert command_kinds.is_done(register, command)
        others: list[dict[str, Any]] = [
            {"school": "ELM"}, {"day": "2025-04-08"}, {"lots": [8, 2, 1]}, {"draw": 5}]
        for other in others:
            assert not command_kinds.is_done(register, {**command, **other}), other
        whole = {name: it for name, it in command.items() if name != "school"}
        assert not command_kinds.is_done(register, {**whole, "cmd": "round"})


def test_nobody_else_records_while_it_is_closed(
    small: Machine, monkeypatch: pytest.MonkeyPatch
) -> None:
    """From the close to the end, by whatever way; and what is closed is said, by whom and since
    when: on another day with the day.
    """
    with small.office() as office:
        number, jane, portal = begun(office), office.browser("jane"), office.program("portal")
        command = {"cmd": "raise_pan", "school": "ELM", "pan": 10}
        brought(office, number, "closed")
        closed = office.parts.draws.get(number).came_to("closed").at
        since = datetime.datetime.fromisoformat(closed).astimezone()
        monkeypatch.setattr(desk, "today", since.date)
        for state in ("closed", "copied", "lots", "sealed", "rehearsed", "confirmed", "sending",
                      "audited"):
            brought(office, number, state)
            waiting(office, number)
            found = portal.command(command)
            assert found.status_code == 503
            said = f"Recording is paused for round 1 by hal since {since:%H:%M}"
            assert found.json["reason"] == f"{said}."
            rows = portal.post("/import", "child\n", "text/csv")
            assert rows.status_code == 503
            assert "Recording is paused for round 1" in rows.json["reason"]
        for screen in ("/", "/schools/", "/applications/", "/applications/commit/", "/find",
                       "/children/1", "/answers/", "/draws/", "/lists/", "/flags/", "/activity/"):
            text = jane.get(screen).text
            assert text.count("Recording is paused for round 1 by hal since") == 1, screen
            assert text.count(f'href="/draws/{number}">To round 1</a>') == 1, screen
        assert "To round 1<" not in jane.get(f"/draws/{number}").text
        next_day = since.date() + datetime.timedelta(days=1)
        monkeypatch.setattr(desk, "today", lambda: next_day)
        assert f"{said} on {days.in_words(since.date())}." in jane.get("/").text
        assert "Closed for" not in office.browser("sup", "supervisor").get("/lots/").text
        assert office.parts.desk.now().schools["ELM"].pan == 9
        brought(office, number, "opened")
        assert portal.command(command).json == {"done": True}


def test_a_round_cannot_be_sent_as_a_command(small: Machine) -> None:
    """Neither by who may record nor by who may hold draws."""
    with small.office() as office:
        for role in ("officer", "head"):
            portal = office.program(f"of.{role}", role)
            for command in ({"cmd": "round", "draw": 1, "day": OFFER_DAY, "lots": list(range(10))},
                            {"cmd": "fill", "draw": 1, "day": OFFER_DAY, "school": "OAK",
                             "lots": [1]}):
                found = portal.command(command)
                assert (found.status_code, found.json["name"]) == (403, "TwoPeople")
                assert "a second person" in found.json["reason"]
        assert office.parts.desk.now().draws == []


RIGHTS = [
    ("GET /draws/", "head officer reader"), ("GET /draws/1", "head officer reader"),
    ("GET /draws/1/sealed.txt", "head officer reader"), ("GET /draws/1/cancel", "head officer"),
    ("POST /draws/", "head"),
    *((f"POST /draws/1/{it}", "head") for it in ("close", "send")),
    *((f"POST /draws/1/second/{it}", "head officer") for it in (
        "confirm", "go-on", "give-up", "ask-give-up", "keep-on", "confirm-give-up",
        "give-up-alone", "ask-restore", "keep", "restore", "restore-alone")),
    *((f"GET /lots/{it}", "supervisor") for it in (
        "", "1", "1/seal", "1/sealed.txt", "1/sheet.csv", "1/sheet.xlsx")),
    *((f"POST /lots/{it}", "supervisor") for it in ("1", "1/seed", "1/sheet", "1/seal")),
]


def test_each_role_may_do_what_is_its_own(small: Machine) -> None:
    """The head holds draws, the head and officers confirm, and only the supervisor sees lots
    before they are sealed.
    """
    with small.office() as office:
        number = begun(office)
        brought(office, number, "lots")
        for role in ("head", "officer", "supervisor", "reader", "administrator", "school-OAK"):
            browser = office.browser(f"kim.{role.lower()}", role)
            for what, roles in RIGHTS:
                method, path = what.split()
                found = browser.client.open(
                    path, method=method, base_url=ORIGIN, headers={"Origin": ORIGIN},
                    data={"form": browser.secret, "seen": "0"} if method == "POST" else None)
                assert (found.status_code == 403) == (role not in roles.split()), (role, what)
        assert office.parts.draws.get(number).state == "lots"


def test_the_second_person_is_another(small: Machine) -> None:
    """Who began the draw does not confirm it, nor does who sealed the lots; and who began it does
    not seal them, whatever their role is now.
    """
    with small.office() as office:
        number = begun(office)
        brought(office, number, "lots")
        typed(office, number, lot_of)
        digest = office.parts.lots.sheet(number)[1].digest()
        at = version(office, number)
        with pytest.raises(Refused, match="hal began round 1: somebody else seals the lots"):
            office.parts.lots.seal(HAL, number, at, digest)
        brought(office, number, "rehearsed")
        at = version(office, number)
        with pytest.raises(Refused, match="hal began round 1: somebody else confirms it"):
            office.parts.draws.confirm(HAL, number, at)
        with pytest.raises(Refused, match="sup sealed the lots: somebody else confirms it"):
            office.parts.draws.confirm(SUP, number, at)
        office.parts.draws.confirm(JANE, number, at)
        assert office.parts.draws.get(number).state == "confirmed"


def test_a_stale_page_does_nothing(small: Machine) -> None:
    """A page that was shown before the draw changed confirms nothing, and says who changed it."""
    with small.office() as office:
        jane = Person(office, "jane", "officer")
        number = begun(office)
        brought(office, number, "rehearsed")
        seen = Fields(jane.browser.get(f"/draws/{number}").text).values["seen"]
        given_up(office, number)
        found = jane.press(number, seen, "confirm")
        assert found.status_code == 409
        assert re.search(r"Round 1 has changed since .+ jane changed it at .+ \(cancelled\)\.",
                         found.text)
        other = begun(office)
        brought(office, other, "rehearsed")
        assert jane.press(other, "1", "confirm").status_code == 409
        assert office.parts.draws.get(other).state == "rehearsed"
        assert jane.press(other, "x", "confirm").status_code == 400
        assert jane.press(other, seen, "no-step").status_code in (403, 404)


def behind(office: Site, machine: Machine, number: int, state: str, command: Command) -> None:
    """Brings a draw to a state, and has a command done behind it."""
    brought(office, number, state)
    do_over(machine.address, [command])


LEFT = {"cmd": "name_plan", "child": 5, "school": "ELM"}


def unnamed(office: Site, found: Any, said: str) -> None:
    """A page says why something was not done, now and later, and names no path and no address for
    it.
    """
    reason = re.search(r'id="answer"[^>]*>([^<]*)<', found.text)
    assert found.status_code == 409 and reason and said in reason[1], found.text
    draw = office.parts.draws.present()
    assert draw and said[1:] in draw.trouble
    for it in ("://", "127.0.0.1", "/tmp", ".db", "/office"):
        assert it not in reason[1] + draw.trouble, reason[1] + draw.trouble


BROKEN = """#!{python}
import subprocess, sys
if sys.argv[1] == "{what}":
    sys.exit(f"no good: {{sys.argv[2]}}")
sys.exit(subprocess.run([{program!r}, *sys.argv[1:]], stdin=sys.stdin).returncode)
"""


def test_what_is_wrong_is_said_without_a_path(
    small: Machine, monkeypatch: pytest.MonkeyPatch
) -> None:
    """The register and its copies are called so: an officer knows no file and no address."""
    with small.office() as office:
        hal, number = Person(office, "hal", "head"), begun(office)
        brought(office, number, "copied")
        ask = office.parts.desk.sender.ask
        with monkeypatch.context() as patch:
            patch.setattr(office.parts.desk.sender, "ask", lambda method, path, *more, **limits: (
                (500, b"") if path == "/pairs" else ask(method, path, *more, **limits)))
            unnamed(office, hal.step(number, "go-on"),
                    "The register cannot be read: the server answered")
        stand_in = small.folder / "broken"
        for what, said in (
            ("do", "It cannot be rehearsed: no good: the copy"),
            ("show", "The copy is no register, or it is damaged: no good: the copy"),
        ):
            stand_in.write_text(
                BROKEN.format(python=sys.executable, program=PROGRAM, what=what), "utf-8")
            stand_in.chmod(0o755)
            with monkeypatch.context() as patch:
                patch.setenv("ADMISSIONS", str(stand_in))
                unnamed(office, hal.step(number, "go-on"), said)
        brought(office, number, "sealed")
        copy = office.parts.copies.path(1)
        copy.write_bytes(b"SQLite format 3\0" + b"damaged" * 999)
        unnamed(office, hal.step(number, "go-on"), "The copy is no register, or it is damaged:")
        copy.unlink()
        unnamed(office, hal.step(number, "go-on"), "There is no copy 1")


def test_a_register_that_changed_behind_is_refused(small: Machine) -> None:
    """After the seal by other pairs, or anything else; after the confirmation, before it is sent;
    and between two fills.
    """
    with small.office() as office:
        number = begun(office)
        behind(office, small, number, "sealed", LEFT)
        with pytest.raises(Refused, match=r"wants no lot any more for ELM 5 and OAK 5\. Cancel it"):
            office.parts.draws.rehearse(HAL, number, version(office, number))
        given_up(office, number)
        number = begun(office)
        behind(office, small, number, "sealed", RAISED)
        with pytest.raises(Refused, match="has changed since it was copied. Cancel it, and begin"):
            office.parts.draws.rehearse(HAL, number, version(office, number))
        given_up(office, number)
        number = begun(office)
        behind(office, small, number, "confirmed", {**RAISED, "pan": 3})
        with pytest.raises(Refused, match="is not as it was rehearsed. Cancel it, and begin"):
            office.parts.draws.send(HAL, number, version(office, number))
        assert office.parts.desk.now().draws == []
        assert office.parts.draws.get(number).state == "confirmed"
        given_up(office, number)
        assert office.parts.desk.closed() == ""


def test_the_very_round_sent_by_somebody_else_is_refused(small: Machine) -> None:
    """A draw that the register has already is not sent, and not taken for this one."""
    with small.office() as office:
        number = begun(office)
        brought(office, number, "confirmed")
        lots = office.parts.lots.sheet(number)[1].lots()
        do_over(small.address, [{"cmd": "round", "draw": 1, "day": OFFER_DAY,
                                 "lots": [lots[it][0] for it in sorted(lots)]}])
        with pytest.raises(Refused, match="the register has round 1 already"):
            office.parts.draws.send(HAL, number, version(office, number))
        assert not office.parts.history.open_requests()
        assert not any(it.what == "sends" for it in office.parts.history.entries)


def test_a_draw_with_other_lots_is_not_taken_for_this_one(
    small: Machine, monkeypatch: pytest.MonkeyPatch
) -> None:
    """Where the application ended before it had sent anything, and somebody else held the draw with
    other lots, which lead to the same outcome.
    """
    with small.office() as office:
        number = begun(office)
        brought(office, number, "confirmed")
        lots = office.parts.lots.sheet(number)[1].lots()
        with monkeypatch.context() as patch:
            crashing(office.parts.desk, "send", False, patch)
            with pytest.raises(Crash):
                office.parts.draws.send(HAL, number, version(office, number))
    do_over(small.address, [{"cmd": "round", "draw": 1, "day": OFFER_DAY,
                             "lots": [1000 + lots[it][0] for it in sorted(lots)]}])
    with small.office() as office:
        draw = office.parts.draws.get(number)
        register = office.parts.desk.now()
        assert draw.state == "sending"
        assert [it[1:4:2] for it in draw.rehearsal["outcomes"]] == [
            [child, code] for child, code in register.outcomes[1].items()]
        for step in (office.parts.draws.send, office.parts.draws.audit):
            with pytest.raises(Refused, match="not as it was rehearsed. It cannot go on"):
                step(HAL, number, version(office, number))


STATES = ("closed", "copied", "lots", "sealed", "rehearsed", "confirmed", "sending", "audited",
          "opened")


@pytest.mark.parametrize("is_after", (False, True))
def test_a_crash_in_each_state(
    small: Machine, monkeypatch: pytest.MonkeyPatch, is_after: bool
) -> None:
    """Before or after the record of a step, the application that comes then goes on where it was,
    and every round is held once.
    """
    with small.office() as office:
        number = begun(office)
    for state in STATES:
        with small.office() as office, monkeypatch.context() as patch:
            first_day(office)
            if state == "sealed":
                typed(office, number, lot_of)
            before = office.parts.draws.get(number).state
            crashing(office.parts.history, "add", is_after, patch)
            with pytest.raises(Crash):
                steps(office, number)[state]()
            assert office.parts.draws.get(number).state == before
        with small.office() as office:
            first_day(office)
            assert bool(office.parts.desk.closed()) == (before != "begun")
            brought(office, number, state)
    with small.office() as office:
        assert len(office.parts.desk.now().draws) == 1
        assert len([it for it in office.parts.history.entries if it.what == "sends"]) == 1
        assert office.parts.desk.closed() == ""


@pytest.mark.parametrize("when", ("before the second", "in the second", "after the second"))
def test_a_crash_between_fills(
    small: Machine, monkeypatch: pytest.MonkeyPatch, when: str
) -> None:
    """A row of fills goes on where it stopped: what was sent is seen in the register, and no fill
    is sent twice.
    """
    with small.office() as office:
        after_round(small, office)
        number = begun(office, "OAK", 3, "2025-04-07")
        brought(office, number, "confirmed")
        with monkeypatch.context() as patch:
            if when == "before the second":
                crashing(office.parts.desk, "send", False, patch, 2)
            elif when == "in the second":
                crashing(office.parts.desk.sender, "send", True, patch, 2)
            else:
                crashing(office.parts.desk, "send", True, patch, 2)
            with pytest.raises(Crash):
                office.parts.draws.send(HAL, number, version(office, number))
    with small.office() as office:
        draw = office.parts.draws.get(number)
        held = {"before the second": 1}.get(when, 2)
        assert draw.state == "sending" and len(office.parts.desk.now().draws) == 1 + held
        assert "Recording is paused for the offer of 3 places at " in office.parts.desk.closed()
        page = office.browser("rita", "reader").get(f"/draws/{number}").text
        assert f"{held} of 3 places so far" in page and "go on, and run the" in page
        with pytest.raises(Refused, match="not all of it is run yet"):
            office.parts.draws.audit(HAL, number, version(office, number))
        assert office.parts.draws.get(number).state == "sending"
        jane = Person(office, "jane", "officer")
        assert jane.step(number, "go-on").status_code == 303
        assert "everybody can record again." in jane.browser.get(f"/draws/{number}").text
        assert office.parts.draws.get(number).state == "opened"
        assert [it.number for it in office.parts.desk.now().draws] == [1, 2, 3, 4]
        sends = [it for it in office.parts.history.entries if it.what == "sends"]
        assert [it.about["command"]["draw"] for it in sends] == [1, 2, 3, 4]


SWAPS = """#!{python}
import sqlite3, subprocess, sys
ran = subprocess.run([{program!r}, *sys.argv[1:]], stdin=sys.stdin)
if sys.argv[1] == "do" and ran.returncode == 0:
    conn = sqlite3.connect(sys.argv[2])
    if conn.execute("SELECT draws FROM meta").fetchone()[0]:
        for table in ("offer", "place"):
            conn.execute("UPDATE " + table + " SET child = 1 - child WHERE child IN (1, 4)"
                         " AND school IS NOT NULL")
            conn.execute("UPDATE " + table + " SET child = 1 WHERE child = -3")
            conn.execute("UPDATE " + table + " SET child = 4 WHERE child = 0")
        conn.commit()
sys.exit(ran.returncode)
"""


def test_a_difference_of_the_audit_stops_it(
    small: Machine, monkeypatch: pytest.MonkeyPatch
) -> None:
    """A program that gives two children each other's places is found out before anything is sent.
    """
    stand_in = small.folder / "swaps"
    stand_in.write_text(SWAPS.format(python=sys.executable, program=PROGRAM), "utf-8")
    stand_in.chmod(0o755)
    with small.office() as office:
        number = begun(office)
        brought(office, number, "sealed")
        with monkeypatch.context() as patch:
            patch.setenv("ADMISSIONS", str(stand_in))
            office.parts.draws.rehearse(HAL, number, version(office, number))
        draw = office.parts.draws.get(number)
        assert draw.state == "sealed" and any("not best" in it for it in draw.rehearsal["wrong"])
        hal = Person(office, "hal", "head")
        page = hal.browser.get(f"/draws/{number}").text
        assert "It cannot go on: cancel round 1" in page and "not best: child 1" in page
        found = hal.step(number, "go-on")
        assert found.status_code == 409 and "The rehearsal has found a difference." in found.text
        for name in ("confirm", "send"):
            assert hal.step(number, name).status_code == 409
        assert office.parts.desk.now().draws == []
        assert hal.step(number, "ask-give-up", reason=MISTYPED).status_code == 303
        jane = Person(office, "jane", "officer")
        assert jane.step(number, "confirm-give-up").status_code == 303
        assert office.parts.desk.closed() == ""


# what is done to a register after its draws, and what the comparison of the copies says
SPOILED = {
    "UPDATE school SET pan = pan + 1 WHERE code = 'ELM'": "a row of school of AFTER was not in",
    "UPDATE lot SET lot = lot + 500 WHERE draw = 3": "the lots of place 2 are not those",
    "UPDATE lot SET lot = lot + 500 WHERE draw = 4": "the lots of place 3 are not those",
    "UPDATE offer SET child = 5 WHERE draw = 3": "not the first: child 3 is, and child 5 OAK",
    "UPDATE place SET kind = 2, day = NULL WHERE child = 3": "by BEFORE and the fill, and not in",
    "UPDATE child SET name = 'Another' WHERE child = 1": "a row of child of AFTER was not in",
    "UPDATE draw SET day = day + 1 WHERE draw = 4": "the register is not as it was rehearsed",
}


def test_each_change_after_the_draws_is_found(small: Machine) -> None:
    """By the audits of a row of fills, each with the register that it saw; and by the lots and the
    whole of the register, which are compared with the rehearsal.
    """
    with small.office() as office:
        after_round(small, office)
        number = begun(office, "OAK", 3, "2025-04-07")
        brought(office, number, "opened")
        draw = office.parts.draws.get(number)
        lots = office.parts.lots.sheet(number)[1].lots()
        assert draw.before and draw.after
        held = office.parts.copies.path(draw.after)
        with Rehearsal(office.parts.copies.path(draw.before), draw.terms, lots) as found:
            found.hold(True)
            right = found.compared(held)
            assert (right.wrong, len(right.lines)) == ([], 3) and found.has_outcome(draw.rehearsal)
            assert [it[1] for it in found.outcomes] == [2, 3, 4]
            for at, (change, said) in enumerate(SPOILED.items()):
                spoiled = small.folder / f"spoiled-{at}.db"
                shutil.copy(held, spoiled)
                conn = sqlite3.connect(spoiled)
                assert conn.execute(change).rowcount > 0
                conn.commit()
                conn.close()
                wrong = found.compared(spoiled).wrong
                assert any(said in it for it in wrong), (change, wrong)


def test_an_audit_that_differs_after_the_draw_leads_to_a_restore(
    small: Machine, monkeypatch: pytest.MonkeyPatch
) -> None:
    """The register is not opened; two persons restore the copy, and it is then as it was."""
    with small.office() as office:
        before = office.parts.desk.now()
        number = begun(office)
        brought(office, number, "sending")
        hal, jane = Person(office, "hal", "head"), Person(office, "jane", "officer")
        with monkeypatch.context() as patch:
            patch.setattr("office.web.rounds.rehearsal.audit.audit",
                          lambda *_: (["not best: child 1"], False))
            assert hal.step(number, "go-on").status_code == 303
        draw = office.parts.draws.get(number)
        assert (draw.state, draw.audit["wrong"]) == ("sending", ["not best: child 1"])
        assert "Inform no family" in jane.browser.get(f"/draws/{number}").text
        assert office.parts.desk.closed()
        seen = str(version(office, number))
        assert jane.press(number, seen, "restore").status_code == 409
        assert hal.step(number, "ask-restore").status_code == 303
        assert hal.step(number, "restore").status_code == 409
        assert hal.step(number, "go-on").status_code == 409
        assert jane.step(number, "restore").status_code == 303
        assert copies.is_same(office.parts.desk.now(), before)
        draw = office.parts.draws.get(number)
        assert draw.state == "restored" and office.parts.desk.closed() == ""
        kept = list((small.lib / NAME).glob("reg.db.replaced-*"))
        assert len(kept) == 1
        assert [it.number for it in register_of(kept[0]).draws] == [1]
        again = begun(office)
        brought(office, again, "opened")
        assert len(office.parts.desk.now().draws) == 1


def test_a_restore_is_taken_back(small: Machine) -> None:
    """As long as the register has the draw; the draw goes on then."""
    with small.office() as office:
        number = begun(office)
        brought(office, number, "sending")
        office.parts.draws.ask_restore(HAL, number, version(office, number))
        for step in (office.parts.draws.send, office.parts.draws.audit):
            with pytest.raises(Refused, match="hal has asked to restore|this cannot be done"):
                step(HAL, number, version(office, number))
        office.parts.draws.keep(HAL, number, version(office, number))
        brought(office, number, "opened")
        with pytest.raises(Refused, match=r"this cannot be done with round 1 now \(complete\)"):
            office.parts.draws.ask_restore(HAL, number, version(office, number))


def test_a_crash_in_a_restore(small: Machine, monkeypatch: pytest.MonkeyPatch) -> None:
    """Once the copy is there, the draw is not held again: the restore is confirmed once more."""
    with small.office() as office:
        number = begun(office)
        brought(office, number, "sending")
        office.parts.draws.ask_restore(HAL, number, version(office, number))
        with monkeypatch.context() as patch:
            crashing(office.parts.copies, "restore", True, patch)
            with pytest.raises(Crash):
                office.parts.draws.restore(JANE, number, version(office, number))
    with small.office() as office:
        assert office.parts.desk.closed() and office.parts.desk.now().draws == []
        with pytest.raises(Refused, match="hal has asked to restore"):
            office.parts.draws.send(HAL, number, version(office, number))
        with pytest.raises(Refused, match="the register is that of the copy"):
            office.parts.draws.keep(HAL, number, version(office, number))
        office.parts.draws.restore(JANE, number, version(office, number))
        assert office.parts.draws.get(number).state == "restored"
        assert office.parts.desk.now().draws == []


def test_a_draw_is_given_up_before_it_is_sent_alone(small: Machine) -> None:
    """From each state before it; then another one begins with the same number."""
    with small.office() as office:
        for state in ("begun", *STATES[:6]):
            number = begun(office)
            with pytest.raises(Refused, match="round 1 is in progress"):
                begun(office)
            brought(office, number, state)
            given_up(office, number)
            draw = office.parts.draws.get(number)
            digest = f" Fingerprint of the lots {draw.digest}." if draw.digest else ""
            assert draw.done[-1].said == (
                f"Before that: {draw.states.in_short(state)}.{digest}")
            assert bool(digest) == (state in ("sealed", "rehearsed", "confirmed"))
            assert office.parts.desk.closed() == ""
        number = begun(office)
        brought(office, number, "sending")
        for name in ("give-up", "ask-give-up", "confirm-give-up"):
            seen = str(office.parts.draws.get(number).version)
            found = Person(office, "hal", "head").press(number, seen, name, reason=MISTYPED)
            assert found.status_code == 409 and "This cannot be done with round 1 now" in found.text


def test_two_give_up_a_draw_whose_lots_are_sealed(small: Machine) -> None:
    """From the seal on: who has seen the outcome of the rehearsal has no other lots drawn alone.
    The sum of the lots that are not used is shown, and on record.
    """
    with small.office() as office:
        hal, jane = Person(office, "hal", "head"), Person(office, "jane", "officer")
        number = begun(office)
        brought(office, number, "lots")
        page = hal.browser.get(f"/draws/{number}/cancel").text
        assert ">Cancel round 1</button>" in page and "Ask a second person" not in page
        brought(office, number, "rehearsed")
        digest = office.parts.lots.sheet(number)[1].digest()
        page = hal.browser.get(f"/draws/{number}/cancel").text
        assert "Ask a second person to cancel round 1</button>" in page
        assert ">Cancel round 1</button>" not in page
        assert f"The fingerprint of its lots stays on record: <code>{digest}</code>" in page
        found = hal.step(number, "give-up")
        assert found.status_code == 409 and "This cannot be done with round 1 now" in found.text
        found = jane.step(number, "confirm-give-up")
        assert found.status_code == 409 and "Nobody has asked to cancel round 1." in found.text
        seen = Fields(jane.browser.get(f"/draws/{number}").text).values["seen"]
        assert hal.step(number, "ask-give-up", reason=MISTYPED).status_code == 303
        stale = jane.press(number, seen, "confirm").text
        assert re.search(r"hal changed it at .+ \(waits for a second person\)", stale)
        page = hal.browser.get(f"/draws/{number}").text
        assert "hal has asked to cancel round 1" in page and ">Confirm round 1<" not in page
        page = hal.browser.get(f"/draws/{number}/cancel").text
        assert "Somebody else confirms it." in page and ">Cancel round 1</button>" not in page
        found = hal.step(number, "confirm-give-up")
        assert found.status_code == 409 and "somebody else confirms it" in found.text
        found = jane.step(number, "confirm")
        assert found.status_code == 409 and "hal has asked to cancel round 1" in found.text
        # (it is taken back, and asked for once more)
        assert hal.step(number, "keep-on").status_code == 303
        assert ">Confirm round 1<" in jane.browser.get(f"/draws/{number}").text
        assert hal.step(number, "ask-give-up", reason=MISTYPED).status_code == 303
        assert office.parts.desk.closed()
        assert ">Cancel round 1</button>" in jane.browser.get(f"/draws/{number}/cancel").text
        assert jane.step(number, "confirm-give-up").status_code == 303
        assert office.parts.desk.closed() == "" and office.parts.desk.now().draws == []
        last = office.parts.history.entries[-1]
        assert (last.who, last.what, last.about["lots"]) == ("jane", "gave up", digest)
        assert last.about["reason"] == MISTYPED
        page = jane.browser.get(f"/draws/{number}").text
        assert f"Fingerprint of the lots {digest}." in page


def test_a_draw_whose_lots_are_sealed_is_given_up_for_a_reason(small: Machine) -> None:
    """Which is shown to who confirms it, among the steps, and with the next draw: nobody has other
    lots drawn without one who may know the outcome. What is no reason is refused, and stays typed.
    """
    with small.office() as office:
        hal, jane = Person(office, "hal", "head"), Person(office, "jane", "officer")
        number = begun(office)
        brought(office, number, "rehearsed")
        asked = hal.browser.get(f"/draws/{number}/cancel").text
        assert asked.count('name="reason"') == 1
        for reason in ("", " ", "two\nlines", 501 * "x"):
            found = hal.step(number, "ask-give-up", reason=reason)
            assert found.status_code == 409, reason
            assert "Type the reason for cancelling it in one line" in found.text
            assert office.parts.draws.get(number).give_up_by == ""
        assert f'value="{501 * "x"}"' in found.text
        assert hal.step(number, "ask-give-up", reason=f" {MISTYPED} <b>").status_code == 303
        said = f"<bdi>The reason: {MISTYPED} &lt;b&gt;</bdi>"
        page = jane.browser.get(f"/draws/{number}").text
        assert "hal has asked to cancel round 1" in page and said in page
        assert f"Asked to cancel it. Reason: {MISTYPED} &lt;b&gt;" in page
        page = jane.browser.get(f"/draws/{number}/cancel").text
        assert f"The reason: <bdi>{MISTYPED} &lt;b&gt;</bdi>" in page
        assert "hal has asked for it." in page and 'name="reason"' not in page
        # (a reason that is taken back is not that of the next request)
        assert jane.step(number, "keep-on").status_code == 303
        assert said not in jane.browser.get(f"/draws/{number}").text
        assert jane.step(number, "ask-give-up", reason="the lottery was another").status_code == 303
        assert hal.step(number, "confirm-give-up").status_code == 303
        page = " ".join(hal.browser.get(f"/draws/{begun(office)}").text.split())
        assert re.search(r"could be known: by jane and hal, [^<]*, because: <bdi>the lottery was"
                         r" another</bdi> <a ", page)


# what the head does to a second person, and how the page says it
MADE_UP = {
    "added": ({"what": "add", "name": "pat", "role": "head"}, "pat was added by hal at "),
    "another role": ({"what": "role", "name": "pat", "role": "head"},
                     "pat was given another role by hal at "),
    "another password": ({"what": "reset", "name": "pat"},
                         "pat was given another password by hal at "),
}


@pytest.mark.parametrize("how", MADE_UP)
def test_a_second_person_is_not_made_up(small: Machine, how: str) -> None:
    """Whom the head has added since the draw was begun, or given a role or a password, confirms
    and requests nothing, even with a password of their own.
    """
    given, said = MADE_UP[how]
    with small.office() as office:
        hal = Person(office, "hal", "head")
        if how != "added":
            office.add("pat", "officer" if how == "another role" else "head")
        number = begun(office)
        brought(office, number, "rehearsed")
        hal.browser.get("/people/")
        add = given["what"] == "add"
        page = hal.browser.post("/people/", given) if add else hal.browser.change(**given)
        assert page.status_code == 200, page.text
        drawn = re.findall(r'<code id="secret">([^<]{24})</code>', page.text)
        assert len(drawn) == (how != "another role")
        if drawn:
            office.parts.people.set_password(people_roles.Person("pat", "head"), drawn[0], PAT)
            office.passwords["pat"] = PAT
        pat = Person(office, "pat", "head")

        def refused(name: str) -> None:
            found = pat.press(number, str(version(office, number)), name)
            assert found.status_code == 409 and ", after it was begun:" in found.text
            assert said in found.text, found.text

        page = pat.browser.get(f"/draws/{number}").text
        assert page.count(said) == 2 and ">Confirm round 1<" not in page
        page = pat.browser.get(f"/draws/{number}/cancel").text
        assert said in page and "</button>" not in page.split("<main>")[1]
        for it in ("confirm", "ask-give-up"):
            refused(it)
        office.parts.draws.ask_give_up(HAL, number, version(office, number), MISTYPED)
        page = pat.browser.get(f"/draws/{number}/cancel").text
        assert said in page and ">Cancel round 1</button>" not in page
        refused("confirm-give-up")
        office.parts.draws.go_on(HAL, number, version(office, number))
        brought(office, number, "sending")
        refused("ask-restore")
        office.parts.draws.ask_restore(HAL, number, version(office, number))
        page = pat.browser.get(f"/draws/{number}/cancel").text
        assert said in page and ">Undo round 1</button>" not in page
        refused("restore")
        # (who was there before goes on; and in the next draw of hal pat is none of the two either)
        office.parts.draws.restore(JANE, number, version(office, number))
        number = begun(office)
        brought(office, number, "rehearsed")
        found = pat.step(number, "confirm")
        assert found.status_code == 409 and ", so that hal could act in both names" in found.text


def test_what_looks_wrong_is_read_before_it_closes(small: Machine) -> None:
    """A day that is not the offer day, a Saturday, a day to come: each is agreed to, and on record.
    """
    with small.office() as office:
        hal = Person(office, "hal", "head")
        number = begun(office, day="2025-03-08")
        page = hal.browser.get(f"/draws/{number}").text
        for said in ("The day, 8 March 2025, is not right for a first round: the offer day is"
                     " 3 March 2025.", "The day, 8 March 2025, is 5 days away.",
                     "The day, 8 March 2025, is a Saturday.", "Saturday 8 March 2025."):
            assert said in page, said
        found = hal.step(number, "close")
        assert found.status_code == 409 and "something looks wrong" in found.text.lower()
        assert office.parts.desk.closed() == ""
        read = Fields(page).values["agreed"]
        # (what was not there when the page was read was not agreed to)
        office.parts.draws.today = lambda: datetime.date(2025, 3, 2)
        found = hal.step(number, "close", agreed=read)
        assert found.status_code == 409 and "is 6 days away." in found.text
        first_day(office)
        assert hal.step(number, "close", agreed="yes").status_code == 409
        assert office.parts.desk.closed() == ""
        assert hal.step(number, "close", agreed=read).status_code == 303
        assert office.parts.draws.get(number).state == "lots"
        entries = office.parts.history.entries
        about = [it.about for it in entries if it.what == "closed the register"]
        assert len(about) == 1 and any(
            it.endswith(" is a Saturday.") for it in about[0]["agreed"])
        # (who confirms it is asked the same, and finds what is to be done before the long tables)
        brought(office, number, "rehearsed")
        page = Page(Person(office, "jane", "officer").browser.get(f"/draws/{number}").text)
        doubts = " ".join(page.by_id["to-look-at"].split())
        assert "Is this right? When hal paused recording, this looked wrong: " in doubts
        assert " is 5 days away." in doubts and " is a Saturday." in doubts
        assert doubts.index("Agrees") < doubts.index("hal said that it is right.")
        at = page.text.index(">Confirm round 1</button>")
        assert page.text.index('id="to-look-at"') < at
        assert at < page.text.index('id="by-school"') < page.text.index("By child</caption>")
        assert at < page.text.index('aria-label="Steps"')


def test_the_checks_have_all_that_a_file_is_asked(small: Machine) -> None:
    """Days, holidays, who takes part, offers without an answer, and the vacancies of a fill."""
    with small.office() as office:
        after_round(small, office)
        found = {(it.title, it.is_risk): it.said for it in before_pause.checks(
            office.parts.desk.now(), Terms(2, "OAK", 4, datetime.date(2025, 4, 7)),
            datetime.date(2025, 4, 7))}
        assert found == {
            ("Day", False): "Monday 7 April 2025.",
            ("Before it", False): "The register has 1 round and 0 offers from waiting lists.",
            ("Season", False): "Applications closed on 31 October 2024; the offer day is 3 March"
                               " 2025; the lists end on 31 December 2025.",
            ("Holidays", False): "None.",
            ("School", False): "OAK OAK School has 3 vacancies, and 4 children on its waiting"
                               " list.",
            ("School", True): "There are fewer vacancies than 4.",
            ("Lots", False): "4 lots are drawn for each place: one for each child on the waiting"
                             " list.",
            ("Offers", False): "5 offers have no answer yet; of these none had a reminder.",
        }


def test_a_holiday_and_late_applications_are_named(small: Machine) -> None:
    """Each as a fact of its own; a holiday is also asked about, and only the day decides."""
    do_over(small.address, [child(6), apply(6, ["OAK"], "2024-11-20")])
    day, other = datetime.date(2025, 3, 3), datetime.date(2025, 12, 25)
    with small.office() as office:
        for holidays, is_risk, said in (((day, other), True, "3 March 2025 and 25 December 2025."),
                                        ((other,), False, "25 December 2025.")):
            register = dataclasses.replace(office.parts.desk.now(), holidays=holidays)
            found = before_pause.checks(register, Terms(1, None, 1, day), day)
            assert [it.said for it in found if it.title == "Holidays"] == [said]
            assert [it.said for it in found if it.is_risk] == (
                ["The national offer day, 3 March 2025, is a holiday of this season."]
                if is_risk else [])
            assert [it.said for it in found if it.title in ("Late", "Lots")] == [
                "10 lots are drawn: one for each of 5 children at each school of its list.",
                "1 late application takes no part in this round."]


def test_a_draw_that_the_register_refuses_gets_no_lots(small: Machine) -> None:
    """A day before the offer day, and more fills than vacancies: before the supervisor draws."""
    with small.office() as office:
        number = begun(office, day="2025-03-01")
        brought(office, number, "copied")
        with pytest.raises(Refused, match="the register refuses the round: .*TooSoon"):
            office.parts.draws.give(HAL, number, version(office, number))
        office.parts.draws.give_up(HAL, number, version(office, number))
        after_round(small, office)
        number = begun(office, "OAK", 4, "2025-04-07")
        brought(office, number, "copied")
        with pytest.raises(Refused, match="the register refuses place 4: .*NoVacancy"):
            office.parts.draws.give(HAL, number, version(office, number))


NOT_BEGUN = [
    # (what is typed, and why nothing is begun)
    ({"kind": "fill", "school": "OAK", "fills": "1", "day": OFFER_DAY}, "nobody waits at OAK"),
    ({"kind": "fill", "school": "NONE", "fills": "1", "day": OFFER_DAY}, "there is no school NONE"),
    ({"kind": "fill", "school": "", "fills": "1", "day": OFFER_DAY}, "choose the school"),
    ({"kind": "fill", "school": "OAK", "fills": "99", "day": OFFER_DAY}, "from 1 to 50"),
    ({"kind": "fill", "school": "OAK", "fills": "-1", "day": OFFER_DAY}, "from 1 to 50"),
    ({"kind": "fill", "school": "OAK", "fills": "٣", "day": OFFER_DAY}, "from 1 to 50"),
    ({"kind": "round", "fills": "2", "day": "2025-02-30"}, "type the day as"),
    ({"kind": "round", "fills": "<b>", "day": "<b>"}, "type the day as"),
]


def test_a_draw_that_cannot_be(small: Machine) -> None:
    """Is not begun, and what was typed is still there."""
    with small.office() as office:
        hal = office.browser("hal", "head")
        for given, said in NOT_BEGUN:
            found = hal.post("/draws/", given)
            assert found.status_code == 409 and said in found.text, given
            assert "<b>" not in found.text
            assert Fields(found.text).values["fills"] == given["fills"]
        assert office.parts.draws.listed() == []


@pytest.mark.parametrize("typed_day, read", [
    ("4/3/2025", "Tuesday 4 March 2025."), ("4 March 2025", "Tuesday 4 March 2025."),
    ("2025-03-04", "Tuesday 4 March 2025.")])
def test_the_day_is_typed_as_people_write_it(small: Machine, typed_day: str, read: str) -> None:
    """In an order that no browser decides: the offer day is proposed, and what was typed is said
    with its weekday.
    """
    with small.office() as office:
        first_day(office)
        hal = office.browser("hal", "head")
        assert Fields(hal.get("/draws/").text).values["day"] == "3 March 2025"
        assert hal.post("/draws/", {"kind": "round", "day": typed_day}).status_code == 303
        assert read in hal.get("/draws/1").text


def test_the_file_of_the_store_keeps_no_name(small: Machine) -> None:
    """What is kept of a draw are numbers and codes."""
    with small.office() as office:
        number = begun(office)
        brought(office, number, "opened")
        kept = json.dumps(office.parts.draws.get(number).rehearsal)
        assert "Child" not in kept and '[1, 1, null, "OAK", true]' in kept
    conn = sqlite3.connect(small.state / "office.db")
    rows = conn.execute("SELECT rehearsal, audit FROM draw").fetchall()
    conn.close()
    assert len(rows) == 1 and not any("Child " in it or "OAK School" in it for it in rows[0])
