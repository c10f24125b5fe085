"""The outcome of a rehearsed round as its page shows it: what the register has after it, by another
computation of its own document.
"""
import json
import pathlib
import random
import re
from collections.abc import Iterator
from typing import Any

import pytest
from applications import Site
from conftest import apply, child, make, school
from draw_site import (
    HAL, Command, Machine, begun, brought, machine_over, sealed, typed, version,
)
from pages import Page
from staged import Screens, csv_of

from office.core.model import Cutoff
from office.web.people import roles
from office.web.rounds.outcome import OfSchool, last_in_words

CODES = ("ASH", "BAY", "CLY", "DUN")
# more children than a page has; 131 is prime, so that each has a lot of its own
COUNT, LATE, CARE, PLANNED = 130, range(121, 131), (3, 50), 7


def commands() -> list[Command]:
    """Four schools on a line, and children of whom some live equally far; some are late, two are
    looked after, and one gets a plan.
    """
    drawn = random.Random(5)
    found = [school(code, pan, 900 * at, ["sibling"] if at else [])
             for at, (code, pan) in enumerate(zip(CODES, (12, 20, 9, 70)))]
    for it in range(1, COUNT + 1):
        found.append(child(it, 50 * drawn.randrange(60), looked_after=it in CARE,
                           siblings=["BAY"] if it % 9 == 0 else []))
        found.append(apply(it, drawn.sample(CODES, drawn.randrange(1, 4)),
                           "2024-11-20" if it in LATE else "2024-10-20"))
    return [*found, {"cmd": "name_plan", "child": PLANNED, "school": "CLY"}]


@pytest.fixture(name="town")
def town_fixture(tmp_path: pathlib.Path, monkeypatch: pytest.MonkeyPatch) -> Iterator[Machine]:
    """A machine with this register."""
    path = tmp_path / "town.db"
    make(path, commands())
    with machine_over(tmp_path, path, monkeypatch) as found:
        yield found


def rehearsed(office: Site) -> int:
    """A round that is rehearsed."""
    number = begun(office)
    brought(office, number, "lots")
    typed(office, number, lambda pair, _: pair[1] * 31 % (COUNT + 1))
    sealed(office, number)
    brought(office, number, "rehearsed")
    return number


class Shown:
    """What a page of a round shows, and the register's own documents."""

    def __init__(self, office: Site, number: int) -> None:
        self.office, self.number, self.jane = office, number, office.browser("jane")
        self.page = self.at("")

    def at(self, given: str) -> Page:
        """The page with a choice."""
        return Page(self.jane.get(f"/draws/{self.number}?{given}").text)

    def children(self, given: str) -> list[list[str]]:
        """The rows of the children, on all pages."""
        tables = self.at(f"{given}&page=all").tables
        rows = next(it for name, it in tables.items() if name.startswith("By child"))
        return [it for it in rows[1:] if len(it) > 1]

    def numbers(self, given: str) -> set[int]:
        """The children of a choice."""
        return {int(it[1]) for it in self.children(given)}

    def read(self, path: str) -> dict[str, Any]:
        """A document of the register."""
        found: dict[str, Any] = json.loads(self.office.parts.desk.sender.read(path))
        return found


def flow_of(register: dict[str, Any]) -> dict[str, list[int]]:
    """For each school how many that put it first have which preference."""
    lists = {it["child"]: [one["school"] for one in it["application"]["preferences"]]
             for it in register["children"] if it["application"]}
    found: dict[str, list[int]] = {}
    for it in register["draws"][0]["outcomes"]:
        row = found.setdefault(lists[it["child"]][0], [0, 0, 0, 0, 0])
        row[4 if it["school"] is None else min(lists[it["child"]].index(it["school"]), 3)] += 1
    return found


def test_the_flow_and_the_places_are_those_of_the_register(town: Machine) -> None:
    """Before the round is held, and after it: the picture, its table, the places of each school and
    the groups of children.
    """
    with town.office() as office:
        number = rehearsed(office)
        before = Shown(office, number)
        brought(office, number, "opened")
        for shown in (before, Shown(office, number)):
            register, draw = shown.read("/register"), shown.read("/draw/1")
            has = {it["child"]: it["school"] for it in register["draws"][0]["outcomes"]}
            flow, names = flow_of(register), {it: f"{it} School" for it in CODES}
            of_before = "A school’s own page is of before this round, until it is run."
            assert (of_before in shown.page.by_id["schools"]) == (shown is before)
            tables = shown.page.tables
            rows = {it[0]: [int(one) for one in it[1:]] for it in tables["flow-table"][1:]}
            every = rows.pop("All schools")
            assert rows == {names[it]: flow[it] for it in flow} and sum(every) == len(has)
            ribbons = re.findall(r'class="ribbon (\w+)".*?<title>(\w+) to [^<]*: (\d+)</title>',
                                 shown.page.text)
            figures = " ".join(re.sub("<[^>]*>", " ", shown.page.text.split(
                '<dl class="figures">')[1].split("</dl>")[0]).split())
            lower = "".join(f", {words} {many}" for words, many in zip(
                ("second", "third", "lower"), every[1:4]) if many)
            assert (f"First preference {every[0]} {100 * every[0] / len(has):.1f}% of those who"
                    f" took part{lower},"
                    f" none of theirs {every[4]}") in figures
            assert [len(shown.numbers(f"what={it}")) for it in ("first", "lower", "none")] == [
                every[0], sum(every[1:4]), every[4]]
            kinds = ("first", "second", "third", "lower", "none")
            assert sorted(ribbons) == sorted(
                (kind, code, str(many)) for code, row in flow.items()
                for kind, many in zip(kinds, row) if many)
            places = {it[0].split()[-1]: it[1:8] for it in tables["by-school"][1:]}
            late = [one["school"] for it in register["children"] if it["child"] in LATE
                    for one in it["application"]["preferences"]]
            assert places == {it["school"]: [str(one) for one in (
                it["pan"], sum(code == it["school"] for code in has.values()), it["plans"],
                it["vacancies"], it["waiting"], late.count(it["school"]),
                sum(flow.get(it["school"], [])))] for it in register["schools"]}
            by_lot = {it["child"] for it in draw["refusals"] if it["by"] == "lot"}
            assert by_lot and by_lot < (found := shown.numbers("what=lot"))
            assert all(has[it] is not None for it in found - by_lot)


def test_children_to_look_at_are_found_by_group(town: Machine) -> None:
    """Late ones are named, though they are not in the round; and one with a note."""
    with town.office() as office:
        office.parts.notes.add(roles.Person("jane", "officer"), 12, "Ann", "A note.")
        number = rehearsed(office)
        shown = Shown(office, number)
        assert shown.numbers("what=late") == set(LATE)
        assert {it[3] for it in shown.children("what=late")} == {"late: not in this round"}
        assert shown.numbers("what=care") == set(CARE)
        assert shown.numbers("what=note") == {12}
        checked = " ".join(shown.page.by_id["to-look-at"].split())
        assert "10 late Not in this round: they applied after the closing date" in checked
        assert "1 EHC plan" in checked and (
            "119 children take part. All children, with 10 late" in checked)
        assert ("119 children take part, and 10 are late. Those offered a place come first, then no"
                " place, then late ones; by number.") in shown.page.text
        assert f'href="/draws/{number}?what=late#children"' in shown.page.text
        assert "Agrees The independent audit" in " ".join(shown.page.by_id["next"].split())
        # (a page has fifty rows; who may not read notes is not told who has one)
        assert [len(shown.at(it).tables["By child"]) - 1 for it in ("", "page=3")] == [50, 29]
        assert "With a note" not in office.browser("rita", "reader").get(f"/draws/{number}").text
        # (names of the address that mean something to what makes addresses)
        odd = "_external=1&_scheme=http&_anchor=x&endpoint=x&number=1&self=1&values=1"
        assert f'href="/draws/{number}?{odd.replace("&", "&amp;")}&amp;what=none#children"' in (
            shown.at(odd).text)
        none = shown.children("what=none")
        assert none and all(it[2] == "none" and "Why not " in it[4] for it in none)
        # (what other pages show is of before it, and they say so)
        said = "Until it is run, the other pages show the register as it was before."
        assert said in shown.jane.get("/children/1").text
        assert said in shown.jane.get("/schools/ASH").text
        office.parts.draws.confirm(roles.Person("jane", "officer"), number,
                                   version(office, number))
        office.add("hal", "head")
        page = " ".join(shown.at("").by_id["draw"].split())
        assert re.search(r"You confirmed round 1 at [0-9:]{5}\. hal runs it next\.", page)
        assert "It waits for a head of the office: hal." in page and "Waits for hal." in page
        assert "Only a head of the office runs round 1." in page
        home = shown.jane.get("/").text
        assert "Round 1 waits for hal" in home and "Run round 1" not in home
        assert "Run round 1" in office.browser("hal").get("/").text
        assert "What was checked" in page and "119 children take part." in page
        assert "No change since the applications were added to the register" in page
        assert f'href="/draws/{number}/audit"' in shown.at("").text
        assert "Go to it" not in page and re.search(r"Copy 1, made .* before it", page)
        office.parts.draws.send(HAL, number, version(office, number))
        assert said not in shown.jane.get("/children/1").text
        assert "119 children take part." in " ".join(shown.at("").by_id["checked"].split())


def test_applications_that_are_left_out_are_named_before_it_is_confirmed(town: Machine) -> None:
    """Rows that are set aside, and those that are not in the register yet, with the way to them for
    who may see them; of a round that is run nothing is said of the rows of now.
    """
    with town.office() as office:
        number = rehearsed(office)
        jane, rita = office.browser("jane"), office.browser("rita", "reader")
        rows = [f"{it},Mo Marsh {it},{it},2,no,,,2024-10-01,ASH," for it in (901, 902, 903)]
        screens = Screens(jane)
        assert screens.add(("a.csv", csv_of(*rows))).status_code == 303
        assert "Left out 3 applications are not in the register yet, and take no part." in (
            " ".join(Page(jane.get(f"/draws/{number}").text).by_id["to-look-at"].split()))
        assert screens.withdraw(screens.see().rows()[0]).status_code == 303
        page = Page(jane.get(f"/draws/{number}").text)
        said = " ".join(page.by_id["to-look-at"].split())
        assert "Left out 1 application is set aside, and takes no part. Show it" in said
        assert "Left out 2 applications are not in the register yet, and take no part." in said
        assert {"/applications/withdrawn", "/applications/"} <= {*page.stops}
        assert "Left out" not in rita.get(f"/draws/{number}").text
        brought(office, number, "opened")
        assert "Left out" not in jane.get(f"/draws/{number}").text


def test_an_audit_is_read_in_words(town: Machine) -> None:
    """Each school with whom it has behind, as many as the lines of the second program have; and
    these lines as a text.
    """
    with town.office() as office:
        number = rehearsed(office)
        rita = office.browser("rita", "reader")
        lines = rita.get(f"/draws/{number}/audit.txt").text.splitlines()
        page = Page(rita.get(f"/draws/{number}/audit").text)
        rows = page.tables["Each school, with the child who was the last to get a place"][1:]
        assert f"{lines[-1]}." in page.text
        assert len(rows) == sum(it.startswith("School ") for it in lines)
        behind = sum(it.startswith("  turned away") for it in lines)
        assert behind and behind == sum(int(it[4].split()[0].replace(",", "")) for it in rows)
        assert "turned away" not in page.text
        code = next(it[0].split()[-1] for it in rows if not it[4].startswith("0"))
        one = Page(rita.get(f"/draws/{number}/audit?school={code}").text)
        found = next(it for title, it in one.tables.items() if title.endswith("children"))[1:]
        at = next(at for at, it in enumerate(lines) if it.startswith(f"School {code}:"))
        said = next(iter(lines[at + 1:]))
        assert found[0][1] in said and f"lot {found[0][4].replace(',', '')}: by" in said
        assert {it[5] for it in found} <= {"the criterion", "the distance", "the lot"}
        assert rita.get(f"/draws/{number}/audit?of=register").status_code == 404


def test_who_may_not_confirm_reads_who_does(town: Machine) -> None:
    """The text names what only others do."""
    with town.office() as office:
        number = rehearsed(office)
        page = office.browser("rita", "reader").get(f"/draws/{number}").text
        assert "Only a head of the office or an officer confirms round 1." in page


def test_the_distance_of_the_last_place_is_said_or_withheld(town: Machine) -> None:
    """That of a child that is looked after is withheld, and the text says so."""
    with town.office() as office:
        register = office.parts.desk.register()
        of_school = OfSchool("BAY", 20, 0, 0, 0, waiting=1)
        assert [last_in_words(register, of_school, Cutoff(it, 1300, 1), {}) for it in (0, 1)] == [
            "Looked after, or previously looked after, distance withheld",
            "With a brother or sister at the school, 1,300 m"]


def test_a_rehearsal_of_an_earlier_release_is_shown(town: Machine) -> None:
    """Without what that did not keep."""
    with town.office() as office:
        number = rehearsed(office)
        draw = office.parts.draws.get(number)
        kept = {it: draw.rehearsal[it] for it in ("answers", "audits", "outcomes", "wrong")}
        with office.parts.store.writing() as db:
            db.execute("UPDATE draw SET rehearsal=?", (json.dumps(kept),))
        page = office.browser("jane").get(f"/draws/{number}")
        assert page.status_code == 200 and "flow-table" not in page.text
        assert ">Confirm round 1</button>" in page.text and "By child</caption>" in page.text
