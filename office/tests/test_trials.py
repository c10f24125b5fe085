"""Trials in the application, and what a round would have given a child by another list, criterion
or day.
"""
import io
import pathlib
import re
import subprocess
import threading
import time
from collections.abc import Iterator
from typing import Any

import openpyxl
import pytest
from applications import ROUND, SCHOOLS, Browser, Site, child, town
from explained import after_round
from pages import Page, press
from register_files import Refused

from office.core import turns
from office.web.explain import held_again
from office.web.trials import trial
from office.web.trials import runs as trials
from office.web.trials.runs import Run

# Alpha has two places and Beta one; all want Alpha first, and then Beta. By distance children 1
# and 2 have Alpha, 3 has Beta and 4 has nothing. Child 5 lives nearest of all, and was late.
LATE = [child(5, "Eve Eden", 50),
        {"cmd": "apply", "child": 5, "day": "2024-11-20", "preferences": ["B", "A"]}]
PATIENCE = 1800
BUTTON = "Try round 1 with these"


@pytest.fixture(name="office", scope="module")
def office_fixture(tmp_path_factory: pytest.TempPathFactory) -> Iterator[Site]:
    """The application after the first round, and a late child."""
    folder = tmp_path_factory.mktemp("trials")
    commands = [*town(), *LATE]
    with pytest.MonkeyPatch.context() as patch, after_round(folder, commands, ROUND) as found:
        # (a machine that does much else)
        patch.setattr(trials, "MOST_SECONDS", PATIENCE)
        patch.setattr(held_again, "MOST_SECONDS", PATIENCE)
        for name, role in (("jane", "officer"), ("rita", "reader")):
            found.add(name, role)
        yield found


def register(office: Site) -> bytes:
    """The document of the register."""
    found: bytes = office.parts.desk.whole().document
    return found


def tried(browser: Browser, **given: Any) -> Any:
    """A trial that is asked for in the form."""
    page = Page(browser.get("/trials/").text)
    return press(browser, "/trials/", page, BUTTON, **given)


def ended(office: Site, answer: Any) -> Run:
    """The trial of an answer, when it is over."""
    assert answer.status_code == 303, answer.text
    run = office.parts.trials.get(int(answer.location.rpartition("/")[2]))
    assert run is not None and run.is_over(PATIENCE)
    return run


@pytest.fixture(name="run", scope="module")
def run_fixture(office: Site) -> Run:
    """A trial with three places at Alpha, during which the register stays as it is."""
    before = register(office)
    run = ended(office, tried(office.browser("jane"), **{"pan-A": "3"}))
    assert run.found is not None, run.refused
    assert register(office) == before
    return run


def test_a_trial_says_who_gains_and_who_loses(office: Site, run: Run) -> None:
    """With three places at Alpha child 3 moves up to it, and child 4 gets Beta."""
    jane = office.browser("jane")
    page = Page(jane.get(f"/trials/{run.number}").text)
    assert page.tables["schools"][1:] == [
        ["A", "Alpha", "2", "3", "2", "3", "1", "0", "ranked by distance alone, 200 metres",
         "ranked by distance alone, 300 metres"],
        ["B", "Beta", "1", "1", "1", "1", "1", "0", "ranked by distance alone, 300 metres",
         "ranked by distance alone, 400 metres"]]
    assert page.tables["children"][1:] == [
        ["3", "Cyd <b>Cole</b>", "gains", "B", "ranked by distance alone", "A",
         "ranked by distance alone"],
        ["4", "Dai O'Dare", "gains", "none", "", "B", "ranked by distance alone"]]
    assert "4 children took part: 2 would gain, 0 would lose, 2 would have the same school." in (
        page.text)
    assert "A: admission number 3 in place of 2" in page.text
    book = openpyxl.load_workbook(io.BytesIO(jane.get(f"/trials/{run.number}/workbook").data))
    assert book.sheetnames == ["contents", "summary", "schools", "criteria", "children"]
    rows = [[it.value for it in row] for row in book["children"].iter_rows(min_row=2)]
    assert [row[:3] for row in rows] == [[3, "Cyd <b>Cole</b>", "gains"],
                                         [4, "Dai O'Dare", "gains"]]


def test_fewer_places_and_criteria_are_tried_together(office: Site) -> None:
    """With one place at Alpha child 2 loses it, and takes Beta from child 3, which has nothing
    then: all live within the distance that is a criterion of Beta.
    """
    run = ended(office, tried(office.browser("jane"), **{
        "pan-A": "1", "criteria-B": "within:100000"}))
    assert run.found and [row[:4] for row in run.found.children] == [
        [2, "Ben Bell", "loses", "A"], [3, "Cyd <b>Cole</b>", "loses", "B"]]
    assert run.found.children[0][5:] == ["B", "living within 100,000 metres of the school"]


def test_a_trial_is_on_paper(office: Site, run: Run, tmp_path: pathlib.Path) -> None:
    """As PDF, with the same numbers."""
    jane = office.browser("jane")
    found = jane.get(f"/trials/{run.number}/pdf")
    assert found.status_code == 200 and found.mimetype == "application/pdf"
    (tmp_path / "trial.pdf").write_bytes(found.data)
    text = subprocess.run(["pdftotext", "-layout", tmp_path / "trial.pdf", "-"], check=True,
                          capture_output=True, text=True).stdout
    assert "2 would gain, 0 would lose" in " ".join(text.split())


@pytest.mark.parametrize("given, field, said", (
    ({"pan-A": "many"}, "pan-A", "write a whole number"),
    ({"pan-B": "-1"}, "pan-B", "write a whole number"),
    ({"criteria-A": "=cmd"}, "criteria-A", "is no criterion"),
    ({"criteria-A": "sibling;" * 20}, "criteria-A", "criteria")))
def test_what_cannot_be_tried_is_said_at_its_field(
    office: Site, given: dict[str, str], field: str, said: str,
) -> None:
    """And what was typed stays."""
    count = len(office.parts.trials.listed())
    found = tried(office.browser("jane"), **given)
    page = Page(found.text)
    assert found.status_code == 422 and said in page.error(field)
    assert page.fields[field]["value"] == given[field]
    assert len(office.parts.trials.listed()) == count


def test_a_trial_without_a_change_is_none(office: Site) -> None:
    """It says so."""
    found = tried(office.browser("jane"))
    assert found.status_code == 409 and "nothing is changed" in Page(found.text).said()


def test_one_trial_at_a_time_can_be_ended(
    office: Site, monkeypatch: pytest.MonkeyPatch,
) -> None:
    """Another one is refused meanwhile with what was typed; the register answers all the time."""
    gate = threading.Event()
    begun = trial.Trial

    def slow(*given: Any) -> Any:
        gate.wait(60)
        return begun(*given)

    monkeypatch.setattr(trials, "Trial", slow)
    monkeypatch.setattr("office.web.trials.views.WAIT_SECONDS", 0.01)
    jane = office.browser("jane")
    first = tried(jane, **{"pan-A": "3"})
    page = Page(jane.get(first.location).text)
    assert "under way" in page.said() and f'href="{first.location}">Look again' in page.text
    again = tried(jane, **{"pan-A": "1"})
    assert again.status_code == 409 and "a trial of jane is under way" in Page(again.text).said()
    assert Page(again.text).fields["pan-A"]["value"] == "1"
    assert jane.get("/children/3").status_code == 200
    number = first.location.rpartition("/")[2]
    assert press(jane, first.location, page, f"End trial {number}").status_code == 303
    gate.set()
    run = ended(office, first)
    assert run.found is None and "ended before its result" in jane.get(first.location).text
    assert jane.get(f"{first.location}/pdf").status_code == 404


def test_a_trial_that_takes_too_long_is_ended(
    office: Site, monkeypatch: pytest.MonkeyPatch,
) -> None:
    """Nothing goes on behind it."""
    monkeypatch.setattr(trials, "MOST_SECONDS", 0)
    jane = office.browser("jane")
    answer, start = tried(jane, **{"pan-A": "3"}), time.monotonic()
    run = ended(office, answer)
    assert time.monotonic() - start < 60 and run.found is None
    assert run.program.present is not None and run.program.present.poll() is not None
    assert "It takes more than 0 seconds, and was ended" in jane.get(answer.location).text


def test_a_reader_reads_trials_and_begins_none(office: Site) -> None:
    """There is no button for it either."""
    rita = office.browser("rita")
    page = Page(rita.get("/trials/").text)
    assert page.buttons() == []
    assert rita.post("/trials/", {"round": "1", "pan-A": "3"}).status_code == 403
    assert rita.get("/trials/999").status_code == 404


# what child 4 and others would have got by other lists, by hand: a list never helps
LISTS: list[tuple[int, dict[str, str], str]] = [
    (3, {"p1": "B", "p2": "A"}, "With the list B, A: a place at Beta (B), the second preference."),
    (3, {"p1": "A", "p2": ""}, "With the list A: no place."),
    (1, {"p1": "B", "p2": ""}, "With the list B: a place at Beta (B), the second preference."),
    (4, {"p1": "B", "p2": "A"}, "With the list B, A: no place."),
    (2, {"p1": "", "p2": ""}, "With no school: no place."),
]


@pytest.mark.parametrize("number, given, said", LISTS)
def test_another_list_is_tried(office: Site, number: int, given: dict[str, str], said: str) -> None:
    """By the lots of the round, for a reader too; the register stays as it is."""
    rita, before = office.browser("rita"), register(office)
    fields = "&".join(f"{name}={code}" for name, code in given.items())
    page = Page(rita.get(f"/children/{number}/what-if/1?{fields}&what=list").text)
    assert said in page.said()
    chosen = page.form("What would the child have got by this list?").values
    assert {name: it[0] for name, it in chosen.items()} == given
    assert register(office) == before


def test_a_list_with_a_school_twice_is_said_at_its_field(office: Site) -> None:
    """Or with one that the child did not want."""
    rita = office.browser("rita")
    found = rita.get("/children/3/what-if/1?p1=A&p2=A&what=list")
    assert found.status_code == 400 and "A is above" in Page(found.text).error("p2")
    found = rita.get("/children/3/what-if/1?p1=ZZ&p2=A&what=list")
    assert found.status_code == 400 and "one of the schools" in Page(found.text).error("p1")


DAYS = (
    (5, "31 October 2024", "a place at Beta (B), the first preference.",
     "No lot that could have been drawn changes that."),
    (5, "1/12/2024", "no part in the first round, as it is late.", ""),
    (3, "1/9/2024", "a place at Beta (B), the second preference.",
     "The day of an application that is in time makes no difference."),
    (3, "1/11/2024", "no part in the first round, as it is late.", ""),
)


@pytest.mark.parametrize("number, day, said, more", DAYS)
def test_another_day_is_tried(
    office: Site, number: int, day: str, said: str, more: str,
) -> None:
    """Child 5 lives 50 metres away, so no lot decides; a child in time gains nothing by a day."""
    rita = office.browser("rita")
    page = Page(rita.get(f"/children/{number}/what-if/1?day={day}&what=day").text)
    assert said in page.said() and more in page.said()
    found = rita.get(f"/children/{number}/what-if/1?day=soon&what=day")
    assert found.status_code == 400 and "17 March 2025" in Page(found.text).error("day")


def test_another_criterion_is_tried(
    tmp_path: pathlib.Path, monkeypatch: pytest.MonkeyPatch,
) -> None:
    """Child 2 lives farther from the one place of Alpha than child 1, and meets no criterion: with
    any of them it has the place. What it has already, and distances, are no choice.
    """
    monkeypatch.setattr(held_again, "MOST_SECONDS", PATIENCE)
    order = ["flag:2", "sibling", "feeder:PRIM1", "within:50"]
    commands = [SCHOOLS[0] | {"pan": 1, "criteria": order}, child(1, "Ada Abel", 100),
                child(2, "Ben Bell", 200),
                *({"cmd": "apply", "child": it, "day": "2024-10-31", "preferences": ["A"]}
                  for it in (1, 2))]
    held = {"cmd": "round", "draw": 1, "day": "2025-03-03", "lots": [7, 8]}
    with after_round(tmp_path, commands, held) as office:
        rita, before = office.browser("rita", "reader"), register(office)
        asked = "/children/2/what-if/1?what=criterion&criterion="
        found = rita.get(f"{asked}within:50")
        assert found.status_code == 400
        assert "one of the list" in Page(found.text).error("criterion")
        choices = re.findall(r'<option value="([^"]+)"', found.text.partition('"criterion"')[2])
        assert choices == ["care", "flag:2", "sibling:A", "present:PRIM1"]
        for it in choices:
            said = Page(rita.get(f"{asked}{it}").text).said()
            assert "): a place at Alpha (A), the first preference." in said
            assert "With the child’s own details: no place." in said
        assert register(office) == before


def test_a_lot_that_was_not_drawn_leaves_it_open(
    tmp_path: pathlib.Path, monkeypatch: pytest.MonkeyPatch,
) -> None:
    """Late child 2 lives as far from the one place of Alpha as child 1."""
    monkeypatch.setattr(held_again, "MOST_SECONDS", PATIENCE)
    commands = [SCHOOLS[0] | {"pan": 1}, child(1, "Ada Abel", 100), child(2, "Ben Bell", 100),
                {"cmd": "apply", "child": 1, "day": "2024-10-31", "preferences": ["A"]},
                {"cmd": "apply", "child": 2, "day": "2024-11-20", "preferences": ["A"]}]
    held = {"cmd": "round", "draw": 1, "day": "2025-03-03", "lots": [7]}
    with after_round(tmp_path, commands, held) as office:
        rita = office.browser("rita", "reader")
        page = Page(rita.get("/children/2/what-if/1?day=31/10/2024&what=day").text)
        assert "between a place at Alpha (A), the first preference, and no place." in page.said()
        assert "lots, which were not drawn" in page.said()


def test_who_waits_too_long_for_an_answer_is_asked_to_try_again(
    monkeypatch: pytest.MonkeyPatch,
) -> None:
    """The threads that serve all screens do not all wait for what two have asked for."""
    monkeypatch.setattr(turns, "SECONDS", 0.01)
    with held_again.turn(), held_again.turn():
        turns.SERVES.set("jane")
        with pytest.raises(Refused) as error, held_again.turn():
            pass
        turns.SERVES.set(None)
        assert str(error.value) == "others are being worked out: try again in a minute"
    with held_again.turn():
        pass


def test_so_many_trials_are_kept(office: Site, monkeypatch: pytest.MonkeyPatch) -> None:
    """The first ones are forgotten."""
    monkeypatch.setattr(trials, "KEPT", 1)
    # (so that they end at once)
    monkeypatch.setattr(trials, "MOST_SECONDS", 0)
    jane = office.browser("jane")
    runs = [ended(office, tried(jane, **{"pan-A": it})) for it in ("3", "4")]
    assert [it.number for it in office.parts.trials.listed()] == [runs[1].number]
    assert jane.get(f"/trials/{runs[0].number}").status_code == 404
