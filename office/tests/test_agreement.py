"""What the first screen and the screen of a school show, in numbers, maps and lists, beside what
this reads of the register's document in a few lines of its own.
"""
import collections
import datetime
import html
import json
import math
import re
from collections.abc import Iterator
from typing import Any

import pytest
from applications import Browser, Site, office_over
from conftest import apply, child, school
from pages import Page

from office.web.home import views as season

CRITERIA = ["flag:2", "sibling", "within:1500"]
TODAY = datetime.date(2025, 3, 20)


def town() -> list[dict[str, Any]]:
    """Three schools on a line, and children around them, some with a sibling, a flag, or in care;
    one has a plan, two are late, and one has no application.
    """
    commands = [school("OAK", 9, 0, criteria=CRITERIA), school("ELM", 8, 4000),
                school("FIR", 14, 9000)]
    for at in range(1, 41):
        made = child(at, (at * 371) % 6000)
        made |= {"north": (at * 177) % 900, "looked_after": at % 13 == 0,
                 "flags": [2] if at % 9 == 0 else [], "siblings": ["OAK"] if at % 7 == 0 else []}
        commands.append(made)
        wishes = (["OAK", "ELM", "FIR"], ["ELM", "OAK"], ["FIR", "OAK", "ELM"], ["OAK"])[at % 4]
        if at != 40:
            commands.append(apply(at, wishes, "2024-12-01" if at in (38, 39) else "2024-10-20"))
    return [*commands, {"cmd": "name_plan", "child": 5, "school": "OAK"}]


@pytest.fixture(scope="module", name="office")
def office_fixture(tmp_path_factory: pytest.TempPathFactory) -> Iterator[Site]:
    """The application after a round, some answers, and a fill."""
    commands = town()
    pairs = sum(len(it["preferences"]) for it in commands
                if it["cmd"] == "apply" and it["day"] < "2024-11" and it["child"] != 5)
    held = {"cmd": "round", "draw": 1, "day": "2025-03-03", "lots": list(range(1, pairs + 1))}
    with office_over(tmp_path_factory.mktemp("season"), [*commands, held]) as site:
        offered = [it for it in shown(site)["children"]
                   if it["place"] and it["place"]["kind"] == "offered"]
        assert len(offered) > 12
        for at, it in enumerate(offered[:12]):
            site.record("jane", {"cmd": "decline" if at % 3 == 0 else "accept",
                                 "child": it["child"], "school": it["place"]["school"]})
        yield site


@pytest.fixture(scope="module", name="rita")
def rita_fixture(office: Site) -> Browser:
    """Somebody of the office who reads."""
    return office.browser("rita", "reader")


def shown(office: Site) -> dict[str, Any]:
    """The document of the register."""
    found: dict[str, Any] = json.loads(office.parts.desk.document())
    return found


def plain(text: str) -> str:
    """A text without marks."""
    return " ".join(html.unescape(re.sub("<[^>]*>", " ", text)).split())


def figures(text: str) -> dict[str, tuple[int, str]]:
    """The numbers of a screen by their words, each with its link."""
    found = re.findall(r'<dt>(?:<a href="([^"]*)">)?([^<]*)(?:</a>)?</dt><dd class="number">'
                       r"([0-9,]+)", text)
    return {words: (int(number.replace(",", "")), html.unescape(href))
            for href, words, number in found}


def wish_of(row: dict[str, Any], code: str) -> dict[str, Any] | None:
    """What the document says of a child at a school of its list."""
    wishes: list[dict[str, Any]] = (row["application"] or {"preferences": []})["preferences"]
    return next((it for it in wishes if it["school"] == code), None)


def at(row: dict[str, Any]) -> int | None:
    """Which preference of a child that applied is its place, from 1 on; None where it has none."""
    codes = [it["school"] for it in row["application"]["preferences"]]
    return codes.index(row["place"]["school"]) + 1 if row["place"] else None


def test_the_first_screen_counts_what_the_register_has(
    office: Site, rita: Browser, monkeypatch: pytest.MonkeyPatch,
) -> None:
    """Each number, each bar, each ring of the map, and the table of its schools."""
    monkeypatch.setattr(season, "today", lambda: TODAY)
    found, text = shown(office), rita.get("/").text
    rows = found["children"]
    applied = [it for it in rows if it["application"]]
    met = collections.Counter(at(it) for it in applied)
    vacant = {it["school"]: it["vacancies"] for it in found["schools"]}
    assert len(applied) == 38 and met[1] and met[2] and met[None] and sum(vacant.values())
    assert {words: number for words, (number, _) in figures(text).items()} == {
        "Applications": len(applied), "Have their first preference today": met[1],
        "Offers not answered": sum(bool(it["place"]) and it["place"]["kind"] == "offered"
                                   for it in rows),
        "Vacant places": sum(vacant.values()),
        "Children without a place": sum(not it["place"] for it in rows)}
    for words, number in (("First preference", met[1]), ("Second", met[2]), ("Third", met[3]),
                          ("No place", met[None])):
        assert f"{words} {number} {100 * number / len(applied):.1f}%" in plain(text), words
    rings = re.findall(r'<title>([A-Z]+): ([0-9]+) of ([0-9]+) places are taken</title></circle>'
                       r'<text class="many"[^>]*>([0-9]+)</text>', text)
    assert {code: (int(taken), int(pan), int(many)) for code, taken, pan, many in rings} == {
        it["school"]: (it["taken"], it["pan"], it["vacancies"]) for it in found["schools"]}
    assert [[int(cell) for cell in row[1:]] for row in Page(text).tables["places-table"][1:]] == [
        [it["pan"], it["taken"], it["vacancies"], it["waiting"]] for it in found["schools"]]


def test_each_number_leads_to_the_list_of_what_it_counts(
    office: Site, rita: Browser, monkeypatch: pytest.MonkeyPatch,
) -> None:
    """As many rows, or as many vacant places, as the number says; also the bars' links."""
    monkeypatch.setattr(season, "today", lambda: TODAY)
    text = rita.get("/").text
    links = {**figures(text), **{
        words: (int(number.replace(",", "")), html.unescape(href)) for href, words, number in
        re.findall(r'<th scope="row"><a href="([^"]*)">([^<]*)</a>.*?<td class="number">([0-9,]+)',
                   text[text.index('id="met"'):], re.S)}}
    assert {"First preference", "Second", "No place"} < set(links) and len(links) >= 8
    for words, (number, href) in links.items():
        table = Page(rita.get(href).text).tables["list"]
        body = [it for it in table if len(it) > 1][1:]
        if words == "Vacant places":
            assert sum(int(it[6]) for it in body) == number
        else:
            assert len(body) == number, words
    assert shown(office)["children"]


def test_a_school_shows_what_the_register_has(office: Site, rita: Browser) -> None:
    """Its numbers, its places by criterion, each home on its map, and its lists."""
    found = shown(office)
    here = next(it for it in found["schools"] if it["school"] == "OAK")
    text = rita.get("/schools/OAK").text
    assert {words: number for words, (number, _) in figures(text).items()
            if words != "Last place offered"} == {
        "Admission number": here["pan"], "Places held": here["taken"],
        "Vacant places": here["vacancies"], "Children who wait": here["waiting"]}
    state = {}
    for row in found["children"]:
        wish, place = wish_of(row, "OAK"), row["place"]
        if place and place["school"] == "OAK":
            state[row["child"]] = ("has", wish["class"] if wish else None)
        elif wish and wish["state"] == "waits":
            state[row["child"]] = ("waits", wish["class"])
    assert state[5] == ("has", None), "the child with a plan"
    counted = collections.Counter(state.values())
    kinds = {None: "care", 0: "care", 1: "flag", 2: "sibling", 3: "within", 4: "far"}
    rows = Page(text).tables["classes"][1:]
    assert [[int(cell) for cell in it[1:3]] for it in rows] == [
        [counted["has", number], counted["waits", number]] for number in (None, 0, 1, 2, 3, 4)]
    marks = re.findall('<a href="/children/([0-9]+)"[^>]*><path class="home ([a-z]+) ([a-z]+)"'
                       r'.*?transform="translate\(([0-9.]+) ([0-9.]+)\)"', text)
    drawn = {int(it[0]): (it[2], it[1]) for it in marks}
    assert drawn == {it: (state[it][0], kinds[state[it][1]]) for it in drawn}
    # (whoever has a place is on the map)
    away = [it for it in state if it not in drawn]
    assert len(drawn) > 20 and {state[it][0] for it in away} == {"waits"}
    assert f"{len(away)} homes are further away than the map shows." in text
    see_map(office, found, here, text, marks)


def see_map(office: Site, found: dict[str, Any], here: dict[str, Any], text: str,
            marks: list[tuple[str, ...]]) -> None:
    """The homes are where they are beside the circles, which are the criterion's and that of the
    last place.
    """
    east, north = (float(it) for it in re.findall(
        r'<path class="school this" d="M([0-9.]+) ([0-9.]+)l', text)[0])
    east, north = east, north + 11
    radius = {kind: float(r) for kind, r in re.findall(
        r'<circle class="(criterion|last)"[^>]* r="([0-9.]+)"', text)}
    scale = radius["criterion"] / 1500
    homes = {it["child"]: it for it in found["children"]}
    for number, _, _, x, y in marks:
        home = homes[int(number)]
        assert abs((float(x) - east) / scale - (home["east"] - here["east"])) < 20, number
        assert abs((north - float(y)) / scale - (home["north"] - here["north"])) < 20, number
    draw = json.loads(office.parts.desk.asked("/draw/1")[1])
    last = next(it for it in draw["cutoffs"] if it["school"] == "OAK")
    assert math.isclose(radius["last"] / scale, last["metres"], abs_tol=20)
    assert f'{last["metres"]:,} m' in text


def test_the_lists_of_a_school_are_those_of_the_register(office: Site, rita: Browser) -> None:
    """The waiting list in its positions with the place of each child, and the intake."""
    rows = shown(office)["children"]
    waits = sorted((wish["position"], it["child"], wish["class"], wish["metres"],
                    bool(it["place"])) for it in rows
                   if (wish := wish_of(it, "OAK")) and wish["state"] == "waits")
    page = Page(rita.get("/schools/OAK/waiting?page=all").text)
    assert [(int(it[0]), int(it[1]), int(it[4].replace(",", "")), it[5] != "none")
            for it in page.tables["waiting"][1:]] == [
        (position, number, metres, has) for position, number, _, metres, has in waits]
    page = Page(rita.get("/schools/OAK/intake?page=all").text)
    assert {int(it[0]): it[2] for it in page.tables["intake"][1:]} == {
        it["child"]: {"plan": "by a plan"}.get(it["place"]["kind"], it["place"]["kind"])
        for it in rows if it["place"] and it["place"]["school"] == "OAK"}
