"""The worklists and figures of a register: beside the model of examples/season on random seasons,
and by hand.
"""
import collections
import csv
import datetime
import decimal
import io
import json
import shutil
import subprocess
from collections.abc import Callable, Collection, Iterable, Iterator
from pathlib import Path
from typing import Any

import model_season
import openpyxl
import pytest
from conftest import PROGRAM, ROOT, apply, child, do, make, school
from files import register_of, write
from model_season import MODEL
from register_files import Refused
from seasons import Town, file_of

from office.core import model
from office.core.model import Register
from office.files import book
from office.web.lists import worklists
from office.web.lists.register_rows import Rows

Row = list[object]
Printed = list[list[str]]
SEEDS = 40
SINGLE = {"child", "find", "lots", "moved", "round-report"}


def text(rows: Iterable[Iterable[object]]) -> Printed:
    """Rows as a CSV gives them back."""
    return [["" if it is None else str(it) for it in row] for row in rows]


def rows_in(register: Register, name: str, **given: object) -> Printed:
    """The rows below the header of a worklist."""
    return text(worklists.rows_of(register, name, given)[1:])


def played(seed: int) -> Town:
    """A season of two rounds and fills, with answers between them."""
    town = Town(seed)
    town.round("2025-03-03")
    town.answers()
    town.fill("2025-04-01")
    town.answers()
    town.round("2025-05-12")
    town.answers()
    town.fill("2025-06-02")
    town.remind("2025-06-05")
    return town


def name_of(season: Any, child: int) -> str:
    """The name of a child."""
    return str(season.children[child]["name"])


def interest(season: Any, late: Collection[int]) -> Iterator[Row]:
    """What families want, counted from the lists."""
    for code, it in sorted(season.schools.items()):
        listed = [(child, them.index(code) + 1)
                  for child, them in season.lists.items() if code in them]
        counts = [sum(at == place for _, at in listed) for place in (1, 2, 3)]
        plans = sum(place["kind"] == "plan" and place["school"] == code
                    for place in season.places.values())
        lots = sum(where == code and (bool(season.draws) or child not in late)
                   for where, child in season.pairs())
        are_late = sum(child in late for child, _ in listed)
        yield [code, it["name"], it["pan"], plans, len(listed), *counts,
               len(listed) - sum(counts), are_late, lots]


def reports(season: Any) -> Iterator[list[Row]]:
    """The result of each round for each child that took part."""
    for draw, _, outcomes, _ in season.rounds:
        _, _, fresh = season.drawn[draw - 1]
        yield [[it, name_of(season, it), got,
                "none" if got is None else "offered" if it in fresh else "kept"]
               for it, got in outcomes.items()]


def draws_of(season: Any) -> Iterator[Row]:
    """The rounds and fills, with what came of each."""
    for (draw, at, code, day), (lots, has, fresh) in zip(season.draws, season.drawn):
        kept = sum(1 for it, got in has.items() if got and it not in fresh)
        without = sum(got is None for got in has.values())
        yield [draw, "round" if at else "fill", at or None, code or None, day, len(lots),
               len(fresh), kept, without]


@pytest.mark.parametrize("seed", range(6))
def test_figures_beside_the_model(tmp_path: Path, seed: int) -> None:
    season = played(seed).season
    reg = register_of(file_of(season, tmp_path / "reg.db"))
    assert rows_in(reg, "interest") == text(interest(season, ()))
    lists: list[Row] = [
        [code, at, it, name_of(season, it), rank, metres, season.lists[it].index(code) + 1]
        for code in sorted(season.schools) for at, it, rank, metres in season.waiting(code)]
    assert len(lists) > 10 and rows_in(reg, "list") == text(lists)
    assert rows_in(reg, "list", school="B") == text(it for it in lists if it[0] == "B")
    for at, report in enumerate(reports(season), 1):
        assert rows_in(reg, "round-report", round=at) == text(report)
    draws = list(draws_of(season))
    assert [it[1] for it in draws].count("fill") > 0 and rows_in(reg, "draws") == text(draws)
    facts, last = dict(rows_in(reg, "season")), season.draws[-1]
    wanted = {
        "schools": 4, "admission numbers": sum(it["pan"] for it in season.schools.values()),
        "children": 40, "applications": len(season.lists), "rounds so far": 2,
        "offers from waiting lists so far": len(season.draws) - 2,
        "day of the last round or offer": last[3],
        "number of the next round or offer": last[0] + 1,
        "earliest day of the next round or offer": last[3],
    }
    assert {it: facts[it] for it in wanted} == {it: str(has) for it, has in wanted.items()}
    assert rows_in(reg, "vacancies") == list(csv.reader(season.places_of_schools()))[1:]


def test_before_a_first_round_late_applications_need_no_lot(tmp_path: Path) -> None:
    season, late = Town(9).season, {3, 7, 20}
    reg = register_of(file_of(season, tmp_path / "reg.db", late))
    assert rows_in(reg, "interest") == text(interest(season, late))
    assert rows_in(reg, "list") == [] == rows_in(reg, "draws")
    assert dict(rows_in(reg, "season"))["late applications"] == "3"
    wanted = [[str(it), code, "wanted"] for it, code in enumerate(season.lists[3], 1)]
    assert [[*it[3:5], it[7]] for it in rows_in(reg, "child", child=3)] == wanted
    assert {it[4] for it in rows_in(reg, "unplaced")} == {""}


def child_rows(season: Any, number: int) -> list[Row]:
    """What a child listed and has. One whose application has ended has a place by a plan alone,
    without class and distance.
    """
    name, place = name_of(season, number), season.places.get(number)
    if number not in season.lists:
        ended: Row = [None, None, place["school"], None, None, "plan", None, None]
        return [[number, name, *ended]]
    rows: list[Row] = []
    for at, code in enumerate(season.lists[number], 1):
        came, days = "waiting" if code in season.wanted(number) else "below its place", (None, None)
        if place and place["school"] == code:
            came, days = place["kind"], (place["day"], place["reminded"])
        elif (number, code) in season.left:
            came = "left"
        standing = MODEL.standing(season.schools[code], season.children[number])
        rows.append([number, name, "2024-10-31", at, code, *standing, came, *days])
    return rows


def see_places(register: Register, season: Any, due: str) -> dict[str, int]:
    """Each list of children and places, beside the model; and how many rows some of them have."""
    places, day = season.places, {"day": datetime.date.fromisoformat(due)}
    named = [[it, one["name"], "2024-10-31" if it in season.lists else None]
             for it, one in season.children.items()]
    has = {it: [one["school"], one["kind"]] for it, one in places.items()}
    assert rows_in(register, "children") == text(
        [*it, *has.get(it[0], [None, None])] for it in named)
    lists = [[*it, ";".join(season.lists.get(it[0], [])), ";".join(season.wanted(it[0]))]
             for it in named if it[0] not in places]
    assert rows_in(register, "unplaced") == text(lists)
    assert rows_in(register, "no-answer") == list(csv.reader(season.no_answer()))[1:]
    reminds = list(csv.reader(season.remind_due(due)))[1:]
    assert rows_in(register, "remind-due", **day) == reminds
    lapses = list(csv.reader(season.lapse_due(due)))[1:]
    lapses.sort(key=lambda it: (it[2], int(it[0])))
    assert rows_in(register, "lapse-due", **day) == lapses
    return {"remind": len(reminds), "lapse": len(lapses), "unplaced": len(lists)}


def test_children_and_places_beside_the_model(tmp_path: Path) -> None:
    """Each child and its place in each list that has it, of seasons in which plans end
    applications; all that may have become of a school is there.
    """
    seen: collections.Counter[str] = collections.Counter()
    for seed in range(6):
        season = played(seed).season
        register = register_of(file_of(season, tmp_path / "reg.db"))
        for number in season.children:
            wanted = child_rows(season, number)
            seen.update(str(it[7]) for it in wanted)
            assert rows_in(register, "child", child=number) == text(wanted), (seed, number)
        seen.update(see_places(register, season, "2025-06-20"))
    assert set(seen) == {"offered", "accepted", "plan", "left", "waiting", "below its place",
                         "remind", "lapse", "unplaced"}, seen
    assert min(seen.values()) > 2, seen


def nth(season: Any, child: int, got: str | None) -> int | str:
    """As which preference a child listed what it was allotted. Of one whose application has ended
    the list is gone.
    """
    if got is None:
        return "none"
    return int(season.lists[child].index(got)) + 1 if child in season.lists else "ended"


ORDER: tuple[int | str, ...] = (1, 2, 3, 4, "ended", "none")


def preferences(season: Any) -> Iterator[Row]:
    """What each round left the children with."""
    for at, (_, day, outcomes, _) in enumerate(season.rounds, 1):
        counts = collections.Counter(nth(season, *it) for it in outcomes.items())
        for it in ORDER:
            if counts[it]:
                share = decimal.Decimal(100 * counts[it]) / len(outcomes)
                tenths = share.quantize(decimal.Decimal("0.1"), decimal.ROUND_HALF_UP)
                yield [at, day, it, counts[it], tenths]


def offered_in(season: Any, draw: int) -> Iterator[tuple[str, list[int], list[int]]]:
    """The schools of a draw with those that had a lot there, and those of them that were offered a
    place, of which there are some.
    """
    lots, has, _ = season.drawn[draw - 1]
    for code in sorted(season.schools):
        there = [child for at, child in lots if at == code]
        if offered := [it for it in there if has.get(it) == code]:
            yield code, there, offered


def last_offered(season: Any) -> Iterator[Row]:
    """The last that was offered at each school, also where its application has ended."""
    for draw, _, _, day in season.draws:
        lots = season.drawn[draw - 1][0]
        for code, _, offered in offered_in(season, draw):
            keys: dict[int, Any] = {it: season.key(code, it, lots) for it in offered}
            last = max(keys, key=keys.__getitem__)
            yield [draw, day, code, len(offered), last, *keys[last]]


def equal_at_limit(season: Any) -> Iterator[Row]:
    """For whom the lot alone decided. Of one whose application has ended that cannot be told,
    unless it is the last that was offered; nothing is shown where nobody can have been refused by a
    lot.
    """
    for draw, *_ in season.draws:
        for code, there, offered in offered_in(season, draw):
            yield from ([draw, code, *it] for it in equal_at(season, draw, code, there, offered))


def equal_at(
    season: Any, draw: int, code: str, there: list[int], offered: list[int]
) -> Iterator[Row]:
    """The same at one school."""
    lots, has, _ = season.drawn[draw - 1]
    keys = {it: season.key(code, it, lots) for it in there}
    last = max(offered, key=keys.__getitem__)
    limit = keys[last][:2]
    gone = [it for it in there if it not in season.lists and it != last]
    turned = [it for it in there if it in season.lists and it not in offered
              and keys[it][:2] == limit and is_worse(season.lists[it], has.get(it), code)]
    equal = turned + [it for it in offered if it not in gone and keys[it][:2] == limit]
    if turned or set(gone) - set(offered):
        for it in sorted(equal + gone, key=lambda it: int(lots[code, it])):
            came = "offered" if it in offered else "unknown" if it in gone else "refused"
            yield [it, *(keys[it][:2] if it in equal else (None, None)), lots[code, it], came]


def is_worse(listed: list[str], got: str | None, code: str) -> bool:
    """Whether a child prefers a school to what it was allotted."""
    return got is None or listed.index(got) > listed.index(code)


# what is compared with the model, and which column has the kind of a row
OF_DRAWS: dict[str, tuple[Callable[[Any], Iterator[Row]], int]] = {
    "preferences": (preferences, 2), "last-offered": (last_offered, 5),
    "equal-at-limit": (equal_at_limit, 6),
}


def test_draws_beside_the_model(tmp_path: Path) -> None:
    """Lots, preferences, the last that was offered and where only a lot decided, of seasons in
    which plans have ended applications since.
    """
    seen: collections.Counter[str] = collections.Counter()
    for seed in range(SEEDS):
        season = played(seed).season
        register = register_of(file_of(season, tmp_path / "reg.db"))
        for draw, (lots, has, _) in enumerate(season.drawn, 1):
            wanted = sorted([code, lot, it, name_of(season, it), has.get(it)]
                            for (code, it), lot in lots.items())
            assert rows_in(register, "lots", draw=draw) == text(wanted), (seed, draw)
        for name, (expected, place) in OF_DRAWS.items():
            found = rows_in(register, name)
            assert found == text(expected(season)), (seed, name)
            kinds = (it[place] for it in found)
            seen.update(f"{name} {it}" for it in kinds
                        if not it.isdigit() or name == "preferences")
            if name == "last-offered":
                seen["ended last"] += sum(int(it[4]) not in season.lists for it in found)
    least = {"preferences ended", "ended last", "equal-at-limit offered",
             "equal-at-limit refused", "equal-at-limit unknown"}
    assert least <= set(seen) and min(seen[it] for it in least) > 1, seen


def test_whom_each_draw_moved(tmp_path: Path) -> None:
    """Nobody is missing, and whoever may have given the place up before is marked."""
    counts = {"exact": 0, "sure": 0, "perhaps": 0, "not": 0}
    for seed in range(SEEDS):
        town = played(seed)
        register = register_of(file_of(town.season, tmp_path / "reg.db"))
        for draw, (_, has, fresh), was in zip(
                town.season.draws, town.season.drawn, town.before):
            held = {it: was.places[it] for it in fresh if it in was.places}
            exact = {(str(it), held[it]["school"], has[it]) for it in held}
            alone = rows_in(register, "moved", draw=draw[0])
            assert exact <= {(it[0], it[2], it[4]) for it in alone}
            for it in alone:
                is_exact = (it[0], it[2], it[4]) in exact
                assert it[3] in ("", "perhaps not") and (is_exact or it[3]), (seed, it)
                counts["sure" if not it[3] else "perhaps" if is_exact else "not"] += 1
            counts["exact"] += len(exact)
    assert counts["sure"] > 0.8 * counts["exact"] > 40, counts


def test_a_plan_named_since_a_draw(tmp_path: Path) -> None:
    """By hand: Oak's two places go to children 1 and 2, who live 100 metres away, and 3 and 4, as
    near, have higher lots; Elm's one to 5. Then plans name Elm for 2, 4 and 5, and 3 has Oak by a
    fill. The last children of the round are those that they were; whether a lot decided for 4
    cannot be told any more.
    """
    reg = tmp_path / "reg.db"
    make(reg, [
        school("OAK"), school("ELM", pan=1),
        *(child(it, east=100 if it < 5 else 300) for it in range(1, 7)),
        *(apply(it, ["OAK"]) for it in (1, 2, 3, 4)), apply(5, ["ELM"]), apply(6, ["OAK"]),
        {"cmd": "round", "draw": 1, "day": "2025-03-03", "lots": [1, 10, 20, 30, 40, 50]},
    ])
    assert rows_in(register_of(reg), "last-offered") == [
        ["1", "2025-03-03", "ELM", "1", "5", "1", "300", "1"],
        ["1", "2025-03-03", "OAK", "2", "2", "1", "100", "20"],
    ]
    equal = [["1", "OAK", str(it), "1", "100", str(10 * it), "offered" if it < 3 else "refused"]
             for it in (1, 2, 3, 4)]
    assert rows_in(register_of(reg), "equal-at-limit") == equal
    do(reg, [{"cmd": "name_plan", "child": 4, "school": "ELM"}])
    equal[3][3:] = ["", "", "40", "unknown"]
    assert rows_in(register_of(reg), "equal-at-limit") == equal
    do(reg, [
        *({"cmd": "name_plan", "child": it, "school": "ELM"} for it in (2, 5)),
        {"cmd": "decline", "child": 1, "school": "OAK"},
        {"cmd": "fill", "draw": 2, "school": "OAK", "day": "2025-04-01", "lots": [7, 8]},
    ])
    assert rows_in(register_of(reg), "last-offered") == [
        ["1", "2025-03-03", "ELM", "1", "5", "1", "300", "1"],
        ["1", "2025-03-03", "OAK", "2", "2", "1", "100", "20"],
        ["2", "2025-04-01", "OAK", "1", "3", "1", "100", "7"],
    ]
    assert rows_in(register_of(reg), "equal-at-limit") == equal
    assert rows_in(register_of(reg), "child", child=5) == [
        ["5", "Child 5", "", "", "ELM", "", "", "plan", "", ""]]
    assert [it[2] for it in rows_in(register_of(reg), "preferences")] == ["1", "ended", "none"]


def test_a_file_of_version_1(tmp_path: Path) -> None:
    """It is read, and stays as it is, with nothing beside it. By hand, from what made it
    (tools/version1): child 5 waits at A, where 2 has the place; at B child 4 has an offer and 6 a
    plan, 7 waits, 1 and 3 are left with nothing.
    """
    (tmp_path / "old").mkdir()
    path = tmp_path / "old" / "season.db"
    source = ROOT / "crates" / "desk_runs" / "data" / "season.db"
    shutil.copyfile(source, path)
    reg = register_of(path)
    assert rows_in(reg, "list") == [
        ["A", "1", "5", "C5", "1", "300", "1"], ["B", "1", "7", "C7", "0", "30", "1"]]
    assert rows_in(reg, "vacancies") == [
        ["A", "Alpha", "1", "0", "1", "0", "0", "1"], ["B", "Beta", "1", "1", "0", "1", "0", "1"]]
    assert [[it[0], *it[3:]] for it in rows_in(reg, "children")] == [
        ["1", "", ""], ["2", "A", "accepted"], ["3", "", ""], ["4", "B", "offered"],
        ["5", "", ""], ["6", "B", "plan"], ["7", "", ""],
    ]
    assert [it[:6] for it in rows_in(reg, "draws")] == [
        ["1", "round", "1", "", "2025-03-03", "3"], ["2", "round", "2", "", "2025-03-20", "2"],
        ["3", "fill", "", "B", "2025-04-18", "1"],
    ]
    assert [it[4:8] for it in rows_in(reg, "child", child=1)] == [
        ["B", "1", "500", "left"], ["A", "1", "500", "left"]]
    assert path.read_bytes() == source.read_bytes()
    assert [it.name for it in path.parent.iterdir()] == ["season.db"]


def test_another_document(reg: Path, tmp_path: Path) -> None:
    """A program that shows another document than is read here, as one of another release, is named.
    """
    fake = tmp_path / "fake"
    fake.write_text("#!/bin/sh\necho '{\"season\":1}'\n", "utf-8")
    fake.chmod(0o700)
    with pytest.raises(Refused, match="it: the program shows another document than is read here"):
        model.read_stored(str(reg), str(fake), "it")


@pytest.mark.parametrize("phase, year, holidays, wanted", [
    ("secondary", 2025, (), ("2024-10-31", "2025-03-03", "2025-12-31")),
    ("secondary", 2026, (), ("2025-10-31", "2026-03-02", "2026-12-31")),
    (
        "secondary", 2027, ("2027-03-01", "2027-03-02"),
        ("2026-10-31", "2027-03-03", "2027-12-31"),
    ),
    ("primary", 2026, (), ("2026-01-15", "2026-04-16", "2026-12-31")),
    ("primary", 2028, ("2028-04-17",), ("2028-01-15", "2028-04-18", "2028-12-31")),
])
def test_the_days_of_a_season(
    tmp_path: Path, phase: str, year: int, holidays: tuple[str, ...],
    wanted: tuple[str, str, str],
) -> None:
    """By the calendar: 1 March 2025 was a Saturday, 1 March 2026 is a Sunday, 16 April 2028 is
    Easter Day. The program agrees on the offer day.
    """
    reg = tmp_path / "reg.db"
    subprocess.run([PROGRAM, "init", reg, phase, str(year), *holidays], check=True)
    found = dict(rows_in(register_of(reg), "season"))
    days = ("closing date", "offer day", "last day of the lists")
    assert tuple(found[it] for it in days) == wanted
    assert found["public holidays"] == ";".join(holidays)
    others = ("phase", "year of entry", "number of the next round or offer",
              "earliest day of the next round or offer")
    assert [found[it] for it in others] == [phase, str(year), "1", wanted[1]]

    def answer(day: str) -> str:
        """The answer of the program to a round on a day."""
        line = json.dumps({"cmd": "round", "draw": 1, "day": day, "lots": []})
        return subprocess.run([PROGRAM, "do", reg], input=f"{line}\n", text=True,
                              capture_output=True, check=False).stdout

    day_before = f"{wanted[1][:-2]}{int(wanted[1][-2:]) - 1:02}"
    assert "TooSoon" in answer(day_before) and '"done":true' in answer(wanted[1])


def named(names: Iterable[str], first: int) -> dict[int, dict[str, Any]]:
    """Children of these names, by their numbers."""
    return {at: child(at, east=at, name=it) for at, it in enumerate(names, first)}


def test_find(tmp_path: Path) -> None:
    names = ["Ann Abel", "Tŷ Dŵr", "Abigail O’Neil", "Siân Bell", "Bo Bell", "=cmd",
             "Annabel Smith"]
    write(tmp_path / "reg.db", {}, named(names, 20), {})
    reg = register_of(tmp_path / "reg.db")
    looks = {
        "abel": [20, 26], "ABEL ann": [20, 26], "ty dwr": [21], "oneil": [22], "sian": [23],
        "bell": [23, 24], "21": [21], "Annabell": [26], "Bel": [20, 23, 24, 26], "Smiht": [26],
    }
    for look, wanted in looks.items():
        assert [int(it[0]) for it in rows_in(reg, "find", text=look)] == wanted, look
    for look in ("Zander", "", "'"):
        with pytest.raises(Refused, match="no child has a name like"):
            rows_in(reg, "find", text=look)
    assert rows_in(reg, "find", text="=cmd") == [["25", "=cmd", "", "", "", "25", "0"]]


def test_for_a_spreadsheet() -> None:
    names = ["=1+1", "+a", "-b", "@c", "＝d", "Tŷ", "1=1", " =e", "\N{ZERO WIDTH SPACE}+f", "a -b"]
    rows: Rows = [["child", "name"]]
    found = worklists.csv_text(rows + [[1, it] for it in names])
    assert found.startswith("\ufeffchild,name\n")
    assert [it[1] for it in csv.reader(io.StringIO(found[1:]))][1:] == [
        "'=1+1", "'+a", "'-b", "'@c", "'＝d", "Tŷ", "1=1", "' =e", "'\N{ZERO WIDTH SPACE}+f", "a -b"]


def see_form(page: Any) -> None:
    """A sheet is in a form for print, and none of its cells is a formula or an error."""
    cells = [cell for row in page.iter_rows() for cell in row]
    assert not [cell for cell in cells if cell.data_type in ("f", "e")]
    assert page.print_title_rows == "$1:$1" and page.page_setup.fitToHeight == 0
    assert int(page.page_setup.paperSize) == 9 and page.freeze_panes == "A2"
    assert page.sheet_properties.pageSetUpPr.fitToPage
    assert "&P of &N" in page.oddFooter.center.text
    title = "Admission 2025 secondary, worklists of 2025-06-20: "
    assert page.oddHeader.left.text.startswith(title)
    for column in page.iter_cols():
        values = ("" if it.value is None else str(it.value)[: 10 if it.is_date else None]
                  for it in column)
        longest = max(map(len, values))
        width = page.column_dimensions[column[0].column_letter].width
        assert width >= min(60, longest)


def test_the_workbook(tmp_path: Path) -> None:
    """Every worklist as a sheet with its cells, none of them a formula, in a form for print."""
    register, day = register_of(file_of(played(3).season, tmp_path / "reg.db")), "2025-06-20"
    on = datetime.date.fromisoformat(day)
    title = f"Admission 2025 secondary, worklists of {day}"
    found = openpyxl.load_workbook(io.BytesIO(book.data(worklists.pages(register, on), title)))
    names = set(worklists.WORKLISTS) - SINGLE
    assert set(found.sheetnames) == names | {"contents"}
    assert found.sheetnames[:2] == ["contents", "season"]
    for page in found:
        if page.title != "contents":
            shown = text(
                [it.date() if isinstance(it, datetime.datetime) else it for it in row]
                for row in page.iter_rows(values_only=True))
            wanted = text(worklists.rows_of(register, page.title, {"day": on}))
            width = len(wanted[0])
            assert [row + [""] * (width - len(row)) for row in shown] == wanted, page.title
        see_form(page)


def test_a_day_before_the_first_round_is_refused(tmp_path: Path) -> None:
    """Nobody can be due then, so its year may be wrong. On the day of the round, and before any
    round, it is not.
    """
    town = Town(3)
    early, first = datetime.date(2025, 3, 2), datetime.date(2025, 3, 3)
    worklists.see_day(register_of(file_of(town.season, tmp_path / "reg.db")), early)
    town.round("2025-03-03")
    register = register_of(file_of(town.season, tmp_path / "reg.db"))
    worklists.see_day(register, first)
    with pytest.raises(Refused, match="nobody had an offer on 2 March 2025: the first round was on"
                                      " 3 March 2025"):
        worklists.see_day(register, early)
    for name in ("remind-due", "lapse-due"):
        assert rows_in(register, name, day=first) == []


def test_what_makes_a_list_whole() -> None:
    """A child, a draw, a round or a text, where the list is of one."""
    for name in worklists.WORKLISTS:
        assert worklists.is_whole(name, {}) is (name not in SINGLE), name
    assert worklists.is_whole("lots", {"draw": 1}) and not worklists.is_whole("lots", {"round": 1})


def lines_of(lines: list[str]) -> Printed:
    """The rows below the header of a CSV that the model wrote."""
    return list(csv.reader(lines))[1:]


def test_the_example_season(season: Path) -> None:
    """After its second round, which leaves children without an answer and without a place."""
    wanted, register = model_season.after_second(), register_of(season / "reg.db")
    draws = range(1, 1 + len(wanted.draws))
    day = {"day": datetime.date(2025, 5, 25)}
    for name, lines in (
        ("no-answer", wanted.no_answer()), ("unplaced", wanted.unplaced()),
        ("vacancies", wanted.places_of_schools()), ("preferences", wanted.shares()),
    ):
        found = rows_in(register, name)
        assert len(found) > 5 and found == lines_of(lines), name
    assert rows_in(register, "remind-due", **day) == lines_of(wanted.remind_due("2025-05-25"))
    last = [it for draw in draws for it in wanted.last_offers(draw)]
    assert len(last) > 20 and rows_in(register, "last-offered") == text(last)
    equal = [it for draw in draws for it in wanted.lots_decided(draw)]
    assert len(equal) > 1 and rows_in(register, "equal-at-limit") == text(equal)
    for number in (1, 23, 322):
        assert rows_in(register, "child", child=number) == lines_of(wanted.child_lines(number))
    assert rows_in(register, "lots", draw=2) == lines_of(wanted.lot_lines(2))
