"""Figures beside the model of the example season, which shares no code with it, and as a
page that a screen reader reads.
"""
import collections
import datetime
import re
import shutil
import sqlite3
import subprocess
import sys
from collections.abc import Callable, Mapping
from pathlib import Path
from typing import Any

import model_season
import pytest
from conftest import Command, apply, child, do, make, school
from figures_page import Page, beside_model, table
from files import register_of, write
from register_files import Refused

from office.files import charts
from office.web.figures import counts as figure_counts
from office.web.figures import page as published
from office.web.figures.withheld import withheld
from office.web.rounds import held_draw


@pytest.mark.parametrize(
    "name, played, at",
    [("after-1.db", model_season.after_first, 1), ("reg.db", model_season.after_second, 2)],
)
def test_the_example_season(
    season: Path, name: str, played: Callable[[], Any], at: int
) -> None:
    """Both rounds: each number of the page is that of the model, or withheld, and none from 1 to 4
    is printed.
    """
    found = figures_of(season / name)
    assert found.round == at
    text = published.page(found, None, {})
    assert beside_model(text, played()) > 10
    for it in {one["name"] for one in played().children.values()}:
        assert it not in text


FIELD = "the field “Copy”"


def figures_of(
    path: Path, copy: Path | None = None, number: int | None = None
) -> figure_counts.Figures:
    """The figures of a register's round, with what is withheld."""
    before = register_of(copy, copy.name) if copy else None
    return published.figures_of(register_of(path, path.name), before, number, FIELD)


def counted(path: Path, number: int | None = None) -> figure_counts.Figures:
    """The counts of a register's round, by the data that it has now."""
    return figure_counts.count(held_draw.of_register(register_of(path, path.name), number))


def test_counts_are_those_of_the_model(season: Path) -> None:
    """The counts before any is withheld: all of them, by class and by preference."""
    for name, played in (
        ("after-1.db", model_season.after_first),
        ("reg.db", model_season.after_second),
    ):
        found, wanted = counted(season / name), model_season.figures(played())
        assert (found.children, found.offers, found.kept, found.met) == (
            wanted["children"],
            wanted["offers"],
            wanted["kept"],
            wanted["met"],
        )
        for code, it in wanted["schools"].items():
            one = found.schools[code]
            assert (one.plans, one.kept, one.last, one.turned_away) == (
                it["plans"],
                it["kept"],
                it["last"],
                it["turned_away"],
            )
            assert one.applications == it["applied"] and one.offers == it["classes"]
    earlier = counted(season / "reg.db", 1)
    assert earlier.round == 1 and earlier.children == 598


def test_the_page_is_whole_and_escaped(season: Path, tmp_path: Path) -> None:
    """Nothing is loaded from elsewhere, no script runs, and names of schools are as they are:
    Welsh, right to left, with a script.
    """
    shutil.copy(season / "after-1.db", tmp_path / "named.db")
    conn = sqlite3.connect(tmp_path / "named.db")
    for code, name in (
        ("ASHS", 'Ysgol Tŷ "Ash" <script>alert(1)</script>'),
        ("BIRS", "مدرسة الزيتون"),
        ("CEDS", "=SUM(A1:A9) & 'Son'"),
    ):
        conn.execute("UPDATE school SET name = ? WHERE code = ?", (name, code))
    conn.commit()
    conn.close()
    text = published.page(figures_of(tmp_path / "named.db"), None, {})
    page = Page(text)
    assert (
        "<script" not in text
        and not re.search(r'(src|href)="(?!#)', text)
        and "url(http" not in text
        and "@import" not in text
    )
    names = [it[0] for it in table(page, "Places, applications")]
    assert {
        'Ysgol Tŷ "Ash" <script>alert(1)</script>',
        "مدرسة الزيتون",
        "=SUM(A1:A9) & 'Son'",
    } <= set(names)
    assert (
        len(page.titles) == 3 == page.tags["svg"] == page.tags["desc"] == page.tags["figcaption"]
        and page.tags["caption"] == page.tags["table"] == 3
    )
    ids = re.findall(r'\bid="([^"]*)"', text)
    assert len(ids) == len(set(ids))
    assert '<html lang="en-GB">' in text and page.tags["h1"] == page.tags["main"] == 1


def one_school(tmp_path: Path) -> None:
    """Oak has 6 places; 12 children want it and live 100, 200, .. metres away, the first 7 with
    flag 7. After round 1 children 1 to 6 have it.
    """
    town = [
        school("OAK", pan=6, criteria=["flag:7"]),
        *(child(it, east=100 * it, flags=[7] if it < 8 else []) for it in range(1, 13)),
        *(apply(it, ["OAK"]) for it in range(1, 13)),
    ]
    make(tmp_path / "reg.db", town)
    shutil.copy(tmp_path / "reg.db", tmp_path / "before.db")
    do(
        tmp_path / "reg.db",
        [{"cmd": "round", "draw": 1, "day": "2025-03-03", "lots": list(range(12))}],
    )


def test_later_by_the_copy(tmp_path: Path) -> None:
    """An admission number is raised, and a child amended and given a plan, after the round: with
    the copy from before it the page is as it was. Flags in words.
    """
    one_school(tmp_path)
    flags, reg, before = {7: "social or medical need"}, tmp_path / "reg.db", tmp_path / "before.db"
    first = published.page(figures_of(reg), None, flags)
    do(
        tmp_path / "reg.db",
        [
            {"cmd": "raise_pan", "school": "OAK", "pan": 9},
            {**child(3), "cmd": "amend"},
            {"cmd": "name_plan", "child": 12, "school": "OAK"},
        ],
    )
    assert published.page(figures_of(reg, before), None, flags) == first
    assert "with a verified priority: social or medical need" in first
    with pytest.raises(Refused, match="before.db is not from right before round 2"):
        figures_of(reg, before, 2)


def test_a_plan_since_is_never_counted_wrongly(tmp_path: Path) -> None:
    """A register shows no class and no distance of a child whose application a plan ended. So the
    counts of the round before it are refused, for whoever calls, and with the copy from before the
    round they are as they were: by hand, children 1 to 6 have Oak with flag 7, child 6 last, and
    the six others are refused.
    """
    one_school(tmp_path)
    first = counted(tmp_path / "reg.db")
    assert (first.met, first.schools["OAK"].offers, first.schools["OAK"].plans) == (
        {1: 6, "none": 6},
        {1: 6},
        0,
    )
    assert (first.schools["OAK"].last, first.schools["OAK"].turned_away) == ((1, 600), 6)
    for number in (12, 6):
        do(tmp_path / "reg.db", [{"cmd": "name_plan", "child": number, "school": "OAK"}])
        said = (
            f"reg.db has a plan that ended the application of child {number} after round 1: the"
            " copy from right before the round is needed"
        )
        with pytest.raises(Refused, match=said):
            counted(tmp_path / "reg.db")
        seen = held_draw.held_again(
            register_of(tmp_path / "before.db"), register_of(tmp_path / "reg.db")
        )
        assert figure_counts.count(seen) == first


ACCEPT, DECLINE = ({"cmd": it, "child": 2, "school": "OAK"} for it in ("accept", "decline"))
SINCE = "has answers, reminders, withdrawals or plans of after round 1"
CHANGES = (
    ([ACCEPT], SINCE),
    ([DECLINE], SINCE),
    ([{"cmd": "remind", "child": 2, "school": "OAK", "day": "2025-03-17"}], SINCE),
    ([{"cmd": "name_plan", "child": 12, "school": "OAK"}], SINCE),
    (
        [{"cmd": "raise_pan", "school": "OAK", "pan": 9}],
        "has data of OAK or of its children that were changed after round 1",
    ),
    # (child 3 loses its flag, and now ranks after child 7, which was turned away)
    (
        [{**child(3, east=300), "cmd": "amend"}],
        "has data of OAK or of its children that were changed after round 1",
    ),
    (
        [
            DECLINE,
            {
                "cmd": "fill",
                "draw": 2,
                "school": "OAK",
                "day": "2025-04-07",
                "lots": list(range(6)),
            },
        ],
        "had 1 draw after round 1",
    ),
)


@pytest.mark.parametrize("commands, said", CHANGES)
def test_what_was_changed_since_needs_the_copy(
    tmp_path: Path, commands: list[Command], said: str
) -> None:
    """Each change alone: without the copy there are no figures, and what is needed is named; with
    it the page is as it was.
    """
    one_school(tmp_path)
    reg = tmp_path / "reg.db"
    first = published.page(figures_of(reg), None, {})
    do(reg, commands)
    for number in (None, 1):
        with pytest.raises(Refused) as refused:
            figures_of(reg, number=number)
        assert str(refused.value) == (
            f"reg.db {said}: name the copy from right before round 1 by {FIELD}")
    assert published.page(figures_of(reg, tmp_path / "before.db"), None, {}) == first


def move(path: Path, years: int, *changes: str) -> None:
    """Makes a register that of another year, in which all of its days are 365 days later for each,
    and makes these changes.
    """
    days = {
        "application": ["day"],
        "imported": ["day"],
        "draw": ["day"],
        "place": ["day", "reminded"],
    }
    conn = sqlite3.connect(path)
    conn.execute("UPDATE meta SET year = year + ?", (years,))
    for one, column in ((one, it) for one, columns in days.items() for it in columns):
        conn.execute(f"UPDATE {one} SET {column} = {column} + ?", (365 * years,))
    for it in changes:
        conn.execute(it)
    conn.commit()
    conn.close()


def test_last_year_needs_the_copy_too(season: Path, tmp_path: Path) -> None:
    """Last year's register from the end of its season: it is refused by itself, and compared with
    its copy from before the round.
    """
    shutil.copy(season / "after-1.db", tmp_path / "now.db")
    move(tmp_path / "now.db", 1)
    now = figures_of(tmp_path / "now.db")
    with pytest.raises(Refused, match="name the copy from right before round 1 by"):
        figures_of(season / "reg.db", number=1)
    by_copy = figures_of(season / "reg.db", season / "before-1.db", 1)
    by_itself = figures_of(season / "after-1.db", number=1)
    assert published.page(now, by_copy, {}) == published.page(now, by_itself, {})


def test_the_first_page_of_a_print(season: Path, tmp_path: Path) -> None:
    """The chart of the preferences is on the first page, beside its table; on a narrow screen a
    chart keeps a width at which it can be read.
    """
    page = published.page(figures_of(season / "after-1.db"), None, {})
    (tmp_path / "out.html").write_text(page, "utf-8")
    code = "import sys, weasyprint; weasyprint.HTML(sys.argv[1]).write_pdf(sys.argv[2])"
    subprocess.run(
        [sys.executable, "-c", code, tmp_path / "out.html", tmp_path / "out.pdf"],
        check=True,
        capture_output=True,
    )
    first = subprocess.run(
        ["pdftotext", "-l", "1", tmp_path / "out.pdf", "-"],
        check=True,
        capture_output=True,
        text=True,
    ).stdout
    assert "percent of the children" in first and "Children by the preference" in first
    assert "@media screen { figure { overflow-x: auto; } figure svg { min-width: 40rem; } }" in (
        tmp_path / "out.html"
    ).read_text("utf-8")


def test_the_tables_fit_a_small_screen(season: Path, tmp_path: Path) -> None:
    """A window of 1,100 pixels has 1,053 for tables, beside its scroll bar and the margins. With
    each word on a line of its own the widest table needs 1,010 at most, so that it fits also where
    a browser's letters are somewhat wider. (On a page of 390 pixels a table is as narrow as its
    words allow.)
    """
    page = published.page(figures_of(season / "reg.db"), None, {})
    (tmp_path / "out.html").write_text(page, "utf-8")
    code = """
import sys, weasyprint
from weasyprint.formatting_structure.boxes import TableBox
small = weasyprint.CSS(string="@page { size: 390px 9000px; margin: 0 } figure { display: none }")
screen = weasyprint.HTML(sys.argv[1], media_type="screen").render(stylesheets=[small])
boxes = [it for page in screen.pages for it in page._page_box.descendants()]
print(*{round(it.width) for it in boxes if isinstance(it, TableBox)})
"""
    ran = subprocess.run(
        [sys.executable, "-c", code, tmp_path / "out.html"],
        check=True,
        capture_output=True,
        text=True,
    )
    widths = list(map(int, ran.stdout.split()))
    assert len(widths) == 3 and 900 < max(widths) <= 1010, widths


def test_last_year(season: Path, tmp_path: Path) -> None:
    """Last year is another register: earlier, of the same phase, with another number of a school
    that turned nobody away.
    """
    shutil.copy(season / "after-1.db", tmp_path / "last.db")
    move(tmp_path / "last.db", -1, "UPDATE school SET pan = 400 WHERE code = 'GLEA'")
    now, last = figures_of(season / "after-1.db"), figures_of(tmp_path / "last.db")
    published.see_comparable(now, last, "last.db")
    rows = table(
        Page(published.page(now, last, {})),
        "Each school in round 1 of 2025 and of 2024",
    )
    assert (
        next(it[1:3] for it in rows if it[0].endswith("(GLEA)")) == ["27", "400"]
        and len(rows) == 22
    )
    with pytest.raises(Refused, match="is of secondary entry in 2025, and cannot be compared with"
                                      " secondary entry in 2025"):
        published.see_comparable(now, now, "it")


def test_what_is_refused(season: Path, tmp_path: Path) -> None:
    """No round, a round that is none, so few children that nothing can be published."""
    make(
        tmp_path / "few.db",
        [school("OAK"), *(it for at in range(1, 5) for it in (child(at), apply(at, ["OAK"])))],
    )
    few, after = tmp_path / "few.db", season / "after-1.db"
    for path, number, text in ((few, None, "had no round yet"), (after, 2, "no round 2")):
        with pytest.raises(Refused, match=text):
            figures_of(path, number=number)
    do(few, [{"cmd": "round", "draw": 1, "day": "2025-03-03", "lots": [1, 2, 3, 4]}])
    with pytest.raises(Refused, match="fewer than 5 children are not published"):
        figures_of(few)


def test_homes_are_counted_in_squares() -> None:
    """Squares with fewer than five homes are left out; by hand."""
    homes = [(10, 10)] * 5 + [(999, 10)] * 4 + [(1000, 10)] * 6 + [(1500, 999)]
    assert charts.homes_by_cell(homes, 1000, 5) == {(0, 0): 9, (1000, 0): 7}
    assert charts.homes_by_cell(homes, 500, 5) == {(0, 0): 5, (1000, 0): 6}


def test_what_follows_is_not_withheld() -> None:
    """By hand. Late: 150 took part, 17 have no place and 123 kept theirs, so 10 were offered one;
    Elm's 5 offers follow from its criteria, and so Oak's 5 too. Oak's 2 plans then cannot be told
    where its kept places are withheld, with those of Elm. In the first round Elm's 18 follow from
    its criteria: 0, 18 and 0.
    """
    schools = {"OAK": (67, [0, 5, 0], 60, 2), "ELM": (80, [0, 5, 0], 63, 0)}
    late = figures(3, 150, {1: 123, 2: 10, figure_counts.NONE: 17}, schools)
    assert withheld(*figure_counts.published(late)) == {
        ("plans", "OAK"),
        ("kept", "OAK"),
        ("kept", "ELM"),
    }
    schools = {"OAK": (20, [0, 18, 0], 0, 2), "ELM": (30, [0, 18, 0], 0, 0)}
    first = figures(1, 39, {1: 30, 2: 6, figure_counts.NONE: 3}, schools)
    hidden = withheld(*figure_counts.published(first))
    assert {
        ("plans", "OAK"),
        ("offers", "OAK"),
        ("class", "OAK", 1),
        ("offers",),
        ("met", figure_counts.NONE),
    } <= hidden, hidden
    assert not {("offers", "ELM"), ("class", "ELM", 1)} & hidden, hidden
    # (nobody kept a place in a first round, and whoever reads the page knows that)
    assert not any(it[0] == "kept" for it in hidden)


def test_a_chart_says_no_more_than_its_table() -> None:
    """Elm offered 3 places, and 2 children have no place. The lines of the charts are at multiples
    of 5.
    """
    schools = {
        "ASH": (30, [0, 20, 0], 0, 0),
        "ELM": (30, [0, 3, 0], 0, 0),
        "OAK": (40, [0, 35, 0], 0, 0),
    }
    found = figures(1, 60, {1: 50, 2: 8, figure_counts.NONE: 2}, schools)
    hidden = withheld(*figure_counts.published(found))
    found.hidden.update(hidden)
    assert ("offers", "ELM") in hidden and ("met", figure_counts.NONE) in hidden
    _, chart = published.chart_of_schools(found)
    said = re.findall(r"<text[^>]*>([^<]*)</text>", chart)
    assert not {"1", "2", "3", "4"} & set(said), said
    kinds = [("offers", code) for code in schools] + [("applied", code, 1) for code in schools]
    assert said.count("[c]") == len(hidden.intersection(kinds)) > 0
    keys: list[int | str] = [1, 2, figure_counts.NONE]
    chart = published.chart_of_preferences(found, None, keys)
    said = re.findall(r"<text[^>]*>([^<]*)</text>", chart)
    assert said.count("[c]") == len(hidden.intersection(("met", it) for it in keys)) > 0
    # (2 of 60 children)
    assert "3.3" not in said


def figures(
    number: int,
    children: int,
    met: Mapping[int | str, int],
    schools: Mapping[str, tuple[int, list[int], int, int]],
) -> figure_counts.Figures:
    """Figures of schools, as (admission number, offers by class, kept, plans). Each is the first
    preference of about as many children, and of no other.
    """
    town: dict[str, figure_counts.School] = {}
    left = children
    for code, (pan, offers, kept, plans) in schools.items():
        first = left if code == list(schools)[-1] else children // 2
        left -= first
        one = figure_counts.School(
            code,
            code,
            pan,
            tuple("sibling" for _ in offers[2:]),
            0,
            0,
            collections.Counter({1: first}),
            plans,
            kept,
        )
        one.offers.update({at: it for at, it in enumerate(offers) if it})
        town[code] = one
    return figure_counts.Figures(
        2025,
        "secondary",
        number,
        datetime.date(2025, 3, 3),
        children,
        collections.Counter(met),
        sum(it.kept for it in town.values()),
        sum(it.offers.total() for it in town.values()),
        town,
        [],
    )


def test_a_full_school_does_not_show_its_plans(tmp_path: Path) -> None:
    """Oak has 20 places, 2 by plans, and is full: 18 offers would show the 2, so they are withheld
    as well.
    """
    oak = {"school": "OAK", "name": "Oak", "pan": 20, "east": 0, "north": 0, "criteria": []}
    children = {
        it: {
            "child": it,
            "name": f"C{it}",
            "east": it,
            "north": 0,
            "looked_after": False,
            "flags": [],
            "siblings": [],
        }
        for it in range(1, 31)
    }
    lists = {it: ["OAK"] for it in range(3, 31)}
    has = {it: "OAK" if it <= 20 else None for it in lists}
    lots = {("OAK", it): it for it in lists}
    places = {
        1: ("OAK", "plan"),
        2: ("OAK", "plan"),
        **{it: ("OAK", "offered") for it in range(3, 21)},
    }
    write(
        tmp_path / "a.db",
        {"OAK": oak},
        children,
        lists,
        places=places,
        draws=[("2025-03-03", has, lots, {it for it in has if has[it]})],
    )
    found = counted(tmp_path / "a.db")
    assert found.schools["OAK"].plans == 2 and {("plans", "OAK"), ("offers", "OAK")} <= found.hidden
