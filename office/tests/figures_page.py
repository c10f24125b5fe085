"""A page of figures, read as a screen reader does, and compared with a season of the
model. It needs no package.
"""
import collections
import html.parser
import re
from typing import Any

import model_season
from model_season import SchoolFigures

NTH = ("first", "second", "third", "fourth", "fifth", "sixth", "seventh", "eighth", "ninth",
       "tenth")
WITHHELD = "[c]"
Rows = list[list[str]]


class Page(html.parser.HTMLParser):
    """The tables of a page by their captions, as rows of texts; and what a screen reader needs of
    each element.
    """

    def __init__(self, text: str) -> None:
        super().__init__()
        self.tables: dict[str | None, Rows] = {}
        self.caption: str | None = None
        self.row: list[str] = []
        self.open: list[str] = []
        self.titles: list[str] = []
        self.tags: collections.Counter[str] = collections.Counter()
        self.feed(text)

    def handle_starttag(self, tag: str, attrs: list[tuple[str, str | None]]) -> None:
        self.tags[tag] += 1
        given = dict(attrs)
        if tag == "table":
            self.caption = None
        if tag == "tr":
            self.row = []
            self.tables[self.caption].append(self.row)
        if tag in ("td", "th"):
            self.row.append("")
            is_head = given.get("scope") in ("row", "col", "rowgroup", "colgroup")
            assert tag == "td" or is_head, given
        if tag == "svg":
            assert given.get("role") == "img" and given.get("aria-labelledby"), given
        self.open.append(tag)

    def handle_endtag(self, tag: str) -> None:
        while self.open.pop() != tag:
            pass

    def handle_data(self, data: str) -> None:
        if "caption" in self.open:
            self.caption = (self.caption or "") + data
            self.tables[self.caption] = []
        elif "td" in self.open or "th" in self.open:
            self.row[-1] += data
        elif "title" in self.open and "svg" in self.open:
            self.titles.append(data)


def table(page: Page, beginning: str) -> Rows:
    """The rows of the table whose caption begins so."""
    return next(rows for caption, rows in page.tables.items()
                if caption and caption.startswith(beginning))


def same(cell: str, number: int) -> None:
    """A cell has this number, or is withheld, which it must be from 1 to 4."""
    wanted = (WITHHELD,) if 0 < number < 5 else (f"{number:,}", WITHHELD)
    assert cell in wanted, (cell, number)


def beside_model(text: str, season: Any) -> int:
    """Compares a page with the figures of a season of the model. Returns how many cells are
    withheld.
    """
    wanted, page = model_season.figures(season), Page(text)
    assert f"{wanted['children']:,} children took part" in text
    rows = {name: cells for name, *cells in table(page, "Children by the preference")}
    for at, number in wanted["met"].items():
        name = "no place" if isinstance(at, str) else f"{NTH[at - 1]} preference"
        same(rows[name][0], number)
    assert rows["all"][0] == f"{wanted['children']:,}"
    by_code = {it[1]: it for it in table(page, "Places, applications")[1:]}
    assert set(by_code) == set(wanted["schools"])
    classes = classes_of(page)
    for code, it in wanted["schools"].items():
        see_school(by_code[code], it, season, code)
        assert len(classes[code]) == len(season.schools[code]["criteria"]) + 2
        for number_of_class, cell in enumerate(classes[code]):
            same(cell, it["classes"][number_of_class])
    return text.count(WITHHELD)


def classes_of(page: Page) -> dict[str, list[str]]:
    """The offers of each school by its classes. The first row of a school has its name and code."""
    found: dict[str, list[str]] = {}
    code = ""
    for row in table(page, "Offers of each school")[1:]:
        code = re.findall(r"\(([A-Z0-9]+)\)$", row[0])[0] if len(row) == 3 else code
        found.setdefault(code, []).append(row[-1])
    return found


def see_school(row: list[str], wanted: SchoolFigures, season: Any, code: str) -> None:
    """Compares the row of a school. From the second round on it has a column of the places that
    were kept.
    """
    school, is_later = season.schools[code], len(season.rounds) > 1
    cells = [cell for at, cell in enumerate(row) if not is_later or at != 9]
    _, _, pan, plans, *applied, total, offers, turned_away, criterion, metres = cells
    assert int(pan) == school["pan"]
    assert turned_away == ("some" if wanted["turned_away"] else "none")
    same(plans, wanted["plans"])
    for at, cell in enumerate(applied, 1):
        same(cell, wanted["applied"][at])
    assert len(applied) == 4
    same(total, wanted["applied"].total())
    same(offers, wanted["classes"].total())
    if is_later:
        same(row[9], wanted["kept"])
    if wanted["last"] is None:
        assert criterion == "no offer in this round" and metres == ""
        return
    number, distance = wanted["last"]
    criteria = ["looked-after", *school["criteria"], "none"]
    is_private = criteria[number].startswith(("looked-after", "flag"))
    assert metres == (WITHHELD if is_private else f"{distance:,} m")
