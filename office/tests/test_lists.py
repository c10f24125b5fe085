"""The lists on the screen, in an Excel file and as CSV: which rows, columns and order somebody
chooses by an address, and the views that a person saves. What is expected is worked out by hand.
"""
import csv
import datetime
import html.parser
import io
import pathlib
import re
import urllib.parse
import zipfile
from collections.abc import Iterator
from typing import Any
from unittest import mock

import openpyxl
import pytest
from applications import ROUND, Browser, Site, child, office_over, town
from conftest import apply, school
from pages import Page, press

from office.core import texts
from office.files import book
from office.web.lists import choice as list_choice
from office.web.lists import on_screen
from office.web.lists.register_rows import Rows
from office.web.machinery import tables
from office.web.schools import flags

# A has two places and B one: the nearest two have A, the third B, and the fourth none
ADA, BEN, CYD, DAI = "Ada Abel", "Ben Bell", "Cyd <b>Cole</b>", "Dai O'Dare"
SUM = "=1+1"


class Table(html.parser.HTMLParser):
    """The table of a list: its titles and its rows as they are read, and whose screens its cells
    lead to; what a sheet of paper has above it; and the texts of what is marked as an error.
    """

    def __init__(self, page: str) -> None:
        super().__init__()
        self.heads: list[str] = []
        self.rows: list[list[str]] = []
        self.paper, self.errors = "", list[str]()
        self.at, self.is_error, self.is_paper, self.is_list = "", False, False, False
        self.feed(page)

    def handle_starttag(self, tag: str, attrs: list[tuple[str, str | None]]) -> None:
        """Begins a row or a cell."""
        found = dict(attrs)
        self.is_error = self.is_error or found.get("class") == "error"
        self.is_list = self.is_list or found.get("id") == "list"
        self.is_paper = self.is_paper or found.get("class") == "paper-title"
        if not self.is_list or self.is_paper or "screen-only" in (found.get("class") or ""):
            return
        if tag == "tr" and self.at == "tbody":
            self.rows.append([])
        if tag in ("thead", "tbody"):
            self.at = tag
        if tag == "th":
            self.heads.append("")
        if tag == "td":
            self.rows[-1].append("")

    def handle_endtag(self, tag: str) -> None:
        """Ends what is marked, and the table."""
        self.is_error = self.is_error and tag != "p"
        self.is_paper = self.is_paper and tag != "td"
        self.is_list = self.is_list and tag != "table"

    def handle_data(self, data: str) -> None:
        """Takes a text."""
        if self.is_error:
            self.errors += [data] if data != "Error: " else []
        elif self.is_paper:
            self.paper += data
        elif self.is_list and data.strip("\n ▲▼"):
            if self.at == "tbody" and self.rows and self.rows[-1]:
                self.rows[-1][-1] += data
            elif self.at == "thead" and self.heads:
                self.heads[-1] += data


@pytest.fixture(scope="module", name="office")
def office_fixture(tmp_path_factory: pytest.TempPathFactory) -> Iterator[Site]:
    """The application over a register after its round, with a child whose name is a formula."""
    commands = [*town(), ROUND, child(5, SUM, 500)]
    with office_over(tmp_path_factory.mktemp("lists"), commands) as found:
        yield found


@pytest.fixture(scope="module", name="browser")
def browser_fixture(office: Site) -> Browser:
    """Somebody who reads."""
    return office.browser("rita", "reader")


def listed(browser: Browser, name: str, status: int = 200, **given: Any) -> Table:
    """The table of a list."""
    page = browser.get(f"/lists/{name}?{urllib.parse.urlencode(given, doseq=True)}")
    assert page.status_code == status, page.text
    return Table(page.text)


def names(table: Table) -> list[str]:
    """The names of the rows."""
    return [it[table.heads.index("Name")] for it in table.rows]


def test_a_list_is_whole_where_nothing_is_chosen(browser: Browser) -> None:
    """With each cell, days in words."""
    found = listed(browser, "children")
    assert found.heads == ["Child", "Name", "Applied", "School", "Place", "Preference met"]
    assert found.rows == [
        ["1", ADA, "31 October 2024", "A", "offered", "first preference"],
        ["2", BEN, "31 October 2024", "A", "offered", "first preference"],
        ["3", CYD, "31 October 2024", "B", "offered", "second preference"],
        ["4", DAI, "31 October 2024", "", "", ""], ["5", SUM, "", "", "", ""]]


@pytest.mark.parametrize("words, found", [
    ("abel", [ADA]), ("ÁBEL ada", [ADA]), ("odare", [DAI]), ("O'Dare", [DAI]), ("co", [
        CYD]), ("alpha", [ADA, BEN]), ("1", [ADA, SUM]), ("31 october", [
            ADA, BEN, CYD, DAI]), ("2024-10-31 beta", [CYD]), ("3", [CYD]), ("ada ben", []),
])
def test_rows_are_found_by_words_in_any_column(
    browser: Browser, words: str, found: list[str]
) -> None:
    """Each word is in the row: whatever capitals and accents, also in the name of a school, or in
    a day as it is shown; a number is found whole. (`=1+1` is the number 1 twice.)
    """
    assert names(listed(browser, "children", words=words)) == found


def test_a_list_without_a_row_says_so(browser: Browser) -> None:
    """Whether none is like what was chosen, or there is none at all."""
    assert "No row of the list is like this." in browser.get(
        "/lists/children?words=ada+ben").text
    assert "Nothing is on this list now." in browser.get(
        "/lists/lapse-due?day=18 March 2025").text
    assert "class=\"empty\"" not in browser.get("/lists/children").text


def test_a_fill_is_called_as_on_all_screens(office: Site, browser: Browser) -> None:
    """In the list of rounds and offers, whose files keep its name."""
    register = office.parts.desk.register()
    assert [it.text for it in on_screen.shown(["draw", "kind"], [2, "fill"], register)] == [
        "2", "offer from a waiting list"]
    assert listed(browser, "draws").rows[0][1] == "round"
    chosen = list_choice.Choice(state="fill", filled="met", order="plans", is_down=True)
    assert chosen.in_words() == [
        "state: offer from a waiting list", "with a value under Preference met",
        "by EHC plans, the greatest first"]


def test_rows_are_found_by_school_and_state(browser: Browser) -> None:
    """A state that is empty is called none. A school is also found in a list of schools."""
    assert names(listed(browser, "children", at="B")) == [CYD]
    assert names(listed(browser, "children", at="A", state="offered")) == [ADA, BEN]
    assert names(listed(browser, "children", at="A", state="none")) == []
    assert names(listed(browser, "children", state="none")) == [DAI, SUM]
    assert names(listed(browser, "children", state="second preference")) == [CYD]
    # (and by a column in which they have something)
    assert names(listed(browser, "children", filled="applied")) == [ADA, BEN, CYD, DAI]
    assert names(listed(browser, "children", filled="applied", state="none")) == [DAI]
    assert listed(browser, "children", 400, filled="x").errors == ["a column of the list"]
    assert names(listed(browser, "unplaced")) == [DAI, SUM]
    assert names(listed(browser, "unplaced", at="B")) == [DAI]
    assert names(listed(browser, "round-report", round="1", state="none")) == [DAI]
    # (the waiting lists by school: Cyd and Dai wait at A, and Dai at B)
    assert names(listed(browser, "list", school="A")) == [CYD, DAI]
    assert names(listed(browser, "list", at="B")) == [DAI]


def test_columns_and_order_are_chosen(browser: Browser) -> None:
    """Columns stay in the order of the list. What is empty comes last, up and down. Numbers are
    ordered as numbers.
    """
    found = listed(browser, "children", column=["school", "name"], order="school")
    assert found.heads == ["Name", "School"]
    assert found.rows == [[ADA, "A"], [BEN, "A"], [CYD, "B"], [DAI, ""], [SUM, ""]]
    down = listed(browser, "children", order="school", down="yes")
    assert names(down) == [CYD, ADA, BEN, DAI, SUM]
    assert names(listed(browser, "children", order="name", down="yes")) == [
        DAI, CYD, BEN, ADA, SUM]
    cells: Rows = [[2], [10], ["9.5"], [None], ["B"], ["a"]]
    assert tables.in_order(cells, lambda it: it[0], False) == [
        [2], ["9.5"], [10], ["a"], ["B"], [None]]


def test_one_child_and_a_name_have_lists_too(browser: Browser) -> None:
    """Dai waits at both schools; a name that nobody has is said."""
    assert [it[3:5] for it in listed(browser, "child", child="4").rows] == [["1", "A"], ["2", "B"]]
    assert names(listed(browser, "find", text="bell")) == [BEN]
    page = browser.get("/lists/find?text=zzzz")
    assert page.status_code == 400 and "No child has a name like &#34;zzzz&#34;." in page.text
    for wrong in ("77", "x", "1" * 30):
        assert listed(browser, "child", 400, child=wrong).errors == [
            "the number of a child of the register"]


@pytest.mark.parametrize("field, value, said", [
    ("at", "ZZ", list_choice.NO_SCHOOL), ("state", "lost", list_choice.NO_STATE),
    ("order", "age", list_choice.NO_COLUMN), ("column", "<b>", list_choice.NO_COLUMN),
])
def test_what_a_list_does_not_have_is_said_at_its_field(
    browser: Browser, field: str, value: str, said: str
) -> None:
    """And there is no file of it."""
    found = listed(browser, "children", 400, **{field: value})
    assert found.errors == [said] and not found.heads
    for kind in ("workbook", "csv"):
        assert browser.get(f"/lists/children/{kind}?{field}=%3Cx").status_code == 400
    assert browser.get("/lists/amend").status_code == browser.get("/lists/zz").status_code == 404


def test_the_files_have_what_is_chosen(browser: Browser) -> None:
    """A cell of the Excel file is a text or a number, never a formula; the CSV has what keeps a
    spreadsheet from taking it for one.
    """
    chosen = "state=none&order=name&down=yes&column=child&column=name"
    data = browser.get(f"/lists/children/workbook?{chosen}").data
    page = openpyxl.load_workbook(io.BytesIO(data)).active
    assert [[it.value for it in row] for row in page.iter_rows()] == [
        ["child", "name"], [4, DAI], [5, SUM]]
    assert {it.data_type for row in page.iter_rows() for it in row} == {"s", "n"}
    parts = zipfile.ZipFile(io.BytesIO(data))
    assert b"<f>" not in b"".join(parts.read(it) for it in parts.namelist())
    found = browser.get(f"/lists/children/csv?{chosen}")
    assert found.mimetype == "text/csv"
    assert found.headers["Content-Disposition"] == 'attachment; filename="children.csv"'
    assert list(csv.reader(io.StringIO(found.text.removeprefix("\ufeff")))) == [
        ["child", "name"], ["4", DAI], ["5", f"'{SUM}"]]


def test_a_class_is_in_words_beside_its_number(tmp_path: pathlib.Path) -> None:
    """On the screen and in the files, by the office's words for flags; rows and letters are found
    by these words too. One place, for a child that is looked after; three wait.
    """
    alpha = school("A", pan=1, criteria=["flag:7", "sibling"])
    extra: list[dict[str, Any]] = [
        {"looked_after": True}, {"flags": [7]}, {"siblings": ["A"]}, {}]
    children = [{**child(it, name, it * 100), **more}
                for it, (name, more) in enumerate(zip((ADA, BEN, CYD, DAI), extra), 1)]
    commands = [alpha, *children, *(apply(it, ["A"]) for it in range(1, 5)),
                {"cmd": "round", "draw": 1, "day": "2025-03-03", "lots": [1, 2, 3, 4]}]
    with office_over(tmp_path, commands) as office:
        flags.change(office.parts.store, "{}", {7: "medical need"}, lambda _: None)
        browser = office.browser("rita", "reader")
        found = listed(browser, "list")
        at = found.heads.index("Criterion no.")
        assert found.heads[at + 1] == "Criterion met"
        words = [["1", "medical need"],
                 ["2", "with a brother or sister at the school"],
                 ["3", "by distance (no criterion met)"]]
        assert [it[at:at + 2] for it in found.rows] == words
        text = browser.get("/lists/list/csv?words=medical").text.removeprefix("\ufeff")
        rows = list(csv.reader(io.StringIO(text)))
        assert [it[at:at + 2] for it in rows] == [["class", "criterion"], words[0]]
        for found in (listed(browser, "child", child="1"), listed(browser, "last-offered")):
            at = found.heads.index("Criterion no.")
            assert found.rows[0][at:at + 2] == ["0", "looked after, or previously looked after"]
        jane = office.browser("jane", "officer")
        page = jane.get(jane.get("/letters/from-list/list?words=medical").location)
        assert re.findall(r'name="child" value="([0-9]+)"', page.text) == ["2"]


def test_children_on_other_screens_have_the_files_of_their_list(
    office: Site, browser: Browser
) -> None:
    """Those who are found by a name, and those of whom a reminder is due on a day."""
    jane = office.browser("june", "officer")
    for who, path, wanted in ((browser, "/find?q=a", ["1", "4"]),
                              (jane, "/notices/remind?day=18+March+2025", ["1", "2", "3"])):
        page = who.get(path).text
        links = [it.replace("&amp;", "&")
                 for it in re.findall(r'href="(/lists/[^"]*/(?:workbook|csv)\?[^"]*)"', page)]
        assert [it.partition("?")[0].rpartition("/")[2] for it in links] == ["workbook", "csv"]
        rows = list(csv.reader(io.StringIO(who.get(links[1]).text.removeprefix("\ufeff"))))
        assert [it[0] for it in rows] == ["child", *wanted]
        book_of = openpyxl.load_workbook(io.BytesIO(who.get(links[0]).data)).active
        assert [str(it.value) for it in book_of["A"]] == ["child", *wanted]
    assert "/csv" not in browser.get("/find?q=zzzz").text


def test_a_long_list_has_pages(browser: Browser, monkeypatch: pytest.MonkeyPatch) -> None:
    """On paper all rows are on one."""
    monkeypatch.setattr(tables, "PAGE", 2)
    asked = {"1": [ADA, BEN], "2": [CYD, DAI], "3": [SUM], "99": [SUM], "x": [ADA, BEN],
             "": [ADA, BEN], "0": [ADA, BEN], "-1": [ADA, BEN], "1" * 30: [ADA, BEN],
             "all": [ADA, BEN, CYD, DAI, SUM]}
    for number, wanted in asked.items():
        assert names(listed(browser, "children", page=number)) == wanted, number
    page = browser.get("/lists/children?order=name&page=2").text
    assert 'href="/lists/children?page=3&amp;order=name"' in page
    assert 'href="/lists/children?page=all&amp;order=name"' in page


def test_pages_are_of_the_words_that_are_looked_for(
    tmp_path: pathlib.Path, monkeypatch: pytest.MonkeyPatch
) -> None:
    """Whatever they are: families have this name too."""
    monkeypatch.setattr(tables, "PAGE", 2)
    families = [child(it, f"{name} Page", it) for it, name in enumerate(("Ann", "Bo", "Cy"), 1)]
    with office_over(tmp_path, families) as office:
        found = office.browser("jane").get("/lists/children?words=PAGE")
    assert found.status_code == 200
    assert [it for it in Page(found.text).stops if "page=2" in it and "words=PAGE" in it]


def test_paper_says_what_it_is(browser: Browser) -> None:
    """The title, what was chosen, the authority, the register and the day, in a row that each
    sheet repeats.
    """
    paper = listed(browser, "children", at="A", words="bell").paper
    assert paper.startswith("All children, with “bell”, at A")
    assert 'Tŷ "Ddewi" Council, secondary-2025, as of ' in paper and "1 of 5 rows" in paper


def test_a_person_saves_a_view(office: Site, browser: Browser) -> None:
    """By a name, of whatever characters; nobody else sees it. A second one of the same name
    replaces it.
    """
    title, query = "Mine <script> & =1+1", "order=name&at=A&junk=1&form=x"
    form = {"title": title, "query": query}
    assert browser.post("/lists/children/save", form).status_code == 303
    form["query"] = "at=B&words=Cyd"
    assert browser.post("/lists/children/save", form).status_code == 303
    page = browser.get("/lists/").text
    assert "Mine &lt;script&gt; &amp; =1+1" in page
    assert 'href="/lists/children?words=Cyd&amp;at=B"' in page and "at=A" not in page
    assert names(listed(browser, "children", at="B", words="Cyd")) == [CYD]
    other = office.browser("otto", "officer")
    assert "Mine" not in other.get("/lists/").text
    number = office.parts.store.rows("SELECT number FROM list_view")[0][0]
    assert other.post(f"/lists/views/{number}/remove").status_code == 409
    assert browser.post(f"/lists/views/{number}/remove").status_code == 303
    assert "Saved views" not in browser.get("/lists/").text
    assert [it.about["view"] for it in office.parts.history.entries
            if it.what in ("saved a view", "removed a view")] == [title] * 3


@pytest.mark.parametrize("title", ["", "  ", "a\x00b", "\u202eabc", "x" * 81])
def test_a_view_needs_a_name_that_can_be_read(browser: Browser, title: str) -> None:
    """What was chosen and typed is on the page."""
    found = browser.post("/lists/children/save", {"title": title, "query": "at=B"})
    assert found.status_code == 422 and "A name has 1 to 80 characters" in found.text
    assert Table(found.text).rows == [
        ["3", CYD, "31 October 2024", "B", "offered", "second preference"]]
    assert "Saved views" not in browser.get("/lists/").text


def test_a_name_in_the_form_of_a_day_is_no_error_of_a_workbook() -> None:
    """A day is a day; what is none, or none that the register takes, is a text."""
    rows: Rows = [["name"], ["2025-03-03"], ["2025-02-30"], ["0000-00-00"]]
    data = book.data([book.Page("children", "all", rows)], "All")
    cells = [it.value for it in openpyxl.load_workbook(io.BytesIO(data)).active["A"]]
    assert cells == ["name", datetime.datetime(2025, 3, 3), "2025-02-30", "0000-00-00"]


def test_a_workbook_has_one_border_for_all_its_cells(monkeypatch: pytest.MonkeyPatch) -> None:
    """A list of 20,000 rows is made while others wait: its cells share their style, and each has
    its lines, its form of a day, or the mark of a text that a spreadsheet would run.
    """
    made = mock.Mock(side_effect=openpyxl.styles.Border)
    monkeypatch.setattr(openpyxl.styles, "Border", made)
    rows: Rows = [["name", "day"], ["=1+1", "2025-03-03"]]
    rows += [["Bo", None] for _ in range(500)]
    page = openpyxl.load_workbook(io.BytesIO(
        book.data([book.Page("children", "all", rows)], "All"))).active
    assert made.call_count == 1
    for cell in (it for row in page.iter_rows() for it in row):
        assert [getattr(cell.border, it).style for it in ("left", "right", "bottom")] == (
            ["thin"] * 3), cell.coordinate
    assert page["A2"].quotePrefix and not page["A3"].quotePrefix
    assert page["B2"].number_format == "yyyy-mm-dd" and page["A1"].font.b
    assert (page["A2"].font.name, page["A2"].font.sz, page["A2"].font.b) == ("Calibri", 11, False)


def test_words_are_those_of_the_command(browser: Browser) -> None:
    """An empty filter is none: the words of a name in any order."""
    assert texts.folded("Abel, Ada") == "abel ada"
    assert names(listed(browser, "children", words="Abel, Ada")) == [ADA]
    assert len(names(listed(browser, "children", words=" "))) == 5


def piled(office: Site, who: str) -> list[tuple[Any, ...]]:
    """What is in the batch of somebody."""
    rows = office.parts.store.rows(
        "SELECT child, school, kind, trouble FROM answer WHERE person=? ORDER BY number", who)
    return [tuple(it) for it in rows]


def test_children_of_a_list_are_put_into_a_pile(office: Site) -> None:
    """Each without an answer, which is given there: to its offer, or about the list where it waits.
    Only an answer that can be one of it is taken.
    """
    june, yet = office.browser("june", "officer"), "no answer yet"
    for name, row in (("no-answer", "3 B"), ("list", "4 A"), ("unplaced", "4")):
        page = Page(june.get(f"/lists/{name}").text)
        found = press(june, f"/lists/{name}", page, "Put into my batch of answers", row=[row])
        assert (found.status_code, found.location) == (303, "/answers/")
    # (what is there already is not put there again)
    assert piled(office, "june") == [(3, "B", "", yet), (4, "A", "", yet), (4, "B", "", yet)]
    buttons = Page(june.get("/answers/").text).buttons()
    assert "Record" not in " ".join(buttons)
    assert {"3: accept", "3: decline", "4: leave the list at A"} <= set(buttons)
    for at, answer in ((0, "leave_list"), (0, "accept"), (1, "accept"), (1, "leave_list")):
        number = office.parts.store.rows("SELECT number FROM answer ORDER BY number")[at][0]
        june.post("/answers/choose", {"number": str(number), "answer": answer})
    assert piled(office, "june")[:2] == [(3, "B", "accept", ""), (4, "A", "leave_list", "")]


def test_letters_go_to_those_that_are_ticked(office: Site, browser: Browser) -> None:
    """Who reads alone can look at whom, and has no pile. What is not on the list any more is asked
    for again.
    """
    page = Page(browser.get("/lists/no-answer?order=name&tick=all").text)
    form = page.form("Letters to those ticked")
    assert form.values["row"] == ["1 A", "2 A", "3 B"]
    assert "Put into my batch of answers" not in form.buttons
    path, given = "/lists/no-answer/ticked", {"query": "", "to": "letters"}
    found = browser.post(path, {**given, "row": ["1 A", "3 B"]})
    assert found.location == "/letters/whom?whom=children&value=1,3"
    for rows, said in (([], "Nothing is ticked."), (["1 A", "4 A"], "The list has changed"),
                       (["1 B"], "The list has changed")):
        refused = browser.post(path, {**given, "row": rows})
        assert refused.status_code == 409 and said in Page(refused.text).said()
    assert browser.post(path, {"query": "", "to": "batch", "row": "1 A"}).status_code == 403
    assert browser.post("/lists/children/ticked", given).status_code == 404
    june = office.browser("june", "officer")
    found = june.post("/lists/unplaced/ticked", {"query": "", "to": "batch", "row": "5"})
    assert found.status_code == 409 and "none of those ticked has an offer" in found.text


def test_a_list_says_its_moment(browser: Browser) -> None:
    """In its caption: the counts are of that minute."""
    assert re.search(r"All children: 5 rows, as of [0-2][0-9]:[0-5][0-9]",
                     browser.get("/lists/children").text)
