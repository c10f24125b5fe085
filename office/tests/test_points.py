"""Homes to locate in the application: looked up for files, forms and corrections; what was found,
what was not and what differs; and where each point came from, before and after it is stored.
"""
import dataclasses
from collections.abc import Iterator
from unittest import mock

import gazetteers
import pytest
from applications import Browser, Site, office_over
from conftest import apply, child, school
from gazetteers import csv_of
from pages import Page, history, press
from staged import Cells, Screens, workbook

from office.web.applications import points
from office.web.applications.gazetteer import Found, Lookup
from office.web.applications.points import Point
from office.web.applications.row_points import SETTING, Keys, looked_up, typed_point
from office.web.applications.rows import OPEN, Staged
from office.web.applications.tools import Tools

TOWN = [{**school("OAK", east=430100), "north": 210200},
        {**child(7, name="Old Hand", east=430000), "north": 210000}, apply(7, ["OAK"])]
# the middle of AB1 2CD is 430005, 210010
GAZETTEER = csv_of(
    "UPRN,POSTCODE,EASTING,NORTHING", "100023336956,AB1 2CD,430000,210000",
    "100023336957,AB1 2CD,430010,210020", "200000000001,AB3 4EF,431000,211000",
    "300000000001,AB5 6GH,432000,210000")
HEAD = "child,name,east,north,looked_after,flags,siblings,day,preferences,UPRN,Home postcode"
PATH = "/applications/points/"


@pytest.fixture(scope="module", name="whole")
def whole_fixture(tmp_path_factory: pytest.TempPathFactory) -> Iterator[tuple[Site, Browser]]:
    """The application over a register with a school and a child, with a gazetteer, and the browser
    of an officer. Each test has numbers of children of its own.
    """
    with office_over(tmp_path_factory.mktemp("town"), TOWN) as found:
        jane = found.browser("jane")
        assert gazetteers.read_in(jane, GAZETTEER, name="Town").status_code == 303
        yield found, jane


@pytest.fixture(name="office")
def office_fixture(whole: tuple[Site, Browser]) -> Site:
    """The same with an empty table, whose columns nobody has chosen."""
    with whole[0].parts.store.writing() as db:
        db.execute("DELETE FROM staged_row")
        db.execute("DELETE FROM staged_file")
    tools: Tools = whole[0].app.extensions["staging"]
    # (the numbers of rows that were removed are given again)
    tools.staging.read.clear()
    tools.checker.known.clear()
    whole[0].parts.store.set(SETTING, "{}")
    return whole[0]


@pytest.fixture(name="jane")
def jane_fixture(office: Site, whole: tuple[Site, Browser]) -> Browser:
    """The browser of an officer, once the table is empty."""
    assert not staged(office)
    return whole[1]


def row(number: int, name: str, east: str = "", north: str = "", uprn: str = "",
        code: str = "") -> str:
    """A row of a file of applications."""
    return f"{number},{name},{east},{north},no,,,2024-10-01,OAK,{uprn},{code}"


def staged(office: Site) -> dict[str, Staged]:
    """The rows of the table by the names of the children."""
    tools: Tools = office.app.extensions["staging"]
    return {it.cells["name"]: it for it in tools.staging.rows(OPEN)}


def at(office: Site, name: str) -> tuple[str, str, str]:
    """The point of a row, and where it came from."""
    found = staged(office)[name]
    return found.cells["east"], found.cells["north"], found.point_words


def day(office: Site) -> str:
    """The day of the gazetteer in words."""
    tools: Tools = office.app.extensions["staging"]
    return points.day_in_words(tools.points.gazetteer.summaries()[0].day)


def to_see(browser: Browser) -> dict[str, str]:
    """What is to be seen to of each row, by the name of the child."""
    table = Page(browser.get(PATH).text).tables.get("Rows to check", [])
    return {it[0].rpartition(" row ")[0] or it[0]: it[1] for it in table[1:]}


def do(browser: Browser, found: Staged, what: str, **given: str) -> Page:
    """What is done about the point of a row, and the page after it."""
    given = {"version": str(found.version), "what": what, **given}
    answer = browser.post(f"{PATH}row/{found.id}", given)
    if answer.status_code == 303:
        answer = browser.get(answer.location)
    return Page(answer.text)


def test_a_home_that_is_only_written_wrong_is_corrected_at_its_cell(
        office: Site, jane: Browser) -> None:
    """And is none of those to locate: as many are counted as have no point."""
    screens = Screens(jane)
    rows = [row(201, "Hal", '"430,100"', "210200"), row(202, "Ivy", "430100.4", "210200"),
            row(203, "Jo", "430100"), row(204, "Kim", "east", "210200")]
    assert screens.add(("a.csv", csv_of(HEAD, *rows))).status_code == 303
    assert len(staged(office)) == 4 and to_see(jane).keys() == {"Jo", "Kim"}
    assert "Homes to locate (2)" in screens.see().text
    assert "2 homes to locate, of 4 rows" in Page(jane.get(PATH).text).by_id["counts"]


def test_rows_get_their_points_which_are_stored_with_their_sources(
        office: Site, jane: Browser) -> None:
    """By the property number first, else by the postcode, of columns that are chosen once. A point
    that is there stays. The register has the points, and each child's page says whence.
    """
    screens, of_day = Screens(jane), f"gazetteer of {day(office)}"
    rows = [row(101, "Ada", uprn="100023336957", code="AB3 4EF"),
            row(102, "Ben", uprn="999", code="ab1 2cd"), row(103, "Cleo", code="AB9 9ZZ"),
            row(104, "Dov", "430001", "210001", uprn="100023336956"),
            row(105, "Eve", "430300", "210400", uprn="100023336956"),
            row(106, "Finn", uprn="000200000000001.0")]
    assert screens.add(("a.csv", csv_of(HEAD, *rows))).status_code == 303
    # (of the property numbers the name is a usual one, and of the postcodes it is not)
    assert at(office, "Ada") == ("430010", "210020",
                                 f"from property number 100023336957, {of_day}")
    assert at(office, "Ben")[:2] == ("", "")
    page = Page(jane.get(PATH).text)
    assert page.form("Look up the points of 6 rows").values["property-column"] == ["UPRN"]
    found = press(jane, PATH, page, "Look up the points of 6 rows",
                  **{"postcode-column": "Home postcode"})
    page = Page(jane.get(found.location).text)
    assert page.said() == ("Looked up: 0 points by property number, 1 by postcode, approximate,"
                           " 1 not found; 1 row to be asked about.")
    assert at(office, "Ben") == ("430005", "210010",
                                 f"from postcode AB1 2CD, approximate, {of_day}")
    assert at(office, "Dov") == ("430001", "210001", "from a.csv")
    assert at(office, "Finn")[:2] == ("431000", "211000")
    seen = to_see(jane)
    assert seen.keys() == {"Ben", "Cleo", "Eve"}
    assert "approximate: postcode AB1 2CD" in seen["Ben"]
    assert f"postcode AB9 9ZZ is not in the {of_day}" in seen["Cleo"]
    assert "is it right? property number 100023336956" in seen["Eve"]
    assert "is at 430000, 210000, 500 metres away" in seen["Eve"]
    assert at(office, "Eve") == ("430300", "210400", "from a.csv")
    table = screens.see()
    assert "Homes to locate (3)" in table.text
    assert table.said(table.row("row 6 of a.csv"), "east") == "The gazetteer has another point."
    assert f"Point from property number 100023336957, {of_day}" in " ".join(table.text.split())
    page = do(jane, staged(office)["Cleo"], "look", property="", postcode="ab3 4ef")
    assert page.said().startswith("row 4 of a.csv: the point is 431000, 211000, from postcode AB3")
    assert screens.store().status_code == 303
    children = office.parts.desk.now().children
    assert {it: (children[it].east, children[it].north) for it in range(101, 107)} == {
        101: (430010, 210020), 102: (430005, 210010), 103: (431000, 211000),
        104: (430001, 210001), 105: (430300, 210400), 106: (431000, 211000)}
    page = Page(jane.get("/children/101").text)
    whence = f"from property number 100023336957, {of_day}"
    assert page.by_id["point"] == f"The point of the home is {whence}."
    assert history(page.text)[0][2].endswith(f"; home: {whence}")
    sent = next(it for it in office.parts.history.entries if "import" in it.about)
    assert sent.about["points"]["105"] == "from a.csv" and len(sent.about["points"]) == 6
    assert Page(jane.get("/children/7").text).by_id.get("point") is None


def test_each_row_is_decided_by_what_is_typed_taken_or_kept(office: Site, jane: Browser) -> None:
    """What is done is in the history before. A row that was changed meanwhile is not touched."""
    mark = len(office.parts.history.entries)
    rows = [row(111, "Ada", "210000", "430000", "100023336956"),
            row(112, "Ben", "430000", "210051", "100023336956"),
            row(113, "Cleo", "430000", "210050", "100023336956"), row(114, "Dov", uprn="5"),
            row(115, "Eve", "0", "0"), row(116, "Finn", "51.7889", "-1.5491"),
            row(117, "Gus", "430000", "", "100023336956")]
    Screens(jane).add(("a.csv", csv_of(HEAD, *rows)))
    seen = to_see(jane)
    assert ("Type a property number (UPRN) or a postcode, and press"
            " ‘Look up’. Or type the point of the home") in jane.get(PATH).text
    assert seen.keys() == {"Ada", "Ben", "Dov", "Eve", "Finn", "Gus"}
    assert "are east and north swapped? property number 100023336956" in seen["Ada"]
    assert "51 metres away" in seen["Ben"] and "0, 0 is in the sea" in seen["Eve"]
    east, north = gazetteers.of_wgs84(51.7889, -1.5491)
    assert f"on the grid that is {round(east)}, {round(north)}, within 5 metres" in seen["Finn"]
    assert "no point can be read" in seen["Gus"]
    do(jane, staged(office)["Ada"], "take")
    assert at(office, "Ada")[:2] == ("430000", "210000") and "from property" in at(office, "Ada")[2]
    do(jane, staged(office)["Ben"], "keep")
    assert at(office, "Ben") == ("430000", "210051", "from a.csv")
    page = do(jane, staged(office)["Dov"], "look", property="6", postcode="")
    assert "row 5 of a.csv: property number 6 is not in the gazetteer" in page.said()
    before = staged(office)["Dov"]
    page = do(jane, before, "save", east="430007", north="210007")
    assert page.said() == "row 5 of a.csv: the point is 430007, 210007, typed."
    page = do(jane, before, "save", east="1", north="2")
    assert "was changed meanwhile, by jane" in page.said()
    assert 'name="east" value="1"' in page.text, "what was typed is kept"
    assert at(office, "Dov") == ("430007", "210007", "typed")
    assert to_see(jane).keys() == {"Eve", "Finn", "Gus"}
    page = Page(jane.get(PATH).text)
    press(jane, PATH, page, "Look up the points of 7 rows")
    assert to_see(jane).keys() == {"Eve", "Finn", "Gus"}, "what was decided stays"
    entry = office.parts.history.entries[mark:]
    assert [(it.what, it.who) for it in entry if "point" in it.what
            ][1:] == [
        ("took the gazetteer's point", "jane"), ("kept a point", "jane"),
        ("looked up a point", "jane"), ("typed a point", "jane")]
    kept = next(it.about for it in entry if it.what == "took the gazetteer's point")
    assert kept["east"] == '"210000" to "430000"' and kept["number"] == "111"
    screens = Screens(jane)
    screens.save(staged(office)["Gus"].id, north="210000")
    assert at(office, "Gus") == ("430000", "210000", "typed")
    rita = office.browser("rita", "reader")
    assert rita.get(PATH).status_code == 403
    assert rita.post(f"{PATH}look", {}).status_code == 403


def test_a_point_that_is_emptied_is_looked_up_by_what_is_typed(office: Site, jane: Browser) -> None:
    """As for a family that moves: its row then has the point of the new property number, also where
    all rows are looked up once more by the column of the file.
    """
    screens = Screens(jane)
    data = csv_of(HEAD, row(131, "Mo", uprn="100023336956"))
    assert screens.add(("a.csv", data)).status_code == 303
    assert at(office, "Mo")[:2] == ("430000", "210000")
    assert not to_see(jane)
    assert screens.save(staged(office)["Mo"].id, east="", north="").status_code == 303
    assert to_see(jane).keys() == {"Mo"}
    page = do(jane, staged(office)["Mo"], "look", property="200000000001", postcode="")
    assert page.by_id["ready"] == "All rows are ready" and "/applications/commit/" in page.text
    moved = ("431000", "211000",
             f"from property number 200000000001, gazetteer of {day(office)}")
    assert at(office, "Mo") == moved
    press(jane, PATH, Page(jane.get(PATH).text), "Look up the points of 1 row")
    assert at(office, "Mo") == moved
    assert not to_see(jane)


def test_a_workbook_without_points_is_filled(office: Site, jane: Browser) -> None:
    """It has no columns east and north. Property numbers are numbers of a spreadsheet, one of which
    was shortened; the columns that were chosen are those of the next file.
    """
    head = [it for it in HEAD.split(",") if it not in ("east", "north")]
    head[-2:] = ["Ref of home", "PC"]

    def cells(number: int, name: str, uprn: object, code: str) -> list[object]:
        return [number, name, "no", None, None, "2024-10-01", "OAK", uprn, code]

    rows = [cells(121, "Ada", 100023336956.0, ""), cells(122, "Ben", "1.00023E+11", ""),
            cells(123, "Cleo", "0100023336957", ""), cells(124, "Dov", None, "AB34EF"),
            cells(125, "Eve", None, "<b>")]
    Screens(jane).add(("a.xlsx", workbook(rows, head)))
    page = Page(jane.get(PATH).text)
    press(jane, PATH, page, "Look up the points of 5 rows",
          **{"property-column": "Ref of home", "postcode-column": "PC"})
    assert at(office, "Ada")[:2] == ("430000", "210000")
    assert at(office, "Cleo")[:2] == ("430010", "210020")
    assert at(office, "Dov")[:2] == ("431000", "211000")
    seen = to_see(jane)
    assert "a spreadsheet has shortened it" in seen["Ben"]
    assert 'postcode "<b>": write it as SW1A 1AA' in seen["Eve"]
    assert "<b>" not in jane.get(PATH).text
    Screens(jane).add(("b.xlsx", workbook([cells(126, "Finn", 300000000001, "")], head)))
    assert at(office, "Finn")[:2] == ("432000", "210000"), "without another choice"


def test_a_child_that_is_typed_or_moves_is_looked_up(office: Site, jane: Browser) -> None:
    """The form of a new child, and the correction of one in the register."""
    of_day = f"gazetteer of {day(office)}"
    typed: Cells = {"name": "Zoe", "looked_after": "no", "day": "1/10/2024", "preference-1": "OAK",
                    "property_number": "200000000001", "child": "201"}
    jane.get("/applications/add/")
    page = Page(jane.post("/applications/add/", {**typed, "what": "look"}).text)
    assert page.fields["east"]["value"] == "431000" and page.fields["north"]["value"] == "211000"
    assert page.by_id["point"] == (
        f"the point 431000, 211000 is from property number 200000000001, {of_day}")
    assert not staged(office) and page.fields["name"]["value"] == "Zoe"
    assert jane.post("/applications/add/", typed).status_code == 303
    assert at(office, "Zoe") == (
        "431000", "211000", f"from property number 200000000001, {of_day}")
    jane.post("/applications/add/", {**typed, "name": "Yan", "child": "202", "east": "431000",
                                     "north": "212001", "property_number": "",
                                     "postcode": "AB3 4EF"})
    assert at(office, "Yan") == ("431000", "212001", "typed")
    assert "1,001 metres away" in to_see(jane)["Yan form 2"]
    refused = Page(jane.post("/applications/add/", {**typed, "child": "203", "name": "Xia",
                                                    "property_number": "4"}).text)
    assert "property number 4 is not in the" in refused.by_id["point"]
    page = Page(jane.get("/children/7/correct").text)
    found = press(jane, "/children/7/correct", page, "Look up the point",
                  property_number="300000000001")
    page = Page(found.text)
    assert page.fields["east"]["value"] == "432000"
    page = Page(press(jane, "/children/7/correct", page, "Compare with the register").text)
    whence = f"from property number 300000000001, {of_day}"
    assert page.by_id["point"] == f"The new point is {whence}."
    found = press(jane, "/children/7/correct", page, "Correct the details of Old Hand")
    assert found.status_code == 303
    moved = office.parts.desk.now().children[7]
    assert (moved.east, moved.north) == (432000, 210000)
    page = Page(jane.get("/children/7").text)
    assert page.by_id["point"] == f"The point of the home is {whence}."
    assert history(page.text)[0][2].endswith(f"; Home: {whence}")
    page = Page(jane.get("/children/7/correct").text)
    page = Page(press(jane, "/children/7/correct", page, "Compare with the register",
                      east="432001").text)
    assert page.by_id["point"] == "The new point is typed."
    press(jane, "/children/7/correct", page, "Correct the details of Old Hand")
    assert Page(jane.get("/children/7").text).by_id["point"] == "The point of the home is typed."


def test_a_point_is_kept_as_it_was_in_the_store() -> None:
    """All that is known of it."""
    made = Point("gazetteer", "postcode", "AB1 2CD", "2026-03-03", (1, 2), ("a", "b"), True)
    assert points.unpacked(made.packed()) == made and points.unpacked("") == Point()
    assert made.words == "from postcode AB1 2CD, approximate, gazetteer of 3 March 2026"


CELLS = {"east": "430000", "north": "210000"}
DAY = "2025-03-01"


@pytest.mark.parametrize("by, far", [(points.PROPERTY, 50), (points.POSTCODE, 1000)])
def test_a_point_that_differs_is_asked_about_from_some_metres_on(by: str, far: int) -> None:
    """A postcode is the middle of several homes."""
    near = Point(points.FILE, by, "1", DAY, (430000 + far, 210000))
    more = dataclasses.replace(near, at=(430001 + far, 210000))
    swapped = dataclasses.replace(near, at=(210000, 430000 - far))
    assert points.question(near, CELLS) == ""
    assert points.question(more, CELLS).startswith("is it right?")
    assert points.question(swapped, CELLS).startswith("are east and north swapped?")
    assert points.question(dataclasses.replace(more, is_kept=True), CELLS) == ""


def test_what_is_to_be_looked_at_of_a_point() -> None:
    """The middle of a postcode until somebody has kept it; and 0, 0, which is in the sea."""
    found = Point(points.GAZETTEER, points.POSTCODE, "AB1 2CD", DAY, (430000, 210000))
    assert [it[:12] for it in points.findings(found, CELLS)] == ["approximate:"]
    assert not list(points.findings(dataclasses.replace(found, is_kept=True), CELLS))
    assert list(points.findings(Point(), {"east": "0", "north": "0"})) == [
        "the point 0, 0 is in the sea: is it missing?"]
    assert points.has_any({"east": "1", "north": " "})
    typed = points.after(Point(), CELLS, {"east": "1"})
    assert (typed.source, typed.is_kept) == (points.TYPED, True)
    assert points.after(Point(), CELLS, CELLS) == Point()


def test_the_ends_of_numbers_and_places() -> None:
    """Halves of metres go up; a property number has one to twelve figures, and is none of zeros;
    swapped is what is far from the schools, and near them the other way round.
    """
    assert points.whole(0.5, 2.5) == (1, 3)
    assert "AB12CD" in points.postcodes_of("ABL 2CD")
    for text, is_one in (("0", False), ("1", True), ("9" * 12, True), ("1" + "0" * 12, False)):
        assert (not points.property_of(text).expected) == is_one, text
    middle = (430000, 210000)
    assert points.is_swapped((210000, 430000), middle)
    # (100 km from the schools and no more; and 50 km from them the other way round)
    assert not points.is_swapped((330000, 210000), middle)
    assert not points.is_swapped((329000, 210000), middle)
    assert not points.is_swapped((210000, 480000), middle)
    assert points.is_swapped((210000, 479999), middle)


def test_a_point_that_is_there_stays_unless_another_is_asked_for() -> None:
    """And so does what somebody has decided, as long as the gazetteer says the same."""
    keys, other = Keys("7"), {"east": "1", "north": "2"}
    lookup = mock.create_autospec(Lookup, instance=True)
    lookup.find.return_value = Found(points.PROPERTY, "7", DAY, (430000, 210000)), []
    cells, point = looked_up(other, keys, lookup, Point())
    assert cells == other and point == Point(
        points.FILE, points.PROPERTY, "7", DAY, (430000, 210000))
    decided = dataclasses.replace(point, is_kept=True)
    assert looked_up(other, keys, lookup, decided)[1] == decided
    assert not looked_up(other, keys, lookup, dataclasses.replace(decided, at=(1, 1)))[1].is_kept
    cells, point = looked_up(other, keys, lookup, Point(), True)
    assert cells == CELLS and point.source == points.GAZETTEER
    assert typed_point(CELLS, keys, lookup)[1].source == points.GAZETTEER
    assert typed_point(other, keys, lookup)[1].source == points.TYPED
    lookup.find.return_value = Found(points.PROPERTY, "7", DAY, (430001, 210000)), []
    assert looked_up(cells, keys, lookup, point) == (cells, point)
