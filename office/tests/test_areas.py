"""Catchment areas: a file that an officer adds, what is wrong in it, what it changes, and the
schools that rows of Applications and corrections of children get by it.
"""
import hashlib
import io
import json
import pathlib
from collections.abc import Iterator
from typing import Any

import pytest
from applications import Answer, Browser, Site, child, office_over
from conftest import HEADER
from gazetteers import of_wgs84
from pages import Page, press
from staged import Screens, csv_of

from office.web.letters.fields import Writer

PATH = "/schools/areas/"
AT = (530_000, 180_000)
Given = dict[str, Any]
Ring = list[list[Any]]


def school(code: str, name: str, east: int, criteria: list[str]) -> Given:
    """A school to the east of the first one."""
    return {"cmd": "add_school", "school": code, "name": name, "pan": 2, "east": AT[0] + east,
            "north": AT[1], "criteria": criteria}


SCHOOLS = [school("OAK", "Oak School", 0, ["catchment"]), school("ELM", "Elm School", 3000, []),
           school("ASH", "Ash School", 6000, ["sibling", "catchment"])]


def box(west: int, south: int, east: int, north: int) -> Ring:
    """The ring of a rectangle, in metres from the first school."""
    corners = [(west, south), (east, south), (east, north), (west, north), (west, south)]
    return [[AT[0] + x, AT[1] + y] for x, y in corners]


def area(name: object, *rings: Ring, **more: Any) -> Given:
    """A feature of one polygon."""
    return {"type": "Feature", "properties": {"school": name, **more},
            "geometry": {"type": "Polygon", "coordinates": list(rings)}}


def file_of(*features: Given, crs: str | None = "urn:ogc:def:crs:EPSG::27700",
            **more: Any) -> bytes:
    """A file of these features, in metres."""
    grid = {"crs": {"type": "name", "properties": {"name": crs}}} if crs else {}
    return json.dumps({"type": "FeatureCollection", "features": features, **grid, **more}).encode()


# Oak has a hole in its area, and another area; Elm's overlaps Oak's
TOWN = file_of(
    area("OAK", box(-1000, -1000, 1000, 1000), box(-100, -100, 100, 100)),
    area("Oak School", box(5000, -500, 5500, 500)),
    area("ELM", box(500, -1000, 4000, 1000)))


@pytest.fixture(name="office")
def office_fixture(tmp_path: pathlib.Path) -> Iterator[Site]:
    """The application over a large register with three schools."""
    with office_over(tmp_path, SCHOOLS, is_large=True) as found:
        yield found


def add(browser: Browser, data: bytes, name: str = "town.geojson") -> Answer:
    """A file that is sent."""
    browser.get(PATH)
    return browser.post(f"{PATH}file", {"file": (io.BytesIO(data), name)},
                        content_type="multipart/form-data")


def confirm(browser: Browser, words: str = "Use town.geojson") -> Page:
    """A file that waits is confirmed."""
    done = press(browser, PATH, Page(browser.get(PATH).text), words)
    assert done.status_code == 303, done.text
    return Page(browser.get(done.location).text)


def use(browser: Browser, data: bytes, name: str = "town.geojson") -> Page:
    """A file that is sent and confirmed, where none is in use."""
    assert add(browser, data, name).status_code == 303
    return confirm(browser, f"Use {name}")


def wrong_in(page: Page) -> list[list[str]]:
    """The features in which something is wrong."""
    return next((rows[1:] for name, rows in page.tables.items() if "cannot be used" in name), [])


def schools_in(page: Page) -> list[list[str]]:
    """The schools with their areas."""
    return next((rows[1:] for name, rows in page.tables.items() if rows[0][:1] == ["School"]
                 and "km²" in rows[0]), [])


def test_a_file_is_shown_before_it_is_used(office: Site) -> None:
    """Each school with the number of its areas and their size, and a map; then it is confirmed."""
    jane = office.browser("jane")
    assert "No areas are in use." in jane.get(PATH).text
    assert add(jane, TOWN).status_code == 303
    page = Page(jane.get(PATH).text)
    assert schools_in(page) == [
        ["ASH", "Ash School", "0", "0.00", "it has the criterion, and no area"],
        ["ELM", "Elm School", "1", "7.00", "its criteria use no area"],
        ["OAK", "Oak School", "2", "4.46", ""]]
    # (one of them is in what the colours mean)
    assert not wrong_in(page) and page.text.count('class="area"') == 4
    assert office.parts.areas.used is None
    page = confirm(jane)
    assert page.said() == "The areas are in use." and "Confirmed" in page.text
    assert hashlib.sha256(TOWN).hexdigest() in page.text and page.text.count('class="area"') == 4
    [rows] = Page(jane.get("/activity/?who=jane").text).tables.values()
    assert [it[1:3] for it in rows[1:3]] == [
        ["jane", "Put the catchment areas town.geojson in use Schools: 2; Areas: 3;"
         " Property: school"],
        ["jane", "Sent the catchment areas town.geojson Areas: 3"]]


def test_a_reader_sees_what_is_in_use_alone(office: Site) -> None:
    """And changes nothing."""
    jane, rita = office.browser("jane"), office.browser("rita", "reader")
    add(jane, TOWN)
    assert "town.geojson" not in rita.get(PATH).text
    confirm(jane)
    found = rita.get(PATH).text
    assert "town.geojson" in found and "Add the file" not in found
    assert add(rita, TOWN).status_code == 403


def test_a_standard_register_has_no_areas(tmp_path: pathlib.Path) -> None:
    """No screen, and nothing in the menu."""
    with office_over(tmp_path, []) as office:
        jane = office.browser("jane")
        assert "Catchment areas" not in jane.get("/schools/").text
        assert jane.get(PATH).status_code == 404
        assert add(jane, TOWN).status_code == 404
        assert office.parts.store.row("SELECT * FROM area_file") is None


def test_the_menu_of_a_large_register_has_them(office: Site) -> None:
    """In the group of schools."""
    assert f'<a href="{PATH}">Catchment areas</a>' in office.browser("jane").get("/schools/").text


BOW = [[AT[0] + x, AT[1] + y] for x, y in ((0, 0), (100, 100), (100, 0), (0, 100), (0, 0))]
WRONG: list[tuple[Given, str]] = [
    (area("OAK", box(0, 0, 100, 100)[:-1]), "a ring is not closed"),
    (area("OAK", BOW), "it crosses itself"),
    (area("OAK", [[1, 1], [1, -5], [9, 9], [1, 1]]), "it is outside of the map"),
    (area("OAK", [[1, 1], [2, 2], [1, 1]]), "a ring has too few points"),
    (area("OAK", box(0, 0, 10, 10), box(50, 50, 60, 60)), "its rings do not fit together"),
    (area("OAK", [["1", "2"]]), "its points cannot be read"),
    (area("OAK"), "it has no ring"),
    ({"type": "Feature", "properties": {"school": "OAK"}, "geometry": None}, "it is no polygon"),
    ({"type": "Feature", "properties": {"school": "OAK"}, "geometry": {
        "type": "Point", "coordinates": [1, 1]}}, "it is no polygon"),
    ({"type": "Feature", "properties": {"school": "OAK"}, "geometry": {
        "type": "MultiPolygon",
        "coordinates": [[box(0, 0, 10, 10)], [box(5, 5, 15, 15)]]}}, "its parts overlap"),
]


def test_what_is_wrong_with_each_area_is_said(office: Site) -> None:
    """In at most eight words; and nothing of a school of the register is used before it is right.
    """
    jane = office.browser("jane")
    add(jane, file_of(*(it for it, _ in WRONG), area("ELM", box(0, 0, 100, 100)),
                      area("YEW", box(0, 0, 100, 100)), area(None, box(0, 0, 100, 100))))
    page = Page(jane.get(PATH).text)
    assert wrong_in(page) == [
        *([str(at), "OAK", said] for at, (_, said) in enumerate(WRONG, 1)),
        ["12", "YEW", "no such school"], ["13", "", "no school is named"]]
    assert all(len(row[2].split()) <= 8 for row in wrong_in(page))
    assert "10 of its areas must be corrected in the file first." in page.text
    assert "Use town.geojson" not in page.buttons()
    # (nor by a form that was made otherwise)
    form = page.form("Remove town.geojson without using it")
    sent = jane.post(f"{PATH}use", {"file": form.values["file"][0], "seen": ""})
    assert sent.status_code == 409 and office.parts.areas.used is None
    press(jane, PATH, page, "Remove town.geojson without using it")
    assert office.parts.areas.waiting is None


def test_areas_of_other_schools_are_left_out(office: Site) -> None:
    """Which an authority's file may have; a file without any school of the register is not used."""
    jane = office.browser("jane")
    add(jane, file_of(area("YEW", box(0, 0, 100, 100)), area("YEW", BOW)))
    page = Page(jane.get(PATH).text)
    assert "It names no school of the register." in page.text
    use(jane, file_of(area("YEW", BOW), area("OAK", box(0, 0, 100, 100))))
    found = office.parts.areas.map(office.parts.desk.register().schools)
    assert found and found.schools_at((AT[0] + 50, AT[1] + 50)) == ("OAK",)


def test_the_property_of_the_school_is_chosen(office: Site) -> None:
    """Of those that the features have; the others are not kept once it is in use."""
    jane = office.browser("jane")
    feature = area("", box(0, 0, 100, 100), editor="Jo", code="ELM")
    del feature["properties"]["school"]
    add(jane, file_of(feature))
    page = Page(jane.get(PATH).text)
    assert "Choose what names the schools." in page.text
    bad = press(jane, PATH, page, "Show the schools", property="other")
    assert bad.status_code == 409
    press(jane, PATH, page, "Show the schools", property="code")
    confirm(jane)
    row = office.parts.store.row("SELECT * FROM area_file")
    assert row and row["named_by"] == "code" and "Jo" not in row["features"]


@pytest.mark.parametrize("data, said", [
    (b"", "town.geojson is no GeoJSON file that can be read"),
    (b"PK\x03\x04", "an Excel file, or another archive"),
    (b"child,name\n1,Ann\n", "is no GeoJSON file that can be read"),
    (b'{"type": "Feature"}', "is no GeoJSON file with a FeatureCollection"),
    (b'{"type": "FeatureCollection", "features": []}', "has no area"),
    (b"[" * 100_000, "is no GeoJSON file that can be read"),
    (file_of(area("OAK", box(0, 0, 1, 1)), crs="urn:ogc:def:crs:EPSG::3857"),
     "is neither in longitude and latitude nor on the British National Grid"),
    (file_of(area("OAK", [[0.5, float("nan")]])), "is no GeoJSON file that can be read"),
    (b" " * 8_000_001, "a file has at most 8 MB here"),
], ids=range(9))
def test_other_files_are_refused(office: Site, data: bytes, said: str) -> None:
    """And nothing of them is kept."""
    found = add(office.browser("jane"), data)
    assert found.status_code == 409 and said in Page(found.text).said()
    assert office.parts.areas.waiting is None


def test_longitude_and_latitude_are_converted(office: Site) -> None:
    """As the points of a gazetteer are; those that are swapped are said to be so."""
    jane, ring = office.browser("jane"), [[-0.13, 51.50], [-0.12, 51.50], [-0.12, 51.51],
                                          [-0.13, 51.50]]
    swapped = [[north, east] for east, north in ring]
    metres = [[1.0, 1.0], [200.0, 1.0], [1.0, 200.0], [1.0, 1.0]]
    add(jane, file_of(area("OAK", ring), area("OAK", swapped), area("ELM", metres), crs=None))
    assert wrong_in(Page(jane.get(PATH).text)) == [
        ["2", "OAK", "longitude and latitude are swapped"],
        ["3", "ELM", "it is outside of the map"]]
    use(jane, file_of(area("OAK", ring), crs="urn:ogc:def:crs:OGC:1.3:CRS84"))
    [kept] = office.parts.areas.used.features if office.parts.areas.used else []
    found = [it / 100 for it in kept.rings[0]]
    wanted = [it for east, north in ring for it in of_wgs84(north, east)]
    assert found == pytest.approx(wanted, abs=0.2)


@pytest.mark.parametrize("at, codes", [
    ((-500, 0), ("OAK",)),
    # in the hole of Oak's area, and on its edge
    ((0, 0), ()), ((100, 50), ("OAK",)), ((100, 100), ("OAK",)),
    # where two areas overlap, and on the edge of one within the other
    ((700, 0), ("ELM", "OAK")), ((500, 0), ("ELM", "OAK")), ((1000, 1000), ("ELM", "OAK")),
    ((1001, 0), ("ELM",)), ((499, 0), ("OAK",)),
    # in the second area of Oak, and outside of all
    ((5250, 0), ("OAK",)), ((4500, 0), ()), ((0, 1001), ()), ((-1000, -1000), ("OAK",)),
])
def test_the_schools_of_a_home(office: Site, at: tuple[int, int], codes: tuple[str, ...]) -> None:
    """With a hole, edges, two areas of one school, and areas that overlap."""
    use(office.browser("jane"), TOWN)
    found = office.parts.areas.map(office.parts.desk.register().schools)
    assert found and found.schools_at((AT[0] + at[0], AT[1] + at[1])) == codes


def test_a_second_file_waits_beside_the_first(office: Site) -> None:
    """And takes its place once it is confirmed; what was shown must still be so."""
    jane = office.browser("jane")
    use(jane, TOWN)
    add(jane, file_of(area("OAK", box(0, 0, 100, 100))), "later.geojson")
    page = Page(jane.get(PATH).text)
    words = "Use later.geojson in place of town.geojson"
    assert words in page.buttons()
    stale = press(jane, PATH, page, words, seen="0" * 64)
    assert stale.status_code == 409 and "has changed since it was shown" in stale.text
    used = office.parts.areas.used
    assert used and used.name == "town.geojson"
    confirm(jane, words)
    used = office.parts.areas.used
    assert used and used.name == "later.geojson"
    assert len(office.parts.store.rows("SELECT * FROM area_file")) == 1


def test_children_with_other_schools_are_named(tmp_path: pathlib.Path) -> None:
    """Who is in the register already is corrected there."""
    at: Given = {"east": AT[0] + 700, "north": AT[1]}
    there = [{**child(1, "Ann Abel", 0), **at, "catchments": ["ELM"]},
             {**child(2, "Bo Bell", 0), **at, "catchments": ["OAK", "ELM"]}]
    with office_over(tmp_path, [*SCHOOLS, *there], is_large=True) as office:
        page = use(office.browser("jane"), TOWN)
        rows = next(it for name, it in page.tables.items() if "in the register" in name)
        assert rows[1:] == [["1", "Ann Abel", "ELM", "ELM, OAK"]]
        assert 'href="/children/1/correct"' in page.text


def row(number: int, name: str, east: int, north: int = 0, *more: str) -> str:
    """A row of a file of applications, with a home to the east of the first school."""
    return ",".join([f"{number},{name},{AT[0] + east},{AT[1] + north},no,,,2024-10-20,OAK,", *more])


def sheet(*rows: str) -> bytes:
    """A file of applications with the column of catchment schools."""
    return "\n".join([f"{HEADER},catchments", *rows, ""]).encode()


def catchments(office: Site) -> dict[int, list[str]]:
    """Those of the children of the register."""
    office.parts.desk.copy = None
    found = office.parts.desk.register().children.values()
    return {it.number: list(it.catchments) for it in found}


def test_a_row_gets_the_schools_of_its_home(office: Site) -> None:
    """With the source; what is in the register is what was shown."""
    jane = office.browser("jane")
    use(jane, TOWN)
    screens = Screens(jane)
    screens.add(("rows.csv", csv_of(row(1, "Ann Abel", 700), row(2, "Bo Bell", 0))))
    seen = screens.see()
    [ann, bo] = (seen.row(f"row {it} of rows.csv") for it in (2, 3))
    assert seen.said(ann, "catchments") == "From the areas of town.geojson."
    assert seen.said(bo, "catchments") == "In no area of town.geojson."
    assert "catchment area of ELM and OAK" in seen.text
    assert screens.store().status_code == 303
    assert catchments(office) == {1: ["ELM", "OAK"], 2: []}


def test_a_changed_point_gives_changed_schools(office: Site) -> None:
    """In the row whose point is typed again."""
    jane = office.browser("jane")
    use(jane, TOWN)
    screens = Screens(jane)
    screens.add(("rows.csv", csv_of(row(1, "Ann Abel", 700))))
    number = screens.see().row("row 2 of rows.csv")
    screens.save(number, east=str(AT[0] + 2000))
    assert "catchment area of ELM" in screens.see().text
    assert "catchment area of ELM and OAK" not in screens.see().text
    screens.store()
    assert catchments(office) == {1: ["ELM"]}


def test_other_schools_of_a_file_are_asked_about(office: Site) -> None:
    """They stay until the button is pressed that takes those of the areas."""
    jane = office.browser("jane")
    use(jane, TOWN)
    screens = Screens(jane)
    screens.add(("rows.csv", sheet(
        row(1, "Ann Abel", 700, 0, "OAK;ELM"), row(2, "Bo Bell", -500, 0, "ELM"),
        row(3, "Cy Cole", 4500, 0, "ELM"))))
    seen = screens.see("?show=check")
    said = {it: seen.said(it, "catchments") for it in seen.rows()}
    assert list(said.values()) == ["The areas say OAK.", "The areas say none."]
    bo, cy = said
    assert [it for it in seen.buttons if it.startswith("Take")] == [
        "Take the schools of the areas in all 2 rows", "Take OAK", "Take none"]
    pressed = jane.post(seen.actions["table"], {**seen.sent(), "meant": f"catchments-{bo}="})
    assert pressed.status_code == 303
    seen = screens.see()
    assert seen.said(bo, "catchments") == "From the areas of town.geojson."
    assert seen.values(cy)["catchments"] == "ELM"
    screens.store()
    assert catchments(office) == {1: ["OAK", "ELM"], 2: ["OAK"], 3: ["ELM"]}
    # (the same file once more: nothing differs from the register)
    screens.add(("again.csv", csv_of(row(1, "Ann Abel", 700), row(2, "Bo Bell", -500))))
    assert not screens.see().wrong() and "is in the register already" in screens.see().text


def test_many_rows_take_the_schools_of_the_areas_by_one_button(office: Site) -> None:
    """And it can be undone."""
    jane = office.browser("jane")
    use(jane, TOWN)
    screens = Screens(jane)
    screens.add(("rows.csv", sheet(*(row(at, name, -500, 0, "ELM") for at, name in (
        (1, "Ann Abel"), (2, "Bo Bell"), (3, "Cy Cole"))))))
    seen = screens.press("Take the schools of the areas in all 3 rows")
    assert "Catchment schools of the areas taken in 3 rows" in seen.text
    assert {screens.see().said(it, "catchments") for it in screens.see().rows()} == {
        "From the areas of town.geojson."}
    assert "Take the schools" not in screens.see().text
    did = office.parts.history.entries[-1].number
    screens.press("Undo", f"?did={did}")
    assert screens.see().text.count("The areas say OAK.") == 3


def test_a_second_file_names_the_rows_with_other_schools(office: Site) -> None:
    """Before it is confirmed; rows in which schools are written are not among them."""
    jane = office.browser("jane")
    use(jane, TOWN)
    screens = Screens(jane)
    screens.add(("rows.csv", sheet(
        row(1, "Ann Abel", 700, 0, ""), row(2, "Bo Bell", -500, 0, ""),
        row(3, "Cy Cole", -500, 0, "OAK"))))
    add(jane, file_of(area("ASH", box(-1000, -1000, 0, 1000)),
                      area("ELM", box(500, -1000, 4000, 1000)),
                      area("OAK", box(500, -1000, 4000, 1000))), "later.geojson")
    page = Page(jane.get(PATH).text)
    assert page.tables["For 1 row of Applications other schools"][1:] == [
        ["row 3 of rows.csv", "Bo Bell", "OAK", "ASH"]]
    # (a row that came since is not confirmed unseen)
    screens.add(("more.csv", csv_of(row(4, "Di Dean", -600))))
    words = "Use later.geojson in place of town.geojson"
    assert press(jane, PATH, page, words).status_code == 409
    confirm(jane, words)
    screens.store()
    assert catchments(office) == {1: ["ELM", "OAK"], 2: ["ASH"], 3: ["OAK"], 4: ["ASH"]}


def test_a_table_that_was_shown_before_other_areas_is_not_stored(office: Site) -> None:
    """Its rows have other schools since."""
    jane = office.browser("jane")
    use(jane, TOWN)
    screens = Screens(jane)
    screens.add(("rows.csv", csv_of(row(1, "Ann Abel", 700))))
    shown = screens.digest()
    add(jane, file_of(area("OAK", box(500, -1000, 4000, 1000))), "later.geojson")
    confirm(jane, "Use later.geojson in place of town.geojson")
    screens.store(shown)
    assert not catchments(office)


def test_more_areas_than_a_child_can_have_are_an_error(office: Site, tmp_path: pathlib.Path
                                                       ) -> None:
    """The row is corrected first."""
    del office
    folder = tmp_path / "more"
    folder.mkdir()
    names = [f"S{at}" for at in range(11)]
    with office_over(folder, [school(it, it, 0, []) for it in names], is_large=True) as found:
        jane = found.browser("jane")
        use(jane, file_of(*(area(it, box(0, 0, 100, 100)) for it in names)))
        screens = Screens(jane)
        screens.add(("rows.csv", csv_of(row(1, "Ann Abel", 50, 50).replace("OAK", "S1"))))
        seen = screens.see()
        [ann] = seen.rows()
        assert seen.said(ann, "catchments") == "11 areas have the home: at most 10."


def test_a_typed_child_gets_them_too(office: Site) -> None:
    """The form of a large register has the field; what is typed there counts."""
    jane = office.browser("jane")
    use(jane, TOWN)
    form = jane.get("/applications/add/").text
    assert "if nothing is typed, those from the areas of town.geojson" in form
    typed = {"name": "Ann Abel", "east": str(AT[0] + 700), "north": str(AT[1]),
             "looked_after": "no", "day": "20/10/2024", "preference-1": "OAK", "child": "1"}
    assert jane.post("/applications/add/", typed).status_code == 303
    other = {**typed, "name": "Bo Bell", "child": "2", "catchments": "OAK"}
    assert jane.post("/applications/add/", other).status_code == 303
    Screens(jane).store()
    assert catchments(office) == {1: ["ELM", "OAK"], 2: ["OAK"]}


def test_a_standard_register_shows_nothing_of_it(tmp_path: pathlib.Path) -> None:
    """Neither in the form nor in a row that is edited."""
    there: list[Given] = [{**it, "criteria": []} for it in SCHOOLS]
    with office_over(tmp_path, there) as office:
        jane = office.browser("jane")
        screens = Screens(jane)
        screens.add(("rows.csv", csv_of(row(1, "Ann Abel", 700))))
        for text in (screens.opened().text, jane.get("/applications/add/").text):
            assert "atchment" not in text
        screens.store()
        assert catchments(office) == {1: []}


@pytest.fixture(name="moving")
def moving_fixture(tmp_path: pathlib.Path) -> Iterator[Site]:
    """A large register with a child, which lives where Oak's area and Elm's overlap."""
    there = {**child(1, "Ann Abel", 0), "east": AT[0] + 700, "north": AT[1],
             "catchments": ["ELM", "OAK"]}
    with office_over(tmp_path, [*SCHOOLS, there], is_large=True) as found:
        use(found.browser("jane"), TOWN)
        yield found


def corrected(browser: Browser, **typed: object) -> tuple[str, Page]:
    """The question of a correction of the child, and its address."""
    path = "/children/1/correct"
    form = Page(browser.get(path).text)
    asked = press(browser, path, form, "Compare with the register",
                  **{name: str(it) for name, it in typed.items()})
    return path, Page(asked.text)


def changed(page: Page) -> list[list[str]]:
    """What a correction changes."""
    return page.tables["changes"][1:]


def test_a_home_that_moves_gets_the_schools_of_its_new_point(moving: Site) -> None:
    """Proposed and said to be so, and sent by the officer's confirmation alone."""
    jane = moving.browser("jane")
    path, page = corrected(jane, east=AT[0] + 2000)
    assert changed(page) == [["East, in metres", "530700", "532000"],
                             ["Catchment schools", "ELM;OAK", "ELM"]]
    assert "proposed: those of the new point, from the areas of town.geojson" in page.text
    assert catchments(moving) == {1: ["ELM", "OAK"]}
    press(jane, path, page, "Correct the details of Ann Abel")
    assert catchments(moving) == {1: ["ELM"]}
    sent = [it for it in moving.parts.history.entries if "command" in it.about][-1]
    assert sent.about["catchments"] == "from the areas of town.geojson"
    assert "Catchment schools: from the areas of town.geojson" in jane.get("/children/1").text


def test_the_schools_of_a_child_can_stay_when_it_moves(moving: Site) -> None:
    """By a button; what the areas say is still said."""
    jane = moving.browser("jane")
    path, page = corrected(jane, east=AT[0] + 2000)
    kept = press(jane, path, page, "Keep the catchment schools: ELM, OAK")
    page = Page(kept.text)
    assert changed(page) == [["East, in metres", "530700", "532000"]]
    assert "are others, from the areas of town.geojson: ELM" in page.text
    press(jane, path, page, "Correct the details of Ann Abel")
    assert catchments(moving) == {1: ["ELM", "OAK"]}
    assert moving.parts.desk.register().children[1].east == AT[0] + 2000


def test_schools_that_are_typed_beside_a_new_point_stay(moving: Site) -> None:
    """With a warning; and of a home that stays nothing is proposed."""
    jane = moving.browser("jane")
    _, page = corrected(jane, east=AT[0] + 2000, catchments="OAK")
    assert changed(page)[1] == ["Catchment schools", "ELM;OAK", "OAK"]
    assert "are others, from the areas of town.geojson: ELM" in page.text
    _, page = corrected(jane, name="Anna Abel", east=AT[0] + 700, catchments="ELM;OAK")
    assert changed(page) == [["Name", "Ann Abel", "Anna Abel"]]
    assert "town.geojson" not in page.text


def test_an_offer_by_the_area_is_explained(tmp_path: pathlib.Path) -> None:
    """On the screens of the child and of the school, in what is held of it, and in why it is so."""
    there = [
        school("OAK", "Oak School", 0, ["catchment"]),
        *({**child(number, name, 0), "east": AT[0] + east, "north": AT[1], "catchments": codes}
          for number, name, east, codes in ((1, "Ann Abel", 900, ["OAK"]), (2, "Bo Bell", 10, []),
                                            (3, "Cy Cole", 20, []))),
        *({"cmd": "apply", "child": it, "day": "2024-10-20", "preferences": ["OAK"]}
          for it in (1, 2, 3)),
        {"cmd": "round", "draw": 1, "day": "2025-03-03", "lots": [1, 2, 3]}]
    with office_over(tmp_path, there, is_large=True) as office:
        jane, words = office.browser("jane"), "living in the school’s catchment area"
        assert words in jane.get("/children/1").text
        assert "Catchment schools" in jane.get("/children/1").text
        text = jane.get("/schools/OAK").text
        assert words in text and 'class="home catchment has"' in text
        held = jane.get("/children/1/held.json").json
        assert held["register"]["data"]["catchments"] == ["OAK"]
        letter = Writer(office.parts.desk.register()).letter(1)
        assert letter.criterion == words and letter.criterion_code == "catchment"
