"""Gazetteers: files as authorities have them, of any form; each row that cannot be used is named;
one replaces another whole; and points by latitude and longitude are by the published formulas.
"""
import dataclasses
import hashlib
import io
import math
import os
import pathlib
import threading
import time
from collections.abc import Callable, Iterator
from typing import Any

import gazetteers
import pytest
from applications import ORIGIN, Browser, Site, office_over
from conftest import school
from gazetteers import PATH, csv_of, read_in, receive, said, zipped
from pages import Page, press
from register_files import Refused
from staged import workbook

from office.core import turns
from office.web.applications import gazetteer_file, gazetteer_rows, points
from office.web.applications.gazetteer import GIVEN, SETTING, Gazetteer, Lookup
from office.web.applications.gazetteer_file import Summary
from office.web.applications.tools import Tools
from office.web.frame import uploads
from office.web.register.history import History
from office.web.register.store import Store

# in the middle of a town, by which swapped columns are seen
TOWN = [{**school("OAK", east=430100), "north": 210200},
        {**school("ELM", east=431000), "north": 211000}]
HEAD = "UPRN,ADDRESS,POSTCODE,X_COORDINATE,Y_COORDINATE"
ROWS = ('100023336956,"1 Elm Row, Town",AB1 2CD,430000.00,210000.00',
        '100023336957,"2 Elm Row, Town",AB1 2CD,430011.00,210020.49',
        '200000000001,The Mill,AB3 4EF,431000.50,211000.49')


@pytest.fixture(scope="module", name="whole")
def whole_fixture(tmp_path_factory: pytest.TempPathFactory) -> Iterator[tuple[Site, Browser]]:
    """The application over a register with two schools, which no test here changes, and the browser
    of an officer.
    """
    with office_over(tmp_path_factory.mktemp("town"), TOWN) as found:
        yield found, found.browser("jane")


@pytest.fixture(name="office")
def office_fixture(whole: tuple[Site, Browser]) -> Site:
    """The same without a gazetteer."""
    for it in gazetteer(whole[0]).folder.iterdir():
        it.unlink()
    whole[0].parts.store.set(SETTING, "{}")
    return whole[0]


@pytest.fixture(name="jane")
def jane_fixture(office: Site, whole: tuple[Site, Browser]) -> Browser:
    """The browser of an officer, once there is no gazetteer."""
    assert gazetteer(office).given() is None
    return whole[1]


def gazetteer(office: Site) -> Gazetteer:
    """The gazetteers of an application."""
    tools: Tools = office.app.extensions["staging"]
    return tools.points.gazetteer


def find(office: Site, number: str = "", code: str = "") -> tuple[int, int] | str:
    """What is found: a point, or why there is none."""
    with gazetteer(office).looking() as lookup:
        found, why = lookup.find(number, code)
    return found.at if found else "; ".join(why)


def left_out(office: Site, kind: int = 0) -> dict[int, str]:
    """The rows that a gazetteer left out, and why."""
    return {row: why for why, _, rows in gazetteer(office).summaries()[kind].left_out
            for row in rows}


def day_of(lookup: Lookup) -> str:
    """The source of a gazetteer that is open."""
    return lookup.about[points.PROPERTY].name


def test_a_file_is_sent_its_columns_are_chosen_and_it_is_read_in(
        office: Site, jane: Browser) -> None:
    """By hand: halves are rounded upwards; the middle of AB1 2CD is 430005.5, 210010."""
    assert "There is no gazetteer yet" in jane.get(PATH).text
    assert receive(jane, csv_of(HEAD, *ROWS), r"C:\data\town.csv").status_code == 303
    page = Page(jane.get(PATH).text)
    assert page.tables["Its first rows"][0] == [
        "A: UPRN", "B: ADDRESS", "C: POSTCODE", "D: X_COORDINATE", "E: Y_COORDINATE"]
    assert page.tables["Its first rows"][2][1] == "1 Elm Row, Town"
    chosen = gazetteers.choice(jane)
    assert {it: chosen[it] for it in ("property", "postcode", "east", "north")} == {
        "property": "0", "postcode": "2", "east": "3", "north": "4"}
    assert (chosen["units"], chosen["names"], chosen["name"]) == ("metres", "yes", "town.csv")
    assert "Read in town.csv" in page.buttons()
    assert jane.post(f"{PATH}read", {**chosen, "name": "Town, spring"}).status_code == 303
    text = " ".join(jane.get(PATH).text.split())
    assert "Town, spring" in text and "3 property numbers" in text
    assert "and 2 postcodes by the middle" in text and "Read in town.csv" not in text
    assert find(office, "100023336956") == (430000, 210000)
    assert find(office, "100023336957") == (430011, 210020)
    assert find(office, "200000000001") == (431001, 211000)
    assert find(office, "", "AB1 2CD") == (430006, 210010)
    assert find(office, "", "AB3 4EF") == (431001, 211000)
    entries = office.parts.history.entries[-2:]
    assert [it.what for it in entries] == ["received a gazetteer", "reads in a gazetteer"]
    assert entries[1].about["rows"] == 3 and entries[1].about["left out"] == 0
    assert {it.name for it in (office.parts.config.folder / "gazetteer").iterdir()} == {
        "properties.db", "given.json"}


def test_a_property_is_found_first_and_a_postcode_after_it(office: Site, jane: Browser) -> None:
    """A gazetteer of postcodes goes before the middle of the properties, and says so."""
    read_in(jane, csv_of(HEAD, *ROWS))
    with gazetteer(office).looking() as lookup:
        found, why = lookup.find("100023336956", "AB3 4EF")
        assert found and (found.by, found.at, why) == ("property number", (430000, 210000), [])
        found, why = lookup.find("999", "ab34ef")
        assert found and (found.by, found.key) == ("postcode", "AB3 4EF")
    day = points.day_in_words(gazetteer(office).summaries()[0].day)
    assert why == [f"property number 999 is not in the gazetteer of {day}"]
    assert find(office, "x", "AB9 9ZZ") == (
        'property number "x": write a whole number from 1 to 999,999,999,999; postcode AB9 9ZZ is'
        f" not in the gazetteer of {day}")
    read_in(jane, csv_of("Postcode;Eastings;Northings", "AB3 4EF;432000;212000"), "codes.csv")
    assert [it.kind for it in gazetteer(office).summaries()] == ["property number", "postcode"]
    assert find(office, "", "AB3 4EF") == (432000, 212000)
    assert find(office, "", "AB1 2CD") == (430006, 210010)
    assert find(office, "200000000001", "AB3 4EF") == (431001, 211000)


@pytest.mark.parametrize("text, code", [
    ("AB1 2CD", "AB12CD"), ("ab12cd", "AB12CD"), (" aB1  2Cd ", "AB12CD"), ("AB1 2CD.", "AB12CD"),
    ("EC1A 1BB", "EC1A1BB"), ("B33 8TH", "B338TH"), ("SW1A OAA", "SW1A0AA"),
    ("W1A OAX", "W1A0AX"), ("AB1\u00a02CD", "AB12CD"), ("MI IAE", "M11AE"), ("M1 1AE", "M11AE"),
    ("", ""), ("AB1", ""), ("AB1 2CDE", ""), ("12345", ""), ("AB1 2C", ""), ("A" * 99, ""),
])
def test_postcodes_are_read_as_they_are_typed(text: str, code: str) -> None:
    """With and without blanks, in small letters, with O for 0."""
    assert (points.postcodes_of(text) or ("",))[0] == code


def test_a_letter_that_may_be_a_digit_is_tried_both_ways(office: Site, jane: Browser) -> None:
    """OL1 1AA and MO1 1AA are postcodes as they are; what is typed is looked for first."""
    read_in(jane, csv_of("postcode,east,north", "N10 1AA,430000,210000", "NIO 1AB,1,1",
                         "OL1 1AA,430300,210300"))
    assert find(office, "", "NI0 1AA") == (430000, 210000)
    assert find(office, "", "OL1 IAA") == (430300, 210300)
    assert find(office, "", "0L1 1AA") == (430300, 210300)


@pytest.mark.parametrize("text, number", [
    ("100023336956", "100023336956"), ("000100023336956", "100023336956"), ("0012", "12"),
    ("100023336956.0", "100023336956"), (" 100 023 336 956 ", "100023336956"),
    ("1.00023E+11", ""), ("", ""), ("0", ""), ("1000000000000", ""), ("UPRN 12", ""), ("-5", ""),
    ("12.5", ""),
])
def test_property_numbers_are_read_as_spreadsheets_write_them(text: str, number: str) -> None:
    """Leading zeros and a fraction of zeros are left out. One that was shortened is lost."""
    found = points.property_of(text)
    assert found.text == number and bool(found.expected) == (not number)
    assert ("spreadsheet has shortened it" in found.expected) == ("E+" in text)


WRONG = [
    ("100023336956,a,AB1 2CD,430000,210000", ""),
    (",a,AB1 2CD,430001,210001", "it has no property number"),
    ("1.00023E+11,a,AB1 2CD,430001,210001", "its property number cannot be read: a"),
    ("2,a,AB1 2CD,,210001", "it has no point"),
    ("3,a,AB1 2CD,430001", "it has no point"),
    ("4,a,AB1 2CD,43 0001,210001", "its point is no number"),
    ("5,a,AB1 2CD,0,0", "the point is 0, 0"),
    ("6,a,AB1 2CD,1500001,210001", "the point is outside of the map: east and north are from 0 to"),
    ("7,a,AB1 2CD,-1,210001", "the point is outside of the map: east and north are from 0 to"),
    ("8,a,AB1 2CD,210001,430001", "east and north are swapped: the other way round the point is"),
    ("9,a,AB1 2CD,-1.5491,51.7889", "its point is latitude and longitude, and not in metres"),
    ("10,a,AB1 2CD,51.7889,-1.5491", "its point is latitude and longitude, and not in metres"),
    ("100023336956,a,AB1 2CD,430000,210000", "a repeated row, with the same point"),
    ('11,"a,AB1 2CD,430001,210001', "a quote is not closed"),
    ("12,=HYPERLINK(1),AB1 2CD,430002,210002", ""),
    ("13,<b>,none,430003,210003", ""),
    ("14,a,AB1 2CD,430004,210004", ""),
    ("14,a,AB1 2CD,430400,210004", "its key is there before with another point: neither is used"),
    ("15," + "x" * 40_000, "the line has more than 32,767 characters"),
    ("16,a,AB1 2CD,430005,210005", ""),
]


def test_each_row_that_cannot_be_used_is_named(office: Site, jane: Browser) -> None:
    """Nothing stops the reading. The first row of the table is row 2 of the file."""
    assert read_in(jane, csv_of(HEAD, *(row for row, _ in WRONG))).status_code == 303
    found = left_out(office)
    for at, (row, why) in enumerate(WRONG, 2):
        assert found.get(at, "").startswith(why) and bool(why) == (at in found), (row, found)
    summary = gazetteer(office).summaries()[0]
    assert (summary.rows, summary.many_left_out) == (20, 15)
    page = Page(jane.get(PATH).text)
    assert ["it has no point", "2", "5; 6"] in page.tables["Rows that were left out"]
    assert find(office, "12") == (430002, 210002) and find(office, "16") == (430005, 210005)
    assert "has two points in the gazetteer" in str(find(office, "14"))
    assert str(find(office, "14")).endswith("in its rows 18 and 19")


def test_a_file_with_swapped_columns_is_refused_with_the_reason(
        office: Site, jane: Browser) -> None:
    """The schools say where the town is. What was chosen stays in the form."""
    swapped = read_in(jane, csv_of(HEAD, *ROWS), east="4", north="3")
    assert swapped.status_code == 409
    assert said(swapped) == (
        "Nothing was changed: no row of town.csv can be used: 3 rows: east and north are swapped:"
        " the other way round the point is near the schools.")
    chosen = Page(swapped.text).form("Read in town.csv").values
    assert (chosen["east"], chosen["north"]) == (["4"], ["3"])
    assert gazetteer(office).summaries() == []


@pytest.mark.parametrize("encoding, between", [
    ("utf-8", ","), ("utf-8-sig", ","), ("cp1252", ";"), ("utf-16", "\t"), ("utf-8-sig", ";"),
])
def test_files_of_any_encoding_and_separator_are_read(
        office: Site, jane: Browser, encoding: str, between: str) -> None:
    """The names of columns have letters that differ in each encoding."""
    lines = [it.replace(",", between) for it in (
        "Straße – “Ort”,UPRN,X,Y", "Tŷ Café".replace("ŷ", "y") + ",7,430000,210000")]
    data = "\r\n".join(lines).encode(encoding)
    assert receive(jane, data).status_code == 303
    assert "A: Straße – “Ort”" in jane.get(PATH).text
    assert jane.post(f"{PATH}read", gazetteers.choice(jane)).status_code == 303
    assert find(office, "7") == (430000, 210000) and not left_out(office)


def test_a_file_without_names_of_columns_is_read_by_their_places(
        office: Site, jane: Browser) -> None:
    """The places are kept, and are those of the next file of the form."""
    data = csv_of('"AB10 1AB",10,430000,210000,"S92000003"', '"AB10 1AF",10,430100,210100,"S9"')
    assert receive(jane, data, "codes.csv").status_code == 303
    chosen = gazetteers.choice(jane)
    assert "names" not in chosen and "property" not in chosen
    assert jane.post(f"{PATH}read", {**chosen, "postcode": "0", "east": "2", "north": "3"}
                     ).status_code == 303
    assert find(office, "", "AB101AB") == (430000, 210000)
    assert find(office, "", "AB101AF") == (430100, 210100)
    receive(jane, data.replace(b"4301", b"4302"), "codes.csv")
    chosen = gazetteers.choice(jane)
    assert (chosen["postcode"], chosen["east"], chosen["north"]) == ("0", "2", "3")


def test_names_of_columns_may_have_any_characters_and_are_kept(
        office: Site, jane: Browser) -> None:
    """Two columns of one name are distinguished by their positions."""
    head = '"=1+1\u202e","<script>x</script>","Ref","Ref",'
    receive(jane, csv_of(head, "1,430000,210000,77,", "2,430001,210001,78,"))
    page = jane.get(PATH).text
    assert "<script>x" not in page and "&lt;script&gt;" in page and "\u202e" not in page
    chosen = {**gazetteers.choice(jane), "property": "3", "east": "1", "north": "2"}
    assert jane.post(f"{PATH}read", chosen).status_code == 303
    assert find(office, "77") == (430000, 210000)
    receive(jane, csv_of('"Ref","<script>x</script>","E","Ref","b"', "1,2,3,4,5"))
    assert gazetteers.choice(jane)["east"] == "1"


@pytest.mark.parametrize("given, why", [
    ({}, "choose the two columns of the point"),
    ({"east": "3", "north": "4"}, "choose the column of the property number, of the postcode"),
    ({"property": "0", "east": "3", "north": "3"}, "a column is chosen twice"),
    ({"property": "240", "east": "3", "north": "4"}, "3 rows: it has no property number"),
    ({"property": "0", "east": "3", "north": "4", "digest": "0"}, "the file was replaced or"),
])
def test_a_choice_that_cannot_be_is_refused(
        jane: Browser, given: dict[str, str], why: str) -> None:
    """Nothing is read in."""
    receive(jane, csv_of(HEAD, *ROWS))
    digest = gazetteers.choice(jane)["digest"]
    found = jane.post(f"{PATH}read", {"digest": digest, "names": "yes", **given})
    assert found.status_code == 409 and why in said(found), found.text


DATA = csv_of(HEAD, *ROWS)


# a file in a zip of which a part is lost, and one whose name is no text
TORN = zipped(a_csv=csv_of(HEAD, *(f"{it},{it * it},{it ** 3}" for it in range(500))))
NAMELESS = zipped(**{"é_csv": DATA}).replace("é".encode(), b"\xff\xff")
NOT_ONE: dict[str, tuple[str, bytes, str]] = {
    "a torn file": (
        "a.zip", TORN[:60] + bytes(40) + TORN[100:], "a.zip is no zip that can be read"),
    "a name that is no text": ("a.zip", NAMELESS, "a.zip is no zip that can be read"),
    "nothing": ("a.csv", b"", "a.csv is empty"),
    "blanks": ("a.csv", b"\n \n", "a.csv is no CSV with a row for each address"),
    "an endless line": ("a.csv", b"x" * 5_000_000, "line 1: the line has more than 32,767"),
    "two columns": ("a.csv", b"one,two\n1,2\n", "a row has a property number or a postcode"),
    "an Excel file": (
        "a.xlsx", workbook([[1, 2, 3]], ["UPRN", "X", "Y"]), "is an Excel file: save it"),
    "a PDF": ("a.pdf", b"%PDF-1.7\n", "a.pdf is a PDF"),
    "a part of a zip": ("a.zip", b"PK\x03\x04 and nothing", "a.zip is no zip that can be read"),
    "two files": ("a.zip", zipped(one_csv=DATA, two_csv=DATA), "has 2 files in it: a zip with one"),
    "many files": ("a.zip", zipped(**{f"f{it}_csv": b"" for it in range(1_001)}),
                   "a.zip has over 1,000 files in it: a zip with one CSV is needed"),
    "an empty zip": ("a.zip", zipped(), "a.zip is"),
}


@pytest.mark.parametrize("what", NOT_ONE)
def test_a_file_that_is_no_gazetteer_is_refused(
        office: Site, jane: Browser, what: str) -> None:
    """It says what is wrong, and what is there stays."""
    name, data, why = NOT_ONE[what]
    read_in(jane, csv_of(HEAD, *ROWS))
    found = receive(jane, data, name)
    assert found.status_code == 409 and why in said(found), said(found)
    assert find(office, "100023336956") == (430000, 210000)
    assert not [it for it in gazetteer(office).folder.iterdir() if it.name.startswith(".new")]


def test_a_zip_is_read_and_one_that_is_a_bomb_is_refused(
        office: Site, jane: Browser, monkeypatch: pytest.MonkeyPatch) -> None:
    """By what it says of its size, and by what comes out of it whatever it says."""
    read_in(jane, zipped(town_csv=DATA, readme_pdf=b"%PDF"), "town.zip")
    assert find(office, "100023336956") == (430000, 210000)
    monkeypatch.setattr(gazetteer_rows, "MOST_UNPACKED", 1_000_000)
    bomb = zipped(town_csv=DATA + b"1,a,b,c,d\n" * 200_000)
    assert len(bomb) < 10_000
    assert "is too large" in said(receive(jane, bomb, "bomb.zip"))
    # (the size is four bytes in the list of the parts, and in the head of the part)
    size = (len(DATA) + 2_000_000).to_bytes(4, "little")
    assert bomb.count(size) == 2
    found = receive(jane, bomb.replace(size, (1000).to_bytes(4, "little")), "bomb.zip")
    if found.status_code == 303:
        found = jane.post(f"{PATH}read", gazetteers.choice(jane))
    assert found.status_code == 409 and "bomb.zip is" in said(found)


def test_more_rows_than_an_authority_has_are_refused(
        office: Site, jane: Browser, monkeypatch: pytest.MonkeyPatch) -> None:
    """So is a longer file, and one of which no row can be used. Nothing of it remains but the one
    that was received.
    """
    assert "no row of town.csv can be used" in said(read_in(jane, csv_of(HEAD, "5,a,AB1 2CD,x,y")))
    assert gazetteer(office).summaries() == []
    found = Page(jane.get(PATH).text)
    assert "Remove town.csv without reading it in" in found.buttons()
    press(jane, PATH, found, "Remove town.csv without reading it in")
    assert gazetteer(office).given() is None
    monkeypatch.setattr(gazetteer_rows, "MOST_BYTES", 100)
    assert "a file has at most 0 MB. Send it as a zip" in said(receive(jane, DATA))


def test_a_file_of_a_colleague_is_not_removed_by_an_older_page(office: Site, jane: Browser) -> None:
    """It took the place of the one that was shown."""
    receive(jane, DATA)
    older = Page(jane.get(PATH).text)
    bo = office.browser("bo")
    bo.get(PATH)
    receive(bo, DATA + b"1")
    late = press(jane, PATH, older, "Remove town.csv without reading it in")
    assert late.status_code == 409
    assert said(late) == "Nothing was removed: bo has sent town.csv meanwhile."
    given = gazetteer(office).given()
    assert given is not None and given.who == "bo"


def test_empty_lines_are_counted_and_not_read_for_the_first_rows(
    tmp_path: pathlib.Path, monkeypatch: pytest.MonkeyPatch
) -> None:
    """They are no rows: a short zip could have hundreds of millions, which each look at the page
    would read.
    """
    path, read = tmp_path / "file", list[object]()
    path.write_text("\n".join([HEAD, *ROWS]) + "\n" * 9_000, "ascii")
    real = gazetteer_rows.Lines.part

    def part(lines: gazetteer_rows.Lines) -> str:
        read.append(lines)
        return real(lines)

    monkeypatch.setattr(gazetteer_rows.Lines, "part", part)
    assert len(gazetteer_rows.first_rows(path, "homes.csv")) == 4
    assert len(read) <= gazetteer_rows.FIRST_LINES + 1
    columns = gazetteer_rows.Columns(0, 2, 3, 4, False, True)
    assert len(list(gazetteer_rows.places(path, "homes.csv", columns, None))) == 3
    monkeypatch.setattr(gazetteer_rows, "MOST_LINES", 5_000)
    with pytest.raises(Refused, match="homes.csv has more than 5,000 lines"):
        list(gazetteer_rows.places(path, "homes.csv", columns, None))
    monkeypatch.setattr(gazetteer_rows, "MOST_ROWS", 2)
    with pytest.raises(Refused, match="more than 2 rows"):
        list(gazetteer_rows.places(path, "homes.csv", columns, None))


def test_a_line_that_names_the_separator_is_no_row(tmp_path: pathlib.Path) -> None:
    """As spreadsheets write it before all others."""
    path = tmp_path / "file"
    path.write_text("sep=;\nUPRN;X;Y\n1;430000;210000\n", "ascii")
    assert gazetteer_rows.first_rows(path, "homes.csv") == [
        ["UPRN", "X", "Y"], ["1", "430000", "210000"]]


def test_only_this_address_takes_a_large_body_and_from_officers_alone(
        office: Site, jane: Browser) -> None:
    """17 MiB are more than any other page takes."""
    rita = office.browser("rita", "reader")
    large = csv_of(HEAD, *ROWS) + b"1,2,3,4,5,6,7,8,9,10,11,12,13,14,15,16\n" * (17 << 20 >> 5)
    assert receive(jane, large[:17 << 20]).status_code == 303
    given = {"files": (io.BytesIO(large[:17 << 20]), "a.csv")}
    found = jane.post("/applications/files", given, content_type="multipart/form-data")
    assert found.status_code == 413
    assert receive(rita, DATA).status_code == 403
    assert rita.get(PATH).status_code == 403
    nobody = Browser(office.app)
    found = nobody.client.post(
        uploads.LARGE, base_url=ORIGIN, headers={"Origin": ORIGIN},
        data={"file": (io.BytesIO(DATA), "a.csv")}, content_type="multipart/form-data")
    assert found.status_code == 401


def test_the_formulas_of_this_test_give_the_published_example() -> None:
    """The water tower of Caister, in OSGB36: 52°39′27.2531″N 1°43′4.5177″E is 651409.903,
    313177.270.
    """
    east, north = gazetteers.projected(math.radians(52 + 39 / 60 + 27.2531 / 3600),
                                       math.radians(1 + 43 / 60 + 4.5177 / 3600))
    assert (round(east, 3), round(north, 3)) == (651409.903, 313177.270)


def test_latitude_and_longitude_become_the_points_of_the_grid(
        office: Site, jane: Browser) -> None:
    """Of WGS84 and not of OSGB36, which is some 120 metres away there. By the surveyed grid the
    tower is at 651409.804, 313177.450, and within 5 metres of that here.
    """
    tower = points.grid_of([52.658007833], [1.716073973])[0]
    assert tower and math.hypot(tower[0] - 651409.804, tower[1] - 313177.450) < 5
    places = [(50.066, -5.715), (51.4779, -0.0015), (54.5, -3.2), (55.95, -3.19), (58.64, -3.07)]
    for (latitude, longitude), at in zip(places, points.grid_of(
            [it[0] for it in places], [it[1] for it in places])):
        east, north = gazetteers.of_wgs84(latitude, longitude)
        assert at == (math.floor(east + 0.5), math.floor(north + 0.5))
    rows = ("1,52.658007833,1.716073973", "2,1.716073973,52.658007833", "3,48.8566,2.3522",
            "4,0,0", "5,651409,313177")
    assert read_in(jane, csv_of("UPRN,LATITUDE,LONGITUDE", *rows)).status_code == 303
    assert find(office, "1") == tower
    assert left_out(office) == {
        3: "latitude and longitude are swapped",
        4: "latitude and longitude are outside of Great Britain", 5: "the point is 0, 0",
        6: "latitude and longitude are outside of Great Britain"}
    assert "by latitude and longitude, within 5 metres on the grid" in jane.get(PATH).text


def test_no_network_is_asked_for_a_point(monkeypatch: pytest.MonkeyPatch) -> None:
    """Whatever the machine says of it, and whichever files it has: no part of the way is a grid."""
    import pyproj
    import pyproj.network

    monkeypatch.setenv("PROJ_NETWORK", "ON")
    pyproj.network.set_network_enabled(True)
    assert points.grid_of([52.0], [-1.0]) != [None]
    assert not pyproj.network.is_network_enabled()
    assert "grid" not in points.PIPELINE


def test_one_gazetteer_replaces_another_whole(office: Site, jane: Browser) -> None:
    """Who has begun to look up ends with the one that was there. No look-up meets a mixture."""
    rows = [f"{it},430000,210000" for it in range(1, 200)]
    read_in(jane, csv_of("UPRN,X,Y", *rows), name="A")
    with gazetteer(office).looking() as before:
        read_in(jane, csv_of("UPRN,X,Y", *(it.replace("430", "431") for it in rows)), name="B")
        found, _ = before.find("7", "")
        assert found and found.at == (430000, 210000) and day_of(before) == "A"
    assert find(office, "7") == (431000, 210000)
    wrong: list[str] = []
    ended = threading.Event()

    def look() -> None:
        while not ended.is_set():
            with gazetteer(office).looking() as lookup:
                at = {one.at for it in range(1, 200) if (one := lookup.find(str(it), "")[0])}
                if at != {({"A": 430000, "B": 431000}[day_of(lookup)], 210000)}:
                    wrong.append(f"{day_of(lookup)}: {at}")

    threads = [threading.Thread(target=look) for _ in range(3)]
    for it in threads:
        it.start()
    for turn in range(6):
        name, east = (("A", "430"), ("B", "431"))[turn % 2]
        read_in(jane, csv_of("UPRN,X,Y", *(it.replace("430", east) for it in rows)), name=name)
    ended.set()
    for it in threads:
        it.join()
    assert not wrong


def test_a_file_that_fails_leaves_the_one_before(
        office: Site, jane: Browser, monkeypatch: pytest.MonkeyPatch) -> None:
    """The disk is full while it is written: the other stays in use, and no part remains."""
    read_in(jane, DATA)
    receive(jane, csv_of(HEAD, "5,a,AB1 2CD,430000,210000"))

    def full(*_: object) -> None:
        raise OSError(28, "No space left on device")

    monkeypatch.setattr("office.web.applications.gazetteer.os.replace", full)
    found = jane.post(f"{PATH}read", gazetteers.choice(jane))
    assert found.status_code == 409 and "No space left" in said(found)
    assert find(office, "100023336956") == (430000, 210000)
    assert not [it for it in gazetteer(office).folder.iterdir() if it.name.startswith(".new")]


def test_the_application_answers_others_while_a_gazetteer_is_read_in(
        office: Site, jane: Browser, tmp_path: pathlib.Path,
        monkeypatch: pytest.MonkeyPatch) -> None:
    """Another process reads the rows, within limits of time and memory: this one reads the first
    alone. What hinders that process is said, and nothing is waited for without an end.
    """
    def read_here(*_: object) -> None:
        raise AssertionError("rows are read in the application")

    with monkeypatch.context() as patch:
        patch.setattr(gazetteer_rows, "places", read_here)
        assert read_in(jane, DATA).status_code == 303
        assert find(office, "100023336956") == (430000, 210000)
        receive(jane, DATA)
        patch.setattr(gazetteer_file, "MOST_SECONDS", 0)
        late = jane.post(f"{PATH}read", gazetteers.choice(jane))
        assert late.status_code == 409 and "takes more than 120 seconds" in said(late)
    given = gazetteer(office).given()
    assert given is not None
    asked = {"source": str(gazetteer(office).folder / GIVEN), "new": str(tmp_path), "middle": None,
             "columns": dataclasses.asdict(gazetteer_rows.Columns(0, 2, 3, 4, False, True)),
             "given": dataclasses.asdict(given)}
    assert "cannot be written" in gazetteer_file.answer(asked)["refused"]
    monkeypatch.setattr(turns, "SECONDS", 0.05)
    with gazetteer(office).lock:
        busy = jane.post(f"{PATH}drop")
    assert busy.status_code == 503 and "reading it in" in said(busy)


def test_a_file_that_ends_in_the_middle_never_has_the_name_of_another(
        tmp_path: pathlib.Path, monkeypatch: pytest.MonkeyPatch) -> None:
    """The application ends at each step at which a name is given, while another file is there: what
    is there then is whole, or nothing is.
    """
    store = Store(str(tmp_path / "office.db"))
    history = History(str(tmp_path / "history.jsonl"))
    replace = os.replace
    for at in (1, 2):
        folder, calls = tmp_path / str(at), list[object]()
        made = Gazetteer(folder, store, history)
        made.receive("jane", "old.csv", io.BytesIO(DATA))

        def ended(*given: Any, last: int = at, calls: list[object] = calls) -> None:
            calls.append(given)
            if len(calls) == last:
                raise OSError(28, "No space left on device")
            replace(*given)

        with monkeypatch.context() as patch, pytest.raises(Refused):
            patch.setattr("office.web.applications.gazetteer.os.replace", ended)
            made.receive("jane", "new.csv", io.BytesIO(csv_of(HEAD, "5,a,AB1 2CD,430000,210000")))
        given = Gazetteer(folder, store, history).given()
        data = (folder / GIVEN).read_bytes() if given else b""
        assert given is None or given.digest == hashlib.sha256(data).hexdigest(), given
    store.close()
    history.close()


def test_an_authority_of_300_000_addresses_is_read_in(
        office: Site, jane: Browser, record_property: Callable[[str, object], None]) -> None:
    """Some 35 MB, in one request; what it took is printed."""
    lines = (f'{100000000000 + it},"{it % 300} Some Street, A District of a Town, County",'
             f"AB{it // 15 % 20 + 1} {it // 300 % 10}{chr(65 + it // 3000 % 20)}B,"
             f"{430000 + it % 1000}.00,{210000 + it // 1000}.00,APPROVED PREFERRED 1"
             for it in range(300_000))
    data = csv_of(HEAD + ",STATUS", *lines)
    clock, cpu = time.monotonic(), time.process_time()
    assert read_in(jane, data).status_code == 303
    took = time.monotonic() - clock, time.process_time() - cpu
    summary: Summary = gazetteer(office).summaries()[0]
    assert (summary.keys, summary.many_left_out) == (300_000, 0)
    assert find(office, str(100000000000 + 123_456)) == (430456, 210123)
    record_property(f"{len(data) >> 20} MB", f"{took[0]:.0f} s, of which {took[1]:.0f} of CPU")
