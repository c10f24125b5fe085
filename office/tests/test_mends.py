"""Errors of many rows, mended by kinds: by buttons that say how they read what is written, whose
work is shown and can be undone; and a corrected file in the place of another.
"""
import datetime
import io
import json
import pathlib
import random
from collections.abc import Iterator
from typing import Any

import pytest
from applications import Site, office_over
from conftest import apply, child, school
from pages import Page, press
from staged import COLUMNS, TABLE, Screens, Seen, csv_of

from office.files import sheet
from office.web.applications.rows import OPEN, WITHDRAWN
from office.web.children import subject

TOWN = [school("OAK", pan=180, name="Oak School", criteria=["flag:2", "sibling"]),
        school("ELM", pan=120, name="Elm Grove", east=4000),
        school("YEW", pan=90, name="Yew Tree", east=9000),
        child(7, name="Old Hand", east=90000), apply(7, ["ELM"])]
GOOD = ["101", "Ada Abbot", "1000", "2000", "no", "", "", "2024-10-01", "OAK;ELM", ""]
PATH = "/applications/"


@pytest.fixture(name="office")
def office_fixture(tmp_path: pathlib.Path) -> Iterator[Site]:
    """The application over a register with three schools and a child."""
    with office_over(tmp_path, TOWN) as found:
        yield found


@pytest.fixture(name="screens")
def screens_fixture(office: Site) -> Screens:
    """The screens of an officer."""
    return Screens(office.browser("jane"))


def row(number: int, name: str, **cells: str) -> list[str]:
    """A row in which nothing is wrong but for these cells."""
    given = dict(zip(COLUMNS, GOOD)) | {"child": str(number), "name": name,
                                        "east": str(1000 + 300 * (number - 100))}
    return [{**given, **cells}[it] for it in COLUMNS]


def lines(*rows: list[str]) -> bytes:
    """Rows as a CSV."""
    return sheet.csv_bytes([COLUMNS, *rows])


def stored(office: Site, state: str = OPEN) -> dict[tuple[str, int], dict[str, str]]:
    """The cells of the rows of a state, by file and place."""
    staging = office.app.extensions["staging"].staging
    return {(it.file_name, it.number): it.cells for it in staging.rows(state)}


def kinds(seen: Seen) -> str:
    """What is said of the errors by kinds."""
    return " ".join(seen.texts["kinds"].split()) if "kinds" in seen.texts else ""


class Presses:
    """A person who counts what is pressed."""

    def __init__(self, screens: Screens) -> None:
        self.browser, self.count = screens.browser, 0
        self.page = Page(self.browser.get(PATH).text)

    def press(self, words: str, **given: str) -> "Presses":
        """A button of the page."""
        found = press(self.browser, PATH, self.page, words, **given)
        assert found.status_code == 303, found.text
        self.page = Page(self.browser.get(found.location).text)
        self.count += 1
        return self


def season() -> tuple[list[list[str]], dict[int, list[str]]]:
    """A file of 1,464 rows with 37 errors of five kinds, and what must be in the table at the end:
    18 days of two readings, nine times a school that is not there, five schools that are listed
    twice, three homes with commas, and two children whose name is missing.
    """
    drawn = random.Random(5)
    rows: list[list[str]] = []
    for at in range(1464):
        day = datetime.date(2024, 9, 13) + datetime.timedelta(drawn.randrange(17))
        rows.append([str(3000 + at), f"Given{at * 7919 % 10007} Family{at}", str(100 + 3 * at),
                     str(drawn.randrange(100, 9000)), "no", "", "", f"{day:%d/%m/%Y}",
                     ";".join(drawn.sample(["OAK", "ELM", "YEW"], 2)), "PRIM7"])
    right = {int(it[0]): [*it] for it in rows}
    places = iter(drawn.sample(range(1464), 37))
    for _ in range(18):
        it = rows[next(places)]
        it[7], right[int(it[0])][7] = "04/09/2024", "2024-09-04"
    for _ in range(9):
        it = rows[next(places)]
        it[8], right[int(it[0])][8] = "OAK;ELK;YEW", "OAK;ELM;YEW"
    for _ in range(5):
        it = rows[next(places)]
        it[8], right[int(it[0])][8] = "YEW;OAK;YEW", "YEW;OAK"
    for _ in range(3):
        it = rows[next(places)]
        it[2], right[int(it[0])][2] = "1,250", "1250"
    for name in ("Mo Marsh", "Nia North"):
        it = rows[next(places)]
        it[1], right[int(it[0])][1] = "", name
    return rows, right


def test_37_errors_of_five_kinds_are_mended_in_twelve_presses(
    office: Site, screens: Screens
) -> None:
    """Each cell is then what the family wrote; what was right is untouched, and all are ready."""
    rows, right = season()
    assert screens.add(("online.csv", lines(*rows))).status_code == 303
    hands = Presses(screens)
    assert "37 rows have errors of 5 kinds" in " ".join(hands.page.by_id["kinds"].split())
    hands.press("Read all as day/month/year")
    hands.press("Replace ELK by ELM in all 9 rows")
    hands.press("Keep the first of each")
    assert hands.page.by_id["answer"] == "Kept the first of each in 5 rows."
    hands.press("Leave the commas out of all")
    assert hands.page.by_id["answer"] == "Left the commas out of 3 rows."
    names = [it for it in hands.page.form("Save what was changed").values
             if it.startswith("name-")]
    staging = office.app.extensions["staging"].staging
    given = {it: right[int(staging.row(int(it.removeprefix("name-"))).cells["child"])][1]
             for it in names}
    assert len(given) == 2 and "verdict" not in hands.page.by_id
    hands.press("Save what was changed", **given)
    assert hands.count <= 12
    assert hands.page.by_id["verdict"].startswith("1,464 applications can be added")
    seen = screens.see("?show=ready")
    assert "kinds" not in seen.texts and "1,464 rows" in " ".join(seen.text.split())
    assert {int(it["child"]): [it[column] for column in COLUMNS]
            for it in stored(office).values()} == right
    assert screens.see("commit/").texts["verdict"] == (
        "1,464 applications can be added: 1,464 in time and 0 late.")


def test_a_button_says_what_it_did_and_takes_it_back(office: Site, screens: Screens) -> None:
    """Each row is as it was before, but for one that somebody has changed since."""
    rows = [row(101, "Ada Abbot", day="04/09/2024"), row(102, "Ben Brook", day="05/09/2024"),
            row(103, "Cleo Carver", day="21/09/2024"), row(104, "Dov Drake", day="06/09/2024")]
    screens.add(("a.csv", lines(*rows)))
    before = stored(office)
    seen = screens.see("")
    assert "Days that can be read in two ways 3 different values, as 04/09/2024 in row 2 of" \
        " a.csv; 1 other day can only be day/month/year 3 rows" in kinds(seen)
    assert len(seen.rows()) == 3
    done = screens.press("Read all as day/month/year")
    assert "All read as day/month/year in 3 rows." in done.texts["answer"]
    assert '"04/09/2024" to "2024-09-04"' in " ".join(done.text.split())
    assert {it["day"] for it in stored(office).values()} == {
        "2024-09-04", "2024-09-05", "2024-09-06", "21/09/2024"}
    entry = office.parts.history.entries[-1]
    assert (entry.who, entry.what) == ("jane", "corrected applications")
    assert entry.about["rows"] == "2, 3, 5 of a.csv"
    bo = Screens(office.browser("bo"))
    bo.save(2, name="Ben Brooke")
    undo = f"?did={entry.number}"
    assert "1 row of these was changed since" in " ".join(screens.see(undo).text.split())
    screens.press("Undo", undo)
    assert stored(office) == {**before, ("a.csv", 3): {
        **before["a.csv", 3], "day": "2024-09-05", "name": "Ben Brooke"}}
    again = screens.browser.post("/applications/undo", {"entry": str(entry.number)})
    assert again.status_code == 409 and "cannot be undone any more" in again.text
    assert office.parts.history.entries[-1].what == "undid a correction of applications"


def test_days_of_the_other_reading(screens: Screens) -> None:
    """Where the other days of the file can only be month/day/year, no button reads them otherwise;
    where some are of each kind, both are there.
    """
    screens.add(("a.csv", lines(row(101, "Ada Abbot", day="04/09/2024"),
                                row(102, "Ben Brook", day="09/21/2024"))))
    seen = screens.see("")
    assert "Read all as month/day/year" in seen.buttons
    assert "Read all as day/month/year" not in seen.buttons
    screens.add(("b.csv", lines(row(103, "Cleo Carver", day="04/09/2024"),
                                row(104, "Dov Drake", day="22/09/2024"))))
    assert {"Read all as month/day/year", "Read all as day/month/year"} <= set(
        screens.see("").buttons)


def test_a_colleague_changes_a_row_of_a_kind_first(office: Site, screens: Screens) -> None:
    """Then the button does nothing: what it would do is another thing than what was shown."""
    screens.add(("a.csv", lines(row(101, "Ada Abbot", preferences="OAK;ELK"),
                                row(102, "Ben Brook", preferences="ELK"))))
    page = Page(screens.browser.get(PATH).text)
    Screens(office.browser("bo")).save(2, preferences="YEW")
    before = stored(office)
    found = press(screens.browser, PATH, page, "Replace ELK by ELM in all 2 rows")
    assert found.status_code == 409 and "has changed since it was shown" in found.text
    assert stored(office) == before


# cells of two rows each: what the kind is called, its button, and what the cells have after
BY_KINDS: list[tuple[str, tuple[str, str], str, str, tuple[str, str]]] = [
    ("day", ("45566", "45567"), "Days as a spreadsheet’s number",
     "Read all as a spreadsheet’s days", ("2024-10-01", "2024-10-02")),
    ("day", ("20/10/24", "3 Oct 24"), "Years of two digits", "Read all as years from 2000",
     ("2024-10-20", "2024-10-03")),
    ("preferences", ("OAK;;ELM", "ELM;;;YEW"), "A school is missing between others",
     "Close the gap in all", ("OAK;ELM", "ELM;YEW")),
    ("preferences", ("Oak Schol;ELM", "oak schol"), "There is no school Oak Schol",
     "Replace Oak Schol by OAK in all 2 rows", ("OAK;ELM", "OAK")),
    ("east", ("1000.5", "2000.49"), "Homes with a fraction of a metre", "Round all to whole metres",
     ("1001", "2000")),
    ("looked_after", ("none", "None"), 'Looked after: "none"',
     'Take "none" as no in all 2 rows: not looked after',
     ("no", "no")),
    ("flags", ("medical need", "Medical  need"), "There is no reason medical need",
     'Read "medical need" as 2 in all 2 rows', ("2", "2")),
    ("name", ("Ada\nAbbot", "Ben\nBrook"), "Names on more than one line", "Write all on one line",
     ("Ada Abbot", "Ben Brook")),
    ("child", ("", ""), "Numbers that are missing", "Give each the next free number, 8 to 9",
     ("8", "9")),
]


def test_a_button_says_what_it_decides(screens: Screens) -> None:
    """Who is looked after comes first at each school: nobody decides that by a spelling."""
    screens.add(("a.csv", lines(row(101, "Ada Abbot", looked_after="perhaps"),
                                row(102, "Ben Brook", looked_after=""),
                                row(103, "Cleo Carver", looked_after=""))))
    seen = screens.see("")
    assert {'Take "perhaps" as yes: looked after', 'Take "perhaps" as no: not looked after',
            "Take an empty cell as no in all 2 rows: not looked after"} <= set(seen.buttons)
    done = screens.press("Take an empty cell as no in all 2 rows: not looked after")
    assert done.texts["answer"] == "An empty cell taken as no in 2 rows."


@pytest.mark.parametrize("column, given, title, button, after", BY_KINDS)
def test_each_kind_has_a_button_that_says_its_reading(
    office: Site, screens: Screens, column: str, given: tuple[str, str], title: str, button: str,
    after: tuple[str, str],
) -> None:
    """And nothing is left of it when it was pressed."""
    office.parts.store.set("flags", json.dumps({"2": "medical need"}))
    rows = [row(101, "Ada Abbot"), row(102, "Ben Brook")]
    for it, text in zip(rows, given):
        it[COLUMNS.index(column)] = text
    screens.add(("a.csv", lines(*rows)))
    seen = screens.see("")
    assert "2 rows have errors of 1 kind" in kinds(seen) and title in kinds(seen)
    assert all(len(seen.said(it, column).split()) <= 8 for it in (1, 2))
    done = screens.press(button)
    assert "kinds" not in done.texts, done.text
    assert [it[column] for it in stored(office).values()] == list(after)


def test_a_school_that_nobody_knows_is_chosen_or_left_out(office: Site, screens: Screens) -> None:
    """In all rows at once, in whichever column it is; nothing is proposed for it."""
    screens.add(("a.csv", lines(
        row(101, "Ada Abbot", preferences="OAK;QXZ"), row(102, "Ben Brook", siblings="QXZ"),
        row(103, "Cleo Carver", preferences="QXZ"))))
    seen = screens.see("")
    assert not [it for it in seen.buttons if it.startswith("Replace QXZ by")]
    screens.press("Replace in 3 rows", "?", 409)
    screens.press("Replace in 3 rows", "?", 303, **{"by-school qxz": "YEW"})
    found = list(stored(office).values())
    assert [it["preferences"] for it in found] == ["OAK;YEW", "OAK;ELM", "YEW"]
    assert found[1]["siblings"] == "YEW"
    screens.press("Undo", f"?did={office.parts.history.entries[-1].number}")
    screens.press("Replace in 3 rows", "?", 303, **{"by-school qxz": "-"})
    found = list(stored(office).values())
    assert [it["preferences"] for it in found] == ["OAK", "OAK;ELM", ""]
    assert "Preferences that are missing" in kinds(screens.see(""))


def test_a_flag_that_is_none_is_chosen_from_those_that_have_words(
    office: Site, screens: Screens
) -> None:
    """At its cell by a button for each, or in all rows from a menu; nothing is likely for it."""
    office.parts.store.set("flags", json.dumps({"2": "medical need", "3": "child of staff"}))
    screens.add(("a.csv", lines(row(101, "Ada Abbot", flags="16;3"), row(102, "Ben", flags="16"))))
    seen = screens.see("")
    assert seen.said(1, "flags") == "Reason 16 is none of 2, 3."
    assert {"2 medical need", "3 child of staff", "Leave it out"} <= set(seen.buttons)
    assert not [it for it in seen.buttons if it.startswith("Read ")]
    screens.send(2, {"meant": "flags-2=2"})
    assert [it["flags"] for it in stored(office).values()] == ["16;3", "2"]
    done = screens.press("Replace in 1 row", "?", 303, **{"by-flag 16": "-"})
    assert done.texts["answer"] == "Left 16 out of 1 row."
    assert [it["flags"] for it in stored(office).values()] == ["3", "2"]


def test_what_is_chosen_in_another_menu_stays(office: Site, screens: Screens) -> None:
    """Where one of two is replaced: the other is not, and its menu has what was chosen there."""
    screens.add(("a.csv", lines(row(101, "Ada Abbot", preferences="QXZ"),
                                row(102, "Ben Brook", preferences="QXZ"),
                                row(103, "Cleo Carver", preferences="VVV"))))
    found = press(screens.browser, PATH, Page(screens.browser.get(PATH).text), "Replace in 2 rows",
                  **{"by-school qxz": "YEW", "by-school vvv": "OAK"})
    page = Page(screens.browser.get(found.location).text)
    assert [it["preferences"] for it in stored(office).values()] == ["YEW", "YEW", "VVV"]
    assert page.by_id["answer"] == "Replaced QXZ by YEW in 2 rows."
    assert page.form("Replace in 1 row").values["by-school vvv"] == ["OAK"]


def test_a_reason_or_a_sibling_is_left_out_of_one_row(office: Site, screens: Screens) -> None:
    """By a button at its cell; what else the cell has stays."""
    screens.add(("a.csv", lines(row(101, "Ada Abbot", flags="16;3"),
                                row(102, "Ben Brook", siblings="QXZ;OAK"))))
    assert screens.see("").buttons.count("Leave it out") == 2
    screens.send(1, {"meant": "flags-1=3"})
    screens.send(2, {"meant": "siblings-2=OAK"})
    assert [(it["flags"], it["siblings"]) for it in stored(office).values()] == [
        ("3", ""), ("", "OAK")]


def test_a_home_is_typed_where_there_is_no_gazetteer(office: Site, screens: Screens) -> None:
    """Nothing is there to look it up by, and how many are left is said once."""
    screens.add(("a.csv", lines(row(101, "Ada Abbot", east="", north=""), row(102, "Ben Brook"))))
    seen = screens.see("points/")
    assert seen.texts["counts"] == "1 home to locate, of 2 rows in the table."
    assert "Save the point" in seen.buttons and "Look up" not in seen.buttons
    typing = " ".join(seen.texts["typing"].split())
    assert typing.startswith("Type the point of the home on the British National Grid in whole"
                             " metres, such as 123456 east and 654321 north, and press ‘Save the"
                             " point’")
    assert "its point on a map that shows the National Grid" in typing
    assert "Property number" not in seen.text and "East, in metres" in seen.text
    done = screens.press("Save the point", "points/", east="1000", north="2000")
    assert done.texts["ready"] == "All rows are ready"
    assert list(stored(office).values())[0]["east"] == "1000"


def test_one_number_in_two_rows(office: Site, screens: Screens) -> None:
    """Of one child the earlier form is set aside; of two children the second gets a free number.
    """
    screens.add(("a.csv", lines(
        row(101, "Ada Abbot", day="2024-10-02"), row(101, "Abbot, Ada", day="2024-10-09"),
        row(102, "Ben Brook"), row(102, "Gus Grant", east="9000"))))
    seen = screens.see("")
    assert "One child in two rows" in kinds(seen) and "Two children with one number" in kinds(seen)
    screens.press("Keep the later form of each")
    assert list(stored(office, WITHDRAWN)) == [("a.csv", 2)]
    screens.press("Give the second the next free number, 103")
    assert [(it["child"], it["name"]) for it in stored(office).values()] == [
        ("101", "Abbot, Ada"), ("102", "Ben Brook"), ("103", "Gus Grant")]
    assert "kinds" not in screens.see("").texts


def test_rows_of_one_kind_and_those_that_are_set_aside(office: Site, screens: Screens) -> None:
    """A link shows the rows of a kind alone; they can be set aside together, and put back."""
    screens.add(("a.csv", lines(
        row(101, "", day="31/11/2024"), row(102, ""), row(103, "Cleo Carver", day="2024-02-30"),
        row(104, "Dov Drake"))))
    key = "?kind=names-that-are-missing"
    assert f'{key}#rows"' in screens.browser.get(PATH).text
    assert "Names that are missing shown below" in kinds(screens.see(key))
    assert screens.see("?kind=names-that-are-missing").rows() == [1, 2]
    assert screens.see("?kind=days-that-cannot-be-read").rows() == [1, 3]
    screens.set_aside("Set 2 rows aside", "?kind=names-that-are-missing")
    assert screens.see("?show=aside").rows() == [1, 2] and screens.see("?show=errors").rows() == [3]
    assert screens.see("?show=ready").rows() == [4]
    screens.press("Put back 2 rows", "?show=aside")
    assert len(stored(office)) == 4


def test_each_row_that_is_set_aside_says_why(screens: Screens) -> None:
    """What is wrong in it, also beside the rows of the table; and only its note is a field. Its
    screen has these rows alone.
    """
    screens.add(("a.csv", lines(
        row(101, "", day="31/11/2024"), row(102, "Ben Brook"), row(103, "Cleo Carver"),
        row(103, "Dov Drake", preferences="ELK"))))
    for number in (1, 2, 4):
        screens.withdraw(number)
    seen = screens.see("withdrawn")
    assert seen.rows() == [1, 2, 4]
    assert all(seen.values(it) == {"remark": ""} for it in seen.rows())
    assert seen.said(1, "name") == "The name is missing."
    assert seen.said(1, "day") == "There is no such day."
    assert seen.said(4, "child") == "Also in row 4 of a.csv."
    assert seen.said(4, "preferences") == "There is no school ELK."
    said = "No error was found in it."
    assert [said in seen.texts[f"row-{it}"] for it in seen.rows()] == [False, True, False]
    assert not {"kinds", "next", "sources", "by-day"} & {*seen.texts}


def test_rows_that_are_set_aside_are_asked_about_noted_and_edited(
    office: Site, screens: Screens,
) -> None:
    """A note stays with its row; an edited row stays aside until it is put back."""
    screens.add(("a.csv", lines(row(101, "Ada Abbot", day="31/11/2024"), row(102, "Ben Brook"))))
    asked = screens.press("Set 2 rows of a.csv aside")
    assert "takes no part in a round until the row is put back" in asked.text
    assert screens.see().rows() == [1, 2]
    note = "the family was asked on 3 November"
    screens.set_aside("Set 2 rows of a.csv aside", note=note)
    seen = screens.see("?show=aside")
    assert [seen.values(it) for it in (1, 2)] == [{"remark": note}] * 2
    assert screens.see().rows() == []
    edited = screens.see("?show=aside&edit=1")
    assert edited.values(1)["day"] == "31/11/2024" and edited.values(2) == {"remark": note}
    typed = {"day-1": "30/11/2024", "remark-1": "it was the 30th"}
    found = screens.browser.post(edited.actions[TABLE], {**edited.sent(), **typed})
    assert found.status_code == 303
    seen = screens.see("?show=aside")
    assert seen.values(1) == {"remark": "it was the 30th"}
    assert seen.said(1, "day") == "Late: no part in the first round."
    entry = office.parts.history.entries[-1].about
    assert entry["remark"] == f'"{note}" to "it was the 30th"'
    assert screens.bring_back(1).status_code == 303
    seen = screens.see()
    assert seen.rows() == [1] and "Note: it was the 30th" in " ".join(seen.texts["row-1"].split())


def test_only_wrong_cells_are_fields(screens: Screens) -> None:
    """A right cell is text as it is read, and becomes a field by the row's link."""
    screens.add(("a.csv", lines(row(101, "Ada Abbot", day="20/10/2024", preferences="oak;OAK"))))
    seen = screens.see("")
    assert seen.values(1) == {"preferences": "oak;OAK"} and "20 October 2024" in seen.text
    assert set(screens.see("?edit=1").values(1)) == set(COLUMNS)
    assert seen.buttons.index("Save what was changed") < seen.buttons.index("Keep the first"), (
        "Enter in a field presses the first button of its form")


def test_a_flag_that_says_nothing_is_to_check(office: Site, screens: Screens) -> None:
    """One without words, and one that no criterion of the season uses; with its words."""
    office.parts.store.set("flags", json.dumps({"2": "medical need", "3": "child of staff"}))
    screens.add(("a.csv", lines(row(101, "Ada Abbot", flags="2"), row(102, "Ben Brook", flags="3"),
                                row(103, "Cleo Carver", flags="2;5"))))
    seen = screens.see("?show=check")
    assert seen.rows() == [2, 3]
    assert "3 child of staff" in seen.text and "2 medical need; 5" in seen.text
    assert seen.said(2, "flags") == "Reason 3 is in no criterion."
    assert seen.said(3, "flags") == "Reason 5 has no words."


def replacing(screens: Screens, data: bytes, name: str = "a.csv", file: int = 1) -> Any:
    """A corrected file is sent for one of the table."""
    screens.see()
    found = screens.browser.post(
        f"/applications/file/{file}", {f"file-{file}": (io.BytesIO(data), name)},
        content_type="multipart/form-data")
    return found


def test_a_corrected_file_takes_the_place_of_another(office: Site, screens: Screens) -> None:
    """What changes is shown before; no row is there twice, what was corrected in the table stays,
    and all of it can be taken back.
    """
    old = [row(101, "Ada Abbot", day="2024-02-30"), row(102, "Ben Brook"),
           row(103, "Cleo Carver", preferences="ELK"), row(104, "Dov Drake")]
    screens.add(("a.csv", lines(*old)))
    screens.save(3, preferences="YEW")
    before = stored(office)
    new = [row(102, "Ben Brook"), row(101, "Ada Abbot", day="2024-10-03"),
           row(103, "Cleo Carver", preferences="ELK"), row(105, "Eve Ellis")]
    assert replacing(screens, lines(*old)).status_code == 409, "it is the same file"
    found = replacing(screens, lines(*new))
    assert found.status_code == 303 and stored(office) == before
    page = Page(screens.browser.get(found.location).text)
    assert page.tables["changed"][1:] == [
        ["Ada Abbotrow 2 of a.csv", "101", "Applied", "2024-02-30", "2024-10-03"]]
    assert page.tables["added"][1:] == [["row 5 of a.csv (2)", "105", "Eve Ellis"]]
    assert page.tables["gone"][1:] == [["row 5 of a.csv", "104", "Dov Drake"]]
    done = screens.press("Replace the rows of a.csv", "file/1")
    assert "1 row changed, 1 added and 1 set aside" in done.texts["answer"]
    after = {it["child"]: it for it in stored(office).values()}
    assert sorted(after) == ["101", "102", "103", "105"]
    assert (after["101"]["day"], after["103"]["preferences"]) == ("2024-10-03", "YEW")
    assert [it["child"] for it in stored(office, WITHDRAWN).values()] == ["104"]
    known = subject.known_of(office.parts.store, 103)
    assert {it for it, is_own in known.places.items() if is_own} == {
        ("a.csv", 4), ("a.csv (2)", 4)}, "what the history says of its row stays the child's"
    screens.press("Undo", f"?did={office.parts.history.entries[-1].number}")
    assert stored(office) == before
    assert [it["child"] for it in stored(office, WITHDRAWN).values()] == ["105"]


def test_a_value_that_was_corrected_on_both_sides_is_marked(
    office: Site, screens: Screens
) -> None:
    """The new file's is taken, as it was shown."""
    screens.add(("a.csv", lines(row(101, "Ada Abbot"))))
    screens.save(1, name="Ada Abbott", east="")
    found = replacing(screens, lines(row(101, "Ada Abbot-Day", north="77")))
    text = " ".join(Page(screens.browser.get(found.location).text).by_id["changes"].split())
    # (the two numbers of a point are one)
    assert "another value in 2 cells that were corrected in the table" in text
    assert "Ada Abbott corrected here" in text
    screens.press("Replace the rows of a.csv", "file/1")
    cells = next(iter(stored(office).values()))
    assert (cells["name"], cells["east"], cells["north"]) == ("Ada Abbot-Day", "1300", "77")


def test_a_corrected_file_is_forgotten_or_comes_too_late(office: Site, screens: Screens) -> None:
    """Nothing is changed by looking at it, by leaving it, nor where the table is another."""
    screens.add(("a.csv", lines(row(101, "Ada Abbot"), row(102, "Ben Brook"))))
    before = stored(office)
    replacing(screens, lines(row(101, "Ada Abbott")))
    page = Page(screens.browser.get("/applications/file/1").text)
    Screens(office.browser("bo")).save(2, name="Ben Brooke")
    late = press(screens.browser, PATH, page, "Replace the rows of a.csv")
    assert late.status_code == 409 and "has changed since it was shown" in late.text
    screens.press("Leave them as they are", "file/1")
    assert stored(office) == {**before, ("a.csv", 3): {**before["a.csv", 3], "name": "Ben Brooke"}}
    assert screens.browser.get("/applications/file/1").status_code == 409
    assert replacing(screens, csv_of("1,x"), "b.csv", 99).status_code == 409


def test_pictures_agree_with_the_rows(screens: Screens) -> None:
    """Days and first preferences, counted here."""
    screens.add(("a.csv", lines(
        row(101, "Ada Abbot", day="2024-10-28", preferences="ELM"),
        row(102, "Ben Brook", day="2024-10-28", preferences="OAK;ELM"),
        row(103, "Cleo Carver", day="2024-11-04", preferences="ELM;OAK"))))
    page = Page(screens.browser.get(PATH).text)
    text = " ".join(page.by_id["by-day"].split())
    assert "1 of 3 applications is dated after the closing date, 31 October 2024." in text
    assert page.tables["by-week"][1:] == [["28 October 2024", "2"], ["4 November 2024", "1"]]
    wanted = next(it for name, it in page.tables.items() if name.startswith("How many of these"))
    assert wanted[1:] == [["Elm Grove", "2", "for 120"], ["Oak School", "1", "for 180"],
                          ["Yew Tree", "0", "for 90"]]
    drawn = page.text[page.text.index('id="by-day-drawn-title"'):]
    assert drawn.index("28 October: 2") < drawn.index("4 November: 1")
