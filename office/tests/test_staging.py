"""The staging table: files in, each fault at its cell and corrected there, duplicates, forms; and
one import, of what was shown and nothing else.
"""
import contextlib
import datetime
import io
import pathlib
import resource
import sqlite3
import threading
import time
import types
import zipfile
from collections.abc import Callable, Iterator
from typing import Any

import hostile
import openpyxl
import pytest
from applications import ORIGIN, Site, office_over, site
from conftest import ROOT, apply, child, make, school
from pages import Page, press
from register_files import Refused
from served import served
from staged import COLUMNS, Screens, Seen, csv_of, workbook
from werkzeug.datastructures import FileStorage

from office.core import fields, turns
from office.core.model import Register
from office.core.senders import Ended
from office.files import inputs, sheet, sheet_apart
from office.files import processes as apart
from office.web.applications import table_check
from office.web.applications import commit as staging_commit
from office.web.applications import form as staging_form
from office.web.applications import imports as staging_imports
from office.web.applications import tools as staging_tools
from office.web.applications.rows import COMMITTED, OPEN, SENDING, WITHDRAWN
from office.web.frame import uploads
from office.web.people.roles import Person
from office.web.register import history, schema, store
from office.web.rounds import lot_sheets_apart

TOWN = [school("OAK", name="Oak School"), school("ELM", name="Elm School", east=500),
        child(7, name="Old Hand", east=9000), apply(7, ["ELM"])]
CLOSING = datetime.date(2024, 10, 31)
# the cells of rows in which nothing is wrong
GOOD = [
    ["101", "Ada Abbot", "1000", "2000", "no", "", "OAK", "2024-10-01", "OAK;ELM", "PRIM7"],
    ["102", "Ben Brook", "1100", "2100", "no", "2;5", "", "2024-10-02", "ELM", ""],
    ["103", "Cleo Carver", "1200", "2200", "yes", "", "", "2024-10-03", "OAK", ""],
    ["104", "Dov Drake", "1300", "2300", "no", "", "", "2024-10-04", "ELM;OAK", ""],
    ["105", "Eve Ellis", "1400", "2400", "no", "0", "", "2024-10-05", "OAK", ""],
    ["106", "Finn Fenwick", "1500", "2500", "no", "", "OAK;ELM", "2024-10-06", "OAK", "PRIM8"],
    ["107", "Gus Grant", "1600", "2600", "no", "", "", "2024-10-07", "ELM", ""],
    ["108", "Hana Hurst", "1700", "2700", "yes", "", "", "2024-10-08", "ELM", ""],
    ["109", "Ivo Ings", "1800", "2800", "no", "", "", "2024-10-09", "OAK", ""],
    ["110", "June Jarvis", "1900", "2900", "no", "", "", "2024-10-10", "OAK;ELM", ""],
    ["111", "Kit Keane", "2000", "3000", "no", "", "", "2024-10-11", "ELM", ""],
    ["112", "Lou Lamb", "2100", "3100", "no", "", "", "2024-11-01", "OAK", ""],
]
# in each row of these one cell is wrong: the place of the column, and what it has
FAULTS = [(0, "12a"), (1, ""), (2, "4150.5"), (3, "3,620"), (4, "maybe"), (5, "16"), (6, "ZZZ"),
          (7, "2024-02-30"), (8, "OAK;OAK"), (9, "St. Ann"), (0, "102")]


@pytest.fixture(name="office")
def office_fixture(tmp_path: pathlib.Path) -> Iterator[Site]:
    """The application over a register with two schools and a child."""
    with office_over(tmp_path, TOWN) as found:
        yield found


@pytest.fixture(name="screens")
def screens_fixture(office: Site) -> Screens:
    """The screens of an officer."""
    return Screens(office.browser("jane"))


def lines(rows: list[list[str]]) -> bytes:
    """Rows as a CSV."""
    return sheet.csv_bytes([COLUMNS, *rows])


def changed(row: list[str], at: int, text: str) -> list[str]:
    """A row with another cell."""
    return [*row[:at], text, *row[at + 1:]]


def codes(text: str) -> tuple[str, ...]:
    """The items of a list."""
    return tuple(text.split(";")) if text else ()


def expected(rows: list[list[str]]) -> dict[int, tuple[Any, ...]]:
    """What a register must have of these rows, worked out here."""
    found: dict[int, tuple[Any, ...]] = {}
    for it in rows:
        found[int(it[0])] = (
            it[1], int(it[2]), int(it[3]), it[4] == "yes", tuple(map(int, codes(it[5]))),
            codes(it[6]), it[9], datetime.date.fromisoformat(it[7]), codes(it[8]))
    return found


def has(register: Register, without: tuple[int, ...] = (7,)) -> dict[int, tuple[Any, ...]]:
    """What a register has, but for some children."""
    found: dict[int, tuple[Any, ...]] = {}
    for number, it in register.children.items():
        if number not in without:
            applied = register.applications[number]
            found[number] = (it.name, it.east, it.north, it.looked_after, it.flags, it.siblings,
                             it.present, applied.day, applied.preferences)
    return found


def imports(office: Site) -> list[dict[str, Any]]:
    """The imports that were sent, as the history has them."""
    return [it.about for it in office.parts.history.entries
            if it.what == "sends" and "import" in it.about]


def states(office: Site) -> dict[str, int]:
    """How many rows the store has in each state."""
    found = office.parts.store.rows("SELECT state, count(*) AS many FROM staged_row GROUP BY state")
    return {it["state"]: it["many"] for it in found}


def typed(row: list[str]) -> list[object]:
    """A row as a spreadsheet keeps it: numbers and days as such."""
    days = [datetime.datetime.fromisoformat(row[7]) if row[7] != "2024-02-30" else row[7]]
    numbers = [int(it) if it.isdigit() else it for it in row[:4]]
    return [it if it != "" else None for it in [*numbers, *row[4:7], *days, *row[8:]]]


def test_each_fault_is_found_and_corrected_at_its_cell(office: Site, screens: Screens) -> None:
    """Eleven kinds in one workbook. The register then has what the corrected table says."""
    rows = [changed(GOOD[at], *fault) for at, fault in enumerate(FAULTS)] + [GOOD[11]]
    assert screens.add(("autumn.xlsx", workbook([typed(it) for it in rows]))).status_code == 303
    seen = screens.see()
    where = {at: seen.row(f"row {at + 2} of autumn.xlsx") for at in range(12)}
    places = [COLUMNS[at] for at, _ in FAULTS]
    assert seen.wrong() == {(where[at], column) for at, column in enumerate(places)}
    assert seen.rows()[:11] == [where[at] for at in range(11)], "rows with errors are first"
    for at, column in enumerate(places):
        said = seen.said(where[at], column)
        assert said and len(said.split()) <= 8, (column, said)
    assert seen.said(where[6], "siblings") == "There is no school ZZZ."
    assert seen.said(where[10], "child") == "Also in row 3 of autumn.xlsx."
    page = screens.see("commit/")
    assert not any(it.startswith("Add ") for it in page.buttons)
    assert "11 rows with errors must" in page.text
    assert screens.store().status_code == 409 and not imports(office)
    for at, (place, _) in enumerate(FAULTS):
        found = screens.save(where[at], **{COLUMNS[place]: GOOD[at][place]})
        assert found.status_code == 303 and "#" not in found.location
        seen = Seen(screens.browser.get(found.location).text)
        # (the last row has the number of the second one)
        left = "1 error left" if at == 1 else "nothing is wrong in it"
        assert left in seen.texts["answer"]
        assert seen.focused() == [(where[it], places[it]) for it in range(at + 1, 11)][:1]
    assert not screens.see().wrong()
    page = screens.see("commit/")
    assert page.buttons.count("Add 12 applications") == 1
    assert screens.store().status_code == 303
    assert has(office.parts.desk.now()) == expected(GOOD)
    assert len(imports(office)) == 1 and states(office) == {COMMITTED: 12}
    number = next(it.number for it in office.parts.history.entries if "import" in it.about)
    entries = office.parts.store.rows("SELECT DISTINCT entry FROM staged_row")
    assert [it["entry"] for it in entries] == [number]
    assert not screens.see().rows()


def test_families_may_change_theirs_until_the_closing_day(
    screens: Screens, monkeypatch: pytest.MonkeyPatch
) -> None:
    """The question says so up to that day, and not after it."""
    screens.add(("autumn.csv", lines(GOOD)))
    for day, is_said in ((CLOSING, True), (CLOSING + datetime.timedelta(1), False)):
        monkeypatch.setattr(staging_tools, "today", lambda day=day: day)
        page = screens.see("commit/")
        assert page.buttons.count("Add 12 applications") == 1
        assert " ".join(page.texts["final"].split()) == (
            "In the register an application is final: its number, its schools, their order and its"
            " day stay, and it cannot be withdrawn. Name, home, ‘Looked after’, verified reasons,"
            " siblings’ schools and present school can still be corrected on the child’s page.")
        assert ("families may change theirs" in " ".join(page.text.split())) == is_said


def test_a_file_without_errors_leads_to_its_question(office: Site, screens: Screens) -> None:
    """It says what was added, what is to be checked first, and how the file was read. A second
    press and a second window store nothing more, and lead to what is said of the first.
    """
    rows = [*GOOD, ["113", "Lou Lambe", "2100", "3100", "no", "", "", "2024-10-12", "OAK", ""]]
    found = screens.add(("a.csv", lines(rows).decode().replace("Ada Abbot", "Zo\xeb Abbot")
                         .encode("windows-1252")))
    assert found.location.startswith("/applications/commit/?added=")
    page = Seen(screens.browser.get(found.location).text)
    assert page.texts["answer"] == "a.csv is added: 13 rows."
    assert page.buttons.count("Add 13 applications") == 1 and not imports(office)
    counts = " ".join(page.texts["counts"].split())
    assert "To check first 4 rows Possible duplicates 1 pair" in counts
    assert "are these the right letters? Zo\xeb (1 row)" in " ".join(page.texts["read-as"].split())
    digest, other = page.value("digest"), screens.digest()
    done = screens.store(digest)
    assert done.status_code == 303 and other == digest
    for _ in range(2):
        again = screens.store(digest)
        assert (again.status_code, again.location) == (303, done.location)
    said = Seen(screens.browser.get(done.location).text).texts["answer"]
    assert said == "Added to the register: 13 applications."
    assert len(imports(office)) == 1 and states(office) == {COMMITTED: 13}


def test_a_file_with_one_error_leads_to_it_and_its_correction_to_the_question(
    office: Site, screens: Screens
) -> None:
    """So does a row that is set aside; a row in which nothing was wrong leads back to the table."""
    found = screens.add(("a.csv", lines([changed(GOOD[0], 2, "1,000"), *GOOD[1:3]])))
    assert found.location.startswith("/applications/?added=")
    page = Seen(screens.browser.get(found.location).text)
    row = page.row("row 2 of a.csv")
    assert page.wrong() == {(row, "east")} and page.texts["answer"] == "a.csv is added: 3 rows."
    found = screens.save(row, east="1000")
    page = Seen(screens.browser.get(found.location).text)
    assert page.texts["answer"] == "Saved: row 2 of a.csv; nothing is wrong in it."
    assert page.buttons.count("Add 3 applications") == 1
    assert screens.save(row, east="1001").location.startswith("/applications/?")
    assert screens.save(row, east="1,001").location.startswith("/applications/?")
    found = screens.withdraw(row)
    page = Seen(screens.browser.get(found.location).text)
    assert "Set aside: row 2 of a.csv." in page.texts["answer"]
    assert page.buttons.count("Add 2 applications") == 1 and not imports(office)


def test_until_the_closing_day_the_table_is_where_applications_are_collected(
    screens: Screens, monkeypatch: pytest.MonkeyPatch
) -> None:
    """No file and no correction leads to what would make them final."""
    monkeypatch.setattr(staging_tools, "today", lambda: CLOSING)
    wrong = changed(GOOD[0], 2, "1,000")
    assert screens.add(("a.csv", lines(GOOD[1:]))).location.startswith("/applications/?added=")
    assert screens.add(("b.csv", lines([wrong]))).location.startswith("/applications/?added=")
    row = screens.see().row("row 2 of b.csv")
    assert screens.save(row, east="1000").location.startswith("/applications/?")
    assert "Add 12 applications" in screens.see("commit/").buttons


def test_the_counts_are_those_of_the_rows(office: Site, screens: Screens) -> None:
    """By hand: 12 of which one is late; 7 want OAK first and 5 ELM; 2 are looked after. To check
    are the late one, and two with flags of which this office has no words.
    """
    screens.add(("a.csv", lines(GOOD)))
    seen = screens.see("commit/")
    text = " ".join(seen.texts["counts"].split())
    assert text == ("Applications 12 In time 11, up to 31 October 2024 Late 1 Looked after 2"
                    " To check first 3 rows")
    assert "OAK Oak School 7" in " ".join(seen.text.split())
    assert "ELM Elm School 5" in " ".join(seen.text.split())
    assert seen.texts["verdict"] == "12 applications can be added: 11 in time and 1 late."
    assert office.parts.desk.now().children.keys() == {7}


def test_equal_changes_are_summed(screens: Screens) -> None:
    """A change of many rows is one line, and one of a single row is at its cell."""
    rows = [[str(at), f"Child{at * 7919 % 10007} Surname", str(at), "0", "No", "", "", "2024-10-20",
             "OAK", ""] for at in range(201, 349)]
    rows[5] = changed(rows[5], 8, "elm")
    screens.add(("a.csv", lines(rows)))
    seen = screens.see()
    assert '148 × "No" read as "no" (Looked after)' in seen.texts["changes"]
    row = screens.see("?find=206").row("row 7 of a.csv")
    seen = screens.see(f"?row={row}")
    assert seen.said(row, "preferences") == 'written "elm"' and not seen.said(row, "looked_after")
    assert len(screens.see().rows()) == 50 and len(screens.see("?page=3").rows()) == 48
    assert screens.see("?show=errors").rows() == [] and "All 148" in " ".join(seen.text.split())
    assert screens.see("?find=206").rows() == [row]
    assert screens.see("?find=SURNAME, " + rows[5][1].split()[0]).rows() == [row]


def test_several_files_and_their_names(office: Site, screens: Screens) -> None:
    """Each row knows its file and its row there, and each file who added it; one that is refused
    keeps none out.
    """
    screens.add(("a.csv", lines(GOOD[:2])), ("C:\\Temp\\b\u202e.csv", lines(GOOD[2:4])))
    bo = Screens(office.browser("bo"))
    found = bo.add(("a.csv", lines(GOOD[4:6])), ("notes.pdf", b"%PDF-1.4"))
    assert found.status_code == 409
    seen = Seen(found.text)
    assert "notes.pdf is a PDF" in seen.texts["answer"]
    assert "Added: a.csv (2)" in seen.texts["answer"]
    assert {seen.row(it) for it in ("row 2 of a.csv", "row 3 of b\\u202e.csv",
                                    "row 3 of a.csv (2)")} <= set(seen.rows())
    assert '">bo, ' in found.text
    again = bo.add(("other.csv", lines(GOOD[:2])))
    assert again.status_code == 409 and "was added already by jane, as a.csv" in again.text
    assert states(office) == {OPEN: 6}
    told = [it.about for it in office.parts.history.entries if it.what == "added applications"]
    assert [(it["file"], it["rows"]) for it in told] == [
        ("a.csv", 2), ("b\\u202e.csv", 2), ("a.csv (2)", 2)]


def test_many_files_at_once_are_refused(office: Site, screens: Screens) -> None:
    """Each is read in a process of its own, so that a form of a thousand would hold a thread for
    hours.
    """
    found = screens.add(*[(f"{it}.csv", b"x") for it in range(51)])
    said = "Nothing was added: choose at most 50 files at once, and not 51."
    assert found.status_code == 409 and Seen(found.text).texts["answer"].strip() == said
    assert states(office) == {}
    found = screens.add(*[(f"{it}.csv", b"") for it in range(50)])
    assert "49.csv is empty" in Seen(found.text).texts["answer"]


WRONG_KINDS = [
    ("empty.csv", b"", "empty.csv is empty"), ("blank.csv", b"\n\n", "expected a header"),
    ("a.pdf", b"%PDF-1.4", "a PDF"), ("a.png", b"\x89PNG\r\n\x1a\n", "a picture"),
    ("a.html", b"<html><script>alert(1)</script>", "a web page"),
    ("a.xls", b"\xd0\xcf\x11\xe0junk", "an Excel file of the older kind"),
    ("a.db", b"SQLite format 3\0", "a register"), ("a.xlsx", b"PK\x03\x04junk", "no Excel file"),
    ("zero.csv", b"\0" * 50, "no text"), ("bad.csv", b"child\x81\n\x81", "neither in UTF-8"),
    ("lots.csv", b"school,child,lot\nOAK,1,5\n", "column name: expected a column of this name"),
    ("sibs.csv", b"child,name,east,north,looked_after,flags,sibs,day,preferences\n1,A,0,0,no,,,"
     b"2024-10-20,OAK\n", 'column siblings: expected a column of this name in the header'),
    ("twice.csv", csv_of().replace(b"name", b"name,name"), "each column once"),
    ("head.csv", csv_of(), "no applications below its header"),
    ("", b"x", "choose a file"),
]


@pytest.mark.parametrize("name, data, said", WRONG_KINDS)
def test_a_file_of_another_kind_is_refused(
    office: Site, screens: Screens, name: str, data: bytes, said: str
) -> None:
    """By name, with what it is, and nothing of it is kept."""
    found = screens.add((name, data))
    assert found.status_code == 409 and said in Seen(found.text).texts["answer"], found.text
    assert states(office) == {}


@pytest.mark.parametrize("name", [
    "shared.xlsx", "million.xlsx", "rows.xlsx", "merges.xlsx", "parts.xlsx", "columns.csv",
    "lines.csv", "rows.csv", "cells.csv", "quote.csv", "one-text.xlsx"])
def test_a_file_that_is_too_much_is_refused(
    office: Site, screens: Screens, tmp_path: pathlib.Path, name: str
) -> None:
    """As the command refuses it."""
    made, said = hostile.SHEETS[name]
    made(tmp_path / name)
    # (what is larger than any request may be is not read at all)
    found = screens.add((name, (tmp_path / name).read_bytes()[:12 << 20]))
    assert found.status_code == 409 and said in Seen(found.text).texts["answer"], found.text
    assert states(office) == {}


@pytest.mark.parametrize("name", ["coloured.xlsx", "corner.xlsx", "merged.xlsx", "formats.xlsx"])
def test_a_file_that_seems_large_is_read(
    office: Site, screens: Screens, tmp_path: pathlib.Path, name: str
) -> None:
    """It has one application."""
    hostile.SHEETS[name][0](tmp_path / name)
    assert screens.add((name, (tmp_path / name).read_bytes())).status_code == 303
    assert states(office) == {OPEN: 1}


def test_a_sheet_that_takes_too_long_ends_alone(monkeypatch: pytest.MonkeyPatch) -> None:
    """The process that reads it is ended by its limits, and that is said."""
    for begin in ("import time; time.sleep(60)", "import os, signal; os.kill(os.getpid(), 24)"):
        monkeypatch.setattr(apart, "BEGIN", begin)
        monkeypatch.setattr(apart, "MOST_SECONDS", 1)
        with pytest.raises(Refused, match="reading a.csv takes more than 20 seconds"):
            sheet_apart.read("a.csv", csv_of(), None, "")
    monkeypatch.setattr(apart, "BEGIN", "raise SystemExit(3)")
    with pytest.raises(Refused, match="reading a.csv was not possible: it ended with status 3"):
        sheet_apart.read("a.csv", csv_of(), None, "")


@pytest.mark.parametrize("end", [
    # (as Linux does it to the largest, as Python does, and as a library may)
    "os.kill(os.getpid(), signal.SIGKILL)", "raise MemoryError", "os.abort()",
])
def test_a_sheet_that_takes_too_much_memory_ends_alone(
    monkeypatch: pytest.MonkeyPatch, end: str
) -> None:
    """And that is said, and neither a status nor a time that it never took."""
    monkeypatch.setattr(apart, "BEGIN", f"import os, signal; {end}")
    with pytest.raises(Refused, match="^reading a.csv takes too much memory$"):
        sheet_apart.read("a.csv", csv_of(), None, "")


def test_a_process_that_takes_too_long_is_not_told_for_one_without_memory(
    monkeypatch: pytest.MonkeyPatch
) -> None:
    """Its limit of time ends it before anything kills it."""
    monkeypatch.setattr(apart, "BEGIN", apart.BEGIN.replace(
        "importlib.import_module(name).main()",
        "from office.files import processes as apart; apart.given(seconds=-9);\nwhile True: pass"))
    with pytest.raises(Refused, match="^a try takes more than 20 seconds$"):
        apart.done("any", "a try", {}, b"")


def test_a_sheet_waits_for_others_and_not_for_ever(monkeypatch: pytest.MonkeyPatch) -> None:
    """The threads that serve all screens do not all wait for two files, of whatever kind."""
    monkeypatch.setattr(turns, "SECONDS", 0.01)
    with apart.AT_ONCE, apart.AT_ONCE:
        turns.SERVES.set("jane")
        reads: list[Callable[[], object]] = [
            lambda: sheet_apart.read("a.csv", csv_of(), None, ""),
            lambda: lot_sheets_apart.rows_of(b"OAK,1,5\n"),
            lambda: uploads.register_of(FileStorage(io.BytesIO(uploads.REGISTER), "a.db"))]
        for read in reads:
            with pytest.raises(turns.Busy, match="other files are being read: try again"):
                read()
        turns.SERVES.set(None)
    assert sheet_apart.read("a.csv", csv_of(), None, "").rows


def test_a_process_that_reads_a_file_is_ended_first(monkeypatch: pytest.MonkeyPatch) -> None:
    """Where memory runs out it goes, and not the application; and it has nothing of its own."""
    monkeypatch.setenv("ADMISSIONS_SECRET", "x")
    monkeypatch.setattr(apart, "BEGIN", apart.BEGIN.replace(
        "import importlib; importlib.import_module(name).main()",
        "import os, resource; from office.files import processes; processes.given();"
        " print(open('/proc/self/oom_score_adj').read().strip(),"
        " resource.getrlimit(resource.RLIMIT_AS)[1], 'ADMISSIONS_SECRET' in os.environ)"))
    assert apart.done("any", "a try", {}, b"") == b"1000 500000000 False\n"


def book_with(part: str, text: str) -> bytes:
    """An Excel file in which a part is another text."""
    given, out = io.BytesIO(), io.BytesIO()
    openpyxl.Workbook().save(given)
    with zipfile.ZipFile(given) as old, zipfile.ZipFile(out, "w", zipfile.ZIP_DEFLATED) as new:
        for it in old.namelist():
            new.writestr(it, text if it.endswith(part) else old.read(it))
    assert len(out.getvalue()) < 100_000
    return out.getvalue()


SPACE = "http://schemas.openxmlformats.org/spreadsheetml/2006/main"


@pytest.mark.parametrize("rows, cells", [(1, 3_600_000), (3600, 1000), (2_500_000, 0)])
def test_empty_cells_are_counted_too(rows: int, cells: int) -> None:
    """A workbook of some kilobytes has millions of them, and each would take memory; and millions
    of rows without any, of which each takes time.
    """
    row = f"<row>{'<c/>' * cells}</row>" if cells else "<row/>"
    text = f'<worksheet xmlns="{SPACE}"><sheetData>{row * rows}</sheetData></worksheet>'
    with pytest.raises(Refused, match="a.xlsx has too many cells: an Excel file has at most"):
        sheet_apart.read("a.xlsx", book_with("sheet1.xml", text), None, "")


def test_sheets_are_counted_and_few_are_named() -> None:
    """Each of them is opened; and a message has some names, of which none is long."""
    one = f'<sheet name="{"S" * 90}" sheetId="1" r:id="rId1"/>'
    link = 'xmlns:r="http://schemas.openxmlformats.org/officeDocument/2006/relationships"'
    for many, said in ((100_000, "^a.xlsx has too many sheets: an Excel file has at most 250 here"),
                       (200, "^a.xlsx has the sheets (S{60}.., ){10}..: name one$")):
        text = f'<workbook xmlns="{SPACE}" {link}><sheets>{one * many}</sheets></workbook>'
        with pytest.raises(Refused, match=said):
            sheet_apart.read("a.xlsx", book_with("workbook.xml", text), None, "name one")


def test_a_process_that_is_ended_leaves_no_core(monkeypatch: pytest.MonkeyPatch) -> None:
    """It would have what somebody sent, where the machine keeps cores."""
    monkeypatch.setattr(apart, "BEGIN", apart.BEGIN.replace(
        "import importlib; importlib.import_module(name).main()",
        "import resource; from office.files import processes; processes.given();"
        " print(*resource.getrlimit(resource.RLIMIT_CORE))"))
    before = resource.getrlimit(resource.RLIMIT_CORE)
    resource.setrlimit(resource.RLIMIT_CORE, (before[1], before[1]))
    try:
        assert apart.done("any", "a try", {}, b"") == b"0 0\n"
    finally:
        resource.setrlimit(resource.RLIMIT_CORE, before)


def test_a_workbook_is_read_in_any_thread(office: Site, screens: Screens) -> None:
    """The application answers in threads, in which the time of a command cannot be limited."""
    came: list[int] = []
    data = workbook([typed(it) for it in GOOD[:2]])
    run = threading.Thread(target=lambda: came.append(screens.add(("a.xlsx", data)).status_code))
    run.start()
    run.join()
    assert came == [303] and states(office) == {OPEN: 2}


def test_a_sheet_of_several_is_named(office: Site, screens: Screens) -> None:
    """What is said names the field of the form."""
    book = openpyxl.load_workbook(io.BytesIO(workbook([typed(GOOD[0])])))
    book.active.title = "Autumn"
    book.create_sheet("Spring").append(["x"])
    made = io.BytesIO()
    book.save(made)
    found = screens.add(("a.xlsx", made.getvalue()))
    assert "has the sheets Autumn, Spring: write the name" in Seen(found.text).texts["answer"]
    assert screens.add(("a.xlsx", made.getvalue()), sheet="Autumn").status_code == 303


HOSTILE = [
    "<script>alert(1)</script>", "\"><img src=x onerror=alert(1)>", "=1+1", "@SUM(A1)",
    "O'Neil \"Bo\"", "محمد علي", "\u202eevil", "{{ 7*7 }}", "a,b;c", "'; DROP TABLE staged_row; --",
]


def test_hostile_cells_are_text(office: Site, screens: Screens) -> None:
    """On each screen, in the store and in the register they are what they were."""
    rows = [changed(GOOD[at], 1, it) for at, it in enumerate(HOSTILE)]
    screens.add(("<b>.csv", lines(rows)))
    seen = screens.see()
    where = {at: seen.row(f"row {at + 2} of <b>.csv") for at in range(len(HOSTILE))}
    assert all(it in " ".join(seen.texts[f"row-{where[at]}"].split())
               for at, it in enumerate(HOSTILE))
    assert {at: screens.see(f"?edit={it}").values(it)["name"] for at, it in where.items()} == dict(
        enumerate(HOSTILE))
    for path in ("", "commit/", "duplicates", f"?see={where[0]}"):
        tags = screens.see(path).tags
        # (the frame has one script of the site, and the table two more)
        assert tags.count("script") == (3 if "/" not in path and path != "duplicates" else 1), path
        assert not {"img", "b"} & set(tags), path
    for at, it in where.items():
        assert screens.save(it, north=str(5000 + at)).status_code == 303
    rows = [changed(it, 3, str(5000 + at)) for at, it in enumerate(rows)]
    assert screens.store().status_code == 303
    assert has(office.parts.desk.now()) == expected(rows)
    assert screens.see("withdrawn").tags.count("script") == 3
    assert "<script>alert" not in screens.browser.get("/activity/").text


def test_lines_within_a_cell_are_kept(office: Site, screens: Screens) -> None:
    """A field of one line would drop them, and join two codes into one."""
    row = changed(changed(GOOD[0], 8, "OAK\nELM"), 1, "Ada\nAbbot")
    screens.add(("a.csv", lines([row])))
    at = screens.see().row("row 2 of a.csv")
    assert screens.see(f"?edit={at}").values(at)["preferences"] == "OAK;ELM"
    assert screens.see().wrong() == {(at, "name")}
    assert screens.see().values(at) == {"name": "Ada Abbot"}
    screens.send(at, {"meant": f"name-{at}=Ada Abbot"})
    assert not screens.see().wrong()
    screens.store()
    assert has(office.parts.desk.now()) == expected([changed(GOOD[0], 8, "OAK;ELM")])


def test_a_row_of_another_form_is_kept_and_confirmed(office: Site, screens: Screens) -> None:
    """Too many or too few fields, a total: nothing is dropped, and a person says that it is right.
    Letters whose encoding was guessed are one question about the file.
    """
    text = "\n".join([
        ",".join(COLUMNS), "5,Abel, Ann,4150,3620,no,,,2024-10-20,OAK,",
        "6,Bo Bell,4250,3620,no,,,2024-10-20", "8,Cy Cole,4350,3620,no,,,2024-10-20,OAK,,x,y",
        "Total,3,,,,,,,,", "9,Siân Dow,4450,3620,no,,,2024-10-20,OAK,"])
    screens.add(("a.csv", text.encode("cp1252")))
    seen = screens.see()
    rows = [seen.row(f"row {at} of a.csv") for at in range(2, 7)]
    assert seen.wrong() == {(rows[0], "name"), (rows[1], "preferences"), (rows[2], "present"),
                            (rows[3], "child")}
    assert seen.values(rows[0]) == {"name": "Abel, Ann"} and "4150" in seen.text
    assert seen.said(rows[2], "present") == (
        'The row has 12 fields and not 10. Left over: "x", "y".')
    assert seen.said(rows[3], "child") == "The row looks like a total."
    assert "are these the right letters? Siân (1 row)" in " ".join(seen.text.split())
    assert seen.said(rows[4], "name") == ""
    screens.save(rows[0])
    screens.save(rows[1], preferences="ELM")
    screens.save(rows[2])
    screens.withdraw(rows[3])
    assert not screens.see().wrong()
    screens.store()
    assert {number: it[0] for number, it in has(office.parts.desk.now()).items()} == {
        5: "Abel, Ann", 6: "Bo Bell", 8: "Cy Cole", 9: "Siân Dow"}
    confirmed = [it.about["row"] for it in office.parts.history.entries
                 if it.what == "confirmed an application"]
    assert confirmed == ["row 2 of a.csv", "row 4 of a.csv"]


def test_what_is_said_of_a_cell_fits_the_register(tmp_path: pathlib.Path) -> None:
    """For a code that lacks one letter the school is proposed; and a late day is said to be of no
    round to come once the round was held.
    """
    held = {"cmd": "round", "draw": 1, "day": "2025-03-03", "lots": [1]}
    with office_over(tmp_path, [school("OAK"), school("ELMS", east=500), child(7, east=9000),
                                apply(7, ["ELMS"]), held]) as office:
        screens = Screens(office.browser("jane"))
        screens.add(("a.csv", lines([changed(changed(GOOD[3], 8, "ELM"), 7, "2024-11-05")])))
        seen = screens.see()
        row = seen.row("row 2 of a.csv")
        assert seen.said(row, "preferences") == "There is no school ELM."
        assert {"Replace ELM by ELMS", "ELMS ELMS School"} <= set(seen.buttons)
        assert seen.said(row, "day") == "Late: the first round was run."


def test_a_letter_that_was_lost_is_looked_for(screens: Screens) -> None:
    """A spreadsheet writes a question mark where its encoding has no such letter; and many rows of
    one file with other letters are one question, not one for each.
    """
    names = ["?ucja Hughes", "Dai Nguy?n", "Ada Lis?", "Chloë Abel", "Zoë Bell", "Chloë Cole"]
    rows = [changed(changed(GOOD[0], 0, str(50 + at)), 1, it) for at, it in enumerate(names)]
    rows = [changed(it, 3, str(5000 + 700 * at)) for at, it in enumerate(rows)]
    screens.add(("a.csv", lines(rows).decode().encode("cp1252")))
    seen = screens.see()
    said = {it: seen.said(seen.row(f"row {at + 2} of a.csv"), "name")
            for at, it in enumerate(names)}
    lost = "Was a letter lost at the question mark?"
    assert said == {**dict.fromkeys(names, ""), **dict.fromkeys(names[:3], lost)}
    assert "are these the right letters? Chloë and Zoë (3 rows)" in " ".join(seen.text.split())
    assert len(screens.see("?show=check").rows()) == 3


def test_what_only_a_workbook_has(screens: Screens) -> None:
    """A formula that was never calculated is an error at its cell until the row is saved."""
    cells = hostile.row_of(2, ["1", "Ann", "east", "1", "no", "", "", "2024-10-20", "OAK"])
    cells = cells.replace(' t="inlineStr"><is><t>east</t></is>', "><f>A2</f>")
    file = pathlib.Path(ROOT / "out")
    file.mkdir(exist_ok=True)
    path = file / "formula.xlsx"
    hostile.workbook(path, hostile.GOOD.split('<row r="2">')[0] + cells)
    data = path.read_bytes()
    path.unlink()
    screens.add(("w.xlsx", data))
    seen = screens.see()
    row = seen.row("row 2 of w.xlsx")
    assert seen.said(row, "east") == "C2 is a formula that was never calculated."
    screens.save(row, east="5")
    assert not screens.see().wrong()


def test_days_of_a_file_in_one_reading(screens: Screens) -> None:
    """Asked for, and said of a file when it is added: then nothing is in doubt."""
    row = changed(GOOD[0], 7, "03/04/2024")
    screens.add(("a.csv", lines([row])))
    at = screens.see().row("row 2 of a.csv")
    seen = screens.see()
    assert seen.said(at, "day") == "3 April or 4 March 2024?"
    assert seen.buttons.index("3 April 2024") < seen.buttons.index("4 March 2024")
    screens.withdraw(at)
    screens.add(("b.csv", lines([changed(row, 0, "102")])), uk="yes")
    assert not screens.see().wrong() and "3 April 2024" in screens.see().text


def test_other_columns_are_kept_beside_the_rows(office: Site, screens: Screens) -> None:
    """An address is no column of an application; letters need it later."""
    rows = [["address", *COLUMNS], ["1 High St, Wells", *GOOD[0]]]
    screens.add(("a.csv", sheet.csv_bytes(rows)))
    assert "no column of an application: it is kept beside the rows" in screens.see().text
    found = office.app.extensions["staging"].staging.rows(OPEN)
    assert [it.others for it in found] == [{"address": "1 High St, Wells"}]
    screens.store()
    found = office.app.extensions["staging"].staging.rows(COMMITTED)
    assert [it.others for it in found] == [{"address": "1 High St, Wells"}]


def test_a_long_text_is_compared_with_no_school() -> None:
    """A file of 8 MB has some hundred of them, and each took seconds beside 200 schools."""
    names = {f"S{it}": f"School number {it} of the town" for it in range(200)}
    known: Any = types.SimpleNamespace(schools={
        code: types.SimpleNamespace(code=code, name=name) for code, name in names.items()})
    begin = time.process_time()
    for column in ("present", "preferences", "siblings"):
        found = fields.read(column, "x y " * 8_000, known)
        assert found.fault == "school" and {it.words for it in found.likely} <= {"Leave it out"}
    assert time.process_time() - begin < 1
    [likely] = fields.read("present", "scool number 7 of the town", known).likely
    assert likely.by == "S7"


def test_the_name_of_another_column_is_kept_in_short(office: Site, screens: Screens) -> None:
    """Each row has it: a file of 8 MB would have gigabytes in the application's own file."""
    rows = [[*COLUMNS, "x" * 32_000, "y" * 32_000], *([*it, "1", "2"] for it in GOOD)]
    assert screens.add(("a.csv", sheet.csv_bytes(rows))).status_code == 303
    found = office.app.extensions["staging"].staging.rows(OPEN)
    assert [it.others for it in found] == [{"x" * 80: "1", "y" * 80: "2"}] * len(GOOD)


def test_a_row_is_withdrawn_and_brought_back(office: Site, screens: Screens) -> None:
    """One, all of a file, and all that were withdrawn."""
    screens.add(("a.csv", lines(GOOD[:3])))
    row = screens.see().row("row 3 of a.csv")
    assert screens.withdraw(row).status_code == 303
    assert screens.see().rows() == [it for it in (1, 2, 3) if it != row]
    assert "a.csv, 3 rows, 1 set aside" in " ".join(screens.see("").texts["sources"].split())
    assert "Set aside 1 row" in " ".join(screens.see("commit/").texts["left-out"].split())
    assert screens.bring_back(row).status_code == 303
    assert states(office) == {OPEN: 3}
    refused = screens.browser.post("/applications/mend", {"mend": "0" * 64})
    assert refused.status_code == 409 and states(office) == {OPEN: 3}
    screens.set_aside("Set 3 rows of a.csv aside")
    assert states(office) == {WITHDRAWN: 3}
    screens.press("Put back 3 rows", "withdrawn")
    assert states(office) == {OPEN: 3}
    told = [(it.what, it.about) for it in office.parts.history.entries][-3:]
    assert told == [("brought back applications", {"rows": "3 of a.csv"}),
                    ("corrected applications", {
                        "done": "3 rows set aside", "rows": "2 to 4 of a.csv"}),
                    ("brought back applications", {"rows": "2 to 4 of a.csv"})]


def test_rows_that_a_colleague_has_changed_are_not_set_aside_by_an_older_page(
    office: Site, screens: Screens,
) -> None:
    """As many as were shown, and yet not the same: what somebody has corrected since stays. Nor are
    other rows put back than those that were shown.
    """
    screens.add(("a.csv", lines(GOOD[:3])))
    older = Page(screens.browser.get("/applications/").text)
    row = screens.see().row("row 3 of a.csv")
    staging = office.app.extensions["staging"].staging
    staging.save("bo", row, 1, {"name": "Corrected By Bo"})
    late = press(screens.browser, "", older, "Set 3 rows of a.csv aside")
    assert late.status_code == 409 and states(office) == {OPEN: 3}
    assert Page(late.text).said() == (
        "Nothing was changed: the table has changed since it was shown.")
    screens.withdraw(row)
    other = screens.see().row("row 2 of a.csv")
    withdrawn = Page(screens.browser.get("/applications/withdrawn").text)
    screens.bring_back(row)
    screens.withdraw(other)
    late = press(screens.browser, "/applications/withdrawn", withdrawn, "Put back 1 row")
    assert late.status_code == 409 and states(office) == {OPEN: 2, WITHDRAWN: 1}
    assert Page(late.text).said() == (
        "Nothing was changed: other rows are set aside meanwhile.")


def test_half_of_a_point_is_not_filled_by_that_of_another_row(
    office: Site, screens: Screens,
) -> None:
    """East of one home and north of another are nobody's home. A row without any has the whole."""
    rows = [changed(GOOD[0], 3, ""), changed(GOOD[0], 2, "1234"),
            changed(changed(GOOD[1], 2, ""), 3, ""), GOOD[1]]
    screens.add(("a.csv", lines(rows)))
    at = [screens.see().row(f"row {it} of a.csv") for it in range(2, 6)]
    staging = office.app.extensions["staging"].staging
    for one, other in (at[:2], at[2:]):
        merged = screens.browser.post("/applications/duplicates", {
            "one": one, "one-version": 1, "other": other, "other-version": 1, "what": "merge"})
        assert merged.status_code == 303
    points = [[staging.row(it).cells[name] for name in ("east", "north")] for it in at[::2]]
    assert points == [[GOOD[0][2], ""], GOOD[1][2:4]]


def test_duplicates_are_side_by_side_and_merged(office: Site, screens: Screens) -> None:
    """The same number, a similar name at one home, and a child of the register."""
    again = changed(changed(GOOD[0], 9, ""), 6, "")
    rows = [again, changed(GOOD[0], 7, "2024-10-09"), changed(changed(GOOD[1], 0, "201"), 1,
            "Brook, Ben"), GOOD[1], ["202", "Old Hands", "9000", "0", "no", "", "", "2024-10-20",
                                     "OAK", ""]]
    screens.add(("a.csv", lines(rows)))
    seen = screens.see("duplicates")
    text = " ".join(seen.text.split())
    assert "Two rows 1: the same number" in text
    assert text.count("a similar name at the same home") == 2
    assert "child 7 of the register" in text and "Old Hand " in text
    at = [screens.see().row(f"row {it} of a.csv") for it in range(2, 7)]
    both = {"one": at[0], "one-version": 1, "other": at[1], "other-version": 1}
    assert screens.browser.post("/applications/duplicates",
                                {**both, "what": "merge"}).status_code == 303
    staging = office.app.extensions["staging"].staging
    # (the day of the row that is kept stays, and what it had not is filled)
    wanted = {**fields.OMITTED, **dict(zip(COLUMNS, changed(again, 9, "PRIM7"))), "siblings": "OAK"}
    assert staging.row(at[0]).cells == wanted
    assert staging.row(at[1]).state == WITHDRAWN
    stale = screens.browser.post("/applications/duplicates", {**both, "what": "merge"})
    assert stale.status_code == 409 and "was changed meanwhile, by jane" in stale.text
    for it in (at[2], at[4]):
        screens.browser.post("/applications/duplicates",
                             {"one": it, "one-version": 1, "what": "withdraw"})
    assert "No possible duplicates were found." in screens.see("duplicates").text
    screens.store()
    assert has(office.parts.desk.now()) == expected(
        [[wanted[it] for it in COLUMNS], GOOD[1]])


def test_rows_that_the_register_has(office: Site, screens: Screens) -> None:
    """Equal ones are left out, and ones that differ are shown with both values and refused."""
    screens.add(("a.csv", lines(GOOD[:3])))
    screens.store()
    screens.add(("b.csv", lines([GOOD[0], changed(GOOD[1], 2, "999"), changed(GOOD[2], 8, "ELM"),
                                 GOOD[3]])))
    seen = screens.see()
    row = seen.row("row 3 of b.csv")
    assert seen.said(row, "east") == 'The register has "1100".'
    page = screens.see("commit/")
    text = " ".join(page.text.split())
    assert "row 3 of b.csv 102 East 999 1100" in text
    assert "row 4 of b.csv 103 Preferences ELM OAK" in text
    assert "1 row with equal values" in text
    assert "2 rows with errors must be corrected or set aside" in text
    assert screens.store().status_code == 409 and len(imports(office)) == 1
    screens.set_aside("Set 2 rows aside", "commit/")
    assert "Add 1 application" in screens.see("commit/").buttons
    assert screens.store().status_code == 303
    assert has(office.parts.desk.now()) == expected(GOOD[:4])
    sent = imports(office)[1]["import"].splitlines()[1:]
    assert [it.split(",")[:len(GOOD[3])] for it in sent] == [list(GOOD[3])]
    screens.add(("c.csv", lines(GOOD[:2])))
    assert "Take 2 rows out of the table" in screens.see("commit/").buttons
    assert screens.store().status_code == 303 and len(imports(office)) == 2
    assert screens.see().rows() == []


def test_an_empty_table_is_no_error(office: Site, screens: Screens) -> None:
    """On the page that adds rows, and in the table once all others of it are added."""
    seen = screens.see("commit/")
    assert seen.texts["verdict"] == "There is nothing to add: no row is in the table."
    assert "banner bad" not in screens.browser.get("/applications/commit/").text
    assert "question" not in seen.texts and screens.store("").status_code == 409
    screens.add(("a.csv", lines(GOOD[:3])))
    screens.withdraw(screens.see().row("row 3 of a.csv"))
    assert screens.store().status_code == 303 and len(imports(office)) == 1
    said = " ".join(screens.see("").texts["next"].split())
    assert said == ("Next: add them to the register Nothing is left to add. 1 row is set aside:"
                    " this child takes no part in a round until the row is put back.")


def test_a_child_without_an_application_differs(office: Site, screens: Screens) -> None:
    """An import would refuse it: it was added by a command."""
    office.record("bo", child(9, name="No Form", east=77))
    screens.add(("a.csv", csv_of("9,No Form,77,0,no,,,2024-10-20,OAK,")))
    row = screens.see().row("row 2 of a.csv")
    assert screens.see().wrong() == {(row, "day"), (row, "preferences")}


def test_a_row_that_the_register_refuses_is_named(
    office: Site, screens: Screens, monkeypatch: pytest.MonkeyPatch
) -> None:
    """Nothing is stored, the row is shown, and it is not sent again before a person saw it."""
    screens.add(("a.csv", lines(GOOD[:3])))
    sender = office.parts.desk.sender
    real = sender.imported
    # (what the program refuses and the check does not: by a fault that is put in on the way)
    monkeypatch.setattr(sender, "imported", lambda rows: real(rows.replace(b",1100,", b",1e9,")))
    found = screens.store()
    assert found.status_code == 409
    seen = Seen(found.text)
    assert "Nothing was added: the register does not take row 3 of a.csv" in seen.texts["answer"]
    assert "is no whole number" in seen.texts["answer"] and "Ben Brook" in seen.text
    assert office.parts.desk.now().children.keys() == {7} and states(office) == {OPEN: 3}
    row = screens.see().row("row 3 of a.csv")
    assert "The register does not take it" in screens.see().texts[f"row-{row}"]
    monkeypatch.setattr(sender, "imported", real)
    assert screens.store().status_code == 409
    screens.save(row)
    assert screens.store().status_code == 303
    assert has(office.parts.desk.now()) == expected(GOOD[:3])


def test_two_officers_store_at_once(office: Site, screens: Screens) -> None:
    """One of them stores it, and the other is told; nothing is sent twice."""
    screens.add(("a.csv", lines(GOOD)))
    both = [screens, Screens(office.browser("bo"))]
    digests = [it.digest() for it in both]
    assert digests[0] == digests[1]
    came: list[Any] = []
    gate = threading.Barrier(2)

    def run(at: int) -> None:
        gate.wait()
        came.append(both[at].store(digests[at]))

    runs = [threading.Thread(target=run, args=(at,)) for at in range(2)]
    for it in runs:
        it.start()
    for it in runs:
        it.join()
    assert sorted(it.status_code for it in came) == [303, 409]
    told = next(it for it in came if it.status_code == 409)
    assert "has changed since it was shown, and nothing was added" in told.text
    assert len(imports(office)) == 1 and has(office.parts.desk.now()) == expected(GOOD)


def test_a_plan_that_came_meanwhile_is_seen(office: Site, screens: Screens) -> None:
    """By it a row whose child has no application is no error any more, and is left out."""
    number, name, east, north = GOOD[0][:4]
    there = {"cmd": "add_child", "child": int(number), "name": name, "east": int(east),
             "north": int(north), "looked_after": GOOD[0][4] == "yes",
             "flags": [int(it) for it in codes(GOOD[0][5])], "siblings": list(codes(GOOD[0][6])),
             "present": GOOD[0][9]}
    bo = Person("bo", "officer")
    assert office.parts.desk.send(bo, there).is_done
    screens.add(("a.csv", lines(GOOD)))
    digest = office.app.extensions["staging"].committing.found(office.parts.desk.now()).digest
    plan = {"cmd": "name_plan", "child": int(number), "school": "OAK"}
    assert office.parts.desk.send(bo, plan).is_done
    found = screens.store(digest)
    assert found.status_code == 409 and "has changed since it was shown" in found.text
    assert imports(office) == []


def test_a_copy_is_made_before_anything_is_stored(
    office: Site, screens: Screens, monkeypatch: pytest.MonkeyPatch
) -> None:
    """Without one nothing is sent, and the table stays as it was."""
    screens.add(("a.csv", lines(GOOD)))
    before, digest = states(office), screens.digest()

    def fails(*_: str) -> int:
        raise Refused("there is no copy: the machine has not answered")

    with monkeypatch.context() as patch:
        patch.setattr(office.app.extensions["staging"].committing, "copy", fails)
        found = screens.store(digest)
    assert found.status_code == 409 and "there is no copy" in Seen(found.text).text
    assert (imports(office), states(office), office.copied) == ([], before, [])
    assert screens.store(digest).status_code == 303
    assert (len(imports(office)), office.copied) == (1, ["before applications are added"])


def test_what_has_changed_is_not_stored(office: Site, screens: Screens) -> None:
    """A row, one that was withdrawn, one more, a child in the register; and a reload after it."""
    screens.add(("a.csv", lines(GOOD[:3])))
    rows = screens.see().rows()
    bo = office.program("bo")
    changes: list[Callable[[], Any]] = [
        lambda: screens.save(rows[0], name="Ada Abbott"),
        lambda: screens.withdraw(rows[1]),
        lambda: screens.bring_back(rows[1]),
        lambda: screens.add(("b.csv", lines(GOOD[3:4]))),
        lambda: bo.command(child(9, name="New Face", east=77)),
        lambda: bo.command(school("ASH")),
    ]
    for change in changes:
        digest = screens.digest()
        assert change().status_code in (200, 303)
        found = screens.store(digest)
        assert found.status_code == 409 and staging_imports.CHANGED in Seen(found.text).text
        assert "Add " in " ".join(Seen(found.text).buttons), "the new counts are shown"
    assert not imports(office)
    digest = screens.digest()
    done, again = screens.store(digest), screens.store(digest)
    assert done.status_code == 303 and again.location == done.location
    assert screens.store("").status_code == 409 and len(imports(office)) == 1


def test_an_answer_to_an_offer_changes_nothing_of_it(office: Site, screens: Screens) -> None:
    """Late applications are stored while answers are recorded."""
    first = {"cmd": "round", "draw": 1, "day": "2025-03-03", "lots": [1]}
    assert office.parts.desk.send(Person("bo", "officer"), first, None, True).is_done
    screens.add(("a.csv", lines(GOOD[:1])))
    digest = screens.digest()
    office.record("bo", {"cmd": "accept", "child": 7, "school": "ELM"})
    assert screens.store(digest).status_code == 303


class Crash(BaseException):
    """The end of the application."""


def ended(office: Site) -> None:
    """Waits for the end of what is being stored."""
    job = office.parts.jobs.last(staging_commit.ADDING)
    assert job is None or job.is_over.wait(60)


def as_before(path: pathlib.Path) -> None:
    """The application's file as a version before imports were in the outbox left it."""
    before = next(at for at, it in enumerate(schema.STEPS) if "staged_import" in it)
    with contextlib.closing(sqlite3.connect(path)) as db:
        db.executescript("DROP VIEW staged_import; DELETE FROM sending WHERE kind='import';"
                         "ALTER TABLE staged_row DROP COLUMN remark;"
                         "ALTER TABLE draw DROP COLUMN name; DROP TABLE area_file;"
                         f"PRAGMA user_version={before}")


@pytest.mark.parametrize("is_earlier", [False, True])
@pytest.mark.parametrize("when", ["before", "asked", "answered"])
def test_a_crash_while_it_is_stored(
    tmp_path: pathlib.Path, monkeypatch: pytest.MonkeyPatch, when: str, is_earlier: bool
) -> None:
    """The application after it goes on by itself: before the sending the rows are sent, and after
    it they are found to be in the register. Nothing is sent twice, and nothing is lost. Where the
    crash was that of an earlier version, which did not keep what was confirmed, the rows that were
    not sent are there again.
    """
    make(tmp_path / "reg.db", TOWN)

    def crash(*_: object) -> bytes:
        raise Crash

    def asked(rows: bytes) -> bytes:
        real(rows)
        return crash()

    with served(tmp_path / "reg.db") as (address, _):
        with site(tmp_path, address) as office, monkeypatch.context() as patch:
            screens = Screens(office.browser("jane"))
            screens.add(("a.csv", lines(GOOD)))
            digest, desk = screens.digest(), office.parts.desk
            real = desk.sender.imported
            if when == "before":
                patch.setattr(desk, "request", crash)
            elif when == "asked":
                patch.setattr(desk.sender, "imported", asked)
            else:
                patch.setattr(staging_imports.Imports, "change", crash)
            with pytest.raises(Crash):
                screens.store(digest)
            assert states(office) == {SENDING: 12}
            passwords, own = office.passwords, office.parts.config.folder
        if is_earlier:
            as_before(own / "office.db")
        with site(tmp_path, address) as office:
            office.passwords = passwords
            screens = Screens(office.browser("jane"))
            ended(office)
            if when == "before" and is_earlier:
                assert len(screens.see().rows()) == 12 and states(office) == {OPEN: 12}
                assert staging_imports.CHANGED in screens.see("commit/").texts["answer"]
                assert screens.store().status_code == 303
            assert screens.see().rows() == [] and "nothing to add" in screens.see("commit/").text
            assert "answer" not in screens.see("commit/").texts
            assert states(office) == {COMMITTED: 12} and len(imports(office)) == 1
            entry = next(it.number for it in office.parts.history.entries if "import" in it.about)
            found = office.parts.store.rows("SELECT DISTINCT entry FROM staged_row")
            assert [it["entry"] for it in found] == [entry]
            assert has(office.parts.desk.now()) == expected(GOOD)


def test_a_crash_after_a_restore(tmp_path: pathlib.Path, monkeypatch: pytest.MonkeyPatch) -> None:
    """The same rows were stored before, and the register was restored since: they are not taken for
    stored, and are sent once more.
    """
    make(tmp_path / "reg.db", TOWN)
    (tmp_path / "copy.db").write_bytes((tmp_path / "reg.db").read_bytes())

    def crash(*_: object) -> bytes:
        raise Crash

    with served(tmp_path / "reg.db") as (address, _), site(tmp_path, address) as office:
        screens = Screens(office.browser("jane"))
        screens.add(("a.csv", lines(GOOD)))
        assert screens.store().status_code == 303
    passwords = office.passwords
    with served(tmp_path / "copy.db") as (address, _):
        with site(tmp_path, address) as office, monkeypatch.context() as patch:
            office.passwords = passwords
            screens = Screens(office.browser("jane"))
            assert screens.add(("a.csv", lines(GOOD))).status_code == 303
            digest = screens.digest()
            patch.setattr(office.parts.desk, "request", crash)
            with pytest.raises(Crash):
                screens.store(digest)
        with site(tmp_path, address) as office:
            office.passwords = passwords
            ended(office)
            assert len(imports(office)) == 2
            assert has(office.parts.desk.now()) == expected(GOOD)


def test_what_takes_long_is_shown_and_goes_on(
    office: Site, screens: Screens, monkeypatch: pytest.MonkeyPatch
) -> None:
    """The page that answers says how far it is, and at its end what came of it. Meanwhile nobody
    adds anything else, and who presses again comes to the same page.
    """
    committing = office.app.extensions["staging"].committing
    began, may_end = threading.Event(), threading.Event()

    def slow(*_: str) -> int:
        began.set()
        assert may_end.wait(60)
        return 1

    screens.add(("a.csv", lines(GOOD)))
    digest = screens.digest()
    monkeypatch.setattr(committing, "wait", 0.0)
    monkeypatch.setattr(committing, "copy", slow)
    found = screens.store(digest)
    assert found.status_code == 303 and began.wait(60)
    answer = screens.browser.get(found.location)
    assert answer.status_code == 200 and f'data-running="{found.location}"' in answer.text
    page = Seen(answer.text)
    assert ("begun by jane: the register is copied, and then 12 applications are added to it."
            in " ".join(page.texts["work"].split()))
    assert "question" not in page.texts and states(office) == {OPEN: 12}
    assert "Applications are being added to the register, as jane has confirmed." in (
        screens.browser.get("/applications/").text)
    assert screens.store(digest).location == found.location
    other = Screens(office.browser("bo")).store(digest)
    assert other.status_code == 409 and staging_imports.CHANGED in other.text
    may_end.set()
    ended(office)
    answer = screens.browser.get(found.location)
    assert "data-running" not in answer.text
    assert Seen(answer.text).texts["answer"] == "Added to the register: 12 applications."
    assert len(imports(office)) == 1 and states(office) == {COMMITTED: 12}


def test_a_failure_that_nobody_waited_for_is_told(
    office: Site, screens: Screens, monkeypatch: pytest.MonkeyPatch
) -> None:
    """On the page of the question, until something is confirmed again: also after a restart."""
    committing = office.app.extensions["staging"].committing
    may_end = threading.Event()

    def fails(*_: str) -> int:
        assert may_end.wait(60)
        raise Refused("there is no copy: the machine has not answered")

    screens.add(("a.csv", lines(GOOD)))
    with monkeypatch.context() as patch:
        patch.setattr(committing, "wait", 0.0)
        patch.setattr(committing, "copy", fails)
        found = screens.store()
        assert found.status_code == 303
        may_end.set()
        ended(office)
    # (an application after this one knows of the last only what is stored)
    committing.imports.ended_last = None
    for _ in range(2):
        page = screens.see(found.location.removeprefix("/applications/"))
        assert page.texts["answer"] == (
            "Nothing was added: there is no copy: the machine has not answered.")
        assert "Add 12 applications" in page.buttons
    assert screens.store(page.value("digest")).status_code == 303
    assert "answer" not in screens.see("commit/").texts
    assert len(imports(office)) == 1 and states(office) == {COMMITTED: 12}


def test_what_a_restore_has_undone_is_not_told_as_added(office: Site, screens: Screens) -> None:
    """A second press after it gets no answer of the first."""
    screens.add(("a.csv", lines(GOOD)))
    digest = screens.digest()
    assert screens.store(digest).status_code == 303
    record, store_ = office.parts.history, office.parts.store
    with store_.writing() as db:
        db.execute("UPDATE staged_row SET state=?, entry=NULL, version=version+1", (OPEN,))
    record.add("hal", history.RESTORED, {"copy": 1, "position": 0})
    found = screens.store(digest)
    assert found.status_code == 409 and staging_imports.CHANGED in found.text


def test_what_became_of_it_is_not_known(
    office: Site, screens: Screens, monkeypatch: pytest.MonkeyPatch
) -> None:
    """Where the register does not answer after the sending, the rows wait; then they are found."""
    screens.add(("a.csv", lines(GOOD[:2])))
    digest, sender = screens.digest(), office.parts.desk.sender
    real_import, real_ask = sender.imported, sender.ask

    def broken(rows: bytes) -> bytes:
        real_import(rows)
        monkeypatch.setattr(sender, "ask", away)
        raise Ended("the connection broke")

    def away(*_: object, **__: object) -> tuple[int, bytes]:
        raise Ended("it does not answer")

    monkeypatch.setattr(sender, "imported", broken)
    found = screens.store(digest)
    assert found.status_code == 409 and "There was no certain answer" in found.text
    assert states(office) == {SENDING: 2}
    assert "are in the register is not known yet" in screens.browser.get("/applications/").text
    monkeypatch.setattr(sender, "ask", real_ask)
    monkeypatch.setattr(sender, "imported", real_import)
    assert screens.see().rows() == [] and states(office) == {COMMITTED: 2}
    assert len(imports(office)) == 1


def test_a_closed_register_keeps_the_table(office: Site, screens: Screens) -> None:
    """While a draw is held nothing is sent, and the rows are as they were."""
    screens.add(("a.csv", lines(GOOD[:2])))
    digest = screens.digest()
    office.parts.desk.closed = lambda: "Recording is paused for round 5 by hal since 10:02."
    seen = screens.see("commit/")
    assert "Recording is paused for round 5" in seen.text
    assert not any(it.startswith("Add ") for it in seen.buttons)
    found = screens.store(digest)
    assert found.status_code == 409
    assert "Recording is paused for round 5" in Seen(found.text).texts["answer"]
    assert states(office) == {OPEN: 2} and not imports(office)


def test_a_register_that_does_not_answer(tmp_path: pathlib.Path) -> None:
    """The table is shown and corrected all the same; it is checked without the register."""
    with site(tmp_path, "http://127.0.0.1:1") as office:
        screens = Screens(office.browser("jane"))
        screens.add(("a.csv", lines([changed(GOOD[0], 8, "ZZZ"), changed(GOOD[1], 2, "x")])))
        seen = screens.see()
        assert "does not answer, and the rows are checked without it" in seen.text
        assert seen.wrong() == {(seen.row("row 3 of a.csv"), "east")}
        assert screens.save(seen.row("row 3 of a.csv"), east="5").status_code == 303
        assert not screens.see().wrong()
        assert screens.browser.get("/applications/commit/").status_code == 409
        assert screens.store("x").status_code == 409


def test_all_rows_of_a_page_are_saved_at_once(office: Site, screens: Screens) -> None:
    """Those that were changed and no others; one that is wrong stays, with the error at its cell.
    """
    screens.add(("a.csv", lines(GOOD[:5])))
    seen = screens.opened()
    rows = seen.rows()
    typed = seen.sent(**{"row 2 of a.csv": {"name": "Ada Abbott", "east": "1001"},
                         "row 4 of a.csv": {"preferences": "OAK;OAK"},
                         "row 5 of a.csv": {"name": "D" * (inputs.MOST_TEXT + 1), "east": "5"}})
    before = len(office.parts.history.entries)
    found = screens.browser.post("/applications/", typed)
    staging = office.app.extensions["staging"].staging
    kept = {it: staging.row(it).cells for it in rows}
    assert found.status_code == 409, "one of them was not saved"
    assert (kept[rows[0]]["name"], kept[rows[0]]["east"]) == ("Ada Abbott", "1001")
    assert kept[rows[2]]["preferences"] == "OAK;OAK", "what is wrong is kept in the table too"
    assert (kept[rows[3]]["name"], kept[rows[3]]["east"]) == ("Dov Drake", "1300")
    page = Seen(found.text)
    assert "Not saved: a cell has at most 32,767 characters" in page.texts["answer"]
    assert "Saved: 2 rows; 1 error left." in page.texts["answer"]
    assert page.values(rows[3])["east"] == "5" and len(page.values(rows[3])["name"]) == 32_768
    assert page.wrong() == {(rows[3], "name"), (rows[2], "preferences")}
    assert page.rows()[:3] == [rows[3], rows[0], rows[2]], "those that it is about are first"
    told = office.parts.history.entries[before:]
    assert [(it.what, it.about["row"]) for it in told] == [
        ("corrected an application", "row 2 of a.csv"),
        ("corrected an application", "row 4 of a.csv")]
    # the page that came back is sent again, with a shorter name
    again = page.sent(**{"row 5 of a.csv": {"name": "Dov Drakes"}})
    assert screens.browser.post("/applications/", again).status_code == 303
    assert [staging.row(rows[3]).cells[it] for it in ("name", "east")] == ["Dov Drakes", "5"]
    assert [staging.row(it).version for it in rows] == [2, 1, 2, 2, 1]
    # Save where nothing was typed changes nothing, and says so
    same = screens.browser.post("/applications/", screens.see().sent())
    assert "No cell was changed" in screens.browser.get(same.location).text
    assert [staging.row(it).version for it in rows] == [2, 1, 2, 2, 1]


def test_a_row_is_withdrawn_and_the_others_keep_what_was_typed(
    office: Site, screens: Screens
) -> None:
    """The button of one row saves the others too, and confirms none of them."""
    screens.add(("a.csv", "\n".join([
        ",".join(COLUMNS), ",".join(GOOD[0][:9]) + ",", ",".join(GOOD[1]),
        "5,Abel, Ann,4150,3620,no,,,2024-10-20,OAK,"]).encode()))
    seen = screens.opened()
    first, second, split = (seen.row(f"row {it} of a.csv") for it in (2, 3, 4))
    given = seen.sent(**{"row 2 of a.csv": {"present": "PRIM9"}, "row 3 of a.csv": {"north": "7"}})
    found = screens.browser.post("/applications/", {**given, "aside": str(second)})
    assert found.status_code == 303
    said = Seen(screens.browser.get(found.location).text).texts["answer"]
    assert "Saved: row 2 of a.csv" in said and "Set aside: row 3 of a.csv" in said
    staging = office.app.extensions["staging"].staging
    assert staging.row(first).cells["present"] == "PRIM9"
    gone = staging.row(second)
    assert (gone.state, gone.cells["north"]) == (WITHDRAWN, "7")
    assert staging.row(split).notes and screens.see().wrong() == {(split, "name")}
    screens.save(split)
    assert not staging.row(split).notes and not screens.see().wrong()


def test_two_officers_keep_what_each_typed(office: Site, screens: Screens) -> None:
    """In different rows both; in one row the second sees both values, and what the first changed
    beside it; where the row is gone, what was typed is shown.
    """
    screens.add(("a.csv", lines(GOOD[:3])))
    seen, bo = screens.opened(), Screens(office.browser("bo"))
    rows = seen.rows()
    bo.browser.post("/applications/", bo.opened().sent(**{
        "row 2 of a.csv": {"name": "Ada Abbott", "east": "1"},
        "row 3 of a.csv": {"name": "Ben Brooke"}}))
    late = screens.browser.post("/applications/", seen.sent(**{
        "row 2 of a.csv": {"name": "Ada Abbot-Day"},
        "row 4 of a.csv": {"name": "Cleo Carver-Day"}}))
    staging = office.app.extensions["staging"].staging
    names = [staging.row(it).cells["name"] for it in rows]
    assert names == ["Ada Abbott", "Ben Brooke", "Cleo Carver-Day"]
    assert late.status_code == 409
    page = Seen(late.text)
    assert "row 2 of a.csv was changed meanwhile, by bo" in page.texts["answer"]
    assert page.values(rows[0])["name"] == "Ada Abbot-Day"
    assert page.said(rows[0], "name") == "now: Ada Abbott"
    assert page.values(rows[0])["east"] == "1" and page.said(rows[0], "east") == "before: 1000"
    assert screens.browser.post("/applications/", page.sent()).status_code == 303
    kept = staging.row(rows[0]).cells
    assert (kept["name"], kept["east"]) == ("Ada Abbot-Day", "1"), "bo's other change stays"
    bo.withdraw(rows[0])
    gone = screens.browser.post("/applications/", page.sent(**{
        "row 2 of a.csv": {"name": "Ada Third"}}))
    assert gone.status_code == 409 and "Ada Third" in Seen(gone.text).text


@pytest.mark.parametrize("seen", ["", "[", "[1]", "[[],{}]", '["x",{}]', "[" * 9000])
def test_a_page_that_did_not_arrive_whole_changes_nothing(
    office: Site, screens: Screens, seen: str
) -> None:
    """What was seen of a row is not as the page made it, or a field is missing."""
    screens.add(("a.csv", lines(GOOD[:1])))
    given = screens.opened().sent(**{"row 2 of a.csv": {"name": "Else"}})
    for bad in ({**given, "seen-1": seen}, {it: given[it] for it in given if it != "name-1"}):
        found = screens.browser.post("/applications/", bad)
        assert found.status_code == 409 and "did not arrive whole" in found.text
    assert office.app.extensions["staging"].staging.row(1).cells["name"] == "Ada Abbot"


def test_without_a_history_nothing_is_changed(office: Site, screens: Screens) -> None:
    """A full disk: what was typed is shown again."""
    screens.add(("a.csv", lines(GOOD[:1])))
    row = screens.see().rows()[0]
    given = screens.opened().sent(**{"row 2 of a.csv": {"name": "Ada Other"}})
    office.parts.history.fd, kept = -1, office.parts.history.fd
    found = screens.browser.post("/applications/", given)
    assert found.status_code == 409 and Seen(found.text).values(row)["name"] == "Ada Other"
    assert screens.browser.post("/applications/add/", {"name": "New Face"}).status_code == 409
    office.parts.history.fd = kept
    assert office.app.extensions["staging"].staging.row(row).cells["name"] == "Ada Abbot"


def test_a_table_that_cannot_be_written(
    office: Site, screens: Screens, monkeypatch: pytest.MonkeyPatch
) -> None:
    """Before the sending nothing is sent; after it the rows are found to be stored later."""
    screens.add(("a.csv", lines(GOOD[:2])))
    digest, tools = screens.digest(), office.app.extensions["staging"]
    real = office.parts.store.writing

    def full() -> Any:
        raise sqlite3.OperationalError("database or disk is full")

    monkeypatch.setattr(office.parts.store, "writing", full)
    found = screens.store(digest)
    assert found.status_code == 409 and not imports(office)
    assert "Nothing was added: the table cannot be written: database or disk is full" in found.text
    monkeypatch.setattr(office.parts.store, "writing", real)
    change = tools.committing.imports.change

    def late(*_: object) -> None:
        raise Refused("the table cannot be written")

    monkeypatch.setattr(tools.committing.imports, "change", late)
    assert screens.store(digest).status_code == 303 and states(office) == {SENDING: 2}
    monkeypatch.setattr(tools.committing.imports, "change", change)
    assert screens.see().rows() == [] and states(office) == {COMMITTED: 2}
    assert len(imports(office)) == 1


FORM = {"name": "Mo Marsh", "east": "10", "north": "20", "looked_after": "no", "flags": "2, 5",
        "siblings": "oak", "present": "prim7", "day": "20/10/2024", "preference-1": "Elm School",
        "preference-2": "OAK"}


def test_a_child_is_added_by_a_form(office: Site, screens: Screens) -> None:
    """In the order of the keyboard, with the next number that is free."""
    screens.add(("a.csv", lines(GOOD[:1])))
    seen = screens.see("add/")
    # (after the search of the frame)
    assert seen.order == [
        "q", "name", "property_number", "postcode", "east", "north", "looked_after", "flags",
        "siblings", "present", "day", *[f"preference-{it}" for it in range(1, 11)], "child"]
    assert [name for (_, name), it in seen.fields.items() if "autofocus" in it] == ["name"]
    assert seen.value("child") == "102"
    given = {**FORM, "child": "102", "proposed": "102"}
    wrong = screens.browser.post("/applications/add/", {**given, "day": "31/02/2024",
                                                        "preference-1": "ASH"})
    assert wrong.status_code == 409
    page = Seen(wrong.text)
    assert page.value("name") == "Mo Marsh" and page.value("preference-1") == "ASH"
    day = page.fields["child-form", "day"]
    assert (day["aria-invalid"], day["aria-describedby"]) == ("true", "about-day")
    assert "autofocus" in day and "There is no school ASH." in page.texts["about-preferences"]
    assert states(office) == {OPEN: 1}
    done = screens.browser.post("/applications/add/", given)
    assert done.status_code == 303
    assert "Mo Marsh is added with the number 102" in Seen(
        screens.browser.get(done.location).text).texts["answer"]
    # a colleague who had the same number proposed gets the next one; a number of one's own is kept
    bo = office.browser("bo")
    bo.get("/applications/add/")
    assert bo.post("/applications/add/", {**given, "name": "Nia North", "east": "900"}
                   ).status_code == 303
    own = bo.post("/applications/add/", {**given, "name": "Oz Orr", "east": "1900", "child": "102",
                                         "proposed": "104"})
    assert own.status_code == 409 and "Also in form 1." in own.text
    assert "103" in [it["value"] for (_, name), it in screens.opened().fields.items()
                     if name == f"child-{screens.see().row('form 2')}"]
    screens.store()
    assert has(office.parts.desk.now()) == expected([
        GOOD[0], ["102", "Mo Marsh", "10", "20", "no", "2;5", "OAK", "2024-10-20", "ELM;OAK",
                  "PRIM7"],
        ["103", "Nia North", "900", "20", "no", "2;5", "OAK", "2024-10-20", "ELM;OAK", "PRIM7"]])
    assert screens.see("add/").value("child") == "104"


def test_a_form_that_is_sent_twice_adds_one_child(office: Site, screens: Screens) -> None:
    """By a second click, and by Back after it is stored: no second child gets the next number."""
    screens.see("add/")
    given = {**FORM, "child": "8", "proposed": "8"}
    done = screens.browser.post("/applications/add/", given)
    again = screens.browser.post("/applications/add/", given)
    assert (again.status_code, again.location) == (303, done.location)
    assert states(office) == {OPEN: 1}
    assert screens.store().status_code == 303
    assert screens.browser.post("/applications/add/", given).location == done.location
    assert states(office) == {COMMITTED: 1}
    # (another child of the same home is one of its own)
    assert screens.browser.post("/applications/add/", {**given, "name": "Max Marsh"}
                                ).status_code == 303
    assert states(office) == {COMMITTED: 1, OPEN: 1}


def test_the_next_free_number() -> None:
    """After the greatest; where that is the last there is, the least that is free."""
    assert staging_form.next_free([]) == 1
    assert staging_form.next_free([3, 8]) == 9
    assert staging_form.next_free([1, 2, 9_999_999]) == 3


def test_each_role_sees_what_is_its_own(office: Site, screens: Screens) -> None:
    """Rows of applications have more than the register: they are for who records alone."""
    screens.add(("a.csv", lines(GOOD[:1])))
    posts = ("", "files", "file/1", "file/1/replace", "mend", "undo", "withdrawn",
             "duplicates", "add/", "commit/")
    for role in ("reader", "supervisor", "administrator", "school-OAK"):
        other = office.browser(f"kim-{role.lower()}", role)
        for path in ("", "commit/", "duplicates", "withdrawn", "add/", "file/1"):
            assert other.get(f"/applications/{path}").status_code == 403, (role, path)
        for path in posts:
            assert other.post(f"/applications/{path}", {"what": "save"}).status_code == 403, path
    found = screens.browser.client.post(
        "/applications/commit/", base_url=ORIGIN, headers={"Origin": "https://evil.example"},
        data={"form": screens.browser.secret, "digest": screens.digest()})
    assert found.status_code == 403 and states(office) == {OPEN: 1}


def test_one_row_is_checked_where_one_was_changed(
    office: Site, screens: Screens, monkeypatch: pytest.MonkeyPatch
) -> None:
    """The others are as they were; another school means that all are checked."""
    screens.add(("a.csv", lines(GOOD)))
    read: list[int] = []
    real = table_check.checked

    def counted(it: Any, *beside: Any) -> Any:
        read.append(it.id)
        return real(it, *beside)

    monkeypatch.setattr(table_check, "checked", counted)
    rows = screens.see().rows()
    assert len(read) in (0, 12)
    read.clear()
    screens.save(rows[3], name="Dov Drakes")
    screens.see()
    assert read == [rows[3]]
    read.clear()
    office.record("bo", school("ASH"))
    screens.see()
    assert sorted(read) == sorted(rows)


def test_the_table_has_a_limit(office: Site, screens: Screens) -> None:
    """As many rows as one import takes: more are refused, whether new or brought back."""
    def rows(first: int, count: int) -> bytes:
        return lines([[str(it), f"C{it} {it * 7919 % 10007}", str(it * 3), "0", "no", "", "",
                       "2024-10-20", "OAK", ""] for it in range(first, first + count)])

    assert screens.add(("a.csv", rows(1001, 2000))).status_code == 303
    found = screens.add(("b.csv", rows(4001, 1)))
    assert "the table would have 2,001 rows" in Seen(found.text).texts["answer"]
    assert screens.browser.post("/applications/add/", FORM).status_code == 409
    page = screens.see("commit/")
    assert "a register has at most 2,000 children: it has 1, and 2,000 are new" in page.text
    assert screens.store(page.texts.get("", "x")).status_code == 409
    screens.set_aside("Set 2,000 rows of a.csv aside")
    screens.add(("b.csv", rows(4001, 1)))
    screens.press("Put back 2,000 rows", "withdrawn", 409)
    assert states(office) == {OPEN: 1, WITHDRAWN: 2000}


def test_a_store_of_the_first_version_is_taken_on(tmp_path: pathlib.Path) -> None:
    """The tables are added to a file that has people alone."""
    path = str(tmp_path / "office.db")
    with sqlite3.connect(path) as db:
        db.executescript(schema.STEPS[0] + "PRAGMA user_version=1;")
    found = store.Store(path)
    assert found.rows("SELECT * FROM staged_row") == []
    found.close()
