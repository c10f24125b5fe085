"""Schools, flags and the lists of a school in the application."""
import html
import io
import json
import pathlib
import re
import sqlite3
import sys
import threading
import zipfile
from collections.abc import Iterator
from typing import Any

import openpyxl
import pytest
from applications import ORIGIN, ROUND, SCHOOLS, Browser, Site, child, office_over, site, town
from conftest import make
from hostile import MAIN, row_of, workbook
from pages import Page, press, tasks
from register_files import Refused
from served import served

from office.core.model import Register
from office.web.people.roles import Person
from office.web.schools import flags
from office.web.schools import rows as schools
from office.web.schools.drafts import Draft, digest, seen_line
from office.web.schools.rows import Line
from office.web.schools.views import new as new_screen

OAK: dict[str, Any] = {
    "cmd": "add_school", "school": "OAK", "name": "Oak \"School\" <b>&</b> Co", "pan": 30,
    "east": 4100, "north": 3600, "criteria": ["sibling", "within:1500", "flag:2", "feeder:PRIM7"]}
ELM: dict[str, Any] = {
    "cmd": "add_school", "school": "ELM", "name": "مدرسة الأمل", "pan": 12, "east": 1, "north": 2,
    "criteria": []}
HEADER = "school,name,pan,east,north,criteria\n"
CRITERIA = "sibling;within:1500;flag:2;feeder:PRIM7"
SHEET = HEADER + f'''OAK,"Oak ""School"" <b>&</b> Co",30,4100,3600,{CRITERIA}
ELM,مدرسة الأمل,12,1,2,
'''


@pytest.fixture(name="empty")
def empty_fixture(tmp_path: pathlib.Path) -> Iterator[Site]:
    """The application over a register that has nothing yet."""
    with office_over(tmp_path, []) as found:
        yield found


@pytest.fixture(name="held")
def held_fixture(tmp_path: pathlib.Path) -> Iterator[Site]:
    """The application over a register after its first round: A has 1 and 2, B has 3, and 4 none."""
    with office_over(tmp_path, [*town(), ROUND]) as found:
        yield found


def stored(office: Site) -> list[dict[str, Any]]:
    """The schools of the register as commands, in the order of their codes."""
    found = office.parts.desk.now().schools.values()
    return [{"cmd": "add_school", "school": it.code, "name": it.name, "pan": it.pan,
             "east": it.east, "north": it.north, "criteria": list(it.criteria)} for it in found]


def sent(office: Site) -> list[dict[str, Any]]:
    """The commands that were sent, in their order."""
    return [it.about["command"] for it in office.parts.history.entries if it.what == "sends"]


def upload(browser: Browser, path: str, name: str, data: bytes, file: str = "a.csv") -> Any:
    """A file that is uploaded."""
    browser.get("/schools/new/")
    return browser.post(path, {name: (io.BytesIO(data), file)},
                        content_type="multipart/form-data")


def stores(browser: Browser, path: str, page: Page, button: str) -> Any:
    """Presses the button of the draft, and that of the question where it is asked: the page that
    follows.
    """
    found = press(browser, path, page, button)
    question = Page(found.text)
    if "schools" in question.by_id:
        found = press(browser, "", question, button)
    return browser.get(found.location) if found.status_code == 303 else found


def asked(browser: Browser, text: str = SHEET) -> Page:
    """The question to which an uploaded sheet leads in which nothing is wrong."""
    found = upload(browser, "/schools/new/sheet", "sheet", text.encode())
    assert found.location.startswith("/schools/new/store?digest="), Page(found.text).said()
    return Page(browser.get(found.location).text)


def drafted(browser: Browser, text: str = SHEET) -> Page:
    """The draft after an uploaded sheet."""
    found = upload(browser, "/schools/new/sheet", "sheet", text.encode())
    assert found.status_code == 303, Page(found.text).said()
    return Page(browser.get("/schools/new/").text)


def test_a_school_is_typed_and_shown_whole_before_it_is_stored(empty: Site) -> None:
    """The criteria are chosen from menus; nothing is sent before the confirmation."""
    flags.change(empty.parts.store, "{}", {2: "medical need"}, lambda _: None)
    jane = empty.browser("jane")
    page = Page(jane.get("/schools/new/").text)
    given = {"school": "oak", "name": OAK["name"], "pan": "030", "east": "4100.0", "north": "3600",
             "kind": ["sibling", "within:", "flag:2", "feeder:"],
             "value": ["", "1500", "", "prim7"]}
    found = press(jane, "/schools/new/", page, "Add to the draft", **given)
    assert found.status_code == 303 and sent(empty) == []
    page = Page(jane.get(found.location).text)
    _, line = page.tables["Each line as it will be stored"]
    assert line[:5] == ["OAK", OAK["name"], "30", "4100", "3600"]
    assert page.text.count('<td class="number">') == 3
    assert line[5] == (
        "1. sibling: with a brother or sister at the school"
        "2. within:1500: living within 1,500 metres of the school"
        "3. flag:2: medical need"
        "4. feeder:PRIM7: from the feeder school PRIM7")
    assert "<b>&</b>" not in page.text
    found = stores(jane, "/schools/new/", page, "Store 1 school")
    assert found.status_code == 200 and Page(found.text).said() == "1 school is stored."
    assert stored(empty) == [OAK] and sent(empty) == [OAK]
    assert empty.parts.schools.rows() == []
    who = [(it.who, it.what) for it in empty.parts.history.entries]
    assert ("jane", "added to the draft of schools") in who and ("jane", "sends") in who


def test_a_copy_is_made_before_schools_are_stored(
    empty: Site, monkeypatch: pytest.MonkeyPatch,
) -> None:
    """As a school is final; without it nothing is stored, nor while the register is closed."""
    jane = empty.browser("jane")
    page = drafted(jane)
    question = Page(press(jane, "", page, "Store 2 schools").text)
    assert "A copy of the register is made first" in question.text and empty.copied == []

    def none(*_: object) -> int:
        raise Refused("there is no copy: the disk is full")

    for name, found, said in (("make", none, "There is no copy: the disk is full."),
                              ("closed", lambda: "Recording is paused for round 1 by hal.",
                               "Recording is paused for round 1")):
        with monkeypatch.context() as patch:
            target = empty.parts.copies if name == "make" else empty.parts.desk
            patch.setattr(target, name, found)
            late = press(jane, "", question, "Store 2 schools")
        assert late.status_code == 409 and said in Page(late.text).said()
        assert sent(empty) == [] and empty.copied == []
    assert press(jane, "", question, "Store 2 schools").status_code == 303
    assert empty.copied == ["before schools are stored"] and len(stored(empty)) == 2


def test_schools_are_asked_whole_before_they_are_stored(empty: Site) -> None:
    """One question for all of them, with the words of criteria and flags; nothing is sent before
    its button, nor where the draft has changed since.
    """
    jane = empty.browser("jane")
    page = drafted(jane)
    found = press(jane, "", page, "Store 2 schools")
    question = Page(found.text)
    said = " ".join(question.by_id["schools"].split())
    assert found.status_code == 200 and sent(empty) == []
    assert f"OAK {OAK['name']}: admission number 30, east 4100, north 3600." in said
    assert "1. sibling: with a brother or sister at the school" in said
    assert "ELM" in said and "This cannot be undone" in question.text
    assert "only its admission number can be changed" in question.text
    drafted(jane, HEADER + "A,Alpha,1,1,1,\n")
    found = press(jane, "", question, "Store 2 schools")
    assert found.status_code == 409 and sent(empty) == []
    page = Page(jane.get("/schools/new/").text)
    question = Page(press(jane, "", page, "Store 3 schools").text)
    found = press(jane, "", question, "Store 3 schools")
    assert found.status_code == 303 and len(sent(empty)) == 3


def test_a_sheet_without_errors_leads_to_its_question_and_is_stored_once(empty: Site) -> None:
    """Whatever a second press and a second window do; each of them says what is stored."""
    jane, bo = empty.browser("jane"), empty.browser("bo")
    question = asked(jane)
    said = " ".join(question.by_id["schools"].split())
    assert f"OAK {OAK['name']}: admission number 30" in said and "This cannot be" in question.text
    assert question.buttons() == ["Store 2 schools"] and sent(empty) == []
    other = Page(press(bo, "", Page(bo.get("/schools/new/").text), "Store 2 schools").text)
    first, again, late = (press(*it, "Store 2 schools") for it in (
        (jane, "", question), (jane, "", question), (bo, "", other)))
    assert {(it.status_code, it.location) for it in (first, again, late)} == {
        (303, "/schools/new/?done=stored")}
    page = Page(jane.get(first.location).text)
    assert page.said() == "2 schools are stored." and len(page.tables["outcomes"]) == 3
    assert len(sent(empty)) == 2 and [it["school"] for it in stored(empty)] == ["ELM", "OAK"]
    # a colleague's line that is wrong is seen before anything is asked
    with_error = HEADER + "ASH,Ash,500x,5,6,\n"
    assert upload(bo, "/schools/new/sheet", "sheet", with_error.encode()).location == (
        "/schools/new/?done=1")
    page = drafted(jane, HEADER + "BAY,Bay,5,7,8,\n")
    assert [it[0] for it in page.tables["Each line as it will be stored"][1:]] == ["ASH", "BAY"]
    assert not any(it.startswith("Store") for it in page.buttons())


def test_the_question_asks_for_the_words_of_reasons_that_have_none(empty: Site) -> None:
    """They are stored before the schools, and are as on Verified reasons. What cannot be stored
    stays in its field, and nothing else is stored then.
    """
    store, text = empty.parts.store, HEADER + "A,Alpha,1,1,1,flag:1;sibling\nB,Beta,1,2,2,flag:3\n"
    flags.change(store, "{}", {3: "a twin"}, lambda _: None)
    jane = empty.browser("jane")
    question = asked(jane, text)
    fields = {it for it in question.form("Store 2 schools").values if it.startswith("flag-")}
    assert fields == {"flag-1"}
    assert "1. flag:3: a twin" in question.by_id["schools"]
    for typed, said in (("x" * 101, "At most 100 characters"), ("a\u202eb", "Words on one line")):
        found = press(jane, "", question, "Store 2 schools", **{"flag-1": typed})
        page = Page(found.text)
        assert found.status_code == 409 and said.lower() in page.error("flag-1").lower()
        assert 'href="#flag-1">Words of reason 1: ' in page.text
        assert page.form("Store 2 schools").values["flag-1"] == [typed] and sent(empty) == []
    flags.change(store, flags.text_of({3: "a twin"}), {3: "a triplet"}, lambda _: None)
    found = press(jane, "", question, "Store 2 schools", **{"flag-1": "medical need"})
    page = Page(found.text)
    assert found.status_code == 409 and "The words were changed meanwhile" in page.said()
    assert page.form("Store 2 schools").values["flag-1"] == ["medical need"] and sent(empty) == []
    for _ in range(2):
        found = press(jane, "", page, "Store 2 schools", **{"flag-1": " medical need "})
        assert found.location == "/schools/new/?done=stored"
    assert flags.words_of(store) == {1: "medical need", 3: "a triplet"} and len(sent(empty)) == 2
    assert [it.what for it in empty.parts.history.entries].count("named flags") == 1
    # (in another window other words were typed: they are not said to be stored)
    found = press(jane, "", page, "Store 2 schools", **{"flag-1": "a rare need"})
    assert found.status_code == 409 and "was changed since it was shown" in Page(found.text).said()
    assert flags.words_of(store)[1] == "medical need"
    question = asked(jane, HEADER + "C,Gamma,1,3,3,flag:1\n")
    assert "nameless" not in question.by_id
    assert "1. flag:1: medical need" in question.by_id["schools"]


def test_storing_that_takes_long_says_at_its_end_what_is_stored(
    empty: Site, monkeypatch: pytest.MonkeyPatch
) -> None:
    """The page looks again meanwhile; what hindered it after its answer is said there too."""
    jane, go_on, make_copy = empty.browser("jane"), threading.Event(), empty.parts.copies.make
    monkeypatch.setattr(new_screen, "WAIT_SECONDS", 0.0)
    hinders = [Refused("there is no copy: the disk is full")]

    def slow(*given: Any) -> int:
        go_on.wait(60)
        if hinders:
            raise hinders.pop()
        return make_copy(*given)

    monkeypatch.setattr(empty.parts.copies, "make", slow)
    question, path = asked(jane), "/schools/new/?done=stored"
    for said in ("There is no copy: the disk is full. 2 lines remain in the draft.",
                 "2 schools are stored."):
        go_on.clear()
        assert press(jane, "", question, "Store 2 schools").location == path
        page = Page(jane.get(path).text)
        assert page.fields["lines"]["data-running"] == path and sent(empty) == []
        assert press(jane, "", question, "Store 2 schools").location == path
        go_on.set()
        job = empty.parts.jobs.last("school draft")
        assert job and job.is_over.wait(60)
        page = Page(jane.get(path).text)
        assert page.said() == said and "data-running" not in page.fields["lines"]
    assert len(sent(empty)) == 2


WRONG = [
    ("school", "", "a code of 1 to 8 of A-Z and 0-9 (it is empty)"),
    ("school", "oak school", "a code of 1 to 8 of A-Z and 0-9"),
    ("name", " ", "the name is missing"),
    ("name", "é" * 41, "the name is longer than 80 letters"),
    ("name", "a\u202eb\x07", "the name has more than one line"),
    ("pan", "0", "write a whole number from 1 to 500"),
    ("pan", "501", "write a whole number from 1 to 500"),
    ("pan", "many", "write a whole number from 1 to 500"),
    ("east", "1500001", "write a whole number from 0 to 1,500,000"),
    ("north", "-1", "write a whole number from 0 to 1,500,000"),
    ("north", "0" * 50_000 + "x", "write a whole number"),
    ("criteria", "siblings", '"siblings" is no criterion'),
    ("criteria", "within:", '"within:" is no criterion'),
    ("criteria", "within:0", 'the number of "within:" is 0, and must be from 1 to 2,200,000'),
    ("criteria", "flag:16", 'the number of "flag:" is 16, and must be from 0 to 15'),
    ("criteria", "sibling:1", '"sibling:1" is no criterion'),
    ("criteria", ";".join(["sibling"] * 9), '"criteria" has 9 items, and may have 8'),
    ("criteria", "sibling;;flag:2", '"" is no criterion'),
]


@pytest.mark.parametrize("field, text, said", WRONG)
def test_what_is_wrong_is_said_at_its_field(field: str, text: str, said: str) -> None:
    """And a school with anything wrong has no command."""
    cells = {it: str(value) for it, value in OAK.items()} | {"criteria": "sibling", field: text}
    command, wrong = schools.read(cells, {})
    assert command is None and list(wrong) == [field] and said in wrong[field]


def test_a_criterion_is_also_its_flags_words() -> None:
    """As an office has them in its sheet, whatever the capitals."""
    cells = {**{it: str(value) for it, value in OAK.items()},
             "criteria": "Sibling; Medical NEED, within : 800"}
    command, wrong = schools.read(cells, {2: "medical need"})
    assert not wrong and command and command["criteria"] == ["sibling", "flag:2", "within:800"]


def test_what_was_typed_stays_in_the_form(empty: Site) -> None:
    """With its errors, each tied to its field; nothing comes into the draft."""
    jane = empty.browser("jane")
    page = Page(jane.get("/schools/new/").text)
    found = press(jane, "/schools/new/", page, "Add to the draft", school="O K", name="<script>",
                  pan="", east="1", north="2", kind=["within:", "sibling", ""],
                  value=["x", "", "77"])
    page = Page(found.text)
    assert found.status_code == 400 and empty.parts.schools.rows() == []
    assert page.error("school").startswith("a code of") and page.error("pan")
    assert page.error("name") == "" == page.error("east")
    assert '"within:x" and "77" are no criteria' in page.by_id["criteria-error"]
    form = page.form("Add to the draft").values
    assert (form["school"], form["name"], form["east"]) == (["O K"], ["<script>"], ["1"])
    assert form["kind"][:3] == ["within:", "sibling", "77"] and form["value"][:2] == ["x", ""]
    assert "<script>" not in page.text.replace('<script src="/', "")


def test_a_sheet_comes_into_the_draft_with_its_errors(empty: Site) -> None:
    """A line that is wrong is marked and corrected there; all are stored in their order."""
    jane = empty.browser("jane")
    wrong = SHEET + "ASH,Ash,500x,5,6,\n=1+1,Fir,10,5,6,sibling\n"
    page = drafted(jane, wrong)
    rows = page.tables["Each line as it will be stored"][1:]
    assert [it[0][:3] for it in rows] == ["OAK", "ELM", "ASH", "=1+"]
    assert "a whole number from 1 to 500" in rows[2][2] and "a code of" in rows[3][0]
    assert not any(it.startswith("Store") for it in page.buttons())
    lines = empty.parts.schools.rows()
    found = press(jane, "/schools/new/store", Page(
        '<form method="post" action="/schools/new/store"><button>x</button></form>'), "x",
        digest=digest(schools.lines_of(lines, {}, {})))
    assert found.status_code == 409 and sent(empty) == []
    for (number, _), field, text in zip(lines[2:], ("pan", "school"), ("50", "FIR")):
        page = Page(jane.get(f"/schools/new/{number}").text)
        found = press(jane, "", page, "Change the line", **{field: text})
        assert found.status_code == 303, Page(found.text).said()
    page = Page(jane.get("/schools/new/").text)
    found = stores(jane, "", page, "Store 4 schools")
    assert [it["school"] for it in sent(empty)] == ["OAK", "ELM", "ASH", "FIR"]
    ash = {**ELM, "school": "ASH", "name": "Ash", "pan": 50, "east": 5, "north": 6}
    fir = {**ash, "school": "FIR", "name": "Fir", "pan": 10, "criteria": ["sibling"]}
    assert stored(empty) == [ash, ELM, fir, OAK]


def test_a_workbook_comes_into_the_draft(empty: Site) -> None:
    """Its columns in any order, under other names too."""
    book = openpyxl.Workbook()
    book.active.append(["Name", "Code", "Admission number", "Easting", "Northing", "Criteria", "x"])
    book.active.append(["Oak", "OAK", 30.0, 4100, 3600, "sibling; within:1500", "left out"])
    out = io.BytesIO()
    book.save(out)
    found = upload(empty.browser("jane"), "/schools/new/sheet", "sheet", out.getvalue(), "a.xlsx")
    assert found.status_code == 303, Page(found.text).said()
    (_, cells), = empty.parts.schools.rows()
    assert cells == {"school": "OAK", "name": "Oak", "pan": "30", "east": "4100", "north": "3600",
                     "criteria": "sibling; within:1500"}


def bomb(path: pathlib.Path) -> bytes:
    """A workbook that is far too large once it is unpacked."""
    with zipfile.ZipFile(path, "w", zipfile.ZIP_DEFLATED) as made:
        made.writestr("[Content_Types].xml", b" " * 100_000_000)
    return path.read_bytes()


def formula(path: pathlib.Path) -> bytes:
    """A workbook with a formula that no spreadsheet has calculated."""
    names = ["school", "name", "pan", "east", "north", "criteria"]
    text = '<c r="B2" t="inlineStr"><is><t>Oak</t></is></c>'
    rows = row_of(1, names) + f'<row r="2"><c r="A2"><f>1+1</f></c>{text}</row>'
    workbook(path, rows)
    assert MAIN in zipfile.ZipFile(path).read("xl/worksheets/sheet1.xml").decode()
    return path.read_bytes()


REFUSED = [
    ("nothing", b"\n", "the file is empty"),
    ("a PDF", b"%PDF-1.7 x", "the file is a PDF"),
    ("a page", b"<html><body>x", "the file is a web page"),
    ("a register", b"SQLite format 3\0" + b"x" * 90, "the file is a register"),
    ("a torn workbook", b"PK\x03\x04 and no more", "the file is no Excel file that can be read"),
    ("zero bytes", b"a\0b\n", "the file is no text"),
    ("other columns", b"child,name\n1,Ann\n", "must have the columns"),
    ("a column twice", b"school,code,name,pan,east,north,criteria\nA,A,B,1,1,1,\n", "school twice"),
    ("no school", HEADER.encode(), "no school below its first row"),
    ("a register's limit", (HEADER + "A,B,1,1,1,\n" * 201).encode(), "at most 200 schools"),
    ("a line without an end", b"x" * 40_000, "at most 32,767 characters"),
    ("a long cell", f"{HEADER}A,{'B' * 1_001},1,1,1,\n".encode(), "at most 1,000 characters"),
]


@pytest.mark.parametrize("data, said", [it[1:] for it in REFUSED], ids=[it[0] for it in REFUSED])
def test_another_file_is_refused(empty: Site, data: bytes, said: str) -> None:
    """With the reason, and nothing is in the draft, or on record, where it would stay for good."""
    found = upload(empty.browser("jane"), "/schools/new/sheet", "sheet", data, "../../a.xlsx")
    assert {it.what for it in empty.parts.history.entries} == {"signed in"}
    text = Page(found.text).said()
    assert (found.status_code, said in text.replace("The file", "the file")) == (400, True), text
    assert empty.parts.schools.rows() == [] and "/tmp" not in found.text


def test_a_bomb_and_a_formula_are_refused(empty: Site, tmp_path: pathlib.Path) -> None:
    """Before they are read whole; and a value that is not there is no empty value."""
    jane = empty.browser("jane")
    for data, said in ((bomb(tmp_path / "a.xlsx"), "is too large once it is unpacked"),
                       (formula(tmp_path / "b.xlsx"), "a formula that was never calculated")):
        found = upload(jane, "/schools/new/sheet", "sheet", data, "a.xlsx")
        assert found.status_code == 400 and said in Page(found.text).said()
    found = jane.post("/schools/new/sheet", {}, content_type="multipart/form-data")
    assert found.status_code == 400 and "Choose a file first." in Page(found.text).said()


def test_a_reader_that_ends_is_a_refusal(
    empty: Site, monkeypatch: pytest.MonkeyPatch,
) -> None:
    """As one that is killed for its memory or its time."""
    monkeypatch.setattr(sys, "executable", "/bin/false")
    found = upload(empty.browser("jane"), "/schools/new/sheet", "sheet", SHEET.encode())
    assert found.status_code == 400
    assert "Reading the file was not possible" in Page(found.text).said()


def test_last_year_fills_the_draft(empty: Site, tmp_path: pathlib.Path) -> None:
    """By a copy of its register; schools that are here already are left out."""
    make(tmp_path / "last.db", [OAK, ELM, *SCHOOLS], "2024")
    jane = empty.browser("jane")
    drafted(jane, HEADER + "ELM,Elm,20,1,1,\n")
    data = (tmp_path / "last.db").read_bytes()
    found = upload(jane, "/schools/new/last-year", "copy", data, "last.db")
    assert found.status_code == 303, Page(found.text).said()
    page = Page(jane.get(found.location).text)
    rows = page.tables["Each line as it will be stored"][1:]
    assert [it[0] for it in rows] == ["ELM", "A", "B", "OAK"]
    stores(jane, "", page, "Store 4 schools")
    assert OAK in stored(empty) and {**ELM, "name": "Elm", "pan": 20, "north": 1} in stored(empty)
    found = upload(jane, "/schools/new/last-year", "copy", data, "last.db")
    assert found.status_code == 400 and "in the register or in the draft" in Page(found.text).said()


def test_what_is_no_copy_of_a_register_is_refused(empty: Site, tmp_path: pathlib.Path) -> None:
    """With the reason: another file, another database, a damaged register."""
    jane = empty.browser("jane")
    other = sqlite3.connect(tmp_path / "other.db")
    other.execute("CREATE TABLE school (a)")
    other.close()
    make(tmp_path / "last.db", SCHOOLS, "2024")
    torn = bytearray((tmp_path / "last.db").read_bytes())
    torn[100:2000] = b"\xff" * 1900
    cases = ((b"text", "it is a text or another file"), (b"%PDF", "it is a PDF"),
             ((tmp_path / "other.db").read_bytes(), "is no register, or it is damaged"),
             (bytes(torn), "is no register, or it is damaged"))
    for data, said in cases:
        found = upload(jane, "/schools/new/last-year", "copy", data, "last.db")
        assert found.status_code == 400 and said in Page(found.text).said(), said
        assert str(tmp_path) not in found.text and "/tmp" not in found.text
    assert empty.parts.schools.rows() == []


def test_storing_goes_on_where_it_stopped(empty: Site, monkeypatch: pytest.MonkeyPatch) -> None:
    """The application ends after the second school was stored and before it left the draft: none is
    sent twice. A school that came otherwise meanwhile is not sent at all.
    """
    jane, hal = empty.browser("jane"), Person("hal", "head")
    drafted(jane, HEADER + "A,Alpha,1,1,1,\nB,Beta,1,2,2,\nC,Gamma,1,3,3,\nD,Delta,1,4,4,\n")
    desk, draft = empty.parts.desk, empty.parts.schools
    shown = digest(schools.lines_of(draft.rows(), {}, {}))

    kept = Draft.change

    def ends(*given: Any) -> None:
        if len(sent(empty)) == 2:
            raise KeyboardInterrupt
        kept(*given)

    with monkeypatch.context() as patch:
        patch.setattr(Draft, "change", ends)
        with pytest.raises(KeyboardInterrupt):
            draft.store_all(Person("jane", "officer"), {}, shown, 600)
    assert [it["school"] for it in stored(empty)] == ["A", "B"]
    assert desk.send(hal, {"cmd": "add_school", "school": "C", "name": "Gamma", "pan": 1,
                           "east": 3, "north": 3, "criteria": []}).is_done
    page = Page(jane.get("/schools/new/").text)
    rows = page.tables["Each line as it will be stored"][1:]
    assert [it[0] for it in rows] == ["C", "D"]
    assert "the register has it already: nothing is stored for it" in rows[0][6]
    found = stores(jane, "", page, "Store 2 schools")
    assert found.status_code == 200 and draft.rows() == []
    assert [it["school"] for it in sent(empty)] == ["A", "B", "C", "D"]
    said = [it[2] for it in Page(found.text).tables["outcomes"][1:]]
    assert said == ["The register has it already, with the same data.", "Done, and stored."]


def test_a_line_that_a_colleague_changed_is_not_overwritten(empty: Site) -> None:
    """What was typed stays, beside the present line, and may be stored after that."""
    jane, bo = empty.browser("jane"), empty.browser("bo")
    drafted(jane, HEADER + "A,Alpha,1,1,1,\n")
    number = empty.parts.schools.rows()[0][0]
    path = f"/schools/new/{number}"
    page, other = Page(jane.get(path).text), Page(bo.get(path).text)
    assert press(bo, path, other, "Change the line", pan="30").status_code == 303
    wrong = press(jane, path, page, "Change the line", pan="many", north="7")
    assert wrong.status_code == 400
    found = press(jane, path, Page(wrong.text), "Change the line", pan="1", north="7")
    page = Page(found.text)
    assert found.status_code == 409 and "Somebody else has changed this line" in page.said()
    assert page.tables["Each line as it will be stored"][1][2:5] == ["30", "1", "1"]
    form = page.form("Change the line").values
    assert (form["pan"], form["north"]) == (["1"], ["7"])
    assert press(jane, path, page, "Change the line", pan="30").status_code == 303
    assert empty.parts.schools.cells(number) == {
        "school": "A", "name": "Alpha", "pan": "30", "east": "1", "north": "7", "criteria": ""}


def test_a_line_that_is_changed_while_others_are_stored_stays(
    empty: Site, monkeypatch: pytest.MonkeyPatch
) -> None:
    """Only what was shown is stored; a line that was changed since remains in the draft."""
    jane = empty.browser("jane")
    page = drafted(jane, HEADER + "A,Alpha,1,1,1,\nB,Beta,1,2,2,\nC,Gamma,1,3,3,\n")
    draft, send = empty.parts.schools, empty.parts.desk.request
    _, (second, cells), _ = draft.rows()

    def meanwhile(*given: Any) -> Any:
        with empty.parts.store.writing() as db:
            db.execute("UPDATE sending SET about=? WHERE place=? AND state='waits'",
                       (json.dumps({**cells, "pan": "9"}), second))
        return send(*given)

    monkeypatch.setattr(empty.parts.desk, "request", meanwhile)
    found = stores(jane, "", page, "Store 3 schools")
    assert found.status_code == 409 and [it["school"] for it in stored(empty)] == ["A", "C"]
    assert draft.rows() == [(second, {**cells, "pan": "9"})]
    rows = Page(found.text).tables["outcomes"]
    assert rows[2][0] == "B" and "changed or removed" in rows[2][2]


def test_a_school_with_other_data_is_named(empty: Site) -> None:
    """A colleague stored it meanwhile; the others are stored."""
    jane, desk = empty.browser("jane"), empty.parts.desk
    page = drafted(jane)
    other = {**OAK, "pan": 31}
    desk.send(Person("bo", "officer"), other)
    found = stores(jane, "", page, "Store 2 schools")
    said = "The draft was changed since it was shown"
    assert found.status_code == 409 and said in Page(found.text).said()
    line = Page(found.text).tables["Each line as it will be stored"][1]
    assert "with other data: Admission number 31 there, 30 here" in line[0]
    assert sent(empty) == [other]
    # and one that came between the comparison and the sending
    draft = empty.parts.schools
    draft.remove(draft.rows()[0][0])
    lines = schools.lines_of(draft.rows(), {}, {})
    kept = desk.request

    def late(*given: Any) -> Any:
        setattr(desk, "request", kept)
        desk.send(Person("bo", "officer"), {**ELM, "pan": 99})
        return kept(*given)

    setattr(desk, "request", late)
    draft.store_all(Person("jane", "officer"), {}, digest(lines), 600)
    outcome, = draft.outcomes()
    assert not outcome.result.is_done and len(draft.rows()) == 1
    assert "Admission number 99 there, 12 here" in outcome.result.said


def test_lines_are_compared_with_one_another() -> None:
    """A code twice is wrong; a name or a point of another school is to be looked at."""
    def line(number: int, **more: str) -> tuple[int, dict[str, str]]:
        cells = {"school": "A", "name": "Alpha", "pan": "1", "east": "1", "north": "1",
                 "criteria": ""}
        return number, {**cells, **more}

    def found(*given: tuple[int, dict[str, str]]) -> list[Line]:
        return schools.lines_of(given, {}, {})

    twice = found(line(1), line(2, name="Beta"))
    assert [it.wrong for it in twice] == [{"school": "another line has this code too"}] * 2
    notes = found(line(1), line(2, school="B", name="ALPHA"), line(3, school="C", name="C",
                                                                   criteria="sibling;sibling"))
    point = "{} has the same point on the map".format
    assert [it.notes for it in notes] == [
        (point("B"), "B has the same name", point("C")),
        (point("A"), "A has the same name", point("C")),
        ("a criterion is there twice", point("A"), point("B"))]


def test_a_school_far_from_all_others_is_asked_about() -> None:
    """As one whose east and north are exchanged: nothing of it could be changed once it is stored.
    """
    def notes(*points: tuple[str, str]) -> list[tuple[str, ...]]:
        given = [(at, {"school": f"S{at}", "name": f"School {at}", "pan": "30", "east": east,
                       "north": north, "criteria": ""}) for at, (east, north) in enumerate(points)]
        return [it.notes for it in schools.lines_of(given, {}, {})]

    far = ("it is more than 50 km from every other school: are east and north right?",)
    assert notes(("525000", "180000"), ("526000", "181000"), ("183000", "524000")) == [(), (), far]
    assert notes(("525000", "180000"), ("525000", "230000"), ("525000", "280001")) == [(), (), far]
    assert notes(("525000", "180000")) == [()]


def test_nothing_is_stored_while_the_register_is_closed(empty: Site) -> None:
    """The draft stays, and the reason is said."""
    jane = empty.browser("jane")
    page = drafted(jane)
    empty.parts.desk.closed = lambda: "Recording is paused for round 1 by hal."
    found = stores(jane, "", page, "Store 2 schools")
    assert found.status_code == 409
    said = "Recording is paused for round 1 by hal. Nothing was recorded."
    assert Page(found.text).said() == said
    assert sent(empty) == [] and len(empty.parts.schools.rows()) == 2


def test_all_schools_are_shown(held: Site) -> None:
    """With what the register says of each."""
    page = Page(held.browser("rita", "reader").get("/schools/").text)
    assert page.tables["2 schools, with 3 places"][1:] == [
        ["A", "Alpha", "2", "2", "0", "2", "distance alone"],
        ["B", "Beta", "1", "1", "0", "1", "distance alone"]]
    assert "Add schools" not in page.text


def test_a_school_has_its_intake_its_list_and_its_last_offers(held: Site) -> None:
    """Children 1 and 2 live nearest to A, 3 has B, and 4 nothing; A's lots are 1 to 4."""
    rita = held.browser("rita", "reader")

    def table(name: str, path: str = "") -> list[list[str]]:
        return Page(rita.get(f"/schools/A{path}").text).tables[name][1:]

    alone = "ranked by distance alone"
    assert table("intake", "/intake") == [
        ["1", "Ada Abel", "offered", "3 March 2025", alone, "100"],
        ["2", "Ben Bell", "offered", "3 March 2025", alone, "200"]]
    assert table("waiting", "/waiting") == [
        ["1", "3", "Cyd <b>Cole</b>", alone, "300", "Beta, second preference offered",
         "31 October 2024"],
        ["2", "4", "Dai O'Dare", alone, "400", "none", "31 October 2024"]]
    assert table("last") == [["round 1", "3 March 2025", "2", "2", alone, "200", "2"]]
    text = rita.get("/schools/A").text
    assert "<b>Cole" not in text + rita.get("/schools/A/waiting").text
    assert table("classes") == [["looked after, or previously looked after", "0", "0", ""],
                                [alone, "2", "2", "200"]]
    homes = re.findall('<a href="/children/([0-9])"[^>]*><path class="home far ([a-z]*)"', text)
    assert sorted(homes) == [("1", "has"), ("2", "has"), ("3", "waits"), ("4", "waits")]
    assert "2 children have a place, and 2 wait." in text
    desk = held.parts.desk
    hal = Person("hal", "head")
    for command in ({"cmd": "accept", "child": 1, "school": "A"},
                    {"cmd": "decline", "child": 2, "school": "A"},
                    {"cmd": "name_plan", "child": 4, "school": "A"},
                    {"cmd": "raise_pan", "school": "A", "pan": 3},
                    {"cmd": "fill", "draw": 2, "school": "A", "day": "2025-03-20", "lots": [7]}):
        assert desk.send(hal, command, draw=True).is_done, command
    assert table("intake", "/intake") == [
        ["1", "Ada Abel", "accepted", "3 March 2025", alone, "100"],
        ["3", "Cyd <b>Cole</b>", "offered", "20 March 2025", alone, "300"],
        ["4", "Dai O'Dare", "by a plan", "", "", ""]]
    assert table("last") == [
        ["round 1", "3 March 2025", "2", "2", alone, "200", "2"],
        ["offer of a place at A (draw 2)", "20 March 2025", "1", "3", alone, "300", "7"]]
    assert [it for it in table("classes") if it[1:3] != ["0", "0"]] == [
        ["by an EHC plan", "1", "0", ""], [alone, "2", "0", "300"]]


def test_a_table_is_put_in_order_by_links(held: Site) -> None:
    """By a column, and by the same once more the other way; what was filtered stays so."""
    jane = held.browser("jane")
    links = re.findall('href="([^"]*)"', jane.get("/schools/A/waiting?words=d").text)
    path = html.unescape(next(it for it in links if "order=metres" in it))
    for orders, numbers in (("ascending", ["3", "4"]), ("descending", ["4", "3"])):
        text = jane.get(path).text
        assert [it[1] for it in Page(text).tables["waiting"][1:]] == numbers
        path = html.unescape(re.findall(f'aria-sort="{orders}"><a href="([^"]*)"', text)[0])
    names = ["Alpha", "Beta"]
    for order, found in (("vacant", names), ("name.down", names[::-1]), ("x", names),
                         ("criteria", names), (".down", names)):
        page = Page(jane.get(f"/schools/?order={order}").text)
        assert [it[1] for it in next(iter(page.tables.values()))[1:]] == found, order
    # (no name in an address means anything to what makes the links)
    asked = "_anchor=x&_scheme=javascript&_external=1&endpoint=y&code=z"
    found_page = jane.get(f"/schools/?{asked}&order=name")
    links = re.findall('href="([^"]*order=[^"]*)"', found_page.text)
    assert found_page.status_code == 200 and links
    assert all(it.startswith(f"/schools/?{asked.replace('&', '&amp;')}&amp;order=")
               for it in links)


def test_a_head_sees_the_own_school_alone(held: Site) -> None:
    """With names, without a link to a child or to what changes anything."""
    ann = held.browser("ann", "school-A")
    first = ann.get("/").text
    assert [it[::2] for it in tasks(first)["When you are ready"]] == [
        ("Look through your intake", "2 places"),
        ("Look through your waiting list", "2 children wait")]
    assert [it[:2] for it in tasks(first)["Done"]] == [
        ("Round 1", "2 places were offered on 3 March 2025")]
    assert "/children/" not in first and "Ada Abel" not in first
    text = "".join(ann.get(f"/schools/A{it}").text for it in ("", "/waiting", "/intake"))
    assert "Cyd &lt;b&gt;Cole" in text and "Ada Abel" in text
    # (homes, and places at other schools, are for the office)
    assert "How the places are filled" in text and 'class="home' not in text
    assert "/children/" not in text and "raise" not in text and "Beta" not in text
    assert "/schools/A/offer" not in text and "/schools/A/moves" not in text
    assert set(Page(text).buttons()) == {"Filter"}
    assert ann.get("/schools/A/workbook").status_code == 200
    for path in ("/schools/B", "/schools/B/workbook", "/schools/", "/schools/A/raise",
                 "/schools/B/waiting", "/schools/B/intake", "/schools/A/moves", "/schools/A/offer",
                 "/schools/ZZ", "/schools/new/", "/flags/"):
        assert ann.get(path).status_code == 403, path


def test_the_workbook_has_texts_alone(tmp_path: pathlib.Path) -> None:
    """A name that a spreadsheet would run is a text."""
    names = {1: "=HYPERLINK(\"http://x\")", 2: "+44 1", 3: "@SUM(A1)", 4: "-1"}
    commands = [{**it, "name": names[it["child"]]} if it["cmd"] == "add_child" else it
                for it in town()]
    with office_over(tmp_path, [*commands, ROUND]) as office:
        found = office.browser("rita", "reader").get("/schools/A/workbook")
        assert found.headers["Content-Disposition"] == 'attachment; filename="school-A.xlsx"'
    book = openpyxl.load_workbook(io.BytesIO(found.data))
    assert book.sheetnames == ["contents", "intake", "waiting list", "last offered"]
    rows = [[it.value for it in row] for row in book["waiting list"].iter_rows()]
    assert rows[1:] == [[1, 3, names[3], 1, "ranked by distance alone", 300],
                        [2, 4, names[4], 1, "ranked by distance alone", 400]]
    kinds = {it.data_type for page in book for row in page.iter_rows() for it in row}
    assert "f" not in kinds


def test_a_raise_shows_both_numbers(held: Site) -> None:
    """It is confirmed by the school's name, and can only rise."""
    jane = held.browser("jane")
    for typed, said in (("2", "more than the present number, 2"), ("1", "more than the present"),
                        ("501", "from 1 to 500"), ("x", "a whole number")):
        page = Page(jane.get(f"/schools/A/raise?pan={typed}").text)
        assert said in page.error("pan") and page.buttons() == ["Show what changes"]
    page = Page(jane.get("/schools/A/raise?pan=30").text)
    assert "This is 28 places more" in page.text
    page = Page(jane.get("/schools/A/raise?pan=3").text)
    assert "is a digit wrong" not in page.text
    found = press(jane, "/schools/A/raise", page, "Raise Alpha from 2 to 3")
    assert found.location == "/schools/A?raised=yes"
    assert held.parts.desk.now().schools["A"].pan == 3
    # (the page from before is sent again)
    found = press(jane, "/schools/A/raise", page, "Raise Alpha from 2 to 3", pan="5")
    assert found.status_code == 409
    assert Page(found.text).said() == "It has changed meanwhile. Nothing was recorded now."
    assert "Raise Alpha from 3 to 5" in Page(found.text).buttons()
    assert [it["pan"] for it in sent(held)] == [3]
    rita = held.browser("rita", "reader")
    assert rita.get("/schools/A/raise").status_code == 403
    assert rita.post("/schools/A/raise", {"pan": "4"}).status_code == 403


def test_flags_have_words_on_each_screen(tmp_path: pathlib.Path) -> None:
    """Stored once, with a record; and not over a colleague's."""
    commands = [{**it, "criteria": ["flag:3"]} if it["cmd"] == "add_school" else it
                for it in town()]
    with office_over(tmp_path, [*commands, {**child(9, "Eve", 1), "flags": [3, 7]}]) as office:
        jane, bo = office.browser("jane"), office.browser("bo")
        page, other = Page(jane.get("/flags/").text), Page(bo.get("/flags/").text)
        assert page.tables["What each reason means"][4][2:] == ["A, B", "1"]
        words = "a \"medical\" <need> مدرسة"
        found = press(jane, "/flags/", page, "Store the words", **{"flag-3": f" {words} "})
        assert found.status_code == 303 and flags.words_of(office.parts.store) == {3: words}
        entry = office.parts.history.entries[-1]
        assert (entry.who, entry.what) == ("jane", "named flags")
        assert entry.about == {"before": {}, "words": {"3": words}}
        found = press(bo, "/flags/", other, "Store the words", **{"flag-3": "social need"})
        page = Page(found.text)
        assert found.status_code == 409 and "were changed meanwhile" in page.said()
        assert words in page.said() and page.fields["flag-3"]["value"] == "social need"
        assert flags.words_of(office.parts.store) == {3: words}
        page = Page(jane.get("/flags/").text)
        assert page.fields["flag-3"]["value"] == words, "a text, whatever signs it has"
        long = press(jane, "/flags/", page, "Store the words",
                     **{"flag-4": "x" * 101, "flag-5": "twins"})
        again = Page(long.text)
        assert long.status_code == 400 and "at most 100" in again.error("flag-4")
        assert again.fields["flag-4"]["value"] == "x" * 101, "what was typed stays"
        assert again.fields["flag-5"]["value"] == "twins"
        assert flags.words_of(office.parts.store) == {3: words}
        shown = jane.get("/activity/?who=jane").text
        assert "Reason 3: none → a &#34;medical&#34; &lt;need&gt; مدرسة" in shown
        shown = jane.get("/schools/").text
        assert "1. a &#34;medical&#34; &lt;need&gt; مدرسة" in shown
        rita = office.browser("rita", "reader")
        assert Page(rita.get("/flags/").text).buttons() == []
        assert rita.post("/flags/", {"flag-3": "x"}).status_code == 403


def test_the_register_is_away(tmp_path: pathlib.Path) -> None:
    """A page says so without an address, and the draft is kept."""
    make(tmp_path / "reg.db", SCHOOLS)
    with served(tmp_path / "reg.db") as (address, run), site(tmp_path, address) as office:
        jane = office.browser("jane")
        drafted(jane)
        run.terminate()
        run.wait()
        office.parts.desk.copy = None
        for path in ("/schools/", "/schools/A", "/schools/new/", "/children/1", "/lists/unplaced"):
            found = jane.get(path)
            assert found.status_code == 503, path
            assert "The register does not answer now: no connection" in Page(found.text).said()
            assert address not in found.text and "127.0.0.1" not in found.text
        page = Page(jane.get("/schools/new/").text)
        assert len(page.tables["Each line as it will be stored"]) == 3
        assert not any(it.startswith("Store") for it in page.buttons())
        typed = {"school": "no code", "name": "Ash", "pan": "7", "east": "1", "north": "1"}
        page = Page(press(jane, "", page, "Add to the draft", **typed).text)
        assert page.form("Add to the draft").values["name"] == ["Ash"]


def test_all_of_a_draft_is_removed_after_a_question(empty: Site) -> None:
    """That names the schools; what a colleague has changed since is not removed unseen."""
    jane, remove = empty.browser("jane"), "/schools/new/remove"
    draft = empty.parts.schools
    question = Page(press(jane, "", drafted(jane), "Remove all 2 schools from the draft").text)
    before = draft.rows()
    assert len(before) == 2 and question.buttons()[-1] == "Remove 2 schools"
    for _, cells in before:
        assert f"{cells['school']} {cells['name']}" in question.by_id["removed"]
    number, cells = before[0]
    draft.correct(number, {**cells, "pan": "77"}, seen_line(cells))
    question = Page(press(jane, remove, question, "Remove 2 schools").text)
    assert "Nothing was removed" in question.said() and len(draft.rows()) == 2
    press(jane, remove, question, "Remove 2 schools")
    assert draft.rows() == []


def test_a_form_of_another_site_changes_no_school(empty: Site) -> None:
    """Neither the draft nor the register."""
    jane = empty.browser("jane")
    page = drafted(jane)
    for path in ("/schools/new/", "/schools/new/store", "/schools/new/remove", "/flags/"):
        given = {"digest": page.form("Store 2 schools").values["digest"][0], "number": "all",
                 "flag-1": "x", "form": jane.secret}
        found = jane.client.post(path, base_url=ORIGIN, data=given,
                                 headers={"Origin": "https://evil.example"})
        assert found.status_code == 403
        found = jane.client.post(path, base_url=ORIGIN, data={**given, "form": "guessed"},
                                 headers={"Origin": ORIGIN})
        assert found.status_code == 403
    assert sent(empty) == [] and len(empty.parts.schools.rows()) == 2
    assert json.loads(flags.text_of(flags.words_of(empty.parts.store))) == {}


def test_a_register_is_what_is_compared(held: Site) -> None:
    """A register says who waits: nothing of it is stored beside it."""
    held.browser("jane").get("/schools/A")
    register: Register = held.parts.desk.now()
    assert set(register.schools) == {"A", "B"}
    for table in ("school_draft", "answer"):
        assert held.parts.store.rows(f"SELECT * FROM {table}") == []
    assert [it["name"] for it in held.parts.store.rows("SELECT name FROM setting")] == [
        "cookie key"]
