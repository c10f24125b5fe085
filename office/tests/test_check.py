"""The check of applications: each fault that may be in a file, at its cell, and that the program
takes what has none.
"""
import csv
import datetime
import io
import random
import re
import shutil
import subprocess
import zipfile
from collections.abc import Iterable, Mapping
from pathlib import Path
from typing import Any

import hostile
import openpyxl
import pytest
from conftest import HEADER, PROGRAM, child, do, make, school
from files import register_of
from register_files import Refused

from office.core import texts
from office.core.model import Register
from office.files import sheet
from office.web.applications import row_check, table_check
from office.web.applications import files as staging_files
from office.web.applications.rows import OPEN, Staged

# what is found: the row of the spreadsheet, the column, the kind
Found = set[tuple[int, str, str]]
Fields = dict[str, str]
COLUMNS = HEADER.split(",")
# the columns of a file without present schools
FEWER = HEADER.removesuffix(",present")
GIVEN = ["Ada", "Ben", "Cleo", "Dov", "Eve", "Finn", "Gus", "Hana", "Ivo", "June"]
FAMILY = ["Abbot", "Brook", "Carver", "Drake", "Ellis", "Fenwick", "Grant", "Hurst"]


def good(at: int) -> Fields:
    """The fields of a row in which nothing is wrong."""
    return {
        "child": str(100 + at), "name": f"{GIVEN[at % 10]} {FAMILY[at // 10]}",
        "east": str(1000 + 13 * at), "north": str(2000 + 17 * at), "looked_after": "no",
        "flags": "2;5" if at % 3 else "", "siblings": "OAK" if at % 4 == 0 else "",
        "day": f"2024-10-{1 + at % 28:02}", "preferences": "OAK;ELM" if at % 2 else "ELM",
        "present": "PRIM7" if at % 5 == 0 else "",
    }


# for each column, which must be named: what a field has that is an error, and what can be read in
# one way alone
ERRORS = {
    "child": ("", "0", "10000000", "12a", "1,017", "-7", "1E+05"),
    "name": ("", " ", "\xa0", "Ann\x07Abel", "Ann\nAbel", "Å" * 41, "Si\ufffdn Howe"),
    "east": ("", "1500001", "4150.5", "SP4100", "1E+06"),
    "north": ("3,620", "-1", "99999999999999999999"),
    "looked_after": ("", "maybe", "1"),
    "flags": ("16", "2;x", "-1", "2;;5"),
    "siblings": ("OAKS", "OAK;OAK", "ZZZ", "A;B;C;D;E;F;G"),
    "day": ("", "2024-02-30", "03/04/2024", "20/13/2024", "45585", "20/10/24", "2025-32-01",
            "2026-01-01"),
    "preferences": ("", "OAK;OAK", "OKA;ELM", "OAK;;ELM", "OAK ELM", "A;B;C;D;E;F;G;H;I;J;K"),
    "present": ("PRIM70000", "St. Ann"),
}
FIXED = {
    "child": ("00931", " 932", "933.0"),
    "name": (" Una Upton ",),
    "east": ("2100.0",),
    "north": ("03620",),
    "looked_after": ("Yes", "N"),
    "flags": ("2, 5", "2.0"),
    "siblings": ("oak",),
    "day": ("20/10/2024", "20 Oct 2024", "2024/10/20"),
    "preferences": ("elm", "ELM; OAK", "OAK,ELM", "Oak School;ELM"),
    "present": ("prim7",),
}
PLANTED = [
    (column, value, kind) for column in COLUMNS
    for kind, values in (("error", ERRORS[column]), ("fixed", FIXED[column])) for value in values
]
TOWN = [
    school("OAK", name="Oak School"), school("ELM", name="Elm School", east=500),
    child(7, name="Old Hand"), child(60, name="Zoe Zander", east=77, north=88),
]
# rows that are looked at beside others, each with what must be found in it
BESIDE_OTHERS: list[tuple[Fields, list[tuple[str, str]]]] = [
    ({"child": "199"}, []),
    ({"child": "199"}, [("child", "error")]),
    ({"name": "Zander, Zoë", "east": "77", "north": "88"}, [("name", "look at")]),
    ({"day": "2024-11-01"}, [("day", "look at")]),
    ({"day": "2024-01-10"}, [("day", "look at")]),
    ({"east": "900000"}, [("east", "look at")]),
]


@pytest.fixture(name="town", scope="module")
def town_fixture(tmp_path_factory: pytest.TempPathFactory) -> Path:
    """A register with two schools and two children that were added by commands."""
    path = tmp_path_factory.mktemp("town") / "reg.db"
    make(path, TOWN)
    return path


def planted() -> tuple[list[Fields], Found]:
    """The rows with each fault in a row of its own, and what must be found."""
    rows: list[Fields] = []
    must: Found = set()
    for at, (column, value, kind) in enumerate(PLANTED):
        rows.append({**good(at), column: value})
        must.add((at + 2, column, kind))
    given = ["Pip", "Quinn", "Rhys", "Sol", "Tess", "Uma", "Vic"]
    for at, (changed, found) in enumerate(BESIDE_OTHERS):
        must |= {(len(rows) + 2, *it) for it in found}
        place = {"child": str(300 + at), "name": f"{given[at]} Yates"}
        rows.append({**good(at), **place, "east": str(5000 + 1000 * at), **changed})
    return rows, must


def cells_of(row: Fields) -> list[str]:
    """The fields of a row in the order of the columns."""
    return [row[it] for it in COLUMNS]


def write_csv(path: Path, rows: Iterable[Fields]) -> None:
    """Writes rows below a header."""
    path.write_bytes(sheet.csv_bytes([COLUMNS, *map(cells_of, rows)]))


def table_of(
    data: bytes, register: Register | None = None, wanted: str | None = None,
) -> table_check.Table:
    """The rows of a file as they are checked when they are dropped in."""
    name = "a.csv"
    read = staging_files.rows_of(name, sheet.of_bytes(name, data, wanted, "name one"))
    rows = [Staged(at, 1, name, False, False, it.number, it.cells, it.others, it.notes, OPEN, 1,
                   "jane", "", "jane", "", None) for at, it in enumerate(read.rows, 1)]
    return table_check.Checker(lambda: dict.fromkeys(range(16), "a reason")).table(
        rows, register)


def found_in(table: table_check.Table) -> Found:
    """Row, column and kind of each finding."""
    return {(table.rows[at].staged.number, it.column, it.kind)
            for at, them in table.findings.items() for it in them}


def said_in(table: table_check.Table) -> str:
    """All that is said of them."""
    return "\n".join(table_check.said(it) for them in table.findings.values() for it in them)


def test_sixty_faults_of_a_csv(town: Path) -> None:
    rows, must = planted()
    table = table_of(sheet.csv_bytes([COLUMNS, *map(cells_of, rows)]), register_of(town))
    assert len(must) >= 60 and found_in(table) == must


def typed(column: str, value: str) -> object:
    """A value as a spreadsheet keeps it: numbers and days as such where a cell would take them for
    that.
    """
    is_number = column in ("child", "east", "north", "flags")
    if is_number and re.fullmatch(r"[1-9][0-9]{0,15}", value):
        return int(value)
    is_day = re.fullmatch(r"20[0-9]{2}-(0[1-9]|1[0-2])-[0-2][0-9]", value)
    if column == "day" and is_day and value != "2024-02-30":
        return datetime.datetime.fromisoformat(value)
    return value or None


# what Excel files alone can have: a day with a time, a number with a fraction, a day in place of
# flags, an error, a truth value, a text of a number
SPECIAL: dict[str, object] = {
    "day": datetime.datetime(2024, 10, 3, 14, 30), "north": 10.25,
    "flags": datetime.datetime(2024, 5, 2), "preferences": "#N/A", "looked_after": True,
    "east": "77.00",
}


def saved(book: Any) -> bytes:
    """An Excel file as it is saved."""
    out = io.BytesIO()
    book.save(out)
    return out.getvalue()


def test_sixty_faults_of_a_workbook(town: Path) -> None:
    rows, must = planted()
    book = openpyxl.Workbook()
    page = book.active
    page.append(COLUMNS)
    for row in rows:
        # (no Excel file can hold a control character)
        page.append([typed(it, row[it].replace("\x07", "\n")) for it in COLUMNS])
    for at, (column, value) in enumerate(SPECIAL.items()):
        number = page.max_row + 1
        place = {"child": str(400 + at), "name": f"{GIVEN[at]} Zimmer"}
        row = {**good(at), **place, "north": str(9000 + 900 * at)}
        page.append([value if it == column else typed(it, row[it]) for it in COLUMNS])
        must.add((number, column, "fixed" if column in ("looked_after", "east") else "error"))
    book.create_sheet("empty")
    assert found_in(table_of(saved(book), register_of(town))) == must


def imported(path: Path, csv_file: Path) -> tuple[int, str]:
    """What the real program says to an import, on a copy of the register."""
    copy = f"{csv_file}.db"
    shutil.copyfile(path, copy)
    ran = subprocess.run(
        [PROGRAM, "import", copy, csv_file], capture_output=True, text=True, check=False)
    return ran.returncode, ran.stdout + ran.stderr


# what a file begins with, what is between its fields, and whether its columns are turned round
KINDS: dict[str, tuple[bytes, str, bool]] = {
    "semi": (b"\xef\xbb\xbf", ";", False),
    "tab": (b"", "\t", True),
    "comma": (b"sep=,\r\n", ",", False),
}


def write_kind(path: Path, kind: str, rows: Iterable[Fields]) -> None:
    """Writes a file as spreadsheets save it, with titles and two columns more."""
    start, between, is_turned = KINDS[kind]
    order = COLUMNS[::-1] if is_turned else COLUMNS
    out = io.StringIO()
    writer = csv.writer(out, delimiter=between, lineterminator="\r\n")
    writer.writerow([*(it.replace("_", " ").title() for it in order), "phone", ""])
    writer.writerows([*(row[it] for it in order), "01234", ""] for row in rows)
    path.write_bytes(start + out.getvalue().encode("utf-8"))


def written(table: table_check.Table) -> bytes:
    """The rows of a table as they are imported, but for the last column, which is empty in all."""
    rows = [row_check.values_of(it.row) for it in table.rows.values()]
    assert all(it[len(COLUMNS):] == [""] for it in rows)
    return sheet.csv_bytes([COLUMNS, *(it[:len(COLUMNS)] for it in rows)])


def test_what_has_one_reading_is_imported(town: Path, tmp_path: Path) -> None:
    """In a file as spreadsheets of several kinds save it."""
    rows, must = planted()
    wrong = {at for at, _, kind in must if kind == "error"}
    fixable = [row for at, row in enumerate(rows, 2) if at not in wrong]
    assert len(fixable) > 20
    made: list[bytes] = []
    for kind in KINDS:
        write_kind(tmp_path / f"{kind}.csv", kind, fixable)
        table = table_of((tmp_path / f"{kind}.csv").read_bytes(), register_of(town))
        assert not table.wrong()
        made.append(written(table))
        (tmp_path / f"{kind}.fixed.csv").write_bytes(made[-1])
        done = f'{{"added":{len(fixable)},"done":true,"known":0}}\n'
        assert imported(town, tmp_path / f"{kind}.fixed.csv") == (0, done)
        again = table_of(made[-1], register_of(town))
        assert {kind for _, _, kind in found_in(again)} <= {"look at"}
    assert made[1:] == [made[0]] * 2
    want = {
        "child": "931", "name": "Una Upton", "east": "2100", "north": "3620",
        "looked_after": "yes", "flags": "2;5", "day": "2024-10-20", "preferences": "ELM;OAK",
        "present": "PRIM7",
    }
    got = list(csv.DictReader(io.StringIO(made[0].decode())))
    for column, value in want.items():
        assert value in {it[column] for it in got}, column


@pytest.mark.parametrize("cell, is_value", [
    ('t="str"><f>IF(A2=1,"","3")</f><v></v>', True), ("><f>A2</f><v></v>", False),
    ("><f>A2</f>", False),
])
def test_a_formula_whose_value_is_an_empty_text(
    tmp_path: Path, cell: str, is_value: bool
) -> None:
    """As Excel and LibreOffice write it; without its type the formula was never calculated."""
    cells = [
        hostile.row_of(2, ["1", "Ann", "1", "1", "no"]).removesuffix("</row>"),
        f'<c r="F2" {cell}</c>',
        '<c r="H2" t="inlineStr"><is><t>2024-10-20</t></is></c>',
        '<c r="I2" t="inlineStr"><is><t>OAK</t></is></c></row>',
    ]
    before = hostile.GOOD.split('<row r="2">')[0]
    hostile.workbook(tmp_path / "w.xlsx", before + "".join(cells))
    table = table_of((tmp_path / "w.xlsx").read_bytes())
    was_not_calculated = "F2 is a formula that was never calculated" in said_in(table)
    assert was_not_calculated == bool(table.wrong()) == (not is_value)
    if is_value:
        assert written(table).splitlines()[1] == b"1,Ann,1,1,no,,,2024-10-20,OAK,"


@pytest.mark.parametrize("line, column", [
    ("5,Abel, Ann,4150,3620,no,,,2024-10-20,OAK,", "name"),
    ("5,Ann Abel,4150,3620,no,,,2024-10-20", "preferences"),
    ("5,Ann Abel,4150,3620,no,,,2024-10-20,OAK,,,OAK", "present"),
    ('5,"Ann Abel,4150,3620,no,,,2024-10-20,OAK,', "name"),
])
def test_rows_of_another_width(line: str, column: str) -> None:
    table = table_of(f"{HEADER}\n{line}\n".encode())
    assert (2, column, "error") in found_in(table)


def odd_values() -> dict[str, list[str]]:
    """What fields of each column may have: what is planted, and more."""
    more = {
        "child": ["9999999", "60", "7"],
        "name": ["Å" * 40, "=1+1", '"', "a,b", "\u202ea", "Tŷ"],
        "flags": ["0;0", "15", "00"],
        "siblings": ["", "ELM;OAK", "OAK;ELM;"],
        "day": ["1990-01-01", "1989-12-31", "2110-12-31", "2025-12-31", "٢٠٢٤-١٠-٢٠"],
        "looked_after": ["no ", "ja"],
    }
    return {it: [*ERRORS[it], *FIXED[it], *more.get(it, [])] for it in COLUMNS}


def random_file(
    chance: random.Random, values: Mapping[str, list[str]]
) -> tuple[bytes, list[Fields]]:
    """A file of three rows, of which up to two fields are odd, as one of several systems saves it;
    and the rows.
    """
    rows = [good(it) for it in chance.sample(range(70), 3)]
    for _ in range(chance.choice([0, 1, 1, 2])):
        column = chance.choice(COLUMNS)
        rows[chance.randrange(3)][column] = chance.choice(values[column])
    data = sheet.csv_bytes([COLUMNS, *map(cells_of, rows)])
    start = chance.choice([b"", b"\xef\xbb\xbf"])
    ends = [data, data.replace(b"\n", b"\r\n"), data.replace(b"\n", b"\n\n")]
    return start + chance.choice(ends), rows


def test_the_program_and_the_check_agree_on_random_files(town: Path, tmp_path: Path) -> None:
    """Fields drawn from what is right, odd and wrong: what is not wrong is imported as it is read,
    and a file that is taken as it is has nothing wrong.
    """
    values, chance, reg = odd_values(), random.Random(48), register_of(town)
    counts = {True: 0, False: 0}
    for at in range(160):
        file, fixed = tmp_path / f"{at}.csv", tmp_path / f"{at}.fixed.csv"
        data, rows = random_file(chance, values)
        file.write_bytes(data)
        table = table_of(data, reg)
        is_right = not any(kind in ("error", "fixed") for _, _, kind in found_in(table))
        status, said = imported(town, file)
        assert status == 0 or not is_right, (rows, said)
        counts[is_right] += 1
        if not table.wrong():
            fixed.write_bytes(written(table))
            assert imported(town, fixed)[0] == 0, rows
    assert min(counts.values()) > 40


def test_a_header_with_faults_is_refused() -> None:
    """A column that is missing, and one with another name, are all named at once."""
    data = ("Applications 2025,,,,,,,,\n,,,,,,,,\n"
            "Child,name,east,north,LAC,flags,day,prefrences,phone\n"
            "1,Ann,0,0,no,,2024-10-20,OAK,\n").encode()
    with pytest.raises(Refused) as refused:
        table_of(data)
    said = str(refused.value)
    assert all(it in said for it in ("looked_after", "siblings", "preferences"))
    assert '(is it "prefrences"?)' in said


def test_too_many_in_a_list() -> None:
    table = table_of("\n".join([
        HEADER, "1,Ann,7,7,no,,A;B;C;D;E;F;G,2024-10-20,A;B;C;D;E;F;G;H;I;J;K,",
        "2,Bo,9,9,no,,A;B;C;D;E;F,2024-10-20,A;B;C;D;E;F;G;H;I;J,"]).encode())
    assert found_in(table) == {(2, "siblings", "error"), (2, "preferences", "error")}
    assert "At most 6 schools: it has 7." in said_in(table)
    assert "At most 10 schools: it has 11." in said_in(table)


def test_what_only_a_workbook_has() -> None:
    """Merged cells, a formula without its value and one with it, hidden and empty rows, a day as
    text, numbers as text, several sheets.
    """
    book = openpyxl.Workbook()
    page = book.active
    page.title = "Autumn"
    page.append(COLUMNS)
    for at in range(8):
        page.append([typed(it, good(at)[it]) for it in COLUMNS])
    page.merge_cells("I3:I4")
    page["C5"] = "=1000+39"
    page.row_dimensions[6].hidden = True
    page["H7"], page["A8"] = "06/10/2024", "106"
    for column in "ABCDEFGHIJ":
        page[f"{column}9"] = None
    page.append([typed(it, {**good(7), "day": "2024-10-09"}[it]) for it in COLUMNS])
    table = table_of(saved(book))
    assert found_in(table) == {
        (3, "preferences", "error"), (4, "preferences", "error"), (5, "east", "error"),
        (6, "child", "look at"), (7, "day", "error"),
    }
    assert "I3:I4 are merged" in said_in(table)
    assert "C5 is a formula that was never calculated" in said_in(table)
    page.unmerge_cells("I3:I4")
    page["I4"], page["C5"], page["H7"] = "ELM", 1039, "26/10/2024"
    table = table_of(saved(book))
    assert found_in(table) == {(6, "child", "look at"), (7, "day", "fixed")}
    wanted = [cells_of(good(at)) for at in range(8)]
    wanted[2][8], wanted[5][7], wanted[7][7] = "ELM", "2024-10-26", "2024-10-09"
    assert list(csv.reader(io.StringIO(written(table).decode())))[1:] == wanted
    book.create_sheet("Spring").append(["x"])
    with pytest.raises(Refused, match="has the sheets Autumn, Spring: name one"):
        table_of(saved(book))
    assert not table_of(saved(book), wanted="Autumn").wrong()


def test_a_row_is_named_beside_a_few_others() -> None:
    """However many there are of one name at one home."""
    rows = "\n".join(",".join([str(it), "Ann Abel", *cells_of(good(1))[2:]])
                     for it in range(1, 301))
    pairs = table_of(f"{HEADER}\n{rows}\n".encode()).pairs
    assert 299 <= len(pairs) <= 5 * 299


@pytest.mark.parametrize("one, other, is_alike", [
    ("Ada Ewart", "Dai Ewart", False), ("Ann Abel", "ABEL, Ann", True),
    ("Ann Abel", "Ann Mary Abel", True), ("Jon Bell", "John Bell", True),
    ("Zoë Zander", "Zoe Zandre", True), ("Ann", "Ann Bell", False),
    ("Mia Bell", "Max Bell", False), ("Tom Bell", "Tom Bells", True),
    ("Tom Bxll", "Tim Bell", False), ("Siân O’Neil", "Sian ONeil", True),
])
def test_names_of_one_person(one: str, other: str, is_alike: bool) -> None:
    assert texts.is_alike(one, other) == texts.is_alike(other, one) == is_alike


def test_a_day_to_come_is_said_to_be(tmp_path: Path) -> None:
    """A day of application in the future is not only late. (A season that is far away.)"""
    subprocess.run([PROGRAM, "init", tmp_path / "p.db", "primary", "2100"], check=True)
    rows = [f"{at},Child {at},{at}000,0,no,,,{day},OAK"
            for at, day in enumerate(("2099-09-01", "2100-01-20"), 1)]
    do(tmp_path / "p.db", [school("OAK")])
    data = "\n".join([FEWER, *rows, ""]).encode()
    said = said_in(table_of(data, register_of(tmp_path / "p.db")))
    assert said.splitlines() == ["In the future: is it right?",
                                 "In the future and after the closing date: is it right?"]


def test_no_application_of_a_usual_day_is_looked_at(tmp_path: Path) -> None:
    """Primary: from 1 September on, for the closing date 15 January; the day before is looked at,
    and so is a late one with a year too few.
    """
    subprocess.run([PROGRAM, "init", tmp_path / "p.db", "primary", "2025"], check=True)
    days = ("2024-09-01", "2025-01-15", "2024-08-31", "2024-01-20")
    rows = [f"{at},Child {at},{at}000,0,no,,,{day},OAK" for at, day in enumerate(days, 1)]
    do(tmp_path / "p.db", [school("OAK")])
    data = "\n".join([FEWER, *rows, ""]).encode()
    assert found_in(table_of(data, register_of(tmp_path / "p.db"))) == {
        (4, "day", "look at"), (5, "day", "look at")}


@pytest.mark.parametrize("data, text", [
    (b"", "expected a header"), (b"PK\x03\x04junk", "no Excel file"),
    (b"\xd0\xcf\x11\xe0junk", "older kind"), (b"%PDF-1.4", "PDF"),
    (b"child,child,name\n", "each column once"), (b"a,b,c\n1,2,3\n", "expected a header"),
    (b"17,Ann Abel,0,0,no,,,2024-10-20,OAK\n", "expected a header"),
    (b"child,name\n1,Ann\n", "a column of this name"), (b"child\x81\n\x81", "neither in UTF-8"),
    (b"\x00\x00\x00", "no text"), (b"<html>", "web page"),
])
def test_files_that_are_none(data: bytes, text: str) -> None:
    with pytest.raises(Refused, match=text):
        table_of(data)


def test_a_total_is_no_application() -> None:
    """A row that sums up the others is an error, and a child of that name is none."""
    table = table_of("\n".join([
        FEWER, "7,Total,700,0,no,,,2024-10-20,OAK", "Total,7,2800,0,,,,,",
        ",Grand total:,2800,0,,,,,", ""]).encode())
    assert found_in(table) == {(3, "child", "error"), (4, "child", "error")}
    assert said_in(table).count("The row looks like a total.") == 2


def test_a_workbook_that_no_spreadsheet_wrote(tmp_path: Path) -> None:
    """What openpyxl says of its own classes is not said: an error says what to do."""
    book = openpyxl.Workbook()
    book.active.append(COLUMNS)
    book.active.append([1, "Ann", 0, 0, "no", None, None, "2024-10-20", "OAK", None])
    book.save(tmp_path / "good.xlsx")
    with zipfile.ZipFile(tmp_path / "good.xlsx") as good_file:
        parts = {it: good_file.read(it) for it in good_file.namelist()}
    own = parts["xl/styles.xml"]
    plain = re.sub(rb"<cellXfs.*?</cellStyles>", b"", own, flags=re.DOTALL)
    fills = b'<fills count="1"><fill/></fills>'
    unfit = re.sub(rb"<fills.*?</fills>", fills, own, flags=re.DOTALL)
    assert len({plain, unfit, own}) == 3
    for styles, is_right in ((plain, True), (unfit, False)):
        with zipfile.ZipFile(tmp_path / "odd.xlsx", "w") as odd:
            for it, data in parts.items():
                odd.writestr(it, styles if it == "xl/styles.xml" else data)
        data = (tmp_path / "odd.xlsx").read_bytes()
        if is_right:
            assert not table_of(data).wrong()
        else:
            with pytest.raises(Refused) as refused:
                table_of(data)
            assert "open it in a spreadsheet and save it again as .xlsx" in str(refused.value)
            assert "openpyxl" not in str(refused.value)
