"""Sheets of lots: as they are given to a supervisor, and as spreadsheets save them again."""
import io
import random
import subprocess
from pathlib import Path

import openpyxl
import pytest
from conftest import PROGRAM
from files import register_of
from register_files import Refused
from seasons import Town, file_of

from office.core.model import Pair
from office.web.rounds import lot_sheets

PAIRS: list[Pair] = [("A", 1), ("A", 2), ("B", 1), ("B", 2), ("B", 3)]
LOTS = {("A", 1): 10, ("A", 2): 20, ("B", 1): 10, ("B", 2): 20, ("B", 3): 30}


def read(data: bytes, pairs: list[Pair]) -> tuple[dict[Pair, int], list[str]]:
    """The lots of a sheet, and what is wrong in its rows."""
    filled = lot_sheets.Filled(pairs)
    wrong = [f"row {at} {said}" for at, cells in lot_sheets.rows_in("it", data)
             if (said := filled.add(at, cells))]
    return filled.lots, wrong


@pytest.mark.parametrize("data", [
    b"A,1,10\nA,2,20\nB,1,10\nB,2,20\nB,3,30\n",
    b"\xef\xbb\xbfSchool,Child,Lot\r\nB,3,30\r\nA,2,20\r\nB,1,10\r\nA,1,10\r\nB,2,20\r\n",
    b'School;Child;\n"B";"3";"30";;\n\n A ; 2 ;20\n;;;\nB;0000001; 10\nA;1;010\nB;2;20',
    b"A\t1\t10\r\nA\t2\t20\r\nB\t1\t10\r\nB\t2\t20\r\nB\t3\t30\r\n",
    b"Pair,Lot\nB 3,30\nA 2,20\nB 1,10\nA 1,10\nB 2,20\n",
    b"A 1 10\nA 2 20\nB 1 10\nB 2 20\nB 3 30\n",
    b"lot,name,number,code\n10,Ann,1,A\n20,x,2,A\n10,x,1,B\n20,x,2,B\n30,x,3,B\n",
])
def test_a_sheet_is_read_as_spreadsheets_save_it(data: bytes) -> None:
    """Rows in another order, a header or none, a mark, line ends, quotes, blanks, separators."""
    assert read(data, PAIRS) == (LOTS, [])


@pytest.mark.parametrize("is_workbook", [True, False])
def test_a_sheet_there_and_back(is_workbook: bool) -> None:
    pairs = Town(5).season.pairs()
    lots = random.Random(1).sample(range(4_294_967_296), len(pairs) - 2) + [0, 4_294_967_295]
    data = lot_sheets.data(is_workbook, pairs)
    assert lot_sheets.draws_in("it", data) == []
    assert lot_sheets.draws_in("it", lot_sheets.data(is_workbook, pairs, 7)) == ["7"]
    _, wrong = read(data, pairs)
    assert len(wrong) == len(pairs) and all("has no lot: " in it for it in wrong)
    if is_workbook:
        book = openpyxl.load_workbook(io.BytesIO(data))
        page = book.active
        assert page.print_title_rows == "$1:$1"
        rule = page.data_validations.dataValidation[0]
        assert (rule.formula2, str(rule.sqref)) == ("4294967295", f"C2:C{len(pairs) + 1}")
        for row, lot in zip(page.iter_rows(min_row=2), lots):
            row[-1].value = lot
        out = io.BytesIO()
        book.save(out)
        filled = out.getvalue()
    else:
        header, *rows = data.decode("utf-8-sig").splitlines()
        assert header == "school,child,lot"
        filled = "\n".join([header, *(f"{row}{lot}" for row, lot in zip(rows, lots))]).encode()
    assert read(filled, pairs) == (dict(zip(pairs, lots)), [])


WRONG = [
    (b"A,1,10\nA,2,\n", "row 2 has no lot: A 2"),
    (b"A,1,1E+09\n", "row 1 has a lot that is no number: 1E+09"),
    (b"A,1,-1\n", "row 1 has a lot that is no number: -1"),
    (b"A;1;1,5\n", None), (b"A,1,4294967296\n", "row 1 has a lot above 4294967295: 4294967296"),
    (b"A,1,10\nB,1,10\nA,2,010\n", "row 3 has a lot that row 1 has at A: 010"),
    (b"A,1,10,20\n", "row 1 has not the three fields code, number and lot: A 1 10 20"),
    (b"Code,Child,Lot\nA,1,10\nA,2,20\nB,1,10\nA,3,20\n",
     "row 5 is for no lot that is drawn here: A 3"),
    (b"A,1,10\nA,2,20\nB,1,10\n\nA,2,21\n", "row 5 is for the school and child of row 2: A 2"),
    (b"%PDF-1.4", None), (b"A,1,\xff\n", None), (b"A,1,\x00\n", None),
]


@pytest.mark.parametrize("data, said", WRONG)
def test_what_is_wrong_with_a_sheet_is_named(data: bytes, said: str | None) -> None:
    """In its row; or a refusal of the whole."""
    if said is None:
        with pytest.raises(Refused, match="^it "):
            read(data, PAIRS)
    else:
        assert read(data, PAIRS)[1] == [said]


def test_a_sheet_with_a_long_first_line() -> None:
    """No cell of a CSV is so long."""
    with pytest.raises(Refused):
        lot_sheets.rows_in("it", b"x" * 200_000)
    assert lot_sheets.rows_in("it", b"A,1,10\n") == [(1, ["A", "1", "10"])]


def test_the_pairs_are_those_of_the_program(tmp_path: Path) -> None:
    """On the copies of random seasons, before and after a first round, with plans, places, children
    who left lists, and late applications.
    """
    for seed in range(6):
        for is_held in (False, True):
            town = Town(seed)
            if is_held:
                town.round("2025-03-03")
                town.answers()
            path = file_of(town.season, tmp_path / "reg.db")
            for school in (None, *(town.season.schools if is_held else ())):
                words = [PROGRAM, "pairs", path, *([school] if school else [])]
                printed = subprocess.run(words, capture_output=True, text=True, check=True).stdout
                register = register_of(path)
                wanted = register.pairs_of_fill(school) if school else register.pairs
                assert printed == "".join(f"{code} {it}\n" for code, it in sorted(wanted))
                if printed:
                    assert lot_sheets.pairs_in("it", printed, school) == sorted(wanted)


@pytest.mark.parametrize("text, school, said", [
    ("A 1\nA\n", None, "line 2 of it is no pair"), ("A 2\nA 1\n", None, "line 2 of it does not"),
    ("A 1\nB 1\n", "A", "line 2 of it is of B, not of A"), ("", None, "it has no pair"),
])
def test_what_is_no_list_of_pairs_is_refused(text: str, school: str | None, said: str) -> None:
    with pytest.raises(Refused, match=said):
        lot_sheets.pairs_in("it", text, school)


def test_pairs_in_words() -> None:
    assert lot_sheets.in_words(PAIRS[:2]) == "A 1 and A 2"
    assert lot_sheets.in_words([*PAIRS, ("C", 1)]) == "A 1, A 2, B 1, B 2, B 3 and 1 more"
