"""admissions-audit of fills, by hand; rounds and random fills are audited by bench/audit, and those
of the example season here.
"""
import shutil
import sqlite3
import subprocess
from pathlib import Path

from conftest import PROGRAM, ROOT, Office, apply, child, do, make, school

LAST = (
    "The child is the first by class, distance and lot of all who waited there, and there was a"
    " vacancy"
)


def change(path: Path, *statements: str) -> None:
    """Changes a file by hand."""
    conn = sqlite3.connect(path)
    for it in statements:
        conn.execute(it)
    conn.commit()
    conn.close()


def test_a_fill_by_hand(office: Office, tmp_path: Path) -> None:
    """3 and 4 wait for Oak at the same distance; 1 declines it, and the lot decides between them.
    """
    people = [
        child(1, east=10),
        child(3, east=400),
        child(4, east=400),
        apply(1, ["OAK"]),
        apply(3, ["OAK", "ELM"]),
        apply(4, ["OAK", "ELM"]),
    ]
    make(tmp_path / "reg.db", [school("OAK", pan=1), school("ELM", pan=2, east=1000), *people])
    do(
        tmp_path / "reg.db",
        [
            {"cmd": "round", "draw": 1, "day": "2025-03-03", "lots": [1, 2, 1, 2, 3]},
            {"cmd": "decline", "child": 1, "school": "OAK"},
        ],
    )
    assert office("backup", "reg.db", "before.db").returncode == 0
    assert (
        do(
            tmp_path / "reg.db",
            [{"cmd": "fill", "draw": 2, "school": "OAK", "day": "2025-04-07", "lots": [9, 4]}],
        )[0]["child"]
        == 4
    )
    ran = office("audit", "before.db", "reg.db")
    assert ran.returncode == 0 and ran.stdout.splitlines() == [
        "Fill of OAK, draw 2, 2025-04-07: places 1, held 0, vacancies 1, waiting 2",
        "Offered to child 4, class 1, 400 metres, lot 4",
        "  after it child 3, class 1, 400 metres, lot 9: by lot",
        LAST,
    ], ran
    for statements, text in (
        (
            ["UPDATE offer SET child = 3 WHERE draw = 2"],
            "not the first: child 4 is, and child 3 OAK has the place",
        ),
        (
            ["DELETE FROM offer WHERE draw = 2"],
            "not the first: child 4 is, and nobody has the place",
        ),
        (
            ["UPDATE offer SET fresh = 0 WHERE draw = 2"],
            "child 4 OAK, marked as kept has the place",
        ),
        (
            ["UPDATE place SET school = 'ELM' WHERE child = 4"],
            "by BEFORE and the fill, and not in AFTER: child 4 is offered OAK, offered 2025-04-07",
        ),
        (
            ["INSERT INTO place VALUES (1, 'ELM', 1, 20185, NULL)"],
            "in AFTER, and not by BEFORE and the fill: child 1 is offered ELM, offered 2025-04-07",
        ),
        (
            ["DELETE FROM lot WHERE draw = 2 AND child = 3"],
            "child 3 wants OAK and has no lot there",
        ),
        (
            ["INSERT INTO lot VALUES (2, 'OAK', 1, 1)"],
            "child 1 has a lot at OAK, which it does not want",
        ),
        (
            ["UPDATE draw SET day = 20149 WHERE draw = 2"],
            "the day 2025-03-02 is before the offer day",
        ),
        (["UPDATE draw SET day = 20454 WHERE draw = 2"], "after the lists have closed"),
        (
            ["UPDATE draw SET school = 'FIR' WHERE draw = 2"],
            "a fill at FIR, which is no school of BEFORE",
        ),
        (["UPDATE draw SET round = 7 WHERE draw = 2"], "neither the next round nor a fill"),
        (
            ["UPDATE child SET east = 300 WHERE child = 3"],
            "a row of child of BEFORE is not in AFTER",
        ),
        (["DROP TABLE offer"], "is no register"),
    ):
        shutil.copy(tmp_path / "reg.db", tmp_path / "bad.db")
        change(tmp_path / "bad.db", *statements)
        ran = office("audit", "before.db", "bad.db")
        assert ran.returncode == 1 and text in ran.stdout + ran.stderr, (statements, ran)
        assert LAST not in ran.stdout and "Traceback" not in ran.stderr
    for code, status in (("ELM", 1), ("OAK", 0)):
        assert office("audit", "before.db", "reg.db", "--school", code).returncode == status
    do(tmp_path / "reg.db", [{"cmd": "accept", "child": 4, "school": "OAK"}])
    ran = office("audit", "before.db", "reg.db")
    assert (
        ran.returncode == 1
        and "in AFTER, and not by BEFORE and the fill: child 4 has accepted OAK\n" in ran.stdout
        and "(" not in ran.stdout.splitlines()[0]
    ), ran
    assert ran.stdout.splitlines()[-1].endswith(
        "audit with --later, or with a copy from right after it"
    )
    assert office("audit", "before.db", "reg.db", "--later").returncode == 0


def test_a_vacancy_that_was_none(office: Office, tmp_path: Path) -> None:
    """Both files say that a fill took place at a school that was full, or before any round, or
    where nobody waits.
    """
    make(
        tmp_path / "reg.db",
        [school("OAK", pan=1), child(1, east=10), child(2), apply(1, ["OAK"]), apply(2, ["OAK"])],
    )
    shutil.copy(tmp_path / "reg.db", tmp_path / "empty.db")
    do(tmp_path / "reg.db", [{"cmd": "round", "draw": 1, "day": "2025-03-03", "lots": [1, 2]}])
    shutil.copy(tmp_path / "reg.db", tmp_path / "b.db")
    fill = [
        "UPDATE meta SET draws = draws + 1",
        "INSERT INTO offer VALUES ({0}, 2, 'OAK', 1)",
        "INSERT INTO lot VALUES ({0}, 'OAK', 2, 5)",
        "INSERT INTO draw VALUES ({0}, 0, 'OAK', 20185)",
        "INSERT INTO place VALUES (2, 'OAK', 1, 20185, NULL)",
    ]
    change(tmp_path / "reg.db", *(it.format(2) for it in fill))
    ran = office("audit", "b.db", "reg.db")
    assert (
        ran.returncode == 1
        and ran.stdout == "school OAK had no vacancy: 1 children had its 1 places\n"
    ), ran
    shutil.copy(tmp_path / "empty.db", tmp_path / "filled.db")
    change(tmp_path / "filled.db", *(it.format(1) for it in fill))
    ran = office("audit", "empty.db", "filled.db")
    assert (
        ran.returncode == 1 and "there was no round before the fill, so nobody waited" in ran.stdout
    )
    change(tmp_path / "b.db", "DELETE FROM application WHERE child = 2")
    ran = office("audit", "b.db", "reg.db", "--later")
    assert ran.returncode == 1 and "nobody waited at OAK" in ran.stdout


def test_the_fills_of_the_example(office: Office, season: Path, tmp_path: Path) -> None:
    """Each fill of the example season, played again between two copies."""
    shutil.copy(season / "after-1.db", tmp_path / "reg.db")
    source = ROOT / "examples" / "season"
    subprocess.run(
        [PROGRAM, "do", tmp_path / "reg.db"],
        stdin=(source / "answers.jsonl").open("rb"),
        stdout=subprocess.DEVNULL,
        check=True,
    )
    count = 0
    for line in (source / "summer.jsonl").read_bytes().splitlines(keepends=True):
        shutil.copy(tmp_path / "reg.db", tmp_path / "before.db")
        subprocess.run(
            [PROGRAM, "do", tmp_path / "reg.db"], input=line, stdout=subprocess.DEVNULL, check=True
        )
        if b'"fill"' in line:
            ran = office("audit", "before.db", "reg.db")
            assert ran.returncode == 0 and ran.stdout.splitlines()[-1] == LAST, ran
            count += 1
    assert count == 2


def test_files_that_are_exchanged(office: Office, season: Path) -> None:
    """The first line says so, before what differs."""
    ran = office("audit", season / "after-1.db", season / "before-1.db")
    first, *more = ran.stdout.splitlines()
    assert ran.returncode == 1 and more
    assert (
        first
        == "BEFORE has more draws than AFTER (BEFORE has 1 and AFTER 0): give the copy from before"
        " the draw first; are the two files exchanged?"
    )


def test_errors_are_one_line(office: Office, tmp_path: Path) -> None:
    """A full disk, no file, wrong arguments."""
    make(tmp_path / "reg.db", [school("OAK")])
    ran = office("audit", "reg.db", "none.db")
    assert (
        ran.returncode == 1
        and ran.stderr
        == "admissions-audit: none.db cannot be read, or is in use: No such file or directory\n"
    )
    assert office("audit", "reg.db").returncode == 2
    said = office("audit", "--help").stdout
    assert "example:" in said and max(map(len, said.splitlines())) <= 80
