"""rules.json and words.json: the program keeps each limit, and each text can be printed."""
import http.client
import json
import re
import subprocess
from collections.abc import Callable
from pathlib import Path
from typing import Any

import pytest
from conftest import HEADER, PROGRAM, apply, child, make, school
from served import served

from office.core import commands, fields, rules

LIMITS = rules.LIMITS
NAMES = [f"S{number}" for number in range(1, 12)]
TOWN = [*(school(it) for it in NAMES), child(5)]
# of each limit of a value or of a list: a command that has this value or number, and how one
# outside of it is answered
Made = Callable[[int], dict[str, Any]]
VALUES: dict[str, tuple[Made, str]] = {
    "child": (child, "WrongKind"),
    "code": (lambda it: school("X" * it), "WrongKind"),
    "criteria": (lambda it: school("X", criteria=["sibling"] * it), "OutOfRange"),
    "east": (lambda it: child(2, east=it), "OutOfRange"),
    "flag": (lambda it: child(2, flags=[it]), "WrongKind"),
    "name": (lambda it: child(2) | {"name": "n" * it}, "BadText"),
    "north": (lambda it: child(2, north=it), "OutOfRange"),
    "pan": (lambda it: school("X", pan=it), "OutOfRange"),
    "preferences": (lambda it: apply(5, NAMES[:it]), "BadPreferences"),
    "siblings": (lambda it: child(2, siblings=NAMES[:it]), "OutOfRange"),
    "within": (lambda it: school("X", criteria=[f"within:{it}"]), "OutOfRange"),
}
# the others, each of which has a test of its own below
OTHERS = {"body", "catchments", "children", "draws", "holidays", "lots", "number", "rows",
          "schools", "year"}


def answer(path: Path, command: Any) -> Any:
    """The answer of the program to one command."""
    ran = subprocess.run(
        [PROGRAM, "do", path], input=json.dumps(command), capture_output=True, text=True,
        check=False)
    return json.loads(ran.stdout)


def test_each_limit_is_tested() -> None:
    assert VALUES.keys() | OTHERS == LIMITS.keys() and not VALUES.keys() & OTHERS


@pytest.mark.parametrize("name", VALUES)
def test_the_program_keeps_a_limit(tmp_path: Path, name: str) -> None:
    """It takes the least and the most, and neither less nor more; and this package says so."""
    made, refused = VALUES[name]
    least, most = LIMITS[name].least, LIMITS[name].most
    for value in (least, most, least - 1, most + 1):
        if value < 0:
            continue
        (tmp_path / "reg.db").unlink(missing_ok=True)
        make(tmp_path / "reg.db", TOWN)
        command = made(value)
        found = answer(tmp_path / "reg.db", command)
        assert found == {"done": True} if LIMITS[name].has(value) else found["name"] == refused
        assert bool(commands.wrong_field(command)) == (found.get("name") == "WrongKind")
        if found.get("name") != "WrongKind":
            assert bool(commands.outside(command)) == (found.get("name") == "OutOfRange")


def test_catchment_schools_of_both_sizes(tmp_path: Path) -> None:
    """A large register takes as many as its limit says, and their criterion; another one none."""
    most = rules.LARGE["catchments"].most
    for is_large, there in ((True, most), (False, LIMITS["catchments"].most)):
        (tmp_path / "reg.db").unlink(missing_ok=True)
        make(tmp_path / "reg.db", TOWN, is_large=is_large)
        more = child(2, catchments=NAMES[:there + 1])
        assert answer(tmp_path / "reg.db", more)["name"] == "OutOfRange"
        assert answer(tmp_path / "reg.db", child(2, catchments=NAMES[:there])) == {"done": True}
        came = answer(tmp_path / "reg.db", school("X", criteria=["catchment"]))
        assert came == {"done": True} if is_large else came["name"] == "OutOfRange"
    assert commands.outside(child(2, catchments=NAMES[:most + 1]))


def test_the_program_keeps_the_limit_of_flags_in_criteria_too(tmp_path: Path) -> None:
    make(tmp_path / "reg.db", [school("A", criteria=[f"flag:{LIMITS['flag'].most}"])])
    command = school("B", criteria=[f"flag:{LIMITS['flag'].most + 1}"])
    assert answer(tmp_path / "reg.db", command)["name"] == "OutOfRange"
    assert "flag:" in commands.outside(command)[0]


def test_the_greatest_number(tmp_path: Path) -> None:
    make(tmp_path / "reg.db", [])
    most = LIMITS["number"].most
    for value, name in ((most, "WrongDraw"), (most + 1, "WrongKind")):
        command = {"cmd": "round", "draw": value, "day": "2025-03-03", "lots": []}
        assert answer(tmp_path / "reg.db", command)["name"] == name
        assert bool(commands.wrong_field(command)) == (name == "WrongKind")


def test_the_days_and_the_notice(tmp_path: Path) -> None:
    """The first and the last day can be read, and no other; a reminder is due after the notice."""
    day, notice = rules.RULES["limits"]["day"], rules.RULES["limits"]["notice"]["least"]
    make(tmp_path / "reg.db", [school("A"), child(1), apply(1, ["A"])])
    lines = [{"cmd": "round", "draw": 1, "day": "2025-03-03", "lots": [1]}]
    remind = {"cmd": "remind", "child": 1, "school": "A"}
    assert [answer(tmp_path / "reg.db", it).get("done") for it in lines] == [True]
    for given, name in (
        (day["least"], "TooSoon"), ("1989-12-31", "WrongKind"), ("2111-01-01", "WrongKind"),
        (f"2025-03-{3 + notice - 1}", "TooSoon"), (f"2025-03-{3 + notice}", None),
        (day["most"], "AlreadyReminded"),
    ):
        assert answer(tmp_path / "reg.db", {**remind, "day": given}).get("name") == name, given


def test_a_body(tmp_path: Path) -> None:
    """One of the greatest length is read, and is no command here; a longer one is too large."""
    make(tmp_path / "reg.db", [])
    most = LIMITS["body"].most
    with served(tmp_path / "reg.db") as (address, _):
        for length, status in ((most, 400), (most + 1, 413)):
            desk = http.client.HTTPConnection(address.removeprefix("http://"))
            desk.request("POST", "/command", b" " * length)
            assert desk.getresponse().status == status
            desk.close()


def test_a_number_in_digits() -> None:
    """One within a limit, and nothing else: no zeros before it, no other digits, however many."""
    child, flag = LIMITS["child"], LIMITS["flag"]
    for value in (child.least, child.most):
        assert rules.number_in(str(value), child) == value
    assert [rules.number_in(it, flag) for it in ("0", "15", "16")] == [0, 15, None]
    for text in ("", "0", "07", "7.0", "-7", "+7", " 7", "7\n", "٧", "10000000", "9" * 9_999):
        assert rules.number_in(text, child) is None, text


def test_the_year_the_holidays_and_the_phases(tmp_path: Path) -> None:
    def status(phase: str, year: int, holidays: int) -> int:
        listed = [f"2025-{1 + at // 28:02}-{1 + at % 28:02}" for at in range(holidays)]
        (tmp_path / "reg.db").unlink(missing_ok=True)
        words = [PROGRAM, "init", str(tmp_path / "reg.db"), phase, str(year), *listed]
        return subprocess.run(words, capture_output=True, check=False).returncode

    year, most = LIMITS["year"], LIMITS["holidays"].most
    for phase in rules.RULES["phases"]:
        assert [status(phase, it, most) for it in (year.least, year.most)] == [0, 0]
        assert [status(phase, it, 0) for it in (year.least - 1, year.most + 1)] == [2, 2]
        assert status(phase, year.least, most + 1) == 1
    assert status("nursery", year.least, 0) == 2


def test_a_full_register(tmp_path: Path) -> None:
    """As many schools, rows and children as the limits say, and no more."""
    path, sheet = tmp_path / "reg.db", tmp_path / "rows.csv"
    schools = [school(f"S{at}") for at in range(LIMITS["schools"].most)]
    make(path, schools)
    assert answer(path, school("MORE"))["name"] == "RegisterFull"

    def imported(count: int) -> Any:
        rows = [f"{at},Child {at},0,0,no,,,2024-10-20,S1" for at in range(1, count + 1)]
        sheet.write_text("\n".join([HEADER.removesuffix(",present"), *rows]) + "\n")
        return subprocess.run(
            [PROGRAM, "import", path, sheet], capture_output=True, text=True, check=False)

    rows = LIMITS["rows"].most
    assert imported(rows + 1).stderr == f"fault: row {rows + 1}: TooManyRows\n"
    assert json.loads(imported(LIMITS["children"].most).stdout)["done"]
    assert answer(path, child(9_999))["name"] == "RegisterFull"


class Context:
    """What readers of cells know: no register."""

    schools: dict[str, fields.School] = {}
    is_uk = False
    words: dict[int, str] = {}
    is_large = False


def cells() -> list[tuple[str, str]]:
    """Cells at their limits, and beyond, as the import has them."""
    made = [(name, str(value)) for name in ("child", "east", "north")
            for limit in (LIMITS[name],) for value in (limit.least, limit.most, limit.most + 1)]
    made += [("child", "0"), ("looked_after", "yes"), ("looked_after", "maybe")]
    made += [("name", "n" * LIMITS["name"].most), ("name", "n" * (LIMITS["name"].most + 1))]
    made += [("flags", f"{LIMITS['flag'].most + at}") for at in (0, 1)]
    made += [(name, ";".join(NAMES[: LIMITS[name].most + at]))
             for name in ("siblings", "preferences") for at in (0, 1)]
    made += [("preferences", ""), ("siblings", ""), ("name", ""), ("siblings", "S1;S1")]
    made += [("present", "X" * (LIMITS["code"].most + at)) for at in (0, 1)]
    day = rules.RULES["limits"]["day"]
    return [*made, ("day", day["least"]), ("day", "1989-12-31"), ("day", "2111-01-01")]


@pytest.mark.parametrize("column, text", cells())
def test_a_cell_is_taken_where_the_program_takes_it(
    tmp_path: Path, column: str, text: str
) -> None:
    make(tmp_path / "reg.db", TOWN[:-1])
    row = dict(zip(HEADER.split(","), "1,Ann,0,0,no,,,2024-10-20,S1,".split(","))) | {column: text}
    (tmp_path / "rows.csv").write_text(f"{HEADER}\n{','.join(row.values())}\n")
    ran = subprocess.run(
        [PROGRAM, "import", tmp_path / "reg.db", tmp_path / "rows.csv"], capture_output=True,
        text=True, check=False)
    found = fields.READERS[column](text, Context())
    assert bool(found.expected) == ('"done":true' not in ran.stdout), (found, ran)


def test_each_kind_and_each_column_has_a_reader() -> None:
    kinds = {it.kind.removeprefix(rules.LIST) for listed in rules.COMMANDS.values()
             for it in listed.values()}
    assert kinds == commands.KINDS.keys()
    of_all = [*HEADER.split(","), "catchments"]
    assert list(fields.COLUMNS)[: len(fields.READERS)] == list(fields.READERS) == of_all
    assert all(map(fields.reader_of, rules.COLUMNS.values()))
    assert {it.value for it in rules.CRITERIA if it.value} == commands.VALUES.keys()


COMMAND = {"cmd": "x", "child": 7, "school": "OAK", "day": "2025-03-03", "draw": 5}
SAID = {"child": "child 7", "schools?": "OAK", "day": "the day 2025-03-03", "draw": "draw 5"}


@pytest.mark.parametrize("name", rules.RULES["refusals"])
def test_a_refusal_in_words(name: str) -> None:
    """Its text has the values of the command; without a command, general words."""
    refused = {"name": name, "refused": rules.RULES["refusals"][name]}
    with_values, general = commands.in_words(refused, COMMAND), commands.in_words(refused, None)
    assert with_values.endswith(f" ({name})") and "{" not in with_values + general
    template = json.dumps(rules.WORDS["refusals"][name])
    for value, said in SAID.items():
        is_named = bool(re.search(rf"\{{{value}\}}", template))
        assert (said in with_values) == is_named, with_values
        assert said not in general


def test_several_schools_in_words() -> None:
    refused = {"name": "UnknownSchool", "refused": 1}
    said = [commands.in_words(refused, apply(1, listed)) for listed in (["OAK"], ["OAK", "ELM"])]
    assert "does not have the school OAK;" in said[0]
    assert "does not have all of the schools OAK, ELM;" in said[1]
    odd = {"cmd": "apply", "child": "\x1b[2J", "preferences": ["\x1b[2J"], "school": ["OAK"]}
    assert "does not have the school;" in commands.in_words(refused, odd)
    assert commands.in_words({"name": "Surprise", "refused": 99}, None) == "refused (Surprise)"
