"""A register of a program with one more field of a child, and one with one more column of a table:
nothing of an office breaks, loses or misreads it.

The program is a stand-in (stand_in.py). The package is a copy whose rules have the field, as
docs/recipes/field.patch and tools/reference --update make them; or as it is, which does not know
it. These tests hold too where a recipe has added a field.
"""
import contextlib
import json
import os
import shutil
import sqlite3
import subprocess
from collections.abc import Iterable
from pathlib import Path
from typing import Any

import pytest
from conftest import HEADER, OMITTED, PROGRAM, ROOT, Command, Office, apply, child, school
from test_audit import change

from office import audit
from office.core import fields

NAME = "later_field"
FIELD = {"field": NAME, "kind": "truth", "optional": True, "omitted": False}
# the columns that import takes without it, and those of them that a recipe has added
KNOWN = list(fields.COLUMNS)
ADDED = KNOWN[len(HEADER.split(",")):]
COLUMNS = [*KNOWN, NAME]
SCHOOLS = [school("OAK", pan=1, criteria=["sibling"]), school("ELM", pan=2, east=500)]
# of whom 5 has a plan, and 6 no application
CHILDREN = {
    1: child(1, flags=[2]), 2: child(2, east=200, siblings=["OAK"]),
    3: child(3, east=300, present="PRIM7"), 4: child(4, east=400), 5: child(5, east=500),
    6: child(6, east=600), 7: child(7, east=700),
}
APPLIED = (1, 2, 3, 4, 7)
TOWN = [
    *SCHOOLS, *CHILDREN.values(), *(apply(it, ["OAK", "ELM"]) for it in APPLIED),
    {"cmd": "name_plan", "child": 5, "school": "ELM"},
]
ROUND = {"cmd": "round", "draw": 1, "day": "2025-03-03", "lots": [5, 6, 7, 8, 9, 1, 2, 3, 4, 5]}
CHOSEN = (1, 4, 6)
CELLS = {"present": "", **{it: fields.OMITTED[it] for it in ADDED}}
ROWS: list[list[str]] = [
    COLUMNS,
    ["1", "Ann Abel", "0", "0", "no", "2", "", "2024-10-20", "OAK", *CELLS.values(), "yes"],
    ["2", "Bo Bell", "900", "0", "no", "", "", "2024-10-20", "OAK",
     *(CELLS | {"present": "PRIM7"}).values(), "no"],
]
SHEET = "".join(",".join(it) + "\n" for it in ROWS)
# what a process does with a copy of the package: each begins so, and prints JSON
BEGIN = """
import json, sys
folder, tools, program, *given = sys.argv[1:]
sys.path[:0] = [folder, tools]
from office.core import model
def register(name):
    return model.read_stored(name, program, name)
"""
ALL = BEGIN + """
import datetime
from office.web.figures import page as figures
from office.web.letters import fields as letter_fields
from office.web.rounds import held_draw
from office.web.explain import why
from office.web.lists import worklists
from office.web.trials.registers import Program
before, after = map(register, given)
options = {"day": datetime.date(2025, 3, 20), "child": 1, "draw": 1, "round": 1, "text": "child"}
writer = letter_fields.Writer(after, before)
held = held_draw.held_again(before, after, program=Program(program))
found = figures.figures_of(after, before, None, "it")
explained = why.explain_again(held, before, after, 4)
print(json.dumps({
    "lists": {it: worklists.rows_of(after, it, options) for it in worklists.WORKLISTS},
    "letters": [writer.letter(it).proved() for it in after.children],
    "merge": letter_fields.merge_rows(map(writer.letter, after.children), [], {}),
    "figures": figures.tables(found, None, {}),
    "why": [it.sentences for it in why.sections_of(explained, True)],
}, default=str))
"""
AMEND = BEGIN + """
from office.core import child_fields
print(json.dumps(child_fields.command_of("amend", register(given[0]).children[1])))
"""
TRIAL = BEGIN + """
from office.web.trials import trial
from office.web.trials.registers import Program
before, after = map(register, given)
schools, _ = trial.changed_schools(before, [("OAK", 2)])
found = trial.Trial(before, after, schools, {}, Program(program))
print(json.dumps(len(found.plain.outcomes[1])))
"""
TABLE = BEGIN + """
from office.web.applications import row_check
from office.core import fields
from office.files import sheet
from office.web.applications import table_check, files as staging_files
from office.web.applications.rows import OPEN, Staged
read = staging_files.rows_of("it", sheet.of_bytes("it", open(given[0], "rb").read(), None, ""))
rows = [Staged(at, 1, "it", False, False, it.number, it.cells, it.others, it.notes, OPEN, 1, "",
               "", "", "", None) for at, it in enumerate(read.rows, 1)]
words = dict.fromkeys(range(16), "a reason")
table = table_check.Checker(lambda: words).table(rows, register(given[1]))
print(json.dumps({
    "found": [[table.rows[at].staged.number, it.column, it.kind, table_check.said(it)]
              for at, them in table.findings.items() for it in them],
    "rows": [list(fields.COLUMNS), *(row_check.values_of(it.row) for it in table.rows.values())],
}))
"""


@pytest.fixture(name="stand_in")
def stand_in_fixture(tmp_path: Path) -> Path:
    """The stand-in, beside which is what was imported."""
    path = tmp_path / "later/admissions"
    path.parent.mkdir()
    imported, script = path.parent / "imported", ROOT / "office/tests/stand_in.py"
    path.write_text(
        f"#!/bin/sh\nBEHIND='{PROGRAM}' LAST='{KNOWN[-1]}' IMPORTED='{imported}'"
        f" exec /usr/bin/python3 '{script}' \"$@\"\n")
    path.chmod(0o755)
    return path


@pytest.fixture(name="later")
def later_fixture(stand_in: Path) -> Path:
    """The folder of a copy of the package whose rules have the field."""
    package = stand_in.parent / "office"
    shutil.copytree(ROOT / "office", package, ignore=shutil.ignore_patterns("tests"))
    rules = json.loads((package / "rules.json").read_text("utf-8"))
    for listed in (rules["columns"], rules["commands"]["add_child"], rules["commands"]["amend"]):
        listed.append(FIELD)
    (package / "rules.json").write_text(json.dumps(rules), "utf-8")
    return stand_in.parent


def found_by(code: str, folder: Path, program: object, *given: Path) -> Any:
    """What a process finds with the package of a folder and a program."""
    ran = subprocess.run(
        ["/usr/bin/python3", "-B", "-c", code, folder, ROOT / "tools", str(program), *given],
        capture_output=True, text=True, check=False, timeout=300,
        env={**os.environ, "ADMISSIONS": str(program)})
    assert ran.returncode == 0, ran.stderr
    return json.loads(ran.stdout)


def run(program: object, *words: object, given: str | None = None) -> str:
    """What a program prints."""
    return subprocess.run([str(program), *map(str, words)], input=given, capture_output=True,
                          text=True, check=False).stdout


def make(stand_in: Path, path: Path, commands: Iterable[Command], chosen: Iterable[int]) -> Path:
    """A register with these commands done, where the field of these children is true."""
    run(stand_in, "init", path, "secondary", "2025")
    made = [it | ({NAME: True} if it["cmd"] == "add_child" and it["child"] in chosen else {})
            for it in commands]
    given = "".join(json.dumps(it) + "\n" for it in made)
    assert run(stand_in, "do", path, given=given).count('"done":true') == len(made)
    return path


def around_a_round(stand_in: Path, folder: Path, chosen: Iterable[int]) -> tuple[Path, Path]:
    """The registers before a round and after it, where the field of these children is true."""
    folder.mkdir()
    return (make(stand_in, folder / "before.db", TOWN, chosen),
            make(stand_in, folder / "after.db", [*TOWN, ROUND], chosen))


def test_lists_letters_figures_and_explanations(
    later: Path, stand_in: Path, tmp_path: Path
) -> None:
    """All is as without the field, with rules that have it and with those that do not."""
    without = around_a_round(stand_in, tmp_path / "without", ())
    chosen = around_a_round(stand_in, tmp_path / "chosen", CHOSEN)
    wanted = json.dumps(found_by(ALL, ROOT, PROGRAM, *without))
    assert len(wanted) > 5000
    for folder in (later, ROOT):
        found = json.dumps(found_by(ALL, folder, stand_in, *chosen))
        assert found.replace("chosen", "without") == wanted


@pytest.mark.parametrize("is_known", [True, False])
def test_an_amend_repeats_it(later: Path, stand_in: Path, tmp_path: Path, is_known: bool) -> None:
    """Also where the rules do not have it. It changes what was edited, and nothing else."""
    path = make(stand_in, tmp_path / "reg.db", TOWN, CHOSEN)
    line = found_by(AMEND, later if is_known else ROOT, stand_in, path)
    assert line == {**OMITTED, **CHILDREN[1], "cmd": "amend", NAME: True}
    assert '"done":true' in run(stand_in, "do", path, given=json.dumps({**line, "north": 7}))
    shown = json.loads(run(stand_in, "show", path))["children"][0]
    assert (shown["north"], shown[NAME], shown["flags"]) == (7, True, [2])


def without(column: str) -> str:
    """The file without a column."""
    at = COLUMNS.index(column)
    return "".join(",".join(it[:at] + it[at + 1:]) + "\n" for it in ROWS)


def test_a_file_of_applications(later: Path, stand_in: Path, tmp_path: Path) -> None:
    """It is read by its kind and imported; afterwards the file is compared with it, also one that
    lacks it, where each child has the value of a field that is omitted.
    """
    path, given = make(stand_in, tmp_path / "reg.db", SCHOOLS, ()), tmp_path / "given.csv"
    given.write_text(SHEET.replace(",yes\n", ",Y\n"))
    table = found_by(TABLE, later, stand_in, given, path)
    assert [2, NAME, "fixed", 'read as "yes"'] in table["found"] and table["rows"] == ROWS
    given.write_text(SHEET)
    assert '"added":2' in run(stand_in, "import", path, given)
    shown = json.loads(run(stand_in, "show", path))
    assert [it["child"] for it in shown["children"] if it[NAME]] == [1]
    for text, row in ((SHEET, 0), (SHEET.replace(",yes\n", ",no\n"), 2),
                      (SHEET.replace(",no\n", ",yes\n"), 3), (without(NAME), 2)):
        given.write_text(text)
        table = found_by(TABLE, later, stand_in, given, path)
        wrong = [it[:2] for it in table["found"] if it[2] == "error"]
        assert wrong == ([[row, NAME]] if row else []), table


def test_what_is_wrong_in_a_file(later: Path, stand_in: Path, tmp_path: Path) -> None:
    """A value that is none of its kind, and a row of another width: it is the last column."""
    path, given = make(stand_in, tmp_path / "reg.db", SCHOOLS, ()), tmp_path / "given.csv"
    head, first, second = ROWS
    rows = [head, [*first[:-1], "maybe"], [*second, "no"]]
    given.write_text("".join(",".join(it) + "\n" for it in rows))
    found = found_by(TABLE, later, stand_in, given, path)["found"]
    wrong = [it for it in found if it[2] == "error"]
    assert wrong[0] == [2, NAME, "error", "Write yes or no."]
    assert wrong[1][:2] == [3, NAME] and f"fields and not {len(COLUMNS)}." in wrong[1][3]


def test_a_trial_repeats_it(later: Path, stand_in: Path, tmp_path: Path) -> None:
    """The registers of a trial, which are made anew, have it too."""
    registers = around_a_round(stand_in, tmp_path / "chosen", CHOSEN)
    assert found_by(TRIAL, later, stand_in, *registers) == 5
    imported = (stand_in.parent / "imported").read_text().splitlines()
    ends = [it.rpartition(",")[2] for it in imported]
    assert ends == 2 * [NAME, "yes", "no", "no", "yes", "no"], imported


def test_an_audit_compares_a_column(office: Office, tmp_path: Path) -> None:
    """One that it does not look into, where both files have it: an earlier version may lack it."""
    before, after = tmp_path / "before.db", tmp_path / "after.db"
    for path, commands in ((before, TOWN), (after, [ROUND])):
        if path == after:
            shutil.copy(before, after)
        else:
            subprocess.run([PROGRAM, "init", path, "secondary", "2025"], check=True)
        given = "".join(json.dumps(it) + "\n" for it in commands)
        assert '"refused"' not in run(PROGRAM, "do", path, given=given)

    def audited() -> tuple[int, str]:
        ran = office("audit", before, after)
        return ran.returncode, ran.stdout

    plain = audited()
    assert plain[0] == 0
    for path in (after, before):
        change(path, f"ALTER TABLE child ADD COLUMN {NAME} INTEGER NOT NULL DEFAULT 0")
        assert audited() == plain
    change(after, f"UPDATE child SET {NAME} = 1 WHERE child = 3")
    old, new = row_of(before, 3), row_of(after, 3)
    assert old.startswith("child 3, name Child 3, east 300, north 0, looked_after 0, flags 0")
    assert (old.endswith(f", {NAME} 0"), new) == (True, f"{old[:-1]}1")
    assert audited() == (1, (
        f"a row of child of BEFORE is not in AFTER: {old}\n"
        f"a row of child of AFTER was not in BEFORE: {new}\n{audit.LATER}\n"
    ))


def row_of(path: Path, number: int) -> str:
    """The row of a child as a file has it: each column and its value."""
    with contextlib.closing(sqlite3.connect(path)) as conn:
        found = conn.execute("SELECT * FROM child WHERE child = ?", [number])
        names = [it[0] for it in found.description]
        return ", ".join(f"{name} {value}" for name, value in zip(names, found.fetchone()))
