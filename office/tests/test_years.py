"""Ten seasons of an office, with upgrades between them: the file of each register, what the
application keeps and the history of each season are those of the release of its year, and this
release opens all of them, keeps what is in them, and reads it.
"""
import contextlib
import os
import pathlib
import shutil
import sqlite3
import subprocess
from typing import Any

import pytest
from conftest import PROGRAM
from register_files import Refused

from office.core import model
from office.web.register import history
from office.web.register.history import ANSWER, SENDS, History
from office.web.register.schema import STEPS
from office.web.register.store import Store

# registers as a program of the first version of the file has left them; one was killed
FIRST = pathlib.Path(__file__).resolve().parents[2] / "crates/desk_runs/data"
FILES = ("season", "round", "import", "empty", "stopped")
# how many children each has, by the lists of tools/version1
CHILDREN = {"season": 7, "round": 3, "import": 2, "empty": 0, "stopped": 3}
YEARS = range(2025, 2035)
# where a row of the table meta has the version of the file
VERSION = 1
Rows = dict[str, list[tuple[Any, ...]]]


def rows_of(
    path: pathlib.Path, tables: dict[str, list[str]] | None = None, how: str = "mode=ro"
) -> Rows:
    """The rows of a file by its tables; of some columns alone where these are named."""
    with contextlib.closing(sqlite3.connect(f"file:{path}?{how}", uri=True)) as db:
        names = tables or {name: ["*"] for (name,) in db.execute(
            "SELECT name FROM sqlite_schema WHERE type='table' AND name NOT LIKE 'sqlite%'")}
        return {name: sorted(db.execute(f"SELECT {', '.join(columns)} FROM {name}"), key=repr)
                for name, columns in names.items()}


def lost(there: Rows, kept: Rows) -> Rows:
    """The rows that are not there any more. What moved into the table `sending` has come to those
    that were in it.
    """
    assert {name for name, rows in there.items() if len(rows) > len(kept[name])} <= {"sending"}
    found = {name: [it for it in rows if it not in there[name]] for name, rows in kept.items()}
    return {name: rows for name, rows in found.items() if rows}


def make_register(path: pathlib.Path, name: str) -> Rows:
    """A register of the first version of the file, and the rows that it must have."""
    shutil.copyfile(FIRST / f"{name}.db", path)
    if (log := FIRST / f"{name}.db-wal").exists():
        shutil.copyfile(log, f"{path}-wal")
    path.chmod(0o600)
    # (nothing is written beside what is kept)
    found = rows_of(FIRST / f"{'round' if name == 'stopped' else name}.db", how="immutable=1")
    assert found["meta"][0][VERSION] == 1
    return found


def make_store(path: pathlib.Path, version: int) -> tuple[dict[str, list[str]], Rows]:
    """What an application of a version of its file has left: rows in each of its tables, of the
    kinds of their columns; and these.
    """
    with contextlib.closing(sqlite3.connect(path)) as db:
        db.executescript("".join(STEPS[:version]))
        tables: dict[str, list[str]] = {}
        for (name,) in db.execute("SELECT name FROM sqlite_schema WHERE type='table'"
                                  " AND name NOT LIKE 'sqlite%'").fetchall():
            columns = db.execute("SELECT name, type FROM pragma_table_info(?)", (name,)).fetchall()
            tables[name] = [f'"{column}"' for column, _ in columns]
            for at in (1, 2):
                values = {"INTEGER": at, "REAL": float(at), "BLOB": bytes([at])}
                row = [values.get(kind, f"{column} {at}") for column, kind in columns]
                marks = ", ".join("?" for _ in row)
                db.execute(f"INSERT INTO {name} VALUES ({marks})", row)
        db.execute(f"PRAGMA user_version={version}")
        db.commit()
    return tables, rows_of(path, tables)


def make_history(path: pathlib.Path, year: int) -> bytes:
    """The history of a year, as it is on the disk."""
    record = History(str(path), lambda: f"{year}-03-03T10:00:00.000+00:00")
    of = record.add("jane", SENDS, {"command": {"cmd": "accept", "child": 1, "school": "A"}})
    record.add("jane", ANSWER, {"of": of.number, "answer": {"done": True}})
    record.close()
    return path.read_bytes()


class Season:
    """A season as the release of its year left it, and what of it must be there in later years."""

    def __init__(self, folder: pathlib.Path, year: int) -> None:
        folder.mkdir()
        at = year - YEARS[0]
        self.year, self.name = year, FILES[at % len(FILES)]
        self.file, self.office = folder / "reg.db", folder / "office.db"
        self.history = folder / "history.jsonl"
        self.rows = make_register(self.file, self.name)
        # (each release of the application has taken some steps)
        self.version = 1 + at * (len(STEPS) - 1) // (len(YEARS) - 1)
        self.tables, self.kept = make_store(self.office, self.version)
        self.lines = make_history(self.history, year)

    def upgrade(self) -> None:
        """This release opens it, as the upgrade of the package does."""
        subprocess.run([PROGRAM, "do", self.file], stdin=subprocess.DEVNULL, check=True)
        Store(str(self.office)).close()

    def see(self) -> None:
        """All is there, and is read."""
        there = rows_of(self.file)
        assert there.pop("present") == []
        [meta], [before] = there["meta"], self.rows["meta"]
        there["meta"] = [(*meta[:VERSION], 1, *meta[VERSION + 1:])]
        assert meta[VERSION] == 2 and before[VERSION] == 1
        assert there == self.rows
        assert lost(rows_of(self.office, self.tables), self.kept) == {}
        assert self.history.read_bytes() == self.lines
        assert [it.what for it in history.read(str(self.history))] == [SENDS, ANSWER]
        found = model.read_stored(str(self.file), PROGRAM, "the register")
        assert len(found.children) == CHILDREN[self.name]


def test_ten_seasons_with_upgrades_between_them(tmp_path: pathlib.Path) -> None:
    """Each year ends with an upgrade, and one that is repeated in a later year changes no byte of a
    register.
    """
    seasons: list[Season] = []
    for year in YEARS:
        seasons.append(Season(tmp_path / str(year), year))
        seasons[-1].upgrade()
        other = seasons[(year * 7) % len(seasons)]
        before = other.file.read_bytes()
        other.upgrade()
        assert other.file.read_bytes() == before
    assert {it.version for it in seasons} >= {1, len(STEPS)}
    for it in seasons:
        it.see()


@pytest.mark.parametrize("version", range(1, len(STEPS) + 1))
def test_each_version_of_what_the_application_keeps(version: int, tmp_path: pathlib.Path) -> None:
    """Every row of every table of before is there, and the file has all that a new one has."""
    tables, kept = make_store(tmp_path / "office.db", version)
    Store(str(tmp_path / "office.db")).close()
    assert lost(rows_of(tmp_path / "office.db", tables), kept) == {}
    Store(str(tmp_path / "new.db")).close()
    assert rows_of(tmp_path / "office.db").keys() == rows_of(tmp_path / "new.db").keys()


def test_what_a_later_release_has_written_is_refused(tmp_path: pathlib.Path) -> None:
    """And stays as it is."""
    season = Season(tmp_path / "later", 2025)
    season.upgrade()
    for path, line in ((season.file, "UPDATE meta SET version=4"),
                       (season.office, f"PRAGMA user_version={len(STEPS) + 1}")):
        with contextlib.closing(sqlite3.connect(path)) as db:
            db.execute(line)
            db.commit()
    before = season.file.read_bytes(), rows_of(season.office)
    done = subprocess.run([PROGRAM, "do", season.file], stdin=subprocess.DEVNULL, check=False,
                          capture_output=True, text=True)
    assert (done.returncode, done.stdout, done.stderr) == (1, "", "fault: Version\n")
    with pytest.raises(Refused, match="is of a later release than this one"):
        Store(str(season.office))
    assert (season.file.read_bytes(), rows_of(season.office)) == before
    assert not os.path.exists(f"{season.file}-journal")
