"""Registers as files: an empty one of the program, with rows as its tables have them, also those to
which no commands lead.
"""
import datetime
import functools
import pathlib
import sqlite3
import subprocess
import tempfile
from collections.abc import Collection, Iterable, Mapping, Sequence
from typing import Any

from conftest import PROGRAM

from office.core import model

KINDS = {"offered": 1, "accepted": 2, "plan": 3}
# a school or a child as the commands have it
Command = Mapping[str, Any]
# a draw: its day, the school of each child or None, the lots by school and child, and the children
# with a new offer
Draw = tuple[str, Mapping[int, str | None], Mapping[tuple[str, int], int], Collection[int]]


def number(day: str) -> int:
    """A day as files have it."""
    return (datetime.date.fromisoformat(day) - datetime.date(1970, 1, 1)).days


@functools.cache
def empty_register() -> bytes:
    """A file of secondary entry in 2025, as the program makes it."""
    with tempfile.TemporaryDirectory() as folder:
        path = pathlib.Path(folder) / "reg.db"
        subprocess.run([PROGRAM, "init", path, "secondary", "2025"], check=True)
        return path.read_bytes()


def write(
    path: pathlib.Path,
    schools: Mapping[str, Command],
    children: Mapping[int, Command],
    lists: Mapping[int, Sequence[str]],
    late: Collection[int] = (),
    places: Mapping[int, tuple[str, str]] | None = None,
    left: Iterable[tuple[int, str]] = (),
    draws: Sequence[Draw] = (),
) -> None:
    """A register of secondary entry in 2025. A place is a school and "offered", "accepted" or
    "plan".
    """
    path.unlink(missing_ok=True)
    path.write_bytes(empty_register())
    conn = sqlite3.connect(path)
    # (these files need not outlive a power loss)
    conn.execute("PRAGMA synchronous = OFF")
    conn.execute("UPDATE meta SET draws = ?", [len(draws)])
    insert(conn, "school", "code name pan east north criteria", (
        (it["school"], it["name"], it["pan"], it["east"], it["north"], ";".join(it["criteria"]))
        for it in schools.values()
    ))
    insert(conn, "child", "child name east north looked_after flags siblings",
           map(row_of_child, children.values()))
    present = ((it["child"], it.get("present")) for it in children.values())
    insert(conn, "present", "child imported school",
           ((child, 0, school) for child, school in present if school))
    insert(conn, "application", "child day preferences", (
        (child, number("2024-11-20" if child in late else "2024-10-31"), ";".join(listed))
        for child, listed in lists.items()
    ))
    day = number("2025-03-03")
    insert(conn, "place", "child school kind day", (
        (child, school, KINDS[kind], day if kind == "offered" else None)
        for child, (school, kind) in (places or {}).items()
    ))
    insert(conn, "left_list", "child school", sorted(left))
    for at, (day_of, outcomes, lots, fresh) in enumerate(draws, 1):
        insert(conn, "draw", "draw round day", [(at, at, number(day_of))])
        insert(conn, "offer", "draw child school fresh", (
            (at, child, school, int(child in fresh)) for child, school in outcomes.items()
        ))
        insert(conn, "lot", "draw school child lot",
               ((at, school, child, lot) for (school, child), lot in lots.items()))
    conn.commit()
    conn.close()


def insert(
    conn: sqlite3.Connection, table: str, columns: str, rows: Iterable[Sequence[object]]
) -> None:
    """Adds rows with these columns to a table. Each other column, as that of a new field, has 0 or
    the empty text; or NULL, where it may be NULL.
    """
    there = conn.execute("SELECT name, type, \"notnull\" FROM pragma_table_info(?)", [table])
    others = {name: (0 if kind == "INTEGER" else "") if must else None
              for name, kind, must in there if name not in columns.split()}
    names = [*columns.split(), *others]
    conn.executemany(
        f"INSERT INTO {table} ({', '.join(names)}) VALUES ({', '.join('?' for _ in names)})",
        ((*row, *others.values()) for row in rows))


def row_of_child(it: Command) -> tuple[object, ...]:
    """The row of a child."""
    flags = sum(1 << flag for flag in set(it["flags"]))
    siblings = ";".join(it["siblings"])
    return (it["child"], it["name"], it["east"], it["north"], int(it["looked_after"]), flags,
            siblings)


def register_of(path: pathlib.Path, called: str = "the register") -> model.Register:
    """The register of a file, as the program shows it."""
    return model.read_stored(str(path), PROGRAM, called)
