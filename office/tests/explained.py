"""The application in tests after a round that it held: with the copy from before it, without a
machine that makes one.
"""
import contextlib
import pathlib
import shutil
from collections.abc import Iterator
from typing import Any

from applications import Site, site
from conftest import do, make
from served import served

COPY = "office-000001-2025-03-03T090000.db"


@contextlib.contextmanager
def after_round(
    folder: pathlib.Path, before: list[dict[str, Any]], *after: dict[str, Any],
) -> Iterator[Site]:
    """The application over a register with these commands, and then these, of which the first is a
    round.
    """
    register, copies = folder / "reg.db", folder / "copies"
    make(register, before)
    copies.mkdir()
    shutil.copy(register, copies / COPY)
    do(register, after)
    with served(register) as (address, _), site(folder, address) as found:
        with found.parts.store.writing() as db:
            db.execute("INSERT INTO copy (number, purpose, asked, name, size) VALUES"
                       " (1, 'before round 1', '2025-03-03T08:00:00+00:00', ?, 1)", (COPY,))
            db.execute(
                "INSERT INTO draw (first, school, fills, day, state, version, copy_before)"
                " VALUES (1, NULL, 1, ?, 'opened', 9, 1)", (after[0]["day"],))
            db.execute("INSERT INTO draw_step VALUES (1, 9, '2025-03-03T09:00:00+00:00', 'hal',"
                       " 'opened', '')")
        yield found
