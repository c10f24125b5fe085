"""The file of a gazetteer: what it is, and how it is written, by a process of its own (`apart`). A
million rows take half a minute, in which the application would answer nobody else.
"""
import contextlib
import dataclasses
import json
import os
import pathlib
import sqlite3
from typing import Any

from register_files import Refused

from office.core import texts
from office.files import processes as apart

from . import gazetteer_rows
from .gazetteer_rows import Columns, LeftOut, Place
from .points import PROPERTY, Metres

# so many rows are named for each reason, and so many reasons
MOST_NAMED, MOST_REASONS = 5, 50
# the seconds of CPU time for one, and of wall-clock time on a machine that does much else
SECONDS, MOST_SECONDS = 120, 480
# (a table with each key once, and the row of another that has it with another point)
TABLES = """
    CREATE TABLE about (text TEXT NOT NULL) STRICT;
    CREATE TABLE property (key INTEGER PRIMARY KEY, east INTEGER NOT NULL, north INTEGER NOT NULL,
        line INTEGER NOT NULL, other INTEGER) STRICT;
    CREATE TABLE postcode (key TEXT PRIMARY KEY, east INTEGER NOT NULL, north INTEGER NOT NULL,
        line INTEGER NOT NULL, other INTEGER) STRICT, WITHOUT ROWID;
    CREATE TABLE total (key TEXT PRIMARY KEY, east INTEGER NOT NULL, north INTEGER NOT NULL,
        many INTEGER NOT NULL) STRICT, WITHOUT ROWID;
"""


@dataclasses.dataclass(frozen=True)
class Given:
    """A file that was sent, and whose columns are not chosen yet."""

    name: str
    digest: str
    size: int
    who: str
    at: str


@dataclasses.dataclass(frozen=True)
class Summary:
    """What a gazetteer is: by what it is looked up, its source, the digest of its file, who read it
    in and when; how many rows and keys it has; and the rows that were left out, by reason with
    their number and the first of them.
    """

    kind: str
    name: str
    digest: str
    who: str
    at: str
    rows: int
    keys: int
    postcodes: int
    is_degrees: bool
    left_out: list[tuple[str, int, list[int]]]

    @property
    def day(self) -> str:
        """The day on which it was read in."""
        return self.at[:10]

    @property
    def many_left_out(self) -> int:
        """How many rows were left out."""
        return sum(many for _, many, _ in self.left_out)


def summary_of(db: sqlite3.Connection) -> Summary:
    """What a gazetteer says of itself."""
    return summary_in(json.loads(db.execute("SELECT text FROM about").fetchone()[0]))


def summary_in(found: dict[str, Any]) -> Summary:
    """What a gazetteer is, as it was written."""
    left_out = [(str(why), int(many), list(rows)) for why, many, rows in found.pop("left_out")]
    return Summary(**found, left_out=left_out)


class LeftOuts:
    """The rows that are left out, by reason."""

    def __init__(self) -> None:
        self.reasons: dict[str, tuple[int, list[int]]] = {}

    def add(self, row: int, why: str) -> None:
        """Adds a row."""
        if why not in self.reasons and len(self.reasons) >= MOST_REASONS:
            why = "another reason"
        many, rows = self.reasons.get(why, (0, []))
        self.reasons[why] = many + 1, [*rows, row] if len(rows) < MOST_NAMED else rows

    def listed(self) -> list[tuple[str, int, list[int]]]:
        """The reasons, the most frequent first."""
        return sorted(((why, *it) for why, it in self.reasons.items()), key=lambda it: -it[1])


def built(source: pathlib.Path, new: pathlib.Path, columns: Columns, middle: Metres | None,
          given: Given) -> Summary:
    """Writes a gazetteer into a new file, and returns what it is; a refusal where no row of the
    file can be used.
    """
    left_out, rows = LeftOuts(), 0
    with contextlib.closing(sqlite3.connect(new, isolation_level=None)) as db:
        # (until it has its name nobody reads it, and a part of one is removed)
        db.execute("PRAGMA journal_mode=OFF")
        db.execute("PRAGMA synchronous=OFF")
        db.executescript(TABLES)
        db.execute("BEGIN")
        for it in gazetteer_rows.places(source, given.name, columns, middle):
            rows += 1
            if isinstance(it, LeftOut):
                left_out.add(it.row, it.why)
            else:
                insert(db, it, left_out)
        db.execute("INSERT INTO postcode SELECT key, (2 * east + many) / (2 * many),"
                   " (2 * north + many) / (2 * many), 0, NULL FROM total")
        db.execute("DROP TABLE total")
        keys, codes = (db.execute(f"SELECT count(*) FROM {it}").fetchone()[0]
                       for it in ("property", "postcode"))
        found = Summary(
            columns.kind, given.name, given.digest, given.who, given.at, rows,
            keys if columns.kind == PROPERTY else codes, codes, columns.is_degrees,
            left_out.listed())
        if not found.keys:
            raise Refused(f"no row of {given.name} can be used: {why_none(left_out)}")
        db.execute("INSERT INTO about VALUES (?)", (json.dumps(dataclasses.asdict(found)),))
        db.execute("COMMIT")
    with open(new, "rb") as file:
        os.fsync(file.fileno())
    return found


def why_none(left_out: LeftOuts) -> str:
    """Why no row can be used, the most frequent reasons."""
    return "; ".join(f"{texts.count(many, 'row')}: {why}"
                     for why, many, _ in left_out.listed()[:3]) or "it has none"


def insert(db: sqlite3.Connection, it: Place, left_out: LeftOuts) -> None:
    """Stores a row. One whose key is there with another point makes that key one of two points."""
    table, key = ("property", it.uprn) if it.uprn is not None else ("postcode", it.postcode)
    east, north = it.at
    is_new = db.execute(f"INSERT INTO {table} VALUES (?, ?, ?, ?, NULL) ON CONFLICT DO NOTHING",
                        (key, east, north, it.row)).rowcount
    if not is_new:
        had = db.execute(f"SELECT east, north FROM {table} WHERE key=?", (key,)).fetchone()
        if tuple(had) == it.at:
            left_out.add(it.row, "a repeated row, with the same point")
            return
        left_out.add(it.row, "its key is there before with another point: neither is used")
        db.execute(f"UPDATE {table} SET other=coalesce(other, ?) WHERE key=?", (it.row, key))
    elif it.uprn is not None and it.postcode:
        db.execute("INSERT INTO total VALUES (?, ?, ?, 1) ON CONFLICT DO UPDATE SET"
                   " east=east+excluded.east, north=north+excluded.north, many=many+1",
                   (it.postcode, east, north))


def written(source: pathlib.Path, new: pathlib.Path, columns: Columns, middle: Metres | None,
            given: Given) -> Summary:
    """What is written of a file into a new one, by another process; or its refusal."""
    asked = {"source": str(source), "new": str(new), "columns": dataclasses.asdict(columns),
             "middle": middle, "given": dataclasses.asdict(given)}
    found = json.loads(apart.done(
        __name__, f"reading {given.name}", asked, b"", SECONDS, MOST_SECONDS))
    if "refused" in found:
        raise Refused(found["refused"])
    return summary_in(found)


def answer(asked: dict[str, Any]) -> dict[str, Any]:
    """What was written, or why nothing was."""
    given, middle = Given(**asked["given"]), asked["middle"]
    try:
        return dataclasses.asdict(built(
            pathlib.Path(asked["source"]), pathlib.Path(asked["new"]), Columns(**asked["columns"]),
            (middle[0], middle[1]) if middle else None, given))
    except Refused as error:
        return {"refused": str(error)}
    except MemoryError:
        return {"refused": f"{given.name} takes too much memory"}
    except (OSError, sqlite3.Error) as error:
        return {"refused": cannot(error)}


def cannot(error: OSError | sqlite3.Error) -> str:
    """Why a gazetteer cannot be written. (The text of an OSError has the path, which says nothing
    to an officer.)
    """
    return f"the gazetteer cannot be written: {getattr(error, 'strerror', None) or error}"


def main() -> None:
    """Writes what is asked, and prints what it is."""
    asked, _ = apart.given(seconds=SECONDS)
    print(json.dumps(answer(asked)))
