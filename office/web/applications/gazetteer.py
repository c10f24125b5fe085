"""The gazetteers of an office: the points of property numbers and of postcodes, each in an SQLite
file of its own that is replaced whole, and what is looked up in them.
"""
import contextlib
import dataclasses
import hashlib
import json
import os
import pathlib
import sqlite3
import tempfile
import threading
from collections.abc import Iterator, Sequence
from typing import IO

from register_files import OWNER_ALONE, Refused

from office.core import texts
from office.core.turns import Turn
from office.web.register.history import History, now
from office.web.register.rows import of_json
from office.web.register.store import Store

from . import gazetteer_rows, points
from .gazetteer_file import Given, Summary, cannot, summary_of, written
from .gazetteer_rows import Cells, Columns
from .points import POSTCODE, PROPERTY, Metres

# the file of each kind, in the order in which a row is looked up
FILES = {PROPERTY: "properties.db", POSTCODE: "postcodes.db"}
GIVEN, ABOUT, NEW = "given", "given.json", ".new-"
SETTING = "columns of a gazetteer"
MOST_NAME = 80
PART = 1 << 20


@dataclasses.dataclass(frozen=True)
class Found:
    """What a gazetteer has for a key: by what, the key, the gazetteer's day, and the point."""

    by: str
    key: str
    day: str
    at: Metres


class Lookup:
    """The gazetteers as they were when it was opened, whatever replaces them meanwhile."""

    def __init__(self, open_ones: dict[str, sqlite3.Connection]) -> None:
        self.open = open_ones
        self.about = {kind: summary_of(db) for kind, db in open_ones.items()}

    def find(self, number: str, code: str) -> tuple[Found | None, list[str]]:
        """The point of a property number, else of a postcode; and what was not found, and why."""
        said: list[str] = []
        for by, text, find in ((PROPERTY, number, self.property), (POSTCODE, code, self.postcode)):
            if not text.strip():
                continue
            found = find(text)
            if isinstance(found, Found):
                return found, said
            said.append(found)
        if not said:
            said.append("no point, no property number and no postcode")
        return None, said

    def property(self, text: str) -> Found | str:
        """The point of a property number, or why there is none."""
        read = points.property_of(text)
        if read.expected:
            return f"property number {texts.shown(text)}: {read.expected}"
        return self.one(PROPERTY, PROPERTY, [(int(read.text), read.text)])

    def postcode(self, text: str) -> Found | str:
        """The point of a postcode, or why there is none."""
        codes = points.postcodes_of(text)
        if not codes:
            return f"postcode {texts.shown(text)}: write it as SW1A 1AA"
        asked = [(it, points.spaced(it)) for it in codes]
        found = self.one(POSTCODE, POSTCODE, asked)
        other = self.one(PROPERTY, POSTCODE, asked) if isinstance(found, str) else found
        return other if isinstance(other, Found) or POSTCODE not in self.open else found

    def one(self, kind: str, by: str, keys: Sequence[tuple[int | str, str]]) -> Found | str:
        """What the gazetteer of a kind has for the first of these keys that it has."""
        about = self.about.get(kind)
        if about is None:
            return f"there is no gazetteer for {by} {keys[0][1]}"
        table, day = ("property" if by == PROPERTY else "postcode"), points.day_in_words(about.day)
        for key, shown in keys:
            it = self.open[kind].execute(
                f"SELECT east, north, line, other FROM {table} WHERE key=?", (key,)).fetchone()
            if it and it[3] is not None:
                return (f"{by} {shown} has two points in the gazetteer of {day}, in its rows"
                        f" {it[2]:,} and {it[3]:,}")
            if it:
                return Found(by, shown, about.day, (it[0], it[1]))
        return f"{by} {keys[0][1]} is not in the gazetteer of {day}"


class Gazetteer:
    """The gazetteers of one application, in a folder of their own."""

    def __init__(self, folder: pathlib.Path, store: Store, record: History) -> None:
        self.folder, self.store, self.history = folder, store, record
        # held while a file is received or read in
        self.lock = Turn(threading.Lock(), "somebody else is sending a gazetteer, or reading it in")
        folder.mkdir(mode=0o700, exist_ok=True)
        for it in folder.glob(f"{NEW}*"):
            # (the application ended while it was written)
            it.unlink()

    def summaries(self) -> list[Summary]:
        """What is there."""
        with self.looking() as found:
            return list(found.about.values())

    @contextlib.contextmanager
    def looking(self) -> Iterator[Lookup]:
        """The gazetteers, opened to be looked up in."""
        with contextlib.ExitStack() as kept:
            found: dict[str, sqlite3.Connection] = {}
            for kind, name in FILES.items():
                path = self.folder / name
                if path.exists():
                    # (nothing ever writes to such a file: it is replaced by another)
                    where = f"{path.absolute().as_uri()}?mode=ro&immutable=1"
                    db = sqlite3.connect(where, uri=True)
                    kept.enter_context(contextlib.closing(db))
                    found[kind] = db
            yield Lookup(found)

    def receive(self, who: str, name: str, file: IO[bytes]) -> None:
        """Keeps a file that was sent, until its columns are chosen."""
        name = name[:MOST_NAME]
        with self.lock, self.new_file() as new:
            digest, size = hashlib.sha256(), 0
            with open(new, "wb") as kept:
                while data := file.read(PART):
                    size += len(data)
                    if size > gazetteer_rows.MOST_BYTES:
                        most = gazetteer_rows.MOST_BYTES >> 20
                        raise Refused(f"{name} is too large: a file has at most {most} MB. Send it"
                                      " as a zip")
                    digest.update(data)
                    kept.write(data)
            if not size:
                raise Refused(f"{name} is empty")
            gazetteer_rows.first_rows(new, name)
            given = Given(name, digest.hexdigest(), size, who, now())
            self.history.add(who, "received a gazetteer", {
                "file": name, "bytes": size, "digest": given.digest})
            # (whenever this ends, a file that is there never has the name of another one)
            (self.folder / GIVEN).unlink(missing_ok=True)
            with self.new_file() as about:
                about.write_text(json.dumps(dataclasses.asdict(given)), "utf-8")
                os.replace(about, self.folder / ABOUT)
            os.replace(new, self.folder / GIVEN)

    def given(self) -> Given | None:
        """The file whose columns are not chosen yet, if there is one."""
        if not (self.folder / GIVEN).exists():
            return None
        return of_json(Given, (self.folder / ABOUT).read_text("utf-8"))

    def first_rows(self, given: Given) -> list[Cells]:
        """The first rows of that file."""
        return gazetteer_rows.first_rows(self.folder / GIVEN, given.name)

    def guessed(self, first: Cells) -> dict[str, int]:
        """The columns of a first row, as they were chosen last or are usually called."""
        return gazetteer_rows.guessed(first, json.loads(self.store.setting(SETTING, "{}")))

    def drop(self, who: str, digest: str) -> None:
        """Removes a file that was sent, and is not to be used."""
        with self.lock:
            if given := self.given():
                if given.digest != digest:
                    raise Refused(f"nothing was removed: {given.who} has sent {given.name}"
                                  " meanwhile")
                self.history.add(who, "removed a gazetteer that was not read in",
                                 {"file": given.name})
                (self.folder / GIVEN).unlink()

    def read_in(self, who: str, digest: str, columns: Columns, name: str,
                middle: Metres | None) -> Summary:
        """Makes the file that was sent the gazetteer of its kind, in place of the one before."""
        with self.lock, self.new_file() as new:
            given = self.given()
            if given is None or given.digest != digest:
                raise Refused("the file was replaced or removed meanwhile: look at it again")
            first = self.first_rows(given)[0]
            summary = written(self.folder / GIVEN, new, columns, middle, dataclasses.replace(
                given, name=(name.strip() or given.name)[:MOST_NAME], who=who, at=now()))
            self.history.add(who, "reads in a gazetteer", {
                "kind": summary.kind, "source": summary.name, "digest": digest,
                "rows": summary.rows, "left out": summary.many_left_out})
            self.store.set(SETTING, json.dumps(chosen(first, columns)))
            os.replace(new, self.folder / FILES[columns.kind])
            (self.folder / GIVEN).unlink()
            return summary

    @contextlib.contextmanager
    def new_file(self) -> Iterator[pathlib.Path]:
        """A new file, of which nothing remains unless it is given another name."""
        handle, name = tempfile.mkstemp(prefix=NEW, dir=self.folder)
        os.close(handle)
        path = pathlib.Path(name)
        path.chmod(OWNER_ALONE)
        try:
            yield path
        except (OSError, sqlite3.Error) as error:
            raise Refused(cannot(error)) from error
        finally:
            path.unlink(missing_ok=True)


def chosen(first: Cells, columns: Columns) -> dict[str, str]:
    """The names of the columns that were chosen, or their places where they have none."""
    axes = ("longitude", "latitude") if columns.is_degrees else ("east", "north")
    at = {"property": columns.uprn, "postcode": columns.postcode,
          axes[0]: columns.east, axes[1]: columns.north}
    return {what: first[it] if columns.has_names else f"#{it}"
            for what, it in at.items() if it is not None}
