"""The archive of a season: one file with all that an authority keeps of it, and a page in it that
says what is what, with the digest of each part.
"""
from __future__ import annotations

import contextlib
import dataclasses
import datetime
import hashlib
import json
import os
import pathlib
import tempfile
import zipfile
from collections.abc import Callable, Iterable, Iterator, Mapping
from typing import TYPE_CHECKING, Any

from register_files import Refused

from office.core import days, texts
from office.core.model import Register
from office.files import book, pages
from office.files.book import Page
from office.web.lists import worklists
from office.web.lists.register_rows import Rows
from office.web.register import history
from office.web.register.schema import TABLES
from office.web.register.store import Store
from office.web.rounds.lots import sheet_of
from office.web.rounds.terms import Draw

if TYPE_CHECKING:
    from office.web.parts import Parts

FOLDER, START, DIGESTS = "archive", "start-here.html", "digests.txt"
# where the rows of a table are
LINES = "office/{}.jsonl"
# the lists of a draw, of which each is a sheet
OF_DRAWS = (("lots", "draw"), ("round-report", "round"), ("moved", "draw"))
CHUNK = 1 << 20


@dataclasses.dataclass(frozen=True)
class Item:
    """A part of the archive: its name there, what it is, its bytes and its SHA-256 sum."""

    name: str
    what: str
    size: int
    digest: str


@dataclasses.dataclass(frozen=True)
class Made:
    """An archive: its file, its bytes and SHA-256 sum, and how many entries of the history it has.
    """

    name: str
    size: int
    digest: str
    entries: int


def folder_of(parts: Parts) -> pathlib.Path:
    """Where archives are until they are taken and deleted."""
    return parts.config.folder / FOLDER


def lists_of(register: Register, day: datetime.date) -> bytes:
    """All lists as an Excel file."""
    title = f"Admission {register.year} {register.phase}, last copy"
    return book.data(worklists.pages(register, day), title)


def draws_of(register: Register) -> Iterator[Page]:
    """The sheets of each draw: its lots, its result and whom it moved."""
    for draw in register.draws:
        for name, option in OF_DRAWS:
            number = draw.round if option == "round" else draw.number
            if number:
                rows = worklists.rows_of(register, name, {option: number})
                purpose = f"{worklists.WORKLISTS[name].purpose}: {option} {number}"
                yield Page(f"{name} {number}", purpose, rows)


def audit_text(draw: Draw) -> str:
    """What the second program said of a draw: of its rehearsal, and of the register after it."""
    found = [draw.in_words, f"State: {draw.state}."]
    for title, kept in (("Rehearsal", draw.rehearsal), ("Register after it", draw.audit)):
        if kept:
            lines = [line for one in kept["audits"] for line in one]
            wrong = kept["wrong"]
            said = f"{texts.count(len(wrong), 'difference')}" if wrong else "no difference"
            found += ["", f"{title}: {said}", *lines]
    return "\n".join(found) + "\n"


def steps_text(draw: Draw) -> str:
    """Who did what of a draw."""
    lines = [f"{it.at} {it.who}: {it.state}. {it.said}".rstrip() for it in draw.done]
    return "\n".join([draw.in_words, *lines]) + "\n"


def of_draws(parts: Parts) -> Iterator[tuple[str, str, bytes]]:
    """What the application has of the draws that were held with it."""
    for draw in reversed(parts.draws.listed()):
        title = f"{draw.in_words} (number {draw.number} in the application)"
        yield f"draws/{draw.number}-steps.txt", f"who did what: {title}", steps_text(draw).encode()
        if draw.rehearsal or draw.audit:
            yield (f"draws/{draw.number}-audit.txt", f"what the audits said: {title}",
                   audit_text(draw).encode())
        if draw.digest:
            sheet = sheet_of(parts.store, draw.number, draw.terms)
            is_same = sheet.digest() == draw.digest
            seal = f"sealed with the SHA-256 sum {draw.digest}" if is_same else (
                f"WARNING: not those that were sealed with the SHA-256 sum {draw.digest}")
            yield (f"draws/{draw.number}-lots.txt", f"lots: {title}, {seal}",
                   sheet.text().encode())


def of_history(parts: Parts) -> tuple[bytes, int, str]:
    """The lines of the history as they are now, how many there are, and what their check says."""
    record = parts.history
    with record.lock:
        with open(record.path, "rb") as file:
            data = file.read(record.length)
    entries, last = history.entries_of("history.jsonl", data)
    said = (f"{texts.count(len(entries), 'entry', 'entries')}: each line has the digest of the line"
            f" before it. SHA-256 sum of the last line: {last}")
    return data, len(entries), said


def people_rows(store: Store) -> Rows:
    """The people and programs with their roles, without their passwords and tokens."""
    names = ("name", "kind", "role", "is_locked", "added", "signed_in")
    rows = store.rows(f"SELECT {', '.join(names)} FROM person ORDER BY name")
    return [list(names), *([it[name] for name in names] for it in rows)]


def tables(is_shown: bool = True) -> list[str]:
    """The tables of the application's own file that are of a season: as they are shown, with views
    in place of what is sent in rows; or as they are.
    """
    return [name for name, it in sorted(TABLES.items()) if it.is_of_season
            and not (it.is_hidden if is_shown else it.is_view)]


def source_of(name: str) -> str:
    """What of a table is of the season: lots that were never sealed decided nothing, and nobody
    but the supervisor may see them.
    """
    return "lot WHERE draw IN (SELECT id FROM draw WHERE digest IS NOT NULL)" if name == "lot" \
        else name


def of_store(store: Store) -> Iterator[tuple[str, str, bytes]]:
    """What the application keeps of the season, by its tables: each row a line of JSON, and what is
    a file beside it.
    """
    for name in tables():
        lines, files = [], []
        for at, row in enumerate(store.rows(f"SELECT * FROM {source_of(name)}"), 1):
            cells: dict[str, Any] = {}
            for column in row.keys():
                cells[column] = row[column]
                if isinstance(row[column], bytes):
                    cells[column] = f"office/{name}-{at}-{column}"
                    files.append((cells[column], row[column]))
            lines.append(json.dumps(cells, sort_keys=True, ensure_ascii=False) + "\n")
        if lines:
            said = f"{texts.count(len(lines), 'row')} of the application's table {name}"
            yield LINES.format(name), said, "".join(lines).encode()
        yield from ((path, f"a file of the table {name}", data) for path, data in files)


def lacks(store: Store, path: pathlib.Path) -> list[str]:
    """The tables that have a row which an archive lacks, or has otherwise."""
    found = []
    with zipfile.ZipFile(path) as made:
        there = set(made.namelist())
        for name in tables():
            columns = compared(store, name)
            lines = made.read(LINES.format(name)) if LINES.format(name) in there else b""
            kept = {packed(json.loads(it), columns) for it in lines.splitlines()}
            marks = ", ".join(f'"{it}"' for it in columns)
            asked = f"SELECT {marks} FROM {source_of(name)}"
            rows = store.rows(asked) if not TABLES[name].is_passing else []
            if {packed(dict(it), columns) for it in rows} - kept:
                found.append(name)
    return found


def compared(store: Store, name: str) -> list[str]:
    """The columns of a table by which its rows are compared: all but files, which have names in an
    archive and never change, and what changes by itself.
    """
    rows = store.rows("SELECT name, type FROM pragma_table_info(?)", name)
    return [it["name"] for it in rows
            if it["type"] != "BLOB" and it["name"] not in TABLES[name].changing]


def packed(row: Mapping[str, Any], columns: Iterable[str]) -> str:
    """The cells of a row as one text."""
    return json.dumps([row.get(it) for it in columns])


def content(parts: Parts, copy: int, day: datetime.date) -> Iterator[tuple[str, str, bytes]]:
    """All parts but the page that names them: the name of each, what it is, and its bytes."""
    path = parts.copies.path(copy)
    register = parts.copies.register(copy)
    yield "register.db", "the register: the last copy, for the program", path.read_bytes()
    yield ("register.json", "the same as JSON, which no program is needed to read",
           register.source.shown())
    yield "lists.xlsx", f"all lists on {day.isoformat()}, as an Excel file", lists_of(register, day)
    if pages := list(draws_of(register)):
        title = f"Admission {register.year} {register.phase}, rounds and offers"
        yield ("draws.xlsx", "of each round and offer its lots, its result and whom it moved",
               book.data(pages, title))
    yield from of_draws(parts)
    data, _, said = of_history(parts)
    yield "history.jsonl", "the history: who did what, by lines", data
    yield "history-check.txt", "the check of the history", f"{said}\n".encode()
    yield ("people.csv", "the people and programs with their roles, without passwords and tokens",
           worklists.csv_text(people_rows(parts.store)).encode())
    yield from of_store(parts.store)


def start_page(
    parts: Parts, copy: int, day: datetime.date, by: str, items: Iterable[Item]
) -> str:
    """The page of an archive that says what is what."""
    register = parts.desk.register()
    return pages.render("web/season_end/printed/archive.html", {
        "register_name": parts.config.name, "authority": parts.config.authority,
        "register": register, "by": by, "today": days.in_words(day), "copy": copy,
        "children": texts.count(len(register.children), "child", "children"), "items": items})


def make(parts: Parts, copy: int, day: datetime.date, by: str) -> Made:
    """Makes the archive of a copy: wholly, read again and compared, or not at all."""
    folder = folder_of(parts)
    folder.mkdir(mode=0o700, exist_ok=True)
    for old in folder.glob(".new-*"):
        # (of an application that was ended meanwhile)
        old.unlink()
    handle, new = tempfile.mkstemp(prefix=".new-", dir=folder)
    os.close(handle)
    try:
        items = list(written(new, content(parts, copy, day),
                             lambda found: start_page(parts, copy, day, by, found)))
        see_whole(new, items)
        digest, size = digest_of(new), os.path.getsize(new)
    except BaseException:
        clear(new)
        raise
    name = f"season-{parts.config.name}-{digest[:12]}.zip"
    os.rename(new, folder / name)
    sync(folder)
    return Made(name, size, digest, lines_in(folder / name, "history.jsonl"))


def clear(path: str) -> None:
    """Removes what is not wanted any more."""
    with contextlib.suppress(OSError):
        os.unlink(path)


def sync(folder: pathlib.Path) -> None:
    """Makes the names in a folder durable."""
    handle = os.open(folder, os.O_RDONLY | os.O_CLOEXEC)
    try:
        os.fsync(handle)
    finally:
        os.close(handle)


def written(
    path: str, given: Iterator[tuple[str, str, bytes]], page: Callable[[list[Item]], str]
) -> Iterator[Item]:
    """Writes the parts, and at last the page with their digests."""
    items = []
    with open(path, "wb") as file:
        with zipfile.ZipFile(file, "w", zipfile.ZIP_DEFLATED) as made:
            for name, what, data in given:
                made.writestr(name, data)
                items.append(Item(name, what, len(data), hashlib.sha256(data).hexdigest()))
                yield items[-1]
            made.writestr(DIGESTS, "".join(f"{it.digest}  {it.name}\n" for it in items))
            made.writestr(START, page(items))
        file.flush()
        os.fsync(file.fileno())


def see_whole(path: str, items: list[Item]) -> None:
    """Refuses an archive that does not read as it was written."""
    with zipfile.ZipFile(path) as made:
        for it in items:
            if hashlib.sha256(made.read(it.name)).hexdigest() != it.digest:
                raise Refused(f"the archive is not whole: {it.name} is another than was written")


def lines_in(path: pathlib.Path, name: str) -> int:
    """How many lines a part of an archive has."""
    with zipfile.ZipFile(path) as made, made.open(name) as file:
        return sum(1 for _ in file)


def digest_of(path: str | pathlib.Path) -> str:
    """The SHA-256 sum of a file."""
    found = hashlib.sha256()
    with open(path, "rb") as file:
        while data := file.read(CHUNK):
            found.update(data)
    return found.hexdigest()
