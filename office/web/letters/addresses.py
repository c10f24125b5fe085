"""Where letters go: the lines of the address of each child, from a sheet of the office."""
import dataclasses
import hashlib
import itertools
import json
import re
from collections.abc import Iterable, Mapping, Sequence

from register_files import Refused

from office.core import texts
from office.files import inputs
from office.files.sheet import Row
from office.web.applications.table_check import LOST
from office.web.people.roles import Person
from office.web.register.history import History, now
from office.web.register.store import Store

from . import pdf

# (more lines than a window of an envelope shows)
MOST_LINES, MOST_CHARACTERS = 8, 100
NAME = "the file"
# of the cells that a form keeps, with the commas between them and their rows
MOST_KEPT = 2 * (inputs.MOST_CELLS + inputs.MOST_COLUMNS + inputs.MOST_ROWS)
# a text of JSON with its quotes, or from its first one to the end of all where it has no other: so
# each letter is looked at once
STRING = re.compile(r'"[^"\\]*+(?:\\.[^"\\]*+)*+(?:"|\\?\Z)', re.DOTALL)


def columns_of(rows: list[Row]) -> list[str]:
    """The columns of a sheet that may be lines of an address, in their order."""
    return pdf.addresses_in(NAME, rows)[0]


def read(
    rows: list[Row], known: Iterable[int], taken: Sequence[int] | None = None
) -> dict[int, list[str]]:
    """The lines of a sheet by child: each child is one that the register has. `taken` are the
    places of the columns that are lines of an address, or None for all.
    """
    _, cells = pdf.addresses_in(NAME, rows)
    found = {child: pdf.lines_of(
        [it for at, it in enumerate(one) if taken is None or at in taken])
        for child, one in cells.items()}
    if not found:
        raise Refused("the file has no rows of children below its header")
    there = set(known)
    for child, lines in found.items():
        if child not in there:
            raise Refused(f"the file has child {child}, and the register has not")
        if len(lines) > MOST_LINES or any(
                len(it) > MOST_CHARACTERS or not texts.is_shown(it) for it in lines):
            raise Refused(f"the address of child {child} has at most {MOST_LINES} lines, each of"
                          f" {MOST_CHARACTERS} characters that can be printed")
    return found


def doubts(rows: list[Row], names: Mapping[int, str]) -> list[tuple[int, str]]:
    """What looks wrong in a sheet, by child: a cell with the name of another child, as where one
    column was put in order without the others; and a letter that was lost.
    """
    named: dict[str, list[int]] = {}
    for number, name in names.items():
        named.setdefault(texts.folded(name), []).append(number)
    found = []
    for child, cells in pdf.addresses_in(NAME, rows)[1].items():
        for cell in filter(None, cells):
            others = named.get(texts.folded(cell), [child])
            if child not in others:
                found.append((child, f"{texts.shown(cell)} is the name of child {others[0]}"))
            elif LOST.search(cell):
                found.append((child, f"{texts.shown(cell)}: is the question mark a letter that was"
                              " lost?"))
    return found


def packed(rows: list[Row]) -> str:
    """The rows of a sheet as a form keeps them between the look and the storing; without empty
    cells at the end of a row, which no limit of a sheet counts.
    """
    header, *others = rows
    return json.dumps([[header.number, header.cells], *([it.number, filled(it.cells)]
                                                        for it in others)])


def filled(cells: list[str]) -> list[str]:
    """The cells of a row up to the last one that has something."""
    used = len(cells)
    while used and not cells[used - 1].strip():
        used -= 1
    return cells[:used]


def is_kept(text: str) -> bool:
    """Whether a text may be that of the rows of a sheet, and can be read: it has no more rows and
    cells than one has. Short ones without end would take many times the memory of the text.
    """
    rows = cells = at = 0
    for it in itertools.chain(STRING.finditer(text), (None,)):
        start, end = it.span() if it else (len(text), len(text))
        rows += text.count("[", at, start)
        # (a cell, and a comma before it or before its row)
        cells += 1 + text.count(",", at, start)
        at = end
        if rows > 2 * inputs.MOST_ROWS + 1 or cells > MOST_KEPT:
            return False
    return True


def unpacked(text: str) -> list[Row]:
    """The rows that a form has kept."""
    if not is_kept(text):
        raise Refused("choose the file once more")
    try:
        found = [Row(number, cells) for number, cells in json.loads(text)]
        is_right = all(isinstance(it.number, int) and isinstance(it.cells, list) and
                       all(texts.is_text(cell) for cell in it.cells) for it in found)
    except (ValueError, TypeError, RecursionError):
        is_right = False
    if not is_right:
        raise Refused("choose the file once more")
    return found


def examples(found: dict[int, list[str]]) -> list[tuple[int, list[str]]]:
    """Two addresses to be looked at: the first one with the most lines, and the first other one."""
    longest = max(found, key=lambda it: (len(found[it]), -it))
    other = next((it for it in sorted(found) if it != longest and found[it]), None)
    return [(it, found[it]) for it in (longest, other) if it is not None]


@dataclasses.dataclass(frozen=True)
class Replaced:
    """An address that is stored, with who stored it and when, and what would be there in its place:
    no line where it would be removed.
    """

    child: int
    before: list[str]
    after: list[str]
    who: str
    at: str


class Addresses:
    """The addresses of one application."""

    def __init__(self, store: Store, record: History) -> None:
        self.store, self.history = store, record

    def all(self) -> dict[int, list[str]]:
        """The lines of each child that has an address."""
        return {it["child"]: json.loads(it["lines"]) for it in self.store.rows(
            "SELECT * FROM letter_address ORDER BY child")}

    def replaced(self, found: dict[int, list[str]], is_whole: bool) -> list[Replaced]:
        """What is stored and would be another address, or none."""
        rows = [Replaced(it["child"], json.loads(it["lines"]), found.get(it["child"], []),
                         it["who"], it["at"])
                for it in self.store.rows("SELECT * FROM letter_address ORDER BY child")
                if is_whole or it["child"] in found]
        return [it for it in rows if it.before != it.after]

    def digest(self) -> str:
        """What is stored, in short."""
        rows = self.store.rows("SELECT child, lines FROM letter_address ORDER BY child")
        return hashlib.sha256(json.dumps([list(it) for it in rows]).encode()).hexdigest()

    def save(
        self, who: Person, found: dict[int, list[str]], is_whole: bool, seen: str,
    ) -> bool:
        """Stores addresses by child, or in place of all that are there; on record before. A child
        without a line has none. Whether it was done: not where others were stored since somebody
        saw what is there.
        """
        with self.store.lock:
            if seen != self.digest():
                return False
            self.history.add(who.name, "stored addresses for letters", {
                "children": sorted(found), "in place of all": is_whole})
            with self.store.writing() as db:
                if is_whole:
                    db.execute("DELETE FROM letter_address")
                db.executemany("DELETE FROM letter_address WHERE child=?",
                               [(it,) for it in found])
                db.executemany(
                    "INSERT INTO letter_address VALUES (?, ?, ?, ?)",
                    [(child, json.dumps(lines), who.name, now())
                     for child, lines in found.items() if lines])
        return True
