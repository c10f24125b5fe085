"""The published figures of a round: made by the functions of the command, shown with what is
withheld and why, and kept as they are until somebody takes them for publication.
"""
import dataclasses
import hashlib
import json
import sqlite3
import threading
from collections.abc import Mapping
from typing import Any

from register_files import Refused

from office.core import criteria, texts, turns
from office.core.model import Register
from office.files import charts
from office.web.register.history import now
from office.web.register.store import Store

from . import counts as figure_counts
from . import page as figures
from .counts import LOWER, NONE, Figures, What
from .withheld import LEAST, is_small

# those that nobody has taken are kept up to so many
MOST = 20
SMALL = f"it is from 1 to {LEAST - 1}"
BESIDE = f"a number from 1 to {LEAST - 1} could be worked out from it"
PRIVATE = "the last place went to a child who is or was looked after, or by a verified reason"
BLANK = f"their squares of the map have fewer than {LEAST} homes"
# (each may hold a round again)
MAKING = turns.Turn(threading.Lock(), "others are having figures made")
# the fields of the form, as errors name them
COPY, LAST, LAST_COPY = (
    "the copy from right before the round", "last year's register",
    "last year's copy from right before the same round")


@dataclasses.dataclass(frozen=True)
class Withheld:
    """What the page does not say: of which school, what it is, what it would be, and why."""

    school: str
    what: str
    value: str
    why: str


@dataclasses.dataclass(frozen=True)
class Made:
    """Figures that were made: by whom and when (UTC); the digest of the page; what is said beside
    it; and who took it for publication, and when.
    """

    number: int
    who: str
    made: str
    digest: str
    about: dict[str, Any]
    taken_by: str
    taken: str

    @property
    def title(self) -> str:
        """What it is of."""
        said = f"round {self.about['round']} of {self.about['phase']} entry in {self.about['year']}"
        return f"{said}, compared with {self.about['last']}" if self.about["last"] else said


def what_is(found: Figures, key: What, flags: Mapping[int, str]) -> tuple[str, str]:
    """The school of a count, if it is of one, and what it counts."""
    kind, *more = key
    if kind == "met":
        return "", f"children with {figures.name_of(NONE if more[0] == NONE else number(more[0]))}"
    if not more:
        return "", {"kept": "children who kept a place", "offers": "offers"}[str(kind)]
    code = str(more[0])
    if kind == "applied":
        at = number(more[1])
        which = texts.nth(at) if at < LOWER else "lower"
        return code, f"applications as {which} preference"
    if kind == "class":
        words = criteria.in_words(found.schools[code], number(more[1]), flags)
        return code, f"offers to children {words}"
    return code, {"plans": "EHC plans", "offers": "offers", "kept": "places that were kept",
                  "applications": "all applications"}[str(kind)]


def number(value: object) -> int:
    """A number within a key."""
    assert isinstance(value, int)
    return value


def withheld(found: Figures, flags: Mapping[int, str]) -> list[Withheld]:
    """All that the page does not say, by schools."""
    counts, _ = figure_counts.published(found)
    made = [Withheld(*what_is(found, it, flags), f"{counts[it]:,}",
                     SMALL if is_small(counts[it]) else BESIDE) for it in found.hidden]
    made += [Withheld(it.code, "distance of the last offer", f"{it.last[1]:,} m", PRIVATE)
             for it in found.schools.values()
             if it.last and criteria.is_private(it, it.last[0])]
    _, cells = charts.counted_squares(figures.points_of(found), found.homes, LEAST)
    if blank := len(found.homes) - sum(cells.values()):
        made.append(Withheld("", "homes on the map", f"{blank:,}", BLANK))
    return sorted(made, key=lambda it: (it.school, it.what))


@dataclasses.dataclass(frozen=True)
class Sources:
    """What figures are made of: the register, the number of the round, the copy from right before
    it if there is one; and the same of last year.
    """

    register: Register
    round: int
    copy: Register | None = None
    last: Register | None = None
    last_copy: Register | None = None

    def figures(self) -> tuple[Figures, Figures | None]:
        """The figures of this year, and of last year."""
        found = figures.figures_of(self.register, self.copy, self.round, f"the field “{COPY}”")
        if self.last is None:
            return found, None
        last = figures.figures_of(self.last, self.last_copy, found.round,
                                  f"the field “{LAST_COPY}”")
        figures.see_comparable(found, last, LAST)
        return found, last


class FiguresStore:
    """The figures that were made."""

    def __init__(self, store: Store) -> None:
        self.store = store

    def add(self, who: str, page: bytes, about: Mapping[str, Any]) -> int:
        """Keeps figures, and returns their number. Of those that nobody has taken the oldest go."""
        with self.store.writing() as db:
            number_ = db.execute(
                "INSERT INTO figures (who, made, page, digest, about) VALUES (?, ?, ?, ?, ?)",
                (who, now(), page, hashlib.sha256(page).hexdigest(), json.dumps(about))).lastrowid
            db.execute("DELETE FROM figures WHERE taken='' AND number NOT IN (SELECT number FROM"
                       " figures WHERE taken='' ORDER BY number DESC LIMIT ?)", (MOST,))
        return number_ or 0

    def listed(self) -> list[Made]:
        """All that are kept, the last first."""
        return [made_of(it) for it in self.store.rows(
            "SELECT number, who, made, digest, about, taken_by, taken FROM figures"
            " ORDER BY number DESC")]

    def get(self, number_: int) -> Made | None:
        """One of them."""
        row = self.store.row("SELECT * FROM figures WHERE number=?", number_)
        return made_of(row) if row else None

    def page(self, number_: int) -> bytes:
        """The page as it is published."""
        row = self.store.row("SELECT page FROM figures WHERE number=?", number_)
        if row is None:
            raise Refused("these figures are not there any more")
        return bytes(row["page"])

    def take(self, who: str, number_: int) -> None:
        """Stores who takes a page for publication; the first is kept."""
        with self.store.writing() as db:
            db.execute("UPDATE figures SET taken_by=?, taken=? WHERE number=? AND taken=''",
                       (who, now(), number_))


def made_of(row: sqlite3.Row) -> Made:
    """The figures of a row."""
    return Made(row["number"], row["who"], row["made"], row["digest"], json.loads(row["about"]),
                row["taken_by"], row["taken"])


def made(sources: Sources, flags: dict[int, str]) -> tuple[bytes, dict[str, Any]]:
    """The page of figures, and what is said beside it."""
    with MAKING:
        found, last = sources.figures()
        page = figures.page(found, last, flags).encode()
        tables = figures.tables(found, last, flags)
    about = {
        "round": found.round, "phase": found.phase, "year": found.year, "children": found.children,
        "last": last.year if last else 0, "met": tables["met"], "compared": tables["compared"],
        "withheld": [dataclasses.astuple(it) for it in withheld(found, flags)],
        "counts": len(found.hidden), "is_of_copy": sources.copy is not None,
    }
    return page, about
