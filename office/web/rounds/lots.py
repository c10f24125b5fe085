"""The sheet of lots of a draw: its pairs, those first that only a lot can separate; what is wrong
at each cell; how the others are drawn by a seed; and the text whose digest seals it.
"""
import collections
import dataclasses
import hashlib
from collections.abc import Iterable

from office.core.model import Pair, Register
from office.web.register.store import Store

from . import lot_sheets
from .terms import Terms

# a cell: a pair, and the place of the draw in the row of fills, from 0 on
Cell = tuple[Pair, int]
# the lots of each pair, one for each draw of the row
Lots = dict[Pair, list[int]]
MOST_TEXT, MOST_SEED = 40, 200
MISSING = "has no lot yet"


@dataclasses.dataclass(frozen=True)
class Row:
    """A pair of the sheet: the number of the group of those that only a lot can separate, or 0; the
    lots as they were typed, and the seeds by which they were drawn, or "".
    """

    pair: Pair
    tie: int
    typed: tuple[str, ...]
    seeds: tuple[str, ...]


@dataclasses.dataclass(frozen=True)
class Sheet:
    """The lots of a draw as far as they are typed."""

    terms: Terms
    rows: tuple[Row, ...]

    def wrong(self) -> dict[Cell, str]:
        """What is wrong at each cell: it has no lot, no number, or that of another pair of the same
        school and draw.
        """
        found: dict[Cell, str] = {}
        known: dict[tuple[str, int, int], list[Pair]] = collections.defaultdict(list)
        for row in self.rows:
            for at, text in enumerate(row.typed):
                if not text:
                    found[row.pair, at] = MISSING
                elif said := lot_sheets.wrong_lot(text):
                    found[row.pair, at] = f"has a lot {said}"
                else:
                    known[row.pair[0], at, int(text)].append(row.pair)
        for (_, at, _), pairs in known.items():
            for pair in pairs if len(pairs) > 1 else ():
                other = next(it for it in pairs if it != pair)
                found[pair, at] = f"has the lot of child {other[1]}"
        return found

    def cells(self) -> dict[Cell, str]:
        """What is typed at each cell."""
        return {(row.pair, at): it for row in self.rows for at, it in enumerate(row.typed)}

    def lots(self) -> Lots:
        """The lots of a sheet in which nothing is wrong."""
        return {row.pair: [int(it) for it in row.typed] for row in sorted_rows(self.rows)}

    def text(self) -> str:
        """What is sealed: a line that says what is drawn and for which day; and for each pair, in
        the order of codes and numbers, a line of code, number and lots with blanks between them.
        """
        head = f"{self.terms.sealed}, {self.terms.day.isoformat()}"
        lines = (" ".join([code, str(child), *map(str, lots)])
                 for (code, child), lots in self.lots().items())
        return "".join(f"{it}\n" for it in (head, *lines))

    def digest(self) -> str:
        """The SHA-256 sum of that text."""
        return hashlib.sha256(self.text().encode()).hexdigest()

    def seeds(self) -> list[str]:
        """The seeds by which lots were drawn."""
        return sorted({it for row in self.rows for it in row.seeds if it})


def sorted_rows(rows: Iterable[Row]) -> list[Row]:
    """Rows in the order of codes and numbers."""
    return sorted(rows, key=lambda it: it.pair)


def sheet_of(store: Store, number: int, terms: Terms) -> Sheet:
    """The sheet of a draw of the store: the groups first, and then the others."""
    typed: dict[Pair, list[str]] = collections.defaultdict(list)
    seeds: dict[Pair, list[str]] = collections.defaultdict(list)
    ties: dict[Pair, int] = {}
    for it in store.rows("SELECT * FROM lot WHERE draw=? ORDER BY school, child, fill", number):
        pair = it["school"], it["child"]
        ties[pair] = it["tie"]
        typed[pair].append(it["text"])
        seeds[pair].append(it["seed"] or "")
    found = (Row(pair, ties[pair], tuple(typed[pair]), tuple(seeds[pair])) for pair in ties)
    return Sheet(terms, tuple(sorted(found, key=lambda it: (not it.tie, it.tie, it.pair))))


def ties_in(register: Register, pairs: Iterable[Pair]) -> dict[Pair, int]:
    """The group of each pair: those of one school, class and distance have a number from 1 on, and
    one that is alone there has 0.
    """
    alike: dict[tuple[str, int, int], list[Pair]] = collections.defaultdict(list)
    for code, child in sorted(pairs):
        alike[code, *register.rank(code, child)].append((code, child))
    found: dict[Pair, int] = {}
    count = 0
    for _, group in sorted(alike.items()):
        count += len(group) > 1
        found.update(dict.fromkeys(group, count if len(group) > 1 else 0))
    return found


def by_seed(seed: str, draw: int, pair: Pair) -> int:
    """The lot of a pair by a seed: the first eight hexadecimal digits of the SHA-256 sum of the
    seed, the number of the draw, the code and the child's number, each followed by a line feed.
    """
    text = "".join(f"{it}\n" for it in (seed, draw, *pair))
    return int(hashlib.sha256(text.encode()).hexdigest()[:8], 16)


def typed_lot(text: str) -> str:
    """What is kept of a lot that was typed: as it is, but for blanks around it and zeros before."""
    text = text.strip()[:MOST_TEXT]
    return str(int(text)) if not lot_sheets.wrong_lot(text) else text


def errors_of_sheet(
    pairs: Iterable[Pair], rows: Iterable[tuple[int, list[str]]]
) -> tuple[dict[Pair, int], list[str]]:
    """The lots of an uploaded sheet, and each error with its row. Pairs that it lacks are no error:
    their lots are still to be drawn.
    """
    filled = lot_sheets.Filled(list(pairs))
    wrong = [f"row {at} {said}" for at, cells in rows
             if (said := filled.add(at, cells)) and not is_empty(cells)]
    return filled.lots, wrong


def is_empty(cells: list[str]) -> bool:
    """Whether a row of a sheet has no lot, as it was printed."""
    return len(cells) == 2
