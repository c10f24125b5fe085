"""What of a list somebody wants to see: which rows, which columns, and in which order. All of it is
in the address of the screen, so that it can be kept and passed on.
"""
import dataclasses
import operator
from collections.abc import Iterator, Sequence

from werkzeug.datastructures import MultiDict

from office.core import texts
from office.core.model import Register
from office.web.machinery import tables

from . import on_screen
from .register_rows import Cell, Rows

# the columns that say in which state something is, and those that name schools one after another
STATES, SEVERAL = ("place", "met", "came", "held", "kind"), ("preferences", "waiting")
NONE = "none"
NO_COLUMN, NO_SCHOOL, NO_STATE = "a column of the list", "one of the list", "one of the list"


@dataclasses.dataclass(frozen=True)
class Choice:
    """What was chosen: words that a row has, the code of a school and a state that it names, the
    column in which it has something, the columns that are shown, the one that gives the order, and
    whether its greatest comes first.
    """

    words: str = ""
    at: str = ""
    state: str = ""
    filled: str = ""
    columns: tuple[str, ...] = ()
    order: str = ""
    is_down: bool = False

    def address(self) -> dict[str, str | list[str]]:
        """The same in an address."""
        found: dict[str, str | list[str]] = {
            "words": self.words, "at": self.at, "state": self.state, "filled": self.filled,
            "column": list(self.columns), "order": self.order,
            "down": "yes" if self.is_down else "",
        }
        return {name: value for name, value in found.items() if value}

    def in_words(self) -> list[str]:
        """Which rows these are."""
        said = [f"with “{self.words}”"] if self.words else []
        said += [f"at {self.at}"] if self.at else []
        said += [f"state: {on_screen.state(self.state)}"] if self.state else []
        said += [f"with a value under {on_screen.head(self.filled)}"] if self.filled else []
        down = ", the greatest first" if self.is_down else ""
        return said + ([f"by {on_screen.head(self.order)}{down}"] if self.order else [])


def of_address(given: MultiDict[str, str]) -> Choice:
    """What an address chooses."""
    words, at, state, filled, order = (
        given.get(it, "").strip() for it in ("words", "at", "state", "filled", "order"))
    return Choice(words[:texts.MOST_SOUGHT], at, state, filled,
                  tuple(dict.fromkeys(given.getlist("column"))), order, bool(given.get("down")))


def states(rows: Rows) -> list[str]:
    """The states that some row of a list names."""
    header, *others = rows
    found = [at for at, name in enumerate(header) if name in STATES]
    return sorted({state_of(row[at]) for row in others for at in found})


def state_of(cell: Cell) -> str:
    """A state as it is chosen."""
    return NONE if cell in (None, "") else str(cell)


def has_schools(rows: Rows) -> bool:
    """Whether the rows of a list name schools."""
    header, *others = rows
    return any(True for row in others for _ in schools_in(header, row))


def schools_in(header: Sequence[Cell], row: Sequence[Cell]) -> Iterator[str]:
    """The schools that a row names."""
    for name, cell in zip(header, row):
        if isinstance(cell, str) and name in on_screen.SCHOOLS:
            yield cell
        elif isinstance(cell, str) and name in SEVERAL:
            yield from cell.split(";")


def wrong(choice: Choice, rows: Rows, register: Register) -> dict[str, str]:
    """What of a choice the list does not have, by the names of its fields."""
    header = rows[0]
    found = {}
    if choice.at and choice.at not in register.schools:
        found["at"] = NO_SCHOOL
    if choice.state and choice.state not in [*states(rows), NONE]:
        found["state"] = NO_STATE
    if choice.filled and choice.filled not in header:
        found["filled"] = NO_COLUMN
    if choice.order and choice.order not in header:
        found["order"] = NO_COLUMN
    if any(it not in header for it in choice.columns):
        found["column"] = NO_COLUMN
    return found


def chosen(choice: Choice, rows: Rows, register: Register) -> Rows:
    """The rows of a list that were chosen, with their columns, in their order."""
    header, *others = rows
    found = [it for it in others if is_meant(choice, header, it, register)]
    if choice.order:
        found = tables.in_order(found, operator.itemgetter(header.index(choice.order)),
                                choice.is_down)
    kept = [at for at, name in enumerate(header) if name in (choice.columns or header)]
    return [[row[at] for at in kept] for row in [header, *found]]


def is_meant(
    choice: Choice, header: list[Cell], row: list[Cell], register: Register
) -> bool:
    """Whether a row is one of those that were chosen."""
    if choice.at and choice.at not in schools_in(header, row):
        return False
    if choice.state and choice.state not in [
            state_of(it) for name, it in zip(header, row) if name in STATES]:
        return False
    if choice.filled and row[header.index(choice.filled)] in (None, ""):
        return False
    return not choice.words or has_words(choice.words, row, register)


def has_words(words: str, row: list[Cell], register: Register) -> bool:
    """Whether each word is in some cell, as it is stored or as it is shown, or in the name of a
    school there, whatever capitals and accents. A number is only found whole.
    """
    return is_in(words, text_of(row, register))


def text_of(row: list[Cell], register: Register) -> str:
    """What is looked for words in a row, which is made once where it is looked at often."""
    there = [str(it) for it in row if it is not None]
    there += [on_screen.in_words(it) for it in row if isinstance(it, str)]
    there += [register.schools[it].name for it in row
              if isinstance(it, str) and it in register.schools]
    # (once for all: a long list has many cells)
    return texts.folded(" ".join(there))


def is_in(words: str, text: str) -> bool:
    """Whether each word is in the text of a row."""
    whole = set(text.split())
    return all(it in whole if it.isdigit() else it in text
               for it in texts.folded(words).split())
