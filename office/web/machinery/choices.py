"""Lists of boxes, a page of which is shown: what is ticked on the other pages goes with it."""
import dataclasses
from collections.abc import Callable, Sequence
from typing import Generic, TypeVar

from .asked import Typed

# of a long list
PAGE = 100
Row = TypeVar("Row")


def picked(given: Typed) -> set[str]:
    """The children that are ticked: on the page that was sent, and on the others."""
    return {*given.getlist("child"), *filter(None, given.get("others", "").split(","))}


@dataclasses.dataclass(frozen=True)
class Page(Generic[Row]):
    """A page of a long list: its rows, its number, of how many, and the children that are ticked on
    all other pages.
    """

    rows: list[Row]
    number: int
    last: int
    others: str


def page_of(rows: Sequence[Row], number: int, ticked: Callable[[Row], int | None]) -> Page[Row]:
    """A page of a list. `ticked` says which child a row has, if its box is ticked."""
    last = max(1, -(-len(rows) // PAGE))
    number = min(max(number, 1), last)
    start, end = (number - 1) * PAGE, number * PAGE
    others = [ticked(it) for it in (*rows[:start], *rows[end:])]
    return Page(list(rows[start:end]), number, last,
                ",".join(str(it) for it in others if it is not None))
