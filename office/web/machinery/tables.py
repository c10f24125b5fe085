"""Tables that are put in order by links: `?order=COLUMN`, or `?order=COLUMN.down`; where a screen
has several, the name of the table is before it: `?order=TABLE.COLUMN`.
"""
import dataclasses
import math
import re
import urllib.parse
from collections.abc import Callable, Iterable, Mapping, Sequence
from typing import Any, Generic, TypeVar

import flask

from office.core import texts

from . import numbers

Row = TypeVar("Row")
UP, DOWN = "ascending", "descending"
NUMBER = re.compile(r"[0-9]{1,15}(?:\.[0-9]{1,6})?")
# so many rows are on a page of the screen, or fewer beside other things; on paper all of them are
PAGE, SHORT = 200, 25


@dataclasses.dataclass(frozen=True)
class Column(Generic[Row]):
    """A column: its title, how it is shown, and by what of a row the rows are put in order."""

    title: str
    kind: str = ""
    by: Callable[[Row], Any] | None = None


@dataclasses.dataclass(frozen=True)
class Table(Generic[Row]):
    """A table as its macro takes it."""

    rows: list[Row]
    columns: list[dict[str, str]]
    sort: tuple[str, str]


def table(
    columns: Mapping[str, Column[Row]], rows: Sequence[Row], name: str = "",
) -> Table[Row]:
    """A table in the order that the address asks for, or else in that of its rows."""
    asked = flask.request.args.get("order", "")
    column = asked.removesuffix(".down").removeprefix(f"{name}.")
    is_down, before = asked.endswith(".down"), f"{name}." if name else ""
    found = columns.get(column) if asked.startswith(before) else None
    made, sort = list(rows), ("", "")
    if found and found.by:
        made, sort = in_order(made, found.by, is_down), (column, DOWN if is_down else UP)
    return Table(made, [head(before, it, columns[it], sort) for it in columns], sort)


def in_order(rows: Iterable[Row], by: Callable[[Row], Any], is_down: bool) -> list[Row]:
    """Rows by a value of each. What has none comes last, whichever comes first."""
    filled, empty = list[Row](), list[Row]()
    for it in rows:
        (empty if by(it) in (None, "") else filled).append(it)
    return sorted(filled, key=lambda it: key_of(by(it)), reverse=is_down) + empty


def key_of(value: Any) -> tuple[float, str, str]:
    """By numbers and days as such, and then by words without accents."""
    text = str(value)
    if isinstance(value, int) or NUMBER.fullmatch(text):
        return (float(value), "", text)
    return (math.inf, texts.plain(text), text)


def pages(view: str, **values: Any) -> str:
    """The address of a screen in the same order, with %s for the number of its page."""
    order = flask.request.args.get("order")
    found = flask.url_for(view, **values, order=order, page=0)
    return found.replace("%", "%%").replace("page=0", "page=%s")


def head(before: str, column: str, it: Column[Any], sort: tuple[str, str]) -> dict[str, str]:
    """The head of a column, with the address of the same page in its order."""
    made = {"name": column, "title": it.title, "kind": it.kind, "href": ""}
    # (a page that answers a form has no address)
    if it.by and flask.request.method == "GET":
        way = ".down" if sort == (column, UP) else ""
        # (what is in the address is text: no name of it means anything to what makes addresses)
        asked = [it for it in flask.request.args.items(multi=True)
                 if it[0] not in ("order", "page")]
        query = urllib.parse.urlencode([*asked, ("order", f"{before}{column}{way}")])
        anchor = f"#{before.rstrip('.')}" if before else ""
        made["href"] = f"{flask.request.path}?{query}{anchor}"
    return made


@dataclasses.dataclass(frozen=True)
class Paged(Generic[Row]):
    """The rows of a page of a table; its number, and how many pages there are; all is on one where
    number is 0.
    """

    rows: Sequence[Row]
    number: int
    count: int


def page_of(position: int) -> int:
    """The page of a short table that has a row."""
    return (position - 1) // SHORT + 1


def paged(rows: Sequence[Row], asked: str, most: int = 0) -> Paged[Row]:
    """A page of a table, of so many rows; all of its rows where that is asked."""
    most = most or PAGE
    count = max(1, math.ceil(len(rows) / most))
    if asked == "all":
        return Paged(rows, 0, count)
    number = min(max(numbers.read(asked, 1), 1), count)
    return Paged(rows[(number - 1) * most:number * most], number, count)
