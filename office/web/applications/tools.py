"""What the screens of the staging table share in one application."""
import dataclasses
import datetime
from collections.abc import Mapping
from typing import Any, cast

import flask
from register_files import Refused

from office.core.model import Register
from office.web.machinery import numbers
from office.web.people.guard import parts
from office.web.register.desk import Desk
from office.web.schools import flags

from .commit import Committing
from .gazetteer import Gazetteer
from .imports import Imports
from .row_points import Points
from .rows import OPEN
from .staging import MOST_OPEN, Staging
from .table_check import Checker, Table


@dataclasses.dataclass(frozen=True)
class Tools:
    """The table, its check, what stores it, and the points of its homes."""

    staging: Staging
    checker: Checker
    committing: Committing
    points: Points


def begin(state: Any) -> None:
    """Makes them with an application."""
    found = state.app.extensions["office"]
    staging = Staging(found.store, found.history, lambda: most_rows(found.desk))
    checker = Checker(lambda: flags.words_of(found.store), found.areas.map)
    imports = Imports(staging, found.desk, found.jobs)
    committing = Committing(staging, checker, imports, found.copies.make)
    gazetteer = Gazetteer(found.config.folder / "gazetteer", found.store, found.history)
    points = Points(staging, gazetteer, found.history)
    state.app.extensions["staging"] = Tools(staging, checker, committing, points)
    # (what an application before this one has left)
    committing.wake()


def most_rows(desk: Desk) -> int:
    """How many rows have place in the table: as many as the register can have children, by its
    size, which stays.
    """
    try:
        return (desk.copy.register if desk.copy else desk.register()).most("children")
    except Refused:
        return MOST_OPEN


def tools() -> Tools:
    """Those of this application."""
    return cast(Tools, flask.current_app.extensions["staging"])


def register_now() -> tuple[Register | None, str]:
    """The register, or why it does not answer."""
    try:
        return parts().desk.register(), ""
    except Refused as error:
        return None, (f"The register does not answer, and the rows are checked without it:"
                      f" {error}.")


def table_now() -> tuple[Table, str]:
    """The table as it is, and what is to be said of it."""
    unknown = tools().committing.unknown()
    register, reason = register_now()
    return tools().checker.table(tools().staging.rows(OPEN), register), unknown or reason


def today() -> datetime.date:
    """The day of today."""
    return datetime.date.today()


def is_collecting(register: Register) -> bool:
    """Whether families may still change what is in the table: until the closing day."""
    return today() <= register.days[0]


def numbers_taken(register: Register | None) -> set[int]:
    """The numbers that no other child can get."""
    return tools().staging.numbers() | set(register.children if register else ())


def number_in(given: Mapping[str, str], name: str, other: int = 0) -> int:
    """A number of a form or an address."""
    return numbers.read(given.get(name, ""), other)
