"""A child that is typed into a form: its cells, and the number that is proposed for it."""
from collections.abc import Iterable, Iterator, Mapping

from office.core.rules import LIMITS
from office.web.register.history import now

from .rows import OPEN, Staged, whole

# the fields of the form in the order in which they are typed, before the preferences
TYPED = ("name", "east", "north", "looked_after", "flags", "siblings", "present", "catchments",
         "day")
PREFERENCES = [f"preference-{it}" for it in range(1, LIMITS["preferences"].most + 1)]


def next_free(numbers: Iterable[int]) -> int | None:
    """The number after the greatest; where there is none, the least that is free."""
    return next(free(numbers), None)


def free(numbers: Iterable[int]) -> Iterator[int]:
    """The numbers after the greatest, and then those that are free before it."""
    taken, limit = set(numbers), LIMITS["child"]
    after = max(taken, default=limit.least - 1) + 1
    yield from range(after, limit.most + 1)
    yield from (it for it in range(limit.least, after) if it not in taken)


def cells_of(form: Mapping[str, str]) -> dict[str, str]:
    """The cells of what was typed. A preference that is left out between two others is kept as an
    empty one, which is an error.
    """
    listed = [form.get(it, "").strip() for it in PREFERENCES]
    while listed and not listed[-1]:
        listed.pop()
    typed = {it: form.get(it, "").strip() for it in (*TYPED, "child")}
    return whole({**typed, "preferences": ";".join(listed)})


def same(rows: Iterable[Staged], cells: Mapping[str, str]) -> Staged | None:
    """The row of a form that has all of these cells but for the number: it was sent twice."""
    wanted = {**cells, "child": ""}
    return next((it for it in rows if it.is_form and {**it.cells, "child": ""} == wanted), None)


def preferences_of(cells: Mapping[str, str]) -> list[str]:
    """The preferences of cells, one for each field of the form."""
    listed = cells["preferences"].split(";") if cells["preferences"] else []
    return [*listed, *[""] * len(PREFERENCES)][:len(PREFERENCES)]


def first_field(column: str) -> str:
    """The field of a column, or the first of them."""
    return PREFERENCES[0] if column == "preferences" else column


def typed_row(cells: dict[str, str], who: str) -> Staged:
    """A row that is not in the table yet."""
    moment = now()
    return Staged(0, 0, "", True, True, 0, cells, {}, (), OPEN, 0, who, moment, who, moment, None)
