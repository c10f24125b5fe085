"""The applications of the staging table in pictures: how many came on each day, and how many want
each school first, beside its places.
"""
import collections
import dataclasses
import datetime

from markupsafe import Markup

from office.core import days, texts
from office.web.machinery import pictures

from .table_check import Table

DAY = datetime.timedelta(days=1)
# a picture has as many days at most, the last ones
MOST_DAYS = 120


@dataclasses.dataclass(frozen=True)
class ByDay:
    """Applications by day: the picture, what it says, and the same by weeks."""

    drawn: Markup
    says: str
    late: int
    weeks: list[tuple[str, int]]


def by_day(table: Table) -> ByDay | None:
    """The days of all rows that can be read, if there is a register and a row."""
    if table.register is None:
        return None
    closing = table.register.days[0]
    # (the rows of one day have one text, which is read once)
    given = collections.Counter(it.row.fields["day"] for it in table.rows.values())
    counts = collections.Counter(
        {day: many for text, many in given.items() if (day := days.read(text))})
    if not counts:
        return None
    last = max(counts)
    first = max(min(counts), last - (MOST_DAYS - 1) * DAY)
    span = [first + at * DAY for at in range((last - first).days + 1)]
    late = sum(many for day, many in counts.items() if day > closing)
    says = said(sum(counts.values()), late, closing)
    hidden = sum(many for day, many in counts.items() if day < first)
    text = f"A column for each day from {days.in_words(first)} to {days.in_words(last)}." + (
        f" {texts.count(hidden, 'earlier application')} are not in it." if hidden else "")
    drawn = pictures.columns("by-day-drawn", "Applications by day", text, first,
                             [counts[it] for it in span], closing, "closing date")
    return ByDay(drawn, says, late, by_week(counts))


def said(many: int, late: int, closing: datetime.date) -> str:
    """What the picture says."""
    these = texts.count(many, "application")
    if not late:
        return f"All {these} are dated up to the closing date, {days.in_words(closing)}."
    verb = "is" if late == 1 else "are"
    return f"{late:,} of {these} {verb} dated after the closing date, {days.in_words(closing)}."


def by_week(counts: collections.Counter[datetime.date]) -> list[tuple[str, int]]:
    """The applications of each week that has any, by its Monday."""
    weeks: collections.Counter[datetime.date] = collections.Counter()
    for day, many in counts.items():
        weeks[day - day.weekday() * DAY] += many
    return [(days.in_words(it), weeks[it]) for it in sorted(weeks)]


def wanted(table: Table) -> list[tuple[str, str, str, Markup]]:
    """The schools by how many rows want each first, with its places: what is beyond them is of
    another colour.
    """
    if table.register is None:
        return []
    first = collections.Counter(it.row.fields["preferences"].partition(";")[0]
                                for it in table.rows.values())
    schools = sorted(table.register.schools.values(), key=lambda it: (-first[it.code], it.name))
    most = max((max(first[it.code], it.pan) for it in schools), default=0)
    return [(it.name, f"{first[it.code]:,}", f"for {it.pan:,}", pictures.bar(
        min(first[it.code], it.pan), most, "first", (max(first[it.code] - it.pan, 0), "late")))
        for it in schools]
