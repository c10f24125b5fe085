"""The classes of a school's criteria in words, with the office's own words for flags."""
from collections.abc import Mapping
from typing import Protocol


# of a child who meets none of a school's criteria, and at a school that has none
UNMET, ALONE = "by distance (no criterion met)", "ranked by distance alone"


class School(Protocol):
    """What is looked at of a school: its criteria in their order.

    Class 0 is of children who are or were looked after, the classes from 1 on are of the criteria,
    and the last one is of those who meet none.
    """

    @property
    def criteria(self) -> tuple[str, ...]: ...


def is_private(school: School, number: int) -> bool:
    """Whether the distance of a child in a class is not published: it is or was looked after, or
    has a flag.
    """
    if number == 0:
        return True
    return number <= len(school.criteria) and school.criteria[number - 1].startswith("flag:")


def in_brief(school: School, number: int, flags: Mapping[int, str] | None = None) -> str:
    """What a class of a school means, for a screen and an explanation: a verified reason by its
    words alone.
    """
    if school.criteria and number > len(school.criteria):
        return UNMET
    kind, _, value = school.criteria[number - 1].partition(":") if (
        number and school.criteria) else ("", "", "")
    if kind == "flag":
        return (flags or {}).get(int(value)) or f"verified reason {value}"
    return in_words(school, number, flags)


def in_words(school: School, number: int, flags: Mapping[int, str] | None = None) -> str:
    """What a class of a school means, for children in it; `flags` are the office's words for flags
    by their numbers.
    """
    if number == 0:
        return "looked after, or previously looked after"
    if not school.criteria:
        return ALONE
    if number > len(school.criteria):
        return "meeting no criterion of the school"
    kind, _, value = school.criteria[number - 1].partition(":")
    if kind == "sibling":
        return "with a brother or sister at the school"
    if kind == "catchment":
        return "living in the school’s catchment area"
    if kind == "within":
        return f"living within {int(value):,} metres of the school"
    if kind == "flag":
        words = (flags or {}).get(int(value))
        if words:
            return f"with a verified priority: {words}"
        return f"with the priority that the office has verified as reason {value}"
    return f"from the feeder school {value}"
