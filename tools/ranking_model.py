"""How schools rank children, worked out without the program, for the models that tests and
benchmarks compare with.

A school is a dict with its code (school), point (east, north) and criteria, as the command
add_school has them; a child one with its point, looked_after, flags, siblings and, where it has
them, its present school (present) and its catchment schools (catchments), as the command add_child
has them. Metres are rounded down. It shares no code with the program, and none with the audit,
which is an opinion of its own.
"""
import math
from collections.abc import Mapping
from typing import Any

Record = Mapping[str, Any]


def metres(one: Record, other: Record) -> int:
    """The distance of two points, in whole metres."""
    return math.isqrt((one["east"] - other["east"]) ** 2 + (one["north"] - other["north"]) ** 2)


def meets(school: Record, child: Record, criterion: str) -> bool:
    """Whether the child meets an oversubscription criterion of the school."""
    kind, _, value = criterion.partition(":")
    if kind == "sibling":
        return school["school"] in child["siblings"]
    if kind == "catchment":
        return school["school"] in child.get("catchments", ())
    if kind == "feeder":
        return bool(child.get("present") == value)
    if kind == "within":
        return metres(school, child) <= int(value)
    return int(value) in child["flags"]


def standing(school: Record, child: Record) -> tuple[int, int]:
    """Class and distance of the child at the school: the smaller ranks first, and equal ones rank
    by their lots."""
    met = [child["looked_after"], *(meets(school, child, it) for it in school["criteria"]), True]
    return met.index(True), metres(school, child)
