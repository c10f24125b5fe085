"""A correction of a child's data: what is typed in a form, and how it differs from the register."""
import dataclasses
import json
from collections.abc import Iterator, Mapping
from typing import Any

from office.core import child_fields, fields, risks, rules, texts
from office.core.model import Child, Register, School
from office.core.wording import label
from office.web.applications.files import POINT
from office.web.areas.map import Map

from .actions import FIELDS

Command = dict[str, Any]
Cells = dict[str, str]


@dataclasses.dataclass(frozen=True)
class Context:
    """What the readers of fields know: the schools of the register and whether it is large, and how
    days are typed.
    """

    schools: Mapping[str, School]
    is_large: bool
    is_uk: bool = True
    words: Mapping[int, str] = dataclasses.field(default_factory=dict)


@dataclasses.dataclass(frozen=True)
class Proposal:
    """The catchment schools of a new point by the areas, in a cell; their source; and whether they
    are in the correction, where nobody has typed others.
    """

    cell: str
    source: str
    is_taken: bool

    @property
    def words(self) -> str:
        """The schools in words."""
        return self.cell.replace(";", ", ") or "none"


def proposal_of(child: Child, command: Command, areas: Map, is_kept: bool) -> Proposal | None:
    """What the areas say of a home that moves, if that is otherwise than what is there. `is_kept`:
    the schools that are there are to stay.
    """
    home = home_of(command)
    typed = set(command.get("catchments", child.catchments))
    if home in (None, (child.east, child.north)):
        return None
    codes = areas.schools_at(home) if home else ()
    if typed == set(codes):
        return None
    is_typed = is_kept or typed != set(child.catchments)
    return Proposal(";".join(codes), areas.source, not is_typed)


def source_of(child: Child, command: Command, areas: Map) -> str:
    """Where the catchment schools of a correction came from, if it changes them to those of the
    areas; or "".
    """
    home, typed = home_of(command), set(command.get("catchments", ()))
    is_of_areas = home is not None and typed == set(areas.schools_at(home))
    return areas.source if is_of_areas and typed != set(child.catchments) else ""


def home_of(command: Command) -> tuple[int, int] | None:
    """The home of a correction, if it could be read."""
    return (command["east"], command["north"]) if {"east", "north"} <= command.keys() else None


def cells_of(child: Child) -> Cells:
    """The present data of a child as a form has them."""
    return {it.name: texts.cell_of(child.data[it.name]) for it in FIELDS}


def read(register: Register, number: int, cells: Cells) -> tuple[Command, dict[str, str]]:
    """The command of a correction, and what is expected in which field."""
    context, wrong = Context(register.schools, register.is_large), {}
    command: Command = {"cmd": "amend", "child": number}
    for it in FIELDS:
        found = fields.read(it.name, cells.get(it.name, ""), context)
        if found.expected:
            wrong[it.name] = found.expected
        else:
            command[it.name] = child_fields.value_of(it.kind, found.text)
    return command, wrong


def seen_in(seen: str) -> Cells:
    """The data that somebody saw, as a form has them; nothing of what is no such data."""
    try:
        found = json.loads(seen)
    except (ValueError, RecursionError):
        return {}
    return {name: texts.cell_of(it) for name, it in found.items()} if isinstance(
        found, dict) else {}


def merged(child: Child, seen: str, cells: Cells) -> Cells:
    """The present data with what was typed otherwise than it was seen: what a colleague has
    corrected meanwhile stays. The two numbers of a home's point are one.
    """
    was = seen_in(seen)
    typed = {it for it in cells if cells[it] != was.get(it)}
    if typed & set(POINT):
        typed |= set(POINT)
    return {**cells_of(child), **{it: cells[it] for it in typed}}


def changes(child: Child, command: Command) -> list[tuple[str, str, str]]:
    """The fields that a correction changes: the label, the present value and the new one."""
    pairs = ((it.name, texts.cell_of(child.data[it.name]), texts.cell_of(command[it.name]))
             for it in FIELDS)
    return [(label(name), one or "none", other or "none") for name, one, other in pairs
            if one != other]


def warnings(child: Child, command: Command) -> Iterator[str]:
    """What looks wrong in a correction: another person, a home far away, a priority that changes.
    """
    if not texts.is_alike(child.name, command["name"]):
        yield "The names are not alike: is it this child?"
    far = texts.metres(command["east"] - child.east, command["north"] - child.north)
    if far > risks.FAR_MOVE_METRES:
        yield f"The home moves by {far // 1000:,} km: are east and north right?"
    if command["looked_after"] != child.looked_after:
        yield "Children who are or were looked after are first in every list: is this right?"
    if child.present and not command["present"]:
        yield f"The present school {child.present} is removed, and with it perhaps a priority."


def is_choice(kind: str) -> bool:
    """Whether a field is yes or no."""
    return kind == "truth"


def is_flags(kind: str) -> bool:
    """Whether a field is a list of flags."""
    return kind == rules.LIST + "flag"
