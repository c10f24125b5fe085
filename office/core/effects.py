"""Whether a register is as a command leaves it: what a request without an answer came to."""
import csv
import io
from collections.abc import Callable, Mapping
from typing import Any

from . import child_fields, rules
from .fields import trimmed
from .model import WAITS, Place, Register

Command = Mapping[str, Any]


def place_of(register: Register, command: Command) -> Place | None:
    """The place of the command's child at its school."""
    place = register.places.get(command["child"])
    return place if place and place.school == command["school"] else None


def has_data(register: Register, command: Command) -> bool:
    """Whether a child has the data of a command that adds or amends it."""
    child = register.children.get(command["child"])
    return child is not None and normal(child_fields.command_of(command["cmd"], child)) == normal(
        command)


def normal(command: Command) -> Command:
    """A command with each field that may be left out, and with sorted flags, as they are stored."""
    fields = rules.COMMANDS[command["cmd"]].values()
    found: dict[str, Any] = {
        **{it.name: it.omitted for it in fields if it.is_optional}, **command}
    if isinstance(found.get("flags"), list):
        found["flags"] = sorted(set(found["flags"]))
    return found


def has_applied(register: Register, command: Command) -> bool:
    """Whether a child has this application."""
    found = register.applications.get(command["child"])
    return found is not None and (found.day.isoformat(), list(found.preferences)) == (
        command["day"], command["preferences"])


def has_left(register: Register, command: Command) -> bool:
    """Whether a child does not wait at the school."""
    found = register.applications.get(command["child"])
    waits = found.at(command["school"]) if found else None
    return waits is None or waits.state != WAITS


def is_reminded(register: Register, command: Command) -> bool:
    """Whether a child was reminded on that day."""
    place = place_of(register, command)
    return place is not None and place.reminded is not None and (
        place.reminded.isoformat() == command["day"])


def has_kind(kind: str | None) -> Callable[[Register, Command], bool]:
    """Whether the child has its place at the school in this way; for None, whether it has none."""
    def found(register: Register, command: Command) -> bool:
        place = place_of(register, command)
        return (place.kind if place else None) == kind
    return found


def has_school(register: Register, command: Command) -> bool:
    """Whether a school has the data of a command that adds it."""
    school = register.schools.get(command["school"])
    return school is not None and child_fields.command_of_school(school) == command


def has_pan(register: Register, command: Command) -> bool:
    """Whether a school has at least this admission number, which can only rise."""
    school = register.schools.get(command["school"])
    return school is not None and school.pan >= command["pan"]


def is_held(register: Register, command: Command) -> bool:
    """Whether a draw of this number was held, for this school or all, on this day, and with these
    lots.
    """
    held = next((it for it in register.draws if it.number == command["draw"]), None)
    if held is None or (held.school, held.day.isoformat()) != (
            command.get("school"), command["day"]):
        return False
    lots = register.lots(held.number)
    return bool([lots[it] for it in sorted(lots)] == command["lots"])


def rows_of(rows: str) -> list[dict[str, str]]:
    """The rows of an import, as the register reads them: without a byte order mark, and with lines
    that end with LF, CR or both. None where they cannot be read: no register takes them. A row has
    the columns of its cells alone, and "" for cells beyond the header: of a header as long as an
    import can be, a row each would fill the memory.
    """
    try:
        found = list(csv.reader(io.StringIO(rows.removeprefix("\ufeff"), newline=None)))
    except csv.Error:
        return []
    header = found[0] if found else []
    return [{**dict(zip(header, it)),
             **({"": ",".join(it[len(header):])} if len(it) > len(header) else {})}
            for it in found[1:] if it]


def is_imported(register: Register, rows: str) -> bool:
    """Whether a register has each child of the rows of an import, by number and name."""
    found = rows_of(rows)
    names = {str(it.number): it.name for it in register.children.values()}
    return bool(found) and all(
        names.get(trimmed(it.get("child") or "")) == trimmed(it.get("name") or "")
        for it in found
    )
