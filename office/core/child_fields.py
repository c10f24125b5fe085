"""Children as commands and files of applications have them: with each field that the rules list or
the register shows, so that a field which is new in the program is repeated and compared like the
others; and schools as commands have them.
"""
from typing import Any

from . import rules, texts
from .fields import COLUMNS
from .model import Application, Child, School

# the kinds of fields that are numbers
NUMBERS = ("child", "flag", "number")


def command_of(name: str, child: Child) -> dict[str, Any]:
    """The command of this name with the data of a child: one that adds or amends it."""
    return {"cmd": name, **{it: child.data[it] for it in rules.COMMANDS[name]}, **child.data}


def command_of_school(school: School) -> dict[str, Any]:
    """The command that adds a school with the data that it has."""
    return {"cmd": "add_school", "school": school.code, "name": school.name, "pan": school.pan,
            "east": school.east, "north": school.north, "criteria": list(school.criteria)}


def cells_of(child: Child, application: Application | None) -> dict[str, str]:
    """What a child has in each column of a file of applications. Without an application it has no
    day and no preferences.
    """
    values = dict(child.data)
    if application:
        values |= {"day": application.day.isoformat(), "preferences": application.preferences}
    return {it: texts.cell_of(values[it]) for it in COLUMNS if it in values}


def value_of(kind: str, text: str) -> Any:
    """The value of a field of this kind, of a cell that was read: texts.cell_of makes cells of
    these.
    """
    if kind.startswith(rules.LIST):
        item = kind.removeprefix(rules.LIST)
        return [value_of(item, it) for it in text.split(";") if it]
    if kind == "truth":
        return text == "yes"
    return int(text) if kind in NUMBERS else text
