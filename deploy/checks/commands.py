"""Commands of a register, as the checks send them."""

import json
from collections.abc import Iterable
from typing import Any

Command = dict[str, Any]


def school(code: str, name: str, pan: int, north: int, east: int = 0,
           criteria: Iterable[str] = ()) -> Command:
    """A new school, so many metres north and east of a point."""
    return {"cmd": "add_school", "school": code, "name": name, "pan": pan, "east": east,
            "north": north, "criteria": list(criteria)}


def child(number: int, name: str, north: int, east: int = 0, **more: object) -> Command:
    """A new child, whose home is so many metres north and east of that point."""
    return {"cmd": "add_child", **data(number, name, north, east), **more}


def amendment(number: int, name: str, north: int, east: int = 0, **more: object) -> Command:
    """New data of a child."""
    return {"cmd": "amend", **data(number, name, north, east), **more}


def data(number: int, name: str, north: int, east: int) -> Command:
    """The data of a child without anything that gives it a priority."""
    return {"child": number, "name": name, "east": east, "north": north, "looked_after": False,
            "flags": [], "siblings": []}


def application(number: int, *schools: str, day: str = "2024-10-31") -> Command:
    """What a child applies for."""
    return {"cmd": "apply", "child": number, "day": day, "preferences": list(schools)}


def round_of(draw: int, day: str, lots: Iterable[int]) -> Command:
    """A round with the lots of its pairs, in their order."""
    return {"cmd": "round", "draw": draw, "day": day, "lots": list(lots)}


def compact(command: Command) -> str:
    """A command in one line."""
    return json.dumps(command, separators=(",", ":"), ensure_ascii=False)


def named(name: object) -> str:
    """The command that names child 6 of the first register anew."""
    return compact(amendment(6, f"Fay Ford {name}", 300))


def lines_of(commands: Iterable[Command]) -> str:
    """A file of commands."""
    return "".join(json.dumps(it) + "\n" for it in commands)
