"""Sheets that somebody sent to the application, read in a process of its own (`processes`)."""
import json
from typing import Any

from register_files import Refused

from . import processes, sheet
from .sheet import Row, Sheet


def read(name: str, data: bytes, wanted: str | None, advice: str) -> Sheet:
    """The sheet of a file that was sent, or the refusal that a command would print. `wanted` and
    `advice` are as for a file that is read here.
    """
    asked = {"name": name, "wanted": wanted, "advice": advice}
    return taken(json.loads(processes.done(__name__, f"reading {name}", asked, data)))


def taken(found: dict[str, Any]) -> Sheet:
    """The sheet of an answer, or its refusal."""
    if "refused" in found:
        raise Refused(found["refused"])
    rows = [Row(number, cells) for number, cells in found.pop("rows")]
    problems = [(row, at, text, is_error) for row, at, text, is_error in found.pop("problems")]
    return Sheet(rows, problems=problems, **found)


def answer(asked: dict[str, Any], data: bytes) -> dict[str, Any]:
    """What is found in a file."""
    name = asked["name"]
    try:
        found = sheet.of_bytes(name, data, asked["wanted"], asked["advice"])
    except Refused as error:
        return {"refused": str(error)}
    except MemoryError:
        return {"refused": f"{name} takes too much memory"}
    return {**vars(found), "rows": [(it.number, it.cells) for it in found.rows]}


def main() -> None:
    """Reads what is asked and the file, and prints the answer."""
    print(json.dumps(answer(*processes.given())))
