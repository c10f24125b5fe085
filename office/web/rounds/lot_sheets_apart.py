"""Reads an uploaded sheet of lots in a process of its own (`processes`): whoever made the sheet
may have made it to fill memory and time.
"""
import io
import json

from register_files import Refused

from office.files import inputs
from office.files import processes as apart

from . import lot_sheets

# how messages name an uploaded file, whatever its name is
NAME = "the file"


def rows_of(data: bytes) -> tuple[list[tuple[int, list[str]]], list[str]]:
    """The rows of a sheet, each with its number, as code, number and lot; and the draws that it
    names.
    """
    inputs.taken(NAME, io.BytesIO(data))
    found = json.loads(apart.done(__name__, f"reading {NAME}", {}, data))
    if "refused" in found:
        raise Refused(found["refused"])
    return [(at, cells) for at, cells in found["rows"]], found["draws"]


def main() -> None:
    """What the other process does: it prints the rows, or why there are none."""
    found: dict[str, object]
    try:
        _, data = apart.given()
        found = {"rows": lot_sheets.rows_in(NAME, data), "draws": lot_sheets.draws_in(NAME, data)}
    except Refused as error:
        found = {"refused": str(error)}
    except MemoryError:
        found = {"refused": f"{NAME} takes too much memory"}
    print(json.dumps(found))
