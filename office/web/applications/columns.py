"""The columns of a file of applications: what is said of each where a file is added, and the empty
file to begin with.
"""
import dataclasses

from office.core import fields, rules, texts
from office.core.model import Register
from office.files import book

from . import gazetteer_rows
from .files import POINT
from .page import title_of

# by these columns of a file the points of homes are looked up
LOOKED_UP = texts.one_of([gazetteer_rows.NAMES[it][0] for it in ("property", "postcode")])
EXAMPLES = {"child": "1017", "name": "Ann Reed", "east": "412300", "north": "287450",
            "looked_after": "no", "flags": "2", "present": "PRIM7"}


@dataclasses.dataclass(frozen=True)
class Column:
    """A column: its name in the file, how the table calls it, an example, and if it may be left out
    in which case.
    """

    name: str
    title: str
    example: str
    left_out: str

    @property
    def is_required(self) -> bool:
        """Whether no file is read without it."""
        return self.name in fields.REQUIRED


def names(register: Register | None) -> list[str]:
    """Those that a register of this size takes."""
    is_large = register is not None and register.is_large
    return [it for it in fields.COLUMNS if rules.has(it, is_large)]


def columns(register: Register | None) -> list[Column]:
    """Each with an example by the schools and the closing day of the register."""
    return [Column(it, title_of(it), example(it, register), left_out(it)) for it in names(register)]


def example(name: str, register: Register | None) -> str:
    """What a file may have in a column."""
    if register and name == "day":
        return f"{register.days[0]:%d/%m/%Y}"
    if register and name in ("siblings", "preferences", "catchments"):
        return ";".join(list(register.schools)[:3 if name == "preferences" else 1])
    return EXAMPLES.get(name, "")


def left_out(name: str) -> str:
    """When a column may be left out, or ""."""
    if name in POINT:
        return f"if the file has {LOOKED_UP}"
    return "" if name in fields.REQUIRED else "yes"


def empty_file(register: Register | None) -> bytes:
    """An Excel file that has the names of the columns alone."""
    page = book.Page("Applications", "", [names(register)], is_text=True)
    return book.data([page], "Applications")
