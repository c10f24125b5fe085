"""The rules that the program states, and the words for them, each in a file of the office.

rules.json has limits, criteria, refusals, errors and fields: tools/reference prints it from the
program's source. words.json has what each refusal, error and kind of field means, and what to do.
"""
import dataclasses
import json
import re
from collections.abc import Mapping
from pathlib import Path
from typing import Any

HERE = Path(__file__).resolve().parents[1]
LIST = "list of "
HOLE = re.compile(r"\{(\w+)(?:\.(least|most|large))?\}")


@dataclasses.dataclass(frozen=True)
class Limit:
    """The least and the most of a number, or of how many there are."""

    least: int
    most: int

    def has(self, value: int) -> bool:
        """Whether a number is within it."""
        return self.least <= value <= self.most


@dataclasses.dataclass(frozen=True)
class Field:
    """A field of a command, or a column of an import: its kind, whether it may be omitted, and what
    it is then, as a command has it.
    """

    name: str
    kind: str
    is_optional: bool
    omitted: Any = None


@dataclasses.dataclass(frozen=True)
class Criterion:
    """A form of criteria: its text or prefix, the kind of what follows, its limit if any, and
    whether a large register alone may have it.
    """

    text: str
    value: str | None
    limit: Limit | None
    is_of_large: bool


def read(name: str) -> Any:
    return json.loads((HERE / name).read_text(encoding="utf-8"))


def fields_of(listed: list[dict[str, Any]]) -> dict[str, Field]:
    found = (Field(it["field"], it["kind"], it["optional"], it.get("omitted")) for it in listed)
    return {it.name: it for it in found}


RULES, WORDS = read("rules.json"), read("words.json")
LIMITS = {
    name: Limit(it["least"], it["most"])
    for name, it in RULES["limits"].items()
    if isinstance(it.get("most"), int)
}
# the limits of a large register that are not those of every register
LARGE = {
    name: Limit(it["least"], it["large"])
    for name, it in RULES["limits"].items()
    if "large" in it
}
COMMANDS = {name: fields_of(it) for name, it in RULES["commands"].items()}
COLUMNS = fields_of(RULES["columns"])
CRITERIA = [
    Criterion(
        it["text"], it.get("value"), Limit(it["least"], it["most"]) if "most" in it else None,
        it.get("large", False),
    )
    for it in RULES["criteria"]
]
CODE = re.compile(
    f"[{RULES['limits']['code']['characters']}]"
    f"{{{LIMITS['code'].least},{LIMITS['code'].most}}}"
)
CODE_IN_WORDS = f"{LIMITS['code'].least} to {LIMITS['code'].most} of A-Z and 0-9"


def has(name: str, is_large: bool) -> bool:
    """Whether a register of this size has any of a field: a limit of 0 is none."""
    return is_large or name not in LIMITS or LIMITS[name].most > 0


def filled(text: str, values: Mapping[str, str] | None = None) -> str:
    """A text with the limits that it names, and with these values, or general words for them."""

    def word(found: re.Match[str]) -> str:
        name, side = found.groups()
        if not side:
            return (values or {}).get(name) or str(WORDS["values"][name][0])
        value = RULES["limits"][name][side]
        return f"{value:,}" if isinstance(value, int) else str(value)

    return HOLE.sub(word, text)


def is_code(value: object) -> bool:
    """Whether a value is a school's code."""
    return isinstance(value, str) and bool(CODE.fullmatch(value))


def number_in(text: str, limit: Limit) -> int | None:
    """The number of a text in digits, without zeros before them, or None if it is outside of a
    limit."""
    # (the length first: no long text is made a number)
    is_number = len(text) <= len(str(limit.most)) and re.fullmatch("0|[1-9][0-9]*", text)
    return int(text) if is_number and limit.has(int(text)) else None


def value_in_words(name: str, *values: object) -> str:
    """The words for a value of a text: for several, those of a list."""
    _, one, *several = WORDS["values"][name]
    form: str = several[0] if several and len(values) > 1 else one
    return form.replace("{}", ", ".join(map(str, values)))


def kind_in_words(kind: str) -> str:
    """What a field of this kind must be."""
    return filled(WORDS["kinds"][kind])


def in_words(group: str, name: str, values: Mapping[str, str] | None = None) -> tuple[str, str]:
    """What a refusal or an error means, and what to do. The groups are those of words.json."""
    words = WORDS[group][name]
    return filled(words["means"], values), filled(words["do"], values)
