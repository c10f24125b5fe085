"""What was changed since the applications were added to the register that moves a class, a distance
or a limit of a draw: one person records it alone, and who confirms the draw reads it.
"""
import dataclasses
from collections.abc import Iterator

from office.core import effects, rules
from office.core.command_kinds import WHOLE
from office.core.model import Register
from office.web.register import entry_words, records
from office.web.register.history import Entry, History

from .terms import Terms

# of the data of a child all but its name
FIELDS = tuple(it for it in rules.COMMANDS["amend"] if it not in ("child", "name"))


@dataclasses.dataclass(frozen=True)
class Change:
    """A change: of a child or, without one, of a school; in words; by whom, and the moment; and who
    recorded it first, if it was sent again after a restore, or "".
    """

    child: int | None
    said: str
    who: str
    at: str
    first: str


def changes(record: History, register: Register, terms: Terms) -> list[Change]:
    """The changes that concern a draw: those of its schools, and then by child."""
    pairs = terms.pairs_in(register)
    schools, children = {code for code, _ in pairs}, {child for _, child in pairs}
    found = [it for code, it in all_of(reversed(list(record.done())))
             if (code in schools if code else it.child in children)]
    return sorted(found, key=lambda it: (it.child or 0, it.at))


def all_of(entries: Iterator[Entry]) -> Iterator[tuple[str, Change]]:
    """All changes of requests that are done, the first one first, with the code of the school whose
    limit they move, or "".
    """
    data: dict[int, records.Command] = {}
    numbers: dict[str, int] = {}
    is_stored = False
    for it in entries:
        command = it.about.get("command", {})
        name, child, code = (command.get(one) for one in ("cmd", "child", "school"))
        is_stored = is_stored or "import" in it.about or name == "apply"
        if "import" in it.about:
            data.update((int(row["child"]), row) for row in effects.rows_of(it.about["import"])
                        if (row.get("child") or "").strip().isdecimal())
        said = ""
        if name == "amend":
            said = "; ".join(entry_words.changes(data[child], command, fields=FIELDS)) if (
                child in data) else "details corrected; those before are not in the history"
        elif name == "raise_pan":
            was = f" from {numbers[code]}" if code in numbers else ""
            said = f"admission number of {code} raised{was} to {command['pan']}"
        elif name == "name_plan":
            said = records.in_words(command)
        if said and is_stored:
            yield (code or "", Change(child, said, it.who, it.at, records.first_by(it)))
        if name in WHOLE:
            data[child] = command
        elif name in ("add_school", "raise_pan"):
            numbers[code] = command["pan"]
