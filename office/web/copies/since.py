"""What came since a copy: each request of the history in words, and what the register has otherwise
than the copy.
"""
import collections
import dataclasses
from collections.abc import Iterator, Mapping

from office.core import child_fields, effects, texts, wording
from office.core.command_kinds import DRAWS
from office.core.model import Register
from office.web.register import lineage, records
from office.web.register.history import SENDS, Entry, History, says_done

BY_DRAW = "It is run again on the screen Rounds."
BY_HAND = "The application knows no command of it."


def since(record: History, position: int) -> list[Entry]:
    """The requests that the register has and that were sent after this entry of the history, in
    their order: those that are known to be done. `position` is that of a copy.
    """
    with record.lock:
        entries, restores = list(record.entries), list(record.restores)
    now, then = lineage.of(restores, len(entries)), lineage.of(restores, position)
    done = {it.about["of"] for it in entries if says_done(it)}
    return [it for it in entries if it.what == SENDS and it.number in done
            and it.number in now and it.number not in then]


def why_not(entry: Entry, with_draws: bool = False) -> str:
    """Why an entry cannot be sent again from here, or "". After a restore of IT support a draw is
    sent as it was held, with its lots.
    """
    if "line" in entry.about:
        return BY_HAND
    is_draw = entry.about.get("command", {}).get("cmd") in DRAWS
    return BY_DRAW if is_draw and not with_draws else ""


def in_words(entry: Entry, names: dict[int, str]) -> str:
    """What an entry recorded, with the child's name where it is known."""
    if "import" in entry.about:
        rows = len(effects.rows_of(entry.about["import"]))
        return texts.count(rows, "application") + " added from files"
    if "line" in entry.about:
        return f"a line that is no command: {texts.visible(entry.about['line'])}"
    command = entry.about["command"]
    if "child" not in command:
        return records.in_words(command)
    number = command["child"]
    name = names.get(number) or str(command.get("name", ""))
    return f"child {number} {name}: {records.in_words(command)}"


@dataclasses.dataclass(frozen=True)
class Difference:
    """What is otherwise: whose fact, which, and that of the register and of the copy."""

    whose: str
    what: str
    now: str
    then: str


def differences(now: Register, then: Register) -> list[Difference]:
    """What a register has otherwise than a copy, draws first, then schools and children."""
    return [*of_draws(now, then), *of_schools(now, then), *of_children(now, then)]


def of_draws(now: Register, then: Register) -> Iterator[Difference]:
    """The draws that only one has."""
    for number in range(1, max(len(now.draws), len(then.draws)) + 1):
        one, other = (draw_in(it, number) for it in (now, then))
        if one != other:
            yield Difference(f"Round or offer {number}", "", one or "none", other or "none")


def draw_in(register: Register, number: int) -> str:
    """A draw of a register, or ""."""
    if number > len(register.draws):
        return ""
    found = register.draws[number - 1]
    fresh = texts.count(sum(register.fresh[number].values()), "new offer")
    return f"{wording.draw_in_words(found)}, {wording.weekday(found.day)}: {fresh}"


def of_schools(now: Register, then: Register) -> Iterator[Difference]:
    """The schools with other facts."""
    for code in sorted({*now.schools, *then.schools}):
        one, other = (facts_of_school(it, code) for it in (now, then))
        yield from compared(f"School {code}", one, other)


def facts_of_school(register: Register, code: str) -> dict[str, str]:
    """What a register has of a school."""
    found = register.schools.get(code)
    return {} if found is None else {
        wording.label(name): texts.cell_of(value)
        for name, value in child_fields.command_of_school(found).items() if name != "cmd"}


def of_children(now: Register, then: Register) -> Iterator[Difference]:
    """The children with other facts."""
    left_now, left_then = gave_up(now), gave_up(then)
    for number in sorted({*now.children, *then.children}):
        one = facts_of_child(now, number, left_now)
        other = facts_of_child(then, number, left_then)
        name = (now.children.get(number) or then.children[number]).name
        yield from compared(f"Child {number} {name}", one, other)


def gave_up(register: Register) -> dict[int, str]:
    """The schools that each child declined, lost or left."""
    found: dict[int, list[str]] = collections.defaultdict(list)
    for number, code in sorted(register.left):
        found[number].append(code)
    return {number: ", ".join(it) for number, it in found.items()}


def facts_of_child(register: Register, number: int, left: Mapping[int, str]) -> dict[str, str]:
    """What a register has of a child: its data, its application, its place, and what it gave up."""
    child = register.children.get(number)
    if child is None:
        return {}
    cells = child_fields.cells_of(child, register.applications.get(number))
    place = wording.place(register, register.places.get(number))
    return {**{wording.label(name): it for name, it in cells.items()},
            "Place": place.removeprefix("The child has ").removeprefix("The child ").rstrip("."),
            "Declined, withdrawn or left": left.get(number, "")}


def compared(whose: str, now: dict[str, str], then: dict[str, str]) -> Iterator[Difference]:
    """The facts that differ; one line where only one has the school or the child."""
    if not now or not then:
        if now or then:
            known = "in the register", "not in the register"
            other = "in the copy" if then else "not in the copy"
            yield Difference(whose, "", known[not now], other)
        return
    for what in dict.fromkeys([*now, *then]):
        one, other = now.get(what, ""), then.get(what, "")
        if one != other:
            yield Difference(whose, what, one or "none", other or "none")
