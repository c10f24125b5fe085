"""Schools as an office types them: rows of texts, the command of each, and what is wrong in it."""
import dataclasses
from collections.abc import Callable, Iterable, Iterator, Mapping, Sequence
from typing import Any

from register_files import Refused

from office.core import child_fields, commands, fields, rules, texts
from office.core.fields import Field
from office.core.model import Register, School
from office.core.rules import LIMITS
from office.core.wording import label
from office.files import header
from office.files.sheet import Row
from office.web.applications import across

Command = dict[str, Any]
Cells = dict[str, str]
COLUMNS = tuple(rules.COMMANDS["add_school"])
# other names that a sheet may have for a column
ALIASES = {
    "code": "school", "admission_number": "pan", "easting": "east", "northing": "north",
    "oversubscription_criteria": "criteria",
}
# the forms of criteria in a menu, where a value is typed beside it
KINDS = {
    "sibling": "a brother or sister at the school", "within:": "home within so many metres",
    "catchment": "home in the school’s catchment area", "feeder:": "from the feeder school",
}
FLAG = "flag:"
OF_LARGE = {it.text for it in rules.CRITERIA if it.is_of_large}


@dataclasses.dataclass(frozen=True)
class Line:
    """A school that is to be stored: its cells, and its command or what is wrong in which field;
    what is to be looked at all the same; and whether the register has it already, as it is here.
    """

    number: int
    cells: Cells
    command: Command | None
    wrong: dict[str, str]
    notes: tuple[str, ...] = ()
    is_there: bool = False


def code(text: str) -> Field:
    """The code of a school."""
    found = fields.trimmed(text).upper()
    if rules.is_code(found):
        return Field(found)
    return Field("", f"a code of {rules.CODE_IN_WORDS}{' (it is empty)' if not found else ''}")


def criterion(text: str, words: Mapping[int, str]) -> str:
    """A criterion as the register has it: also one by the words of its flag."""
    for number, said in words.items():
        if texts.folded(said) == texts.folded(text):
            return f"{FLAG}{number}"
    kind, colon, value = (it.strip() for it in text.partition(":"))
    return f"{kind.lower()}:{value.upper()}" if colon else kind.lower()


def criteria(text: str, words: Mapping[int, str]) -> Field:
    """The criteria of a school in their order."""
    found = [(it, criterion(it, words)) for it in fields.items(text)]
    wrong = [texts.shown(given) for given, it in found if not commands.is_criterion(it)]
    if wrong:
        are = "are no criteria" if len(wrong) > 1 else "is no criterion"
        return Field("", f"{texts.listed(wrong)} {are}: they are as {forms()}")
    return Field(";".join(it for _, it in found))


def forms() -> str:
    """The forms of criteria, each as an example."""
    return texts.listed(it.text + example(it) for it in rules.CRITERIA)


def example(form: rules.Criterion) -> str:
    """What may follow the prefix of a criterion."""
    if form.value == "number":
        return str(min(1500, form.limit.most if form.limit else 1500))
    return "PRIM7" if form.value else ""


READERS: dict[str, Callable[[str, Mapping[int, str]], Field]] = {
    "school": lambda text, _: code(text),
    "name": fields.name,
    "pan": lambda text, _: fields.number(text, LIMITS["pan"], "the admission number"),
    "east": lambda text, _: fields.number(text, LIMITS["east"], "the point"),
    "north": lambda text, _: fields.number(text, LIMITS["north"], "the point"),
    "criteria": criteria,
}


def read(cells: Cells, words: Mapping[int, str]) -> tuple[Command | None, dict[str, str]]:
    """The command of a school's cells, or what is expected in which field."""
    found = {it: READERS[it](cells.get(it, ""), words) for it in COLUMNS}
    wrong = {it: field.expected for it, field in found.items() if field.expected}
    if wrong:
        return None, wrong
    kinds = rules.COMMANDS["add_school"]
    values = {it: child_fields.value_of(kinds[it].kind, found[it].text) for it in COLUMNS}
    command = {"cmd": "add_school", **values}
    # (the other numbers are within their limits)
    said = "; ".join(commands.outside(command))
    return (None, {"criteria": said}) if said else (command, {})


def cells_of(school: School) -> Cells:
    """A school of a register as cells."""
    return cells_of_command(child_fields.command_of_school(school))


def cells_of_command(command: Command) -> Cells:
    """A school that is to be added as cells, of which each is read alike whatever flags mean."""
    return {it: texts.cell_of(command[it]) for it in COLUMNS}


def lines_of(
    given: Iterable[tuple[int, Cells]], known: Mapping[str, School], words: Mapping[int, str],
    is_large: bool = False,
) -> list[Line]:
    """The lines of a draft, compared with the schools of the register and with one another."""
    read_lines = [(number, cells, *read(cells, words)) for number, cells in given]
    codes = [command["school"] for _, _, command, _ in read_lines if command]
    found = []
    for number, cells, command, wrong in read_lines:
        there = known.get(command["school"]) if command else None
        is_there = there is not None and child_fields.command_of_school(there) == command
        if command and there and not is_there:
            other = differences(there, command)
            wrong = {"school": f"the register has this school with other data: {other}"}
        if command and not is_large and OF_LARGE.intersection(command["criteria"]):
            wrong = {"criteria": "only a large register has catchment areas"}
        if command and codes.count(command["school"]) > 1:
            wrong = {"school": "another line has this code too"}
        is_right = command is not None and not wrong
        notes = tuple(notes_of(command, read_lines, known)) if is_right and command else ()
        found.append(Line(number, cells, command if is_right else None, wrong, notes, is_there))
    return found


def see_count(lines: list[Line], register: Register) -> None:
    """Refuses more schools than a register can have."""
    count = len(register.schools) + sum(not it.is_there for it in lines)
    most = register.most("schools")
    if count > most:
        raise Refused(f"this register has at most {most:,} schools, and with these it would have"
                      f" {count:,}: remove some")


def differences(school: School, command: Command) -> str:
    """How a school of the register differs from a command that adds it."""
    present = child_fields.command_of_school(school)
    return "; ".join(f"{label(it)} {texts.cell_of(present[it]) or 'none'} there,"
                     f" {texts.cell_of(command[it]) or 'none'} here"
                     for it in COLUMNS if present[it] != command[it])


def notes_of(
    command: Command, others: Sequence[tuple[int, Cells, Command | None, dict[str, str]]],
    known: Mapping[str, School],
) -> Iterator[str]:
    """What looks wrong in a school, though it can be stored."""
    if len(set(command["criteria"])) < len(command["criteria"]):
        yield "a criterion is there twice"
    schools = [child_fields.command_of_school(it) for it in known.values()]
    all_others = [it for it in (*schools, *(other for _, _, other, _ in others if other))
                  if it["school"] != command["school"]]
    if all_others and min(metres_between(command, it) for it in all_others) > across.FAR_METRES:
        yield (f"it is more than {across.FAR_METRES // 1000} km from every other school: are east"
               " and north right?")
    for it in all_others:
        if (it["east"], it["north"]) == (command["east"], command["north"]):
            yield f"{it['school']} has the same point on the map"
        if texts.folded(it["name"]) == texts.folded(command["name"]):
            yield f"{it['school']} has the same name"


def metres_between(one: Command, other: Command) -> int:
    """How far two schools are from each other."""
    return int(texts.metres(one["east"] - other["east"], one["north"] - other["north"]))


def rows_of(rows: Sequence[Row]) -> list[Cells]:
    """The schools of a sheet: its columns are the fields of a school, in any order."""
    if not rows:
        raise Refused("the file has no row")
    names = [header.plain(it) for it in rows[0].cells]
    names = [ALIASES.get(it, it) for it in names]
    missing = [it for it in COLUMNS if it not in names]
    if missing:
        raise Refused(f"the first row must have the columns {texts.listed(COLUMNS)};"
                      f" {texts.listed(missing)} {'is' if len(missing) == 1 else 'are'} missing")
    twice = [it for it in COLUMNS if names.count(it) > 1]
    if twice:
        raise Refused(f"the first row has {texts.listed(twice)} twice")
    if len(rows) == 1:
        raise Refused("the file has no school below its first row")
    at = {it: names.index(it) for it in COLUMNS}
    return [{it: row.cells[at[it]].strip() if at[it] < len(row.cells) else "" for it in COLUMNS}
            for row in rows[1:]]


def menu(words: Mapping[int, str], is_large: bool) -> list[tuple[str, str]]:
    """The criteria of a menu: the form, and its words. Each flag is one of its own."""
    found = [("", "–")]
    for it in rules.CRITERIA:
        if it.is_of_large and not is_large:
            continue
        if it.text == FLAG and it.limit:
            numbers = range(it.limit.least, it.limit.most + 1)
            found += [(f"{FLAG}{at}", f"verified reason {at}"
                       + (f": {words[at]}" if at in words else "")) for at in numbers]
        else:
            found.append((it.text, KINDS.get(it.text, it.text)))
    return found


def chosen(text: str, words: Mapping[int, str]) -> list[tuple[str, str]]:
    """The criteria of a cell as menus have them: the form, and the value typed beside it."""
    found = []
    for given in fields.items(text):
        read_as = criterion(given, words)
        it = read_as if commands.is_criterion(read_as) else given
        kind, colon, value = it.partition(":")
        is_flag = kind + colon == FLAG
        found.append((it, "") if is_flag or not colon else (kind + colon, value))
    return found[:LIMITS["criteria"].most]


def of_menus(kinds: Sequence[str], values: Sequence[str]) -> str:
    """The cell of criteria that were chosen from menus. A value beside none, or beside one that
    takes none, stays to be seen.
    """
    found = []
    for kind, value in zip(kinds, values):
        value = value.strip()
        between = ":" if kind and value and not kind.endswith(":") else ""
        found.append(kind + between + value)
    return ";".join(filter(None, found))
