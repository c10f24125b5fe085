"""The town of the season: its schools, its children and the Excel files of the office, with ten
rows in which something is wrong.
"""
import dataclasses
import datetime
import pathlib
import random
from collections.abc import Iterable, Mapping
from typing import Any

import openpyxl

from .allocation import Child, School

COLUMNS = ("child", "name", "east", "north", "looked_after", "flags", "siblings", "day",
           "preferences", "present")
SCHOOL_COLUMNS = ("school", "name", "pan", "east", "north", "criteria")
FLAG_WORDS = {1: "medical need", 2: "child of a member of staff"}
SCHOOLS = (
    School("A", "Abbey School", 8, 2600, 2500, ("sibling", "flag:2", "within:1500")),
    School("BEECH", "Beech Tree School", 7, 4100, 1200, ("sibling", "within:1000")),
    School("C", "St Cuthbert’s", 6, 1200, 4000, ("feeder:PRIM7", "sibling")),
    School("DEAN", "Dean Park School", 9, 5200, 4300),
    School("ELM", "Elm Grove School", 6, 800, 900, ("within:800",)),
    School("FERN", "Ysgol y Rhedyn, Tŷ Gwyn", 8, 3200, 4600, ("flag:1", "flag:2", "sibling")),
)
GIVEN = ("Aled", "Béatrice", "Chloë", "Dai", "Efa", "Farid", "Grace", "Huw", "Iona", "José")
FAMILIES = ("Abel", "Brontë", "Cole", "D’Arcy", "Evans", "Ó Briain")
# the last numbers of a season's applications, of which the town has some
MOST_NUMBER = 140
LATE = (5, 9)


@dataclasses.dataclass(frozen=True)
class Fault:
    """A cell of the office's Excel file in which something is wrong, and what the screen must say
    of it.
    """

    column: str
    given: Any
    said: str


# of ten rows, in their order: the other cells of these rows are right
FAULTS = (
    Fault("name", None, "The name is missing."),
    Fault("day", "31/11/{year}", "There is no such day."),
    Fault("preferences", "A;ELK", "There is no school ELK."),
    Fault("preferences", "FERN;A;FERN", "FERN is listed twice."),
    Fault("east", "1,250", "Write 1250, without commas."),
    Fault("looked_after", "perhaps", "Write yes or no."),
    Fault("flags", "16", "Reason 16 is none of 1, 2."),
    Fault("siblings", "OAK", "There is no school OAK."),
    Fault("north", "=2400+50", "is a formula that was never calculated."),
)
DOUBLED = "Also in row "


def children(closing: datetime.date) -> list[Child]:
    """Sixty children, by their numbers. Some homes are as far from a school as another one, and six
    are in one house: there only a lot decides.
    """
    drawn = random.Random("a town")
    numbers = sorted(drawn.sample(range(1, MOST_NUMBER), len(GIVEN) * len(FAMILIES)))
    names = [f"{given} {family}" for family in FAMILIES for given in GIVEN]
    drawn.shuffle(names)
    found: list[Child] = []
    for at, (number, name) in enumerate(zip(numbers, names)):
        late = LATE[at - 40] if at in (40, 41) else -drawn.randrange(60)
        found.append(Child(
            number, name, *home(drawn, at, found), closing + datetime.timedelta(days=late),
            preferences(drawn), looked_after=at in (7, 31), flags=flags(drawn),
            siblings=siblings(drawn), present="PRIM7" if drawn.random() < 0.2 else ""))
    return found


def home(drawn: random.Random, at: int, others: list[Child]) -> tuple[int, int]:
    """A home: in the house of some; as far from the first school as the child before; or anywhere.
    """
    if 20 <= at < 26:
        return 3000, 3100
    if at % 4 == 3:
        return 2 * SCHOOLS[0].east - others[-1].east, others[-1].north
    return drawn.randrange(300, 4900), drawn.randrange(300, 4900)


def preferences(drawn: random.Random) -> tuple[str, ...]:
    """A list of schools: the first ones of the town are wanted more than the others."""
    codes = [it.code for it in SCHOOLS]
    weight = {code: drawn.random() * (len(codes) + 4 - at) for at, code in enumerate(codes)}
    codes.sort(key=lambda it: -weight[it])
    return tuple(codes[:drawn.randrange(2, 5)])


def flags(drawn: random.Random) -> tuple[int, ...]:
    """The flags of a child."""
    return tuple(it for it in FLAG_WORDS if drawn.random() < 0.1)


def siblings(drawn: random.Random) -> tuple[str, ...]:
    """The schools of a child's siblings."""
    return tuple(it.code for it in SCHOOLS if drawn.random() < 0.05)


def cells_of(child: Child) -> dict[str, Any]:
    """A row as an office has it in a spreadsheet: words, numbers and days."""
    return {
        "child": child.number, "name": child.name, "east": child.east, "north": child.north,
        "looked_after": "Yes" if child.looked_after else "No",
        "flags": ";".join(map(str, child.flags)), "siblings": ";".join(child.siblings),
        "day": child.day, "preferences": ";".join(child.preferences),
        "present": child.present,
    }


def texts_of(child: Child) -> dict[str, str]:
    """The same as it is typed."""
    cells = cells_of(child) | {"day": child.day.isoformat()}
    return {name: str(it) for name, it in cells.items()}


def wrong_rows(given: list[Child]) -> list[tuple[Child, Fault]]:
    """The children of the rows in which a cell is wrong."""
    return list(zip(given[2::5], FAULTS))


def doubled(given: list[Child]) -> Child:
    """The child that is in the Excel file twice, the second time with another home."""
    return dataclasses.replace(given[12], east=given[12].east + 100)


def rows(given: list[Child]) -> list[dict[str, Any]]:
    """The rows of the office's Excel file, with all that is wrong in them."""
    found = {it.number: cells_of(it) for it in given}
    for child, fault in wrong_rows(given):
        year = child.day.year
        value = fault.given.format(year=year) if isinstance(fault.given, str) else fault.given
        found[child.number][fault.column] = value
    return [*found.values(), cells_of(doubled(given))]


def write(path: pathlib.Path, columns: Iterable[str], lines: Iterable[Mapping[str, Any]]) -> None:
    """Writes an Excel file of one sheet."""
    book = openpyxl.Workbook()
    page = book.active
    names = list(columns)
    page.append(names)
    for line in lines:
        page.append([line[it] for it in names])
    book.save(path)


def write_schools(path: pathlib.Path) -> None:
    """Writes the Excel file of the schools."""
    write(path, SCHOOL_COLUMNS, (
        {"school": it.code, "name": it.name, "pan": it.pan, "east": it.east, "north": it.north,
         "criteria": ";".join(it.criteria)} for it in SCHOOLS))


def fill_lots(path: pathlib.Path, lots: Mapping[tuple[str, int], int]) -> int:
    """Writes lots into the sheet that a supervisor was given, and returns how many."""
    book = openpyxl.load_workbook(path)
    page = book.active
    head = [str(it.value).lower() for it in page[1]]
    code, child, lot = (head.index(it) for it in ("school", "child", "lot"))
    filled = 0
    for row in page.iter_rows(min_row=2):
        pair = str(row[code].value), int(row[child].value)
        if pair in lots:
            row[lot].value = lots[pair]
            filled += 1
    book.save(path)
    return filled
