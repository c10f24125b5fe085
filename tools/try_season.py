"""The season of an authority that does not exist, drawn from one seed: eight schools with all kinds
of criteria, and fifteen hundred children of a town by the sea.
"""
import csv
import dataclasses
import datetime
import io
import math
import random
from collections.abc import Iterable, Iterator, Sequence

NAME, AUTHORITY, SEED = "secondary-2027", "Ashdown Council", "Ashdown 2027"
PHASE, YEAR = "secondary", "2027"
CLOSING = datetime.date(2026, 10, 31)
OFFER_DAY = "2027-03-01"
COLUMNS = ("child", "name", "east", "north", "looked_after", "flags", "siblings", "day",
           "preferences", "present")
FLAG_WORDS = {
    1: "medical or social need", 2: "baptised Catholic", 3: "lives in the catchment of Cliff Road",
    4: "child of staff of Ashdown High", 5: "child of staff of Castle Academy",
}
OFFICE = {
    "office": f"{AUTHORITY}, School Admissions", "address": "County Hall\nAshdown AS1 1AA",
    "telephone": "01632 960001", "email": "admissions@ashdown.example",
    "website": "www.ashdown.example", "signs": "Harriet Lowe, Head of Admissions",
}


# how many children there are: all, those of the first file, and those in time
CHILDREN, FIRST, IN_TIME = 1500, 1330, 1460


@dataclasses.dataclass(frozen=True)
class School:
    """A school: its code, name and admission number, where it is in metres, its criteria, and how
    much families want it.
    """

    code: str
    name: str
    pan: int
    east: int
    north: int
    criteria: tuple[str, ...]
    wanted: float


SCHOOLS = (
    School("HIGH", "Ashdown High School", 240, 6000, 5200,
           ("flag:1", "sibling", "flag:4", "within:2500"), 1.6),
    School("CASTLE", "Castle Academy", 210, 7400, 3900, ("sibling", "feeder:PRIM03", "flag:5"),
           1.4),
    School("CLIFF", "Cliff Road School", 180, 9800, 2200, ("flag:3", "sibling"), 1.0),
    School("CUTHBERT", "St Cuthbert’s Catholic School", 150, 4900, 6800,
           ("flag:2", "sibling", "feeder:PRIM07"), 1.1),
    School("DEAN", "Dean Park School", 210, 3100, 3300, ("sibling", "within:1800"), 0.9),
    School("FERN", "Ysgol y Rhedyn, Tŷ Gwyn", 120, 2200, 7600, ("sibling", "feeder:PRIM11"), 0.6),
    School("MARSH", "Marsh Lane Community College", 180, 8600, 7100, (), 0.7),
    School("QUAY", "Quayside School", 150, 11200, 4300, ("flag:1", "within:1200", "sibling"), 0.8),
)
PRIMARIES = tuple(f"PRIM{at:02}" for at in range(1, 17))
GIVEN = (
    "Aaliyah", "Aisha", "Alfie", "Amelia", "Anaïs", "Arjun", "Ava", "Béatrice", "Charlie", "Chloë",
    "Daisy", "Dylan", "Efa", "Elin", "Ethan", "Eve", "Farah", "Finley", "Freya", "George", "Grace",
    "Harper", "Hasan", "Huw", "Ibrahim", "Ioan", "Isla", "Jack", "José", "Kacper", "Layla", "Leo",
    "Lily", "Łucja", "Maja", "Mason", "Megan", "Mohammed", "Nia", "Niamh", "Noah", "Nour",
    "Oisín", "Oliver", "Olivia", "Osian", "Poppy", "Priya", "Rhys", "Rosie", "Ruby", "Samuel",
    "Seren", "Siân", "Sofía", "Sophie", "Teddy", "Thomas", "Tomos", "William", "Yusuf", "Zara",
    "Zoë", "Żaneta",
)
FAMILIES = (
    "Abbott", "Adeyemi", "Ahmed", "Ali", "Baker", "Begum", "Bennett", "Brontë", "Brown", "Carter",
    "Clarke", "Cooper", "D’Arcy", "Davies", "Edwards", "Evans", "Fernández", "Fletcher", "Green",
    "Griffiths", "Hall", "Hughes", "Hussain", "Jackson", "James", "Jones", "Kaur", "Khan",
    "Kowalski", "Lewis", "Llewellyn", "Mac an Ghoill", "Malik", "Mehta", "Mitchell", "Morgan",
    "Murphy", "Müller", "Nguyễn", "Nowak", "O’Brien", "Ó Briain", "Okafor", "Osei", "Owen",
    "Parry", "Patel", "Pritchard", "Reid", "Roberts", "Rowlands", "Sánchez", "Shah", "Singh",
    "Smith-Jones", "Taylor", "Thomas", "Walker", "White", "Williams", "Wójcik", "Wright", "Young",
)


@dataclasses.dataclass(frozen=True)
class Child:
    """A child as its family has applied."""

    number: int
    name: str
    home: tuple[int, int]
    looked_after: bool
    flags: tuple[int, ...]
    siblings: tuple[str, ...]
    day: datetime.date
    preferences: tuple[str, ...]
    present: str

    @property
    def cells(self) -> dict[str, str]:
        """Its row in a file."""
        return {
            "child": str(self.number), "name": self.name, "east": str(self.home[0]),
            "north": str(self.home[1]), "looked_after": "yes" if self.looked_after else "no",
            "flags": ";".join(map(str, self.flags)), "siblings": ";".join(self.siblings),
            "day": self.day.isoformat(), "preferences": ";".join(self.preferences),
            "present": self.present,
        }


def children() -> list[Child]:
    """All children by their numbers: the last ones have applied too late."""
    drawn = random.Random(SEED)
    towns = [(drawn.randrange(1500, 11500), drawn.randrange(1500, 8200)) for _ in PRIMARIES]
    found: list[Child] = []
    for at in range(CHILDREN):
        place = drawn.randrange(len(towns))
        home = home_near(drawn, towns[place], found)
        late = drawn.randrange(5, 80) if at >= IN_TIME else -drawn.randrange(50)
        flags = flags_of(drawn, home)
        found.append(Child(
            2001 + at, f"{drawn.choice(GIVEN)} {drawn.choice(FAMILIES)}", home,
            drawn.random() < 0.012, flags, siblings_of(drawn, home),
            CLOSING + datetime.timedelta(days=late),
            wanted_by(drawn, home, flags), PRIMARIES[place] if drawn.random() < 0.93 else ""))
    return found


def home_near(
    drawn: random.Random, town: tuple[int, int], others: Sequence[Child],
) -> tuple[int, int]:
    """A home around a primary school; at times that of another child, as in a house of flats."""
    if others and drawn.random() < 0.03:
        return others[-drawn.randrange(1, min(30, len(others)) + 1)].home
    return (max(100, int(drawn.gauss(town[0], 700))), max(100, int(drawn.gauss(town[1], 700))))


def distance(home: tuple[int, int], school: School) -> float:
    """From a home to a school, in metres."""
    return math.dist(home, (school.east, school.north))


def flags_of(drawn: random.Random, home: tuple[int, int]) -> tuple[int, ...]:
    """What the office has verified of a child."""
    chances = {1: 0.015, 2: 0.09, 3: 0.85 if distance(home, SCHOOLS[2]) < 2200 else 0.0,
               4: 0.008, 5: 0.008}
    return tuple(it for it, chance in chances.items() if drawn.random() < chance)


def siblings_of(drawn: random.Random, home: tuple[int, int]) -> tuple[str, ...]:
    """The schools of a child's brothers and sisters, which are not far."""
    near = sorted(SCHOOLS, key=lambda it: distance(home, it))[:3]
    return (drawn.choice(near).code,) if drawn.random() < 0.22 else ()


def wanted_by(
    drawn: random.Random, home: tuple[int, int], flags: tuple[int, ...],
) -> tuple[str, ...]:
    """Three to six schools in a family's order: what is near, and what many want."""
    def worth(it: School) -> float:
        faith = 1.0 if it.code == "CUTHBERT" and 2 in flags else 0.0
        return it.wanted + faith + drawn.gauss(0, 0.45) - distance(home, it) / 2600

    order = sorted(SCHOOLS, key=worth, reverse=True)
    return tuple(it.code for it in order[:drawn.choice((3, 3, 4, 4, 5, 6))])


def with_faults(given: Iterable[Child]) -> Iterator[dict[str, str]]:
    """The rows of a file in which some cells are wrong, as families and offices write them."""
    faults = (
        {"name": ""}, {"day": "31/11/2026"}, {"preferences": "HIGH;CASLE"}, {"east": "7,250"},
        {"looked_after": "perhaps"}, {"flags": "16"}, {"preferences": "DEAN;HIGH;DEAN"},
        {"siblings": "OAKS"}, {"north": ""},
    )
    rows = list(given)
    apart = len(rows) // len(faults)
    for at, it in enumerate(rows):
        is_wrong = at % apart == 0 and at // apart < len(faults)
        yield {**it.cells, **(faults[at // apart] if is_wrong else {})}


def csv_of(columns: Sequence[str], rows: Iterable[dict[str, str]]) -> bytes:
    """A CSV."""
    text = io.StringIO()
    writer = csv.DictWriter(text, columns, lineterminator="\n")
    writer.writeheader()
    writer.writerows(rows)
    return text.getvalue().encode()


def schools_sheet() -> bytes:
    """The schools as a CSV."""
    rows = ({"school": it.code, "name": it.name, "pan": str(it.pan),
             "east": str(it.east), "north": str(it.north), "criteria": ";".join(it.criteria)}
            for it in SCHOOLS)
    return csv_of(("school", "name", "pan", "east", "north", "criteria"), rows)


def lots_sheet(pairs: bytes) -> bytes:
    """The supervisor's sheet with a lot for each pair, as slips of a hat give them."""
    drawn = random.Random(f"{SEED}, lots")
    rows = list(csv.DictReader(io.StringIO(pairs.decode("utf-8-sig"))))
    for row, lot in zip(rows, drawn.sample(range(1, 1_000_000), len(rows))):
        row["lot"] = str(lot)
    return csv_of(("school", "child", "lot"), rows)


def answers(offered: Iterable[tuple[int, str]], days: int) -> list[list[str]]:
    """What families answer on each of so many working days, as rows of the child's number, its
    name and the answer. Some have not written.
    """
    drawn = random.Random(f"{SEED}, answers")
    found: list[list[str]] = [[] for _ in range(days)]
    for number, name in offered:
        luck, day = drawn.random(), min(days - 1, int(drawn.expovariate(0.3)))
        if luck < 0.62:
            found[day].append(f"{number},{name},{'accept' if luck < 0.58 else 'decline'}")
    return found
