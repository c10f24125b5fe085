"""What the second program says of a draw, as a person reads it: the places of each school, the last
child that has one, and the children who rank behind; with criteria, schools and children by name.
"""
import dataclasses
import re
from collections.abc import Iterator, Mapping, Sequence

from office.core import criteria
from office.core.model import Register

# the lines of an audit: of a school in a round, of a fill, and of a child with a key
KEY = r"class (\d+), (\d+) metres, lot (\d+)"
ROUND = re.compile(rf"School (\S+): places (\d+), children (\d+)(?:, the last child (\d+), {KEY})?")
FILL = re.compile(r"Fill of (\S+), draw \d+, \S+: places (\d+), held (\d+), .*")
FIRST = re.compile(rf"Offered to child (\d+), {KEY}")
BEHIND = re.compile(rf"  (?:turned away|after it) child (\d+), {KEY}: by (.*)")
# the first lines of a round, whose numbers its page has
COUNTS = re.compile(r"Round \d+, draw \d+, .*|Offers \d+, kept \d+, unplaced \d+")
DECIDED = {"class": "the criterion", "distance": "the distance", "lot": "the lot"}


@dataclasses.dataclass(frozen=True)
class Ranked:
    """A child at a school: how it is called, and how it ranks there; and if it ranks behind the
    last one that has a place, what decided.
    """

    child: int
    name: str
    criterion: str
    metres: int
    lot: int
    by: str = ""


@dataclasses.dataclass
class AtSchool:
    """A school: its places, how many children have one, the last of them by rank, and the children
    behind who would rather have a place there.
    """

    code: str
    name: str
    places: int
    has: int
    last: Ranked | None = None
    behind: list[Ranked] = dataclasses.field(default_factory=list)


@dataclasses.dataclass(frozen=True)
class Shown:
    """An audit: its schools, and the sentences that it has beside them, of which the last one of an
    audit that agrees is the conclusion.
    """

    schools: list[AtSchool]
    said: list[str]


def shown(lines: Sequence[str], register: Register, flags: Mapping[int, str]) -> Shown:
    """The lines of an audit in words. One that is not known here stays as it is."""
    schools: list[AtSchool] = []
    said: list[str] = []

    def ranked(found: Sequence[str], by: str = "") -> Ranked:
        child, number, metres, lot = map(int, found)
        named = register.children.get(child)
        return Ranked(child, named.name if named else "",
                      criteria.in_brief(register.schools[schools[-1].code], number, flags),
                      metres, lot, DECIDED.get(by, by))

    for line in lines:
        if it := ROUND.fullmatch(line) or FILL.fullmatch(line):
            school = register.schools.get(it[1])
            if school is None:
                said.append(line)
                continue
            schools.append(AtSchool(it[1], school.name, int(it[2]), int(it[3])))
            if it.re is ROUND and it[4]:
                schools[-1].last = ranked(it.groups()[3:])
        elif schools and (it := FIRST.fullmatch(line)):
            schools[-1].last = ranked(it.groups())
        elif schools and (it := BEHIND.fullmatch(line)):
            schools[-1].behind.append(ranked(it.groups()[:4], it[5]))
        elif not COUNTS.fullmatch(line):
            said.append(f"{line}.")
    return Shown(schools, said)


def text(audits: Sequence[Sequence[str]]) -> str:
    """The lines of audits as the second program printed them."""
    return "".join(f"{line}\n" for lines in audits for line in lines)


def listed(audits: Sequence[Shown], code: str) -> Iterator[AtSchool]:
    """A school in the audits of a row of draws."""
    return (it for found in audits for it in found.schools if it.code == code)
