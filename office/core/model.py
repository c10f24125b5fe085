"""A register as the program shows it: season, schools, children, applications, places and draws.

Classes, distances, positions, vacancies, the days of the season, and the last child that a draw
took in and why others were refused are the program's: it works them out, and nothing here does. A
register is read from a file, of which the program opens a copy, or
from a server, by the address at which it is served.
"""
import copy
import dataclasses
import datetime
import functools
import json
import operator
import os
import subprocess
import tempfile
from collections.abc import Iterable, Iterator, Sequence
from typing import Any, NamedTuple, Protocol

import register_files as files
from register_files import Refused

from . import rules, senders, texts

PRIMARY, SECONDARY = "primary", "secondary"
OFFERED, ACCEPTED, PLAN = "offered", "accepted", "plan"
# what became of a preference: the place is there; the child left it; no round yet; below; it waits
HELD, LEFT, BEFORE, BELOW, WAITS = "place", "left", "before", "below", "waits"
# what put a refused child after the last one that a draw took in at a school
CLASS, DISTANCE, LOT, NOBODY = "class", "distance", "lot", "nobody"
REASONS = (CLASS, DISTANCE, LOT, NOBODY, None)
# the members of a child that are not fields of commands, and what a field is that is not shown
NO_DATA = ("application", "left", "place")
OMITTED = {it.name: it.omitted for it in rules.COMMANDS["amend"].values() if it.is_optional}
# the members of a preference that each has
RANKED = operator.itemgetter("school", "class", "metres", "state")
Pair = tuple[str, int]
Lots = dict[Pair, int]


@dataclasses.dataclass(frozen=True)
class School:
    """A school: its admission number, its point in metres, its criteria in their order; and how
    many places are held by plans, how many are held at all and vacant, and how many wait.
    """

    code: str
    name: str
    pan: int
    east: int
    north: int
    criteria: tuple[str, ...]
    plans: int = dataclasses.field(default=0, compare=False)
    taken: int = dataclasses.field(default=0, compare=False)
    vacancies: int = dataclasses.field(default=0, compare=False)
    waiting: int = dataclasses.field(default=0, compare=False)


class Child(NamedTuple):
    """A child: its home in metres, its flags as numbers, the codes of its siblings' schools, its
    present school or "", and its catchment schools; and all its data by the names of the fields of
    commands.
    """

    number: int
    name: str
    east: int
    north: int
    looked_after: bool
    flags: tuple[int, ...]
    siblings: tuple[str, ...]
    present: str
    catchments: tuple[str, ...]
    data: dict[str, Any]


class Preference(NamedTuple):
    """How a child ranks at a school of its list (class, whole metres), what became of that, and
    its position among those who wait there, if it waits.
    """

    number: int
    metres: int
    state: str
    position: int | None = None
    of: int | None = None


@dataclasses.dataclass(frozen=True)
class Application:
    """When a child applied, and for which schools, best first, each with what came of it. These
    stay as the document has them until they are wanted: most readers want those of a few children.
    """

    day: datetime.date
    preferences: tuple[str, ...]
    rows: list[dict[str, Any]] = dataclasses.field(repr=False)

    @functools.cached_property
    def listed(self) -> dict[str, Preference]:
        """What came of each school, best first."""
        return {code: preference_of(it) for code, it in zip(self.preferences, self.rows)}

    def at(self, code: str) -> Preference | None:
        """What came of one school, if it is listed."""
        return preference_of(self.row_of(code)) if code in self.preferences else None

    def rank(self, code: str) -> tuple[int, int]:
        """The class and the distance at a school that is listed."""
        found = self.row_of(code)
        return found["class"], found["metres"]

    def row_of(self, code: str) -> dict[str, Any]:
        """The row of a school that is listed."""
        return self.rows[self.preferences.index(code)]

    def in_state(self, *states: str) -> Iterator[tuple[int, str, Preference]]:
        """The schools of which one of these came: as which preference, and what it is in full."""
        for at, it in enumerate(self.rows, 1):
            if it["state"] in states:
                yield at, it["school"], preference_of(it)


class Place(NamedTuple):
    """A place that a child has: OFFERED, ACCEPTED or by a PLAN; the days of the offer and of its
    reminder while it is open.
    """

    school: str
    kind: str
    day: datetime.date | None = None
    reminded: datetime.date | None = None


class Member(NamedTuple):
    """A child with its application and its place, if it has them, and the schools that it left."""

    child: Child
    application: Application | None
    place: Place | None
    left: tuple[str, ...]


@dataclasses.dataclass(frozen=True)
class Draw:
    """A draw of lots: of a round (its number, no school) or of a fill (no round, its school)."""

    number: int
    round: int | None
    school: str | None
    day: datetime.date


class Cutoff(NamedTuple):
    """How the last child ranks that a draw took in at a school: class, whole metres and lot."""

    number: int
    metres: int
    lot: int


@dataclasses.dataclass(frozen=True)
class Drawn:
    """What the document of a draw has beside its outcomes: its lots; the last child that each
    school took in, if any; and what put each child that was refused at a school after that one.
    Class, distance and reason are by the data that the register has: where these were changed since
    the draw, a child may have no reason any more, which is None.
    """

    lots: Lots
    cutoffs: dict[str, Cutoff]
    refusals: dict[Pair, str | None]


class Source(Protocol):
    """Where a register is read from."""

    name: str

    def shown(self) -> bytes:
        """The document of the register."""

    def drawn(self, draws: Sequence[int]) -> Iterator[Drawn]:
        """The lots of draws, and what explains them, in this order."""

    def copy_to(self, path: str) -> None:
        """Writes the register to a new file, or refuses."""


@dataclasses.dataclass
class Members:
    """What a command may rest on: schools, and children with their applications and places."""

    schools: dict[str, School]
    children: dict[int, Child]
    applications: dict[int, Application]
    places: dict[int, Place]
    # the pairs of children and schools whose offer or list the child gave up
    left: set[tuple[int, str]]
    draws: list[Draw]

    def member(self, number: int) -> Member | None:
        """A child by its number, with all that is its own."""
        child = self.children.get(number)
        if child is None:
            return None
        return Member(child, self.applications.get(number), self.places.get(number),
                      tuple(sorted(code for it, code in self.left if it == number)))


# what a register works out once, each with the members that it follows from, beside its draws
WORKED_OUT = {
    "taking_part": ("applications",), "called": ("children",), "own": ("applications", "places"),
    "wanted": ("applications",), "pairs": ("applications",),
}


@dataclasses.dataclass
class Register(Members):
    """All that a register shows."""

    name: str
    phase: str
    year: int
    holidays: tuple[datetime.date, ...]
    is_large: bool
    # the closing day, the offer day and the last day of the lists
    days: tuple[datetime.date, datetime.date, datetime.date]
    # by draws: the school of each child that took part, or None; and whether it is a new offer
    outcomes: dict[int, dict[int, str | None]]
    fresh: dict[int, dict[int, bool]]
    source: Source = dataclasses.field(repr=False, compare=False)
    _drawn: dict[int, Drawn] = dataclasses.field(default_factory=dict, repr=False, compare=False)

    def most(self, name: str) -> int:
        """How many schools, children or lots it has at the most, by its size."""
        return (rules.LARGE if self.is_large else rules.LIMITS)[name].most

    def lots(self, draw: int) -> Lots:
        """The lots of a draw, if there is such a draw."""
        return self.drawn(draw).lots if draw in self.outcomes else {}

    def drawn(self, draw: int) -> Drawn:
        """The lots of a draw, and what explains it."""
        return next(self.drawn_of([draw]))

    def drawn_of(self, draws: Sequence[int]) -> Iterator[Drawn]:
        """The same of draws, in this order: read when they are first wanted."""
        unread = [it for it in draws if it not in self._drawn]
        documents = zip(unread, self.source.drawn(unread))
        for draw in draws:
            while draw not in self._drawn:
                number, found = next(documents)
                self._drawn[number] = found
            yield self._drawn[draw]

    def shown_again(self) -> "Register":
        """The same, as its source shows it once more. The document does not show lots, so these are
        read anew.
        """
        found = copy.copy(self)
        found._drawn = {}  # pylint: disable=protected-access
        return found

    def but(self, is_drawn_alike: bool, **members: Any) -> "Register":
        """The same with other members, which are of no other draws: what explains these may follow
        from them. What is worked out of members that are the same objects is not worked out anew.
        """
        if is_drawn_alike and all(getattr(self, name) is it for name, it in members.items()):
            return self
        drawn = self._drawn if is_drawn_alike else {}
        found = dataclasses.replace(self, _drawn=drawn, **members)
        vars(found).update({
            name: vars(self)[name] for name, rests_on in WORKED_OUT.items() if name in vars(self)
            and all(getattr(found, it) is getattr(self, it) for it in rests_on)})
        return found

    @property
    def rounds(self) -> list[Draw]:
        """The rounds that were held."""
        return [it for it in self.draws if it.round]

    def is_in_time(self, day: datetime.date) -> bool:
        """Whether an application of this day takes part in the first round."""
        # (takes_part of adm_commands/Round: the document does not say it)
        return day <= self.days[0]

    @functools.cached_property
    def taking_part(self) -> dict[int, Application]:
        """The applications that take part in the next draw."""
        found = self.applications.items()
        return {child: it for child, it in found if self.draws or self.is_in_time(it.day)}

    @functools.cached_property
    def called(self) -> dict[str, list[int]]:
        """The numbers of the children by their names, whatever the case and the accents."""
        found: dict[str, list[int]] = {}
        for it in self.children.values():
            found.setdefault(texts.folded(it.name), []).append(it.number)
        return found

    @functools.cached_property
    def own(self) -> dict[int, str]:
        """The places that children keep in the next round unless they get one that they prefer."""
        found = self.places.items()
        return {child: it.school for child, it in found if child in self.taking_part}

    @functools.cached_property
    def wanted(self) -> dict[int, list[str]]:
        """The schools at which each child takes part in the next draw, best first."""
        return {child: [code for _, code, _ in found.in_state(BEFORE, WAITS)]
                for child, found in self.taking_part.items()}

    @functools.cached_property
    def pairs(self) -> set[Pair]:
        """Each school with each child that takes part in the next round there."""
        return {(code, child) for child, codes in self.wanted.items() for code in codes}

    def pairs_of_fill(self, school: str) -> set[Pair]:
        """The same for a fill: the children that wait there, which nobody does before a round."""
        return {it for it in self.pairs if it[0] == school} if self.draws else set()

    def rank(self, code: str, child: int) -> tuple[int, int]:
        """The class and the distance of a child at a school of its list."""
        return self.applications[child].rank(code)


def same_season(before: Register, after: Register) -> None:
    """Refuses two registers of different seasons."""
    one, other = ((it.phase, it.days, it.holidays, it.is_large) for it in (before, after))
    if one != other:
        raise Refused(f"{before.name} and {after.name} are of different seasons")


class File:
    """A copy of a register's file, of which the program opens nothing else. It is removed when
    nobody refers to it any more, or this process ends.
    """

    def __init__(self, fd: int, program: str, called: str) -> None:
        self.name, self.program = called, program
        try:
            self.room = tempfile.TemporaryDirectory(prefix="admissions-")
            self.copy = os.path.join(self.room.name, "copy.db")
            files.copy_to(fd, self.copy)
        except OSError as error:
            raise Refused(f"{self.name} cannot be copied, where the program opens it:"
                          f" {error.strerror}") from error

    def shown(self) -> bytes:
        """The document of the register."""
        return self.document()

    def drawn(self, draws: Sequence[int]) -> Iterator[Drawn]:
        """The lots of draws, and what explains them, in this order: by a run of the program each.
        """
        return (drawn_in(self.name, self.document("--draw", str(it))) for it in draws)

    def document(self, *words: str) -> bytes:
        """What the program shows of the copy."""
        ran = self.ran("show", self.copy, *words)
        if ran.returncode:
            said = printed(ran).replace(self.copy, self.name)
            raise Refused(f"{self.name} is no register, or it is damaged: {said}")
        return ran.stdout

    def copy_to(self, path: str) -> None:
        """Writes the register to a new file."""
        with open(self.copy, "rb") as file:
            files.copy_to(file.fileno(), path)

    def ran(self, *words: str) -> subprocess.CompletedProcess[bytes]:
        """A run of the program."""
        try:
            # (the program ignores the signals that this process ignores, and so prints the error)
            return subprocess.run([self.program, *words], stdin=subprocess.DEVNULL,
                                  capture_output=True, check=False, restore_signals=False)
        except OSError as error:
            raise Refused(f"the program does not start: {error.strerror}") from error


def printed(ran: subprocess.CompletedProcess[bytes]) -> str:
    """What a run that failed has printed, as one line, or what ended it."""
    said = ", ".join(os.fsdecode(ran.stdout + ran.stderr).split("\n")).strip(", ")
    return said or senders.ending(ran.returncode)


class Server:
    """A register that is served. It may be read many times: what it shows as before is not made
    out again.
    """

    def __init__(self, sender: senders.Http) -> None:
        self.name, self.sender = sender.named(), sender
        # by the numbers of draws: their documents as they were read last, and what these have
        self.known: dict[int, tuple[bytes, Drawn]] = {}

    def shown(self) -> bytes:
        """The document of the register."""
        return self.sender.read("/register")

    def drawn(self, draws: Sequence[int]) -> Iterator[Drawn]:
        """The lots of draws, and what explains them, in this order. A draw never changes, but its
        document explains it by the data of now; and where a copy is restored, another may have its
        number and outcomes.
        """
        for number in draws:
            document, known = self.sender.read(f"/draw/{number}"), self.known.get(number)
            if known is None or known[0] != document:
                known = self.known[number] = document, drawn_in(self.name, document, known)
            yield known[1]

    def copy_to(self, path: str) -> None:
        """Refuses: a server gives no file."""
        raise Refused(f"{self.name} is served: this needs the file of a register, or a copy of it")


def read_stored(name: str, program: str, called: str) -> Register:
    """The register of a file as it is, without its log, whoever has it open: as it was when it was
    closed last. Errors name it as it is called, as their reader knows no path.
    """
    path = os.path.realpath(name)
    try:
        fd = os.open(path, os.O_RDONLY | os.O_NOFOLLOW | os.O_NONBLOCK | os.O_CLOEXEC)
    except OSError as error:
        raise Refused(f"{called} cannot be read: {error.strerror}") from error
    try:
        return of_source(File(fd, program, called))
    finally:
        os.close(fd)


class checked:  # pylint: disable=invalid-name
    """Refuses a document that has another shape than the one that is read here."""

    def __init__(self, name: str) -> None:
        self.name = name

    def __enter__(self) -> None:
        return None

    def __exit__(self, kind: object, error: BaseException | None, trace: object) -> None:
        if isinstance(error, (AttributeError, KeyError, TypeError, ValueError)):
            raise Refused(f"{self.name}: the program shows another document than is read here"
                          f" ({error!r}): both must be of one release") from error


def parsed(name: str, text: bytes) -> dict[str, Any]:
    """The value of a document."""
    with checked(name):
        found = json.loads(text)
        if not isinstance(found, dict):
            raise TypeError(type(found))
        return found


# between these are the lots in the document of a draw
LOTS, AFTER_LOTS = b',"lots":[', b'],"outcomes":['


def lots_in(text: bytes) -> slice:
    """Where the document of a draw has its lots; nowhere if it is not written as expected."""
    begin, end = text.find(LOTS) + len(LOTS), text.find(AFTER_LOTS)
    return slice(begin, end) if len(LOTS) <= begin <= end else slice(0, 0)


def drawn_in(name: str, text: bytes, before: tuple[bytes, Drawn] | None = None) -> Drawn:
    """What the document of a draw has beside its outcomes. Lots that it had `before` are not made
    out anew: what explains them follows from the data of now.
    """
    at = lots_in(text)
    lots: Lots | None = None
    if before and text[at] and text[at] == before[0][lots_in(before[0])]:
        text, lots = text[:at.start] + text[at.stop:], before[1].lots
    found = parsed(name, text)
    with checked(name):
        return Drawn(
            {(it["school"], it["child"]): it["lot"] for it in found["lots"]} if lots is None
            else lots,
            {it["school"]: Cutoff(it["class"], it["metres"], it["lot"]) for it in found["cutoffs"]},
            {(it["school"], it["child"]): reason_of(it["by"]) for it in found["refusals"]},
        )


def reason_of(found: str | None) -> str | None:
    """A reason of a document, which must be one that is known here."""
    if found not in REASONS:
        raise ValueError(found)
    return found


def of_source(source: Source) -> Register:
    """The register of a document."""
    return Reader(source).register(source.shown())


def day_of(text: str | None) -> datetime.date | None:
    """A day of a document, if there is one."""
    return None if text is None else datetime.date.fromisoformat(text)


def of_document(
    source: Source, found: dict[str, Any], children: Iterable[Member] | None = None,
) -> Register:
    """The register of a document's value, with its children if they were read apart."""
    if children is None:
        children = map(member_of, found["children"])
    season, draws = found["season"], found["draws"]
    date = datetime.date.fromisoformat
    return Register(
        name=source.name, phase=season["phase"], year=season["year"],
        holidays=tuple(map(date, season["holidays"])), is_large=season.get("size") == "large",
        days=(date(season["closing"]), date(season["offer_day"]), date(season["last_list_day"])),
        **members_of(found["schools"], children),
        draws=[Draw(it["draw"], it["round"], it["school"], date(it["day"])) for it in draws],
        outcomes={it["draw"]: by_child(it["outcomes"], "school") for it in draws},
        fresh={it["draw"]: by_child(it["outcomes"], "fresh") for it in draws}, source=source,
    )


# how the text of a document begins; what is between two of its children, each of which begins so;
# and what is after them
BEGIN, CHILD, BETWEEN, AFTER = (
    b'{"children":[', b'{"application":', b'},{"application":', b'],"draws":[')


class Reader:
    """Reads the documents of one register again and again. A child whose text is as it was is not
    made out anew: a command changes few of them. The quotes of these marks begin the name of a
    member, so that no text of a child has one.
    """

    def __init__(self, source: Source) -> None:
        self.source = source
        # by their texts the children that were read last
        self.known: dict[bytes, Member] = {}

    def register(self, document: bytes) -> Register:
        """The register of a document."""
        name, end = self.source.name, document.find(AFTER)
        rows = document[len(BEGIN):end]
        if not document.startswith(BEGIN + CHILD) or end < 0 or not rows.endswith(b"}"):
            found = parsed(name, document)
            with checked(name):
                return of_document(self.source, found)
        pieces = rows[len(CHILD):-1].split(BETWEEN)
        new = [it for it in pieces if it not in self.known]
        found = parsed(name, BEGIN + document[end:])
        with checked(name):
            read = json.loads(b"[%s%s}]" % (CHILD, BETWEEN.join(new))) if new else []
            made = dict(zip(new, map(member_of, read), strict=True))
            self.known = {it: made.get(it) or self.known[it] for it in pieces}
            return of_document(self.source, found, self.known.values())


def of_rows(
    name: str, schools: Sequence[dict[str, Any]], children: Sequence[dict[str, Any]],
) -> Members:
    """These schools and children of a document, and none else."""
    with checked(name):
        return Members(**members_of(schools, map(member_of, children)), draws=[])


def members_of(schools: Sequence[dict[str, Any]], children: Iterable[Member]) -> dict[str, Any]:
    """What a register has by the schools of a document, and by its children."""
    found = list(children)
    return {
        "schools": {it["school"]: school_of(it) for it in schools},
        "children": {it.child.number: it.child for it in found},
        "applications": {
            it.child.number: it.application for it in found if it.application is not None},
        "places": {it.child.number: it.place for it in found if it.place is not None},
        "left": {(it.child.number, code) for it in found for code in it.left},
    }


def member_of(found: dict[str, Any]) -> Member:
    """A child of a document, with its application and its place."""
    application = found["application"]
    return Member(child_of(found), None if application is None else application_of(application),
                  place_of(found["place"]), tuple(found["left"]))


def by_child(rows: Iterable[dict[str, Any]], key: str) -> dict[int, Any]:
    """A member of each row by the row's child."""
    return {it["child"]: it[key] for it in rows}


def school_of(found: dict[str, Any]) -> School:
    """A school of a document."""
    counts = (found[it] for it in ("plans", "taken", "vacancies", "waiting"))
    return School(found["school"], found["name"], found["pan"], found["east"], found["north"],
                  tuple(found["criteria"]), *counts)


def child_of(found: dict[str, Any]) -> Child:
    """A child of a document, with each field of its data, also one that is not named here."""
    data = {**OMITTED, **{name: it for name, it in found.items() if name not in NO_DATA}}
    return Child(found["child"], found["name"], found["east"], found["north"],
                 found["looked_after"], tuple(found["flags"]), tuple(found["siblings"]),
                 found["present"], tuple(data["catchments"]), data)


def application_of(found: dict[str, Any]) -> Application:
    """An application of a document."""
    rows = found["preferences"]
    codes = tuple([it[0] for it in map(RANKED, rows)])
    return Application(datetime.date.fromisoformat(found["day"]), codes, rows)


def preference_of(found: dict[str, Any]) -> Preference:
    """A preference of a document."""
    return Preference(found["class"], found["metres"], found["state"], found.get("position"),
                      found.get("of"))


def place_of(found: dict[str, Any] | None) -> Place | None:
    """The place of a child of a document, if it has one."""
    if found is None:
        return None
    return Place(found["school"], found["kind"], day_of(found["offered"]),
                 day_of(found["reminded"]))
