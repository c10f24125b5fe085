"""The file of catchment areas of an office: the one that is in use, and one that was added and is
not used before somebody has compared and confirmed it.
"""
import dataclasses
import hashlib
import json
import threading
from collections.abc import Callable, Iterable, Mapping, Sequence

from register_files import Refused

from office.core import fields
from office.core.model import School
from office.core.turns import Turn
from office.web.register.history import History, now
from office.web.register.store import Store

from . import reading
from .map import Area, Map

# the property that names the school, if the features have it
USUAL = "school"
CHANGED = "something has changed since it was shown: look at it again"
Schools = Mapping[str, School]


@dataclasses.dataclass(frozen=True)
class Feature:
    """A feature of a file: its properties; what is wrong with it, or ""; its size in square metres,
    and its rings in whole centimetres.
    """

    values: dict[str, str]
    wrong: str
    size: int
    rings: tuple[tuple[int, ...], ...]


@dataclasses.dataclass(frozen=True)
class File:
    """A file of catchment areas: its name and its digest, who added it and when, the property that
    names the school, and who has confirmed it and when, if it is in use.
    """

    number: int
    name: str
    digest: str
    who: str
    added: str
    named_by: str
    used_by: str
    used: str
    features: tuple[Feature, ...]

    @property
    def properties(self) -> list[str]:
        """What the features have, the usual name of a school first."""
        names = dict.fromkeys(name for it in self.features for name in it.values)
        return sorted(names, key=lambda it: it.casefold() != USUAL)


@dataclasses.dataclass(frozen=True)
class Line:
    """A feature beside the schools of a register: its number in the file, the school that it names,
    and what is wrong with it.
    """

    number: int
    value: str
    code: str
    wrong: str
    size: int


def lines_of(file: File, schools: Schools, named_by: str) -> list[Line]:
    """The features of a file, by the property that names the school."""
    found = []
    for number, it in enumerate(file.features, 1):
        value = it.values.get(named_by, "")
        code = fields.code_of(value, schools) or ""
        is_there = code in schools
        wrong = it.wrong or ("" if is_there else "no such school" if value else
                             "no school is named")
        found.append(Line(number, value, code if is_there else "", wrong, it.size))
    return found


def map_of(file: File, schools: Schools, named_by: str) -> Map:
    """The areas of a file by the schools of a register."""
    lines = lines_of(file, schools, named_by)
    return Map(file.name, [Area(line.code, it.size, it.rings)
                           for line, it in zip(lines, file.features) if not line.wrong])


def why_not(lines: Iterable[Line]) -> str:
    """Why areas cannot be used, or "": those of schools of the register must all be right."""
    found = list(lines)
    wrong = [it for it in found if it.wrong and it.code]
    if wrong:
        return f"{len(wrong):,} of its areas must be corrected in the file first"
    return "" if any(it.code for it in found) else "it names no school of the register"


class Areas:
    """The areas of one application."""

    def __init__(self, store: Store, record: History) -> None:
        self.store, self.history = store, record
        self.lock = Turn(threading.RLock(), "somebody else is adding catchment areas")
        # the file in use as it was read last, and the map that was made last, with its schools
        self.kept: File | None = None
        self.made: tuple[File, list[tuple[str, str]], Map] | None = None

    def file(self, number: int) -> File:
        """A file as it is stored."""
        row = self.store.row("SELECT * FROM area_file WHERE number=?", number)
        if row is None:
            raise Refused(CHANGED)
        features = tuple(Feature(it["values"], it["wrong"], it["size"],
                                 tuple(map(tuple, it["rings"])))
                         for it in json.loads(row["features"]))
        return File(row["number"], row["name"], row["digest"], row["who"], row["added"],
                    row["named_by"], row["used_by"], row["used"], features)

    @property
    def used(self) -> File | None:
        """The file that is in use."""
        row = self.store.row("SELECT number FROM area_file WHERE used<>''")
        if row is None:
            return None
        # (no number is given twice)
        if self.kept is None or self.kept.number != row["number"]:
            self.kept = self.file(row["number"])
        return self.kept

    @property
    def waiting(self) -> File | None:
        """The file that was added, and is not used yet."""
        row = self.store.row("SELECT number FROM area_file WHERE used=''")
        return self.file(row["number"]) if row else None

    def map(self, schools: Schools) -> Map | None:
        """The areas that are in use, by the schools of a register."""
        file = self.used
        if file is None:
            return None
        names = [(it.code, it.name) for it in schools.values()]
        made = self.made
        if made is None or made[0] is not file or made[1] != names:
            self.made = made = (file, names, map_of(file, schools, file.named_by))
        return made[2]

    def add(self, who: str, name: str, data: bytes) -> None:
        """Keeps a file that was sent, in place of one that waits."""
        found = reading.read(name, data)
        digest, properties = hashlib.sha256(data).hexdigest(), {it for one in found
                                                                for it in one["values"]}
        named_by = next((it for it in sorted(properties) if it.casefold() == USUAL), "")
        with self.lock:
            self.history.add(who, "added catchment areas", {
                "file": name, "areas": len(found), "digest": digest})
            with self.store.writing() as db:
                db.execute("DELETE FROM area_file WHERE used=''")
                db.execute(
                    "INSERT INTO area_file (name, digest, who, added, named_by, features)"
                    " VALUES (?, ?, ?, ?, ?, ?)",
                    (name, digest, who, now(), named_by, packed(found)))

    def name_by(self, who: str, number: int, named_by: str) -> None:
        """Keeps which property of a file that waits names the school."""
        with self.lock:
            file = self.see(number)
            if named_by not in file.properties:
                raise Refused("choose the property that names the school")
            self.history.add(who, "chose the property of catchment areas", {
                "file": file.name, "property": named_by})
            with self.store.writing() as db:
                db.execute("UPDATE area_file SET named_by=? WHERE number=?", (named_by, number))

    def see(self, number: int) -> File:
        """The file that waits, which is the one that was shown."""
        found = self.waiting
        if found is None or found.number != number:
            raise Refused(CHANGED)
        return found

    def drop(self, who: str, number: int) -> None:
        """Removes a file that waits."""
        with self.lock:
            file = self.see(number)
            self.history.add(who, "removed catchment areas that were not used",
                             {"file": file.name})
            with self.store.writing() as db:
                db.execute("DELETE FROM area_file WHERE number=?", (number,))

    def use(self, who: str, number: int, schools: Schools, is_shown: Callable[[File], bool]
            ) -> None:
        """Makes the file that waits the one in use, if it is as it was shown. Of its features the
        names of the schools alone are kept.
        """
        with self.lock:
            file, before = self.see(number), self.used
            lines = lines_of(file, schools, file.named_by)
            if why := why_not(lines):
                raise Refused(why)
            if not is_shown(file):
                raise Refused(CHANGED)
            self.history.add(who, "uses catchment areas", {
                "file": file.name, "digest": file.digest,
                "schools": len({it.code for it in lines if it.code}),
                "areas": sum(not it.wrong for it in lines), "property": file.named_by,
                **({"in place of": before.name} if before else {})})
            kept = [{"values": {file.named_by: it.values.get(file.named_by, "")},
                     "wrong": it.wrong, "size": it.size, "rings": it.rings}
                    for it in file.features]
            with self.store.writing() as db:
                db.execute("DELETE FROM area_file WHERE used<>''")
                db.execute("UPDATE area_file SET features=?, used_by=?, used=? WHERE number=?",
                           (packed(kept), who, now(), number))


def packed(features: Sequence[object]) -> str:
    """Features as the store keeps them."""
    return json.dumps(features, ensure_ascii=False, separators=(",", ":"))
