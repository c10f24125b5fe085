"""A register of which some entries are read again: those that commands have changed.

A command about a child changes the entry of this child; the entry of each school at which its place
or its wait began or ended; and the positions of all on each waiting list that it joined or left, or
on which it ranks otherwise. A command about a school changes the entry of this school. A draw and
an import change any.
"""
import dataclasses
import urllib.parse
from collections.abc import Callable, Iterable, Mapping, Sequence
from typing import Any

from register_files import Refused

from . import model
from .model import PLAN, WAITS, Application, Child, Member, Register, School

CHILD, SCHOOL = "child", "school"
# a child by its number, or a school by its code
Subject = tuple[str, int | str]
# the body at a path of the server, or None where it has nothing there
Read = Callable[[str], bytes | None]
# so much is read apart at most, as more would cost as much as the whole: a plan can move the place
# of a child, and end its wait at ten schools, of each of which the entry and the list are read
MOST = 24


def entry_of(about: Subject, read: Read) -> dict[str, Any] | None:
    """The entry of a child or of a school in the document of a register as it is now, if any."""
    path = f"/register/{about[0]}/{urllib.parse.quote(str(about[1]))}"
    text = read(path)
    return None if text is None else model.parsed(path, text)


def positions_at(code: str, read: Read) -> dict[int, int]:
    """The positions of the children on the waiting list of a school, as the program prints it: two
    lines of a head, one for each child, and one with the sums.
    """
    text = read(f"/school/{code}/waiting")
    if text is None:
        raise ValueError(f"no list of {code}")
    rows = (it.split() for it in text.split(b"\n")[2:-2])
    return {int(child): int(position) for position, child, *_ in rows}


def read_again(before: Register, subjects: Iterable[Subject], read: Read) -> Register:
    """A register as it is now, where since then nothing but commands about these came to it.
    Refused where much has changed, or what is read does not fit what there was.
    """
    with model.checked(before.name):
        found = Again(before, read)
        found.read_subjects(list(subjects))
        found.read_schools()
        return found.register()


class Again:
    """A register that is read again in part."""

    def __init__(self, before: Register, read: Read) -> None:
        self.before, self.read, self.left = before, read, MOST
        self.members: dict[int, Member] = {}
        self.applications: dict[int, Application | None] = {}
        self.schools: dict[str, School] = {}
        # the schools whose entries are others, and those whose waiting lists are
        self.codes: set[str] = set()
        self.lists: set[str] = set()

    def see(self, many: int) -> None:
        """Refuses to read so many more, where these are too many."""
        self.left -= many
        if self.left < 0:
            raise Refused("much has changed")

    def read_subjects(self, subjects: Sequence[Subject]) -> None:
        """Reads the children of commands, and notes the schools."""
        self.see(len(subjects))
        for name, key in subjects:
            if name == CHILD:
                self.read_child(int(key))
            else:
                self.codes.add(str(key))

    def read_child(self, number: int) -> None:
        """Reads a child, and notes the schools at which its place or its wait is another."""
        was, row = self.before.member(number), entry_of((CHILD, number), self.read)
        if row is None:
            if was is not None:
                raise ValueError(f"no child {number}")
            return
        it = model.member_of(row)
        self.members[number], self.applications[number] = it, it.application
        waited, waiting = waits(was), waits(it)
        self.codes |= {code for code, _ in held(was) ^ held(it)} | waited.keys() ^ waiting.keys()
        self.lists |= {code for code, _ in waited.items() ^ waiting.items()}

    def read_schools(self) -> None:
        """Reads the entries that are others, and for the positions the lists that are."""
        self.see(len(self.codes) + len(self.lists))
        for code in sorted(self.codes):
            row = entry_of((SCHOOL, code), self.read)
            if row is not None:
                self.schools[code] = model.school_of(row)
            elif code in self.before.schools:
                raise ValueError(f"no school {code}")
        for code in sorted(self.lists):
            self.move(code, positions_at(code, self.read))

    def move(self, code: str, positions: Mapping[int, int]) -> None:
        """Takes the positions on a waiting list."""
        for number, position in positions.items():
            it = self.applications.get(number) or self.before.applications[number]
            self.applications[number] = at_position(it, code, position, len(positions))

    def register(self) -> Register:
        """The register as it is now. What is as it was is the same object."""
        before, members = self.before, self.members
        left = {it for it in before.left if it[0] not in members} | {
            (number, code) for number, it in members.items() for code in it.left}
        children = {number: it.child for number, it in members.items()}
        places = {number: it.place for number, it in members.items()}
        return before.but(
            schools=replaced(before.schools, self.schools),
            children=replaced(before.children, changes(before.children, children)),
            applications=replaced(
                before.applications, changes(before.applications, self.applications)),
            places=replaced(before.places, changes(before.places, places)),
            left=before.left if left == before.left else left,
            is_drawn_alike=not any(map(self.is_ranked_anew, members)))

    def is_ranked_anew(self, number: int) -> bool:
        """Whether a child that draws may have ranked ranks otherwise in them now, or at other
        schools: by its data or its list.
        """
        it, was = self.members[number], self.before.member(number)
        if was is None:
            return False
        listed = was.application is not None and (
            it.application is None or it.application.preferences != was.application.preferences)
        return listed or ranked(it.child) != ranked(was.child)


def ranked(child: Child) -> dict[str, Any]:
    """The data of a child by which it may rank: all but its name."""
    return {**child.data, "name": ""}


def held(it: Member | None) -> set[tuple[str, bool]]:
    """The school of a child's place, if it has one, and whether that is by a plan."""
    return {(it.place.school, it.place.kind == PLAN)} if it and it.place else set()


def waits(it: Member | None) -> dict[str, tuple[int, int]]:
    """The schools at which a child waits, with its class and its distance there."""
    rows = it.application.rows if it and it.application else ()
    return {row["school"]: (row["class"], row["metres"]) for row in rows if row["state"] == WAITS}


def at_position(it: Application, code: str, position: int, many: int) -> Application:
    """An application with this position at a school where it waits, among so many."""
    at = it.preferences.index(code)
    row = it.rows[at]
    if row["state"] != WAITS:
        raise ValueError(f"{code} has another list")
    if (row["position"], row["of"]) == (position, many):
        return it
    rows = it.rows.copy()
    rows[at] = {**row, "position": position, "of": many}
    return dataclasses.replace(it, rows=rows)


def changes(rows: Mapping[Any, Any], new: Mapping[Any, Any]) -> dict[Any, Any]:
    """Which of the new ones are others."""
    return {key: it for key, it in new.items() if rows.get(key) != it}


def replaced(rows: dict[Any, Any], new: dict[Any, Any]) -> dict[Any, Any]:
    """Rows with new ones, of which None is for a row that ended, in the order of their keys."""
    if not new:
        return rows
    found = rows | new
    for key in [key for key, it in new.items() if it is None]:
        del found[key]
    return found if new.keys() <= rows.keys() else {key: found[key] for key in sorted(found)}
