"""Answers of families as they are kept in batches: which child and school each means, and what
speaks against it.
"""
import dataclasses
import functools
import re
from collections.abc import Iterable, Mapping
from typing import Any

from office.core import model, texts
from office.core.command_kinds import KINDS
from office.core.model import Register
from office.web.machinery.outbox import Item
from office.web.register.desk import Desk, Seen
from office.web.register.rows import of_fields

Command = dict[str, Any]
MOST_TYPED = 200
DIGITS = re.compile(r"[0-9]+")
# so many children are named where a name is that of several
MOST_NAMED = 8
# of a child that was put into a batch from a list
NO_ANSWER_YET = "no answer yet"


@dataclasses.dataclass(frozen=True)
class Meant:
    """What an entry means: its text, what is to be recorded, or "" where that is not known, the
    child and the school where they are known, the name that was given, and what was not understood.
    """

    typed: str
    kind: str
    child: int | None = None
    school: str = ""
    name: str = ""
    trouble: str = ""

    @property
    def about(self) -> Command:
        """The command, as far as child and school are known."""
        return {"cmd": self.kind, "child": self.child or 0, "school": self.school}

    @property
    def command(self) -> Command | None:
        """The command, where all of it is understood and child and school are known."""
        is_whole = self.child is not None and self.school and self.kind and not self.trouble
        return self.about if is_whole else None


@dataclasses.dataclass(frozen=True)
class Entry(Item):
    """An entry of a batch of answers, which is that of a person."""

    @functools.cached_property
    def meant(self) -> Meant:
        """What it means."""
        return of_fields(Meant, self.about)

    @property
    def is_final(self) -> bool:
        """Whether it can never be undone."""
        return bool(self.meant.kind) and KINDS[self.meant.kind].is_final

    @property
    def is_by_number_alone(self) -> bool:
        """Whether no name was given beside the number, by which a slip would be seen."""
        numbers = [int(it) for it in DIGITS.findall(self.meant.typed)]
        return not self.meant.name and self.meant.child in numbers


class Names:
    """The names of a register's children, by which they are found."""

    def __init__(self, register: Register) -> None:
        self.register = register

    @functools.cached_property
    def words(self) -> dict[int, list[str]]:
        """The words of each name, to be compared."""
        return {number: words_of(it.name) for number, it in self.register.children.items()}

    def matches(self, text: str) -> list[int]:
        """The children that a name can mean: those whose name has each of its words, else those
        with words that begin so.
        """
        words = words_of(text)
        if not words:
            return []
        found = [number for number, name in self.words.items() if set(words) <= set(name)]
        return found or [
            number for number, name in self.words.items()
            if all(any(part.startswith(word) for part in name) for word in words)]


def with_school(register: Register, meant: Meant) -> Meant:
    """The same with the school of the child's place."""
    place = register.places.get(meant.child) if meant.child else None
    is_open = place is not None and place.kind != model.PLAN
    return dataclasses.replace(meant, school=place.school if place and is_open else "")


def unanswered(register: Register, child: int, school: str) -> list[Meant]:
    """A child of a list in a batch, whose answer is still to be given: to its offer, or about the
    waiting list of a school; about each of those where it waits, if no school is given.
    """
    name = register.children[child].name
    application, place = register.applications.get(child), register.places.get(child)
    waits = [code for _, code, _ in application.in_state(model.WAITS)] if application else []
    if not school and not place:
        schools = waits
    else:
        has_offer = place is not None and place.kind == model.OFFERED
        is_there = school in waits or has_offer and place is not None and (
            school in ("", place.school))
        schools = [school or (place.school if place else "")] if is_there else []
    return [Meant(f"{child} {name}"[:MOST_TYPED], "", child, it, name, NO_ANSWER_YET)
            for it in schools]


def answers_to(register: Register, entry: Entry) -> list[str]:
    """The answers that can be given to an entry that has none yet."""
    meant = entry.meant
    if meant.trouble != NO_ANSWER_YET:
        return []
    place = register.places.get(meant.child or 0)
    has_offer = place is not None and place.kind == model.OFFERED and place.school == meant.school
    return ["accept", "decline"] if has_offer else ["leave_list"]


def candidates(names: Names, meant: Meant) -> list[int]:
    """The children among whom a name does not decide."""
    return names.matches(meant.name) if meant.child is None else []


def is_of(given: str, name: str) -> bool:
    """Whether a name that was given is that of a child, and has no word beside it: that may say
    something about the answer.
    """
    return texts.is_alike(given, name) and len(words_of(given)) <= len(words_of(name))


def words_of(name: str) -> list[str]:
    """The words of a name, to be compared."""
    return texts.folded(name).split()


def conflicts(desk: Desk, names: Names, entry: Entry, others: Iterable[Entry]) -> list[str]:
    """What speaks against an entry, so that it is not sent. `others` are the other entries of its
    batch for the same child.
    """
    meant, register = entry.meant, names.register
    found = [meant.trouble]
    if meant.child is None:
        count = len(candidates(names, meant))
        have = texts.count(count, "child has a name", "children have names")
        shown = f", of whom the first {MOST_NAMED} are offered here" if count > MOST_NAMED else ""
        return [*filter(None, found), f"{have} like it{shown}: enter the number"]
    child = register.children.get(meant.child)
    if child is None:
        return [*filter(None, found), f"the register has no child {meant.child}"]
    if meant.name and not is_of(meant.name, child.name):
        found.append(f"the name given is {texts.shown(meant.name)}")
    command, seen = meant.command, Seen(entry.seen or "")
    changed = desk.changed(register, command, seen) if command else ""
    if not changed and meant.kind:
        found.append(KINDS[meant.kind].against(register, meant.about))
    found.append(changed)
    found.append(of_others(entry, others))
    return list(filter(None, found))


def of_others(entry: Entry, others: Iterable[Entry]) -> str:
    """What other entries for the same child have against one: another answer, or the same one
    before it. Two lists can be left.
    """
    for it in others:
        is_list = it.meant.kind == entry.meant.kind == "leave_list"
        if is_list and it.meant.school != entry.meant.school:
            continue
        if (it.meant.kind, it.meant.school) != (entry.meant.kind, entry.meant.school):
            return "the batch has another answer for this child"
        # (a row that is marked is not recorded, and so none that comes once more)
        if it.meant.command and it.number < entry.number:
            return "the batch has this answer already"
    return ""


def by_colleagues(entry: Entry, others: Mapping[int, str]) -> str:
    """Who else has an answer for the child in a batch, or ""."""
    who = others.get(entry.meant.child or 0)
    return f"{who} has an answer for this child in a batch too" if who else ""
