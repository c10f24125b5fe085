"""Who may be one of the two persons of a draw, a restore or the deletion of a season: nobody who
has another part in it, nobody in whose name somebody with such a part could act, and nobody who
could act in theirs. Where nobody but one is left, that one may end a draw alone, and not hold it.
"""
import dataclasses
from collections.abc import Mapping

from register_files import Refused

from office.core import texts
from office.web.people.roles import CONFIRM, PERSON, Person
from office.web.register.desk import local
from office.web.register.history import Entry, History
from office.web.register.store import Store

from .store import BEGAN

# what somebody does to an account, by which they could act in its name
MADE = {
    "added": "was added", "gave a role": "was given another role",
    "drew a new password": "was given another password",
}
# the last one of each of these counts: it gave the password, or the role
GIVEN = (("added", "drew a new password"), ("added", "gave a role"))


@dataclasses.dataclass(frozen=True)
class Case:
    """What two persons do: the entry of the history with which it began, by its words or its
    number, and that in words, or None where accounts may have been changed since; and who else has
    a part in it, with what they did.
    """

    began: str | int | None = BEGAN
    what: str = "it was begun"
    others: Mapping[str, str] = dataclasses.field(default_factory=dict)


@dataclasses.dataclass(frozen=True)
class Second:
    """Who may be the second person, by their names; and why others who have the right may not."""

    may: list[str]
    may_not: dict[str, str]

    @property
    def in_words(self) -> str:
        """All of it."""
        may = texts.listed(self.may) if self.may else "nobody"
        others = "; ".join(self.may_not.values())
        return f"{may}. Others may not: {others}." if others else f"{may}."


def hindered(record: History, name: str, case: Case) -> str:
    """Why somebody is not the second person, or ""."""
    if name in case.others:
        return f"{name} {case.others[name]}"
    with record.lock:
        entries = list(record.entries)
    start = len(entries) if case.began is None else next(
        (it.number for it in reversed(entries) if case.began in (it.what, it.number)), 0)
    made = [it for it in reversed(entries) if it.what in MADE]
    for it in made:
        if it.number > start and it.about.get("person") == name:
            return f"{name} {MADE[it.what]} by {it.who} at {local(it.at)}, after {case.what}"
    for other in case.others:
        for one, by in ((name, other), (other, name)):
            if found := given(made, one, by):
                return (f"{one} {MADE[found.what]} by {by} at {local(found.at)}, so that {by} could"
                        " act in both names")
    return ""


def given(made: list[Entry], name: str, by: str) -> Entry | None:
    """By what somebody gave another one their present password or role, if they did. `made` has the
    last entry first.
    """
    of_name = [it for it in made if it.about.get("person") == name]
    last = (next((it for it in of_name if it.what in whats), None) for whats in GIVEN)
    return next((it for it in last if it and it.who == by), None)


def see(record: History, who: Person, case: Case, otherwise: str) -> None:
    """Refuses somebody who is not the second person; `otherwise` says what somebody else does."""
    if said := hindered(record, who.name, case):
        raise Refused(f"{said}: {otherwise}")


def second_of(store: Store, record: History, case: Case, right: str = CONFIRM) -> Second:
    """Who of all may be the second person."""
    found = Second([], {})
    for row in store.rows("SELECT * FROM person WHERE kind=? ORDER BY name", PERSON):
        name = row["name"]
        if not Person(name, row["role"]).may(right):
            # (who has a part in it, and would not have the right either)
            if name in case.others:
                found.may_not[name] = f"{name} {case.others[name]}"
        elif said := f"{name} is locked" if row["is_locked"] else hindered(record, name, case):
            found.may_not[name] = said
        else:
            found.may.append(name)
    return found


def alone(store: Store, record: History, name: str) -> str:
    """Why nobody else can be the second person of a draw now: what each lacks who has the right; or
    "" where somebody can. Who is none of two leaves it to whoever is.
    """
    is_first = not hindered(record, name, Case())
    found = second_of(store, record, Case(others={name: "asks"} if is_first else {}))
    if any(it != name for it in found.may):
        return ""
    lacks = [said for other, said in found.may_not.items() if other != name]
    return texts.listed(lacks) if lacks else "nobody else may confirm it"
