"""What a change of a person does, which is asked before it is done: to them, and to what is in
progress and needs two persons.
"""
import dataclasses
import hashlib
from collections.abc import Iterator

from register_files import Refused

from office.core import texts
from office.core.wording import sentence
from office.web.copies import restores
from office.web.copies.terms import ASKED, CLOSED
from office.web.parts import Parts
from office.web.rounds import draws
from office.web.rounds import second as draws_second
from office.web.rounds.second import Case
from office.web.rounds.terms import CONFIRMED, IN_ORDER, SENT, UNSEALED

from . import roles
from .roles import CONFIRM, DRAW, LOTS, PROGRAM, Person

ROLE, RESET, LOCK, UNLOCK, REMOVE = "role", "reset", "lock", "unlock", "remove"
ACTS = (ROLE, RESET, LOCK, UNLOCK, REMOVE)


@dataclasses.dataclass(frozen=True)
class Act:
    """What is to be done to whom, with the role that is given where one is; and as they are now,
    with the hash of their password or token, by which a form draws a new one once.
    """

    what: str
    name: str
    role: str
    is_program: bool
    role_now: str
    is_locked: bool
    hash: str

    @property
    def secret(self) -> str:
        """What they sign in with."""
        return "token" if self.is_program else "password"

    @property
    def title(self) -> str:
        """It as the text of a button."""
        return {
            ROLE: f"Give {self.name} the role {self.role}",
            RESET: f"Draw a new {self.secret} of {self.name}", LOCK: f"Lock {self.name}",
            UNLOCK: f"Unlock {self.name}", REMOVE: f"Remove {self.name}"}[self.what]

    @property
    def does(self) -> str:
        """What it does to them."""
        out = f"{self.name} is signed out at once"
        return {
            ROLE: f"{out}. The role is {self.role}, and was {self.role_now}.",
            RESET: f"{out}, and the present {self.secret} is of no more use. The new one is shown"
                   " once, to you: hand it over.",
            LOCK: f"{out}, and cannot sign in until somebody unlocks {self.name}.",
            UNLOCK: f"{self.name} can sign in again, as {self.role_now}.",
            REMOVE: f"{out}, and the account is gone. What {self.name} did stays in the history.",
        }[self.what]

    def keeps(self, right: str) -> bool:
        """Whether they may still do something afterwards, but for a part that needs somebody whose
        account nobody has touched.
        """
        role = self.role if self.what == ROLE else self.role_now
        return self.what in (ROLE, RESET, UNLOCK) and Person(self.name, role).may(right)


def act_of(parts: Parts, what: str, name: str, role: str) -> Act:
    """What is to be done, or a refusal."""
    row = parts.store.row("SELECT * FROM person WHERE name=?", name)
    if not row or what not in ACTS:
        raise Refused(f"there is no {name}" if not row else "there is nothing to do")
    if what == ROLE:
        roles.see_role(role)
    if what == REMOVE:
        parts.people.see_removable(name)
    return Act(what, name, role if what == ROLE else "", row["kind"] == PROGRAM, row["role"],
               bool(row["is_locked"]), row["hash"])


def shown_of(act: Act, said: list[str]) -> str:
    """What is shown of a change, in short: who agrees to it has read this and nothing else."""
    return hashlib.sha256(repr((dataclasses.astuple(act), said)).encode()).hexdigest()


def two_persons(parts: Parts) -> Iterator[tuple[str, str, str, Case]]:
    """What is in progress and needs another person: what it is, what they do, with which right, and
    who has a part in it already.
    """
    if draw := parts.draws.present():
        title = f"{draw.name} is in progress"
        if draw.state in UNSEALED:
            yield title, "seal its lots", LOTS, draws.case_of(draw)
        if draw.state in IN_ORDER[:IN_ORDER.index(CONFIRMED)]:
            yield title, "confirm it", CONFIRM, parts.draws.case_to_confirm(draw)
        if draw.give_up_by or draw.restore_by:
            what = "confirm its restore" if draw.state in SENT else "confirm that it is cancelled"
            asker = draw.give_up_by or draw.restore_by
            yield title, what, CONFIRM, Case(others={asker: "has asked for it"})
    if (restore := parts.restores.present()) and restore.state in (CLOSED, ASKED):
        title = f"the restore of copy {restore.copy} is in progress"
        yield title, "confirm it", CONFIRM, restores.case_of(restore)
    end = parts.end.get()
    if end.asked_by and not end.phase:
        title = "the deletion of the season is asked for"
        yield title, "confirm it", CONFIRM, parts.end.case(end, end.asked_by)


def warnings(parts: Parts, who: Person, act: Act) -> list[str]:
    """What a change does to what needs two persons: now, and from then on."""
    found = []
    for title, what, right, case in two_persons(parts):
        may = draws_second.second_of(parts.store, parts.history, case, right).may
        if act.what != UNLOCK and act.name in may:
            left = [it for it in may if it != act.name]
            found.append(f"{title[:1].upper()}{title[1:]}: {act.name} could then not {what}."
                         f" {texts.listed(left) if left else 'Nobody else'} could.")
    draw = parts.draws.present()
    if draw and act.name in heads(parts) and not act.keeps(DRAW) and len(heads(parts)) == 1:
        found.append(sentence(f"{draw.name} is in progress: nobody could then run it"))
    if act.what in (ROLE, RESET) and not act.is_program and (act.keeps(CONFIRM) or act.keeps(LOTS)):
        found.append(f"From then on {act.name} and {who.name} are not the two persons of any round,"
                     f" offer, restore or deletion, until somebody else gives {act.name} a new"
                     f" {'role' if act.what == ROLE else 'password'}.")
    return found


def heads(parts: Parts) -> list[str]:
    """Who may run draws, and is not locked."""
    return [row["name"] for row in parts.store.rows(
        "SELECT * FROM person WHERE kind=? AND is_locked=0", roles.PERSON)
        if Person(row["name"], row["role"]).may(DRAW)]
