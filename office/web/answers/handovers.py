"""Whose batch of answers may be taken over, and by whom."""
from office.web.people.roles import PEOPLE, RECORD, Person
from office.web.register.store import Store

from .piles import Piles


def why_away(store: Store, owner: str) -> str:
    """Why somebody cannot record a batch, or ""."""
    row = store.row("SELECT role, is_locked FROM person WHERE name=?", owner)
    if row is None:
        return "is not here any more"
    if row["is_locked"]:
        return "is locked"
    return "" if Person(owner, row["role"]).may(RECORD) else f"has the role {row['role']}"


def may_take(store: Store, who: Person, owner: str) -> bool:
    """Whether somebody may take over the batch of another: of one who cannot record it; or, as head
    of the office, of anybody.
    """
    return who.name != owner and who.may(RECORD) and (
        who.may(PEOPLE) or bool(why_away(store, owner)))


def takeable(piles: Piles, who: Person) -> list[tuple[str, int, str]]:
    """The batches that somebody may take over: whose, how many answers, and why."""
    return [(owner, many, why_away(piles.store, owner))
            for owner, many in piles.waiting(who.name).items()
            if may_take(piles.store, who, owner)]
