"""A copy of the register before what is final is stored: two people can restore it."""
from register_files import Refused

from office.web.people.roles import Person
from office.web.register.desk import Desk

from .copies import Copies


def copied(desk: Desk, copies: Copies, purpose: str, who: Person) -> int:
    """Makes the copy, and returns its number. (One from before a draw or a restore would undo that
    too.)
    """
    with desk.lock:
        if said := desk.closed():
            raise Refused(f"{said} Nothing was recorded.")
        return copies.make(purpose, who.name)
