"""The people of a register's application, for whoever sets up a machine: they are in office.db, and
each change is left there for the history of the application, which takes it at its next request."""
import contextlib
import datetime
import typing

from office.web.people import people, roles
from office.web.register import store
from register_files import Refused

from . import answers, files, office_store
from .programs import OFFICE
from .registers import Register

NAME, ROLES, SCHOOL, is_role = people.NAME, roles.ROLES, roles.SCHOOL, roles.is_role
PERSON = roles.PERSON
User = office_store.Person
ROLES_TEXT = f"{', '.join(ROLES)}, or {SCHOOL}CODE"


@contextlib.contextmanager
def opened(register: Register) -> typing.Iterator[tuple[people.People, store.Store]]:
    """The people, as the user of the application, whose file it is."""
    path = office_store.path_of(register)
    with files.acting_as(OFFICE):
        office_store.see_files(path)
        found = store.Store(str(path))
        try:
            yield people.People(found), found
        finally:
            found.close()


def users_of(register: Register) -> dict[str, User]:
    """All of them by name, in their order; none where there is no application yet."""
    if not office_store.path_of(register).exists():
        return {}
    return {it.name: it for it in office_store.people_of(register)}


def tell(kept: store.Store, what: str, about: dict[str, str]) -> None:
    """Leaves a change for the history, with its time: the history has it with the next request of
    somebody who is signed in, which may be much later."""
    now = datetime.datetime.now(datetime.timezone.utc).isoformat(timespec="seconds")
    kept.tell(answers.teller(), what, {**about, "done_at": now})


def add(register: Register, name: str, role: str) -> str:
    """Adds a person, and returns the drawn password."""
    with opened(register) as (found, kept), kept.writing():
        tell(kept, "added", {"person": name, "role": role, "kind": roles.PERSON})
        return found.add(name, role)


def set_role(register: Register, before: User, role: str) -> None:
    """Gives a person another role."""
    with opened(register) as (found, kept), kept.writing():
        told = {"person": before.name, "role": role, "before": before.role}
        tell(kept, "gave a role", told)
        found.set_role(before.name, role)


def reset(register: Register, name: str) -> str:
    """Draws another password or token, and returns it. A person who was locked stays so."""
    with opened(register) as (found, kept), kept.writing():
        tell(kept, "drew a new password", {"person": name})
        return found.reset(name)


def reset_all(register: Register, out: typing.TextIO) -> int:
    """Draws another password or token for each, and writes them into a file before they count: all
    or none. Returns how many."""
    with opened(register) as (found, kept), kept.writing():
        everybody = office_store.people_of(register)
        for it in everybody:
            tell(kept, "drew a new password", {"person": it.name})
            print(f"{it.name} {found.reset(it.name)}", file=out)
        out.flush()
    return len(everybody)


def remove(register: Register, user: User) -> None:
    """Removes a person."""
    with opened(register) as (found, kept), kept.writing():
        tell(kept, "removed", {"person": user.name, "role": user.role})
        found.remove(user.name)


def set_provider(register: Register, text: str) -> None:
    """Signs people in by the accounts of the authority, as a text of JSON says; or no more."""
    from office.web.people import authority

    with opened(register) as (_, kept), kept.writing():
        provider = authority.provider_in(text) if text else None
        told = {"issuer": provider.issuer if provider else "none"}
        tell(kept, "changed the sign-in by the authority's accounts", told)
        authority.set_provider(kept, provider)


def see_head(register: Register) -> str:
    """What is missing where nobody can hold a draw or add people; an empty text where somebody
    can."""
    users = users_of(register).values()
    heads = [it for it in users if it.role == roles.HEAD and not it.is_locked]
    return "" if heads else f"nobody has the role {roles.HEAD}, so nobody can hold a draw"


def checked_name(text: str) -> str:
    """A name, or a refusal."""
    if not NAME.fullmatch(text):
        raise Refused(
            f"{text!r} is no name of a person: small letters and digits,"
            " and then also . _ @ + -, 64 at most",
            2,
        )
    return text


def checked_role(text: str) -> str:
    """A role, or a refusal."""
    if not is_role(text):
        raise Refused(f"{text!r} is no role: it is {ROLES_TEXT}", 2)
    return text
