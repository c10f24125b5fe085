"""Lists the people and programs of a register with their roles; adds a person,
gives another role, draws new passwords, or removes a person.

  admissions-admin people [NAME]
  admissions-admin people [NAME] --user USER [--role ROLE] [--new-password]
  admissions-admin people [NAME] --remove USER
  admissions-admin people [NAME] --all-new-passwords

The people of a register are the task of its office, on the screen People of the
site: these lines are for the first person, and if nobody can sign in any more.
A password is drawn, printed once, and changed by whoever signs in with it; it
ends the one before at once, and each session of that person. Of a program it is
a token. --all-new-passwords draws them for all people and programs, and writes
them to /run/passwords-NAME, which is in memory: a draw in progress cannot be
held after that. What is done here is in the history too.

example:
  admissions-admin people secondary-2025 --user jane --role head
"""
import argparse
import os
import pathlib
import sys

from register_files import Refused

from .. import answers, people
from ..answers import confirm
from ..registers import Register

PASSWORDS = pathlib.Path("/run")


def arguments(reader: argparse.ArgumentParser) -> None:
    answers.add_register(reader)
    what = reader.add_mutually_exclusive_group()
    what.add_argument("--user", help="a name or a mail address, in small letters")
    what.add_argument("--remove", metavar="USER", help="remove this person")
    what.add_argument("--all-new-passwords", action="store_true",
                      help="draw one for each person and program")
    reader.add_argument("--role", help=f"the role of USER: {people.ROLES_TEXT}")
    reader.add_argument("--new-password", action="store_true",
                        help="draw another password for USER")
    answers.add_yes(reader)


def main(given: argparse.Namespace) -> int:
    checked(given)
    register = answers.register_of(given)
    if given.user:
        give(register, given)
    elif given.remove:
        remove(register, given)
    elif given.all_new_passwords:
        draw_all(register, given)
    else:
        listed(register)
    if warning := people.see_head(register):
        print(f"WARNING: {register.name}: {warning}", file=sys.stderr)
    return 0


def checked(given: argparse.Namespace) -> None:
    """Refuses what is wrong before anything is changed."""
    for name, check in (("user", people.checked_name), ("role", people.checked_role)):
        if getattr(given, name) is not None:
            check(getattr(given, name))
    if (given.role or given.new_password) and not given.user:
        raise Refused("--role and --new-password need --user: whose?", 2)


def listed(register: Register) -> None:
    """Prints each with the role."""
    for it in people.users_of(register).values():
        what = f"{' (a program)' * (it.kind != people.PERSON)}{' locked' * it.is_locked}"
        print(f"{it.name} {it.role}{what}")


def found_of(register: Register, name: str) -> people.User:
    """A person who is there."""
    users = people.users_of(register)
    if name not in users:
        there = ", ".join(users) or "none"
        raise Refused(f"{name!r} is nobody of {register.name}; its people: {there}")
    return users[name]


def give(register: Register, given: argparse.Namespace) -> None:
    """Adds a person, or gives one another role or another password."""
    name, found = given.user, people.users_of(register).get(given.user)
    another = f"admissions-admin people {register.name} --user {name} --new-password"
    signs_in = f"{name} signs in at https://{register.host}/ with the password"
    if not found:
        if not given.role:
            found_of(register, name)
        print(f"{name} gets the role {given.role}; if no password is below, draw one: {another}",
              flush=True)
        print(f"{signs_in} {people.add(register, name, given.role)}")
        return
    if given.role and given.role != found.role:
        confirm(f"the role of {name} changes from {found.role} to {given.role}", given.yes)
        if people.users_of(register).get(name) != found:
            raise Refused(f"{name} was changed meanwhile: type it again")
        people.set_role(register, found, given.role)
        print(f"{name} has the role {given.role}, and no longer {found.role}", flush=True)
    if given.new_password:
        confirm(f"{name} gets another password in place of the one before, and is signed out",
                given.yes)
        print(f"{signs_in} {people.reset(register, name)}")
    else:
        print(f"{name} keeps the password; to draw another one: {another}")


def remove(register: Register, given: argparse.Namespace) -> None:
    """Removes a person, who is signed out."""
    user = found_of(register, given.remove)
    confirm(f"{user.name}, with the role {user.role}, is removed from {register.name}", given.yes)
    people.remove(register, user)
    print(f"removed {user.name}")


def draw_all(register: Register, given: argparse.Namespace) -> None:
    """Draws a password for each, all or none, and writes them where memory alone has them."""
    path, count = PASSWORDS / f"passwords-{register.name}", len(people.users_of(register))
    if os.path.lexists(path):
        raise Refused(f"{path} is there already: hand over what it has, or remove it. No password"
                      " was drawn")
    confirm(f"each of the {count} people and programs of {register.name} gets another password, and"
            " is signed out", given.yes)
    part = path.with_suffix(".part")
    part.unlink(missing_ok=True)
    # (of root alone, by the umask of a command)
    with open(part, "x", encoding="utf-8") as out:
        drawn = people.reset_all(register, out)
    part.rename(path)
    print(f"drew {drawn} passwords: {path} has them. Hand each over by another way than by mail,"
          f" then: rm {path}")
