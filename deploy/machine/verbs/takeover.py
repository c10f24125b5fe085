"""Goes on with a register of a machine that is lost, on this one.

  admissions-admin takeover NAME [PLACE] [--identity FILE] [--copy COPY]
    [--history FILE] [--site HOST]

What PLACE has, or the second place that /etc/admissions/second-copy names, is
fetched, and the register is made from the copy that was made last, with its
people, settings and history. What was sent since, as far as the history there
has it, waits on the screen Copies of the office, which sends it again: until
then recording is paused. What else people did since is counted. COPY is the
name of an older copy there, from which it is made in place of the last one, and
FILE of --history another history, as of a machine that was broken into. HOST is
another name of the site. What is encrypted is opened with the identity file,
which is asked for unless it is given. A register, or the people of one, that
are here and cannot be read are kept beside those of the copy. A takeover that
was interrupted goes on when it is typed again. With --no-copies this machine
leaves PLACE as it is, as after a break-in, and copies nowhere until a second
place is named.

example:
  admissions-admin takeover secondary-2025 /mnt/copies
"""
import argparse
import os
import re
import typing

from register_files import Refused

from .. import (
    answers, brought, certificates, copies, fetching, office_store, people, sealed, second_copy,
    serving,
)
from ..programs import USER, program
from ..registers import SETTINGS, Register, all_registers, named, stored
from . import setup


def arguments(reader: argparse.ArgumentParser) -> None:
    add = reader.add_argument
    add("name", metavar="NAME", help="the name of the register, as of its folder there")
    add("place", nargs="?", default="", metavar="PLACE", help="the second place")
    add("--copy", metavar="COPY", help="the name of an older copy there")
    add("--history", metavar="FILE", help="a history in place of the one there")
    add("--identity", metavar="FILE", help="the identity file that opens what is encrypted there")
    add("--site", metavar="HOST", help="another name of the site than before")
    add("--no-copies", action="store_true",
        help="copy to no second place, until one is named: refused on a machine in use")
    answers.add_yes(reader)
    reader.set_defaults(is_takeover=True, phase=None, year=None, large=False, holiday=[], user=None,
                        role=None, authority=None)


def checked(given: argparse.Namespace) -> None:
    """Refuses what is wrong before anything is fetched."""
    if given.copy and not copies.NAME.fullmatch(given.copy.removesuffix(sealed.END)):
        raise Refused(f"{given.copy!r} is no name of a copy at the second place, as"
                      " nightly-000012-2025-03-03T023000.db", 2)
    if given.identity:
        answers.file(given.identity)
    if not re.fullmatch(r"[^-].*|", given.place):
        raise Refused(f"{given.place!r} is no place", 2)


def see_free(register: Register, is_confirmed: bool) -> None:
    """Refuses a register that is here, unless it cannot be read: then it is made again."""
    if not register.is_made:
        return
    program("admissions")
    try:
        stored(register.file)
    except (OSError, Refused, ValueError) as error:
        answers.confirm(f"{register.file} cannot be read ({error}). It is kept beside the one that"
                        f" is made on {os.uname().nodename} from the second place", is_confirmed)
        return
    raise Refused(f"{register.file} is there already, so this machine does not take over. To"
                  f" put a copy in its place: admissions-admin restore {register.name}")


def main(given: argparse.Namespace) -> int:
    """Takes the register over, and prints what is next, in its order."""
    status = taken(given)
    register = named(given.name)
    for number, it in enumerate(next_steps(register), 1):
        print(f"next, {number}: {it}", flush=True)
    return status


def taken(given: argparse.Namespace) -> int:
    """Fetches the copies, has the register set up from the last one, or from the one that is
    named, and prints what it lacks. Until that is printed the takeover is not over, and goes on
    when it is typed again."""
    serving.see_needed()
    checked(given)
    register = named(given.name)
    wanted = (given.copy or "").removesuffix(sealed.END)
    found = brought.begun(register)
    if found and found.verb != "takeover":
        found = None
    if found and wanted not in ("", found.copy):
        if register.is_made:
            raise Refused(f"{register.file} is made from {found.copy} already. To begin again with"
                          " another copy, end this takeover without --copy, and delete the register"
                          f" (admissions-admin retire {register.name} --early REASON, without"
                          " --second-place)")
        # (people and settings are taken after the register is made)
        found = None
    if found:
        copy = register.copies / found.copy
        print(f"goes on with the takeover of {register.name} from {copy}", flush=True)
    else:
        see_free(register, given.yes)
        if given.no_copies:
            copy_nowhere()
        copy = fetching.fetch(given.name, given.place, wanted, given.identity)
        brought.keep(register, brought.Begun(copy.name))
    given.copy = str(copy)
    if register.is_made:
        # (it may be damaged, or open)
        serving.stop(register)
    put_people_aside(register, given.yes)
    status = setup.set_up_as_given(given)
    own_places(register, given.place)
    if given.no_copies:
        # (the archive of the copy has brought no place here, and the status asks for one now)
        second_copy.keep_line("")
    brought.forget(register)
    return status


def put_people_aside(register: Register, is_confirmed: bool) -> None:
    """Puts the file of an application that is here and cannot be read aside: that of the copy takes
    its place."""
    try:
        people.users_of(register)
    except Refused as error:
        answers.confirm(f"{error}. It is kept aside on {os.uname().nodename}, and the one beside"
                        " the copy takes its place", is_confirmed)
        serving.stop(register)
        with office_store.put_aside(register) as aside:
            print(f"what was there is kept in {aside}: remove it when all is well", flush=True)


def copy_nowhere() -> None:
    """Has this machine copy to no second place, unless it serves a register: that would end its own
    copies."""
    if second_copy.line_of() == second_copy.NONE:
        return
    if all_registers():
        raise Refused("this machine serves a register: nothing was changed")
    second_copy.keep_line(second_copy.NONE)


def own_places(register: Register, place: str) -> None:
    """Makes this machine the owner of the place that it has taken over from, and of that to which
    it copies: the first machine stops then. A rehearsal, which copies nowhere, leaves both."""
    copies_to = second_copy.place_of()
    for it in sorted({place.rstrip("/") or copies_to, copies_to} if copies_to else ()):
        try:
            second_copy.own(register, str(it), USER)
        except Refused as error:
            print(f"WARNING: {it} is still the place of the machine that is taken over, as the file"
                  f" {second_copy.OWNER} cannot be written there: {error}")


def next_steps(register: Register) -> typing.Iterator[str]:
    """What is to be done after a takeover, in this order: the screen is reached by the name of the
    site alone, and with a certificate that browsers trust."""
    identity = SETTINGS / sealed.IDENTITY
    if identity.exists():
        yield (f"rm {identity}, which opens all copies at the second place, unless the nightly"
               " copies of this machine shall be opened with it")
    if line := second_copy.line_of():
        yield f"copies go to {line} from now on; another place: admissions-admin second-place PLACE"
    else:
        yield "admissions-admin second-place PLACE, to which copies go from now on"
    yield (f"admissions-admin people {register.name}, and --remove each person who has left since"
           " that night")
    if certificates.is_self_signed(certificates.paths(register)[1]):
        yield (f"let a CA sign {certificates.paths(register)[2]}, and type"
               f" {certificates.command(register)}: browsers that know the site let nobody past"
               " the present certificate")
    yield f"lead {register.host} to this machine (DNS)"
    yield "the office sends again what waits on its screen Copies"
