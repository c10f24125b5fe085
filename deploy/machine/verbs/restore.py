"""Makes a register that of a copy of this machine, and its people too.

  admissions-admin restore [NAME] [COPY] [--people | --people-alone]

COPY is the name of a copy, as `admissions-admin copies` lists them; the newest
nightly one by default. What was sent since is undone in the register, and kept
in the history: how much that is, is shown before. The office then sends it
again on its screen Copies, where recording is paused until that is done. What
was there is kept beside the register, as reg.db.before-restore-1. With --people
also the people, notes, files and letters become those of the copy; the present
ones are kept in the folder `aside` of the application, and everybody signs in
anew. --people-alone leaves the register as it is. The office is open
afterwards, and has new copies.

If the register opens, the office itself restores, on the screen Copies: this is
for a register that does not open, and for nightly copies. A restore of the
office that is in progress ends; a draw in progress must be cancelled.

example:
  admissions-admin restore secondary-2025 nightly-000012-2025-03-03T023000.db
"""
import argparse
import os
import pathlib

from office.core import drills
from register_files import Refused

from .. import (
    answers, brought, copies, histories, office_restore, office_store, repairs, second_copy,
    serving, settings_copy,
)
from ..programs import USER, call, is_booted, program
from ..registers import Register, stored
from . import copy as copy_verb


def arguments(reader: argparse.ArgumentParser) -> None:
    reader.add_argument("words", nargs="*", metavar="NAME|COPY",
                        help="the name of the register, and of the copy")
    people = reader.add_mutually_exclusive_group()
    people.add_argument("--people", action="store_true",
                        help="bring back the people, notes, files and letters of the copy too")
    people.add_argument("--people-alone", action="store_true", help="bring back them alone")
    answers.add_yes(reader)


def main(given: argparse.Namespace) -> int:
    register, copy = chosen(given.words)
    has_people = given.people or given.people_alone
    see(register, copy, has_people)
    others = shown(register, copy, has_people, is_alone=given.people_alone)
    what = "people and files" if given.people_alone else "register"
    answers.confirm(f"on {os.uname().nodename} the {what} of {register.name}"
                    f" ({register.host or 'without a site'}) become those of {copy.name}",
                    given.yes)
    serving.stop(register)
    if not given.people_alone:
        put(register, copy, given.people)
    if has_people:
        serving.report(bring_people(register, copy))
    if not given.people_alone:
        # (without a site it has no application)
        if register.host:
            serving.report(brought.begin(register, copy, others))
        brought.forget(register)
    if not serving.start(register):
        return 1
    print(f"{register.name} is open; new copies are made", flush=True)
    print(f"made {copy_verb.made(register)}", flush=True)
    if problem := copy_verb.sent(register):
        raise Refused(problem)
    return 0


def chosen(words: list[str]) -> tuple[Register, pathlib.Path]:
    """The register, and the copy of it."""
    names = [it for it in words if not it.endswith(".db")]
    named = [it for it in words if it.endswith(".db")]
    if len(names) > 1 or len(named) > 1 or any("/" in it for it in named):
        raise Refused("type the name of the register, and that of a copy as `admissions-admin"
                      " copies` lists it", 2)
    register = answers.register_named(names[0] if names else None)
    if named:
        return register, register.copies / named[0]
    made = register.nightly_copies()
    if not made:
        how = "" if repairs.is_register(register) else f": {repairs.register_line(register)}"
        raise Refused(f"{register.copies} has no nightly copy{how}")
    return register, made[-1]


def see(register: Register, copy: pathlib.Path, has_people: bool) -> None:
    """Refuses a copy that is none, before anything is stopped."""
    if not copy.is_file() or copy.is_symlink():
        there = ", ".join(it.name for it in register.nightly_copies()[-3:]) or "none"
        raise Refused(f"{copy} is not there; the last copies: {there}", 2)
    if has_people and office_store.NAME not in settings_copy.members_of(copy):
        raise Refused(f"{copy.name} has no people beside it: restore without --people, or take"
                      " another copy")
    found = brought.begun(register)
    if found and found.verb != "restore":
        raise Refused(brought.unfinished(register))
    if said := second_copy.taken_over(register):
        raise Refused(said)
    if os.path.lexists(register.history) and (
            problem := histories.of_register(register).problem):
        raise Refused(f"{problem}. First: admissions-admin history {register.name} --mend")
    if not has_people and os.path.lexists(office_store.path_of(register)):
        try:
            office_store.people_of(register)
        except Refused as error:
            raise Refused(f"{error}: restore with --people, or --people-alone") from error
    if not is_booted():
        raise Refused("systemd does not run here, which opens the register")


def shown(register: Register, copy: pathlib.Path, has_people: bool, is_alone: bool) -> str:
    """Prints what the copy has, and what is undone. Returns what people did since beside commands,
    where their file becomes that of the copy too."""
    since = copies.moment(copy)
    print(f"{copy.name} is as at {since:%Y-%m-%d %H:%M:%S}: {drills.in_words(stored(copy))}")
    try:
        record = histories.of_register(register)
    except Refused as error:
        print(f"WARNING: what was done since then is not known: {error}")
        return ""
    found = record.since(since)
    if found and not is_alone:
        print(f"since then {len(found)} commands and imports were sent, which are undone until the"
              f" office sends them again: {histories.counted(it.entry.who for it in found)}")
    if not is_alone and not record.is_on_the_way(since):
        print("WARNING: since then the office has restored a copy, so that this one has what was"
              " undone, or lacks what was brought back")
    others = brought.others_since(record, since) if has_people else ""
    if others:
        print(f"since then people also did this, which is undone: {others}")
    return others


def put(register: Register, copy: pathlib.Path, has_people: bool) -> None:
    """Puts the copy in the place of the register. That it has not ended is kept until what came
    since waits to be sent again; not where it failed, and the register is as it was."""
    before, line = brought.begun(register), f"admissions-admin restore {register.name} {copy.name}"
    begun = brought.Begun(copy.name, line=f"{line}{' --people' * has_people}")
    brought.keep(register, begun)
    try:
        restore(register, copy)
    except (OSError, Refused):
        if before:
            brought.keep(register, before)
        elif not office_restore.is_equal(copy, register.file):
            brought.forget(register)
        raise


def restore(register: Register, copy: pathlib.Path) -> None:
    """Puts the copy in the place of the register, unless it is there already, byte for byte: a run
    that was killed has done that."""
    if office_restore.is_equal(copy, register.file):
        print(f"{register.file} is {copy.name} already", flush=True)
        return
    done = call(program("admissions-restore"), copy, register.file, as_user=USER)
    print(done.stdout.strip(), flush=True)


def bring_people(register: Register, copy: pathlib.Path) -> list[str]:
    """Puts the file of the application aside and brings back that of the copy; or puts back what
    was there."""
    data = settings_copy.members_of(copy)[office_store.NAME]
    with office_store.put_aside(register) as aside:
        return [*office_store.restored(register, data, f"{office_store.NAME} of {copy.name}"),
                f"what was there is kept in {aside}: remove it when all is well. Whoever was"
                f" removed or locked since may sign in again: admissions-admin people"
                f" {register.name}"]
