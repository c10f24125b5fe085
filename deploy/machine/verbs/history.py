"""Shows the history of a register and its copies, and mends what was changed.

  admissions-admin history [NAME]
  admissions-admin history [NAME] --mend
  admissions-admin history [NAME] --acknowledge

The first form names the copies of the history, with their entries, and which is
whole. --mend is for a history in which a line was changed, with which the
application does not start: the last copy that is whole takes its place, and the
changed file, which is evidence, is kept in the folder `changed` beside it.
--acknowledge is for a history that was erased or cut and that the application
goes on with: `admissions-admin status` names the copies that it does not begin
with, until that is acknowledged. The copies stay.

example:
  admissions-admin history secondary-2025 --mend
"""
import argparse
import datetime
import os
import pathlib

from register_files import Refused

from .. import answers, copies, files, histories, history_copies, serving, settings_copy
from ..programs import OFFICE
from ..registers import Register

CHANGED = "changed"


def arguments(reader: argparse.ArgumentParser) -> None:
    answers.add_register(reader)
    what = reader.add_mutually_exclusive_group()
    what.add_argument("--mend", action="store_true", help="put the last whole copy in its place")
    what.add_argument("--acknowledge", action="store_true",
                      help="name what it does not begin with no more")
    answers.add_yes(reader)


def main(given: argparse.Namespace) -> int:
    register = answers.register_of(given)
    if given.mend:
        return mend(register, given)
    if given.acknowledge:
        return acknowledge(register, given)
    print(f"{register.history}: {problem_of(register) or 'whole'}")
    for it in history_copies.made(register.copies / history_copies.FOLDER):
        print(f"{it}: {copy_in_words(it)}")
    return 0


def problem_of(register: Register) -> str:
    """What is wrong with the history; nothing where it is whole."""
    try:
        return histories.of_register(register).problem
    except Refused as error:
        return str(error)


def copy_in_words(path: pathlib.Path) -> str:
    """How many entries a copy has, until when; or what is wrong with it."""
    try:
        data = history_copies.whole(path)
    except Refused as error:
        return str(error)
    entries = histories.Record(str(path), data).entries
    last = datetime.datetime.fromisoformat(entries[-1].at).astimezone()
    return f"whole, {len(entries):,} entries, the last of {last:%Y-%m-%d %H:%M}"


def mend(register: Register, given: argparse.Namespace) -> int:
    """Puts the last whole copy in the place of a history that was changed."""
    problem = problem_of(register)
    if not problem:
        print(f"the history of {register.name} is whole, and stays as it is")
        # (one that was killed has not started it)
        serving.start_application(register)
        return 0
    copy, data = last_whole(register)
    aside = register.office / CHANGED
    answers.confirm(f"{problem}. The history of {register.name} becomes the one of {copy.name}:"
                    f" {copy_in_words(copy)}. The present file is kept in {aside}", given.yes)
    serving.systemctl("stop", *serving.application(register))
    if os.path.lexists(register.history):
        now = datetime.datetime.now().strftime(f"{copies.TIME}-%f")
        files.put_aside(register.history, aside, f"history-{now}.jsonl")
    files.write_as(OFFICE, register.history, data)
    print(f"took {register.history} from {copy}", flush=True)
    serving.start_application(register)
    print(f"next: the entries since that copy are in {aside} and in the journal alone. Find out who"
          " could write the file: the user of the application, and root")
    return 0


def last_whole(register: Register) -> tuple[pathlib.Path, bytes]:
    """The last copy of the history that is whole, with its lines."""
    folder = register.copies / history_copies.FOLDER
    for it in reversed(history_copies.made(folder)):
        try:
            return it, history_copies.whole(it)
        except Refused as error:
            print(error)
    raise Refused(f"no copy in {folder} is whole: nothing was changed")


def acknowledge(register: Register, given: argparse.Namespace) -> int:
    """Acknowledges that the history does not begin with copies of it, and copies it again, so that
    the report beside the copies has that too."""
    found = history_copies.unlike(register)
    if not found:
        print(f"the history of {register.name} begins with each of its copies")
        return 0
    answers.confirm(f"that the history of {register.name} does not begin with {', '.join(found)} is"
                    " named no more", given.yes)
    history_copies.acknowledge(register, found)
    return settings_copy.main(argparse.Namespace(name=register.name))
