"""Makes a register that of a copy, as the office's application has asked.

  office-restore NAME

The request is the number in the file `requests/restore` in the application's
folder: that of a copy which office-copy has made. The desk of the register
NAME is stopped, the copy is restored by admissions-restore, and the desk is
started, whatever came of it. What was there stays beside the register, with
its log if it has one, as reg.db.replaced-TIME. The answer is in
`requests/restore.done`: the name of the copy, or an error, which says which
register is there. A request that is no number of a copy is refused there, and
the desk is not stopped. Where this command is killed, the register is the one
or the other, or no program opens it until the request, which stays, is done.

example:
  office-restore secondary-2025

exit status: 0 restored; 1 not, and the line says why; 2 wrong arguments.
"""
import datetime
import os
import pathlib
import re

import register_files
from register_files import Refused

from . import copies, files, office_requests
from .office_requests import Result, Wrong
from .programs import USER, call, program
from .registers import Register, open_error

NAME = re.compile(r"office-([0-9]{6,})-[0-9-]{10}T[0-9]{6}\.db")
KEPT = re.compile(r"; what was there is kept as (.+)\n")


def copy_of(register: Register, number: int) -> pathlib.Path:
    """The copy of a number."""
    there = [(it, NAME.fullmatch(it.name)) for it in register.office_copies.glob("office-*.db")]
    found = [it for it, name in there if name and int(name[1]) == number
             and it.is_file() and not it.is_symlink()]
    if len(found) != 1:
        raise Wrong("NoCopy", f"there are {len(found) or 'no'} copies {number}")
    return found[0]


def restored(register: Register, number: int) -> Result:
    """Restores a copy, and returns its name, and that of what was there."""
    copy = copy_of(register, number)
    try:
        with office_requests.stopped(register):
            # (where this command was killed when all was done)
            if is_equal(copy, register.file):
                return {"kept": "", "restored": copy.name}
            done = call(program("admissions-restore"), copy, register.file, as_user=USER,
                        may_fail=True)
            if done.returncode == 0:
                return {"kept": set_aside(register, done.stdout), "restored": copy.name}
            said = ", ".join((done.stderr + done.stdout).splitlines())
            raise Wrong("NotRestored", f"{what_is_there(register, copy)}: {said}")
    except (OSError, Refused) as error:
        if isinstance(error, Wrong):
            raise
        raise Wrong("NotRestored", f"{what_is_there(register, copy)}: {error}") from error


def is_equal(copy: pathlib.Path, file: pathlib.Path) -> bool:
    """Whether a register is a copy, byte for byte, without a log."""
    # (as the user whose files these are, who may put something else there)
    with files.as_desk():
        if not file.exists() or register_files.has_content(f"{file}-wal"):
            return False
        with files.closing(files.opened_file(copy)) as held:
            return register_files.is_equal(held, str(file))


def what_is_there(register: Register, copy: pathlib.Path) -> str:
    """Which register is there after a restore that failed."""
    if is_equal(copy, register.file):
        return "the register is that of the copy"
    if open_error(register.file, USER):
        return "no program opens the register, and the copy must be restored once more"
    return "the register is as it was"


def set_aside(register: Register, said: str) -> str:
    """Gives what was there a name with the time, and returns it."""
    kept = KEPT.search(said)
    if not kept:
        return ""
    time = datetime.datetime.now().strftime(copies.TIME)
    name = f"{register.file}.replaced-{time}"
    try:
        with files.as_desk():
            for part in ("-wal", ""):
                if os.path.lexists(kept[1] + part):
                    register_files.name_new(kept[1] + part, name + part)
    except OSError:
        # (then it is kept under the name that it has)
        return os.path.basename(kept[1])
    return os.path.basename(name)


arguments, main = office_requests.command("restore", restored)
