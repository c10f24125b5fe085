"""Makes a copy of a register now, as each night makes one, and sends it to the
second place; and keeps it under a name.

  admissions-admin copy [NAME] [--keep AS]

Nobody can read or record while the register is copied, which takes some
seconds. Of the nightly copies the 30 made last are kept, and this is one of
them. With --keep a copy AS.db stays beside them, with its people in AS.tar, for
as long as the register: as before a round, an upgrade or a holiday. Where the
second place cannot be reached the copy here is made all the same.

example:
  admissions-admin copy secondary-2025 --keep before-round-1
"""
import argparse
import os
import pathlib
import re

from register_files import Refused

from .. import answers, copies, files, second_copy, serving, settings_copy
from ..programs import is_booted
from ..registers import Register

NAME = re.compile(r"(?!nightly|office)[A-Za-z0-9][A-Za-z0-9._-]{0,79}")


def arguments(reader: argparse.ArgumentParser) -> None:
    answers.add_register(reader)
    reader.add_argument("--keep", metavar="AS", help="keep it under this name")


def main(given: argparse.Namespace) -> int:
    register = answers.register_of(given)
    if given.keep:
        see_free(register, given.keep)
    if not is_booted():
        raise Refused("systemd does not run here, which makes the copies")
    copy = made(register)
    print(f"made {copy}", flush=True)
    problem = sent(register)
    if given.keep:
        kept(register, copy, given.keep)
    if problem:
        raise Refused(problem)
    return 0


def see_free(register: Register, name: str) -> None:
    """Refuses a name that is taken, before the oldest night is removed."""
    if not NAME.fullmatch(name):
        raise Refused(f"{name!r} is no name of a copy: letters, digits and . _ -, and neither"
                      " `nightly` nor `office` at its begin", 2)
    for end in ("db", "tar"):
        path = register.copies / f"{name}.{end}"
        if os.path.lexists(path):
            raise Refused(f"nothing was copied: {path} is there already: choose another name", 2)


def made(register: Register) -> pathlib.Path:
    """Has systemd back the register up, and returns the new copy."""
    unit, before = f"admissions-backup@{register.name}.service", copies.last_number(register.copies)
    try:
        serving.systemctl("start", unit)
    except Refused as error:
        raise Refused(f"no copy was made: journalctl -n 20 -u {unit} ({error})") from error
    found = register.nightly_copies()
    if not found or copies.number(found[-1]) <= before:
        raise Refused(f"no copy was made: journalctl -n 20 -u {unit}")
    return found[-1]


def sent(register: Register) -> str:
    """Has people, settings and history copied, and all of it sent to the second place. Returns what
    did not succeed, or ""."""
    unit, problem = f"admissions-second-copy@{register.name}.service", ""
    try:
        serving.systemctl("start", unit)
    except Refused as error:
        problem = f"not all was copied: journalctl -n 20 -u {unit} ({error})"
    reports = (settings_copy.REPORT, *([second_copy.REPORT] if second_copy.place_of() else []))
    for it in (register.copies / name for name in reports):
        if it.exists():
            print(files.content(it).decode("utf-8").strip(), flush=True)
    return problem


def kept(register: Register, copy: pathlib.Path, name: str) -> None:
    """Keeps a copy with its people under a name. The register comes last, so that one that was
    killed has kept nothing under the name of a register."""
    if not copies.settings_of(copy).exists():
        raise Refused(f"nothing is kept: {copies.settings_of(copy)} is not there, so people and"
                      " settings were not copied")
    for path in (copies.settings_of(copy), copy):
        files.copy_as_desk(path, register.copies / f"{name}{path.suffix}")
    moment = copies.moment(copy)
    print(f"kept {register.copies / name}.db, with its people in {name}.tar;"
          f" it is as at {moment:%Y-%m-%dT%H:%M:%S}")
