"""Replaces the holidays of a register that has no school and no child yet.

  admissions-admin holidays [NAME] DAY..

DAY is a day that is no working day, as 2026-04-03; `none` where there is none.
The register has them from the beginning on, so it is made anew, and what was
there is kept beside it as reg.db.before-restore-1. A day outside of the season
and one on a weekend are shown before.

example:
  admissions-admin holidays secondary-2027 2027-03-26 2027-03-29
"""
import argparse
import contextlib
import pathlib
import tempfile
import typing

from office.core import texts
from register_files import Refused

from .. import answers, files
from ..programs import USER, call, is_booted, program, tool
from ..registers import Register, open_error, stored


def arguments(reader: argparse.ArgumentParser) -> None:
    reader.add_argument("words", nargs="+", metavar="NAME|DAY",
                        help="the name of the register, and its holidays")
    answers.add_yes(reader)


def main(given: argparse.Namespace) -> int:
    name = None if answers.is_day(given.words[0]) else given.words.pop(0)
    days = answers.holidays([] if given.words == [answers.NONE] else given.words)
    if not given.words:
        raise Refused("which days? Type `none` where there is none", 2)
    register = answers.register_named(name)
    found = change_of(register, days)
    if not found:
        print(f"{register.name} has just these holidays")
        return 0
    before = days_of(register.file)
    answers.see_season("", stored(register.file).year, days, given.yes)
    answers.confirm(found, given.yes)
    print(change(register, days, before))
    return 0


def days_of(file: pathlib.Path) -> list[str]:
    """The holidays of a register, in rising order."""
    return [it.isoformat() for it in stored(file).holidays]


def content_of(file: pathlib.Path) -> str:
    """What a register holds beside its season, as `2 schools, 1 child`; an empty text where it is
    empty: without a school and a child there is nothing else."""
    found = stored(file)
    schools, children = len(found.schools), len(found.children)
    counts = (schools, "school", "schools"), (children, "child", "children")
    return ", ".join(texts.count(number, one, many) for number, one, many in counts if number)


def change_of(register: Register, days: list[str]) -> str | None:
    """What these days change, in words; None where the register has just these."""
    before = days_of(register.file)
    if before == days:
        return None
    see_empty(register)
    return (
        f"the holidays of {register.name} change"
        f" from {', '.join(before) or 'none'} to {', '.join(days) or 'none'}:"
        " it is empty, and is made anew"
    )


def see_empty(register: Register) -> None:
    if content := content_of(register.file):
        raise Refused(
            f"the holidays of {register.name} cannot be changed any more, since it has {content}:"
            " they decide its days, and only an empty register is made anew."
            f" Its holidays are {', '.join(days_of(register.file)) or 'none'}"
        )


def change(register: Register, days: list[str], before: list[str]) -> str:
    """Makes the register anew with these days, while its desk is stopped. What was there is kept as
    a copy beside it."""
    season = stored(register.file)
    with files.as_desk():
        part = tempfile.TemporaryDirectory(dir=register.folder, prefix="reg.db.part-")
    with stopped(register), part as room:
        # (the file alone is the register only after the program has closed it)
        if error := open_error(register.file, as_user=USER):
            raise Refused(f"{register.file} does not open: {error}")
        see_empty(register)
        if days_of(register.file) != before:
            raise Refused(
                f"the holidays of {register.name} were changed meanwhile:"
                f" they are {', '.join(days_of(register.file))}"
            )
        new = pathlib.Path(room, "reg.db")
        size = ["--large"] * season.is_large
        call(program("admissions"), "init", new, season.phase, season.year, *days, *size,
             as_user=USER)
        done = call(program("admissions-restore"), new, register.file, as_user=USER)
    kept = done.stdout.strip().partition("; ")[2]
    return f"made {register.file} anew, with the holidays {', '.join(days) or 'none'}; {kept}"


@contextlib.contextmanager
def stopped(register: Register) -> typing.Iterator[None]:
    """The desk does not run meanwhile; if it ran before, it does afterwards."""
    control, unit = tool("systemctl", "systemd"), f"admissions@{register.name}.service"
    has_run = (
        is_booted() and call(control, "is-active", unit, may_fail=True).stdout.strip() == "active"
    )
    if has_run:
        call(control, "stop", unit)
    try:
        yield
    finally:
        if has_run:
            call(control, "start", unit)
