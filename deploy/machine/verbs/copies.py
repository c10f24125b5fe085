"""Lists the copies of a register, and how much room a year of them needs.

  admissions-admin copies [NAME] [--second-place]

Of each copy there are its moment, its bytes, and whether people and settings
are beside it, without which a restore brings back the register alone. They are
in the order in which they were made. With --second-place it lists those there.

example:
  admissions-admin copies secondary-2025 --second-place
"""
import argparse
import os
import pathlib

from register_files import Refused

from .. import answers, copies, history_copies, sealed, second_copy
from ..programs import USER
from ..registers import SETTINGS, Register

NIGHTS = 365


def arguments(reader: argparse.ArgumentParser) -> None:
    answers.add_register(reader)
    reader.add_argument("--second-place", action="store_true", help="those at the second place")


def main(given: argparse.Namespace) -> int:
    if os.geteuid() != 0:
        raise Refused("only root can see the copies")
    register = answers.register_of(given)
    if given.second_place:
        return listed_there(register)
    nightly = register.nightly_copies()
    others = sorted(set(register.copies.glob("*.db")) - set(nightly), key=copies.moment)
    for it in (*others, *nightly):
        beside = "" if copies.settings_of(it).exists() else ", without people and settings"
        print(f"{it.name}: {copies.moment(it):%Y-%m-%d %H:%M}, {it.stat().st_size:,} bytes{beside}")
    office = len(list(register.office_copies.glob("office-*.db")))
    print(f"{len(nightly)} of each night, {len(others)} of other names, {office} that the office"
          " has made")
    if nightly:
        print(f"a year of nights like the last one needs {year_of(register, nightly[-1]):,} MB at"
              " the second place")
    return 0


def year_of(register: Register, last: pathlib.Path) -> int:
    """How many MB a year of nights like the last one takes: a longer copy of the history is
    written beside the one that it replaces."""
    beside = copies.settings_of(last)
    night = sum(it.stat().st_size for it in (last, beside) if it.exists())
    folder = register.copies / history_copies.FOLDER
    history = sum(it.stat().st_size for it in history_copies.made(folder))
    return (NIGHTS * night + 2 * history) // 1_000_000 + 1


def listed_there(register: Register) -> int:
    """Lists the copies at the second place, by their numbers."""
    place = second_copy.place_of()
    if place is None:
        raise Refused(f"no second place is named in {SETTINGS / 'second-copy'}")
    found = second_copy.sizes(f"{place}/{register.name}/", USER)
    names = [it for it in found if copies.NAME.fullmatch(it.removesuffix(sealed.END))]
    for name in sorted(names, key=lambda it: copies.number(pathlib.Path(plain(it)))):
        archive = f"{plain(name).removesuffix('.db')}.tar"
        has_people = archive in found or f"{archive}{sealed.END}" in found
        beside = "" if has_people else ", without people and settings"
        print(f"{name}: {found[name]:,} bytes{beside}")
    print(f"{len(names)} copies in {place}/{register.name}")
    return 0


def plain(name: str) -> str:
    """The name of a copy before it was encrypted."""
    return name.removesuffix(sealed.END)
