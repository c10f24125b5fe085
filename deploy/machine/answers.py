"""What admissions-admin is given: each option or answer is taken in one form, and what cannot be
taken is named as it was typed."""
import argparse
import contextlib
import datetime
import os
import pathlib
import re
import socket
import sys
import typing

from register_files import Refused

from . import sites
from .registers import PHASES, Register, all_registers, known

MOST_HOLIDAYS = 40
DAY = re.compile(r"\d{4}-\d\d-\d\d", re.ASCII)
NONE = "none"
SATURDAY = 5
Taken = typing.TypeVar("Taken")


def phase(text: str) -> str:
    if text not in PHASES:
        raise Refused(f"{text!r} is no phase: type primary or secondary, in small letters", 2)
    return text


def year(text: str) -> int:
    if not re.fullmatch(r"\d{4}", text, re.ASCII) or not 2000 <= int(text) <= 2100:
        raise Refused(f"{text!r} is no year of entry: it is from 2000 to 2100", 2)
    return int(text)


def yes_or_no(text: str) -> bool:
    if text not in ("yes", "no"):
        raise Refused(f"{text!r} is no answer: type yes or no", 2)
    return text == "yes"


def is_day(text: str) -> bool:
    """Whether a word is meant for a day, and not for the name of a register."""
    return text == NONE or text[:1].isdigit() and not text[-1:].isalpha()


def holidays(texts: list[str]) -> list[str]:
    """The days in rising order, each once."""
    for it in texts:
        try:
            if not DAY.fullmatch(it):
                raise ValueError
            datetime.date.fromisoformat(it)
        except ValueError as error:
            raise Refused(f"{it!r} is no day: write YYYY-MM-DD, as 2026-04-03", 2) from error
    if len(texts) > MOST_HOLIDAYS:
        raise Refused(f"{len(texts)} holidays are too many: there are at most {MOST_HOLIDAYS}", 2)
    return sorted(set(texts))


def doubts_of(name: str, year_of: int, days: list[str]) -> list[str]:
    """What may be wrong of the season of a new register, or of its holidays: a line each."""
    found = [f"the name {name} has the year {it}, and the register is for {year_of}"
             for it in re.findall(r"(?<!\d)20\d\d(?!\d)", name) if int(it) != year_of]
    # (applications are made from September on, and the lists end with the year)
    first, last = datetime.date(year_of - 1, 9, 1), datetime.date(year_of, 12, 31)
    for it in days:
        day = datetime.date.fromisoformat(it)
        if not first <= day <= last:
            found.append(f"{it} is not in the season for {year_of},"
                         f" {first.isoformat()} to {last.isoformat()}")
        elif day.weekday() >= SATURDAY:
            found.append(f"{it} is a {day:%A}, which is no working day anyway")
    return found


def host(text: str) -> str:
    if not sites.HOST.fullmatch(text):
        raise Refused(
            f"{text!r} is no name of a site: it has small letters, digits, hyphens and at"
            " least one point",
            2,
        )
    if text.rpartition(".")[2].isdigit():
        raise Refused(
            f"{text!r} is an address, and a site has a name. No DNS name? Choose one, as"
            f" admissions.example, and put the line '{text} admissions.example' into the hosts"
            " file of each browser's machine",
            2,
        )
    return text


def authority(text: str) -> str:
    if not text.strip() or not text.isprintable():
        raise Refused(f"{text!r} is no name of an authority: it is one line", 2)
    return text


def file(name: str) -> str:
    """The path of a file that is there, from the root on: openssl is called in another folder."""
    path = os.path.abspath(name)
    if not os.path.isfile(path):
        raise Refused(f"{path} is not there, or is no file", 2)
    return path


def identity_file(name: str | None) -> pathlib.Path:
    """The identity file that is given, or that is typed on the terminal."""
    what = "--identity, the identity file that opens the encrypted copies"
    return pathlib.Path(file(name) if name else ask(what, file))


def ask(question: str, take: typing.Callable[[str], Taken], default: str = "") -> Taken:
    """What is typed on the terminal for a question, which is repeated until the answer can be
    taken."""
    if not sys.stdin.isatty():
        raise Refused(f"not given: {question}", 2)
    while True:
        print(f"{question}{f' [{default}]' if default else ''}: ", end="", flush=True)
        line = sys.stdin.readline()
        if not line:
            raise Refused("the input ended")
        try:
            return take(line.strip() or default)
        except Refused as error:
            print(error)


def confirm(what: str, is_confirmed: bool) -> None:
    """Goes on only where `what` is confirmed: by --yes, or by the answer yes on a terminal."""
    if is_confirmed:
        return
    if not sys.stdin.isatty():
        raise Refused(f"{what}: nothing was changed; if this is right, repeat it with --yes", 2)
    print(f"{what}. Type yes to do it: ", end="", flush=True)
    if sys.stdin.readline().strip() != "yes":
        raise Refused("nothing was changed")


def see_season(name: str, year_of: int, days: list[str], is_confirmed: bool) -> None:
    """Shows what may be wrong of the year and the holidays of a register, and has it confirmed."""
    if doubts := doubts_of(name, year_of, days):
        if is_confirmed:
            print("\n".join(f"WARNING: {it}" for it in doubts), flush=True)
        confirm("; ".join(doubts), is_confirmed)


def add_yes(reader: argparse.ArgumentParser) -> None:
    """Adds the option that confirms without a question."""
    reader.add_argument("--yes", action="store_true", help="do not ask whether this is right")


def add_register(reader: argparse.ArgumentParser) -> None:
    """Adds the name of the register."""
    reader.add_argument("name", nargs="?", metavar="NAME",
                        help="the name of the register; the only one of this machine by default")


def register_of(given: argparse.Namespace) -> Register:
    """The register that is given."""
    return register_named(given.name)


def register_named(name: str | None) -> Register:
    """The register of a name, or the only one of this machine."""
    if name is not None:
        return known(name)
    found = all_registers()
    if len(found) != 1:
        there = ", ".join(it.name for it in found) or "none"
        raise Refused(f"which register? NAME is missing; registers of this machine: {there}", 2)
    return found[0]


def confirm_name(register: Register, what: str, is_confirmed: bool) -> None:
    """Goes on with what is final only where the name of the register is typed, or by --yes. Two
    machines may have a register of the same name: what differs is the machine, and mostly the
    site."""
    if is_confirmed:
        return
    if not sys.stdin.isatty():
        raise Refused("nothing was done: without a terminal --yes confirms", 2)
    print(f"This is the machine {socket.gethostname()}, where {register.name} has"
          f" {f'the site {register.host}' if register.host else 'no site'}.")
    print(f"Type the name of the register to {what}: ", end="", flush=True)
    if sys.stdin.readline().strip() != register.name:
        raise Refused("nothing was done: another name was typed")


def teller() -> str:
    """By which name the history and the journal have whoever types a command."""
    who = os.environ.get("SUDO_USER", "")
    if not who:
        with contextlib.suppress(OSError):
            who = os.getlogin()
    has_name = who and who != "root" and who.isprintable()
    return f"administrator of the machine{f' ({who})' if has_name else ''}"
