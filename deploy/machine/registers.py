"""The registers of this machine, and where the files of each are."""
import argparse
import contextlib
import dataclasses
import pathlib
import re
import sqlite3

from office.core import model
from register_files import Refused

from . import copies
from .programs import USER, call, program

NAME = re.compile("[a-z0-9]([a-z0-9-]{0,38}[a-z0-9])?")
PHASES = (model.PRIMARY, model.SECONDARY)
REGISTERS, COPIES = pathlib.Path("/var/lib/admissions"), pathlib.Path("/var/backups/admissions")
SETTINGS, OFFICES = pathlib.Path("/etc/admissions"), pathlib.Path("/var/lib/admissions-office")


@dataclasses.dataclass(frozen=True)
class Register:
    """A register by its name, which names its units and folders."""

    name: str

    @property
    def folder(self) -> pathlib.Path:
        return REGISTERS / self.name

    @property
    def file(self) -> pathlib.Path:
        return self.folder / "reg.db"

    @property
    def is_made(self) -> bool:
        """Whether there is something in its file: a crash while it was made may leave an empty
        one, or a database without a table."""
        return self.file.exists() and self.file.stat().st_size > 0 and not is_blank(self.file)

    @property
    def copies(self) -> pathlib.Path:
        return COPIES / self.name

    @property
    def settings(self) -> pathlib.Path:
        return SETTINGS / self.name

    @property
    def office(self) -> pathlib.Path:
        """The folder of its application: office.db, the history, and requests for copies."""
        return OFFICES / self.name

    @property
    def history(self) -> pathlib.Path:
        """Who did what: the file that its application writes."""
        return self.office / "history.jsonl"

    @property
    def office_copies(self) -> pathlib.Path:
        """The copies that its application has asked for, which it reads."""
        return self.copies / "office"

    @property
    def socket(self) -> pathlib.Path:
        return pathlib.Path(f"/run/admissions/{self.name}.sock")

    @property
    def office_socket(self) -> pathlib.Path:
        return pathlib.Path(f"/run/admissions-office/{self.name}.sock")

    @property
    def host(self) -> str | None:
        """The name of its site, or None."""
        try:
            return (self.settings / "site-name").read_text(encoding="utf-8").strip() or None
        except FileNotFoundError:
            return None

    def nightly_copies(self) -> list[pathlib.Path]:
        """Its nightly copies, the oldest first."""
        return copies.made(self.copies)


def named(name: str) -> Register:
    if not NAME.fullmatch(name):
        raise Refused(
            f"{name!r} is no name of a register: 1 to 40 small letters, digits and hyphens,"
            " and no hyphen at either end",
            2,
        )
    return Register(name)


def add_name(reader: argparse.ArgumentParser) -> None:
    """Adds what each command of a unit is given: the name of the register."""
    reader.add_argument("name", metavar="NAME", help="the name of the register")


def known(name: str) -> Register:
    """A register that is set up on this machine."""
    register = named(name)
    if not register.file.exists() and register.host is None:
        there = ", ".join(it.name for it in all_registers()) or "none"
        raise Refused(f"no such register: {name}; registers of this machine: {there}", 2)
    return register


def all_registers() -> list[Register]:
    """Those that have a file here, by name."""
    found = sorted(REGISTERS.glob("*/reg.db")) if REGISTERS.is_dir() else []
    return [Register(it.parent.name) for it in found if NAME.fullmatch(it.parent.name)]


def stored(file: pathlib.Path) -> model.Register:
    """What a file holds, as the program shows it: without its log, also while it is served."""
    return model.read_stored(str(file), program("admissions"), str(file))


def is_blank(file: pathlib.Path) -> bool:
    """Whether a file is a database without a table, and the program finds no register in its log
    either: `init` makes it one."""
    try:
        address = f"{file.absolute().as_uri()}?mode=ro&immutable=1"
        with contextlib.closing(sqlite3.connect(address, uri=True)) as db:
            [(tables,)] = db.execute("SELECT count(*) FROM sqlite_master")
    except sqlite3.Error:
        return False
    return tables == 0 and "NotOurs" in open_error(file, USER)


def open_error(file: pathlib.Path, as_user: str | None = None) -> str:
    """What the program prints if it does not open a file; an empty text where it does. It merges
    the log."""
    done = call(program("admissions"), "do", file, as_user=as_user, may_fail=True)
    if done.returncode == 0:
        return ""
    return ", ".join((done.stderr + done.stdout).splitlines()) or f"status {done.returncode}"
