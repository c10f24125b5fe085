"""The day from which a register may be deleted: kept in a file of root, which the office's
application cannot write; and the record of a deletion beside it.

The application asks for a day by a number, and cannot be trusted: it may be told what to ask by
whoever has broken into it. So a day is kept only if it is ahead by a notice, which
`admissions-admin status` reports meanwhile, and after the last day of the register's lists.
"""
import datetime
import json
import os
import pathlib
import stat

from office.core.days import DELETION_NOTICE

from . import files
from .office_requests import Wrong
from .registers import NAME, SETTINGS, Register, all_registers, stored


def today() -> datetime.date:
    """The day by the clock of this machine."""
    return datetime.date.today()


def day_of(number: int) -> datetime.date:
    """The day of a number, as 20260131."""
    try:
        return datetime.date(number // 10000, number // 100 % 100, number % 100)
    except ValueError as error:
        raise Wrong("NoDay", f"{number} is no day") from error


def place(register: Register) -> pathlib.Path:
    """The file of the day."""
    return register.settings / "deletion-day"


def record_place(register: Register) -> pathlib.Path:
    """The record of a deletion."""
    return register.settings / "deleted"


def text_of(path: pathlib.Path) -> str:
    """What a file of whoever runs this has, and of nobody else; an empty text where none is."""
    try:
        fd = os.open(path, os.O_RDONLY | files.AS_IT_IS)
    except FileNotFoundError:
        return ""
    except OSError as error:
        raise Wrong("NotKept", f"{path} cannot be read: {error.strerror}") from error
    with open(fd, encoding="ascii", errors="replace") as file:
        found = os.fstat(fd)
        if not stat.S_ISREG(found.st_mode) or found.st_uid != os.geteuid() or found.st_mode & 0o022:
            raise Wrong("NotKept", f"{path} may have been written by somebody else")
        return file.read(4096)


def kept(register: Register) -> datetime.date | None:
    """The day that is kept, if there is one."""
    text = text_of(place(register)).strip()
    try:
        return datetime.date.fromisoformat(text) if text else None
    except ValueError as error:
        raise Wrong("NotKept", f"{place(register)} has no day as 2026-01-31") from error


def keep(register: Register, number: int) -> datetime.date:
    """Keeps a day, or refuses it. It replaces the one before."""
    day, last = day_of(number), stored(register.file).days[2]
    if day < today() + DELETION_NOTICE:
        raise Wrong("TooSoon", f"the day of deletion must be {DELETION_NOTICE.days} days ahead at"
                    " least, so that IT support can object")
    if day <= last:
        raise Wrong("ListsOpen", f"the lists of the register end on {last.isoformat()}: the day of"
                    " deletion must be later")
    files.write(place(register), f"{day.isoformat()}\n", 0o644)
    sync(register)
    return day


def record_of(register: Register) -> dict[str, str]:
    """The record of a deletion that has begun or ended; nothing where there was none."""
    text = text_of(record_place(register))
    try:
        found = json.loads(text) if text else {}
        return {str(name): str(it) for name, it in found.items()}
    except (ValueError, AttributeError) as error:
        raise Wrong("NotKept", f"{record_place(register)} is no record of a deletion") from error


def day_in(found: dict[str, str]) -> datetime.date | None:
    """The day of a record, if there is one."""
    try:
        return datetime.date.fromisoformat(found["day"]) if "day" in found else None
    except ValueError as error:
        raise Wrong("NotKept", "the record of a deletion has no day as 2026-01-31") from error


def registers_of_record() -> list[Register]:
    """The registers of this machine by name, and those that were deleted on it."""
    names = {it.parent.name for it in SETTINGS.glob("*/deleted")}
    deleted = {it for it in names if NAME.fullmatch(it)}
    return [Register(it) for it in sorted(deleted | {it.name for it in all_registers()})]


def record(register: Register, found: dict[str, str]) -> None:
    """Writes the record, which a loss of power leaves there."""
    files.write(record_place(register), json.dumps(found, sort_keys=True) + "\n", 0o644)
    sync(register)


def forget(register: Register) -> None:
    """Forgets the day."""
    place(register).unlink(missing_ok=True)
    sync(register)


def sync(register: Register) -> None:
    """Makes the names of these files durable."""
    with files.closing(os.open(register.settings, files.FOLDER)) as fd:
        os.fsync(fd)
