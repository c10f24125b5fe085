"""Deletes a register whose day of deletion has come, as the office's
application has asked.

  office-delete NAME

The request is the day of deletion as a number, as 20260131, in the file
`requests/delete` in the application's folder. It must be the one in
/etc/admissions/NAME/deletion-day (see office-deletion-day), and must have come
by the clock of this machine; otherwise nothing is done. The desk, the backups,
the second copies and the drills of the register NAME are stopped and do not
start again. All files in /var/lib/admissions/NAME and
/var/backups/admissions/NAME are deleted: the register with its log, what was
kept beside it, all copies, with the people and the history. The record stays in
/etc/admissions/NAME/deleted. The answer is in `requests/delete.done`: how many
files and bytes, and what remains to be deleted by hand at the second place; or
an error. Where this command is killed, the request stays, and is done to its
end.

example:
  office-delete secondary-2025

exit status: 0 deleted; 1 not, and the line says why; 2 wrong arguments.
"""
import dataclasses
import datetime
import os
import pathlib
import stat
from collections.abc import Callable, Iterable, Mapping, Sequence

from register_files import Refused

from . import deletion, files, office_requests, second_copy
from .office_requests import Result, Wrong
from .programs import call, tool
from .second_copy import now
from .registers import SETTINGS, Register


@dataclasses.dataclass(frozen=True)
class Whole:
    """What a deletion of the whole register does beyond that of the office: how all that uses it is
    stopped, which more folders are emptied, what the record says too, and what remains at the
    second place.
    """

    stop: Callable[[Register], None]
    folders: Sequence[pathlib.Path]
    about: Mapping[str, str]
    remaining: Callable[[Register], str]


def deleted(register: Register, number: int) -> Result:
    """Deletes a register, and returns the record. One that was deleted for this day stays so."""
    day, found = deletion.day_of(number), deletion.record_of(register)
    kept = deletion.kept(register)
    is_done = found.get("day") == day.isoformat() and "ended" in found
    if kept is None and is_done and not register.file.exists():
        return found
    if kept != day:
        raise Wrong("OtherDay", "the machine keeps another day of deletion, or none")
    if deletion.today() < day:
        raise Wrong("NotYet", f"the day of deletion is {day.isoformat()}: it has not come")
    try:
        return delete(register, day)
    except (OSError, Refused) as error:
        raise Wrong("NotDeleted", f"the register is not wholly deleted: {error}") from error


def delete(register: Register, day: datetime.date, whole: Whole | None = None) -> Result:
    """Stops what uses the files, and deletes them. The record is there before the first is gone,
    and is whole after the last; the day is forgotten then, so that no other register has it.
    """
    (whole.stop if whole else stop)(register)
    folders = (register.folder, register.copies, *(whole.folders if whole else ()))
    about = whole.about if whole else {}
    found = deletion.record_of(register)
    # (one of this day that has ended is of a command that was killed before it forgot the day)
    if found.get("day") != day.isoformat():
        files_, size = counted(folders)
        found = {"day": day.isoformat(), "began": now(), "files": str(files_), "bytes": str(size)}
        deletion.record(register, {**found, **about})
    for folder in folders:
        empty(folder)
    remains = (whole.remaining if whole else second_place)(register)
    found = {**found, **about, "ended": now(), "remains": remains}
    deletion.record(register, found)
    deletion.forget(register)
    return found


def stop(register: Register) -> None:
    """Stops for good what uses the files of a register: a backup that ends, or is stopped, starts
    the second copy and the desk, so these follow it. One that has failed is forgotten, as it
    concerns nothing any more.
    """
    name, systemctl = register.name, tool("systemctl", "systemd")
    jobs = ("backup", "second-copy", "drill")
    call(systemctl, "disable", "--now", *(f"admissions-{it}@{name}.timer" for it in jobs))
    for it in jobs:
        call(systemctl, "stop", f"admissions-{it}@{name}.service")
        call(systemctl, "reset-failed", f"admissions-{it}@{name}.service", may_fail=True)
    call(systemctl, "disable", "--now", office_requests.unit_of(register))


def counted(folders: Iterable[pathlib.Path]) -> tuple[int, int]:
    """How many files there are in folders, and their bytes."""
    there = [it for it in folders if it.is_dir()]
    is_none = ("!", "-type", "d", "-printf", r"%s\n")
    sizes = call(tool("find", "findutils"), *there, *is_none).stdout.split() if there else []
    return len(sizes), sum(map(int, sizes))


def empty(folder: pathlib.Path) -> None:
    """Deletes all that is in a folder, which stays. No link is followed, and it may be deeper than
    a path can be long.
    """
    try:
        fd = os.open(folder, os.O_RDONLY | os.O_DIRECTORY | files.AS_IT_IS)
    except FileNotFoundError:
        return
    with files.closing(fd):
        for name in sorted(os.listdir(fd)):
            if stat.S_ISDIR(os.stat(name, dir_fd=fd, follow_symlinks=False).st_mode):
                call(tool("rm", "coreutils"), "-rf", "--", folder / name)
            else:
                os.unlink(name, dir_fd=fd)
        os.fsync(fd)


def second_place(register: Register) -> str:
    """What remains at the second place, where nothing is deleted from here; or ""."""
    try:
        place = second_copy.place_of()
    except Refused:
        place = f"the place that {SETTINGS / 'second-copy'} names"
    if not place or has_nothing(place, register):
        return ""
    return f"{place}/{register.name}"


def has_nothing(place: str, register: Register) -> bool:
    """Whether a place of this machine is there, and has no folder of the register."""
    return second_copy.is_local(place) and os.path.isdir(place) and not os.path.lexists(
        f"{place}/{register.name}")


arguments, main = office_requests.command("delete", deleted)
