"""Moves a register: to a new machine, or to a disk and back from it.

  admissions-admin move [NAME] --pack PLACE
  admissions-admin move [NAME] --unpack PLACE
  admissions-admin move [NAME] --away PLACE
  admissions-admin move NAME --back PLACE

PLACE is a disk that is mounted and encrypted: it has personal data then, and
the key of the site. To a new machine: --pack closes the office here, makes the
last copy, sends it to the second place, and puts what is not there onto the
disk. On the new machine `admissions-admin takeover NAME` comes first, and then
--unpack. --away ends what serves the register, and moves all its files to the
disk; only what was compared there is removed here. --back brings them back.
Each goes on where it was interrupted, when it is typed again.

example:
  admissions-admin move secondary-2025 --pack /mnt/kept
"""
import argparse
import os
import pathlib
import shutil
import typing

from register_files import Refused

from .. import (
    answers, brought, certificates, files, history_copies, office_copy, office_delete, sealed,
    second_copy, serving, sites,
)
from ..programs import OFFICE, USER, call, tool
from ..registers import COPIES, OFFICES, REGISTERS, SETTINGS, Register, named
from . import certificate, copy as copy_verb

# of the application, what no copy has
BESIDE = ("archive", "gazetteer", "letters")
# of the copies, what is at the second place, or of this machine alone
LEFT = ("nightly-*", "*.report", "second-copy.sent", second_copy.OWNER, second_copy.TAKEN_OVER)
MOVED = "moved"


def arguments(reader: argparse.ArgumentParser) -> None:
    answers.add_register(reader)
    way = reader.add_mutually_exclusive_group(required=True)
    for name, text in (("pack", "on the first machine: to a new machine"),
                       ("unpack", "on the new machine, after the takeover"),
                       ("away", "to a disk"), ("back", "from a disk")):
        way.add_argument(f"--{name}", metavar="PLACE", help=text)
    answers.add_yes(reader)


def main(given: argparse.Namespace) -> int:
    if given.back:
        if not given.name:
            raise Refused("NAME is missing: which register comes back?", 2)
        back(named(given.name), mounted(given.back))
        return 0
    # (one that was killed may have moved all that tells a register)
    register = named(given.name) if given.away and given.name else answers.register_of(given)
    for place, work in ((given.pack, pack), (given.unpack, unpack), (given.away, away)):
        if place:
            work(register, mounted(place), given.yes)
    return 0


def mounted(text: str) -> pathlib.Path:
    """A disk, which must be mounted: otherwise all would go onto this machine's own."""
    path = pathlib.Path(text)
    if not path.is_absolute() or not os.path.ismount(path):
        raise Refused(f"no disk is mounted at {text}: nothing was moved", 2)
    return path


def pack(register: Register, place: pathlib.Path, is_confirmed: bool) -> None:
    """Makes the last copy once the office is closed, and puts the rest onto the disk."""
    target = place / f"{register.name}.tar"
    if target.exists():
        raise Refused(f"{target} is there already: give it another name, unless it is of this move:"
                      f" then {register.name} is packed")
    there = second_copy.place_of()
    if there is None:
        raise Refused("a move needs a second place that both machines reach: admissions-admin"
                      " second-place")
    answers.confirm(f"on {os.uname().nodename} the office of {register.name} is closed for good,"
                    " and moves to another machine", is_confirmed)
    serving.unmask(register)
    serving.systemctl("disable", "--now", *serving.application(register),
                      *serving.timers(register))
    copy = copy_verb.made(register)
    problem = copy_verb.sent(register)
    serving.systemctl("disable", "--now", serving.desk(register))
    # (neither an upgrade nor another verb opens it again)
    serving.close(register)
    report = register.copies / second_copy.REPORT
    line = files.content(report).decode("utf-8") if report.exists() else ""
    if problem or f"{copy.name}{sealed.END} is in {there}/{register.name}, " not in line:
        raise Refused(f"{problem or f'{copy.name} is not at the second place'}. Correct that and"
                      " type it again; or, to stay here: admissions-admin open"
                      f" {register.name}")
    key, crt, _ = certificates.paths(register)
    for it in (crt, key):
        files.write(place / f"{register.name}{it.suffix}", it.read_bytes(), 0o600)
    beside = [register.office / it for it in BESIDE if (register.office / it).exists()]
    part = place / f"{register.name}.part"
    names = [str(it.relative_to("/")) for it in (register.copies, *beside)]
    excluded = [f"--exclude={it}" for it in (
        *LEFT, (register.copies / history_copies.FOLDER).relative_to("/"))]
    call(tool("tar", "tar"), "-c", "-p", "-C", "/", "-f", part, *excluded, *names)
    part.chmod(0o600)
    part.rename(target)
    print(f"{register.name} is packed. next: bring the disk to the new machine, and there:"
          f" admissions-admin takeover {register.name} {there}; then admissions-admin move"
          f" {register.name} --unpack {place}")


def unpack(register: Register, place: pathlib.Path, is_confirmed: bool) -> None:
    """Takes what the second place did not have; what is here already stays as it is."""
    source = place / f"{register.name}.tar"
    if not source.is_file():
        raise Refused(f"{source} is not there: nothing was unpacked", 2)
    if said := brought.unfinished(register):
        raise Refused(said)
    if not register.is_made:
        raise Refused(f"first: admissions-admin takeover {register.name}")
    key, crt = (str(place / f"{register.name}.{it}") for it in ("key", "crt"))
    host = register.host or ""
    certificate.see(register, crt, key, host, is_confirmed)
    units = serving.application(register)
    serving.systemctl("stop", *units)
    try:
        extract(register, source)
        serving.report(certificate.taken(register, crt, key))
        serving.report(sites.make_all())
    finally:
        serving.systemctl("start", *units)
    print(f"made {copy_verb.made(register)}", flush=True)
    if problem := copy_verb.sent(register):
        raise Refused(problem)
    print(f"{register.name} is moved. next: lead {host} to this machine; keep the first machine for"
          f" some days, then there: admissions-admin retire {register.name} --early 'moved to"
          " another machine', never with --second-place; and remove what is on the disk")


def extract(register: Register, source: pathlib.Path) -> None:
    """Unpacks each of the two folders as the user whose it is: no link that a service puts there
    leads root anywhere."""
    users = {USER: register.copies, OFFICE: register.office}
    for user, folder in users.items():
        others = [f"--exclude={it.relative_to('/')}" for it in users.values() if it != folder]
        # (the disk is root's)
        with source.open("rb") as file, files.acting_as(user):
            call(tool("tar", "tar"), "-x", "-p", "--skip-old-files", "-C", "/", *others, "-f", "-",
                 given=file)
    for it in register.office_copies.glob("office-*.db"):
        if it.is_file() and not it.is_symlink():
            office_copy.give(it)


def folders_of(register: Register) -> list[pathlib.Path]:
    """All that a register has on this machine."""
    return [it / register.name for it in (REGISTERS, OFFICES, COPIES, SETTINGS)]


def at(place: pathlib.Path, register: Register, folder: pathlib.Path) -> pathlib.Path:
    """Where a folder of a register is on the disk."""
    return place / register.name / folder.relative_to("/")


def away(register: Register, place: pathlib.Path, is_confirmed: bool) -> None:
    """Moves all files to the disk. One that was killed has removed only what is there."""
    kept = place / register.name
    if (kept / MOVED).exists():
        raise Refused(f"{kept} is of a move that has ended: give it another name")
    if not any(map(os.path.lexists, (*folders_of(register), kept))):
        raise Refused(f"no register {register.name} is here: nothing was moved", 2)
    see_room(register, place)
    answers.confirm(f"all files of {register.name} ({register.host or 'without a site'}) move from"
                    f" {os.uname().nodename} to {kept}", is_confirmed)
    files.folder(kept, 0o700)
    serving.unmask(register)
    serving.systemctl("disable", "--now", *serving.office_units(register), serving.desk(register),
                      *serving.timers(register))
    serving.systemctl("stop", f"admissions-network@{register.name}.service")
    # (what has failed concerns nothing here any more)
    serving.systemctl("reset-failed", f"admissions*@{register.name}.*", may_fail=True)
    for folder in folders_of(register):
        moved_from(folder, kept, at(place, register, folder))
    (kept / MOVED).touch()
    for it in (sites.ENABLED, sites.AVAILABLE):
        (it / f"admissions-{register.name}").unlink(missing_ok=True)
    serving.report(sites.make_all())
    print(f"{register.name} is in {kept}; to bring it back: admissions-admin move"
          f" {register.name} --back {place}")


def see_room(register: Register, place: pathlib.Path) -> None:
    """Refuses a disk without room, before anything is stopped: what one that was killed has copied
    there takes no more."""
    here = [it for it in folders_of(register) if os.path.lexists(it)]
    there = [at(place, register, it) for it in here]
    needed = office_delete.counted(here)[1] - office_delete.counted(there)[1]
    free = shutil.disk_usage(place).free
    if needed > free:
        raise Refused(f"{place} has {free:,} bytes free, and {needed:,} are needed: nothing was"
                      " moved")


def moved_from(folder: pathlib.Path, kept: pathlib.Path, target: pathlib.Path) -> None:
    """Copies a folder, compares it, and removes it."""
    aside = folder.with_name(f"{folder.name}.{MOVED}")
    remove(aside)
    if os.path.lexists(folder):
        call(tool("cp", "coreutils"), "-a", "--parents", folder, kept)
        call(tool("sync", "coreutils"), "-f", kept)
        compare(folder, target)
        folder.rename(aside)
        remove(aside)


def back(register: Register, place: pathlib.Path) -> None:
    """Brings all files back, where nothing of this name is here; or what is missing of them. Of a
    move that has not ended, what is here was not moved."""
    kept = place / register.name
    has_ended = (kept / MOVED).exists()
    if not kept.is_dir():
        raise Refused(f"{kept} is not there: nothing was moved", 2)
    for folder in folders_of(register):
        source = at(place, register, folder)
        if os.path.lexists(folder):
            if has_ended:
                compare(source, folder)
        elif source.is_dir():
            new = folder.with_name(f"{folder.name}.new")
            remove(new)
            call(tool("cp", "coreutils"), "-a", source, new)
            new.rename(folder)
            # (what was compared, and not wholly removed)
            remove(folder.with_name(f"{folder.name}.{MOVED}"))
    serving.report(serving.make_folders(register))
    serving.report(sites.make_all())
    serving.report(serving.other_problems(None))
    serving.start(register)
    print(f"{register.name} is here again. If this is another machine, remove"
          f" {second_copy.OWNER} in its folder at the second place, which is this machine's then")


def compare(one: pathlib.Path, other: pathlib.Path) -> None:
    """Refuses folders that are not equal, file by file."""
    try:
        call(tool("diff", "diffutils"), "-r", "--no-dereference", one, other)
    except Refused as error:
        raise Refused(f"{one} and {other} are not equal, and both stay: {error}") from error


def remove(folder: pathlib.Path) -> None:
    """Removes what an interrupted run has left, or what was moved."""
    if os.path.lexists(folder):
        shutil.rmtree(typing.cast(str, folder))
