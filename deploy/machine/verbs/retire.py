"""Deletes a register of this machine for good, when its season is over.

  admissions-admin retire NAME [--second-place] [--early REASON] [--yes]

It stops and disables the units of the register NAME, and deletes its files:
the register with its log, all copies, the office's application with people,
history, letters and files of children, logs of earlier versions, the site,
its key and its settings, and the right of its application to the network of the
machine. The last day of its waiting lists must
have passed; --early deletes it before that, for a reason that is kept. With
--second-place its folder at the second place is deleted too, unless another
machine copies there since it has taken over; otherwise the command names what
remains there. What stays is the record, /etc/admissions/NAME/deleted: when, by
whom, how many files and bytes, and what remains. It has nothing of a child.

The command shows what it will delete, with the names of this machine and of the
site, and asks for the name of the register; without a terminal --yes confirms.
Nothing can be brought back. One that was killed is begun again and goes on.
Files that were taken away are not found, as an archive or letters; disk blocks
are not overwritten.

example:
  admissions-admin retire secondary-2025 --second-place

exit status: 0 deleted; 1 not, or something remains at the second place, and
the line says so.
"""
import argparse
import contextlib
import os
import pathlib
import shutil
import sys
import tempfile

from register_files import Refused

from .. import answers, deletion, files, network, office_delete, second_copy, serving, sites
from ..programs import USER, call, is_booted, tool
from ..registers import Register, known, named, stored

LOGS, MOST_REASON = pathlib.Path("/var/log/admissions"), 200


def arguments(reader: argparse.ArgumentParser) -> None:
    reader.add_argument("name", metavar="NAME", help="the name of the register")
    reader.add_argument("--second-place", action="store_true",
                        help="delete its folder at the second place too")
    reader.add_argument("--early", metavar="REASON",
                        help="delete it before its lists have ended, for this reason")
    reader.add_argument("--yes", action="store_true", help="confirm without a terminal")


def main(given: argparse.Namespace) -> int:
    register = named(given.name)
    record = deletion.record_of(register)
    if not anything(register) and not given.second_place:
        if record:
            print(in_words(register, record))
            return 0
        known(register.name)
    see_time(register, record, given.early)
    if given.second_place:
        see_own_place(register)
    confirm(register, given)
    record = retired(register, given)
    print(in_words(register, record))
    return 1 if given.second_place and record["remains"] else 0


def folders_of(register: Register) -> tuple[pathlib.Path, ...]:
    """The folders beside those of register and copies."""
    return register.office, LOGS / register.name


def anything(register: Register) -> bool:
    """Whether anything of a register is here beside its record."""
    settings = register.settings
    beside = [it for it in settings.iterdir() if it != deletion.record_place(register)] if (
        settings.is_dir()) else []
    places = (register.folder, register.copies, *folders_of(register), *site_of(register),
              network.outside_of(register))
    return bool(beside) or any(map(os.path.lexists, places))


def site_of(register: Register) -> list[pathlib.Path]:
    """The files of its site: the link first, by which nginx reads the other."""
    name = f"admissions-{register.name}"
    return [sites.ENABLED / name, sites.AVAILABLE / name]


def is_begun(record: dict[str, str]) -> bool:
    """Whether a deletion has begun and not ended."""
    return "began" in record and "ended" not in record


def see_time(register: Register, record: dict[str, str], reason: str | None) -> None:
    """Refuses a register whose lists have not ended, unless for a reason. A deletion that has begun
    goes on."""
    if reason is not None:
        if not reason.strip() or not reason.isprintable() or len(reason) > MOST_REASON:
            raise Refused(f"the reason is one line of 1 to {MOST_REASON} characters", 2)
        return
    if is_begun(record) or not (register.file.exists() or register.nightly_copies()):
        return
    try:
        last = stored(register.file).days[2]
    except (OSError, Refused) as error:
        raise Refused(f"{register.file} does not say when its lists end: {error}. To delete it all"
                      " the same, give a reason with --early") from error
    if deletion.today() <= last:
        raise Refused(f"the lists of {register.name} end on {last.isoformat()}, and nothing was"
                      " deleted. To delete it before that, give a reason with --early")


def see_own_place(register: Register) -> None:
    """Refuses to delete the copies of the machine that has taken over from this one. A place that
    is not reached is named once all else is deleted."""
    other = ""
    with contextlib.suppress(Refused):
        other = other_machine(register)
    if other:
        raise Refused(f"{office_delete.second_place(register)} has the copies of the machine"
                      f" {other}, which goes on with {register.name}: nothing was deleted. Type it"
                      " without --second-place; or, if that machine is off for good, remove"
                      f" {second_copy.OWNER} there first")


def other_machine(register: Register) -> str:
    """The machine whose place the folder of a register at the second place is by now, or ""."""
    place = second_copy.place_of()
    if not place or office_delete.has_nothing(place, register):
        return ""
    return second_copy.other_owner(register, place, USER)


def confirm(register: Register, given: argparse.Namespace) -> None:
    """Shows what will be deleted, and has it confirmed."""
    places = (register.folder, register.copies, *folders_of(register), register.settings)
    for it in places:
        count, size = office_delete.counted([it])
        print(f"{it}: {count} files, {size:,} bytes")
    if given.second_place and (there := office_delete.second_place(register)):
        print(f"{there}: all of it, at the second place")
    answers.confirm_name(register, "delete all of it", given.yes)


def retired(register: Register, given: argparse.Namespace) -> dict[str, str]:
    """Deletes all of it, the settings last, and returns the record."""
    files.folder(register.settings, 0o755)
    before = deletion.record_of(register)
    # (what is left of an earlier deletion is deleted under its day)
    is_left = is_begun(before) or not register.file.exists()
    day = (deletion.day_in(before) if is_left else None) or deletion.today()
    about = {"by": answers.teller(), **({"early": given.early} if given.early else {})}

    def remaining(_: Register) -> str:
        return at_second_place(register) if given.second_place else (
            office_delete.second_place(register))

    found = office_delete.delete(
        register, day, office_delete.Whole(stop, folders_of(register), about, remaining))
    for it in (register.folder, register.copies, *folders_of(register)):
        if it.is_dir():
            it.rmdir()
    keep_in(register)
    remove_site(register)
    for it in register.settings.iterdir():
        if it != deletion.record_place(register):
            if it.is_dir() and not it.is_symlink():
                shutil.rmtree(it)
            else:
                it.unlink()
    deletion.sync(register)
    return found


def stop(register: Register) -> None:
    """Stops all that uses the files of a register for good: first its application, which keeps
    them open and asks for more. Where systemd does not run, nothing does.
    """
    if is_booted():
        serving.unmask(register)
        serving.systemctl("disable", "--now", *serving.office_units(register))
        office_delete.stop(register)


def keep_in(register: Register) -> None:
    """Takes back the right of its application to the network, which a later register of this name
    would have."""
    if os.path.lexists(network.outside_of(register)):
        network.keep_in(register)
        serving.systemctl("daemon-reload")


def remove_site(register: Register) -> None:
    """Has nginx forget the site, before its key is gone."""
    there = [it for it in site_of(register) if os.path.lexists(it)]
    for it in there:
        it.unlink()
    (register.settings / "site-name").unlink(missing_ok=True)
    if there and sites.MODEL.exists():
        for line in sites.make_all():
            print(line)


def at_second_place(register: Register) -> str:
    """Deletes the folder of a register at the second place, as the user who makes the copies, and
    returns what remains there, or ""."""
    remains = office_delete.second_place(register)
    if not remains:
        return ""
    try:
        place = second_copy.place_of()
        if place and second_copy.is_local(place) and not os.path.isdir(place):
            raise Refused(f"{place} is not there: is the disk mounted?")
        if other := other_machine(register):
            raise Refused(f"it has the copies of the machine {other}")
        with tempfile.TemporaryDirectory() as room:
            os.chmod(room, 0o755)
            call(tool("rsync", "rsync"), "--recursive", "--delete", "--force", "--rsh",
                 second_copy.SSH, f"{room}/", f"{place}/{register.name}/", as_user=USER)
            left = call(tool("rsync", "rsync"), "--list-only", "--recursive", "--rsh",
                        second_copy.SSH, f"{place}/{register.name}/", as_user=USER).stdout
        return remains if len(left.splitlines()) > 1 else ""
    except Refused as error:
        print(f"admissions-admin retire: the second place: {error}", file=sys.stderr)
        return remains


def in_words(register: Register, record: dict[str, str]) -> str:
    """What the record says."""
    said = (f"{register.name} is deleted, {record.get('ended', 'not to its end')}:"
            f" {record.get('files')} files, {record.get('bytes')} bytes. The record is"
            f" {deletion.record_place(register)}")
    remains = record.get("remains")
    return f"{said}\n{remains} remains: delete it there" if remains else said
