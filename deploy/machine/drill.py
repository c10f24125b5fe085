"""Tries a restore: restores the newest nightly copy of a register into a
folder of its own, opens it, and counts what it has.

  drill NAME [--identity FILE]

The newest copy is the one that was made last, whatever the clock was. The
register itself and its copies are only read. Where a second place is named,
its copy of the same name is fetched, decrypted and tried in the same way. FILE
is the identity file of age that opens it,
/etc/admissions/second-copy-identity by default; without one the drill says that
the second copy was not tried. The last one that was is kept in
drill-opened.report. The archive of its settings is read,
and who may sign in is counted. What was restored is removed at the end. The
result is in /var/backups/admissions/NAME/drill.report, which the status
reads. A drill that fails leaves the report of the one before it, and its unit
fails.

example:
  drill secondary-2025

exit status: 0 restored and opened; 1 not, and the line says why; 2 wrong
arguments.
"""
import argparse
import pathlib
import tempfile

from office.core import drills
from register_files import Refused

from . import copies, sealed
from .programs import call, program
from .registers import Register, add_name, known, open_error, stored
from .second_copy import fetched, now, place_of, write_report
from .settings_copy import OWN, members_of, people_beside

REPORT = "drill.report"
# the last one that has opened an encrypted copy of the second place, and what the report has of one
# that has not
OPENED, NOT_TRIED = "drill-opened.report", "not tried: "


def arguments(reader: argparse.ArgumentParser) -> None:
    add_name(reader)
    reader.add_argument("--identity", metavar="FILE", type=pathlib.Path,
                        help="the identity file that opens the copies of the second place")


def main(given: argparse.Namespace) -> int:
    register, place = known(given.name), place_of()
    made = register.nightly_copies()
    if not made:
        raise Refused(f"{register.name} has no nightly copy to restore")
    lines = []
    with tempfile.TemporaryDirectory() as room:
        lines.append(f"{now()} {made[-1]}: {tried(made[-1], room)}")
        if place:
            where = f"{place}/{register.name}/{made[-1].name}{sealed.END}"
            tried_there = second_tried(given.identity, place, register, room)
            lines.append(f"{now()} {where}: {tried_there}")
    text = "".join(f"{line}\n" for line in lines)
    if place and NOT_TRIED not in lines[-1]:
        write_report(register, OPENED, f"{lines[-1]}\n")
    write_report(register, REPORT, text)
    print(text, end="")
    return 0


def second_tried(
    given: pathlib.Path | None, place: str, register: Register, room: str
) -> str:
    """The same of the newest copy at the second place, which is encrypted there."""
    copy = register.nightly_copies()[-1]
    try:
        identity = given or sealed.identity()
    except Refused as error:
        return f"{NOT_TRIED}WARNING: {error}"
    if identity is None:
        return f"{NOT_TRIED}it is encrypted, and no identity file is here ({sealed.IDENTITY})"
    if copies.settings_of(copy).exists():
        fetched(place, register, copies.settings_of(copy).name, room, identity)
    return tried(fetched(place, register, copy.name, room, identity), room)


def tried(copy: pathlib.Path, room: str) -> str:
    """Restores a copy as an office would, opens it, and counts its rows, and the people of its
    settings."""
    with tempfile.TemporaryDirectory(dir=room) as folder:
        file = pathlib.Path(folder, "reg.db")
        call(program("admissions-restore"), copy, file)
        if error := open_error(file):
            raise Refused(f"{copy} was restored, but does not open: {error}")
        return f"restored and opened, {drills.in_words(stored(file))}; {settings_text(copy)}"


def settings_text(copy: pathlib.Path) -> str:
    found = members_of(copy)
    if not found:
        return "without settings"
    if missing := set(OWN) - found.keys():
        raise Refused(f"the settings of {copy} lack {', '.join(sorted(missing))}")
    return f"settings with {len(people_beside(copy))} people and programs"
