"""Rehearses a takeover on a machine for trials, and ends that.

  admissions-admin rehearse NAME PLACE --site HOST [--copy COPY]
    [--identity FILE]
  admissions-admin rehearse NAME --end

It takes the register over as `admissions-admin takeover` does, copies nowhere,
and leaves PLACE as it is, while the machine in use goes on: mount a disk to be
read alone. HOST is another name than that of the site in use. It prints how
long it took; it went well if the drill counts what the office had then, and one
of its people signs in. On a machine that serves another register it changes
nothing. --end deletes the register here, and nothing there; then this machine
names the second place that it named before.

example:
  admissions-admin rehearse secondary-2025 /mnt/copies --site trial.example
"""
import argparse
import time

from register_files import Refused

from .. import answers, files, second_copy
from ..registers import SETTINGS, all_registers, named
from . import drill, retire, takeover

WHY = "rehearsal of a takeover"
# the line that names the second place before the first rehearsal on this machine
BEFORE = "second-copy.before-rehearsal"


def arguments(reader: argparse.ArgumentParser) -> None:
    add = reader.add_argument
    add("name", metavar="NAME", help="the name of the register, as of its folder there")
    add("place", nargs="?", default="", metavar="PLACE", help="the second place")
    add("--site", metavar="HOST", help="the name of the site here")
    add("--copy", metavar="COPY", help="the name of an older copy there")
    add("--identity", metavar="FILE", help="the identity file that opens what is encrypted there")
    add("--end", action="store_true", help="delete what was rehearsed")
    answers.add_yes(reader)
    reader.set_defaults(is_takeover=True, no_copies=False, history=None, phase=None, year=None,
                        large=False, holiday=[], user=None, role=None, authority=None)


def main(given: argparse.Namespace) -> int:
    if given.end:
        return end(given)
    if not given.place or not given.site:
        raise Refused("PLACE and --site are missing: from where, and as which site?", 2)
    begin = time.monotonic()
    copy_nowhere()
    status = takeover.taken(given)
    print(f"it took {time.monotonic() - begin:.0f} seconds", flush=True)
    drill.main(argparse.Namespace(name=given.name, identity=None))
    print(f"next: one of the office's people signs in at https://{given.site}/, which must lead to"
          f" this machine; then admissions-admin rehearse {given.name} --end")
    return status


def copy_nowhere() -> None:
    """Has this machine copy to no second place until the rehearsals here have ended."""
    if not (SETTINGS / BEFORE).exists():
        if all_registers():
            raise Refused("this machine serves a register: nothing was changed")
        files.write(SETTINGS / BEFORE, f"{second_copy.line_of()}\n", 0o644)
    second_copy.keep_line(second_copy.NONE)


def end(given: argparse.Namespace) -> int:
    """Deletes the register here; and with the last one this machine names the second place that it
    named before."""
    if not (SETTINGS / BEFORE).exists():
        raise Refused("no rehearsal was begun on this machine: nothing was deleted")
    register = named(given.name)
    # (one that has fetched nothing has nothing to delete)
    if all_registers() or retire.anything(register):
        retire.main(argparse.Namespace(
            name=register.name, second_place=False, early=WHY, yes=given.yes))
    if not all_registers():
        line = (SETTINGS / BEFORE).read_text(encoding="utf-8").strip()
        second_copy.keep_line(line)
        (SETTINGS / BEFORE).unlink()
        print(f"the second place of this machine is {line or 'not named'}, as before")
    return 0
