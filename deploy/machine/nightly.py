"""Backs up a register with a number and the time in the name of the copy, and
keeps the last copies.

  nightly FILE FOLDER KEEP

It backs up the register FILE into FOLDER by admissions-backup, which refuses a
register in use, and keeps the KEEP copies that were made last. The numbers say
which these are, so a clock that is wrong loses none; the last one is kept in
nightly.number, so none is given twice. Copies are removed only
after a backup that succeeded, each with the archive of its settings; copies of
other names (before a round) always stay.

example:
  nightly /var/lib/admissions/secondary-2025/reg.db \\
    /var/backups/admissions/secondary-2025 30

exit status: 0 backed up; 1 not, and the line says why; 2 wrong arguments.
"""
import argparse
import os
import pathlib
import sys

from . import copies
from .programs import call, program


def arguments(reader: argparse.ArgumentParser) -> None:
    reader.add_argument("file", metavar="FILE", help="the register")
    reader.add_argument("folder", metavar="FOLDER", help="where its copies are")
    reader.add_argument(
        "keep", metavar="KEEP", type=count, help="how many copies are kept, from 1 to 9999"
    )


def count(text: str) -> int:
    if not (text.isascii() and text.isdigit() and 1 <= int(text) <= 9999):
        raise argparse.ArgumentTypeError(f"{text!r} is no number from 1 to 9999")
    return int(text)


def main(given: argparse.Namespace) -> int:
    folder = pathlib.Path(os.path.abspath(given.folder))
    new = folder / copies.next_name(folder)
    done = call(program("admissions-backup"), os.path.abspath(given.file), new)
    print(done.stdout, end="")
    print(done.stderr, end="", file=sys.stderr)
    copies.keep_number(folder, new)
    for old in copies.made(folder)[: -given.keep]:
        for path in (old, pathlib.Path(f"{old}-wal"), copies.settings_of(old)):
            path.unlink(missing_ok=True)
    return 0
