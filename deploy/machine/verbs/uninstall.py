"""Removes what is left of all registers, after each was deleted or moved away.

  admissions-admin uninstall

If a register, a copy, the file of an application, a key of a site or the
identity file is left, it names them and removes nothing; nor where an account
`admissions` takes the copies of another machine. Otherwise it removes the
folders of this package with the records of deletions, and the source of apt
with its key. The last line says how the package and its two users are removed.

example:
  admissions-admin uninstall
"""
import argparse
import pathlib
import shutil

from register_files import Refused

from .. import answers
from ..registers import COPIES, OFFICES, REGISTERS, SETTINGS
from .retire import LOGS

APT = (pathlib.Path("/etc/apt/sources.list.d/admissions.list"),
       pathlib.Path("/etc/apt/keyrings/admissions-archive.asc"),
       pathlib.Path("/var/lib/prometheus/node-exporter/admissions.prom"))
ACCOUNT = pathlib.Path("/home/admissions/.ssh")
# what cannot be made again
KEPT = ("*.db*", "site.key", "second-copy-identity")


def arguments(reader: argparse.ArgumentParser) -> None:
    answers.add_yes(reader)


def main(given: argparse.Namespace) -> int:
    if ACCOUNT.exists():
        raise Refused("the account admissions of this machine takes the copies of another: nothing"
                      " was removed")
    folders = [it for it in (REGISTERS, OFFICES, COPIES, LOGS, SETTINGS) if it.is_dir()]
    if left := sorted({path for it in folders for kept in KEPT for path in it.rglob(kept)}):
        raise Refused(f"nothing was removed: {', '.join(map(str, left))} is left. Delete or move"
                      " away each register first (admissions-admin retire, move)")
    there = [*folders, *(it for it in APT if it.exists())]
    if there:
        answers.confirm(f"{', '.join(map(str, there))} are removed, with the records of deletions",
                        given.yes)
    for it in there:
        if it.is_dir():
            shutil.rmtree(it)
        else:
            it.unlink()
        print(f"removed {it}", flush=True)
    # (apt purges nothing where it does not know one of them, and its source is gone)
    print("next: dpkg --purge admissions-pdf admissions; userdel admissions; userdel"
          " admissions-office")
    return 0
