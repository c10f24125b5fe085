"""After a break-in: takes the site down, keeps what is on the machine, and looks
on another machine what of it is true.

  admissions-admin evidence --stop
  admissions-admin evidence --keep PLACE
  admissions-admin evidence --open PLACE
  admissions-admin evidence NAME --compare COPIES [--identity FILE]
  admissions-admin evidence NAME --check COPY

On the machine itself --stop ends all that serves, copies or sends, and nginx,
which stays off after a restart; --keep puts journal and files onto a disk that
is mounted at PLACE, and prints the digest to write down. All else is done on a
new machine. --open verifies the disk, unpacks it into /root/seized, and names
each program that is not that of this release. --compare names each copy of
the machine that differs from the one in COPIES, the second place, or is not
there; what is encrypted there is decrypted into /root/copies, with FILE.
--check makes the register of COPY with what the seized history has since then,
in /root/check, and prints what in the seized register is otherwise: that was
changed past the history.

example:
  admissions-admin evidence --keep /mnt/evidence
"""
import argparse
import datetime
import difflib
import gzip
import hashlib
import json
import os
import pathlib
import shutil
import subprocess
import typing

from office.web.copies import rehearsal as restores_rehearsal
from register_files import Refused

from .. import answers, copies, histories, sealed, serving
from ..programs import call, program, tool
from ..registers import COPIES, OFFICES, REGISTERS, Register, named

ROOM = pathlib.Path("/root")
SUMS = "SHA256SUMS"
MACHINE = "machine.tar.gz"
# what is kept of the machine, below its root
KEPT = ("etc", "home", "root", "usr/bin/admissions*", "usr/sbin/admissions*", "usr/lib/admissions",
        "usr/share/admissions", "var/log", "var/lib/admissions", "var/lib/admissions-office",
        "var/backups/admissions")
ROOT = pathlib.Path("/")
PROGRAMS = ("usr/bin/admissions*", "usr/sbin/admissions*", "usr/lib/admissions/**/*",
            "usr/share/admissions/**/*")
WHO = ("SYSLOG_IDENTIFIER=admissions-sign-in", "+", "SYSLOG_IDENTIFIER=admissions-history", "+",
       "SYSLOG_IDENTIFIER=admissions-admin")


def arguments(reader: argparse.ArgumentParser) -> None:
    reader.add_argument("name", nargs="?", metavar="NAME", help="the name of the register")
    what = reader.add_mutually_exclusive_group(required=True)
    what.add_argument("--stop", action="store_true", help="take the site down")
    for name, metavar, text in (
            ("keep", "PLACE", "keep journal and files there"),
            ("open", "PLACE", "verify and unpack them, on a new machine"),
            ("compare", "COPIES", "compare the copies of the machine with these"),
            ("check", "COPY", "compare the register with this copy and the history")):
        what.add_argument(f"--{name}", metavar=metavar, help=text)
    reader.add_argument("--identity", metavar="FILE", help="what opens encrypted copies")
    answers.add_yes(reader)


def main(given: argparse.Namespace) -> int:
    if given.stop:
        return stop(given.yes)
    if given.keep:
        return keep(mounted(given.keep))
    if given.open:
        return unpack(pathlib.Path(given.open), given.yes)
    if not given.name:
        raise Refused("NAME is missing: of which register?", 2)
    if given.compare:
        return compare(named(given.name), pathlib.Path(given.compare), given.identity)
    return check(named(given.name), pathlib.Path(answers.file(given.check)))


def stop(is_confirmed: bool) -> int:
    """Ends all that serves, copies or sends. A backup that is stopped starts the server once
    more, which the last line ends."""
    answers.confirm(f"on {os.uname().nodename} nginx with all its sites, and all offices, are"
                    " stopped", is_confirmed)
    serving.systemctl("mask", "--now", "nginx")
    for units in (("admissions-*@*.timer", "admissions-office*@*"), ("admissions-backup@*",),
                  ("admissions*@*",)):
        serving.systemctl("stop", *units)
    left = serving.systemctl("list-units", "--plain", "--no-legend",
                             "--state=active,activating,deactivating", "admissions*@*")
    if left.strip():
        raise Refused(f"these still run: {' '.join(it.split()[0] for it in left.splitlines())}")
    print("nothing is served, copied or sent any more. next: take the machine off the network,"
          " leave it on, and then: admissions-admin evidence --keep PLACE")
    return 0


def mounted(text: str) -> pathlib.Path:
    """A disk, which must be mounted."""
    path = pathlib.Path(text)
    if not path.is_absolute() or not os.path.ismount(path):
        raise Refused(f"no disk is mounted at {text}: nothing was kept", 2)
    return path


def keep(place: pathlib.Path) -> int:
    """Keeps the journal, who did what, and the files of the machine."""
    if (place / SUMS).exists():
        raise Refused(f"{place} has evidence already, which stays as it is")
    journal = tool("journalctl", "systemd")
    with gzip.open(place / "journal.gz", "wb") as out:
        with subprocess.Popen([journal, "--output=export"], stdout=subprocess.PIPE) as running:
            shutil.copyfileobj(typing.cast(typing.IO[bytes], running.stdout), out)
    if running.returncode:
        raise Refused(f"journalctl: status {running.returncode}")
    people = call(journal, "--utc", "--output=short-iso", *WHO).stdout
    (place / "people.txt").write_text(people, encoding="utf-8")
    there = [str(it.relative_to(ROOT)) for kept in KEPT for it in sorted(ROOT.glob(kept))]
    done = call(tool("tar", "tar"), "-c", "-z", "-p", "--numeric-owner", "-C", ROOT, "-f",
                place / MACHINE, *there, may_fail=True)
    # (a file that changed meanwhile is kept as it was read)
    if done.returncode not in (0, 1):
        raise Refused(f"tar: {done.stderr.strip()}")
    names = ("journal.gz", "people.txt", MACHINE)
    sums = "".join(f"{sealed.digest(place / it)}  {it}\n" for it in names)
    (place / SUMS).write_text(sums, encoding="ascii")
    print(f"write down: {hashlib.sha256(sums.encode()).hexdigest()}")
    return 0


def unpack(place: pathlib.Path, is_confirmed: bool) -> int:
    """Unpacks what was kept, as it was kept, and names programs that are none of this release."""
    if not (place / SUMS).is_file():
        raise Refused(f"{place / SUMS} is not there: is the disk mounted?", 2)
    sums = (place / SUMS).read_text(encoding="ascii")
    print(f"compare with what you wrote down: {hashlib.sha256(sums.encode()).hexdigest()}")
    for line in sums.splitlines():
        wanted, _, name = line.partition("  ")
        if "/" in name or sealed.digest(place / name) != wanted:
            raise Refused(f"{place / name} is not what was kept")
    seized = ROOM / "seized"
    if seized.exists():
        answers.confirm(f"{seized} is unpacked anew: what is there goes", is_confirmed)
    shutil.rmtree(seized, ignore_errors=True)
    seized.mkdir(mode=0o700)
    call(tool("tar", "tar"), "-C", seized, "-x", "-z", "-p", "--numeric-owner", "-f",
         place / MACHINE)
    count = 0
    for name in sorted(programs_of(ROOT) | programs_of(seized)):
        one, other = ROOT / name, seized / name
        if not (one.is_file() and other.is_file()):
            where = "the seized machine" if other.is_file() else "this machine"
            print(f"{name} is on {where} alone")
        elif one.read_bytes() != other.read_bytes():
            print(f"{name} differs")
        else:
            continue
        count += 1
    print(f"{count} programs are not those of this release, if both machines have the same")
    return 0


def programs_of(root: pathlib.Path) -> set[str]:
    """The files of the package below a root, but for units."""
    return {str(it.relative_to(root)) for pattern in PROGRAMS for it in root.glob(pattern)
            if it.is_file()}


def seized_of(folder: pathlib.Path, register: Register) -> pathlib.Path:
    """A folder of a register of the seized machine."""
    path = ROOM / "seized" / folder.relative_to(ROOT) / register.name
    if not path.is_dir():
        raise Refused(f"{path} is not there: first admissions-admin evidence --open PLACE", 2)
    return path


def compare(register: Register, place: pathlib.Path, identity: str | None) -> int:
    """Names the nightly copies of the machine that are others than at the second place."""
    here, there = seized_of(COPIES, register), place / register.name
    if not there.is_dir():
        raise Refused(f"{there} is not there: is the disk mounted? What another machine has is"
                      " brought to this one first", 2)
    if any(there.rglob(f"*{sealed.END}")):
        there = decrypted(there, register, identity)
    bad = 0
    nights = sorted(it for it in here.glob("nightly-*") if it.suffix in (".db", ".tar"))
    for it in nights:
        other = there / it.name
        if it.is_symlink() or not it.is_file():
            print(f"{it.name} is no file")
        elif not other.is_file():
            print(f"{it.name} is not in {there}")
        elif it.read_bytes() != other.read_bytes():
            print(f"{it.name} differs from {other}")
        else:
            continue
        bad += 1
    print(f"{len(nights) - bad} of {len(nights)} files of nights are equal in {there}; the {bad}"
          " others are not to be trusted. Equal ones may have been overwritten in both places")
    return 0


def decrypted(there: pathlib.Path, register: Register, identity: str | None) -> pathlib.Path:
    """A folder with all copies, decrypted; what does not open is named."""
    key = answers.identity_file(identity)
    room = ROOM / "copies" / register.name
    shutil.rmtree(room, ignore_errors=True)
    room.mkdir(parents=True, mode=0o700)
    for it in sorted(there.rglob("*")):
        target = room / it.relative_to(there)
        if it.is_dir() and not it.is_symlink():
            target.mkdir(exist_ok=True)
            continue
        # (whoever broke in may have put there what has no end)
        if it.is_symlink() or not it.is_file():
            print(f"{it.name} is no file")
            continue
        shutil.copy2(it, target)
        if it.name.endswith(sealed.END):
            try:
                shutil.copystat(target, sealed.decrypt(target, key))
            except Refused as error:
                print(f"{it.name} does not open: {error}")
            target.unlink()
    return room


def check(register: Register, copy: pathlib.Path) -> int:
    """Makes the register of a copy with what the history has since then, and compares it with the
    seized one."""
    file = seized_of(REGISTERS, register) / "reg.db"
    record = histories.of_copy(seized_of(OFFICES, register) / "history.jsonl")
    room = ROOM / "check" / register.name
    shutil.rmtree(room, ignore_errors=True)
    room.mkdir(parents=True, mode=0o700)
    then, now = room / "then.db", room / "now.db"
    call(program("admissions-restore"), copy, then)
    # (with its log, which belongs to it)
    call(program("admissions-restore"), file, now)
    since = copies.moment(copy)
    for problem in doubts(record, since):
        print(problem)
    restores_rehearsal.sent(str(then), [
        it.entry for it in record.since(since) if it.is_done and it.is_known])
    names = ("by the history", "seized")
    differences = list(difflib.unified_diff(shown(then), shown(now), *names, n=1))
    if not differences:
        print("the register is that copy with the commands of the history")
        return 0
    print("\n".join(differences))
    raise Refused("each line that begins with + or - was changed past the history")


def doubts(record: histories.Record, since: datetime.datetime) -> typing.Iterator[str]:
    """What of a history is not certain."""
    if record.problem:
        yield record.problem
    for it in record.since(since):
        if it.is_done is None:
            yield f"{it.in_words('a command or an import')}, of which no answer is known"
        elif not it.is_known:
            yield f"{it.in_words('a line that is no command here')}, which was done"
    if not record.is_on_the_way(since):
        yield ("since that copy the office has restored another one: take a nightly copy that is"
               " older than that one")


def shown(file: pathlib.Path) -> list[str]:
    """A register in lines that can be compared."""
    found = json.loads(call(program("admissions"), "show", file).stdout)
    return json.dumps(found, indent=1, ensure_ascii=False).splitlines()
