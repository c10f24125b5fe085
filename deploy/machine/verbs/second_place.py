"""Names the second place for the copies of all registers, another disk or
another machine, and the key for which they are encrypted there.

  admissions-admin second-place
  admissions-admin second-place PLACE [--encrypt KEY]
  admissions-admin second-place --encrypt KEY | --key-here
  admissions-admin second-place --ssh-key
  admissions-admin second-place none

The first form shows what is set. Copies leave this machine only encrypted. KEY
is the public half of a key of age, whose secret half, the identity file, is
made and kept on another machine and on paper: age-keygen -o vault.key. Where
none is set, it is asked for. PLACE is a folder of another disk, which is
mounted, or one of another machine, as copies@vault.example:copies. --ssh-key
makes the key by which the user of the copies signs in there, and prints what is
typed on that machine. --key-here makes a KEY on this machine, where none is
set, as an upgrade does for a place to which an earlier version copied
unencrypted: its identity file is lost with this machine unless you keep it
elsewhere. The line `none` says that there shall be no second place.

example:
  admissions-admin second-place /mnt/copies --encrypt age1..
"""
import argparse
import os
import pathlib

from register_files import Refused

from .. import answers, fetching, files, sealed, second_copy
from ..programs import USER, call, tool
from ..registers import COPIES, SETTINGS, all_registers

SSH = pathlib.Path("/var/lib/admissions/.ssh")
# on the other machine: an account for copies alone, and the folder that its key reaches
ACCOUNT, FOLDER = "copies", "/home/copies/vault"


def arguments(reader: argparse.ArgumentParser) -> None:
    reader.add_argument("place", nargs="?", metavar="PLACE", help="the folder there; or none")
    reader.add_argument("--encrypt", metavar="KEY", help="the public key for which to encrypt")
    reader.add_argument("--key-here", action="store_true",
                        help="make that key on this machine, where none is set")
    reader.add_argument("--ssh-key", action="store_true",
                        help="make the key for another machine, and print what is typed there")
    answers.add_yes(reader)


def main(given: argparse.Namespace) -> int:
    if given.encrypt:
        encrypt(given.encrypt, given.yes)
    if given.key_here:
        make_key()
    if given.ssh_key:
        print_key()
    if given.place:
        name(given.place.rstrip("/") or "/", given.yes)
    if not (given.encrypt or given.key_here or given.ssh_key or given.place):
        show()
    return 0


def show() -> None:
    """Prints what is set."""
    print(f"{SETTINGS / 'second-copy'}: {second_copy.line_of() or 'names no second place'}")
    key = sealed.recipient()
    print(f"{SETTINGS / sealed.RECIPIENT}: {key or 'names no key, so nothing is copied'}")
    if sealed.identity():
        print(f"{SETTINGS / sealed.IDENTITY} is here: who breaks into this machine opens all copies"
              " there")


def public_key(text: str) -> str:
    if not sealed.KEY.fullmatch(text):
        raise Refused("that is no public key of age, as age-keygen -y prints it (age1..): nothing"
                      " was changed", 2)
    return text


def encrypt(key: str, is_confirmed: bool) -> None:
    """Sets the key for which copies are encrypted from now on."""
    public_key(key)
    sealed.age()
    before = sealed.recipient() if (SETTINGS / sealed.RECIPIENT).exists() else None
    if before not in (None, key):
        answers.confirm(f"copies are encrypted for {key} and no longer for {before}: what is at the"
                        " second place still needs the identity file of that one", is_confirmed)
    if files.write(SETTINGS / sealed.RECIPIENT, key + "\n", 0o644):
        print(f"copies are encrypted for {key} from now on. What is at the second place from before"
              " stays as it is: remove it there, or give the folders there another name, and the"
              " next copy sends all that this machine has", flush=True)


def make_key() -> None:
    """Sets a key that is made here, unless one is set."""
    if key := sealed.recipient():
        print(f"copies are encrypted for {key} already")
        return
    key = sealed.make_here()
    files.write(SETTINGS / sealed.RECIPIENT, key + "\n", 0o644)
    print(f"copies are encrypted for {key} from now on. {SETTINGS / sealed.IDENTITY}, which opens"
          " them, is on this machine alone: keep it elsewhere and on paper, and remove it here."
          " What is at the second place from before is not encrypted: remove it there once all is"
          " sent again", flush=True)


def print_key() -> None:
    """Makes the key of the user of the copies, unless there is one, and prints what is typed on the
    other machine."""
    generate = tool("ssh-keygen", "openssh-client")
    files.folder(SSH, 0o700, USER, USER)
    key = SSH / "id_ed25519"
    if not key.exists():
        call(generate, "-q", "-t", "ed25519", "-N", "", "-f", key, as_user=USER)
    public = files.content_as(USER, pathlib.Path(f"{key}.pub")).decode("ascii").strip()
    print(f"""On the other machine, once, as root (it needs rsync, python3 and an ssh server):
  useradd --create-home --shell /bin/sh {ACCOUNT}
  install -d -m 700 -o {ACCOUNT} -g {ACCOUNT} {FOLDER}/copies /home/{ACCOUNT}/.ssh
and for each machine that copies or may take over, in /home/{ACCOUNT}/.ssh/authorized_keys:
  restrict,command="/usr/bin/rrsync -no-del {FOLDER}" {public}
Here it is the place {ACCOUNT}@MACHINE:copies: of second-place, or of a takeover or rehearsal""")


def name(place: str, is_confirmed: bool) -> None:
    """Names the second place, which must be there, and to which copies go encrypted alone."""
    warned = ""
    if place != second_copy.NONE and sealed.recipient() is None:
        encrypt(answers.ask("--encrypt, the public key for which copies are encrypted (age1..)",
                            public_key), is_confirmed)
    if place == second_copy.NONE:
        warned = "all copies are lost with this machine"
    elif second_copy.is_local(place):
        warned = see_folder(place)
    else:
        fetching.see_machine(place)
    before = second_copy.line_of()
    if before not in ("", place):
        warned = f"copies go no longer to {before}{'; ' if warned else ''}{warned}"
    if warned and before != place:
        answers.confirm(f"the second place is {place}: {warned}", is_confirmed)
    second_copy.keep_line(place)
    print(f"the second place is {place}")
    if place != second_copy.NONE:
        for it in all_registers():
            print(f"next: admissions-admin copy {it.name}")


def see_folder(place: str) -> str:
    """Gives a folder of this machine to the user of the copies. Returns what may be wrong."""
    path = pathlib.Path(place)
    if not path.is_absolute() or not path.is_dir():
        raise Refused(f"{place} is no folder of this machine: is the disk mounted?", 2)
    if path.stat().st_uid != files.numbers(USER, USER)[0]:
        if any(path.iterdir()) and not path.is_mount():
            raise Refused(f"{place} has files of others: name a folder of its own")
        os.chown(path, *files.numbers(USER, USER))
        print(f"gave {place} to the user {USER}")
    is_same = COPIES.is_dir() and path.stat().st_dev == COPIES.stat().st_dev
    return "it is on the disk of the first copies, and lost with it" if is_same else ""
