"""Copies the nightly copies of a register to the second place, encrypted, and
compares what arrived there.

  second-copy NAME

/etc/admissions/second-copy names the place in one line, as rsync names it: a
folder of another disk, or of another machine by ssh; or it has the line
`none`, by which an office has decided against a second place. All of it is
encrypted before it leaves, as NAME.age, for the public key of age in
/etc/admissions/second-copy-recipient: without age, without a key or with a
wrong one nothing is copied. The folder NAME is made in the place. Copies that
are there stay as they are. A copy of the history is replaced by a longer one;
where the one there is longer, as another machine's may be, nothing of the
history is copied, and the line says so. Then the newest copy, the archive of
its settings and the history are fetched back and compared with what was sent.
Where /etc/admissions/second-copy-identity has the identity file, of the user
admissions alone, the copy is decrypted and opened by the program. What is there
of an earlier register of this NAME, with a greater number or another history,
is named: a takeover would go on from it; and so is what an earlier version left
there unencrypted. The result is in
/var/backups/admissions/NAME/second-copy.report, which the status reads.
Where no place is named nothing is done.

example:
  second-copy secondary-2025

exit status: 0 done, or no place is named; 1 not done, and the line says why; 2
wrong arguments.
"""
import argparse
import datetime
import hashlib
import os
import pathlib
import re
import tempfile
from collections.abc import Iterable

from register_files import Refused

from . import copies, files, history_copies, sealed
from .history_copies import FOLDER as HISTORY
from .programs import USER, call, tool
from .registers import SETTINGS, Register, known, open_error, add_name

REPORT = "second-copy.report"
# what is written where there shall be no second place
NONE = "none"
SSH = "ssh -o BatchMode=yes -o ConnectTimeout=30"
# at the second place, beside the copies: the machine whose place it is, by its number and its name;
# and beside the copies here: this one, by its number, and the place that is its own
OWNER = "owner"
MACHINE = pathlib.Path("/etc/machine-id")
# beside the copies here: the machine that has taken over. With it no server starts, and no
# application
TAKEN_OVER = "taken-over"


arguments = add_name


def main(given: argparse.Namespace) -> int:
    register, place = known(given.name), place_of()
    if place is None:
        print(f"no second place is named in {SETTINGS / 'second-copy'}")
        return 0
    text = f"{copied(register, place)}\n"
    write_report(register, REPORT, text)
    print(text, end="")
    return 0


def line_of() -> str:
    """The line that names the second place, or an empty text."""
    try:
        lines = (SETTINGS / "second-copy").read_text(encoding="utf-8").splitlines()
    except FileNotFoundError:
        return ""
    found = [line.strip() for line in lines if line.strip() and not line.lstrip().startswith("#")]
    if len(found) > 1 or found and found[0].startswith("-"):
        raise Refused(f"{SETTINGS / 'second-copy'} must have one line that names the second place")
    return found[0] if found else ""


def keep_line(line: str) -> None:
    """Keeps a line that names the second place, or none, below the remarks of its file."""
    path = SETTINGS / "second-copy"
    lines = path.read_text(encoding="utf-8").splitlines() if path.exists() else []
    remarks = [it for it in lines if it.startswith("#")]
    files.write(path, "".join(f"{it}\n" for it in (*remarks, line) if it), 0o644)


def place_of() -> str | None:
    """The second place, or None."""
    line = line_of()
    return None if line in ("", NONE) else line.rstrip("/") or "/"


def is_local(place: str) -> bool:
    """As rsync decides it: a colon before any slash names a machine."""
    return ":" not in place.partition("/")[0]


def folder_here() -> pathlib.Path | None:
    """The second place, where it is a folder of this machine that is there."""
    try:
        place = place_of()
    except (OSError, Refused):
        return None
    path = pathlib.Path(place) if place and is_local(place) else None
    return path if path and path.is_dir() else None


def rsync(*arguments: object, as_user: str | None = None) -> str:
    """Runs rsync, with what all calls share, and returns what it printed."""
    return call(
        tool("rsync", "rsync"),
        "--times",
        "--omit-dir-times",
        "--chmod=D700,F600",
        "--rsh",
        SSH,
        *arguments,
        as_user=as_user,
    ).stdout


def see_place(register: Register, place: str) -> None:
    """Refuses a folder of this machine that is not there, or that cannot be written."""
    if not os.path.isdir(place):
        raise Refused(f"{place} is not there: is the disk mounted?")
    for path in (place, f"{place}/{register.name}"):
        if os.path.isdir(path) and not os.access(path, os.W_OK | os.X_OK):
            raise Refused(
                f"{path} cannot be written by the user {USER}, who makes the copies:"
                f" chown {USER}: {path}"
            )


def own(register: Register, place: str, as_user: str | None = None) -> None:
    """Makes the folder of a register at the second place, and this machine its owner."""
    with tempfile.TemporaryDirectory() as room:
        path = pathlib.Path(room, OWNER)
        path.write_text(f"{machine()} {os.uname().nodename}\n", encoding="utf-8")
        # (that user reads them, and rsync gives the mode that they have there)
        for it, mode in ((path, 0o644), (path.parent, 0o755)):
            it.chmod(mode)
        rsync("--recursive", "--ignore-times", f"{room}/", f"{place}/{register.name}/",
              as_user=as_user)


def machine() -> str:
    """A number of this machine, from which its own cannot be known."""
    found = MACHINE.read_text(encoding="ascii").strip() if MACHINE.exists() else ""
    if not found:
        raise Refused(f"{MACHINE} has no number of this machine: systemd-machine-id-setup")
    return hashlib.sha256(f"admissions {found}".encode()).hexdigest()[:32]


def owner_of(register: Register, place: str, as_user: str | None = None) -> str:
    """The machine whose place the folder of a register there is, by its number and its name; or
    "". The folder is made if it is not there."""
    there = f"{place}/{register.name}/"
    with tempfile.TemporaryDirectory() as room:
        if as_user:
            os.chown(room, *files.numbers(as_user, as_user))
        rsync("--recursive", f"{room}/", there, as_user=as_user)
        rsync("--recursive", "--include", f"/{OWNER}", "--exclude", "*", there, f"{room}/",
              as_user=as_user)
        path = pathlib.Path(room, OWNER)
        return path.read_text(encoding="utf-8", errors="replace") if path.is_file() else ""


def other_owner(register: Register, place: str, as_user: str) -> str:
    """The name of another machine whose place the folder of a register there is, or ""."""
    number, _, name = owner_of(register, place, as_user).strip().partition(" ")
    return name or number if number not in ("", machine()) else ""


def see_owner(register: Register, place: str) -> None:
    """Refuses the place of another machine, and keeps that this one was taken over where the place
    was its own before. A place without an owner gets this one."""
    there, number = f"{place}/{register.name}", machine()
    owner = owner_of(register, place)
    # (which a register that was moved here, or a clone of the machine, has of another one)
    kept, line = register.copies / OWNER, f"{number} {place}\n"
    is_kept = kept.exists() and kept.read_text(encoding="utf-8") == line
    found, _, name = owner.strip().partition(" ")
    if not found:
        own(register, place)
    if found in ("", number):
        if not is_kept:
            files.write_as_desk(kept, line.encode())
        return
    if is_kept:
        files.write_as_desk(register.copies / TAKEN_OVER, owner.encode())
        raise Refused(taken_over(register) or "")
    raise Refused(f"{there} is the place of the machine {name or found}. Name another place in"
                  f" {SETTINGS / 'second-copy'}; or, if that machine is off for good, remove"
                  f" {OWNER} there")


def taken_over(register: Register) -> str | None:
    """What to do where another machine has taken a register over from this one, or None."""
    path = register.copies / TAKEN_OVER
    if not path.exists():
        return None
    owner = files.content(path).decode("utf-8", errors="replace").split()
    name, units = register.name, f"admissions@{register.name} admissions-office@{register.name}"
    return (f"the machine {' '.join(owner[1:]) or 'of another number'} has taken {name} over, and"
            f" copies to {place_of()}/{name}, so its office is stopped here. To open it here all"
            f" the same, switch that machine off, remove {OWNER} there, and then type:"
            f" rm {path} && systemctl start {units}")


def copied(register: Register, place: str) -> str:
    """Encrypts what is not at the second place yet, copies it, fetches back and compares. Returns
    the line of the report. Nothing is begun without a key, or the program that encrypts."""
    made = register.nightly_copies()
    if not made:
        raise Refused(f"{register.name} has no nightly copy yet")
    key = sealed.needed()
    sealed.age()
    if is_local(place):
        see_place(register, place)
    see_owner(register, place)
    there, newest = f"{place}/{register.name}/", made[-1]
    listed, sent = sizes(there), sealed.sent(register, place)
    for path in to_copy(register):
        name = str(path.relative_to(register.copies))
        is_there, first = name + sealed.END in listed, sealed.digest(path)
        # (of one from before whose digest is lost nothing is known: it stays as it is)
        is_left = name not in sent and path.stem != newest.stem and path.parent == register.copies
        if not (is_there and (is_left or sent.get(name, [""])[0] == first)):
            sent[name] = [first, send_sealed(path, there, key, listed)]
            sealed.keep_sent(register, place, sent)
    see_sealed(register, place, sent)
    opens = opened_sealed(register, place, newest)
    plain = sorted(it for it in listed if not it.endswith(sealed.END) and it != OWNER)
    return (
        f"{now()} {newest.name}{sealed.END} is in {place}/{register.name}, encrypted for"
        f" {key[:16]}.., {opens}" + warnings(register, place, listed)
        + (f"; WARNING: {len(plain)} files there are not encrypted, as {plain[0]}: they are of"
           " before, remove them there" if plain else "")
    )


def warnings(register: Register, place: str, listed: Iterable[str]) -> str:
    """What is wrong with a copy that was made."""
    is_same = is_local(place) and os.stat(place).st_dev == os.stat(register.copies).st_dev
    settings = copies.settings_of(register.nightly_copies()[-1])
    found = of_another(register, listed)
    return ("" if settings.exists() else "; WARNING: without people and settings") + (
        "; WARNING: on the same disk as the first copies" if is_same else "") + (
        f"; WARNING: {found} there is of another register of this name, from which a takeover may"
        f" go on: give the folder {register.name} there another name, and copy again"
        if found else "")


def of_another(register: Register, listed: Iterable[str]) -> str:
    """The first file at the second place that no copy of this register can have left there, or "":
    a copy with a greater number than each that was made here, or of a history that is not here."""
    last = copies.last_number(register.copies)
    names = sorted(it.removesuffix(sealed.END) for it in listed)
    return next((it for it in names if copies.number(pathlib.Path(it)) > last
                 or history_copies.NAME.fullmatch(it.removeprefix(f"{HISTORY}/"))
                 and not (register.copies / it).exists()), "")


def send_sealed(path: pathlib.Path, there: str, key: str, listed: dict[str, int]) -> str:
    """Encrypts a file and sends it. Returns the digest of what was sent. A copy of the history that
    is longer there stays."""
    folder = "" if path.name.startswith("nightly-") else f"{HISTORY}/"
    with tempfile.TemporaryDirectory() as room:
        target = pathlib.Path(room, folder, path.name + sealed.END)
        target.parent.mkdir(exist_ok=True)
        sealed.encrypt(path, target, key)
        if folder and listed.get(f"{folder}{target.name}", 0) > target.stat().st_size:
            raise Refused(too_long(f"{there}{folder}{target.name}", path))
        # (another file of the same length and second is another file)
        rsync("--recursive", "--ignore-times", f"{room}/", there)
        return sealed.digest(target)


def to_copy(register: Register) -> list[pathlib.Path]:
    """The files that belong at the second place."""
    nightly = [it for pattern in copies.PATTERNS for it in register.copies.glob(pattern)]
    return [*sorted(nightly), *history_copies.made(register.copies / HISTORY)]


def sizes(there: str, as_user: str | None = None) -> dict[str, int]:
    """The files of a folder of the second place, with their bytes."""
    words = ("--list-only", "--recursive", "--no-human-readable", there)
    listed = rsync(*words, as_user=as_user)
    found = re.findall(r"(?m)^-\S+ +(\d+) \S+ \S+ (.+)$", listed)
    return {name: int(size) for size, name in found}


def see_sealed(register: Register, place: str, sent: dict[str, list[str]]) -> None:
    """Fetches the newest copy, its settings and the history as they are there, and compares them
    with what was sent."""
    newest = register.nightly_copies()[-1]
    for path in (newest, copies.settings_of(newest), *history_copies.made(
            register.copies / HISTORY)):
        name = str(path.relative_to(register.copies))
        if path.exists():
            with tempfile.TemporaryDirectory() as room:
                back = fetched(place, register, name + sealed.END, room)
                if sealed.digest(back) != sent[name][1]:
                    raise Refused(f"{place}/{register.name}/{name}{sealed.END} is not what was"
                                  " sent")


def opened_sealed(register: Register, place: str, newest: pathlib.Path) -> str:
    """Whether the newest copy opens, as far as that can be known here."""
    try:
        identity = sealed.identity()
    except Refused as refused:
        # (the copy is made, and what is there is what was sent)
        return f"as it was sent; WARNING: not opened: {refused}"
    if identity is None:
        return "as it was sent; not opened, since its identity file is not here"
    with tempfile.TemporaryDirectory() as room:
        back = fetched(place, register, newest.name, room, identity)
        if back.read_bytes() != newest.read_bytes():
            raise Refused(f"{place}/{register.name}/{newest.name}{sealed.END} is not equal to"
                          f" {newest}")
        if error := open_error(back):
            raise Refused(f"{newest.name}{sealed.END} does not open: {error}")
    return "equal to the first copy, and opens"


def too_long(name: str, here: pathlib.Path) -> str:
    """Why a copy of the history is not replaced."""
    return (f"{name} is longer than {here}, and stays as it is."
            " Does another machine copy to the same place?"
            " Rename it there to keep it, and repeat this")


def fetched(
    place: str, register: Register, name: str, room: str, identity: pathlib.Path | None = None
) -> pathlib.Path:
    """A copy of the second place, fetched into a folder; with an identity file it is one that is
    encrypted there, and is decrypted."""
    end = sealed.END if identity else ""
    source = f"{place}/{register.name}/{name}{end}"
    call(tool("rsync", "rsync"), "--rsh", SSH, source, f"{room}/")
    back = pathlib.Path(room, pathlib.Path(name + end).name)
    return sealed.decrypt(back, identity) if identity else back


def now() -> str:
    return datetime.datetime.now().astimezone().isoformat(timespec="seconds")


def write_report(register: Register, name: str, text: str) -> None:
    """A report beside the copies, in one step."""
    files.write_as_desk(register.copies / name, text.encode())
