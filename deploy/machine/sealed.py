"""Copies that are encrypted before they leave for the second place, by age: for the recipient whose
public key is in the settings, who keeps the identity file that opens them.

Nothing is copied there in another form: without age, without a key, or with one that is none, the
copy fails. An encrypted copy differs each time that it is made, so the digest of what
was sent is kept beside the first copies, and what is there is compared with it.
"""
import contextlib
import hashlib
import json
import os
import pathlib
import re
import tempfile
import typing

from register_files import Refused

from . import files
from .programs import USER, call, tool
from .registers import SETTINGS, Register

RECIPIENT, IDENTITY, END = "second-copy-recipient", "second-copy-identity", ".age"
SENT = "second-copy.sent"
# the first line of an identity file that this machine has made
MADE_HERE = "# made on this machine by admissions-admin"
# a folder that is in memory
MEMORY = pathlib.Path("/run")
KEY = re.compile(r"age1[0-9a-z]{58}|ssh-(?:ed25519|rsa) [A-Za-z0-9+/=]+(?: .*)?")


def recipient() -> str | None:
    """The public key for which copies are encrypted, or None where none is set. A file without a
    key is an error: it is there for copies to be encrypted."""
    path = SETTINGS / RECIPIENT
    try:
        lines = path.read_text(encoding="utf-8").splitlines()
    except FileNotFoundError:
        return None
    except (OSError, UnicodeDecodeError) as error:
        raise Refused(f"{path} cannot be read, so nothing is copied: {error}") from error
    found = [line.strip() for line in lines if line.strip() and not line.lstrip().startswith("#")]
    if len(found) != 1 or not KEY.fullmatch(found[0]):
        raise Refused(f"{path} must have one line with a public key of age, as age-keygen prints it"
                      " (age1..), so nothing is copied")
    return found[0]


def needed() -> str:
    """The public key for which copies are encrypted, without which none leaves this machine."""
    if key := recipient():
        return key
    raise Refused(f"{SETTINGS / RECIPIENT} names no key, and copies leave this machine only"
                  " encrypted: admissions-admin second-place --encrypt KEY")


def make_here() -> str:
    """Has this machine keep an identity file, which is made unless there is one. Returns its public
    key."""
    path, generate = SETTINGS / IDENTITY, tool("age-keygen", "age")
    if not path.exists():
        text = call(generate).stdout
        files.write(path, f"{MADE_HERE}\n{text}", 0o400, USER, USER)
    return call(generate, "-y", path).stdout.strip()


def is_made_here() -> bool:
    """Whether the identity file was made here, and is nowhere else as far as is known."""
    path = SETTINGS / IDENTITY
    return path.exists() and files.content_as(USER, path).startswith(MADE_HERE.encode())


def age() -> str:
    """The program that encrypts."""
    return tool("age", "age")


def encrypt(path: pathlib.Path, target: pathlib.Path, key: str) -> None:
    """Encrypts a file for a recipient into a new one."""
    call(age(), "--encrypt", "--recipient", key, "--output", target, path)


def decrypt(path: pathlib.Path, identity: pathlib.Path) -> pathlib.Path:
    """Decrypts a file beside itself, and returns the result."""
    target = path.with_name(path.name.removesuffix(END))
    try:
        call(age(), "--decrypt", "--identity", identity, "--output", target, path)
    except Refused as error:
        if "no identity matched" in str(error):
            raise Refused(f"{path.name} is encrypted for another key than that of {identity}"
                          f"{public_key_in_words(identity)}") from error
        raise Refused(f"{path.name} does not open with {identity}: {error}") from error
    return target


def public_key_in_words(path: pathlib.Path) -> str:
    """The public key of an identity file, and that for which copies are encrypted now."""
    done = call(tool("age-keygen", "age"), "-y", path, may_fail=True)
    own = done.stdout.strip() if done.returncode == 0 else ""
    with contextlib.suppress(Refused):
        now = recipient()
        if own and now:
            return f" ({own}); copies are encrypted for {now} now"
    return f" ({own})" if own else ""


def identity() -> pathlib.Path | None:
    """The identity file of this machine, if it keeps one. It is one of the user of the copies
    alone, who opens them each night: no other owner, and nobody else may read it."""
    path = SETTINGS / IDENTITY
    try:
        found = path.stat()
    except FileNotFoundError:
        return None
    if found.st_uid != files.numbers(USER, USER)[0] or found.st_mode & 0o077:
        raise Refused(f"{path} must be of the user {USER}, and nobody else may read it:"
                      f" chown {USER}: {path} && chmod 400 {path}")
    return path


@contextlib.contextmanager
def lent(file: pathlib.Path) -> typing.Iterator[pathlib.Path]:
    """An identity file for the user of the copies, in memory, and only meanwhile."""
    with tempfile.TemporaryDirectory(dir=MEMORY) as room:
        os.chown(room, *files.numbers(USER, USER))
        path = pathlib.Path(room, IDENTITY)
        files.write(path, file.read_bytes(), 0o400, USER, USER)
        yield path


def digest(path: pathlib.Path) -> str:
    """The SHA-256 sum of a file."""
    with open(path, "rb") as file:
        return hashlib.file_digest(file, "sha256").hexdigest()


def sent(register: Register, place: str) -> dict[str, list[str]]:
    """What was sent to this place last, by the name of the first copy: its digest, and that of the
    encrypted one."""
    try:
        found = json.loads((register.copies / SENT).read_text(encoding="utf-8"))
        if found.pop("place", place) != place:
            return {}
        return {str(name): [str(one), str(other)] for name, (one, other) in found.items()}
    except FileNotFoundError:
        return {}
    except (OSError, ValueError, AttributeError, TypeError) as error:
        raise Refused(f"{register.copies / SENT} cannot be read: remove it, and all is sent"
                      f" again: {error}") from error


def keep_sent(register: Register, place: str, found: dict[str, list[str]]) -> None:
    """Keeps what was sent to a place, without copies that are gone here."""
    there = {name: it for name, it in found.items() if (register.copies / name).exists()}
    text = json.dumps({"place": place, **there}, sort_keys=True, indent=1) + "\n"
    files.write_as_desk(register.copies / SENT, text.encode())
