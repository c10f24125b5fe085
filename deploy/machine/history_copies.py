"""The copies of the history of a register's application, which are beside the nightly copies: made
longer each night, never shorter, and brought back on another machine."""
import contextlib
import gzip
import hashlib
import io
import os
import pathlib
import re
import typing

from register_files import Refused

from . import files, histories
from .histories import Record
from .programs import OFFICE, USER
from .registers import Register

FOLDER = "history"
# in the settings of a register: copies that its history rightly does not begin with
ACKNOWLEDGED = "history-acknowledged"
# A number that grows with each copy, and the begin of the digest of the first line
UNREADABLE = (*histories.UNREADABLE, Refused)
NAME = re.compile(r"history-(\d{6,})-([0-9a-f]{16})\.gz")


def unpacked(path: pathlib.Path, packed: bytes) -> bytes:
    """The lines of a copy, which has these bytes."""
    with gzip.open(io.BytesIO(packed)) as file:
        return files.bounded(path, file.read)


def place(path: pathlib.Path) -> tuple[int, str]:
    """The number and the digest in the name of a copy."""
    found = NAME.fullmatch(path.name)
    return (int(found[1]), found[2]) if found else (0, "")


def made(folder: pathlib.Path) -> list[pathlib.Path]:
    """The copies, in the order in which they were first made."""
    return sorted((it for it in folder.glob("history-*.gz") if NAME.fullmatch(it.name)), key=place)


def copy(register: Register) -> list[str]:
    """Copies the history, also one that was changed. Returns a line where it was not copied, for a
    copy that cannot be read or that it does not begin with, and where it was changed."""
    folder = register.copies / FOLDER
    with files.as_desk():
        folder.mkdir(mode=0o700, exist_ok=True)
    try:
        data = histories.whole_lines(histories.data_of(register))
    except (OSError, Refused) as error:
        return [f"{error}: it was not copied"]
    problems = copy_lines(data, folder)
    changed = Record(str(register.history), data).problem
    return [*problems, *([changed] if changed else []), *lacking(register)]


def copy_lines(data: bytes, folder: pathlib.Path) -> list[str]:
    """Copies these lines, unless a copy has all of them. A copy is replaced only by what begins
    with it; a history that was cut and goes on otherwise is copied beside it. Returns a line for
    each copy that cannot be read."""
    digest = hashlib.sha256(data.partition(b"\n")[0]).hexdigest()[:16]
    target, problems = None, []
    for it in made(folder):
        if place(it)[1] != digest:
            continue
        try:
            before = unpacked(it, files.content_as(USER, it))
        except UNREADABLE as error:
            problems.append(f"{it} cannot be read: {error}")
            continue
        if before.startswith(data):
            return problems
        if data.startswith(before):
            target = it
    if data:
        number = max((place(it)[0] for it in made(folder)), default=0) + 1
        path = target or folder / f"history-{number:06}-{digest}.gz"
        files.write_as_desk(path, gzip.compress(data, mtime=0))
    return problems


def unlike(register: Register) -> dict[str, str]:
    """The copies that the history does not begin with, by their names, each with its digest; but
    not those of which that was acknowledged. Somebody has erased the history, cut it or changed it;
    or a copy of another machine is here since a takeover."""
    folder, found = register.copies / FOLDER, {}
    # (before the history, which only grows)
    for it in made(folder):
        with contextlib.suppress(*UNREADABLE):
            found[it.name] = unpacked(it, files.content_as(USER, it))
    data, known = histories.data_of(register), acknowledged(register)
    digests = {name: hashlib.sha256(before).hexdigest() for name, before in found.items()
               if not data.startswith(before)}
    return {name: it for name, it in digests.items() if known.get(name) != it}


def lacking(register: Register) -> list[str]:
    """A line that names what the history does not begin with, and how that is acknowledged; none
    where there is nothing of that kind."""
    names = ", ".join(unlike(register))
    return [f"the history was erased, cut or changed: it does not begin with {names} in"
            f" {register.copies / FOLDER}. Find out who did that, keep the copies, and then type:"
            f" admissions-admin history {register.name} --acknowledge"] if names else []


def acknowledged(register: Register) -> dict[str, str]:
    """The copies of which it was acknowledged that the history does not begin with them."""
    path = register.settings / ACKNOWLEDGED
    lines = path.read_text(encoding="utf-8").splitlines() if path.exists() else []
    return dict(typing.cast(tuple[str, str], line.split(" ", 1)) for line in lines if " " in line)


def acknowledge(register: Register, found: dict[str, str]) -> None:
    """Keeps that the history does not begin with these copies."""
    known = acknowledged(register) | found
    text = "".join(f"{name} {digest}\n" for name, digest in sorted(known.items()))
    files.write(register.settings / ACKNOWLEDGED, text, 0o644)


def restored(register: Register, folder: pathlib.Path) -> typing.Iterator[str]:
    """Brings back the history from its copies, unless this machine has one: the last copy that is
    whole. Returns a line for it, and for each copy that stays where it is."""
    copies = made(folder)
    if not copies:
        yield f"there is no history in {folder}: who did what is not brought back"
    taken: pathlib.Path | None = None
    for path in reversed(copies):
        if taken:
            yield f"{path} has another history than {taken.name}, and is left where it is"
            continue
        try:
            data = whole(path)
        except Refused as error:
            yield f"{path} is left where it is, and not brought back: {error}"
            continue
        taken = path
        yield from put(register, path, data)


def last_whole(folder: pathlib.Path) -> bytes:
    """The history that would be brought back from a folder of copies; nothing where none is
    whole."""
    for path in reversed(made(folder)):
        with contextlib.suppress(Refused):
            return whole(path)
    return b""


def whole(path: pathlib.Path) -> bytes:
    """The history of a file, which must be one from its first line to its last."""
    try:
        found = files.content(path)
        data = unpacked(path, found) if path.suffix == ".gz" else histories.whole_lines(found)
    except UNREADABLE as error:
        raise Refused(f"{path} cannot be read: {error}") from error
    record = Record(str(path), data)
    if record.problem or not record.entries:
        raise Refused(record.problem or f"{path} has no entry")
    return data


def put(register: Register, path: pathlib.Path, data: bytes) -> typing.Iterator[str]:
    """Gives the application the history of a copy, unless it has one."""
    if os.path.lexists(register.history):
        if histories.data_of(register) != data:
            yield f"{register.history} is there already, and stays as it is"
        return
    files.folder(register.office, 0o700, OFFICE, OFFICE)
    files.write_as(OFFICE, register.history, data)
    yield f"took {register.history} from {path}"
