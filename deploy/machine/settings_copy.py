"""Copies what belongs to a register beside its file: people, settings, history.

  settings-copy NAME

It is called as root after each nightly backup. Beside the newest nightly copy,
as an archive (tar) of the same name, are site-name of /etc/admissions/NAME,
authority, second-copy and second-copy-recipient of /etc/admissions, and
office.db of the office's application: its people with their roles and hashed
passwords, and what it keeps beside the register, but nobody who is signed in.
Nothing else is copied, and so no key. An archive that is there stays as it is,
as the copy does. The history, who did what, is in the folder `history` beside
the copies, compressed. What was copied is only ever made longer: a history
that was cut or begins otherwise is copied beside it, and named until somebody
acknowledges it (admissions-admin history NAME --acknowledge). One in which a
line was changed is copied too, and named with the line. What cannot be read is
named, and all else is copied. All copies are of the user admissions alone. The
result is in settings-copy.report beside them, which the status reads.

example:
  settings-copy secondary-2025

exit status: 0 copied; 1 not or not wholly copied, or the history was erased,
cut or changed, and the line says so; 2 wrong arguments.
"""
import argparse
import contextlib
import io
import os
import pathlib
import stat
import tarfile
import time
import typing

from register_files import OWNER_ALONE, Refused

from . import copies, files, history_copies, office_store, sealed
from .programs import OFFICE
from .registers import SETTINGS, Register, known, add_name
from .second_copy import now, write_report

# What is copied, of a register and of all: a secret key under whatever name is not, since whoever
# has the second place shall not have it
OWN = (office_store.NAME, "site-name")
SHARED = ("authority", "second-copy", sealed.RECIPIENT)
REPORT = "settings-copy.report"


arguments = add_name


def main(given: argparse.Namespace) -> int:
    register = known(given.name)
    made = register.nightly_copies()
    if not made:
        raise Refused(
            f"{register.name} has no nightly copy yet, beside which its settings would be"
        )
    target, problems = copies.settings_of(made[-1]), list[str]()
    # (as of that night: the second place keeps what it has, and must have the same)
    if not target.exists():
        try:
            files.write_as_desk(target, archive_of(register))
        except Refused as error:
            problems.append(f"{target.name} was not made: {error}")
    problems += history_copies.copy(register)
    count = len(history_copies.made(register.copies / history_copies.FOLDER))
    has = f"{target.name} has" if target.exists() else "there is no archive of"
    text = f"{now()} {has} people and settings; copies of the history: {count}"
    write_report(register, REPORT, f"{text}{''.join(f'; WARNING: {it}' for it in problems)}\n")
    print(text)
    if problems:
        raise Refused("; ".join(problems))
    return 0


def archive_of(register: Register) -> bytes:
    """The people and settings of a register, and the settings of all registers, as an archive."""
    out = io.BytesIO()
    with tarfile.open(fileobj=out, mode="w") as archive:
        data = office_store.copy_of(register)
        member = tarfile.TarInfo(office_store.NAME)
        member.size, member.mode, member.mtime = len(data), OWNER_ALONE, int(time.time())
        member.uname = member.gname = OFFICE
        archive.addfile(member, io.BytesIO(data))
        for path in (register.settings / "site-name", *(SETTINGS / it for it in SHARED)):
            if path.is_file():
                archive.add(path, path.name, recursive=False)
    return out.getvalue()


def members_of(copy: pathlib.Path) -> dict[str, bytes]:
    """The files of the archive beside a copy that are copied, each with what it has."""
    out = {}
    path = copies.settings_of(copy)
    try:
        # (as it was made: a compressed archive, or a file with holes, may have much more)
        with opened(path) as archive:
            for it in archive:
                if it.issparse():
                    raise tarfile.ReadError("a file in it has holes")
                file = archive.extractfile(it) if it.isreg() and it.name in OWN + SHARED else None
                if file:
                    out[it.name] = file.read()
        for name in out.keys() - {office_store.NAME}:
            out[name].decode("utf-8")
    except FileNotFoundError:
        return {}
    except (tarfile.TarError, UnicodeDecodeError) as error:
        raise Refused(f"{path} cannot be read as an archive of settings: {error}") from error
    return out


@contextlib.contextmanager
def opened(path: pathlib.Path) -> typing.Iterator[tarfile.TarFile]:
    """An archive, which is a file and not too long."""
    with open(os.open(path, files.READ), "rb") as file:
        found = os.fstat(file.fileno())
        if not stat.S_ISREG(found.st_mode):
            raise tarfile.ReadError("it is no file")
        if found.st_size > files.MOST_STORE:
            raise tarfile.ReadError(f"it has over {files.MOST_STORE // 1_000_000} MB")
        with tarfile.open(fileobj=file, mode="r:") as archive:
            yield archive


def people_beside(copy: pathlib.Path) -> list[office_store.Person]:
    """The people of the archive beside a copy."""
    path, data = copies.settings_of(copy), members_of(copy).get(office_store.NAME)
    return office_store.people_in(data, f"{office_store.NAME} of {path}") if data else []


def names_of(copy: str) -> dict[str, str]:
    """What the archive beside a copy has of settings: the text of each file, without blanks around
    it."""
    found = members_of(pathlib.Path(copy))
    found.pop(office_store.NAME, None)
    return {name: data.decode("utf-8").strip() for name, data in found.items()}


def restored(
    register: Register, copy: pathlib.Path, with_history: bool = True, is_another: bool = False
) -> typing.Iterator[str]:
    """Brings back the people, settings and history that are beside a copy, where this machine has
    none of them. Returns a line for each. The site's name is set up as if it were given, and owners
    and modes are those that this program gives: whoever has the second place could write others.
    Another register than that of the copy gets none of its secrets.
    """
    found, archive = members_of(copy), copies.settings_of(copy)
    if not found:
        lost = "people and settings are not brought back"
        yield f"there is no archive of settings beside {copy}: {lost}"
    elif office_store.NAME not in found:
        yield f"{archive} has no {office_store.NAME}: nobody of before may sign in"
    for name in SHARED:
        path = SETTINGS / name
        if name in found and has_content(path):
            yield f"{path} is there already, and stays as it is"
        elif name in found and files.write(path, found[name], 0o644):
            yield f"took {path} from the archive"
    if data := found.get(office_store.NAME):
        yield from office_store.restored(
            register, data, f"{office_store.NAME} of {archive}", is_another)
    if with_history:
        yield from history_copies.restored(register, copy.parent / history_copies.FOLDER)


def has_content(path: pathlib.Path) -> bool:
    """Whether a file of settings has a line that is no comment."""
    lines = path.read_text(encoding="utf-8").splitlines() if path.exists() else []
    return any(line.strip() and not line.lstrip().startswith("#") for line in lines)
