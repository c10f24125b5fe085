"""What serves a register: its folders, its units, and whether they answer; and what must be
installed for that."""
import importlib.util
import os
import pathlib
import sys
import time
import typing

from office.core.libraries import PACKAGES
from register_files import Refused

from . import certificates, files, sites
from .desk import status_of
from .programs import OFFICE, USER, call, is_booted, tool
from .registers import Register

NEEDED = {
    "nginx": "nginx",
    "openssl": "openssl",
    "systemctl": "systemd",
    "systemd-sysusers": "systemd",
    "systemd-tmpfiles": "systemd",
}
# what the office's application imports
MODULES = ("argon2", "authlib", "flask", "gunicorn", "markdown", "requests")
WAIT = 60
# what a server answers to everything once its store has failed, until it is restarted
STOPPED = 503
# where systemd finds what starts no more
MASKS = pathlib.Path("/etc/systemd/system")
# what the application asks for
REQUESTS = ("copy", "restore", "deletion-day", "delete")


def see_needed() -> None:
    """Refuses to begin where something is missing."""
    for command, package in NEEDED.items():
        tool(command, package)
    if lacking := [PACKAGES[it] for it in MODULES if not importlib.util.find_spec(it)]:
        raise Refused(f"the office's application needs: apt-get install {' '.join(lacking)}")


def report(lines: typing.Iterable[str]) -> None:
    """Prints what was done, as it is done."""
    for line in lines:
        print(line, flush=True)


def make_folders(register: Register) -> typing.Iterator[str]:
    call(tool("systemd-sysusers", "systemd"), "admissions.conf")
    call(tool("systemd-tmpfiles", "systemd"), "--create", "admissions.conf")
    for path, mode, user, group in (
        (register.folder, 0o700, USER, USER),
        # (its application goes through it to its own copies, and reads nothing else there)
        (register.copies, 0o710, USER, OFFICE),
        (register.office_copies, 0o750, USER, OFFICE),
        (register.office, 0o700, OFFICE, OFFICE),
        (register.settings, 0o755, "root", "root"),
    ):
        if files.folder(path, mode, user, group):
            yield f"made {path}"


def application(register: Register) -> list[str]:
    """The units of the application of a register, without what waits for its requests."""
    return [f"admissions-office@{register.name}.{it}" for it in ("socket", "service")]


def office_units(register: Register) -> list[str]:
    """The units of the application: its socket, itself, and what waits for its requests."""
    return [*application(register),
            *(f"admissions-office-{it}@{register.name}.path" for it in REQUESTS)]


def desk(register: Register) -> str:
    """The unit of the server."""
    return f"admissions@{register.name}.service"


def timers(register: Register) -> list[str]:
    """The timers of the nightly backup, the drill, and the copies by the hour."""
    return [f"admissions-{it}@{register.name}.timer" for it in ("backup", "drill", "second-copy")]


def systemctl(*words: str, may_fail: bool = False) -> str:
    """Calls systemd's command, where systemd runs this machine, and returns what it prints."""
    if not is_booted():
        return ""
    return call(tool("systemctl", "systemd"), *words, may_fail=may_fail).stdout


def begin(units: list[str]) -> bool:
    """Enables and starts the units that are not. Returns whether systemd runs, and so they do."""
    control = tool("systemctl", "systemd")
    if is_booted():
        # (the package has just brought new ones)
        call(control, "daemon-reload")
    for unit in units:
        if call(control, "is-enabled", unit, may_fail=True).stdout.strip() == "disabled":
            call(control, "enable", "--quiet", unit)
            print(f"enabled {unit}")
    if not is_booted():
        print(
            "systemd does not run here, so nothing is started:"
            f" it will start with the machine ({', '.join(units)})",
            file=sys.stderr,
        )
        return False
    for unit in units:
        if call(control, "is-active", unit, may_fail=True).stdout.strip() != "active":
            # (one that has given up starts anew)
            call(control, "reset-failed", unit, may_fail=True)
            call(control, "start", unit)
            print(f"started {unit}")
    return True


def start(register: Register) -> bool:
    """Starts a register with its application, also one that was closed, and waits until both
    answer. Returns whether they do."""
    unmask(register)
    if not begin([desk(register), *application(register), *timers(register)[:2]]):
        return False
    answers_of(register.socket, (200, 404), "the desk", desk(register))
    answers_of(register.office_socket, (401,), "the office's application",
               application(register)[1])
    return True


def stop(register: Register) -> None:
    """Stops all that has a register open: first the nightly backup, and a restore by the office,
    which start the server at their end."""
    name = register.name
    systemctl("stop", f"admissions-backup@{name}.timer", f"admissions-backup@{name}.service",
              *application(register), f"admissions-office-restore@{name}.service")
    systemctl("stop", desk(register))
    # (one that has given up starts anew)
    systemctl("reset-failed", desk(register), may_fail=True)


def is_closed(register: Register) -> bool:
    """Whether an administrator has closed the office, so that nothing starts it."""
    path = MASKS / desk(register)
    return path.is_symlink() and os.readlink(path) == os.devnull


def close(register: Register) -> None:
    """Closes an office: nothing but a verb that opens it starts it."""
    systemctl("mask", "--now", *application(register), desk(register))


def unmask(register: Register) -> None:
    """Has an office that was closed start again."""
    if is_closed(register):
        systemctl("unmask", *application(register), desk(register))


def start_application(register: Register) -> None:
    """Starts the application of an office that is not closed, also where it has given up."""
    if not is_closed(register):
        units = application(register)
        systemctl("reset-failed", *units, may_fail=True)
        systemctl("start", *units)


def answers_of(socket: pathlib.Path, wanted: tuple[int, ...], what: str, unit: str) -> None:
    """Waits until what is behind a socket answers."""
    end = time.monotonic() + WAIT
    while (status := status_of(socket)) not in wanted:
        if time.monotonic() > end:
            said = f"answers {status}" if status else "does not answer"
            raise Refused(f"{what} {said}: journalctl -u {unit}")
        time.sleep(0.1)


def other_problems(register: Register | None) -> typing.Iterator[str]:
    """A warning for each other site that nginx cannot serve, though it has read its files: the key
    may be of another kind than the certificate."""
    for it in sites.registers_with_site():
        if it != register and (problem := certificates.key_problem(it)):
            yield f"WARNING: {problem}"
