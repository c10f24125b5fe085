"""What is typed where a part of a register has failed: one line for each."""
import contextlib
import os
import ssl

from register_files import Refused

from . import copies, histories, office_store
from .programs import call, tool
from .registers import Register, stored


def register_line(register: Register) -> str:
    """What brings back the newest nightly copy of a register that cannot be read."""
    verb = "restore" if register.nightly_copies() else "takeover"
    return f"admissions-admin {verb} {register.name}"


def people_line(register: Register) -> str:
    """What brings back the people of the newest nightly copy that has them, where the file of the
    application cannot be read."""
    made = [it for it in register.nightly_copies() if copies.settings_of(it).exists()]
    if made:
        return f"admissions-admin restore {register.name} {made[-1].name} --people-alone"
    return f"admissions-admin setup {register.name} --user NAME --role head"


def unit_line(register: Register, unit: str, has_failed: bool = True) -> str:
    """What starts a unit, also one that has given up; or what it needs before it can start."""
    if unit == f"admissions@{register.name}.service" and not is_register(register):
        return register_line(register)
    if unit.startswith(f"admissions-office@{register.name}.") and (found := cause(register)):
        return found
    return f"{f'systemctl reset-failed {unit}; ' if has_failed else ''}systemctl start {unit}"


def office_line(register: Register) -> str:
    """What brings back an application that does not run."""
    return cause(register) or f"admissions-admin open {register.name}"


def site_line(register: Register, error: Exception) -> str:
    """What brings back a site that does not answer."""
    if isinstance(error, TimeoutError):
        return office_line(register)
    if isinstance(error, ssl.SSLError):
        return "admissions-admin sites"
    control = tool("systemctl", "systemd")
    is_on = call(control, "is-active", "nginx", may_fail=True).stdout.strip() == "active"
    return "nginx -t" if is_on else "systemctl start nginx"


def is_register(register: Register) -> bool:
    """Whether the register can be read."""
    try:
        stored(register.file)
    except (OSError, Refused, ValueError):
        return False
    return True


def why_silent(register: Register) -> str:
    """Which file of an office keeps it from starting, with the line to type; or ""."""
    if not is_register(register):
        return f"{register.file} cannot be read: {register_line(register)}"
    found = cause(register)
    return f"A file of its application cannot be read, or was changed: {found}" if found else ""


def cause(register: Register) -> str:
    """What is typed where the application cannot start, because of its own files; or ""."""
    try:
        if os.path.lexists(office_store.path_of(register)):
            office_store.people_of(register)
    except Refused:
        return people_line(register)
    with contextlib.suppress(OSError, Refused):
        if histories.of_register(register).problem:
            return f"admissions-admin history {register.name} --mend"
    return ""
