"""The right of an office's application to use the network of the machine, which it has only to sign
people in by the accounts of the authority."""
import pathlib

from .registers import Register

# where systemd finds what is changed of a unit
UNITS = pathlib.Path("/etc/systemd/system")


def outside_of(register: Register) -> pathlib.Path:
    """The file that lets the application of a register out into the network."""
    return UNITS / f"admissions-office@{register.name}.service.d" / "accounts.conf"


def keep_in(register: Register) -> None:
    """Removes that file, and its folder where an administrator has no other file in it."""
    path = outside_of(register)
    path.unlink(missing_ok=True)
    if path.parent.is_dir() and not any(path.parent.iterdir()):
        path.parent.rmdir()
