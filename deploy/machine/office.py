"""Serves the office's application of a register.

  office NAME

It is the unit admissions-office@NAME, as the user admissions-office, at the
socket that systemd hands over. The register is reached by its door,
/run/admissions/NAME.sock. In /var/lib/admissions-office/NAME the application
keeps office.db, with its people and what they have not finished, and the
history of who did what; and requests for copies, which other units do.

example:
  systemctl start admissions-office@secondary-2025

exit status: 0 ended by a signal; 1 not begun, and the line says why; 2 wrong
arguments.
"""
import argparse

from office.web import parts, serve
from register_files import Refused

from .registers import SETTINGS, Register, named, add_name
from .sites import share

# where systemd's journal takes structured entries
JOURNAL = "/run/systemd/journal/socket"


arguments = add_name


def main(given: argparse.Namespace) -> int:
    serve.run(config_of(named(given.name)), "")
    return 0


def config_of(register: Register) -> parts.Config:
    """Where the application of a register finds what it needs."""
    if register.host is None:
        how = f"admissions-admin setup {register.name}"
        raise Refused(f"{register.name} has no site yet: type {how}")
    name = SETTINGS / "authority"
    return parts.Config(
        register.name,
        f"https://{register.host}",
        str(register.socket),
        register.office,
        register.office_copies,
        share("site"),
        name.read_text(encoding="utf-8").strip() if name.exists() else "",
        JOURNAL,
    )
