"""Keeps the day from which a register may be deleted, as the office's
application has asked.

  office-deletion-day NAME

The request is the day as a number, as 20260131, in the file
`requests/deletion-day` in the application's folder. The day must be 14 days
ahead at least, and after the last day of the lists of the register. It is kept
in /etc/admissions/NAME/deletion-day, which root alone can write; a later
request replaces it. `admissions-admin status` reports it. The answer is in
`requests/deletion-day.done`: the day, or an error. Nothing is deleted.

example:
  office-deletion-day secondary-2025

exit status: 0 kept; 1 not, and the line says why; 2 wrong arguments.
"""

from register_files import Refused

from . import deletion, office_requests
from .office_requests import Result, Wrong
from .registers import Register


def keep(register: Register, number: int) -> Result:
    """Keeps a day, and returns it."""
    try:
        return {"day": deletion.keep(register, number).isoformat()}
    except (OSError, Refused) as error:
        if isinstance(error, Wrong):
            raise
        raise Wrong("NotKept", f"the day is not kept: {error}") from error


arguments, main = office_requests.command("deletion-day", keep)
