"""Makes a copy of a register for the office's application, as it has asked.

  office-copy NAME

The request is the number in the file `requests/copy` in the application's
folder. The desk of the register NAME is stopped, the register is copied by
admissions-backup, and the desk is started, whatever came of it. The copy
office-NUMBER-TIME.db is in the folder `office` beside the nightly copies of
NAME, and the application's group reads it. The answer is in
`requests/copy.done`: the name of the copy, or an error. A request that is no
number is refused there, and the desk is not stopped.

example:
  office-copy secondary-2025

exit status: 0 copied; 1 not, and the line says why; 2 wrong arguments.
"""
import datetime
import os
import pathlib

from register_files import Refused

from . import copies, files, office_requests
from .office_requests import Result, Wrong
from .programs import OFFICE, USER, call, program
from .registers import Register

READ_BY_GROUP = 0o640


def copied(register: Register, number: int) -> Result:
    """Copies a register, and returns the name of the copy."""
    time = datetime.datetime.now().strftime(copies.TIME)
    path = register.office_copies / f"office-{number:06}-{time}.db"
    try:
        with office_requests.stopped(register):
            call(program("admissions-backup"), register.file, path, as_user=USER)
        give(path)
    except (Refused, OSError) as error:
        raise Wrong("NotCopied", f"the register was not copied: {error}") from error
    return {"copy": path.name}


def give(path: pathlib.Path) -> None:
    """Lets the application's group read a copy."""
    _, group = files.numbers(USER, OFFICE)
    with files.closing(os.open(path, os.O_RDONLY | files.AS_IT_IS)) as fd:
        os.fchown(fd, -1, group)
        os.fchmod(fd, READ_BY_GROUP)


arguments, main = office_requests.command("copy", copied)
