"""What is held of one child, for a family that asks for it: as a page, and as JSON."""
import tempfile
import threading
from typing import IO

import flask

from office.core import turns
from office.core.model import Register
from office.web.people.guard import needs, of_file, parts, person
from office.web.people.roles import NOTES
from office.web.register.history import now

from .. import subject
from ..notes import PRINTED
from .child import child_in
from .notes import SHUT

screen = flask.Blueprint("subject", __name__, url_prefix="/children")
FORMS = {"html": ("text/html", subject.page_of), "json": ("application/json", subject.json_of)}
# it has all files of a child, so that of one at a time is in memory
COLLECTING = turns.Turn(threading.BoundedSemaphore(1), "what is held of another child is collected")


@screen.get(f"/<int:number>/held.<any({', '.join(FORMS)}):form>")
@needs(NOTES)
def held(number: int, form: str) -> flask.Response:
    """All that is held of a child, for the browser to keep. It is on record before."""
    register = child_in(number)
    parts().notes.record(person(), PRINTED, number)
    headers = {"Content-Disposition": f'attachment; filename="child-{number}-held.{form}"',
               "Content-Security-Policy": SHUT}
    with COLLECTING:
        file = collected(register, number, form)
    return of_file(file, FORMS[form][0], headers)


def collected(register: Register, number: int, form: str) -> IO[bytes]:
    """It in a file without a name, which is gone once it is sent."""
    found, pieces_of = parts(), FORMS[form][1]
    with found.history.lock:
        entries = list(found.history.entries)
    file = tempfile.TemporaryFile()
    made = subject.held(register, number, now(), found.store, entries)
    file.writelines(it.encode() for it in pieces_of(made))
    file.seek(0)
    return file
