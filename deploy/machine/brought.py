"""A restore by an administrator, as the office's application knows it: the copy is one of its own,
and what came since waits on its screen Copies, with recording paused, to be sent again."""
import contextlib
import dataclasses
import datetime
import json
import os
import pathlib
import typing

from office.web.people import roles
from office.web.register import history
from register_files import Refused

from . import answers, copies, files, histories, office_copy, office_requests
from .programs import OFFICE
from .registers import Register

if typing.TYPE_CHECKING:
    from office.web.parts import Parts

# in the settings of a register while it is made from a copy: the first one keeps its units from
# starting, until all is here and the verb that makes it starts them
BEGUN, OPENS = "standby", "standby-opens"
# the entries of a history that are requests to the register, and what became of them
REQUESTS = (history.SENDS, history.ANSWER, history.SETTLED)


class Begun(typing.NamedTuple):
    """That a register is made from a copy, and has not ended: the copy, whether what came since
    waits already to be sent again, and the line that goes on, where that is no takeover."""

    copy: str
    is_brought: bool = False
    line: str = ""

    @property
    def verb(self) -> str:
        """By which it was begun."""
        return self.line.split()[1] if self.line else "takeover"


def place(register: Register) -> pathlib.Path:
    """The file that has it."""
    opens = register.settings / OPENS
    return opens if opens.exists() else register.settings / BEGUN


def begun(register: Register) -> Begun | None:
    """What has begun and not ended, or None."""
    try:
        found = json.loads(place(register).read_text(encoding="utf-8"))
        return Begun(str(found["copy"]), bool(found.get("is_brought")), str(found.get("line", "")))
    except FileNotFoundError:
        return None
    except (OSError, ValueError, KeyError, TypeError, AttributeError) as error:
        raise Refused(f"{place(register)} cannot be read: {error}") from error


def unfinished(register: Register) -> str:
    """What has begun and not ended, with the line that goes on; or ""."""
    found = begun(register)
    if not found:
        return ""
    what = "set-up from a copy" if found.verb == "setup" else found.verb
    line = found.line or f"admissions-admin takeover {register.name}"
    return f"its {what} has not ended: {line}"


def keep(register: Register, found: Begun) -> None:
    """Keeps from which copy a register is made, before anything of it is."""
    files.folder(register.settings, 0o755)
    files.write(place(register), json.dumps(found._asdict()) + "\n", 0o644)


def let_open(register: Register) -> None:
    """Lets its units start, as all of it is here; it has not ended yet."""
    if begun(register):
        place(register).replace(register.settings / OPENS)


def forget(register: Register) -> None:
    """Keeps it no more, as all is done."""
    place(register).unlink()


def bring(register: Register, copy: pathlib.Path) -> typing.Iterator[str]:
    """Has what came since the copy wait on the screen of the office, once; and of a machine that is
    lost it names from when on nobody knows what was sent."""
    found = begun(register)
    if not found or found.is_brought:
        return
    is_there = os.path.lexists(register.history)
    record = histories.of_register(register) if is_there else histories.Record("", b"")
    if record.problem:
        raise Refused(f"{record.problem}. First: admissions-admin history {register.name} --mend;"
                      f" then {unfinished(register).partition(': ')[2]}")
    yield from begin(register, copy, others_since(record, copies.moment(copy)))
    keep(register, found._replace(is_brought=True))
    if record.entries and not found.line:
        last = datetime.datetime.fromisoformat(record.entries[-1].at).astimezone()
        yield (f"The history ends at {last:%Y-%m-%d %H:%M:%S}: what was done later is in no copy."
               " Ask who worked then")


@contextlib.contextmanager
def application(register: Register) -> typing.Iterator["Parts"]:
    """The application of a register, which does not run."""
    # (only here all of it is needed)
    from office.web.parts import Parts
    from .office import config_of

    with files.acting_as(OFFICE):
        # (the journal has its entries once it runs)
        found = Parts(dataclasses.replace(config_of(register), journal=""))
        try:
            yield found
        finally:
            found.close()


def begin(register: Register, copy: pathlib.Path, others: str = "") -> typing.Iterator[str]:
    """Has the application know that the register is that of a copy, and what came since wait.
    `others` is what else people did since that its own file lacks. Returns lines that say so."""
    who, since = roles.Person(answers.teller(), ""), copies.moment(copy)
    # (one that was killed would be done again, when the application starts)
    office_requests.drop(register, "restore")
    with application(register) as parts:
        number = parts.copies.next_number(f"restored by IT support: {copy.stem}", who.name)
    path = register.office_copies / f"office-{number:06}-{since.strftime(copies.TIME)}.db"
    # (which the copy is now, that may be where the user of the desks reads nothing)
    files.copy_as_desk(register.file, path)
    office_copy.give(path)
    said = others and (f"Since then people also did this, which is not brought back: {others}. The"
                       " screen Activity has each of them: what of it is still wanted is entered"
                       " again.")
    with application(register) as parts:
        found = parts.restores.bring(who, number, path.name, since, said)
    yield f"{register.name} is as at {since:%Y-%m-%d %H:%M:%S}, when {copy.name} was made"
    if found:
        yield (f"what was sent since then waits on the screen Copies of https://{register.host}/:"
               f" {histories.counted(it.who for it in found)}. Recording is paused until a head has"
               " chosen what is sent again, and a second person has confirmed it")
    else:
        yield "nothing was sent since then"
    if said:
        yield said


def others_since(record: histories.Record, since: datetime.datetime) -> str:
    """What people did since a moment beside requests to the register, each with how often."""
    return histories.counted(
        it.what for it in record.entries
        if it.what not in REQUESTS and datetime.datetime.fromisoformat(it.at) >= since)
