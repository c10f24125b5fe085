"""The file office.db of an office's application, as the commands of a machine read it: its people,
and a copy without those who are signed in, which is brought back on another machine."""
import contextlib
import datetime
import os
import pathlib
import sqlite3
import stat
import time
import typing
import urllib.parse

from register_files import PARTS, Refused

from . import copies, files
from .programs import OFFICE
from .registers import Register

NAME = "office.db"
# a folder of root beside it
ASIDE = "aside"
# so long the file is read, which the application may keep locked
SECONDS = 120.0
# between two looks at the clock, of the steps of SQLite
STEPS = 100_000
# more people and programs than an office has
MOST_PEOPLE = 10_000
PEOPLE = f"SELECT name, kind, role, is_locked FROM person ORDER BY name LIMIT {MOST_PEOPLE + 1}"


class Person(typing.NamedTuple):
    """Who may sign in, or a program that has a token."""

    name: str
    kind: str
    role: str
    is_locked: bool


def path_of(register: Register) -> pathlib.Path:
    return register.office / NAME


@contextlib.contextmanager
def opened(register: Register) -> typing.Iterator[sqlite3.Connection]:
    """The file, which is only read, by the application's user; also while the application has it
    open."""
    path = path_of(register)
    with files.acting_as(OFFICE):
        if not os.path.lexists(path):
            raise Refused(f"{path} is not there")
        see_files(path)
        with named_errors(str(path)):
            address = f"file:{urllib.parse.quote(str(path))}?mode=ro"
            with contextlib.closing(sqlite3.connect(address, uri=True)) as db:
                # (what is judged is what is read then, whatever is written meanwhile)
                db.execute("BEGIN")
                distrust(db, str(path))
                yield db


def see_files(path: pathlib.Path) -> None:
    """Refuses what is no file where SQLite reads one: it would wait for a pipe without end."""
    for it in (pathlib.Path(f"{path}{end}") for end in PARTS):
        if os.path.lexists(it) and not stat.S_ISREG(it.lstat().st_mode):
            raise Refused(f"{it} is no file")


def distrust(db: sqlite3.Connection, name: str) -> None:
    """Has a file that others write do no more than keep rows: its people are a table, nothing is
    done by a trigger, and what takes too long is given up."""
    late = time.monotonic() + SECONDS
    db.set_progress_handler(lambda: time.monotonic() > late, STEPS)
    db.execute("PRAGMA trusted_schema=OFF")
    [(others,)] = db.execute(
        "SELECT count(*) FROM sqlite_master WHERE type='trigger' OR sql LIKE 'CREATE VIRTUAL%'"
        " OR type='view' AND lower(name) IN ('person', 'session')")
    [(size,)] = db.execute("SELECT page_count * page_size"
                           " FROM pragma_page_count, pragma_page_size")
    if size > files.MOST_STORE:
        raise Refused(f"{name} has over {files.MOST_STORE // 1_000_000} MB, and is not read")
    if others:
        raise Refused(f"{name} has a trigger, or people that are no table, which the application"
                      " never makes")


@contextlib.contextmanager
def named_errors(name: str) -> typing.Iterator[None]:
    try:
        yield
    except sqlite3.Error as error:
        raise Refused(f"{name} cannot be read: {error}") from error


def people_of(register: Register) -> list[Person]:
    with opened(register) as db:
        return people(db)


def people(db: sqlite3.Connection) -> list[Person]:
    found = [Person(name, kind, role, bool(it)) for name, kind, role, it in db.execute(PEOPLE)]
    if len(found) > MOST_PEOPLE:
        raise Refused(f"the file of the application has over {MOST_PEOPLE:,} people")
    if not all(isinstance(text, str) for it in found for text in it[:3]):
        raise Refused("somebody's name, kind or role in the file of the application is no text")
    return found


def people_in(data: bytes, name: str) -> list[Person]:
    """The people of a copy."""
    with named_errors(name), contextlib.closing(sqlite3.connect(":memory:")) as db:
        db.deserialize(data)
        distrust(db, name)
        return people(db)


def copy_of(register: Register) -> bytes:
    """A copy of the file as it is at one moment. Who is signed in is not in it, nor in what SQLite
    would leave of a row that is deleted."""
    in_memory = sqlite3.connect(":memory:", isolation_level=None)
    with opened(register) as db, contextlib.closing(in_memory) as copy:
        late = time.monotonic() + SECONDS

        def see(*_: int) -> None:
            if time.monotonic() > late:
                raise Refused(f"{path_of(register)} cannot be read: it is locked, or it changes all"
                              " the time")
        db.backup(copy, progress=see)
        distrust(copy, str(path_of(register)))
        copy.execute("DELETE FROM session")
        copy.execute("VACUUM")
        return copy.serialize()


@contextlib.contextmanager
def put_aside(register: Register) -> typing.Iterator[pathlib.Path]:
    """Moves the file with its log into a folder of root beside it, which is returned; and back, if
    what is done meanwhile fails."""
    path, moved = path_of(register), list[tuple[pathlib.Path, str, tuple[int, int]]]()
    now, aside = datetime.datetime.now().strftime(f"{copies.TIME}-%f"), register.office / ASIDE
    try:
        for it in (path, *(path.with_name(f"{path.name}-{end}") for end in ("wal", "shm"))):
            if os.path.lexists(it):
                name = f"{now}-{it.name}"
                moved.append((it, name, files.put_aside(it, aside, name)))
        yield aside
    except BaseException:
        for it, name, was in moved:
            files.put_back(it, aside, name, was)
        raise


def for_another(data: bytes) -> tuple[bytes, bool]:
    """A copy as another register has it: without the key that signs what browsers keep, which the
    application makes anew, and without what the provider of accounts knows it by. And whether there
    was a provider."""
    from office.web.people.authority import SECRET, SETTING

    with contextlib.closing(sqlite3.connect(":memory:", isolation_level=None)) as db:
        db.deserialize(data)
        db.execute("DELETE FROM setting WHERE name=?", (SECRET,))
        found = db.execute("DELETE FROM setting WHERE name=? AND value<>''", (SETTING,)).rowcount
        db.execute("VACUUM")
        return db.serialize(), found > 0


def restored(
    register: Register, data: bytes, name: str, is_another: bool = False
) -> typing.Iterator[str]:
    """Brings back the file from a copy, which may be of another register, where the application has
    none. Returns a line for it."""
    path = path_of(register)
    # (a log alone would be merged into the file that is brought back)
    there = [it for it in (path, pathlib.Path(f"{path}-wal")) if os.path.lexists(it)]
    if there:
        yield f"{there[0]} is there already, and stays as it is"
        return
    count = len(people_in(data, name))
    data, had_provider = for_another(data) if is_another else (data, False)
    files.folder(register.office, 0o700, OFFICE, OFFICE)
    files.write_as(OFFICE, path, data)
    yield f"took {path} from the archive, with {count} people and programs"
    if had_provider:
        yield ("sign-in by the accounts of the authority is not brought back:"
               f" admissions-admin accounts {register.name} FILE")
