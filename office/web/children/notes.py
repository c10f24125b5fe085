"""Notes and files of a child, in the application's store: who added what and when. A note can be
struck out and stays readable, a file can be removed; nothing is changed, and each step is on record
before it is done.
"""
import dataclasses
import hashlib

from register_files import Refused

from office.core import texts
from office.files import inputs
from office.web.people.roles import Person
from office.web.register.history import History, now
from office.web.register.store import Store

MOST_NOTE, MOST_NOTES, MOST_REASON = 4_000, 200, 200
# a copy of the store is made in memory every night, so the sum is limited too
MOST_FILE, MOST_FILES, MOST_OF_ALL = 5 * inputs.MB, 20, 200 * inputs.MB
MOST_NAME = 255
# what a text of several lines may have of what cannot be seen
KEPT = str.maketrans("", "", "\n\t")
# the ends of names under which a browser keeps a file; one of another end is kept as `.bin`, so
# that nothing is run by a click that seemed to open a letter
ENDS = ("pdf", "png", "jpg", "jpeg", "gif", "tif", "tiff", "heic", "webp", "docx", "doc", "odt",
        "rtf", "xlsx", "xls", "ods", "csv", "txt", "eml", "msg")
# what is on record of them
ADDED, STRUCK = "added a note", "struck out a note"
FILED, REMOVED, READ_FILE = "added a file", "removed a file", "read a file"
PRINTED = "printed what is held of a child"


class Unfit(Refused):
    """What was typed or sent cannot be stored; the field that it is about."""

    def __init__(self, field: str, text: str) -> None:
        super().__init__(text)
        self.field = field


@dataclasses.dataclass(frozen=True)
class Note:
    """A note: the child's name when it was added, its text, who added it at which moment (UTC), and
    who has struck it out, when and why.
    """

    number: int
    child: int
    name: str
    text: str
    who: str
    at: str
    struck_by: str | None
    struck_at: str | None
    struck_why: str | None

    @property
    def lines(self) -> list[str]:
        """Its lines, with what cannot be seen escaped."""
        return [texts.visible(it.replace("\t", "    ")) for it in self.text.split("\n")]


@dataclasses.dataclass(frozen=True)
class File:
    """A file without its bytes: the child's name when it was added, what it was called by who sent
    it, its size, the digest of its bytes, and who has removed it, when and why.
    """

    number: int
    child: int
    name: str
    called: str
    size: int
    digest: str
    who: str
    at: str
    removed_by: str | None
    removed_at: str | None
    removed_why: str | None

    @property
    def title(self) -> str:
        """What it was called, with what cannot be seen escaped."""
        return texts.visible(self.called)

    @property
    def kept_as(self) -> str:
        """The name under which a browser keeps it, of letters and figures alone."""
        end = self.called.rpartition(".")[2].lower()
        return f"child-{self.child}-file-{self.number}.{end if end in ENDS else 'bin'}"


def of_lines(text: str) -> str:
    """A text of a form, with the ends of its lines as they are kept."""
    return text.replace("\r\n", "\n").replace("\r", "\n").strip()


def see_text(text: str, field: str, most: int, what: str) -> None:
    """Refuses a text that is empty, too long, or has control characters."""
    if not text:
        raise Unfit(field, f"{what} is empty")
    if len(text) > most:
        raise Unfit(field, f"{what} has at most {most:,} characters, and this one has"
                    f" {len(text):,}")
    if found := texts.CONTROL.search(text.translate(KEPT)):
        raise Unfit(field, f"{what} has a character that cannot be printed,"
                    f" {texts.visible(found[0])}")


class Notes:
    """The notes and files of the children of one application."""

    def __init__(self, store: Store, history: History) -> None:
        self.store, self.history = store, history

    def of_child(self, child: int) -> list[Note]:
        """The notes of a child, the last first."""
        rows = self.store.rows("SELECT * FROM note WHERE child=? ORDER BY number DESC", child)
        return [Note(**dict(it)) for it in rows]

    def children(self) -> set[int]:
        """The children with a note that is not struck out."""
        rows = self.store.rows("SELECT DISTINCT child FROM note WHERE struck_by IS NULL")
        return {it["child"] for it in rows}

    def files_of(self, child: int) -> list[File]:
        """The files of a child, the last first."""
        columns = ", ".join(it.name for it in dataclasses.fields(File))
        rows = self.store.rows(
            f"SELECT {columns} FROM child_file WHERE child=? ORDER BY number DESC", child)
        return [File(**dict(it)) for it in rows]

    def note(self, child: int, number: int) -> Note | None:
        """A note of a child, if there is one of this number."""
        return next((it for it in self.of_child(child) if it.number == number), None)

    def file(self, child: int, number: int) -> File | None:
        """A file of a child, if there is one of this number."""
        return next((it for it in self.files_of(child) if it.number == number), None)

    def add(self, who: Person, child: int, name: str, given: str) -> int:
        """Adds a note."""
        text = of_lines(given)
        see_text(text, "text", MOST_NOTE, "a note")
        with self.store.writing() as db:
            count = db.execute("SELECT count(*) FROM note WHERE child=?", (child,)).fetchone()[0]
            if count >= MOST_NOTES:
                raise Unfit("text", f"a child has at most {MOST_NOTES} notes")
            if any((it.text, it.who, it.struck_by) == (text, who.name, None)
                   for it in self.of_child(child)):
                raise Unfit("text", "this note is there already")
            number = db.execute(
                "INSERT INTO note (child, name, text, who, at) VALUES (?, ?, ?, ?, ?)",
                (child, name, text, who.name, now())).lastrowid or 0
            # (the text is not in the history, from which nothing can ever be deleted)
            self.record(who, ADDED, child, note=number, digest=digest(text.encode()))
        return number

    def strike(self, who: Person, note: Note, given: str) -> None:
        """Strikes out a note, which stays readable."""
        why = of_lines(given)
        see_text(why, "why", MOST_REASON, "the reason")
        with self.store.writing() as db:
            done = db.execute(
                "UPDATE note SET struck_by=?, struck_at=?, struck_why=?"
                " WHERE number=? AND struck_by IS NULL", (who.name, now(), why, note.number))
            if not done.rowcount:
                raise Refused("the note is struck out already")
            self.record(who, STRUCK, note.child, note=note.number)

    def add_file(self, who: Person, child: int, name: str, called: str, data: bytes) -> int:
        """Adds a file."""
        see_file(called, data)
        with self.store.writing() as db:
            for it in self.files_of(child):
                if it.digest == digest(data) and not it.removed_by:
                    raise Unfit("file", f"this file is there already, as file {it.number}")
            self.see_room(child, len(data))
            number = db.execute(
                "INSERT INTO child_file (child, name, called, size, digest, data, who, at)"
                " VALUES (?, ?, ?, ?, ?, ?, ?, ?)",
                (child, name, called, len(data), digest(data), data, who.name, now())).lastrowid
            self.record(who, FILED, child, file=number, digest=digest(data))
        return number or 0

    def see_room(self, child: int, size: int) -> None:
        """Refuses a file for which there is no room."""
        row = self.store.row("SELECT count(*) AS many FROM child_file"
                             " WHERE child=? AND removed_by IS NULL", child)
        if row and row["many"] >= MOST_FILES:
            raise Unfit("file", f"a child has at most {MOST_FILES} files: remove one first")
        row = self.store.row("SELECT coalesce(sum(size), 0) AS size FROM child_file"
                             " WHERE removed_by IS NULL")
        if row and row["size"] + size > MOST_OF_ALL:
            raise Unfit("file", f"the files of all children have at most"
                        f" {MOST_OF_ALL // inputs.MB} MB: remove some first")

    def remove(self, who: Person, file: File, given: str) -> None:
        """Removes the bytes of a file. That there was one stays."""
        why = of_lines(given)
        see_text(why, "why", MOST_REASON, "the reason")
        with self.store.writing() as db:
            done = db.execute(
                "UPDATE child_file SET data=NULL, removed_by=?, removed_at=?, removed_why=?"
                " WHERE number=? AND removed_by IS NULL", (who.name, now(), why, file.number))
            if not done.rowcount:
                raise Refused("the file is removed already")
            self.record(who, REMOVED, file.child, file=file.number)

    def data(self, who: Person, file: File) -> bytes:
        """The bytes of a file that is there, as they were sent. Who read them is on record."""
        row = self.store.row("SELECT data FROM child_file WHERE number=?", file.number)
        found = row["data"] if row else None
        if not isinstance(found, bytes) or digest(found) != file.digest:
            raise Refused("the file is not there any more, or is not as it was sent")
        self.record(who, READ_FILE, file.child, file=file.number)
        return found

    def record(self, who: Person, what: str, child: int, **about: object) -> None:
        """Adds a step to the history."""
        self.history.add(who.name, what, {"child": child, **about})


def see_file(called: str, data: bytes) -> None:
    """Refuses what cannot be kept as a file."""
    if not called:
        raise Unfit("file", "choose a file first")
    if len(called) > MOST_NAME:
        raise Unfit("file", f"the name of a file has at most {MOST_NAME} characters")
    if not data:
        raise Unfit("file", "the file is empty")
    if len(data) > MOST_FILE:
        raise Unfit("file", f"a file has at most {MOST_FILE // inputs.MB} MB")


def digest(data: bytes) -> str:
    """The digest by which a later change is seen."""
    return hashlib.sha256(data).hexdigest()
