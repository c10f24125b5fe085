"""What the office's application keeps, in tests: a history that its own class writes, and people in
its file. Their hashes are those of no password, which would take long to make.
"""
import contextlib
import typing

from machine import office_store, registers
from office.web.children.notes import Notes
from office.web.people.roles import PERSON, Person
from office.web.register.history import ANSWER, SENDS, History
from office.web.register.store import Store

AT = "2025-03-03T10:00:00.000+00:00"
NO_HASH = "$argon2id$v=19$m=65536,t=3,p=4$c2FsdA$"


@contextlib.contextmanager
def history(register: registers.Register, at: str = AT) -> typing.Iterator[History]:
    """The history, as the application has it open, which is written at this moment."""
    found = History(str(register.history), lambda: at)
    try:
        yield found
    finally:
        found.close()


def record(register: registers.Register, *children: int) -> None:
    """Records that a command of each of these children was sent and done."""
    with history(register) as found:
        for it in children:
            command = {"cmd": "accept", "child": it, "school": "A"}
            of = found.add("jane", SENDS, {"command": command}).number
            found.add("jane", ANSWER, {"of": of, "answer": {"done": True}})


def children_of(data: bytes) -> list[int]:
    """The children whose command is printed of these lines, in their order."""
    texts = (line.partition(b'"child":') for line in data.splitlines())
    return [int(rest.partition(b",")[0]) for _, found, rest in texts if found]


def add_people(
    register: registers.Register, *people: tuple[str, str], kind: str = PERSON, locked: bool = False
) -> None:
    """Adds people by names and roles."""
    with contextlib.closing(Store(str(office_store.path_of(register)))) as store:
        with store.writing() as db:
            db.executemany(
                "INSERT INTO person (name, kind, role, hash, is_locked, added)"
                " VALUES (?, ?, ?, ?, ?, ?)",
                [(name, kind, role, NO_HASH + name, int(locked), AT) for name, role in people])


def add_note_and_file(register: registers.Register, child: int, text: str, data: bytes) -> None:
    """Adds a note and a file of a child, as an officer does."""
    jane = Person("jane", "officer")
    with contextlib.closing(Store(str(office_store.path_of(register)))) as store:
        with history(register) as kept:
            notes = Notes(store, kept)
            notes.add(jane, child, "Ada Abel", text)
            notes.add_file(jane, child, "Ada Abel", "../../evidence.pdf", data)


def notes_and_files_of(register: registers.Register, child: int) -> list[tuple[str, str, bytes]]:
    """The notes and files of a child, by their texts, names and bytes, as an officer reads them."""
    with contextlib.closing(Store(str(office_store.path_of(register)))) as store:
        with history(register) as kept:
            notes = Notes(store, kept)
            found = [("note", it.text, b"") for it in notes.of_child(child)]
            jane = Person("jane", "officer")
            return found + [("file", it.called, notes.data(jane, it))
                            for it in notes.files_of(child)]
