"""The office's templates of letters, with all their versions: none is stored that is faulty, and
none is changed, so that a letter is what it was.
"""
import dataclasses
import hashlib
import json
import os
import pathlib
import re
import sqlite3
import tempfile

from register_files import Refused

from office.core import texts
from office.web.people.roles import Person
from office.web.register.history import History, now
from office.web.register.store import Store

from . import apart, pdf, sender
from .apart import Form, Made, Source
from .examples import ADDRESS, DAY, EXAMPLES, SENDER

STANDARD = "Standard letter"
MOST_NAME, MOST_TEXT, MOST_PICTURES, MOST_PICTURE = 60, 200_000, 10, 2_000_000
PICTURE = re.compile(r"[A-Za-z0-9][A-Za-z0-9._-]{0,59}")


@dataclasses.dataclass(frozen=True)
class Version:
    """A template as it was saved once: its number and name, its text, and its pictures by the
    digests of what they have.
    """

    template: int
    name: str
    version: int
    text: str
    pictures: dict[str, str]
    who: str
    at: str

    @property
    def called(self) -> str:
        """As a letter's record names it."""
        return f"{self.name}, version {self.version}"

    @property
    def is_standard(self) -> bool:
        """Whether it is the one that comes with the program, which nobody changes."""
        return self.name == STANDARD


def version_of(row: sqlite3.Row) -> Version:
    """The version of a row."""
    return Version(row["template"], row["name"], row["version"], row["text"],
                   json.loads(row["pictures"]), row["who"], row["at"])


class Templates:
    """The templates of one application."""

    def __init__(self, store: Store, record: History) -> None:
        self.store, self.history = store, record

    def standard(self) -> int:
        """The number of the template that comes with the program; what another release has is
        another version.
        """
        text = pathlib.Path(pdf.TEMPLATE).read_text("utf-8")
        with self.store.writing() as db:
            db.execute("INSERT OR IGNORE INTO letter_template (name) VALUES (?)", (STANDARD,))
            row = db.execute("SELECT id FROM letter_template WHERE name=?", (STANDARD,)).fetchone()
            number: int = row["id"]
            last = self.last(number)
            if last is None or last.text != text:
                self.insert(number, last, text, {}, "")
        return number

    def insert(
        self, number: int, last: Version | None, text: str, pictures: dict[str, str], who: str,
    ) -> None:
        """Stores a version after the last one."""
        with self.store.writing() as db:
            db.execute("INSERT INTO letter_version VALUES (?, ?, ?, ?, ?, ?)",
                       (number, last.version + 1 if last else 1, text, json.dumps(pictures), who,
                        now()))

    def last(self, number: int) -> Version | None:
        """The last version of a template."""
        found = self.versions(number)
        return found[0] if found else None

    def versions(self, number: int) -> list[Version]:
        """The versions of a template, the last first."""
        return [version_of(row) for row in self.store.rows(
            "SELECT * FROM letter_version JOIN letter_template ON id=template WHERE template=?"
            " ORDER BY version DESC", number)]

    def get(self, number: int, version: int) -> Version:
        """A version."""
        row = self.store.row("SELECT * FROM letter_version JOIN letter_template ON id=template"
                             " WHERE template=? AND version=?", number, version)
        if row is None:
            raise Refused("there is no such template")
        return version_of(row)

    def listed(self) -> list[Version]:
        """The last versions of all templates: the one of the program, and then by name."""
        self.standard()
        rows = self.store.rows("SELECT id FROM letter_template ORDER BY name<>?, name", STANDARD)
        return [it for row in rows if (it := self.last(row["id"]))]

    def usual(self) -> Version:
        """The template that is chosen where nobody has chosen another one: of those that the office
        has made the last by name, or the one of the program.
        """
        return self.listed()[-1]

    def source(self, found: Version) -> Source:
        """A version with its pictures."""
        pictures = {}
        for name, digest in found.pictures.items():
            row = self.store.row("SELECT data FROM letter_picture WHERE digest=?", digest)
            if row is None:
                raise Refused(f"the picture {name} of {found.called} is not kept")
            pictures[name] = bytes(row["data"])
        return Source(found.name, found.text, pictures)

    def save(
        self, who: Person, number: int | None, seen: int, name: str, source: Source,
    ) -> Version:
        """Stores another version, or a new template, once it was tried; on record before."""
        see_source(name, source)
        see_good(source)
        digests = {it: hashlib.sha256(data).hexdigest() for it, data in source.pictures.items()}
        with self.store.lock:
            last = self.last(number) if number else None
            self.see_free(number, last, seen, name)
            self.history.add(who.name, "saved a template", {
                "template": name, "version": last.version + 1 if last else 1,
                "digest": hashlib.sha256(source.text.encode()).hexdigest()})
            with self.store.writing() as db:
                if number is None:
                    number = db.execute(
                        "INSERT INTO letter_template (name) VALUES (?)", (name,)).lastrowid or 0
                db.executemany("INSERT OR IGNORE INTO letter_picture VALUES (?, ?)",
                               [(digests[it], data) for it, data in source.pictures.items()])
                self.insert(number, last, source.text, digests, who.name)
        found = self.last(number)
        assert found is not None
        return found

    def see_free(self, number: int | None, last: Version | None, seen: int, name: str) -> None:
        """Refuses a name that another template has, and a version after one that was not seen."""
        if number and last is None:
            raise Refused("there is no such template")
        if last and last.is_standard:
            raise Refused(f"nobody changes the {STANDARD}: make a template of your own of it")
        if last and last.version != seen:
            raise Refused(f"{last.who} has saved version {last.version} meanwhile. Nothing was"
                          " saved: what you typed is below")
        row = self.store.row("SELECT id FROM letter_template WHERE name=?", name)
        if number is None and row:
            raise Refused(f"there is a template {name} already")


def see_source(name: str, source: Source) -> None:
    """Refuses a name, a text or pictures that no template has."""
    if not name or len(name) > MOST_NAME or not texts.is_shown(name):
        raise Refused(f"a name has 1 to {MOST_NAME} characters, on one line")
    if not source.text.strip():
        raise Refused("the text is empty")
    if len(source.text) > MOST_TEXT:
        raise Refused(f"a text has at most {MOST_TEXT:,} characters")
    if len(source.pictures) > MOST_PICTURES:
        raise Refused(f"a template has at most {MOST_PICTURES} pictures")
    for it, data in source.pictures.items():
        see_picture(it, data)


def see_picture(name: str, data: bytes) -> None:
    """Refuses a file that is no picture, and a name that a text cannot have as it is."""
    shown = texts.cut(name)
    if not PICTURE.fullmatch(name):
        raise Refused(f"the picture {shown} needs a name of letters, figures, dots and dashes, as"
                      " crest.png")
    if len(data) > MOST_PICTURE:
        raise Refused(f"the picture {shown} is too large: it has at most"
                      f" {MOST_PICTURE // 1_000_000} MB")
    if not (pdf.type_of(name, data) or "").startswith("image/"):
        raise Refused(f"{shown} is no picture: PNG, JPEG, GIF, WebP or SVG")


def see_good(source: Source) -> None:
    """Refuses a template by which not each of the examples can be laid out."""
    with tempfile.TemporaryDirectory(prefix="admissions-") as room:
        examples(source, os.path.join(room, "examples.pdf"))


def examples(source: Source, path: str) -> Made:
    """Makes the letters of all examples in a new file."""
    source = dataclasses.replace(source, values={sender.NAME: SENDER})
    return apart.letters(
        source, [(it, ADDRESS) for it in EXAMPLES.values()], DAY, Form(), path)
