"""What letters say of the office: its name and address, how to reach it, a first and a last
paragraph, and who signs; with all versions, so that a letter is what it was.
"""
import dataclasses
import json
import sqlite3
from collections.abc import Mapping

from register_files import Refused

from office.core import texts
from office.web.people.roles import Person
from office.web.register.history import History, now
from office.web.register.store import Store

from .examples import SENDER

# what the template calls it
NAME = "sender"


@dataclasses.dataclass(frozen=True)
class Field:
    """A field: its name, its label, what helps, and how many characters and lines it has."""

    name: str
    label: str
    hint: str = ""
    most: int = 100
    lines: int = 1
    is_needed: bool = False


FIELDS = (
    Field("office", "Name of the office", "as Exampleshire County Council", is_needed=True),
    Field("address", "Address", "each line of it on a line, as it stands at the head of letters",
          500, 6, True),
    Field("telephone", "Telephone"),
    Field("email", "E-mail"),
    Field("website", "Website"),
    Field("opening", "Opening paragraph", "after 'Dear parent or carer'; it may be empty", 1000, 1),
    Field("closing", "Closing paragraph", "before 'Yours faithfully'; it may be empty", 1000, 1),
    Field("signs", "Who signs", "as School Admissions, Exampleshire County Council",
          is_needed=True),
)


class WrongFields(Refused):
    """Fields that cannot be stored, each with what is wrong."""

    def __init__(self, wrong: dict[str, str]) -> None:
        super().__init__("Nothing was saved: see the fields that are marked")
        self.wrong = wrong


@dataclasses.dataclass(frozen=True)
class Version:
    """What was saved once, with who and when."""

    number: int
    fields: dict[str, str]
    who: str
    at: str


def version_of(row: sqlite3.Row) -> Version:
    """The version of a row."""
    return Version(row["version"], json.loads(row["fields"]), row["who"], row["at"])


def read(given: Mapping[str, str]) -> dict[str, str]:
    """The fields of a form, without blanks around them and empty lines."""
    found = {}
    for it in FIELDS:
        lines = [" ".join(line.split()) for line in given.get(it.name, "").splitlines()]
        found[it.name] = ("\n" if it.lines > 1 else " ").join(line for line in lines if line)
    return found


def wrong_in(fields: Mapping[str, str]) -> dict[str, str]:
    """What is wrong with fields."""
    found = {}
    for it in FIELDS:
        text = fields[it.name]
        if it.is_needed and not text:
            found[it.name] = "it is on each letter: type it"
        elif len(text) > it.most or text.count("\n") >= it.lines:
            most = f"{it.most:,} characters" + (f" on {it.lines} lines" if it.lines > 1 else "")
            found[it.name] = f"it has at most {most}"
        elif not texts.is_shown(text.replace("\n", "")):
            found[it.name] = "it has characters that cannot be printed: type it anew"
    return found


def values_of(fields: Mapping[str, str]) -> dict[str, object]:
    """What a template is given of these fields."""
    found: dict[str, object] = dict(fields)
    found["address"] = fields["address"].splitlines()
    return {NAME: found}


class Sender:
    """What letters say of the office of one application."""

    def __init__(self, store: Store, record: History) -> None:
        self.store, self.history = store, record

    def versions(self) -> list[Version]:
        """All that was saved, the last first."""
        return [version_of(it) for it in self.store.rows(
            "SELECT * FROM letter_sender ORDER BY version DESC")]

    def last(self) -> Version | None:
        """What letters say now, or None until it was typed."""
        return next(iter(self.versions()), None)

    @property
    def number(self) -> int:
        """The version of which letters are made now; 0 is the example."""
        last = self.last()
        return last.number if last else 0

    def values(self, number: int) -> dict[str, object]:
        """What a template is given of a version; of the example until one was typed."""
        found = next((it for it in self.versions() if it.number == number), None)
        return values_of(found.fields) if found else {NAME: SENDER}

    def save(self, who: Person, seen: int, fields: dict[str, str]) -> None:
        """Stores another version; on record before."""
        if wrong := wrong_in(fields):
            raise WrongFields(wrong)
        with self.store.lock:
            last = self.last()
            if last and last.number != seen:
                raise Refused(f"{last.who} has saved this meanwhile. Nothing was saved: what you"
                              " typed is below")
            if last and last.fields == fields:
                return
            number = last.number + 1 if last else 1
            self.history.add(who.name, "saved the office on its letters",
                             {"version": number, "fields": fields})
            with self.store.writing() as db:
                db.execute("INSERT INTO letter_sender VALUES (?, ?, ?, ?)",
                           (number, json.dumps(fields), who.name, now()))


def has_example(text: str, number: int) -> bool:
    """Whether letters by this text, made with a version, have the address of the example."""
    return number == 0 if NAME in text else str(SENDER["office"]) in text
