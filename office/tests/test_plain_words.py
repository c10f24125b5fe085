"""No screen names a path, a command or a user of the machine, whatever the machine cannot do: a
folder is missing or not writable, a disk is full, a program is not there. And none has a word that
an officer does not use.
"""
import ast
import datetime
import errno
import io
import os
import pathlib
import re
import shutil
import sqlite3
import tempfile
from collections.abc import Callable, Iterator
from typing import Any
from unittest import mock

import pytest
from applications import Site, site
from conftest import ROOT
from pages import Page
from register_files import Refused
from werkzeug.datastructures import FileStorage

from office.core import plain
from office.web.copies import copies
from office.web.explain import held_again
from office.web.frame import uploads
from office.web.people.roles import Person
from office.web.register import entry_words
from office.web.rounds import rehearsal
from office.web.rounds.terms import GIVEN_UP
from office.web.trials import runs as trials
from office.web.trials.runs import Asked, Run

# what no text for an officer has
FORBIDDEN = re.compile(
    r"(?<![\w<.])/[a-z]+/|admissions-[a-z]|Errno|\broot\b|sqlite|\bsudo\b|systemctl")

# words that no screen has, each with the one that it has
OLD = {
    r"\b[Pp]iles?\b": "batch", "Came to": "Result", "Against it": "Problem",
    r"To see\b(?! )|^Look at$": "To check", "Take (the )?(file|figures|archive)": "Download",
    "[Tt]ake back|[Tt]aken back": "Undo", r"^Metres$": "Distance (m)", r"^Class$": "Criterion met",
    "[Ww]hoever (runs|maintains)": "IT support", r"\b[Ww]orkbooks?\b": "Excel",
    "[Cc]lose for all|[Oo]pen for all|closed for all": "Pause recording, Resume recording",
    r"\b[Gg]ive up\b|\bgiven up\b": "Cancel", "SHA-256 sum": "Fingerprint",
    "[Bb]ring back|[Bb]rought back": "Put back", "Store in the register": "Add to the register",
    "Points of homes": "Homes to locate", r"\b[Ff]lags?\b(?!:)": "Verified reasons",
    "Correct the data": "Correct the details", r"\bpairs?\b": "lots",
    r"\b[Hh]olds? (round|the (first )?(round|draw))\b": "Run",
    r"\b[Ff]ills?\b(?! (what|the draft|of \())": "offer from the waiting list",
    r"\b(a|the|this|each|last|next|later|such|no) [Dd]raws?\b(?! number)|\bDraws\b":
        "round or offer",
    r"\bapplications? (is|are|was|were) (not )?stored\b": "added to the register",
}
# the texts within what a template computes, and the texts of attributes that are read out
QUOTED = re.compile(r"\"([^\"]*)\"")
CODE = re.compile(r"{#.*?#}|{%.*?%}|{{.*?}}|<[^>]*>", re.DOTALL)
READ_OUT = re.compile(r"(?:aria-label|placeholder|title)=\"([^\"]*)\"")


def is_text(text: str) -> bool:
    """Whether a literal is a text for people, and not a name or a question to the store."""
    is_words = " " in text.strip() or text[:1].isupper()
    return is_words and text not in (*entry_words.STEPS, GIVEN_UP) and not re.match(
        r"\s*(SELECT|INSERT|UPDATE|DELETE|CREATE|ALTER|PRAGMA)\b", text)


def texts_of(path: pathlib.Path) -> Iterator[str]:
    """The texts for people of a template or a module."""
    source = path.read_text("utf-8")
    if path.suffix == ".py":
        tree = ast.parse(source)
        docs = {id(it.body[0].value) for it in ast.walk(tree)
                if isinstance(it, (ast.Module, ast.ClassDef, ast.FunctionDef))
                and isinstance(it.body[0], ast.Expr)}
        found = (it.value for it in ast.walk(tree) if isinstance(it, ast.Constant)
                 and isinstance(it.value, str) and id(it) not in docs)
        yield from filter(is_text, found)
        return
    for code in CODE.findall(source):
        if not code.startswith("{#"):
            yield from filter(is_text, (QUOTED if code[0] == "{" else READ_OUT).findall(code))
    yield CODE.sub("\n", source)


@pytest.fixture(name="office")
def office_fixture(tmp_path: pathlib.Path) -> Iterator[Site]:
    """The application before a register that does not answer."""
    with site(tmp_path, "http://127.0.0.1:1") as found:
        yield found


def is_plain(text: str) -> bool:
    """Whether a text for an officer names nothing of the machine."""
    return FORBIDDEN.search(text) is None


def cannot(number: int) -> Callable[..., Any]:
    """What fails as a file does, with its path."""
    def fail(*_: object, **__: object) -> Any:
        raise OSError(number, os.strerror(number), "/var/lib/admissions/office/requests/copy")

    return fail


def missing(office: Site, _: pytest.MonkeyPatch) -> None:
    """The folder of requests is gone."""
    shutil.rmtree(office.parts.copies.requests)


def not_writable(_: Site, patch: pytest.MonkeyPatch) -> None:
    """The folder of requests is another user's."""
    patch.setattr(tempfile, "mkstemp", cannot(errno.EACCES))


def full(_: Site, patch: pytest.MonkeyPatch) -> None:
    """The disk is full."""
    patch.setattr(os, "fsync", cannot(errno.ENOSPC))


@pytest.mark.parametrize("how, reason", [
    (missing, "no such file or directory"), (not_writable, "permission denied"),
    (full, "its disk is full")])
def test_a_copy_that_cannot_be_asked_for_is_said_plainly(
    office: Site, monkeypatch: pytest.MonkeyPatch, reason: str,
    how: Callable[[Site, pytest.MonkeyPatch], None],
) -> None:
    """With the reason, and with nothing of the machine."""
    how(office, monkeypatch)
    with pytest.raises(Refused) as error:
        office.parts.copies.asked(copies.COPY, 1)
    assert str(error.value) == f"the machine cannot be asked for copies ({reason}). {plain.ADVICE}"


def test_what_the_machine_answers_is_said_without_its_paths(
    office: Site, monkeypatch: pytest.MonkeyPatch
) -> None:
    """The words of its commands name files, and commands themselves."""
    for why, said in (
        ("the register was not copied: admissions-backup: /var/lib/admissions/a/reg.db is in use",
         "the register was not copied: a file is in use"),
        ("the register was not copied: [Errno 28] No space left on device: '/var/backups/a b'",
         "the register was not copied: No space left on device: a file b'"),
        ("the register is as it was: admissions-restore: /x/y.db: cannot be read, /x/z is there",
         "the register is as it was: a file: cannot be read, a file is there"),
    ):
        answer = {"number": 1, "error": "NotCopied", "why": why}
        monkeypatch.setattr(copies, "read", lambda _, it=answer: it)
        monkeypatch.setattr(copies.Copies, "put", lambda *_: None)
        with pytest.raises(Refused) as error:
            office.parts.copies.asked(copies.COPY, 1)
        assert str(error.value) == said


def test_a_copy_that_cannot_be_read_has_no_path(
    office: Site, tmp_path: pathlib.Path, monkeypatch: pytest.MonkeyPatch
) -> None:
    """One that is damaged, one that is a folder, and one without the program."""
    found = office.parts.copies
    found.folder.mkdir()
    name = "office-000001-2025-03-03T101112.db"
    with office.parts.store.writing() as db:
        db.execute("INSERT INTO copy (number, purpose, asked, name, size) VALUES"
                   " (1, 'a try', '2025-03-03', ?, 5)", (name,))
    (found.folder / name).write_bytes(b"SQLite format 3\0" + b"x" * 5000)
    with pytest.raises(Refused, match="^the copy is no register") as damaged:
        found.register(1)
    assert str(tmp_path) not in str(damaged.value) and is_plain(str(damaged.value))
    monkeypatch.setenv("ADMISSIONS", str(tmp_path / "none"))
    with pytest.raises(Refused, match="^the program of the register is not on the machine") as none:
        found.register(1)
    assert is_plain(str(none.value))
    sent = FileStorage(io.BytesIO(b"SQLite format 3\0" + b"x" * 5000), filename="copy.db")
    with pytest.raises(Refused, match="^the program of the register is not on the machine"):
        uploads.register_of(sent)
    monkeypatch.setattr(tempfile, "TemporaryDirectory", cannot(errno.ENOSPC))
    with pytest.raises(Refused, match="no place for a copy .its disk is full") as room:
        rehearsal.scratch_room()
    assert is_plain(str(room.value))


# a form of each screen that stores something, and what was typed into it
FORMS = {
    "/flags/": {"flag-3": "lives in the parish"},
    "/applications/add/": {"name": "Mo Marsh", "east": "1", "north": "2", "day": "20/10/2024",
                           "preference-1": "OAK"},
    "/people/": {"what": "add", "name": "new.person", "role": "reader"},
    "/schools/new/": {"school": "ASH", "name": "Ash School", "pan": "30"},
}


def test_what_holds_a_round_again_is_said_plainly(
    office: Site, monkeypatch: pytest.MonkeyPatch,
) -> None:
    """Where the program is not there, and where it says something of its own registers."""
    monkeypatch.setenv("ADMISSIONS", "")
    monkeypatch.setenv("PATH", "")
    asked = Asked(mock.MagicMock(), None, {}, [], {})
    with pytest.raises(Refused) as error:
        office.parts.trials.begin(Person("jane", "officer"), asked)
    assert is_plain(str(error.value)) and plain.ADVICE in str(error.value), error.value
    with pytest.raises(Refused) as error, held_again.turn():
        pass
    assert is_plain(str(error.value)) and plain.ADVICE in str(error.value), error.value
    run = Run(1, [], mock.MagicMock())
    said = "it was not made: /tmp/admissions-trial-x/plain.db is no register"
    monkeypatch.setattr(trials, "Trial", mock.MagicMock(side_effect=Refused(said)))
    trials.work(run, asked)
    assert run.refused == "it was not made: a file is no register"


@pytest.mark.parametrize("error", [
    sqlite3.OperationalError("database or disk is full"),
    sqlite3.OperationalError("attempt to write a readonly database"),
    sqlite3.OperationalError("no such table: staged_row"),
    OSError(errno.EIO, os.strerror(errno.EIO), "/var/lib/admissions/office/office.db"),
], ids=str)
def test_nothing_that_was_typed_is_lost_where_nothing_can_be_stored(
    office: Site, monkeypatch: pytest.MonkeyPatch, error: Exception
) -> None:
    """Each screen says so without a path, and has what was typed, to be sent again."""
    hal = office.browser("hal", "head")

    def fail() -> Any:
        raise error

    monkeypatch.setattr(office.parts.store, "writing", fail)
    for path, given in FORMS.items():
        found = hal.post(path, given)
        assert found.status_code in (409, 503), (path, found.text)
        said = Page(found.text).said()
        assert said and is_plain(said) and "staged_row" not in said, (path, said)
        for text in given.values():
            assert text in found.text, (path, text)


def test_an_error_of_the_application_keeps_what_was_typed(
    office: Site, monkeypatch: pytest.MonkeyPatch
) -> None:
    """It names nothing of itself; without a form it is a page."""
    hal = office.browser("hal", "head")

    def fail(*_: object) -> Any:
        raise KeyError("/var/lib/admissions/office")

    monkeypatch.setattr("office.web.schools.flags.change", fail)
    monkeypatch.setattr("office.web.schools.flags.present", fail)
    found = hal.post("/flags/", FORMS["/flags/"])
    assert found.status_code == 500 and "lives in the parish" in found.text
    assert "Something went wrong in the application" in Page(found.text).said()
    page = hal.get("/flags/")
    said = Page(page.text).said()
    assert page.status_code == 500 and is_plain(said) and "you send it again" not in said
    assert "Nothing was changed. Tell IT support" in said and "could not be made" in page.text
    assert str(datetime.date.today().year) in said and "Not done" not in page.text


def test_no_template_and_no_script_names_anything_of_the_machine() -> None:
    """The words of all screens, and those that their scripts put there."""
    scripts = list((ROOT / "deploy" / "site").glob("*.js"))
    assert scripts
    for path in scripts:
        # (an address of the site, which is asked for)
        assert is_plain(re.sub("[`\"]/[a-z/]+", "", path.read_text("utf-8"))), path.name
    paths = list((ROOT / "office" / "web").glob("*/templates/*.html"))
    assert paths
    for path in paths:
        shown = re.sub(r"{#.*?#}|{%.*?%}|{{.*?}}|<[^>]*>", " ", path.read_text("utf-8"), flags=re.S)
        assert is_plain(shown), path.name


def test_what_is_not_recorded_is_not_said_to_be_not_sent() -> None:
    """Letters are sent, and commands are recorded: a sentence without its object would be taken for
    the other one on the screens that have both.
    """
    said = re.compile(r"Nothing (?:was|is) sent|nothing (?:was|is) sent(?: for it)?[.{<\"]")
    found = [it.name for it in (ROOT / "office" / "web").rglob("*.*")
             if it.suffix in (".py", ".html") and said.search(it.read_text("utf-8"))]
    # (what came since a copy is sent again, and no letter is on that screen)
    assert found == ["restore.html"]


def test_no_text_of_people_is_taken_for_markup() -> None:
    """No template has a text as it is, but that of the handbook, which the product itself has, and
    pictures, which escape each text.
    """
    found = [path.name for path in (ROOT / "office" / "web").rglob("*")
             if path.suffix in (".html", ".py")
             and re.search(r"\|\s*safe\b|autoescape(?!=True)|Markup\(",
                           path.read_text("utf-8"))]
    # (app gives back as markup what it was given as such, and template_faults has the names of what
    # a template can begin)
    assert sorted(found) == ["app.py", "help.py", "pictures.py", "template_faults.py"]


def test_no_screen_has_a_word_that_was_replaced() -> None:
    """Two words for one thing, or one that only who made this would use. Names of addresses, of
    files and of steps in the history stay.
    """
    folder = ROOT / "office" / "web"
    paths = [it for it in (*folder.rglob("*.py"), *folder.glob("*/templates/*.html"))
             # (the last two have what is wrong in what the program itself prints)
             if it.name not in ("archive.py", "held_draw.py", "lot_sheets.py")]
    assert len(paths) > 200
    found = [f"{path.name}: {text.strip()[:90]!r}: say {new}" for path in paths
             for text in texts_of(path) for part in text.split("\n")
             for old, new in OLD.items() if re.search(old, part.strip())]
    assert found == []
