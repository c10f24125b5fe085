"""What would become of what is sent again: tried on a scratch copy of the copy that is restored,
before anybody confirms the restore.
"""
import itertools
import os
import pathlib
import subprocess
import tempfile
from collections.abc import Sequence
from typing import Any

import register_files as files
from register_files import Refused

from office.core import commands, model
from office.web.register.desk import line_of
from office.web.register.history import Entry
from office.web.rounds.rehearsal import taken

from .copies import COPY_NAME

WOULD, WOULD_NOT = "would be stored", "would not be stored: {}"


def tried(copy: pathlib.Path, entries: Sequence[Entry]) -> dict[int, str]:
    """What would become of each entry, in words, if they were sent in this order to the copy."""
    if not entries:
        return {}
    with tempfile.TemporaryDirectory(prefix="admissions-") as room:
        answers = sent(taken(copy, os.path.join(room, "copy.db")), entries)
    return {it.number: in_words(it, answer) for it, answer in zip(entries, answers)}


def sent(path: str, entries: Sequence[Entry]) -> list[Any]:
    """The answers of the program, which does what entries sent with the register of a file."""
    answers: list[Any] = []
    for is_import, found in itertools.groupby(entries, lambda it: "import" in it.about):
        group = list(found)
        answers += imported(path, group) if is_import else done(path, group)
    return answers


def in_words(entry: Entry, answer: Any) -> str:
    """An answer in words."""
    if commands.is_done(answer):
        return WOULD
    return WOULD_NOT.format(commands.in_words(answer, entry.about.get("command")))


def done(path: str, entries: Sequence[Entry]) -> list[Any]:
    """The answers of the program to commands."""
    lines = b"".join(line_of(it.about["command"]) + b"\n" for it in entries)
    found = [commands.read(it) for it in ran(path, lines, "do", path).split(b"\n")[:-1]]
    if len(found) != len(entries):
        raise Refused("what is sent again cannot be tried: the program has not answered each")
    return found


def imported(path: str, entries: Sequence[Entry]) -> list[Any]:
    """The answers of the program to imports."""
    found = []
    for at, it in enumerate(entries):
        rows = f"{path}.{at}.csv"
        with open(rows, "wb") as file:
            file.write(it.about["import"].encode())
        found.append(commands.read(ran(path, b"", "import", path, rows).rstrip(b"\n")))
    return found


def ran(path: str, given: bytes, *words: str) -> bytes:
    """What the program prints."""
    try:
        run = subprocess.run([files.program(), *words], input=given, capture_output=True,
                             check=False)
    except OSError as error:
        raise Refused(f"the program does not start: {error.strerror}") from error
    if not run.stdout.endswith(b"\n"):
        said = model.printed(run).replace(path, COPY_NAME)
        raise Refused(f"what is sent again cannot be tried: {said}")
    return run.stdout
