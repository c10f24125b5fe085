"""The test of a copy: it is opened by the program on a scratch copy, counted as the monthly drill
does, and its last draw is audited by the second program with the copy from before that draw.
"""
import json
import os
import pathlib
import tempfile
from typing import Any

import register_files as files
from register_files import Refused

from office.core import drills, model
from office.core.model import Register
from office.web.people.roles import Person
from office.web.register.history import now
from office.web.rounds.draws import Draws
from office.web.rounds.rehearsal import audited, taken
from office.web.rounds.terms import Draw

from .copies import COPY_NAME, Copies
from .draws import is_held

NO_DRAW = ("No round or offer of it can be audited from here: there is none, or no copy from before"
           " it.")


class CopyTests:
    """The tests of the copies of one application."""

    def __init__(self, copies: Copies, draws: Draws) -> None:
        self.copies, self.draws, self.store = copies, draws, copies.store

    def test(self, who: Person, number: int) -> None:
        """Tests a copy, and keeps what that found."""
        self.copies.get(number)
        found = self.found(number)
        self.draws.history.add(who.name, "tested a copy", {
            "copy": number, **({"wrong": found["wrong"]} if found["wrong"] else {})})
        with self.store.writing() as db:
            db.execute("UPDATE copy SET tested=?, test=? WHERE number=?",
                       (now(), json.dumps(found), number))

    def found(self, number: int) -> dict[str, Any]:
        """What a test finds: in words, what is wrong, and the lines of the audit."""
        with tempfile.TemporaryDirectory(prefix="admissions-") as room:
            try:
                path = taken(self.copies.path(number), os.path.join(room, "copy.db"))
                register = opened(path)
                lines, wrong = self.audit(number, register, path, room)
            except Refused as error:
                return {"said": "", "wrong": [str(error)], "audit": []}
        said = "" if lines else f" {NO_DRAW}"
        return {"said": f"It opens. {drills.in_words(register).capitalize()}.{said}",
                "wrong": wrong, "audit": lines}

    def audit(
        self, number: int, register: Register, path: str, room: str
    ) -> tuple[list[str], list[str]]:
        """The lines of the audit of a copy's last draw, and what is wrong."""
        draw = self.last_draw(register)
        if draw is None or draw.before is None:
            return [], []
        try:
            kept = self.copies.path(draw.before)
        except Refused:
            # (its file is gone, which is nothing against this copy)
            return [], []
        before = taken(kept, os.path.join(room, "before.db"))
        is_later = draw.after != number or draw.terms.fills > 1
        lines, is_right = audited(before, path, is_later)
        return lines, [] if is_right else lines

    def last_draw(self, register: Register) -> Draw | None:
        """The last draw of the office that a register has."""
        found = [it for it in self.draws.listed()
                 if it.before and is_held(self.store, register, it)]
        return max(found, key=lambda it: it.terms.first) if found else None


def opened(path: str) -> Register:
    """The register of a scratch copy, which the program has opened and closed."""
    program = files.program()
    if error := files.opened(program, path):
        raise Refused(f"the copy does not open: {error.replace(path, COPY_NAME)}")
    if files.has_content(f"{path}-wal"):
        raise Refused("the copy does not open: a log stays beside it")
    return model.read_stored(str(pathlib.Path(path)), program, COPY_NAME)
