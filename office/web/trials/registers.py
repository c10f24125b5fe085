"""Registers for a trial, made by the program itself in a folder that is deleted afterwards: the
season of a copy, with some schools changed, and its round.
"""
import datetime
import hashlib
import json
import subprocess
import threading
import time
from collections.abc import Iterable
from typing import Any

from register_files import Refused

from office.core import child_fields, fields, model
from office.core.model import PLAN, Pair, Register, School
from office.core.rules import LIMITS
from office.files import sheet

SEED = "trial"
MOST_ROWS = LIMITS["rows"].most
Command = dict[str, Any]


class Program:
    """The program, whose runs are ended at a deadline, or when somebody ends them."""

    def __init__(self, path: str, seconds: int | None = None) -> None:
        self.path, self.seconds = path, seconds
        self.last = None if seconds is None else time.monotonic() + seconds
        self.lock, self.is_ended = threading.Lock(), False
        self.present: subprocess.Popen[bytes] | None = None

    def end(self) -> None:
        """Ends the present run, and lets no other begin."""
        with self.lock:
            self.is_ended = True
            if self.present:
                self.present.kill()

    def begun(self, words: Iterable[object]) -> subprocess.Popen[bytes]:
        """A run that has begun."""
        with self.lock:
            if self.is_ended:
                raise Refused("it was ended before its result")
            try:
                self.present = subprocess.Popen(
                    [self.path, *map(str, words)], stdin=subprocess.PIPE, stdout=subprocess.PIPE,
                    stderr=subprocess.PIPE)
            except OSError as error:
                raise Refused(f"the program does not start: {error.strerror}") from error
            return self.present

    def run(self, *words: object, given: bytes = b"", fine: Iterable[int] = (0,)) -> str:
        """What the program prints, if it ends with one of these statuses."""
        with self.begun(words) as run:
            try:
                left = None if self.last is None else max(0.0, self.last - time.monotonic())
                out, errors = run.communicate(given, left)
            except subprocess.TimeoutExpired as error:
                run.kill()
                run.communicate()
                raise Refused(f"it takes more than {self.seconds} seconds, and was ended: nothing"
                              " was changed by it") from error
        if self.is_ended:
            raise Refused("it was ended before its result")
        if run.returncode not in fine:
            text = " ".join((errors or out).decode("utf-8", "replace").split())
            raise Refused(f"the program does not make the register ({words[0]}, status"
                          f" {run.returncode}): {text}")
        return out.decode("utf-8")


def sent(program: Program, path: str, commands: Iterable[Command]) -> None:
    """Sends commands, each of which must be done."""
    lines = "".join(json.dumps(it, ensure_ascii=False) + "\n" for it in commands)
    program.run("do", path, given=lines.encode())


def make_first(program: Program, path: str, before: Register, schools: dict[str, School]) -> None:
    """A register with the data of one that had no round yet, and these schools."""
    size = ["--large"] * before.is_large
    program.run("init", path, before.phase, before.year, *before.holidays, *size)
    sent(program, path, map(child_fields.command_of_school, schools.values()))
    cells = [child_fields.cells_of(before.children[it], found)
             for it, found in before.applications.items()]
    rows = [[it[column] for column in fields.COLUMNS] for it in cells]
    for begin in range(0, len(rows), MOST_ROWS):
        name = f"{path}-{begin}.csv"
        with open(name, "xb") as file:
            file.write(sheet.csv_bytes([fields.COLUMNS, *rows[begin:begin + MOST_ROWS]]))
        program.run("import", path, name)
    others = [child_fields.command_of("add_child", it) for it in before.children.values()
              if it.number not in before.applications]
    plans = [{"cmd": "name_plan", "child": child, "school": it.school}
             for child, it in before.places.items() if it.kind == PLAN]
    sent(program, path, others + plans)


def make_later(program: Program, path: str, before: Register, schools: dict[str, School]) -> None:
    """A copy of a register that had rounds. Of its schools the admission number can be raised, and
    nothing else changed.
    """
    for it in schools.values():
        old = before.schools[it.code]
        if it.criteria != old.criteria or it.pan < old.pan:
            raise Refused(f"{before.name} had a round already, so only raised admission numbers can"
                          " be tried: its places come of the criteria that there were")
    before.source.copy_to(path)
    sent(program, path, [{"cmd": "raise_pan", "school": it.code, "pan": it.pan}
                         for it in schools.values() if it.pan > before.schools[it.code].pan])


def drawn(pairs: Iterable[Pair]) -> dict[Pair, int]:
    """Lots by the published rule, from a seed that is always the same."""
    found: dict[Pair, int] = {}
    by_school: dict[str, list[tuple[bytes, int]]] = {}
    for code, child in pairs:
        digest = hashlib.sha256(f"{SEED}\n{code}\n{child}\n".encode()).digest()
        by_school.setdefault(code, []).append((digest, child))
    for code, them in by_school.items():
        found |= {(code, child): lot for lot, (_, child) in enumerate(sorted(them), 1)}
    return found


def held_round(
    program: Program, path: str, before: Register, schools: dict[str, School], draw: datetime.date,
    lots: dict[Pair, int] | None,
) -> tuple[Register, dict[Pair, int]]:
    """Makes a register and holds the round in it: the register after it, and the lots. `lots` are
    None if they are to be drawn here.
    """
    (make_later if before.draws else make_first)(program, path, before, schools)
    return held_in(program, path, before, draw, lots)


def held_in(
    program: Program, path: str, before: Register, draw: datetime.date,
    lots: dict[Pair, int] | None,
) -> tuple[Register, dict[Pair, int]]:
    """Holds the round in a register that was made of one: the register after it, and the lots."""
    lines = (it.split(" ") for it in program.run("pairs", path).splitlines())
    pairs = [(code, int(child)) for code, child in lines]
    if lots is None:
        lots = drawn(pairs)
    elif set(pairs) != set(lots):
        raise Refused(f"{before.name} is not from right before the round: the children who take"
                      " part, or their schools, differ")
    sent(program, path, [{"cmd": "round", "draw": len(before.draws) + 1, "day": draw.isoformat(),
                          "lots": [lots[it] for it in pairs]}])
    return model.read_stored(path, program.path, before.name), lots
