#!/usr/bin/env python3
"""When each mutant of the gate was last rejected: tools/mutant_record.py due | note < LOG

tools/rejected has a line for each mutant of mutants/CRATE/gate: its name, the sum of what decides
its outcome (its own text, the source of its crate and of all crates below, and the toolchain's
logic), and the day. The gate tries a mutant if that sum is another one now, and on each day those
of one more crate in turn.

  due    lays the mutants that are to be tried into crates/CRATE/must-fail, where `rt ci` takes them
  note   writes the lines of those that a log of `rt ci` or `rt must-fail` names as rejected
"""
import datetime
import hashlib
import re
import shutil
import subprocess
import sys
from functools import cache
from pathlib import Path
from typing import NamedTuple

import proved_source

ROOT = Path(__file__).resolve().parent.parent
RECORD = Path("tools/rejected")
REFUSED = re.compile(r"rt: must-fail (\S+)\.edit: refused, as it must be(: .*)?")


class Line(NamedTuple):
    """A line of the record."""

    name: str
    sum: str
    day: str


def crate_of(edit: Path) -> str:
    return edit.parts[-3]


def name_of(edit: Path) -> str:
    return f"{crate_of(edit)}/{edit.stem}"


def edits(root: Path) -> list[Path]:
    """The mutants of the gate."""
    return sorted(root.glob("mutants/*/gate/*.edit"))


@cache
def logic() -> str:
    """The logic of the toolchain, by which its proofs are."""
    return subprocess.check_output(["rt", "version"], text=True).split()[-1]


@cache
def source_of(root: Path, crate: str) -> str:
    """The sum of the source of a crate and of all crates below."""
    return proved_source.sum_of(root, [crate, *proved_source.below(root, crate)])


def sum_of(root: Path, edit: Path) -> str:
    """The sum of all that decides what becomes of a mutant."""
    decides = f"{logic()} {source_of(root, crate_of(edit))}".encode()
    return hashlib.sha256(decides + edit.read_bytes()).hexdigest()[:16]


def recorded(root: Path) -> dict[str, Line]:
    """The lines of the record, by the mutant."""
    file = root / RECORD
    lines = file.read_text(encoding="utf-8").splitlines() if file.exists() else []
    return {it.name: it for it in (Line(*line.split()) for line in lines)}


def is_recorded(root: Path, edit: Path) -> bool:
    """Whether a mutant was rejected with all that decides its outcome as it is now."""
    line = recorded(root).get(name_of(edit))
    return line is not None and line.sum == sum_of(root, edit)


def due(root: Path, day: datetime.date) -> list[Path]:
    """The mutants that are to be tried on a day."""
    crates = sorted({crate_of(it) for it in edits(root)})
    turn = crates[day.toordinal() % len(crates)] if crates else ""
    return [it for it in edits(root) if crate_of(it) == turn or not is_recorded(root, it)]


def lay(day: datetime.date) -> None:
    """Lays the mutants that are due where `rt ci` takes them."""
    for it in due(ROOT, day):
        folder = ROOT / "crates" / crate_of(it) / "must-fail"
        folder.mkdir(exist_ok=True)
        shutil.copy(it, folder)


def note(log: str, day: datetime.date) -> None:
    """Writes the lines of the mutants that a log names as refused."""
    refused = {found[1] for found in map(REFUSED.fullmatch, log.splitlines()) if found}
    known = recorded(ROOT)
    lines = [Line(name_of(it), sum_of(ROOT, it), str(day)) if name_of(it) in refused
             else known.get(name_of(it)) for it in edits(ROOT)]
    (ROOT / RECORD).write_text("".join(f"{' '.join(it)}\n" for it in lines if it), encoding="utf-8")


def main() -> int:
    today = datetime.datetime.now(datetime.timezone.utc).date()
    match sys.argv[1:]:
        case ["due"]:
            lay(today)
        case ["note"]:
            note(sys.stdin.read(), today)
        case _:
            print("tools/mutant_record.py due | note < LOG", file=sys.stderr)
            return 2
    return 0


if __name__ == "__main__":
    sys.exit(main())
