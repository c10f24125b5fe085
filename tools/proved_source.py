#!/usr/bin/env python3
"""The source that a verdict is of: tools/proved_source.py prints the line `source SUM` of all
crates and mutants, which tools/proofs and tools/mutants print before their outcomes.

tools/build leaves the verdict on each crate that it proves in out/verdicts/CRATE: the sum of the
source that was proved, the line in which the toolchain says so, and what the build knows beside it:
'anew', where nothing was kept of the crate before, and 'program SHA-256' of what was linked.
tools/evidence takes a verdict only where the sum is that of the source as it is now.
"""
import hashlib
import re
from collections.abc import Iterable
from pathlib import Path
from typing import NamedTuple

VERDICTS, TABLE = Path("out/verdicts"), Path("crates.txt")
# what a check of a crate reads of its folder
PARTS = ("src", "specs", "proofs")
# (of a program it has its axioms and its machine, too)
PROVED = re.compile(r"logic=proved functions=\d+ (?:\S+ )*?sum=[0-9a-f]+\b.*")
NOTE = re.compile(r"anew|program [0-9a-f]{64}")


class Verdict(NamedTuple):
    """What a build saw of a crate."""

    source: str
    line: str
    notes: tuple[str, ...] = ()


def sum_of_files(root: Path, paths: Iterable[Path]) -> str:
    """The SHA-256 of files, by their names below the root and their contents."""
    found = hashlib.sha256()
    for path in sorted(paths):
        data = path.read_bytes()
        found.update(f"{path.relative_to(root)} {len(data)}\n".encode() + data)
    return found.hexdigest()


def sum_of(root: Path, crates: Iterable[str]) -> str:
    """The sum of the source of crates, and of their lines of crates.txt."""
    names = sorted(crates)
    lines = (root / TABLE).read_text(encoding="utf-8").splitlines()
    found = sorted(it for it in lines if it.partition(":")[0] in names)
    folders = [root / "crates" / name / part for name in names for part in PARTS]
    files = [path for folder in folders for path in folder.rglob("*") if path.is_file()]
    return hashlib.sha256("\n".join([*found, sum_of_files(root, files)]).encode()).hexdigest()


def below(root: Path, name: str) -> list[str]:
    """All crates of the repository that a crate is built from."""
    lines = (root / TABLE).read_text(encoding="utf-8").splitlines()
    rows = {it.partition(":")[0]: it.partition("#")[0].partition(":")[2].split() for it in lines}
    found: set[str] = set()
    waiting = [name]
    while waiting:
        more = {it for it in rows.get(waiting.pop(), []) if it in rows} - found
        found |= more
        waiting += more
    return sorted(found)


def sum_of_all(root: Path) -> str:
    """The sum of all crates and mutants, but for what checks and builds leave."""
    found = [path for name in ("crates", "mutants") for path in (root / name).rglob("*")
             if path.is_file() and path.relative_to(root).parts[2:3] != ("out",)]
    return sum_of_files(root, [*found, root / TABLE])


def leave(name: str, source: str, log: str, is_anew: bool = False) -> None:
    """Leaves the verdict on a crate that was proved; none where the log has no line of it."""
    program = Path("crates", name, "out", name)
    VERDICTS.mkdir(parents=True, exist_ok=True)
    lines = [line for line in log.splitlines() if PROVED.fullmatch(line)]
    if lines:
        kept = [source, lines[-1], *(["anew"] if is_anew else [])]
        if program.is_file():
            kept.append(f"program {hashlib.sha256(program.read_bytes()).hexdigest()}")
        (VERDICTS / name).write_text("".join(f"{it}\n" for it in kept), encoding="utf-8")


def left(name: str) -> Verdict | None:
    """The verdict that a build left on a crate, whatever source it is of."""
    path = VERDICTS / name
    lines = path.read_text(encoding="utf-8").splitlines() if path.exists() else []
    is_one = len(lines) > 1 and PROVED.fullmatch(lines[1]) and all(map(NOTE.fullmatch, lines[2:]))
    return Verdict(lines[0], lines[1], tuple(lines[2:])) if is_one else None


if __name__ == "__main__":
    print(f"source {sum_of_all(Path(__file__).resolve().parent.parent)}")
