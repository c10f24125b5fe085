"""The sentences of the promises of docs/trust/GUARANTEES.md, each with the clauses that carry it
(tools/claims.txt)."""
import re
from pathlib import Path
from typing import Any, NamedTuple

TABLE, LIMIT = Path("tools/claims.txt"), "limit"
# (a sentence ends where the next one begins)
ENDS = re.compile(r"(?:(?<=\.)|(?<=\.\)))\s+(?=[(A-Z`])")
CLAUSE = re.compile(r"(\w+)::([\w:]*\w)(?:: (\w+))?")


class Unclear(Exception):
    """A line of the list, or a sentence, that does not fit."""


class Carrier(NamedTuple):
    """A clause, with the definitions that it reaches and by which it says a sentence; none: all of
    the clause says it."""

    clause: Any
    by: list[Any]


class Sentence(NamedTuple):
    """A sentence and what carries it; nothing: it says what the promise does not cover."""

    text: str
    carriers: list[Carrier]

    @property
    def clauses(self) -> list[Any]:
        """Its clauses."""
        return [it.clause for it in self.carriers]


def sentences(text: str) -> list[str]:
    """The sentences of a text."""
    return [it for it in ENDS.split(text) if it]


class Claims:
    """The list, by the name of a promise."""

    def __init__(self, project: Any) -> None:
        self.project = project
        self.functions = {(it.crate, it.name): it for it in project.functions}
        self.entries: dict[str, dict[str, list[tuple[str, list[str]]]]] = {}
        entry: dict[str, list[tuple[str, list[str]]]] = {}
        for line in TABLE.read_text(encoding="utf-8").splitlines():
            depth, said = (len(line) - len(line.lstrip())) // 2, line.strip()
            if depth == 0 and said and not said.startswith("#"):
                entry = self.entries[said] = {}
            elif depth == 1:
                entry[said] = []
            elif depth == 2:
                entry[list(entry)[-1]].append((said, []))
            elif depth == 3:
                entry[list(entry)[-1]][-1][1].extend(said.removeprefix("by ").split(", "))

    def of(self, name: str, said: list[str]) -> list[Sentence]:
        """The sentences of a promise, each with the clauses below its first words."""
        entry = self.entries.pop(name, {})
        if len(entry) != len(said) or not all(map(str.startswith, said, entry)):
            raise Unclear(f"{TABLE}: {name}: these are not the first words of its {len(said)}"
                          f" sentences: {'; '.join(entry)}")
        out = []
        for text, lines in zip(said, entry.values()):
            names = [] if lines == [(LIMIT, [])] else lines
            if not lines or LIMIT in [one for one, _ in names]:
                raise Unclear(f"{TABLE}: {name}: no clause, or 'limit' beside one: {text}")
            out.append(Sentence(text, [Carrier(it, self.definitions(it, by)) for one, by in names
                                       for it in self.clauses(one)]))
        return out

    def definitions(self, clause: Any, by: list[str]) -> list[Any]:
        """The definitions of these names that a clause reaches."""
        reached = [it for level in self.project.levels([clause]) for it in level] if by else []
        found = {name: [it for it in reached if it.anchor == name] for name in by}
        if wrong := [name for name, them in found.items() if len(them) != 1]:
            raise Unclear(f"{TABLE}: {named(clause)} reaches no definition {wrong[0]}, or several")
        return [them[0] for them in found.values()]

    def clauses(self, name: str) -> list[Any]:
        """The clauses of a name of the list."""
        parts = CLAUSE.fullmatch(name)
        function = self.functions.get((parts[1], parts[2])) if parts else None
        found = [it for it in function.clauses if it.kind == "ensures"
                 and (not parts[3] or it.name == parts[3])] if parts and function else []
        if not found:
            raise Unclear(f"{TABLE}: there is no clause {name}")
        return found


def named(clause: Any) -> str:
    """The name of a clause, as the list has it."""
    name = f": {clause.name}" if clause.name else ""
    return f"{clause.crate}::{clause.function.name}{name}"
