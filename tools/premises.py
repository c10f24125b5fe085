"""What a clause assumes, read from its text: the premises before its conclusion, and those of the
definitions that its conclusion names.

A clause or a definition reads `(x : A) → P → Q → C`: for every x for which P and Q hold, C holds.
The conclusion may be several facts (`C × D`), one on a condition of the result (`IfOk result (λ v.
C)`), a record of facts, or a definition of this repository with arguments, whose own premises count
too. What is within a premise, an equation or an alternative is not read.
"""
import re
from collections.abc import Iterator
from functools import cache
from typing import Any, NamedTuple

# (a definition that is a statement and no value has this type)
STATES = re.compile(r"\bType 0\b")
OPENING, CLOSING = "([{⟦", ")]}⟧"
NAME = re.compile(r"[A-Za-z_◌][\w'◌-]*(?:\.[A-Za-z_][\w']*)*")
BINDER = re.compile(r"[({]([\w' ]+) : (.*)[)}]")


class Premise(NamedTuple):
    """What is assumed; the definition in whose text it is, with the field if that is a record; how
    many definitions are between the clause and it."""

    text: str
    of: Any = None
    field: str = ""
    depth: int = 0


class Place(NamedTuple):
    """Whose text is read: a clause's, or that of a definition below it."""

    item: Any
    of: Any = None
    field: str = ""
    depth: int = 0


class Function(NamedTuple):
    """An argument `(λ x. ..)`: its place in the text, and its body."""

    start: int
    body: str


def levels(text: str) -> Iterator[tuple[int, str, int]]:
    """Each letter with its place, and how many brackets are open after it."""
    depth = 0
    for at, letter in enumerate(text):
        depth += (letter in OPENING) - (letter in CLOSING)
        yield at, letter, depth


def split(text: str, sign: str) -> list[str]:
    """The parts of a text between a sign that is outside of brackets. A `λ x. ..` reaches to the
    end."""
    parts, start = [], 0
    for at, letter, depth in levels(text) if sign in text else ():
        if depth == 0 and letter == "λ":
            break
        if depth == 0 and letter == sign:
            parts.append(text[start:at])
            start = at + 1
    return [" ".join(it.split()) for it in (*parts, text[start:])]


def group_end(text: str) -> int:
    """The end of the brackets with which a text begins."""
    return next((at + 1 for at, _, depth in levels(text) if depth == 0), len(text))


def bare(text: str) -> str:
    """A text without the brackets around all of it."""
    while True:
        # (`∥ A ∥₁`: A holds, of values that are not named)
        if text.startswith("∥ ") and text.endswith(" ∥₁"):
            text = text[2:-3].strip()
        elif text.startswith("(") and group_end(text) == len(text):
            text = text[1:-1].strip()
        else:
            return text


def binders(text: str) -> list[str]:
    """The types of the variables of a part like `(old new : State) (code : Code)`; a fact has
    none."""
    found: list[str] = []
    while text:
        end = group_end(text)
        group = BINDER.fullmatch(text[:end])
        if not group:
            return []
        found.append(group[2])
        text = text[end:].strip()
    return found


def lambdas(text: str) -> list[Function]:
    """The functions `(λ x. ..)` that a text has as arguments."""
    out, start = [], 0
    for at, letter, depth in levels(text):
        if depth == 1 and letter in OPENING:
            start = at
        elif depth == 0 and letter in CLOSING and text.startswith("(λ", start):
            out.append(Function(start, text[start + 1:at].partition(". ")[2]))
    return out


def bodies(text: str) -> list[tuple[str, str]]:
    """What a definition states: the fields of a record by their names, or the right sides of its
    equations. Nothing, if it is a value."""
    head, _, rest = text.partition("\n")
    if re.match(r"(?:(?:pub|unfoldable) )*record ", head):
        parts = re.split(r"(?m)^ {2}(?:pub )?([a-z_]\w*) *:", rest)[1:]
        parts = parts if STATES.search(head) else []
        return [(name, " ".join(it.split())) for name, it in zip(parts[::2], parts[1::2])]
    found = re.search(r"(?:abbrev|unfoldable|pub) .*?([^\s:({]+) :", head)
    if not found or not STATES.search(split(head, "→")[-1]):
        return []
    sides = re.split(rf"(?m)^ *{re.escape(found[1])}(?: [^=\n]*)? =(?= |$)", rest)[1:]
    return [("", " ".join(it.split())) for it in sides]


class Premises:
    """The premises of the clauses of a project (tools/reference)."""

    def __init__(self, project: Any) -> None:
        self.project = project
        self.names: dict[Any, dict[str, Any]] = {}
        self.of_clause = cache(self.read_clause)

    def read_clause(self, clause: Any) -> list[Premise]:
        """What a clause assumes, from the outside to the inside."""
        return list(dict.fromkeys(self.within(clause.text, Place(clause), set())))

    def reached(self, clause: Any) -> set[Any]:
        """The definitions that the premises of a clause reach, and the `requires` of its
        function: what one of them says is assumed as well."""
        level = {one for it in self.of_clause(clause) for one in self.of_premise(clause, it)}
        level |= {one for it in clause.function.clauses if it.kind == "requires"
                  for one in it.names}
        found: set[Any] = set()
        while level:
            found |= level
            level = {one for it in level for one in it.names} - found
        return found

    def of_premise(self, clause: Any, it: Premise) -> list[Any]:
        """The definitions that a premise names."""
        used = [one for name, one in self.named(it.of or clause).items()
                if re.search(rf"(?<![\w.]){re.escape(name)}(?![\w'])", it.text)]
        return list(dict.fromkeys(used))

    def within(self, text: str, place: Place, seen: set[Any]) -> Iterator[Premise]:
        """The premises of a text."""
        *before, last = split(bare(text), "→")
        for part in before:
            types = binders(part)
            # (a variable whose type is a statement is a premise with a name)
            facts = [it for it in types if " " in it and self.definition(it, place)]
            yield from (Premise(it, *place[1:]) for it in (facts if types else [part])
                        if " " in it or self.definition(it, place))
        for part in split(last, "×"):
            if not binders(part):
                yield from self.of_fact(bare(part), place, seen)

    def of_fact(self, text: str, place: Place, seen: set[Any]) -> Iterator[Premise]:
        """The premises of one fact of a conclusion."""
        # (`→` and `×` bind less than `≡` does: a premise or a part may be an equation)
        if len(split(text, "→")) > 1 or len(split(text, "×")) > 1:
            yield from self.within(text, place, seen)
            return
        if len(split(text, "⊎")) > 1:
            for part in split(text, "⊎"):
                yield from self.within(part, place, seen)
            return
        if any(len(split(text, sign)) > 1 for sign in "≡≢↔≤<"):
            return
        used = self.definition(text, place)
        if used and used not in seen:
            seen.add(used)
            for field, body in bodies(used.text):
                yield from self.within(body, Place(used, used, field, place.depth + 1), seen)
        functions = lambdas(text)
        if functions and not used and "result" in (said := text[:functions[0].start].strip()):
            yield Premise(said, *place[1:])
        for it in functions:
            yield from self.within(it.body, place, seen)

    def definition(self, text: str, place: Place) -> Any:
        """The definition of this repository with whose name a text begins."""
        name = NAME.match(text)
        return self.named(place.item).get(name[0]) if name else None

    def named(self, item: Any) -> dict[str, Any]:
        """The definitions of this repository that the text of an item names."""
        if item not in self.names:
            found = self.project.named(item)
            self.names[item] = {item.text[start:end]: used for start, end, used in found}
        return self.names[item]
