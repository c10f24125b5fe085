"""The planted bugs (mutants) of a project, for tools/evidence: the lines that each changes, and
what it attacks: a function with its clauses, another item of the code, or a definition."""
import re
from collections.abc import Iterator
from functools import cache
from pathlib import Path
from typing import Any, NamedTuple

FUNCTION = re.compile(r"(?m)^ *(?:pub(?:\([\w: ]+\))? )?(?:const )?fn (\w+)")
ITEM = re.compile(
    r"(?m)^(?:pub(?:\([\w: ]+\))? )?(?:struct|enum|const|static|type|trait) (\w+)")
OWNER = re.compile(
    r"(?m)^(?:impl\b(?:<.*?>)? |(?:pub(?:\([\w: ]+\))? )?trait )(?:(.*) for )?(\(.*\)|\w+)")
TRAIT = re.compile(r"([A-Z]\w*)(?:<.*>)?$")
# what may come after a clause or a signature: another clause, or the body
GOES_ON = re.compile(r"\s*(?:(?:requires|ensures|ghost)\b|\{)")
HEAD_END = re.compile(r"(?:\n *)+(?:requires|ensures|\{)|\s\{\s|;\n")
# what the implementation of a trait of the toolchain says of its method: what a conversion gives,
# and what is printed
GIVEN = re.compile(r"ghost (from_gives|output) = \{ (.*?) \};", re.DOTALL)
REFUSED_AT = re.compile(r"\b(src/[\w/]+\.rt):(\d+):\d+")


class Edit(NamedTuple):
    """A line of a file of a crate before and after an edit."""

    file: str
    line: int
    before: str
    after: str


class Part(NamedTuple):
    """A function or another item of a file, with its first and last line; for a method the type,
    and the trait, if it is of one."""

    kind: str
    name: str
    first: int
    last: int
    start: int
    owner: str = ""
    trait: str = ""

    @property
    def full_name(self) -> str:
        """Its name, with that of its type."""
        return f"{self.owner}::{self.name}" if self.owner else self.name


def edits_of(crate: Path, mutant: Path) -> list[Edit]:
    """The lines that a mutant changes: each edit is made in what the earlier ones have left."""
    out, file, old = [], "", ""
    texts: dict[str, str] = {}
    for key, _, rest in (it.partition(": ") for it in
                         mutant.read_text(encoding="utf-8").splitlines()):
        if key == "file":
            file = rest
            texts.setdefault(file, (crate / file).read_text(encoding="utf-8"))
        elif key == "old":
            old = rest
        elif key == "new":
            line = texts[file].partition(old)[0].count("\n") + 1
            before = texts[file].splitlines()[line - 1]
            texts[file] = texts[file].replace(old, rest, 1)
            out.append(Edit(file, line, before, texts[file].splitlines()[line - 1]))
    return out


def end_of(bare: str, start: int) -> int:
    """Where an item ends that begins at a place: at its body's last bracket, or at a semicolon."""
    depth = 0
    for at in range(start, len(bare)):
        depth += (bare[at] in "([{") - (bare[at] in ")]}")
        if depth == 0 and (bare[at] == ";" or bare[at] == "}" and not GOES_ON.match(bare, at + 1)):
            return at + 1
    return len(bare)


class Planted:
    """The mutants of a project (tools/reference)."""

    def __init__(self, reference: Any, project: Any) -> None:
        self.reference, self.project = reference, project
        self.public = {(it.crate, it.file, it.line): it for it in project.functions}
        self.by_name = {(it.crate, it.name): it for it in project.functions}
        self.parts = cache(self.read_parts)

    def text_of(self, crate: str, file: str) -> str:
        """The text of a file of a crate."""
        return Path("crates", crate, file).read_text(encoding="utf-8")

    def read_parts(self, crate: str, file: str) -> list[Part]:
        """The functions and the other items of a file of code."""
        bare = self.reference.blank(self.text_of(crate, file), "//")
        owners = [(it.start(), end_of(bare, it.start()), it) for it in OWNER.finditer(bare)]
        out = []
        for kind, pattern in (("function", FUNCTION), ("item", ITEM)):
            for found in pattern.finditer(bare):
                end = end_of(bare, found.end())
                owner = next((it for first, last, it in owners
                              if kind == "function" and first < found.start() < last), None)
                trait = TRAIT.search(owner[1] or "") if owner else None
                out.append(Part(
                    kind, found[1], bare.count("\n", 0, found.start()) + 1,
                    bare.count("\n", 0, end) + 1, found.start(),
                    owner[2] if owner else "", trait[1] if trait else ""))
        return out

    def part_at(self, crate: str, file: str, line: int) -> Part | None:
        """The innermost function in which a line is, or else the item, also where the line is of
        its attributes or of the comment above it."""
        parts = self.parts(crate, file)
        around = [it for it in parts if it.first <= line <= it.last]
        if not around:
            lines = self.text_of(crate, file).splitlines()
            while line < len(lines) and re.match(r" *(?:#\[|//)", lines[line - 1]):
                line += 1
            around = [it for it in parts if it.first == line]
        functions = [it for it in around if it.kind == "function"]
        found = functions or around
        return found[-1] if found else None

    def definition_at(self, crate: str, file: str, line: int) -> Any:
        """The definition in which a line of specs/ is."""
        above = [it for it in self.project.definitions.values()
                 if (it.crate, it.file) == (crate, file) and it.line <= line]
        return max(above, key=lambda it: int(it.line), default=None)

    def clauses_of(self, crate: str, file: str, part: Part) -> list[Any]:
        """The clauses of a function, also of one that is not public; of a method without any,
        those that its trait has, where that is of the repository."""
        found = self.own_clauses(crate, file, part)
        if found or not part.trait:
            return found
        name = f"{part.trait}::{part.name}"
        public = [it.clauses for (_, known), it in self.by_name.items() if known == name]
        folder = Path("crates", crate)
        files = [str(it.relative_to(folder)) for it in sorted(folder.glob("src/**/*.rt"))]
        private = [self.own_clauses(crate, other, it) for other in files
                   for it in self.parts(crate, other) if it.full_name == name and not it.trait]
        return next((it for it in (*private, *public) if it), [])

    def own_clauses(self, crate: str, file: str, part: Part) -> list[Any]:
        """The clauses beside a function."""
        if public := self.public.get((crate, file, part.first)):
            return list(public.clauses)
        text = self.text_of(crate, file)
        bare = self.reference.blank(text, "//")
        head = HEAD_END.search(bare, part.start)
        one = self.reference.Item(crate=crate, anchor="", bound=[])
        scope = self.reference.Scope(text)
        found = list(self.project.read_clauses(
            one, text, bare, head.start() if head else len(bare), scope))
        if part.trait and (said := GIVEN.search(bare, bare.rfind("\nimpl", 0, part.start),
                                                part.start)):
            content = " ".join(text[said.start(2):said.end(2)].split())
            found.append(self.reference.Item(
                crate=crate, anchor="", kind="ensures", name=said[1], text=content, bare=content,
                line=text.count("\n", 0, said.start()) + 1, scope=scope, bound=[], sentence=""))
        for it in found:
            it.names = list(dict.fromkeys(used for _, _, used in self.project.named(it)))
        return found

    def attacked(self, crate: str, edits: list[Edit]) -> Iterator[dict[str, Any]]:
        """What the edits of a mutant attack, each once: functions; if there is none, items; of
        definitions all. An edit of an import attacks nothing."""
        found: dict[tuple[str, str, str], dict[str, Any]] = {}
        for it in edits:
            if it.file.startswith("specs/"):
                used = self.definition_at(crate, it.file, it.line)
                if used:
                    found["definition", it.file, used.name] = self.of_definition(used)
            elif part := self.part_at(crate, it.file, it.line):
                found[part.kind, it.file, f"{part.full_name}.{part.first}"] = self.of_part(
                    crate, it.file, part)
        is_in_function = any(kind == "function" for kind, _, _ in found)
        yield from (it for (kind, _, _), it in found.items()
                    if kind != "item" or not is_in_function)

    def of_definition(self, it: Any) -> dict[str, Any]:
        """A definition that is attacked."""
        return {"id": f"{it.crate}/{it.file}:{it.line}", "kind": "definition", "crate": it.crate,
                "name": it.name, "place": f"crates/{it.crate}/{it.file}:{it.line}",
                "about": it.sentence, "clauses": [], "of": it}

    def of_part(self, crate: str, file: str, part: Part) -> dict[str, Any]:
        """A function or another item that is attacked, with its clauses."""
        clauses = self.clauses_of(crate, file, part) if part.kind == "function" else []
        lines = self.text_of(crate, file).splitlines()
        return {"id": f"{crate}/{file}:{part.first}", "kind": part.kind, "crate": crate,
                "name": part.full_name, "place": f"crates/{crate}/{file}:{part.first}",
                "about": self.reference.comment_above(lines, part.first - 1, "///"),
                "trait": part.trait, "clauses": clauses}

    def refused_at(self, crate: str, outcome: str) -> str:
        """The clause, or the function, at which a mutant was refused, as its outcome has the
        place."""
        place = REFUSED_AT.search(outcome)
        if not place or not Path("crates", crate, place[1]).exists():
            return ""
        file, line = place[1], int(place[2])
        part = self.part_at(crate, file, line)
        if not part:
            return ""
        lines = self.text_of(crate, file).splitlines()
        before = [it for it in self.clauses_of(crate, file, part) if part.first < it.line <= line]
        # (the body begins below the clauses, with a bracket alone on its line)
        if before and not any(it.strip() == "{" for it in lines[before[-1].line - 1:line]):
            name = f"{before[-1].kind} {before[-1].name}".rstrip()
            return f"the clause `{name}` of `{part.full_name}`"
        return f"the body of `{part.full_name}`"
