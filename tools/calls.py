"""Which functions call which, for tools/evidence, read from the names in their bodies: a method
call may be of each method of its name in the crate and in those below it, so that more may be found
than is called. What is handed over as a closure counts as called where it is written; a call by an
operator, or of a function that is handed over by its bare name, is not found."""
import re
from collections import defaultdict
from collections.abc import Iterator
from functools import cache
from pathlib import Path
from typing import Any, NamedTuple

from planted import Part, Planted

CALL = re.compile(r"(?:(?P<owner>\w+)(?:::<[^<>()]*>)?::|(?P<dot>\.)|(?<![\w.:]))"
                  r"(?P<name>[a-z_]\w*)\b(?P<called>(?:::<[^()]*?>)?\()?")
CLAUSE = re.compile(r"\b(?:requires|ensures|ghost)\b(?: \w+)? *(?:= *)?\{")
PROGRAM = "admissions"


class Node(NamedTuple):
    """A function of the code."""

    crate: str
    file: str
    part: Part

    @property
    def id(self) -> str:
        """By which it is known, as what mutants attack is."""
        return f"{self.crate}/{self.file}:{self.part.first}"


def body_of(text: str) -> str:
    """The text of a function without its clauses and its own name."""
    out, at = [], 0
    while found := CLAUSE.search(text, at):
        out.append(text[at:found.start()])
        depth, at = 1, found.end()
        while depth and at < len(text):
            depth += (text[at] == "{") - (text[at] == "}")
            at += 1
    return re.sub(r"\bfn \w+", "fn", "".join([*out, text[at:]]))


class Calls:
    """The calls between the functions of a project (tools/reference)."""

    def __init__(self, planted: Planted, project: Any) -> None:
        self.planted, self.project = planted, project
        self.nodes: dict[str, Node] = {}
        self.bodies: dict[str, str] = {}
        self.named: defaultdict[str, list[Node]] = defaultdict(list)
        self.deep = cache(self.read_deep)
        for crate in project.below:
            folder = Path("crates", crate)
            for path in sorted(folder.glob("src/**/*.rt")):
                self.read(crate, str(path.relative_to(folder)))
        self.called = cache(self.read_called)
        roots = [it.id for it in self.named["main"] if it.crate == PROGRAM]
        self.of_program = {*self.distances(roots)}
        self.saying: defaultdict[Any, list[str]] = defaultdict(list)
        for it in project.functions:
            key = f"{it.crate}/{it.file}:{it.line}"
            names = [one for clause in it.clauses if clause.kind == "ensures"
                     for one in clause.names if one.crate == it.crate]
            for one in dict.fromkeys(names) if key in self.of_program else ():
                self.saying[one].append(key)

    def read_deep(self, crate: str) -> frozenset[str]:
        """A crate, and all of the repository below it."""
        below = [it for it in self.project.below[crate] if it in self.project.below]
        return frozenset({crate}.union(*map(self.deep, below)))

    def read(self, crate: str, file: str) -> None:
        """Takes the functions of a file."""
        lines = self.planted.reference.blank(self.planted.text_of(crate, file), "//").split("\n")
        for part in self.planted.parts(crate, file):
            if part.kind == "function":
                node = Node(crate, file, part)
                self.nodes[node.id] = node
                self.named[part.name].append(node)
                self.bodies[node.id] = body_of("\n".join(lines[part.first - 1:part.last]))

    def read_called(self, key: str) -> list[str]:
        """The functions that a function calls."""
        here = self.nodes[key]
        found = [it.id for call in CALL.finditer(self.bodies[key]) for it in self.of(here, call)]
        return [it for it in dict.fromkeys(found) if it != key]

    def of(self, here: Node, call: re.Match[str]) -> Iterator[Node]:
        """The functions that a call in a function may be of."""
        owner = here.part.owner if call["owner"] == "Self" else call["owner"]
        if not (call["called"] or owner):
            return
        known = [it for it in self.named.get(call["name"], ()) if it.crate in self.deep(here.crate)]
        types = {it.part.owner for it in known} | {it.part.trait for it in known}
        for it in known:
            is_method = bool(it.part.owner)
            if call["dot"]:
                fits = is_method
            elif owner and owner in types:
                fits = owner in (it.part.owner, it.part.trait)
            else:
                # (a type parameter, or a function of a module)
                fits = is_method == bool(owner and owner[0].isupper())
            if fits:
                yield it

    def distances(self, keys: list[str]) -> dict[str, int]:
        """The functions that these reach, each with how many calls are between."""
        out, level, depth = {it: 0 for it in keys}, [*keys], 0
        while level:
            depth += 1
            level = [it for it in dict.fromkeys(one for key in level for one in self.called(key))
                     if it not in out]
            out.update({it: depth for it in level})
        return out

    def beside(self, key: str) -> str:
        """In words, what a function is that the program does not call; nothing of one that it
        calls."""
        if key in self.of_program:
            return ""
        is_below = key.partition("/")[0] in self.deep(PROGRAM)
        calls = "" if self.called(key) else ", and calls nothing"
        if is_below:
            return f"in a crate of the program, which does not call it{calls}"
        return f"a law beside the program{calls}"

    def spoken_of(self, clause: Any) -> dict[str, int]:
        """The functions of the program that a clause speaks of: one of their own clauses names a
        definition, of their own crate, that this clause reaches; each with how many definitions
        are between."""
        out: dict[str, int] = {}
        for far, level in enumerate(self.project.levels([clause])):
            for key in (key for it in level for key in self.saying.get(it, ())):
                out.setdefault(key, far + 1)
        return out
