"""What is promised, for tools/evidence: the promises of docs/trust/GUARANTEES.md in plain words,
the rules of the Code there and the rows of tools/promises.md, each sentence with its clauses; and
each clause with what it assumes."""
import re
from collections.abc import Callable
from pathlib import Path
from typing import Any

from claims import LIMIT, TABLE, Carrier, Claims, Sentence, Unclear, named, sentences
from page_text import Refused, parts, plain, points, section, table
from premises import Premise, Premises

README = Path("README.md")
# the definitions that say what a clause assumes where one of its premises reaches them
ASSUMED = ("SuccessiveRuns.HavePagesOf",)
# where the source gives a paragraph of the Code, or a section
PARAGRAPHS = re.compile(r"\(paragraphs? ([\d.]+(?:(?:, | and )[\d.]+)*)\)")
SECTIONS = re.compile(r"School Admissions Code 2021, (sections? \d(?: and \d)*)")
# what a row of a table of tests names, and the command that runs it
PYTEST = "/usr/bin/python3 -m pytest -q -p no:cacheprovider"
COMMANDS: list[tuple[str, Callable[[str], str]]] = [
    (r"cases", lambda it: "make cases"),
    (r"cases/\w+", lambda it: f"tools/cases bin/admissions {it.partition('/')[2]}"),
    (r"office/tests", lambda it: "make office"),
    (r"(office|deploy)/tests/test_\w+\.py", lambda it: f"{PYTEST} {it}"),
    (r"deploy/tests", lambda it: "tools/python-tests deploy"),
    (r"deploy/site/tests", lambda it: "tools/site-tests"),
    (r"make [\w-]+", lambda it: it),
    (r"bench/\w+/run", lambda it: f"{it} bin/admissions"),
    (r"deploy/[\w-]+", lambda it: it),
    (r"\w+_runs", lambda it: f"cd crates/{it} && rt run"),
]


def identity(clause: Any) -> str:
    """By which a clause is known, and linked to."""
    return f"{clause.crate}.{clause.anchor}"


class Promised:
    """The promises of a project (tools/reference), with the goals of its Makefile."""

    def __init__(self, reference: Any, project: Any, goals: set[str]) -> None:
        self.reference, self.project, self.goals = reference, project, goals
        self.list, self.premises = Claims(project), Premises(project)
        self.named: dict[str, Any] = {}
        try:
            self.rows = [(row, self.of_row(row)) for row in project.rows]
            self.of_promises = list(self.of_claims())
        except Unclear as error:
            raise Refused(str(error)) from error
        if self.list.entries:
            raise Refused(f"{TABLE}: there is no promise {', '.join(self.list.entries)}")
        self.assumed = [it for it in project.reached if it.anchor in ASSUMED]
        for it in project.reached:
            if re.search(r"\bassum", it.sentence) and not {it, *it.names} & {*self.assumed}:
                raise Refused(f"{it.anchor} says that something is assumed, and names none of"
                              f" {', '.join(ASSUMED)}")

    @staticmethod
    def points() -> list[str]:
        """The points of README's list of what it leaves out, with their links."""
        return points(section(README, "What it does not do"))

    def said(self, row: Any) -> str:
        """What a row promises: of a rule of the Code, what holds here."""
        cells = row.rule[1:3] if self.is_of_code(row) else [row.cells[0]]
        return " ".join(plain(it) for it in cells if it)

    @staticmethod
    def is_of_code(row: Any) -> bool:
        """Whether a row is a rule of the Code, with what holds of it here."""
        return hasattr(row, "rule")

    def of_row(self, row: Any) -> Sentence:
        """What a row says, with its clauses."""
        carrying = list(dict.fromkeys(it for it in row.carrying if it.kind == "ensures"))
        if not carrying:
            raise Refused(f"{row.where}: this promise has no clause: {row.cells[0]}")
        return Sentence(self.said(row), [Carrier(it, []) for it in carrying])

    def of_claims(self) -> Any:
        """The promises in plain words, each with its sentences."""
        page = self.reference.GUARANTEES
        carrying = {it for _, found in self.rows for it in found.clauses}
        for name, said in parts(page, "What is promised"):
            # (a name that is a promise itself)
            first = next(iter(self.list.entries.get(name, ())), "")
            result = self.list.of(name, [f"{name}."] * (first == name) + sentences(plain(said)))
            for clause in (it for one in result for it in one.clauses):
                if clause not in carrying:
                    raise Refused(f"{page}: {name}: no row has {named(clause)}")
            yield name, result

    def sentence(self, it: Sentence) -> dict[str, Any]:
        """A sentence with the names of its clauses; none: it says what is not covered."""
        self.named.update({identity(clause): clause for clause in it.clauses})
        return {"text": it.text, "is": "promised" if it.carriers else LIMIT,
                "clauses": [{"id": identity(clause), "name": named(clause), "crate": clause.crate,
                             "by": [self.reference.href(used) for used in by]}
                            for clause, by in it.carriers]}

    def claims(self) -> list[dict[str, Any]]:
        """The promises in plain words, each with its heading."""
        return [{"claim": name, "heading": self.reference.anchor_of(name),
                 "sentences": [self.sentence(it) for it in found]}
                for name, found in self.of_promises]

    def promises(self) -> list[dict[str, Any]]:
        """The rows of the guarantees."""
        out = []
        for row, found in self.rows:
            beside = zip(row.titles[1:], row.cells[1:])
            more = {title: plain(cell) for title, cell in beside if cell}
            out.append({
                "number": row.number, "promise": plain(row.cells[0]), "where": row.where,
                "heading": row.heading.strip("# "), "page": f"reference/{row.file}", "said": more,
                "sentences": [self.sentence(found)],
            })
        return out

    def code(self) -> list[dict[str, Any]]:
        """The rules of the Code, each with what is proved of it, what is only tested, and what is
        neither."""
        out = []
        for row, found in (it for it in self.rows if self.is_of_code(it[0])):
            tested, neither = row.cells[-1], row.rule[-1]
            names = re.findall(r"`([^`]+)`", tested)
            if not names or not neither:
                raise Refused(f"{row.where}: no test is named for this rule, or nothing remains")
            given = PARAGRAPHS.findall(" ".join((*row.rule, tested)))
            out.append({
                "rule": plain(PARAGRAPHS.sub("", row.cells[0])).strip(), "promise": row.number,
                "paragraphs": given[0] if given else "", "sections": self.sections(row),
                "proved": [self.sentence(found)],
                "only_tested": plain(tested), "neither": plain(neither),
                "commands": [self.command(name) for name in names],
            })
        return out

    @staticmethod
    def sections(row: Any) -> list[dict[str, str]]:
        """Which sections of the Code the files name whose definitions a rule names."""
        used = [it for part in row.parts for _, it in part
                if getattr(it, "sources", None) is not None]
        files = dict.fromkeys(f"crates/{it.crate}/{it.file}" for it in used)
        heads = {file: " ".join(re.findall(r"(?m)\A(?:--.*\n)+", Path(file).read_text("utf-8")))
                 for file in files}
        return [{"file": file, "sections": found[1]} for file, head in heads.items()
                if (found := SECTIONS.search(head))]

    def only_tested(self) -> list[dict[str, Any]]:
        """What no clause says, with the tests that are named for it and their commands."""
        out = []
        page = self.reference.ROWS
        for said, tests in table(section(page, "Only tested"), "Left open"):
            names = [it for it in re.findall(r"`([^`]+)`", tests) if not self.is_function(it)]
            if not names:
                raise Refused(f"{page}: this row names no test: {said}")
            out.append({"left_open": plain(said), "tested_by": plain(tests),
                        "commands": [self.command(name) for name in names]})
        return out

    def is_function(self, name: str) -> bool:
        """Whether a name is that of a function, and so of no test."""
        return any(it.name == name for it in self.project.functions)

    def command(self, name: str) -> str:
        """The command of a test that a row names, which must be there."""
        path = Path("crates", name) if re.fullmatch(r"\w+_runs", name) else Path(name)
        is_there = name[5:] in self.goals if name.startswith("make ") else path.exists()
        for pattern, command in COMMANDS:
            if is_there and re.fullmatch(pattern, name):
                return command(name)
        raise Refused(f"a row names the test `{name}`, which is not there")

    def definition(self, it: Any) -> dict[str, str]:
        """A definition in plain words, with its place and its text."""
        return {"name": it.name, "place": f"crates/{it.crate}/{it.file}:{it.line}",
                "sentence": it.sentence, "page": f"reference/{self.reference.href(it)}",
                "text": it.text.rstrip()}

    def premise(self, clause: Any, it: Premise) -> dict[str, Any]:
        """A premise, with the definitions that it names."""
        used = self.premises.of_premise(clause, it)
        return {"text": it.text, "of": it.of.name if it.of else "", "field": it.field,
                "definitions": [self.reference.href(one) for one in used]}

    def types(self, clause: Any) -> list[dict[str, str]]:
        """The types of the code that a clause names, or the definitions that it names."""
        used = dict.fromkeys(one for it in (clause, *clause.names)
                             for _, _, one in self.project.typed(it))
        return [{"name": it.name, "page": f"reference/{self.reference.href(it)}",
                 "sentence": it.sentence} for it in used]

    def clause(self, it: Any, verdict: str) -> dict[str, Any]:
        """A clause with its place, what it assumes, and the definitions that it names."""
        function, found = it.function, self.premises.of_clause(it)
        return {
            "id": identity(it), "name": named(it), "crate": it.crate, "function": function.name,
            "clause": it.name, "kind": it.kind, "about": function.sentence,
            "file": f"crates/{it.crate}/{function.file}", "line": it.line, "text": it.text,
            "signature": function.signature,
            "requires": [{"name": one.name, "text": one.text, "line": one.line,
                          "definitions": [self.reference.href(used) for used in one.names]}
                         for one in function.clauses if one.kind == "requires"],
            "assumes": [self.premise(it, one) for one in found if one.depth < 2],
            "within": [self.premise(it, one) for one in found if one.depth > 1],
            "assumes_by": [self.reference.href(one) for one in self.assumed
                           if one in self.premises.reached(it)],
            "definitions": [self.reference.href(used) for used in it.names],
            "types": self.types(it),
            "verdict_of_the_crate": verdict,
        }
