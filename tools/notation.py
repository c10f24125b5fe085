"""The notation of clauses in words, for tools/evidence: the example that is read aloud and the
table of docs/dev/ARCHITECTURE.md, and what else the clauses that are shown have
(tools/notation_words.json)."""
import json
import re
from collections.abc import Iterable
from pathlib import Path
from typing import Any

from page_text import Refused, plain, section, table

PAGE, HEADING = Path("docs/dev/ARCHITECTURE.md"), "The language in thirty lines"
WORDS, KIT_WORDS = Path("tools/notation_words.json"), Path("tools/kit_words.json")
SIGN = re.compile(r"[^\x00-\x7f\w\s]|[λℕℤ]|\b(?:if|then|else|do|let|elim|record|data|abbrev"
                  r"|unfoldable)\b|[-+*/%^<>=|&!\[\]]+")
CODE = re.compile(r"`([^`]+)`")


def signs_in(text: str) -> set[str]:
    """The signs of a text of the language, without its comments and texts between quotes."""
    bare = re.sub(r"""--.*|'.'|"(?:[^"\\]|\\.)*\"""", " ", text)
    return set(SIGN.findall(bare))


class Notation:
    """The words for signs, and for the names of the toolchain's crates."""

    def __init__(self) -> None:
        text = section(PAGE, HEADING)
        self.own: dict[str, Any] = json.loads(WORDS.read_text(encoding="utf-8"))
        self.rows = [([*CODE.findall(left)], re.sub(r"\*(\w+)\*", r"\1", plain(right)))
                     for left, right in (row[:2] for row in table(text, "You read"))]
        self.rows += [(forms, said) for forms, said in self.own["signs"]]
        self.paragraphs = [it.strip() for it in text.partition("| You read |")[0].split("\n\n")
                           if it.strip()]

    def parts(self) -> list[dict[str, Any]]:
        """The paragraphs of the example, and its blocks of code with their paths."""
        out = []
        for it in self.paragraphs:
            block = re.fullmatch(r"(?s)```\w+ (\S+)\n(.*)```", it)
            said = "" if block else plain(" ".join(it.split())).replace("*", "")
            out.append({"path": block[1] if block else "", "code": block[2] if block else "",
                        "prose": said})
        return out

    def see_signs(self, texts: Iterable[str]) -> None:
        """Refuses a sign that has no words."""
        known = set().union(*(signs_in(form) for forms, _ in self.rows for form in forms))
        missing = set().union(*map(signs_in, texts)) - known
        if missing:
            raise Refused("\n".join(f"{WORDS} has no words for the sign {it}, which a clause has"
                                    for it in sorted(missing)))

    def names(self, project: Any, items: Iterable[Any]) -> list[dict[str, str]]:
        """The definitions of the toolchain's crates that items name, in words."""
        kit = json.loads(KIT_WORDS.read_text(encoding="utf-8"))
        found = {(key[0], key[2]) for it in items for *_, key in project.keys(it)
                 if key[0] not in project.below and "◌" not in key[2]}
        return [{"crate": crate, "name": name,
                 "words": kit.get(crate, {}).get(name)
                 or self.own["names"].get(crate, {}).get(name, "")}
                for crate, name in sorted(found)]

    def see_names(self, names: list[dict[str, str]]) -> None:
        """Refuses a name of the toolchain's crates that has no words."""
        missing = [f"{WORDS} has no words for {it['name']} of {it['crate']}, which a clause or a"
                   " definition names" for it in names if not it["words"]]
        if missing:
            raise Refused("\n".join(missing))

    def document(self, project: Any, items: list[Any]) -> dict[str, Any]:
        """All of it, for the clauses and definitions that are shown; the names also for those of
        the reference."""
        self.see_signs(it.text for it in items)
        names = self.names(project, [*project.reached, *project.clauses, *items])
        self.see_names(names)
        return {"example": self.parts(),
                "signs": [{"forms": forms, "words": said} for forms, said in self.rows],
                "names": names}
