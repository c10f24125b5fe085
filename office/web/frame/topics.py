"""The topics of the help, which are the sections of the handbook, and which of them is about which
screen.
"""
import dataclasses
import functools
import pathlib
import re
from collections.abc import Iterator, Mapping, Sequence

from office.core import texts

# (it is installed beside the application as it is in the repository)
HANDBOOK = pathlib.Path(__file__).resolve().parents[3] / "docs" / "office" / "HANDBOOK.md"
PICTURES = HANDBOOK.parents[1] / "pictures"
# the topic of a screen: by its view and the name in its address, by its view, or by its part of the
# application
OF_SCREENS = {
    "season": "home", "signing": "sign-in",
    "applications": "collect-applications", "applications_files": "collect-applications",
    "applications.mend": "correct-rows", "applications.save": "correct-rows",
    "applications.duplicates": "possible-duplicates", "applications.decide": "possible-duplicates",
    "applications.withdrawn": "set-aside", "applications.bring_back": "set-aside",
    "applications_add": "add-a-child", "applications_commit": "add-to-the-register",
    "points": "homes-to-locate", "gazetteer": "gazetteers",
    "find": "find-a-child", "child": "a-childs-screen",
    "child.ask/plan": "ehc-plans", "child.record/plan": "ehc-plans",
    "child.correct": "correct-the-details", "child.do_correct": "correct-the-details",
    "preferences": "the-family-wants-other-schools", "why": "explain-a-place",
    "notes": "notes-and-files", "subject": "all-that-is-held-of-a-child",
    "schools": "a-schools-screen", "schools.waiting": "waiting-lists",
    "schools.raise_number": "raise-the-admission-number",
    "schools.do_raise": "raise-the-admission-number",
    "schools.offer": "offer-places-from-the-waiting-list",
    "new_schools": "add-schools", "flags": "verified-reasons",
    "areas": "catchment-areas",
    "draws": "run-a-round", "draws.cancel": "cancel-or-undo-a-draw", "lots": "lots",
    "answers": "answers", "answers_of": "answers", "notices": "reminders-and-withdrawals",
    "letters": "letters",
    "lists": "lists", "lists.one/unplaced": "children-without-a-place",
    "lists.one/list": "waiting-lists",
    "figures": "figures", "trials": "trials", "activity": "activity",
    "people": "people", "copies": "copies", "copies.begin": "restore-a-copy",
    "copies.begin_page": "restore-a-copy", "restores": "restore-a-copy",
    "letter_sender": "the-office-on-its-letters", "letter_templates": "templates-of-letters",
    "letter_addresses": "addresses-for-letters", "season_end": "end-of-the-season",
}
# what is no word of a text of Markdown; a row of a table; the end of a sentence
MARKS = re.compile(r"!\[.*?\]\(.*?\)|\]\([^)]*\)|^\|[-|]+\|$|[*`\[]", re.MULTILINE)
ROW, CELL = re.compile(r"^\| (.*)\|$", re.MULTILINE), re.compile(r"\s*\|\s*")
SENTENCE = re.compile(r"(?<=[.?!])\s+|\n\s*\n|\n(?=\s*(?:- |[0-9]+\. ))")


@dataclasses.dataclass(frozen=True)
class Topic:
    """A topic: the end of its address, its title, the group that has it, and its text as Markdown.
    """

    name: str
    title: str
    group: str
    text: str

    @property
    def sentences(self) -> list[str]:
        """Its sentences, without marks."""
        text = ROW.sub(lambda it: f"\n{': '.join(filter(None, CELL.split(it[1])))}\n",
                       MARKS.sub("", self.text))
        found = (" ".join(it.split()).removeprefix("- ") for it in SENTENCE.split(text))
        return [it for it in found if it]


def name_of(title: str) -> str:
    """The end of the address of a heading, as pages of Markdown have it."""
    return re.sub(r"[^\w -]", "", title.lower()).replace(" ", "-")


def sections(text: str, mark: str) -> Iterator[tuple[str, str]]:
    """The headings of a level, each with the text below it."""
    parts = re.split(rf"(?m)^{mark} (.*)\n", text)
    return zip(parts[1::2], parts[2::2])


@functools.cache
def topics() -> Mapping[str, Topic]:
    """All topics by their names, in the order of the handbook."""
    made = (Topic(name_of(title), title, group, text)
            for group, part in sections(HANDBOOK.read_text("utf-8"), "##")
            if group != "Contents" for title, text in sections(part, "###"))
    return {it.name: it for it in made}


def groups() -> dict[str, list[Topic]]:
    """The topics by their groups."""
    found: dict[str, list[Topic]] = {}
    for it in topics().values():
        found.setdefault(it.group, []).append(it)
    return found


def of_screen(view: str, name: str) -> str:
    """The name of the topic of a screen, or ""."""
    part = view.partition(".")[0]
    return next((OF_SCREENS[it] for it in (f"{view}/{name}", view, part) if it in OF_SCREENS), "")


def having(text: str) -> list[tuple[Topic, str]]:
    """The topics that have each word of a text, or a word that begins with it: those with more of
    them in the title first; and of each the sentence that has most of them.
    """
    words = texts.plain(text).split()
    found = [(it, count(words, it.title), best(words, it.sentences)) for it in topics().values()
             if words and count(words, f"{it.title} {' '.join(it.sentences)}") == len(words)]
    return [(it, said) for it, _, said in sorted(found, key=lambda it: -it[1])]


def count(words: Sequence[str], text: str) -> int:
    """How many of the words a text has."""
    folded = texts.plain(text)
    return sum(re.search(rf"(?<!\w){re.escape(it)}", folded) is not None for it in words)


def best(words: Sequence[str], sentences: Sequence[str]) -> str:
    """The first of the sentences that have most of the words."""
    return max(sentences, key=lambda it: count(words, it), default="")
