"""What a typed entry and the rows of a pasted text or an Excel file of answers mean: columns are
read by titles, or by what is in them. What is not understood is marked, and no answer is taken for
it.
"""
import dataclasses
import re
from collections.abc import Iterable, Sequence

from register_files import Refused

from office.core import fields, texts
from office.core.command_kinds import KINDS
from office.files import file_kinds
from office.files.sheet import Row

from .entries import MOST_TYPED, Meant, Names, with_school, words_of
from .piles import MOST

# the words of each answer: every other one is marked
READ = {name: it.read for name, it in KINDS.items() if it.read}
ANSWERS = {word: kind for kind, words in READ.items() for word in words}
NUMBER, NAME, SCHOOL, ANSWER = "number", "name", "school", "answer"
# the titles of columns
TITLES = {
    NUMBER: ("child", "number", "child number", "child's number"),
    NAME: ("name", "child name", "child's name", "full name", "first name", "last name",
           "forename", "surname", "family name"),
    SCHOOL: ("school", "school code"),
    ANSWER: file_kinds.REPLY_COLUMNS,
}
COLUMNS = {texts.folded(title): part for part, titles in TITLES.items() for title in titles}
MINUS = "-\u2212\u2013"
BETWEEN = re.compile(r"[\t\r\n,;:]+")
# signs and numbers that are no part of a name, unless the child's own has them; a minus at a word's
# end is one
SIGNS = re.compile(r"[^\w\s'’`.,-]|(?<![-.,])[-.,]+(?!\S)(?<!\w[.,])|(?<!\S)\d+(?!\S)")
# words beside an answer that turn it round, or leave it open
NEGATION = re.compile(r"not?|nor|never|unable|cannot|\w+n['’`]t|(?:do|does|did|wo|ca|is|are)nt")
PUNCTUATION = ".,;:!?()\""
# where so many rows or more mean no child at all, the whole is another file
MANY_ROWS = 10


@dataclasses.dataclass
class Parts:
    """What is in a row: numbers, answers with their words, schools, what is left for the name, what
    is wrong, and the titles of the columns that are not read.
    """

    numbers: list[int] = dataclasses.field(default_factory=list)
    answers: dict[str, str] = dataclasses.field(default_factory=dict)
    schools: list[str] = dataclasses.field(default_factory=list)
    name: list[str] = dataclasses.field(default_factory=list)
    wrong: list[str] = dataclasses.field(default_factory=list)
    others: list[str] = dataclasses.field(default_factory=list)

    def shares(self, other: "Parts") -> bool:
        """Whether both have a number, an answer or a school."""
        return bool(self.numbers and other.numbers or self.answers and other.answers
                    or self.schools and other.schools)

    def add(self, other: "Parts") -> None:
        """Adds what another one has of these."""
        self.numbers += [it for it in other.numbers if it not in self.numbers]
        self.answers |= other.answers
        self.schools += [it for it in other.schools if it not in self.schools]

    def contradictions(self) -> list[str]:
        """What is in the row more than once, and differs."""
        found = []
        for what, items in (("numbers", list(map(str, self.numbers))), ("schools", self.schools),
                            ("answers", list(self.answers.values()))):
            if len(items) > 1:
                found.append(f"this row has the {what} {texts.listed(items)}")
        return found


class Reader:
    """Reads rows by the names and the schools of a register."""

    def __init__(self, names: Names) -> None:
        self.names, self.register = names, names.register
        self.schools = {texts.folded(it.name): code for code, it in self.register.schools.items()}

    def typed(self, entry: str) -> Meant:
        """What a typed entry means: an accept, where it has nothing but a number or a name."""
        text = entry.strip()[:MOST_TYPED]
        return self.meant(text, self.by_content([text]), "accept")

    def rows(self, rows: Sequence[Row]) -> list[Meant]:
        """What rows mean. Those without an answer are accepts only where no row has an answer."""
        if not rows:
            raise Refused("the text or the file is empty")
        if other := file_kinds.of_columns(rows[0].cells):
            raise Refused(f"this is {other}")
        titles = titles_of(rows[0].cells)
        below = rows[1:] if titles else rows
        if not below:
            raise Refused("there is no child below the titles")
        if len(below) > MOST:
            # (before each is looked for among the children, which takes minutes)
            raise Refused(f"it has {len(below):,} rows, and a batch at most {MOST:,} answers")
        read = [(it, self.by_titles(titles, it.cells) if titles else self.by_content(it.cells))
                for it in below]
        has_answers = ANSWER in [it for it, _ in titles] or any(it.answers for _, it in read)
        made = [self.meant(", ".join(filter(None, map(str.strip, row.cells)))[:MOST_TYPED], parts,
                           "" if has_answers else "accept") for row, parts in read]
        if len(made) >= MANY_ROWS and all(it.child is None for it in made):
            raise Refused("this seems to be another file: no row has the number or the name of a"
                          " child")
        return made

    def of(self, text: str, is_word: bool = False) -> Parts:
        """A number, an answer or a school, where a text is one. A word is a school by its code."""
        number = fields.child(text.rstrip(MINUS + " "), None).text
        if number:
            is_decline = text[-1] in MINUS
            return Parts([int(number)], {"decline": "-"} if is_decline else {})
        if kind := answer_of(text):
            return Parts(answers={kind: text})
        code = text if is_word else text.upper()
        if code not in self.register.schools:
            code = "" if is_word else self.schools.get(texts.folded(text), "")
        return Parts(schools=[code] if code else [])

    def by_content(self, cells: Iterable[str]) -> Parts:
        """What is in a row without titles."""
        parts, pieces = Parts(), list[str]()
        for cell in filter(None, map(fields.trimmed, cells)):
            is_whole = self.of(cell) != Parts()
            pieces += [cell] if is_whole else filter(
                None, map(fields.trimmed, BETWEEN.split(cell)))
        if len(pieces) == 1 and pieces[0][-1] in MINUS:
            parts.answers["decline"] = "-"
            pieces = list(filter(None, [pieces[0].rstrip(MINUS + " ")]))
        known = [self.of(it) for it in pieces]
        for it in known:
            parts.add(it)
        for piece, it in zip(pieces, known):
            if it == Parts():
                self.by_words(parts, piece.split())
        return parts

    def by_words(self, parts: Parts, words: list[str]) -> None:
        """Takes a number, an answer and a school from both ends of a piece, unless the row has one
        already; what is left is of the name.
        """
        for at in (0, -1):
            while words:
                found = self.of(words[at], True)
                if found == Parts() or parts.shares(found):
                    break
                parts.add(found)
                words.pop(at)
        parts.name += words

    def by_titles(self, titles: Sequence[tuple[str, str]], cells: Sequence[str]) -> Parts:
        """What is in a row below titles."""
        parts = Parts()
        for at, cell in enumerate(map(fields.trimmed, cells)):
            part, title = titles[at] if at < len(titles) else ("", "")
            if cell:
                self.add_cell(parts, part, title, cell)
        return parts

    def add_cell(self, parts: Parts, part: str, title: str, cell: str) -> None:
        """Adds a cell of a column to its row."""
        found = self.of(cell)
        if part == NAME:
            parts.name.append(cell)
        elif part == SCHOOL:
            # (a code that is none is named by what speaks against it)
            parts.add(found if found.schools else Parts(schools=[cell.upper()]))
        elif part == NUMBER and found.numbers or part == ANSWER and answer_of(cell):
            parts.add(found)
        elif part:
            what = "the number of a child" if part == NUMBER else "an answer that is read here"
            parts.wrong.append(f"{texts.shown(cell)} is not {what}")
        else:
            parts.others.append(title)
            words = [it.strip(PUNCTUATION) for it in cell.lower().split()]
            is_negated = any(map(NEGATION.fullmatch, words)) and any(map(answer_of, words[1:]))
            if is_negated or set(words) & set(READ["decline"]) - {"no"}:
                parts.wrong.append(f"another column has {texts.shown(cell)}")

    def meant(self, typed: str, parts: Parts, kind: str) -> Meant:
        """What a row means. `kind` is the answer of one that has none, or "" where it is marked."""
        name, wrong = " ".join(parts.name), list(parts.wrong)
        child = parts.numbers[0] if parts.numbers else None
        if child is None and len(found := self.names.matches(name)) == 1:
            child = found[0]
        beside = self.not_of_name(name, child)
        is_negated = any(map(NEGATION.fullmatch, beside))
        if parts.answers and not is_negated:
            parts.answers |= {answer_of(it): it for it in beside if answer_of(it)}
        wrong += parts.contradictions()
        if child is None and not name:
            wrong.append("there is no number and no name in this row")
        wrong += self.of_name(parts, name, child)
        if is_negated:
            parts.answers, kind = {}, ""
        if not parts.answers:
            wrong += self.beside_name(name, child) if parts.numbers and not is_negated else []
            if not kind:
                wrong.append("no answer in this row")
            elif parts.others:
                wrong.append("a column that is not read has something: give the answer")
            kind = "" if wrong else kind
        kind = next(iter(parts.answers), kind)
        if not parts.schools and kind in ("leave_list", "name_plan"):
            wrong.append("the school is missing")
        given = name if parts.numbers or child is None else ""
        made = Meant(typed, kind, child, "".join(parts.schools[:1]), given, "; ".join(wrong))
        return made if made.school else with_school(self.register, made)

    def not_of_name(self, name: str, child: int | None) -> list[str]:
        """The words of a given name that the child's own has not."""
        known = self.register.children.get(child or 0)
        own = words_of(known.name) if known else []
        words = (it.strip(PUNCTUATION).lower() for it in name.split())
        return [it for it in words if texts.folded(it) not in own]

    def beside_name(self, name: str, child: int | None) -> list[str]:
        """What a name has that may say something about an answer that is not given."""
        known = self.register.children.get(child or 0)
        is_more = known is not None and len(words_of(name)) > len(words_of(known.name))
        return [f"{texts.shown(name)} is not a name alone: give the answer"] if is_more else []

    def of_name(self, parts: Parts, name: str, child: int | None) -> list[str]:
        """What is not understood of a name, or may be an answer or a part of the name."""
        known = self.register.children.get(child or 0)
        own = known.name if known else ""
        wrong = [f"{texts.shown(it)} is not understood"
                 for it in dict.fromkeys(SIGNS.findall(name)) if it not in own]
        words = set(texts.folded(own).split()) - set(texts.folded(name).split())
        return wrong + [f"{texts.shown(it)} may be an answer or a part of the name"
                        for it in parts.answers.values() if it.lower() in words]


def answer_of(text: str) -> str:
    """The answer that a text is, or ""."""
    return ANSWERS.get(" ".join(text.lower().split()), "")


def titles_of(cells: Sequence[str]) -> list[tuple[str, str]]:
    """The columns that a first row names, each with its title; nothing where it has no titles."""
    given = [fields.trimmed(it) for it in cells]
    found = [(COLUMNS.get(texts.folded(it), ""), it) for it in given]
    named = {part for part, _ in found if part}
    is_one = len(named) == 1 and sum(map(bool, given)) == 1
    if not (len(named) > 1 or is_one) or any(not fields.child(it, None).expected for it in given):
        return []
    if not named & {NUMBER, NAME}:
        raise Refused("no column has the title of a child's number or name")
    return found
