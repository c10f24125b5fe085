"""How the pages for readers are written, as far as it can be counted: negations and pointing words
in 100 words, sentences that two pages share, and headings that the contents of a long page lack.

A page that has more of these than AIMS is in tools/page_style.json with its numbers, as is how many
sentences are repeated. These numbers may only fall: more than they say is an error, and
`tools/reference --update` lowers them.
"""
import itertools
import json
import math
import re
from collections import Counter, defaultdict
from collections.abc import Callable, Iterator
from pathlib import Path

NUMBERS = Path("tools/page_style.json")
CONTENTS = "headings that the contents lack"
AIMS = {"negations": 1.5, "pointing words": 0.3, CONTENTS: 0}
WORDS = {
    "negations": re.compile(
        r"(?i)\b(?:no|not|nor|never|none|nobody|nothing|nowhere|neither|without|cannot|unless)\b"
        r"|n't\b"),
    "pointing words": re.compile(
        r"(?i:\bthere\b(?! (?:is|are|was|were)\b)|\b(?:that|those) of\b|\b(?:who|what)ever\b)"
        r"|\bwhat (?:is|was|are|were|has|had|it|they)\b"),
}
# bytes of a page that has a list of contents
LONG = 10_000
# two sentences of so many words of meaning are the same from this cosine on
LEAST, SAME = 7, 0.65
EMPTY = frozenset(
    "a about after all also an and any are as at be been before but by can each for from had has"
    " have if in into is it its may more must no not of on one only or other out so such than that"
    " the their them then there these they this those to two under up was what when where which"
    " while who whose will with".split())
Numbers = dict[str, dict[str, float]]
AnchorOf = Callable[[str], str]
REPEATED = "repeated sentences"


def pages() -> list[Path]:
    """The pages for readers."""
    names = ("README.md", "CONTRIBUTING.md", "CHANGELOG.md")
    return [*map(Path, names), *sorted(Path("docs").rglob("*.md"))]


def prose(text: str) -> str:
    """The words of a page: without blocks, code, pictures, targets of links and marks."""
    text = re.sub(r"(?ms)^ *```.*?^ *```$", "", text)
    text = re.sub(r"!\[[^\]]*\]\([^)]*\)|<[^>\n]*>|`[^`\n]*`", " ", text)
    return re.sub(r"\[([^\]]*)\]\([^)]*\)", r"\1", text).replace("**", "")


def rate(text: str, pattern: re.Pattern[str]) -> float:
    """How many of 100 words match, rounded up to a tenth."""
    words = len(re.findall(r"[A-Za-z]+(?:'[a-z]+)?", text))
    return math.ceil(1000 * len(pattern.findall(text)) / max(words, 1)) / 10


def unlinked(text: str, anchor_of: AnchorOf) -> int:
    """How many main headings of a long page have no link in its contents, which are above the first
    of them or below 'Contents', neither to them nor to a heading within."""
    bare = re.sub(r"(?ms)^ *```.*?^ *```$", "", text)
    top, *below = re.split(r"(?m)^(?=## )", bare)
    if below and below[0].startswith("## Contents\n"):
        top += below.pop(0)
    linked = set(re.findall(r"\]\(#([^)]*)\)", top))
    return sum(not linked & {*map(anchor_of, re.findall(r"(?m)^##+ .*", it))} for it in below
               if len(text.encode()) > LONG)


def measured(anchor_of: AnchorOf) -> Numbers:
    """The numbers of each page."""
    texts = {str(page): page.read_text(encoding="utf-8") for page in pages()}
    return {name: {**{kind: rate(prose(text), pattern) for kind, pattern in WORDS.items()},
                   CONTENTS: unlinked(text, anchor_of)} for name, text in texts.items()}


def committed() -> tuple[int, Numbers]:
    """How many sentences may be repeated, and the numbers of the pages that are above the aims."""
    found = json.loads(NUMBERS.read_text(encoding="utf-8"))
    return found[REPEATED], found["pages"]


def update(anchor_of: AnchorOf) -> None:
    """Lowers the committed numbers to those of now, and drops those that meet the aims."""
    (most, pages_then), now = committed(), measured(anchor_of)
    lowered: Numbers = {}
    for name, numbers in pages_then.items():
        kept = {kind: min(limit, now[name][kind]) for kind, limit in numbers.items()
                if name in now and now[name][kind] > AIMS[kind]}
        lowered.update({name: kept} if kept else {})
    document = {REPEATED: min(most, len(list(repeated()))), "pages": lowered}
    NUMBERS.write_text(json.dumps(document, indent=1) + "\n", encoding="utf-8")


def sentences(page: Path) -> Iterator[str]:
    """The sentences and cells of a page; of README without its promises, which are words of
    GUARANTEES."""
    text = page.read_text(encoding="utf-8")
    if page.name == "README.md":
        text = re.sub(r"(?ms)^## What it promises\n.*?(?=^## )", "", text)
    for part in re.split(r"\n\s*\n|\n(?=- |\d+\. |\|)|(?<!\\)\|", re.sub(r"(?m)^#.*$", "\n",
                                                                         prose(text))):
        yield from (it for it in re.split(r"(?<=[.:;?])\s+", " ".join(part.split())) if it)


def meaning(sentence: str) -> Counter[str]:
    """The words of a sentence that have a meaning of their own."""
    return Counter(set(re.findall(r"[a-z0-9]+", sentence.lower())) - EMPTY)


def repeated() -> Iterator[tuple[Path, str, Path, str]]:
    """The sentences of two pages that say the same by the same words."""
    found = [(page, it, set(meaning(it))) for page in pages() for it in sentences(page)]
    found = [it for it in found if len(it[2]) >= LEAST]
    places: dict[str, list[int]] = defaultdict(list)
    for at, (_, _, words) in enumerate(found):
        for word in words:
            places[word].append(at)
    for at, (page, said, words) in enumerate(found):
        shared = Counter(other for word in words for other in places[word] if other > at)
        for other, count in shared.items():
            far, again, those = found[other]
            if far != page and count / math.sqrt(len(words) * len(those)) >= SAME:
                yield page, said, far, again


def failures(anchor_of: AnchorOf) -> Iterator[str]:
    """What is wrong, or nothing for a check that passes."""
    (most, limits), now, same = committed(), measured(anchor_of), list(repeated())
    for name, kind in itertools.product(now, AIMS):
        limit, found = limits.get(name, {}).get(kind, AIMS[kind]), now[name][kind]
        yield f"{name}: {found} {kind}, and at most {limit}" if found > limit else ""
    yield f"{len(same)} {REPEATED}, and at most {most}" if len(same) > most else ""
    for page, said, far, again in same if len(same) > most else []:
        yield f"{far} says as {page}: {again} | {said}"
