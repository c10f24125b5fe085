"""The pages and lists of the repository that the evidence names, as pages of its own, with links to
them wherever a page names one."""
import os
import re
from collections.abc import Callable
from html import escape
from pathlib import Path

# beside README.md, CHANGELOG.md, CONTRIBUTING.md, COPYING and the pages of docs
LISTS = ("bench/RESULTS.md", "crates.txt", "debian/ported.tsv", "tools/claims.txt",
         "tools/expected", "tools/mutants", "tools/notation_words.json", "tools/promises.md",
         "tools/proved_source.py", "tools/test", "tools/unit", "tools/verdict_words.json")
# what is no text to look for names in: marks, and what is within these
MARKED = re.compile(r"(?s)(<(a|pre|title|style|svg)\b.*?</\2>|<[^>]*>)")
# (its words may go over an end of line, and not over an empty line)
LINK = re.compile(r"\[((?:[^\]\n]|\n(?!\n))*)\]\(([^)\s#]*)(#[^)\s]*)?\)")
# (a picture is not copied: its words are)
PICTURE = re.compile(r"!\[([^\]]*)\]\([^)]*\)")
# in a page of Markdown: a block of code; a heading
BLOCK, HEADING = re.compile(r"(?ms)(^```.*?^```$)"), re.compile(r"(?m)^(#.*)$")


def names() -> list[str]:
    """The files that are copied."""
    pages = sorted(str(it) for it in Path("docs").rglob("*.md"))
    return ["README.md", "CHANGELOG.md", "CONTRIBUTING.md", "COPYING", *pages, *LISTS]


def page_of(name: str) -> str:
    """The page of a file, below pages/."""
    return f"{name.replace('/', '-')}.html"


def linked(html: str, root: str) -> str:
    """A page, with a link from each name of a file that is copied; root leads from it to the folder
    of the evidence."""
    listed = "|".join(re.escape(it) for it in sorted(names(), key=len, reverse=True))
    known = re.compile(rf"(?<![\w/.-])(?:{listed})(?![\w/-])")
    parts = MARKED.split(html)
    # (each part of text is followed by a mark and the name in it)
    for at in range(0, len(parts), 3):
        if "." in parts[at] or "/" in parts[at]:
            parts[at] = known.sub(
                lambda it: f'<a href="{root}pages/{page_of(it[0])}">{it[0]}</a>', parts[at])
    return "".join(part for at, part in enumerate(parts) if at % 3 < 2)


def with_links(text: str, name: str, root: str = "") -> str:
    """A text of Markdown of a file, as HTML, with links to what is copied; root leads to
    pages/."""
    def link(found: re.Match[str]) -> str:
        target = os.path.normpath(Path(name).parent / found[2]) if found[2] else name
        if target not in names():
            return found[0]
        return f'<a href="{root}{page_of(target)}{found[3] or ""}">{found[1]}</a>'

    return LINK.sub(link, PICTURE.sub(r"(a picture: \1)", escape(text, quote=False)))


def text_of(name: str, anchor_of: Callable[[str], str]) -> str:
    """The text of a file as HTML: headings have their anchors, and links lead to what is copied."""
    text = Path(name).read_text(encoding="utf-8")
    if not name.endswith(".md"):
        return escape(text, quote=False)
    shown = []
    for at, part in enumerate(BLOCK.split(text)):
        # (each block of code is between two parts of prose, and each heading likewise)
        for within, it in enumerate(HEADING.split(part) if at % 2 == 0 else []):
            line = with_links(it, name)
            shown.append(f'<strong id="{anchor_of(it)}">{line}</strong>' if within % 2 else line)
        if at % 2:
            shown.append(escape(part, quote=False))
    return "".join(shown)
