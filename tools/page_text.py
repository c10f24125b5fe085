"""What pages of the repository say, read from their Markdown."""
import re
from pathlib import Path


class Refused(Exception):
    """Why nothing is written: a line for each error."""


def plain(text: str) -> str:
    """A text of Markdown without its links and stars."""
    return re.sub(r"\[([^\]]*)\]\([^)]*\)", r"\1", text).replace("**", "")


def section(page: Path, heading: str) -> str:
    """The text below a heading of a page."""
    text = page.read_text(encoding="utf-8")
    found = re.search(rf"(?ms)^#+ {re.escape(heading)}\n(.*?)(?=^#|\Z)", text)
    if not found:
        raise Refused(f"{page} has no heading '{heading}'")
    return found[1]


def parts(page: Path, heading: str) -> list[tuple[str, str]]:
    """The headings below one of a page, each with the text below it, as one line."""
    text = f"{page.read_text(encoding='utf-8')}\n## "
    found = re.search(rf"(?ms)^## {re.escape(heading)}\n(.*?)(?=^## )", text)
    listed = re.split(r"(?m)^### (.*)\n", found[1])[1:] if found else []
    if not listed:
        raise Refused(f"{page} has no headings below '{heading}'")
    return [(name, " ".join(said.split())) for name, said in zip(listed[::2], listed[1::2])]


def points(text: str) -> list[str]:
    """The points of a list, each as one line."""
    return [" ".join(it.split()) for it in re.findall(r"(?ms)^- (.*?)(?=^- |^\n|\Z)", text)]


def cells_of(line: str) -> list[str]:
    """The cells of a row of a table."""
    return [it.strip() for it in re.split(r"(?<!\\)\|", line)[1:-1]]


def table(text: str, title: str) -> list[list[str]]:
    """The rows of the table whose first line begins with a title."""
    found = re.search(rf"(?ms)^\| {re.escape(title)} \|[^\n]*\n\|[-|]+\n((?:\|[^\n]*\n)+)", text)
    if not found:
        raise Refused(f"no table begins with '| {title} |'")
    return [cells_of(line) for line in found[1].splitlines()]
