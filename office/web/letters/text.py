"""A letter that is there as HTML, as the texts that a screen shows of it: its paragraphs, headings,
items and rows of tables, in their order. How it is laid out on paper is not looked at.
"""
import dataclasses
import html.parser
import re

HEADING, ITEM, ROW, TEXT = "heading", "item", "row", "text"
KINDS = {**{f"h{it}": HEADING for it in range(1, 7)}, "li": ITEM, "tr": ROW}
# what begins another text, and what is no text of a letter
BLOCKS = ("address", "blockquote", "body", "dd", "div", "dl", "dt", "ol", "p", "section", "table",
          "tbody", "thead", "ul", *KINDS)
UNSEEN = ("head", "script", "style", "template", "title")


@dataclasses.dataclass
class Block:
    """A part of a letter: what it is, and its lines, or the cells of a row."""

    kind: str
    lines: list[str]


class Reader(html.parser.HTMLParser):
    """Reads the blocks of a letter."""

    def __init__(self) -> None:
        super().__init__()
        self.found: list[Block] = []
        self.hidden: list[str] = []
        self.now = Block(TEXT, [""])

    def handle_starttag(self, tag: str, attrs: list[tuple[str, str | None]]) -> None:
        """Begins another block, line or cell."""
        if tag in UNSEEN:
            self.hidden.append(tag)
        elif tag in ("br", "td", "th"):
            self.now.lines.append("")
        elif tag in BLOCKS and not (self.now.kind == ROW and tag not in KINDS):
            self.begin(KINDS.get(tag, TEXT))

    def handle_endtag(self, tag: str) -> None:
        """Ends a block."""
        if tag in self.hidden:
            del self.hidden[self.hidden.index(tag):]
        elif tag in BLOCKS and (self.now.kind != ROW or tag in ("tr", "table")):
            self.begin(TEXT)

    def handle_data(self, data: str) -> None:
        """Takes a text."""
        if not self.hidden:
            self.now.lines[-1] += data

    def begin(self, kind: str) -> None:
        """Ends the block that was read, and begins another one."""
        lines = [re.sub(r"\s+", " ", it).strip() for it in self.now.lines]
        if any(lines):
            self.found.append(Block(self.now.kind, [it for it in lines if it]))
        self.now = Block(kind, [""])


def blocks(text: str) -> list[Block]:
    """The blocks of a letter."""
    reader = Reader()
    reader.feed(text)
    reader.close()
    reader.begin(TEXT)
    return reader.found
