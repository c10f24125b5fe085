"""What is observed of the scripted season: the register's document, what passed to the register,
the history, what was asked of the machine, files, and pages; each as lines of texts.
"""
import io
import json
import re
import subprocess
import zipfile
from collections.abc import Iterable
from typing import Any

import openpyxl
import pages
from season_hands import HERE, Hand, Room

EXPECTED = HERE / "season_trace"
KINDS = ("register", "wire", "history", "machine", "files", "pages")
MOMENTS = re.compile(r"\d{4}-\d\d-\d\dT\d\d:\d\d:\d\d(?:\.\d+)?(?:\+00:00|Z)?")
SHOWN = re.compile(r"\b\d{1,2} [A-Z][a-z]+ \d{4}, \d\d:\d\d\b")
DIGESTS = re.compile(r"\b[0-9a-f]{64}\b")
KEYS = re.compile(r"\b(?:[0-9a-f]{32}|[0-9a-f]{16}|(?=[0-9]*[a-f])[0-9a-f]{12})\b")
SIZE = re.compile(r'(?<="size": )\d{5,}|[\d,]+(?= KB\b)')


class Names:
    """Digests and keys by names, each given at first sight, so that equal ones stay equal; and the
    moments of the history by their entries.
    """

    def __init__(self) -> None:
        self.known: dict[str, str] = {}
        self.counts: dict[str, int] = {}
        self.entries: dict[str, list[int]] = {}

    def name(self, kind: str, found: str) -> str:
        """The name of one."""
        if found not in self.known:
            self.counts[kind] = self.counts.get(kind, 0) + 1
            self.known[found] = f"<{kind}{self.counts[kind]}>"
        return self.known[found]

    def moment(self, found: str, text: str) -> str:
        """The name of a moment: of several entries of one moment, that which the text names."""
        numbers = self.entries.get(found, [])
        named = [it for it in numbers if re.search(rf"\b{it}\b", text)]
        return f"<m{named[0]}>" if named else "<moment>"

    def plain(self, text: str) -> str:
        """A text with names in place of what is another one each time."""
        text = MOMENTS.sub(lambda it: self.moment(it[0], text), text)
        text = DIGESTS.sub(lambda it: self.name("d", it[0]), text)
        text = KEYS.sub(lambda it: self.name("k", it[0]), text)
        # (an archive of other moments has another size)
        return SIZE.sub("<n>", SHOWN.sub("<moment>", text))


class Trace:
    """What is observed, by its kinds: lines of texts, below the names of the points."""

    def __init__(self, lived: Room, asked: list[str]) -> None:
        self.room, self.asked = lived, asked
        self.texts: dict[str, list[str]] = {it: [] for it in KINDS}
        self.names = {it: Names() for it in KINDS}
        self.seen: dict[str, int] = {}
        self.before: list[str] = []

    def add(self, kind: str, lines: Iterable[str]) -> None:
        """Lines of a kind."""
        self.texts[kind] += [self.names[kind].plain(it) for it in lines]

    def new(self, kind: str, found: list[Any]) -> list[Any]:
        """What was added to a list since it was seen last."""
        at = self.seen.get(kind, 0)
        self.seen[kind] = len(found)
        return found[at:]

    def begin(self, title: str) -> None:
        """Begins a point of the season."""
        for it in KINDS:
            self.texts[it].append(f"== {title}")

    def point(self) -> None:
        """Observes what came of it."""
        document = lines_of(self.room.document())
        old, new = set(self.before), set(document)
        self.add("register", [*(f"- {it}" for it in self.before if it not in new),
                              *(f"+ {it}" for it in document if it not in old)])
        self.before = document
        for path, body in self.new("wire", self.room.way.passed):
            self.add("wire", [f"POST {path}", *(f"  {it}" for it in body.decode().splitlines())])
        names = self.names["history"]
        history = (self.room.machine.state / "history.jsonl").read_text("utf-8").splitlines()
        first = self.seen.get("history", 0) + 1
        for number, it in enumerate(map(json.loads, self.new("history", history)), first):
            about = json.dumps(it["about"], sort_keys=True, ensure_ascii=False)
            names.entries.setdefault(it["at"], []).append(number)
            self.add("history", [f"{number} {it['who']} {it['what']} {about}"])
        self.add("machine", [f"asked to {it}" for it in self.new("machine", self.asked)])
        if not document:
            left = [self.room.machine.lib, self.room.machine.backups]
            self.add("machine", [f"left: {it.name}" for one in left for it in one.rglob("*.*")])
            self.pages()
            return
        tables = self.room.person("rita").get("/copies/").page.tables
        copies = tables.get("copies", [])[1:]
        self.add("machine", [f"copy {row[0]} for {row[2]}, asked by {row[3]}"
                             for row in self.new("copies", copies[::-1])])

    def found(self) -> dict[str, str]:
        """The texts of all kinds."""
        return {name: "".join(f"{it}\n" for it in lines) for name, lines in self.texts.items()}

    def file(self, name: str, data: bytes) -> None:
        """A file that somebody took."""
        self.add("files", [f"-- {name}", *(f"  {it.rstrip()}" for it in file_lines(data))])

    def pages(self, all_of_them: bool = False) -> None:
        """What each of the people sees at each page of the own menu, or of all menus."""
        menus = {it.who: menu(it) for it in self.room.people.values()}
        paths = dict.fromkeys(path for it in menus.values() for path in it)
        for it in self.room.people.values():
            for path in (paths if all_of_them else menus[it.who]):
                self.page(it, path)

    def page(self, hand: Hand, path: str = "", when: str = "") -> None:
        """What somebody sees at a page: the present one, if none is named."""
        self.add("pages", [f"-- {hand.who} at {path or hand.path}{when}",
                           *page_lines(hand, path or hand.path)])


def menu(hand: Hand) -> list[str]:
    """The paths of somebody's menu: of its groups, and of the screens of each group."""
    found = dict.fromkeys(links(hand, "/password"))
    return list(found | dict.fromkeys(it for group in found for it in links(hand, group)))


def links(hand: Hand, path: str) -> list[str]:
    """What the menu of a page leads to."""
    text = hand.ask("GET", path).text
    navs = re.findall('<nav class="(?:groups|screens)"(.*?)</nav>', text, re.S)
    return re.findall('href="([^"]+)"', " ".join(navs))


def page_lines(hand: Hand, path: str) -> list[str]:
    """What a page has, without its form."""
    found = hand.ask("GET", path)
    if found.status in (302, 303):
        return [f"   {found.status} to {found.location}"]
    hand.seen(path, found, found.status)
    lines = [f"   {found.status} {' '.join(hand.page.by_id.get('heading', '').split())}"]
    if hand.page.said():
        lines.append(f"   said: {hand.page.said()}")
    for name, rows in hand.page.tables.items():
        lines += [f"   table {name}", *(f"     {' | '.join(row)}" for row in rows)]
    if 'id="to-do"' in found.text:
        for group, tasks in pages.tasks(found.text).items():
            lines += [f"   {group}", *(f"     {' | '.join(it)}" for it in tasks)]
    return lines


def lines_of(document: dict[str, Any]) -> list[str]:
    """A register's document, a line for each child, school and draw."""
    made = []
    for name, value in document.items():
        for it in value if isinstance(value, list) else [value]:
            made.append(f"{name} {json.dumps(it, sort_keys=True, ensure_ascii=False)}")
    return made


def file_lines(data: bytes) -> list[str]:
    """What a file has: the names of an archive, the cells of an Excel file, the text of a PDF, or
    it as it is.
    """
    if data.startswith(b"%PDF"):
        text = subprocess.run(["pdftotext", "-layout", "-", "-"], input=data, capture_output=True,
                              check=True).stdout.decode()
        return [it for it in text.replace("\f", "\n~\n").split("\n") if it.strip()]
    if data.startswith(b"PK"):
        with zipfile.ZipFile(io.BytesIO(data)) as found:
            names = found.namelist()
        if "[Content_Types].xml" not in names:
            return names
        book = openpyxl.load_workbook(io.BytesIO(data))
        return [f"{sheet.title}: {[cell.value for cell in row]}" for sheet in book for row in sheet]
    return data.decode("utf-8-sig").splitlines()
