"""The screens of the staging table in tests: what a page shows, and what a person does on it."""
import html.parser
import io
from typing import Any

import openpyxl
from applications import Answer, Browser
from conftest import HEADER
from pages import Page, press

COLUMNS = HEADER.split(",")
# the form of the table
TABLE = "table"
VOID = ("input", "meta", "link", "br")
Cells = dict[str, str]


class Seen(html.parser.HTMLParser):
    """A page as it is seen: its fields by their form and name, the texts of elements by their id,
    and of all.
    """

    def __init__(self, text: str) -> None:
        super().__init__()
        self.fields: dict[tuple[str, str], Cells] = {}
        self.order: list[str] = []
        self.actions: Cells = {}
        self.texts: Cells = {}
        self.buttons: list[str] = []
        self.tags: list[str] = []
        self.text, self.form = "", ""
        self.open: list[tuple[str, str]] = []
        self.feed(text)

    def handle_starttag(self, tag: str, attrs: list[tuple[str, str | None]]) -> None:
        """Takes a field, a form, or an id."""
        found = {name: value or "" for name, value in attrs}
        self.tags.append(tag)
        if tag == "form":
            self.form = found.get("id", "")
            self.actions[self.form] = found.get("action", "")
        if tag in ("input", "select"):
            self.fields[found.get("form", self.form), found.get("name", "")] = found
            if found.get("type") != "hidden":
                self.order.append(found.get("name", ""))
        if tag == "button":
            self.buttons.append("")
        if tag not in VOID:
            self.open.append((tag, found.get("id", "")))

    def handle_endtag(self, tag: str) -> None:
        """Ends an element."""
        if tag == "form":
            self.form = ""
        if tag in ("td", "th", "dt", "dd"):
            # (which are apart for who looks at them)
            self.handle_data(" ")
        while self.open and self.open.pop()[0] != tag:
            pass

    def handle_data(self, data: str) -> None:
        """Takes a text to each element that has it."""
        self.text += data
        for tag, name in self.open:
            if name:
                self.texts[name] = self.texts.get(name, "") + data
            if tag == "button":
                self.buttons[-1] += data

    def rows(self) -> list[int]:
        """The ids of the rows, in their order."""
        return [int(it.removeprefix("row-")) for it in self.texts if it.startswith("row-")]

    def row(self, where: str) -> int:
        """The id of a row by what it is called."""
        return next(it for it in self.rows()
                    if f" {where} " in " ".join(["", *self.texts[f"row-{it}"].split(), ""]))

    def values(self, row: int) -> Cells:
        """What the fields of a row have."""
        end = f"-{row}"
        return {name.removesuffix(end): it.get("value", "")
                for (form, name), it in self.fields.items()
                if form == TABLE and name.endswith(end) and name != f"seen{end}"}

    def sent(self, **typed: Cells) -> Cells:
        """All that the form of the table sends, with what was typed into rows, by their names."""
        found = {name: it.get("value", "") for (form, name), it in self.fields.items()
                 if form == TABLE and name != "form"}
        return {**found, **{f"{column}-{self.row(where)}": text for where, cells in typed.items()
                            for column, text in cells.items()}}

    def said(self, row: int, column: str) -> str:
        """What is said beside a cell, which its field, if it is one, refers to."""
        name = f"found-{row}-{column}"
        field = self.fields.get((TABLE, f"{column}-{row}"))
        assert field is None or field.get("aria-describedby", name) == name
        return " ".join(self.texts.get(name, "").split())

    def cells_with(self, attribute: str, value: str) -> list[tuple[int, str]]:
        """The cells whose fields have an attribute."""
        found = (name.rpartition("-") for (form, name), it in self.fields.items()
                 if form == TABLE and it.get(attribute) == value)
        return [(int(number), column) for column, _, number in found]

    def wrong(self) -> set[tuple[int, str]]:
        """The cells that are marked as wrong."""
        return set(self.cells_with("aria-invalid", "true"))

    def focused(self) -> list[tuple[int, str]]:
        """The cells that get the focus when the page is loaded."""
        return self.cells_with("autofocus", "")

    def value(self, name: str) -> str:
        """A field that is of no row, or "" where there is none."""
        return next((it.get("value", "") for (form, at), it in self.fields.items()
                     if at == name and form != TABLE), "")


class Screens:
    """The screens of the staging table in a browser."""

    def __init__(self, browser: Browser) -> None:
        self.browser = browser

    def see(self, path: str = "?show=all") -> Seen:
        """A page; without one all rows."""
        found = self.browser.get(f"/applications/{path}")
        assert found.status_code == 200, found.text
        return Seen(found.text)

    def opened(self) -> Seen:
        """All rows, of which each cell is a field."""
        return self.see("?" + "&".join(f"edit={it}" for it in self.see().rows()))

    def add(self, *files: tuple[str, bytes], **more: str) -> Answer:
        """Files that are dropped in."""
        self.see()
        given: dict[str, Any] = {"files": [(io.BytesIO(data), name) for name, data in files]}
        return self.browser.post("/applications/files", {**given, **more},
                                 content_type="multipart/form-data")

    def save(self, row: int, **cells: str) -> Answer:
        """A cell or more of a row get another text, and the page is saved; or without one the row
        is confirmed as it is.
        """
        typed = {f"{column}-{row}": text for column, text in cells.items()}
        return self.send(row, {**typed, **({} if cells else {"confirm": str(row)})})

    def send(self, row: int, given: Cells) -> Answer:
        """The page with a row is sent, of which each cell is a field, with what was typed and
        pressed.
        """
        seen = self.see(f"?edit={row}")
        return self.browser.post(seen.actions[TABLE], {**seen.sent(), **given})

    def withdraw(self, row: int) -> Answer:
        """A row is set aside by its button."""
        return self.send(row, {"aside": str(row)})

    def bring_back(self, row: int) -> Answer:
        """A row is put back by its button."""
        seen = self.see("withdrawn")
        return self.browser.post(seen.actions[TABLE], {**seen.sent(), "back": str(row)})

    def set_aside(self, words: str, path: str = "", note: str = "") -> Seen:
        """Many rows are set aside by a button, whose question is confirmed with a note."""
        at = f"/applications/{path}"
        asked = press(self.browser, at, Page(self.browser.get(at).text), words)
        assert asked.status_code == 303, asked.text
        question = Page(self.browser.get(asked.location).text)
        done = press(self.browser, asked.location, question, words, remark=note)
        assert done.status_code == 303, done.text
        return Seen(self.browser.get(done.location).text)

    def press(self, words: str, path: str = "", status: int = 303, **given: str) -> Seen:
        """A button of a page is pressed; the page that it leads to."""
        at = f"/applications/{path}"
        found = press(self.browser, at, Page(self.browser.get(at).text), words, **given)
        assert found.status_code == status, found.text
        return Seen(self.browser.get(found.location).text if status == 303 else found.text)

    def digest(self) -> str:
        """The digest of what would be stored now."""
        return self.see("commit/").value("digest")

    def store(self, digest: str | None = None) -> Answer:
        """The table is stored, as it was shown."""
        return self.browser.post("/applications/commit/",
                                 {"digest": self.digest() if digest is None else digest})


def csv_of(*rows: str) -> bytes:
    """A CSV with the columns of an application."""
    return "\n".join([HEADER, *rows, ""]).encode()


def workbook(rows: list[list[object]], header: list[str] | None = None) -> bytes:
    """A workbook of one sheet."""
    book = openpyxl.Workbook()
    book.active.append(header or COLUMNS)
    for it in rows:
        book.active.append(it)
    made = io.BytesIO()
    book.save(made)
    return made.getvalue()
