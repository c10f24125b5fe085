"""Pages of the application in tests: their forms with what is in them, their tables as rows of
texts, and what is tied to a field.
"""
import dataclasses
import html
import html.parser
import re
import urllib.parse
from typing import Any

Attributes = list[tuple[str, str | None]]
Given = dict[str, Any]


@dataclasses.dataclass
class Form:
    """A form: where it is sent, by which method, its values, and its buttons by their texts."""

    action: str
    method: str
    name: str
    # whether it is one of the frame: the search, and the sign-out
    is_frame: bool = False
    values: dict[str, list[str]] = dataclasses.field(default_factory=dict)
    buttons: dict[str, tuple[str, str]] = dataclasses.field(default_factory=dict)

    def sent_by(self, button: str, **given: Any) -> Given:
        """What is sent by a button, with these values in place of those that are there."""
        name, value = self.buttons[button]
        return {**self.values, **({name: value} if name else {}), **given}


class Page(html.parser.HTMLParser):
    """A page."""

    def __init__(self, text: str) -> None:
        super().__init__()
        self.text = text
        self.forms: list[Form] = []
        # by their identifiers, or else by their captions
        self.tables: dict[str, list[list[str]]] = {}
        self.fields: dict[str, dict[str, str | None]] = {}
        # the texts of elements that have an identifier
        self.by_id: dict[str, str] = {}
        # what the keyboard reaches: each element's identifier or text, in order
        self.stops: list[str] = []
        self.focus = ""
        self._form: Form | None = None
        self._table: list[list[str]] | None = None
        self._table_name = ""
        self._open: list[tuple[str, str]] = []
        self._select = ""
        self._button: tuple[str, str] | None = None
        self._text = ""
        self.feed(text)

    def handle_starttag(self, tag: str, attrs: Attributes) -> None:
        """Takes what begins."""
        found = dict(attrs)
        name, value = found.get("name") or "", found.get("value") or ""
        if found.get("id"):
            self.fields[str(found["id"])] = found
        if "autofocus" in found:
            self.focus = str(found.get("id") or found.get("href"))
        if tag not in ("input", "meta", "link", "br"):
            self._open.append((tag, str(found.get("id") or "")))
        if tag == "form":
            self._form = Form(found.get("action") or "", found.get("method") or "get",
                              found.get("id") or "", "header" in (it for it, _ in self._open))
            self.forms.append(self._form)
        elif tag == "table":
            self._table, self._table_name = [], str(found.get("id") or "")
        elif tag == "tr" and self._table is not None:
            self._table.append([])
        elif tag in ("td", "th") and self._table:
            self._table[-1].append("")
        elif tag == "select":
            self._select = name
        self.take_field(tag, found, name, value)

    def take_field(
        self, tag: str, found: dict[str, str | None], name: str, value: str,
    ) -> None:
        """Takes a field, and what the keyboard reaches."""
        is_hidden = found.get("type") == "hidden"
        if tag in ("input", "select", "textarea", "button") and not is_hidden or (
                tag == "a" and "href" in found):
            self.stops.append(str(found.get("id") or name or found.get("href") or value))
        if self._form is None:
            return
        if tag == "input" and name and found.get("type") not in ("file", "checkbox"):
            self._form.values.setdefault(name, []).append(value)
        elif tag == "input" and found.get("type") == "checkbox" and "checked" in found:
            self._form.values.setdefault(name, []).append(value)
        elif tag == "option" and "selected" in found:
            self._form.values.setdefault(self._select, []).append(value)
        elif tag == "textarea":
            self._form.values.setdefault(name, []).append("")
        elif tag == "button":
            self._button, self._text = (name, value), ""

    def handle_data(self, data: str) -> None:
        """Takes a text."""
        for tag, name in self._open:
            if name:
                self.by_id[name] = self.by_id.get(name, "") + data
        if self._button is not None:
            self._text += data
        tags = [tag for tag, _ in self._open]
        if "caption" in tags and not self._table_name:
            self._table_name = " ".join(data.split())
        elif self._table and self._table[-1] and ("td" in tags or "th" in tags):
            self._table[-1][-1] += data

    def handle_endtag(self, tag: str) -> None:
        """Ends what is open."""
        while self._open and self._open.pop()[0] != tag:
            pass
        if tag == "form":
            self._form = None
        elif tag == "button" and self._button is not None and self._form is not None:
            self._form.buttons[" ".join(self._text.split())] = self._button
            self._button = None
        elif tag == "table" and self._table is not None:
            rows = [[" ".join(it.split()) for it in row] for row in self._table if row]
            self.tables[self._table_name] = rows
            self._table = None

    def form(self, button: str) -> Form:
        """The form that has a button of this text."""
        return next(it for it in self.forms if button in it.buttons)

    def buttons(self) -> list[str]:
        """The texts of all buttons of the screen itself."""
        return [text for it in self.forms if not it.is_frame for text in it.buttons]

    def error(self, field: str) -> str:
        """The error that is tied to a field, or ""."""
        found = self.fields[field]
        tied = (found.get("aria-describedby") or "").split()
        error = f"{field}-error"
        if error not in tied:
            return ""
        assert found.get("aria-invalid") == "true" or "aria-invalid" not in found
        return " ".join(self.by_id[error].split()).removeprefix("Error: ")

    def said(self) -> str:
        """What is said above a page, or ""."""
        return " ".join(self.by_id.get("answer", "").split())


def press(browser: Any, path: str, page: Page, button: str, **given: Any) -> Any:
    """Presses a button of a page: the form is sent with what is in it, and with what was given. A
    question that has an address of its own is read there.
    """
    form = page.form(button)
    values = {name: it if len(it) > 1 else it[0] for name, it in form.values.items() if it}
    name, value = form.buttons[button]
    sent = {**values, **({name: value} if name else {}), **given}
    if form.method == "get":
        return browser.get(f"{form.action or path}?{urllib.parse.urlencode(sent, True)}")
    found = browser.post(form.action or path, sent)
    return browser.get(found.location) if "typed=" in (found.location or "") else found


ENTRY = re.compile(r"<li class=\"\w*\"><p class=\"what\">(.*?)</p>(?:<p>(.*?)</p>)?"
                   r"<p class=\"hint\">(.*?)</p></li>", re.S)
TASK = re.compile(r"<li>\s*<div>(.*?)<p class=\"hint\"[^>]*>(.*?)</p>.*?"
                  r"<div class=\"state\"[^>]*>(.*?)</div>", re.S)


def plain(text: str) -> str:
    """The words of a piece of a page."""
    return html.unescape(re.sub(r"<[^>]*>|\s+", " ", text)).strip()


def history(text: str) -> list[tuple[str, str, str]]:
    """The entries of a history: who, what, and what is said of it."""
    part = text[text.index('<ol class="history">'):].split("</ol>")[0]
    return [(plain(hint).rpartition(", ")[2], plain(what), plain(more))
            for what, more, hint in ENTRY.findall(part)]


def tasks(text: str) -> dict[str, list[tuple[str, str, str]]]:
    """What the first screen has to do: by group the titles with their states and hints."""
    part = text[text.index('id="to-do"'):].split("</section>")[0]
    found: dict[str, list[tuple[str, str, str]]] = {}
    for group in part.split('<h3 class="group">')[1:]:
        title, _, rows = group.partition("</h3>")
        found[title] = [
            (plain(words), plain(hint), plain(state)) for words, hint, state in TASK.findall(rows)]
    return found
