"""The places of the application that take a text or a file, found by what its views read; and what
is looked for after something hostile was sent.
"""
import csv
import html.parser
import io
import os
import pathlib
import re
import resource
import socket
import time
import urllib.parse
from collections.abc import Iterator
from typing import Any

import flask
import openpyxl
import werkzeug.routing
from applications import ORIGIN, Answer, Browser, Site
from pages import Page
from werkzeug.datastructures import ImmutableMultiDict

from office.web.frame import uploads

# an answer takes less time, and the application less memory, on any machine at work
SECONDS, KILOBYTES = 60.0, 1_500_000
# a mark in markup, a sum in a template, and a word of a file that nobody sends
MARK, SUM, WORD = "hostile", "h8281h", "canary-4711"
# an address of another site, or that is a script
OTHER = re.compile(rf"\s*(?!{ORIGIN}/)(?:[a-z]+:|//)", re.I)
# what the application draws itself
DRAWN = ("icon", "sprite", "sign", "bar", "drawn")
Place = tuple[str, str]


class Watch:
    """Which fields of forms, files and addresses the views have asked for."""

    def __init__(self) -> None:
        self.read: dict[str, set[Place]] = {it: set() for it in ("form", "files", "args")}

    def note(self, values: object, name: object) -> None:
        """Notes a field that is asked for."""
        if not flask.has_request_context() or not isinstance(name, str):
            return
        there = flask.request.__dict__
        for kind, places in self.read.items():
            if there.get(kind) is values and flask.request.endpoint:
                places.add((flask.request.endpoint, name))

    def of(self, kind: str) -> dict[str, set[str]]:
        """The fields of a kind by the views that read them."""
        found: dict[str, set[str]] = {}
        for view, name in self.read[kind]:
            found.setdefault(view, set()).add(name)
        return found


WATCH = Watch()


class Watched(ImmutableMultiDict):  # type: ignore[type-arg]
    """Values of a request, of which is noted what is asked for."""

    def get(self, key: Any, *rest: Any, **more: Any) -> Any:
        """One value."""
        WATCH.note(self, key)
        return super().get(key, *rest, **more)

    def getlist(self, key: Any, *rest: Any, **more: Any) -> Any:
        """All values."""
        WATCH.note(self, key)
        return super().getlist(key, *rest, **more)

    def __contains__(self, key: Any) -> bool:
        """Whether it is there."""
        WATCH.note(self, key)
        return bool(super().__contains__(key))


class Request(uploads.Request):
    """A request whose values are watched."""

    parameter_storage_class = Watched


class Markup(html.parser.HTMLParser):
    """What a page has that somebody else has written into it."""

    def __init__(self, text: str) -> None:
        super().__init__()
        self.found: list[str] = []
        self.links: list[str] = []
        self.is_script = False
        self.feed(text)

    def handle_starttag(self, tag: str, attrs: list[tuple[str, str | None]]) -> None:
        """Looks at an element."""
        given = {name: value or "" for name, value in attrs}
        if given.get("id") == MARK or any(it.startswith("on") for it in given):
            self.found.append(f"{tag} {given}")
        is_sign = tag == "svg" and given.get("class", "").partition(" ")[0] in DRAWN
        if tag in ("iframe", "object", "embed", "base", "img", "svg", "style", "frame") and (
                not is_sign):
            self.found.append(tag)
        for name in ("href", "src", "action", "formaction"):
            if re.match(OTHER, given.get(name, "")):
                self.found.append(f"{tag} {name}={given[name]}")
        self.is_script = tag == "script"
        if self.is_script and not re.fullmatch(r"/[a-z]+\.js", given.get("src", "")):
            self.found.append(f"script {given}")
        if tag == "a":
            self.links.append(given.get("href", ""))

    def handle_data(self, data: str) -> None:
        """No script is within a page."""
        if self.is_script and data.strip():
            self.found.append(f"script of {data[:60]!r}")
        self.is_script = False


def wrong_in(answer: Answer) -> list[str]:
    """What is wrong in an answer, whatever it shows."""
    found, text = [], answer.data if answer.is_streamed is False else answer.get_data()
    if answer.headers.get("X-Content-Type-Options") != "nosniff":
        found.append("nosniff")
    if "no-store" not in answer.headers.get("Cache-Control", ""):
        found.append("stored in caches")
    if "default-src 'none'" not in answer.headers.get("Content-Security-Policy", ""):
        found.append("no policy")
    if any("\n" in it or "\r" in it for pair in answer.headers for it in pair):
        found.append("a header of two lines")
    if WORD.encode() in text or b"Traceback (most" in text:
        found.append("something of the machine")
    kind, kept = answer.mimetype, answer.headers.get("Content-Disposition", "")
    if kind == "text/html" and not kept and "sandbox" not in str(answer.headers):
        found += Markup(text.decode()).found
        if SUM in text.decode():
            found.append("a sum of a template")
    elif kind == "text/csv":
        found += [f"formula {it}" for it in formulas_of_csv(text.decode("utf-8-sig"))]
    elif "spreadsheetml" in kind:
        found += [f"formula {it}" for it in formulas_of(text)]
    if kind not in ("text/html", "application/json", "text/plain", "text/css",
                    "application/javascript", "text/javascript") and answer.status_code == 200:
        if not re.match(r"(?:attachment|inline); filename=", kept):
            found.append(f"{kind} is shown as {kept!r}")
    return found


def formulas_of_csv(text: str) -> list[str]:
    """The cells of a CSV that a spreadsheet takes for formulas."""
    return [cell for row in csv.reader(io.StringIO(text)) for cell in row
            if cell[:1] in ("=", "+", "-", "@", "\t", "\r")
            and not re.fullmatch(r"-?[0-9]+(?:\.[0-9]+)?", cell)]


def formulas_of(data: bytes) -> list[str]:
    """The formulas of an Excel file."""
    book = openpyxl.load_workbook(io.BytesIO(data))
    return [str(cell.value) for sheet in book for row in sheet.iter_rows() for cell in row
            if cell.data_type == "f"]


class Bait:
    """A file, an address and a command that what is sent names: whether somebody has followed."""

    def __init__(self, folder: pathlib.Path) -> None:
        folder.mkdir()
        self.file, self.made = folder / "secret.txt", folder / "ran"
        self.file.write_text(WORD, "ascii")
        self.socket = socket.create_server(("127.0.0.1", 0))
        self.socket.setblocking(False)
        port = self.socket.getsockname()[1]
        self.names = {"path": str(self.file), "file": f"file://{self.file}",
                      "url": f"http://127.0.0.1:{port}/x", "run": f"touch {self.made}"}
        self.reset()

    def reset(self) -> None:
        """Marks the file as not read."""
        os.utime(self.file, (1, time.time()))

    def followed(self) -> list[str]:
        """What somebody has followed."""
        found = ["the file was read"] if self.file.stat().st_atime != 1 else []
        if self.made.exists():
            found.append("the command was run")
        try:
            self.socket.accept()[0].close()
            found.append("the address was asked")
        except BlockingIOError:
            pass
        return found


class Sender:
    """Somebody who sends hostile things to an application, and looks at what comes of each."""

    def __init__(self, office: Site, browser: Browser, bait: Bait) -> None:
        self.office, self.browser, self.bait = office, browser, bait
        self.wrong: list[str] = []
        self.sent = 0

    def see(self, what: str, answer: Answer, since: float) -> Answer:
        """Looks at an answer."""
        found = wrong_in(answer)
        if answer.status_code >= 500:
            found.append(f"status {answer.status_code}")
        took = time.monotonic() - since
        if took > SECONDS:
            found.append(f"{took:.0f} seconds")
        self.wrong += [f"{what}: {it}" for it in [*found, *self.bait.followed()]]
        self.sent += 1
        return answer

    def get(self, path: str) -> Answer:
        """Asks for an address."""
        since = time.monotonic()
        return self.see(f"GET {path[:100]!r}", self.browser.get(path), since)

    def post(self, path: str, given: dict[str, Any], what: str = "") -> Answer:
        """Sends a form."""
        since = time.monotonic()
        return self.see(f"POST {path} {what}", self.browser.post(path, given), since)

    def file(
        self, path: str, field: str, name: str, data: bytes, beside: dict[str, Any] | None = None
    ) -> Answer:
        """Sends a file, with what else the form has."""
        given = {**(beside or {}), field: (io.BytesIO(data), name)}
        return self.post(path, given, f"{field} {name[:40]!r}")


def memory() -> int:
    """The most memory that this process, and any that it began, has taken: kilobytes."""
    return max(resource.getrusage(it).ru_maxrss for it in (
        resource.RUSAGE_SELF, resource.RUSAGE_CHILDREN))


def options(converter: Any) -> list[str]:
    """What a part of an address can be, for those that are there."""
    if isinstance(converter, werkzeug.routing.IntegerConverter):
        return ["1", "2"]
    if isinstance(converter, werkzeug.routing.AnyConverter):
        return re.findall("[A-Za-z0-9-]+", converter.regex.removeprefix("(?:"))
    return []


def addresses(office: Site, names: dict[str, list[str]], method: str) -> dict[str, list[str]]:
    """The addresses of each view that takes a method."""
    found: dict[str, list[str]] = {}
    for rule in office.app.url_map.iter_rules():
        if method not in (rule.methods or ()):
            continue
        paths = [rule.rule]
        for name, converter in rule._converters.items():  # pylint: disable=protected-access
            values = options(converter) or names[name]
            paths = [re.sub(rf"<(?:[^<>]*:)?{name}>", it, path) for path in paths for it in values]
        found.setdefault(rule.endpoint, []).extend(paths)
    return found


def crawl(sender: Sender, starts: list[str], most: int = 400) -> Iterator[tuple[str, Page]]:
    """All pages that can be reached, each once."""
    todo, seen = list(starts), set(starts)
    while todo:
        path = todo.pop(0)
        answer = sender.get(path)
        if answer.mimetype != "text/html" or answer.status_code != 200:
            continue
        yield path, Page(answer.text)
        for it in Markup(answer.text).links:
            found = urllib.parse.urljoin(path, it.partition("#")[0])
            # (a table in another order is the same page, and the help has no text of anybody)
            is_new = found not in seen and "order=" not in found and "/help/" not in found
            if found.startswith("/") and is_new and len(seen) < most:
                seen.add(found)
                todo.append(found)


def raw(browser: Browser, path: str, body: bytes, kind: str) -> Answer:
    """Sends a body as it is."""
    headers = {"Origin": ORIGIN, "Accept": "text/html"}
    return browser.client.post(path, base_url=ORIGIN, headers=headers, data=body,
                               content_type=kind)
