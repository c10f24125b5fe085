"""Letters as PDF, by a template that the office edits: what a template may have and do, and how
letters are laid out. `apart` calls it in a process of its own.
"""
from __future__ import annotations

import contextlib
import datetime
import logging
import os
import re
import urllib.parse
from collections.abc import Callable, Iterator, Mapping, Sequence
from types import MappingProxyType
from typing import TYPE_CHECKING, Any

from register_files import Refused

from office.core import days, rules, texts
from office.files import inputs, sheet

from . import template_faults
from .fields import Letter

if TYPE_CHECKING:
    from jinja2 import Template
    from jinja2.sandbox import SandboxedEnvironment
    from pikepdf import Pdf

SECONDS_OF_LETTER, MOST_LETTER, MOST_PAGES = 5, 1_000_000, 100
# the largest operands of a power, and the bits of a number that is multiplied
MOST_POWER, MOST_BITS = 1000, 10_000
# what fills a text to a width, and how jinja2 names what a letter has not
WIDE = re.compile(r"%[^a-zA-Z%]*(\*|[0-9]{4})")
NO_FIELD = re.compile(rf"'{re.escape(Letter.__module__)}\.\w+ object' has no attribute")
TOO_DEEP = ": it is nested too deeply, or a macro calls itself"
# the beginnings of the pictures and fonts that a letter shows
FIRST_BYTES, RIFF = 4096, "RIFF"
SHOWN = (
    (b"\x89PNG\r\n\x1a\n", "image/png"),
    (b"\xff\xd8\xff", "image/jpeg"),
    (b"GIF8", "image/gif"),
    (b"RIFF", RIFF),
    (b"wOFF", "font/woff"),
    (b"wOF2", "font/woff2"),
    (b"\0\1\0\0", "font/ttf"),
    (b"true", "font/ttf"),
    (b"OTTO", "font/otf"),
    (b"ttcf", "font/collection"),
)
SVG = re.compile(
    rb"(\xef\xbb\xbf)?\s*((<\?xml[^>]*>|<!DOCTYPE[^>]*>|<!--((?!-->).)*-->)\s*)*<(\w+:)?svg\b",
    re.DOTALL,
)
HERE = os.path.dirname(os.path.realpath(__file__))
TEMPLATE = os.path.join(HERE, "printed", "letter.html")
# in points
A4 = (595.28, 841.89)


def environment() -> SandboxedEnvironment:
    """What templates are made in: values are escaped for HTML, and a misspelt name is an error. A
    power, or a text that is repeated or filled, has a limit, as one operation takes its time."""
    import jinja2
    import jinja2.sandbox

    class Sandbox(jinja2.sandbox.ImmutableSandboxedEnvironment):  # type: ignore[misc]
        """The environment, which looks at some operations first."""

        intercepted_binops = frozenset(("*", "**", "%"))

        def call_binop(
            self, context: jinja2.runtime.Context, operator: str, left: Any, right: Any
        ) -> Any:
            """The result of an operation, or a refusal of one that is too large."""
            see_product(operator, left, right)
            return super().call_binop(context, operator, left, right)

    made = Sandbox(
        autoescape=True, undefined=jinja2.StrictUndefined, trim_blocks=True, lstrip_blocks=True
    )
    made.filters["day"] = days.in_words
    made.filters["thousands"] = "{:,}".format
    return made


def see_product(operator: str, left: Any, right: Any) -> None:
    """Refuses a product, a power or a filled text that is larger than any letter."""
    sides = (left, right)
    if operator == "%":
        is_large = isinstance(left, str) and WIDE.search(left) is not None
    elif operator == "**":
        is_large = any(isinstance(it, int) and abs(it) > MOST_POWER for it in sides)
    else:
        repeated = [len(it) for it in sides if isinstance(it, (str, list, tuple))]
        times = [abs(it) for it in sides if isinstance(it, int)]
        is_large = any(it.bit_length() > MOST_BITS for it in times) or bool(
            repeated and times and repeated[0] * times[0] > MOST_LETTER)
    if is_large:
        raise ArithmeticError(f"the result of {operator} is too large")


def template_of(name: str, text: bytes) -> Template:
    """The template of a text that has this name."""
    import jinja2

    try:
        return environment().from_string(text.decode("utf-8"))
    except UnicodeDecodeError as error:
        raise Refused(f"{name} is not in UTF-8") from error
    except (RecursionError, SyntaxError) as error:
        # (a SyntaxError is one of the Python code that jinja2 makes)
        raise Refused(f"{name}{TOO_DEEP}") from error
    except jinja2.TemplateSyntaxError as error:
        line, said = template_faults.in_words(environment(), text.decode("utf-8"), error)
        raise Refused(f"{name}, line {line}: {said}") from error


def line_of(error: BaseException) -> int | None:
    """The line of a template in which an error was raised, where it was raised in one."""
    found, trace = None, error.__traceback__
    while trace is not None:
        names = trace.tb_frame.f_globals
        if "__jinja_exception__" in names:
            # (jinja2 has put the line of the template there already)
            found = trace.tb_lineno
        elif "__jinja_template__" in names:
            found = names["__jinja_template__"].get_corresponding_lineno(trace.tb_lineno)
        trace = trace.tb_next
    return found


def at_line(name: str, error: BaseException) -> str:
    """A template by its name, with the line in which an error was raised."""
    line = line_of(error)
    return f"{name}, line {line}" if line else name


def html_of(
    template: Template,
    name: str,
    letter: Letter,
    address: list[str],
    day: datetime.date,
    values: Mapping[str, object] = MappingProxyType({}),
) -> str:
    """One letter as HTML, of which the values are the same in all letters. A template whose loops
    do not end, or fill the memory, is refused."""
    import jinja2

    pieces, size = [], 0
    given = {**values, "letter": letter, "address": address, "date": days.in_words(day)}
    try:
        with inputs.within("a letter by this template", SECONDS_OF_LETTER):
            for it in template.generate(given):
                pieces.append(it)
                size += len(it)
                if size > MOST_LETTER:
                    most = f"has over {MOST_LETTER:,} characters"
                    raise Refused(f"a letter by this template {most}")
    except RecursionError as error:
        raise Refused(f"{name}{TOO_DEEP}") from error
    except MemoryError as error:
        raise Refused(f"{at_line(name, error)}: a letter takes too much memory") from error
    except (jinja2.TemplateError, ArithmeticError, AttributeError, Refused) as error:
        said = NO_FIELD.sub("there is no field", str(error))
        raise Refused(f"{at_line(name, error)}: {said}") from error
    except (LookupError, TypeError, ValueError) as error:
        raise Refused(f"{at_line(name, error)}: {error}") from error
    return "".join(pieces)


def addresses_in(
    name: str, rows: Sequence[sheet.Row]
) -> tuple[list[str], dict[int, list[str]]]:
    """The columns of a sheet of addresses but `child`, and their cells by child."""
    columns: list[str] = []
    found: dict[int, list[str]] = {}
    for row, number, cells in by_child_in(name, rows):
        if number is None:
            columns = cells
        elif number in found:
            raise Refused(f"{name}, row {row}: child {number} is there twice")
        elif any(cells[len(columns) :]):
            raise Refused(f"{name}, row {row}: it has more cells than the header")
        else:
            found[number] = (cells + [""] * len(columns))[: len(columns)]
    return columns, found


def lines_of(cells: Sequence[str]) -> list[str]:
    """The lines of an address, without those that are empty."""
    return [it for it in cells if it]


def by_child_in(
    name: str, rows: Sequence[sheet.Row]
) -> Iterator[tuple[int, int | None, list[str]]]:
    """The rows of a sheet that has a column `child`: the number of the row, the child (None in the
    header), and the other cells in their order."""
    header = [it.strip().lower() for it in rows[0].cells] if rows else []
    if "child" not in header:
        raise Refused(f"{name} has no column `child`")
    at = header.index("child")
    for row in rows:
        text = row.cells[at].strip() if at < len(row.cells) else ""
        number = rules.number_in(text, rules.LIMITS["child"])
        if row is not rows[0] and number is None:
            said = f"column child: {text or 'nothing'} is no child's number"
            raise Refused(f"{name}, row {row.number}, {said}")
        others = [it.strip() for place, it in enumerate(row.cells) if place != at]
        yield row.number, number, others


def type_of(name: str, data: bytes) -> str | None:
    """The type of a file that a letter may show: a picture, a font or a style sheet; else None. A
    style sheet is a text, so its name decides too."""
    start = data[:FIRST_BYTES]
    found = next((kind for mark, kind in SHOWN if start.startswith(mark)), None)
    if found == RIFF:
        return "image/webp" if start[8:12] == b"WEBP" else None
    if found:
        return found
    if SVG.match(start):
        return "image/svg+xml"
    is_style = name.lower().endswith(".css") and b"\0" not in data and not re.match(rb"\s*<", start)
    return "text/css" if is_style else None


def fetcher(folder: str, refused: list[str]) -> Callable[..., dict[str, object]]:
    """Reads the pictures, fonts and style sheets of a template: those of its own folder alone, and
    nothing from a network. What it does not read it adds to a list, in words."""
    from weasyprint import default_url_fetcher

    def fetch(url: str, *given: object, **named: object) -> dict[str, object]:
        name = texts.visible(urllib.parse.unquote(url).removeprefix(f"file://{folder}/"))
        try:
            parts = urllib.parse.urlsplit(url)
            path = os.path.realpath(urllib.parse.unquote(parts.path))
        except ValueError:
            refused.append(f"the template names {name}, which is no name of a file")
            raise
        if parts.scheme == "data":
            read: dict[str, object] = default_url_fetcher(url, *given, **named)
            return read
        is_beside = parts.scheme == "file" and os.path.commonpath((path, folder)) == folder
        if is_beside and os.path.isfile(path):
            with open(path, "rb") as file:
                data = inputs.taken(name, file)
            if kind := type_of(path, data):
                return {"string": data, "mime_type": kind, "redirected_url": url}
            refused.append(f"the template names {name}, which is no picture, font or style sheet")
        else:
            refused.append(f"the template names the picture {name}, which is no file in its folder")
        raise ValueError(f"{url} is not read")

    return fetch


def see_links(page: Any) -> None:
    """Refuses a template that would put another file into the letter as it is."""
    for it in page.etree_element.iter():
        if "attachment" in it.get("rel", "").lower().split():
            shown = "a letter shows pictures, fonts and style sheets alone"
            raise Refused(f"the template attaches {it.get('href')}: {shown}")


@contextlib.contextmanager
def all_shown(refused: list[str]) -> Iterator[None]:
    """Refuses a letter without something that it names: what was not read, or what WeasyPrint could
    not load, which it only logs."""

    def note(record: logging.LogRecord) -> bool:
        if (said := record.getMessage()).startswith("Failed to load"):
            # (without the folder of this run, which says nothing to who reads it)
            said = re.sub("'file:[^']*/", "'", said)
            refused.append(f"the template names what cannot be shown: {said}")
        return True

    logging.getLogger("weasyprint").addFilter(note)
    try:
        yield
    finally:
        logging.getLogger("weasyprint").removeFilter(note)
    if refused:
        raise Refused(refused[0])


def laid_out(pages: list[str], folder: str) -> tuple[bytes, list[int]]:
    """A PDF of letters, which are given as HTML, and how many pages each of them has."""
    from weasyprint import HTML
    from weasyprint.text.fonts import FontConfiguration

    config, letters = FontConfiguration(), []
    refused: list[str] = []
    fetch = fetcher(folder, refused)
    for it in pages:
        with all_shown(refused), inputs.within("laying out a letter"):
            page = HTML(string=it, base_url=folder + os.sep, url_fetcher=fetch)
            see_links(page)
            letters.append(page.render(font_config=config))
        if len(letters[-1].pages) > MOST_PAGES:
            raise Refused(f"a letter has {len(letters[-1].pages):,} pages by this template, and at"
                          f" most {MOST_PAGES:,} are made")
    # (pictures within pictures are loaded here)
    with all_shown(refused):
        data: bytes = letters[0].copy([page for it in letters for page in it.pages]).write_pdf()
    return data, [len(it.pages) for it in letters]


def new_file(title: str) -> Pdf:
    """A file without pages."""
    from pikepdf import Pdf, String

    pdf = Pdf.new()
    pdf.docinfo["/Title"] = String(title)
    pdf.Root["/Lang"] = String("en-GB")
    return pdf


def write(pdf: Pdf, path: str) -> None:
    """Writes a new file, without the pictures and fonts that none of its pages shows."""
    pdf.remove_unreferenced_resources()
    with open(path, "xb") as file:
        pdf.save(file, min_version="1.7")


def add_letters(printed: Pdf, source: Pdf, counts: Sequence[int], is_double: bool) -> None:
    """Adds letters of so many pages each to the file that the printer gets."""
    start = 0
    for count in counts:
        printed.pages.extend(source.pages[start : start + count])
        start += count
        if is_double and count % 2:
            printed.add_blank_page(page_size=A4)


def join(parts: Sequence[str], path: str, title: str) -> None:
    """Writes a new file of several."""
    from pikepdf import Pdf

    with contextlib.ExitStack() as stack:
        whole = stack.enter_context(new_file(title))
        for part in parts:
            whole.pages.extend(stack.enter_context(Pdf.open(part)).pages)
        write(whole, path)
