"""Letters laid out in a process of its own, with limits of time and memory: a template is from
people, and one that does not end, or fills the memory, ends that process alone.

The process is given its work as JSON, and answers with JSON; the PDF is in a file. It has a folder
for itself, with the pictures of the template and nothing else, which is all that a letter can show.
"""
import contextlib
import ctypes
import dataclasses
import datetime
import faulthandler
import importlib
import io
import json
import os
import re
import resource
import signal
import subprocess
import sys
import tempfile
import threading
import warnings
from collections.abc import Callable, Sequence
from typing import TYPE_CHECKING, Any

import register_files
from register_files import Refused

from office.core import libraries, turns
from office.files import book, inputs
from office.files import processes as apart
from office.files.book import Page

from . import fields
from . import pdf as letter_pdf
from .fields import Cell, Letter

if TYPE_CHECKING:
    from pikepdf import Pdf

PR_SET_PDEATHSIG = 1
# seconds of CPU time for one batch of letters, and of wall-clock time on a busy machine
SECONDS, MOST_SECONDS = 120, 900
MOST_MEMORY, MOST_FILE = 1_500 * inputs.MB, 200 * inputs.MB
# more pages than any letter has, and more points of a picture than a printer shows
MOST_PAGES, MOST_POINTS = 12, 20_000_000
# so many processes at once: the others wait
AT_ONCE = turns.Turn(threading.BoundedSemaphore(2), "other letters are being laid out")
BEGIN = ("import sys; sys.path[:0] = sys.argv[1:]; from office.web.letters import apart;"
         " apart.main()")
DRAFT = "DRAFT"
STAMP = f"""<style>@page {{ size: A4; margin: 0 }}
p {{ position: absolute; top: 110mm; left: 5mm; width: 200mm; margin: 0; text-align: center;
font: bold 96pt "DejaVu Sans", sans-serif; letter-spacing: 8mm; color: rgba(160, 0, 0, .22);
transform: rotate(-40deg) }}
b {{ position: absolute; top: 3mm; left: 0; width: 210mm; text-align: center;
font: bold 9pt "DejaVu Sans", sans-serif; color: #a00000 }}</style>
<p>{DRAFT}</p><b>{DRAFT}: not to be sent</b>"""
# of what the process prints before it makes letters, and of where it was when it was ended
LINES, FRAME = "lines ", re.compile(r'File "<template>", line ([0-9]+) in')


@dataclasses.dataclass(frozen=True)
class Source:
    """A template: what errors call it, its text, its pictures by their names, and the values that
    are the same in all letters by it.
    """

    name: str
    text: str
    pictures: dict[str, bytes]
    values: dict[str, object] = dataclasses.field(default_factory=dict)


@dataclasses.dataclass(frozen=True)
class Form:
    """How letters are laid out: with the mark of a draft on each page; and each on a new sheet of
    paper that is printed on both sides.
    """

    is_draft: bool = False
    is_double: bool = False


@dataclasses.dataclass(frozen=True)
class Made:
    """What was made: the letters as HTML, and how many pages each has."""

    texts: list[str]
    pages: list[int]


class Running:
    """The process of a work, which somebody can end."""

    def __init__(self) -> None:
        self.lock, self.is_ended = threading.Lock(), False
        self.process: subprocess.Popen[bytes] | None = None

    def begin(self, process: subprocess.Popen[bytes]) -> None:
        """Takes the process, which is ended at once where that was wanted before."""
        with self.lock:
            self.process = process
            if self.is_ended:
                process.kill()

    def end(self) -> None:
        """Ends the process."""
        with self.lock:
            self.is_ended = True
            if self.process is not None and self.process.poll() is None:
                self.process.kill()


def letters(
    source: Source, given: list[tuple[Letter, list[str]]], day: datetime.date, form: Form,
    path: str, running: Running | None = None,
) -> Made:
    """Makes the PDF of letters with their addresses in a new file."""
    rows = [[fields.text_of(it), address] for it, address in given]
    work = {"what": "letters", "letters": rows, "day": day.isoformat()}
    return made(source, {**work, **dataclasses.asdict(form)}, path, running)


def again(source: Source, texts: list[str], form: Form, path: str) -> Made:
    """Makes the PDF of letters that are there as HTML."""
    return made(source, {"what": "again", "texts": texts, **dataclasses.asdict(form)}, path)


def whole(parts: list[str], path: str, title: str, running: Running | None = None) -> None:
    """Makes one PDF of several."""
    ran({"what": "whole", "parts": parts, "path": path, "title": title}, {}, running)


def merge(
    rows: Sequence[Sequence[Cell]], purpose: str, path: str, running: Running | None = None,
) -> None:
    """Makes the Excel file of a mail merge: all cells are texts."""
    cells = [["" if it is None else str(it) for it in row] for row in rows]
    ran({"what": "merge", "cells": cells, "purpose": purpose, "path": path}, {}, running)


def made(source: Source, work: dict[str, Any], path: str, running: Running | None = None) -> Made:
    """What a work has made of a template."""
    given = {**work, "path": path, "name": source.name, "template": source.text,
             "values": source.values}
    found = ran(given, source.pictures, running)
    return Made(found["texts"], found["pages"])


def ran(
    work: dict[str, Any], pictures: dict[str, bytes], running: Running | None = None,
) -> dict[str, Any]:
    """The answer to a work, or its refusal."""
    with AT_ONCE, tempfile.TemporaryDirectory(prefix="admissions-") as room:
        folder = os.path.join(room, "pictures")
        os.mkdir(folder)
        for name, data in pictures.items():
            with open(os.path.join(folder, name), "xb") as file:
                file.write(data)
        asked = json.dumps({**work, "folder": folder, "scratch": room, "parent": os.getpid()})
        status, out, errors = process(asked.encode(), running or Running())
    with contextlib.suppress(ValueError):
        found: dict[str, Any] = json.loads(out)
        if "refused" in found:
            raise Refused(str(found["refused"]))
        return found
    raise Refused(ending(status, errors.decode("utf-8", "replace"), str(work.get("name", ""))))


def process(asked: bytes, running: Running) -> tuple[int, bytes, bytes]:
    """How a process ended, and what it printed."""
    places = [os.path.dirname(it) for it in (apart.HERE, os.path.abspath(register_files.__file__))]
    words = [sys.executable, "-I", "-B", "-c", BEGIN, *places]
    with subprocess.Popen(
            words, stdin=subprocess.PIPE, stdout=subprocess.PIPE, stderr=subprocess.PIPE,
            env=apart.ENVIRONMENT) as run:
        running.begin(run)
        try:
            out, errors = run.communicate(asked, timeout=MOST_SECONDS)
        except subprocess.TimeoutExpired:
            run.kill()
            out, errors = run.communicate()
            return -signal.SIGXCPU, out, errors
    return run.returncode, out, errors


def ending(status: int, errors: str, name: str) -> str:
    """Why there is no answer, with the line of the template at which the process was."""
    lines = dict(json.loads(it.removeprefix(LINES)) for it in errors.splitlines()
                 if it.startswith(LINES))
    frame = FRAME.search(errors)
    at = max((it for it in lines if frame and it <= int(frame[1])), default=None)
    where = f"{name}, line {lines[at]}" if at else name or "the file"
    if status == -signal.SIGXCPU:
        return f"{where}: the letters take more than {SECONDS} seconds"
    if status in apart.MEMORY or "MemoryError" in errors:
        return f"{where}: the letters take too much memory"
    return f"{where}: the letters were ended with status {status}"


# what the process does


def main() -> None:
    """Does the work that is asked, and prints the answer."""
    asked = json.loads(sys.stdin.buffer.read())
    ctypes.CDLL(None).prctl(PR_SET_PDEATHSIG, signal.SIGKILL)
    if os.getppid() != asked["parent"]:
        return
    apart.end_first()
    for name, most in (("RLIMIT_AS", MOST_MEMORY), ("RLIMIT_FSIZE", MOST_FILE),
                       ("RLIMIT_CORE", 0)):
        resource.setrlimit(getattr(resource, name), (most, most))
    # (an operation that does not return to Python is ended too, and says where it was)
    faulthandler.register(signal.SIGXCPU, chain=True)
    resource.setrlimit(resource.RLIMIT_CPU, (SECONDS, SECONDS + 5))
    tempfile.tempdir = asked["scratch"]
    try:
        found = WORKS[asked["what"]](asked)
    except Refused as error:
        found = {"refused": str(error)}
    except OSError as error:
        # (the text of an OSError has the path, which says nothing to an officer)
        found = {"refused": f"a file cannot be written: {error.strerror or error}"}
    except MemoryError:
        found = {"refused": f"{asked.get('name', 'the file')}: the letters take too much memory"}
    except ImportError as error:
        found = {"refused": libraries.missing_for_officer(error.name)}
    except Exception as error:  # pylint: disable=broad-except
        found = {"refused": f"a letter is not laid out: {type(error).__name__}: {error}"}
    print(json.dumps(found))


def make_letters(asked: dict[str, Any]) -> dict[str, Any]:
    """Makes letters by a template."""
    name, day = asked["name"], datetime.date.fromisoformat(asked["day"])
    template = letter_pdf.template_of(name, asked["template"].encode())
    for at in template.debug_info:
        # (pairs of a line of the template and one of the code that is made of it)
        print(f"{LINES}{json.dumps([at[1], at[0]])}", file=sys.stderr, flush=True)
    texts = [letter_pdf.html_of(template, name, fields.of_text(it), address, day,
                                asked["values"])
             for it, address in asked["letters"]]
    return laid_out({**asked, "texts": texts})


def laid_out(asked: dict[str, Any]) -> dict[str, Any]:
    """Lays out letters that are there as HTML."""
    # (of the library that reads them; it warns of larger ones, and an error follows of that)
    pictures: Any = importlib.import_module("PIL.Image")
    pictures.MAX_IMAGE_PIXELS = MOST_POINTS
    warnings.simplefilter("error", pictures.DecompressionBombWarning)
    texts = asked["texts"]
    letter_pdf.MOST_PAGES = MOST_PAGES
    data, pages = letter_pdf.laid_out(texts, asked["folder"])
    write(data, pages, asked)
    return {"texts": texts if asked["what"] == "letters" else [], "pages": pages}


def write(data: bytes, pages: list[int], asked: dict[str, Any]) -> None:
    """Writes the PDF in the form that is asked."""
    # pylint: disable=import-outside-toplevel
    from pikepdf import Pdf

    with Pdf.open(io.BytesIO(data)) as source, letter_pdf.new_file("Letters") as pdf:
        letter_pdf.add_letters(pdf, source, pages, asked["is_double"])
        if asked["is_draft"]:
            stamp(pdf)
        letter_pdf.write(pdf, asked["path"])


def stamp(pdf: "Pdf") -> None:
    """Puts the mark of a draft above all that a page has."""
    # pylint: disable=import-outside-toplevel
    from pikepdf import Pdf, Rectangle
    from weasyprint import HTML

    with Pdf.open(io.BytesIO(HTML(string=STAMP).write_pdf())) as mark:
        for page in pdf.pages:
            page.add_overlay(mark.pages[0], Rectangle(page.trimbox))


def join(asked: dict[str, Any]) -> dict[str, Any]:
    """Makes one PDF of several."""
    letter_pdf.join(asked["parts"], asked["path"], asked["title"])
    return {}


def write_merge(asked: dict[str, Any]) -> dict[str, Any]:
    """Writes the Excel file of a mail merge."""
    page = Page("letters", asked["purpose"], asked["cells"], {}, True)
    with open(asked["path"], "xb") as file:
        file.write(book.data([page], asked["purpose"]))
    return {}


WORKS: dict[str, Callable[[dict[str, Any]], dict[str, Any]]] = {
    "letters": make_letters, "again": laid_out, "whole": join, "merge": write_merge,
}
