"""Files that a browser sends: a sheet as its rows, and a copy of a register, of which nothing
remains.
"""
import io
import pathlib
import re
import tempfile
import threading
from typing import IO, Any

import flask
from register_files import Refused
from werkzeug import formparser
from werkzeug.datastructures import FileStorage, Headers
from werkzeug.exceptions import BadRequest, RequestEntityTooLarge
from werkzeug.formparser import FormDataParser
from werkzeug.sansio.multipart import Event, Field, File, MultipartDecoder

from office.core import model, plain, turns
from office.core.model import Register
from office.files import file_kinds, inputs, sheet_apart
from office.files import processes as apart
from office.files.sheet import Row
from office.web.applications import gazetteer_rows
from office.web.people.roles import LOTS, RECORD, Person

# (what a browser says of its name is not needed, and may be anything)
NAME = "the file"
ADVICE = "leave one that is not empty"
MOST_SHOWN = 5
REGISTER = b"SQLite format 3\0"
# the only address that takes more than all others: for a file, and what a form has beside it
LARGE, MOST_LARGE = "/applications/gazetteer/file", gazetteer_rows.MOST_BYTES + (1 << 16)
# a form has a field for each child of a set of letters, and some more. Each costs some
# microseconds, and a body of the size of an Excel file could have millions
FORM, FILES, MOST_FIELDS = "application/x-www-form-urlencoded", "multipart/form-data", 30_000
# who records nothing and seals no lots sends ticks and words
SMALL_BYTES, SMALL_FIELDS = 1_000_000, 2_000
# a longer form costs some times its size, so few are read at once
LONG = turns.Turn(threading.BoundedSemaphore(2), "others have sent much")
# somebody who is not signed in sends a name and a password, or what was typed in a session that
# has ended
NOBODY_BYTES, NOBODY_FIELDS = 100_000, 500
# some versions of the library read a header in a time that grows with the square of a run of
# blanks in it. These it reads, and no browser sends one so long (a cookie may be longer), or with
# such a run
SHORT = ("CONTENT_TYPE", "HTTP_RANGE", "HTTP_IF_RANGE", "HTTP_IF_MATCH", "HTTP_IF_NONE_MATCH",
         "HTTP_IF_MODIFIED_SINCE", "HTTP_IF_UNMODIFIED_SINCE")
COOKIES, MOST_HEADER, RUN = "HTTP_COOKIE", 200, re.compile(r"\s{3}")
# nor one that names an encoding, of which the library may know none
ENCODED = r"\*\d*\s*="
# the headers of a part of a form: with the name of a file, which may have some blanks
MOST_PART, PART_WRONG = 2_000, re.compile(rf"\s{{20}}|{ENCODED}")
UNREADABLE = ("the form cannot be read: send it again by a page of this site. If it has a file,"
              " give the file a short name first")
# what cannot be taken apart yet is looked through again with each further part of a form: so many
# bytes of it are kept
MOST_KEPT = 1 << 18


def is_small(person: Person) -> bool:
    """Whether somebody sends no files and no long forms."""
    return not (person.is_program or person.may(RECORD) or person.may(LOTS))


def wrong_headers(environ: dict[str, Any]) -> list[str]:
    """The headers of a request that the library is not to read."""
    given = {name: environ[name] for name in (*SHORT, COOKIES) if name in environ}
    return [name for name, text in given.items()
            if RUN.search(text) or name != COOKIES and (
                len(text) > MOST_HEADER or re.search(ENCODED, text))]


class Parts(MultipartDecoder):
    """Takes a form with files apart, but for what no browser sends: some headers of a part, a part
    without a name, and a boundary within a line. Each field is read as UTF-8, whatever a part says
    of it.
    """

    def receive_data(self, data: bytes | None) -> None:
        """Takes some more of the form."""
        if len(self.buffer) > MOST_KEPT:
            raise BadRequest(UNREADABLE)
        super().receive_data(data)

    def next_event(self) -> Event:
        """What comes next in the form."""
        found = super().next_event()
        if isinstance(found, (Field, File)) and found.name is None:
            raise BadRequest(UNREADABLE)
        return found

    def _parse_headers(self, data: bytes) -> Headers:
        """The headers of a part."""
        if len(data) > MOST_PART or PART_WRONG.search(data.decode("utf-8", "replace")):
            raise BadRequest(UNREADABLE)
        found: Headers = super()._parse_headers(data)
        found.remove("Content-Type")
        return found


# (the library has no other way to name what takes a form apart)
setattr(formparser, "MultipartDecoder", Parts)


class Fields(FormDataParser):
    """Reads forms, but for one of so many fields that no page has them."""

    most_fields = MOST_FIELDS

    def parse(
        self, stream: IO[bytes], mimetype: str, content_length: int | None,
        options: Any = None,
    ) -> Any:
        """The fields and files of a body."""
        length = content_length or 0
        # (the library takes it to be there)
        if mimetype == FILES and not (options or {}).get("boundary"):
            raise BadRequest(UNREADABLE)
        if mimetype != FORM or length > (self.max_content_length or 0):
            # (the library has another name of such forms, which no browser sends)
            kind = mimetype if mimetype in (FORM, FILES) else ""
            return super().parse(stream, kind, content_length, options)
        if length <= SMALL_BYTES:
            return self.fields_of(stream, length, options)
        with LONG:
            return self.fields_of(stream, length, options)

    def fields_of(self, stream: IO[bytes], length: int, options: Any) -> Any:
        """The fields of a form of so many bytes."""
        data = stream.read(length)
        if data.count(b"&") >= self.most_fields:
            raise RequestEntityTooLarge
        return super().parse(io.BytesIO(data), FORM, len(data), options)


class Request(flask.Request):
    """A request, whose body is bounded by who sends it, and where."""

    form_data_parser_class = Fields

    def __init__(self, environ: dict[str, Any], *given: Any, **more: Any) -> None:
        # (the session is read before anything can be refused)
        self.wrong_headers = wrong_headers(environ)
        for name in self.wrong_headers:
            del environ[name]
        super().__init__(environ, *given, **more)

    @property
    def most_fields(self) -> int:
        """How many fields a form has at most."""
        found: Person | None = flask.g.get("person")
        if not found:
            return NOBODY_FIELDS
        return SMALL_FIELDS if is_small(found) else MOST_FIELDS

    def make_form_data_parser(self) -> FormDataParser:
        """What reads a form."""
        made = super().make_form_data_parser()
        assert isinstance(made, Fields)
        made.most_fields = self.most_fields
        return made

    @property
    def max_content_length(self) -> int | None:
        """How many bytes its body has at most."""
        found: Person | None = flask.g.get("person")
        if not found:
            return NOBODY_BYTES
        # (the body is read before it is refused what the person may not do)
        if is_small(found):
            return SMALL_BYTES
        is_large = self.path == LARGE and found.may(RECORD)
        return MOST_LARGE if is_large else super().max_content_length

    @max_content_length.setter
    def max_content_length(self, value: int | None) -> None:
        """(Later versions of the library set it.)"""
        raise AttributeError("the application sets it")


def bytes_of(given: FileStorage | None) -> bytes:
    """What a file has, or a refusal where none was chosen."""
    if given is None or not given.filename:
        raise Refused("choose a file first")
    data: bytes = given.read(inputs.MOST_REGISTER_BYTES + 1)
    if not data.strip():
        raise Refused(f"{NAME} is empty")
    return data


def rows_of(given: FileStorage | None) -> list[Row]:
    """The rows of an uploaded Excel file or CSV."""
    data = bytes_of(given)
    if len(data) > inputs.MOST_BYTES:
        most = f"a file has at most {inputs.MOST_BYTES // inputs.MB} MB here"
        raise Refused(f"{NAME} is too large: {most}")
    found = sheet_apart.read(NAME, data, None, ADVICE)
    if found.is_decoded:
        # (which letters it has would be a guess, and nobody is asked whether it is right)
        raise Refused(f"{NAME} is not in UTF-8: save it as .xlsx or as CSV UTF-8")
    wrong = [f"row {row}: {said}" for row, _, said, is_error in found.problems if is_error]
    if wrong:
        raise Refused(f"{NAME} has cells that cannot be read: {'; '.join(wrong[:MOST_SHOWN])}")
    return found.rows


def register_of(given: FileStorage | None, called: str = NAME) -> Register:
    """The register of an uploaded copy, as it was when it was closed last. Nothing of the file
    remains. Errors name it as it is called.
    """
    data = bytes_of(given)
    if not data.startswith(REGISTER):
        what = file_kinds.of_bytes(data) or "a text or another file"
        raise Refused(f"{called} is no copy of a register: it is {what}")
    if len(data) > inputs.MOST_REGISTER_BYTES:
        raise Refused(f"{called} is larger than any register")
    with apart.AT_ONCE, tempfile.TemporaryDirectory(prefix="admissions-") as room:
        path = pathlib.Path(room) / "copy.db"
        path.touch(0o600)
        path.write_bytes(data)
        return model.read_stored(str(path), plain.program(), called)
