"""What is no register, or cannot be read: it is refused by name; and a limit of time."""
import contextlib
import http.server
import io
import os
import socket
import socketserver
import tempfile
import threading
import time
from pathlib import Path

import pytest
from conftest import Office
from files import register_of

from office.core import model, senders
from office.core.run import Refused
from office.files import inputs

# in CPU time, on a machine at work
SECONDS = 8
OTHER_DOCUMENT = "the program shows another document than is read here"
EMPTY = b'{"children":[],"draws":[],"schools":[{}],"season":{}}'


def test_a_limit_of_time_that_a_library_catches() -> None:
    """It is raised after each further second, and at the end where what was limited has caught it.
    """
    start, caught = time.process_time(), 0
    with pytest.raises(Refused, match="a letter takes more than 1 seconds"), inputs.within(
        "a letter", 1
    ):
        while caught < 2 and time.process_time() - start < SECONDS:
            with contextlib.suppress(Refused):
                caught += 1
                while time.process_time() - start < SECONDS:
                    pass
    assert 1.5 < time.process_time() - start < SECONDS


def test_the_parts_of_a_zip_are_counted_before_they_are_read() -> None:
    """1,000 are no more than a file of an office has; also one whose mark is read in two pieces."""
    for many in (1_000, 1_001):
        data = b"x" * (inputs.CHUNK - 2) + b"PK\x01\x02" * many
        assert inputs.has_many_parts(io.BytesIO(data)) == (many > 1_000), many


def test_a_register_for_whose_copy_there_is_no_room(
    reg: Path, monkeypatch: pytest.MonkeyPatch,
) -> None:
    """It is named as it is called, and not by its path."""
    def full(**_: object) -> object:
        raise OSError(28, "No space left on device")

    monkeypatch.setattr(tempfile, "TemporaryDirectory", full)
    with pytest.raises(Refused, match="^the copy cannot be copied, where the program opens it: No"
                                      " space left on device$"):
        register_of(reg, "the copy")


@pytest.mark.parametrize("kind", ["fifo", "socket", "device"])
def test_what_is_no_file(office: Office, reg: Path, tmp_path: Path, kind: str) -> None:
    """A FIFO, which nobody writes, a socket, or a device in place of a file of the audit: it is
    refused, and never waits.
    """
    with socket.socket(socket.AF_UNIX) as one:
        if kind == "fifo":
            os.mkfifo(tmp_path / "ODD")
        elif kind == "device":
            os.symlink("/dev/zero", tmp_path / "ODD")
        else:
            with contextlib.chdir(tmp_path):
                one.bind("ODD")
        for words in (("ODD", reg.name), (reg.name, "ODD")):
            ran = office("audit", *words, stdin="")
            assert ran.returncode == 1 and "ODD" in ran.stderr, ran
            assert "no file" in ran.stderr or "no regular file" in ran.stderr, ran
            assert "Traceback" not in ran.stderr and "error in this" not in ran.stderr, ran


class Other(socketserver.TCPServer):
    """Something that answers every request in the same way."""

    status: int
    body: bytes


class Answers(http.server.BaseHTTPRequestHandler):
    """Its answers."""

    server: Other

    def do_GET(self) -> None:  # pylint: disable=invalid-name
        """Answers."""
        self.send_response(self.server.status)
        self.end_headers()
        self.wfile.write(self.server.body)

    def log_message(self, *_: object) -> None:
        """Prints nothing."""


@pytest.mark.parametrize("status, body, said", [
    (None, b"", "cannot be read: no connection: "),
    (404, b"<html>", "/register cannot be read: the server answered with status 404"),
    (200, b"<html>\n", OTHER_DOCUMENT),
    (200, b"[]", OTHER_DOCUMENT),
    (200, EMPTY, OTHER_DOCUMENT),
])
def test_an_address_where_no_register_is_served(
    status: int | None, body: bytes, said: str
) -> None:
    """Nobody answers, or something else does: it is named by its address."""
    with Other(("127.0.0.1", 0), Answers) as server:
        server.status, server.body = status or 0, body
        thread = threading.Thread(target=server.serve_forever, daemon=True)
        thread.start()
        url = f"http://127.0.0.1:{server.server_address[1] if status else 1}"
        with pytest.raises(Refused) as refused:
            model.of_source(model.Server(senders.Http(url)))
        assert url in str(refused.value) and said in str(refused.value)
        server.shutdown()
        thread.join()
