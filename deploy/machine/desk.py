"""Whether a desk answers, by its door; its site, as a browser would reach it; and what its
application has counted."""
import contextlib
import http.client
import io
import json
import pathlib
import socket
import ssl
import time
import typing

from office.web.frame.failures import KINDS

PORT = 443
# so long an answer is waited for, and so many bytes it has at most
SECONDS, MOST_ANSWER = 10.0, 1 << 18
# what is raised where an application answers nothing, or anything
NO_ANSWER = (OSError, http.client.HTTPException, ValueError, KeyError, TypeError, AttributeError,
             OverflowError, RecursionError)


class Counts(typing.NamedTuple):
    """What an application has counted since it began: its answers by their status, and the sign-ins
    that failed by what they were made by."""

    requests: dict[str, int]
    sign_ins_failed: dict[str, int]


def status_of(path: pathlib.Path) -> int | None:
    """The status of its answer to a request that reads the register (200, or 404 before the first
    round), or None where it gives none."""
    with contextlib.suppress(OSError, ValueError, IndexError):
        with socket.socket(socket.AF_UNIX) as it:
            answer = answered(it, path, b"GET /round/1 HTTP/1.1\r\n\r\n", b"\r\n")
            return int(answer.split(b" ", 2)[1])
    return None


def answered(it: socket.socket, path: pathlib.Path, request: bytes, end: bytes = b"") -> bytes:
    """The answer to a request up to its end, or until the connection ends. One that takes too long
    or has too much is an error."""
    last, answer = time.monotonic() + SECONDS, b""
    it.settimeout(SECONDS)
    it.connect(str(path))
    it.sendall(request)
    while not (end and end in answer) and (piece := it.recv(4096)):
        answer += piece
        if len(answer) > MOST_ANSWER or time.monotonic() > last:
            raise TimeoutError(f"{path} answers without end")
        it.settimeout(max(0.01, last - time.monotonic()))
    return answer


def site_status_of(host: str) -> tuple[int, bytes]:
    """The status of the site's answer over TLS to a request of nobody, and the certificate that it
    shows. The certificate is not judged here: one for a trial is as good. OSError or HTTPException
    where there is no answer.
    """
    context = ssl.create_default_context()
    context.check_hostname = False
    context.verify_mode = ssl.CERT_NONE
    with socket.create_connection(("127.0.0.1", PORT), 10) as bare, context.wrap_socket(
        bare, server_hostname=host
    ) as secure:
        secure.sendall(f"GET / HTTP/1.1\r\nHost: {host}\r\nConnection: close\r\n\r\n".encode())
        answer = http.client.HTTPResponse(secure)
        answer.begin()
        return answer.status, secure.getpeercert(binary_form=True) or b""


class Told:
    """An answer that is here, where HTTPResponse reads a socket."""

    def __init__(self, data: bytes) -> None:
        self.data = data

    def makefile(self, _: str) -> io.BytesIO:
        return io.BytesIO(self.data)


def counts_of(path: pathlib.Path) -> Counts:
    """What the application at a socket has counted. One of NO_ANSWER where it does not say."""
    with socket.socket(socket.AF_UNIX) as it:
        data = answered(
            it, path, b"GET /counts HTTP/1.1\r\nHost: localhost\r\nConnection: close\r\n\r\n")
    answer = http.client.HTTPResponse(typing.cast(socket.socket, Told(data)))
    answer.begin()
    found = json.loads(answer.read()) if answer.status == 200 else {"requests": {}}
    # (no label has what the application makes up)
    failed = {kind: int(found.get("sign_ins_failed", {}).get(kind, 0)) for kind in KINDS}
    requests = {f"{int(status)}": int(it) for status, it in found["requests"].items()}
    return Counts(requests, failed)
