"""How lines reach a register that is served, one at a time, and what is read from it."""
import http.client
import signal
import socket
import urllib.parse

from register_files import Refused

from . import commands

ANSWER_SECONDS = 120
JSON, CSV = "application/json", "text/csv"
# the answers that are those of a desk, and not of a site before it
STATUSES = (200, 400, 409, 503)
ANSWERS = {"done", "refused", "fault", "memory", "failed"}
ENDS = {
    signal.SIGKILL: "it was killed, often because memory ran out",
    signal.SIGXFSZ: "a file may not become larger (ulimit -f)",
    signal.SIGXCPU: "it may not run longer (ulimit -t)",
}


def ending(status: int) -> str:
    """What ended a program, by its status: a negative one is that of a signal."""
    if status >= 0:
        return f"the program ended with status {status}"
    try:
        number = signal.Signals(-status)
    except ValueError:
        return f"the program was ended by the signal {-status}"
    if number in ENDS:
        return f"the program ended early: {ENDS[number]}"
    return f"the program was ended by the signal {number.name}"


class Ended(Exception):
    """No answer came. Whether the line may be done all the same."""

    def __init__(self, text: str, is_open: bool = True) -> None:
        super().__init__(text)
        self.is_open = is_open


def refusal(status: int) -> str:
    """What is said where a desk does not answer as it should."""
    return f"the server answered with status {status}"


class Http:
    """A desk that serves a register on this machine: one request for each line."""

    # how errors name it where it is no address that their reader knows
    called = ""

    def __init__(self, url: str) -> None:
        parts = urllib.parse.urlsplit(url)
        self.url, self.host, self.port = url, parts.hostname or "", parts.port or 80

    def named(self, path: str = "") -> str:
        """How errors name it, or what is read from it."""
        return self.called or f"{self.url}{path}"

    def connection(self, seconds: float) -> http.client.HTTPConnection:
        """A connection that is not open yet."""
        return http.client.HTTPConnection(self.host, self.port, timeout=seconds)

    def ask(
        self, method: str, path: str, body: bytes | None = None, kind: str = JSON,
        seconds: float = ANSWER_SECONDS,
    ) -> tuple[int, bytes]:
        """The status and the body of a response, for which it waits so long."""
        conn = self.connection(seconds)
        try:
            conn.connect()
        except OSError as error:
            said = error.strerror or error
            raise Ended(f"no connection: {said}", False) from error
        try:
            conn.request(method, path, body, {"Content-Type": kind})
            response = conn.getresponse()
            return response.status, response.read()
        except (OSError, http.client.HTTPException) as error:
            raise Ended(f"the connection broke: {error}") from error
        finally:
            conn.close()

    def send(self, line: bytes) -> bytes:
        """The answer to a line."""
        return self.answer("/command", line)

    def imported(self, rows: bytes) -> bytes:
        """The answer to the rows of an import."""
        return self.answer("/import", rows, CSV)

    def answer(self, path: str, body: bytes, kind: str = JSON) -> bytes:
        """The answer of a desk."""
        status, given = self.ask("POST", path, body, kind)
        answer = given.rstrip(b"\n")
        value = commands.read(answer)
        if status in STATUSES and isinstance(value, dict) and ANSWERS & set(value):
            return answer
        raise Ended(refusal(status), status >= 500)

    def read(self, path: str) -> bytes:
        """The body of what is read at a path, or a refusal where there is none."""
        try:
            status, body = self.ask("GET", path)
        except Ended as error:
            raise Refused(f"{self.named()} cannot be read: {error}") from error
        if status != 200:
            raise Refused(f"{self.named(path)} cannot be read: {refusal(status)}")
        return body


class UnixConnection(http.client.HTTPConnection):
    """A connection by the name of a socket."""

    def __init__(self, path: str, seconds: float) -> None:
        super().__init__("127.0.0.1", timeout=seconds)
        self.path, self.seconds = path, seconds

    def connect(self) -> None:
        """Opens it."""
        self.sock = socket.socket(socket.AF_UNIX, socket.SOCK_STREAM)
        self.sock.settimeout(self.seconds)
        self.sock.connect(self.path)


class Door(Http):
    """The desk behind a socket of this machine."""

    def __init__(self, path: str) -> None:
        super().__init__("http://127.0.0.1")
        self.path = path

    def connection(self, seconds: float) -> http.client.HTTPConnection:
        """A connection that is not open yet."""
        return UnixConnection(self.path, seconds)
