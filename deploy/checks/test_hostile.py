"""What somebody hostile sends to the site and to the office's application behind it: odd addresses,
methods and fields, requests within requests, HTTP/2 by hand, long bodies, and names that would be
more than a name."""

import contextlib
import itertools
import json
import re
import socket
import ssl
import struct
import urllib.parse
from collections.abc import Iterator

import pytest

from checks.commands import amendment
from checks.raw import raw, status_of
from checks.world import FORM, NAME, World, basic

ORIGIN = f"https://{NAME}"
# Nobody has an offer of this school: it is refused, and is in the history with that
COMMAND = '{"cmd":"accept","child":2,"school":"D"}'
NOT_DONE = '"NotOffered"'
# What only who may read it gets: names of children, the register, and a list
OF_CHILDREN = re.compile('Ada Abel|Ben Bell|Cyd Cole|"children"|"place"|Waiting list|<nav')


# Odd addresses, without a sign-in and of the program of a school


ODD_PATHS = (
    "//", "/./register", "/register/", "/people/../register", "/%72egister", "/register%00",
    "/register?x", "/REGISTER", "/register;x", "/child/1/", "/child/01", "/child/+1", "/child/1.0",
    "/child/1%2fletter", "/child/1/letter/", "/\\register", "/..%2fregister",
    "/sign-in/../register", "/ui.css/../register", "/ui.css%2f..%2fregister",
    "/ui.css?/register", "/signed-in", "/..%2f..%2fetc/passwd", "/../../etc/passwd",
    "/ui.css%00.html", "/.git/config", "/office.db", "/static/pile.js", "/index.html",
    "/child/1%0d%0aX:%20y", "/school//waiting", "/school/./waiting", "/school/%2e%2e/register",
    f"{ORIGIN}/register", f"{ORIGIN}/child/1", "*", "https://evil.example/register", "/draw/1%20",
    "/pairs/", "/what-if", "/\x01", "/\xff\xfe",
)


@pytest.mark.parametrize("path", ODD_PATHS)
@pytest.mark.parametrize("who", ["", "lists"])
def test_by_an_odd_address_nobody_reads_what_is_not_theirs(
        world: World, who: str, path: str) -> None:
    answer = raw(world, f"GET {path}", *([world.field(who)] if who else []))
    # (the file of the screens is everybody's)
    is_own = path == "/ui.css?/register"
    assert status_of(answer) in ((200,) if is_own else (302, 308, 400, 401, 403, 404, 405, 421))
    assert OF_CHILDREN.search(answer) is None


METHODS = ("POST", "PUT", "PATCH", "DELETE", "OPTIONS", "TRACE", "CONNECT", "PROPFIND", "HEAD",
           "get", "GETT")


@pytest.mark.parametrize("method", METHODS)
@pytest.mark.parametrize("who", ["", "lists"])
@pytest.mark.parametrize("path", ["/child/2", "/school/B/waiting", "/register"])
def test_by_another_method_nobody_reads_what_is_not_theirs(
        world: World, path: str, who: str, method: str) -> None:
    fields = ["Content-Length: 0", f"Origin: {ORIGIN}", "Content-Type: application/json"]
    answer = raw(world, f"{method} {path}", *fields, *([world.field(who)] if who else []))
    # (which methods an address takes is no secret)
    assert status_of(answer) in (400, 401, 403, 404, 405) or method == "OPTIONS"
    assert OF_CHILDREN.search(answer) is None


# Fields by which some servers take another method, address, name or sender
OVERRIDES = (
    "X-HTTP-Method-Override: POST", "X-Original-URL: /child/2", "X-Rewrite-URL: /child/2",
    "PATH_INFO: /child/2", "SCRIPT_NAME: /school", "X-Script-Name: /x", "X-Forwarded-Prefix: /x",
    "X-Forwarded-User: jane", "Remote-User: jane", "X-Remote-User: jane", "REMOTE_USER: jane",
    "X-Forwarded-For: 127.0.0.1", "X-Forwarded-Host: evil.example", "X-Forwarded-Proto: http",
    "X-Real-IP: 127.0.0.9", "Forwarded: for=127.0.0.1;host=evil.example",
    "X-Accel-Redirect: /register",
)


@pytest.mark.parametrize("field", OVERRIDES)
def test_a_field_of_a_head_gives_nobody_another_address_or_name(world: World, field: str) -> None:
    own = raw(world, "GET /school/A/waiting", world.field("lists"), field)
    assert (status_of(own), "Waiting list of A Alpha" in own) == (200, True)
    for who, path, status in (("lists", "/child/2", 403), ("", "/child/2", 401),
                              ("", "/signed-in", 404)):
        answer = raw(world, f"GET {path}", field, *([world.field(who)] if who else []))
        assert (status_of(answer), OF_CHILDREN.search(answer)) == (status, None)


def test_nobody_gets_more_tries_by_a_field_that_names_another_address(world: World) -> None:
    """The site itself says from where a sign-in comes."""
    said = []
    for number in range(12):
        answer = world.sign_in("nobody", "wrong", "--interface", "127.0.2.70", "--header",
                               f"X-Real-IP: 127.0.9.{number}", "--header",
                               f"X-Forwarded-For: 127.0.9.{number}")
        said.append(re.findall('role="alert">([^<]*)<', answer.body)[0])
    assert said[:5] == ["The name or the password is wrong."] * 5
    assert any(it.startswith("Too many attempts failed.") for it in said[5:])


# Odd sign-ins


def wrong_fields(world: World) -> dict[str, str]:
    """Fields that sign nobody in: none has the token of a program with its name."""
    token = world.passwords["robot"]
    right = basic("robot", token).split()[-1]
    return {
        "no token": basic("robot", ""), "the token of another name": basic("jane", token),
        "one that is too short": basic("robot", token[:-1]),
        "one that is too long": basic("robot", f"{token}x"),
        "other letters": basic("robot", token.swapcase()),
        "another name by a case": basic("Robot", token),
        "a blank before the name": basic(" robot", token),
        "a zero byte": basic("robot\0", token), "a colon too many": basic("robot:", token),
        "a session as a token": basic("jane", world.session("jane")),
        "a password as a token": basic("jane", world.passwords["jane"]),
        "a query": basic("' OR kind='program' --", token), "no text": basic("\xff\xfe", token),
        "another scheme": f"Authorization: Bearer {right}",
        "a bearer's token": f"Authorization: Bearer {token}",
        "a digest": f'Authorization: Digest username="robot", response="{token}"',
        "a scheme alone": "Authorization: Basic", "nothing": "Authorization:",
        "no base 64": "Authorization: Basic robot:" + token, "signs": "Authorization: Basic ====",
        "another field": f"Proxy-Authorization: Basic {right}",
        "in a cookie": f"Cookie: Authorization=Basic {right}",
    }


def test_what_is_no_token_of_a_program_signs_nobody_in(world: World) -> None:
    statuses = {what: status_of(raw(world, "GET /child/1", field))
                for what, field in wrong_fields(world).items()}
    assert len(statuses) >= 16
    assert {what: it for what, it in statuses.items() if it not in (400, 401)} == {}


def test_the_scheme_of_a_token_may_be_in_other_letters(world: World) -> None:
    value = basic("robot", world.passwords["robot"]).split()[-1]
    for scheme in ("basic", "BASIC"):
        answer = raw(world, "GET /child/1", f"Authorization: {scheme} {value}")
        assert status_of(answer) == 200


@pytest.mark.parametrize("to", [
    "https://evil.example/", "//evil.example/", "/\\evil.example/", "\\\\evil.example", "evil",
    "javascript:alert(1)", "///evil.example", "https:evil.example", "/\t/evil.example",
    "/\r\nX-Evil: 1"])
def test_a_sign_in_leads_to_this_site_alone(world: World, to: str) -> None:
    form = {"name": "sup", "password": world.passwords["sup"], "to": to}
    answer = world.ask("/sign-in", None, urllib.parse.urlencode(form), kind=FORM)
    assert answer.status in (303, 400)
    if answer.status == 303:
        place = urllib.parse.urljoin(f"{ORIGIN}/sign-in", answer.fields["location"])
        assert place.startswith(f"{ORIGIN}/")
        assert not answer.fields["location"].startswith(("//", "/\\", "/\t"))
    assert "x-evil" not in answer.fields


# Other hosts


def sent(world: World, data: bytes) -> str:
    """What is answered to bytes, until the site closes the connection or says nothing for some
    seconds."""
    with world.connect() as it:
        it.sendall(data)
        it.settimeout(3)
        pieces = []
        with contextlib.suppress(OSError):
            while piece := it.recv(65536):
                pieces.append(piece)
        return b"".join(pieces).decode("latin-1")


def statuses_of(answer: str) -> list[int]:
    """The statuses of all answers."""
    return [int(it) for it in re.findall(r"HTTP/1\.[01] ([0-9]{3}) ", answer)]


@pytest.mark.parametrize("head", [
    "GET /child/1 HTTP/1.1\r\nHost: evil.example\r\n", "GET /child/1 HTTP/1.1\r\nHost: \r\n",
    "GET /child/1 HTTP/1.1\r\n", "GET /child/1 HTTP/1.0\r\n",
    f"GET /child/1 HTTP/1.1\r\nHost: {NAME}\r\nHost: evil.example\r\n",
    f"GET /child/1 HTTP/1.1\r\nHost: evil.example\r\nHost: {NAME}\r\n",
    f"GET https://evil.example/child/1 HTTP/1.1\r\nHost: {NAME}\r\n",
    f"GET /child/1 HTTP/1.1\r\nHost: {NAME}.evil.example\r\n",
    f"GET /child/1 HTTP/1.1\r\nHost: {NAME}/x\r\n",
])
def test_a_request_for_another_host_is_refused_to_who_is_signed_in(
        world: World, head: str) -> None:
    answer = sent(world, f"{head}{world.field('jane')}\r\nConnection: close\r\n\r\n".encode())
    assert statuses_of(answer) in ([400], [421])


def test_without_a_name_there_is_no_tls(world: World) -> None:
    context = ssl.create_default_context(cafile=str(world.certificate))
    context.check_hostname = False
    with (socket.create_connection(("127.0.0.1", world.site_port), timeout=10) as it,
          pytest.raises(ssl.SSLError)):
        context.wrap_socket(it)


# Fields that are there twice


@pytest.mark.parametrize("fields", [
    ("Origin: https://evil.example", f"Origin: {ORIGIN}"), ("Origin: null", f"Origin: {ORIGIN}"),
    (f"Origin: {ORIGIN}, https://evil.example",), (f"Origin: https://evil.example, {ORIGIN}",),
])
def test_a_command_with_two_origins_is_refused(world: World, fields: tuple[str, ...]) -> None:
    """(Of two fields some versions of nginx take the first; a browser sends one.)"""
    answer = raw(world, "POST /command", world.field("robot"), *fields,
                 "Content-Type: application/json", f"Content-Length: {len(COMMAND)}", "", COMMAND)
    assert status_of(answer) in (400, 403)


@pytest.mark.parametrize("kinds", [("application/json", "text/plain"),
                                   ("text/plain", "application/json")])
def test_a_second_type_gives_another_site_nothing(world: World, kinds: tuple[str, str]) -> None:
    answer = raw(world, "POST /command", world.field("robot"), "Origin: https://evil.example",
                 *(f"Content-Type: {it}" for it in kinds), f"Content-Length: {len(COMMAND)}", "",
                 COMMAND)
    assert status_of(answer) in (400, 403)


# Requests within requests: each that the application sees is answered on the connection, as one of
# its own


def within(outer: str, body: str) -> str:
    """A request without a sign-in, of these fields and body."""
    return f"POST /sign-in HTTP/1.1\r\nHost: {NAME}\r\n{outer}\r\n\r\n{body}"


def inner(world: World) -> str:
    """The request that is to be hidden: a command of somebody who may send it."""
    fields = (f"Host: {NAME}", world.field("robot"), f"Origin: {ORIGIN}",
              "Content-Type: application/json", f"Content-Length: {len(COMMAND)}")
    return "\r\n".join(("POST /command HTTP/1.1", *fields, "", COMMAND))


def hidden(world: World) -> dict[str, str]:
    """Requests of which a front and a back could see different ends."""
    it = inner(world)
    size, chunk = len(it), f"{len(it):x}"
    both = f"Content-Length: {size + 5}\r\nTransfer-Encoding: chunked"
    return {
        "both lengths, the first chunk empty": within(both, f"0\r\n\r\n{it}"),
        "both lengths, one chunk": within(both, f"{chunk}\r\n{it}\r\n0\r\n\r\n"),
        "the other order": within(
            f"Transfer-Encoding: chunked\r\nContent-Length: {size + 5}", f"0\r\n\r\n{it}"),
        "two lengths": within(f"Content-Length: 0\r\nContent-Length: {size}", it),
        "two lengths, the other order": within(f"Content-Length: {size}\r\nContent-Length: 0", it),
        "a list of lengths": within(f"Content-Length: 0, {size}", it),
        "a length with a sign": within(f"Content-Length: +{size}", it),
        "a length that is negative": within("Content-Length: -1", it),
        "a length in base 16": within(f"Content-Length: 0x{size:x}", it),
        "a length with a blank": within("Content-Length: 1 2", it),
        "a field over two lines": within("Content-Length: 0\r\n Transfer-Encoding: chunked",
                                         f"0\r\n\r\n{it}"),
        "a blank before the colon": within("Content-Length : 0", it),
        "an unknown coding": within("Transfer-Encoding: xchunked", f"0\r\n\r\n{it}"),
        "a coding in other letters": within("Transfer-Encoding: CHUNKED", f"0\r\n\r\n{it}"),
        "a coding with a tab": within("Transfer-Encoding:\tchunked", f"0\r\n\r\n{it}"),
        "two codings": within("Transfer-Encoding: identity\r\nTransfer-Encoding: chunked",
                              f"0\r\n\r\n{it}"),
        "a coding with a zero byte": within("Transfer-Encoding: chunked\0", f"0\r\n\r\n{it}"),
        "a chunk that overflows": within("Transfer-Encoding: chunked",
                                         f"10000000000000000\r\n{it}"),
        "a chunk with an extension": within("Transfer-Encoding: chunked",
                                            f"0;x={'y' * 50}\r\n\r\n{it}"),
        "a chunk with bare line feeds": within("Transfer-Encoding: chunked", f"0\n\n{it}"),
        "trailing fields": within("Transfer-Encoding: chunked",
                                  f"0\r\nContent-Length: {size}\r\n\r\n{it}"),
        "bare line feeds": within("Content-Length: 0", it).replace("\r\n", "\n"),
        "a bare carriage return": within("Content-Length: 0\rX: y", it),
        "a body of a GET": f"GET /sign-in HTTP/1.1\r\nHost: {NAME}\r\nContent-Length: {size}"
                           f"\r\n\r\n{it}",
        "a length with an underscore": within("Content_Length: 0", it),
        "an upgrade": within("Connection: Upgrade, HTTP2-Settings\r\nUpgrade: h2c\r\n"
                             "HTTP2-Settings: AAMAAABkAAQAAP__\r\nContent-Length: 0", it),
        "an expectation": within(f"Expect: 100-continue\r\nContent-Length: {size}", it),
    }


@pytest.mark.parametrize("what", [
    "both lengths, the first chunk empty", "both lengths, one chunk", "the other order",
    "two lengths", "two lengths, the other order", "a list of lengths", "a length with a sign",
    "a length that is negative", "a length in base 16", "a length with a blank",
    "a field over two lines", "a blank before the colon", "an unknown coding",
    "a coding in other letters", "a coding with a tab", "two codings", "a coding with a zero byte",
    "a chunk that overflows", "a chunk with an extension", "a chunk with bare line feeds",
    "trailing fields", "bare line feeds", "a bare carriage return", "a body of a GET",
    "a length with an underscore", "an upgrade", "an expectation"])
def test_a_request_within_another_is_refused_or_is_answered_as_one_of_its_own(
        world: World, what: str) -> None:
    before = len(world.sent())
    answer = sent(world, hidden(world)[what].encode("latin-1"))
    seen = world.sent()[before:]
    assert statuses_of(answer)
    assert set(statuses_of(answer)) <= {100, 200, 400, 401, 403, 409, 413, 501}
    assert (len(seen), seen[:1]) in [(0, []), (1, [json.loads(COMMAND)])]
    assert answer.count(NOT_DONE) == len(seen)


# HTTP/2 by hand: each frame as it is written here


class Http2:
    """A connection of HTTP/2, on which one request is sent."""

    def __init__(self, world: World) -> None:
        context = ssl.create_default_context(cafile=str(world.certificate))
        context.set_alpn_protocols(["h2"])
        self.socket = context.wrap_socket(world.knock(), server_hostname=NAME)
        self.socket.settimeout(5)
        assert self.socket.selected_alpn_protocol() == "h2"
        self.socket.sendall(b"PRI * HTTP/2.0\r\n\r\nSM\r\n\r\n" + self.frame(4, 0, 0, b""))

    @staticmethod
    def frame(kind: int, flags: int, stream: int, data: bytes) -> bytes:
        """A frame."""
        return struct.pack(">I", len(data))[1:] + struct.pack(">BBI", kind, flags, stream) + data

    @staticmethod
    def text(value: str) -> bytes:
        """A text of a field, with its length, and no Huffman code."""
        data, size = value.encode("latin-1"), len(value.encode("latin-1"))
        if size < 127:
            return bytes([size]) + data
        rest, length = size - 127, [127]
        while rest >= 128:
            length.append(rest % 128 + 128)
            rest //= 128
        return bytes([*length, rest]) + data

    def ask(self, fields: list[tuple[str, str]], body: str | None = None) -> int:
        """The status of the answer; 0 if stream or connection are ended without one."""
        block = b"".join(b"\x10" + self.text(name) + self.text(value) for name, value in fields)
        data = self.frame(1, 4 if body is not None else 5, 1, block)
        if body is not None:
            data += self.frame(0, 1, 1, body.encode())
        try:
            self.socket.sendall(data)
            return next(self.answers())
        except OSError:
            return 0
        finally:
            self.socket.close()

    def answers(self) -> Iterator[int]:
        """What comes, by frames: a status; 0 where stream or connection are ended."""
        data = b""
        while piece := self.socket.recv(65536):
            data += piece
            while len(data) >= 9 and len(data) >= 9 + (size := int.from_bytes(data[:3], "big")):
                kind, block, data = data[3], data[9:9 + size], data[9 + size:]
                if kind in (1, 3, 7):
                    yield status_in(block) if kind == 1 else 0
        yield 0


def status_in(block: bytes) -> int:
    """The status of a block of fields, which nginx writes first: by its index, or as digits."""
    indexed = {0x88: 200, 0x89: 204, 0x8a: 206, 0x8b: 304, 0x8c: 400, 0x8d: 404, 0x8e: 500}
    block = block.lstrip(bytes(range(0x20, 0x40)))
    return indexed.get(block[0]) or int(block[2:5])


def h2(method: str = "GET", path: str = "/child/1",
       **more: str) -> list[tuple[str, str]]:
    """The fields of a request of HTTP/2."""
    return [(":method", method), (":scheme", "https"), (":authority", NAME), (":path", path),
            *more.items()]


# Without a sign-in: what a front that writes them anew in HTTP/1.1 could make another request of
ODD_FRAMES: dict[str, list[tuple[str, str]]] = {
    "a line end in the path": h2(path="/x HTTP/1.1\r\nHost: evil.example\r\n\r\nGET /child/1"),
    "a blank in the path": h2(path="/child/1 HTTP/1.1"),
    "a zero byte in the path": h2(path="/child/1\0"),
    "a line end in a value": [*h2(), ("x", "a\r\nAuthorization: Basic x")],
    "a line feed in a value": [*h2(), ("x", "a\nb: c")],
    "a zero byte in a value": [*h2(), ("x", "a\0b")],
    "a line end in a name": [*h2(), ("x\r\ny", "a")], "a colon in a name": [*h2(), ("x:y", "a")],
    "a blank in a name": [*h2(), ("x y", "a")], "large letters in a name": [*h2(), ("X", "a")],
    "no name": [*h2(), ("", "a")], "two paths": [*h2(), (":path", "/register")],
    "two methods": [*h2(), (":method", "POST")], "no path": h2()[:-1],
    "an empty path": h2(path=""), "a path without a slash": h2(path="child/1"),
    "no method": h2()[1:], "a blank in the method": h2(method="GET /pairs HTTP/1.1\r\nX:"),
    "a field before the path": [("x", "a"), *h2()], "an unknown field of that kind": [
        *h2(), (":x", "a")],
    "a coding": [*h2("POST", "/sign-in"), ("transfer-encoding", "chunked")],
    "a connection": [*h2(), ("connection", "close")],
    "an upgrade": [*h2(), ("upgrade", "h2c"), ("connection", "upgrade")],
    "a length that is wrong": [*h2("POST", "/sign-in"), ("content-length", "5")],
    "two lengths": [*h2("POST", "/sign-in"), ("content-length", "0"), ("content-length", "5")],
    "another host": [(name, "evil.example" if name == ":authority" else it) for name, it in h2()],
    "a second host": [*h2(), ("host", "evil.example")],
    "another scheme": [(name, "http" if name == ":scheme" else it) for name, it in h2()],
}


@pytest.mark.parametrize("what", ODD_FRAMES)
def test_an_odd_request_of_http_2_is_refused(world: World, what: str) -> None:
    assert Http2(world).ask(ODD_FRAMES[what]) in (0, 400, 401, 403, 404, 405, 421)


def test_a_right_request_of_http_2_is_answered(world: World) -> None:
    token = basic("robot", world.passwords["robot"]).partition(": ")[2]
    assert Http2(world).ask([*h2(), ("authorization", token)]) == 200
    command = [*h2("POST", "/command"), ("authorization", token), ("origin", ORIGIN),
               ("content-type", "application/json")]
    assert Http2(world).ask(command, COMMAND) == 409


@pytest.mark.parametrize("length", ["0", "5", str(len(COMMAND) - 1), str(len(COMMAND) + 1), "-1"])
def test_a_command_of_http_2_with_a_wrong_length_is_not_passed_on(
        world: World, length: str) -> None:
    token = basic("robot", world.passwords["robot"]).partition(": ")[2]
    before = len(world.sent())
    command = [*h2("POST", "/command"), ("authorization", token), ("origin", ORIGIN),
               ("content-type", "application/json"), ("content-length", length)]
    assert Http2(world).ask(command, COMMAND) in (0, 400, 401)
    assert world.sent()[before:] == []


# What is sent is in the history whole, however it comes

CHUNKED = ("--header", "Transfer-Encoding: chunked")
WAYS = {"with its length": ("--http1.1",), "in chunks": ("--http1.1", *CHUNKED),
        "by HTTP/2": ("--http2",), "by HTTP/2 without its length": (
            "--http2", "--header", "Content-Length:")}
HEAD = "child,name,east,north,looked_after,flags,siblings,day,preferences\n"


@pytest.mark.parametrize("way", WAYS)
def test_the_longest_import_is_in_the_history_whole(world: World, way: str) -> None:
    """It is refused: child 1 was added by a command."""
    row = "1,Rŵ “w”,0,700,no,,,2025-06-02,B\n"
    count = (1_048_576 - len(HEAD)) // len(row.encode())
    rows = f"{HEAD}{row * count}"
    file = world.room / "longest-rows"
    file.write_text(rows, encoding="utf-8")
    before = len(world.entries())
    answer = world.ask("/import", "robot", f"@{file}", kind="text/csv", options=WAYS[way])
    added = world.entries()[before:]
    assert answer.status in (400, 409)
    assert [(it["what"], it["about"].get("import", rows)) for it in added] == [
        ("sends", rows), ("answer", rows)]


# Names of children that would forge an entry of the history

NAMES = {
    "a line of its own": 'x\n{"about":{},"n":1,"who":"mary"}\n', "a quote": '"},"who":"mary"',
    "signs that end a line elsewhere": "a\u2028b\u2029c\x85d", "a direction": "\u202egnol",
    "beyond 16 bits": "\U0001f9d2" * 20, "an escape": '\\n\\u0041\\"', "a zero byte": "a\0b",
    "markup": "</script><img src=x onerror=\"document.title='hit'\">", "a formula": "=1+1",
}


@pytest.mark.parametrize("what", NAMES)
def test_a_command_is_two_entries_whatever_is_in_it(world: World, what: str) -> None:
    command = amendment(6, NAMES[what], 300)
    before = len(world.entries())
    (world.room / "odd-name").write_text(json.dumps(command, ensure_ascii=False), encoding="utf-8")
    answer = world.ask("/command", "robot", f"@{world.room}/odd-name")
    added = world.entries()[before:]
    assert [(it["who"], it["what"]) for it in added] == [("robot", "sends"), ("robot", "answer")]
    assert added[0]["about"] == {"command": command}
    assert added[1]["about"] == {"of": added[0]["n"], "answer": json.loads(answer.body)}
    assert [status for key, status in {"done": 200, "refused": 409, "fault": 400}.items()
            if key in added[1]["about"]["answer"]] == [answer.status]


# What other users of the machine can read of the processes


def test_no_password_token_or_session_is_an_argument_or_in_the_environment(world: World) -> None:
    secrets = [*world.passwords.values(), *(it for it, _ in world.sessions.values())]
    kept = []
    for process, name in itertools.product((world.office, world.site, world.desk, world.door),
                                           ("cmdline", "environ")):
        with open(f"/proc/{process.pid}/{name}", "rb") as file:
            kept.append(file.read())
    assert all(kept)
    assert [it for it in secrets if any(it.encode() in data for data in kept)] == []
