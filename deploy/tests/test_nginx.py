"""What the site answers where the office's application does not, by nginx itself."""
import contextlib
import http.client
import pathlib
import shutil
import socket
import ssl
import subprocess
import threading
import time
import typing

import pytest
from conftest import ROOT
from machine import certificates, registers, sites

MODEL = ROOT / "deploy/nginx/admissions.conf"
HOST = "admissions.example"


class Site:
    """The site of a register, before a socket that the test listens at, or nobody."""

    def __init__(self, folder: pathlib.Path, register: registers.Register) -> None:
        nginx = shutil.which("nginx", path="/usr/sbin:/usr/bin")
        if not nginx:
            raise RuntimeError("nginx is missing: apt-get install nginx")
        self.socket, self.nginx = folder / "office.sock", nginx
        with socket.socket() as free:
            free.bind(("127.0.0.1", 0))
            self.port = int(free.getsockname()[1])
        here = sites.Machine(sites.this_machine().nginx, False)
        model = MODEL.read_text(encoding="utf-8")
        more = (ROOT / "deploy/nginx/machine.conf").read_text(encoding="utf-8")
        text = sites.machine_text(model, more, here) + sites.site_text(
            model, register.name, HOST, here)
        text = text.replace("listen 443 ", f"listen 127.0.0.1:{self.port} ")
        text = text.replace(str(register.office_socket), str(self.socket))
        text = text.replace("syslog:server=unix:/dev/log,nohostname,tag=admissions", "stderr")
        self.settings = folder / "nginx.conf"
        self.settings.write_text(
            f"daemon off; user root; pid {folder}/pid; error_log stderr;\n"
            "events { worker_connections 512; }\n"
            f"http {{ {self.paths(folder)}\n{text} }}\n",
            encoding="utf-8")

    def change(self, old: str, new: str) -> None:
        """Has something otherwise than on a machine."""
        text = self.settings.read_text(encoding="utf-8")
        assert old in text
        self.settings.write_text(text.replace(old, new), encoding="utf-8")

    @staticmethod
    def paths(folder: pathlib.Path) -> str:
        """Where nginx writes what it must."""
        names = ("client_body", "proxy", "fastcgi", "uwsgi", "scgi")
        return " ".join(f"{it}_temp_path {folder}/{it};" for it in names)

    @contextlib.contextmanager
    def served(self) -> typing.Iterator[None]:
        """nginx serves it meanwhile."""
        with subprocess.Popen([self.nginx, "-c", self.settings, "-e", "stderr"]) as run:
            try:
                while run.poll() is None:
                    with contextlib.suppress(OSError):
                        socket.create_connection(("127.0.0.1", self.port)).close()
                        break
                    time.sleep(0.05)
                assert run.poll() is None
                yield
            finally:
                run.terminate()

    @contextlib.contextmanager
    def connected(self) -> typing.Iterator[http.client.HTTPConnection]:
        """A connection to it."""
        context = ssl.create_default_context()
        context.check_hostname, context.verify_mode = False, ssl.CERT_NONE
        with contextlib.closing(http.client.HTTPConnection(HOST)) as found:
            bare = socket.create_connection(("127.0.0.1", self.port), 60)
            found.sock = context.wrap_socket(bare, server_hostname=HOST)
            yield found

    def get(self, path: str, kind: str = "text/html") -> tuple[int, str]:
        """The status and the body of an answer."""
        with self.connected() as found:
            found.request("GET", path, headers={"Accept": kind, "Connection": "close"})
            answer = found.getresponse()
            return answer.status, answer.read().decode()

    def sign_ins(
        self, browsers: typing.Iterable[str], method: str = "POST", path: str = "/sign-in",
    ) -> list[int]:
        """The statuses of sign-ins, each by a browser with this cookie, or none."""
        with self.connected() as found:
            return [self.sign_in(found, it, method, path) for it in browsers]

    @staticmethod
    def sign_in(
        found: http.client.HTTPConnection, browser: str, method: str, path: str,
    ) -> int:
        """The status of a sign-in."""
        cookie = {"Cookie": f"__Host-admissions-browser={browser}"} if browser else {}
        length = {"Content-Length": "0"} if method == "POST" else {}
        found.request(method, path, headers={**length, **cookie})
        answer = found.getresponse()
        answer.read()
        return answer.status


@pytest.fixture(name="site")
def site_fixture(
    machine: pathlib.Path, register: registers.Register, write_as_me: None
) -> typing.Iterator[Site]:
    list(certificates.make(register, HOST))
    found = Site(machine, register)
    with found.served():
        yield found


def test_where_nobody_listens_the_page_says_that_the_application_does_not_start(site: Site) -> None:
    """As once systemd has given up, and has closed the socket."""
    before = time.monotonic()
    status, text = site.get("/")
    assert (status, "application does not start, and nothing was done" in text) == (502, True)
    assert site.get("/register", "application/json") == (502, '{"unanswered":true}')
    assert site.get("/healthz", "application/json") == (502, '{"unanswered":true}')
    assert time.monotonic() - before < 5


def test_where_the_application_is_tried_again_whoever_watches_is_answered(site: Site) -> None:
    """systemd has the socket open, and nobody takes what comes."""
    with socket.socket(socket.AF_UNIX) as listener:
        listener.bind(str(site.socket))
        listener.listen(64)
        before = time.monotonic()
        status, text = site.get("/healthz", "application/json")
        assert (status, text) == (502, '{"unanswered":true}')
        assert 4 < time.monotonic() - before < 10


def test_an_answer_that_broke_off_is_told_apart(site: Site) -> None:
    """Something may have been done then."""
    with socket.socket(socket.AF_UNIX) as listener:
        listener.bind(str(site.socket))
        listener.listen(64)

        def broken() -> None:
            taken, _ = listener.accept()
            taken.recv(4096)
            taken.close()

        thread = threading.Thread(target=broken)
        thread.start()
        status, text = site.get("/")
        thread.join()
    assert (status, "There was no answer" in text) == (502, True)


def test_few_long_bodies_of_one_address_are_read_at_once(
    machine: pathlib.Path, register: registers.Register, write_as_me: None
) -> None:
    """Each is kept on the disk until all of it has come, as slowly as its sender likes."""
    list(certificates.make(register, HOST))
    found, asked = Site(machine, register), threading.Semaphore(0)
    found.change("client_body_timeout 10s;", "client_body_timeout 600s;")

    def say_who_asks(listener: socket.socket) -> None:
        with contextlib.suppress(OSError):
            while True:
                taken, _ = listener.accept()
                with taken:
                    taken.recv(1 << 16)
                    taken.sendall(b"HTTP/1.1 204 No Content\r\nConnection: close\r\n\r\n")
                asked.release()

    def begin(held: contextlib.ExitStack, **field: str) -> http.client.HTTPConnection:
        """A request of which a part of the body is sent."""
        made = held.enter_context(found.connected())
        made.putrequest("POST", "/applications/gazetteer/file")
        for name, value in field.items():
            made.putheader(name.replace("_", "-"), value)
        made.endheaders(b"5\r\nbegin\r\n")
        return made

    with socket.socket(socket.AF_UNIX) as listener, contextlib.ExitStack() as held:
        listener.bind(str(found.socket))
        listener.listen(64)
        threading.Thread(target=say_who_asks, args=(listener,), daemon=True).start()
        with found.served():
            for length in (*["60000000"] * 16, *["99999"] * 17):
                begin(held, Content_Length=length)
                assert asked.acquire(timeout=60)
            for field in ({"Content_Length": "100000"}, {"Transfer_Encoding": "chunked"}):
                assert begin(held, **field).getresponse().status == 429, field


def test_who_makes_up_browsers_leaves_room_for_the_sign_ins_of_others(
    machine: pathlib.Path, register: registers.Register, write_as_me: None
) -> None:
    """A zone that is full of long keys would have no room for the short one of another address."""
    list(certificates.make(register, HOST))
    found = Site(machine, register)
    found.change("zone=admissions_sign_in:4m", "zone=admissions_sign_in:64k")
    with found.served():
        made_up = set(found.sign_ins(f"{'x' * 190}{at:03}end" for at in range(300)))
        # (the application does not run)
        assert (made_up, found.sign_ins(["", "b" * 100])) == (
            {502}, [502, 502])


def test_who_makes_up_browsers_asks_the_provider_no_more_often(
    machine: pathlib.Path, register: registers.Register, write_as_me: None
) -> None:
    """Few ask it at once, and all places would be taken."""
    list(certificates.make(register, HOST))
    found = Site(machine, register)
    found.change("zone=admissions_outside:4m rate=10r/s", "zone=admissions_outside:4m rate=1r/m")
    with found.served():
        for path in ("/sign-in/authority", "/sign-in/authority/back?code=none"):
            made_up = [f"a-browser-{at:02}end" for at in range(70)]
            assert found.sign_ins(made_up, "GET", path)[-1] == 429
        assert found.sign_ins(made_up) == [502] * 70
