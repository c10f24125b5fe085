"""What the checks run on: a desk in a network of its own, the door to it, the office's application
and the site before it, all under one folder; and beside it another register."""

import base64
import contextlib
import json
import os
import pathlib
import re
import shutil
import signal
import socket
import ssl
import subprocess
import threading
import time
import urllib.parse
from collections.abc import Callable, Iterable, Iterator
from typing import Any, TypeVar

from checks import office
from checks.commands import Command, application, child, lines_of, round_of, school
from checks.office import Account

HERE = pathlib.Path(__file__).resolve().parent.parent
HAS_IPV6 = pathlib.Path("/proc/net/if_inet6").exists()
NAME = "admissions.example"
AUTHORITY = "Cyngor Sir Tŷ \"Ddewi\" Council"
PEOPLE = {
    "jane": Account("head"), "hal": Account("officer"), "rita": Account("reader"),
    "alpha": Account("school-A"), "sup": Account("supervisor"), "adam": Account("administrator"),
    "smith": Account("officer", is_locked=True), "robot": Account("officer", is_program=True),
    "reads": Account("reader", is_program=True), "lists": Account("school-A", is_program=True),
}
# Has the site of a register, the machine's own part, or a main file of nginx made by the installed
# admissions-admin setup: its folder, then what is called and its arguments
MAKE_SITE = """
import pathlib, sys
sys.path.insert(0, sys.argv[1])
from machine import sites
model = pathlib.Path(sys.argv[2]).read_text(encoding="utf-8")
here = sites.this_machine()
if sys.argv[3:] == ["main"]:
    main = "events {\\n\\tworker_connections 768;\\n}"
    print(sites.limits_text(main) + sites.main_text(main))
elif sys.argv[3:]:
    print(sites.site_text(model, *sys.argv[3:], here))
else:
    machine = (sites.share() / "machine.conf").read_text(encoding="utf-8")
    print(sites.machine_text(model, machine, here))
"""
MARKUP_OF_CHILD = "<script>document.title='hit'</script>"
MARKUP_OF_SCHOOL = "<img src=x onerror=\"document.title='hit'\">"
REGISTER = [
    school("A", "Alpha", 2, 0),
    school("B", "Beta", 1, 0, 1000),
    school("C", MARKUP_OF_SCHOOL, 1, 5000),
    school("D", "Delta, position 9 of 9, class 0, 1 metres", 1, 9000),
    child(1, "Ada Abel", 100),
    child(2, "Ben Bell", 200),
    child(3, "Cyd Cole", 2000, 1000),
    child(4, MARKUP_OF_CHILD, 5000),
    child(5, "Eve Eden", 300),
    child(6, "Fay Ford", 300),
    child(11, "Gus Gale, accepted", 9000),
    child(12, "Hal Hill", 9001),
    {"cmd": "name_plan", "child": 5, "school": "A"},
    application(1, "A"),
    application(2, "A", "B"),
    application(3, "B"),
    application(4, "C"),
    application(11, "D"),
    application(12, "D"),
    round_of(1, "2025-03-03", [10, 20, 10, 20, 10, 10, 20]),
]
COOKIE, FORM = "__Host-admissions", "application/x-www-form-urlencoded"
# A session of the application may end after 30 minutes without a request
SESSION_SECONDS = 1200
Process = subprocess.Popen[bytes]
Ran = subprocess.CompletedProcess[str]
T = TypeVar("T")


def free_port() -> int:
    """A port of 127.0.0.1 that nothing has at this moment: a caller that finds it taken tries
    another one."""
    with socket.socket() as it:
        it.bind(("127.0.0.1", 0))
        port: int = it.getsockname()[1]
        return port


def until(what: Callable[[], T], name: str, seconds: float = 120) -> T:
    """Waits until `what()` is true, and returns it. The limit in seconds is for slow machines: the
    event is what ends the wait."""
    end = time.monotonic() + seconds
    while time.monotonic() < end:
        if value := what():
            return value
        time.sleep(0.02)
    raise TimeoutError(f"{name}: not within {seconds} seconds")


def group(pattern: str, text: str) -> str:
    """The first group of a pattern in a text that must have it."""
    found = re.search(pattern, text)
    if not found:
        raise RuntimeError(f"there is no {pattern} in {text[:1000]!r}")
    return found[1]


class Installation:
    """The files that are tested, in a folder of their own: those of the repository as make and
    deploy/install install them, with a program; or without one those of the package that is
    installed on this machine, as dpkg lists them."""

    def __init__(self, program: pathlib.Path | None, root: pathlib.Path) -> None:
        self.program, self.root = program, root
        self.usr = "/usr/local" if program else "/usr"
        self.prefix = pathlib.Path(f"{root}{self.usr}")

    def make(self) -> None:
        """Installs them there."""
        if not self.program:
            self.copy_package()
            return
        make = ("make", "--silent", "-C", HERE.parent, "install", f"PROGRAM={self.program}")
        environment = {**os.environ, "DESTDIR": str(self.root), "PREFIX": self.usr}
        for step in (make, (HERE / "install",)):
            made = subprocess.run([str(it) for it in step], env=environment, text=True,
                                  capture_output=True, check=False)
            if made.returncode != 0:
                raise RuntimeError(made.stdout + made.stderr)

    def copy_package(self) -> None:
        """Copies the files of the package."""
        listed = subprocess.run(["dpkg", "-L", "admissions"], text=True, capture_output=True,
                                check=True).stdout.splitlines()
        for path in map(pathlib.Path, listed):
            if path.is_file():
                copy = self.root / path.relative_to("/")
                copy.parent.mkdir(parents=True, exist_ok=True)
                shutil.copy2(path, copy, follow_symlinks=False)

    def site(self, *named: str) -> str:
        """The site of a register by its name and host, the machine's own part, or its main file
        (`main`)."""
        model = self.root / "etc/nginx/sites-available/admissions"
        package = self.prefix / "share/admissions"
        made = subprocess.run(["/usr/bin/python3", "-B", "-c", MAKE_SITE, package, model, *named],
                              text=True, capture_output=True, check=False)
        if made.returncode:
            raise RuntimeError(made.stderr)
        return made.stdout


class World:
    """The room of a register, and the processes in it, each ended by its own id at the end.
    `beside` are the worlds of other registers, whose sites are before the same nginx."""

    certificate: pathlib.Path
    holder: Process
    desk: Process
    door: Process
    office: Process
    site: Process
    tested: Ran

    def __init__(self, installation: Installation, room: pathlib.Path,
                 name: str = "secondary-2025", host: str = NAME,
                 commands: Iterable[Command] = tuple(REGISTER),
                 people: dict[str, Account] | None = None) -> None:
        self.installation, self.room = installation, room
        self.processes: list[Process] = []
        # those whose own processes end with them
        self.groups: set[int] = set()
        self.beside: list[World] = []
        self.name, self.host, self.commands = name, host, commands
        self.people = people or PEOPLE
        self.root, self.prefix = installation.root, installation.prefix
        self.file, self.settings = room / "reg.db", room / "settings"
        self.site_port = self.plain_port = 0
        self.desk_port = free_port()  # it is in a network of its own
        for folder in ("run", "log", "copies", "temp", "downloads", "settings", "office"):
            (room / folder).mkdir(parents=True)
        # (of a program, its token, once it is drawn)
        self.passwords = {name: os.urandom(9).hex() for name in self.people}
        self.sessions: dict[str, tuple[str, float]] = {}
        self.signing = threading.Lock()
        self.office_socket = socket.socket(socket.AF_UNIX)
        path = f"{self.prefix}/bin:/usr/sbin:/sbin:{os.environ['PATH']}"
        self.environment = {**os.environ, "PATH": path, "no_proxy": "*", "HOME": str(room)}

    def start(self) -> None:
        """Starts all but the site, for this register and those beside it, and then the site."""
        self.installation.make()
        (self.root / "etc/admissions/authority").write_text(f"{AUTHORITY}\n")
        for world in (self, *self.beside):
            world.make_register(world.file, world.commands)
            world.make_certificate()
            world.passwords |= office.made(world.prefix, world.room / "office", world.people,
                                           world.passwords)
            world.hold_network()
            world.start_desk()
            world.start_door()
            world.listen()
            world.start_office()
        self.start_site()

    def run(self, *arguments: object, input: str = "") -> Ran:
        """Runs a command, with the installed programs in its path."""
        return subprocess.run([str(it) for it in arguments], input=input, text=True,
                              capture_output=True, env=self.environment, timeout=300, check=False)

    def spawn(self, *arguments: object, log: str, give: Iterable[int] = (),
              group: bool = False) -> Process:
        """Starts a process, which ends with the world. It is given open files, and is the first of
        a group of processes, if it starts others."""
        with open(self.room / "log" / log, "a", encoding="utf-8") as out:
            # A write beyond the file size limit shall fail without ending the process: this is how
            # a disk is made to fail
            process = subprocess.Popen(
                [str(it) for it in arguments], stdin=subprocess.DEVNULL, stdout=out, stderr=out,
                env=self.environment, restore_signals=False, pass_fds=tuple(give),
                start_new_session=group,
                preexec_fn=lambda: signal.signal(signal.SIGXFSZ, signal.SIG_IGN))
        self.processes.append(process)
        if group:
            self.groups.add(process.pid)
        return process

    def end(self, process: Process, by: signal.Signals = signal.SIGTERM) -> None:
        """Ends a process, if it has not ended. As systemd does, what it has started ends with it,
        at once where it is killed."""
        is_group = process.pid in self.groups
        if process.poll() is None:
            if is_group and by == signal.SIGKILL:
                os.killpg(process.pid, by)
            else:
                process.send_signal(by)
            try:
                process.wait(40 if is_group else 10)
            except subprocess.TimeoutExpired:
                process.kill()
        process.wait()
        if is_group:
            self.groups.remove(process.pid)
            with contextlib.suppress(ProcessLookupError):
                os.killpg(process.pid, signal.SIGKILL)

    def end_all(self) -> None:
        """Ends what was started."""
        for world in self.beside:
            world.end_all()
        for process in reversed(self.processes):
            self.end(process)
        self.office_socket.close()

    def make_register(self, file: pathlib.Path, commands: Iterable[Command]) -> None:
        """Makes a register, and does commands on it."""
        made = self.run("admissions", "init", file, *self.name.split("-"))
        if made.returncode:
            raise RuntimeError(f"the register could not be made: {made.stderr}")
        self.do(file, *commands)

    def do(self, file: pathlib.Path, *commands: Command) -> None:
        """Does commands on a register that the desk does not have."""
        done = self.run("admissions", "do", file, input=lines_of(commands))
        if done.returncode:
            raise RuntimeError(done.stdout + done.stderr)

    def draw(self, file: pathlib.Path, number: int, day: str) -> None:
        """Runs a round on such a register. Each child has one lot, its own number: so no order
        depends on lots."""
        pairs = self.run("admissions", "pairs", file).stdout.splitlines()
        self.do(file, round_of(number, day, [int(pair.split()[1]) for pair in pairs]))

    def make_certificate(self) -> None:
        """A certificate of the site."""
        at = self.settings / "site"
        self.run("openssl", "req", "-x509", "-newkey", "ec", "-pkeyopt",
                 "ec_paramgen_curve:P-256", "-nodes", "-days", "2", "-subj", f"/CN={self.host}",
                 "-addext", f"subjectAltName=DNS:{self.host}", "-keyout", f"{at}.key", "-out",
                 f"{at}.crt")
        self.certificate = self.settings / "site.crt"

    def hold_network(self) -> None:
        """A network namespace as PrivateNetwork= makes one. In a user namespace of its own, so
        that no privilege is needed."""
        self.holder = self.spawn(
            "unshare", "--user", "--map-root-user", "--net", "sh", "-c",
            "ip link set lo up && exec sleep 100000", log="network")
        links = self.inside("ip", "-o", "link", "show", "up")
        until(lambda: self.run(*links).stdout.count(": lo:"), "the network namespace")

    def inside(self, *arguments: object) -> tuple[object, ...]:
        """A command that is run in that network."""
        return ("nsenter", "--target", self.holder.pid, "--user", "--net",
                "--preserve-credentials", *arguments)

    def start_desk(self) -> None:
        """As its unit does: the log is merged before."""
        self.run("admissions", "do", self.file)
        log = self.room / "log/desk"
        log.unlink(missing_ok=True)
        serve = ("admissions", "serve", self.file, self.desk_port)
        self.desk = self.spawn(*self.inside(*serve), log="desk")
        first = f"serving on 127.0.0.1:{self.desk_port}\n"
        until(lambda: log.read_text().startswith(first), "the desk")

    def stop_desk(self) -> None:
        """Suspends the desk, as under a load. The process that was started is the desk itself:
        nsenter becomes what it runs."""
        self.desk.send_signal(signal.SIGSTOP)

    def continue_desk(self) -> None:
        """Lets a suspended desk go on."""
        self.desk.send_signal(signal.SIGCONT)

    @contextlib.contextmanager
    def serving(self, file: pathlib.Path) -> Iterator[None]:
        """Has the desk serve the register of another file, and then its own again."""
        self.end(self.desk)
        own, self.file = self.file, file
        try:
            self.start_desk()
            yield
        finally:
            self.end(self.desk)
            self.file = own
            self.start_desk()

    def at_desk(self) -> int:
        """How many connections to the desk have bytes that it has not read, as the kernel lists
        them in its network."""
        listed = self.run(*self.inside("cat", "/proc/net/tcp")).stdout.splitlines()[1:]
        rows = [line.split() for line in listed]
        port = f":{self.desk_port:04X}"
        return sum(row[1].endswith(port) and row[3] == "01" and not row[4].endswith(":00000000")
                   for row in rows)

    def start_door(self) -> None:
        """The door, with as many files as its unit allows."""
        unit = self.prefix / "lib/systemd/system/admissions-door@.service"
        limit = group(r"(?m)^LimitNOFILE=(\d+)$", unit.read_text())
        self.door = self.spawn(
            *self.inside("prlimit", f"--nofile={limit}", "systemd-socket-activate",
                         f"--listen={self.room}/run/desk.sock",
                         "/lib/systemd/systemd-socket-proxyd", "--connections-max=300",
                         f"127.0.0.1:{self.desk_port}"), log="door")
        until((self.room / "run/desk.sock").exists, "the door")

    def listen(self) -> None:
        """The socket of the application, which its unit has: what comes while there is no
        application waits in it."""
        unit = self.prefix / "lib/systemd/system/admissions-office@.socket"
        self.office_socket.bind(f"{self.room}/run/office.sock")
        self.office_socket.listen(int(group(r"(?m)^Backlog=(\d+)$", unit.read_text())))

    def start_office(self) -> None:
        """Starts the application at its socket. As its unit does, it is started again if it has
        ended, as where the one before it has not wholly ended yet."""
        settings = office.settings(self.prefix, self.room, self.name, self.host, AUTHORITY)
        file = self.office_socket.fileno()

        def is_serving() -> bool:
            if "office" not in vars(self) or self.office.poll() is not None:
                self.office = self.spawn(
                    *office.command(file, settings), log="office", give=(file,), group=True)
            return self.at_office("/sign-in") == 200

        until(is_serving, "the application")

    def at_office(self, path: str) -> int:
        """The status that the application answers to nobody at its socket; 0 if it has not answered
        within seconds."""
        return int(self.run(
            "curl", "--silent", "--max-time", "5", "--unix-socket", f"{self.room}/run/office.sock",
            "--output", "/dev/null", "--write-out", "%{http_code}",
            f"http://{self.host}{path}").stdout)

    def start_site(self) -> None:
        """The sites as they are installed, but with the folders of the rooms, and other ports. If
        another process took a port meanwhile, nginx ends, and others are tried."""
        log, settings = self.room / "log/nginx", self.room / "nginx.conf"
        for _ in range(10):
            self.site_port, self.plain_port = free_port(), free_port()
            for world in self.beside:
                world.site_port = self.site_port
            self.write_sites()
            self.tested = self.run("nginx", "-t", "-c", settings, "-e", log)
            self.site = self.spawn("nginx", "-c", settings, "-e", log, log="nginx")
            until(lambda: self.site.poll() is not None or self.ask("/sign-in").status, "the site")
            if self.site.poll() is None:
                return
        raise RuntimeError(log.read_text())

    def site_text(self) -> str:
        """The site as admissions-admin setup makes it."""
        return replaced(self.installation.site(self.name, self.host), (
            (f"/etc/admissions/{self.name}", f"{self.settings}"),
            (f"/run/admissions-office/{self.name}.sock", f"{self.room}/run/office.sock"),
            ("syslog:server=unix:/dev/log,nohostname,tag=admissions", f"{self.room}/log/errors"),
            *self.listens(("443", self.site_port))))

    def listens(self, *ports: tuple[str, int]) -> list[tuple[str, str]]:
        """The ports that the site listens at, with those of this room, and of this machine
        alone."""
        pairs = [(f"listen {port}", f"listen 127.0.0.1:{own}") for port, own in ports]
        if HAS_IPV6:
            pairs += [(f"listen [::]:{port}", f"listen [::1]:{own}") for port, own in ports]
        return pairs

    def write_sites(self) -> None:
        """Writes the files of nginx."""
        ports = self.listens(("443", self.site_port), ("80", self.plain_port))
        sites = [replaced(self.installation.site(), ports)]
        sites += [world.site_text() for world in (self, *self.beside)]
        (self.room / "site.conf").write_text("".join(sites))
        kinds = ("client_body", "proxy", "fastcgi", "uwsgi", "scgi")
        temp = "".join(f"{kind}_temp_path {self.room}/temp/{kind};\n" for kind in kinds)
        user = "user root;" if os.getuid() == 0 else ""
        (self.room / "nginx.conf").write_text(
            f"{user} daemon off; worker_processes 2; pid {self.room}/run/nginx.pid;\n"
            f"error_log {self.room}/log/nginx;\n{self.installation.site('main')}\n"
            f"http {{ include /etc/nginx/mime.types; {temp} include {self.room}/site.conf; }}\n")

    def ask(self, path: str, who: str | None = None, body: str | None = None,
            origin: str | bool | None = True, kind: str = "application/json",
            options: Iterable[str] = ()) -> "Answer":
        """What curl gets, with the site's own name mapped to the port of the room, and by default
        as from a page of the site."""
        origin = f"https://{self.host}" if origin is True else origin
        arguments = ["curl", "--silent", "--cacert", str(self.certificate), "--connect-to",
                     f"{self.host}:443:127.0.0.1:{self.site_port}", "--path-as-is", "--write-out",
                     "\n%{http_code}", "--max-time", "150", "--dump-header", "-"]
        if who:
            arguments += ["--header", self.field(who)]
        if body is not None:
            arguments += ["--data-binary", body, "--header", f"Content-Type: {kind}"]
            arguments += ["--header", f"Origin: {origin}"] if origin else []
        return Answer(self.run(*arguments, *options, f"https://{self.host}{path}"))

    def sign_in(self, name: str, password: str, *options: str,
                origin: str | bool | None = True) -> "Answer":
        """What the form for signing in gets."""
        form = urllib.parse.urlencode({"name": name, "password": password})
        return self.ask("/sign-in", None, form, origin, FORM, options)

    def session(self, who: str) -> str:
        """The session of a person, who signs in once; and again where no request was sent in it for
        so long that the application may end it."""
        with self.signing:
            secret, used = self.sessions.get(who, ("", -SESSION_SECONDS))
            if time.monotonic() - used >= SESSION_SECONDS:
                answer = self.sign_in(who, self.passwords[who])
                if not answer.session:
                    raise RuntimeError(f"{who} is not signed in: {answer.status} {answer.body}")
                secret = answer.session
            self.sessions[who] = secret, time.monotonic()
            return secret

    def submit(self, path: str, who: str, **fields: str) -> "Answer":
        """What the form of a page gets, from somebody who has that page open."""
        page = self.ask("/password", who).body
        secret = group('name="form" value="([^"]+)"', page)
        return self.ask(path, who, urllib.parse.urlencode({"form": secret, **fields}), kind=FORM)

    def field(self, who: str) -> str:
        """The field of a head by which somebody is known: the session of a person, or the token of
        a program."""
        if self.people[who].is_program:
            return basic(who, self.passwords[who])
        return f"Cookie: {COOKIE}={self.session(who)}"

    def send(self, who: str = "robot", **command: object) -> None:
        """Sends a command that must be done, as somebody else of the office does."""
        answer = self.ask("/command", who, json.dumps(command))
        if answer.status != 200:
            raise RuntimeError(answer.body)

    def letter(self, child: int) -> str:
        """The letter of a child."""
        return self.ask(f"/child/{child}/letter", "robot").body

    def place(self, child: int) -> str:
        """The place of a child, as its letter has it."""
        return group(r"(?m)^Place: (.*)$", self.letter(child))

    def stored(self) -> dict[int, dict[str, Any]]:
        """The children as the register has them now, by their numbers."""
        children = json.loads(self.ask("/register", "robot").body)["children"]
        return {it["child"]: it for it in children}

    def connect(self, source: str = "127.0.0.1") -> ssl.SSLSocket:
        """A bare TLS connection to the site."""
        context = ssl.create_default_context(cafile=str(self.certificate))
        return context.wrap_socket(self.knock(source), server_hostname=self.host)

    def knock(self, source: str = "127.0.0.1") -> socket.socket:
        """A connection to the site's port, before TLS, from an address of this machine."""
        return socket.create_connection(
            ("127.0.0.1", self.site_port), timeout=120, source_address=(source, 0))

    def entries(self) -> list[dict[str, Any]]:
        """The entries of the history, as far as they are whole lines."""
        data = (self.room / "office/history.jsonl").read_bytes()
        return [json.loads(line) for line in data.split(b"\n")[:-1]]

    def sent(self, since: int = 0) -> list[Command]:
        """The commands that were sent to the register, in the entries after so many."""
        return [it["about"]["command"] for it in self.entries()[since:]
                if it["what"] == "sends" and "command" in it["about"]]

    def outcomes(self) -> list[tuple[Command, bool | None]]:
        """Each command of the history, and whether it is done, as far as the history says that."""
        entries = self.entries()
        known: dict[int, bool] = {}
        for it in entries:
            about = it["about"]
            if it["what"] == "answer":
                known[about["of"]] = about["answer"].get("done") is True
            elif it["what"] == "settled":
                known[about["of"]] = about["done"]
        return [(it["about"]["command"], known.get(it["n"])) for it in entries
                if it["what"] == "sends" and "command" in it["about"]]


def basic(name: str, token: str) -> str:
    """The field of a head with a name and a token, or a password."""
    return "Authorization: Basic " + base64.b64encode(f"{name}:{token}".encode("latin-1")).decode()


def replaced(text: str, pairs: Iterable[tuple[str, str]]) -> str:
    """A text with texts of it, which must be there, replaced."""
    for old, new in pairs:
        if old not in text:
            raise RuntimeError(f"the site does not name {old}")
        text = text.replace(old, new)
    return text


class Answer:
    """A response as curl prints it with its head."""

    def __init__(self, done: Ran) -> None:
        text, _, status = done.stdout.rpartition("\n")
        head, _, self.body = text.replace("\r\n", "\n").partition("\n\n")
        if head.startswith("HTTP/1.1 100"):
            head, _, self.body = self.body.partition("\n\n")
        self.status, self.code, self.error = int(status or 0), done.returncode, done.stderr
        cookie = re.search(f"(?im)^set-cookie: {COOKIE}=([^;]+)", head)
        self.session = cookie[1] if cookie else ""
        lines = (line for line in head.split("\n")[1:] if ": " in line)
        fields = (line.lower().partition(": ") for line in lines)
        self.fields = {name: value for name, _, value in fields}

    @property
    def wait(self) -> int:
        """For how many seconds nothing more may be tried, as an answer to a sign-in says."""
        found = re.search("Try again in ([0-9]+) seconds?", self.body)
        return int(found[1]) if found else 0
