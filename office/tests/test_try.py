"""`make try`: a season that is invented, served to whoever types it, and nothing left of it after
Ctrl-C.
"""
import contextlib
import dataclasses
import html
import http.cookiejar
import os
import pathlib
import re
import shutil
import signal
import subprocess
import time
import urllib.error
import urllib.parse
import urllib.request
from collections.abc import Iterator

import pytest
from conftest import PROGRAM, ROOT

ADDRESS = re.compile(r"http://127\.0\.0\.1:[0-9]+")
PERSON = re.compile(r"  ([a-z]+) +([a-z]+-[a-z]+-[a-z]+-[0-9]+) +(.+)")
ROLES = ("the head of the office", "an officer", "the supervisor",
         "the head of Ashdown High School")
# what a tree needs that is changed while it is tried
TREE = ("office", "tools", "deploy", "docs", "Makefile")
# a machine may do much else beside
LONGEST = 600.0


class Browser:
    """A browser at a printed address."""

    def __init__(self, address: str) -> None:
        self.address = address
        cookies = urllib.request.HTTPCookieProcessor(http.cookiejar.CookieJar())
        self.opener = urllib.request.build_opener(urllib.request.ProxyHandler({}), cookies)

    def get(self, path: str) -> str:
        """A page."""
        with self.opener.open(f"{self.address}{path}", timeout=60) as found:
            text: str = found.read().decode()
            return html.unescape(text)

    def sign_in(self, name: str, password: str) -> str:
        """The first page of somebody."""
        secret = re.search('name="form" value="([^"]*)"', self.get("/sign-in"))
        given = {"form": secret[1] if secret else "", "name": name, "password": password}
        request = urllib.request.Request(
            f"{self.address}/sign-in", urllib.parse.urlencode(given).encode(),
            {"Origin": self.address})
        with self.opener.open(request, timeout=60) as found:
            text: str = found.read().decode()
            return html.unescape(text)


@dataclasses.dataclass
class Tried:
    """A try that runs: what it printed, and its folder for files that are thrown away."""

    run: "subprocess.Popen[str]"
    printed: str
    room: pathlib.Path

    @property
    def address(self) -> str:
        """The only address that it printed."""
        [found] = set(ADDRESS.findall(self.printed))
        return str(found)

    @property
    def people(self) -> dict[str, tuple[str, str]]:
        """The names and passwords that it printed, by what each person is."""
        return {said.split(",")[0]: (name, password)
                for name, password, said in PERSON.findall(self.printed)}

    def signed_in(self, who: str) -> tuple[Browser, str]:
        """A browser of one of the people, and their first page."""
        browser = Browser(self.address)
        return browser, browser.sign_in(*self.people[who])

    def end(self) -> None:
        """Ends it as Ctrl-C in its terminal does, and finds nothing of it left."""
        os.killpg(self.run.pid, signal.SIGINT)
        self.run.wait(60)
        assert not processes_of(self.room)
        assert not [*self.room.iterdir()]


def processes_of(room: pathlib.Path) -> list[str]:
    """The processes that were begun with a folder for their files."""
    found, mark = [], f"TRIED={room}\0".encode()
    for it in pathlib.Path("/proc").glob("[0-9]*"):
        with contextlib.suppress(OSError):
            if mark in (it / "environ").read_bytes():
                found.append((it / "cmdline").read_text().replace("\0", " "))
    return found


@contextlib.contextmanager
def tried(room: pathlib.Path, *given: str, tree: pathlib.Path = ROOT) -> Iterator[Tried]:
    """A try that is begun, once it says that it is there."""
    room.mkdir()
    others = ("DISPLAY", "WAYLAND_DISPLAY", "MAKEFLAGS", "AT", "DIR", "RELOAD")
    environment = {name: it for name, it in os.environ.items() if name not in others}
    with subprocess.Popen(
            ["make", "-s", "-C", str(tree), "try", f"PROGRAM={pathlib.Path(PROGRAM).resolve()}",
             *given], stdin=subprocess.DEVNULL, stdout=subprocess.PIPE, stderr=subprocess.STDOUT,
            text=True, env={**environment, "TMPDIR": str(room), "TRIED": str(room)},
            start_new_session=True) as run:
        try:
            assert run.stdout
            printed = ""
            for line in run.stdout:
                printed += line
                if line.startswith("Ctrl-C"):
                    break
            assert line.startswith("Ctrl-C"), printed
            yield Tried(run, printed, room)
        finally:
            if run.poll() is None:
                os.killpg(run.pid, signal.SIGINT)


def test_two_weeks_after_the_offers(tmp_path: pathlib.Path) -> None:
    """Each of the four signs in and sees the season on its day; Activity has two weeks of answers;
    and after Ctrl-C there is no process and no file.
    """
    with tried(tmp_path / "room", "AT=march") as found:
        assert list(found.people) == list(ROLES)
        assert "Tuesday 16 March 2027" in found.printed and "UNVERIFIED" not in found.printed

        head, page = found.signed_in(ROLES[0])
        for it in ("Ashdown Council", "Today is Tuesday, 16 March 2027", "8 schools",
                   " applications, of which 40 late", "for 1 March 2027: "):
            assert it in page
        assert "complete: recording goes on" in head.get("/draws/")
        activity = head.get("/activity/?since=12/3/2027&until=12/3/2027&who=owen")
        assert "12 March 2027, 10:15" in activity and "Accepted the place of" in activity

        officer, _ = found.signed_in(ROLES[1])
        schools = officer.get("/schools/")
        assert all(it in schools for it in ("Ysgol y Rhedyn, Tŷ Gwyn", "St Cuthbert’s", "Quayside"))

        _, page = found.signed_in(ROLES[2])
        assert "Seal the lots of" in page and "sealed by sunita" in page

        _, page = found.signed_in(ROLES[3])
        assert "Ashdown High School" in page and "Quayside" not in page
        found.end()


def test_two_at_once_are_two_seasons(tmp_path: pathlib.Path) -> None:
    """Two that run side by side have an address and people of their own, with a file that waits to
    be corrected.
    """
    with tried(tmp_path / "one", "AT=applications") as one, \
            tried(tmp_path / "two", "AT=applications") as two:
        assert one.address != two.address and one.people != two.people
        for it in (one, two):
            officer, _ = it.signed_in(ROLES[1])
            page = officer.get("/applications/")
            assert "online-portal.csv" in page and "There is no school CASLE." in page
        name, password = one.people[ROLES[1]]
        with pytest.raises(urllib.error.HTTPError, match="403"):
            Browser(two.address).sign_in(name, password)
        one.end()
        assert "online-portal.csv" in officer.get("/applications/")
        two.end()


def test_a_round_that_waits_is_kept_in_a_folder(tmp_path: pathlib.Path) -> None:
    """The second person finds a round to confirm; the folder is kept, and the next try goes on with
    the same people; meanwhile nobody else has it.
    """
    kept = f"DIR={tmp_path / 'kept'}"
    with tried(tmp_path / "one", "AT=round", kept) as one:
        people = one.people
        officer, _ = one.signed_in(ROLES[1])
        assert "Confirm round 1" in officer.get("/draws/1")
        second = subprocess.run(["make", "-s", "-C", str(ROOT), "try", f"PROGRAM={PROGRAM}", kept],
                                capture_output=True, text=True, check=False)
        assert second.returncode and "in use by another try" in second.stderr
        one.end()
    with tried(tmp_path / "two", kept) as two:
        assert two.people == people
        officer, _ = two.signed_in(ROLES[1])
        assert "Confirm round 1" in officer.get("/draws/1")
        two.end()


def test_a_change_is_seen(tmp_path: pathlib.Path) -> None:
    """A template and a stylesheet that are changed are seen on reload, and with RELOAD=1 a module
    after a new start at the same address.
    """
    tree = tmp_path / "tree"
    tree.mkdir()
    for name in TREE:
        path = ROOT / name
        if path.is_dir():
            shutil.copytree(path, tree / name, symlinks=True)
        else:
            shutil.copy(path, tree / name)
    templates, style = tree / "office/web/home/templates", tree / "deploy/site/ui.css"
    with tried(tmp_path / "room", "AT=applications", "RELOAD=1", tree=tree) as found:
        officer, page = found.signed_in(ROLES[1])
        assert "a new heading" not in page
        season = templates / "season.html"
        season.write_text(season.read_text().replace(
            "{% block main %}", "{% block main %}<h2>a new heading</h2>"))
        assert "a new heading" in officer.get("/")
        style.write_text(style.read_text() + "/* a new style */")
        assert "a new style" in officer.get("/ui.css")
        module = tree / "office/web/frame/navigation.py"
        module.write_text(module.read_text().replace('"Reports":', '"Rapports":'))
        end = time.monotonic() + LONGEST
        while "Rapports" not in officer.get("/"):
            assert time.monotonic() < end
            time.sleep(0.2)
        found.end()


def test_what_is_no_folder_of_a_try(tmp_path: pathlib.Path) -> None:
    """A folder with other files is refused, and stays as it was."""
    (tmp_path / "mine").write_text("x")
    found = subprocess.run(
        ["make", "-s", "-C", str(ROOT), "try", f"PROGRAM={PROGRAM}", f"DIR={tmp_path}"],
        capture_output=True, text=True, check=False)
    assert found.returncode and "has other files" in found.stderr
    assert [it.name for it in tmp_path.iterdir()] == ["mine"]


def test_an_end_while_the_season_is_made(tmp_path: pathlib.Path) -> None:
    """Ctrl-C at its lines of progress leaves no process and no file either."""
    for at in range(1, 4):
        room = tmp_path / str(at)
        room.mkdir()
        with subprocess.Popen(
                [ROOT / "tools" / "try", PROGRAM], stdout=subprocess.PIPE,
                stderr=subprocess.STDOUT, text=True, start_new_session=True,
                env={**os.environ, "TMPDIR": str(room), "TRIED": str(room)}) as run:
            assert run.stdout
            for _ in range(at):
                run.stdout.readline()
            time.sleep(0.7)
            os.killpg(run.pid, signal.SIGINT)
            assert run.wait(60) == 0
            said = run.stdout.read()
            assert said.endswith("\nended\n") and "Traceback" not in said, said
        assert not processes_of(room) and not [*room.iterdir()]
