"""The examples of docs/trust/GUARANTEES.md, which show what is not promised of rounds and fills,
and the season of docs/reference/FORMATS.md, which has each command and each request: they are
played by the program, and must end as the pages say.

In the examples of GUARANTEES all children live at one place, so that lots alone decide how a school
ranks them: the lot of a child is its position in the ranking. Who holds a place was offered it in a
first round, in which the others, who applied too late, took no part.
"""
import http.client
import json
import pathlib
import re
import socket
import subprocess
from collections.abc import Iterator, Mapping, Sequence
from typing import Any

import pytest
from conftest import PROGRAM, ROOT, Command, apply, child, do, make, school
from served import served

from office.core.rules import RULES

PAGE = (ROOT / "docs/trust/GUARANTEES.md").read_text("utf-8")
NUMBERS = {"Ann": 1, "Bo": 2, "Cy": 3, "Di": 4}
CLOSING, LATE = "2024-10-31", "2024-11-04"
DAYS = ("2025-03-03", "2025-04-07", "2025-05-12", "2025-06-09")
ROUND = ("round", "")
Lists = dict[str, list[str]]
# what is done after the first applications: a command of a child, or a draw
Act = tuple[str, ...]


class Example:
    """An example of the page."""

    def __init__(self, number: int) -> None:
        text = PAGE.split(f"\n### Example {number}: ")[1].partition("\n#")[0]
        schools, children = re.findall(r"(?m)(?:^\|.*\n)+", text)
        self.schools, self.children = rows(schools), rows(children)

    @property
    def lists(self) -> Lists:
        """The list of each child."""
        return {it["Child"]: words(it["Lists"]) for it in self.children}

    @property
    def ranks(self) -> Lists:
        """How each school ranks the children."""
        return {it["School"]: words(it["Ranks"]) for it in self.schools}

    def column(self, title: str) -> dict[str, str]:
        """What each child gets by the page."""
        return {it["Child"]: it[title] for it in self.children}


def words(cell: str) -> list[str]:
    """The words of a cell."""
    return cell.split(", ") if cell else []


def applied(number: int, listed: list[str], day: str) -> list[Command]:
    """A child that applies."""
    return [child(number), apply(number, listed, day)]


def rows(table: str) -> list[dict[str, str]]:
    """The rows of a table of the page, by its titles."""
    cells = [[it.strip() for it in line.split("|")[1:-1]] for line in table.splitlines()]
    return [dict(zip(cells[0], it, strict=True)) for it in cells[2:]]


class Play:
    """An example that is played by the program."""

    def __init__(self, path: pathlib.Path, example: Example, lists: Lists, ranks: Lists) -> None:
        self.path, self.ranks, self.draws = path, ranks, 0
        self.names = {number: name for name, number in NUMBERS.items()}
        self.pans = {it["School"]: int(it["Places"]) for it in example.schools}
        holds = {it["Child"]: it["Holds"] for it in example.children if it.get("Holds")}
        others = self.others(lists, holds)
        commands = [school(code, pan) for code, pan in self.pans.items()]
        for name, listed in lists.items():
            day = LATE if holds and name not in holds else CLOSING
            commands += applied(NUMBERS[name], listed, day) if listed else []
        for number, code in others.items():
            self.names[number] = f"other {number}"
            commands += applied(number, [code], CLOSING)
        make(path, commands)
        self.began: dict[str, str] = {}
        if holds:
            first = [f"other {it}" for it in others]
            self.act(ROUND, {code: first + who for code, who in ranks.items()})
            do(path, [{"cmd": "decline", "child": it, "school": code}
                      for it, code in others.items()])
            has = self.places()
            self.began = {name: has[name] for name in holds}

    def others(self, lists: Lists, holds: Mapping[str, str]) -> dict[int, str]:
        """Who has in the first round the schools that a holder wants more, and declines them."""
        better = [code for name, held in holds.items()
                  for code in lists[name][:lists[name].index(held)]
                  for _ in range(self.pans[code])]
        return {101 + at: code for at, code in enumerate(better)}

    def read(self, *given: str) -> str:
        """What a subcommand prints."""
        return subprocess.run([PROGRAM, given[0], self.path, *given[1:]], check=True,
                              capture_output=True, text=True).stdout

    def act(self, act: Act, ranks: Lists | None = None) -> None:
        """A draw by the ranking, or a command of a child at a school."""
        if act[0] not in ("round", "fill"):
            do(self.path, [{"cmd": act[0], "child": NUMBERS[act[1]], "school": act[2]}])
            return
        lots = []
        for line in self.read("pairs", *act[1:2] if act[1] else ()).splitlines():
            code, number = line.split()
            lots.append((ranks or self.ranks)[code].index(self.names[int(number)]))
        self.draws += 1
        draw: Command = {"cmd": act[0], "draw": self.draws, "day": DAYS[self.draws - 1],
                         "lots": lots}
        do(self.path, [draw | ({"school": act[1]} if act[1] else {})])

    def places(self) -> dict[str, str]:
        """The school of each child of the example, or none."""
        found: list[dict[str, Any]] = json.loads(self.read("show"))["children"]
        has = {self.names[it["child"]]: it["place"]["school"] for it in found if it["place"]}
        return {name: has.get(name, "none") for name in self.names.values()}


# each column of the page that has what children get: its example, its title, the lists that
# differ, the ranking of the last round where it differs, and what is done
COLUMNS: Sequence[tuple[int, str, Lists, Lists, Sequence[Act]]] = (
    (1, "Gets", {}, {}, [ROUND]),
    (1, "If Ann lists A alone", {"Ann": ["A"]}, {}, [ROUND]),
    (1, "And once Bo declines A", {"Ann": ["A"]}, {},
     [ROUND, ("decline", "Bo", "A"), ("fill", "A")]),
    (2, "Gets", {}, {}, [ROUND]),
    (2, "If Ann and Bo each list A alone", {"Ann": ["A"], "Bo": ["A"]}, {}, [ROUND]),
    (3, "Gets", {}, {}, [ROUND]),
    (3, "If Ann declines A first", {}, {}, [("decline", "Ann", "A"), ROUND]),
    (4, "Gets", {}, {}, [ROUND]),
    (4, "If Ann leaves B's waiting list first", {}, {}, [("leave_list", "Ann", "B"), ROUND]),
    (5, "Gets", {}, {}, [ROUND]),
    (5, "In a second round in which the lot puts Ann before Bo at B", {},
     {"B": ["Cy", "Ann", "Bo"]}, [ROUND, ROUND]),
    (6, "Gets", {}, {}, [ROUND]),
    (6, "If Bo declines B, and B is filled", {}, {},
     [ROUND, ("decline", "Bo", "B"), ("fill", "B")]),
    (6, "If Bo declines B, and a second round is held", {}, {},
     [ROUND, ("decline", "Bo", "B"), ROUND]),
)


@pytest.mark.parametrize("number, title, lists, last, acts", COLUMNS)
def test_an_example_ends_as_the_page_says(
    tmp_path: pathlib.Path, number: int, title: str, lists: Lists, last: Lists,
    acts: Sequence[Act],
) -> None:
    """Each child has the school of the column, and began with the place that it holds."""
    example = Example(number)
    play = Play(tmp_path / "reg.db", example, example.lists | lists, example.ranks)
    assert play.began == {it["Child"]: it["Holds"] for it in example.children if it.get("Holds")}
    for at, act in enumerate(acts):
        play.act(act, example.ranks | last if at == len(acts) - 1 else None)
    found = play.places()
    assert {name: found[name] for name in example.lists} == example.column(title)


def test_each_column_of_the_page_is_played() -> None:
    """The page has no other example, and no other column of what children get."""
    given = {"Child", "Holds", "Lists"}
    numbers = [int(it) for it in re.findall(r"(?m)^### Example ([0-9]+): ", PAGE)]
    found = [(it, title) for it in numbers for title in Example(it).children[0]
             if title not in given]
    assert found == [(it[0], it[1]) for it in COLUMNS]


# the season of FORMATS: what is typed or sent is at the left margin, what is printed is indented,
# and two dots are in place of any part of it

FORMATS = (ROOT / "docs/reference/FORMATS.md").read_text("utf-8")
BLOCK = re.compile(r"(?ms)^```text\n(.*?)^```$")
STATUS = re.compile(r"\? ([0-9])")


class Exchange:
    """What is typed or sent, its first line apart, what follows, and the exit status."""

    def __init__(self, first: str) -> None:
        self.first = first
        self.given: list[str] = []
        self.printed: list[str] = []
        self.status = 0

    def has(self, printed: str) -> bool:
        """Whether this is printed."""
        return re.fullmatch(".*".join(map(re.escape, self.text.split(".."))), printed,
                            re.DOTALL) is not None

    @property
    def text(self) -> str:
        """What is printed: lines, or a document of JSON that the page breaks."""
        is_typed = self.first.startswith("$ ")
        if " show " in self.first or not is_typed and self.printed[0].startswith("{"):
            return "".join(it.strip() for it in self.printed) + "\n" * is_typed
        return "".join(f"{it}\n" for it in self.printed)


def blocks(heading: str) -> list[str]:
    """The blocks of a part of the page."""
    found = BLOCK.findall(FORMATS.split(f"\n### {heading}\n")[1].partition("\n## ")[0]
                          .partition("\n### ")[0])
    assert found
    return found


def exchanges(text: str, begins: str) -> list[Exchange]:
    """The exchanges of a block, each of which begins with a line of this form."""
    found: list[Exchange] = []
    for line in text.splitlines():
        if re.match(begins, line):
            found.append(Exchange(line))
        elif end := STATUS.fullmatch(line):
            found[-1].status = int(end[1])
        elif line.startswith("  "):
            found[-1].printed.append(line[2:])
        else:
            found[-1].given.append(line)
    return found


TYPED = [it for text in blocks("Commands and what is printed") for it in exchanges(text, r"\$ ")]
*_SENT, WHOLE = blocks("Requests and responses")
SENT = [it for text in _SENT for it in exchanges(text, "(GET|POST) /")]


@pytest.fixture(name="played", scope="module")
def played_fixture(tmp_path_factory: pytest.TempPathFactory) -> Iterator[pathlib.Path]:
    """The register of the page after its commands, each of which printed what the page says."""
    room = tmp_path_factory.mktemp("formats")
    (room / "admissions").symlink_to(pathlib.Path(PROGRAM).resolve())
    for it in TYPED:
        ran = subprocess.run(
            ["bash", "-c", it.first.removeprefix("$ ").replace("admissions ", "./admissions ", 1)],
            cwd=room, input="".join(f"{line}\n" for line in it.given), stdout=subprocess.PIPE,
            stderr=subprocess.STDOUT, text=True, check=False)
        assert it.has(ran.stdout) and ran.returncode == it.status, (it.first, ran.stdout)
    yield room / "reg.db"


def bytes_of(text: str) -> tuple[bytes, bytes]:
    """The bytes of a request that is shown in whole, and of its response: of each the head, an
    empty line and the body.
    """
    lines = text.splitlines()
    at = next(number for number, line in enumerate(lines) if line.startswith("  "))
    asked = "\r\n".join(lines[:at])
    answered = "\r\n".join(line.removeprefix("  ") for line in lines[at:])
    return asked.encode(), answered.encode()


def test_the_requests_of_the_page_are_answered_as_it_says(played: pathlib.Path) -> None:
    """The commands before them were, by the fixture."""
    shown = subprocess.run([PROGRAM, "show", played], check=True, capture_output=True, text=True)
    with served(played) as (address, _):
        place = address.removeprefix("http://")
        for it in SENT:
            conn = http.client.HTTPConnection(place)
            method, target = it.first.split()
            sent = "".join(f"{line}\n" for line in it.given)
            conn.request(method, target, sent or None)
            found = conn.getresponse()
            body = found.read().decode()
            status, *it.printed = it.printed
            assert f"{found.status} {found.reason}" == status, it.first
            assert it.has(body), (it.first, body)
            assert it.first != "GET /register" or f"{body}\n" == shown.stdout
        asked, answered = bytes_of(WHOLE)
        with socket.create_connection(("127.0.0.1", int(place.partition(":")[2])), 60) as one:
            one.sendall(asked)
            assert b"".join(iter(lambda: one.recv(4096), b"")) == answered


def test_the_season_of_the_page_has_each_command_error_and_request() -> None:
    """Those of the rules, and those of its own tables."""
    lines = [json.loads(line) for it in TYPED if " do " in it.first for line in it.given
             if line.endswith("}")]
    assert {it["cmd"] for it in lines} - {"grant"} == set(RULES["commands"])
    names = {json.loads(line).get("name") for it in TYPED if " do " in it.first
             for line in it.printed}
    assert set(RULES["faults"]) <= names
    typed = {it.first.split()[2] for it in TYPED if it.first.startswith("$ admissions ")}
    assert typed | {"serve"} == set(re.findall(r"(?m)admissions ([a-z-]+) FILE", FORMATS))
    routes = re.findall(r"(?m)^\| ((?:GET|POST) `[^`]+`) \|", FORMATS)
    forms = [re.sub(r"\{\w+\}", "[A-Z0-9]+", it.replace("`", "")) for it in routes]
    assert len(forms) == 13
    for form in forms:
        assert any(re.fullmatch(form, it.first) for it in SENT), form
