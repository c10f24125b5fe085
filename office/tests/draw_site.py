"""The application with a machine in tests: a register that is served at one port; what does the
work of the machine's units; and a draw that is brought from state to state.
"""
import contextlib
import datetime
import html.parser
import pathlib
import shutil
from collections.abc import Callable, Iterator
from typing import Any

import pytest
import try_machine
from applications import ORIGIN, Browser, Site
from conftest import PROGRAM, ROOT, apply, child, do, make, school
from machine import office_delete, office_deletion_day
from register_files import Refused

from office.core.model import Pair
from office.web import app
from office.web.parts import Config
from office.web.people import roles
from office.web.rounds.drafts import Typed
from office.web.rounds.draws import Draws

NAME = "secondary-2025"
HAL, JANE = roles.Person("hal", "head"), roles.Person("jane", "officer")
SUP = roles.Person("sup", "supervisor")
OFFER_DAY = "2025-03-03"
RAISED = {"cmd": "raise_pan", "school": "OAK", "pan": 2}
Command = dict[str, Any]


class Machine(try_machine.Machine):
    """A machine with one register, which deletes it too."""

    requests = (*try_machine.Machine.requests, ("deletion-day", office_deletion_day),
                ("delete", office_delete))

    def __init__(self, folder: pathlib.Path, register: pathlib.Path) -> None:
        super().__init__(folder, NAME, PROGRAM)
        shutil.copy(register, self.file)

    def do(self, commands: list[Command]) -> None:
        """Has the program do commands behind the application's back."""
        self.stop()
        do(self.file, commands)
        self.start()

    def config(self) -> Config:
        """Where the application finds what it needs."""
        return Config(NAME, ORIGIN, self.address, self.state, self.copies,
                      ROOT / "deploy" / "site", "Tŷ \"Ddewi\" Council")

    @contextlib.contextmanager
    def office(self) -> Iterator[Site]:
        """The application, which ends at the end of the block."""
        found = app.create(self.config())
        # (a test wants what came of a step)
        found.extensions["office"].following.wait = 600.0
        found.extensions["office"].restoring.wait = 600.0
        found.extensions["office"].copying.wait = 600.0
        found.extensions["office"].end.steps.wait = 600.0
        found.extensions["staging"].committing.wait = 600.0
        try:
            yield Site(found)
        finally:
            found.extensions["office"].close()


@contextlib.contextmanager
def machine_over(
    folder: pathlib.Path, register: pathlib.Path, patch: pytest.MonkeyPatch
) -> Iterator[Machine]:
    """A machine whose folders are below one, with the register of a file, and whose units run."""
    patch.setenv("ADMISSIONS", PROGRAM)
    machine = Machine(folder, register)
    machine.link_tools()
    for target, name, value in machine.places():
        patch.setattr(target, name, value)
    machine.start()
    machine.thread.start()
    try:
        yield machine
    finally:
        machine.close()


class Fields(html.parser.HTMLParser):
    """The fields of a page with their values, and its texts."""

    def __init__(self, page: str) -> None:
        super().__init__()
        self.values: dict[str, str] = {}
        self.wrong: dict[str, str] = {}
        self.texts: dict[str, str] = {}
        self.at = ""
        self.feed(page)

    def handle_starttag(self, tag: str, attrs: list[tuple[str, str | None]]) -> None:
        """Takes a field, and what describes it."""
        found = {name: value or "" for name, value in attrs}
        if tag == "input" and found.get("name"):
            self.values[found["name"]] = found.get("value", "")
            if "aria-describedby" in found:
                self.wrong[found["name"]] = found["aria-describedby"]
        self.at = found.get("id", self.at)

    def handle_endtag(self, tag: str) -> None:
        """Ends what has an id."""
        self.at = ""

    def handle_data(self, data: str) -> None:
        """Takes a text of what has an id."""
        self.texts[self.at] = self.texts.get(self.at, "") + data

    def said(self, name: str) -> str:
        """What the page says of a field."""
        return self.texts.get(self.wrong.get(name, "-"), "").strip()


class Person:
    """Somebody at the draw's screens, in a browser."""

    def __init__(self, office: Site, name: str, role: str) -> None:
        self.office, self.browser = office, office.browser(name, role)

    def step(self, number: int, name: str, **given: str) -> Any:
        """Presses the button of a step on the page as it is now, or on that which cancels; also
        where neither has one for this person.
        """
        pages = [self.browser.get(f"/draws/{number}{it}") for it in ("", "/cancel")]
        assert [it.status_code for it in pages] == [200, 200], pages
        found = {it for page in pages if (it := Fields(page.text).values.get("seen"))}
        [seen] = found or {str(version(self.office, number))}
        return self.press(number, seen, name, **given)

    def press(self, number: int, seen: str, name: str, **given: str) -> Any:
        """Presses a button of a page that was shown at a version."""
        second = "" if name in ("close", "send") else "second/"
        return self.browser.post(f"/draws/{number}/{second}{name}", {"seen": seen, **given})


@pytest.fixture(name="register", scope="module")
def register_fixture(tmp_path_factory: pytest.TempPathFactory) -> pathlib.Path:
    """The file of a small register: OAK has one place and ELM nine, and five children want both,
    two of whom only a lot can separate.
    """
    commands = [school("OAK", 1), school("ELM", 9, 9000)]
    for at, home in enumerate((100, 200, 200, 300, 400), 1):
        commands += [child(at, home), apply(at, ["OAK", "ELM"])]
    path = tmp_path_factory.mktemp("small") / "reg.db"
    make(path, commands)
    return path


@pytest.fixture(name="small")
def small_fixture(
    tmp_path: pathlib.Path, register: pathlib.Path, monkeypatch: pytest.MonkeyPatch
) -> Iterator[Machine]:
    """A machine with the small register."""
    with machine_over(tmp_path, register, monkeypatch) as found:
        yield found


def first_day(office: Site) -> None:
    """Has the application see the offer day as today."""
    office.parts.draws.today = lambda: datetime.date.fromisoformat(OFFER_DAY)


def typed(office: Site, number: int, lot: Callable[[Pair, int], int]) -> None:
    """The supervisor types all lots that are not there yet."""
    _, sheet = office.parts.lots.sheet(number)
    cells = {cell: Typed("", str(lot(*cell))) for cell, text in sheet.cells().items() if not text}
    office.parts.lots.save(SUP, number, cells)


def lot_of(pair: Pair, at: int) -> int:
    """A lot that no two pairs of a school share."""
    return 100 * at + (pair[1] * 7) % 97


def version(office: Site, number: int) -> int:
    """The version of a draw."""
    return office.parts.draws.get(number).version


def sealed(office: Site, number: int) -> None:
    """Seals the lots."""
    digest = office.parts.lots.sheet(number)[1].digest()
    office.parts.lots.seal(SUP, number, version(office, number), digest)


def steps(office: Site, number: int) -> dict[str, Callable[[], object]]:
    """What brings a draw to each state."""
    draws: Draws = office.parts.draws

    def at() -> int:
        return version(office, number)

    def lots() -> None:
        draws.give(HAL, number, at())

    def seal() -> None:
        typed(office, number, lot_of)
        sealed(office, number)

    return {
        "closed": lambda: draws.close(HAL, number, at(), True),
        "copied": lambda: draws.copy(HAL, number, at()),
        "lots": lots, "sealed": seal,
        "rehearsed": lambda: draws.rehearse(HAL, number, at()),
        "confirmed": lambda: draws.confirm(JANE, number, at()),
        "sending": lambda: draws.send(HAL, number, at()),
        "audited": lambda: draws.audit(HAL, number, at()),
        "opened": lambda: draws.open(HAL, number, at()),
    }


# why a draw is given up
MISTYPED = "the lot of 2 at OAK was typed as 14, the sheet has 41"


def begun(office: Site, school_code: str | None = None, fills: int = 1,
          day: str = OFFER_DAY) -> int:
    """Begins a draw."""
    first_day(office)
    return office.parts.draws.begin(HAL, school_code, fills, datetime.date.fromisoformat(day))


def brought(office: Site, number: int, state: str) -> None:
    """Brings a draw from its state to another."""
    found = steps(office, number)
    names = ["begun", *found]
    for it in names[names.index(office.parts.draws.get(number).state) + 1:names.index(state) + 1]:
        found[it]()
    assert office.parts.draws.get(number).state == state


def given_up(office: Site, number: int) -> None:
    """Gives up a draw, by as many persons as it needs."""
    draws: Draws = office.parts.draws
    if draws.get(number).digest:
        draws.ask_give_up(HAL, number, version(office, number), MISTYPED)
        draws.confirm_give_up(JANE, number, version(office, number))
    else:
        draws.give_up(HAL, number, version(office, number), MISTYPED)
    assert draws.get(number).state == "given up"


def after_round(machine: Machine, office: Site) -> None:
    """The small register after its first round: child 1 has OAK, four wait there."""
    number = begun(office)
    brought(office, number, "opened")
    machine.do([{"cmd": "raise_pan", "school": "OAK", "pan": 4}])
    assert office.parts.desk.now().schools["OAK"].vacancies == 3


class Crash(BaseException):
    """The application ends here."""


def crashing(target: Any, name: str, is_after: bool, patch: pytest.MonkeyPatch,
             times: int = 1) -> None:
    """Has a method end the application at one of its calls: before it does anything, or after."""
    real, left = getattr(target, name), [times]

    def called(*given: Any, **more: Any) -> Any:
        left[0] -= 1
        if left[0]:
            return real(*given, **more)
        if is_after:
            real(*given, **more)
        raise Crash

    patch.setattr(target, name, called)


def no_answer(*_: object) -> dict[str, Any]:
    """What the machine says where it does not answer."""
    raise Refused("no answer")


def waiting(office: Site, number: int) -> None:
    """Has a draw wait for a button, as where its next step could not be done."""
    draws: Draws = office.parts.draws
    draws.halted(HAL, draws.get(number), "no answer")


def at_lots(office: Site, name: str = "sup") -> Browser:
    """The browser of a supervisor at the screen of lots."""
    found = office.browser(name, "supervisor")
    assert found.get("/lots/").status_code == 200
    return found
