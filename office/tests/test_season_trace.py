"""A season that six people live over HTTP: what is observed of it is what the committed files of
season_trace/ have. These were recorded from the product as it was: a difference says that behaviour
moved, and not that it is wrong. If it was meant to move, `season_trace.py --update` writes them
anew, and the change is reviewed with the others.
"""
import contextlib
import datetime
import difflib
import http.client
import os
import pathlib
import signal
import threading
from typing import Any

import pytest
from conftest import make
from season_colleague import CASES, Case
from season_hands import Room, room
from season_kills import SENDERS, Do, Sender
from season_observed import EXPECTED, KINDS, Trace
from season_trace import live

# lines of a difference that are shown
MOST_LINES = 200


@pytest.fixture(scope="module", name="folder")
def folder_fixture(tmp_path_factory: pytest.TempPathFactory) -> pathlib.Path:
    """Where the season is lived."""
    return tmp_path_factory.mktemp("season")


@pytest.fixture(scope="module", name="trace")
def trace_fixture(folder: pathlib.Path) -> Trace:
    """A season from its first sign-in to its deletion."""
    return live(folder)


@pytest.mark.parametrize("kind", KINDS)
def test_a_season(trace: Trace, kind: str) -> None:
    """What is observed of it is as it was."""
    path = EXPECTED / f"{kind}.txt"
    was, now = path.read_text("utf-8").splitlines(), trace.found()[kind].splitlines()
    assert len(was) > 40
    lines = list(difflib.unified_diff(was, now, f"{path.name}, as it was", "now", "", "", 1, ""))
    if lines:
        cut = [f"and {len(lines) - MOST_LINES} lines more"] if len(lines) > MOST_LINES else []
        pytest.fail("\n".join([*lines[:MOST_LINES], *cut]), pytrace=False)


def see_refused(lived: Room, case: Case) -> None:
    """A button of a page that a colleague has outdated: it is refused, nothing is sent, and the
    register is as the colleague left it.
    """
    hand, button, typed = case(lived)
    document, passed = lived.document(), len(lived.way.passed)
    hand.press(button, typed, status=409)
    assert hand.page.said(), case.__name__
    assert lived.way.passed[passed:] == [] and lived.document() == document, case.__name__


@pytest.mark.usefixtures("trace")
@pytest.mark.parametrize("kept", CASES)
def test_a_colleague_was_first(folder: pathlib.Path, tmp_path: pathlib.Path, kept: str) -> None:
    """What is shown is changed by a colleague before the button is pressed."""
    day, cases = CASES[kept]
    make(tmp_path / "reg.db", [])
    with room(tmp_path / "machine", tmp_path / "reg.db", folder / kept) as lived:
        lived.today(day)
        lived.begin()
        for it in cases:
            see_refused(lived, it)


# a register's document, and what passed to it
Came = tuple[dict[str, Any], list[tuple[str, bytes]]]
# when the application is killed: at the request, before it passes, after it, or after its answer
WHEN = ("came", "passed", "answered")
MOMENTS = [(name, at, when) for name, it in SENDERS.items() for at in range(1, it.many + 1)
           for when in WHEN]


def moments() -> list[tuple[str, int, str]]:
    """The moments that are tried: all, if SEASON_KILLS is `all`; else two by the day's number."""
    if os.environ.get("SEASON_KILLS") == "all":
        return MOMENTS
    first = datetime.date.today().toordinal() * 2 % len(MOMENTS)
    return MOMENTS[first:first + 2]


def killed(lived: Room, send: Do, at: int, when: str) -> None:
    """Something is sent, and the application is killed at one of the requests to the register."""
    assert lived.run
    dead, group = threading.Event(), lived.run.pid

    def end() -> None:
        os.killpg(group, signal.SIGKILL)
        dead.set()

    lived.way.trap = at, when, end
    with contextlib.suppress(OSError, http.client.HTTPException):
        send(lived)
    assert dead.wait(120), "nothing was killed"
    lived.kill()


def sent_by(
    sender: Sender, folder: pathlib.Path, kept: pathlib.Path, at: int = 0, when: str = "",
) -> Came:
    """The register after a sender, and what it sent; killed at a moment, if one is named."""
    folder.mkdir()
    make(folder / "reg.db", [])
    with room(folder / "machine", folder / "reg.db", kept / sender.kept) as lived:
        lived.today(sender.day)
        lived.begin()
        sender.leads(lived)
        before = len(lived.way.passed)
        if at:
            killed(lived, sender.send, at, when)
            lived.begin()
        else:
            sender.send(lived)
        sender.goes_on(lived)
        return lived.document(), lived.way.passed[before:]


@pytest.fixture(scope="module", name="whole")
def whole_fixture() -> dict[str, Came]:
    """What each sender comes to when nobody is killed, by their names, once it is known."""
    return {}


@pytest.mark.usefixtures("trace")
@pytest.mark.parametrize("moment", moments(), ids=str)
def test_killed(
    folder: pathlib.Path, tmp_path: pathlib.Path, moment: tuple[str, int, str],
    whole: dict[str, Came],
) -> None:
    """The register is as if nobody had been killed, and each command passed once."""
    name, at, when = moment
    sender = SENDERS[name]
    if name not in whole:
        whole[name] = sent_by(sender, tmp_path / "whole", folder)
        assert len(whole[name][1]) == sender.many
    document, passed = sent_by(sender, tmp_path / "killed", folder, at, when)
    assert passed == whole[name][1]
    assert document == whole[name][0]
