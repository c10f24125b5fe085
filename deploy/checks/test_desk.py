"""Desk and application behind the site: where the desk can be reached, a client that leaves, and a
desk or an application that is killed. What was answered as done is stored, and the history says of
each command what became of it."""

import hashlib
import json
import os
import pathlib
import re
import signal
import ssl
from typing import Any, NamedTuple

import pytest

from checks.commands import named
from checks.expected import headers_differ, units_differ
from checks.raw import raw, status_of
from checks.world import NAME, Answer, World, until

# What may be before the path of a program in a unit: - it may fail, + it runs as root, ..
SIGNS = "[-@:+!]*"


# The units as they are installed, and as systemd reads them, with the folders of the room


@pytest.fixture(scope="module", name="units")
def units_fixture(world: World) -> list[pathlib.Path]:
    """Copies of the units, which start the programs of the room."""
    usr, folder = world.installation.usr, world.room / "units"
    folder.mkdir()
    for unit in (world.prefix / "lib/systemd/system").glob("admissions*"):
        text = re.sub(f"=({SIGNS}){usr}/(s?bin|lib/admissions)/", rf"=\1{world.prefix}/\2/",
                      unit.read_text())
        (folder / unit.name).write_text(text)
    return sorted(folder.iterdir())


def test_the_units_have_the_lines_of_the_list_and_no_others(world: World) -> None:
    assert units_differ(world.prefix / "lib/systemd/system", world.installation.usr) == []


def test_each_program_that_a_unit_starts_is_there_and_the_products_own_are_in_the_room(
        world: World, units: list[pathlib.Path]) -> None:
    # (systemd does not look for a program that may fail)
    started = {path for unit in units
               for path in re.findall(f"(?m)^Exec\\w+={SIGNS}(\\S+)", unit.read_text())}
    elsewhere = f"{world.installation.usr}/"
    assert started
    assert [path for path in sorted(started)
            if not os.access(path, os.X_OK) or path.startswith(elsewhere)] == []


def test_systemd_accepts_the_units_without_a_remark(
        world: World, units: list[pathlib.Path]) -> None:
    verified = world.run("systemd-analyze", "verify", *units)
    assert (verified.returncode, verified.stdout + verified.stderr) == (0, "")


# Where the desk is reached


def request_for_child_6(world: World) -> tuple[str, ...]:
    """What asks the desk without the site."""
    return ("curl", "--silent", "--max-time", "60", f"http://127.0.0.1:{world.desk_port}/child/6")


def test_the_desk_is_not_reached_at_its_port_outside_of_its_network(world: World) -> None:
    assert '{"child":6,' not in world.run(*request_for_child_6(world)).stdout


def test_the_desk_is_reached_inside_of_its_network(world: World) -> None:
    answer = world.run(*world.inside(*request_for_child_6(world))).stdout
    assert answer.startswith('{"child":6,')


# A client that leaves, and a desk or an application that is killed


def begin(world: World, body: str) -> ssl.SSLSocket:
    """Sends a command to a desk that is suspended, and returns when it is there."""
    head = (f"POST /command HTTP/1.1\r\nHost: {NAME}\r\n{world.field('robot')}\r\n"
            f"Content-Type: application/json\r\nOrigin: https://{NAME}\r\n"
            f"Content-Length: {len(body)}\r\nConnection: close\r\n\r\n")
    world.stop_desk()
    client = world.connect()
    client.sendall(f"{head}{body}".encode())
    until(world.at_desk, "the command before the suspended desk")
    return client


def received(client: ssl.SSLSocket) -> tuple[int, Any]:
    """The status and the JSON that a client gets."""
    with client:
        answer = b"".join(iter(lambda: client.recv(65536), b"")).decode()
    head, _, body = answer.partition("\r\n\r\n")
    if "chunked" in head:
        body = body.split("\r\n")[1]
    return int(head.split(" ", 2)[1]), json.loads(body)


def known(world: World, body: str) -> list[bool | None]:
    """What the history says of a command."""
    return [it for command, it in world.outcomes() if command == json.loads(body)]


def test_a_command_whose_sender_leaves_when_it_is_at_the_desk_is_done_and_recorded(
        world: World) -> None:
    body = named("left")
    client = begin(world, body)
    client.close()
    assert known(world, body) == [None]
    world.continue_desk()
    assert until(lambda: known(world, body) != [None] and known(world, body),
                 "its answer in the history") == [True]
    assert "Fay Ford left" in world.letter(6)


class Killed(NamedTuple):
    """The letter of a child before the desk was killed, the answer while there was none, and the
    status of the program, which took in the log."""

    letter: str
    answer: Answer
    status: int


@pytest.fixture(scope="module", name="killed")
def killed_fixture(world: World) -> Killed:
    """Kills the desk, and starts it again."""
    letter = world.letter(6)
    world.end(world.desk, signal.SIGKILL)
    answer = world.ask("/child/1", "robot")
    status = world.run("admissions", "do", world.file).returncode
    world.start_desk()
    return Killed(letter, answer, status)


def test_while_there_is_no_desk_the_application_says_so(killed: Killed) -> None:
    answer = killed.answer
    said = json.loads(answer.body)
    assert (answer.status, said["unanswered"], headers_differ(answer.fields)) == (502, True, [])
    assert said["reason"].startswith("the register does not answer now: ")


def test_the_log_is_taken_in_after_a_kill(killed: Killed) -> None:
    assert killed.status == 0


def test_a_desk_that_was_restarted_has_what_was_done_before(world: World, killed: Killed) -> None:
    answer = world.ask("/child/6/letter", "robot")
    assert (answer.status, answer.body) == (200, killed.letter)
    assert "Fay Ford left" in answer.body


def test_a_command_while_there_is_no_desk_is_not_sent_and_says_so(world: World) -> None:
    body = named("of no desk")
    world.end(world.desk)
    answer = world.ask("/command", "robot", body)
    world.start_desk()
    said = json.loads(answer.body)
    # (the door is there: that it leads nowhere is seen when the register is asked)
    assert (answer.status, "done" in said) in [(502, False), (503, False)]
    assert world.ask("/command", "robot", named("after no desk")).status == 200
    assert known(world, body) in ([], [False])
    assert "Fay Ford after no desk" in world.letter(6)


def test_a_desk_that_is_killed_with_a_command_is_said_to_be_uncertain_and_looked_up_later(
        world: World) -> None:
    """The command was not read, so it is not done; and it is not sent again."""
    body = named("killed")
    client = begin(world, body)
    world.end(world.desk, signal.SIGKILL)
    status, said = received(client)
    assert (status, said["unanswered"], "may" not in said) == (502, True, True)
    assert "Whether it is done is looked up before anything else is sent." in said["reason"]
    assert known(world, body) == [None]
    world.start_desk()
    assert world.ask("/command", "robot", named("after a kill")).status == 200
    assert known(world, body) == [False]
    assert "Fay Ford after a kill" in world.letter(6)


def test_an_application_that_is_killed_with_a_command_finds_out_that_it_is_done(
        world: World) -> None:
    """The desk had it all, and does it; the site has no answer, and does not send it again."""
    body = named("without an answer")
    client = begin(world, body)
    world.end(world.office, signal.SIGKILL)
    assert received(client) == (502, {"unanswered": True})
    world.continue_desk()
    world.start_office()
    assert known(world, body) == [None]
    assert "Fay Ford without an answer" in world.letter(6)
    assert world.ask("/command", "robot", named("after it")).status == 200
    assert known(world, body) == [True]
    assert "Fay Ford after it" in world.letter(6)


def test_without_room_for_the_history_nothing_is_sent_and_afterwards_all_goes_on(
        world: World) -> None:
    """As on a full disk. (The token of a program needs no room.)"""
    worker = world.run("pgrep", "--parent", world.office.pid).stdout.strip()
    history = world.room / "office/history.jsonl"
    before, letter = history.read_bytes(), world.letter(6)
    body = named("of a full disk")
    world.run("prlimit", "--pid", worker, f"--fsize={len(before)}:unlimited")
    try:
        answer = world.ask("/command", "robot", body)
    finally:
        world.run("prlimit", "--pid", worker, "--fsize=unlimited:unlimited")
    said = json.loads(answer.body)
    assert (answer.status, said["outcome"]) == (503, "unsent")
    assert said["reason"].startswith("Nothing was recorded: the history cannot be written")
    assert (history.read_bytes(), world.letter(6)) == (before, letter)
    assert world.ask("/command", "robot", named("with room again")).status == 200
    assert "Fay Ford with room again" in world.letter(6)


def test_a_session_outlives_the_application(world: World) -> None:
    field = world.field("jane")
    world.end(world.office)
    world.start_office()
    assert status_of(raw(world, "GET /children/1", field)) == 200


def test_the_history_is_one_chain_after_all_this(world: World) -> None:
    """Each line has the digest of the one before, and the number of its place."""
    lines = (world.room / "office/history.jsonl").read_bytes().splitlines(keepends=True)
    before = "0" * 64
    for number, line in enumerate(lines, 1):
        entry = json.loads(line)
        assert (entry["n"], entry["before"]) == (number, before)
        before = hashlib.sha256(line).hexdigest()
    assert len(lines) > 100
