"""Two registers on one machine, secondary 2025 and primary 2026: each has its site, application,
users, network and history, and nothing of one is seen at the other."""

import concurrent.futures
import json
from typing import NamedTuple

import pytest

from checks.commands import amendment, compact
from checks.primary import MAIL
from checks.raw import raw, status_of
from checks.world import Answer, World, basic

NAMED = "Yan Yew-Oak"
AMEND = compact(amendment(21, NAMED, 200))


@pytest.fixture(scope="module", name="other")
def other_fixture(world: World) -> World:
    """The second register."""
    return world.beside[0]


# Networks


def test_each_register_has_a_network_of_its_own(world: World, other: World) -> None:
    one, two = (it.run("readlink", f"/proc/{it.holder.pid}/ns/net").stdout
                for it in (world, other))
    assert one and two
    assert one != two


def test_a_desk_is_not_reached_in_the_network_of_the_other_one(
        world: World, other: World) -> None:
    asked = other.run(*other.inside(
        "curl", "--silent", "--max-time", "20", "--output", "/dev/null", "--write-out",
        "%{exitcode}", f"http://127.0.0.1:{world.desk_port}/child/1"))
    assert asked.stdout == "7"


# Users


def test_each_register_has_a_user_of_the_office_and_its_name(world: World, other: World) -> None:
    assert "secondary-2025" in world.ask("/password", "jane").body
    assert "primary-2026" in other.ask("/password", "mary").body


def test_a_user_of_one_is_nobody_at_the_other(world: World, other: World) -> None:
    wrong = [other.sign_in("jane", world.passwords["jane"], "--interface", "127.0.2.60"),
             world.sign_in("mary", other.passwords["mary"], "--interface", "127.0.2.60")]
    assert [(it.status, it.session) for it in wrong] == [(403, "")] * 2


def test_a_session_and_a_token_of_one_are_none_at_the_other(world: World, other: World) -> None:
    token = basic("robot", world.passwords["robot"])
    for one, who, path, foreign in (
            (other, "mary", "/children/1", world.field("jane")),
            (other, "robot", "/child/1", token),
            (world, "jane", "/children/1", other.field("mary"))):
        assert status_of(raw(one, f"GET {path}", foreign)) == 401
        assert status_of(raw(one, f"GET {path}", one.field(who))) == 200


def test_a_mail_address_is_a_name_with_its_role_and_is_whole_in_the_history(
        other: World) -> None:
    assert other.ask("/schools/A", MAIL).status == 200
    assert other.ask("/schools/B", MAIL).status == 403
    wrong = other.sign_in(MAIL, "wrong", "--interface", "127.0.2.61")
    assert (wrong.status, wrong.session) == (403, "")
    lines = [(it["what"], it["about"]) for it in other.entries() if it["who"] == MAIL]
    assert lines == [("signed in", {}),
                     ("refused", {"asked": "GET /schools/B", "role": "school-A"})]


def test_a_password_of_one_is_none_at_the_other_for_a_name_that_both_have(
        world: World, other: World) -> None:
    wrong = other.sign_in("alpha", world.passwords["alpha"], "--interface", "127.0.2.62")
    assert (wrong.status, wrong.session) == (403, "")


def test_a_school_reads_the_list_of_its_own_register(world: World, other: World) -> None:
    lists = [it.ask("/school/A/waiting", "lists").body.splitlines()[0] for it in (world, other)]
    assert lists == ["Waiting list of A Alpha", "Waiting list of A Ash Infants"]


# A command


class Sent(NamedTuple):
    """The answers to a command that names the other site, and to one that names its own; and log
    of the desk, history and document of the first register, before and after."""

    refused: Answer
    done: Answer
    before: tuple[object, ...]
    after: tuple[object, ...]


@pytest.fixture(scope="module", name="sent")
def sent_fixture(world: World, other: World) -> Sent:
    """Sends it to the second register."""

    def state() -> tuple[object, ...]:
        wal = world.file.with_name("reg.db-wal")
        return wal.read_bytes(), world.entries(), world.ask("/register", "robot").body

    before = state()
    refused = other.ask("/command", "robot", AMEND, origin=f"https://{world.host}")
    return Sent(refused, other.ask("/command", "robot", AMEND), before, state())


def test_a_command_that_names_the_other_site_is_refused(sent: Sent) -> None:
    assert sent.refused.status == 403


def test_a_command_that_names_its_own_site_is_done(sent: Sent) -> None:
    assert sent.done.body == '{"done":true}'


@pytest.mark.usefixtures("sent")
def test_the_command_is_in_the_history_of_its_register(other: World) -> None:
    assert other.sent() == [json.loads(AMEND)]
    [answer] = [it["about"]["answer"] for it in other.entries() if it["what"] == "answer"]
    assert answer == {"done": True}


@pytest.mark.usefixtures("sent")
def test_the_command_is_in_its_register(other: World) -> None:
    children = json.loads(other.ask("/register", "robot").body)["children"]
    assert [it["name"] for it in children] == ["Zoe Zeal", NAMED]


def test_nothing_of_the_command_is_at_the_other_register(sent: Sent) -> None:
    assert sent.after == sent.before


def test_the_letter_of_child_1_is_that_of_its_own_register(world: World, other: World) -> None:
    letters = [it.ask("/child/1/letter", "robot").body.splitlines()[:2] for it in (world, other)]
    assert letters == [["Admission 2025 secondary", "Child 1 Ada Abel"],
                       ["Admission 2026 primary", "Child 1 Zoe Zeal"]]


# One register is restarted


def test_while_one_desk_is_away_its_site_says_so_and_the_other_register_goes_on(
        world: World, other: World) -> None:
    other.end(other.desk)
    try:
        statuses = other.ask("/child/1", "robot").status, world.ask("/child/1", "robot").status
    finally:
        other.start_desk()
    assert statuses == (502, 200)


def test_while_one_application_is_away_the_other_register_goes_on_and_its_own_waits(
        world: World, other: World) -> None:
    """The socket is there meanwhile, so what comes is answered when the application is."""
    with concurrent.futures.ThreadPoolExecutor(1) as pool:
        other.end(other.office)
        waiting = pool.submit(other.ask, "/child/1", "robot")
        try:
            assert world.ask("/child/1", "robot").status == 200
            assert not waiting.done()
        finally:
            other.start_office()
        assert waiting.result().status == 200


def test_each_register_is_as_it_was_before_the_restarts(world: World, other: World) -> None:
    letter = other.ask("/child/21/letter", "robot").body
    assert letter.splitlines()[1] == f"Child 21 {NAMED}"
    assert (world.desk.poll(), world.office.poll()) == (None, None)
