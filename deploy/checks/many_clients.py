"""Many clients at once: hundreds of requests, of wrong passwords and of commands, also while the
application begins again under them; and how long a wrong sign-in takes. None of it is in the gate:
what is seen depends on how much of the machine is free, and a loaded one takes minutes for it."""

import collections
import concurrent.futures
import re
import signal
import threading
import time
import urllib.parse
from collections.abc import Callable
from typing import NamedTuple

import pytest

from checks.commands import named
from checks.expected import headers_differ
from checks.world import FORM, NAME, Answer, World, until

# a wait of so many seconds does not end while others are asked
LONG = 8
DONE, BUSY = (200, '{"done":true}'), (503, '{"busy":true}')
REFUSED = 503, ('{"reason":"you have asked for very much at once: try again in a minute",'
                '"status":503}')
# so many requests of programs are served, or wait for that
WAIT = 200
ROUTES = ("/child/1", "/child/2/letter", "/school/A/waiting", "/round/1")


def done(world: World) -> list[str]:
    """The names that were given by commands that are done by the history, in their order."""
    return [command["name"] for command, is_done in world.outcomes()
            if is_done and "name" in command]


# Many clients


def ask_many(world: World, count: int) -> tuple[list[Answer], float]:
    """Sends requests at once, one in four a command, and returns the answers and the seconds of
    the slowest."""
    gate = threading.Barrier(count)

    def one(number: int) -> tuple[Answer, float]:
        gate.wait()
        began = time.monotonic()
        if number % 4 == 0:
            answer = world.ask("/command", "robot", named(number))
        else:
            answer = world.ask(ROUTES[number % 4], "robot")
        return answer, time.monotonic() - began

    with concurrent.futures.ThreadPoolExecutor(count) as pool:
        done = list(pool.map(one, range(count)))
    return [answer for answer, _ in done], max(seconds for _, seconds in done)


def test_200_clients_at_once_all_get_their_answer_and_the_register_has_one_of_their_commands(
        world: World, record_property: Callable[[str, object], None]) -> None:
    answers, seconds = ask_many(world, 200)
    record_property("seconds of the slowest, its own start included", f"{seconds:.1f}")
    assert [answer.status for answer in answers].count(200) == 200
    assert re.search(r"Fay Ford \d+\n", world.letter(6))
    numbers = {f"Fay Ford {number}" for number in range(0, 200, 4)}
    assert set(done(world)) >= numbers


class Crowd(NamedTuple):
    """The answers to 300 requests of a program at once while the desk is suspended, and the one
    that the sign-in gave meanwhile."""

    program: list[Answer]
    person: Answer

    def busy(self) -> list[Answer]:
        """Those for whom the site has no place."""
        return [it for it in self.program if it.body == BUSY[1]]


@pytest.fixture(scope="module", name="crowd")
def crowd_fixture(world: World) -> Crowd:
    """Asks, until those that wait are left."""
    world.stop_desk()
    try:
        with concurrent.futures.ThreadPoolExecutor(300) as pool:
            asked = [pool.submit(world.ask, "/child/1", "robot") for _ in range(300)]
            until(lambda: sum(it.done() for it in asked) >= 300 - WAIT,
                  "the answers to those who do not wait")
            person = world.ask("/sign-in")
            world.continue_desk()
            return Crowd([it.result() for it in asked], person)
    finally:
        world.continue_desk()


def test_of_300_at_once_on_a_suspended_desk_200_wait_and_get_their_answer(crowd: Crowd) -> None:
    assert collections.Counter(it.status for it in crowd.program) == {200: WAIT, 503: 300 - WAIT}
    assert {(it.status, it.body) for it in crowd.program if it.status == 503} == {REFUSED, BUSY}


def test_a_person_finds_a_place_beside_a_program_that_asks_for_more_than_wait(
        crowd: Crowd) -> None:
    assert crowd.person.status == 200


def test_who_has_no_place_in_the_queue_gets_each_header_of_the_list(crowd: Crowd) -> None:
    assert [(headers_differ(it.fields), it.fields["content-type"]) for it in crowd.busy()[:1]] == [
        ([], "application/json")]


def test_who_has_no_place_in_the_queue_is_asked_to_retry(crowd: Crowd) -> None:
    assert {(it.status, it.fields.get("retry-after")) for it in crowd.busy()} == {(503, "2")}


def test_of_300_commands_at_once_each_is_done_or_was_not_passed_on(world: World) -> None:
    """Two hundred of a program wait for those that the application works on, and are done in their
    turn: what is beyond them, or has no place in the queue, is not passed on."""
    world.stop_desk()
    try:
        with concurrent.futures.ThreadPoolExecutor(300) as pool:
            asked = [pool.submit(world.ask, "/command", "robot", named(f"crowd {number}"))
                     for number in range(300)]
            until(lambda: sum(it.done() for it in asked) >= 300 - WAIT,
                  "the answers to those who do not wait")
            world.continue_desk()
            answers = [it.result() for it in asked]
    finally:
        world.continue_desk()
    came = {(it.status, it.body) for it in answers}
    assert {DONE, REFUSED} <= came <= {DONE, REFUSED, BUSY}
    names = [it for it in done(world) if "crowd" in it]
    assert len(names) >= 200
    answered = [f"Fay Ford crowd {number}" for number, it in enumerate(answers)
                if it.status == 200]
    assert sorted(names) == sorted(answered)
    assert f"{names[-1]}\n" in world.letter(6)


@pytest.mark.parametrize("how", [signal.SIGTERM, signal.SIGKILL])
def test_an_application_that_begins_again_under_a_load_loses_nothing(
        world: World, how: signal.Signals) -> None:
    """What is asked meanwhile waits, or is answered that it was not done or may be."""
    is_over = threading.Event()

    def one(thread: int) -> list[tuple[str, Answer]]:
        found: list[tuple[str, Answer]] = []
        while not is_over.is_set():
            name = f"{how.name} {thread} {len(found)}"
            found.append((f"Fay Ford {name}", world.ask("/command", "robot", named(name))))
        return found

    with concurrent.futures.ThreadPoolExecutor(12) as pool:
        asked = [pool.submit(one, thread) for thread in range(12)]
        try:
            for _ in range(3):
                count = len(world.entries())
                until(lambda: len(world.entries()) > count + 20, "commands in the history")
                world.end(world.office, how)
                world.start_office()
        finally:
            is_over.set()
        answers = [it for thread in asked for it in thread.result()]
    assert world.ask("/command", "robot", named("at last")).status == 200
    assert {it.status for _, it in answers} <= {200, 502, 503}
    names = done(world)
    assert [name for name, it in answers if it.status == 200 and names.count(name) != 1] == []
    unsent = [name for name, it in answers if it.status == 503]
    assert [name for name in unsent if name in names] == []
    assert None not in [it for _, it in world.outcomes()]
    assert names[-1] == "Fay Ford at last"
    assert "Fay Ford at last\n" in world.letter(6)
    assert world.ask("/child/1", "robot").status == 200


# Many wrong passwords from one address: all are refused, most of them without a look at what was
# sent; and nobody else is kept out


class Tries(NamedTuple):
    """The answers to 200 wrong passwords, and in how many seconds they came; and meanwhile from
    there to the right one, to none, to a session and to a token, and from another address to the
    right one; and how many entries the history has more."""

    wrong: list[Answer]
    seconds: float
    right: Answer
    unsigned: Answer
    session: Answer
    token: Answer
    elsewhere: Answer
    lines: int

    def refused(self) -> list[Answer]:
        """Those that did not reach the application."""
        return [it for it in self.wrong if it.status == 429]


def waited(world: World, *here: str) -> int:
    """For how many seconds nothing more may be tried there, at whose end another try makes them
    more: who asks before that begins them anew."""
    found = world.sign_in("rita", "wrong", *here).wait
    time.sleep(found if found < LONG else 0)
    return found


@pytest.fixture(scope="module", name="tries")
def tries_fixture(world: World) -> Tries:
    """Sends them."""
    here, elsewhere = ("--interface", "127.0.0.3"), ("--interface", "127.0.0.5")
    world.ask("/children/1", "jane")
    before, began = len(world.entries()), time.monotonic()
    with concurrent.futures.ThreadPoolExecutor(40) as pool:
        wrong = list(pool.map(lambda _: world.sign_in("rita", "wrong", *here), range(200)))
    seconds, lines = time.monotonic() - began, len(world.entries()) - before
    until(lambda: waited(world, *here) >= LONG, "a wait of some seconds")
    # (the site may let one pass again only after a second)
    answers = (world.sign_in("rita", world.passwords["rita"], *here) for _ in range(100))
    right = next(it for it in answers if it.status != 429)
    return Tries(wrong, seconds, right, world.ask("/child/1", options=here),
                 world.ask("/children/1", "jane", options=here),
                 world.ask("/child/1", "robot", options=here),
                 world.sign_in("rita", world.passwords["rita"], *elsewhere), lines)


def test_of_200_wrong_passwords_from_one_address_all_are_refused(tries: Tries) -> None:
    assert {403, 429} <= {it.status for it in tries.wrong} <= {403, 429, 503}
    assert {it.session for it in tries.wrong} == {""}


def test_at_most_two_each_second_after_the_first_thirty_reach_the_application(
        tries: Tries) -> None:
    assert 30 <= len(tries.wrong) - len(tries.refused()) <= 33 + 2 * tries.seconds


def test_a_wrong_sign_in_leaves_no_line_in_the_history(tries: Tries) -> None:
    assert tries.lines == 0


def test_who_is_not_looked_at_is_asked_to_wait(tries: Tries) -> None:
    assert {(it.body, it.fields.get("retry-after")) for it in tries.refused()} == {
        ('{"reason":"too many requests or sign-ins from this address: wait some seconds",'
         '"status":429}', "10")}


def test_who_is_not_looked_at_gets_each_header_of_the_list(tries: Tries) -> None:
    assert [headers_differ(it.fields) for it in tries.refused()[:1]] == [[]]


def test_the_right_password_is_not_tried_from_there_meanwhile_and_who_has_it_learns_that(
        tries: Tries) -> None:
    """Otherwise one that is guessed at the tenth try would be found."""
    assert (tries.right.status, tries.right.session) == (403, "")
    assert re.search("Too many attempts failed. Try again in [0-9]+ seconds?", tries.right.body)


def test_who_is_signed_in_and_a_program_go_on_there_meanwhile(tries: Tries) -> None:
    assert (tries.session.status, tries.token.status) == (200, 200)


def test_who_gives_no_password_is_asked_for_one_there_meanwhile(tries: Tries) -> None:
    assert tries.unsigned.status == 401


def test_another_address_is_not_concerned(tries: Tries) -> None:
    assert (tries.elsewhere.status, bool(tries.elsewhere.session)) == (303, True)


# How long a wrong sign-in takes with a name that is there, whose password is looked at for some
# tenths of a second, and with others


@pytest.fixture(scope="module", name="times")
def times_fixture(world: World) -> dict[str, float]:
    """The seconds of a right sign-in, and of wrong ones with each kind of name. Whoever else uses
    the processors can only make an answer later: so the quickest ones are compared, and more are
    asked for until those are near each other. Each comes from an address that has not tried yet."""
    kinds = {"right": ("jane", "jane"), "known": ("jane", "wrong"), "unknown": ("nobody", "wrong"),
             "locked": ("smith", "smith"), "a program": ("robot", "robot")}
    found = dict.fromkeys(kinds, float("inf"))
    for turn in range(40):
        for at, (kind, (name, whose)) in enumerate(kinds.items()):
            form = urllib.parse.urlencode(
                {"name": name, "password": world.passwords.get(whose, whose)})
            found[kind] = min(found[kind], seconds(world, form, f"127.0.{3 + at}.{turn + 1}"))
        if turn >= 4 and apart(found) < found["right"] / 4:
            break
    return found


def apart(times: dict[str, float]) -> float:
    """How far the times of wrong sign-ins are apart."""
    wrong = [it for kind, it in times.items() if kind != "right"]
    return max(wrong) - min(wrong)


def seconds(world: World, form: str, address: str) -> float:
    """How long the first byte of an answer to a sign-in takes."""
    with world.connect(address) as it:
        began = time.monotonic()
        it.sendall(f"POST /sign-in HTTP/1.1\r\nHost: {NAME}\r\nOrigin: https://{NAME}\r\n"
                   f"Content-Type: {FORM}\r\nContent-Length: {len(form)}\r\n\r\n"
                   f"{form}".encode())
        it.recv(1)
        return time.monotonic() - began


def test_the_time_of_an_answer_does_not_tell_which_names_there_are(
        times: dict[str, float], record_property: Callable[[str, object], None]) -> None:
    record_property("seconds", ", ".join(f"{kind} {it:.4f}" for kind, it in times.items()))
    assert times["right"] > 0.02
    assert apart(times) < times["right"] / 4
