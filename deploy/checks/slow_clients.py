"""Many slow clients at the site: while they are all open and have no answer, other clients are
served. The desk never sees a slow one. It is not in the gate, as many_clients.py is not."""

import concurrent.futures
import socket
import ssl
import time
from collections.abc import Callable
from typing import NamedTuple

import pytest

from checks.commands import amendment, compact
from checks.world import NAME, World, until

NAMED = "Fay Ford beside them"
AMEND = compact(amendment(6, NAMED, 300))
KINDS = ("silent before TLS", "silent after it", "of a slow head", "of a slow body")
OF_EACH = 10


class Slow:
    """A client that sends `first` at once, and a byte of `rest` at each call."""

    def __init__(self, connection: socket.socket, first: bytes = b"", rest: bytes = b"") -> None:
        self.connection, self.rest, self.is_broken = connection, rest, False
        if first:
            connection.sendall(first)
        connection.setblocking(False)

    def drip(self) -> None:
        """Sends one byte more."""
        try:
            if self.rest and not self.is_broken:
                self.rest = self.rest[self.connection.send(self.rest[:1]):]
        except (BlockingIOError, ssl.SSLWantWriteError):
            pass
        except OSError:
            self.is_broken = True

    def ended(self) -> bytes | None:
        """Nothing while the site waits for more; else how it ended: 'closed', or what was
        received."""
        try:
            return self.connection.recv(1000) or b"closed"
        except (BlockingIOError, ssl.SSLWantReadError):
            return None
        except OSError:
            return b"closed"


class Beside(NamedTuple):
    """The slow clients, ten of each kind, the statuses that others got meanwhile, and how many of
    the slow ones were then open and without an answer."""

    clients: list[Slow]
    statuses: list[int]
    waiting: int


def open_slow_ones(world: World) -> list[Slow]:
    """Ten clients of each kind."""
    signed_in = f"Host: {NAME}\r\n{world.field('robot')}\r\n"
    head = f"GET /child/1 HTTP/1.1\r\n{signed_in}X: {'x' * 7000}".encode()
    body = (f"POST /command HTTP/1.1\r\n{signed_in}Content-Type: application/json\r\n"
            f"Origin: https://{NAME}\r\nContent-Length: 500000\r\n\r\n{{").encode()
    makers: tuple[Callable[[], Slow], ...] = (
        lambda: Slow(world.knock()), lambda: Slow(world.connect()),
        lambda: Slow(world.connect(), b"", head),
        lambda: Slow(world.connect(), body, b" " * 100000))
    return [make() for make in makers for _ in range(OF_EACH)]


@pytest.fixture(scope="module", name="beside")
def beside_fixture(world: World) -> Beside:
    """The site closes a slow client after some seconds: if the machine was too slow to answer
    others before that, the run is void, and new ones are opened."""
    found = None
    for _ in range(5):
        clients = open_slow_ones(world)
        with concurrent.futures.ThreadPoolExecutor(8) as pool:
            asked = [pool.submit(world.ask, "/command", "robot", AMEND)]
            asked += [pool.submit(world.ask, "/child/1", "robot") for _ in range(7)]
            while not all(it.done() for it in asked):
                for client in clients:
                    client.drip()
                time.sleep(0.05)
        ends = [b"closed" if it.is_broken else it.ended() for it in clients]
        found = Beside(clients, [it.result().status for it in asked], ends.count(None))
        # (an answered one is a failure, not a matter of time)
        if found.waiting == len(clients) or set(ends) - {None, b"closed"}:
            break
        for client in clients:
            client.connection.close()
    assert found
    return found


def test_beside_20_silent_clients_and_20_that_send_a_byte_at_a_time_others_are_answered(
        beside: Beside) -> None:
    assert beside.statuses == [200] * 8


def test_all_40_slow_clients_are_still_open_then_and_have_no_answer(beside: Beside) -> None:
    assert beside.waiting == 40


@pytest.mark.usefixtures("beside")
def test_a_command_beside_slow_clients_is_done(world: World) -> None:
    assert NAMED in world.letter(6)


@pytest.mark.parametrize("kind", KINDS)
def test_the_site_gives_up_each_slow_client_without_an_answer(beside: Beside, kind: str) -> None:
    begin = KINDS.index(kind) * OF_EACH
    clients = beside.clients[begin:begin + OF_EACH]
    ended = [until(client.ended, f"the end of a client {kind}") for client in clients]
    assert ended == [b"closed"] * OF_EACH


@pytest.mark.usefixtures("beside")
def test_the_desk_has_seen_no_slow_client(world: World) -> None:
    assert "fault: Read" not in (world.room / "log/desk").read_text()


def test_beside_over_1536_half_heads_and_silent_clients_of_one_address_another_is_answered(
        world: World, record_property: Callable[[str, object], None]) -> None:
    """These are more than Debian's nginx takes connections (768 for each of its two processes
    here). Connections are taken in their order, so all of these are taken when the other one has
    its answer. A silent one costs the machine next to nothing, so even a loaded one opens enough
    of them within the ten seconds after which the site gives them up."""
    half, silent, head = 100, 1600, f"GET /child/1 HTTP/1.1\r\nHost: {NAME}\r\n".encode()
    still_open = status = 0
    for _ in range(5):
        clients = [Slow(world.connect("127.0.0.2"), head) for _ in range(half)]
        clients += [Slow(world.knock("127.0.0.2")) for _ in range(silent)]
        status = world.ask("/child/1", "robot").status
        still_open = sum(it.ended() is None for it in clients)
        for it in clients:
            it.connection.close()
        # (where ten seconds were too few all the same, they are opened once more)
        if still_open > 1536:
            break
    record_property(f"open of {half + silent} when the other client had its answer", still_open)
    assert still_open > 1536
    assert status == 200
