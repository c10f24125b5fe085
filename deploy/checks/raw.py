"""Requests that curl would not send as they are."""

from checks.world import World


def raw(world: World, begin: str, *fields: str, source: str = "127.0.0.1") -> str:
    """What is answered to a head, from an address of this machine. Texts are sent in Latin 1, byte
    for byte."""
    head = "\r\n".join((f"{begin} HTTP/1.1", f"Host: {world.host}", "Connection: close", *fields))
    with world.connect(source) as it:
        it.sendall(head.encode("latin-1") + b"\r\n\r\n")
        return b"".join(iter(lambda: it.recv(65536), b"")).decode("latin-1")


def status_of(answer: str) -> int:
    """The status of such an answer."""
    return int(answer.split(" ", 2)[1])
