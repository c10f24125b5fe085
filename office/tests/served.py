"""Registers that are served in tests by the program."""
import contextlib
import http.client
import json
import pathlib
import socket
import subprocess
from collections.abc import Iterable, Iterator
from typing import Any

from conftest import PROGRAM


@contextlib.contextmanager
def served(path: pathlib.Path | str) -> Iterator[tuple[str, subprocess.Popen[str]]]:
    """The address at which the program serves a register, and its run."""
    with socket.socket() as held:
        # (a port that is bound so is given to nobody else, and the program can listen on it)
        held.setsockopt(socket.SOL_SOCKET, socket.SO_REUSEADDR, 1)
        held.bind(("127.0.0.1", 0))
        port = held.getsockname()[1]
        words = [PROGRAM, "serve", str(path), str(port)]
        with subprocess.Popen(words, stdout=subprocess.PIPE, text=True) as run:
            try:
                assert run.stdout and run.stdout.readline() == f"serving on 127.0.0.1:{port}\n"
                yield f"http://127.0.0.1:{port}", run
            finally:
                run.terminate()
                run.wait()


def do_over(address: str, commands: Iterable[dict[str, Any]]) -> bool:
    """Sends commands to a register that is served, each of which must be done."""
    conn = http.client.HTTPConnection(address.removeprefix("http://"))
    for it in commands:
        conn.request("POST", "/command", json.dumps(it))
        assert json.loads(conn.getresponse().read())["done"], it
        conn.close()
    return True
