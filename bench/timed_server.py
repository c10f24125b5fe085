"""Requests over HTTP to `admissions serve`, and to the same server in Python (bench/http/baseline.py), timed: for the scripts of bench/.

Each request goes over a connection of its own, one after the other, from the script itself.
"""
import json
import os
import random
import shutil
import socket
import subprocess
import sys
import time

import desk
import workload

BASELINE = os.path.join(os.path.dirname(os.path.realpath(__file__)), "http", "baseline.py")


def town(program, room, name, count, with_round):
    """A register with so many children, after a round or before it."""
    chance = random.Random(1962)
    file = desk.register(program, room, name, workload.town(chance, count))
    if with_round:
        with desk.Desk(program, file) as run:
            answer = json.loads(run.answers([workload.round_of_town(chance, count)])[0])
        assert answer["offers"] + answer["unplaced"] == count, answer
    return file


def get(path):
    return f"GET {path} HTTP/1.1\r\nHost: 127.0.0.1\r\n\r\n".encode()


def post(command):
    body = json.dumps(command)
    return f"POST /command HTTP/1.1\r\nHost: 127.0.0.1\r\nContent-Type: application/json\r\nContent-Length: {len(body)}\r\n\r\n{body}".encode()


def ask(port, request, is_whole=True):
    """The whole response to a request, on a connection of its own. After a request that is not whole the client closes its sending side."""
    with socket.socket() as it:
        it.connect(("127.0.0.1", port))
        it.sendall(request)
        if not is_whole:
            it.shutdown(socket.SHUT_WR)
        pieces = []
        while piece := it.recv(65536):
            pieces.append(piece)
    return b"".join(pieces)


class Server:
    """A run of a server, which prints when it listens."""

    def __init__(self, arguments, count=None):
        with socket.socket() as it:
            it.bind(("127.0.0.1", 0))
            self.port = it.getsockname()[1]
        more = [] if count is None else ["--count", str(count)]
        self.counted = count is not None
        self.process = subprocess.Popen([*arguments, str(self.port), *more], stdout=subprocess.PIPE)
        assert self.process.stdout
        self.printed = self.process.stdout
        printed = self.printed.readline()
        assert printed == f"serving on 127.0.0.1:{self.port}\n".encode(), printed

    def __enter__(self):
        return self

    def __exit__(self, kind, *_):
        # the program ends by its count, the baseline is ended
        if not self.counted or kind is not None:
            self.process.terminate()
        status = self.process.wait()
        self.printed.close()
        assert not self.counted or kind is not None or status == 0, status

    def asked(self, requests):
        """The responses, and the wall-clock seconds and the CPU seconds of the server."""
        used, start = desk.spent(self.process), time.perf_counter()
        found = [ask(self.port, it) for it in requests]
        return found, time.perf_counter() - start, desk.spent(self.process) - used


def warm(requests):
    """Some of the requests once more, before those that count."""
    return requests[:50]


def answered(arguments, file, requests, is_counted):
    """The responses of a server over this file, and the wall-clock seconds and its CPU seconds. One that counts connections ends by itself."""
    with Server([*arguments, file], len(requests) + len(warm(requests)) if is_counted else None) as server:
        server.asked(warm(requests))
        return server.asked(requests)


def served(program, file, requests):
    """Our server and the baseline's over copies of a file: for each the wall-clock and CPU seconds. Both must give the same responses, and
    leave the same children."""
    found = []
    for arguments, is_counted in (([program, "serve"], True), ([sys.executable, BASELINE], False)):
        copy = file + ".copy"
        shutil.copyfile(file, copy)
        found.append((*answered(arguments, copy, requests, is_counted), desk.rows_of(copy, ["child"])))
        for name in (copy, copy + "-wal", copy + "-shm"):
            if os.path.exists(name):
                os.remove(name)
    (ours, *_, our_rows), (theirs, *_, their_rows) = found
    assert ours == theirs, next(it for it in zip(ours, theirs) if it[0] != it[1])
    assert our_rows == their_rows
    return [it[1:3] for it in found]
