"""Work of the application in a process of its own: what takes too much time or memory ends that
process alone. (The time of a thread cannot be limited as that of a command is.)
"""
import contextlib
import json
import os
import resource
import signal
import subprocess
import sys
import threading
from typing import Any

import register_files
from register_files import Refused

from office.core import turns

from . import inputs

# how a process ends that has no more memory, or that the system ends for it
MEMORY = (-signal.SIGABRT, -signal.SIGKILL, -signal.SIGSEGV)
# of a process that reads a file, and of one that lays out a page, whose libraries need more
MOST_MEMORY, MOST_LAYOUT = 500 * inputs.MB, 1_500 * inputs.MB
# wall-clock seconds, for a machine that does much else
MOST_SECONDS = 4 * inputs.SECONDS
# so many are at work at once
AT_ONCE = turns.Turn(threading.BoundedSemaphore(2), "other files are being read")
# nothing of the application's own environment
ENVIRONMENT = {"PATH": os.defpath, "LC_ALL": "C.UTF-8"}
HERE = os.path.dirname(os.path.dirname(os.path.abspath(__file__)))
BEGIN = ("import sys; places, name = sys.argv[1:-1], sys.argv[-1]; sys.path[:0] = places;"
         " import importlib; importlib.import_module(name).main()")


class Ended(Refused):
    """A process that did not end well."""

    def __init__(self, what: str, status: int) -> None:
        super().__init__(f"{what} was not possible: it ended with status {status}")
        self.ended_with = status


def done(
    module: str, what: str, asked: dict[str, Any], data: bytes, seconds: int = inputs.SECONDS,
    most_seconds: int | None = None,
) -> bytes:
    """What the process of a module prints, which gets what is asked and bytes; or a refusal that
    says what took too long or did not end well.
    """
    places = [os.path.dirname(HERE), os.path.dirname(os.path.abspath(register_files.__file__))]
    late = Refused(f"{what} takes more than {seconds} seconds")
    most = MOST_SECONDS if most_seconds is None else most_seconds
    try:
        with AT_ONCE:
            ran = subprocess.run(
                [sys.executable, "-I", "-B", "-c", BEGIN, *places, module],
                input=json.dumps(asked).encode() + b"\n" + data, env=ENVIRONMENT,
                capture_output=True, check=False, timeout=most)
    except subprocess.TimeoutExpired as error:
        raise late from error
    if ran.returncode == -signal.SIGXCPU:
        raise late
    if ran.returncode in MEMORY or b"MemoryError" in ran.stderr:
        raise Refused(f"{what} takes too much memory")
    if ran.returncode:
        raise Ended(what, ran.returncode)
    return ran.stdout


def end_first() -> None:
    """Where memory runs out this process is ended, and not the application."""
    with contextlib.suppress(OSError):
        with open("/proc/self/oom_score_adj", "w", encoding="ascii") as it:
            it.write("1000")


def given(
    most_memory: int = MOST_MEMORY, seconds: int = inputs.SECONDS,
) -> tuple[dict[str, Any], bytes]:
    """What such a process was asked, and its bytes. Its time and memory are limited from now on."""
    end_first()
    resource.setrlimit(resource.RLIMIT_AS, (most_memory, most_memory))
    # (at the second of them it is killed, which is not told from an end for memory)
    resource.setrlimit(resource.RLIMIT_CPU, (seconds + 10, seconds + 15))
    # (a core would have what somebody sent)
    resource.setrlimit(resource.RLIMIT_CORE, (0, 0))
    asked, _, data = sys.stdin.buffer.read().partition(b"\n")
    return dict(json.loads(asked)), data
