"""Turns at what few can use at once: the register, a process that reads a file. A thread that
serves a screen waits for one some seconds, and most of these threads wait for none: so nothing slow
keeps the sign-in and the other screens from being answered. Nor does one person take all places.
"""
import collections
import contextlib
import contextvars
import threading
from collections.abc import Iterator
from types import TracebackType
from typing import Protocol

from register_files import Refused

# so long a thread that serves a screen waits, and so many at once: of all, and of one person
SECONDS, MOST_WAITING, MOST_OF_ONE = 10.0, 16, 6
# so many requests of one person, or of one program, are served at once
MOST_SERVED = 8
# a program sends much at once: so many of all programs are served or wait for that, so long. All
# other threads are for people
PROGRAM_SECONDS, MOST_OF_PROGRAMS = 300.0, 200
# the person whom this thread serves a screen, or "" of a program that is served, and while nobody
# is known; another thread, as that of a draw, serves None and waits until its turn comes
SERVES: contextvars.ContextVar[str | None] = contextvars.ContextVar("SERVES", default=None)


class Busy(Refused):
    """What cannot be done now, and may be asked for again."""


class Lock(Protocol):
    """A lock or a semaphore."""

    def acquire(self, blocking: bool = True, timeout: float = -1) -> bool: ...

    def release(self) -> None: ...


class Waiting:
    """Whose threads wait now: at most so many, of each person at most so many of these."""

    def __init__(self, most: int, most_of_one: int) -> None:
        self.most, self.most_of_one = most, most_of_one
        self.lock = threading.Lock()
        self.counts: collections.Counter[str] = collections.Counter()

    @contextlib.contextmanager
    def one_more(self, who: str, said: str) -> Iterator[None]:
        """A place among those that wait, or a refusal where there is none."""
        self.enter(who, said)
        try:
            yield
        finally:
            self.leave(who)

    def enter(self, who: str, said: str) -> None:
        """Takes such a place."""
        with self.lock:
            is_full = bool(who) and self.counts[who] >= self.most_of_one
            if is_full or self.counts.total() >= self.most:
                raise Busy(said)
            self.counts[who] += 1

    def leave(self, who: str) -> None:
        """Gives it back."""
        with self.lock:
            self.counts[who] -= 1
            self.counts = +self.counts


WAITING = Waiting(MOST_WAITING, MOST_OF_ONE)
OF_PROGRAMS = Waiting(MOST_OF_PROGRAMS, MOST_OF_PROGRAMS)


class Turn:
    """A lock or a semaphore, and what is said to who waits for it too long."""

    def __init__(self, lock: Lock, said: str) -> None:
        self.lock, self.said = lock, f"{said}: try again in a minute"

    def __enter__(self) -> None:
        self.acquire()

    def acquire(self, blocking: bool = True) -> bool:
        """Takes the turn, at once or after a wait; whether it was taken."""
        if self.lock.acquire(False):
            return True
        if blocking:
            self.wait()
        return blocking

    def release(self) -> None:
        """Gives it back."""
        self.lock.release()

    def __exit__(
        self, kind: type[BaseException] | None, error: BaseException | None,
        trace: TracebackType | None,
    ) -> None:
        self.release()

    def wait(self) -> None:
        """Waits for the turn, or refuses."""
        who = SERVES.get()
        if who is None:
            self.lock.acquire()
            return
        with WAITING.one_more(who, self.said):
            if not self.lock.acquire(timeout=SECONDS):
                raise Busy(self.said)


class OfProgram(Turn):
    """The turn of a program at being served, which has one of the places of all programs meanwhile
    and while it waits.
    """

    def acquire(self, blocking: bool = True) -> bool:
        OF_PROGRAMS.enter("", self.said)
        is_taken = False
        try:
            is_taken = self.lock.acquire(blocking, PROGRAM_SECONDS if blocking else -1)
        finally:
            if not is_taken:
                OF_PROGRAMS.leave("")
        if blocking and not is_taken:
            raise Busy(self.said)
        return is_taken

    def release(self) -> None:
        super().release()
        OF_PROGRAMS.leave("")


class Served:
    """The turns of each person, and of each program, at being served."""

    def __init__(self) -> None:
        self.lock = threading.Lock()
        self.turns: dict[str, Turn] = {}

    def of(self, who: str, is_program: bool) -> Turn:
        """That of a person, or of a program."""
        with self.lock:
            return self.turns.setdefault(who, (OfProgram if is_program else Turn)(
                threading.BoundedSemaphore(MOST_SERVED), "you have asked for very much at once"))


SERVED = Served()
