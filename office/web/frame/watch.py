"""What a monitor may know without a sign-in: whether the register answers, and how many requests
were answered with which status. Nothing of it is of a person.
"""
import collections
import math
import threading
import time
from collections.abc import Callable

from register_files import Refused

from office.web.register.desk import Desk

# the register is asked at most once in so many seconds, however often somebody asks here
SECONDS = 1.0
# so long others wait for its first answer
FIRST_SECONDS = 2.0
# a register that has not answered for so long is away, whatever it answered before; the site waits
# for this a little longer
LATE_SECONDS = 4.0
# an answer of the register to this, of whatever child, says that it reads its rows
ASKED, ANSWERED = "/child/1", (200, 404)


class Watch:
    """What is counted since the application began, and the last answer of the register."""

    def __init__(self, clock: Callable[[], float] = time.monotonic) -> None:
        self.clock = clock
        self.began = clock()
        self.counting, self.asking = threading.Lock(), threading.Lock()
        self.statuses: collections.Counter[int] = collections.Counter()
        self.last: tuple[float, bool] | None = None
        # since when somebody waits for its answer, or never
        self.since = math.inf

    def add(self, status: int) -> None:
        """Counts an answer."""
        with self.counting:
            self.statuses[status] += 1

    def counts(self) -> dict[str, int]:
        """How many answers there were by their status."""
        with self.counting:
            return {str(it): count for it, count in sorted(self.statuses.items())}

    def is_answered(self, desk: Desk) -> bool:
        """Whether the register answers. While somebody waits for its answer, others have the last
        one for some seconds.
        """
        last = self.last
        if not self.asking.acquire(timeout=FIRST_SECONDS if last is None else 0):
            is_late = self.clock() - self.since >= LATE_SECONDS
            return last is not None and last[1] and not is_late
        try:
            last = self.last
            if last is None or self.clock() - last[0] >= SECONDS:
                self.since = self.clock()
                last = self.last = self.since, is_up(desk)
            return last[1]
        finally:
            self.since = math.inf
            self.asking.release()


def is_up(desk: Desk) -> bool:
    """Whether the register answers now."""
    try:
        return desk.asked(ASKED, seconds=LATE_SECONDS)[0] in ANSWERED
    except Refused:
        return False
