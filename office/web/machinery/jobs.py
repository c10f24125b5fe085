"""Work that may take longer than a browser waits for an answer, as a copy, a draw, letters or a row
of commands: each job is done in a thread, one of a name at a time, and ends with the application.
"""
import dataclasses
import logging
import sqlite3
import threading
import time
from collections.abc import Callable

from register_files import Refused

from office.web.register.history import now

LOG = logging.getLogger(__name__)
BROKEN = "an error in the application, which its log has. Tell IT support"
# the application waits so long for the end of its jobs
CLOSE_SECONDS = 10.0


def nothing() -> None:
    """What ends a job that cannot be ended from outside: it looks itself whether it is to end."""


@dataclasses.dataclass
class Job:
    """A job: its name, the number of what it is about, who has begun it, and at which moment (UTC);
    what ends it; whether it is to be done once more; and what hindered it.
    """

    name: str
    about: int
    who: str
    at: str
    end: Callable[[], None]
    is_wanted: bool = False
    is_over: threading.Event = dataclasses.field(default_factory=threading.Event)
    error: BaseException | None = None

    @property
    def refused(self) -> str:
        """Why it was not done, in words, where nobody was told yet; or ""."""
        if self.error is None:
            return ""
        return str(self.error) if isinstance(self.error, Refused) else BROKEN


class Jobs:
    """The jobs of one application: the last of each name."""

    def __init__(self) -> None:
        self.lock = threading.Lock()
        self.jobs: dict[str, Job] = {}
        self.is_closed = False

    def last(self, name: str) -> Job | None:
        """The last job of a name, which may be under way."""
        return self.jobs.get(name)

    def is_running(self, name: str) -> bool:
        """Whether a job of a name is under way."""
        found = self.last(name)
        return found is not None and not found.is_over.is_set()

    def run(
        self, name: str, who: str, work: Callable[[], None], wait: float = 0.0,
        end: Callable[[], None] = nothing, about: int = 0,
    ) -> Job | None:
        """Begins a job, unless one of its name is under way, and waits for its end for some
        seconds. What hinders it until then is raised here.
        """
        with self.lock:
            if self.is_running(name):
                return None
            job = self.begun(name, who, work, end, about)
        if job.is_over.wait(wait) and job.error:
            error, job.error = job.error, None
            raise error
        return job

    def wake(
        self, name: str, work: Callable[[], None], end: Callable[[], None] = nothing
    ) -> None:
        """Has a job done: where one of its name is under way, once more after that."""
        with self.lock:
            if self.is_running(name):
                self.jobs[name].is_wanted = True
            else:
                self.begun(name, "", work, end, 0)

    def begun(
        self, name: str, who: str, work: Callable[[], None], end: Callable[[], None], about: int
    ) -> Job:
        """A job that begins now."""
        if self.is_closed:
            raise Refused("the application is being ended. Nothing was begun")
        job = self.jobs[name] = Job(name, about, who, now(), end)
        threading.Thread(target=self.do, args=(job, work), daemon=True).start()
        return job

    def do(self, job: Job, work: Callable[[], None]) -> None:
        """Does a job, as often as it is wanted."""
        while True:
            self.attempt(job, work)
            with self.lock:
                if self.is_closed or not job.is_wanted:
                    job.is_over.set()
                    return
                job.is_wanted = False

    def attempt(self, job: Job, work: Callable[[], None]) -> None:
        """Does a job once. Whatever hinders it is kept."""
        job.error = None
        try:
            work()
        except Refused as error:
            job.error = error
        except BaseException as error:  # pylint: disable=broad-exception-caught
            # (a thread that ends so would leave work of which nobody knows why it waits)
            job.error = error
            if not (self.is_closed and isinstance(error, sqlite3.ProgrammingError)):
                LOG.error("%s: %s", job.name, BROKEN, exc_info=error)

    def close(self) -> None:
        """Ends what is under way, each job as soon as it can be ended, and begins nothing more."""
        self.is_closed, until = True, time.monotonic() + CLOSE_SECONDS
        with self.lock:
            found = [it for it in self.jobs.values() if not it.is_over.is_set()]
        for it in found:
            it.end()
        for it in found:
            it.is_over.wait(max(0.0, until - time.monotonic()))
