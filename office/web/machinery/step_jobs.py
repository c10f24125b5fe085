"""Steps that several people do, as of a draw, as jobs, each with what follows it by itself, so that
a page can say that they run: one at a time of a kind.
"""
from collections.abc import Callable

from register_files import Refused

from office.web.people.roles import Person
from office.web.register.desk import local

from .jobs import Job, Jobs

# a request waits so long for the end of what it has begun, and then says that it runs
WAIT_SECONDS = 4.0


class StepJobs:
    """The jobs of one kind of what goes through steps, by their name."""

    def __init__(self, name: str, jobs: Jobs) -> None:
        self.name, self.jobs, self.wait = name, jobs, WAIT_SECONDS

    @property
    def last(self) -> Job | None:
        """The last job."""
        return self.jobs.last(self.name)

    def under_way(self) -> Job | None:
        """What runs now, if anything does."""
        return self.last if self.jobs.is_running(self.name) else None

    def work_on(self, number: int) -> Job | None:
        """What runs now of one by its number, if anything does."""
        found = self.under_way()
        return found if found and found.about == number else None

    def refused(self, number: int) -> str:
        """Why the last step of one was not done, where its page came before its end; or ""."""
        found = self.last
        return found.refused if found and found.about == number else ""

    def begin(self, who: Person, number: int, step: Callable[[], None] | None = None) -> None:
        """Begins a step with what follows it, or only that, and waits some seconds for its end.
        What is refused until then is raised here.
        """
        if present := self.under_way():
            present.is_over.wait(self.wait)
        if not self.jobs.run(self.name, who.name, lambda: self.work(who, number, step), self.wait,
                             about=number):
            present = self.last
            began = f", which {present.who} began at {local(present.at)}" if present else ""
            raise Refused(f"a step is under way{began}. Nothing else was done")

    def work(self, who: Person, number: int, step: Callable[[], None] | None) -> None:
        """Does a step with what follows it."""
        if step:
            step()
        self.after(who, number)

    def after(self, who: Person, number: int) -> None:
        """Does what follows a step, if anything does."""
