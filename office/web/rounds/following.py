"""What follows a step of a draw by itself, as there is nothing to decide in between: the copy and
the pairs after the close, the rehearsal after the seal, the audit after the draw, and the opening
after an audit that agrees. Each is on record of its own. A step and what follows it are a job, so
that a page can say that they run.
"""
import contextlib
import sqlite3
from collections.abc import Callable

from register_files import Refused

from office.web.machinery.jobs import BROKEN, Jobs
from office.web.machinery.step_jobs import StepJobs
from office.web.people.roles import Person

from .draws import Draws, held_in, see_goes_on
from .terms import AUDITED, CLOSED, COPIED, FOLLOWED, SEALED, SENDING, Draw


class Following(StepJobs):
    """What follows by itself in the draws of one application."""

    def __init__(self, draws: Draws, jobs: Jobs) -> None:
        super().__init__("draw", jobs)
        self.draws = draws

    def work(self, who: Person, number: int, step: Callable[[], None] | None) -> None:
        """Does a step with what follows it. An error that nobody knows is kept with the draw."""
        try:
            with self.draws.lock:
                if step:
                    step()
                self.after(who, number)
        except Refused:
            raise
        except Exception:
            with contextlib.suppress(Refused, OSError, sqlite3.Error):
                self.draws.halted(who, self.draws.get(number), BROKEN)
            raise

    def after(self, who: Person, number: int) -> None:
        """Goes on after a step that a person has done, until somebody has to decide. What cannot be
        done is refused, and shown to all who look: the step itself stays done.
        """
        with self.draws.lock:
            while (draw := self.draws.get(number)).follows:
                self.step(who, draw)

    def again(self, who: Person, number: int, seen: int) -> None:
        """Tries once more what could not be done, and goes on."""
        with self.draws.turn(number, seen, *FOLLOWED) as draw:
            see_goes_on(draw)
            self.step(who, draw)
            self.after(who, number)

    def step(self, who: Person, draw: Draw) -> None:
        """Does the next step, and keeps why it cannot be done."""
        try:
            self.next(who, draw)
        except Refused as error:
            self.draws.halted(who, draw, str(error))
            raise

    def next(self, who: Person, draw: Draw) -> None:
        """Does the next step."""
        steps = {CLOSED: self.draws.copy, COPIED: self.draws.give, SEALED: self.draws.rehearse,
                 AUDITED: self.draws.open}
        if draw.state == SENDING:
            is_held = held_in(self.draws.desk.now(), draw) == draw.terms.fills
            steps[SENDING] = self.draws.audit if is_held else self.draws.send
        steps[draw.state](who, draw.number, draw.version)
