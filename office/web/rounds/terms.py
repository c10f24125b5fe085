"""What a draw of the office is: its terms, the states that it goes through, and who did each step.

A draw is a round, or a row of fills at one school that are run in one closure.
"""
import dataclasses
import datetime
import functools
import json
import sqlite3
from typing import Any

from office.core import texts
from office.core.model import Pair, Register
from office.web.machinery.steps import Done, State, States, steps_in

Command = dict[str, Any]
BEGUN, CLOSED, COPIED, LOTS, SEALED = "begun", "closed", "copied", "lots", "sealed"
REHEARSED, CONFIRMED, SENDING, AUDITED = "rehearsed", "confirmed", "sending", "audited"
OPENED, GIVEN_UP, RESTORED = "opened", "given up", "restored"
HEAD, SUPERVISOR = "by a head of the office", "by the supervisor"
SECOND = "by a second person"
# the states of a draw that is held to its end, in their order, and the others
STATES = States(
    State(name=BEGUN, words="begun: recording goes on", tag="Begun", look="info",
          title="Begin", does="Everybody can still record.", runs="recording is paused"),
    State(name=CLOSED, words="recording is paused", tag="Paused", look="info",
          title="Pause recording for everyone", by=HEAD, action="close",
          button="Pause recording for everyone",
          does="Nobody can record anything from then on until recording resumes. All can"
               " still read, and what somebody has typed stays. The next two steps follow by"
               " themselves.", runs="the register is copied"),
    State(name=COPIED, words="paused, and the register is copied", tag="Copied", look="info",
          title="Copy the register", button="Make the copy",
          does="For some seconds nobody can read it. The copy can be restored if something goes"
               " wrong.", runs="the supervisor is asked for the lots"),
    State(name=LOTS, words="paused, and the supervisor draws the lots", tag="Waits for the lots",
          look="warn", title="List the lots for the supervisor",
          button="Ask the supervisor for the lots",
          does="A lot is drawn for each child at each school where it takes part."),
    State(name=SEALED, words="paused, and the lots are sealed", tag="Lots sealed", look="info",
          title="Draw and seal the lots", by=SUPERVISOR,
          does="The supervisor draws and seals them on the screen of lots. Nobody changes them"
               " after that, and the rehearsal follows by itself.", runs="it is rehearsed"),
    State(name=REHEARSED, words="paused, and rehearsed: not confirmed yet",
          tag="Waits for a second person", look="warn", title="Rehearse on a copy, and audit",
          button="Rehearse",
          does="A second program audits the outcome. Nothing is recorded."),
    State(name=CONFIRMED, words="paused, and confirmed: not run yet", tag="Confirmed",
          look="info", title="Confirm", by=SECOND, action="confirm", button="Confirm",
          does="Nothing is recorded yet.", runs="the places are given"),
    State(name=SENDING, words="paused, and running", tag="Running", look="warn",
          title="Run", by=HEAD, action="send", button="Run",
          does="The register allots the places. Only a restore of the copy by two persons undoes"
               " it. The audit follows by itself.", runs="the places are given, and then audited"),
    State(name=AUDITED, words="run, and the audit agrees", tag="Audited", look="info",
          title="Audit once more", button="Audit",
          does="The register is copied, and audited against the copy from before and the"
               " rehearsal. If they agree, recording resumes by itself.", runs="recording resumes"),
    State(name=OPENED, words="complete: recording goes on", tag="Complete", look="good",
          title="Resume recording", button="Resume recording",
          does="Everybody can record again."),
    State(name=GIVEN_UP, words="cancelled: nothing was recorded", tag="Cancelled", look="plain"),
    State(name=RESTORED, words="undone: the copy was restored", tag="Undone", look="bad"),
)
IN_ORDER = tuple(it.name for it in STATES.steps)
ENDED, HELD = (OPENED, GIVEN_UP, RESTORED), (AUDITED, OPENED)
# in these nobody else may send anything to the register, and before the first of the second nothing
# of the draw was sent; there one person gives it up before the lots are sealed, and two after that.
# From the first lot on that takes a reason
CLOSING = IN_ORDER[1:-1]
SENT = (SENDING, AUDITED)
UNSENT = IN_ORDER[:7]
UNSEALED, UNSENT_SEALED = UNSENT[:4], UNSENT[4:]
# from these the next step follows by itself: there is nothing to decide
FOLLOWED = STATES.followed()
MOST_FILLS = 50


@dataclasses.dataclass(frozen=True)
class Terms:
    """What is drawn: the number of the first draw in the register, the school of fills and how many
    there are, or one round; and the day.
    """

    first: int
    school: str | None
    fills: int
    day: datetime.date

    @property
    def kind(self) -> str:
        """The name of the commands."""
        return "fill" if self.school else "round"

    @property
    def sealed(self) -> str:
        """The numbers of the draws and what is drawn, as the text says them that is sealed."""
        last = self.first + self.fills - 1
        numbers = f"draws {self.first} to {last}" if self.fills > 1 else f"draw {self.first}"
        what = f"{texts.count(self.fills, 'fill')} at {self.school}" if self.school else "a round"
        return f"{numbers}: {what}"

    @property
    def path(self) -> str:
        """Where the register says the pairs of the next of these draws."""
        return f"/pairs/{self.school}" if self.school else "/pairs"

    def pairs_in(self, register: Register) -> list[Pair]:
        """The pairs of the next of these draws, in the order of their lots."""
        found = register.pairs_of_fill(self.school) if self.school else register.pairs
        return sorted(found)

    def command(self, at: int, lots: list[int]) -> Command:
        """The command of the draw at this place of the row, from 0 on."""
        there = {"school": self.school} if self.school else {}
        return {"cmd": self.kind, "draw": self.first + at, **there, "day": self.day.isoformat(),
                "lots": lots}


@dataclasses.dataclass(frozen=True)
class Draw:
    """A draw as it is in the store. Its version grows with each step: who decides names the one
    that they saw.
    """

    number: int
    # how an office names it within a sentence: round 1, or the offer of 2 places at a school
    name: str
    terms: Terms
    state: str
    version: int
    # the numbers of the copies from before and after it
    before: int | None
    after: int | None
    # the digest of the sealed lots
    digest: str
    # what the rehearsal and the audit found
    rehearsal: dict[str, Any]
    audit: dict[str, Any]
    # who has asked to restore the copy, or to give up the draw and why, or ""
    restore_by: str
    give_up_by: str
    give_up_why: str
    # why what follows by itself was not done, or ""
    trouble: str
    done: tuple[Done, ...]
    # the draw of the store that it repeats, which was undone; and why with other lots, or ""
    repeats: int | None
    other_lots: str

    @property
    def states(self) -> States:
        """The states that it goes through."""
        return STATES

    @property
    def in_words(self) -> str:
        """Its name, with how it has ended if not by being run."""
        return self.name + {GIVEN_UP: ", cancelled", RESTORED: ", undone"}.get(self.state, "")

    @property
    def title(self) -> str:
        """The same as a heading."""
        text = self.in_words.removeprefix("the ")
        return f"{text[:1].upper()}{text[1:]}"

    def came_to(self, state: str) -> Done:
        """Who brought it to a state, and when; nobody where it has not been there."""
        return next((it for it in self.done if it.state == state), Done(state, "", "", ""))

    def who(self, state: str) -> str:
        """Who brought it to a state, or ""."""
        return self.came_to(state).who

    @property
    def is_ended(self) -> bool:
        """Whether nothing more is to be done."""
        return self.state in ENDED

    @property
    def wrong(self) -> list[str]:
        """What the rehearsal found before the draw was sent, or the audit after it."""
        found = self.audit if self.state in SENT else self.rehearsal
        return list(found.get("wrong", []))

    @property
    def follows(self) -> bool:
        """Whether the next step follows by itself, and nothing hinders it as far as is known."""
        is_held = self.give_up_by or self.restore_by or self.trouble or self.wrong
        return self.state in FOLLOWED and not is_held


@functools.lru_cache(32)
def kept_in(text: str) -> dict[str, Any]:
    """What is kept of a rehearsal or an audit, which is read many times, and changed by nobody."""
    found: dict[str, Any] = json.loads(text)
    return found


def of_rows(row: sqlite3.Row, steps: list[sqlite3.Row]) -> Draw:
    """A draw of the store."""
    terms = Terms(row["first"], row["school"], row["fills"],
                  datetime.date.fromisoformat(row["day"]))
    return Draw(
        row["id"], row["name"], terms, row["state"], row["version"], row["copy_before"],
        row["copy_after"], row["digest"] or "", kept_in(row["rehearsal"] or "{}"),
        kept_in(row["audit"] or "{}"), row["restore_by"] or "", row["give_up_by"] or "",
        row["give_up_why"], row["trouble"] or "", steps_in(steps), row["repeats"],
        row["other_lots"])
