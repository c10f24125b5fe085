"""What a restore of the office is: the states that it goes through, who did each step, and what
came since its copy, which may be sent again.
"""
import dataclasses
import sqlite3

from office.web.machinery.outbox import Item
from office.web.machinery.steps import Done, State, States, steps_in

CLOSED, ASKED, CONFIRMED, COPIED = "closed", "asked", "confirmed", "copied"
# the first step of a restore that IT support has done while the application was closed
BROUGHT = "restored by IT support"
RESTORING, RESTORED, SENT = "restoring", "restored", "sent again"
OPENED, GIVEN_UP = "opened", "given up"
ENDED = (OPENED, GIVEN_UP)
# before the register is touched
UNTOUCHED = (CLOSED, ASKED, CONFIRMED, COPIED)
# what came since the copy and rests on the draw that was wrong: it is sent once that is held again;
# and what was refused
LATER, REFUSED = "later", "refused"
# the states of a restore that is brought to its end, in their order, and that of another end
STATES = States(
    State(name=CLOSED, words="recording is paused", title="Recording is paused",
          does="Nobody can record anything until recording resumes. All can still read.",
          runs="what is ticked is tried on a scratch copy"),
    State(name=ASKED, words="waits for a second person", title="What is sent again is chosen",
          by="by a head of the office",
          does="All that came since the copy is listed. What is not ticked is lost.",
          runs="the restore is confirmed"),
    State(name=CONFIRMED, words="confirmed", title="Confirmed by a second person",
          by="by a second person",
          does="Somebody else has read what is lost and what is sent again, and says that the copy"
               " may be restored. The next steps follow at once.",
          runs="the register is copied as it is"),
    State(name=COPIED, words="confirmed, and copied", title="Copy of what is there",
          action="copy", button="Make the copy of what is there",
          does="The register is copied as it is. By that copy the restore can be undone.",
          runs="the copy is restored"),
    State(name=RESTORING, words="being restored", runs="the copy is restored"),
    State(name=RESTORED, words="restored", title="Restored", action="restore",
          button="Restore copy {}",
          does="The register becomes that of the copy, and is compared with it. For some seconds"
               " nobody can read it.", runs="what was ticked is sent again"),
    State(name=SENT, words="restored, and sent again", title="Sent again", action="send",
          button="Go on: send again what was ticked",
          does="What was ticked is sent in its first order. What the register refuses is shown.",
          runs="recording is resumed"),
    State(name=OPENED, words="done, and recording goes on", title="Resume recording",
          action="open", button="Resume recording",
          does="Everybody can record again. Where all that was ticked is stored this follows by"
               " itself.", runs="what was ticked is sent"),
    State(name=GIVEN_UP, words="cancelled", runs="the restore is cancelled"),
)
# those of one that IT support has done: what is left is to send again what came since
BROUGHT_STATES = States(
    State(name=CLOSED, words="recording is paused", title="Restored by IT support",
          does="The register is that of a copy. Nobody can record anything until what came since"
               " is sent again. All can still read.",
          runs="what is ticked is tried on a scratch copy"),
    STATES[ASKED],
    State(name=RESTORED, words="confirmed", title="Confirmed by a second person",
          by="by a second person",
          does="Somebody else has read what is sent again, and what is lost. The next steps follow"
               " at once.", runs="what was ticked is sent again"),
    STATES[SENT], STATES[OPENED], STATES[GIVEN_UP],
)


@dataclasses.dataclass(frozen=True)
class Again(Item):
    """An entry of the history that came since the copy, in the batch of a restore."""

    @property
    def entry(self) -> int:
        """The number of the entry."""
        return self.place

    @property
    def is_chosen(self) -> bool:
        """Whether it is to be sent again."""
        return bool(self.about["is_chosen"])


@dataclasses.dataclass(frozen=True)
class Restore:
    """A restore as it is in the store: the number of the copy, and that of the copy of what was
    there before; and the draw of the store that was wrong, if that is why.
    """

    number: int
    copy: int
    state: str
    version: int
    before: int | None
    draw: int | None
    done: tuple[Done, ...]

    @property
    def is_brought(self) -> bool:
        """Whether IT support has restored the copy."""
        return any(it.state == BROUGHT for it in self.done[:1])

    @property
    def name(self) -> str:
        """How an office names it within a sentence."""
        return f"the restore of copy {self.copy}"

    @property
    def states(self) -> States:
        """The states that it goes through."""
        return BROUGHT_STATES if self.is_brought else STATES

    @property
    def in_words(self) -> str:
        """How far it is."""
        return self.states[self.state].words

    def came_to(self, state: str) -> Done:
        """Who brought it to a state last, and when; nobody where it has not been there. (A step
        may leave it in its state, as where something is sent once it is open.)
        """
        before = ("", *(it.state for it in self.done))
        found = [it for was, it in zip(before, self.done) if it.state == state != was]
        return found[-1] if found else Done(state, "", "", "")

    @property
    def is_ended(self) -> bool:
        """Whether the register is open again."""
        return self.state in ENDED


def of_rows(row: sqlite3.Row, steps: list[sqlite3.Row]) -> Restore:
    """A restore of the store."""
    return Restore(row["id"], row["copy"], row["state"], row["version"], row["copy_before"],
                   row["draw"], steps_in(steps))
