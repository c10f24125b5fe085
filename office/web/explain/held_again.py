"""The draw that was held again last, on the copy from before it, for whoever looks at its children;
and how many runs of the program there are at once.
"""
import contextlib
import threading
from collections.abc import Iterator

from office.core import plain, turns
from office.core.model import Draw, Register
from office.web.rounds import held_draw
from office.web.rounds.held_draw import Held
from office.web.trials.registers import Program

# wall-clock seconds; a day in time of a late application holds two rounds anew
MOST_SECONDS = 120
AT_ONCE = turns.Turn(threading.BoundedSemaphore(2), "others are being worked out")


@contextlib.contextmanager
def turn() -> Iterator[Program]:
    """The program for one answer, once it is its turn; or a refusal where that takes too long."""
    with AT_ONCE:
        yield Program(plain.program(), MOST_SECONDS)


class HeldAgain:
    """Holds draws again, and keeps the last one with the copy from before it."""

    def __init__(self) -> None:
        self.kept: tuple[Register, Held] | None = None

    def draw(self, before: Register, after: Register, draw: Draw) -> Held:
        """A draw of AFTER as it was right after it, by the copy from before it."""
        kept = self.kept
        if kept is None or kept[0] != before or not is_same(kept[1], after, draw):
            with turn() as program:
                kept = self.kept = before, held_draw.held_again(before, after, draw.number, program)
        return kept[1]


def is_same(held: Held, after: Register, draw: Draw) -> bool:
    """Whether a draw that was held again is this one, with its lots and its outcome."""
    number = draw.number
    return held.draw == draw and held.outcomes == after.outcomes[number] and (
        held.drawn.lots == after.lots(number))
