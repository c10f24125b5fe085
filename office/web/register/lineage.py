"""Which requests of the history the register has, where copies of it were restored. A restore goes
back to the entry after which its copy was made: what was recorded between the two is undone, until
a later copy is restored that has it.
"""
import dataclasses
from collections.abc import Sequence

# restores in their order: the number of the entry that records each, and that of the last entry
# from before its copy
Restores = Sequence[tuple[int, int]]


@dataclasses.dataclass(frozen=True)
class Lineage:
    """The entries that led to a state of the register: those after the first number of a span, up
    to the second.
    """

    spans: tuple[tuple[int, int], ...]

    def __contains__(self, number: object) -> bool:
        return isinstance(number, int) and any(
            first < number <= last for first, last in self.spans)


def of(restores: Restores, position: int) -> Lineage:
    """What led to the register as it was after this entry."""
    spans: list[tuple[int, int]] = []
    for number, after in reversed(restores):
        if number <= position:
            spans.append((number, position))
            position = after
    return Lineage((*spans, (0, position)))


def undone_by(restores: Restores, number: int) -> int | None:
    """The entry of the restore since which the register lacks what this entry did, or None."""
    for restore, _ in reversed(restores):
        if number in of(restores, restore - 1) and number not in of(restores, restore):
            return restore
    return None
