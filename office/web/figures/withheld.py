"""Which counts must not be published: those from 1 to 4, and others from which one of those could
be worked out.

A count that is published as a sum, or the number of places of a school, ties the counts beside it
together: if one of them alone is withheld, it can be worked out as the difference. So counts are
withheld until for each count from 1 to 4 there is another table that has the same published numbers
and another number there. Such a table is searched by moves: one count rises or falls by 1, and
each sum that is wrong by that is put right by another withheld count in it. A count of 0 is
published, so whoever knows the page knows that a withheld count is at least 1. In the end a count
that was withheld, but is not small and follows from published ones all the same, is published.
"""
from collections.abc import Hashable, Iterable, Mapping, Sequence
from typing import Generic, TypeVar

Key = TypeVar("Key", bound=Hashable)
# the counts that add up to a known sum, each with 1 or -1: [(total, -1), (part, 1), (part, 1)]
Line = Sequence[tuple[Key, int]]
# the sums in which each count is
Lines = Mapping[Key, Sequence[Line[Key]]]

LEAST = 5
# how a count that is withheld is printed, and what that means
WITHHELD = "[c]"
MEANING = (
    f"{WITHHELD} is a number that is withheld, because it is from 1 to {LEAST - 1},"
    " or because such a number could be worked out from it."
)
MOST_MOVES, MOST_TRIES = 12, 3000


def is_small(value: int) -> bool:
    """Whether a count by itself must not be published."""
    return 0 < value < LEAST


def withheld(counts: Mapping[Key, int], sums: Iterable[Line[Key]]) -> set[Key]:
    """The keys of the counts that are withheld."""
    lines_of: dict[Key, list[Line[Key]]] = {}
    for it in sums:
        for key, _ in it:
            lines_of.setdefault(key, []).append(it)
    hidden = {key for key, value in counts.items() if is_small(value)}
    unsafe = set(hidden)
    while unsafe:
        unsafe = {key for key in unsafe if not Search(counts, lines_of, hidden).has_another(key)}
        found = [companion(counts, lines_of, hidden, key) for key in unsafe]
        more: set[Key] = {it for it in found if it is not None}
        if not more:
            # (all is withheld that hangs together with these)
            break
        hidden |= more
    published = superfluous(counts, lines_of, hidden)
    return hidden - published


def superfluous(counts: Mapping[Key, int], lines_of: Lines[Key], hidden: set[Key]) -> set[Key]:
    """The withheld counts that are not small and follow from published ones all the same: they can
    be published, as no other table has another number there."""

    def has_another(key: Key, among: set[Key]) -> bool:
        return Search(counts, lines_of, among).has_another(key)

    large = {key for key in hidden if not is_small(counts[key])}
    found = {key for key in large if not has_another(key, hidden)}
    # (a search may have ended at its limits, so what stays withheld is searched once more)
    small = [key for key in hidden - large if has_another(key, hidden)]
    return found if all(has_another(key, hidden - found) for key in small) else set()


class Search(Generic[Key]):
    """The search for another table: which counts were moved, and by how much."""

    def __init__(self, counts: Mapping[Key, int], lines_of: Lines[Key], hidden: set[Key]) -> None:
        self.counts, self.lines_of, self.hidden = counts, lines_of, hidden
        self.least = int(all(counts[it] for it in hidden))
        self.moved: dict[Key, int] = {}
        self.tries = 0

    def has_another(self, key: Key) -> bool:
        """Whether a withheld count has another number in some table with the same published
        numbers."""
        return any(self.move(key, step) for step in (1, -1))

    def move(self, key: Key, step: int) -> bool:
        """Moves a count, and then puts right what is wrong by that. If that cannot be done, the
        count has its number again."""
        self.tries += 1
        is_last = len(self.moved) >= MOST_MOVES or self.tries > MOST_TRIES
        if self.counts[key] + step < self.least or is_last:
            return False
        self.moved[key] = step
        if self.put_right():
            return True
        del self.moved[key]
        return False

    def put_right(self) -> bool:
        """Whether the sums can be put right by further moves."""
        for key in self.moved:
            for line in self.lines_of.get(key, ()):
                wrong = sum(sign * self.moved.get(one, 0) for one, sign in line)
                if wrong:
                    free = [it for it in line if it[0] in self.hidden and it[0] not in self.moved]
                    free.sort(key=lambda it: -self.counts[it[0]])
                    return any(self.move(one, -wrong * sign) for one, sign in free)
        return True


def companion(
    counts: Mapping[Key, int], lines_of: Lines[Key], hidden: set[Key], key: Key
) -> Key | None:
    """The smallest published count beside a withheld one that is not 0; else beside those that are
    withheld with it, and so on; at last one that is 0."""
    near = {key}
    while True:
        beside = {other for one in near for line in lines_of.get(one, ()) for other, _ in line}
        published = [it for it in beside - hidden if counts[it]]
        if published or beside <= near:
            best = published or beside - hidden
            return min(best, key=lambda it: (counts[it], repr(it)), default=None)
        near |= beside
