"""Why a child has no place at a school of its list, in a few words: what the last draw that it took
part in there says of it.
"""
import dataclasses
from collections.abc import Mapping

from office.core import criteria
from office.core.model import CLASS, DISTANCE, LOT, NOBODY, Cutoff, Draw, Register


@dataclasses.dataclass(frozen=True)
class Reason:
    """What a draw says of a child at a school, of which a family may be told all: how the last
    child that was newly admitted ranks, in words and metres, if anybody was; and why this one was
    not, or "" if it was. The metres of a child that is looked after or has a flag are withheld; so
    are those of the one child that a fill admitted, and where that one is such a child the words.
    """

    draw: Draw
    last: str
    metres: int | None
    why: str

    @property
    def told(self) -> str:
        """The distance of the last child admitted, or that it is withheld."""
        if self.metres is None:
            return "" if self.draw.school else "distance withheld"
        return f"{self.metres:,} metres"


def reasons(register: Register, number: int, flags: Mapping[int, str]) -> dict[str, Reason]:
    """For each school of a child's list the last draw in which it took part there, if any. Only
    these draws are read.
    """
    application = register.applications.get(number)
    if application is None:
        return {}
    found = {}
    for code in application.preferences:
        draw = next((it for it in reversed(register.draws)
                     if it.school in (None, code) and number in register.outcomes[it.number]), None)
        if draw and (reason := reason_of(register, draw, code, number, flags)):
            found[code] = reason
    return found


def reason_of(
    register: Register, draw: Draw, code: str, number: int, flags: Mapping[int, str],
) -> Reason | None:
    """What a draw says, or nothing of a school below the child's place, where it did not take part.
    """
    drawn = register.drawn(draw.number)
    last = drawn.cutoffs.get(code)
    school = register.schools[code]
    words = criteria.in_brief(school, last.number, flags) if last else ""
    metres = None if last is None or criteria.is_private(school, last.number) else last.metres
    if register.outcomes[draw.number][number] == code:
        return Reason(draw, words, metres, "")
    if draw.school:
        # (a fill offers one vacancy to the first of those who wait)
        return Reason(draw, "" if metres is None else words, None,
                      "Another child was first on the waiting list.")
    if (code, number) not in drawn.refusals:
        return None
    by = drawn.refusals[code, number]
    rank = register.applications[number].rank(code)
    return Reason(draw, words, metres, why(by, last, rank[1] - metres if metres else None))


def why(by: str | None, last: Cutoff | None, nearer: int | None) -> str:
    """Why a round did not admit a child, in at most twelve words. `nearer` is by how many metres
    the last child admitted lives nearer, if that may be said.
    """
    if by == NOBODY or last is None:
        return "Nobody was newly admitted."
    if by == CLASS:
        return "All who were admitted met a criterion that comes before this child’s."
    if by == DISTANCE:
        by_metres = f"{nearer:,} metres " if nearer else ""
        return f"The last child admitted lives {by_metres}nearer."
    if by == LOT:
        return "As near as the last child admitted; the lot decided."
    return "Details changed since then: see the explanation."
