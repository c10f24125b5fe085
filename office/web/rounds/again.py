"""A draw that is held again after a restore has undone it: which one it repeats, and the lots that
stay. And one that follows another which was given up: whose lots are other ones. Who knows an
outcome could otherwise have lots drawn until another one is to their liking.
"""
import dataclasses
from collections.abc import Sequence

from register_files import Refused

from .lots import Cell, sheet_of
from .store import DrawStore
from .terms import OPENED, RESTORED, Draw, Terms

MOST_REASON = 500


def reason_in(text: str, what: str, reader: str) -> str:
    """The reason for what may lead to other lots, in one line; or a refusal of what has none."""
    found = text.strip()
    if not found or len(found) > MOST_REASON or not found.isprintable():
        raise Refused(f"type the reason for {what} in one line: it is on record, and {reader} reads"
                      " it")
    return found


def undone(draws: Sequence[Draw]) -> list[Draw]:
    """The draws with sealed lots that were undone and not held again, the last first."""
    by_number = {it.number: it for it in draws}
    again: set[int] = set()
    for it in draws:
        found = it if it.state == OPENED else None
        while found and found.repeats:
            again.add(found.repeats)
            found = by_number.get(found.repeats)
    return [it for it in draws if it.state == RESTORED and it.digest and it.number not in again]


def repeated(draws: Sequence[Draw], terms: Terms) -> Draw | None:
    """The draw that one of these terms repeats: of those for the same school, or of rounds, that of
    the same number, or else the last one. `draws` has the last first.
    """
    found = [it for it in undone(draws) if it.terms.school == terms.school]
    same = [it for it in found if it.terms.first == terms.first]
    return next(iter(same or found), None)


def kept(draws: DrawStore, draw: Draw) -> dict[Cell, tuple[str, str | None]]:
    """The lots that a draw has from the one that it repeats, with their seeds. (A lot is repeated
    by its seed for a draw of the same number alone.)
    """
    if draw.repeats is None or draw.other_lots:
        return {}
    is_same = draws.get(draw.repeats).terms.first == draw.terms.first
    rows = draws.store.rows("SELECT * FROM lot WHERE draw=? AND text<>''", draw.repeats)
    return {((it["school"], it["child"]), it["fill"]): (it["text"], it["seed"] if is_same else None)
            for it in rows}


@dataclasses.dataclass(frozen=True)
class Other:
    """A lot that is another one than in the draw that was given up before: of whom, at which place
    of the row from 0 on; both lots; and whether only a lot can separate the child from another.
    """

    school: str
    child: int
    at: int
    was: str
    now: str
    is_decisive: bool


@dataclasses.dataclass(frozen=True)
class Given:
    """A draw that was given up before another one; of how many lots both have the pair and the
    place in the row; and those of them that are other ones. None where one of the two draws is not
    sealed, or they are not for the same school or not both rounds.
    """

    draw: Draw
    count: int
    others: list[Other] | None


def given_up(draws: DrawStore, draw: Draw) -> list[Given]:
    """The draws that were given up before one, with how its sealed lots differ from theirs."""
    return [compared(draws, it, draw) for it in draws.given_up_before(draw)]


def compared(draws: DrawStore, before: Draw, draw: Draw) -> Given:
    """The sealed lots of a draw beside those of one that was given up before it."""
    if not (before.digest and draw.digest and before.terms.school == draw.terms.school):
        return Given(before, 0, None)
    was = sheet_of(draws.store, before.number, before.terms).cells()
    cells = [(row, at, text) for row in sheet_of(draws.store, draw.number, draw.terms).rows
             for at, text in enumerate(row.typed) if (row.pair, at) in was]
    return Given(before, len(cells), [
        Other(*row.pair, at, was[row.pair, at], text, row.tie > 0)
        for row, at, text in cells if was[row.pair, at] != text])
