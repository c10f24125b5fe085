"""What the rounds and fills of a register did, as rows, of which the first is the header.

Classes and distances are those of the children's data of today. A child whose application a plan
has ended since has none any more, so where it is needed to tell who was last, nobody is named.
"""
import collections
import math
from collections.abc import Iterable, Iterator
from typing import NamedTuple

from office.core.model import LOT, Draw, Drawn, Pair, Register

from .register_rows import Cell, Rows

# of a child whose application a plan has ended since
ENDED = "ended"
OFFERED, KEPT, NONE = "offered", "kept", "none"
REFUSED, UNKNOWN = "refused", "unknown"
# the places that children had before a draw: the school and how it was held, by child
Held = dict[int, tuple[str, str]]


class Entry(NamedTuple):
    """A child with a lot at a school: the class and the distance by which it ranks, or None where
    its application has ended, and what became of it there.
    """

    child: int
    lot: int
    rank: tuple[int, int] | None
    came: str


def came_of(school: str | None, is_fresh: bool) -> str:
    """What a child has of a draw."""
    return NONE if school is None else OFFERED if is_fresh else KEPT


def with_drawn(register: Register) -> Iterator[tuple[Draw, Drawn]]:
    """The draws with their lots and what explains them."""
    all_drawn = register.drawn_of([it.number for it in register.draws])
    yield from zip(register.draws, all_drawn, strict=True)


def draws(register: Register) -> Rows:
    """The rounds and fills, with what came of each."""
    header: list[Cell] = ["draw", "kind", "round", "school", "day", "lots", "offers", "kept",
                          "unplaced"]
    rows: Rows = []
    for it, drawn in with_drawn(register):
        fresh = register.fresh[it.number]
        came = collections.Counter(came_of(school, fresh[child])
                                   for child, school in register.outcomes[it.number].items())
        rows.append([it.number, "round" if it.round else "fill", it.round, it.school,
                     it.day.isoformat(), len(drawn.lots), came[OFFERED], came[KEPT], came[NONE]])
    return [header, *rows]


def round_report(register: Register, number: int) -> Rows:
    """The result of a round for each child that took part."""
    draw = next(it.number for it in register.draws if it.round == number)
    fresh = register.fresh[draw]
    rows: Rows = [[child, register.children[child].name, school, came_of(school, fresh[child])]
                  for child, school in register.outcomes[draw].items()]
    return [["child", "name", "school", "came"], *rows]


def lots(register: Register, draw: int) -> Rows:
    """The lots of a draw, and what each child was allotted in it."""
    outcomes = register.outcomes[draw]
    drawn = sorted((code, lot, child) for (code, child), lot in register.lots(draw).items())
    rows: Rows = [[code, lot, child, register.children[child].name, outcomes.get(child)]
                  for code, lot, child in drawn]
    return [["school", "lot", "child", "name", "allotted"], *rows]


def preference(register: Register, child: int, school: str | None) -> int | str:
    """As which preference a child listed the school that it was allotted."""
    found = register.applications.get(child)
    if school is None:
        return NONE
    return found.preferences.index(school) + 1 if found else ENDED


def order(nth: int | str) -> tuple[float, str]:
    """The order of preferences: by their numbers, and then the words."""
    return (math.inf, nth) if isinstance(nth, str) else (nth, "")


def met(register: Register, draw: int) -> list[tuple[int | str, int, str]]:
    """How many children a draw left with their first, second, .. preference, or with none, and how
    many percent of those who took part that is.
    """
    outcomes = register.outcomes[draw]
    counts = collections.Counter(preference(register, *it) for it in outcomes.items())
    found = []
    for nth in sorted(counts, key=order):
        # (tenths of a percent, rounded half up)
        tenths = (2000 * counts[nth] + len(outcomes)) // (2 * len(outcomes))
        found.append((nth, counts[nth], f"{tenths // 10}.{tenths % 10}"))
    return found


def preferences(register: Register) -> Rows:
    """The same of each round."""
    rows: Rows = [[draw.round, draw.day.isoformat(), *it] for draw in register.rounds
                  for it in met(register, draw.number)]
    return [["round", "day", "preference", "children", "percent"], *rows]


def last_offered(register: Register, school: str | None = None) -> Rows:
    """The last that was offered at each school, or at this one, in each draw, and how many were."""
    rows: Rows = []
    for draw, drawn in with_drawn(register):
        offered = offered_in(register, draw, drawn)
        offers = collections.Counter(code for code, _ in offered)
        # (no two children have one lot at a school)
        by_lot = {(code, drawn.lots[code, child]): child for code, child in offered}
        rows += [[draw.number, draw.day.isoformat(), code, offers[code], by_lot[code, last.lot],
                  *last] for code, last in drawn.cutoffs.items() if school in (None, code)]
    header: list[Cell] = ["draw", "day", "school", "offers", "child", "class", "metres", "lot"]
    return [header, *rows]


def offered_in(register: Register, draw: Draw, drawn: Drawn) -> list[Pair]:
    """Who was offered the place for which it had a lot, and where."""
    outcomes = register.outcomes[draw.number]
    return [it for it in drawn.lots if outcomes.get(it[1]) == it[0]]


def equal_at_limit(register: Register) -> Rows:
    """Where only the lot decided, or may have: who was offered or refused a place there."""
    rows: Rows = []
    for draw, drawn in with_drawn(register):
        offered = of_schools(offered_at_limit(register, draw, drawn))
        refused = of_schools(refused_by_lot(register, draw, drawn))
        for code in drawn.cutoffs:
            them = [*offered[code], *refused[code]] if code in refused else []
            for it in sorted(them, key=lambda it: it.lot):
                rows.append([draw.number, code, it.child, *(it.rank or (None, None)), it.lot,
                             it.came])
    return [["draw", "school", "child", "class", "metres", "lot", "came"], *rows]


def of_schools(found: Iterable[tuple[str, Entry]]) -> dict[str, list[Entry]]:
    """Entries by their schools."""
    by_school: dict[str, list[Entry]] = {}
    for code, it in found:
        by_school.setdefault(code, []).append(it)
    return by_school


def rank_of(register: Register, pair: Pair) -> tuple[int, int] | None:
    """The class and the distance of a child at a school, unless its application has ended."""
    code, child = pair
    return register.rank(code, child) if child in register.applications else None


def offered_at_limit(
    register: Register, draw: Draw, drawn: Drawn,
) -> Iterator[tuple[str, Entry]]:
    """Who was offered a place at a school with the class and the distance of the last one there. Of
    one whose application has ended that cannot be told, unless it is the last one.
    """
    for pair in offered_in(register, draw, drawn):
        code, child = pair
        last, lot = drawn.cutoffs[code], drawn.lots[pair]
        rank = last[:2] if lot == last.lot else rank_of(register, pair)
        if rank in (None, last[:2]):
            yield code, Entry(child, lot, rank, OFFERED)


def refused_by_lot(register: Register, draw: Draw, drawn: Drawn) -> Iterator[tuple[str, Entry]]:
    """Whom the lot put after the last one at a school, and of whom that cannot be told, as its
    application has ended. A fill has no refusals: the lot decided between children who are equal.
    """
    outcomes = register.outcomes[draw.number]
    for pair, lot in drawn.lots.items():
        code, child = pair
        if code not in drawn.cutoffs or outcomes.get(child) == code:
            continue
        is_there = child in register.applications
        if is_there and draw.round and drawn.refusals.get(pair) != LOT:
            continue
        rank = rank_of(register, pair)
        if draw.round or rank in (None, drawn.cutoffs[code][:2]):
            yield code, Entry(child, lot, rank, REFUSED if is_there else UNKNOWN)


def moved(register: Register, number: int) -> Rows:
    """Whom a draw moved from one school to another: from where, how the place was held, and to
    where.
    """
    found = register.draws[number - 1]
    held, fresh = held_before(register, found), register.fresh[number]
    rows: Rows = [[child, register.children[child].name, *held[child], school]
                  for child, school in register.outcomes[number].items()
                  if fresh[child] and school is not None and child in held]
    return [["child", "name", "from", "held", "to"], *rows]


def held_before(register: Register, draw: Draw) -> Held:
    """The places before a draw, by what later draws and answers have left of them: the last school
    that each child was allotted, unless it gave that up since. Where a child left that school,
    before the draw or after it, the lots of the draw show which, except where it lists nothing
    lower that it wanted.
    """
    had: dict[int, str | None] = {}
    for earlier in register.draws[: draw.number - 1]:
        had |= register.outcomes[earlier.number]
    drawn, found = register.lots(draw.number), Held()
    for child, school in had.items():
        application = register.applications.get(child)
        listed = application.preferences if application else ()
        lower = listed[listed.index(school) + 1:] if school in listed else ()
        is_round = draw.school is None
        if school is None or is_round and any((it, child) in drawn for it in lower):
            continue
        wants = is_round and any((child, it) not in register.left for it in lower)
        is_sure = (child, school) not in register.left or wants
        found[child] = (school, "" if is_sure else "perhaps not")
    return found
