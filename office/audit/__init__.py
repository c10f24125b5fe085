"""Audits a round or a fill from two files alone. It shares no code with
`admissions`; only the locking of files with the other tools.

  admissions-audit BEFORE AFTER [--later] [--school CODE]

BEFORE is a copy of the register from before the round or the fill, AFTER the
register, or a copy, from after it. Of BEFORE it works out the problem: who
takes part, the schools that each child wants, the places, and how each child
ranks; of AFTER it takes the lots that were drawn. It needs Python alone.

A round: it allots the places itself, by deferred acceptance as Gale and
Shapley described it in 1962, and compares. It reports whether the outcomes are
stable (no child and school would both rather have each other) and best (no
child has a better school in any other stable allocation), and whom each school
turned away, by which key. A fill: it reports whether the school had a vacancy,
and whether the child that was offered it is the first by criterion, distance
and lot among all who wait there, and lists those. Of both it tests whether all
else in AFTER is as in BEFORE.

It cannot judge whether the lots were drawn fairly, or whether addresses and
flags are true.

example:
  admissions-audit copies/before-draw-1.db reg.db

exit status: 0 all is right; 1 something is not, one line for each finding; 2
wrong arguments.
"""
import argparse
import collections
import os
from collections.abc import Container, Iterator, Mapping, Sequence

import register_files as files

from .rows import (
    ACCEPTED, OFFERED, PLAN, TABLES, Draw, Offer, Pair, Place, Problem, Row, Rows, day_of, days_of,
    decided_by, key_in_words, rows_of,
)

KINDS = {OFFERED: "is offered", ACCEPTED: "has accepted", PLAN: "has by a plan"}
LATER = (
    "If commands followed the draw (answers, amended children, raised numbers), audit with --later,"
    " or with a copy from right after it"
)
# those of which a draw adds rows, and those that it leaves as they are
GROWING = ("draw", "offer", "lot")
KEPT = ("school", "child", "application", "left_list", "imported", "present")
# what rows that do not fit each other lead to
MISFITS = (KeyError, ValueError, TypeError, IndexError, OverflowError)
# the lines to print, and whether all is right
Findings = tuple[list[str], bool]


def in_words(table: str, row: Row, columns: Sequence[str]) -> str:
    """A row with these columns as it is printed."""
    if table == "place":
        return place_in_words(Place(*row))
    cells = zip(columns, row)
    return ", ".join(f"{name} {'none' if it is None else it}" for name, it in cells)


def place_in_words(it: Place) -> str:
    """A place as it is printed."""
    offered = "" if it.day is None else f", offered {day_of(it.day)}"
    if it.day is not None and it.reminded is not None:
        offered += f", reminded {day_of(it.reminded)}"
    return f"child {it.child} {KINDS.get(it.kind, f'has by kind {it.kind}')} {it.school}{offered}"


def differences(
    gone: str, come: str, old: Sequence[Row], new: Sequence[Row], table: str,
    columns: Sequence[str],
) -> list[str]:
    """The rows of each list that the other one lacks, with a text that says which."""
    one, other = (set(), set()) if old == new else (set(old), set(new))
    return [
        *(f"{gone}: {in_words(table, it, columns)}" for it in sorted(one - other, key=repr)),
        *(f"{come}: {in_words(table, it, columns)}" for it in sorted(other - one, key=repr)),
    ]


def what_else_changed(before: Rows, after: Rows, later: bool) -> list[str]:
    """The differences between BEFORE and AFTER, except those that a draw makes."""
    count, wrong = len(before.draws), []
    for table in GROWING if later else GROWING + KEPT:
        gone = f"a row of {table} of BEFORE is not in AFTER"
        come = f"a row of {table} of AFTER was not in BEFORE"
        # (a file of an earlier version may lack one)
        columns = [it for it in before.columns[table] if it in after.columns[table]]
        old, new = (it.rows_by(table, columns) for it in (before, after))
        if table in GROWING:
            # (only those draws, outcomes and lots that are from before this draw)
            new = [it for it in new if it[0] <= count]
        wrong += differences(gone, come, old, new, table, columns)
    # (the number of draws grows, and the version of a file may)
    one, other = ([it.meta[:3]] for it in (before, after))
    gone = "the season of BEFORE is not that of AFTER"
    come = "the season of AFTER was not that of BEFORE"
    wrong += differences(gone, come, one, other, "meta", TABLES["meta"])
    if after.meta.draws != len(after.draws):
        wrong.append(f"AFTER has {len(after.draws)} draws, and counts {after.meta.draws}")
    if not later and len(after.draws) > count + 1:
        wrong.append(f"AFTER has {len(after.draws) - count} draws more than BEFORE: with --later"
                     " the first of them is looked at")
    return wrong


def errors_of_lots(pairs: set[Pair], lots: Mapping[Pair, int]) -> Iterator[str]:
    """The errors in the lots: there must be one for each pair, in range, and no two at a school
    equal.
    """
    for (code, child), lot in lots.items():
        if not 0 <= lot < 2**32:
            yield f"the lot {lot} of child {child} at {code} is out of range"
    for code, child in sorted(pairs ^ set(lots)):
        if (code, child) in pairs:
            yield f"child {child} wants {code} and has no lot there"
        else:
            yield f"child {child} has a lot at {code}, which it does not want"
    equal = collections.Counter((code, lot) for (code, _), lot in lots.items())
    for (code, lot), times in sorted(equal.items()):
        if times > 1:
            yield f"{times} lots at {code} are {lot}"


def error_of_day(before: Rows, day: int) -> Iterator[str]:
    """What is wrong with the day of a draw, if anything."""
    _, offer_day, end = days_of(before.meta)
    if not max([offer_day, *(it.day for it in before.draws)]) <= day <= end:
        yield (f"the day {day_of(day)} is before the offer day or an earlier draw, or after the"
               " lists have closed")


def errors_of_places(
    before: Rows, after: Rows, new: Mapping[int, str], day: int, what: str
) -> list[str]:
    """The differences between the places of AFTER, and those of BEFORE with the new ones. `new` has
    the schools of children, `what` is the draw's kind.
    """
    places = [it for it in before.places if it.child not in new]
    places += [Place(child, school, OFFERED, day, None) for child, school in new.items()]
    gone = f"by BEFORE and the {what}, and not in AFTER"
    come = f"in AFTER, and not by BEFORE and the {what}"
    return differences(gone, come, places, after.places, "place", TABLES["place"])


def lots_of(after: Rows, number: int) -> dict[Pair, int]:
    """The lots of a draw."""
    return {(it.school, it.child): it.lot for it in after.lots if it.draw == number}


def audit(before: Rows, after: Rows, later: bool, only: str | None) -> Findings:
    """The lines to print, and whether all is right."""
    number = len(before.draws) + 1
    wrong = what_else_changed(before, after, later)
    if len(before.draws) > len(after.draws):
        counts = f"BEFORE has {len(before.draws)} and AFTER {len(after.draws)}"
        wrong.insert(0, f"BEFORE has more draws than AFTER ({counts}): give the copy from before"
                        " the draw first; are the two files exchanged?")
    draw = next((it for it in after.draws if it.draw == number), None)
    if draw is None:
        wrong.append(f"AFTER has no draw {number}: BEFORE has {number - 1}, and AFTER none more")
        return wrong, False
    wrong += error_of_day(before, draw.day)
    rounds = sum(1 for it in before.draws if it.round)
    if draw.round == rounds + 1 and draw.school is None:
        return audit_round(before, after, draw, wrong, later, only)
    if draw.round == 0 and draw.school is not None:
        return audit_fill(before, after, draw, wrong, later, only)
    return wrong + [f"draw {number} of AFTER is neither the next round nor a fill"], False


def audit_round(
    before: Rows, after: Rows, draw: Draw, wrong: list[str], later: bool, only: str | None
) -> Findings:
    """The same of the next round. `wrong` has what was found before."""
    this, lots = Problem(before), lots_of(after, draw.draw)
    outcomes = {it.child: it for it in after.offers if it.draw == draw.draw}
    wrong += errors_of_lots(this.pairs, lots)
    for child in sorted(set(this.asks) ^ set(outcomes)):
        if child in this.asks:
            wrong.append(f"child {child} takes part, and has no outcome")
        else:
            wrong.append(f"child {child} has an outcome, and does not take part")
    if not this.pairs <= set(lots) or set(this.asks) != set(outcomes):
        return wrong, False
    this.draw(lots)
    has = {child: outcomes[child].school for child in this.asks}
    new = {child: school for child, school in has.items()
           if school is not None and school != this.own.get(child)}
    wrong += this.unstable(has)
    wrong += errors_of_outcomes(this, outcomes, new)
    if not later:
        wrong += errors_of_places(before, after, new, draw.day, "round")
    if only not in (None, *this.schools):
        wrong.append(f"there is no school {only}")
    if wrong:
        return wrong, False
    held = sum(1 for it in has.values() if it is not None)
    return [
        f"Round {draw.round}, draw {draw.draw}, {day_of(draw.day)}: {len(has)} children,"
        f" {len(this.schools)} schools, {len(lots)} lots",
        f"Offers {len(new)}, kept {held - len(new)}, unplaced {len(has) - held}",
        *this.turned_away(has, only),
        "The outcomes are stable, and the best for each child of all that are stable",
    ], True


def errors_of_outcomes(
    this: Problem, outcomes: Mapping[int, Offer], new: Container[int]
) -> Iterator[str]:
    """The outcomes that are not the best ones, and those that are wrongly marked as new or not."""
    best = this.best()
    for child in this.asks:
        has = outcomes[child].school
        if has != best[child]:
            yield (f"not best: child {child} has {has or 'none'}, and the best stable allocation"
                   f" gives it {best[child] or 'none'}")
    for child in this.asks:
        is_new = outcomes[child].fresh
        if is_new != (child in new):
            how = "new" if is_new else "kept"
            yield f"the outcome of child {child} is wrongly marked as {how}"


def audit_fill(
    before: Rows, after: Rows, draw: Draw, wrong: list[str], later: bool, only: str | None
) -> Findings:
    """The same of a fill: whether there was a vacancy, and who was first for it."""
    this, number, school = Problem(before), draw.draw, draw.school
    if school is None or school not in this.schools:
        wrong.append(f"draw {number} of AFTER is a fill at {school}, which is no school of BEFORE")
        return wrong, False
    if only not in (None, school):
        wrong.append(f"draw {number} is a fill at {school}, and not at {only}")
    if not before.draws:
        wrong.append("there was no round before the fill, so nobody waited")
    pan, held = this.schools[school].pan, sum(1 for it in before.places if it.school == school)
    vacant, waiting = max(0, pan - held), this.waiting(school)
    if not vacant:
        wrong.append(f"school {school} had no vacancy: {held} children had its {pan} places")
    lots, pairs = lots_of(after, number), {(school, it) for it in waiting}
    wrong += errors_of_lots(pairs, lots)
    if not waiting:
        wrong.append(f"nobody waited at {school}")
    if not waiting or not pairs <= set(lots):
        return wrong, False
    keys = {it: (*this.standing(school, it), lots[school, it]) for it in waiting}
    first, *others = sorted(waiting, key=keys.__getitem__)
    outcomes = [it for it in after.offers if it.draw == number]
    if outcomes != [Offer(number, first, school, 1)]:
        has = ", ".join(map(outcome_in_words, outcomes)) or "nobody"
        wrong.append(f"not the first: child {first} is, and {has} has the place")
    if not later:
        wrong += errors_of_places(before, after, {first: school}, draw.day, "fill")
    if wrong:
        return wrong, False
    return [
        f"Fill of {school}, draw {number}, {day_of(draw.day)}: places {pan}, held {held},"
        f" vacancies {vacant}, waiting {len(waiting)}",
        f"Offered to child {first}, {key_in_words(keys[first])}",
        *(f"  after it child {it}, {key_in_words(keys[it])}:"
          f" by {decided_by(keys[it], keys[first]) or 'nothing'}" for it in others),
        "The child is the first by class, distance and lot of all who waited there, and there was a"
        " vacancy",
    ], True


def outcome_in_words(it: Offer) -> str:
    """The outcome of a fill as it is printed."""
    return f"child {it.child} {it.school or 'none'}{'' if it.fresh else ', marked as kept'}"


def audit_is_later(before: Rows, after: Rows) -> bool:
    """Whether the same audit with --later finds nothing wrong."""
    try:
        return audit(before, after, True, None)[1]
    except MISFITS:
        return False


def arguments(reader: argparse.ArgumentParser) -> None:
    """The arguments of the command."""
    reader.add_argument("before", metavar="BEFORE",
                        help="a copy of the register from before the round or the fill")
    reader.add_argument("after", metavar="AFTER", help="the register, or a copy, from after it")
    reader.add_argument("--later", action="store_true", help="commands may have followed")
    reader.add_argument("--school", metavar="CODE", help="report only whom this school turned away")


def main(given: argparse.Namespace) -> int:
    """Audits."""
    before, after = rows_of(given.before), rows_of(given.after)
    for it in (given.before, given.after):
        files.warn("audit", it, os.stat(it))
    try:
        lines, is_right = audit(before, after, given.later, given.school)
    except MISFITS as error:
        is_right, lines = False, ["the rows of a file do not fit each other, so one of them is no"
                                  f" register: {error!r}"]
    has_draw = before.draws != after.draws
    if not is_right and not given.later and has_draw and audit_is_later(before, after):
        lines = [*lines, LATER]
    print("\n".join(lines))
    return 0 if is_right else 1
