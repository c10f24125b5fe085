"""Tries what a change of an admission number or of criteria would have done to a round: who would
have gained, and who would have lost.

The program makes two new registers in a folder that is deleted at the end, one as it was and one
with the change, and holds the round in both by the same lots. A child gains if it would have a
school that it prefers, and loses if it would have one that it wants less, or none; by the same
lists, for nobody knows what families would have listed. The numbers are small and not for
publication.
"""
import dataclasses
import datetime
import os
import tempfile
from collections.abc import Iterable, Iterator, Mapping

from register_files import Refused

from office.core import criteria, days, model, texts
from office.core.model import Pair, Register, School
from office.files import charts, pages

from . import effects, registers
from .registers import Program

Change = tuple[str, int | tuple[str, ...]]
Cells = list[object]


def criteria_of(listed: tuple[str, ...]) -> str:
    """Criteria in a sentence."""
    return ";".join(listed) or "none"


def changed_schools(before: Register,
                    given: Iterable[Change]) -> tuple[dict[str, School], list[str]]:
    """The schools with changes, and each change in words."""
    schools, words = dict(before.schools), []
    for code, value in given:
        if code not in schools:
            raise Refused(f"{before.name} has no school {texts.shown(code)}")
        old = schools[code]
        if isinstance(value, int):
            words.append(f"{code}: admission number {value} in place of {old.pan}")
            schools[code] = dataclasses.replace(old, pan=value)
        else:
            had = criteria_of(old.criteria)
            words.append(f"{code}: criteria {criteria_of(value)} in place of {had}")
            schools[code] = dataclasses.replace(old, criteria=value)
    if schools == before.schools:
        raise Refused("nothing is changed: the schools have these admission numbers and criteria"
                      " already")
    return schools, words


def round_of(before: Register,
             after: Register | None) -> tuple[datetime.date, dict[Pair, int] | None]:
    """The day of the round that is tried, and its lots, if AFTER is given."""
    if after is None:
        return max([before.days[1], *(it.day for it in before.draws)]), None
    model.same_season(before, after)
    number = len(before.draws) + 1
    draw = after.draws[number - 1] if len(after.draws) >= number else None
    if draw is None or not draw.round:
        raise Refused(f"{after.name} has no round as draw {number}: {before.name} must be from"
                      " right before the round")
    return draw.day, after.lots(number)


class Trial:
    """A round as it was and as it would have been."""

    def __init__(self, before: Register, after: Register | None, schools: dict[str, School],
                 flags: Mapping[int, str], program: Program) -> None:
        self.flags = flags
        self.number = len(before.draws) + 1
        self.day, given = round_of(before, after)
        with tempfile.TemporaryDirectory(prefix="admissions-trial-") as room:
            path = os.path.join(room, "plain.db")
            self.plain, lots = registers.held_round(
                program, path, before, before.schools, self.day, given)
            if after and self.plain.outcomes[self.number] != after.outcomes.get(self.number):
                raise Refused(f"the round of {before.name} does not have the outcome of"
                              f" {after.name}: an audit of both says where they differ")
            path = os.path.join(room, "changed.db")
            self.changed, _ = registers.held_round(
                program, path, before, schools, self.day, lots)
        self.effects = effects.effects_of(self.plain, self.changed, self.number)
        self.schools = effects.by_school(self.plain, self.changed, self.number, self.effects)
        self.gains = sum(it.gains for it in self.effects)
        self.losses = len(self.effects) - self.gains

    def unplaced(self, reg: Register) -> int:
        """How many children have no place."""
        return sum(it is None for it in reg.outcomes[self.number].values())

    def words(self, reg: Register, code: str, number: int) -> str:
        """A class at a school in words."""
        return criteria.in_words(reg.schools[code], number, self.flags)

    def last(self, reg: Register, code: str, key: tuple[int, int] | None) -> str:
        """The last child that was offered a place, in words."""
        return f"{self.words(reg, code, key[0])}, {key[1]:,} metres" if key else "no offer"

    def school_rows(self) -> Iterator[Cells]:
        """The table by school: those where anything would be different."""
        for it in self.schools:
            old, new = self.plain.schools[it.code], self.changed.schools[it.code]
            was, would = (it.offered, it.last), (it.would_offer, it.would_last)
            if old != new or it.gains or it.losses or was != would:
                yield [it.code, old.name, old.pan, new.pan, it.offered, it.would_offer,
                       it.gains.total(), it.losses.total(), self.last(self.plain, it.code, it.last),
                       self.last(self.changed, it.code, it.would_last)]

    def criterion_rows(self) -> Iterator[Cells]:
        """The table by school and criterion. A gain is by the criteria of the trial, a loss by
        those that there were.
        """
        for it in self.schools:
            counts: dict[tuple[int, str], list[int]] = {}
            for at, (reg, them) in enumerate(((self.changed, it.gains), (self.plain, it.losses))):
                for number, count in them.items():
                    words = self.words(reg, it.code, number)
                    counts.setdefault((number, words), [0, 0])[at] += count
            for (_, words), (gains, losses) in sorted(counts.items()):
                yield [it.code, words, gains, losses]

    def summary(self, words: list[str], is_drawn: bool) -> Iterator[str]:
        """The first lines."""
        count = len(self.plain.outcomes[self.number])
        lots = "lots drawn for this trial" if is_drawn else "the lots of the round"
        yield f"Trial of round {len(self.plain.rounds)} of {days.in_words(self.day)}, by {lots}"
        yield from words
        part = texts.count(count, "child", "children")
        same = count - len(self.effects)
        yield (f"{part} took part: {self.gains:,} would gain, {self.losses:,} would lose,"
               f" {same:,} would have the same school")
        would = self.unplaced(self.changed)
        yield f"Without a place: {self.unplaced(self.plain):,}, would be {would:,}"

    def child_rows(self) -> Iterator[Cells]:
        """A row for each child that would have another school."""
        for it in self.effects:
            name = self.plain.children[it.child].name
            yield [it.child, name, "gains" if it.gains else "loses",
                   it.had, self.class_words(self.plain, it.had, it.had_class),
                   it.would, self.class_words(self.changed, it.would, it.would_class)]

    def class_words(self, reg: Register, code: str | None, number: int | None) -> str | None:
        """The class of a child at its school in words, if it has one."""
        return None if code is None or number is None else self.words(reg, code, number)


CHILD_HEAD = ("child", "name", "effect", "school", "criterion", "would_have", "by_criterion")


def page(trial: Trial, words: list[str], is_drawn: bool) -> str:
    """The page."""
    there = [it for it in trial.schools if it.gains or it.losses]
    series = [("would gain", [it.gains.total() for it in there]),
              ("would lose", [it.losses.total() for it in there])]
    title = "Children who would gain or lose, by school"
    description = "Two bars for each school, with the numbers of the table above."
    codes = [it.code for it in there]
    drawing = charts.bars("trial", title, description, codes, series, "children") if there else ""
    return str(pages.render("web/trials/printed/trial.html", {
        "summary": list(trial.summary(words, is_drawn)), "schools": list(trial.school_rows()),
        "criteria": list(trial.criterion_rows()),
        "names": {code: it.name for code, it in trial.plain.schools.items()},
        "charts": {"trial": drawing},
    }))
