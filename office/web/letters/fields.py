"""What a letter to a family has, of a register as the program shows it, and the proved text of the
program that it must agree with.
"""
import dataclasses
import datetime
import functools
import json
from collections.abc import Iterable, Mapping, Sequence
from typing import Any

from register_files import Refused

from office.core import criteria, days
from office.core.model import (
    CLASS, DISTANCE, OFFERED, PLAN, WAITS, Application, Cutoff, Pair, Place, Preference, Register,
    School,
)
from office.core.rules import LIMITS

Cell = str | int | datetime.date | None
# of a child without a place
NONE = "none"
# what a day has in a letter as JSON
DAY = "day"
MOST_WAITS = LIMITS["preferences"].most
# why a child does not wait at a school above its place
DECLINED, LEFT = "declined", "you left its list"
TURNED_DOWN = "declined, or not answered in time"
EITHER = "declined, not answered in time, or you left its list"
NO_NEW_PLACE = "no place was left to be offered"
COLUMNS = (
    "child", "name", "year", "phase", "state", "school", "school_name", "preference", "offered",
    "offered_words", "reminded", "reminded_words", "answer_by", "answer_by_words", "criterion",
    "criterion_code", "metres", "ended_school", "ended_name", "ended_because", "late", "appeal",
)
WAIT_COLUMNS = ("school", "name", "position", "of", "criterion", "metres")
# a day of the register, and the same in words
IN_WORDS = {f"{it}_words": it for it in ("offered", "reminded", "answer_by")}


@dataclasses.dataclass(frozen=True)
class Listed:
    """A school that the family prefers to the child's place: how the child ranks there, and its
    position where it waits, else None and why not; and why the last round refused it there, if it
    did.
    """

    code: str
    name: str
    preference: int
    number: int
    criterion: str
    metres: int
    position: int | None
    of: int | None
    because: str | None = None
    refused: str | None = None

    @property
    def was_refused(self) -> bool:
        """Whether the family may appeal: it was not offered a place there that it declined or let
        lapse.
        """
        return self.because in (None, LEFT)


@dataclasses.dataclass(frozen=True)
class Ended:
    """The place that a child had before and has no more, and why, if there is one."""

    school: str | None = None
    name: str | None = None
    because: str | None = None


@dataclasses.dataclass(frozen=True)
class Letter:
    """All of one letter. `state` is offered, accepted, plan or none; days are dates; an application
    that `is_late` took no part in the first round.
    """

    child: int
    name: str
    year: int
    phase: str
    state: str
    applied: datetime.date | None
    school: str | None
    school_name: str | None
    preference: int | None
    offered: datetime.date | None
    reminded: datetime.date | None
    answer_by: datetime.date | None
    criterion: str | None
    criterion_code: str | None
    metres: int | None
    criteria: tuple[str, ...]
    ended_school: str | None
    ended_name: str | None
    ended_because: str | None
    listed: tuple[Listed, ...]
    closing: datetime.date
    is_late: bool
    # from the date of the letter until the last day of the answer
    days_left: int | None = None

    @property
    def late(self) -> str | None:
        """Whether the application took no part in the first round, in a cell."""
        return "yes" if self.is_late else None

    @property
    def appeals(self) -> tuple[Listed, ...]:
        """The schools against whose refusal the family may appeal."""
        return tuple(it for it in self.listed if it.was_refused)

    @property
    def appeal(self) -> str:
        """Their names in a cell."""
        return "; ".join(it.name for it in self.appeals)

    @property
    def waits(self) -> tuple[Listed, ...]:
        """The schools where the child waits."""
        return tuple(it for it in self.listed if it.position)

    @property
    def declined(self) -> tuple[Listed, ...]:
        """The schools above its place where it does not wait, as it declined or left them, or an
        offer lapsed.
        """
        return tuple(it for it in self.listed if not it.position)

    def place_lines(self) -> list[str]:
        """The lines of the proved text about the place."""
        named = f"Place: {self.school} {self.school_name}"
        if self.state == NONE:
            return ["Place: none"]
        if self.state != OFFERED:
            return [f"{named}, {self.state}"]
        if not self.reminded:
            return [f"{named}, offered {self.offered}"]
        return [f"{named}, offered {self.offered}, reminded {self.reminded}",
                f"The offer may be withdrawn {days.NOTICE.days} days after {self.reminded} if it is"
                " not answered."]

    def proved(self) -> str:
        """The text that the program must print for this child."""
        waits = [f"Waiting: {it.code} {it.name}, position {it.position} of {it.of},"
                 f" class {it.number}, {it.metres} metres" for it in self.waits]
        lines = [f"Admission {self.year} {self.phase}", f"Child {self.child} {self.name}",
                 *self.place_lines(), *(waits or ["Waiting: nowhere"])]
        return "\n".join(lines) + "\n"


class Writer:
    """Makes the letters of a register. `before` is the register from before a round, a fill or
    withdrawals, if places that ended are to be named, `flags` are the office's words for flags,
    and `day` is the date of the letters.
    """

    def __init__(self, register: Register, before: Register | None = None,
                 flags: dict[int, str] | None = None, day: datetime.date = datetime.date.max,
                 ) -> None:
        self.register, self.before, self.flags, self.day = register, before, flags, day
        # the schools that each child was offered and the days of the offers, the last at the end
        self.offered: dict[int, list[tuple[str | None, datetime.date]]] = {}
        for draw in register.draws:
            outcomes = register.outcomes[draw.number]
            for child, is_fresh in register.fresh[draw.number].items():
                if is_fresh:
                    self.offered.setdefault(child, []).append((outcomes[child], draw.day))

    @functools.cached_property
    def refusals(self) -> dict[Pair, tuple[str | None, Cutoff | None]]:
        """What decided in the last round that refused a child at a school, and how the last child
        ranks that was taken in there then, as the program says it.
        """
        found: dict[Pair, tuple[str | None, Cutoff | None]] = {}
        for draw in self.register.drawn_of([it.number for it in self.register.rounds]):
            found |= {it: (by, draw.cutoffs.get(it[0])) for it, by in draw.refusals.items()}
        return found

    def refused(self, school: School, child: int) -> str | None:
        """Why the last round refused a child at a school, in words. It is None where it did not, or
        where the data were changed since so that they give no reason.
        """
        by, last = self.refusals.get((school.code, child), (None, None))
        if by is None or last is None:
            return NO_NEW_PLACE if by else None
        other = f"the last place was offered to a child {self.words(school, last.number)}"
        if by == CLASS:
            return f"{other}, and such children rank before yours"
        if criteria.is_private(school, last.number):
            return f"{other}, who lives nearer, or as near and with a smaller lot"
        if by == DISTANCE:
            return f"{other}, who lives nearer, at {last.metres:,} metres from the school"
        return f"{other}, who lives as near, and has a smaller lot"

    def words(self, school: School, number: int) -> str:
        """What a class of a school means."""
        found: str = criteria.in_words(school, number, self.flags)
        return found

    def listed(self, code: str, child: int, at: int, found: Preference) -> Listed:
        """A school above the place of a child."""
        school = self.register.schools[code]
        because = None if found.state == WAITS else self.not_waiting(child, code)
        made = Listed(code, school.name, at, found.number, self.words(school, found.number),
                      found.metres, found.position, found.of, because)
        if not made.was_refused:
            return made
        return dataclasses.replace(made, refused=self.refused(school, child))

    def not_waiting(self, child: int, code: str) -> str:
        """Why a child does not wait at a school above its place. One that was offered a place
        there, and none elsewhere since, declined it or let it lapse.
        """
        offered = self.offered.get(child, [])
        if code not in (it for it, _ in offered):
            return LEFT
        last, day = offered[-1]
        return EITHER if last != code else TURNED_DOWN if self.may_have_lapsed(day) else DECLINED

    def may_have_lapsed(self, offered: datetime.date, reminded: datetime.date | None = None,
                        ) -> bool:
        """Whether an offer can have been withdrawn by the date of the letter. The register accepts
        a withdrawal, as the reminder before it, on the last day of the answer.
        """
        return self.day >= days.answer_by(reminded or days.answer_by(offered))

    def letter(self, number: int) -> Letter:
        """The letter of a child."""
        register = self.register
        place, application = register.places.get(number), register.applications.get(number)
        school = register.schools[place.school] if place else None
        found = application.listed.get(place.school) if application and place else None
        above = self.above(number, application, place) if register.draws else ()
        started = place and (place.reminded or place.day)
        answer_by = days.answer_by(started) if started else None
        criterion, code = self.criterion_of(school, found)
        ended = self.ended(number, place)
        return Letter(
            child=number, name=register.children[number].name, year=register.year,
            phase=register.phase, state=place.kind if place else NONE,
            applied=application.day if application else None,
            school=school.code if school else None, school_name=school.name if school else None,
            preference=len(above) + 1 if found else None, offered=place.day if place else None,
            reminded=place.reminded if place else None,
            answer_by=answer_by, criterion=criterion,
            criterion_code=code, metres=found.metres if found else None,
            criteria=self.criteria_of(school), ended_school=ended.school, ended_name=ended.name,
            ended_because=ended.because, listed=above, closing=register.days[0],
            is_late=application is not None and not register.is_in_time(application.day),
            days_left=(answer_by - self.day).days if answer_by else None,
        )

    def above(self, number: int, application: Application | None, place: Place | None,
              ) -> tuple[Listed, ...]:
        """The schools that a child lists above its place, or all of its list."""
        found = []
        for at, (code, it) in enumerate(application.listed.items() if application else (), 1):
            if place and place.school == code:
                break
            found.append(self.listed(code, number, at, it))
        return tuple(found)

    def criterion_of(self, school: School | None, found: Preference | None,
                     ) -> tuple[str | None, str | None]:
        """By what a child has its place, in words and as schools have it."""
        if school is None:
            return None, None
        if found is None:
            return "named by an EHC plan", PLAN
        at = found.number
        code = school.criteria[at - 1] if 0 < at <= len(school.criteria) else "none"
        return self.words(school, at), code if at else "looked-after"

    def criteria_of(self, school: School | None) -> tuple[str, ...]:
        """The order at a school, in words."""
        if school is None:
            return ()
        return tuple(self.words(school, it) for it in range(len(school.criteria) + 2))

    def ended(self, number: int, place: Place | None) -> Ended:
        """The place that the child had before and has no more, and why."""
        had = self.before.places.get(number) if self.before else None
        if self.before is None or had is None or place and place.school == had.school:
            return Ended()
        if had.kind == PLAN:
            raise Refused(f"{self.before.name} is no copy from before {self.register.name}: child"
                          f" {number} has a place by a plan there, which nothing ends")
        schools = self.register.schools
        if place and place.kind == PLAN:
            because = f"the EHC plan of the child names {schools[place.school].name}"
        elif place:
            because = f"a place at {schools[place.school].name}, which you prefer, was offered"
        elif had.day and self.may_have_lapsed(had.day, had.reminded):
            reminder = (f", of which we reminded you on {days.in_words(had.reminded)},"
                        if had.reminded else "")
            because = (f"our offer of {days.in_words(had.day)}{reminder} was declined, or was"
                       " withdrawn because it was not answered")
        else:
            because = "you declined it"
        return Ended(had.school, schools[had.school].name, because)


def row_of(letter: Letter) -> list[Cell]:
    """A row of the file for a mail merge."""
    cells: list[Cell] = []
    for it in COLUMNS:
        value: Cell = getattr(letter, IN_WORDS.get(it, it))
        if it in IN_WORDS and isinstance(value, datetime.date):
            value = days.in_words(value)
        cells.append(value)
    for wait in letter.waits:
        cells += [wait.code, wait.name, wait.position, wait.of, wait.criterion, wait.metres]
    return cells + [None] * (len(WAIT_COLUMNS) * (MOST_WAITS - len(letter.waits)))


def header() -> list[str]:
    """The columns of the file for a mail merge."""
    waits = [f"waiting_{at}_{it}" for at in range(1, MOST_WAITS + 1) for it in WAIT_COLUMNS]
    return [*COLUMNS, *waits]


def text_of(letter: Letter) -> str:
    """A letter as JSON, from which it is made again."""
    return json.dumps(dataclasses.asdict(letter), ensure_ascii=False,
                      default=lambda day: {DAY: day.isoformat()})


def of_text(text: str) -> Letter:
    """The letter of such a text."""
    found = json.loads(text, object_hook=day_or_row)
    found["criteria"] = tuple(found["criteria"])
    found["listed"] = tuple(Listed(**it) for it in found["listed"])
    return Letter(**found)


def day_or_row(found: dict[str, Any]) -> Any:
    """A day of such a text, or a row as it is."""
    return datetime.date.fromisoformat(found[DAY]) if set(found) == {DAY} else found


def merge_rows(
    letters: Iterable[Letter], columns: list[str], addresses: Mapping[int, list[str]],
) -> list[Sequence[Cell]]:
    """The rows of a mail merge, of which the first is the header. The columns of the addresses are
    last.
    """
    lines: list[Sequence[Cell]] = [[*header(), *columns]]
    for it in letters:
        lines.append([*row_of(it), *addresses.get(it.child, [""] * len(columns))])
    return lines
