"""Says in sentences why a child got what a round or a fill gave it, and no place at each school
that its family wanted more. For a family small numbers are withheld; no other child is named.

A register has the data of now. Where a home, a flag or an admission number was changed after the
draw, the program holds it again on the copy from right before it, by the same lots, and so explains
it by what it saw.
"""
import collections
import dataclasses
import re
from collections.abc import Iterator

from register_files import Refused

from office.core import criteria, days, model, texts
from office.core.model import (
    CLASS, DISTANCE, LOT, NOBODY, PLAN, Application, Cutoff, Draw, Register,
)
from office.web.figures import withheld
from office.web.rounds.held_draw import Held

FOR_OFFICE = "For the office alone: it has numbers that are not published"
FOR_FAMILY = "For the family of the child: small numbers are withheld"
# what a family reads in place of a number that is withheld, and what that means
SOME = "Some"
MEANING = (f"Where this says '{SOME.lower()}', the number is withheld, because it is from 1 to"
           f" {withheld.LEAST - 1}, or because such a number could be worked out from it.")
# and in place of a distance
MEANING_OF_DISTANCE = (
    "Withheld means that no family reads it. A distance is withheld if the last child admitted is"
    " or was looked after, or has a verified reason: it could say which child that is.")
DECIDED = {
    CLASS: "The criterion decided: the last child admitted met one that comes before any that this"
    " child meets.",
    DISTANCE: "Both rank equally by the criteria, and the distance decided: the other child lives"
    " nearer to the school.",
    LOT: "Both rank equally by the criteria and live at the same distance, and the lot decided: the"
    " smaller one ranks first.",
    NOBODY: "Nobody was newly admitted.",
}
# what is said of the criterion where this child meets none
MEETS_NONE = "The criterion decided: the last child admitted met one, and this child meets none."
BY_DISTANCE_OR_LOT = ("Both rank equally by the criteria, and the distance, or between equal"
                      " distances the lot, decided.")
ORDER = ("A vacancy is offered to the one that ranks first of those who wait: by the criteria, then"
         " by the distance, and between equal distances by the lot.")
AMENDED = ("The details of this child were changed since. This uses the earlier ones, which"
           " decided.")
NO_REASON = "the details of this child, or of one that was admitted, were changed since"
# why a child takes no part at a school of its list
TURNED_DOWN = "the family had declined the place there, or not answered its offer in time"
LEFT = "the family had left the waiting list there"
EITHER = ("the family had declined the place there, not answered its offer in time, or left the"
          " waiting list")


@dataclasses.dataclass(frozen=True)
class School:
    """A school that a child wanted in a draw, and of which it has no place: as which preference;
    why it took no part there, if so; else the places, how many wanted one, how many of these put
    it first, if that is known, how many were admitted, and by which classes if that is known; how
    the last of them ranks, and how the child does; and what decided, if the program says it.
    """

    code: str
    preference: int
    because: str | None = None
    pan: int = 0
    plans: int = 0
    kept: int = 0
    wanted: int = 0
    firsts: int | None = None
    admitted: int = 0
    classes: dict[int, int] | None = None
    last: Cutoff | None = None
    key: Cutoff | None = None
    decided: str | None = None


@dataclasses.dataclass(frozen=True)
class Why:
    """The explanation of one child in one draw: the place that it had before and the one that it
    has by the draw, if these are known, and the schools that it wanted more. `is_of_now` where it
    is by the data of now, `is_amended` where the draw saw others of this child.
    """

    child: int
    held: Held
    takes_part: bool
    had: str | None
    got: str | None
    schools: tuple[School, ...]
    is_of_now: bool
    is_amended: bool = False

    @property
    def register(self) -> Register:
        """The register by which it is explained."""
        return self.held.register

    @property
    def application(self) -> Application | None:
        """The application of the child, unless a plan has ended it since."""
        return self.register.applications.get(self.child)

    @property
    def is_whole(self) -> bool:
        """Whether each refusal has a reason."""
        return all(it.because or it.decided for it in self.schools) or bool(self.held.draw.school)


def explain(held: Held, number: int, before: Register | None = None) -> Why:
    """The explanation by a register from after a draw; `before` is the copy on which the draw was
    held again, if it was.
    """
    register, draw = held.register, held.draw
    if number not in register.children:
        raise Refused(f"{register.name} has no child {number}")
    got, place = held.outcomes.get(number), before.places.get(number) if before else None
    had = got if got and not held.fresh[number] else place.school if place else None
    takes_part = number in held.outcomes or (draw.school, number) in held.drawn.lots
    schools = of_fill(held, number) if draw.school else of_round(held, number)
    return Why(number, held, takes_part, had, got, tuple(schools) if takes_part else (),
               before is None)


def of_round(held: Held, number: int) -> Iterator[School]:
    """The schools that a child of a round wanted more than what it got."""
    application, got = held.register.applications.get(number), held.outcomes.get(number)
    for at, code in enumerate(application.preferences if application else (), 1):
        if code == got:
            return
        if (code, number) in held.drawn.refusals:
            yield counted(held, number, School(code, at))
        else:
            yield School(code, at, why_left(held, number, code))


def of_fill(held: Held, number: int) -> Iterator[School]:
    """The school of a fill, of a child that waited there and was not offered the place."""
    code, application = held.draw.school, held.register.applications.get(number)
    if code and application and (code, number) in held.drawn.lots and number not in held.outcomes:
        yield counted(held, number, School(code, application.preferences.index(code) + 1))


def why_left(held: Held, number: int, code: str) -> str:
    """Why a child took no part at a school of its list: the last place that it was offered before
    was that one, an earlier one, or none.
    """
    register = held.register
    offered = [register.outcomes[it.number][number] for it in register.draws
               if it.number < held.draw.number and register.fresh[it.number].get(number)]
    if code not in offered:
        return LEFT
    return TURNED_DOWN if offered[-1] == code else EITHER


def counted(held: Held, number: int, found: School) -> School:
    """A school with its places, and what the program says of this child there."""
    code, register, drawn = found.code, held.register, held.drawn
    school, outcomes = register.schools[code], held.outcomes
    admitted = [it for it, has in outcomes.items() if has == code and held.fresh[it]]
    return dataclasses.replace(
        found, pan=school.pan, plans=school.plans,
        kept=sum(has == code for has in outcomes.values()) - len(admitted),
        wanted=sum(there == code for there, _ in drawn.lots), firsts=firsts_of(held, code),
        admitted=len(admitted),
        classes=classes_of(register, code, admitted), last=drawn.cutoffs.get(code),
        key=Cutoff(*register.rank(code, number), drawn.lots[code, number]),
        decided=drawn.refusals.get((code, number)))


def firsts_of(held: Held, code: str) -> int | None:
    """How many of those who want a school put it first, unless an application has ended."""
    wanted = [held.register.applications.get(child) for there, child in held.drawn.lots
              if there == code]
    found = [it.preferences[0] for it in wanted if it]
    return found.count(code) if len(found) == len(wanted) else None


def classes_of(register: Register, code: str, children: list[int]) -> dict[int, int] | None:
    """How many of these children are in each class of a school, unless an application has ended."""
    if any(it not in register.applications for it in children):
        return None
    return dict(sorted(collections.Counter(register.rank(code, it)[0] for it in children).items()))


def nth(preference: int) -> str:
    """A preference in words."""
    return f"{texts.nth(preference)} preference"


def hidden_of(found: School) -> set[str]:
    """The counts of a school that are withheld from a family."""
    counts = {"others": found.wanted - 1, "plans": found.plans, "kept": found.kept,
              "admitted": found.admitted}
    # (the admission number is published, and that the school is full is why the child has no place)
    if found.admitted == found.pan:
        del counts["admitted"]
    tied = [(it, 1) for it in counts if it != "others"]
    is_tied = is_full(found) and len(tied) == 3
    hidden: set[str] = withheld.withheld(counts, [tied] if is_tied else [])
    return hidden


def is_full(found: School) -> bool:
    """Whether no place of a school was left after the draw."""
    return found.plans + found.kept + found.admitted == found.pan


class View:
    """How numbers of one school are printed: all for the office, and for a family those that may be
    published.
    """

    def __init__(self, found: School, school: model.School, is_office: bool,
                 flags: dict[int, str] | None) -> None:
        self.school, self.is_office, self.flags = school, is_office, flags
        self.hidden = set() if is_office or found.because else hidden_of(found)
        # whether a number is withheld, and whether a distance is
        self.has_withheld = self.has_hidden = False

    def count(self, key: str, value: int, one: str, many: str) -> str:
        """A number with what follows it, at the begin of a sentence. Nothing tells whether a number
        that is withheld is 1. That there is nobody is said elsewhere too.
        """
        if value and key in self.hidden:
            self.has_withheld = True
            return f"{SOME} {many}"
        return f"{value:,} {one if value == 1 else many}"

    def words(self, number: int) -> str:
        """A class in words."""
        return criteria.in_brief(self.school, number, self.flags)

    def is_private(self, key: Cutoff) -> bool:
        """Whether the distance of the last child admitted is withheld."""
        return not self.is_office and criteria.is_private(self.school, key.number)

    def ranked(self, key: Cutoff) -> str:
        """A class and a distance in words."""
        return f"{self.words(key.number)}, {key.metres:,} metres"


def sentences_of(found: School, school: model.School, view: View) -> Iterator[str]:
    """The sentences about one school in a round."""
    yield f"{school.name} ({found.code}), {nth(found.preference)}: no place."
    if found.because:
        yield f"The child took no part there, as {found.because}."
        return
    yield f"The school has {texts.count(found.pan, 'place')}." + "".join(taken_of(found, view))
    wanted = view.count("others", found.wanted, "child", "children")
    admitted = view.count("admitted", found.admitted, "was admitted", "were admitted")
    if is_full(found) and "admitted" in view.hidden:
        admitted = "As many were admitted as places were left"
    shown = found.classes if view.is_office else None
    yield (f"{wanted} listed the school in this round, this child among them."
           f"{firsts_in_words(found, view)} {admitted}{':' if shown else '.'}")
    for number, count in (shown or {}).items():
        yield f"- {view.words(number)}: {count:,}"
    yield from compared(found, view)


def firsts_in_words(found: School, view: View) -> str:
    """How many put the school first, where that is known: to a family, if neither the others who
    did nor those who did not are a small number.
    """
    if found.firsts is None:
        return ""
    others = found.firsts - (found.preference == 1)
    is_small = any(map(withheld.is_small, (others, found.wanted - 1 - others)))
    if not view.is_office and ("others" in view.hidden or is_small):
        return ""
    return f" {found.firsts:,} of them put it first."


def taken_of(found: School, view: View) -> Iterator[str]:
    """Sentences on the places that were taken before the round."""
    if found.plans:
        yield " " + view.count("plans", found.plans, "of them is taken by an EHC plan.",
                               "of them are taken by EHC plans.")
    if found.kept:
        yield " " + view.count("kept", found.kept, "child had a place there before, and keeps it.",
                               "children had a place there before, and keep it.")


def compared(found: School, view: View) -> Iterator[str]:
    """The last child admitted, and this one, and what decided."""
    last, key, is_by_lot = found.last, found.key, found.decided == LOT
    is_hidden = last is not None and view.is_private(last)
    if last and is_hidden:
        view.has_hidden = True
        yield f"The last child admitted: {view.words(last.number)}; the distance is withheld."
    elif last:
        lot = f", lot {last.lot}" if is_by_lot else ""
        yield f"The last child admitted: {view.ranked(last)}{lot}."
    if key:
        lot = f", lot {key.lot}" if is_by_lot and not is_hidden else ""
        yield f"This child: {view.ranked(key)}{lot}."
    if is_hidden and found.decided in (DISTANCE, LOT):
        yield BY_DISTANCE_OR_LOT
    elif found.decided == CLASS and key and key.number > len(view.school.criteria):
        yield MEETS_NONE
    elif found.decided:
        yield DECIDED[found.decided]


def sentences_of_fill(found: School, school: model.School, view: View) -> Iterator[str]:
    """The sentences about the school of a fill. To a family nothing points to the one child that
    was offered the place.
    """
    yield f"{school.name} ({found.code}), {nth(found.preference)}: no place."
    wanted = view.count("others", found.wanted, "child", "children")
    yield f"{wanted} waited for the vacancy, this child among them."
    other = "The child that was offered the place"
    if found.last and view.is_office:
        yield f"{other}: {view.ranked(found.last)}, lot {found.last.lot}."
    elif found.last and not view.is_private(found.last):
        yield f"{other}: {view.words(found.last.number)}."
    if found.key:
        lot = f", lot {found.key.lot}" if view.is_office else ""
        yield f"This child: {view.ranked(found.key)}{lot}."
    yield ORDER


def nowhere(found: Why) -> str:
    """The sentence about a child that got no place in a round. A school that its family left may
    have admitted children who rank after it; and one that admitted nobody was full before.
    """
    there = sum(not it.because for it in found.schools)
    if not found.application or not found.is_whole:
        return "The child got no place."
    if not there:
        return "The child got no place, and took part at no school on the list."
    which = "each school on the list"
    if there < len(found.schools):
        which += " at which the child took part"
    if any(it.decided == NOBODY for it in found.schools):
        return f"The child got no place: {which} was full."
    return f"The child got no place: {which} was filled by children who rank before it there."


def draw_in_words(register: Register, draw: Draw) -> str:
    """A draw with its day."""
    day = days.in_words(draw.day)
    if draw.school:
        return f"offer of a place at {named(register, draw.school)} of {day} (draw {draw.number})"
    return f"round {draw.round} of {day}"


def heading(found: Why) -> Iterator[str]:
    """The draw, and the child."""
    register, number = found.register, found.child
    yield (f"Admission {register.year} {register.phase},"
           f" {draw_in_words(register, found.held.draw)}")
    yield f"Child {number} {register.children[number].name}"


def opening(found: Why) -> Iterator[str]:
    """The first sentences: what the child got."""
    register, draw = found.register, found.held.draw
    if not found.takes_part:
        yield no_part(register, draw, found.child)
    elif found.got:
        yield from got(found, found.got)
    elif draw.school:
        yield f"The place at {named(register, draw.school)} was offered to another child."
    else:
        yield nowhere(found)
    if found.takes_part and not found.application:
        yield ("The application has ended since, by an EHC plan, so the register does not show how"
               " the child ranked.")


def got(found: Why, code: str) -> Iterator[str]:
    """The sentences about the place that a child got."""
    school, application = named(found.register, code), found.application
    which = f", the {nth(application.preferences.index(code) + 1)}" if application else ""
    if code == found.had:
        yield f"The child keeps the place at {school}{which}."
    else:
        yield f"The child was offered {school}{which}."
        if found.had:
            had = named(found.register, found.had)
            yield f"The place at {had} ended, as the new school is higher on the list."


def named(register: Register, code: str) -> str:
    """A school by its name and its code."""
    return f"{register.schools[code].name} ({code})"


def no_part(register: Register, draw: Draw, number: int) -> str:
    """Why a child took no part in a draw."""
    place, application = register.places.get(number), register.applications.get(number)
    what = "round" if draw.round else "fill"
    if place and place.kind == PLAN:
        return (f"The child has a place at {named(register, place.school)} by an EHC plan, and"
                f" took no part in the {what}.")
    if application is None:
        return f"The child has no application, and took no part in the {what}."
    day = days.in_words(application.day)
    if draw.school:
        return (f"The child did not wait at {named(register, draw.school)} when the vacancy was"
                " filled.")
    if draw.round == 1 and not register.is_in_time(application.day):
        return (f"The application of {day} came after the closing date,"
                f" {days.in_words(register.days[0])}, and took no part in the first round.")
    return f"The application of {day} was recorded after the round, and took no part in it."


@dataclasses.dataclass(frozen=True)
class Section:
    """A part of an explanation: its sentences, the school that it is about, if it is about one, and
    what is missing there, or "".
    """

    sentences: list[str]
    school: str = ""
    missing: str = ""


def to_family(said: str) -> str:
    """A sentence about the child as its family reads it."""
    return re.sub(r"\b([Tt])(?:he child(?! that)|his child)\b",
                  lambda it: "Your child" if it[1] == "T" else "your child", said)


def sections_of(found: Why, is_office: bool = False,
                flags: dict[int, str] | None = None) -> Iterator[Section]:
    """The whole explanation, for the office or for the family: for whom and about whom it is, what
    the child got, and each school. `flags` are the office's words for flags.
    """
    def say(said: str) -> str:
        return said if is_office else to_family(said)

    yield Section([FOR_OFFICE if is_office else FOR_FAMILY, *heading(found)])
    yield Section([*map(say, opening(found)), *([say(AMENDED)] if found.is_amended else [])])
    meanings, is_fill = dict[str, None](), bool(found.held.draw.school)
    for it in found.schools:
        school = found.register.schools[it.code]
        view = View(it, school, is_office, flags)
        made = sentences_of_fill if is_fill else sentences_of
        missing = "" if it.because or it.decided or is_fill else NO_REASON
        name, *others = made(it, school, view)
        yield Section([name, *map(say, others)], it.code, missing)
        meanings |= {text: None for text, is_said in (
            (MEANING, view.has_withheld), (MEANING_OF_DISTANCE, view.has_hidden)) if is_said}
    if meanings:
        yield Section(list(meanings))


def explain_again(held: Held, before: Register, after: Register, number: int) -> Why:
    """The explanation by what a draw saw that was held again on a copy from before it."""
    if number not in before.children:
        raise Refused(f"{before.name} has no child {number}")
    found = explain(held, number, before)
    is_amended = before.children[number] != after.children.get(number)
    return dataclasses.replace(found, is_amended=is_amended)
