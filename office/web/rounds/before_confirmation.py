"""What a second person reads before a rehearsed draw is confirmed: each check with its verdict in a
word or two, what is said of it, and where the rest of it is.
"""
import dataclasses
from collections.abc import Iterator, Sequence

from register_files import Refused

from office.core import days, texts
from office.core.model import Register
from office.core.wording import moment, sentence
from office.web.copies.copies import Copies, is_same

from .again import Given
from .changes import Change
from .outcome import ENDS, LATE, LOT, Whole, plans
from .terms import CLOSED, COPIED, SEALED, Draw

GOOD, INFO, WARN, BAD = "good", "info", "warn", "bad"


@dataclasses.dataclass(frozen=True)
class Verdict:
    """A check: its verdict with the colour, what is said of it, and a link with its words."""

    tag: str
    kind: str
    said: str
    words: str = ""
    href: str = ""


@dataclasses.dataclass(frozen=True)
class Known:
    """What is looked at of a draw beside itself: its outcome, the draws that were given up before
    it, the changes since the applications were added, and whether the register is still as it was
    when it was copied, or why that cannot be said; None once it is run; the person who looks; and
    how many rows of applications are set aside, and are to be added, as long as it is not run.
    """

    outcome: Whole
    before: Sequence[Given]
    changes: Sequence[Change]
    same: str | None
    who: str
    aside: int = 0
    to_add: int = 0


def unchanged(register: Register, copies: Copies, draw: Draw) -> str:
    """Why the register is not, or perhaps not, as it was when it was copied for a draw; or ""."""
    try:
        is_so = is_same(register, copies.register(draw.before or 0))
    except Refused as error:
        return f"The copy cannot be read: {error}."
    return "" if is_so else ("The register has changed since it was copied: cancel"
                             f" {draw.name}, and begin again.")


def to_look_at(draw: Draw, found: Known) -> list[Verdict]:
    """The audit, and what somebody has to look at before anything else."""
    return [audit(draw), *doubtful(draw, found)]


def page(draw: Draw, at: str) -> str:
    """An address of the page of a draw: its checks are read on the first screen too."""
    return f"/draws/{draw.number}{at}"


def audit(draw: Draw) -> Verdict:
    """What the second program says."""
    if draw.rehearsal.get("wrong"):
        return Verdict("Differs", BAD, "The independent audit does not agree.", "What it found",
                       "#differences")
    return Verdict("Agrees", GOOD, "The independent audit, a second program, works out the same"
                   " outcome from the copy and the lots.", "The audit in full",
                   page(draw, "/audit"))


def doubtful(draw: Draw, found: Known) -> Iterator[Verdict]:
    """What looks wrong, or may be."""
    closed = draw.came_to(CLOSED)
    if found.same:
        yield Verdict("Changed", BAD, found.same)
    if closed.said:
        yield Verdict("Is this right?", WARN, f"When {closed.who} paused recording, this looked"
                      f" wrong: {closed.said} {closed.who} said that it is right.")
    yield from left_out(found.aside, found.to_add)
    if found.before:
        names = dict.fromkeys(it.draw.name for it in found.before)
        was = "was" if len(names) == 1 else "were"
        yield Verdict("Look at this", WARN, f"{sentence(texts.listed(names))[:-1]} {was} cancelled"
                      " before, after lots were entered.",
                      "Who cancelled it, and which lots are others now", "#before")
    if draw.other_lots:
        yield Verdict("Other lots", WARN, "It was undone before, and all lots are entered anew,"
                      f" because: {sentence(draw.other_lots)}")
    ended = sum(ENDS in it.marks for it in found.outcome.children)
    if ended:
        said = texts.count(ended, "child gives up a place that it had accepted",
                           "children lose a place that they had accepted")
        yield Verdict("Look at this", WARN, f"{said}: they move to a school higher on their list.",
                      "Show them", page(draw, "?what=ends#children"))
    outside = [it.school for it in found.outcome.schools if not it.is_within]
    if outside:
        yield Verdict("Too many", BAD, f"More places are held than there are at"
                      f" {texts.listed(outside)}.")


def left_out(aside: int, to_add: int) -> Iterator[Verdict]:
    """The applications that are not in the register: so many rows are set aside, or are to be
    added.
    """
    for many, where, href in ((aside, "set aside", "/applications/withdrawn"),
                              (to_add, "not in the register yet", "/applications/")):
        if many:
            said = texts.count(many, "application is", "applications are")
            yield Verdict("Left out", WARN, f"{said} {where}, and"
                          f" {'takes' if many == 1 else 'take'} no part.",
                          "Show it" if many == 1 else "Show them", href)


def checked(draw: Draw, found: Known, register: Register) -> Iterator[Verdict]:
    """The other checks."""
    whole, schools = found.outcome, found.outcome.schools
    if all(it.taken is not None for it in schools):
        within = sum(it.is_within for it in schools)
        yield Verdict(f"{within} of {len(schools)}", GOOD if within == len(schools) else BAD,
                      "No school offers more places than it has." if within == len(schools) else
                      "Schools that offer no more places than they have.", "By school",
                      page(draw, "#schools"))
    if not draw.terms.school:
        yield from taking_part(draw, whole, register)
    yield of_lots(draw, whole)
    yield of_day(draw, register)
    if draw.before and found.same == "":
        copied = draw.came_to(COPIED)
        yield Verdict("Unchanged", GOOD, f"Copy {draw.before} was made on {moment(copied.at)}, and"
                      " the register is still the same. It can be restored.")
    if found.changes:
        said = texts.count(len(found.changes), "change")
        own = sum(it.who == found.who for it in found.changes)
        yours = f" {own:,} of them {'was' if own == 1 else 'were'} made by you." if own else ""
        yield Verdict(said, WARN, "since the applications were added to the register can"
                      f" alter who gets a place.{yours}", "Show them", "#changed")
    else:
        yield Verdict("No change", GOOD, "since the applications were added to the register can"
                      " alter who gets a place.")


def taking_part(draw: Draw, whole: Whole, register: Register) -> Iterator[Verdict]:
    """Who takes part in a round, and who does not."""
    said = "child takes part." if whole.took_part == 1 else "children take part."
    kept = [it.plans for it in whole.schools if it.plans is not None]
    late, by_plan = whole.counts[LATE], sum(kept) if kept else plans(register)
    words = f"All children, with {late:,} late" if late else "All children"
    yield Verdict(f"{whole.took_part:,}", INFO, said, words, page(draw, "?what=#children"))
    if late:
        yield Verdict(f"{late:,} late", INFO, "Not in this round: they applied after the closing"
                      f" date, {days.in_words(register.days[0])}, and wait from then on.",
                      "Show them", page(draw, "?what=late#children"))
    if by_plan:
        yield Verdict(texts.count(by_plan, "EHC plan"), INFO,
                      "These children have a place by their plan, and take no part.")


def of_lots(draw: Draw, whole: Whole) -> Verdict:
    """Who sealed the lots, and of how many children they decide."""
    done, many = draw.came_to(SEALED), sum(LOT in it.marks for it in whole.children)
    said = f"{done.who} sealed the lots on {moment(done.at)}. " if done.at else ""
    if "by_lot" not in draw.rehearsal:
        return Verdict("Sealed", GOOD, said.strip())
    if not many:
        return Verdict("Sealed", GOOD, f"{said}No lot decides: no two children are equal for the"
                       " last place of a school.")
    who = texts.count(many, "child", "children")
    return Verdict("Sealed", GOOD, f"{said}Lots decide between {who} who are equal for the last"
                   " place of a school.", "Show them", page(draw, "?what=lot#children"))


def of_day(draw: Draw, register: Register) -> Verdict:
    """The day of the letters."""
    day = f"{draw.terms.day:%A} {days.in_words(draw.terms.day)}"
    is_first = not draw.terms.school and draw.terms.first == 1
    offer_day = ", the national offer day" if draw.terms.day == register.days[1] else ""
    is_right = not draw.came_to(CLOSED).said and (bool(offer_day) or not is_first)
    return Verdict("As expected" if is_right else "Day", GOOD if is_right else INFO,
                   f"Letters have the day {day}{offer_day}.")
