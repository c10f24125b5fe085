"""Why a child got what a draw gave it: the draws since its application, and its explanation in one
of them, by what the draw saw where the copy from before it is kept.
"""
import dataclasses
import pathlib

from register_files import Refused

from office.core import days, model, wording
from office.core.model import Register
from office.files import pages
from office.web.parts import Parts
from office.web.rounds.held_draw import Held
from office.web.schools.flags import Words

from . import pdf_apart, why
from .why import Section

COPY = "the copy from before the round"
FAMILY, OFFICE = "family", "office"
READERS = {FAMILY: "For the family", OFFICE: "For the office"}
NO_COPY = "the copy of the register from before this round is not kept here"
OF_NOW = ("The copy of the register from before it is not kept here, so this is by the details that"
          " the register has now. If they were changed since, the earlier ones decided.")
NOT_THERE = "The child was not in the register when the {}."


@dataclasses.dataclass(frozen=True)
class Taken:
    """A round since a child's application, or a fill at a school of its list: what its explanation
    says, the schools that the child wants more than what it got, and, where the copy from before a
    round is kept, what else may be asked of it.
    """

    draw: int
    words: str
    why: str
    above: tuple[str, ...] = ()
    what_if: str = ""


def taken(parts: Parts, register: Register, number: int) -> list[Taken]:
    """The draws since a child's application, the last first. One that was late took no part in the
    first round.
    """
    application = register.applications.get(number)
    if application is None:
        return []
    listed = application.preferences
    return [taken_in(parts, register, it, number, listed) for it in reversed(register.draws)
            if application.day <= it.day and (it.round or it.school in listed)]


def taken_in(parts: Parts, register: Register, draw: model.Draw, number: int,
             listed: tuple[str, ...]) -> Taken:
    """One of them."""
    outcomes, words = register.outcomes[draw.number], in_words(draw)
    got = outcomes.get(number)
    place = f"why the place at {register.schools[got].name}" if got else "why no place"
    if draw.school:
        refused = f"why not {register.schools[draw.school].name}"
        return Taken(draw.number, words, place if got else refused)
    is_kept = kept_before(parts, draw) is not None
    if number not in outcomes:
        other = "what if: another day of the application" if is_kept else ""
        return Taken(draw.number, words, "why no part", (), other)
    above = listed[:listed.index(got)] if got in listed else listed
    return Taken(draw.number, words, place, above,
                 "what if: another list, criterion or day" if is_kept else "")


def in_words(draw: model.Draw) -> str:
    """A draw with its day."""
    return f"{wording.draw_in_words(draw)}, {days.in_words(draw.day)}"


def kept_before(parts: Parts, draw: model.Draw) -> pathlib.Path | None:
    """The copy from before a draw that this application held, if it is there."""
    copy = parts.draws.copy_before(draw)
    try:
        return parts.copies.path(copy) if copy else None
    except Refused:
        return None


def before(parts: Parts, draw: model.Draw) -> Register:
    """The register from before a round."""
    number = parts.draws.copy_before(draw)
    if number is None or kept_before(parts, draw) is None:
        raise Refused(NO_COPY)
    return dataclasses.replace(parts.copies.register(number), name=COPY)


@dataclasses.dataclass(frozen=True)
class Explanation:
    """The explanation of a child in a draw, as its reader may see it; and what the office must know
    of it.
    """

    child: int
    sections: list[Section]
    note: str = ""

    @property
    def is_whole(self) -> bool:
        """Whether each refusal has a reason."""
        return not any(it.missing for it in self.sections)


def explained(parts: Parts, number: int, draw: model.Draw, reader: str,
              words: Words) -> Explanation:
    """The explanation of a child in a draw: by what that saw, or, where the copy from before it is
    not kept, by the data of now.
    """
    after = parts.desk.register()
    if kept_before(parts, draw) is None:
        found = why.explain(Held(after, draw), number)
        return Explanation(number, list(why.sections_of(found, reader == OFFICE, words)), OF_NOW)
    seen = before(parts, draw)
    if number not in seen.children:
        about = Section([READERS[reader], in_words(draw), named(after, number)])
        what = NOT_THERE.format("round was run" if draw.round else "place was offered")
        return Explanation(number, [about, Section([what])])
    held = parts.held_again.draw(seen, after, draw)
    found = why.explain_again(held, seen, after, number)
    return Explanation(number, list(why.sections_of(found, reader == OFFICE, words)))


def named(register: Register, number: int) -> str:
    """A child by its number and its name."""
    return f"Child {number} {register.children[number].name}"


def pdf_of(found: Explanation, authority: str, note: str) -> bytes:
    """An explanation on paper."""
    page = pages.render("web/explain/printed/why.html", {
        "authority": authority, "sections": found.sections, "child": found.child, "note": note})
    return pdf_apart.pdf_of(page, "the explanation")
