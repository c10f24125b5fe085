"""How a round or an offer is cancelled, or undone once it is run: by one person or by two, as its
state and the people who are there ask for it.
"""
import dataclasses

from .terms import OPENED, SENT, UNSEALED, UNSENT_SEALED, Draw

# the requests that cancel it, or take that back
ALL = ("give-up", "ask-give-up", "keep-on", "confirm-give-up", "give-up-alone", "ask-restore",
       "keep", "restore", "restore-alone")
NOTHING = "Nothing of it was recorded. Afterwards everybody can record again."
LOTS = ("Keep the sheet and the seed of its lots. If {} is begun again, the supervisor enters the"
        " same lots once more, and corrects only those that were wrong: no new lots are drawn.")
BACK = ("The register becomes what it was before. As nobody else could record anything since,"
        " nothing else is lost.")
TWO = "One person asks for it, and another one confirms it."
ASKS = "You ask for it, and another head or officer confirms it."
SECOND = "You are the second person: it is done as soon as you confirm."
ON_RECORD = "That is on record."


@dataclasses.dataclass(frozen=True)
class Way:
    """The way there is now for a person: what it does and who takes part, in sentences; the request
    with its button, if this person can do something; whether it takes a reason; and the request
    with its button that takes it back.
    """

    said: tuple[str, ...]
    action: str = ""
    button: str = ""
    has_reason: bool = False
    back: str = ""
    back_button: str = ""


@dataclasses.dataclass(frozen=True)
class Known:
    """What decides the way: the person's name; why nobody else can be the second of two, or ""; why
    this person is none of two, or ""; and whether a lot was saved.
    """

    who: str
    alone: str
    not_second: str
    has_lots: bool


def way_of(draw: Draw, known: Known) -> Way | None:
    """The way for a person, if there is one."""
    lots = LOTS.format(draw.name)
    if draw.state in UNSEALED:
        said = (NOTHING, lots) if known.has_lots else (NOTHING,)
        return Way(said, "give-up", f"Cancel {draw.name}", known.has_lots)
    if draw.state in UNSENT_SEALED:
        return by_two((NOTHING, lots), draw.give_up_by, known, Way(
            (), "give-up", f"Cancel {draw.name}", True, "keep-on", f"Go on with {draw.name}"))
    if draw.state in SENT:
        return by_two((BACK,), draw.restore_by, known, Way(
            (), "restore", f"Undo {draw.name}", False, "keep", f"Keep {draw.name}"))
    return None


def by_two(said: tuple[str, ...], asker: str, known: Known, way: Way) -> Way:
    """The way of what two persons do, of whom one may have asked for it already."""
    is_own = asker in ("", known.who)
    back = (way.back, way.back_button) if asker else ("", "")
    if known.alone and (known.not_second or is_own):
        why = f"Nobody else can confirm it now: {known.alone}. So you can do it alone."
        more = "That is on record, and shown with the next one." if way.has_reason else ON_RECORD
        return Way((*said, why, more), f"{way.action}-alone", f"{way.button} alone",
                   way.has_reason, *back)
    asked = (f"{asker} has asked for it.",) if asker else ()
    if known.not_second:
        return Way((*said, TWO, *asked, known.not_second), back=back[0], back_button=back[1])
    if not asker:
        return Way((*said, ASKS), f"ask-{way.action}",
                   f"Ask a second person to {lowered(way.button)}", way.has_reason)
    if is_own:
        return Way((*said, *asked, "Somebody else confirms it."), back=back[0],
                   back_button=back[1])
    action = f"confirm-{way.action}" if way.has_reason else way.action
    return Way((*said, *asked, SECOND), action, way.button, False, *back)


def lowered(words: str) -> str:
    """Words within a sentence."""
    return words[:1].lower() + words[1:]


def is_undone_later(draw: Draw) -> bool:
    """Whether it is over, and is undone by a restore of the copy from before it."""
    return draw.state == OPENED and bool(draw.before)
