"""The frame of every screen: the groups of screens and the screens of each, which of them a page is
or is below, and what everybody has to know.
"""
import dataclasses
from collections.abc import Iterator
from typing import Any

import flask

from office.core import wording
from office.web.parts import Parts
from office.web.people import guard
from office.web.people.roles import CONFIRM, LISTS, NOTES, PEOPLE, READ, RECORD, Person
from office.web.people.roles import LOTS as OF_LOTS
from office.web.rounds.terms import CONFIRMED, LOTS, REHEARSED, Draw

from . import topics


@dataclasses.dataclass(frozen=True)
class Screen:
    """A screen of the menu: its view with what is in its address, its title, the right, and the
    parts of the application whose other pages are below it; and whether a large register alone has
    it.
    """

    view: str
    title: str
    right: str
    below: tuple[str, ...] = ()
    values: tuple[tuple[str, str], ...] = ()
    is_of_large: bool = False

    @property
    def href(self) -> str:
        """Its address."""
        return flask.url_for(self.view, **dict[str, Any](self.values))


def of_list(name: str, title: str) -> Screen:
    """A list that is a screen of the menu."""
    return Screen("lists.one", title, READ, values=(("name", name),))


# the groups of the menu in their order, with their screens
GROUPS: dict[str, tuple[Screen, ...]] = {
    "Home": (Screen("season.show", "Home", guard.SIGNED_IN, ("season",)),),
    "Applications": (
        Screen("applications.show", "Applications", RECORD, (
            "applications", "applications_add", "applications_files")),
        Screen("points.show", "Homes to locate", RECORD, ("points", "gazetteer")),
        Screen("applications.duplicates", "Possible duplicates", RECORD),
        Screen("applications.withdrawn", "Set aside", RECORD),
        Screen("applications_commit.show", "Add to the register", RECORD, (
            "applications_commit",))),
    "Children": (
        Screen("find.show", "Find", READ, (
            "find", "child", "preferences", "why", "notes", "subject")),
        of_list("children", "All children"), of_list("unplaced", "Children without a place"),
        of_list("list", "Waiting lists")),
    "Schools": (
        Screen("schools.show", "Schools", READ, ("schools",)),
        Screen("flags.show", "Verified reasons", READ, ("flags",)),
        Screen("areas.show", "Catchment areas", READ, ("areas",), is_of_large=True),
        Screen("new_schools.show", "Add schools", RECORD, ("new_schools",))),
    "Offers": (
        Screen("draws.show", "Rounds", READ, ("draws",)),
        Screen("lots.show", "Lots", OF_LOTS, ("lots",)),
        Screen("answers.show", "Answers", RECORD, ("answers", "answers_of")),
        Screen("notices.show", "Reminders and withdrawals", READ, ("notices",)),
        Screen("letters.show", "Letters", READ, ("letters",))),
    "Reports": (
        Screen("lists.show", "Lists", READ, ("lists",)),
        Screen("figures.show", "Figures", READ, ("figures",)),
        Screen("trials.show", "Trials", READ, ("trials",)),
        Screen("activity.show", "Activity", NOTES, ("activity",))),
    "Office": (
        Screen("people.show", "People", PEOPLE, ("people",)),
        Screen("copies.show", "Copies", READ, ("copies", "restores")),
        Screen("letter_sender.show", "The office on its letters", READ, ("letter_sender",)),
        Screen("letter_templates.show", "Templates of letters", READ, ("letter_templates",)),
        Screen("letter_addresses.show", "Addresses for letters", READ, ("letter_addresses",)),
        Screen("season_end.show", "End of the season", CONFIRM, ("season_end",))),
}


@dataclasses.dataclass(frozen=True)
class Menu:
    """The menu of a person at a page: the groups, and the screens of the group where the page is,
    each with its address; which of them it is or is below, and the screen above it, if it is below
    one.
    """

    groups: list[tuple[str, str, str]]
    group: str = ""
    screens: tuple[tuple[str, str, str], ...] = ()
    screen: str = ""
    is_page: bool = False
    back: tuple[str, str] | None = None


def menu(person: Person) -> Menu:
    """The menu of a person at the page that is asked for."""
    is_large = guard.parts().desk.is_large
    own = {group: [it for it in screens if it.right == guard.SIGNED_IN or person.may(it.right)]
           for group, screens in GROUPS.items()}
    own = {group: [it for it in screens if is_large or not it.is_of_large]
           for group, screens in own.items()}
    if person.school:
        own["Schools"] = [Screen("schools.one", "Your school", LISTS, ("schools",),
                                 (("code", person.school),))]
    groups = [(group, screens[0].href, "") for group, screens in own.items() if screens]
    found = next(here(own), None)
    if found is None:
        return Menu(groups)
    group, screen, is_page = found
    screens = tuple((it.title, it.href, "") for it in own[group]) if len(own[group]) > 1 else ()
    back = None if is_page else (screen.title, screen.href)
    return Menu(groups, group, screens, screen.title, is_page, back)


def here(own: dict[str, list[Screen]]) -> Iterator[tuple[str, Screen, bool]]:
    """Which screen the page is, and which it is below: group, screen, and whether it is that."""
    all_of_them = [(group, it) for group, screens in own.items() for it in screens]
    for group, it in all_of_them:
        if it.href == flask.request.path:
            yield group, it, True
    for group, it in all_of_them:
        if flask.request.blueprint in it.below:
            yield group, it, False


# of a draw whose outcome is known, on each page
BEFORE = " Until it is run, the other pages show the register as it was before."


def turn(draw: Draw) -> str:
    """Who goes on with a draw in progress."""
    if asker := draw.give_up_by:
        return f"{asker} has asked to cancel it: a second person confirms that, or does not."
    if asker := draw.restore_by:
        return (f"{asker} has asked to restore the copy from before it: a second person confirms"
                " that, or does not.")
    if draw.state == LOTS:
        return "The supervisor has the lots to draw and to seal."
    if draw.state == REHEARSED:
        return "A second person has to confirm it."
    return "A head of the office goes on with it."


@dataclasses.dataclass(frozen=True)
class Now:
    """What is in progress: what everybody has to know of it, who goes on with it, and the page
    where that is done, in words and with its address, or none.
    """

    said: str
    turn: str
    words: str
    href: str


def now(parts: Parts) -> Now | None:
    """What has closed the register for all others, or the draw that has begun."""
    closed, draw = parts.desk.closed(), parts.draws.present()
    where = parts.closed_for() if closed else (
        (draw.name, "draws.one", draw.number) if draw else None)
    if where is None:
        return Now(closed, "", "", "") if closed else None
    words, view, number = where
    is_draw = draw is not None and view == "draws.one"
    whose = turn(draw) if draw and is_draw else ""
    if whose and draw and draw.state in (REHEARSED, CONFIRMED):
        whose += BEFORE
    return Now(closed or wording.sentence(f"{draw.name} is in progress" if draw else ""),
               whose, f"To {words}", flask.url_for(view, number=number))


def foot(parts: Parts) -> str:
    """The last copy, with what it lacks if it is older than it should be; and who is signed in."""
    signed_in, copy = ", ".join(parts.people.signed_in()), parts.copies.last()
    made = f"Last copy: {wording.moment(copy)}. " if copy else ""
    if behind := parts.copies.behind():
        made += f"{behind.in_words} A head of the office makes one on Copies. "
    return f"{made}Signed in: {signed_in}"


def help_href() -> str:
    """The topic of the help that is about the page."""
    name = (flask.request.view_args or {}).get("name", "")
    found = topics.of_screen(flask.request.endpoint or "", str(name))
    return flask.url_for("help.topic", name=found) if found else flask.url_for("help.show")


def shared() -> dict[str, Any]:
    """What the frame has."""
    found: Person | None = flask.g.get("person")
    parts, may_read = guard.parts(), found is not None and found.may(READ)
    return {
        "menu": menu(found) if found else Menu([]), "help_href": help_href(),
        # (who sees no child is not told of draws either)
        "may_read": may_read, "now": now(parts) if may_read else None,
        "foot": foot(parts) if may_read else "",
    }
