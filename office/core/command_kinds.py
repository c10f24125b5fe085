"""The kinds of commands, each one record: what a command rests on, how it is seen to be done, and
its words on each screen. A new kind is added here alone.
"""
import dataclasses
import datetime
from collections.abc import Callable, Mapping
from typing import Any

from . import days, effects, model, rules, wording
from .model import Members, Register

Command = Mapping[str, Any]
# the kinds of work of an office, by which the history is looked through
OF_ANSWERS, CHILDREN, APPLICATIONS, SCHOOLS = "answers", "children", "applications", "schools"
ROUNDS, OF_NOTICES, LETTERS, NOTES = "rounds", "notices", "letters", "notes"
REPORTS, PEOPLE, COPIES, OTHERS = "reports", "people", "copies", "others"
WORK = {
    OF_ANSWERS: "Answers", CHILDREN: "Details of children", APPLICATIONS: "Applications",
    SCHOOLS: "Schools", ROUNDS: "Rounds and offers", OF_NOTICES: "Reminders and withdrawals",
    LETTERS: "Letters", NOTES: "Notes and files", REPORTS: "Reports and downloads",
    PEOPLE: "People and sign-in", COPIES: "Copies and restores", OTHERS: "Other work",
}


def place_in(register: Members, command: Command) -> Any:
    """The place of the command's child."""
    place = register.places.get(command["child"])
    return [place.school, place.kind, str(place.day), str(place.reminded)] if place else None


def data_in(register: Members, command: Command) -> Any:
    """The data of the command's child."""
    child = register.children.get(command["child"])
    return child.data if child else None


def application_in(register: Members, command: Command) -> Any:
    """The data, the place and the application of the command's child."""
    found = register.applications.get(command["child"])
    return [data_in(register, command), place_in(register, command),
            [str(found.day), list(found.preferences)] if found else None]


def wait_in(register: Members, command: Command) -> Any:
    """Whether the command's child waits at the school."""
    found = register.applications.get(command["child"])
    state = found.at(command["school"]) if found else None
    return state.state if state else None


def school_in(register: Members, command: Command) -> Any:
    """The admission number of the command's school."""
    school = register.schools.get(command["school"])
    return school.pan if school else None


def draws_in(register: Members, _command: Command) -> Any:
    """How many draws there are."""
    return len(register.draws)


def against_place(register: Register, command: Command) -> str:
    """Why a child's place does not fit an answer, or ""."""
    place = register.places.get(command["child"])
    said = wording.place(register, place)
    if place is None or place.kind == model.PLAN:
        return f"there is no offer to answer: {said}"
    if command["school"] and place.school != command["school"]:
        return f"the answer names {command['school']}: {said}"
    if command["cmd"] == "accept" and place.kind == model.ACCEPTED:
        return "the place is accepted already"
    return ""


def against_leaving(register: Register, command: Command) -> str:
    """Why a child cannot leave a waiting list, or ""."""
    is_waiting = wait_in(register, command) == model.WAITS
    return "" if is_waiting else f"the child does not wait at {command['school']}"


def against_plan(register: Register, command: Command) -> str:
    """Why a plan cannot be recorded, or ""."""
    place, school = register.places.get(command["child"]), command["school"]
    if place and place.kind == model.PLAN:
        return wording.place(register, place)
    return "" if school in register.schools else f"there is no school {school}"


def day_in(command: Command) -> str:
    """The day of a command."""
    text = str(command.get("day", ""))
    found = days.read(text)
    return days.in_words(found) if found else text


@dataclasses.dataclass(frozen=True, kw_only=True)
class Kind:
    """A kind of command: what it rests on, as a person saw it; whether a register is as after it;
    `noun` completes 'Jane recorded ..', `deeds`
    names many, and `ended` says how a child lost a school by it.
    """

    name: str
    rests_on: Callable[[Members, Command], Any]
    is_done: Callable[[Register, Command], bool]
    # the kind of work that it is, and its title in the history, where what is in brackets is of
    # the child
    work: str
    told: str
    noun: str = ""
    deeds: str
    ended: str = ""
    # the question on a child's screen: the end of its address, its title, the words of its button,
    # what becomes of it, and whether that can never be undone
    path: str = ""
    title: str = ""
    button: str = ""
    becomes: str = ""
    is_final: bool = False
    # of an answer of a family: its word in a batch, the words by which it is read, and what speaks
    # against it
    answer: str = ""
    read: tuple[str, ...] = ()
    against: Callable[[Register, Command], str] = lambda register, command: ""
    # of what is recorded in rows on the day when it is due: the list of those, the title of a row,
    # and one of them
    due: str = ""
    row: str = ""
    one: str = ""

    @property
    def is_dated(self) -> bool:
        """Whether it has a day."""
        return "day" in rules.COMMANDS[self.name]

    def becomes_on(self, day: datetime.date) -> str:
        """What becomes of it if it is recorded on a day."""
        return self.becomes.replace("{withdrawn}", days.in_words(days.due_from(day)))


KINDS = {it.name: it for it in (
    Kind(name="add_school", rests_on=school_in, is_done=effects.has_school,
         work=SCHOOLS, told="Added the school {name}, with {pan} places", deeds="Added schools"),
    Kind(name="raise_pan", rests_on=school_in, is_done=effects.has_pan,
         work=SCHOOLS, told="Raised the admission number of {school} to {pan}",
         deeds="Raised numbers"),
    Kind(name="add_child", rests_on=data_in, is_done=effects.has_data,
         work=CHILDREN, told="Added the child[ {child}]", noun="the child", deeds="Added children"),
    Kind(name="amend", rests_on=data_in, is_done=effects.has_data,
         work=CHILDREN, told="Corrected the details[ of {child}]",
         noun="a correction", deeds="Corrected details"),
    Kind(name="apply", rests_on=application_in, is_done=effects.has_applied,
         work=CHILDREN, told="Entered an application of {day}[ for {child}]: {preferences}",
         noun="an application", deeds="Recorded applications"),
    Kind(name="accept", rests_on=place_in, is_done=effects.has_kind(model.ACCEPTED),
         work=OF_ANSWERS, told="Accepted the place[ of {child}] at {school}",
         noun="accept", deeds="Recorded answers",
         path="accept", title="Accept a place", button="Accept {school} for {child}",
         becomes="The place is accepted. It can be declined later, but it can never be an open"
                 " offer again.",
         answer="accept", read=("accept", "accepts", "accepted", "yes"), against=against_place),
    Kind(name="decline", rests_on=place_in, is_done=effects.has_kind(None),
         work=OF_ANSWERS, told="Declined the place[ of {child}] at {school}",
         noun="decline", deeds="Recorded answers", ended="declined",
         path="decline", title="Decline a place", button="Decline {school} for {child}",
         becomes=f"The place becomes vacant. {wording.FOREVER} {wording.WAITS}"
                 f" {wording.WRONG_DECLINE}",
         is_final=True,
         answer="decline", read=("decline", "declines", "declined", "no"), against=against_place),
    Kind(name="remind", rests_on=place_in, is_done=effects.is_reminded,
         work=OF_NOTICES, told="Reminded[ {child}] on {day} of the offer of {school}",
         noun="a reminder", deeds="Recorded reminders",
         path="remind", title="Record a reminder",
         button="Record the reminder of {child} about {school}",
         becomes="The offer may be withdrawn from {withdrawn} on, if it is not answered. A reminder"
                 " cannot be undone.",
         due="remind-due", row="Reminders", one="reminder"),
    Kind(name="lapse", rests_on=place_in, is_done=effects.has_kind(None),
         work=OF_NOTICES, told="Withdrew the offer of {school}[ from {child}] on {day}",
         noun="a withdrawal of the offer", deeds="Withdrew offers", ended="offer withdrawn",
         path="lapse", title="Withdraw an offer",
         button="Withdraw the offer of {school} from {child}",
         becomes=f"The offer ends, and the place becomes vacant. {wording.FOREVER} {wording.WAITS}",
         is_final=True,
         due="lapse-due", row="Withdrawals of offers", one="withdrawal"),
    Kind(name="leave_list", rests_on=wait_in, is_done=effects.has_left,
         work=OF_ANSWERS, told="Left the waiting list of {school}[: {child}]",
         noun="leave the list", deeds="Left waiting lists", ended="left",
         path="leave", title="Leave a waiting list",
         button="Leave the list of {school} for {child}",
         becomes=f"The child does not return to this list. {wording.FOREVER}", is_final=True,
         answer="leave the list", read=("leave", "leave the list", "leave_list"),
         against=against_leaving),
    Kind(name="name_plan", rests_on=place_in, is_done=effects.has_kind(model.PLAN),
         work=CHILDREN, told="Entered an EHC plan that names {school}[, for {child}]",
         noun="a plan", deeds="Recorded EHC plans",
         path="plan", title="Record an EHC plan",
         button="Give {child} a place at {school} by a plan",
         becomes="The child is admitted, also above the admission number. The child’s application"
                 " ends: the child is on no waiting list any more, and a place elsewhere is vacant."
                 " A plan that is recorded stays: it cannot be ended or changed. A copy of the"
                 " register is made first: nobody can read it for some seconds.", is_final=True,
         answer="plan", read=("plan", "name_plan"), against=against_plan),
    Kind(name="round", rests_on=draws_in, is_done=effects.is_held,
         work=ROUNDS, told="Ran the round of {day}",
         noun="a round", deeds="Ran a round"),
    Kind(name="fill", rests_on=draws_in, is_done=effects.is_held,
         work=ROUNDS,
         told="Offered a place at {school} from the waiting list on {day}",
         noun="an offer from a waiting list", deeds="Offered places from waiting lists"),
)}
# what can be recorded on a child's screen, by the end of its address
ACTIONS = {it.path: it for it in KINDS.values() if it.path}
# the answers of families, each in a word; "" where there is none yet
ANSWERS = {"": "none", **{name: it.answer for name, it in KINDS.items() if it.answer}}
# what is recorded in rows
NOTICES = {name: it for name, it in KINDS.items() if it.due}
# what is held on a screen of its own, with a second person
DRAWS = tuple(it for it in KINDS if "lots" in rules.COMMANDS[it])
# with all data of a child
WHOLE = tuple(it for it in KINDS if rules.COMMANDS[it].keys() >= rules.COMMANDS["amend"].keys())


def is_done(register: Register, command: Command) -> bool:
    """Whether a register is as after a command."""
    return KINDS[command["cmd"]].is_done(register, command)
