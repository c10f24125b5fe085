"""The first screen of an office: what is to be done, by when, and how the season stands."""
import collections
import dataclasses
import datetime
import itertools
import sqlite3
from collections.abc import Collection, Iterator, Mapping, Sequence
from typing import Any

from office.core import days, model, texts
from office.core.command_kinds import KINDS
from office.core.model import Register, School
from office.core.wording import draw_in_words, moment, weekday
from office.web.answers.notices import LAPSE, REMIND
from office.web.copies.copies import Behind
from office.web.letters.whom import OFFERS, PART
from office.web.lists import on_screen, register_rows
from office.web.machinery import pictures
from office.web.machinery.pictures import Span
from office.web.people.roles import CONFIRM, Person
from office.web.people.roles import LOTS as OF_LOTS
from office.web.register import entry_words
from office.web.register.entry_words import Names
from office.web.register.history import ANSWER, SENDS, SETTLED, Entry
from office.web.rounds.terms import Draw

# the state of a task, with its colour: due, may be done, cannot be done yet, done
DUE, READY, LATER, DONE = "bad", "info", "plain", "good"
WAITING = "warn"
# families may apply from this day on, before the closing day
FIRST_MONTH, FIRST_DAY = 9, 1
RANKS = ("First preference", "Second", "Third", "Lower", "No place")
RANK_KINDS = ("first", "second", "third", "lower", "none")


@dataclasses.dataclass(frozen=True)
class Task:
    """Something to be done: its title, what is known of it, its state in a few words with the
    colour, and the screen where it is done or seen with its values, or "" where there is none yet.
    """

    title: str
    hint: str
    state: str
    kind: str
    view: str = ""
    values: Mapping[str, str] = dataclasses.field(default_factory=dict)


@dataclasses.dataclass(frozen=True)
class Known:
    """What the application knows beside the register, as far as this person may do something about
    it: the draw in progress, its next step, in a sentence, who does it, if only others can, what
    this person presses then, and whether that is on the first screen itself; how many letters of
    each draw are not recorded as sent; how many answers wait in the person's batch, and rows of
    applications in the table; what an office has to do at this time of the season, and what only a
    head.
    """

    draw: Draw | None = None
    next_step: str = ""
    waits_for: str = ""
    button: str = ""
    is_here: bool = False
    untold: Mapping[int, int] = dataclasses.field(default_factory=dict)
    answers: int = 0
    rows: int = 0
    withdrawn: int = 0
    of_office: tuple[Task, ...] = ()
    of_head: tuple[Task, ...] = ()


def when(day: datetime.date, today: datetime.date) -> str:
    """How far a day is."""
    count = abs((day - today).days)
    if count == 0:
        return "today"
    return f"in {texts.count(count, 'day')}" if day > today else f"{texts.count(count, 'day')} ago"


def from_day(day: datetime.date) -> str:
    """The state of a task that nobody can do before a day."""
    return f"From {day.day} {day:%B %Y}"


def last_days(register: Register) -> Iterator[datetime.date]:
    """The last days on which families may answer the offers, or the reminders of them."""
    for day, _, it in register_rows.offers(register):
        yield days.answer_by(it.reminded or day)


def fillable(register: Register, today: datetime.date) -> list[School]:
    """The schools at which somebody waits for a place that is vacant."""
    if not register.draws or today > register.days[2]:
        return []
    return [it for it in register.schools.values() if it.vacancies and it.waiting]


def tasks(register: Register, today: datetime.date, known: Known) -> list[tuple[str, list[Task]]]:
    """What is to be done, in groups: now, when the office is ready, and later."""
    found = [*of_draw(known), *of_set_up(register, today), *of_rows(register, today, known),
             *of_round(register, today, known), *of_answers(register, today),
             *of_work(known, register), *known.of_office, *of_places(register, today),
             *known.of_head, *of_end(register, today)]
    return grouped(found)


def grouped(found: Sequence[Task]) -> list[tuple[str, list[Task]]]:
    """Tasks by when they are due."""
    groups = (("Due now", (DUE, WAITING)), ("When you are ready", (READY,)), ("Not yet", (LATER,)))
    made = [(title, [it for it in found if it.kind in kinds]) for title, kinds in groups]
    return [(title, rows) for title, rows in made if rows]


def of_draw(known: Known) -> Iterator[Task]:
    """The draw in progress."""
    if known.draw and not known.is_here:
        said = known.next_step
        page = "draws.one", {"number": str(known.draw.number)}
        if known.waits_for:
            name = f"{known.draw.title} waits for {known.waits_for}"
            yield Task(name, said, "Nothing for you", LATER, *page)
            return
        state = "Waits for you" if known.button else "In progress"
        yield Task(known.button or f"See {known.draw.name}", said, state, WAITING, *page)


def of_set_up(register: Register, today: datetime.date) -> Iterator[Task]:
    """Schools and applications, as long as there are none."""
    if not register.schools:
        yield Task("Add the schools", "With their admission numbers, criteria and points on the"
                   " map.", "No school yet", DUE, "new_schools.show")
    closing = register.days[0]
    if register.draws:
        return
    if today > closing and not register.applications:
        yield Task("Add the applications", f"The closing day was {when(closing, today)}.",
                   "No application", DUE, "applications.show")
    elif today <= closing:
        yield Task("Add the applications that have come in",
                   f"The closing day is {weekday(closing)}.", f"Closes {when(closing, today)}",
                   READY, "applications.show")


def of_rows(register: Register, today: datetime.date, known: Known) -> Iterator[Task]:
    """Applications that are not in the register: before a round, as they take no part in it."""
    if known.rows:
        yield Task("Correct applications, and add them to the register",
                   "Their rows came from files or forms, and are not in the register yet.",
                   texts.count(known.rows, "row"), WAITING, "applications.show")
    if known.withdrawn and not register.draws:
        yield Task("Put back what a family still wants", "Rows that are set aside take no part in"
                   " the round.", texts.count(known.withdrawn, "row"),
                   WAITING if today > register.days[0] else READY, "applications.withdrawn")


def of_round(register: Register, today: datetime.date, known: Known) -> Iterator[Task]:
    """The first round."""
    closing, offer, _ = register.days
    if register.rounds or known.draw:
        return
    title, said = "Run the first round", f"The offer day is {weekday(offer)}."
    if today < offer and today <= closing:
        yield Task(title, said, from_day(closing + datetime.timedelta(days=1)), LATER)
    elif register.pairs:
        said += f" The supervisor draws {texts.count(len(register.pairs), 'lot')}."
        state = f"Offer day {when(offer, today)}"
        yield Task(title, said, state, DUE if today >= offer else READY, "draws.show")


def of_answers(register: Register, today: datetime.date) -> Iterator[Task]:
    """Reminders and withdrawals: what is due, or from when on something will be."""
    remind = register_rows.remind_due(register, today)[1:]
    lapse = register_rows.lapse_due(register, today)[1:]
    if remind:
        yield Task("Remind families who have not answered", "Their last day to answer has passed.",
                   f"{len(remind):,} due", DUE, "notices.choose", {"name": REMIND})
    if lapse:
        yield Task("Withdraw offers that stay unanswered",
                   "The last day to answer the reminder has passed.", f"{len(lapse):,} due", DUE,
                   "notices.choose", {"name": LAPSE})
    offers = register_rows.offers(register)
    next_of = {
        "Remind families who do not answer": [
            days.due_from(day) for day, _, it in offers if not it.reminded],
        "Withdraw offers that stay unanswered": [
            days.due_from(it.reminded) for _, _, it in offers if it.reminded],
    }
    for title, found in next_of.items():
        later = [it for it in found if it > today]
        if later:
            many = sum(it == min(later) for it in later)
            yield Task(title, f"{texts.count(many, 'offer')} then, if nothing comes in.",
                       from_day(min(later)), LATER)


def of_work(known: Known, register: Register) -> Iterator[Task]:
    """What somebody has begun and not finished: answers and letters."""
    if known.answers:
        yield Task("Record the answers in your batch", "They are entered, and not recorded yet.",
                   f"{known.answers:,} waiting", WAITING, "answers.show")
    for number, many in known.untold.items():
        draw = register.draws[number - 1]
        values = {"whom": PART if draw.round == 1 else OFFERS, "draw": str(number)}
        if draw.school:
            names = texts.listed([register.children[it].name for it, is_new in
                                  register.fresh[number].items() if is_new])
            yield Task(f"Send the letter of the offer to {names}",
                       f"A place at {register.schools[draw.school].name}. It is not recorded as"
                       " sent.", f"{many:,} left", WAITING, "letters.whom", values)
            continue
        yield Task(f"Send the letters of {draw_in_words(draw)}", "They are not recorded as sent.",
                   f"{many:,} left", WAITING, "letters.whom", values)


def of_places(register: Register, today: datetime.date) -> Iterator[Task]:
    """Vacant places for which somebody waits."""
    found = fillable(register, today)
    if found:
        many = sum(min(it.vacancies, it.waiting) for it in found)
        at = texts.listed([it.code for it in found]) if len(found) <= 4 else (
            texts.count(len(found), "school"))
        view, values = ("schools.offer", {"code": found[0].code}) if len(found) == 1 else (
            "schools.show", {"order": "vacant.down"})
        yield Task(f"Offer {texts.count(many, 'place')} from waiting lists",
                   f"Somebody waits for a vacant place at {at}.", "Ready", READY, view, values)


def of_plans(register: Register, today: datetime.date) -> Iterator[Task]:
    """The EHC plans, before the first round."""
    if register.applications and not register.draws and today > register.days[0]:
        many = sum(it.kind == model.PLAN for it in register.places.values())
        yield Task("Record the EHC plans", "Before the first round, so that their places are"
                   " offered to nobody else.", f"{many:,} so far", READY, "answers.show")


def of_open_offers(register: Register) -> Iterator[Task]:
    """The answers that are still to come."""
    if many := len(register_rows.offers(register)):
        yield Task("Record answers as they come in", "Each family accepts or declines its offer.",
                   f"{many:,} open", READY, "answers.show")


def of_unplaced(register: Register, today: datetime.date) -> Iterator[Task]:
    """The children to whom the rounds gave no place."""
    many = len(register.children) - len(register.places)
    if many and register.rounds and today <= register.days[2]:
        yield Task("Find a school for each child without a place", "The list has their preferences,"
                   " and where they wait.", texts.count(many, "child", "children"), READY,
                   "lists.one", {"name": "unplaced"})


def of_addresses(many: int) -> Iterator[Task]:
    """The children to whom letters are due and cannot be addressed."""
    if many:
        yield Task("Add addresses for letters", "Printed letters have them at their head.",
                   f"{many:,} missing", READY, "letter_addresses.show")


def of_figures(
    register: Register, today: datetime.date, published: Collection[int],
) -> Iterator[Task]:
    """The figures of the rounds that nobody has downloaded for publication."""
    for it in register.rounds:
        if it.day <= today and it.round not in published:
            yield Task(f"Publish the figures of round {it.round}", "Small numbers are withheld in"
                       " them.", "Not downloaded", READY, "figures.show")


def of_undone(draws: Sequence[Draw], register: Register) -> Iterator[Task]:
    """The rounds and offers that were undone, and are to be run again. (Of the first round it is
    said that it is to be run.)
    """
    for it in draws if register.draws else ():
        yield Task(f"Run {it.name} again", "It was undone. Its lots stay for the same children and"
                   " schools.", "Undone", WAITING, "draws.show", {"again": str(it.number)})


def of_unsent(draw: Draw, restore: int, many: int) -> Task:
    """What waits since a restore until a round or offer is run again."""
    return Task(f"Record again what came after {draw.name}", "It was recorded before the restore,"
                " and is not in the register.", texts.count(many, "entry", "entries"), WAITING,
                "restores.one", {"number": str(restore)})


def of_end(register: Register, today: datetime.date) -> Iterator[Task]:
    """The end of the season."""
    last = register.days[2]
    if today > last:
        yield Task("End the season", f"The waiting lists ended on {weekday(last)}. Keep the last"
                   " copy with the sheets and the audits.", "Due", DUE, "season_end.show")
    elif register.draws:
        yield Task("End the season", f"The waiting lists end on {weekday(last)}.",
                   from_day(last + datetime.timedelta(days=1)), LATER)


def done(register: Register, today: datetime.date) -> list[Task]:
    """What is done of the season."""
    found = []
    if register.schools:
        places = texts.count(sum(it.pan for it in register.schools.values()), "place")
        found.append(Task("Add the schools", f"{texts.count(len(register.schools), 'school')} with"
                          f" {places}", "Done", DONE, "schools.show"))
    if register.applications and (today > register.days[0] or register.draws):
        found.append(Task("Add the applications", applied(register), "Done", DONE,
                          "lists.one", {"name": "children"}))
    for it in register.rounds:
        fresh = sum(register.fresh[it.number].values())
        found.append(Task(f"Run round {it.round}", f"for {days.in_words(it.day)}:"
                          f" {texts.count(fresh, 'child was', 'children were')} offered a place",
                          "Done", DONE, "draws.show"))
    if register.rounds and not register_rows.offers(register):
        found.append(Task("Record the answers", "Each offer is answered or withdrawn.", "Done",
                          DONE, "answers.show"))
    return found


def applied(register: Register) -> str:
    """How many have applied."""
    late = sum(not register.is_in_time(it.day) for it in register.applications.values())
    said = texts.count(len(register.applications), "application")
    return f"{said}, of which {late:,} late" if late else said


def of_people(rows: Sequence[sqlite3.Row]) -> Iterator[Task]:
    """Whom a round needs and nobody is; who was added and has not come in yet, and who is kept out.
    """
    there = [Person(it["name"], it["role"]) for it in rows if not it["is_locked"]]
    if not any(it.may(OF_LOTS) for it in there):
        yield Task("Add a supervisor", "The supervisor draws the lots of each round.", "Nobody yet",
                   READY, "people.show")
    if sum(it.may(CONFIRM) for it in there) < 2:
        yield Task("Add a second person", "A head or an officer who did not begin a round confirms"
                   " it.", "Nobody yet", READY, "people.show")
    new = [it["name"] for it in rows if not it["signed_in"] and not it["is_locked"]]
    locked = [it["name"] for it in rows if it["is_locked"]]
    if new:
        yield Task("Help colleagues to sign in", f"Not signed in yet: {texts.listed(new)}.",
                   texts.count(len(new), "person", "people"), READY, "people.show")
    if locked:
        yield Task("Look at locked accounts", f"Locked: {texts.listed(locked)}.",
                   texts.count(len(locked), "person", "people"), READY, "people.show")


def of_copies(behind: Behind | None) -> Iterator[Task]:
    """A copy that is older than it should be."""
    if behind:
        last = f"The last copy is of {moment(behind.at)}. " if behind.at else ""
        yield Task("Make a copy of the register", f"{last}{behind.in_words}", "Overdue", WAITING,
                   "copies.show")


# entries that are no work, and how many are looked at and shown
NO_WORK = (ANSWER, SETTLED, "signed in", "signed out", "refused", "records a pile")
LOOKED_AT, SHOWN = 500, 5


def work(entries: Sequence[Entry], names: Names) -> list[dict[str, str]]:
    """What was done last, the last first, in the words of Activity: what one person did one after
    another is one line.
    """
    found = [it for it in entries[-LOOKED_AT:] if it.what not in NO_WORK]
    rows = []
    for (title, who, _), group in itertools.groupby(
            reversed(found), key=lambda it: line_of(it, names)):
        same = list(group)
        is_one = len(same) == 1
        rows.append({"at": same[0].at, "when": moment(same[0].at), "who": who, "kind": "info",
                     "what": entry_words.title_of(same[0], names) if is_one else title,
                     "more": "" if is_one else f"{len(same):,} in a row"})
        if len(rows) == SHOWN:
            break
    return rows


def line_of(it: Entry, names: Names) -> tuple[str, str, str]:
    """What is said of an entry, by whom it is, and its day: entries with the same are one line."""
    kind = KINDS.get(it.about.get("command", {}).get("cmd", "")) if it.what == SENDS else None
    return kind.deeds if kind else entry_words.title_of(it, names), it.who, it.at[:10]


# -------------------------------------------------------------------------- how the season stands


@dataclasses.dataclass(frozen=True)
class Figure:
    """A number with its words, a remark, and the list that has what is counted."""

    number: str
    words: str
    note: str
    view: str
    values: Mapping[str, str] = dataclasses.field(default_factory=dict)
    kind: str = ""


def share(part: int, of: int) -> str:
    """A part in percent."""
    return f"{100 * part / of:.1f}%" if of else ""


def figures(register: Register, met: Sequence[int]) -> list[Figure]:
    """The five numbers that say how the season stands; `met` is how many have which preference."""
    late = sum(not register.is_in_time(it.day) for it in register.applications.values())
    schools = register.schools.values()
    plans = sum(it.kind == model.PLAN for it in register.places.values())
    found = [Figure(f"{len(register.applications):,}", "Applications", f"{late:,} late",
                    "lists.one", {"name": "children", "filled": "applied"})]
    without = len(register.children) - len(register.places)
    if not register.draws:
        places = sum(it.pan for it in schools)
        return [*found,
                Figure(f"{len(register.schools):,}", "Schools", "", "schools.show"),
                Figure(f"{places:,}", "Places", "", "lists.one", {"name": "vacancies"}),
                Figure(f"{plans:,}", "Places by EHC plans", "", "lists.one",
                       {"name": "children", "state": model.PLAN}),
                Figure(f"{without:,}", "Children without a place", "before the first round",
                       "lists.one", {"name": "unplaced"})]
    offers = len(register_rows.offers(register))
    some, every = sum(met[:4]), sum(met)
    waiting = sum(min(it.vacancies, it.waiting) for it in schools)
    return [*found,
            Figure(f"{met[0]:,}", "Have their first preference today",
                   f"{share(met[0], every)} of all who applied; any preference"
                   f" {share(some, every)}" if every else "", "lists.one",
                   {"name": "children", "state": on_screen.MET[0]}),
            Figure(f"{offers:,}", "Offers not answered", "", "lists.one", {"name": "no-answer"},
                   "bad" if offers else ""),
            Figure(f"{sum(it.vacancies for it in schools):,}", "Vacant places",
                   f"{waiting:,} with somebody waiting", "lists.one", {"name": "vacancies"},
                   "warn" if waiting else ""),
            Figure(f"{without:,}", "Children without a place",
                   "" if met[4] == without else f"{met[4]:,} with an application", "lists.one",
                   {"name": "unplaced"})]


def preferences_met(register: Register) -> list[int]:
    """How many children have their first, second, third or a lower preference today, and how many
    none, of those that have applied and have no place by a plan.
    """
    found = collections.Counter(on_screen.met(register, it) for it in register.applications)
    none = sum(it not in register.places for it in register.applications)
    return [*(found[it] for it in on_screen.MET), none]


# what can become of an offer, by the class of its colour
ANSWERS = {"has": "Accepted", "open": "Not answered", "none": "Declined or withdrawn",
           "other": "Another place since"}


def answers(register: Register) -> list[tuple[str, int, str]]:
    """What became of the offers of all draws, each with the class of its colour."""
    offers = {(child, register.outcomes[number][child])
              for number, fresh in register.fresh.items() for child, is_new in fresh.items()
              if is_new}
    found: collections.Counter[str] = collections.Counter()
    for child, school in offers:
        place = register.places.get(child)
        if place is not None and place.school == school:
            found["open" if place.kind == model.OFFERED else "has"] += 1
        else:
            found["none" if (child, school) in register.left else "other"] += 1
    return [(words, found[kind], kind) for kind, words in ANSWERS.items()
            if found[kind] or kind != "other"]


def dates(
    register: Register, today: datetime.date, has_answers: bool = True,
) -> list[tuple[str, str]]:
    """The next days of the season; the last day of answers is for who sees offers."""
    closing, offer, last = register.days
    answers_by = (it for it in last_days(register) if it >= today) if has_answers else ()
    found = [("Applications close", closing), ("National offer day", offer),
             ("Answers, the next last day", min(answers_by, default=None)),
             ("Waiting lists end", last)]
    return [(name, f"{weekday(day)}, {when(day, today)}") for name, day in found
            if day and day >= today]


def spans(register: Register) -> list[Span]:
    """The parts of the season in time."""
    closing, offer, last = register.days
    day = datetime.timedelta(days=1)
    begins = datetime.date(closing.year, FIRST_MONTH, FIRST_DAY)
    if begins > closing:
        begins = begins.replace(year=closing.year - 1)
    answered = days.due_from(days.due_from(offer))
    return [
        Span("Families apply", begins, closing),
        Span("Check, EHC plans, round 1", closing + day, offer - day),
        Span("Answers, reminders and withdrawals", offer, max([answered, *last_days(register)])),
        Span("Waiting lists: vacant places are offered in their order", offer, last, 1),
    ]


def season(register: Register, today: datetime.date) -> Any:
    """The season as a picture."""
    parts = spans(register)
    now = [it.words for it in parts if it.state(today) == "now"]
    said = f"Today is {weekday(today)}. " + (f"Now: {'; '.join(now)}." if now else "")
    return pictures.season("season-drawn", "The season", said, parts, today)


def places_map(register: Register) -> Any:
    """The schools with their places, and where children live, as a picture."""
    schools = [pictures.Places(it.code, it.east, it.north, it.pan, it.taken, it.vacancies)
               for it in register.schools.values()]
    homes = [(it.east, it.north) for it in register.children.values()]
    said = "; ".join(f"{it.code}: {it.taken} of {it.places} places are taken" for it in schools)
    return pictures.authority_map("places-drawn", "Places at the schools", said, schools, homes)


def vacant_in_words(register: Register) -> str:
    """How many places are vacant, in one sentence."""
    vacant = sum(it.vacancies for it in register.schools.values())
    at = sum(bool(it.vacancies) for it in register.schools.values())
    if not vacant:
        return "All places are taken."
    verb = "is" if vacant == 1 else "are"
    return f"{texts.count(vacant, 'place')} {verb} vacant, at {texts.count(at, 'school')}."
