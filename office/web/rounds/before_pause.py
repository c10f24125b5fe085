"""What is to be read before a draw closes the register for all others: each fact in words, and what
looks wrong in it.
"""
import dataclasses
import datetime
import hashlib
from collections.abc import Iterable, Sequence

from office.core import days, model, risks, texts
from office.core.model import Pair, Register

from .terms import Terms


@dataclasses.dataclass(frozen=True)
class Check:
    """A fact of the draw, or what looks wrong."""

    title: str
    said: str
    is_risk: bool = False


def whole_day(day: datetime.date) -> str:
    """A day with its name: Monday 3 March 2025."""
    return f"{day:%A} {days.in_words(day)}"


def day_risks(register: Register, terms: Terms, today: datetime.date) -> list[str]:
    """What looks wrong with the day: in the season, beside today, and whether it is a day on which
    no office works.
    """
    is_first = terms.kind == "round" and not register.draws
    said = (risks.season_risk(terms.kind, terms.day, register, is_first),
            risks.today_risk(terms.day, today))
    found = [it for it in said if it]
    if terms.day.weekday() >= 5:
        found.append(f"a {terms.day:%A}")
    if terms.day in register.holidays:
        found.append("a holiday of this season")
    name = "the national offer day" if terms.day == register.days[1] else "the day"
    return [f"{name}, {days.in_words(terms.day)}, is {it}" for it in found]


def school_checks(register: Register, terms: Terms) -> list[Check]:
    """What is to be known of the school of a fill."""
    school = register.schools[terms.school or ""]
    place = f"{school.code} {school.name}"
    vacant, waiting = texts.count(school.vacancies, "vacancy", "vacancies"), school.waiting
    said = (f"{place} has {vacant}, and {texts.count(waiting, 'child', 'children')} on its waiting"
            " list.")
    found = [Check("School", said)]
    if terms.fills > school.vacancies:
        found.append(Check("School", f"There are fewer vacancies than {terms.fills}.", True))
    if terms.fills > waiting:
        found.append(Check("School", f"Fewer children wait than {terms.fills}.", True))
    return found


def part_checks(register: Register, terms: Terms) -> list[Check]:
    """Who takes part, and for how many pairs lots are drawn."""
    pairs = terms.pairs_in(register)
    found = [Check("Lots", lots_of(terms, pairs), not pairs)]
    late = len(register.applications) - len(register.taking_part)
    if late and not terms.school:
        said = texts.count(late, "late application takes", "late applications take")
        found.append(Check("Late", f"{said} no part in this round."))
    return found


def lots_of(terms: Terms, pairs: Sequence[Pair]) -> str:
    """How many lots are drawn, and what each is for."""
    many = texts.count(len(pairs), "lot is drawn", "lots are drawn")
    if terms.school:
        each = " for each place" if terms.fills > 1 else ""
        return f"{many}{each}: one for each child on the waiting list."
    children = texts.count(len({child for _, child in pairs}), "child", "children")
    return f"{many}: one for each of {children} at each school of its list."


def offer_checks(register: Register) -> list[Check]:
    """The offers that nobody has answered yet."""
    offers = [it for it in register.places.values() if it.kind == model.OFFERED]
    if not register.draws:
        return []
    if not offers:
        return [Check("Offers", "Every offer has an answer.")]
    reminded = sum(it.reminded is not None for it in offers)
    said = f"{texts.count(len(offers), 'offer has', 'offers have')} no answer yet"
    return [Check("Offers", f"{said}; of these {reminded or 'none'} had a reminder.")]


def season_checks(register: Register) -> list[Check]:
    """The days of the season."""
    closing, offer, end = map(days.in_words, register.days)
    held = texts.listed(map(days.in_words, register.holidays)) if register.holidays else "none"
    rounds, draws = len(register.rounds), len(register.draws)
    offers = texts.count(draws - rounds, "offer from a waiting list", "offers from waiting lists")
    before = f"{texts.count(rounds, 'round')} and {offers}" if draws else "no round"
    return [
        Check("Before it", f"The register has {before}."),
        Check("Season", f"Applications closed on {closing}; the offer day is {offer}; the lists"
                        f" end on {end}."),
        Check("Holidays", f"{held[:1].upper()}{held[1:]}."),
    ]


def agreed_to(found: Iterable[Check]) -> str:
    """What looks wrong, in short: who agrees to it has read this and nothing else."""
    return hashlib.sha256("\n".join(it.said for it in found if it.is_risk).encode()).hexdigest()


def checks(register: Register, terms: Terms, today: datetime.date) -> list[Check]:
    """All that is to be read, what looks wrong first."""
    found = [Check("Day", f"{whole_day(terms.day)}.")]
    found += [Check("Day", f"{it[:1].upper()}{it[1:]}.", True)
              for it in day_risks(register, terms, today)]
    found += season_checks(register)
    if terms.school:
        found += school_checks(register, terms)
    found += part_checks(register, terms) + offer_checks(register)
    return sorted(found, key=lambda it: not it.is_risk)
