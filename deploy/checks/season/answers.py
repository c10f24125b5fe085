"""Families' answers: typed by number and Enter into the batch, and recorded at once, by the
keyboard alone.
"""
import random
from collections.abc import Sequence

from selenium.webdriver.common.keys import Keys

from .office import HAL, Office
from .report import until

ANSWERS, MOST_KEYS = 24, 89
# so many of them decline the school at which vacancies are filled, and so many another one
DECLINED, OTHERS = 3, 2


def chosen(office: Office, school: str) -> tuple[list[int], set[int]]:
    """Who answers, in the order of their letters, and which of them decline."""
    season, urn = office.season, random.Random("letters")
    offered = [it for it in sorted(season.places) if it not in season.plans]
    there = [it for it in offered if season.places[it] == school]
    elsewhere = [it for it in offered if season.places[it] != school]
    declined = {*urn.sample(there, DECLINED), *urn.sample(elsewhere, OTHERS)}
    accepted = [it for it in offered if it not in declined]
    found = [*declined, *urn.sample(accepted, ANSWERS - len(declined))]
    urn.shuffle(found)
    return found, declined


def recorded(office: Office, school: str) -> None:
    """The answers of a day."""
    report, hal, season = office.report, office.people[HAL], office.season
    report.step(f"{ANSWERS} answers")
    children, declined = chosen(office, school)
    hal.open("/")
    hal.press("Record answers")
    before = report.counts.keys
    typed(office, children, declined)
    pile = {row[1]: row for row in hal.captioned("The batch")}
    for it in children:
        row = pile.get(str(it), [""] * 6)
        what = "decline" if it in declined else "accept"
        report.same(row[2:6], [season.children[it].name, what, season.places[it], ""],
                    f"the answer of child {it} in the batch")
    # (the button of the whole batch is in the head of the screen, right before the field)
    hal.press_by_keys(f"Record {ANSWERS} answers", Keys.SHIFT)
    hal.look("Answers, the question")
    hal.see(f"{len(declined)} of them are final:")
    for it in declined:
        hal.see(f"decline: child {it}, {season.children[it].name}, at {season.places[it]}")
    hal.press_by_keys(f"Record {ANSWERS} answers")
    keys = report.counts.keys - before
    report.see(keys <= MOST_KEYS, f"{keys} keys for {ANSWERS} answers: at most {MOST_KEYS}")
    # (where it takes long, the page says how far it is)
    done = f"{ANSWERS} of {ANSWERS} answers are recorded."
    until(lambda: done in hal.main, f"the page says that {done}")
    hal.look("Answers, recorded")
    report.step(f"{ANSWERS} answers are recorded with {keys} keys")
    kinds = {it["child"]: it["place"] and it["place"]["kind"]
             for it in office.read("/register")["children"]}
    for it in children:
        report.same(kinds[it], None if it in declined else "accepted", f"the place of child {it}")
    for it in children:
        (season.decline if it in declined else season.answer)(it)
    office.compare("the answers")


def typed(office: Office, children: Sequence[int], declined: set[int]) -> None:
    """The numbers are typed into the field that has the focus, without waiting for the pile."""
    hal = office.people[HAL]
    for it in children:
        hal.type(f"{it}-\n" if it in declined else f"{it}\n")
    until(lambda: hal.has(f"Record {ANSWERS} answers"), "the batch has all answers")
    hal.look("Answers, a batch")
