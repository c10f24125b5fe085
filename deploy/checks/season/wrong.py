"""A draw that was run with a wrong day, and how it is put right: the copy from before it is
restored by two persons, what came since is sent again, and it is run again with its lots.
"""
import copy
import dataclasses
import datetime

from selenium.webdriver.common.by import By

from . import draws
from .allocation import Season
from .draws import Draw
from .hands import Hands
from .office import HAL, Office
from .report import until

# so many days later than the right day is the one that was typed
SLIP = 30


def held(office: Office, draw: Draw) -> None:
    """A draw that is held with a wrong day at first. The register is then as if it had been held
    once, with the answers that came meanwhile.
    """
    slip = draw.day + datetime.timedelta(days=SLIP)
    before = copy.deepcopy(office.season)
    wrong = dataclasses.replace(draw, day=slip, office_day=draw.day)
    lots = draws.held(office, wrong)
    stayed, fresh = answering(office, before)
    answered(office, stayed, fresh)
    restored(office, draw, before, (stayed, fresh))
    draws.held_again(office, draw, lots)
    sent_later(office, fresh)
    office.report.same(office.read(f"/draw/{draw.first}")["day"], draw.day.isoformat(),
                       f"the day of draw {draw.first}")
    office.compare("the draw on its right day, with all answers")
    for it in (stayed, fresh):
        sees_author(office, it)


def answering(office: Office, before: Season) -> tuple[int, int]:
    """Two children whose families answer after the wrong draw: one that the draw did not move, and
    one with a new offer of it.
    """
    season, then = office.season, before.offers
    stayed = next(it for it, day in sorted(season.offers.items()) if then.get(it) == day)
    fresh = next(it for it, day in sorted(season.offers.items()) if then.get(it) != day)
    return stayed, fresh


def answered(office: Office, *children: int) -> None:
    """The officer records answers, before anybody has seen that the day was wrong."""
    hal = office.people[HAL]
    office.report.step("answers after the wrong draw")
    hal.go("Offers", "Answers")
    for it in children:
        hal.type(f"{it}\n")
    until(lambda: hal.has("Record 2 answers"), "the batch has both answers")
    hal.press("Record 2 answers")
    hal.see("2 answers are accepts.")
    hal.press("Record 2 answers")
    done = "2 of 2 answers are recorded."
    until(lambda: done in hal.main, f"the page says that {done}")
    for it in children:
        office.season.answer(it)
    office.compare("the answers after the wrong draw")


def see_ticked(hands: Hands, children: tuple[int, ...]) -> None:
    """The entries of these children are ticked, and no others: all that can be sent again now."""
    boxes = hands.driver.find_elements(By.CSS_SELECTOR, "#since input[type=checkbox]:checked")
    labels = [hands.text(f"label[for='{it.get_attribute('id')}']") for it in boxes]
    hands.report.same(sorted(int(it.split()[1]) for it in labels), sorted(children),
                      "whose entries are ticked to be sent again")


def restored(office: Office, draw: Draw, before: Season, answered_by: tuple[int, int]) -> None:
    """The head of the office asks for the restore at the draw, the officer confirms it, and it is
    opened for all by itself; what came since is there again with its first author, but for the
    answer to an offer that is undone: that waits for the draw.
    """
    report, jane, hal = office.report, office.jane, office.people[HAL]
    report.step(f"{draw.name}: the copy from before it is restored")
    number = jane.facts()["Copy"].removeprefix("Copy ").partition(",")[0]
    jane.press("Undo this round")
    jane.press(f"Pause recording for everyone, to restore copy {number}")
    report.same(jane.title, f"Restore of copy {number}", "the heading of the restore")
    came = [(row[2], row[3]) for row in jane.captioned("Came since the copy")]
    report.same(len(came), 3, "entries that came since the copy")
    report.see(any("It is run again on the screen Rounds." in it for _, it in came),
               f"the draw is not sent again: {came}")
    stayed, fresh = answered_by
    see_ticked(jane, (stayed,))
    later = [row[3] for row in jane.captioned("Came since the copy") if row[0] == "later"]
    report.see(len(later) == 1 and later[0].startswith(f"child {fresh} "),
               f"what waits for the draw: {later}")
    jane.press(f"Ask to restore copy {number}")
    jane.look("A restore, asked for")
    hal.open("/")
    hal.press(f"To the restore of copy {number}")
    hal.press(f"Restore copy {number}")
    hal.look("A restore, done")
    report.same(hal.facts().get("State"), "done, and recording goes on", "the state of the restore")
    again = {int(row[3].split()[1]): (row[2], row[4]) for row in hal.captioned("Came since the")
             if row[3].startswith("child ")}
    report.same(again.get(stayed), (hal.who, "stored"), f"the answer of child {stayed}, sent again")
    report.same(again.get(fresh), (hal.who, "not sent"),
                f"the answer of child {fresh} to an offer that is undone")
    jane.reload()
    office.season = copy.deepcopy(before)
    office.season.answer(stayed)
    office.compare("the restore")


def sent_later(office: Office, fresh: int) -> None:
    """The answer to an offer of the draw is sent once that is held again."""
    jane = office.jane
    office.report.step(f"the answer of child {fresh} is sent again")
    jane.press("Send what came after the one that was wrong")
    see_ticked(jane, (fresh,))
    jane.press("Send what is ticked")
    office.season.answer(fresh)
    kinds = {it["child"]: it["place"] and it["place"]["kind"]
             for it in office.read("/register")["children"]}
    office.report.same(kinds[fresh], "accepted", f"the place of child {fresh}")


def sees_author(office: Office, child: int) -> None:
    """The history of a child names who sent its answer again, and who has recorded it first."""
    hal = office.people[HAL]
    hal.open(f"/children/{child}", "A child after a restore")
    rows = [it for it in hal.history() if it[0].startswith("Accepted the place")]
    # (between them may be that it was sent while there was no offer)
    office.report.see(len(rows) > 1 and f"recorded first by {hal.who} on" in rows[0][1]
                      and "undone when copy" not in rows[0][1] and rows[-1][2].endswith(hal.who)
                      and "undone when copy" in rows[-1][1],
                      f"who recorded the answer of child {child}: {rows}")
