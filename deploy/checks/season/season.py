"""The season from its first sign-in to its deletion."""
import contextlib
import datetime
import pathlib
from collections.abc import Callable

from selenium.common.exceptions import WebDriverException

from . import answers, applications, beginning, draws, ending, letters, wrong
from .draws import Draw
from .office import ABBEY, HAL, RITA, SUP, Clock, Office
from .report import Report, Stopped
from .site import Site

# what a season costs in clicks, at most; and how often what looks wrong is said to be right where
# the draws are held on another day than that of the office: once for each
MOST, TICKS = 75, 6
# the school at which vacancies are filled, and how many; and so many days after the offer day are
# the fills and the second round
SCHOOL, FILLS, AFTER_FILLS, AFTER_SECOND = "A", 3, 21, 56
# and so many days are the reminders and the withdrawals, of which some are not recorded
AFTER_REMINDERS, AFTER_WITHDRAWALS, NOT_WITHDRAWN = 15, 35, 3


def hold(site: Site, first: tuple[str, str], folder: pathlib.Path,
         pictures: pathlib.Path | None = None, clock: Clock | None = None) -> Report:
    """Lives the season on an empty register, and returns what was seen. `first` are name and drawn
    password of a head of the office; `folder` is empty.
    """
    report = Report()
    with contextlib.ExitStack() as stack:
        office = Office(site, first, folder, report, stack, pictures, clock)
        try:
            for step, most in STEPS:
                before = report.counts.clicks - office.ticks
                step(office)
                clicks = report.counts.clicks - office.ticks - before
                report.see(clicks <= most, f"{step.__doc__} {clicks} clicks, and not {most}")
        except (Stopped, WebDriverException) as error:
            report.see(False, f"the season stops: {error}")
    ticks = 1 if clock else TICKS
    report.see(office.ticks <= ticks, f"{office.ticks} ticks, and not {ticks}")
    total = report.counts.clicks
    report.step(f"the end of the season: at most {MOST} clicks")
    report.see(total <= MOST, f"{total} clicks, and not {MOST}")
    return report


def ready(office: Office) -> None:
    """The days of the season and its town."""
    office.begin_season()
    office.compare("the begin")


def first_round(office: Office) -> None:
    """The first round, whose lots come in an Excel file and by a seed."""
    draws.held(office, Draw(1, office.offer_day, "05 17 23 31 44 48", is_workbook=True))


def first_answers(office: Office) -> None:
    """The answers to the first round."""
    answers.recorded(office, SCHOOL)


def fills(office: Office) -> None:
    """Three fills at one school in one closure, after families declined."""
    day = office.offer_day + datetime.timedelta(days=AFTER_FILLS)
    vacant = office.season.vacancies(SCHOOL)
    office.report.same(vacant, FILLS, f"vacancies at {SCHOOL} before the fills")
    draws.held(office, Draw(2, day, "11 20 24 25 36 40", SCHOOL, FILLS))


def offers(office: Office) -> None:
    """Letters to all whom the first round has offered a place."""
    letters.to_offered(office, 1)


def letterhead(office: Office) -> None:
    """What letters say of the office."""
    letters.letterhead(office)


def reminders(office: Office) -> None:
    """Reminders of all who have not answered, with their letters."""
    letters.reminders(office, office.offer_day + datetime.timedelta(days=AFTER_REMINDERS))


def withdrawals(office: Office) -> None:
    """Withdrawals of offers that nobody has answered, with their letters."""
    day = office.offer_day + datetime.timedelta(days=AFTER_WITHDRAWALS)
    letters.withdrawals(office, day, NOT_WITHDRAWN)


def second_round(office: Office) -> None:
    """The second round, in which late applications take part too, with a wrong day at first."""
    day = office.offer_day + datetime.timedelta(days=AFTER_SECOND)
    wrong.held(office, Draw(2 + FILLS, day, "02 03 19 28 41 47", round=2))


def other_screens(office: Office) -> None:
    """What else people look at."""
    office.report.step("the other screens")
    hal, rita, season = office.people[HAL], office.people[RITA], office.season
    placed = next(it for it in season.places if it not in season.plans)
    hal.open("/", "Home, near the end of the season")
    hal.open("/draws/", "Rounds, all of them")
    for path in ("/schools/", f"/schools/{SCHOOL}", f"/find?q={placed}",
                 f"/children/{placed}", f"/children/{placed}/correct", "/lists/", "/lists/list",
                 "/lists/children", "/lists/vacancies", "/activity/", "/applications/add/",
                 "/applications/duplicates", "/applications/withdrawn", f"/schools/{SCHOOL}/raise",
                 *(f"/schools/{SCHOOL}/{it}" for it in ("waiting", "moves", "offer"))):
        hal.open(path)
    rita.open("/")
    rita.see("Children without a place")
    abbey = office.people[ABBEY]
    abbey.open(f"/schools/{SCHOOL}/intake")
    intake = {int(row[0]) for row in abbey.rows("#intake")}
    office.report.same(intake, {it for it, code in season.places.items() if code == "A"},
                       "the intake that the head of the school sees")
    office.people[SUP].open("/")


# the steps, each with the clicks that its screens ask for. (A tick that what looks wrong is right
# is beside these: it is asked for on another day than that of the draw.)
STEPS: tuple[tuple[Callable[[Office], None], int], ...] = (
    (beginning.first_sign_in, 0),
    # the file on the first screen, and the question, which asks for the words of flags too
    (beginning.schools, 2),
    (beginning.flags, 0),
    # the screen of the head, who adds one; an administrator's first screen has the form
    (beginning.people, 1),
    (beginning.arrivals, 0),
    (ready, 0),
    # the file, on the first screen
    (applications.from_workbook, 1),
    # the row that is set aside
    (applications.corrected, 1),
    # (the last correction has led to the question)
    (applications.stored, 1),
    # the screen, what is added, the question, and its answer
    (applications.plans, 4),
    # for the head of the office the screen, the close and the run; for the officer the
    # confirmation; and for the supervisor the seal, and the sheet and its file: both have them on
    # the first screen
    (first_round, 7),
    # the screen, and what is saved
    (letterhead, 2),
    # the screen, the file, and the record
    (offers, 3),
    # the screen, the question, and its answer
    (first_answers, 3),
    # what is due, which leads to the question if it is of today, and its answer; the letters' file,
    # and their record
    (reminders, 4),
    (fills, 5),
    # what is due, the ticks, what is ticked, and the answer; the letters' file, and their record
    (withdrawals, 6),
    # the wrong draw (5) and two answers with their question (3); the page that undoes it, the
    # close, the question, and for the officer the restore and its confirmation (5); the draw again
    # (3 and the seal of all lots); and the answer to its offer (2)
    (second_round, 19),
    # the screen, what is made, and the file
    (ending.figures, 3),
    # the reason, its PDF, the screen of other lists, and the answer
    (ending.question, 4),
    (other_screens, 0),
    # the screen, and what is made
    (ending.archived, 2),
    (ending.deleted, 1),
)
