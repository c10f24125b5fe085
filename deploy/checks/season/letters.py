"""Letters to families: whom a round has offered a place, who is reminded, and whose offer ends.
Each is read on paper, and recorded as sent.
"""
import datetime
import pathlib
import re
import subprocess
import unicodedata
from collections.abc import Iterable, Mapping

from selenium.webdriver.common.by import By
from selenium.webdriver.common.keys import Keys

from . import town
from .allocation import NOTICE
from .office import HAL, Office
from .report import until

# the foot of each page of a letter
FOOT = re.compile(r"Child ([0-9]+) · page [0-9]+ of [0-9]+")
NAMES = {it.code: it.name for it in town.SCHOOLS}


# what is typed once of the office
OFFICE = {"Name of the office": "Ashdown Council", "Address": "County Hall, Ashdown",
          "Who signs": "Jane Head, Ashdown Council"}


def in_words(day: datetime.date) -> str:
    """A day as screens and letters have it."""
    return f"{day.day} {day:%B} {day.year}"


def plain(text: str) -> str:
    """A text on one line, without the letters that a font joins."""
    return " ".join(unicodedata.normalize("NFKC", text).split())


def file_of(office: Office, who: str, pattern: str) -> pathlib.Path:
    """A file that somebody's browser has taken to its end, the last of its kind."""
    def found() -> pathlib.Path | None:
        there = sorted(office.downloads(who).glob(pattern), key=lambda it: it.stat().st_mtime_ns)
        return there[-1] if there and there[-1].stat().st_size else None

    it: pathlib.Path = until(found, f"a file {pattern} of {who}")
    return it


def text_of(path: pathlib.Path) -> str:
    """The text of a PDF, with a form feed after each page."""
    return subprocess.run(["pdftotext", str(path), "-"], capture_output=True, text=True,
                          check=True).stdout


def by_child(path: pathlib.Path) -> dict[int, str]:
    """The letters of a file by their children, as the foot of each page says whose it is."""
    found: dict[int, str] = {}
    for page in text_of(path).split("\f"):
        if foot := FOOT.search(page):
            child = int(foot[1])
            found[child] = plain(f"{found.get(child, '')} {page}")
    return found


def letterhead(office: Office) -> None:
    """What letters say of the office."""
    jane = office.jane
    office.report.step("the office on its letters")
    jane.open("/")
    jane.press("Type the office’s name and address")
    for label, text in OFFICE.items():
        jane.fill(label, text)
    jane.press_by_keys("Save for all letters")
    jane.look("The office on its letters, saved")


def to_offered(office: Office, draw: int) -> None:
    """Letters to all whom a round has offered a place."""
    hal, season = office.people[HAL], office.season
    offered = dict(sorted((it, season.places[it]) for it in season.offers))
    office.report.step(f"letters to {len(offered)} children with an offer of draw {draw}")
    hal.go("Offers", "Letters")
    hal.pick("Round or offer, for letters about its result", f"round {draw}", f"round {draw}")
    hal.tab_to("Day, for letters about a day")
    hal.enter()
    wanted = {it: [f"A place at {NAMES[code]} is offered to {season.children[it].name}.",
                   f"Please tell us by {in_words(season.offers[it] + NOTICE)} whether you"]
              for it, code in offered.items()}
    about = "result of round"
    listed = {int(row[1]): (row[2], about in row[3]) for row in hal.captioned("")
              if row[1].isdecimal()}
    office.report.same(listed, {it: (season.children[it].name, True) for it in wanted},
                       f"the children of the letters about the {about}")
    hal.type_day("Date of the letters", office.offer_day)
    hal.enter()
    taken_and_sent(office, office.offer_day, wanted, about)


def taken_and_sent(office: Office, day: datetime.date, wanted: Mapping[int, Iterable[str]],
                   about: str) -> None:
    """From the page that has the letters to those that are in the post: each child has one that
    says what it must, and nobody else has one.
    """
    report, hal, season = office.report, office.people[HAL], office.season
    count = f"{len(wanted)} letter{'s' * (len(wanted) != 1)}"
    field = hal.driver.find_element(By.ID, "day").get_attribute("value") or ""
    # (where no day can be today the letters are of another one, which the field proposes)
    on = day if office.clock else datetime.datetime.strptime(field, "%d %B %Y").date()
    address = hal.driver.find_element(By.ID, "take").get_attribute("href") or ""
    hal.press(f"Download {count}", is_new=False)
    number = address.split("/")[-2]
    letters = by_child(file_of(office, HAL, f"letters-{number}.pdf"))
    report.same(sorted(letters), sorted(wanted), f"whose letters about the {about} are in the file")
    for child, texts in wanted.items():
        letter = letters.get(child, "")
        for it in (season.children[child].name, in_words(on), *texts):
            report.see(plain(it) in letter, f"the letter of child {child} has {it!r}: {letter}")
    hal.press(f"Record {count} as sent")
    if hal.has(sure := f"They were sent on {in_words(on)}"):
        # (a day long ago)
        hal.press(sure, is_new=False)
        hal.press(f"Record {count} as sent")
        office.ticks += 2
    on = office.day if office.clock else on
    sent = f"sent on {in_words(on)}, by {hal.who}"
    report.same(hal.facts().get("State"), sent, "the state of the letters")
    first = min(wanted)
    hal.open(f"/children/{first}?part=letters", "A child with letters")
    rows = [row for row in hal.captioned("") if len(row) == 5 and about in row[1]]
    report.same([(row[0], row[3]) for row in rows], [(in_words(on), hal.who)],
                f"the letter about the {about} on the screen of child {first}")


def due(office: Office, kind: str, day: datetime.date, children: Iterable[int],
        kept: Iterable[int] = ()) -> None:
    """The list of those that are due on a day, from which some are taken out; what is recorded of
    the others is shown, and recorded.
    """
    report, hal, season = office.report, office.people[HAL], office.season
    wanted, out = sorted(children), sorted(kept)
    title, one = (("Withdrawals of offers", "withdrawal") if kind == "lapse" else
                  ("Reminders", "reminder"))
    to_due(office, kind, day)
    many = f"{len(wanted)} {one}{'s' * (len(wanted) != 1)}"
    button = f"Record {many} of {in_words(day)}"
    # (where all are ticked today, their question comes first)
    if hal.title != button:
        ticked(office, kind, {it: (season.children[it].name, season.places[it])
                              for it in sorted([*wanted, *out])}, out, f"{title} of {day}")
    for it in wanted:
        code = season.places[it]
        hal.see(f"child {it}, {season.children[it].name}: {code} {NAMES[code]}")
    for it in out:
        report.see(f"child {it}," not in hal.main, f"child {it} is named, which was not ticked")
    hal.press(button)
    until(lambda: "The rest is being recorded" not in hal.main, "all are recorded")
    hal.see(f"{len(wanted)} of {many} recorded.")


def ticked(office: Office, kind: str, listed: Mapping[int, tuple[str, str]],
           out: Iterable[int], name: str) -> None:
    """From the list of those that are due, with their names and schools, to the question about
    them, but for some who are taken out.
    """
    hal, is_all = office.people[HAL], True
    shown = {int(row[1]): (row[2], row[3]) for row in hal.captioned("Due on")}
    office.report.same(shown, dict(listed), f"who is due: {name}")
    if kind == "lapse":
        # (nobody's offer is to be withdrawn until somebody says so)
        hal.press("Tick all")
    for it in out:
        hal.tab_to(f"Child {it}")
        hal.key(Keys.SPACE)
        is_all = False
    if is_all:
        hal.press("Check what is ticked")
    else:
        hal.press_by_keys("Check what is ticked")


def to_due(office: Office, kind: str, day: datetime.date) -> None:
    """From the first screen to those that are due today, or to the question about all of them. On
    another day, where that cannot be today, by its address to their list.
    """
    hal = office.people[HAL]
    if not office.clock:
        hal.open(f"/notices/{kind}?day={day}")
        return
    hal.open("/")
    hal.press("Remind families who have not answered" if kind == "remind" else
              "Withdraw offers that stay unanswered")


def reminders(office: Office, day: datetime.date) -> None:
    """All who have not answered are reminded, from the list to their letters."""
    season = office.season
    office.today(day)
    children = season.to_remind(day)
    office.report.step(f"reminders of {len(children)} children")
    due(office, "remind", day, children)
    for it in children:
        season.reminded[it] = day
    office.compare("the reminders")
    taken_and_sent(office, day, {
        it: [f"A place at {NAMES[season.places[it]]} is offered to",
             f"We offered this place on {in_words(season.offers[it])} and reminded you on"
             f" {in_words(day)}."] for it in children}, f"reminder of {in_words(day)}")


def withdrawals(office: Office, day: datetime.date, kept: int) -> None:
    """The offers of those who have not answered the reminder either end, but for some who are taken
    out of the list.
    """
    season = office.season
    office.today(day)
    out = season.to_end(day)[:kept]
    children = season.to_end(day)[kept:]
    office.report.step(f"withdrawals of the offers of {len(children)} children")
    due(office, "lapse", day, children, out)
    had = {it: season.places[it] for it in children}
    for it in children:
        season.decline(it)
    office.compare("the withdrawals")
    taken_and_sent(office, day, {
        it: [f"The place at {NAMES[code]} has ended, because",
             f"There is at present no place for {season.children[it].name}"]
        for it, code in had.items()}, f"withdrawal of {in_words(day)}")
