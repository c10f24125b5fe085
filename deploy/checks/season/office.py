"""The office of the season: its people, each at a browser of their own, and what is known of the
town.
"""
import contextlib
import dataclasses
import datetime
import pathlib
from collections.abc import Callable
from typing import Any

from . import town
from .allocation import Lots, Season
from .hands import Hands
from .report import Report
from .site import Site

# has the application see a day as today, where that can be
Clock = Callable[[datetime.date], None]
HEAD, OFFICER, SUPERVISOR, READER = "head", "officer", "supervisor", "reader"
ADMINISTRATOR = "administrator"
# the officer, the supervisor, who reads, the head of a school, and a program with a token; and who
# adds them, so that nobody of a draw has made the account of another
HAL, SUP, RITA, ABBEY, PROGRAM = "hal", "sup", "rita", "abbey", "checker"
ANN = "ann"


@dataclasses.dataclass(frozen=True)
class Before:
    """A round as the rules have it: the season right before it, its lots and its day."""

    season: Season
    lots: Lots
    day: datetime.date


@dataclasses.dataclass
class Office:
    """What the steps share."""

    site: Site
    first: tuple[str, str]
    folder: pathlib.Path
    report: Report
    stack: contextlib.ExitStack
    pictures: pathlib.Path | None = None
    clock: Clock | None = None
    # how often something that looked wrong had to be said to be right
    ticks: int = 0
    people: dict[str, Hands] = dataclasses.field(default_factory=dict)
    drawn: dict[str, str] = dataclasses.field(default_factory=dict)
    # the season as the rules make it, once the days are known
    season: Season = dataclasses.field(init=False)
    offer_day: datetime.date = dataclasses.field(init=False)
    lists_end: datetime.date = dataclasses.field(init=False)
    deletion: datetime.date = dataclasses.field(init=False)
    # the day of the office, and the rounds by the numbers of their draws
    day: datetime.date = dataclasses.field(default_factory=datetime.date.today)
    before: dict[int, Before] = dataclasses.field(default_factory=dict)

    @property
    def jane(self) -> Hands:
        """The head of the office, who is there at first."""
        return self.people[self.first[0]]

    def arrive(self, who: str) -> Hands:
        """Somebody sits down at a browser."""
        downloads = self.downloads(who)
        downloads.mkdir()
        driver = self.stack.enter_context(self.site.browser(downloads))
        self.people[who] = Hands(driver, who, self.site.url, self.report, self.pictures)
        return self.people[who]

    def downloads(self, who: str) -> pathlib.Path:
        """Where somebody's browser keeps files."""
        return self.folder / f"files of {who}"

    def read(self, path: str) -> Any:
        """A document of the register."""
        return self.site.read(path, PROGRAM, self.drawn[PROGRAM])

    def begin_season(self) -> None:
        """Takes the days of the season from the register."""
        days = self.read("/register")["season"]
        closing = datetime.date.fromisoformat(days["closing"])
        self.offer_day = datetime.date.fromisoformat(days["offer_day"])
        self.lists_end = datetime.date.fromisoformat(days["last_list_day"])
        self.season = Season(town.SCHOOLS, town.children(closing), closing)

    def today(self, day: datetime.date) -> None:
        """It is another day, where that can be."""
        if self.clock:
            self.clock(day)
            self.day = day

    def compare(self, after: str) -> None:
        """The places of the register must be those of the rules, and so must its vacancies and its
        waiting lists.
        """
        found, season, report = self.read("/register"), self.season, self.report
        places = {it["child"]: it["place"]["school"] for it in found["children"] if it["place"]}
        report.same(places, dict(sorted(season.places.items())), f"the places after {after}")
        plans = {it["child"] for it in found["children"]
                 if it["place"] and it["place"]["kind"] == "plan"}
        report.same(plans, season.plans, f"the plans after {after}")
        for it in found["schools"]:
            code = it["school"]
            waiting = len(season.waiting(code)) if season.rounds else 0
            report.same((it["taken"], it["vacancies"], it["waiting"]),
                        (season.taken(code), season.vacancies(code), waiting),
                        f"places, vacancies and waiting at {code} after {after}")
        report.same(len(found["draws"]), season.draws, f"the number of draws after {after}")
