"""How the season that is tried is made: what its people do in the application, each on a day of the
season, by the forms of its screens.
"""
import dataclasses
import datetime
import html
import io
import re
import time
from collections.abc import Callable, Iterator
from typing import Any

import argon2
import try_clock
import try_season
from try_folder import Ended

ORIGIN = "http://127.0.0.1"
HEAD, OFFICER, SUPERVISOR, SCHOOL = "harriet", "owen", "sunita", "huw"
# the people: their roles, and these in words
PEOPLE = {
    HEAD: ("head", "the head of the office"), OFFICER: ("officer", "an officer"),
    SUPERVISOR: ("supervisor", "the supervisor, who draws the lots"),
    SCHOOL: ("school-HIGH", "the head of Ashdown High School"),
}
# at which moment the clock stands, by what is seen then
MOMENTS = {
    "applications": "2026-11-03T09:05:00", "round": "2027-03-01T08:40:00",
    "march": "2027-03-16T09:05:00",
}
APPLICATIONS, ROUND, MARCH = MOMENTS
# the working days of two weeks after the offers on which answers are recorded
ANSWERED = ("03-02", "03-03", "03-04", "03-05", "03-08", "03-09", "03-10", "03-11", "03-12",
            "03-15")
# the schools that plans name, each for a child of the town
PLANS = ("DEAN", "HIGH", "QUAY", "CLIFF", "HIGH")
LONGEST_WAIT = 600.0
# what a page has while a step of it goes on
RUNNING = ("data-running",)
Answer = Any


class NotMade(Ended):
    """A step of the season that did not come to its end."""


class Browser:
    """A person at the application's screens."""

    def __init__(self, app: Any, name: str) -> None:
        self.client, self.name, self.secret = app.test_client(), name, ""

    def seen(self, found: Answer, what: str, status: int) -> Answer:
        """A page that came as it must, whose secret is kept for the next form."""
        if found.status_code != status:
            said = " ".join(re.sub("<[^>]*>", " ", found.text).split())
            raise NotMade(f"{self.name}: {what}: {found.status_code}: {said[:2000]}")
        if found.mimetype == "text/html" and (secret := field(found.text, "form")):
            self.secret = secret
        return found

    def get(self, path: str) -> Answer:
        """A page."""
        found = self.client.get(path, base_url=ORIGIN, headers={"Accept": "text/html"})
        return self.seen(found, path, 200)

    def post(self, path: str, given: dict[str, Any], status: int = 303) -> Answer:
        """A form that is sent."""
        found = self.client.post(
            path, base_url=ORIGIN, data={"form": self.secret, **given},
            headers={"Accept": "text/html", "Origin": ORIGIN, "X-Real-IP": "127.0.0.1"})
        return self.seen(found, path, status)

    def upload(self, path: str, name: str, file: str, data: bytes, status: int = 303) -> Answer:
        """A form with a file."""
        return self.post(path, {name: (io.BytesIO(data), file)}, status)

    def waited(self, path: str, *running: str) -> Answer:
        """A page, once nothing runs any more of what it shows."""
        end, pause = time.monotonic() + LONGEST_WAIT, 0.1
        found = self.get(path)
        while any(it in found.text for it in running or RUNNING):
            if time.monotonic() > end:
                raise NotMade(f"{path} runs for more than {LONGEST_WAIT:.0f} seconds")
            # (each look costs as much as a page)
            time.sleep(pause)
            pause = min(0.3, 1.5 * pause)
            found = self.get(path)
        return found


def field(page: str, name: str) -> str:
    """The value of the first field of a name, or ""."""
    found = re.search(rf'name="{name}" value="([^"]*)"', page)
    return html.unescape(found[1]) if found else ""


@dataclasses.dataclass
class Making:
    """A season that is made: the application over an empty register, whose people have drawn
    passwords; and what says how far it is.
    """

    app: Any
    passwords: dict[str, str]
    say: Callable[[str], None]

    def __post_init__(self) -> None:
        # (what follows a step of a draw is waited for)
        self.app.extensions["office"].following.wait = LONGEST_WAIT
        self.app.extensions["staging"].committing.wait = LONGEST_WAIT
        self.browsers: dict[str, Browser] = {}
        self.numbers = {it.number: it for it in try_season.children()}

    def at(self, moment: str) -> None:
        """The clock of the season."""
        try_clock.begin(datetime.datetime.fromisoformat(moment))

    def by(self, name: str) -> Browser:
        """Somebody who is signed in, with a session of this day."""
        return self.browsers[name]

    def signed_in(self, drawn: dict[str, str]) -> None:
        """Each signs in with the drawn password, and changes it."""
        for name, password in drawn.items():
            found = self.browsers[name] = Browser(self.app, name)
            found.get("/sign-in")
            found.post("/sign-in", {"name": name, "password": password})
            found.get("/password")
            new = self.passwords[name]
            found.post("/password", {"present": password, "new": new, "again": new})

    def made(self, moment: str, drawn: dict[str, str]) -> None:
        """The season until a moment."""
        self.at("2026-09-07T09:10:00")
        self.say("eight schools, their criteria and what letters say of the office")
        self.signed_in(drawn)
        self.schools()
        self.say(f"the applications of {try_season.CHILDREN:,} children")
        if moment == APPLICATIONS:
            self.applications()
        else:
            self.all_applications()
            self.say("the round: the supervisor's lots, and the rehearsal")
            self.round()
        if moment == MARCH:
            self.say("the round, run and worked out again")
            self.confirmed()
            self.say("the letters of the round")
            self.letters()
            self.say("two weeks of answers")
            self.answers()
        for it in self.browsers.values():
            it.post("/sign-out", {})
        self.at(MOMENTS[moment])

    def rows(self, first: int, last: int) -> Iterator[try_season.Child]:
        """Some of the children."""
        return iter(list(self.numbers.values())[first:last])

    def schools(self) -> None:
        """The words of flags, the schools, and what letters say of the office."""
        head = self.by(HEAD)
        words = {f"flag-{at}": it for at, it in try_season.FLAG_WORDS.items()}
        head.post("/flags/", {**words, "seen": field(head.get("/flags/").text, "seen")})
        head.upload("/schools/new/sheet", "sheet", "schools.csv",
                    try_season.schools_sheet())
        digest = field(head.get("/schools/new/").text, "digest")
        head.post("/schools/new/store", {"digest": digest})
        head.waited("/schools/new/?done=stored")
        seen = field(head.get("/letters/office/").text, "seen")
        head.post("/letters/office/", {"opening": "", "closing": "", **try_season.OFFICE,
                                       "seen": seen, "what": "save"})

    def file(self, name: str, rows: Iterator[dict[str, str]]) -> None:
        """A file of applications, which waits in the table."""
        self.by(OFFICER).upload("/applications/files", "files", name,
                                try_season.csv_of(try_season.COLUMNS, rows))

    def stored(self) -> None:
        """All of the table is stored in the register."""
        officer = self.by(OFFICER)
        digest = field(officer.get("/applications/commit/").text, "digest")
        officer.post("/applications/commit/", {"digest": digest})

    def applications(self) -> None:
        """Most of those that came in time are stored, and the others are in a file with faults."""
        self.at("2026-10-30T15:30:00")
        self.file("primary-schools.csv", (it.cells for it in self.rows(0, try_season.FIRST)))
        self.stored()
        self.at("2026-11-02T16:20:00")
        self.file("online-portal.csv", try_season.with_faults(
            self.rows(try_season.FIRST, try_season.IN_TIME)))

    def all_applications(self) -> None:
        """Those that came in time, those that came too late, and the plans that name a school."""
        self.at("2026-11-02T16:20:00")
        self.file("applications.csv", (it.cells for it in self.rows(0, try_season.IN_TIME)))
        self.stored()
        self.at("2027-01-20T11:00:00")
        late = self.rows(try_season.IN_TIME, try_season.CHILDREN)
        self.file("late.csv", (it.cells for it in late))
        self.stored()
        self.at("2027-02-12T14:30:00")
        named = zip(list(self.rows(0, try_season.IN_TIME))[::try_season.IN_TIME // 5], PLANS)
        self.pile("child,name,school,answer", [
            f"{it.number},{it.name},{code},plan" for it, code in named])

    def pile(self, titles: str, rows: list[str]) -> None:
        """Answers that are pasted, and recorded."""
        officer = self.by(OFFICER)
        officer.post("/answers/several", {"pasted": "\n".join([titles, *rows])})
        digest = field(officer.get("/answers/").text, "digest")
        officer.post("/answers/record", {"digest": digest})
        officer.waited("/answers/", "The batch is being recorded")

    def drawn(self, name: str, step: str) -> None:
        """A button of the draw, and what follows by itself."""
        who = self.by(name)
        page = who.waited("/draws/1").text
        given = {"seen": field(page, "seen"), "agreed": field(page, "agreed")}
        who.post(f"/draws/1/{step}", given)

    def round(self) -> None:
        """The round is begun, gets its lots, and is rehearsed."""
        self.at("2027-03-01T08:10:00")
        head, supervisor = self.by(HEAD), self.by(SUPERVISOR)
        head.get("/draws/")
        head.post("/draws/", {"kind": "round", "day": try_season.OFFER_DAY})
        self.drawn(HEAD, "close")
        pairs = supervisor.get("/lots/1/sheet.csv").data
        sheet = try_season.lots_sheet(pairs)
        found = supervisor.upload("/lots/1/sheet", "file", "lots.csv", sheet)
        page = supervisor.get(found.headers["Location"]).text
        supervisor.post("/lots/1/seal", {it: field(page, it) for it in ("seen", "digest")})

    def confirmed(self) -> None:
        """The second person confirms the round, and it is run."""
        self.at("2027-03-01T08:50:00")
        self.drawn(OFFICER, "second/confirm")
        self.drawn(HEAD, "send")

    def letters(self) -> None:
        """The letters of the round to all who took part, for the printer's file."""
        head = self.by(HEAD)
        page = head.get("/letters/whom?whom=part&value=1").text
        template = re.search(r'<option value="([0-9.]+)" selected', page)
        ticked = re.findall(r'name="child" value="([0-9]+)"[^>]* checked', page)
        found = head.post("/letters/make", {
            "whom": "part", "value": field(page, "value"), "key": field(page, "key"),
            "template": template[1] if template else "", "kind": "merge",
            "day_of_letters": "1 March 2027", "order": "number", "child": ticked,
            "others": field(page, "others")})
        page = head.waited(found.location).text
        head.get(f"{found.location}/file")
        head.post(f"{found.location}/record", {
            "count": field(page, "count"), "day": try_season.OFFER_DAY,
            "sure_of": try_season.OFFER_DAY})

    def answers(self) -> None:
        """What families answer, day by day."""
        register = self.app.extensions["office"].desk.now()
        offered = [(it, self.numbers[it].name) for it, place in sorted(register.places.items())
                   if place.kind == "offered"]
        for day, rows in zip(ANSWERED, try_season.answers(offered, len(ANSWERED))):
            if rows:
                self.at(f"2027-{day}T10:15:00")
                self.pile("child,name,answer", rows)


def begun(app: Any) -> dict[str, str]:
    """Adds the people, as the set-up of a machine does: their drawn passwords. To hash them costs
    little here: they open nothing but an invented season.
    """
    people = app.extensions["office"].people
    people.hasher = argon2.PasswordHasher(time_cost=1, memory_cost=8, parallelism=1)
    return {name: people.add(name, role) for name, (role, _) in PEOPLE.items()}
