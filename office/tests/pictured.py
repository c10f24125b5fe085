"""What the pictures of docs/pictures show: screens and a letter of an office whose season has had
its first round, on one day. `deploy/pictures` takes them; test_pictures compares what they show
with what the application shows now.

The town is that of deploy/checks/season: sixty children, of whom some have brothers and sisters at
a school, two are or were looked after, and some have a flag or a feeder school. Each of the two
schools that favour children of staff has a flag of its own for them, as the handbook asks. Three
more have applied too late for the round, and wait. The letters of the round were sent on its day.
Then late applications are added, of which some rows are wrong, and a fill is begun and brought to
its lots. Run as a program it prints the words of each picture as JSON.
"""
import contextlib
import dataclasses
import datetime
import html.parser
import json
import pathlib
import random
import re
import shutil
import subprocess
import sys
import tempfile
from collections.abc import Iterator, Sequence
from typing import Any

DAY = "2025-03-18"


class Day(datetime.date):
    """A day, of which one is today."""

    @classmethod
    def today(cls) -> "Day":
        """The day of the pictures."""
        return cls.fromisoformat(DAY)


setattr(datetime, "date", Day)
# (what is imported from here on takes the day from there)
from applications import Browser, Site  # noqa: E402
from conftest import PROGRAM, ROOT, apply, child, do, make  # noqa: E402
from draw_site import JANE, SUP  # noqa: E402
from explained import COPY, after_round  # noqa: E402
from letter_site import asked, hidden, made, typed  # noqa: E402

from office.core import days  # noqa: E402
from office.core.model import OFFERED, WAITS  # noqa: E402
from office.web.applications import commit as staging_commit  # noqa: E402
from office.web.applications import files as staging_files  # noqa: E402
from office.web.letters import audits as letters_audits  # noqa: E402
from office.web.letters import sets as letters_sets  # noqa: E402
from office.web.letters import whom as letters_whom  # noqa: E402
from office.web.rounds import lots as draws_lots  # noqa: E402
from office.web.rounds.drafts import Typed  # noqa: E402
from office.web.rounds.terms import CLOSED, COPIED, LOTS  # noqa: E402

sys.path.append(str(ROOT / "deploy"))
from checks.season import town  # noqa: E402

CLOSING, OFFER_DAY = datetime.date(2024, 10, 31), "2025-03-03"
# the flag of the town for children of staff, and what it is at another school than the first
STAFF, STAFF_OF = 2, {"FERN": 3}
FLAG_WORDS = {
    1: town.FLAG_WORDS[1], STAFF: f"{town.FLAG_WORDS[STAFF]} of Abbey School",
    3: f"{town.FLAG_WORDS[STAFF]} of Ysgol y Rhedyn",
}
START = "start"
# the foot of each page of a letter
FOOT = re.compile(r"Child [0-9]+ · page [0-9]+ of [0-9]+")
AUTHORITY = "Ashdown Council"
OFFICE = {
    "office": f"{AUTHORITY}, School Admissions", "address": "County Hall\nAshdown AS1 1AA",
    "telephone": "01632 960001", "email": "admissions@ashdown.example",
    "website": "www.ashdown.example", "signs": "Jane Head, Head of Admissions",
}
# the copies, of which the second is that from before the round: what each is for, who asked for it,
# and when
COPIES = (
    (staging_commit.PURPOSE, "jane", "2024-11-04T10:20:00+00:00"),
    ("before round 1", "jane", "2025-03-03T09:12:00+00:00"),
    ("after round 1", "jane", "2025-03-03T09:31:00+00:00"),
    ("before the EHC plans of March", "jane", "2025-03-10T10:02:00+00:00"),
)
# late applications, of which three rows have something wrong
LATE_FILE, LATE_ADDED = "late.csv", "2025-03-18T09:20:00+00:00"
LATE_ROWS = """child,name,east,north,looked_after,flags,siblings,day,preferences
151,Nia Howells,2210,1480,no,,,4/3/2025,A;DEAN
152,Tomos Reid,1900,820,no,,FERN,2025-03-06,FERN
153,Zara Malik,,1260,no,,,2025-03-06,BEECH;C
154,Evan Lloyd,2450,1930,no,,,2025-03-10,ELM;OAK
155,Ruth Adeyemi,1110,2080,yes,1,,2025-03-11,St Cuthbert’s
"""
# a fill at the first school: when each of its steps was done; and the lots that are typed, which
# the slips of a hat have given to the first group
STEPS = {0: "2025-03-18T09:40:00+00:00", 1: "2025-03-18T09:41:00+00:00",
         2: "2025-03-18T09:42:00+00:00", 3: "2025-03-18T09:42:00+00:00"}
HAT = ("3", "1", "2")
Commands = list[dict[str, Any]]
# who applied too late, each before others at the first school by another criterion
LATE: tuple[tuple[int, str, dict[str, Any]], ...] = (
    (141, "Ioan Pritchard", {"looked_after": True}), (142, "Megan Shah", {"siblings": ["A"]}),
    (143, "Owen Clarke", {"flags": [2]}),
)


def criteria_of(code: str, criteria: Sequence[str]) -> list[str]:
    """The criteria of a school of the town, with its own flag for children of its staff."""
    own = f"flag:{STAFF_OF.get(code, STAFF)}"
    return [own if it == f"flag:{STAFF}" else it for it in criteria]


def flags_of(flags: Sequence[int], listed: Sequence[str]) -> list[int]:
    """The flags of a child of the town: its parent works at one school, which it lists."""
    of_staff = next((flag for code, flag in STAFF_OF.items() if code in listed), STAFF)
    return [of_staff if it == STAFF else it for it in flags]


def applied() -> Commands:
    """The schools, the children and their applications, and a plan."""
    found: Commands = [
        {"cmd": "add_school", "school": it.code, "name": it.name, "pan": it.pan, "east": it.east,
         "north": it.north, "criteria": criteria_of(it.code, it.criteria)} for it in town.SCHOOLS]
    children = town.children(CLOSING)
    for it in children:
        found.append({
            "cmd": "add_child", "child": it.number, "name": it.name, "east": it.east,
            "north": it.north, "looked_after": it.looked_after,
            "flags": flags_of(it.flags, it.preferences),
            "siblings": list(it.siblings), "present": it.present})
        found.append(apply(it.number, list(it.preferences), it.day.isoformat()))
    for number, name, more in LATE:
        found.append(child(number, 10 * number, name, **{"north": 2500, **more}))
        found.append(apply(number, ["A", "DEAN"], "2025-02-10"))
    return [*found, {"cmd": "name_plan", "child": children[3].number, "school": "A"}]


def first_round(folder: pathlib.Path, before: Commands) -> dict[str, Any]:
    """The first round, with a lot for each pair."""
    make(folder / "drawn.db", before)
    pairs = subprocess.run([PROGRAM, "pairs", folder / "drawn.db"], check=True,
                           capture_output=True, text=True).stdout.count("\n")
    return {"cmd": "round", "draw": 1, "day": OFFER_DAY,
            "lots": random.Random("lots").sample(range(1, 1000), pairs)}


def answers(folder: pathlib.Path, draw: dict[str, Any]) -> Commands:
    """What families have answered: most accept, some decline, and some have not written."""
    do(folder / "drawn.db", [draw])
    shown = json.loads(subprocess.run([PROGRAM, "show", folder / "drawn.db"], check=True,
                                      capture_output=True, text=True).stdout)
    chance, found = random.Random("answers"), Commands()
    for it in shown["children"]:
        luck = chance.random()
        if it["place"] and it["place"]["kind"] == "offered" and luck < 0.75:
            found.append({"cmd": "accept" if luck < 0.65 else "decline", "child": it["child"],
                          "school": it["place"]["school"]})
    return found


@contextlib.contextmanager
def office_of(folder: pathlib.Path) -> Iterator[Site]:
    """The application on the day of the pictures."""
    before = applied()
    draw = first_round(folder, before)
    with after_round(folder, before, draw, *answers(folder, draw)) as office:
        office.parts.config = dataclasses.replace(office.parts.config, authority=AUTHORITY)
        # (the first screen says when colleagues did what)
        office.parts.history.moment = lambda: f"{DAY}T09:05:00+00:00"
        outcome = letters_audits.outcome_of(office.parts.desk.now(), 1)
        with office.parts.store.writing() as db:
            db.execute("INSERT INTO letter_audit VALUES (1, ?, 1, '', '', '')", (outcome,))
        typed(office.browser("jane", "head"), **OFFICE)
        office.browser("jane", "head").post(
            "/flags/", {**{f"flag-{at}": it for at, it in FLAG_WORDS.items()}, "seen": "{}"})
        letters_sent(office.browser("jane", "head"))
        yield office


def letters_sent(browser: Browser) -> None:
    """The letters of the round to all who took part: made, taken, and recorded as sent."""
    path = made(browser, asked(browser, letters_whom.PART, "1", kind=letters_sets.MERGE))
    assert browser.get(f"{path}/file").status_code == 200
    found = browser.post(f"{path}/record", {
        "count": hidden(browser.get(path), "count"), "day": OFFER_DAY, "sure_of": OFFER_DAY})
    assert found.status_code == 303, found.text


def waits(office: Site) -> int:
    """A child with an offer that nobody has answered, and which waits at most schools."""
    register = office.parts.desk.now()
    found = [it for it, place in register.places.items() if place.kind == OFFERED]
    return max(found, key=lambda it: (
        len([*register.applications[it].in_state(WAITS)]), -it))


@dataclasses.dataclass(frozen=True)
class Picture:
    """A picture of a screen: its name, the address, who sees it, and the element that it shows:
    one has the whole page with its menu.
    """

    name: str
    path: str
    person: str = JANE.name
    part: str = "main"


def pictures(office: Site) -> Iterator[Picture]:
    """The pictures of screens. Each shows what was recorded until then, and what the next ones need
    is recorded after it.
    """
    one = waits(office)
    yield Picture(START, "/", part="body")
    yield Picture("child", f"/children/{one}")
    yield Picture("waiting-list", "/schools/A/waiting")
    yield Picture("worklist", f"/notices/remind?day={DAY}")
    yield Picture("amend", f"/children/{one}/correct")
    yield Picture("question", f"/children/{one}/decline")
    yield Picture("why", f"/children/{one}/why/1/family")
    yield Picture("figures", figures_made(office))
    copied(office)
    yield Picture("copies", "/copies/")
    late_added(office)
    yield Picture("applications", "/applications/")
    number = fill_begun(office)
    yield Picture("draw", f"/draws/{number}")
    lots_given(office, number)
    yield Picture("lots", f"/lots/{number}?page=1", SUP.name)


def figures_made(office: Site) -> str:
    """The address of the figures of the round, as they are published."""
    found = office.browser("jane", "head").post("/figures/", {"round": "1"})
    assert found.status_code == 303, found.text
    return f"{found.headers['Location']}/page"


def copied(office: Site) -> None:
    """The copies that the office has: one from before the applications were stored, then that from
    before the round, and later ones.
    """
    folder = office.parts.copies.folder
    with office.parts.store.writing() as db:
        for at, (purpose, who, asked_at) in enumerate(COPIES, 1):
            name = COPY.replace("000001", f"{at:06}")
            if at > 1:
                shutil.copy(folder / COPY, folder / name)
            db.execute("INSERT INTO copy (number, purpose, asked, name, size, who) VALUES"
                       " (?, ?, ?, ?, 81920, ?) ON CONFLICT (number) DO UPDATE SET"
                       " purpose=excluded.purpose, asked=excluded.asked, size=excluded.size,"
                       " who=excluded.who",
                       (at, purpose, asked_at, name, who))
        db.execute("UPDATE draw SET copy_before=2")


def late_added(office: Site) -> None:
    """Applications that came too late, in a file that somebody has added."""
    data = LATE_ROWS.encode()
    office.app.extensions["staging"].staging.add_file(
        JANE.name, LATE_FILE, data, False, staging_files.read(LATE_FILE, data, ""))
    with office.parts.store.writing() as db:
        db.execute("UPDATE staged_file SET added=?", (LATE_ADDED,))
        db.execute("UPDATE staged_row SET added=?, changed=?", (LATE_ADDED, LATE_ADDED))


def fill_begun(office: Site) -> int:
    """A fill of the day at the first school, which is begun and has closed nothing."""
    number = office.parts.draws.begin(JANE, "A", 1, Day.today())
    with office.parts.store.writing() as db:
        db.execute("UPDATE draw_step SET at=? WHERE draw=?", (STEPS[0], number))
    return number


def lots_given(office: Site, number: int) -> None:
    """The same when its pairs are with the supervisor, who has typed the lots of the first group.
    """
    register, draw = office.parts.desk.now(), office.parts.draws.get(number)
    pairs = draw.terms.pairs_in(register)
    ties = draws_lots.ties_in(register, pairs)
    with office.parts.store.writing() as db:
        for at, state in enumerate((CLOSED, COPIED, LOTS), 1):
            db.execute("INSERT INTO draw_step VALUES (?, ?, ?, ?, ?, '')",
                       (number, draw.version + at, STEPS[at], JANE.name, state))
        db.execute("UPDATE draw SET state=?, version=? WHERE id=?",
                   (LOTS, draw.version + 3, number))
        db.executemany("INSERT INTO lot VALUES (?, ?, ?, 0, '', NULL, ?)",
                       [(number, *it, ties[it]) for it in pairs])
    first = [it for it in pairs if ties[it] == 1]
    assert len(first) == len(HAT), first
    office.parts.lots.save(SUP, number, {(it, 0): Typed("", lot) for it, lot in zip(first, HAT)})


def letter(office: Site) -> bytes:
    """The letter of that child, as PDF."""
    browser = office.browser("jane", "head")
    form = asked(browser, "offers", "1", child=[str(waits(office))],
                 day_of_letters=days.in_words(datetime.date.fromisoformat(OFFER_DAY)))
    found = browser.get(f"{made(browser, form)}/file")
    data: bytes = found.data
    return data


class Seen(html.parser.HTMLParser):
    """What is seen of a part of a page: its words, and what its fields have, without its charts."""

    def __init__(self, page: str, part: str) -> None:
        super().__init__()
        self.words: list[str] = []
        self.hidden = ""
        self.feed(page[page.index(f"<{part}"):page.index(f"</{part}>")])

    def handle_starttag(self, tag: str, attrs: list[tuple[str, str | None]]) -> None:
        """Takes what a field has, and passes over what is not shown."""
        found = dict(attrs)
        if self.hidden:
            return
        if tag in ("script", "style", "svg"):
            self.hidden = tag
        elif tag == "input" and found.get("type", "text") not in ("hidden", "checkbox"):
            self.words += (found.get("value") or "").split()

    def handle_endtag(self, tag: str) -> None:
        """Ends what is not shown."""
        if tag == self.hidden:
            self.hidden = ""

    def handle_data(self, data: str) -> None:
        """Takes words."""
        if not self.hidden:
            self.words += data.split()


def seen(browser: Browser, path: str, part: str) -> str:
    """The words of a part of a screen."""
    found = browser.get(path)
    assert found.status_code == 200, (path, found.status_code)
    return " ".join(Seen(found.text, part).words)


def text_of(pdf: bytes) -> str:
    """The words of a letter, but for the foot of each page: where a page ends differs between the
    versions of a library.
    """
    ran = subprocess.run(["pdftotext", "-", "-"], input=pdf, capture_output=True, check=True)
    return " ".join(FOOT.sub("", ran.stdout.decode("utf-8")).split())


def words_of(office: Site, it: Picture) -> str:
    """The words of a picture of a screen."""
    roles = {JANE.name: "head", SUP.name: SUP.role}
    return seen(office.browser(it.person, roles[it.person]), it.path, it.part)


def main() -> None:
    """Prints the words of all pictures."""
    with tempfile.TemporaryDirectory() as folder, office_of(pathlib.Path(folder)) as office:
        words = {it.name: words_of(office, it) for it in pictures(office)}
        print(json.dumps({**words, "letter": text_of(letter(office))}))


if __name__ == "__main__":
    main()
