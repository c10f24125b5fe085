"""A round, or fills at one school in one closure: closed, copied, lots drawn and sealed, rehearsed,
confirmed by a second person, run, audited and opened.
"""
import copy
import dataclasses
import datetime
import hashlib
import random
from collections.abc import Sequence

from selenium.webdriver.common.by import By
from selenium.webdriver.common.keys import Keys

from . import town
from .allocation import Pair, lot_of_seed
from .hands import Hands
from .office import HAL, SUP, Before, Office
from .report import until

AGREED = "I have read what looks wrong above, and it is right"


@dataclasses.dataclass(frozen=True)
class Draw:
    """A draw: its first number; its day; the seed of the lots that decide nothing; the school and
    the number of fills, or a round; and whether the other lots come in an Excel file.
    """

    first: int
    day: datetime.date
    seed: str
    school: str = ""
    fills: int = 1
    is_workbook: bool = False
    # the number of the round, if it is one
    round: int = 1
    # the day of the office when the draw is run, if its own is wrong
    office_day: datetime.date | None = None

    @property
    def sealed(self) -> str:
        """How the text names it that is sealed."""
        last = self.first + self.fills - 1
        numbers = f"draws {self.first} to {last}" if self.fills > 1 else f"draw {self.first}"
        fills = f"{self.fills} fills" if self.fills > 1 else "1 fill"
        return f"{numbers}: {f'{fills} at {self.school}' if self.school else 'a round'}"

    @property
    def name(self) -> str:
        """How the screens name it: by the number of the round, or by its places."""
        if not self.school:
            return f"round {self.round}"
        school = next(it.name for it in town.SCHOOLS if it.code == self.school)
        places = f"{self.fills} places" if self.fills > 1 else "1 place"
        return f"the offer of {places} at {school}"

    @property
    def heading(self) -> str:
        """The same as the heading of its screen."""
        text = self.name.removeprefix("the ")
        return text[0].upper() + text[1:]


# the lots of each pair, one for each draw of the row
Lots = dict[Pair, list[int]]


def held(office: Office, draw: Draw) -> Lots:
    """A draw from its begin to its end, compared with the rules; returns its lots."""
    office.today(draw.office_day or draw.day)
    office.report.step(f"{draw.name}: begun, closed and copied")
    pairs = office.season.waiting(draw.school) if draw.school else office.season.pairs()
    lots = lots_of(office, draw, pairs)
    begun(office, draw)
    closed(office, draw, len(pairs))
    office.report.step(f"{draw.name}: lots")
    drawn(office, draw, pairs, lots)
    ended(office, draw, lots)
    return lots


def held_again(office: Office, draw: Draw, lots: Lots) -> None:
    """The same of a draw that a restore has undone, from the page of the restore: its lots stay as
    they were sealed, and the supervisor seals them for the right day.
    """
    jane, sup = office.jane, office.people[SUP]
    office.report.step(f"{draw.name}: run again on {draw.day}")
    jane.type_day("Day", draw.day)
    jane.enter()
    office.report.same(jane.title, draw.heading, "the heading of the draw that is run again")
    closed(office, draw, len(lots))
    at_lots(sup, draw)
    sup.see(f"{len(lots)} lots were sealed for {draw.name} before it was undone, and stay as they"
            " are.")
    sealed(office, draw, lots)
    ended(office, draw, lots)


def ended(office: Office, draw: Draw, lots: Lots) -> None:
    """A draw whose lots are sealed, to its end."""
    office.report.step(f"{draw.name}: rehearsed and confirmed")
    if not draw.school:
        office.before[draw.first] = Before(
            copy.deepcopy(office.season), {pair: it[0] for pair, it in lots.items()}, draw.day)
    rehearsed(office, draw, lots)
    office.report.step(f"{draw.name}: run, audited and opened")
    sent(office, draw)
    office.compare(draw.name)
    for at in range(draw.fills):
        document = office.read(f"/draw/{draw.first + at}")
        kept = {(it["school"], it["child"]): it["lot"] for it in document["lots"]}
        wanted = {pair: lots[pair][at] for pair in lots if pair in kept}
        office.report.same(kept, wanted, f"the lots of draw {draw.first + at}")


def lots_of(office: Office, draw: Draw, pairs: Sequence[Pair]) -> Lots:
    """The lots: those that decide are drawn by the supervisor, the others by the seed."""
    urn = random.Random(draw.first)
    tied = {pair for group in office.season.ties(pairs) for pair in group}
    found: Lots = {}
    for pair in pairs:
        for at in range(draw.fills):
            found.setdefault(pair, []).append(
                urn.randrange(1 << 32) if pair in tied
                else lot_of_seed(draw.seed, draw.first + at, pair))
    return found


def begun(office: Office, draw: Draw) -> None:
    """The head of the office begins it."""
    jane = office.jane
    jane.go("Offers", "Rounds")
    if draw.school:
        jane.pick("What begins", "places", "places")
    jane.type_day("Day", draw.day)
    if draw.school:
        jane.pick("School, for places from its waiting list", f"{draw.school} ", f"{draw.school} ")
        jane.fill("How many places there", str(draw.fills))
    jane.enter()
    office.report.same(jane.title, draw.heading, "the heading of the draw")


def closed(office: Office, draw: Draw, pairs: int) -> None:
    """Recording is paused, copied, and its pairs are given to the supervisor."""
    report, jane = office.report, office.jane
    checks = jane.text("#checks")
    report.see(f"{pairs:,} lots" in checks, f"lots: {checks}")
    if jane.has(AGREED):
        jane.press(AGREED, is_new=False)
        office.ticks += 1
    jane.press("Pause recording for everyone")
    rested(jane)
    report.same(jane.facts().get("State"), "paused, and the supervisor draws the lots",
                f"the state of {draw.name}")
    jane.look("A draw that waits for lots")
    hal = office.people[HAL]
    hal.open("/")
    said = f"Recording is paused for {draw.name} by {jane.who}"
    report.see(hal.text("#closed").startswith(said),
               f"the officer sees that it is closed: {hal.text('#closed')!r}")


def drawn(office: Office, draw: Draw, pairs: Sequence[Pair], lots: Lots) -> None:
    """The supervisor draws those that decide, the seed the others, and all are sealed."""
    sup = office.people[SUP]
    tied = [pair for group in office.season.ties(pairs) for pair in group]
    at_lots(sup, draw)
    sup.see(f"{len(pairs)} lots, one for each child at each school of its list. {len(tied)} ")
    if draw.is_workbook:
        by_workbook(office, sup, draw, {pair: lots[pair][0] for pair in tied})
    elif tied:
        by_keys(sup, draw, tied, lots)
    others = (len(pairs) - len(tied)) * draw.fills
    sup.fill("Seed", draw.seed)
    sup.enter()
    sup.see(f"{others} lots are drawn by the seed.")
    sealed(office, draw, lots)


def at_lots(sup: Hands, draw: Draw) -> None:
    """The supervisor finds the lots that are to be drawn on the first screen."""
    sup.open("/", f"The first screen of the supervisor, {'fills' if draw.school else 'a round'}")
    sup.report.same(sup.text("#lots-title"), f"Lots of {draw.name}", "what the supervisor sees")


def sealed(office: Office, draw: Draw, lots: Lots) -> None:
    """The supervisor seals all lots, of which the screen shows the digest."""
    report, sup = office.report, office.people[SUP]
    sup.look("All lots, to be sealed")
    digest = hashlib.sha256(sealed_text(draw, lots).encode()).hexdigest()
    report.same(sup.text("#digest"), digest, "the digest of the lots")
    sup.press(f"Seal the lots of {draw.name}")
    sup.see(f"Sealed by {sup.who}")


def by_workbook(office: Office, sup: Hands, draw: Draw, lots: dict[Pair, int]) -> None:
    """The sheet of the screen is filled in a spreadsheet, and taken."""
    sup.press("an Excel file", is_new=False)
    path = office.downloads(SUP) / f"lots-{draw.first}.xlsx"
    until(path.exists, "the sheet of lots")
    office.report.same(town.fill_lots(path, lots), len(lots), "pairs of the sheet with a lot")
    sup.choose("File (.xlsx or .csv)", path)
    sup.see(f"The file has {len(lots)} lots: {len(lots)} new or changed.")


def by_keys(sup: Hands, draw: Draw, tied: Sequence[Pair], lots: Lots) -> None:
    """The lots are typed in the table, and saved by Enter. One that is wrong is marked once its
    field is left.
    """
    first = label_of(draw, 0, tied[0])
    sup.tab_to(first)
    sup.type("x")
    sup.key(Keys.TAB)
    until(lambda: sup.field(first).get_attribute("aria-invalid") == "true",
          "a wrong lot is marked")
    sup.key(Keys.SHIFT, Keys.TAB)
    sup.replace(str(lots[tied[0]][0]))
    sup.key(Keys.TAB)
    until(lambda: sup.field(first).get_attribute("aria-invalid") is None,
          "and one that is right is not")
    sup.key(Keys.SHIFT, Keys.TAB)
    for pair in tied:
        for at in range(draw.fills):
            sup.tab_to(label_of(draw, at, pair))
            sup.type(str(lots[pair][at]))
    sup.enter()
    # (each was saved when its field was left)
    sup.see("What is on this page is saved.")


def label_of(draw: Draw, at: int, pair: Pair) -> str:
    """The label of the field of a lot: of several draws it names the one."""
    of = f" of draw {draw.first + at}" if draw.fills > 1 else ""
    return f"Lot{of} {pair[0]} {pair[1]}"


def sealed_text(draw: Draw, lots: Lots) -> str:
    """The text whose digest is the seal, as the screen describes it."""
    lines = [f"{draw.sealed}, {draw.day.isoformat()}"]
    lines += [" ".join(map(str, [*pair, *lots[pair]])) for pair in sorted(lots)]
    return "".join(f"{it}\n" for it in lines)


def rehearsed(office: Office, draw: Draw, lots: Lots) -> None:
    """The rehearsal has followed the seal: its outcome must be that of the rules. A second person
    confirms it.
    """
    report, jane, hal, season = office.report, office.jane, office.people[HAL], office.season
    before = dict(season.places)
    jane.reload()
    rested(jane)
    jane.look(f"{'Fills' if draw.school else 'A round'}, rehearsed")
    got: list[tuple[int, int, str | None]] = []
    if draw.school:
        for at in range(draw.fills):
            there = season.waiting(draw.school)
            first = season.fill(draw.school, {pair: lots[pair][at] for pair in there}, draw.day)
            got.append((draw.first + at, first, draw.school))
    else:
        outcome = season.round({pair: it[0] for pair, it in lots.items()}, draw.day)
        got = [(draw.first, child, school) for child, school in outcome.items()]
    shown = sorted(it for row in all_children(jane) if (it := came(draw, row)))
    wanted = sorted((number, child, before.get(child, "none"), school or "none")
                    for number, child, school in got)
    report.same(shown, wanted, f"the outcome of the rehearsal of {draw.name}")
    hal.open("/", "The first screen, with a decision")
    office.report.see("A second person has to confirm it." in hal.text(".closed"),
                      f"hal is not told whose turn it is: {hal.text('.closed')}")
    decided = hal.text("#next")
    for said in ("works out the same", "since the applications were added", "Two people are",
                 f"Confirming gives no place yet: {draw.name} is run next, by"):
        report.see(said in decided, f"before the button to confirm: {said!r} in {decided}")
    hal.press(f"Confirm {draw.name}")


def all_children(who: Hands) -> list[list[str]]:
    """The rows of the children of a draw, of all its pages."""
    if found := who.driver.find_elements(By.LINK_TEXT, "All rows on one page, to print"):
        who.driver.get(found[0].get_attribute("href") or "")
    return who.captioned("By child")


def came(draw: Draw, row: list[str]) -> tuple[int, int, str, str] | None:
    """The draw, the child, what it had and what it has, of a row of the outcome; None of a child
    that was late.
    """
    number = int(row[2]) if draw.fills > 1 else draw.first
    had, has, what = ["none", *row[2:4]] if draw.first == 1 else row[-4:-1]
    return None if what.startswith("late") else (number, int(row[1]), had, has)


def rested(who: Hands) -> None:
    """Waits for the end of what runs, as its page says, which looks again by itself."""
    until(lambda: "It goes on when you leave this page" not in who.main, "nothing runs any more")


def sent(office: Office, draw: Draw) -> None:
    """It is run, and the audit that agrees opens the register for all."""
    report, jane = office.report, office.jane
    jane.reload()
    jane.press(f"Run {draw.name}")
    rested(jane)
    jane.see("The audit agrees, and everybody can record again.")
    jane.see("The outcome is that of the rehearsal, and the second program has worked out the"
             " same.")
    jane.look("A draw that was opened")
    report.same(jane.facts().get("State"), "complete: recording goes on",
                f"the state of {draw.name}")
