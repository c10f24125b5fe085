"""What follows the rounds: figures for publication, a family's question, and the end of the season.
"""
import collections
import copy
import datetime
import hashlib
import json
import zipfile

from selenium.webdriver.common.keys import Keys

from . import allocation, town
from .letters import NAMES, file_of, in_words, plain, text_of
from .office import HAL, RITA, Before, Office

NTH = ("first", "second", "third", "fourth")
# what a count of so few children has in its place, and so has one from which it could be worked out
WITHHELD, LEAST = "[c]", 5
REASON, KEPT = "rule of retention 4.2", "the encrypted disk of the records office"
NOTICE = datetime.timedelta(days=30)


def outcome(before: Before) -> dict[int, str | None]:
    """What a round gave to whom, by the rules."""
    return copy.deepcopy(before.season).round(before.lots, before.day)


def is_shown(found: str, count: int) -> bool:
    """Whether a published count is right: the number, or withheld; a small one always is."""
    return found == WITHHELD or (found == str(count) and not 0 < count < LEAST)


def figures(office: Office) -> None:
    """The figures of the first round are made and taken, and a handful of them compared."""
    report, hal, before = office.report, office.people[HAL], office.before[1]
    report.step("figures of the first round")
    got = outcome(before)
    hal.open("/")
    hal.press("Figures")
    hal.pick("Round", "round 1", "round 1")
    hal.press_by_keys("Make the figures, and show them")
    hal.see(f"of {len(got)} children who took part")
    met = collections.Counter(
        f"{NTH[before.season.lists[child].index(code)]} preference" if code else "no place"
        for child, code in got.items())
    shown = {row[0]: row[1] for row in hal.captioned("Preferences that were met")}
    for name, count in met.items():
        report.see(is_shown(shown.get(name, ""), count), f"{name}: {shown}, and not {count}")
    report.see(WITHHELD != shown.get(met.most_common(1)[0][0]), f"all is withheld: {shown}")
    hal.press("Download the figures of round 1 for publication", is_new=False)
    path = file_of(office, HAL, "figures-*.html")
    hal.driver.get(path.as_uri())
    there = {row[1]: row for row in hal.captioned("Places, applications and offers")}
    for it in before.season.schools.values():
        row = there.get(it.code, [""] * 12)
        firsts = sum(before.season.lists[child][0] == it.code for child in got)
        offers = sum(code == it.code for code in got.values())
        report.see(row[2] == str(it.pan) and is_shown(row[4], firsts) and is_shown(row[9], offers),
                   f"the published figures of {it.code}: {row}, and not {it.pan} places, {firsts}"
                   f" first preferences and {offers} offers")
    page = path.read_text()
    report.see(not any(it.name in page for it in before.season.children.values()),
               "the published figures name a child")
    hal.open("/figures/")


def asks(office: Office) -> int:
    """The child whose family asks: it got its second preference in the first round, whose last
    child at its first one has no flag.
    """
    before, got = office.before[1], outcome(office.before[1])
    return next(it for it, code in got.items()
                if code == before.season.lists[it][1] and not is_private(before, it))


def last_of(before: Before, school: str) -> allocation.Rank:
    """The rank of the last child that a school took in a round."""
    return max(before.season.rank((school, it), before.lots)
               for it, code in outcome(before).items() if code == school)


def is_private(before: Before, child: int) -> bool:
    """Whether the distance of the last child of the first school of a child is withheld."""
    school = before.season.schools[before.season.lists[child][0]]
    number = last_of(before, school.code)[0]
    return number == 0 or (number <= len(school.criteria)
                           and school.criteria[number - 1].startswith("flag"))


def question(office: Office) -> None:
    """A family asks why its child did not get its first school, and what another list would have
    given it.
    """
    report, rita, before = office.report, office.people[RITA], office.before[1]
    child = asks(office)
    report.step(f"the family of child {child} asks why")
    season, it = before.season, before.season.children[child]
    first, second = season.lists[child][:2]
    rita.open(f"/children/{child}", "A child, for a family's question")
    row = next(one for one in rita.driver.find_elements("css selector", "#why li")
               if one.text.startswith("Round 1,"))
    rita.press(f"why not {NAMES[first]}", row)
    last, own = last_of(before, first), season.rank((first, child), before.lots)
    said = [f"Child {child} {it.name}", f"{NAMES[first]} ({first}), first preference: no place.",
            f"The school has {season.schools[first].pan} places.",
            "The last child admitted: ", f", {last[1]:,} metres",
            "Your child: ", f", {own[1]:,} metres"]
    for text in said[1:]:
        rita.see(text)
    rita.press("PDF, for the family", is_new=False)
    paper = plain(text_of(file_of(office, RITA, "why-*.pdf")))
    for text in said:
        report.see(plain(text) in paper, f"the explanation on paper has {text!r}: {paper}")
    others = [one.name for one in season.children.values() if one.number != child]
    report.see(not any(one in paper for one in others), "it names another child")
    rita.press("What if")
    other = copy.deepcopy(season)
    other.lists[child] = (first,)
    got = other.round(before.lots, before.day)[child]
    for at, _ in enumerate(season.lists[child][1:], 1):
        rita.pick(f"{NTH[at].capitalize()} preference", "no school", "no s")
    rita.press_by_keys("What would the child have got by this list?")
    rita.look("What another list would have given")
    meant = f"a place at {NAMES[got]} ({got}), the first preference" if got else "no place"
    rita.see(f"With the list {first}: {meant}.")
    rita.see(f"With the family’s own list, {', '.join(season.lists[child])}: a place at"
             f" {NAMES[second]} ({second}), the second preference.")


def archived(office: Office) -> None:
    """The last copy and the archive, which is taken, and the day of deletion."""
    report, jane, season = office.report, office.jane, office.season
    office.today(office.lists_end + datetime.timedelta(days=7))
    report.step("the last copy and the archive")
    jane.go("Office", "End of the season")
    shown = {row[0]: row[1] for row in jane.captioned("Still open")}
    waiting = sum(len(season.waiting(code)) for code in season.schools)
    vacant = sum(season.vacancies(code) for code in season.schools)
    said = f"{waiting} waiting, and {vacant} place{'s' * (vacant != 1)} vacant"
    if office.day <= office.lists_end:
        said += f"; the lists end on {in_words(office.lists_end)}"
    report.same(shown, {"Offers without an answer": f"{len(season.offers)} offers",
                        "Waiting lists": said}, "what is still open")
    jane.tab_to("I have read what is still open, and it may stay so")
    jane.key(Keys.SPACE)
    jane.press_by_keys("Make the last copy and the archive")
    jane.look("End of the season, with an archive")
    jane.tab_to("Where it will be kept")
    jane.type(KEPT)
    jane.key(Keys.ENTER)
    seen_archive(office)
    jane.reload()
    jane.see(f"Downloaded by {jane.who},")
    jane.see(f"kept at {KEPT}.")
    day = max(office.lists_end, office.day) + NOTICE
    jane.fill("Day of deletion", in_words(day))
    jane.tab_to("Reason")
    jane.type(REASON)
    jane.enter()
    jane.see(f"{in_words(day)}, set by {jane.who}. Reason: {REASON}")
    jane.see(f"From {in_words(day)} on two people can delete the season.")
    office.deletion = day


def seen_archive(office: Office) -> None:
    """The archive has the parts that it lists, with their digests, and the season of the rules."""
    report, season = office.report, office.season
    path = file_of(office, office.jane.who, "*.zip")
    with zipfile.ZipFile(path) as made:
        report.same(made.testzip(), None, "a part of the archive that cannot be read")
        lines = made.read("digests.txt").decode().splitlines()
        listed = {it[66:]: it[:64] for it in lines}
        report.same(sorted([*listed, "digests.txt", "start-here.html"]), sorted(made.namelist()),
                    "the parts of the archive")
        report.same({it: hashlib.sha256(made.read(it)).hexdigest() for it in listed}, listed,
                    "the digests of the parts")
        register = json.loads(made.read("register.json"))
    places = {it["child"]: it["place"]["school"] for it in register["children"] if it["place"]}
    report.same(places, dict(sorted(season.places.items())), "the places in the archive")
    needed = {"register.db", "lists.xlsx", "history.jsonl", "people.csv"}
    report.see(needed <= set(listed), f"the archive lacks {needed - set(listed)}")


def deleted(office: Office) -> None:
    """Two persons delete the season, once its day has come: only where the day can be set."""
    if not office.clock:
        return
    report, jane, hal = office.report, office.jane, office.people[HAL]
    name = jane.text("#register")
    office.today(office.deletion)
    report.step("the season is deleted by two persons")
    jane.reload()
    jane.fill("Name of the register", name)
    jane.enter()
    jane.see("You have asked for the deletion: somebody else confirms it.")
    hal.open("/")
    hal.press("End the season")
    hal.look("The deletion, to be confirmed")
    report.see(hal.has(f"Delete {name} for ever, with {len(town.children(office.season.closing))}"
                       " children"), f"the button of the deletion: {hal.main}")
    hal.fill("Name of the register", name)
    hal.enter()
    hal.see(f"The season {name} was deleted")
    hal.see(f"{jane.who} asked for it, and {hal.who} confirmed it.")
    hal.look("The record of a deletion")
