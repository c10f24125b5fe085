"""The begin of the season: people sign in, the schools, the words of flags, who may do what."""
from selenium.webdriver.common.by import By
from selenium.webdriver.common.keys import Keys

from . import town
from .hands import Hands
from .office import (
    ABBEY, ADMINISTRATOR, ANN, HAL, OFFICER, PROGRAM, READER, RITA, SUP, SUPERVISOR, Office,
)


def password_of(who: str) -> str:
    """The password that somebody chooses."""
    return f"the own password of {who}"


def sign_in(hands: Hands, drawn: str) -> None:
    """Signs in with a drawn password, and changes it, which is asked for at once."""
    hands.open("/")
    hands.type(hands.who)
    hands.key(Keys.TAB)
    hands.type(drawn)
    hands.enter()
    hands.report.same(hands.title, "Your password", f"what {hands.who} sees first")
    hands.fill("Present password", drawn)
    for label in ("New password", "New password again"):
        hands.fill(label, password_of(hands.who))
    hands.enter()


def first_sign_in(office: Office) -> None:
    """The head of the office signs in."""
    office.report.step("the head of the office signs in, and changes the password")
    jane = office.arrive(office.first[0])
    sign_in(jane, office.first[1])
    office.report.same(jane.tab, "Home", "the first screen of the head of the office")
    jane.see("a CSV with a row for each school")


def schools(office: Office) -> None:
    """The schools from an Excel file: shown whole by the question, and stored."""
    office.report.step("schools from an Excel file")
    jane, path, button = office.jane, office.folder / "schools.xlsx", (
        f"Store {len(town.SCHOOLS)} schools")
    town.write_schools(path)
    jane.choose("Sheet", path)
    office.report.same(jane.title, button, "the question about the schools")
    jane.look("Add schools, the question")
    question = jane.driver.current_url
    asked = [it.text for it in jane.driver.find_elements(By.CSS_SELECTOR, "#schools li")]
    jane.open("/schools/new/", "Add schools, a draft")
    lines = jane.captioned("Each line as it will be stored")
    for it in town.SCHOOLS:
        row = next((row for row in lines if row[0] == it.code), [""] * 6)
        office.report.same(row[:5], [it.code, it.name, str(it.pan), str(it.east), str(it.north)],
                           f"the line of {it.code} in the draft")
        office.report.see(all(one in row[5] for one in it.criteria),
                          f"the criteria of {it.code} in the draft: {row[5]}")
        said = next((one for one in asked if one.startswith(
            f"{it.code} {it.name}: admission number {it.pan}, east {it.east}, north {it.north}.")),
            "")
        office.report.see(said and all(f"{at}. {one}: " in said for at, one in enumerate(
            it.criteria, 1)), f"the question has {it.code} with its criteria: {asked}")
    jane.driver.get(question)
    for number, words in town.FLAG_WORDS.items():
        jane.fill(f"Words of reason {number}", words)
    jane.press(button)
    jane.see(f"{len(town.SCHOOLS)} schools are stored.")
    office.report.same(len(jane.rows("#outcomes")), len(town.SCHOOLS), "schools that were stored")


def flags(office: Office) -> None:
    """The words of flags, which were asked for with the schools, and the schools that use them."""
    office.report.step("words for flags")
    jane = office.jane
    jane.open("/flags/")
    for number, words in town.FLAG_WORDS.items():
        here = jane.field(f"Words of reason {number}").get_attribute("value")
        office.report.same(here, words, f"the words of flag {number}")
    rows = {row[0]: row[2] for row in jane.rows("table")}
    office.report.same(rows.get("2"), "A, FERN", "the schools with flag 2 among their criteria")


def added(office: Office, by: Hands, name: str, role: str) -> None:
    """Somebody is added, and then the name of the next one can be typed."""
    by.fill("Name or mail address, in small letters", name)
    by.pick("Role", role, role)
    if name == PROGRAM:
        by.pick("Who it is", "a program", "a pr")
    by.enter()
    by.see(f"{name} is added as {role}.")
    here = by.field("Name or mail address, in small letters")
    office.report.see(here == by.driver.switch_to.active_element,
                      f"the field of a name does not have the focus after {name}")
    office.drawn[name] = by.text("#secret")


def people(office: Office) -> None:
    """The head adds an administrator, who adds the others with their roles, and a program with a
    token, from the first screen on.
    """
    office.report.step("people are added, and sign in")
    office.jane.go("Office", "People")
    added(office, office.jane, ANN, ADMINISTRATOR)
    ann = office.arrive(ANN)
    sign_in(ann, office.drawn[ANN])
    office.report.same(ann.tab, "Home", "the first screen of the administrator")
    ann.look("The first screen of the administrator")
    roles = ((HAL, OFFICER), (SUP, SUPERVISOR), (RITA, READER), (ABBEY, "school-A"),
             (PROGRAM, READER))
    for name, role in roles:
        added(office, ann, name, role)
    ann.look("People, all of them")
    listed = {row[0]: row[1] for row in ann.captioned("Who may sign in")}
    for name, role in roles:
        shown = f"{name} (program)" if name == PROGRAM else name
        office.report.see(shown in listed, f"{name} is not in the list of people: {listed}")


def arrivals(office: Office) -> None:
    """Each signs in and sees what is theirs."""
    menus = {
        HAL: "Home Applications Children Schools Offers Reports Office", SUP: "Home Offers",
        RITA: "Home Children Schools Offers Reports Office", ABBEY: "Home Schools"}
    for who, menu in menus.items():
        hands = office.arrive(who)
        sign_in(hands, office.drawn[who])
        office.report.same(hands.tab, "Home", f"the first screen of {who}")
        office.report.same(hands.text("nav"), menu, f"the menu of {who}")
        hands.look(f"The first screen of {who}")
