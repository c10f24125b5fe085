"""A register with offers in tests, and the batch of answers as a person works with it."""
from typing import Any

from applications import SCHOOLS, Browser, Site, child
from pages import Page, press

# 30 children, of whom each has an offer: those with an even number at B, the others at A
NAMES = {11: "Ada Abel", 12: "Ben Bell", 13: "Cyd <b>Cole</b>", 14: "Dai O'Dare", 15: "Ada Abbot",
         16: "=1+1"}
PAGE = "/answers/"


def offered() -> list[dict[str, Any]]:
    """A register in which children 11 to 40 have an offer, and 41 has none and no application."""
    schools = [{**it, "pan": 20} for it in SCHOOLS]
    numbers = range(11, 41)
    children = [child(it, NAMES.get(it, f"Child Number{it}"), it) for it in numbers]
    applied = [{"cmd": "apply", "child": it, "day": "2024-10-31",
                "preferences": ["A", "B"] if it % 2 else ["B", "A"]} for it in numbers]
    lots = [*range(1, 31), *range(1, 31)]
    return [*schools, *children, child(41, "Zoe Zander", 41), *applied,
            {"cmd": "round", "draw": 1, "day": "2025-03-03", "lots": lots}]


def enter(browser: Browser, *entries: str) -> Page:
    """Entries that are typed, each with Enter; the page after them."""
    browser.get(PAGE)
    for it in entries:
        found = browser.post(PAGE, {"entry": it})
        assert found.status_code == 303, Page(found.text).said()
    return shown(browser)


def shown(browser: Browser) -> Page:
    """The page of the pile."""
    return Page(browser.get(PAGE).text)


def pile(page: Page) -> list[list[str]]:
    """The rows of the batch, without what changes them; the last entry is the first."""
    name = next((it for it in page.tables if it.startswith("The batch:")), None)
    return [row[:6] for row in page.tables[name][1:]] if name else []


def record(browser: Browser, page: Page, button: str) -> Any:
    """Records a batch: its button, and the one below the question. What came of the second."""
    question = Page(press(browser, PAGE, page, button).text)
    confirm = next(it for it in question.buttons() if it.startswith(button))
    return press(browser, PAGE, question, confirm)


def sent(office: Site) -> list[dict[str, Any]]:
    """The commands that were sent, in their order."""
    return [it.about["command"] for it in office.parts.history.entries if it.what == "sends"]
