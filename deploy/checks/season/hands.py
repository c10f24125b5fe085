"""A person at a browser. What they press and type is counted, and each screen that they see is
looked at: its width on a small screen, and what the browser's console says.

A click is a press of a button or of a link, by mouse or by key, or of a box or of a file field by
mouse; a click into a field, to type there, is counted apart. A key is each key that is pressed,
also Enter in a field, which sends its form.
"""
import base64
import contextlib
import datetime
import pathlib
import re
import time
from collections.abc import Iterator

from selenium.webdriver.common.action_chains import ActionChains
from selenium.webdriver.common.by import By
from selenium.webdriver.common.keys import Keys
from selenium.webdriver.remote.webdriver import WebDriver
from selenium.webdriver.remote.webelement import WebElement

from . import screens
from .report import Report, Stopped, until

# the window; what is left of it at 200 percent, and the narrowest one in which all can be read
WIDTH, HEIGHT, TWICE, SMALL = 1280, 900, 640, 320
# screens with more controls are not gone through by Tab
MOST_STOPS = 60
# no screen needs so many steps by Tab to one of its fields
MOST_TABS = 400
# what the console says of a page that asks once more before it does what was asked
ASKED = "Failed to load resource: the server responded with a status of 409"
PLAIN = """
const plain = (text) => (text ?? "").replace(/\\s+/g, " ").trim();
const named = (ids) => ids.split(" ").map((it) => document.getElementById(it)?.textContent);
const of = (it) => it.getAttribute("aria-label")
  ?? (it.hasAttribute("aria-labelledby") ? named(it.getAttribute("aria-labelledby")).join(" ")
    : it.labels?.length ? it.labels[0].textContent : it.textContent);
"""
# the label of the field that has the focus
FOCUSED = PLAIN + "return plain(of(document.activeElement));"
# what can be pressed, that is shown, with a text
PRESSED = PLAIN + """
const [text, within] = arguments;
const found = (within ?? document).querySelectorAll("button, a, summary, input[type=checkbox]");
const said = (it) => plain(it.type === "checkbox" ? of(it) : it.textContent);
return [...found].filter((it) => said(it) === text && it.getClientRects().length > 0);
"""
FIELDS = PLAIN + """
const found = document.querySelectorAll("input, select, textarea");
return [...found].filter((it) => plain(of(it)) === arguments[0]);
"""


class Hands:
    """A person at a browser of their own."""

    def __init__(self, driver: WebDriver, who: str, base: str, report: Report,
                 pictures: pathlib.Path | None) -> None:
        self.driver, self.who, self.base = driver, who, base
        self.report, self.pictures = report, pictures
        self.width = 0
        self.resize(WIDTH, HEIGHT)

    # what is seen

    def text(self, selector: str) -> str:
        """The text of the first element of a selector, on one line; "" where there is none."""
        found = self.driver.find_elements(By.CSS_SELECTOR, selector)
        return " ".join(found[0].text.split()) if found else ""

    @property
    def title(self) -> str:
        """The heading of the screen."""
        return self.text("h1")

    @property
    def tab(self) -> str:
        """What the browser calls the screen."""
        return str(self.driver.title).partition(" – ")[0]

    @property
    def main(self) -> str:
        """All text of the screen."""
        return self.text("main")

    def see(self, text: str, name: str = "") -> None:
        """The screen must have a text."""
        self.report.see(text in self.main, f"{self.who} at '{self.title}' does not see"
                        f" {text!r}{f' ({name})' if name else ''}: {self.main[:600]}")

    def rows(self, selector: str) -> list[list[str]]:
        """The texts of the cells of a table's body."""
        found: list[list[str]] = self.driver.execute_script(
            PLAIN + "return [...document.querySelectorAll(arguments[0] + ' tbody tr')].map("
            "(row) => [...row.cells].map((it) => plain(it.textContent)));", selector)
        return found

    def captioned(self, caption: str) -> list[list[str]]:
        """The texts of the table whose caption begins so."""
        self.driver.execute_script(
            PLAIN + "document.querySelectorAll('table').forEach((it) => it.toggleAttribute("
            "'data-seen', plain(it.caption?.textContent).startsWith(arguments[0])));", caption)
        return self.rows("table[data-seen]")

    def facts(self) -> dict[str, str]:
        """What lists of names and values say."""
        found = self.driver.execute_script(
            PLAIN + "return [...document.querySelectorAll('.summary > div')].map((it) =>"
            "[plain(it.children[0].textContent), plain(it.children[1].textContent)]);")
        return dict(found)

    def history(self) -> list[tuple[str, str, str]]:
        """What was done, the last first: what, what is said of it, and when and by whom."""
        found = self.driver.execute_script(
            PLAIN + "return [...document.querySelectorAll('.history > li')].map((it) => {"
            "const said = [...it.children].map((one) => plain(one.textContent));"
            "return [said[0], said.slice(1, -1).join(' '), said.at(-1)]; });")
        return [(what, more, by) for what, more, by in found]

    def has(self, text: str) -> bool:
        """Whether there is something to press with a text."""
        return bool(self.driver.execute_script(PRESSED, text, None))

    # what is pressed

    def press(self, text: str, within: WebElement | None = None, is_new: bool = True) -> None:
        """Clicks what has a text. Another page follows, if not said otherwise."""
        found = self.driver.execute_script(PRESSED, text, within)
        if not found:
            raise Stopped(f"{self.who} at '{self.title}' finds nothing to press with {text!r}:"
                          f" {self.main[:1500]}")
        self.report.counts.clicks += 1
        with self.new_page(text) if is_new else contextlib.nullcontext():
            found[0].click()

    def go(self, group: str, screen: str) -> None:
        """Goes to a screen of the menu, by its group if the page does not lead to it."""
        if not self.has(screen):
            self.press(group)
        if self.title != screen:
            self.press(screen)

    def into(self, element: WebElement) -> None:
        """Clicks into a field, to type there."""
        self.report.counts.fields += 1
        element.click()

    def choose(self, label: str, path: pathlib.Path) -> None:
        """Chooses a file in a field, from which another page follows."""
        self.report.counts.clicks += 1
        with self.new_page(label):
            self.field(label).send_keys(str(path))

    def field(self, label: str) -> WebElement:
        """The field with a label."""
        found = self.driver.execute_script(FIELDS, label)
        if not found:
            raise Stopped(f"{self.who} at '{self.title}' finds no field {label!r}")
        it: WebElement = found[0]
        return it

    def tab_to(self, label: str) -> None:
        """Goes to the field with a label by Tab."""
        self.field(label)
        for _ in range(MOST_TABS):
            if self.driver.execute_script(FOCUSED) == label:
                return
            self.key(Keys.TAB)
        raise Stopped(f"{self.who} at '{self.title}' does not come to {label!r} by Tab")

    def press_by_keys(self, text: str, *held: str) -> None:
        """Goes to a button by Tab, or back by it where Shift is held, and presses it by Enter, from
        which another page follows.
        """
        for _ in range(MOST_TABS):
            self.key(*held, Keys.TAB)
            if self.driver.execute_script(FOCUSED) == text:
                self.report.counts.clicks += 1
                return self.enter()
        raise Stopped(f"{self.who} at '{self.title}' does not come to {text!r} by Tab")

    def key(self, *keys: str) -> None:
        """Presses a key; the others before it are held meanwhile."""
        self.report.counts.keys += 1
        actions = ActionChains(self.driver)
        for it in keys[:-1]:
            actions.key_down(it)
        actions.send_keys(keys[-1])
        for it in keys[:-1]:
            actions.key_up(it)
        actions.perform()

    def type(self, text: str) -> None:
        """Types a text."""
        self.report.counts.keys += len(text)
        ActionChains(self.driver).send_keys(text).perform()

    def replace(self, text: str) -> None:
        """Types a text in place of what a field has."""
        self.key(Keys.CONTROL, "a")
        if text:
            self.type(text)
        else:
            self.key(Keys.DELETE)

    def fill(self, label: str, text: str) -> None:
        """Goes to a field by Tab, and types a text in place of what it has."""
        self.tab_to(label)
        self.replace(text)

    def pick(self, label: str, text: str, begin: str) -> None:
        """Goes to a menu by Tab, and chooses what begins with what is typed."""
        self.tab_to(label)
        self.type(begin)
        chosen = self.driver.execute_script(
            "return arguments[0].selectedOptions[0]?.textContent", self.field(label))
        if not str(chosen).startswith(text):
            raise Stopped(f"{begin!r} chooses {chosen!r} of {label}, and not {text!r}")

    def type_day(self, label: str, day: datetime.date) -> None:
        """Goes to a field of a day by Tab, and types the day, if it is not there already."""
        self.tab_to(label)
        wanted = f"{day.day} {day:%B} {day.year}"
        if self.field(label).get_attribute("value") != wanted:
            self.replace(wanted)

    def enter(self) -> None:
        """Presses Enter, from which another page follows."""
        with self.new_page("Enter"):
            self.key(Keys.ENTER)

    # pages

    def open(self, path: str, name: str = "") -> None:
        """Types an address of the site."""
        self.driver.get(self.base + path)
        self.look(name)

    def reload(self) -> None:
        """Loads the page again, by F5."""
        self.report.counts.keys += 1
        self.driver.refresh()
        self.look()

    @contextlib.contextmanager
    def new_page(self, name: str) -> Iterator[None]:
        """Waits for another page, and looks at it."""
        mark = f"{time.monotonic_ns()}"
        self.driver.execute_script("document.documentElement.dataset.mark = arguments[0]", mark)
        yield
        until(lambda: self.driver.execute_script(
            "return document.documentElement.dataset.mark !== arguments[0] &&"
            " document.readyState === 'complete'", mark), f"a page after {name!r}")
        # (one that says how far something is goes on until that is done)
        until(lambda: self.driver.execute_script(
            "return document.readyState === 'complete' &&"
            " !document.querySelector('meta[http-equiv=refresh], [data-running]')"),
            f"the end after {name!r}")
        self.look()

    def resize(self, width: int, height: int) -> None:
        """Sets the size of the window."""
        self.width = width
        self.driver.execute_cdp_cmd("Emulation.setDeviceMetricsOverride", {
            "width": width, "height": height, "deviceScaleFactor": 1, "mobile": False})

    def look(self, name: str = "") -> None:
        """Looks at the screen: the console, and once of each screen its width and its picture. A
        name is given to a screen that has much to show, or no heading.
        """
        asked = f"{self.driver.current_url} - {ASKED}"
        for it in self.driver.get_log("browser"):
            is_bad = it["level"] == "SEVERE" or it.get("source") == "security"
            is_bad = is_bad and not it["message"].startswith(asked)
            if is_bad or "Autofocus" in it["message"]:
                self.report.see(False, f"the console of {self.who} at '{self.title}':"
                                f" {it['message']}")
        self.report.see(name or self.title, f"no heading at {self.driver.current_url}")
        name = name or re.sub(r"[0-9]+", "N", self.title)
        if name in self.report.screens:
            return
        self.report.screens.add(name)
        self.picture(name)
        self.see_structure(name)
        for width in (TWICE, SMALL):
            self.resize(width, HEIGHT)
            wrong = [*self.driver.execute_script(screens.TOO_WIDE),
                     *self.driver.execute_script(screens.TARGETS)]
            for it in wrong or [""]:
                self.report.see(not it, f"'{name}' at {width} pixels: {it}")
        self.picture(name, "-small")
        self.resize(WIDTH, HEIGHT)
        self.see_stops(name)

    def see_structure(self, name: str) -> None:
        """Looks at what a screen reader gets, at the contrast in both schemes, and at paper."""
        found = [*self.driver.execute_script(screens.STRUCTURE),
                 *self.driver.execute_script(screens.TARGETS)]
        for scheme in ("dark", "light"):
            self.emulate("", scheme)
            _, faint = self.driver.execute_script(f"return {screens.CONTRAST};")
            found += [f"faint in {scheme}: {text} {ratio}" for text, ratio in faint[:5]]
        # (what is not on paper loses the focus where a page is shown as paper)
        before = self.driver.switch_to.active_element
        self.emulate("print", "light")
        found += [f"on paper: {it}" for it in self.driver.execute_script(screens.PRESSABLE)]
        self.emulate("", "light")
        if before.tag_name != "body":
            self.driver.execute_script(screens.TO_FIELD, before)
        for it in found or [""]:
            self.report.see(not it, f"'{name}': {it}")

    def emulate(self, media: str, scheme: str) -> None:
        """Shows the page on paper or on a screen, in light or dark colours."""
        self.driver.execute_cdp_cmd("Emulation.setEmulatedMedia", {
            "media": media, "features": [{"name": "prefers-color-scheme", "value": scheme}]})

    def see_stops(self, name: str) -> None:
        """Goes through a screen by Tab: each control is reached, in the order of the page. The
        focus is where it was then.
        """
        without = self.driver.execute_script(screens.WITHOUT_TAB)
        self.report.see(not without, f"'{name}': Tab has another order, or no way, to {without}")
        count = self.driver.execute_script(screens.STOPS)
        if count > MOST_STOPS:
            return
        before = self.driver.switch_to.active_element
        self.driver.execute_script(screens.TO_BEGIN)
        reached: list[int] = []
        # (a region that scrolls by itself is reached too)
        regions = len(self.driver.find_elements(By.CSS_SELECTOR, ".region"))
        for _ in range(count + regions + 5):
            ActionChains(self.driver).send_keys(Keys.TAB).perform()
            here = self.driver.execute_script(screens.HERE)
            if here is not None:
                reached.append(int(here))
            if len(set(reached)) == count:
                break
        missed = sorted(set(range(count)) - set(reached))
        self.report.see(not missed and reached == sorted(reached),
                        f"'{name}': Tab reaches {reached}, and not {missed} of {count} controls")
        back = screens.TO_BEGIN if before.tag_name == "body" else screens.TO_FIELD
        self.driver.execute_script(back, before)

    def picture(self, name: str, end: str = "") -> None:
        """Keeps a picture of the whole page."""
        if self.pictures is None:
            return
        # (so that no bar covers the right edge)
        self.driver.execute_cdp_cmd("Emulation.setScrollbarsHidden", {"hidden": True})
        size = self.driver.execute_cdp_cmd("Page.getLayoutMetrics", {})["cssContentSize"]
        clip = {"x": 0, "y": 0, "width": self.width, "height": size["height"], "scale": 1}
        known = {"captureBeyondViewport": True, "format": "png", "clip": clip}
        data = self.driver.execute_cdp_cmd("Page.captureScreenshot", known)["data"]
        self.driver.execute_cdp_cmd("Emulation.setScrollbarsHidden", {"hidden": False})
        number = f"{len(self.report.screens):02}"
        plain = re.sub(r"[^A-Za-z0-9]+", "-", name).strip("-")[:50]
        (self.pictures / f"{number}-{plain}{end}.png").write_bytes(base64.b64decode(data))
