"""The first hour of docs/office/START.md, played as the page says, by its files and its buttons.
"""
import html
import io
import pathlib
import re
from typing import Any

from applications import Browser, office_over
from conftest import ROOT
from pages import Page, plain, press

PAGE = (ROOT / "docs" / "office" / "START.md").read_text("utf-8")
# (the register of the tests is of another year)
SCHOOLS, CHILDREN = (it.replace("2025", "2024").encode()
                     for it in re.findall(r"(?ms)^```csv\n(.*?)^```$", PAGE))


def chosen(browser: Browser, field: str, name: str, content: bytes) -> Page:
    """A file that is chosen on Home, and the page that it leads to."""
    form = next(it for it in Page(browser.get("/").text).forms if not it.is_frame)
    given: dict[str, Any] = {field: (io.BytesIO(content), name)}
    found = browser.post(form.action, given, content_type="multipart/form-data")
    assert found.status_code == 303, found.text
    return Page(browser.get(found.location).text)


def pressed(browser: Browser, path: str, page: Page, button: str, **given: str) -> Page:
    """The page that a button leads to, which START names if it is in bold letters."""
    assert button in page.buttons(), (button, page.buttons())
    found = press(browser, path, page, button, **given)
    return Page(browser.get(found.location).text if found.status_code == 303 else found.text)


def named(button: str) -> str:
    """A button, which the page names."""
    assert f"**{button}**" in " ".join(PAGE.split()), button
    return button


def test_the_first_hour_is_as_the_page_says(tmp_path: pathlib.Path) -> None:
    """Two schools, four applications of which two rows have errors, a correction, and a note."""
    with office_over(tmp_path, []) as office:
        harriet = office.browser("harriet", "head")
        question = chosen(harriet, "sheet", "schools.csv", SCHOOLS)
        assert "living within 1,000 metres" in plain(question.text)
        assert "only upwards" in plain(question.text)
        stored = pressed(harriet, "/schools/new/store", question, named("Store 2 schools"))
        assert stored.said() == "2 schools are stored."

        table = chosen(harriet, "files", "children.csv", CHILDREN)
        assert "2 rows have errors of 2 kinds" in plain(table.text)
        table = pressed(harriet, "/applications/", table, named("Read all as day/month/year"))
        field = html.unescape(re.findall(r'<select id="[^"]*" name="(by-[^"]*)"', table.text)[0])
        ready = pressed(harriet, "/applications/", table, named("Replace in 1 row"),
                        **{field: "OAK"})
        assert named("Undo") in ready.buttons()
        assert "4 applications can be added: 4 in time" in plain(ready.text)
        pressed(harriet, "/applications/commit/", ready, named("Add 4 applications"))

        found = harriet.get("/find?q=bo").text
        assert re.findall(r"/children/\d+", found)[0] == "/children/2"
        form = Page(harriet.get("/children/2/correct").text)
        asked = pressed(harriet, "/children/2/correct", form, named("Compare with the register"),
                        east="2800")
        assert asked.tables["changes"][1:] == [["East, in metres", "2900", "2800"]]
        pressed(harriet, "/children/2/correct", asked, "Correct the details of Bo Bell")
        child = harriet.get("/children/2").text
        assert "harriet" in child and "Corrected the details" in child
        notes = Page(harriet.get("/children/2/notes").text)
        pressed(harriet, "/children/2/notes", notes, "Add the note to child 2", text="They rang.")
        assert "They rang." in harriet.get("/children/2?part=notes").text
        tries = Page(harriet.get("/trials/").text).buttons()
        assert named("Try the first round with these") in tries


def test_the_page_leads_on() -> None:
    """To the handbook, and not to what an officer does not need."""
    assert set(re.findall(r"\]\(([^)#]*)", PAGE)) == {"HANDBOOK.md"}
