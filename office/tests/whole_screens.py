"""Each screen of the application in a browser, for everybody: at 200 percent and in a narrow
window, on paper, for a screen reader, in dark and light colours, and by the keyboard alone. It
needs a browser and a minute or more, so it is run by its name alone:

ADMISSIONS=bin/admissions /usr/bin/python3 -m pytest -s office/tests/whole_screens.py

With PICTURES=FOLDER it leaves there a picture of each screen, wide and small.
"""
import contextlib
import dataclasses
import os
import pathlib
import re
import sys
import threading
from collections.abc import Iterator

from applications import ORIGIN, Browser, Site
from conftest import ROOT, make
from offers import enter, offered
from served import served
from werkzeug.serving import make_server

from office.web import app
from office.web.parts import Config

sys.path.append(str(ROOT / "deploy"))
from checks.season import needs  # noqa: E402

# who looks at what; draw 1 was begun
SCREENS = {
    "hal": ("head", (
        "/", "/schools/", "/schools/A", "/schools/A/waiting", "/schools/A/intake?words=a",
        "/schools/A/moves", "/schools/A/offer", "/schools/A/raise", "/schools/A/raise?pan=900",
        "/schools/A/raise?pan=x", "/schools/new/", "/flags/", "/applications/",
        "/applications/?show=errors", "/applications/?edit=1&row=2", "/applications/add/",
        "/applications/?show=aside", "/applications/?kind=school+ash",
        "/applications/duplicates", "/applications/withdrawn", "/applications/commit/",
        "/find", "/find?q=child", "/find?q=nobody", "/children/11",
        "/children/41", "/children/11/accept", "/children/11/decline", "/children/11/remind",
        "/children/11/plan", "/children/11/plan?school=B", "/children/11/correct", "/answers/",
        "/answers/of/bo", "/notices/", "/notices/remind?day=17+March+2025", "/letters/",
        "/letters/whom?whom=offers&value=1", "/letters/office/", "/letters/templates/",
        "/letters/templates/1", "/letters/addresses/", "/applications/points/",
        "/applications/gazetteer/", "/draws/", "/draws/1", "/lists/", "/people/", "/activity/",
        "/password", "/help/", "/help/?q=decline", "/help/run-a-round", "/help/refusals",
        "/nothing")),
    "sup": ("supervisor", ("/", "/lots/", "/lots/1")),
    "rita": ("reader", ("/", "/lists/", "/flags/", "/children/11")),
    "alpha": ("school-A", ("/", "/schools/A", "/schools/A/waiting", "/schools/A/intake")),
    "ada": ("administrator", ("/",)),
    "": ("", ("/sign-in",)),
}
# of what is wrong the console of the browser tells too
STATUS = re.compile("the server responded with a status of 4[0-9][0-9]")


@contextlib.contextmanager
def over_http(office: Site) -> Iterator[str]:
    """The application at an address of this machine."""
    server = make_server("127.0.0.1", 0, office.app, threaded=True)
    thread = threading.Thread(target=server.serve_forever, daemon=True)
    thread.start()
    address = f"http://127.0.0.1:{server.server_port}"
    # (by which it tells its own pages from those of others)
    office.parts.config = dataclasses.replace(office.parts.config, origin=address)
    try:
        yield address
    finally:
        server.shutdown()
        thread.join()


def fill(office: Site) -> None:
    """Rows of which some are wrong, a batch with a conflict, a locked colleague; and a draw."""
    hal = office.browser("hal", "head")
    for name, day, schools in (("Mo Marsh", "20/10/2024", "A"), ("Nia North", "21/10/2024", "B"),
                               ("Half Typed", "20/10/2024", "A")):
        given = {"name": name, "east": "1", "north": "1", "looked_after": "no", "day": day,
                 "preference-1": schools}
        assert hal.post("/applications/add/", given).status_code == 303
    page = hal.get("/applications/?edit=1&edit=2&edit=3")
    cells = dict(re.findall(r'name="([a-z_]+-\d+|seen-\d+)" value="([^"]*)"', page.text))
    cells = {name: text.replace("&#34;", '"') for name, text in cells.items()}
    assert hal.post("/applications/", {**cells, "preferences-2": "ASH", "aside": "3"}
                    ).status_code == 303
    hal.post("/flags/", {"flag-2": "medical need", "seen": "{}"})
    hal.post("/schools/new/", {"school": "ASH", "name": "Ash School", "pan": "x"})
    enter(hal, "11", "12-", "Ada", "99")
    enter(office.browser("bo"), "13", "14-")
    office.parts.people.lock("bo", True)
    found = hal.post("/draws/", {"kind": "round", "day": "5 May 2025"})
    assert found.status_code == 303, found.text


def test_each_screen_is_for_everybody(tmp_path: pathlib.Path) -> None:
    """Each that the application has is looked at."""
    assert not needs.missing()
    from checks.season import hands, report as reports
    from checks.season.site import Site as Place

    # (one who has no place, so that there is something to draw)
    late = {"cmd": "apply", "child": 41, "day": "2025-04-01", "preferences": ["A"]}
    make(tmp_path / "reg.db", [*offered(), late])
    room = tmp_path / "downloads"
    room.mkdir()
    report, pictures = reports.Report(), os.environ.get("PICTURES")
    with served(tmp_path / "reg.db") as (door, _):
        config = Config("secondary-2025", ORIGIN, door, tmp_path / "office", tmp_path / "copies",
                        ROOT / "deploy" / "site", "Tŷ \"Ddewi\" Council")
        office = Site(app.create(config))
        for who, (role, _) in SCREENS.items():
            if who:
                office.add(who, role)
        fill(office)
        with over_http(office) as address, Place(address).browser(room) as driver:
            for who, (_, paths) in SCREENS.items():
                person = hands.Hands(driver, who, address, report,
                                     pathlib.Path(pictures) if pictures else None)
                driver.delete_all_cookies()
                if who:
                    cookie = signed_in(office, who, address)
                    driver.get(f"{address}/ui.css")
                    driver.add_cookie({"name": "admissions", "value": cookie, "path": "/"})
                for it in paths:
                    driver.get(address + it)
                    said = [one for one in driver.get_log("browser")
                            if not STATUS.search(one["message"])]
                    report.see(not said, f"the console at {it}: {said}")
                    person.look(f"{who} {it}")
        office.parts.close()
    assert not report.failed, "\n".join(report.failed)
    seen = {it.partition("?")[0] for _, paths in SCREENS.values() for it in paths}
    assert report.passed > 5 * len(seen)


def signed_in(office: Site, who: str, address: str) -> str:
    """The cookie of somebody's session."""
    browser = Browser(office.app)
    found = browser.client.post(
        "/sign-in", base_url=address, headers={"Origin": address, "Accept": "text/html"},
        data={"name": who, "password": office.passwords[who]})
    assert found.status_code == 303, found.text
    cookies = [it for it in found.headers.getlist("Set-Cookie") if it.startswith("admissions=")]
    return cookies[0].partition("=")[2].partition(";")[0]
