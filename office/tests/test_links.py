"""What each role sees: every link of every page that it finds leads to a page, and each button is
one that it may press.
"""
import datetime
import html.parser
import urllib.parse
from collections.abc import Iterator

import pytest
from applications import ORIGIN, ROUND, Browser, Site, child, town
from explained import after_round

from office.web.home import views as season
from office.web.people.roles import Person

ROLES = ("head", "officer", "reader", "supervisor", "administrator", "school-A")
# what differs in a list by its options is one page here
MOST_PAGES = 400


class Found(html.parser.HTMLParser):
    """The links of a page, the forms that are read, and where the others are sent."""

    def __init__(self, text: str) -> None:
        super().__init__()
        self.links: list[str] = []
        self.sent: list[str] = []
        self.feed(text)

    def handle_starttag(self, tag: str, attrs: list[tuple[str, str | None]]) -> None:
        """Takes a link or a form."""
        found = dict(attrs)
        if tag == "a" and found.get("href"):
            self.links.append(str(found["href"]))
        elif tag == "form" and (found.get("method") or "get").lower() == "post":
            self.sent.append(found.get("action") or "")
        elif tag == "form" and found.get("action"):
            self.links.append(str(found["action"]))


@pytest.fixture(name="office", scope="module")
def office_fixture(tmp_path_factory: pytest.TempPathFactory) -> Iterator[Site]:
    """The application in the middle of a season: after a round that it held, with a late child, a
    note, a file, a vacancy, and a name that seems a link.
    """
    late = [child(5, "=<a href=\"/people/\">Eve</a>", 50),
            {"cmd": "apply", "child": 5, "day": "2024-11-20", "preferences": ["B", "A"]}]
    with after_round(tmp_path_factory.mktemp("links"), [*town(), *late], ROUND,
                     {"cmd": "decline", "child": 1, "school": "A"}) as found:
        jane = Person("jane", "officer")
        found.parts.notes.add(jane, 3, "Cyd", "a note")
        found.parts.notes.add_file(jane, 3, "Cyd", "../../x", b"x")
        yield found


def crawled(browser: Browser) -> dict[str, tuple[int, str]]:
    """Each page that a person finds from the first one on: its status and its text."""
    found: dict[str, tuple[int, str]] = {}
    open_ = ["/"]
    while open_ and len(found) < MOST_PAGES:
        path = open_.pop()
        if path in found:
            continue
        answer = browser.get(path)
        text = answer.text if answer.mimetype == "text/html" else ""
        found[path] = answer.status_code, text
        links = Found(text).links
        if answer.status_code in (302, 303):
            links.append(answer.location)
        base = f"{ORIGIN}{path}"
        for it in links:
            to = urllib.parse.urlsplit(urllib.parse.urljoin(base, it))
            assert f"{to.scheme}://{to.netloc}" == ORIGIN, it
            # (the layout of a PDF takes some seconds, and other tests look at it and at the help;
            # and a list in another order is the same list)
            is_left = to.path.endswith("/pdf") or to.path.startswith("/help/")
            if not is_left and "order=" not in to.query:
                open_.append(to.path + (f"?{to.query}" if to.query else ""))
    return found


@pytest.mark.parametrize("role", ROLES)
def test_each_link_and_button_of_a_role_is_its_own(office: Site, role: str) -> None:
    """From the first screen on."""
    browser = office.browser(role.lower(), role)
    pages = crawled(browser)
    assert {path: status for path, (status, _) in pages.items()
            if status not in (200, 303, 302)} == {}
    urls = office.app.url_map.bind("admissions.example", url_scheme="https")
    person = Person(role, role)
    for path, (_, text) in pages.items():
        for action in Found(text).sent:
            to = urllib.parse.urljoin(path.partition("?")[0], action or path.partition("?")[0])
            endpoint, _ = urls.match(to, method="POST")
            right = getattr(office.app.view_functions[endpoint], "right")
            assert right in ("public", "signed in") or person.may(right), (path, action)
    assert len(pages) < MOST_PAGES


def test_each_role_finds_what_is_its_own(office: Site) -> None:
    """The same pages by another way: what each role must find, and must not."""
    def paths(role: str) -> set[str]:
        return {it.partition("?")[0] for it in crawled(office.browser(role.lower(), role))}

    reader, officer, head, school = map(paths, ("reader", "officer", "head", "school-A"))
    for path in ("/children/3", "/children/3/why/1/family", "/children/3/why/1/office",
                 "/children/3/what-if/1", "/schools/A", "/schools/B", "/draws/1", "/trials/",
                 "/lists/vacancies"):
        assert path in reader and path in officer and path in head, path
    assert not {it for it in reader if "/notes" in it or "/files/" in it or "correct" in it}
    for path in ("/activity/", "/applications/"):
        assert path not in reader and path in officer, path
    assert "/children/3/notes" in officer and "/people/" in head and "/people/" not in officer
    assert school == {"/", "/password", "/schools/A", *(
        f"/schools/A/{it}" for it in ("waiting", "intake", "workbook"))}


def test_the_head_of_a_school_reads_its_own_school_alone(office: Site) -> None:
    """Who has a place there and who waits there, and nothing of another school."""
    alpha = office.browser("school-a", "school-A")
    page = "/schools/A"
    assert 'href="/schools/A/intake"' in alpha.get("/").text
    text = "".join(alpha.get(f"{page}{it}").text for it in ("", "/waiting", "/intake"))
    for name in ("Ben Bell", "Cyd &lt;b&gt;Cole", "Dai O&#39;Dare"):
        assert name in text
    assert "Beta" not in text and "/children/" not in text and "Ada Abel" not in text
    assert alpha.get("/schools/B").status_code == 403
    assert alpha.get("/children/3").status_code == 403


def test_what_waits_for_the_head_is_at_one_place(
    office: Site, monkeypatch: pytest.MonkeyPatch,
) -> None:
    """A place that can be filled, people who have not come in, and those who are locked."""
    monkeypatch.setattr(season, "today", lambda: datetime.date(2025, 3, 17))
    office.parts.people.add("newcomer", "officer")
    office.parts.people.add("gone", "reader")
    office.parts.people.lock("gone", True)
    page = office.browser("head", "head").get("/").text
    said = page[page.index('class="tasks"'):]
    assert "Somebody waits for a vacant place at A." in said
    assert 'href="/schools/A/offer"' in said
    assert "Not signed in yet: newcomer." in said and "Locked: gone." in said
    other = office.browser("officer", "officer").get("/").text
    assert "Not signed in yet" not in other and "Locked: " not in other


def test_a_file_is_given_to_who_may_have_it_alone(office: Site) -> None:
    """Whatever role asks for its address."""
    assert office.browser("officer", "officer").get("/children/3/files/1").data == b"x"
    for role in ("reader", "supervisor", "administrator", "school-A"):
        assert office.browser(role.lower(), role).get("/children/3/files/1").status_code == 403
