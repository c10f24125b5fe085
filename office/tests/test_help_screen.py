"""The help of the application: that each screen leads to its topic, that topics are whole, and that
they are found by their words.
"""
import pathlib
import re
from collections.abc import Iterator

import pytest
from applications import Browser, Site, office_over, town
from conftest import ROOT
from pages import plain
from test_plain_words import texts_of

from office.core import rules, wording
from office.web.frame import topics
from office.web.people.roles import Person

# views that are no page of the application: their answers are read by programs, or are a page of
# their own without the frame
NO_SCREENS = ("file", "icon", "health", "register", "help", "static")
LINK, IMAGE = re.compile(r"(?<!!)\[[^]]*\]\(([^)]*)\)"), re.compile(r"!\[[^]]*\]\(([^)]*)\)")
# the words of a button or a link, and what they have of one season
PRESSED = re.compile(r"(?:\b[Pp]ress(?:es)?|\b[Ff]ollows?)\s+(?:\*\*([^*]+)\*\*|'([^']+)')")
NAMES = re.compile(r"[0-9][0-9,]*|\bround\b|\boak\b")
MACHINE = re.compile(r"admissions-\w+|/var/|/etc/|\broot\b|\bsudo\b|\.db\b|systemctl")
ADDRESS, SOURCE = re.compile(r'href="(/help[^"]*)"'), re.compile(r'<img [^>]*src="([^"]*)"')


@pytest.fixture(name="office")
def office_fixture(tmp_path: pathlib.Path) -> Iterator[Site]:
    """The application over a register with two schools."""
    with office_over(tmp_path, town()) as found:
        yield found


@pytest.fixture(name="jane")
def jane_fixture(office: Site) -> Browser:
    """An officer's browser."""
    return office.browser("jane")


def help_of(text: str) -> str:
    """Where the head of a page leads for help."""
    found: list[str] = ADDRESS.findall(text.partition("</header>")[0])
    return found[0]


def test_each_screen_has_a_topic(office: Site) -> None:
    """And each topic that a screen is given is one of the handbook."""
    urls = office.app.url_map
    views = {it.endpoint for it in urls.iter_rules() if not it.endpoint.startswith(NO_SCREENS)}
    assert len(views) > 100
    assert {it for it in views if not topics.of_screen(it, "")} == set()
    named = {it.partition("/")[0] for it in topics.OF_SCREENS}
    assert named <= views | {it.partition(".")[0] for it in views}
    assert set(topics.OF_SCREENS.values()) <= set(topics.topics())


@pytest.mark.parametrize("path, name", [
    ("/", "home"), ("/applications/", "collect-applications"),
    ("/applications/add/", "add-a-child"),
    ("/children/1", "a-childs-screen"), ("/children/1/plan", "ehc-plans"),
    ("/lists/unplaced", "children-without-a-place"), ("/lists/children", "lists"),
    ("/schools/A/waiting", "waiting-lists"), ("/draws/", "run-a-round"),
    ("/answers/", "answers"), ("/password", "sign-in")])
def test_a_screen_leads_to_its_topic(jane: Browser, path: str, name: str) -> None:
    page = jane.get(path)
    assert help_of(page.text) == f"/help/{name}", page.status_code
    topic = jane.get(f"/help/{name}")
    assert topics.topics()[name].title in plain(topic.text.partition("<main>")[2])


def test_a_page_without_a_topic_leads_to_all_of_them(jane: Browser) -> None:
    assert help_of(jane.get("/no/such/page").text) == "/help/"
    assert jane.get("/help/no-such-topic").status_code == 404


def test_the_handbook_lists_its_groups_and_the_help_each_topic(jane: Browser) -> None:
    book = topics.HANDBOOK.read_text("utf-8")
    listed = LINK.findall(book.partition("## Contents")[2].partition("\n## ")[0])
    assert [f"#{topics.name_of(it)}" for it in topics.groups()] == listed
    shown = ADDRESS.findall(jane.get("/help/").text.partition("<main>")[2])
    assert [f"/help/{it}" for it in topics.topics()] == shown[:-1] and shown[-1] == "/help/refusals"


def test_each_link_and_picture_of_a_topic_is_there(jane: Browser) -> None:
    """A link to another topic leads to it, and no other page of the repository is linked."""
    linked: set[str] = set()
    for it in topics.topics().values():
        text = jane.get(f"/help/{it.name}").text.partition("<main>")[2]
        for path in (*ADDRESS.findall(text), *SOURCE.findall(text)):
            assert jane.get(path).status_code == 200, (it.name, path)
        assert len(SOURCE.findall(text)) == len(IMAGE.findall(it.text))
        assert all(one[1:] in topics.topics() for one in LINK.findall(it.text) if one[0] == "#")
        assert ".md" not in text and "](" not in text, it.name
        linked |= set(SOURCE.findall(text))
    assert linked == {f"/help/pictures/{it.name}" for it in (ROOT / "docs/pictures").glob("*.png")}


def test_each_button_and_link_that_a_topic_names_is_on_a_screen() -> None:
    """By its words, but for numbers and names of one season."""
    folder = ROOT / "office" / "web"
    shown = " ".join(" ".join(text.split()) for path in (
        *folder.rglob("*.py"), *folder.rglob("*.html")) for text in texts_of(path)).lower()
    named = [(it.name, " ".join("".join(words).split())) for it in topics.topics().values()
             for words in PRESSED.findall(it.text)]
    assert len(named) > 40
    for name, words in named:
        for part in NAMES.split(words.lower()):
            assert part.strip(" .:?") in shown, (name, words)


def test_no_topic_names_a_command_a_path_or_a_user_of_the_machine() -> None:
    for it in topics.topics().values():
        assert not MACHINE.findall(it.text), it.name


@pytest.mark.parametrize("words, name", [
    ("wrong decline", "a-wrong-accept-or-decline"), ("LOTS seed", "lots"), ("twins", ""),
    ("uprn", "homes-to-locate"), ("somebody ill", ""), ("zebra", None)])
def test_topics_are_found_by_their_words(jane: Browser, words: str, name: str | None) -> None:
    """All of them, in any case; a topic with them in its title is the first."""
    text = jane.get(f"/help/?q={words.replace(' ', '+')}").text
    found = ADDRESS.findall(text.partition('id="found"')[2].partition("</section>")[0])
    if name is None:
        assert not found and "Nothing was found" in text
        return
    assert found and found[0] == f"/help/{name or found[0].removeprefix('/help/')}"
    for it in found:
        topic = topics.topics()[it.removeprefix("/help/")]
        assert all(word.lower() in f"{topic.title} {topic.text}".lower() for word in words.split())


def test_each_refusal_is_explained_where_its_name_leads(jane: Browser) -> None:
    text = jane.get("/help/refusals").text
    assert rules.RULES["refusals"]
    for name in rules.RULES["refusals"]:
        assert wording.by_refusals(f"It is not done ({name}).") == [
            ("It is not done (", False), (name, True), (").", False)]
        row = text.partition(f'id="{name.lower()}"')[2].partition("</tr>")[0]
        assert rules.in_words("refusals", name)[0] in plain(f"<{row}")


def test_what_is_no_refusal_leads_nowhere() -> None:
    for text in ("TooSoon (NotJson) (toosoon)", ""):
        assert wording.by_refusals(text) == ([(text, False)] if text else [])


def test_a_refused_command_leads_from_its_child_to_the_help(office: Site) -> None:
    sent = office.parts.desk.send(
        Person("bo", "officer"), {"cmd": "accept", "child": 1, "school": "A"})
    assert "(NotOffered)" in sent.said
    child = office.browser("officer").get("/children/1").get_data(as_text=True)
    assert '(<a href="/help/refusals#notoffered">NotOffered</a>)' in child
