"""The pictures of the pages show what the application shows: each keeps the words that were on it,
and these are compared with the words of the same screen or letter now. `make pictures` takes them
anew.
"""
import json
import pathlib
import re
import subprocess
import sys

import pytest
from conftest import ROOT
from PIL import Image

FOLDER = ROOT / "docs" / "pictures"
IMAGE = re.compile(r"!\[([^\]]*)\]\(([^)]+)\)")
# what the words beside a picture repeat of it
QUOTED, NUMBER = re.compile(r"(?<!\w)'([^']+)'(?!\w)"), re.compile(r"\b[0-9][0-9,]*\b(?<!,)")
HERE = pathlib.Path(__file__).resolve().parent


@pytest.fixture(name="now", scope="module")
def now_fixture() -> dict[str, str]:
    """The words of each picture, by a process whose day is that of the pictures."""
    ran = subprocess.run([sys.executable, HERE / "pictured.py"], capture_output=True, text=True,
                         check=False)
    assert ran.returncode == 0, ran.stderr
    found: dict[str, str] = json.loads(ran.stdout)
    return found


def test_each_picture_has_the_words_of_now(now: dict[str, str]) -> None:
    """Where it fails: make pictures, and look at them."""
    kept = {it.stem: Image.open(it).info.get("Seen") for it in FOLDER.glob("*.png")}
    assert sorted(kept) == sorted(now)
    for name, words in now.items():
        assert words.split() == str(kept[name]).split(), name


def test_a_waiting_list_shows_how_children_rank(now: dict[str, str]) -> None:
    """Who is or was looked after first, then each criterion in its order, and then the distance."""
    found = now["waiting-list"].partition("Waiting list:")[2]
    ranks = ("looked after", "with a brother or sister at the school", "child of a member of staff",
             "living within 1,500 metres", "by distance (no criterion met)")
    places = [found.find(it) for it in ranks]
    assert -1 not in places and places == sorted(places), places


def shown() -> list[tuple[str, pathlib.Path]]:
    """The pictures of all pages, each with the words beside it."""
    pages = [ROOT / "README.md", *sorted((ROOT / "docs").rglob("*.md"))]
    return [(said, page.parent / target) for page in pages
            for said, target in IMAGE.findall(page.read_text("utf-8"))]


def test_each_picture_is_on_a_page() -> None:
    """And each page finds its pictures."""
    assert {it.resolve() for _, it in shown()} == {it.resolve() for it in FOLDER.glob("*.png")}
    first = [target for _, target in IMAGE.findall((ROOT / "README.md").read_text("utf-8"))]
    assert first == ["docs/pictures/start.png", "docs/pictures/letter.png"]


def test_the_words_beside_a_picture_say_what_is_seen() -> None:
    """For whoever does not see it: more than its name, and each text in quotes and each number is
    on the picture.
    """
    for said, picture in shown():
        assert len(said.split()) >= 8, picture
        words = " ".join(str(Image.open(picture).info.get("Seen")).split())
        for it in QUOTED.findall(said) + NUMBER.findall(said):
            assert re.search(rf"(?<!\w){re.escape(it)}(?!\w)", words), (picture.name, it)
