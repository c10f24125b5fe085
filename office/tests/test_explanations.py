"""Why a child got what a draw gave it, in the application: for the family, for the office, as PDF.
"""
import os
import pathlib
import subprocess
from collections.abc import Iterator

import pytest
from applications import ROUND, Site, child, town
from explained import COPY, after_round
from pages import Page

# the only class of each school
WORDS = "ranked by distance alone"


@pytest.fixture(name="office", scope="module")
def office_fixture(tmp_path_factory: pytest.TempPathFactory) -> Iterator[Site]:
    """After the first round children 1 and 2 have Alpha, child 3 has Beta, child 4 has nothing:
    each wants Alpha, of two places, and then Beta, of one, and lives 100 metres farther than the
    one before.
    """
    late = [{"cmd": "apply", "child": number, "day": "2024-11-20", "preferences": ["B"]}
            for number in (5, 6)]
    with after_round(tmp_path_factory.mktemp("why"),
                     [*town(), child(5, "Eve Eden", 50), late[0]], ROUND,
                     child(6, "Flo Fox", 60), late[1]) as found:
        for name, role in (("jane", "officer"), ("rita", "reader")):
            found.add(name, role)
        yield found


def test_the_child_leads_to_each_school_that_it_did_not_get(office: Site) -> None:
    """And to its place, for who reads; those who did not want a school more have no link to it."""
    rita = office.browser("rita")
    page = Page(rita.get("/children/3").text)
    assert " ".join(page.by_id["why"].split()) == (
        "Round 1, 3 March 2025: why the place at Beta, why not Alpha;"
        " what if: another list, criterion or day")
    assert 'href="/children/3/why/1/family#school-A"' in page.text
    assert " ".join(Page(rita.get("/children/1").text).by_id["why"].split()) == (
        "Round 1, 3 March 2025: why the place at Alpha;"
        " what if: another list, criterion or day")
    assert "why no place, why not Alpha, why not Beta;" in (
        " ".join(Page(rita.get("/children/4").text).by_id["why"].split()))


def test_the_office_reads_all_numbers(office: Site) -> None:
    """Of child 3 at Alpha: two places, four who wanted one, two who have one."""
    page = Page(office.browser("rita").get("/children/3/why/1/office").text)
    assert page.by_id["for"].startswith("For the office alone")
    for said in (
        "The child was offered Beta (B), the second preference.",
        "4 children listed the school in this round, this child among them. 4 of them put it first."
        " 2 were admitted:",
        "<li>ranked by distance alone: 2</li>",
        f"The last child admitted: {WORDS}, 200 metres.", f"This child: {WORDS}, 300 metres.",
        "the distance decided: the other child lives nearer to the school.",
    ):
        assert said in page.text, said
    assert page.by_id["school-A"].strip().startswith("Alpha (A), first preference: no place.")


def test_the_family_reads_no_small_number_and_no_other_child(office: Site) -> None:
    """Nor is there a name or a number of another child in it, nor on paper."""
    rita = office.browser("rita")
    page = Page(rita.get("/children/4/why/1/family").text)
    assert page.by_id["for"].startswith("For the family of the child: small numbers are withheld")
    assert "Some children listed the school" in page.by_id["school-A"]
    assert f"Your child: {WORDS}, 400 metres." in page.by_id["school-A"]
    assert "class " not in page.by_id["school-A"]
    assert "2 ranked" not in page.text and "4 children listed" not in page.text
    for name in ("Abel", "Bell", "Cole", "hild 1", "hild 2", "hild 3"):
        assert name not in page.text, name
    assert "each school on the list was filled by children who rank before it there" in page.text


def test_who_took_no_part_is_explained_too(office: Site) -> None:
    """One that was late, and one that was added after the round."""
    rita = office.browser("rita")
    assert " ".join(Page(rita.get("/children/5").text).by_id["why"].split()) == (
        "Round 1, 3 March 2025: why no part; what if: another day of the application")
    said = ("The application of 20 November 2024 came after the closing date, 31 October 2024, and"
            " took no part in the first round.")
    assert said in rita.get("/children/5/why/1/family").text
    assert " ".join(Page(rita.get("/children/6").text).by_id["why"].split()).startswith("Round 1")
    for path in ("/children/6/why/1/family", "/children/6/what-if/1"):
        found = rita.get(path)
        assert found.status_code == 200 and "when the round was run." in found.text, path


def printed(data: bytes, folder: pathlib.Path) -> str:
    """The text of a PDF."""
    (folder / "a.pdf").write_bytes(data)
    ran = subprocess.run(["pdftotext", "-layout", folder / "a.pdf", "-"], check=True,
                         capture_output=True, text=True)
    return " ".join(ran.stdout.split())


def test_both_are_on_paper(office: Site, tmp_path: pathlib.Path) -> None:
    """As PDF under a name of letters and figures, with the tags of a name as text."""
    jane = office.browser("jane")
    found = jane.get("/children/3/why/1/family/pdf")
    assert found.mimetype == "application/pdf"
    assert found.headers["Content-Disposition"] == (
        'attachment; filename="why-child-3-draw-1-family.pdf"')
    family = printed(found.data, tmp_path)
    assert "Child 3 Cyd <b>Cole</b>" in family and "For the family" in family
    assert "Some children listed the school" in family and "Ddewi" in family
    office_one = printed(jane.get("/children/3/why/1/office/pdf").data, tmp_path)
    assert "ranked by distance alone: 2" in office_one


def test_what_is_no_explanation_is_not_there(office: Site) -> None:
    """Another child, another draw, another reader."""
    rita = office.browser("rita")
    for path in ("/children/9/why/1/family", "/children/3/why/2/family",
                 "/children/3/why/1/press", "/children/3/what-if/2"):
        assert rita.get(path).status_code == 404, path


def test_the_draw_leads_to_each_of_its_children(office: Site) -> None:
    """From the table of its outcome."""
    with office.parts.store.writing() as db:
        db.execute("UPDATE draw SET rehearsal=?", (
            '{"outcomes": [[1, 3, null, "B", true], [1, 4, null, null, false]], "wrong": [],'
            ' "audits": [], "answers": []}',))
    page = office.browser("rita").get("/draws/1").text
    for number in (3, 4):
        assert f'href="/children/{number}/why/1/family"' in page
    assert 'href="/trials/?round=1"' in page


def test_a_round_without_its_copy_is_explained_by_the_data_of_now(office: Site) -> None:
    """And the screen says so; 'what if' needs the copy."""
    rita = office.browser("rita")
    with_copy = Page(rita.get("/children/3/why/1/office").text)
    path = office.parts.config.copies / COPY
    os.rename(path, path.with_suffix(".away"))
    try:
        found = Page(rita.get("/children/3/why/1/office").text)
        assert found.by_id["note"].startswith("The copy of the register from before it is not")
        assert "note" not in with_copy.by_id
        assert found.by_id["school-A"] == with_copy.by_id["school-A"]
        page = rita.get("/children/3").text
        assert "/why/1" in page and "/what-if/1" not in page and "/what-if/1" not in found.text
        assert "/why/1" in rita.get("/draws/1").text
        other = rita.get("/children/3/what-if/1")
        assert other.status_code == 409 and "is not kept here" in Page(other.text).said()
        assert Page(rita.get("/trials/").text).by_id["none"].startswith("No round can be tried")
    finally:
        os.rename(path.with_suffix(".away"), path)


def test_data_of_now_may_give_no_reason(tmp_path: pathlib.Path) -> None:
    """Child 3 turns out to live nearest to Alpha, which refused it. With the copy the round is
    explained as it was; without it there is no reason, and no PDF for the family.
    """
    nearer = {**child(3, "Cyd Cole", 10), "cmd": "amend"}
    with after_round(tmp_path, town(), ROUND, nearer) as office:
        office.add("jane", "officer")
        jane, path = office.browser("jane"), office.parts.config.copies / COPY
        page = Page(jane.get("/children/3/why/1/family").text)
        assert f"Your child: {WORDS}, 300 metres." in page.text and "/pdf" in page.text
        assert "part=positions#kept" in page.text
        assert "The details of your child were changed since" in page.text
        os.remove(path)
        page = Page(jane.get("/children/3/why/1/family").text)
        said = "No reason can be given: the details of this child, or of one"
        assert said in page.by_id["school-A"] and "/pdf" not in page.text
        assert jane.get("/children/3/why/1/family/pdf").status_code == 409
        paper = printed(jane.get("/children/3/why/1/office/pdf").data, tmp_path)
        assert said in paper and "this is by the details that the register has now" in paper


def test_a_fill_is_explained(tmp_path: pathlib.Path) -> None:
    """Child 1 declines Alpha, and the fill offers its place to child 3, which has Beta; child 4
    waits on. No other child is named, and a fill has no 'what if'.
    """
    answers = {"cmd": "decline", "child": 1, "school": "A"}
    fill = {"cmd": "fill", "draw": 2, "school": "A", "day": "2025-04-14", "lots": [1, 2]}
    with after_round(tmp_path, town(), ROUND, answers, fill) as office:
        office.add("jane", "officer")
        jane = office.browser("jane")
        words = " ".join(Page(jane.get("/children/4").text).by_id["why"].split())
        assert words.startswith(
            "Offer of a place at A (draw 2), 14 April 2025: why not Alpha Round 1,")
        page = Page(jane.get("/children/4/why/2/family").text)
        assert "Some children waited for the vacancy, your child among them." in page.text
        assert f"The child that was offered the place: {WORDS}." in page.text
        assert f"Your child: {WORDS}, 400 metres." in page.text and "300 metres" not in page.text
        assert "what-if/2" not in page.text and "Cole" not in page.text
        assert "Your child was offered Alpha (A), the first preference." in (
            jane.get("/children/3/why/2/family").text)
        assert jane.get("/children/4/what-if/2").status_code == 404
