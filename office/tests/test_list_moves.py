"""How the waiting list of a school has moved: what the screen says is what the copies have, as the
program shows them.
"""
import json
import re
import subprocess

from applications import Site
from conftest import PROGRAM
from draw_site import Machine, after_round, begun, brought
from pages import Page

from office.web.machinery import pictures


def in_copy(office: Site, number: int) -> dict[int, int]:
    """The positions at OAK of a copy, as the program shows them."""
    ran = subprocess.run([PROGRAM, "show", office.parts.copies.path(number)], capture_output=True,
                         check=True)
    return {it["child"]: wish["position"] for it in json.loads(ran.stdout)["children"]
            if it["application"] for wish in it["application"]["preferences"]
            if wish["school"] == "OAK" and wish["state"] == "waits"}


def test_the_movement_of_a_list_is_that_of_the_copies(small: Machine) -> None:
    """Five children want the one place of OAK; the nearest has it, and 2 and 3 are equal. Then 2
    leaves the list, and a fill is held. A copy that is not there is named as that.
    """
    with small.office() as office:
        rita = office.browser("rita", "reader")
        assert "No round was run yet" in rita.get("/schools/OAK/moves").text
        after_round(small, office)
        assert in_copy(office, 1) == {}
        assert in_copy(office, 2) == {2: 1, 3: 1, 4: 3, 5: 4}

        def moved() -> list[list[str]]:
            return Page(rita.get("/schools/OAK/moves").text).tables["moved"][1:]

        first, none = ["round 1", "3 March 2025", "1", "0", "4"], "no list before it"
        assert moved() == [[*first, "0", "0", none, "nobody moved"]]
        office.record("jane", {"cmd": "leave_list", "child": 2, "school": "OAK"})
        by_one = "2 children moved up, by 1 position"
        assert moved() == [[*first, "0", "1", none, by_one]]
        text = rita.get("/schools/OAK/moves").text
        assert ("After round 1, 4 children waited. Since then 0 children have joined the list, and"
                " 1 has left it." in text)
        tracks = Page(text).tables["tracks"]
        names = [office.parts.desk.register().children[it].name for it in (2, 4, 5)]
        assert tracks == [["Child", "After 3 March", "Now"],
                          [names[0], "1", "does not wait any more"], [names[1], "3", "2"],
                          [names[2], "4", "3"]]
        assert 'href="/children/4?part=positions#kept"' in text
        brought(office, begun(office, "OAK", 1, "2025-03-20"), "opened")
        assert in_copy(office, 3) == {3: 1, 4: 2, 5: 3} and in_copy(office, 4) == {4: 1, 5: 2}
        steps = Page(rita.get("/children/4?part=positions").text).tables["OAK School"]
        assert steps[1:] == [
            ["After round 1, 3 March 2025", "3", "4"],
            ["After offer of a place at OAK (draw 2), 20 March 2025", "1", "2"],
            ["Now", "1", "2"]]
        fill = ["offer of a place at OAK (draw 2)", "20 March 2025", "1", "3", "2", "0", "0",
                by_one, "nobody moved"]
        assert moved() == [
            [*first, "0", "2", none, "2 children moved up, by 2 positions"], fill]
        assert "1 place was offered." in rita.get("/schools/OAK/moves").text
        office.parts.copies.path(2).unlink()
        unknown = "not known: no copy"
        assert moved()[0][4:] == ["no copy", "", "", unknown, unknown]
        steps = Page(rita.get("/children/4?part=positions").text).tables["OAK School"]
        assert steps[1] == ["After round 1, 3 March 2025", "no copy", ""]
        assert moved()[1] == fill and "is not kept here" in rita.get("/schools/OAK/moves").text
        office.parts.copies.path(4).unlink()
        assert "says who waited then." in (
            rita.get("/schools/OAK/moves").text)


def test_labels_beside_the_picture_do_not_overlap() -> None:
    """Three positions that are next to each other, and one far below: the order of rows is kept."""
    tracks: list[list[int | None]] = [[1, 2], [2, 1], [3, 0], [400, 390]]
    text = pictures.movement("m", "Waiting list", "It moved.", ["then", "now"], tracks)
    for side, wanted in (('text-anchor="end"', ["1", "2", "3", "400"]),
                         ('class="strong"', ["place", "1", "2", "390"])):
        found = [it for it in re.findall(r"<text[^>]*>[^<]*</text>", text) if side in it]
        heights = {it.split(">")[1].split("<")[0]: float(it.split(' y="')[1].split('"')[0])
                   for it in found if "quiet" not in it}
        rows = sorted(heights, key=lambda it: heights[it])
        assert rows == wanted
        assert all(heights[low] - heights[high] >= 16 for high, low in zip(rows, rows[1:]))
