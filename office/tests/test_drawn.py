"""Pictures of the screens: what they draw is what the register has, by another computation."""
import datetime
import random
import re
import xml.etree.ElementTree as ET

from conftest import ROOT

from office.web.home import tasks as home
from office.web.machinery import pictures
from office.web.machinery.pictures import LEAST, SIDE, Circle, Home, Places, Span

SVG = "{http://www.w3.org/2000/svg}"


def parsed(text: str) -> ET.Element:
    """A picture as a tree: it is well-formed."""
    return ET.fromstring(text.replace("<svg ", '<svg xmlns="http://www.w3.org/2000/svg" ', 1))


def test_the_map_has_each_school_and_each_square_of_homes() -> None:
    """The numbers of vacant places, and of homes in squares of 500 metres; few homes are left out.
    """
    drawn = random.Random(7)
    schools = [Places("A&B", 400_000, 300_000, 60, 45, 15),
               Places("C", 404_000, 302_500, 30, 33, 0)]
    homes = [(drawn.randrange(399_000, 405_000), drawn.randrange(299_000, 304_000))
             for _ in range(900)]
    homes += [(399_100, 299_100)] * (LEAST - 1)
    found = parsed(str(pictures.authority_map("m", "Places <b>", "said", schools, homes)))
    texts = [it.text for it in found.iter(f"{SVG}text")]
    assert texts[:4] == ["15", "A&B", "0", "C"]
    titles = [it.text or "" for it in found.iter(f"{SVG}title")]
    assert titles[0] == "Places <b>" and titles[-1] == "C: 33 of 30 places are taken"
    shown = [int(it.split()[0]) for it in titles if it.endswith(" homes")]
    wanted = []
    for east in range(398_500, 405_500, SIDE):
        for north in range(298_500, 304_000, SIDE):
            many = sum(east <= e < east + SIDE and north <= n < north + SIDE for e, n in homes)
            # (a square is drawn if its corner is within the map)
            if many >= LEAST and 398_500 < east < 405_500 and 298_500 < north < 304_000:
                wanted.append(many)
    assert sorted(shown) == sorted(wanted) and len(shown) > 50
    lengths = [it.get("stroke-dasharray", "").split()[0]
               for it in found.iter(f"{SVG}circle") if "taken" in it.get("class", "")]
    assert lengths == ["75.0", "100.0"]


def test_the_season_has_its_parts_and_today() -> None:
    """In proportion to their days: a part of a quarter of the time is a quarter as long."""
    first = datetime.date(2025, 9, 1)
    day = datetime.timedelta(days=1)
    spans = [Span("one", first, first + 49 * day),
             Span("two", first + 50 * day, first + 199 * day, 1)]
    text = str(pictures.season("s", "Season", "said", spans, first + 100 * day))
    found = parsed(text)
    bars = [it for it in found.iter(f"{SVG}rect") if "span" in it.get("class", "")]
    assert [it.get("class") for it in bars] == ["span done", "span now"]
    lengths = [float(it.get("width", "")) for it in bars]
    assert abs(lengths[1] / lengths[0] - 149 / 49) < 0.01
    [today] = [it for it in found.iter(f"{SVG}line") if it.get("class") == "today"]
    assert abs(float(today.get("x1", "")) / 1160 - 100 / 200) < 0.001
    # (a day outside of the season has no mark)
    later = str(pictures.season("s", "Season", "said", spans, first + 300 * day))
    assert 'class="today"' not in later and not re.search(r"style=|<script", text + later)


def test_the_words_of_the_season_are_read_in_light_and_in_dark() -> None:
    """The contrast of the words of a part with its bar is at least 4.5."""
    css = (ROOT / "deploy/site/ui.css").read_text("utf-8")
    light, dark = (dict(re.findall(r"--([\w-]+): (#\w+)", css[css.index(it):].partition("}")[0]))
                   for it in ("\n:root {", "(prefers-color-scheme: dark)"))

    def fill(kind: str, values: dict[str, str]) -> float:
        found = re.search(rf"^{re.escape(kind)} {{ fill: (?:var\(--([\w-]+)\)|(#\w+));", css, re.M)
        if found is None:
            return light_of(values["ink"])
        return light_of(values[found[1]] if found[1] else found[2])

    for values in (light, {**light, **dark}):
        for state in ("done", "now", "next"):
            pair = sorted(fill(it, values) + 0.05 for it in (
                f".drawn .span-words.{state}", f".span.{state}"))
            assert pair[1] / pair[0] >= 4.5, (state, pair)


def light_of(colour: str) -> float:
    """The relative luminance of a colour, as WCAG 2.2 computes it."""
    digits = colour[1:] if len(colour) == 7 else "".join(2 * it for it in colour[1:])
    parts = [int(digits[at:at + 2], 16) / 255 for at in (0, 2, 4)]
    linear: list[float] = [
        it / 12.92 if it <= 0.04045 else ((it + 0.055) / 1.055) ** 2.4 for it in parts]
    return 0.2126 * linear[0] + 0.7152 * linear[1] + 0.0722 * linear[2]


def test_a_bar_is_as_long_as_its_share() -> None:
    """And one of nothing has no length."""
    assert 'width="24.6"' in pictures.bar(25, 100, "first")
    assert not any("first" in pictures.bar(0, it, "first") for it in (0, 100))
    assert home.share(1, 3) == "33.3%" and home.share(0, 0) == ""


def test_each_bar_of_answers_has_a_colour() -> None:
    """Or it is black, which is none in dark colours."""
    css = (ROOT / "deploy/site/ui.css").read_text("utf-8")
    for kind in home.ANSWERS:
        assert re.search(rf"^rect[^{{]*\.{kind}\b[^{{]*{{ fill: var", css, re.M), kind


def test_the_map_of_a_school_has_each_home_in_reach() -> None:
    """And says how many are further away; a name cannot end its hint."""
    drawn = random.Random(11)
    homes = [Home(drawn.randrange(-3000, 3000), drawn.randrange(-3000, 3000), "within",
                  drawn.choice(("has", "waits")), f"</title><b>{at}", f"/children/{at}")
             for at in range(200)]
    picture, away = pictures.school_map(
        "m", "Homes", "said", ("A", 0, 0), [("B", 900, 900), ("C", 9000, 0)], homes,
        [Circle(1500, "1,500 metres", "criterion", "the distance of a criterion")], 2000)
    found = parsed(str(picture))
    inside = {it.hint for it in homes if abs(it.east) < 2000 and abs(it.north) < 1600}
    hints = [it.text for it in found.iter(f"{SVG}title")][1:]
    assert len(hints) == len(inside) and {*hints} == inside and away == 200 - len(inside)
    assert [it.text for it in found.iter(f"{SVG}text")][:3] == ["B", "A", "1,500 metres"]
    [circle] = found.iter(f"{SVG}circle")
    assert abs(float(circle.get("r", "")) - 1500 * 720 / 4000) < 0.1


def test_the_scale_of_a_map_covers_no_school() -> None:
    """It is in the lower left corner, or in the next one where no school with its name is."""
    for east, is_left in ((2800, False), (5000, True)):
        ways = [pictures.Way("FAR", 6000, 5000, "below"), pictures.Way("NEAR", east, 1500, "below")]
        found = parsed(str(pictures.child_map("m", "Homes", "said", (2000, 5000), ways)))
        [plate] = (it for it in found.iter(f"{SVG}rect") if it.get("class") == "plate")
        x, y, wide, high = (float(plate.get(it, "")) for it in ("x", "y", "width", "height"))
        assert (x < 100) is is_left and y > 300, east
        for it in found.iter(f"{SVG}text"):
            if it.text in ("FAR", "NEAR"):
                # (a letter is at most 9 wide, and a name is 13 high)
                middle, foot, half = float(it.get("x", "")), float(it.get("y", "")), 18
                assert (middle + half < x or middle - half > x + wide
                        or foot < y or foot - 13 > y + high), it.text


def test_a_flow_is_as_thick_as_its_counts() -> None:
    """From each node of the left to each of the right, within both; and nothing where nobody went.
    """
    counts = [[30, 10, 0], [5, 0, 40], [1, 2, 3]]
    right = [("First", "first"), ("Second", "second"), ("No place", "none")]
    found = parsed(str(pictures.flow(
        "f", "Flow", "said", ["A&B", "C", "D"], right, counts, ("from", "to"))))
    paths = {it[0].text: float(it.get("stroke-width", "")) for it in found.iter(f"{SVG}path")}
    assert len(paths) == 7 and "A&B to no place: 0" not in paths
    for words, many in (("C to no place: 40", 40), ("A&B to second: 10", 10), ("D to first: 1", 1)):
        # (widths have one decimal)
        assert abs(paths[words] / paths["A&B to first: 30"] - many / 30) < 0.01
    nodes = [it for it in found.iter(f"{SVG}rect") if "node" in it.get("class", "")]
    heights = [float(it.get("height", "")) for it in nodes]
    every = [sum(it) for it in (*counts, *zip(*counts))]
    assert all(abs(it / heights[0] - many / 40) < 0.01 for it, many in zip(heights, every))
    texts = [it.text for it in found.iter(f"{SVG}text")]
    assert "C  45" in texts and "43 (47.3%)" in texts


def test_stacked_bars_stay_within_the_whole() -> None:
    """Also where plans go beyond the places."""
    found = parsed(str(pictures.stacked([(60, "has"), (30, "second"), (30, "plan")], 100)))
    assert [float(it.get("width", "")) for it in found] == [100, 60, 30, 10]
    assert len(list(parsed(str(pictures.stacked([(0, "has")], 0))))) == 1
