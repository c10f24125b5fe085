"""Letters by hand, and beside the model of examples/season: what a mail merge and a template have,
what a PDF shows, and that each is the letter that the program prints.
"""
import base64
import datetime
import json
import shutil
import subprocess
from collections.abc import Callable, Mapping, Sequence
from pathlib import Path
from typing import Any

import model_season
import pikepdf
import pytest
from conftest import PROGRAM, Command, apply, child, do, make, school
from files import register_of
from register_files import Refused

from office.core import model
from office.web.letters import proved_texts
from office.web.letters import fields as letter_fields
from office.web.letters import pdf as letter_pdf
from office.web.letters.fields import Letter

# a picture of one point
RED_PNG = (
    "iVBORw0KGgoAAAANSUhEUgAAAAEAAAABCAIAAACQd1PeAAAADElEQVR4nGP4z8AAAAMBAQDJ/pLvAAAAAElFTkSuQmCC"
)
NAMES = {
    1: 'Ann "Nan" O\'Abel', 2: "<script>alert(1)</script>", 3: "Siân Tŷ Gwyn Ŵyn", 4: "محمد علي",
    5: "=SUM(A1)", 6: "שרה כהן", 7: "Bo & Bell, jr.",
}
OAK, ELM = 'Oak "Tŷ" <b>', "مدرسة الزيتون"


OFFER_DAY = "2025-03-03"
STANDARD = Path(letter_pdf.TEMPLATE).read_text("utf-8")
Letters = dict[int, Letter]


def answer(name: str, number: int, code: str, **more: object) -> Command:
    """A command of a child and a school."""
    return {"cmd": name, "child": number, "school": code, **more}


def held(lots: Sequence[int]) -> Command:
    """The first round."""
    return {"cmd": "round", "draw": 1, "day": "2025-03-03", "lots": list(lots)}


def town(tmp_path: Path) -> Path:
    """Oak has 2 places, one by a plan for child 7; Elm has 3; 5 has declined; 6 has no application.
    1 and 2 want Oak; 2 is its sibling.
    """
    make(tmp_path / "reg.db", [
        school("OAK", pan=2, criteria=["sibling", "within:100"], name=OAK),
        school("ELM", pan=4, east=1000, name=ELM),
        *(child(it, east=10 * it, name=NAMES[it], siblings=["OAK"] if it == 2 else [])
          for it in NAMES),
        *(apply(it, ["OAK", "ELM"]) for it in (1, 2, 3, 4)), apply(5, ["ELM"]),
        answer("name_plan", 7, "OAK"),
    ])
    shutil.copy(tmp_path / "reg.db", tmp_path / "before.db")
    do(tmp_path / "reg.db", [held([1, 2, 3, 4, 5, 1, 2, 3, 4])])
    return tmp_path / "reg.db"


def hold_first(reg: Path) -> None:
    """Holds the first round, with lots in the order of the pairs."""
    ran = subprocess.run([PROGRAM, "pairs", reg], capture_output=True, text=True, check=True)
    do(reg, [held(range(len(ran.stdout.splitlines())))])


def made(
    reg: Path, before: Path | None = None, flags: dict[int, str] | None = None,
    day: str = OFFER_DAY,
) -> Letters:
    """The letters of all children of a register, which are those that the program prints."""
    register = register_of(reg)
    writer = letter_fields.Writer(
        register, register_of(before) if before else None, flags, datetime.date.fromisoformat(day))
    found = {it: writer.letter(it) for it in register.children}
    proved_texts.compare(found.values(), {it: letter_of(reg, it) for it in found})
    return found


def rows_of(letters: Letters) -> dict[int, dict[str, str]]:
    """The rows of a mail merge, by child."""
    header, *rows = letter_fields.merge_rows(letters.values(), [], {})
    texts = [["" if it is None else str(it) for it in row] for row in rows]
    return {int(it[0]): dict(zip(map(str, header), it, strict=True)) for it in texts}


def pdf_of(
    folder: Path, letters: Letters, template: str = STANDARD, day: str = OFFER_DAY,
    address: Mapping[int, list[str]] | None = None,
) -> tuple[bytes, list[int]]:
    """The PDF of letters by a template whose pictures are in a folder, and the pages of each."""
    made_of, on = letter_pdf.template_of("letter.html", template.encode()), (
        datetime.date.fromisoformat(day))
    pages = [letter_pdf.html_of(made_of, "letter.html", it, (address or {}).get(it.child, []), on)
             for it in letters.values()]
    return letter_pdf.laid_out(pages, str(folder.resolve()))


def pages_of(folder: Path, letters: Letters, **given: Any) -> dict[int, list[str]]:
    """The text of each page of each letter on one line, in the order in which it was drawn."""
    data, counts = pdf_of(folder, letters, **given)
    ran = subprocess.run(["pdftotext", "-raw", "-", "-"], input=data, capture_output=True,
                         check=True)
    pages = iter(ran.stdout.decode().split("\f"))
    return {number: [" ".join(next(pages).split()) for _ in range(count)]
            for number, count in zip(letters, counts, strict=True)}


def texts_of(folder: Path, letters: Letters, **given: Any) -> dict[int, str]:
    """The text of each letter."""
    return {it: " ".join(them) for it, them in pages_of(folder, letters, **given).items()}


def letter_of(reg: Path, number: int) -> bytes:
    """The letter that the program prints."""
    words = [PROGRAM, "letter", str(reg), str(number)]
    return subprocess.run(words, capture_output=True, check=True).stdout


def test_a_picture_is_in_its_letter(tmp_path: Path) -> None:
    letters = made(town(tmp_path))
    (tmp_path / "red.png").write_bytes(base64.b64decode(RED_PNG))
    template = 'Child {{ letter.child }}{% if letter.child == 2 %}<img src="red.png">{% endif %}'
    for number, pictures in ((1, 0), (2, 1), (3, 0)):
        data, _ = pdf_of(tmp_path, {number: letters[number]}, template)
        (tmp_path / f"{number}.pdf").write_bytes(data)
        with pikepdf.open(tmp_path / f"{number}.pdf") as pdf:
            streams = [it for it in pdf.objects if isinstance(it, pikepdf.Stream)]
            assert sum(it.get("/Subtype") == "/Image" for it in streams) == pictures, number


def test_a_mail_merge_by_hand(tmp_path: Path) -> None:
    """Each kind of place: an offer with its days, a plan, none, no application; positions, criteria
    in words.
    """
    reg = town(tmp_path)
    do(reg, [
        answer("accept", 3, "ELM"), answer("remind", 4, "ELM", day="2025-03-17"),
        answer("decline", 5, "ELM"),
    ])
    rows = rows_of(made(reg))
    keys = ("state", "school", "preference", "offered", "answer_by", "answer_by_words", "reminded",
            "criterion_code", "criterion", "metres")
    alone = "ranked by distance alone"
    wanted = {
        2: ["offered", "OAK", "1", "2025-03-03", "2025-03-17", "17 March 2025", "", "sibling",
            "with a brother or sister at the school", "20"],
        4: ["offered", "ELM", "2", "2025-03-03", "2025-03-31", "31 March 2025", "2025-03-17",
            "none", alone, "960"],
        3: ["accepted", "ELM", "2", "", "", "", "", "none", alone, "970"],
        7: ["plan", "OAK", "", "", "", "", "", "plan", "named by an EHC plan", ""],
    }
    for number, cells in wanted.items():
        assert [rows[number][it] for it in keys] == cells
    words = (rows[4]["offered_words"], rows[4]["reminded_words"])
    assert words == ("3 March 2025", "17 March 2025")
    assert [rows[it]["state"] for it in (5, 6)] == ["none", "none"]
    assert rows[5]["waiting_1_school"] == "" == rows[3]["waiting_2_school"]
    columns = ("school", "name", "position", "of", "criterion", "metres")
    assert [rows[3][f"waiting_1_{it}"] for it in columns] == [
        "OAK", OAK, "2", "3", "living within 100 metres of the school", "30"]
    assert [rows[it]["name"] for it in NAMES] == list(NAMES.values())
    assert rows[3]["school_name"] == ELM


def test_the_place_that_ended(tmp_path: Path) -> None:
    """A fill moves a child that had accepted Elm to Oak: with the copy from before it the letter
    names Elm. By a decline and by a plan it ends too.
    """
    reg = town(tmp_path)
    do(reg, [answer("accept", 1, "ELM"), answer("decline", 2, "OAK")])
    shutil.copy(reg, tmp_path / "copy.db")
    fill = {"cmd": "fill", "draw": 2, "school": "OAK", "day": "2025-04-07", "lots": [1, 2, 3]}
    assert do(reg, [fill])[0]["child"] == 1
    do(reg, [answer("decline", 3, "ELM"), answer("name_plan", 4, "OAK")])
    letters = made(reg, tmp_path / "copy.db", day="2025-04-07")
    rows = rows_of(letters)
    ended = {it: one["ended_because"] for it, one in rows.items() if one["ended_school"]}
    assert set(ended) == {1, 3, 4} and all(rows[it]["ended_school"] == "ELM" for it in ended)
    assert "which you prefer" in ended[1] and "declined" in ended[3] and "EHC plan" in ended[4]
    text = texts_of(tmp_path, letters, day="2025-04-07")
    assert "has ended, because" in text[1]
    assert "7 April 2025" in text[1] and "21 April 2025" in text[1]
    assert "has ended" not in text[2]


def test_a_copy_that_is_not_from_before(tmp_path: Path) -> None:
    """By a plan that nothing ends it is known: child 7 has Oak by one in the copy, and no place in
    the register.
    """
    town(tmp_path)
    make(tmp_path / "early.db", [school("OAK"), child(7, name=NAMES[7])])
    with pytest.raises(Refused, match="child 7 has a place by a plan there, which nothing ends"):
        made(tmp_path / "early.db", tmp_path / "reg.db")


def test_declined_lapsed_and_late(tmp_path: Path) -> None:
    """By hand: 1 declines Oak, 2 lets it lapse, 3 leaves its list, 6 is late. No appeal against Oak
    is offered to 1 and 2; the lapse names its offer.
    """
    reg = tmp_path / "reg.db"
    make(reg, [
        school("OAK", pan=2, criteria=["flag:7"]), school("ELM", pan=1, east=1000),
        *(child(it, east=250 * it, flags=[7] if it < 3 else []) for it in (1, 2, 3, 4, 6)),
        *(apply(it, ["OAK", "ELM"] if it == 3 else ["ELM", "OAK"]) for it in (1, 2, 3)),
        apply(4, ["ELM"]), apply(6, ["OAK"], "2024-11-05"),
    ])
    hold_first(reg)
    had = [letter_of(reg, it) for it in (1, 2, 3)]
    assert b"Place: OAK" in had[0] and b"Place: OAK" in had[1] and b"Place: none" in had[2], had
    do(reg, [
        answer("decline", 1, "OAK"), answer("leave_list", 3, "OAK"),
        answer("remind", 2, "OAK", day="2025-03-17"),
    ])
    shutil.copy(reg, tmp_path / "copy.db")
    do(reg, [answer("lapse", 2, "OAK", day="2025-03-31")])
    day = "2025-04-01"
    letters = made(reg, tmp_path / "copy.db", {7: "social or medical need"}, day)
    rows, text = rows_of(letters), texts_of(tmp_path, letters, day=day)
    late = {it: row["late"] for it, row in rows.items()}
    assert late == {1: "", 2: "", 3: "", 4: "", 6: "yes"}
    assert {it: row["appeal"] for it, row in rows.items()} == {
        1: "ELM School", 2: "ELM School", 3: "OAK School; ELM School", 4: "", 6: "OAK School"}
    said = ("5 November 2024 came after the closing date, 31 October 2024, and took no part in the"
            " first round")
    assert said in text[6] and "closing date" not in text[1]
    lapsed = ("our offer of 3 March 2025, of which we reminded you on 17 March 2025, was declined,"
              " or was withdrawn because it was not answered")
    assert (rows[2]["ended_school"], rows[2]["ended_because"]) == ("OAK", lapsed)
    assert lapsed in text[2]
    for it in (1, 2):
        assert "against the refusal of a place at ELM School, whether" in text[it]
        assert "not waiting: declined, or not answered in time" in text[it]
    assert "of a place at each of these schools, whether" in text[3]
    assert "a verified priority: social or medical need" in text[1] and "flag 7" not in text[1]
    assert "not waiting: you left its list" in text[3] and "not waiting:" not in text[6]
    assert "of a place at this school, whether" in text[6]


def test_a_place_that_cannot_have_lapsed(tmp_path: Path) -> None:
    """By hand. Offers of 3 March can be withdrawn from 31 March on, 14 days after a reminder of 17
    March. Child 2 declines Oak unreminded, child 3 after its reminder of 20 March, so that its
    offer could be withdrawn from 3 April on. A letter of an earlier day says that the family
    declined it; a later one cannot tell.
    """
    reg = tmp_path / "reg.db"
    make(reg, [
        school("OAK", pan=2), school("ELM", pan=2, east=1000),
        *(child(it, east=10 * it) for it in (2, 3, 4)),
        *(apply(it, ["OAK", "ELM"]) for it in (2, 3, 4)),
    ])
    do(reg, [held([1, 2, 3, 1, 2, 3]), answer("remind", 3, "OAK", day="2025-03-20")])
    shutil.copy(reg, tmp_path / "copy.db")
    do(reg, [answer("decline", it, "OAK") for it in (2, 3)])
    declined, either = "you declined it", "declined, or was withdrawn because it was not answered"
    one = f"our offer of 3 March 2025 was {either}"
    other = f"our offer of 3 March 2025, of which we reminded you on 20 March 2025, was {either}"
    for day, wanted in (
        ("2025-03-30", {2: declined, 3: declined}), ("2025-03-31", {2: one, 3: declined}),
        ("2025-04-02", {2: one, 3: declined}), ("2025-04-03", {2: one, 3: other}),
    ):
        rows = rows_of(made(reg, tmp_path / "copy.db", day=day))
        because = {it: row["ended_because"] for it, row in rows.items() if row["ended_because"]}
        assert because == wanted, day
    text = {}
    for name, day in (("early", "2025-03-30"), ("late", "2025-03-31")):
        text[name] = texts_of(tmp_path, made(reg, day=day), day=day)[2]
        assert "refusal of a place at ELM School, whether" in text[name]
    assert "not waiting: declined" in text["early"] and "answered in time" not in text["early"]
    assert "not waiting: declined or" not in text["early"]
    assert "not waiting: declined, or not answered in time" in text["late"]


def test_why_a_school_refused(tmp_path: Path) -> None:
    """By hand. Oak's two places go to 1, a sibling, and to 2, at 100 metres with a smaller lot than
    3; 4 lives farther. Fir's one goes to 5 with flag 7, before 6, which has it too, and 7. Yew's is
    by a plan. 10 is late. Once 2 has declined and 4 has moved near, neither letter has a reason.
    """
    reg = tmp_path / "reg.db"
    homes = {1: 900, 2: 100, 3: 100, 4: 300, 5: 500, 6: 800, 7: 5, 8: 5, 9: 5, 10: 5}
    make(reg, [
        school("OAK", pan=2, criteria=["sibling"]), school("FIR", pan=1, criteria=["flag:7"]),
        school("YEW", pan=1),
        *(child(it, east=at, flags=[7] if it in (5, 6) else [], siblings=["OAK"] if it == 1 else [])
          for it, at in homes.items()),
        *(apply(it, ["OAK"]) for it in (1, 2, 3, 4)), *(apply(it, ["FIR"]) for it in (5, 6, 7)),
        apply(9, ["YEW"]), apply(10, ["OAK"], "2024-11-05"), answer("name_plan", 8, "YEW"),
        held([1, 2, 3, 1, 2, 9, 4, 1]),
    ])
    near = "the last place was offered to a child meeting no criterion of the school, who lives"
    flag = "the last place was offered to a child with a verified priority: need"
    assert reasons(reg) == {
        1: [], 2: [], 3: [f"{near} as near, and has a smaller lot"],
        4: [f"{near} nearer, at 100 metres from the school"], 5: [],
        6: [f"{flag}, who lives nearer, or as near and with a smaller lot"],
        7: [f"{flag}, and such children rank before yours"], 8: [],
        9: ["no place was left to be offered"], 10: [None],
    }
    do(reg, [answer("decline", 2, "OAK"), {**child(4, east=50), "cmd": "amend"}])
    found = reasons(reg)
    assert found[2] == found[4] == [None]
    assert found[3] == [f"{near} as near, and has a smaller lot"]


def reasons(reg: Path) -> dict[int, list[str | None]]:
    """Why each child has no place at the schools above its own, as its letter says it."""
    register = register_of(reg)
    writer = letter_fields.Writer(register, flags={7: "need"}, day=datetime.date(2025, 3, 3))
    return {it: [one.refused for one in writer.letter(it).listed] for it in register.children}


def test_waiting_lists_are_named_where_the_child_waits(tmp_path: Path) -> None:
    """By hand: in the town 2 has its first preference, 1, 3 and 4 wait for Oak. The letter of 2
    says nothing of waiting lists that it would remain on.
    """
    text = texts_of(tmp_path, made(town(tmp_path)))
    assert all("whether you accept or decline this place" in text[it] for it in (1, 2, 4))
    assert "waiting list" not in text[2]
    said = "If you accept it you remain on the waiting list named below."
    assert all(said in text[it] for it in (1, 4))


def test_a_place_that_can_end_by_a_later_draw(tmp_path: Path) -> None:
    """By hand: both schools are at one point, with a place each. 1 lives nearest and has Oak. 2 is
    next, has accepted Elm and waits at Oak. 3 waits at both. Only 2 has a place that a fill can
    replace, and a fill does.
    """
    make(tmp_path / "reg.db", [
        school("OAK", pan=1, name="Oak School"), school("ELM", pan=1, name="Elm School"),
        *(child(it, east=100 * it) for it in (1, 2, 3)),
        *(apply(it, ["OAK", "ELM"]) for it in (1, 2, 3)), held([1, 2, 3, 3, 1, 2]),
    ])
    do(tmp_path / "reg.db", [answer("accept", 1, "OAK"), answer("accept", 2, "ELM")])
    text = texts_of(tmp_path, made(tmp_path / "reg.db"))
    said = ("If your child is offered a place from a waiting list later, it replaces the place at"
            " Elm School, even if you have accepted that one.")
    assert [said in text[it] for it in (1, 2, 3)] == [False, True, False]
    assert "it replaces the place" not in text[3]
    do(tmp_path / "reg.db", [answer("decline", 1, "OAK"), {
        "cmd": "fill", "draw": 2, "school": "OAK", "day": "2025-04-07", "lots": [1, 2]}])
    place = next(it for it in letter_of(tmp_path / "reg.db", 2).decode().splitlines()
                 if it.startswith("Place:"))
    assert place == "Place: OAK Oak School, offered 2025-04-07"


def test_the_end_is_not_alone(tmp_path: Path) -> None:
    """Letters of one to ten schools with long names: where there is a second page, it has the last
    paragraph and not the signature alone.
    """
    codes = [f"S{it}" for it in range(10)]
    criteria = ["sibling", "within:900", "flag:2", "flag:3"]
    name = "{0} Community Primary and Nursery School of the Blessed and Venerable {0}".format
    make(tmp_path / "reg.db", [
        *(school(it, pan=1, criteria=criteria[: at % 5], name=name(it))
          for at, it in enumerate(codes)),
        child(99, east=1), *(child(it, east=100 + it) for it in range(1, 11)),
        *(apply(it, codes[:it]) for it in range(1, 11)),
    ])
    hold_first(tmp_path / "reg.db")
    found, seconds = pages_of(tmp_path, made(tmp_path / "reg.db")), 0
    for it in range(1, 11):
        pages = found[it]
        if len(pages) > 1:
            seconds += 1
            has_answer = "If you accept it" in pages[-1] and "Yours faithfully" in pages[-1]
            assert "right to appeal" in pages[-1] or has_answer, (it, pages)
        assert "Yours faithfully" in pages[-1]
    assert seconds > 1


def test_an_error_of_a_template_is_named(tmp_path: Path) -> None:
    letters = made(town(tmp_path))
    wrong = [("{% if %}", "line 1"), ("{{ letter.nmae }}", "nmae"),
             ("{{ letter.ended_school | day }}", "letter.html")]
    wrong += [(f'<img src="{it}">', "no file in its folder")
              for it in ("none.png", "/etc/hostname", "http://127.0.0.1:9/a.png")]
    for bad, said in wrong:
        with pytest.raises(Refused, match=said):
            pdf_of(tmp_path, letters, bad)


def test_a_letter_that_is_not_the_programs_is_refused(tmp_path: Path) -> None:
    reg = town(tmp_path)
    letters, proved = made(reg), {it: letter_of(reg, it) for it in NAMES}
    other = {**proved, 3: proved[3].replace(b"position 2 of", b"position 1 of")}
    with pytest.raises(Refused, match="the letter of child 3 is not what the program prints"):
        proved_texts.compare(letters.values(), other)


# what is changed in the document of the register for child 3, which waits at Oak at position 2 of 3
# in class 2 at 30 metres, and has Elm
CHANGES: dict[str, Callable[[Any, Any, Any], object]] = {
    "position": lambda it, child, wish: wish.update(position=1),
    "of": lambda it, child, wish: wish.update(of=4),
    "class": lambda it, child, wish: wish.update({"class": 3}),
    "metres": lambda it, child, wish: wish.update(metres=31),
    "state": lambda it, child, wish: (
        wish.update(state="below"), wish.pop("position"), wish.pop("of")),
    "place": lambda it, child, wish: child["place"].update(kind="accepted"),
    "day": lambda it, child, wish: child["place"].update(offered="2025-03-04"),
    "name": lambda it, child, wish: child.update(name="x"),
    "year": lambda it, child, wish: it["season"].update(year=2026),
}


@pytest.mark.parametrize("change", CHANGES)
def test_a_register_that_is_shown_otherwise(tmp_path: Path, change: str) -> None:
    """A letter has all of this, so none is written where the document differs from it in anything.
    """
    reg = town(tmp_path)
    shown = subprocess.run([PROGRAM, "show", reg], capture_output=True, check=True).stdout
    found = json.loads(shown)
    its_child = found["children"][2]
    wish = its_child["application"]["preferences"][0]
    assert (wish["class"], wish["metres"], wish["position"], wish["of"]) == (2, 30, 2, 3)
    assert its_child["place"]["school"] == "ELM"
    CHANGES[change](found, its_child, wish)
    register = model.of_document(register_of(reg).source, found)
    letter = letter_fields.Writer(register).letter(3)
    with pytest.raises(Refused, match="the letter of child 3 is not what the program prints"):
        proved_texts.compare([letter], {3: letter_of(reg, 3)})


@pytest.mark.parametrize("name, played", [
    ("after-1.db", model_season.after_first), ("reg.db", model_season.after_second),
])
def test_the_example_season(
    season: Path, name: str, played: Callable[[], Any]
) -> None:
    """Each row of a mail merge has what the model's letter of that child has."""
    writer = letter_fields.Writer(register_of(season / name))
    rows, season_of = rows_of({it: writer.letter(it) for it in writer.register.children}), played()
    assert set(rows) == set(season_of.children)
    for number, row in rows.items():
        see_row(row, season_of.places.get(number), season_of.state(number)["waiting"])


def see_row(row: Mapping[str, str], place: Any, waiting: Any) -> None:
    """A row has the place and the waits of the model."""
    is_offered = bool(place) and place["kind"] == "offered"
    kind, code = (place["kind"], place["school"]) if place else ("none", "")
    assert (row["state"], row["school"]) == (kind, code)
    assert row["offered"] == (place["day"] if is_offered else "")
    waits = [(row[f"waiting_{at}_school"], row[f"waiting_{at}_position"]) for at in range(1, 11)]
    wanted = [(it["school"], str(it["position"])) for it in waiting]
    assert [it for it in waits if it[0]] == wanted
    if is_offered:
        start = datetime.date.fromisoformat(place["reminded"] or place["day"])
        assert row["answer_by"] == (start + datetime.timedelta(days=14)).isoformat()


SVG = '<svg xmlns="http://www.w3.org/2000/svg" width="9" height="9">'
ATTACHED = "a letter shows pictures, fonts and style sheets alone"
NAMED = "which is no picture, font or style sheet"
UNSHOWN = "the template names what cannot be shown: Failed to load image"
NESTED = "nested too deeply"
LOOP = "{% for a in range(99999) %}{% for b in range(99999) %}"
END = "{% endfor %}{% endfor %}"
BAD_TEMPLATES = {
    '<a rel="attachment" href="copy.db">x</a>': ATTACHED,
    '<link rel="Attachment" href="crest.svg"><p>x': ATTACHED,
    '<a rel="nofollow attachment" href="style.css">x</a>': ATTACHED,
    '<object data="copy.db"></object>': NAMED,
    '<embed src="copy.db">': NAMED,
    '<img src="logo.png">': NAMED,
    '<link rel="stylesheet" href="reg.css"><p>x': NAMED,
    '<style>@import "list.css";</style><p>x': NAMED,
    "<style>@font-face { font-family: x; src: url(reg.ttf) } p { font-family: x }</style><p>x":
        NAMED,
    "<style>p { background: url(copy.db) }</style><p>x": NAMED,
    '<style>@import "../style.css";</style><p>x': "which is no file in its folder",
    '<img src="outer.svg">': "the picture none.png, which is no file in its folder",
    '<img src="outside.svg">':
        "the picture file:///etc/hostname, which is no file in its folder",
    '<img src="cut.png">': UNSHOWN,
    '<img src="cut.svg">': UNSHOWN,
    '<img src="gone%00.png">':
        "the template names gone\\u0000.png, which is no name of a file",
    "{% macro a() %}{{ a() }}{% endmacro %}{{ a() }}": f"{NESTED}, or a macro calls itself",
    "{{ " + "(" * 999 + "1" + ")" * 999 + " }}": NESTED,
    "{{ " + "not " * 300 + "letter }}": NESTED,
    f"{LOOP}{END}": "a letter by this template takes more than 5 seconds",
    f"{LOOP}many{END}": "a letter by this template has over 1,000,000 characters",
}


def test_a_template_shows_pictures_fonts_and_styles_alone(tmp_path: Path) -> None:
    """A picture, a style sheet and a font of its folder are shown; a register is not, by whatever
    it is named and whatever its name is; and no file is attached.
    """
    letters = made(town(tmp_path))
    for name in ("copy.db", "logo.png", "reg.css", "reg.ttf"):
        shutil.copy(tmp_path / "reg.db", tmp_path / name)
    for name, text in {
        "list.css": "<p>child,name</p>",
        "style.css": "p { color: red }",
        "crest.svg": f'<?xml version="1.0"?>\n<!-- a crest -->\n{SVG}<rect width="9" height="9"/>'
                     "</svg>",
        "outer.svg": f'{SVG}<image href="none.png" width="9" height="9"/></svg>',
        "outside.svg": f'{SVG}<image href="/etc/hostname" width="9" height="9"/></svg>',
        "cut.svg": '<svg xmlns="http://www.w3.org/2000/svg"><rect',
    }.items():
        (tmp_path / name).write_text(text, "utf-8")
    (tmp_path / "cut.png").write_bytes(b"\x89PNG\r\n\x1a\n" + bytes(99))
    for text, said in BAD_TEMPLATES.items():
        with pytest.raises(Refused) as refused:
            pdf_of(tmp_path, {1: letters[1]}, text)
        assert said in str(refused.value), text
    data, _ = pdf_of(
        tmp_path, letters,
        '<link rel="stylesheet" href="style.css"><p>{{ letter.name }}<img src="crest.svg">'
        '<a href="https://example.org">us</a>')
    (tmp_path / "out.pdf").write_bytes(data)
    ran = subprocess.run(["pdfdetach", "-list", tmp_path / "out.pdf"], capture_output=True,
                         text=True, check=True)
    assert ran.stdout == "0 embedded files\n"


WHOLE = """
Example County Council
School Admissions, County Hall, 1 High Street, Exampleton EX1 1AA
admissions@example.gov.uk · 01234 567890
To the parents or carers of
Ann Abel
2 Low Lane
3 March 2025
Secondary school place for September 2025
Dear parent or carer,
A place at Elm School is offered to Ann Abel. It is the second preference of your application.
What you need to do
Please tell us by 17 March 2025 whether you accept or decline this place. If you accept it you
remain on the waiting list named below. If you decline it, it is not offered to you again unless
you apply for it anew.
How places were allotted
A school with more applications than places ranks children by its published criteria, then by the
straight-line distance from home to school, then by a lot drawn under independent supervision. It
makes no difference to a school how high you listed it. Each child is offered the highest of its
preferences at which it ranks high enough.
The order at Elm School is:
children looked after, or previously looked after
children ranked by distance alone
Your child ranked among the children ranked by distance alone, at 850 metres from the school.
Schools that you prefer to this one
School Preference Your child there Distance Waiting list
Oak School first meeting no criterion of the school 150 m position 1 of 1
Why no place: the last place was offered to a child living within 100 metres of the school, and such
children rank before yours.
A waiting list follows the same order, whenever you applied. A position can rise or fall as other
families apply, move or decline places, or as data are corrected. If your child is offered a place
from a waiting list later, it replaces the place at Elm School, even if you have accepted that one.
If you do not want this, ask us to remove your child from the list.
Your right to appeal
You may appeal to an independent panel against the refusal of a place at this school, whether or not
you accept another place. Write to the address above within 20 school days of the date of this
letter, and say for which school. Your position on a waiting list is not affected.
Yours faithfully,
School Admissions, Example County Council
"""


def test_a_whole_letter(tmp_path: Path) -> None:
    """By hand, each word: Oak's one place goes to child 2, who lives within 100 metres; child 1 was
    offered Elm, its second preference, and waits at Oak. A letter may be answered within 14 days,
    and an appeal lodged within 20 school days (School Admission Appeals Code 2022, 2.1).
    """
    make(tmp_path / "reg.db", [
        school("OAK", pan=1, criteria=["sibling", "within:100"], name="Oak School"),
        school("ELM", pan=1, east=1000, name="Elm School"),
        child(1, east=150, name="Ann Abel"), child(2, east=50, name="Bo Bell"),
        apply(1, ["OAK", "ELM"]), apply(2, ["OAK"]), held([1, 2, 1]),
    ])
    letters = {1: made(tmp_path / "reg.db")[1]}
    found = texts_of(tmp_path, letters, address={1: ["2 Low Lane"]})[1].split()
    # (the foot of the page, and the numbers of the list, are in the order in which they were drawn)
    foot = "Child 1 · page 1 of 1"
    assert " ".join(found).count(foot) == 1
    assert [it for it in found if it in ("1.", "2.")] == ["1.", "2."]
    text = " ".join(it for it in found if it not in ("1.", "2."))
    assert text.replace(foot, "").split() == WHOLE.split()
