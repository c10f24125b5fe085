"""Explanations of draws beside a search over the round's problem that shares no code with them
(bench/questions), and beside the audit on the example season; and their sentences, by hand.
"""
import os
import random
import re
import shutil
import subprocess
from pathlib import Path
from typing import Any

import pytest
from by_path import loaded
from conftest import ROOT, apply, child, do, make, school
from files import register_of, write
from register_files import Refused

from office.core import model
from office.core.model import Pair, Register
from office.web.explain import why
from office.web.rounds import held_draw

Draw = int | None


def held_in(register: Register, draw: Draw) -> held_draw.Held:
    """A draw of a register, or its last round."""
    if draw is None:
        return held_draw.of_register(register)
    return held_draw.Held(register, register.draws[draw - 1])


def lines_of(
    found: why.Why, is_office: bool = False, flags: dict[int, str] | None = None,
) -> list[str]:
    """An explanation as lines, an empty one between its sections."""
    lines: list[str] = []
    for at, it in enumerate(why.sections_of(found, is_office, flags)):
        lines += [*([""] if at else []), *it.sentences]
        lines += [f"THERE IS NO REASON: {it.missing}."] if it.missing else []
    return lines


def said(
    path: Path, number: int, is_office: bool = False, draw: Draw = None, copy: Path | None = None,
    flags: dict[int, str] | None = None,
) -> str:
    """The explanation of a child, by the data of now or by those of a copy."""
    after = register_of(path, path.name)
    if copy is None:
        found = why.explain(held_in(after, draw), number)
    else:
        before = register_of(copy, copy.name)
        found = why.explain_again(held_draw.held_again(before, after), before, after, number)
    return "".join(f"{it}\n" for it in lines_of(found, is_office, flags))


ROUNDS = 400
# of so many rounds one is also held again on the copy from before it
AGAIN = 8
# the lots of a round, and the school of each child after it
Lots = dict[Pair, int]
Has = dict[int, str | None]


def search() -> dict[str, Any]:
    """The definitions of bench/questions, without a run of it."""
    return vars(loaded(ROOT / "bench/questions/run"))


def one_round(
    questions: dict[str, Any], seed: int, folder: Path
) -> tuple[Any, Lots, Has, Register, Register]:
    """A random register before and after a round whose outcome is that of the search: the search's
    register, own lists, lots and outcome, and both files.
    """
    chance = random.Random(seed)
    town = questions["Register"](chance)
    for it in town.schools.values():
        it["name"] = f"School {it['school']}"
    earlier = []
    if seed % 2:
        pairs = town.pairs()
        town.hold_round(chance)
        told = next(it for it in town.commands if it["cmd"] == "round")
        said = [
            (it["child"], it["school"], it["cmd"])
            for it in town.commands
            if it["cmd"] in ("accept", "decline")
        ]
        has = {
            entrant: town.places.get(entrant, (None,))[0]
            for entrant in town.lists
            if entrant not in town.late
        }
        has |= {number: code for number, code, word in said if word == "decline"}
        earlier = [
            ("2025-03-03", has, dict(zip(pairs, told["lots"])), {it for it in has if has[it]})
        ]
    lots = questions["drawn"](len(town.pairs()), chance)
    own = {it: town.wanted(it) for it in town.entrants()}
    has = questions["best"](town, own, lots)
    places = {
        number: (code, "plan" if kind == "plan" else "offered")
        for number, (code, kind) in town.places.items()
    }
    fresh = {it for it in has if has[it] and has[it] != town.places.get(it, (None,))[0]}
    lot = dict(zip(town.pairs(), lots))
    before, after = folder / "before.db", folder / "after.db"
    write(before, town.schools, town.children, town.lists, town.late, places, town.left, earlier)
    now = {**places, **{it: (has[it], "offered") for it in fresh}}
    write(
        after,
        town.schools,
        town.children,
        town.lists,
        town.late,
        now,
        town.left,
        [*earlier, ("2025-04-07", has, lot, fresh)],
    )
    return town, lot, has, register_of(before), register_of(after)


def test_random_rounds_beside_the_search(tmp_path: Path) -> None:
    """Each child of each round: what it got, and at each school above that its places, who was
    admitted, the last of them, and what decided. Held again on the copy, a round is explained so
    too.
    """
    questions = search()
    counts = dict.fromkeys(
        (
            "schools",
            "class",
            "distance",
            "lot",
            "nobody",
            "left",
            "kept",
            "out",
            "refused",
            "keeps",
            "moved",
            "plans",
            "full",
            "planned",
            "late",
        ),
        0,
    )
    for seed in range(ROUNDS):
        town, lot, has, before, after = one_round(questions, seed, tmp_path)
        held = held_in(after, None)
        again = held_draw.held_again(before, after) if seed % AGAIN < 2 else None
        for number in town.children:
            found = why.explain(held, number)
            assert found.takes_part == (number in has)
            had = town.places.get(number, (None,))[0]
            if again:
                of_copy = why.explain_again(again, before, after, number)
                assert (of_copy.schools, of_copy.got) == (found.schools, found.got)
                assert not of_copy.is_amended and of_copy.had == had
            if number not in has:
                counts["out"] += 1
                counts["planned"] += number in town.places
                counts["late"] += number in town.late
                continue
            counts["refused"] += has[number] is None
            counts["keeps"] += had is not None and has[number] == had
            counts["moved"] += had is not None and has[number] != had
            assert found.got == has[number]
            assert found.had == (had if has[number] == had else None)
            listed = town.lists[number]
            assert [it.code for it in found.schools] == (
                listed[: listed.index(has[number])] if has[number] else listed
            )
            for it in found.schools:
                beside(questions, town, lot, has, number, it, counts)
    assert counts["schools"] > 200 and min(counts.values()) > 5, counts


def beside(
    questions: dict[str, Any],
    town: Any,
    lot: Lots,
    has: Has,
    number: int,
    found: why.School,
    counts: dict[str, int],
) -> None:
    """One school of one child, counted by the search's definitions alone."""
    code = found.code
    counts["schools"] += 1
    assert bool(found.because) == ((number, code) in town.left)
    if found.because:
        counts["left"] += 1
        return
    own = {it: town.places.get(it, (None,))[0] for it in has}
    plans = sum(1 for where, kind in town.places.values() if where == code and kind == "plan")
    kept = [it for it in has if has[it] == code == own[it]]
    pan = town.schools[code]["pan"]
    assert (found.pan, found.plans, found.kept) == (pan, plans, len(kept))
    counts["kept"] += bool(kept)
    counts["plans"] += bool(plans)
    counts["full"] += plans >= pan
    keys = {
        one: (*questions["standing"](town.schools[code], town.children[one]), lot[code, one])
        for where, one in lot
        if where == code
    }
    new = [it for it in keys if has[it] == code]
    assert (found.wanted, found.admitted) == (len(keys), len(new)) and found.key == keys[number]
    classes = [keys[it][0] for it in new]
    assert found.classes == {it: classes.count(it) for it in sorted(set(classes))}
    last = max((keys[it] for it in new), default=None)
    assert found.last == last
    decided = "nobody"
    if last:
        kinds = zip(("class", "distance", "lot"), keys[number], last)
        decided = next(name for name, one, other in kinds if one != other)
    assert found.decided == decided
    counts[decided] += 1


def test_an_outcome_that_is_not_of_the_data(tmp_path: Path) -> None:
    """Outcomes that were changed by hand: a child that ranks after another has its place, which
    gives no reason; or a place stays free. On the copy from before it neither is the outcome of the
    round.
    """
    schools = {
        "A": {"school": "A", "name": "Alpha", "pan": 1, "east": 0, "north": 0, "criteria": []}
    }
    children = {
        it: {
            "child": it,
            "name": f"C{it}",
            "east": 100 * it,
            "north": 0,
            "looked_after": False,
            "flags": [],
            "siblings": [],
        }
        for it in (1, 2)
    }
    lists, lots = {1: ["A"], 2: ["A"]}, {("A", 1): 5, ("A", 2): 3}
    write(tmp_path / "before.db", schools, children, lists)
    filled = ": each school on the list was filled by children who rank before it there."
    no_reason = "THERE IS NO REASON: the details of this child, or of one that was admitted"
    cases: list[tuple[dict[int, str | None], str, str, bool]] = [
        ({1: "A", 2: None}, filled, "the distance decided", True),
        ({1: None, 2: "A"}, ".", no_reason, False),
        ({1: None, 2: None}, ": each school on the list was full.", "0 were admitted.", False),
    ]
    for outcomes, nowhere, part, is_of_copy in cases:
        write(
            tmp_path / "after.db",
            schools,
            children,
            lists,
            draws=[("2025-03-03", outcomes, lots, {it for it in outcomes if outcomes[it]})],
        )
        number, after = 2 if outcomes[1] else 1, tmp_path / "after.db"
        text = said(after, number)
        assert part in text and f"\nYour child got no place{nowhere}\n" in text
        if is_of_copy:
            assert said(after, number, copy=tmp_path / "before.db")
        else:
            with pytest.raises(Refused, match="before.db is not from right before draw 1 of"
                               " after.db: held again, the draw has another outcome"):
                said(after, number, copy=tmp_path / "before.db")


def test_the_sentences_of_a_family(tmp_path: Path) -> None:
    """Worked by hand. Oak has 3 places, one by a plan. Of six that want it, a sibling and the
    nearest get the two others; two at the same distance have lots 9 and 4.
    """
    oak = {
        "school": "OAK",
        "name": "Oak School",
        "pan": 3,
        "east": 0,
        "north": 0,
        "criteria": ["sibling"],
    }
    elm = {"school": "ELM", "name": "Elm School", "pan": 9, "east": 900, "north": 0, "criteria": []}
    homes = {1: 50, 2: 700, 3: 400, 4: 400, 5: 800}
    children = {
        it: {
            "child": it,
            "name": f"C{it}",
            "east": at,
            "north": 0,
            "looked_after": False,
            "flags": [],
            "siblings": ["OAK"] if it == 2 else [],
        }
        for it, at in homes.items()
    }
    lists = {2: ["OAK"], 3: ["OAK", "ELM"], 4: ["OAK"], 5: ["OAK", "ELM"]}
    lots = {
        ("OAK", 2): 1,
        ("OAK", 3): 9,
        ("OAK", 4): 4,
        ("OAK", 5): 2,
        ("ELM", 3): 7,
        ("ELM", 5): 8,
    }
    write(tmp_path / "b.db", {"OAK": oak, "ELM": elm}, children, lists, places={1: ("OAK", "plan")})
    has = {2: "OAK", 3: "ELM", 4: "OAK", 5: "ELM"}
    now = {1: ("OAK", "plan"), **{it: (at, "offered") for it, at in has.items()}}
    write(
        tmp_path / "a.db",
        {"OAK": oak, "ELM": elm},
        children,
        lists,
        places=now,
        draws=[("2025-03-03", has, lots, set(has))],
    )
    before, after = register_of(tmp_path / "b.db"), register_of(tmp_path / "a.db")
    held = held_draw.held_again(before, after)
    found = {it: why.explain_again(held, before, after, it) for it in children}
    lines = lines_of(found[3], is_office=True)
    assert lines == [
        "For the office alone: it has numbers that are not published",
        "Admission 2025 secondary, round 1 of 3 March 2025",
        "Child 3 C3",
        "",
        "The child was offered Elm School (ELM), the second preference.",
        "",
        "Oak School (OAK), first preference: no place.",
        "The school has 3 places. 1 of them is taken by an EHC plan.",
        "4 children listed the school in this round, this child among them. 4 of them put it first."
        " 2 were admitted:",
        "- with a brother or sister at the school: 1",
        "- by distance (no criterion met): 1",
        "The last child admitted: by distance (no criterion met), 400 metres, lot 4.",
        "This child: by distance (no criterion met), 400 metres, lot 9.",
        (
            "Both rank equally by the criteria and live at the same distance, and the lot decided:"
            " the smaller one ranks first."
        ),
    ]
    text = "\n".join(lines_of(found[5], is_office=True))
    assert text.endswith(
        "The last child admitted: by distance (no criterion met), 400 metres.\n"
        "This child: by distance (no criterion met), 800 metres.\n"
        "Both rank equally by the criteria, and the distance decided: the other child lives nearer"
        " to the school."
    )
    lines = lines_of(found[3])
    assert lines[0] == "For the family of the child: small numbers are withheld" and lines[
        -1
    ].startswith("Where this says 'some', the number is withheld")
    for it in (
        "The school has 3 places. Some of them are taken by EHC plans.",
        (
            "Some children listed the school in this round, your child among them. As many were"
            " admitted as places were left."
        ),
        "The last child admitted: by distance (no criterion met), 400 metres, lot 4.",
        "Your child: by distance (no criterion met), 400 metres, lot 9.",
    ):
        assert it in lines, (it, lines)
    assert not any(it.startswith("- ") or "put it first" in it for it in lines), lines
    # (a family does not know the numbers of the classes)
    assert not any("class" in it for number in found for it in lines_of(found[number]))
    assert "by an EHC plan" in "\n".join(lines_of(found[1]))
    assert lines_of(found[2])[-1].endswith(", the first preference.")


def test_what_a_family_does_not_read(tmp_path: Path) -> None:
    """By hand. Oak has 8 places: 7 by flag 7, the farthest of them 700 metres away, and 1 looked
    after. Of 9 that want it child 20 gets none. Family and office.
    """
    flagged = [child(it, east=100 * it, flags=[7]) for it in range(1, 8)]
    make(
        tmp_path / "reg.db",
        [
            school("OAK", pan=8, criteria=["flag:7", "sibling"]),
            *flagged,
            child(9, east=5000, looked_after=True),
            child(20, east=10),
            child(21, east=800, flags=[7]),
            *(apply(it, ["OAK"]) for it in (*range(1, 8), 9, 20, 21)),
        ],
    )
    shutil.copy(tmp_path / "reg.db", tmp_path / "before.db")
    do(
        tmp_path / "reg.db",
        [{"cmd": "round", "draw": 1, "day": "2025-03-03", "lots": list(range(10))}],
    )
    reg = tmp_path / "reg.db"
    family = said(reg, 20, flags={7: "social or medical need"})
    assert family.startswith("For the family of the child: small numbers are withheld\n")
    for it in (
        (
            "The last child admitted: social or medical need;"
            " the distance is withheld.\n"
        ),
        "10 children listed the school in this round, your child among them. 10 of them put it"
        " first. 8 were admitted.",
        "The criterion decided",
    ):
        assert it in family, (it, family)
    assert "700 metres" not in family and ": 1\n" not in family
    near = said(reg, 21)
    assert (
        "700 metres" not in near
        and "the distance, or between equal distances the lot, decided" in near
        and "verified reason 7" in near
    )
    whole = said(reg, 20, is_office=True)
    assert (
        whole.startswith("For the office alone")
        and "8 were admitted:\n- looked after, or previously looked after: 1\n" in whole
        and "\n- verified reason 7: 7\n" in whole
        and "700 metres" in whole
        and "some" not in whole.lower()
    )


def test_what_was_changed_after_the_round(tmp_path: Path) -> None:
    """With the copy from before the round an admission number that was raised, a child that was
    amended and a new school leave the explanation as it was; without it, it is by the data of now.
    By hand: child 1 lives 50 metres from Oak and child 2, which has it, 10; then 5,000 metres.
    """
    make(
        tmp_path / "reg.db",
        [
            school("OAK", pan=1),
            school("ELM", pan=1, east=900),
            child(1, east=50),
            child(2, east=10),
            *(apply(it, ["OAK", "ELM"]) for it in (1, 2)),
        ],
    )
    shutil.copy(tmp_path / "reg.db", tmp_path / "before.db")
    do(
        tmp_path / "reg.db",
        [{"cmd": "round", "draw": 1, "day": "2025-03-03", "lots": [2, 1, 4, 3]}],
    )
    reg, before = tmp_path / "reg.db", tmp_path / "before.db"
    first = said(reg, 1, True)
    assert said(reg, 1, True, copy=before) == first
    do(tmp_path / "reg.db", [{"cmd": "raise_pan", "school": "OAK", "pan": 3}, school("ASH", pan=1)])
    assert said(reg, 1, True, copy=before) == first and "The school has 1 place." in first
    assert said(reg, 1, True) == first.replace("has 1 place.", "has 3 places.")
    do(tmp_path / "reg.db", [{**child(1, east=5000), "cmd": "amend"}])
    found = said(reg, 1, True, copy=before)
    changed = (
        "The details of this child were changed since. This uses the earlier ones, which decided.\n"
    )
    assert found.count(changed) == 1 and found.replace(changed, "") == first
    assert "50 metres" in first
    assert "This child: ranked by distance alone, 5,000 metres." in said(reg, 1, True)
    do(tmp_path / "reg.db", [{**child(1, east=5), "cmd": "amend"}])
    assert said(reg, 1, True).endswith(
        "THERE IS NO REASON: the details of this child, or of one that was admitted, were changed"
        " since.\n")
    make(
        tmp_path / "other.db",
        [
            school("OAK", pan=1),
            *(child(it) for it in (1, 2)),
            *(apply(it, ["OAK"]) for it in (1, 2)),
        ],
    )
    shutil.copy(tmp_path / "other.db", tmp_path / "early.db")
    do(
        tmp_path / "other.db",
        [
            {"cmd": "raise_pan", "school": "OAK", "pan": 2},
            {"cmd": "round", "draw": 1, "day": "2025-03-03", "lots": [2, 1]},
        ],
    )
    with pytest.raises(Refused, match="early.db is not from right before draw 1 of other.db: held"
                                      " again, the draw has another outcome"):
        said(tmp_path / "other.db", 1, copy=tmp_path / "early.db")


def test_a_plan_that_was_named_since(tmp_path: Path) -> None:
    """Of whoever has a plan since the round the register shows no class and no distance: the
    explanations of that child and of another are as they were.
    """
    make(
        tmp_path / "reg.db",
        [
            school("OAK", pan=1),
            school("ELM", pan=1, east=900),
            *(child(it, east=50 * it) for it in (1, 2, 3)),
            *(apply(it, ["OAK", "ELM"]) for it in (1, 2, 3)),
        ],
    )
    shutil.copy(tmp_path / "reg.db", tmp_path / "before.db")
    do(
        tmp_path / "reg.db",
        [{"cmd": "round", "draw": 1, "day": "2025-03-03", "lots": [3, 2, 1, 6, 5, 4]}],
    )
    reg, before = tmp_path / "reg.db", tmp_path / "before.db"
    first = [said(reg, it, True, copy=before) for it in (1, 2, 3)]
    # (by hand: OAK is at 0 and ELM at 900 metres, so child 1 has OAK, and child 3 has ELM before
    # child 2)
    for it in (
        "The last child admitted: ranked by distance alone, 50 metres.",
        "This child: ranked by distance alone, 100 metres.",
        "The last child admitted: ranked by distance alone, 750 metres.",
        "This child: ranked by distance alone, 800 metres.",
    ):
        assert it in first[1], first[1]
    do(tmp_path / "reg.db", [{"cmd": "name_plan", "child": it, "school": "ELM"} for it in (1, 2)])
    shown = register_of(reg)
    assert set(shown.applications) == {3} and shown.schools["ELM"].plans == 2
    assert [said(reg, it, True, copy=before) for it in (1, 2, 3)] == first
    # (without the copy: of child 3 all is known, also how child 1 ranked, which has a plan now)
    assert said(reg, 3, True).endswith(
        "The last child admitted: ranked by distance alone, 50 metres.\n"
        "This child: ranked by distance alone, 150 metres.\n"
        "Both rank equally by the criteria, and the distance decided: the other child lives nearer"
        " to the school.\n"
    )
    assert said(reg, 2).splitlines()[4:] == [
        "Your child got no place.",
        "The application has ended since, by an EHC plan, so the register does not show how your"
        " child ranked.",
    ]


def test_schools_that_were_left(tmp_path: Path) -> None:
    """By hand. Oak and Elm have 1 place each, that of Elm by a plan. Child 1 lives nearest: it
    declines Oak and leaves the list of Elm, and in round 2 child 2 has Oak, which ranks after it.
    Child 5 leaves Elm and is refused at Oak. No sentence says that a school that was left was
    filled by children who rank before.
    """
    make(
        tmp_path / "reg.db",
        [
            *(school(it, pan=1) for it in ("OAK", "ELM")),
            *(child(it, east=100 * it) for it in (1, 2, 5, 9)),
            apply(1, ["ELM", "OAK"]),
            apply(2, ["OAK"]),
            apply(5, ["ELM", "OAK"]),
            {"cmd": "name_plan", "child": 9, "school": "ELM"},
        ],
    )
    do(
        tmp_path / "reg.db",
        [{"cmd": "round", "draw": 1, "day": "2025-03-03", "lots": [1, 2, 1, 2, 3]}],
    )
    answers = (("decline", 1, "OAK"), ("leave_list", 1, "ELM"), ("leave_list", 5, "ELM"))
    do(
        tmp_path / "reg.db",
        [{"cmd": it, "child": number, "school": code} for it, number, code in answers],
    )
    shutil.copy(tmp_path / "reg.db", tmp_path / "before.db")
    do(tmp_path / "reg.db", [{"cmd": "round", "draw": 2, "day": "2025-04-07", "lots": [1, 2]}])
    # (that Elm has a place by a plan is not printed, so no line explains 'some')
    left = [
        "ELM School (ELM), first preference: no place.",
        "Your child took no part there, as the family had left the waiting list there.",
        "",
    ]
    assert said(tmp_path / "reg.db", 1).splitlines() == [
        "For the family of the child: small numbers are withheld",
        "Admission 2025 secondary, round 2 of 7 April 2025",
        "Child 1 Child 1",
        "",
        "Your child got no place, and took part at no school on the list.",
        "",
        *left,
        "OAK School (OAK), second preference: no place.",
        (
            "Your child took no part there, as the family had declined the place there, or not"
            " answered its offer in time."
        ),
    ]
    other = said(tmp_path / "reg.db", 5).splitlines()
    assert (
        other[4]
        == "Your child got no place: each school on the list at which your child took part was"
        " filled by children who rank before it there."
    )
    assert (
        other[6:9] == left
        and other[9] == "OAK School (OAK), second preference: no place."
        and "Both rank equally by the criteria, and the distance decided: the other child lives"
        " nearer to the school." in other
    )
    assert other[-1].startswith("Where this says 'some', the number is withheld")


@pytest.mark.parametrize("is_office", [False, True])
@pytest.mark.parametrize(
    "criteria, last, this, said",
    [
        (("sibling", "within:500"), 0, 2, "one that comes before any that this child meets."),
        (("sibling", "within:500"), 1, 2, "one that comes before any that this child meets."),
        (("sibling", "within:500"), 0, 3, "one, and this child meets none."),
        (("sibling", "within:500"), 1, 3, "one, and this child meets none."),
        ((), 0, 1, "one, and this child meets none."),
    ],
)
def test_what_is_said_where_the_criterion_decided(
    criteria: tuple[str, ...], last: int, this: int, said: str, is_office: bool
) -> None:
    """Of a child that meets no criterion nothing is said of one that it meets."""
    school = model.School("OAK", "Oak School", 1, 0, 0, criteria)
    found = why.School(
        "OAK",
        1,
        last=model.Cutoff(last, 900, 7),
        key=model.Cutoff(this, 300, 5),
        decided=model.CLASS,
    )
    *_, end = why.compared(found, why.View(found, school, is_office, None))
    assert end == f"The criterion decided: the last child admitted met {said}"


def test_a_draw_as_its_document_has_it() -> None:
    """Each reason that the program can give, none, and one that it cannot."""
    text = """{"lots":[{"child":1,"lot":7,"school":"A"},{"child":2,"lot":5,"school":"A"}],
        "cutoffs":[{"class":2,"lot":5,"metres":300,"school":"A"}],
        "refusals":[{"by":%s,"child":1,"school":"A"}]}"""
    for by, wanted in (*((f'"{it}"', it) for it in why.DECIDED), ("null", None)):
        found = model.drawn_in("reg.db", (text % by).encode())
        assert found.lots == {("A", 1): 7, ("A", 2): 5}
        assert found.cutoffs == {"A": model.Cutoff(number=2, metres=300, lot=5)}
        assert found.refusals == {("A", 1): wanted}
    with pytest.raises(Refused, match="reg.db: the program shows another document than is read"
                       r" here \(ValueError\('age'"):
        model.drawn_in("reg.db", (text % '"age"').encode())


def test_a_fill_is_explained(tmp_path: Path) -> None:
    """By hand. Oak has 2 places, of which 5 with a sibling and 1, the nearest, have one. 1 declines
    it, and the fill offers it to 2, as near as 3 and with a smaller lot; 4 lives farther. To a
    family nothing points to child 2, and nothing at all where that has a flag, as in the next fill.
    """
    reg = tmp_path / "reg.db"
    make(
        reg,
        [
            school("OAK", pan=2, criteria=["flag:3", "sibling"]),
            *(child(it, east=100 * at) for it, at in ((1, 1), (2, 2), (3, 2), (4, 4))),
            child(5, east=900, siblings=["OAK"]),
            child(6, east=950),
            *(apply(it, ["OAK"]) for it in range(1, 6)),
            apply(6, ["OAK"], day="2024-11-20"),
        ],
    )
    do(
        reg,
        [
            {"cmd": "round", "draw": 1, "day": "2025-03-03", "lots": [1, 2, 3, 4, 5]},
            {"cmd": "decline", "child": 1, "school": "OAK"},
        ],
    )
    shutil.copy(reg, tmp_path / "before.db")
    fill = {"cmd": "fill", "draw": 2, "school": "OAK", "day": "2025-04-14"}
    do(reg, [{**fill, "lots": [7, 9, 1, 3]}])
    found = said(reg, 3, True, 2)
    assert found.splitlines() == [
        "For the office alone: it has numbers that are not published",
        "Admission 2025 secondary, offer of a place at OAK School (OAK) of 14 April 2025 (draw 2)",
        "Child 3 Child 3",
        "",
        "The place at OAK School (OAK) was offered to another child.",
        "",
        "OAK School (OAK), first preference: no place.",
        "4 children waited for the vacancy, this child among them.",
        "The child that was offered the place: by distance (no criterion met), 200"
        " metres, lot 7.",
        "This child: by distance (no criterion met), 200 metres, lot 9.",
        "A vacancy is offered to the one that ranks first of those who wait: by the criteria, then"
        " by the distance, and between equal distances by the lot.",
    ]
    assert said(reg, 3, True, copy=tmp_path / "before.db") == found
    assert said(reg, 3, draw=2).splitlines()[6:] == [
        "OAK School (OAK), first preference: no place.",
        "Some children waited for the vacancy, your child among them.",
        "The child that was offered the place: by distance (no criterion met).",
        "Your child: by distance (no criterion met), 200 metres.",
        "A vacancy is offered to the one that ranks first of those who wait: by the criteria, then"
        " by the distance, and between equal distances by the lot.",
        "",
        why.MEANING,
    ]
    sentences = {
        1: "Your child did not wait at OAK School (OAK) when the vacancy was filled.",
        2: "Your child was offered OAK School (OAK), the first preference.",
    }
    for number, sentence in sentences.items():
        assert said(reg, number, draw=2).splitlines()[4:] == [sentence]
    do(
        reg,
        [
            {**child(4, east=400, flags=[3]), "cmd": "amend"},
            {"cmd": "decline", "child": 2, "school": "OAK"},
            {**fill, "draw": 3, "lots": [9, 7, 3]},
        ],
    )
    found = said(reg, 3, draw=3)
    assert "offered the place:" not in found
    assert "Your child: by distance (no criterion met)" in found
    assert said(reg, 6).splitlines()[4:] == [
        "The application of 20 November 2024 came after the closing date, 31 October 2024, and"
        " took no part in the first round."
    ]


def test_with_the_program(tmp_path: Path) -> None:
    """A round of the program, and what is refused."""
    make(
        tmp_path / "reg.db",
        [
            school("OAK", pan=1),
            child(1, east=50),
            child(2, east=10),
            apply(1, ["OAK"]),
            apply(2, ["OAK"]),
        ],
    )
    reg, before = tmp_path / "reg.db", tmp_path / "before.db"
    shutil.copy(reg, before)
    do(reg, [{"cmd": "round", "draw": 1, "day": "2025-03-03", "lots": [2, 1]}])
    found = said(reg, 1)
    assert "50 metres" in found and "the distance decided" in found
    do(reg, [{**child(3), "cmd": "add_child"}, apply(3, ["OAK"])])
    refused: list[tuple[Path, int, Path | None, str]] = [
        (before, 1, None, "before.db had no round yet"), (reg, 9, None, "reg.db has no child 9"),
        (reg, 1, reg, "reg.db has no draw 2"), (reg, 3, before, "before.db has no child 3"),
    ]
    for path, number, copy, text in refused:
        with pytest.raises(Refused, match=text):
            said(path, number, copy=copy)
    assert said(reg, 3).splitlines()[4:] == [
        "The application of 20 October 2024 was recorded after the round, and took no part in it."]


@pytest.mark.parametrize(
    "number, first, second", [(1, "before-1.db", "after-1.db"), (2, "before-2.db", "reg.db")]
)
def test_the_example_season(
    tools: Path, season: Path, number: int, first: str, second: str
) -> None:
    """Both rounds of the example: all that the audit says of each child that a school turned away
    is said of it here too.
    """
    ran = subprocess.run(
        [tools / "admissions-audit", season / first, season / second],
        capture_output=True,
        text=True,
        check=False,
    )
    assert ran.returncode == 0
    after = register_of(season / second)
    held = held_draw.of_register(after, number)
    code, checked = None, 0
    found: dict[int, why.Why] = {}
    for line in ran.stdout.splitlines():
        if at := re.match(
            (
                r"School (\w+): places ([0-9]+), children ([0-9]+)(?:, the last child [0-9]+, class"
                r" ([0-9]+), ([0-9]+) metres, lot ([0-9]+))?"
            ),
            line,
        ):
            code, places, count = at[1], int(at[2]), int(at[3])
            last = tuple(int(it) for it in at.groups()[3:] if it is not None)
        elif at := re.match(
            r"  turned away child ([0-9]+), class ([0-9]+), ([0-9]+) metres, lot ([0-9]+): by (.*)",
            line,
        ):
            child_no, key, by = int(at[1]), tuple(int(it) for it in at.groups()[1:4]), at[5]
            found.setdefault(child_no, why.explain(held, child_no))
            one = next(it for it in found[child_no].schools if it.code == code)
            seen = (one.pan - one.plans, one.kept + one.admitted, one.last or (), one.key)
            assert seen == (places, count, last, key)
            assert (one.decided if one.decided != "nobody" else "no place that was free") == by
            checked += 1
    assert checked > 100 and os.path.exists(season / second)
