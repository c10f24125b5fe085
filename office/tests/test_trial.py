"""Trials beside the model of the example season, which shares no code with it: the same
round with other numbers and criteria.
"""
import collections
import copy
import dataclasses
import subprocess
from collections.abc import Callable, Mapping
from pathlib import Path
from typing import Any

import model_season
import pytest
from conftest import PROGRAM, apply, child, make, school
from files import register_of
from register_files import Refused

from office.web.trials import trial
from office.web.trials.registers import Program, make_first

# what is changed of each school: the field, and its value
Changes = Mapping[str, tuple[str, Any]]
# whether a child gains, the school that it had and its class there, and the same of the one that it
# would have
Moved = tuple[bool, str | None, int | None, str | None, int | None]


def held(
    before: Path, after: Path | None, changes: Changes, flags: dict[int, str] | None = None,
) -> tuple[trial.Trial, list[str]]:
    """A trial of these changes, and each of them in words."""
    seen = register_of(before, before.name)
    given = [(code, tuple(it) if isinstance(it, list) else it)
             for code, (_, it) in changes.items()]
    schools, words = trial.changed_schools(seen, given)
    return trial.Trial(seen, register_of(after, after.name) if after else None, schools,
                       flags or {}, Program(PROGRAM)), words


def first(season: Any) -> Any:
    """Holds the first round."""
    return model_season.hold(season, "first_round.jsonl")


def second(season: Any) -> Any:
    """Holds the second round."""
    return model_season.hold(season, "second_round.jsonl")


def tried(season: Any, changes: Changes, held: Callable[[Any], Any]) -> Any:
    """The outcome of a round of the model, with other numbers or criteria of schools; by the same
    lots.
    """
    other = copy.deepcopy(season)
    for code, (what, value) in changes.items():
        other.schools[code][what] = value
    return held(other)


def wanted(plain: Any, changed: Any) -> dict[int, Moved]:
    """By the model: each child that has another school, whether it gains, and its class at the one
    that it had and at the one that it would have.
    """
    (_, had, _), (_, would, _) = plain.drawn[-1], changed.drawn[-1]
    found: dict[int, Moved] = {}
    for number in had:
        if had[number] != would[number]:
            one = plain.children[number]
            gains = place_of(one, would[number]) < place_of(one, had[number])
            was, now = rank(plain, had[number], one), rank(changed, would[number], one)
            found[number] = (gains, had[number], was, would[number], now)
    return found


def place_of(one: Any, code: str | None) -> int:
    """Where a child lists a school: none is behind all of them."""
    return int(one["preferences"].index(code)) if code else 99


def rank(season: Any, code: str | None, one: Any) -> int | None:
    """The class of a child at a school."""
    return int(model_season.MODEL.standing(season.schools[code], one)[0]) if code else None


CHANGES: list[Changes] = [
    {"ELMS": ("pan", 40)}, {"ASHA": ("pan", 5), "HEAA": ("pan", 60)},
    {"HEAA": ("criteria", ["flag:2", "within:3000"])},
    {"ASHA": ("criteria", []), "ELMS": ("pan", 20)},
]


@pytest.mark.parametrize("changes", CHANGES)
def test_the_first_round_of_the_example(
    season: Path, changes: Changes,
) -> None:
    """Each child that would have another school, and the counts by school and criterion."""
    plain = first(model_season.before_first())
    changed = tried(model_season.before_first(), changes, first)
    rows = wanted(plain, changed)
    registers = [season / it for it in ("before-1.db", "after-1.db")]
    were = [(it.stat().st_size, it.stat().st_mtime_ns) for it in registers]
    found, words = held(registers[0], registers[1], changes)
    listed = {it[0]: (it[2] == "gains", it[3], it[5]) for it in found.child_rows()}
    assert listed == {it: (one[0], one[1], one[3]) for it, one in rows.items()}
    gains, losses = sum(it[0] for it in rows.values()), sum(not it[0] for it in rows.values())
    took_part = len(plain.drawn[-1][1])
    assert (
        f"{took_part} children took part: {gains} would gain, {losses} would lose,"
        f" {took_part - len(rows)} would have the same school"
    ) in list(found.summary(words, False))
    see_schools(found, plain, changed, rows)
    assert gains + losses > 3
    see_classes(found, rows, changes)
    assert [(it.stat().st_size, it.stat().st_mtime_ns) for it in registers] == were
    text = trial.page(found, words, False)
    assert text.count("<svg") == 1 == text.count('role="img"')
    assert "<caption" in text and "<script" not in text


def test_the_applications_come_from_several_files(
    season: Path, monkeypatch: pytest.MonkeyPatch,
) -> None:
    """As those of a large register, which has more of them than a file has rows."""
    registers = season / "before-1.db", season / "after-1.db"
    whole, _ = held(*registers, CHANGES[1])
    monkeypatch.setattr("office.web.trials.registers.MOST_ROWS", 7)
    parts, _ = held(*registers, CHANGES[1])
    assert list(parts.child_rows()) == list(whole.child_rows()) != []


def test_the_trial_of_a_large_register_is_large(season: Path, tmp_path: Path) -> None:
    words: list[tuple[object, ...]] = []

    class Recorder(Program):
        """Does nothing."""

        def run(self, *arguments: object, **others: object) -> str:
            words.append(arguments)
            return ""

    seen = register_of(season / "before-1.db", "before-1.db")
    for is_large in (False, True):
        register = dataclasses.replace(seen, is_large=is_large)
        make_first(Recorder(""), str(tmp_path / str(is_large)), register, {})
    assert ["--large" in it for it in words if it[0] == "init"] == [False, True]


def see_schools(found: trial.Trial, plain: Any, changed: Any, rows: Mapping[int, Moved]) -> None:
    """Each school's row: its numbers, its offers, who gains and who loses there, and the last that
    is offered.
    """
    counts: collections.Counter[tuple[str | None, bool]] = collections.Counter()
    for gains, had, had_class, would, would_class in rows.values():
        counts[(would if gains else had), gains] += 1
        assert (would_class if gains else had_class) is not None
    for row in found.school_rows():
        code, lasts = str(row[0]), row[8:]
        pan, new_pan, offers, new_offers, gain, loss = row[2:8]
        assert (pan, new_pan) == (plain.schools[code]["pan"], changed.schools[code]["pan"])
        assert gain == counts.pop((code, True), 0) and loss == counts.pop((code, False), 0)
        both = zip((offers, new_offers), (plain, changed), map(str, lasts), strict=True)
        for number, one, last in both:
            lots, has, fresh = one.drawn[-1]
            keys = [one.key(code, it, lots) for it in fresh if has[it] == code]
            assert number == len(keys), (code, lasts)
            if keys:
                assert last.endswith(f", {max(keys)[1]:,} metres"), (code, lasts)
            else:
                assert last == "no offer", (code, lasts)
    assert not counts


def see_classes(found: trial.Trial, rows: Mapping[int, Moved], changes: Changes) -> None:
    """The table by criterion: how many gain and lose in each class of each school."""
    gains = sum(it[0] for it in rows.values())
    by_class = [[*map(str, it)] for it in found.criterion_rows()]
    assert sum(int(it[2]) for it in by_class) == gains
    assert sum(int(it[3]) for it in by_class) == len(rows) - gains
    for code in {it[0] for it in by_class}:
        numbers = [it for it in by_class if it[0] == code]
        there = [it for it in rows.values() if (it[3] if it[0] else it[1]) == code]
        classes = collections.Counter((it[4] if it[0] else it[2], it[0]) for it in there)
        shown = sorted(int(it) for row in numbers for it in row[2:] if it != "0")
        assert shown == sorted(classes.values()) or code in changes


def test_a_later_round(season: Path) -> None:
    """A raised number can be tried, and nothing else."""
    plain = second(model_season.before_second())
    changed = tried(model_season.before_second(), {"HEAA": ("pan", 40)}, second)
    rows = wanted(plain, changed)
    registers = season / "before-2.db", season / "reg.db"
    found, _ = held(*registers, {"HEAA": ("pan", 40)})
    gains = sum(it[0] for it in rows.values())
    assert gains > 3 and (found.gains, found.losses) == (gains, len(rows) - gains)
    changes: list[Changes] = [{"HEAA": ("pan", 1)}, {"HEAA": ("criteria", ["within:5"])}]
    for it in changes:
        with pytest.raises(Refused, match="only raised admission numbers"):
            held(*registers, it)


def test_without_the_round(tmp_path: Path) -> None:
    """Before the lots are drawn: both rounds have lots of the published rule, here worked out by
    sha256sum.
    """
    children = [it for at in (1, 2) for it in (child(at), apply(at, ["OAK"]))]
    make(tmp_path / "b.db", [school("OAK", pan=1), *children])
    sums = [
        subprocess.run(
            ["sha256sum"], input=f"trial\nOAK\n{at}\n".encode(), capture_output=True, check=True
        ).stdout
        for at in (1, 2)
    ]
    found, words = held(tmp_path / "b.db", None, {"OAK": ("pan", 2)})
    said = "2 children took part: 1 would gain, 0 would lose, 1 would have the same school"
    summary = list(found.summary(words, True))
    assert summary[0].endswith(", by lots drawn for this trial") and said in summary
    loser = 2 if sums[0] < sums[1] else 1
    assert list(found.child_rows()) == [
        [loser, f"Child {loser}", "gains", None, None, "OAK", "ranked by distance alone"]]


def test_flags_in_the_words_of_the_office(tmp_path: Path) -> None:
    """A flag has its number, or the office's words, in the tables, the page and the rows."""
    applied = [apply(it, ["OAK"]) for it in (1, 2)]
    make(tmp_path / "b.db", [school("OAK", pan=1), child(1, flags=[3]), child(2), *applied])
    changes: Changes = {"OAK": ("criteria", ["flag:3"])}
    given: list[tuple[dict[int, str], str]] = [
        ({}, "with the priority that the office has verified as reason 3"),
        ({3: "medical need"}, "with a verified priority: medical need")]
    for flags, text in given:
        found, words = held(tmp_path / "b.db", None, changes, flags)
        seen = trial.page(found, words, True) + str(list(found.child_rows()))
        assert text in seen and ("as reason 3" in seen) == (not flags)


def test_what_is_refused(season: Path, tmp_path: Path) -> None:
    """Registers that do not belong together, changes that are none."""
    path = tmp_path / "b.db"
    make(path, [school("OAK", pan=1), child(1), apply(1, ["OAK"])])
    wrong: list[tuple[Path | None, Changes, str]] = [
        (path, {"OAK": ("pan", 2)}, "b.db has no round as draw 1"),
        (season / "after-1.db", {"OAK": ("pan", 2)}, "not from right before"),
        (None, {"ELM": ("pan", 2)}, 'b.db has no school "ELM"'),
        (None, {"OAK": ("pan", 1)}, "nothing is changed"),
    ]
    for after, changes, text in wrong:
        with pytest.raises(Refused, match=text):
            held(path, after, changes)
