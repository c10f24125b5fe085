"""The example season as its model (examples/season/model.py) works it out, which shares no code
with the program or the commands, and its figures.
"""
import collections
import csv
import importlib.util
import json
from types import ModuleType
from typing import Any, TypedDict

from conftest import ROOT

SEASON = ROOT / "examples" / "season"
Command = dict[str, Any]


def model() -> ModuleType:
    """The module of the model."""
    spec = importlib.util.spec_from_file_location("season_model", SEASON / "model.py")
    assert spec and spec.loader
    module = importlib.util.module_from_spec(spec)
    spec.loader.exec_module(module)
    return module


MODEL = model()


class Figures(TypedDict):
    """The figures of a round: children by the preference that they have, "none" for no place."""

    children: int
    met: collections.Counter[int | str]
    offers: int
    kept: int
    schools: dict[str, "SchoolFigures"]


class SchoolFigures(TypedDict):
    """The figures of a school: applications by preference (4 is lower), offers by class, class and
    distance of the last one, and how many were turned away.
    """

    plans: int
    kept: int
    applied: collections.Counter[int]
    classes: collections.Counter[int]
    last: tuple[int, int] | None
    turned_away: int


def commands(name: str) -> list[Command]:
    """The commands of a file of the example."""
    return [json.loads(it) for it in (SEASON / name).read_text("utf-8").splitlines()]


def split(text: str) -> list[str]:
    """The items of a list of a row."""
    return text.split(";") if text else []


def child_of(row: dict[str, str]) -> Command:
    """The child of a row with its application."""
    return {
        **{it: int(row[it]) for it in ("child", "east", "north")}, "name": row["name"],
        "looked_after": row["looked_after"] == "yes", "flags": list(map(int, split(row["flags"]))),
        "siblings": split(row["siblings"]), "day": row["day"],
        "preferences": split(row["preferences"]),
    }


def before_first() -> Any:
    """The season before its first round."""
    season = MODEL.Season()
    season.schools = {it["school"]: it for it in commands("schools.jsonl")}
    for row in csv.DictReader((SEASON / "applications.csv").read_text("utf-8").splitlines()):
        child = child_of(row)
        season.children[child["child"]] = child
        season.lists[child["child"]] = child["preferences"]
    for it in commands("plans.jsonl"):
        if it["cmd"] == "name_plan":
            season.plan(it["child"], it["school"])
        else:
            season.children[it["child"]] = it
    return season


def hold(season: Any, name: str) -> Any:
    """Holds the round of a file."""
    it, = commands(name)
    season.round(it["day"], it["lots"])
    return season


def after_first() -> Any:
    """The season after its first round."""
    return hold(before_first(), "first_round.jsonl")


def before_second() -> Any:
    """The season before its second round: after the answers and the fills."""
    season = after_first()
    for it in commands("answers.jsonl") + commands("summer.jsonl"):
        what, child = it["cmd"], it.get("child")
        if what == "remind":
            season.places[child]["reminded"] = it["day"]
        elif what in ("decline", "lapse"):
            season.give_up(child)
        elif what == "accept":
            season.places[child].update(kind="accepted", day=None, reminded=None)
        elif what == "leave_list":
            season.left.add((child, it["school"]))
        else:
            season.fill(it["school"], it["day"], it["lots"])
    return season


def after_second() -> Any:
    """The season after its second round."""
    return hold(before_second(), "second_round.jsonl")


def preference(season: Any, child: int, school: str) -> int:
    """Which preference of a child a school is, from 1 on."""
    listed: list[str] = season.children[child]["preferences"]
    return 1 + listed.index(school)


def figures(season: Any) -> Figures:
    """The figures of the last round."""
    _, has, fresh = season.drawn[-1]
    met: collections.Counter[int | str] = collections.Counter(
        preference(season, child, school) if school else "none" for child, school in has.items())
    kept = sum(it is not None for it in has.values()) - len(fresh)
    schools = {code: figures_of(season, code) for code in season.schools}
    return {"children": len(has), "met": met, "offers": len(fresh), "kept": kept,
            "schools": schools}


def figures_of(season: Any, code: str) -> SchoolFigures:
    """The figures of a school in the last round."""
    lots, has, fresh = season.drawn[-1]
    new = [child for child in fresh if has[child] == code]
    listed = [preference(season, child, code) for child in has
              if code in season.children[child]["preferences"]]
    others = [child for there, child in lots if there == code and has[child] != code]
    turned_away = [
        child for child in others if has[child] is None
        or preference(season, child, has[child]) > preference(season, child, code)
    ]
    last = max((season.key(code, child, lots) for child in new), default=None)
    places = season.places.values()
    standings = (MODEL.standing(season.schools[code], season.children[it]) for it in new)
    return {
        "plans": sum(it["school"] == code and it["kind"] == "plan" for it in places),
        "kept": sum(has[it] == code for it in has) - len(new),
        "applied": collections.Counter(min(4, it) for it in listed),
        "classes": collections.Counter(number for number, _ in standings),
        "last": last and last[:2], "turned_away": len(turned_away),
    }
