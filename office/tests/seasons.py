"""Random seasons by the model of examples/season, which shares no code with the program or this
package, and their registers as files.
"""
import copy
import pathlib
import random
import sqlite3
from collections.abc import Collection
from typing import Any

from files import number, write
from model_season import MODEL

CRITERIA = [["sibling", "within:900"], ["flag:2", "feeder:P"], [], ["within:400"]]
NAMES = ["Ann Abel", "=1+1", "O'Neil, \"Bo\"", "Tŷ Dŵr", "שלום", "<script>alert(1)</script>", "-7",
         "Zoë"]
CODES = "ABCD"


class Town:
    """A season, and what everybody had before each of its draws."""

    def __init__(self, seed: int, children: int = 40) -> None:
        self.chance, self.season = random.Random(seed), MODEL.Season()
        self.before: list[Any] = []
        for code, criteria in zip(CODES, CRITERIA):
            home = self.home()
            self.season.schools[code] = {
                "school": code, "name": f"School {code}", "pan": self.chance.randrange(2, 9),
                **home, "criteria": criteria,
            }
        for child in range(1, children + 1):
            self.season.children[child] = {
                "child": child, "name": f"{NAMES[child % 8]} {child}", **self.home(),
                "looked_after": child % 17 == 0, "flags": [2] if child % 5 == 0 else [],
                "siblings": [self.chance.choice(CODES)] if child % 4 == 0 else [],
                "present": "P" if child % 6 == 0 else "",
                "preferences": self.chance.sample(CODES, self.chance.randrange(1, 5)),
            }
            self.season.lists[child] = self.season.children[child]["preferences"]

    def home(self) -> dict[str, int]:
        """A point on a coarse grid, so that distances are often equal."""
        return {it: self.chance.randrange(12) * 100 for it in ("east", "north")}

    def round(self, day: str) -> None:
        """A round with random lots."""
        self.before.append(copy.deepcopy(self.season))
        self.season.round(day, self.lots(len(self.season.pairs())))

    def fill(self, day: str) -> None:
        """A fill where there is a vacancy and somebody waits."""
        season = self.season
        there = [it for it in season.schools if season.vacancies(it) and season.waiting(it)]
        if there:
            school = self.chance.choice(there)
            self.before.append(copy.deepcopy(season))
            season.fill(school, day, self.lots(len(season.waiting(school))))

    def lots(self, count: int) -> list[int]:
        """Lots that are all different."""
        return self.chance.sample(range(3 * count), count)

    def answers(self) -> None:
        """Some accept, some decline, some leave a list, some admission numbers rise, and a plan is
        named now and then.
        """
        for child, place in list(self.season.places.items()):
            luck = self.chance.random()
            if place["kind"] != "plan" and luck < 0.25:
                self.season.give_up(child)
            elif place["kind"] == "offered" and luck < 0.6:
                place.update(kind="accepted", day=None, reminded=None)
            elif luck > 0.97:
                self.season.plan(child, self.chance.choice(CODES))
        for child in list(self.season.lists):
            if self.season.wanted(child) and self.chance.random() < 0.15:
                self.season.left.add((child, self.chance.choice(self.season.wanted(child))))
        self.season.schools[self.chance.choice(CODES)]["pan"] += 2

    def remind(self, day: str) -> None:
        """A reminder of some of the offers that are open for 14 days."""
        for place in self.season.places.values():
            is_open = place["kind"] == "offered" and not place["reminded"]
            if is_open and MODEL.later(place["day"], 14) <= day and self.chance.random() < 0.5:
                place["reminded"] = day


def file_of(season: Any, path: pathlib.Path, late: Collection[int] = ()) -> pathlib.Path:
    """A season's register, written without the program."""
    places = {child: (it["school"], it["kind"]) for child, it in season.places.items()}
    draws = [(day, has, lots, fresh)
             for (_, _, _, day), (lots, has, fresh) in zip(season.draws, season.drawn)]
    write(path, season.schools, season.children, season.lists, late, places, season.left, draws)
    conn = sqlite3.connect(path)
    conn.execute("PRAGMA synchronous = OFF")
    for draw, at, school, day in season.draws:
        conn.execute("UPDATE draw SET round = ?, school = ?, day = ? WHERE draw = ?",
                     [at, school or None, number(day), draw])
    for child, it in season.places.items():
        days = [None if it[day] is None else number(it[day]) for day in ("day", "reminded")]
        conn.execute("UPDATE place SET day = ?, reminded = ? WHERE child = ?", [*days, child])
    conn.commit()
    conn.close()
    path.chmod(0o600)
    return path
