#!/usr/bin/env python3
"""Makes up the larger runs of cases/command_line with their answers: larger_model.py FOLDER

It writes into FOLDER, from a fixed seed, the input of each run and beside it, as NAME.right, what
the program must print: rows, questions, a round and its report, and the draws of one place. It
allots by deferred acceptance as Gale and Shapley described it in 1962, checks that no pair blocks
and that no question gains, and lets the schools propose as well, which must give some children
another school; how many, it prints. It shares no code with the program.
"""
import json
import pathlib
import random
import sys
from collections.abc import Mapping
from functools import partial
from typing import Any

from ranking_model import standing

HEADER = "child,name,east,north,looked_after,flags,siblings,day,preferences"
SCHOOLS = [f"S{number}" for number in range(200)]
EAST = {school: int(f"1{number}00") for number, school in enumerate(SCHOOLS)}
PLACES = 2
CLOSING = "2024-10-31"
Child = dict[str, Any]
Lists = Mapping[int, list[str]]


def text_of(value: Any) -> str:
    """A value as a line of JSON."""
    return json.dumps(value, separators=(",", ":")) + "\n"


def children() -> dict[int, Child]:
    """400 children. The last 40 come in fours, of which two prefer the school that ranks the other
    two first."""
    made = {}
    for number in range(1, 401):
        near = random.randrange(200)
        east = EAST[SCHOOLS[near]] + random.randrange(0, 900)
        wanted = random.sample(SCHOOLS[:180], random.randrange(2, 11))
        if number > 360:
            one = 180 + 2 * ((number - 361) // 4)
            first, second = (one, one + 1) if (number - 361) % 4 < 2 else (one + 1, one)
            wanted = [SCHOOLS[first], SCHOOLS[second]]
            east = EAST[SCHOOLS[second]] + random.randrange(0, 40)
        made[number] = {
            "east": east,
            "north": random.choice([0, 0, 300, 700, 2000]),
            "looked_after": random.random() < 0.03,
            "flags": random.sample(range(3), random.randrange(0, 2)),
            "siblings": random.sample(wanted, 1) if random.random() < 0.15 else [],
            "day": "2024-11-05" if number % 37 == 0 else CLOSING,
            "list": wanted,
        }
    return made


def csv_of(made: Mapping[int, Child]) -> str:
    """The rows of a file of children."""
    rows = [HEADER]
    for number, it in made.items():
        named = "yes" if it["looked_after"] else "no"
        lists = (";".join(map(str, it[name])) for name in ("flags", "siblings", "list"))
        flags, siblings, wanted = lists
        rows.append(f"{number},C{number},{it['east']},{it['north']},{named},{flags},{siblings},"
                    f"{it['day']},{wanted}")
    return "\n".join(rows) + "\n"


class Market:
    """The problem of the first round: who takes part, and the lots."""

    def __init__(self, made: Mapping[int, Child]) -> None:
        self.made = made
        self.lists = {number: it["list"] for number, it in made.items() if it["day"] <= CLOSING}
        self.lots: dict[tuple[str, int], int] = {}
        for school in sorted(SCHOOLS):
            them = [number for number in self.lists if school in self.lists[number]]
            for number, lot in zip(them, random.sample(range(len(them)), len(them))):
                self.lots[school, number] = lot

    def key(self, school: str, number: int) -> tuple[int, int, int]:
        """Class, distance and lot."""
        there = {"school": school, "east": EAST[school], "north": 0,
                 "criteria": ["sibling", "within:3000", "flag:1"]}
        return *standing(there, self.made[number]), self.lots[school, number]

    def allotted(self, lists: Lists) -> dict[int, str]:
        """The school of each child that gets one, where the children propose."""
        held: dict[str, list[int]] = {school: [] for school in SCHOOLS}
        turn = {number: 0 for number in lists}
        free = sorted(lists)
        while free:
            number = free.pop(0)
            if turn[number] == len(lists[number]):
                continue
            school = lists[number][turn[number]]
            held[school].append(number)
            if len(held[school]) > PLACES:
                last = max(held[school], key=partial(self.key, school))
                held[school].remove(last)
                turn[last] += 1
                free.append(last)
        return {number: school for school, them in held.items() for number in them}

    def when_schools_propose(self) -> dict[int, str]:
        """The school of each child that gets one, where the schools propose."""
        ranked = {
            school: sorted((it for it in self.lists if school in self.lists[it]),
                           key=partial(self.key, school))
            for school in SCHOOLS
        }
        has: dict[int, str] = {}
        changed = True
        while changed:
            changed = False
            for school in SCHOOLS:
                for number in ranked[school]:
                    if list(has.values()).count(school) == PLACES:
                        break
                    order = self.lists[number].index
                    if number not in has or order(school) < order(has[number]):
                        has[number], changed = school, True
        return has

    def is_stable(self, has: Mapping[int, str]) -> bool:
        """Whether no child and school would rather have each other."""
        for number, wanted in self.lists.items():
            for school in wanted:
                if has.get(number) == school:
                    break
                there = [it for it in has if has[it] == school]
                mine = self.key(school, number)
                if len(there) < PLACES or any(mine < self.key(school, it) for it in there):
                    return False
        return True


def questions(market: Market, best: Mapping[int, str]) -> tuple[str, str]:
    """Nine questions with lists made of a child's own schools, and their answers: three whose child
    keeps its school, three with another, three with none."""
    asked, answers, wanted = "", "", {"same": 3, "other": 3, "none": 3}
    lots = list(market.lots.values())
    numbers = [it for it in market.lists if it in best and len(market.lists[it]) >= 4]
    for number in random.sample(numbers, len(numbers)):
        own = market.lists[number]
        given = random.sample(own, random.randrange(1, len(own) + 1))
        school = market.allotted({**market.lists, number: given}).get(number)
        assert school is None or own.index(best[number]) <= own.index(school)
        kind = "none" if school is None else "same" if school == best[number] else "other"
        if wanted[kind]:
            wanted[kind] -= 1
            asked += text_of({"child": number, "lots": lots, "preferences": given})
            answers += text_of({"school": school})
    return asked, answers


def draws() -> tuple[dict[int, Child], str, str]:
    """One school with one place, and 120 children: each that is offered the place declines it, and
    the vacancy is filled by lots of its own. The children, the commands, and the answers."""
    made: dict[int, Child] = {
        number: {"east": 10 * (7 * number % 40), "north": 0, "looked_after": number % 29 == 0,
                 "flags": [], "siblings": [], "day": CLOSING, "list": ["A"]}
        for number in range(1, 121)
    }
    waiting, lines, answers = list(made), "", ""
    for draw in range(1, 121):
        lots = random.sample(range(len(waiting)), len(waiting))
        first = min(
            zip(waiting, lots),
            key=lambda it: (not made[it[0]]["looked_after"], made[it[0]]["east"], it[1]))[0]
        if draw == 1:
            lines += text_of({"cmd": "round", "draw": 1, "day": "2025-03-03", "lots": lots})
            answers += text_of({"done": True, "kept": 0, "offers": 1, "round": 1, "unplaced": 119})
        else:
            lines += text_of({"cmd": "fill", "draw": draw, "school": "A", "day": "2025-03-10",
                              "lots": lots})
            answers += text_of({"child": first, "done": True})
        waiting.remove(first)
        lines += text_of({"cmd": "decline", "child": first, "school": "A"})
        answers += text_of({"done": True})
    lines += text_of({"cmd": "fill", "draw": 121, "school": "A", "day": "2025-03-10", "lots": []})
    answers += text_of({"name": "EmptyList", "refused": 18})
    return made, lines, answers


def main() -> None:
    """Writes the runs and what comes of them."""
    random.seed(20260105)
    made = children()
    market = Market(made)
    best, other = market.allotted(market.lists), market.when_schools_propose()
    assert market.is_stable(best) and market.is_stable(other)
    changed = sum(best[it] != other[it] for it in best)
    assert changed > 0
    asked, answers = questions(market, best)
    placed, missing = len(best), len(market.lists) - len(best)
    rows = "".join(f"{it:9d} {best.get(it, '-')}\n" for it in sorted(market.lists))
    declining, lines, replies = draws()
    files = {
        "children.csv": csv_of(made),
        "questions": asked,
        "questions.right": answers,
        "round": text_of({"cmd": "round", "draw": 1, "day": "2025-03-03",
                          "lots": list(market.lots.values())}),
        "round.right": text_of({"done": True, "kept": 0, "offers": placed, "round": 1,
                                "unplaced": missing}),
        "report.right": f"Round 1, draw 1, 2025-03-03\n{rows}"
                        f"Offers {placed}, kept 0, unplaced {missing}\n",
        "waiting.csv": csv_of(declining),
        "draws": lines,
        "draws.right": replies,
    }
    folder = pathlib.Path(sys.argv[1])
    for name, text in files.items():
        (folder / name).write_text(text, encoding="utf-8")
    print(f"{len(market.lists)} children take part;"
          f" {changed} have another school where the schools propose")


if __name__ == "__main__":
    main()
