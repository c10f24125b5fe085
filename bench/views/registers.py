"""A register as accepted commands make it, and its JSON documents, worked out without the program.

It goes on from the model of examples/season.
"""
import datetime
import json
import pathlib
import sys

TOP = pathlib.Path(__file__).resolve().parents[2]
sys.path[:0] = [str(TOP / "examples/season"), str(TOP / "tools")]
sys.dont_write_bytecode = True
import model  # noqa: E402
from ranking_model import standing  # noqa: E402

CLOSING, LAST = "2024-10-31", "2025-12-31"
RULES = json.loads((TOP / "office" / "rules.json").read_text("utf-8"))
# what the fields of a child are that a command leaves out
OMITTED = {it["field"]: it["omitted"] for it in RULES["commands"]["amend"] if it["optional"]}


def offer_day(holidays):
    """The first working day from 1 March 2025 on, which is a Saturday."""
    day = datetime.date(2025, 3, 1)
    while day.weekday() > 4 or day.isoformat() in holidays:
        day += datetime.timedelta(days=1)
    return day.isoformat()


def decided(last, key):
    """By what a key comes after the last one, if there is one."""
    if last is None:
        return "nobody"
    parts = zip(("class", "distance", "lot"), last, key)
    return next((name for name, one, other in parts if one < other), None) if last < key else None


class Register(model.Season):
    """The register of secondary schools for 2025."""

    lists: dict[int, list[str]]

    def __init__(self, holidays=(), is_large=False):
        super().__init__()
        self.days, self.holidays, self.is_large = {}, sorted(set(holidays)), is_large

    def entrants(self):
        return {
            child: it
            for child, it in self.lists.items()
            if self.rounds or self.days[child] <= CLOSING
        }

    def next_pairs(self):
        """The pairs of the next round, in the order of its lots."""
        return [(school, child) for school, child in self.pairs() if child in self.entrants()]

    def waiting(self, school):
        return super().waiting(school) if self.rounds else []

    def do(self, it):
        """Applies a command that was accepted."""
        getattr(self, "do_" + it["cmd"])(it)

    def do_add_school(self, it):
        self.schools[it["school"]] = dict(it)

    def do_raise_pan(self, it):
        self.schools[it["school"]]["pan"] = it["pan"]

    def do_add_child(self, it):
        self.children[it["child"]] = {**OMITTED, **it}

    do_amend = do_add_child

    def do_name_plan(self, it):
        self.plan(it["child"], it["school"])

    def do_apply(self, it):
        self.lists[it["child"]], self.days[it["child"]] = it["preferences"], it["day"]

    def do_round(self, it):
        everybody, self.lists = self.lists, self.entrants()
        self.round(it["day"], it["lots"])
        self.lists = everybody

    def do_fill(self, it):
        self.fill(it["school"], it["day"], it["lots"])

    def do_accept(self, it):
        self.places[it["child"]] = {
            **self.places[it["child"]],
            "kind": "accepted",
            "day": None,
            "reminded": None,
        }

    def do_decline(self, it):
        self.give_up(it["child"])

    do_lapse = do_decline

    def do_leave_list(self, it):
        self.left.add((it["child"], it["school"]))

    def do_remind(self, it):
        self.places[it["child"]]["reminded"] = it["day"]

    def do_import(self, rows):
        """The rows of an import, each a child with its application: those not there are added."""
        for it in rows:
            if it["child"] not in self.children:
                self.do_add_child(
                    {name: it[name] for name in it if name not in ("day", "preferences")}
                )
                self.do_apply(it)

    def preference(self, child, school):
        rank, metres = standing(self.schools[school], self.children[child])
        entry = {"class": rank, "metres": metres, "school": school}
        place = self.places.get(child)
        if place and place["school"] == school:
            return {**entry, "state": "place"}
        if (child, school) in self.left:
            return {**entry, "state": "left"}
        if not self.rounds:
            return {**entry, "state": "before"}
        if school not in self.wanted(child):
            return {**entry, "state": "below"}
        there = self.waiting(school)
        return {
            **entry,
            "of": len(there),
            "position": next(it[0] for it in there if it[1] == child),
            "state": "waits",
        }

    def child_document(self, child):
        it, place = self.children[child], self.places.get(child)
        listed = self.lists.get(child)
        wishes = listed and {
            "day": self.days[child],
            "preferences": [self.preference(child, school) for school in listed],
        }
        return {
            "application": wishes,
            "child": child,
            "east": it["east"],
            "flags": sorted(set(it["flags"])),
            "left": sorted(school for one, school in self.left if one == child),
            "looked_after": it["looked_after"],
            "name": it["name"],
            "north": it["north"],
            "place": place
            and {
                "kind": place["kind"],
                "offered": place["day"],
                "reminded": place["reminded"],
                "school": place["school"],
            },
            **{name: it[name] for name in OMITTED if name != "catchments" or it[name]},
            "siblings": it["siblings"],
        }

    def school_document(self, school):
        it = self.schools[school]
        kinds = [place["kind"] for place in self.places.values() if place["school"] == school]
        return {
            **{name: it[name] for name in ("criteria", "east", "name", "north", "pan", "school")},
            "plans": kinds.count("plan"),
            "taken": len(kinds),
            "vacancies": self.vacancies(school),
            "waiting": len(self.waiting(school)),
        }

    def draw_document(self, number):
        _, at, school, day = self.draws[number - 1]
        _, has, fresh = self.drawn[number - 1]
        outcomes = [
            {"child": child, "fresh": child in fresh, "school": has[child]} for child in sorted(has)
        ]
        return {
            "day": day,
            "draw": number,
            "outcomes": outcomes,
            "round": at or None,
            "school": school or None,
        }

    def draw_with_lots(self, number):
        lots = self.drawn[number - 1][0]
        keys = {
            (school, child): (*standing(self.schools[school], self.children[child]), lot)
            for (school, child), lot in lots.items()
        }
        last = self.last_taken_in(number, keys)
        return {
            "cutoffs": [
                {"class": key[0], "lot": key[2], "metres": key[1], "school": school}
                for school, key in sorted(last.items())
            ],
            **self.draw_document(number),
            "lots": [
                {"child": child, "lot": lots[school, child], "school": school}
                for school, child in sorted(lots)
            ],
            "refusals": [
                {
                    "by": decided(last.get(school), keys[school, child]),
                    "child": child,
                    "school": school,
                }
                for school, child in sorted(lots)
                if school in self.above(number, child)
            ],
        }

    def last_taken_in(self, number, keys):
        """The greatest key of those that each school took in anew."""
        _, has, fresh = self.drawn[number - 1]
        last: dict[str, tuple[int, int, int]] = {}
        for (school, child), key in keys.items():
            if child in fresh and has[child] == school:
                last[school] = max(last.get(school, key), key)
        return last

    def above(self, number, child):
        """The schools of a child's list above its outcome of a draw, if it has one."""
        has, listed = self.drawn[number - 1][1], self.lists.get(child, [])
        if child not in has:
            return []
        return listed[: listed.index(has[child])] if has[child] in listed else listed

    def document(self):
        season = {
            "closing": CLOSING,
            "holidays": self.holidays,
            "last_list_day": LAST,
            "offer_day": offer_day(self.holidays),
            "phase": "secondary",
            **({"size": "large"} if self.is_large else {}),
            "year": 2025,
        }
        return {
            "children": [self.child_document(it) for it in sorted(self.children)],
            "draws": [self.draw_document(it) for it in range(1, 1 + len(self.draws))],
            "schools": [self.school_document(it) for it in sorted(self.schools)],
            "season": season,
        }
