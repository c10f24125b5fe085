#!/usr/bin/env python3
"""Works the season of this example without the program, and writes its files: model.py FOLDER

It makes up a town of 20 schools and 600 children, their applications and lots (from a fixed seed), and allots the places by deferred acceptance as
Gale and Shapley described it in 1962: each child asks the schools of its list in turn, and each school keeps those that rank first. It counts positions
on waiting lists, fills vacancies from them, and writes letters, a list and a report; it counts whom a school turned away. From that it writes the files
of the season, and `expected`: what the program and the tools beside it must print. It shares no code with them. The tests of the application compare
its worklists and figures too.
"""
import csv
import datetime
import io
import json
import os
import random
import sys

sys.path.insert(0, os.path.join(os.path.dirname(os.path.realpath(__file__)), "..", "..", "tools"))
sys.dont_write_bytecode = True
from ranking_model import metres, standing  # noqa: E402

FIRST, SECOND = "2025-03-03", "2025-05-12"
EPOCH = datetime.date(1970, 1, 1)
WIDTHS = (5, 9, 4, 9)


def number(day):
    return (datetime.date.fromisoformat(day) - EPOCH).days


def later(day, days):
    return (datetime.date.fromisoformat(day) + datetime.timedelta(days=days)).isoformat()


def csv_lines(*rows):
    out = io.StringIO()
    csv.writer(out, lineterminator="\n").writerows(rows)
    return out.getvalue().splitlines()


class Season:
    def __init__(self):
        self.schools, self.children, self.lists = {}, {}, {}
        self.places, self.left, self.rounds, self.draws = {}, set(), [], []
        # of each draw the lots by school and child, what each child has after it, and who did not have that before
        self.drawn = []

    def wanted(self, child):
        held = self.places.get(child)
        schools = self.lists.get(child, [])
        above = schools[: schools.index(held["school"])] if held and held["school"] in schools else schools
        return [it for it in above if (child, it) not in self.left]

    def pairs(self):
        wanted = {child: self.wanted(child) for child in sorted(self.lists)}
        return [(school, child) for school in sorted(self.schools) for child in wanted if school in wanted[child]]

    def place(self, child, school, kind, day=None):
        self.places[child] = {"school": school, "kind": kind, "day": day, "reminded": None}

    def plan(self, child, school):
        self.lists.pop(child, None)
        self.place(child, school, "plan")

    def round(self, day, lots):
        lot = dict(zip(self.pairs(), lots))
        own = {child: self.places[child]["school"] for child in self.lists if child in self.places}
        asks = {child: self.wanted(child) + ([own[child]] if child in own else []) for child in self.lists}
        plans = [it["school"] for it in self.places.values() if it["kind"] == "plan"]
        kept: dict[str, list] = {school: [] for school in self.schools}
        free, turn = sorted(self.lists), {child: 0 for child in self.lists}
        while free:
            child = free.pop()
            if turn[child] == len(asks[child]):
                continue
            school = asks[child][turn[child]]
            turn[child] += 1
            kept[school].append(child)
            quota = max(0, self.schools[school]["pan"] - plans.count(school))
            guests = [it for it in kept[school] if own.get(it) != school]
            if len(kept[school]) > quota and guests:
                last = max(guests, key=lambda it: (*standing(self.schools[school], self.children[it]), lot[school, it]))
                kept[school].remove(last)
                free.append(last)
        has = {child: school for school, them in kept.items() for child in them}
        fresh = [child for child in has if own.get(child) != has[child]]
        for child in fresh:
            self.place(child, has[child], "offered", day)
        self.draws.append((len(self.draws) + 1, len(self.rounds) + 1, "", day))
        self.drawn.append((lot, {child: has.get(child) for child in asks}, set(fresh)))
        quotas = {school: max(0, self.schools[school]["pan"] - plans.count(school)) for school in self.schools}
        self.asked = (asks, own, quotas)
        counts = (len(fresh), len(has) - len(fresh), len(self.lists) - len(has))
        self.rounds.append((len(self.draws), day, {child: has.get(child) for child in sorted(self.lists)}, counts))
        return {"done": True, "kept": counts[1], "offers": counts[0], "round": len(self.rounds), "unplaced": counts[2]}

    def waiting(self, school):
        """Position, child, class and metres of each child that waits."""
        there = {child: standing(self.schools[school], self.children[child]) for child in self.lists if school in self.wanted(child)}
        ahead = lambda it: sum(1 for other in there.values() if other < it)
        return sorted((1 + ahead(it), child, *it) for child, it in there.items())

    def vacancies(self, school):
        return max(0, self.schools[school]["pan"] - sum(1 for it in self.places.values() if it["school"] == school))

    def fill(self, school, day, lots):
        there = sorted(child for _, child, _, _ in self.waiting(school))
        lot = dict(zip(there, lots))
        first = min(there, key=lambda it: (*standing(self.schools[school], self.children[it]), lot[it]))
        self.place(first, school, "offered", day)
        self.draws.append((len(self.draws) + 1, 0, school, day))
        self.drawn.append(({(school, child): it for child, it in lot.items()}, {first: school}, {first}))
        return {"child": first, "done": True}

    def give_up(self, child):
        self.left.add((child, self.places.pop(child)["school"]))

    def letter(self, child):
        named = lambda school: f"{school} {self.schools[school]['name']}"
        lines = ["Admission 2025 secondary", f"Child {child} {self.children[child]['name']}"]
        place = self.places.get(child)
        if place is None:
            lines.append("Place: none")
        elif place["kind"] == "offered":
            reminded = f", reminded {place['reminded']}" if place["reminded"] else ""
            lines.append(f"Place: {named(place['school'])}, offered {place['day']}{reminded}")
            if place["reminded"]:
                lines.append(f"The offer may be withdrawn 14 days after {place['reminded']} if it is not answered.")
        else:
            lines.append(f"Place: {named(place['school'])}, {place['kind']}")
        for school in self.wanted(child):
            there = self.waiting(school)
            position, _, rank, away = next(it for it in there if it[1] == child)
            lines.append(f"Waiting: {named(school)}, position {position} of {len(there)}, class {rank}, {away} metres")
        return lines if self.wanted(child) else lines + ["Waiting: nowhere"]

    def state(self, child):
        place = self.places.get(child)
        waits = [{"position": next(it[0] for it in self.waiting(school) if it[1] == child), "school": school} for school in self.wanted(child)]
        return {"child": child, "place": place and {"kind": place["kind"], "school": place["school"]}, "waiting": waits}

    def list_lines(self, school):
        there = self.waiting(school)
        rows = ["".join(str(it).rjust(width) for it, width in zip(row, WIDTHS)) for row in [("Pos", "Child", "Cls", "Metres"), *there]]
        return [f"Waiting list of {school} {self.schools[school]['name']}", *rows, f"Waiting {len(there)}, vacancies {self.vacancies(school)}"]

    def report(self, at):
        draw, day, outcomes, (offers, kept, unplaced) = self.rounds[at - 1]
        rows = [f"{child:9} {school or '-'}" for child, school in outcomes.items()]
        return [f"Round {at}, draw {draw}, {day}", *rows, f"Offers {offers}, kept {kept}, unplaced {unplaced}"]


    def key(self, school, child, lots):
        return (*standing(self.schools[school], self.children[child]), lots[school, child])

    def audit_lines(self, school):
        """What an audit of the last round reports about a school."""
        draw, at, _, day = self.draws[-1]
        (lots, has, _), (asks, own, quotas) = self.drawn[-1], self.asked
        key_text = lambda child: "class {}, {} metres, lot {}".format(*self.key(school, child, lots))
        there = [child for child in has if has[child] == school]
        last = max((child for child in there if own.get(child) != school), key=lambda it: self.key(school, it, lots))
        rather = lambda child: school in asks[child] and (has[child] is None or asks[child].index(school) < asks[child].index(has[child]))
        lines = [f"Round {at}, draw {draw}, {day}: {len(has)} children, {len(self.schools)} schools, {len(lots)} lots"]
        lines += [self.report(at)[-1], f"School {school}: places {quotas[school]}, children {len(there)}, the last child {last}, {key_text(last)}"]
        for child in sorted(filter(rather, has), key=lambda it: self.key(school, it, lots)):
            mine, its = self.key(school, child, lots), self.key(school, last, lots)
            by = "class" if mine[0] != its[0] else "distance" if mine[1] != its[1] else "lot"
            lines.append(f"  turned away child {child}, {key_text(child)}: by {by}")
        return lines + ["The outcomes are stable, and the best for each child of all that are stable"]

    def lots_decided(self, draw):
        """At which schools in a draw, and for whom, the lot alone decided: who was offered a place or refused one, with the last one's class and distance."""
        lots, has, fresh = self.drawn[draw - 1]
        found = []
        for school in sorted(self.schools):
            new = [child for child in fresh if has[child] == school]
            if new:
                limit = max(self.key(school, it, lots)[:2] for it in new)
                equal = [child for code, child in lots if code == school and self.key(school, child, lots)[:2] == limit]
                better = lambda it: has.get(it) and self.children[it]["preferences"].index(has[it]) < self.children[it]["preferences"].index(school)
                came = {it: "offered" if it in new else "refused" for it in equal if it in new or not better(it)}
                if "refused" in came.values():
                    found += [(draw, school, it, *self.key(school, it, lots), came[it]) for it in sorted(came, key=lambda it: lots[school, it])]
        return found

    def last_offers(self, draw):
        lots, has, fresh = self.drawn[draw - 1]
        offers = {school: [child for child in fresh if has[child] == school] for school in sorted(self.schools)}
        last = {school: max(them, key=lambda it: self.key(school, it, lots)) for school, them in offers.items() if them}
        return [(draw, self.draws[draw - 1][3], school, len(offers[school]), it, *self.key(school, it, lots)) for school, it in last.items()]

    def shares(self):
        """How many children each round left with which of their preferences, and in tenths of a percent how many of all that is, rounded half up."""
        rows = []
        for at, (draw, day, outcomes, _) in enumerate(self.rounds, 1):
            places = [str(1 + self.children[child]["preferences"].index(school)) if school else "none" for child, school in outcomes.items()]
            for place in sorted(set(places), key=lambda it: (len(it), it)):
                tenths = (2000 * places.count(place) + len(places)) // (2 * len(places))
                rows.append((at, day, place, places.count(place), f"{tenths // 10}.{tenths % 10}"))
        return csv_lines(("round", "day", "preference", "children", "percent"), *rows)

    def offers_open(self):
        return sorted(((it["day"], child, it) for child, it in self.places.items() if it["kind"] == "offered"), key=lambda it: it[:2])

    def no_answer(self):
        rows = [(child, it["school"], day, it["reminded"], self.children[child]["name"]) for day, child, it in self.offers_open()]
        return csv_lines(("child", "school", "offered", "reminded", "name"), *rows)

    def remind_due(self, today):
        rows = [(child, it["school"], day, later(day, 15), self.children[child]["name"]) for day, child, it in self.offers_open() if not it["reminded"] and later(day, 15) <= today]
        return csv_lines(("child", "school", "offered", "due", "name"), *rows)

    def lapse_due(self, today):
        rows = [(child, it["school"], it["reminded"], later(it["reminded"], 15), self.children[child]["name"]) for _, child, it in self.offers_open() if it["reminded"] and later(it["reminded"], 15) <= today]
        return csv_lines(("child", "school", "reminded", "due", "name"), *rows)

    def unplaced(self):
        without = [(child, self.children[child]) for child in sorted(self.children) if child not in self.places]
        rows = [(child, it["name"], it["day"], ";".join(it["preferences"]), ";".join(self.wanted(child))) for child, it in without]
        return csv_lines(("child", "name", "applied", "preferences", "waiting"), *rows)

    def places_of_schools(self):
        kinds = {school: [it["kind"] for it in self.places.values() if it["school"] == school] for school in self.schools}
        counts = lambda school: (*(kinds[school].count(it) for it in ("offered", "accepted", "plan")), self.vacancies(school), len(self.waiting(school)))
        rows = [(it["school"], it["name"], it["pan"], *counts(it["school"])) for _, it in sorted(self.schools.items())]
        return csv_lines(("school", "name", "pan", "offered", "accepted", "plans", "vacancies", "waiting"), *rows)

    def child_lines(self, child):
        it, place, rows = self.children[child], self.places.get(child), []
        for at, school in enumerate(it["preferences"], 1):
            came, days = "below its place", (None, None)
            if place and place["school"] == school:
                came, days = place["kind"], (place["day"], place["reminded"])
            elif (child, school) in self.left:
                came = "left"
            elif school in self.wanted(child):
                came = "waiting"
            rows.append((child, it["name"], it["day"], at, school, *standing(self.schools[school], it), came, *days))
        return csv_lines(("child", "name", "applied", "preference", "school", "class", "metres", "came", "offered", "reminded"), *rows)

    def lot_lines(self, draw):
        lots, has, _ = self.drawn[draw - 1]
        rows = sorted((school, lot, child, self.children[child]["name"], has.get(child)) for (school, child), lot in lots.items())
        return csv_lines(("school", "lot", "child", "name", "allotted"), *rows)


NAMES = ["Ada", "Ben", "Chi", "Dai", "Eva", "Fay", "Gus", "Hal", "Ida", "Jan", "Kit", "Leo", "Mia", "Noé", "Oli", "Zoë"]
SURNAMES = ["Abbot", "Bell, jr.", "Cole", "Dean", "Ewart", "Frost", 'Gray "Gee"', "Hill", "Ibbs", "Jones", "O'Neil"]
PLACES = ["Ash", "Birch", "Cedar", "Dale", "Elm", "Fern", "Glen", "Heath", "Ivy", "Juniper"]


def made(chance):
    schools = []
    for at in range(20):
        criteria = [["sibling", "within:1500"], ["sibling"], ["flag:2", "sibling", "within:2000"], []][at % 4]
        schools.append({
            "cmd": "add_school", "school": PLACES[at % 10][:3].upper() + ('S' if at < 10 else 'A'), "name": f"{PLACES[at % 10]} {'School' if at < 10 else 'Academy'}",
            "pan": chance.randrange(18, 38), "east": 250 * chance.randrange(0, 49), "north": 250 * chance.randrange(0, 37), "criteria": criteria,
        })
    codes = [it["school"] for it in schools]
    rows = []
    for child in range(1, 601):
        home = {"east": 250 * chance.randrange(0, 49), "north": 250 * chance.randrange(0, 37)}
        near = sorted(schools, key=lambda it: metres(it, home))[:9]
        rows.append({
            "child": child, "name": f"{NAMES[child % 16]} {SURNAMES[child % 11]}", **home, "looked_after": child % 97 == 0,
            "flags": [2] if child % 13 == 0 else [], "siblings": [chance.choice(codes)] if child % 4 == 0 else [],
            "day": f"2024-10-{1 + child % 31:02}", "preferences": [it["school"] for it in chance.sample(near, chance.randrange(2, 7))],
        })
    return schools, rows


def main():
    folder = sys.argv[1]
    chance = random.Random(1962)
    season = Season()
    steps, shown = [], []
    done = {"done": True}
    compact = lambda it: json.dumps(it, ensure_ascii=False, separators=(",", ":"))

    def show(step, lines):
        steps.append(step)
        is_other = step.split()[0] in ("sqlite3", "serving") or step.startswith("admissions-")
        shown.extend([f"$ {step}" if is_other else f"$ admissions {step}", *lines, "status 0"])

    def write(name, lines):
        with open(os.path.join(folder, name), "w", encoding="utf-8") as file:
            file.writelines(it + "\n" for it in lines)

    def do(name, commands, answers):
        write(name, map(compact, commands))
        show(f"do reg.db < {name}", map(compact, answers))

    schools, rows = made(chance)
    show("init reg.db secondary 2025", [])
    season.schools = {it["school"]: it for it in schools}
    do("schools.jsonl", schools, [done] * len(schools))
    with open(os.path.join(folder, "applications.csv"), "w", encoding="utf-8", newline="") as file:
        out = csv.writer(file, lineterminator="\n")
        out.writerow(rows[0])
        for row in rows:
            season.children[row["child"]], season.lists[row["child"]] = row, row["preferences"]
            out.writerow([";".join(map(str, it)) if isinstance(it, list) else ("yes" if it else "no") if isinstance(it, bool) else it for it in row.values()])
    show("import reg.db applications.csv", [compact({"added": len(rows), "done": True, "known": 0})])
    show("import reg.db applications.csv", [compact({"added": 0, "done": True, "known": len(rows)})])

    # children with plans: two that had applied, and one that did not
    other = {"cmd": "add_child", "child": 601, "name": "Una Vale", "east": 3000, "north": 3000, "looked_after": False, "flags": [], "siblings": []}
    season.children[601] = other
    plans = [(17, schools[2]["school"]), (41, schools[5]["school"]), (601, schools[5]["school"])]
    for child, school in plans:
        season.plan(child, school)
    do("plans.jsonl", [other] + [{"cmd": "name_plan", "child": c, "school": s} for c, s in plans], [done] * 4)

    def drawn(count):
        lots = list(range(1, count + 1))
        chance.shuffle(lots)
        return lots

    def round(name, day):
        """A backup, the round, and an audit that reports on the school that turned away fewest of those at which a lot decided, or else at all."""
        at = len(season.rounds) + 1
        show(f"admissions-backup reg.db before-{at}.db", [f"reg.db is backed up as before-{at}.db"])
        lots = drawn(len(season.pairs()))
        do(name, [{"cmd": "round", "draw": len(season.draws) + 1, "day": day, "lots": lots}], [season.round(day, lots)])
        audits = {school: season.audit_lines(school) for school in sorted({it for it in season.drawn[-1][1].values() if it})}
        school = min(audits, key=lambda it: (not any(line.endswith("by lot") for line in audits[it]), len(audits[it]) == 4, len(audits[it])))
        show(f"admissions-audit before-{at}.db reg.db --school {school}", audits[school])

    round("first_round.jsonl", FIRST)

    # most accept, some decline, and one is reminded
    offered = sorted(child for child, it in season.places.items() if it["kind"] == "offered")
    declined, silent = offered[3::9], offered[5]
    answers = []
    for child in offered:
        school = season.places[child]["school"]
        if child == silent:
            answers.append({"cmd": "remind", "child": child, "school": school, "day": "2025-03-17"})
            season.places[child]["reminded"] = "2025-03-17"
        elif child in declined:
            answers.append({"cmd": "decline", "child": child, "school": school})
            season.give_up(child)
        else:
            answers.append({"cmd": "accept", "child": child, "school": school})
            season.places[child].update(kind="accepted", day=None)
    do("answers.jsonl", answers, [done] * len(answers))
    show(f"letter reg.db {silent}", season.letter(silent))

    # the silent child's offer lapses; some leave a list; two vacancies are filled
    summer, replies = [{"cmd": "lapse", "child": silent, "school": season.places[silent]["school"], "day": "2025-04-01"}], [done]
    season.give_up(silent)
    for child in [it for it in sorted(season.lists) if len(season.wanted(it)) > 1][:3]:
        school = season.wanted(child)[0]
        summer.append({"cmd": "leave_list", "child": child, "school": school})
        season.left.add((child, school))
        replies.append(done)
    for day in ["2025-04-01", "2025-04-02"]:
        school = max(sorted(season.schools), key=lambda it: (season.vacancies(it) > 0) * len(season.waiting(it)))
        lots = drawn(len(season.waiting(school)))
        summer.append({"cmd": "fill", "draw": len(season.draws) + 1, "school": school, "day": day, "lots": lots})
        replies.append(season.fill(school, day, lots))
    do("summer.jsonl", summer, replies)
    show("pairs reg.db", [f"{school} {child}" for school, child in season.pairs()])
    round("second_round.jsonl", SECOND)

    # what the office sends and displays
    unplaced = next(it for it in sorted(season.lists) if it not in season.places and len(season.wanted(it)) > 2)
    for child in [unplaced, replies[-1]["child"], 601]:
        show(f"letter reg.db {child}", season.letter(child))
    longest = max(sorted(season.schools), key=lambda it: len(season.waiting(it)))
    show(f"list reg.db {longest}", season.list_lines(longest))
    show(f"pairs reg.db {longest}", [f"{longest} {child}" for child in sorted(it[1] for it in season.waiting(longest))])
    show("round-report reg.db 2", season.report(2))

    kinds = {"offered": 1, "accepted": 2, "plan": 3}
    lines = [f"{child}|{it['school']}|{kinds[it['kind']]}|{number(it['day']) if it['day'] else ''}" for child, it in sorted(season.places.items()) if child % 10 == 1]
    lines += [f"{child}|{school}" for child, school in sorted(season.left)]
    lines += [f"{draw}|{of}|{school}|{number(day)}" for draw, of, school, day in season.draws] + [str(len(season.draws))]
    show("sqlite3 reg.db < tables.sql", lines)
    write("tables.sql", [
        "SELECT child, school, kind, day FROM place WHERE child % 10 = 1 ORDER BY child;", "SELECT child, school FROM left_list ORDER BY child, school;",
        "SELECT draw, round, school, day FROM draw ORDER BY draw;", "SELECT draws FROM meta;",
    ])

    # the desk is queried on each of its routes; the same answer to an offer is refused when repeated
    child = replies[-1]["child"]
    accept = {"cmd": "accept", "child": child, "school": season.places[child]["school"]}
    states = [compact(season.state(child)), compact(season.state(unplaced))]
    season.places[child].update(kind="accepted", day=None)
    shortest = min(sorted(season.schools), key=lambda it: (len(season.waiting(it)) == 0, len(season.waiting(it))))
    write("asks", [
        "#!/usr/bin/env bash", "# Each route of the desk at $at, by curl", "set -euo pipefail", ': "${at:?}"',
        *[f'curl -s "$at/child/{it}"; echo' for it in (child, unplaced)], *[f"curl -s -d '{compact(accept)}' \"$at/command\"; echo"] * 2,
        f'curl -s "$at/child/{child}/letter"', f'curl -s "$at/school/{shortest}/waiting"', 'curl -s "$at/round/2" | tail -n 1',
    ])
    responses = [*states, compact(done), compact({"name": "NotOffered", "refused": 15}), *season.letter(child), *season.list_lines(shortest), season.report(2)[-1]]
    show("serving reg.db 7 bash asks", responses)
    write("steps", steps)
    # (the log beside the file, which holds no page, stays as the last program left it)
    write("expected", [*shown, "files: before-1.db before-2.db reg.db reg.db-wal"])


if __name__ == "__main__":
    main()
