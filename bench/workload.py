"""The schools, children, applications and rounds of the scripts of bench/, and the same rows as statements of SQL."""
import csv
import os
import random

# ---- schools with three criteria each: bench/first_path

PATH = 200
SCHOOL_TABLE = "CREATE TABLE school (code TEXT PRIMARY KEY NOT NULL, name TEXT NOT NULL, pan INTEGER NOT NULL, east INTEGER NOT NULL, north INTEGER NOT NULL, criteria TEXT NOT NULL) STRICT"
PUT_SCHOOL = "INSERT INTO school (code, name, pan, east, north, criteria) VALUES (?, ?, ?, ?, ?, ?)"
RAISE = "UPDATE school SET pan = ? WHERE code = ?"


def school(number):
    return {
        "cmd": "add_school",
        "school": f"S{number}",
        "name": f"School number {number}",
        "pan": 30,
        "east": 1000 * number,
        "north": 500,
        "criteria": ["sibling", "within:800", "flag:3"],
    }


def schools_written(numbers):
    """The rows of these schools, as the statements that write them."""
    return [(PUT_SCHOOL, (f"S{n}", f"School number {n}", 30, 1000 * n, 500, "sibling;within:800;flag:3")) for n in numbers]


def raises(numbers, pans):
    """The commands that raise each of these schools to each of these admission numbers, all to one before any to the next."""
    return [{"cmd": "raise_pan", "school": f"S{n}", "pan": pan} for pan in pans for n in numbers]


def raises_written(numbers, pans):
    """The same as the statements that write them."""
    return [(RAISE, (pan, f"S{n}")) for pan in pans for n in numbers]


# ---- children and their applications: bench/applications and bench/aims

COUNT = 2000
SCHOOLS = 20
DAY = 20027
TABLES = [
    "CREATE TABLE child (child INTEGER PRIMARY KEY, name TEXT NOT NULL, east INTEGER NOT NULL, north INTEGER NOT NULL, looked_after INTEGER NOT NULL, flags INTEGER NOT NULL, siblings TEXT NOT NULL) STRICT",
    "CREATE TABLE application (child INTEGER PRIMARY KEY, day INTEGER NOT NULL, preferences TEXT NOT NULL) STRICT",
]
PUT_CHILD = "INSERT OR REPLACE INTO child (child, name, east, north, looked_after, flags, siblings) VALUES (?, ?, ?, ?, ?, ?, ?)"
PUT_APPLICATION = "INSERT OR REPLACE INTO application (child, day, preferences) VALUES (?, ?, ?)"


def schools():
    return [{"cmd": "add_school", "school": f"S{n}", "name": f"School number {n}", "pan": 100, "east": 1000 * n, "north": 0, "criteria": ["sibling"]} for n in range(SCHOOLS)]


def child(number, command="add_child", east=None):
    return {
        "cmd": command,
        "child": number,
        "name": f"Child number {number}",
        "east": 10 * number if east is None else east,
        "north": 500,
        "looked_after": number % 50 == 0,
        "flags": [3],
        "siblings": [f"S{number % SCHOOLS}"],
    }


def listed(number):
    return [f"S{(number + k) % SCHOOLS}" for k in range(4)]


def applies(number):
    return {"cmd": "apply", "child": number, "day": "2024-10-31", "preferences": listed(number)}


def added(numbers):
    return [child(n) for n in numbers]


def amended(count, children):
    """So many amends that each change a row, of the first so many children in turn."""
    return [child(1 + n % children, "amend", east=n) for n in range(count)]


def children_written(numbers):
    """The rows of these children, as the statements that write them."""
    return [(PUT_CHILD, (n, f"Child number {n}", 10 * n, 500, int(n % 50 == 0), 8, f"S{n % SCHOOLS}")) for n in numbers]


def applications_written(numbers):
    """The rows of their applications, as the statements that write them."""
    return [(PUT_APPLICATION, (n, DAY, ";".join(listed(n)))) for n in numbers]


# ---- a round of many lots: bench/round and bench/waiting

FIRST_ROUND = "2025-03-03"
# the tables that a round writes
ROUND_TABLES = {
    "draw": "CREATE TABLE draw (draw INTEGER PRIMARY KEY, round INTEGER NOT NULL, school TEXT, day INTEGER NOT NULL) STRICT",
    "offer": "CREATE TABLE offer (draw INTEGER NOT NULL, child INTEGER NOT NULL, school TEXT, fresh INTEGER NOT NULL, PRIMARY KEY (draw, child)) STRICT",
    "lot": "CREATE TABLE lot (draw INTEGER NOT NULL, school TEXT NOT NULL, child INTEGER NOT NULL, lot INTEGER NOT NULL, PRIMARY KEY (draw, school, child), UNIQUE (draw, school, lot)) STRICT",
    "place": "CREATE TABLE place (child INTEGER PRIMARY KEY, school TEXT NOT NULL, kind INTEGER NOT NULL, day INTEGER, reminded INTEGER) STRICT",
    "meta": "CREATE TABLE meta (one INTEGER PRIMARY KEY CHECK (one = 1), version INTEGER NOT NULL, phase INTEGER NOT NULL, year INTEGER NOT NULL, holidays TEXT NOT NULL, draws INTEGER NOT NULL) STRICT",
}


def season(chance, schools=200, children=2000, preferences=6):
    """Schools with 9 places each, children, and applications with so many preferences each, as commands."""
    codes = [f"S{n:03}" for n in range(schools)]
    added_schools = [
        {"cmd": "add_school", "school": code, "name": f"School {code}", "pan": 9, "east": chance.randrange(50000), "north": chance.randrange(50000), "criteria": ["sibling", "within:3000"]}
        for code in codes
    ]
    added_children = [
        {"cmd": "add_child", "child": n, "name": f"Child {n}", "east": chance.randrange(50000), "north": chance.randrange(50000), "looked_after": n % 50 == 0, "flags": [], "siblings": []}
        for n in range(1, children + 1)
    ]
    applications = [{"cmd": "apply", "child": n, "day": "2024-10-31", "preferences": chance.sample(codes, preferences)} for n in range(1, children + 1)]
    return added_schools + added_children + applications


def lots(count, chance):
    drawn = list(range(1, count + 1))
    chance.shuffle(drawn)
    return drawn


def a_round(draw, drawn):
    return {"cmd": "round", "draw": draw, "day": FIRST_ROUND, "lots": drawn}


# ---- a file of applications: bench/imports

COLUMNS = "child,name,east,north,looked_after,flags,siblings,day,preferences".split(",")
IMPORT_TABLES = ("child", "application", "imported")


def applications_file(room, count):
    """A file of so many rows, for a register of the 200 schools of `season`."""
    chance = random.Random(1962)
    codes = [f"S{n:03}" for n in range(200)]
    file = os.path.join(room, f"rows-{count}.csv")
    with open(file, "w", encoding="utf-8", newline="") as out:
        rows = csv.writer(out, lineterminator="\n")
        rows.writerow(COLUMNS)
        for child in range(1, count + 1):
            preferences = ";".join(chance.sample(codes, 6))
            rows.writerow([child, f"Child {child}", chance.randrange(50000), chance.randrange(50000), "no", "2;5", chance.choice(codes), "2024-10-31", preferences])
    return file


# ---- a town that is queried over HTTP: bench/http

TOWN_SCHOOLS, TOWN_PREFERENCES = 20, 6


def resident(number, command, east):
    return {"cmd": command, "child": number, "name": f"Child {number}", "east": east, "north": 7 * number, "looked_after": number % 50 == 0, "flags": [3], "siblings": [f"S{number % TOWN_SCHOOLS:03}"]}


def town(chance, count):
    """20 schools with places for two in five of so many children, each with 6 preferences, as commands."""
    codes = [f"S{n:03}" for n in range(TOWN_SCHOOLS)]
    pan = max(1, count * 2 // 5 // TOWN_SCHOOLS)
    added_schools = [
        {"cmd": "add_school", "school": code, "name": f"School {code}", "pan": pan, "east": chance.randrange(50000), "north": chance.randrange(50000), "criteria": ["sibling", "within:3000"]}
        for code in codes
    ]
    added_children = [resident(n, "add_child", chance.randrange(50000)) for n in range(1, count + 1)]
    return added_schools + added_children + [{"cmd": "apply", "child": n, "day": "2024-10-31", "preferences": chance.sample(codes, TOWN_PREFERENCES)} for n in range(1, count + 1)]


def round_of_town(chance, count):
    """Its first round."""
    return a_round(1, chance.sample(range(2**32), count * TOWN_PREFERENCES))


# ---- many rounds, in each of which the same children want the same schools: bench/limits

ROUND_LOTS, TURN = 100, 100
PLANNED = {1: "A", 2: "B"}
HELD = range(101, 141)
EARLY, LATE = range(201, 231), range(231, 251)


def plain_school(code, pan):
    return {"cmd": "add_school", "school": code, "name": f"School {code}", "pan": pan, "east": 0, "north": 0, "criteria": []}


def plain_child(number, command="add_child", east=500):
    return {"cmd": command, "child": number, "name": f"Child {number}", "east": east, "north": number, "looked_after": False, "flags": [], "siblings": []}


def applies_to(number, day, *codes):
    return {"cmd": "apply", "child": number, "day": day, "preferences": list(codes)}


def named(command, number, code):
    return {"cmd": command, "child": number, "school": code}


def many_rounds(*others):
    """All commands before the first round. A and B have no place except for a child with a plan; 50 children list both, of whom 20 are late, and 40
    list C. The others apply for nothing."""
    commands = [plain_school("A", 1), plain_school("B", 1), plain_school("C", 500)]
    commands += [plain_child(number) for number in (*PLANNED, *HELD, *EARLY, *LATE, *others)]
    commands += [named("name_plan", number, code) for number, code in PLANNED.items()]
    commands += [applies_to(number, "2024-10-31", "C") for number in HELD]
    commands += [applies_to(number, "2024-10-31", "A", "B") for number in EARLY]
    return commands + [applies_to(number, "2024-11-01", "A", "B") for number in LATE]


def one_of_many(draw, chance, count=ROUND_LOTS):
    """A round with so many lots."""
    return a_round(draw, chance.sample(range(2**32), count))


def held(draw, kept, offers, unplaced):
    """The answer to a round."""
    return f'{{"done":true,"kept":{kept},"offers":{offers},"round":{draw},"unplaced":{unplaced}}}'


# the answer to the first of these rounds, in which 40 children are offered C, and the late ones are not yet
FIRST_HELD = held(1, 0, len(HELD), len(EARLY))


def later_held(draw):
    """The answer to a later one, in which they keep their place, and all who want A and B get none."""
    return held(draw, len(HELD), 0, len(EARLY) + len(LATE))


def hold(run, draws, chance):
    """Holds these later rounds: the draws that were answered otherwise, each with the answer, and the wall-clock and CPU seconds."""
    found, cost = run.timed([one_of_many(draw, chance) for draw in draws])
    return [(draw, answer) for draw, answer in zip(draws, found) if answer != later_held(draw)], cost
