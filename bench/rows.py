#!/usr/bin/env python3
"""All rows of a register's file, read and tested in Python, which is the baseline of an open: bench/rows.py FILE

It reads each table whole, and then tests what an open tests: that keys are distinct, that codes, names, days and numbers are in their
ranges, that each child, school and draw that a row names is there, that the lots at one school in one draw are distinct, that draws come
in order and within their limits, and that places, plans and lists agree with one another. It prints the wall-clock and
CPU seconds, without the start of Python. If the rows are those of no register, it reports in which table, and ends with 1.
"""
import collections
import contextlib
import datetime
import re
import sqlite3
import sys
import time

TABLES = ("meta", "school", "child", "application", "place", "left_list", "draw", "offer", "lot", "imported", "present")
FIRST_DAY, LAST_DAY = 7305, 51498
MOST_DRAWS, MOST_NUMBER = 10_000, 2**32 - 1
# the most schools, children and lots of all draws, by the version of the file
MOST = {2: (200, 2000, 1_000_000), 3: (1000, 40_000, 20_000_000)}
OFFERED, ACCEPTED, PLAN = 1, 2, 3
is_code = re.compile(r"[A-Z0-9]{1,8}").fullmatch
criterion = re.compile(r"sibling|catchment|within:([1-9][0-9]*)|flag:(0|[1-9][0-9]*)|feeder:[A-Z0-9]{1,8}").fullmatch
has_control = re.compile(r"[\x00-\x1f\x7f-\x9f]").search


def number(year, month, day):
    """A day as files have it, counted from 1970-01-01."""
    return (datetime.date(year, month, day) - datetime.date(1970, 1, 1)).days


def items(text):
    return text.split(";") if text else []


def is_day(day):
    return FIRST_DAY <= day <= LAST_DAY


def is_name(text):
    return 1 <= len(text.encode()) <= 80 and not has_control(text)


def is_on_map(east, north):
    return 0 <= east <= 1500000 and 0 <= north <= 1500000


def is_criterion(text):
    found = criterion(text)
    if not found:
        return False
    within, flag = found.groups()
    return (within is None or int(within) <= 2200000) and (flag is None or int(flag) <= 15)


class Rows:
    """The rows of a file, in lists by their tables."""

    def __init__(self, file):
        with contextlib.closing(sqlite3.connect(file)) as conn:
            self.rows = {name: conn.execute(f"SELECT * FROM {name}").fetchall() for name in TABLES}
        self.codes = {row[0] for row in self.rows["school"]}
        self.children = {row[0] for row in self.rows["child"]}
        self.lists = {child: items(preferences) for child, _, preferences in self.rows["application"]}
        self.places = {child: (code, kind) for child, code, kind, _, _ in self.rows["place"]}

    def are_few(self):
        return all(len(self.rows[name]) <= most for name, most in zip(("school", "child", "lot"), MOST[self.version]))

    def has_season(self):
        if len(self.rows["meta"]) != 1:
            return False
        ((one, self.version, phase, self.year, holidays, draws),) = self.rows["meta"]
        self.holidays = [int(it) for it in items(holidays)]
        self.end = number(self.year, 12, 31)
        self.national = number(self.year, 4, 16) if phase == 1 else number(self.year, 3, 1)
        return (
            one == 1
            and self.version in MOST
            and phase in (1, 2)
            and 2000 <= self.year <= 2100
            and len(self.holidays) <= 40
            and self.holidays == sorted(set(self.holidays))
            and all(is_day(it) for it in self.holidays)
            and draws == len(self.rows["draw"])
        )

    def are_schools(self):
        taken = collections.Counter(code for code, kind in self.places.values() if kind != PLAN)
        return len(self.codes) == len(self.rows["school"]) and all(
            is_code(code)
            and is_name(name)
            and 1 <= pan <= 500
            and is_on_map(east, north)
            and len(items(criteria)) <= 8
            and all(is_criterion(it) for it in items(criteria))
            and taken[code] <= pan
            for code, name, pan, east, north, criteria in self.rows["school"]
        )

    def is_child(self, child, name, east, north, looked_after, flags, siblings):
        siblings, bar, catchments = siblings.partition("|")
        named, areas = items(siblings), items(catchments)
        return (
            1 <= child <= 9999999
            and is_name(name)
            and is_on_map(east, north)
            and looked_after in (0, 1)
            and 0 <= flags < 65536
            and len(named) <= 6
            and len(set(named)) == len(named)
            and self.codes.issuperset(named)
            and (bool(areas) if bar else True)
            and len(areas) <= 10
            and len(set(areas)) == len(areas)
            and self.codes.issuperset(areas)
        )

    def is_application(self, child, day, preferences):
        listed = items(preferences)
        return (
            child in self.children
            and FIRST_DAY <= day <= self.end
            and 1 <= len(listed) <= 10
            and len(set(listed)) == len(listed)
            and self.codes.issuperset(listed)
        )

    def are_children(self):
        return len(self.children) == len(self.rows["child"]) and all(self.is_child(*row[:7]) for row in self.rows["child"])

    def are_applications(self):
        return len(self.lists) == len(self.rows["application"]) and all(self.is_application(*row) for row in self.rows["application"])

    def is_place(self, child, code, kind, day, reminded):
        if child not in self.children or code not in self.codes:
            return False
        if kind == PLAN:
            return day is None and reminded is None and child not in self.lists
        if not self.rows["draw"] or code not in self.lists.get(child, ()):
            return False
        if kind == ACCEPTED:
            return day is None and reminded is None
        return kind == OFFERED and is_day(day) and (reminded is None or day + 14 <= reminded <= LAST_DAY)

    def are_places(self):
        return len(self.places) == len(self.rows["place"]) and all(self.is_place(*row) for row in self.rows["place"])

    def are_left(self):
        """Nobody has a place at a school that it left, but by a plan."""
        left = self.rows["left_list"]
        return len(set(left)) == len(left) and all(
            child in self.children and code in self.codes and (child not in self.places or self.places[child][0] != code or self.places[child][1] == PLAN) for child, code in left
        )

    def offer_day(self):
        """The first working day from the national day on."""
        day = self.national
        while (day + 3) % 7 >= 5 or day in self.holidays:
            day += 1
        return day

    def are_draws(self):
        """Draws are numbered from 1, and rounds for themselves; days do not fall. A fill has one outcome, which is new, at its school."""
        draws, last, rounds = sorted(self.rows["draw"]), None, 0
        outcomes = collections.defaultdict(list)
        if any(code is not None for _, _, code, _ in draws):
            for draw, _, code, fresh in self.rows["offer"]:
                outcomes[draw].append((code, fresh))
        for at, (draw, held, code, day) in enumerate(draws, 1):
            if code is None:
                rounds += 1
            if draw != at or held != (rounds if code is None else 0) or rounds == 0:
                return False
            if code is not None and (code not in self.codes or outcomes[draw] != [(code, 1)]):
                return False
            if not (self.offer_day() if last is None else last) <= day <= self.end:
                return False
            last = day
        return len(draws) <= MOST_DRAWS

    def are_offers(self):
        offers, draws, codes, children = self.rows["offer"], len(self.rows["draw"]), self.codes, self.children
        return len({row[:2] for row in offers}) == len(offers) and all(
            1 <= draw <= draws and child in children and (fresh == 0 if code is None else code in codes and fresh in (0, 1)) for draw, child, code, fresh in offers
        )

    def are_lots(self):
        """No pair is duplicated in a draw, and no lot at one school in a draw."""
        lots, draws, codes, children = self.rows["lot"], len(self.rows["draw"]), self.codes, self.children
        return (
            len({row[:3] for row in lots}) == len(lots)
            and len({(draw, code, lot) for draw, code, _, lot in lots}) == len(lots)
            and all(1 <= draw <= draws and code in codes and child in children and 0 <= lot <= MOST_NUMBER for draw, code, child, lot in lots)
        )

    def are_imported(self):
        imported = self.rows["imported"]
        return len({row[0] for row in imported}) == len(imported) and all(self.is_child(*row[:7]) and self.is_application(row[0], *row[-2:]) for row in imported)

    def are_present(self):
        present, owners = self.rows["present"], (self.children, {row[0] for row in self.rows["imported"]})
        return len({row[:2] for row in present}) == len(present) and all(which in (0, 1) and child in owners[which] and is_code(code) for child, which, code in present)

    def wrong_rows(self):
        """Which rows are those of no register, or None."""
        tests = {
            "meta": self.has_season, "how many": self.are_few, "school": self.are_schools, "child": self.are_children, "application": self.are_applications,
            "place": self.are_places, "left_list": self.are_left, "draw": self.are_draws, "offer": self.are_offers, "lot": self.are_lots,
            "imported": self.are_imported, "present": self.are_present,
        }
        return next((name for name, holds in tests.items() if not holds()), None)


def main():
    start, used = time.perf_counter(), time.process_time()
    wrong = Rows(sys.argv[1]).wrong_rows()
    seconds, used = time.perf_counter() - start, time.process_time() - used
    if wrong:
        print(f"{sys.argv[1]} has rows of no register: {wrong}", file=sys.stderr)
        sys.exit(1)
    print(seconds, used)


if __name__ == "__main__":
    main()
