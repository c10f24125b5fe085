#!/usr/bin/env python3
"""Prints the waiting list of a school from a register's file, without the program: lists.py FILE SCHOOL"""
import os
import sqlite3
import sys

sys.path.insert(0, os.path.join(os.path.dirname(os.path.realpath(__file__)), "..", "..", "tools"))
sys.dont_write_bytecode = True
from ranking_model import standing  # noqa: E402


def rank(school, child):
    """Class and distance, of rows of the two tables."""
    code, _, _, east, north, criteria = school
    _, _, x, y, looked_after, flags, siblings, *_ = child
    given = {"east": x, "north": y, "looked_after": bool(looked_after), "flags": [it for it in range(16) if flags >> it & 1], "siblings": siblings.split(";")}
    return standing({"school": code, "east": east, "north": north, "criteria": [it for it in criteria.split(";") if it]}, given)


def main():
    file, code = sys.argv[1:]
    conn = sqlite3.connect(file)
    school = conn.execute("SELECT * FROM school WHERE code = ?", (code,)).fetchone()
    places = dict(conn.execute("SELECT child, school FROM place"))
    left = set(conn.execute("SELECT child, school FROM left_list"))
    there = []
    for child, preferences in conn.execute("SELECT child, preferences FROM application"):
        listed = preferences.split(";")
        above = listed[: listed.index(places[child])] if child in places else listed
        if code in above and (child, code) not in left:
            there.append((rank(school, conn.execute("SELECT * FROM child WHERE child = ?", (child,)).fetchone()), child))
    there.sort()
    print(f"Waiting list of {code} {school[1]}")
    print("  Pos    Child Cls   Metres")
    position, before = 0, None
    for index, (ranked, child) in enumerate(there, 1):
        position, before = (position, before) if ranked == before else (index, ranked)
        print(f"{position:5}{child:9}{ranked[0]:4}{ranked[1]:9}")
    print(f"Waiting {len(there)}, vacancies {max(0, school[2] - sum(1 for it in places.values() if it == code))}")


if __name__ == "__main__":
    main()
