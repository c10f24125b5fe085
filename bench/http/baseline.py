#!/usr/bin/env python3
"""Answers GET /child/{no}, and POST /command with an `amend`, as `admissions serve` does and over the same file, by Python's http.server and sqlite3 in WAL mode with
synchronous=FULL: baseline.py FILE PORT. It serves until it is ended.
"""
import http.server
import json
import os
import sqlite3
import sys

sys.path.insert(0, os.path.join(os.path.dirname(os.path.dirname(os.path.realpath(__file__))), "waiting"))
sys.dont_write_bytecode = True
from lists import rank

REASONS = {200: "OK", 400: "Bad Request", 404: "Not Found", 409: "Conflict"}
# those who wait at a school: it is on their list, above their place where they have one, and they have not left it
WAITING = """
SELECT child.* FROM application JOIN child USING (child) LEFT JOIN place USING (child)
WHERE instr(';' || preferences || ';', ';' || ?1 || ';')
AND (place.school IS NULL OR instr(';' || preferences || ';', ';' || ?1 || ';') < instr(';' || preferences || ';', ';' || place.school || ';'))
AND NOT EXISTS (SELECT 1 FROM left_list WHERE left_list.child = application.child AND left_list.school = ?1)
"""
KINDS = {1: "offered", 2: "accepted", 3: "plan"}


def opened(file):
    conn = sqlite3.connect(file, isolation_level=None)
    conn.execute("PRAGMA journal_mode=WAL")
    conn.execute("PRAGMA synchronous=FULL")
    return conn


def wanted(conn, number, place):
    """The schools at which the child waits, in the order of its list."""
    found = conn.execute("SELECT preferences FROM application WHERE child = ?", (number,)).fetchone()
    if found is None or conn.execute("SELECT 1 FROM draw LIMIT 1").fetchone() is None:
        return []
    listed = found[0].split(";")
    above = listed[: listed.index(place[0])] if place else listed
    left = {code for code, in conn.execute("SELECT school FROM left_list WHERE child = ?", (number,))}
    return [code for code in above if code not in left]


def position(conn, number, code):
    school = conn.execute("SELECT * FROM school WHERE code = ?", (code,)).fetchone()
    ranks = {child[0]: rank(school, child) for child in conn.execute(WAITING, (code,))}
    return 1 + sum(1 for it in ranks.values() if it < ranks[number])


def state(conn, number):
    """The status and the body for a child."""
    if conn.execute("SELECT 1 FROM child WHERE child = ?", (number,)).fetchone() is None:
        return 404, {"status": 404}
    place = conn.execute("SELECT school, kind FROM place WHERE child = ?", (number,)).fetchone()
    waiting = [{"position": position(conn, number, code), "school": code} for code in wanted(conn, number, place)]
    return 200, {"child": number, "place": place and {"kind": KINDS[place[1]], "school": place[0]}, "waiting": waiting}


def plain(number, most):
    return isinstance(number, int) and 0 <= number <= most


def amend(conn, command):
    """The status and the body for a command, after the tests of an `amend`."""
    number, name, siblings = command["child"], command["name"], command["siblings"]
    if conn.execute("SELECT 1 FROM child WHERE child = ?", (number,)).fetchone() is None:
        return 409, {"name": "UnknownChild", "refused": 2}
    if not 1 <= len(name.encode()) <= 80 or any(ord(it) < 32 or 127 <= ord(it) < 160 for it in name):
        return 409, {"name": "BadText", "refused": 5}
    if not plain(command["east"], 1500000) or not plain(command["north"], 1500000) or len(siblings) > 6 or len(set(siblings)) < len(siblings):
        return 409, {"name": "OutOfRange", "refused": 6}
    if any(conn.execute("SELECT 1 FROM school WHERE code = ?", (code,)).fetchone() is None for code in siblings):
        return 409, {"name": "UnknownSchool", "refused": 1}
    flags = sum(1 << it for it in set(command["flags"]))
    row = (name, command["east"], command["north"], int(command["looked_after"]), flags, ";".join(siblings), number)
    conn.execute("BEGIN")
    conn.execute("UPDATE child SET name = ?, east = ?, north = ?, looked_after = ?, flags = ?, siblings = ? WHERE child = ?", row)
    conn.execute("COMMIT")
    return 200, {"done": True}


class Handler(http.server.BaseHTTPRequestHandler):
    protocol_version = "HTTP/1.1"

    conn: sqlite3.Connection

    def do_GET(self):
        parts = self.path.split("/")
        if len(parts) == 3 and parts[1] == "child" and parts[2].isdigit():
            self.say(*state(self.conn, int(parts[2])))
        else:
            self.say(404, {"status": 404})

    def do_POST(self):
        body = self.rfile.read(int(self.headers["Content-Length"]))
        command = json.loads(body)
        if self.path == "/command" and command["cmd"] == "amend":
            self.say(*amend(self.conn, command))
        else:
            self.say(400, {"fault": 2, "name": "UnknownCommand"})

    def say(self, status, body):
        text = json.dumps(body, separators=(",", ":"))
        head = f"HTTP/1.1 {status} {REASONS[status]}\r\nContent-Type: application/json\r\nContent-Length: {len(text)}\r\nConnection: close\r\n\r\n"
        # in one piece, so that no piece waits for another
        self.wfile.write((head + text).encode())
        self.close_connection = True

    def log_message(self, *_):
        pass


def main():
    file, port = sys.argv[1], int(sys.argv[2])
    with http.server.HTTPServer(("127.0.0.1", port), Handler) as server:
        Handler.conn = opened(file)
        print(f"serving on 127.0.0.1:{port}", flush=True)
        server.serve_forever()


main()
