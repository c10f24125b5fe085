"""What is said of commands and of their answers: the field that is wrong, what a refusal means,
what a draw did, and which days and numbers look wrong.
"""
import datetime
import json
import signal
import subprocess
from collections.abc import Iterator
from pathlib import Path
from typing import Any

import pytest
from conftest import PROGRAM, Command, apply, child, do, make, school
from files import register_of

from office.core import commands, model, risks, rules, senders

ROUND: Command = {"cmd": "round", "draw": 1, "day": "2025-03-03", "lots": [1, 2, 1, 2]}


def answers_to(path: Path, lines: list[bytes]) -> list[Any]:
    """The answers of the program to lines."""
    ran = subprocess.run([PROGRAM, "do", path], input=b"\n".join(lines) + b"\n",
                         capture_output=True, check=False)
    found = [json.loads(it) for it in ran.stdout.splitlines()]
    assert len(found) == len(lines), ran
    return found


def said_of(path: Path, lines: list[bytes]) -> list[str]:
    """What is said of each line that was not done, and "" of one that was."""
    plans = {number: it.school for number, it in register_of(path).places.items()
             if it.kind == model.PLAN}
    return ["" if commands.is_done(it) else commands.in_words(it, commands.read(line), plans)
            for line, it in zip(lines, answers_to(path, lines))]


def line_of(command: Command) -> bytes:
    """A command as a line."""
    return json.dumps(command).encode()


def answer(name: str, number: int, code: str, **more: object) -> Command:
    """A command of a child and a school."""
    return {"cmd": name, "child": number, "school": code, **more}


# lines, and a part of what is said of each, or "" of one that is done
MIXED: list[tuple[bytes, str]] = [
    (line_of(child(3)), ""),
    (b'{"cmd":"add_child","child":"4"}', '"child" is "4", and must be a child\'s number'),
    (line_of({**child(5), "looked_after": "no"}), '"looked_after" is "no", and must be true or'),
    (line_of(school("elm")), '"school" is "elm"'),
    (line_of(child(6)), ""),
    (b"{", "no JSON"),
    (line_of(answer("accept", 6, "OAK")), "child 6 has no open offer at OAK"),
    (line_of(child(3)), "child 3 is in the register already"),
    (line_of(apply(6, ["OAK", "ZZZ"])), "the register does not have all of the schools OAK, ZZZ"),
    (b'{"cmd":"dance"}', '"cmd" is "dance"'),
    (line_of({**child(7), "flags": [1.5]}), '"flags" is [1.5]'),
    (line_of({**child(8), "home": 1}), '"home" is none of add_child'),
]


def test_each_line_that_was_not_done_is_explained(reg: Path) -> None:
    said = said_of(reg, [line for line, _ in MIXED])
    for found, (line, part) in zip(said, MIXED):
        assert part in found and bool(part) == bool(found), line


OUTSIDE = [
    ({"cmd": "raise_pan", "school": "OAK", "pan": 600}, '"pan" is 600, and must be from 1 to 500'),
    (
        {"cmd": "raise_pan", "school": "ELM", "pan": 1},
        '"pan" is 1, and must not be less than the present admission number of ELM, which can only'
        " rise",
    ),
    (school("ASH", pan=0), '"pan" is 0, and must be from 1 to 500'),
    (school("ASH", east=1_500_001), '"east" is 1500001, and must be from 0 to 1,500,000'),
    (
        school("ASH", criteria=["within:2200001", "flag:16"]),
        'the number of "within:" is 2200001, and must be from 1 to 2,200,000; the number of "flag:"'
        " is 16, and must be from 0 to 15",
    ),
    (school("ASH", criteria=["sibling"] * 9), '"criteria" has 9 items, and may have 8'),
    (child(3, siblings=["OAK", "ELM", "OAK"]), '"siblings" has OAK twice'),
    (
        {**child(3), "north": 1_500_001},
        '"north" is 1500001, and must be from 0 to 1,500,000',
    ),
]


def test_what_is_out_of_range_is_named(reg: Path) -> None:
    """Each line is refused by the program for what is named."""
    said = said_of(reg, [line_of(it) for it, _ in OUTSIDE])
    assert said == [f"{it} (OutOfRange)" for _, it in OUTSIDE]


def test_a_place_by_a_plan_is_named_as_such(reg: Path) -> None:
    """The offer of child 1 is no plan."""
    do(reg, [child(3), answer("name_plan", 3, "ELM")])
    said = said_of(reg, [line_of(answer("decline", it, "OAK")) for it in (3, 1)])
    assert said == [
        "child 3 has its place at ELM by a plan, which no command ends (NotOffered)",
        "child 1 has no open offer at OAK: the offer is of another school, was answered or"
        " withdrawn, or a later round or offer has moved the child; look at the child's place"
        " (NotOffered)",
    ]


def test_what_a_draw_did_is_said(reg: Path) -> None:
    """Child 1 and 2 want both schools; OAK has one place and ELM two. Child 1 declines, and a fill
    offers its place to child 2.
    """
    fill = {"cmd": "fill", "draw": 2, "school": "OAK", "day": "2025-03-10", "lots": [5]}
    said = map(commands.result, do(reg, [ROUND, answer("decline", 1, "OAK"), fill]))
    assert list(said) == [
        "round 1: 2 children were offered a place, 0 kept theirs, 0 have none", "",
        "child 2 was offered the place"]


# a good value of each kind, and odd values of any
GOOD: dict[str, object] = {
    "number": 1, "text": "x", "child": 1, "truth": True, "day": "2025-03-03", "code": "A",
    "code_or_none": "", "list of criterion": [], "list of flag": [], "list of code": [],
    "list of number": [],
}
ODD: list[object] = [
    None, "", "x", "A", -1, "1", 1, True, [], [1], ["A"], ["a"], [16], ["flag:01"],
    ["sibling", "within:5"], ["within:4294967295"], ["within:4294967296"],
    ["within:" + "9" * 5000], {}, "2025-02-29", "1989-12-31", 4294967296, [-1], 10**30,
]
ODD_LINES = [
    *(b'{"cmd":"raise_pan","school":"A","pan":%s}' % it for it in (b"1.0", b"1e0", b"-0", b"0")),
    b"[]", b"1", b'{"cmd":1}', b"{}", b'{"cmd":"x"}', b"\xff", b"", b'{"a":1e400}', b'{"a":NaN}',
    b'{"a":"\\ud800"}', *(b'{"a":1%s}' % (b"0" * zeros) for zeros in (300, 309, 400)),
    b'{"a":"\\ud83d\\ude00"}', b'{"a":-Infinity}', b'{"a":1,"a":}',
]


def odd_lines() -> Iterator[bytes]:
    """Lines that may be unreadable: odd ones, and each command with each odd value in each field,
    without a field, and with one more.
    """
    yield from ODD_LINES
    for name, fields in rules.COMMANDS.items():
        base: Command = {"cmd": name, **{it.name: GOOD[it.kind] for it in fields.values()}}
        for field in fields:
            yield from (json.dumps({**base, field: value}).encode() for value in ODD)
            yield json.dumps({it: value for it, value in base.items() if it != field}).encode()
        yield json.dumps({**base, "more": 1}).encode()


def kind_of(value: Any, said: str) -> str:
    """The kind of an error, by what is said of a line with this value."""
    if value is None:
        return "NotJson"
    if "missing" in said or said.startswith('"cmd" must') and "cmd" not in value:
        return "MissingField"
    if "is none of" in said:
        return "ExtraField"
    return "UnknownCommand" if "which is no command" in said else "WrongKind" if said else ""


def test_the_field_of_each_unreadable_line(tmp_path: Path) -> None:
    """The program and this package agree on which lines can be read, and on the kind of error: each
    field of each command with each odd value.
    """
    lines = list(odd_lines())
    make(tmp_path / "reg.db", [])
    ran = subprocess.run(
        [PROGRAM, "do", tmp_path / "reg.db"], input=b"\n".join(lines) + b"\n",
        capture_output=True, check=False)
    answers = [json.loads(it) for it in ran.stdout.splitlines()]
    assert len(answers) == len(lines) > 700
    for line, found in zip(lines, answers):
        value = commands.read(line)
        said = commands.wrong_field(value) if value is not None else "no JSON"
        assert bool(said) == ("fault" in found), (line, found, said)
        name = found["name"] if "fault" in found else ""
        assert name == kind_of(value, said), (line, found, said)


# a command and its day, what is said of it in the season, and on 10 March 2025
DAYS = [
    ("round", "2035-03-05", "outside the season: offers are made on 3 March 2025, and lists close"
     " on 31 December 2025", "3,647 days away"),
    ("round", "2025-03-04", "not right for a first round: the offer day is 3 March 2025", ""),
    ("round", "2025-03-03", "", ""),
    ("fill", "2025-03-11", "", "1 day away"),
    ("remind", "2025-04-08", "", "29 days away"),
    ("apply", "2024-01-10", "more than four months before the closing date, 31 October 2024: with a"
     " wrong year a late application is in time", "425 days before today"),
    ("apply", "2026-01-10", "after the last day of the lists, 31 December 2025: the register"
     " refuses it", "306 days away"),
    ("apply", "2024-12-01", "after the closing date, 31 October 2024: the child takes no part in"
     " the first round", "99 days before today"),
    ("apply", "2024-10-31", "", "130 days before today"),
    ("lapse", "2025-01-09", "outside the season: offers are made on 3 March 2025, and lists close"
     " on 31 December 2025", ""),
]


@pytest.mark.parametrize("command, day, season, today", DAYS)
def test_a_day_that_looks_wrong(
    reg: Path, command: str, day: str, season: str, today: str,
) -> None:
    given, register = datetime.date.fromisoformat(day), register_of(reg)
    assert risks.season_risk(command, given, register, command == "round") == season
    assert risks.today_risk(given, datetime.date(2025, 3, 10)) == today


def test_a_number_that_rises_by_much() -> None:
    """By over a tenth and over 5 places."""
    for had, pan, is_far in ((2, 7, False), (2, 8, True), (90, 99, False), (90, 100, True),
                             (30, 35, False), (30, 36, True)):
        assert risks.is_far_rise(had, pan) is is_far, (had, pan)


def test_what_ended_a_program() -> None:
    for status, said in (
        (-signal.SIGXFSZ, "the program ended early: a file may not become larger (ulimit -f)"),
        (-signal.SIGKILL, "the program ended early: it was killed, often because memory ran out"),
        (-signal.SIGTERM, "the program was ended by the signal SIGTERM"),
        (-4000, "the program was ended by the signal 4000"), (1, "the program ended with status 1"),
    ):
        assert senders.ending(status) == said
