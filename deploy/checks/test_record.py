"""The record of who sent what, and what it is for: whatever was sent, the commands that it has give
the same register again."""

import datetime
import gzip
import json
import pathlib
import shutil
from typing import NamedTuple

import pytest

from checks.raw import raw, status_of
from checks.world import Answer, Ran, World, until

PART = '"east":0,"north":300,"looked_after":false,"flags":[],"siblings":[]}'
# A command within a command, and one of many lines
HIDDEN = ('{"name":\n{"cmd":"decline","child":2,"school":"B"}\n,"cmd":"amend","child":6,'
          '"name":"Fay of many lines",' + PART)
SPREAD = ('{"cmd":"amend",\n "child":5,\r\n\t"name":"Eve \\"\u2028 Eden",' + PART).replace(
    ",", ",\n")
ROWS = ("child,name,east,north,looked_after,flags,siblings,day,preferences\n"
        "41,Row,0,700,no,,,2025-06-02,B\n")


class Before(NamedTuple):
    """A copy of the register before anything was sent, the moment then, and the letter of a child.
    """

    copy: pathlib.Path
    moment: str
    letter: str


@pytest.fixture(scope="module", name="before", autouse=True)
def before_fixture(world: World) -> Before:
    """Takes them, while the desk is closed."""
    copy = world.room / "before-record.db"
    letter = world.letter(2)
    world.end(world.desk)
    world.run("admissions", "do", world.file)
    shutil.copy2(world.file, copy)
    world.start_desk()
    # (an entry has the milliseconds of its moment, and one before has others)
    until(lambda: str(world.entries()[-1]["at"])[:23] < now("milliseconds"), "the next millisecond")
    return Before(copy, now("milliseconds"), letter)


def now(parts: str) -> str:
    """This moment in UTC."""
    return datetime.datetime.now(datetime.timezone.utc).isoformat(timespec=parts)


# prints the commands of a history since a moment, and as errors what of it is not certain, by the
# installed modules
READ = """
import datetime, json, pathlib, sys
sys.path.insert(0, sys.argv[1])
from machine import histories
from machine.verbs import evidence
record = histories.of_copy(pathlib.Path(sys.argv[2]))
since = datetime.datetime.fromisoformat(sys.argv[3]).astimezone()
for it in record.since(since):
    if it.is_done and "command" in it.entry.about:
        print(json.dumps(it.entry.about["command"], separators=(",", ":"), ensure_ascii=False))
print(*evidence.doubts(record, since), sep="\\n", end="", file=sys.stderr)
"""


def sent(world: World, history: pathlib.Path, since: str) -> Ran:
    """What the verbs read of a history."""
    return world.run("python3", "-c", READ, world.prefix / "share/admissions", history, since)


# What made the record useless or wrong where each line of a body was taken for a command


def test_a_target_that_is_no_text_is_refused_to_nobody_and_to_the_office(world: World) -> None:
    for fields in ((), (world.field("jane"),), (world.field("robot"),)):
        assert status_of(raw(world, "GET /\xff\xfe", *fields)) in (400, 404)


@pytest.fixture(scope="module", name="attacks")
def attacks_fixture(world: World) -> list[Answer]:
    """The answers to both. (curl's own --data-binary takes a body as it is.)"""
    return [world.ask("/command", "robot", body) for body in (HIDDEN, SPREAD)]


def test_a_command_within_a_command_and_one_of_many_lines_are_done(attacks: list[Answer]) -> None:
    assert [it.body for it in attacks] == ['{"done":true}'] * 2


@pytest.mark.usefixtures("attacks")
def test_a_command_within_a_command_is_not_done_itself(world: World, before: Before) -> None:
    assert world.letter(2) == before.letter
    assert "Fay of many lines" in world.letter(6)


# The commands since, done on the copy: row for row the same register


class Replay(NamedTuple):
    """The status of the program, which took in the log of the desk; what the verbs read of the
    history and of a compressed copy; what the program prints when that is done on the
    register before; and the rows of that and of the register."""

    taken_in: int
    printed: Ran
    packed: Ran
    again: Ran
    rows: list[str]


@pytest.fixture(scope="module", name="replay")
def replay_fixture(world: World, attacks: list[Answer], before: Before) -> Replay:
    """Does them, while the desk is closed."""
    world.end(world.desk)
    taken_in = world.run("admissions", "do", world.file).returncode
    history, packed = world.room / "office/history.jsonl", world.room / "history.gz"
    packed.write_bytes(gzip.compress(history.read_bytes()))
    printed, of_copy = (sent(world, it, before.moment) for it in (history, packed))
    again = world.run("admissions", "do", before.copy, input=printed.stdout)
    rows = [world.run("sqlite3", it, ".dump").stdout for it in (before.copy, world.file)]
    return Replay(taken_in, printed, of_copy, again, rows)


def test_the_log_of_the_desk_is_taken_in(replay: Replay) -> None:
    assert replay.taken_in == 0


def test_the_history_is_read_without_an_error(replay: Replay) -> None:
    assert (replay.printed.returncode, replay.printed.stderr) == (0, "")


def test_a_compressed_copy_of_the_history_says_the_same(replay: Replay) -> None:
    assert (replay.packed.returncode, replay.packed.stdout) == (0, replay.printed.stdout)


def test_each_line_of_the_history_is_done_again(replay: Replay) -> None:
    assert replay.again.returncode == 0
    assert set(replay.again.stdout.splitlines()) == {'{"done":true}'}
    assert len(replay.printed.stdout.splitlines()) > 2


def test_the_lines_of_the_history_give_the_same_register(replay: Replay) -> None:
    copy, register = replay.rows
    assert copy.splitlines() == register.splitlines()
    assert "Fay of many lines" in copy


@pytest.fixture(name="damaged")
def damaged_fixture(world: World, replay: Replay) -> tuple[pathlib.Path, list[bytes], int]:
    """A copy of the history to be damaged, its lines, and the place of the last command that was
    done."""
    assert replay.printed.returncode == 0
    lines = (world.room / "office/history.jsonl").read_bytes().splitlines(keepends=True)
    last = max(at for at, line in enumerate(lines) if b'"answer":{"done":true}' in line)
    return world.room / "damaged.jsonl", lines, json.loads(lines[last])["about"]["of"] - 1


def test_an_entry_that_was_torn_at_the_end_costs_nothing_else(
        world: World, before: Before, replay: Replay,
        damaged: tuple[pathlib.Path, list[bytes], int]) -> None:
    """Its command was not begun, since the entry was not on the disk."""
    copy, lines, _ = damaged
    copy.write_bytes(b"".join(lines) + lines[-1][:-9])
    printed = sent(world, copy, before.moment)
    assert (printed.returncode, printed.stdout, printed.stderr) == (
        0, replay.printed.stdout, "")


def test_an_entry_that_was_changed_is_named_and_what_is_before_it_is_printed(
        world: World, before: Before, replay: Replay,
        damaged: tuple[pathlib.Path, list[bytes], int]) -> None:
    copy, lines, last = damaged
    lines[last] = lines[last].replace(b'"cmd"', b'"cmx"')
    copy.write_bytes(b"".join(lines))
    printed = sent(world, copy, before.moment)
    assert printed.returncode == 0
    # (a name has a sign that ends a line elsewhere)
    assert printed.stdout.split("\n")[:-1] == replay.printed.stdout.split("\n")[:-2]
    # (the line after it has the digest of what was there)
    assert printed.stderr.splitlines()[0] == (
        f"{copy}, line {last + 2}: the history was changed there or in the line before, or a line"
        " between them is missing")


def test_an_entry_that_was_removed_is_named(
        world: World, before: Before, damaged: tuple[pathlib.Path, list[bytes], int]) -> None:
    copy, lines, last = damaged
    copy.write_bytes(b"".join(lines[:last] + lines[last + 1:]))
    printed = sent(world, copy, before.moment)
    assert printed.returncode == 0
    assert f"{copy}, line {last + 1}: the history was changed there" in printed.stderr


# An import over the site


def test_an_import_over_the_site_is_done_and_the_history_names_it_and_has_its_rows(
        world: World) -> None:
    count = len(world.entries())
    done = world.ask("/import", "robot", ROWS, kind="text/csv")
    assert (done.status, json.loads(done.body)) == (200, {"added": 1, "done": True, "known": 0})
    assert world.stored()[41]["name"] == "Row"
    entry = next(it for it in world.entries()[count:] if "import" in it["about"])
    assert (entry["who"], entry["about"]["import"]) == ("robot", ROWS)
