"""The nightly backup, what is kept, a restore, and the commands of the history sent again after it.
"""

import json
import pathlib
from typing import NamedTuple

import pytest

from checks.commands import lines_of
from checks.world import Ran, World

# of the first release, without numbers, and of a clock that was years ahead
OLD = ("nightly-2025-03-01T023000.db", "nightly-2025-03-02T023000.db",
       "nightly-000007-2096-03-03T023000.db")
OTHER = "before-round-1.db"
SENT = [
    '{"cmd":"amend","child":6,"name":"A \\"name\\" \\\\ with é","east":0,"north":300,'
    '"looked_after":false,"flags":[],"siblings":[]}',
    '{"cmd":"add_child","child":8,"name":"Gil Gray","east":0,"north":300,"looked_after":false,'
    '"flags":[],"siblings":[]}']


@pytest.fixture(scope="module", name="copies")
def copies_fixture(world: World) -> pathlib.Path:
    """The folder of the copies, with some old ones and another's."""
    copies = world.room / "copies"
    (copies / OTHER).write_text("another's")
    for name in OLD:
        (copies / name).write_text("old")
    return copies


def night(world: World, copies: pathlib.Path, keep: object) -> Ran:
    """The nightly backup, which keeps so many copies."""
    return world.run(world.prefix / "lib/admissions/nightly", world.file, copies, keep)


def names(copies: pathlib.Path) -> list[str]:
    """The names of the copies."""
    return sorted(path.name for path in copies.iterdir())


def letters(world: World) -> list[str]:
    """The letters of the children."""
    return [world.letter(child) for child in (*range(1, 7), 8)]


def test_there_is_no_backup_of_a_register_in_use_and_then_no_copy_is_removed(
        world: World, copies: pathlib.Path) -> None:
    assert night(world, copies, 2).returncode == 1
    assert names(copies) == sorted([OTHER, *OLD])


@pytest.mark.parametrize("keep", ["0", "x", ""])
def test_a_number_of_copies_is_required(world: World, copies: pathlib.Path, keep: str) -> None:
    assert night(world, copies, keep).returncode == 2


class Backup(NamedTuple):
    """A copy that was made, the status of the backup, and whether the copy is the register."""

    copy: pathlib.Path
    status: int
    is_register: bool


@pytest.fixture(scope="module", name="backup")
def backup_fixture(world: World, copies: pathlib.Path) -> Backup:
    """Backs up the register while the desk is closed."""
    world.end(world.desk)
    world.run("admissions", "do", world.file)
    made = night(world, copies, 2)
    copy = max(copies.glob("nightly-*"))
    backup = Backup(copy, made.returncode, copy.read_bytes() == world.file.read_bytes())
    world.start_desk()
    return backup


def test_a_register_that_is_not_in_use_is_backed_up(backup: Backup) -> None:
    assert (backup.status, backup.is_register) == (0, True)


def test_of_the_nightly_copies_the_two_that_were_made_last_are_kept_and_the_others_stay(
        copies: pathlib.Path, backup: Backup) -> None:
    assert names(copies) == [OTHER, OLD[-1], backup.copy.name, "nightly.number"]
    assert backup.copy.name.startswith("nightly-000008-")


def test_a_restore_and_the_commands_of_the_history_give_the_same_register(
        world: World, backup: Backup) -> None:
    before = len(world.entries())
    statuses = [world.ask("/command", "robot", body).status for body in (*SENT, SENT[1])]
    assert statuses == [200, 200, 409]
    wanted = letters(world)
    world.end(world.desk)
    assert world.run("admissions-restore", backup.copy, world.file).returncode == 0
    added = world.entries()[before:]
    done_ones = [it["about"]["of"] for it in added if it["about"].get("answer") == {"done": True}]
    accepted = [it["about"]["command"] for it in added if it["n"] in done_ones]
    assert accepted == [json.loads(it) for it in SENT]
    done = world.run("admissions", "do", world.file, input=lines_of(accepted))
    assert done.stdout.splitlines() == ['{"done":true}'] * 2
    world.start_desk()
    assert letters(world) == wanted
