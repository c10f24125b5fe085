"""The register by the entries that commands have changed is, after each of them, the register of a
whole read: in all that it has, and in all that follows from that.
"""
import collections
import dataclasses
import functools
import json
import pathlib
import random
import re
from collections.abc import Callable
from typing import Any

import pytest
from applications import Site, office_over
from conftest import apply, child, school
from season_observed import EXPECTED

from office.core import model, senders
from office.core.command_kinds import DRAWS, KINDS
from office.core.model import OFFERED, WAITS, Register
from office.web.people.roles import Person
from office.web.register.desk import Command, Desk

JANE = Person("jane", "officer")
# what was sent in the scripted season: the path, and the body in lines that are set in
SENT = re.compile(r"^POST (\S+)\n((?:  .*\n)+)", re.MULTILINE)
CRITERIA: tuple[list[str], ...] = (
    ["sibling", "within:900"], ["flag:2", "feeder:P"], [], ["within:400"])
SCHOOLS = [school(code, 4, 300 * at, criteria)
           for at, (code, criteria) in enumerate(zip("ABCD", CRITERIA))]
ROUND: Command = {"cmd": "round", "draw": 1, "day": "2025-03-03"}
# how often somebody reads in a random season, and how many commands there are before at most
READS, ROW = 150, 2


def shown(register: Register) -> dict[str, Any]:
    """All that a register has, in its order, and all that is worked out of it. (Two schools count
    as equal whatever is said of their places.)
    """
    found = {it.name: getattr(register, it.name) for it in dataclasses.fields(Register)
             if it.compare}
    found |= {name: getattr(register, name) for name, it in vars(Register).items()
              if isinstance(it, functools.cached_property)}
    orders = {name: list(it) for name, it in found.items() if isinstance(it, dict)}
    return {**found, "orders": orders,
            "counts": list(map(dataclasses.astuple, register.schools.values())),
            "listed": {number: it.listed for number, it in register.applications.items()},
            "drawn": [register.drawn(it.number) for it in register.draws]}


class Pair:
    """The register of a desk, and that of a whole read by somebody else."""

    def __init__(self, office: Site, monkeypatch: pytest.MonkeyPatch) -> None:
        self.desk: Desk = office.parts.desk
        self.other = senders.Http(self.desk.sender.url)
        self.paths: list[str] = []
        ask = self.desk.sender.ask

        def asked(method: str, path: str, *more: Any, **limits: Any) -> tuple[int, bytes]:
            self.paths.append(path)
            return ask(method, path, *more, **limits)

        monkeypatch.setattr(self.desk.sender, "ask", asked)
        # (no time goes by, after which all is read)
        monkeypatch.setattr(self.desk, "clock", lambda: 0.0)
        self.compare()

    def compare(self) -> tuple[Register, bool]:
        """Compares the two; the register, and whether the desk has read it wholly for that."""
        self.paths.clear()
        found = self.desk.register()
        whole = model.of_document(self.desk.source, json.loads(self.other.read("/register")))
        here, there = shown(found), shown(whole)
        for name, it in there.items():
            assert here[name] == it, name
        return found, "/register" in self.paths


def test_each_request_of_the_season_is_followed(
    tmp_path: pathlib.Path, monkeypatch: pytest.MonkeyPatch
) -> None:
    """All that six people sent: what may have changed anything is followed by a whole read, and
    nothing else is.
    """
    sent = [(path, re.sub("^  ", "", body, flags=re.MULTILINE))
            for path, body in SENT.findall((EXPECTED / "wire.txt").read_text("utf-8"))]
    kinds = collections.Counter[str]()
    with office_over(tmp_path, []) as office:
        pair = Pair(office, monkeypatch)
        for path, body in sent:
            command = json.loads(body) if path == "/command" else {"cmd": path}
            if path == "/command":
                result = pair.desk.send(JANE, command, draw=True)
            else:
                result = pair.desk.send_import(JANE, body.encode())
            # (what was sent once more after a restore is refused here)
            assert result.outcome in ("done", "refused"), result
            kinds[command["cmd"]] += result.is_done
            _, is_whole = pair.compare()
            assert is_whole == (command["cmd"] in (*DRAWS, "/import")), command
    assert kinds.keys() == {"/import", *KINDS} - {"add_child", "apply", "leave_list", "name_plan"}


def town() -> list[Command]:
    """Four schools, and 24 children on a coarse grid, so that many rank equally; two have not
    applied.
    """
    chance, found = random.Random(3), list(SCHOOLS)
    for number in range(1, 25):
        found.append(child(number, 100 * chance.randrange(12), **data(chance)))
        if number > 2:
            found.append(apply(number, chance.sample("ABCD", chance.randrange(1, 5))))
    return found


def data(chance: random.Random) -> dict[str, Any]:
    """What a child may rank by."""
    return {"looked_after": chance.random() < 0.1, "flags": [2] * (chance.random() < 0.3),
            "siblings": chance.sample("ABCD", chance.randrange(2)),
            "present": chance.choice(("", "P"))}


class Season:
    """Commands after the first round, most of which are done."""

    def __init__(self, seed: int) -> None:
        self.chance = random.Random(seed)
        self.makers: dict[str, Callable[[Register, int], Command]] = {
            "add_school": self.add_school, "raise_pan": self.raise_pan,
            "add_child": self.add_child, "amend": self.amend, "apply": self.apply}

    def command(self, register: Register) -> Command:
        """One of any kind but a draw."""
        name = self.chance.choice([it for it in KINDS if it not in DRAWS])
        number = self.chance.choice(list(register.children))
        make = self.makers.get(name)
        return {**(make(register, number) if make else self.answer(register, name)), "cmd": name}

    def add_school(self, register: Register, _: int) -> Command:
        """A school between others, while there are few."""
        code = f"{self.chance.choice('ABC')}{len(register.schools) % 9}"
        return school(code, 1, 100 * self.chance.randrange(12), self.chance.choice(CRITERIA))

    def raise_pan(self, register: Register, _: int) -> Command:
        """A higher number, or a lower one, which is refused."""
        it = self.chance.choice(list(register.schools.values()))
        return {"school": it.code, "pan": it.pan + self.chance.randrange(-1, 3)}

    def add_child(self, register: Register, _: int) -> Command:
        """A child, whose number may be between those of others."""
        number = self.chance.randrange(1, 60)
        return child(number, 100 * self.chance.randrange(12), **data(self.chance))

    def amend(self, register: Register, number: int) -> Command:
        """A correction of the name, or of where a child lives and ranks."""
        it = register.children[number]
        if self.chance.random() < 0.3:
            return {**it.data, "name": f"{it.name}!"}
        return child(number, 100 * self.chance.randrange(12), it.name, **data(self.chance))

    def apply(self, register: Register, number: int) -> Command:
        """An application of a child that may have none."""
        free = [it for it in register.children if it not in register.applications]
        listed = self.chance.sample(list(register.schools), min(4, len(register.schools)))
        return apply(self.chance.choice([*free, number]), listed, "2025-03-10")

    def answer(self, register: Register, name: str) -> Command:
        """What is about a place or a list, mostly of a child that has one."""
        number = self.chance.choice(list(register.places or register.children))
        place, found = register.places.get(number), register.applications.get(number)
        code = place.school if place else "A"
        if name in ("remind", "lapse"):
            reminded = [(at, it.school) for at, it in register.places.items()
                        if it.kind == OFFERED and bool(it.reminded) == (name == "lapse")]
            number, code = self.chance.choice(reminded or [(number, code)])
            return {"child": number, "school": code,
                    "day": "2025-03-17" if name == "remind" else "2025-03-31"}
        if name == "leave_list":
            waiting = [(at, code) for at, it in register.applications.items()
                       for _, code, _ in it.in_state(WAITS)]
            number, code = self.chance.choice(waiting or [(number, code)])
        if name == "name_plan" and self.chance.random() < 0.8:
            # (which ends much: seldom)
            number = 1
        return {"child": number, "school": code if found else self.chance.choice("ABCD")}


@pytest.mark.parametrize("seed", range(3))
def test_each_command_is_followed(
    tmp_path: pathlib.Path, monkeypatch: pytest.MonkeyPatch, seed: int
) -> None:
    """Of each kind, done or refused, one or several at a time: only what they have changed is read.
    Other children move on waiting lists.
    """
    done, moved = collections.Counter[str](), collections.Counter[str]()
    with office_over(tmp_path, town()) as office:
        pair, season = Pair(office, monkeypatch), Season(seed)
        lots = list(range(len(pair.desk.now().pairs)))
        season.chance.shuffle(lots)
        assert pair.desk.send(JANE, {**ROUND, "lots": lots}, draw=True).is_done
        register, _ = pair.compare()
        for _ in range(READS):
            row = [season.command(register) for _ in range(season.chance.randint(1, ROW))]
            done.update(it["cmd"] for it in row if pair.desk.send(JANE, it).is_done)
            before, (register, is_whole) = register, pair.compare()
            assert not is_whole, row
            numbers = {it.get("child") for it in row}
            if any(register.applications[at] is not it for at, it in before.applications.items()
                   if at not in numbers):
                moved.update(it["cmd"] for it in row)
    assert done.keys() == KINDS.keys() - set(DRAWS)
    assert {"amend", "apply", "decline", "leave_list", "lapse"} <= moved.keys()
