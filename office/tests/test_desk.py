"""What a command is compared with just before it is sent: what somebody else did is seen, and a row
of commands does not read the whole register for each.
"""
import itertools
import json
import pathlib
from collections.abc import Callable, Iterator
from typing import Any

import pytest
from applications import Site, child, office_over
from register_files import Refused

from office.core import rules
from office.core.command_kinds import KINDS
from office.core.entries import MOST
from office.core.model import Register, drawn_in, of_document
from office.core.senders import Ended
from office.web.people.roles import Person
from office.web.register.desk import WHOLE_SECONDS, Command, seen_of, subject

BO, JANE = Person("bo", "head"), Person("jane", "officer")
SCHOOLS: list[Command] = [
    {"cmd": "add_school", "school": code, "name": code, "pan": 6, "east": 0, "north": 0,
     "criteria": []} for code in "AB"]
CHILDREN = [child(at, f"Child {at}", 100 * at) for at in range(1, 15)]
# the nearest six have A, the next six B and wait at A, 13 waits at both, and 14 has not applied
APPLIED: list[Command] = [
    {"cmd": "apply", "child": at, "day": "2024-10-31", "preferences": ["A", "B"]}
    for at in range(1, 14)]
ROUND: Command = {"cmd": "round", "draw": 1, "day": "2025-03-03", "lots": list(range(1, 27))}
SCHOOL: Command = {"cmd": "add_school", "school": "C", "name": "C", "pan": 1, "east": 0, "north": 0,
                   "criteria": []}


def about(name: str, number: int, code: str = "A", **more: str) -> Command:
    """A command about the place or the list of a child."""
    return {"cmd": name, "child": number, "school": code, **more}


def amended(number: int, north: int) -> Command:
    """A correction of where a child lives."""
    return {**child(number, f"Child {number}", north), "cmd": "amend"}


# a command; and what somebody else does just before, so that it must not be sent
MEANWHILE: dict[str, tuple[Command, Command]] = {
    "accept": (about("accept", 1), about("decline", 1)),
    "decline": (about("decline", 2), about("accept", 2)),
    "remind": (about("remind", 3, day="2025-03-17"), about("remind", 3, day="2025-03-18")),
    "lapse": (about("lapse", 4, day="2025-04-01"), about("remind", 4, day="2025-03-17")),
    "name_plan": (about("name_plan", 5, "B"), about("accept", 5)),
    "leave_list": (about("leave_list", 13), about("leave_list", 13)),
    "amend": (amended(6, 610), amended(6, 620)),
    "apply": ({"cmd": "apply", "child": 14, "day": "2025-03-10", "preferences": ["A"]},
              amended(14, 1450)),
    "add_child": (child(20, "Tom", 2000), child(20, "Tim", 2000)),
    "add_school": ({**SCHOOL, "name": "Gamma"}, SCHOOL),
    "raise_pan": ({"cmd": "raise_pan", "school": "A", "pan": 8},
                  {"cmd": "raise_pan", "school": "A", "pan": 7}),
}
# a row of commands, each about another child or school
ROW: list[Command] = [
    about("accept", 1), about("decline", 2), about("remind", 3, day="2025-03-17"),
    about("name_plan", 4, "B"), about("leave_list", 13, "B"), amended(5, 510),
    {"cmd": "apply", "child": 14, "day": "2025-03-10", "preferences": ["B"]},
    child(20, "Tom", 2000), SCHOOL, {"cmd": "raise_pan", "school": "B", "pan": 9},
]
ROWS = ("child,name,east,north,looked_after,flags,siblings,day,preferences\n"
        "30,Ida,0,3000,no,,,2025-03-10,A\n")


@pytest.fixture(name="office")
def office_fixture(tmp_path: pathlib.Path) -> Iterator[Site]:
    """The application over a register after its first round."""
    with office_over(tmp_path, [*SCHOOLS, *CHILDREN, *APPLIED, ROUND]) as found:
        yield found


class Reads:
    """How often the whole register and its draws are read; the clock goes on by a thousandth of a
    second at each look.
    """

    def __init__(self, office: Site, monkeypatch: pytest.MonkeyPatch) -> None:
        desk = office.parts.desk
        self.paths: list[str] = []
        self.step = 0.001
        self.moment = desk.clock()
        ask = desk.sender.ask

        def asked(method: str, path: str, *more: Any, **limits: Any) -> tuple[int, bytes]:
            self.paths.append(path)
            return ask(method, path, *more, **limits)

        monkeypatch.setattr(desk.sender, "ask", asked)
        monkeypatch.setattr(desk, "clock", self.clock)

    def clock(self) -> float:
        """The clock."""
        self.moment += self.step
        return self.moment

    @property
    def count(self) -> int:
        """How often the whole register was read since this was asked last."""
        found = self.paths.count("/register")
        self.paths.clear()
        return found


def test_what_somebody_else_did_just_before_is_seen_for_each_command(
    office: Site, monkeypatch: pytest.MonkeyPatch
) -> None:
    """It was read after the decision for another child, so that the copy is at hand."""
    assert set(MEANWHILE) == set(KINDS) - {"round", "fill"}
    assert set(KINDS) == set(rules.COMMANDS)
    reads, desk = Reads(office, monkeypatch), office.parts.desk
    for name, (command, other) in MEANWHILE.items():
        seen = seen_of(desk.now(), command)
        assert desk.send(BO, other).is_done, name
        reads.paths.clear()
        found = desk.send(JANE, command, seen)
        assert found.outcome == "differs" and "Nothing was recorded now." in found.said, name
        own = "/register/{}/{}".format(*subject({"command": command}))
        assert own in reads.paths and "/register" not in reads.paths, name
        before = desk.now()
        assert desk.send(JANE, command, seen).outcome == "differs", name
        assert desk.now() == before
        # and with what is seen now it is sent
        if name not in ("accept", "leave_list", "add_child", "add_school", "remind", "lapse"):
            assert desk.send(JANE, command, seen_of(before, command)).is_done, name


def test_another_draw_just_before_is_seen(office: Site) -> None:
    """A fill that rests on one draw is not sent after a second one."""
    desk = office.parts.desk
    assert desk.send(BO, about("decline", 1)).is_done
    register = desk.now()
    lots = list(range(1, 1 + len(register.pairs_of_fill("A"))))
    fill: Command = {"cmd": "fill", "draw": 2, "school": "A", "day": "2025-03-10", "lots": lots}
    seen, place = seen_of(register, fill), about("accept", 7, "B")
    of_place = seen_of(register, place)
    assert desk.send(BO, fill, draw=True).is_done
    # a command about a child whose place the draw has changed, before anything else is read
    assert desk.send(JANE, place, of_place).outcome == "differs"
    assert desk.now().places[7].school == "A"
    again: Command = {**fill, "draw": 3}
    assert desk.send(JANE, again, seen, draw=True).outcome == "differs"


def test_a_row_of_commands_reads_the_register_once(
    office: Site, monkeypatch: pytest.MonkeyPatch
) -> None:
    """And once more after a while."""
    reads, desk = Reads(office, monkeypatch), office.parts.desk
    register = desk.now()
    row = [(it, seen_of(register, it)) for it in ROW]
    again = about("accept", 3)
    of_again = seen_of(register, again)
    assert reads.count == 1
    for command, seen in row:
        assert desk.send(JANE, command, seen).is_done, command
    assert reads.count == 0
    assert desk.send(JANE, again, of_again).outcome == "differs" and reads.count == 0
    of_again = seen_of(desk.register(), again)
    reads.moment += WHOLE_SECONDS
    assert desk.send(JANE, again, of_again).is_done and reads.count == 1


def test_what_is_sent_past_the_desk_is_seen(
    office: Site, monkeypatch: pytest.MonkeyPatch
) -> None:
    """In what a command rests on at once, and in all else after a while."""
    reads, desk = Reads(office, monkeypatch), office.parts.desk
    command = about("decline", 1)
    seen = seen_of(desk.now(), command)
    for at in (1, 2):
        desk.sender.send(json.dumps(about("accept", at)).encode())
    assert desk.send(JANE, command, seen).outcome == "differs"
    places = desk.register().places
    assert (places[1].kind, places[2].kind) == ("accepted", "offered")
    reads.moment += WHOLE_SECONDS
    assert desk.register().places[2].kind == "accepted"


def past_the_desk(office: Site) -> None:
    """Somebody at the machine has a child wait at B, where another one leaves the list."""
    office.parts.desk.sender.send(json.dumps(about("decline", 1)).encode())
    assert office.parts.desk.send(JANE, about("leave_list", 13, "B")).is_done


def begins(office: Site) -> None:
    """Something is sent while what was sent before is read."""
    desk, others = office.parts.desk, [about("decline", 2)]
    part = desk.part

    def other(path: str) -> bytes | None:
        if others:
            assert desk.send(BO, others.pop()).is_done
        return part(path)

    assert desk.send(JANE, about("decline", 1)).is_done
    setattr(desk, "part", other)


def is_lost(office: Site) -> None:
    """A request of which it is not known what it came to."""
    desk = office.parts.desk
    send = desk.sender.send

    def lost(line: bytes) -> bytes:
        send(line)
        setattr(desk.sender, "send", send)
        raise Ended("the answer is lost")

    setattr(desk.sender, "send", lost)
    assert desk.send(JANE, about("decline", 1)).is_done


def many(office: Site) -> None:
    """More commands than are worth to be followed."""
    for number in range(100, 101 + MOST):
        assert office.parts.desk.send(JANE, child(number, "Tom", 0)).is_done


@pytest.mark.parametrize("happens", (past_the_desk, begins, is_lost, many))
def test_what_is_not_known_is_read_wholly(
    office: Site, monkeypatch: pytest.MonkeyPatch, happens: Callable[[Site], None]
) -> None:
    """Also where one thing that is read could be from before another."""
    reads, desk = Reads(office, monkeypatch), office.parts.desk
    before = desk.now()
    happens(office)
    reads.paths.clear()
    found = desk.register()
    assert reads.count == 1 and found != before
    assert found == desk.now()


def rests_on(register: Register, without: Command) -> dict[tuple[str, Any, str], str]:
    """What each command about each child and school rests on, but those of one command."""
    found = {}
    name = "child" if "child" in without else "school"
    for kind, number, code in itertools.product(KINDS, range(1, 40), "ABC"):
        command = {"cmd": kind, "child": number, "school": code}
        is_child = kind not in ("add_school", "raise_pan")
        of = ("child", number) if is_child else ("school", code)
        if of != (name, without[name]):
            found[kind, of, code] = seen_of(register, command).text
    return found


def test_no_command_changes_what_one_about_another_child_rests_on(office: Site) -> None:
    """This is what a copy is compared by that is from before a command about another child."""
    desk = office.parts.desk
    for command in [*ROW, about("lapse", 3, day="2025-04-01")]:
        before = rests_on(desk.now(), command)
        assert desk.send(JANE, command).is_done, command
        assert rests_on(desk.now(), command) == before, command


@pytest.mark.parametrize("what", ("import", "line", "draw"))
def test_what_may_change_any_child_is_followed_by_a_read(
    office: Site, monkeypatch: pytest.MonkeyPatch, what: str
) -> None:
    """An import, a line of which nothing is known, and a draw."""
    reads, desk = Reads(office, monkeypatch), office.parts.desk
    command = about("accept", 1)
    seen = seen_of(desk.now(), command)
    if what == "import":
        assert desk.send_import(BO, ROWS.encode()).is_done
    elif what == "line":
        assert desk.pass_on(BO, json.dumps(about("decline", 1)).encode()).is_done
    else:
        lots = list(range(1, 1 + len(desk.now().pairs)))
        second: Command = {"cmd": "round", "draw": 2, "day": "2025-03-10", "lots": lots}
        assert desk.send(BO, second, draw=True).is_done
    reads.paths.clear()
    outcome = "differs" if what == "line" else "done"
    assert desk.send(JANE, command, seen).outcome == outcome and reads.count == 1


def test_a_program_has_nothing_read_to_say_what_it_saw(
    office: Site, monkeypatch: pytest.MonkeyPatch
) -> None:
    """What it saw is in its request: the register is read for the comparison alone."""
    reads, portal = Reads(office, monkeypatch), office.program("portal")
    rows = portal.get("/register").json["children"]
    reads.paths.clear()
    for at in (1, 2, 3):
        found = portal.command(about("accept", at), json.dumps(rows[at - 1]))
        assert found.json == {"done": True}
    assert reads.count == 0
    assert portal.command(about("decline", 3), json.dumps(rows[2])).status_code == 409


def test_a_register_that_is_shown_as_before_is_made_out_once(office: Site) -> None:
    """And anew after any change; its lots are as the register has them at each read."""
    desk = office.parts.desk
    first = desk.now()
    assert desk.now().children is first.children
    assert desk.send(JANE, amended(1, 101)).is_done
    second = desk.now()
    assert second.children is not first.children and second.children[1].north == 101
    assert first.children[1].north == 100


def test_the_lots_of_another_draw_of_this_number_are_read(
    office: Site, monkeypatch: pytest.MonkeyPatch
) -> None:
    """Where a copy was restored, the same number and the same places may come of other lots."""
    desk = office.parts.desk
    register = desk.now()
    assert register.lots(1)["A", 1] == 1 and register.lots(1) is desk.now().lots(1)
    read = desk.sender.read

    def other(path: str) -> bytes:
        found = json.loads(read(path))
        found["lots"][0]["lot"] = 99
        return json.dumps(found).encode()

    monkeypatch.setattr(desk.sender, "read", other)
    assert desk.now().children is register.children
    assert desk.now().lots(1)["A", 1] == 99


# names that end a text, a child or all children, if they were not in quotes
NAMES = ('],"draws":[', '},{"application":', '"', '\\"},{"application":', "Siân", "{")


def test_a_document_that_differs_in_few_children_is_read_as_a_whole_one_is(office: Site) -> None:
    """Whatever their names are; and what has another shape is refused as before."""
    desk = office.parts.desk
    reader, value = desk.reader, json.loads(desk.document())
    for at, name in enumerate(NAMES * 2):
        value["children"][at]["name"] = f"{name}{at}"
        if at == len(NAMES):
            value["children"].pop()
        found = reader.register(text_of(value))
        whole = of_document(reader.source, value)
        assert found == whole and list(found.children) == list(whole.children)
        assert found.children[at + 1].name == f"{name}{at}"
    shapes = ("application", "left", "place", "north")
    for member in shapes:
        wrong = json.loads(json.dumps(value))
        del wrong["children"][3][member]
        with pytest.raises(Refused, match="another document than is read here"):
            reader.register(text_of(wrong))
    with pytest.raises(Refused, match="another document than is read here"):
        reader.register(text_of(value)[:-9])
    assert reader.register(text_of(value)) == of_document(reader.source, value)


def text_of(value: object) -> bytes:
    """A document as the program writes it."""
    return json.dumps(value, sort_keys=True, separators=(",", ":"), ensure_ascii=False).encode()


def test_the_lots_of_a_draw_are_made_out_once(office: Site) -> None:
    """While what explains the draw follows from other data."""
    value = json.loads(office.parts.desk.asked("/draw/1")[1])
    first = drawn_in("a draw", text_of(value))
    before = text_of(value), first
    value["cutoffs"][0]["metres"] += 1
    found = drawn_in("a draw", text_of(value), before)
    assert found == drawn_in("a draw", text_of(value)) != first and found.lots is first.lots
    value["lots"][0]["lot"] += 100
    assert drawn_in("a draw", text_of(value), before) == drawn_in("a draw", text_of(value))
