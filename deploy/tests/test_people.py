"""admissions-admin people: who is listed, added, changed and removed, and what is left for the
history of the application."""
import os
import pathlib
import sys

import pytest
from conftest import Terminal, told, typed
from machine import answers, people, registers
from machine.verbs import people as verb
from office.web.people import people as office_people
from register_files import Refused


def signs_in(register: registers.Register, name: str, password: str) -> bool:
    """Whether somebody signs in at the application with a password."""
    with people.opened(register) as (found, _):
        try:
            found.sign_in(name, password, "192.0.2.1")
        except Refused:
            return False
        return True


ANOTHER = "admissions-admin people secondary-2025 --user jane --new-password"


def test_a_person_is_added_and_signs_in_with_the_drawn_password(
    register: registers.Register, write_as_me: None, capsys: pytest.CaptureFixture[str]
) -> None:
    assert people.users_of(register) == {}
    # (the only register of the machine need not be named)
    assert typed("people", "--user", "jane", "--role", "head") == 0
    lines = capsys.readouterr().out.splitlines()
    password = lines[1].rpartition(" ")[2]
    assert lines == [
        f"jane gets the role head; if no password is below, draw one: {ANOTHER}",
        f"jane signs in at https://admissions.example/ with the password {password}",
    ]
    assert len(password) == 24 and signs_in(register, "jane", password)
    assert not signs_in(register, "jane", "another password")
    assert people.users_of(register) == {"jane": people.User("jane", "person", "head", False)}
    assert (register.office / "office.db").stat().st_mode & 0o777 == 0o600


def test_what_an_administrator_changes_is_left_for_the_history(users: registers.Register) -> None:
    """And the history has it with the name of whoever called the command as root."""
    before = people.users_of(users)["ben"]
    people.set_role(users, before, "reader")
    people.remove(users, people.users_of(users)["ben"])
    assert told(users) == [
        ("added", {"person": "jane", "role": "head", "kind": "person"}),
        ("added", {"person": "ben", "role": "officer", "kind": "person"}),
        ("gave a role", {"person": "ben", "role": "reader", "before": "officer"}),
        ("removed", {"person": "ben", "role": "reader"}),
    ]


def test_what_was_refused_is_not_left_for_the_history(users: registers.Register) -> None:
    """A change and what is left of it for the history are stored together, or neither."""
    before, was = told(users), people.users_of(users)
    with pytest.raises(Refused, match="jane is there already"):
        people.add(users, "jane", "reader")
    gone = people.User("mary", "person", "reader", False)
    with pytest.raises(Refused, match="there is no mary"):
        people.set_role(users, gone, "head")
    assert (told(users), people.users_of(users)) == (before, was)


@pytest.mark.parametrize(
    "user, who",
    [
        ("ann", "administrator of the machine (ann)"),
        ("", "administrator of the machine"),
        ("a\nb", "administrator of the machine"),
    ],
)
def test_the_history_names_whoever_became_root(
    user: str, who: str, monkeypatch: pytest.MonkeyPatch
) -> None:
    monkeypatch.setenv("SUDO_USER", user)
    assert answers.teller() == who


def test_a_role_that_is_there_is_kept_or_changed_and_the_password_stays(
    users: registers.Register, capsys: pytest.CaptureFixture[str]
) -> None:
    password = people.reset(users, "jane")
    kept = f"jane keeps the password; to draw another one: {ANOTHER}\n"
    assert typed("people", users.name, "--user", "jane", "--role", "head") == 0
    assert capsys.readouterr().out == kept
    assert typed("people", users.name, "--user", "jane", "--role", "reader", "--yes") == 0
    assert capsys.readouterr().out == f"jane has the role reader, and no longer head\n{kept}"
    assert signs_in(users, "jane", password)


def test_a_role_that_another_has_changed_meanwhile_stays(
    users: registers.Register, monkeypatch: pytest.MonkeyPatch
) -> None:
    def changes(*_: object) -> None:
        people.set_role(users, people.users_of(users)["jane"], "officer")

    monkeypatch.setattr(verb, "confirm", changes)
    with pytest.raises(Refused, match="jane was changed meanwhile: type it again"):
        typed("people", users.name, "--user", "jane", "--role", "reader")
    assert people.users_of(users)["jane"].role == "officer"


def test_another_password_ends_the_first(
    users: registers.Register, capsys: pytest.CaptureFixture[str]
) -> None:
    """Once that is confirmed."""
    first = people.reset(users, "jane")
    words = ("people", users.name, "--user", "jane", "--new-password")
    with pytest.raises(Refused, match="jane gets another password .*: nothing was changed"):
        typed(*words)
    assert signs_in(users, "jane", first)
    assert typed(*words, "--yes") == 0
    [line] = capsys.readouterr().out.splitlines()
    assert (signs_in(users, "jane", first), signs_in(users, "jane", line.split()[-1])) == (
        False, True)


def test_each_gets_a_new_password_or_nobody(
    users: registers.Register, monkeypatch: pytest.MonkeyPatch, machine: pathlib.Path
) -> None:
    """They are in a file of root alone, which is there before they count; one that is killed is
    typed again, and one that is done stays until somebody has handed it over."""
    monkeypatch.setattr(verb, "PASSWORDS", machine)
    first, real = people.reset(users, "ben"), office_people.People.reset

    def reset(found: office_people.People, name: str) -> str:
        if name == "jane":
            raise KeyboardInterrupt
        return str(real(found, name))

    with monkeypatch.context() as patch:
        patch.setattr(office_people.People, "reset", reset)
        with pytest.raises(KeyboardInterrupt):
            typed("people", users.name, "--all-new-passwords", "--yes")
    path = machine / f"passwords-{users.name}"
    assert signs_in(users, "ben", first) and not path.exists()
    with monkeypatch.context() as patch, pytest.raises(Refused, match="nothing was changed"):
        patch.setattr(sys, "stdin", Terminal("no\n"))
        typed("people", users.name, "--all-new-passwords")
    os.umask(0o077)
    assert typed("people", users.name, "--all-new-passwords", "--yes") == 0
    drawn = dict(line.split() for line in path.read_text(encoding="utf-8").splitlines())
    assert drawn.keys() == {"ben", "jane"} and path.stat().st_mode & 0o777 == 0o600
    assert all(signs_in(users, name, password) for name, password in drawn.items())
    assert not signs_in(users, "ben", first)
    with pytest.raises(Refused, match="is there already: hand over what it has, or remove it"):
        typed("people", users.name, "--all-new-passwords", "--yes")
    assert [it for it, _ in told(users)].count("drew a new password") == 3


def test_people_are_listed_and_removed_and_who_is_missing_is_named(
    users: registers.Register, capsys: pytest.CaptureFixture[str]
) -> None:
    assert (typed("people"), *capsys.readouterr()) == (0, "ben officer\njane head\n", "")
    with pytest.raises(Refused, match="'mary' is nobody of secondary-2025; its people: ben, jane"):
        typed("people", "--remove", "mary", "--yes")
    warning = "WARNING: secondary-2025: nobody has the role head, so nobody can hold a draw\n"
    assert (typed("people", "--remove", "jane", "--yes"), *capsys.readouterr()) == (
        0, "removed jane\n", warning)
    with people.opened(users) as (found, _):
        found.lock("ben", True)
    assert (typed("people", users.name), *capsys.readouterr()) == (
        0, "ben officer locked\n", warning)


@pytest.mark.parametrize("role, answer, said", [
    ("head", "", ""),
    ("reader", "yes\n", "the role of jane changes from head to reader. Type yes to do it: "),
])
def test_another_role_is_confirmed(
    role: str, answer: str, said: str, users: registers.Register, monkeypatch: pytest.MonkeyPatch,
    capsys: pytest.CaptureFixture[str],
) -> None:
    monkeypatch.setattr(sys, "stdin", Terminal(answer))
    assert typed("people", "--user", "jane", "--role", role) == 0
    assert capsys.readouterr().out.startswith(said or "jane keeps the password")
    assert people.users_of(users)["jane"].role == role


@pytest.mark.parametrize("words, said", [
    (["--user", "zed"], "'zed' is nobody of secondary-2025; its people: ben, jane$"),
    (["--user", "zed", "--new-password"], "'zed' is nobody of secondary-2025; its people: ben, j"),
    (["--role", "head"], "need --user: whose"), (["--new-password"], "need --user: whose"),
    (["--user", "A"], "'A' is no name of a person"), (["--user", "a", "--role", "x"], "is no role"),
    (["other", "--user", "jane"], "no such register: other; registers of this machine: secondary"),
])
def test_what_is_wrong_is_named_and_nothing_is_changed(
    words: list[str], said: str, users: registers.Register
) -> None:
    before = told(users)
    with pytest.raises(Refused, match=said):
        typed("people", *words)
    assert told(users) == before


def test_of_several_registers_one_must_be_named(
    users: registers.Register, machine: pathlib.Path
) -> None:
    (machine / "lib/primary-2026").mkdir()
    (machine / "lib/primary-2026/reg.db").touch()
    with pytest.raises(Refused, match="NAME is missing; registers of this machine: primary-2026,"
                                      " secondary-2025") as found:
        typed("people")
    assert found.value.status == 2
