"""What admissions-admin setup takes, refuses and asks again; the holidays of a register that is
there; and the lock."""
import argparse
import contextlib
import datetime
import importlib.util
import io
import multiprocessing
import os
import pathlib
import shutil
import sqlite3
import subprocess
import sys
import tempfile
import typing

import pytest
from conftest import Terminal, document, typed
from machine import (
    answers, brought, certificates, files, office_copy, people, registers, serving, settings_copy,
    sites,
)
from machine.verbs import holidays, setup, status
from office_files import add_people, record
from register_files import Refused
from setup_arguments import given_to_setup

T = typing.TypeVar("T")


@pytest.mark.parametrize(
    "take, good, bad",
    [
        (answers.phase, "primary", ["Primary", "", "first"]),
        (answers.year, "2025", ["25", "1999", "2101", "20255", "2o25", ""]),
        (
            answers.host,
            "admissions.example",
            ["admissions", "https://admissions.example", "Admissions.example", "", "10.0.0.5",
             "admissions.5"],
        ),
        (
            people.checked_name,
            "jane",
            ["Jane", "a b", "a:b", "~a", "@a", "+a", "ä", "a\n", "a" * 65, ""],
        ),
        (people.checked_name, "ann.lee+post_1@ysgol-x.example", []),
        (people.checked_name, "a" * 64, []),
        (people.checked_role, "school-A", ["office", "school-", "school-a", "head ", ""]),
        (people.checked_role, "head", []),
        (answers.authority, "Example County Council", ["", " ", "two\nlines"]),
    ],
)
def test_what_is_taken_and_what_is_named(
    take: typing.Callable[[str], object], good: str, bad: list[str]
) -> None:
    assert str(take(good)) == good
    for it in bad:
        with pytest.raises(Refused) as found:
            take(it)
        assert (repr(it) in str(found.value), found.value.status) == (True, 2)


@pytest.mark.parametrize(
    "text",
    [
        "3/4/2026",
        "2026-4-3",
        "20260403",
        f"{datetime.date(2026, 4, 3):%G-W%V-%u}",
        "2026-02-30",
        "Easter",
    ],
)
def test_a_day_in_another_form_names_the_form(text: str) -> None:
    with pytest.raises(Refused, match="is no day: write YYYY-MM-DD, as 2026-04-03"):
        answers.holidays([text])


def test_days_are_in_order_each_once_and_forty_at_most() -> None:
    assert answers.holidays(["2026-04-06", "2026-04-03", "2026-04-06"]) == [
        "2026-04-03",
        "2026-04-06",
    ]
    days = [f"2026-{month:02}-{day:02}" for month in (1, 2) for day in range(1, 21)]
    assert answers.holidays(days) == days
    with pytest.raises(Refused, match="41 holidays are too many"):
        answers.holidays([*days, "2026-03-01"])


def test_an_answer_that_is_not_taken_is_named_and_asked_for_again(
    monkeypatch: pytest.MonkeyPatch, capsys: pytest.CaptureFixture[str]
) -> None:
    monkeypatch.setattr(sys, "stdin", Terminal("Primary\n primary \n"))
    assert answers.ask("--phase", answers.phase) == "primary"
    assert (
        capsys.readouterr().out
        == "--phase: 'Primary' is no phase: type primary or secondary, in small letters\n--phase: "
    )
    with pytest.raises(Refused, match="the input ended"):
        answers.ask("--phase", answers.phase)


def test_without_a_terminal_nothing_is_asked(monkeypatch: pytest.MonkeyPatch) -> None:
    monkeypatch.setattr(sys, "stdin", io.StringIO("primary\n"))
    calls: tuple[typing.Callable[[], object], ...] = (
        lambda: answers.ask("--phase", answers.phase),
        lambda: answers.confirm("jane is removed", False),
    )
    for call in calls:
        with pytest.raises(Refused) as found:
            call()
        assert found.value.status == 2
    answers.confirm("jane is removed", True)


@pytest.mark.parametrize("typed", ["no\n", "y\n", "YES\n", "\n", ""])
def test_only_a_yes_confirms(typed: str, monkeypatch: pytest.MonkeyPatch) -> None:
    monkeypatch.setattr(sys, "stdin", Terminal("yes\n" + typed))
    answers.confirm("jane is removed", False)
    with pytest.raises(Refused, match="nothing was changed"):
        answers.confirm("jane is removed", False)


def completed(monkeypatch: pytest.MonkeyPatch, typed: str, *given: str) -> typing.Any:
    space = given_to_setup(*given)
    monkeypatch.setattr(sys, "stdin", Terminal(typed))
    setup.completed(space)
    return space


def test_a_plain_setup_asks_for_holidays_and_a_role(
    machine: pathlib.Path, monkeypatch: pytest.MonkeyPatch
) -> None:
    monkeypatch.setattr(setup, "AUTHORITY", machine / "etc/authority")
    found = completed(
        monkeypatch,
        "primary\n2028\nno\n2028-04-17 2028-04-14\nprimary.admissions.example\nmary\nhead\nnone\n",
    )
    assert (found.name, found.phase, found.year, found.holiday) == (
        "primary-2028",
        "primary",
        2028,
        ["2028-04-14", "2028-04-17"],
    )
    assert (found.site, found.user, found.role, found.authority) == (
        "primary.admissions.example",
        "mary",
        "head",
        None,
    )
    named = completed(
        monkeypatch,
        "no\nnone\nnone\n",
        "x",
        "--phase",
        "primary",
        "--year",
        "2028",
        "--site",
        "x.example",
        "--user",
        "mary",
        "--role",
        "head",
    )
    assert (named.large, named.holiday, named.authority) == (False, [], None)


def test_a_name_that_no_register_has_is_named_before_anything_is_asked(
    register: registers.Register, monkeypatch: pytest.MonkeyPatch,
    capsys: pytest.CaptureFixture[str],
) -> None:
    """It may be mistyped. Where phase and year are given, a new register is meant."""
    said = (f"there is no register secondary-2052 yet; registers of this machine: {register.name}\n"
            "--phase (primary or secondary): ")
    with pytest.raises(Refused, match="the input ended"):
        completed(monkeypatch, "", "secondary-2052", "--user", "jane")
    assert capsys.readouterr().out == said
    with pytest.raises(Refused, match="the input ended"):
        completed(monkeypatch, "", "secondary-2052", "--phase", "secondary", "--year", "2052")
    assert "there is no register" not in capsys.readouterr().out


def test_a_copy_names_its_register_and_nothing_is_asked_that_it_has(
    register: registers.Register, machine: pathlib.Path, monkeypatch: pytest.MonkeyPatch
) -> None:
    monkeypatch.setattr(setup, "AUTHORITY", machine / "etc/authority")
    copy = register.file.rename(machine / "copy.db")
    found = completed(
        monkeypatch,
        "none\n",
        "--copy",
        str(copy),
        "--site",
        "x.example",
        "--user",
        "mary",
        "--role",
        "head",
    )
    assert (found.name, found.phase, found.year, found.holiday, sys.stdin.read()) == (
        "secondary-2025",
        None,
        None,
        [],
        "",
    )
    named = completed(
        monkeypatch,
        "none\n",
        "other",
        "--copy",
        str(copy),
        "--site",
        "x.example",
        "--user",
        "mary",
        "--role",
        "head",
    )
    assert named.name == "other"


def test_a_user_without_a_role_is_refused_and_the_roles_are_named(
    register: registers.Register, monkeypatch: pytest.MonkeyPatch
) -> None:
    monkeypatch.setattr(sys, "stdin", io.StringIO(""))
    with pytest.raises(
        Refused, match="not given: --role of mary: head, officer, supervisor, .*, or school-CODE"
    ) as found:
        setup.completed(given_to_setup(register.name, "--user", "mary"))
    assert found.value.status == 2


@pytest.mark.parametrize(
    "given, said",
    [
        (["--copy", "reg.db", "--holiday", "2025-03-03"], "a copy has its own"),
        (["--copy", "reg.db", "--holiday", "none"], "a copy has its own"),
        (["--copy", "reg.db", "--phase", "primary"], "a copy has its own"),
        (["--copy", "reg.db", "--year", "2025"], "a copy has its own"),
        (["--role", "head"], "whose role"),
        (["--year", "25"], "'25' is no year"),
        (["--holiday", "3/4/2026"], "write YYYY-MM-DD"),
    ],
)
def test_options_that_do_not_belong_together(given: list[str], said: str) -> None:
    with pytest.raises(Refused, match=said) as found:
        given_to_setup("secondary-2025", *given)
    assert found.value.status == 2


def add_to(path: pathlib.Path, turns: int) -> None:
    """Reads a number and writes the next one, as a set-up reads and replaces a file; again where
    another one had the lock.
    """
    while turns:
        with contextlib.suppress(Refused), files.lock("a set-up"):
            count = int(path.read_text())
            path.write_text(str(count + 1))
            turns -= 1


def test_the_lock_lets_one_change_at_a_time(
    tmp_path: pathlib.Path, monkeypatch: pytest.MonkeyPatch
) -> None:
    monkeypatch.setattr(files, "LOCK", tmp_path / "lock")
    (tmp_path / "count").write_text("0")
    context = multiprocessing.get_context("fork")
    running = [context.Process(target=add_to, args=(tmp_path / "count", 100)) for _ in range(8)]
    for it in running:
        it.start()
    for it in running:
        it.join()
    assert (tmp_path / "count").read_text() == "800"


def test_the_holidays_of_an_empty_register_and_no_other(register: registers.Register) -> None:
    days = ["2025-04-03", "2025-04-04"]
    register.file.write_text(document(holidays=days), encoding="utf-8")
    assert holidays.days_of(register.file) == ["2025-04-03", "2025-04-04"]
    assert holidays.change_of(register, ["2025-04-03", "2025-04-04"]) is None
    assert holidays.change_of(register, []) == (
        "the holidays of secondary-2025 change from 2025-04-03, 2025-04-04 to none: it is empty,"
        " and is made anew"
    )
    register.file.write_text(document(1, days), encoding="utf-8")
    with pytest.raises(
        Refused,
        match="cannot be changed any more, since it has 1 school: .*"
        " Its holidays are 2025-04-03, 2025-04-04$",
    ):
        holidays.change_of(register, [])


@pytest.mark.parametrize("words, said", [
    (["secondary-2025", "2025-04-03"], "the holidays of secondary-2025 change from none to 2025-0"),
    (["2025-04-05"], "2025-04-05 is a Saturday, which is no working day anyway: nothing was chan"),
    (["secondary-2025"], "which days"), (["none", "2025-04-03"], "'none' is no day"),
    (["secondary-2052", "none"], "no such register: secondary-2052"),
    (["2025-4-3"], "'2025-4-3' is no day: write YYYY-MM-DD"),
])
def test_holidays_are_replaced_after_a_yes_and_a_wrong_word_is_named(
    words: list[str], said: str, register: registers.Register, monkeypatch: pytest.MonkeyPatch,
) -> None:
    monkeypatch.setattr(sys, "stdin", io.StringIO(""))
    with pytest.raises(Refused, match=said) as found:
        typed("holidays", *words)
    assert found.value.status == 2


@pytest.fixture(name="as_desk")
def as_desk_fixture(monkeypatch: pytest.MonkeyPatch) -> list[bool]:
    """Whether the user of the desks does what is done now; nothing but this command gives files to
    others."""
    now = [False]

    @contextlib.contextmanager
    def as_desk() -> typing.Iterator[None]:
        now[0] = True
        yield
        now[0] = False

    monkeypatch.setattr(files, "as_desk", as_desk)
    monkeypatch.setattr(shutil, "chown", None)
    return now


def test_in_the_folder_of_the_desk_root_makes_no_folder(
    register: registers.Register, as_desk: list[bool], monkeypatch: pytest.MonkeyPatch
) -> None:
    made, make = [], tempfile.mkdtemp

    def mkdtemp(suffix: typing.Any, prefix: str, folder: typing.Any) -> str:
        # (the copy that the program opens is in a folder for temporary files)
        if folder == register.folder:
            made.append(as_desk[0])
        path: str = make(suffix, prefix, folder)
        return path

    monkeypatch.setattr(tempfile, "mkdtemp", mkdtemp)
    monkeypatch.setattr(holidays, "open_error", lambda *_, **more: "")
    monkeypatch.setattr(holidays, "program", lambda name: name)
    monkeypatch.setattr(
        holidays,
        "call",
        lambda *_, as_user: subprocess.CompletedProcess([], 0, f"restored; kept by {as_user}\n"),
    )
    assert holidays.change(register, ["2025-04-03"], []).endswith(
        "with the holidays 2025-04-03; kept by admissions"
    )
    assert made == [True]


def test_of_a_link_in_the_folder_of_the_desk_its_target_keeps_its_owner(
    register: registers.Register,
    as_desk: list[bool],
    write_as_me: None,
    monkeypatch: pytest.MonkeyPatch,
) -> None:
    register.file.unlink()
    (register.folder / "link").symlink_to("/etc/hostname")
    given: list[tuple[str, bool]] = []
    monkeypatch.setattr(
        os,
        "chown",
        lambda path, *_, follow_symlinks=True: given.append((path.name, follow_symlinks)),
    )
    monkeypatch.setattr(setup, "program", lambda name: name)
    monkeypatch.setattr(setup, "call", lambda *_: register.file.write_text(""))
    space = argparse.Namespace(copy="copy.db", is_takeover=False)
    assert list(setup.make_register(register, space)) == [f"made {register.file} from copy.db"]
    assert sorted(given) == [("link", False), ("reg.db", False)]


def test_an_empty_file_of_a_register_is_none(
    register: registers.Register, monkeypatch: pytest.MonkeyPatch, machine: pathlib.Path
) -> None:
    """As a crash leaves it while the program makes it: it is asked for as if there were none."""
    register.file.write_bytes(b"")
    monkeypatch.setattr(setup, "AUTHORITY", machine / "etc/authority")
    typed = "secondary\n2025\nyes\n2025-04-18\njane\nhead\nnone\n"
    found = completed(monkeypatch, typed, register.name)
    assert (found.phase, found.year, found.large, found.holiday) == (
        "secondary", 2025, True, ["2025-04-18"])
    monkeypatch.setattr(setup, "program", lambda name: name)
    made: list[tuple[object, ...]] = []
    monkeypatch.setattr(setup, "call", lambda *words, as_user: made.append(words))
    assert list(setup.make_register(register, found)) == [
        f"made {register.file}, for secondary 2025, holidays 2025-04-18, for at most 40,000"
        " children and 1,000 schools"
    ]
    assert made == [
        ("admissions", "init", register.file, "secondary", 2025, "2025-04-18", "--large")
    ]


@pytest.mark.parametrize("has_people", [False, True])
def test_who_comes_with_a_copy_is_not_added_beside_it(
    has_people: bool,
    register: registers.Register,
    machine: pathlib.Path,
    monkeypatch: pytest.MonkeyPatch,
) -> None:
    """Nobody is asked for who comes with it; of a copy without people the first is asked for."""
    monkeypatch.setattr(setup, "AUTHORITY", machine / "etc/authority")
    people_beside = [people.User("ann", "person", "head", False)] * has_people
    monkeypatch.setattr(settings_copy, "people_beside", lambda copy: people_beside)
    words = [register.name, "--copy", str(register.file), "--site", "x.example"]
    if has_people:
        assert completed(monkeypatch, "none\n", *words).user is None
        with pytest.raises(Refused, match="--user and --copy: people come with this copy"):
            completed(monkeypatch, "none\n", *words, "--user", "mary", "--role", "head")
    else:
        found = completed(monkeypatch, "mary\nhead\nnone\n", *words)
        assert (found.user, found.role) == ("mary", "head")


def test_a_copy_of_a_machine_that_has_named_no_authority_asks_for_none(
    register: registers.Register, machine: pathlib.Path, monkeypatch: pytest.MonkeyPatch
) -> None:
    """As in a takeover; of a copy without its settings it is asked for."""
    copy = register.file.rename(machine / "copy.db")
    monkeypatch.setattr(setup, "AUTHORITY", machine / "etc/authority")
    monkeypatch.setattr(settings_copy, "people_beside", lambda copy: [
        people.User("ann", "person", "head", False)])
    words, found = (register.name, "--copy", str(copy), "--site", "x.example"), dict[str, str]()
    monkeypatch.setattr(settings_copy, "names_of", lambda copy: found)
    for left in ("", "none\n"):
        given = completed(monkeypatch, "none\n", *words)
        assert (given.authority, sys.stdin.read()) == (None, left)
        found["site-name"] = "x.example"


def test_a_copy_that_is_not_there_is_refused_before_anything_is_asked(
    machine: pathlib.Path
) -> None:
    with pytest.raises(Refused, match="gone.db is not there, or is no file"):
        given_to_setup("secondary-2025", "--copy", str(machine / "gone.db"))


@pytest.mark.parametrize("step", [
    (setup, "take_settings"), (brought, "begin"), (serving, "start")])
def test_a_register_from_a_copy_that_was_killed_goes_on(
    step: tuple[typing.Any, str], register: registers.Register, machine: pathlib.Path,
    write_as_me: None, monkeypatch: pytest.MonkeyPatch, capsys: pytest.CaptureFixture[str],
) -> None:
    """What came since waits to be sent again, once: no other line opens the office before that."""
    copy = register.file.rename(machine / "before-0.3.0.db")
    at = datetime.datetime(2025, 3, 1).timestamp()
    os.utime(copy, (at, at))
    monkeypatch.setattr(setup, "AUTHORITY", machine / "etc/authority")
    monkeypatch.setattr(registers, "is_blank", lambda _: False)
    monkeypatch.setattr(office_copy, "give", lambda _: None)
    monkeypatch.setattr(setup, "give_to_desk", lambda _: None)
    monkeypatch.setattr(certificates, "make", lambda *_: [])
    monkeypatch.setattr(certificates, "see", lambda *_: None)
    monkeypatch.setattr(sites, "make_all", list)
    monkeypatch.setattr(serving, "make_folders", lambda _: [])
    monkeypatch.setattr(serving, "see_needed", lambda: None)
    # (which its units refuse as long as this is there)
    monkeypatch.setattr(
        serving, "start", lambda _: not (register.settings / brought.BEGUN).exists())
    monkeypatch.setattr(setup, "program", str)
    monkeypatch.setattr(setup, "call", lambda _, here, there: shutil.copyfile(here, there))
    add_people(register, ("jane", "head"))
    register.office_copies.mkdir()
    record(register, 7)
    words = (register.name, "--copy", str(copy))

    def killed(*_: object) -> typing.NoReturn:
        raise KeyboardInterrupt

    with monkeypatch.context() as patch, pytest.raises(KeyboardInterrupt):
        patch.setattr(*step, killed)
        typed("setup", *words)
    how = f"its set-up from a copy has not ended: admissions-admin setup {' '.join(words)}"
    for verb in ("open", "setup"):
        with pytest.raises(Refused, match=f"^{how}$"):
            typed(verb, register.name)
    with pytest.raises(Refused, match="is there already, so this machine does not take over"):
        typed("takeover", register.name)
    assert status.file_of(register) == (False, how)
    for _ in range(2):
        assert typed("setup", *words) == 0
    with brought.application(register) as parts:
        [found] = [it for it in parts.restores.listed() if not it.is_ended]
        [row] = parts.restores.sending.rows(found)
        assert parts.restores.sending.entry(row).about["command"]["child"] == 7
    assert "The history ends" not in capsys.readouterr().out
    assert not brought.place(register).exists()


@pytest.mark.parametrize(
    "before, given, said",
    [
        (
            "Old Council",
            "Other Council",
            "the name of the authority on the sheets of all registers changes"
            " from Old Council to Other Council",
        ),
        ("Other Council", "Other Council", ""),
        (None, "Other Council", ""),
    ],
)
def test_another_name_of_the_authority_is_confirmed(
    before: str | None,
    given: str,
    said: str,
    register: registers.Register,
    machine: pathlib.Path,
    monkeypatch: pytest.MonkeyPatch,
) -> None:
    monkeypatch.setattr(setup, "AUTHORITY", machine / "etc/authority")
    monkeypatch.setattr(sys, "stdin", io.StringIO(""))
    if before:
        (machine / "etc/authority").write_text(f"{before}\n")
    see_confirmed(register, ["--authority", given], said)


def see_confirmed(register: registers.Register, words: list[str], said: str) -> None:
    """That without a terminal these arguments need --yes, and for what; or, where nothing is said,
    that they need none."""
    if said:
        with pytest.raises(Refused, match=f"^{said}: nothing was changed") as found:
            setup.confirmed(register, given_to_setup(register.name, *words))
        assert found.value.status == 2
    setup.confirmed(register, given_to_setup(register.name, *words, *(["--yes"] if said else [])))


@pytest.mark.parametrize(
    "name, days, said",
    [
        ("secondary-2026", ["2026-04-03", "2025-12-25"], []),
        ("secondary-2028", [], ["the name secondary-2028 has the year 2028, and the register is"
                                " for 2026"]),
        ("x", ["2062-04-03"], ["2062-04-03 is not in the season for 2026, 2025-09-01 to"
                               " 2026-12-31"]),
        ("x", ["2025-08-31", "2027-01-01", "2026-04-04"],
         ["2025-08-31 is not in the season for 2026, 2025-09-01 to 2026-12-31",
          "2026-04-04 is a Saturday, which is no working day anyway",
          "2027-01-01 is not in the season for 2026, 2025-09-01 to 2026-12-31"]),
    ],
)
def test_what_may_be_wrong_of_a_season_is_shown_and_confirmed(
    name: str, days: list[str], said: list[str], machine: pathlib.Path,
    monkeypatch: pytest.MonkeyPatch, capsys: pytest.CaptureFixture[str],
) -> None:
    monkeypatch.setattr(sys, "stdin", io.StringIO(""))
    words = [name, "--phase", "secondary", "--year", "2026"]
    words += [it for day in days for it in ("--holiday", day)]
    register = registers.named(name)
    if said:
        with pytest.raises(Refused, match="if this is right, repeat it with --yes") as found:
            setup.see_season(register, given_to_setup(*words))
        assert (found.value.status, str(found.value).startswith(said[0])) == (2, True)
    setup.see_season(register, given_to_setup(*words, "--yes"))
    assert capsys.readouterr().out == "".join(f"WARNING: {it}\n" for it in said)


def test_the_holidays_of_a_register_that_is_there_are_another_verb(
    register: registers.Register
) -> None:
    """The same ones are not doubted, so that the same line may be typed again."""
    register.file.write_text(document(holidays=["2025-03-02"]), encoding="utf-8")
    words = [register.name, "--holiday", "2025-03-02"]
    setup.see_season(register, given_to_setup(*words))
    with pytest.raises(Refused, match="the holidays of secondary-2025 are 2025-03-02. To replace"
                                      " them: admissions-admin holidays secondary-2025 2025-03-01"):
        setup.see_season(register, given_to_setup(*words[:2], "2025-03-01"))


def test_without_a_terminal_a_new_register_needs_its_holidays(
    machine: pathlib.Path, monkeypatch: pytest.MonkeyPatch
) -> None:
    monkeypatch.setattr(sys, "stdin", io.StringIO(""))
    words = ["--phase", "secondary", "--year", "2026", "--site", "x.example", "--user", "mary",
             "--role", "head"]
    with pytest.raises(Refused, match="^not given: --holiday days") as found:
        setup.completed(given_to_setup(*words))
    assert found.value.status == 2
    setup.completed(given_to_setup(*words, "--holiday", "none"))


def test_of_a_register_that_is_there_no_authority_is_asked(
    users: registers.Register, machine: pathlib.Path, monkeypatch: pytest.MonkeyPatch
) -> None:
    """An answer to another question would be the name on each sheet."""
    monkeypatch.setattr(setup, "AUTHORITY", machine / "etc/authority")
    found = completed(monkeypatch, "yes\n", users.name)
    assert (found.authority, sys.stdin.read()) == (None, "yes\n")


def test_what_the_application_lacks_is_named_before_anything_is_made(
    monkeypatch: pytest.MonkeyPatch,
) -> None:
    monkeypatch.setattr(serving, "tool", lambda name, package: name)
    real = importlib.util.find_spec
    monkeypatch.setattr(
        importlib.util, "find_spec",
        lambda name: None if name in ("flask", "argon2") else real(name))
    said = "^the office's application needs: apt-get install python3-argon2 python3-flask$"
    for verb in ("setup", "sites"):
        with pytest.raises(Refused, match=said):
            typed(verb)


@pytest.mark.parametrize(
    ("statements", "said", "is_made"),
    [
        # what init leaves that was killed before the register was in the file or in its log
        (["CREATE TABLE x (a)", "DROP TABLE x"], "fault: NotOurs", False),
        # the register is in the log alone
        (["CREATE TABLE x (a)", "DROP TABLE x"], "", True),
        # somebody else's
        (["CREATE TABLE x (a)"], "fault: NotOurs", True),
        (None, "fault: NotOurs", True),
    ],
)
def test_what_a_killed_init_leaves_is_no_register(
    register: registers.Register, monkeypatch: pytest.MonkeyPatch,
    statements: list[str] | None, said: str, is_made: bool,
) -> None:
    monkeypatch.setattr(registers, "open_error", lambda *_: said)
    if statements is not None:
        register.file.unlink()
        with contextlib.closing(sqlite3.connect(register.file)) as db:
            for it in statements:
                db.execute(it)
    assert register.file.stat().st_size > 0 and register.is_made == is_made


@pytest.mark.parametrize("words, is_kept", [
    (["--user", "jane"], True), (["--user", "jane", "--role", "head"], True),
    (["--user", "jane", "--role", "reader"], False), (["--user", "mary", "--role", "head"], False),
])
def test_the_first_person_is_added_and_all_others_by_another_verb(
    words: list[str], is_kept: bool, users: registers.Register, machine: pathlib.Path,
    monkeypatch: pytest.MonkeyPatch,
) -> None:
    """The same line may be typed again, and keeps the password."""
    monkeypatch.setattr(setup, "AUTHORITY", machine / "etc/authority")
    given = given_to_setup(users.name, *words)
    if is_kept:
        setup.completed(given)
        assert list(setup.make_user(users, given)) == [
            "jane keeps the password; to draw another one: admissions-admin people secondary-2025"
            " --user jane --new-password"]
    else:
        with pytest.raises(Refused, match="has people already.*: admissions-admin people"):
            setup.completed(given)
    assert people.users_of(users).keys() == {"ben", "jane"}


def test_a_person_comes_with_a_password_that_is_printed_once(
    register: registers.Register, write_as_me: None
) -> None:
    given = given_to_setup(register.name, "--user", "jane", "--role", "head")
    first, second = setup.make_user(register, given)
    assert first.startswith("jane gets the role head; if no password is below, draw one: ")
    assert second.startswith("jane signs in at https://admissions.example/ with the password ")


def test_another_name_of_the_site_is_another_verb(
    register: registers.Register, machine: pathlib.Path, write_as_me: None
) -> None:
    given = given_to_setup(register.name, "--site", "other.example")
    with pytest.raises(Refused, match="admissions-admin site secondary-2025 other.example$"):
        list(setup.make_settings(register, given))
