"""Makes a register on this machine, with its site, its users, its units and
its timers.

  admissions-admin setup [NAME] [--phase PHASE --year YEAR] [--holiday DAY]..
    [--large] [--site HOST] [--authority TEXT] [--user USER --role ROLE]
  admissions-admin setup [NAME] --copy FILE [--history FILE]

It asks on a terminal for what is not given; without one, holidays must be given
too, or none. A holiday outside of the season, one on a weekend and a NAME with
another year are shown before. A register is for at most 2,000 children and 200
schools, late ones included; with --large, for 40,000 and 1,000. It cannot be
changed later, and a season cannot be divided. It makes what is missing, and
changes nothing that is there: typed twice, it does nothing the second time.
Each register has a NAME, such as secondary-2025, a HOST of its own, such as
secondary.admissions.example, and people of its own. USER is the first of them,
who adds the others on the screen People of the site: a password is drawn,
printed once, and changed by whoever signs in with it. TEXT is the name of the
authority, which is printed on each sheet of each register. With --copy the
register is made from a copy, which has its own phase, year and holidays, and
people, settings and history from what the nightly backup left beside it; the
history from another file with --history. What was sent since the copy waits on
the screen Copies of the office, to be sent again.

example:
  admissions-admin setup secondary-2025 --phase secondary --year 2025 \\
    --holiday 2025-04-18 --site admissions.example --user jane --role head
"""
import argparse
import os
import pathlib
import shlex
import sys
import typing

from office.core import model, rules
from register_files import Refused

from .. import (
    answers, brought, certificates, files, history_copies, people, repairs, serving, settings_copy,
    sites,
)
from ..answers import ask, confirm
from ..programs import USER, call, is_booted, program, tool
from ..registers import PHASES, SETTINGS, Register, all_registers, named, stored
from . import holidays

AUTHORITY = SETTINGS / "authority"
STANDARD, LARGE = (
    f"{it['children'].most:,} children and {it['schools'].most:,} schools"
    for it in (rules.LIMITS, rules.LARGE)
)
CHECKS = {"site": answers.host, "user": people.checked_name, "role": people.checked_role,
          "authority": answers.authority}


def arguments(reader: argparse.ArgumentParser) -> None:
    add = reader.add_argument
    add(
        "name",
        nargs="?",
        metavar="NAME",
        help="the name of the register: small letters, digits and hyphens (default: PHASE-YEAR)",
    )
    add("--phase", choices=list(PHASES))
    add("--year", help="the year of entry, from 2000 to 2100")
    add("--large", action="store_true", help=f"for at most {LARGE}; otherwise {STANDARD}")
    add(
        "--holiday",
        action="append",
        default=[],
        metavar="DAY",
        help="a day that is no working day, YYYY-MM-DD; may be repeated."
        " `none` where there is none",
    )
    add(
        "--copy",
        metavar="FILE",
        help="begin with this copy of a register, and with what is beside it,"
        " in place of a new one",
    )
    add("--history", metavar="FILE", help="the history, in place of what is beside the copy")
    add("--site", metavar="HOST", help="the site's name, by which browsers find this machine")
    add("--user", help="who may sign in: a name or a mail address, in small letters")
    add("--role", help=f"the role of that user: {people.ROLES_TEXT}")
    add("--authority", metavar="TEXT", help="the name of the authority")
    answers.add_yes(reader)
    reader.set_defaults(is_takeover=False)


def main(given: argparse.Namespace) -> int:
    serving.see_needed()
    return set_up_as_given(given)


def set_up_as_given(given: argparse.Namespace) -> int:
    """Makes what is missing of a register."""
    checked(given)
    register = completed(given)
    confirmed(register, given)
    return set_up(register, given)


def set_up(register: Register, given: argparse.Namespace) -> int:
    """Makes all that a register has on this machine, and starts it."""
    see_site_is_free(register, given.site)
    is_new = not register.is_made
    see_unfinished(register, given)
    if serving.is_closed(register) and not is_new and not brought.begun(register):
        raise Refused(f"the office of {register.name} is closed, and would open: admissions-admin"
                      f" open {register.name}")
    serving.report(serving.make_folders(register))
    if given.copy and is_new and not given.is_takeover:
        brought.keep(register, brought.Begun(given.copy, line=line_of(register, given)))
    for step in (make_register, take_settings, make_settings):
        serving.report(step(register, given))
    warning = certificates.see(register, given.site)
    if given.user:
        serving.report(make_user(register, given))
    if given.copy:
        serving.report(brought.bring(register, pathlib.Path(given.copy)))
    serving.report(sites.make_all())
    serving.report(serving.other_problems(register))
    brought.let_open(register)
    has_started = serving.start(register)
    if brought.begun(register) and not given.is_takeover:
        brought.forget(register)
    # (and not each time that nothing is left to do)
    if warning and (is_new or not given.user):
        print(warning)
    return 0 if has_started else 1


def checked(given: argparse.Namespace) -> None:
    """Refuses what is wrong before anything is asked or made."""
    if given.year is not None:
        given.year = answers.year(given.year)
    given.has_holidays = bool(given.holiday)
    given.holiday = answers.holidays([] if given.holiday == [answers.NONE] else given.holiday)
    for name in ("site", "user", "role", "authority"):
        if getattr(given, name) is not None:
            CHECKS[name](getattr(given, name))
    if given.role is not None and given.user is None:
        raise Refused("--role needs --user: whose role?", 2)
    if given.copy and (given.phase or given.year or given.has_holidays or given.large):
        raise Refused("--phase, --year, --holiday and --large are for a new register: a copy has"
                      " its own", 2)
    if given.history and not given.copy:
        raise Refused("--history needs --copy: since which copy?", 2)
    if given.history:
        given.history = answers.file(given.history)
    if given.copy:
        given.copy = answers.file(given.copy)


def completed(given: argparse.Namespace) -> Register:
    """The register; what is not given is asked for."""
    if given.copy:
        given.name = given.name or name_of(stored(pathlib.Path(given.copy)))
    elif given.name is None or not named(given.name).is_made:
        if given.name and not (given.phase and given.year):
            # (it may be a name that was mistyped)
            there = ", ".join(it.name for it in all_registers()) or "none"
            print(f"there is no register {given.name} yet; registers of this machine: {there}")
        given.phase = given.phase or ask("--phase (primary or secondary)", answers.phase)
        given.year = given.year or ask("--year of entry", answers.year)
        given.name = given.name or name_of(given)
        if not given.large and not named(given.name).is_made and sys.stdin.isatty():
            given.large = ask(
                f"--large, for {LARGE} in place of {STANDARD} (yes or no)",
                answers.yes_or_no,
                "no",
            )
        if not given.has_holidays and not named(given.name).is_made:
            given.holiday = ask(
                "--holiday days (YYYY-MM-DD, separated by blanks), or none",
                lambda it: answers.holidays([] if it == answers.NONE else it.split()),
                answers.NONE,
            )
    register = named(given.name)
    copied = settings_copy.names_of(given.copy) if given.copy else {}
    given.site = (
        given.site
        or register.host
        or copied.get("site-name")
        and answers.host(copied["site-name"])
        or ask("--site, the name by which browsers find it", answers.host)
    )
    users = people.users_of(register)
    if given.copy and not users and settings_copy.people_beside(pathlib.Path(given.copy)):
        if given.user:
            raise Refused("--user and --copy: people come with this copy, and more are added"
                          " once it is there", 2)
    elif not given.user and not users:
        given.user = ask("--user, who signs in first", people.checked_name)
    if given.user and users:
        see_person(register, given, users)
    elif given.user and not given.role:
        given.role = ask(f"--role of {given.user}: {people.ROLES_TEXT}", people.checked_role)
    if (
        given.authority is None
        and not register.is_made
        and not AUTHORITY.exists()
        and not copied
        and sys.stdin.isatty()
    ):
        given.authority = ask(
            "--authority, the name that is printed on each sheet, or none",
            lambda it: None if it == answers.NONE else answers.authority(it),
            answers.NONE,
        )
    return register


def see_person(
    register: Register, given: argparse.Namespace, users: dict[str, people.User]
) -> None:
    """Refuses a person who is not the first, and another role of one: the verb for that is
    another."""
    found = users.get(given.user)
    if not found or given.role not in (None, found.role):
        role = given.role or "ROLE"
        raise Refused(f"{register.name} has people already. To add a person, or to change a role:"
                      f" admissions-admin people {register.name} --user {given.user} --role {role}",
                      2)


def name_of(season: model.Register | argparse.Namespace) -> str:
    return f"{season.phase}-{season.year}"


def confirmed(register: Register, given: argparse.Namespace) -> None:
    """Shows what is changed of what is there, and what may be wrong, and has it confirmed."""
    see_season(register, given)
    authority = AUTHORITY.read_text(encoding="utf-8").strip() if AUTHORITY.exists() else ""
    if given.authority and authority and given.authority != authority:
        confirm(
            "the name of the authority on the sheets of all registers changes"
            f" from {authority} to {given.authority}",
            given.yes,
        )


def see_season(register: Register, given: argparse.Namespace) -> None:
    """Shows what may be wrong of the year and the holidays of a register that is made, and has it
    confirmed: the holidays decide the offer day, and the year all days."""
    if given.copy:
        return
    if not register.is_made:
        answers.see_season(register.name, given.year, given.holiday, given.yes)
    elif given.has_holidays and holidays.days_of(register.file) != given.holiday:
        raise Refused(
            f"the holidays of {register.name} are"
            f" {', '.join(holidays.days_of(register.file)) or 'none'}. To replace them:"
            f" admissions-admin holidays {register.name} {' '.join(given.holiday) or answers.NONE}",
            2)


def line_of(register: Register, given: argparse.Namespace) -> str:
    """The line that makes a register from a copy."""
    history = ["--history", given.history] if given.history else []
    return shlex.join(["admissions-admin", "setup", register.name, "--copy", given.copy, *history])


def see_unfinished(register: Register, given: argparse.Namespace) -> None:
    """Refuses another line than the one that goes on, once a register is made from a copy: what
    came since would not wait to be sent again."""
    found = brought.begun(register)
    if found and register.is_made and not given.is_takeover and given.copy != found.copy:
        raise Refused(brought.unfinished(register))


def see_site_is_free(register: Register, host: str) -> None:
    """Refuses the name of another register's site."""
    taken = next(
        (it for it in sites.registers_with_site() if it.host == host and it != register), None
    )
    if taken:
        raise Refused(
            f"{host} is the site of {taken.name} already:"
            " each register has a site name of its own",
            2,
        )


def make_register(register: Register, given: argparse.Namespace) -> typing.Iterator[str]:
    """Makes the register, or sees that the one that is there is the one that is named."""
    file = register.file
    # (one that cannot be read is kept by the restore)
    is_damaged = given.is_takeover and register.is_made and not repairs.is_register(register)
    if register.is_made and not is_damaged:
        found = stored(file)
        if given.phase not in (None, found.phase) or given.year not in (None, found.year):
            raise Refused(
                f"{file} is the register of {found.phase} {found.year} already:"
                " give another one another NAME"
            )
        if given.large and not found.is_large:
            raise Refused(f"{file} is made already, for at most {STANDARD}, and stays so")
        if given.copy:
            # (a run that was killed after the restore left it of root)
            give_to_desk(register)
        if given.copy and not given.is_takeover:
            how = f"admissions-admin restore {register.name} puts a copy in its place"
            yield f"{file} is there already, and stays as it is: {how}"
    elif given.copy:
        call(program("admissions-restore"), os.path.abspath(given.copy), file)
        give_to_desk(register)
        yield f"made {file} from {given.copy}"
    else:
        call(
            program("admissions"),
            "init",
            file,
            given.phase,
            given.year,
            *given.holiday,
            *["--large"] * given.large,
            as_user=USER,
        )
        days = f"holidays {' '.join(given.holiday)}" if given.holiday else "without holidays"
        size = f", for at most {LARGE}" if given.large else ""
        yield f"made {file}, for {given.phase} {given.year}, {days}{size}"


def give_to_desk(register: Register) -> None:
    """Gives the files of a register to the user of the desks."""
    for path in register.folder.iterdir():
        # (of a link, which that user may have made, that itself)
        os.chown(path, *files.numbers(USER, USER), follow_symlinks=False)


def take_settings(register: Register, given: argparse.Namespace) -> typing.Iterator[str]:
    """Takes people, settings and history from beside the copy, where this machine has none of
    them."""
    if given.history:
        path = pathlib.Path(given.history)
        yield from history_copies.put(register, path, history_copies.whole(path))
    if given.copy:
        yield from settings_copy.restored(
            register, pathlib.Path(given.copy), not given.history, not given.is_takeover)


def make_settings(register: Register, given: argparse.Namespace) -> typing.Iterator[str]:
    """The site's name, its certificate, and the name of the authority."""
    before = register.host
    if before not in (None, given.site):
        raise Refused(f"the site of {register.name} is {before}. To change its name:"
                      f" admissions-admin site {register.name} {given.site}")
    yield from certificates.make(register, given.site)
    if given.authority and files.write(AUTHORITY, given.authority + "\n", 0o644):
        yield f"the authority is {given.authority}"
        if is_booted():
            # (each application has read the name)
            call(tool("systemctl", "systemd"), "try-restart", "admissions-office@*.service")
    if files.write(register.settings / "site-name", given.site + "\n", 0o644):
        yield f"the site is {given.site}"


def make_user(register: Register, given: argparse.Namespace) -> typing.Iterator[str]:
    """The first person, with the role and a password."""
    name = given.user
    another = f"admissions-admin people {register.name} --user {name} --new-password"
    if name in people.users_of(register):
        yield f"{name} keeps the password; to draw another one: {another}"
        return
    yield f"{name} gets the role {given.role}; if no password is below, draw one: {another}"
    password = people.add(register, name, given.role)
    yield f"{name} signs in at https://{register.host}/ with the password {password}"
