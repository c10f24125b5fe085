"""Reports how the registers of this machine are: file, desk, site, units,
people, history, copies, disks, certificates; and which were deleted.

  admissions-admin status [NAME ..] [--line | --json | --metrics [--to FILE]]
  admissions-admin status [NAME ..] --explain PART

Without a NAME it reports all registers. With --line it prints one line, for a
monitoring system that runs plugins as Nagios and Icinga do; with --json one
object; with --metrics numbers in the text format of Prometheus, without
personal data, which --to writes into FILE in one step. --explain says where a
part is well, and how it is now; a part that has failed ends with the line to
type. No register is opened.
The site is sent a request of nobody, which it must refuse. The people and the
history are those of the office's application, whose files are only read.

example:
  admissions-admin status --line

exit status: 0 all is well, or the numbers are written; 1 something needs
attention; 2 wrong arguments, or no such register; 3 an office cannot work: its
register cannot be read, its server or its site does not answer, or its
certificate is not of the site's key, or ends within a day or has ended. With
--line they are those of such plugins: 0 all is well; 1 (WARNING) something
needs attention; 2 (CRITICAL) an office cannot work, or an option is wrong; 3
(UNKNOWN) it could not look, and the line says why.
"""
import argparse
import collections
import datetime
import fcntl
import http.client
import os
import pathlib
import ssl
import stat
import time
from collections.abc import Callable

from register_files import Refused

from office.core import texts
from office.core.days import DELETION_NOTICE

from .. import (
    brought, certificates, copies_status, deletion, files, findings, histories, history_copies,
    metrics, office_requests, office_store, repairs, second_copy, serving,
)
from ..copies_status import age_text, is_ahead
from ..desk import site_status_of, status_of
from ..findings import Failed, Finding, Level, Report, State
from ..parts import PARTS
from ..registers import REGISTERS, Register, known, stored
from ..programs import OFFICE, call, is_booted, tool

# for so long the answer to a request may be unknown
OPEN_SECONDS = 3600
# the units whose last run must not have failed
JOBS = ("backup", "second-copy", "drill", *(f"office-{it}" for it in serving.REQUESTS))
# what an upgrade keeps of what it has stopped, until it has started it again; and dpkg's own lock
INTERRUPTED = pathlib.Path("/var/lib/admissions/.running-before-upgrade")
DPKG_LOCK = pathlib.Path("/var/lib/dpkg/lock")
# the part of a register that the office cannot work without, if it cannot be read
FILE = "register"


def arguments(reader: argparse.ArgumentParser) -> None:
    said = "the name of a register; all of them if none is given"
    reader.add_argument("names", nargs="*", metavar="NAME", help=said)
    form = reader.add_mutually_exclusive_group()
    form.add_argument("--line", action="store_true", help="one line for a monitoring system")
    form.add_argument("--json", action="store_true", help="one object of JSON")
    form.add_argument("--metrics", action="store_true", help="numbers, as Prometheus reads them")
    form.add_argument("--explain", metavar="PART", type=part_named,
                      help=f"what a part means: {', '.join(it.replace(' ', '-') for it in PARTS)}")
    reader.add_argument("--to", metavar="FILE", help="the file for the numbers")


def main(given: argparse.Namespace) -> int:
    if not given.line:
        return reported(given)
    try:
        return reported(given)
    except (Refused, OSError) as error:
        # (such a system reads the standard output)
        print(f"UNKNOWN - {error}")
        return findings.UNKNOWN


def reported(given: argparse.Namespace) -> int:
    """Looks and prints, and returns the exit status."""
    if os.geteuid() != 0:
        raise Refused("only root can see all of it")
    if given.to and not given.metrics:
        raise Refused("--to is for --metrics", 2)
    registers = [known(it) for it in given.names] or deletion.registers_of_record()
    reports = {it.name: report(it) for it in registers}
    if given.metrics:
        metrics.written({it: reports[it.name] for it in registers}, given.to)
        return 0
    if given.json:
        print(findings.as_json(reports))
    elif given.explain:
        explain(given.explain, reports)
    elif not registers:
        print(f"no register is set up in {REGISTERS}: type admissions-admin setup")
    elif given.line:
        print(findings.as_line(reports))
    else:
        print("\n".join(findings.as_text(reports)))
    level = findings.worst_of(reports)
    return level.plugin_status if given.line else level.status


def part_named(text: str) -> str:
    """A part, as it is typed."""
    part = text.replace("-", " ")
    if part not in PARTS:
        raise argparse.ArgumentTypeError(f"{text!r} is no part")
    return part


def explain(part: str, reports: findings.Reports) -> None:
    """Prints what a part means, and how it is of each register."""
    print(f"{part}: well where {PARTS[part].well}\notherwise: {PARTS[part].otherwise}")
    for name, found in reports.items():
        if part in found:
            print(f"{name}: {found[part].level.label}: {found[part].text}")


def report(register: Register) -> Report:
    """What is known of a register: for each part how it is, and a text."""
    is_deleted = not register.file.exists() and deletion.record_place(register).exists()
    parts = {"deleted": deleted_of} if is_deleted else {
        FILE: file_of,
        "desk": desk_of,
        "site": site_of,
        "units": units_of,
        "people": people_of,
        "history": history_of,
        "copy": copies_status.copy_of,
        "second copy": copies_status.second_of,
        "drill": copies_status.drill_of,
        "disk": copies_status.room_of,
        "certificate": certificate_of,
        "deletion": deletion_of,
    }
    return {name: finding_of(name, part, register) for name, part in parts.items()}


def finding_of(name: str, part: Callable[[Register], State], register: Register) -> Finding:
    """How a part is. What others have named is no line of its own, and acts on no terminal."""
    found = state_of(name, part, register)
    return Finding(found.level, texts.visible(found.text))


def state_of(name: str, part: Callable[[Register], State], register: Register) -> Finding:
    """How a part is, in words that may be anybody's."""
    bad = Level.FAILED if name == FILE else Level.ATTENTION
    try:
        is_well, text = part(register)
        return Finding(Level.OK if is_well else Level.ATTENTION, text)
    except Failed as error:
        return Finding(Level.FAILED, str(error))
    except (Refused, OSError) as error:
        return Finding(bad, str(error))
    except ValueError as error:
        return Finding(bad, f"cannot be read: {error}")


def deleted_of(register: Register) -> State:
    """What was deleted, and what of it remains."""
    found = deletion.record_of(register)
    if "ended" not in found:
        how = f"journalctl -u admissions-office-delete@{register.name}"
        return False, f"its deletion began at {found.get('began')}, and has not ended: {how}"
    remains = found.get("remains")
    rest = f"; {remains} at the second place remains: delete it by hand" if remains else ""
    text = f"on {found['ended']}, its day being {found.get('day')}: {found.get('files')} files"
    text = f"{text} of {found.get('bytes')} bytes{rest}"
    if left := left_of(register):
        how = f"admissions-admin retire {register.name}"
        return False, f"{text}; {', '.join(map(str, left))} may have data of children: {how}"
    return True, text


def left_of(register: Register) -> list[pathlib.Path]:
    """The folders of the application that have something of a season which the office has deleted:
    as those in which root has put something aside, or where its deletion has not ended."""
    if not register.office.is_dir():
        return []
    folders = (it for it in sorted(register.office.iterdir()) if it.name != office_requests.FOLDER)
    return [it for it in folders if not it.is_symlink() and it.is_dir() and any(it.iterdir())]


def deletion_of(register: Register) -> State:
    """Whether the office's application may delete the register soon."""
    day = deletion.kept(register)
    if day is None:
        return True, "no day of deletion is kept"
    is_soon = deletion.today() >= day - DELETION_NOTICE
    return not is_soon, (f"the office's application may delete it from {day.isoformat()} on; to"
                         f" prevent that, rm {deletion.place(register)}")


def file_of(register: Register) -> State:
    if said := brought.unfinished(register):
        return False, said
    try:
        found = register.file.lstat()
        season = stored(register.file)
    except (OSError, Refused, ValueError) as error:
        raise Failed(f"{error}: {repairs.register_line(register)}") from error
    text = f"{season.phase} {season.year}, {found.st_size:,} bytes"
    is_private = stat.S_ISREG(found.st_mode) and not found.st_mode & 0o077
    if not is_private:
        return False, f"{text}, and others can read it: chmod 600 {register.file}"
    return True, text


def closed(register: Register) -> str:
    """What opens an office that was closed."""
    return f"it is closed: admissions-admin open {register.name}"


def see_open(register: Register) -> None:
    """Fails where the register is made from a copy, an administrator has closed the office, or
    another machine has taken it over."""
    if said := brought.unfinished(register):
        raise Failed(said)
    if serving.is_closed(register):
        raise Failed(closed(register))
    copies_status.see_taken_over(register)


def desk_of(register: Register) -> State:
    see_open(register)
    before = time.monotonic()
    status = status_of(register.socket)
    if status in (200, 404):
        return True, f"answers in {1000 * (time.monotonic() - before):.0f} ms"
    if status == serving.STOPPED:
        raise Failed("answers 503: it refuses everything, mostly since a disk is full. Once there"
                     f" is room: admissions-admin open {register.name}")
    if status is None:
        server = f"admissions@{register.name}.service"
        raise Failed(f"does not answer: {repairs.unit_line(register, server)}")
    raise Failed(f"answers {status}: journalctl -n 20 -u admissions@{register.name}")


def site_of(register: Register) -> State:
    """Whether the application asks who signs in, by nginx, and with the certificate that is in its
    file."""
    if register.host is None:
        if had_site(register):
            raise Failed(f"the file of its name is gone: {site_command(register)}")
        return True, "it has none"
    see_open(register)
    before = time.monotonic()
    try:
        status, shown = site_status_of(register.host)
    except (OSError, http.client.HTTPException) as error:
        said = f"does not answer on this machine ({error}): {repairs.site_line(register, error)}"
        raise Failed(f"https://{register.host}/ {said}") from error
    if status == 502:
        said = f"answers 502, as its application does not run: {repairs.office_line(register)}"
        raise Failed(f"https://{register.host}/ {said}")
    if status != 401:
        how = f"journalctl -n 20 -u admissions-office@{register.name}"
        said = f"answers {status}, and not 401, to who has not signed in: {how}"
        raise Failed(f"https://{register.host}/ {said}")
    if shown != first_certificate(register):
        said = "nginx shows another certificate than that of its file: systemctl reload nginx"
        return False, said
    return True, f"asks who signs in, in {1000 * (time.monotonic() - before):.0f} ms"


def had_site(register: Register) -> bool:
    """Whether a register without a site's name has had one: its key or its application is here, as
    after a purge of the package."""
    return register.host is None and (
        certificates.paths(register)[0].exists() or office_store.path_of(register).exists())


def site_command(register: Register) -> str:
    """What sets the site up again, with its name as far as its certificate has it."""
    host = next(iter(certificates.names_of(certificates.paths(register)[1])), "HOST")
    return f"admissions-admin setup {register.name} --site {host}"


def first_certificate(register: Register) -> bytes:
    path = certificates.paths(register)[1]
    # (beside the certificate may be any text, which nginx passes over)
    text, end = path.read_text(encoding="ascii", errors="replace"), "-----END CERTIFICATE-----"
    begin = text.find("-----BEGIN CERTIFICATE-----")
    if begin < 0:
        raise Refused(f"{path} has no certificate in the form PEM")
    return ssl.PEM_cert_to_DER_cert(text[begin:].partition(end)[0] + end)


def units_of(register: Register) -> State:
    """Whether what must run, or start by itself, does, and whether what ran last failed."""
    if not is_booted():
        return False, "systemd does not run here"
    if INTERRUPTED.exists() and not is_dpkg_at_work():
        return False, ("an upgrade of the package was interrupted, and has stopped what ran:"
                       " dpkg --configure -a; apt-get install --reinstall admissions")
    if had_site(register):
        return False, f"its site is not set up: {site_command(register)}"
    if serving.is_closed(register):
        return False, closed(register)
    if said := brought.unfinished(register) or second_copy.taken_over(register):
        return False, said
    backup, drill, hourly = (
        f"admissions-{it}@{register.name}.timer" for it in ("backup", "drill", "second-copy"))
    desk, bad = f"admissions@{register.name}.service", []
    enabled = (desk, backup, drill, *(["nginx.service"] if register.host else []))
    for unit in (*enabled, *(serving.office_units(register) if register.host else [])):
        found = shown_of(unit, "ActiveState", "UnitFileState")
        if found["ActiveState"] != "active":
            state = found["ActiveState"]
            how = repairs.unit_line(register, unit, has_failed=state == "failed")
            bad.append(f"{unit} is {state}: {how}")
        if unit in enabled and found["UnitFileState"] != "enabled":
            state = found["UnitFileState"] or "not there"
            bad.append(f"{unit} is {state}: systemctl enable {unit}")
    # (an administrator decides whether the history is copied by day, too)
    found = shown_of(hourly, "ActiveState", "UnitFileState")
    is_hourly = found["UnitFileState"] == "enabled"
    if is_hourly and found["ActiveState"] != "active":
        bad.append(f"{hourly} is {found['ActiveState']}: systemctl start {hourly}")
    for name in JOBS:
        unit = f"admissions-{name}@{register.name}.service"
        if shown_of(unit, "ActiveState")["ActiveState"] == "failed":
            bad.append(f"{unit} has failed: journalctl -u {unit}")
    if bad:
        return False, "; ".join(bad)
    by_day = f", next hourly copy {next_of(hourly)}" if is_hourly else ""
    return True, (f"enabled and active; next backup {next_of(backup)}, next drill"
                  f" {next_of(drill)}{by_day}")


def is_dpkg_at_work() -> bool:
    """Whether a package is being installed now."""
    try:
        with open(DPKG_LOCK, "r+", encoding="ascii") as file:
            fcntl.lockf(file, fcntl.LOCK_EX | fcntl.LOCK_NB)
    except FileNotFoundError:
        return False
    except OSError:
        # (it is held; or this command may not write there, and cannot know)
        return True
    return False


def shown_of(unit: str, *names: str) -> dict[str, str]:
    """Properties of a unit as systemd prints them."""
    wanted = [f"--property={it}" for it in names]
    lines = call(tool("systemctl", "systemd"), "show", *wanted, unit).stdout.splitlines()
    found = (line.partition("=") for line in lines)
    return dict.fromkeys(names, "") | {name: value for name, _, value in found}


def next_of(timer: str) -> str:
    return shown_of(timer, "NextElapseUSecRealtime")["NextElapseUSecRealtime"] or "never"


def people_of(register: Register) -> State:
    """Whether somebody can sign in to the application, and among them a head of the office."""
    # (with argon2, which nothing else here needs)
    from office.web.people.roles import HEAD, PERSON

    if register.host is None and not had_site(register):
        return True, "it has no site"
    try:
        found = office_store.people_of(register)
    except Refused as error:
        return False, f"{error}: {repairs.people_line(register)}"
    let_in = [it for it in found if not it.is_locked]
    roles = collections.Counter(it.role for it in let_in if it.kind == PERSON)
    programs, locked = len(let_in) - roles.total(), len(found) - len(let_in)
    by_role = ", ".join(f"{role} {count}" for role, count in sorted(roles.items()))
    said = [f"{roles.total()} may sign in ({by_role})" if roles else "nobody can sign in"]
    said += [f"nobody with the role {HEAD} can"] if roles and HEAD not in roles else []
    said += [f"{programs} with a token"] if programs else []
    said += [f"{locked} locked"] if locked else []
    return HEAD in roles, "; ".join(said)


def history_of(register: Register) -> State:
    """Whether the history of the application is one that its user alone reads, has no line that was
    changed, begins with all of its copies, and has no request of which nobody knows what became."""
    if register.host is None and not had_site(register):
        return True, "it has no site"
    path = register.history
    if not os.path.lexists(path):
        how = f"systemctl status admissions-office@{register.name}"
        return False, f"{path} is not there, so nobody records who does what: {how}"
    found = path.lstat()
    is_private = found.st_uid == files.numbers(OFFICE, OFFICE)[0] and not found.st_mode & 0o077
    if not stat.S_ISREG(found.st_mode) or not is_private:
        how = f"chown {OFFICE}: {path} && chmod 600 {path}"
        return False, f"{path} must be a file that {OFFICE} alone reads and writes: {how}"
    record = histories.of_register(register)
    if record.problem:
        return False, f"{record.problem}: admissions-admin history {register.name} --mend"
    if lacking := history_copies.lacking(register):
        return False, lacking[0]
    if late := next(filter(is_late, record.open_requests()), None):
        # (and not what it is: a child's data is nothing for a monitoring system)
        return False, f"line {late.entry.number}: {late.in_words('a request')}; no answer is known"
    if not record.entries:
        return True, "no entries yet"
    last = datetime.datetime.fromisoformat(record.entries[-1].at).astimezone()
    text = f"{len(record.entries):,} entries, the last of {last:%Y-%m-%d %H:%M}"
    old = time.time() - last.timestamp()
    # (a clock that was ahead then, or is behind now, decides days and the order of all that is
    # recorded next)
    return not is_ahead(old), f"{text}, {age_text(old)}" if is_ahead(old) else text


def is_late(request: histories.Request) -> bool:
    """Whether a request without a known answer is older than one in flight can be."""
    return time.time() - request.moment.timestamp() > OPEN_SECONDS


def certificate_of(register: Register) -> State:
    certificate = certificates.paths(register)[1]
    if register.host is None:
        return True, "it has no site"
    if problem := certificates.key_problem(register):
        raise Failed(f"{problem}: {certificates.repair(register)}")
    days = certificates.days_left(certificate)
    if days <= 0:
        ends = "has ended" if days < 0 else "ends"
        moment = certificates.end_of(certificate).astimezone()
        raise Failed(f"{register.host}, {ends} at {moment:%Y-%m-%d %H:%M}, and browsers let nobody"
                     f" in after that: {certificates.command(register)}")
    if problem := certificates.name_problem(certificate, register.host):
        return False, problem
    is_own = certificates.is_self_signed(certificate)
    end = datetime.date.today() + datetime.timedelta(days=days)
    unsigned = "; no CA has signed it" if is_own else ""
    is_well = days >= certificates.DAYS_OF_WARNING and not is_own
    return is_well, f"{register.host}, {days} days, until {end}{unsigned}"
