"""How the copies of a register are: the last one, those at the second place, the last drill, and
the room for more."""
import datetime
import os
import shutil
import time

from . import copies, files, sealed, second_copy
from .drill import NOT_TRIED, OPENED, REPORT as DRILL
from .findings import Failed, State
from .registers import SETTINGS, Register
from .second_copy import NONE, REPORT as SECOND, line_of, place_of
from .settings_copy import REPORT as BESIDE

# from when on something needs attention
COPY_HOURS, DRILL_DAYS = 26, 35
LEAST_ROOM, ROOM_FACTOR, ARCHIVES = 200_000_000, 10, 3


def age_text(seconds: float) -> str:
    if is_ahead(seconds):
        now = f"the time here is {datetime.datetime.now():%Y-%m-%d %H:%M}"
        return f"dated {-seconds / 3600:,.0f} hours in the future; {now}: is the clock right?"
    hours = seconds / 3600
    return f"{hours:.0f} hours old" if hours < 72 else f"{hours / 24:.0f} days old"


def is_ahead(seconds: float) -> bool:
    """Whether an age is that of something which is dated later than now."""
    return seconds < -copies.AHEAD


def is_recent(seconds: float, limit: float) -> bool:
    return not is_ahead(seconds) and seconds < limit


def copy_of(register: Register) -> State:
    """The copy that was made last. One that is dated ahead was made by a wrong clock, or the clock
    is wrong now."""
    if not register.copies.is_dir():
        how = f"admissions-admin setup {register.name} makes it"
        return False, f"{register.copies} is not there, so no copy can be made: {how}"
    made = register.nightly_copies()
    if not made:
        return False, f"none yet: systemctl start admissions-backup@{register.name}"
    old = copies.age(made[-1])
    text = f"{made[-1].name}, {age_text(old)}, {len(made)} of them"
    if ahead := [it for it in made[:-1] if is_ahead(copies.age(it))]:
        is_ahead_by = age_text(copies.age(ahead[0]))
        return False, f"{text}; {ahead[0].name} is {is_ahead_by} Rename it to keep it, or remove it"
    archive = copies.settings_of(made[-1])
    if not archive.exists():
        how = f"journalctl -u admissions-second-copy@{register.name}"
        return False, f"{text}; without people and settings: {how}"
    beside = report_of(register, BESIDE)
    if beside and "WARNING" in beside[0]:
        return False, f"{text}; {beside[0]}"
    if beside and beside[1] > time.time() - archive.stat().st_mtime:
        how = f"journalctl -u admissions-second-copy@{register.name}"
        return False, f"{text}; without the whole history: {how}"
    return is_recent(old, COPY_HOURS * 3600), text


def report_of(register: Register, name: str) -> tuple[str, float] | None:
    """The last line of a report and its age in seconds, or None."""
    path = register.copies / name
    if not os.path.lexists(path):
        return None
    lines = files.content(path).decode("utf-8").splitlines()
    return (lines[-1] if lines else ""), time.time() - path.lstat().st_mtime


def see_taken_over(register: Register) -> None:
    """Fails where another machine has taken a register over."""
    if said := second_copy.taken_over(register):
        raise Failed(said)


def second_of(register: Register) -> State:
    """The copy at the second place. That there is none needs attention, unless it is decided."""
    place, setting = place_of(), SETTINGS / "second-copy"
    if line_of() == NONE:
        return True, f"none, as {setting} says"
    if place is None:
        lost = f"no second place is named in {setting}, so all copies are lost with this machine"
        return False, f"{lost}: admissions-admin second-place PLACE, or second-place {NONE}"
    see_taken_over(register)
    found = report_of(register, SECOND)
    how = f"systemctl start admissions-second-copy@{register.name}"
    if found is None:
        return False, f"this machine has copied nothing to {place} yet: {how}"
    line, old = found
    if f" is in {place}/{register.name}, " not in line:
        return False, f"this machine has copied nothing to {place} yet: {how}; before, {line}"
    sealed.needed()
    is_well = is_recent(old, COPY_HOURS * 3600) and "WARNING" not in line
    if not sealed.is_made_here():
        return is_well, f"{line}; {age_text(old)}"
    path = SETTINGS / sealed.IDENTITY
    return False, (f"{line}; {age_text(old)}; {path} alone opens it, was made on this machine, and"
                   " is lost with it: keep it elsewhere and on paper, and remove it here")


def drill_of(register: Register) -> State:
    """The last drill; and where copies are encrypted at the second place and the last one did not
    open them, the last that did."""
    found = report_of(register, DRILL)
    if found is None:
        return is_young(register), f"none yet: systemctl start admissions-drill@{register.name}"
    is_well = is_recent(found[1], DRILL_DAYS * 86400) and "WARNING" not in found[0]
    text = f"{found[0]}; {age_text(found[1])}"
    if NOT_TRIED not in found[0]:
        return is_well, text
    opened = report_of(register, OPENED)
    is_opened = is_recent(opened[1], DRILL_DAYS * 86400) if opened else is_young(register)
    said = f"one was opened there {age_text(opened[1])}" if opened else "none was opened there yet"
    how = "" if is_opened else f": admissions-admin drill {register.name} --identity FILE"
    return is_well and is_opened, f"{text}; {said}{how}"


def is_young(register: Register) -> bool:
    """Whether no drill can be expected yet: the register's folder is younger than the time between
    two."""
    settings = register.settings / "site-name"
    seconds = time.time() - settings.stat().st_mtime if settings.exists() else None
    return seconds is not None and is_recent(seconds, DRILL_DAYS * 86400)


def room_of(register: Register) -> State:
    """The room on the disks of the register, its copies, its application, and of a second place on
    this machine: ten times the register, three times its newest archive of people and files, which
    each night makes anew, and 200 MB at least."""
    archives = [copies.settings_of(it) for it in register.nightly_copies()[-1:]]
    beside = sum(it.stat().st_size for it in archives if it.exists())
    needed = max(LEAST_ROOM, ROOM_FACTOR * register.file.stat().st_size, ARCHIVES * beside)
    place = second_copy.folder_here()
    folders = (register.folder, register.copies, register.office, *([place] if place else []))
    rooms = [(shutil.disk_usage(path).free, path) for path in folders if path.is_dir()]
    free, path = min(rooms)
    text = f"{free / 1e9:.1f} GB free at {path}, of {needed / 1e9:.1f} GB that are needed"
    return free >= needed, text
