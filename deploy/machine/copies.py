"""The nightly copies in a folder: their names, their order, how old they are, and what is beside
each of them."""
import datetime
import pathlib
import re
import time

from . import files

# A number that grows with each copy, and the local time. The first release named the time alone
NAME = re.compile(r"nightly-(?:(\d{6,})-)?(\d{4}-\d\d-\d\dT\d{6})\.db")
TIME = "%Y-%m-%dT%H%M%S"
# What keeps the number of the copy that was made last
LAST = "nightly.number"
# For rsync, which knows no regular expressions
PATTERNS = ("nightly-*.db", "nightly-*.tar")
# A name may be an hour ahead where the clocks were put back
AHEAD = 2 * 3600


def number(path: pathlib.Path) -> int:
    """The number of a copy; 0 for one of the first release."""
    found = NAME.fullmatch(path.name)
    return int(found[1] or 0) if found else 0


def made(folder: pathlib.Path) -> list[pathlib.Path]:
    """The copies in the order in which they were made: by their numbers, whatever the clock was,
    and those without one first."""
    found = [it for it in folder.glob("nightly-*.db") if NAME.fullmatch(it.name)]
    return sorted(found, key=lambda it: (number(it), it.name))


def last_number(folder: pathlib.Path) -> int:
    """The greatest number that a copy has had, also of one that was renamed or removed."""
    try:
        kept = int(files.content(folder / LAST))
    except (FileNotFoundError, ValueError):
        kept = 0
    return max(kept, *map(number, made(folder)), 0)


def keep_number(folder: pathlib.Path, copy: pathlib.Path) -> None:
    """Keeps the number of a copy that was made."""
    new = folder / f"{LAST}.new"
    new.write_text(f"{number(copy)}\n", encoding="ascii")
    new.rename(folder / LAST)


def next_name(folder: pathlib.Path) -> str:
    """The name of the copy that is made now, which is the last one in the order."""
    newest = last_number(folder)
    return f"nightly-{newest + 1:06}-{datetime.datetime.now().strftime(TIME)}.db"


def moment(copy: pathlib.Path) -> datetime.datetime:
    """When a copy was made, at the latest: by its name, as this machine reads its hour, and by its
    file. What was sent before is in it: nothing is sent while a copy is made."""
    written = datetime.datetime.fromtimestamp(copy.stat().st_mtime)
    found = NAME.fullmatch(copy.name)
    named_at = datetime.datetime.strptime(found[2], TIME) if found else written
    return min(written, named_at).astimezone()


def settings_of(copy: pathlib.Path) -> pathlib.Path:
    """The archive of the users and settings that belong to a copy."""
    return copy.with_suffix(".tar")


def age(copy: pathlib.Path) -> float:
    """How many seconds ago a copy was made, by its time; negative where its time is still to come,
    or its name."""
    found, at, now = NAME.fullmatch(copy.name), copy.stat().st_mtime, time.time()
    try:
        named = datetime.datetime.strptime(found[2], TIME).timestamp() if found else at
    except ValueError:
        # (a name with a day that no calendar has)
        named = at
    return now - (named if named > now + AHEAD else at)
