"""What is found of the registers of a machine, and how it is printed: as text, as one line, and as
one object of JSON. The names of JSON are in docs/admin/OPERATE.md, and do not change."""
import datetime
import enum
import json
import typing

from register_files import Refused

VERSION = 1
# the exit status of a plugin of Nagios that does not know: UNKNOWN
UNKNOWN = 3


class Level(enum.IntEnum):
    """How something is: well, to be looked at, or such that an office cannot work."""

    OK = 0
    ATTENTION = 1
    FAILED = 2

    @property
    def status(self) -> int:
        """The exit status. 2 is that of wrong arguments."""
        return 3 if self is Level.FAILED else self.value

    @property
    def plugin_status(self) -> int:
        """The exit status of a plugin of Nagios: 0 OK, 1 WARNING, 2 CRITICAL."""
        return self.value

    @property
    def label(self) -> str:
        """As the text has it."""
        return "ok" if self is Level.OK else self.name


# whether a part is well, and a text
State = tuple[bool, str]


class Failed(Refused):
    """What keeps an office from working."""


class Finding(typing.NamedTuple):
    """How a part of a register is, and what is known of it."""

    level: Level
    text: str


# the parts of a register by their names, and the registers by theirs
Report = dict[str, Finding]
Reports = dict[str, Report]


def worst(report: Report) -> Level:
    """How a register is: as its worst part."""
    return max((it.level for it in report.values()), default=Level.ATTENTION)


def worst_of(reports: Reports) -> Level:
    """How a machine is: as its worst register. One without any needs attention."""
    return max(map(worst, reports.values()), default=Level.ATTENTION)


def as_text(reports: Reports) -> typing.Iterator[str]:
    """A line for each register and each of its parts."""
    for name, parts in reports.items():
        yield name
        for part, found in parts.items():
            yield f"  {found.level.label:9} {part}: {found.text}"


def as_line(reports: Reports) -> str:
    """One line."""
    count = f"{len(reports)} register{'s' if len(reports) > 1 else ''}"
    # (what keeps an office from working first: a monitoring system may cut the line)
    bad = [f"{name} {part}: {found.text}" for wanted in (Level.FAILED, Level.ATTENTION)
           for name, parts in reports.items() for part, found in parts.items()
           if found.level is wanted]
    level = worst_of(reports)
    return f"{level.label.upper()} - {count}" + (f"; {'; '.join(bad)}" if bad else
                                                 f": {', '.join(reports)}")


def as_json(reports: Reports) -> str:
    """One object."""
    registers = [{"name": name, "state": worst(parts).name.lower(),
                  "parts": {part.replace(" ", "_"): {"state": it.level.name.lower(),
                                                     "text": it.text}
                            for part, it in parts.items()}}
                 for name, parts in reports.items()]
    now = datetime.datetime.now(datetime.timezone.utc).isoformat(timespec="seconds")
    found = {"version": VERSION, "at": now, "state": worst_of(reports).name.lower(),
             "registers": registers}
    return json.dumps(found, indent=1, ensure_ascii=False)
