"""How a command begins and ends: its arguments, its exit status 0, 1 or 2, its errors in one line.
The audit and the commands of an administrator begin here (office/command), and the tools of two
names (tools/backup, tools/restore)."""
import argparse
import contextlib
import os
import shutil
import signal
import sys
from collections.abc import Callable
from types import FrameType
from typing import Protocol

from register_files import FULL, SIGNALS, VERSION, Refused, say

from . import libraries

__all__ = ["Command", "Refused", "run", "run_of_two_names"]
MOST_COLUMNS = 80


class Command(Protocol):
    """What the module of a command has; its text is its help."""

    __doc__: str | None

    def arguments(self, reader: argparse.ArgumentParser, /) -> None:
        """Adds its arguments."""

    def main(self, given: argparse.Namespace, /) -> int:
        """Does its work, and returns its exit status."""


class Help(argparse.RawDescriptionHelpFormatter):
    """Help with the lines of its text, and none over 80 columns."""

    def __init__(self, prog: str) -> None:
        super().__init__(prog, width=min(shutil.get_terminal_size().columns, MOST_COLUMNS) - 2)


def parser_of(name: str, text: str | None) -> argparse.ArgumentParser:
    """The reader of a command's arguments; its help is the text of the command's module."""
    reader = argparse.ArgumentParser(
        prog=name, description=text, formatter_class=Help, allow_abbrev=False
    )
    reader.add_argument(
        "--version", action="version", version=f"admissions {VERSION}", help=argparse.SUPPRESS
    )
    return reader


class Stopped(Refused):
    """A signal has ended a command."""


def stopped(number: int, _: FrameType | None) -> None:
    """Ends a command by a signal."""
    raise Stopped(f"ended by the signal {signal.Signals(number).name}")


def run(name: str, command: Command) -> int:
    """Runs a command, and returns its exit status: 0 done, 1 not or not wholly done, 2 wrong
    arguments."""

    def work() -> int:
        reader = parser_of(name, command.__doc__)
        command.arguments(reader)
        try:
            # (so that options may stand between the names)
            given = reader.parse_intermixed_args()
        except SystemExit:
            # (the help was printed)
            sys.stdout.flush()
            raise
        status = command.main(given)
        sys.stdout.flush()
        return status

    return ended(name, work)


def run_of_two_names(name: str, usage: str, task: Callable[[str, str], str]) -> int:
    """The same of a tool that takes two names of files, which may be any names, and whose task
    returns the line that is printed. If nobody reads it, what was done stays done."""

    def work() -> int:
        given = sys.argv[1:]
        if given == ["--version"]:
            say(1, f"admissions {VERSION}")
            return 0
        if len(given) != 2 or not all(given):
            say(2, f"usage: {name} {usage}")
            return 2
        if any("\n" in it for it in given):
            raise Refused("a name has a line end in it")
        say(1, task(*given))
        return 0

    return ended(name, work)


def ended(name: str, work: Callable[[], int]) -> int:
    """Does the work of a command, and returns its exit status. An error is one line."""
    os.umask(0o077)
    for it in SIGNALS:
        signal.signal(it, stopped)
    try:
        return work()
    except Refused as error:
        return failed(name, str(error), error.status)
    except BrokenPipeError:
        forget_output()
        return 1
    except OSError as error:
        return failed(name, said_of(error))
    except ImportError as error:
        return failed(name, libraries.missing(error.name))
    except MemoryError:
        return failed(name, "out of memory")
    except Exception as error:
        at = error.__traceback__
        while at and at.tb_next:
            at = at.tb_next
        file = os.path.basename(at.tb_frame.f_code.co_filename) if at else ""
        where = f"{file}:{at.tb_lineno}" if at else "unknown"
        text = f"error in this command, at {where}: {type(error).__name__}: {error}"
        return failed(name, text)


def said_of(error: OSError) -> str:
    """An error of the system, in words: which file, or that the output cannot be written."""
    if error.filename:
        file = error.filename
        return f"{os.fsdecode(file) if isinstance(file, bytes) else file}: {error.strerror}"
    # (what could not be written is kept, and fails once more, unless PYTHONUNBUFFERED is set)
    is_lost = getattr(sys.stdout, "write_through", False) and error.errno in FULL
    try:
        sys.stdout.flush()
    except OSError:
        is_lost = True
    if is_lost:
        forget_output()
    return f"{'the output cannot be written' if is_lost else 'a file'}: {error.strerror or error}"


def forget_output() -> None:
    """Drops what nobody can read or write any more; Python would report it once more at the end."""
    os.dup2(os.open(os.devnull, os.O_WRONLY), 1)


def failed(name: str, text: str, status: int = 1) -> int:
    """Prints one line on the standard error."""
    with contextlib.suppress(OSError):
        sys.stdout.flush()
    say(2, f"{name}: " + " ".join(text.split("\n")))
    return status
