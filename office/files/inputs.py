"""Limits of files that somebody sends, and of the time that reading them takes."""
import contextlib
import signal
from collections.abc import Iterator
from types import FrameType
from typing import IO, BinaryIO

from register_files import Refused

MB = 1_000_000
MOST_BYTES, MOST_UNPACKED, MOST_PARTS = 8 * MB, 32 * MB, 1_000
# the mark of each part in a zip's list of its parts, and how much of a file is looked through at
# once
PART, CHUNK = b"PK\x01\x02", 1 << 20
# (a row for each child of a large register, and some above them)
MOST_ROWS, MOST_COLUMNS, MOST_CELLS, MOST_TEXT = 41_000, 250, 500_000, 32_767
MOST_MERGED = 10_000
# of all cells, as a CSV has at most: cells of an Excel file may share one long text
MOST_TEXT_OF_ALL = MOST_BYTES
# the cells of an Excel file with those that have formats alone; no spreadsheet has more in a row
MOST_FORMATTED, MOST_IN_ROW = 1_000_000, 16_384
# a register at its limits has far less
MOST_REGISTER_BYTES = 1_000 * MB
SECONDS = 20


def taken(name: str, file: BinaryIO) -> bytes:
    """What an open file has, or a refusal where that is too much."""
    data = file.read(MOST_BYTES + 1)
    if len(data) > MOST_BYTES:
        raise Refused(f"{name} is too large: a file has at most {MOST_BYTES // MB} MB here")
    return data


def has_many_parts(file: IO[bytes]) -> bool:
    """Whether a zip names more parts than one of an office has. Its list is not read for that: each
    of them takes time and memory.
    """
    count, before = 0, b""
    for data in iter(lambda: file.read(CHUNK), b""):
        text = before + data
        count += text.count(PART)
        # (a mark may be in two chunks)
        before = text[1 - len(PART):]
    return count > MOST_PARTS


@contextlib.contextmanager
def within(what: str, seconds: int = SECONDS) -> Iterator[None]:
    """Refuses what takes more CPU time than these seconds. A library may catch the error, so it is
    raised again after each further second, and at the end."""
    error, is_late = Refused(f"{what} takes more than {seconds} seconds"), False

    def late(_number: int, _frame: FrameType | None) -> None:
        nonlocal is_late
        is_late = True
        raise error

    before = signal.signal(signal.SIGPROF, late)
    signal.setitimer(signal.ITIMER_PROF, seconds, 1)
    try:
        yield
    finally:
        signal.setitimer(signal.ITIMER_PROF, 0)
        signal.signal(signal.SIGPROF, before)
    if is_late:
        raise error
