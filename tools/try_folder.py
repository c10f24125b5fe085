"""The folder of a season that is tried: removed at the end, or kept."""
import contextlib
import fcntl
import os
import pathlib
import shutil
import tempfile
from collections.abc import Iterator

# of a folder that is kept: what the next try needs
KEPT = "try.json"
# bytes that a season may need
MOST_ROOM = 500_000_000


class Ended(Exception):
    """Why a try is at its end."""


def memory() -> str | None:
    """A folder in memory, where what is thrown away waits for no disk; None where there is none, or
    where TMPDIR names another.
    """
    path = "/dev/shm"
    is_there = "TMPDIR" not in os.environ and os.access(path, os.W_OK)
    return path if is_there and shutil.disk_usage(path).free > MOST_ROOM else None


@contextlib.contextmanager
def folder_of(given: pathlib.Path | None) -> Iterator[pathlib.Path]:
    """The folder: the one that is named, or one that is removed at the end."""
    if given is None:
        path = pathlib.Path(tempfile.mkdtemp(prefix="admissions-try-", dir=memory()))
        try:
            yield path
        finally:
            shutil.rmtree(path, ignore_errors=True)
        return
    given.mkdir(mode=0o700, parents=True, exist_ok=True)
    if any(given.iterdir()) and not (given / KEPT).exists():
        raise Ended(f"{given} has other files, or a season that was not made to its end")
    yield given.resolve()


@contextlib.contextmanager
def alone_in(folder: pathlib.Path) -> Iterator[None]:
    """One try has a folder at a time."""
    handle = os.open(folder, os.O_RDONLY | os.O_DIRECTORY)
    try:
        fcntl.flock(handle, fcntl.LOCK_EX | fcntl.LOCK_NB)
        yield
    except BlockingIOError as error:
        raise Ended(f"{folder} is in use by another try") from error
    finally:
        os.close(handle)
