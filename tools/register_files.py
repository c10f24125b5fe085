"""What the tools that open a register's file share: its names, its lock, its log, the program, and
files that only their owner can read; and what they refuse.

Imported by tools/backup and tools/restore, and by the packages office and machine; installed as
PREFIX/share/admissions/register_files.py.
"""
import contextlib
import ctypes
import errno
import fcntl
import os
import shutil
import signal
import stat
import struct
import subprocess
import sys
import tempfile
from collections.abc import Iterator, Sequence

# that of the program and of each command: cases/installed compares them, and deploy/package
# compares it with CHANGELOG.md
VERSION = "0.1.0"
# the bytes of a database file that SQLite and the program lock while they have it open
LOCK_START, LOCK_LENGTH = 1 << 30, 512
# a log has 41 bytes after a close that succeeded; one of fewer than 56 bytes has no page
LEAST_PAGES = 56
# what SQLite and the program name after a register: the file itself, its log, an index of the log
# that holds nothing of its own, an older kind of log
PARTS = ("", "-wal", "-shm", "-journal")
OWNER_ALONE = 0o600
CHUNK = 1 << 16
FULL = (errno.ENOSPC, errno.EDQUOT, errno.EFBIG)
SIGNALS = (signal.SIGHUP, signal.SIGINT, signal.SIGTERM)
AT_FDCWD, RENAME_NOREPLACE = -100, 1


class Refused(Exception):
    """What a command prints in one line before it ends with this status."""

    def __init__(self, text: str, status: int = 1) -> None:
        super().__init__(text)
        self.status = status


class InUse(Refused):
    """A file that another process has open, or makes."""


def say(stream: int, text: str) -> None:
    """Prints a line, with names as they were given. If nobody reads it, what was done stays
    done."""
    try:
        line = os.fsencode(f"{text}\n")
    except UnicodeEncodeError:
        # (half of a pair, which no name has)
        line = f"{text}\n".encode(errors="backslashreplace")
    with contextlib.suppress(OSError):
        os.write(stream, line)


def warn(tool: str, name: str, found: os.stat_result) -> None:
    """One line where a register can be read or written by others than its owner."""
    if found.st_mode & 0o066:
        say(2, f"admissions-{tool}: {name} can be read by others: chmod 600 {name}")


def path_of(name: str, missing: str) -> str:
    """The absolute path of a name, without links in its folder, so that no name that begins with a
    dash is mistaken for an option. `missing` is what is printed if there is no such folder."""
    if name.endswith("/"):
        raise Refused(f"{name} is the name of a folder")
    folder = os.path.realpath(os.path.dirname(name) or ".")
    if not os.path.isdir(folder):
        raise Refused(missing)
    return os.path.join(folder, os.path.basename(name))


def has_content(path: str) -> bool:
    """Whether a file, or a log by its name, holds anything."""
    try:
        return os.stat(path).st_size >= (LEAST_PAGES if path.endswith("-wal") else 1)
    except FileNotFoundError:
        return False


def see_file(name: str, path: str) -> None:
    """Refuses anything but a regular file, before it is opened: opening a FIFO waits, opening a
    device acts, and a link may be changed."""
    kind = os.lstat(path).st_mode
    if stat.S_ISLNK(kind):
        real = os.path.realpath(path)
        if os.path.exists(real):
            raise Refused(f"{name} is a link: name the file itself, {real}")
        raise Refused(f"{name} is a link that leads nowhere")
    if not stat.S_ISREG(kind):
        raise Refused(f"{name} is no file")


@contextlib.contextmanager
def held(name: str, path: str, exclusive: bool = False) -> Iterator[int]:
    """A descriptor of a regular file under the lock that the program takes: no program opens the
    file until this block ends, nor has it open.

    The lock is of the open file and not of the process, so closing another descriptor of the same
    file does not release it. Either kind of lock keeps programs out; a shared one needs only read
    access, and other tools may read meanwhile.
    """
    see_file(name, path)
    access = os.O_RDWR if exclusive else os.O_RDONLY
    fd = os.open(path, access | os.O_NOFOLLOW | os.O_NONBLOCK | os.O_CLOEXEC)
    try:
        kind = fcntl.F_WRLCK if exclusive else fcntl.F_RDLCK
        try:
            lock = struct.pack("hhqqi4x", kind, os.SEEK_SET, LOCK_START, LOCK_LENGTH, 0)
            fcntl.fcntl(fd, fcntl.F_OFD_SETLK, lock)
        except OSError as error:
            if error.errno not in (errno.EAGAIN, errno.EACCES):
                raise
            raise InUse(f"{name} is in use") from error
        # (the name may have been given to another file before the lock was there)
        found, named = os.fstat(fd), os.lstat(path)
        if not stat.S_ISREG(found.st_mode) or not os.path.samestat(found, named):
            raise InUse(f"{name} is in use: it was replaced in this moment")
        yield fd
    finally:
        # (what was written is synced before; a failure here changes nothing, and the lock ends with
        # this process)
        with contextlib.suppress(OSError):
            os.close(fd)


def write_all(fd: int, data: bytes, at: int) -> None:
    """Writes all bytes at an offset."""
    while data:
        count = os.pwrite(fd, data, at)
        data, at = data[count:], at + count


def pieces_of(fd: int, at: int = 0) -> Iterator[tuple[int, bytes]]:
    """The pieces of an open file from an offset on, each with its offset."""
    while piece := os.pread(fd, CHUNK, at):
        yield at, piece
        at += len(piece)


def give_to_owner(fd: int, found: os.stat_result) -> None:
    """Makes a file readable by its owner alone, and gives it the owner and the group of another
    where this process may."""
    for owner, group in ((-1, found.st_gid), (found.st_uid, -1)):
        with contextlib.suppress(OSError):
            os.fchown(fd, owner, group)
    os.fchmod(fd, OWNER_ALONE)


def copy_to(source: int, path: str) -> None:
    """Copies an open file to a new one for the owner alone, and syncs it."""
    target = os.open(path, os.O_RDWR | os.O_CREAT | os.O_EXCL | os.O_CLOEXEC, OWNER_ALONE)
    try:
        give_to_owner(target, os.fstat(source))
        for at, piece in pieces_of(source):
            write_all(target, piece, at)
        os.fsync(target)
    finally:
        os.close(target)


def is_equal(one: int, path: str, at: int = 0) -> bool:
    """Whether an open file and the file at a path have the same bytes from an offset on."""
    other = os.open(path, os.O_RDONLY | os.O_CLOEXEC)
    try:
        if os.fstat(one).st_size != os.fstat(other).st_size:
            return False
        return all(piece == os.pread(other, CHUNK, here) for here, piece in pieces_of(one, at))
    finally:
        os.close(other)


def sync_folder(path: str) -> None:
    """Syncs the names in a folder."""
    fd = os.open(path, os.O_RDONLY | os.O_DIRECTORY | os.O_CLOEXEC)
    try:
        os.fsync(fd)
    finally:
        os.close(fd)


def name_new(old: str, new: str) -> None:
    """Renames a file to a name that is free, in one step. FileExistsError where it is not. On disks
    that cannot do that, it first gets a second name."""
    libc = ctypes.CDLL(None, use_errno=True)
    names = AT_FDCWD, os.fsencode(old), AT_FDCWD, os.fsencode(new)
    if libc.renameat2(*names, RENAME_NOREPLACE) == 0:
        return
    code = ctypes.get_errno()
    if code not in (errno.EINVAL, errno.ENOSYS):
        raise OSError(code, os.strerror(code), new)
    os.link(old, new)
    os.unlink(old)


@contextlib.contextmanager
def room_beside(name: str, path: str) -> Iterator[str]:
    """A new folder beside a file, for its owner alone, which is removed at the end."""
    folder, base = os.path.split(path)
    try:
        room = tempfile.mkdtemp(prefix=f"{base}.part-", dir=folder)
    except OSError as error:
        raise Refused(f"beside {name} nothing can be written") from error
    try:
        yield room
    finally:
        # (twice: a signal that ends this process may interrupt the first)
        try:
            shutil.rmtree(room, ignore_errors=True)
        finally:
            shutil.rmtree(room, ignore_errors=True)


def found(names: Sequence[str]) -> str | None:
    """The first of some programs that is beside the tool, or in PATH."""
    beside = os.path.dirname(os.path.abspath(sys.argv[0]))
    for path in (os.path.join(beside, it) for it in names):
        if os.path.isfile(path) and os.access(path, os.X_OK):
            return path
    return shutil.which(names[0])


def program() -> str:
    """The program: the one that ADMISSIONS names, or `admissions` beside the tool, or the one in
    PATH."""
    named = os.environ.get("ADMISSIONS") or found(["admissions"])
    path = named and shutil.which(named)
    if not path:
        raise Refused("there is no program: name it by ADMISSIONS")
    return path


def opened(with_program: str, file: str) -> str:
    """Opens a register with the program, and closes it. Returns what was printed if that failed,
    else an empty text."""
    try:
        # (the program ignores the signals that this process ignores, such as that of the file size
        # limit, and so prints the error)
        ran = subprocess.run(
            [with_program, "do", file],
            stdin=subprocess.DEVNULL,
            stdout=subprocess.PIPE,
            stderr=subprocess.STDOUT,
            restore_signals=False,
            check=False,
        )
    except OSError as error:
        return f"the program does not start: {error.strerror}"
    if ran.returncode == 0:
        return ""
    lines = os.fsdecode(ran.stdout).split("\n")
    return ", ".join(lines).strip(", ") or f"status {ran.returncode}"


def merge_log(with_program: str, file: str) -> str:
    """The same, and no log may remain: then the file alone is the register."""
    return opened(with_program, file) or ("a log stays" if has_content(file + "-wal") else "")
