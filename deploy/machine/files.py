"""Files and folders that are made once, changed only where they differ, and never half; and the
lock of those who change them."""
import contextlib
import datetime
import errno
import fcntl
import grp
import os
import pathlib
import pwd
import secrets
import shutil
import stat
import typing

from register_files import OWNER_ALONE, Refused

from .programs import USER

LOCK = pathlib.Path("/run/admissions-admin.lock")
# how a file of somebody else is opened: waiting for nobody, and through no link
READ = os.O_RDONLY | os.O_NONBLOCK | os.O_CLOEXEC
AS_IT_IS = READ | os.O_NOFOLLOW
FOLDER = os.O_RDONLY | os.O_DIRECTORY | os.O_CLOEXEC
# bytes, more than a history, a report or a file of settings has, and more than the file of an
# application or its copy: what is longer is read by no command
MOST_HISTORY, MOST_STORE = 256_000_000, 600_000_000
# bytes, with less of which a disk counts as full
LEAST_ROOM = 1_000_000
# of a folder in which somebody beside its owner can make a link
OTHERS_WRITE = 0o022


@contextlib.contextmanager
def lock(who: str) -> typing.Iterator[None]:
    """Only one command at a time changes what is set up: a second one is refused, which names who
    runs what, and since when. A command that is killed holds it no longer."""
    with open(LOCK, "a+", encoding="utf-8") as file:
        try:
            fcntl.flock(file, fcntl.LOCK_EX | fcntl.LOCK_NB)
        except BlockingIOError as error:
            file.seek(0)
            other = file.read().strip() or "another admissions-admin"
            raise Refused(f"{other} has not ended: nothing was done. Type it again then") from error
        file.truncate(0)
        now = datetime.datetime.now()
        print(f"{who}, since {now:%Y-%m-%d %H:%M:%S}", file=file, flush=True)
        yield


def without_room(*folders: pathlib.Path) -> str:
    """The folders whose disk has no room left, in words; or ""."""
    found = []
    for it in folders:
        with contextlib.suppress(OSError):
            disk = os.statvfs(it)
            if disk.f_bavail * disk.f_frsize < LEAST_ROOM or disk.f_files and not disk.f_favail:
                found.append(str(it))
    return ", ".join(found)


def numbers(user: str, group: str) -> tuple[int, int]:
    try:
        return pwd.getpwnam(user).pw_uid, grp.getgrnam(group).gr_gid
    except KeyError as error:
        raise Refused(f"there is no such user or group: {error}") from error


def opened(path: pathlib.Path, is_made: bool = False) -> int:
    """A descriptor of a folder, which is made with those above it where it is missing. On the way
    to it no link is followed that another user can have made."""
    parts = path.absolute().parts
    here = os.open("/", FOLDER)
    for at, name in enumerate(parts[1:], 2):
        above = here
        try:
            here = below(above, name, FOLDER | (os.O_PATH if at < len(parts) else 0), is_made)
        except OSError as error:
            why = "it is no folder, or a link" if error.errno == errno.ENOTDIR else error.strerror
            raise Refused(f"{pathlib.Path(*parts[:at])} cannot be opened: {why}") from error
        finally:
            os.close(above)
    return here


def below(above: int, name: str, flags: int, is_made: bool) -> int:
    """A descriptor of a folder in another one."""
    try:
        return os.open(name, flags | no_link(above), dir_fd=above)
    except FileNotFoundError:
        if not is_made:
            raise
        os.mkdir(name, dir_fd=above)
        return os.open(name, flags | os.O_NOFOLLOW, dir_fd=above)


def no_link(above: int) -> int:
    """How what is in a folder is opened: through no link where another user can make one."""
    found = os.fstat(above)
    is_own = found.st_uid in (0, os.geteuid()) and not found.st_mode & OTHERS_WRITE
    return 0 if is_own else os.O_NOFOLLOW


def folder(path: pathlib.Path, mode: int, user: str = "root", group: str = "root") -> bool:
    """Makes a folder, or gives it its owner and mode. Returns whether anything changed."""
    owner, is_new = numbers(user, group), not os.path.lexists(path)
    with closing(opened(path, is_made=True)) as handle:
        found = os.fstat(handle)
        is_other = (found.st_uid, found.st_gid) != owner or found.st_mode & 0o7777 != mode
        if is_other:
            os.fchown(handle, *owner)
            os.fchmod(handle, mode)
    return is_new or is_other


def write(
    path: pathlib.Path, content: str | bytes, mode: int, user: str = "root", group: str = "root"
) -> bool:
    """Gives a file this content in one step, if it has another. Returns whether it had."""
    data = content.encode() if isinstance(content, str) else content
    with closing(opened(path.parent)) as above:
        if content_in(above, path.name) == data:
            return False
        replace(above, path.name, data, mode, numbers(user, group))
    return True


def content_in(above: int, name: str) -> bytes | None:
    """What a file of a folder has, or None where there is none."""
    try:
        handle = os.open(name, READ | no_link(above), dir_fd=above)
    except OSError as error:
        if error.errno in (errno.ENOENT, errno.ELOOP):
            return None
        raise
    with closing(handle):
        if not stat.S_ISREG(os.fstat(handle).st_mode):
            return None
        with open(handle, "rb", closefd=False) as file:
            return file.read()


def replace(
    above: int, name: str, data: bytes, mode: int, owner: tuple[int, int] | None = None
) -> None:
    """Gives a file of a folder these bytes, in one step. Its owner and mode are given to what is
    open, and not to what has its name by then."""
    new = f".{name}.{secrets.token_hex(8)}"
    handle = os.open(new, os.O_WRONLY | os.O_CREAT | os.O_EXCL | AS_IT_IS, 0o600, dir_fd=above)
    try:
        with open(handle, "wb") as out:
            out.write(data)
            out.flush()
            os.fsync(handle)
            if owner:
                os.fchown(handle, *owner)
            os.fchmod(handle, mode)
        os.rename(new, name, src_dir_fd=above, dst_dir_fd=above)
    except BaseException:
        with contextlib.suppress(FileNotFoundError):
            os.unlink(new, dir_fd=above)
        raise


@contextlib.contextmanager
def closing(handle: int) -> typing.Iterator[int]:
    """Closes a descriptor at the end."""
    try:
        yield handle
    finally:
        os.close(handle)


def put_aside(path: pathlib.Path, folder_: pathlib.Path, name: str) -> tuple[int, int]:
    """Moves a file of somebody else into a folder of root beside it, which is made, under a name
    that is free there; no link is followed. Returns which file that is."""
    folder(folder_, 0o700)
    with closing(opened(folder_)) as into, closing(opened(path.parent)) as above:
        if name in os.listdir(into):
            raise Refused(f"{folder_ / name} is there already")
        os.rename(path.name, name, src_dir_fd=above, dst_dir_fd=into)
        return identity(into, name)


def put_back(path: pathlib.Path, folder_: pathlib.Path, name: str, was: tuple[int, int]) -> None:
    """Moves the file back that was put aside, and no other one that has its name by then."""
    with closing(opened(folder_)) as into, closing(opened(path.parent)) as above:
        if identity(into, name) != was:
            raise Refused(f"{folder_ / name} is another file than was put aside, so {path} is not"
                          " put back")
        os.rename(name, path.name, src_dir_fd=into, dst_dir_fd=above)


def identity(above: int, name: str) -> tuple[int, int]:
    """Which file a name of a folder is."""
    found = os.stat(name, dir_fd=above, follow_symlinks=False)
    return found.st_dev, found.st_ino


def copy_as_desk(path: pathlib.Path, target: pathlib.Path) -> None:
    """Copies a file of the user of the desks with its times, in one step."""
    with as_desk():
        part = target.with_name(f".{target.name}.part")
        try:
            shutil.copy2(path, part)
            part.rename(target)
        except BaseException:
            part.unlink(missing_ok=True)
            raise


def link(path: pathlib.Path, target: str) -> bool:
    """Makes a symbolic link, if it is not there. Returns whether it was not."""
    if path.is_symlink() and os.readlink(path) == target:
        return False
    if os.path.lexists(path):
        raise Refused(f"{path} is there already, and is no link to {target}")
    path.symlink_to(target)
    return True


@contextlib.contextmanager
def acting_as(name: str) -> typing.Iterator[None]:
    """What is read and written meanwhile is so by a user with its own group, as whom no link in a
    folder of theirs leads to a file of root."""
    if os.geteuid() != 0:
        yield
        return
    user, group = numbers(name, name)
    os.setegid(group)
    os.seteuid(user)
    try:
        yield
    finally:
        os.seteuid(0)
        os.setegid(0)


def as_desk() -> contextlib.AbstractContextManager[None]:
    """The user of the desks acts."""
    return acting_as(USER)


def content_as(name: str, path: pathlib.Path) -> bytes:
    """What a file has, as a user reads it."""
    with acting_as(name):
        return content(path)


def opened_file(path: pathlib.Path) -> int:
    """A descriptor of a file of somebody else, which is no link."""
    handle = os.open(path, AS_IT_IS)
    if not stat.S_ISREG(os.fstat(handle).st_mode):
        os.close(handle)
        raise Refused(f"{path} is no file")
    return handle


def content(path: pathlib.Path) -> bytes:
    """What a file of somebody else has, which is no link and not too long."""
    with closing(opened_file(path)) as handle, open(handle, "rb", closefd=False) as file:
        return bounded(path, file.read, os.fstat(handle).st_size)


def bounded(path: pathlib.Path, read: typing.Callable[[int], bytes], size: int = 0) -> bytes:
    """What is read of a file, or a refusal of one that is too long."""
    see_length(path, size)
    data = read(MOST_HISTORY + 1)
    see_length(path, len(data))
    return data


def see_length(path: pathlib.Path, size: int) -> None:
    """Refuses a file that is too long."""
    if size > MOST_HISTORY:
        raise Refused(f"{path} has over {MOST_HISTORY // 1_000_000} MB, and is not read")


def write_as(name: str, path: pathlib.Path, data: bytes) -> None:
    """Gives a file these bytes, in one step; it is of this user alone."""
    with acting_as(name), closing(opened(path.parent)) as above:
        replace(above, path.name, data, OWNER_ALONE)


def write_as_desk(path: pathlib.Path, data: bytes) -> None:
    """The same of the user of the desks."""
    write_as(USER, path, data)
