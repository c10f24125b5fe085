"""What the office's application asks of the machine: by a file that holds a number and nothing
else, in a folder of the application. The answer is a file beside it, one object of JSON with the
number, and the result or an error.

The folder is another user's, so nothing in it is trusted: no link is followed, and of a request
digits alone are taken. A request that is begun is renamed, so that who asked can take back only
one that is not; it is removed once it is answered. Where the machine stops before that, it is done
again; where no answer can be written, it is removed too.
"""
import argparse
import contextlib
import json
import os
import re
import stat
import sys
import time
from collections.abc import Callable, Iterator

from register_files import Refused

from .files import AS_IT_IS, closing
from .programs import call, tool
from .registers import Register, add_name, known

FOLDER, BEGUN, DONE = "requests", ".begun", ".done"
NUMBER = re.compile(rb"([1-9][0-9]{0,8})\n?")
# bytes, more than an answer has
ROOM = 1 << 16
Result = dict[str, str]


class Wrong(Refused):
    """An error that the answer names."""

    def __init__(self, name: str, text: str) -> None:
        super().__init__(text)
        self.name = name


@contextlib.contextmanager
def opened(register: Register) -> Iterator[int]:
    """A descriptor of the folder of requests."""
    path = register.office / FOLDER
    try:
        folder = os.open(path, os.O_RDONLY | os.O_DIRECTORY | AS_IT_IS)
    except OSError as error:
        raise Refused(f"{path} cannot be opened: {error.strerror}") from error
    with closing(folder):
        yield folder


def number_of(folder: int, name: str) -> int:
    """The number of a request that is begun."""
    try:
        fd = os.open(name + BEGUN, os.O_RDONLY | AS_IT_IS, dir_fd=folder)
    except OSError as error:
        raise Wrong("NoFile", f"the request {name} is no file: {error.strerror}") from error
    with closing(fd):
        if not stat.S_ISREG(os.fstat(fd).st_mode):
            raise Wrong("NoFile", f"the request {name} is no file")
        found = NUMBER.fullmatch(os.read(fd, 64))
    if not found:
        raise Wrong("NoNumber", f"the request {name} is no number")
    return int(found[1])


def room(folder: int, name: str) -> int:
    """A descriptor of a new file of the folder, with the room that an answer can need."""
    with contextlib.suppress(FileNotFoundError):
        os.unlink(name, dir_fd=folder)
    fd = os.open(name, os.O_WRONLY | os.O_CREAT | os.O_EXCL | AS_IT_IS, 0o644, dir_fd=folder)
    try:
        # (whoever asked reads it, and the umask of a command is that of its owner alone)
        os.fchmod(fd, 0o644)
        os.posix_fallocate(fd, 0, ROOM)
    except BaseException:
        os.close(fd)
        os.unlink(name, dir_fd=folder)
        raise
    return fd


def put(folder: int, name: str, fd: int, text: str) -> None:
    """Writes a text into a file that has room for it, and gives it its name."""
    os.truncate(fd, os.pwrite(fd, text.encode(), 0))
    os.fsync(fd)
    os.rename(f".{name}", name, src_dir_fd=folder, dst_dir_fd=folder)
    os.fsync(folder)


def begin(folder: int, name: str) -> None:
    """Takes a request, which nobody takes back then. One that was begun before comes first."""
    if name + BEGUN in os.listdir(folder):
        return
    try:
        os.rename(name, name + BEGUN, src_dir_fd=folder, dst_dir_fd=folder)
    except FileNotFoundError as error:
        raise Refused(f"there is no request {name}") from error
    os.fsync(folder)


def handled(register: Register, name: str, work: Callable[[int], Result]) -> int:
    """Does what was asked, and answers. Returns the exit status. There is room for the answer
    before the work begins; where it cannot be given, the work is not done again for that."""
    with opened(register) as folder:
        begin(folder, name)
        try:
            with closing(room(folder, f".{name}{DONE}")) as fd:
                said = answer_of(folder, name, work)
                answer = json.dumps(said, sort_keys=True)
                put(folder, name + DONE, fd, f"{answer}\n")
        except OSError as error:
            forget(folder, name + BEGUN)
            raise Refused(f"the request {name} has no answer, and is not done again:"
                          f" {error.strerror}") from error
        except Exception:
            # (whoever kills it has it done again, and a fault of its own does not)
            forget(folder, name + BEGUN)
            raise
        forget(folder, name + BEGUN)
        print(answer, file=sys.stderr if "error" in said else sys.stdout)
        return 1 if "error" in said else 0


def command(name: str, work: Callable[[Register, int], Result]) -> tuple[
        Callable[[argparse.ArgumentParser], None], Callable[[argparse.Namespace], int]]:
    """The arguments and the work of a command that does what is asked by this name."""
    def main(given: argparse.Namespace) -> int:
        register = known(given.name)
        return handled(register, name, lambda number: work(register, number))

    return add_name, main


def answer_of(folder: int, name: str, work: Callable[[int], Result]) -> dict[str, str | int]:
    """Does what was asked: what came of it, with the number of the request."""
    number = 0
    try:
        number = number_of(folder, name)
        return {"number": number, **work(number)}
    except Wrong as error:
        return {"number": number, "error": error.name, "why": str(error)}
    except (OSError, Refused) as error:
        return {"number": number, "error": "NotDone", "why": str(error)}


def forget(folder: int, begun: str) -> None:
    """Removes a request that is answered. What is no file is put aside."""
    try:
        os.unlink(begun, dir_fd=folder)
    except IsADirectoryError:
        aside = f".{begun}-{time.time_ns()}"
        os.rename(begun, aside, src_dir_fd=folder, dst_dir_fd=folder)


def drop(register: Register, name: str) -> None:
    """Has nobody do a request any more, also one that is begun."""
    if os.path.lexists(register.office / FOLDER):
        with opened(register) as folder:
            for it in (name, name + BEGUN):
                with contextlib.suppress(FileNotFoundError):
                    forget(folder, it)


def unit_of(register: Register) -> str:
    """The unit that serves a register."""
    return f"admissions@{register.name}.service"


def stop(register: Register) -> None:
    """Stops the desk of a register, so that its file alone is the register."""
    call(tool("systemctl", "systemd"), "stop", unit_of(register))


def start(register: Register) -> None:
    """Starts it, also where it has given up. One that is masked, since it is closed for longer,
    stays closed."""
    call(tool("systemctl", "systemd"), "reset-failed", unit_of(register), may_fail=True)
    done = call(tool("systemctl", "systemd"), "start", unit_of(register), may_fail=True)
    print(done.stderr, end="", file=sys.stderr)


@contextlib.contextmanager
def stopped(register: Register) -> Iterator[None]:
    """The desk is stopped meanwhile, and started whatever happens; where this process is killed,
    its unit starts it.
    """
    try:
        stop(register)
        yield
    finally:
        start(register)
